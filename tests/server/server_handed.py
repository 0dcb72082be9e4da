"""Who holds a connection under `tcpserver`: the program itself (`-s`), or the server, which passes the bytes on (`-S`).

A program (`server_given.c`) prints what it got: each open descriptor, its kind and its flags; for a socket also both
addresses and its options.
"""
import os
import re
import resource
import shutil
import signal
import socket
import time

from shared import failed_calls, log_forms, server_runs
from shared.checks import needs_proved
from shared.server_runs import read_all

OVER, PUMPED = "handed over", "pumped"
# of 40 connections at once, in bytes, as the number of `softlimit -m`
LITTLE_MEMORY = 30000000
FEW_DESCRIPTORS = 256
TALK = ["sh", "-c", "echo hi; while read line; do echo got $line; done; echo bye"]


class Given:
    """What the program of a connection was given: by descriptor its kind, its file, whether it blocks, and what was told of a socket."""

    def __init__(self, client):
        told = b""
        while not told.endswith(b"\n.\n"):
            piece = client.recv(65536)
            if not piece:
                raise server_runs.Amiss("it was told %r" % told)
            # a wrapper may put carriage returns
            told = (told + piece).replace(b"\r", b"")
        self.descriptors = {}
        for line in told.decode().splitlines()[:-1]:
            words = line.split(" ")
            self.descriptors[int(words[0])] = (words[1], words[2], words[3], dict(zip(words[4::2], words[5::2])))

    def kinds(self):
        """The kinds of all descriptors, in order."""
        return [self.descriptors[number][0] for number in sorted(self.descriptors)]

    def mode(self):
        """Whether the connection was handed over or is pumped; else the kinds."""
        kinds = self.kinds()
        return {("socket", "socket", "file"): OVER, ("pipe", "pipe", "file"): PUMPED}.get(tuple(kinds), kinds)


def given(suite):
    return [suite.compiled("server/server_given.c")]


def mode_under(suite, options, command=None):
    """How a program gets its connection under these options."""
    with suite.start(options, given(suite), command=command) as server, server.connect() as client:
        return Given(client).mode()


# the words, and how the program gets its connection under them; where nothing is said, the name decides
SPELLINGS = [
    ([], None), (["-v"], None), (["-s"], OVER), (["-S"], PUMPED), (["-s", "-S"], PUMPED), (["-S", "-s"], OVER), (["-sS"], PUMPED),
    (["-Ss"], OVER), (["-vs"], OVER), (["-Sv"], PUMPED), (["-s", "-v", "-S", "-s"], OVER), (["-sc5"], OVER), (["-Sc", "5"], PUMPED),
    (["-s", "--"], OVER), (["-sDd", "-o"], OVER), (["-l", "-S"], None), (["-l", "-s"], None), (["-l-s", "-S"], PUMPED),
    (["-w", "recordio"], PUMPED), (["-w", "addcr"], PUMPED), (["-wrecordio,fixcrio"], PUMPED), (["-w", "delcr", "-S"], PUMPED),
    (["-S", "-w", "addcr"], PUMPED), (["-s", "-S", "-w", "addcr"], PUMPED), (["-s", "-w", "addcr", "-S"], PUMPED), (["-w", "addcr", "-sS"], PUMPED),
]


def spellings(suite):
    """Each way to say who holds the connection, by the name `tcpserver` and as the first word of `ucspi`."""
    link, other = suite.linked(), suite.linked("other")
    for options, wanted in SPELLINGS:
        suite.expect("ucspi tcpserver %r" % options, mode_under(suite, options), wanted or PUMPED)
        suite.expect("tcpserver %r" % options, mode_under(suite, options, [link]), wanted or OVER)
    suite.expect("a link of another name", mode_under(suite, [], [other, "tcpserver"]), PUMPED)
    suite.expect("a link of another name, and -s", mode_under(suite, ["-s"], [other, "tcpserver"]), OVER)
    how = {"env": dict(os.environ, PATH=suite.folder + ":" + os.environ["PATH"])}
    with suite.start([], given(suite), command=["tcpserver"], **how) as server, server.connect() as client:
        suite.expect("tcpserver along the path", Given(client).mode(), OVER)
    with suite.start([], given(suite), command=["./tcpserver"], executable=suite.program) as server, server.connect() as client:
        suite.expect("word 0 by itself", Given(client).mode(), OVER)


def wrappers(suite):
    """A connection that is handed over has no wrappers: `-w` and a last `-s` are refused, where wrappers are looked at."""
    link, serve = suite.linked(), ["127.0.0.1", "0", "true"]
    words = [
        ["-s", "-w", "addcr"], ["-w", "addcr", "-s"], ["-w", "addcr", "-S", "-s"], ["-S", "-s", "-w", "recordio"], ["-sw", "recordio"],
        ["-w", "recordio", "-Ss"], ["-s", "-w", "x"], ["-s", "-w", ""],
    ]
    def refused(name, words, line):
        # (of what stands behind the line the group `messages` tells)
        code, output, errors = suite.run(words)
        suite.expect(name, (code, output, errors.partition(b"\n")[0]), (100, b"", b"tcpserver: " + line))

    for command in (suite.command, [link]):
        before, suite.command = suite.command, command
        for options in words:
            refused("words %r" % options, options + serve, b"bad wrappers")
        options = ["-s", "-w", "addcr"]
        refused("no program, -s and -w", options + serve[:2], b"usage: tcpserver [options] host port prog [args]")
        refused("a bad number, -s and -w", options + ["-c", "0"] + serve, b"option -c has a bad number")
        refused("-s, -w and no host table", options + ["-N", "absent"] + serve, b"bad wrappers")
        refused("-s and a letter that is none", ["-sz"] + serve, b"unknown option -z")
        suite.command = before


def expect_connection(suite, name, told, server, client):
    """The program of this client has its connection, twice and plain, the server's log, and nothing else."""
    address = "%s:%d"
    wanted = {"peer": address % client.getsockname(), "local": address % client.getpeername(), "nodelay": "0", "keepalive": "0", "linger": "0"}
    wanted.update(receiving="0", sending="0")
    suite.expect(name + ": its descriptors", sorted(told.descriptors), [0, 1, 2])
    for number in (0, 1):
        kind, _, blocks, options = told.descriptors[number]
        suite.expect("%s: descriptor %d" % (name, number), (kind, blocks, options), ("socket", "blocking", wanted))
    suite.expect(name + ": one socket twice", told.descriptors[0][1], told.descriptors[1][1])
    log = os.stat(server.path)
    suite.expect(name + ": descriptor 2", told.descriptors[2][:2], ("file", "%d:%d" % (log.st_dev, log.st_ino)))


def connection_itself(suite):
    """A program to which the connection is handed over has it as descriptors 0 and 1, and the server's own descriptor 2, whoever else is served."""
    with suite.start(["-v"] + server_runs.QUIET, given(suite)) as server:
        with server.connect() as first, server.connect("127.0.0.7") as second:
            told = [(client, Given(client)) for client in (first, second)]
            for number, (client, one) in enumerate(told, 1):
                expect_connection(suite, "program %d" % number, one, server, client)
                client.sendall(b"x" * number)
                suite.expect("its echo", client.recv(9), b"x" * number)
        server.idle()
        suite.audit("connections themselves", server)
    with suite.start(["-B", "hello\r\n"] + server_runs.QUIET, given(suite), host="0") as server, server.connect(host="127.0.0.3") as client:
        suite.expect("a banner", client.recv(7), b"hello\r\n")
        expect_connection(suite, "behind a banner, at any address", Given(client), server, client)


def pipes(suite):
    """A program whose connection is pumped has two pipes, the server's own descriptor 2, and nothing else."""
    with suite.start(["-v"], given(suite)) as server, server.connect() as first, server.connect() as second:
        for client in (first, second):
            told = Given(client)
            suite.expect("a pumped program", (sorted(told.descriptors), told.kinds()), ([0, 1, 2], ["pipe", "pipe", "file"]))
            suite.expect("its pipes block", [told.descriptors[number][2] for number in (0, 1)], ["blocking", "blocking"])
            suite.holds("they are two", told.descriptors[0][1] != told.descriptors[1][1])
            log = os.stat(server.path)
            suite.expect("its descriptor 2", told.descriptors[2][1], "%d:%d" % (log.st_dev, log.st_ino))


def delays(suite):
    """`-D` sets TCP_NODELAY on the connection, `-d` does not; the last counts, and neither is as `-d`."""
    for options, wanted in (([], "0"), (["-D"], "1"), (["-d"], "0"), (["-D", "-d"], "0"), (["-d", "-D"], "1"), (["-dD"], "1"), (["-Dd"], "0")):
        with suite.start(options + server_runs.QUIET, given(suite)) as server, server.connect() as client:
            told = Given(client)
            suite.expect("TCP_NODELAY under %r" % options, [told.descriptors[n][3].get("nodelay") for n in (0, 1)], [wanted, wanted])


def time_of_pairs(suite, options):
    """The seconds that twenty replies of two pieces each take. The client's system acknowledges late, as it does over a network."""
    with suite.start(options, [suite.compiled("server/server_given.c"), "pairs"]) as server, server.connect() as client:
        began, got = time.monotonic(), []
        for _ in range(20):
            # off for what comes next, as long as nothing turns it on again
            client.setsockopt(socket.IPPROTO_TCP, socket.TCP_QUICKACK, 0)
            client.sendall(b"?")
            answer = b""
            while len(answer) < 2 and (piece := client.recv(2)):
                client.setsockopt(socket.IPPROTO_TCP, socket.TCP_QUICKACK, 0)
                answer += piece
            got.append(answer)
        suite.expect("replies of two pieces under %r" % options, got, [b"ab"] * 20)
        return time.monotonic() - began


def small_replies(suite):
    """Twenty replies of two pieces each take less than a quarter of the time under `-D`: the second piece waits for no acknowledgement."""
    late = min(time_of_pairs(suite, ["-d"] + server_runs.QUIET) for _ in range(2))
    prompt = late
    # (where the machine is busy one time may have taken long: the shortest of many counts)
    for _ in range(20):
        prompt = min(prompt, time_of_pairs(suite, ["-D"] + server_runs.QUIET))
        if prompt * 4 < late:
            break
    suite.holds("small replies, with and without a delay", prompt * 4 < late, (late, prompt))


def left_behind(suite):
    """A process that a program leaves behind holds the connection, and no place: at `-c 1` the next client is served at once."""
    with suite.start(["-v", "-c", "1"] + server_runs.QUIET, ["sh", "-c", "exec 3<&0; (read a <&3; echo late $a) & echo hi; exit 3"]) as server:
        clients = [server.connect() for _ in range(4)]
        suite.expect("each is served, though none has ended", [client.recv(3) for client in clients], [b"hi\n"] * 4)
        server.idle()
        if not suite.original:
            suite.expect("the places of programs that left others behind", server.lines().count(log_forms.status(0, 1)), 5)
        for number, client in enumerate(clients):
            client.sendall(b"%d\n" % number)
            suite.expect("what was left behind still answers", read_all(client), b"late %d\n" % number)
            client.close()
        suite.audit("what is left behind", server)


def closed_early(suite):
    """A connection ends when its last holder closes it, though the program runs on; its place is free when the program ends."""
    # it ends once somebody opens this
    gate = suite.path("early-gate")
    os.mkfifo(gate)
    with suite.start(["-v", "-c", "2"] + server_runs.QUIET, ["sh", "-c", "echo hi; exec <&- >&-; read a < %s; exit 4" % gate]) as server:
        suite.expect("a program that closes its connection", server.ask(), b"hi\n")
        server_runs.wait_until("the program alone", lambda: server.live() == 1)
        time.sleep(0.3)
        suite.expect("its place is kept", server.live(), 1)
        os.close(os.open(gate, os.O_WRONLY))
        server.idle()
        suite.holds("its exit code", suite.original or log_forms.end(1, 4) in server.lines(), server.lines())
        suite.audit("a program that closes its connection", server)


def not_started(suite):
    """A connection whose program can't be started, or that is denied, is closed, behind its banner."""
    plain = suite.path("plain-file", "x")
    for program, line in (("/nonexistent", log_forms.start("N", "not found")), (plain, log_forms.start("N", "refused"))):
        with suite.start(["-v", "-B", "hello", "-c", "1"] + server_runs.QUIET, [program]) as server:
            suite.expect("clients of %s" % program, [server.ask() for _ in range(4)], [b"hello"] * 4)
            server.idle()
            told = [entry for entry in server.lines() if entry.startswith("start ")]
            wanted = [line.replace("N", str(number)) for number in range(1, 5)]
            suite.holds("the lines of %s" % program, suite.original or told == wanted, told)
            suite.audit("no %s" % program, server)


def talk(suite, name, client, line):
    client.sendall(b"%s\n" % line)
    suite.expect(name, client.recv(100), b"got %s\n" % line)


def sessions(suite):
    """A session goes on when its server ends, by whatever signal, and while another one serves at the same port."""
    for number in (signal.SIGTERM, signal.SIGKILL, signal.SIGINT, signal.SIGHUP):
        with suite.start(["-v"] + server_runs.QUIET, TALK) as server, server.connect() as client:
            suite.expect("a session begins", client.recv(3), b"hi\n")
            talk(suite, "before signal %d" % number, client, b"one")
            server.process.send_signal(number)
            code = server.process.wait(server_runs.WAIT)
            suite.holds("the end by signal %d" % number, code == -number or (suite.original and code == 0), code)
            talk(suite, "after signal %d" % number, client, b"two")
            with suite.start(["-v"] + server_runs.QUIET, TALK, port=server.port) as after, after.connect() as other:
                suite.expect("another server at the same port", (after.port, other.recv(3)), (server.port, b"hi\n"))
                talk(suite, "a session beside another server", client, b"three")
                talk(suite, "a session of the other server", other, b"four")
                client.shutdown(socket.SHUT_WR)
                suite.expect("the end of the session", read_all(client), b"bye\n")
                other.shutdown(socket.SHUT_WR)
                suite.expect("the end of the other session", read_all(other), b"bye\n")
                after.idle()
                suite.audit("a server after signal %d" % number, after)


def ends_by_itself(suite):
    """Sessions go on when the server is to end for faults of accepting; it has given its port back then."""
    run = failed_calls.Library(suite.folder).run_while("accept4", "EIO")
    with suite.start(["-v"], TALK, env=dict(os.environ, **run.environment)) as server, server.connect() as first:
        suite.expect("before faults of accepting", first.recv(3), b"hi\n")
        run.turn(True)
        # the server may wait in `accept` already, which then succeeds; the third is never taken, and comes too late where the server was quick
        with server.try_to_connect() as second, server.try_to_connect():
            server_runs.wait_until("the port after faults of accepting", lambda: refuses(server.port))
            talk(suite, "a session after faults of accepting", first, b"one")
            if len(server.lines()) > 5:
                suite.expect("the last session before them", second.recv(3), b"hi\n")
                talk(suite, "that session after them", second, b"two")
        first.shutdown(socket.SHUT_WR)
        suite.expect("the end of a session after them", read_all(first), b"bye\n")
        suite.expect("the end for faults of accepting", (server.end(), server.lines()[-1]), (111, "accept fault"))
        suite.audit("faults of accepting", server)
    run.end()


def idle_costs(suite):
    """An idle connection that was handed over costs the server no descriptor, and one thread at most."""
    with suite.start(["-v", "-c", "70"] + server_runs.QUIET, TALK) as server:
        server.ask()
        server.idle()
        before = server.descriptors(), server.threads()
        clients = [server.connect() for _ in range(60)]
        suite.expect("60 sessions", [client.recv(3) for client in clients], [b"hi\n"] * 60)
        # (a program may greet its client before the server has closed what it had of the connection)
        server_runs.wait_until("descriptors beside 60 sessions", lambda: server.descriptors() <= before[0])
        after = server.descriptors(), server.threads()
        suite.expect("descriptors beside 60 sessions", after[0], before[0])
        # one for each, one for the next, and those that begin connections: all sixty at worst, of which 32 go on themselves
        suite.holds("threads beside 60 sessions", after[1] <= before[1] + 61 + 28, (before, after))
        used = server.processor_time()
        time.sleep(0.5)
        suite.holds("time beside 60 idle sessions", server.processor_time() - used < 0.05)
        for client in clients:
            client.close()
        server.idle()
        suite.audit("60 sessions", server)


@needs_proved(6)
def little_memory(suite):
    """Forty connections at once where memory is limited as `softlimit -m 30000000` does it."""
    limits = ["prlimit"] + ["--%s=%d" % (kind, LITTLE_MEMORY) for kind in ("data", "stack", "as")]
    with suite.start(["-v", "-c", "40"] + server_runs.QUIET, [shutil.which("cat")], command=limits + suite.command) as server:
        server.ask()
        server.idle()
        for _ in range(3):
            clients = [server.connect() for _ in range(40)]
            for client in clients:
                client.sendall(b"here\n")
            suite.expect("40 under a limit of memory", [client.recv(5) for client in clients], [b"here\n"] * 40)
            for client in clients:
                client.close()
            server.idle()
        suite.audit("40 under a limit of memory", server)


def few_descriptors(suite):
    """Five hundred connections at once where the server has 256 descriptors."""
    program, table = suite.child()
    how = {"preexec_fn": lambda: resource.setrlimit(resource.RLIMIT_NOFILE, (FEW_DESCRIPTORS, FEW_DESCRIPTORS))}
    # of this process, which has the clients' ends
    before = resource.getrlimit(resource.RLIMIT_NOFILE)
    resource.setrlimit(resource.RLIMIT_NOFILE, (min(4096, before[1]), before[1]))
    with suite.start(["-v", "-c", "500"] + server_runs.QUIET, [program, table, "0"], **how) as server:
        clients, answers = [], []
        for _ in range(500):
            clients.append(server.connect())
            answers.append(clients[-1].recv(3))
        suite.expect("500 by 256 descriptors", answers, [b"hi\n"] * 500)
        suite.expect("they run at once", server_runs.counted(table)[0], 500)
        for client in clients:
            client.shutdown(socket.SHUT_WR)
        suite.expect("their ends", {read_all(client) for client in clients}, {b""})
        for client in clients:
            client.close()
        server.idle()
        suite.audit("500 by 256 descriptors", server)
    resource.setrlimit(resource.RLIMIT_NOFILE, before)


def refuses(port):
    try:
        socket.create_connection(("127.0.0.1", port), server_runs.WAIT).close()
    except ConnectionRefusedError:
        return True
    return False


def port_comes_back(suite):
    """The count of `-k` reached, the port is free at once, though programs still run; the server waits for them."""
    for options in (["-s"], ["-S"], ["-s", "-B", "hello\n"], ["-S", "-w", "recordio"]):
        with suite.start(options + ["-v", "-k", "2"], TALK) as server, server.connect() as first:
            expected = b"hello\nhi\n" if "-B" in options else b"hi\n"
            got = b""
            while len(got) < len(expected) and (piece := first.recv(100)):
                got += piece
            suite.expect("the first under %r" % options, got, expected)
            suite.holds("the port before the count", not refuses_other(server.port))
            with server.connect() as second:
                second.recv(1)
                server_runs.wait_until("the port under %r" % options, lambda: refuses(server.port), 5)
                suite.holds("the server waits under %r" % options, server.process.poll() is None)
                with suite.start(["-v"], ["echo", "next"], port=server.port) as after:
                    suite.expect("another server at the port under %r" % options, (after.port, after.ask()), (server.port, b"next\n"))
                talk(suite, "a session after the count", first, b"one")
                first.shutdown(socket.SHUT_WR)
                suite.expect("the end of the first", read_all(first), b"bye\n")
            suite.expect("the end under %r" % options, server.end(), 0)
            suite.audit("the count under %r" % options, server)


def refuses_other(port):
    """Whether nobody else may listen at this port: tried by a second server."""
    with socket.socket() as other:
        other.setsockopt(socket.SOL_SOCKET, socket.SO_REUSEADDR, 1)
        try:
            other.bind(("127.0.0.1", port))
            other.listen(1)
        except OSError:
            return False
    return True


def lines(suite):
    """The lines of a handed connection are those of a pumped one."""
    path = suite.install("127.0.0.2:deny\n:allow\n")
    logs = []
    for option in ("-s", "-S"):
        with suite.start([option, "-v", "-c", "2", "-m", "1", "-k", "4", "-x", path, "-l", "me"], ["sh", "-c", "read a; exit $a"]) as server:
            for source, text in (("127.0.0.1", b"0\n"), ("127.0.0.2", b""), ("127.0.0.3", b"7\n"), ("127.0.0.1", b"255\n")):
                server.ask(text, source=source)
                server.idle()
            suite.expect("the end under %s" % option, server.end(), 0)
            logs.append([re.sub(r":\d+( |$)", r":P\1", line) for line in server.lines()])
            suite.audit("the lines under %s" % option, server)
    suite.expect("the lines under -s, and under -S", logs[0], logs[1])
    suite.expect("the ends", [line for line in logs[0] if line.startswith("end ")], [log_forms.end(1), log_forms.end(3, 7), log_forms.end(4, 255)])


CHECKS = [spellings, wrappers, pipes, small_replies, port_comes_back, lines]
COMMON = [connection_itself, delays, small_replies, left_behind, closed_early, not_started, sessions, idle_costs, little_memory, few_descriptors]
HANDED_OVER = [ends_by_itself]
HANDED = COMMON + HANDED_OVER
