"""The limits of `tcpserver`: how many programs run at once, how many for one address, and after how many connections it
ends.

The programs count themselves, in a table that they share (`server_child.c`).
"""
import collections
import contextlib
import os
import shutil
import socket
import threading
import time

from shared import failed_calls, log_forms, server_runs
from shared.clients import Pool
from shared.server_runs import counted, read_all

CONNECTIONS = 2000
CLIENTS = 100
# how long a client of many keeps its program, in seconds
HOLD = 0.02


class Clients(Pool):
    """Many clients at once: how many were served, and how many were closed without an answer."""

    def __init__(self, server, sources, most=CLIENTS):
        super().__init__(server, sources, most)
        self.lock = threading.Lock()
        self.served = self.closed = 0
        self.amiss = []

    def serve(self, source):
        answer = self.asked(source=source, hold=HOLD)
        with self.lock:
            self.served += answer == b"hi\n"
            self.closed += answer == b""
            if answer not in (b"hi\n", b""):
                self.amiss.append(answer)


def sources_of(number, few):
    """Addresses: every second one of a few, the others all different."""
    return ["127.0.9.%d" % (n // 2 % few + 1) if n % 2 else "127.1.%d.%d" % (n // 250, n % 250 + 1) for n in range(number)]


def fill(suite, server, sources):
    """A client from each of these addresses, all of them served at once."""
    clients = [server.connect(source) for source in sources]
    suite.expect("as many at once as may be", [client.recv(3) for client in clients], [b"hi\n"] * len(clients))
    return clients


def release(clients):
    """Lets the programs of these clients end."""
    for client in clients:
        with client:
            client.shutdown(socket.SHUT_WR)
            read_all(client)


def many_connections(suite):
    """Two thousand connections at `-c 40 -m 3`: never more than 40 programs at once, and never more than 3 for one address."""
    program, table = suite.child()
    with suite.start(["-v", "-c", "40", "-m", "3"], [program, table, "0"]) as server:
        first = fill(suite, server, ["127.0.9.%d" % (n // 3 + 1) for n in range(39)])
        suite.expect("a fourth from an address", server.ask(source="127.0.9.1"), b"")
        first += fill(suite, server, ["127.0.8.1"])
        clients = Clients(server, sources_of(CONNECTIONS, 7)).start()
        release(first)
        clients.finish()
        server.idle()
        running, most, most_of_one, ran = counted(table)
        suite.expect("what clients got besides", clients.amiss, [])
        suite.expect("clients served and closed", clients.served + clients.closed, CONNECTIONS)
        suite.expect("programs at once, and for one address", (most, most_of_one), (40, 3))
        suite.expect("programs that ran, and those still running", (ran, running), (clients.served + 40, 0))
        events = suite.audit("two thousand connections", server, 3)
        suite.expect("served and closed by the log", (events.admitted, events.full), (clients.served + 40, clients.closed + 1))


class Enders(Pool):
    """Clients each of which has its program end in a way of its own. Of each: the lines that a log has of it, as far as the client can know them."""

    def __init__(self, server, sources, most=CLIENTS):
        super().__init__(server, list(enumerate(sources)), most)
        self.lock = threading.Lock()
        self.lives, self.amiss = [], []

    def serve(self, task):
        number, source = task
        end = "signal" if number % 11 == 10 else str(number % 10)
        try:
            port, answer = self.server.talk(end.encode() + b"\n", source, hold=HOLD)
        except OSError as fault:
            self.amiss.append(repr(fault))
            return
        life = "pid from %s" % source, "ok :127.0.0.1:%d :%s::%d" % (self.server.port, source, port)
        if answer:
            life += "runs process %d" % int(answer), apart(log_forms.end(0, end))[1]
        with self.lock:
            self.lives.append(life)


def apart(line):
    """The serial number in a line, and the line without it."""
    word, serial, *rest = line.split(" ")
    return serial, " ".join([word] + rest)


def lives_in(lines):
    """The lines of each connection in their order, by its serial number, without that number."""
    lives = {}
    for line in lines:
        if line.startswith(("pid ", "ok ", "runs ", "end ", "retired ", "start ")):
            serial, rest = apart(line)
            lives[int(serial)] = lives.get(int(serial), ()) + (rest,)
    return lives


def left_of(some, others):
    """Those of some that are not among others, as often as they are not."""
    return sorted((collections.Counter(some) - collections.Counter(others)).elements())


def many_ends(suite):
    """Two thousand connections at `-c 40 -m 3` that end in many ways: by a status or a signal that the client chose, without a program, and with a place
    that is given up. The log has one life of each, with the process and the end that its client knows of."""
    run = failed_calls.Library(suite.folder).run("waitpid", "ECHILD", 100, 900, 100)
    for first, error in ((30, "ENOENT"), (60, "EACCES"), (90, "ENOMEM")):
        run.also("posix_spawn", error, first, step=90)
    # (one that is pumped has ended when it is waited for, so its end is the same after a wait that failed and a kill)
    if not suite.handed:
        run.also("waitpid", "EIO", 50, step=100)
    program = [shutil.which("sh"), "-c", "echo $$; read end; test $end = signal && kill -9 $$; exit $end"]
    with suite.start(["-v", "-c", "40", "-m", "3"], program, command=suite.by_name(), env=dict(os.environ, **run.environment)) as server:
        clients = Enders(server, sources_of(CONNECTIONS, 7)).start().finish()
        server_runs.wait_until("the last end", lambda: server.live() == 9, moves=server.written)
        events = suite.audit("many ends", server, 3)
        lives = lives_in(server.all_lines())
    suite.expect("what clients got besides", (clients.amiss, len(clients.lives)), ([], CONNECTIONS))
    suite.expect("serial numbers in their order", list(lives), list(range(1, events.admitted + 1)))
    ran, others = ([life for life in lives.values() if life[2].startswith("runs ") == runs] for runs in (True, False))
    served, closed = ([life for life in clients.lives if len(life) == length] for length in (4, 2))
    given_up = left_of(ran, served)
    suite.expect("ends that are not those that clients chose", given_up, [life[:3] + ("retired",) for life in left_of(served, ran)])
    suite.expect("places that are given up", len(given_up), 9)
    suite.expect("lives without a program", {life[2:] for life in others}, {("start not found",), ("start refused",), ("start out of memory",)})
    suite.expect("those whose clients got something", left_of([life[:2] for life in others], closed), [])
    suite.expect("clients without a program", len(closed), len(others) + events.full)


def many_connections_of_all(suite):
    """The same without -m."""
    program, table = suite.child()
    number = CONNECTIONS // 2
    with suite.start(["-v", "-c", "12"] + server_runs.QUIET, [program, table, "0"]) as server:
        first = fill(suite, server, ["127.0.9.1"] * 12)
        clients = Clients(server, sources_of(number, 3)).start()
        release(first)
        clients.finish()
        server.idle()
        suite.expect("without -m", (clients.served, clients.closed, clients.amiss), (number, 0, []))
        suite.expect("without -m: running, most, most for one address, all", counted(table), (0, 12, 12, number + 12))
        suite.audit("without -m", server)


def one_after_another(suite):
    """Under `-c 1` a second client waits until the first one's program ended."""
    with suite.start(["-v", "-c", "1"] + server_runs.QUIET, ["sh", "-c", "echo hi; read a; echo $a"]) as server:
        first, second = server.connect(), server.connect()
        suite.expect("the first", first.recv(100), b"hi\n")
        second.settimeout(0.4)
        try:
            suite.holds("the second waits", False, second.recv(100))
        except TimeoutError:
            suite.holds("the second waits", True)
        second.settimeout(server_runs.WAIT)
        first.sendall(b"a\n")
        suite.expect("the end of the first", read_all(first), b"a\n")
        suite.expect("then the second", second.recv(100), b"hi\n")
        second.sendall(b"b\n")
        suite.expect("the end of the second", read_all(second), b"b\n")
        first.close()
        second.close()
        server.idle()
        suite.audit("one after another", server)
    program, table = suite.child()
    with suite.start(["-c", "1"] + server_runs.QUIET, [program, table, "0"]) as server:
        clients = Clients(server, sources_of(100, 3), 20).start().finish()
        suite.expect("100 one after another", (clients.served, counted(table)[1], counted(table)[3]), (100, 1, 100))


def two_at_once(suite):
    """Two clients each read a line before either sends one, so both programs live at once."""
    with suite.start(["-v", "-c", "2", "-k", "2"], ["sh", "-c", "echo hi; read a"]) as server, server.connect() as first, server.connect() as second:
        suite.expect("two clients at once", (first.recv(100), second.recv(100)), (b"hi\n", b"hi\n"))
        first.sendall(b"\n")
        second.sendall(b"\n")
        suite.expect("the end after two", server.end(), 0)
        ends = sorted(line for line in server.lines() if line.startswith("end "))
        suite.expect("both ends", (ends, server.lines()[-1]), ([log_forms.end(1), log_forms.end(2)], log_forms.status(0, 2)))
        suite.audit("two clients at once", server)


def gate(suite):
    """The first program ends only once a second one was started: a server that waits for the first one alone never ends."""
    mark = suite.path("gate")
    waits = "n=0; until test -e '%s/open' || test $n = 20000; do sleep 0.01; n=$((n+1)); done" % mark
    script = "if mkdir '%s' 2>/dev/null; then %s; else : > '%s/open'; fi; test -e '%s/open'" % (mark, waits, mark, mark)
    with suite.start(["-v", "-c", "2"] + server_runs.QUIET, ["sh", "-c", script]) as server:
        first = server.connect()
        server_runs.wait_until("the first program", lambda: os.path.isdir(mark))
        suite.expect("the second of two", server.ask(), b"")
        suite.expect("the first of two", read_all(first), b"")
        first.close()
        server.idle()
        ends = sorted(line.split()[3] for line in server.lines() if line.startswith("end "))
        suite.expect("both ends at the gate", ends, ["0", "0"])
        suite.audit("the gate", server)


def counts(suite):
    """`-k N` ends the server with exit code 0 after N connections, once the last program ended."""
    deny = suite.install("127.0.0.2:deny\n:allow\n")
    for number in (1, 2, 7):
        with suite.start(["-v", "-k", str(number)], ["echo", "hi"]) as server:
            got = [server.ask() for _ in range(number)]
            suite.expect("-k %d" % number, (got, server.end(), server.live()), ([b"hi\n"] * number, 0, 0))
            refused = refuses(server)
            suite.holds("nothing is listened to after -k %d" % number, refused)
            suite.audit("-k %d" % number, server)
    with suite.start(["-v", "-k", "2", "-x", deny], ["echo", "hi"]) as server:
        got = [server.ask(source="127.0.0.2"), server.ask()]
        suite.expect("a denied connection counts", (got, server.end()), ([b"", b"hi\n"], 0))
        suite.audit("-k with a denied connection", server)
    with suite.start(["-v", "-k", "2"], ["/nonexistent"]) as server:
        suite.expect("a program that can't be started counts", ([server.ask(), server.ask()], server.end()), ([b"", b""], 0))
    with suite.start(["-k", "1"], ["sh", "-c", "echo hi; read a; sleep 0.3; echo bye"]) as server, server.connect() as client:
        client.recv(3)
        time.sleep(0.3)
        suite.holds("the server waits for its last program", server.process.poll() is None)
        client.sendall(b"\n")
        suite.expect("the last program after -k", (read_all(client), server.end()), (b"bye\n", 0))


def refuses(server):
    try:
        server.connect().close()
    except ConnectionRefusedError:
        return True
    return False


def counts_in_a_crowd(suite):
    """`-k N` lets in exactly N of a crowd that comes at once, and stops listening then, though programs of it still run."""
    waits = ["sh", "-c", "echo hi; read a"]
    for number in (1, 3, 17):
        with suite.start(["-v", "-k", str(number)], waits) as server, contextlib.ExitStack() as clients:
            came = [clients.enter_context(server.try_to_connect()) for _ in range(40)]
            served = [client for client in came if greets(client)]
            suite.expect("served of 40 by -k %d" % number, len(served), number)
            suite.holds("nothing is listened to while %d programs run" % number, server.process.poll() is None and refuses(server))
            for client in served:
                client.sendall(b"\n")
            suite.expect("the end after a crowd and -k %d" % number, (server.end(), server.live()), (0, 0))
            suite.audit("a crowd and -k %d" % number, server)


def greets(client):
    """Whether a client is served: others are reset, or came once nobody listened any more."""
    try:
        return client.recv(3) == b"hi\n"
    except OSError:
        return False


def counts_of_full_addresses(suite):
    """A connection that its address has no room for does not count for -k, and has no serial."""
    with suite.start(["-v", "-c", "4", "-m", "1", "-k", "2"], ["sh", "-c", "echo hi; read a"]) as server, server.connect() as first:
        first.recv(3)
        for _ in range(5):
            suite.expect("a second one from the address", server.ask(), b"")
        suite.expect("the second that counts", server.ask(b"\n", source="127.0.0.2"), b"hi\n")
        first.sendall(b"\n")
        suite.expect("the end after two that count", server.end(), 0)
        events = suite.audit("full addresses under -k", server, 1)
        suite.expect("two were let in, five were not", (events.admitted, events.full), (2, 5))


def full_before_the_address(suite):
    """Where the server is full a client waits, whatever its address has."""
    with suite.start(["-v", "-c", "1", "-m", "1"], ["sh", "-c", "echo hi; read a"]) as server:
        first, second = server.connect(), server.connect()
        first.recv(3)
        time.sleep(0.2)
        first.sendall(b"\n")
        read_all(first)
        suite.expect("the second is not closed", second.recv(100), b"hi\n")
        second.close()
        first.close()
        server.idle()
        suite.holds("no address was full", not any("full" in line for line in server.lines()), server.log())
        suite.audit("full before the address", server, 1)


def places_come_back(suite):
    """However a connection ends, its place comes back, and its address's: after each way a full round is served."""
    deny = suite.install("127.0.0.2:deny\n127.0.0.3:allow,WAY=\"kill\"\n:allow\n")
    program = ["sh", "-c", 'echo hi; test "$WAY" = kill && kill -9 $$; read a']
    with suite.start(["-v", "-c", "3", "-m", "2", "-x", deny], program) as server:
        for source in ("127.0.0.2", "127.0.0.3", "127.0.0.4", "127.0.0.2", "127.0.0.3"):
            for _ in range(7):
                server.ask(source=source)
                server.idle()
        clients = [server.connect("127.0.0.4"), server.connect("127.0.0.4"), server.connect("127.0.0.5")]
        suite.expect("a full round", [client.recv(3) for client in clients], [b"hi\n"] * 3)
        for client in clients:
            server_runs.reset(client)
        server.idle()
        suite.audit("places come back", server, 2)


def many_at_once(suite):
    """Four hundred programs at once."""
    program, table = suite.child()
    with suite.start(["-v", "-c", "400"] + server_runs.QUIET, [program, table, "0"]) as server:
        clients = [server.connect("127.2.%d.%d" % (n // 200, n % 200 + 1)) for n in range(400)]
        suite.expect("400 clients", [client.recv(3) for client in clients], [b"hi\n"] * 400)
        suite.expect("400 programs at once", counted(table)[:2], (400, 400))
        suite.expect("400 ends", server_runs.finish(clients), [b""] * 400)
        server.idle()
        events = suite.audit("400 at once", server)
        if events:
            suite.expect("400 at once by the log", events.most, 400)


CHECKS = [
    two_at_once, one_after_another, gate, counts, counts_in_a_crowd, counts_of_full_addresses, full_before_the_address, places_come_back, many_connections,
    many_ends, many_connections_of_all, many_at_once,
]
COMMON = [one_after_another, gate, many_connections_of_all, many_at_once]
HANDED = CHECKS
