"""The log of `tcpserver`: every line under -v, -Q and -q, which lines stand together, and the log read as a list of events."""
import os
import re
import signal
import socket
import subprocess
import sys
import tempfile
import threading
import time

import log_events
from shared import compiled_files, failed_calls, log_forms, server_runs
from shared.checks import SCRIPTS
from shared.server_runs import read_all

# what the log of a single connection begins with, and what it ends with; but for the end of a program the bytes are spelled here
COMES = ["status: 0/1", "status: 1/1", "pid 1 from {ip}"]
OK = COMES + ["ok 1 :127.0.0.1:{port} :{ip}::{peer}"]
DENY = COMES + ["deny 1 :127.0.0.1:{port} :{ip}::{peer}"]
FREE = ["status: 0/1"]
ENDED = [log_forms.end(1)]
# how long none has come, in seconds, where no more of a burst will come
NONE_COMES = 20
# how many denied connections a long log has, and in how many seconds of the processor it is read at most: it takes one, and took a minute
MANY = 20000
READ_TIME = 10


def one_rule():
    """The compiled file of the text `:deny`."""
    return compiled_files.ONE_RULE_POINTERS + compiled_files.ONE_RULE


def single(suite, name, options, program, wanted, source="127.0.0.1", code=0, **how):
    """A server of one connection: its log, line by line."""
    with suite.start(["-v", "-c", "1", "-k", "1"] + options, program, **how) as server:
        peer, _ = server.talk(source=source)
        ended = server.end()
        lines = [line.format(ip=source, port=server.port, peer=peer) for line in wanted]
        suite.expect(name, (ended, server.lines()), (code, lines))
        suite.audit(name, server)


def ends(suite):
    for program, status in (
        (["true"], "0"), (["false"], "1"), (["sh", "-c", "exit 7"], "7"), (["sh", "-c", "exit 255"], "255"),
        (["sh", "-c", "echo hi; cat; exit 100"], "100"), (["sh", "-c", "kill -9 $$"], "signal"),
        (["sh", "-c", "echo hi; kill -15 $$"], "signal"), (["sh", "-c", "kill -SEGV $$"], "signal"),
        (["sh", "-c", "kill -ABRT $$"], "signal"), (["sh", "-c", "exec <&- >&-; sleep 0.2; exit 3"], "3"), (["sh", "-c", "exit 137"], "137"),
    ):
        single(suite, "the end of %r" % program, [], program, OK + [log_forms.end(1, status)] + FREE)
    single(suite, "the end of one from another address", [], ["true"], OK + ENDED + FREE, "127.200.1.255")


def start_faults(suite):
    plain = suite.path("plain-file", "#!/bin/sh\n")
    os.chmod(plain, 0o644)
    empty = suite.path("empty-program", "")
    os.chmod(empty, 0o755)
    for program, fault in (
        ("/nonexistent/program", "not found"), ("no-such-program-here", "not found"), (suite.path("absent"), "not found"),
        (plain, "refused"), ("/", "refused"), (suite.folder, "refused"), (empty, "failed"),
    ):
        single(suite, "the start of %r" % program, [], [program, "x"], OK + ["start 1 " + fault] + FREE)


def denied(suite):
    single(suite, "a rule that denies", ["-x", suite.install(":deny\n")], ["true"], DENY + FREE)
    single(suite, "a rule that allows", ["-x", suite.install(":allow\n")], ["true"], OK + ENDED + FREE)
    single(suite, "no rules file", ["-x", suite.path("absent.cdb")], ["true"], DENY + FREE)
    single(suite, "no rules file, under -X", ["-X", "-x", suite.path("absent.cdb")], ["true"], OK + ENDED + FREE)


def dropped(suite):
    whole = one_rule()
    for length in (0, 1, 2047, 2048, 2073):
        path = suite.path("cut.cdb", whole[:length])
        single(suite, "rules cut to %d bytes" % length, ["-x", path], ["true"], COMES + ["drop 1 rules damaged"] + FREE)
    path = suite.path("bad-code.cdb", compiled_files.cdb([(b"", b"x")]))
    single(suite, "rules with a value that is none", ["-X", "-x", path], ["true"], COMES + ["drop 1 rules damaged"] + FREE)
    os.mkdir(suite.path("folder.cdb"))
    for options in (["-x", suite.path("folder.cdb")], ["-X", "-x", suite.path("folder.cdb")]):
        single(suite, "a folder in place of the rules", options, ["true"], COMES + ["drop 1 directory fault"] + FREE)
    path = suite.install(":allow\n")
    how = {"env": dict(os.environ, **failed_calls.Library(suite.folder).run("pread", "EIO", 1).environment)}
    single(suite, "rules that can't be read", ["-N", "/dev/null", "-x", path], ["true"], COMES + ["drop 1 rules read fault"] + FREE, **how)


def lost_banner(suite):
    """A client that resets before it is let in: the banner can't be written."""
    with suite.start(["-v", "-c", "1", "-k", "2", "-B", "hello\n"], ["echo", "hi"]) as server:
        server.suspend()
        server_runs.reset(server.connect())
        os.kill(server.process.pid, signal.SIGCONT)
        peer, got = server.talk()
        suite.expect("the client after a lost banner", got, b"hello\nhi\n")
        ended = server.end()
        lines = COMES + ["drop 1 banner fault", "status: 0/1", "status: 1/1", "pid 2 from {ip}"]
        lines += ["ok 2 :127.0.0.1:{port} :{ip}::{peer}", log_forms.end(2), "status: 0/1"]
        wanted = [line.format(ip="127.0.0.1", port=server.port, peer=peer) for line in lines]
        suite.expect("a lost banner", (ended, server.lines()), (0, wanted))
        suite.audit("a lost banner", server)


def address_full(suite):
    with suite.start(["-v", "-c", "4", "-m", "1", "-k", "3"], ["sh", "-c", "echo hi; read a"]) as server:
        first = server.connect("127.0.0.1")
        suite.expect("the first from an address", first.recv(3), b"hi\n")
        suite.expect("a second one from that address", server.ask(source="127.0.0.1"), b"")
        suite.expect("one from another address", server.ask(b"\n", source="127.0.0.2"), b"hi\n")
        server.wait_line(log_forms.end(2))
        first.sendall(b"\n")
        read_all(first)
        server.wait_line(log_forms.end(1))
        suite.expect("a third one, after the first", server.ask(b"\n", source="127.0.0.1"), b"hi\n")
        ended = server.end()
        plain = [line for line in server.lines() if not line.startswith("ok ")]
        first.close()
        # the second connection's end and the first one's come in this order, since each was waited for
        wanted = ["status: 0/4", "status: 1/4", "pid 1 from 127.0.0.1", "drop 127.0.0.1 address full", "status: 2/4", "pid 2 from 127.0.0.2"]
        wanted += [log_forms.end(2), "status: 1/4", log_forms.end(1), "status: 0/4"]
        wanted += ["status: 1/4", "pid 3 from 127.0.0.1", log_forms.end(3), "status: 0/4"]
        suite.expect("an address that is full", (ended, plain), (0, wanted))
        suite.audit("an address that is full", server, 1)


def retired(suite):
    """Where no child can be waited for each place is given up."""
    run = failed_calls.Library(suite.folder).run("waitpid", "ECHILD", 1, failed_calls.ALL)
    # one that has its connection is waited for from its start on, and may be ended since that fails
    wanted_answers = (b"hi\n", b"") if suite.handed else (b"hi\n",)
    for level, wanted in (("-v", None), ("-Q", ["retired 1", "retired 2", "no places left"]), ("-q", ["no places left"])):
        with suite.start([level, "-c", "2"], ["sh", "-c", "echo hi; exit 3"], env=dict(os.environ, **run.environment)) as server:
            for number in (1, 2):
                answer = server.ask()
                suite.holds("client %d of a place to be retired" % number, answer in wanted_answers, answer)
                if level != "-q":
                    server.wait_line("retired %d" % number)
            suite.expect("no places left under " + level, server.end(), 111)
            lines = [line for line in server.lines() if not line.startswith("ok ")]
            if wanted is None:
                suite.audit("retired places", server)
                wanted = ["status: 0/2", "status: 1/2", "pid 1 from 127.0.0.1", "retired 1", "status: 1/2"]
                wanted += ["status: 2/2", "pid 2 from 127.0.0.1", "retired 2", "status: 2/2", "no places left"]
            suite.expect("the log of retired places under " + level, lines, wanted)


def fields(suite):
    """Names in a verdict's line: their marks, and their cut at a hundred bytes."""
    cases = [
        ("a:b", "a?b"), ("a b%c", "a?b?c"), ("é", "??"), ("~!", "~!"), ("\x7f\x01", "??"), ("a" * 99, "a" * 99), ("a" * 100, "a" * 100 + "..."),
        ("a" * 101, "a" * 100 + "..."), ("a" * 99 + "é", "a" * 99 + "?..."), ("", ""), ("0", "0"),
    ]
    for given, printed in cases:
        wanted = COMES + ["ok 1 %s:127.0.0.1:{port} :{ip}::{peer}" % printed] + ENDED + FREE
        single(suite, "the local name %r" % given, ["-l", given], ["true"], wanted)
    table = suite.path("table", "127.0.0.1 Local%s\n127.0.0.2 a:b%%c\n127.0.0.3 %s\n" % ("", "b" * 255))
    for source, printed in (("127.0.0.1", "local"), ("127.0.0.2", "a?b?c"), ("127.0.0.3", "b" * 100 + "..."), ("127.0.0.4", "")):
        wanted = COMES + ["ok 1 local:127.0.0.1:{port} %s:{ip}::{peer}" % printed] + ENDED + FREE
        single(suite, "the remote name %r" % printed, ["-N", table], ["true"], wanted, source)


def levels(suite):
    """What -v, -Q and -q print; the last given counts."""
    absent, path = suite.path("absent"), suite.path("cut.cdb", one_rule()[:2073])
    deny = suite.install(":deny\n")
    cases = [
        ([], ["true"], []), ([], [absent], ["start 1 not found"]), (["-Q"], [absent], ["start 1 not found"]), (["-q"], [absent], []),
        (["-vq"], [absent], []), (["-qQ"], [absent], ["start 1 not found"]), (["-vQ"], ["true"], []), (["-v", "-q", "-Q"], ["false"], []),
        (["-x", path], ["true"], ["drop 1 rules damaged"]), (["-q", "-x", path], ["true"], []), (["-x", deny], ["true"], []),
        (["-q"], ["sh", "-c", "echo mine >&2"], ["mine"]), (["-Q"], ["sh", "-c", "echo mine >&2"], ["mine"]),
    ]
    for options, program, wanted in cases:
        with suite.start(["-k", "1"] + options, program) as server:
            server.talk()
            suite.expect("the log under %r of %r" % (options, program[0]), (server.end(), server.lines()), (0, wanted))
    with suite.start(["-k", "1", "-q", "-v"], ["true"]) as server:
        server.talk()
        suite.expect("-v after -q", (server.end(), len(server.lines())), (0, 6))
    for options, wanted in (([], ["drop 127.0.0.1 address full"]), (["-q"], [])):
        with suite.start(["-k", "2", "-m", "1"] + options, ["sh", "-c", "echo hi; read a"]) as server, server.connect() as first:
            first.recv(3)
            suite.expect("a second client under %r" % options, server.ask(), b"")
            first.sendall(b"\n")
            read_all(first)
            server_runs.wait_until("a second one", lambda: server.ask(b"\n") == b"hi\n")
            suite.expect("an address that is full under %r" % options, (server.end(), sorted(set(server.lines()))), (0, wanted))


# All lines of a server that meets one fault after another, and in front of each where it is told: under -v; under -Q too; or at every level. A cause is
# told under -Q if the server is called as `tcpserver`, and a hint under no level otherwise; what is for a person is told under -v, and only by one that
# is called so. The bytes are spelled here, but for ports, the numbers of processes, and ends.
EACH_LINE = f"""
person listening on 127.0.0.1:{{port}}
-v     status: 0/2
-v     status: 1/2
-v     pid 1 from 127.0.0.1
-v     deny 1 mail.example:127.0.0.1:{{port}} :127.0.0.1::{{peers[1]}}
hint   cause: lines.cdb: No such file or directory
-v     status: 0/2
-v     status: 1/2
-v     pid 2 from 127.0.0.2
-v     ok 2 mail.example:127.0.0.1:{{port}} relay.example:127.0.0.2::{{peers[2]}}
person runs 2 process {{processes[2]}}
-v     {log_forms.end(2, 0)}
-v     status: 0/2
-v     status: 1/2
-v     pid 3 from 127.0.0.3
-v     ok 3 mail.example:127.0.0.1:{{port}} :127.0.0.3::{{peers[3]}}
person runs 3 process {{processes[3]}}
-v     {log_forms.end(3, "signal")}
person cause: 3: signal 9
-v     status: 0/2
-v     status: 1/2
-v     pid 4 from 127.0.0.4
-v     ok 4 mail.example:127.0.0.1:{{port}} :127.0.0.4::{{peers[4]}}
person runs 4 process {{processes[4]}}
-Q     drop 127.0.0.4 address full
-v     {log_forms.end(4, 255)}
-v     status: 0/2
-v     status: 1/2
-v     pid 5 from 127.0.0.5
-v     deny 5 mail.example:127.0.0.1:{{port}} :127.0.0.5::{{peers[5]}}
-v     status: 0/2
-v     status: 1/2
-v     pid 6 from 127.0.0.6
-v     ok 6 mail.example:127.0.0.1:{{port}} :127.0.0.6::{{peers[6]}}
-Q     start 6 refused
cause  cause: ./lines-program: Permission denied
-v     status: 0/2
-v     status: 1/2
-v     pid 7 from 127.0.0.7
-v     ok 7 mail.example:127.0.0.1:{{port}} :127.0.0.7::{{peers[7]}}
-Q     start 7 not found
cause  cause: ./lines-program: No such file or directory
-v     status: 0/2
-v     status: 1/2
-v     pid 8 from 127.0.0.8
-Q     drop 8 rules damaged
hint   cause: lines.cdb: damaged, or not compiled by tcprules
-v     status: 0/2
-v     status: 1/2
-v     pid 9 from 127.0.0.9
-Q     drop 9 rules damaged
hint   cause: lines.cdb: damaged, or not compiled by tcprules
cause  cause: 127.: damaged rule
-v     status: 0/2
-v     status: 1/2
-v     pid 10 from 127.0.0.10
-Q     drop 10 directory fault
cause  cause: lines.cdb: Is a directory
-v     status: 0/2
-v     status: 1/2
-v     pid 11 from 127.0.0.11
-v     ok 11 mail.example:127.0.0.1:{{port}} :127.0.0.11::{{peers[11]}}
person runs 11 process {{processes[11]}}
-Q     retired 11
-v     status: 1/2
-v     status: 2/2
-v     pid 12 from 127.0.0.12
-v     ok 12 mail.example:127.0.0.1:{{port}} :127.0.0.12::{{peers[12]}}
person runs 12 process {{processes[12]}}
-Q     retired 12
-v     status: 2/2
-q     no places left
"""
# the same of a server whose rules have names that no client has
NAMED_RULES = f"""
person listening on 127.0.0.1:{{port}}
-v     rules by name, and no names
-v     status: 0/2
-v     status: 1/2
-v     pid 1 from 127.0.0.1
-v     ok 1 mail.example:127.0.0.1:{{port}} :127.0.0.1::{{peers[1]}}
person runs 1 process {{processes[1]}}
-v     {log_forms.end(1, 7)}
-v     status: 0/2
"""
# where each kind of line is told, by one that is called as `ucspi tcpserver` and by one that is called as `tcpserver`
TOLD = {
    "-v": (["-v"], ["-v"]), "-Q": (["-v", "-Q"], ["-v", "-Q"]), "-q": (["-v", "-Q", "-q"], ["-v", "-Q", "-q"]),
    "cause": (["-v"], ["-v", "-Q"]), "hint": ([], ["-v", "-Q"]), "person": ([], ["-v"]),
}
# it tells its number, and does what its client wants
LINES_PROGRAM = "#!/bin/sh\necho $$\nread order\neval $order\n"


class Voiced:
    """A server that is called as `tcpserver` or not, at a level. Its clients come one after another, each from an address of its own."""

    def __init__(self, suite, named, level, options, **how):
        self.suite, self.named, self.level = suite, named, level
        options = [level, "-c", "2", "-l", "mail.example", "-x", "lines.cdb"] + options
        self.server = suite.start(options, ["./lines-program"], command=suite.by_name() if named else suite.command, **how)
        # by serial number: a client's port, and what the program told of itself
        self.peers, self.processes = [""], [""]

    def is_told(self, kind):
        return self.level in TOLD[kind][self.named]

    def wait_for(self, kind, line):
        """Waits for a line that begins so, if one of its kind is told."""
        if self.is_told(kind):
            server_runs.wait_until(line, lambda: any(told.startswith(line) for told in self.server.all_lines()))

    def client(self):
        """The connection of the next client."""
        client = self.server.connect("127.0.0.%d" % len(self.peers))
        self.peers.append(client.getsockname()[1])
        return client

    def ask(self, order, kind, line):
        """The next client gives an order to its program, and the line that tells its end is waited for."""
        with self.client() as client:
            client.sendall(order)
            client.shutdown(socket.SHUT_WR)
            self.processes.append(read_all(client).decode().strip())
        self.wait_for(kind, line)

    def ended(self, name, lines, code):
        """The server ends with this code, and has told these lines."""
        kinds = [line.split(maxsplit=1) for line in lines.strip().split("\n")]
        told = "".join("tcpserver: %s\n" % line for kind, line in kinds if self.is_told(kind))
        wanted = told.format(port=self.server.port, peers=self.peers, processes=self.processes)
        name = "%s under %s, called as %s" % (name, self.level, "tcpserver" if self.named else "ucspi")
        self.suite.expect(name, (self.server.end(), self.server.log().decode()), (code, wanted))


def each_line(suite):
    """Each line of a log, byte by byte, at each level and in both voices."""
    program, rules = suite.path("lines-program", LINES_PROGRAM), suite.path("lines.cdb")
    for named in (False, True):
        for level in ("-v", "-Q", "-q"):
            os.chmod(program, 0o755)
            many_faults(suite, named, level, program, rules)
            suite.install("=a.example:deny\n:allow\n", "lines.cdb")
            server = Voiced(suite, named, level, ["-k", "1"])
            server.ask(b"exit 7\n", "-v", log_forms.end(1, 7))
            server.ended("rules by name", NAMED_RULES, 0)
            os.unlink(rules)


def many_faults(suite, named, level, program, rules):
    """A server that meets one fault after another."""
    run = failed_calls.Library(suite.folder).run_while("waitpid", "ECHILD")
    table = suite.path("lines-hosts", "127.0.0.2 relay.example\n")
    server = Voiced(suite, named, level, ["-m", "1", "-N", table], env=dict(os.environ, **run.environment))
    server.ask(b"", "hint", "cause: lines.cdb: No such file or directory")
    suite.install("127.0.0.5:deny\n:allow\n", "lines.cdb")
    server.ask(b"exit 0\n", "-v", log_forms.end(2, 0))
    server.ask(b"kill -9 $$\n", "-v", log_forms.end(3, "signal"))
    with server.client() as client:
        server.processes.append(client.recv(100).decode().strip())
        server.wait_for("person", "runs 4 process " + server.processes[4])
        suite.expect("a second client", server.server.ask(source="127.0.0.4"), b"")
        client.sendall(b"exit 255\n")
        read_all(client)
    server.wait_for("-v", log_forms.end(4, 255))
    server.ask(b"", "-v", "deny 5 ")
    os.chmod(program, 0o644)
    server.ask(b"", "-Q", "start 6 refused")
    os.rename(program, program + ".away")
    server.ask(b"", "-Q", "start 7 not found")
    os.rename(program + ".away", program)
    os.chmod(program, 0o755)
    suite.path("lines.cdb", one_rule()[:2073])
    server.ask(b"", "-Q", "drop 8 rules damaged")
    suite.path("lines.cdb", compiled_files.cdb([(b"127.", b"x")]))
    server.ask(b"", "-Q", "drop 9 rules damaged")
    os.unlink(rules)
    os.mkdir(rules)
    server.ask(b"", "-Q", "drop 10 directory fault")
    os.rmdir(rules)
    suite.install(":allow\n", "lines.cdb")
    run.turn(True)
    server.ask(b"exit 3\n", "-Q", "retired 11")
    server.ask(b"exit 4\n", "-Q", "retired 12")
    server.ended("one fault after another", EACH_LINE, 111)


def burst_client(server, source, order, came):
    """A client that asks its program for an end, or resets first; it adds itself to those that have come."""
    try:
        with server.connect(source) as client:
            client.sendall(order)
            came.append(source)
            if order == b"reset\n":
                server_runs.reset(client)
                return
            read_all(client)
    except OSError:
        pass


def taken(server):
    """How many connections the log says were let in or closed for their address."""
    log = server.log()
    return log.count(b"\ntcpserver: pid ") + log.count(b" address full\n")


def bursts(suite):
    """Connections that come all at once, each with an end of its own: the log is legal, and ends with nothing alive."""
    path = suite.install("127.0.1.:deny\n127.0.2.:allow\n")
    program = ["sh", "-c", 'read a; case "$a" in kill) kill -9 $$;; slow) sleep 0.05;; out) yes | head -c 300000;; esac; exit 4']
    orders = [b"kill\n", b"slow\n", b"out\n", b"reset\n", b"\n"]
    for options, per in (([], None), (["-m", "2"], 2), (["-c", "1"], None), (["-c", "3", "-m", "1"], 1)):
        with suite.start(["-v", "-c", "8", "-x", path] + options, program) as server:
            for round_ in range(2):
                server.suspend()
                sources, came = ["127.0.%d.%d" % (1 + n % 3, 1 + n // 3 % 7) for n in range(60)], []
                threads = [threading.Thread(target=burst_client, args=(server, source, orders[n % 5], came)) for n, source in enumerate(sources)]
                for thread in threads:
                    thread.start()
                all_have_come(came, 60)
                os.kill(server.process.pid, signal.SIGCONT)
                for thread in threads:
                    thread.join(server_runs.WAIT)
                # one that reset its connection has not waited for the server
                server_runs.wait_until("each client of a burst", lambda: taken(server) >= 60 * (round_ + 1))
                server.idle()
            events = suite.audit("a burst under %r" % options, server, per)
            suite.expect("those of a burst under %r" % options, events.admitted + events.full, 120)
            if per is None:
                # programs that have their connections themselves may be over before others are started
                least = min(2, events.limit) if suite.handed else events.limit
                suite.holds("a burst fills the server under %r" % options, least <= events.most <= events.limit, events.most)


def all_have_come(came, number):
    """Waits until so many clients have come, or none has come for long, as where the system's queue takes no more."""
    since, last = time.monotonic(), 0
    while last < number and time.monotonic() < since + NONE_COMES:
        time.sleep(0.005)
        if len(came) != last:
            since, last = time.monotonic(), len(came)


def audits(suite):
    """A log that is read as events by the script, and logs that tell of what may not be."""
    head = b"tcpserver: status: 0/1\ntcpserver: status: 1/1\ntcpserver: pid 1 from 1.1.1.1\nnot of the server\n"
    ok = b"tcpserver: ok 1 :2.2.2.2:25 :1.1.1.1::1024\n"
    free = b"tcpserver: status: 0/1\n"
    end = log_forms.log(log_forms.end(1))
    second = b"tcpserver: status: 1/1\ntcpserver: pid 2 from 1.1.1.1\n"
    cases = [
        (b"tcpserver: status: 0/1\n", "admitted 0 live 0 retired 0 most 0", 0),
        (head + ok + log_forms.log(log_forms.end(1, 9)) + free + second, "admitted 2 live 1 retired 0 most 1", 0),
        (head + ok + log_forms.log("start 1 no pipe ends", log_forms.end(1, "signal")) + free, "admitted 1 live 0 retired 0 most 1", 0),
        (head + ok.replace(b"ok", b"deny") + free, "admitted 1 live 0 retired 0 most 1", 0),
        (head + b"tcpserver: drop 1 rules damaged\n" + free, "admitted 1 live 0 retired 0 most 1", 0),
        (head + ok + b"tcpserver: retired 1\ntcpserver: status: 1/1\ntcpserver: no places left\n", "admitted 1 live 1 retired 1 most 1", 0),
        (head + second.replace(b"1/1", b"2/1"), "illegal 2", 0),
        (head + ok + ok, "illegal 4", 0),
        (head + end + free, "illegal 2", 0),
        (head + ok.replace(b"ok", b"deny") + end + free, "illegal 4", 0),
        (head + free, "admitted 1 live 1 retired 0 most 1", 1),
        (head + b"tcpserver: drop 1 bad luck\n", "admitted 1 live 1 retired 0 most 1", 1),
        (head + ok + end, "admitted 1 live 0 retired 0 most 1", 0),
        (head + ok + end + b"tcpserver: pid 2 from 1.1.1.1\n", "admitted 2 live 1 retired 0 most 1", 1),
        (head + second.replace(b"pid 2", b"pid 3"), "illegal 2", 1),
        # what a later version prints behind a status is passed over, and nothing else is
        (head + ok + log_forms.log(log_forms.end(1, 9) + " more 5 fields") + free, "admitted 1 live 0 retired 0 most 1", 0),
        (head + ok + b"tcpserver: end 1 status 9, more\n" + free, "admitted 1 live 1 retired 0 most 1", 1),
        # a shell tells a fault in pieces, and the server's lines may stand between them
        (head + ok + b"sh: 1: " + end + free + b"echo: fault\n", "admitted 1 live 0 retired 0 most 1", 0),
        (head + ok + end + free + b"sh: 1: " + second + b"echo: fault\n", "admitted 2 live 1 retired 0 most 1", 0),
        (head + ok + b"12 > " + end + b"1 of tcpserver: all\n", "admitted 1 live 1 retired 0 most 1", 0),
        # a line that is not finished may begin as the server's own
        (head + ok + b"tcpserver: sta" + end + free, "admitted 1 live 0 retired 0 most 1", 0),
        (head + ok + b"tcpserver: statcpserver: ended\n" + end + free, "admitted 1 live 0 retired 0 most 1", 1),
    ]
    # lines that tell no event are passed over, wherever they stand, and no others
    beside = log_forms.log("listening on 2.2.2.2:25"), log_forms.log("runs 1 process 4711"), log_forms.log("cause: 1: signal 9")
    killed = log_forms.log(log_forms.end(1, "signal"))
    cases += [
        (beside[0] + head + ok + beside[1] + killed + beside[2] + free + second, "admitted 2 live 1 retired 0 most 1", 0),
        (head + ok + killed + beside[1] + free, "admitted 1 live 0 retired 0 most 1", 0),
        (head + ok + log_forms.log("runs 1 process x") + killed + free, "admitted 1 live 0 retired 0 most 1", 1),
        (head + ok + log_forms.log("listening") + killed + free, "admitted 1 live 0 retired 0 most 1", 1),
    ]
    # any program can write a number into the log that the server has not; behind other words such a line is passed over
    long = b"9" * 5000
    for form in (b"pid %s from 1.1.1.1", b"pid 2 from %s.1.1.1", b"status: %s/1", b"status: 1/%s", b"end %s status 0", b"retired %s", b"drop %s no thread"):
        forged = b"tcpserver: " + form.replace(b"%s", long) + b"\n"
        cases += [(head + ok + before + forged + end + free, "admitted 1 live 0 retired 0 most 1", code) for before, code in ((b"sh: ", 0), (b"", 1))]
    script = os.path.join(SCRIPTS, "log_events.py")
    for log, wanted, code in cases:
        words = subprocess.run([sys.executable, script], input=log, stdout=subprocess.PIPE, stderr=subprocess.DEVNULL, timeout=server_runs.WAIT)
        ended = subprocess.run([suite.program, "rulesim"], input=words.stdout, stdout=subprocess.PIPE, timeout=server_runs.WAIT)
        suite.expect("the log %r" % log[:300], (ended.stdout.decode().strip(), words.returncode), (wanted, code))
    for per in ("9" * 5000, "²", "-1", "", "0", "00", "10001"):
        words = subprocess.run([sys.executable, script, per], input=head, stdout=subprocess.PIPE, stderr=subprocess.PIPE, timeout=server_runs.WAIT)
        suite.expect("a limit of %r" % per[:9], (words.returncode, words.stderr[:6], words.stdout), (100, b"usage:", b""))
    # streams that can't be used: one line, the exit code of the tools, and no words of Python
    whole = head + ok + end + free
    broken = [
        ("<&-", 111, "log_events: read fault: Bad file descriptor\n"), ("0>written", 111, "log_events: read fault: Bad file descriptor\n"),
        (">/dev/full", 111, "log_events: write fault: No space left on device\n"), (">&-", 111, "log_events: write fault: Bad file descriptor\n"),
        ("| sleep 0", 128 + signal.SIGPIPE, ""), (">script 2>&-", 0, ""), (">/dev/full 2>/dev/full", 111, ""),
    ]
    with tempfile.TemporaryDirectory() as folder:
        for streams, code, said in broken:
            # (a log that is longer than a pipe holds, of which the reader sees nothing)
            given = head + ok * 20000 if "|" in streams else whole
            words = ["bash", "-c", '"$@" %s; exit ${PIPESTATUS[0]}' % streams, "bash", sys.executable, script]
            ended = subprocess.run(words, input=given, cwd=folder, stdout=subprocess.PIPE, stderr=subprocess.PIPE, timeout=server_runs.WAIT)
            suite.expect("the log reader with " + streams, (ended.returncode, ended.stdout, ended.stderr.decode()), (code, b"", said))
    # its messages about lines keep out of the script, and out of the exit code
    for streams in ("2>&-", "2>/dev/full"):
        words = ["bash", "-c", '"$@" %s' % streams, "bash", sys.executable, script]
        ended = subprocess.run(words, input=head + free, stdout=subprocess.PIPE, timeout=server_runs.WAIT)
        suite.expect("the log reader with a fault and " + streams, (ended.returncode, ended.stdout), (1, b"events 1\nevent admitted 1 1.1.1.1\nreplay\n"))
    # (a line without its end, and a message of a server that is not started, are no faults of other logs)
    suite.expect("a part of a line", len(log_forms.events_of(head + ok + end[:-1]).faults), 1)
    suite.expect("a message within", len(log_forms.events_of(head + log_forms.log("cannot listen") + ok).faults), 1)
    # the checks of this version's logs pass over nothing
    whole, longer = [head + ok + b"sh: 1: " + log_forms.log(log_forms.end(1, "signal") + more) + free for more in ("", " more")]
    suite.expect("ends of this version", (log_forms.events_of(whole).faults, len(log_forms.events_of(longer).faults)), ([], 1))
    # (the log reader takes the lines of older ones)
    older = [head + ok + log_forms.log("start 1 no pipe ends", log_forms.end(1)) + free, head + log_forms.log("drop 1 no thread") + free]
    suite.expect("lines of older versions", [len(log_forms.events_of(log).faults) for log in older], [1, 1])


def audits_of_ends(suite):
    """Of several denied connections that one end may be of, the one is taken that lets the others go on."""
    log = "status: 0/3\nstatus: 1/3\npid 1 from 1.1.1.1\nstatus: 2/3\npid 2 from 2.2.2.2\n"
    log += "deny 1 :0.0.0.0:1 :1.1.1.1::1\ndeny 2 :0.0.0.0:1 :2.2.2.2::2\n"
    log += "status: 1/3\nstatus: 2/3\npid 3 from 2.2.2.2\ndeny 3 :0.0.0.0:1 :2.2.2.2::3\nstatus: 1/3\nstatus: 0/3\n"
    events = log_forms.events_of(re.sub("(?m)^", "tcpserver: ", log).encode(), 1)
    suite.expect("denied ends", [event for event in events.events if event.startswith("dropped")], ["dropped 2", "dropped 1", "dropped 3"])
    ended = subprocess.run([suite.program, "rulesim"], input=events.script().encode(), stdout=subprocess.PIPE, timeout=server_runs.WAIT)
    suite.expect("the replay of denied ends", ended.stdout.decode(), "admitted 3 live 0 retired 0 most 2\n")


    # those of 1.1.1.1 can have had either end, and that of 2.2.2.2 only the second; a denied one of 3.3.3.3 is alive throughout
    addresses = ("3.3.3.3", "1.1.1.1", "2.2.2.2", "1.1.1.1", "2.2.2.2")
    lines = [line for serial, ip in enumerate(addresses, 1) for line in (log_forms.status(serial, 9), log_forms.pid(serial, ip))]
    denies = [log_forms.verdict("deny", serial, ":0.0.0.0:1", ":%s::%d" % (addresses[serial - 1], serial)) for serial in (1, 2, 3, 4)]
    lines = [log_forms.status(0, 9)] + lines + denies[:2] + [log_forms.status(4, 9)] + denies[2:] + [log_forms.status(3, 9)]
    lines += [log_forms.status(4, 9), log_forms.pid(6, "1.1.1.1"), log_forms.status(5, 9), log_forms.pid(7, "2.2.2.2")]
    read = read_log(suite, log_forms.log(*lines), 2)
    suite.expect("an end that one of two addresses needs", read, ([], "admitted 7 live 5 retired 0 most 5"))


def replayed(suite, *scripts):
    """The answers of `rulesim` to the scripts of several logs."""
    ended = subprocess.run([suite.program, "rulesim"], input="".join(scripts).encode(), stdout=subprocess.PIPE, timeout=server_runs.WAIT)
    return ended.stdout.decode().splitlines()


def read_log(suite, log, per=None):
    """What the log reader reports of a log, and the answer to its script."""
    events = log_events.Events(log, per)
    return events.faults, replayed(suite, events.script())[0]


def let_in(serial, alive, ip="1.1.1.1"):
    """The lines of a connection that is let in, as one of so many."""
    return [log_forms.status(alive, 9), log_forms.pid(serial, ip)]


def decided(word, serial, ip="1.1.1.1"):
    return log_forms.verdict(word, serial, ":2.2.2.2:25", ":%s::%d" % (ip, serial))


def mixed_log():
    """The lines of a run with events of all kinds."""
    lines = [log_forms.status(0, 9)] + let_in(1, 1) + [decided("ok", 1)] + let_in(2, 2, "1.1.1.2") + [decided("deny", 2, "1.1.1.2")]
    lines += let_in(3, 3, "1.1.1.12") + [decided("deny", 3, "1.1.1.12"), log_forms.status(2, 9)] + let_in(4, 3) + [log_forms.full("1.1.1.1")]
    lines += [log_forms.drop(4, "rules damaged"), "cause: rules.cdb: damaged rule", log_forms.status(2, 9), log_forms.status(1, 9)]
    lines += [log_forms.end(1, 127), log_forms.status(0, 9)] + let_in(5, 1) + [decided("ok", 5), log_forms.start(5, "not found"), log_forms.status(0, 9)]
    return lines + let_in(6, 1) + [decided("ok", 6), log_forms.retired(6), log_forms.status(1, 9)]


def audits_of_cuts(suite):
    """The log of a server that still runs ends anywhere, within a line or within an event, and nothing of it is in doubt for that."""
    log = log_forms.log(*mixed_log())
    begun = len(log_forms.log(log_forms.status(0, 9)))
    cuts = [log_events.Events(log[:length]) for length in range(begun, len(log) + 1)]
    suite.expect("logs that end anywhere", [(begun + place, events.faults) for place, events in enumerate(cuts) if events.faults], [])
    answers = replayed(suite, *(events.script() for events in cuts))
    suite.expect("the replay of logs that end anywhere", answers, [events.report().strip() for events in cuts])
    # but a last status that no connection's line can follow is in doubt
    head = [log_forms.status(0, 9)] + let_in(1, 1) + [decided("ok", 1)]
    for line in (log_forms.status(0, 9), log_forms.status(1, 9), log_forms.status(3, 9)):
        suite.expect("a log that ends with " + line, read_log(suite, log_forms.log(*head, line))[0], ["line 5: a status line of no event"])


def audits_of_lost_lines(suite):
    """Where lines of a log are lost each loss is named once, and what comes behind it is read by the log's own numbers."""
    begin, jump = "the log does not begin with a status line", "line %d: serial %d, and %d is next"
    later = [line for serial in range(715, 730) for line in let_in(serial, 1) + [decided("ok", serial), log_forms.end(serial), log_forms.status(0, 9)]]
    two = let_in(5, 3) + [decided("ok", 5), log_forms.end(5), log_forms.status(2, 9), decided("deny", 4), log_forms.end(3), log_forms.status(1, 9)]
    two += [log_forms.status(0, 9)] + let_in(6, 1) + [decided("deny", 6), log_forms.status(0, 9)]
    run = [log_forms.status(0, 9)] + let_in(1, 1) + let_in(2, 2, "1.1.1.2") + [decided("ok", 1), decided("ok", 2, "1.1.1.2")]
    last = run + [log_forms.end(2), log_forms.status(1, 9), log_forms.end(1), log_forms.status(0, 9)] + let_in(3, 1)
    cases = [
        ("serials from 715 on", later, [jump % (2, 715, 1)], 1),
        ("a log from a verdict on", later[2:], [begin], 1),
        ("a log from an end on", later[3:], [begin], 1),
        ("a log from a status on", later[4:], [jump % (3, 716, 1)], 1),
        ("a log from `pid` on", later[1:], [begin, jump % (1, 715, 1)], 1),
        ("two that were let in before", [log_forms.status(2, 9)] + two, ["line 1: 2 alive, and by the events before 0", jump % (3, 5, 1)], 1),
        ("two that were let in before, and no status", [decided("ok", 3)] + two, [begin, jump % (3, 5, 4)], 1),
        ("lines between", last[:7] + later, ["line 8: 0 alive, and by the events before 2", jump % (9, 715, 3)], 7),
        ("a run behind another", run + last, ["line 8: a status line of no event", jump % (10, 1, 3)], 7),
        ("a run behind another that was over", last[:-2] + last, ["line 12: a status line of no event", jump % (14, 1, 3)], 11),
        ("`pid` lost", last[:2] + last[3:], ["line 2: a status line of no event"], 1),
        ("`pid` lost, and its status", last[:1] + [decided("ok", 1), log_forms.end(1), log_forms.status(0, 9)] + let_in(2, 1), ["line 2: connection 1 is not alive"], 1),
    ]
    for name, lines, wanted, illegal in cases:
        faults, answer = read_log(suite, log_forms.log(*lines))
        suite.expect(name, faults, wanted)
        suite.expect(name + ": what comes of it", answer.split()[:2], ["illegal", str(illegal)])


def audits_of_messages(suite):
    """What a server prints that is not started, or not any more, tells no event: alone, and in front of a run and behind it."""
    table, named = suite.path("wrong-table", "no table\n"), suite.install("=.example:deny\n", "named.cdb")
    there = ["127.0.0.1", "0", "true"]
    calls = [
        [], ["0", "x", "true"], ["-v", "0", "0"], ["-Z", *there], ["-c"], ["-r", *there], ["-u", "1", *there], ["-c", "0", *there], ["-w", "x", *there],
        ["-N", suite.path("absent"), *there], ["-N", table, *there], ["-x", suite.path("absent/rules.cdb"), *there], ["-v", "192.0.2.1", "25", "true"],
        ["-v", "-N", "absent/tcpserver", *there], ["-v", "-x", "absent/tcpserver/rules.cdb", *there],
        ["-v", "-x", named, "192.0.2.1", "25", "true"],
    ]
    run = log_forms.log(*mixed_log())
    wanted = read_log(suite, run)
    for command in ([suite.program, "tcpserver"], [suite.linked()]):
        for words in calls:
            said = subprocess.run(command + words, stdin=subprocess.DEVNULL, stderr=subprocess.PIPE, timeout=server_runs.WAIT).stderr
            suite.holds("a server that is not started prints something", said.startswith(b"tcpserver: "), said)
            suite.expect("%r" % said[:200], read_log(suite, said), ([], "admitted 0 live 0 retired 0 most 0"))
            suite.expect("%r around a run" % said[:200], read_log(suite, said + run + said), wanted)
    for line in (
        "cannot wait for programs", "write fault", "out of memory", "rules by name, and no names", "listening on 0.0.0.0:25", "accept fault",
        "lost connection", "no places left",
    ):
        suite.expect(line, read_log(suite, log_forms.log(line)), ([], "admitted 0 live 0 retired 0 most 0"))
        suite.expect(line + " around a run", read_log(suite, log_forms.log(line) + run + log_forms.log(line)), wanted)
    suite.expect("a message of nobody", read_log(suite, log_forms.log("cannot say") + run)[0], ["line 1: not a line of this server: tcpserver: cannot say"])
    suite.expect("no lines", read_log(suite, b"no log\n")[0], ["the log does not begin with a status line"])


def audits_of_many(suite):
    """A long log of denied connections is read in a time that grows with its length: each ends before the next, one of them is alive all the time, and
    then their addresses are at a limit."""
    for others, per in ((0, None), (1, None), (1, 2)):
        lines = [log_forms.status(0, 9)] + (let_in(1, 1) + [decided("deny", 1)] if others else [])
        for serial in range(others + 1, MANY + 1):
            ip = "10.0.%d.%d" % (serial >> 8 & 255 if per is None else serial & 1, serial & 255 if per is None else 1)
            lines += let_in(serial, others + 1, ip) + [decided("deny", serial, ip), log_forms.status(others, 9)]
        begun = time.process_time()
        events = log_events.Events(log_forms.log(*lines), per)
        took = time.process_time() - begun
        suite.expect("%d denied, %d of them alive" % (MANY, others), (events.faults, events.admitted, events.last_live), ([], MANY, others))
        suite.holds("%d denied, %d of them alive: the time" % (MANY, others), took < READ_TIME, took)


def plain_log(suite):
    """The lines that djb's server has too, with its process numbers in place of serials."""
    with suite.start(["-v", "-c", "2", "-l", "a:b", "-R", "-H"], ["sh", "-c", "echo hi"]) as server:
        peer, got = server.talk()
        server.idle()
        number = r"\d+"
        forms = ["status: 0/2", "status: 1/2", "pid %s from 127.0.0.1" % number]
        forms += [r"ok %s a\?b:127.0.0.1:%d :127.0.0.1::%d" % (number, server.port, peer), log_forms.end(number), "status: 0/2"]
        matched = [re.fullmatch(form, line) is not None for form, line in zip(forms, server.lines())]
        suite.expect("a plain log", (got, matched, len(server.lines())), (b"hi\n", [True] * 6, 6))


CHECKS = [
    plain_log, ends, start_faults, denied, dropped, lost_banner, address_full, retired, fields, levels, each_line, bursts, audits, audits_of_ends,
    audits_of_cuts, audits_of_lost_lines, audits_of_messages, audits_of_many,
]
COMMON = [plain_log]
HANDED = [plain_log, ends, start_faults, denied, dropped, lost_banner, address_full, retired, levels, each_line, bursts]
