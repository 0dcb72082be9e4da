"""Each request for memory refused in turn: every tool, and `tcpserver` with a connection of each kind.

A tool ends with `out of memory`, or as with ample memory. In a server one refusal changes at most one connection, in
one of these ways: the server closes it with the line `out of memory` and does not count it; drops it, or does not start
its program, for lack of memory; ends its streams early; or leaves out a line of the log. The next connection is served
as usual.
"""
import os
import re
import socket

from shared import compiled_files, failed_calls, log_forms, refusals, server_runs
from shared.server_runs import read_all

# the most requests of one series
MOST = 4000
# how long the first line of a connection is waited for after its end: one is missing only where the server is amiss
LINE_TIME = 60
# how long an answer is waited for, in seconds, once a request was refused: it may never come
REFUSED_TIME = 5
BANNER = "hello\n"
TABLE = "127.0.0.1 Mail.Example\n127.0.0.2 two.example\n=mail.example 127.0.0.1\n=two.example 127.0.0.2\n"
RULES = '=mail.example:allow,A="one",B=/two words/\n127.0.0.2:deny\n127.0.0.3:deny\n'


class Kind:
    """A kind of connection: where it comes from, what it gets, and its lines after those of its coming, in which N is its serial."""

    def __init__(self, source, answer, lines, banner=b""):
        self.source = source
        self.answer = answer
        self.lines = lines
        self.banner = banner

    def wanted(self, serial, limit, local, peer):
        """Its lines, with ample memory."""
        lines = [log_forms.status(1, limit), log_forms.pid("N", self.source)] + self.lines + [log_forms.status(0, limit)]
        known = {"N": str(serial), "LOCAL": str(local), "PEER": str(peer)}
        return [re.sub(r"\b(N|LOCAL|PEER)\b", lambda match: known[match.group()], line) for line in lines]


def verdict(word, source, local="", remote=""):
    """The line of a verdict, with the names of both ends."""
    return log_forms.verdict(word, "N", local + ":127.0.0.1:LOCAL", "%s:%s::PEER" % (remote, source))


def kind_of_ends(source, names, answer, banner=b""):
    """A connection that is allowed, and whose program ends well."""
    return Kind(source, answer, [verdict("ok", source, *names), log_forms.end("N")], banner)


def is_left_out(lines, wanted):
    """Whether these are the wanted lines, without one or two that stand together."""
    for number in (1, 2):
        for place in range(len(wanted) - number + 1):
            if lines == wanted[:place] + wanted[place + number:]:
                return True
    return False


def matches(lines, forms):
    return len(lines) == len(forms) and all(re.fullmatch(form, line) for form, line in zip(forms, lines))


def change_of(kind, serial, answer, lines, wanted, handed):
    """What a refusal made of a connection, which may be handed over: nothing, the name of a change, or None where it may not be."""
    if (answer, lines) == (kind.answer, wanted):
        return "nothing"
    if lines == ["out of memory"] and answer == b"":
        return "refused"
    if lines == [] and answer == b"":
        return "refused silently"
    if answer == kind.answer and is_left_out(lines, wanted):
        return "left out"
    head, last = [re.escape(line) for line in wanted[:2]], [re.escape(wanted[-1])]
    if matches(lines, head + [log_forms.drop(serial, "out of memory")] + last) and kind.banner.startswith(answer):
        return "dropped"
    if not wanted[2].startswith("ok "):
        return None
    head.append(re.escape(wanted[2]))
    if matches(lines, head + [log_forms.start(serial, "out of memory")] + last) and answer == kind.banner:
        return "not started"
    if handed:
        return None
    if matches(lines, head + [log_forms.any_end(serial)] + last) and kind.answer.startswith(answer):
        return "streams ended"
    return None


class Servers:
    """Runs of one command with one connection after another, each run with a request of its own refused."""

    def __init__(self, suite, name, options, program, kinds, limit=1):
        self.suite = suite
        self.name = name
        self.limit = limit
        self.idle = log_forms.status(0, limit)
        self.options = ["-v", "-c", str(limit), "-k", str(len(kinds))] + options
        self.program = program
        self.kinds = kinds
        self.library = failed_calls.Library(suite.folder)
        self.changes = {}

    def serve(self, run):
        """One run: an empty text, or what is amiss."""
        # few variables, since each takes memory for each connection
        variables = dict(run.environment, PATH=os.environ["PATH"], TCPREMOTEINFO="x", SOME="thing")
        with self.suite.start(self.options, self.program, may_end=True, env=variables) as server:
            if server.port is None:
                return self.ended_early(server, (b"ucspi: out of memory\n", b"tcpserver: out of memory\n"))
            return Serving(self, server).run()

    @staticmethod
    def ended_early(server, logs):
        code = server.end()
        return "" if code == 111 and server.log() in logs else "it ended with %d and %r" % (code, server.log())

    def try_one(self, request):
        run = self.library.run("memory", "ENOMEM", request)
        try:
            amiss = self.serve(run)
        except (server_runs.Amiss, OSError) as fault:
            amiss = "%s: %s" % (type(fault).__name__, fault)
        failed = run.end()
        self.suite.holds("%s, request %d %s" % (self.name, request, "refused" if failed else "of none refused"), not amiss, amiss)
        return failed

    def run_all(self):
        runs, whole = failed_calls.one_after_another(MOST, self.try_one)
        self.suite.holds("%s: each request was tried, %d of them; %r" % (self.name, runs, self.changes), whole)
        silent = self.changes.get("refused silently", 0)
        self.suite.holds("%s: a connection that is closed for want of memory has a line" % self.name, not silent, "%d had none" % silent)


class Serving:
    """One server that is asked by a client of each kind, until it ends."""

    def __init__(self, servers, server):
        self.servers = servers
        self.server = server
        self.seen = 0
        self.is_first = True
        self.counted = 0
        self.changes = []

    def piece(self):
        """The lines since the last connection, without those of a recorder."""
        lines = self.server.lines()[self.seen:]
        self.seen += len(lines)
        if self.is_first:
            if lines[:1] == [self.servers.idle]:
                lines = lines[1:]
            else:
                self.changes.append("left out")
            self.is_first = False
        return [line for line in lines if not re.match(r"\d+ [<>] ", line)]

    def wait_for_lines(self):
        """Waits for a line of the last connection: one that found no memory may end before its line is written. A server that has ended writes none."""
        before = self.seen + self.is_first
        try:
            server_runs.wait_until("a line", lambda: len(self.server.lines()) > before or self.server.process.poll() is not None, LINE_TIME)
        except server_runs.Amiss:
            # (it is told below that there was none)
            pass

    def ask(self, kind):
        """Asks as a client of this kind: what is amiss, and whether the connection counts."""
        peer, answer = self.server.talk(b"a\n", kind.source)
        self.wait_for_lines()
        self.server.settle(self.seen + self.is_first)
        lines, serial = self.piece(), self.counted + 1
        wanted = kind.wanted(serial, self.servers.limit, self.server.port, peer)
        change = change_of(kind, serial, answer, lines, wanted, self.servers.suite.handed)
        counts = change not in ("refused", "refused silently", None) or any(line.startswith("pid ") for line in lines)
        self.counted += counts
        if change is None:
            return "it got %r, and the log has %r, not %r and %r" % (answer, lines, kind.answer, wanted), counts
        if change != "nothing":
            self.changes.append(change)
        return "", counts

    def run(self):
        left, amiss = list(self.servers.kinds), []
        while left and len(amiss) < 4:
            try:
                told, counts = self.ask(left[0])
            except ConnectionError:
                logs = [("tcpserver: %sout of memory\n" % front).encode() for front in ("", self.servers.idle + "\ntcpserver: ")]
                return self.servers.ended_early(self.server, logs)
            amiss += [told] if told else []
            left = left[counts:]
        for change in self.changes:
            self.servers.changes[change] = self.servers.changes.get(change, 0) + 1
        if len(self.changes) > 1:
            amiss.append("one refusal changed %r" % self.changes)
        if not amiss and (self.server.end(), self.server.live()) != (0, 0):
            amiss.append("it ended with %r and %r" % (self.server.process.returncode, self.server.lines()[-3:]))
        return "; ".join(amiss)


NAMES = "mail.example", "mail.example"
ECHO = ["cat"]


def allowed(answer=b"a\n", banner=b"", names=("", "")):
    return kind_of_ends("127.0.0.1", names, banner + answer, banner)


def damaged_rules(suite):
    """Rules with one that is damaged: the value of 127.0.0.3 is the code of no instruction."""
    path = suite.install(RULES, "partly.cdb")
    with open(path, "rb") as file:
        whole = file.read()
    key = whole.index(b"127.0.0.3D\0")
    with open(path, "wb") as file:
        file.write(whole[:key] + b"127.0.0.3X\0" + whole[key + len(b"127.0.0.3D\0"):])
    return path


def all_kinds(suite):
    """Connections that are allowed, denied and dropped, with a host table, rules, settings and a banner."""
    hello = BANNER.encode()
    program = ["sh", "-c", 'echo "$A$B$TCPREMOTEHOST"; cat']
    kinds = [
        allowed(b"onetwo wordsmail.example\na\n", hello, NAMES),
        Kind("127.0.0.2", hello, [verdict("deny", "127.0.0.2", "mail.example")], hello),
        Kind("127.0.0.3", hello, [log_forms.drop("N", "rules damaged")], hello),
        allowed(b"onetwo wordsmail.example\na\n", hello, NAMES),
    ]
    table = suite.path("table", TABLE.replace("=two", "#=two"))
    options = ["-N", table, "-p", "-x", damaged_rules(suite), "-B", BANNER]
    Servers(suite, "all kinds", options, program, kinds).run_all()


def plain_connections(suite):
    """Connections without rules, table or banner."""
    Servers(suite, "plain", [], ECHO, [allowed(), allowed()]).run_all()


def wrappers(suite):
    """Each wrapper, and all of them."""
    for names, answer in (("addcr", b"a\r\n"), ("delcr", b"a\n"), ("fixcrio", b"a\r\n"), ("recordio,fixcrio,delcr,addcr", b"a\r\n")):
        Servers(suite, "-w " + names, ["-w", names], ECHO, [allowed(answer), allowed(answer)]).run_all()


def absent_rules(suite):
    """A rules file that is not there, which denies, and allows under -X."""
    path = suite.path("absent.cdb")
    denied = Kind("127.0.0.1", b"", [verdict("deny", "127.0.0.1")])
    Servers(suite, "absent rules", ["-x", path], ECHO, [denied, denied]).run_all()
    Servers(suite, "absent rules under -X", ["-X", "-x", path], ECHO, [allowed(), allowed()]).run_all()


def starts_that_fail(suite):
    """A program that is not there, and one that may not be executed."""
    plain = suite.path("plain-file", "x")
    for program, fault in (("/nonexistent", "not found"), (plain, "refused")):
        failed = Kind("127.0.0.1", b"", [verdict("ok", "127.0.0.1"), log_forms.start("N", fault)])
        Servers(suite, "a program that is " + fault, [], [program], [failed, failed]).run_all()


def answer_or_refusal(client, run):
    """What comes to a client, or nothing, where a request for memory was refused and nothing came for a while after that."""
    client.settimeout(REFUSED_TIME)
    for _ in range(server_runs.WAIT // REFUSED_TIME):
        refused = run.failed()
        try:
            return client.recv(3)
        except TimeoutError:
            if refused:
                break
    return b""


def full_addresses(suite):
    """A client whose address is full beside one that is served."""
    library, changes, full = failed_calls.Library(suite.folder), {}, log_forms.full("127.0.0.1")

    def serve(server, run):
        with server.connect() as first:
            # what its program says is passed on no more where a request of its streams was refused, and its program waits for it
            answered = answer_or_refusal(first, run)
            others = [server.ask(), server.ask(b"\n", source="127.0.0.2")]
            try:
                first.sendall(b"\n")
                first.shutdown(socket.SHUT_WR)
            except OSError:
                # it was not served
                pass
            read_all(first)
        server.settle(1)
        lines = server.lines()
        told = lines.count(full), sum(line == "out of memory" for line in lines)
        served = (answered == b"hi\n") + (others[1] == b"hi\n")
        changes[served, told] = changes.get((served, told), 0) + 1
        # where the first was not served, the second may have been, in its place
        right = (served == 2 and told in ((1, 0), (0, 1), (0, 0))) or (served == 1 and told[0] <= 1 and others[0] in (b"", b"hi\n"))
        return "" if right else "%r" % ((answered, others, lines),)

    def try_one(request):
        run = library.run("memory", "ENOMEM", request)
        variables = dict(run.environment, PATH=os.environ["PATH"])
        amiss = ""
        with suite.start(["-v", "-c", "3", "-m", "1"], ["sh", "-c", "echo hi; read a"], may_end=True, env=variables) as server:
            try:
                if server.port is not None:
                    amiss = serve(server, run)
                    server_runs.wait_until("an answer afterwards", lambda: server.ask(b"\n", source="127.0.0.3") == b"hi\n")
            except ConnectionError:
                amiss = Servers.ended_early(server, [log_forms.log("out of memory"), log_forms.log(log_forms.status(0, 3), "out of memory")])
            except (server_runs.Amiss, OSError) as fault:
                amiss = "%s: %s, log %r" % (type(fault).__name__, fault, server.log()[-400:])
        failed = run.end()
        suite.holds("a full address, request %d" % request, not amiss, amiss)
        return failed

    runs, whole = failed_calls.one_after_another(MOST, try_one)
    suite.holds("a full address: each request was tried, %d of them; %r" % (runs, changes), whole)


def no_memory_for_a_while(suite):
    """All memory is refused for a while: each client is given up then, the server lives, and afterwards it serves on."""
    library = failed_calls.Library(suite.folder)
    path = suite.install(":allow\n", "while.cdb")
    run = library.run_while("memory", "ENOMEM")
    variables = dict(run.environment, PATH=os.environ["PATH"])
    with suite.start(["-v", "-c", "3", "-x", path], ECHO, env=variables) as server:
        for _ in range(5):
            suite.expect("before there is no memory", [server.ask(b"a\n") for _ in range(3)], [b"a\n"] * 3)
            # a client sees its end before the server has told it
            server.idle()
            before = len(server.lines())
            run.turn(True)
            suite.expect("while there is no memory", [server.ask(b"a\n") for _ in range(12)], [b""] * 12)
            run.turn(False)
            server.idle()
            told = [line for line in server.lines()[before:] if not line.startswith(("status: ", "pid "))]
            suite.expect("how many lines tell of no memory", len(told), 12)
            suite.holds("the lines while there is no memory", all(re.fullmatch(log_forms.drop(r"\d+", "out of memory"), line) for line in told), told)
            suite.expect("after there was no memory", [server.ask(b"a\n") for _ in range(3)], [b"a\n"] * 3)
            server.idle()
        suite.holds("the server lives", server.process.poll() is None)
        events = suite.audit("no memory for a while", server)
        suite.expect("those without memory are let in and given up", events.admitted, 5 * (6 + 12))


def many_without_memory(suite):
    """A hundred and fifty clients in succession for whose connection's name there is no memory are no faults of accepting, and none of those that -k
    counts. Each has its line at each level but -q, whether the server is called as `tcpserver` or not."""
    library, line = failed_calls.Library(suite.folder), b"tcpserver: out of memory\n"
    for command in (suite.command, suite.by_name()):
        for level, told in (("-v", line), ("-Q", line), ("-q", b"")):
            run = library.run_while("memory", "ENOMEM")
            with suite.start([level, "-k", "2", "-l", "here"], ECHO, command=command, env=dict(run.environment, PATH=os.environ["PATH"])) as server:
                suite.expect("before many clients without memory", server.ask(b"a\n"), b"a\n")
                run.turn(True)
                suite.expect("many clients without memory", [server.ask(b"a\n") for _ in range(150)], [b""] * 150)
                run.turn(False)
                suite.expect("the last client, and the end", (server.ask(b"a\n"), server.end()), (b"a\n", 0))
                found = b"".join(one for one in server.log().splitlines(True) if level != "-v" or one == line)
                suite.expect("the lines of many clients without memory under %s" % level, found, 150 * told)


def beside_a_long_connection(suite):
    """A connection that lives on while another one is refused for want of memory keeps nobody waiting: the next client is served at once."""
    library = failed_calls.Library(suite.folder)
    run = library.run_while("memory", "ENOMEM")
    variables = dict(run.environment, PATH=os.environ["PATH"])
    with suite.start(["-v", "-c", "3"], ECHO, env=variables) as server, server.connect("127.0.0.2") as held:
        held.sendall(b"b")
        suite.expect("the one that stays", held.recv(1), b"b")
        # by this one there is a worker that waits for the next
        suite.expect("one with memory", server.ask(b"a\n"), b"a\n")
        run.turn(True)
        suite.expect("one without memory", server.ask(b"a\n"), b"")
        run.turn(False)
        with server.connect() as client:
            client.sendall(b"c")
            try:
                got = client.recv(1)
            except TimeoutError:
                got = b"nothing"
            suite.expect("the next one beside a long connection", got, b"c")


def series_without_memory(suite):
    """A series of requests is refused from each one on: the server serves on as soon as there is memory again."""
    library = failed_calls.Library(suite.folder)
    path = suite.install(RULES.replace("=mail.example", "127.0.0.1"), "series.cdb")
    wrapped = [] if suite.handed else ["-w", "recordio,fixcrio"]
    options = ["-v", "-c", "2", "-x", path, "-B", BANNER] + wrapped
    wanted = BANNER.encode() + (b"a\r\n" if wrapped else b"a\n")

    def try_one(number):
        run = library.run("memory", "ENOMEM", number * 7, number * 7 + number % 23)
        variables = dict(run.environment, PATH=os.environ["PATH"])
        with suite.start(options, ECHO, may_end=True, env=variables) as server:
            try:
                amiss = "" if server.port is None or refused_series(server, wanted) else "not served again: %r" % server.log()[-300:]
            except ConnectionError:
                amiss = ""
            if server.port is None or amiss == "" and server.process.poll() is not None:
                amiss = "" if server.end() == 111 and server.log().endswith(b": out of memory\n") else "ended: %r" % server.log()
        suite.holds("a series from request %d on" % (number * 7), not amiss, amiss)
        return run.end()

    failed_calls.one_after_another(150, try_one)


def refused_series(server, wanted):
    """Asks until two in succession are served as ever, with no more than a front before. Whether that comes."""
    whole = 0
    for _ in range(80):
        answer = server.ask(b"a\n")
        if not wanted.startswith(answer):
            return False
        whole = whole + 1 if answer == wanted else 0
        if whole == 2:
            return True
    return False


class Told(refusals.Nothing):
    """A folder in which a tool tells of a fault."""


def tools_that_refuse(suite):
    """What a tool refuses, or can't find, it tells so, or that there is no memory: never something else."""
    refused = refusals.Refusals(suite.group, suite.failures, suite.program, suite.folder)
    suite.path("rules", compiled_files.ONE_RULE_POINTERS + compiled_files.ONE_RULE[:-1])
    suite.path("hosts", TABLE + "x\n")
    suite.install(RULES, "whole.cdb")
    serving = ["127.0.0.1", "0", "true"]
    cases = [
        (["tcprules", "new", "new.tmp"], b":allow\n:denied\n"), (["tcprules", "new"], b""), (["tcprules", "a/new", "b/tmp"], b""),
        (["tcprules", "absent/new", "absent/tmp"], b":allow\n"), (["tcprulescheck", "rules"], b""), (["tcprulescheck", "absent"], b""),
        (["tcprulescheck", "."], b""), (["tcprulescheck"], b""), (["rulesim"], b"events 2\nevent admitted 1 1.1.1\n"),
        (["tcpserver", "-z"], b""), (["tcpserver", "-c", "0"] + serving, b""), (["tcpserver", "-w", "x"] + serving, b""),
        (["tcpserver", "-N", "hosts"] + serving, b""), (["tcpserver", "-N", "absent"] + serving, b""),
        (["tcpserver", "-x", "absent/rules"] + serving, b""), (["tcpserver", "192.0.2.1"] + serving[1:], b""), (["tcpserver"], b""),
        (["fixcrio", "/nonexistent"], b""), (["recordio", "/nonexistent", "x"], b""), (["addcr", "x"], b""), (["nothing"], b""),
    ]
    for words, given in cases:
        refused.each(" ".join(words), words, given, Told(suite.folder))
    suite.expect("no rules file was made", os.path.exists(suite.path("new")), False)
    suite.tests += refused.tests


def tools_without_memory(suite):
    """All requests from one on are refused: each tool can still say so."""
    library = failed_calls.Library(suite.folder)
    old, new = suite.install(":deny\n", "old.cdb"), suite.install(refusals.NEW, "new.cdb")
    files = [open(path, "rb").read() for path in (old, new)]
    cases = [
        (["rulesim"], refusals.SCRIPTS["rules, stops and questions"]), (["tcprulescheck", "new.cdb"], b""),
        (["addcr"], refusals.STREAM), (["delcr"], refusals.STREAM), (["tcprules", "old.cdb", "old.tmp"], refusals.NEW),
    ]
    for words, given in cases:

        def run_tool(variables):
            suite.path("old.cdb", files[0])
            environment = dict(refusals.PEER, **variables)
            return refusals.run([suite.program] + words, suite.folder, given, environment)

        ample, number, failed = run_tool({}), 0, True
        while failed and number < MOST:
            number += 1
            run = library.run("memory", "ENOMEM", number, failed_calls.ALL)
            outcome = run_tool(run.environment)
            failed = run.end()
            code, output, errors = outcome
            without = code == 111 and errors in (b"ucspi: out of memory\n", b"%s: out of memory\n" % words[0].encode()) and ample[1].startswith(output)
            suite.holds("%s without memory from request %d on" % (words[0], number), outcome == ample or without, repr(outcome))
            with open(old, "rb") as file:
                is_right = file.read() == files[words[0] == "tcprules" and code == 0]
            suite.holds("the rules file after %s" % words[0], is_right)
        suite.expect("%s with all its memory" % words[0], outcome, ample)


CHECKS = [
    plain_connections, all_kinds, wrappers, absent_rules, starts_that_fail, full_addresses, no_memory_for_a_while, many_without_memory,
    beside_a_long_connection, series_without_memory, tools_that_refuse, tools_without_memory,
]
COMMON = []
HANDED = [
    plain_connections, all_kinds, absent_rules, starts_that_fail, full_addresses, no_memory_for_a_while, many_without_memory, beside_a_long_connection,
    series_without_memory,
]
