"""`verdicts` of `rulesim`: the log of a real server under its own rules and under others; lines of all kinds, compared with a plain reader of logs;
a log that cannot be read to its end, or whose answers cannot be written; and a log of 100 MB.

The plain reader is written from the form of the lines, with nothing of the program in it. Lines come of a fixed series of numbers, so each run has
the same ones.
"""
import concurrent.futures
import os
import random
import re
import resource
import signal
import socket
import subprocess
import sys
import time

from shared import failed_calls, log_forms, plain_texts, server_runs
from shared.checks import needs_proved

CONNECTIONS = 2000
ADDRESSES = 250
LINES = 3000
TEXTS = 6
# a large log, and the memory in which it is read: all that the program may have, in bytes
LARGE = 100 * 1024 * 1024
MOST_MEMORY = 16 * 1024 * 1024
TIME = 3600

OCTET = rb"(?:25[0-5]|2[0-4][0-9]|1[0-9][0-9]|[1-9]?[0-9])"
ADDRESS = OCTET + rb"(?:\." + OCTET + rb"){3}"
# at most 99 visible characters, none of them %, : or ?
NAME = rb"[!-$&-9;->@-~]{0,99}"
NUMBER = rb"0|[1-9][0-9]{0,19}"
LINE = re.compile(
    rb"tcpserver: (ok|deny) (%s) %s:%s:(%s) (%s):(%s):%s:(%s)" % (NUMBER, NAME, ADDRESS, NUMBER, NAME, ADDRESS, NAME, NUMBER)
)
VERDICTS = {"allow": "ok", "deny": "deny"}
# lines of a server that are no verdict's
OTHERS = log_forms.log(log_forms.status(3, 40), log_forms.pid(7, "1.2.3.4"), log_forms.end(7), log_forms.drop(7, "out of memory")).splitlines()


# a plain reader


def told(line):
    """The verdict, number, address and name that a line tells; none where it is no verdict's, and False where it can't be read."""
    if not line.startswith((b"tcpserver: ok ", b"tcpserver: deny ")):
        return None
    read = LINE.fullmatch(line)
    if not read or int(read[2]) >= 2 ** 64 or int(read[3]) > 65535 or int(read[6]) > 65535:
        return False
    return read[1].decode(), read[2].decode(), read[5].decode(), read[4].decode()


def decided(rules, ip, host):
    """The verdict of some rules, and by what it is decided."""
    lines = plain_texts.decision(rules, (ip, "", host)).decode().split("\n")
    return VERDICTS[lines[-2].split()[0]], lines[0]


def answers(text, log):
    """What `rulesim` is to print for a log under a text."""
    rules = plain_texts.rules_in(text)[0]
    printed, numbers = [], [0, 0, 0]
    for line in log.split(b"\n"):
        read = told(line)
        if read is None:
            continue
        if not read:
            numbers[2] += 1
            continue
        was, serial, ip, host = read
        now, rule = decided(rules, ip, host)
        numbers[1] += 1
        if was != now:
            numbers[0] += 1
            printed.append("%s %s %s was %s, now %s %s" % (serial, ip, host, was, now, rule))
    printed.append("changed %d of %d" % (numbers[0], numbers[1]))
    return "".join(line + "\n" for line in printed + (["unread %d" % numbers[2]] if numbers[2] else []))


def script(text, log):
    return b"".join(b"|" + line + b"\n" for line in text.splitlines()) + b"install\nverdicts\n" + log


def run(suite, given, **how):
    """What a run of `rulesim` writes to both outputs, and its exit code."""
    ended = subprocess.run([suite.program, "rulesim"], input=given, stdout=subprocess.PIPE, stderr=subprocess.PIPE, timeout=TIME, **how)
    return ended.stdout.decode("latin-1"), ended.stderr.decode(), ended.returncode


def expect_answers(suite, name, text, log):
    suite.expect(name, run(suite, script(text, log)), ("installed\n" + answers(text, log), "", 0))


# the log of a real server


def address_of(number):
    return "127.0.%d.%d" % (number // 50 + 1, number % 50 + 1)


def name_of(number):
    """Every third address has no name; two have one that the log can't tell."""
    if number in (1, 2):
        return "%" if number == 1 else "x" * 100
    return "" if number % 3 == 0 else "h%d.%s.example" % (number, ("good", "bad")[number % 2])


TABLE = "".join("%s %s\n=%s %s\n" % (address_of(n), name_of(n), name_of(n), address_of(n)) for n in range(ADDRESSES) if name_of(n))
RULES = b'=h7.bad.example:allow,A="7"\n=.bad.example:deny\n127.0.3.:deny\n127.0.1.4:deny\n=.good.example:allow\n:allow\n'
# what changes: the rule of one name, the rule of all names but two, and an address that is of no rule by name
PLANTED = [
    (b"=h7.bad.example:allow", b"=h7.bad.example:deny", {7}),
    (b"127.0.1.4:deny", b"127.0.1.4:allow", {3}),
    (b":allow\n", b"=h5.:deny\n:allow\n", set()),
    (b"127.0.3.:deny", b"127.0.3.:deny\n127.0.2.5:deny", {54}),
    (b"=.bad.example:deny\n", b"", {n for n in range(ADDRESSES) if name_of(n).endswith(".bad.example") and n != 7 and not 100 <= n < 150}),
]


def logs_of_a_server(suite):
    """Two thousand connections under rules by name: no verdict changes under the same text, and under others those of the planted rules."""
    table, rules = suite.path("table", TABLE), suite.install(RULES)
    options = ["-v", "-c", "100", "-R", "-l", "here", "-b", "1000", "-N", table, "-p", "-x", rules]
    with suite.start(options, ["true"]) as server, concurrent.futures.ThreadPoolExecutor(8) as clients:
        for _ in clients.map(lambda number: server.ask(source=address_of(number % ADDRESSES)), range(CONNECTIONS)):
            pass
        server.wait_line(r"(ok|deny) .*", CONNECTIONS)
        server.idle()
        log = server.log()
    unread = 2 * CONNECTIONS // ADDRESSES
    counts = "of %d\nunread %d\n" % (CONNECTIONS - unread, unread)
    suite.expect("the same text", run(suite, script(RULES, log)), ("installed\nchanged 0 " + counts, "", 0))
    suite.expect("rules by name", log.count(b"tcpserver: deny "), sum(is_denied(n) for n in range(ADDRESSES)) * CONNECTIONS // ADDRESSES)
    for old, new, changed in PLANTED:
        text = RULES.replace(old, new)
        output, errors, code = run(suite, script(text, log))
        lines = output.split("\n")[1:]
        found = [line for line in lines if " was " in line]
        suite.expect("planted: %r" % new, {line.split(" ")[1] for line in found}, {address_of(n) for n in changed})
        wanted = "changed %d %s" % (len(changed) * CONNECTIONS // ADDRESSES, counts.split("\n")[0])
        suite.expect("planted: %r, how many" % new, (lines[len(found)], errors, code), (wanted, "", 0))
        suite.expect("planted: %r, all of it" % new, output, "installed\n" + answers(text, log))


def is_denied(number):
    """By the rules above, told apart by hand: an address and a whole name count before the front of an address, and that before the end of a name."""
    name = name_of(number)
    return number == 3 or 100 <= number < 150 or (name.endswith(".bad.example") and name != "h7.bad.example")


# lines of all kinds


class Logs:
    """Makes lines of a fixed series of numbers."""

    def __init__(self, seed):
        self.series = random.Random(seed)

    def seldom(self):
        return self.series.randrange(12) == 0

    def pick(self, *choices):
        return self.series.choice(choices)

    def number(self, *least):
        """A number, or what is none."""
        if self.seldom():
            return self.pick(b"", b"00", b"01", b"-1", b"+1", b" 1", b"1x", b"65536", b"%d" % (2 ** 64 - 1), b"%d" % 2 ** 64, b"9" * 30, b"\xd9\xa1")
        return b"%d" % self.series.choice([0, 1, 25, 255, 65535, *least, self.series.randrange(65536)])

    def name(self):
        if self.seldom():
            return self.pick(
                b"a?b", b"?", b"x" * 100 + b"...", b"x" * 100, b"x" * 99, b"x" * 96 + b"...", b"a" * 255, b"a%b", b"a b", b"a\tb", b"\xc3\xa9", b"a\0b",
                b"...",
            )
        return self.pick(b"", b"", b"a.example", b"A.Example", b"x.b.example", b"b", b"h=1", b"joe", b"~!$&'()*+,-./0123456789;<=>@[\\]^_`{|}")

    def address(self):
        if self.seldom():
            return self.pick(b"", b"1.2.3", b"1.2.3.4.5", b"1.2.3.256", b"01.2.3.4", b"1.2.3.", b"a.b.c.d", b"1.2..4", b"::1", b"1.2.3.4 ")
        return self.pick(b"1.2.3.4", b"1.2.3.5", b"10.0.0.255", b"2.0.0.1", b"77.0.0.1", b"0.0.0.0", b"255.255.255.255", b"1.2.2.9")

    def verdict(self):
        line = b" ".join([
            b"tcpserver: " + self.pick(b"ok", b"deny"), self.number(2 ** 64 - 1, 7), b":".join([self.name(), self.address(), self.number()]),
            b":".join([self.name(), self.address(), self.name(), self.number()]),
        ])
        if self.seldom():
            place = self.series.randrange(len(line) + 1)
            wrong = self.pick(b" ", b":", b"?", b"\xff", b"\r")
            line = self.pick(line[:place], line[:place] + wrong + line[place:], line + b" ", b" " + line, line.upper())
        return line

    def line(self):
        if self.series.randrange(4) == 0:
            return self.pick(
                b"", *OTHERS, b"tcpserver: ok", b"tcpserver: deny", b"tcpserver: ok ", b"tcpserver: okay 1 :1.2.3.4:25 :1.2.3.4::25", b"mail: connection from \xff\xfe",
                b"@4000000065b2c3d40a1b2c3c tcpserver: ok 1 :1.2.3.4:25 :1.2.3.4::25", b"tcpserver: cause: rules.cdb: Permission denied", b"install", b"|:deny",
                b"tcpserver: runs 1 process 4711", b"tcpserver: listening on 1.2.3.4:25", b"tcpserver: cause: 1: signal 9",
            )
        return self.verdict()

    def log(self, lines):
        return b"\n".join(self.line() for _ in range(lines)) + self.pick(b"", b"\n")


def lines_of_all_kinds(suite):
    """Lines of a server, cut and marked ones, and those of other writers, under texts by address and by name."""
    texts = plain_texts.Texts(0)
    for seed in range(TEXTS):
        log = Logs(seed).log(LINES)
        for text in (b":deny\n", b":allow\n") if seed == 0 else (b"",) if seed == 1 else (accepted(texts), accepted(texts)):
            expect_answers(suite, "a log under %r" % text[:200], text, log)


def accepted(texts):
    """A text that is accepted, and has rules."""
    while True:
        text = b"".join(texts.text() for _ in range(4))
        rules, _ = plain_texts.rules_in(text)
        if rules and b"\n\n" not in text and b"\r" not in text and text.endswith(b"\n"):
            return text


OK = b"tcpserver: ok 7 here:127.0.0.1:25 a.example:10.0.0.5::4242\n"
WAS_OK = "7 10.0.0.5 a.example was ok, now deny "


def small_logs(suite):
    """Each form of an answer, word by word."""
    cases = [
        ("no rules file", b"verdicts\n" + OK, WAS_OK + "no file\nchanged 1 of 1\n"),
        ("no rules file, and denied", b"verdicts\n" + OK.replace(b"ok", b"deny"), "changed 0 of 1\n"),
        ("a rule by address", b"|10.:deny\ninstall\nverdicts\n" + OK, "installed\n" + WAS_OK + "rule 10.:\nchanged 1 of 1\n"),
        ("a rule by name", b"|=.example:deny\ninstall\nverdicts\n" + OK, "installed\n" + WAS_OK + "rule =.example:\nchanged 1 of 1\n"),
        ("the rule for everyone", b"|:deny\ninstall\nverdicts\n" + OK, "installed\n" + WAS_OK + "rule :\nchanged 1 of 1\n"),
        ("no rule", b"install\nverdicts\n" + OK.replace(b"ok", b"deny"), "installed\n7 10.0.0.5 a.example was deny, now ok default:\nchanged 1 of 1\n"),
        ("no name", b"|:deny\ninstall\nverdicts\n" + OK.replace(b"a.example", b""), "installed\n7 10.0.0.5  was ok, now deny rule :\nchanged 1 of 1\n"),
        ("a user", b"|joe@10.0.0.5:deny\ninstall\nverdicts\n" + OK.replace(b"::", b":joe:"), "installed\nchanged 0 of 1\n"),
        (
            "a name in capitals", b"|=a.example:deny\ninstall\nverdicts\n" + OK.replace(b"a.e", b"A.E"),
            "installed\n7 10.0.0.5 A.Example was ok, now deny rule =a.example:\nchanged 1 of 1\n",
        ),
        ("a mark", b"verdicts\n" + OK.replace(b"a.example", b"a?example"), "changed 0 of 0\nunread 1\n"),
        ("a mark at this end", b"verdicts\n" + OK.replace(b"here", b"h?re") + OK, WAS_OK + "no file\nchanged 1 of 1\nunread 1\n"),
        ("no line feed at the end", b"verdicts\n" + OK[:-1], WAS_OK + "no file\nchanged 1 of 1\n"),
        ("an empty log", b"verdicts\n", "changed 0 of 0\n"),
        ("no log", b"verdicts", "changed 0 of 0\n"),
        ("commands behind it", b"verdicts\ninstall\nask 1.1.1.1\nnonsense\n\xff\n", "changed 0 of 0\n"),
        ("a text that is pending", b"|:deny\nverdicts\n" + OK, WAS_OK + "no file\nchanged 1 of 1\n"),
        ("a text whose installation was begun", b"|:allow\ninstall\n|:deny\nbegin\nto synced\nverdicts\n" + OK, "installed\nbegun\nsynced\nchanged 0 of 1\n"),
        (
            "a text that was put in place", b"|:allow\ninstall\n|:deny\nbegin\nto named\nverdicts\n" + OK,
            "installed\nbegun\nnamed\n" + WAS_OK + "rule :\nchanged 1 of 1\n",
        ),
    ]
    for name, given, output in cases:
        suite.expect(name, run(suite, given), (output, "", 0))
    suite.expect("a word behind verdicts", run(suite, b"verdicts x\n" + OK), ("", "rulesim: line 1: bad command\n", 100))
    suite.expect("a blank behind verdicts", run(suite, b"|:deny\nverdicts \n"), ("", "rulesim: line 2: bad command\n", 100))


# streams that fail


def streams_that_fail(suite):
    """A read that fails in the midst of a log: what was read is answered as far as its lines are whole, and the sums are not. And a full disk."""
    library = failed_calls.Library(suite.folder)
    pieces = [b"|:deny\ninstall\nverdicts\n" + OK + OK[:20], OK[20:] + OK[:5], OK[5:]]
    lines = [0, 1, 2, 3]
    for error, fault in (("EIO", "read fault"), ("ENOMEM", "out of memory")):
        for number in range(1, len(pieces) + 2):
            near, far = socket.socketpair(socket.AF_UNIX, socket.SOCK_SEQPACKET)
            with near, far:
                for piece in pieces:
                    near.send(piece)
                near.shutdown(socket.SHUT_WR)
                failed = library.run("read", error, number)
                outcome = run_from(suite, far, dict(os.environ, **failed.environment))
            output = ("installed\n" if number > 1 else "") + (WAS_OK + "rule :\n") * lines[number - 1]
            if fault == "read fault":
                suite.expect("read %d fails by %s" % (number, error), outcome, (output, "rulesim: read fault\n", 111))
            else:
                suite.holds("read %d fails by %s" % (number, error), outcome[2] == 111 and outcome[0] == output, outcome)
    with open("/dev/full", "wb") as full:
        ended = subprocess.run([suite.program, "rulesim"], input=b"verdicts\n" + OK, stdout=full, stderr=subprocess.PIPE, timeout=TIME)
    suite.expect("a full disk", (ended.stderr, ended.returncode), (b"rulesim: write fault\n", 111))
    whole = run(suite, b"verdicts\n" + OK * 3000)[0]
    for room in (0, 1, 40, 65535, 65537, len(whole) - 1):
        output, errors, code = run(suite, b"verdicts\n" + OK * 3000, preexec_fn=limited_to(suite, room))
        suite.expect("room for %d bytes" % room, (errors, code), ("rulesim: write fault\n", 111))


def run_from(suite, stdin, environment):
    ended = subprocess.run([suite.program, "rulesim"], stdin=stdin, stdout=subprocess.PIPE, stderr=subprocess.PIPE, env=environment, timeout=TIME)
    return ended.stdout.decode(), ended.stderr.decode(), ended.returncode


def limited_to(suite, room):
    """Makes standard output a file that takes only so much."""
    path = suite.path("room")

    def limit():
        descriptor = os.open(path, os.O_WRONLY | os.O_CREAT | os.O_TRUNC, 0o600)
        os.dup2(descriptor, 1)
        signal.signal(signal.SIGXFSZ, signal.SIG_IGN)
        resource.setrlimit(resource.RLIMIT_FSIZE, (room, room))

    return limit


# a large log


@needs_proved(3)
def large_log(suite):
    """A log of 100 MB, in memory that doesn't grow with it."""
    path, connections = suite.path("large"), 0
    with open(path, "wb") as file:
        file.write(b"|10.1.:deny\n|=.bad.example:deny\n|:allow\ninstall\nverdicts\n")
        while file.tell() < LARGE:
            pieces = []
            for _ in range(1000):
                connections += 1
                n, ip = connections, b"10.%d.%d.%d" % (connections % 4, connections // 256 % 256, connections % 256)
                pieces.append(log_forms.log(log_forms.pid(n, ip.decode())))
                pieces.append(b"tcpserver: ok %d mail.example:192.0.2.1:25 h%d.good.example:%s::%d\n" % (n, n % 1000, ip, n % 65536))
                pieces.append(log_forms.log(log_forms.end(n), log_forms.status(3, 40)))
            file.write(b"".join(pieces))
    began = time.monotonic()
    with open(path, "rb") as file, open(suite.path("answers"), "wb") as output:
        ended = subprocess.run(
            [suite.program, "rulesim"], stdin=file, stdout=output, stderr=subprocess.PIPE, timeout=TIME,
            preexec_fn=lambda: resource.setrlimit(resource.RLIMIT_AS, (MOST_MEMORY, MOST_MEMORY)),
        )
    took = time.monotonic() - began
    suite.expect("a large log in little memory", (ended.stderr, ended.returncode), (b"", 0))
    with open(suite.path("answers"), "rb") as output:
        lines = output.read().split(b"\n")
    wanted = sum(n % 4 == 1 for n in range(1, connections + 1))
    suite.expect("a large log, its sums", lines[-2], b"changed %d of %d" % (wanted, connections))
    suite.expect("a large log, its lines", len(lines) - 3, wanted)
    print("verdict_lines: a log of 100 MB with %d verdicts: %.1f seconds" % (connections, took))
    os.unlink(path)


CHECKS = [small_logs, lines_of_all_kinds, streams_that_fail, logs_of_a_server, large_log]
COMMON = []

if __name__ == "__main__":
    sys.exit(server_runs.main(sys.modules[__name__]))
