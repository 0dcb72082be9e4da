"""Rules under a running `tcpserver`: texts that are installed while connections come, a rule for each address, and files that are damaged,
unreadable or absent."""
import os
import pwd
import stat

from shared import compiled_files, log_forms, plain_texts, server_runs, small_programs
from shared.clients import Pool
from shared.server_runs import read_all

TEXTS = 100
CONNECTIONS = 2000
CLIENTS = 40
SHOW = ["sh", "-c", "echo $A $B $C"]


def text_of(number):
    """Text `number`: it denies one of four networks and names itself three times in each other rule, at the front, in the middle and at the end."""
    denied = number % 4
    value = 'A="%d",B="%d",C="%d"' % (number, number, number)
    lines = ["127.0.%d.:%s" % (network, "deny" if network == denied else "allow," + value) for network in range(4)]
    filling = ['10.%d.0-255.:allow,%s' % (n, value) for n in range(number % 7 * 3)]
    return "\n".join(lines[:2] + filling + lines[2:] + [":deny"]) + "\n"


class Installations:
    """Installs one text after another, and tells which was begun last and which is known to be installed."""

    def __init__(self, suite, path):
        self.suite = suite
        self.begun = self.done = 0
        self.path = path
        self.install(0)

    def install(self, number):
        self.begun = number
        self.suite.install(text_of(number), os.path.basename(self.path))
        self.done = number


class Askers(Pool):
    """Clients that ask one after another, and note what they got, with the texts that may have decided it."""

    def __init__(self, server, installations, number):
        super().__init__(server, ["127.0.%d.%d" % (n % 4, n // 4 % 250 + 1) for n in range(number)], CLIENTS)
        self.installations = installations
        self.answers = []

    def serve(self, source):
        first = self.installations.done
        answer = self.asked(source=source)
        self.answers.append((source, answer, range(first, self.installations.begun + 1)))


def is_of_one_text(source, answer, texts):
    """Whether one of these texts gives this answer, and only by itself."""
    network = int(source.split(".")[2])
    if answer == b"":
        return any(number % 4 == network for number in texts)
    return any(answer == b"%d %d %d\n" % (number, number, number) and number % 4 != network for number in texts)


def installed_meanwhile(suite):
    """A hundred texts are installed while two thousand connections come: each is decided by one whole text, no older than the last one that was
    installed before it came."""
    path = suite.path("changing.cdb")
    installations = Installations(suite, path)
    with suite.start(["-v", "-x", path] + server_runs.QUIET, SHOW) as server:
        askers = Askers(server, installations, CONNECTIONS).start()
        for number in range(1, TEXTS + 1):
            installations.install(number)
        answers = askers.finish().answers
        wrong = [answer for answer in answers if not is_of_one_text(*answer)]
        suite.expect("answers of two thousand connections", len(answers), CONNECTIONS)
        suite.expect("answers that no whole text gives", wrong[:5], [])
        suite.holds("some are denied and some allowed", 0 < sum(answer == b"" for _, answer, _ in answers) < CONNECTIONS)
        suite.expect("the last text", server.ask(source="127.0.3.1"), b"%d %d %d\n" % (TEXTS, TEXTS, TEXTS))
        server.idle()
        events = suite.audit("rules that change", server)
        if events:
            suite.expect("each was let in", events.admitted, CONNECTIONS + 1)


def new_rules(suite):
    """One connection under a text, then another text, and the next connection is decided by it."""
    path = suite.install(":deny\n", "new.cdb")
    with suite.start(["-v", "-c", "1", "-x", path] + server_runs.QUIET, ["echo", "hi"]) as server:
        for text, wanted in ((":deny\n", b""), (":allow\n", b"hi\n"), ("127.0.0.1:deny\n", b""), ("", b"hi\n"), (":deny\n", b"")):
            suite.install(text, "new.cdb")
            suite.expect("a connection under %r" % text, server.ask(), wanted)
        server.idle()
        suite.audit("new rules", server)


def old_rules(suite):
    """A connection that was decided goes on under new rules."""
    path = suite.install(":allow\n", "old.cdb")
    with suite.start(["-v", "-x", path] + server_runs.QUIET, ["sh", "-c", "echo hi; read a; echo $a"]) as server, server.connect() as client:
        suite.expect("a connection under old rules", client.recv(3), b"hi\n")
        suite.install(":deny\n", "old.cdb")
        suite.expect("another one under new rules", server.ask(b"b\n"), b"")
        client.sendall(b"a\n")
        suite.expect("the first goes on", read_all(client), b"a\n")
        server.idle()
        suite.audit("old rules", server)


def answer_of(rules, source):
    """What `echo $A $B $C` prints for a client, by a plain reading of the rules; nothing where it is denied."""
    lines = plain_texts.decision(rules, (source, "", "")).decode().splitlines()
    if lines[-1] == "deny connection":
        return b""
    settings = dict(line[len("set environment variable "):].split("=", 1) for line in lines if line.startswith("set "))
    return (" ".join(settings[name] for name in "ABC" if name in settings) + "\n").encode()


def each_address(suite):
    """A client from each address of a few ranges, with its rule and its settings."""
    text = (
        '127.0.0.10-40:allow,A="ten"\n127.0.0.20-25:deny\n127.0.0.41:allow,A="a",B="b",C="c"\n127.0.0.50-60:deny,A="x"\n127.0.0.:allow,C="rest"\n'
        '127.0.1-2.:allow,B="nets"\n127.0.3.-2:allow,A="low"\n127.0.3.250-999:allow,A="high"\n127.0.3.:deny\n127.0.4.07-8:allow,A="zeros"\n127.:allow\n'
    )
    rules, fault = plain_texts.rules_in(text.encode())
    path = suite.install(text, "ranges.cdb")
    sources = ["127.0.0.%d" % n for n in range(1, 70)] + ["127.0.%d.%d" % (net, n) for net in (1, 2, 3, 4) for n in (1, 2, 3, 7, 8, 9, 249, 250, 254)]
    with suite.start(["-v", "-x", path] + server_runs.QUIET, SHOW) as server:
        for source in sources:
            suite.expect("an address of a range: " + source, (fault, server.ask(source=source)), (None, answer_of(rules, source)))
        server.idle()
        events = suite.audit("each address", server)
        denied = sum(answer_of(rules, source) == b"" for source in sources)
        if events:
            suite.expect("denied by the log", sum(line.startswith("deny ") for line in server.lines()), denied)


def many_rules(suite):
    """Twenty thousand rules, the first, the last and one that is not there."""
    text = "".join('127.%d.%d.1:allow,A="%d"\n' % (n // 200 + 1, n % 200 + 1, n) for n in range(20000)) + ":deny\n"
    path = suite.install(text, "many.cdb")
    with suite.start(["-x", path] + server_runs.QUIET, SHOW) as server:
        for n in (0, 1, 199, 200, 9999, 19999):
            suite.expect("rule %d of many" % n, server.ask(source="127.%d.%d.1" % (n // 200 + 1, n % 200 + 1)), b"%d\n" % n)
        suite.expect("no rule of many", server.ask(source="127.1.1.2"), b"")


def damaged(suite):
    """Rules that are cut at each length are refused, and the server goes on; whole ones put in their place count at once."""
    whole = compiled_files.ONE_RULE_POINTERS + compiled_files.ONE_RULE
    path = suite.path("damaged.cdb", whole)
    with suite.start(["-v", "-x", path], ["echo", "hi"]) as server:
        number = 0
        for length in list(range(0, 2048, 97)) + list(range(2046, 2074)):
            with open(path + ".new", "wb") as file:
                file.write(whole[:length])
            os.rename(path + ".new", path)
            number += 1
            suite.expect("rules cut to %d bytes" % length, server.ask(), b"")
            server.wait_line(log_forms.drop(number, "rules damaged"))
        server.idle()
        suite.expect("each was dropped", sum("rules damaged" in line for line in server.lines()), number)
        suite.install(":allow\n", "damaged.cdb")
        suite.expect("whole rules after damaged ones", server.ask(), b"hi\n")
        server.idle()
        suite.audit("damaged rules", server)


def changing_places(suite):
    """A path under which there are rules, nothing, a folder, a folder's rules, and rules again."""
    path = suite.install(":allow\n", "place.cdb")
    with suite.start(["-v", "-c", "1", "-x", path], ["echo", "hi"]) as server:
        suite.expect("rules", server.ask(), b"hi\n")
        os.remove(path)
        suite.expect("no rules", server.ask(), b"")
        server.wait_line(log_forms.verdict("deny", 2, ".*", ".*"))
        os.mkdir(path)
        suite.expect("a folder", server.ask(), b"")
        server.wait_line(log_forms.drop(3, "directory fault"))
        os.rmdir(path)
        os.mkfifo(path)
        suite.expect("a named pipe", server.ask(), b"")
        server.wait_line(log_forms.drop(4, "directory fault"))
        os.remove(path)
        suite.install(":allow\n", "place.cdb")
        suite.expect("rules again", server.ask(), b"hi\n")
        server.idle()
        suite.audit("a path whose file changes", server)


def held_opens(suite, **words):
    """The environment of a server whose opens of its rules are held up by force (`held_opens.c`). It has to have a host table, since a server without one
    looks for names in its rules at the start."""
    library = small_programs.library("server/held_opens.c", suite.folder)
    return {"env": dict(os.environ, LD_PRELOAD=library, **{"HELD_" + name.upper(): str(value) for name, value in words.items()})}


def opened_side_by_side(suite):
    """Each connection opens the rules for itself: an open that goes on only once five are under way holds up none of five clients."""
    path = suite.install("127.0.0.2:deny\n:allow\n", "side.cdb")
    how = held_opens(suite, path=path, mark=suite.path("opens"), until=5)
    with suite.start(["-v", "-N", "/dev/null", "-c", "5", "-x", path], ["echo", "hi"], **how) as server:
        clients = [server.connect("127.0.0.%d" % number) for number in (1, 2, 3, 4, 5)]
        got = [read_all(client) for client in clients]
        suite.expect("five clients at once", got, [b"hi\n", b"", b"hi\n", b"hi\n", b"hi\n"])
        server.idle()
        suite.audit("opens side by side", server)


def pipe_in_between(suite):
    """A named pipe that comes into the place of the rules after they were looked at holds up the one connection that opens it, and nobody else;
    once somebody writes to the pipe it is a directory fault."""
    path, pipe = suite.install(":allow\n", "between.cdb"), suite.path("a-pipe")
    os.mkfifo(pipe, 0o644)
    with suite.start(["-v", "-N", "/dev/null", "-c", "2", "-x", path], ["echo", "hi"], **held_opens(suite, path=path, pipe=pipe)) as server:
        held = server.connect()
        server_runs.wait_until("the pipe in the place of the rules", lambda: stat.S_ISFIFO(os.stat(path).st_mode))
        suite.expect("a client while the pipe stands there", server.ask(), b"")
        server.wait_line(log_forms.drop(2, "directory fault"))
        os.rename(path, pipe)
        suite.install(":allow\n", "between.cdb")
        for _ in range(3):
            suite.expect("a client once the rules stand there again", server.ask(), b"hi\n")
        suite.expect("the first client waits", any(line.startswith("drop 1 ") for line in server.lines()), False)
        os.close(os.open(pipe, os.O_WRONLY))
        suite.expect("the first client", read_all(held), b"")
        server.wait_line(log_forms.drop(1, "directory fault"))
        server.idle()
        suite.audit("a pipe in between", server)


def folder_that_goes(suite):
    """The folder of the rules goes, and comes back."""
    folder = suite.path("goes")
    os.mkdir(folder)
    suite.install(":allow\n", "goes/rules.cdb")
    with suite.start(["-v", "-x", folder + "/rules.cdb"], ["echo", "hi"]) as server:
        suite.expect("rules in a folder", server.ask(), b"hi\n")
        os.rename(folder, folder + ".away")
        suite.expect("rules in a folder that went", server.ask(), b"")
        server.idle()
        os.rename(folder + ".away", folder)
        suite.expect("rules in a folder that came back", server.ask(), b"hi\n")
        server.idle()
        suite.audit("a folder that goes", server)


def unreadable(suite):
    """Rules that the server's user may not read, or may not look at, are a directory fault, under -X too."""
    if os.geteuid() != 0:
        return
    nobody = pwd.getpwnam("nobody")
    how = {"user": nobody.pw_uid, "group": nobody.pw_gid, "extra_groups": []}
    folder = suite.path("closed")
    os.mkdir(folder, 0o755)
    path = suite.install(":allow\n", "closed/rules.cdb")
    program = suite.program if suite.original else suite.path("ucspi-copy", open(suite.program, "rb").read())
    os.chmod(program, os.stat(program).st_mode | stat.S_IRWXU | 0o055)
    before, suite.command = suite.command, [program, "tcpserver"]
    try:
        for options in ([], ["-X"]):
            with suite.start(["-v", "-x", path] + options, ["echo", "hi"], **how) as server:
                suite.expect("rules that may be read", server.ask(), b"hi\n")
                os.chmod(path, 0)
                suite.expect("rules that may not be read", server.ask(), b"")
                server.wait_line(log_forms.drop(2, "directory fault"))
                os.chmod(path, 0o644)
                os.chmod(folder, 0)
                suite.expect("rules in a closed folder", server.ask(), b"")
                server.wait_line(log_forms.drop(3, "directory fault"))
                os.chmod(folder, 0o755)
                suite.expect("rules that may be read again", server.ask(), b"hi\n")
                server.idle()
                suite.audit("rules that may not be read", server)
    finally:
        suite.command = before
        os.chmod(folder, 0o755)


CHECKS = [
    new_rules, old_rules, each_address, many_rules, damaged, changing_places, opened_side_by_side, pipe_in_between, folder_that_goes, unreadable, installed_meanwhile,
]
COMMON = [new_rules, old_rules, each_address, many_rules, installed_meanwhile]
HANDED = [new_rules, old_rules, each_address, opened_side_by_side, pipe_in_between, installed_meanwhile]
