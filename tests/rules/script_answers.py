"""Scripts of `rulesim` and their answers: questions about rules, readers, stops during installations, lists of events, lines that are no commands;
and scripts that cannot be read to their end, or whose answers cannot be written."""
import os
import resource
import signal
import socket
import subprocess
import tempfile

from shared import failed_calls, plain_words
from shared.checks import Checks

INSTALLED, STOPPED, BEGUN = "installed", "stopped", "begun"
ALLOW, DENY = "allow connection", "deny connection"


def setting(text):
    """The line of a setting."""
    return "set environment variable " + text


def replay(limits, *events):
    """The lines of a script that replays these events under these limits."""
    return ["events " + limits, *("event " + event for event in events), "replay"]


STARTED = ("admitted 1 10.0.0.1", "opened 1 no", "decided 1 allow", "started 1")
THREE = ("admitted 1 10.0.0.1", "admitted 2 10.0.0.2", "admitted 3 10.0.0.1")
EVERY_EVENT = """
admitted 00001 10.0.0.1, opened 1 yes, decided 1 deny, dropped 1, admitted 2 10.0.0.1, opened 2 no, decided 2 allow, startfailed 2, phase fresh,
phase filling, admitted 3 255.255.255.255, opened 3 yes, phase filling, decided 3 allow, started 3, phase synced, phase named, ended 3 signal, phase done,
phase fresh, failed fresh, phase fresh, phase filling, failed synced, admitted 4 0.0.0.0, opened 4 no, decided 4 allow, started 4, ended 4 255,
admitted 5 0.0.0.0, opened 5 no, decided 5 allow, started 5, retired 5
"""
# of a script that ends well: its name, its lines and those of its answers; a byte stands as the character of its number
QUESTIONS = [
    (
        "questions about names",
        ['|joe@127.0.0.1:allow,R="1"', '|=.Example:allow,H="x"', '|:deny,D="y"', "install"]
        + ["ask 127.0.0.1 info=joe", "ask 1.1.1.1 host=A.Example", "ask 1.1.1.1 info=joe host=b.org"],
        [INSTALLED, "rule joe@127.0.0.1:", setting("R=1"), ALLOW, "rule =.example:", setting("H=x"), ALLOW, "rule :", DENY],
    ),
    (
        "names with a user and without",
        ["|Joe@=Mail.Example:deny", '|=.example:allow,A="b"', "|=:deny", "install"]
        + ["ask 1.1.1.1 info=Joe host=mail.EXAMPLE", "ask 1.1.1.1 host=mail.EXAMPLE", "ask 1.1.1.1 host=b", "ask 1.1.1.1"],
        [INSTALLED, "rule Joe@=mail.example:", DENY, "rule =.example:", setting("A=b"), ALLOW, "rule =:", DENY, "default:", ALLOW],
    ),
    ("an empty text and another address", ["install", "ask 10.0.0.1"], [INSTALLED, "default:", ALLOW]),
    (
        "two equal addresses and another one",
        ["|4.:deny", "|4.:allow", "install", "ask 4.1.1.1", "ask 6.1.1.1"],
        [INSTALLED, "rule 4.:", DENY, "default:", ALLOW],
    ),
    (
        "two addresses of one hash",
        ["|4.:deny", "|6l:allow", "install", "ask 4.1.1.1", "ask 6.1.1.1"],
        [INSTALLED, "rule 4.:", DENY, "default:", ALLOW],
    ),
    ("empty lines and comments", ["", "# a comment \xff", ""], []),
    (
        "refused texts leave the one before",
        ["|:deny", "install", "|:deny", "|1.2.3.4:allowed", "install", "ask 1.2.3.4", "|1.2.3.4:permit", "install", "|1-2-3:allow", "install"]
        + ["|:\xff", "|a:\0", "install", '|a:allow,A="\xff"', "install", '|a:allow,A="\0"', "install", "install", "ask 1.1.1.1"],
        [INSTALLED, "line 2: bad setting", "rule :", DENY, "line 1: no verdict", "line 1: bad range", "line 1: no verdict", "line 1: not text"]
        + ["line 1: nul byte", INSTALLED, "default:", ALLOW],
    ),
    (
        "a reader that is opened anew takes the place of its name",
        ["reader r", "askby r 1.1.1.1", "|:allow", "install", "reader r", "reader s", "|:deny", "install", "reader r"]
        + ["askby r 1.1.1.1 info=joe host=a.b", "askby s 1.1.1.1", "askby t 1.1.1.1", "stop kept", "askby s 1.1.1.1"],
        ["no file", "no reader", INSTALLED, "opened", "opened", INSTALLED, "opened", "rule :", DENY, "rule :", ALLOW, "no reader", STOPPED, "no reader"],
    ),
]
STOPS = [
    (
        # the rename of the second text is followed by the changes of the third, of which the last is lost
        "junk takes all changes but the last",
        ['|:allow,T="1"', "install", '|:allow,T="2"', "begin", "to named", '|:allow,T="3"', "begin", "to fresh"]
        + ["stop junk", "ask 1.1.1.1", "stop empty", "ask 1.1.1.1"],
        [INSTALLED, BEGUN, "named", BEGUN, "fresh", STOPPED, "rule :", setting("T=2"), ALLOW, STOPPED, "rule :", setting("T=2"), ALLOW],
    ),
    (
        "a stop before any name is settled",
        ["|:deny", "begin", "to named", "ask 1.1.1.1", "stop empty", "ask 1.1.1.1", "|:deny", "begin", "to named", "stop kept", "ask 1.1.1.1"],
        [BEGUN, "named", "rule :", DENY, STOPPED, "no file", BEGUN, "named", STOPPED, "rule :", DENY],
    ),
    (
        "a phase that is passed makes no step",
        ["to done", "|:deny", "begin", "to synced", "to fresh", "to synced", "ask 1.1.1.1", "to done", "to fresh", "ask 1.1.1.1", "install", "to done"]
        + ["|x:y", "begin", "to fresh", "|:allow", "begin", "stop kept", "to fresh"],
        ["none", BEGUN, "synced", "synced", "synced", "no file", "done", "done", "rule :", DENY, INSTALLED, "none"]
        + ["line 1: no verdict", "none", BEGUN, STOPPED, "none"],
    ),
    (
        "a stop keeps the pending text and the events",
        ["events 1", "event admitted 1 1.1.1.1", "|:deny", "stop empty", "install", "ask 1.1.1.1", "replay"],
        [STOPPED, INSTALLED, "rule :", DENY, "admitted 1 live 1 retired 0 most 1"],
    ),
]
EVENTS = [
    ("a retired connection", replay("1", *STARTED, "retired 1"), ["admitted 1 live 1 retired 1 most 1"]),
    ("a retired connection keeps its place", replay("1", *STARTED, "retired 1", "admitted 2 10.0.0.1"), ["illegal 6"]),
    (
        "a retired connection is gone after a stop",
        replay("1", *STARTED, "retired 1", "stop", "admitted 2 10.0.0.1"),
        ["admitted 2 live 1 retired 0 most 1"],
    ),
    ("two connections of one address where two may be", replay("3 2", *THREE), ["admitted 3 live 3 retired 0 most 3"]),
    ("no limit per address", replay("3", *THREE), ["admitted 3 live 3 retired 0 most 3"]),
    (
        "every event and phase",
        replay("00010000 10000", *(event.strip() for event in EVERY_EVENT.split(","))),
        ["admitted 5 live 1 retired 1 most 1"],
    ),
    (
        "an answer changes nothing, and a list begins anew",
        ["events 1", "event admitted 1 1.1.1.1", "replay", "replay", "|:deny", "install", "event stop", "ask 1.1.1.1", "replay", "events 1", "replay"],
        ["admitted 1 live 1 retired 0 most 1"] * 2
        + [INSTALLED, "rule :", DENY, "admitted 1 live 0 retired 0 most 1", "admitted 0 live 0 retired 0 most 0"],
    ),
    ("the greatest serial", replay("1", "admitted 18446744073709551615 1.1.1.1"), ["illegal 1"]),
]
# a last line without a line feed: the script as it stands, and its answers
UNENDED = [
    ("an installation without a line feed", "|:deny\ninstall", [INSTALLED]),
    ("a question without a line feed", "install\nask 1.1.1.1", [INSTALLED, "default:", ALLOW]),
    ("a name of full length", "install\nask 1.1.1.1 host=" + "a" * 255, [INSTALLED, "default:", ALLOW]),
]

# the names of a peer at 1.2.3.4, and its lookup forms in order
FORMS = [
    (
        " info=joe host=A.B.Example",
        ["joe@1.2.3.4", "joe@=a.b.example", "1.2.3.4", "=a.b.example", "1.2.3.", "1.2.", "1.", "=.b.example", "=.example", "=", ""],
    ),
    (" host=.", ["1.2.3.4", "=.", "1.2.3.", "1.2.", "1.", "=", ""]),
    (" host=.a.b", ["1.2.3.4", "=.a.b", "1.2.3.", "1.2.", "1.", "=.b", "=", ""]),
    (" host=a.", ["1.2.3.4", "=a.", "1.2.3.", "1.2.", "1.", "=.", "=", ""]),
    (" info=a=B@C", ["a=b@c@1.2.3.4", "1.2.3.4", "1.2.3.", "1.2.", "1.", ""]),
    ("", ["1.2.3.4", "1.2.3.", "1.2.", "1.", ""]),
]

# Lines that are no commands. The first ones each stand as the third line of a script that installs before and asks after.
BAD_COMMANDS = [
    "install ", " install", "install now", "Install", "ask", "ask ", "ask 01.1.1.1", "ask 1.1.1.256", "ask  1.1.1.1", "ask 1.1.1.1 ",
    "ask 1.1.1.1\r", "ask 1.1.1.1 host=", "ask 1.1.1.1 info=", "ask 1.1.1.1 host=a info=b", "ask 1.1.1.1 info=a info=b",
    "ask 1.1.1.1 info=a host=b c", "ask 1.1.1.1 other=b", "ask 1.1.1.1 host=a\0b", "other", "event stop", "replay", "begin now", "to", "to end",
    "to fresh filling", "stop", "stop all", "stop kept kept", "reader", "reader ", "reader r s", "askby", "askby r", "askby  1.1.1.1", "askby r 1.1.1",
    "askby r 1.1.1.1 host=",
]
# These each stand as the third line of a script that begins a list of events before, and replays it before and after.
BAD_EVENTS = [
    "events", "events 0", "events 10001", "events 1 0", "events 1 10001", "events 1 1 1", "events +1", "events 1 ", "event", "event ", "event other",
    "event admitted 1", "event admitted 1 1.1.1", "event admitted 1 01.1.1.1", "event admitted 1 1.1.1.1 info=joe",
    "event admitted 18446744073709551616 1.1.1.1", "event admitted -1 1.1.1.1", "event opened 1", "event opened 1 maybe", "event decided 1 allowed",
    "event started", "event started x", "event started 1 2", "event startfailed", "event ended 1", "event ended 1 256", "event ended 1 Signal",
    "event retired", "event dropped 1 1", "event phase", "event phase Fresh", "event phase fresh fresh", "event failed other", "event stop 1",
    "event Stop", "replay 1", "Replay",
]
# others: the whole script, its answers, and the line that is none
BAD_LINES = [
    ("a command that is not UTF-8", "install\xff\n", [], 1),
    ("a name that is too long", "install\nask 1.1.1.1 host=" + "a" * 256, [INSTALLED], 2),
]

# a script in the pieces in which it is read, with the answers that are printed once a piece was read
PIECES = [
    ("inst", []),
    ("all\nask 1.1.1.1\nas", [INSTALLED, "default:", ALLOW]),
    ("k 2.2.2.2", []),
    ("\n|:deny\n", ["default:", ALLOW]),
    ("install\nask 1.1.1.1\n", [INSTALLED, "rule :", DENY]),
]
READ_FAULTS = [("EIO", "read fault"), ("ENOMEM", "out of memory")]
# what is read of a script before a read fails, and what is answered
UNREAD = [("nothing", [], ""), ("a part of a line", ["install\nask"], "installed\n"), ("a whole line", ["install\n"], "installed\n")]
# A script and its answers; what is written of them where all writes fail, all but the first, or none; and how many bytes of them a file can take.
ANSWERED = ("install\nask 1.1.1.1\n", "installed\ndefault:\nallow connection\n")
WRITE_ERRORS = ["EIO", "ENOSPC", "ENOMEM"]
WRITTEN = ["", "installed\n", ANSWERED[1]]
ROOMS = [0, 5, 10, 20, 35, 36, 37]


def text_of(lines):
    return "".join(line + "\n" for line in lines)


def limited_to(room):
    """What makes a run write no more than so many bytes to a file: a write beyond fails."""
    def limit():
        signal.signal(signal.SIGXFSZ, signal.SIG_IGN)
        resource.setrlimit(resource.RLIMIT_FSIZE, (room, room))

    return limit


def stops_in_turn():
    """A stop of each kind where an installation of `:deny` over `:allow` has begun, and at each phase: what decides before it, and what it leaves. From the
    rename on that is the new text if the stop takes all changes of names, and once these are settled the new text alone. Then rules are installed again."""
    for phase in (None, *plain_words.PHASES):
        steps, reached = (["to " + phase], [phase]) if phase else ([], [])
        for stop in ("kept", "empty", "junk"):
            before = DENY if phase in ("named", "done") else ALLOW
            left = DENY if phase == "done" or (phase, stop) == ("named", "kept") else ALLOW
            script = ["|:allow", "install", "|:deny", "begin", *steps, "ask 1.1.1.1", "stop " + stop, "ask 1.1.1.1", "|1.:deny", "install", "ask 1.1.1.1"]
            wanted = [INSTALLED, BEGUN, *reached, "rule :", before, STOPPED, "rule :", left, INSTALLED, "rule 1.:", DENY]
            yield "stop %s at %s" % (stop, phase or "the beginning"), script, wanted


def bad_command(number):
    return "rulesim: line %d: bad command\n" % number


def bad_forms():
    """Each event with a field more, with one less, and with one that is none."""
    for name, event in plain_words.EVENTS.items():
        words = ["event", name] + [str(field.some[0]) for field in event.fields]
        yield " ".join(words + ["1"])
        for place in range(2, len(words)):
            yield " ".join(words[:place] + words[place + 1:])
            yield " ".join(words[:place] + ["?"] + words[place + 1:])


def cases():
    """Name, script, standard output, standard error, exit code."""
    for name, script, answers in [*QUESTIONS, *STOPS, *stops_in_turn(), *EVENTS]:
        yield name, text_of(script), text_of(answers), "", 0
    for name, script, answers in UNENDED:
        yield name, script, text_of(answers), "", 0
    for names, forms in FORMS:
        for place, form in enumerate(forms):
            # the rules of all later forms stand in front of that which decides, and then behind it
            for rules in (forms[:place:-1] + [form], forms[place:]):
                script = ["|%s:deny" % rule for rule in rules] + ["install", "ask 1.2.3.4" + names]
                yield "the form %r of%s" % (form, names), text_of(script), text_of([INSTALLED, "rule %s:" % form, DENY]), "", 0
    for line in BAD_COMMANDS:
        yield "the line %r" % line, "|:deny\ninstall\n%s\nask 1.1.1.1\n" % line, "installed\n", bad_command(3), 100
    for line in BAD_EVENTS:
        yield "the line %r" % line, "events 1\nreplay\n%s\nreplay\n" % line, "admitted 0 live 0 retired 0 most 0\n", bad_command(3), 100
    for line in bad_forms():
        yield "the line %r" % line, "events 1\nreplay\n%s\nreplay\n" % line, "admitted 0 live 0 retired 0 most 0\n", bad_command(3), 100
    for name, script, answers, number in BAD_LINES:
        yield name, script, text_of(answers), bad_command(number), 100


class Scripts(Checks):
    """Runs of scripts, each compared with what is wanted."""

    def __init__(self, program, library, failures):
        super().__init__("script_answers", failures)
        self.program = program
        self.library = library

    def run(self, **how):
        """What a run of `rulesim` writes to both outputs, and its exit code."""
        with tempfile.TemporaryFile() as output:
            ended = subprocess.run([self.program, "rulesim"], stdout=output, stderr=subprocess.PIPE, timeout=600, **how)
            output.seek(0)
            return output.read().decode("latin-1"), ended.stderr.decode(), ended.returncode

    def script(self, name, wanted, **how):
        """One run, which has to write this and end so."""
        self.expect(name, self.run(**how), wanted)

    def run_failed(self, name, failure, is_met, **how):
        """A run with failed calls, if there are such calls."""
        outcome = self.run(env=dict(os.environ, **failure.environment), **how)
        if failure.end() != is_met:
            self.fail(name, "no call failed" if is_met else "a call failed")
        return outcome

    def unread(self, name, wanted, pieces, error, number, is_met=True):
        """A run that reads these pieces one by one, and whose read with this number fails."""
        near, far = socket.socketpair(socket.AF_UNIX, socket.SOCK_SEQPACKET)
        with near, far:
            for piece in pieces:
                near.send(piece.encode("latin-1"))
            near.shutdown(socket.SHUT_WR)
            outcome = self.run_failed(name, self.library.run("read", error, number), is_met, stdin=far)
        self.expect(name, outcome, wanted)

    def unwritten(self, error, number, written, is_met):
        """Runs of which the write with this number fails, or all from that number on, the line on standard error too."""
        name, given, answers = "%s at write %d" % (error, number), ANSWERED[0].encode(), ANSWERED[1]
        output, errors, code = self.run_failed(name, self.library.run("write", error, number), is_met, input=given)
        is_right = (errors, code) == ("rulesim: write fault\n", 111) and answers.startswith(output) if is_met else (output, errors, code) == (answers, "", 0)
        self.holds(name, is_right, (output, errors, code))
        outcome = self.run_failed(name, self.library.run("write", error, number, failed_calls.ALL), is_met, input=given)
        self.expect(name + " and all after it", outcome, (written, "", 111 if is_met else 0))


def check_unread(scripts):
    """Each read fails in turn: what was read before is answered, as far as its lines are whole, and nothing more."""
    for error, fault in READ_FAULTS:
        errors = "rulesim: %s\n" % fault
        for name, pieces, answers in UNREAD:
            scripts.unread("%s, and then %s" % (name, error), (answers, errors, 111), pieces, error, len(pieces) + 1)
        pieces = [piece for piece, _ in PIECES]
        # the last read finds the end, and there is none after it
        for number in range(1, len(PIECES) + 3):
            answers = text_of(line for _, lines in PIECES[:number - 1] for line in lines)
            is_met = number <= len(PIECES) + 1
            wanted = (answers, errors, 111) if is_met else (answers, "", 0)
            scripts.unread("%s at read %d" % (error, number), wanted, pieces, error, number, is_met)


def check_unwritten(scripts):
    """Each write fails in turn, or a file takes only so much: a front of the answers is written, and the fault is told."""
    script, answers = ANSWERED
    for error in WRITE_ERRORS:
        for number, written in enumerate(WRITTEN, 1):
            scripts.unwritten(error, number, written, written != answers)
    for room in ROOMS:
        wanted = (answers[:room], "rulesim: write fault\n", 111) if room < len(answers) else (answers, "", 0)
        scripts.script("room for %d bytes" % room, wanted, input=script.encode(), preexec_fn=limited_to(room))


def check(program, failures):
    """Runs all scripts, and answers how many runs were made."""
    with tempfile.TemporaryDirectory() as folder:
        scripts = Scripts(program, failed_calls.Library(folder), failures)
        for name, script, output, errors, code in cases():
            scripts.script(name, (output, errors, code), input=script.encode("latin-1"))
        check_unread(scripts)
        check_unwritten(scripts)
    return scripts.tests
