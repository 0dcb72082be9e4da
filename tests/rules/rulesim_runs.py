"""Command lines of the program and scripts of `rulesim`: a table of them, each with its environment, standard input and what is expected; lines, texts and
files at their limits; and standard streams that fail.
"""
import os
import subprocess
import tempfile

from shared.checks import LIMIT, Runs, needs_proved

UCSPI_USAGE = "ucspi: usage: ucspi TOOL ...\n"
RULESIM_USAGE = "rulesim: usage: rulesim\n"
STORED_RUN = (
    "|10.3.0.1:allow\n|10.:deny\ninstall\nask 10.3.0.1\nask 10.3.0.2\nask 11.0.0.1\n",
    "installed\nrule 10.3.0.1:\nallow connection\nrule 10.:\ndeny connection\n"
    "default:\nallow connection\n",
)
RANGE = "|1.2.3.37-53:allow\n|:deny\ninstall\n"
SETTINGS = (
    '|joe@127.0.0.1:allow,R="1"\n|18.23.0.32:allow,R="2"\n|127.:allow,R="3"\n|:allow,R="4"\n'
    "install\n"
)
STARTED = ("admitted 1 10.0.0.1", "opened 1 no", "decided 1 allow", "started 1")
RETIRED = ("admitted 1 1.1.1.1", "opened 1 no", "decided 1 allow", "started 1", "retired 1")


def replay(limits, *events):
    """A script that replays these events under these limits."""
    return "".join(line + "\n" for line in ["events " + limits] + ["event " + event for event in events] + ["replay"])


def allow(rule, *settings):
    """The lines of an allowed connection."""
    lines = [rule] + ["set environment variable " + s for s in settings] + ["allow connection"]
    return "".join(line + "\n" for line in lines)


def deny(rule):
    """The lines of a denied connection."""
    return rule + "\ndeny connection\n"


# name, words, the whole environment, standard input, standard output, standard error, exit code
CASES = [
    ("no words", [], {}, STORED_RUN[0], STORED_RUN[1], "", 0),
    ("the stored run", ["rulesim"], {}, STORED_RUN[0], STORED_RUN[1], "", 0),
    (
        "an environment that names a user and an address, which rulesim doesn't read",
        ["rulesim"],
        {"TCPREMOTEIP": "10.3.0.2", "TCPREMOTEINFO": "joe", "TCPREMOTEHOST": "b.example"},
        STORED_RUN[0],
        STORED_RUN[1],
        "",
        0,
    ),
    ("an empty script", ["rulesim"], {}, "", "", "", 0),
    ("an empty text", ["rulesim"], {}, "install\nask 1.1.1.1\n", "installed\n" + allow("default:"), "", 0),
    ("one rule", ["rulesim"], {}, "|:deny\ninstall\nask 10.0.0.1\n", "installed\n" + deny("rule :"), "", 0),
    ("no file", ["rulesim"], {}, "ask 1.1.1.1\n", "no file\n", "", 0),
    (
        "a reader that keeps its text",
        ["rulesim"],
        {},
        '|:allow,T="1"\ninstall\nreader r\n|:allow,T="2"\ninstall\n|:deny\ninstall\naskby r 10.0.0.1\nask 10.0.0.1\n',
        "installed\nopened\ninstalled\ninstalled\n" + allow("rule :", "T=1") + deny("rule :"),
        "",
        0,
    ),
    (
        "a reader without a name",
        ["rulesim"],
        {},
        "|:deny\ninstall\nreader \n",
        "installed\n",
        "rulesim: line 3: bad command\n",
        100,
    ),
    ("an unknown tool", ["tcpclient"], {}, "", "", UCSPI_USAGE, 100),
    ("a tool's name in capitals", ["Rulesim"], {}, "", "", UCSPI_USAGE, 100),
    ("an empty word", [""], {}, "", "", UCSPI_USAGE, 100),
    ("an option", ["-v"], {}, "", "", UCSPI_USAGE, 100),
    ("a first word that is not UTF-8", [b"\xff"], {}, "", "", UCSPI_USAGE, 100),
    ("a word too many", ["rulesim", "x"], {}, "", "", RULESIM_USAGE, 100),
    ("an empty word too many", ["rulesim", ""], {}, "", "", RULESIM_USAGE, 100),
    ("a word too many that is not UTF-8", ["rulesim", b"\xff"], {}, "", "", RULESIM_USAGE, 100),
    ("a word of 100,000 bytes", ["x" * 100000], {}, "", "", UCSPI_USAGE, 100),
    (
        "a range of addresses",
        ["rulesim"],
        {},
        RANGE + "ask 1.2.3.36\nask 1.2.3.37\nask 1.2.3.53\nask 1.2.3.54\n",
        "installed\n" + deny("rule :") + allow("rule 1.2.3.37:") + allow("rule 1.2.3.53:") + deny("rule :"),
        "",
        0,
    ),
    (
        "a range of prefixes",
        ["rulesim"],
        {},
        "|10.2-3.:deny\n|10.3.0.1:allow\ninstall\nask 10.3.0.1\nask 10.3.0.2\nask 10.4.0.1\n",
        "installed\n" + allow("rule 10.3.0.1:") + deny("rule 10.3.:") + allow("default:"),
        "",
        0,
    ),
    (
        "settings for a user, an address, a prefix and all",
        ["rulesim"],
        {},
        SETTINGS + "ask 127.0.0.1 info=joe\nask 127.0.0.1 info=bill\nask 18.23.0.32\nask 10.119.75.38\n",
        "installed\n"
        + allow("rule joe@127.0.0.1:", "R=1")
        + allow("rule 127.:", "R=3")
        + allow("rule 18.23.0.32:", "R=2")
        + allow("rule :", "R=4"),
        "",
        0,
    ),
    (
        "of two equal addresses the first",
        ["rulesim"],
        {},
        "|4.:deny\n|4.:allow\ninstall\nask 4.1.1.1\n",
        "installed\n" + deny("rule 4.:"),
        "",
        0,
    ),
    (
        "faulty texts",
        ["rulesim"],
        {},
        "|:deny\n|1.2.3.4:allowed\ninstall\n|1.2.3.4:allow,X\ninstall\n|1.2.3.4:permit\ninstall\n"
        "|nothing here\ninstall\n",
        "line 2: bad setting\nline 1: bad setting\nline 1: no verdict\ninstalled\n",
        "",
        0,
    ),
    (
        "other kinds of faults",
        ["rulesim"],
        {},
        b"|1-2-3:allow\ninstall\n|a:allow,A=\"\xff\"\ninstall\n|a:allow,A=\"\0\"\ninstall\n"
        b"|a:allow" + b',A=""' * 13107 + b"\ninstall\n",
        "line 1: bad range\nline 1: not text\nline 1: nul byte\nline 1: long line\n",
        "",
        0,
    ),
    (
        "a bad command",
        ["rulesim"],
        {},
        "|:deny\ninstall\nask 1.1.1\nask 1.1.1.1\n",
        "installed\n",
        "rulesim: line 3: bad command\n",
        100,
    ),
    ("a line that is not UTF-8", ["rulesim"], {}, b"#\xff\n|\xff\ninst\xff\n", "", "rulesim: line 3: bad command\n", 100),
    ("a NUL in a command", ["rulesim"], {}, b"install\0\n", "", "rulesim: line 1: bad command\n", 100),
    ("a blank at a line's end", ["rulesim"], {}, "install \n", "", "rulesim: line 1: bad command\n", 100),
    (
        "a second connection while the first lives",
        ["rulesim"],
        {},
        replay("1", *STARTED, "admitted 2 10.0.0.2"),
        "illegal 5\n",
        "",
        0,
    ),
    (
        "a second connection after the first ended",
        ["rulesim"],
        {},
        replay("1", *STARTED, "ended 1 0", "admitted 2 10.0.0.2"),
        "admitted 2 live 1 retired 0 most 1\n",
        "",
        0,
    ),
    (
        "a second connection after the first was retired",
        ["rulesim"],
        {},
        replay("1", *RETIRED, "admitted 2 1.1.1.1"),
        "illegal 6\n",
        "",
        0,
    ),
    (
        "a second connection after a stop",
        ["rulesim"],
        {},
        replay("1", *RETIRED, "stop", "admitted 2 1.1.1.1"),
        "admitted 2 live 1 retired 0 most 1\n",
        "",
        0,
    ),
    ("no events", ["rulesim"], {}, replay("1"), "admitted 0 live 0 retired 0 most 0\n", "", 0),
    ("a start of no connection", ["rulesim"], {}, replay("1", "started 1"), "illegal 1\n", "", 0),
    (
        "a phase left out",
        ["rulesim"],
        {},
        replay("1", "phase fresh", "phase synced"),
        "illegal 2\n",
        "",
        0,
    ),
    (
        "a phase after a fault",
        ["rulesim"],
        {},
        replay("1", "phase fresh", "failed filling", "phase filling"),
        "illegal 3\n",
        "",
        0,
    ),
    (
        "a second connection from one address",
        ["rulesim"],
        {},
        replay("3 1", "admitted 1 10.0.0.1", "admitted 2 10.0.0.2", "admitted 3 10.0.0.1"),
        "illegal 3\n",
        "",
        0,
    ),
    (
        "a second connection from an address whose first was dropped",
        ["rulesim"],
        {},
        replay("3 1", "admitted 1 10.0.0.1", "admitted 2 10.0.0.2", "dropped 1", "admitted 3 10.0.0.1"),
        "admitted 3 live 2 retired 0 most 2\n",
        "",
        0,
    ),
    ("an event without a list", ["rulesim"], {}, "event stop\n", "", "rulesim: line 1: bad command\n", 100),
    ("a replay without a list", ["rulesim"], {}, "replay\n", "", "rulesim: line 1: bad command\n", 100),
    ("a limit of 0", ["rulesim"], {}, "events 0\n", "", "rulesim: line 1: bad command\n", 100),
    ("a limit of 10,001", ["rulesim"], {}, "events 10001\n", "", "rulesim: line 1: bad command\n", 100),
]


def as_bytes(text):
    return text if isinstance(text, bytes) else text.encode()


def check_table(runs):
    """The table of command lines."""
    for name, words, environment, given, output, errors, code in CASES:
        runs.ended(name, runs.run(words, as_bytes(given), env=environment), code, as_bytes(output), as_bytes(errors))


def check_line_limit(runs):
    """A line of 65,536 bytes is accepted, one more is not; blanks at its end don't count, and ignored lines have no limit."""
    lines = [
        (65536, b"", b"installed\n"),
        (65536, b" \t" * 50, b"installed\n"),
        (65537, b"", b"line 1: long line\n"),
    ]
    for length, blanks, wanted in lines:
        line = b":allow,A=x" + b"a" * (length - 11) + b"x" + blanks
        runs.expect("a line of %d bytes" % length, runs.run([], b"|" + line + b"\ninstall\n").stdout, wanted)
    runs.expect("a long line without a colon", runs.run([], b"|" + b"a" * 70000 + b"\ninstall\n").stdout, b"installed\n")


@needs_proved(2)
def check_text_limit(runs):
    """A text of 67,108,864 bytes is accepted, and one byte more is too long."""
    line = b"|" + b"a" * 1023 + b"\n"
    for more, wanted in [(b"", b"installed\n"), (b"|\n", b"text too long\n")]:
        runs.expect("a text at its limit", runs.run([], line * 65536 + more + b"install\n").stdout, wanted)


@needs_proved(1)
def check_file_limit(runs):
    """A text whose compiled file would pass 1,073,741,824 bytes is refused, and the one before stays."""
    line = b'|1.2.3.0-255:allow,A="' + b"a" * 9900 + b'"\n'
    ended = runs.run([], b"|:deny\ninstall\n" + line * 430 + b"install\n" + line * 430 + b"begin\nto done\nask 1.2.3.4\n")
    wanted = b"installed\n" + b"compiled file too large\n" * 2 + b"none\nrule :\ndeny connection\n"
    runs.expect("a compiled file over its limit", ended.stdout, wanted)


def check_streams(runs):
    """Standard streams that fail: a folder to read from, a full device, a closed pipe, no descriptor."""

    def fails(name, ended, errors, code=111):
        runs.expect(name, (ended.returncode, ended.stderr), (code, errors))

    def in_shell(line, **how):
        return subprocess.run(["sh", "-c", line, runs.program], stderr=subprocess.PIPE, timeout=LIMIT, **how)

    with tempfile.TemporaryDirectory() as folder:
        descriptor = os.open(folder, os.O_RDONLY)
        fails("standard input that is a folder", runs.run([], stdin=descriptor), b"rulesim: read fault\n")
        os.close(descriptor)
    with open("/dev/full", "wb") as full:
        fails("standard output that is full", runs.run([], b"install\n", stdout=full), b"rulesim: write fault\n")
    reading, writing = os.pipe()
    os.close(reading)
    fails("a closed pipe", runs.run([], b"install\n", stdout=writing), b"rulesim: write fault\n")
    os.close(writing)
    fails("nothing to print and nowhere to print it", in_shell('"$0" </dev/null >&-'), b"", 0)
    fails("no standard output", in_shell('echo install | "$0" >&-'), b"rulesim: write fault\n")
    fails("no standard input", in_shell('"$0" <&-', stdout=subprocess.PIPE), b"rulesim: read fault\n")


def check_questions_one_by_one(runs):
    """A person who types sees each answer before the next question."""
    with subprocess.Popen([runs.program], stdin=subprocess.PIPE, stdout=subprocess.PIPE) as typed:
        typed.stdin.write(b"|:deny\ninstall\n")
        typed.stdin.flush()
        first = typed.stdout.readline()
        typed.stdin.write(b"ask 1.1.1.1\n")
        typed.stdin.flush()
        second = typed.stdout.readline()
        typed.communicate(timeout=LIMIT)
    runs.expect("questions one by one", (first, second, typed.returncode), (b"installed\n", b"rule :\n", 0))


def check(program, failures):
    """How many tests there were."""
    runs = Runs("rulesim_runs", failures, program)
    for part in (check_table, check_line_limit, check_text_limit, check_file_limit, check_streams, check_questions_one_by_one):
        part(runs)
    return runs.tests
