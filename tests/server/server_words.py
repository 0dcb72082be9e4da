"""The words of `tcpserver`: each option, the order of checks, each text with its exit code, and the environment that a program is given."""
import itertools
import os
import re
import shutil
import socket
import subprocess

from shared import plain_words, server_runs
from shared.fewer_rights import as_nobody
from shared.plain_words import NUMBERS

USAGE = "usage: tcpserver [options] host port prog [args]"
SERVE = ["127.0.0.1", "0", "true"]
TABLE = (
    "# names\n127.0.0.1 Mail.Example\n127.0.0.2\ttwo.example \n127.0.0.1 later.example\n=mail.example 127.0.0.1\n=two.example 127.0.0.9\n"
)
# what a program must not hear of another connection
INHERITED = {
    "PROTO": "X", "TCPLOCALIP": "9.9.9.9", "TCPLOCALPORT": "9", "TCPLOCALHOST": "q", "TCPREMOTEIP": "8.8.8.8", "TCPREMOTEPORT": "8",
    "TCPREMOTEHOST": "z", "TCPREMOTEINFO": "y",
}


def refused(suite, name, words, text, code=100, **how):
    """These words end the server with one line, and nothing on standard output; of a cause the group `server_causes` tells."""
    ended, output, errors = suite.run(words, **how)
    errors = re.sub(rb"(?m)^tcpserver: cause: .*\n", b"", errors)
    suite.expect(name, (ended, output, errors), (code, b"", ("tcpserver: %s\n" % text).encode()))


def usage(suite):
    for words in ([], ["0"], ["0", "25"], ["-v"], ["-v", "0", "25"], ["--"], ["--", "-v", "25", "true"], ["-", "0", "true"], ["", "0", "true"]):
        refused(suite, "words %r" % words, words, USAGE)
    for host in ("example.org", "256.0.0.1", "1.2.3", "1.2.3.4.5", "01.2.3.4", "::1", "::", " 127.0.0.1", "Localhost", "00", "127.1", "1.2.3.4 "):
        refused(suite, "host %r" % host, [host, "0", "true"], USAGE)
    for port in ("", "x", "65536", "+1", "-1", "smtp", " 25", "25 ", "0x19", "1.5", "99999999999999999999999", "٣"):
        refused(suite, "port %r" % port, ["127.0.0.1", port, "true"], USAGE)
    for words in ([b"\xff"], ["-z", b"\xff"], ["-c", b"\xff"] + SERVE, SERVE + [b"\xff"], ["-u"] + SERVE + [b"\xc3"]):
        refused(suite, "a word that is not UTF-8 in %r" % words, words, USAGE)


def unknown_options(suite):
    for word in ("-z", "-vz", "-zv", "-V", "-2", "-é", "-a", "-j", "-n", "-:", "-!", "-v:", "-=", "- "):
        letter = next(letter for letter in word[1:] if letter not in "v")
        refused(suite, "word %r" % word, [word] + SERVE, "unknown option -" + letter)
    refused(suite, "word '--x'", ["--x"] + SERVE, "unknown option --")
    refused(suite, "the first faulty letter", ["-vyz"], "unknown option -y")
    refused(suite, "the first faulty word", ["-v", "-y", "-z", "-u"], "unknown option -y")
    refused(suite, "an option behind a value", ["-c", "5", "-z"], "unknown option -z")


def options_without_a_value(suite):
    for letter in plain_words.VALUED:
        refused(suite, "-%s alone" % letter, ["-" + letter], "option -%s needs a value" % letter)
        refused(suite, "-%s behind another" % letter, ["-v" + letter], "option -%s needs a value" % letter)
    refused(suite, "an unknown letter in front", ["-zc"], "unknown option -z")
    refused(suite, "a value that looks like options", ["-c", "-v"] + SERVE, "option -c has a bad number")
    refused(suite, "a value that looks like an end", ["-c", "--"] + SERVE, "option -c has a bad number")


def options_of_others(suite):
    for letter in plain_words.REFUSED:
        text = "option -%s is not in this profile" % letter
        refused(suite, "-%s alone" % letter, ["-" + letter], text)
        refused(suite, "-%s with a word" % letter, ["-" + letter, "5"] + SERVE, text)
        refused(suite, "-%s in a word" % letter, ["-v%s5" % letter] + SERVE, text)
    refused(suite, "-u before an unknown letter", ["-uz"], "option -u is not in this profile")
    refused(suite, "an unknown letter before -u", ["-zu"], "unknown option -z")


def numbers(suite):
    for letter, (least, most) in NUMBERS.items():
        text = "option -%s has a bad number" % letter
        below = [str(least - 1), "00%d" % (least - 1)] if least else []
        for value in below + [str(most + 1), "x", "", "-1", "+5", "1.5", " 5", "5 ", "5x", "0x5", "9" * 30, "٣"]:
            refused(suite, "-%s %r" % (letter, value), ["-" + letter, value] + SERVE, text)
    # of two bad numbers one is named, whichever is given first
    for first, second in itertools.combinations(NUMBERS, 2):
        words = [["-" + first, str(NUMBERS[first][1] + 1)], ["-" + second, "x"]]
        for one, other in (words, words[::-1]):
            refused(suite, "-%s before -%s, in %r" % (first, second, one + other), one + other + SERVE, "option -%s has a bad number" % first)
    refused(suite, "a number in the word", ["-c0"] + SERVE, "option -c has a bad number")
    refused(suite, "the last number counts", ["-c", "5", "-c", "0"] + SERVE, "option -c has a bad number")
    refused(suite, "words before numbers", ["-c", "0", "-z"], "unknown option -z")
    refused(suite, "numbers before host and port", ["-m", "0"], "option -m has a bad number")
    refused(suite, "numbers before a bad host", ["-k", "0", "nowhere", "0", "true"], "option -k has a bad number")
    refused(suite, "a bad number that a later one replaces", ["-c", "0", "-c", "5"], USAGE)
    refused(suite, "numbers that are not read", ["-t", "x", "-b", "y"], USAGE)


def wrappers(suite):
    names = ("", "cat", "addcr,", ",addcr", "addcr,,delcr", "ADDCR", "addcr, delcr", "addcr,recordio", "recordio,recordio", "recordio,", "addcr;")
    for value in names:
        refused(suite, "-w %r" % value, ["-w", value] + SERVE, "bad wrappers")
    refused(suite, "the last wrappers count", ["-w", "addcr", "-w", "x"] + SERVE, "bad wrappers")
    refused(suite, "usage before wrappers", ["-w", "x", "127.0.0.1", "0"], USAGE)
    refused(suite, "wrappers before the host table", ["-w", "x", "-N", suite.path("no-table")] + SERVE, "bad wrappers")


def host_tables(suite):
    refused(suite, "no host table", ["-N", suite.path("no-table")] + SERVE, "read fault", 111)
    refused(suite, "a folder as host table", ["-N", suite.folder] + SERVE, "read fault", 111)
    refused(suite, "an empty path of a host table", ["-N", ""] + SERVE, "read fault", 111)
    faulty = (
        ("127.0.0.1 a\n127.0.0.256 x\n", 2), ("\n# x\n x\n", 3), ("127.0.0.1", 1), ("127.0.0.1 a b\n", 1), ("a 127.0.0.1\n", 1),
        (" 127.0.0.1 a\n", 1), ("127.0.0.1 a\r\n", 1), ("127.0.0.1 %s\n" % ("a" * 256), 1), ("=a 127.0.0.01\n", 1), ("127.0.0.1 \xff\n", 1),
        ("=\n", 1), ("= 127.0.0.1\n", 1), ("=a\n=b 1\n", 1), ("=a 127.0.0.1\na 127.0.0.1", 2), ("127.0.0.1 a\n\n127.0.0.1 a b\n", 3),
        ("=%s 127.0.0.1\n" % ("a" * 256), 1), ("127.0.0.256 a", 1),
    )
    for text, line in faulty:
        table = suite.path("faulty-table", text.encode("latin-1"))
        refused(suite, "host table %r" % text, ["-N", table] + SERVE, "host table line %d" % line)
    absent = suite.path("absent/rules.cdb")
    refused(suite, "the host table before the rules", ["-N", suite.path("no-table"), "-x", absent] + SERVE, "read fault", 111)


def folders_of_rules(suite):
    suite.path("a-file", "x")
    for path in ("absent/rules.cdb", "a-file/rules.cdb", "", "/", ".", "..", "x/", suite.folder + "/", suite.folder + "/..", "a" * 256, "absent/"):
        refused(suite, "-x %r" % path, ["-x", path] + SERVE, "device fault", 111)


def closed_folder(suite):
    """Without a rules file the server needs no folder: it serves from one that it may not look at."""
    folder = suite.path("closed")
    os.mkdir(folder)
    program = suite.path("program-for-all")
    shutil.copyfile(suite.command[0], program)
    os.chmod(program, 0o755)

    def close():
        os.chmod(folder, 0)
        as_nobody()

    before = suite.command
    suite.command = [program] + before[1:]
    try:
        with suite.start(server_runs.QUIET, ["echo", "hi"], cwd=folder, preexec_fn=close) as server:
            suite.expect("a folder that may not be looked at", server.ask(), b"hi\n")
        os.chmod(folder, 0o700)
        refused(suite, "the same folder for the rules", ["-x", "rules.cdb"] + SERVE, "device fault", 111, cwd=folder, preexec_fn=close)
    finally:
        suite.command = before
        os.chmod(folder, 0o700)


def listening(suite):
    taken = socket.socket()
    taken.bind(("127.0.0.1", 0))
    taken.listen(1)
    port = str(taken.getsockname()[1])
    refused(suite, "a port in use", ["127.0.0.1", port, "true"], "cannot listen", 111)
    refused(suite, "a port in use, and nothing to be printed", ["-q", "127.0.0.1", port, "true"], "cannot listen", 111)
    refused(suite, "a port in use, and its number asked for", ["-1", "127.0.0.1", port, "true"], "cannot listen", 111)
    refused(suite, "a port in use at any address", ["0", port, "true"], "cannot listen", 111)
    refused(suite, "an address of another machine", ["192.0.2.1", "0", "true"], "cannot listen", 111)
    refused(suite, "the rules before listening", ["-x", "absent/rules.cdb", "127.0.0.1", port, "true"], "device fault", 111)
    refused(suite, "-q and a fault of words", ["-q", "-z"], "unknown option -z")
    taken.close()


def the_port(suite):
    with suite.start([], ["cat"]) as server:
        suite.expect("a free port", server.ask(b"a"), b"a")
        port = server.port
    with suite.start([], ["cat"], port="000%d" % port) as server:
        suite.expect("the port that was given", server.port, port)
        suite.expect("at the port that was given", server.ask(b"b"), b"b")
    if suite.original:
        return
    with open("/dev/full", "wb") as full:
        words = suite.command + ["-1", "127.0.0.1", "0", "true"]
        ended = subprocess.run(words, stdin=subprocess.DEVNULL, stdout=full, stderr=subprocess.PIPE, timeout=server_runs.WAIT)
        suite.expect("a port that can't be printed", (ended.returncode, ended.stderr), (111, b"tcpserver: write fault\n"))


def any_address(suite):
    with suite.start(["-v"] + server_runs.QUIET, ["sh", "-c", "echo $TCPLOCALIP $TCPREMOTEIP"], host="0") as server:
        for host in ("127.0.0.1", "127.0.0.2", "127.3.2.1"):
            suite.expect("a server at any address: " + host, server.ask(host=host, source="127.0.0.9"), ("%s 127.0.0.9\n" % host).encode())
    if suite.original:
        return
    with suite.start([], ["cat"], host="localhost") as server:
        suite.expect("localhost", server.ask(b"a", host="127.0.0.1"), b"a")
        try:
            server.connect(host="127.0.0.2").close()
            suite.holds("localhost is one address", False, "127.0.0.2 is listened to")
        except ConnectionRefusedError:
            suite.holds("localhost is one address", True)


def accepted_options(suite):
    """Options that change nothing here."""
    words = ["-ROo", "-t", "5", "-b3", "-c5", "-l", "0", "-H", "--"]
    with suite.start(words, ["cat"]) as server:
        suite.expect("options of no effect", server.ask(b"abc"), b"abc")
    if suite.original:
        return
    ample = [["-" + letter, str(most)] for letter, (_, most) in NUMBERS.items()]
    ample += [["-c010000"], ["-c", "0" * 50 + "7"], ["-X"], ["-p"], ["-t", "", "-b", "x"]]
    for words in ample + [["-c", "0", "-c", "3"], ["-B", ""], ["-l", ""], ["-m", "20", "-c", "10"], ["-w", "addcr", "-w", "delcr"]]:
        with suite.start(words, ["cat"]) as server:
            suite.expect("words %r" % words, server.ask(b"abc"), b"abc")


def environment_of(text):
    return dict(line.split("=", 1) for line in text.decode().splitlines())


def whole_environments(suite):
    """All that a program is told, and nothing else."""
    inherited = {"PATH": os.environ["PATH"], "A": "b=c", "EMPTY": "", "LINE": "é"}
    how = {"env": dict(inherited, **INHERITED)}
    for name in ("0", "", "Me.Example"):
        if suite.original and not name:
            continue
        with suite.start(["-R", "-H", "-l", name], ["env"], **how) as server, server.connect("127.0.0.7") as client:
            wanted = dict(inherited, PROTO="TCP", TCPLOCALIP="127.0.0.1", TCPLOCALPORT=str(server.port), TCPREMOTEIP="127.0.0.7")
            wanted.update(TCPLOCALHOST=name, TCPREMOTEPORT=str(client.getsockname()[1]))
            suite.expect("the environment under -l %r" % name, environment_of(server_runs.read_all(client)), wanted)
    how = {"env": dict(os.environ, BIG="x" * 100000)}
    with suite.start(server_runs.QUIET, ["sh", "-c", "echo ${#BIG} ${#1}", "sh", "y" * 100000], **how) as server:
        suite.expect("a long variable and a long word", server.ask(), b"100000 100000\n")
    if suite.original:
        return
    how = {"env": dict(os.environb, BAD=b"\xff")}
    with suite.start([], ["env"], **how) as server:
        told = server.ask()
        suite.holds("no local name", b"\nTCPLOCALHOST=" not in b"\n" + told)
        suite.holds("a variable that is not UTF-8", b"\nBAD=" not in b"\n" + told)


def names(suite):
    """Names of both ends, from the host table, and what -h, -H, -p, -P and -l make of them."""
    table = suite.path("table", TABLE)
    cases = [
        ([], "127.0.0.1", "mail.example", "mail.example"), (["-h"], "127.0.0.2", "mail.example", "two.example"),
        (["-H"], "127.0.0.2", "mail.example", None),
        (["-H", "-h"], "127.0.0.1", "mail.example", "mail.example"), (["-hH"], "127.0.0.1", "mail.example", None),
        (["-p"], "127.0.0.1", "mail.example", "mail.example"), (["-p"], "127.0.0.2", "mail.example", None),
        (["-pP"], "127.0.0.2", "mail.example", "two.example"), (["-P", "-p"], "127.0.0.2", "mail.example", None),
        (["-l", "me"], "127.0.0.1", "me", "mail.example"), (["-l", "", "-h"], "127.0.0.3", "", None),
        (["-l", "a", "-l", "b"], "127.0.0.3", "b", None),
        (["-pH"], "127.0.0.1", "mail.example", None),
    ]
    for options, source, local, remote in cases:
        with suite.start(["-N", table] + options, ["env"]) as server:
            told = environment_of(server.ask(source=source))
            suite.expect("names under %r from %s" % (options, source), (told.get("TCPLOCALHOST"), told.get("TCPREMOTEHOST")), (local, remote))
            suite.holds("no user under %r" % options, "TCPREMOTEINFO" not in told)
    with suite.start(["-N", table], ["env"], host="0") as server:
        told = environment_of(server.ask(host="127.0.0.2", source="127.0.0.5"))
        suite.expect("the local name at any address", (told.get("TCPLOCALHOST"), told.get("TCPREMOTEHOST")), ("two.example", None))


def rules(suite):
    """Rules with settings, which come last."""
    path = suite.install('127.0.0.2:allow,A="1",B="x y",A="2"\n127.0.0.3:deny\n127.0.:allow,PROTO="mine",TCPREMOTEHOST="him"\n:deny\n')
    how = {"env": dict(os.environ, A="0", C="c")}
    with suite.start(["-x", path] + server_runs.QUIET, ["env"], **how) as server:
        told = environment_of(server.ask(source="127.0.0.2"))
        suite.expect("settings", [told.get(name) for name in ("A", "B", "C", "PROTO")], ["2", "x y", "c", "TCP"])
        suite.expect("a denied address", server.ask(source="127.0.0.3"), b"")
        told = environment_of(server.ask(source="127.0.0.4"))
        suite.expect("settings over the connection's names", [told.get(name) for name in ("PROTO", "TCPREMOTEHOST")], ["mine", "him"])
        suite.expect("the last rule", server.ask(source="127.1.0.1"), b"")
    path = suite.install('10.:deny\n127.0.0.1:allow,E="",U=/é ü/\n')
    with suite.start(["-x", path] + server_runs.QUIET, ["sh", "-c", 'echo "${E-unset} $U"']) as server:
        suite.expect("an empty setting, and one of other letters", server.ask().decode(), " é ü\n")
        suite.expect("no rule", server.ask(source="127.0.0.2"), b"unset \n")
    with suite.start(["-x", "rules.cdb"] + server_runs.QUIET, ["echo", "hi"]) as server:
        suite.expect("a path without a folder", server.ask(), b"hi\n")


def rules_of_names(suite):
    """Rules for the names of hosts, as the table has them."""
    table = suite.path("table", TABLE)
    path = suite.install('=Two.Example:allow,R="two"\n=.example:allow,R="some"\n=:deny\n:allow,R="none"\n', "names.cdb")
    cases = [([], "127.0.0.2", "two"), ([], "127.0.0.1", "some"), ([], "127.0.0.3", "none"), (["-H"], "127.0.0.2", "none"), (["-p"], "127.0.0.2", "none")]
    for options, source, wanted in cases:
        with suite.start(["-x", path, "-N", table] + options, ["sh", "-c", "echo $R"]) as server:
            suite.expect("a rule of a name under %r from %s" % (options, source), server.ask(source=source), (wanted + "\n").encode())


def absent_rules(suite):
    absent = suite.path("absent.cdb")
    with suite.start(["-x", absent] + server_runs.QUIET, ["echo", "hi"]) as server:
        suite.expect("no rules file", server.ask(), b"")
    with suite.start(["-X", "-x", absent] + server_runs.QUIET, ["echo", "hi"]) as server:
        suite.expect("no rules file, under -X", server.ask(), b"hi\n")
        suite.install(":deny\n", "absent.cdb")
        suite.expect("a rules file that came, under -X", server.ask(), b"")
        os.remove(absent)
        suite.expect("a rules file that went, under -X", server.ask(), b"hi\n")
    # (what stands before the only slash is the root folder, and no empty path)
    with suite.start(["-X", "-x", "/absent.cdb"] + server_runs.QUIET, ["echo", "hi"], may_end=True) as server:
        suite.expect("no rules file in the root folder, under -X", server.port and server.ask(), b"hi\n")


def banners(suite):
    path = suite.install("127.0.0.2:deny\n")
    with suite.start(["-B", "220 hello\r\n", "-x", path] + server_runs.QUIET, ["echo", "hi"]) as server:
        suite.expect("a banner", server.ask(), b"220 hello\r\nhi\n")
        suite.expect("a banner comes before the rules", server.ask(source="127.0.0.2"), b"220 hello\r\n")
    if suite.handed:
        return
    with suite.start(["-B", "a\nb", "-w", "recordio,fixcrio,addcr"], ["echo", "c"]) as server:
        suite.expect("a banner passes no wrapper", server.ask(), b"a\nbc\r\n")
        suite.holds("a banner is not recorded", b"> a" not in server.log(), server.log())


def search_paths(suite):
    """A program is looked for along the server's own PATH, whose folders are bytes, whatever PATH a rule sets."""
    top = os.fsencode(suite.folder)
    folders = {name: os.path.join(top, name) for name in (b"own", b"by-rule", b"caf\xe9")}
    for name, folder in folders.items():
        os.mkdir(folder)
        path = os.path.join(folder, b"who")
        with open(path, "wb") as script:
            script.write(b'#!/bin/sh\necho %s "$PATH"\n' % name[:3])
        os.chmod(path, 0o755)
    by_rule = os.path.join(suite.folder, "by-rule")
    path = suite.install('127.0.0.2:allow,PATH="%s"\n:allow\n' % by_rule)
    for own, told in ((folders[b"own"], b"own"), (folders[b"caf\xe9"], b"caf"), (b"/absent\xff:" + folders[b"own"], b"own")):
        with suite.start(["-x", path] + server_runs.QUIET, ["who"], env={b"PATH": own}) as server:
            suite.expect("a PATH of a rule, beside %r" % own, server.ask(source="127.0.0.2"), told + b" " + by_rule.encode() + b"\n")
            suite.expect("the server's own PATH %r" % own, server.ask()[:4], told + b" ")
    with suite.start(["-x", path] + server_runs.QUIET, ["who"], env={b"PATH": b"/absent"}) as server:
        suite.expect("a program that the PATH of a rule alone has", server.ask(source="127.0.0.2"), b"")


CHECKS = [
    usage, unknown_options, options_without_a_value, options_of_others, numbers, wrappers, host_tables, folders_of_rules, closed_folder, listening,
    the_port, any_address, accepted_options, whole_environments, names, rules, rules_of_names, absent_rules, banners, search_paths,
]
COMMON = [the_port, any_address, accepted_options, whole_environments, rules, absent_rules, banners, search_paths]
HANDED = [the_port, any_address, whole_environments, names, rules, rules_of_names, absent_rules, banners]
