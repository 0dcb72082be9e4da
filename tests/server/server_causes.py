"""The line of a cause: under -v, a line with the path or the program and the system's error message follows each system
error. After the usage message a line says which argument is wrong or missing. Without -v there is no such line.
"""
import os
import shutil
import signal
import socket

from shared import compiled_files, failed_calls, log_forms

SERVE = ["127.0.0.1", "0", "true"]
USAGE = "usage: tcpserver [options] host port prog [args]"


def told(suite, name, words, code, text, cause, **how):
    """These words end the server with this line, and under -v alone with the line of this cause behind it."""
    line, more = "tcpserver: %s\n" % text, "tcpserver: cause: %s\n" % cause
    for options in ([], ["-q"], ["-Q"], ["-vq"], ["-v", "-Q"]):
        suite.expect("%s, under %r" % (name, options), suite.run(options + words, **how), (code, b"", line.encode()))
    for options in (["-v"], ["-qv"], ["-Q", "-v"]):
        suite.expect("%s, under %r" % (name, options), suite.run(options + words, **how), (code, b"", (line + more).encode()))


def usage(suite):
    """The first of host, port and program that is lacking."""
    for words, cause in (
        (["example.org", "25", "true"], "example.org: no host"), (["1.2.3", "25", "true"], "1.2.3: no host"),
        (["0", "smtp", "true"], "smtp: no port"), (["0", "65536", "true"], "65536: no port"), (["127.0.0.1", "25"], "no program"),
        (["x", "y", "true"], "x: no host"),
        (["a:b", "25", "true"], "a?b: no host"), (["0", "%d " % 25, "true"], "25?: no port"), (["h" * 100, "25", "true"], "h" * 100 + "...: no host"),
        (["0", "x" * 150, "true"], "x" * 100 + "...: no port"),
    ):
        told(suite, "words %r" % words, words, 100, USAGE, cause)
    suite.expect("-v that is no option", suite.run(["--", "-v", "25", "true"]), (100, b"", ("tcpserver: %s\n" % USAGE).encode()))


def faults_of_words(suite):
    """Other faults of the words have no cause."""
    for words, text in (
        (["-z"], "unknown option -z"), (["-c"], "option -c needs a value"), (["-u"], "option -u is not in this profile"),
        (["-c", "0"] + SERVE, "option -c has a bad number"), (["-m", "x", "nowhere"], "option -m has a bad number"),
        (["-k", "0", "0", "25"], "option -k has a bad number"), (["-w", "x"] + SERVE, "bad wrappers"),
        (["-s", "-w", "addcr"] + SERVE, "bad wrappers"),
        (["-N", suite.path("faulty", "x\n")] + SERVE, "host table line 1"),
    ):
        suite.expect("-v and %r" % words, suite.run(["-v"] + words), (100, b"", ("tcpserver: %s\n" % text).encode()))


def faults_of_the_start(suite):
    """What can't be read, and where nothing can be listened at."""
    absent = suite.path("absent")
    told(suite, "no host table", ["-N", absent] + SERVE, 111, "read fault", absent + ": No such file or directory")
    told(suite, "a folder as host table", ["-N", suite.folder] + SERVE, 111, "read fault", suite.folder + ": Is a directory")
    for path in (suite.folder + "/", suite.folder + "/.", suite.folder + "/.."):
        told(suite, "a folder as rules, " + path, ["-x", path] + SERVE, 111, "device fault", suite.folder + ": Is a directory")
    long_name = suite.path("n" * 256)
    told(suite, "rules by a long name", ["-x", long_name] + SERVE, 111, "device fault", long_name[:100] + "...: File name too long")
    for path in (absent + "/", absent + "/rules.cdb"):
        told(suite, "rules in no folder, " + path, ["-x", path] + SERVE, 111, "device fault", absent + ": No such file or directory")
    with socket.socket() as taken:
        taken.bind(("127.0.0.1", 0))
        taken.listen(1)
        port = taken.getsockname()[1]
        told(suite, "a port in use", ["127.0.0.1", str(port), "true"], 111, "cannot listen", "127.0.0.1:%d: Address already in use" % port)
        told(suite, "a port in use, at any address", ["0", str(port), "true"], 111, "cannot listen", "0.0.0.0:%d: Address already in use" % port)
    told(suite, "an address of another machine", ["192.0.2.1", "2", "true"], 111, "cannot listen", "192.0.2.1:2: Cannot assign requested address")


def ignored_ends(suite):
    """The system forgets how programs end where SIGCHLD is ignored, and then alone."""

    def ignore(*numbers):
        return lambda: [signal.signal(number, signal.SIG_IGN) for number in numbers]

    cause = "SIGCHLD is ignored"
    told(suite, "SIGCHLD ignored", SERVE, 111, "cannot wait for programs", cause, preexec_fn=ignore(signal.SIGCHLD))
    told(suite, "SIGCHLD ignored, and no host table", ["-N", "/nonexistent"] + SERVE, 111, "cannot wait for programs", cause, preexec_fn=ignore(signal.SIGCHLD))
    others = [number for number in signal.valid_signals() if number not in (signal.SIGKILL, signal.SIGSTOP, signal.SIGCHLD, 32, 33)]
    told(suite, "all ignored that may be", SERVE, 111, "cannot wait for programs", cause, preexec_fn=ignore(*others, signal.SIGCHLD))
    suite.expect("wrong words", suite.run(["-v", "-z"], preexec_fn=ignore(signal.SIGCHLD)), (100, b"", b"tcpserver: unknown option -z\n"))
    for numbers in (others, [signal.SIGCHLD + 1], [signal.SIGCHLD - 1], [signal.SIGCHLD + 4]):
        with suite.start(["-v", "-k", "1"], ["echo", "hi"], preexec_fn=ignore(*numbers)) as server:
            suite.expect("others ignored: the client", server.ask(), b"hi\n")
            suite.expect("others ignored: the end", (server.end(), server.lines()[-2:]), (0, [log_forms.end(1), log_forms.status(0, 40)]))
    # where the system does not tell which are ignored it begins (it opens three descriptors, if it has to, and then looks)
    run = failed_calls.Library(suite.folder).run("open", "EACCES", 1, 4)
    with suite.start(["-v", "-c", "1"], [shutil.which("true")], env=dict(os.environ, **run.environment), preexec_fn=ignore(signal.SIGCHLD)) as server:
        server.ask()
        suite.expect("an untold signal", (server.end(), server.lines()[-1]), (111, "no places left"))


def starts(suite):
    """A program that can't be started: the line of its cause stands between that of the fault and the status."""
    plain, empty = suite.path("plain-file", "#!/bin/sh\n"), suite.path("empty-program", "")
    os.chmod(plain, 0o644)
    os.chmod(empty, 0o755)
    for program, fault, why in (
        ("/nonexistent/program", "not found", "No such file or directory"), (plain, "refused", "Permission denied"),
        (empty, "failed", "Exec format error"),
    ):
        line = log_forms.start(1, fault)
        for level, wanted in (("-v", [line, "cause: %s: %s" % (program, why), log_forms.status(0, 1)]), ("-Q", [line]), ("-q", [])):
            with suite.start([level, "-c", "1", "-k", "1"], [program]) as server:
                suite.expect("the client of %s" % program, server.ask(), b"")
                ended, lines = server.end(), server.all_lines()
                lines = lines[lines.index(line):] if line in lines else lines
                suite.expect("the lines of %s under %s" % (program, level), (ended, lines), (0, wanted))
                if level == "-v":
                    suite.audit("a cause of %s" % program, server)


def lines_of_one(suite, name, options, path, line, cause, **how):
    """One client is dropped with this line, and behind it under -v alone with that of this cause."""
    for level, wanted in (("-v", [line] + ["cause: %s" % cause] * bool(cause) + [log_forms.status(0, 1)]), ("-Q", [line]), ("-q", [])):
        with suite.start([level, "-c", "1", "-k", "1", "-x", path] + options, ["true"], **how) as server:
            suite.expect("the client of " + name, server.ask(), b"")
            ended, lines = server.end(), server.all_lines()
            lines = lines[lines.index(line):] if line in lines else lines
            suite.expect("the lines of %s under %s" % (name, level), (ended, lines), (0, wanted))
            if level == "-v":
                suite.audit("the cause of " + name, server)


def drops(suite):
    """Rules that can't be opened or read: the path, and the system's words; a rule that is none: its address."""
    folder, pipe, circle = (suite.path("drop-" + name) for name in ("folder", "pipe", "circle"))
    os.mkdir(folder)
    os.mkfifo(pipe)
    os.symlink(circle, circle)
    for path, why in ((folder, "Is a directory"), (pipe, "Invalid argument"), (circle, "Too many levels of symbolic links")):
        for options in ([], ["-X"]):
            lines_of_one(suite, "the rules at " + path, options, path, log_forms.drop(1, "directory fault"), path + ": " + why)
    path = suite.install(":allow\n", "drop.cdb")
    how = {"env": dict(os.environ, **failed_calls.Library(suite.folder).run("pread", "EIO", 1).environment)}
    lines_of_one(suite, "rules that can't be read", ["-N", "/dev/null"], path, log_forms.drop(1, "rules read fault"), path + ": Input/output error", **how)
    for key, value in ((b"127.0.", b"+A=caf\xe9\0"), (b"127.0.", b"+A\0"), (b"127.0.", b"x"), (b"", b"x")):
        path = suite.path("drop-rule.cdb", compiled_files.cdb([(b"10.", b"D"), (key, value), (b"128.", b"D")]))
        lines_of_one(suite, "a rule %r" % value, [], path, log_forms.drop(1, "rules damaged"), "%s: damaged rule" % key.decode())
    path = suite.path("drop-cut.cdb", compiled_files.cdb([(b"", b"D")])[:2049])
    lines_of_one(suite, "rules that are cut", [], path, log_forms.drop(1, "rules damaged"), None)


def accepting(suite):
    """What ends a server that can accept nobody: the address, and the system's words."""
    run = failed_calls.Library(suite.folder).run("accept4", "EPROTO", 1, failed_calls.ALL)
    for level in ("-v", "-q"):
        with suite.start([level, "-c", "1"], ["true"], env=dict(os.environ, **run.environment), may_end=True) as server:
            wanted = ["accept fault"] + ["cause: 127.0.0.1:0: Protocol error"] * (level == "-v")
            with server.try_to_connect():
                suite.expect("the end of one that accepts nobody, under " + level, server.end(), 111)
            suite.expect("its lines under " + level, [line for line in server.all_lines() if "status" not in line], wanted)


NAMES = "rules by name, and no names"


def named_rules(suite):
    """Rules by a host's or a user's name decide nobody without a host table, or if clients get no names of it: under -v the log begins by that."""
    table = suite.path("hosts", "127.0.0.1 a.example\n")
    for text, told in (
        ("=a.example:deny\n:allow\n", True), ("=.example:deny\n:allow\n", True), ("=:allow\n:deny\n", True),
        ("joe@127.0.0.1:deny\n:allow\n", True), ("127.0.0.1-9:allow\n=b.example:deny\n", True),
        (":allow\n", False), ('127.:allow,A="=@"\n:deny\n', False), ("", False),
        ("".join("10.%d.%d.%d:deny\n" % (n >> 16, n >> 8 & 255, n & 255) for n in range(5000)) + "=x:allow\n:allow\n", True),
    ):
        path = suite.install(text, "named.cdb")
        for options, may in ((["-v"], True), (["-Q"], False), (["-q"], False), (["-v", "-N", table], False), (["-v", "-HN", table], True)):
            with suite.start(options + ["-c", "1", "-k", "1", "-x", path], ["true"]) as server:
                server.ask()
                suite.expect("the end under %r" % options, server.end(), 0)
                lines = server.all_lines()
                suite.expect("%r under %r" % (text[:40], options), (lines.count(NAMES), lines[:1] == [NAMES]), (1, True) if told and may else (0, False))
                if told and options == ["-v"]:
                    suite.audit("rules by name", server)
    for path in (suite.path("named-absent"), suite.path("named-cut.cdb", b"\xff" * 5000), suite.path("named-short.cdb", b"\x00\x09")):
        with suite.start(["-v", "-c", "1", "-k", "1", "-x", path], ["true"]) as server:
            server.ask()
            suite.expect("no warning of " + path, (server.end(), NAMES in server.all_lines()), (0, False))


CHECKS = [usage, faults_of_words, faults_of_the_start, ignored_ends, starts, drops, accepting, named_rules]
COMMON = []
HANDED = [starts, drops]
