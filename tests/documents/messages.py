"""Mistakes that are made with the tools, each by the tool's own name and as `ucspi TOOL`.

Called by its own name, a tool prints the path, the reason and what to do, on lines after the line of the fault;
`tcpserver -q` doesn't. `ucspi TOOL` prints the line of the fault alone, and under `-v` the cause. If 0.88 is installed,
it gets the same words, and has to tell the reason too.
"""
import os
import socket
import subprocess
import tempfile

from shared import compiled_files, log_forms, plain_words
from shared.checks import LIMIT, TOP, Checks
from shared.fewer_rights import as_nobody, at_most_1000_bytes
from shared.server_runs import read_all

ORIGINAL = "/usr/bin"
TOOLS = ("tcpserver", "tcprules", "tcprulescheck", "fixcrio", "recordio", "addcr", "delcr", "rulesim")
SERVER_USAGE = "usage: tcpserver [options] host port prog [args]"
USER = ["setpriv --reuid", "+net_bind_service", "see tcpserver(1)"]


class Messages(Checks):
    """Runs of tools in one folder, by both of their names."""

    def __init__(self, folder, program, failures):
        super().__init__("messages", failures)
        self.folder, self.program = folder, program

    def run(self, words, named=True, given=b"", **how):
        """The exit code and the outputs of a tool, by its own name or by the program's."""
        words = words if named else ["ucspi"] + words
        ended = subprocess.run(words, executable=self.program, cwd=self.folder, input=given, capture_output=True, timeout=LIMIT, **how)
        return ended.returncode, ended.stdout.decode(), ended.stderr.decode()

    def told(self, name, words, code, line, more=(), original=None, given=b"", **how):
        """These words end a tool with this line; by its own name these lines stand behind it. Of 0.88 its error says this."""
        tool = words[0]
        line = "%s: %s\n" % (tool, line)
        more = "".join("%s: %s\n" % (tool, one) for one in more)
        self.expect(name, self.run(words, given=given, **how), (code, "", line + more))
        self.expect(name + ", of ucspi", self.run(words, False, given, **how), (code, "", line))
        if tool == "tcpserver":
            self.expect(name + ", under -q", self.run([tool, "-q"] + words[1:], **how), (code, "", line))
        there = os.path.join(ORIGINAL, tool)
        if original and os.path.exists(there):
            ended = subprocess.run([there] + words[1:], cwd=self.folder, input=given, capture_output=True, timeout=LIMIT, **how)
            self.holds("%s, of 0.88" % name, original in ended.stderr.decode(), ended.stderr)

    def hinted(self, name, words, line, parts, behind=()):
        """The same where lines behind it have these parts."""
        for options in ([], ["-v"], ["-Q"], ["-qv"]):
            code, output, errors = self.run(words[:1] + options + words[1:])
            first, _, more = errors.partition("\n")
            self.expect("%s, under %r" % (name, options), (code, output, first), (100, "", "%s: %s" % (words[0], line)))
            for part in parts:
                self.holds("%s, under %r, tells %r" % (name, options, part), part in more, errors)
        for options in (["-q"], ["-vq"]):
            self.expect("%s, under %r" % (name, options), self.run(words[:1] + options + words[1:]), (100, "", "%s: %s\n" % (words[0], line)))
        self.expect(name + ", of ucspi", self.run(words, False), (100, "", "%s: %s\n" % (words[0], line)))
        causes = "".join("%s: cause: %s\n" % (words[0], cause) for cause in behind)
        self.expect(name + ", of ucspi -v", self.run(words[:1] + ["-v"] + words[1:], False), (100, "", "%s: %s\n%s" % (words[0], line, causes)))


def put(folder, name, text, mode=0o644):
    path = os.path.join(folder, name)
    with open(path, "w", encoding="ascii", newline="") as file:
        file.write(text)
    os.chmod(path, mode)
    return path


def rules(tools):
    """What tcprules and tcprulescheck tell of folders and files."""
    missing = "No such file or directory"
    tools.told("no folder", ["tcprules", "none/a", "none/t"], 111, "device fault at fresh", ["cause: none: " + missing], "none/t")
    os.mkdir(os.path.join(tools.folder, "closed"), 0o755)
    tools.told(
        "a folder of another user", ["tcprules", "closed/a", "closed/t"], 111, "device fault at fresh", ["cause: closed/t: Permission denied"], "denied",
        preexec_fn=as_nobody,
    )
    os.mkdir(os.path.join(tools.folder, "there"))
    tools.told("a folder as rules file", ["tcprules", "there", "t"], 111, "device fault at named", ["cause: there: Is a directory"], "there")
    tools.told("no room", ["tcprules", "a", "t"], 111, "device fault at filling", ["cause: t: File too large"], "t", preexec_fn=at_most_1000_bytes)
    tools.told("two folders", ["tcprules", "a", "there/t"], 100, "cdb and tmp are in different folders")
    for words in (["there/../a", "t"], [os.path.join(tools.folder, "a"), "t"], ["./there//a", os.path.join(tools.folder, "there/t")]):
        tools.expect("one folder in two ways %r" % words, tools.run(["tcprules"] + words, given=b":deny\n"), (0, "", ""))
    tools.told("one file in two ways", ["tcprules", "a", "there/../a"], 100, "cdb and tmp are the same name")
    tools.told("no rules file", ["tcprulescheck", "none.cdb"], 111, "no such file", ["cause: none.cdb: " + missing], "does not exist")
    tools.told("no folder of the rules", ["tcprulescheck", "none/a"], 111, "no such file", ["cause: none: " + missing], "does not exist")


def lines(tools):
    """A faulty line of a rule text is shown, and what was expected there; of a text that is read alone too."""
    verdict = '"allow" or "deny" must follow the first colon'
    settings = 'each setting is ,NAME="VALUE" and nothing stands behind the last'
    behind = 'behind the word only settings may stand, as ,NAME="VALUE"'
    for text, kind, shown, expected in (
        (b"192.0.2.66:denied", "no verdict", "192.0.2.66:denied", verdict), (b":", "no verdict", ":", verdict), (b"a:b: deny", "no verdict", "a:b??deny", verdict),
        (b"192.0.2.66:denie", "no verdict", "192.0.2.66:denie", verdict), (b": allow", "no verdict", ":?allow", verdict), (b":\r", "no verdict", ":?", verdict),
        (b"10.:deny # nobody", "bad setting", "10.:deny?#?nobody", behind), (b":allowed", "bad setting", ":allowed", behind), (b":deny;", "bad setting", ":deny;", behind),
        (b':allow,A="x" # more', "bad setting", ':allow,A="x"?#?more', settings), (b':allow,A="x', "bad setting", ':allow,A="x', settings),
        (b":allow,", "bad setting", ":allow,", settings), (b":allow,A", "bad setting", ":allow,A", settings), (b':deny,="x"', "bad setting", ':deny,="x"', settings),
        (b':allow, A', "bad setting", ":allow,?A", "a blank stands before a name"), (b':allow,\tA', "bad setting", ":allow,?A", "a blank stands before a name"),
        (b":deny\r", "bad setting", ":deny?", "a carriage return stands at its end"),
        (b':allow,A="x"\r', "bad setting", ':allow,A="x"?', "a carriage return stands at its end"),
        (b"1-x:deny", "bad range", "1-x:deny", "a range is two numbers with a - between, as in 10.0.0.1-9"),
        (b'x:deny,A="\xff"', "not text", 'x:deny,A="?"', "it is not UTF-8"), (b"\0:deny", "nul byte", "?:deny", "a zero byte stands in it"),
        (b"x" * 65536 + b":deny", "long line", "x" * 100 + "...:deny", "a line has at most 65536 bytes"),
    ):
        for name, given, line in (("first", text + b"\n:deny\n", 1), ("last", b"ok:deny\n\n" + text, 3)):
            for words in (["a", "t"], ["-n"], ["-N"]):
                tools.told("%r %s, %r" % (text[:50], name, words), ["tcprules"] + words, 100, "line %d: %s" % (line, kind), ["cause: %s: %s" % (shown, expected)], given=given)
        tools.expect("%r, of ucspi -v" % text[:50], tools.run(["tcprules", "-v", "a", "t"], False, text), (100, "", "tcprules: line 1: %s\n" % kind))
    # what stands behind the first 256 KiB is not kept, and so not shown
    for length, more in ((262_144, ["cause: :denie: " + verdict]), (262_145, []), (1 << 20, [])):
        text = b"#" + b"x" * 59 + b"\n"
        before = text * ((length - 7) // len(text))
        text = before + b"#" + b"x" * (length - 7 - len(before) - 2) + b"\n:denie\n"
        tools.told("a text of %d bytes" % len(text), ["tcprules", "-n"], 100, "line %d: no verdict" % (text.count(b"\n")), more, given=text)


def programs(tools):
    """What fixcrio and recordio tell of programs."""
    missing = "No such file or directory"
    plain = put(tools.folder, "plain", "#!/bin/sh\n")
    lost = put(tools.folder, "lost", "#!/nonexistent/sh\n", 0o755)
    returns = put(tools.folder, "returns", "#!/bin/sh\r\nexit 0\r\n", 0o755)
    for tool in ("fixcrio", "recordio"):
        for name, program, why in (
            ("no program of this path", "/nonexistent/prog", missing), ("no program of this name", "no-such-program", missing),
            ("a plain file", plain, "Permission denied"), ("a lost interpreter", lost, missing), ("a script with CR LF", returns, missing),
        ):
            tools.told("%s: %s" % (tool, name), [tool, program, "x"], 111, "cannot start", ["cause: %s: %s" % (program, why)], program)


def servers(tools):
    """What tcpserver tells of what it can't open."""
    missing = "No such file or directory"
    tools.told("no host table", ["tcpserver", "-N", "none", "0", "0", "true"], 111, "read fault", ["cause: none: " + missing])
    tools.told("no folder of rules", ["tcpserver", "-x", "none/a", "0", "0", "true"], 111, "device fault", ["cause: none: " + missing])
    tools.told("another's address", ["tcpserver", "192.0.2.1", "2", "true"], 111, "cannot listen", ["cause: 192.0.2.1:2: Cannot assign requested address"], "address")
    with socket.socket() as taken:
        taken.bind(("127.0.0.1", 0))
        taken.listen(1)
        port = str(taken.getsockname()[1])
        cause = "cause: 127.0.0.1:%s: Address already in use" % port
        tools.told("a port in use", ["tcpserver", "127.0.0.1", port, "true"], 111, "cannot listen", [cause], "address already used")


def words(tools):
    """What tcpserver tells of its words."""
    options = ["\n-%s" % letter for letter in "1BcDHklmNpqSwxXRr"]
    for name, given, cause, short in (
        ("a port by name", ["0", "smtp", "true"], "smtp: no port: 0 to 65535", "smtp: no port"),
        ("too large a port", ["0", "99999", "true"], "99999: no port: 0 to 65535", "99999: no port"),
        ("host and port in the wrong order", ["25", "127.0.0.1", "true"], "25: no host: 0, localhost or an IPv4 address", "25: no host"),
        ("an address of IPv6", ["::1", "25", "true"], "??1: no host: 0, localhost or an IPv4 address", "??1: no host"),
        ("no program", ["0", "25"], "no program", "no program"),
    ):
        tools.hinted(name, ["tcpserver"] + given, SERVER_USAGE, ["tcpserver: cause: %s\n" % cause] + options, [short])
    for letter in "ugU":
        tools.hinted("-" + letter, ["tcpserver", "-" + letter, "0", "25", "true"], "option -%s is not in this profile" % letter, USER)
    tools.hinted("-r", ["tcpserver", "-r", "0", "25", "true"], "option -r is not in this profile", ["leave -r out: nothing else is known of a client"])
    ranges = ["-" + letter for letter in plain_words.NUMBERS] + ["%d to %d" % ends for ends in plain_words.NUMBERS.values()]
    for letter in plain_words.NUMBERS:
        tools.hinted("-%s x" % letter, ["tcpserver", "-%sx" % letter, "0", "25", "true"], "option -%s has a bad number" % letter, ranges)
    tools.hinted("-w x", ["tcpserver", "-w", "x", "0", "25", "true"], "bad wrappers", ["hint: -w takes addcr, delcr, fixcrio"])
    for word in ("-z", "--help2", "-c"):
        named, other = tools.run(["tcpserver", word]), tools.run(["tcpserver", word], False)
        tools.expect("%s: nothing is known of the level" % word, named, other)


class Served:
    """A server of one client, by its own name or as `ucspi tcpserver`: its port, the client's, what the client got, and the server's log."""

    def __init__(self, tools, named, options, program):
        words = ([] if named else ["ucspi"]) + ["tcpserver", "-1", "-k", "1"] + options + ["127.0.0.1", "0"] + program
        with subprocess.Popen(
            words, executable=tools.program, cwd=tools.folder, stdin=subprocess.DEVNULL, stdout=subprocess.PIPE, stderr=subprocess.PIPE,
        ) as server:
            self.port = int(server.stdout.readline())
            with socket.create_connection(("127.0.0.1", self.port), LIMIT) as client:
                self.peer = client.getsockname()[1]
                self.got = read_all(client)
            self.log = server.communicate(timeout=LIMIT)[1].decode()

    def lines(self, *lines):
        """A log of these lines; `%(port)d` stands for the server's port, and `%(peer)d` for the client's."""
        return "".join("tcpserver: %s\n" % line for line in lines) % {"port": self.port, "peer": self.peer}


START = ["status: 0/40", "status: 1/40", "pid 1 from 127.0.0.1"]
LISTENS = ["listening on 127.0.0.1:%(port)d"]
ENDS = "1 :127.0.0.1:%(port)d :127.0.0.1::%(peer)d"


def clients(tools):
    """What the log of a running server has for a person besides: at each level but `-q` what is wrong with the rules file."""
    absent = ["cause: none.cdb: No such file or directory"]
    put(tools.folder, "text", ":deny\n")
    with open(os.path.join(tools.folder, "bad.cdb"), "wb") as file:
        file.write(compiled_files.cdb([(b"127.", b"x")]))
    damaged = "cause: %s: damaged, or not compiled by tcprules"
    folder = ["cause: there: Is a directory"]
    rule = ["cause: 127.: damaged rule"]
    for name, path, verdict, drop, plain, more in (
        ("no rules file", "none.cdb", ["deny " + ENDS], [], [], absent), ("a rule text as rules file", "text", [], ["drop 1 rules damaged"], [], [damaged % "text"]),
        ("a damaged rule", "bad.cdb", [], ["drop 1 rules damaged"], rule, [damaged % "bad.cdb"] + rule), ("a folder as rules file", "there", [], ["drop 1 directory fault"], folder, folder),
    ):
        options = ["-H", "-x", path]
        for level, shown in (([], drop + more), (["-Q"], drop + more), (["-q"], []), (["-v"], LISTENS + START + verdict + drop + more + ["status: 0/40"])):
            served = Served(tools, True, level + options, ["true"])
            tools.expect("%s, under %r" % (name, level), (served.got, served.log), (b"", served.lines(*shown)))
        for level, shown in (([], drop), (["-Q"], drop), (["-q"], []), (["-v"], START + verdict + drop + plain + ["status: 0/40"])):
            served = Served(tools, False, level + options, ["true"])
            tools.expect("%s, of ucspi, under %r" % (name, level), (served.got, served.log), (b"", served.lines(*shown)))
    if os.path.exists(os.path.join(ORIGINAL, "tcpserver")):
        tools.holds("no rules file, of 0.88", "unable to read none.cdb: file does not exist" in original_log(tools.folder))


def original_log(folder):
    """What the tcpserver of 0.88 writes of a client without a rules file."""
    words = [os.path.join(ORIGINAL, "tcpserver"), "-1", "-RH", "-l", "0", "-x", "none.cdb", "127.0.0.1", "0", "true"]
    with subprocess.Popen(words, cwd=folder, stdin=subprocess.DEVNULL, stdout=subprocess.PIPE, stderr=subprocess.PIPE) as server:
        with socket.create_connection(("127.0.0.1", int(server.stdout.readline())), LIMIT) as client:
            read_all(client)
        server.terminate()
        return server.communicate(timeout=LIMIT)[1].decode()


def processes(tools):
    """Under `-v` a person is told where the server listens, which process a program is, and which signal ended it."""
    for mode in ("-s", "-S"):
        for how, status, signals in (("exit 3", "3", []), ("kill -9 $$", "signal", ["cause: 1: signal 9"]), ("kill -15 $$", "signal", ["cause: 1: signal 15"])):
            program = ["sh", "-c", "echo $$; " + how]
            served = Served(tools, True, ["-v", "-H", mode], program)
            runs = ["runs 1 process %s" % served.got.decode().strip()]
            shown = LISTENS + START + ["ok " + ENDS] + runs + [log_forms.end(1, status)] + signals + ["status: 0/40"]
            tools.expect("%s %r" % (mode, how), served.log, served.lines(*shown))
            served = Served(tools, False, ["-v", "-H", mode], program)
            tools.expect("%s %r, of ucspi" % (mode, how), served.log, served.lines(*START, "ok " + ENDS, log_forms.end(1, status), "status: 0/40"))
            for level in ([], ["-Q"], ["-q"]):
                tools.expect("%s %r, under %r" % (mode, how, level), Served(tools, True, level + [mode], program).log, "")
    served = Served(tools, True, ["-v", "-H"], ["/nonexistent/prog"])
    fault = ["start 1 not found", "cause: /nonexistent/prog: No such file or directory"]
    tools.expect("a program that is not there", served.log, served.lines(*LISTENS, *START, "ok " + ENDS, *fault, "status: 0/40"))
    tools.expect("the same without -v", Served(tools, True, [], ["/nonexistent/prog"]).log, "".join("tcpserver: %s\n" % line for line in fault))


def help_of_tools(tools):
    """--help and --version, alone and by the tool's own name, and a usage line."""
    with open(os.path.join(TOP, "VERSION"), encoding="ascii") as file:
        version = "ucspi %s\n" % file.read().strip()
    for tool in TOOLS:
        tools.expect(tool + " --version", tools.run([tool, "--version"]), (0, version, ""))
        code, output, errors = tools.run([tool, "--help"])
        tools.holds(tool + " --help", (code, errors) == (0, "") and output.startswith("usage: " + tool) and output.count("\n") > 1, (code, output, errors))
        about = output.partition("\n")[2]
        code, output, errors = tools.run([tool, "--help"], False)
        tools.holds("ucspi %s --help" % tool, code and "cause" not in errors and not output, (code, output, errors))
        wrong = {"tcprules": ["a"], "tcprulescheck": ["a", "b"], "fixcrio": [], "recordio": [], "tcpserver": ["0", "x"]}.get(tool, ["x"])
        code, _, named = tools.run([tool] + wrong)
        line = tools.run([tool] + wrong, False)[2]
        behind = named[len(line):].removeprefix("tcpserver: cause: x: no port: 0 to 65535\n")
        tools.expect(tool + ": a usage line", (code, named[:len(line)], behind), (100, line, about))
        tools.expect(tool + " --help, on a full device", full_device(tools, tool), (111, "%s: write fault\n" % tool))
    about = tools.run(["tcpserver", "--help"])[1]
    for letter in plain_words.VALUED + plain_words.REFUSED:
        tools.holds("help has -" + letter, "-" + letter in about, about)


def full_device(tools, tool):
    with open("/dev/full", "wb") as full:
        ended = subprocess.run([tool, "--help"], executable=tools.program, stdout=full, stderr=subprocess.PIPE, timeout=LIMIT)
    return ended.returncode, ended.stderr.decode()


def check(program, failures):
    """How many tests there were."""
    with tempfile.TemporaryDirectory() as folder:
        os.chmod(folder, 0o755)
        tools = Messages(folder, program, failures)
        rules(tools)
        lines(tools)
        programs(tools)
        servers(tools)
        words(tools)
        clients(tools)
        processes(tools)
        help_of_tools(tools)
        return tools.tests
