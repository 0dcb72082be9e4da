"""Calls the program by the names of its tools, through the links that `make install` makes: all words are the tool's own.

By any other name the first word names the tool.
"""
import os
import pty
import re
import subprocess
import tempfile

from shared.checks import TOP, Checks

# the words of each usage line, and words that do not fit it
TOOLS = {
    "tcpserver": ("[options] host port prog [args]", [[], ["tcpserver"], ["0", "0"]]),
    "tcprules": ("cdb tmp", [[], ["a"], ["a", "b", "c"], ["tcprules", "a", "b"]]),
    "tcprulescheck": ("cdb", [[], ["a", "b"], ["tcprulescheck", "a"]]),
    "fixcrio": ("prog [args]", [[]]),
    "recordio": ("prog [args]", [[]]),
    "addcr": ("", [["x"], ["addcr"]]),
    "delcr": ("", [["x"], ["delcr"]]),
    "rulesim": ("", [["x"], [""], ["rulesim"], ["tcprules", "a", "b"]]),
}
RULES = b'10.:allow,A="1"\n:deny\n'
CHECKED = b"rule 10.:\nset environment variable A=1\nallow connection\n"
# names that are no tool's: the last part alone counts, in small letters and whole
OTHER_NAMES = ["ucspi", "Tcprules", "tcprules2", "tcprules/", "tcprules/x", "-tcprules", "", " tcprules", b"tcprules\xff"]


def usage(tool):
    return ("%s: usage: %s\n" % (tool, (tool + " " + TOOLS[tool][0]).strip())).encode()


def first_line(errors):
    """The line of a fault; of what stands behind it the group `messages` tells."""
    return errors[: errors.index(b"\n") + 1]


class Names(Checks):
    """Runs by names, in one folder with the installed program."""

    def __init__(self, folder, failures):
        super().__init__("program_names", failures)
        self.bin = os.path.join(folder, "usr", "bin")
        self.man = os.path.join(folder, "usr", "share", "man", "man1")
        self.here = os.path.join(folder, "here")
        os.mkdir(self.here)

    def run(self, words, given=b"", **how):
        environment = {"PATH": self.bin + ":" + os.environ["PATH"], "TCPREMOTEIP": "10.1.2.3", "TCPREMOTEPORT": "1024"}
        ended = subprocess.run(
            words, input=given, cwd=self.here, env=environment, stdout=subprocess.PIPE, stderr=subprocess.PIPE, timeout=600, **how
        )
        return ended.returncode, ended.stdout, ended.stderr

    def called(self, word, words, given=b""):
        """Runs the program itself with this word 0."""
        return self.run([word] + words, given, executable=os.path.join(self.bin, "ucspi"))


def tools_of(program):
    """The tools that the program has."""
    tools = []
    for tool in TOOLS:
        ended = subprocess.run([program, tool, b"\xff"], stdin=subprocess.DEVNULL, stdout=subprocess.PIPE, stderr=subprocess.PIPE, timeout=600)
        if not ended.stderr.startswith(b"ucspi: "):
            tools.append(tool)
    return tools


def check_usage(names, tools):
    for tool in tools:
        for words in TOOLS[tool][1] + [[b"\xff"]]:
            wanted = (100, b"", usage(tool))
            code, output, errors = names.run([os.path.join(names.bin, tool)] + words)
            names.expect("%s %r" % (tool, words), (code, output, first_line(errors)), wanted)
        wrong = TOOLS[tool][1][0]
        for word in (tool, "./" + tool, "/no/such/folder/" + tool, "//" + tool, "ucspi/" + tool):
            code, output, errors = names.called(word, wrong)
            names.expect("word 0 %r" % word, (code, output, first_line(errors)), (100, b"", usage(tool)))
        for words in TOOLS[tool][1] + [[b"\xff"]]:
            wanted = (100, b"", usage(tool))
            names.expect("the first word %s, then %r" % (tool, words), names.called("ucspi", [tool] + words), wanted)


def check_runs(names):
    """Each tool by its own name, found along the path."""
    nothing = (0, b"", b"")
    names.expect("tcprules", names.run(["tcprules", "r", "r.tmp"], RULES), nothing)
    names.expect("tcprulescheck", names.run(["tcprulescheck", "r"]), (0, CHECKED, b""))
    names.expect("a rules file with a tool's name", names.run(["tcprules", "tcprules", "tcprulescheck"], RULES), nothing)
    names.expect("the same, asked", names.run(["tcprulescheck", "tcprules"]), (0, CHECKED, b""))
    names.expect("addcr", names.run(["addcr"], b"a\n"), (0, b"a\r\n", b""))
    names.expect("delcr", names.run(["delcr"], b"a\r\n"), (0, b"a\n", b""))
    names.expect("fixcrio", names.run(["fixcrio", "cat"], b"a\n"), (0, b"a\r\n", b""))
    names.expect("fixcrio under fixcrio", names.run(["fixcrio", "fixcrio", "cat"], b"a\n"), (0, b"a\r\n", b""))
    names.expect("fixcrio over addcr", names.run(["fixcrio", "addcr"], b"a\n"), (0, b"a\r\r\n", b""))
    code, output, errors = names.run(["recordio", "cat"], b"a\n")
    recorded = [b"1024 < [EOF]", b"1024 < a ", b"1024 > [EOF]", b"1024 > a "]
    names.expect("recordio", (code, output, sorted(errors.splitlines())), (0, b"a\n", recorded))
    script = b"|:deny\ninstall\nask 10.0.0.1\n"
    names.expect("rulesim", names.run(["rulesim"], script), (0, b"installed\nrule :\ndeny connection\n", b""))


def check_links(names):
    """A link of a link, and a hard link, are names too; the name is the one by which the program is called."""
    os.symlink(os.path.join(names.bin, "addcr"), os.path.join(names.here, "delcr"))
    names.expect("a link named delcr to addcr", names.run(["./delcr"], b"a\r\n"), (0, b"a\n", b""))
    os.symlink(os.path.join(names.bin, "addcr"), os.path.join(names.here, "mine"))
    names.expect("a link of another name to addcr", names.run(["./mine", "addcr"], b"a\n"), (0, b"a\r\n", b""))
    os.link(os.path.join(names.bin, "ucspi"), os.path.join(names.here, "addcr"))
    names.expect("a hard link", names.run(["./addcr"], b"a\n"), (0, b"a\r\n", b""))


def check_other_names(names):
    for word in OTHER_NAMES:
        names.expect("word 0 %r" % word, names.called(word, ["addcr"], b"a\n"), (0, b"a\r\n", b""))
        wanted = (100, b"", b"ucspi: usage: ucspi TOOL ...\n")
        for first in ("no-tool", "Rulesim", "tcpclient"):
            names.expect("word 0 %r, and no tool" % word, names.called(word, [first]), wanted)
        ended = names.called(word, [], b"|:deny\ninstall\n")
        names.expect("word 0 %r, and no words: rulesim" % word, ended, (0, b"installed\n", b""))


def check_about(names, tools):
    """The version is that of the file VERSION, and help has a line for each tool. Each stands alone."""
    with open(os.path.join(TOP, "VERSION"), encoding="ascii") as file:
        version = file.read().strip()
    names.expect("--version", names.run(["ucspi", "--version"]), (0, ("ucspi %s\n" % version).encode(), b""))
    code, told, errors = names.run(["ucspi", "--help"])
    lines = [re.fullmatch(r"ucspi (.*): [a-z].*[a-z]", line) for line in told.decode().split("\n")[:-1]]
    wanted = sorted((tool + " " + TOOLS[tool][0]).strip() for tool in tools)
    names.expect("--help", (code, sorted(line.group(1) if line else "" for line in lines), errors), (0, wanted, b""))
    # without arguments a terminal gets the same lines, by whatever name; a tool by its own name is that tool
    for words, wanted in (([], (100, told, b"")), (["rulesim"], (0, b"", b""))):
        outer, inner = pty.openpty()
        os.write(outer, b"\x04")
        ended = subprocess.run([os.path.join(names.bin, "ucspi")] + words, stdin=inner, stdout=subprocess.PIPE, stderr=subprocess.PIPE, timeout=600)
        os.close(outer)
        os.close(inner)
        names.expect("words %s at a terminal" % words, (ended.returncode, ended.stdout, ended.stderr), wanted)
    for word in ("--version", "--help"):
        for words in ([word, ""], [word, word], [word.upper()], [word[:-1]], [word + "x"], [word[1:]], ["tcprules", word, word, word]):
            usage_line = usage("tcprules") if words[0] == "tcprules" else b"ucspi: usage: ucspi TOOL ...\n"
            names.expect("words %s" % words, names.run(["ucspi"] + words), (100, b"", usage_line))
        names.expect("addcr %s x" % word, first_line(names.called("addcr", [word, "x"])[2]), usage("addcr"))
        with open("/dev/full", "wb") as full:
            ended = subprocess.run([os.path.join(names.bin, "ucspi"), word], stdout=full, stderr=subprocess.PIPE, timeout=600)
        names.expect(word + " on a full device", (ended.returncode, ended.stderr), (111, b"ucspi: write fault\n"))


def make(target, program, folder):
    words = ["make", "-s", "-o", program, "PROGRAM=" + program, "DESTDIR=" + folder, "PREFIX=/usr", target]
    return subprocess.run(words, cwd=TOP, stdout=subprocess.PIPE, stderr=subprocess.STDOUT, timeout=600)


def check_uninstall(names, program, folder):
    """What was installed is gone, and a program of a tool's name that is another's stays."""
    others = os.path.join(names.bin, "addcr")
    os.unlink(others)
    with open(others, "w") as file:
        file.write("another's\n")
    names.expect("make uninstall", make("uninstall", program, folder).returncode, 0)
    names.expect("what is left of the programs", os.listdir(names.bin), ["addcr"])
    names.holds("nothing is left of the man pages", not os.path.exists(names.man))
    names.expect("make uninstall again", make("uninstall", program, folder).returncode, 0)


def check(program, failures):
    """Installs the program into a folder, and calls it by each name: how many tests there were."""
    with tempfile.TemporaryDirectory() as folder:
        names = Names(folder, failures)
        made = make("install", program, folder)
        names.expect("make install", (made.returncode, made.stdout), (0, b""))
        if made.returncode:
            return names.tests
        tools = tools_of(program)
        links = sorted(name for name in os.listdir(names.bin) if os.path.islink(os.path.join(names.bin, name)))
        names.expect("a link for each tool", links, sorted(tools))
        pages = sorted(name + ".1" for name in tools + ["ucspi", "ucspi-log-events"])
        names.expect("a man page for each tool, the program and the log reader", sorted(os.listdir(names.man)), pages)
        check_usage(names, tools)
        check_runs(names)
        check_links(names)
        check_other_names(names)
        check_about(names, tools)
        check_uninstall(names, program, folder)
    return names.tests
