"""Runs the commands of the README, and each line behind a `$` in the documents, and compares what they print with what
stands below them. (The cookbook has a group of its own, `cookbook`, and the man pages too.) Looks at the links and the
terms of all documents.

The lines of one document run in one shell, in a folder of their own that has the examples. `make` is a stand-in that
builds no program and takes this one, and runs one group of tests. A free port stands for the port 2525. A server in the
foreground is started at a free port of this machine alone, and ended once it listens.
"""
import os
import re
import shutil
import socket
import subprocess
import sys
import tempfile

from documents.cookbook import COOKBOOKS, blocks
from shared.checks import TOP, Checks
from shared.failed_calls import can_trace
from shared.server_runs import WAIT, free_port, listens, wait_until

TOOLS = ("addcr", "delcr", "fixcrio", "recordio", "rulesim", "tcprules", "tcprulescheck", "tcpserver")


def pages_in(folder):
    """The documents of a folder."""
    return sorted("%s/%s" % (folder, name) for name in os.listdir(os.path.join(TOP, folder)) if name.endswith(".md"))


def read(name):
    """The text of a file."""
    with open(os.path.join(TOP, name), encoding="utf-8") as file:
        return file.read()


# what maintainers read has terms of its own, which GLOSSARY.md explains; what users read has those that they search for
INTERNALS = pages_in("docs/internals")
PAGES = pages_in("docs")
FOR_USERS = ["README.md", "CHANGELOG.md"] + PAGES
DOCUMENTS = ["README.md"] + [name for name in PAGES if name not in COOKBOOKS] + INTERNALS
# how many words a page has at most, a page for users too, and how many each folder has in all
WORDS = {"ARCHITECTURE": 2500, "DECISIONS": 3000, "HEADLINE": 2000, "PROOFS": 3500}
PAGE_WORDS = 2500
ALL_WORDS = {"docs": 20000, "docs/internals": 14000}
# how many words a sentence has at most that users read
SENTENCE_WORDS = 25
# files of which users read the comments
COMMENTED = ("Makefile", "completions", "examples", "scripts")
# terms that no document for users has, each with the one that stands for it
TERMS = {
    r"words?": "argument, option or message", r"told|telling|tells?(?! them apart)": "reported, printed, shown", r"faulty|amiss": "wrong",
    r"want of": "out of, lack of", r"faults?(?! at)": "error", r"stops?|stopped": "crash, end or deny", r"by force": "by fault injection",
}
# where a term is the right one
MEANT = {
    "docs/RELIABILITY.md": ["fault injection"], "docs/TOOLS.md": ["device fault"], "docs/COOKBOOK.md": ["is stopped"],
    "examples/rsync/tcpserver-rsync.service": ["systemctl stop"],
}
# a port in the arguments of a server behind the shell's back
BEHIND = re.compile(r"(?:ucspi )?tcpserver\b.* (\d+) \S.*&\s*$")
# an error message of a tool
MESSAGE = re.compile(r"`((?:%s|ucspi): [^`]*)`" % "|".join(TOOLS))
LIMIT = 600
MARK = "--- the end of a command"
MAKE = """#!/bin/sh
if test $# = 0; then set -- all; fi
exec /usr/bin/make -s -C '%(top)s' -o '%(program)s' -o '%(tried)s' PROGRAM='%(program)s' TRIED='%(tried)s' TRIED_PROBE='%(tried)s' GROUPS=promises \\
    DESTDIR='%(folder)s' "$@"
"""


def commands_in(text):
    """The lines behind a prompt, each with the lines below it; a command goes on where its line ends with a backslash."""
    for _, block in blocks(text):
        if not block.startswith("$ "):
            continue
        for part in re.split(r"^\$ ", block, flags=re.M)[1:]:
            command, _, below = part.partition("\n")
            while command.endswith("\\"):
                more, _, below = below.partition("\n")
                command += "\n" + more
            yield command, below.rstrip("\n")


def makes_in(text):
    """The lines of a document that call make, without what stands behind them."""
    return [line.split("#")[0].strip() for _, block in blocks(text) for line in block.split("\n") if re.match(r"make\b", line)]


class Shell:
    """A shell in which one command after another runs."""

    def __init__(self, folder, program):
        self.bin = os.path.join(folder, "bin")
        os.mkdir(self.bin)
        for name in TOOLS + ("ucspi",):
            os.symlink(program, os.path.join(self.bin, name))
        tried = os.path.join(folder, "tried")
        shutil.copy(program, tried)
        with open(os.path.join(self.bin, "make"), "w", encoding="ascii") as file:
            file.write(MAKE % {"top": TOP, "program": program, "tried": tried, "folder": os.path.join(folder, "root")})
        os.chmod(os.path.join(self.bin, "make"), 0o755)
        here = os.path.join(folder, "here")
        os.mkdir(here)
        shutil.copytree(os.path.join(TOP, "examples"), os.path.join(here, "examples"))
        os.symlink(os.path.join(TOP, "scripts"), os.path.join(here, "scripts"))
        environment = {"PATH": self.bin + ":/usr/local/bin:/usr/bin:/bin", "LC_ALL": "C.UTF-8"}
        self.process = subprocess.Popen(
            ["bash", "--norc"], cwd=here, env=environment, stdin=subprocess.PIPE, stdout=subprocess.PIPE, stderr=subprocess.STDOUT, start_new_session=True)

    def run(self, command):
        """What a command prints on both streams, and its exit code."""
        self.process.stdin.write(("%s\necho '%s' $?\n" % (command, MARK)).encode())
        self.process.stdin.flush()
        lines = []
        while True:
            line = self.process.stdout.readline().decode()
            if line.startswith(MARK) or not line:
                return "".join(lines).rstrip("\n"), int(line.split()[-1] if line else -1)
            lines.append(line)

    def run_listed(self, command):
        """What a command of a document prints. A server that it starts behind the shell's back listens by then."""
        printed = self.run(command)[0]
        server = BEHIND.match(command)
        if server:
            wait_until("a server", lambda: listens(int(server.group(1))))
        return printed

    def serve(self, command):
        """Starts a server until it listens: what it prints but for its first status."""
        port = free_port()
        self.run(re.sub(r" (0|localhost|\d+\.\d+\.\d+\.\d+) \d+ ", r" 127.0.0.1 %d " % port, command, count=1) + " > served 2>&1 &")
        wait_until("a server", lambda: listens(port))
        self.run("kill $!; wait $! 2>/dev/null")
        return self.run("grep -v -e '^tcpserver: status: 0/' -e '^tcpserver: listening on ' served")[0]

    def close(self):
        """Ends the shell; what it started and left has ended by then."""
        self.process.stdin.close()
        self.process.stdout.read()
        self.process.stdout.close()
        self.process.wait(LIMIT)


def check_document(checks, program, name):
    text = read(name).replace("2525", str(free_port()))
    commands = list(commands_in(text))
    checks.expect("%s: lines behind a prompt, and commands that are run" % name, len(re.findall(r"^    \$ ", text, re.M)), len(commands))
    makes = makes_in(text) if name == "README.md" else []
    if not commands and not makes:
        return
    with tempfile.TemporaryDirectory() as folder:
        shell = Shell(folder, os.path.abspath(program))
        for command in makes:
            checks.expect("%s: %s: exit code" % (name, command), shell.run(command)[1], 0)
        for command, below in commands:
            is_server = re.match(r"(ucspi )?tcpserver\b", command) and not command.rstrip().endswith("&")
            checks.expect("%s: %s" % (name, command), shell.serve(command) if is_server else shell.run_listed(command), below)
        shell.close()


def is_traced(number):
    """Whether all threads of a process are traced."""
    states = [read("/proc/%d/task/%s/status" % (number, thread)) for thread in os.listdir("/proc/%d/task" % number)]
    return not any(re.search(r"^TracerPid:\t0$", state, re.M) for state in states)


def check_traced(checks, program):
    """The line that looks at a program prints nothing of one that asks nothing, though the server itself asks, and prints each question of another."""
    if not can_trace():
        print("documents: no strace that may be used here: the line that looks at a program was skipped", flush=True)
        return
    line = re.search(r"^    # (strace .*)$", read("docs/TCPSERVER.md"), re.M).group(1)
    asking = [sys.executable, "-c", "import socket; print(socket.socket(fileno=0).getpeername()[0])"]
    for words, asks, wanted in ((["echo", "hello"], False, b"hello\n"), (asking, True, b"127.0.0.1\n")):
        port = free_port()
        command = ["tcpserver", "-q", "127.0.0.1", str(port), *words]
        with subprocess.Popen(command, executable=program, stdin=subprocess.DEVNULL, stdout=subprocess.DEVNULL, stderr=subprocess.DEVNULL) as server:
            wait_until("a server", lambda port=port: listens(port))
            by_number = line.replace('"$(pgrep -o -x tcpserver)"', str(server.pid))
            with subprocess.Popen(["sh", "-c", by_number], stdin=subprocess.DEVNULL, stdout=subprocess.PIPE, stderr=subprocess.STDOUT) as traced:
                wait_until("strace", lambda server=server: is_traced(server.pid))
                with socket.create_connection(("127.0.0.1", port), WAIT) as client, client.makefile("rb") as answer:
                    checks.expect("docs/TCPSERVER.md: a program that is traced", answer.read(), wanted)
                server.terminate()
                told = traced.communicate(timeout=WAIT)[0].decode()
        checks.holds("docs/TCPSERVER.md: %s: of %s" % (line, words[0]), "getpeername(0, " in told if asks else told == "", told)


def check_readme(checks):
    """Its length, its links, and what it may not be without."""
    text = read("README.md")
    lines = text.split("\n")[:-1]
    checks.holds("README.md: at most 130 lines", len(lines) <= 130, len(lines))
    checks.expect("README.md: lines of at most 120 columns", [line for line in lines if len(line) > 120], [])
    checks.holds("README.md: what it does not do comes before the first command", text.index("does not do") < text.index("\n    "))


def anchors_in(text):
    """The anchors of a document's headings, as the sites that show Markdown make them."""
    return {re.sub(r"[^\w\- ]", "", heading.lower()).replace(" ", "-") for heading in re.findall(r"^#+ (.*)$", text, re.M)}


def check_links(checks, name, text, top=TOP):
    """Each link leads to a file that is there, and to a heading that it has."""
    lost = []
    for path, anchor in re.findall(r"\]\(([^)#:]*)(?:#([^)]*))?\)", text):
        path = os.path.normpath(os.path.join(top, os.path.dirname(name), path)) if path else os.path.join(top, name)
        if not os.path.exists(path):
            lost.append(path)
        elif anchor:
            lost += [] if anchor in anchors_in(read(path)) else ["%s#%s" % (path, anchor)]
    checks.expect("%s: links that lead nowhere" % name, lost, [])


def check_changes(checks):
    """The files that a change touches, as the architecture lists them, are there."""
    part = read("docs/internals/ARCHITECTURE.md").partition("\n## What a change touches\n")[2].partition("\n## ")[0]
    paths = re.findall(r"`(\w+(?:/[\w.]+)+)`", part)
    lost = [path for path in paths if not any(os.path.isfile(os.path.join(TOP, top, path)) for top in ("", "crates"))]
    checks.holds("docs/internals/ARCHITECTURE.md: files that a change touches", len(paths) > 25 and not lost, lost)


def check_lengths(checks, folder, pages, most):
    """The pages of a folder are short, each and all, and so are their lines."""
    lengths = {}
    for name in pages:
        text = read(name)
        lengths[name] = len(text.split())
        checks.expect("%s: lines of at most 120 columns" % name, [line for line in text.split("\n") if len(line) > 120], [])
        words = WORDS.get(os.path.basename(name)[:-3], most)
        checks.holds("%s: at most %d words" % (name, words), lengths[name] <= words, lengths[name])
    checks.holds("%s: at most %d words" % (folder, ALL_WORDS[folder]), sum(lengths.values()) <= ALL_WORDS[folder], lengths)


def check_glossary(checks):
    """Each term has one meaning."""
    terms = re.findall(r"^- \*\*(.*?)\*\*", read("docs/internals/GLOSSARY.md"), re.M)
    checks.expect("GLOSSARY.md: terms that it has twice", sorted({term for term in terms if terms.count(term) > 1}), [])


def sentences_in(text):
    """The sentences of a page, without its commands: a piece of code is one word, and each cell of a table
    stands by itself."""
    text = re.sub(r"`[^`]*`", "CODE", re.sub(r"^(?:    .*|#.*)$", "", text, flags=re.M))
    text = re.sub(r"\]\([^)]*\)", "]", text)
    for part in re.split(r"\n\s*\n|\n(?= *(?:[-|]|\d+\.) ?)|\|", text):
        yield from re.split(r"(?<=[.?!:;]) (?=[A-Z(\[*])|\.\*\* |; ", " ".join(part.split()))


def check_sentences(checks, name):
    """Each sentence of a page can be read at once."""
    long = [sentence for sentence in sentences_in(read(name)) if len(sentence.split()) > SENTENCE_WORDS]
    checks.expect("%s: sentences of more than %d words" % (name, SENTENCE_WORDS), long, [])


def facts_in(text):
    """What the lists of a page say something of: the error messages in a row of a table, or else its first cell, and what
    begins an item."""
    facts = set()
    for row in re.findall(r"^ *\|(.*)\|$", text, re.M):
        facts.update(re.findall(MESSAGE, row) or [row.partition("|")[0].strip()])
    # the heads of tables, and the lines below them, say nothing
    facts -= {head.strip() for head in re.findall(r"^ *\|([^|]*)\|.*\n *\|---", text, re.M)} | {"---", ""}
    return facts | set(re.findall(r"^ *- \*\*(.*?)\*\*", text, re.M))


def check_facts(checks):
    """No fact of a list, as of the options, the programs that are unsafe, the differences and the error messages, stands in
    two pages; and one page alone says which programs are unsafe."""
    pages = {name: facts_in(read(name)) for name in PAGES}
    where = {fact: [name for name in PAGES if fact in pages[name]] for fact in set().union(*pages.values())}
    checks.expect("facts that stand in two pages", {fact: names for fact, names in where.items() if len(names) > 1}, {})
    unsafe = [name for name in PAGES if "| **unsafe**" in read(name)]
    checks.expect("pages that list the programs that are unsafe", unsafe, ["docs/TCPSERVER.md"])


def check_comments(checks):
    """The comments of what users read have the terms of the trade too."""
    for part in COMMENTED:
        path = os.path.join(TOP, part)
        for path in [path] if os.path.isfile(path) else [os.path.join(place, name) for place, _, names in os.walk(path) for name in names]:
            check_terms(checks, os.path.relpath(path, TOP), "\n".join(re.findall(r"^ *(#.*)$", read(path), re.M)))


def check_terms(checks, name, text):
    """A document for users has the terms of the trade; code and commands are left out."""
    prose = re.sub(r"`[^`]*`", "", re.sub(r"^    .*$", "", text, flags=re.M))
    for meant in MEANT.get(name, []):
        prose = prose.replace(meant, "")
    found = [(term.group(0), better) for form, better in TERMS.items() for term in re.finditer(r"\b(?:%s)\b" % form, prose)]
    checks.expect("%s: terms for which there are better ones" % name, found, [])


def check(program, failures):
    """How many tests there were."""
    checks = Checks("documents", failures)
    check_readme(checks)
    check_comments(checks)
    check_changes(checks)
    check_lengths(checks, "docs", PAGES, PAGE_WORDS)
    check_lengths(checks, "docs/internals", INTERNALS, ALL_WORDS["docs/internals"])
    check_glossary(checks)
    check_facts(checks)
    check_traced(checks, os.path.abspath(program))
    for name in PAGES + ["README.md"]:
        check_sentences(checks, name)
    for name in DOCUMENTS + [*COOKBOOKS, "CHANGELOG.md"]:
        text = read(name)
        check_links(checks, name, text)
        if name in FOR_USERS:
            check_terms(checks, name, text)
    for name in DOCUMENTS:
        check_document(checks, program, name)
    return checks.tests
