"""Compares the man pages with the sources: options, texts, exit codes, variables and tools of a page are those of the
code, and the other way round.

Pages are in `man/`. If `mandoc` or `man` is not installed, its checks of a page are skipped.
"""
import os
import re
import shutil
import subprocess
import tempfile

from documents.documents import TERMS
from shared import log_forms, plain_words
from shared.checks import TOP, Checks

# the crate's fault of each tool, and the variant of `ToolFault` that it is
FAULTS = {
    "tcprules": ("rules_tools/src/tcprules.rt", "TcprulesFault", "Rules"),
    "tcprulescheck": ("rules_tools/src/tcprulescheck.rt", "CheckFault", "Check"),
    "addcr": ("stream_tools/src/filter.rt", "FilterFault", "Filter"),
    "delcr": ("stream_tools/src/filter.rt", "FilterFault", "Filter"),
    "fixcrio": ("stream_tools/src/between.rt", "BetweenFault", "Between"),
    "recordio": ("stream_tools/src/between.rt", "BetweenFault", "Between"),
    "rulesim": ("script_words/src/fault.rt", "SimFault", "Script"),
}
# the fault of `tcprules -n`, which prints under the same name
REVIEW = ("rules_tools/src/review.rt", "ReviewFault", "Review")
# how the lines of the log begin that the tests have no form of
BESIDE_EVENTS = tuple("tcpserver: " + words for words in ("cause:", "listening on", "rules by name", "runs"))
# the words that stand alone
ALONE = {"tcprules": "nN"}
# the tools that tell causes
VERBOSE = ("tcprules", "tcprulescheck")
# what a page writes for a part of a text that changes
PLACES = {"u64": "N", "char": "L", "Phase": "PHASE", "LineFault": "line N: KIND"}
# pages of others that ours refer to, which need not be installed here
OUTSIDE = {"fcntl(2)", "multilog(8)", "ps(1)", "runsv(8)", "setpriv(1)", "supervise(8)", "svlogd(8)"}
# the sections that each page has
SECTIONS = ("NAME", "DESCRIPTION", "EXAMPLES", "COMPATIBILITY", "SEE ALSO", "HISTORY", "AUTHORS")
# pages of others to which a page has to refer
NAMED = {"tcpserver": {"multilog(8)", "supervise(8)", "setpriv(1)"}, "ucspi": {"multilog(8)", "supervise(8)", "setpriv(1)"}, "recordio": {"multilog(8)"}}
SERVER_FAULT = "server_parts/src/fault.rt"
TOOL_FAULT = "ucspi_tools/src/fault.rt"


# the pages


def plain(text):
    """A line of a page as it is read."""
    return text.replace("\\&", "").replace("\\e", "\\").replace('"', "").strip()


class Page:
    """A man page: its sections, each a list of lines."""

    def __init__(self, name, number=1):
        self.name = name
        self.path = os.path.join(TOP, "man", "%s.%d" % (name, number))
        self.sections, here = {}, []
        with open(self.path, encoding="ascii") as file:
            for line in file.read().split("\n"):
                if line.startswith(".Sh "):
                    here = self.sections.setdefault(line[4:], [])
                else:
                    here.append(line)

    def section(self, name):
        return self.sections.get(name, [])

    def synopsis(self):
        """The words of the synopsis, without options."""
        words = []
        for line in self.section("SYNOPSIS"):
            macro, _, rest = line.partition(" ")
            if macro == ".Ar":
                words.append(rest)
            elif macro == ".Op" and rest.startswith("Ar "):
                words.append("[%s]" % rest[3:])
        return " ".join([self.name] + words)

    def items(self, name, kind):
        """The items of the lists of a kind in a section: each one's head, and all that stands in it."""
        found, lists = [], []
        for line in self.section(name):
            if line.startswith(".Bl "):
                lists.append(line.split()[1])
            elif line == ".El":
                lists.pop()
            elif line.startswith(".It ") and lists == [kind]:
                found.append((plain(line[4:]), []))
                continue
            if lists and lists[0] == kind and found:
                found[-1][1].append(line)
        return found

    def texts(self):
        """The texts with an exit code: text and code."""
        found = {}
        for head, body in self.items("DIAGNOSTICS", "-diag"):
            code = re.match(r"Exit code (\d+)\.", body[0]) if body else None
            if code:
                found[head] = int(code.group(1))
        return found

    def below(self, head):
        """The heads of the list that stands in an item of the diagnostics."""
        body = dict(self.items("DIAGNOSTICS", "-diag")).get(head, [])
        return [plain(line[4:]) for line in body if line.startswith(".It ")]

    def log_lines(self):
        """The diagnostics without an exit code."""
        return [head for head, _ in self.items("DIAGNOSTICS", "-diag") if head not in self.texts()]

    def variables(self):
        heads = [head for head, _ in self.items("ENVIRONMENT", "-tag")]
        return {name for head in heads for name in re.findall(r"Ev ([A-Z0-9]+)", head)}

    def codes(self):
        return {int(head) for head, _ in self.items("EXIT STATUS", "-tag")}

    def options(self):
        """The option letters of the description's list, and whether each takes a value."""
        heads = [head for head, _ in self.items("DESCRIPTION", "-tag")]
        return {flag: bool(value) for head in heads for flag, value in re.findall(r"\bFl (\w)( Ar \w+)?", head)}

    def synopsis_options(self):
        found = {}
        for line in self.section("SYNOPSIS"):
            for letters, value in re.findall(r"^\.Op Fl (\w+)( Ar \w+)?$", line):
                found.update({letter: bool(value) for letter in letters})
            if line.startswith(".Fl "):
                found.update({letter: False for letter in re.findall(r"\bFl (\w)", line)})
        return found

    def refused(self):
        """The letters of the sentence that ends with `are refused`."""
        text = " ".join(self.section("DESCRIPTION"))
        sentence = re.search(r"The options ((?:\.Fl [\w ,F]+|and| )+) are refused", text)
        return set(re.findall(r"\b(\w)\b", sentence.group(1))) if sentence else set()


# the sources


def read(path):
    with open(os.path.join(TOP, "crates", path), encoding="utf-8") as file:
        return file.read()


def block(text, head):
    """What stands between the braces behind a head."""
    start = text.index("{", re.search(head, text).end())
    depth = 0
    for at in range(start, len(text)):
        depth += {"{": 1, "}": -1}.get(text[at], 0)
        if depth == 0:
            return text[start + 1:at]
    raise ValueError("no end of " + head)


def body_of(text, function):
    """The body of a function, behind its contract, if it has one."""
    rest = text[re.search(r"fn %s\b" % function, text).end():]
    return block(rest[re.search(r"\{$", rest, re.M).start():], "")


def arms(text, function):
    """The arms of a function's match: pairs of a pattern and what it gives."""
    body = re.sub(r"//.*", "", body_of(text, function))
    return re.findall(r"([\w:|&()\s,{}.]+?)\s*=>\s*([^\n]+?),?\n", block(body, r"match [^{]*") + "\n")


def words_of(text, function):
    """What a function gives for each variant: a text in quotes."""
    return {re.search(r"(\w+)\W*$", pattern.split("(")[0]).group(1): value.strip('"') for pattern, value in arms(text, function) if value.startswith('"')}


def texts_of(path, enum):
    """The text of each variant of a fault: by their attributes, by the match of its `Display` or of `parts`, or by that of its function `text`."""
    source = read(path)
    kinds = words_of(read("rule_lines/src/fault.rt"), "as_str")
    form = r'#\[error\("([^"]*)"([^\]]*)\)\]\s*(?:///[^\n]*\s*)*(\w+)(?:\((?:#\[from\] )?([\w&\' ]+)\))?'
    texts = {}
    for text, more, variant, carried in re.findall(form, block(source, r"enum %s\b" % enum)):
        named = re.search(r"LineKind::(\w+)", more)
        text = text.replace("{kind}", kinds[named.group(1)]) if named else text
        texts[variant] = text.replace("{0}", PLACES.get(carried, carried))
    if texts or not re.search(r"Display for %s\b" % enum, source):
        return texts or words_of(source, "text")
    shown = block(source, r"Display for %s\b" % enum)
    shown = body_of(source, "parts") if "self.parts(" in shown else shown
    for variant, gives in re.findall(r"%s::(\w+)(?:\(\w+\))?\s*=>(.*?)(?=%s::\w+(?:\(\w+\))?\s*=>|\Z)" % (enum, enum), shown, re.S):
        texts[variant] = text_given(gives, kinds)
    return texts


def text_given(gives, kinds):
    """The text that an arm of a `Display` or of `parts` gives."""
    named = re.search(r"LineKind::(\w+)\.fmt", gives)
    if named:
        return kinds[named.group(1)]
    if ".fmt(" in gives:
        return PLACES["LineFault"]
    first, *rest = re.findall(r'"([^"]*)"', gives)
    if "encode_utf8" in gives:
        return first + PLACES["char"] + "".join(rest)
    return first.replace("{line}", PLACES["u64"]).replace("{phase}", PLACES["Phase"])


def code_of(value):
    return {"BAD_INPUT": 100, "SYSTEM_FAULT": 111}.get(value) or (int(value) if value.isdigit() else None)


def codes_of(path, enum, variants, carrier=None):
    """The exit code of each variant by the match of `exit_code`: a variant may stand in the fault of a tool that carries it."""
    codes, rest = {}, None
    for pattern, value in arms(read(path), "exit_code"):
        for variant in re.findall(r"\b%s::(\w+)" % enum, pattern):
            codes[variant] = code_of(value)
        if pattern.strip() == "ToolFault::%s(_)" % carrier or pattern.strip() == "_" and rest is None:
            rest = code_of(value)
    return {variant: codes.get(variant, rest) for variant in variants}


def tool_texts(tool):
    """The texts of a tool, with their exit codes."""
    found = {}
    for path, enum, variant in [FAULTS[tool]] + ([REVIEW] if tool == "tcprules" else []):
        texts = texts_of(path, enum)
        codes = codes_of(TOOL_FAULT, enum, texts, variant)
        found.update({"%s: %s" % (tool, texts[name]): codes[name] for name in texts})
    usage = codes_of(TOOL_FAULT, "ToolFault", ["Usage"])["Usage"]
    found["%s: usage: %s" % (tool, usages()[tool])] = usage
    return found


def usages():
    """The tools of the program: the usage text of each."""
    source = read("ucspi_tools/src/tool.rt")
    names, usage = words_of(source, "name"), words_of(source, "usage")
    return {names[variant]: usage[variant] for variant in names}


def letters(name="TCPSERVER_LETTERS"):
    """The options of tcpserver: `plain`, `valued` or `refused`; or those by which the level is looked for, of which none is refused."""
    text = re.search(r'%s: &str = "([^"]*)"' % name, read("server_words/src/server_options.rt")).group(1)
    kinds = {"": "plain", ":": "valued", "!": "refused"}
    return {letter: kinds[mark] for letter, mark in re.findall(r"([^:!])([:!]?)", text)}


def word_texts():
    """The texts of tcpserver's words, with their exit codes."""
    path, enum = "server_words/src/fault.rt", "ServerWordsFault"
    texts = texts_of(path, enum)
    codes = codes_of(path, enum, texts)
    return {"tcpserver: " + texts[variant]: codes[variant] for variant in texts}


def server_texts():
    """The texts of tcpserver as a tool, where the program has it: those of its words too. A code is None where it is not found."""
    texts = texts_of(SERVER_FAULT, "ServerFault")
    found = word_texts()
    codes = codes_of(TOOL_FAULT, "ServerFault", texts)
    for variant, text in texts.items():
        if "Fault" not in text:
            found["tcpserver: " + text] = codes[variant]
    return found


# the checks


class PageChecks(Checks):
    """What was compared, and what differs."""

    def same(self, name, page, code):
        """What a page has has to be what the code has."""
        self.holds(name, page == code, "the page has %s, the code %s" % (show(page, code), show(code, page)))


def show(mine, other):
    """What one side has and the other has not."""
    if isinstance(mine, dict) and isinstance(other, dict):
        return {key: mine[key] for key in mine if key not in other or mine[key] != other[key]}
    if isinstance(mine, (set, frozenset)):
        return sorted(mine - set(other))
    return repr(mine)


def check_tool(checks, tool):
    page = Page(tool)
    checks.same(tool + ": synopsis", page.synopsis(), usages()[tool])
    checks.same(tool + ": texts and exit codes", page.texts(), tool_texts(tool))
    options = {letter: False for letter in ("v" if tool in VERBOSE else "") + ALONE.get(tool, "")}
    checks.same(tool + ": options", (page.synopsis_options(), page.options()), (options, options))
    checks.holds(tool + ": every exit code of a text stands under EXIT STATUS", set(page.texts().values()) <= page.codes())


def check_rule_texts(checks):
    page = Page("tcprules")
    kinds = words_of(read("rule_lines/src/fault.rt"), "as_str")
    kinds.pop("LongText")
    checks.same("tcprules: kinds of faults, in their order", page.below("tcprules: line N: KIND"), list(kinds.values()))
    source = body_of(read("rule_warnings/src/warning.rt"), "append_kind").replace('push_text(out, "line ")?;', "")
    told = ["line M" + text if text.startswith(" ") else text for text in re.findall(r'push_text\(out, "([^"]*)"\)', source)]
    checks.same("tcprules: warnings, in their order", page.below("tcprules: line N: WARNING"), told)
    phases = list(words_of(read("dir_calls/src/phase.rt"), "as_str").values())
    body = dict(page.items("DIAGNOSTICS", "-diag"))["tcprules: device fault at PHASE"]
    named = [word for line in body if line.startswith(".Cm ") for word in re.findall(r"\w+", line[4:])]
    checks.same("tcprules: phases", list(dict.fromkeys(named)), phases)
    checks.same("rulesim: phases", [phase for phase in phases if phase in " ".join(Page("rulesim").section("DESCRIPTION"))], phases)
    source = read("rule_lines/src/limits.rt")
    numbers = {int(number.replace("_", "")) for number in re.findall(r"\b(\d[\d_]{4,})\b", source)}
    text = " ".join(page.section("DESCRIPTION"))
    told = {int(number.replace(",", "")) for number in re.findall(r"\b(\d[\d,]{4,})\b", text)}
    checks.same("tcprules: limits", told & numbers, {67108864, 65536, 1073741824})


def check_variables(checks):
    source = read("rules_tools/src/variables.rt")
    asked = set(re.findall(r'read_variable\(\w+, \w+, "(\w+)"\)', source))
    checks.same("tcprulescheck: variables", Page("tcprulescheck").variables(), asked)
    asked = set(re.findall(r'variables\.get\("(\w+)"\)', read("stream_tools/src/recordio.rt")))
    checks.same("recordio: variables", Page("recordio").variables(), asked | {"PATH"})
    checks.same("fixcrio: variables", Page("fixcrio").variables(), {"PATH"})


def check_commands(checks):
    """The commands and events of scripts: each word that `script_words` knows stands on the page."""
    page = Page("rulesim")
    text = " ".join(page.section("DESCRIPTION"))
    words = set()
    for path in ("script_words/src/script.rt", "script_words/src/event_words.rt"):
        words |= set(re.findall(r'"([a-z]+)"', read(path)))
    checks.holds("rulesim: the code has commands", {"install", "ask", "replay"} <= words)
    checks.same("rulesim: words of scripts", {word for word in words if re.search(r"\b%s\b" % word, text)}, words)
    told = set(re.findall(r"(?:\.It Cm|\.Li) ([a-z]+)", "\n".join(page.section("DESCRIPTION"))))
    checks.same("rulesim: commands and events of the page", told - words, set())


def check_program(checks):
    page = Page("ucspi")
    tools = dict(usages())
    listed = {plain(line[7:]) for line in page.section("DESCRIPTION") if line.startswith(".It Li ")}
    if "tcpserver" not in tools:
        listed = {item for item in listed if not item.startswith("tcpserver ")}
    checks.same("ucspi: tools", listed, set(tools.values()))
    usage = re.search(r'"usage: (ucspi [^"]*)"', read(TOOL_FAULT)).group(1)
    checks.same("ucspi: texts", page.texts(), {"ucspi: usage: " + usage: 100, "ucspi: write fault": 111, "ucspi: out of memory": 111})
    words = set(re.findall(r'const \w+: &str = "(--\w+)"', read("ucspi_tools/src/choice.rt")))
    checks.same("ucspi: words of its own", set(re.findall(r"--\w+", " ".join(page.section("DESCRIPTION")))), words)


def check_server_words(checks):
    page = Page("tcpserver")
    kinds = letters()
    wanted = {letter: kind == "valued" for letter, kind in kinds.items() if kind != "refused"}
    refused = {letter: kind for letter, kind in kinds.items() if kind == "refused"}
    checks.same("tcpserver: letters by which the level is looked for", dict(letters("HEARD_LETTERS"), **refused), kinds)
    checks.same("tcpserver: options", page.options(), wanted)
    checks.same("tcpserver: options of the synopsis", page.synopsis_options(), wanted)
    with open(os.path.join(TOP, "docs", "OPTIONS.md"), encoding="utf-8") as file:
        rows = re.findall(r"^\| `-(\w) n` \|[^|]* ([\d,]+) to ([\d,]+);", file.read(), re.M)
    numbers = [(letter, int(least.replace(",", "")), int(most.replace(",", ""))) for letter, least, most in rows]
    wanted_numbers = [(letter, *ends) for letter, ends in plain_words.NUMBERS.items()]
    checks.same("tcpserver: numbers and their order, as docs/OPTIONS.md has them", numbers, wanted_numbers)
    checks.same("tcpserver: options that are refused", page.refused(), set(refused))
    usage = next(text for text in word_texts() if "usage: " in text)
    checks.same("tcpserver: synopsis", "tcpserver: usage: " + page.synopsis().replace(" ", " [options] ", 1), usage)
    checks.same("tcpserver: texts of words", {text: page.texts().get(text) for text in word_texts()}, word_texts())
    checks.holds("tcpserver: every exit code of a text stands under EXIT STATUS", set(page.texts().values()) <= page.codes())
    block_of_names = re.search(r"\[&str; \d+\] = \[(.*?)\];", read("child_jobs/src/child.rt"), re.S).group(1)
    checks.same("tcpserver: variables", page.variables(), set(re.findall(r'"(\w+)"', block_of_names)) | {"PATH"})


def check_server_texts(checks):
    """The texts of the server itself; a code that the sources do not tell in a known form is not compared."""
    code, page = server_texts(), Page("tcpserver").texts()
    checks.same("tcpserver: texts", page, {text: page.get(text) if code[text] is None else code[text] for text in code})


def check_log_lines(checks):
    page, source = Page("tcpserver"), read("server_log/src/lines.rt")
    pieces = re.findall(r'Text\("(tcpserver: [^"]*)"\)', source + read("server_log/src/log.rt"))
    begins = {text.rstrip().removesuffix(" on") for text in pieces}
    verdicts = {"tcpserver: " + word.strip() for word in words_of(source, "verdict_word").values()}
    begins = begins - {"tcpserver:"} | verdicts
    # a warning is one whole text
    warnings = {text for text in re.findall(r'b"(tcpserver: [a-z, ]*)\\n"', read("server_log/src/log.rt"))} & set(page.log_lines())
    heads = {re.match(r"tcpserver: [a-z]+:?", line).group(0) for line in set(page.log_lines()) - warnings}
    checks.same("tcpserver: warnings", warnings, {"tcpserver: rules by name, and no names"})
    checks.same("tcpserver: lines of the log", heads, begins)
    with open(os.path.join(TOP, "docs", "LOG_LINES.md"), encoding="utf-8") as file:
        forms = set(re.findall(r"^\| `(tcpserver: [^`]*)`", file.read(), re.M))
    forms.add(next(form for form in forms if ": ok N" in form).replace(": ok N", ": deny N"))
    checks.same("tcpserver: forms of the log, as docs/LOG_LINES.md has them", set(page.log_lines()), forms)
    of_events = {form for form in forms if not form.startswith(BESIDE_EVENTS)}
    checks.same("tcpserver: forms of the log, as the tests have them", log_forms.documented(), of_events)
    causes = re.findall(r'"([^"]*)"', body_of(source, "cause_words"))
    checks.same("tcpserver: causes", page.below("tcpserver: drop N CAUSE"), causes)
    faults = re.findall(r'"([^"]*)"', body_of(source, "fault_words"))
    checks.same("tcpserver: faults of a start", page.below("tcpserver: start N FAULT"), faults)


def check_terms(checks, page):
    """The prose of a page has the terms of the trade; examples, and what stands in a line of its own macro, are left out."""
    lines = re.sub(r"^\.Bd -literal.*?^\.Ed$", "", "\n".join(line for lines in page.sections.values() for line in lines), flags=re.M | re.S).split("\n")
    prose = "\n".join(line for line in lines if not line.startswith(".") or line.startswith(".Nd "))
    found = [term.group(0) for form in TERMS for term in re.finditer(r"\b(?:%s)\b" % form, prose)]
    checks.same(page.name + ": terms for which there are better ones", found, [])
    # mandoc and man take such a word in quotes for a macro, and leave it out
    macros = [line for line in lines if re.match(r"\.[DS]q .*(?<!\\&)\b(No|In|It|So|An|At|Do|En|Em)\b", line)]
    checks.same(page.name + ": words in quotes that are left out", macros, [])


def check_form(checks, page, pages):
    """What the programs that show pages say of one, and that it has the sections that each has."""
    name, path = page.name, page.path
    for section in SECTIONS:
        checks.holds("%s: section %s" % (name, section), page.section(section))
    references = "\n".join(page.section("SEE ALSO"))
    checks.holds(name + ": no URL under SEE ALSO", "://" not in references and ".Lk" not in references, references)
    told = {"%s(%s)" % found for found in re.findall(r"^\.Xr ([\w-]+) (\d)", references, re.M)}
    checks.holds(name + ": what it has to refer to", NAMED.get(name, set()) <= told, sorted(told))
    known = {"%s(%s)" % (one.name, one.path[-1]) for one in pages} | OUTSIDE
    with open(path, encoding="ascii") as file:
        named = {"%s(%s)" % found for found in re.findall(r"^\.Xr ([\w-]+) (\d)", file.read(), re.M)}
    checks.same("%s: pages that it refers to and nobody knows" % name, sorted(named - known), [])
    if shutil.which("mandoc"):
        ended = subprocess.run(["mandoc", "-T", "lint", path], stdout=subprocess.PIPE, stderr=subprocess.DEVNULL, timeout=600)
        said = ended.stdout.decode().splitlines()
        # (what is not installed here is looked at above)
        said = [line for line in said if "referenced manual not found: Xr " not in line]
        checks.same(name + ": mandoc -T lint", said, [])
    if shutil.which("man"):
        words = ["man", "-l", path]
        if b"man-db" in subprocess.run(["man", "--version"], stdout=subprocess.PIPE, stderr=subprocess.STDOUT, timeout=600).stdout:
            words.insert(1, "--warnings")
        ended = subprocess.run(words, stdin=subprocess.DEVNULL, stdout=subprocess.PIPE, stderr=subprocess.PIPE, timeout=600)
        checks.same(name + ": man -l", (ended.returncode, ended.stderr.decode()), (0, ""))
        checks.holds(name + ": man -l shows the page", b"NAME" in re.sub(b".\b", b"", ended.stdout))


def examples(page):
    """The examples of a page that begin with a prompt: each command, and the lines below it."""
    found, literal = [], False
    for line in page.section("EXAMPLES"):
        if line.startswith((".Bd -literal", ".Ed")):
            literal = line.startswith(".Bd")
        elif literal and line.startswith("$ "):
            found.append((line[2:].replace("\\e", "\\").replace("\\&", ""), []))
        elif literal and found:
            found[-1][1].append(line.replace("\\e", "\\").replace("\\&", ""))
    return found


def check_rules_page(checks):
    """The page of the language: the limits of the code, and its kinds of rules."""
    page, source = Page("tcprules", 5), read("rule_lines/src/limits.rt")
    numbers = {int(number.replace("_", "")) for number in re.findall(r"\b(\d[\d_]{4,})\b", source)}
    told = {int(number.replace(",", "")) for number in re.findall(r"\b(\d[\d,]{4,})\b", " ".join(page.section("DESCRIPTION")))}
    checks.same("tcprules(5): limits", told & numbers, {67108864, 65536, 1073741824})


def check_examples(checks, program, page):
    """Each example gives the lines below it. Two streams may come in any order, and a blank at a line's end is not seen on a page."""
    rules = '10.0.0-3.:allow,RELAYCLIENT=""\n=.example.org:allow,RELAYCLIENT=""\n192.0.2.66:deny\n:allow\n'
    with tempfile.TemporaryDirectory() as folder:
        os.symlink(program, os.path.join(folder, "ucspi"))
        os.symlink(os.path.join(TOP, "scripts", "log_events.py"), os.path.join(folder, "ucspi-log-events"))
        for tool in usages():
            with open(os.path.join(folder, tool), "w") as file:
                file.write('#!/bin/sh\nexec ucspi %s "$@"\n' % tool)
            os.chmod(os.path.join(folder, tool), 0o755)
        subprocess.run([program, "tcprules", "rules.cdb", "rules.tmp"], input=rules.encode(), cwd=folder, check=True, timeout=600)
        environment = {"PATH": folder + ":" + os.environ["PATH"]}
        for command, wanted in examples(page):
            ended = subprocess.run(
                ["sh", "-c", command], cwd=folder, env=environment, stdout=subprocess.PIPE, stderr=subprocess.STDOUT, timeout=600
            )
            lines = ended.stdout.decode().splitlines()
            checks.same("%s: %s" % (page.name, command), sorted(line.rstrip() for line in wanted), sorted(line.rstrip() for line in lines))


def check(program, failures):
    """Compares all pages: how many tests there were."""
    checks = PageChecks("man_pages", failures)
    names = sorted(name[:-2] for name in os.listdir(os.path.join(TOP, "man")) if name.endswith(".1"))
    server = os.path.exists(os.path.join(TOP, "crates", SERVER_FAULT))
    wanted = set(usages()) | {"ucspi", "ucspi-log-events"} | ({"tcpserver"} if "tcpserver" in names else set())
    checks.same("one page for each tool", set(names), wanted)
    pages = [Page(name) for name in names] + [Page("tcprules", 5)]
    for tool in sorted(FAULTS):
        check_tool(checks, tool)
    check_rule_texts(checks)
    check_variables(checks)
    check_commands(checks)
    check_program(checks)
    if "tcpserver" in names:
        check_server_words(checks)
        check_log_lines(checks)
        if server:
            check_server_texts(checks)
        else:
            print("man_pages: the program has no tcpserver yet: the texts of its start and end but those of its words are skipped")
    for missing in [tool for tool in ("mandoc", "man") if not shutil.which(tool)]:
        print("man_pages: %s is not installed: what it says of the pages is skipped" % missing)
    check_rules_page(checks)
    for page in pages:
        check_form(checks, page, pages)
        check_terms(checks, page)
    if os.path.exists(program):
        for page in pages:
            check_examples(checks, program, page)
    else:
        print("man_pages: there is no program: the examples of the pages are skipped")
    return checks.tests
