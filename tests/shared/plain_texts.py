"""A plain reader of rule texts: which texts are accepted, the first faulty line of the others and its kind, the
compiled codes, the decisions. It is written from the document, with nothing of the program in it. The module also makes
such texts.
"""
import random

LINE_LIMIT = 65536
TEXT_LIMIT = 67108864
HIGHEST_NUMBER = 4294967295

# pieces of an address
ADDRESS = [
    b"a", b"Z", b"=", b"=B", b"-", b"-", b"-", b"1-2", b"3-1", b".", b".", b".", b"@", b"#", b" ", b"\t", b"0", b"1", b"2", b"25", b"255",
    b"256", b"00", b"4294967295", b"4294967296", b"\xc3\xa9",
]
# addresses under which the peers below are looked up
KNOWN = [
    b"1.2.3.4", b"1.2.3.", b"1.2.", b"1.", b"1.2.3.3-5", b"1.2.2-3.", b"1-2.", b"-2.", b"10.0.0.255", b"10.0.0.250-999", b"9-10.", b"",
    b"joe@1.2.3.4", b"joe@=A.Example", b"Joe@=a.example", b"=a.example", b"=A.EXAMPLE", b"=.Example", b"=.b.example", b"=", b"ann@10.0.0.255",
]
# what may stand where the word of a verdict belongs
VERDICT = [b"allow", b"allow", b"allow", b"deny", b"deny", b"deny", b"allow", b"Deny"]
# pieces of a name, or of a value
NAME = [b"A", b"A", b"b", b",", b" ", b"-", b":", b"0", b"\xc3\xa9"]
QUOTE = [b'"', b'"', b'"', b"/", b"a", b"=", b",", b" ", b"\r", b"\xc3\xa9"]
# what no accepted line has
REFUSED = [b"\0", b"\0", b"\xff", b"\xc3"]
# what may stand anywhere
ANYTHING = [
    b"a", b"Z", b":", b":", b",", b",", b"=", b"=", b"-", b".", b"@", b"#", b" ", b"\t", b"\n", b"\n", b"\r", b"\0", b'"', b'"', b"1", b"9",
    b"allow", b"deny", b"\xc3\xa9", b"\xc3", b"\xa9", b"\xff",
]
# an address, a user and a host
PEERS = [
    ("1.2.3.4", "", ""),
    ("1.2.3.4", "joe", "a.example"),
    ("1.2.3.5", "Joe", "A.Example"),
    ("10.0.0.255", "ann", "x.b.example"),
    ("2.0.0.1", "", ".a.example"),
    ("77.0.0.1", "", ""),
]


class Fault(Exception):
    """What is wrong with a line."""


def is_text(line):
    """Whether the bytes are UTF-8."""
    try:
        line.decode("utf-8")
    except UnicodeDecodeError:
        return False
    return True


def settings_in(line):
    """The names and values of `,NAME=QVALUEQ` one after another."""
    settings = []
    while line:
        equals = line.find("=")
        if line[0] != "," or equals < 2 or equals + 1 == len(line):
            raise Fault("bad setting")
        quote = line[equals + 1]
        end = line.find(quote, equals + 2)
        if end < 0:
            raise Fault("bad setting")
        settings.append((line[1:equals], line[equals + 2:end]))
        line = line[end + 1:]
    return settings


def instruction_in(instructions, encoding):
    """The verdict and the settings of what follows the colon. `encoding` says what a character is."""
    for word in ("allow", "deny"):
        if instructions.startswith(word.encode()):
            settings = settings_in(instructions[len(word):].decode(encoding))
            return word, [(name.encode(encoding), value.encode(encoding)) for name, value in settings]
    raise Fault("no verdict")


def number_in(digits):
    """The number of some digits, maybe none."""
    if digits.strip(b"0123456789") or int(digits or b"0") > HIGHEST_NUMBER:
        raise Fault("bad range")
    return int(digits or b"0")


def addresses_in(address):
    """The addresses that the address of a line stands for."""
    if b"-" in address and b"=" not in address and b"@" not in address:
        left, right = address.split(b"-", 1)
        front, back = left.rfind(b".") + 1, (right + b".").find(b".")
        low, high = number_in(left[front:]), number_in(right[:back])
        return [left[:front] + b"%d" % number + right[back:] for number in range(low, min(high, 255) + 1)]
    before, mark, after = address.partition(b"=")
    return [before + mark + after.lower()]


def rules_in_line(line):
    """The rules of a line without the blanks at its end."""
    address, colon, instructions = line.partition(b":")
    if not colon or line.startswith(b"#"):
        return []
    text = is_text(line)
    verdict, settings = instruction_in(instructions, "utf-8" if text else "latin-1")
    addresses = addresses_in(address)
    if not text:
        raise Fault("not text")
    if b"\0" in line:
        raise Fault("nul byte")
    if len(line) > LINE_LIMIT:
        raise Fault("long line")
    return [(address, verdict, settings) for address in addresses]


def rules_in(text):
    """The rules of a text, or its fault, as a pair: one of them is None."""
    if len(text) > TEXT_LIMIT:
        return None, "text too long"
    rules = []
    lines = text.split(b"\n")
    for number, line in enumerate(lines[:-1] if lines[-1] == b"" else lines, 1):
        try:
            rules += rules_in_line(line.rstrip(b" \t"))
        except Fault as fault:
            return None, "line %d: %s" % (number, fault)
    return rules, None


def forms(ip, user, host):
    """The addresses under which a peer is looked up, in order."""
    host = host.lower()
    found = ["%s@%s" % (user, ip)] if user else []
    found += ["%s@=%s" % (user, host)] if user and host else []
    found += [ip] + (["=" + host] if host else [])
    found += [ip[:end + 1] for end in range(len(ip) - 1, -1, -1) if ip[end] == "."]
    found += ["=" + host[start:] for start in range(1, len(host)) if host[start] == "."]
    return [form.encode() for form in found + (["="] if host else []) + [""]]


def decision(rules, peer):
    """What `rulesim` answers of a peer."""
    first = {}
    for address, verdict, settings in rules:
        first.setdefault(address, (verdict, settings))
    for form in forms(*peer):
        if form in first:
            verdict, settings = first[form]
            lines = [b"rule " + form + b":"]
            if verdict == "allow":
                lines += [b"set environment variable " + name + b"=" + value for name, value in settings]
            return b"\n".join(lines + [verdict.encode() + b" connection\n"])
    return b"default:\nallow connection\n"


def question(peer):
    ip, user, host = peer
    return ("ask " + ip + (" info=" + user if user else "") + (" host=" + host if host else "") + "\n").encode()


def code(verdict, settings):
    """The bytes under which an instruction is stored."""
    return (b"D\0" if verdict == "deny" else b"") + b"".join(b"+" + name + b"=" + value + b"\0" for name, value in settings)


class Texts:
    """Makes texts of a fixed series of numbers. `noise` is how seldom bytes are put where they don't belong: never at 0."""

    def __init__(self, seed):
        self.series = random.Random(seed)
        self.noise = (0, 3, 30, 90)[seed % 4]

    def seldom(self, times):
        return self.noise and self.series.randrange(times) == 0

    def piece(self, pieces):
        return self.series.choice(pieces) + (self.series.choice(ANYTHING) if self.seldom(self.noise) else b"")

    def pieces(self, pieces, most):
        return b"".join(self.piece(pieces) for _ in range(self.series.randrange(most + 1)))

    def setting(self):
        quote = self.series.choice(QUOTE)
        refused = self.series.choice(REFUSED) if self.seldom(8) else b""
        return self.piece([b","]) + b"N" + self.pieces(NAME, 2) + self.piece([b"="]) + quote + self.pieces(NAME, 2) + refused + quote

    def line(self):
        address = self.pieces(ADDRESS, 4) if self.series.randrange(2) else self.series.choice(KNOWN)
        settings = b"".join(self.setting() for _ in range(self.series.randrange(4)))
        rest = self.pieces(ANYTHING, 1) if self.noise else b""
        return address + self.piece([b":"]) + self.piece(VERDICT) + settings + rest + self.series.choice([b"", b"", b" ", b"\t \t"])

    def text(self):
        text = self.pieces(ANYTHING, 20) if self.series.randrange(8) == 0 else b""
        text += b"".join(self.line() + b"\n" for _ in range(self.series.randrange(5)))
        if self.series.randrange(80) == 0:
            text = self.long_line() + b"\n" + text
        return text

    def long_line(self):
        """A line at its limit or a byte past it, with a second fault now and then."""
        front = self.series.choice([b"", b"", b"", b"1-x", b"\xff"]) + b":allow,A=x"
        length = self.series.choice([LINE_LIMIT, LINE_LIMIT + 1])
        return front + b"a" * (length - len(front) - 1) + b"x" + self.series.choice([b"", b" \t"])


def first_difference(output, script, wanted):
    """The first text and its questions that were not answered as they should be."""
    for asked, answers in zip(script, wanted):
        if not output.startswith(answers):
            return "%r: %r, not %r" % (asked[:300], output[:len(answers) + 40][:300], answers[:300])
        output = output[len(answers):]
    return "more output: %r" % output[:300]
