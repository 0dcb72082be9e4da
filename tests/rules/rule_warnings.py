"""Compares what `tcprules -n` and `tcprules -N` say of rule texts with a plain second program, on random texts with
mistakes planted. It also tries each kind of warning once, words, faults of the streams, and a text of 64 MiB with the
memory that it takes.

The second program is written from docs/RULES.md, with nothing of the program in it: it tries peers to find out whether
an address is a form of one of them. The texts come from a fixed series of numbers, so each run has the same ones.
"""
import concurrent.futures
import os
import random
import re
import subprocess
import tempfile

from shared import plain_texts, refusals
from shared.checks import Checks, is_tried, leave_out, needs_proved

TEXTS = 10000
# how many of them one shell looks over
PART = 400
# how long a run may take that doesn't hang, in seconds
LIMIT = 600
LONG_TEXT = 64 * 1024 * 1024
# of a program that was built without proofs, which is a hundred times as slow
SHORT_TEXT = 128 * 1024
USAGE = b"tcprules: usage: tcprules cdb tmp\n"
NOBODY = b"no client has this address"
BLANK = b"a name with a blank"
# stands once behind the warnings, and is none of a line
TABLE = b"tcprules: rules by name need a host table\n"
USER = b"a user is never known"
OTHERS = b"no rule for everyone else"
IGNORED = b"ignored"


# the second program


def is_address(text):
    """Whether this is an IPv4 address: four numbers from 0 to 255 without leading zeros."""
    return re.fullmatch(rb"(0|[1-9][0-9]{0,2})(\.(0|[1-9][0-9]{0,2})){3}", text) is not None and all(int(word) < 256 for word in text.split(b"."))


def may_be_name(name):
    return 1 <= len(name) <= 255 and b"\0" not in name


def lower_from_equals(address):
    before, mark, after = address.partition(b"=")
    return before + mark + after.lower()


def forms(ip, user, host):
    """All lookup forms of a peer; what is not known is None."""
    found = [ip, b""] + [ip[:end + 1] for end in range(len(ip)) if ip[end:end + 1] == b"."]
    if user is not None:
        found.append(user + b"@" + ip)
    if host is not None:
        found += [b"=" + host, b"="] + [b"=" + host[start:] for start in range(1, len(host)) if host[start:start + 1] == b"."]
    if user is not None and host is not None:
        found.append(user + b"@=" + host)
    return [lower_from_equals(form) for form in found]


def peers_for(address):
    """Peers one of which has this address as a form, if any peer has."""
    ips = [b"0.0.0.0"] + [address + zeros for zeros in (b"", b"0", b"0.0", b"0.0.0")]
    users, hosts = [None], [None, b"x", address[1:], b"x" + address[1:]]
    for place in range(len(address)):
        if address[place:place + 1] == b"@":
            users.append(address[:place])
            ips.append(address[place + 1:])
            hosts.append(address[place + 2:])
    for user in users:
        for ip in ips:
            for host in hosts:
                names = [name for name in (user, host) if name is not None]
                if is_address(ip) and all(map(may_be_name, names)) and (host is None or host == host.lower()):
                    yield ip, user, host


def is_form(address):
    """Whether some peer has this address as one of its forms. Each address is tried once."""
    if address not in KNOWN:
        KNOWN[address] = any(address in forms(*peer) for peer in peers_for(address))
    return KNOWN[address]


KNOWN = {}


def is_host(address):
    """Whether this is `=` and a host, or the end of one, of at most 255 bytes."""
    return address.startswith(b"=") and len(address) <= 256


def ignored(line):
    return not line or line.startswith(b"#") or b":" not in line


def warnings(text):
    """The warnings of an accepted text, as pairs of a line's number and what is said of it."""
    lines = text.split(b"\n")
    lines = [line.rstrip(b" \t") for line in (lines[:-1] if lines[-1] == b"" else lines)]
    first, found = {}, []
    for number, line in enumerate(lines, 1):
        addresses = []
        if not ignored(line):
            address = line.partition(b":")[0]
            addresses = plain_texts.addresses_in(address)
            if not any(map(is_form, addresses)):
                found.append((number, NOBODY))
            if b"@" in address and not is_host(address):
                found.append((number, USER))
            if addresses and all(address in first for address in addresses):
                found.append((number, b"line %d decides first" % min(first[address] for address in addresses)))
            if any(set(b" \t") & set(name) for name, _ in plain_texts.instruction_in(line.partition(b":")[2], "utf-8")[1]):
                found.append((number, BLANK))
        for address in addresses:
            first.setdefault(address, number)
        if number == len(lines) and b"" not in first:
            found.append((number, OTHERS))
        if line and not line.startswith(b"#") and (ignored(line) or re.match(rb"[ \t]+#", line)):
            found.append((number, IGNORED))
    return found or ([] if lines else [(0, OTHERS)])


def report(text):
    """What the program has to print of a text, and whether it is accepted."""
    _, fault = plain_texts.rules_in(text)
    if fault is not None:
        return ("tcprules: %s\n" % fault).encode(), False
    named = any(line.startswith(b"=") and b":" in line for line in text.split(b"\n"))
    return b"".join(b"tcprules: line %d: %s\n" % warning for warning in warnings(text)) + (TABLE if named else b""), True


# random texts with mistakes

RIGHT = [b"10.0.0.5", b"10.0.0.", b"10.", b"10.0-3.", b"192.0.2.66", b"192.0.2.60-69", b"=a.example", b"=.Example", b"=", b"1-9.2.3.4", b"10.0.0.0-7"]
WRONG = [
    b"10.0.0.0/24", b"10.0.0", b"10.0", b"10", b"10.0.0.*", b"*", b"10.0.0.1-10.0.0.9", b" 10.0.0.5", b"\t10.", b"\xef\xbb\xbf10.0.0.5", b"010.0.0.5",
    b"10.00.0.5", b"10.0.0.256", b"256.", b"10.0.0.5.", b"1.2.3.4.5", b"10..0.", b".10.", b"10.0.0.5\r", b"a.example", b".example", b"10.0.0.9-5",
    b"1.2.3.5-", b"300-400.1.", b"0-9.256.", b"::1", b"10.0.0. ", b"+1.2.3.4", b"0x0a.0.0.1",
]
USERS = [b"joe@10.0.0.5", b"joe@=A.Example", b"joe@=", b"joe@=.example", b"@10.0.0.5", b"joe@10.0.0.", b"joe@", b"a@b@10.0.0.5", b"=a@b", b"x=Y@1.2.3.4", b"joe@a-b"]
OTHER = [b"10.0.0.5 deny", b"deny", b"# a comment", b" # a comment", b"", b"  ", b"#", b"\t", b"# 10.0.0.5:deny", b":", b"x"]


class Texts:
    """Makes texts of a fixed series of numbers."""

    def __init__(self, seed):
        self.series = random.Random(seed)

    def address(self):
        kind = self.series.randrange(20)
        if kind < 9:
            return self.series.choice(RIGHT)
        if kind < 14:
            return self.series.choice(WRONG)
        if kind < 16:
            return self.series.choice(USERS)
        if kind == 16:
            return b""
        if kind == 17:
            return b"".join(self.series.choice(plain_texts.ADDRESS) for _ in range(self.series.randrange(6)))
        if kind == 18:
            return self.edge()
        return b".".join(b"%d" % self.series.choice([0, 1, 9, 10, 255, 256]) for _ in range(self.series.randrange(1, 6))) + self.series.choice([b"", b"."])

    def edge(self):
        """Names about as long as they may be."""
        name = b"n" * self.series.choice([1, 127, 254, 255, 256, 300])
        return self.series.choice([b"=" + name, b"=." + name[1:], name + b"@1.2.3.4", b"u@=" + name, name + b"@=" + name, b"=" + name[5:] + b"@1.2.3.4"])

    def line(self):
        kind = self.series.randrange(40)
        if kind < 3:
            return self.series.choice(OTHER)
        if kind == 3:
            return self.series.choice([b" #", b"\t#", b"  \t #", b" x#", b"# "]) + self.address() + b":deny"
        words = b":denied" if kind == 4 and self.series.randrange(4) == 0 else self.series.choice([b":allow", b":deny", b':allow,A="x"', self.settings()])
        return self.address() + words + self.series.choice([b"", b"", b"", b" ", b"\t"])

    def settings(self):
        """Some settings, with a blank in some of their names and values."""
        settings = b""
        for _ in range(self.series.randrange(1, 4)):
            name = self.series.choice([b"A", b"A", b"B ", b" B", b"A\tB", b"\xc3\xa9", b"a,b"])
            quote = self.series.choice([b'"', b"/", b"\xc3\xa9"])
            settings += b",%s=%s%s%s" % (name, quote, self.series.choice([b"", b"x", b",A=", b"x\ty", b"=\""]).replace(quote, b""), quote)
        return b":allow" + settings

    def text(self):
        lines = [self.line() for _ in range(self.series.randrange(10))]
        return b"\n".join(lines) + self.series.choice([b"", b"\n", b"\n", b"\n\n"])


def run(program, words, text, **given):
    """What a run prints on standard error, and its exit code; nothing stands on standard output."""
    ended = subprocess.run([program, "tcprules", *words], input=text, env={}, stdout=subprocess.PIPE, stderr=subprocess.PIPE, timeout=LIMIT, **given)
    return ended.stderr, ended.returncode, ended.stdout


# looks over the texts of the files 0, 1, .. of a folder, every eighth with -N, and prints the exit codes
EACH = """
place=0
while [ $place -lt $2 ]; do
    word=-n
    [ $((place % 8)) -gt 0 ] || word=-N
    "$1" tcprules $word < $place > $place.out 2> $place.err
    echo $?
    place=$((place + 1))
done
"""


def look_over(program, texts):
    """What runs over each of these texts print on standard error, their exit codes, and what they print on standard output."""
    with tempfile.TemporaryDirectory() as folder:
        def content(name):
            with open(os.path.join(folder, name), "rb") as file:
                return file.read()

        for place, text in enumerate(texts):
            with open(os.path.join(folder, str(place)), "wb") as file:
                file.write(text)
        words = ["sh", "-c", EACH, "sh", program, str(len(texts))]
        codes = subprocess.run(words, cwd=folder, env={}, stdin=subprocess.DEVNULL, stdout=subprocess.PIPE, timeout=LIMIT, check=True).stdout.split()
        return [(content("%d.err" % place), int(code), content("%d.out" % place)) for place, code in enumerate(codes)]


def check_random(program, checks):
    """Ten thousand texts, a tenth of them without proofs; one in eight with `-N`."""
    count, told, accepted = TEXTS // 10 if is_tried() else TEXTS, {}, 0
    leave_out(TEXTS - count)
    with concurrent.futures.ThreadPoolExecutor(len(os.sched_getaffinity(0))) as threads:
        parts = [[Texts(seed).text() for seed in range(start, start + PART)] for start in range(0, count, PART)]
        for texts, answers in zip(parts, threads.map(lambda texts: look_over(program, texts), parts)):
            for place, (text, got) in enumerate(zip(texts, answers, strict=True)):
                lines, fine = report(text)
                strict = place % 8 == 0
                checks.expect("the random text %r" % text, got, (lines, 100 if not fine else 1 if strict and lines not in (b"", TABLE) else 0, b""))
                accepted += fine
                for line in lines.split(b"\n") if fine else []:
                    kind = re.sub(rb"^.*: |[0-9]+", b"", line) if line + b"\n" != TABLE else TABLE
                    told[kind] = told.get(kind, 0) + 1
    checks.holds("most random texts are accepted", accepted > count * 3 // 4, str(accepted))
    for kind in (NOBODY, USER, b"line  decides first", BLANK, OTHERS, IGNORED, TABLE):
        checks.holds("random texts with %r" % kind, told.get(kind, 0) > count // 20, str(told.get(kind)))


def check_forms(program, checks):
    """Of a text of all forms of some peers none has no client."""
    series, lines = random.Random(51), []
    for _ in range(300):
        ip = b".".join(b"%d" % series.randrange(256) for _ in range(4))
        host = b"".join(series.choice([b"a", b"b.", b".", b"-", b"@", b"=", b"1."]) for _ in range(series.randrange(1, 9))) if series.randrange(4) else None
        user = b"".join(series.choice([b"j", b"@", b"=", b".", b"-", b" "]) for _ in range(series.randrange(1, 5))) if series.randrange(2) else None
        # what has a `-`, and neither `=` nor `@`, is a range; a `#` or a blank in front is told of elsewhere
        lines += [form + b":deny" for form in forms(ip, user, host) if not form.startswith((b" ", b"#")) and (b"-" not in form or set(b"=@") & set(form))]
    told, code, _ = run(program, ["-n"], b"\n".join(lines) + b"\n")
    checks.expect("forms of peers: the exit code", code, 0)
    checks.expect("forms of peers: those of nobody", [line for line in told.split(b"\n") if line.endswith(NOBODY)], [])


# a text, and what is printed of it after `tcprules: line `
ROWS = [
    (b"10.0.0.5 deny\n:deny\n", [b"1: ignored"]),
    (b"10.0.0.0/24:deny\n:deny\n", [b"1: no client has this address"]),
    (b"10.0.0:deny\n:deny\n", [b"1: no client has this address"]),
    (b"10.0.0.*:deny\n:deny\n", [b"1: no client has this address"]),
    (b"10.0.0.1-10.0.0.9:deny\n:deny\n", [b"1: no client has this address"]),
    (b" 10.0.0.5:deny\n:deny\n", [b"1: no client has this address"]),
    (b"\xef\xbb\xbf10.0.0.5:deny\n:deny\n", [b"1: no client has this address"]),
    (b"010.0.0.5:deny\n:deny\n", [b"1: no client has this address"]),
    (b"10.0.0.256:deny\n:deny\n", [b"1: no client has this address"]),
    (b"10.0.0.1.2:deny\n:deny\n", [b"1: no client has this address"]),
    (b"10.0.0.9-5:deny\n:deny\n", [b"1: no client has this address"]),
    (b"a.example:deny\n:deny\n", [b"1: no client has this address"]),
    (b"=" + b"a" * 255 + b":deny\n=" + b"a" * 256 + b":deny\n:deny\n", [b"2: no client has this address"]),
    (b"=A.Example:deny\n:deny\n", []),
    (b"joe@10.0.0.5:allow\n:deny\n", [b"1: a user is never known"]),
    (b"joe@10.0.0.:allow\n:deny\n", [b"1: no client has this address", b"1: a user is never known"]),
    (b"=a@b:allow\n:deny\n", []),
    (b"10.0.0.5:deny\n10.0.0.5:allow\n10.0.0.5:deny\n:deny\n", [b"2: line 1 decides first", b"3: line 1 decides first"]),
    (b"1.2.3.1-3:deny\n1.2.3.2-4:deny\n1.2.3.1-4:allow\n1.2.3.3:allow\n1.2.3.4:allow\n:deny\n",
     [b"3: line 1 decides first", b"4: line 1 decides first", b"5: line 2 decides first"]),
    (b"=A.b:deny\n=a.B:allow\n:deny\n", [b"2: line 1 decides first"]),
    (b"10.:allow\n", [b"1: no rule for everyone else"]),
    (b"10.:allow\n\n# the end\n", [b"3: no rule for everyone else"]),
    (b"", [b"0: no rule for everyone else"]),
    (b"\n", [b"1: no rule for everyone else"]),
    (b":deny", []),
    (b":deny\n", []),
    (b"# a comment: deny\n \t\n:deny\n", []),
    (b" # a comment\n:deny\n", [b"1: ignored"]),
    (b" #10.0.0.5:deny\n \t#1.:deny\n:deny\n", [b"1: no client has this address", b"1: ignored", b"2: no client has this address", b"2: ignored"]),
    (b":deny\n10.0.0.5 allow", [b"2: ignored"]),
    (b"10.0.0.5 allow", [b"1: no rule for everyone else", b"1: ignored"]),
    (b"10.0.0.5:deny\r\n:deny\r\n", None),
    (b':allow, RELAYCLIENT=""\n', [b"1: a name with a blank"]),
    (b':allow,A="",\tB="x"\n', [b"1: a name with a blank"]),
    (b':deny,A B="",C D=""\n', [b"1: a name with a blank"]),
    (b':allow,A="B C=",D=/ E F=/\n', []),
    (b":allow,A= x ,B=x yx\n", []),
    (b'#:allow, A=""\n:deny\n', []),
    (b'10.0.0.9-5:allow, A=""\n', [b"1: no client has this address", b"1: a name with a blank", b"1: no rule for everyone else"]),
]


def check_rows(program, checks):
    """Each kind of warning, with both words."""
    for text, rows in ROWS:
        lines = report(text)[0] if rows is None else b"".join(b"tcprules: line %s\n" % row for row in rows)
        warned = bool(lines)
        if text.startswith(b"="):
            lines += TABLE
        code = 100 if rows is None else 0
        checks.expect("-n of %r" % text, run(program, ["-n"], text), (lines, code, b""))
        checks.expect("-N of %r" % text, run(program, ["-N"], text), (lines, code or (1 if warned else 0), b""))
        checks.expect("the second program on %r" % text, report(text), (lines, rows is not None))


def check_words(program, checks):
    """No other word goes with either, and nothing is touched on the disk."""
    with tempfile.TemporaryDirectory() as folder:
        for words in (["-n", "x"], ["-N", "x"], ["-n", "x", "y"], ["-n", "-n"], ["-n", "-v"], ["-v", "-n"], ["-v", "-N"], ["-nN"], ["-n", ""], ["-n", b"\xff"]):
            checks.expect("the words %r" % words, run(program, words, b":deny\n", cwd=folder), (USAGE, 100, b""))
        for word in ("-n", "-N"):
            run(program, [word], b":deny\n", cwd=folder)
        checks.expect("what stands in the folder", os.listdir(folder), [])


def check_refused(program, checks):
    """Refused texts have their usual line, and no warning."""
    for text in (b"10.0.0/8:deny\n:denied\n", b":allow,X\n", b"a-b:deny\n", b"\xff:deny\n", b"\0:deny\n", b":allow,A=x" + b"a" * 65536 + b"x\n"):
        lines, accepted = report(text)
        for word in ("-n", "-N"):
            checks.expect("%s of a refused text %r" % (word, text[:40]), run(program, [word], text), (lines, 100, b""))
        checks.holds("it is refused", not accepted)
    check_too_long(program, checks)


@needs_proved(1)
def check_too_long(program, checks):
    """A text over its limit."""
    checks.expect("a text over its limit", run(program, ["-N"], b"#" * (LONG_TEXT + 1)), (b"tcprules: text too long\n", 100, b""))


def check_streams(program, checks):
    """Streams that are closed, or of the wrong kind."""
    def shell(line, text=b"10.:allow\n"):
        ended = subprocess.run(["sh", "-c", line, "sh", program], input=text, env={}, stdout=subprocess.PIPE, stderr=subprocess.PIPE, timeout=LIMIT)
        return ended.stderr, ended.returncode

    for word in ("-n", "-N"):
        checks.expect(word + " with a closed standard error, and a warning", shell('"$1" tcprules %s 2>&-' % word), (b"", 111))
        checks.expect(word + " with a closed standard error, and none", shell('"$1" tcprules %s 2>&-' % word, b":deny\n"), (b"", 0))
        checks.expect(word + " with a full standard error", shell('"$1" tcprules %s 2>/dev/full' % word), (b"", 111))
        checks.expect(word + " with a closed standard output", shell('"$1" tcprules %s >&-' % word, b":deny\n"), (b"", 0))
        checks.expect(word + " with a closed standard input", shell('"$1" tcprules %s <&-' % word), (b"tcprules: read fault\n", 111))
        checks.expect(word + " of a folder", shell('"$1" tcprules %s </' % word), (b"tcprules: read fault\n", 111))


def check_memory(program, checks):
    """With any one request for memory refused it ends as with ample memory, or with the first warnings and `out of memory`."""
    text = b"10.0.0.5:deny\n10.0.0.5:allow\n=A.example:deny\n10.0-255.:deny\njoe@1.2.3.4:deny\nx\n" * 3
    wanted = report(text)[0]
    with tempfile.TemporaryDirectory() as folder:
        for request, variables in refusals.Requests(folder).each():
            code, _, errors = refusals.run([program, "tcprules", "-N"], folder, text, variables)
            front, fault, rest = errors.rpartition(b"tcprules: out of memory\n")
            told = code == 111 and rest == b"" and fault and wanted.startswith(front) and front[-1:] in (b"", b"\n")
            told = told or (code, errors) in ((1, wanted), (111, b"ucspi: out of memory\n"))
            checks.holds("request %d refused" % request, told, (code, errors))


def measured(words, path, folder):
    """Runs a program over a file: what it prints on standard error, its exit code, and how much memory it took at most, in KiB."""
    with open(path, "rb") as text, tempfile.TemporaryFile() as errors:
        process = subprocess.Popen(words, cwd=folder, stdin=text, stdout=subprocess.DEVNULL, stderr=errors, env={})
        _, status, usage = os.wait4(process.pid, 0)
        process.returncode = os.waitstatus_to_exitcode(status)
        errors.seek(0)
        return errors.read(), process.returncode, usage.ru_maxrss


def check_long_text(program, checks):
    """A text of 67,108,864 bytes: its warnings, and at most twice the memory of compiling it."""
    size = SHORT_TEXT if is_tried() else LONG_TEXT
    lines, length, number = [], 0, 0
    while length < size - 200:
        lines.append(b"%d.%d.%d.%d:allow\n" % (number % 251, number >> 16, number >> 8 & 255, number & 255))
        length += len(lines[-1])
        number += 1
    lines += [b"7.0.0.7:deny\n", b"10.0.0:deny\n", b"300.1.:deny\n"]
    text = b"".join(lines)
    text += b"#" * (size - len(text))
    told = [(number + 1, b"line 8 decides first"), (number + 2, NOBODY), (number + 3, NOBODY), (number + 4, OTHERS)]
    wanted = b"".join(b"tcprules: line %d: %s\n" % warning for warning in told)
    with tempfile.TemporaryDirectory() as folder:
        path = os.path.join(folder, "text")
        with open(path, "wb") as file:
            file.write(text)
        compiled = measured([program, "tcprules", "rules.cdb", "rules.tmp"], path, folder)
        checks.expect("a long text is compiled", compiled[:2], (b"", 0))
        for word, code in (("-n", 0), ("-N", 1)):
            looked_over = measured([program, "tcprules", word], path, folder)
            checks.expect("%s of a text of %d lines" % (word, number), looked_over[:2], (wanted, code))
            checks.holds("its memory", looked_over[2] <= 2 * compiled[2], "%d KiB, and compiling took %d" % (looked_over[2], compiled[2]))


def short_line(number):
    """A line of 20 bytes with an address of its own."""
    return b"%d.%d.%d.%d:allow\n" % (10 + number // 2106000, 100 + number // 14040 % 150, 100 + number // 90 % 156, 10 + number % 90)


def check_short_lines(program, checks):
    """A text of 64 MiB of lines of 20 bytes, each of which has an address more to be seen: at most twice the memory of compiling it."""
    size = SHORT_TEXT if is_tried() else LONG_TEXT
    count = size // len(short_line(0))
    with tempfile.TemporaryDirectory() as folder:
        path = os.path.join(folder, "text")
        with open(path, "wb") as file:
            file.write(b"".join(map(short_line, range(count))))
        compiled = measured([program, "tcprules", "rules.cdb", "rules.tmp"], path, folder)
        checks.expect("short lines are compiled", compiled[:2], (b"", 0))
        looked_over = measured([program, "tcprules", "-n"], path, folder)
        checks.expect("-n of %d short lines" % count, looked_over[:2], (b"tcprules: line %d: %s\n" % (count, OTHERS), 0))
        checks.holds("their memory", looked_over[2] <= 2 * compiled[2], "%d KiB, and compiling took %d" % (looked_over[2], compiled[2]))


def check_wide_ranges(program, checks):
    """A text of ranges of 256 addresses each: its warnings, and at most twice the memory of compiling it."""
    count = 100 if is_tried() else 5000
    lines = [b"0-255.%d.%d.1:deny\n" % (number // 250, number % 250) for number in range(count)]
    # covered by one line, and by two; one address of it stood in none
    lines += [b"5.0.7.1:allow\n", b"17-30.0.9.1:allow\n", b"0.0.3-4.1:allow\n", b"0.0.0-250.1:allow\n", b":deny\n"]
    told = [(count + 1, b"line 8 decides first"), (count + 2, b"line 10 decides first"), (count + 3, b"line 4 decides first")]
    wanted = b"".join(b"tcprules: line %d: %s\n" % warning for warning in told)
    with tempfile.TemporaryDirectory() as folder:
        path = os.path.join(folder, "text")
        with open(path, "wb") as file:
            file.write(b"".join(lines))
        compiled = measured([program, "tcprules", "rules.cdb", "rules.tmp"], path, folder)
        checks.expect("wide ranges are compiled", compiled[:2], (b"", 0))
        looked_over = measured([program, "tcprules", "-N"], path, folder)
        checks.expect("wide ranges", looked_over[:2], (wanted, 1))
        checks.holds("their memory", looked_over[2] <= 2 * compiled[2], "%d KiB, and compiling took %d" % (looked_over[2], compiled[2]))


def check(program, failures):
    checks = Checks("rule_warnings", failures)
    for part in (check_rows, check_words, check_refused, check_streams, check_memory, check_forms, check_random, check_long_text, check_short_lines, check_wide_ranges):
        part(program, checks)
    return checks.tests
