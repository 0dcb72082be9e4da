"""Compares the program with a plain reader of rule texts (`shared/plain_texts.py`): which texts are accepted, the first
faulty line of the others and its kind, the compiled file, and the decisions. One more text has 64 MiB. The texts come
from a fixed series of numbers, so each run has the same ones.
"""
import os
import tempfile

from shared.checks import Runs, is_tried, leave_out, needs_proved
from shared.compiled_files import cdb, content
from shared.plain_texts import PEERS, TEXT_LIMIT, Texts, code, decision, first_difference, question, rules_in

# with a program that was built without proofs a fifth of them
SCRIPTS = 30
TEXTS_OF_A_SCRIPT = 200
FILES = 600


def some(number):
    """So many of this number of cases as are tried."""
    return number // 5 if is_tried() else number


def check_scripts(runs, kinds):
    """Texts one after another, each with questions: a text that is refused leaves the one before."""
    leave_out((SCRIPTS - some(SCRIPTS)) * TEXTS_OF_A_SCRIPT * (1 + len(PEERS)))
    for number in range(some(SCRIPTS)):
        script, wanted, rules = [], [], None
        for seed in range(number * TEXTS_OF_A_SCRIPT, (number + 1) * TEXTS_OF_A_SCRIPT):
            lines = Texts(seed).text().split(b"\n")
            text = b"".join(line + b"\n" for line in lines)
            read, fault = rules_in(text)
            rules = rules if read is None else read
            kinds.append(fault)
            script.append(b"".join(b"|" + line + b"\n" for line in lines) + b"install\n" + b"".join(map(question, PEERS)))
            answer = (fault or "installed").encode() + b"\n"
            answers = [b"no file\n" if rules is None else decision(rules, peer) for peer in PEERS]
            wanted.append(answer + b"".join(answers))
            runs.tests += 1 + len(PEERS)
        ended = runs.run(["rulesim"], b"".join(script), env={})
        if (ended.stdout, ended.stderr, ended.returncode) != (b"".join(wanted), b"", 0):
            runs.fail("script %d" % number, first_difference(ended.stdout, script, wanted))


def check_files(runs):
    """Compiled files, also of texts whose last line has no line feed."""
    with tempfile.TemporaryDirectory() as folder:
        path, old = os.path.join(folder, "rules"), None
        leave_out(FILES - some(FILES))
        for seed in range(some(FILES)):
            text = Texts(1000000 + seed).text()
            text = text[:-1] if seed % 3 == 0 else text
            rules, fault = rules_in(text)
            errors = b"" if fault is None else ("tcprules: %s\n" % fault).encode()
            if fault is None:
                old = cdb([(address, code(verdict, settings)) for address, verdict, settings in rules])
            ended = runs.run(["tcprules", "rules", "rules.tmp"], text, cwd=folder, env={})
            got = (ended.returncode, ended.stdout, ended.stderr, "the file" if content(path) == old else "another file")
            runs.expect("%r" % text[:300], got, (0 if fault is None else 100, b"", errors, "the file"))


def letters(number):
    """A number in five letters and digits."""
    digits = "0123456789abcdefghijklmnopqrstuvwxyz"
    return "".join(digits[number // 36 ** position % 36] for position in (4, 3, 2, 1, 0))


@needs_proved(6)
def check_long_text(runs):
    """A text of 67,108,864 bytes in millions of short rules is compiled whole, and each rule that is asked for is found."""
    count = TEXT_LIMIT // len("=00000:deny\n")
    text = "".join("=%s:deny\n" % letters(number) for number in range(count)).encode()
    text += b"#" * (TEXT_LIMIT - len(text))
    questions = [(letters(number), b"rule =%s:\ndeny connection\n" % letters(number).encode()) for number in (0, 100001, count // 2, count - 1)]
    questions.append((letters(count), b"default:\nallow connection\n"))
    with tempfile.TemporaryDirectory() as folder:
        ended = runs.run(["tcprules", "rules", "rules.tmp"], text, cwd=folder, env={})
        runs.ended("a text of %d rules" % count, ended, 0, b"")
        for host, answer in questions:
            variables = {"TCPREMOTEIP": "10.0.0.1", "TCPREMOTEHOST": host}
            runs.ended("the host %s among %d rules" % (host, count), runs.run(["tcprulescheck", "rules"], cwd=folder, env=variables), 0, answer)


def check_kinds(runs, kinds):
    """The texts that were made have each kind of fault often enough."""
    names = ["no verdict", "bad setting", "bad range", "not text", "nul byte", "long line"]
    for name in names:
        count = sum(1 for fault in kinds if fault and fault.endswith(name))
        runs.holds("texts with " + name, count >= some(10), count)
    runs.holds("texts that are accepted", kinds.count(None) >= some(1000), kinds.count(None))


def check(program, failures):
    """How many tests there were."""
    runs, kinds = Runs("plain_rules", failures, program), []
    check_scripts(runs, kinds)
    check_kinds(runs, kinds)
    check_files(runs)
    check_long_text(runs)
    return runs.tests
