"""Runs two `tcprules` at once on the same two names, again and again, while another process reads the rules file all
the time. Each of them exits 0, each reader sees the whole file of one of the texts, and at the end the rules are those
of the run that ended last.
"""
import os
import select
import subprocess
import sys
import tempfile
import time

from disk.killed_installations import READER, digest
from shared.checks import Checks, is_tried, leave_out

# so many pairs there are, and so many rules each text has; a program that was built without proofs takes 150 times as long for a rule
PAIRS, FEW_PAIRS = 200, 40
RULES, FEW_RULES = (40_000, 30_000, 300, 20_000), (400, 300, 3, 200)
# two that end closer together than this may have ended in the other order than they were noticed
SURELY_LATER = 0.01
# and so may one in fifty, where a busy machine lets one wait between its last call and its end
FEW = 50


def text_of(number, rules):
    """A text of so many rules, all with the number of its writer."""
    return "".join('10.%d.%d.%d:allow,WRITER="%d"\n' % (n >> 16, (n >> 8) & 255, n & 255, number) for n in range(rules)).encode()


class Writers:
    """Texts of several lengths, and the compiled file of each."""

    def __init__(self, program, folder):
        self.rules = os.path.join(folder, "rules")
        self.words = [program, "tcprules", self.rules, os.path.join(folder, "rules.tmp")]
        self.texts, self.files = [], []
        for number, rules in enumerate(FEW_RULES if is_tried() else RULES):
            self.texts.append(os.path.join(folder, "text%d" % number))
            with open(self.texts[number], "wb") as file:
                file.write(text_of(number, rules))
            self.start(number).wait()
            self.files.append(digest(self.rules))

    def start(self, number):
        with open(self.texts[number], "rb") as text:
            return subprocess.Popen(self.words, stdin=text, stderr=subprocess.PIPE)

    def pair(self, first, second):
        """Runs two at once. Answers their exit codes, and which text surely has to stand, or None."""
        running = {os.pidfd_open(process.pid): (number, process) for number, process in [(n, self.start(n)) for n in (first, second)]}
        ended = []
        while running:
            for descriptor in select.select(list(running), [], [])[0]:
                number, process = running.pop(descriptor)
                os.close(descriptor)
                process.communicate()
                ended.append((time.monotonic(), number, process.returncode))
        is_sure = ended[1][0] - ended[0][0] > SURELY_LATER
        return [code for _, _, code in ended], ended[1][1] if is_sure else None


def check(program, failures):
    """How many pairs there were, and what is looked at beside them."""
    checks = Checks("concurrent_installations", failures)
    pairs = FEW_PAIRS if is_tried() else PAIRS
    leave_out(PAIRS - pairs)
    sure = wrong = 0
    with tempfile.TemporaryDirectory() as folder:
        writers = Writers(program, folder)
        with subprocess.Popen(
            [sys.executable, "-c", READER, writers.rules] + writers.files,
            stdin=subprocess.PIPE, stdout=subprocess.PIPE, stderr=subprocess.PIPE,
        ) as reader:
            for count in range(10 * pairs):
                # (as many more as it takes until it was known often enough which was the last)
                if count >= pairs and sure >= pairs // 4:
                    break
                codes, last = writers.pair(count % 4, (count + 1 + count // 4 % 3) % 4)
                found = digest(writers.rules)
                if codes != [0, 0]:
                    checks.fail("exit codes", codes)
                if found not in writers.files:
                    checks.fail("a file of neither text is left")
                elif last is not None:
                    wrong += found != writers.files[last]
                sure += last is not None
            said, errors = reader.communicate(b"end\n", timeout=600)
        checks.holds("a reader of the files", reader.returncode == 0 and int(said.split()[0]) >= 20, (said, errors))
        checks.holds("no scratch file is left", not os.path.exists(writers.words[3]))
        checks.holds("how often the text of the first to end stands", wrong <= max(pairs // FEW, sure // 20), wrong)
        if sure < pairs // 4:
            checks.fail("how often it was known which was the last", "%d of %d times" % (sure, pairs))
    return checks.tests + pairs
