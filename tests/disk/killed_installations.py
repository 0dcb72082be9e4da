"""Kills `tcprules` at random moments of installing a long text, while another process reads the rules file all the
time. Each reader sees the old file or the new one, whole.
"""
import hashlib
import os
import random
import subprocess
import sys
import tempfile
import time

from shared.checks import Checks

# in each part of the group
KILLS = 250
RULES = 100000

# reads the rules file until it is told to end, and prints how often, and how many files it saw; or what it saw that was neither file
READER = r"""
import hashlib, os, select, sys
wanted = sys.argv[2:]
count, seen = 0, set()
while not select.select([sys.stdin], [], [], 0)[0]:
    with open(sys.argv[1], "rb") as file:
        found = hashlib.sha256(file.read()).hexdigest()
    if found not in wanted:
        sys.exit("another file was seen: " + found)
    count += 1
    seen.add(found)
print(count, len(seen), "files")
"""


def text_of(verdict):
    return "".join(
        "10.%d.%d.%d:%s\n" % (n >> 16, (n >> 8) & 255, n & 255, verdict) for n in range(RULES)
    ).encode()


def digest(path):
    with open(path, "rb") as file:
        return hashlib.sha256(file.read()).hexdigest()


class Installations:
    """Two long texts, and a folder where they are installed in turn."""

    def __init__(self, program, folder):
        self.rules = os.path.join(folder, "rules")
        self.scratch = os.path.join(folder, "rules.tmp")
        self.words = [program, "tcprules", self.rules, self.scratch]
        self.texts, self.files, self.lasted = [], [], 0.0
        for place, verdict in enumerate(('allow,RELAYCLIENT=""', "deny")):
            self.texts.append(os.path.join(folder, "text%d" % place))
            with open(self.texts[place], "wb") as file:
                file.write(text_of(verdict))
            began = time.monotonic()
            self.install(place)
            self.lasted = max(self.lasted, time.monotonic() - began)
            self.files.append(digest(self.rules))

    def install(self, place):
        with open(self.texts[place], "rb") as text:
            return subprocess.run(self.words, stdin=text, check=True)

    def kill(self, place, after):
        """Kills an installation after some time, and tells whether it was still running."""
        with open(self.texts[place], "rb") as text:
            process = subprocess.Popen(self.words, stdin=text)
        time.sleep(after)
        process.kill()
        return process.wait() != 0


def check(program, failures, part):
    """How many kills there were in a part of the group, and what is looked at beside them."""
    checks, chance = Checks("killed_installations", failures), random.Random(7 + part)
    with tempfile.TemporaryDirectory() as folder:
        runs = Installations(program, folder)
        reader = subprocess.Popen(
            [sys.executable, "-c", READER, runs.rules] + runs.files,
            stdin=subprocess.PIPE, stdout=subprocess.PIPE, stderr=subprocess.PIPE,
        )
        killed = unfinished = tries = 0
        while killed < KILLS and tries < 10 * KILLS:
            tries += 1
            killed += runs.kill(tries % 2, chance.uniform(0, 1.1 * runs.lasted))
            unfinished += os.path.exists(runs.scratch)
            if digest(runs.rules) not in runs.files:
                checks.fail("kill %d left another file" % tries)
        for place in (0, 1):
            runs.install(place)
            checks.expect("an installation after the kills", digest(runs.rules), runs.files[place])
            # time for the reader to see this file
            time.sleep(0.5)
        said, errors = reader.communicate(b"end\n", timeout=600)
        checks.holds("a reader of installed files", reader.returncode == 0 and said.split()[1:] == [b"2", b"files"], (said, errors))
        checks.holds("killed, and with a scratch file", killed >= KILLS and unfinished > 0, (killed, unfinished))
    return checks.tests + KILLS
