"""Loops of `tcprules` by two users at once, in folders that both may write: one that everybody may, a sticky one, and
one of a group. Others read the rules all the time, clients that each text denies come to a server, and files of the
folder are taken away at random moments, as by a person or `rsync --delete`. Nobody sees a part of a file, no client is
let in, and a run that exits with 0 has put its text under the rules name. It needs root.

With `TESTS_TIMES=7 TWO_USERS_SECONDS=3600`, `tests/run two_users` takes an hour instead of a minute.
"""
import contextlib
import ctypes
import json
import os
import random
import select
import shutil
import socket
import struct
import subprocess
import sys
import tempfile
import threading
import time
from typing import NamedTuple

from shared import compiled_files
from shared.checks import LIMIT, Checks, is_tried, python_words

# how many installations end well in each phase of a folder, at least, and how many rules a text has, if the program is as fast as a proved one
INSTALLATIONS, RULES = 40, 60_000
# a text of so many rules is tried first; one installation of the tests is to take at most so many seconds, however slow the program is
FEW_RULES, LONGEST = 1_500, 0.75
# so many where the program was built without proofs, which takes as long for one as a proved one for 150
TRIED_RULES = 300
LOOPS, KINDS = 2, 4
MARK = b"%08d"
RULES_NAME, SCRATCH = "rules", "tmp"
WAITING = "tcprules: waiting for another installation\n"
MOVED_AWAY, MOVED_HERE = 0x40, 0x80
EVENT = struct.Struct("iIII")
# what a run tells whose scratch file somebody has taken away, or that may not replace the rules
MAY_FAIL = "tcprules: device fault at named\n"


class User(NamedTuple):
    """A user of this test, who need not be known to the system."""

    name: str
    number: int
    groups: tuple = ()

    def how(self):
        """How a process of this user is started."""
        return {"user": self.number, "group": self.number, "extra_groups": list(self.groups), "umask": 0o022}


COMMON = 61_000
ROOT, OTHER, THIRD = User("root", 0), User("another", 61_001, (COMMON,)), User("a third", 61_002)


class Place(NamedTuple):
    """A folder: its permissions, and whether a user may replace another one's file."""

    name: str
    mode: int
    group: int
    is_shared: bool


PLACES = [Place("for all", 0o777, 0, True), Place("sticky", 0o1777, 0, False), Place("of a group", 0o775, COMMON, True)]
# what is taken away at random moments
PHASES = {"nothing": [], "hidden files": ["hidden"], "hidden files and the scratch file": ["hidden", "scratch"]}


# texts


def text_of(kind, rules, number):
    """A text of this kind, in which the number stands once. It denies everybody, and no other kind has the length of its file."""
    lines = '10.%%d.%%d.%%d:deny,KIND="%s"\n' % ("x" * (kind + 1))
    return "".join([lines % (n >> 16, n >> 8 & 255, n & 255) for n in range(rules)] + [':deny,NUMBER="%s"\n' % (MARK % number).decode()]).encode()


class Kind:
    """A text, and its file, but for their number."""

    def __init__(self, program, folder, kind, rules):
        self.text = text_of(kind, rules, 0)
        path = os.path.join(folder, "kind")
        subprocess.run([program, "tcprules", path, path + ".tmp"], input=self.text, check=True, timeout=LIMIT)
        self.file = compiled_files.content(path)
        self.front, _, self.back = self.file.partition(MARK % 0)

    def numbered(self, number):
        front, _, back = self.text.rpartition(MARK % 0)
        return front + MARK % number + back

    def is_whole(self, content):
        """Whether this is the file of such a text."""
        return content == self.front + content[len(self.front):len(content) - len(self.back)] + self.back

    def number_in(self, content):
        return int(content[len(self.front):len(content) - len(self.back)])


def rules_for(program, folder):
    """How many rules a text has: fewer if the program is slow, as one that was built without proofs."""
    if is_tried():
        return TRIED_RULES
    began = time.monotonic()
    Kind(program, folder, 0, FEW_RULES)
    lasted = time.monotonic() - began
    return RULES if lasted * RULES / FEW_RULES < LONGEST * 10 else FEW_RULES


# processes of their own


class Renames:
    """The renames onto a name of a folder since this began, as the system tells them.

    It asks for both events of a rename, and counts the second. The system makes one event of two that are alike and follow each other unread.
    """

    def __init__(self, path):
        self.folder, self.name = os.path.split(path)
        library = ctypes.CDLL(None, use_errno=True)
        self.descriptor = library.inotify_init1(os.O_CLOEXEC | os.O_NONBLOCK)
        if self.descriptor < 0 or library.inotify_add_watch(self.descriptor, os.fsencode(self.folder), MOVED_AWAY | MOVED_HERE) < 0:
            raise OSError(ctypes.get_errno(), "inotify")
        self.count = 0

    def wait(self, seconds):
        """Waits until something is renamed there, at most so long, and counts."""
        if not select.select([self.descriptor], [], [], seconds)[0]:
            return
        events = os.read(self.descriptor, 65536)
        while events:
            _, what, _, length = EVENT.unpack_from(events)
            name = events[EVENT.size:EVENT.size + length].rstrip(b"\0")
            self.count += what == MOVED_HERE and name == self.name.encode()
            events = events[EVENT.size + length:]


def read_all_the_time(path, folder):
    """Reads the rules until its input ends, and prints what it has seen: how many looks and renames there were, the numbers of all texts, and what was
    no whole file. A process of its own; `folder` has a file of each kind."""
    kinds = {}
    for name in os.listdir(folder):
        content = compiled_files.content(folder, name)
        front, _, back = content.partition(MARK % 0)
        kinds[len(content)] = (front, back)
    renames, looks, numbers, amiss, last = Renames(path), 0, set(), [], None
    print("reads", flush=True)
    while not select.select([sys.stdin], [], [], 0)[0]:
        renames.wait(0.0005)
        looks += 1
        try:
            descriptor = os.open(path, os.O_RDONLY)
        except OSError as fault:
            amiss.append(repr(fault))
            continue
        with os.fdopen(descriptor, "rb", buffering=0) as file:
            found = os.fstat(descriptor)
            seen = (found.st_ino, found.st_size, found.st_mtime_ns, found.st_ctime_ns, found.st_mode)
            if seen == last:
                continue
            content, last = file.read(), seen
        front, back = kinds.get(len(content), (b"", b""))
        number = content[len(front):len(content) - len(back)]
        if not front or content != front + number + back or not number.isdigit() or found.st_mode & 0o777 != 0o644:
            amiss.append("%d bytes, permissions %o, at %.3f" % (len(content), found.st_mode & 0o7777, time.time()))
        else:
            numbers.add(int(number))
    renames.wait(0)
    print(json.dumps([looks, renames.count, sorted(numbers), amiss]))


def come_all_the_time(port):
    """Connects until its input ends, and prints how many clients there were, and what those got that were let in. A process of its own."""
    clients, answers = 0, []
    while not select.select([sys.stdin], [], [], 0.001)[0]:
        clients += 1
        with socket.create_connection(("127.0.0.1", int(port)), timeout=LIMIT) as client, contextlib.suppress(ConnectionError):
            answer = client.recv(100)
            if answer:
                answers.append("%r at %.3f" % (answer, time.time()))
    print(json.dumps([clients, answers]))


class Process:
    """A call of this module in a process of its own, until it is ended."""

    def __init__(self, call, *words):
        self.process = subprocess.Popen(python_words("disk.two_users." + call, *words), stdin=subprocess.PIPE, stdout=subprocess.PIPE)

    def end(self):
        return json.loads(self.process.communicate(b"end\n", timeout=LIMIT)[0])

    def kill(self):
        self.process.kill()
        self.process.communicate()


# the loops


class Run(NamedTuple):
    """An installation that ended."""

    user: User
    rules: str
    number: int
    code: int
    told: str


class Loops:
    """Installations of both users at once, one after another in each loop, until there are enough."""

    def __init__(self, test, seconds):
        self.test, self.until, self.over = test, time.monotonic() + seconds, False
        self.runs, self.whole, self.lock = [], 0, threading.Lock()
        self.threads = [threading.Thread(target=self.guarded, args=(user, place)) for user in (ROOT, OTHER) for place in range(LOOPS)]
        self.threads.append(threading.Thread(target=self.guarded, args=(None, 0)))
        self.faults = []

    def run(self):
        for thread in self.threads:
            thread.start()
        for thread in self.threads:
            thread.join()
        return self.runs

    def guarded(self, user, place):
        try:
            self.install(user, place) if user else self.take_away()
        except Exception as fault:  # noqa: BLE001
            self.faults.append(repr(fault))
            self.over = True

    def install(self, user, place):
        series = random.Random("%s %d" % (user.name, place))
        while not self.over:
            run = self.test.install(user, series.randrange(KINDS), self.test.rules_of(user, series))
            with self.lock:
                self.runs.append(run)
                self.whole += run.code == 0
                self.over |= self.whole >= INSTALLATIONS and time.monotonic() > self.until
            time.sleep(series.uniform(0, 0.02))

    def take_away(self):
        """Takes files of the folder away at random moments: hidden ones, and the scratch file no more often than installations end well."""
        series, what, taken = random.Random("taken away"), self.test.taken, 0
        while what and not self.over:
            time.sleep(series.uniform(0, 0.03))
            names = [name for name in os.listdir(self.test.folder) if name.startswith(".")]
            if "scratch" in what and series.randrange(4) == 0 and taken <= self.whole:
                names.append(SCRATCH)
            for name in names:
                with contextlib.suppress(FileNotFoundError):
                    os.unlink(os.path.join(self.test.folder, name))
                    taken += name == SCRATCH


class Test(Checks):
    """A folder of one kind, and what is done there."""

    def __init__(self, program, failures, place, top):
        super().__init__("two_users: the folder " + place.name, failures)
        self.place, self.top, self.last, self.lock, self.taken = place, top, 0, threading.Lock(), []
        self.program = shutil.copy(program, os.path.join(top, "ucspi"))
        self.folder = self.made("folder")
        rules = rules_for(self.program, top)
        self.kinds = [Kind(self.program, top, kind, rules) for kind in range(KINDS)]
        self.files = self.made("files")
        for kind in self.kinds:
            compiled_files.put(kind.file, self.files, str(len(kind.file)))
        os.chmod(top, 0o755)
        os.chown(self.folder, 0, place.group)
        os.chmod(self.folder, place.mode)

    def made(self, name):
        path = os.path.join(self.top, name)
        os.mkdir(path)
        return path

    def rules_of(self, user, series):
        """The rules name of an installation. Where nobody may replace another one's file each user has a name, and the other one tries both."""
        if self.place.is_shared or user is ROOT or series.randrange(4) == 0:
            return RULES_NAME
        return RULES_NAME + "-of-another"

    def names(self):
        return [RULES_NAME] if self.place.is_shared else [RULES_NAME, RULES_NAME + "-of-another"]

    def install(self, user, kind, rules):
        """Makes an installation of a new text."""
        with self.lock:
            self.last += 1
            number = self.last
        words = [self.program, "tcprules", rules, SCRATCH]
        ended = subprocess.run(
            words, cwd=self.folder, input=self.kinds[kind].numbered(number), stdout=subprocess.PIPE, stderr=subprocess.PIPE, timeout=LIMIT, **user.how()
        )
        return Run(user, rules, number, ended.returncode, ended.stderr.decode())

    def may_replace(self, run):
        """Whether a user may do so whose run this was: in a sticky folder nobody replaces a file of root's."""
        return self.place.is_shared or run.user is ROOT or run.rules != RULES_NAME

    def watched(self, seconds):
        """Makes installations while the rules are read, and clients come."""
        readers = {name: Process("read_all_the_time", os.path.join(self.folder, name), self.files) for name in self.names()}
        words = [self.program, "tcpserver", "-q", "-1", "-x", os.path.join(self.folder, RULES_NAME), "127.0.0.1", "0", "echo", "in"]
        server = subprocess.Popen(words, stdout=subprocess.PIPE, stderr=subprocess.DEVNULL)
        clients = None
        try:
            for reader in readers.values():
                reader.process.stdout.readline()
            clients = Process("come_all_the_time", server.stdout.readline().decode().strip())
            loops = Loops(self, seconds)
            runs = loops.run()
            self.expect(self.name("the loops"), loops.faults, [])
            return runs, {name: reader.end() for name, reader in readers.items()}, clients.end()
        finally:
            for process in [*readers.values(), clients]:
                if process:
                    process.kill()
            server.kill()
            server.communicate()

    def name(self, text):
        return "%s, where somebody takes %s away" % (text, self.phase)

    def try_phase(self, phase, seconds):
        """One phase: what is taken away meanwhile, and for how long at least."""
        self.phase, self.taken = phase, PHASES[phase]
        # (in a sticky folder each name has a file of its user's)
        self.expect(self.name("the first"), [self.install(*who).code for who in ((ROOT, 0, RULES_NAME), (OTHER, 1, self.names()[-1]))], [0, 0])
        runs, readers, (clients, answers) = self.watched(seconds)
        for name in self.names():
            looks, renames, numbers, amiss = readers[name]
            self.expect(self.name("what is no whole file of a text under %s" % name), (len(amiss), amiss[:3]), (0, []))
            self.holds(self.name("looks at " + name), looks > INSTALLATIONS, looks)
            self.judge_truth(name, [run for run in runs if run.rules == name], renames, set(numbers))
        self.expect(self.name("clients that were let in"), (len(answers), answers[:3]), (0, []))
        self.holds(self.name("clients"), clients > INSTALLATIONS, clients)
        self.judge_ends(runs)
        self.expect(self.name("what is left"), sorted(os.listdir(self.folder)), self.names())
        self.tests += len(runs)

    def judge_truth(self, name, runs, renames, numbers):
        """Each text of a run that exited with 0 came under the name by a rename of its own, and so did each one that was seen there."""
        told = {run.number for run in runs if run.code == 0}
        before = numbers - {run.number for run in runs}
        self.holds(self.name("renames onto %s" % name), len(told | numbers - before) <= renames <= len(runs), (len(told | numbers), renames, len(runs)))
        self.holds(self.name("most texts of %s are seen" % name), len(told - numbers) <= len(told) // 2, len(told - numbers))
        self.expect(self.name("texts under %s whose runs failed" % name), sorted(numbers - before - told), [])

    def judge_ends(self, runs):
        """What the runs answered."""
        for run in runs:
            told = run.told.replace(WAITING, "", 1)
            may_fail = not self.may_replace(run) or "scratch" in self.taken
            is_known = (run.code, told) == (0, "") or may_fail and (run.code, told) == (111, MAY_FAIL)
            if not is_known or run.code == 0 and not self.may_replace(run):
                self.fail(self.name("an end of %s" % run.user.name), run[1:])
        for user in (ROOT, OTHER):
            whole = sum(run.user is user and run.code == 0 for run in runs)
            self.holds(self.name("whole installations of %s: %d" % (user.name, whole)), whole > INSTALLATIONS // 10, whole)


def check(program, failures, part):
    """How many tests there were in a folder of one kind: each installation is one."""
    if os.geteuid() != 0:
        print("two_users: only root can be two users: skipped")
        return 0
    with tempfile.TemporaryDirectory() as top:
        test = Test(program, failures, PLACES[part - 1], top)
        for phase in PHASES:
            test.try_phase(phase, float(os.environ.get("TWO_USERS_SECONDS", 6)) / len(PHASES))
        return test.tests
