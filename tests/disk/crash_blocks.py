"""Crashes of real file systems. `tcprules` installs texts on a file system whose disk records each block, is killed at each of its system calls in turn,
and started again by others, while another process reads. Then moments of a crash are made anew (`crash_moments`), mounted and looked at: the rules file is
the compiled file of one whole text, byte for byte, no older than the last one whose installation had ended well, and `tcprulescheck` answers by it.

CRASH_SYSTEMS=ext4,xfs names the file systems, and CRASH_SYSTEMS=all stands for each that is known here;
CRASH_MOMENTS=N says how many moments of each, CRASH_SEED=N is the number from which all that is random comes, and CRASH_KEEP=FOLDER gets an image of
each moment that is bad. Without a sync of the file, or of the folder, crashes must be found that do harm: two controls. Needs root, /dev/fuse, loop
devices, strace, and the programs that make the file systems.
"""
import errno
import os
import random
import re
import shutil
import subprocess
import sys
import tempfile
import threading
import time
from typing import NamedTuple

from disk import loop_devices
from disk.block_recorder import MARKED, Recorder, entries_of
from disk.crash_moments import PIECE, Images, Record, copy
from shared import compiled_files, failed_calls, plain_texts
from shared.checks import Checks, python_words

MOMENTS, MOMENTS_OF_A_CONTROL = 300, 40
# a record is long enough for so many moments
MOMENTS_OF_A_RECORD = 500
INSTALLATIONS_OF_A_CONTROL = 20
# how many long rules a text has beside the first, of so many bytes, and how many it has when the calls are tried in turn
SIZES, LENGTH, SIZES_IN_TURN = (0, 1, 10, 50, 150), 2000, (1, 50)
# how often all calls are tried that change something, after an installation whose name is not settled
TIMES = 2
# calls of an installation that change the folder or its files, and those that give its file the name
RENAMES = {"rename", "renameat", "renameat2"}
CHANGES = {"openat", "unlink", "unlinkat", "pwrite64", "fsync", *RENAMES}
# what a mark of an installation ends with that was killed between its rename and its sync of the folder
UNSETTLED = "its name not settled"
PEER = ("10.0.0.1", "", "")
VARIABLES = {"TCPREMOTEIP": PEER[0]}
LIMIT, KILLED = 600, -9
# seconds between what another process reads
PAUSE = 0.02
MEBIBYTE = 1 << 20
# what is left of a file system that is filled
LEFT = 8 * MEBIBYTE


class System(NamedTuple):
    """A file system: how it is made and mounted, and for one without a journal how it is repaired at a start. It is so small, or so full, that blocks
    are soon used again. Where it may give the blocks of a file that was replaced to any other one, nobody else writes there; and `loses` says why
    a crash may take the rules as a whole."""

    kind: str
    make: tuple
    options: str = ""
    size: int = 8 * MEBIBYTE
    repair: tuple = ()
    is_filled: bool = False
    is_shared: bool = True
    loses: str = ""


class Call(NamedTuple):
    """A system call: its name, how often it was made by then, and whether it comes between the rename and the end of the folder's sync."""

    name: str
    number: int
    is_unsettled: bool


EXT4 = ("mkfs.ext4", "-q", "-F", "-b", "4096", "-E", "lazy_itable_init=0,lazy_journal_init=0")
UNJOURNALED = {"size": 4 * MEBIBYTE, "repair": ("e2fsck", "-f", "-y"), "is_shared": False, "loses": "as they may be without a journal"}
SYSTEMS = {
    "ext4": System("ext4", EXT4),
    "ext4_journal": System("ext4", EXT4, "data=journal"),
    "ext4_writeback": System("ext4", EXT4, "data=writeback", is_shared=False),
    "ext4_writeback_noauto": System("ext4", EXT4, "data=writeback,noauto_da_alloc", is_shared=False),
    "ext4_fast_commit": System("ext4", (*EXT4, "-O", "fast_commit"), loses="with the file system, where fast commits can't be replayed"),
    "ext4_no_journal": System("ext4", (*EXT4, "-O", "^has_journal"), **UNJOURNALED),
    "ext2": System("ext2", ("mkfs.ext2", "-q", "-F", "-b", "4096"), **UNJOURNALED),
    "xfs": System("xfs", ("mkfs.xfs", "-q", "-f"), size=320 * MEBIBYTE, is_filled=True),
    "btrfs": System("btrfs", ("mkfs.btrfs", "-q", "-f"), size=128 * MEBIBYTE),
}
# what is left out, on which path it is called, and where that does harm: with its defaults ext4 writes a file before it replaces another
CONTROLS = {
    "no sync of the file": ("rules.tmp", System("ext4", EXT4, "noauto_da_alloc")),
    "no sync of the folder": ("", System("ext4", EXT4)),
}


class Texts:
    """Texts of several sizes, each of which names itself all over, and their compiled files: of 2 to 300 KiB."""

    def __init__(self, seed):
        self.seed = seed
        self.sizes, self.files = {}, {}

    def text(self, number):
        size = self.sizes.setdefault(number, random.Random("%s %d" % (self.seed, number)).choice(SIZES))
        named = ("%d " % number * LENGTH)[:LENGTH]
        lines = ['%s:allow,N="%d"' % (PEER[0], number)] + ['10.0.1.%d:allow,N="%s"' % (last, named) for last in range(size)]
        return "".join(line + "\n" for line in lines).encode()

    def file(self, number):
        """The compiled file, by the plain reader of the tests."""
        if number not in self.files:
            rules, _ = plain_texts.rules_in(self.text(number))
            self.files[number] = compiled_files.cdb([(address, plain_texts.code(verdict, settings)) for address, verdict, settings in rules])
        return self.files[number]

    def answer(self, number):
        """What `tcprulescheck` answers by this text."""
        return plain_texts.decision([(PEER[0].encode(), "allow", [(b"N", b"%d" % number)])], PEER)

    def which(self, content, numbers):
        """The text of these whose file this is, if there is one."""
        return next((number for number in numbers if content == self.file(number)), None)

    def described(self, content, last):
        """What stands in a file that is none of those that it may be."""
        if content is None:
            return "no file"
        whole = self.which(content, range(1, last + 1))
        if whole is not None:
            return "text %d, whole" % whole
        of = set()
        for position in range(0, len(content), PIECE):
            piece = content[position:position + PIECE]
            of.add(next((str(number) for number in range(1, last + 1) if self.file(number)[position:position + PIECE] == piece), "none"))
        return "%d bytes of texts %s" % (len(content), " and ".join(sorted(of)))


def under_strace(call, how, on=()):
    """What stands before a command of which a system call has a mishap."""
    return ["strace", "-qq", "-o", os.devnull, *on, "-e", "trace=" + call, "-e", "inject=%s:%s" % (call, how)]


class Site:
    """A folder where texts are installed, and what is told of it."""

    def __init__(self, program, folder, texts, tell=lambda mark: None):
        self.program, self.folder, self.texts, self.tell = program, folder, texts, tell
        self.rules, self.scratch = os.path.join(folder, "rules"), os.path.join(folder, "rules.tmp")
        self.done = self.begun = self.killed = 0
        self.faults = []

    def install(self, size=None, before=(), what="whole"):
        """Installs the next text."""
        number = self.begun + 1
        if size is not None:
            self.texts.sizes[number] = size
        text = self.texts.text(number)
        self.tell("begun %d, %s" % (number, what))
        self.begun = number
        words = [*before, self.program, "tcprules", self.rules, self.scratch]
        ended = subprocess.run(words, input=text, env={}, stdout=subprocess.DEVNULL, stderr=subprocess.PIPE, timeout=LIMIT)
        if ended.returncode == 0:
            self.tell("done %d" % number)
            self.done = number
        elif ended.returncode == KILLED:
            self.killed += 1
        else:
            self.faults.append("installation %d, %s: %d, %r" % (number, what, ended.returncode, ended.stderr[:200]))

    def kill(self, call, size=None):
        """Installs the next text and is killed where this call would be made."""
        what = "killed at %s %d" % call[:2] + (", " + UNSETTLED if call.is_unsettled else "")
        self.install(size, under_strace(call.name, "signal=KILL:when=%d" % call.number), what)

    def answer(self):
        """What `tcprulescheck` answers."""
        words = [self.program, "tcprulescheck", self.rules]
        return subprocess.run(words, env=VARIABLES, stdout=subprocess.PIPE, stderr=subprocess.STDOUT, timeout=LIMIT).stdout


class Reader:
    """Another process that reads the rules all the time, and a file that stays open while they change; what is amiss with what it saw."""

    def __init__(self, site):
        self.site, self.over, self.reads, self.faults = site, False, 0, []
        self.thread = threading.Thread(target=self.read, daemon=True)

    def __enter__(self):
        self.thread.start()
        return self

    def __exit__(self, *_):
        self.over = True
        self.thread.join(LIMIT)

    def read(self):
        while not self.over:
            try:
                self.read_once()
            except (OSError, subprocess.SubprocessError) as fault:
                self.faults.append("a reader: %r" % fault)
            self.reads += 1
            time.sleep(PAUSE)

    def read_once(self):
        texts, first = self.site.texts, self.site.done
        with open(self.site.rules, "rb") as file:
            content, last = file.read(), self.site.begun
            answer = self.site.answer()
            numbers = range(first, self.site.begun + 1)
            if texts.which(content, range(first, last + 1)) is None:
                self.faults.append("a reader of texts %d to %d: %s" % (first, last, texts.described(content, last)))
            if answer not in [texts.answer(number) for number in numbers]:
                self.faults.append("tcprulescheck while texts %d to %d are installed: %r" % (numbers[0], numbers[-1], answer))
            file.seek(0)
            if file.read() != content:
                self.faults.append("a file that is read by its reader has changed: text %d" % first)


def calls_of(program, folder, size):
    """The system calls of an installation over another one, from the first on its folder."""
    site, trace = Site(program, folder, Texts(0)), os.path.join(folder, "trace")
    site.install()
    site.install(size, ["strace", "-y", "-o", trace])
    with open(trace, encoding="utf-8", errors="replace") as file:
        lines = [(found.group(1), folder in found.group(0)) for found in re.finditer(r"^(\w+)\(.*$", file.read(), re.M) if found.group(1) != "execve"]
    names = [name for name, _ in lines]
    first = [is_there for _, is_there in lines].index(True)
    renamed = max(position for position, name in enumerate(names) if name in RENAMES)
    settled = names.index("fsync", renamed)
    return [Call(names[position], names[:position + 1].count(names[position]), renamed < position <= settled) for position in range(first, len(names))]


def in_turn(site, calls, series, is_shared):
    """Kills at each call in turn, each followed by another installation, which may be killed as well. Then, after one that was killed between its rename
    and its sync, at each call that changes something. On a file system that is shared something else is synced now and then."""
    all_calls = [(call, size) for size in calls for call in calls[size]]
    changes = [(call, size) for call, size in all_calls if call.name in CHANGES]
    unsettled = [call for call in calls[min(calls)] if call.is_unsettled]
    for call, size in all_calls:
        site.kill(call, size)
        if series.randrange(3) == 0:
            site.kill(*series.choice(changes))
        if is_shared and series.randrange(4) == 0:
            sync_beside(os.path.join(os.path.dirname(site.folder), "beside"))
        site.install()
    for call, size in changes * TIMES:
        site.kill(series.choice(unsettled))
        site.kill(call, size)
        if series.randrange(2) == 0:
            site.install()


def sync_beside(path):
    """Another program writes a file of its own, and syncs it."""
    with open(path, "wb") as file:
        file.write(b"beside")
        file.flush()
        os.fsync(file.fileno())


def fill(folder):
    """Takes the room of a file system but for some."""
    free = os.statvfs(folder)
    with open(os.path.join(folder, "ballast"), "wb") as file:
        os.posix_fallocate(file.fileno(), 0, free.f_bavail * free.f_frsize - LEFT)
        os.fsync(file.fileno())


class Bad(Exception):
    """What is wrong with the rules after a crash."""


class Lost(Exception):
    """How the rules were lost as a whole after a crash, where they may be."""


class Trial:
    """Records of one file system, and the moments that are made of them."""

    def __init__(self, program, name, system, folder):
        self.program, self.name, self.system, self.folder = program, name, system, folder
        self.moments = self.bad = self.lost = self.looks = self.installations = self.killed = self.reads = 0
        self.faults = []
        self.texts = None
        for inner in ("disk", "system"):
            os.makedirs(self.path(inner))

    def path(self, name):
        return os.path.join(self.folder, name)

    def make(self):
        """Makes the file system."""
        with open(self.path("base"), "wb") as file:
            file.truncate(self.system.size)
        subprocess.run([*self.system.make, self.path("base")], stdin=subprocess.DEVNULL, stdout=subprocess.DEVNULL, stderr=subprocess.PIPE, timeout=LIMIT, check=True)

    def mounted(self, file):
        return loop_devices.mounted(file, self.path("system"), self.system.kind, self.system.options)

    def recorded(self, seed, use):
        """What the disk is given while a site on it is used."""
        self.texts = Texts(seed)
        self.make()
        copy(self.path("base"), self.path("image"))
        with Recorder(self.path("image"), self.path("disk"), self.path("record")) as recorder:
            with self.mounted(recorder.disk):
                os.mkdir(self.path("system/site"))
                if self.system.is_filled:
                    fill(self.path("system"))
                site = Site(self.program, self.path("system/site"), self.texts, recorder.mark)
                site.install()
                with Reader(site) as reader:
                    use(site)
                recorder.mark("end")
        self.installations, self.killed, self.reads = self.installations + site.begun, self.killed + site.killed, self.reads + reader.reads
        self.faults += site.faults + reader.faults
        os.unlink(self.path("image"))
        entries = entries_of(self.path("record"))
        # what comes behind the last mark is its end
        return Record(entries[:max(position for position, (kind, *_) in enumerate(entries) if kind == MARKED)])

    def look_at(self, record, count, series):
        """Makes so many moments of a record, and looks at each."""
        marks = [position for position, (kind, _, given) in enumerate(record.entries) if kind == MARKED and given.startswith(b"done")]
        images = Images(record, self.path("base"), self.folder)
        for moment in record.moments(count, series, marks[0], UNSETTLED):
            self.moments += 1
            said = list(record.marks(moment.came))
            done = next(int(mark.split()[1]) for mark in said if mark.startswith("done"))
            begun = next(int(mark.split()[1].rstrip(",")) for mark in said if mark.startswith("begun"))
            try:
                self.look(images.make(moment), range(done, begun + 1))
            except Lost:
                self.lost += 1
            except Bad as bad:
                self.bad += 1
                self.faults.append("a crash after %s, with %s of %d pieces: %s" % ("; ".join(reversed(said[:4])), moment.how, moment.pieces, bad))
                if os.environ.get("CRASH_KEEP"):
                    shutil.copy(images.make(moment), os.path.join(os.environ["CRASH_KEEP"], "%s-%d" % (self.name, self.moments)))

    def look(self, image, numbers):
        """Looks at an image as it is. Where there is no journal the rules may be lost, and it is looked at once more after its repair, which may damage
        them."""
        if not self.system.repair:
            return self.look_once(image, numbers, True)
        self.look_once(image, numbers, False)
        subprocess.run([*self.system.repair, image], stdin=subprocess.DEVNULL, stdout=subprocess.DEVNULL, stderr=subprocess.DEVNULL, timeout=LIMIT)
        try:
            return self.look_once(image, numbers, True)
        except Bad as bad:
            raise Lost("after its repair: %s" % bad) from bad

    def look_once(self, image, numbers, is_last):
        """Looks whether rules that may stand there do, and now and then whether others can be installed."""
        self.looks += 1
        site = Site(self.program, self.path("system/site"), self.texts)
        try:
            with self.mounted(image):
                content = compiled_files.content(site.rules)
                found = self.texts.which(content, numbers)
                if found is None:
                    kind = Lost if content is None and self.system.repair else Bad
                    raise kind("not text %d to %d, but %s" % (numbers[0], numbers[-1], self.texts.described(content, numbers[-1])))
                answer = site.answer()
                if answer != self.texts.answer(found):
                    raise Bad("tcprulescheck of text %d: %r" % (found, answer))
                if is_last and self.looks % 4 == 0:
                    site.begun = numbers[-1]
                    site.install()
                    if site.faults or self.texts.which(compiled_files.content(site.rules), [site.begun]) is None:
                        raise Bad("no text can be installed: %r" % site.faults)
        except OSError as fault:
            raise (Lost if self.system.loses else Bad)("it can't be read: %s" % fault) from fault


def number_of(name, default):
    return int(os.environ.get(name) or default)


def skipped(system):
    """Why a file system can't be tried here, or nothing."""
    lost = [program for program in (system.make[0], *system.repair[:1]) if not shutil.which(program)]
    return "there is no " + lost[0] if lost else None


def try_system(trial, calls, count, seed):
    """So many moments of one file system."""
    began, series = time.monotonic(), random.Random("%s %d" % (trial.name, seed))
    while trial.moments < count:
        wanted = min(count - trial.moments, MOMENTS_OF_A_RECORD)
        record = trial.recorded("%s %d" % (trial.name, series.randrange(1 << 30)), lambda site: in_turn(site, calls, series, trial.system.is_shared))
        trial.look_at(record, wanted, series)
    lost = ", %d lost, %s" % (trial.lost, trial.system.loses) if trial.lost else ""
    print("crash_blocks: %s: %d moments, %d bad%s; %d installations, %d killed, %d reads beside them; %.0f seconds" % (
        trial.name, trial.moments, trial.bad, lost, trial.installations, trial.killed, trial.reads, time.monotonic() - began), flush=True)


def try_control(trial, inner, seed):
    """Installations that leave out a sync, of what stands there; their crashes have to be found bad."""

    def use(site):
        left_out = under_strace("fsync", "retval=0", ["-P", os.path.join(site.folder, inner).rstrip("/")])
        for _ in range(INSTALLATIONS_OF_A_CONTROL):
            site.install(before=left_out, what=trial.name)

    trial.look_at(trial.recorded(trial.name, use), MOMENTS_OF_A_CONTROL, random.Random("%s %d" % (trial.name, seed)))
    print("crash_blocks: %s: %d of %d moments are bad, as they should be" % (trial.name, trial.bad, trial.moments), flush=True)
    trial.faults = [] if trial.bad else ["no crash was found that does harm"]


def chosen():
    """The file systems that are to be tried."""
    names = (os.environ.get("CRASH_SYSTEMS") or "ext4").split(",")
    return list(SYSTEMS) if names == ["all"] else names


def try_apart(program, folder):
    """All of it, in a namespace of its own; prints what fails, and how many tests there were."""
    seed, count = number_of("CRASH_SEED", 1), number_of("CRASH_MOMENTS", MOMENTS)
    # the programs that make file systems are not in each user's path
    os.environ["PATH"] += ":/usr/sbin:/sbin"
    try:
        loop_devices.mount_apart()
        loop_devices.mount("crash", folder, "tmpfs", "mode=700")
        loop_devices.try_one(folder)
    except OSError as fault:
        return tell_skipped("real file systems", fault)
    calls = {}
    for size in SIZES_IN_TURN:
        os.mkdir(os.path.join(folder, "traced %d" % size))
        calls[size] = calls_of(program, os.path.join(folder, "traced %d" % size), size)
    tries = [(name, SYSTEMS[name], lambda trial: try_system(trial, calls, count, seed)) for name in chosen()]
    tries += [(name, system, lambda trial, inner=inner: try_control(trial, inner, seed)) for name, (inner, system) in CONTROLS.items()]
    lost = {}
    for name, system, use in tries:
        reason = skipped(system)
        if reason:
            lost.setdefault(reason, []).append(name)
            continue
        trial = Trial(program, name, system, os.path.join(folder, name))
        try:
            use(trial)
        except (OSError, ValueError, LookupError, subprocess.SubprocessError) as fault:
            if isinstance(fault, OSError) and fault.errno == errno.ENODEV:
                lost.setdefault("the system does not know it", []).append(name)
            else:
                trial.faults.append("%s: %s" % (type(fault).__name__, fault))
        for fault in trial.faults:
            print("FAILED %s: %s" % (name, fault), flush=True)
        # each moment, and what was read beside the installations
        print("TESTS %d" % (trial.moments + 1), flush=True)
        shutil.rmtree(trial.folder)
    for reason, names in lost.items():
        tell_skipped(", ".join(names), reason)
    return None


def begin_apart(program, folder):
    """What the process does that tries it all."""
    try:
        try_apart(program, folder)
    except KeyboardInterrupt:
        # whoever started it tells of it
        sys.exit(1)


def tell_skipped(what, reason):
    print("skipped: crashes of %s, since %s" % (what, reason), flush=True)


def missing():
    """Why none of this can be done here, or nothing."""
    return loop_devices.missing() or (None if failed_calls.can_trace() else "there is no strace that may be used")


def check(program, failures):
    """How many moments there were."""
    checks = Checks("crash_blocks", failures)
    unknown = [name for name in chosen() if name not in SYSTEMS]
    if unknown:
        checks.holds("no file system %s; there are %s" % (unknown[0], " ".join(SYSTEMS)), False)
        return checks.tests
    reason = missing()
    if reason:
        tell_skipped("real file systems", reason)
        return 0
    with tempfile.TemporaryDirectory() as folder:
        words = python_words("disk.crash_blocks.begin_apart", program, os.path.realpath(folder))
        with subprocess.Popen(words, stdin=subprocess.DEVNULL, stdout=subprocess.PIPE, text=True, preexec_fn=loop_devices.end_with_parent) as process:
            for line in process.stdout:
                if line.startswith("FAILED "):
                    checks.fail(line[len("FAILED "):].rstrip("\n"))
                elif line.startswith("TESTS "):
                    checks.tests += int(line.split()[1])
                else:
                    print(line, end="", flush=True)
        if process.returncode != 0:
            checks.fail("it ended with %d" % process.returncode)
    return checks.tests
