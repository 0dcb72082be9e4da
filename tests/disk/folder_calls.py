"""Installations in a real folder whose system calls are looked at, or have a mishap: calls that are interrupted, folders that a user may not change, and
file systems that take no more. What `rule_files` and `hostile_calls` try is not tried again."""
import contextlib
import os
import re
import resource
import shutil
import signal
import subprocess
import tempfile

from shared.checks import LIMIT, Runs
from shared.compiled_files import cdb, content, put
from shared.failed_calls import can_trace
from shared.fewer_rights import as_nobody

WORDS = ["tcprules", "rules", "tmp"]
OLD, NEW = b":deny\n", b":allow,NEW=\"1\"\n"
OLD_FILE, NEW_FILE = cdb([(b"", b"D\0")]), cdb([(b"", b"+NEW=1\0")])
LONG = b"".join(b'10.%d.%d.%d:allow,RELAYCLIENT=""\n' % (n >> 16, n >> 8 & 255, n & 255) for n in range(100_000))
# how many bytes the file of a long text may not have, and one of a short text may
SMALL = 100_000
# the phases of an installation, as the line of a device fault names them
DEVICE = b"tcprules: device fault at %s\n"
# how many looks at the folder and at files an installation takes at most; at three of them, at a file that was just made, an interruption is a fault
LOOKS, NOT_AGAIN = 24, 3


def limit_files():
    """Files may have so many bytes, and a write beyond fails."""
    signal.signal(signal.SIGXFSZ, signal.SIG_IGN)
    resource.setrlimit(resource.RLIMIT_FSIZE, (SMALL, SMALL))


class Folder(Runs):
    """A folder with old rules, and installations there."""

    def __init__(self, failures, program, place):
        super().__init__("folder_calls", failures, program)
        self.outer = place
        self.place = os.path.join(place, "folder")
        os.mkdir(self.place)
        self.trace = os.path.join(place, "trace")
        put(OLD_FILE, self.place, "rules")

    def install(self, text=NEW, place=None, before=(), **how):
        """Makes an installation, before which the old rules stand: how it ended, and what the rules are then."""
        ended = subprocess.run([*before, self.program, *WORDS], cwd=place or self.place, input=text, stdout=subprocess.PIPE, stderr=subprocess.PIPE, timeout=LIMIT, **how)
        return ended.returncode, ended.stderr

    def again(self):
        """Has the old rules stand there, and a part of a file that a killed process left."""
        put(OLD_FILE, self.place, "rules")
        put(b"left", self.place, "tmp")

    def fails(self, name, phase, text=NEW, left=("rules",), **how):
        """An installation fails on the way to a phase; the old rules stand there still."""
        self.expect(name, self.install(text, **how), (111, DEVICE % phase))
        self.expect(name + ": the rules", content(self.place, "rules") == OLD_FILE, True)
        self.expect(name + ": what stands there", sorted(os.listdir(self.place)), sorted(left))


def permissions(folder):
    """Who may read a rules file depends on the mask alone, and while it is made nobody else can."""
    for mask in (0, 0o22, 0o77):
        old = os.umask(mask)
        folder.expect("mask %o" % mask, folder.install(), (0, b""))
        os.umask(old)
        folder.expect("permissions with mask %o" % mask, os.stat(os.path.join(folder.place, "rules")).st_mode & 0o777, 0o644 & ~mask)
    put(OLD_FILE, folder.place, "rules")


def refused(folder):
    """The system refuses what an installation does in a folder."""
    os.chmod(folder.place, 0o555)
    folder.fails("a folder without write permission", b"fresh", preexec_fn=as_nobody)
    os.chmod(folder.place, 0o333)
    folder.fails("a folder that may be changed and not read", b"fresh", preexec_fn=as_nobody)
    os.chmod(folder.place, 0o755)
    folder.fails("a file that may not grow", b"filling", LONG, preexec_fn=limit_files)
    folder.expect("a small file after it", folder.install(preexec_fn=limit_files), (0, b""))
    put(OLD_FILE, folder.place, "rules")
    for name, make in (("pipe", os.mkfifo), ("folder", os.mkdir)):
        make(os.path.join(folder.place, "tmp"))
        folder.fails("a scratch name that is a " + name, b"fresh", left=("rules", "tmp"))
        (os.remove if name == "pipe" else os.rmdir)(os.path.join(folder.place, "tmp"))


def full(folder):
    """A file system that takes no more: the old rules stand, and nothing is left beside them. Once it has room, all is well."""
    mount = ["mount", "-t", "tmpfs", "-o", "size=64k", "tmpfs", folder.place]
    if os.geteuid() != 0 or not shutil.which("mount") or subprocess.run(mount, stderr=subprocess.DEVNULL, timeout=LIMIT).returncode != 0:
        print("folder_calls: a file system that is full: skipped: none can be mounted here")
        return
    try:
        put(OLD_FILE, folder.place, "rules")
        folder.fails("a full file system", b"filling", LONG)
        put(bytes(60_000), folder.place, "other")
        folder.fails("one without room for a header", b"filling", left=("other", "rules"))
        os.remove(os.path.join(folder.place, "other"))
        folder.expect("one that has room again", folder.install(), (0, b""))
    finally:
        subprocess.run(["umount", folder.place], timeout=LIMIT, check=True)


def traced(folder, calls, text=NEW):
    """The lines of strace about these calls of an installation."""
    folder.expect("an installation that is looked at", folder.install(text, before=["strace", "-y", "-o", folder.trace, "-e", "trace=" + calls]), (0, b""))
    with open(folder.trace, encoding="utf-8", errors="replace") as lines:
        return lines.readlines()


def looked_at(folder):
    """How a scratch file is made, and how it is written: once for each 65,536 bytes, and then its header of 2,048 bytes in front."""
    made = [line.rpartition('"')[2] for line in traced(folder, "openat") if '/tmp"' in line and "O_CREAT" in line]
    folder.expect("how a scratch file is made", [re.findall(r"O_RDWR\|O_CREAT\|O_EXCL|0[0-7]+", line) for line in made], [["O_RDWR|O_CREAT|O_EXCL", "0600"]])
    lines = traced(folder, "pwrite64", LONG)
    writes = [tuple(map(int, re.search(r", (\d+), (\d+)\) += (\d+)$", line).groups())) for line in lines if "/tmp>" in line]
    size = os.path.getsize(os.path.join(folder.place, "rules"))
    pieces = [(min(65536, size - position), position) for position in range(0, size, 65536)] + [(2048, 0)]
    folder.expect("the writes of an installation", writes, [(length, position, length) for length, position in pieces])


def interrupted(folder):
    """A signal interrupts a call once: it is made again."""
    def mishap(call, number=1, on=()):
        return ["strace", "-qq", "-o", os.devnull, *on, "-e", "trace=" + call, "-e", "inject=%s:error=EINTR:when=%d" % (call, number)]

    for call in ("unlink", "rename", "pwrite64", "fsync"):
        folder.again()
        folder.expect(call + " interrupted", folder.install(before=mishap(call)), (0, b""))
        folder.expect(call + " interrupted: the rules", content(folder.place, "rules") == NEW_FILE, True)
    found = []
    for number in range(1, LOOKS + 1):
        folder.again()
        found.append(folder.install(before=mishap("statx", number)))
        standing = content(folder.place, "rules")
        folder.holds("look %d interrupted: the rules" % number, standing == (NEW_FILE if found[-1][0] == 0 else OLD_FILE), standing)
        with contextlib.suppress(FileNotFoundError):
            os.remove(os.path.join(folder.place, "tmp"))
    folder.expect("looks that are not made again", len([code for code, _ in found if code != 0]), NOT_AGAIN)
    put(NEW_FILE, folder.place, "rules")
    on = ["-P", os.path.join(folder.place, "rules")]
    ended = subprocess.run(mishap("pread64", 1, on) + [folder.program, "tcprulescheck", "rules"], cwd=folder.place, stdout=subprocess.PIPE, timeout=LIMIT, env={"PATH": os.environ["PATH"]})
    folder.expect("a read interrupted", (ended.returncode, ended.stdout), (0, b"rule :\nset environment variable NEW=1\nallow connection\n"))


def check(program, failures):
    """How many tests there were."""
    with tempfile.TemporaryDirectory() as place:
        os.chmod(place, 0o755)
        folder = Folder(failures, program, place)
        for group in (permissions, refused, full):
            group(folder)
        if can_trace():
            looked_at(folder)
            interrupted(folder)
        else:
            print("folder_calls: the system calls of an installation: skipped: there is no strace that may be used")
        return folder.tests
