"""Installations in one folder take turns, and each keeps to one folder: who waits for whom, for how long, and with
which message.

The scratch file is the lock: an exclusive lock of its first byte, of the open file. Each case has a folder of its own,
and all of them run side by side, since one takes a minute. If strace is installed, it holds up calls of a running
installation. As root, the tests mount folders of two devices that nobody else sees.
"""
import concurrent.futures
import contextlib
import fcntl
import glob
import os
import pwd
import shutil
import stat
import struct
import subprocess
import tempfile
import time

from shared.checks import Checks

SCRATCH = "tmp"
WAITING = "tcprules: waiting for another installation\n"
FRESH = "tcprules: device fault at fresh\n"
# an installation by a link to a folder, and what it tells where that is turned
TURNED, STALE = ("-v", "cur/rules", "cur/tmp"), "tcprules: cause: cur: Stale file handle\n"
GIVEN_UP = 60
# seconds: how long an installation is waited for; how much longer than it has to one may take, far from being given up; and how long a call is held up
LIMIT, SLACK, HELD_UP = 600, 45, 12
OLD, NEW, DENIED = b"10.:deny\n", b":deny\n", "rule :\ndeny connection\n"


@contextlib.contextmanager
def held(path, how=fcntl.LOCK_EX):
    """A path that another process holds by `flock`, which is no lock of an installation."""
    descriptor = os.open(path, os.O_RDONLY)
    fcntl.flock(descriptor, how)
    try:
        yield descriptor
    finally:
        os.close(descriptor)


@contextlib.contextmanager
def claimed(path, kind=fcntl.F_WRLCK):
    """A scratch file that another process has, as an installation has it, or that is locked by a reader. It is made where it is not there."""
    mode = os.O_RDWR | os.O_CREAT if kind == fcntl.F_WRLCK else os.O_RDONLY
    descriptor = os.open(path, mode, 0o600)
    fcntl.fcntl(descriptor, fcntl.F_OFD_SETLK, struct.pack("hhqqi4x", kind, os.SEEK_SET, 0, 1, 0))
    try:
        yield descriptor
    finally:
        os.close(descriptor)


def as_nobody():
    """How an installation is made as another user."""
    user = pwd.getpwnam("nobody")
    return {"user": user.pw_uid, "group": user.pw_gid, "extra_groups": []}


class Folder(Checks):
    """A folder in which old rules stand, and installations there."""

    def __init__(self, case, failures, program, place):
        super().__init__("installation_turns: " + case, failures)
        self.program = program
        self.place = place
        self.install(OLD)
        self.old = self.rules()

    def path(self, *names):
        return os.path.join(self.place, *names)

    def rules(self, name="rules"):
        with open(self.path(name), "rb") as file:
            return file.read()

    def start(self, text=NEW, words=("rules", "tmp"), before=(), **how):
        """Starts an installation whose text is there."""
        process = subprocess.Popen(
            [*before, self.program, "tcprules", *words], cwd=self.place, stdin=subprocess.PIPE, stdout=subprocess.PIPE, stderr=subprocess.PIPE, **how
        )
        process.stdin.write(text)
        process.stdin.close()
        process.stdin = None
        return process

    def end(self, process):
        """How an installation ends: its exit code and its lines. One that does not end for long is killed."""
        try:
            _, errors = process.communicate(timeout=LIMIT)
        except subprocess.TimeoutExpired:
            process.kill()
            _, errors = process.communicate()
        return process.returncode, errors.decode()

    def leave_scratch(self, mode):
        """Leaves a part of a scratch file, with these permissions."""
        with open(self.path(SCRATCH), "wb") as scratch:
            scratch.write(b"a part")
        os.chmod(self.path(SCRATCH), mode)

    def install(self, text=NEW, **how):
        """Makes a whole installation: its exit code, its lines, and how many seconds it took."""
        began = time.monotonic()
        return (*self.end(self.start(text, **how)), time.monotonic() - began)

    def expect_installed(self, name, ended, most, errors=""):
        """All is well, within so many seconds, and nothing is left beside the rules."""
        code, told, seconds = ended
        self.expect(name, (code, told, seconds < most), (0, errors, True))
        self.expect(name + ": what stands there", sorted(os.listdir(self.place)), ["rules"])
        self.expect(name + ": the rules", self.rules() == self.old, False)


def scratch_file_waited_for(folder):
    """Another process has the scratch file for more than three seconds: that is told after three, and waited for."""
    with claimed(folder.path(SCRATCH)):
        began = time.monotonic()
        process = folder.start()
        told = process.stderr.readline().decode()
        waited = time.monotonic() - began
        folder.expect("after three seconds nothing has changed", (process.poll(), sorted(os.listdir(folder.place))), (None, ["rules", SCRATCH]))
        time.sleep(1)
        folder.expect("it waits on", process.poll(), None)
        os.unlink(folder.path(SCRATCH))
    code, errors = folder.end(process)
    folder.expect_installed("a scratch file that is given up", (code, told + errors, time.monotonic() - began), SLACK, WAITING)
    folder.expect("it is told after three seconds", 2.9 < waited < SLACK, True)


def scratch_file_held_for_good(folder):
    """Another process has the scratch file: after a minute the wait is given up, and nothing has changed."""
    with claimed(folder.path(SCRATCH)):
        code, told, seconds = folder.install(words=("-v", "rules", SCRATCH))
    folder.expect("a scratch file that is not given up", (code, told), (111, WAITING + FRESH + "tcprules: cause: %s: Resource temporarily unavailable\n" % SCRATCH))
    folder.expect("a minute", GIVEN_UP <= seconds < GIVEN_UP + SLACK, True)
    folder.expect("nothing has changed", (folder.rules() == folder.old, sorted(os.listdir(folder.place))), (True, ["rules", SCRATCH]))


def held_by_a_reader(folder):
    """Who may open the folder or the scratch file that is left there may hold it, and holds nobody up."""
    for how, name in ((fcntl.LOCK_SH, "shared"), (fcntl.LOCK_EX, "alone")):
        with held(folder.place, how):
            folder.expect_installed("a folder that is held, " + name, folder.install(), SLACK)
        folder.leave_scratch(0o644)
        with held(folder.path(SCRATCH), how):
            folder.expect_installed("a scratch file that is held, " + name, folder.install(), SLACK)
    folder.leave_scratch(0o644)
    with claimed(folder.path(SCRATCH), fcntl.F_RDLCK):
        folder.expect_installed("a scratch file that a reader has locked", folder.install(), SLACK)


def scratch_file_left(folder):
    """What an installation that was killed has left holds nobody up who can open it, and others wait for it."""
    folder.leave_scratch(0o600)
    folder.expect_installed("a scratch file that is left", folder.install(), 2)
    if os.geteuid() == 0:
        os.chmod(folder.place, 0o777)
        folder.leave_scratch(0o600)
        os.chown(folder.path(SCRATCH), pwd.getpwnam("nobody").pw_uid, -1)
        folder.expect_installed("one that another user has left", folder.install(), 2)
        folder.leave_scratch(0o600)
        process = folder.start(**as_nobody())
        folder.expect("one that is not this user's is waited for", process.stderr.readline().decode(), WAITING)
        os.unlink(folder.path(SCRATCH))
        code, errors = folder.end(process)
        folder.expect_installed("one that is not there any more", (code, errors, 0), 2)


def scratch_name_taken(folder):
    """What is no file under the scratch name is not followed, opened or taken away."""
    path = folder.path(SCRATCH)
    for name, make, take, why in (
        ("a link", lambda: os.symlink("elsewhere", path), os.unlink, "Too many levels of symbolic links"),
        ("a folder", lambda: os.mkdir(path), os.rmdir, "Is a directory"),
        ("a pipe", lambda: os.mkfifo(path), os.unlink, "Invalid argument"),
    ):
        make()
        code, told, seconds = folder.install(words=("-v", "rules", SCRATCH))
        folder.expect(name, (code, told, seconds < SLACK), (111, FRESH + "tcprules: cause: tmp: %s\n" % why, True))
        folder.expect(name + ": nothing is made or taken away", sorted(os.listdir(folder.place)), ["rules", SCRATCH])
        take(path)
    folder.expect("the rules then", folder.rules() == folder.old, True)


def is_open(path):
    """Whether some process has a file open that stands at this path."""
    for descriptor in glob.iglob("/proc/[0-9]*/fd/*"):
        with contextlib.suppress(OSError):
            if os.readlink(descriptor) == path:
                return True
    return False


def taken_after_a_look(folder):
    """A scratch file that was left is opened, and before it is locked somebody else makes a new one, which is left there. Readers change nothing."""
    path = folder.path(SCRATCH)
    for name, reader in (("one that nobody has", contextlib.nullcontext), ("one that a reader has", lambda: claimed(path, fcntl.F_RDLCK))):
        folder.leave_scratch(0o600)
        process = folder.start(words=(folder.path("rules"), path), before=slow("openat", 1, "delay_exit", path))
        come_to("the scratch file opened", lambda: is_open(path))
        with reader():
            os.unlink(path)
            with claimed(path):
                folder.expect(name + ": it waits", process.stderr.readline().decode(), WAITING)
                folder.expect(name + ": what stands there", sorted(os.listdir(folder.place)), ["rules", SCRATCH])
                with contextlib.suppress(FileNotFoundError):
                    os.unlink(path)
        folder.expect(name + ": then it is installed", folder.end(process), (0, ""))


def another_scratch_file(folder):
    """A scratch file that somebody takes away, puts another one in its place, or renames rules onto: the rules are the old ones, and what was put there
    stays there, byte by byte."""
    path = folder.path(SCRATCH)

    def rename_onto():
        folder.expect("rules under that name", folder.install(words=(SCRATCH, "t"))[:2], (0, ""))

    def put_another():
        os.unlink(path)
        folder.leave_scratch(0o600)

    for name, put, why, left in (
        ("none", lambda: os.unlink(path), "No such file or directory", ["rules"]),
        ("another", put_another, "Stale file handle", ["rules", SCRATCH]),
        ("rules of another", rename_onto, "Stale file handle", ["rules", SCRATCH]),
    ):
        process = folder.start(words=("-v", "rules", SCRATCH), before=slow("fsync", 2))
        come_to("the scratch file", lambda: is_written(path))
        put()
        there = folder.rules(SCRATCH) if SCRATCH in left else None
        folder.expect(name, folder.end(process), (111, "tcprules: device fault at named\ntcprules: cause: tmp: %s\n" % why))
        folder.expect(name + ": the rules then", folder.rules() == folder.old, True)
        folder.expect(name + ": what stands there", sorted(os.listdir(folder.place)), left)
        if there is not None:
            folder.expect(name + ": as it was put there", folder.rules(SCRATCH) == there, True)
            os.unlink(path)


def slow(call, when, how="delay_enter", of=()):
    """Starts an installation of which one call is held up for some seconds: of all of these, or of those that are about a path."""
    held_up = "inject=%s:%s=%d000000:when=%d" % (call, how, HELD_UP, when)
    return ["strace", "-qq", "-f", "-o", os.devnull, *(["-P", of] if of else []), "-e", "trace=" + call, "-e", held_up]


def come_to(what, there):
    """Waits until an installation has come so far that this is there, and then is held up."""
    end = time.monotonic() + LIMIT
    while not there():
        if time.monotonic() > end:
            raise TimeoutError("waited for " + what)
        time.sleep(0.01)
    time.sleep(0.3)


def is_written(path):
    return os.path.exists(path) and os.path.getsize(path) > 0


def two_installations(folder):
    """Two of them: while the first is under way nobody but its user can open its scratch file, and the second waits for it."""
    first = folder.start(b"11.:deny\n", before=slow("pwrite64", 2))
    come_to("the scratch file", lambda: is_written(folder.path(SCRATCH)))
    mode = os.stat(folder.path(SCRATCH)).st_mode
    folder.expect("who may open the scratch file", (stat.S_ISREG(mode), stat.S_IMODE(mode)), (True, 0o600))
    second = folder.start()
    folder.expect("the first", folder.end(first), (0, ""))
    code, errors = folder.end(second)
    folder.expect("the second", (code, errors in ("", WAITING)), (0, True))
    folder.expect("the text of the second stands", subprocess.run([folder.program, "tcprulescheck", "rules"], cwd=folder.place, stdout=subprocess.PIPE, env={}, timeout=600).stdout.decode(), DENIED)
    folder.expect("nothing is left", os.listdir(folder.place), ["rules"])


def turn(folder):
    """Turns the link to another folder."""
    os.symlink("v2", folder.path("new"))
    os.rename(folder.path("new"), folder.path("cur"))


def turned(folder, name, before, made):
    """A link to the folder is turned to another one once an installation has made this file, and is held up. Answers how it ended."""
    for inner in ("v1", "v2"):
        os.mkdir(folder.path(inner))
    os.symlink("v1", folder.path("cur"))
    process = folder.start(words=TURNED, before=before)
    come_to(made, lambda: is_written(folder.path("v1", made)))
    turn(folder)
    ended = folder.end(process)
    folder.expect(name + ": the other folder", os.listdir(folder.path("v2")), [])
    return ended


def turned_before_it_is_its_turn(folder):
    """And nothing is taken away in the other folder."""
    os.mkdir(folder.path("v1"))
    with claimed(folder.path("v1", SCRATCH)):
        os.rename(folder.path("v1"), folder.path("v0"))
        os.mkdir(folder.path("v2"))
        os.close(os.open(folder.path("v2", SCRATCH), os.O_WRONLY | os.O_CREAT, 0o600))
        os.symlink("v0", folder.path("cur"))
        process = folder.start(words=TURNED)
        folder.expect("it waits", process.stderr.readline().decode(), WAITING)
        turn(folder)
        os.unlink(folder.path("v0", SCRATCH))
    folder.expect("a link that is turned while another one is waited for", folder.end(process), (111, FRESH + STALE))
    folder.expect("the folder before", os.listdir(folder.path("v0")), [])
    folder.expect("the folder then", os.listdir(folder.path("v2")), [SCRATCH])


@contextlib.contextmanager
def mounted(folder, *names):
    """Folders of devices of their own, whose numbers there are one: how a program is started that sees them, and their paths for everybody else."""
    mounts = "".join("mount -t tmpfs none %s && " % name for name in names)
    for name in names:
        os.mkdir(folder.path(name))
    holder = subprocess.Popen(["unshare", "-m", "sh", "-c", mounts + "echo mounted && exec sleep 600"], cwd=folder.place, stdout=subprocess.PIPE)
    try:
        folder.expect("folders of two devices", holder.stdout.readline(), b"mounted\n")
        seen = ["/proc/%d/root%s" % (holder.pid, folder.path(name)) for name in names]
        folder.expect("their numbers there", len({os.stat(path).st_ino for path in seen}), 1)
        yield ["nsenter", "-t", str(holder.pid), "-m", "-w"], seen
    finally:
        holder.kill()
        holder.communicate()


def turned_to_another_device(folder):
    """The other folder has the same number, on another device."""
    with mounted(folder, "v1", "v2") as (within, (first, second)):
        os.symlink("v1", folder.path("cur"))
        with claimed(os.path.join(first, SCRATCH)):
            process = folder.start(words=TURNED, before=within)
            folder.expect("it waits", process.stderr.readline().decode(), WAITING)
            turn(folder)
            os.unlink(os.path.join(first, SCRATCH))
        folder.expect("a link that is turned to a folder of the same number", folder.end(process), (111, FRESH + STALE))
        folder.expect("what stands in both", os.listdir(first) + os.listdir(second), [])


def turned_before_the_scratch_file(folder):
    """What was left there is taken away, and then the link is turned before the new file is made."""
    for inner in ("v1", "v2"):
        os.mkdir(folder.path(inner))
    os.close(os.open(folder.path("v1", SCRATCH), os.O_WRONLY | os.O_CREAT, 0o600))
    os.symlink("v1", folder.path("cur"))
    process = folder.start(words=TURNED, before=slow("unlink,unlinkat", 1, "delay_exit"))
    come_to("the scratch file taken away", lambda: not os.path.exists(folder.path("v1", SCRATCH)))
    turn(folder)
    folder.expect("a link that is turned before the scratch file is made", folder.end(process), (111, FRESH + STALE))
    folder.expect("what stands in both", os.listdir(folder.path("v1")) + os.listdir(folder.path("v2")), [])


def turned_before_the_rename(folder):
    ended = turned(folder, "before the rename", slow("fsync", 2), "tmp")
    folder.expect("a link that is turned before the rename", ended, (111, "tcprules: device fault at named\n" + STALE))
    folder.expect("no rules stand in the folder before", os.path.exists(folder.path("v1", "rules")), False)


def turned_after_the_rename(folder):
    ended = turned(folder, "after the rename", slow("rename", 1, "delay_exit"), "rules")
    folder.expect("a link that is turned after the rename", ended, (111, "tcprules: device fault at done\n" + STALE))
    folder.expect("the rules stand in the folder before", os.path.exists(folder.path("v1", "rules")), True)


CASES = [scratch_file_held_for_good, scratch_file_waited_for, held_by_a_reader, scratch_file_left, scratch_name_taken, turned_before_it_is_its_turn]
SLOW_CASES = [two_installations, taken_after_a_look, another_scratch_file, turned_before_the_scratch_file, turned_before_the_rename, turned_after_the_rename]
ROOT_CASES = [turned_to_another_device]


def try_case(case, failures, program):
    """Makes a case in a folder of its own: how many tests it has."""
    with tempfile.TemporaryDirectory() as place:
        os.chmod(place, 0o755)
        folder = Folder(case.__name__.replace("_", " "), failures, program, place)
        try:
            case(folder)
        except Exception as fault:  # noqa: BLE001
            folder.holds("it goes on", False, repr(fault))
        return folder.tests


def check(program, failures):
    """How many tests there were."""
    can_mount = os.geteuid() == 0 and shutil.which("unshare") and shutil.which("nsenter")
    cases = CASES + SLOW_CASES * bool(shutil.which("strace")) + ROOT_CASES * bool(can_mount)
    with concurrent.futures.ThreadPoolExecutor(len(cases)) as pool:
        return sum(pool.map(lambda case: try_case(case, failures, program), cases))
