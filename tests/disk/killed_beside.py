"""`tcprules` is killed at each of its calls in turn, or held up there, beside a run of another user, with what it leaves and without that, and while a third
user holds whatever he can open. The next run works, and is not held up; nobody sees a part of a file; and no name of a folder is a special one.

It needs root and strace.
"""
import concurrent.futures
import contextlib
import os
import re
import shutil
import signal
import stat
import subprocess
import tempfile
import threading
import time

from disk.two_users import COMMON, MAY_FAIL, OTHER, ROOT, THIRD, WAITING
from shared import compiled_files, failed_calls
from shared.checks import LIMIT, Checks

RULES, SCRATCH, LOCK = "rules", "tmp", ".tcprules.lock"
# how long a call is held up, and a sync, which takes long on a slow disk; how long each sync of the other run takes then; when that one begins; how long
# one may take beside what it takes alone; in seconds
HELD_UP, LONG, SLOW, BEGINS, MORE = 0.8, 4.5, 1.5, 0.3, 1
# so many runs in a hundred may take longer, where the machine is busy; how many cases are tried at once
FEW, AT_ONCE = 10, 12
CALLS = "openat,unlink,unlinkat,rename,renameat,renameat2,link,linkat,fsync,fdatasync,fchmod,fchmodat,chmod,fcntl,flock,statx,newfstatat,fstat,pwrite64"
CALL = re.compile(r"(?:\d+ +)?(\w+)\((.*)")
# a user who holds what he can open of the folder in which this runs: by flock, alone or with others, and by a lock of its bytes with others
HOLDER = r"""
import fcntl, os, random, select, struct, sys, time
print("holds", flush=True)
held, most = {}, 0
while not select.select([sys.stdin], [], [], 0.001)[0]:
    for name in [".", *os.listdir(".")]:
        try:
            file = os.open(name, os.O_RDONLY | os.O_NONBLOCK | os.O_NOFOLLOW)
        except OSError:
            continue
        number = os.fstat(file).st_ino
        if number in held:
            os.close(file)
        else:
            held[number] = file, time.monotonic() + random.uniform(0, 1)
        for call, how in ((fcntl.flock, fcntl.LOCK_NB | random.choice((fcntl.LOCK_EX, fcntl.LOCK_SH))), (fcntl.fcntl, 37)):
            try:
                call(held[number][0], how, *[struct.pack("hhqqi4x", 0, 0, 0, 0, 0)] * (how == 37))
            except OSError:
                pass
    most = max(most, len(held))
    for number, (file, until) in list(held.items()):
        if time.monotonic() > until or not os.fstat(file).st_nlink:
            os.close(held.pop(number)[0])
print(most)
"""


def text_of(number):
    """A text that denies everybody, and has this number."""
    return '10.:deny\n:deny,NUMBER="%d"\n' % number


def file_of(number):
    """Its file."""
    return compiled_files.cdb([(b"10.", b"D\0"), (b"", b"D\0+NUMBER=%d\0" % number)])


class Folder(Checks):
    """A folder of a group, to which two of the users belong and the third does not."""

    def __init__(self, case, failures, program, top, mode=0o775):
        super().__init__("killed_beside: " + case, failures)
        self.program, self.last, self.amiss, self.over = program, 0, [], False
        self.slow, self.lasted, self.top = [], [], top
        self.place = tempfile.mkdtemp(dir=top)
        os.chown(self.place, 0, COMMON)
        os.chmod(self.place, mode)

    def path(self, name):
        return os.path.join(self.place, name)

    def start(self, user, text=None, before=(), words=(RULES, SCRATCH)):
        """Starts an installation of a new text: its process, with the number of the text."""
        self.last += 1
        process = subprocess.Popen(
            [*before, self.program, "tcprules", *words], cwd=self.place, stdin=subprocess.PIPE, stdout=subprocess.PIPE, stderr=subprocess.PIPE, **user.how()
        )
        process.number = self.last
        with contextlib.suppress(BrokenPipeError):
            process.stdin.write((text or text_of(self.last)).encode())
            process.stdin.close()
        process.stdin = None
        return process

    def end(self, process):
        """Its exit code, and what it told."""
        try:
            _, errors = process.communicate(timeout=LIMIT)
        except subprocess.TimeoutExpired:
            process.kill()
            process.communicate()
            return "still running", ""
        return process.returncode, errors.decode()

    def install(self, user, **how):
        """A whole installation: how it ended, and how long it took."""
        began = time.monotonic()
        process = self.start(user, **how)
        ended = self.end(process)
        return (*ended, process.number, time.monotonic() - began)

    def works(self, name, user, **how):
        """The next installation works, and is not held up."""
        code, told, number, lasted = self.install(user, **how)
        self.expect("%s: the next run of %s" % (name, user.name), (code, told), (0, ""))
        self.expect("%s: its text" % name, self.rules() == file_of(number), True)
        self.note(name, lasted)

    def note(self, name, lasted):
        """Notes how long a run took that should not be held up."""
        self.lasted.append(lasted)
        # (on a busy machine one takes longer alone too)
        if lasted > MORE + 4 * self.alone and lasted > MORE + 4 * Folder("alone", [], self.program, self.top).install(ROOT)[3]:
            self.slow.append("%s: %.2f seconds" % (name, lasted))

    def rules(self, name=RULES):
        return compiled_files.content(self.place, name)

    def begin(self):
        """Installs the first rules, and sees how long that takes alone."""
        took = [self.install(user) for user in (OTHER, ROOT) * 2]
        self.expect("the first rules", [ended[:2] for ended in took], [(0, "")] * 4)
        self.alone = max(ended[3] for ended in took)
        return self

    def few_are_slow(self):
        self.holds("what is held up", len(self.slow) <= max(1, len(self.lasted) * FEW // 100), self.slow)

    def take_away(self, hidden=False):
        """Somebody takes the scratch file away, or all that is hidden."""
        for name in [name for name in os.listdir(self.place) if name.startswith(".")] if hidden else [SCRATCH]:
            with contextlib.suppress(FileNotFoundError):
                os.unlink(self.path(name))

    def left(self, user, mode=0o600):
        """Leaves a part of a file, as a killed run of this user does."""
        with open(self.path(SCRATCH), "wb") as file:
            file.write(b"a part")
        os.chown(self.path(SCRATCH), user.number, user.number)
        os.chmod(self.path(SCRATCH), mode)

    def watch(self):
        """Looks at the rules all the time, until it is over."""
        while not self.over:
            found = self.rules()
            if found not in [file_of(number) for number in range(max(1, self.last - 8), self.last + 1)]:
                self.amiss.append(found)
            time.sleep(0.002)

    @contextlib.contextmanager
    def watched(self):
        """Nobody sees a part of a file meanwhile."""
        self.over = False
        thread = threading.Thread(target=self.watch)
        thread.start()
        try:
            yield
        finally:
            self.over = True
            thread.join()
            self.expect("what is seen that is no whole file", (len(self.amiss), self.amiss[:2]), (0, []))

    @contextlib.contextmanager
    def held(self):
        """The third user holds what he can open."""
        holder = subprocess.Popen(
            ["python3", "-I", "-c", HOLDER], cwd=self.place, stdin=subprocess.PIPE, stdout=subprocess.PIPE, stderr=subprocess.PIPE, **THIRD.how()
        )
        holder.stdout.readline()
        try:
            yield
        finally:
            told, errors = holder.communicate(b"end\n", timeout=LIMIT)
            self.holds("what the third user holds", errors == b"" and int(told) >= 2, (told, errors))


def injected(call, number, how):
    """In front of a program: this happens at its call of this name and number, or at all of them from `1+` on."""
    return ["strace", "-qq", "-o", os.devnull, "-e", "trace=" + call, "-e", "inject=%s:%s:when=%s" % (call, how, number)]


def held_up(seconds):
    """What is injected where a call takes so long."""
    return "delay_enter=%d" % (seconds * 1e6)


def calls_of(program, top, user, is_left):
    """The calls of an installation from the first one on that is about the folder: each by its name and number."""
    folder = Folder("the calls", [], program, top)
    folder.install(ROOT)
    if is_left:
        folder.left(user)
    trace = os.path.join(top, "trace")
    folder.install(ROOT, before=["strace", "-qq", "-o", trace, "-e", "trace=" + CALLS])
    found, counts = [], {}
    with open(trace, encoding="latin-1") as file:
        for line in file:
            match = CALL.match(line)
            if match:
                name = match.group(1)
                counts[name] = counts.get(name, 0) + 1
                if found or '"."' in line or '"./' in line:
                    found.append((name, counts[name]))
    return found


# killed at each call


def killed(folder, user, call, number):
    """Starts a run that is killed at this call."""
    return folder.start(user, before=injected(call, number, "signal=KILL"))


def was_killed(folder, name, process):
    code, _ = folder.end(process)
    folder.holds(name + ": it was killed, or did not come so far", code in (0, -signal.SIGKILL, 128 + signal.SIGKILL), code)


def killed_alone(folder, calls):
    """What a killed run of another user leaves stops neither him nor root."""
    for call, number in calls:
        for next_user in (OTHER, ROOT):
            name = "%s %d, killed" % (call, number)
            was_killed(folder, name, killed(folder, OTHER, call, number))
            time.sleep(0.02)
            folder.works(name, next_user)


def killed_root(folder, calls):
    """What a killed run of root leaves does not stop root; once it is taken away, nobody."""
    for call, number in calls:
        for next_user in (ROOT, OTHER):
            name = "%s %d of root, killed" % (call, number)
            was_killed(folder, name, killed(folder, ROOT, call, number))
            time.sleep(0.02)
            if next_user is OTHER:
                folder.take_away()
            folder.works(name, next_user)


def killed_beside_root(folder, calls):
    """Another user is killed while root installs, who is not held up; the next run of each works."""
    for call, number in calls:
        name = "%s %d, killed beside root" % (call, number)
        began = time.monotonic()
        first, second = killed(folder, OTHER, call, number), folder.start(ROOT)
        was_killed(folder, name, first)
        folder.expect(name + ": root", folder.end(second), (0, ""))
        folder.note(name, (time.monotonic() - began) / 2)
        folder.works(name, OTHER)


def root_killed_beside(folder, calls):
    """Root is killed while another user installs, who goes on as soon as what is left is taken away."""
    for call, number in calls:
        name = "%s %d of root, killed beside another" % (call, number)
        first, second = killed(folder, ROOT, call, number), folder.start(OTHER)
        was_killed(folder, name, first)
        folder.take_away()
        began = time.monotonic()
        code, told = folder.end(second)
        # (the scratch file may have been his own)
        folder.expect(name + ": the other", (code, told) in ((0, ""), (111, MAY_FAIL)), True)
        folder.note(name, time.monotonic() - began)
        folder.works(name, ROOT)


def try_killed(case, failures, program, top, calls):
    """One of these cases, beside the third user."""
    folder = Folder(case.__name__.replace("_", " "), failures, program, top).begin()
    with folder.watched(), folder.held():
        case(folder, calls)
    folder.few_are_slow()
    folder.take_away()
    folder.expect("nothing is left", os.listdir(folder.place), [RULES])
    return folder.tests


# held up at each call


def try_held_up(case, failures, program, top):
    """One run is held up at a call, and another begins, while hidden files are taken away, or the scratch file once: of both, and of what is left."""
    call, number, first_user, second_user, is_left, is_taken = case
    name = "%s %d of %s held up%s%s" % (call, number, first_user.name, ", with a file left" * is_left, ", which is taken away" * is_taken)
    folder = Folder(name, failures, program, top)
    folder.install(ROOT)
    if is_left:
        folder.left(OTHER)
    with folder.watched():
        is_long = call == "fsync"
        first = folder.start(first_user, before=injected(call, number, held_up(LONG if is_long else HELD_UP)))
        time.sleep(BEGINS)
        if is_taken:
            folder.take_away()
        second = folder.start(second_user, before=injected("fsync", "1+", held_up(SLOW)) if is_long else ())
        while first.poll() is None or second.poll() is None:
            folder.take_away(hidden=True)
            time.sleep(0.01)
        ends = [folder.end(process) for process in (first, second)]
    ends = [(code, told.replace(WAITING, "")) for code, told in ends]
    wanted = [[(0, ""), (0, "")]] + [[(111, MAY_FAIL), (0, "")], [(0, ""), (111, MAY_FAIL)]] * is_taken
    folder.holds("how they end", ends in wanted, ends)
    numbers = [process.number for process, end in zip((first, second), ends) if end[0] == 0]
    folder.expect("whose text stands", folder.rules() in [file_of(number) for number in numbers], True)
    folder.expect("what is left", os.listdir(folder.place), [RULES])
    return folder.tests


def cases_held_up(calls, calls_left):
    """At each call in turn, of each user. (What is taken away right within the rename is not this run's to know of.)"""
    cases = []
    for users in ((ROOT, OTHER), (OTHER, ROOT)):
        cases += [(*call, *users, False, False) for call in calls] + [(*call, *users, True, False) for call in calls_left]
        cases += [(*call, *users, False, True) for call in calls if not call[0].startswith("rename")]
    return cases


# names


def rules_of_that_name(folder):
    """A rules file of any name is one: a run that fails leaves it, whatever it is called."""
    for rules, scratch in ((LOCK, SCRATCH), (RULES, LOCK), ("." + RULES, "." + SCRATCH)):
        words = (rules, scratch)
        code, told, number, _ = folder.install(ROOT, words=words)
        folder.expect("rules as %s, by %s" % words, (code, told, folder.rules(rules) == file_of(number)), (0, "", True))
        folder.expect("a text that is none, of %s" % rules, folder.install(ROOT, words=words, text="10.:denied\n")[:2], (100, "tcprules: line 1: no verdict\n"))
        for call, error, where in (("rename", "EIO", "named"), ("fsync", "ENOSPC", None), ("pwrite64", "ENOSPC", None)):
            code = folder.install(ROOT, words=words, before=injected(call, 1, "error=" + error))[0]
            folder.expect("%s that fails, of %s" % (call, rules), (code, folder.rules(rules) == file_of(number)), (111, True))
        folder.works("beside " + rules, OTHER)
        if rules != RULES:
            folder.expect("it stands still", folder.rules(rules) == file_of(number), True)
            folder.take_away(hidden=True)
        folder.expect("nothing is left beside it", os.listdir(folder.place), [RULES])


def put_there(folder, user, kind):
    """Somebody puts something under the name of the lock that an older `tcprules` made."""
    path = folder.path(LOCK)
    if kind == "folder":
        os.mkdir(path)
    elif kind == "pipe":
        os.mkfifo(path)
    elif kind == "link":
        os.symlink("nowhere", path)
    else:
        with open(path, "wb") as file:
            file.write(b"x")
        os.chmod(path, int(kind, 8))
    os.lchown(path, user.number, user.number)


def locks_of_others(folder):
    """What anybody leaves in a sticky folder under such a name stops nobody, and nobody takes it away."""
    for user in (ROOT, OTHER, THIRD):
        for kind in ("600", "666", "folder", "pipe", "link"):
            put_there(folder, user, kind)
            found = os.lstat(folder.path(LOCK))
            name = "%s of %s" % (kind, user.name)
            for installer, rules in ((OTHER, "rules2"), (THIRD, "rules3"), (ROOT, RULES)):
                code, told, number, lasted = folder.install(installer, words=(rules, SCRATCH))
                folder.expect("%s: %s" % (name, installer.name), (code, told, folder.rules(rules) == file_of(number)), (0, "", True))
                folder.note(name, lasted)
            folder.expect(name + " stays", os.path.lexists(folder.path(LOCK)) and os.path.samestat(os.lstat(folder.path(LOCK)), found), True)
            with contextlib.suppress(FileNotFoundError):
                (os.rmdir if stat.S_ISDIR(found.st_mode) else os.unlink)(folder.path(LOCK))
    folder.few_are_slow()


def readable_left(folder):
    """A part of a file that everybody may read, as 0.88 leaves it when it is killed: the third user holds it, and nobody is held up."""
    with folder.watched(), folder.held():
        for times in range(10):
            for user in (ROOT, OTHER):
                folder.left(OTHER, 0o644)
                time.sleep(0.05)
                folder.works("a file that is left, and held", user)
    folder.few_are_slow()


def try_names(case, failures, program, top, mode):
    folder = Folder(case.__name__.replace("_", " "), failures, program, top).begin()
    os.chmod(folder.place, mode)
    case(folder)
    return folder.tests


def check(program, failures):
    """How many tests there were."""
    if os.geteuid() != 0 or not failed_calls.can_trace():
        print("killed_beside: it needs root and strace: skipped")
        return 0
    with tempfile.TemporaryDirectory() as top, concurrent.futures.ThreadPoolExecutor(AT_ONCE) as pool:
        os.chmod(top, 0o755)
        program = shutil.copy(program, os.path.join(top, "ucspi"))
        calls, calls_left = (calls_of(program, top, OTHER, is_left) for is_left in (False, True))
        kills = (killed_alone, killed_root, killed_beside_root, root_killed_beside)
        tries = [pool.submit(try_killed, case, failures, program, top, calls_left) for case in kills]
        names = ((rules_of_that_name, 0o775), (locks_of_others, 0o1777), (readable_left, 0o775))
        tries += [pool.submit(try_names, case, failures, program, top, mode) for case, mode in names]
        tries += [pool.submit(try_held_up, case, failures, program, top) for case in cases_held_up(calls, calls_left)]
        return sum(each.result() for each in tries)
