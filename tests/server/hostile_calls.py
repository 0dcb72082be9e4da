"""Each system call of `tcpserver` fails in turn, with each error that it may give.

A small library, which is compiled here, makes calls of the C library fail, one in each run. strace, if it is installed,
does the same with calls below the C library, such as `clone` and `execve`, of a running server. At its start the server
reports the error that the documents name. Later one failure changes at most one connection, and the log says how.
Nothing is lost: at `-c 1` the next client is served, no descriptor is left, and the log is legal.
"""
import os
import re
import shutil
import socket
import subprocess
import tempfile
import time

from shared import compiled_files, failed_calls, log_forms, refusals, server_runs
from shared.checks import is_tried, leave_out
from shared.log_forms import ANY
from shared.server_runs import read_all

MOST = 300
TABLE = "127.0.0.1 Mail.Example\n=mail.example 127.0.0.1\n"
RULES = '127.0.0.1:allow,A="one"\n:deny\n'
ALLOWED, DENIED = "127.0.0.1", "127.0.0.2"
ANSWERS = {ALLOWED: b"a\n", DENIED: b""}

DIRECTORY = log_forms.drop(ANY, "directory fault")
READ_FAULT = log_forms.drop(ANY, "rules read fault")
FAILED = log_forms.start(ANY, "failed")
MEMORY = "(%s|%s)" % (log_forms.start(ANY, "out of memory"), log_forms.drop(ANY, "out of memory"))
# The calls; the errors that may come; the faults that the server may tell of at its start; the lines that may tell of one later. A call that
# was interrupted is made again, so it changes nothing.
CALLS = [
    ("socket", ["EMFILE", "ENFILE", "ENOMEM", "ENOBUFS", "EACCES"], ["cannot listen"], []),
    ("setsockopt", ["ENOMEM"], ["cannot listen"], []),
    ("bind", ["EADDRINUSE", "EACCES", "ENOMEM"], ["cannot listen"], []),
    ("listen", ["EADDRINUSE", "ENOMEM"], ["cannot listen"], []),
    ("getsockname", ["ENOBUFS"], ["cannot listen"], []),
    ("accept4", ["EINTR", "EAGAIN", "EMFILE", "ENFILE", "ENOMEM", "ENOBUFS", "ECONNABORTED", "EPROTO", "EPERM", "EIO"], [], []),
    ("pipe2", ["EMFILE", "ENFILE"], [], []),
    ("pipe2", ["ENOMEM"], [], [FAILED, MEMORY]),
    ("posix_spawn", ["EAGAIN", "E2BIG", "EIO", "ENOEXEC", "ETXTBSY", "EMFILE"], [], [FAILED]),
    ("posix_spawn", ["ENOMEM"], [], [FAILED, MEMORY]),
    ("posix_spawn", ["ENOENT"], [], [log_forms.start(ANY, "not found")]),
    ("posix_spawn", ["EACCES", "EPERM"], [], [log_forms.start(ANY, "refused")]),
    ("pthread_create", ["EAGAIN", "ENOMEM"], [], []),
    ("waitpid", ["EINTR", "EIO"], [], []),
    ("open", ["EINTR", "EMFILE", "ENFILE", "EACCES", "EIO", "ELOOP"], ["read fault", "device fault"], [DIRECTORY]),
    ("open", ["ENOMEM"], ["read fault", "device fault", "out of memory"], [DIRECTORY, MEMORY]),
    ("fstat", ["EIO", "ENOMEM"], ["read fault", "device fault", "out of memory"], [DIRECTORY, MEMORY]),
    ("stat", ["EIO", "EACCES"], ["read fault", "device fault"], [DIRECTORY]),
    ("lstat", ["EIO", "EACCES"], ["read fault", "device fault"], [DIRECTORY]),
    ("fstatat", ["EIO", "EACCES"], ["read fault", "device fault"], [DIRECTORY]),
    ("statx", ["EIO", "EACCES"], ["read fault", "device fault"], [DIRECTORY]),
    ("lseek", ["EIO"], ["read fault", "device fault"], [DIRECTORY, READ_FAULT]),
    ("fcntl", ["EMFILE", "EBADF"], ["read fault", "device fault", "cannot listen"], [DIRECTORY, FAILED]),
    ("pread", ["EINTR", "EIO", "ENOMEM"], ["read fault"], [READ_FAULT, MEMORY]),
    ("pread64", ["EINTR", "EIO", "ENOMEM"], ["read fault"], [READ_FAULT, MEMORY]),
    ("read", ["EINTR", "EAGAIN", "EIO", "ECONNRESET", "ENOMEM"], ["read fault", "out of memory"], []),
    ("recv", ["EINTR", "EAGAIN", "EIO", "ECONNRESET", "ENOMEM"], [], []),
    ("write", ["EINTR", "EAGAIN", "EIO", "EPIPE", "ENOSPC", "ENOMEM"], ["write fault"], []),
    ("send", ["EINTR", "EAGAIN", "EPIPE", "ECONNRESET", "ENOMEM"], [], []),
    ("poll", ["EINTR", "ENOMEM"], [], []),
    ("close", ["EINTR", "EIO"], [], []),
    ("kill", ["EPERM", "ESRCH"], [], []),
]
# interrupted reads of a regular file don't come from a system's own folders, and may be told of
TOLD_INTERRUPTED = ("pread", "pread64")
PARTS = ("read", "write", "recv", "send", "pread", "pread64")
# below the C library: calls and their errors; and those of which the first of each thread fail, since a hundred faults of accepting end the
# server, and three of waiting keep a place for good
BELOW = [
    ("clone,clone3,vfork", "EAGAIN"), ("clone,clone3,vfork", "ENOMEM"), ("execve", "EACCES"), ("execve", "ENOENT"), ("execve", "ENOMEM"),
    ("execve", "E2BIG"), ("execve", "ENOEXEC"), ("execve", "ETXTBSY"), ("execve", "EIO"), ("mmap", "ENOMEM"), ("mprotect", "ENOMEM"),
    ("openat", "EMFILE"), ("openat", "EIO"), ("openat", "ENOMEM"), ("pipe2", "EMFILE"), ("pipe2", "ENOMEM"), ("read", "EIO"), ("write", "EIO"),
    ("recvfrom", "ECONNRESET"), ("recvfrom", "EAGAIN"), ("sendto", "EPIPE"), ("sendto", "ENOMEM"), ("pread64", "EIO"), ("fstat", "EIO"),
    ("newfstatat", "EIO"), ("statx", "EIO"), ("getsockname", "ENOBUFS"), ("dup2", "EBUSY"),
]
TEMPORARY = [
    ("accept4", "EMFILE"), ("accept4", "ENFILE"), ("accept4", "ENOMEM"), ("accept4", "ENOBUFS"), ("accept4", "ECONNABORTED"), ("accept4", "EIO"),
    ("accept4", "EAGAIN"), ("wait4", "EINTR"), ("wait4", "EIO"),
]
TIMES = 2
ANY_LINE = "|".join([
    log_forms.status(ANY, ANY), log_forms.pid(ANY, ".*"), log_forms.verdict("(ok|deny)", ANY, ".*", ".*"), log_forms.any_end(ANY),
    log_forms.drop(ANY, ".*"), log_forms.start(ANY, ".*"), "out of memory",
])


class Told:
    """What one client got, and the lines of its connection."""

    def __init__(self, server, source, seen):
        peer, self.answer = server.talk(b"a\n", source)
        server.settle(seen)
        self.source = source
        self.lines = server.lines()[seen:]
        serials = re.findall(log_forms.pid(r"(\d+)", ""), "\n".join(self.lines))
        self.serial = int(serials[0]) if serials else None
        self.wanted = wanted_lines(self.serial, source, server.port, peer)

    def is_ample(self):
        return (self.answer, self.lines) == (ANSWERS[self.source], self.wanted)

    def __repr__(self):
        return "from %s %r with %r" % (self.source, self.answer, self.lines)


def wanted_lines(serial, source, local, peer):
    """The lines of a connection with which nothing is amiss."""
    name = "mail.example" if source == ALLOWED else ""
    verdict = "ok" if source == ALLOWED else "deny"
    head = [log_forms.status(1, 1), log_forms.pid(serial, source)]
    head.append(log_forms.verdict(verdict, serial, "mail.example:127.0.0.1:%d" % local, "%s:%s::%d" % (name, source, peer)))
    return head + ([log_forms.end(serial)] if source == ALLOWED else []) + [log_forms.status(0, 1)]


class Calls:
    """Servers of which one call fails."""

    def __init__(self, suite):
        self.suite = suite
        self.library = failed_calls.Library(suite.folder)
        table, rules = suite.path("table", TABLE), suite.install(RULES, "calls.cdb")
        self.options = ["-v", "-c", "1", "-N", table, "-x", rules]
        self.program = [shutil.which("cat")]
        # how many descriptors an idle server has, and what came of failures
        self.idle = None
        self.told = {}

    def one(self, call, error, first, faults, forms, last=None, step=1):
        """A run in which this call fails: whether it did."""
        run = self.library.run(call, error, first, last, step)
        name = "%s, %s at call %d" % (call, error or "one byte", first)
        try:
            amiss = self.serve(run, error, faults, forms)
        except (server_runs.Amiss, OSError) as fault:
            amiss = "%s: %s" % (type(fault).__name__, fault)
        failed = run.end()
        self.suite.holds(name, not amiss, amiss)
        return failed

    def serve(self, run, error, faults, forms):
        """One server: what is amiss with it."""
        variables = dict(os.environ, **run.environment)
        with self.suite.start(self.options, self.program, may_end=True, env=variables) as server:
            if server.port is None:
                return self.started_not(server, run, error, faults)
            told, seen = [], 0
            for source in (ALLOWED, DENIED, ALLOWED, ALLOWED):
                if len(told) == 3 and told[2].is_ample():
                    break
                told.append(Told(server, source, seen))
                seen += len(told[-1].lines)
                if len(told) == 1 and told[0].lines[:1] == [log_forms.status(0, 1)]:
                    # the line of the server's start
                    told[0].lines.pop(0)
            return self.amiss(server, run, error, forms, told)

    def started_not(self, server, run, error, faults):
        code, lines = server.end(), server.lines()
        if not run.failed() or error in (None, "EINTR") or code != 111 or len(lines) != 1 or lines[0] not in faults:
            return "it did not start: %d and %r" % (code, lines)
        self.count(lines[0])
        return ""

    def count(self, what):
        self.told[what] = self.told.get(what, 0) + 1

    def amiss(self, server, run, error, forms, told):
        """What is amiss after these clients."""
        failed = run.failed()
        changed = [one for one in told if not one.is_ample()]
        if failed and failed[0][1] == 2 and error not in (None, "EINTR"):
            # a line of the log was not taken
            self.count("a line of the log")
            is_right = [one.answer for one in told] == [ANSWERS[one.source] for one in told]
            return "" if is_right else "a line was not taken: %r" % told
        if len(changed) > 1 or not told[-1].is_ample():
            return "%d connections changed: %r" % (len(changed), changed)
        if changed and error in (None, "EINTR") and run.call not in TOLD_INTERRUPTED:
            return "an interrupted call, or one of a byte, changed %r" % changed
        if changed and not self.may_change(changed[0], run.call, forms):
            return "it changed %r" % changed
        self.count(changed[0].lines[-2] if changed and len(changed[0].lines) > 1 else "nothing")
        return self.left(server)

    @staticmethod
    def may_change(one, call, forms):
        """Whether a failure may have made this of a connection."""
        if one.lines == []:
            return call == "getsockname" and one.answer == b""
        others = [line for line in one.lines if line not in one.wanted]
        streams = log_forms.any_end(one.serial)
        ended = call in ("read", "write", "recv", "send", "waitpid")
        known = all(any(re.fullmatch(form, line) for form in forms + ([streams] if ended else [])) for line in others)
        has_front = ANSWERS[one.source].startswith(one.answer)
        is_told = bool(others) or (call in ("read", "write", "recv", "send") and one.lines == one.wanted)
        return known and has_front and is_told and one.lines[:2] == one.wanted[:2] and one.lines[-1] == one.wanted[-1]

    def left(self, server):
        """What a server left behind, or tells amiss."""
        events = log_forms.events_of(server.log())
        if events.faults or events.last_live:
            return "its log: %r and %d alive" % (events.faults, events.last_live)
        if self.idle is None:
            self.idle = server.descriptors()
        try:
            server_runs.wait_until("descriptors", lambda: server.descriptors() <= self.idle)
        except server_runs.Amiss:
            return "%d descriptors, and %d when idle" % (server.descriptors(), self.idle)
        words = [self.suite.program, "rulesim"]
        ended = subprocess.run(words, input=events.script().encode(), stdout=subprocess.PIPE, timeout=server_runs.WAIT)
        return "" if ended.stdout.decode() == events.report() else "the replay of its log: %r" % ended.stdout


def tried(errors):
    """Those of a call's errors that are tried: two, where the program was built without proofs."""
    return errors[:2] if is_tried() else errors


def each_call(suite):
    """One call fails in each run, the first, then the second, until a run meets none."""
    calls = Calls(suite)
    calls.one("none", "EIO", 1, [], [])
    reached = []
    for call, errors, faults, forms in CALLS:
        for error in tried(errors):
            found = []
            runs, whole = failed_calls.one_after_another(
                MOST, lambda n: found.append(calls.one(call, error, n, faults, forms)) or found[-1])
            suite.holds("%s, %s: each call was tried, %d of them" % (call, error, runs), whole)
            reached += [call] if any(found) else []
            if not any(found):
                break
        else:
            leave_out((1 + runs) * (len(errors) - len(tried(errors))))
    of_pumps = () if suite.handed else ("pipe2", "recv", "send")
    for call in ("socket", "bind", "listen", "accept4", "posix_spawn", "pthread_create", "waitpid", "open", "read", "write") + of_pumps:
        suite.holds("%s is called" % call, call in reached, sorted(set(reached)))
    suite.holds("what failures did: %r" % calls.told, len(calls.told) >= 8, calls.told)


def bytes_one_by_one(suite):
    """Each read and write takes a byte at a time; and each second call is interrupted: nothing changes."""
    calls = Calls(suite)
    for call in PARTS:
        calls.one(call, None, 1, [], [], failed_calls.ALL)
        calls.one(call, None, 2, [], [], failed_calls.ALL, 2)
    for call, errors, _, _ in CALLS:
        if "EINTR" in errors and call not in TOLD_INTERRUPTED and call != "close":
            for first in (1, 2):
                calls.one(call, "EINTR", first, [], [], failed_calls.ALL, 2)


def while_calls_fail(suite):
    """Every call of a kind fails for a while, and no connection can be served; afterwards all are, and no place is lost."""
    library = failed_calls.Library(suite.folder)
    rules = suite.install(RULES, "while.cdb")
    cases = [
        ("open", "EMFILE", log_forms.drop("N", "directory fault")), ("open", "EIO", log_forms.drop("N", "directory fault")), ("open", "EACCES", log_forms.drop("N", "directory fault")),
        ("pread", "EIO", log_forms.drop("N", "rules read fault")), ("pread64", "EIO", log_forms.drop("N", "rules read fault")), ("pipe2", "EMFILE", log_forms.start("N", "failed")),
        ("posix_spawn", "E2BIG", log_forms.start("N", "failed")), ("posix_spawn", "ENOENT", log_forms.start("N", "not found")), ("posix_spawn", "EACCES", log_forms.start("N", "refused")),
        # threads that were made before are kept
        ("pthread_create", "EAGAIN", None),
    ]
    if suite.handed:
        cases = [case for case in cases if case[0] != "pipe2"]
    for call, error, line in cases:
        run = library.run_while(call, error)
        variables = dict(os.environ, **run.environment)
        if call == "pipe2":
            # (a program waits a minute for a pipe)
            variables = failed_calls.in_fast_time(suite.folder, 10, variables)
        with suite.start(["-v", "-c", "2", "-x", rules], [shutil.which("cat")], env=variables) as server:
            suite.expect("before %s fails" % call, server.ask(b"a\n"), b"a\n")
            run.turn(True)
            answers = [server.ask(b"a\n") for _ in range(5)]
            run.turn(False)
            if not run.end() and call.startswith("pread"):
                continue
            suite.expect("while %s fails with %s" % (call, error), answers, [b"" if line else b"a\n"] * 5)
            server.idle()
            # the next client may come before a line of the last one is written
            told = sorted(entry for entry in server.lines() if entry.startswith(("drop ", "start ")))
            wanted = [line.replace("N", str(n)) for n in range(2, 7)] if line else []
            suite.expect("the lines while %s fails with %s" % (call, error), told, wanted)
            suite.expect("after %s failed" % call, [server.ask(b"a\n") for _ in range(5)], [b"a\n"] * 5)
            server.idle()
            suite.audit("%s that fails for a while" % call, server)


def no_process(suite):
    """While the system has no process for a program its client waits, and is served once there is one."""
    run = failed_calls.Library(suite.folder).run_while("posix_spawn", "EAGAIN")
    with suite.start(["-v", "-c", "2"], [shutil.which("cat")], env=dict(os.environ, **run.environment)) as server:
        run.turn(True)
        clients = [server.connect() for _ in range(2)]
        for client in clients:
            client.sendall(b"a\n")
            client.shutdown(socket.SHUT_WR)
        server.wait_line(log_forms.verdict("ok", 2, ".*", ".*"))
        time.sleep(0.3)
        run.turn(False)
        suite.expect("those who waited for a process", [read_all(client) for client in clients], [b"a\n"] * 2)
        run.end()
        server.idle()
        suite.expect("nothing is told of it", [line for line in server.lines() if line.startswith(("drop ", "start "))], [])
        suite.audit("no process for a while", server)


def no_places(suite):
    """Programs that can't be waited for keep their places for good; once all places are so, the server ends."""
    library = failed_calls.Library(suite.folder)
    for error in ("ECHILD", "EIO"):
        run = library.run("waitpid", error, 1, failed_calls.ALL)
        variables = dict(os.environ, **run.environment)
        with suite.start(["-v", "-c", "2"], [shutil.which("cat")], env=variables) as server:
            # one that has its connection is waited for from its start on, and may be ended since that fails
            wanted = (b"a\n", b"") if suite.handed else (b"a\n",)
            answers = [server.ask(b"a\n") for _ in range(2)]
            suite.holds("programs that can't be waited for", set(answers) <= set(wanted), answers)
            suite.expect("the end without places under %s" % error, server.end(), 111)
            lines = [line for line in server.lines() if line.startswith(("retired", "no places"))]
            # (each has a thread of its own, so that on a busy machine the second may be the first to fail)
            suite.expect("the lines without places under %s" % error, sorted(lines[:2]) + lines[2:], [log_forms.retired(1), log_forms.retired(2), "no places left"])
            suite.audit("without places", server)
        run.end()
    # one lost place of two: the other one goes on
    run = library.run("waitpid", "ECHILD", 1)
    with suite.start(["-v", "-c", "2"], [shutil.which("cat")], env=dict(os.environ, **run.environment)) as server:
        suite.expect("with one place of two", [server.ask(b"a\n") for _ in range(6)], [b"a\n"] * 6)
        retired = [line for line in server.lines() if line.startswith("retired")]
        # (on a busy machine the first to be waited for need not be the first connection)
        suite.holds("one is retired", len(retired) == 1 and retired[0] in map(log_forms.retired, range(1, 7)), retired)
        server_runs.wait_until("the retired one alone", lambda: server.live() == 1)
        suite.audit("one retired place", server)


def faults_of_accepting(suite):
    """One fault of accepting while a connection lives on: the next client is served, though that connection stays."""
    library = failed_calls.Library(suite.folder)
    for error in next(errors for call, errors, _, _ in CALLS if call == "accept4"):
        run = library.run("accept4", error, 2)
        with suite.start(["-v", "-c", "3"], [shutil.which("cat")], env=dict(os.environ, **run.environment)) as server, server.connect() as held:
            held.sendall(b"b")
            suite.expect("one that stays, under %s" % error, held.recv(1), b"b")
            with server.connect() as client:
                client.sendall(b"c")
                suite.expect("the next one after a fault of accepting, %s" % error, client.recv(1), b"c")
            held.close()
            server.idle()
            suite.audit("a fault of accepting, %s" % error, server)


class Traced:
    """A server with strace attached to it, under which calls fail."""

    def __init__(self, server, words):
        self.process = subprocess.Popen(
            ["strace", "-f", "-qq", "-o", "/dev/null"] + words + ["-p", str(server.process.pid)], stdin=subprocess.DEVNULL,
            stdout=subprocess.DEVNULL, stderr=subprocess.DEVNULL)
        self.number = server.process.pid

    def is_attached(self):
        try:
            with open("/proc/%d/status" % self.number) as file:
                return re.search(r"TracerPid:\s+[1-9]", file.read()) is not None
        except OSError:
            return True

    def __enter__(self):
        server_runs.wait_until("strace", lambda: self.is_attached() or self.process.poll() is not None)
        return self

    def __exit__(self, *_):
        self.process.terminate()
        try:
            self.process.wait(10)
        except subprocess.TimeoutExpired:
            self.process.kill()
            self.process.wait(10)


def below_the_library(suite):
    """Calls below the C library, also those of a program that is being started, fail while strace is attached: documented lines alone come, and
    afterwards all is served."""
    if not failed_calls.can_trace():
        print("hostile_calls: no strace that may be used here: its part was skipped", flush=True)
        return
    rules = suite.install(RULES, "below.cdb")
    for call, error in BELOW + TEMPORARY:
        try:
            fail_below(suite, rules, call, error)
        except (server_runs.Amiss, OSError) as fault:
            suite.holds("%s: %s" % (call, error), False, "%s: %s" % (type(fault).__name__, fault))
        suite.end_running()


def fail_below(suite, rules, call, error):
    """One call fails, always or the first times in each thread."""
    times, name, cat = ":when=1..%d" % TIMES if (call, error) in TEMPORARY else "", "%s: %s" % (call, error), shutil.which("cat")
    with suite.start(["-v", "-c", "3", "-x", rules], [cat]) as server:
        suite.expect("before " + name, [server.ask(b"a\n") for _ in range(2)], [b"a\n"] * 2)
        idle = server.descriptors()
        with Traced(server, ["-e", "trace=" + call, "-e", "inject=%s:error=%s%s" % (call, error, times)]):
            answers = [ask_quickly(server) for _ in range(2)]
        suite.holds("clients under " + name, all(b"a\n".startswith(answer) for answer in answers), answers)
        suite.holds("the server lives after " + name, server.process.poll() is None, server.log()[-400:])
        if call != "write":
            server.idle()
        suite.expect("after " + name, [server.ask(b"a\n") for _ in range(4)], [b"a\n"] * 4)
        server_runs.wait_until("descriptors after " + name, lambda: server.descriptors() <= idle)
        others = [line for line in server.lines() if not re.fullmatch(ANY_LINE, line) and not line.startswith(("cat: ", cat))]
        suite.expect("the lines under " + name, [line for line in others if "error while loading" not in line], [])
        if call != "write":
            server.idle()
            suite.audit(name, server)


def ask_quickly(server):
    """Asks, and gives up after a while: what came."""
    with server.connect() as client:
        client.settimeout(5)
        try:
            client.sendall(b"a\n")
            client.shutdown(socket.SHUT_WR)
            return read_all(client)
        except OSError:
            return b""


TOOL_CALLS = [
    ("open", ["EINTR", "EMFILE", "EACCES", "EIO"]), ("fstat", ["EIO"]), ("stat", ["EIO"]), ("lstat", ["EIO"]), ("fstatat", ["EIO"]), ("statx", ["EIO"]),
    ("read", ["EINTR", "EIO"]), ("write", ["EINTR", "EIO", "ENOSPC"]), ("pread", ["EINTR", "EIO"]), ("pread64", ["EINTR", "EIO"]),
    ("pwrite", ["EIO", "ENOSPC"]),
    ("lseek", ["EIO"]), ("fcntl", ["EIO", "ENOLCK"]), ("fchmod", ["EIO"]), ("fsync", ["EIO", "ENOSPC"]), ("rename", ["EIO", "EACCES"]),
    ("renameat", ["EIO"]), ("unlink", ["EIO", "EACCES"]), ("unlinkat", ["EIO"]), ("close", ["EIO"]), ("pipe2", ["EMFILE"]), ("posix_spawn", ["EAGAIN"]),
    ("pthread_create", ["EAGAIN"]), ("waitpid", ["EINTR", "EIO", "ECHILD"]),
]
PHASES = "|".join("device fault at " + phase for phase in ("fresh", "filling", "synced", "named", "done"))
TOOLS = [
    (["tcprules", "calls.cdb", "calls.tmp"], refusals.NEW, "read fault|" + PHASES),
    (["tcprulescheck", "asked.cdb"], b"", "read fault|write fault|device fault"), (["rulesim"], b"|:deny\ninstall\nask 1.1.1.1\n", "read fault|write fault"),
    (["addcr"], refusals.STREAM, "read fault|write fault"), (["delcr"], refusals.STREAM, "read fault|write fault"),
    (["fixcrio", "cat"], refusals.STREAM, "cannot start|device fault"), (["recordio", "cat"], refusals.STREAM, "cannot start|device fault"),
]


class ToolCalls:
    """Runs of a tool of which one call fails."""

    def __init__(self, suite, words, given, faults):
        self.suite, self.words, self.given = suite, words, given
        self.library = failed_calls.Library(suite.folder)
        self.faults = re.compile(r"(%s: (%s|out of memory)\n)?" % (words[0], faults))
        self.passes_on = words[0] in ("fixcrio", "recordio")
        self.files = [suite.path(name, None) for name in ("old.cdb", "new.cdb")]
        self.contents = [compiled_files.content(path) for path in self.files]
        self.ample = self.run({})

    def run(self, variables):
        """One run, and what stands under the rules name after it."""
        folder = tempfile.mkdtemp(dir=self.suite.folder)
        for name, content in (("calls.cdb", self.contents[0]), ("asked.cdb", self.contents[1])):
            compiled_files.put(content, folder, name)
        environment = dict(refusals.PEER, PATH=os.environ["PATH"], **variables)
        outcome = refusals.run([self.suite.program] + self.words, folder, self.given, environment)
        standing = compiled_files.content(folder, "calls.cdb")
        shutil.rmtree(folder)
        return outcome, standing

    def amiss(self, outcome, standing, error, failed):
        """What may not come of a failure."""
        (code, output, errors), (ample, new) = outcome, self.ample
        if standing not in (new, self.contents[0]) or (code == 0 and standing != new):
            return "the rules file is neither the old one nor the new one"
        said_less = failed[1] == 2
        same_errors = sorted(errors.split(b"\n")) == sorted(ample[2].split(b"\n")) or said_less
        if (code, output) == ample[:2] and same_errors:
            return ""
        if error == "EINTR":
            return "an interrupted call changed it: %r" % (outcome,)
        lines, mark = errors.decode().splitlines(True), self.words[0] + ": "
        told = "".join(line for line in lines if line.startswith(mark))
        records = {line for line in lines if not line.startswith(mark)}
        known = self.faults.fullmatch(told) is not None and records <= set(ample[2].decode().splitlines(True))
        # a pump that met a fault ends, and is not told of
        ended = code == 111 and (told or said_less) or self.passes_on
        return "" if known and ended and ample[1].startswith(output) else "%r" % (outcome,)

    def one(self, call, error, number):
        run = self.library.run(call, error, number)
        outcome, standing = self.run(run.environment)
        failed = run.failed()
        if failed:
            amiss = "" if error == "EINTR" and call in TOLD_INTERRUPTED else self.amiss(outcome, standing, error, failed[0])
        else:
            amiss = "" if (outcome[:2], standing) == (self.ample[0][:2], self.ample[1]) else "nothing failed, and %r" % (outcome,)
        self.suite.holds("%s: %s, %s at call %d" % (self.words[0], call, error, number), not amiss, amiss)
        return run.end()


def tools(suite):
    """Each call of each other tool fails in turn: it tells of a fault that it has, and the rules file is the old one or the new one."""
    suite.install(":deny\n", "old.cdb")
    suite.install(refusals.NEW, "new.cdb")
    for words, given, faults in TOOLS:
        calls = ToolCalls(suite, words, given, faults)
        for call, errors in TOOL_CALLS:
            for error in tried(errors):
                found = []
                runs, whole = failed_calls.one_after_another(
                    MOST, lambda n: found.append(calls.one(call, error, n)) or found[-1])
                suite.holds("%s: %s, %s: each call was tried, %d of them" % (words[0], call, error, runs), whole)
                if not any(found):
                    break
            else:
                leave_out((1 + runs) * (len(errors) - len(tried(errors))))


CHECKS = [each_call, bytes_one_by_one, while_calls_fail, no_process, no_places, faults_of_accepting, tools, below_the_library]
COMMON = []
HANDED = [each_call, bytes_one_by_one, while_calls_fail, no_process, no_places, faults_of_accepting, below_the_library]
