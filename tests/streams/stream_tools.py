"""Runs addcr, delcr, fixcrio and recordio: what they make of streams, how they end, and what their programs are given."""
import contextlib
import fcntl
import os
import random
import re
import select
import signal
import socket
import subprocess
import tempfile
import threading
import time

from shared import small_programs
from shared.checks import LIMIT, Runs, needs_proved
from shared.plain_streams import added, deleted, fixed

USAGE = {
    "addcr": b"addcr: usage: addcr\n",
    "delcr": b"delcr: usage: delcr\n",
    "fixcrio": b"fixcrio: usage: fixcrio prog [args]\n",
    "recordio": b"recordio: usage: recordio prog [args]\n",
}
SIZE = 64 * 1024 * 1024


def recorded(number, way, text):
    """The lines of a text that came in one read, which is recorded in pieces of 256 bytes, and that of its end."""
    mark = b"%d %s " % (number, way)
    out = b""
    for start in range(0, len(text), 256):
        lines = text[start:start + 256].split(b"\n")
        out += b"".join(mark + line + b" \n" for line in lines[:-1])
        if lines[-1]:
            out += mark + lines[-1] + b"+\n"
    return out + mark + b"[EOF]\n"


def lines_in(text):
    """The lines of a text that ends with a line feed."""
    return [line + b"\n" for line in text.split(b"\n")[:-1]]


def big_text():
    """A text with lines of many lengths, carriage returns among them."""
    chance = random.Random(1)
    parts = [b"\r\n", b"\n", b"\r\r\n", b"\r", b"", b"a", b"x" * 60, b"y" * 1000, b"z" * 70000, bytes(range(256))]
    block = b"".join(chance.choice(parts) for _ in range(4000))
    return (block * (SIZE // len(block) + 1))[:SIZE]


class Streams(Runs):
    """Runs of the stream tools, in groups."""

    def check_texts(self):
        texts = [b"", b"\n", b"a", b"a\n", b"a\nb", b"a\r\nb", b"a\r\r\nb\r", b"\r", b"\r\r", b"\n\n\r\n", b"\0\xff\n"]
        for text in texts:
            self.ended("addcr on %r" % text, self.run(["addcr"], text), 0, added(text))
            self.ended("delcr on %r" % text, self.run(["delcr"], text), 0, deleted(text))
            both = fixed(text)
            self.ended("fixcrio cat on %r" % text, self.run(["fixcrio", "cat"], text), 0, both)
        self.ended("what cat is given", self.run(["fixcrio", "od", "-An", "-c"], b"\n"), 0, b"  \\r  \\n\r\n")

    def check_words(self):
        for tool, usage in USAGE.items():
            wrong = [[b"\xff"], ["sh", b"\xff"]] if tool in ("fixcrio", "recordio") else [["x"], [""], [b"\xff"]]
            for words in wrong + ([[]] if tool in ("fixcrio", "recordio") else []):
                self.ended("%s %r" % (tool, words), self.run([tool] + words), 100, b"", usage)

    def check_programs(self):
        for tool in ("fixcrio", "recordio"):
            cannot = b"%s: cannot start\n" % tool.encode()
            self.ended(tool + ": no such program", self.run([tool, "/nonexistent/program"]), 111, b"", cannot)
            self.ended(tool + ": no program of this name", self.run([tool, "no-such-program-here"]), 111, b"", cannot)
            self.ended(tool + ": an empty name", self.run([tool, ""]), 111, b"", cannot)
            self.ended(tool + ": a name like an option", self.run([tool, "-x"]), 111, b"", cannot)
            self.ended(tool + ": a folder", self.run([tool, "/"]), 111, b"", cannot)
            with tempfile.NamedTemporaryFile() as file:
                self.ended(tool + ": not executable", self.run([tool, file.name]), 111, b"", cannot)
        self.ended("exit 3", self.run(["fixcrio", "sh", "-c", "exit 3"]), 3, b"")
        self.ended("exit 255", self.run(["fixcrio", "sh", "-c", "exit 255"]), 255, b"")
        self.ended("a signal", self.run(["fixcrio", "sh", "-c", "kill -9 $$"]), 111, b"")
        self.ended("another signal", self.run(["fixcrio", "sh", "-c", "echo a; kill -15 $$"]), 111, b"a\r\n")
        big = b"line\n" * 200000
        self.ended("a program that reads nothing", self.run(["fixcrio", "true"], big), 0, b"")
        self.ended("one that reads a little", self.run(["fixcrio", "sh", "-c", "read a; echo $a"], b"a\n"), 0, b"a\r\n")
        first = self.run(["fixcrio", "head", "-c", "7"], big)
        self.ended("one that ends before its input", first, 0, b"line\r\nl")
        apart = self.run(["fixcrio", "sh", "-c", "echo out; echo err >&2"])
        self.ended("standard error is left alone", apart, 0, b"out\r\n", b"err\n")
        after = self.run(["fixcrio", "sh", "-c", "exec >&-; sleep 0.3; exit 5"])
        self.ended("one that closes its output before it ends", after, 5, b"")
        deep = self.run(["fixcrio", self.program, "fixcrio", "cat"], b"a\nb")
        self.ended("a fixcrio under another", deep, 0, b"a\r\nb")

    def check_what_programs_get(self):
        env = {"PATH": os.environ["PATH"], "A": "b=c", "EMPTY": "", "TCPREMOTEIP": "1.2.3.4"}
        ended = self.run(["fixcrio", "env"], env=dict(env, BAD=b"\xff"))
        lines = b"".join(b"%s=%s\r\n" % (name.encode(), env[name].encode()) for name in sorted(env))
        got = b"".join(sorted(lines_in(ended.stdout)))
        self.ended("variables", subprocess.CompletedProcess([], ended.returncode, got, ended.stderr), 0, lines)
        reading, writing = os.pipe()
        os.set_inheritable(writing, True)
        ended = self.run(["fixcrio", "sh", "-c", "for n in 0 1 2 3 4 5 6 7 8 9; do test -e /proc/$$/fd/$n && echo $n; done; :"], close_fds=False)
        os.close(reading)
        os.close(writing)
        self.ended("descriptors", ended, 0, b"0\r\n1\r\n2\r\n")
        piped = self.run(["fixcrio", "sh", "-c", "yes | head -n 1"])
        self.ended("signals at their defaults", piped, 0, b"y\r\n")

    def check_search(self):
        """A program is looked for along the tool's own PATH, whose folders are bytes."""
        with tempfile.TemporaryDirectory() as made:
            top = os.fsencode(made)
            folders = {name: os.path.join(top, name) for name in (b"first", b"caf\xe9", b"last", b"locked")}
            for name, folder in folders.items():
                os.mkdir(folder)
                path = os.path.join(folder, b"who")
                with open(path, "wb") as script:
                    script.write(b"#!/bin/sh\necho %s\n" % name[:3])
                os.chmod(path, 0o644 if name == b"locked" else 0o755)
            absent, file = os.path.join(top, b"absent\xff"), os.path.join(folders[b"first"], b"who")
            first, cafe, last, locked = (folders[name] for name in (b"first", b"caf\xe9", b"last", b"locked"))
            found = [
                ([first, last], b"fir"), ([cafe, last], b"caf"), ([b"/nonexistent", cafe], b"caf"), ([absent, last], b"las"), ([last, cafe], b"las"),
                ([locked, last], b"las"), ([file, last], b"las"), ([b"", last], b"fir"), ([last, b""], b"las"), ([b"/nonexistent", b""], b"fir"),
                ([b"caf\xe9", last], b"las"), ([b"../caf\xe9", last], b"caf"), ([b"x" * 5000, last], None),
            ]
            for path, told in found + [([locked], None), ([absent], None), ([file], None), ([b"/nonexistent"], None)]:
                for tool in ("fixcrio", "recordio"):
                    ended = self.run([tool, "who"], env={b"PATH": b":".join(path)}, cwd=first)
                    end = b"\r\n" if tool == "fixcrio" else b"\n"
                    wanted = (111, b"") if told is None else (0, told + end)
                    self.expect("%s along %r" % (tool, path), (ended.returncode, ended.stdout), wanted)
            for name in (b"./who", b"../last/who", cafe + b"/who"):
                ended = self.run(["fixcrio", name], env={b"PATH": last}, cwd=first)
                wanted = (100, b"") if name.startswith(cafe) else (0, (b"las" if b"last" in name else b"fir") + b"\r\n")
                self.expect("a path %r" % name, (ended.returncode, ended.stdout), wanted)
        self.ended("no PATH", self.run(["fixcrio", "echo", "a"], env={}), 0, b"a\r\n")
        zeroth = self.run(["fixcrio", "sh", "-c", "tr '\\0' '\\n' < /proc/$$/cmdline | head -n 1"])
        self.ended("argument 0", zeroth, 0, b"sh\r\n")

    @staticmethod
    def state_once(number, wanted):
        """The state of a process, once it is this one; or what it is after a long while."""
        end = time.monotonic() + LIMIT
        while True:
            with open("/proc/%d/stat" % number, "rb") as stat:
                state = stat.read().rsplit(b")", 1)[1].split()[0]
            if state == wanted or time.monotonic() > end:
                return state
            time.sleep(0.01)

    def check_stopped_program(self):
        """A program that is stopped, and told of, has not ended: the tool waits until it was killed."""
        with tempfile.TemporaryDirectory() as folder:
            program = small_programs.program("streams/traced_child.c", folder)
            for tool in ("fixcrio", "recordio"):
                how = {"stdin": subprocess.DEVNULL, "stdout": subprocess.PIPE, "stderr": subprocess.DEVNULL}
                with subprocess.Popen([self.program, tool, program], **how) as waiting:
                    number = int(waiting.stdout.readline())
                    state = self.state_once(number, b"t")
                    time.sleep(0.5)
                    early = waiting.poll()
                    os.kill(number, signal.SIGKILL)
                    code = waiting.wait(LIMIT)
                self.expect("%s with a stopped program" % tool, (early, state, code), (None, b"t", 111))

    def check_streams(self):
        for tool in ("addcr", "delcr"):
            name = tool.encode()
            with tempfile.TemporaryDirectory() as folder:
                descriptor = os.open(folder, os.O_RDONLY)
                self.ended(tool + ": a folder", self.run([tool], stdin=descriptor), 111, b"", name + b": read fault\n")
                os.close(descriptor)
            with open("/dev/full", "wb") as full:
                ended = self.run([tool], b"a\n", stdout=full)
                self.ended(tool + ": a full device", ended, 111, None, name + b": write fault\n")
            reading, writing = os.pipe()
            os.close(reading)
            ended = self.run([tool], b"a\n", stdout=writing)
            os.close(writing)
            self.ended(tool + ": a closed pipe", ended, 111, None, name + b": write fault\n")
            for close, fault in (("<&-", b": read fault\n"), (">&-", b": write fault\n")):
                shell = ["sh", "-c", 'echo a | { "$0" %s %s; }' % (tool, close), self.program]
                ended = subprocess.run(shell, stdout=subprocess.PIPE, stderr=subprocess.PIPE, timeout=LIMIT)
                self.ended(tool + ": without a descriptor", ended, 111, b"", name + fault)
        with tempfile.TemporaryDirectory() as folder:
            descriptor = os.open(folder, os.O_RDONLY)
            self.ended("fixcrio: a folder", self.run(["fixcrio", "cat"], stdin=descriptor), 0, b"")
            os.close(descriptor)
        reading, writing = os.pipe()
        os.close(reading)
        ended = self.run(["fixcrio", "sh", "-c", "read a; echo $a; exit 4"], b"a\n", stdout=writing)
        os.close(writing)
        self.ended("fixcrio: a closed pipe", ended, 4, None)
        shell = ["sh", "-c", 'echo a | { "$0" fixcrio sh -c "cat; exit 6" >&-; }', self.program]
        ended = subprocess.run(shell, stdout=subprocess.PIPE, stderr=subprocess.PIPE, timeout=LIMIT)
        self.ended("fixcrio: without standard output", ended, 6, b"")
        shell = ["sh", "-c", '"$0" fixcrio sh -c "cat; exit 7" <&-', self.program]
        ended = subprocess.run(shell, stdout=subprocess.PIPE, stderr=subprocess.PIPE, timeout=LIMIT)
        self.ended("fixcrio: without standard input", ended, 7, b"")
        self.check_without_descriptors()

    def check_without_descriptors(self):
        """What a program writes, or what is recorded, never comes to the program's own input."""
        for tool in ("fixcrio", "recordio"):
            for close in ("<&- >&-", "<&- 2>&-", ">&- 2>&-", "<&- >&- 2>&-"):
                with tempfile.TemporaryDirectory() as folder:
                    seen = os.path.join(folder, "seen")
                    shell = ["sh", "-c", 'sleep 0.4 | "$0" %s sh -c "echo answer; sleep 0.2; timeout 5 cat >$1" %s' % (tool, close), self.program, seen]
                    subprocess.run([word.replace("$1", seen) for word in shell[:4]], stdout=subprocess.DEVNULL, stderr=subprocess.DEVNULL, timeout=LIMIT)
                    with open(seen, "rb") as file:
                        self.expect("%s %s: what its program reads" % (tool, close), file.read(), b"")

    def check_records(self):
        for port, number in ((None, 0), ("1024", 1024), ("00025", 25), ("65535", 65535), ("65536", 0), ("000025", 0), ("", 0), ("x1", 0)):
            env = {"PATH": os.environ["PATH"]}
            if port is not None:
                env["TCPREMOTEPORT"] = port
            ended = self.run(["recordio", "sh", "-c", "read a; printf 'x\\ny'"], b"ab\n", env=env)
            ways = {b"<": [], b">": []}
            for line in lines_in(ended.stderr):
                ways.setdefault(line.split(b" ", 2)[1], []).append(line)
            wanted = {way: recorded(number, way, text) for way, text in ((b"<", b"ab\n"), (b">", b"x\ny"))}
            got = {way: b"".join(lines) for way, lines in ways.items()}
            self.expect("recordio at port %r" % port, (ended.returncode, ended.stdout, got), (0, b"x\ny", wanted))
        long = (b"a" * 256, b"a" * 300 + b"\n", b"x" * 255 + b"\n" + b"y" * 300, b"\n" * 300)
        for given in (b"", b"ab\ncd", b"\n\n", b"\0\xff\r\n") + long:
            ended = self.run(["recordio", "cat"], given)
            lines = lines_in(ended.stderr)
            got = tuple(b"".join(line for line in lines if line.startswith(mark)) for mark in (b"0 < ", b"0 > "))
            wanted = (recorded(0, b"<", given), recorded(0, b">", given))
            self.expect("recordio on %r" % given, (ended.returncode, ended.stdout, got), (0, given, wanted))
        # the second piece is written once the first one's record was seen
        words = [self.program, "recordio", "sh", "-c", "printf a; read line; printf 'b\\n'"]
        with subprocess.Popen(words, stdin=subprocess.PIPE, stdout=subprocess.PIPE, stderr=subprocess.PIPE) as typed:
            first = os.read(typed.stderr.fileno(), 100) if select.select([typed.stderr], [], [], 60)[0] else typed.kill()
            out, rest = typed.communicate(b"\n", timeout=LIMIT)
        said = b"".join(line for line in lines_in(rest) if line.startswith(b"0 > "))
        self.expect("recordio: two reads are two records", (out, first, said), (b"ab\n", b"0 > a+\n", b"0 > b \n0 > [EOF]\n"))

    def check_shared_records(self):
        """Two writers of one small pipe that is read slowly: no line of the other lands inside a record."""
        reading, writing = os.pipe()
        fcntl.fcntl(writing, fcntl.F_SETPIPE_SZ, 4096)
        text = (b"a" * 60 + b"\n") * 3000 + b"b" * 40000 + b"\n" * 3000
        got = []

        def read():
            with os.fdopen(reading, "rb", 0) as stream:
                while piece := stream.read(700):
                    got.append(piece)
                    time.sleep(0.0002)

        reader = threading.Thread(target=read)
        reader.start()
        tool = subprocess.Popen([self.program, "recordio", "cat"], stdin=subprocess.PIPE, stdout=subprocess.DEVNULL, stderr=writing)
        giver = threading.Thread(target=tool.communicate, args=(text,))
        giver.start()
        told = 0
        while giver.is_alive():
            os.write(writing, b"other %d\n" % told)
            told += 1
            time.sleep(0.0005)
        os.close(writing)
        for thread in (giver, reader):
            thread.join(LIMIT)
        lines = b"".join(got).splitlines(True)
        others = [line for line in lines if line.startswith(b"other")]
        wrong = [line for line in lines if not re.fullmatch(rb"other \d+\n|0 [<>] (a*|b*|\[EOF\])[ +]?\n", line)]
        is_right = not wrong and others == [b"other %d\n" % n for n in range(told)] and told >= 20
        self.holds("a pipe that recordio shares: lines of the other, and wrong ones", is_right, (told, wrong[:3]))

    def check_one_by_one(self):
        """A line comes out before the next one goes in."""
        for words, answers in ((["addcr"], (b"a\r\n", b"b\r\n")), (["fixcrio", "cat"], (b"a\r\n", b"b\r\n")), (["recordio", "cat"], (b"a\n", b"b\n"))):
            how = {"stdin": subprocess.PIPE, "stdout": subprocess.PIPE, "stderr": subprocess.PIPE}
            with subprocess.Popen([self.program] + words, **how) as typed:
                got = []
                for line in (b"a\n", b"b\n"):
                    typed.stdin.write(line)
                    typed.stdin.flush()
                    if not select.select([typed.stdout], [], [], 60)[0]:
                        typed.kill()
                        break
                    got.append(typed.stdout.readline())
                typed.communicate(timeout=LIMIT)
            self.expect("%s line by line" % words, (typed.returncode, tuple(got)), (0, answers))

    def check_end_with_the_program(self):
        """They end with their program, though their own input is still open: a client that waits for the end gets it."""
        for tool in ("fixcrio", "recordio"):
            for ends, code in (("exit 3", 3), ("read a; exit 4", 4), ("exec <&-; sleep 0.2; exit 5", 5), ("kill -9 $$", 111)):
                reading, writing = os.pipe()
                os.write(writing, b"a\nb\n")
                ended = self.run([tool, "sh", "-c", ends], stdin=reading)
                os.close(reading)
                os.close(writing)
                self.ended("%s ends with its program: %s" % (tool, ends), ended, code, b"", ended.stderr)
            with open("/dev/zero", "rb") as endless:
                ended = self.run([tool, "sh", "-c", "exit 3"], stdin=endless)
            self.ended("%s ends with its program: an input without end" % tool, ended, 3, b"", ended.stderr)
            here, there = socket.socketpair()
            here.settimeout(LIMIT)
            with subprocess.Popen([self.program, tool, "sh", "-c", "echo bye"], stdin=there, stdout=there, stderr=subprocess.DEVNULL) as tied:
                there.close()
                got = b""
                while True:
                    piece = here.recv(100)
                    got += piece
                    if not piece:
                        break
                wanted = (0, fixed(b"bye\n") if tool == "fixcrio" else b"bye\n")
                self.expect("%s over a socket that stays open" % tool, (tied.wait(LIMIT), got), wanted)
            here.close()

    def run_slowly(self, words, text, left=None):
        """Runs a tool over pipes of 4,096 bytes, which give late and take late. The descriptor `left`, if any, was left non-blocking. Answers
        the exit code, and what it wrote on the other two."""
        pipes = [os.pipe() for _ in range(3)]
        own = [pipes[0][0], pipes[1][1], pipes[2][1]]
        others = [pipes[0][1], pipes[1][0], pipes[2][0]]
        for descriptor in own:
            fcntl.fcntl(descriptor, fcntl.F_SETPIPE_SZ, 4096)
        if left is not None:
            os.set_blocking(own[left], False)
        with tempfile.TemporaryDirectory() as folder:
            process = subprocess.Popen([self.program] + words, cwd=folder, stdin=own[0], stdout=own[1], stderr=own[2], env={"PATH": os.environ["PATH"]})
            for descriptor in own:
                os.close(descriptor)
            got = {}

            def give():
                with contextlib.suppress(BrokenPipeError), os.fdopen(others[0], "wb", 0) as stream:
                    time.sleep(0.05)
                    for start in range(0, len(text), 50_000):
                        stream.write(text[start:start + 50_000])
                        time.sleep(0.01)

            def take(number):
                with os.fdopen(others[number], "rb", 0) as stream:
                    time.sleep(0.3)
                    got[number] = stream.readall()

            threads = [threading.Thread(target=give)] + [threading.Thread(target=take, args=(n,)) for n in (1, 2)]
            for thread in threads:
                thread.start()
            for thread in threads:
                thread.join(LIMIT)
            return process.wait(LIMIT), got[1], got[2]

    def check_non_blocking(self):
        """A standard descriptor that was left non-blocking is waited for: each tool does what it does over those that block."""
        text = b"".join(b"line %d\n" % n for n in range(10_000))
        rules = b"".join(b"10.%d.%d.:allow\n" % (n >> 8, n & 255) for n in range(10_000))
        script = b"|:deny\ninstall\n" + b"ask 10.0.0.1\n" * 1_000
        # a program that ends by itself: what it has not read is not recorded
        records = ["recordio", "sh", "-c", "cat >&2 && seq 2000"]
        for words, given in (
            (["addcr"], text), (["delcr"], text), (["fixcrio", "cat"], text), (records, b""), (["recordio", "cat"], b"a\n" * 3000),
            (["rulesim"], script), (["tcprules", "rules", "tmp"], rules), (["tcprules", "rules", "tmp"], rules + b"10.0.0.1:no\n"),
        ):
            wanted = self.run_slowly(words, given)
            # the two ways of a record are written by two threads, in any order
            ends = (wanted[0], wanted[1], sorted(wanted[2].split(b"\n")))
            for left in range(3):
                code, output, errors = self.run_slowly(words, given, left)
                is_same = (code, output, sorted(errors.split(b"\n"))) == ends
                self.holds("%s with descriptor %d left non-blocking" % (words, left), is_same, (code, len(output), len(errors), errors[:200]))

    def check_full_errors(self):
        """The line of a fault stands on a standard error that was left non-blocking and is full when it is written."""
        for words, line in (([], b"rulesim: line 1: bad command\n"), (["tcprulescheck"], b"tcprulescheck: usage: tcprulescheck cdb\n"), (["addcr", "x"], USAGE["addcr"])):
            taking, taken = os.pipe()
            os.set_blocking(taken, False)
            full = 0
            try:
                while True:
                    full += os.write(taken, b"x" * 4096)
            except BlockingIOError:
                pass
            with subprocess.Popen([self.program] + words, stdin=subprocess.PIPE, stdout=subprocess.DEVNULL, stderr=taken) as process:
                os.close(taken)
                with contextlib.suppress(BrokenPipeError):
                    process.stdin.write(b"no command\n")
                    process.stdin.close()
                time.sleep(0.2)
                with os.fdopen(taking, "rb") as stream:
                    found = stream.read()
                self.expect("%s with a full standard error" % words, (process.wait(LIMIT), found[:full], found[full:]), (100, b"x" * full, line))

    def check_ignored_children(self):
        """Where whoever started the tool ignores SIGCHLD, the system forgets how the program ended."""

        def ignore():
            signal.signal(signal.SIGCHLD, signal.SIG_IGN)

        ended = self.run(["fixcrio", "sh", "-c", "echo a; exit 3"], preexec_fn=ignore)
        self.ended("SIGCHLD ignored", ended, 111, b"a\r\n", b"fixcrio: device fault\n")
        ended = self.run(["addcr"], b"a\n", preexec_fn=ignore)
        self.ended("SIGCHLD ignored, and no program", ended, 0, b"a\r\n")

    @needs_proved(4)
    def check_big(self):
        text = big_text()
        self.ended("addcr on 64 MiB", self.run(["addcr"], text), 0, added(text))
        self.ended("delcr on 64 MiB", self.run(["delcr"], text), 0, deleted(text))
        self.ended("fixcrio on 64 MiB", self.run(["fixcrio", "cat"], text), 0, fixed(text))
        ended = self.run(["recordio", "cat"], text)
        # a piece ends where a read does, so a line may be cut: its parts are joined again
        ways = []
        for way in (b"<", b">"):
            mark = b"0 %s " % way
            lines = [line[len(mark):] for line in ended.stderr.split(b"\n") if line.startswith(mark)]
            joined = b"".join(line[:-1] + (b"\n" if line.endswith(b" ") else b"") for line in lines[:-1])
            ways.append(lines[-1] == b"[EOF]" and joined == text)
        self.expect("recordio on 64 MiB", (ended.returncode, ended.stdout == text, ways), (0, True, [True, True]))


def check(program, failures):
    """How many tests there were."""
    streams = Streams("stream_tools", failures, program)
    streams.check_words()
    streams.check_texts()
    streams.check_programs()
    streams.check_what_programs_get()
    streams.check_search()
    streams.check_stopped_program()
    streams.check_streams()
    streams.check_records()
    streams.check_shared_records()
    streams.check_one_by_one()
    streams.check_end_with_the_program()
    streams.check_non_blocking()
    streams.check_full_errors()
    streams.check_ignored_children()
    streams.check_big()
    return streams.tests
