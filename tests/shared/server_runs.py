"""What the tests of the server share: a server that runs, its clients, its log, and a group of checks.

Each group is a module with a list CHECKS of functions that take a Suite. Its list COMMON names the checks that djb's
tcpserver passes too. A list HANDED, if there is one, names the checks that run a second time with a server that hands
connections over (`-s`). All other servers pass the bytes on.
"""
import os
import random
import re
import select
import signal
import socket
import struct
import subprocess
import tempfile
import time

from shared import log_forms, small_programs
from shared.checks import Checks

ORIGINAL = "/usr/bin/tcpserver"
# Limits of time find what hangs, and not what is slow: how long one check may take (some seconds where the machine is idle), and how long a client,
# a line of the log or the end of a program is waited for (some milliseconds there), in seconds.
CHECK_TIME = 3600
WAIT = 300
# how long a log is looked at that may have come to its end
QUIET_TIME = 2
# what keeps the original from asking name servers and peers, and lets enough clients wait; here it has no effect but a name
QUIET = ["-R", "-H", "-l", "0", "-b", "1000"]
LIVE = re.compile(rb"^tcpserver: status: (\d+)/\d+$", re.M)


class Amiss(Exception):
    """What a check can't go on after."""


def wait_until(what, true, seconds=WAIT, moves=lambda: None):
    """Waits until this is true. The time begins anew as often as `moves` gives something else."""
    end, seen = time.monotonic() + seconds, moves()
    while True:
        found = true()
        if found:
            return found
        if moves() != seen:
            end, seen = time.monotonic() + seconds, moves()
        if time.monotonic() > end:
            raise Amiss("waited %s seconds for %s" % (seconds, what))
        time.sleep(0.005)


def read_all(connection):
    """What comes until the other end closes, or resets."""
    pieces = []
    while True:
        try:
            piece = connection.recv(65536)
        except ConnectionError:
            piece = b""
        if not piece:
            return b"".join(pieces)
        pieces.append(piece)


def finish(clients):
    """Ends what each of these clients sends, and closes them: what each gets until then."""
    for client in clients:
        client.shutdown(socket.SHUT_WR)
    rest = [read_all(client) for client in clients]
    for client in clients:
        client.close()
    return rest


def reset(connection):
    """Lets a connection vanish: the other end gets a reset, and no end of a stream."""
    connection.setsockopt(socket.SOL_SOCKET, socket.SO_LINGER, struct.pack("ii", 1, 0))
    connection.close()


class Server:
    """A server that runs, with its log in a file. It listens on a port that it chose itself; one that `may_end` may have none, as it ended."""

    def __init__(self, suite, options, program, host="127.0.0.1", port="0", may_end=False, command=None, **how):
        self.suite = suite
        self.host = "127.0.0.1" if host == "0" else host
        self.path = suite.last_log = tempfile.mktemp(prefix="log-", dir=suite.folder)
        words = (command or suite.command) + ["-1"] + list(options) + [host, str(port)] + list(program)
        how.setdefault("cwd", suite.folder)
        with open(self.path, "wb") as log:
            self.process = subprocess.Popen(words, stdin=subprocess.DEVNULL, stdout=subprocess.PIPE, stderr=log, **how)
        suite.running.append(self.process)
        self.port = self.read_port(may_end)

    def read_port(self, may_end):
        ready, _, _ = select.select([self.process.stdout], [], [], WAIT)
        line = self.process.stdout.readline() if ready else b""
        if ready and may_end and not line.endswith(b"\n"):
            return None
        if not re.fullmatch(rb"\d+\n", line):
            raise Amiss("no port but %r, and the log %r" % (line, self.log()))
        return int(line)

    def __enter__(self):
        return self

    def __exit__(self, *_):
        self.stop()

    def stop(self):
        """Ends the server, however it is."""
        if self.process.poll() is None:
            self.process.terminate()
            try:
                self.process.wait(2)
            except subprocess.TimeoutExpired:
                self.process.kill()
                self.process.wait(WAIT)
        self.process.stdout.close()

    def end(self):
        """Waits for the server's own end: its exit code."""
        try:
            return self.process.wait(WAIT)
        except subprocess.TimeoutExpired:
            raise Amiss("the server did not end; its log: %r" % self.log()[-500:])

    def connect(self, source=None, host=None):
        """A client's connection, from this address."""
        connection = socket.socket()
        connection.settimeout(WAIT)
        if source:
            # the port is chosen when it connects, so that one address may have many
            connection.setsockopt(socket.IPPROTO_IP, getattr(socket, "IP_BIND_ADDRESS_NO_PORT", 24), 1)
            connection.bind((source, 0))
        connection.connect((host or self.host, self.port))
        return connection

    def try_to_connect(self):
        """A client's connection, or a socket that is none where the server has ended or listens no more."""
        if self.port:
            try:
                return self.connect()
            except (ConnectionRefusedError, ConnectionResetError):
                pass
        return socket.socket()

    def talk(self, text=b"", source=None, host=None, hold=0):
        """Sends a text and, after some seconds, the end of it: the port of this client, and what comes back."""
        with self.connect(source, host) as connection:
            port = connection.getsockname()[1]
            time.sleep(hold)
            try:
                connection.sendall(text)
                connection.shutdown(socket.SHUT_WR)
            except OSError:
                pass
            return port, read_all(connection)

    def ask(self, text=b"", **how):
        """The same: what comes back."""
        return self.talk(text, **how)[1]

    def log(self):
        with open(self.path, "rb") as log:
            return log.read()

    def all_lines(self):
        """The lines of the log, without the server's name in front."""
        lines = self.log().decode("latin-1").split("\n")
        return [line[len("tcpserver: "):] if line.startswith("tcpserver: ") else line for line in (lines if lines[-1] else lines[:-1])]

    def lines(self):
        """The same, without those that tell no event: of causes, of where it listens, and of processes, under -v."""
        return [line for line in self.all_lines() if not log_forms.BESIDE.fullmatch(line)]

    def wait_line(self, form, times=1, seconds=WAIT):
        """Waits until so many lines of the log have this form."""

        def found():
            return sum(re.fullmatch(form, line) is not None for line in self.lines()) >= times

        try:
            wait_until("a line", found, seconds)
        except Amiss:
            raise Amiss("no line like %r in %r" % (form, self.log()[-600:]))

    def written(self):
        """How many bytes of the log are written."""
        return os.path.getsize(self.path)

    def live(self):
        """How many connections the last status line has."""
        log = self.log()
        log = log[:log.rfind(b"\n") + 1]
        numbers = LIVE.findall(log[-20000:]) or LIVE.findall(log)
        return int(numbers[-1]) if numbers else 0

    def idle(self, seconds=WAIT):
        """Waits until no connection is alive."""
        try:
            wait_until("the end of each connection", lambda: self.live() == 0, seconds, self.written)
        except Amiss:
            raise Amiss("%d connections are still alive: %r" % (self.live(), self.log()[-600:]))

    def settle(self, seen):
        """Waits for the lines of a connection behind those that were seen: a client sees its end before the server has told it, where it is handed
        over even before the server knows of it. A line may be left out: then until no program is left, and nothing has been written for a while."""
        before, since = None, time.monotonic()
        while time.monotonic() < since + QUIET_TIME:
            lines = self.lines()
            if len(lines) > max(seen, 1) and re.match("status: 0/|out of memory", lines[-1]):
                return
            now = self.written(), children_of(self.process.pid)
            if now != before or now[1]:
                before, since = now, time.monotonic()
            time.sleep(0.002)

    def descriptors(self):
        return len(os.listdir("/proc/%d/fd" % self.process.pid))

    def processor_time(self):
        """The seconds of a processor that the server has used."""
        with open("/proc/%d/stat" % self.process.pid) as file:
            numbers = file.read().rpartition(")")[2].split()
        return (int(numbers[11]) + int(numbers[12])) / os.sysconf("SC_CLK_TCK")

    def memory(self):
        """The memory that the server has, in KiB."""
        with open("/proc/%d/status" % self.process.pid) as file:
            return int(re.search(r"VmRSS:\s+(\d+)", file.read()).group(1))

    def threads(self):
        return len(os.listdir("/proc/%d/task" % self.process.pid))

    def suspend(self):
        """Stops the server for now, and waits until each of its threads has stopped: until then one may still accept."""
        os.kill(self.process.pid, signal.SIGSTOP)
        wait_until("threads that stop", lambda: set(self.states()) == {"T"}, WAIT)

    def states(self):
        """How each thread is, as /proc has it."""
        for number in os.listdir("/proc/%d/task" % self.process.pid):
            with open("/proc/%d/task/%s/stat" % (self.process.pid, number)) as file:
                yield file.read().rpartition(")")[2].split()[0]


def children_of(number):
    """The processes whose parent has this number, those that ended and were not waited for among them."""
    found = 0
    for name in os.listdir("/proc"):
        if name.isdigit():
            try:
                with open("/proc/%s/stat" % name) as file:
                    found += file.read().rpartition(")")[2].split()[1] == str(number)
            except OSError:
                pass
    return found


def only_child(number):
    """The one child of a process."""
    with open("/proc/%d/task/%d/children" % (number, number), encoding="ascii") as file:
        return int(file.read())


def free_port():
    """A port of this machine that nobody has. It is below those that the system gives to clients, so that no client of another group gets it meanwhile."""
    with open("/proc/sys/net/ipv4/ip_local_port_range", encoding="ascii") as file:
        clients = int(file.read().split()[0])
    while True:
        port = random.randrange(min(10000, clients - 1), clients)
        with socket.socket() as taken:
            try:
                taken.bind(("0.0.0.0", port))
                return port
            except OSError:
                continue


def listens(port):
    """Whether somebody listens at a port; no connection is made for that."""
    with open("/proc/net/tcp", encoding="ascii") as file:
        return re.search(r": [0-9A-F]{8}:%04X 00000000:0000 0A " % port, file.read()) is not None


class Suite(Checks):
    """A group of checks of one server, and the folder in which they are made."""

    def __init__(self, group, failures, program, folder, original=False, handed=False):
        super().__init__(group, failures)
        self.program = program
        self.original = original
        # whether programs have the connection itself
        self.handed = handed or original
        self.command = [program] if original else [program, "tcpserver"] + (["-s"] if handed else [])
        self.folder = folder
        self.running = []
        # the path of the log of the last server
        self.last_log = None

    def start(self, options, program, **how):
        return Server(self, options, program, **how)

    def run(self, words, **how):
        """Runs a server that ends by itself: its exit code, output and errors."""
        how.setdefault("cwd", self.folder)
        process = subprocess.Popen(self.command + words, stdin=subprocess.DEVNULL, stdout=subprocess.PIPE, stderr=subprocess.PIPE, **how)
        self.running.append(process)
        try:
            output, errors = process.communicate(timeout=WAIT)
        except subprocess.TimeoutExpired:
            process.kill()
            output, errors = process.communicate()
            return "still running", output, errors
        return process.returncode, output, errors

    def compiled(self, source):
        """The path of a small program of the tests, which is compiled where it is not yet."""
        return small_programs.program(source, self.folder)

    def linked(self, name="tcpserver"):
        """The path of a link to the program."""
        path = self.path(name)
        if not os.path.lexists(path):
            os.symlink(self.program, path)
        return path

    def by_name(self):
        """The command of a server that is called as `tcpserver`, and has its connections as the others."""
        return [self.linked(), "-s" if self.handed else "-S"]

    def path(self, name, text=None):
        """The path of a file in the folder of this group; with a text the file is made."""
        path = os.path.join(self.folder, name)
        if text is not None:
            with open(path, "wb") as file:
                file.write(text if isinstance(text, bytes) else text.encode())
        return path

    def install(self, text, name="rules.cdb"):
        """Installs rules: the path of the rules file."""
        path = self.path(name)
        words = ["tcprules"] if self.original else [self.program, "tcprules"]
        given = text if isinstance(text, bytes) else text.encode()
        subprocess.run(words + [path, path + ".tmp"], input=given, check=True, timeout=WAIT)
        return path

    def child(self):
        """The program that counts those that run at once, and a new table for it."""
        program = self.compiled("shared/server_child.c")
        table = tempfile.mktemp(prefix="table-", dir=self.folder)
        with open(table, "wb") as file:
            file.truncate(4 * (4 + 2 * 65536))
        return program, table

    def audit(self, name, server, per=None):
        """The log of a server, read as events, has to be legal, and `rulesim` has to give the numbers of its last status line."""
        if self.original:
            return None
        events = log_forms.events_of(server.log(), per)
        self.expect(name + ": what does not fit in the log", events.faults, [])
        words = [self.program, "rulesim"]
        ended = subprocess.run(words, input=events.script().encode(), stdout=subprocess.PIPE, stderr=subprocess.STDOUT, timeout=WAIT)
        self.expect(name + ": replay", (ended.returncode, ended.stdout.decode()), (0, events.report()))
        self.expect(name + ": the last status", server.live(), events.last_live)
        return events

    def end_running(self):
        """Ends what a check left running: processes of its own alone."""
        for process in self.running:
            if process.poll() is None:
                process.kill()
                process.wait(WAIT)
            if process.stdout:
                process.stdout.close()
        self.running = []


def counted(table):
    """The four numbers of a table: those that run, the most at once, the most from one address, and all."""
    with open(table, "rb") as file:
        return struct.unpack("<IIII", file.read(16))


def late(_signal, _frame):
    raise Amiss("a check took more than %d seconds" % CHECK_TIME)


def run_check(suite, check):
    """Runs one check within its time; whatever it meets is a failure of its own."""
    name, group = check.__name__.replace("_", " "), suite.group
    suite.group = "%s.%s" % (group, check.__name__)
    before = signal.signal(signal.SIGALRM, late)
    signal.setitimer(signal.ITIMER_REAL, CHECK_TIME)
    try:
        check(suite)
    except (Amiss, OSError, ValueError, LookupError, subprocess.SubprocessError) as fault:
        suite.tests += 1
        suite.fail(name, "%s: %s" % (type(fault).__name__, fault))
    finally:
        signal.setitimer(signal.ITIMER_REAL, 0)
        signal.signal(signal.SIGALRM, before)
        suite.group = group
        suite.end_running()


def place_of_files():
    """A folder in memory, where there is one from which programs may be run, so that no check waits for a disk."""
    shared = "/dev/shm"
    if os.access(shared, os.W_OK) and not os.statvfs(shared).f_flag & os.ST_NOEXEC:
        return shared
    return None


def run_checks(name, checks, program, failures, original=False, handed=False):
    """Runs some checks in a folder of their own, and gives their number."""
    with tempfile.TemporaryDirectory(dir=place_of_files()) as folder:
        os.chmod(folder, 0o755)
        suite = Suite(name, failures, program, folder, original, handed)
        for check in checks:
            run_check(suite, check)
    return suite.tests
