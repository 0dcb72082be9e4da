"""What `tcpserver` holds for its connections: threads that are kept, and descriptors, threads, processes and memory
that it has before it accepts a client. If it lacks some of these, clients wait in the system's queue, and all are
served; a server that could serve nobody says so.
"""
import contextlib
import os
import queue
import re
import resource
import shutil
import socket
import subprocess
import threading
import time

from shared import failed_calls, server_runs
from shared.checks import TOP, needs_proved
from shared.clients import Together
from shared.server_runs import read_all

# the users from here on are nobody's
USERS = 50000


class Clients(Together):
    """Clients of a program that sends back what it gets, which connect all at once, and each of which has its answer for a while before it ends:
    what they got."""

    def __init__(self, server, count, hold):
        super().__init__(count)
        self.server = server
        self.hold = hold
        self.all_there = threading.Barrier(count)
        self.got = queue.SimpleQueue()

    def run(self):
        try:
            self.all_there.wait(server_runs.WAIT)
            with self.server.connect() as client:
                self.got.put(self.talk(client))
        except OSError as fault:
            self.got.put(repr(fault).encode())

    def talk(self, client):
        client.sendall(b"hi\n")
        answer = client.recv(3)
        time.sleep(self.hold)
        client.shutdown(socket.SHUT_WR)
        return answer + read_all(client)

    def all(self):
        self.start().finish()
        got = [self.got.get() for _ in self.threads]
        return {answer: got.count(answer) for answer in got}


class ShortClients(Clients):
    """Clients that send three bytes some time after they connected, and their end right behind them."""

    def talk(self, client):
        time.sleep(self.hold)
        client.sendall(b"hi\n")
        client.shutdown(socket.SHUT_WR)
        return read_all(client)


def limited(suite, limits):
    """The command of the server under these limits of prlimit."""
    return ["prlimit"] + ["--%s=%d" % limit for limit in limits] + suite.command


def all_served(suite, name, limits, connections, clients, hold, **how):
    """All of so many clients are served under these limits, however few at once."""
    command = limited(suite, limits) if limits else suite.command
    with suite.start(["-v", "-c", str(connections)] + server_runs.QUIET, [how.pop("program", shutil.which("cat"))], command=command, **how) as server:
        for _ in range(2):
            suite.expect("clients under " + name, Clients(server, clients, hold).all(), {b"hi\n": clients})
        suite.expect("short clients under " + name, ShortClients(server, clients, hold).all(), {b"hi\n": clients})
        server.idle()
        faults = [line for line in server.lines() if line.startswith(("drop", "start", "out of", "retired"))]
        suite.expect("lines of faults under " + name, faults, [])
        suite.audit(name, server)


def descriptors(suite):
    """More clients than there are descriptors for."""
    before = resource.getrlimit(resource.RLIMIT_NOFILE)
    resource.setrlimit(resource.RLIMIT_NOFILE, (min(4096, before[1]), before[1]))
    all_served(suite, "1024 descriptors", [("nofile", 1024)], 450, 420, 0.5)
    for number in (14, 20, 33):
        all_served(suite, "%d descriptors" % number, [("nofile", number)], 40, 30, 0.02)
    resource.setrlimit(resource.RLIMIT_NOFILE, before)


@needs_proved(35)
def memory(suite):
    """Less memory, or less address space, than all clients take at once: the C library reserves 64 MiB for a thread where it can."""
    little = [(kind, 10000000) for kind in ("data", "stack", "as")]
    all_served(suite, "softlimit -m 10000000", little, 40, 20, 0.1, env={"PATH": os.environ["PATH"]})
    for space in (20000000, 100000000, 200000000, 300000000):
        all_served(suite, "softlimit -a %d" % space, [("as", space)], 40, 40, 0.1)


@needs_proved(56)
def data(suite):
    """Limits of data alone. What a look for memory asked for must not stay with one thread: programs would lack it for good."""
    for limit in range(3_300_000, 4_900_000, 200_000):
        all_served(suite, "ulimit -d, %d bytes" % limit, [("data", limit)], 40, 40, 0.05, env={"PATH": os.environ["PATH"]})


def documented(handed):
    """The lowest limits of docs/COOKBOOK.md, in bytes: of memory in all and of data, for one client and for forty at once."""
    with open(os.path.join(TOP, "docs", "COOKBOOK.md"), encoding="utf-8") as file:
        rows = re.findall(r"^\| [^|]* \| ([\d,]+) \| ([\d,]+) \|$", file.read(), re.M)
    one, many = rows[:2] if handed else rows[2:4]
    return [(row, number, clients) for numbers, clients in ((one, 1), (many, 40)) for row, number in zip(
        (("as", "data", "stack"), ("data",)), (int(number.replace(",", "")) for number in numbers))]


def told_limits(handed):
    """What a server of the source says it needs at least, in bytes: of address space, and of data."""
    with open(os.path.join(TOP, "crates", "server_parts", "src", "limits.rt"), encoding="utf-8") as file:
        numbers = re.findall(r"^const (\w+): (?:u64|usize) = ([\d_]+)(?: \* ([\d_]+))?;$", file.read(), re.M)
    known = {name: int(value) * int(times or 1) for name, value, times in numbers}
    connection = known["TEXTS"] * known["PAGE"] + known["START"] + (0 if handed else known["BUFFERS"])
    return [known[name] + connection for name in ("ADDRESSES_ALONE", "DATA_ALONE")]


# the cookbook's limits are rounded up to so many bytes
ROUND = 100_000

# a server that ends since it has too little memory does so within so many seconds
LONGEST_START = 5


@needs_proved(9)
def lowest_limits(suite):
    """The lowest limits that the cookbook tells, and an eighth more: so many clients are served at once. With a sixteenth less the server ends and
    says so, or goes on; with much less it has no memory for its words, or the loader none for it."""
    lowest = [number for _, number, count in documented(suite.handed) if count == 1]
    rounded = [-(-number // ROUND) * ROUND for number in told_limits(suite.handed)]
    suite.expect("the cookbook has what a server says it needs", lowest, rounded)
    for kinds, number, count in documented(suite.handed):
        name = "%d bytes of %s" % (number, " and ".join(kinds))
        options, how = ["-v", "-c", "40"], {"env": {"PATH": os.environ["PATH"]}}
        with suite.start(options, ["cat"], command=limited(suite, [(kind, number * 9 // 8) for kind in kinds]), **how) as server:
            clients = [server.connect() for _ in range(count)]
            for client in clients:
                client.sendall(b"hi\n")
            suite.expect("%d at once with %s" % (count, name), [client.recv(3) for client in clients], [b"hi\n"] * count)
            for client in clients:
                client.close()
        if count == 1:
            less = number * 15 // 16
            words = limited(suite, [(kind, less) for kind in kinds]) + options + ["127.0.0.1", "0", "cat"]
            began = subprocess.Popen(words, stderr=subprocess.PIPE, **how)
            with contextlib.suppress(subprocess.TimeoutExpired):
                began.wait(timeout=LONGEST_START)
            goes_on = began.poll() is None
            began.kill()
            told = began.communicate()[1].decode().splitlines()[-2:]
            is_ended = (began.returncode, told[:1]) == (111, ["tcpserver: out of memory"])
            suite.expect("it goes on or ends with a sixteenth less than " + name, goes_on or is_ended, True)
            cause = re.fullmatch(r"tcpserver: cause: (data|address space): limited to (\d+) bytes, at least (\d+) needed", (told or [""])[-1])
            is_told = cause and int(cause[2]) == less < int(cause[3]) <= number
            suite.expect("which limit is a sixteenth less than %s, and that more is needed" % name, goes_on or is_told, True)


@needs_proved(7)
def common_limit(suite):
    """`softlimit -m 4000000`, which is common for 0.88: forty clients at once are all served, however few at a time."""
    little = [(kind, 4000000) for kind in ("data", "stack", "as")]
    all_served(suite, "softlimit -m 4000000", little, 40, 40, 0.02, env={"PATH": os.environ["PATH"]})


def as_user(suite, limit):
    """How a program is started as another user, with this limit of processes: its folder, and what makes it that user."""
    # of its own for each process of the tests: the system counts the processes of a user, and groups run side by side
    user = USERS + os.getpid() % 10000
    os.chmod(suite.folder, 0o755)
    program = shutil.copy(suite.program, suite.path("for_user"))
    os.chmod(program, 0o755)

    def change():
        resource.setrlimit(resource.RLIMIT_NPROC, (limit, limit))
        os.setgroups([])
        os.setgid(user)
        os.setuid(user)

    return [program] + suite.command[1:], change


def processes(suite):
    """Fewer processes and threads than all clients take at once, for a user whom the system counts."""
    if os.getuid() != 0:
        return
    for limit in (6, 12, 25):
        command, change = as_user(suite, limit)
        with suite.start(["-v", "-c", "40"] + server_runs.QUIET, [shutil.which("cat")], command=command, preexec_fn=change) as server:
            for _ in range(2):
                suite.expect("clients with %d processes" % limit, Clients(server, 30, 0.05).all(), {b"hi\n": 30})
            server.idle()
            suite.audit("%d processes" % limit, server)


def nobody(suite):
    """A server that could serve nobody says so at its start."""
    words = suite.command[1:] + ["-v", "127.0.0.1", "0", "true"]
    run = failed_calls.Library(suite.folder).run("pthread_create", "EAGAIN", 1, failed_calls.ALL)
    ended = subprocess.run([suite.program] + words, stderr=subprocess.PIPE, env=dict(os.environ, **run.environment), timeout=server_runs.WAIT)
    told = [line for line in ended.stderr.decode().splitlines() if "status" not in line]
    suite.expect("a server without threads", (ended.returncode, told), (111, ["tcpserver: out of memory"]))
    few = 9 if suite.handed else 10
    ended = subprocess.run(["prlimit", "--nofile=%d" % (few - 1), suite.program] + words, stderr=subprocess.PIPE, timeout=server_runs.WAIT)
    told = [line for line in ended.stderr.decode().splitlines() if "status" not in line and "cause" not in line]
    suite.holds("a server without descriptors", ended.returncode == 111 and told in (["tcpserver: accept fault"], ["tcpserver: cannot listen"]), told)
    causes = [line for line in ended.stderr.decode().splitlines() if "cause" in line]
    suite.holds("its cause", len(causes) == 1 and causes[0].endswith(": Too many open files"), causes)
    if os.getuid() == 0:
        command, change = as_user(suite, 1)
        ended = subprocess.run(command + words[1:], stderr=subprocess.PIPE, preexec_fn=change, timeout=server_runs.WAIT)
        told = [line for line in ended.stderr.decode().splitlines() if "status" not in line]
        suite.expect("a server without processes", (ended.returncode, told), (111, ["tcpserver: out of memory"]))


def refused_threads(suite):
    """A thread that the system refuses once, beside a connection that stays, keeps no other client waiting."""
    library = failed_calls.Library(suite.folder)
    for number in range(1, 11):
        run = library.run("pthread_create", "EAGAIN", number, number)
        variables = dict(run.environment, PATH=os.environ["PATH"])
        with suite.start(["-v", "-c", "3"], ["cat"], env=variables) as server, server.connect("127.0.0.2") as held:
            held.sendall(b"b")
            suite.expect("one that stays, thread %d refused" % number, held.recv(1), b"b")
            suite.expect("two beside it, thread %d refused" % number, [server.ask(b"a\n") for _ in range(2)], [b"a\n"] * 2)
        run.end()


def kept_threads(suite):
    """Threads are made when more connections come at once than there are threads for, and kept: one after another takes none. Where many are served
    at once, each has a thread that ends with it. All end with the server."""
    # the first thread, and one that is a process in reserve
    others = 2
    with suite.start(["-v", "-c", "100", "-k", "321"] + server_runs.QUIET, [shutil.which("cat")]) as server:
        def talking(count):
            # (each has its answer before the next one comes, so that few begin at once)
            clients = []
            for _ in range(count):
                clients.append(server.connect())
                clients[-1].sendall(b"x")
                suite.expect("%d at once" % count, clients[-1].recv(1), b"x")
            return clients

        server_runs.wait_until("the first threads", lambda: server.threads() == others + 1)
        for _ in range(200):
            suite.expect("one after another", server.ask(b"a\n"), b"a\n")
        # the next client may come before the last connection is told
        suite.holds("threads after 200 connections", server.threads() <= others + 12, server.threads())
        # each of thirty has one, and some begin connections: more where the machine has other work
        clients = talking(30)
        least = others + 31
        server_runs.wait_until("threads of thirty at once", lambda: server.threads() >= least)
        kept = server.threads()
        suite.holds("threads of thirty at once", kept <= least + 20, kept)
        for client in clients:
            client.close()
        server_runs.wait_until("their ends", lambda: server.live() == 0)
        server_runs.wait_until("threads after them", lambda: kept - 1 <= server.threads() <= kept + 2)
        clients = talking(90)
        server_runs.wait_until("threads of ninety at once", lambda: server.threads() >= others + 91)
        for client in clients:
            client.close()
        server_runs.wait_until("their ends", lambda: server.live() == 0)
        server_runs.wait_until("the ends of threads", lambda: server.threads() <= others + 60)
        suite.expect("the last one", server.ask(b"a\n"), b"a\n")
        suite.expect("its end", server.end(), 0)
        suite.audit("kept threads", server)


def no_trace(suite):
    """A thread that is kept has nothing of the connection before: a chain of wrappers begins anew, and no byte stays in a buffer."""
    if suite.handed:
        return
    with suite.start(["-v", "-c", "1", "-w", "addcr"] + server_runs.QUIET, [shutil.which("cat")]) as server:
        for _ in range(3):
            suite.expect("a text that ends in a carriage return", server.ask(b"text\r"), b"text\r")
            suite.expect("a line feed after it", server.ask(b"\n"), b"\r\n")
            with server.connect() as client:
                client.sendall(b"x" * 200000)
                server_runs.reset(client)
            suite.expect("a client after one that was reset", server.ask(b"y\n"), b"y\r\n")


CHECKS = [descriptors, memory, data, lowest_limits, processes, nobody, refused_threads, kept_threads, no_trace]
HANDED = [descriptors, memory, data, lowest_limits, common_limit, processes, nobody, refused_threads, kept_threads]
COMMON = []
