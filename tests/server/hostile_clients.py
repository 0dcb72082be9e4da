"""Bad clients and bad programs: resets at each stage, clients that are slow or never read, thousands in a burst, a full
queue; programs that crash, stop, close what they have, leave others behind or write on when their client is gone.
Honest clients beside them get all data, each place comes back, and the log is legal.
"""
import os
import random
import resource
import select
import signal
import socket
import time

from shared import log_forms, server_runs
from shared.clients import Pool
from shared.server_runs import read_all, reset

STORM = 900
STORM_CLIENTS = 32
BURST = 5000
# more than the queue of a listening socket takes
QUEUED = 400
BIG = 10000000
# what a program is told to do by its client's first line, and what an honest client gets then
ORDERS = {
    b"echo": (b"echo\n", 'echo "$a"'),
    b"cat": (None, "exec cat"),
    b"crash": (b"", "kill -SEGV $$"),
    b"killed": (b"", "kill -KILL $$"),
    b"code": (b"", "exit 42"),
    b"quiet": (b"", "exec >&-; sleep 0.2"),
    b"deaf": (b"out\n", "exec <&-; sleep 0.1; echo out"),
    b"neither": (b"", "exec <&- >&-; sleep 0.1; exit 3"),
    b"flood": (b"\0" * 1000000, "exec head -c 1000000 /dev/zero"),
    b"heedless": (b"a\nb\n", "trap '' PIPE; sleep 0.1; echo a; sleep 0.05; echo b; exit 7"),
    b"behind": (b"kept\n", "(sleep 0.2) & echo kept"),
    b"stops": (b"woke\n", "(sleep 0.2; kill -CONT $$) & kill -STOP $$; echo woke"),
    b"talks": (b"told\n", "echo of the program >&2; echo told"),
}
PROGRAM = ["sh", "-c", "read a; case $a in " + " ".join("%s) %s;;" % (order.decode(), what) for order, (_, what) in ORDERS.items()) + " esac"]


def seed():
    return os.environ.get("HOSTILE_SEED", "1")


class Storm(Pool):
    """Clients of every kind at once; what is amiss with the honest ones."""

    def __init__(self, server, number, ends):
        super().__init__(server, range(number), STORM_CLIENTS)
        self.ends = ends
        self.amiss = []
        self.honest = 0

    def serve(self, place):
        series = random.Random("%s %d" % (seed(), place))
        order = series.choice(list(ORDERS))
        client = self.server.connect("127.3.%d.%d" % (place % 9, place % 200 + 1))
        try:
            if place % 3 == 0:
                self.honest += 1
                self.ask(client, order, series)
            else:
                self.misbehave(client, order, series)
        except OSError as fault:
            if place % 3 == 0:
                self.amiss.append((order, repr(fault)))
        finally:
            client.close()

    def ask(self, client, order, series):
        """An honest client, whole or byte by byte."""
        text = order + b"\n" + (b"x" * 5000 if order == b"cat" else b"")
        if series.randrange(4) == 0 and len(text) < 100:
            for byte in text:
                client.sendall(bytes([byte]))
                time.sleep(0.01)
        else:
            client.sendall(text)
        client.shutdown(socket.SHUT_WR)
        wanted = ORDERS[order][0].replace(b"\n", self.ends) if order != b"cat" else b"x" * 5000
        got = read_all(client)
        if got != wanted:
            self.amiss.append((order, got[:100], len(got)))

    @staticmethod
    def misbehave(client, order, series):
        """One of the ways to be a bad client."""
        way = series.randrange(9)
        if way == 0:
            reset(client)
        elif way == 1:
            client.sendall(order[:2])
            reset(client)
        elif way == 2:
            client.sendall(order + b"\n")
            reset(client)
        elif way == 3:
            client.sendall(order + b"\n")
            time.sleep(series.random() * 0.3)
            reset(client)
        elif way == 4:
            client.sendall(order + b"\n")
            client.settimeout(1)
            client.recv(1)
            reset(client)
        elif way == 5:
            time.sleep(series.random() * 0.3)
        elif way == 6:
            client.settimeout(0.3)
            client.sendall(order + b"\n" + b"y" * 3000000)
            reset(client)
        elif way == 7:
            client.sendall(order + b"\n")
            client.shutdown(socket.SHUT_RDWR)
            time.sleep(0.05)
        else:
            client.sendall(order + b"\n")
            client.shutdown(socket.SHUT_WR)
            time.sleep(series.random() * 0.2)
            reset(client)


def storm(suite):
    """Nine hundred clients, two of three of them bad, and programs of each kind."""
    for options in ([], ["-w", "recordio,delcr,addcr"]):
        if options and suite.handed:
            continue
        ends = b"\r\n" if options else b"\n"
        number = STORM // 3 if options else STORM
        with suite.start(["-v", "-c", "32"] + options + server_runs.QUIET, PROGRAM) as server:
            clients = Storm(server, number, ends).start().finish()
            suite.expect("honest clients of a storm under %r" % options, clients.amiss, [])
            suite.holds("there were honest ones", clients.honest == number // 3, clients.honest)
            server.idle()
            suite.expect("after the storm", server.ask(b"echo\n"), b"echo" + ends)
            server.idle()
            events = suite.audit("a storm under %r" % options, server)
            if events:
                suite.holds("each was let in", number - 300 <= events.admitted <= number + 1, events.admitted)


def stages(suite):
    """A client resets at each stage of its connection, a few times at each; the next one is served, and its place comes back."""
    rules = suite.install("127.0.0.9:deny\n:allow\n")
    big = "h" * 100000
    waits = 'echo w; read b; echo "$b"; sleep 0.1; echo c'
    program = ["sh", "-c", 'read a; case "$a" in big) exec head -c 3000000 /dev/zero;; wait) %s;; *) echo "$a";; esac' % waits]

    def greeted(client):
        client.recv(100)

    def told(client):
        client.sendall(b"wait\n")

    def answered(client):
        told(client)
        piece = client.recv(65536)
        # one that is denied comes to its end
        while piece and not piece.endswith(b"w\n"):
            piece = client.recv(65536)

    def half_closed(client):
        answered(client)
        client.shutdown(socket.SHUT_WR)

    def ending(client):
        half_closed(client)
        time.sleep(0.12)

    def in_output(client):
        client.sendall(b"big\n")
        client.recv(150000)

    def unread_output(client):
        client.sendall(b"big\n")
        time.sleep(0.02)

    with suite.start(["-v", "-c", "1", "-x", rules, "-B", big] + server_runs.QUIET, program) as server:
        for stage in (lambda client: None, greeted, told, answered, half_closed, ending, in_output, unread_output):
            for source in ("127.0.0.1", "127.0.0.1", "127.0.0.1", "127.0.0.9"):
                with server.connect(source) as client:
                    try:
                        stage(client)
                    except OSError:
                        pass
                    reset(client)
                suite.expect("after a reset at a stage", server.ask(b"hi\n"), big.encode() + b"hi\n")
        server.idle()
        suite.audit("resets at each stage", server)


def unread_banner(suite):
    """A client that never reads a long banner keeps its own place alone, and gives it back when it resets."""
    big = "b" * 120000
    with suite.start(["-v", "-c", "2", "-B", big] + server_runs.QUIET, ["echo", "hi"]) as server:
        for _ in range(3):
            with socket.socket() as client:
                client.settimeout(server_runs.WAIT)
                client.setsockopt(socket.SOL_SOCKET, socket.SO_RCVBUF, 2048)
                client.connect((server.host, server.port))
                suite.expect("beside an unread banner", [server.ask() for _ in range(3)], [big.encode() + b"hi\n"] * 3)
                reset(client)
        server.idle()
        suite.expect("after unread banners", [server.ask() for _ in range(3)], [big.encode() + b"hi\n"] * 3)
        server.idle()
        suite.audit("unread banners", server)


def slow_clients(suite):
    """Twenty clients that send a byte a second, and others meanwhile."""
    with suite.start(["-v", "-c", "25"] + server_runs.QUIET, ["cat"]) as server:
        slow = [server.connect("127.0.5.%d" % (n + 1)) for n in range(20)]
        for byte in b"slow":
            for client in slow:
                client.sendall(bytes([byte]))
            suite.expect("others beside slow clients", [server.ask(b"quick\n") for _ in range(5)], [b"quick\n"] * 5)
            suite.expect("a byte comes back", [client.recv(9) for client in slow], [bytes([byte])] * 20)
            time.sleep(1)
        suite.expect("the end of slow clients", server_runs.finish(slow), [b""] * 20)
        server.idle()
        suite.audit("slow clients", server)


def never_reading(suite):
    """Clients that do not read while their programs write ten megabytes: the server keeps little of it, serves others, and later all comes."""
    program = ["sh", "-c", 'read a; test "$a" = hi && exec echo hi; exec head -c %d /dev/zero' % BIG]
    with suite.start(["-v", "-c", "12"] + server_runs.QUIET, program) as server:
        before = server.memory()
        clients = [server.connect("127.0.6.%d" % (n + 1)) for n in range(8)]
        for client in clients:
            client.sendall(b"go\n")
        time.sleep(0.5)
        suite.expect("others beside those that do not read", [server.ask(b"hi\n") for _ in range(20)], [b"hi\n"] * 20)
        used = server.processor_time()
        time.sleep(0.5)
        suite.holds("no time is used for them", server.processor_time() - used < 0.2, server.processor_time() - used)
        suite.holds("little memory is used for them", server.memory() - before < 20000, (before, server.memory()))
        for client in clients[:4]:
            reset(client)
        suite.expect("what comes in the end", [len(read_all(client)) for client in clients[4:]], [BIG] * 4)
        for client in clients[4:]:
            client.close()
        server.idle()
        suite.audit("clients that do not read", server)


def unread_bytes(suite):
    """What a client sends to a program that reads nothing costs the client nothing of the output."""
    with suite.start(["-v", "-c", "1"] + server_runs.QUIET, ["sh", "-c", "exec <&-; sleep 1; head -c 400000 /dev/zero"]) as server:
        for number in (1, 2):
            with server.connect() as client:
                for _ in range(3):
                    client.sendall(b"one\n")
                    time.sleep(0.1)
                time.sleep(1.5)
                suite.expect("unread bytes: %d" % number, len(read_all(client)), 400000)
        server.idle()
        suite.audit("unread bytes", server)


def half_closed(suite):
    """Each end closes one way of its own, in each order: the program's exit code is told, and the place is free only then."""
    cases = [
        ("exec >&-; cat >/dev/null; sleep 0.2; exit 5", True, b"", 5), ("exec <&-; sleep 0.2; echo out; exit 6", True, b"out\n", 6),
        ("exec <&- >&-; sleep 0.2; exit 7", True, b"", 7), ("exec <&- >&-; sleep 0.2; exit 8", False, b"", 8),
        ("exec >&-; sleep 0.2; exit 9", False, b"", 9),
    ]
    for script, ends, wanted, code in cases:
        with suite.start(["-v", "-c", "1"] + server_runs.QUIET, ["sh", "-c", script]) as server:
            for number in (1, 2):
                with server.connect() as client:
                    if ends:
                        client.shutdown(socket.SHUT_WR)
                    else:
                        client.shutdown(socket.SHUT_RD)
                        time.sleep(0.1)
                    suite.expect("half closed: %r" % script, read_all(client), wanted)
                    if not suite.original:
                        server.wait_line(log_forms.end(number, code))
            server.idle()
            suite.audit("half closed", server)


class Burst:
    """Many clients at once, in one thread: each sends a line and its end, and reads all that comes. One that the system resets while nothing has
    come yet, as it may where its queue is full, comes again a little later."""

    def __init__(self, server, number):
        self.server = server
        self.poll = select.epoll()
        self.clients = {}
        self.whole = self.again = 0
        self.amiss = []
        # those that come again, and when
        self.later = []
        for place in range(number):
            self.add(place)

    def add(self, place):
        client = socket.socket()
        client.setblocking(False)
        client.setsockopt(socket.IPPROTO_IP, getattr(socket, "IP_BIND_ADDRESS_NO_PORT", 24), 1)
        client.bind(("127.5.%d.%d" % (place // 250, place % 250 + 1), 0))
        client.connect_ex((self.server.host, self.server.port))
        self.clients[client.fileno()] = [client, place, b"%d\n" % place, b""]
        self.poll.register(client, select.EPOLLOUT)

    def ready(self, descriptor, events):
        """Sends what is to be sent, or reads: whether this one is at its end."""
        client, place, text, due = self.clients[descriptor]
        if text is not None and events & select.EPOLLOUT:
            client.sendall(text)
            client.shutdown(socket.SHUT_WR)
            self.clients[descriptor] = [client, place, None, text]
            self.poll.modify(descriptor, select.EPOLLIN)
            return False
        piece = client.recv(1000)
        if piece:
            self.clients[descriptor][3] = due[len(piece):] if due.startswith(piece) else b"amiss"
            return False
        self.whole += due == b"" and text is None
        return True

    def lost(self, descriptor, fault):
        """A client that was reset: it comes again, if nothing had come."""
        client, place, _, due = self.clients.pop(descriptor)
        client.close()
        if due in (b"", b"%d\n" % place) and self.again < 20000:
            self.again += 1
            self.later.append((time.monotonic() + 0.3 + random.random(), place))
        else:
            self.amiss.append(repr(fault))

    def finish(self):
        """Goes on until all are served, or nothing has moved for a while."""
        till = time.monotonic() + server_runs.WAIT
        while (self.clients or self.later) and time.monotonic() < till:
            now = time.monotonic()
            for place in [place for when, place in self.later if when <= now]:
                self.add(place)
            self.later = [one for one in self.later if one[0] > now]
            for descriptor, events in self.poll.poll(0.1):
                till = now + server_runs.WAIT
                try:
                    if self.ready(descriptor, events):
                        self.clients.pop(descriptor)[0].close()
                except OSError as fault:
                    self.lost(descriptor, fault)
        for client, *_ in self.clients.values():
            client.close()
        self.poll.close()
        return self


def room_for(number):
    """As many descriptors as may be had, at most this number."""
    soft, hard = resource.getrlimit(resource.RLIMIT_NOFILE)
    wanted = number + 200
    if soft < wanted:
        resource.setrlimit(resource.RLIMIT_NOFILE, (min(wanted, hard) if hard != resource.RLIM_INFINITY else wanted, hard))
    return min(number, resource.getrlimit(resource.RLIMIT_NOFILE)[0] - 200)


def burst(suite):
    """Five thousand clients at once: each is served."""
    number = room_for(BURST)
    with suite.start(["-v", "-c", "40"] + server_runs.QUIET, ["cat"]) as server:
        clients = Burst(server, number).finish()
        suite.expect("a burst of %d" % number, (clients.whole, clients.amiss[:3], len(clients.clients)), (number, [], 0))
        # a client that was reset in the queue may have left a connection of which the system thinks that it stands
        server_runs.wait_until("the ends of a burst", lambda: server.live() <= half_open(server.port), moves=server.written)
        events = suite.audit("a burst", server)
        # a client may be reset while it waits in the queue; it is then let in, and found to be gone
        right = events is None or number <= events.admitted <= number + clients.again
        suite.holds("each of a burst was let in, %d after a reset" % clients.again, right, (events and events.admitted, clients.again))


def half_open(port):
    """How many connections of a server have no client at their other end."""
    with open("/proc/net/tcp") as file:
        rows = {tuple(line.split()[1:3]) for line in file if line.split()[3] == "01"}
    return sum(local.endswith(":%04X" % port) and (other, local) not in rows for local, other in rows)


def full_queue(suite):
    """The queue of the listening socket is full while the only place is taken; all who waited are served afterwards."""
    with suite.start(["-v", "-c", "1"] + server_runs.QUIET, ["cat"]) as server:
        with server.connect() as first:
            first.sendall(b"a")
            suite.expect("the one that is served", first.recv(1), b"a")
            clients = Burst(server, QUEUED)
            time.sleep(1)
            first.shutdown(socket.SHUT_WR)
            suite.expect("its end", read_all(first), b"")
        clients.finish()
        suite.expect("those of a full queue", (clients.whole, clients.amiss[:3]), (QUEUED, []))
        server.idle()
        suite.audit("a full queue", server)


def stopped_programs(suite):
    """A program that stops keeps its place, whatever its client does; others are served, and once it is killed its place is free."""
    program = ["sh", "-c", 'test "$TCPREMOTEIP" = 127.0.0.1 || exec echo hi; echo $$; kill -STOP $$; echo woke']
    with suite.start(["-v", "-c", "2"] + server_runs.QUIET, program) as server:
        for ends in ("kill", "wake", "client", "reset"):
            client = server.connect()
            with client.makefile("rb") as lines:
                number = int(lines.readline())
            server_runs.wait_until("a stop", lambda: is_stopped(number))
            if ends == "client":
                client.close()
            if ends == "reset":
                reset(client)
            suite.expect("others beside a stopped program", [server.ask(source="127.0.0.2") for _ in range(3)], [b"hi\n"] * 3)
            if not suite.original:
                server_runs.wait_until("the stopped one alone", lambda: server.live() == 1)
            os.kill(number, signal.SIGCONT if ends == "wake" else signal.SIGKILL)
            if ends in ("kill", "wake"):
                suite.expect("the end of a stopped program", read_all(client), b"woke\n" if ends == "wake" else b"")
            server.idle()
        suite.audit("stopped programs", server)


def is_stopped(number):
    with open("/proc/%d/stat" % number) as file:
        return file.read().rpartition(")")[2].split()[0] == "T"


def writing_on(suite):
    """A program that writes when its client is gone ends by the signal; one that ignores the signal goes on to its own end."""
    for script, wanted in (("exec yes", "signal"), ("trap '' PIPE; while echo a; do :; done 2>/dev/null; sleep 0.1; exit 7", "7")):
        with suite.start(["-v", "-c", "2"] + server_runs.QUIET, ["sh", "-c", script]) as server:
            for _ in range(3):
                client = server.connect()
                client.recv(1)
                reset(client)
                server.idle()
            if not suite.handed:
                ends = [line.split()[3] for line in server.lines() if line.startswith("end ")]
                suite.expect("ends of %r" % script, ends, [wanted] * 3)
            suite.audit("programs that write on", server)


CHECKS = [
    storm, stages, unread_banner, slow_clients, never_reading, unread_bytes, half_closed, stopped_programs, writing_on, burst, full_queue,
]
COMMON = [storm, stages, slow_clients, never_reading, half_closed, stopped_programs, writing_on, burst, full_queue]
HANDED = [storm, stages, unread_banner, slow_clients, never_reading, half_closed, stopped_programs, writing_on, burst, full_queue]
