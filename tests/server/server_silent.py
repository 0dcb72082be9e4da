"""Clients that read nothing of their program's output: they hold up nobody for long, and a client that reads a little
now and then loses nothing.

A pumped connection whose program has ended waits until its client has read nothing for 60 seconds. All waits run side
by side, in threads: the group takes some eighty seconds, and hardly any processor time.
"""
import concurrent.futures
import os
import socket
import time

from shared import failed_calls, log_forms, server_runs
from shared.server_runs import read_all

# seconds: the bound, and that of all that is left; how much more is waited for what a bound ends; and how long past it something is looked at that has
# no bound
BOUND = 60
ALL = 600
SLACK = 30
MORE = 8
# bytes: the buffer that the system has for what is sent to a client that takes a little, where it would else take more and more; what may be on its way
# to that client, and is not lost; what the pipe of its program holds; and how much of that the server keeps at most
BUFFER = 16384
HELD = 80000
PIPE = 1 << 20
PIECE = 65536
SILENT, OTHER = "127.0.0.2", "127.0.0.3"
# one client's program writes until it is stopped, with more on its way than anything takes; all others are greeted
PROGRAM = ["sh", "-c", 'test "$TCPREMOTEIP" = %s || exec echo hi; timeout 1 cat /dev/zero; exit 5' % SILENT]


def small(server, source, window=8192, segment=1400):
    """A client with a small window, that has its system acknowledge what it takes."""
    client = socket.socket()
    client.settimeout(server_runs.WAIT * 2)
    client.setsockopt(socket.SOL_SOCKET, socket.SO_RCVBUF, window)
    client.setsockopt(socket.IPPROTO_TCP, socket.TCP_MAXSEG, segment)
    client.bind((source, 0))
    client.connect((server.host, server.port))
    return client


def end_of(client):
    """What a client still gets, and whether its end is a reset."""
    got = b""
    while True:
        try:
            piece = client.recv(65536)
        except ConnectionResetError:
            return got, True
        if not piece:
            return got, False
        got += piece


def third_client(suite, name, options, soonest, latest):
    """Two silent clients have both places, and a third one comes: when it is served, what is logged of the two, and that no time was used."""
    with suite.start(["-v", "-c", "2"] + options + server_runs.QUIET, PROGRAM) as server:
        silent = [small(server, SILENT) for _ in range(2)]
        began = time.monotonic()
        with server.connect(OTHER) as third:
            third.settimeout(latest + SLACK)
            try:
                answer = third.recv(2)
            except TimeoutError:
                answer = b"nothing"
            waited = time.monotonic() - began
        server.idle()
        used = server.processor_time()
        # what the system still has of a connection that was shut, and then its end
        ended = [end_of(client) for client in silent]
        for client in silent:
            client.close()
        ends = [line for line in server.lines() if line.startswith("end ")]
        found = [
            (name + ": the third client", answer, b"hi"), (name + ": its time", soonest <= waited <= latest or waited, True),
            (name + ": what the silent ones had", [len(got) > 0 for got, _ in ended], [True, True]),
            (name + ": time of a processor", used < 2 or used, True),
        ]
        # where something is lost a client is told so
        if soonest:
            found.append((name + ": the ends of the silent ones", [is_reset for _, is_reset in ended], [True, True]))
        if not suite.original:
            found.append((name + ": the end of each program", sorted(ends), [log_forms.end(1, 5), log_forms.end(2, 5), log_forms.end(3)]))
            found.append((name + ": nothing is left", server.live(), 0))
        return found, server


def two_silent_clients(suite):
    return third_client(suite, "two silent clients", [], BOUND - 2, BOUND + SLACK)


def two_behind_wrappers(suite):
    return third_client(suite, "two silent clients behind wrappers", ["-w", "delcr,addcr"], BOUND - 2, BOUND + SLACK)


def filled(suite, name, take):
    """A client whose program has ended with much on its way takes it in its own time: it gets all, in order."""
    path = suite.path(name.replace(" ", "-"))
    with suite.start(["-v", "-c", "1"], [suite.compiled("server/server_given.c"), "fill", path]) as server, small(server, SILENT) as client:
        server_runs.wait_until("the end of the program of " + name, lambda: os.path.exists(path) and os.path.getsize(path) > 0)
        alive = server.live()
        got = take(client) + read_all(client)
        with open(path) as file:
            written = int(file.read())
        wanted = b"".join(b"%08d" % number for number in range(written // 8 + 1))[:written]
        server.idle()
        return [
            (name + ": its place meanwhile", alive, 1), (name + ": much was on its way", written > 100000 or written, True),
            (name + ": all came", (len(got), got == wanted), (written, True)),
            (name + ": the end", [line for line in server.lines() if line.startswith("end ")], [log_forms.end(1)]),
        ], server


def a_little_now_and_then(suite):
    """Four thousand bytes every ten seconds, for longer than the bound."""
    def take(client):
        got = b""
        for _ in range(7):
            time.sleep(10)
            got += client.recv(4000)
        return got

    return filled(suite, "a little every ten seconds", take)


def late_but_in_time(suite):
    """Nothing for fifty seconds, then all."""
    def take(_client):
        time.sleep(BOUND - 10)
        return b""

    return filled(suite, "nothing for fifty seconds", take)


def program_that_waits(suite):
    """While its program runs a silent client has no bound: the program waits for it."""
    with suite.start(["-v", "-c", "1"], ["yes"]) as server, small(server, SILENT) as client:
        time.sleep(BOUND + MORE)
        alive = server.live(), server.lines()[-1].split()[0]
        got = 0
        while got < 10000000:
            got += len(client.recv(65536))
        name = "a program that waits for a silent client"
        found = [(name + ": it runs", alive, (1, "ok")), (name + ": it writes on", got >= 10000000, True)]
        server_runs.reset(client)
        server.idle()
        return found, server


def holder_that_waits(suite):
    """While a process that was left behind holds the output a silent client has no bound."""
    script = "(sleep %d; echo late) & timeout 1 cat /dev/zero; exit 0" % (BOUND + MORE - 2)
    with suite.start(["-v", "-c", "1"], ["sh", "-c", script]) as server, small(server, SILENT) as client:
        time.sleep(BOUND + MORE)
        alive, last = server.live(), b""
        while piece := client.recv(65536):
            last = (last + piece)[-5:]
        server.idle()
        name = "a process left behind, and a silent client"
        return [(name + ": it has its place", alive, 1), (name + ": all comes", last, b"late\n")], server


def too_slow_in_all(suite):
    """Who takes 600 bytes a second loses what is left after 600 seconds in all, though by then he has taken several times all that the server had kept for
    him: in a server whose time passes ten times as fast."""
    fast, rate = 10, 600
    path = suite.path("too-slow")
    variables = dict(failed_calls.in_fast_time(suite.folder, fast), SEND_BUFFER=str(BUFFER))
    # (its own second, after which it gives up, is a whole one: so much is left that the client would take half an hour for it)
    fill = ["env", "-u", "LD_PRELOAD", suite.compiled("server/server_given.c"), "fill", path, str(PIPE)]
    with suite.start(["-v", "-c", "1"], fill, env=variables) as server, small(server, SILENT, 2048, 500) as client:
        server_runs.wait_until("the end of a program", lambda: os.path.exists(path) and os.path.getsize(path) > 0)
        began, got = time.monotonic(), 0
        while server.live() and time.monotonic() < began + ALL / fast + SLACK:
            while got < (time.monotonic() - began) * fast * rate and (piece := client.recv(1500)):
                got += len(piece)
            time.sleep(5 / fast)
        took, taken = (time.monotonic() - began) * fast, got
        rest, is_reset = end_of(client)
        got += len(rest)
        with open(path) as file:
            written = int(file.read())
        server.idle()
        name = "a little every five seconds"
        return [
            (name + ": the bound in all", ALL - 120 <= took <= ALL + SLACK * fast or took, True),
            (name + ": more was taken than is kept at a time", taken > 3 * PIECE or taken, True),
            (name + ": the rest is lost, but for what the system has", got < written and got - taken <= HELD or (taken, got, written), True),
            (name + ": its end is a reset", is_reset, True),
            (name + ": the end", [line for line in server.lines() if line.startswith("end ")], [log_forms.end(1)]),
        ], server


SIDE_BY_SIDE = [two_silent_clients, two_behind_wrappers, a_little_now_and_then, late_but_in_time, program_that_waits, holder_that_waits, too_slow_in_all]


def side_by_side(suite):
    """All that waits, at once."""
    suite.compiled("server/server_given.c")
    with concurrent.futures.ThreadPoolExecutor(len(SIDE_BY_SIDE)) as threads:
        runs = [threads.submit(run, suite) for run in SIDE_BY_SIDE]
    for run, of in zip(runs, SIDE_BY_SIDE):
        try:
            found, server = run.result()
        except (server_runs.Amiss, OSError, ValueError) as fault:
            suite.holds(of.__name__.replace("_", " "), False, "%s: %s" % (type(fault).__name__, fault))
            continue
        for name, got, wanted in found:
            suite.expect(name, got, wanted)
        suite.audit(of.__name__.replace("_", " "), server)


def at_once(suite):
    """Where connections are handed over a silent client keeps no place: the third one is served as soon as a program ended."""
    found, server = third_client(suite, "two silent clients", [], 0, SLACK)
    for name, got, wanted in found:
        suite.expect(name, got, wanted)
    suite.audit("two silent clients", server)


CHECKS = [side_by_side]
COMMON = [at_once]
HANDED = [at_once]
