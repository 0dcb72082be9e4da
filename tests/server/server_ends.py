"""How `tcpserver` ends and goes on; which signals, descriptors and folders its programs get; what thousands of
connections leave behind; and a system that refuses descriptors, threads, connections or waits.
"""
import fcntl
import os
import resource
import signal
import socket
import subprocess
import threading
import time

from shared import failed_calls, log_forms, server_runs
from shared.checks import needs_proved
from shared.clients import Pool
from shared.server_runs import free_port, listens, read_all, reset

ROUND = 1000
# so many times as fast time passes for a server that pauses
FAST = 20


def faults(suite, call, error, first, last):
    """The environment in which these calls of one name fail."""
    return {"env": dict(os.environ, **failed_calls.Library(suite.folder).run(call, error, first, last).environment)}


def terminated(suite):
    """A signal ends the server at once, whatever runs, and another one can listen at the same port at once."""
    for number in (signal.SIGTERM, signal.SIGINT, signal.SIGKILL, signal.SIGTERM):
        with suite.start(["-v"] + server_runs.QUIET, ["sh", "-c", "echo hi; cat"]) as server:
            port = server.port
            suite.expect("before signal %d" % number, server.ask(b"a"), b"hi\na")
            with server.connect() as client:
                client.recv(3)
                began = time.monotonic()
                server.process.send_signal(number)
                code = server.process.wait(server_runs.WAIT)
                suite.holds("signal %d ends at once" % number, time.monotonic() - began < 60)
                suite.holds("the end by signal %d" % number, code == -number or (suite.original and code == 0), code)
                with suite.start(["-v"] + server_runs.QUIET, ["sh", "-c", "echo again"], port=port) as after:
                    suite.expect("at the same port after signal %d" % number, (after.port, after.ask()), (port, b"again\n"))
                if not suite.handed:
                    suite.expect("the client of a server that ended by signal %d" % number, read_all(client), b"")


def descriptors_of_programs(suite):
    """A program has descriptors 0, 1 and 2 alone."""
    script = "for n in 0 1 2 3 4 5 6 7 8 9 10 11 12 13 14 15 16 20 30; do test -e /proc/$$/fd/$n && echo $n; done"
    with suite.start(["-v"] + server_runs.QUIET, ["sh", "-c", script]) as server, server.connect() as idle:
        suite.expect("descriptors", server.ask(), b"0\n1\n2\n")
        suite.expect("descriptors beside another connection", server.ask(), b"0\n1\n2\n")
        idle.close()
    if suite.original:
        return
    reading, writing = os.pipe()
    os.set_inheritable(writing, True)
    path = suite.install(":allow\n")
    with suite.start(["-x", path], ["sh", "-c", script], close_fds=False) as server:
        suite.expect("descriptors that the server was given", server.ask(), b"0\n1\n2\n")
    os.close(reading)
    os.close(writing)


# signals 32 and 33, which the C library keeps for its own threads; one that starts programs by posix_spawn leaves them ignored
OF_THE_LIBRARY = 1 << 31 | 1 << 32


def signals_told(server):
    """Which signals a program that prints its status has blocked, and which it ignores, by bits; the C library's own are left out."""
    told = dict(line.split(":", 1) for line in server.ask().decode().splitlines())
    return tuple(int(told[name], 16) & ~OF_THE_LIBRARY for name in ("SigBlk", "SigIgn"))


def signals_of_programs(suite):
    """A program has every signal at its default, but for the C library's own, and none blocked; its pipes end it. What whoever started the
    server ignores stays ignored, but for the signal of a lost pipe."""
    with suite.start(server_runs.QUIET, ["cat", "/proc/self/status"]) as server:
        suite.expect("signals blocked and ignored", signals_told(server), (0, 0))
    kept = (signal.SIGHUP, signal.SIGINT, signal.SIGQUIT)

    def ignore():
        for number in kept + (signal.SIGPIPE,):
            signal.signal(number, signal.SIG_IGN)

    with suite.start(server_runs.QUIET, ["cat", "/proc/self/status"], preexec_fn=ignore) as server:
        ignored = sum(1 << number - 1 for number in kept)
        suite.expect("signals that were ignored when the server was started", signals_told(server), (0, ignored))
    with suite.start(server_runs.QUIET, ["sh", "-c", "yes | head -n 1"]) as server:
        suite.expect("a pipe's end in a program", server.ask(), b"y\n")


def folders_of_programs(suite):
    """A program runs in the server's working folder, and a path without a leading slash is looked for there."""
    folder = suite.path("working")
    os.mkdir(folder)
    script = suite.path("working/mine", "#!/bin/sh\necho mine\n")
    os.chmod(script, 0o755)
    with suite.start(server_runs.QUIET, ["pwd"], cwd=folder) as server:
        suite.expect("the working folder", server.ask().decode().strip(), os.path.realpath(folder))
    with suite.start(server_runs.QUIET, ["./mine"], cwd=folder) as server:
        suite.expect("a program beside the server", server.ask(), b"mine\n")
    with suite.start(server_runs.QUIET, ["mine"], cwd="/", env=dict(os.environ, PATH=folder + ":" + os.environ["PATH"])) as server:
        suite.expect("a program on the path", server.ask(), b"mine\n")
    words = ["a b", "", "-x", "*", "$HOME", "é"]
    with suite.start(server_runs.QUIET, ["printf", "<%s>"] + words) as server:
        suite.expect("the words of a program", server.ask().decode(), "".join("<%s>" % word for word in words))


def errors_of_programs(suite):
    """What a program writes to descriptor 2 is in the server's own."""
    with suite.start(["-q"] + server_runs.QUIET, ["sh", "-c", "echo mine >&2; echo out"]) as server:
        suite.expect("the output beside errors", server.ask(), b"out\n")
        server.wait_line("mine")


class Rounds(Pool):
    """Connections of which some are denied, some closed for their address, some reset."""

    def serve(self, number):
        try:
            client = self.server.connect("127.0.%d.%d" % (number % 5, number % 3 + 1))
            if number % 7 == 0:
                reset(client)
                return
            with client:
                client.shutdown(socket.SHUT_WR)
                read_all(client)
        except OSError:
            pass


def rounds(server, number):
    """So many connections, a few at a time."""
    Rounds(server, range(number), 16).start().finish()
    server.idle()


@needs_proved(8)
def nothing_left(suite):
    """Six thousand connections leave no descriptor, no thread, no process and no memory behind."""
    program, table = suite.child()
    path = suite.install("127.0.1.:deny\n:allow\n")
    limits = [] if suite.original else ["-m", "4"]
    with suite.start(["-v", "-c", "10", "-x", path] + limits + server_runs.QUIET, [program, table, "0"]) as server:
        rounds(server, ROUND)
        before = server.descriptors(), server.threads(), server.memory()
        rounds(server, 5 * ROUND)
        after = server.descriptors(), server.threads(), server.memory()
        suite.holds("descriptors after 5,000 connections", after[0] <= before[0] + 40, (before, after))
        suite.holds("threads after 5,000 connections", after[1] <= before[1] + 29, (before, after))
        suite.holds("memory after 5,000 connections", after[2] <= before[2] + 3072, (before, after))
        suite.expect("processes after 5,000 connections", server_runs.children_of(server.process.pid), 0)
        used = server.processor_time()
        time.sleep(0.5)
        suite.holds("an idle server uses no time", server.processor_time() - used < 0.05, server.processor_time() - used)
        suite.audit("six thousand connections", server, None if suite.original else 4)


def rests(server):
    """Whether a server uses hardly any time once it has done what it can, which may take some seconds on a busy machine."""
    for _ in range(20):
        used = server.processor_time()
        time.sleep(0.5)
        if server.processor_time() - used < 0.1:
            return True
    return False


def few_descriptors(suite):
    """With few descriptors the server neither ends nor spins, and once connections end it serves on."""
    for number in range(16, 28):

        def limit(number=number):
            resource.setrlimit(resource.RLIMIT_NOFILE, (number, number))

        with suite.start(["-v"], ["sh", "-c", "echo hi; read a"], preexec_fn=limit) as server:
            clients = [server.connect() for _ in range(12)]
            suite.holds("no time is used with %d descriptors" % number, rests(server))
            suite.holds("the server runs with %d descriptors" % number, server.process.poll() is None, server.log()[-300:])
            for client in clients:
                client.close()
            wait_for_answer(server, "with %d descriptors" % number)
            server.idle()
            suite.audit("%d descriptors" % number, server)


def is_still(look):
    """Whether this gives the same for a while: a server may close what it needed to start a program only after that has spoken."""
    before = look()
    time.sleep(0.3)
    return look() == before


def no_descriptors(suite):
    """Where the server has no descriptor left a client waits, without any time used, until a connection ends."""
    with suite.start(["-v"], ["sh", "-c", "echo hi; read a"]) as server:
        clients = [server.connect() for _ in range(4)]
        suite.expect("four that have their descriptors", [client.recv(3) for client in clients], [b"hi\n"] * 4)
        number = server.process.pid
        server_runs.wait_until("descriptors of connections alone", lambda: is_still(lambda: os.listdir("/proc/%d/fd" % number)))
        taken = {int(name) for name in os.listdir("/proc/%d/fd" % number)}
        free = next(place for place in range(len(taken) + 1) if place not in taken)
        before = resource.prlimit(number, resource.RLIMIT_NOFILE)
        resource.prlimit(number, resource.RLIMIT_NOFILE, (free, before[1]))
        # each thread that waits in `accept` has a descriptor for one of these
        first = [server.connect() for _ in range(8)]
        time.sleep(0.3)
        late = server.connect()
        late.settimeout(1)
        try:
            suite.holds("a client without a descriptor waits", False, late.recv(3))
        except TimeoutError:
            suite.holds("a client without a descriptor waits", True)
        suite.holds("no time is used while there is no descriptor", rests(server))
        late.settimeout(server_runs.WAIT)
        for client in first + clients[:3]:
            client.close()
        # (it may be accepted as soon as a connection ends, and then its program waits too)
        time.sleep(0.3)
        resource.prlimit(number, resource.RLIMIT_NOFILE, before)
        suite.expect("a client that waited for a descriptor", late.recv(3), b"hi\n")
        late.close()
        wait_for_answer(server, "after the lack")
        clients[3].sendall(b"\n")
        suite.expect("the one that ran all the time", read_all(clients[3]), b"")
        clients[3].close()
        server.idle()
        suite.audit("no descriptors", server)


def wait_for_answer(server, when):
    """Waits until a client is served."""
    try:
        server_runs.wait_until("an answer", lambda: answers(server))
    except server_runs.Amiss:
        raise server_runs.Amiss("no answer %s; ended %s, log %r" % (when, server.process.poll(), server.log()[-500:]))


def answers(server):
    """Whether a client is served now."""
    try:
        return server.ask(b"\n") == b"hi\n"
    except OSError:
        return False


def after_faults(suite, number):
    """What a client gets after so many faults of accepting, if the server goes on, how it ends, and how many seconds that takes by its own time, which
    passes twenty times as fast."""
    variables = failed_calls.in_fast_time(suite.folder, FAST, faults(suite, "accept4", "EMFILE", 1, number)["env"])
    began = time.monotonic()
    with suite.start(["-q", "-k", "1"], ["echo", "hi"], env=variables) as server:
        answer = server.ask() if number < 100 else None
        return (answer, server.end(), server.lines()), (time.monotonic() - began) * FAST


def failed_accepts(suite):
    """A hundred faults of accepting in succession end the server, fewer do not. After each for want of descriptors is a pause, over a minute in all."""
    for number, wanted in ((1, (b"hi\n", 0, [])), (99, (b"hi\n", 0, [])), (100, (None, 111, ["accept fault"]))):
        ended, seconds = after_faults(suite, number)
        suite.expect("after %d faults of accepting" % number, ended, wanted)
        suite.holds("the pauses of %d faults" % number, number == 1 or seconds > 60, seconds)


def failed_threads(suite):
    """A thread that can't be made is made later: nobody is turned away, and nothing is told."""
    for number in range(1, 7):
        with suite.start(["-v", "-k", "4"], ["sh", "-c", "echo hi; cat"], **faults(suite, "pthread_create", "EAGAIN", number, number)) as server:
            suite.expect("clients with thread %d refused" % number, [server.ask() for _ in range(4)], [b"hi\n"] * 4)
            suite.expect("the end with thread %d refused" % number, server.end(), 0)
            told = [line for line in server.lines() if line.startswith(("drop ", "start "))]
            suite.expect("the lines with thread %d refused" % number, told, [])
            suite.audit("thread %d refused" % number, server)


# a program that closes its output and runs on, and one that then ends once its client sends a line
RUNS_ON, WAITS_FOR_A_LINE = ["sh", "-c", "exec >&-; exec sleep 1000"], ["sh", "-c", "exec >&-; read a; exit 7"]
# the calls of a server for a program: one wait, and all that it makes
ONE_WAIT, THREE_WAITS = ["waitpid"], ["waitpid", "kill", "waitpid", "kill", "waitpid"]


def rounds_of_waits(suite):
    """A program is waited for up to three times, and killed before the second and the third. The log has what the last wait answered. If none of them
    did, the program keeps its place for good, and a server without free places ends. The system's word that there is no such program is the last."""
    library, signalled, ended, retired = failed_calls.Library(suite.folder), [log_forms.end(1, "signal")], [log_forms.end(1, 7)], ["retired 1"]
    cases = [
        ("no wait fails", 0, False, WAITS_FOR_A_LINE, ended, ONE_WAIT), ("the first wait fails", 1, False, RUNS_ON, signalled, THREE_WAITS[:3]),
        ("two waits fail", 2, False, RUNS_ON, signalled, THREE_WAITS), ("two waits and all kills fail", 2, True, WAITS_FOR_A_LINE, ended, THREE_WAITS),
        ("three waits fail", 3, False, RUNS_ON, retired, THREE_WAITS), ("three waits and all kills fail", 3, True, WAITS_FOR_A_LINE, retired, THREE_WAITS),
    ]
    # one that is pumped has ended before it is waited for
    cases += [] if suite.handed else [("two waits for a program that ended fail", 2, False, ["sh", "-c", "exit 7"], ended, THREE_WAITS)]
    for error in ("EIO", "ENOMEM"):
        for name, waits, kills_fail, program, lines, calls in cases:
            run = library.run("waitpid", error, 1, waits).noting("waitpid", "kill")
            waited_for(suite, "%s, %s" % (name, error), run.also("kill", "EPERM") if kills_fail else run, program, lines, calls)
    waited_for(suite, "no such program", library.run("waitpid", "ECHILD", 1).noting("waitpid", "kill"), WAITS_FOR_A_LINE, retired, ONE_WAIT)
    one_of_two(suite, library.run("waitpid", "EIO", 1, 3).noting("waitpid", "kill"))


def waited_for(suite, name, run, program, wanted, calls):
    """A server of one place and one client, and one that is to serve more if the place is given up: its lines behind the verdict, its exit code and calls."""
    ways = [(["-k", "1"], 0, ["status: 0/1"])]
    if wanted == ["retired 1"]:
        ways = [(["-k", "1"], 0, ["status: 1/1"]), ([], 111, ["status: 1/1", "no places left"])]
    for options, code, last in ways:
        with suite.start(["-v", "-c", "1"] + options, program, env=dict(os.environ, **run.environment)) as server:
            server.ask(b"a line\n")
            suite.expect("%s under %r" % (name, options), (server.end(), server.lines()[4:]), (code, wanted + last))
            suite.expect("%s under %r: its waits and kills" % (name, options), run.noted(), calls)
            suite.audit(name, server)
        run.end()


def one_of_two(suite, run):
    """A place of two that is given up: the other one serves on, and the server ends at its count."""
    with suite.start(["-v", "-c", "2", "-k", "4"], ["sh", "-c", "read a; exit 7"], env=dict(os.environ, **run.environment)) as server:
        for line in ("retired 1", log_forms.end(2, 7), log_forms.end(3, 7), log_forms.end(4, 7)):
            server.ask(b"a line\n")
            server.wait_line(line)
        told = [line for line in server.lines() if not line.startswith(("pid ", "ok "))]
        wanted = ["status: 0/2", "status: 1/2", "retired 1", "status: 1/2"]
        wanted += [line for serial in (2, 3, 4) for line in ("status: 2/2", log_forms.end(serial, 7), "status: 1/2")]
        suite.expect("one of two places given up", (server.end(), told), (0, wanted))
        suite.expect("one of two places given up: its waits and kills", run.noted(), THREE_WAITS + 3 * ONE_WAIT)
        suite.audit("one of two places given up", server)


def missing_descriptors(suite):
    """A server that was started without a standard descriptor: no client gets what is not its own."""
    for closed in ("<&-", "2>&-", "<&- 2>&-"):
        port = free_port()
        words = suite.command + ["-v"] + server_runs.QUIET + ["127.0.0.1", str(port), "sh", "-c", "echo hi; cat"]
        process = subprocess.Popen(["sh", "-c", 'exec "$0" "$@" ' + closed] + words, stdout=subprocess.DEVNULL, stderr=subprocess.DEVNULL)
        suite.running.append(process)
        server_runs.wait_until("a server without a descriptor", lambda: listens(port))
        for _ in range(3):
            with socket.create_connection(("127.0.0.1", port), server_runs.WAIT) as client:
                client.sendall(b"a\n")
                client.shutdown(socket.SHUT_WR)
                suite.expect("a client of a server started with " + closed, read_all(client), b"hi\na\n")
        process.terminate()
        process.wait(server_runs.WAIT)


def lost_log(suite):
    """Where nobody reads the log any more the server goes on."""
    reading, writing = os.pipe()
    words = suite.command + ["-1", "-v", "-k", "3"] + ["127.0.0.1", "0", "echo", "hi"]
    process = subprocess.Popen(words, stdin=subprocess.DEVNULL, stdout=subprocess.PIPE, stderr=writing)
    suite.running.append(process)
    os.close(writing)
    port = int(process.stdout.readline())
    os.close(reading)
    got = []
    for _ in range(3):
        with socket.create_connection(("127.0.0.1", port), server_runs.WAIT) as client:
            got.append(read_all(client))
    suite.expect("a lost log", (got, process.wait(server_runs.WAIT)), ([b"hi\n"] * 3, 0))


def full_log(suite):
    """Where the log takes no more the server goes on; of a line that is not taken as a whole the log has the beginning."""

    def at_most_ten_bytes():
        signal.signal(signal.SIGXFSZ, signal.SIG_IGN)
        resource.setrlimit(resource.RLIMIT_FSIZE, (10, 10))

    for level, program, wanted in (("-v", "echo", b"tcpserver:"), ("-Q", "/nonexistent", b"tcpserver:"), ("-q", "echo", b"")):
        with suite.start([level, "-k", "3"], [program, "hi"], preexec_fn=at_most_ten_bytes) as server:
            got = [server.ask() for _ in range(3)]
            suite.expect("a full log under %s" % level, (got, server.end(), server.log()), ([b"hi\n" if program == "echo" else b""] * 3, 0, wanted))


def log_that_does_not_block(suite):
    """A log whose descriptor was left non-blocking has every line, and each whole, however late it is read."""
    connections = 300
    reading, writing = os.pipe()
    os.set_blocking(writing, False)
    # a page, which the log of some twenty connections fills
    fcntl.fcntl(writing, getattr(fcntl, "F_SETPIPE_SZ", 1031), 4096)
    words = suite.command + ["-1", "-v", "-c", "4", "-k", str(connections)] + server_runs.QUIET + ["127.0.0.1", "0", "true"]
    process = subprocess.Popen(words, stdin=subprocess.DEVNULL, stdout=subprocess.PIPE, stderr=writing)
    suite.running.append(process)
    os.close(writing)
    port = int(process.stdout.readline())

    def visit():
        for _ in range(connections):
            with socket.create_connection(("127.0.0.1", port), server_runs.WAIT) as client:
                read_all(client)

    visitor = threading.Thread(target=visit, daemon=True)
    visitor.start()
    time.sleep(1)
    with open(reading, "rb") as file:
        log = file.read()
    visitor.join(server_runs.WAIT)
    events = log_forms.events_of(log)
    suite.expect("a log that does not block: its end", process.wait(server_runs.WAIT), 0)
    suite.expect("a log that does not block: what does not fit", events.faults, [])
    suite.expect("a log that does not block: connections", (events.admitted, events.last_live), (connections, 0))


CHECKS = [
    terminated, descriptors_of_programs, signals_of_programs, folders_of_programs, errors_of_programs, nothing_left, few_descriptors, no_descriptors,
    failed_accepts, failed_threads, rounds_of_waits, missing_descriptors, lost_log, full_log, log_that_does_not_block,
]
COMMON = [terminated, descriptors_of_programs, signals_of_programs, folders_of_programs, errors_of_programs, nothing_left]
HANDED = [
    terminated, descriptors_of_programs, signals_of_programs, folders_of_programs, errors_of_programs, nothing_left, few_descriptors, failed_accepts,
    failed_threads, rounds_of_waits, missing_descriptors, lost_log, full_log,
]
