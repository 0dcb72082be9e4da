"""Numbers within the server that no contract names: how often, how long and how many times it does something, as the
documents say. Faults of accepting, their pauses and what they leave; reads of a pump, unread banners, variables,
programs at once, waits for a process, and signals.
"""
import concurrent.futures
import contextlib
import os
import resource
import shutil
import socket
import time

from server import server_rules
from shared import failed_calls, log_forms, server_runs

# how long a client waits that a wrong server leaves alone, in seconds
PATIENCE = 120
# faults between two clients, and clients: together far more than the hundred that end a server, in succession fewer
FAULTS, CLIENTS = 60, 4
# programs at once, more than a thousand
MANY = 1200
# and connections that begin at once
BEGIN = 1100
GREETS = ["sh", "-c", "echo hi; read a"]


def greeted(server):
    """A client that is served, and waits."""
    client = server.connect()
    client.settimeout(PATIENCE)
    if client.recv(3) != b"hi\n":
        raise server_runs.Amiss("a client was not greeted; the log: %r" % server.log()[-500:])
    return client


def failing(run):
    return dict(os.environ, **run.environment)


def faults_counted_anew(suite):
    """A client that is accepted counts faults anew: sixty before each of four clients end no server, and keep nothing of what connections take, of
    which there is enough for some ten at once."""
    for name, files in (("", None), (" with 64 descriptors", (64, 64))):
        run = failed_calls.Library(suite.folder).run_sparing("accept4", "EIO", (FAULTS + 1) * CLIENTS, FAULTS + 1)
        how = {"preexec_fn": lambda files=files: resource.setrlimit(resource.RLIMIT_NOFILE, files)} if files else {}
        # (with one connection at once, one thread accepts at a time)
        with suite.start(["-v", "-c", "1", "-k", str(CLIENTS)], GREETS, env=failing(run), **how) as server:
            for _ in range(CLIENTS):
                greeted(server).close()
            suite.expect("the end after faults" + name, (server.end(), server.lines()[-1]), (0, log_forms.status(0, 1)))
            suite.expect("faults of accepting" + name, len(run.failed()), FAULTS * CLIENTS)
            suite.audit("faults" + name, server)


def faults_after_a_crowd(suite):
    """A hundred faults in succession end a server also while other threads of it wait for their turn, as they do after a crowd. Who is served then is
    served to the end."""
    run = failed_calls.Library(suite.folder).run_while("accept4", "EIO")
    with suite.start(["-v", "-c", "40"], GREETS, env=failing(run)) as server:
        for client in [greeted(server) for _ in range(20)]:
            client.close()
        server.idle()
        run.turn(True)
        with greeted(server) as last:
            # (this one came by a call from before; all later ones fail)
            server_runs.wait_until("a hundred faults", lambda: len(run.failed()) >= 100, PATIENCE)
            last.sendall(b"\n")
            suite.expect("a client after the faults", server_runs.read_all(last), b"")
        suite.expect("the end by faults after a crowd", (server.end(), server.lines()[-1]), (111, "accept fault"))
        suite.holds("the cause of the end", "Input/output error" in str(server.log()), server.log()[-500:])


def want_of_room(suite, error):
    """A server that has a client, and for some time no room for another: whether it goes on and serves others then, how often it tried, and the seconds."""
    run = failed_calls.Library(suite.folder).run_while("accept4", error)
    with suite.start(["-v", "-c", "40"], GREETS, env=failing(run)) as server, greeted(server), contextlib.ExitStack() as clients:
        run.turn(True)
        # (threads of the server may wait for some of these already)
        for _ in range(10):
            clients.enter_context(server.connect())
        began = time.monotonic()
        server_runs.wait_until("some tries", lambda: len(run.failed()) >= 3 or server.process.poll() is not None, PATIENCE)
        time.sleep(1)
        tries, seconds = len(run.failed()), time.monotonic() - began
        run.turn(False)
        goes_on = server.process.poll() is None
        if goes_on:
            greeted(server).close()
        return goes_on, tries, seconds


def wants_of_room(suite):
    """Each error of the system for want of room has the server wait, each time twice as long up to a second, where a connection is alive."""
    errors = ["EMFILE", "ENFILE", "ENOBUFS", "ENOMEM"]
    failed_calls.Library(suite.folder)
    with concurrent.futures.ThreadPoolExecutor(len(errors)) as threads:
        runs = {error: threads.submit(want_of_room, suite, error) for error in errors}
    for error, run in runs.items():
        goes_on, tries, seconds = run.result()
        suite.holds("%s: the server goes on" % error, goes_on)
        suite.holds("%s: it waits before it tries again" % error, 3 <= tries <= 10 + seconds, (tries, seconds))


def room_while_some_are_alive(suite):
    """Want of room is none of the hundred faults while connections are alive: over a hundred of them end, and each end has the server try again."""
    run = failed_calls.Library(suite.folder).run_while("accept4", "EMFILE")
    with suite.start(["-v", "-c", "200"], GREETS, env=failing(run)) as server:
        clients = [greeted(server) for _ in range(190)]
        run.turn(True)
        clients.append(server.connect())
        for _ in range(186):
            before = len(run.failed())
            clients.pop(0).close()
            server_runs.wait_until("another try", lambda before=before: len(run.failed()) > before or server.process.poll() is not None, PATIENCE)
        suite.holds("the server goes on after a hundred wants of room", server.process.poll() is None, server.log()[-300:])
        run.turn(False)
        if server.process.poll() is None:
            greeted(server).close()
        for client in clients:
            client.close()
        server.idle()
        suite.audit("wants of room", server)


def seventy_thousand_reads(suite):
    """Seventy thousand bytes, each of which is read by itself: of a client, and of its program."""
    text = b"0123456789" * 7000
    for call in ("recv", "read"):
        run = failed_calls.Library(suite.folder).run(call, None, 1, failed_calls.ALL)
        with suite.start(["-v"], [shutil.which("cat")], env=failing(run)) as server, server.connect() as client:
            client.settimeout(PATIENCE)
            client.sendall(text)
            client.shutdown(socket.SHUT_WR)
            got = server_runs.read_all(client)
            suite.expect("what comes back by single bytes, by %s" % call, (len(got), got == text), (len(text), True))
            suite.holds("calls of %s" % call, len(run.failed()) >= len(text), len(run.failed()))
            server.idle()
            suite.audit("single bytes, by %s" % call, server)


def unread_banners(suite):
    """Twelve clients that never read a long banner hold up nobody else."""
    banner = "b" * 120000
    with suite.start(["-v", "-c", "20", "-B", banner], ["echo", "hi"]) as server:
        silent = []
        for _ in range(12):
            silent.append(socket.socket())
            silent[-1].setsockopt(socket.SOL_SOCKET, socket.SO_RCVBUF, 2048)
            silent[-1].setsockopt(socket.IPPROTO_TCP, socket.TCP_MAXSEG, 1400)
            silent[-1].connect((server.host, server.port))
        server_runs.wait_until("twelve at once", lambda: server.live() == 12, PATIENCE)
        with server.connect() as client:
            client.settimeout(PATIENCE)
            suite.expect("a client beside twelve unread banners", server_runs.read_all(client), banner.encode() + b"hi\n")
        suite.expect("those who read nothing", server.live() >= 12, True)
        for client in silent:
            server_runs.reset(client)
        server.idle()
        suite.audit("twelve unread banners", server)


def many_variables(suite):
    """Two thousand variables of the server reach its program, beside those of the connection."""
    wanted = {"V%d" % number: "value %d" % number for number in range(2000)}
    with suite.start(["-v"], ["env"], env=dict(wanted, PATH=os.environ["PATH"])) as server:
        got = dict(line.split("=", 1) for line in server.ask().decode().splitlines())
        suite.expect("variables that did not come", [name for name in wanted if got.get(name) != wanted[name]], [])
        suite.expect("those of the connection", (got.get("PROTO"), got.get("TCPREMOTEIP")), ("TCP", "127.0.0.1"))
        server.idle()
        suite.audit("two thousand variables", server)


def lets_many(descriptors):
    """Whether this machine lets a process have so many descriptors, and its user that many processes and threads."""
    processes = resource.getrlimit(resource.RLIMIT_NPROC)[1]
    return resource.getrlimit(resource.RLIMIT_NOFILE)[1] >= descriptors and (processes == resource.RLIM_INFINITY or processes > 4 * MANY)


def twelve_hundred(suite):
    """Twelve hundred programs at once."""
    descriptors = 2 * MANY
    if not lets_many(descriptors):
        print("%s: twelve hundred: this machine lets nobody have so many processes or descriptors" % suite.group)
        return
    program, table = suite.child()
    before = resource.getrlimit(resource.RLIMIT_NOFILE)
    resource.setrlimit(resource.RLIMIT_NOFILE, (descriptors, before[1]))
    with suite.start(["-c", str(MANY)], [program, table, "0"]) as server:
        clients = []
        for number in range(MANY):
            clients.append(server.connect("127.3.%d.%d" % (number // 200, number % 200 + 1)))
            clients[-1].settimeout(PATIENCE)
        suite.expect("twelve hundred clients", sum(client.recv(3) == b"hi\n" for client in clients), MANY)
        suite.expect("their programs at once", server_runs.counted(table)[:2], (MANY, MANY))
        suite.expect("their ends", set(server_runs.finish(clients)), {b""})
    resource.setrlimit(resource.RLIMIT_NOFILE, before)


def eleven_hundred_begin(suite):
    """Eleven hundred connections that begin at once: each waits for its rules until all of them do."""
    descriptors = 8 * MANY
    if not lets_many(descriptors):
        print("%s: eleven hundred: this machine lets nobody have so many processes or descriptors" % suite.group)
        return
    path, before = suite.install(":allow\n", "many.cdb"), resource.getrlimit(resource.RLIMIT_NOFILE)
    resource.setrlimit(resource.RLIMIT_NOFILE, (descriptors, before[1]))
    how = server_rules.held_opens(suite, path=path, mark=suite.path("begun"), until=BEGIN)
    with suite.start(["-N", "/dev/null", "-c", str(MANY), "-x", path], ["echo", "hi"], **how) as server:
        clients = [server.connect("127.3.%d.%d" % (number // 200, number % 200 + 1)) for number in range(BEGIN)]
        for client in clients:
            client.settimeout(PATIENCE)
        suite.expect("eleven hundred that begin at once", server_runs.finish(clients), [b"hi\n"] * BEGIN)
    resource.setrlimit(resource.RLIMIT_NOFILE, before)


def signals_of_ended_threads(suite):
    """Programs that ask for a signal once the thread that started them has ended get none while they run: among many, and after the last client of
    `-k`, when the server lets nobody in any more."""
    if not shutil.which("setpriv"):
        print("%s: signals of ended threads: no setpriv here: skipped" % suite.group)
        return
    program = [shutil.which("setpriv"), "--pdeathsig", "KILL", shutil.which("cat")]
    with suite.start(["-v", "-c", "80", "-k", "70"] + server_runs.QUIET, program) as server:
        clients = [server.connect() for _ in range(70)]
        for word in (b"x", b"y"):
            for client in clients:
                client.sendall(word)
            suite.expect("all that talk", [client.recv(1) for client in clients], [word] * 70)
            time.sleep(0.5)
        suite.expect("their ends", set(server_runs.finish(clients)), {b""})
        suite.expect("the end of the server", server.end(), 0)
        suite.expect("programs that a signal ended", [line for line in server.lines() if "signal" in line], [])
        suite.audit("signals of ended threads", server)


def waits_for_a_process(suite):
    """A program for which the system has no process waits for one for about a minute, and is given up then; a hundred times as fast."""
    for refused, answer, line in ((60, b"hi\n", log_forms.end(1)), (200, b"", log_forms.start(1, "failed"))):
        run = failed_calls.Library(suite.folder).run("posix_spawn", "EAGAIN", 1, refused)
        with suite.start(["-v", "-k", "1"], ["echo", "hi"], env=failed_calls.in_fast_time(suite.folder, 100, failing(run))) as server:
            suite.expect("a client whose program was refused a process %d times" % refused, server.ask(), answer)
            suite.expect("the end after them", server.end(), 0)
            suite.holds("the line after %d refusals" % refused, line in server.lines(), server.lines())
            suite.audit("%d refused processes" % refused, server)


def no_signals(suite):
    """A program that was waited for gets no signal, whether it ended by itself or the system knows of no such child: its number may be another's."""
    library = failed_calls.Library(suite.folder)
    # (the kit's call looks by `waitid` whether there is such a child, before it sends a signal)
    for call in ("kill", "waitid"):
        run = library.run(call, "ECHILD", 1, failed_calls.ALL)
        with suite.start(["-v", "-c", "2", "-k", "6"], ["sh", "-c", "read a; exit $a"], env=failing(run)) as server:
            for number in range(6):
                server.ask(b"%d\n" % number)
            suite.expect("the end", server.end(), 0)
            suite.expect("signals to programs that ended: calls of %s" % call, run.failed(), [])
    run = library.run("waitpid", "ECHILD", 1, 3)
    # (a program that is pumped is waited for once it has closed its output)
    ended = suite.path("ended")
    with suite.start(["-v"], ["sh", "-c", "exec >&-; sleep 0.3; echo $? > %s.$$; mv %s.$$ %s" % (ended, ended, ended)], env=failing(run)) as server:
        server.ask()
        server.wait_line(log_forms.retired(1))
        server_runs.wait_until("the end of a program that was not to be waited for", lambda: os.path.exists(ended), PATIENCE)
        suite.holds("a wait that found no child", len(run.failed()) >= 1)


CHECKS = [
    faults_counted_anew, faults_after_a_crowd, wants_of_room, room_while_some_are_alive, seventy_thousand_reads, unread_banners, many_variables, signals_of_ended_threads,
    waits_for_a_process, no_signals,
]
COMMON = []
HANDED = [
    faults_counted_anew, faults_after_a_crowd, wants_of_room, room_while_some_are_alive, unread_banners, many_variables, twelve_hundred, eleven_hundred_begin,
    signals_of_ended_threads, waits_for_a_process, no_signals,
]
