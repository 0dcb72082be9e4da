"""The streams of a connection under `tcpserver`: bytes both ways, ends of either side in every order, programs that do not read or do not
end, clients that vanish, and wrappers."""
import hashlib
import itertools
import os
import random
import signal
import socket
import threading
import time

from shared import log_forms, plain_streams, server_runs
from shared.server_runs import read_all, reset

MIB = 1024 * 1024
BIG = 64 * MIB
TEXT = b"HELO a\r\nb\nc\r\r\n\nd\r"


def digest_of(connection):
    """How much comes, and its hash."""
    digest, length = hashlib.sha256(), 0
    while True:
        piece = connection.recv(MIB)
        if not piece:
            return length, digest.hexdigest()
        digest.update(piece)
        length += len(piece)


def send(connection, text):
    """Sends a text, and then its end, as far as the other end takes it."""
    try:
        connection.sendall(text)
        connection.shutdown(socket.SHUT_WR)
    except OSError:
        pass


def through(server, text):
    """Sends a text while what comes back is read: how much that is, and its hash."""
    with server.connect() as client:
        client.settimeout(server_runs.WAIT)
        sender = threading.Thread(target=send, args=(client, text), daemon=True)
        sender.start()
        got = digest_of(client)
        sender.join(60)
        return got


def big_echo(suite):
    """64 MiB there and back, byte for byte, and three of 8 MiB at once."""
    block = random.Random(5).randbytes(MIB)
    text = b"".join(block[n:] + block[:n] for n in range(BIG // MIB))
    with suite.start(["-v"] + server_runs.QUIET, ["cat"]) as server:
        suite.expect("64 MiB", through(server, text), (BIG, hashlib.sha256(text).hexdigest()))
        part, got = text[:8 * MIB], []
        threads = [threading.Thread(target=lambda: got.append(through(server, part)), daemon=True) for _ in range(3)]
        for thread in threads:
            thread.start()
        for thread in threads:
            thread.join(server_runs.WAIT)
        suite.expect("three at once", got, [(8 * MIB, hashlib.sha256(part).hexdigest())] * 3)
        suite.holds("memory after 88 MiB", server.memory() < 60 * 1024, server.memory())
        server.idle()
        suite.audit("a big echo", server)


def every_byte(suite):
    with suite.start(server_runs.QUIET, ["cat"]) as server:
        for text in (b"", b"\0", b"\r\n", bytes(range(256)) * 9, b"\xff" * 70000):
            suite.expect("an echo of %d bytes" % len(text), server.ask(text), text)
        with server.connect() as client:
            for byte in b"one by one\n":
                client.sendall(bytes([byte]))
                suite.expect("an echo of one byte", client.recv(10), bytes([byte]))


def slow_reader(suite):
    """What a program wrote before it ended comes whole to a client that reads late and slowly, its own end sent or not."""
    with suite.start(["-v"] + server_runs.QUIET, ["head", "-c", "3000000", "/dev/zero"]) as server:
        for ends in (False, True):
            with server.connect() as client:
                if ends:
                    client.shutdown(socket.SHUT_WR)
                time.sleep(0.4)
                got = 0
                while piece := client.recv(40000):
                    got += len(piece)
                    time.sleep(0.001)
                suite.expect("a slow reader", got, 3000000)
        server.idle()
        suite.audit("slow readers", server)


def client_ends_first(suite):
    """The client's end of its stream comes through, and what the program writes after it."""
    with suite.start(["-v"] + server_runs.QUIET, ["sh", "-c", "cat; echo end; sleep 0.2; echo late"]) as server:
        suite.expect("after the client's end", server.ask(b"abc\n"), b"abc\nend\nlate\n")
        with server.connect() as client:
            send(client, b"")
            time.sleep(0.1)
            suite.expect("an end at once", read_all(client), b"end\nlate\n")
        server.idle()
        suite.audit("the client ends first", server)


def program_ends_first(suite):
    """The program's end ends the connection, though the client sends nothing and does not end."""
    with suite.start(["-v"] + server_runs.QUIET, ["sh", "-c", "echo hi; exit 3"]) as server:
        for _ in range(20):
            with server.connect() as client:
                suite.expect("the program ends first", read_all(client), b"hi\n")
        server.idle()
        suite.audit("the program ends first", server)
    with suite.start(["-v"] + server_runs.QUIET, ["head", "-c", "5"]) as server:
        with server.connect() as client:
            client.sendall(b"hello")
            suite.expect("a program that has enough", read_all(client), b"hello")
        with server.connect() as client:
            sender = threading.Thread(target=send, args=(client, b"hello" * MIB), daemon=True)
            sender.start()
            got = read_all(client)
            sender.join(server_runs.WAIT)
            # a reset may take away what was not read yet
            suite.holds("a program that has enough of a flood", got in (b"hello", b""), got[:50])
        server.idle()
        suite.audit("a program that has enough", server)


def output_ends_first(suite):
    """A program that closes its output goes on to read; what is sent comes to it, and its exit code is told."""
    kept = suite.path("kept")
    with suite.start(["-v"] + server_runs.QUIET, ["sh", "-c", "echo hi; exec >&-; cat > '%s'; sleep 0.1; exit 6" % kept]) as server:
        text = bytes(range(256)) * 8192
        with server.connect() as client:
            suite.expect("before the output's end", client.recv(3), b"hi\n")
            # (the server looks meanwhile whether the program is over, as it does each second)
            time.sleep(1.3)
            send(client, text)
            suite.expect("after the output's end", read_all(client), b"")
        server.idle()
        with open(kept, "rb") as file:
            suite.holds("what was read after the output's end", file.read() == text)
        suite.holds("the exit code after the output's end", suite.original or log_forms.end(1, 6) in server.lines(), server.log())
        suite.audit("a program that closes its output", server)


def input_ends_first(suite):
    """A program that closes its input goes on to write, while the client sends and sends."""
    with suite.start(["-v"] + server_runs.QUIET, ["sh", "-c", "exec <&-; sleep 0.3; echo out; exit 2"]) as server:
        with server.connect() as client:
            suite.expect("a program that closes its input", read_all(client), b"out\n")
        if not suite.handed:
            with server.connect() as client:
                client.sendall(b"x" * 100000)
                time.sleep(0.1)
                got = read_all(client)
                suite.holds("a program that closes its input before a flood", got in (b"out\n", b""), got)
        server.idle()
        suite.audit("a program that closes its input", server)


def program_that_does_not_read(suite):
    """A client that floods a program which never reads: the connection ends with the program, and others are served meanwhile."""
    with suite.start(["-v", "-c", "2"] + server_runs.QUIET, ["sh", "-c", 'test "$TCPREMOTEIP" = 127.0.0.2 && sleep 0.8; echo bye']) as server:
        with server.connect("127.0.0.2") as client:
            sender = threading.Thread(target=send, args=(client, b"x" * (32 * MIB)), daemon=True)
            sender.start()
            suite.expect("another one meanwhile", [server.ask() for _ in range(5)], [b"bye\n"] * 5)
            got = read_all(client)
            sender.join(server_runs.WAIT)
            suite.holds("the flood's end", got in (b"bye\n", b""), got[:50])
        server.idle()
        suite.expect("one after the flood", server.ask(), b"bye\n")
        server.idle()
        suite.audit("a program that does not read", server)


def client_that_does_not_read(suite):
    """A program that floods a client which never reads waits for it, and ends with a signal once the client is gone."""
    with suite.start(["-v", "-c", "3"] + server_runs.QUIET, ["sh", "-c", 'test "$TCPREMOTEIP" = 127.0.0.2 || exec echo hi; exec yes']) as server:
        client = server.connect("127.0.0.2")
        suite.expect("a flood begins", client.recv(2), b"y\n")
        time.sleep(0.2)
        suite.expect("others beside a flood", [server.ask() for _ in range(3)], [b"hi\n"] * 3)
        server_runs.wait_until("the flood alone", lambda: server.live() == 1)
        suite.holds("the flood goes on", server.process.poll() is None)
        reset(client)
        server.idle()
        suite.holds("the end of a flood", suite.handed or log_forms.end(1, "signal") in server.lines(), server.log())
        with server.connect("127.0.0.2") as client:
            client.recv(1000)
        server.idle()
        suite.audit("a client that does not read", server)


def vanishing_clients(suite):
    """Two hundred clients that connect and reset, at once, after a while and after a few bytes, leave the server serving."""
    for program in (["cat"], ["sh", "-c", "echo hi; cat; exit 3"], ["yes"]):
        with suite.start(["-v", "-c", "20"] + server_runs.QUIET, program) as server:
            for number in range(200):
                client = server.connect("127.0.3.%d" % (number % 200 + 1))
                if number % 4 == 1:
                    client.sendall(b"x" * (number * 50))
                if number % 4 == 2:
                    time.sleep(0.005)
                if number % 4 == 3:
                    client.shutdown(socket.SHUT_WR)
                reset(client)
            server.idle()
            with server.connect() as client:
                client.sendall(b"y\n")
                suite.expect("%r after clients that vanished" % program, client.recv(1) in (b"y", b"h"), True)
            server.idle()
            suite.audit("%r and clients that vanish" % program, server)


def vanished_before(suite):
    """Clients that were gone before the server looked."""
    with suite.start(["-v", "-c", "5"] + server_runs.QUIET, ["sh", "-c", "echo hi; cat"]) as server:
        server.suspend()
        for number in range(60):
            client = server.connect()
            reset(client) if number % 2 else client.close()
        os.kill(server.process.pid, signal.SIGCONT)
        suite.expect("after clients that were gone", server.ask(b"a\n"), b"hi\na\n")
        server.idle()
        suite.audit("clients that were gone", server)


def numbers_in(path):
    """The numbers of a file, a line each; none where it is not there."""
    try:
        with open(path) as file:
            return [int(line) for line in file]
    except OSError:
        return []


def grandchildren(suite):
    """What a program left behind writes still comes, and a connection ends with the last that holds its output."""
    with suite.start(["-v"] + server_runs.QUIET, ["sh", "-c", "(sleep 0.5; echo late) & echo hi"]) as server:
        with server.connect() as client:
            suite.expect("a program left behind", read_all(client), b"hi\nlate\n")
        server.idle()
        suite.audit("a program left behind", server)
    if suite.handed:
        return
    # they read nothing until somebody opens this
    gate = suite.path("gate")
    os.mkfifo(gate)
    script = "exec 3<&0; (exec >&- 2>&- <&3; read x < %s; cat | wc -c >> %s) & exec 3<&-; echo hi" % (gate, suite.path("left"))
    with suite.start(["-v", "-c", "1"], ["sh", "-c", script]) as server:
        clients = [server.connect() for _ in range(3)]
        for client in clients:
            sender = threading.Thread(target=send, args=(client, b"x" * MIB), daemon=True)
            sender.start()
        answers = [read_all(client) for client in clients]
        suite.holds("programs left behind that hold their input alone", set(answers) <= {b"hi\n", b""}, answers)
        server.idle()
        suite.expect("one after programs left behind", server.ask(), b"hi\n")
        server.idle()
        suite.audit("programs left behind that hold their input", server)
        for client in clients:
            client.close()
        # they read what their pipes have, and see the end of it
        with open(gate, "w"):
            pass
        server_runs.wait_until("what was left to read", lambda: len(numbers_in(suite.path("left"))) == 4)
        suite.holds("what programs left behind read", all(number <= 65536 for number in numbers_in(suite.path("left"))), numbers_in(suite.path("left")))


def faulty_programs(suite):
    """Programs that can't be found or executed, and those that crash, close their connection and leave the server serving."""
    plain = suite.path("plain-file", "x")
    os.chmod(plain, 0o644)
    for program in (["/nonexistent"], [plain], ["sh", "-c", "kill -SEGV $$"], ["sh", "-c", "exec >&- <&- 2>&-; kill -9 $$"]):
        with suite.start(["-v", "-c", "2"] + server_runs.QUIET, program) as server:
            suite.expect("five of %r" % program, [server.ask(b"x") for _ in range(5)], [b""] * 5)
            server.idle()
            events = suite.audit("five of %r" % program, server)
            suite.holds("five of %r in the log" % program, events is None or events.admitted == 5)


def stages(names):
    """What a text becomes on its way in, and on its way out."""
    of_input = {"delcr": plain_streams.deleted, "fixcrio": plain_streams.fixed}
    of_output = {"addcr": plain_streams.added, "fixcrio": plain_streams.fixed}

    def into(text):
        for name in names:
            text = of_input.get(name, bytes)(text)
        return text

    def out(text):
        for name in reversed(names):
            text = of_output.get(name, bytes)(text)
        return text

    return into, out


def wrapped(suite):
    """Every list of up to three wrappers: what the program reads, and what the client does."""
    kept = suite.path("kept")
    lists = [names for length in (0, 1, 2, 3) for names in itertools.product(("addcr", "delcr", "fixcrio"), repeat=length)]
    for names in lists:
        for recorded in ([], ["recordio"]):
            if not names and not recorded:
                continue
            words = ",".join(recorded + list(names))
            into, out = stages(names)
            with suite.start(["-v", "-k", "1", "-w", words], ["sh", "-c", "cat > '%s'; cat '%s'" % (kept, kept)]) as server:
                got = server.ask(TEXT)
                code = server.end()
                with open(kept, "rb") as file:
                    read = file.read()
                suite.expect("-w " + words, (code, read, got), (0, into(TEXT), out(into(TEXT))))
                suite.audit("-w " + words, server)


def line_by_line(suite):
    """A line comes back through wrappers before the next one is sent."""
    cases = (("fixcrio", b"%s\r\n"), ("addcr", b"%s\r\r\n"), ("delcr", b"%s\n"), ("recordio,delcr,addcr", b"%s\r\n"), ("recordio", b"%s\r\n"))
    for names, answer in cases:
        with suite.start(["-w", names], ["cat"]) as server, server.connect() as client:
            for line in (b"a", b"bc", b"", b"d"):
                client.sendall(line + b"\r\n")
                got = b""
                while not got.endswith(b"\n"):
                    got += client.recv(10)
                suite.expect("line by line through %s" % names, got, answer % line)


def big_wrapped(suite):
    """A text of 8 MiB through wrappers, in whatever pieces it comes."""
    block = b"".join(random.Random(3).choices([b"\n", b"\r\n", b"\r\r\n", b"\r", b"line", b"x" * 70, b"y" * 5000], k=4000))
    text = (block * (8 * MIB // len(block) + 1))[:8 * MIB]
    for names in (["addcr"], ["delcr"], ["fixcrio"], ["delcr", "addcr"], ["fixcrio", "delcr", "addcr"]):
        into, out = stages(names)
        wanted = out(into(text))
        with suite.start(["-k", "1", "-w", ",".join(names)], ["cat"]) as server:
            suite.expect("8 MiB through %s" % names, through(server, text), (len(wanted), hashlib.sha256(wanted).hexdigest()))
            suite.expect("the end after 8 MiB through %s" % names, server.end(), 0)


def joined(log, mark):
    """The text that lines of a recorder tell, and whether its end is told, once and last."""
    lines = [line[len(mark):] for line in log.split(b"\n") if line.startswith(mark)]
    text = b"".join(line[:-1] + (b"\n" if line.endswith(b" ") else b"") for line in lines if line != b"[EOF]")
    return text, lines.count(b"[EOF]") == 1 and lines[-1] == b"[EOF]"


def recorded(suite):
    """`-w recordio` writes what goes by on the network's side, with the peer's port; its lines are whole ones."""
    for names in (["recordio"], ["recordio", "fixcrio"], ["recordio", "delcr", "addcr"]):
        into, out = stages(names[1:])
        with suite.start(["-v", "-k", "2", "-w", ",".join(names)], ["cat"]) as server:
            for _ in range(2):
                with server.connect() as client:
                    port = client.getsockname()[1]
                    send(client, TEXT)
                    got = read_all(client)
                server.wait_line(r"%d > \[EOF\]" % port)
                ways = [joined(server.log(), b"%d %s " % (port, way)) for way in (b"<", b">")]
                suite.expect("records under %r" % names, (got, ways), (out(into(TEXT)), [(TEXT, True), (got, True)]))
            suite.expect("the end under %r" % names, server.end(), 0)
            forms = (b"tcpserver: ", b"%d < " % port, b"%d > " % port)
            lines = [line for line in server.log().split(b"\n")[:-1] if not line.startswith(forms)]
            suite.holds("whole lines under %r" % names, all(line.split(b" ")[0].isdigit() for line in lines), lines)
            suite.audit("records under %r" % names, server)
    with suite.start(["-q", "-k", "1", "-w", "recordio"], ["cat"]) as server:
        with server.connect() as client:
            port = client.getsockname()[1]
            client.sendall(b"ab\n")
            client.recv(3)
            client.sendall(b"cd")
            client.recv(2)
        suite.expect("the end of a record", server.end(), 0)
        for way in "<", ">":
            wanted = ["%d %s ab " % (port, way), "%d %s cd+" % (port, way), "%d %s [EOF]" % (port, way)]
            suite.expect("a record, way %s" % way, [line for line in server.lines() if line.split(" ")[1] == way], wanted)


CHECKS = [
    big_echo, every_byte, slow_reader, client_ends_first, program_ends_first, output_ends_first, input_ends_first, program_that_does_not_read,
    client_that_does_not_read, vanishing_clients, vanished_before, grandchildren, faulty_programs, wrapped, line_by_line, big_wrapped, recorded,
]
COMMON = [
    big_echo, every_byte, slow_reader, client_ends_first, program_ends_first, output_ends_first, input_ends_first, program_that_does_not_read,
    client_that_does_not_read, vanishing_clients, vanished_before, grandchildren, faulty_programs,
]
HANDED = COMMON
