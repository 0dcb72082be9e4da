"""Kills at random moments: of `tcprules`, while a server reads its rules; of a server, which is started again at once at the same port with the
same rules; of both. Each connection is decided by one whole text, no older than the last one that was installed before it came, and each server
listens as soon as the one before is gone."""
import os
import random
import signal
import socket
import subprocess
import threading
import time

from shared import compiled_files, log_forms, server_runs

KILLED_INSTALLATIONS = 400
KILLED_SERVERS = 120
CLIENTS = 6
# rules beside those that are asked for, so that an installation takes a while
FILLING = 40000
FILLED = "".join("10.%d.%d.%d:deny\n" % (n >> 16, n >> 8 & 255, n & 255) for n in range(FILLING)).encode()
SHOW = ["sh", "-c", "echo $A $B $C"]
ENDING = [signal.SIGKILL, signal.SIGKILL, signal.SIGTERM, signal.SIGINT, signal.SIGHUP]


def seed():
    return os.environ.get("HOSTILE_SEED", "1")


def text_of(number):
    """Text `number`: it denies one of four networks, and names itself three times in each other rule."""
    value = 'A="%d",B="%d",C="%d"' % (number, number, number)
    lines = ["127.0.%d.:%s" % (network, "deny" if network == number % 4 else "allow," + value) for network in range(4)]
    return FILLED + ("\n".join(lines) + "\n").encode()


class Installer:
    """Installs one text after another, and kills some of them."""

    def __init__(self, suite, path):
        self.words = [suite.program, "tcprules"] if not suite.original else ["/usr/bin/tcprules"]
        self.words += [path, path + ".tmp"]
        self.series = random.Random("installer " + seed())
        # the last text that is known to be installed, and the last that was begun
        self.done = self.begun = 0
        self.killed = self.whole = 0
        self.lasted = min(self.timed() for _ in range(5))

    def timed(self):
        """How long a whole installation takes."""
        began = time.monotonic()
        self.install()
        return time.monotonic() - began

    def install(self, kill_after=None):
        self.begun += 1
        number = self.begun
        process = subprocess.Popen(self.words, stdin=subprocess.PIPE, stdout=subprocess.DEVNULL, stderr=subprocess.DEVNULL)
        writer = threading.Thread(target=self.give, args=(process, text_of(number)))
        writer.start()
        if kill_after is not None:
            time.sleep(kill_after)
            process.kill()
        code = process.wait(server_runs.WAIT)
        writer.join()
        if code == 0:
            self.done = number
            self.whole += 1
        else:
            self.killed += 1

    @staticmethod
    def give(process, text):
        try:
            process.stdin.write(text)
            process.stdin.close()
        except OSError:
            pass

    def install_or_kill(self):
        """One installation; most are killed, at a random moment."""
        is_killed = self.series.randrange(5) > 0
        self.install(self.series.uniform(0, 1.3 * self.lasted) if is_killed else None)


class Askers:
    """Clients that ask until they are told to end; what is amiss with their answers."""

    def __init__(self, port, installer, may_fail):
        self.port, self.installer, self.may_fail = port, installer, may_fail
        self.over = False
        self.amiss, self.whole, self.failed = [], 0, 0
        self.threads = [threading.Thread(target=self.run, args=(n,), daemon=True) for n in range(CLIENTS)]
        for thread in self.threads:
            thread.start()

    def run(self, place):
        number = 0
        while not self.over:
            number += 1
            network = (place + number) % 4
            first = self.installer.done
            try:
                answer = self.ask("127.0.%d.%d" % (network, place + 1))
            except OSError as fault:
                answer = None
                if not self.may_fail:
                    self.amiss.append(repr(fault))
                    time.sleep(0.01)
            self.judge(network, answer, range(first, self.installer.begun + 1))

    def ask(self, source):
        with socket.socket() as client:
            client.settimeout(server_runs.WAIT)
            client.bind((source, 0))
            client.connect(("127.0.0.1", self.port))
            client.shutdown(socket.SHUT_WR)
            pieces = []
            while piece := client.recv(1000):
                pieces.append(piece)
            return b"".join(pieces)

    def judge(self, network, answer, texts):
        """Whether one of these texts gives this answer; a server that was killed may give none, or a front."""
        allowed = [b"%d %d %d\n" % (n, n, n) for n in texts if n % 4 != network]
        denied = any(n % 4 == network for n in texts)
        if answer in allowed or (answer == b"" and denied):
            self.whole += 1
        elif self.may_fail and (not answer or any(text.startswith(answer) for text in allowed)):
            self.failed += 1
        elif answer is not None:
            self.amiss.append((network, answer, texts))

    def finish(self):
        self.over = True
        for thread in self.threads:
            thread.join(server_runs.WAIT)
        return self


def killed_installations(suite):
    """`tcprules` is killed at random moments while clients come to a server that follows the rules."""
    path = suite.path("killed.cdb")
    installer = Installer(suite, path)
    with suite.start(["-v", "-x", path] + server_runs.QUIET, SHOW) as server:
        askers = Askers(server.port, installer, False)
        for number in range(10 * KILLED_INSTALLATIONS):
            # (as many more as it takes until enough have come)
            if number >= KILLED_INSTALLATIONS and askers.whole > 200 and installer.killed > 100:
                break
            installer.install_or_kill()
        askers.finish()
        installer.install()
        last = installer.begun
        suite.expect("answers that no whole text gives", askers.amiss[:3], [])
        suite.holds("clients beside killed installations: %d" % askers.whole, askers.whole > 200, askers.whole)
        suite.holds("installations: %d killed, %d whole" % (installer.killed, installer.whole), installer.killed > 100, installer.killed)
        network = (last + 1) % 4
        suite.expect("the last text", server.ask(source="127.0.%d.1" % network), b"%d %d %d\n" % (last, last, last))
        suite.expect("it is installed whole", installer.done, last)
        server.idle()
        suite.expect("no rules were damaged", [line for line in server.lines() if line.startswith("drop")], [])
        suite.audit("killed installations", server)


class Killer:
    """A server that is killed and started again at one port, and what its clients meet."""

    def __init__(self, suite, options, program):
        self.suite, self.options, self.program = suite, options, program
        self.series = random.Random("killer " + seed())
        self.server = suite.start(options, program)
        self.port = self.server.port
        # how often the port was not free at the first try: a program that was just being started may hold it for a moment
        self.again = 0

    def kill(self):
        """Kills it after a while, starts it again at once, and looks whether its log is legal as far as it goes."""
        time.sleep(self.series.uniform(0, 0.06))
        old = self.server
        old.process.send_signal(self.series.choice(ENDING))
        code = old.process.wait(server_runs.WAIT)
        self.server = server_runs.wait_until("the port", self.start)
        if self.suite.original:
            return None
        self.suite.holds("it ended by the signal", code < 0, code)
        # (one that was killed before its first status line has let nobody in)
        if b"tcpserver: status: " not in old.log():
            self.suite.expect("connections before its first status line", b" from " in old.log(), False)
            return None
        # (a line that is being written as the process is killed may be cut where a page of the file ends)
        log = old.log()
        events = log_forms.events_of(log[:log.rfind(b"\n") + 1])
        return events if events.faults else self.replay(events)

    def start(self):
        """Starts it at its port, if that is free."""
        server = self.suite.start(self.options, self.program, port=self.port, may_end=True)
        if server.port is not None:
            return server
        self.again += 1
        server.stop()
        return None

    def replay(self, events):
        ended = subprocess.run([self.suite.program, "rulesim"], input=events.script().encode(), stdout=subprocess.PIPE, timeout=server_runs.WAIT)
        return None if ended.stdout.decode() == events.report() else events


def running_of(program):
    """How many processes run this program."""
    found = 0
    for name in os.listdir("/proc"):
        if name.isdigit():
            try:
                found += os.readlink("/proc/%s/exe" % name) == program
            except OSError:
                pass
    return found


def killed_servers(suite):
    """A server is killed at random moments while clients come, and started again at once: it listens, serves, and leaves no program behind."""
    program, table = suite.child()
    program = os.path.realpath(program)
    path = suite.install("127.0.1.:deny\n:allow\n", "servers.cdb")
    before = compiled_files.content(path)
    killer = Killer(suite, ["-v", "-c", "20", "-x", path] + server_runs.QUIET, [program, table, "0"])
    over, answers = threading.Event(), set()

    def come(place):
        while not over.is_set():
            try:
                with socket.create_connection(("127.0.0.1", killer.port), server_runs.WAIT) as client:
                    time.sleep(0.002 * place)
                    client.shutdown(socket.SHUT_WR)
                    answers.add(server_runs.read_all(client))
            except OSError:
                pass

    threads = [threading.Thread(target=come, args=(n,), daemon=True) for n in range(CLIENTS)]
    for thread in threads:
        thread.start()
    illegal = []
    for _ in range(KILLED_SERVERS):
        events = killer.kill()
        illegal += [events.faults or events.script()[-300:]] if events else []
        suite.expect("a server that was started again", killer.server.ask(), b"hi\n")
        suite.expect("it denies as before", killer.server.ask(source="127.0.1.1"), b"")
    over.set()
    for thread in threads:
        thread.join(server_runs.WAIT)
    suite.expect("logs of killed servers", illegal[:3], [])
    # a program that was being started then holds it until it runs; a supervisor would try again too
    suite.holds("a killed server's port is free again: %d tries more" % killer.again, killer.again < KILLED_SERVERS, killer.again)
    suite.expect("what clients of killed servers got", answers - {b"hi\n", b"hi", b"h", b""}, set())
    killer.server.idle()
    # one that was killed by the end of its pipe is still in the table
    server_runs.wait_until("the ends of programs", lambda: running_of(program) == 0)
    suite.expect("programs left behind", running_of(program), 0)
    suite.expect("the rules file", compiled_files.content(path), before)
    suite.audit("the last server", killer.server)
    killer.server.stop()


def both_killed(suite):
    """Installations and servers are killed at once."""
    path = suite.path("both.cdb")
    installer = Installer(suite, path)
    killer = Killer(suite, ["-v", "-c", "20", "-x", path] + server_runs.QUIET, SHOW)
    askers, over = Askers(killer.port, installer, True), threading.Event()

    def install():
        while not over.is_set():
            installer.install_or_kill()

    thread = threading.Thread(target=install, daemon=True)
    thread.start()
    illegal = []
    for number in range(5 * KILLED_SERVERS):
        # (as many more as it takes until enough have come)
        if number >= KILLED_SERVERS // 2 and askers.whole > 50 and installer.killed > 20:
            break
        events = killer.kill()
        illegal += [events.faults or events.script()[-300:]] if events else []
    over.set()
    thread.join(server_runs.WAIT)
    askers.finish()
    suite.expect("logs of killed servers beside installations", illegal[:3], [])
    suite.expect("answers that no whole text gives", askers.amiss[:3], [])
    suite.holds("clients: %d whole, %d cut; installations: %d killed, %d whole" % (askers.whole, askers.failed, installer.killed, installer.whole),
                askers.whole > 50 and installer.killed > 20, (askers.whole, installer.killed))
    installer.install()
    last = installer.begun
    suite.expect("the last text of all", killer.server.ask(source="127.0.%d.1" % ((last + 1) % 4)), b"%d %d %d\n" % (last, last, last))
    killer.server.idle()
    suite.audit("the last server of all", killer.server)
    killer.server.stop()


CHECKS = [killed_installations, killed_servers, both_killed]
COMMON = CHECKS
HANDED = [killed_servers, both_killed]
