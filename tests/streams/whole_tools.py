"""Parts of whole tools that no clause reaches: a system without locks, calls for a program that fail, hundreds of
arguments, variables and settings, tens of thousands of small reads, and a script of 200 MiB.
"""
import concurrent.futures
import os
import select
import shutil
import socket
import subprocess
import tempfile
import threading

from shared import compiled_files, failed_calls
from shared.checks import Checks, needs_proved
from shared.server_runs import read_all

# how long what ends within seconds is waited for, in seconds
LIMIT = 600
MANY = 200
READS = 25_000
MEBIBYTE = 1 << 20
SCRIPT = 200
OLD, NEW = b":deny\n", b"10.:allow\n:deny\n"
FRESH = "tcprules: device fault at fresh\n"
# one argument is empty, one has blanks, and the last one is long
ARGUMENTS = ["argument %d" % number for number in range(MANY - 2)] + ["", "x" * 10_000]
VARIABLES = {"VARIABLE_%d" % number: "value %d" % number for number in range(MANY)}
SETTINGS = {"SETTING_%d" % number: "set %d" % number for number in range(MANY)}


# locks


def check_locks(checks, program, folder):
    """A folder without locks, in which the lock of the scratch file fails: exit code 111, the rules are not touched, and no scratch file is left."""
    library = failed_calls.Library(folder)
    place = os.path.join(folder, "locked")
    os.mkdir(place)

    def install(text, **variables):
        words = [program, "tcprules", "-v", "rules", "tmp"]
        ended = subprocess.run(words, cwd=place, input=text, env=variables, stdout=subprocess.PIPE, stderr=subprocess.PIPE, timeout=LIMIT)
        return ended.returncode, ended.stdout, ended.stderr.decode()

    checks.expect("the old rules", install(OLD), (0, b"", ""))
    old = compiled_files.content(place, "rules")
    for error, why in (("ENOLCK", "No locks available"), ("EOPNOTSUPP", "Operation not supported"), ("EIO", "Input/output error")):
        for first, last in ((1, 1), (1, failed_calls.ALL)):
            name = "fcntl, %s, calls %d to %d: " % (error, first, last)
            run = library.run("fcntl", error, first, last)
            ended = install(NEW, **run.environment)
            checks.expect(name + "how it ends", ended, (111, b"", FRESH + "tcprules: cause: tmp: %s\n" % why))
            checks.holds(name + "a call failed", run.end())
            checks.expect(name + "what stands there", os.listdir(place), ["rules"])
            checks.holds(name + "the rules are the old ones", compiled_files.content(place, "rules") == old)
    checks.expect("with locks", install(NEW), (0, b"", ""))
    checks.expect("with locks: what stands there", os.listdir(place), ["rules"])
    checks.holds("the new rules stand", compiled_files.content(place, "rules") not in (None, old))


# calls for a program

# calls that fail, and what comes of it: the fault, whether all bytes passed before, and the calls that were made, which are one wait and one kill at most
START, WAITED, KILLED = ["posix_spawn"], ["posix_spawn", "waitpid"], ["posix_spawn", "kill", "waitpid"]
FAILING = [
    ({}, None, True, WAITED),
    ({"posix_spawn": "ENOENT"}, "cannot start", False, START),
    ({"posix_spawn": "EACCES"}, "cannot start", False, START),
    ({"posix_spawn": "ENOEXEC"}, "cannot start", False, START),
    ({"posix_spawn": "ENOMEM"}, "out of memory", False, START),
    ({"waitpid": "EIO"}, "device fault", True, WAITED),
    ({"waitpid": "ECHILD"}, "device fault", True, WAITED),
    ({"waitpid": "ENOMEM"}, "out of memory", True, WAITED),
    # (without a thread for its input the program is given up)
    ({"pthread_create": "EAGAIN"}, "cannot start", False, KILLED),
    ({"pthread_create": "EAGAIN", "kill": "EPERM"}, "cannot start", False, KILLED),
    ({"pthread_create": "EAGAIN", "kill": "EPERM", "waitpid": "EIO"}, "cannot start", False, KILLED),
]
SENT, SAYS = b"down\n.\n", "cat >given; printf 'up\\nend'; exit 3"
# what comes through each tool, both ways
PASSED = {"fixcrio": (b"down\r\n.\r\n", b"up\r\nend"), "recordio": (SENT, b"up\nend")}


def check_calls(checks, program, folder):
    """How `fixcrio` and `recordio` end if calls for their program fail, what came through, and how often they waited for the program and killed it."""
    library = failed_calls.Library(folder)
    for tool in ("fixcrio", "recordio"):
        for failing, fault, has_passed, calls in FAILING:
            run = failed_calls.Run(library).noting("posix_spawn", "kill", "waitpid")
            for call, error in failing.items():
                run.also(call, error)
            place, variables = tempfile.mkdtemp(dir=folder), dict(os.environ, **run.environment)
            words = [program, tool, shutil.which("sh"), "-c", SAYS]
            ended = subprocess.run(words, cwd=place, input=SENT, env=variables, stdout=subprocess.PIPE, stderr=subprocess.PIPE, timeout=LIMIT)
            name, mark = "%s under %r: " % (tool, failing), tool.encode() + b": "
            given, written = PASSED[tool] if has_passed else (b"", b"")
            told = [line for line in ended.stderr.split(b"\n") if line.startswith(mark)]
            wanted = (3, written, []) if fault is None else (111, written, [mark + fault.encode()])
            checks.expect(name + "how it ends", (ended.returncode, ended.stdout, told), wanted)
            checks.expect(name + "what its program was given", compiled_files.content(place, "given") or b"", given)
            checks.expect(name + "its calls for the program", run.noted(), calls)


# arguments and variables


def lines_of(variables):
    return sorted("%s=%s" % pair for pair in variables.items())


def check_words_of_streams(checks, program):
    """What the program of `fixcrio` and of `recordio` is given."""
    for tool in ("fixcrio", "recordio"):
        def run(words, tool=tool, **how):
            ended = subprocess.run([program, tool] + words, input=b"", stdout=subprocess.PIPE, stderr=subprocess.DEVNULL, timeout=LIMIT, **how)
            return ended.returncode, ended.stdout.decode().replace("\r\n", "\n").split("\n")[:-1]

        checks.expect(tool + ": the arguments of its program", run(["printf", r"%s\n"] + ARGUMENTS), (0, ARGUMENTS))
        code, lines = run(["env"], env=dict(VARIABLES, PATH=os.environ["PATH"]))
        checks.expect(tool + ": the variables of its program", (code, sorted(lines)), (0, lines_of(dict(VARIABLES, PATH=os.environ["PATH"]))))


class Served:
    """A server that serves one client and ends, on a port that it chose itself."""

    def __init__(self, program, options, words, **how):
        command = [program, "tcpserver", "-1", "-k", "1"] + options + ["127.0.0.1", "0"] + words
        self.process = subprocess.Popen(command, stdin=subprocess.DEVNULL, stdout=subprocess.PIPE, stderr=subprocess.DEVNULL, **how)
        self.port = int(self.process.stdout.readline() or 0)

    def __enter__(self):
        return self

    def __exit__(self, fault, *_):
        if fault:
            self.process.kill()
        self.process.wait(LIMIT)
        self.process.stdout.close()

    def connect(self):
        return socket.create_connection(("127.0.0.1", self.port), LIMIT)

    def answer(self):
        """What a client is sent that sends nothing, line by line."""
        with self.connect() as client:
            client.shutdown(socket.SHUT_WR)
            return read_all(client).decode().split("\n")[:-1]


def check_words_of_the_server(checks, program, folder):
    """What a program of the server is given, with its rule's settings, by both ways of holding the connection."""
    text = "127.:allow" + "".join(',%s="%s"' % pair for pair in SETTINGS.items()) + "\n:deny\n"
    subprocess.run([program, "tcprules", "rules", "tmp"], input=text.encode(), cwd=folder, check=True, timeout=LIMIT)
    how = {"cwd": folder, "env": dict(VARIABLES, PATH=os.environ["PATH"])}
    for way in ("-s", "-S"):
        with Served(program, [way], ["printf", r"%s\n"] + ARGUMENTS, **how) as server:
            checks.expect("tcpserver %s: the arguments of its program" % way, server.answer(), ARGUMENTS)
        with Served(program, [way, "-x", "rules"], ["env"], **how) as server:
            lines = sorted(line for line in server.answer() if not line.startswith(("TCP", "PROTO=")))
        wanted = lines_of(dict(VARIABLES, PATH=os.environ["PATH"], **SETTINGS))
        checks.expect("tcpserver %s: the variables of its program" % way, lines, wanted)


# small reads


def play(send, receive, size):
    """Sends one small piece after another, each when the one before has come back: how many came back whole."""
    for number in range(READS):
        send(b"%05d\n" % number)
        got = b""
        while len(got) < size:
            piece = receive(size - len(got))
            if not piece:
                return number
            got += piece
        if got.replace(b"\r", b"") != b"%05d\n" % number:
            return number
    return READS


def reads_of_a_tool(program, words, size, folder):
    """A tool between two pipes: how many pieces it passed on, how it ended, and how many lines it recorded. One that passes nothing on for long is
    ended."""
    path = os.path.join(folder, "record of " + words[0])
    with open(path, "wb") as record:
        process = subprocess.Popen([program] + words, bufsize=0, stdin=subprocess.PIPE, stdout=subprocess.PIPE, stderr=record)

    def receive(most):
        return process.stdout.read(most) if select.select([process.stdout], [], [], LIMIT)[0] else b""

    count = play(process.stdin.write, receive, size)
    if count < READS:
        process.kill()
    process.stdin.close()
    rest = process.stdout.read()
    code = process.wait(LIMIT)
    process.stdout.close()
    with open(path, "rb") as record:
        return count, rest, code, record.read().count(b"\n")


def reads_of_a_server(program, wrappers, size):
    """A pumped connection: how many pieces it passed on, and what followed."""
    with Served(program, ["-S"] + wrappers, ["cat"]) as server, server.connect() as client:
        client.setsockopt(socket.IPPROTO_TCP, socket.TCP_NODELAY, 1)
        count = play(client.sendall, client.recv, size)
        client.shutdown(socket.SHUT_WR)
        return count, read_all(client)


def check_reads(checks, program, folder):
    """Each piece is a read of its own, since the next one comes only after it. All tools stand side by side."""
    tools = [(["addcr"], 7, 0), (["delcr"], 6, 0), (["fixcrio", "cat"], 7, 0), (["recordio", "cat"], 6, 2 * READS + 2)]
    servers = [([], 6), (["-w", "recordio,fixcrio"], 7)]
    with concurrent.futures.ThreadPoolExecutor(len(tools) + len(servers)) as pool:
        of_tools = [pool.submit(reads_of_a_tool, program, words, size, folder) for words, size, _ in tools]
        of_servers = [pool.submit(reads_of_a_server, program, wrappers, size) for wrappers, size in servers]
        for (words, _, lines), found in zip(tools, of_tools):
            checks.expect("small reads of " + words[0], found.result(), (READS, b"", 0, lines))
        for (wrappers, _), found in zip(servers, of_servers):
            checks.expect("small reads of a server %r" % wrappers, found.result(), (READS, b""))


# a long script


@needs_proved(1)
def check_script(checks, program):
    """Comments of a mebibyte each, with a question behind each of them."""
    process = subprocess.Popen([program, "rulesim"], stdin=subprocess.PIPE, stdout=subprocess.PIPE, stderr=subprocess.PIPE)
    comment = b"#" + b"x" * (MEBIBYTE - 2) + b"\n"

    def write():
        process.stdin.write(b"|10.:deny\n|:allow\ninstall\n")
        for number in range(SCRIPT):
            process.stdin.write(comment + b"ask %d.0.0.1\n" % (10 + number % 2))
        process.stdin.close()

    writer = threading.Thread(target=write, daemon=True)
    writer.start()
    output = process.stdout.read()
    errors = process.stderr.read()
    code = process.wait(LIMIT)
    writer.join(LIMIT)
    wanted = b"installed\n" + (b"rule 10.:\ndeny connection\n" + b"rule :\nallow connection\n") * (SCRIPT // 2)
    checks.expect("a script of %d MiB" % SCRIPT, (code, output == wanted, len(output), errors), (0, True, len(wanted), b""))


def check(program, failures):
    """How many tests there were."""
    checks = Checks("whole_tools", failures)
    with tempfile.TemporaryDirectory() as folder:
        if shutil.which("gcc"):
            check_locks(checks, program, folder)
            check_calls(checks, program, folder)
        else:
            print("whole_tools: there is no gcc: locks and calls for a program that fail are skipped")
        check_words_of_streams(checks, program)
        check_words_of_the_server(checks, program, folder)
        check_reads(checks, program, folder)
        check_script(checks, program)
    return checks.tests
