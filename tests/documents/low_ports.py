"""Runs the services of the cookbook as root, each at its own port, most of them below 1024, in a network of their own:
under supervise, under runsv, and by the lines of the recipe for such ports. Their programs are stand-ins that show
whose processes they are and what they may do.

If a program is not installed, its tests are skipped with a message.
"""
import json
import os
import pwd
import re
import shutil
import subprocess
import sys
import tempfile

from documents.cookbook import ACCOUNT, CHECKPASSWORD, COOKBOOK, POP3D, POPUP, Kitchen, converse, status_of
from shared.checks import LIMIT, Checks, python_words
from shared.server_runs import Amiss, listens, wait_until

SHOW = "#!/bin/sh\nexec cat /proc/self/status\n"
# the right to listen at such a port, and all rights of root's in a set of bits
PORT_RIGHT = 1 << 10
# each service: its port, its account if it is not ours, and the rights of its server (None: those of root) and of its program
SERVICES = {
    "mail": (25, ACCOUNT, PORT_RIGHT, 0), "qmail": (25, ACCOUNT, PORT_RIGHT, 0), "exim": (25, ACCOUNT, PORT_RIGHT, PORT_RIGHT),
    "pop3": (110, "mail", None, 0), "git": (9418, ACCOUNT, 0, 0), "http": (8080, ACCOUNT, 0, 0),
}
# what starts a service, what tells its number, and what ends it
SUPERVISORS = {
    "supervise": (("supervise", "svstat", "svc"), "svstat %s", r"up \(pid (\d+)\)", "svc -dx %s"),
    "runsv": (("runsv", "sv", "svlogd"), "sv status %s", r"run: .*?\(pid (\d+)\)", "sv force-stop %s; sv exit %s"),
}
# what the log's run scripts need too
LOGS = ("multilog", "svlogd")


def needs(kitchen, *programs):
    """Whether these programs are there; else it says that they are not."""
    missing = [program for program in programs if not shutil.which(program, path=kitchen.environment["PATH"])]
    if missing:
        print("low_ports: %s not installed: skipped" % ", ".join(missing), file=sys.stderr)
    return not missing


def of_process(number):
    """The user and the rights of a process."""
    with open("/proc/%d/status" % number, encoding="latin-1") as file:
        return status_of(file.read())


def try_service(checks, kitchen, supervisor, name):
    """Starts a service, talks to it, and ends it."""
    _, ask, told, end = SUPERVISORS[supervisor]
    port, account, server, program = SERVICES[name]
    service = os.path.join(kitchen.examples, name)
    what = "%s under %s" % (name, supervisor)
    kitchen.start([supervisor, service], "%s-%s" % (name, supervisor))
    try:
        wait_until(what, lambda: listens(port))
        number = int(re.search(told, kitchen.run(ask % service).stdout).group(1))
        of_server = of_process(number)
        whole = of_process(os.getpid())[1]
        wanted = (0, whole) if server is None else (pwd.getpwnam(ACCOUNT).pw_uid, server)
        checks.expect(what + ": whose server it is, and its rights", of_server, wanted)
        answer = converse(port, "USER mail\nPASS secret\n" if name == "pop3" else "")
        checks.expect(what + ": whose program it is, and its rights", status_of(answer), (pwd.getpwnam(account).pw_uid, program))
    finally:
        kitchen.run(end.replace("%s", service))
        wait_until("the end of " + what, lambda: not listens(port))


def recipe_lines():
    """The lines of root in the recipe for such ports."""
    with open(COOKBOOK, encoding="utf-8") as file:
        section = file.read().partition("\n## Ports below 1024\n")[2].partition("\n## ")[0]
    return re.findall(r"^    # ((?:.*\\\n)*.*)$", section, re.M)


def try_lines(checks, kitchen):
    """The lines of the recipe, with an account that is here, and what the recipe says does not work."""
    show = os.path.join(kitchen.bin, "show")
    kitchen.command("show", SHOW)
    nobody, whole = pwd.getpwnam(ACCOUNT).pw_uid, of_process(os.getpid())[1]
    lines = recipe_lines()
    checks.expect("lines of the recipe", len(lines), 2)
    for line, wanted in zip(lines, ((0, whole), (nobody, PORT_RIGHT))):
        here = re.sub(r"/var/qmail/bin/qmail-smtpd", show, line.replace("qmaild", ACCOUNT).replace("nofiles", "nogroup"))
        server = kitchen.start(["sh", "-c", "exec " + here], "line-log")
        wait_until("a server by a line of the recipe", lambda: listens(25))
        checks.expect(line + ": whose server it is, and its rights", of_process(server.pid), wanted)
        checks.expect(line + ": whose program it is, and its rights", status_of(converse(25, "")), (nobody, 0))
        server.terminate()
        server.wait(LIMIT)
    for front in ("setuidgid %s" % ACCOUNT, "setpriv --reuid %s --regid nogroup --clear-groups" % ACCOUNT):
        ended = kitchen.run("%s tcpserver 0 25 true" % front)
        checks.expect(front + " in front of the server", (ended.returncode, ended.stdout.partition("\n")[0]), (111, "tcpserver: cannot listen"))


def prepare(kitchen):
    """The programs of the services, and the rules of those that have none in their folders."""
    os.makedirs(os.path.join(kitchen.folder, "qmail", "bin"))
    for name in ("mailfront", "exim4", "git", "micro-httpd", "../qmail/bin/qmail-smtpd"):
        kitchen.command(name, SHOW)
    for name, text in (("../qmail/bin/qmail-popup", POPUP), ("../qmail/bin/qmail-pop3d", POP3D), ("checkpassword", CHECKPASSWORD)):
        kitchen.command(name, text)
    kitchen.run("make -s -C examples/mail; echo :allow | tcprules rules.cdb rules.tmp; cp rules.cdb examples/exim")
    kitchen.environment.update(ACCOUNT=ACCOUNT, GROUP="nogroup", QMAIL=os.path.join(kitchen.folder, "qmail"), RULES=os.path.join(kitchen.folder, "rules.cdb"))


def apart(program):
    """All of it, where nobody else has a network: it prints how many tests there were, and the failures."""
    failures = []
    checks = Checks("low_ports", failures)
    subprocess.run(["ip", "link", "set", "lo", "up"], check=True, timeout=LIMIT)
    for supervisor, (programs, *_) in [("", ((),))] + list(SUPERVISORS.items()):
        with tempfile.TemporaryDirectory() as folder:
            os.chmod(folder, 0o755)
            kitchen = Kitchen(program, folder)
            try:
                prepare(kitchen)
                if not supervisor and needs(kitchen, "setpriv", "setuidgid"):
                    try_lines(checks, kitchen)
                if supervisor and needs(kitchen, "setpriv", *programs, *(LOGS if supervisor == "runsv" else ())):
                    for name in SERVICES:
                        try_service(checks, kitchen, supervisor, name)
            except (Amiss, OSError, ValueError, LookupError, AttributeError, subprocess.SubprocessError) as fault:
                checks.holds(supervisor or "the recipe's lines", False, "%s: %s" % (type(fault).__name__, fault))
            finally:
                kitchen.close()
    print(json.dumps([checks.tests, failures]))


def check(program, failures):
    """How many tests there were."""
    missing = [name for name in ("unshare", "ip") if not shutil.which(name, path=os.environ["PATH"] + ":/usr/sbin:/sbin")]
    if os.geteuid() != 0 or missing:
        print("low_ports: skipped: %s" % ("not root" if os.geteuid() else ", ".join(missing) + " not installed"))
        return 0
    environment = dict(os.environ, PATH=os.environ["PATH"] + ":/usr/sbin:/sbin")
    if subprocess.run(["unshare", "--net", "true"], env=environment, stderr=subprocess.DEVNULL, timeout=LIMIT).returncode:
        print("low_ports: skipped: no network of its own can be had here")
        return 0
    words = ["unshare", "--net"] + python_words("documents.low_ports.apart", os.path.abspath(program))
    ended = subprocess.run(words, env=environment, stdin=subprocess.DEVNULL, stdout=subprocess.PIPE, timeout=LIMIT)
    tests, found = json.loads(ended.stdout)
    failures += found
    return tests
