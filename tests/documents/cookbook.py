"""Runs the recipes of docs/COOKBOOK.md and docs/COOKBOOK_RULES.md as they stand: the files of examples/, and each line
behind a `$`, with what it prints below.

If the programs of a recipe are not installed, or the recipe needs root, it is skipped with a message. The environment
gives the run scripts a free port and an account, and changes nothing else of them.
"""
import os
import pwd
import re
import shutil
import socket
import subprocess
import tempfile
import threading
import time

from shared import log_forms
from shared.checks import TOP, Checks
from shared.server_runs import WAIT, Amiss, free_port, listens, wait_until

COOKBOOKS = ("docs/COOKBOOK.md", "docs/COOKBOOK_RULES.md")
COOKBOOK = os.path.join(TOP, COOKBOOKS[0])
TOOLS = ("tcpserver", "tcprules", "tcprulescheck", "addcr", "delcr", "fixcrio", "recordio", "rulesim")
ACCOUNT = "nobody"
# longer than a step of the times of files, in seconds
STEP = 0.03
# what the programs of qmail are, which is in no distribution: a greeting, and a queue that is setuid and shows whose process it is
SMTPD = """#!/bin/sh
printf '220 ESMTP\\r\\n'
echo "from $TCPREMOTEIP relay ${RELAYCLIENT-no}"
exec "$(dirname "$0")/qmail-queue" /proc/self/status
"""
POPUP = """#!/bin/sh
printf '+OK <1@%s>\\r\\n' "$1"
shift
read -r _ user
printf '+OK\\r\\n'
read -r _ password
exec 4<&0
printf '%s\\0%s\\0time\\0' "${user%?}" "${password%?}" | "$@" 3<&0 0<&4
"""
CHECKPASSWORD = """#!/bin/sh
user=$(tr '\\0' '\\n' <&3 | head -n 1)
exec setpriv --reuid "$user" --regid "$(id -g "$user")" --clear-groups "$@" 3<&-
"""
POP3D = """#!/bin/sh
echo "+OK $1"
exec cat /proc/self/status
"""
# a tcprules that is slow to end
RENAMED = """#!/bin/sh
case $1 in -N) exit 0 ;; esac
printf new > "$2" && mv "$2" "$1" && exec sleep 60
"""
# where Exim may deliver nothing, and knows as its own only this domain
EXIM = """spool_directory = %(spool)s
log_file_path = %(spool)s/%%slog
primary_hostname = mail.example
domainlist local_domains = mail.example
acl_smtp_rcpt = recipients
queue_only = true
keep_environment =
begin acl
recipients:
  accept hosts = :
  accept domains = +local_domains
  deny message = relay not permitted
"""
EXIM_USER = "Debian-exim"
# what `ssh` is in the recipe for many machines: an account's home is a folder of the machine's name
SSH = """#!/bin/sh
while [ $# -gt 0 ]; do
    case $1 in
        -l) shift 2 ;;
        -n) shift; exec < /dev/null ;;
        *) break ;;
    esac
done
host=${1#*@}; shift
cd "$MACHINES/$host" && exec sh -c "$*"
"""


class Missing(Exception):
    """What a recipe needs and is not there."""


class Recipe:
    """A section of the cookbook: its files and its lines behind a prompt, each with the lines below it."""

    def __init__(self, title):
        self.title = title
        self.files = []
        self.commands = []


def blocks(text):
    """The indented blocks of a section: each with the line before it."""
    lines, before, block = text.split("\n"), "", []
    for line in lines + ["end"]:
        if line.startswith("    ") or (block and not line.strip()):
            block.append(line[4:])
            continue
        if block:
            yield before, "\n".join(block).rstrip("\n")
            block = []
        if line.strip():
            before = line


def sections():
    """The sections of both documents."""
    for name in COOKBOOKS:
        with open(os.path.join(TOP, name), encoding="utf-8") as file:
            yield from re.split(r"^## ", file.read(), flags=re.M)[1:]


def recipes():
    """The recipes of both documents, by their titles."""
    found = {}
    for section in sections():
        title, _, body = section.partition("\n")
        recipe = found[title] = Recipe(title)
        for before, block in blocks(body):
            label = re.fullmatch(r"`(examples/[\w/.-]+)`:", before)
            if label:
                recipe.files.append((label.group(1), block + "\n"))
            elif block.startswith("$ "):
                for part in re.split(r"^\$ ", block, flags=re.M)[1:]:
                    command, _, below = part.partition("\n")
                    recipe.commands.append((command, below.rstrip("\n")))
    return found


# a place to cook


class Kitchen:
    """A copy of the examples, the tools under their names, and what is started there."""

    def __init__(self, program, folder):
        self.program = program
        self.folder = folder
        self.bin = os.path.join(folder, "bin")
        self.examples = os.path.join(folder, "examples")
        os.mkdir(self.bin)
        shutil.copytree(os.path.join(TOP, "examples"), self.examples)
        os.symlink(os.path.join(TOP, "scripts"), os.path.join(folder, "scripts"))
        # links, as `make install` makes them: by the name tcpserver connections are handed over
        for tool in TOOLS:
            os.symlink("ucspi", os.path.join(self.bin, tool))
        shutil.copy(program, os.path.join(self.bin, "ucspi"))
        self.environment = dict(os.environ, PATH=self.bin + ":" + os.environ["PATH"] + ":/usr/local/sbin:/usr/sbin:/sbin", LC_ALL="C")
        self.running = []

    def command(self, name, text):
        path = os.path.join(self.bin, name)
        with open(path, "w", encoding="ascii") as file:
            file.write(text)
        os.chmod(path, 0o755)

    def needs(self, *programs, root=False):
        missing = [program for program in programs if not shutil.which(program, path=self.environment["PATH"])]
        if missing:
            raise Missing("%s not installed" % ", ".join(missing))
        if root and os.geteuid() != 0:
            raise Missing("not root")

    def needs_server(self):
        ended = self.run("ucspi tcpserver")
        if ended.stdout.startswith("ucspi: "):
            raise Missing("the program has no tcpserver yet")

    def run(self, command, **environment):
        """Runs a line of the cookbook: what it prints on both streams."""
        return subprocess.run(
            ["sh", "-c", command], cwd=self.folder, env=dict(self.environment, **environment), stdin=subprocess.DEVNULL, stdout=subprocess.PIPE,
            stderr=subprocess.STDOUT, timeout=WAIT, text=True,
        )

    def start(self, words, log, cwd=None, **environment):
        """Starts a service, with its output in a file."""
        with open(os.path.join(self.folder, log), "wb") as file:
            process = subprocess.Popen(
                words, cwd=cwd or self.folder, env=dict(self.environment, **environment), stdin=subprocess.DEVNULL, stdout=file, stderr=file,
                start_new_session=True,
            )
        self.running.append(process)
        return process

    def read(self, path):
        with open(os.path.join(self.folder, path), encoding="latin-1") as file:
            return file.read()

    def write(self, path, text):
        with open(os.path.join(self.folder, path), "w", encoding="ascii") as file:
            file.write(text)

    def shared(self, path):
        """A folder of the account that the services run as."""
        path = os.path.join(self.folder, path)
        os.makedirs(path)
        shutil.chown(path, ACCOUNT)
        return path

    def close(self):
        """Ends what was started here, and no other process."""
        for process in self.running:
            if process.poll() is None:
                process.terminate()
        for process in self.running:
            try:
                process.wait(WAIT)
            except subprocess.TimeoutExpired:
                process.kill()
                process.wait()


def converse(port, text, source="127.0.0.1"):
    """What comes back for a text, as a client of the service at this address sees it."""
    with socket.create_connection(("127.0.0.1", port), timeout=WAIT, source_address=(source, 0)) as connection:
        pieces = []
        try:
            connection.sendall(text.replace("\n", "\r\n").encode())
            while True:
                piece = connection.recv(65536)
                if not piece:
                    break
                pieces.append(piece)
        except ConnectionError:
            pass
        return b"".join(pieces).decode("latin-1")


# the recipes


def of_events(lines):
    """The lines but for those that tell no event."""
    return [line for line in lines if not log_forms.BESIDE.fullmatch(line.removeprefix("tcpserver: "))]


def mail(checks, kitchen):
    """Under daemontools: relaying by rules, which change while the server runs."""
    kitchen.needs_server()
    kitchen.needs("mailfront", "svscan", "svc", "multilog", "setpriv", "make", root=True)
    spool = os.path.join(kitchen.folder, "spool")
    with open(COOKBOOK, encoding="utf-8") as file:
        line = re.search(r"^    # (install -d .*/var/spool/mailfront.*)$", file.read(), re.M).group(1)
    line = line.replace("/var/spool/mailfront", spool).replace("-o mail -g mail", "-o %s -g nogroup" % ACCOUNT)
    checks.expect("mail: the line that makes the spool", kitchen.run(line).stdout, "")
    services, service, port = os.path.join(kitchen.folder, "services"), os.path.join(kitchen.examples, "mail"), free_port()
    os.mkdir(services)
    os.symlink(service, os.path.join(services, "mail"))
    try:
        kitchen.start(["svscan", services], "svscan-log", ACCOUNT=ACCOUNT, QUEUEDIR=spool, PORT=str(port))
        wait_until("the mail service", lambda: listens(port))
        talk_to_mail(checks, kitchen, port, spool)
    finally:
        kitchen.close()
        kitchen.run("svc -dx services/mail services/mail/log")
    log = os.path.join(service, "log", "main", "current")
    wait_until("the log", lambda: os.path.exists(log) and "deny" in kitchen.read(log))
    lines = kitchen.read(log).split("\n")
    checks.holds("mail: a time in front of each line", all(re.match("@[0-9a-f]{24} ", line) for line in lines[:-1]), lines)
    first = of_events(line.partition(" ")[2] for line in lines)[:2]
    checks.expect("mail: the first lines of the log", first, ["starting", "tcpserver: status: 0/100"])


def talk_to_mail(checks, kitchen, port, spool):
    session = "HELO me.example\nMAIL FROM:<a@example.com>\nRCPT TO:<b@%s>\nDATA\nSubject: x\n\nhello\n.\nQUIT\n"

    def sent(domain):
        return [line[:3] for line in converse(port, session % domain).split("\r\n") if line]

    taken, refused = ["220", "250", "250", "250", "354", "250", "221"], ["220", "250", "250", "550"]
    checks.expect("mail: to elsewhere, from one of our own", sent("example.net"), taken)
    checks.expect("mail: it lies in the spool", len(os.listdir(os.path.join(spool, "new"))), 1)
    text = kitchen.read("examples/mail/rules")
    for line, domain, wanted in (("127.:allow", "example.net", refused), ("127.:allow", "example.org", taken), ("127.:deny", "example.org", [])):
        kitchen.write("examples/mail/rules", re.sub(r"^127\.:.*$", line, text, flags=re.M))
        os.utime(os.path.join(kitchen.examples, "mail", "rules"))
        os.utime(os.path.join(kitchen.examples, "mail", "rules.cdb"), (0, 0))
        checks.expect("mail: make", kitchen.run("make -s -C examples/mail").stdout, "")
        checks.expect("mail: to %s under %s" % (domain, line), sent(domain)[:len(wanted)] if wanted else sent(domain), wanted)


def git(checks, kitchen):
    """Under runit: a repository that is cloned."""
    kitchen.needs_server()
    kitchen.needs("git", "runsv", "sv", "svlogd", "setpriv", root=True)
    port, repositories = free_port(), kitchen.shared("repositories")
    made = kitchen.run(
        "cd repositories && git init -q --bare a.git && git init -q work && cd work && git -c user.name=a -c user.email=a@example.org commit -q"
        " --allow-empty -m first && git push -q ../a.git HEAD:refs/heads/main && rm -r ../work && chown -R %s .." % ACCOUNT
    )
    checks.expect("git: a repository", made.stdout, "")
    try:
        kitchen.start(["runsv", os.path.join(kitchen.examples, "git")], "runsv-log", ACCOUNT=ACCOUNT, REPOSITORIES=repositories, PORT=str(port))
        wait_until("the git service", lambda: listens(port))
        told = kitchen.run("git ls-remote git://127.0.0.1:%d/a.git refs/heads/main" % port)
        checks.holds("git ls-remote", re.fullmatch(r"[0-9a-f]{40}\trefs/heads/main\n", told.stdout), told.stdout)
        cloned = kitchen.run("git clone -q git://127.0.0.1:%d/a.git cloned -b main && git -C cloned log --format=%%s" % port)
        checks.expect("git clone", cloned.stdout, "first\n")
        checks.expect("git: a repository that is not there", kitchen.run("git ls-remote git://127.0.0.1:%d/b.git" % port).returncode, 128)
    finally:
        kitchen.run("sv force-stop examples/git; sv exit examples/git")
        kitchen.close()
    log = kitchen.read("examples/git/log/main/current")
    checks.holds("git: the log, with times", re.search(r"(?m)^\d{4}-\d\d-\d\d_\d\d:\d\d:\d\d\.\d+ tcpserver: ok ", log), log)


def status_of(text):
    """The user and the effective capabilities in what /proc has of a process."""
    users = re.search(r"^Uid:\t(\d+)\t(\d+)", text, re.M)
    return int(users.group(2)), int(re.search(r"^CapEff:\t([0-9a-f]+)", text, re.M).group(1), 16)


def setuid(kitchen, path, user):
    """A program at this path that shows whose process it is, and is always this user's. Some places have no such programs."""
    path = os.path.join(kitchen.folder, path)
    shutil.copyfile(shutil.which("cat"), path)
    shutil.chown(path, user)
    os.chmod(path, 0o4755)
    if os.statvfs(path).f_flag & os.ST_NOSUID or re.search(r"^NoNewPrivs:\t1", open("/proc/self/status", encoding="ascii").read(), re.M):
        raise Missing("setuid programs have no effect here")
    return path


def qmail(checks, kitchen):
    """The account, the rules, and that a setuid queue gets its own account."""
    kitchen.needs_server()
    kitchen.needs("setpriv", root=True)
    os.makedirs(os.path.join(kitchen.folder, "qmail", "bin"))
    kitchen.command("../qmail/bin/qmail-smtpd", SMTPD)
    setuid(kitchen, "qmail/bin/qmail-queue", "mail")
    rules, port = os.path.join(kitchen.folder, "smtp.cdb"), free_port()
    kitchen.run("printf '127.0.0.2:allow,RELAYCLIENT=\"\"\\n127.0.0.3:deny\\n:allow\\n' | tcprules smtp.cdb smtp.tmp")
    where = {"ACCOUNT": ACCOUNT, "GROUP": "nogroup", "QMAIL": os.path.join(kitchen.folder, "qmail"), "RULES": rules, "PORT": str(port)}
    kitchen.start([os.path.join(kitchen.examples, "qmail", "run")], "qmail-log", **where)
    wait_until("the qmail service", lambda: listens(port))
    for source, relay in (("127.0.0.1", "no"), ("127.0.0.2", "")):
        answer = converse(port, "", source)
        checks.expect("qmail: greeting and rules, from " + source, answer.splitlines()[:2], ["220 ESMTP", "from %s relay %s" % (source, relay)])
        checks.expect("qmail: whose queue it is", status_of(answer), (pwd.getpwnam("mail").pw_uid, 0))
    checks.expect("qmail: denied", converse(port, "", "127.0.0.3"), "")


def pop3(checks, kitchen):
    """A client names a user, and is served as that user."""
    kitchen.needs_server()
    kitchen.needs("setpriv", root=True)
    os.makedirs(os.path.join(kitchen.folder, "qmail", "bin"))
    for name, text in (("../qmail/bin/qmail-popup", POPUP), ("../qmail/bin/qmail-pop3d", POP3D), ("checkpassword", CHECKPASSWORD)):
        kitchen.command(name, text)
    os.chmod(kitchen.folder, 0o755)
    rules, port = os.path.join(kitchen.folder, "pop3.cdb"), free_port()
    kitchen.run("echo ':allow' | tcprules pop3.cdb pop3.tmp")
    where = {"QMAIL": os.path.join(kitchen.folder, "qmail"), "RULES": rules, "PORT": str(port)}
    kitchen.start([os.path.join(kitchen.examples, "pop3", "run")], "pop3-log", **where)
    wait_until("the POP3 service", lambda: listens(port))
    answer = converse(port, "USER mail\nPASS secret\n")
    checks.holds("pop3: the dialogue", re.match(r"\+OK <1@[^>]+>\r\n\+OK\r\n\+OK Maildir\n", answer), answer)
    checks.expect("pop3: who serves", status_of(answer), (pwd.getpwnam("mail").pw_uid, 0))


def exim(checks, kitchen):
    """Handed over, Exim accepts mail for its own domain, and relays nothing."""
    kitchen.needs_server()
    kitchen.needs("exim4", "setpriv", root=True)
    if EXIM_USER not in (user.pw_name for user in pwd.getpwall()):
        raise Missing("no account %s" % EXIM_USER)
    spool, port = os.path.join(kitchen.folder, "spool"), free_port()
    os.mkdir(spool)
    shutil.chown(spool, EXIM_USER, EXIM_USER)
    kitchen.write("exim.conf", EXIM % {"spool": spool})
    program = shutil.which("exim4", path=kitchen.environment["PATH"])
    kitchen.command("exim4", "#!/bin/sh\nexec %s -C %s/exim.conf \"$@\"\n" % (program, kitchen.folder))
    kitchen.run("cd examples/exim && echo ':allow' | tcprules rules.cdb rules.tmp")
    kitchen.start([os.path.join(kitchen.examples, "exim", "run")], "exim-log", cwd=os.path.join(kitchen.examples, "exim"), PORT=str(port))
    wait_until("the Exim service", lambda: listens(port))
    session = "EHLO me.example\nMAIL FROM:<a@example.com>\nRCPT TO:<b@mail.example>\nRCPT TO:<c@elsewhere.example>\nQUIT\n"
    with socket.create_connection(("127.0.0.1", port), timeout=WAIT) as client, client.makefile("rb") as answers:
        codes = []
        for line in [""] + session.splitlines():
            client.sendall((line + "\r\n").encode() if line else b"")
            answer = answers.readline()
            while answer[3:4] == b"-":
                answer = answers.readline()
            codes.append(answer[:3].decode())
    checks.expect("exim: its own domain, and no other", codes, ["220", "250", "250", "250", "550", "221"])


def privileges(checks, kitchen):
    """What becomes of setuid programs, as the document's table has it."""
    kitchen.needs("setpriv", root=True)
    whole = status_of(kitchen.read("/proc/self/status"))[1]
    of_root, of_mail = setuid(kitchen, "of-root", "root"), setuid(kitchen, "of-mail", "mail")
    os.chmod(kitchen.folder, 0o755)
    account, mail_account, port_right = pwd.getpwnam(ACCOUNT).pw_uid, pwd.getpwnam("mail").pw_uid, 1 << 10
    front = "setpriv --reuid %s --regid nogroup --clear-groups" % ACCOUNT
    bounded = "--bounding-set=-all,+net_bind_service"
    cases = [("", (0, whole), (mail_account, 0)), ("--no-new-privs", (account, 0), (account, 0)), (bounded, (0, port_right), (mail_account, 0))]
    for options, root, other in cases:
        found = tuple(status_of(kitchen.run("%s %s %s /proc/self/status" % (front, options, path)).stdout) for path in (of_root, of_mail))
        checks.expect("setuid programs behind %r" % options, found, (root, other))
    become = "setpriv --reuid %s --regid nogroup --clear-groups true" % ACCOUNT
    codes = [kitchen.run("setpriv %s %s" % (options, become)).returncode for options in ("--no-new-privs", bounded)]
    checks.expect("root that becomes a user, behind --no-new-privs and the bounding set", [code == 0 for code in codes], [True, False])


def http(checks, kitchen):
    kitchen.needs_server()
    kitchen.needs("micro-httpd", "setpriv", root=True)
    port, folder = free_port(), kitchen.shared("www")
    kitchen.write("www/page.txt", "hello\n")
    kitchen.start([os.path.join(kitchen.examples, "http", "run")], "http-log", ACCOUNT=ACCOUNT, FOLDER=folder, PORT=str(port))
    wait_until("the http service", lambda: listens(port))
    answer = converse(port, "GET /page.txt HTTP/1.0\n\n")
    checks.expect("http: a page", (answer.split()[1], answer.split("\r\n\r\n")[1]), ("200", "hello\n"))
    checks.expect("http: no page", converse(port, "GET /no HTTP/1.0\n\n").split()[1], "404")
    first = of_events(kitchen.read("http-log").split("\n"))[:2]
    checks.expect("http: the first lines of the log", first, ["starting", "tcpserver: status: 0/40"])


def unit_words(text, **environment):
    """The words of a unit's ExecStart, with its own environment, some of which is another here."""
    known = dict(re.findall(r"^Environment=(\w+)=(.*)$", text, re.M))
    known.update(environment)
    line = re.search(r"^ExecStart=(.*)$", text, re.M).group(1)
    return re.sub(r"\$\{(\w+)\}", lambda name: known[name.group(1)], line).split()


def rsync(checks, kitchen):
    """The command of the unit, in the folder that it works in, and what systemd-analyze says of the unit."""
    kitchen.needs_server()
    kitchen.needs("rsync")
    port = free_port()
    os.mkdir(os.path.join(kitchen.folder, "pub"))
    kitchen.write("pub/file", "hello\n")
    log = os.path.join(kitchen.folder, "rsync.log")
    config = kitchen.read("examples/rsync/rsyncd.conf").replace("/srv/pub", os.path.join(kitchen.folder, "pub"))
    # should it take itself for a daemon of its own, it listens at no port of this machine's
    kitchen.write("examples/rsync/rsyncd.conf", "log file = %s\naddress = 192.0.2.1\n%s" % (log, config))
    checks.expect("rsync: its rules", kitchen.run("cd examples/rsync && tcprules rules.cdb rules.tmp < rules").stdout, "")
    words = unit_words(kitchen.read("examples/rsync/tcpserver-rsync.service"), PORT=str(port))
    kitchen.start(words, "rsync-log", os.path.join(kitchen.examples, "rsync"))
    wait_until("the rsync service", lambda: listens(port))
    url = "rsync://127.0.0.1:%d/" % port
    checks.expect("rsync: what there is", kitchen.run("rsync %s" % url).stdout.split(), ["pub"])
    checks.expect("rsync: a copy", (kitchen.run("rsync -a %spub/file copy" % url).stdout, kitchen.read("copy")), ("", "hello\n"))
    checks.holds("rsync: its log has the client's address", "connect from" in kitchen.read(log) and "(127.0.0.1)" in kitchen.read(log), kitchen.read(log))
    kitchen.run("cd examples/rsync && echo :deny | tcprules rules.cdb rules.tmp")
    checks.holds("rsync: denied", kitchen.run("rsync %s" % url).returncode != 0)


def unit(checks, kitchen):
    """systemd looks for the programs of a unit in its own folders, so tcpserver and rsync have to be installed there."""
    kitchen.needs("systemd-analyze")
    missing = [name for name in ("tcpserver", "rsync") if not shutil.which(name, path="/usr/local/sbin:/usr/local/bin:/usr/sbin:/usr/bin")]
    if missing:
        raise Missing("%s not where systemd looks" % ", ".join(missing))
    ended = kitchen.run("systemd-analyze verify examples/rsync/tcpserver-rsync.service")
    checks.expect("rsync: systemd-analyze verify", (ended.returncode, ended.stdout), (0, ""))


def texts(checks, kitchen):
    """Neither cron's line nor one that somebody types lets a wrong text hold back another one, whatever their names; make then ends with its 2."""
    folder = os.path.join(kitchen.examples, "rules")
    for crontab in ("crontab", "crontab.strict"):
        line = re.search(r"^(?:\S+ ){5}(make .*)$", kitchen.read("examples/rules/" + crontab), re.M).group(1).replace("/etc/tcpserver", folder)
        for command in (line, line.replace(" -B", "")):
            for path in os.listdir(folder):
                if path.endswith((".rules", ".cdb")):
                    os.unlink(os.path.join(folder, path))
            for name, text in (("a", ":denied\n"), ("b", ":deny\n"), ("c", "10.0.0.1 deny\n:allow\n"), ("d", "10.:deny\n:allow\n")):
                kitchen.write("examples/rules/%s.rules" % name, text)
            ended = kitchen.run(command)
            there = "".join(name for name in "abcd" if os.path.exists(os.path.join(folder, name + ".cdb")))
            checks.expect("texts that %r compiles" % command.replace(folder, ""), (ended.returncode, there), (2, "bd" if "strict" in line else "bcd"))
            checks.holds("texts of which it tells", "tcprules: line 1: no verdict\n" in ended.stdout, ended.stdout)


def ended_make(checks, kitchen):
    """A signal to make, while tcprules has put new rules there and has not ended yet, deletes none."""
    os.unlink(os.path.join(kitchen.bin, "tcprules"))
    kitchen.command("tcprules", RENAMED)
    for folder, makefile, rules, text in (("rules", "Makefile", "a.cdb", "a.rules"), ("rules", "Makefile.strict", "a.cdb", "a.rules"), ("mail", "Makefile", "rules.cdb", "rules")):
        there = os.path.join(kitchen.examples, folder, rules)
        kitchen.write("examples/%s/%s" % (folder, rules), "old")
        os.utime(there, (0, 0))
        kitchen.write("examples/%s/%s" % (folder, text), ":deny\n")
        process = kitchen.start(["make", "-C", "examples/" + folder, "-f", makefile], "make-log")
        wait_until("a rename", lambda there=there: kitchen.read(there) == "new")
        process.terminate()
        process.wait(WAIT)
        checks.holds("rules of %s in %s, whose make was ended" % (makefile, folder), os.path.exists(there), kitchen.read("make-log"))


def machines(checks, kitchen):
    """After each of the two ways every machine has the compiled file that this one has."""
    kitchen.needs("rsync", "sync")
    kitchen.command("ssh", SSH)
    hosts = kitchen.read("examples/many/hosts").split()
    kitchen.environment["MACHINES"] = os.path.join(kitchen.folder, "machines")
    for host in hosts:
        os.makedirs(os.path.join(kitchen.folder, "machines", host))
    for way in ("copy-compiled", "compile-on-each"):
        kitchen.write("examples/many/rules", "192.0.2.66:deny\n:allow,WAY=\"%s\"\n" % way)
        checks.expect("machines: " + way, kitchen.run("cd examples/many && tcprules here.cdb here.tmp < rules && ./" + way).stdout, "")
        for host in hosts:
            same = kitchen.run("cmp examples/many/here.cdb machines/%s/rules.cdb" % host).stdout
            checks.expect("machines: %s after %s" % (host, way), same, "")
    kitchen.write("examples/many/rules", "192.0.2.66:denied\n")
    ended = kitchen.run("cd examples/many && ./compile-on-each")
    told = [line for line in ended.stdout.splitlines() if line.endswith(": not installed")]
    checks.expect("machines: a faulty text is told of each", (ended.returncode, told), (1, ["%s: not installed" % host for host in hosts]))
    checks.expect("machines: it changes nothing", kitchen.run("cmp examples/many/here.cdb machines/%s/rules.cdb" % hosts[0]).stdout, "")
    # a machine that nobody reaches, wherever it stands in the list, and a last line without its end
    kitchen.write("examples/many/rules", ":deny\n")
    kitchen.run("cd examples/many && tcprules here.cdb here.tmp < rules")
    for way in ("copy-compiled", "compile-on-each"):
        for place in range(len(hosts) + 1):
            listed = hosts[:place] + ["absent"] + hosts[place:]
            for host in hosts:
                kitchen.write("machines/%s/rules.cdb" % host, "")
            kitchen.write("examples/many/hosts", "\n".join(listed))
            ended = kitchen.run("cd examples/many && ./" + way)
            told = [line for line in ended.stdout.splitlines() if line.endswith(": not installed")]
            name = "machines: %s with %s" % (way, " ".join(listed))
            checks.expect(name, (ended.returncode, told), (1, ["absent: not installed"]))
            same = [host for host in hosts if not kitchen.run("cmp examples/many/here.cdb machines/%s/rules.cdb" % host).stdout]
            checks.expect(name + ": where it went on", same, hosts)
        kitchen.write("examples/many/hosts", "\n".join(hosts))
        checks.expect("machines: %s with all of them" % way, kitchen.run("cd examples/many && ./" + way).returncode, 0)
        os.unlink(os.path.join(kitchen.folder, "examples", "many", "hosts"))
        checks.holds("machines: %s without a list" % way, kitchen.run("cd examples/many && ./" + way).returncode != 0)


def names(checks, kitchen):
    """A name of the host table lets a client in, and one that no line confirms does not."""
    kitchen.needs_server()
    port = free_port()
    kitchen.write("table", "127.0.0.1 Relay.Example.org\n=Relay.Example.org 127.0.0.1\n127.0.0.2 false.example.org\n")
    kitchen.run("printf '=.example.org:allow\\n:deny\\n' | tcprules rules.cdb rules.tmp")
    kitchen.start(["tcpserver", "-N", "table", "-p", "-x", "rules.cdb", "0", str(port), "echo", "hello"], "names-log")
    wait_until("a server", lambda: listens(port))
    checks.expect("a client with a name", converse(port, ""), "hello\n")
    checks.expect("a client whose name is not confirmed", converse(port, "", "127.0.0.2"), "")
    checks.expect("a client without a name", converse(port, "", "127.0.0.3"), "")


def waiting(checks, kitchen):
    """A server that is started with SIGCHLD ignored, and has it put back in front: its program is waited for."""
    kitchen.needs_server()
    kitchen.needs("env", "echo")
    port = free_port()
    words = ["env", "--ignore-signal=CHLD", "env", "--default-signal=CHLD", "tcpserver", "-v", "-c", "2", "127.0.0.1", str(port), "echo", "hello"]
    kitchen.start(words, "waiting-log")
    wait_until("a server", lambda: listens(port))
    for _ in range(3):
        checks.expect("a program that is waited for", converse(port, ""), "hello\n")
    wait_until("the end of each", lambda: kitchen.read("waiting-log").count("tcpserver: end ") == 3)
    checks.holds("no place is given up", "retired" not in kitchen.read("waiting-log"))
    ended = kitchen.run(" ".join(words[:2] + words[4:]))
    checks.expect("without that", (ended.returncode, ended.stdout), (111, "tcpserver: cannot wait for programs\ntcpserver: cause: SIGCHLD is ignored\n"))


def changes(checks, kitchen):
    """Each verdict is counted, whatever a program has left in front of it, and no record of recordio is one; any name may be the text's."""
    verdict = "tcpserver: ok %d :10.0.0.1:25 :192.0.2.%d::5"
    lines = [
        verdict % (1, 1), "working.." + verdict % (2, 2), "@4000000067b3c1a10c2f5e3c %% tcpserver: " + verdict % (3, 3),
        "2025-02-18_06:31:02.51184 \xff\xfe" + verdict % (4, 4), "12 < " + verdict % (5, 5), "@4000000067b3c1a10c2f5e3c 12 > " + verdict % (6, 6),
        "echo: " + verdict % (7, 7) + " more", "echo: tcpserver: ok", verdict.replace("ok", "deny") % (8, 8),
    ]
    with open(os.path.join(kitchen.folder, "log"), "w", encoding="latin-1") as file:
        file.write("\n".join(lines) + "\n")
    wanted = ["installed"] + ["%d 192.0.2.%d  was ok, now deny rule :" % (serial, serial) for serial in (1, 2, 3, 4)] + ["changed 4 of 5"]
    for name in ("rules", "n=1", "-", "-n", "a b"):
        kitchen.write(os.path.join("examples/verdicts", name), ":deny\n")
        for locale in ("C", "C.UTF-8"):
            ended = kitchen.run("cd examples/verdicts && ./changes '%s' < ../../log" % name, LC_ALL=locale)
            checks.expect("changes %s, in %s" % (name, locale), ended.stdout.splitlines(), wanted)


def changes_of_programs(checks, kitchen):
    """A server whose programs end their lines late: all clients are counted, also where such a line stands in front of a verdict."""
    kitchen.needs_server()
    port, clients = free_port(), 0
    kitchen.start(["tcpserver", "-v", "127.0.0.1", str(port), "sh", "-c", "printf working.. >&2; sleep 0.05; echo done >&2"], "working-log")
    wait_until("a server", lambda: listens(port))
    while clients < 200 and not re.search("^working.*tcpserver: ok ", kitchen.read("working-log"), re.M):
        threads = [threading.Thread(target=converse, args=(port, "")) for _ in range(8)]
        for thread in threads:
            thread.start()
        for thread in threads:
            thread.join()
        clients += len(threads)
    wait_until("the end of each", lambda: kitchen.read("working-log").count("tcpserver: end ") >= clients)
    counted = kitchen.run("cd examples/verdicts && ./changes rules < ../../working-log").stdout.splitlines()[-1]
    let_in = kitchen.read("working-log").count("tcpserver: ok ")
    checks.expect("changes: clients of programs that end their lines late", counted, "changed 0 of %d" % let_in)
    checks.holds("changes: all clients", let_in >= clients, (let_in, clients))


def audited_log(checks, kitchen):
    """The log of the document is one that a server can have written."""
    for run in kitchen.read("examples/audit/log").split("starting\n")[1:]:
        events = log_forms.events_of(run.encode(), 2)
        checks.expect("the log of the document: what does not fit", events.faults, [])


def audited_end(checks, kitchen):
    """The log of a server that still runs ends anywhere, and its last run is audited nevertheless."""
    log = kitchen.read("examples/audit/log")
    # (behind the first status of the second run)
    for length in range(log.rindex("starting\n") + 40, len(log), 11):
        kitchen.write("log", log[:length])
        ended = kitchen.run("tac log | sed '/^starting$/q' | tac > last; scripts/log_events.py 2 < last > script && ucspi rulesim < script")
        checks.holds("a log of %d bytes" % length, ended.returncode == 0 and ended.stdout.startswith("admitted "), ended.stdout)


def over(checks, kitchen):
    """The two lines that have a run script find the new programs: one for scripts that look in PATH, one for those that have the server's path."""
    with open(COOKBOOK, encoding="utf-8") as file:
        lines = re.findall(r"^    # (sed -i .*) /service/mail/run$", file.read(), re.M)
    cases = [
        ("exec tcpserver 0 25 true\n", "PATH=/opt/ucspi/bin:$PATH\nexec tcpserver 0 25 true\n"),
        ("exec /usr/bin/tcpserver 0 25 true\n", "exec /opt/ucspi/bin/tcpserver 0 25 true\n"),
        ("exec softlimit -m 9 /usr/local/bin/tcpserver 0 25 true\n", "exec softlimit -m 9 /opt/ucspi/bin/tcpserver 0 25 true\n"),
    ]
    checks.expect("lines that change a run script", len(lines), 2)
    for line, (text, wanted) in zip(lines + lines[1:], cases):
        kitchen.write("run", "#!/bin/sh\n" + text)
        kitchen.run(line + " run")
        checks.expect(line, kitchen.read("run"), "#!/bin/sh\n" + wanted)


# the recipes by what of them runs in Python; each title of the document has its lines run too
SERVICES = {
    "From djb's in five minutes": [over],
    "New rules under a running server": [texts, ended_make],
    "A mail service under daemontools": [mail],
    "qmail, and POP3": [qmail, pop3],
    "Exim and Sendmail": [exim],
    "What `--no-new-privs` breaks": [privileges],
    "A file service under runit": [git, http],
    "rsync under systemd": [rsync, unit],
    "Rules by name": [names],
    "One rule text for a hundred machines": [machines],
    "Reading and auditing a log": [audited_log, audited_end],
    "What new rules would have done": [changes, changes_of_programs],
    "What to do when `no places left` comes": [waiting],
}

# what the lines of a title need beside what every system has
NEEDED = {
    "From djb's in five minutes": ["iconv"], "Watching a server": ["tac", "grep"], "Rules by name": ["awk"],
    "One rule text for a hundred machines": ["rsync", "sync"], "Reading and auditing a log": ["tac", "sed", "grep"],
    "What new rules would have done": ["awk", "sed"],
}


def run_lines(checks, kitchen, recipe):
    """Each line behind a prompt, and what it prints."""
    for command, below in recipe.commands:
        # the times of files go in steps of some milliseconds, and whoever types a line is slower
        time.sleep(STEP)
        ended = kitchen.run(command)
        checks.expect("%s: %s" % (recipe.title, command), ended.stdout.rstrip("\n"), below)


def check_files(checks, found):
    """The files that the documents show are those of examples/, all of them and word by word."""
    shown = {}
    for recipe in found.values():
        for path, text in recipe.files:
            shown[path] = text
            with open(os.path.join(TOP, path), encoding="ascii") as file:
                checks.expect("the documents' " + path, text, file.read())
    there = [os.path.relpath(os.path.join(place, name), TOP) for place, _, names in os.walk(os.path.join(TOP, "examples")) for name in names]
    # (whoever follows a recipe in the tree leaves compiled rules there)
    there = [path for path in there if not path.endswith(".cdb")]
    checks.expect("files of examples/ that the documents show", sorted(shown), sorted(there))


def cook(checks, program, title, steps):
    """Runs steps, each in a place of its own; what is missing for one is said."""
    for step in steps:
        with tempfile.TemporaryDirectory() as folder:
            os.chmod(folder, 0o755)
            kitchen = Kitchen(program, folder)
            try:
                kitchen.run("make -s -C examples/mail")
                step(checks, kitchen)
            except Missing as missing:
                print("cookbook: %s: skipped: %s" % (title, missing))
            except (Amiss, OSError, ValueError, LookupError, subprocess.SubprocessError) as fault:
                checks.holds(title, False, "%s: %s" % (type(fault).__name__, fault))
            finally:
                kitchen.close()


def check(program, failures):
    """Runs all recipes: how many tests there were."""
    checks, found = Checks("cookbook", failures), recipes()
    check_files(checks, found)
    checks.expect("recipes that the documents have", [title for title in SERVICES if title not in found], [])
    for title, recipe in found.items():
        needed = NEEDED.get(title, ["make"])

        def lines(checks, kitchen, recipe=recipe, needed=needed):
            kitchen.needs(*needed)
            kitchen.command("ssh", SSH)
            kitchen.environment["MACHINES"] = os.path.join(kitchen.folder, "machines")
            for host in kitchen.read("examples/many/hosts").split():
                os.makedirs(os.path.join(kitchen.folder, "machines", host))
            run_lines(checks, kitchen, recipe)

        cook(checks, program, title, ([lines] if recipe.commands else []) + SERVICES.get(title, []))
    return checks.tests
