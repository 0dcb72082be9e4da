"""Programs of others under `tcpserver`: what each does with the connection itself, and what it does with pipes.

The table of docs/TCPSERVER.md has the expected answers. A program that is not installed is left out, and so is one that
needs root if this is not root. All of them are asked on loopback alone, with files of their own.
"""
import os
import pwd
import re
import shutil
import subprocess

from shared import server_runs
from shared.server_runs import free_port

FOLDERS = os.environ.get("PATH", "") + ":/usr/sbin:/sbin"
# as whom Debian's Exim runs
EXIM_USER = "Debian-exim"
EXIM = """spool_directory = %(folder)s/spool
log_file_path = %(folder)s/spool/%%slog
primary_hostname = mail.example
domainlist local_domains = mail.example
acl_smtp_rcpt = recipients
keep_environment =
begin acl
recipients:
  accept hosts = :
  accept domains = +local_domains
  deny message = relay not permitted
"""
VSFTPD = """listen=NO
anonymous_enable=YES
anon_root=%(folder)s/files
secure_chroot_dir=%(folder)s/empty
seccomp_sandbox=NO
xferlog_enable=NO
"""
SSHD = """HostKey %(folder)s/host
AuthorizedKeysFile %(folder)s/keys
StrictModes no
UsePAM no
PermitRootLogin yes
Match Address 127.0.0.2
  ForceCommand echo from two
"""
RSYNCD = """use chroot = no
log file = %(folder)s/rsync.log
port = %(port)d
address = 127.0.0.1
pid file = %(folder)s/rsync.pid
[pub]
path = %(folder)s/files
"""


def found(*names):
    """The paths of these programs, if all are here."""
    paths = [shutil.which(name, path=FOLDERS) for name in names]
    return paths if all(paths) else None


def skipped(suite, *names):
    """Whether one of these is not here; it is said once."""
    if found(*names):
        return False
    print("server_programs: no %s here: its part was skipped" % " and ".join(names), flush=True)
    return True


def files(suite):
    """A folder of files to be served, readable for all."""
    folder = suite.path("files")
    if not os.path.isdir(folder):
        os.mkdir(folder)
        suite.path("files/one", "hello\n")
        os.chmod(folder, 0o755)
    return folder


def config(suite, name, text, **more):
    return suite.path(name, text % dict(folder=suite.folder, **more))


def command(words, **how):
    """Runs a client to its end: its exit code and what it printed."""
    how.setdefault("stdin", subprocess.DEVNULL)
    ended = subprocess.run(words, stdout=subprocess.PIPE, stderr=subprocess.STDOUT, timeout=server_runs.WAIT, **how)
    return ended.returncode, ended.stdout.decode("utf-8", "replace")


def dialogue(server, lines, source="127.0.0.1"):
    """The codes of the answers to these lines of a protocol with codes, that of its greeting first; None where the connection ended."""
    codes = []
    with server.connect(source) as client, client.makefile("rb") as answers:
        for line in [None] + lines:
            if line is not None:
                client.sendall(line + b"\r\n")
            answer = answers.readline()
            while re.match(rb"\d\d\d-", answer):
                answer = answers.readline()
            codes.append(answer[:3].decode() or None)
            if not answer:
                break
    return codes


def exim(suite):
    """`exim -bs` tells a local user by its input: where that is a pipe, everyone is one, and may relay."""
    if skipped(suite, "exim4") or os.geteuid() != 0 or EXIM_USER not in (user.pw_name for user in pwd.getpwall()):
        return
    path = config(suite, "exim.conf", EXIM)
    os.makedirs(suite.path("spool"), exist_ok=True)
    shutil.chown(suite.path("spool"), EXIM_USER, EXIM_USER)
    os.chmod(path, 0o644)
    lines = [b"EHLO client.example", b"MAIL FROM:<a@client.example>", b"RCPT TO:<b@mail.example>", b"RCPT TO:<c@elsewhere.example>", b"QUIT"]
    with suite.start(server_runs.QUIET, found("exim4") + ["-C", path, "-bs"]) as server:
        wanted = ["220", "250", "250", "250", "550" if suite.handed else "250", "221"]
        suite.expect("exim -bs: whether it relays", dialogue(server, lines, "127.0.0.9"), wanted)


def rsync(suite):
    """`rsync --daemon` serves the connection that it has for its input, and logs whose it is."""
    if skipped(suite, "rsync"):
        return
    files(suite)
    path = config(suite, "rsyncd.conf", RSYNCD, port=1)
    with suite.start(server_runs.QUIET, found("rsync") + ["--daemon", "--config=" + path]) as server:
        url = "rsync://127.0.0.1:%d/" % server.port
        suite.expect("rsync --daemon: what there is", command(["rsync", "--address=127.0.0.8", url]), (0, "pub            \t\n"))
        copy = suite.path("copy")
        suite.expect("rsync --daemon: a copy", (command(["rsync", url + "pub/one", copy]), open(copy).read()), ((0, ""), "hello\n"))
        with open(suite.path("rsync.log")) as log:
            told = log.read()
        suite.holds("rsync --daemon: the log has the client's address", re.search(r"connect from \S+ \(127\.0\.0\.8\)", told), told)


def rsync_server(suite):
    """`rsync --server --daemon .` takes whatever it has for a connection."""
    if skipped(suite, "rsync"):
        return
    files(suite)
    path = config(suite, "rsyncd.conf", RSYNCD, port=1)
    with suite.start(server_runs.QUIET, found("rsync") + ["--server", "--daemon", "--config=" + path, "."]) as server:
        url = "rsync://127.0.0.1:%d/" % server.port
        suite.expect("rsync --server --daemon: what there is", command(["rsync", url]), (0, "pub            \t\n"))


def rsync_daemon_by_pipes(suite):
    """`rsync --daemon` that has pipes starts a daemon of its own, which listens outside of the rules."""
    if skipped(suite, "rsync"):
        return
    port = free_port()
    path, number = config(suite, "rsyncd.conf", RSYNCD, port=port), suite.path("rsync.pid")
    with suite.start(server_runs.QUIET, found("rsync") + ["--daemon", "--config=" + path]) as server:
        suite.expect("rsync --daemon by pipes: its client", server.ask(), b"")
        server_runs.wait_until("a daemon of its own", lambda: os.path.exists(number) and os.path.getsize(number))
        url = "rsync://127.0.0.1:%d/" % port
        try:
            suite.expect("rsync --daemon by pipes: it listens by itself", command(["rsync", url]), (0, "pub            \t\n"))
        finally:
            with open(number) as file:
                os.kill(int(file.read()), 15)


def sshd(suite):
    """`sshd -i` by a pipe serves, but knows no client: its own rules by address decide nothing."""
    if skipped(suite, "sshd", "ssh", "ssh-keygen") or os.geteuid() != 0:
        return
    for name in ("host", "mine"):
        if not os.path.exists(suite.path(name)):
            command(["ssh-keygen", "-q", "-t", "ed25519", "-N", "", "-f", suite.path(name)])
    shutil.copy(suite.path("mine.pub"), suite.path("keys"))
    os.makedirs("/run/sshd", exist_ok=True)
    path, user = config(suite, "sshd.conf", SSHD), pwd.getpwuid(0).pw_name
    with suite.start(server_runs.QUIET, found("sshd") + ["-i", "-f", path]) as server:
        words = ["ssh", "-F", "none", "-p", str(server.port), "-i", suite.path("mine"), "-o", "BatchMode=yes", "-o", "StrictHostKeyChecking=no"]
        words += ["-o", "UserKnownHostsFile=/dev/null", "-o", "LogLevel=ERROR", "-b", "127.0.0.2", user + "@127.0.0.1", "echo $SSH_CLIENT"]
        code, told = command(words)
        suite.expect("sshd -i: whose rules count", (code, told), (0, "from two\n") if suite.handed else (0, "UNKNOWN 65535 65535\n"))


def dropbear(suite):
    """Another `sshd`, which needs the connection itself."""
    if skipped(suite, "dropbear", "dropbearkey"):
        return
    key = suite.path("dropbear-key")
    if not os.path.exists(key):
        command(["dropbearkey", "-t", "ed25519", "-f", key])
    with suite.start(server_runs.QUIET, found("dropbear") + ["-i", "-r", key]) as server, server.connect() as client:
        suite.expect("dropbear -i: its greeting", client.recv(8), b"SSH-2.0-" if suite.handed else b"")


def vsftpd(suite):
    """`vsftpd` needs the connection itself."""
    if skipped(suite, "vsftpd", "curl") or os.geteuid() != 0:
        return
    files(suite)
    os.makedirs(suite.path("empty"), exist_ok=True)
    path = config(suite, "vsftpd.conf", VSFTPD)
    with suite.start(server_runs.QUIET, found("vsftpd") + [path]) as server:
        if suite.handed:
            told = command(["curl", "-s", "--max-time", "20", "ftp://127.0.0.1:%d/one" % server.port])
            suite.expect("vsftpd: a file", told, (0, "hello\n"))
        else:
            suite.holds("vsftpd by pipes serves nobody", not server.ask().startswith(b"220"))


def git(suite):
    """`git daemon --inetd` reads and writes, and asks for nothing else."""
    if skipped(suite, "git"):
        return
    base = suite.path("repositories")
    if not os.path.isdir(base):
        command(["git", "init", "-q", "--bare", base + "/one"])
        suite.path("repositories/one/git-daemon-export-ok", "")
    how = {"env": dict(os.environ, HOME=suite.folder)}
    with suite.start(server_runs.QUIET, found("git") + ["daemon", "--inetd", "--base-path=" + base, base], **how) as server:
        told = command(["git", "ls-remote", "git://127.0.0.1:%d/one" % server.port])
        suite.expect("git daemon --inetd: an empty repository", told, (0, ""))
        code, _ = command(["git", "ls-remote", "git://127.0.0.1:%d/none" % server.port])
        suite.holds("git daemon --inetd: no repository", code != 0)


def micro_httpd(suite):
    if skipped(suite, "micro-httpd"):
        return
    with suite.start(server_runs.QUIET, found("micro-httpd") + [files(suite)]) as server:
        got = server.ask(b"GET /one HTTP/1.0\r\n\r\n")
        suite.holds("micro-httpd: a file", got.startswith(b"HTTP/1.0 200 ") and got.endswith(b"\r\n\r\nhello\n"), got)


def mailfront(suite):
    """`mailfront` knows its client by the environment."""
    if skipped(suite, "mailfront"):
        return
    path = suite.install('127.0.0.2:allow,RELAYCLIENT=""\n:allow\n', "mail.cdb")
    rules = suite.path("mailrules", "k*:*@mail.example\n")
    for name in ("queue", "queue/tmp", "queue/new"):
        os.makedirs(suite.path(name), exist_ok=True)
    how = {"env": dict(os.environ, MAILRULES=rules, QUEUEDIR=suite.path("queue"), PATH=FOLDERS)}
    program = found("mailfront") + ["smtp", "queuedir", "accept-sender", "relayclient", "mailrules", "add-received"]
    lines = [b"HELO client.example", b"MAIL FROM:<a@client.example>", b"RCPT TO:<b@mail.example>", b"RCPT TO:<c@elsewhere.example>", b"QUIT"]
    with suite.start(["-x", path] + server_runs.QUIET, program, **how) as server:
        for source, last in (("127.0.0.1", "5"), ("127.0.0.2", "2")):
            codes = dialogue(server, lines, source)
            suite.expect("mailfront: relaying for " + source, [code[:1] for code in codes], ["2", "2", "2", "2", last, "2"])


def svnserve(suite):
    if skipped(suite, "svnserve", "svn", "svnadmin"):
        return
    base = suite.path("svn")
    if not os.path.isdir(base):
        command(["svnadmin", "create", base])
    with suite.start(server_runs.QUIET, found("svnserve") + ["-i", "-r", base]) as server:
        words = ["svn", "--non-interactive", "--config-dir", suite.path("svn-settings"), "log", "-q", "svn://127.0.0.1:%d/" % server.port]
        code, told = command(words)
        suite.holds("svnserve -i: the log of a repository", code == 0 and told.startswith("-----"), told)


def fingerd(suite):
    """`in.fingerd` needs the connection itself."""
    if skipped(suite, "in.fingerd"):
        return
    with suite.start(server_runs.QUIET, found("in.fingerd") + ["-p", found("echo")[0]]) as server:
        got = server.ask(b"somebody\r\n")
        suite.holds("in.fingerd", (b"somebody" in got) == suite.handed, got)


def busybox_httpd(suite):
    """`busybox httpd -i` serves by pipes, but its own rules by address decide nothing."""
    if skipped(suite, "busybox"):
        return
    files(suite)
    path = suite.path("httpd.conf", "D:127.0.0.2\n")
    with suite.start(server_runs.QUIET, found("busybox") + ["httpd", "-i", "-h", files(suite), "-c", path]) as server:
        got = [server.ask(b"GET /one HTTP/1.0\r\n\r\n", source=source)[9:12] for source in ("127.0.0.1", "127.0.0.2")]
        suite.expect("busybox httpd -i: its own rules", got, [b"200", b"403" if suite.handed else b"200"])


CHECKS = [exim, rsync_daemon_by_pipes, rsync_server, sshd, dropbear, vsftpd, git, micro_httpd, mailfront, svnserve, fingerd, busybox_httpd]
COMMON = [exim, rsync, rsync_server, sshd, dropbear, vsftpd, git, micro_httpd, mailfront, svnserve, fingerd, busybox_httpd]
HANDED = COMMON
