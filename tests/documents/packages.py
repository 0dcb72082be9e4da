"""Packs the program as `make dist` and `make deb` do, and looks into what they make: the same bytes each time, all that
belongs there, programs that run with nothing but the C library beside them, a script that installs without compiler and
kit, and no file of Debian's ucspi-tcp.

If a program such as dpkg-deb or busybox is not installed, its tests are skipped with a message.
"""
import hashlib
import os
import re
import shutil
import socket
import subprocess
import tarfile
import tempfile

from documents import cookbook, installing
from documents.documents import check_links
from documents.installing import LIMIT, PATH, TOOLS, Place, check_clean, check_foreign, files, pages
from shared.checks import TOP, Checks, needs_proved

DEBIAN = "ucspi-tcp"
# all that the sources of the packages are, beside the program
PARTS = ("CHANGELOG.md", "README.md", "VERSION", "completions", "docs", "examples", "man", "scripts")
# what the install script may call: sh and some programs of POSIX
APPLETS = ("sh", "cat", "chmod", "dirname", "grep", "ln", "mkdir", "mv", "readlink", "rm", "rmdir", "sed", "test")
# what lintian may say: no licence has been chosen, which the README and the package say
OF_LICENCE = ("copyright-without-copyright-notice",)


def skip(what):
    print("packages: %s: skipped" % what)


def version():
    with open(os.path.join(TOP, "VERSION"), encoding="ascii") as file:
        return file.read().strip()


def run(words, **how):
    """Runs a command: its exit code, and what it prints on both streams."""
    how.setdefault("env", {"PATH": PATH + ":/usr/sbin:/sbin"})
    ended = subprocess.run(words, stdout=subprocess.PIPE, stderr=subprocess.STDOUT, timeout=LIMIT, **how)
    return ended.returncode, ended.stdout


def make(program, folder, *targets):
    words = ["make", "-s", "-o", program, "PROGRAM=" + program, "DIST=" + folder] + list(targets)
    return run(words, cwd=TOP, stdin=subprocess.DEVNULL)


def shown_examples():
    """The files of examples/ that the cookbook shows."""
    return {path for recipe in cookbook.recipes().values() for path, _ in recipe.files}


def check_pages(checks, name, folder, found):
    """The links of the documents that are packed lead to what is packed too, and none is left out that users need."""
    checks.holds("%s: the documents for users" % name, {"README.md", "docs/COOKBOOK.md", "docs/TCPSERVER.md", "docs/RULES.md"} <= found, sorted(found))
    for path in sorted(path for path in found if path.endswith(".md")):
        with open(os.path.join(folder, path), encoding="utf-8") as file:
            check_links(checks, path, file.read(), folder)


def check_stripped(checks, name, path):
    if not shutil.which("readelf"):
        return skip("whether the program has symbols, since readelf is not installed")
    checks.holds(name + ": no symbols", b".symtab" not in run(["readelf", "-SW", path])[1])
    return None


def digests(folder):
    """The bytes of each file of a folder, in short."""
    found = {}
    for name in os.listdir(folder):
        with open(os.path.join(folder, name), "rb") as file:
            found[name] = hashlib.sha256(file.read()).hexdigest()
    return found


def check_same(checks, program, room, targets):
    """Packed twice, the second time from a copy whose files are of another time and mode: the same bytes."""
    first, second, copy = (os.path.join(room, name) for name in ("first", "second", "copy"))
    code, said = make(program, first, *targets)
    checks.expect("make %s" % " ".join(targets), code, 0)
    made = sorted(name for name in os.listdir(first) if not name.endswith(".sha256"))
    checks.expect("what is told to be made", sorted(os.path.basename(line) for line in said.decode().split()), made)
    for part in PARTS:
        from_, to = os.path.join(TOP, part), os.path.join(copy, part)
        os.makedirs(os.path.dirname(to), exist_ok=True)
        if os.path.isdir(from_):
            shutil.copytree(from_, to)
        else:
            shutil.copy(from_, to)
    # (what a recipe of the cookbook leaves there is not packed)
    with open(os.path.join(copy, "examples", "mail", "rules.cdb"), "wb"):
        pass
    for place, _, names in os.walk(copy):
        for name in names:
            path = os.path.join(place, name)
            os.chmod(path, os.stat(path).st_mode & 0o100 | 0o600)
            os.utime(path, (86400 * len(name), 86400 * len(name)))
    for target in targets:
        variables = {"PATH": PATH, "PROGRAM": program, "DIST": second, "TZ": "Asia/Tokyo"}
        code, _ = run([os.path.join(copy, "scripts", "package"), target], env=variables, umask=0o077)
        checks.expect("the same once more: " + target, code, 0)
    checks.expect("packed twice: the same bytes", digests(first) == digests(second), True)
    return first


def check_archive(checks, program, made, room):
    """The archive: its sum, its names, and no user's name or time in it."""
    name = "ucspi-%s-linux-x86_64" % version()
    path = os.path.join(made, name + ".tar.gz")
    checks.expect("the sum", run(["sha256sum", "-c", name + ".tar.gz.sha256"], cwd=made)[0], 0)
    with tarfile.open(path) as archive:
        members = archive.getmembers()
        checks.expect("names in order", [one.name for one in members], sorted(one.name for one in members))
        checks.expect("whose they are", {(one.uid, one.gid, one.uname, one.gname) for one in members}, {(0, 0, "", "")})
        checks.expect("of one time", len({one.mtime for one in members}), 1)
        checks.expect("modes", {one.mode for one in members}, {0o755, 0o644, 0o777})
    checks.expect("it is unpacked", run(["tar", "-xzf", path], cwd=room), (0, b""))
    folder = os.path.join(room, name)
    found = set(files(folder))
    wanted = {"bin/" + tool for tool in TOOLS + ("ucspi", "ucspi-log-events")} | {"man/man%s/%s" % (page[-1], page) for page in pages()}
    wanted |= {"install", "Makefile", "README.md", "CHANGELOG.md", "VERSION", "completions/ucspi"} | shown_examples()
    wanted |= {os.path.join("docs", path) for path in files(os.path.join(TOP, "docs"))}
    checks.expect("what is in it", sorted(found), sorted(wanted))
    packed, stripped = os.path.join(folder, "bin", "ucspi"), os.path.join(room, "stripped")
    checks.expect("strip", run(["strip", "-o", stripped, program]), (0, b""))
    with open(stripped, "rb") as one, open(packed, "rb") as other:
        checks.expect("the program is the one that was built, but for its symbols", one.read() == other.read(), True)
    check_stripped(checks, "the archive", packed)
    check_pages(checks, "the archive", folder, found)
    check_manpath(checks, "the archive", os.path.join(folder, "bin"), os.path.join(folder, "man", "man1", "tcpserver.1"))
    return folder


def check_manpath(checks, name, path, page):
    """With the folder of the tools in front of PATH `man` finds our page, whatever other one there is."""
    if not shutil.which("man"):
        return skip("which page man finds, since it is not installed")
    code, said = run(["man", "-w", "tcpserver"], env={"PATH": path + ":" + PATH})
    checks.expect(name + ": man tcpserver", (code, os.path.realpath(said.decode().strip())), (0, os.path.realpath(page)))
    return None


def check_make(checks, folder, room):
    """The commands of the README install from the unpacked archive, too."""
    place = Place(os.path.join(room, "made"), None)
    os.mkdir(place.folder)
    for action, left in (("install", installing.wanted_files()), ("uninstall", [])):
        words = ["make", "-s", "-C", folder, action, "DESTDIR=" + place.folder, "PREFIX=/usr"]
        checks.expect("the archive: make " + action, run(words), (0, b""))
        checks.expect("the archive: after make " + action, files(place.root) if os.path.exists(place.root) else [], left)
    checks.holds("the archive: make says what it does", b"make install" in run(["make", "-s", "-C", folder])[1])


def libraries(program):
    """The loader and the libraries that a program needs."""
    said = run(["ldd", program])[1].decode()
    return sorted(set(re.findall(r"(/\S+)", said)))


@needs_proved(8)
def check_alone(checks, folder, room):
    """The programs run in a root that has nothing but them and the C library."""
    if os.geteuid() != 0:
        return skip("programs in a root of their own, since that takes root")
    with open(os.path.join(folder, "bin", "ucspi"), "rb") as file:
        checks.expect("the newest glibc that it needs, as the documents have it", max(map(int, re.findall(rb"\0GLIBC_2\.(\d+)", file.read()))), 34)
    root = os.path.join(room, "alone")
    shutil.copytree(folder, os.path.join(root, "u"), symlinks=True)
    known = re.compile(r"/(ld-linux-x86-64|lib(c|m|gcc_s))\.so")
    needed = libraries(os.path.join(folder, "bin", "ucspi"))
    checks.expect("what it needs but the C library and its kin", [path for path in needed if not known.search(path)], [])
    for path in needed:
        os.makedirs(root + os.path.dirname(path), exist_ok=True)
        shutil.copy(os.path.realpath(path), root + path)

    chroot = shutil.which("chroot", path=PATH + ":/usr/sbin:/sbin")

    def there(words, given=b"", **variables):
        ended = subprocess.run([chroot, root] + words, input=given, env=variables, stdout=subprocess.PIPE, stderr=subprocess.PIPE, timeout=LIMIT)
        return ended.returncode, ended.stdout, ended.stderr

    def elsewhere(words, given=b"", **variables):
        """The same in another folder than the root."""
        def go():
            os.chroot(root)
            os.chdir("/u")

        ended = subprocess.run(words, input=given, env=variables, stdout=subprocess.PIPE, stderr=subprocess.PIPE, timeout=LIMIT, preexec_fn=go)
        return ended.returncode, ended.stdout, ended.stderr

    checks.expect("tcprules there", there(["/u/bin/tcprules", "/rules", "/rules.tmp"], b'10.:allow,A="1"\n:deny\n'), (0, b"", b""))
    told = there(["/u/bin/tcprulescheck", "/rules"], TCPREMOTEIP="10.0.0.1")
    checks.expect("tcprulescheck there", told, (0, b"rule 10.:\nset environment variable A=1\nallow connection\n", b""))
    # (the folder of both paths is the root)
    checks.expect("tcprules elsewhere", elsewhere(["/u/bin/tcprules", "/rules", "/rules.tmp"], b":deny\n"), (0, b"", b""))
    checks.expect("what stands in the root then", there(["/u/bin/tcprulescheck", "rules"], TCPREMOTEIP="10.0.0.1"), (0, b"rule :\ndeny connection\n", b""))
    checks.expect("fixcrio there", there(["/u/bin/ucspi", "fixcrio", "/u/bin/delcr"], b"a\r\n"), (0, b"a\r\n", b""))
    words = [chroot, root, "/u/bin/tcpserver", "-1", "-k", "1", "127.0.0.1", "0", "/u/bin/addcr"]
    with subprocess.Popen(words, env={}, stdin=subprocess.DEVNULL, stdout=subprocess.PIPE) as server:
        port = server.stdout.readline().strip()
        with socket.create_connection(("127.0.0.1", int(port or 0)), LIMIT) as client:
            client.sendall(b"a\n")
            client.shutdown(socket.SHUT_WR)
            got = b""
            while piece := client.recv(100):
                got += piece
        checks.expect("tcpserver there", (got, server.wait(LIMIT)), (b"a\r\n", 0))


def check_script(checks, folder, room):
    """The archive's script installs with the same care, also where busybox is all that there is."""
    script = os.path.join(folder, "install")
    os.mkdir(os.path.join(room, "script"))
    place = Place(os.path.join(room, "script"), None, "/usr", script)
    check_clean(checks, place, "the archive's script")
    for path in ("bin/tcpserver", "bin/ucspi", "share/man/man1/tcprules.1", "share/bash-completion/completions/ucspi"):
        check_foreign(checks, place, path)
    code, said = run([script, "nothing"])
    checks.holds("words that it does not know", code != 0 and b"Usage: install" in said, said)
    busybox = shutil.which("busybox", path=PATH)
    if not busybox:
        return skip("the archive's script under busybox, which is not installed")
    box = os.path.join(room, "box")
    os.mkdir(box)
    for name in APPLETS:
        os.symlink(busybox, os.path.join(box, name))
    words = ["sh", script, "DESTDIR=" + place.folder, "PREFIX=/opt/ucspi"]
    checks.expect("under busybox", run(words, env={"PATH": box}, executable=busybox), (0, b""))
    checks.expect("under busybox: what is put there", files(place.folder + "/opt/ucspi"), installing.wanted_files())
    checks.expect("under busybox: uninstall", run(words + ["uninstall"], env={"PATH": box}, executable=busybox), (0, b""))
    checks.expect("under busybox: nothing is left", files(place.folder), [])
    return None


def debian_files():
    """The files of Debian's package, or None where neither dpkg nor apt can tell."""
    code, said = run(["dpkg", "-L", DEBIAN])
    if code:
        return None
    return {line for line in said.decode().split("\n") if line and not (os.path.isdir(line) and not os.path.islink(line))}


def check_package(checks, made, room):
    """Debian's package: what it says of itself, its files, none of them one of ucspi-tcp, and its tools as they are called."""
    path = os.path.join(made, "gaqolchu_%s_amd64.deb" % version())
    fields = dict(re.findall(r"^(\w+): (.*)$", run(["dpkg-deb", "-f", path])[1].decode(), re.M))
    wanted = {"Package": "gaqolchu", "Version": version(), "Architecture": "amd64"}
    checks.expect("its fields", {name: fields.get(name) for name in wanted}, wanted)
    checks.holds("it does not stand in the way of Debian's", not {"Conflicts", "Replaces", "Breaks", "Provides"} & set(fields), fields)
    root = os.path.join(room, "package")
    checks.expect("it is unpacked", run(["dpkg-deb", "-x", path, root])[0], 0)
    found = {"/" + name for name in files(root)}
    doc = "/usr/share/doc/gaqolchu/"
    wanted = {"/usr/bin/ucspi", "/usr/bin/ucspi-log-events", "/usr/share/bash-completion/completions/ucspi"}
    wanted |= {doc + name for name in ("changelog.gz", "copyright", "README.md", "CHANGELOG.md", "man")}
    wanted |= {"/usr/lib/ucspi/bin/" + tool for tool in TOOLS} | {"/usr/share/man/man%s/%sucspi.gz" % (page[-1], page) for page in pages()}
    wanted |= {"/usr/lib/ucspi/man/man%s/%s.gz" % (page[-1], page) for page in pages()}
    wanted |= {doc + name for name in shown_examples()} | {doc + "docs/" + name for name in files(os.path.join(TOP, "docs"))}
    checks.expect("its files", sorted(found), sorted(wanted))
    lost = [name for name in found if os.path.islink(root + name) and not os.path.exists(root + name)]
    checks.expect("links in it that lead nowhere", lost, [])
    check_stripped(checks, "the package", root + "/usr/bin/ucspi")
    check_pages(checks, "the package", root + doc, {name[len(doc):] for name in found if name.startswith(doc)})
    check_manpath(checks, "the package", root + "/usr/lib/ucspi/bin", root + "/usr/share/man/man1/tcpserver.1ucspi.gz")
    needs_gcc = any("libgcc_s" in path for path in libraries(root + "/usr/bin/ucspi"))
    checks.expect("what it depends on", fields.get("Depends"), "libc6 (>= 2.34)" + (", libgcc-s1" if needs_gcc else ""))
    with open(root + doc + "copyright", encoding="ascii") as one, open(os.path.join(TOP, "README.md"), encoding="utf-8") as other:
        checks.holds("that no licence has been chosen", "No licence has been chosen" in one.read() and "No licence has been chosen" in " ".join(other.read().split()))
    if shutil.which("lintian"):
        said = run(["lintian", "--allow-root", path])[1].decode()
        found_amiss = [line for line in said.splitlines() if re.match("[EW]: ", line) and not line.split()[2] in OF_LICENCE]
        checks.expect("lintian", found_amiss, [])
    else:
        skip("what lintian says, which is not installed")
    owners = run(["dpkg-deb", "-c", path])[1].decode().split("\n")[:-1]
    checks.expect("whose they are", {line.split()[1] for line in owners}, {"root/root"})
    others = debian_files()
    if others is None:
        skip("a comparison with the files of %s, which is not installed" % DEBIAN)
    else:
        checks.holds("Debian's package is known", "/usr/bin/tcpserver" in others, others)
        checks.expect("files that are in both", sorted(found & others), [])
    tool = os.path.join(root, "usr/lib/ucspi/bin/addcr")
    checks.expect("a tool by djb's name", run([tool], input=b"a\n"), (0, b"a\r\n"))
    if shutil.which("man"):
        page = os.path.join(root, "usr/share/man/man1/tcprules.1ucspi.gz")
        code, said = run(["man", "-l", page], stdin=subprocess.DEVNULL)
        checks.holds("a page of it", code == 0 and b"NAME" in re.sub(b".\b", b"", said), said[:200])


def check_put_in_place(checks, made, room):
    """dpkg puts the package into a root of its own, and takes it away again."""
    if os.geteuid() != 0:
        return skip("dpkg in a root of its own, since that takes root")
    root = os.path.join(room, "dpkg")
    for name in ("info", "updates", "triggers", "parts"):
        os.makedirs(os.path.join(root, "var/lib/dpkg", name))
    with open(os.path.join(root, "var/lib/dpkg/status"), "w"):
        pass
    path = os.path.join(made, "gaqolchu_%s_amd64.deb" % version())
    words = ["dpkg", "--root=" + root, "--log=/dev/null", "--force-depends", "--no-triggers"]
    code, said = run(words + ["-i", path])
    checks.holds("dpkg -i", code == 0, said)
    checks.holds("what dpkg put there", os.access(os.path.join(root, "usr/lib/ucspi/bin/tcprules"), os.X_OK))
    checks.expect("dpkg -V", run(words + ["-V", "gaqolchu"]), (0, b""))
    checks.expect("dpkg -r", run(words + ["-r", "gaqolchu"])[0], 0)
    checks.expect("what dpkg left", [name for name in files(root) if name.startswith("usr/")], [])
    return None


def check(program, failures):
    """How many tests there were."""
    checks, program = Checks("packages", failures), os.path.abspath(program)
    with tempfile.TemporaryDirectory() as room:
        os.chmod(room, 0o755)
        has_dpkg = shutil.which("dpkg-deb") is not None
        if not has_dpkg:
            skip("Debian's package, since dpkg-deb is not installed")
        made = check_same(checks, program, room, ["dist", "deb"] if has_dpkg else ["dist"])
        folder = check_archive(checks, program, made, room)
        check_alone(checks, folder, room)
        check_script(checks, folder, room)
        check_make(checks, folder, room)
        if has_dpkg:
            check_package(checks, made, room)
            check_put_in_place(checks, made, room)
    return checks.tests
