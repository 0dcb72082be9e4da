"""Weaves the histories of two kinds of processes over one folder: a `tcpserver`, whose log has each verdict, and one
`tcprules` after another, some of which are killed within their rename or between their calls. strace has the moments at
which the rules were renamed and opened, and each decision has to be that of a text which stood under the rules name at
some moment of its opening.

A few lines here define once more what is legal, without the program. Each text denies another address than the seven
texts before and after it, and gives its own name to all other clients. A verdict, with the data that the client got,
thus says which text decided.
"""
import contextlib
import itertools
import math
import os
import random
import re
import signal
import subprocess
import threading
import time
from typing import NamedTuple

from shared import compiled_files, failed_calls, log_forms, server_runs
from shared.server_runs import only_child

INSTALLATIONS = 24
CLIENTS = 4
# how long a call is held up, and one within which a process is killed, which strace waits for all the same; in seconds
HELD_UP, KILLED_IN = 0.05, 0.5
# the calls of an installation: the sync of the folder, that of the file, the rename, and another sync of the folder; and what happens in it
WHOLE, WITHIN = "whole", "killed within its rename"
WAYS = {
    WHOLE: None,
    "renamed late": "rename:delay_enter=%d" % (HELD_UP * 1e6),
    "killed before the sync of its file": "fsync:signal=KILL:when=2",
    "killed before its rename": "rename:signal=KILL",
    "renamed early": "rename:delay_exit=%d" % (HELD_UP * 1e6),
    WITHIN: "rename:delay_exit=%d" % (KILLED_IN * 1e6),
    "killed before the second sync of the folder": "fsync:signal=KILL:when=3",
    "whole once more": None,
}
LEFT_OLD = ("killed before the sync of its file", "killed before its rename")
RECORD = re.compile(r"(\d+) +(\d+\.\d+) (.*)")
OPENED = re.compile(r'openat\([^"]*"[^"]*rules\.cdb"')
VERDICT = re.compile(r'write\(2, ".*?tcpserver: (ok|deny) (\d+) ')
CLIENT = re.compile(r"(ok|deny) (\d+) \S* [^:]*:([\d.]+):[^:]*:(\d+)")


# what is legal


class Rename(NamedTuple):
    """A text of this number came under the rules name at some moment between these two."""

    text: int
    begins: float
    ends: float


class Opening(NamedTuple):
    """The rules were opened for this connection at some moment between these two, and the text of this number decided."""

    serial: int
    text: int
    begins: float
    ends: float


def may_stand(renames, text, begins, ends):
    """Whether this text may have stood under the rules name at some moment between these two."""
    positions = [position for position, rename in enumerate(renames) if rename.text == text]
    return any(renames[position].begins <= ends and (position + 1 == len(renames) or renames[position + 1].ends >= begins) for position in positions)


def is_history(renames, openings):
    """Whether each rename and each opening can be given one moment of its own, the renames in their order, so that each opening finds the text of the
    last rename before it."""
    positions = {rename.text: position for position, rename in enumerate(renames)}
    if any(opening.text not in positions for opening in openings):
        return False
    moment = -math.inf
    for position, rename in enumerate(renames):
        # after the beginning of all that found an earlier text, and before the end of all that found this one or a later one
        moment = max([moment, rename.begins] + [opening.begins for opening in openings if positions[opening.text] < position])
        if moment > min([rename.ends] + [opening.ends for opening in openings if positions[opening.text] >= position]):
            return False
    return True


def by_trying(renames, openings):
    """The same, where all bounds are whole numbers from 0 to 9: every choice of moments is tried. The first text has always been there."""
    for moments in itertools.combinations_with_replacement(range(10), len(renames) - 1):
        if all(rename.begins <= moment <= rename.ends for rename, moment in zip(renames[1:], moments)):
            stands = dict(zip([rename.text for rename in renames], zip((0, *moments), (*moments, 9))))
            if all(max(opening.begins, stands[opening.text][0]) <= min(opening.ends, stands[opening.text][1]) for opening in openings):
                return True
    return False


def small_histories(suite):
    """A thousand small ones, of which the definition says what trying says."""
    series, found = random.Random(1), []
    for _ in range(1000):
        bounds = [sorted((series.randrange(10), series.randrange(10))) for _ in range(2)]
        bounds.sort()
        renames = [Rename(0, 0, 0)] + [Rename(text, *pair) for text, pair in enumerate(bounds, 1)]
        openings = [Opening(serial, series.randrange(3), *sorted((series.randrange(10), series.randrange(10)))) for serial in range(1, 4)]
        found.append(is_history(renames, openings))
        suite.expect("the definition, of %r and %r" % (renames, openings), found[-1], by_trying(renames, openings))
    suite.holds("there are histories and others", 100 < sum(found) < 900, sum(found))


def definition(suite):
    """What is a history and what is none, of two or three texts."""
    first, second, third = Rename(0, -math.inf, -math.inf), Rename(1, 10, 20), Rename(2, 30, 40)
    cases = [
        ("nothing", [], True), ("the old one before", [(0, 5, 6)], True), ("the new one before", [(1, 5, 6)], False),
        ("the old one after", [(0, 21, 22)], False), ("an older one than that", [(0, 31, 32)], False), ("the new one after", [(1, 21, 22)], True),
        ("old, then new, within", [(0, 12, 13), (1, 14, 15)], True), ("new, then old, within", [(1, 12, 13), (0, 14, 15)], False),
        ("new and old at once, within", [(1, 12, 15), (0, 14, 16)], True), ("old over the whole change", [(0, 5, 25)], True),
        ("new over the whole change", [(1, 5, 25)], True), ("a text that never stood", [(7, 12, 13)], False),
        ("the third before the second is gone", [(2, 32, 33), (1, 34, 35)], False), ("the second for long", [(1, 15, 35), (2, 33, 34)], True),
    ]
    for name, openings, wanted in cases:
        openings = [Opening(serial, *opening) for serial, opening in enumerate(openings, 1)]
        suite.expect("the definition: " + name, is_history([first, second, third], openings), wanted)


# what was traced


def traced(path):
    """The records of a trace, each with its moment, thread by thread."""
    threads = {}
    with open(path, encoding="latin-1") as file:
        for line in file:
            found = RECORD.match(line)
            if found:
                threads.setdefault(found.group(1), []).append((float(found.group(2)), found.group(3)))
    return threads


def end_of(records, position, last=math.inf):
    """A moment by which the call that was begun by this record had done what it does: that of the thread's next record, or the last one."""
    return min(records[position + 1][0], last) if position + 1 < len(records) else last


def openings_in(path):
    """When the rules were opened for each connection that has a verdict: two moments, before the call and behind it."""
    found = {}
    for records in traced(path).values():
        last = None
        for position, (begins, text) in enumerate(records):
            verdict = VERDICT.match(text)
            if OPENED.match(text):
                last = begins, end_of(records, position)
            elif verdict and last:
                found[int(verdict.group(2))], last = last, None
    return found


class Installation:
    """One `tcprules`: its text, what happened in it, its rename, and the phases that it came to, each with a moment."""

    def __init__(self, text, how, path, last):
        self.text, self.how = text, how
        self.rename, self.phases = None, []
        (records,) = traced(path).values()
        scratch = None
        for position, (begins, call) in enumerate(records):
            name, _, result = call.partition("(")[0], *call.rpartition("= ")[1:]
            done = re.match(r"\d+", result)
            if name == "rename":
                self.rename = Rename(text, begins, end_of(records, position, last))
            if not done or "KILL" in end_text(records, position):
                continue
            if name == "openat" and "O_CREAT" in call and "rules.tmp" in call:
                scratch = result.split()[0]
                self.add(begins, "fresh")
            elif name == "pwrite64" and scratch:
                self.add(begins, "filling")
            elif name == "fsync" and call.startswith("fsync(%s)" % scratch):
                self.add(begins, "synced")
            elif name == "rename":
                self.add(begins, "named")
            elif name == "fsync" and self.rename:
                self.add(begins, "done")

    def add(self, moment, phase):
        self.phases.append((moment, "phase " + phase))


def end_text(records, position):
    """The record behind one."""
    return records[position + 1][1] if position + 1 < len(records) else ""


# what is run


def denied_by(text):
    return "127.0.0.%d" % (10 + text % 8)


class Folder:
    """A folder with rules, whose texts are installed one after another."""

    def __init__(self, suite):
        self.suite = suite
        self.path = suite.path("rules of %d" % suite.tests)
        os.mkdir(self.path)
        self.renames, self.installations = [Rename(0, -math.inf, -math.inf)], []
        self.run(0, None)

    def run(self, text, inject):
        """Installs a text under strace, and kills it within its rename where that is held up for long: the time by which the file had come, if it did."""
        trace = os.path.join(self.path, "trace %d" % text)
        words = ["strace", "-q", "-f", "-ttt", "-o", trace, "-e", "trace=openat,pwrite64,fsync,statx,rename"] + (["-e", "inject=" + inject] if inject else [])
        given = ('%s:deny\n127.:allow,TEXT="%d"\n:deny\n' % (denied_by(text), text)).encode()
        words += [self.suite.program, "tcprules", "rules.cdb", "rules.tmp"]
        with subprocess.Popen(words, cwd=self.path, stdin=subprocess.PIPE, stdout=subprocess.DEVNULL, stderr=subprocess.DEVNULL) as process:
            before, seen = self.content(), None
            process.stdin.write(given)
            process.stdin.close()
            if inject == WAYS[WITHIN]:
                server_runs.wait_until("a rename", lambda: self.content() != before)
                seen = time.time()
                # (it has gone on where this is late)
                with contextlib.suppress(OSError, ValueError):
                    os.kill(only_child(process.pid), signal.SIGKILL)
            process.wait(server_runs.WAIT)
        return trace, seen or time.time()

    def content(self):
        return compiled_files.content(self.path, "rules.cdb")

    def install(self, text, how):
        """Installs a text, or is killed while it does so; the file that stands there then is one of two."""
        before = self.content()
        installation = Installation(text, how, *self.run(text, WAYS[how]))
        self.installations.append(installation)
        is_new = self.content() != before
        self.suite.expect("text %d, %s: the new file stands there" % (text, how), is_new, how not in LEFT_OLD)
        if is_new:
            self.renames.append(installation.rename)


class Client(threading.Thread):
    """Asks again and again, from one address after another, and remembers what it got."""

    def __init__(self, server, number):
        super().__init__(daemon=True)
        self.server, self.series = server, random.Random(number)
        self.answers, self.over = [], False

    def run(self):
        while not self.over:
            source = denied_by(self.series.randrange(8))
            try:
                with self.server.connect(source) as connection:
                    port = connection.getsockname()[1]
                    self.answers.append((time.time(), source, port, server_runs.read_all(connection).decode()))
            except OSError as fault:
                self.answers.append((time.time(), source, 0, repr(fault)))


def found_of(suite, server, trace, folder, clients):
    """The openings, each with the text that decided; what a denied client met is told by its address."""
    moments, answers, openings, unsure = openings_in(trace), {}, [], 0
    # (a port may come again)
    for _, source, port, answer in sorted(answer for client in clients for answer in client.answers):
        answers.setdefault((source, port), []).append(answer)
    for line in server.lines():
        found = CLIENT.match(line)
        if not found:
            continue
        verdict, serial, source, port = found.group(1), int(found.group(2)), found.group(3), int(found.group(4))
        answer, moment = (answers.get((source, port)) or ["nobody"]).pop(0), moments.get(serial)
        suite.holds("connection %d has an opening" % serial, moment, line)
        if not moment:
            continue
        if verdict == "ok":
            suite.holds("connection %d: a text for its client" % serial, re.fullmatch(r"\d+\n", answer), answer)
            texts = [int(answer)] if answer.strip().isdigit() else []
            suite.holds("connection %d: not one that denies it" % serial, source not in map(denied_by, texts), (line, answer))
        else:
            suite.expect("connection %d is denied" % serial, answer, "")
            texts = [rename.text for rename in folder.renames if denied_by(rename.text) == source and may_stand(folder.renames, rename.text, *moment)]
        legal = [text for text in texts if may_stand(folder.renames, text, *moment)]
        suite.holds("connection %d was decided by a text that stood there while it opened the rules" % serial, legal, (line, answer, moment))
        openings += [Opening(serial, legal[0], *moment)] if len(legal) == 1 else []
        unsure += len(legal) > 1
    suite.holds("each verdict says which text decided, but for a few", unsure <= len(openings) // 20, (unsure, len(openings)))
    return openings


def replayed(suite, server, folder, openings):
    """The events of both, woven by the moments of openings, for `rulesim`."""
    events, ends = log_forms.events_of(server.log()), {str(opening.serial): opening.ends for opening in openings}
    suite.expect("what does not fit in the log", events.faults, [])
    phases = [phase for installation in folder.installations for phase in installation.phases]
    suite.expect("the phases of a whole installation", [name for _, name in folder.installations[0].phases],
                 ["phase fresh"] + ["phase filling"] * 2 + ["phase " + name for name in ("synced", "named", "done")])
    woven = []
    for event in filter(None, events.events):
        name, *words = event.split()
        while name == "opened" and phases and phases[0][0] <= ends.get(words[0], -math.inf):
            woven.append(phases.pop(0)[1])
        woven.append(event)
    events.events = woven + [name for _, name in phases]
    ended = subprocess.run([suite.program, "rulesim"], input=events.script().encode(), stdout=subprocess.PIPE, timeout=server_runs.WAIT)
    suite.expect("replay of both, woven", (ended.returncode, ended.stdout.decode()), (0, events.report()))


def woven(suite, way):
    """A server and installers, and all that is found of them."""
    if not failed_calls.can_trace():
        print("two_processes: no strace that may be used here: a server and installers, woven, are skipped", flush=True)
        return
    folder = Folder(suite)
    trace = os.path.join(folder.path, "trace of the server")
    words = ["strace", "-qq", "-f", "-ttt", "-s", "300", "-o", trace, "-e", "trace=openat,statx,write"] + suite.command
    with suite.start([way, "-v", "-c", "8", "-x", "rules.cdb"], ["printenv", "TEXT"], command=words, cwd=folder.path) as server:
        clients = [Client(server, number) for number in range(CLIENTS)]
        for client in clients:
            client.start()
        for text in range(1, INSTALLATIONS + 1):
            folder.install(text, list(WAYS)[(text - 1) % len(WAYS)])
        for client in clients:
            client.over = True
            client.join(server_runs.WAIT)
        server.idle()
        os.kill(only_child(server.process.pid), signal.SIGTERM)
        server.end()
    openings = found_of(suite, server, trace, folder, clients)
    renames = folder.renames
    # (one that is held up no longer goes on, where this was late)
    within = [phases[-1] for phases in (one.phases for one in folder.installations if one.how == WITHIN)]
    suite.holds("installations that were killed within their rename", "phase synced" in [name for _, name in within], within)
    suite.holds("there were decisions by most of the texts", len({opening.text for opening in openings}) > len(renames) // 2, openings)
    suite.holds("all of it, woven, is a history", is_history(renames, openings), (renames, openings))
    # the same with one decision by the text before the one that decided, where that had surely gone
    positions = {rename.text: position for position, rename in enumerate(renames)}
    late = [opening for opening in openings if positions[opening.text] and opening.begins > renames[positions[opening.text]].ends]
    suite.holds("decisions long after a rename", late)
    for opening in late[:50]:
        older = opening._replace(text=renames[positions[opening.text] - 1].text)
        wrong = [older if other is opening else other for other in openings]
        suite.holds("an older decision for connection %d is no history" % opening.serial, not is_history(renames, wrong))
    replayed(suite, server, folder, openings)


def pumped(suite):
    woven(suite, "-S")


def handed_over(suite):
    woven(suite, "-s")


CHECKS = [definition, small_histories, pumped, handed_over]
COMMON = []
