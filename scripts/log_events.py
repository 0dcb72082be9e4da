#!/usr/bin/env python3
"""Turns the log of a server into a script for `rulesim`. Its answer says whether these events may happen in this order.

Usage: ucspi-log-events [PER] < log | ucspi rulesim (the name under which it is installed).

The log is that of one run of `ucspi tcpserver -v`, from its first line on. Lines of its programs may stand between. The start of a program's
line may stand in front of a line of the server, since a shell writes an error message in three pieces. So what a program logs of its clients must
not end as such a line does. PER is the number that the server has
with `-m`. Without it the only limit for an address is that of `-c`, which the log tells. The answer is `admitted A live L retired R most M`, or
`illegal I`: event I is the first that may not happen.

The script also has the events that no line tells. The rules were opened before a verdict, and the program was started before its end. The end of
a denied connection is a status line alone. If it may belong to several connections, the script takes one with which the other lines fit.

The log may end anywhere, as that of a server that still runs: a last line without its line feed is left out, and so is a status line of a connection
whose own line would come next.

Lines that do not fit are named on standard error, and the exit code is then 1. These are a number of connections that the events before don't
give, an event without its status, and a line of no known form. The lines behind it are read by its numbers, so that a loss is named once. A line that
nothing contradicts may be missing unseen: then `rulesim` may find the events illegal. If the log can't be read or the script can't be written, the exit code is 111.
"""
import bisect
import collections
import os
import re
import signal
import sys

NAME = b"tcpserver: "
# (the server's numbers have 64 bits; a longer one was written by somebody else)
DIGITS = rb"\d{1,19}"
NUMBER = rb"(%s)" % DIGITS
ANY_ADDRESS = rb"\d{1,3}\.\d{1,3}\.\d{1,3}\.\d{1,3}"
ADDRESS = rb"(%s)" % ANY_ADDRESS
# (older versions printed `no thread` and `no pipe ends`)
CAUSES = rb"(banner fault|directory fault|rules read fault|rules damaged|out of memory|no thread)"
FAULTS = rb"(not found|refused|failed|out of memory|no pipe ends)"
VERDICT = rb"(ok|deny) %s [^ :]*:%s:%s [^ :]*:%s:[^ :]*:%s" % (NUMBER, ADDRESS, DIGITS, ADDRESS, DIGITS)
# lines without an event: the cause of the line before, where the server listens, and a program's process; what a server says of its rules before it
# lets anybody in; and why one was not started, with what to do about it
BESIDE = (
    rb"cause: .*|listening on %s:%s|runs %s process %s|rules by name, and no names|cannot listen|cannot wait for programs|(?:device|read|write) fault"
    rb"|host table line %s|bad wrappers|usage: .*|unknown option -.*|option -.* (?:needs a value|is not in this profile|has a bad number)|hint: .*"
    % (ANY_ADDRESS, DIGITS, DIGITS, DIGITS, DIGITS)
)
FORMS = [
    ("status", re.compile(rb"status: %s/%s" % (NUMBER, NUMBER))),
    ("pid", re.compile(rb"pid %s from %s" % (NUMBER, ADDRESS))),
    ("verdict", re.compile(VERDICT)),
    # (later versions may print more behind the status)
    ("end", re.compile(rb"end %s status (%s|signal)(?: .*)?" % (NUMBER, DIGITS))),
    ("retired", re.compile(rb"retired %s" % NUMBER)),
    ("full", re.compile(rb"drop %s address full" % ADDRESS)),
    ("drop", re.compile(rb"drop %s %s" % (NUMBER, CAUSES))),
    ("start", re.compile(rb"start %s %s" % (NUMBER, FAULTS))),
    ("message", re.compile(rb"out of memory|accept fault|no places left|lost connection")),
    ("beside", re.compile(BESIDE, re.S)),
]
# what is recorded of a client or a program may look like a line of the server
RECORDED = re.compile(rb"\d+ [<>] ")
# the most that `rulesim` takes, as the server does for `-m`
MOST = 10000
# above all serial numbers
ALL = 2 ** 64


class Line:
    """A line of the log: its number in the file, its kind and its fields."""

    def __init__(self, number, kind, fields):
        self.number = number
        self.kind = kind
        self.fields = fields


class Connection:
    """A connection that was let in: its address, and whether its program is known to have been started."""

    def __init__(self, address):
        self.address = address
        self.started = False


class Endings:
    """The ends of denied connections. A status line shows that one of them has ended, and not which one. Verdicts and ends are known by their places in
    the list of events, and an end may be of any connection that was denied before it."""

    def __init__(self):
        # the places of the verdicts that have no end yet, by serial, and the serials by address: both in the order of the verdicts
        self.verdicts = {}
        self.serials = {}
        # the places of the ends; how many are not given to a connection; and of each the first from there on that is not
        self.ends = []
        self.open = 0
        self.following = [0]

    def deny(self, serial, address, place):
        self.forget(serial, address)
        self.verdicts[serial] = place
        self.serials.setdefault(address, collections.OrderedDict())[serial] = None

    def forget(self, serial, address):
        """Takes a connection away that has ended, if it was denied."""
        if self.verdicts.pop(serial, None) is not None:
            del self.serials[address][serial]
            if not self.serials[address]:
                del self.serials[address]

    def end(self, place):
        self.ends.append(place)
        self.open += 1
        self.following.append(len(self.ends))

    def open_from(self, index):
        """The first end from one on that is not given. Each walk halves the way for the next."""
        following = self.following
        while following[index] != index:
            following[index] = following[following[index]]
            index = following[index]
        return index

    def give(self, address):
        """Gives an end to a connection from this address: its place and the serial, if there is one. Of the ends that any of them can have had it is the
        first, which is of use to the fewest others. The first that was denied can have had it."""
        if address not in self.serials:
            return None
        serial = next(iter(self.serials[address]))
        index = self.open_from(bisect.bisect_left(self.ends, self.verdicts[serial]))
        if index == len(self.ends):
            return None
        self.following[index] = index + 1
        self.open -= 1
        self.forget(serial, address)
        return self.ends[index], serial

    def rest(self):
        """Each end that is left with a connection, the first with the first. At no place are there more ends than verdicts before it, so they fit."""
        places = (place for index, place in enumerate(self.ends) if self.following[index] == index)
        return list(zip(places, self.verdicts))


def line_of(number, text):
    """The server's own line in a line of its log, if there is one: all of it, or what stands behind the beginning of another line. That may be one of a
    program, or the unfinished last line of the log, which `tac` puts in front of the line before."""
    if NAME not in text or RECORDED.match(text):
        return None
    # (what a cause names may end in the server's name)
    for begins in (text.rfind(NAME), text.find(NAME)):
        for kind, form in FORMS:
            match = form.fullmatch(text, begins + len(NAME))
            if match:
                return Line(number, kind, [field.decode() for field in match.groups()])
    return Line(number, "unknown", [text.decode("utf-8", "replace")]) if text.startswith(NAME) else None


def lines_of(log):
    """The server's own lines in a log. Behind the last line feed there is no line yet."""
    lines = (line_of(number, text) for number, text in enumerate(log.split(b"\n")[:-1], 1))
    return [line for line in lines if line]


class Events:
    """The events that a log tells, in order."""

    def __init__(self, log, per=None):
        self.limit = None
        self.per = per
        self.events = []
        self.faults = []
        # those alive, by serial, and how many there are of each address
        self.alive = {}
        self.counts = {}
        self.endings = Endings()
        # how many more are alive than the log has lines of, and the serial below which there may be such
        self.beyond = 0
        self.lacking = 0
        self.cut = False
        self.next = 1
        self.most = 0
        self.retired = 0
        self.admitted = 0
        self.full = 0
        self.read(lines_of(log))
        self.last_live = self.live()
        self.end_all_denied()

    def fault(self, line, text):
        self.faults.append("line %d: %s" % (line.number, text))

    def live(self):
        """How many are alive: of those denied some have ended that are not named yet."""
        return len(self.alive) - self.endings.open + self.beyond

    def add(self, *words):
        self.events.append(" ".join(words))

    def read(self, lines):
        first = next((line for line in lines if line.kind not in ("message", "beside", "unknown")), None)
        if not lines or (first and first.kind != "status"):
            self.faults.append("the log does not begin with a status line")
            self.cut, self.lacking = True, ALL
        lines = [line for line in lines if line.kind != "beside"]
        owed = None
        for place, line in enumerate(lines):
            after = lines[place + 1].kind if place + 1 < len(lines) else None
            if owed and line.kind != "status":
                self.fault(owed, "no status line follows")
            if line.kind == "pid" and line is not first and lines[place - 1].kind != "status":
                self.fault(line, "no status line in front")
            if line.kind == "status":
                self.see_status(line, owed, after)
            else:
                getattr(self, "see_" + line.kind)(line)
            owed = line if line.kind in ("end", "retired", "drop") or self.is_start_fault(line) else None

    @staticmethod
    def is_start_fault(line):
        return line.kind == "start" and line.fields[1] != "no pipe ends"

    def see_status(self, line, owed, after):
        live, limit = map(int, line.fields)
        if self.limit not in (None, limit):
            self.fault(line, "another limit than before")
        first, self.limit = self.limit is None, limit
        if after is None and not owed and self.live() + 1 == live <= limit:
            # (the line of who was let in is behind the end of the log)
            return
        said = live - 1 if after == "pid" else live
        if not (first or owed or after == "pid" or self.is_denied_end(said)):
            self.fault(line, "a status line of no event")
        elif said != self.live() and not (first and self.cut):
            self.fault(line, "%d alive, and by the events before %d" % (said, self.live()))
        if said > self.live():
            self.lacking = ALL
            self.next += 0 if first else said - self.live()
        self.beyond += said - self.live()

    def is_denied_end(self, said):
        """Whether a connection that was denied may have ended, so that this many are left: one of those known, or one that the log has no line of."""
        if said != self.live() - 1:
            return False
        if self.endings.open < len(self.endings.verdicts):
            self.endings.end(len(self.events))
            self.events.append(None)
            if self.endings.open == len(self.endings.verdicts):
                self.end_all_denied()
            return True
        if self.beyond > 0:
            self.beyond -= 1
            return True
        return False

    def see_pid(self, line):
        serial, address = line.fields
        limit = self.limit if self.per is None else self.per
        while limit and self.counts.get(address, 0) >= limit:
            given = self.endings.give(address)
            if not given:
                break
            self.end_denied(*given)
        if int(serial) != self.next:
            self.fault(line, "serial %s, and %d is next" % (serial, self.next))
            if int(serial) < self.next:
                self.begin_anew()
            self.lacking = int(serial)
        self.lacking = min(self.lacking, int(serial))
        self.next = int(serial) + 1
        self.admitted += 1
        self.enter(serial, address)
        self.most = max(self.most, self.live())
        self.add("admitted", serial, address)

    def begin_anew(self):
        """Goes on as in another run, to which none belongs of those that are alive: lines may name their serials again."""
        live = self.live()
        self.end_all_denied()
        self.alive, self.counts, self.beyond = {}, {}, live

    def enter(self, serial, address):
        self.alive[serial] = Connection(address)
        self.counts[address] = self.counts.get(address, 0) + 1

    def leave(self, serial):
        address = self.alive.pop(serial).address
        self.endings.forget(serial, address)
        self.counts[address] -= 1
        if not self.counts[address]:
            del self.counts[address]

    def end_denied(self, place, serial):
        self.events[place] = "dropped " + serial
        self.leave(serial)

    def end_all_denied(self):
        """Gives all ends that are left: where as many have ended as were denied, or at the end of the log."""
        endings, self.endings = self.endings, Endings()
        for place, serial in endings.rest():
            self.end_denied(place, serial)

    def known(self, line, serial):
        """The connection of a serial. One that the log does not let in is among those that are alive beyond its lines."""
        if serial not in self.alive:
            if int(serial) >= self.lacking:
                self.fault(line, "connection %s is not alive" % serial)
            else:
                self.beyond -= 1
            self.enter(serial, None)
            self.next = max(self.next, int(serial) + 1)
        return self.alive[serial]

    def see_verdict(self, line):
        verdict, serial, _, address = line.fields
        connection = self.known(line, serial)
        if connection.address not in (None, address):
            self.fault(line, "another address than before")
        self.add("opened", serial, "yes")
        self.add("decided", serial, "allow" if verdict == "ok" else "deny")
        if verdict == "deny":
            self.endings.deny(serial, connection.address, len(self.events))

    def start(self, line, serial):
        connection = self.known(line, serial)
        if not connection.started:
            connection.started = True
            self.add("started", serial)

    def see_end(self, line):
        serial, status = line.fields
        self.start(line, serial)
        self.add("ended", serial, status)
        self.leave(serial)

    def see_retired(self, line):
        self.start(line, line.fields[0])
        self.add("retired", line.fields[0])
        self.retired += 1

    def see_drop(self, line):
        serial, cause = line.fields
        self.known(line, serial)
        if cause in ("rules read fault", "rules damaged"):
            self.add("opened", serial, "yes")
        self.add("dropped", serial)
        self.leave(serial)

    def see_start(self, line):
        serial, fault = line.fields
        if fault == "no pipe ends":
            self.start(line, serial)
            return
        self.known(line, serial)
        self.add("startfailed", serial)
        self.leave(serial)

    def see_full(self, line):
        self.full += 1

    def see_message(self, line):
        """The server says something, and nothing has happened to a connection."""

    def see_unknown(self, line):
        self.fault(line, "not a line of this server: %s" % line.fields[0])

    def script(self):
        """The words of `rulesim`."""
        limits = [str(self.limit or 1)] + ([] if self.per is None else [str(self.per)])
        lines = ["events " + " ".join(limits)] + ["event " + event for event in self.events if event] + ["replay"]
        return "".join(line + "\n" for line in lines)

    def report(self):
        """The answer that `rulesim` should give."""
        return "admitted %d live %d retired %d most %d\n" % (self.admitted, self.last_live, self.retired, self.most)


def say(text):
    """Prints a line on standard error. If nobody can read it, the exit code alone says it."""
    try:
        os.write(2, (text + "\n").encode("utf-8", "replace"))
    except OSError:
        pass


def end_with(kind, error):
    """Reports an error of the system, as the tools do: the exit code."""
    say("log_events: %s: %s" % (kind, os.strerror(error.errno)))
    return 111


def main():
    words = sys.argv[1:]
    if len(words) > 1 or not all(re.fullmatch("[0-9]{1,19}", word) and 1 <= int(word) <= MOST for word in words):
        say("usage: ucspi-log-events [PER] < log | ucspi rulesim")
        return 100
    # (a reader that goes away ends it, as it ends other filters)
    signal.signal(signal.SIGPIPE, signal.SIG_DFL)
    try:
        with open(0, "rb", closefd=False) as file:
            log = file.read()
    except OSError as error:
        return end_with("read fault", error)
    events = Events(log, *map(int, words))
    try:
        with open(1, "wb", closefd=False) as file:
            file.write(events.script().encode())
    except OSError as error:
        return end_with("write fault", error)
    for fault in events.faults:
        say("log_events: " + fault)
    return 1 if events.faults else 0


if __name__ == "__main__":
    sys.exit(main())
