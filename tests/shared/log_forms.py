"""The forms of the lines of a server's log, without their name in front: each line as a text, of which any part may be a pattern. They are written from
docs/LOG_LINES.md, with nothing of the program or of the log reader in them.

A new field of a line is added here. All groups have ends of programs from here alone, and `man_pages` compares these forms with the document's.
"""
import re

import log_events

# a pattern of a number
ANY = r"\d+"
# what tells no event, in this version or in later ones
BESIDE = re.compile(r"cause: .*|listening on [\d.]+:\d+|runs \d+ process \d+")


def status(live, limit):
    """How many are alive, and how many may be."""
    return "status: %s/%s" % (live, limit)


def pid(serial, address):
    """A connection that was let in."""
    return "pid %s from %s" % (serial, address)


def verdict(word, serial, local, peer):
    """That it is `ok`, or `deny`; each end is a name and what follows it, as `mail.example:10.0.0.1:25` and `:10.0.2.7::41190`."""
    return "%s %s %s %s" % (word, serial, local, peer)


def end(serial, code=0):
    """The end of its program."""
    return "end %s status %s" % (serial, code)


def any_end(serial):
    """A pattern of an end, whatever its status."""
    return end(serial, r"(\d+|signal)")


def retired(serial):
    """A place that is given up."""
    return "retired %s" % serial


def drop(serial, cause):
    """A connection that is given up before its program is started."""
    return "drop %s %s" % (serial, cause)


def full(address):
    """One that is not let in, since its address has as many as may be."""
    return "drop %s address full" % address


def start(serial, fault):
    """A program that is not started."""
    return "start %s %s" % (serial, fault)


def documented():
    """These forms as the document has them, with its words for their parts."""
    ends = "LH:LIP:LPORT", "RH:RIP:INFO:RPORT"
    forms = [status("L", "C"), pid("N", "IP"), verdict("ok", "N", *ends), verdict("deny", "N", *ends), end("N", "S"), retired("N")]
    return {"tcpserver: " + form for form in forms + [drop("N", "CAUSE"), full("IP"), start("N", "FAULT")]}


def log(*lines):
    """A log of these lines, each with the server's name."""
    return "".join("tcpserver: %s\n" % line for line in lines).encode()


# what only older versions logged, which the log reader still takes
OLDER = re.compile(rb"tcpserver: (drop \d+ no thread|start \d+ no pipe ends)")
# what a server prints that is not started
NOT_STARTED = re.compile(
    rb"tcpserver: (cannot listen|cannot wait for programs|(device|read|write) fault|host table line \d+|bad wrappers|(unknown )?option -.*"
    rb"|(usage|hint): .*)")
# one that a program may have begun to write, with the server's own line behind that
WHOLE_END = re.compile(rb"tcpserver: %s" % any_end(ANY).encode())


def is_other_end(text):
    """Whether the log reader takes a line for an end and passes over a part of it."""
    line = log_events.line_of(0, text)
    return line is not None and line.kind == "end" and not WHOLE_END.fullmatch(text, text.rindex(b"tcpserver: "))


def events_of(text, per=None):
    """The events of a log, and what does not fit in it: what the log reader finds, what it passes over behind an end, for later versions, what it takes of
    older ones, and what it takes of a log that is not whole or is of a server that was not started."""
    events = log_events.Events(text, per)
    events.faults += ["more than an end: %r" % line for line in text.split(b"\n") if is_other_end(line)]
    events.faults += ["of an older version: %r" % line for line in text.split(b"\n") if OLDER.fullmatch(line)]
    events.faults += ["of a server that was not started: %r" % line for line in text.split(b"\n") if NOT_STARTED.fullmatch(line)]
    events.faults += ["a part of a line: %r" % line for line in text.split(b"\n")[-1:] if b"tcpserver: " in line]
    return events
