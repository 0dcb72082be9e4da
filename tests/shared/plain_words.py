"""Second, plain programs for the tests: the words of `tcpserver`, host tables, lookups in compiled files, lists of events and the scripts of
`rulesim`. They are written from the documents, with nothing of the program in them."""
import itertools
import os
import re
from typing import Callable, NamedTuple

from shared import plain_texts

# the options with a number, in the order in which their faults are named: the least and the greatest that it may be, by the letter
NUMBERS = {"c": (1, 10000), "k": (1, 4294967295), "m": (1, 10000)}
VALUED = "".join(NUMBERS) + "xBlNwtb"
ALONE = "vQq1XhHpPROodDsS"
REFUSED = "rugU"
# options of which the last given counts, by the letter under which it is kept
LAST_OF = {"S": "s", "s": "s", "v": "v", "Q": "v", "q": "v"}
USAGE = "usage: tcpserver [options] host port prog [args]"
PHASES = ("fresh", "filling", "synced", "named", "done")
LAST_SERIAL = 2 ** 64 - 1


def number_in(word, least, most):
    """The number of a word, if it is one in this range."""
    if not re.fullmatch("[0-9]+", word) or not least <= int(word) <= most:
        return None
    return int(word)


def address_in(word):
    """The word, if it is an IPv4 address."""
    parts = word.split(".")
    if len(parts) == 4 and all(re.fullmatch("0|[1-9][0-9]{0,2}", part) and int(part) < 256 for part in parts):
        return word
    return None


# the words of tcpserver

# the causes of a usage line, and of a fault of the system
NO_WORD = r"tcpserver: cause: (no program|[^\n]*: no (host|port))\n"
SYSTEM = r"tcpserver: cause: [^\n]*: [A-Z][^\n]+\n"


class WordFault(Exception):
    """What is wrong with the words."""


def options_in(words):
    """The options with their values, of which the last counts, and the words that are left. Under `s` stands which of `-s` and `-S` was given last,
    under `v` which of `-v`, `-Q` and `-q`."""
    options, position = [], 0
    while position < len(words):
        word = words[position]
        if not word.startswith("-") or word == "-":
            break
        position += 1
        if word == "--":
            break
        letters = word[1:]
        while letters:
            letter, letters = letters[0], letters[1:]
            if letter in REFUSED:
                raise WordFault("option -%s is not in this profile" % letter)
            if letter in VALUED:
                if not letters and position == len(words):
                    raise WordFault("option -%s needs a value" % letter)
                value = letters if letters else words[position]
                position += not letters
                letters = ""
                options.append((letter, value))
            elif letter in ALONE:
                options.append((LAST_OF.get(letter, letter), letter))
            else:
                raise WordFault("unknown option -%s" % letter)
    return dict(options), words[position:]


def is_wrapped(names):
    """Whether these are wrappers."""
    names = names.split(",")
    names = names[1:] if names[0] == "recordio" else names
    return all(name in ("addcr", "delcr", "fixcrio") for name in names)


def fault_of_words(words, folder):
    """The fault of the words of a server that can't listen at its port, as a text, an exit code, and the form of the line of its cause, if there is
    to be one."""
    options = {}
    text, code = first_fault(words, folder, options)
    is_told = options.get("v") == "v" and (code == 111 or text == USAGE)
    return text, code, (NO_WORD if code == 100 else SYSTEM) if is_told else None


def first_fault(words, folder, options):
    """The first fault of the words, and its exit code; the options are added to `options`, once they are read."""
    try:
        found, words = options_in(words)
        options.update(found)
        for letter, (least, most) in NUMBERS.items():
            if letter in options and number_in(options[letter], least, most) is None:
                raise WordFault("option -%s has a bad number" % letter)
        is_host = len(words) > 2 and (words[0] in ("0", "localhost") or address_in(words[0]))
        if not is_host or number_in(words[1], 0, 65535) is None:
            raise WordFault(USAGE)
        if "w" in options and (not is_wrapped(options["w"]) or options.get("s") == "s"):
            raise WordFault("bad wrappers")
    except WordFault as fault:
        return str(fault), 100
    if "N" in options:
        try:
            with open(os.path.join(folder, options["N"]), "rb") as file:
                hosts = Hosts(file.read())
        except (OSError, ValueError):
            return "read fault", 111
        if hosts.bad_line:
            return "host table line %d" % hosts.bad_line, 100
    if "x" in options and not is_rules_path(options["x"], folder):
        return "device fault", 111
    return "cannot listen", 111


def ends_in_folder(path):
    """Whether a path ends in what is a folder's, and no name of a file."""
    return path.rpartition("/")[2] in ("", ".", "..")


def is_in_folder(path, folder):
    """Whether the folder is there that a path leads through."""
    before, slash, _ = path.rpartition("/")
    return os.path.isdir(os.path.join(folder, before + "/" if slash else "."))


def is_rules_path(path, folder):
    """Whether a path ends in a name, in a folder that is there."""
    name = path.rpartition("/")[2]
    return is_in_folder(path, folder) and not ends_in_folder(path) and len(name.encode()) < 256


# host tables

class Hosts:
    """A host table: its names, what it confirms, and its first bad line, if there is one."""

    def __init__(self, text):
        self.names, self.confirmed, self.bad_line = {}, set(), None
        lines = text.split(b"\n")
        for number, line in enumerate(lines[:-1] if lines[-1] == b"" else lines, 1):
            line = line.rstrip(b" \t")
            if line and not line.startswith(b"#") and not self.take(line):
                self.bad_line = number
                return

    def take(self, line):
        """Takes a line: whether it is a good one."""
        words = re.split(rb"[ \t]+", line)
        if len(words) != 2:
            return False
        is_of_name = words[0].startswith(b"=")
        address, name = (words[1], words[0][1:]) if is_of_name else words
        if not 0 < len(name) < 256 or any(not 33 <= byte <= 126 for byte in name) or not address_in(address.decode("latin-1")):
            return False
        name, address = name.decode().lower(), address.decode()
        if is_of_name:
            self.confirmed.add((name, address))
        else:
            self.names.setdefault(address, name)
        return True

    def name_of(self, address, confirmed):
        """The name of an address, if there is one, and where only confirmed ones are wanted, if it is confirmed."""
        name = self.names.get(address)
        return None if confirmed and (name, address) not in self.confirmed else name


# compiled files

class Damaged(Exception):
    """A file that is no compiled one, as far as was looked."""


def numbers_at(file, position):
    if position + 8 > len(file):
        raise Damaged
    return int.from_bytes(file[position:position + 4], "little"), int.from_bytes(file[position + 4:position + 8], "little")


def find(file, key):
    """What a compiled file has under a key, if anything."""
    if len(file) < 2048:
        raise Damaged
    number = 5381
    for byte in key:
        number = (number * 33 & 0xFFFFFFFF) ^ byte
    table, slots = numbers_at(file, number % 256 * 8)
    if slots == 0:
        return None
    if table + 8 * slots > len(file):
        raise Damaged
    for step in range(slots):
        found, position = numbers_at(file, table + ((number >> 8) + step) % slots * 8)
        if position == 0:
            return None
        if found != number:
            continue
        key_length, length = numbers_at(file, position)
        if position + 8 + key_length + length > len(file):
            raise Damaged
        if file[position + 8:position + 8 + key_length] != key:
            continue
        return file[position + 8 + key_length:position + 8 + key_length + length]
    return None


def instruction_of(code):
    """The verdict and the settings of a code."""
    verdict = "deny" if code.startswith(b"D\0") else "allow"
    rest = code[2:] if verdict == "deny" else code
    settings = []
    if rest and (rest[-1] != 0 or rest[0] != ord("+")):
        raise Damaged
    for setting in rest[:-1].split(b"\0") if rest else []:
        name, equals, value = setting[1:].partition(b"=")
        if setting[:1] != b"+" or not name or not equals or not plain_texts.is_text(name) or not plain_texts.is_text(value):
            raise Damaged
        settings.append((name, value))
    return verdict, settings


def decision_of(file, peer):
    """What is told of a peer by a compiled file."""
    for form in plain_texts.forms(*peer):
        code = find(file, form)
        if code is not None:
            verdict, settings = instruction_of(code)
            return plain_texts.decision([(form, verdict, settings)], peer)
    return b"default:\nallow connection\n"


# lists of events

class History:
    """The state that a list of events leads to."""

    def __init__(self, limit, per=None):
        self.limit, self.per = limit, limit if per is None else per
        self.last = self.admitted = self.most = 0
        # by serial: the address, and the stage or the verdict
        self.live = {}
        self.phase = None

    def of(self, address):
        return sum(where == address for where, _ in self.live.values())

    def stage(self, serial):
        return self.live.get(serial, (None, None))[1]

    def phases(self):
        """The phases that may come next."""
        after = {None: (), "done": (), "fresh": ("filling",), "filling": ("filling", "synced"), "synced": ("named",), "named": ("done",)}
        return ("fresh",) + after[self.phase]

    def may_come(self, serial, address):
        return serial == self.last + 1 and len(self.live) < self.limit and self.of(address) < self.per

    def come(self, serial, address):
        self.last = serial
        self.admitted += 1
        self.live[serial] = address, "admitted"
        self.most = max(self.most, len(self.live))

    def may_step(self, phase):
        return phase in self.phases()

    def step(self, phase):
        self.phase = phase

    def fail(self, _phase):
        self.phase = None

    def end(self, serial, *_):
        del self.live[serial]

    def stop(self):
        self.live, self.phase = {}, None

    def is_legal(self, event):
        return EVENTS[event[0]].may(self, *event[1:])

    def add(self, event):
        EVENTS[event[0]].does(self, *event[1:])

    def report(self):
        retired = sum(stage == "retired" for _, stage in self.live.values())
        return "admitted %d live %d retired %d most %d\n" % (self.admitted, len(self.live), retired, self.most)


class Field(NamedTuple):
    """A field of an event: what reads a word, and gives None where it is none; and values that tests may take."""

    read: Callable
    some: tuple


class Event(NamedTuple):
    """An event: its fields; when it may happen and what it does, of a history and these fields; and how often tests take it, where each has its turn."""

    fields: tuple
    may: Callable
    does: Callable
    often: int = 1


def one_of(*words):
    """A field that is one of these words; tests take one that stands twice more often."""
    return Field(lambda word: word if word in words else None, words)


def in_stage(*stages):
    """That a connection is at one of these."""
    return lambda history, serial, *_: history.stage(serial) in stages


def to_stage(name):
    """That it comes to this one."""
    def does(history, serial, *_):
        history.live[serial] = history.live[serial][0], name

    return does


def to_verdict(history, serial, verdict):
    """That it comes to the stage of its verdict."""
    to_stage(verdict)(history, serial)


SERIAL = Field(lambda word: number_in(word, 0, LAST_SERIAL), (1, 0, 2, LAST_SERIAL))
ADDRESS = Field(address_in, ("1.1.1.1", "10.0.0.2"))
STATUS = Field(lambda word: word if word == "signal" else number_in(word, 0, 255), (0, 9, 255, "signal"))
PHASE = one_of(*PHASES)
# the events; one that is added here is read, replayed and chosen as the others are
EVENTS = {
    "admitted": Event((SERIAL, ADDRESS), History.may_come, History.come, 3),
    "opened": Event((SERIAL, one_of("yes", "no")), in_stage("admitted"), to_stage("opened")),
    "decided": Event((SERIAL, one_of("allow", "allow", "deny")), in_stage("opened"), to_verdict),
    "started": Event((SERIAL,), in_stage("allow"), to_stage("started"), 2),
    "startfailed": Event((SERIAL,), in_stage("allow"), History.end),
    "ended": Event((SERIAL, STATUS), in_stage("started"), History.end, 2),
    "retired": Event((SERIAL,), in_stage("started"), to_stage("retired")),
    "dropped": Event((SERIAL,), in_stage("admitted", "opened", "allow", "deny"), History.end),
    "phase": Event((PHASE,), History.may_step, History.step, 2),
    "failed": Event((PHASE,), History.may_step, History.fail),
    "stop": Event((), lambda history: True, History.stop),
}


def replayed(limit, per, events):
    """What `replay` answers of a list."""
    history = History(limit, per)
    for position, event in enumerate(events, 1):
        if not history.is_legal(event):
            return "illegal %d\n" % position
        history.add(event)
    return history.report()


def some_events(name):
    """Events of a name with the values that its fields have."""
    return [(name, *fields) for fields in itertools.product(*(field.some for field in EVENTS[name].fields))]


def event_in(words):
    """The event of some words, if they have its form."""
    if not words or words[0] not in EVENTS or len(words) != len(EVENTS[words[0]].fields) + 1:
        return None
    fields = [field.read(word) for field, word in zip(EVENTS[words[0]].fields, words[1:])]
    return None if None in fields else (words[0], *fields)


# scripts

class BadCommand(Exception):
    """A line that is no command where it stands."""


class Script:
    """The state of `rulesim`."""

    def __init__(self):
        self.pending = b""
        self.standing = self.settled = None
        # the texts of the changes since the last `done` or stop; None for one that changes no text
        self.changes = []
        # the begun text, and the phase that it is at
        self.begun = None
        self.readers = {}
        self.events = None

    def run(self, line):
        """What a line prints."""
        if line.startswith(b"|"):
            self.pending += line[1:] + b"\n"
            return b""
        if not line or line.startswith(b"#"):
            return b""
        try:
            words = line.decode().split(" ")
        except UnicodeDecodeError:
            raise BadCommand
        if "" in words or words[0] not in ("install", "begin", "to", "stop", "ask", "reader", "askby", "events", "event", "replay"):
            raise BadCommand
        return getattr(self, "do_" + words[0])(words[1:])

    def take_pending(self):
        """The rules of the pending text, or its fault."""
        rules, fault = plain_texts.rules_in(self.pending)
        self.pending, self.begun = b"", None
        return rules, None if fault is None else fault.encode() + b"\n"

    def none_of(self, words):
        if words:
            raise BadCommand

    def do_install(self, words):
        self.none_of(words)
        rules, fault = self.take_pending()
        if fault is None:
            self.standing = self.settled = rules
            self.changes = []
        return fault or b"installed\n"

    def do_begin(self, words):
        self.none_of(words)
        rules, fault = self.take_pending()
        if fault is None:
            self.begun = [rules, -1]
        return fault or b"begun\n"

    def do_to(self, words):
        if len(words) != 1 or words[0] not in PHASES:
            raise BadCommand
        if self.begun is None:
            return b"none\n"
        while self.begun[1] < PHASES.index(words[0]):
            self.begun[1] += 1
            phase = PHASES[self.begun[1]]
            if phase == "fresh":
                self.changes.append(None)
            if phase == "named":
                self.standing = self.begun[0]
                self.changes.append([self.begun[0]])
            if phase == "done":
                self.settled, self.changes = self.standing, []
        return PHASES[self.begun[1]].encode() + b"\n"

    def do_stop(self, words):
        if len(words) != 1 or words[0] not in ("kept", "empty", "junk"):
            raise BadCommand
        taken = {"kept": self.changes, "junk": self.changes[:-1], "empty": []}[words[0]]
        for change in taken:
            if change is not None:
                self.settled = change[0]
        self.standing, self.changes, self.begun, self.readers = self.settled, [], None, {}
        return b"stopped\n"

    def peer_in(self, words):
        if not words or not address_in(words[0]):
            raise BadCommand
        found, rest = {"info": "", "host": ""}, words[1:]
        for name in ("info", "host"):
            if rest and rest[0].startswith(name + "="):
                found[name] = rest.pop(0)[5:]
                if not 0 < len(found[name].encode()) < 256 or "\0" in found[name]:
                    raise BadCommand
        self.none_of(rest)
        return words[0], found["info"], found["host"]

    @staticmethod
    def answer(rules, peer):
        return b"no file\n" if rules is None else plain_texts.decision(rules, peer)

    def do_ask(self, words):
        return self.answer(self.standing, self.peer_in(words))

    def do_reader(self, words):
        if len(words) != 1:
            raise BadCommand
        if self.standing is None:
            self.readers.pop(words[0], None)
            return b"no file\n"
        self.readers[words[0]] = self.standing
        return b"opened\n"

    def do_askby(self, words):
        if not words:
            raise BadCommand
        peer = self.peer_in(words[1:])
        return self.answer(self.readers[words[0]], peer) if words[0] in self.readers else b"no reader\n"

    def do_events(self, words):
        limits = [number_in(word, 1, 10000) for word in words]
        if len(limits) not in (1, 2) or None in limits:
            raise BadCommand
        self.events = [limits[0], limits[-1], []]
        return b""

    def do_event(self, words):
        event = event_in(words)
        if self.events is None or event is None:
            raise BadCommand
        self.events[2].append(event)
        return b""

    def do_replay(self, words):
        self.none_of(words)
        if self.events is None:
            raise BadCommand
        return replayed(*self.events).encode()


def run_script(script):
    """What a script prints, its text on standard error and its exit code."""
    state, printed = Script(), []
    lines = script.split(b"\n")
    for number, line in enumerate(lines[:-1] if lines[-1] == b"" else lines, 1):
        try:
            printed.append(state.run(line))
        except BadCommand:
            return b"".join(printed), b"rulesim: line %d: bad command\n" % number, 100
    return b"".join(printed), b"", 0
