"""Lists of events, by `rulesim`: which lists may happen, and what they lead to."""
from shared import plain_words
from shared.checks import Runs

ADMITTED = ["admitted 1 1.1.1.1"]
OPENED = ADMITTED + ["opened 1 no"]
ALLOWED = OPENED + ["decided 1 allow"]
DENIED = OPENED + ["decided 1 deny"]
STARTED = ALLOWED + ["started 1"]
RETIRED = STARTED + ["retired 1"]
NO_SUMS = "admitted 0 live 0 retired 0 most 0"
TWO_DENIED = ["admitted 1 1.1.1.1", "admitted 2 1.1.1.1", "opened 1 no", "decided 1 deny", "dropped 1", "opened 2 no", "decided 2 deny"]
RETIRED_AND_TWO_MORE = RETIRED + ["admitted 2 10.0.0.2", "admitted 3 1.1.1.1"]
BEGUN_TWICE = ["phase fresh", "phase filling", "phase filling", "phase fresh", "phase filling", "phase synced", "phase named", "phase done"]
BEGUN_ANEW = ["failed fresh", "failed fresh", "phase fresh", "phase fresh", "phase filling", "phase synced", "failed named", "phase fresh"]

# name, the limits, the events, and what they come to
LISTS = [
    ("a retired connection", "1 1", RETIRED, "admitted 1 live 1 retired 1 most 1"),
    ("a first serial of 2", "1 1", ["admitted 2 1.1.1.1"], "illegal 1"),
    ("a connection after a stop", "1 1", ["stop", "admitted 1 1.1.1.1"], "admitted 1 live 1 retired 0 most 1"),
    ("a drop after a failed start", "2 2", ALLOWED + ["startfailed 1", "dropped 1"], "illegal 5"),
    ("a failed start", "2 2", ALLOWED + ["startfailed 1"], "admitted 1 live 0 retired 0 most 1"),
    ("a start after a denial", "2 2", TWO_DENIED + ["started 2"], "illegal 8"),
    ("a denial that is not dropped", "2 2", TWO_DENIED, "admitted 2 live 1 retired 0 most 2"),
    ("a drop before the opening", "1 1", ADMITTED + ["dropped 1", "admitted 2 1.1.1.1"], "admitted 2 live 1 retired 0 most 1"),
    ("a drop after the opening", "1 1", OPENED + ["dropped 1", "admitted 2 1.1.1.1"], "admitted 2 live 1 retired 0 most 1"),
    ("a drop after the decision", "1 1", ALLOWED + ["dropped 1", "admitted 2 1.1.1.1"], "admitted 2 live 1 retired 0 most 1"),
    ("an installation that goes on after its end", "1 1", BEGUN_TWICE + ["phase filling"], "illegal 9"),
    ("an installation that begins twice", "1 1", BEGUN_TWICE, NO_SUMS),
    ("installations that fail and begin anew", "1 1", BEGUN_ANEW, NO_SUMS),
    ("a limit per address of 1, with a retired one", "9 1", RETIRED_AND_TWO_MORE, "illegal 7"),
    ("a limit of 2, with a retired one", "2 9", RETIRED_AND_TWO_MORE, "illegal 7"),
    ("a limit per address of 2, with a retired one", "9 2", RETIRED_AND_TWO_MORE, "admitted 3 live 3 retired 1 most 3"),
]

# what happened before, the limits, and each event that may not happen then
OUT_OF_TURN = [
    ("nothing", "9 9", [], ["opened 1 no", "ended 1 0", "dropped 1", "admitted 0 1.1.1.1", "admitted 2 1.1.1.1"]),
    ("an admission", "9 9", ADMITTED, ["decided 1 allow", "started 1", "retired 1", "admitted 1 1.1.1.1"]),
    ("an opening", "9 9", OPENED, ["opened 1 no", "started 1", "startfailed 1", "opened 2 no"]),
    ("a decision that allows", "9 9", ALLOWED, ["opened 1 no", "decided 1 allow", "ended 1 0", "retired 1"]),
    ("a decision that denies", "9 9", DENIED, ["started 1", "startfailed 1", "ended 1 0"]),
    ("a start", "9 9", STARTED, ["dropped 1", "started 1", "startfailed 1", "opened 1 no"]),
    ("a retirement", "9 9", RETIRED, ["ended 1 0", "retired 1", "dropped 1", "started 1"]),
    ("no installation", "1 1", [], ["phase filling", "failed filling"]),
    ("a fresh file", "1 1", ["phase fresh"], ["failed synced"]),
    ("a filled file", "1 1", ["phase fresh", "phase filling"], ["phase named"]),
    ("a file that is synced", "1 1", ["phase fresh", "phase filling", "phase synced"], ["phase done", "phase filling"]),
    ("a stop during an installation", "1 1", ["phase fresh", "stop"], ["phase filling"]),
    ("a fresh file that failed", "1 1", ["phase fresh", "failed fresh"], ["phase filling"]),
]

CONNECTIONS = 1000
# every fifth connection is retired, and the last one is let in beside all of those
REPORT = "admitted 1000 live 200 retired 200 most 201"


def lines(texts):
    return "".join(text + "\n" for text in texts).encode()


def script(limits, events):
    """A script of `rulesim` that replays these events."""
    return lines(["events " + limits] + ["event " + event for event in events] + ["replay"])


def connection(serial):
    """The events of a connection, which ends in one of five ways."""
    front = ["admitted %d 10.0.%d.1" % (serial, serial % 7), "opened %d %s" % (serial, "no" if serial % 2 else "yes")]
    ends = {
        0: ["dropped %d"],
        1: ["decided %d allow", "startfailed %d"],
        2: ["decided %d allow", "started %d", "ended %d 3"],
        3: ["decided %d allow", "started %d", "retired %d"],
        4: ["decided %d deny", "dropped %d"],
    }
    return front + [end % serial for end in ends[serial % 5]]


def all_events():
    """The events of a thousand connections, one connection after the other."""
    return [event for serial in range(1, CONNECTIONS + 1) for event in connection(serial)]


def words_of(event):
    """An event of the plain program as a script has it."""
    return " ".join(map(str, event))


def report_of(limits, events):
    """What a list of events comes to, by the plain program."""
    return plain_words.replayed(*map(int, limits.split()), [plain_words.event_in(event.split()) for event in events])


def all_after(limits, before):
    """A script that replays what happened before with each event behind it that there is, and what it answers, by a plain program."""
    given, wanted = [], []
    for name in plain_words.EVENTS:
        for event in plain_words.some_events(name):
            events = before + [words_of(event)]
            given.append(script(limits, events))
            wanted.append(report_of(limits, events).encode())
    return b"".join(given), b"".join(wanted)


def check(program, failures):
    """Replays all lists, and answers how many they were."""
    runs = Runs("event_lists", failures, program)

    def replays(name, given, wanted):
        runs.ended(name, runs.run(["rulesim"], given), 0, wanted)

    for name, limits, events, answer in LISTS:
        replays(name, script(limits, events), lines([answer]))
    for name, limits, before, wrong in OUT_OF_TURN:
        for event in wrong:
            replays("%s after %s" % (event, name), script(limits, before + [event]), lines(["illegal %d" % (len(before) + 1)]))
        replays("each event after " + name, *all_after(limits, before))
    replays("a thousand connections", script(str(CONNECTIONS), all_events()), lines([REPORT]))
    return runs.tests
