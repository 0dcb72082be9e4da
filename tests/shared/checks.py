"""The harness of all groups: it counts the checks, and prints each failed one with the group's name in front."""
import functools
import os
import subprocess
import sys

TOP = os.path.dirname(os.path.dirname(os.path.dirname(os.path.abspath(__file__))))
TESTS, SCRIPTS = os.path.join(TOP, "tests"), os.path.join(TOP, "scripts")
# how much of a value is shown, and how much is told of one failure
LONGEST_VALUE, LONGEST = 600, 1500
# how long a run is waited for that ends within seconds, in seconds
LIMIT = 600


def built(crate, name=None):
    """The path of a program of this repository, once it is built."""
    return os.path.join(TOP, "crates", crate, "out", name or crate)


# that the program was built without proofs: it checks each access, so it is many times as slow, and takes other memory
TRIED = "TESTS_TRIED"
# how many tests were left out for that
left_out = [0]


def leave_out(tests):
    """Counts so many tests as left out, where the program was built without proofs."""
    left_out[0] += tests if is_tried() else 0


def is_tried():
    """Whether the program was built without proofs."""
    return TRIED in os.environ


def needs_proved(tests):
    """Marks a check of so many tests that is too slow for a program without proofs, or that looks at its memory: there it is left out. Elsewhere it has
    to have so many, or none where it can't be made."""
    def marked(check):
        @functools.wraps(check)
        def made(*given):
            checks = next(one for one in given if isinstance(one, Checks))
            if is_tried():
                print("%s: %s: skipped: needs the proved program" % (checks.group, check.__name__.replace("_", " ")))
                leave_out(tests)
                return None
            before, faults = checks.tests, len(checks.failures)
            result = check(*given)
            had = checks.tests - before
            if had not in (0, tests) and len(checks.failures) == faults:
                checks.fail("%s: its number of tests" % check.__name__, "it had %d, and is marked with %d" % (had, tests))
            return result
        return made
    return marked


def python_words(call, *words):
    """The words of a process of Python that makes one call of a module of the tests, as `disk.crash_blocks.try_apart`, with these words."""
    text = "import sys; sys.path[:0] = %r; import %s; %s(*sys.argv[1:])" % ([TESTS, SCRIPTS], call.rpartition(".")[0], call)
    return [sys.executable, "-B", "-c", text, *words]


def shown(value):
    """A value as a failure shows it: cut where it is long."""
    if isinstance(value, tuple):
        return "(%s)" % ", ".join(map(shown, value))
    return repr(value[:LONGEST_VALUE] if isinstance(value, (bytes, str)) else value)[:LONGEST_VALUE]


class Checks:
    """What a group tried, and what was not as it should be."""

    def __init__(self, group, failures):
        self.group = group
        self.failures = failures
        self.tests = 0

    def fail(self, name, what=""):
        """Tells what is amiss, without counting it; `what` is what was there."""
        what = what if isinstance(what, str) else shown(what)
        self.failures.append("%s: %s" % (self.group, name) + (": " + what[:LONGEST] if what else ""))

    def expect(self, name, got, wanted):
        """One thing that has to be just this."""
        self.tests += 1
        if got != wanted:
            self.fail(name, "%s, and not %s" % (shown(got), shown(wanted)))

    def holds(self, name, true, what=""):
        """One thing that has to be so; `what` is what was there instead."""
        self.tests += 1
        if not true:
            self.fail(name, what)


class Runs(Checks):
    """Runs of a program, each compared with what is wanted."""

    def __init__(self, group, failures, program):
        super().__init__(group, failures)
        self.program = program

    def run(self, words, given=b"", **how):
        """Runs it with these words, and waits for its end."""
        if "stdin" not in how:
            how["input"] = given
        how.setdefault("stdout", subprocess.PIPE)
        return subprocess.run([self.program] + words, stderr=subprocess.PIPE, timeout=LIMIT, **how)

    def ended(self, name, run, code, output, errors=b""):
        """How a run has to have ended, and what it has to have written."""
        self.expect(name, (run.returncode, run.stdout, run.stderr), (code, output, errors))
