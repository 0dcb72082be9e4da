"""Makes calls of a program fail, by a library that is loaded before the C library (`failed_calls.c`), or by strace."""
import concurrent.futures
import errno
import os
import shutil
import subprocess
import tempfile

from shared import small_programs
from shared.checks import LIMIT

# how many runs stand beside one another, and how many without a failure in succession end a series
WORKERS = 2
LAST = 3
ALL = 2 ** 62


class Library:
    """The library, and what each run needs of it."""

    def __init__(self, folder):
        self.folder = folder
        self.path = small_programs.library("shared/failed_calls.c", folder)

    def run(self, call, error, first, last=None, step=1):
        """A run in which the calls of this name from one number to another fail, or every second one and so on; by itself the first alone.
        Without an error a read or a write takes one byte."""
        return Run(self, call).also(call, error, first, first if last is None else last, step)

    def run_sparing(self, call, error, last, spared):
        """A run in which the calls of this name up to a number fail, but for each of the number `spared`."""
        return Run(self, call).also(call, error, 1, last, spared=spared)

    def run_while(self, call, error):
        """A run in which all calls of this name fail while its switch is on."""
        run = Run(self, call)
        run.switch = run.mark + ".on"
        return run.also(call, error, switch=run.switch)


def in_fast_time(folder, times, environment=os.environ):
    """The environment in which time passes so many times as fast for a program (`fast_time.c`); libraries that it loads already are loaded too."""
    libraries = [environment["LD_PRELOAD"]] if "LD_PRELOAD" in environment else []
    libraries.append(small_programs.library("shared/fast_time.c", folder))
    return dict(environment, LD_PRELOAD=" ".join(libraries), FAST_TIMES=str(times))


class Run:
    """One run: the environment that it needs, and what failed in it."""

    def __init__(self, library, call=None):
        self.call, self.switch = call, None
        self.mark = tempfile.mktemp(prefix="mark-", dir=library.folder)
        self.environment = {"LD_PRELOAD": library.path, "FAILED_CALLS": "", "FAILED_MARK": self.mark}

    def also(self, call, error, first=1, last=ALL, step=1, spared=0, switch=""):
        """The same, in which these calls fail too, by themselves all of this name."""
        rule = (call, getattr(errno, error) if error else 0, first, last, step, spared, switch)
        self.environment["FAILED_CALLS"] += "%s %d %d %d %d %d %s\n" % rule
        return self

    def noting(self, *calls):
        """The same, in which each call of these names is noted, whether it fails or not."""
        self.environment.update(NOTED_CALLS=" ".join(calls), NOTED_MARK=self.mark + ".noted")
        return self

    def noted(self):
        """The names of the calls that were noted, in their order."""
        try:
            with open(self.mark + ".noted") as file:
                return file.read().split()
        except FileNotFoundError:
            return []

    def turn(self, on):
        """Turns failures on, or off."""
        if on:
            with open(self.switch, "w"):
                pass
        else:
            os.unlink(self.switch)

    def failed(self):
        """What failed: the numbers of the calls, and their first descriptors."""
        try:
            with open(self.mark) as file:
                return [tuple(map(int, line.split())) for line in file]
        except FileNotFoundError:
            return []

    def end(self):
        """Whether any call failed; what was noted of this run is taken away."""
        failed = self.failed()
        for path in (self.mark, self.mark + ".noted"):
            if os.path.exists(path):
                os.unlink(path)
        return bool(failed)


def one_after_another(most, try_one):
    """Tries 1, 2 and so on, a few at a time, until so many in succession met no failure, or so many were tried: how many runs there were, and
    whether all was tried. `try_one` tells whether a call failed."""
    runs = 0
    with concurrent.futures.ThreadPoolExecutor(WORKERS) as pool:
        while runs < most:
            numbers = range(runs + 1, runs + 1 + LAST * WORKERS)
            met = list(pool.map(try_one, numbers))
            runs += len(numbers)
            if not any(met[-LAST:]):
                return runs, True
    return runs, False


def can_trace():
    """Whether strace is here, and may look at other processes."""
    if not shutil.which("strace"):
        return False
    words = ["strace", "-qq", "-o", "/dev/null", "-e", "inject=getpid:error=EIO", "true"]
    return subprocess.run(words, stdout=subprocess.DEVNULL, stderr=subprocess.DEVNULL, timeout=LIMIT).returncode == 0
