"""Takes rights from a process of the tests right before it becomes another program: calls for `preexec_fn`."""
import os
import resource
import signal

NOBODY = 65534


def as_nobody():
    """Root becomes nobody; another user stays the same."""
    if os.geteuid() == 0:
        os.setgid(NOBODY)
        os.setuid(NOBODY)


def at_most_1000_bytes():
    """No file may grow past 1000 bytes: a write that would is an error, and no signal."""
    signal.signal(signal.SIGXFSZ, signal.SIG_IGN)
    resource.setrlimit(resource.RLIMIT_FSIZE, (1000, 1000))
