"""Loop devices and mounts, by system calls, in a namespace of mounts that ends with the process that made it. However
that process ends, its mounts and its loop devices are gone afterwards.
"""
import contextlib
import ctypes
import errno
import fcntl
import os
import struct
import time

LIBC = ctypes.CDLL(None, use_errno=True)
# the system's numbers
CLONE_NEWNS = 0x20000
MS_REC, MS_PRIVATE = 0x4000, 1 << 18
PR_SET_PDEATHSIG, SIGKILL = 1, 9
LOOP_CONFIGURE, LOOP_CTL_GET_FREE = 0x4C0A, 0x4C82
LO_FLAGS_AUTOCLEAR = 4
BTRFS_IOC_FORGET_DEV = 0x50009405
CONTROL, BTRFS_CONTROL = "/dev/loop-control", "/dev/btrfs-control"
# how often another process may be quicker, and how long a mount may be in use after its last user, in seconds
TRIES, IN_USE = 1000, 60


def system_call(name, *words):
    """A call of the C library that answers 0, or sets the number of its error."""
    if getattr(LIBC, name)(*words) != 0:
        number = ctypes.get_errno()
        raise OSError(number, "%s: %s" % (name, os.strerror(number)))


def mount(source, folder, kind, options="", flags=0):
    system_call("mount", source.encode(), folder.encode(), kind.encode(), ctypes.c_ulong(flags), options.encode())


def unmount(folder):
    """Unmounts a file system, as soon as nobody uses it any more."""
    end = time.monotonic() + IN_USE
    while True:
        try:
            return system_call("umount2", folder.encode(), 0)
        except OSError as fault:
            if fault.errno != errno.EBUSY or time.monotonic() > end:
                raise
            time.sleep(0.01)


def mount_apart():
    """From here on what this process mounts is seen by itself and its children alone, and ends with the last of them."""
    system_call("unshare", CLONE_NEWNS)
    mount("none", "/", "none", flags=MS_REC | MS_PRIVATE)


def end_with_parent():
    """The process in which this is called is killed once its parent is gone."""
    system_call("prctl", PR_SET_PDEATHSIG, SIGKILL, 0, 0, 0)


@contextlib.contextmanager
def opened(path):
    descriptor = os.open(path, os.O_RDWR | os.O_CLOEXEC)
    try:
        yield descriptor
    finally:
        os.close(descriptor)


@contextlib.contextmanager
def attached(path):
    """A loop device on a file: its path. It is given back once nobody has it open, or mounted."""
    with opened(CONTROL) as control, opened(path) as file:
        # a descriptor, the size of a block (the system's choice), and the flags among what else is told of a device
        words = struct.pack("II", file, 0) + struct.pack("52xI176x", LO_FLAGS_AUTOCLEAR) + bytes(64)
        for last in [False] * TRIES + [True]:
            name = "/dev/loop%d" % fcntl.ioctl(control, LOOP_CTL_GET_FREE)
            device = os.open(name, os.O_RDWR | os.O_CLOEXEC)
            try:
                fcntl.ioctl(device, LOOP_CONFIGURE, words)
                break
            except OSError as fault:
                os.close(device)
                # another process has taken it meanwhile
                if fault.errno != errno.EBUSY or last:
                    raise
    try:
        yield name
    finally:
        os.close(device)


def forget(device):
    """A file system of btrfs is known by its number, wherever it stood: that it was seen on this device is forgotten."""
    with contextlib.suppress(OSError), opened(BTRFS_CONTROL) as control:
        fcntl.ioctl(control, BTRFS_IOC_FORGET_DEV, bytearray(struct.pack("q4088s", 0, device.encode())))


@contextlib.contextmanager
def mounted(path, folder, kind, options=""):
    """The file system in a file, mounted on a folder."""
    with attached(path) as device:
        try:
            mount(device, folder, kind, options)
        except OSError:
            forget(device)
            raise
        try:
            yield
        finally:
            unmount(folder)
            if kind == "btrfs":
                forget(device)


def try_one(folder):
    """Makes a loop device on a file of this folder, and gives it back; raises where there can be none."""
    path = os.path.join(folder, "small")
    with open(path, "wb") as file:
        file.truncate(1 << 20)
    with attached(path):
        os.unlink(path)


def missing():
    """What of this can't be had here, or nothing."""
    if os.geteuid() != 0:
        return "it isn't run by root"
    for path in ("/dev/fuse", CONTROL):
        if not os.access(path, os.R_OK | os.W_OK):
            return "there is no " + path
    return None
