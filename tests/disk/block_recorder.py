"""A disk that records its writes: one file, which a loop device may use, served over /dev/fuse without a library. The
record has each write and each flush in their order, and between them the marks that its user sets.

Its own process serves the disk: writes go into an image and into the record, and a folder has the one file `disk`. Each
line of the process's standard input is a mark; it answers with a line once it has recorded the mark. The process ends
once the folder is unmounted.
"""
import contextlib
import errno
import os
import select
import signal
import stat
import struct
import subprocess
import sys

from disk import loop_devices
from shared.checks import python_words

# of the protocol: what is asked, and the flags of answers
LOOKUP, FORGET, GETATTR, SETATTR, OPEN, READ, WRITE, STATFS, RELEASE, FSYNC, FLUSH, INIT = 1, 2, 3, 4, 14, 15, 16, 17, 18, 20, 25, 26
OPENDIR, RELEASEDIR, INTERRUPT, DESTROY, BATCH_FORGET = 27, 29, 36, 38, 42
UNANSWERED = (FORGET, INTERRUPT, BATCH_FORGET)
MAJOR, MINOR = 7, 31
BIG_WRITES, DIRECT_IO = 1 << 5, 1
# the longest piece that is written at once, and the room for a question
LONGEST, ROOM = 131072, 1 << 18
ROOT, DISK, NAME = 1, 2, b"disk"
# for how many seconds the system may keep what it was answered of a file
KEPT_FOR = 1000
# the entries of a record: their kind, their position, the length of what follows
ENTRY = struct.Struct("<cQI")
WRITTEN, FLUSHED, MARKED = b"w", b"f", b"m"


class Server:
    """The process that serves the disk."""

    def __init__(self, image, folder, record):
        self.image = os.open(image, os.O_RDWR | os.O_CLOEXEC)
        self.size = os.fstat(self.image).st_size
        self.record = open(record, "wb")
        self.channel = os.open("/dev/fuse", os.O_RDWR | os.O_NONBLOCK | os.O_CLOEXEC)
        loop_devices.mount("disk", folder, "fuse", "fd=%d,rootmode=40000,user_id=0,group_id=0,max_read=%d" % (self.channel, LONGEST))

    def keep(self, kind, position=0, given=b""):
        self.record.write(ENTRY.pack(kind, position, len(given)))
        self.record.write(given)

    def answer(self, serial, given=b"", error=0):
        # a question that was interrupted takes no answer
        with contextlib.suppress(FileNotFoundError):
            os.write(self.channel, struct.pack("<IiQ", 16 + len(given), -error, serial) + given)

    def attributes(self, node):
        mode, size = (stat.S_IFREG | 0o600, self.size) if node == DISK else (stat.S_IFDIR | 0o700, 0)
        return struct.pack("<6Q10I", node, size, size // 512, 0, 0, 0, 0, 0, 0, mode, 1, 0, 0, 0, 4096, 0)

    def answers(self, kind, node, given):
        """The answer to one question; one that is not known raises."""
        if kind == INIT:
            flags = struct.unpack_from("<4I", given)[3] & BIG_WRITES
            return struct.pack("<4I2H2I2H8I", MAJOR, MINOR, LONGEST, flags, 16, 12, LONGEST, 1, 0, 0, *[0] * 8)
        if kind == LOOKUP:
            if given.rstrip(b"\0") != NAME:
                raise OSError(errno.ENOENT, "no such name")
            return struct.pack("<4Q2I", DISK, 0, KEPT_FOR, KEPT_FOR, 0, 0) + self.attributes(DISK)
        if kind in (GETATTR, SETATTR):
            return struct.pack("<Q2I", KEPT_FOR, 0, 0) + self.attributes(node)
        if kind in (OPEN, OPENDIR):
            return struct.pack("<Q2I", node, DIRECT_IO if kind == OPEN else 0, 0)
        if kind == READ:
            _, position, length = struct.unpack_from("<2QI", given)
            return os.pread(self.image, length, position)
        if kind == WRITE:
            _, position, length = struct.unpack_from("<2QI", given)
            return self.write(position, given[40:40 + length])
        if kind == FSYNC:
            self.keep(FLUSHED)
        elif kind == STATFS:
            return struct.pack("<5Q4I6I", 0, 0, 0, 0, 0, 4096, 255, 4096, 0, *[0] * 6)
        elif kind not in (RELEASE, RELEASEDIR, FLUSH, DESTROY):
            raise OSError(errno.ENOSYS, "no such question")
        return b""

    def write(self, position, given):
        self.keep(WRITTEN, position, given)
        os.pwrite(self.image, given, position)
        return struct.pack("<2I", len(given), 0)

    def serve_one(self):
        """Answers the next question, if there is one; whether the disk is still mounted."""
        try:
            asked = os.read(self.channel, ROOM)
        except OSError as fault:
            return fault.errno in (errno.EAGAIN, errno.EINTR, errno.ENOENT)
        length, kind, serial, node = struct.unpack_from("<2I2Q", asked)
        if kind in UNANSWERED:
            return True
        try:
            self.answer(serial, self.answers(kind, node, asked[40:length]))
        except OSError as fault:
            self.answer(serial, error=fault.errno)
        return True

    def serve(self):
        """Serves until the disk is unmounted, or nobody is there any more who would give marks."""
        poll = select.poll()
        for descriptor in (self.channel, 0):
            poll.register(descriptor, select.POLLIN)
        print("ready", flush=True)
        while True:
            ready = dict(poll.poll())
            if self.channel in ready and not self.serve_one():
                break
            if 0 in ready:
                mark = sys.stdin.buffer.raw.read(4096)
                if not mark:
                    break
                self.keep(MARKED, given=mark.rstrip(b"\n"))
                print("kept", flush=True)
        self.record.close()


class Recorder:
    """A disk that is served by another process, for whoever uses it: `disk` is its path."""

    def __init__(self, image, folder, record):
        self.folder, self.record = folder, record
        self.disk = os.path.join(folder, NAME.decode())
        words = python_words("disk.block_recorder.serve", image, folder, record)
        self.process = subprocess.Popen(words, stdin=subprocess.PIPE, stdout=subprocess.PIPE, preexec_fn=loop_devices.end_with_parent)
        self.take("ready")

    def take(self, wanted):
        """Takes the next line of the other process."""
        line = self.process.stdout.readline().decode().rstrip("\n")
        if line != wanted:
            raise OSError(errno.EIO, "the recorder of blocks said %r" % line)

    def mark(self, text):
        """Keeps a mark, behind all that was written before and before all that is written from here on."""
        self.process.stdin.write(text.encode() + b"\n")
        self.process.stdin.flush()
        self.take("kept")

    def __enter__(self):
        return self

    def __exit__(self, *_):
        """Unmounts the disk, which ends its process."""
        loop_devices.unmount(self.folder)
        self.process.stdin.close()
        self.process.wait(600)
        self.process.stdout.close()


def entries_of(record):
    """The entries of a record in their order: a kind, a position, and what was written or marked."""
    found = []
    with open(record, "rb") as file:
        while head := file.read(ENTRY.size):
            kind, position, length = ENTRY.unpack(head)
            found.append((kind, position, file.read(length)))
    return found


def serve(image, folder, record):
    """What the process that serves a disk does."""
    signal.signal(signal.SIGINT, signal.SIG_IGN)
    Server(image, folder, record).serve()
