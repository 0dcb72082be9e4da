"""The moments of a crash: what a disk holds if the machine crashes at some position of a record of blocks, each made
anew as an image.

The disk has kept everything that was flushed, and any pieces since the last flush: none, all, the first ones, a random
half, or all but one.
"""
import bisect
import os
from typing import NamedTuple

from disk.block_recorder import FLUSHED, MARKED, WRITTEN

# a disk writes so many bytes as one
PIECE = 4096
COPIED_AT_ONCE = 1 << 20


def pieces_of(position, given):
    """The pieces of a write: each lies in one block of the disk."""
    end = position + len(given)
    while position < end:
        after = min(end, (position // PIECE + 1) * PIECE)
        yield position, given[len(given) - (end - position):len(given) - (end - after)]
        position = after


def kept_of(count, series):
    """Which of so many pieces a disk has kept, and how that is called."""
    positions = range(count)
    how = series.choice(("none", "all", "a front", "a half", "all but one")) if count else "none"
    if how == "none":
        return how, ()
    if how == "a front":
        return how, tuple(positions[:series.randrange(count + 1)])
    if how == "a half":
        return how, tuple(position for position in positions if series.randrange(2))
    lost = series.randrange(count) if how == "all but one" else None
    return how, tuple(position for position in positions if position != lost)


class Moment(NamedTuple):
    """A crash when so many entries of a record had come, of which so many were flushed; the pieces that were kept of the others."""

    flushed: int
    came: int
    pieces: int
    how: str
    kept: tuple


class Record:
    """What a disk was given, and the marks between."""

    def __init__(self, entries):
        self.entries = entries
        self.flushes = [position for position, (kind, *_) in enumerate(entries) if kind == FLUSHED]

    def marks(self, came):
        """The marks before this position, the last one first."""
        for kind, _, given in reversed(self.entries[:came]):
            if kind == MARKED:
                yield given.decode()

    def flushed(self, came):
        """How many entries had been flushed when so many had come."""
        before = bisect.bisect_left(self.flushes, came)
        return self.flushes[before - 1] + 1 if before else 0

    def pieces(self, first, last):
        return [piece for kind, position, given in self.entries[first:last] if kind == WRITTEN for piece in pieces_of(position, given)]

    def moments(self, count, series, first, after):
        """So many moments behind this position, in their order: a third of them between a mark that ends so and the next but one behind it, a third
        right before a flush or behind a mark, and a third anywhere."""
        marks = [position for position, (kind, *_) in enumerate(self.entries) if kind == MARKED]
        ends = marks[2:] + [len(self.entries)] * 2
        positions = [
            [came for position, end in zip(marks, ends) if self.entries[position][2].endswith(after.encode()) for came in range(position, end)],
            [position + 1 for position in marks] + [position for position, (kind, *_) in enumerate(self.entries) if kind == FLUSHED],
            range(len(self.entries) + 1),
        ]
        positions = [chosen for chosen in [[came for came in some if came > first] for some in positions] if chosen]
        found, tries = set(), 0
        while len(found) < count and tries < 100 * count:
            tries += 1
            came = series.choice(series.choice(positions))
            flushed = self.flushed(came)
            pieces = len(self.pieces(flushed, came))
            found.add(Moment(flushed, came, pieces, *kept_of(pieces, series)))
        return sorted(found)


def copy(source, target):
    """Copies a file's bytes; what are holes stay holes."""
    with open(source, "rb") as old, open(target, "wb") as new:
        size, position = os.fstat(old.fileno()).st_size, 0
        new.truncate(size)
        while position < size:
            try:
                position = os.lseek(old.fileno(), position, os.SEEK_DATA)
            except OSError:
                # there is no more
                break
            end = os.lseek(old.fileno(), position, os.SEEK_HOLE)
            os.lseek(new.fileno(), position, os.SEEK_SET)
            while position < end:
                position += os.sendfile(new.fileno(), old.fileno(), position, min(end - position, COPIED_AT_ONCE))


class Images:
    """Makes the image of one moment after another, each no earlier than the one before."""

    def __init__(self, record, base, folder):
        self.record = record
        self.flushed = 0
        self.state = os.path.join(folder, "flushed")
        self.image = os.path.join(folder, "moment")
        copy(base, self.state)

    def make(self, moment):
        """The path of the image of a moment."""
        with open(self.state, "r+b", buffering=0) as file:
            for kind, position, given in self.record.entries[self.flushed:moment.flushed]:
                if kind == WRITTEN:
                    os.pwrite(file.fileno(), given, position)
        self.flushed = moment.flushed
        copy(self.state, self.image)
        pieces = self.record.pieces(moment.flushed, moment.came)
        with open(self.image, "r+b", buffering=0) as file:
            for number in moment.kept:
                position, given = pieces[number]
                os.pwrite(file.fileno(), given, position)
        return self.image
