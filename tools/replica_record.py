"""What a replica keeps of the log: for tools/replica_reader and tools/replicas.

A record is a file with a line for each message that the replica took: its number, a blank and the line. It is what a
new `serve` is given first. The replies to messages are kept in a file of the same form. `Places` says which of the
entries that a log delivers are to be taken: by their numbers alone, so one that comes twice is passed over, and one
that comes too early is asked for again.
"""

import fcntl
import itertools
import os


class RecordFault(Exception):
    """The record cannot be used; the text says why."""


class Gap(Exception):
    """The first of the entries that are new has a number above the one that is due."""


class Places:
    """The numbers of the messages that were taken: all from 1 to the last."""

    def __init__(self, last):
        self.last = last

    def taken(self, entries):
        """Those of the delivered entries that are due, in their order.

        What stands behind a gap is left, to be delivered again; where nothing stands before it, Gap is raised.
        """
        due = []
        for number, line in entries:
            if number > self.last + 1:
                if not due:
                    raise Gap
                break
            if number == self.last + 1:
                due.append((number, line))
                self.last = number
        return due


def entries_of(path):
    """The messages of a record, each with its number and the place behind it, up to a line that is not as it is due."""
    place = 0
    with path.open("rb") as lines:
        for due, text in enumerate(lines, 1):
            number, _, line = text.partition(b" ")
            if number != b"%d" % due or not text.endswith(b"\n"):
                return
            place += len(text)
            yield due, line[:-1], place


class Record:
    """The record of a replica that runs. What stands behind its last good line is cut off."""

    def __init__(self, path):
        self.path, self.last, place = path, 0, 0
        self.file = path.open("ab", buffering=0)
        try:
            fcntl.flock(self.file, fcntl.LOCK_EX | fcntl.LOCK_NB)
        except OSError:
            raise RecordFault(f"another process uses {path}") from None
        for entry in entries_of(path):
            self.last, _, place = entry
        self.file.truncate(place)

    def append(self, entries):
        """Writes messages behind the last one; the first has the number that is due."""
        data = b"".join(b"%d %s\n" % entry for entry in entries)
        while data:
            data = data[self.file.write(data) :]
        self.last += len(entries)

    def entries(self):
        """The messages that are recorded now, each with its number."""
        return ((number, line) for number, line, _ in itertools.islice(entries_of(self.path), self.last))
