"""A `serve` process that is given windows: for tools/replica_reader.

Each window is given whole and ends with a flush line. Replies come in the order of the lines, so each is handed on with
what was noted of its line. Both pipes are without blocking: whoever runs it waits until they are ready.
"""

import json
import os
import subprocess
from collections import deque

WINDOW = 256
FLUSH = b'{"v":1,"type":"flush"}\n'
AT_ONCE = 2
PIECE = 1 << 16


class Ended(Exception):
    """The process has ended; the number is its status, that of a signal below zero."""


class WrongReply(Exception):
    """A reply has the number of another line; the text is the reply."""


class Serve:
    """A `serve` process; the lines that it was given, and those without a reply."""

    def __init__(self, words):
        self.child = subprocess.Popen(words, stdin=subprocess.PIPE, stdout=subprocess.PIPE, bufsize=0)
        for pipe in (self.child.stdin, self.child.stdout):
            os.set_blocking(pipe.fileno(), False)
        self.unwritten, self.held = bytearray(), b""
        self.notes = deque()
        self.given = self.answered = self.windows = self.flushed = 0

    def has_room(self):
        """Whether it may be given a window more."""
        return self.windows < AT_ONCE

    def give(self, lines, flush_note):
        """Gives it a window: lines, each with a note, and a flush line, which has a note too."""
        self.unwritten += b"".join(line + b"\n" for line, _ in lines) + FLUSH
        self.notes += [*(note for _, note in lines), flush_note]
        self.given += len(lines) + 1
        self.windows += 1
        self.write()

    def write(self):
        """Writes as much as it takes now."""
        try:
            while self.unwritten:
                del self.unwritten[: os.write(self.child.stdin.fileno(), self.unwritten[:PIECE])]
        except BlockingIOError:
            pass
        except BrokenPipeError:
            self.unwritten.clear()

    def replies(self):
        """The replies that have come, each with the note of its line; it raises Ended where no more can come."""
        try:
            piece = os.read(self.child.stdout.fileno(), PIECE)
        except BlockingIOError:
            return
        if not piece:
            raise Ended(self.child.wait())
        *replies, self.held = (self.held + piece).split(b"\n")
        for reply in replies:
            self.answered += 1
            number = b'"line":%d' % self.answered
            if number + b"," not in reply and number + b"}" not in reply:
                raise WrongReply(reply.decode(errors="replace"))
            yield reply, self.notes.popleft()

    def flush_reply(self, reply):
        """Takes the reply to the flush line of a window: its messages are in every later answer."""
        self.flushed = json.loads(reply)["flush"]
        self.windows -= 1

    def close(self):
        """Ends the process."""
        self.unwritten.clear()
        for pipe in (self.child.stdin, self.child.stdout):
            pipe.close()
        self.child.kill()
        self.child.wait()
