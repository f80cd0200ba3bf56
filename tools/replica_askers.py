"""The clients of a replica, as tools/replica_reader sees them: their connections, and what they ask.

A client sends queries as lines for `traind`, each with one member more: `seen`, the greatest `after` that any replica
has shown it. It may send flush lines too. Each line has one reply, in the order of the lines.
"""

import json
import os
import socket
from collections import deque
from dataclasses import dataclass

from plain_lines import LONG

MOST_ASKED, MOST_UNSENT = 256, 1 << 20
MOST_TRIES = 2
PIECE = 1 << 16
NOT_ASKED = b'{"bad":"query"}'


class NotAsked(Exception):
    """A line is neither a query nor a flush line."""


class Gone(Exception):
    """The connection of a client has failed, or is to be closed."""


@dataclass
class Asked:
    """A line of a client, and the number that its reply may not be below."""

    line: bytes
    seen: int
    is_flush: bool
    tries: int = 0


def read_asked(line):
    """What a client asks by a line."""
    try:
        said = json.loads(line.decode())
        seen = said.get("seen", 0)
    except (ValueError, AttributeError, RecursionError):
        raise NotAsked from None
    if said.get("type") not in ("query", "flush") or type(seen) is not int:
        raise NotAsked
    return Asked(line, seen, said["type"] == "flush")


class Asker:
    """The connection of a client: what it has asked, what `serve` was given of that, and what is still to be sent."""

    def __init__(self, connection):
        connection.setblocking(False)
        self.socket, self.held, self.unsent = connection, b"", bytearray()
        self.asked, self.passed, self.is_silent = deque(), deque(), False

    def may_ask(self):
        """Whether more is to be received from it now."""
        return not self.is_silent and len(self.asked) < MOST_ASKED and len(self.unsent) < MOST_UNSENT

    def is_idle(self):
        """Whether it has all replies to what it asked."""
        return not (self.asked or self.passed or self.unsent)

    def receive(self):
        """Takes what the client has sent; where it sends no more it is silent. It raises Gone where a line is long."""
        try:
            piece = self.socket.recv(PIECE)
        except BlockingIOError:
            return
        except OSError:
            raise Gone from None
        self.is_silent = not piece
        *lines, self.held = (self.held + piece).split(b"\n")
        if len(self.held) >= LONG or any(len(line) >= LONG for line in lines):
            raise Gone
        for line in lines:
            try:
                self.asked.append(read_asked(line))
            except NotAsked:
                self.asked.append(Asked(b"", 0, False))

    def pass_on(self, flushed, most):
        """What may be asked now, so many lines at most, when the last flush line has shown a number.

        What stands behind a flush line waits for the next window, and so does all behind what has to wait.
        """
        found = []
        while self.asked and len(found) < most and self.asked[0].seen <= flushed:
            found.append(self.asked.popleft())
            if found[-1].is_flush:
                break
        self.passed += found
        return found

    def answer(self, reply):
        """Takes the reply to the oldest line that was passed on."""
        asked = self.passed.popleft()
        self.unsent += (reply if asked.line else NOT_ASKED) + b"\n"

    def take_back(self):
        """What was passed on and has no reply is asked again; it raises Gone where that was done before."""
        for asked in self.passed:
            asked.tries += 1
        self.asked.extendleft(reversed(self.passed))
        self.passed.clear()
        if self.asked and self.asked[0].tries == MOST_TRIES:
            raise Gone

    def send(self):
        """Sends as much as the client takes now."""
        try:
            while self.unsent:
                del self.unsent[: self.socket.send(self.unsent[:PIECE])]
        except BlockingIOError:
            pass
        except OSError:
            raise Gone from None


def listening(address):
    """A socket at which clients connect: at HOST:PORT, or at a path, which has a slash."""
    if "/" in address:
        if os.path.exists(address):
            os.unlink(address)
        made = socket.socket(socket.AF_UNIX, socket.SOCK_STREAM)
        made.bind(address)
    else:
        host, _, port = address.rpartition(":")
        made = socket.socket(socket.AF_INET, socket.SOCK_STREAM)
        made.setsockopt(socket.SOL_SOCKET, socket.SO_REUSEADDR, 1)
        made.bind((host, int(port)))
    made.listen(128)
    made.setblocking(False)
    return made
