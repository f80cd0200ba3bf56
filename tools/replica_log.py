"""The log of messages that replicas read, a stream of a Redis server; for tools/replicas and the other scripts of
replicas.

An entry of the log is one line for `traind`. Its id is `N-0`, where N is the number of the message: the messages are
numbered from 1 on. Whoever puts an entry in gives its number, and the server takes only a number above all that it has
had. So a message that is put in again is not there twice, and whoever asks for the last number and goes on behind it
leaves no gap.

The client speaks the server's protocol over a socket (RESP version 2); an address is HOST:PORT, or the path of a socket
of this machine, which has a slash.
"""

import socket

STREAM, FIELD = "traind", "line"  # the usual name of the stream, and that of the one field of an entry
SECONDS = 10
PIECE = 1 << 20


class LogFault(Exception):
    """The log could not be asked, or it answered with an error; the text says how."""


class Refused(str):
    """The text of an error that the server answers."""


class NotWhole(Exception):
    """More bytes are needed for a reply."""


def connected(address, seconds):
    """A socket that is connected to an address."""
    if "/" in address:
        made = socket.socket(socket.AF_UNIX, socket.SOCK_STREAM)
        made.settimeout(seconds)
        made.connect(address)
        return made
    host, _, port = address.rpartition(":")
    made = socket.create_connection((host, int(port)), seconds)
    made.setsockopt(socket.IPPROTO_TCP, socket.TCP_NODELAY, 1)
    return made


def command(words):
    """The bytes of a command."""
    parts = [word if isinstance(word, bytes) else str(word).encode() for word in words]
    return b"*%d\r\n" % len(parts) + b"".join(b"$%d\r\n%s\r\n" % (len(part), part) for part in parts)


def value_at(data, at):
    """The value that begins at a place of these bytes, and the place behind it."""
    end = data.find(b"\r\n", at)
    if end < 0:
        raise NotWhole
    kind, head, at = data[at : at + 1], data[at + 1 : end], end + 2
    if kind in b"+-:":
        return {b"+": bytes.decode, b"-": lambda text: Refused(text.decode()), b":": int}[kind](head), at
    size = int(head)
    if size < 0:
        return None, at
    if kind == b"$":
        if len(data) < at + size + 2:
            raise NotWhole
        return data[at : at + size], at + size + 2
    values = []
    for _ in range(size):
        value, at = value_at(data, at)
        values.append(value)
    return values, at


def number_of(entry_id):
    """The number of the message that has an id."""
    return int(entry_id.split(b"-")[0])


class Log:
    """A connection to the server of a log. What fails raises LogFault, and then the connection is of no use."""

    def __init__(self, address, stream=STREAM, seconds=SECONDS):
        self.stream = stream
        try:
            self.socket = connected(address, seconds)
        except (OSError, ValueError) as fault:
            raise LogFault(f"{address}: {fault}") from None

    def __enter__(self):
        return self

    def __exit__(self, *_):
        self.socket.close()

    def reply(self, *words):
        """What the server answers to a command; an error that it answers is a value too."""
        held = b""
        try:
            self.socket.sendall(command(words))
            while True:
                piece = self.socket.recv(PIECE)
                if not piece:
                    raise LogFault("the server of the log closed the connection")
                held += piece
                try:
                    return value_at(held, 0)[0]
                except NotWhole:
                    pass
        except OSError as fault:
            raise LogFault(f"the server of the log: {fault}") from None

    def ask(self, *words):
        """What the server answers to a command; an error raises LogFault."""
        reply = self.reply(*words)
        if isinstance(reply, Refused):
            raise LogFault(f"{words[0]}: {reply}")
        return reply

    def last(self):
        """The greatest number that the log has had, 0 where it has had none; that it was cut changes nothing."""
        if not self.ask("EXISTS", self.stream):
            return 0
        told = self.ask("XINFO", "STREAM", self.stream)
        return number_of(told[told.index(b"last-generated-id") + 1])

    def first(self):
        """The number of the first entry that is still there, or None."""
        found = self.ask("XRANGE", self.stream, "-", "+", "COUNT", 1)
        return number_of(found[0][0]) if found else None

    def put(self, number, line):
        """Puts a message in, unless one of its number or a greater one was; answers whether it was put in."""
        reply = self.reply("XADD", self.stream, f"{number}-0", FIELD, line)
        if isinstance(reply, Refused):
            if number > self.last():
                raise LogFault(f"XADD: {reply}")
            return False
        return True

    def after(self, number, most, milliseconds):
        """The next entries behind a number, so many at most, each with its number; it waits so long for the first."""
        found = self.ask("XREAD", "COUNT", most, "BLOCK", milliseconds, "STREAMS", self.stream, f"{number}-0")
        return [(number_of(entry_id), fields[1]) for entry_id, fields in (found[0][1] if found else [])]

    def cut(self, number):
        """Takes all entries before a number out."""
        self.ask("XTRIM", self.stream, "MINID", f"{number}-0")
