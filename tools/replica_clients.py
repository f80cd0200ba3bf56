"""A client that asks replicas, one or another: for tools/replica_client, tools/replicas and bench/replicas.py."""

import json

from replica_log import connected

PIECE = 1 << 16


class Away(Exception):
    """The replica cannot be asked, or its reply does not come."""


class Client:
    """Asks one replica at a time, and remembers the greatest number of messages that it was shown.

    That number goes with each query, so none that is asked later shows fewer, whichever replica answers it.
    """

    def __init__(self, seconds):
        self.seconds, self.shown = seconds, 0
        self.address, self.socket, self.held = None, None, b""
        self.last = None  # the replica that replied last

    def ask(self, address, query):
        """The reply of the replica at an address to a query, a line as an object; it raises Away."""
        return self.ask_all(address, [query])[0]

    def ask_all(self, address, queries):
        """The replies to some queries, which are asked at once; it raises Away where one of them does not come."""
        try:
            if address != self.address:
                self.leave()
                self.socket, self.address = connected(address, self.seconds), address
            lines = (json.dumps(query | {"seen": self.shown}).encode() + b"\n" for query in queries)
            self.socket.sendall(b"".join(lines))
            replies = [self.line() for _ in queries]
        except OSError as fault:
            self.leave()
            raise Away(f"{address}: {fault}") from None
        self.last = address
        self.shown = max(self.shown, *(json.loads(reply).get("after", 0) for reply in replies))
        return replies

    def line(self):
        """The next line that the replica sends."""
        while b"\n" not in self.held:
            piece = self.socket.recv(PIECE)
            if not piece:
                raise OSError("it closed the connection")
            self.held += piece
        line, self.held = self.held.split(b"\n", 1)
        return line.decode()

    def leave(self):
        """Closes the connection."""
        if self.socket:
            self.socket.close()
        self.address, self.socket, self.held = None, None, b""
