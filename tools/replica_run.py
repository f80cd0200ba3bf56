"""A run of replicas over one log, with clients that go from one to another, and what is wrong: for tools/replicas."""

import json
import signal
import subprocess
import threading
import time
from collections import Counter
from contextlib import suppress
from random import Random

from plain_feed import date_text
from replica_clients import Away, Client
from replica_faults import Faults
from replica_log import Log
from replica_processes import LogServer, Replica, Writer, listening_addresses, wait_until
from replica_record import entries_of

CLIENTS, FIRST, LAST_QUERIES = 8, 10, 40
PATIENCE, LONG_PATIENCE = 1, 60
PAUSE = 0.03
LOOPBACK = "0100007F"
FLUSH = {"v": 1, "type": "flush"}


class Asking(threading.Thread):
    """A client that asks one query after the other, now of one replica and now of another."""

    def __init__(self, run, name):
        super().__init__(daemon=True)
        self.run_of, self.name_of, self.random = run, name, Random(f"{run.drawn.random.random()} {name}")
        self.client, self.is_done = Client(PATIENCE), threading.Event()
        # of each reply: which query it answers, its text, and the number that the client had been shown before
        self.replies, self.counts, self.fault = [], Counter(), None

    def run(self):
        try:
            while not self.is_done.wait(self.random.uniform(0, PAUSE)):
                self.ask()
        except Exception as fault:  # told by the run, whatever it is
            self.fault = repr(fault)
        self.client.leave()

    def ask(self):
        """Asks a query of the replica that was asked before, or of another one."""
        addresses = [replica.address for replica in self.run_of.replicas]
        address = self.client.address
        if address not in addresses or self.random.randrange(3) == 0:
            address = self.random.choice(addresses)
        moved = self.client.last not in (None, address)
        place = self.random.randrange(len(self.run_of.drawn.queries))
        query, before = self.run_of.drawn.queries[place], self.client.shown
        if self.run_of.is_forgetful:
            self.client.shown = 0
        try:
            reply = self.client.ask(address, query | {"client": self.name_of})
        except Away:
            self.counts.update(away=1)
        else:
            self.counts.update(moved=moved)
            self.replies.append((place, reply, before))
        finally:
            self.client.shown = max(before, self.client.shown)


class Run:
    """A log server, a writer, replicas and clients on a drawn feed, and the faults that happen to them."""

    def __init__(self, drawn, program, folder, words):
        self.drawn, self.random, self.folder, self.is_forgetful = drawn, drawn.random, folder, words.forget
        options = [word for option, value in drawn.options.items() for word in (f"--{option}", str(value))]
        self.words = [program, "serve", drawn.folder, "--from", date_text(0), *options]
        self.server = LogServer(folder)
        lines = folder / "lines"
        lines.write_bytes(b"".join(line + b"\n" for line in drawn.messages))
        self.writer = Writer(self.server.address, lines, len(drawn.messages) / max(5, words.faults * 1.2))
        self.is_cut, self.number, self.left, self.statuses = False, 0, [], []
        self.replicas = [self.new_replica() for _ in range(words.replicas)]
        self.clients = [Asking(self, f"client {number}") for number in range(CLIENTS)]
        self.faults, self.happened, self.fewer = Faults(self), Counter(), []

    def new_replica(self):
        self.number += 1
        workers = ["--workers", str(self.random.choice((1, 2, 4)))]
        return Replica(f"replica{self.number}", self.server.address, self.folder, [*self.words, *workers])

    def leave(self, replica):
        """Tells a replica to end; its files are looked at in the end."""
        self.statuses.append(replica.end(signal.SIGTERM))
        self.left.append(replica)

    def run(self, number):
        """Starts all, lets so many faults happen, and waits until all messages are everywhere; then ends all."""
        self.start()
        self.faults.happen(number)
        wait_until(lambda: not self.writer.is_running(), "the writer does not come to its end")
        self.statuses.append(self.writer.child.returncode)
        self.ask_last()
        for client in self.clients:
            client.is_done.set()
            client.join()
        for replica in self.replicas:
            self.leave(replica)
        self.statuses.append(self.server.end(signal.SIGTERM))

    def start(self):
        """Starts all: the replicas when there are some messages, and then the clients."""
        self.server.start()
        self.listens = [*listening_addresses(self.server.child.pid)]
        self.writer.start()
        with Log(self.server.address) as log:
            wait_until(lambda: log.last() >= FIRST, "no messages are put in")
        for replica in self.replicas:
            self.faults.start(replica)
        for client in self.clients:
            client.start()

    def ask_last(self):
        """Asks each replica some queries at once when it has all messages; that comes in the end, whatever happened."""
        self.last = []
        most = len(self.drawn.rides) - 1
        for replica in self.replicas:
            client = Client(LONG_PATIENCE)
            wait_until(lambda of=replica: self.flushed(of) == most, f"{replica.name} has not all messages")
            places = self.random.sample(range(len(self.drawn.queries)), LAST_QUERIES)
            self.last += zip(places, client.ask_all(replica.address, [self.drawn.queries[place] for place in places]))
            client.leave()

    def flushed(self, replica):
        """How many messages a flush line shows to a client that was shown none; it waits for the reply."""
        found, client = [], Client(PATIENCE)

        def ask():
            with suppress(Away):
                found.append(json.loads(client.ask(replica.address, FLUSH))["flush"])
            return found

        wait_until(ask, f"{replica.name} does not answer")
        client.leave()
        return found[0]

    def shows(self, replica, least):
        """Notes where a replica shows fewer messages than it must."""
        number = self.flushed(replica)
        self.fewer += [f"{replica.name} shows {number} messages, wanted {least}"] if number < least else []

    def end(self):
        """Ends all that runs, however the run went."""
        for client in self.clients:
            client.is_done.set()
        for process in (self.writer, *self.replicas, self.server):
            process.end()

    # What is wrong.

    def checks(self):
        """Each check of the run with what is wrong, or None."""
        yield "replies to queries", self.first(self.query_faults())
        yield "counts of each client", None if self.is_forgetful else self.first(self.count_faults())
        yield "replicas that started", self.first(self.fewer)
        yield "replies in the last state", self.first(self.last_faults())
        yield "replies to messages", self.first(self.message_faults())
        yield "records and tables", self.first(self.record_faults())
        yield "statuses", None if not any(self.statuses) else f"the processes ended with {self.statuses}"
        listens = {address.split(":")[0] for address in self.listens}
        yield "where the log listens", None if listens == {LOOPBACK} else f"it listens at {self.listens}"

    def first(self, faults):
        """The first fault, or None."""
        try:
            return next((fault for fault in faults if fault), None)
        except ValueError as bad:
            return f"what should be a reply is none: {bad}"

    def query_faults(self):
        for client in self.clients:
            yield client.fault
            yield from (self.drawn.query_fault(place, reply) for place, reply, _ in client.replies)

    def count_faults(self):
        """The replies that show fewer messages than their client was shown before."""
        for client in self.clients:
            fewer = ((reply, before) for _, reply, before in client.replies if shown_in(reply, before) < before)
            yield from (f"{client.name_of} was shown {before} messages, and then {reply!r}" for reply, before in fewer)

    def last_faults(self):
        """In the last state all replicas must show all messages, and answer as the plain program then does."""
        most = len(self.drawn.rides) - 1
        for place, reply in self.last:
            yield self.drawn.query_fault(place, reply)
            yield None if shown_in(reply, most) == most else f"{reply!r}, wanted {most} messages"

    def message_faults(self):
        """Each replica at the end has the right reply to each message, each once and in order."""
        for replica in self.left[-len(self.replicas) :]:
            told = [(number, reply.decode()) for number, reply, _ in entries_of(replica.replies)]
            yield from (self.drawn.message_fault(number, reply) for number, reply in told)
            missing = len(self.drawn.messages) - len(told)
            yield f"{replica.name} tells of {missing} messages too few" if missing else None

    def record_faults(self):
        """The record of each replica at the end has all messages, and `times` makes the table of all times of them."""
        for replica in self.left[-len(self.replicas) :]:
            lines = [line for _, line, _ in entries_of(replica.record)]
            yield None if lines == self.drawn.messages else f"{replica.name} has other messages in its record"
            words = [self.words[0], "times", *self.words[2:]]
            done = subprocess.run(words, input=b"".join(line + b"\n" for line in lines), capture_output=True)
            table = done.stdout.decode().split("\n")[len(lines) : -1]
            yield None if table == self.drawn.table else f"the table of {replica.name} is another"

    def told(self):
        """How much of what there was."""
        if self.is_forgetful:
            yield f"{sum(1 for _ in self.count_faults())} times a client was shown fewer messages than before"
        counts = sum((client.counts for client in self.clients), Counter())
        replies = sum(len(client.replies) for client in self.clients)
        errors = "".join(replica.errors.read_text() for replica in self.left)
        broken = [line for line in errors.split("\n") if "serve ended with" in line and "and 0 lines" not in line]
        yield f"{len(self.drawn.messages)} messages, {len(self.drawn.rides) - 1} accepted, {self.number} replicas"
        yield f"{replies} replies to {CLIENTS} clients, {counts['moved']} behind a move, {counts['away']} did not come"
        yield f"{len(broken)} times serve was killed with lines that had no reply"
        yield from (f"{number} times {kind}" for kind, number in sorted(self.happened.items()))


def shown_in(reply, otherwise):
    """The number of messages that the reply to a query shows, or another number where the query is bad."""
    return json.loads(reply).get("after", otherwise)
