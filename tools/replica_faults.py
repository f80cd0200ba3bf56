"""The faults of tools/replicas, each at a moment that is drawn: what is killed, stopped, lost or cut."""

import os
import shutil
import signal
import threading
import time
from contextlib import suppress

from replica_log import Log
from replica_processes import wait_until
from replica_record import entries_of

LEAST_KEPT, TORN = 20, 300
BUSY = 0.003


class Faults:
    """The faults of a run. It has the log server, its writer and the replicas, and may add replicas."""

    def __init__(self, run):
        self.run, self.random = run, run.random
        self.kinds = {
            "serve is killed": self.kill_serve,
            "a replica is killed": self.kill_replica,
            "a replica loses its record": self.lose_record,
            "a replica joins, and the oldest one goes": self.join,
            "the log is cut": self.cut,
            "the log server ends": self.end_log,
            "the log server stands still": self.stop_log,
            "the writer is killed": self.kill_writer,
            "a replica stands still": self.stop_replica,
        }

    def draw(self, number):
        """So many kinds of faults: each kind as often as the others, in any order."""
        found = []
        while len(found) < number:
            found += self.random.sample([*self.kinds], len(self.kinds))
        return found[:number]

    def happen(self, number):
        """Lets so many faults happen, one after the other, each some moments after the one before."""
        for kind in self.draw(number):
            time.sleep(self.random.uniform(0.1, 0.9))
            self.run.happened.update([kind])
            self.kinds[kind]()

    def wait(self):
        """Some moments."""
        time.sleep(self.random.uniform(0, 0.5))

    def replica(self):
        return self.random.choice(self.run.replicas)

    def busy_process(self, replica):
        """The process `serve` of a replica, which was given windows while it stood still, and goes on most times."""
        wait_until(replica.serve_process, f"{replica.name} starts no serve")
        process = replica.serve_process()
        with suppress(ProcessLookupError):
            os.kill(process, signal.SIGSTOP)
            self.wait()
            if self.random.randrange(3):
                os.kill(process, signal.SIGCONT)
                time.sleep(self.random.choice((0, self.random.uniform(0, BUSY))))
        return process

    def kill_serve(self):
        """The process `serve` of a replica is killed; the reader starts another, and shows no fewer messages."""
        replica = self.replica()
        before = self.run.flushed(replica)
        process = self.busy_process(replica)
        with suppress(ProcessLookupError):
            os.kill(process, signal.SIGKILL)
        wait_until(lambda: replica.serve_process() not in (None, process), f"{replica.name} starts no other serve")
        self.run.shows(replica, before)

    def kill_replica(self):
        """The reader and `serve` are killed at once, and the ends of their files are lost; then they start again."""
        replica = self.replica()
        self.busy_process(replica)
        replica.end()
        self.wait()
        for path in (replica.record, replica.replies):
            size = path.stat().st_size
            os.truncate(path, max(0, size - self.random.randint(1, TORN)))
        self.start(replica)

    def lose_record(self):
        """A replica is killed and has no record any more, or no file at all; it begins as one that is new."""
        replica = self.replica()
        replica.end()
        for path in (replica.record, *self.random.choice(((), (replica.replies,)))):
            path.unlink(missing_ok=True)
        self.begin(replica)

    def begin(self, replica):
        """Starts a replica without a record from the log's beginning, or with a copy of another one's record.

        The copy is made while the other one writes, so it may end within a line.
        """
        others = [other for other in self.run.replicas if other is not replica]
        if self.run.is_cut or self.random.choice((True, False)):
            shutil.copyfile(self.random.choice(others).record, replica.record)
        self.start(replica)

    def start(self, replica):
        """Starts a replica while the log stands still; what it shows first is at least what the log has now."""
        server = self.run.server
        with Log(server.address) as log:
            accepted = self.run.drawn.accepted(log.last())
        server.send(signal.SIGSTOP)
        replica.start()
        wait_until(lambda: os.path.exists(replica.address), f"{replica.name} does not start")
        threading.Timer(self.random.uniform(0, 0.5), server.send, [signal.SIGCONT]).start()
        self.run.shows(replica, accepted)

    def join(self):
        """A new replica is started, clients move to it, and then the oldest one is told to end."""
        new = self.run.new_replica()
        self.begin(new)
        self.run.replicas.append(new)
        self.wait()
        self.run.leave(self.run.replicas.pop(0))

    def cut(self):
        """The log is cut up to what all replicas have; one of them is killed, and has only its record."""
        wait_until(lambda: self.least() > LEAST_KEPT + 1, "the messages do not come")
        with Log(self.run.server.address) as log:
            log.cut(self.least() - LEAST_KEPT)
        self.run.is_cut = True
        replica = self.replica()
        replica.end()
        self.start(replica)

    def least(self):
        """How many messages each replica has at least."""
        records = [replica.record for replica in self.run.replicas]
        return min(sum(1 for _ in entries_of(record)) if record.exists() else 0 for record in records)

    def end_log(self):
        """The log server ends, by a word or by a signal that it cannot refuse, and comes back with what it stored."""
        server = self.run.server
        with Log(server.address) as log:
            before = log.last()
        server.end(self.random.choice((signal.SIGTERM, signal.SIGKILL)))
        self.wait()
        server.start()
        with Log(server.address) as log:
            last = log.last()
        self.run.fewer += [f"the log has {last} messages, and had {before}"] if last < before else []

    def stop_log(self):
        self.stand_still(self.run.server)

    def stop_replica(self):
        """A replica and its `serve` stand still for some moments, and are behind then."""
        self.stand_still(self.replica())

    def stand_still(self, process):
        process.send(signal.SIGSTOP)
        time.sleep(self.random.uniform(0.2, 1.5))
        process.send(signal.SIGCONT)

    def kill_writer(self):
        """The writer is killed, wherever it is, and another one goes on."""
        self.run.writer.end()
        self.wait()
        self.run.writer.start()
