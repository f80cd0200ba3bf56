"""A thread that follows a log: for tools/replica_reader."""

import os
import queue
import threading
import time

from replica_log import Log, LogFault
from replica_record import Gap, Places

MOST, MILLISECONDS = 128, 1_000
BATCHES = 4
PAUSE = 0.2
MOST_GAPS = 25


def single(line):
    """The line of an entry; one that would be several lines is an empty one, which `traind` calls bad."""
    return b"" if b"\n" in line else line


class Follower(threading.Thread):
    """Hands on the messages behind a number in batches, each once and in order, whatever happens to the log.

    For each batch, and where something else is told, a byte is written to the pipe `wake`.
    """

    def __init__(self, address, stream, last, tell):
        super().__init__(daemon=True)
        self.address, self.stream, self.places, self.tell = address, stream, Places(last), tell
        self.batches = queue.Queue(BATCHES)
        self.goal, self.fault, self.gaps = None, None, 0
        self.wake, self.woken = os.pipe()

    def run(self):
        """Connects to the log again and again; what it had when it was first reached is the goal."""
        is_away = False
        while self.fault is None:
            try:
                with Log(self.address, self.stream) as log:
                    last = log.last()
                    self.tell(f"the log is there, its last message is {last}")
                    is_away = False
                    self.follow(log, last)
            except LogFault as fault:
                if not is_away:
                    self.tell(f"the log is away: {fault}")
                is_away = True
                time.sleep(PAUSE)

    def follow(self, log, last):
        """Takes what comes, until an entry that is due stays missing."""
        if last < self.places.last:
            self.tell(f"{self.places.last} messages were taken before: is this the same log?")
        self.goal = last if self.goal is None else self.goal
        self.hand_on([])
        while self.fault is None:
            entries = log.after(self.places.last, MOST, MILLISECONDS)
            try:
                self.hand_on(self.places.taken(entries))
                self.gaps = 0
            except Gap:
                self.look_again(log)

    def look_again(self, log):
        """The entry that is due may come late; where it does not come, it is told as a fault."""
        self.gaps += 1
        time.sleep(PAUSE)
        if self.gaps == MOST_GAPS:
            due = self.places.last + 1
            self.fault = f"the log has no entry {due}, its first is {log.first()}: copy the record of another replica"
            self.hand_on([])

    def hand_on(self, entries):
        """Hands a batch on, and waits where there are too many; without entries it only wakes."""
        if entries:
            self.batches.put([(number, single(line)) for number, line in entries])
        os.write(self.woken, b".")

    def batch(self):
        """The next batch, or nothing."""
        try:
            return self.batches.get_nowait()
        except queue.Empty:
            return []
