"""Runs the program for tools/diagram: the table that `times` writes, and what `desk` answers."""

import csv
import json
import subprocess
import sys
from dataclasses import dataclass

from plain_feed import seconds_of


@dataclass
class Moment:
    """A live event: a row of the table, with its times in seconds from the base of day 0."""

    trip: str
    date: str
    call: int
    stop: str
    kind: str
    scheduled: int
    time: int

    def name(self):
        """How lines name the event."""
        return {"trip": self.trip, "date": self.date, "call": self.call, "event": self.kind}

    def key(self):
        return self.trip, self.date, self.call, self.kind


def key_of(link):
    """The key of the event of a link of a chain."""
    return link["trip"], link["date"], link["call"], link["event"]


class Program:
    """The program on a feed and lines, with the words that both commands get."""

    def __init__(self, path, feed, words, data):
        self.path, self.feed, self.words = path, feed, words
        self.data = data if data.endswith(b"\n") or not data else data + b"\n"

    def output(self, command, data):
        """All lines that a run writes; a status ends this script too."""
        try:
            run = subprocess.run(
                [self.path, command, self.feed, *self.words], input=data, stdout=subprocess.PIPE, check=False
            )
        except OSError as fault:
            sys.exit(f"diagram: the program did not start: {fault}")
        if run.returncode:
            sys.exit(run.returncode)
        return run.stdout.decode().split("\n")

    def read_times(self, output, bases):
        """Of what `times` wrote the accepted messages, and the events of each train in its order, by trip and date."""
        lines = self.data.split(b"\n")[:-1]
        taken = [json.loads(line) for line, reply in zip(lines, output) if '"accepted"' in reply]
        moments = {}
        for row in csv.DictReader(output[len(lines) :]):
            scheduled, time = (seconds_of(row[name], bases[row["date"]]) for name in ("scheduled", "time"))
            moment = Moment(row["trip"], row["date"], int(row["call"]), row["stop"], row["event"], scheduled, time)
            moments.setdefault((moment.trip, moment.date), []).append(moment)
        return taken, moments

    def ask(self, questions):
        """What `desk` replies to questions behind all lines."""
        asked = "".join(json.dumps({"v": 1} | question) + "\n" for question in questions)
        output = self.output("desk", self.data + asked.encode())
        return [json.loads(reply) for reply in output[-len(questions) - 1 : -1]]

    def chains(self, names):
        """The chain of each of the named events."""
        replies = self.ask([{"type": "why"} | name for name in names]) if names else []
        return [reply.get("because", []) for reply in replies]

    def board(self, station, date, time, rows):
        """The next departures of a station."""
        [reply] = self.ask(
            [{"type": "departures", "client": "page", "stop": station, "date": date, "time": time, "rows": rows}]
        )
        if "departures" not in reply:
            sys.exit(f"diagram: the program refuses the board: {json.dumps(reply)}")
        return reply["departures"]
