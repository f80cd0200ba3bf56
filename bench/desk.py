#!/usr/bin/env python3
"""Measures the built program on what `desk` is asked: boards of stations, and what decides the times of events.

Usage: bench/desk.py [FEED ..] [--feed SIZE] [--messages N] [--rows N] [--questions N] [--rounds N] [--cpu]

A FEED is a folder with tables whose first day is DATE; one that was made by feeds.py, as
bench/plans.py says, has the messages of a day beside it in `messages.jsonl`, and the first
200,000 of them, or as many as it is told, are sent first. A feed of a size is made as there.

On each feed it asks for boards of 20 rows, or as many as it is told: of the station with the
most departures, of that with the fewest, at times over the day and from its first second on,
and of stations drawn evenly. And it asks, twenty times as often, why events are when they are:
the last arrivals of trains drawn evenly, and of the trains that the last tenth of the messages
names an arrival at one of the eight calls behind the one that is named. A round has a run on
the messages alone and one on each kind of question behind them. It prints the seconds of the
run on the messages, and the milliseconds of a question of each kind without those, each the
median of five rounds; and of each kind of chain how many there are, and how many links they
have on average and at most. Seconds are those of a clock, or with --cpu those of all
processors. It proves nothing and tests nothing; build the program first (README.md).
"""

import argparse
import csv
import json
import os
import statistics
import subprocess
import sys
import tempfile
import time
from collections import Counter
from pathlib import Path
from random import Random

sys.dont_write_bytecode = True
from plans import MADE, MAKER, SIZES, made_feed, options_of  # noqa: E402
from times import DATE, PROGRAM  # noqa: E402

MESSAGES, QUESTIONS, ROUNDS, ROWS = 200_000, 1_000, 5, 20
# So many times as many events are asked about, since a chain takes so little.
MORE = 20


def read_words():
    words = argparse.ArgumentParser(description=__doc__.splitlines()[0])
    words.add_argument("feeds", nargs="*", type=Path, help="the folders of feeds")
    words.add_argument("--feed", action="append", default=[], choices=SIZES, help="a feed that is made")
    words.add_argument("--maker", type=Path, default=MAKER, help="the script that makes it")
    words.add_argument("--made", type=Path, default=MADE, help="the folder of the feeds that are made")
    words.add_argument("--from", dest="date", default=DATE, help="the first day of the feeds")
    words.add_argument("--messages", type=int, default=MESSAGES, help="how many messages are sent first")
    words.add_argument("--rows", type=int, default=ROWS, help="how many rows a board has at most")
    words.add_argument("--questions", type=int, default=QUESTIONS, help="how many questions of a kind are asked")
    words.add_argument("--rounds", type=int, default=ROUNDS, help="how many rounds are run")
    words.add_argument("--program", type=Path, default=PROGRAM, help="another program than the built one")
    words.add_argument("--cpu", action="store_true", help="processor time in place of that of a clock")
    return words.parse_args()


def table(folder, name):
    """The rows of a table of a feed."""
    with (folder / name).open(newline="", encoding="utf-8-sig") as file:
        yield from csv.DictReader(file)


class Questions:
    """Questions about a feed."""

    def __init__(self, folder, date, rows, number, messages):
        self.date, self.rows, self.number, self.random = date, rows, number, Random(1)
        parents = {row["stop_id"]: row.get("parent_station") or row["stop_id"] for row in table(folder, "stops.txt")}
        self.calls, departures = [], Counter()
        for row in table(folder, "stop_times.txt"):
            self.calls.append((row["trip_id"], row["stop_sequence"]))
            departures[parents[row["stop_id"]]] += 1
        self.stations = sorted(departures, key=lambda station: (departures[station], station))
        self.labels = {}
        for trip, _ in self.calls:
            self.labels[trip] = self.labels.get(trip, -1) + 1
        last = map(json.loads, messages[-len(messages) // 10 :])
        self.named = [message for message in last if message["type"] in ("forecast", "report")]

    def board(self, stop, seconds):
        clock = f"{seconds // 3600:02d}:{seconds // 60 % 60:02d}:00"
        asked = {"client": "c", "date": self.date, "rows": self.rows, "stop": stop, "time": clock}
        return asked | {"type": "departures", "v": 1}

    def over_the_day(self, stop):
        return [self.board(stop(), self.random.randrange(86_400)) for _ in range(self.number)]

    def why(self, trip, date, label):
        """A question for the arrival at a call."""
        return {"call": label, "date": date, "event": "arr", "trip": trip, "type": "why", "v": 1}

    def behind(self, message):
        """The label of a call behind that of a message, or of the last one."""
        return min(message["call"] + self.random.randrange(1, 9), self.labels.get(message["trip"], 1))

    def kinds(self):
        """The questions of each kind, by its name."""
        first, last = self.stations[0], self.stations[-1]
        trips = [*self.labels]
        drawn = [self.random.choice(trips) for _ in range(MORE * self.number)]
        named = [self.random.choice(self.named) for _ in range(MORE * self.number)] if self.named else []
        return {
            "most departures": self.over_the_day(lambda: last),
            "fewest departures": self.over_the_day(lambda: first),
            "fewest, all day": [self.board(first, 0)] * self.number,
            "any station": self.over_the_day(lambda: self.random.choice(self.stations)),
            "any event": [self.why(trip, self.date, self.labels[trip]) for trip in drawn],
            "trains of messages": [self.why(it["trip"], it["date"], self.behind(it)) for it in named],
        }


def seconds_of(words, feed, options, lines, written=Path(os.devnull)):
    """The seconds of a run of `desk` on the lines of a file."""
    with lines.open("rb") as source, written.open("wb") as sink:
        start = time.monotonic()
        child = subprocess.Popen([words.program, "desk", feed, *options], stdin=source, stdout=sink)
        _, status, usage = os.wait4(child.pid, 0)
        seconds = time.monotonic() - start
    child.returncode = os.waitstatus_to_exitcode(status)
    if status != 0:
        sys.exit(f"desk ended with status {child.returncode}")
    return usage.ru_utime + usage.ru_stime if words.cpu else seconds


def chains_in(words, feed, options, lines, folder):
    """How many chains the replies to these lines have, and how many links those have."""
    written = folder / "written"
    seconds_of(words, feed, options, lines, written)
    links = [line.count(b'"by"') for line in written.read_bytes().splitlines() if b'"because"' in line]
    if not links:
        return ""
    return f"; {len(links)} chains, of {statistics.mean(links):.1f} links on average and {max(links)} at most"


def measure(words, feed, folder):
    """Prints what a feed's questions take."""
    options = options_of(feed, words.date)
    day = feed / "messages.jsonl"
    messages = day.read_bytes().splitlines(keepends=True)[: words.messages] if day.is_file() else []
    date = options[options.index("--from") + 1]
    kinds = Questions(feed, date, words.rows, words.questions, messages).kinds()
    files = {}
    for name, questions in [("", []), *kinds.items()]:
        files[name] = folder / f"lines{len(files)}"
        told = b"".join(json.dumps(question, separators=(",", ":")).encode() + b"\n" for question in questions)
        files[name].write_bytes(b"".join(messages) + told)
    rounds = [{name: seconds_of(words, feed, options, path) for name, path in files.items()} for _ in range(words.rounds)]
    load = statistics.median(found[""] for found in rounds)
    print(f"{feed.name}: {len(messages)} messages in {load:.2f} s with loading")
    for name, questions in kinds.items():
        if questions:
            each = (statistics.median(found[name] for found in rounds) - load) * 1000 / len(questions)
            print(f"{feed.name}, {name}: {each:.4f} ms{chains_in(words, feed, options, files[name], folder)}")


def main():
    words = read_words()
    feeds = [*words.feeds, *(made_feed(words, size) for size in words.feed)]
    with tempfile.TemporaryDirectory() as folder:
        for feed in feeds:
            measure(words, feed, Path(folder))


if __name__ == "__main__":
    main()
