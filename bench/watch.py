#!/usr/bin/env python3
"""Measures the built program on messages while journeys are watched, beside runs in which none is.

Usage: bench/watch.py [FEED ..] [--feed SIZE] [--watched N] [--messages N] [--told N] [--rounds N] [--program PATH]

A FEED is a folder with tables whose first day is DATE. A feed of a size, which is city, region
or nation and may be given more than once, is made as for bench/plans.py.

On each feed 10,000 queries that have a journey, of the kinds of tools/round_trip, or as many as
it is told, are asked of `watch`, and then 5,000 messages come, or as many as it is told:
forecasts for arrivals at calls of trains that run, 1 to 15 minutes late. The same is done with
10,000 queries that one train alone answers, and with 100 messages, or as many as it is told, by
which this train leaves its first call an hour late or more, each time another minute, so that
something is told of most of these journeys. Beside these runs come those of `times` and of
`watch` on the same messages and no query.

It prints the milliseconds of a message in each of these runs, from when the queries are answered
until all messages are, each the median of five rounds; how many lines are told behind a message
on average; how many times as long a message takes with journeys that are watched as in `watch`
with none; and the seconds and the memory of `watch` until the queries are answered. Every second
round is in the other order. All times are those that the program was on a processor, as the
kernel counts them. It proves nothing and tests nothing; build the program first (README.md).
"""

import argparse
import itertools
import json
import os
import statistics
import subprocess
import sys
import tempfile
import threading
from pathlib import Path
from random import Random

sys.dont_write_bytecode = True
from plans import MADE, MAKER, SIZES, made_feed, options_of  # noqa: E402
from times import DATE, PROGRAM, TOP  # noqa: E402

sys.path.append(str(TOP / "tools"))
from claim_lines import line_of, make_queries, query_line, rows_of  # noqa: E402
from plain_feed import seconds_of, time_text  # noqa: E402

WATCHED, MESSAGES, TOLD, ROUNDS = 10_000, 5_000, 100, 5
DRAWN = 4  # of so many lines that are drawn one is to be kept
TRAINS, PAIRS = 50, 400
LATEST = 99 * 3_600


def read_words():
    words = argparse.ArgumentParser(description=__doc__.splitlines()[0])
    words.add_argument("feeds", nargs="*", type=Path, help="the folders of feeds")
    words.add_argument("--feed", action="append", default=[], choices=SIZES, help="a feed that is made")
    words.add_argument("--maker", type=Path, default=MAKER, help="the script that makes it")
    words.add_argument("--made", type=Path, default=MADE, help="the folder of the feeds that are made")
    words.add_argument("--from", dest="date", default=DATE, help="the first day of the feeds")
    words.add_argument("--watched", type=int, default=WATCHED, help="how many journeys are watched")
    words.add_argument("--messages", type=int, default=MESSAGES, help="how many messages come")
    words.add_argument("--told", type=int, default=TOLD, help="how many messages come for one train")
    words.add_argument("--rounds", type=int, default=ROUNDS, help="how many rounds are run")
    words.add_argument("--program", type=Path, default=PROGRAM, help="another program than the built one")
    return words.parse_args()


def calls_of(feed):
    """The calls of each trip that have a time, in their order, each with its arrival, its departure and its stop."""
    trips = {}
    for row in rows_of(feed / "stop_times.txt"):
        times = row["arrival_time"] or row["departure_time"], row["departure_time"] or row["arrival_time"]
        if times[0]:
            call = int(row["stop_sequence"]), *(seconds_of(time, 0) for time in times), row["stop_id"]
            trips.setdefault(row["trip_id"], []).append(call)
    return {trip: [call[1:] for call in sorted(calls)] for trip, calls in trips.items() if len(calls) > 1}


def forecast(trip, date, label, event, time):
    members = {"trip": trip, "date": date, "call": label, "event": event, "time": time_text(min(time, LATEST))}
    return line_of({"v": 1, "type": "forecast"} | members)


class Replies:
    """The replies that a program writes, counted while it runs. What it tells beside them is not."""

    def __init__(self, output):
        self.count, self.more = 0, threading.Condition()
        self.reader = threading.Thread(target=self.read, args=[output], daemon=True)
        self.reader.start()

    def read(self, output):
        for line in output:
            if not line.startswith(b'{"alert"'):
                with self.more:
                    self.count += 1
                    self.more.notify()

    def wait(self, number):
        with self.more:
            self.more.wait_for(lambda: self.count >= number)


def on_processor(process):
    """How many seconds a process of one thread was on a processor."""
    return int(Path(f"/proc/{process}/schedstat").read_text().split()[0]) / 1e9


def peak_of(process):
    """The most mebibytes that a process had."""
    status = Path(f"/proc/{process}/status").read_text()
    return int(status[status.index("VmHWM:") + 6 :].split()[0]) / 1024


class Feed:
    """A feed, the program, and a folder for inputs and outputs."""

    def __init__(self, words, feed, folder):
        self.program, self.feed, self.options = words.program.resolve(), feed, options_of(feed, words.date)
        self.date = self.options[self.options.index("--from") + 1]
        self.input, self.output = folder / "input", folder / "output"
        self.random, self.trips = Random(1), calls_of(feed)

    def run(self, command, lines, keeps=False):
        """The processor seconds and the peak mebibytes of a run of a command on these lines."""
        self.input.write_bytes(b"".join(line + b"\n" for line in lines))
        with self.input.open("rb") as source, (self.output if keeps else Path(os.devnull)).open("wb") as sink:
            child = subprocess.Popen([self.program, command, self.feed, *self.options], stdin=source, stdout=sink)
            _, status, usage = os.wait4(child.pid, 0)
        child.returncode = os.waitstatus_to_exitcode(status)
        if status != 0:
            sys.exit(f"{self.program} {command} ended with status {child.returncode}")
        return usage.ru_utime + usage.ru_stime, usage.ru_maxrss / 1024

    def cost(self, command, queries, messages):
        """The processor seconds and the peak mebibytes of a run until it has answered these queries, and the
        processor seconds of the messages behind them."""
        words = [self.program, command, self.feed, *self.options]
        with subprocess.Popen(words, stdin=subprocess.PIPE, stdout=subprocess.PIPE) as child:
            replies = Replies(child.stdout)
            first = [b"{}", *queries]  # a bad line, which is answered once the feed is loaded
            child.stdin.write(b"".join(line + b"\n" for line in first))
            child.stdin.flush()
            replies.wait(len(first))
            loaded, peak = on_processor(child.pid), peak_of(child.pid)
            child.stdin.write(b"".join(line + b"\n" for line in messages))
            child.stdin.flush()
            replies.wait(len(first) + len(messages))
            behind = on_processor(child.pid) - loaded
            child.stdin.close()
            replies.reader.join()
        if child.returncode != 0:
            sys.exit(f"{self.program} {command} ended with status {child.returncode}")
        return loaded, peak, behind

    def answered(self, lines):
        """The lines, each with the reply of `times`."""
        self.run("times", lines, keeps=True)
        with self.output.open(encoding="utf-8") as output:
            return [(line, json.loads(reply)) for line, reply in zip(lines, output)]

    def told(self, lines):
        """How many lines are told of watched journeys, and how many journeys are watched."""
        self.run("watch", lines, keeps=True)
        with self.output.open("rb") as output:
            heads = [(line.startswith(b'{"alert"'), line.endswith(b'"watched":true}\n')) for line in output]
        return sum(is_told for is_told, _ in heads), sum(is_watched for _, is_watched in heads)

    def queries(self, number):
        """So many queries that have a journey."""
        drawn = [query_line(query) for query in make_queries(self.random, self.feed, self.date, DRAWN * number)]
        return [line for line, reply in self.answered(drawn) if "rides" in reply][:number]

    def messages(self, number):
        """So many forecasts that are accepted."""
        trips, drawn = [*self.trips], []
        for turn in range(DRAWN * number):
            trip = self.random.choice(trips)
            label = self.random.randrange(1, len(self.trips[trip]))
            arrival = self.trips[trip][label][0]
            drawn.append(forecast(trip, self.date, label, "arr", arrival + 60 * (1 + turn % 15)))
        return [line for line, reply in self.answered(drawn) if "accepted" in reply][:number]

    def one_train(self, number, messages):
        """So many queries that one train alone answers, and so many forecasts for its first departure."""
        longest = sorted(self.trips, key=lambda trip: -len(self.trips[trip]))[:TRAINS]
        for trip in longest:
            calls = self.trips[trip]
            pairs = [*itertools.combinations(calls, 2)]
            drawn = [
                query_line({"client": "c", "from": a[2], "to": b[2], "date": self.date, "time": time_text(a[1])})
                for a, b in self.random.sample(pairs, min(PAIRS, len(pairs)))
                if a[1] <= LATEST
            ]
            found = [line for line, reply in self.answered(drawn) if is_of(reply, trip)]
            if found:
                delays = (3_600 + 60 * (turn % 15) for turn in range(messages))
                late = [forecast(trip, self.date, 0, "dep", calls[0][1] + delay) for delay in delays]
                return [*itertools.islice(itertools.cycle(found), number)], late
        sys.exit("watch.py: no train answers a query alone")


def is_of(reply, trip):
    """Whether a reply shows a journey on one train, which is of this trip."""
    return [ride["trip"] for ride in reply.get("rides", ())] == [trip]


def measure(feed, name, queries, messages, rounds):
    """Prints what a message costs beside these queries."""
    kinds = {"times": ("times", []), "watch, none": ("watch", []), "watch": ("watch", queries)}
    each, before = {kind: [] for kind in kinds}, []
    for number in range(rounds):
        for kind in kinds if number % 2 == 0 else [*kinds][::-1]:
            command, asked = kinds[kind]
            loaded, peak, behind = feed.cost(command, asked, messages)
            each[kind].append(1_000 * behind / len(messages))
            before += [(loaded, peak)] if asked else []
    told, watched = feed.told([*queries, *messages])
    costs = {kind: statistics.median(found) for kind, found in each.items()}
    seconds, memory = (statistics.median(values) for values in zip(*before))
    print(
        f"{name:<10} {watched:>9,} {len(messages):>9,} {told / len(messages):>9.1f}",
        *(f"{costs[kind]:>12.4f}" for kind in kinds),
        f"{costs['watch'] / costs['watch, none']:>8.2f} {seconds:>9.2f} {memory:>7.0f}",
        flush=True,
    )


def main():
    words = read_words()
    feeds = words.feeds + [made_feed(words, size) for size in words.feed]
    if not feeds:
        sys.exit("watch.py: no feed is given")
    for path in feeds:
        with tempfile.TemporaryDirectory() as folder:
            feed = Feed(words, path, Path(folder))
            print(path)
            print(f"{'':<10} {'watched':>9} {'messages':>9} {'told':>9}", end=" ")
            print(f"{'times':>12} {'watch, none':>12} {'watch':>12} {'/none':>8} {'seconds':>9} {'MiB':>7}")
            measure(feed, "any", feed.queries(words.watched), feed.messages(words.messages), words.rounds)
            measure(feed, "one train", *feed.one_train(words.watched, words.told), words.rounds)


if __name__ == "__main__":
    main()
