#!/usr/bin/env python3
"""Measures the built program on queries of `plans`, beside the same queries of `times` and another program.

Usage: bench/plans.py [FEED ..] [--feed SIZE] [--beside PROGRAM] [--queries N] [--rounds N] [--one-ride] [--cpu]

A FEED is a folder with tables whose first day is DATE. A feed of a size, which is city,
region or nation and may be given more than once, is made by a script that is not part of
this repository, feeds.py of the folder shared/anchor beside it, or that of --maker; it is
kept in the folder of --made, and taken from there where it is there already.

On each feed it asks 1,000 queries, or as many as it is told, of the kinds of
tools/round_trip: of `plans` with four rides at most and with one, and of `times`. A round
has a run of `plans` and one of `times` on no line, and one of each kind on the queries; the
programs take turns, and every second round is in the other order. It prints the seconds of
`plans` on no line, and the milliseconds of a query of each kind without those of loading,
each the median of five rounds, and how many times as long a query of `plans` takes as one
of `times`. The program of --beside takes the words of this one, and is measured too; then
it prints how many times as long this program takes as that. First all must show the same
fronts, by arrival and number of rides, and it prints how many plans a reply has on average.
With --one-ride it keeps of four times as many queries those whose earliest journey has one ride.
Seconds are those of a clock, or with --cpu those of all processors. It proves nothing and
tests nothing; build the program first (README.md).
"""

import argparse
import json
import os
import statistics
import subprocess
import sys
import tempfile
import time
from pathlib import Path
from random import Random

sys.dont_write_bytecode = True
from times import DATE, PROGRAM, TOP  # noqa: E402

sys.path.append(str(TOP / "tools"))
from claim_lines import make_queries, query_line  # noqa: E402

QUERIES, ROUNDS = 1_000, 5
SIZES = "city", "region", "nation"
MAKER = TOP.parent / "shared" / "anchor" / "feeds.py"
MADE = Path(tempfile.gettempdir()) / "feeds"
# What is asked of `plans` and of `times`, by the head of its column.
KINDS = {"4 rides": ("plans", "--rides", "4"), "1 ride": ("plans", "--rides", "1"), "times": ("times",)}
LOADS = "plans", "times"


def read_words():
    words = argparse.ArgumentParser(description=__doc__.splitlines()[0])
    words.add_argument("feeds", nargs="*", type=Path, help="the folders of feeds")
    words.add_argument("--feed", action="append", default=[], choices=SIZES, help="a feed that is made")
    words.add_argument("--maker", type=Path, default=MAKER, help="the script that makes it")
    words.add_argument("--made", type=Path, default=MADE, help="the folder of the feeds that are made")
    words.add_argument("--from", dest="date", default=DATE, help="the first day of the feeds")
    words.add_argument("--queries", type=int, default=QUERIES, help="how many queries are asked")
    words.add_argument("--rounds", type=int, default=ROUNDS, help="how many rounds are run")
    words.add_argument("--program", type=Path, default=PROGRAM, help="another program than the built one")
    words.add_argument("--beside", type=Path, help="a program to measure against")
    words.add_argument("--one-ride", action="store_true", help="only queries whose earliest journey has one ride")
    words.add_argument("--cpu", action="store_true", help="processor time in place of that of a clock")
    return words.parse_args()


def made_feed(words, size):
    """The folder of a feed of a size, which is made where it is not there yet."""
    folder = words.made / size
    if not (folder / "feed.json").is_file():
        folder.mkdir(parents=True, exist_ok=True)
        subprocess.run([sys.executable, words.maker, size, folder], stdout=subprocess.DEVNULL, check=True)
    return folder


def options_of(folder, date):
    """The options for a feed, which stand beside its tables where it was made."""
    path = folder / "feed.json"
    return json.loads(path.read_text())["words"] if path.is_file() else ["--from", date]


class Runs:
    """The runs of some programs on a feed and on its queries."""

    def __init__(self, words, feed, folder):
        self.cpu, self.feed, self.options = words.cpu, feed, options_of(feed, words.date)
        self.empty, self.asked, self.written = (folder / name for name in ("empty", "queries", "output"))
        date = self.options[self.options.index("--from") + 1]
        self.empty.write_bytes(b"")
        drawn = make_queries(Random(1), feed, date, words.queries * (4 if words.one_ride else 1))
        queries = [query_line(query) for query in drawn]
        self.ask(queries)
        if words.one_ride:
            self.ask([query for query, rides in zip(queries, self.rides(words.program)) if rides == 1])

    def ask(self, queries):
        """Takes these lines as the queries that are asked."""
        self.number = len(queries)
        self.asked.write_bytes(b"".join(query + b"\n" for query in queries))

    def rides(self, program):
        """How many rides the earliest journey of each query has; none where there is no journey."""
        self.run(program, KINDS["times"], self.asked, self.written)
        replies = self.written.read_text().splitlines()[: self.number]
        return [len(reply["rides"]) if "rides" in reply else None for reply in map(json.loads, replies)]

    def run(self, program, command, lines, written=Path(os.devnull)):
        """The seconds of a run of a command on the lines of a file."""
        words = [program, command[0], self.feed, *self.options, *command[1:]]
        with lines.open("rb") as source, written.open("wb") as sink:
            start = time.monotonic()
            child = subprocess.Popen(words, stdin=source, stdout=sink)
            _, status, usage = os.wait4(child.pid, 0)
            seconds = time.monotonic() - start
        child.returncode = os.waitstatus_to_exitcode(status)
        if status != 0:
            sys.exit(f"{program} {command[0]} ended with status {child.returncode}")
        return usage.ru_utime + usage.ru_stime if self.cpu else seconds

    def fronts(self, program, command):
        """When the plans of each reply arrive, and how many rides they have."""
        self.run(program, command, self.asked, self.written)
        replies = map(json.loads, self.written.read_text().splitlines())
        return [[(plan["arrives"], len(plan["rides"])) for plan in reply.get("plans", ())] for reply in replies]

    def round(self, program):
        """The seconds of a round: those of each command on no line, and those of each kind on the queries."""
        loads = {name: self.run(program, (name,), self.empty) for name in LOADS}
        return loads, {name: self.run(program, command, self.asked) for name, command in KINDS.items()}

    def medians(self, programs, rounds):
        """For each program the seconds of `plans` on no line, and the milliseconds of a query of each kind."""
        found = {program: [] for program in programs}
        for number in range(rounds):
            for program in programs if number % 2 == 0 else programs[::-1]:
                found[program].append(self.round(program))
        for program, done in found.items():
            load = statistics.median(loads["plans"] for loads, _ in done)
            each = {
                name: statistics.median(asked[name] - loads[command[0]] for loads, asked in done)
                for name, command in KINDS.items()
            }
            yield program, load, {name: 1_000 * seconds / self.number for name, seconds in each.items()}


def show_fronts(runs, programs):
    """Prints how many plans the replies have; the programs must have the same."""
    for name in ("4 rides", "1 ride"):
        first, *others = [runs.fronts(program, KINDS[name]) for program in programs]
        if any(other != first for other in others):
            sys.exit(f"with {name} the programs show other fronts")
        plans, none = sum(map(len, first)), sum(not front for front in first)
        longest = max((len(front) for front in first), default=0)
        told = f"{plans / max(1, len(first)):.2f} plans on average, {longest} at most, none for {none} of {len(first)}"
        print(f"with {name}: {told}")


def measure(words, feed, programs):
    with tempfile.TemporaryDirectory() as folder:
        runs = Runs(words, feed, Path(folder))
        print(f"{feed}: {runs.number} queries")
        show_fronts(runs, programs)
        heads = [*KINDS, *(f"{name}/times" for name in KINDS if name != "times")]
        print(f"{'load':>9}", *(f"{head:>13}" for head in heads), " program")
        rows = [*runs.medians(programs, words.rounds)]
    for program, load, each in rows:
        ratios = [each[name] / each["times"] for name in KINDS if name != "times"]
        costs = [f"{cost:>13.3f}" for cost in each.values()] + [f"{ratio:>13.2f}" for ratio in ratios]
        print(f"{load:>9.2f}", *costs, f" {program}")
    if len(rows) > 1:
        (_, load, ours), (_, other_load, theirs) = rows
        print(f"{load / other_load:>9.2f}", *(f"{ours[name] / theirs[name]:>13.2f}" for name in KINDS), end="")
        print(" " * (14 * (len(KINDS) - 1)), " times as long as the program beside", flush=True)


def main():
    words = read_words()
    programs = [words.program.resolve(), *([words.beside.resolve()] if words.beside else [])]
    feeds = words.feeds + [made_feed(words, size) for size in words.feed]
    if not feeds:
        sys.exit("plans.py: no feed is given")
    for feed in feeds:
        measure(words, feed, programs)


if __name__ == "__main__":
    main()
