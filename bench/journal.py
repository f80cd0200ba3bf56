#!/usr/bin/env python3
"""Measures the built program on a long journal: writing it, going on from it, and following it.

Usage: bench/journal.py [FEED ..] [--feed SIZE] [--messages N] [--rounds N] [--program PATH]

A FEED is a folder with tables whose first day is DATE. A feed of a size, which is city, region
or nation and may be given more than once, is made as for bench/plans.py.

On each feed 1,000,000 messages, or as many as it is told, are given to `times` and to `journal`:
forecasts for arrivals at calls of trains that run, 1 to 15 minutes late. What `journal` wrote is
then the journal of `restart`, which gets no line more, and the input of `follow`. It prints how
many lines and bytes the journal has, and for each command the seconds and the mebibytes of a run
without a message, and the microseconds of a message and the mebibytes of a run with all of them,
each the median of three rounds. All times are those that the program was on a processor. It
proves nothing and tests nothing; build the program first (README.md).
"""

import argparse
import multiprocessing
import os
import statistics
import subprocess
import sys
import tempfile
from pathlib import Path
from random import Random

sys.dont_write_bytecode = True
from plans import MADE, MAKER, SIZES, made_feed, options_of  # noqa: E402
from times import DATE, PROGRAM  # noqa: E402
from watch import calls_of, forecast  # noqa: E402

MESSAGES, ROUNDS = 1_000_000, 3


def read_words():
    words = argparse.ArgumentParser(description=__doc__.splitlines()[0])
    words.add_argument("feeds", nargs="*", type=Path, help="the folders of feeds")
    words.add_argument("--feed", action="append", default=[], choices=SIZES, help="a feed that is made")
    words.add_argument("--maker", type=Path, default=MAKER, help="the script that makes it")
    words.add_argument("--made", type=Path, default=MADE, help="the folder of the feeds that are made")
    words.add_argument("--from", dest="date", default=DATE, help="the first day of the feeds")
    words.add_argument("--messages", type=int, default=MESSAGES, help="how many messages come")
    words.add_argument("--rounds", type=int, default=ROUNDS, help="how many rounds are run")
    words.add_argument("--program", type=Path, default=PROGRAM, help="another program than the built one")
    return words.parse_args()


def write_messages(feed, date, number, path):
    """Writes forecasts for arrivals at calls of trains that are drawn."""
    random, trips = Random(1), list(calls_of(feed).items())
    with path.open("wb") as lines:
        for _ in range(number):
            trip, calls = random.choice(trips)
            label = random.randrange(1, len(calls))
            lines.write(forecast(trip, date, label, "arr", calls[label][0] + 60 * random.randint(1, 15)) + b"\n")


class Runs:
    """The program over a feed, and a folder for the feeds with journals."""

    def __init__(self, words, feed, folder):
        self.program, self.feed, self.folder = words.program.resolve(), feed, folder
        self.options = options_of(feed, words.date)

    def run(self, command, lines=os.devnull, feed=None, output=os.devnull):
        """The processor seconds and the peak mebibytes of a run of a command on these lines."""
        with open(lines, "rb") as source, open(output, "wb") as sink:
            given = [self.program, command, feed or self.feed, *self.options]
            child = subprocess.Popen(given, stdin=source, stdout=sink)
            _, status, usage = os.wait4(child.pid, 0)
        child.returncode = os.waitstatus_to_exitcode(status)
        if status != 0:
            sys.exit(f"{self.program} {command} ended with status {child.returncode}")
        return usage.ru_utime + usage.ru_stime, usage.ru_maxrss / 1024

    def with_journal(self, name, lines):
        """The same feed in a folder of its own, with the journal of these lines."""
        tables = self.folder / name
        tables.mkdir()
        for table in self.feed.iterdir():
            (tables / table.name).symlink_to(table.resolve())
        self.run("journal", lines, output=tables / "journal.jsonl")
        return tables


def measure(words, path, folder):
    runs = Runs(words, path, folder)
    lines = folder / "lines"
    date = runs.options[runs.options.index("--from") + 1]
    # in a process of its own, since a child counts what its parent had in memory as its own
    writing = multiprocessing.Process(target=write_messages, args=(path, date, words.messages, lines))
    writing.start()
    writing.join()
    short, long = runs.with_journal("short", os.devnull), runs.with_journal("long", lines)
    journal = long / "journal.jsonl"
    with journal.open("rb") as written:
        messages = sum(1 for _ in written) - 1
    size = journal.stat().st_size
    print(f"{path}: {words.messages:,} messages, {messages:,} in the journal, {size:,} bytes", flush=True)
    cases = {
        "times": ((os.devnull, path), (lines, path)),
        "journal": ((os.devnull, path), (lines, path)),
        "restart": ((os.devnull, short), (os.devnull, long)),
        "follow": ((short / "journal.jsonl", path), (journal, path)),
    }
    print(f"{'':>9}{'seconds':>9}{'MiB':>7}{'microseconds':>14}{'MiB':>7}")
    for command, (without, behind) in cases.items():
        rounds = [(runs.run(command, *without), runs.run(command, *behind)) for _ in range(words.rounds)]
        load = statistics.median(first[0] for first, _ in rounds)
        cost = statistics.median(last[0] - first[0] for first, last in rounds) * 1e6 / messages
        peaks = [statistics.median(pair[which][1] for pair in rounds) for which in (0, 1)]
        print(f"{command:>9}{load:>9.2f}{peaks[0]:>7.0f}{cost:>14.2f}{peaks[1]:>7.0f}", flush=True)


def main():
    words = read_words()
    for path in words.feeds + [made_feed(words, size) for size in words.feed]:
        with tempfile.TemporaryDirectory() as folder:
            measure(words, path, Path(folder))


if __name__ == "__main__":
    main()
