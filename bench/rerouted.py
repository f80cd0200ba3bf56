#!/usr/bin/env python3
"""Measures the built program on a train that was rerouted to many calls.

Usage: bench/rerouted.py [CALLS ..]     (250 500 1000 where none are given)

It runs `times` on the feed rows/feeds/a without its waiting rules, so that the
train alone is measured. The first line reroutes the train T1 by
way of so many new calls, one after the other; then come forecasts of its last
arrival and reports of its new calls, each with another time, and all accepted.
It prints the microseconds that a message takes, without those of loading, and
how they grow from one number of calls to the next: a message may cost the events
of the timetable, of which these are nearly all, but not their square. It proves
nothing and tests nothing; build the program first (README.md).
"""

import json
import shutil
import subprocess
import sys
import tempfile
import time
from pathlib import Path

sys.dont_write_bytecode = True
from times import DATE, PROGRAM, TOP, clock  # noqa: E402

FEED = TOP / "rows" / "feeds" / "a"
NUMBERS = [250, 500, 1_000]
MESSAGES = 1_000
FIRST, APART = 8 * 3600 + 5, 3
LABELS = 3


def line(kind, **members):
    return json.dumps({"v": 1, "type": kind, "trip": "T1", "date": DATE} | members).encode() + b"\n"


def reroute(calls):
    """T1 by way of so many calls, a few seconds apart, in place of the one between its ends."""
    times = [clock(FIRST + APART * place) for place in range(calls)]
    via = [{"stop": "ABCD"[place % 4].replace("B", "B1"), "arr": at, "dep": at} for place, at in enumerate(times)]
    return line("reroute", via=via, **{"from": 0, "to": 2})


def messages(calls, number):
    """Forecasts of the last arrival, and in each tenth line a report of the next new call."""
    for place in range(number):
        if place % 10 == 9 and place // 10 < calls:
            label = LABELS + place // 10
            yield line("report", call=label, event="arr", time=clock(FIRST + 60 * 60))
        else:
            yield line("forecast", call=2, event="arr", time=clock(10 * 3600 + place % 600))


def run(feed, calls, number):
    """The seconds of a run with so many messages after the rerouting."""
    words = [PROGRAM, "times", feed, "--from", DATE, "--slack", "0", "--spare-calls", str(calls)]
    text = reroute(calls) + b"".join(messages(calls, number))
    start = time.monotonic()
    done = subprocess.run(words, input=text, stdout=subprocess.PIPE, check=True)
    seconds = time.monotonic() - start
    refused = done.stdout.count(b"refused") + done.stdout.count(b'"bad"')
    if refused:
        sys.exit(f"{refused} lines were not accepted")
    return seconds


def main():
    numbers = [int(word) for word in sys.argv[1:]] or NUMBERS
    before = None
    print(f"{'calls':>7} {'microseconds a message':>24} {'times the one before':>22}")
    with tempfile.TemporaryDirectory() as made:
        feed = Path(made) / "a"
        shutil.copytree(FEED, feed, ignore=shutil.ignore_patterns("waiting_rules.txt"))
        for calls in numbers:
            cost = (run(feed, calls, MESSAGES) - run(feed, calls, 0)) / MESSAGES * 1e6
            grown = f"{cost / before:.2f}" if before else ""
            print(f"{calls:>7,} {cost:>24.1f} {grown:>22}", flush=True)
            before = cost


if __name__ == "__main__":
    main()
