#!/usr/bin/env python3
"""Measures the built program on messages and queries through `serve`, beside `times`.

Usage: bench/serve.py [PROGRAM ..]     (the built program where none is given)

It makes the feed of bench/queries.py, of 100,000 events, and inputs of 5,000 lines:
forecasts and queries in turn, so many of the ones after so many of the others. The
queries are of 64 clients. Without flush lines a window has 256 lines; in the last
input a flush line follows each turn, so a window has eleven. It runs `times` on each
input, and `serve` with 1, 2 and 4 workers, three times each, and prints the seconds of
the least, without those of a run of the command without input, the lines a second, and
how many times as many these are as those of `times`. Seconds are those of a clock, so
they tell something only where no other program runs and there are as many cores as
workers and one more. It proves nothing and tests nothing; build the program first
(README.md).
"""

import itertools
import sys
import tempfile
import time
from pathlib import Path
from random import Random
from subprocess import Popen

sys.dont_write_bytecode = True
from queries import make_feed, make_forecast, make_query, make_trains  # noqa: E402
from times import DATE, PROGRAM  # noqa: E402

LINES = 5_000
CLIENTS = 64
RUNS = 3
FLUSH = '{"v":1,"type":"flush"}'
# How many forecasts, queries and flush lines a turn has.
MIXES = {
    "a forecast and nine queries": (1, 9, 0),
    "a forecast and a query": (1, 1, 0),
    "nine forecasts and a query": (9, 1, 0),
    "a forecast, nine queries and a flush line": (1, 9, 1),
}
COMMANDS = [("times", 1), ("serve", 1), ("serve", 2), ("serve", 4)]


def make_lines(random, trains, forecasts, queries, flushes):
    """The lines of an input, turn by turn."""
    while True:
        for _ in range(forecasts):
            yield make_forecast(random, trains)
        for _ in range(queries):
            yield make_query(random, f"client {random.randrange(CLIENTS)}")
        for _ in range(flushes):
            yield FLUSH


def run(program, folder, command, workers, lines):
    """The seconds that a program takes for these lines."""
    given, written = folder / "lines", folder / "output"
    given.write_text("".join(line + "\n" for line in lines))
    words = [program, command, folder, "--from", DATE, "--workers", str(workers)]
    with given.open("rb") as source, written.open("wb") as sink:
        start = time.monotonic()
        status = Popen(words, stdin=source, stdout=sink).wait()
        seconds = time.monotonic() - start
    if status != 0:
        sys.exit(f"the program ended with status {status}")
    return seconds


def least(program, folder, command, workers, lines):
    """The least seconds of a few runs."""
    return min(run(program, folder, command, workers, lines) for _ in range(RUNS))


def measure(program, folder, inputs):
    """Measures a program: each command on each input."""
    loads = [least(program, folder, command, workers, []) for command, workers in COMMANDS]
    for name, lines in inputs.items():
        print(name)
        print(f"{'':>18} {'seconds':>9} {'a second':>10} {'times':>7}")
        first = None
        for (command, workers), load in zip(COMMANDS, loads):
            seconds = least(program, folder, command, workers, lines) - load
            first = first or seconds
            told = f"{command}, {workers} workers" if command == "serve" else command
            print(f"{told:>18} {seconds:>9.2f} {len(lines) / seconds:>10,.0f} {first / seconds:>7.2f}", flush=True)


def main():
    random = Random(1)
    trains = make_trains(random)
    inputs = {name: [*itertools.islice(make_lines(random, trains, *mix), LINES)] for name, mix in MIXES.items()}
    with tempfile.TemporaryDirectory() as folder:
        make_feed(Path(folder), trains)
        for program in [Path(word).resolve() for word in sys.argv[1:]] or [PROGRAM]:
            print(program)
            measure(program, Path(folder), inputs)


if __name__ == "__main__":
    main()
