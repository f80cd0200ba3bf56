#!/usr/bin/env python3
"""Measures the built program on feeds where every departure waits for many trains.

Usage: bench/crowded.py [PROGRAM ..]     (the built program where none is given)

It makes feeds of 10,000 and 100,000 trains of four calls each through 100 stops,
many trains a minute, and one waiting rule for all of them: each departure waits
two minutes for every train that arrives in the half hour before it, 83 at each
stop in the larger feed. It runs `times` on each feed without input and with a
forecast for each train, up to fifteen minutes late, with each of the programs in
turn, and prints the seconds of processor time and the peak memory without input,
and the microseconds of processor time a forecast. Programs that take the same words
can so be measured side by side. It proves nothing and tests nothing; build the
program first (README.md).
"""

import os
import subprocess
import sys
import tempfile
from pathlib import Path

sys.dont_write_bytecode = True
from times import DATE, PROGRAM, WEEK, clock  # noqa: E402

TRAINS = [10_000, 100_000]
STOPS = 100
CALLS = 4
ROUNDS = 3


def call_rows(trains):
    """The calls of the trains, train by train: eleven minutes from one to the next, a minute long."""
    for train in range(trains):
        for call in range(CALLS):
            arrives = 14_400 + 60 * (train % 1_200) + 660 * call
            stop = (7 * train + 10 * call) % STOPS
            yield f"G{train},{clock(arrives)},{clock(arrives + 60)},S{stop},{call}"


def make_feed(folder, trains):
    """Writes the tables of a feed with so many trains."""
    tables = {
        "stops.txt": ("stop_id", (f"S{stop}" for stop in range(STOPS))),
        "trips.txt": ("route_id,service_id,trip_id", (f"R,ALL,G{train}" for train in range(trains))),
        "stop_times.txt": ("trip_id,arrival_time,departure_time,stop_id,stop_sequence", call_rows(trains)),
        "calendar.txt": (f"service_id,{WEEK},start_date,end_date", ["ALL,1,1,1,1,1,1,1,20260101,20261231"]),
        "waiting_rules.txt": ("feeder_route_id,connecting_route_id,stop_id,max_wait", [",,,120"]),
    }
    for name, (header, rows) in tables.items():
        with (folder / name).open("w") as table:
            table.write(header + "\n")
            table.writelines(row + "\n" for row in rows)


def forecast_lines(trains):
    """A forecast for the second call of each train, up to fifteen minutes late."""
    for train in range(trains):
        arrives = 14_400 + 60 * (train % 1_200) + 660 + 60 * ((train + 1) % 16)
        yield (
            f'{{"v":1,"type":"forecast","trip":"G{train}","date":"{DATE}","call":1,"event":"arr",'
            f'"time":"{clock(arrives)}"}}\n'
        )


def run(program, folder, lines=os.devnull):
    """Runs a program on a feed; its seconds of processor time and its peak memory in MiB."""
    with open(lines, "rb") as given:
        running = subprocess.Popen([program, "times", folder, "--from", DATE], stdin=given, stdout=subprocess.DEVNULL)
        _, status, usage = os.wait4(running.pid, 0)
    if status != 0:
        sys.exit(f"{program} ended with status {os.waitstatus_to_exitcode(status)}")
    return usage.ru_utime + usage.ru_stime, usage.ru_maxrss / 1024


def main():
    programs = [Path(word).resolve() for word in sys.argv[1:]] or [PROGRAM]
    print(f"{'trains':>10} {'seconds':>9} {'MiB':>7} {'us a forecast':>14}  program")
    with tempfile.TemporaryDirectory() as folder:
        for trains in TRAINS:
            feed = Path(folder) / str(trains)
            feed.mkdir()
            make_feed(feed, trains)
            lines = Path(folder) / f"{trains}.jsonl"
            with lines.open("w") as given:
                given.writelines(forecast_lines(trains))
            for program in programs:
                runs = [run(program, feed) for _ in range(ROUNDS)]
                seconds, memory = min(time for time, _ in runs), max(size for _, size in runs)
                longer = min(run(program, feed, lines)[0] for _ in range(ROUNDS))
                each = (longer - seconds) / trains * 1e6
                print(f"{trains:>10,} {seconds:>9.2f} {memory:>7.0f} {each:>14.2f}  {program}", flush=True)


if __name__ == "__main__":
    main()
