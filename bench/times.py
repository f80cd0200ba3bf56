#!/usr/bin/env python3
"""Measures the built program on made feeds: loading and printing, and forecasts.

Usage: bench/times.py [ROWS ..]      (10000 100000 1000000 where none are given)

For each number of rows it makes a whole feed: `stop_times.txt` with so many
rows, trains with ten calls each, at stations of four platforms, with a
calendar and change times. It runs `times` on the feed without input, and
prints the bytes of the tables, the seconds and the peak memory. 1,000,000 rows
are 100,000 trains and 2,000,000 events, the most that a feed may make on its
loaded days. Then it runs 100,000 forecasts on the smallest feed, and prints
the seconds without those of loading, and the messages per second. It does the
same for feeds with waiting rules, one for each pair of routes that follow one
another, of 1,000 to 1,000,000 rows, and for 500 forecasts on the smallest of
them. It proves nothing and tests nothing; build the program first (README.md).
"""

import os
import subprocess
import sys
import tempfile
import time
from pathlib import Path

TOP = Path(__file__).resolve().parent.parent
PROGRAM = TOP / "crates" / "traind" / "out" / "traind"
CALLS = 10
ROUTES = 100
STATIONS = 1_000
PLATFORMS = 4
MESSAGES = 100_000
WAITING_ROWS = [1_000, 10_000, 100_000, 1_000_000]
WAITING_MESSAGES = 500
DATE = "20260105"
WEEK = "monday,tuesday,wednesday,thursday,friday,saturday,sunday"


def clock(seconds):
    """A time as the tables write it."""
    return f"{seconds // 3600:02}:{seconds // 60 % 60:02}:{seconds % 60:02}"


def departure(train, call):
    """When a train departs from a call: ten minutes on from call to call, every 40 seconds a train."""
    return 14_400 + 40 * (train % 1_500) + 600 * call


def stop_rows():
    """The stations, each with its platforms behind it."""
    for station in range(STATIONS):
        yield f"S{station},Station {station},1,"
        for platform in range(PLATFORMS):
            yield f"S{station}P{platform},Station {station} platform {platform},0,S{station}"


def call_rows(trains):
    """The calls of the trains, train by train."""
    for train in range(trains):
        for call in range(CALLS):
            departs = departure(train, call)
            station = (7 * train + 10 * call) % STATIONS
            stop = f"S{station}P{train % PLATFORMS}"
            yield f"G{train},{clock(departs - 60)},{clock(departs)},{stop},{call},0,0"


def make_feed(folder, trains, waiting):
    """Writes the tables of a feed with so many trains, with waiting rules or without; gives their bytes."""
    tables = {
        "stops.txt": ("stop_id,stop_name,location_type,parent_station", stop_rows()),
        "trips.txt": ("route_id,service_id,trip_id", (f"R{train % ROUTES},DAILY,G{train}" for train in range(trains))),
        "stop_times.txt": (
            "trip_id,arrival_time,departure_time,stop_id,stop_sequence,pickup_type,drop_off_type",
            call_rows(trains),
        ),
        "calendar.txt": (f"service_id,{WEEK},start_date,end_date", ["DAILY,1,1,1,1,1,1,1,20260101,20261231"]),
        "calendar_dates.txt": ("service_id,date,exception_type", ["DAILY,20261225,2"]),
        "transfers.txt": (
            "from_stop_id,to_stop_id,transfer_type,min_transfer_time",
            (f"S{station},S{station},2,{120 + station % 5 * 60}" for station in range(STATIONS)),
        ),
        "waiting_rules.txt": (
            "feeder_route_id,connecting_route_id,stop_id,max_wait",
            (f"R{route},R{(route + 1) % ROUTES},,300" for route in range(ROUTES if waiting else 0)),
        ),
    }
    for name, (header, rows) in tables.items():
        with (folder / name).open("w") as table:
            table.write(header + "\n")
            table.writelines(row + "\n" for row in rows)
    return sum((folder / name).stat().st_size for name in tables)


def make_lines(path, trains, messages):
    """Writes forecasts for one train after the other, each of 1 to 15 minutes."""
    with path.open("w") as lines:
        for number in range(messages):
            train = number % trains
            time_of_day = clock(departure(train, 1) + 60 * (number % 15 + 1))
            lines.write(
                f'{{"v":1,"type":"forecast","trip":"G{train}","date":"{DATE}",'
                f'"call":1,"event":"dep","time":"{time_of_day}"}}\n'
            )


def run(folder, lines):
    """Runs the program; the seconds that it took and its peak memory in MiB."""
    with open(lines, "rb") as given:
        start = time.monotonic()
        program = subprocess.Popen(
            [PROGRAM, "times", folder, "--from", DATE], stdin=given, stdout=subprocess.DEVNULL
        )
        _, status, usage = os.wait4(program.pid, 0)
        seconds = time.monotonic() - start
    if status != 0:
        sys.exit(f"the program ended with status {os.waitstatus_to_exitcode(status)}")
    return seconds, usage.ru_maxrss / 1024


def measure(sizes, waiting, messages):
    """Measures feeds of these numbers of rows, and so many forecasts on the first of them."""
    print("with waiting rules" if waiting else "without waiting rules")
    print(f"{'rows':>10} {'bytes':>12} {'seconds':>9} {'MiB':>7}")
    loads = []
    with tempfile.TemporaryDirectory() as folder:
        for rows in sizes:
            feed = Path(folder) / str(rows)
            feed.mkdir()
            size = make_feed(feed, rows // CALLS, waiting)
            seconds, memory = run(feed, os.devnull)
            loads.append(seconds)
            print(f"{rows:>10,} {size:>12,} {seconds:>9.2f} {memory:>7.0f}", flush=True)
        smallest = sizes[0]
        lines = Path(folder) / "lines"
        make_lines(lines, smallest // CALLS, messages)
        seconds = run(Path(folder) / str(smallest), lines)[0] - loads[0]
        print(f"{messages:,} forecasts on {smallest:,} rows: {seconds:.2f} seconds, {messages / seconds:,.0f} a second")


def main():
    measure(sorted(int(word) for word in sys.argv[1:]) or [10_000, 100_000, 1_000_000], False, MESSAGES)
    measure(WAITING_ROWS, True, WAITING_MESSAGES)


if __name__ == "__main__":
    main()
