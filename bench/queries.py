#!/usr/bin/env python3
"""Measures the built program on queries: how many are answered a second.

Usage: bench/queries.py [PROGRAM ..]     (the built program where none is given)

It makes a feed of 50,000 rows of `stop_times.txt`, 100,000 events: 150 lines of 5
to 20 calls each on a grid of 200 places, half of them stations of three platforms,
with trains in both directions every 75 minutes, change times of 2 to 6 minutes
and no waiting rules. Then it runs `times` with 5,000 queries between any two places
at any time of the day, and then with the first 500 and a forecast before each of them.
It prints the seconds without those of loading and printing, the queries a second,
how many of them have a journey and with how many rides on average.

A search by departures takes them in the order of their times, from the time of the
query on, and is done at the first that is not before the best arrival so far; where
there is no journey it takes all of them. How many these are on average is counted
from the times of the table, for the queries alone. It proves nothing and tests
nothing; build the program first (README.md).
"""

import bisect
import csv
import json
import sys
import tempfile
import time
from pathlib import Path
from random import Random
from subprocess import Popen

sys.dont_write_bytecode = True
from times import DATE, PROGRAM, WEEK, clock  # noqa: E402

ROWS = 50_000
QUERIES, AFTER_FORECASTS = 5_000, 500
LINES = 150
WIDTH, HEIGHT = 20, 10
PLATFORMS = 3
EVERY = 4_500
FIRST, LAST = 14_400, 79_200


def is_station(x, y):
    return (x + y) % 2 == 0


def stop_rows():
    """The places of the grid: by turns a station with its platforms, and a stop."""
    for x in range(WIDTH):
        for y in range(HEIGHT):
            yield f"P{x}-{y},{int(is_station(x, y))},"
            for platform in range(PLATFORMS if is_station(x, y) else 0):
                yield f"P{x}-{y}-{platform},0,P{x}-{y}"


def make_line(random):
    """A way over the grid: its places, and the seconds from each to the next."""
    way = [(random.randrange(WIDTH), random.randrange(HEIGHT))]
    for _ in range(random.randint(4, 19)):
        x, y = way[-1]
        near = [(x + 1, y), (x - 1, y), (x, y + 1), (x, y - 1)]
        new = [(x, y) for x, y in near if x in range(WIDTH) and y in range(HEIGHT) and (x, y) not in way]
        way += [random.choice(new)] if new else []
    return way, [60 * random.randint(3, 9) for _ in way]


def make_trains(random):
    """The calls of each train, with arrival, departure and stop, until there are enough rows."""
    lines = [make_line(random) for _ in range(LINES)]
    trains, rows = [], 0
    while rows < ROWS:
        turn, line = divmod(len(trains), LINES)
        way, seconds = lines[line]
        way = way if turn % 2 else way[::-1]
        departs, calls = FIRST + EVERY * (turn // 2) + 60 * (7 * line % 75), []
        for (x, y), running in zip(way, seconds):
            stop = f"P{x}-{y}-{line % PLATFORMS}" if is_station(x, y) else f"P{x}-{y}"
            calls.append((departs - 60, departs, stop))
            departs += running
        trains.append(calls)
        rows += len(calls)
    return trains


def make_feed(folder, trains):
    """Writes the tables of a feed with these trains."""
    stations = [f"P{x}-{y}" for x in range(WIDTH) for y in range(HEIGHT) if is_station(x, y)]
    trips = (f"L{train % LINES},DAILY,G{train}" for train in range(len(trains)))
    calls = (
        f"G{train},{clock(arrives)},{clock(departs)},{stop},{place}"
        for train, of_train in enumerate(trains)
        for place, (arrives, departs, stop) in enumerate(of_train)
    )
    tables = {
        "stops.txt": ("stop_id,location_type,parent_station", stop_rows()),
        "trips.txt": ("route_id,service_id,trip_id", trips),
        "stop_times.txt": ("trip_id,arrival_time,departure_time,stop_id,stop_sequence", calls),
        "calendar.txt": (f"service_id,{WEEK},start_date,end_date", ["DAILY,1,1,1,1,1,1,1,20260101,20261231"]),
        "transfers.txt": (
            "from_stop_id,to_stop_id,transfer_type,min_transfer_time",
            (f"{station},{station},2,{120 + place % 5 * 60}" for place, station in enumerate(stations)),
        ),
    }
    for name, (header, rows) in tables.items():
        (folder / name).write_text("\n".join([header, *rows, ""]))


def make_query(random, client="q"):
    """A line by which a client asks for a journey between two places."""
    origin, destination = random.sample([f"P{x}-{y}" for x in range(WIDTH) for y in range(HEIGHT)], 2)
    ends = {"client": client, "from": origin, "to": destination}
    return json.dumps({"v": 1, "type": "query"} | ends | {"date": DATE, "time": clock(random.randrange(FIRST, LAST))})


def make_forecast(random, trains):
    """A line that forecasts a departure up to 15 minutes late."""
    train = random.randrange(len(trains))
    call = random.randrange(len(trains[train]) - 1)
    late = clock(trains[train][call][1] + 60 * random.randint(1, 15))
    event = {"trip": f"G{train}", "date": DATE, "call": call, "event": "dep", "time": late}
    return json.dumps({"v": 1, "type": "forecast"} | event)


def run(program, folder, lines):
    """Runs a program on the feed and these lines; the seconds that it took, and the lines that it wrote."""
    given, written = folder / "lines", folder / "output"
    given.write_text("".join(line + "\n" for line in lines))
    with given.open("rb") as source, written.open("wb") as sink:
        start = time.monotonic()
        status = Popen([program, "times", folder, "--from", DATE], stdin=source, stdout=sink).wait()
        seconds = time.monotonic() - start
    if status != 0:
        sys.exit(f"the program ended with status {status}")
    return seconds, written.read_text().splitlines()


def seconds_of(text):
    hours, minutes, seconds = map(int, text.split(":"))
    return 3600 * hours + 60 * minutes + seconds


def departures_scanned(queries, replies, table):
    """How many departures lie between the time of each query and its arrival; all later ones if it has no journey."""
    times = sorted(seconds_of(row["time"]) for row in csv.DictReader(table) if row["event"] == "dep")
    for query, reply in zip(queries, replies):
        end = len(times) if reply["arrives"] is None else bisect.bisect_left(times, seconds_of(reply["arrives"]))
        yield max(0, end - bisect.bisect_left(times, seconds_of(query["time"])))


def measure(program, folder, trains, queries, forecasts):
    """Measures a program: loading alone, the queries, and the queries with a forecast before each."""
    load = min(run(program, folder, [])[0] for _ in range(3))
    print(f"{program}: {load:.2f} seconds for loading and printing")
    both = [line for pair in zip(forecasts, queries) for line in pair]
    for name, lines in (("queries alone", queries), ("queries with a forecast before each", both)):
        seconds, output = run(program, folder, lines)
        seconds -= load
        replies = [json.loads(line) for line in output[: len(lines)]]
        answers = [reply for reply in replies if "after" in reply]
        rides = [len(reply["rides"]) for reply in answers if "rides" in reply]
        print(f"{len(answers):,} {name}: {seconds:.2f} seconds, {len(answers) / seconds:,.0f} a second")
        print(f"    {len(rides):,} have a journey, of {sum(rides) / len(rides):.1f} rides on average")
        if lines is queries:
            scanned = [*departures_scanned(map(json.loads, queries), answers, output[len(lines) :])]
            print(f"    {sum(scanned) / len(scanned):,.0f} departures scanned on average, {max(scanned):,} at most")


def main():
    random = Random(1)
    trains = make_trains(random)
    queries = [make_query(random) for _ in range(QUERIES)]
    forecasts = [make_forecast(random, trains) for _ in range(AFTER_FORECASTS)]
    with tempfile.TemporaryDirectory() as folder:
        make_feed(Path(folder), trains)
        calls = sum(map(len, trains))
        print(f"{len(trains):,} trains, {calls:,} rows of stop_times.txt")
        for program in [Path(word).resolve() for word in sys.argv[1:]] or [PROGRAM]:
            measure(program, Path(folder), trains, queries, forecasts)


if __name__ == "__main__":
    main()
