"""Queries between the places of a feed, and the claims that the replies of `check` make: for tools/round_trip and
bench/check.py.
"""

import csv
import json
import subprocess

from plain_claims import claim_of
from plain_feed import seconds_of, time_text
from plain_lines import LONG

HOUR = 3_600
FIRST, LAST, LATEST = 4 * HOUR, 22 * HOUR, 99 * HOUR


def rows_of(path):
    with path.open(encoding="utf-8-sig", newline="") as table:
        yield from csv.DictReader(table)


def places_of(folder):
    """The ids of the stops, platforms and stations of a feed."""
    rows = rows_of(folder / "stops.txt")
    return [row["stop_id"] for row in rows if (row.get("location_type") or "0") in ("0", "1")]


def trips_of(folder):
    """The calls of each trip with a departure in their order, each with it and the stop."""
    trips = {}
    for row in rows_of(folder / "stop_times.txt"):
        if row["departure_time"]:
            call = int(row["stop_sequence"]), seconds_of(row["departure_time"], 0), row["stop_id"]
            trips.setdefault(row["trip_id"], []).append(call)
    return [[call[1:] for call in sorted(calls)] for calls in trips.values() if len(calls) > 1]


def make_queries(random, folder, date, number):
    """So many queries, by turns along a trip in the hour before it, and between any two places at any time."""
    places, trips = places_of(folder), trips_of(folder)
    for turn in range(number):
        if turn % 2:
            begin, end, time = random.choice(places), random.choice(places), random.randrange(FIRST, LAST)
        else:
            (time, begin), (_, end) = sorted(random.sample(random.choice(trips), 2))
            time = max(0, min(time, LATEST) - random.randrange(HOUR))
        yield {"client": "c", "from": begin, "to": end, "date": date, "time": time_text(time)}


def query_line(query):
    return line_of({"v": 1, "type": "query"} | query)


def claim_line(query, reply):
    """The claim that a reply makes, or None where it fits no line."""
    line = line_of({"v": 2} | claim_of(query, reply))
    return line if len(line) < LONG else None


def line_of(message):
    return json.dumps(message, separators=(",", ":"), ensure_ascii=False).encode()


def a_second_earlier(claim):
    """A claim whose journey arrives a second earlier; or None where there is none, or it arrives at 0:00:00."""
    message = json.loads(claim)
    if message["arrives"] in (None, "00:00:00"):
        return None
    return line_of(message | {"arrives": time_text(seconds_of(message["arrives"], 0) - 1)})


def run_check(program, folder, date, lines):
    """What `check` writes to these lines, line by line."""
    words = [program, "check", folder, "--from", date]
    done = subprocess.run(words, input=b"".join(line + b"\n" for line in lines), capture_output=True)
    if done.returncode or done.stderr:
        raise SystemExit(f"{program} ended with status {done.returncode}: {done.stderr.decode(errors='replace')}")
    return done.stdout.splitlines()
