"""The feed, the input and the summary of `traind gen` as docs/FORMATS.md has them."""

import json

from plain_draw import HEADERS
from plain_feed import MONDAY, date_text, time_text
from plain_program import DEFAULTS, Plain
from plain_tables import CheckedFeed, Tables

CALLS = range(4)


def arrival(train, call):
    return 14_400 + 60 * (train % 1_200) + 660 * call


def stop(train, call):
    return f"S{(7 * train + 10 * call) % 100}"


def tables_of(trains):
    """The texts of the tables for so many trains."""
    calls = [(train, call, arrival(train, call)) for train in trains for call in CALLS]
    rows = {
        "stops.txt": ["stop_id", *(f"S{number}" for number in range(100))],
        "trips.txt": ["route_id,service_id,trip_id", *(f"R,ALL,G{train}" for train in trains)],
        "stop_times.txt": [
            "trip_id,arrival_time,departure_time,stop_id,stop_sequence",
            *(f"G{i},{time_text(time)},{time_text(time + 60)},{stop(i, j)},{j}" for i, j, time in calls),
        ],
        "calendar.txt": [HEADERS["calendar.txt"], "ALL,1,1,1,1,1,1,1,20260101,20261231"],
        "waiting_rules.txt": [HEADERS["waiting_rules.txt"], ",,,120"],
    }
    return {name: "".join(row + "\n" for row in table) for name, table in rows.items()}


def messages_of(trains):
    """What the lines of the input say."""
    day, flush = {"date": date_text(0)}, {"type": "flush"}
    for k in trains:
        time = time_text(arrival(k, 1) + 60 * ((k + 1) % 16))
        yield {"type": "forecast", "trip": f"G{k}", "call": 1, "event": "arr", "time": time} | day
        if k % 100 == 99 or k == trains[-1]:
            ends = {"client": "q", "from": stop(k, 0), "to": stop(k, 3)}
            yield from (flush, {"type": "query", "time": "04:00:00"} | ends | day, flush)


def summary(number):
    """The line that `gen` writes for so many trains."""
    trains, tables = range(number), tables_of(range(number))
    read = Tables(lambda name: tables[name].encode() if name in tables else None)
    plain = Plain(None, {}, CheckedFeed(read, DEFAULTS, MONDAY))
    replies = [plain.taken(message) for message in messages_of(trains)]
    changed = [reply["changed"] for reply in replies if "changed" in reply]
    queries = [reply for reply in replies if "arrives" in reply]
    journeys = [reply["rides"].arrives for reply in queries if reply["arrives"]]
    counts = {"lines": len(replies), "trains": number, "refused": 0, "bad": 0, "accepted": len(changed)}
    sums = {"changed": sum(changed), "queries": len(queries), "found": len(journeys), "arrivals": sum(journeys)}
    return json.dumps(counts | sums, separators=(",", ":"), sort_keys=True) + "\n"
