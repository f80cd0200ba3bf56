"""What tools/diagram reads of a feed and of lines: stations with their names, and trains with all calls of theirs."""

import csv
import math
from dataclasses import dataclass, field
from datetime import datetime, timedelta
from typing import NamedTuple

from plain_feed import runs, seconds_of, timed_call
from plain_zone import bases, read_zone

UNKNOWN_TIME = 300  # from a station to the next one of a line, where no train goes straight from one to the other


class Unknown(Exception):
    """A name that nothing in the feed has."""


class Call(NamedTuple):
    """A call as it is scheduled, and whether passengers may board."""

    stop: str
    arr: int
    dep: int
    boards: bool = True


@dataclass
class Train:
    """A trip on a service day: its calls by their labels, and its last call at first.

    Its legs are the pairs of labels from one call to the next, those that were given up too.
    """

    trip: str
    date: str
    route: str
    base: int
    calls: dict = field(default_factory=dict)
    legs: list = field(default_factory=list)
    last: int = 0

    def add_calls(self, calls):
        """Gives new calls the next labels, and answers these."""
        labels = [len(self.calls) + place for place in range(len(calls))]
        self.calls.update(zip(labels, calls))
        return labels


def rows_of(folder, name):
    """The rows of a table, each by column; a table that is not there has none."""
    path = folder / name
    if not path.exists():
        return []
    with path.open(encoding="utf-8-sig", newline="") as table:
        return list(csv.DictReader(table))


class Feed:
    """The stations of a folder, and the trains of its loaded days by trip and date."""

    def __init__(self, folder, first, days, zone):
        self.stops = {row["stop_id"]: row for row in rows_of(folder, "stops.txt")}
        start = datetime.strptime(first, "%Y%m%d").date()
        dates = [start + timedelta(days=day) for day in range(days)]
        self.bases = dict(zip((day.strftime("%Y%m%d") for day in dates), bases(read_zone(zone), start, days)[0]))
        self.first, self.trains, self.least = first, {}, {}
        calls = {}
        for row in sorted(rows_of(folder, "stop_times.txt"), key=lambda row: int(row["stop_sequence"])):
            calls.setdefault(row["trip_id"], []).append(row)
        calendar = {row["service_id"]: row for row in rows_of(folder, "calendar.txt")}
        exceptions = {(row["service_id"], row["date"]): row for row in rows_of(folder, "calendar_dates.txt")}
        trips = rows_of(folder, "trips.txt")
        for day in dates:
            for trip in trips:
                if runs(trip["service_id"], day, calendar, exceptions):
                    self.add_trip(trip, day.strftime("%Y%m%d"), calls.get(trip["trip_id"], []))

    def add_trip(self, trip, date, rows):
        """A trip on a day; a row without a time is no call."""
        timed = [timed_call(row, self.bases[date]) for row in rows if row["arrival_time"] or row["departure_time"]]
        calls = [Call(stop, arr, dep, boards) for stop, (arr, _), (dep, boards) in timed]
        self.add_train(trip["trip_id"], date, trip["route_id"], calls)

    def add_train(self, trip, date, route, calls):
        train = Train(trip, date, route, self.bases[date])
        labels = train.add_calls(calls)
        train.legs, train.last = list(zip(labels, labels[1:])), labels[-1]
        self.trains[trip, date] = train

    def take(self, message):
        """What an accepted message adds to the calls that trains ever had: those of extra trains and reroutings."""
        kind, base = message["type"], self.bases.get(message.get("date"))
        if kind not in ("extra", "reroute"):
            return
        said = message["calls" if kind == "extra" else "via"]
        calls = [Call(it["stop"], *(seconds_of(it[kind], base) for kind in ("arr", "dep"))) for it in said]
        if kind == "extra":
            self.add_train(message["trip"], message["date"], message["route"], calls)
        else:
            train = self.trains[message["trip"], message["date"]]
            way = [message["from"], *train.add_calls(calls), message["to"]]
            train.legs += zip(way, way[1:])

    def station(self, stop):
        """The station of a stop, which is the stop itself where it has none."""
        row = self.stops[stop]
        parent = row.get("parent_station")
        return parent if parent and (row.get("location_type") or "0") == "0" else stop

    def name(self, place):
        return self.stops[place].get("stop_name") or place

    def platform(self, stop):
        """What the name of a stop says beside that of its station; nothing where it is the station itself."""
        station = self.station(stop)
        if station == stop:
            return self.stops[stop].get("platform_code") or ""
        name, whole = self.name(stop), self.name(station)
        return self.stops[stop].get("platform_code") or name.removeprefix(whole).strip(" ,-:") or name

    def find_station(self, text):
        """The station of an id, or of a name that one station has."""
        if text in self.stops:
            return self.station(text)
        found = {self.station(stop) for stop in self.stops if self.name(stop) == text}
        if len(found) != 1:
            raise Unknown(f"{text!r} is {'no' if not found else 'the name of more than one'} station")
        return found.pop()

    def least_minutes(self, station, other):
        """The least scheduled running time between two stations that some train serves one after the other, or 5."""
        if not self.least:
            for train in self.trains.values():
                calls = list(train.calls.values())
                for a, b in zip(calls, calls[1:]):
                    pair = frozenset((self.station(a.stop), self.station(b.stop)))
                    self.least[pair] = min(self.least.get(pair, math.inf), max(60, b.arr - a.dep))
        return self.least.get(frozenset((station, other)), UNKNOWN_TIME) / 60
