"""Sections 1 and 2 of docs/MODEL.md for tools/plain_program.py: the trains of a feed, and what no message changes."""

import csv
import itertools
from dataclasses import dataclass, field
from datetime import date, timedelta

from plain_zone import UTC, bases, read_zone

MONDAY = date(2026, 1, 5)
WEEKDAYS = ("monday", "tuesday", "wednesday", "thursday", "friday", "saturday", "sunday")


@dataclass(eq=False)
class Event:
    """An arrival, which is open where passengers may alight, or a departure, which is open where they may board.

    Times are seconds from the base of service day 0.
    """

    train: "Train"
    label: int
    stop: str
    kind: str
    scheduled: int
    is_open: bool
    live: bool = True
    forecast: int | None = None
    report: int | None = None

    def key(self):
        return self.scheduled, self.train.number, self.label, self.kind == "dep"

    def name(self):
        """How lines and replies name the event."""
        return self.train.name() | {"call": self.label, "event": self.kind}

    def day_time(self, time):
        """The text of a time on the service day of the train."""
        return time_text(time - self.train.base)


@dataclass(eq=False)
class Train:
    """A trip on one service day, which begins at its base, with the two events of each of its calls in its order."""

    number: int
    trip: str
    route: str
    date: str
    base: int
    events: list[Event] = field(default_factory=list)
    next_label: int = 0

    def name(self):
        return {"trip": self.trip, "date": self.date}

    def new_calls(self, calls):
        """The live events of new calls. A call is a stop, and for each of its events a time and if it is open."""
        for label, (stop, *events) in enumerate(calls, self.next_label):
            for kind, (time, is_open) in zip(("arr", "dep"), events):
                yield Event(self, label, stop, kind, time, is_open)

    def begin(self, calls):
        """The train gets its first calls. It does not arrive at the first nor depart from the last."""
        self.events = list(self.new_calls(calls))
        self.next_label = len(calls)
        self.events[0].live = self.events[-1].live = False


def seconds_of(text, base):
    """The seconds of a time text on the service day of a base."""
    hours, minutes, seconds = map(int, text.split(":"))
    return base + 3600 * hours + 60 * minutes + seconds


def time_text(seconds):
    return f"{seconds // 3600:02}:{seconds // 60 % 60:02}:{seconds % 60:02}"


def date_text(day, first=MONDAY):
    """The text of a service day, counted from the first one."""
    return (first + timedelta(days=day)).strftime("%Y%m%d")


def runs(service, today, calendar, exceptions):
    """Whether a service runs on a date."""
    exception = exceptions.get((service, today.strftime("%Y%m%d")))
    if exception:
        return exception["exception_type"] == "1"
    row = calendar.get(service)
    weekday, today = WEEKDAYS[today.weekday()], today.strftime("%Y%m%d")
    return row is not None and row[weekday] == "1" and row["start_date"] <= today <= row["end_date"]


def timed_call(row, base):
    """The call of a row with a time; one that is empty is the other."""
    times = row["arrival_time"] or row["departure_time"], row["departure_time"] or row["arrival_time"]
    are_open = (int(row.get(column) or 0) != 1 for column in ("drop_off_type", "pickup_type"))
    return row["stop_id"], *zip((seconds_of(time, base) for time in times), are_open)


class Feed:
    """The tables of a folder, and the loaded days, which begin as the zone of a text has them."""

    def __init__(self, folder, days, default_change, first=MONDAY, zone=UTC):
        self.folder, self.days, self.default_change, self.first = folder, days, default_change, first
        self.dates = [date_text(day, first) for day in range(days)]
        # The base of each loaded day by its date.
        self.bases = dict(zip(self.dates, bases(read_zone(zone), first, days)[0]))
        self.stops = {row["stop_id"]: row for row in self.rows("stops.txt")}
        self.transfers = [row for row in self.rows("transfers.txt") if self.is_general(row)]
        self.rules = self.rows("waiting_rules.txt")
        self.routes = {row["route_id"] for row in self.rows("trips.txt")}
        for row in self.rules:
            self.routes |= {row["feeder_route_id"], row["connecting_route_id"]} - {""}
        # The change time from a stop to another in seconds, or None.
        self.changes = {pair: self.change(*pair) for pair in itertools.product(self.stops, self.stops)}

    def rows(self, name):
        """The rows of a table, each by column; a table that is not there has no rows."""
        path = self.folder / name
        return list(csv.DictReader(path.read_text().splitlines())) if path.exists() else []

    def trains(self):
        """The first state: the loaded days in order, and for each the trips in order."""
        calendar = {row["service_id"]: row for row in self.rows("calendar.txt")}
        exceptions = {(row["service_id"], row["date"]): row for row in self.rows("calendar_dates.txt")}
        calls = sorted(self.rows("stop_times.txt"), key=lambda row: int(row["stop_sequence"]))
        trains = []
        for (day, date), trip in itertools.product(enumerate(self.dates), self.rows("trips.txt")):
            rows = [row for row in calls if row["trip_id"] == trip["trip_id"]]
            timed = [timed_call(row, self.bases[date]) for row in rows if row["arrival_time"] or row["departure_time"]]
            if timed and runs(trip["service_id"], self.first + timedelta(days=day), calendar, exceptions):
                trains.append(Train(len(trains), trip["trip_id"], trip["route_id"], date, self.bases[date]))
                trains[-1].begin(timed)
        return trains

    def place_type(self, place):
        return self.stops[place].get("location_type") or "0"

    def is_stop(self, place):
        """Whether trains call at a place."""
        return place in self.stops and self.place_type(place) == "0"

    def station(self, place):
        parent = self.stops[place].get("parent_station")
        return parent if parent and self.place_type(place) == "0" else place

    def is_general(self, row):
        """Whether a row of transfers.txt is not passed over."""
        trip_columns = ("from_route_id", "to_route_id", "from_trip_id", "to_trip_id")
        places = (row["from_stop_id"], row["to_stop_id"])
        return (
            not any(row.get(column) for column in trip_columns)
            and all(place and self.place_type(place) in ("0", "1") for place in places)
            and int(row["transfer_type"] or 0) <= 3
        )

    def change(self, a, b):
        """The change time from place a to place b in seconds, or None where no change is possible."""
        for pair in ((a, b), (a, self.station(b)), (self.station(a), b), (self.station(a), self.station(b))):
            for row in self.transfers:
                if (row["from_stop_id"], row["to_stop_id"]) == pair:
                    if int(row["transfer_type"] or 0) == 3:
                        return None
                    if int(row["transfer_type"] or 0) == 2 and row.get("min_transfer_time"):
                        return max(1, int(row["min_transfer_time"]))
                    return self.default_change
        return self.default_change if self.station(a) == self.station(b) else None

    def wait(self, feeder_route, connecting_route, stop):
        """How long a departure of a route from a stop waits for a feeder of another route, in seconds."""
        for row in self.rules:
            if (
                row["feeder_route_id"] in ("", feeder_route)
                and row["connecting_route_id"] in ("", connecting_route)
                and row["stop_id"] in ("", stop, self.station(stop))
            ):
                return int(row["max_wait"])
        return 0
