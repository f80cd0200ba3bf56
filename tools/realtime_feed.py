"""What tools/realtime needs of a feed folder: trips and their calls, stops, routes, services, and service days.

The feed is one that `traind` accepts; its faults are not looked for. The calls of a trip
are read when it is first asked for.
"""

import csv
from collections import defaultdict
from datetime import date, timedelta

from plain_feed import WEEKDAYS, runs, seconds_of
from plain_zone import DAY, read_zone, west

EPOCH = date(1970, 1, 1)
# A time text has up to 99 hours.
TIMES = 100 * 3600
NEEDED = ("stops.txt", "trips.txt", "stop_times.txt")


class FeedFault(Exception):
    """The feed cannot be read; the text says why."""


class Calls:
    """The calls of a trip: the number of a call by its `stop_sequence`, its stop, and when its events are scheduled.

    Those without a time are none; `untimed` has their stops by `stop_sequence`.

    Event 2 i is the arrival at call i and 2 i + 1 the departure from it; times are seconds of the service day.
    """

    __slots__ = ("sequences", "stops", "scheduled", "untimed")

    def __init__(self, sequences, stops, scheduled, untimed=None):
        self.sequences, self.stops, self.scheduled, self.untimed = sequences, stops, scheduled, untimed or {}


class Schedule:
    """The feed of a folder on its loaded days."""

    def __init__(self, folder, first, days, zone_text):
        self.folder, zone = folder, read_zone(zone_text)
        dates = [first + timedelta(days=day) for day in range(days)]
        self.days = {f"{day:%Y%m%d}": day for day in dates}
        # When each loaded service day begins, as a POSIX time.
        self.bases = {text: DAY * (day - EPOCH).days + west(zone, day) for text, day in self.days.items()}
        if not folder.is_dir():
            is_there = "is no folder; tools/feed makes one of an archive" if folder.exists() else "is not there"
            raise FeedFault(f"{folder} {is_there}")
        try:
            self.read()
        except OSError as fault:
            raise FeedFault(str(fault)) from fault
        except (LookupError, ValueError, csv.Error) as fault:
            raise FeedFault(f"{folder}: {fault!r}") from fault

    def read(self):
        self.stops = {row[0] for row in self.rows("stops.txt", "stop_id", "location_type") if row[1] in ("", "0")}
        self.trips = {row[0]: row[1:] for row in self.rows("trips.txt", "trip_id", "route_id", "service_id")}
        self.routes = {route for route, _ in self.trips.values()}
        for routes in self.rows("waiting_rules.txt", "feeder_route_id", "connecting_route_id"):
            self.routes |= {*routes} - {""}
        columns = ("trip_id", "stop_sequence", "stop_id", "arrival_time", "departure_time")
        self.stop_times, self.calls = defaultdict(list), {}
        for trip, *row in self.rows("stop_times.txt", *columns):
            self.stop_times[trip].append(row)
        self.calendar = self.table("calendar.txt", 1)
        self.exceptions = self.table("calendar_dates.txt", 2)
        self.running = {}

    def open(self, name):
        path = self.folder / name
        if not path.exists() and name not in NEEDED:
            return
        try:
            with path.open(encoding="utf-8-sig", newline="") as file:
                yield from (row for row in csv.reader(file) if row)
        except UnicodeDecodeError:
            raise FeedFault(f"{self.folder}: {name} is not UTF-8; tools/feed makes a folder of it") from None

    def rows(self, name, *columns):
        """The fields of these columns of each row of a table; those of a column that is not there are empty."""
        table = self.open(name)
        header = [field.strip(" \t") for field in next(table, ())]
        places = [header.index(column) if column in header else None for column in columns]
        for row in table:
            yield ["" if place is None else row[place].strip(" \t") for place in places]

    def table(self, name, keys):
        """The rows of a calendar by their first one or two columns."""
        columns = {1: ["service_id", *WEEKDAYS, "start_date", "end_date"], 2: ["service_id", "date", "exception_type"]}
        rows = (dict(zip(columns[keys], row)) for row in self.rows(name, *columns[keys]))
        return {row["service_id"] if keys == 1 else (row["service_id"], row["date"]): row for row in rows}

    def is_there(self, trip, day):
        """Whether the program has a train of a trip on a loaded day."""
        if trip not in self.trips or day not in self.bases or not self.calls_of(trip):
            return False
        service = self.trips[trip][1]
        if (service, day) not in self.running:
            self.running[service, day] = runs(service, self.days[day], self.calendar, self.exceptions)
        return self.running[service, day]

    def calls_of(self, trip):
        """The calls of a trip, or None where it has none."""
        if trip not in self.calls:
            try:
                rows = sorted(self.stop_times.pop(trip, ()), key=lambda row: int(row[0]))
                self.calls[trip] = self.read_calls(rows)
            except ValueError as fault:
                raise FeedFault(f"{self.folder}, trip {trip}: {fault}") from fault
        return self.calls[trip]

    def read_calls(self, rows):
        timed = [row for row in rows if row[2] or row[3]]
        if not timed:
            return None
        times = [seconds_of(time, 0) for row in timed for time in (row[2] or row[3], row[3] or row[2])]
        sequences = {int(row[0]): call for call, row in enumerate(timed)}
        untimed = {int(row[0]): row[1] for row in rows if not (row[2] or row[3])}
        return Calls(sequences, [row[1] for row in timed], times, untimed)

    def day_of(self, time):
        """The last loaded day that begins not after a POSIX time; or the first one."""
        return max((day for day, base in self.bases.items() if base <= time), default=min(self.bases))

    def nearest_day(self, trip, time):
        """Of the loaded days on which a trip runs the one on which it runs nearest to a POSIX time; or None."""
        days = [day for day in self.bases if self.is_there(trip, day)]
        if len(days) < 2 or time is None:
            return days[0] if days else None
        begin, *_, end = self.calls_of(trip).scheduled
        return min(days, key=lambda day: max(self.bases[day] + begin - time, time - self.bases[day] - end, 0))
