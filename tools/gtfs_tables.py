"""The checks of the tables of a GTFS source for tools/feed, and what is to be changed in each.

Each table is read row by row. Kept are the ids of places, services and trips, and of
each row of stop_times.txt five numbers. What the checks find is written down by the
number of the row; tools/feed reads the tables a second time and writes them.
"""

import itertools
import re
from array import array
from collections import Counter, defaultdict
from datetime import date

from gtfs_report import Fault
from gtfs_source import Table

WEEKDAYS = ("monday", "tuesday", "wednesday", "thursday", "friday", "saturday", "sunday")
# The columns that traind reads: those that must be there, and those that may be absent.
READ = {
    "stops.txt": (("stop_id",), ("location_type", "parent_station")),
    "trips.txt": (("route_id", "service_id", "trip_id"), ()),
    "stop_times.txt": (
        ("trip_id", "arrival_time", "departure_time", "stop_id", "stop_sequence"),
        ("pickup_type", "drop_off_type"),
    ),
    "calendar.txt": (("service_id", *WEEKDAYS, "start_date", "end_date"), ()),
    "calendar_dates.txt": (("service_id", "date", "exception_type"), ()),
    "transfers.txt": (
        ("from_stop_id", "to_stop_id", "transfer_type"),
        ("min_transfer_time", "from_route_id", "to_route_id", "from_trip_id", "to_trip_id"),
    ),
    "waiting_rules.txt": (("feeder_route_id", "connecting_route_id", "stop_id", "max_wait"), ()),
}
# transfers.txt, from_stop_id and to_stop_id: optional where all rows are of type 4 or 5.
EMPTY = {"transfers.txt": ("from_stop_id", "to_stop_id")}
LONGEST = 268_435_456
MOST = {
    "stops.txt": (100_000, "stops"),
    "transfers.txt": (1_000_000, "transfers"),
    "waiting_rules.txt": (10_000, "rules"),
}
MOST_PAIRS, MOST_TRAINS, MOST_NODES = 4_000_000, 200_000, 2_000_000
MOST_WAIT = 86_400
LAST_SECOND = 99 * 3_600 + 59 * 60 + 59
TIME = re.compile("([0-9]{1,2}):([0-5][0-9]):([0-5][0-9])")
NO_TIME = -1
# The service days with which traind can begin, and those behind the last one that it can load.
FIRST_DAY, LAST_DAY = date(1900, 1, 1).toordinal(), date(2100, 12, 31).toordinal() + 30
NUMBER, TIMES, DATE, UNKNOWN, DUPLICATE = "bad number", "bad time", "bad date", "unknown reference", "duplicate key"
PASSED_OVER = "rows without a time between the ends of a trip: traind passes over them, and no train calls there"


def seconds_of(text):
    """The seconds of a time, or None where the text is none.

    GTFS Schedule, Field Types, Time: HH:MM:SS or H:MM:SS, past 24:00:00 for a train that runs on past midnight.
    """
    found = TIME.fullmatch(text)
    return int(found[1]) * 3_600 + int(found[2]) * 60 + int(found[3]) if found else None


def time_text(seconds):
    return f"{seconds // 3600:02}:{seconds // 60 % 60:02}:{seconds % 60:02}"


def is_number(text, most=999_999_999):
    """GTFS Schedule, Field Types, Non-negative Integer; traind reads one to nine digits."""
    return 0 < len(text) < 10 and text.isascii() and text.isdigit() and int(text) <= most


def day_of(text):
    """The number of a day, or None where the text is no date. GTFS Schedule, Field Types, Date: YYYYMMDD."""
    if not (len(text) == 8 and text.isascii() and text.isdigit()):
        return None
    year, month, day = int(text[:4]), int(text[4:6]), int(text[6:])
    try:
        # The year 0 is none of Python's; it has a leap day.
        return date(year, month, day).toordinal() if year else date(2000, month, day).toordinal() - 730_500
    except ValueError:
        return None


def day_text(day):
    return f"{date.fromordinal(day):%Y%m%d}"


class Checked:
    """The tables of a source, checked one after the other, and what is to be changed in them."""

    def __init__(self, source, choice, report):
        self.source, self.choice, self.report = source, choice, report
        # By table, the rows that are left out; and the tables themselves.
        self.left, self.tables, self.counts = defaultdict(set), {}, {}
        # A table that cannot be read is a fault of its own, and what depends on it is not looked at.
        self.unread = set()
        for take in (
            self.take_stops, self.take_routes, self.take_calendar, self.take_calendar_dates, self.take_trips,
            self.take_frequencies, self.take_stop_times, self.take_transfers, self.take_rules,
        ):  # fmt: skip
            try:
                take()
            except Fault as fault:
                report.fault_of(fault)
                self.unread.add(fault.place[0])

    def table(self, name, is_needed=False):
        """A table that traind reads, or None where it is not there and need not be."""
        if name not in self.source:
            if is_needed:
                like = [other for other in self.source.names if other.lower() == name]
                raise Fault(name, None, None, "missing table", f"{like[0]} is another name" if like else "")
            return None
        self.unread.add(name)
        if not is_needed and self.row_count(name, 1) == 0:
            self.report.change(name, "the table has no byte, not even a header, and is left out")
            self.unread.discard(name)
            return None
        table = Table(self.source, name, *READ[name], self.choice.encoding, EMPTY.get(name, ()))
        self.unread.discard(name)
        self.tables[name] = table
        for text in self.source.facts.get(name, ()):
            self.report.change(name, text)
        if table.made:
            self.report.change(name, f"columns that are not there are written empty: {', '.join(table.made)}")
        if table.left_out:
            self.report.change(name, f"columns left out: {', '.join(table.left_out)}")
        return table

    def row_count(self, name, most):
        """How many rows a table has, the header too, up to a number."""
        encoding, _ = self.source.kind(name, self.choice.encoding)
        return len([*itertools.islice(self.source.lists(name, encoding), most)])

    def rows(self, table):
        """The rows of a table; a row of another length is a fault. Those of a converted table are told."""
        name, count = table.name, 0

        def tell(row, fields):
            detail = f"{len(fields)} fields, and the header has {len(table.header)}"
            self.fault(name, row, f"field {len(fields)}", "wrong field count", detail)

        for row, values in table.rows(tell):
            count += 1
            if table.is_converted:
                for column, value in zip(table.columns, values):
                    if not value.isascii():
                        self.report.change(name, "values with other letters than ASCII", f"row {row} {column}: {value}")
            yield row, values
        self.counts[name] = count

    def fault(self, name, row, field, cause, detail=""):
        """A fault of a row; where that is told, the row is left out instead."""
        # Of which trip a row of stop_times.txt or frequencies.txt with another number of fields is, nobody can say.
        is_nameless = cause == "wrong field count" and name in ("stop_times.txt", "frequencies.txt")
        if name in self.choice.leave_out and not is_nameless:
            if row not in self.left[name]:
                self.left[name].add(row)
                self.report.change(name, "rows with a fault are left out", f"row {row} {field}: {cause}: {detail}")
        else:
            self.report.fault(name, row, field, cause, detail)

    # Where a row has a fault, its id is known all the same, so that what refers to it is no further fault.

    def take_stops(self):
        """stops.txt: the ids of places, and which of them are platforms of which station."""
        self.types, self.parents, self.stop_rows, self.names = {}, {}, {}, {}
        name = "stops.txt"
        table = self.table(name, is_needed=True)
        for row, (stop, kind, parent) in self.rows(table):
            # location_type: 0 or empty is a stop or platform, 1 a station, 2 to 4 entrances and other nodes.
            if kind not in ("", "0", "1", "2", "3", "4"):
                self.fault(name, row, "location_type", NUMBER, repr(kind))
                kind = "0"
            if row in self.left[name]:
                continue
            if stop in self.types:
                # File Requirements: stop_id is the primary key.
                self.fault(name, row, "stop_id", DUPLICATE, f"{stop!r} stands in row {self.stop_rows[stop]}")
            else:
                self.types[stop], self.parents[stop], self.stop_rows[stop] = kind or "0", parent, row
        for stop, parent in [*self.parents.items()]:
            # parent_station: that of a platform is a station, so of location_type 1.
            if parent and self.types[stop] == "0" and self.types.get(parent) != "1":
                row = self.stop_rows[stop]
                what = f"is of location_type {self.types[parent]}" if parent in self.types else "is no stop_id"
                self.fault(name, row, "parent_station", UNKNOWN, f"{parent!r} {what}")
                if row in self.left[name]:
                    del self.types[stop]
        self.members = defaultdict(list)
        for stop, kind in self.types.items():
            if kind == "0":
                self.members[self.station(stop)].append(stop)

    def station(self, place):
        """The station of a platform; any other place is its own."""
        return (self.types[place] == "0" and self.parents[place]) or place

    def take_routes(self):
        """routes.txt: which traind does not read; its names serve --wait."""
        self.routes, self.short_names = None, {}
        if "routes.txt" not in self.source:
            return
        try:
            table = Table(self.source, "routes.txt", ("route_id",), ("route_short_name",), self.choice.encoding)
            self.short_names = {route: short for _, (route, short) in table.rows()}
            self.routes = {*self.short_names}
        except Fault as fault:
            if self.choice.wait is not None:
                raise
            self.report.note("routes.txt", f"it cannot be read ({fault}), and traind does not read it")

    def take_calendar(self):
        """calendar.txt: for each service its weekdays, and its first and last day."""
        self.calendar, self.exceptions = {}, defaultdict(dict)
        name, rows_of = "calendar.txt", {}
        table = self.table(name)
        for row, (service, *days, start, end) in self.rows(table) if table else ():
            bad = next((column for column, day in zip(WEEKDAYS, days) if day not in ("0", "1")), None)
            ends = day_of(start), day_of(end)
            if bad:
                self.fault(name, row, bad, NUMBER, repr(days[WEEKDAYS.index(bad)]))
            elif None in ends:
                column, text = ("start_date", start) if ends[0] is None else ("end_date", end)
                self.fault(name, row, column, DATE, repr(text))
            if None in ends:
                ends = (1, 0)
            if row in self.left[name]:
                continue
            if service in self.calendar:
                self.fault(name, row, "service_id", DUPLICATE, f"{service!r} stands in row {rows_of[service]}")
            else:
                self.calendar[service], rows_of[service] = (tuple(day == "1" for day in days), *ends), row
                if ends[1] < ends[0]:
                    text = "services whose last day is before their first: they run on no weekday"
                    self.report.note(name, text, f"row {row} end_date: {service!r}")

    def take_calendar_dates(self):
        """calendar_dates.txt: single days. The reference wants one of the two tables at least."""
        name = "calendar_dates.txt"
        table = self.table(name)
        if table is None and "calendar.txt" not in self.tables and "calendar.txt" not in self.unread:
            raise Fault("calendar.txt", None, None, "missing table", "calendar_dates.txt is not there either")
        for row, (service, day, kind) in self.rows(table) if table else ():
            number = day_of(day)
            if number is None:
                self.fault(name, row, "date", DATE, repr(day))
                if row not in self.left[name]:
                    self.exceptions[service].setdefault(0, False)
            elif kind not in ("1", "2"):
                self.fault(name, row, "exception_type", NUMBER, repr(kind))
            elif number in self.exceptions.get(service, ()):
                # The primary key is the service with the date.
                self.fault(name, row, "date", DUPLICATE, f"{service!r} has {day} in a row before")
            else:
                self.exceptions[service][number] = kind == "1"

    def runs(self, service, day):
        """Whether a service runs on a day: what calendar_dates.txt says counts before calendar.txt."""
        exception = self.exceptions.get(service, {}).get(day)
        if exception is not None:
            return exception
        days, start, end = self.calendar.get(service, (None, 1, 0))
        return start <= day <= end and days[(day - 1) % 7]

    def take_trips(self):
        """trips.txt: trips, each with its service and its route. Those that go are in `gone`."""
        self.trips, self.trip_rows, self.services, self.used_routes = {}, array("I"), [], Counter()
        self.gone, self.no_trips = set(), set()
        name = "trips.txt"
        table = self.table(name, is_needed=True)
        has_calendars = not self.unread & {"calendar.txt", "calendar_dates.txt"}
        running = {}
        for row, (route, service, trip) in self.rows(table):
            if trip in self.trips:
                other = self.trip_rows[self.trips[trip]]
                self.fault(name, row, "trip_id", DUPLICATE, f"{trip!r} stands in row {other}")
                continue
            number = self.trips[trip] = len(self.services)
            self.services.append(service)
            self.trip_rows.append(row)
            self.used_routes[route] += 1
            if self.routes is not None and route not in self.routes:
                text = "routes that are not in routes.txt: traind does not look there"
                self.report.note(name, text, f"row {row} route_id: {route!r}")
            # service_id: a row of calendar.txt or calendar_dates.txt.
            if has_calendars and service not in self.calendar and service not in self.exceptions:
                detail = f"{service!r} is in neither calendar, so {trip!r} never runs"
                self.fault(name, row, "service_id", UNKNOWN, detail)
                if row in self.left[name]:
                    self.gone.add(number)
            elif self.choice.trim:
                if service not in running:
                    running[service] = any(self.runs(service, day) for day in self.choice.loaded)
                if not running[service]:
                    text = "trips that run on none of the days of --from and --days are left out"
                    self.report.change(name, text, f"row {row} trip_id: {trip!r}")
                    self.gone.add(number)

    def take_frequencies(self):
        """frequencies.txt: for each of its trips the starts of the trips that are made of it.

        The times of such a trip in stop_times.txt are only the lengths of its runs and stops. start_time: when the
        first one departs from the first stop. headway_secs: from one departure there to the next. end_time: behind
        the last one. exact_times: 1 means that the trips run at just these times, 0 that they run about so often.
        """
        self.starts, name = {}, "frequencies.txt"
        if name not in self.source:
            return
        if self.row_count(name, 2) < 2:
            self.report.change(name, "the table has no rows, and is left out")
            return
        columns = ("trip_id", "start_time", "end_time", "headway_secs")
        table = Table(self.source, name, columns, ("exact_times",), self.choice.encoding)
        ranges = defaultdict(list)
        for row, (trip, start_text, end_text, headway, is_exact) in self.rows(table):
            start, end = seconds_of(start_text), seconds_of(end_text)
            if "trips.txt" in self.unread:
                continue
            if trip not in self.trips:
                self.fault(name, row, "trip_id", UNKNOWN, f"{trip!r} is not in trips.txt")
                continue
            ranges[trip]
            if start is None or end is None:
                column, text = ("start_time", start_text) if start is None else ("end_time", end_text)
                self.fault(name, row, column, TIMES, repr(text))
            elif end <= start:
                self.fault(name, row, "end_time", "backwards times", f"{end_text} is not behind {start_text}")
            elif not is_number(headway) or int(headway) == 0:
                self.fault(name, row, "headway_secs", NUMBER, f"{headway!r} is no number of seconds from 1 on")
            elif is_exact not in ("", "0", "1"):
                self.fault(name, row, "exact_times", NUMBER, repr(is_exact))
            else:
                if is_exact != "1":
                    text = "rows whose trips run about so often (exact_times 0 or empty) are taken as exact times too"
                    self.report.change(name, text, f"row {row} exact_times")
                ranges[trip].append((start, end, int(headway), row))
        for trip, of_trip in ranges.items():
            of_trip.sort()
            last = None
            for start, end, headway, row in of_trip:
                # The ranges of a trip may touch; they may not overlap.
                if last and start < last[1]:
                    text = f"{time_text(start)} is before the end of row {last[3]}, {time_text(last[1])}"
                    self.fault(name, row, "start_time", "overlapping ranges", text)
                if row not in self.left[name] and (not last or end > last[1]):
                    last = start, end, headway, row
            kept = [part for part in of_trip if part[3] not in self.left[name]]
            starts = [start for begin, end, headway, _ in kept for start in range(begin, end, headway)]
            self.starts[self.trips[trip]] = array("i", starts)
            if self.trips[trip] not in self.gone:
                self.tell_frequency(trip, starts)
        self.report.change(name, "the table is left out, since its trips are made")

    def tell_frequency(self, trip, starts):
        """Says which trips are made; their names must be free."""
        name, row = "frequencies.txt", self.trip_rows[self.trips[trip]]
        names = [made_name(trip, start) for start in starts]
        for made in names:
            if made in self.trips:
                other = self.trip_rows[self.trips[made]]
                self.report.fault("trips.txt", other, "trip_id", DUPLICATE, f"{made!r} is a trip made of row {row} too")
        some = f"{len(names):,} trips, {names[0]} to {names[-1]}" if names else "no trip"
        text = "trips of frequencies are made into trips"
        self.report.change(name, text, f"trips.txt row {row} trip_id {trip}: {some}")

    def take_stop_times(self):
        """stop_times.txt: the calls. Which rows are cut off, and which get a time."""
        self.cut, self.filled, self.first_departures = set(), {}, {}
        self.calls, self.called = array("I"), set()
        name = "stop_times.txt"
        table = self.table(name, is_needed=True)
        if self.unread & {"trips.txt", "stops.txt", "frequencies.txt"}:
            return
        self.calls = array("I", bytes(4 * len(self.services)))
        self.rows_of = array("I", bytes(4 * len(self.services)))
        columns = trips, sequences, arrivals, departures, rows = [array(kind) for kind in "IIiiI"]
        times, types, numbers = {"": NO_TIME}, self.types, {}
        for row, (trip, arrival, departure, stop, sequence, pickup, drop_off) in self.rows(table):
            number = self.trips.get(trip)
            if number is None:
                self.fault(name, row, "trip_id", UNKNOWN, f"{trip!r} is not in trips.txt")
                continue
            if number in self.gone:
                continue
            self.rows_of[number] += 1
            got = []
            for column, text in (("arrival_time", arrival), ("departure_time", departure)):
                time = times.get(text)
                if time is None:
                    time = seconds_of(text)
                    if time is None:
                        self.trip_fault(number, row, column, TIMES, repr(text))
                        break
                    times[text] = time
                got.append(time)
            # stop_id: trains call at a place of location_type 0.
            if types.get(stop) != "0":
                what = f"is of location_type {types[stop]}" if stop in types else "is not in stops.txt"
                self.trip_fault(number, row, "stop_id", UNKNOWN, f"{stop!r} {what}")
                continue
            # stop_sequence: a number that rises along the trip, and need not be the next one.
            place = numbers.get(sequence)
            if place is None:
                if not is_number(sequence):
                    self.trip_fault(number, row, "stop_sequence", NUMBER, repr(sequence))
                    continue
                place = int(sequence)
                if place < 10_000:
                    numbers[sequence] = place
            for column, text in (("pickup_type", pickup), ("drop_off_type", drop_off)):
                if text not in ("", "0", "1", "2", "3") and not is_number(text):
                    self.trip_fault(number, row, column, NUMBER, repr(text))
            if len(got) == 2:
                for column, value in zip(columns, (number, place, *got, row)):
                    column.append(value)
            self.called.add(stop)
        self.columns = columns
        for number, places in runs_of(trips):
            if number not in self.gone:
                self.check_trip(number, places)
        self.tell_rest()

    def trip_fault(self, number, row, field, cause, detail=""):
        """A fault of a trip; where that is told, the whole trip is left out instead."""
        if "stop_times.txt" not in self.choice.leave_out:
            self.report.fault("stop_times.txt", row, field, cause, detail)
        elif number not in self.gone:
            self.gone.add(number)
            text = f"row {row} {field}: {cause}: {detail}; trips.txt row {self.trip_rows[number]}"
            self.report.change("stop_times.txt", "trips with a fault are left out", text)

    def check_trip(self, number, places):
        """Checks the calls of a trip, which are at these places of the columns."""
        _, sequences, arrivals, departures, rows = self.columns
        before = 0
        for place in places:
            if sequences[place] < before:
                places = sorted(places, key=lambda place: (sequences[place], rows[place]))
                break
            before = sequences[place]
        for one, other in zip(places, places[1:]):
            if sequences[one] == sequences[other]:
                # The primary key is the trip with the stop_sequence.
                detail = f"{sequences[one]} stands in row {rows[one]} for this trip"
                return self.trip_fault(number, rows[other], "stop_sequence", DUPLICATE, detail)
        if self.rows_of[number] != len(places):
            return None  # one of its rows has a fault that was told
        if len(places) == 1:
            detail = "a trip with one call is no train"
            return self.trip_fault(number, rows[places[0]], "trip_id", "too few calls", detail)
        timed = [place for place in places if arrivals[place] != NO_TIME or departures[place] != NO_TIME]
        calls = [(rows[place], *self.times(place)) for place in timed]
        if len(timed) < len(places):
            calls = self.timed_calls(number, list(places), timed, calls)
        last = 0
        for row, arrival, departure in calls or ():
            if arrival < last or departure < arrival:
                pair = ("arrival_time", arrival, last) if arrival < last else ("departure_time", departure, arrival)
                detail = f"{time_text(pair[1])} is before {time_text(pair[2])}"
                return self.trip_fault(number, row, pair[0], "backwards times", detail)
            last = departure
        if calls:
            self.calls[number] = len(calls)
            self.check_made(number, calls)
        return None

    def check_made(self, number, calls):
        """The trips that are made of one with frequencies leave their first stop at their starts."""
        starts = self.starts.get(number)
        if starts:
            (first_row, arrival, departure), (last_row, _, end) = calls[0], calls[-1]
            self.first_departures[number] = departure
            if min(starts) - departure + arrival < 0:
                detail = f"the trip made for {time_text(min(starts))} would arrive before 00:00:00"
                self.trip_fault(number, first_row, "arrival_time", TIMES, detail)
            elif max(starts) - departure + end > LAST_SECOND:
                detail = f"the trip made for {time_text(max(starts))} would end behind {time_text(LAST_SECOND)}"
                self.trip_fault(number, last_row, "departure_time", TIMES, detail)

    def times(self, place):
        """The arrival and the departure of a row; one that is empty is the other."""
        arrival, departure = self.columns[2][place], self.columns[3][place]
        return arrival if arrival != NO_TIME else departure, departure if departure != NO_TIME else arrival

    def timed_calls(self, number, places, timed, calls):
        """The calls of a trip that has rows without a time, when its ends are cut off or filled; or None for a fault.

        arrival_time, departure_time: required for the first and the last stop of a trip.
        """
        rows, name, way = self.columns[4], "stop_times.txt", self.choice.ends
        if not timed:
            detail = "no row of the trip has a time"
            return self.trip_fault(number, rows[places[0]], "departure_time", "untimed end", detail)
        begin, end = places.index(timed[0]), places.index(timed[-1])
        before, behind = places[:begin], places[end + 1 :]
        if way is None and before + behind:
            place, column = (before[0], "departure_time") if before else (behind[-1], "arrival_time")
            detail = "the first and the last call of a trip have a time; --ends says what is done where they have none"
            return self.trip_fault(number, rows[place], column, "untimed end", detail)
        if way == "cut":
            if len(timed) < 2:
                detail = "one call has a time, and one call is no train"
                return self.trip_fault(number, rows[timed[0]], "trip_id", "too few calls", detail)
            for place in before + behind:
                self.cut.add(rows[place])
                self.report.change(name, "calls without a time at the ends of trips are cut off", f"row {rows[place]}")
            before, behind = [], []
        made = [(rows[place], calls[0][1] - way * steps) for steps, place in zip(range(len(before), 0, -1), before)]
        made += [(rows[place], calls[-1][2] + way * steps) for steps, place in enumerate(behind, 1)]
        for row, time in made:
            if not 0 <= time <= LAST_SECOND:
                detail = f"its time would be {time} seconds from the beginning of the day"
                return self.trip_fault(number, row, "departure_time", TIMES, detail)
        for row, time in made:
            self.filled[row] = time
            text = f"calls without a time at the ends of trips are filled, with {way} seconds from call to call"
            self.report.change(name, text, f"row {row} arrival_time, departure_time: {time_text(time)}")
        is_timed = {*timed}
        for place in places[begin:end]:
            if place not in is_timed:
                self.report.note(name, PASSED_OVER, f"row {rows[place]} arrival_time, departure_time")
        made = [(row, time, time) for row, time in made]
        return made[: len(before)] + calls + made[len(before) :]

    def tell_rest(self):
        """What is told when all trips are checked: those without calls."""
        empty = [number for number, calls in enumerate(self.rows_of) if not calls and number not in self.gone]
        names = dict.fromkeys(empty)
        if empty:
            for trip, number in self.trips.items():
                if number in names:
                    text = "trips without calls: they give no train"
                    self.report.note("trips.txt", text, f"row {self.trip_rows[number]} trip_id: {trip!r}")

    def take_transfers(self):
        """transfers.txt: the rows that can make a change possible, or not, by the place from which they lead."""
        self.changes, name = defaultdict(list), "transfers.txt"
        table = self.table(name)
        if "stops.txt" in self.unread:
            return
        for row, (start, to, kind, seconds, *limits) in self.rows(table) if table else ():
            places = zip(table.columns, (start, to))
            bad = next(((column, text) for column, text in places if text and text not in self.types), None)
            if bad:
                self.fault(name, row, bad[0], UNKNOWN, f"{bad[1]!r} is not in stops.txt")
            elif kind and not is_number(kind):
                self.fault(name, row, "transfer_type", NUMBER, repr(kind))
            elif seconds and not is_number(seconds):
                self.fault(name, row, "min_transfer_time", NUMBER, repr(seconds))
            elif any(limits) or not (start and to):
                text = "rows for a route or a trip, or without one of the stops: traind passes over them"
                self.report.note(name, text, f"row {row}")
            elif int(kind or 0) > 3:
                text = "rows of transfer_type 4 and above, as for staying on the train: traind passes over them"
                self.report.note(name, text, f"row {row} transfer_type: {kind}")
            elif self.types[start] in "01" and self.types[to] in "01":
                self.changes[start].append((to, int(kind or 0) != 3))

    def take_rules(self):
        """waiting_rules.txt of the source, which counts where --wait is not given."""
        self.rules, name = None, "waiting_rules.txt"
        if self.choice.wait is not None:
            if name in self.source:
                self.report.change(name, "that of the source is left out, since --wait is given")
            return
        table = self.table(name)
        if {"stops.txt", "trips.txt"} & self.unread:
            return
        for row, (feeder, connecting, stop, wait) in self.rows(table) if table else ():
            if stop and self.types.get(stop) not in ("0", "1"):
                self.fault(name, row, "stop_id", UNKNOWN, f"{stop!r} is no stop and no station of stops.txt")
            elif not is_number(wait, MOST_WAIT):
                self.fault(name, row, "max_wait", NUMBER, f"{wait!r} is no number of seconds up to {MOST_WAIT:,}")
            for column, route in (("feeder_route_id", feeder), ("connecting_route_id", connecting)):
                if route and route not in self.used_routes:
                    self.report.note(name, "routes of which there is no trip", f"row {row} {column}: {route!r}")


def made_name(trip, start):
    """The trip_id of a trip that is made of one with frequencies: its start tells it from the others."""
    return f"{trip}@{time_text(start)}"


def runs_of(trips):
    """The places of each trip in a column; most times they stand behind one another."""
    begins = [place for place in range(len(trips)) if not place or trips[place] != trips[place - 1]]
    counts = Counter(trips[place] for place in begins)
    apart = defaultdict(list)
    for begin, end in zip(begins, [*begins[1:], len(trips)]):
        number = trips[begin]
        if counts[number] == 1:
            yield number, range(begin, end)
        else:
            apart[number].extend(range(begin, end))
    yield from apart.items()
