"""The tables of a feed as docs/FEEDS.md has them, and the first fault of a feed that is refused.

Each table is taken apart into rows, and each value is checked in the order of that
page. What is read is a Feed of tools/plain_feed.py. Only the limits of stops,
transfers, rules and bytes are looked at; tools/large_feeds tries the others.
"""

import re
from datetime import date

from plain_feed import WEEKDAYS, Feed, seconds_of

LONGEST = 268_435_456
MOST = {
    "stops.txt": (100_000, "stops"),
    "transfers.txt": (1_000_000, "transfers"),
    "waiting_rules.txt": (10_000, "rules"),
}
FIELD = re.compile(rb'(?:"([^"]*(?:""[^"]*)*)"?)?([^,\r\n]*)')
TIME = re.compile("[0-9]{1,2}:[0-5][0-9]:[0-5][0-9]")
BAD_NUMBER, BAD_TIME, BAD_DATE = "bad number", "bad time", "bad date"
UNKNOWN, DUPLICATE = "unknown reference", "duplicate key"
STOP_TYPES, PLACE_TYPES, ALL_TYPES = "0", "01", "01234"


class Refused(Exception):
    """A feed is refused, with this text."""


def fault(table, row, cause):
    return Refused(f"{table} row {row}: {cause}")


def rows_of(data):
    """The rows of a table, each a list of the bytes of its fields."""
    data = data.removeprefix(b"\xef\xbb\xbf")
    place, row = 0, []
    while place < len(data) or row:
        if not row and data[place] in b"\r\n":
            place += 1  # a blank line
            continue
        found = FIELD.match(data, place)
        field = (found[1] or b"").replace(b'""', b'"') + found[2]
        row.append(field.strip(b" \t"))
        if data[found.end() : found.end() + 1] != b",":
            yield row
            row = []
        place = found.end() + 1


def is_number(text, most=999_999_999):
    return re.fullmatch("[0-9]{1,9}", text) is not None and int(text) <= most


def is_time(text):
    return TIME.fullmatch(text) is not None


def is_date(text):
    """Whether eight digits name a day of the years 0 to 9999; the year 0 has a leap day."""
    if not re.fullmatch("[0-9]{8}", text):
        return False
    year, month, day = int(text[:4]), int(text[4:6]), int(text[6:])
    try:
        date(year or 2000, month, day)
    except ValueError:
        return False
    return True


def matches(pattern, cause):
    """A check that a value has a form."""
    return lambda text: None if re.fullmatch(pattern, text) else cause


def any_text(_):
    return None


NUMBER = matches("[0-9]{1,9}", BAD_NUMBER)
NUMBER_OR_EMPTY = matches("[0-9]{0,9}", BAD_NUMBER)
TIME_OR_EMPTY = matches(f"(?:{TIME.pattern})?", BAD_TIME)


def a_date(text):
    return None if is_date(text) else BAD_DATE


def a_wait(text):
    return None if is_number(text, 86_400) else BAD_NUMBER


class Tables:
    """The rows of all tables of a feed, each by column; a table is asked for by its name, and may be None."""

    def __init__(self, read):
        self.read, self.rows = read, {}
        self.take_stops()
        self.take("trips.txt", {"route_id": any_text, "service_id": any_text, "trip_id": any_text}, key=("trip_id",))
        self.trips = {row["trip_id"] for row in self.rows["trips.txt"]}
        self.take_stop_times()
        self.take_calendars()
        self.take_others()
        if len(list(rows_of(self.data("frequencies.txt", "") or b""))) > 1:
            raise Refused("frequencies.txt has rows")

    def data(self, name, missing):
        """The bytes of a table. One that is not there is a fault where a name is given for what is missing."""
        data = self.read(name)
        if data is None and missing:
            raise Refused(f"missing {missing}")
        if data is not None and len(data) > LONGEST:
            raise Refused(f"{name} is too long")
        return data

    def take(self, name, needed, others=None, key=(), is_needed=True):
        """Reads a table, with the checks of its columns in their order, those that may be absent behind the others."""
        self.rows[name] = []
        data = self.data(name, name if is_needed else "")
        if data is None:
            return
        rows = rows_of(data)
        header = read_texts(name, 1, next(rows, []))
        if not needed.keys() <= {*header}:
            raise fault(name, 1, "no column")
        keys, checks = set(), needed | (others or {})
        for number, fields in enumerate(rows, 2):
            if len(fields) != len(header):
                raise fault(name, number, "wrong field count")
            texts = read_texts(name, number, fields)
            row = {column: texts[header.index(column)] if column in header else "" for column in checks}
            self.check_values(name, number, row, checks)
            named = tuple(int(row[column]) if column == "stop_sequence" else row[column] for column in key)
            if key and named in keys:
                raise fault(name, number, DUPLICATE)
            keys.add(named)
            self.rows[name].append(row | {"row": number})

    def check_values(self, name, number, row, checks):
        for column, check in checks.items():
            cause = check(row[column])
            if cause:
                raise fault(name, number, cause)

    def check_count(self, name):
        most, what = MOST[name]
        if len(self.rows[name]) > most:
            raise Refused(f"too many {what}")

    def take_stops(self):
        name = "stops.txt"
        others = {"location_type": matches("[0-4]?", BAD_NUMBER), "parent_station": any_text}
        self.take(name, {"stop_id": any_text}, others, key=("stop_id",))
        self.types = {row["stop_id"]: row["location_type"] or "0" for row in self.rows[name]}
        for row in self.rows[name]:
            parent = row["parent_station"]
            if self.types[row["stop_id"]] == "0" and parent and self.types.get(parent) != "1":
                raise fault(name, row["row"], UNKNOWN)
        self.check_count(name)

    def place(self, types, may_be_empty=True):
        """A check that a value names a place of one of these types."""

        def check(text):
            is_known = text in self.types and self.types[text] in types
            return None if is_known or (may_be_empty and not text) else UNKNOWN

        return check

    def take_stop_times(self):
        needed = {
            "trip_id": lambda text: None if text in self.trips else UNKNOWN,
            "arrival_time": TIME_OR_EMPTY,
            "departure_time": TIME_OR_EMPTY,
            "stop_id": self.place(STOP_TYPES, may_be_empty=False),
            "stop_sequence": NUMBER,
        }
        others = {"pickup_type": NUMBER_OR_EMPTY, "drop_off_type": NUMBER_OR_EMPTY}
        self.take("stop_times.txt", needed, others, key=("trip_id", "stop_sequence"))
        rows = sorted(self.rows["stop_times.txt"], key=lambda row: int(row["stop_sequence"]))
        for trip in self.rows["trips.txt"]:
            check_trip([row for row in rows if row["trip_id"] == trip["trip_id"]])

    def take_calendars(self):
        days = dict.fromkeys(WEEKDAYS, matches("[01]", BAD_NUMBER))
        calendar = {"service_id": any_text} | days | {"start_date": a_date, "end_date": a_date}
        self.take("calendar.txt", calendar, key=("service_id",), is_needed=False)
        dates = {"service_id": any_text, "date": a_date, "exception_type": matches("[12]", BAD_NUMBER)}
        if self.read("calendar_dates.txt") is None:
            self.data("calendar.txt", "calendar.txt")
        self.take("calendar_dates.txt", dates, key=("service_id", "date"), is_needed=False)

    def take_others(self):
        place = self.place(ALL_TYPES)
        needed = {"from_stop_id": place, "to_stop_id": place, "transfer_type": NUMBER_OR_EMPTY}
        limits = dict.fromkeys(("from_route_id", "to_route_id", "from_trip_id", "to_trip_id"), any_text)
        others = {"min_transfer_time": NUMBER_OR_EMPTY} | limits
        self.take("transfers.txt", needed, others, is_needed=False)
        self.check_count("transfers.txt")
        routes = {"feeder_route_id": any_text, "connecting_route_id": any_text}
        rules = routes | {"stop_id": self.place(PLACE_TYPES), "max_wait": a_wait}
        self.take("waiting_rules.txt", rules, is_needed=False)
        self.check_count("waiting_rules.txt")


def read_texts(name, number, fields):
    """The texts of the fields of a row."""
    try:
        return [field.decode("utf-8") for field in fields]
    except UnicodeDecodeError:
        raise fault(name, number, "not UTF-8") from None


def times_of(row):
    """The arrival and the departure of a row of stop_times.txt, or None where it has no time."""
    arrival, departure = row["arrival_time"], row["departure_time"]
    times = (arrival or departure, departure or arrival)
    return tuple(seconds_of(time, 0) for time in times) if any(times) else None


def check_trip(rows):
    """Checks the rows of a trip in the order of their numbers."""
    name = "stop_times.txt"
    if len(rows) == 1:
        raise fault(name, rows[0]["row"], "too few calls")
    for row in (rows[0], rows[-1]) if rows else ():
        if not times_of(row):
            raise fault(name, row["row"], "untimed end")
    timed = [(row["row"], *times_of(row)) for row in rows if times_of(row)]
    before = [0, *(departure for _, _, departure in timed)]
    for (row, arrival, departure), left in zip(timed, before):
        if not left <= arrival <= departure:
            raise fault(name, row, "backwards times")


class CheckedFeed(Feed):
    """A feed of tables that were read."""

    def __init__(self, tables, options, first):
        self.tables = tables
        super().__init__(None, options["days"], options["change"], first, options["zone"])

    def rows(self, name):
        return self.tables.rows[name]
