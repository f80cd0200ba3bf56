"""Cases of tools/hostile: feeds of hostile sizes and shapes, and what is no feed."""

import os
import sys
import threading
import zipfile
from datetime import date
from pathlib import Path

sys.dont_write_bytecode = True
from hostile_lines import DAY, FLUSH, MILLION, Case, alike, line_of, reply, scattered  # noqa: E402

FEED_A = Path(__file__).resolve().parent.parent / "rows" / "feeds" / "a"
LONGEST = 268_435_456
STOPS = b"stop_id,location_type,parent_station\n"
STOPS_OF_A = STOPS + b"A,0,\nB,1,\nB1,0,B\nB2,0,B\nC,0,\nD,0,\n"
TRIPS = b"route_id,service_id,trip_id\n"
CALLS = b"trip_id,arrival_time,departure_time,stop_id,stop_sequence\n"
TRANSFERS = b"from_stop_id,to_stop_id,transfer_type,min_transfer_time\n"
RULES = b"feeder_route_id,connecting_route_id,stop_id,max_wait\n"
CALENDAR = b"service_id,monday,tuesday,wednesday,thursday,friday,saturday,sunday,start_date,end_date\n"
DATES = b"service_id,date,exception_type\n"
ANSWERED = {"input": [FLUSH], "output": [reply(1, {"flush": 0})]}


def rows(make, count, order=range):
    """Rows, each made of a number, in the order of the numbers or in another one."""
    return (make(number).encode() + b"\n" for number in order(count))


def title(make):
    """The name of a shape: how what makes its cases is described."""
    return make.__doc__[0].lower() + make.__doc__[1:].rstrip(".")


def falling(size):
    return range(size - 1, -1, -1)


def loaded(tables, **others):
    """A case of a feed that is loaded: a flush line is answered, or what else is given."""
    return Case(tables=tables, **(ANSWERED | others))


def trips(n):
    """Trips, routes and services with names that are nearly equal; none runs."""
    names = rows(lambda i: ",".join([alike(i, 60)] * 3), n // 4, scattered)
    return loaded({"trips.txt": [TRIPS, names], "stop_times.txt": [CALLS]}, megabytes=300)


def equal_names(n):
    """Trips of one route and one service that does not run, which three tables name over and over."""
    name = alike(0, 60)
    tables = {
        "trips.txt": [TRIPS, rows(lambda i: f"{name},{name},{i}", n // 2)],
        "stop_times.txt": [CALLS],
        "calendar_dates.txt": [DATES, rows(lambda i: f"{name},{day(i)},2", n // 4)],
        "waiting_rules.txt": [RULES, (f"{name},{name},,300\n".encode(), n // 100)],
    }
    return loaded(tables, megabytes=300)


def calls(n):
    """Trips with names that are nearly equal, whose rows stand apart and in orders that jump."""
    count = n // 10
    first = rows(lambda i: f"{alike(i)},08:00:00,08:00:00,C,1", count, scattered)
    second = rows(lambda i: f"{alike(i)},08:00:00,08:00:00,A,0", count, falling)
    names = rows(lambda i: f"R1,W,{alike(i)}", count)
    return loaded({"trips.txt": [TRIPS, names], "stop_times.txt": [CALLS, first, second]}, megabytes=400)


def long_train(n):
    """The tables of one train with many calls at one stop in one second, its rows in falling order."""
    lines = rows(lambda i: f"T1,08:00:00,08:00:00,A,{n - i}", n)
    return {"trips.txt": [TRIPS, b"R1,W,T1\n"], "stop_times.txt": [CALLS, lines], "waiting_rules.txt": None}


def one_train(n):
    """A train with many calls at one stop in one second, its rows in falling order, which gets late."""
    late = line_of("forecast", trip="T1", date=DAY, call=0, event="dep", time="08:00:01")
    answers = [reply(1, {"accepted": 1, "changed": 2 * n - 2})]
    return Case(tables=long_train(n), input=[late], output=answers, megabytes=1_000)


def transfers(n):
    """Transfers between 1,000 stops with names that are nearly equal, each of another pair."""
    pairs = rows(lambda i: f"{alike(i // 1_000, 60)},{alike(i % 1_000, 60)},2,60", n)
    stops = rows(lambda i: f"{alike(i, 60)},0,", 1_000)
    return loaded({"stops.txt": [STOPS_OF_A, stops], "transfers.txt": [TRANSFERS, pairs]}, megabytes=1_000)


def rules(n):
    """Rules, each for other routes and another stop, and a train of each route there."""
    count = n // 100
    apart = rows(lambda i: f"{alike(i)},{alike((i + 1) % count)},S{i},300", count, scattered)
    stays = rows(lambda i: f"T{i // 2},08:00:00,08:00:00,S{(i // 2 + i % 2) % count},{i % 2}", 2 * count)
    tables = {
        "stops.txt": [STOPS, rows(lambda i: f"S{i},0,", count)],
        "trips.txt": [TRIPS, rows(lambda i: f"{alike(i)},W,T{i}", count)],
        "stop_times.txt": [CALLS, stays],
        "waiting_rules.txt": [RULES, apart],
    }
    return loaded(tables, megabytes=128)


def day(number):
    """The date of so many days after the first one of the year 1."""
    at = date.fromordinal(number + 1)
    return f"{at.year:04}{at.month:02}{at.day:02}"


def calendars(n):
    """Services with names that are nearly equal in both calendars, and one with many dates."""
    count = n // 8
    services = rows(lambda i: alike(i) + ",1,1,1,1,1,1,1,20260101,20261231", count)
    removed = rows(lambda i: f"{alike(i)},20260105,2", count, scattered)
    dates = rows(lambda i: f"X,{day(i)},1", count, scattered)
    tables = {
        "calendar.txt": [CALENDAR, b"W,1,1,1,1,1,1,1,20260101,20261231\n", services],
        "calendar_dates.txt": [DATES, removed, dates],
    }
    return loaded(tables, words=["--days=31"], megabytes=400)


def long_names(n):
    """Stops, routes and trips with names of 59,014 bytes that are nearly equal."""
    count = n * 240 // MILLION

    def call(place):
        trip, second = divmod(place, 2)
        at = f"0{8 + second}:00:00"
        return f"{alike(trip, 59_000)},{at},{at},{alike((trip + second) % count, 59_000)},{second}"

    tables = {
        "stops.txt": [STOPS, rows(lambda i: f"{alike(i, 59_000)},0,", count)],
        "trips.txt": [TRIPS, rows(lambda i: f"{alike(i, 59_000)},W,{alike(i, 59_000)}", count)],
        "stop_times.txt": [CALLS, rows(call, 2 * count, scattered)],
        "waiting_rules.txt": None,
    }
    cancelled = line_of("cancel", trip=alike(0, 59_000), date=DAY, **{"from": 0, "to": 1})
    return loaded(tables, input=[cancelled], output=[reply(1, {"accepted": 1, "changed": 2})], megabytes=400)


def columns(n):
    """Columns of a table, of which only the last is looked at, with a row that is no ASCII."""
    lines = [part for stop in ("A", "C", "D", "B1", "B2") for part in ((b",", n), f"{stop}\n".encode())]
    return loaded({"stops.txt": [(b"c,", n), b"stop_id\n", *lines, ("é,".encode(), n), b"Z"]}, megabytes=256)


def padded(n):
    """Bytes of a field in a column that is not looked at, up to the greatest length of a table."""
    start = TRIPS[:-1] + b",x\nR1,W,T1,\nR2,W,T2,"
    return loaded({"trips.txt": [start, (b"\0", LONGEST * n // MILLION - len(start))]}, megabytes=1_200)


def over_and_over(text, every, cause="no column", megabytes=256):
    """A table of one text over and over: its name, and what makes the case of a size."""
    refused = f"stops.txt row 1: {cause}"
    case = lambda n: Case(tables={"stops.txt": [(text, every * n)]}, refused=refused, megabytes=megabytes)  # noqa: E731
    return f"{text} over and over as stops.txt", case


def growing_stops():
    """Tables stops.txt that are long: each with its name, and what makes the case of a size."""
    def case(text, every, **others):
        return lambda n: Case(tables={"stops.txt": [STOPS_OF_A, (text, every * n)]}, **others)

    fields = "stops.txt row 8: wrong field count"
    yield "commas of a row", case(b",", 4, refused=fields, megabytes=256)
    yield "quotes that are closed in turn", case(b'"",', 8, refused=fields, megabytes=256)
    yield "equal stops", case(b"S,0,\n", 1, refused="stops.txt row 9: duplicate key")
    yield "blank lines behind rows", case(b"\r\n", 25, megabytes=256, **ANSWERED)
    yield (
        "stops with names that are nearly equal",
        lambda n: Case(
            tables={"stops.txt": [STOPS_OF_A, rows(lambda i: f"{alike(i)},0,", n, scattered)]},
            refused="too many stops",
            megabytes=900,
        ),
    )
    yield (
        "rows that end with CR",
        lambda n: loaded({"stops.txt": [STOPS_OF_A, (f"S{i},0,\r".encode() for i in range(n // 11))]}, megabytes=128),
    )


def growing_feeds():
    """Feeds with tables that are long, wide or of one byte: each with its name, and what makes the case of a size."""
    yield over_and_over(b"\n", 100)
    yield over_and_over(b"\0", 100, megabytes=700)
    yield over_and_over(b"\xff", 25, "not UTF-8")
    yield over_and_over(b",", 4)
    for text in (b"\r", b'"', b"\r\n", b" \n"):
        yield over_and_over(text, 25)
    yield over_and_over(b"\xef\xbb\xbf", 8)
    yield from growing_stops()
    start = RULES[:-1] + b',x\nR1,R2,,300,"'
    yield (
        "bytes of a quote that is not closed",
        lambda n: loaded({"waiting_rules.txt": [start, (b'a,""\n', 20 * n)]}, megabytes=512),
    )
    for make in (trips, equal_names, calls, one_train, transfers, rules, calendars, long_names, columns, padded):
        yield title(make), make
    for make in (forbidden, moved, cancelled, reported, waited_for, added, kept, rerouted):
        yield title(make), make


def forbidden(n):
    """Platforms of a station within which changes are forbidden."""
    platforms = rows(lambda i: f"P{i},0,X", n // 250)
    return loaded({"stops.txt": [STOPS_OF_A, b"X,1,\n", platforms], "transfers.txt": [TRANSFERS, b"X,X,3,\n"]})


def short_trips(count, time="08:00:00"):
    """The tables of trips from A to C that leave at one time."""
    calls = rows(lambda i: f"T{i // 2},{time},{time},{'AC'[i % 2]},{i % 2}", 2 * count)
    return {"trips.txt": [TRIPS, rows(lambda i: f"R2,W,T{i}", count)], "stop_times.txt": [CALLS, calls]}


def moved(n):
    """Departures that are all moved to one second, in an order that jumps."""
    count = n // 25
    event = {"date": DAY, "call": 0, "event": "dep", "time": "99:00:00"}
    lines = (line_of("forecast", trip=f"T{i}", **event) + b"\n" for i in scattered(count))
    answers = (reply(line, {"accepted": line, "changed": 2}) for line in range(1, count + 1))
    return Case(tables=short_trips(count), input=[lines], output=[answers], megabytes=128)


def cancelled(n):
    """Calls of a train that is cancelled."""
    line = line_of("cancel", trip="T1", date=DAY, **{"from": 0, "to": n // 20 - 1})
    answers = [reply(1, {"accepted": 1, "changed": n // 10 - 2})]
    return Case(tables=long_train(n // 20), input=[line], output=answers, megabytes=128)


def reported(n):
    """Calls of a train before the one where it is reported."""
    line = line_of("report", trip="T1", date=DAY, call=n // 20 - 1, event="arr", time="08:00:00")
    answers = [reply(1, {"accepted": 1, "changed": 0})]
    return Case(tables=long_train(n // 20), input=[line], output=answers, megabytes=128)


def waited_for(n):
    """Trains that wait for one that gets late."""
    count = n // 20
    tables = short_trips(count, "08:03:00")
    tables["trips.txt"].append(b"R1,W,F\n")
    tables["stop_times.txt"].append(b"F,07:50:00,07:50:00,C,0\nF,08:00:00,08:00:00,A,1\n")
    tables["waiting_rules.txt"] = [RULES, b"R1,,A,300\n"]
    line = line_of("forecast", trip="F", date=DAY, call=1, event="arr", time="08:01:00")
    answers = [reply(1, {"accepted": 1, "changed": 2 * count + 1})]
    return Case(tables=tables, input=[line], output=answers, megabytes=128)


def added(n):
    """Calls of extra trains, each earlier than the one before."""
    count = n // 25_000

    def line(train):
        at = f"{90 - train:02}:00:00"
        made = [{"stop": "A", "arr": at, "dep": at}] * 1_000
        return line_of("extra", trip=f"X{train}", date=DAY, route="R1", calls=made) + b"\n"

    lines = (line(train) for train in range(count))
    answers = (reply(train, {"accepted": train, "changed": 1_998}) for train in range(1, count + 1))
    return Case(input=[lines], output=[answers], words=["--spare-calls=40000"], tables={"waiting_rules.txt": None})


def kept(n):
    """Connections of 500 departures that are kept, in an order that jumps."""
    feeders = n // 5_000
    tables = short_trips(500)
    tables["trips.txt"].append(rows(lambda i: f"R1,W,F{i}", feeders))
    calls = rows(lambda i: f"F{i // 2},07:0{i % 2}:00,07:0{i % 2}:00,{'CA'[i % 2]},{i % 2}", 2 * feeders)
    tables["stop_times.txt"].append(calls)

    def line(i):
        ends = {"feeder": f"F{i % feeders}", "train": f"T{i // feeders}"}
        return {end: {"trip": trip, "date": DAY, "call": int(end == "feeder")} for end, trip in ends.items()}

    lines = (line_of("keep", **line(i)) + b"\n" for i in scattered(500 * feeders))
    answers = (reply(line, {"accepted": line, "changed": 0}) for line in range(1, 500 * feeders + 1))
    return Case(tables=tables, input=[lines], output=[answers], words=["--overrides=100000"])


def rerouted(n):
    """Reroutings of one train, each of which gives it one more call."""
    count = n // 200
    via = [{"stop": "C", "arr": "08:36:00", "dep": "08:36:00"}]
    ends = ({"from": label + 1 if label else 0, "to": 1} for label in range(count))
    lines = (line_of("reroute", trip="T2", date=DAY, **end, via=via) + b"\n" for end in ends)
    answers = (reply(line, {"accepted": line, "changed": 2}) for line in range(1, count + 1))
    return Case(input=[lines], output=[answers], words=["--spare-calls=40000"], tables={"waiting_rules.txt": None})


LARGEST = ((trips, 4), (calls, 2), (calendars, 8), (columns, 4))


def link(target):
    return lambda path: path.symlink_to(target)


def pipe(content):
    """A FIFO into which a thread writes."""
    def make(path):
        os.mkfifo(path)
        threading.Thread(target=path.write_bytes, args=[content], daemon=True).start()

    return make


def unreadable(path):
    path.write_bytes(STOPS_OF_A)
    path.chmod(0)


def locked(folder):
    folder.chmod(0)
    return folder


def archive(folder):
    """An archive of a feed."""
    path = folder.parent / "feed.zip"
    with zipfile.ZipFile(path, "w") as made:
        for table in FEED_A.iterdir():
            made.write(table, table.name)
    return path


def odd_tables():
    """What stands in the place of a table and is none."""
    for name in ("stops.txt", "waiting_rules.txt"):
        yield Case(f"{name} is a folder", {name: Path.mkdir}, status=4)
        yield Case(f"{name} is a link to itself", {name: link(name)}, status=4)
        yield Case(f"{name} is /dev/zero", {name: link("/dev/zero")}, refused=f"{name} is too long", megabytes=1_000)
    yield Case("trips.txt is /dev/null", {"trips.txt": link("/dev/null")}, refused="trips.txt row 1: no column")
    yield Case("frequencies.txt is /dev/null", {"frequencies.txt": link("/dev/null")}, **ANSWERED)
    yield Case("stops.txt leads nowhere", {"stops.txt": link("none")}, refused="missing stops.txt")
    yield Case("stops.txt is a FIFO with a writer", {"stops.txt": pipe(STOPS_OF_A)}, **ANSWERED)
    for name, header in (("stops.txt", STOPS), ("trips.txt", TRIPS)):
        unknown = "stop_times.txt row 2: unknown reference"
        yield Case(f"{name} is a header without LF", {name: [header[:-1]]}, refused=unknown)
    past = {"trips.txt": [TRIPS, (b"\0", LONGEST + 1 - len(TRIPS))]}
    yield Case("trips.txt is a byte too long", past, refused="trips.txt is too long", megabytes=1_000)
    if os.geteuid() != 0:
        yield Case("stops.txt may not be read", {"stops.txt": unreadable}, status=4)


def folders():
    """What is no table, and what is no folder."""
    yield from odd_tables()
    for label, word in (("a device", "/dev/null"), ("300 bytes", "x" * 300), ("100,000 bytes", "x" * 100_000)):
        yield Case(f"the folder is {label}", folder=word, status=4)
    yield Case("the folder is no text", folder=b"\xff", status=2)
    yield Case("the folder is an archive", folder=archive, status=4)
    if os.geteuid() != 0:
        yield Case("the folder may not be read", folder=locked, status=4)
    if not Path("/stops.txt").exists():
        yield Case("the folder is an empty word: /stops.txt is asked for", folder="", refused="missing stops.txt")
    yield Case("10,000 words", words=["x"] * 10_000, status=2)
    yield Case("an option 10,000 times", words=["--days=1"] * 10_000, status=2)
