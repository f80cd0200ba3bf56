"""Makes feeds and GTFS Realtime messages for tools/realtime_cases, the same at each run with one number."""

import itertools
from random import Random

import realtime_schema as schema
from plain_draw import HEADERS
from plain_feed import time_text

ALL_DAYS = "ALL,1,1,1,1,1,1,1,20260101,20261231"
# The feed of the cases that are written by hand.
TRIPS = {
    "T1": ("R1", "ALL", "A 8:00 8:00", "B1 8:30 8:32", "C 9:00 9:02", "D 9:30 9:31", "E 10:00 10:00"),
    "T2": ("R2", "ALL", "B2 8:40 8:40", "D 9:10 9:11", "E 9:20 9:20"),
    "N1": ("R1", "ALL", "A 23:50 23:50", "B1 24:20 24:25", "C 25:10 25:10"),
    "L1": ("R2", "ALL", "A 8:00 8:00", "C 8:10 8:10", "A 8:20 8:20", "C 8:30 8:30", "A 8:40 8:40"),
    "U1": ("R2", "ALL", "A 8:00 8:00", "C  ", "D 8:20 8:20"),
    "M1": ("R2", "MON", "A 8:00 8:00", "C 8:10 8:10"),
    "F1@08:05:00": ("R2", "ALL", "A 8:05 8:05", "C 8:15 8:15"),
    "Ü,9": ("R2", "ALL", "A 8:00 8:00", "C 8:10 8:10"),
}
STOPS = ["A,0,", "S,1,", "B1,0,S", "B2,0,S", "B3,0,S", "C,0,", "D,0,", "E,0,"]


def write_tables(folder, tables):
    folder.mkdir(parents=True, exist_ok=True)
    for name, rows in tables.items():
        (folder / name).write_text("".join(f"{row}\n" for row in (HEADERS[name], *rows)))


def small_feed(folder):
    """The feed of the cases. `stop_sequence` is 10, 20, .."""
    trips, calls = [], []
    for trip, (route, service, *stops) in TRIPS.items():
        name = f'"{trip}"'
        trips.append(f"{route},{service},{name}")
        for place, call in enumerate(stops, 1):
            stop, *times = call.split(" ")
            times = [time and f"{time:0>5}:00" for time in times]
            calls.append(",".join((name, *times, stop, str(10 * place), "", "")))
    write_tables(folder, {
        "stops.txt": STOPS, "trips.txt": trips, "stop_times.txt": calls,
        "calendar.txt": [ALL_DAYS, "MON,1,0,0,0,0,0,0,20260101,20261231"], "waiting_rules.txt": ["R1,R2,,300"],
    })  # fmt: skip


def made_feed(folder, number, lines, every, first=18_000, last=79_200):
    """A feed of some lines, each with a train every so many seconds both ways between ten stops, two of them hubs."""
    random = Random(number)
    stops = ["H0,1,", "H1,1,"] + [f"H{hub}p{line},0,H{hub}" for hub in (0, 1) for line in range(lines)]
    trips, calls = [], []
    for line in range(lines):
        stops += [f"L{line}s{place},0," for place in range(8)]
        way = [f"L{line}s{place}" for place in range(8)]
        way.insert(3, f"H0p{line}")
        way.insert(6, f"H1p{line}")
        runs = [60 * random.randint(2, 6) for _ in way]
        for number, (start, is_back) in enumerate(itertools.product(range(first, last, every), (0, 1))):
            trip, time = f"L{line}t{number}", start + 60 * random.randint(0, 9)
            trips.append(f"L{line},ALL,{trip}")
            for place, stop in enumerate(reversed(way) if is_back else way):
                stand = 60 * (stop[0] == "H")
                calls.append(f"{trip},{time_text(time)},{time_text(time + stand)},{stop},{place + 1},,")
                time += stand + runs[place]
    write_tables(folder, {
        "stops.txt": stops, "trips.txt": trips, "stop_times.txt": calls, "calendar.txt": [ALL_DAYS],
        "waiting_rules.txt": [",,,180"],
    })  # fmt: skip


class Hour:
    """An hour of FeedMessages, one each so many seconds, in which the trains of a feed run late and later.

    A train is told from 30 minutes before it runs to its end, with its next calls, and those of the last minutes.
    Some updates have no data, calls that are skipped or at another platform, trips or stops that are not there.
    """

    def __init__(self, feed, number, step, start, end):
        self.feed, self.random, self.step, self.kind = feed, Random(number), step, schema.message_class()
        day, base = next(iter(feed.bases.items()))
        self.day, self.start, self.end = day, base + start, base + end
        self.trains, self.delays, self.past = [], {}, {}
        for trip in feed.trips:
            if feed.is_there(trip, day):
                calls = feed.calls_of(trip)
                times = [base + time for time in calls.scheduled]
                if times[0] < self.end + 1800 and times[-1] > self.start - 900:
                    self.trains.append((trip, [*calls.sequences], calls.stops, times))
        self.updates = self.call_updates = 0

    def messages(self):
        """The bytes of each message."""
        for now in range(self.start, self.end, self.step):
            message = self.kind()
            message.header.gtfs_realtime_version, message.header.timestamp = b"2.0", now
            for place, train in enumerate(self.trains):
                delay = self.delays.setdefault(place, self.random.choice((0, 0, 0, 60, 120, 300)))
                if train[3][0] - 1800 <= now <= train[3][-1] + delay:
                    self.add(message, f"{place}", train, place, now)
            yield message.SerializeToString()

    def add(self, message, name, train, place, now):
        trip, sequences, stops, times = train
        draw = self.random.random()
        if draw < 0.2:
            self.delays[place] = max(-60, self.delays[place] + self.random.choice((-30, 30, 60)))
        delay = self.delays[place]
        update = message.entity.add(id=name.encode()).trip_update
        update.trip.trip_id, update.trip.start_date = trip.encode(), self.day.encode()
        self.updates += 1
        if place % 97 == 5:
            update.trip.schedule_relationship = schema.CANCELED
            return
        if place % 89 == 7:
            update.trip.trip_id = b"no such trip"
        told_times = self.times_told(place, times, delay, now)
        for call, sequence in enumerate(sequences):
            if told_times[2 * call + 1] < now - 300:
                continue
            self.call_updates += 1
            told = update.stop_time_update.add(stop_sequence=sequence, stop_id=stops[call].encode())
            if place % 31 == 3 and call == 3:
                told.schedule_relationship = schema.SKIPPED
            elif place % 41 == 2 and call > 5:
                told.schedule_relationship = schema.NO_DATA
            else:
                told.arrival.time, told.departure.time = told_times[2 * call : 2 * call + 2]

    def times_told(self, place, times, delay, now):
        """The time of each event; one that was past once stays, but now and then it is corrected."""
        past, told = self.past.setdefault(place, {}), []
        if self.random.random() < 0.01:
            past.clear()
        for event, time in enumerate(times):
            told.append(max([past.get(event, time + delay), *told[-1:]]))
            if told[-1] < now:
                past[event] = told[-1]
        return told


class Histories:
    """Draws FeedMessages one after the other, each with updates of about half of the trains.

    Times, no data, calls within a train that are skipped or at another stop. With `anything` also what cannot come
    back, as calls that are skipped at an end, cancelled and added trips; and DIFFERENTIAL and unknown calls.
    """

    def __init__(self, feed, random, anything):
        self.feed, self.random, self.anything, self.kind = feed, random, anything, schema.message_class()
        self.timestamp = random.choice([*feed.bases.values()]) + random.randint(20_000, 30_000)

    def message(self):
        random, message = self.random, self.kind()
        self.timestamp += random.choice((0, 1, 600, 2_000))
        message.header.gtfs_realtime_version, message.header.timestamp = b"2.0", self.timestamp
        if self.anything and random.random() < 0.5:
            message.header.incrementality = schema.DIFFERENTIAL
        for day, trip in itertools.product(self.feed.bases, self.feed.trips):
            name = f"{trip} {day}".encode()
            if self.anything and random.random() < 0.1:
                message.entity.add(id=name, is_deleted=True)
            elif random.random() < 0.5:
                self.add(message.entity.add(id=name).trip_update, trip, day)
        if self.anything:
            for number in range(3):
                if random.random() < 0.6:
                    self.add_new(message.entity.add(id=b"new %d" % number).trip_update, number)
        return message

    def add(self, update, trip, day):
        random = self.random
        update.trip.trip_id, update.trip.start_date = trip.encode(), day.encode()
        if random.random() < 0.2:
            update.delay = random.randint(-120, 600)
        if self.anything and random.random() < 0.1:
            update.trip.schedule_relationship = random.randint(0, 8)
        calls = self.feed.calls_of(trip)
        for sequence, call in calls.sequences.items():
            draw, within = random.random(), self.anything or 0 < call < len(calls.stops) - 1
            if random.random() < 0.4:
                continue
            told = update.stop_time_update.add(stop_sequence=sequence)
            if draw < 0.15 and within:
                told.schedule_relationship = schema.SKIPPED
            elif draw < 0.25:
                told.schedule_relationship = schema.NO_DATA
            else:
                if draw < 0.4 and within:
                    told.stop_time_properties.assigned_stop_id = random.choice(sorted(self.feed.stops)).encode()
                scheduled = self.feed.bases[day] + calls.scheduled[2 * call], calls.scheduled[2 * call + 1]
                self.add_times(told, scheduled[0], self.feed.bases[day] + scheduled[1])
                if self.anything and random.random() < 0.05:
                    told.stop_sequence += random.choice((-1, 1, 99))

    def add_times(self, told, arrival, departure):
        for time, side in ((arrival, told.arrival), (departure, told.departure)):
            delay = self.random.randint(-60, 600)
            if self.random.random() < 0.6:
                side.time = time + delay
            elif self.random.random() < 0.6:
                side.delay = delay

    def add_new(self, update, number):
        random = self.random
        update.trip.trip_id, update.trip.schedule_relationship = b"NEW%d" % number, random.choice((1, 1, 8, 3))
        update.trip.route_id = random.choice(sorted(self.feed.routes)).encode()
        time = min(self.feed.bases.values()) + 25_000
        for place in range(random.choice((1, 2, 4))):
            told = update.stop_time_update.add(stop_id=sorted(self.feed.stops)[place].encode())
            time += random.randint(0, 600)
            told.arrival.time = told.departure.time = time
