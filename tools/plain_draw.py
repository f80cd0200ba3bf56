"""Draws feeds and lines for tools/compare and tools/fuzz, each the same at each run with one number.

A feed has hubs with platforms, halts, trips between them, transfers and waiting rules; in
some feeds the trips come in waves along a row of them, for journeys of many rides.
The lines are drawn in the present state of a plain program, so that they name what is
there most times, and trains that wait for one another.
"""

import itertools
import json
import math
from collections import Counter
from pathlib import Path
from random import Random

from plain_claims import changed, right_claim
from plain_feed import WEEKDAYS, time_text
from plain_lines import OF_VERSION_2
from plain_program import place_of
from plain_watch import events_of
from plain_zone import DAY

SERVED = (Path(__file__).resolve().parent.parent / "rows" / "served").read_text().split()
USUAL = 36
HEADERS = {
    "stops.txt": "stop_id,location_type,parent_station",
    "trips.txt": "route_id,service_id,trip_id",
    "stop_times.txt": "trip_id,arrival_time,departure_time,stop_id,stop_sequence,pickup_type,drop_off_type",
    "calendar.txt": "service_id," + ",".join(WEEKDAYS) + ",start_date,end_date",
    "calendar_dates.txt": "service_id,date,exception_type",
    "transfers.txt": "from_stop_id,to_stop_id,transfer_type,min_transfer_time,from_trip_id",
    "waiting_rules.txt": "feeder_route_id,connecting_route_id,stop_id,max_wait",
}
SUMMER = ("SUMMER", *"1111111", 20260601, 20260831)
ANY_OR_NONE = ([("", "", "", 240)], [("", "", "", 240)], [])
OPTIONS = {
    "slack": (0, 20, 50),
    "stop": (0, 30, 120),
    "change": (1, 60, 300),
    "window": (0, 300, 3600),
    "overrides": (0, 2, 4),
    "spare-trains": (0, 4, 15),
    "spare-calls": (0, 12, 80),
}
BAD = (
    {"from": "ENTRANCE"}, {"from": "NONE", "date": "20260230"}, {"to": "ENTRANCE"}, {"to": ""},
    {"date": "20260104"}, {"date": "20260230"}, {"time": "8:60:00"}, {"time": "08:00"},
)  # fmt: skip
TRAINLESS = [("H0-EMPTY", 0, "H0"), ("EMPTY", 0, "")]
UNKNOWN = (
    {"trip": "NONE"}, {"date": "20260104"}, {"route": "NONE"}, {"call": 99}, {"from": 99}, {"to": 99},
    {"call": 0, "event": "arr"},
)  # fmt: skip


class Maker:
    """Makes the tables of a feed and its options from a number; past USUAL with wide hubs and many rules."""

    usual, most_transfers = USUAL, 80
    hub_counts, halt_counts, route_counts, trip_counts = (2, 3, 4), (3, 5, 8), (3, 6, 12), (20, 40, 80)

    def __init__(self, number, days=None):
        self.random = Random(number)
        self.pick = pick = self.random.choice
        wide = number > self.usual
        widths, self.few_rules, self.many_rules = ((6, 8, 10), 30, 60) if wide else ((2, 3, 4), 2, 12)
        self.hubs = {f"H{hub}": [f"H{hub}-{n}" for n in range(pick(widths))] for hub in range(pick(self.hub_counts))}
        self.halts = [f"S{halt}" for halt in range(pick(self.halt_counts))]
        self.stops = [stop for platforms in self.hubs.values() for stop in platforms] + self.halts
        self.routes = [f"R{route}" for route in range(pick(self.route_counts))]
        self.options = {name: pick(values) for name, values in OPTIONS.items() if pick((True, False))}
        drawn_days = pick((1, 1, 2))
        self.options["days"] = days or drawn_days
        self.unit = pick((60, 60, 20))
        self.trips = {f"T{trip}": list(self.calls()) for trip in range(pick(self.trip_counts))}

    def calls(self):
        """The stop, arrival and departure of each call of a trip; those between others may lack times."""
        steps = self.random.randrange
        is_late = self.options["days"] > 1 and self.pick((True, False))
        time = (82_800 if is_late else 0) + self.unit * steps(9_000 // self.unit)
        last = self.random.randint(1, 6)
        for place in range(last + 1):
            arrival = time + self.unit * steps(1_500 // self.unit)
            time = arrival + self.unit * steps(300 // self.unit)
            times = arrival, time
            if 0 < place < last and steps(8) == 0:
                times = self.pick(((None, None), (arrival, None), (None, time)))
            yield self.pick(self.stops), *times

    def tables(self):
        """The rows of each table by its name."""
        pick = self.pick
        calls = [
            (trip, *("" if time is None else time_text(time) for time in times), stop, sequence, self.who(), self.who())
            for trip, of_trip in self.trips.items()
            for sequence, (stop, *times) in enumerate(of_trip)
        ]
        self.random.shuffle(calls)
        platforms = [(stop, 0, hub) for hub, stops in self.hubs.items() for stop in stops]
        places = [(hub, 1, "") for hub in self.hubs] + [(halt, "", "") for halt in self.halts]
        services = ("DAILY", "DAILY", "DAILY", "SUMMER", "ADDED")
        return {
            "stops.txt": [("ENTRANCE", 2, "H0"), *platforms, *places, *TRAINLESS],
            "trips.txt": [(pick(self.routes), pick(services), trip) for trip in self.trips],
            "stop_times.txt": calls,
            "calendar.txt": [("DAILY", *"1111111", 20260101, 20261231), SUMMER],
            "calendar_dates.txt": [("SUMMER", 20260105, 1), ("DAILY", 20260107, 2), ("ADDED", 20260106, 1)],
            "transfers.txt": [self.transfer() for _ in range(self.random.randint(0, self.most_transfers))],
            "waiting_rules.txt": [self.rule() for _ in range(self.rule_count())] + pick(ANY_OR_NONE),
        }

    def texts(self):
        """The text of each table by its name."""
        tables = self.tables().items()
        rows_of = {name: [",".join(map(str, row)) for row in rows] for name, rows in tables}
        return {name: "\n".join([HEADERS[name], *rows, ""]) for name, rows in rows_of.items()}

    def who(self):
        """Who may board or alight: at times nobody."""
        return self.pick((*[""] * 12, 0, 1, 2))

    def transfer(self):
        """A row within a station, at times to any place; some rows are to be passed over."""
        hub = self.pick(list(self.hubs))
        near = [hub, hub, *self.hubs[hub]]
        to = self.pick(self.pick((near, near, [*self.hubs, *self.stops, "ENTRANCE", ""])))
        kind, seconds = self.pick(("", *"012234")), self.pick(("", 0, 60, 120, 300))
        return self.pick(near), to, kind, seconds, self.pick(("", "", "", "T1"))

    def rule_count(self):
        return self.random.randint(self.few_rules, self.many_rules)

    def rule(self):
        stop = self.pick(("", self.pick(list(self.hubs)), self.pick(self.stops)))
        return self.pick(("", *self.routes)), self.pick(("", *self.routes)), stop, self.pick((0, 0, 60, 300, 900))


class Waves(Maker):
    """Makes feeds whose hubs and halts stand in a row, with trains along it that come in waves.

    In a wave a train goes from each place to the next, and the one from there leaves when there was time to change.
    Others go farther, and the slower the farther. So the more often a passenger changes, the earlier they arrive.
    """

    halt_counts, trip_counts = (5, 6, 8), (80, 100)

    def __init__(self, number, days=None):
        self.hops = 0
        super().__init__(number, days)

    def calls(self):
        """The stop, arrival and departure of each call of a trip: two of three go to the next place, wave by wave."""
        steps = self.random.randrange
        row = [*self.hubs.values(), *([halt] for halt in self.halts)]
        wave, first = divmod(self.hops, len(row) - 1)
        far, self.hops = 1, self.hops + 1
        if steps(3) == 0:
            self.hops -= 1
            wave, first, far = steps(wave + 1), steps(len(row) - 1), self.pick((2, 2, 3, 4, len(row)))
        time, running = 60 * (20 * wave + 16 * first), 60 * (6 + 4 * far)
        for stops in row[first : first + far + 1]:
            standing = self.unit * steps(2)
            yield self.pick(stops), time, time + standing
            time += standing + running + self.unit * steps(2)


class Places:
    """What Messages needs to know of a feed that is there already."""

    def __init__(self, random, plain):
        self.random, self.pick, self.options = random, random.choice, plain.options
        self.unit = random.choice((60, 60, 20))
        feed = plain.feed
        self.stops = [place for place in feed.stops if feed.is_stop(place)]
        stations = [place for place in feed.stops if feed.place_type(place) == "1"]
        self.hubs = {hub: [stop for stop in self.stops if feed.station(stop) == hub] for hub in stations}
        self.routes = sorted(feed.routes) or [""]


class Messages:
    """Draws lines in the present state of a plain program, for a few connections and their trains.

    Where journeys are watched, most of these connections are theirs.
    """

    def __init__(self, maker, plain, watching=None):
        self.random, self.pick, self.maker, self.plain = maker.random, maker.pick, maker, plain
        self.watching = watching
        self.pairs = [self.pair() for _ in range(5)]
        self.drawn, self.claims = [], []

    def lines(self, number, command=None):
        """Each line is drawn when the plain program has answered the lines before it; some are for a command alone."""
        draws = [self.value] * 12 + [self.choice] * 9 + [lambda: {"type": "flush"}]
        for feature, kinds in (
            ("reroutes", [self.reroute] * 5), ("cancellations", [self.cancel] * 2), ("extras", [self.extra] * 2),
            ("queries", [self.query] * 8), ("corrections", [self.correct] * 4 + [self.withdraw] * 2),
        ):  # fmt: skip
            draws += kinds if feature in SERVED else []
        draws += [self.claim] * 16 if command == "check" else []
        draws += [self.query] * 8 + [self.far_query] * 16 if command == "plans" else []
        draws += [self.departures] * 12 + [self.why] * 24 + [self.tie] * 8 if command == "desk" else []
        draws += [self.far_query] * 4 + [self.value_in_time] * 8 + [self.within] * 4 if self.watching else []
        draws += [self.correct] * 4 + [self.withdraw] * 4 if self.watching and "corrections" in SERVED else []
        for _ in range(number):
            if self.pick(range(2 if self.watching else 8)) == 0:
                self.pairs[self.pick(range(5))] = self.pair()
            message = self.pick(draws)()
            yield json.dumps({"v": self.version(message)} | message)

    def version(self, message):
        """A version that the line can have; at times version 1 where its type is not of that version."""
        if "corrections" not in SERVED:
            return 1
        return self.pick((1, *[2] * 15) if message["type"] in OF_VERSION_2 else (1, 2))

    def pair(self):
        """An arrival and a departure: of a watched journey, a planned connection, one that can be kept, or any."""
        if self.watching and self.watching.watched and self.pick(range(8)):
            watched = self.watching.watched
            broken = [journey for journey in watched if "broken" in journey.standing]
            found = [*connections_of(self.plain, self.pick(self.pick((watched, watched[-3:], broken or watched))))]
            if found:
                return self.pick(found)
        live = self.plain.live_events()
        arrivals, departures = ([event for event in live if event.kind == kind] for kind in ("arr", "dep"))
        planned = [(u, v) for v in departures for u in self.plain.planned[v] if u.live]
        newest = [pair for pair in planned if any(end.train in self.plain.trains[-4:] for end in pair)]
        u = self.pick(arrivals)
        near = [(u, v) for v in departures if v.scheduled >= u.scheduled and self.plain.feed.changes[u.stop, v.stop]]
        others = [(u, self.pick(departures))]
        return self.pick(self.pick((planned, planned, planned, newest, near, others)) or near or others)

    def event(self):
        """An event of the trains of the pairs, which may be cancelled, or any live one."""
        train = self.pick(self.pick(self.pairs)).train
        return self.pick(self.pick((train.events, train.events, train.events, self.plain.live_events())))

    def value(self):
        """A report or forecast, most times late; some are of feeders at about the departure, and some come again."""
        way = self.pick(range(3))
        if way == 0 and self.drawn:
            event, time = self.pick(self.drawn)
            time += self.pick((0, 0, 1, -1, -60, -900))
        elif way == 1:
            event, departure = self.pick(self.pairs)
            time = departure.scheduled + 60 * self.pick(range(-8, 8))
        else:
            event = self.event()
            time = event.scheduled + 20 * self.pick(range(-12, 100)) + self.pick((0, 0, 1))
        time = max(event.train.base, time)
        self.drawn.append((event, time))
        kind = self.pick(("report", *["forecast"] * 4))
        return self.named(event.name() | {"type": kind, "time": event.day_time(time)})

    def value_in_time(self):
        """A report or forecast by which a ride of a watched journey can just be taken, or just not, where it stays so.

        It is for the departure, or most times for the arrival before it.
        """
        found = [(journey, number) for journey in self.watching.watched for number in range(len(journey.rides))]
        if not found:
            return self.value()
        journey, number = self.pick(self.pick((found, found[-6:])))
        events = [events_of(self.plain, *ride) for ride in journey.rides[max(0, number - 1) : number + 1]]
        if [] in events:
            return self.value()
        arrival, event, times = events[0][-1], events[-1][0], self.plain.times
        if number == 0:
            time = journey.query.first_boarding(event.stop)
        else:
            time = journey.query.after_change(arrival.stop, times[arrival], event.stop)
        if time == math.inf:
            return self.value()
        if number and self.pick(range(4)):
            event, time = arrival, times[arrival] + times[event] - time
        time = max(event.train.base, time + self.pick((0, 0, 1, 1, -1, -1, 60, -60)))
        self.drawn.append((event, time))
        kind = self.pick(("report", "forecast", "forecast"))
        return self.named(event.name() | {"type": kind, "time": event.day_time(time)})

    def event_with(self, value):
        """An event that has a report or a forecast: of a train of the pairs, of one that has several, or any.

        At times it has none, on such a train or on any.
        """
        events = [event for train in self.plain.trains for event in train.events if event.live]
        having = [event for event in events if getattr(event, value) is not None]
        number = Counter(event.train.number for event in having)
        numbers = {end.train.number for pair in self.pairs for end in pair}
        near = [event for event in having if event.train.number in numbers]
        several = [event for event in having if number[event.train.number] > 1]
        beside = [event for event in events if event.train.number in number and event not in having]
        return self.pick(self.pick((*[near or having] * 3, *[several or having] * 4, beside, [])) or [self.event()])

    def correct(self):
        """No report any more, or another: a little off, or at that of another event of the train or about it."""
        event = self.event_with("report")
        reports = [v.report for v in event.train.events if v.live and v.report is not None and v is not event]
        time = self.pick((*reports, *reports, event.scheduled if event.report is None else event.report))
        time = max(event.train.base, time + self.pick((0, 0, 1, -1, 60, -60, 300, -900)))
        text = self.pick((None, *[event.day_time(time)] * 3))
        return self.named(event.name() | {"type": "correct", "time": text})

    def withdraw(self):
        return self.named(self.event_with("forecast").name() | {"type": "withdraw"})

    def choice(self):
        feeder, train = (self.named(event.train.name() | {"call": event.label}) for event in self.pick(self.pairs))
        return {"type": self.pick(("keep", "drop", "rule")), "feeder": feeder, "train": train}

    def stretch(self):
        """The departure of a call of a train of the pairs and the arrival of a later one, at times of any."""
        train = self.event().train
        departures, arrivals = ([event for event in train.events if event.kind == kind] for kind in ("dep", "arr"))
        legs = [*zip(departures, arrivals[1:])]
        legs = self.pick((legs, [leg for leg in legs if leg[0].live])) or legs
        first = self.pick(range(len(legs)))
        last = min(first + self.pick((0, 0, 1, 9)), len(legs) - 1)
        return legs[first][0], self.pick(arrivals) if self.pick(range(8)) == 0 else legs[last][1]

    def cancel(self):
        u, v = self.stretch()
        return self.named(u.train.name() | {"type": "cancel", "from": u.label, "to": v.label})

    def reroute(self):
        """Of a few stretches, one across a cancelled part goes before the others."""
        stretches = [self.stretch() for _ in range(6)]
        return self.reroute_between(*next((ends for ends in stretches if is_cut(*ends)), stretches[0]))

    def reroute_between(self, u, v):
        """A rerouting from one call to another, by way of up to three."""
        steps = range(max(1, (v.scheduled - u.scheduled) // self.maker.unit + 1))
        places = sorted(self.pick(steps) for _ in range(2 * self.pick((0, 1, 1, 2, 3))))
        via = self.calls([u.scheduled + self.maker.unit * place for place in places], u.train.base)
        return self.named(u.train.name() | {"type": "reroute", "from": u.label, "to": v.label, "via": via})

    def within(self):
        """Other calls within a ride of a watched journey, or a part of it without its ends that is cancelled."""
        rides = (events_of(self.plain, *ride) for journey in self.watching.watched for ride in journey.rides)
        long = [events for events in rides if len(events) > 4]
        if not long or self.pick(range(8)) == 0:
            return self.cancel()
        events = self.pick(long)
        if self.pick((True, False)):
            return self.reroute_between(events[0], events[-1])
        u, v = events[2], events[-3]
        return self.named(u.train.name() | {"type": "cancel", "from": u.label, "to": v.label})

    def extra(self):
        """A train near another one, with a new name most times. Its first arrival and its last departure are any."""
        near = self.event()
        step = self.maker.unit * self.pick((1, 5, 20))
        times = [near.scheduled + step * place for place in range(-2, self.pick((2, 3, 6)))]
        date = self.pick(self.plain.feed.dates)
        base = self.plain.feed.bases[date]
        calls = self.calls([max(base, time) for time in (self.pick(times), *times, self.pick(times))], base)
        trip = self.pick((near.train.trip, *[f"X{len(self.plain.trains)}"] * 8))
        route = self.pick(self.maker.routes)
        return self.named({"type": "extra", "trip": trip, "date": date, "route": route, "calls": calls})

    def query(self):
        """A query along a train, from one to another or between any places, at about a departure most times."""
        places = [*self.maker.hubs, *self.maker.stops, *(place for place, *_ in TRAINLESS)]
        feeder, departure = self.pick(self.pairs)
        ways = self.ride(), (feeder.train.events[1], departure.train.events[-2]), (self.event(), None)
        first, last = self.pick(ways)
        origin, destination = (first.stop, last.stop) if last else (self.pick(places), self.pick(places))
        time = self.plain.times.get(first, first.scheduled) + 60 * self.pick((-60, -10, -1, 0, 0, 1))
        date = self.pick(self.plain.feed.dates)
        time = max(0, self.pick((*[time - self.plain.feed.bases[date]] * 20, 0, 4 * DAY)))
        members = {"client": self.pick("abc"), "from": origin, "to": destination}
        message = {"type": "query"} | members | {"date": date, "time": time_text(time)}
        return message | self.pick((*BAD, *[{}] * 150))

    def far_query(self):
        return far_query(self.random, [*self.plain.current_rides().values()])

    def claim(self):
        """A claim that is right, at times in an earlier state; half have changes."""
        if not self.claims or self.pick(range(2)) == 0:
            self.claims.append(right_claim(self.plain, self.query()))
        claim = self.pick(self.claims[-4:])
        for _ in range(self.pick((0, 0, 0, 1, 1, 2))):
            claim = changed(self.random, claim, self.plain)
        return claim

    def tie(self):
        """A forecast by which a feeder asks for just the time that a departure has, or a keep of one that does."""
        times, changes = self.plain.times, self.plain.feed.changes
        several = [v for v in self.plain.live_events() if v.kind == "dep" and len(self.plain.planned[v]) > 1]
        arrivals = [u for u in self.plain.live_events() if u.kind == "arr"]
        if not several:
            return self.choice()
        v = self.pick(several)
        near = [u for u in arrivals if u.train is not v.train and changes[u.stop, v.stop] is not None]
        asking = [u for u in near if times[u] + changes[u.stop, v.stop] == times[v]]
        if asking and self.pick(range(3)) == 0:
            feeder, train = (end.train.name() | {"call": end.label} for end in (self.pick(asking), v))
            return {"type": "keep", "feeder": feeder, "train": train}
        u = self.pick(self.pick(([*self.plain.planned[v]], near)))
        time = max(u.train.base, times[v] - changes[u.stop, v.stop])
        return self.named(u.name() | {"type": "forecast", "time": u.day_time(time)})

    def departures(self):
        """The board of any place, most times of that of an event, at about its time."""
        event = self.event()
        places = [*self.maker.hubs, *self.maker.stops, *(place for place, *_ in TRAINLESS)]
        stop = self.pick((*[event.stop] * 3, self.pick(places)))
        date = self.pick(self.plain.feed.dates)
        time = self.plain.times.get(event, event.scheduled) + self.pick((0, 0, 1, -1, -60, -900, -3600))
        time = max(0, time - self.plain.feed.bases[date])
        rows = self.pick((*[1, 2, 3, 5, 20, 100] * 8, 0, 101))
        members = {"client": self.pick("abc"), "stop": stop, "date": date, "time": time_text(time), "rows": rows}
        message = {"type": "departures"} | members
        other = self.pick((*BAD, *[{}] * 150))
        return message | other if other.keys() <= message.keys() else message

    def why(self):
        """The chain of an event, most times of one that is late; most of these are of trains of the pairs."""
        event = self.event()
        late = [v for v in self.plain.live_events() if self.plain.times[v] > v.scheduled]
        held = [v for v in late if v.kind == "dep" and (self.plain.planned[v] or self.plain.overrides[v])]
        near = [v for v in late if any(v.train is end.train for pair in self.pairs for end in pair)]
        capped = [v for v in self.plain.live_events() if self.plain.times[v] < v.scheduled]
        event = self.pick(self.pick((late, held, held, near, near, capped)) or [event])
        return self.named(event.name() | {"type": "why"})

    def ride(self):
        """A departure and a later arrival of a train of the pairs, across a cancelled part where there is one."""
        trains = {id(end.train): end.train for pair in self.pairs for end in pair}
        stretches = (itertools.combinations(train.events, 2) for train in trains.values())
        cut = [(u, v) for u, v in itertools.chain(*stretches) if (u.kind, v.kind) == ("dep", "arr") and is_cut(u, v)]
        return self.pick(cut or [self.stretch()])

    def calls(self, times, base):
        """New calls with these times, two for each; now and then the times stand in any order, or a stop is none."""
        if times and self.pick(range(8)) == 0:
            self.random.shuffle(times)
        stops = self.pick((self.maker.stops, *[self.maker.stops] * 20, ("H0", "ENTRANCE", "NONE")))
        texts = [time_text(time - base) for time in times]
        return [{"stop": self.pick(stops), "arr": arr, "dep": dep} for arr, dep in zip(texts[::2], texts[1::2])]

    def named(self, message):
        """The message, at times with a name that is not known."""
        other = self.pick((*UNKNOWN, *[{}] * 150))
        return message | other if other.keys() <= message.keys() else message


def connections_of(plain, journey):
    """The connections of a watched journey, each an arrival and a departure that its trains still have.

    A journey of one ride has its arrival and its departure.
    """
    for before, ride in [*itertools.pairwise(journey.rides)] or zip(journey.rides, journey.rides):
        u, v = plain.event("arr", *before[:2], before[3]), plain.event("dep", *ride[:3])
        if u and v:
            yield u, v


def far_query(random, rides):
    """A query from where a ride begins to where one ends, at any time before the first of the two leaves."""
    u, v = random.choice(rides).u, random.choice(rides).v
    time = random.randrange(max(0, u.scheduled - u.train.base) + 1)
    members = {"client": random.choice("abc"), "from": u.stop, "to": v.stop}
    return {"type": "query"} | members | {"date": u.train.date, "time": time_text(time)}


def is_cut(u, v):
    """Whether two events of a train are live and one between them is not."""
    return u.live and v.live and not all(event.live for event in u.train.events[place_of(u) : place_of(v) + 1])
