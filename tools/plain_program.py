"""The rules of docs/MODEL.md as a plain, slow program, to be read beside that page.

It reads a feed from its folder, or takes one that tools/plain_tables.py has read, and
answers lines as `traind times` does, from Monday 2026-01-05 where the feed does not
say another day: all ten messages, queries, and flush lines. A query is also
answered by the rides of an earlier state, as `traind serve` may. It takes feeds
that are not refused. It does nothing fast: every pair of events is tried for a
planned connection, and after each message every event gets its time anew. The
feed is read by tools/plain_feed.py, lines by tools/plain_lines.py, and journeys
are found by tools/plain_journeys.py; the program tools/compare runs all this.
"""

import itertools
import json
import re
from collections import namedtuple

from plain_feed import Feed, Train, seconds_of, time_text
from plain_journeys import Journeys, rides_of
from plain_lines import Bad, read_line
from plain_tables import is_time
from plain_zone import UTC

DEFAULTS = {
    "days": 1, "slack": 7, "stop": 60, "change": 180, "window": 1800,
    "spare-trains": 200, "spare-calls": 4000, "overrides": 10_000, "zone": UTC,
}  # fmt: skip
UNKNOWN, NOTHING = {"refused": "Unknown"}, {"refused": "Nothing"}

# Event v is not before event u plus the least time; a train edge and a kept connection have no limit (None).
Edge = namedtuple("Edge", "u v least limit")


class Plain:
    """The first state of a feed, and the messages that come to it."""

    def __init__(self, folder, options, feed=None):
        self.options = options = DEFAULTS | options
        self.feed = feed or Feed(folder, options["days"], options["change"], zone=options["zone"])
        self.trains = self.feed.trains()
        self.spare = {"trains": self.options["spare-trains"], "calls": self.options["spare-calls"]}
        # For each departure, the planned connections by feeder; and what was chosen for each feeder: keep or drop.
        self.planned, self.overrides = {}, {}
        self.plan({*self.live_events()})
        self.times, self.rides = self.event_times(), None
        self.accepted = 0

    def live_events(self):
        """All live events, in the order of their keys."""
        events = (event for train in self.trains for event in train.events if event.live)
        return sorted(events, key=lambda event: event.key())

    # Section 3: edges.

    def plan(self, new):
        """Finds the planned connections of a set of new events with all that are live."""
        for v in new:
            self.planned[v], self.overrides[v] = {}, {}
        live = self.live_events()
        arrivals, departures = ([event for event in live if event.kind == kind] for kind in ("arr", "dep"))
        from_new = ((u, v) for u in arrivals if u in new for v in departures)
        to_new = ((u, v) for v in departures if v in new for u in arrivals)
        for u, v in itertools.chain(from_new, to_new):
            edge = self.planned_edge(u, v)
            if edge:
                self.planned[v][u] = edge

    def planned_edge(self, u, v):
        """The edge of a planned connection, or None where it is not planned."""
        w = self.feed.changes[u.stop, v.stop]
        if u.train is v.train or w is None or not 0 <= v.scheduled - u.scheduled - w <= self.options["window"]:
            return None
        wait = self.feed.wait(u.train.route, v.train.route, v.stop)
        return Edge(u, v, w, v.scheduled + wait) if wait > 0 else None

    def train_edge(self, u, v):
        """The edge between two neighbouring live events of a train."""
        d = max(0, v.scheduled - u.scheduled)
        travelling = u.kind == "dep"
        least = d - d * self.options["slack"] // 100 if travelling else min(d, self.options["stop"])
        return Edge(u, v, least, None)

    def train_edges(self, events):
        """The edges along a train."""
        return (self.train_edge(u, v) for u, v in itertools.pairwise(events) if u.live and v.live)

    def transfer_edges(self, v):
        """The edges into a departure that no override replaces, and those of the kept connections."""
        planned, chosen = self.planned[v], self.overrides[v]
        yield from (edge for u, edge in planned.items() if u.live and u not in chosen)
        yield from (Edge(u, v, self.feed.changes[u.stop, v.stop], None) for u in chosen if chosen[u] == "keep")

    # Section 4: event time.

    def event_times(self):
        """The time of each live event; each edge leads from a smaller key to a greater one."""
        train_edges = {edge.v: edge for train in self.trains for edge in self.train_edges(train.events)}
        times = {}
        for v in self.live_events():
            edges = [*self.transfer_edges(v), *([train_edges[v]] if v in train_edges else [])]
            times[v] = due_time(v, edges, times) if v.report is None else v.report
        return times

    # Sections 6 and 7: each `take` answers the refusal; or else None, and the message has its effect.

    def train(self, trip, date):
        """The train of this name, or None."""
        return next((train for train in self.trains if (train.trip, train.date) == (trip, date)), None)

    def event(self, kind, trip, date, call):
        """The event of this name, or None."""
        train = self.train(trip, date)
        events = train.events if train else ()
        return next((event for event in events if (event.label, event.kind) == (call, kind)), None)

    def live_event(self, message):
        """The event that a message names, or None where it is not there or not live."""
        event = self.event(message["event"], message["trip"], message["date"], message["call"])
        return event if event and event.live else None

    def take_value(self, message):
        """Report and forecast."""
        event = self.live_event(message)
        if event is None:
            return UNKNOWN
        time = seconds_of(message["time"], event.train.base)
        contradicted = first_contradicted(event, time)
        if contradicted:
            return contradiction(contradicted)
        setattr(event, message["type"], time)
        return None

    def take_correct(self, message):
        """The report that is replaced contradicts nothing; where there is none, there is nothing to correct."""
        event = self.live_event(message)
        if event is None:
            return UNKNOWN
        time = None if message["time"] is None else seconds_of(message["time"], event.train.base)
        contradicted = time is not None and first_contradicted(event, time, is_replaced=True)
        if contradicted:
            return contradiction(contradicted)
        if event.report is None:
            return NOTHING
        event.report = time
        return None

    def take_withdraw(self, message):
        event = self.live_event(message)
        if event is None:
            return UNKNOWN
        if event.forecast is None:
            return NOTHING
        event.forecast = None
        return None

    def stretch(self, message):
        """The events from the departure of one call to the arrival of a later one; none where they are not there so."""
        ends = ("dep", message["from"]), ("arr", message["to"])
        u, v = (self.event(kind, message["trip"], message["date"], call) for kind, call in ends)
        return u.train.events[place_of(u) : place_of(v) + 1] if u and v else []

    def take_cancel(self, message):
        stretch = self.stretch(message)
        if not stretch:
            return UNKNOWN
        reported = first_reported(stretch)
        if reported:
            return contradiction(reported)
        self.take_out(stretch)
        return None

    def take_reroute(self, message):
        stretch = self.stretch(message)
        if not stretch or not (stretch[0].live and stretch[-1].live and self.are_at_stops(message["via"])):
            return UNKNOWN
        train = stretch[0].train
        reported = first_reported(after(stretch[0]))
        if reported:
            return contradiction(reported)
        new = list(train.new_calls(read_calls(message["via"], train.base)))
        events = [*train.events[: place_of(stretch[0]) + 1], *new, *train.events[place_of(stretch[-1]) :]]
        refusal = self.against_rank(self.train_edges(events)) or self.shortage(calls=len(message["via"]))
        if refusal:
            return refusal
        self.take_out(stretch[1:-1])
        train.events, train.next_label = events, train.next_label + len(message["via"])
        self.spare["calls"] -= len(message["via"])
        self.plan({*new})
        return None

    def take_extra(self, message):
        bases, date = self.feed.bases, message["date"]
        if date not in bases or message["route"] not in self.feed.routes:
            return UNKNOWN
        if not self.are_at_stops(message["calls"]):
            return UNKNOWN
        if self.train(message["trip"], date):
            return {"refused": "Known"}
        train = Train(len(self.trains), message["trip"], message["route"], date, bases[date])
        train.begin(read_calls(message["calls"], train.base))
        refusal = self.against_rank(self.train_edges(train.events)) or self.shortage(trains=1, calls=train.next_label)
        if refusal:
            return refusal
        self.trains.append(train)
        self.spare["trains"] -= 1
        self.spare["calls"] -= train.next_label
        self.plan({event for event in train.events if event.live})
        return None

    def take_choice(self, message):
        """Keep, drop and rule."""
        u, v = self.event("arr", **message["feeder"]), self.event("dep", **message["train"])
        if not (u and v and u.live and v.live):
            return UNKNOWN
        w = self.feed.changes[u.stop, v.stop]
        if u.train is v.train or w is None:
            return {"refused": "NoConnection"}
        if message["type"] == "rule":
            self.overrides[v].pop(u, None)
            return None
        if v.report is not None:
            return contradiction(v)
        refusal = message["type"] == "keep" and self.against_rank([Edge(u, v, w, None)])
        if refusal:
            return refusal
        if u not in self.overrides[v] and sum(map(len, self.overrides.values())) == self.options["overrides"]:
            return full("overrides")
        self.overrides[v][u] = message["type"]
        return None

    # Section 10: the answer to a query.

    def current_rides(self):
        """All rides of the present state."""
        if self.rides is None:
            self.rides = rides_of(self.trains, self.times)
        return self.rides

    def check_places(self, query):
        """Raises Bad where a place of a query is none."""
        places = query["from"], query["to"]
        if not all(place in self.feed.stops and self.feed.place_type(place) in "01" for place in places):
            raise Bad("stop")

    def asked(self, query):
        """The base of the service day of a query, and its time; or it raises Bad with the fault of its names."""
        self.check_places(query)
        bases = self.feed.bases
        if query["date"] not in bases or not is_time(query["time"]):
            raise Bad("time")
        base = bases[query["date"]]
        return base, seconds_of(query["time"], base)

    def answer(self, query, after, rides):
        """The answer to a query after so many accepted messages, by the rides of the state that they leave."""
        try:
            base, time = self.asked(query)
        except Bad as bad:
            return {"bad": str(bad)}
        return answer_of(Journeys(self.feed, rides, query["from"], query["to"], time), base, after)

    def are_at_stops(self, calls):
        return all(self.feed.is_stop(call["stop"]) for call in calls)

    def against_rank(self, edges):
        """The refusal for the first of these edges that is against rank, or None."""
        for u, v, least, _ in edges:
            if u.key() >= v.key() or u.scheduled + least > v.scheduled:
                return {"refused": "AgainstRank", "from": u.name(), "to": v.name()}
        return None

    def shortage(self, **needed):
        """The refusal for the first thing of which more is needed than is spare, or None."""
        return next((full(what) for what, number in needed.items() if number > self.spare[what]), None)

    def take_out(self, events):
        """These events are live no more, and no override names them."""
        for event in events:
            event.live = False
        for v, chosen in self.overrides.items():
            self.overrides[v] = {u: choice for u, choice in chosen.items() if u.live and v.live}

    # Sections 8 and 9: the replies, and the table.

    def reply(self, line):
        """The reply to a line, without its number."""
        try:
            return self.taken(read_line(line.encode()))
        except Bad as bad:
            return {"bad": str(bad)}

    def taken(self, message):
        """The reply to what a line says, without its number."""
        if message["type"] == "flush":
            return {"flush": self.accepted}
        if message["type"] == "query":
            return self.answer(message, self.accepted, self.current_rides())
        take = TAKES[message["type"]]
        refusal = take(self, message)
        if refusal:
            return refusal
        before, self.times, self.rides = self.times, self.event_times(), None
        self.accepted += 1
        changed = sum(before.get(v) != self.times.get(v) for v in before.keys() | self.times.keys())
        return {"accepted": self.accepted, "changed": changed}

    def table(self):
        """The lines of the table of times."""
        yield "trip,date,call,stop,event,scheduled,time"
        for v in (event for train in self.trains for event in train.events if event.live):
            times = v.day_time(v.scheduled), v.day_time(self.times[v])
            fields = v.train.trip, v.train.date, str(v.label), v.stop, v.kind, *times
            yield ",".join(quoted(field) for field in fields)


TAKES = {
    "report": Plain.take_value,
    "forecast": Plain.take_value,
    "correct": Plain.take_correct,
    "withdraw": Plain.take_withdraw,
    "cancel": Plain.take_cancel,
    "reroute": Plain.take_reroute,
    "extra": Plain.take_extra,
    "keep": Plain.take_choice,
    "drop": Plain.take_choice,
    "rule": Plain.take_choice,
}


def answer_of(journeys, base, after):
    """The answer to a query of the service day of a base.

    It has journeys in place of one; a reply may show any of them that arrives then.
    """
    if journeys.arrives is None:
        return {"after": after, "arrives": None}
    return {"after": after, "arrives": time_text(journeys.arrives - base), "rides": journeys}


def due_time(v, edges, times):
    """The time of an event without report, from the edges into it and the times of the events before it by key."""
    floor = v.scheduled if v.forecast is None else v.forecast
    if v.kind == "dep":
        floor = max(floor, v.scheduled)
    asked = ((times[edge.u] + edge.least, edge.limit) for edge in edges)
    due = max([floor, *(time for time, limit in asked if limit is None or time <= limit)])
    reported = first_reported(after(v))
    return min(reported.report, due) if reported else due


def place_of(event):
    return event.train.events.index(event)


def after(event):
    """The events after an event, in the order of its train."""
    return event.train.events[place_of(event) + 1 :]


def read_calls(calls, base):
    """The calls of a line, where passengers may alight and board."""
    return [(call["stop"], *((seconds_of(call[kind], base), True) for kind in ("arr", "dep"))) for call in calls]


def first_reported(events, contradicts=lambda report: True):
    """The first of these events that is live and reported, at a time for which a test holds; or None."""
    reported = (event for event in events if event.live and event.report is not None)
    return next((event for event in reported if contradicts(event.report)), None)


def first_contradicted(event, time, is_replaced=False):
    """The first event, in the order of the train, whose report does not go with this time of an event; or None.

    A report of the event itself does not count where the message replaces it.
    """
    before = event.train.events[: place_of(event)]
    return (
        first_reported(before, lambda report: report > time)
        or first_reported([] if is_replaced else [event], lambda report: report != time)
        or first_reported(after(event), lambda report: report < time)
    )


def contradiction(event):
    """The refusal that shows a reported event."""
    return {"refused": "Contradiction", "event": event.name(), "reported": event.day_time(event.report)}


def full(what):
    return {"refused": "Full", "full": what}


def quoted(field):
    """A field of the table, in quotes where CSV needs them."""
    return '"' + field.replace('"', '""') + '"' if re.search('[",\r\n]', field) else field


def compact(value):
    """The text of an object, with its members in the order of their names and without blanks."""
    return json.dumps(value, separators=(",", ":"), sort_keys=True, ensure_ascii=False)


def numbered(reply, line):
    """The text of a reply, with the number of its line."""
    return compact(reply | {"line": line})
