"""Boards and chains for tools/plain_program.py: what departs from a station next, and why an event is when it is.

The board of a station has its live departures that passengers may board, from a time on, by their times and keys. The
chain of an event leads from it back to what decides its time. What decides is the first of these that gives just that
time: its report; a later report of its train, where that is before what the event is due; its schedule or its forecast;
the train itself, as it runs or stops; a connection that holds it by a waiting rule; one that only a dispatcher keeps.
Every event and every edge is looked at for each reply.
"""

import itertools

from plain_lines import Bad
from plain_program import UNKNOWN, after, first_reported

# What an edge can be, in the order in which it is named.
EDGES = "run", "stop", "hold", "kept"


class Desk:
    """A plain program whose lines are answered as `desk` answers them."""

    def __init__(self, plain):
        self.plain = plain

    def taken(self, message):
        """The reply to what a line says, without its number; that to a query is to be judged."""
        answer = {"departures": self.departures, "why": self.why}.get(message["type"], self.plain.taken)
        try:
            return answer(message)
        except Bad as bad:
            return {"bad": str(bad)}

    def departures(self, message):
        """The board of the station of a stop."""
        plain, stop = self.plain, message["stop"]
        _, since = plain.asked(message | {"from": stop, "to": stop})
        events = [event for event in plain.live_events() if event.kind == "dep" and event.is_open]
        here = [event for event in events if plain.feed.station(event.stop) == plain.feed.station(stop)]
        timed = sorted((plain.times[event], event.key(), event) for event in here if plain.times[event] >= since)
        rows = [self.row(event) for *_, event in timed[: message["rows"]]]
        return {"after": plain.accepted, "departures": rows}

    def row(self, event):
        """A departure as a board shows it."""
        times = {"scheduled": event.day_time(event.scheduled), "time": event.day_time(self.plain.times[event])}
        return event.train.name() | {"call": event.label, "stop": event.stop, "to": goes_to(event)} | times

    def why(self, message):
        """The chain of an event."""
        event = self.plain.live_event(message)
        if event is None:
            return UNKNOWN
        return {"after": self.plain.accepted, "because": [*self.chain(event)]}

    def chain(self, event):
        """The links from an event back, each as a reply shows it."""
        while event is not None:
            word, before = self.cause(event)
            yield event.name() | {"by": word, "time": event.day_time(self.plain.times[event])}
            event = before

    def cause(self, v):
        """The word of what decides the time of an event, and the event that it names, or None."""
        if v.report is not None:
            return "report", None
        floor, asked = floor_of(v), [*self.asked(v)]
        due = max([floor, *(time for time, *_ in asked)])
        reported = first_reported(after(v))
        if reported and reported.report < due:
            return "capped", reported
        if floor == due:
            return floor_word(v), None
        deciding = [(EDGES.index(word), u.key(), u) for time, word, u in asked if time == due]
        place, _, u = min(deciding)
        return EDGES[place], u

    def asked(self, v):
        """For each edge into an event that counts the time that it asks for, its word, and where it comes from."""
        along = (edge for edge in self.plain.train_edges(v.train.events) if edge.v is v)
        for edge in (*along, *self.plain.transfer_edges(v)):
            time = self.plain.times[edge.u] + edge.least
            if edge.limit is None or time <= edge.limit:
                yield time, self.word(edge, time), edge.u

    def word(self, edge, time):
        """The word of an edge that asks for a time: a connection is held where its rule alone would hold it so long."""
        if edge.u.train is edge.v.train:
            return "run" if edge.u.kind == "dep" else "stop"
        planned = self.plain.planned[edge.v].get(edge.u)
        return "hold" if planned and time <= planned.limit else "kept"


def goes_to(event):
    """The stop of the last call that a train reaches from a departure, with all events between live."""
    live = itertools.takewhile(lambda v: v.live, after(event))
    return [v.stop for v in live if v.kind == "arr"][-1]


def floor_of(v):
    """The earliest time of an event by its schedule and its forecast."""
    floor = v.scheduled if v.forecast is None else v.forecast
    return max(floor, v.scheduled) if v.kind == "dep" else floor


def floor_word(v):
    """What makes the floor: of a departure the forecast only where it is later than the schedule."""
    is_late = v.forecast is not None and (v.kind == "arr" or v.forecast > v.scheduled)
    return "forecast" if is_late else "schedule"
