"""Watched journeys for tools/plain_program.py: how a journey stands, and what `watch` replies and tells.

Ride i of a journey, counted from 0, holds where its train still has both calls, the boarding call before the alighting
one, all events from its departure to its arrival are live, and its departure may be the first of the query's journey
(i is 0), or a change from where ride i - 1 arrives is done by then. The standing of a journey is the first ride that
does not hold, or else when the last ride arrives, and without a ride the time of the query. Whether passengers may
board and alight at the calls is not asked again. After each message all journeys are looked at.
"""

import json

from plain_feed import time_text
from plain_journeys import Journeys
from plain_lines import Bad
from plain_program import answer_of, numbered
from plain_serve import is_right

MOST = 10_000


class Asked(Journeys):
    """The journeys of a query of the service day of a base."""

    def __init__(self, feed, rides, origin, destination, time, base):
        super().__init__(feed, rides, origin, destination, time)
        self.base = base


class Watched:
    """A journey that is watched: the line of its query, the query, its rides by name, and the standing that is kept."""

    def __init__(self, number, query, rides, standing):
        self.number, self.query, self.standing = number, query, standing
        self.rides = [(ride.u.train.trip, ride.u.train.date, ride.u.label, ride.v.label) for ride in rides]

    def standing_in(self, plain):
        """How the journey stands in the present state, as an alert shows it."""
        arrives, before = self.query.time, None
        for number, ride in enumerate(self.rides):
            events = events_of(plain, *ride)
            if not events or not self.can_board(events[0], plain.times[events[0]], before, arrives):
                return {"broken": number}
            before = events[-1].stop
            arrives = plain.times[events[-1]]
        return {"arrives": time_text(arrives - self.query.base)}

    def can_board(self, departure, departs, before, arrives):
        """Whether a departure may be the first one, or the one behind an arrival at the stop before it."""
        query = self.query
        if before is None:
            return query.first_boarding(departure.stop) <= departs
        return query.after_change(before, arrives, departure.stop) <= departs


def events_of(plain, trip, date, board, alight):
    """The events from a departure to a later arrival of a train, if all of them take place; else none."""
    events = plain.stretch({"trip": trip, "date": date, "from": board, "to": alight})
    return events if all(event.live for event in events) else []


class Watching:
    """A plain program whose lines are answered as `watch` answers them."""

    def __init__(self, plain):
        self.plain, self.watched = plain, []

    def taken(self, message):
        """The reply to what a line says, without its number; that to a query is to be judged."""
        try:
            return self.answer(message) if message["type"] == "query" else self.plain.taken(message)
        except Bad as bad:
            return {"bad": str(bad)}

    def answer(self, query):
        """The answer to a query, and whether its journey is watched from then on."""
        plain, (base, time) = self.plain, self.plain.asked(query)
        asked = Asked(plain.feed, plain.current_rides(), query["from"], query["to"], time, base)
        is_watched = asked.arrives is not None and len(self.watched) < MOST
        return answer_of(asked, base, plain.accepted) | {"watched": is_watched}

    def follow(self, number, reply, rides):
        """What is told behind the reply to a line. The journey of these rides is watched where the reply says so."""
        if reply.get("watched"):
            self.watched.append(Watched(number, reply["rides"], rides, {"arrives": reply["arrives"]}))
        return [*self.alerts()] if "accepted" in reply else []

    def alerts(self):
        """The journeys with another standing than is kept, which is then kept."""
        for journey in self.watched:
            standing = journey.standing_in(self.plain)
            if standing != journey.standing:
                journey.standing = standing
                yield {"alert": journey.number} | standing


def kind_of(alert, broken):
    """What an alert tells, beside the numbers of the journeys that were broken before it."""
    number, was_broken = alert["alert"], alert["alert"] in broken
    if "broken" in alert:
        broken.add(number)
        return "broken at another ride" if was_broken else "broken"
    broken.discard(number)
    return "whole again" if was_broken else "at another time"


def output_fault(watching, messages, got, counts):
    """What is wrong with an output of `watch` as a list of lines, of which the last has no end; or None.

    Each message is what a line of the input says, or the word for a bad one. Of the journeys that arrive as early any
    may be shown, and the one that is shown is watched. What is told is counted.
    """
    texts, broken = iter(got), set()
    for number, message in enumerate(messages, 1):
        reply = {"bad": message} if isinstance(message, str) else watching.taken(message)
        text = next(texts, None)
        if not is_right(reply, number, text):
            return f"the reply to line {number} is {text!r}, wanted {reply!r}; it answers {message}"
        rides = reply["rides"].named(json.loads(text)["rides"]) if "rides" in reply else []
        for alert in watching.follow(number, reply, rides):
            text = next(texts, None)
            if text != numbered(alert, number):
                return f"behind the reply to line {number} stands {text!r}, wanted {alert!r}; it answers {message}"
            counts[kind_of(alert, broken)] += 1
        counts["watched"] += bool(reply.get("watched"))
    rest = [*texts]
    return None if rest == [""] else f"behind the last reply stands {rest!r}"
