"""Claims for tools/plain_program.py: what a claim of docs/FORMATS.md says, when it is right, and what `check` replies.

A claim gives a query, when its journey arrives or that there is none, the rides of that
journey, and stops with times. It is right where is_certificate says so. All rides of the
present state are tried for that, and no search is run.
"""

import re
from collections import namedtuple

from plain_feed import seconds_of, time_text
from plain_journeys import Journeys, Question
from plain_lines import Bad
from plain_program import answer_of
from plain_tables import is_date

# Times of claims have more hours than others, and are below this number of seconds.
CLAIM_TIME = re.compile("[0-9]{1,4}:[0-5][0-9]:[0-5][0-9]")
TIMES = 2**25

# What a claim says by the names of a feed: the query, when its journey arrives, the rides by the trip, the date and the
# labels of their calls, and the stops with times.
Claim = namedtuple("Claim", "question arrives rides reached")


def claim_time(text, base):
    """The time of a text of a claim."""
    if not CLAIM_TIME.fullmatch(text) or seconds_of(text, base) >= TIMES:
        raise Bad("time")
    return seconds_of(text, base)


def ride_name(ride):
    """The name of a ride of a claim."""
    if not is_date(ride["date"]):
        raise Bad("time")
    return ride["trip"], ride["date"], ride["board"], ride["alight"]


def reached_stop(stop, base):
    """A stop with a time of a claim."""
    return stop["stop"], claim_time(stop["time"], base)


def read_claim(plain, message):
    """What a claim says in the present state; or it raises Bad with the first fault behind those of its shape."""
    plain.check_places(message)
    if not all(plain.feed.is_stop(stop["stop"]) for stop in message["reached"]):
        raise Bad("stop")
    base, time = plain.asked(message)
    arrives = None if message["arrives"] is None else claim_time(message["arrives"], base)
    rides = [ride_name(ride) for ride in message["rides"]]
    reached = [reached_stop(stop, base) for stop in message["reached"]]
    question = Question(plain.feed, plain.current_rides(), message["from"], message["to"], time)
    return Claim(question, arrives, rides, reached)


def is_right(claim):
    """Whether a claim names rides that are there, and its stops show that its arrival is the earliest."""
    rides = [claim.question.rides.get(name) for name in claim.rides]
    return None not in rides and is_certificate(claim.question, claim.arrives, rides, claim.reached)


def is_certificate(question, arrives, rides, reached):
    """Whether an answer to a query is right, and stops with times show it.

    A time is early where it is before the arrival, and any time is where there is none.
    """
    return (
        are_early_stops(question.feed, arrives, reached)
        and is_answer(question, arrives, rides)
        and all(is_had(ride, reached) for ride in question.open_rides(dict(reached)) if is_early_ride(ride, arrives))
        and not any(question.ends_at(stop) for stop, _ in reached)
    )


def is_early(time, arrives):
    return arrives is None or time < arrives


def are_early_stops(feed, arrives, reached):
    """Whether these are stops, each behind the one before it in stops.txt, with early times."""
    order = {stop: number for number, stop in enumerate(feed.stops)}
    numbers = [order[stop] for stop, _ in reached]
    are_stops = all(feed.is_stop(stop) and is_early(time, arrives) for stop, time in reached)
    return are_stops and all(one < other for one, other in zip(numbers, numbers[1:]))


def is_answer(question, arrives, rides):
    """Whether the rides are a journey that arrives then; nobody travels within a station, nor where nothing arrives."""
    is_within = question.ends_at(question.origin)
    if arrives is None:
        return not rides and not is_within
    return question.are_journey(rides, arrives) and (arrives == question.time or not is_within)


def is_early_ride(ride, arrives):
    return is_early(ride.departs, arrives) and is_early(ride.arrives, arrives)


def is_had(ride, reached):
    """Whether a ride ends at a stop that is reached by then."""
    return any(stop == ride.v.stop and time <= ride.arrives for stop, time in reached)


class Reached:
    """What a reply of `check` to a query may have as `reached`, by its journeys and the base of its day."""

    def __init__(self, journeys, base):
        self.journeys, self.base = journeys, base

    def __repr__(self):
        return f"what shows it {self.journeys}"

    def shown(self, given, rides):
        """How a reply shows these stops where they show that its rides arrive first, or its lack of rides; or None.

        No time is before that of the query.
        """
        stops = [(stop["stop"], seconds_of(stop["time"], self.base)) for stop in given]
        if not is_certificate(self.journeys, self.journeys.arrives, rides, stops):
            return None
        if any(time < self.journeys.time for _, time in stops):
            return None
        return self.texts(stops)

    def usual(self):
        """The stops that a reply shows most times: each that is reached before the arrival, with the earliest time."""
        return self.texts(self.journeys.early_stops())

    def texts(self, stops):
        return [{"stop": stop, "time": time_text(time - self.base)} for stop, time in stops]


class Checked:
    """A plain program whose lines are answered as `check` answers them."""

    def __init__(self, plain):
        self.plain = plain

    def taken(self, message):
        """The reply to what a line says, without its number; that to a query is to be judged."""
        try:
            if message["type"] == "claim":
                return {"claim": is_right(read_claim(self.plain, message))}
            return self.answer(message) if message["type"] == "query" else self.plain.taken(message)
        except Bad as bad:
            return {"bad": str(bad)}

    def answer(self, query):
        """The answer to a query, and what its reply may have as `reached`."""
        plain, (base, time) = self.plain, self.plain.asked(query)
        journeys = Journeys(plain.feed, plain.current_rides(), query["from"], query["to"], time)
        return answer_of(journeys, base, plain.accepted) | {"reached": Reached(journeys, base)}
