"""Plans for tools/plain_program.py: which lists of journeys are a front of a query, and what `plans` replies.

A front is a list of journeys of a query with at most so many rides. Along it the numbers of rides rise and the arrivals
fall, and each journey of the query with at most so many rides has one in it that arrives no later and has no more
rides. So there is one journey in it for each number of rides with which one arrives earlier than any with fewer. For
each number all rides of the state are tried.
"""

import math

from plain_certificates import Checked
from plain_desk import Desk
from plain_feed import seconds_of, time_text
from plain_journeys import Question, shown
from plain_lines import Bad
from plain_watch import Watching

USUAL_RIDES = 4


class Front(Question):
    """The fronts of a query of the service day of a base, with at most so many rides.

    `reached` has for each number of rides, from none on, the stops where at most so many rides can bring a passenger,
    each with the earliest time. `bests` has when each journey of a front arrives, and the number of its rides.
    """

    def __init__(self, feed, rides, origin, destination, time, base, most):
        super().__init__(feed, rides, origin, destination, time)
        self.base, self.reached = base, [{}]
        for _ in range(most):
            self.reached.append(first_arrivals(self.open_rides(self.reached[-1])))
        arrivals = [self.arrival(reached) for reached in self.reached]
        self.bests = [
            (arrives, number)
            for number, arrives in enumerate(arrivals)
            if arrives < min(arrivals[:number], default=math.inf)
        ]

    def __repr__(self):
        return f"{[(time_text(arrives - self.base), number) for arrives, number in self.bests]} {super().__repr__()}"

    def arrival(self, reached):
        """When the first journey arrives that ends at a stop that is reached, or at once; never is infinite."""
        at_once = [self.time] if self.ends_at(self.origin) else []
        return min([*at_once, *(time for stop, time in reached.items() if self.ends_at(stop))], default=math.inf)

    def shown(self, given):
        """How a reply shows these plans where they are a front; or None."""
        plans = [(seconds_of(plan["arrives"], self.base), self.named(plan["rides"])) for plan in given]
        are_best = [(arrives, len(rides)) for arrives, rides in plans] == self.bests
        are_journeys = all(self.are_journey(rides, arrives) for arrives, rides in plans)
        return self.texts(plans) if are_best and are_journeys else None

    def usual(self):
        """A front, as a reply shows it."""
        return self.texts([(arrives, self.journey(arrives, number)) for arrives, number in self.bests])

    def texts(self, plans):
        return [
            {"arrives": time_text(arrives - self.base), "rides": [*map(shown, rides)]} for arrives, rides in plans
        ]  # fmt: skip

    def journey(self, arrives, number):
        """The rides of a journey that arrives then with at most so many."""
        ends = [stop for stop in self.feed.stops if self.ends_at(stop)]
        return self.way_to(ends, arrives, number) if number else []

    def way_to(self, stops, arrives, number):
        """At most so many rides that begin a journey, the last of which arrives then at one of these stops."""
        before = self.reached[number - 1]
        taken = self.open_rides(before)
        last = next(ride for ride in taken if ride.v.stop in stops and ride.arrives == arrives)
        if self.first_boarding(last.u.stop) <= last.departs:
            return [last]
        in_time = (stop for stop, time in before.items() if self.after_change(stop, time, last.u.stop) <= last.departs)
        stop = next(in_time)
        return [*self.way_to([stop], before[stop], number - 1), last]


def first_arrivals(rides):
    """The earliest time at which one of these rides ends at each stop where one does.

    Who gets to a stop earlier can go on with all rides that others can go on with from there.
    """
    latest_first = sorted(rides, key=lambda ride: -ride.arrives)
    return {ride.v.stop: ride.arrives for ride in latest_first}


class Planned:
    """A plain program whose lines are answered as `plans` answers them."""

    def __init__(self, plain):
        self.plain, self.most = plain, plain.options.get("rides", USUAL_RIDES)

    def taken(self, message):
        """The reply to what a line says, without its number; that to a query is to be judged."""
        try:
            return self.answer(message) if message["type"] == "query" else self.plain.taken(message)
        except Bad as bad:
            return {"bad": str(bad)}

    def answer(self, query):
        """The answer to a query, with its fronts in place of one."""
        plain, (base, time) = self.plain, self.plain.asked(query)
        front = Front(plain.feed, plain.current_rides(), query["from"], query["to"], time, base, self.most)
        return {"after": plain.accepted, "plans": front}


def answering(command, plain):
    """What answers the lines of a command over a plain program."""
    answers = {"check": Checked, "plans": Planned, "watch": Watching, "desk": Desk}.get(command)
    return answers(plain) if answers else plain
