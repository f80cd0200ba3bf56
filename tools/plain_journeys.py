"""Section 10 of docs/MODEL.md for tools/plain_program.py: the rides of a state, and the journeys of a query.

No ride is passed over: as long as a passenger gets to some stop earlier than was known, all rides are tried again.
"""

import itertools
import math
from collections import namedtuple

# A ride from departure u to arrival v of one train, at the times `departs` and `arrives`.
Ride = namedtuple("Ride", "u v departs arrives")


def rides_of(trains, times):
    """All rides of a state, by the trip, the date and the labels of the two calls."""
    rides = {}
    for events in (train.events for train in trains):
        for first, last in itertools.combinations(range(len(events)), 2):
            u, v = events[first], events[last]
            if u.kind == "dep" and v.kind == "arr" and u.is_open and v.is_open:
                if all(event.live for event in events[first : last + 1]):
                    rides[u.train.trip, u.train.date, u.label, v.label] = Ride(u, v, times[u], times[v])
    return rides


def shown(ride):
    """How a reply shows a ride."""
    ends = {"board": (ride.u, ride.departs), "alight": (ride.v, ride.arrives)}
    return ride.u.train.name() | {
        name: {"call": event.label, "stop": event.stop, "time": event.day_time(time)}
        for name, (event, time) in ends.items()
    }  # fmt: skip


class Question:
    """A query from a place at a time or later to a place, by the rides of one state.

    A journey is a list of rides. Its first departure is at a stop of the origin's station, not before the query's time;
    or at another stop to which a change leads from the origin, not before the query's time and the seconds of the
    change. Between two rides a change leads from the stop of the arrival to the stop of the departure, and the
    departure is not before the arrival and the seconds of the change. The last arrival is at a stop of the
    destination's station, and the journey arrives then. Where origin and destination have one station, there is a
    journey without rides too, which arrives at the query's time.
    """

    def __init__(self, feed, rides, origin, destination, time):
        self.feed, self.rides, self.origin, self.destination, self.time = feed, rides, origin, destination, time

    def __repr__(self):
        return f"from {self.origin} to {self.destination}"

    def first_boarding(self, stop):
        """From what time on a first ride may depart from a stop."""
        if self.feed.station(stop) == self.feed.station(self.origin):
            return self.time
        return self.after_change(self.origin, self.time, stop)

    def after_change(self, place, time, stop):
        """From what time on a ride may depart from a stop, after a change from a place at a time; never is infinite."""
        seconds = self.feed.changes[place, stop]
        return math.inf if seconds is None else time + seconds

    def ends_at(self, place):
        return self.feed.station(place) == self.feed.station(self.destination)

    def boarding(self, stop, reached):
        """From what time on a ride may depart from a stop, the first one or one from the stops that are reached."""
        changes = (self.after_change(place, time, stop) for place, time in reached.items())
        return min(self.first_boarding(stop), *changes, math.inf)

    def open_rides(self, reached):
        """The rides that may be boarded, as the first one or from the stops that are reached."""
        boards = {stop: self.boarding(stop, reached) for stop in self.feed.stops}
        return [ride for ride in self.rides.values() if boards[ride.u.stop] <= ride.departs]

    def named(self, rides):
        """The rides that a reply names."""
        names = ((ride["trip"], ride["date"], ride["board"]["call"], ride["alight"]["call"]) for ride in rides)
        return [self.rides[name] for name in names]

    def are_journey(self, rides, arrives):
        """Whether these rides are a journey that arrives then."""
        if not rides:
            return self.ends_at(self.origin) and arrives == self.time
        return (
            self.first_boarding(rides[0].u.stop) <= rides[0].departs
            and all(self.after_change(a.v.stop, a.arrives, b.u.stop) <= b.departs for a, b in itertools.pairwise(rides))
            and self.ends_at(rides[-1].v.stop)
            and arrives == rides[-1].arrives
        )


class Journeys(Question):
    """The journeys of a query by the rides of one state.

    `arrives` is when an earliest journey does, or None where there is no journey; `reached` has each stop where a ride
    of a passenger ends, with the earliest time.
    """

    def __init__(self, feed, rides, origin, destination, time):
        super().__init__(feed, rides, origin, destination, time)
        self.reached = self.earliest_arrivals()
        at_once = [time] if self.ends_at(origin) else []
        ends = (time for stop, time in self.reached.items() if self.ends_at(stop))
        self.arrives = min([*at_once, *ends], default=None)

    def earliest_arrivals(self):
        """The earliest time at which a ride ends at each stop where one does."""
        reached, before = {}, None
        while reached != before:
            before = reached
            latest_first = sorted(self.open_rides(reached), key=lambda ride: -ride.arrives)
            reached = {ride.v.stop: ride.arrives for ride in latest_first}
        return reached

    def early_stops(self):
        """The stops where a ride ends before the arrival, or at any time where there is none, with their times."""
        found = [(stop, self.reached[stop]) for stop in self.feed.stops if stop in self.reached]
        return [(stop, time) for stop, time in found if self.arrives is None or time < self.arrives]

    def have(self, rides):
        """Whether these rides are an earliest journey."""
        return self.are_journey(rides, self.arrives)

    def one(self):
        """The rides of an earliest journey, found from its end to its begin."""
        rides, stops, arrives = [], [stop for stop in self.reached if self.ends_at(stop)], self.arrives
        if self.ends_at(self.origin):
            return rides
        taken = self.open_rides(self.reached)
        while True:
            ride = next(ride for ride in taken if ride.v.stop in stops and ride.arrives == arrives)
            rides.insert(0, ride)
            if self.first_boarding(ride.u.stop) <= ride.departs:
                return rides
            feeders = (stop for stop, time in self.reached.items() if self.comes_in_time(stop, time, ride))
            stops = [next(feeders)]
            arrives = self.reached[stops[0]]

    def comes_in_time(self, stop, time, ride):
        """Whether a change from a stop at a time leads to the departure of a ride."""
        return self.after_change(stop, time, ride.u.stop) <= ride.departs
