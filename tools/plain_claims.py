"""Draws claims for tools/compare and tools/fuzz: of answers to queries, and with changes that may make them wrong.

A claim is what a line says, without its version.
"""

import re

from plain_certificates import Reached
from plain_feed import seconds_of, time_text
from plain_journeys import Journeys, shown
from plain_lines import Bad

QUERY = ("client", "from", "to", "date", "time")
OFF = (1, 1, -1, -1, 60, -60, 3600)
TIME = re.compile("[0-9]+:[0-9]+:[0-9]+")


def claim_of(query, reply):
    """The claim that the reply to a query stands for."""
    rides = [
        {"trip": ride["trip"], "date": ride["date"], "board": ride["board"]["call"], "alight": ride["alight"]["call"]}
        for ride in reply.get("rides", ())
    ]
    asked = {name: query[name] for name in QUERY}
    return {"type": "claim"} | asked | {"arrives": reply["arrives"], "rides": rides, "reached": reply["reached"]}


def right_claim(plain, query):
    """A claim that answers a query in the present state; and says that there is no journey where its names are bad."""
    try:
        base, time = plain.asked(query)
    except Bad:
        return claim_of(query, {"arrives": None, "reached": []})
    found = Journeys(plain.feed, plain.current_rides(), query["from"], query["to"], time)
    reached = Reached(found, base).usual()
    if found.arrives is None:
        return claim_of(query, {"arrives": None, "reached": reached})
    rides = [*map(shown, found.one())]
    return claim_of(query, {"arrives": time_text(found.arrives - base), "rides": rides, "reached": reached})


def off(random, text):
    """The text of a time some seconds before or after another, or near midnight where that text is none."""
    seconds = seconds_of(text, 0) if text and TIME.fullmatch(text) else 0
    return time_text(max(0, seconds + random.choice(OFF)))


def arrival_changed(random, claim, plain):
    claim["arrives"] = random.choice((None, off(random, claim["arrives"]), off(random, claim["arrives"])))
    if claim["arrives"] is None and random.randrange(2):
        claim["rides"] = []


def query_changed(random, claim, plain):
    name = random.choice(("from", "to", "time", "time"))
    claim[name] = off(random, claim["time"]) if name == "time" else random.choice([*plain.feed.stops])


def rides_changed(random, claim, plain):
    """A ride left out, doubled, with another call or by another train; or one that stands for all."""
    rides, place = claim["rides"], random.randrange(len(claim["rides"]) + 1)
    other, way = random.choice(plain.trains).name() | {"board": 0, "alight": 1}, random.randrange(5)
    if way == 0 or place == len(rides):
        rides.insert(place, dict(random.choice([*rides, other])))
    elif way == 1:
        del rides[place]
    elif way == 2:
        end = random.choice(("board", "alight"))
        rides[place][end] = max(0, rides[place][end] + random.choice((-1, 1)))
    elif way == 3:
        rides[place] |= random.choice(plain.trains).name()
    else:
        rides[place] = other


def reached_changed(random, claim, plain):
    """A stop left out, one more, at the end or at its place, one at another time, or two in the other order."""
    reached, place = claim["reached"], random.randrange(len(claim["reached"]) + 1)
    way = random.randrange(5)
    if way == 0 or place == len(reached):
        stop = {"stop": random.choice([*plain.feed.stops]), "time": off(random, claim["arrives"] or claim["time"])}
        reached.append(stop)
        if random.randrange(4):
            order = [*plain.feed.stops]
            reached.sort(key=lambda stop: order.index(stop["stop"]))
    elif way < 3:
        del reached[place]
    elif way == 3:
        reached[place]["time"] = off(random, reached[place]["time"])
    else:
        reached.insert(0, reached.pop(place))


def changed(random, claim, plain):
    """A claim with one change, with names of a plain program."""
    parts = {name: [dict(part) for part in claim[name]] for name in ("rides", "reached")}
    other = claim | parts
    ways = (arrival_changed, query_changed, rides_changed, rides_changed, reached_changed, reached_changed)
    random.choice(ways)(random, other, plain)
    return other
