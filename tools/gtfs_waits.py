"""Waiting rules in words for tools/feed: "all to all 180 s; RE to IC 300 s at Bruck".

A rule is a route, `to`, a route, a time in s or min, and perhaps `at` and a stop. `all` is any route. A route is
given by its route_id or its route_short_name, a stop by its stop_id or its stop_name; a name stands in quotes where
it has a semicolon, ` to `, ` at ` or a quote in it. `route_id=`, `route_short_name=`, `stop_id=` and `stop_name=`
before a name say which it is. The rules are those of waiting_rules.txt, docs/FEEDS.md.
"""

import re
from collections import defaultdict

from gtfs_tables import MOST_WAIT

PART = r'(?:[a-z_]+=)?"(?:[^"]|"")*"|[^";]+?'
RULE = re.compile(rf"\s*({PART})\s+to\s+({PART})\s+([0-9]{{1,5}})\s*(s|min)(?:\s+at\s+({PART}))?\s*")
RULES = re.compile(r'(?:[^;"]|"(?:[^"]|"")*")+')
WORDS = "waiting rules"
FORM = (
    "a rule is as 'RE to IC 300 s at Bruck'; times are in s or min, "
    "and a name with ' to ', ' at ' or ';' in it stands in quotes"
)


class NoRule(Exception):
    """What is wrong with a rule."""


def read_rules(words, checked, report):
    """The rows of waiting_rules.txt for these words; what is wrong with them is told as faults."""
    rules = []
    texts = [text.strip() for text in RULES.findall(words)]
    if words.count('"') % 2 or not [text for text in texts if text]:
        report.fault(WORDS, None, None, "no rule", FORM)
        return []
    for number, text in enumerate([text for text in texts if text], 1):
        try:
            rules.append((number, text, read_rule(text, checked)))
        except NoRule as cause:
            report.fault(WORDS, None, f"rule {number}", "not taken", f"{text!r}: {cause}")
    return ordered(rules, checked, report)


def read_rule(text, checked):
    found = RULE.fullmatch(text)
    if not found:
        raise NoRule(FORM)
    feeder, connecting, number, unit, stop = found.groups()
    if any(re.search(r"\s(to|at)\s", part) for part in (feeder, connecting, stop or "") if '"' not in part):
        raise NoRule(FORM)
    wait = int(number) * (60 if unit == "min" else 1)
    if wait > MOST_WAIT:
        raise NoRule(f"a wait has {MOST_WAIT:,} seconds at most")
    return route_of(feeder, checked), route_of(connecting, checked), stop_of(stop, checked) if stop else "", wait


def name_in(part, kinds):
    """The column that a part names, or None, and the name in it."""
    column, equals, rest = part.partition("=")
    if not (equals and column in kinds):
        column, rest = None, part
    if rest.startswith('"'):
        rest = rest[1:-1].replace('""', '"')
    return column, rest


def route_of(part, checked):
    """The route_id of a part; empty for `all`."""
    if part == "all":
        return ""
    column, name = name_in(part, ("route_id", "route_short_name"))
    is_id = name in checked.used_routes or name in (checked.routes or ())
    ids = {name} if column != "route_short_name" and is_id else set()
    if column != "route_id":
        ids |= {route for route, short in checked.short_names.items() if short == name}
    if not ids:
        where = "trips.txt" if checked.routes is None else "routes.txt"
        raise NoRule(f"no route_id and no route_short_name is {name!r} ({where} is looked at)")
    if len(ids) > 1:
        raise NoRule(f"{name!r} may be the route_id {' or '.join(map(repr, sorted(ids)))}; say which with route_id=")
    return ids.pop()


def stop_of(part, checked):
    """The stop_id of a part, of a stop, a platform or a station."""
    column, name = name_in(part, ("stop_id", "stop_name"))
    ids = {name} if column != "stop_name" and name in checked.types else set()
    if column != "stop_id":
        ids |= {stop for stop in checked.names.get(name, ()) if checked.types.get(stop, "") in ("0", "1")}
    # A station stands for its platforms, which often have its name.
    stations = {checked.station(stop) for stop in ids}
    if len(stations) == 1 and stations <= ids:
        ids = stations
    if not ids:
        raise NoRule(f"no stop_id and no stop_name is {name!r}")
    if len(ids) > 1:
        raise NoRule(f"{name!r} may be the stop_id {' or '.join(map(repr, sorted(ids)[:5]))}; say which with stop_id=")
    if checked.types[min(ids)] not in ("0", "1"):
        raise NoRule(f"{name!r} is an entrance or another node, where no train calls")
    return ids.pop()


def covers(general, special, checked):
    """Whether a rule fits wherever another one does."""
    routes = all(one in ("", other) for one, other in zip(general[:2], special[:2]))
    stop = special[2]
    return routes and general[2] in ("", stop, checked.station(stop) if stop else "")


def ordered(rules, checked, report):
    """The rows in the order in which they are written: the first that fits decides, so what is covered goes first."""
    placed = []
    for number, text, rule in rules:
        same = next((other for other in placed if other[2][:3] == rule[:3]), None)
        if same:
            detail = f"{text!r} is for the same trains as rule {same[0]}"
            report.fault(WORDS, None, f"rule {number}", "not taken", detail)
            continue
        place = next((at for at, other in enumerate(placed) if covers(other[2], rule, checked)), len(placed))
        placed.insert(place, (number, text, rule))
    name = "waiting_rules.txt"
    for row, (number, text, rule) in enumerate(placed, 2):
        report.change(name, "rules written", f"row {row}: {','.join(map(str, rule))} from rule {number}, {text!r}")
    if [number for number, *_ in placed] != sorted(number for number, *_ in placed):
        report.change(name, "a rule stands before one that fits wherever it does, since the first that fits decides")
    return [rule for *_, rule in placed]


def names_of(rows):
    """The stop_ids of each stop_name."""
    names = defaultdict(list)
    for stop, name in rows:
        names[name].append(stop)
    return names
