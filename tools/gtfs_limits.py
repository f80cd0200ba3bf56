"""Which part of a checked source is past the limits of traind (docs/FEEDS.md, "Limits"), for tools/feed."""

from collections import Counter, defaultdict

from gtfs_tables import FIRST_DAY, LAST_DAY, MOST, MOST_NODES, MOST_PAIRS, MOST_TRAINS, WEEKDAYS, day_text

UNITS = ("trains", MOST_TRAINS), ("nodes", MOST_NODES)


def check_limits(checked, report):
    """The faults of all limits but that of bytes, which is found when the tables are written."""
    check_rows(checked, report)
    if not checked.unread & {"stops.txt", "transfers.txt"}:
        check_pairs(checked, report)
    if not checked.unread:
        check_days(checked, report)


def check_rows(checked, report):
    for name, (most, what) in MOST.items():
        count = checked.counts.get(name, 0) - len(checked.left[name])
        if name == "waiting_rules.txt" and checked.rules is not None:
            count = len(checked.rules)
        if count > most:
            detail = f"{count:,} rows, and {most:,} at most"
            if name == "stops.txt":
                kinds = Counter(checked.types.values())
                others = sum(kinds[kind] for kind in "234")
                detail += f"; {others:,} are entrances and other nodes, where no train calls"
                if "stop_times.txt" not in checked.unread:
                    detail += f"; at {kinds['0'] - len(checked.called):,} stops and platforms no trip calls"
            report.fault(name, None, None, f"too many {what}", detail)


def check_pairs(checked, report):
    """Counts the stops to which one can change from each stop or station, by the rule of docs/MODEL.md, section 2."""
    kinds, station, members, changes = checked.types, checked.station, checked.members, checked.changes
    # The first row of each pair of places, for the pairs that have one.
    first = {}
    for start, rows in changes.items():
        for to, is_possible in rows:
            first.setdefault((start, to), is_possible)
    count, of_station = 0, Counter()
    for place in (place for place, kind in kinds.items() if kind in "01"):
        home = station(place)
        # The stations to which rows lead from here, and which of their stops have rows of their own.
        single = {home: set()}
        for start in {place, home}:
            for to, _ in changes.get(start, ()):
                stops = single.setdefault(station(to), set())
                if kinds[to] == "0":
                    stops.add(to)
        number = 0
        for there, stops in single.items():
            general = first.get((place, there), first.get((home, there), home == there))
            number += general * (len(members.get(there, ())) - len(stops))
            for to in stops:
                ways = (place, to), (place, there), (home, to), (home, there)
                number += next((first[way] for way in ways if way in first), home == there)
        count += number
        of_station[home] += number
    if count > MOST_PAIRS:
        names = ", ".join(f"{name!r} {number:,}" for name, number in of_station.most_common(3))
        detail = f"{count:,} pairs of stops with a change, and {MOST_PAIRS:,} at most; the most are from {names}"
        report.fault("transfers.txt", None, None, "too many pairs", detail)


def check_days(checked, report):
    """Counts the trains and nodes of each service day; those of --from and --days together where they are given."""
    of_service = defaultdict(lambda: [0, 0])
    for number, calls in enumerate(checked.calls):
        if calls and number not in checked.gone:
            trains = len(checked.starts[number]) if number in checked.starts else 1
            counts = of_service[checked.services[number]]
            counts[0] += trains
            counts[1] += 2 * calls * trains
    loaded = checked.choice.loaded
    if checked.choice.trim and checked.services and not any(
        checked.runs(service, day) for service in {*checked.services} for day in loaded
    ):
        known = [day for day, *_ in counts_of_days(checked, dict.fromkeys(checked.services, (1, 0)))]
        there = f"from {day_text(known[0])} to {day_text(known[-1])}" if known else "none from 1900 to 2100"
        detail = f"all trips would be left out; the service days are {there}"
        report.fault("trips.txt", None, None, "no trip runs on the days of --from and --days", detail)
        return
    days = [*counts_of_days(checked, of_service)]
    if not days:
        report.note("trips.txt", "no trip runs on any day from 1900 to 2100")
        return
    report.range = days[0][0], days[-1][0]
    if loaded:
        spans = [(loaded[0], *(sum(counts) for counts in zip((0, 0), *(day[1:] for day in days if day[0] in loaded))))]
        if not spans[0][1]:
            report.note("trips.txt", "no trip runs on the days of --from and --days")
    else:
        spans = days
    for place, (unit, most) in enumerate(UNITS, 1):
        past = [span for span in spans if span[place] > most]
        for span in past:
            services = Counter(
                {name: counts[place - 1] for name, counts in of_service.items() if checked.runs(name, span[0])}
            )
            names = ", ".join(f"{name!r} {number:,}" for name, number in services.most_common(3))
            when = f"from {day_text(span[0])} on {len(loaded)} days" if len(loaded) > 1 else f"on {day_text(span[0])}"
            detail = f"{span[place]:,} {when}, and {most:,} at most"
            report.fault("trips.txt", None, None, f"too many {unit}", f"{detail}; services with the most: {names}")
    report.fullest = max(spans, key=lambda span: span[2])


def counts_of_days(checked, of_service):
    """The number, trains and nodes of each day on which a train runs."""
    begins, single = [defaultdict(lambda: [0, 0]) for _ in WEEKDAYS], defaultdict(lambda: [0, 0])
    for service, counts in of_service.items():
        weekdays, start, end = checked.calendar.get(service, (None, 1, 0))
        start, end = max(start, FIRST_DAY), min(end, LAST_DAY)
        for weekday in range(7) if start <= end else ():
            if weekdays[weekday]:
                add(begins[weekday][start], counts)
                add(begins[weekday][end + 1], counts, -1)
        for day, is_added in checked.exceptions.get(service, {}).items():
            is_usual = start <= day <= end and weekdays[(day - 1) % 7]
            if FIRST_DAY <= day <= LAST_DAY and is_usual != is_added:
                add(single[day], counts, 1 if is_added else -1)
    known = {day for part in (*begins, single) for day in part}
    sums = [[0, 0] for _ in WEEKDAYS]
    for day in range(min(known, default=0), max(known, default=-1) + 1):
        for part, changes in zip(sums, begins):
            if day in changes:
                add(part, changes[day])
        trains, nodes = (one + other for one, other in zip(sums[(day - 1) % 7], single.get(day, (0, 0))))
        if trains:
            yield day, trains, nodes


def add(counts, others, sign=1):
    for place, other in enumerate(others):
        counts[place] += sign * other
