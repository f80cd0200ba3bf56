"""FeedMessages for tools/realtime_cases in the text form of protobuf, and what tools/realtime must make of them.

They are for the feed that tools/realtime_draw.py makes as its small one. The lines are in
the few words of short() in tools/realtime_cases.
"""

from datetime import datetime, timezone

BERLIN, NEW_YORK = "CET-1CEST,M3.5.0,M10.5.0/3", "EST5EDT,M3.2.0,M11.1.0"
DAY = "20260105"


def utc(*parts):
    """The POSIX time of a clock of UTC."""
    return int(datetime(*parts, tzinfo=timezone.utc).timestamp())


def at(hours, minutes=0, seconds=0):
    """A time of 2026-01-05 in UTC."""
    return utc(2026, 1, 5) + 3600 * hours + 60 * minutes + seconds


def message(entities, now=at(7), differential=False):
    """A FeedMessage in text form."""
    kind = " incrementality: 1" if differential else ""
    stamp = f" timestamp: {now}" if now else ""
    return f'header {{ gtfs_realtime_version: "2.0"{kind}{stamp} }}\n' + "\n".join(entities)


def entity(trip, *calls, name="", day=DAY, more="", rest=""):
    """An entity with a trip update in text form; the calls are texts of call()."""
    start = f' start_date: "{day}"' if day else ""
    trip_text = f'trip {{ trip_id: "{trip}"{start} {more} }}'
    return f'entity {{ id: "{name or trip}" trip_update {{ {trip_text} {rest} {" ".join(calls)} }} }}'


def call(where, arr=None, dep=None, **rest):
    """A stop_time_update: where is a stop_sequence or a stop_id; a time is a delay, or a POSIX time if large."""
    parts = [f"stop_sequence: {where}" if isinstance(where, int) else f'stop_id: "{where}"']
    for side, value in (("arrival", arr), ("departure", dep)):
        if value is not None:
            parts.append(f"{side} {{ {'time' if value > 10**6 else 'delay'}: {value} }}")
    if "is_a" in rest:
        parts.append(f"schedule_relationship: {rest['is_a']}")
    if "stop" in rest:
        parts.append(f'stop_time_properties {{ assigned_stop_id: "{rest["stop"]}" }}')
    return f"stop_time_update {{ {' '.join(parts)} }}"


# Each case: its name, its options, its FeedMessages, the lines that are wanted, and how often each cause is told.
CASES = [
    (
        "a delay holds for all later calls",
        {},
        [message([entity("T1", call(20, 60))])],
        [
            "forecast T1 1arr 08:31:00", "forecast T1 1dep 08:33:00", "forecast T1 2arr 09:01:00",
            "forecast T1 2dep 09:03:00", "forecast T1 3arr 09:31:00", "forecast T1 3dep 09:32:00",
            "forecast T1 4arr 10:01:00",
        ],
        {},
    ),
    (
        "a delay up to the next update, and none behind NO_DATA",
        {},
        [message([entity("T1", call(10, None, 300), call(30, 60, 0), call("D", is_a=2))])],
        [
            "forecast T1 0dep 08:05:00", "forecast T1 1arr 08:35:00", "forecast T1 1dep 08:37:00",
            "forecast T1 2arr 09:01:00",
        ],
        {},
    ),
    (
        "the program carries the delay on",
        {"later": "program"},
        [message([entity("T1", call(10, None, 300), call(30, 60)), entity("T2", rest="delay: 90")])],
        ["forecast T1 0dep 08:05:00", "forecast T1 2arr 09:01:00", "forecast T2 0dep 08:41:30"],
        {},
    ),
    (
        "the delay of a trip up to its first update",
        {},
        [message([entity("T2", call(20, 0, 0), rest="delay: -60")])],
        ["forecast T2 0dep 08:39:00"],
        {},
    ),
    (
        "a time counts before a delay, and gives the delay of later calls",
        {},
        [message([entity("T2", 'stop_time_update { stop_sequence: 20 arrival { delay: 7 time: %d } }' % at(9, 12))])],
        ["forecast T2 1arr 09:12:00", "forecast T2 1dep 09:13:00", "forecast T2 2arr 09:22:00"],
        {},
    ),
    (
        "the arrival at the first call and the departure from the last one only give a delay",
        {},
        [message([entity("M1", call(10, 60)), entity("T2", call(30, 0, 600))])],
        ["forecast M1 0dep 08:01:00", "forecast M1 1arr 08:11:00"],
        {},
    ),
    (
        "a stop_id is looked for behind the call before",
        {},
        [message([entity("L1", call("A", None, 0), call("C", 60), call("A", 120), call("A", 180))])],
        [
            "forecast L1 1arr 08:11:00", "forecast L1 1dep 08:11:00", "forecast L1 2arr 08:22:00",
            "forecast L1 2dep 08:22:00", "forecast L1 3arr 08:32:00", "forecast L1 3dep 08:32:00",
            "forecast L1 4arr 08:43:00",
        ],
        {},
    ),
    (
        "past times are reports, others forecasts; a delay that is carried on is never a report",
        {},
        [message([entity("T1", call(10, None, at(8, 1)), call(20, at(8, 33)))], now=at(8, 34))],
        [
            "report T1 0dep 08:01:00", "report T1 1arr 08:33:00", "forecast T1 1dep 08:35:00",
            "forecast T1 2arr 09:03:00", "forecast T1 2dep 09:05:00", "forecast T1 3arr 09:33:00",
            "forecast T1 3dep 09:34:00", "forecast T1 4arr 10:03:00",
        ],
        {},
    ),
    (
        "no reports where none are wanted",
        {"reports": "none"},
        [message([entity("M1", call(10, None, at(8, 1)), call(20, at(8, 33)))], now=at(8, 34))],
        ["forecast M1 0dep 08:01:00", "forecast M1 1arr 08:33:00"],
        {},
    ),
    (
        "the time stamp of the update counts where it is the earlier one; at it nothing is past",
        {},
        [message([entity("M1", call(10, None, at(8, 1)), call(20, at(8, 12)), rest=f"timestamp: {at(8, 12)}")],
            now=at(9))],
        ["report M1 0dep 08:01:00", "forecast M1 1arr 08:12:00"],
        {},
    ),
    (
        "a forecast becomes a report, which is corrected, and becomes a forecast again",
        {},
        [
            message([entity("M1", call(10, None, at(8, 1)), call(20, at(8, 10)))], now=at(7)),
            message([entity("M1", call(10, None, at(8, 1)), call(20, at(8, 10)))], now=at(8, 5)),
            message([entity("M1", call(10, None, at(8, 2)), call(20, at(8, 10)))], now=at(8, 6)),
            message([entity("M1", call(10, None, at(8, 9)), call(20, at(8, 19)))], now=at(8, 7)),
        ],
        [
            "forecast M1 0dep 08:01:00", "report M1 0dep 08:01:00", "correct M1 0dep 08:02:00",
            "correct M1 0dep None", "forecast M1 0dep 08:09:00", "forecast M1 1arr 08:19:00",
        ],
        {},
    ),
    (
        "reports are corrected in an order in which none contradicts another",
        {},
        [
            message([entity("L1", *(call(10 * n, at(8, n), at(8, n)) for n in (2, 3, 4)))], now=at(9)),
            message([entity("L1", *(call(10 * n, at(8, n + 9), at(8, n + 9)) for n in (2, 3, 4)))], now=at(9, 1)),
            message([entity("L1", *(call(10 * n, at(8, n), at(8, n)) for n in (2, 3)))], now=at(9, 2)),
        ],
        [
            "report L1 1arr 08:02:00", "report L1 1dep 08:02:00", "report L1 2arr 08:03:00", "report L1 2dep 08:03:00",
            "report L1 3arr 08:04:00", "report L1 3dep 08:04:00", "forecast L1 4arr 08:14:00",
            "correct L1 3dep 08:13:00", "correct L1 3arr 08:13:00", "correct L1 2dep 08:12:00",
            "correct L1 2arr 08:12:00", "correct L1 1dep 08:11:00", "correct L1 1arr 08:11:00",
            "forecast L1 4arr 08:23:00", "correct L1 3arr None", "correct L1 3dep None", "correct L1 1arr 08:02:00",
            "correct L1 1dep 08:02:00", "correct L1 2arr 08:03:00", "correct L1 2dep 08:03:00",
            "forecast L1 3arr 08:13:00", "forecast L1 3dep 08:13:00",
        ],
        {},
    ),
    (
        "a forecast of the scheduled time is written where another stands, and a repeat is not",
        {},
        [message([entity("M1", call(20, d))], now=at(7, n)) for n, d in enumerate((0, 60, 60, 0, 0))],
        ["forecast M1 1arr 08:11:00", "forecast M1 1arr 08:10:00"],
        {},
    ),
    (
        "what is gone is taken back: a call, and then a trip",
        {},
        [
            message([entity("T2", call(10, None, 60), call(30, 90)), entity("M1", call(10, None, at(8)))], now=at(8,
                1)),
            message([entity("T2", call(10, None, 60), call(20, is_a=2)), entity("M1")], now=at(8, 1)),
            message([], now=at(8, 2)),
        ],
        [
            "forecast T2 0dep 08:41:00", "forecast T2 1arr 09:11:00", "forecast T2 1dep 09:12:00",
            "forecast T2 2arr 09:21:30", "report M1 0dep 08:00:00", "withdraw T2 1arr", "withdraw T2 1dep",
            "withdraw T2 2arr", "correct M1 0dep None", "withdraw T2 0dep",
        ],
        {},
    ),
    (
        "what is past stays where the words say so",
        {"gone": "past-stays", "reports": "past"},
        [
            message([entity("T2", call(10, None, at(8, 41)), call(30, 90))], now=at(8, 42)),
            message([entity("T2", call(30, 90))], now=at(8, 43)),
            message([], now=at(9, 12)),
            message([], now=at(9, 30)),
        ],
        [
            "report T2 0dep 08:41:00", "forecast T2 1arr 09:11:00", "forecast T2 1dep 09:12:00",
            "forecast T2 2arr 09:21:30", "withdraw T2 1arr", "withdraw T2 1dep", "withdraw T2 2arr",
        ],
        {},
    ),
    (
        "an added trip that is past stays where the words say so, one that is to come is cancelled",
        {"gone": "past-stays"},
        [
            message([
                entity(trip, call("A", None, at(hour)), call("C", at(hour, 20)),
                       more='schedule_relationship: 1 route_id: "R1"')
                for trip, hour in (("X1", 8), ("X2", 9))
            ]),
            message([], now=at(8, 30)),
        ],
        [
            "extra X1 R1 A@08:00:00-08:00:00 C@08:20:00-08:20:00",
            "extra X2 R1 A@09:00:00-09:00:00 C@09:20:00-09:20:00",
            "cancel X2 0-1",
        ],
        {},
    ),
    (
        "an entity of a DIFFERENTIAL that no line can say takes back what it said before",
        {},
        [
            message([entity("M1", call(20, 60), name="a")]),
            message([entity("M1", name="a", more="schedule_relationship: 6")], differential=True),
        ],
        ["forecast M1 1arr 08:11:00", "withdraw M1 1arr"],
        {"a trip that is DUPLICATED": 1},
    ),
    (
        "a skipped call that is past stays out where the words say so, and a cancelled train is not asked for",
        {"gone": "past-stays"},
        [
            message([entity("T1", call(30, is_a=1), call(50, 30)), entity("M1", more="schedule_relationship: 3")]),
            message([entity("T1", call(50, 30))], now=at(9, 10)),
            message([], now=at(9, 11)),
        ],
        ["reroute T1 1-3", "forecast T1 4arr 10:00:30", "cancel M1 0-1", "withdraw T1 4arr"],
        {},
    ),
    (
        "DIFFERENTIAL changes only what it names, and deletes by entity",
        {},
        [
            message([entity("T2", call(30, 90), name="a"), entity("M1", call(20, 60), name="b")]),
            message([entity("M1", call(20, 120), name="b")], differential=True),
            message(['entity { id: "a" is_deleted: true }', 'entity { id: "x" is_deleted: true }'], differential=True),
            message([entity("T2", call(30, 30), name="b")], differential=True),
            message([entity("T2", call(30, 40), name="c")], differential=True),
            message(['entity { id: "b" is_deleted: true }'], differential=True),
            message([entity("T2", call(30, 40), name="c")], differential=True),
            message([entity("M1", call(20, 5), name="c")]),
        ],
        [
            "forecast T2 2arr 09:21:30", "forecast M1 1arr 08:11:00", "forecast M1 1arr 08:12:00", "withdraw T2 2arr",
            "withdraw M1 1arr", "forecast T2 2arr 09:20:30", "forecast T2 2arr 09:20:40", "withdraw T2 2arr",
            "forecast M1 1arr 08:10:05",
        ],
        {},
    ),
    (
        "a skipped call is passed, and the delay goes on over it; then it is served again, with a new label",
        {},
        [
            message([entity("T1", call(20, 60, 60), call(30, is_a=1), call(50, 30))]),
            message([entity("T1", call(20, 60, 60), call(50, 30))], now=at(7, 1)),
        ],
        [
            "reroute T1 1-3", "forecast T1 1arr 08:31:00", "forecast T1 1dep 08:33:00", "forecast T1 3arr 09:31:00",
            "forecast T1 3dep 09:32:00", "forecast T1 4arr 10:00:30", "reroute T1 1-3 C@09:00:00-09:02:00",
            "forecast T1 5arr 09:01:00", "forecast T1 5dep 09:03:00",
        ],
        {},
    ),
    (
        "reports behind a skipped call are taken back for it, and made again",
        {},
        [
            message([entity("T1", call(10, None, at(8)), call(40, at(9, 31), at(9, 32)))], now=at(9, 40)),
            message([entity("T1", call(10, None, at(8)), call(30, is_a=1), call(40, at(9, 31), at(9, 32)))],
                now=at(9, 41)),
        ],
        [
            "report T1 0dep 08:00:00", "report T1 3arr 09:31:00", "report T1 3dep 09:32:00",
            "forecast T1 4arr 10:01:00",
            "correct T1 3arr None", "correct T1 3dep None", "reroute T1 1-3", "report T1 3arr 09:31:00",
            "report T1 3dep 09:32:00",
        ],
        {},
    ),
    (
        "skipped calls at the ends are cancelled, and cannot come back",
        {},
        [
            message([entity("T1", call(10, is_a=1), call(20, is_a=1), call(50, is_a=1), call(30, None, 60))]),
            message([entity("T1", call(30, None, 60))], now=at(7, 1)),
        ],
        ["cancel T1 0-2", "cancel T1 3-4", "forecast T1 2dep 09:03:00", "forecast T1 3arr 09:31:00"],
        {
            "updates of calls out of order, or two of one call: the last counts": 1,
            "a train, or a part at its end, that is cancelled and cannot come back": 1,
        },
    ),
    (
        "all calls skipped, or all but one",
        {},
        [
            message([entity("M1", call(10, is_a=1), call(20, is_a=1)), entity("T2", call(10, is_a=1), call(30,
                is_a=1))]),
            message([entity("M1", call(10, is_a=1), call(20, is_a=1)), entity("T2", call(10, is_a=1), call(30,
                is_a=1))], now=0),
        ],
        ["cancel M1 0-1", "cancel T2 0-2"],
        {},
    ),
    (
        "another platform within a trip, and at its end",
        {},
        [
            message([entity("T1", call(20, 60, 60, stop="B3"), call(50, 0, stop="B3"))]),
            message([entity("T1", call(20, 60, 60, stop="B3"), call(50, 0, stop="B3"))], now=at(7, 2)),
            message([entity("T1", call(20, 60, 60, stop="XX"), call(30, 0, 0))], now=at(7, 3)),
        ],
        [
            "reroute T1 0-2 B3@08:30:00-08:32:00", "forecast T1 5arr 08:31:00", "forecast T1 5dep 08:33:00",
            "forecast T1 2arr 09:01:00", "forecast T1 2dep 09:03:00", "forecast T1 3arr 09:31:00",
            "forecast T1 3dep 09:32:00", "reroute T1 0-2 B1@08:30:00-08:32:00", "forecast T1 6arr 08:31:00",
            "forecast T1 6dep 08:33:00", "forecast T1 2arr 09:00:00", "forecast T1 2dep 09:02:00",
            "forecast T1 3arr 09:30:00",
            "forecast T1 3dep 09:31:00",
        ],
        {"another stop at the first or last call": 1, "an assigned_stop_id that the feed does not have": 1},
    ),
    (
        "a cancelled trip, with its reports taken back, cannot come back; a deleted one is cancelled too",
        {},
        [
            message([entity("M1", call(10, None, at(8)))], now=at(8, 1)),
            message([entity("M1", more="schedule_relationship: 3"), entity("T2", more="schedule_relationship: 7")],
                now=at(8, 2)),
            message([entity("M1", more="schedule_relationship: 3"), entity("T2")], now=at(8, 3)),
        ],
        ["report M1 0dep 08:00:00", "correct M1 0dep None", "cancel M1 0-1", "cancel T2 0-2"],
        {"a train, or a part at its end, that is cancelled and cannot come back": 1},
    ),
    (
        "an added trip, its times and its end",
        {},
        [
            message([entity("X1", call("A", None, at(9)), call("B1", at(9, 10), at(9, 11)), call("C", at(9, 30)),
                            more='schedule_relationship: 1 route_id: "R1"')]),
            message([entity("X1", call("A", None, at(9)), call("B1", at(9, 12)), call("C", at(9, 29)),
                            more='schedule_relationship: 8 route_id: "R1"', day=None)], now=at(8)),
            message([], now=at(8, 1)),
        ],
        [
            "extra X1 R1 A@09:00:00-09:00:00 B1@09:10:00-09:11:00 C@09:30:00-09:30:00", "forecast X1 1arr 09:12:00",
            "forecast X1 1dep 09:13:00", "forecast X1 2arr 09:29:00", "cancel X1 0-2",
        ],
        {},
    ),
    (
        "a new trip with its own schedule, cancelled by name",
        {},
        [
            message([
                'entity { id: "n" trip_update { trip { trip_id: "X2" schedule_relationship: 8 route_id: "R2" } '
                "stop_time_update { stop_sequence: 4 stop_id: \"A\" departure { scheduled_time: %d delay: 60 } } "
                "stop_time_update { stop_sequence: 7 stop_id: \"C\" arrival { scheduled_time: %d time: %d } } } }"
                % (at(9), at(9, 30), at(9, 33))
            ]),
            message([entity("X2", more="schedule_relationship: 3", name="n")]),
            message([entity("X2", call("A", None, at(9)), call("C", at(9, 30)), name="n",
                            more='schedule_relationship: 8 route_id: "R2"')]),
        ],
        [
            "extra X2 R2 A@09:00:00-09:00:00 C@09:30:00-09:30:00", "forecast X2 0dep 09:01:00",
            "forecast X2 1arr 09:33:00", "cancel X2 0-1",
        ],
        {"a train, or a part at its end, that is cancelled and cannot come back": 1},
    ),
    (
        "added trips that no line can say",
        {},
        [
            message([
                entity(trip, *calls, more=f'schedule_relationship: 1 route_id: "{route}"')
                for trip, route, *calls in (
                    ("T1", "R1", call("A", None, at(9)), call("C", at(9, 30))),
                    ("X1", "R9", call("A", None, at(9)), call("C", at(9, 30))),
                    ("X2", "R1", call("A", None, at(9)), call("S", at(9, 30))),
                    ("X3", "R1", call("A", None, at(9)), call("C", 60)),
                    ("X4", "R1", call("A", None, at(9)), call("C", at(9, 30), is_a=1)),
                    ("X5", "R1", call("A", None, at(9)), call("C", at(8, 30))),
                    ("X6", "R1", call("A", None, at(9)), call("C", at(109))),
                    ("X7", "R1", *(call("A", at(9, n % 60), at(9, n % 60)) for n in range(60) for _ in range(40))),
                )
            ])
        ],
        [],
        {
            "an added trip with the name of a train of the feed": 1,
            "an added trip without a route that the feed knows": 1,
            "an added trip with a stop that the feed does not have": 1, "an added trip with a call without a time": 1,
            "an added trip with fewer than two calls": 1, "times of the calls that run backwards": 1,
            "a time outside of the 100 hours of the service day": 1, "an added trip whose line is too long": 1,
        },
    ),
    (
        "names that are not there, and what no line can say",
        {},
        [
            message([
                entity("T9", call(10, None, 60)), entity("T1", call(10, None, 60), day="20260106"),
                entity("M1", call(11, None, 60), call("E", 60), "stop_time_update { arrival { delay: 3 } }", call(20)),
                entity("U1", call(20, 60), call("C", 60)), entity("", call(10, None, 1)),
                entity("\\377", call(10, None, 1)),
                *(entity("T1", call(10, None, 60), name=f"r{n}", more=f"schedule_relationship: {n}") for n in (2, 4,
                    5, 6)),
                entity("T2", call(10, None, 0, is_a=3), call("E", 5, is_a=9)),
                'entity { id: "v" vehicle: "" alert: "" shape: "" stop: "" trip_modifications: "" }',
                entity("L1", call(20, 10), name="l"), entity("L1", call(50, 10), name="m"),
                entity("N1", call(20, at(100)), call(30, at(-1))),
                'entity { id: "t" trip_update { } }',
            ])
        ],
        ["forecast L1 4arr 08:40:10"],
        {
            "a trip that the feed does not have": 1,
            "a trip that does not run on that day, or a day that is not loaded": 1,
            "a stop_sequence that the trip does not have": 1, "a stop_id that the trip does not have, or not there": 1,
            "a stop_time_update without stop_sequence and stop_id": 1, "a call without a time and without a delay": 1,
            "a call that has no time in the feed": 2, "a trip update without trip_id": 2, "text that is no UTF-8": 1,
            "a trip that is UNSCHEDULED": 1, "a trip with schedule_relationship 4, which is not known": 1,
            "a trip that is REPLACEMENT": 1, "a trip that is DUPLICATED": 1,
            "a call with schedule_relationship UNSCHEDULED": 1,
            "a call with schedule_relationship 9, which is not known": 1,
            "an entity with vehicle": 1, "an entity with alert": 1, "an entity with shape": 1, "an entity with stop": 1,
            "an entity with trip_modifications": 1, "two updates of one train: the last counts": 1,
            "a time outside of the 100 hours of the service day": 3,
        },
    ),
    (
        "a trip that was made of frequencies.txt is named by trip_id and start_time",
        {},
        [
            message([
                entity("F1", call(20, 60), more='start_time: "08:05:00"'),
                entity("T1", call(50, 60), more='start_time: "08:05:00"'),
                entity("F1", call(20, 60), more='start_time: "08:06:00"', name="g"),
            ]),
            message([entity("F1", call(20, 90), more='start_time: "8:05:00"', day=None)]),
            message([entity("F1", more='start_time: "08:05:00" schedule_relationship: 3')]),
        ],
        [
            "forecast F1@08:05:00 1arr 08:16:00", "forecast T1 4arr 10:01:00", "withdraw T1 4arr",
            "forecast F1@08:05:00 1arr 08:16:30", "cancel F1@08:05:00 0-1",
        ],
        {"a trip that the feed does not have": 1},
    ),
    (
        "a stop_id against its stop_sequence, names with a quote and other letters, an older message",
        {},
        [
            message([entity("Ü,9", 'stop_time_update { stop_sequence: 20 stop_id: "A" arrival { delay: 5 } }')],
                now=at(7)),
            message([entity("T1", call(50, 60))], now=at(6)),
        ],
        ["forecast Ü,9 1arr 08:10:05"],
        {
            "a stop_id that is not that of its stop_sequence: stop_sequence counts": 1,
            "a FeedMessage older than the one before": 1,
        },
    ),
    (
        "reports that run backwards, and forecasts against reports",
        {},
        [
            message([entity("T1", call(10, None, at(8, 5)), call(20, at(8, 4)), call(30, at(8, 50)), call(40, at(9,
                30)))],
                    now=at(9)),
        ],
        ["report T1 0dep 08:05:00", "report T1 2arr 08:50:00", "forecast T1 1dep 08:06:00",
            "forecast T1 2dep 08:52:00"],
        {"a time before that of an earlier event which is reported": 1},
    ),
    (
        "a delay that is carried on against a report behind it",
        {},
        [message([entity("T1", call(10, None, at(8, 40)), call(30, at(9, 2), at(9, 3)))], now=at(9, 5))],
        [
            "report T1 0dep 08:40:00", "report T1 2arr 09:02:00", "report T1 2dep 09:03:00",
            "forecast T1 3arr 09:31:00",
            "forecast T1 3dep 09:32:00", "forecast T1 4arr 10:01:00",
        ],
        {"a forecast against a reported time": 1},
    ),
    (
        "a night of Berlin in which the clock goes on: 28 March, and the day after",
        {"zone": BERLIN, "from": "20260328", "days": 2},
        [
            message([
                entity("N1", call(10, None, utc(2026, 3, 28, 23, 0)), call(20, utc(2026, 3, 28, 23, 25)),
                       call(30, utc(2026, 3, 29, 1, 15)), day="20260328"),
                entity("T2", call(10, None, utc(2026, 3, 29, 6, 41)), call(20, is_a=2), day="20260329"),
                entity("M1", call(10, None, utc(2026, 3, 28, 7, 3)), call(20, is_a=2), day="20260328"),
            ], now=utc(2026, 3, 28, 6))
        ],
        [
            "forecast N1 0328 0dep 24:00:00", "forecast N1 0328 1arr 24:25:00", "forecast N1 0328 1dep 24:30:00",
            "forecast N1 0328 2arr 26:15:00", "forecast T2 0329 0dep 08:41:00",
        ],
        {"a trip that does not run on that day, or a day that is not loaded": 1},
    ),
    (
        "a night of New York in which the clock goes back: without start_date the train that is nearest",
        {"zone": NEW_YORK, "from": "20261031", "days": 2},
        [
            message([entity("N1", call(10, None, utc(2026, 11, 1, 3, 51)), call(30, utc(2026, 11, 1, 5, 30)),
                day=None)], now=0),
            message([entity("N1", call(10, None, utc(2026, 11, 2, 4, 52)), call(20, is_a=2), day=None)], now=0),
            message([entity("N1", rest=f"delay: 60 timestamp: {utc(2026, 11, 1, 4, 0)}", day=None)], now=0),
        ],
        [
            "forecast N1 1031 0dep 23:51:00", "forecast N1 1031 1arr 24:21:00", "forecast N1 1031 1dep 24:26:00",
            "forecast N1 1031 2arr 25:30:00", "withdraw N1 1031 0dep", "withdraw N1 1031 1arr", "withdraw N1 1031 1dep",
            "withdraw N1 1031 2arr", "forecast N1 1101 0dep 23:52:00", "withdraw N1 1101 0dep",
            "forecast N1 1031 0dep 23:51:00", "forecast N1 1031 1arr 24:21:00", "forecast N1 1031 1dep 24:26:00",
            "forecast N1 1031 2arr 25:11:00",
        ],
        {},
    ),
]  # fmt: skip
