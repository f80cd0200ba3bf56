"""Cases of tools/hostile: what a case is, and inputs of hostile sizes and shapes."""

import json
import math
from dataclasses import dataclass, field

from plain_draw import SERVED

COMMANDS = "times", "serve", *(command for command in ("check", "plans", "watch") if command in SERVED)
BLOCK = 1 << 20
LONG = 65_536
MILLION = 1_000_000
DAY = "20260105"
FLUSH = b'{"v":1,"type":"flush"}'
TABLE = b"""trip,date,call,stop,event,scheduled,time
T1,20260105,0,A,dep,08:00:00,08:00:00
T1,20260105,1,B1,arr,08:30:00,08:30:00
T1,20260105,1,B1,dep,08:32:00,08:32:00
T1,20260105,2,C,arr,09:00:00,09:00:00
T2,20260105,0,B2,dep,08:36:00,08:36:00
T2,20260105,1,D,arr,09:10:00,09:10:00
"""


@dataclass
class Case:
    """A run.

    Tables, input and output are lists of pieces. A piece is bytes, or bytes and how often they come, or makes pieces.
    """

    name: str = ""
    tables: dict = field(default_factory=dict)  # those that are not as in feed a; None: taken out; a function makes it
    input: list = field(default_factory=list)
    output: list = field(default_factory=list)
    command: str = "serve"
    words: list = field(default_factory=list)
    folder: object = None  # a word for FEED, or a function that makes it, where it is not the folder that is made
    refused: str = ""
    status: int = 0
    redirect: str = ""  # what a shell does with the streams; `gone` and `leaves`: a pipe that is not read to its end
    megabytes: int = 64
    addresses: int = 6_000_000  # kilobytes


def blocks(pieces):
    """The bytes of the pieces, in blocks of about BLOCK bytes."""
    held, size = [], 0
    for piece in pieces:
        if isinstance(piece, bytes):
            held.append(piece)
            size += len(piece)
        else:
            yield b"".join(held)
            held, size = [], 0
            yield from repeated(*piece) if isinstance(piece, tuple) else blocks(piece)
        if size > BLOCK:
            yield b"".join(held)
            held, size = [], 0
    yield b"".join(held)


def repeated(text, count):
    """The blocks of a text that comes so often."""
    some = max(1, BLOCK // len(text))
    many = text * min(some, count)
    for _ in range(count // some):
        yield many
    yield text * (count % some)


def reply(line, members):
    """The reply to a line of this number."""
    text = json.dumps(members | {"line": line}, sort_keys=True, separators=(",", ":"), ensure_ascii=False)
    return text.encode() + b"\n"


def same(members, count):
    """The same reply to so many lines."""
    before, after = reply(987_654_321, members).split(b"987654321")
    return (b"%b%d%b" % (before, line, after) for line in range(1, count + 1))


def alerts(line, members, journeys):
    """The lines that tell this of each of the journeys 1, 2 and so on behind the reply to the line of this number."""
    before, after = reply(line, {"alert": 987_654_321} | members).split(b"987654321")
    return (b"%b%d%b" % (before, journey, after) for journey in range(1, journeys + 1))


def bad(word):
    return {"bad": word}


def refusal(cause):
    return {"refused": cause}


def line_of(kind, **members):
    """The text of a line with these members."""
    return json.dumps({"v": 1, "type": kind} | members, separators=(",", ":"), ensure_ascii=False).encode()


def asked(name, edges, **others):
    """A case of lines with their replies, of which the last line has no LF."""
    lines = [piece for line, _ in edges for piece in (*(line if isinstance(line, list) else [line]), b"\n")]
    replies = [reply(number, members) for number, (_, members) in enumerate(edges, 1)]
    return Case(name, input=lines[:-1], output=replies + others.pop("table", []), **others)


def alike(number, prefix=100):
    """A name that begins with as many bytes as all others do; the sum of its bytes is the same for all numbers."""
    return f"{'n' * prefix}{number:07}{9_999_999 - number:07}"


def scattered(size):
    """The numbers below a size in an order that jumps."""
    step = next(step for step in range(size * 5 // 8, 2 * size) if math.gcd(step, size) == 1)
    return (number * step % size for number in range(size))


def padded(size):
    """A flush line of this size."""
    return FLUSH[:-1] + b" " * (size - len(FLUSH)) + b"}"


def lengths():
    """Lines about the greatest length, and a byte-order mark."""
    edges = [
        (padded(LONG - 1), {"flush": 0}),
        (padded(LONG), bad("long")),
        (padded(LONG + 1), bad("long")),
        (b"x" * (LONG - 1), bad("json")),
        (b"\r" * (LONG - 1), bad("json")),
        (b"\xff" * (LONG - 1), bad("utf8")),
        (b"\xff" * LONG, bad("long")),
        (b"\0" * (LONG - 1), bad("json")),
        (b'"' + b"\\u0041" * 10_000 + b'"', bad("shape")),
        (FLUSH[:-1] + b',"' + b"m" * 60_000 + b'":0}', {"flush": 0}),
        (FLUSH[:-1] + b',"x":"' + "é".encode() * 30_000 + b'"}', {"flush": 0}),
        (FLUSH[:-1] + b',"x":"' + b"e" * 60_000 + b"\xc3" + b'"}', bad("utf8")),
    ]
    for command in COMMANDS:
        table = [TABLE] if command == "times" else []
        for last in edges[:2]:
            name = f"{command}: lines about the greatest length, the last one of {len(last[0]):,} bytes without LF"
            yield asked(name, [*edges, last], command=command, table=table)
        marked = [(b"\xef\xbb\xbf" + FLUSH, bad("json")), (FLUSH, {"flush": 0})]
        yield asked(f"{command}: a byte-order mark at the start of the input", marked, command=command, table=table)


def nested(opening, closing, depth):
    """A flush line with a member of this depth, which lies in the object of the line."""
    return FLUSH[:-1] + b',"x":' + opening * depth + b"0" + closing * depth + b"}"


def nesting():
    """Lines of every depth."""
    edges = [(nested(b'[{"a":', b"}]", 63), {"flush": 0}), (nested(b'[{"a":', b"}]", 64), bad("json"))]
    for opening, closing in ((b"[", b"]"), (b'{"a":', b"}")):
        edges += [
            (nested(opening, closing, 126), {"flush": 0}),
            (nested(opening, closing, 127), bad("json")),
            (nested(opening, closing, LONG // 8), bad("json")),
            (opening * 127 + b"0" + closing * 127, bad("shape")),
            (opening * 128 + b"0" + closing * 128, bad("json")),
            (opening * 127, bad("json")),
            (opening * ((LONG - 1) // len(opening)), bad("json")),
            ([(opening, MILLION)], bad("long")),
            ([(opening, MILLION), b"0", (closing, MILLION)], bad("long")),
        ]
    yield asked("arrays and objects about the greatest depth", [*edges, (FLUSH, {"flush": 0})])


LABELS = "0 1 2 3 2147483647 2147483648 4294967295".split()
OTHERS = """-0 -1 1e0 1E0 1.0 0.0 0e0 4294967296 9223372036854775808 18446744073709551615 18446744073709551616
    -9223372036854775809 1e308 1e-999 0e999 "1" [1] null""".split()
OTHERS += ["1" * 30, "1" * 308, "0." + "0" * 60_000 + "1", "1e-" + "9" * 60_000]
BROKEN = "00 01 +1 .5 1. 1e 0x1 - 1_0 NaN Infinity 1e400 1e999 -1e999".split()
BROKEN += ["1" * 400, "1" * 60_000, "1e" + "9" * 60_000]


def numbers():
    """Numbers at every edge: as v, as labels of a train that is not there, and in a member that is passed over."""
    edges = []
    train = '"trip":"T9","date":"20260105"'
    shapes = {
        '"v":{},"type":"flush"': lambda text: {"flush": 0} if text in ("1", "2") else bad("shape"),
        '"v":1,"type":"flush","x":{}': lambda text: {"flush": 0},
    }
    label = lambda text: refusal("Unknown") if text in LABELS else bad("shape")  # noqa: E731
    shapes |= {
        '"v":1,"type":"forecast",' + train + ',"call":{},"event":"dep","time":"08:00:00"': label,
        '"v":1,"type":"cancel",' + train + ',"from":{},"to":0': label,
        '"v":1,"type":"cancel",' + train + ',"from":0,"to":{}': label,
    }
    for shape, found in shapes.items():
        for text in LABELS + OTHERS + BROKEN:
            line = "{" + shape.format(text) + "}"
            edges.append((line.encode(), bad("json") if text in BROKEN else found(text)))
    yield asked("numbers at every edge", edges)


def names():
    """Lines with a name of 60,000 bytes in each place, and an extra train that has it."""
    name, quotes = "n" * 60_000, '"' * 30_000
    when = {"date": DAY, "time": "08:00:00"}
    event = {"trip": "T1", "call": 0, "event": "dep"} | when
    query = {"client": "q", "from": "A", "to": "A"} | when
    stops = [{"stop": stop, "arr": at, "dep": at} for stop, at in (("A", "09:20:00"), ("D", "10:00:00"))]
    extra = {"trip": "X", "date": DAY, "route": "R1", "calls": stops}
    arrival = {"trip": quotes, "date": DAY, "call": 1, "event": "arr"}
    found = {"event": arrival, "refused": "Contradiction", "reported": "10:00:00"}
    edges = [
        *((line_of("forecast", **event | {member: name}), bad("time")) for member in ("date", "time")),
        (line_of("forecast", **event | {"trip": name}), refusal("Unknown")),
        (line_of("forecast", **event | {"event": name}), bad("shape")),
        (line_of(name), bad("shape")),
        *((line_of("query", **query | {member: name}), bad("stop")) for member in ("from", "to")),
        (line_of("query", **query | {"client": name}), {"after": 0, "arrives": "08:00:00", "rides": []}),
        (line_of("extra", **extra | {"route": name}), refusal("Unknown")),
        (line_of("extra", **extra | {"calls": [stops[0], stops[1] | {"stop": name}]}), refusal("Unknown")),
        (line_of("extra", **extra | {"trip": quotes}), {"accepted": 1, "changed": 2}),
        (line_of("report", **arrival, time="10:00:00"), {"accepted": 2, "changed": 0}),
        (line_of("forecast", **arrival, time="10:01:00"), found),
    ]
    rows = [b",20260105,0,A,dep,09:20:00,09:20:00\n", b",20260105,1,D,arr,10:00:00,10:00:00\n"]
    table = [TABLE, *(b'"' * 60_002 + row for row in rows)]
    yield asked("names of 60,000 bytes in lines", edges, command="times", table=table)


HALTS = [f"H{number:04}" for number in range(2_000)]
HALTS_TABLE = {"stops.txt": ["stop_id\nA\nB1\nB2\nC\nD\n".encode(), *(f"{halt}\n".encode() for halt in HALTS)]}
RIDE = {"trip": "T1", "date": DAY, "board": 0, "alight": 1}


def claim(size, time="08:00:00", halts=HALTS, taken=()):
    """A claim of this size that nobody gets from C to D, with as many stops that are reached as fit."""
    where = {"client": "q", "from": "C", "to": "D", "date": DAY, "time": time, "arrives": None, "rides": taken}
    room = size - len(line_of("claim", **where, reached=[]))
    reached = [{"stop": halt, "time": "0:00:00"} for halt in halts[: room // 34]]
    line = line_of("claim", **where, reached=reached)
    return line[:-1] + b" " * (size - len(line)) + b"}"


def rides(size):
    """A claim of this size with as many rides as fit, which are no journey."""
    return claim(size, taken=[RIDE] * ((size - 200) // 55), halts=[])


def claims():
    """Claims about the greatest length."""
    edges = [
        (claim(LONG - 1), {"claim": True}),
        (claim(LONG), bad("long")),
        (claim(LONG - 1, halts=HALTS[::-1]), {"claim": False}),
        (claim(LONG - 1, time="x"), bad("time")),
        (rides(LONG - 1), {"claim": False}),
    ]
    if "check" in COMMANDS:
        yield asked("claims about the greatest length", edges, command="check", tables=HALTS_TABLE)


def members(size):
    """A flush line of this size, with as many members as fit."""
    count = (size - len(FLUSH)) // 9
    return FLUSH[:-1] + b"".join(b',"%04x":0' % number for number in range(count)) + b"}"


def twice(size):
    """A flush line of this size whose type stands in it as often as fits; the last one counts."""
    return b"{" + b'"type":"no",' * ((size - len(FLUSH)) // 12) + FLUSH[1:]


def via(size):
    """A rerouting of this size, with as many new calls as fit, of a train that is not there."""
    line = b'{"v":1,"type":"reroute","trip":"T9","date":"20260105","from":0,"to":1,"via":['
    call = b'{"stop":"A","arr":"9:00:00","dep":"9:00:00"}'
    return line + b",".join([call] * ((size - len(line) - 2) // (len(call) + 1))) + b"]}"


def extras(n):
    """Extra trains with names of 59,014 bytes that are nearly equal, each with a forecast, in an order that jumps."""
    count = n // 2_500
    calls = [{"stop": stop, "arr": "09:20:00", "dep": "09:20:00"} for stop in "AC"]

    def lines():
        for number in scattered(count):
            train = {"trip": alike(number, 59_000), "date": DAY}
            yield line_of("extra", **train, route="R1", calls=calls) + b"\n"
            yield line_of("forecast", **train, call=0, event="dep", time="09:20:00") + b"\n"

    accepted = (reply(line, {"accepted": line, "changed": line % 2 * 2}) for line in range(1, 2 * count + 1))
    return Case(input=[lines()], output=[accepted], words=["--spare-trains=2000"], megabytes=128)


FROM_A_TO_D = {"from": "A", "to": "D", "date": DAY, "time": "08:00:00"}


def rides_from_a_to_d():
    """The rides of the journey from A to D, as a reply shows them."""
    ends = ("T1", "A", "08:00:00", "B1", "08:30:00"), ("T2", "B2", "08:36:00", "D", "09:10:00")
    return [
        {
            "alight": {"call": 1, "stop": stop, "time": comes},
            "board": {"call": 0, "stop": start, "time": leaves},
            "date": DAY,
            "trip": trip,
        }
        for trip, start, leaves, stop, comes in ends
    ]


def clients(n):
    """Queries of clients whose names have one sum, so that one worker of 16 answers them all."""
    found = {"after": 0, "arrives": "09:10:00", "rides": rides_from_a_to_d()}
    lines = (line_of("query", client=alike(number, 1_000), **FROM_A_TO_D) + b"\n" for number in range(n // 100))
    return Case(input=[lines], output=[same(found, n // 100)], words=["--workers=16"])


def planned(n):
    """Queries of `plans`, each with one plan."""
    found = {"after": 0, "plans": [{"arrives": "09:10:00", "rides": rides_from_a_to_d()}]}
    line = line_of("query", client="q", **FROM_A_TO_D) + b"\n"
    return Case(input=[(line, n // 100)], output=[same(found, n // 100)], command="plans", words=["--rides=8"])


MOST_WATCHED = 10_000
FROM_A_TO_C = line_of("query", client="q", **FROM_A_TO_D | {"to": "C"}) + b"\n"


def from_a_to_c(is_watched):
    """The reply to a query from A to C, which T1 alone answers."""
    (first, _), alight = rides_from_a_to_d(), {"call": 2, "stop": "C", "time": "09:00:00"}
    return {"after": 0, "arrives": "09:00:00", "rides": [first | {"alight": alight}], "watched": is_watched}


def late_at_c(time):
    """A forecast for T1 at C."""
    return line_of("forecast", trip="T1", date=DAY, call=2, event="arr", time=time) + b"\n"


def asked_of_t1(asked, **others):
    """The case of so many queries that T1 alone answers; then it is late, and cancelled."""
    number, line = min(asked, MOST_WATCHED), asked + 1
    late, cancelled = late_at_c("09:01:00"), line_of("cancel", trip="T1", date=DAY, **{"from": 0, "to": 2}) + b"\n"
    output = [
        same(from_a_to_c(True), number),
        *(reply(place, from_a_to_c(False)) for place in range(number + 1, line)),
        reply(line, {"accepted": 1, "changed": 1}), alerts(line, {"arrives": "09:01:00"}, number),
        reply(line + 1, {"accepted": 2, "changed": 4}), alerts(line + 1, {"broken": 0}, number),
    ]  # fmt: skip
    return Case(input=[(FROM_A_TO_C, asked), late, cancelled], output=output, command="watch", **others)


def watches():
    """One journey more than can be watched, and all of them on one train."""
    if "watch" in COMMANDS:
        yield asked_of_t1(MOST_WATCHED + 1, name="one journey more than can be watched, all on one train")


def watched(n):
    """Journeys on one train, as many at the greater size as can be watched."""
    return asked_of_t1(n // 100)


def told_often(n):
    """Messages behind each of which something is told of a thousand journeys."""
    journeys, times = 1_000, ("09:01:00", "09:02:00")

    def replies():
        for number in range(n // 10_000):
            line = journeys + 1 + number
            yield reply(line, {"accepted": number + 1, "changed": 1})
            yield from alerts(line, {"arrives": times[number % 2]}, journeys)

    lines = (late_at_c(times[number % 2]) for number in range(n // 10_000))
    output = [same(from_a_to_c(True), journeys), replies()]
    return Case(input=[(FROM_A_TO_C, journeys), lines], output=output, command="watch")


def lines_of(line, every, answer):
    """The case of a size: the same line, one for so many of its units."""
    return lambda n: Case(input=[(line, n // every)], output=[same(answer, n // every)])


def wide(make, answer, **others):
    """The case of a size: 100 lines that grow to the greatest length."""
    return lambda n: Case(input=[(make(65_532 * n // MILLION) + b"\n", 100)], output=[same(answer, 100)], **others)


def growing_lines():
    """Inputs of lines that are long, many, deep or wide: each with its name, and what makes the case of a size."""
    tail = [reply(1, bad("long")), reply(2, {"flush": 0})]
    yield "bytes of one line", lambda n: Case(input=[(b"x", 100 * n), b"\n", FLUSH], output=tail)
    yield "zero bytes without LF", lambda n: Case(input=[(b"\0", 100 * n)], output=tail[:1])
    yield "bytes that are no text, without LF", lambda n: Case(input=[(b"\xff", 100 * n)], output=tail[:1])
    yield "empty lines", lines_of(b"\n", 1, bad("json"))
    yield (
        "times: empty lines",
        lambda n: Case(input=[(b"\n", n // 4)], output=[same(bad("json"), n // 4), TABLE], command="times"),
    )
    yield "lines that are no text", lines_of(b"\xff" * (LONG - 1) + b"\n", 2_500, bad("utf8"))
    for opening in (b"[", b'{"a":'):
        line = opening * ((LONG - 1) // len(opening)) + b"\n"
        yield f"lines that open {opening.decode()} as often as fits", lines_of(line, 2_500, bad("json"))
    yield "lines with as many members as fit", lines_of(members(LONG - 1) + b"\n", 7_000, {"flush": 0})
    yield "members of each of 100 lines", wide(members, {"flush": 0})
    yield "members of one name in each of 100 lines", wide(twice, {"flush": 0})
    yield "new calls of each of 100 lines", wide(via, refusal("Unknown"))
    for name, make, good in (("stops", claim, True), ("rides", rides, False)) if "check" in COMMANDS else ():
        yield f"{name} of each of 100 claims", wide(make, {"claim": good}, command="check", tables=HALTS_TABLE)
    yield "extra trains with names that are nearly equal", extras
    yield "queries of clients of one worker", clients
    if "plans" in COMMANDS:
        yield "queries of plans", planned
    if "watch" in COMMANDS:
        yield "journeys that are watched on one train", watched
        yield "messages that each tell something of a thousand journeys", told_often
