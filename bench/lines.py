#!/usr/bin/env python3
"""Measures the built program on many lines, of which most are refused or bad.

Usage: bench/lines.py [LINES ..]     (100000 1000000 where none are given)

It runs `times` on the feed rows/feeds/a, thrice for each number of lines. First the
lines are reports, forecasts, choices for connections and flush lines in turn: in 24
of them 9 are bad, 10 are refused, 4 are accepted and one is a flush. Then ten more
in each turn cancel, reroute and add trains. Of these 2 are bad, 4 are refused and
one is accepted; the other three add a train, reroute it and cancel it. In the first
200 turns they do so, which uses up the spare trains. Later the train is known, no
part of it is left to reroute, and to cancel it again is accepted without effect.
At last, in place of these ten, eight of version 2: one is bad, three corrections
and withdrawals are refused; a forecast is withdrawn, and a report is corrected,
taken back and given again. It prints the seconds, the lines per second and the peak
memory when the last lines are handed over, which should not grow with the number of
lines. It needs the folder /proc of Linux. It proves nothing and tests nothing; build
the program first (README.md).
"""

import itertools
import json
import re
import subprocess
import sys
import time
from pathlib import Path

sys.dont_write_bytecode = True
from times import DATE, PROGRAM, TOP  # noqa: E402

FEED = TOP / "rows" / "feeds" / "a"
NUMBERS = [100_000, 1_000_000]
AT_ONCE = 10_000
TURNS = 200


def line(kind, version=1, **members):
    return json.dumps({"v": version, "type": kind} | members).encode()


def value(kind, trip, call, event, day_time):
    return line(kind, trip=trip, date=DATE, call=call, event=event, time=day_time)


def choice(kind, feeder, train):
    """Keep, drop or rule, for the calls of T1 and T2 with these labels."""
    calls = {"feeder": ("T1", feeder), "train": ("T2", train)}
    return line(kind, **{name: {"trip": trip, "date": DATE, "call": call} for name, (trip, call) in calls.items()})


FIRST = [value("report", "T1", 0, "dep", "08:05:00"), value("report", "T1", 1, "dep", "08:40:00")]
BAD = [
    b"", b"{", b"this is no message", b'{"v":1,"type":"hold"}', b'{"v":3,"type":"flush"}', b'{"v":1,"type":"fl\xff"}',
    value("report", "T1", -1, "arr", "08:36:00"), value("forecast", "T1", 1, "arr", "8:60:00"), b'{"more":1e400}',
]  # fmt: skip
REFUSED = [
    value("forecast", "T9", 1, "arr", "08:36:00"), value("report", "T1", 9, "arr", "08:36:00"), choice("keep", 0, 0),
    value("report", "T1", 1, "arr", "08:04:00"), value("report", "T1", 1, "dep", "08:41:00"), choice("rule", 1, 1),
    value("forecast", "T1", 1, "arr", "08:41:00"), choice("keep", 2, 0), choice("drop", 2, 0), choice("rule", 2, 0),
]  # fmt: skip
ACCEPTED = [
    value("forecast", "T1", 1, "arr", "08:36:00"), value("forecast", "T1", 1, "arr", "08:39:00"),
    choice("drop", 1, 0), choice("keep", 1, 0),
]  # fmt: skip

OTHERS = [*BAD, *REFUSED, *ACCEPTED, line("flush")]


def of_t1(kind, call, event, version=2, **times):
    """A correction or withdrawal for an event of T1."""
    return line(kind, version, trip="T1", date=DATE, call=call, event=event, **times)


CORRECTIONS = [
    of_t1("correct", 1, "dep", version=1, time="08:41:00"), of_t1("correct", 1, "dep", time="08:04:00"),
    of_t1("correct", 2, "arr", time=None), of_t1("withdraw", 0, "dep"), of_t1("withdraw", 1, "arr"),
    of_t1("correct", 1, "dep", time="08:41:00"), of_t1("correct", 1, "dep", time=None),
    line("report", 2, trip="T1", date=DATE, call=1, event="dep", time="08:40:00"),
]  # fmt: skip


def cancel(trip, last):
    """A cancellation of a whole train, whose last call has this label."""
    return line("cancel", trip=trip, date=DATE, **{"from": 0, "to": last})


def reroute(trip, *via):
    return line("reroute", trip=trip, date=DATE, via=calls(via), **{"from": 0, "to": 1})


def extra(trip, *at):
    return line("extra", trip=trip, date=DATE, route="R1", calls=calls(at))


def calls(at):
    """New calls: each a stop and a time of day, at which the train arrives and departs."""
    return [{"stop": stop, "arr": day_time, "dep": day_time} for stop, day_time in at]


FROM_D, BY_C, TO_A = ("D", "09:20:00"), ("C", "09:40:00"), ("A", "10:00:00")
CHANGES = [
    line("reroute", trip="T2", date=DATE, **{"from": 0, "to": 1}), extra("X", FROM_D), cancel("T1", 2),
    cancel("T9", 1), reroute("T2", BY_C), extra("T1", FROM_D, TO_A), reroute("T2"),
]  # fmt: skip


def one_train_more(number):
    """A turn of all lines, which adds a train of its own."""
    name = f"X{number}"
    return [*OTHERS, *CHANGES, extra(name, FROM_D, TO_A), reroute(name, BY_C), cancel(name, 1)]


MIXES = {
    "trains as they are": OTHERS,
    "changed trains": [text for number in range(TURNS) for text in one_train_more(number)],
    "corrected reports": [*OTHERS, *CORRECTIONS],
}


def hand_over(program, mix, number):
    """Writes so many lines to a program: two reports, and then those of the mix in turn."""
    lines = itertools.islice(itertools.chain(FIRST, itertools.cycle(mix)), number)
    while piece := b"".join(text + b"\n" for text in itertools.islice(lines, AT_ONCE)):
        program.stdin.write(piece)
    program.stdin.flush()


def run(mix, number):
    """Runs the program on so many lines; the seconds that it took and its peak memory in MiB."""
    words = [PROGRAM, "times", FEED, "--from", DATE]
    start = time.monotonic()
    with subprocess.Popen(words, stdin=subprocess.PIPE, stdout=subprocess.DEVNULL) as program:
        hand_over(program, mix, number)
        peak = re.search(r"VmHWM:\s*(\d+) kB", Path(f"/proc/{program.pid}/status").read_text())
    if program.returncode != 0:
        sys.exit(f"the program ended with status {program.returncode}")
    return time.monotonic() - start, int(peak[1]) / 1024


def main():
    numbers = [int(word) for word in sys.argv[1:]] or NUMBERS
    for name, mix in MIXES.items():
        print(name)
        print(f"{'lines':>10} {'seconds':>9} {'a second':>10} {'MiB':>7}")
        for number in numbers:
            seconds, memory = run(mix, number)
            print(f"{number:>10,} {seconds:>9.2f} {number / seconds:>10,.0f} {memory:>7.1f}", flush=True)


if __name__ == "__main__":
    main()
