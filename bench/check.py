#!/usr/bin/env python3
"""Measures the built program on queries of `check` and on the claims that its replies make.

Usage: bench/check.py FEED FEED FEED [--queries N] [--from DATE] [--program PATH ..]

On each of the feeds, which are folders with tables whose first day is DATE (20260105
where none is given), it asks 1,000 queries, or as many as it is told, of the kinds of
tools/round_trip, and sends the replies back as claims. It runs `check` on no
line, on the queries and on the claims, three times each, and prints the least seconds,
those without the seconds of loading for the queries and the claims, how many times as long
the queries take, and how many stops and bytes a claim has on average. Queries whose claim
would fit no line are left out, and counted. With several programs each is measured, on the
claims of the first. Seconds are those of a clock. It proves nothing and tests nothing;
build the program first (README.md).
"""

import argparse
import json
import subprocess
import sys
import tempfile
import time
from pathlib import Path
from random import Random

sys.dont_write_bytecode = True
from times import DATE, PROGRAM, TOP  # noqa: E402

sys.path.append(str(TOP / "tools"))
from claim_lines import claim_line, make_queries, query_line, run_check  # noqa: E402

QUERIES = 1_000
RUNS = 3


def read_words():
    words = argparse.ArgumentParser(description=__doc__.splitlines()[0])
    words.add_argument("feeds", nargs="+", type=Path, help="the folders of the feeds")
    words.add_argument("--queries", type=int, default=QUERIES, help="how many queries are asked")
    words.add_argument("--from", dest="date", default=DATE, help="the first day of the feeds")
    words.add_argument("--program", nargs="+", type=Path, default=[PROGRAM], help="the programs")
    return words.parse_args()


def make_lines(program, feed, date, number):
    """The queries whose claims fit a line, these claims, and how many stops they have on average."""
    queries = [*make_queries(Random(1), feed, date, number)]
    replies = [json.loads(line) for line in run_check(program, feed, date, map(query_line, queries))]
    claims = [claim_line(query, reply) for query, reply in zip(queries, replies)]
    kept = [place for place, claim in enumerate(claims) if claim is not None]
    stops = sum(len(replies[place]["reached"]) for place in kept) / max(1, len(kept))
    return [query_line(queries[place]) for place in kept], [claims[place] for place in kept], stops


def run(program, feed, date, path):
    """The seconds of a run of `check` on the lines of a file."""
    with path.open("rb") as lines:
        start = time.monotonic()
        status = subprocess.run([program, "check", feed, "--from", date], stdin=lines, stdout=subprocess.DEVNULL)
        seconds = time.monotonic() - start
    if status.returncode:
        sys.exit(f"{program} ended with status {status.returncode}")
    return seconds


def least(program, feed, date, lines):
    """The least seconds of a few runs on these lines."""
    with tempfile.TemporaryDirectory() as folder:
        path = Path(folder) / "lines"
        path.write_bytes(b"".join(line + b"\n" for line in lines))
        return min(run(program, feed, date, path) for _ in range(RUNS))


def main():
    words = read_words()
    programs = [program.resolve() for program in words.program]
    for feed in words.feeds:
        queries, claims, stops = make_lines(programs[0], feed, words.date, words.queries)
        size = sum(map(len, claims)) / max(1, len(claims))
        print(f"{feed}: {len(claims)} claims of {stops:,.0f} stops and {size:,.0f} bytes on average; ", end="")
        print(f"{words.queries - len(claims)} fit no line")
        print(f"{'load':>9} {'queries':>9} {'claims':>9} {'times':>7}  program")
        for program in programs:
            load, asked, claimed = (least(program, feed, words.date, lines) for lines in ([], queries, claims))
            asked, claimed = asked - load, claimed - load
            print(f"{load:>9.2f} {asked:>9.2f} {claimed:>9.2f} {asked / claimed:>7.2f}  {program}", flush=True)


if __name__ == "__main__":
    main()
