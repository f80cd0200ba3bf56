#!/usr/bin/env python3
"""Measures the built program on feeds and inputs that it makes from a number: `gen`.

Usage: bench/gen.py [PROGRAM ..]     (the built program where none is given)

For 1,000, 10,000 and 100,000 trains it runs `gen` with 1, 2 and 4 workers, three times
each, and prints the seconds of the least, the peak memory, and the summary, which must
be the same for each number of workers. Several programs are run one after the other on
the same numbers, and must write the same summaries. Seconds are those of a clock, so
they tell something only where no other program runs and there are as many cores as
workers and one more. It proves nothing; build the program first (README.md).
"""

import os
import sys
import tempfile
import time
from pathlib import Path

sys.dont_write_bytecode = True
from times import PROGRAM  # noqa: E402

TRAINS = [1_000, 10_000, 100_000]
WORKERS = [1, 2, 4]
RUNS = 3


def run(program, trains, workers):
    """The seconds, the peak memory in MiB, and the summary."""
    words = [program, "gen", str(trains), "--workers", str(workers)]
    with tempfile.TemporaryFile() as written:
        start = time.monotonic()
        child = os.posix_spawn(program, words, os.environ, file_actions=[(os.POSIX_SPAWN_DUP2, written.fileno(), 1)])
        _, status, usage = os.wait4(child, 0)
        seconds = time.monotonic() - start
        if status != 0:
            sys.exit(f"{program} gen {trains} ended with status {os.waitstatus_to_exitcode(status)}")
        written.seek(0)
        return seconds, usage.ru_maxrss / 1024, written.read().decode().strip()


def main():
    wanted = {}
    for program in [Path(word).resolve() for word in sys.argv[1:]] or [PROGRAM]:
        print(program)
        print(f"{'trains':>8} {'workers':>8} {'seconds':>9} {'MiB':>7}")
        for trains in TRAINS:
            for workers in WORKERS:
                runs = [run(str(program), trains, workers) for _ in range(RUNS)]
                for _, _, summary in runs:
                    if wanted.setdefault(trains, summary) != summary:
                        sys.exit(f"another summary with {workers} workers: {summary}")
                seconds = min(seconds for seconds, _, _ in runs)
                memory = max(memory for _, memory, _ in runs)
                print(f"{trains:>8,} {workers:>8} {seconds:>9.2f} {memory:>7.1f}", flush=True)
            print(wanted[trains])


if __name__ == "__main__":
    main()
