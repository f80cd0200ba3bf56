#!/usr/bin/env python3
"""Measures replicas over one log: queries of several readers beside one `serve`, and messages through the log.

Usage: bench/replicas.py [FEED ..] [--feed SIZE] [--queries N] [--messages N] [--program PATH]

A FEED is a folder with tables whose first day is DATE. A feed of a size, which is city, region or
nation and may be given more than once, is made as for bench/plans.py. It needs redis-server, which it
starts at a port of 127.0.0.1 and ends.

Queries: 4,000, or as many as it is told, of the kinds of tools/round_trip, are asked of one `serve`
with 1, 2 and 4 workers, which reads them from a file, and of 1, 2 and 4 replicas whose `serve` has one
worker, by one client each, which has up to 200 queries without a reply. It prints queries a second by
the clock, without the time of loading, and the microseconds of processor time of a query in `serve`
and in its readers.

Messages: forecasts as in bench/journal.py, 5,000 or as many as it is told, are put into the log as
fast as one writer can, while one replica follows. It prints messages a second and the microseconds of
processor time of a message in the writer, the log server, the reader and `serve`. Then messages are put
in 25 and 250 a second for some seconds, and it prints how many milliseconds lie between the moment
before a message is put in and that at which its reply is in the replica's file: the median, and that
of one in a hundred. At last the replica is started anew with its record, and it prints the seconds
until it answers, and beside them those of its first start, without a message.

It prints the load of the machine before each part, for figures by the clock tell something only where
no other program runs and there are more cores than processes. It proves nothing and tests nothing;
build the program first (README.md).
"""

import argparse
import os
import statistics
import subprocess
import sys
import tempfile
import threading
import time
from pathlib import Path
from random import Random

sys.dont_write_bytecode = True
from journal import write_messages  # noqa: E402
from plans import MADE, MAKER, SIZES, made_feed, options_of  # noqa: E402
from times import DATE, PROGRAM, TOP  # noqa: E402

sys.path.append(str(TOP / "tools"))
from claim_lines import make_queries, query_line  # noqa: E402
from replica_clients import Away, Client  # noqa: E402
from replica_log import Log, connected  # noqa: E402
from replica_processes import LogServer, Replica, Writer, is_installed, wait_until  # noqa: E402
from replica_record import entries_of  # noqa: E402

QUERIES, MESSAGES = 4_000, 5_000
NUMBERS = 1, 2, 4
UNANSWERED = 200
RATES, RATED_SECONDS = (25, 250), 10
SECONDS = 600
TICKS = os.sysconf("SC_CLK_TCK")
FLUSH = {"v": 1, "type": "flush"}


def read_words():
    words = argparse.ArgumentParser(description=__doc__.splitlines()[0])
    words.add_argument("feeds", nargs="*", type=Path, help="the folders of feeds")
    words.add_argument("--feed", action="append", default=[], choices=SIZES, help="a feed that is made")
    words.add_argument("--maker", type=Path, default=MAKER, help="the script that makes it")
    words.add_argument("--made", type=Path, default=MADE, help="the folder of the feeds that are made")
    words.add_argument("--from", dest="date", default=DATE, help="the first day of the feeds")
    words.add_argument("--queries", type=int, default=QUERIES, help="how many queries are asked")
    words.add_argument("--messages", type=int, default=MESSAGES, help="how many messages are put in")
    words.add_argument("--program", type=Path, default=PROGRAM, help="another program than the built one")
    return words.parse_args()


def on_processors(process):
    """How many seconds a process was on processors, with all of its threads."""
    fields = Path(f"/proc/{process}/stat").read_text().rpartition(")")[2].split()
    return (int(fields[11]) + int(fields[12])) / TICKS


def told_load():
    return "load of the machine: " + " ".join(Path("/proc/loadavg").read_text().split()[:3])


class Bench:
    """A feed, its words and a folder."""

    def __init__(self, words, feed, folder):
        self.folder, self.options, self.processes = folder, options_of(feed, words.date), []
        self.program, self.feed = words.program.resolve(), feed
        date = self.options[self.options.index("--from") + 1]
        drawn = make_queries(Random(1), feed, date, words.queries)
        self.queries = [query_line(query | {"client": f"c{place}"}) for place, query in enumerate(drawn)]
        self.messages = folder / "messages"
        write_messages(feed, date, words.messages, self.messages)

    def serve(self, workers):
        return [self.program, "serve", self.feed, *self.options, "--workers", str(workers)]

    def alone(self, workers, lines):
        """The seconds of one `serve` on these lines, by the clock and on processors."""
        given = self.folder / "given"
        given.write_bytes(b"".join(line + b"\n" for line in lines))
        begin = time.monotonic()
        with given.open("rb") as source:
            child = subprocess.Popen(self.serve(workers), stdin=source, stdout=subprocess.DEVNULL)
            _, _, usage = os.wait4(child.pid, 0)
        return time.monotonic() - begin, usage.ru_utime + usage.ru_stime

    def replicas(self, server, number):
        """So many new replicas that are ready, each with one worker."""
        place = len(self.processes)
        names = (f"replica{place + it}" for it in range(number))
        made = [Replica(name, server.address, self.folder, self.serve(1)) for name in names]
        self.processes += made
        for replica in made:
            replica.start()
        for replica in made:
            wait_until(lambda it=replica: is_ready(it), "a reader does not start")
        return made

    def end(self):
        """Ends what runs."""
        for process in self.processes:
            process.end()


def is_ready(replica):
    """Whether a replica answers."""
    try:
        return Client(SECONDS).ask(replica.address, FLUSH)
    except Away:
        return False


def ask_all(address, lines):
    """Asks a replica all of these queries, with some of them without a reply at a time."""
    asking = connected(address, SECONDS)
    sent = answered = 0
    while answered < len(lines):
        if sent < len(lines) and sent - answered <= UNANSWERED // 2:
            more = lines[sent : answered + UNANSWERED]
            asking.sendall(b"".join(line + b"\n" for line in more))
            sent += len(more)
        answered += asking.recv(1 << 16).count(b"\n")
    asking.close()


def asked_of(replicas, lines):
    """The seconds of replicas on these queries: by the clock, and on processors in `serve` and in the readers."""
    parts = [lines[place :: len(replicas)] for place in range(len(replicas))]
    clients = [threading.Thread(target=ask_all, args=(it.address, part)) for it, part in zip(replicas, parts)]
    processes = [[it.serve_process() for it in replicas], [it.child.pid for it in replicas]]
    before = [sum(map(on_processors, group)) for group in processes]
    begin = time.monotonic()
    for client in clients:
        client.start()
    for client in clients:
        client.join()
    return time.monotonic() - begin, *(sum(map(on_processors, group)) - at for group, at in zip(processes, before))


def measure_queries(bench, server):
    """Prints the figures of queries, of one `serve` and of replicas."""
    print(f"{len(bench.queries):,} queries; {told_load()}")
    print(f"{'':>22}{'a second':>10}{'serve':>10}{'readers':>10}   microseconds on processors")
    for number in NUMBERS:
        load, whole = bench.alone(number, []), bench.alone(number, bench.queries)
        seconds, busy = (last - first for first, last in zip(load, whole))
        print_row(f"1 serve, {number} workers", len(bench.queries), seconds, busy)
    for number in NUMBERS:
        replicas = bench.replicas(server, number)
        print_row(f"{number} replicas", len(bench.queries), *asked_of(replicas, bench.queries))
        bench.end()


def print_row(name, lines, seconds, *busy):
    cells = "".join(f"{it * 1e6 / lines:>10.1f}" for it in busy)
    print(f"{name:>22}{lines / seconds:>10,.0f}{cells}", flush=True)


def measure_messages(bench, server):
    """Prints the figures of messages: as fast as one writer can, and at some rates."""
    with bench.messages.open("rb") as lines:
        count = sum(1 for _ in lines)
    (replica,) = bench.replicas(server, 1)
    replica.end()
    first = started_in(replica)
    writer = Writer(server.address, bench.messages, None)
    bench.processes.append(writer)
    print(f"{count:,} messages; {told_load()}")
    processes = server.child.pid, replica.child.pid, replica.serve_process()
    before, begin = [*map(on_processors, processes)], time.monotonic()
    writer.start()
    _, status, usage = os.wait4(writer.child.pid, 0)
    put, writer.child.returncode = time.monotonic() - begin, status
    wait_until(lambda: told(replica) == count, "the messages are not all there")
    busy = [on_processors(process) - at for process, at in zip(processes, before)]
    print(f"{count / put:,.0f} a second; microseconds of a message on processors:")
    parts = zip(("writer", "log server", "reader", "serve"), (usage.ru_utime + usage.ru_stime, *busy))
    print("   ", ", ".join(f"{name} {seconds * 1e6 / count:.0f}" for name, seconds in parts), flush=True)
    for rate in RATES:
        measure_rate(server, replica, rate)
    replica.end()
    messages = sum(1 for _ in entries_of(replica.record))
    told_start = f"a start with {messages:,} messages in the record: {started_in(replica):.2f} seconds"
    print(f"{told_start}, without a message: {first:.2f}; {told_load()}", flush=True)


def started_in(replica):
    """How many seconds a replica takes until it answers."""
    begin = time.monotonic()
    replica.start()
    wait_until(lambda: is_ready(replica), "a reader does not start")
    return time.monotonic() - begin


def told(replica):
    """The number of the last message whose reply is in the file of a replica."""
    with replica.replies.open("rb") as replies:
        replies.seek(max(0, replies.seek(0, os.SEEK_END) - 70_000))
        lines = replies.read().split(b"\n")
    return int(lines[-2].split(b" ")[0]) if len(lines) > 1 else 0


def measure_rate(server, replica, rate):
    """Prints how many milliseconds behind a replica is, with so many messages a second."""
    spans = []
    with Log(server.address) as log:
        number, begin = log.last(), time.monotonic()
        for turn in range(rate * RATED_SECONDS):
            time.sleep(max(0, begin + turn / rate - time.monotonic()))
            start = time.monotonic()
            log.put(number + turn + 1, b'{"v":1,"type":"flash"}')
            while told(replica) <= number + turn:
                time.sleep(0.0002)
            spans.append(1_000 * (time.monotonic() - start))
    middle, late = statistics.median(spans), sorted(spans)[-max(1, len(spans) // 100)]
    print(f"{rate} a second: {middle:.1f} milliseconds behind, {late:.1f} one in a hundred; {told_load()}", flush=True)


def main():
    words = read_words()
    if not is_installed():
        sys.exit("replicas: no redis-server is installed")
    for path in words.feeds + [made_feed(words, size) for size in words.feed]:
        with tempfile.TemporaryDirectory() as folder:
            bench, server = Bench(words, path, Path(folder)), LogServer(Path(folder))
            print(path)
            try:
                server.start()
                measure_queries(bench, server)
                measure_messages(bench, server)
            finally:
                bench.end()
                server.end()


if __name__ == "__main__":
    main()
