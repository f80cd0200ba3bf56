"""The departures of a station as a page, for tools/diagram: when, whereto, from which platform, and why so late."""

import math
from dataclasses import dataclass
from datetime import datetime
from html import escape

from diagram_labels import text_width
from diagram_run import key_of
from plain_feed import seconds_of, time_text

MOST_ROWS = 20
LATE = 60  # from so many seconds on a departure is late
# The columns of the page, with their widths and the sizes of their type.
COLUMNS = ("Time", 92, 18), ("Expected", 150, 18), ("Train", 160, 17), ("To", 280, 17), ("Platform", 134, 17)
REMARK, REMARK_SIZE, REMARK_LINES = 520, 14, 2
PADDING = 20
STYLE = """body{margin:0;background:#fff;color:#1b1b1b;font-family:"Liberation Sans",Arial,Helvetica,sans-serif}
main{width:1336px;margin:0 auto}
header{display:flex;justify-content:space-between;align-items:baseline;height:64px;line-height:64px;white-space:nowrap}
h1{font-size:28px;margin:0}header p{font-size:14px;color:#555;margin:0}
table{width:1336px;border-collapse:collapse;table-layout:fixed}
th{background:#12325c;color:#fff;font-size:14px;font-weight:normal;height:30px}
th,td{text-align:left;padding:0 10px;overflow:hidden}td{height:35px;border-bottom:1px solid #d9dee5;white-space:nowrap}
td:nth-child(-n+2){font-size:18px;font-variant-numeric:tabular-nums}
td:nth-child(n+3){font-size:17px}td:last-child{font-size:14px;line-height:16px;color:#444;white-space:normal}
tr.late td:nth-child(2){color:#b91c1c;font-weight:bold}
tr.late td:first-child{color:#777}tr.gone td{color:#888}tr.gone td:nth-child(-n+5){text-decoration:line-through}
tr.gone td:last-child{color:#b91c1c}"""


@dataclass
class Row:
    """A departure as it is shown: its times in seconds from the base of day 0, and texts."""

    scheduled: int
    time: int
    trip: str
    to: str
    platform: str
    remark: str
    kind: str = ""

    def cells(self):
        """The cells but the last one, as text."""
        expected = clock(self.time) if self.time != self.scheduled else ""
        if self.kind == "late":
            expected += f" (+{(self.time - self.scheduled) // 60})"
        return clock(self.scheduled), expected, self.trip, self.to, self.platform


def clock(time):
    """A time with its seconds only where it is not a whole minute."""
    return time_text(time) if time % 60 else time_text(time)[:5]


class Causes:
    """Chains in words."""

    def __init__(self, feed, moments, here):
        self.feed, self.here = feed, feed.name(here)
        self.events = {it.key(): it for train in moments.values() for it in train}

    def station(self, link):
        return self.feed.name(self.feed.station(self.events[key_of(link)].stop))

    def root(self, link, moved, is_first):
        """What is said of the last event of a chain, which another one of its train led to, or none."""
        by, time = link["by"], clock(self.events[key_of(link)].time)
        word = {"report": "reported", "forecast": "forecast", "schedule": "as scheduled"}.get(by, "by a later report")
        if moved:
            if is_first and link["event"] == "arr" and self.station(link) == self.here:
                return f"late on arrival ({time}, {word})"
            kind = "arrival" if link["event"] == "arr" else "departure"
            return f"{'' if is_first else 'is '}late from {self.station(link)} ({kind} {time}, {word})"
        if is_first:
            return {"report": "left, as reported", "forecast": "forecast"}.get(by, "")
        return f"arrives at {time}, {word}"

    def clauses(self, chain):
        """What each train of a chain waits for, and at last why that is late."""
        at = 0
        while True:
            start = at
            while chain[at]["by"] in ("run", "stop"):
                at += 1
            link = chain[at]
            if link["by"] not in ("hold", "kept"):
                yield self.root(link, at > start, start == 0)
                return
            kept = " as a dispatcher said" if link["by"] == "kept" else ""
            feeder = chain[at + 1]["trip"]
            if at == 0:
                yield f"waits for {feeder}{kept}"
            else:
                yield f"{'' if start == 0 else 'was '}held in {self.station(link)} for {feeder}{kept}"
            at += 1

    def words(self, chain):
        """As many of the clauses as have room, the first one at least."""
        clauses = list(self.clauses(chain))
        for number in range(len(clauses), 0, -1):
            text = ", which ".join(clauses[:number]) + (" .." if number < len(clauses) else "")
            if lines_of(text) <= REMARK_LINES:
                break
        return text


def lines_of(text):
    """How many lines a remark takes at most."""
    lines, room = 1, REMARK - PADDING
    for word in text.split(" "):
        wide = text_width(word + " ", REMARK_SIZE)
        if wide > room:
            lines, room = lines + math.ceil(wide / (REMARK - PADDING)), REMARK - PADDING
        room -= wide
    return lines


def live_rows(feed, program, moments, station, time, number):
    """The departures that `desk` answers, with the causes of those that are late."""
    shown = program.board(station, feed.first, time_text(time), number)
    chains = program.chains([{name: it[name] for name in ("trip", "date", "call")} | {"event": "dep"} for it in shown])
    causes = Causes(feed, moments, station)
    for it, chain in zip(shown, chains):
        scheduled, now = (seconds_of(it[name], feed.bases[it["date"]]) for name in ("scheduled", "time"))
        is_late = now - scheduled >= LATE
        told = causes.words(chain) if is_late or chain[0]["by"] in ("report", "hold", "kept") else ""
        to = feed.name(feed.station(it["to"]))
        yield Row(scheduled, now, it["trip"], to, feed.platform(it["stop"]), told, "late" if is_late else "")


def gone_rows(feed, moments, station, time):
    """The departures that stood in the timetable and do not take place."""
    for (trip, date), train in feed.trains.items():
        live = {(it.call, it.kind) for it in moments.get((trip, date), [])}
        for label in {a for a, _ in train.legs}:
            call = train.calls[label]
            is_here = feed.station(call.stop) == station and call.boards and call.dep >= time
            if is_here and (label, "dep") not in live:
                to = feed.name(feed.station(train.calls[train.last].stop))
                told = "does not run from here" if live else "does not run"
                yield Row(call.dep, call.dep, trip, to, feed.platform(call.stop), told, "gone")


def board_rows(feed, program, moments, station, time, number):
    """The rows of the page by the times that count; a departure that is gone has that of the timetable."""
    live = list(live_rows(feed, program, moments, station, time, number))
    until = live[-1].time if len(live) == number else math.inf
    gone = [row for row in gone_rows(feed, moments, station, time) if row.time <= until]
    return sorted(live + gone, key=lambda row: row.time)[:number]


def faults(rows):
    """What has no room in its column."""
    for row in rows:
        for cell, (name, wide, size) in zip(row.cells(), COLUMNS):
            if text_width(cell, size, bold=name == "Expected") > wide - PADDING:
                yield f"{cell!r} has no room in the column {name}"
        if lines_of(row.remark) > REMARK_LINES:
            yield f"{row.remark!r} has no room in its row"


def page(feed, program, taken, moments, station, time, words):
    """The page, and what is wrong with it."""
    rows = board_rows(feed, program, moments, station, time, words.rows)
    day = datetime.strptime(feed.first, "%Y%m%d")
    title = f"{feed.name(station)}: departures"
    text = f"{day:%A} {day.day} {day:%B %Y}, from {clock(time)} on, after {len(taken)} messages that were taken"
    heads = [*COLUMNS, ("Why", REMARK, REMARK_SIZE)]
    widths = "".join(f'<col style="width:{wide}px">' for _, wide, _ in heads)
    body = []
    for row in rows:
        cells = "".join(f"<td>{escape(cell)}</td>" for cell in (*row.cells(), row.remark))
        body.append(f'<tr class="{row.kind}">{cells}</tr>' if row.kind else f"<tr>{cells}</tr>")
    lines = [
        "<!DOCTYPE html>", '<html lang="en">', '<head><meta charset="utf-8">',
        f"<title>{escape(title)}</title>", f"<style>\n{STYLE}\n</style></head>", "<body><main>",
        f"<header><h1>{escape(title)}</h1><p>{escape(text)}</p></header>", f"<table>{widths}",
        "<tr>" + "".join(f"<th>{name}</th>" for name, *_ in heads) + "</tr>", *body,
        "</table>", "</main></body>", "</html>", "",
    ]  # fmt: skip
    return "\n".join(lines), list(faults(rows))
