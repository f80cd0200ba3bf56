"""Where the trains of tools/diagram run in its picture: the panels of lines, and each train's lines in them."""

import itertools
import math
from dataclasses import dataclass, field

STATION_GAP = 17  # the least distance of two stations, so that their names do not overlap
PAD = 16  # between the edge of a panel and its first and last station
BETWEEN = 18  # between two panels


@dataclass
class Axis:
    """Time from left to right."""

    begin: int
    end: int
    left: float
    right: float

    def x(self, time):
        return self.left + (self.right - self.left) * (time - self.begin) / (self.end - self.begin)

    def shows(self, time):
        return self.begin <= time <= self.end

    def clipped(self, time, y, later, v):
        """The points of the part of a line that the picture shows; none where it shows nothing of it."""
        if later < self.begin or time > self.end or later < time:
            return []
        points = []
        for edge in (max(time, self.begin), min(later, self.end)):
            part = (edge - time) / (later - time) if later > time else 0
            points.append((self.x(edge), y + part * (v - y)))
        return points


@dataclass
class Panel:
    """The stations of a line from top to bottom, with the least minutes from each to the next, and where each is."""

    stations: list
    minutes: list
    top: float = 0
    bottom: float = 0
    y: dict = field(default_factory=dict)


@dataclass
class Path:
    """A train in a panel: its timetable, what it runs and what it does not run any more, as lines of two points.

    With it stand its live events at the ends of what it runs there.
    """

    train: object
    planned: list = field(default_factory=list)
    now: list = field(default_factory=list)
    gone: list = field(default_factory=list)
    moments: list = field(default_factory=list)

    def late(self):
        """How many minutes late the train is where it is seen last."""
        return max(0, self.moments[-1].time - self.moments[-1].scheduled) // 60 if self.moments else 0

    def runs(self):
        """Whether it goes from one station to another in the picture, and does not only stand there."""
        return any(a[1] != b[1] for a, b in self.now)

    def is_seen(self):
        return self.runs() or bool(self.gone)

    def named(self):
        """The lines along which its name can stand."""
        return self.now if self.runs() else self.gone

    def length(self):
        return sum(math.dist(*line) for line in self.named())


def stand(panels, top, bottom):
    """Gives all panels one scale, but no two stations less than a gap, between the top and the bottom."""
    gaps = [minutes for panel in panels for minutes in panel.minutes]
    room = bottom - top - 2 * PAD * len(panels) - BETWEEN * (len(panels) - 1)
    low, high = 0.0, 1e4
    for _ in range(60):
        scale = (low + high) / 2
        if sum(max(STATION_GAP, scale * gap) for gap in gaps) > room:
            high = scale
        else:
            low = scale
    for panel in panels:
        panel.top = top
        steps = itertools.accumulate((max(STATION_GAP, low * gap) for gap in panel.minutes), initial=top + PAD)
        panel.y = dict(zip(panel.stations, steps))
        panel.bottom = max(panel.y.values()) + PAD
        top = panel.bottom + BETWEEN


def live_legs(moments):
    """The pairs of a departure and the arrival behind it, and those of an arrival and the departure of its call."""
    for a, b in zip(moments, moments[1:]):
        if (a.kind, b.kind) == ("dep", "arr") or (a.kind, b.kind, a.call) == ("arr", "dep", b.call):
            yield a, b


def path_of(feed, train, moments, panel, axis):
    """A train in a panel."""

    def line(stop, time, other, later):
        a, b = panel.y.get(feed.station(stop)), panel.y.get(feed.station(other))
        return [] if a is None or b is None else axis.clipped(time, a, later, b)

    path, run, seen = Path(train), set(), set()
    for a, b in live_legs(moments):
        run.add((a.call, b.call))
        if drawn := line(a.stop, a.time, b.stop, b.time):
            path.now.append(drawn)
            seen |= {a.key(), b.key()}
    for a, b in train.legs:
        leg = line(train.calls[a].stop, train.calls[a].dep, train.calls[b].stop, train.calls[b].arr)
        (path.planned if (a, b) in run else path.gone).append(leg)
    for label in {b for _, b in train.legs} & {a for a, _ in train.legs}:
        call = train.calls[label]
        path.planned.append(line(call.stop, call.arr, call.stop, call.dep))
    path.planned, path.gone = ([it for it in lines if it] for lines in (path.planned, path.gone))
    path.moments = [it for it in moments if it.key() in seen and axis.shows(it.time)]
    return path


def joined(lines):
    """Lines that go on from one another, as lists of points."""
    found = []
    for a, b in lines:
        if found and math.dist(found[-1][-1], a) < 0.05:
            found[-1].append(b)
        else:
            found.append([a, b])
    return found


def point_at(points, way):
    """The point so far along a list of points."""
    for a, b in zip(points, points[1:]):
        length = math.dist(a, b)
        if way <= length and length > 0:
            return a[0] + (b[0] - a[0]) * way / length, a[1] + (b[1] - a[1]) * way / length
        way -= length
    return points[-1]


def bent(points, begin, end):
    """How far a list of points strays from the straight line between two places along it."""
    a, b = point_at(points, begin), point_at(points, end)
    wide = math.dist(a, b) or 1
    steps = [point_at(points, begin + (end - begin) * step / 6) for step in range(1, 6)]
    return max(abs((b[0] - a[0]) * (y - a[1]) - (b[1] - a[1]) * (x - a[0])) / wide for x, y in steps)
