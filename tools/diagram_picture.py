"""The time and distance diagram of tools/diagram as SVG."""

import math
from collections import Counter
from datetime import datetime
from html import escape

from diagram_labels import Label, Places, bounds, text_width
from diagram_paths import Axis, Panel, bent, joined, path_of, point_at, stand
from diagram_run import key_of
from plain_feed import time_text

WIDE, HIGH, EDGE = 1400, 900, 16
COLOURS = "#0b5cad", "#c2410c", "#15803d", "#7c3aed", "#0f766e", "#a16207"
HELD, GONE = "#c0187a", "6 4"
NAME, HOLD, STATION, SMALL = 12.5, 12.5, 13, 11.5  # sizes of type
NEAR = 14  # a label that is so near to what it names needs no line to it
SHORTEST = 30  # a train of which less is seen has no name
STRAIGHT, MAX_BENT = 1.2, 4  # a name stands along a straight part of its line, or else along one that strays so far
STYLE = f"""text{{font-family:"Liberation Sans",Arial,Helvetica,sans-serif;fill:#222}}
.title{{font-size:20px;font-weight:bold}}.text{{font-size:13px;fill:#444}}.station{{font-size:{STATION}px}}
.small{{font-size:{SMALL}px;fill:#555}}.name{{font-size:{NAME}px}}
.hold{{font-size:{HOLD}px;font-weight:bold;fill:{HELD}}}
.name,.hold{{paint-order:stroke;stroke:#fff;stroke-width:3px;stroke-linejoin:round}}
path{{fill:none}}.grid{{stroke:#ececec}}.more{{stroke:#d4d4d4}}.hour{{stroke:#a3a3a3}}.stop{{stroke:#8a8a8a}}
.frame{{stroke:#666}}.plan{{stroke:#a0a0a0;stroke-width:1.1}}.now{{stroke-width:2.1;stroke-linejoin:round}}
.gone{{stroke-width:1.7;stroke-dasharray:{GONE}}}.last{{stroke:#b91c1c;stroke-width:1.2;stroke-dasharray:2 3}}
.lead{{stroke:#555;stroke-width:.7}}
.held{{stroke:{HELD};stroke-width:2.4}}.mark{{fill:{HELD};stroke:#fff;stroke-width:.8}}"""


def steps_of(axis):
    """The seconds between fine lines, between strong lines, and between times that are written."""
    wide = (axis.right - axis.left) / (axis.end - axis.begin) * 60  # of a minute
    fine = next(step for step in (1, 2, 5, 10, 30, 60, 1440) if step * wide >= 8)
    strong = next(step for step in (10, 30, 60, 1440) if step * wide >= 40)
    return 60 * fine, 60 * strong, 60 * next(step for step in (10, 30, 60, 120, 1440) if step * wide >= 56)


def d(lines):
    """Lines of points as the text of a path."""
    return "".join("M" + "L".join(f"{x:.1f} {y:.1f}" for x, y in points) for points in lines)


class Picture:
    """A diagram that is being drawn: its parts as text, from the back to the front, and the places of its labels."""

    def __init__(self, feed, taken, moments, lines, begin, end):
        self.feed, self.taken, self.moments = feed, taken, moments
        self.parts, self.places = [], Places(0, 0, WIDE, HIGH)
        self.panels = [
            Panel(line, [feed.least_minutes(a, b) for a, b in zip(line, line[1:])]) for line in lines
        ]  # fmt: skip
        names = [feed.name(station) for line in lines for station in line]
        left = EDGE + 10 + max(text_width(name, STATION) for name in names)
        self.axis = Axis(begin, end, left, WIDE - EDGE - 40)
        # The legend has its place before the panels have theirs. Its colours are not known yet, so it gets two rows.
        self.legend_top = HIGH - EDGE - 40
        stand(self.panels, 100, self.legend_top - 34)
        self.paths = [
            [path for train in feed.trains.values()
             if (path := path_of(feed, train, moments.get((train.trip, train.date), []), panel, self.axis)).is_seen()]
            for panel in self.panels
        ]  # fmt: skip
        self.colours, self.routes = {}, {}
        self.choose_colours()
        self.trouble = []

    def choose_colours(self):
        """A colour for each route; where there is one or they are too many, for each direction."""
        seen = Counter(path.train.route for paths in self.paths for path in paths)
        if 1 < len(seen) <= len(COLOURS):
            self.routes = {route: place for place, route in enumerate(sorted(seen, key=lambda it: (-seen[it], it)))}
        for place, paths in enumerate(self.paths):
            for path in paths:
                down = sum(b[1] - a[1] for a, b in path.named()) >= 0
                self.colours[place, path.train.trip, path.train.date] = self.routes.get(path.train.route, int(not down))

    def asked(self):
        """The events that are seen, by which `desk` is asked why they are when they are."""
        seen = {it.key(): it for paths in self.paths for path in paths for it in path.moments}
        return list(seen.values())

    def label(self, text, x, y, size, kind, anchor=0.5, bold=False):
        """A label at a fixed place; its middle, beginning or end is there."""
        wide = text_width(text, size, bold)
        self.places.add(Label(text, x + wide * (0.5 - anchor), y, size, kind, bold=bold, anchor=anchor))

    def draw(self, causes):
        """The picture as text. Causes are the chains of the events by their keys."""
        self.draw_head(causes)
        for panel in self.panels:
            self.draw_grid(panel)
        self.draw_last_report(causes)
        for place, paths in enumerate(self.paths):
            self.draw_trains(place, paths, causes)
        for panel, paths in zip(self.panels, self.paths):
            self.draw_holds(panel, paths, causes)
        for place, paths in enumerate(self.paths):
            self.name_trains(place, paths)
        self.draw_legend()
        self.trouble += self.places.faults()
        head = f'<svg xmlns="http://www.w3.org/2000/svg" viewBox="0 0 {WIDE} {HIGH}">'
        colours = "".join(f".c{n}{{stroke:{c}}}.f{n}{{fill:{c}}}" for n, c in enumerate(COLOURS))
        style = f"<style>\n{STYLE}\n{colours}\n</style>"
        back = f'<rect width="{WIDE}" height="{HIGH}" fill="#fff"/>'
        texts = [self.text_of(label) for label in self.places.labels]
        return "\n".join([head, style, back, *self.parts, *texts, "</svg>", ""])

    @staticmethod
    def text_of(label):
        """The text of a label. One that is turned is turned around its middle."""
        x = label.x + text_width(label.text, label.size, label.bold) * (label.anchor - 0.5)
        turn = f' transform="rotate({label.angle:.1f} {label.x:.1f} {label.y:.1f})"' if label.angle else ""
        place = {0: "start", 0.5: "middle", 1: "end"}[label.anchor]
        kind = f'class="{label.kind}" text-anchor="{place}"'
        return f'<text {kind} x="{x:.1f}" y="{label.y + label.size * 0.35:.1f}"{turn}>{escape(label.text)}</text>'

    def draw_head(self, causes):
        line = self.panels[0].stations
        day = datetime.strptime(self.feed.first, "%Y%m%d")
        title = f"{self.feed.name(line[0])} \u2013 {self.feed.name(line[-1])}, {day:%A} {day.day} {day:%B %Y}"
        trains = len({(path.train.trip, path.train.date) for paths in self.paths for path in paths})
        held = sum(1 for chain in causes.values() if chain[0]["by"] in ("hold", "kept"))
        span = f"{time_text(self.axis.begin)[:5]} to {time_text(self.axis.end)[:5]}"
        text = f"{span}, {trains} trains, after {len(self.taken)} messages that were taken; connections held: {held}"
        self.parts.append(f"<title>{escape(title)}</title>")
        self.label(title, EDGE, 28, 20, "title", 0, bold=True)
        self.label(text, EDGE, 54, 13, "text", 0)

    def draw_grid(self, panel):
        axis, fine, strong, written = self.axis, *steps_of(self.axis)
        ends = panel.top, panel.bottom
        kinds = {"grid": [], "more": [], "hour": []}
        for time in range(-(-axis.begin // fine) * fine, axis.end + 1, fine):
            kind = "hour" if time % 3600 == 0 else "more" if time % strong == 0 else "grid"
            kinds[kind].append([(axis.x(time), y) for y in ends])
        kinds["stop"] = [[(axis.left, y), (axis.right, y)] for y in panel.y.values()]
        self.places.lines += kinds["stop"]
        self.parts += [f'<path class="{kind}" d="{d(lines)}"/>' for kind, lines in kinds.items() if lines]
        box = [(axis.left, ends[0]), (axis.right, ends[0]), (axis.right, ends[1]), (axis.left, ends[1])]
        self.parts.append(f'<path class="frame" d="{d([box])}Z"/>')
        for y, panels in ((ends[0] - 9, self.panels[:1]), (ends[1] + 10, self.panels[-1:])):
            for time in range(-(-axis.begin // written) * written, axis.end + 1, written) if panel in panels else ():
                self.label(time_text(time)[:5], axis.x(time), y, SMALL, "small")
        gone = 0
        for station, minutes in zip(panel.stations, [0, *panel.minutes]):
            gone += minutes
            self.label(self.feed.name(station), axis.left - 8, panel.y[station], STATION, "station", 1)
            self.label(f"{gone:.0f} min", axis.right + 6, panel.y[station], SMALL, "small", 0)

    def draw_last_report(self, causes):
        """A line at the latest report that is seen: what stands left of it was reported, but for what is late."""
        said = [key for key, chain in causes.items() if chain[0]["by"] == "report"]
        times = [it.time for paths in self.paths for path in paths for it in path.moments if it.key() in said]
        if times:
            x = self.axis.x(max(times))
            self.parts.append(f'<path class="last" d="M{x:.1f} 84V{self.panels[-1].bottom:.1f}"/>')
            middle = min(max(x, self.axis.left + 60), self.axis.right - 60)
            self.label(f"last report {time_text(max(times))}", middle, 76, SMALL, "small")

    def draw_trains(self, place, paths, causes):
        for path in paths:
            self.places.lines += path.now + path.gone
            if path.planned:
                self.parts.append(f'<path class="plan" d="{d(joined(path.planned))}"/>')
        for path in paths:
            colour = self.colours[place, path.train.trip, path.train.date]
            parts = [f"<title>{escape(self.told(path))}</title>"]
            for kind in ("gone", "now"):
                if lines := getattr(path, kind):
                    parts.append(f'<path class="{kind} c{colour}" d="{d(joined(lines))}"/>')
            for it in path.moments:
                by = causes[it.key()][0]["by"]
                x, y = self.axis.x(it.time), self.panels[place].y[self.feed.station(it.stop)]
                where = f'cx="{x:.1f}" cy="{y:.1f}"'
                if by in ("report", "forecast"):
                    self.places.lines.append([(x - 3, y - 3), (x + 3, y - 3), (x + 3, y + 3), (x - 3, y + 3)])
                if by == "report":
                    parts.append(f'<circle class="f{colour}" {where} r="2.6"/>')
                elif by == "forecast":
                    parts.append(f'<circle class="c{colour}" fill="#fff" stroke-width="1.3" {where} r="2.6"/>')
            self.parts.append("<g>" + "".join(parts) + "</g>")

    def told(self, path):
        """What a pointer on a train shows: its stations in the picture, with what was scheduled and what is known."""
        if not path.moments:
            return f"{path.train.trip} {path.train.date}"
        first, last = path.moments[0], path.moments[-1]
        ends = (f"{self.feed.name(it.stop)} {time_text(it.scheduled)} now {time_text(it.time)}" for it in (first, last))
        return f"{path.train.trip} {path.train.date}: {' to '.join(ends)}"

    def draw_holds(self, panel, paths, causes):
        """Each held departure: a line to it from the arrival that it waits for, and the name of that train."""
        for it in (it for path in paths for it in path.moments):
            chain = causes[it.key()]
            if chain[0]["by"] not in ("hold", "kept"):
                continue
            _, feeder = chain[:2]
            arrival = next(m for m in self.moments[feeder["trip"], feeder["date"]] if m.key() == key_of(feeder))
            y, end = panel.y[self.feed.station(it.stop)], self.axis.x(it.time)
            begin = max(self.axis.left, self.axis.x(arrival.time))
            self.parts.append(
                f'<path class="held" d="M{begin:.1f} {y:.1f}v-6H{end:.1f}v6"/>'
                f'<path class="mark" d="M{begin:.1f} {y + 1:.1f}l-5 -9h10z"/>'
                f'<path class="mark" d="M{end:.1f} {y - 6:.1f}l6 6l-6 6l-6 -6z"/>'
            )
            self.places.lines += [[(begin, y - 6), (end, y - 6)], [(end - 6, y), (end + 6, y)]]
            word = "waits for" if chain[0]["by"] == "hold" else "is kept for"
            text = f"{it.trip} {word} {feeder['trip']}"
            half = text_width(text, HOLD, bold=True) / 2
            middles = [(x, y + up) for up in (-16, 15, -28, 27, -40, 39, -54, 53, -70, 69)
                       for x in (end + half, end, end - half, end + half + 30, end - half - 30)]  # fmt: skip
            choices = [Label(text, x, v, HOLD, "hold", bold=True, leads=(end, y)) for x, v in middles]
            self.place(choices, panel, f"the hold of {it.trip}")

    def place(self, choices, panel, what):
        frame = self.axis.left + 2, panel.top + 2, self.axis.right - 2, panel.bottom - 2
        label = self.places.place(choices, frame)
        if label is None:
            self.trouble.append(f"no place is left for {what}")
        elif label.leads:
            left, right, top, bottom = bounds(label.corners())
            (x, y), (u, v) = label.leads, (min(max(label.leads[0], left), right), min(max(label.leads[1], top), bottom))
            if math.dist((x, y), (u, v)) > NEAR:
                self.parts.append(f'<path class="lead" d="M{u:.1f} {v:.1f}L{x:.1f} {y:.1f}"/>')

    def name_trains(self, place, paths):
        """The name of each train along its line, those first that have little room."""
        for path in sorted(paths, key=lambda path: path.length()):
            if path.length() >= SHORTEST:
                train, late = path.train, path.late()
                day = "" if train.date == self.feed.first else f" of {train.date}"
                more = " does not run here" if not path.runs() else f" +{late}" if late else ""
                choices = along(f"{train.trip}{day}{more}", path, self.colours[place, train.trip, train.date])
                self.place(choices, self.panels[place], f"the name of {train.trip}")

    def draw_legend(self):
        """What the lines and the marks mean."""
        items = [('<path class="plan" d="M0 0H28"/>', "timetable")]
        colours = [(place, f"{route} now") for route, place in self.routes.items()]
        for place, text in colours or [(0, "now, downwards"), (1, "now, upwards")]:
            items.append((f'<path class="now c{place}" d="M0 0H28"/>', text))
        items += [
            ('<path class="gone c0" d="M0 0H28"/>', "no longer runs"),
            ('<circle class="f0" cx="14" r="2.6"/>', "reported"),
            ('<circle class="c0" fill="#fff" stroke-width="1.3" cx="14" r="2.6"/>', "forecast"),
            ('<path class="held" d="M2 0v-6H24v6"/><path class="mark" d="M2 1l-5 -9h10z"/>'
             '<path class="mark" d="M24 -6l6 6l-6 6l-6 -6z"/>', "arrival, and the departure that waits for it"),
            ("", "+5: minutes late where it is seen last"),
        ]  # fmt: skip
        x, y = EDGE, self.legend_top + 14
        for drawn, text in items:
            wide = (36 if drawn else 0) + text_width(text, 13)
            if x + wide > WIDE - EDGE:
                x, y = EDGE, y + 24
            if drawn:
                self.parts.append(f'<g transform="translate({x:.1f} {y})">{drawn}</g>')
            self.label(text, x + (36 if drawn else 0), y, 13, "text", 0)
            x += wide + 24


def along(text, path, colour):
    """Places for a name along the lines of a train, those near the middle first; then beside it, with a line to it."""
    wide, off, kind = text_width(text, NAME), NAME * 0.62 + 2.5, f"name f{colour}"
    choices = []
    for points in sorted(joined(path.named()), key=lambda it: -length_of(it)):
        whole, here = length_of(points), []
        for middle in middles_of(points, wide):
            a, b = middle - wide / 2, middle + wide / 2
            if whole >= wide and bent(points, a, b) > MAX_BENT:
                continue
            # A name that is longer than the line stands over both its ends.
            (x, y), (u, v) = point_at(points, max(a, 0)), point_at(points, min(b, whole))
            turn = math.atan2(v - y, u - x)
            rank = bent(points, max(a, 0), min(b, whole)) > STRAIGHT, abs(middle - whole / 2)
            for side in (-1, 1):
                at = (x + u) / 2 - side * math.sin(turn) * off, (y + v) / 2 + side * math.cos(turn) * off
                here.append((rank, Label(text, *at, NAME, kind, math.degrees(turn))))
        choices += [label for _, label in sorted(here, key=lambda it: it[0])]
    return choices + beside(text, path, kind)


def length_of(points):
    return sum(map(math.dist, points, points[1:]))


def middles_of(points, wide):
    """Where the middle of a name can be along a line: every few steps, or where it is longer, at the line's middle."""
    whole = length_of(points)
    return [wide / 2 + 8 * step for step in range(int((whole - wide) // 8) + 1)] if whole >= wide else [whole / 2]


def beside(text, path, kind):
    """Level places beside the lines of a train, from near to far."""
    wide, choices = text_width(text, NAME), []
    for far in (14, 24, 36, 50, 66):
        for a, b in path.named():
            x, y = (a[0] + b[0]) / 2, (a[1] + b[1]) / 2
            spots = (x + far + wide / 2, y), (x - far - wide / 2, y), (x + wide / 2, y - far), (x - wide / 2, y + far)
            choices += [Label(text, *spot, NAME, kind, leads=(x, y)) for spot in spots]
    return choices
