"""Labels for tools/diagram: how wide a text is, and a greedy search for places where no two labels overlap."""

import math
from dataclasses import dataclass

# Widths of characters as parts of the size of the type, no less than those of Arial and Liberation Sans.
WIDTHS = (("ijl.,:;'|! ", 0.29), ("frtI()[]/-\\", 0.36), ("mwMW@%", 0.95))
CAPITAL, OTHER, FOREIGN = 0.75, 0.57, 1.05
TALL = 1.15  # the height of a line of text, as a part of its size
APART = 1.5  # how far labels stand from one another
CROSSED = 20  # a line under a label is as bad as so many places further down the list


def char_width(char):
    for chars, width in WIDTHS:
        if char in chars:
            return width
    if ord(char) > 0x24F:
        return FOREIGN
    return CAPITAL if char.isupper() else OTHER


def text_width(text, size, bold=False):
    """At least the width of a text, in the unit of the size."""
    return sum(map(char_width, text)) * size * (1.07 if bold else 1)


@dataclass
class Label:
    """A text around a middle, turned by an angle in degrees; `kind` is its class in the picture."""

    text: str
    x: float
    y: float
    size: float
    kind: str
    angle: float = 0
    bold: bool = False
    anchor: float = 0.5  # where its text is fixed, from its beginning at 0 to its end at 1
    leads: tuple = ()  # the point that a thin line from the label leads to, where it has one

    def corners(self, more=0.0):
        half, tall = text_width(self.text, self.size, self.bold) / 2 + more, self.size * TALL / 2 + more
        turn = math.radians(self.angle)
        c, s = math.cos(turn), math.sin(turn)
        return [
            (self.x + a * c - b * s, self.y + a * s + b * c)
            for a, b in ((-half, -tall), (half, -tall), (half, tall), (-half, tall))
        ]


def bounds(points):
    """The least and the greatest place of points, from left to right and from top to bottom."""
    xs, ys = [x for x, _ in points], [y for _, y in points]
    return min(xs), max(xs), min(ys), max(ys)


def are_apart(some, others):
    """Whether two convex shapes, each given by its corners, have no point in common."""
    a, b = bounds(some), bounds(others)
    if a[1] <= b[0] or b[1] <= a[0] or a[3] <= b[2] or b[3] <= a[2]:
        return True
    for shape in (some, others):
        for (x, y), (u, v) in zip(shape, shape[1:] + shape[:1]):
            across = (v - y, x - u)
            first = [across[0] * p + across[1] * q for p, q in some]
            second = [across[0] * p + across[1] * q for p, q in others]
            if max(first) <= min(second) or max(second) <= min(first):
                return True
    return False


class Places:
    """The labels that are placed, and the drawn lines that a new one should keep off."""

    def __init__(self, left, top, right, bottom):
        self.frame = left, top, right, bottom
        self.labels, self.lines = [], []

    def is_inside(self, label, frame=None):
        left, top, right, bottom = frame or self.frame
        xmin, xmax, ymin, ymax = bounds(label.corners())
        return left <= xmin and xmax <= right and top <= ymin and ymax <= bottom

    def is_free(self, label):
        corners = label.corners(APART)
        return all(are_apart(corners, other.corners()) for other in self.labels)

    def crossed(self, label, most):
        """How many lines run under a label; it stops counting at so many."""
        corners, found = label.corners(), 0
        for line in self.lines:
            found += not are_apart(corners, line)
            if found >= most:
                break
        return found

    def add(self, label):
        self.labels.append(label)

    def place(self, choices, frame):
        """Takes the best of the places that lie in a frame and are free, the earlier ones first; none may be there."""
        best, cost = None, math.inf
        for rank, label in enumerate(choices):
            if rank >= cost:
                break
            if self.is_inside(label, frame) and self.is_free(label):
                here = rank + CROSSED * self.crossed(label, math.ceil((cost - rank) / CROSSED) if best else 1_000)
                if here < cost:
                    best, cost = label, here
        if best:
            self.add(best)
        return best

    def faults(self):
        """What is wrong with the labels: each that stands outside, and each two that overlap."""
        found = [f"{it.text!r} stands outside the picture" for it in self.labels if not self.is_inside(it)]
        for place, label in enumerate(self.labels):
            corners = label.corners()
            for other in self.labels[:place]:
                if not are_apart(corners, other.corners()):
                    found.append(f"{label.text!r} overlaps {other.text!r}")
        return found
