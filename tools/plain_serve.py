"""Which outputs of `traind` are right beside a plain program: section 11 of docs/MODEL.md, for tools/compare and
tools/fuzz.
"""

import json

from plain_journeys import shown
from plain_program import numbered

WINDOW = 256


class Served:
    """Lines, the plain program's replies to them, and what else `serve` may answer to the queries among them."""

    def __init__(self, plain, has_flushes):
        self.plain, self.has_flushes = plain, has_flushes
        self.rows, self.rides, self.answers = [], [plain.current_rides()], {}

    def take(self, line, message, reply):
        """One line more, with what it says and the reply that the plain program just gave."""
        if self.has_flushes or "flush" not in reply:
            self.rows.append((line, message, reply, self.plain.accepted))
        if "accepted" in reply:
            self.rides.append(self.plain.current_rides())

    def bounds(self):
        """For each line how many messages were accepted before its window, and up to the end of it."""
        begin, least = 0, 0
        for number, (*_, reply, most) in enumerate(self.rows, 1):
            if number - begin == WINDOW or "flush" in reply or number == len(self.rows):
                yield from [(least, most)] * (number - begin)
                begin, least = number, most

    def answer(self, number, query, after):
        """The plain program's answer to the query of a line after so many accepted messages."""
        if (number, after) not in self.answers:
            self.answers[number, after] = self.plain.answer(query, after, self.rides[after])
        return self.answers[number, after]

    def fault(self, got, counts):
        """What is wrong with these lines of output, or None. It counts the queries, and those within a window."""
        if len(got) != len(self.rows) + 1 or got[-1]:
            return f"{len(got) - 1} lines of output, wanted {len(self.rows)}"
        seen = {}
        for number, ((_, message, want, _), ends, text) in enumerate(zip(self.rows, self.bounds(), got), 1):
            if "after" in want:
                client, after = message["client"], count_shown(text)
                least, most = max(ends[0], seen.get(client, 0)), ends[1]
                if not least <= after <= most:
                    return f"line {number} of the output is {text!r}, wanted a count from {least} to {most}"
                counts.update(queries=1, within=ends[0] < after < ends[1])
                seen[client], want = after, self.answer(number, message, after)
            if not is_right(want, number, text):
                return f"line {number} of the output is {text!r}, wanted {want!r}"
        return None


def count_shown(text):
    """The number of accepted messages that a reply shows, or -1."""
    try:
        return int(json.loads(text)["after"])
    except (ValueError, KeyError, TypeError):
        return -1


def is_right(want, number, line):
    """Whether a line of the output is a wanted reply or row.

    Of the journeys that arrive as early, it may show any; and so of the stops that show that it is right, and of the
    journeys that arrive as early with as many rides.
    """
    if not isinstance(want, dict):
        return line == want
    if want.keys().isdisjoint(("rides", "reached", "plans")):
        return line == numbered(want, number)
    try:
        found = found_in(want, json.loads(line))
        return found is not None and line == numbered(want | found, number)
    except (ValueError, KeyError, TypeError, AttributeError):
        return False


def found_in(want, reply):
    """What a reply to a query shows of journeys and of what is reached, in its one form; or None where it is wrong."""
    found, rides = {}, []
    if "rides" in want:
        rides = want["rides"].named(reply["rides"])
        found["rides"] = [*map(shown, rides)] if want["rides"].have(rides) else None
    if "reached" in want:
        found["reached"] = want["reached"].shown(reply["reached"], rides)
    if "plans" in want:
        found["plans"] = want["plans"].shown(reply["plans"])
    return None if None in found.values() else found
