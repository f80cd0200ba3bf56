"""The lines of the input as docs/FORMATS.md has them: what a line says, or the word for a bad one.

The places, the date and the time of a query are looked at by tools/plain_program.py,
which knows the stops and the loaded days, and so are those of a board; all that a claim
names is by tools/plain_certificates.py.
"""

import re

from plain_tables import is_date, is_time

LONG = 65_536
DEEPEST = 127
BLANKS = re.compile(r"[ \t\r\n]*")
NUMBER = re.compile(r"-?(?:0|[1-9][0-9]*)(?:\.[0-9]+)?(?:[eE][-+]?[0-9]+)?")
TEXT = re.compile(r'"([^"\\\x00-\x1f]*(?:\\(?:["\\/bfnrt]|u[0-9A-Fa-f]{4})[^"\\\x00-\x1f]*)*)"')
ESCAPE = re.compile(r"\\(?:u([dD][89abAB]..)\\u([dD][c-fC-F]..)|u(....)|(.))")
ESCAPES = {"b": "\b", "f": "\f", "n": "\n", "r": "\r", "t": "\t"}
NAMES = {"null": None, "true": True, "false": False}


class Bad(Exception):
    """A line is bad, with this word."""


class Json:
    """Reads a text of JSON. Whole numbers are int, all others float."""

    def __init__(self, text):
        self.text, self.place = text, 0

    def whole(self):
        """What the whole text says."""
        value = self.value(0)
        if self.next() != "":
            raise Bad("json")
        return value

    def next(self):
        """The next character that is no blank, or the empty text at the end."""
        self.place = BLANKS.match(self.text, self.place).end()
        return self.text[self.place : self.place + 1]

    def found(self, pattern):
        match = pattern.match(self.text, self.place)
        if not match:
            raise Bad("json")
        self.place = match.end()
        return match

    def value(self, depth):
        sign = self.next()
        if sign == '"':
            return self.string()
        if sign in ("{", "["):
            if depth == DEEPEST:
                raise Bad("json")
            self.place += 1
            return self.members(depth + 1) if sign == "{" else self.items(depth + 1)
        for name, value in NAMES.items():
            if self.text.startswith(name, self.place):
                self.place += len(name)
                return value
        return number(self.found(NUMBER)[0])

    def members(self, depth):
        """The members of an object, of which the last of one name counts."""
        members = {}
        if self.skips("}"):
            return members
        while True:
            if self.next() != '"':
                raise Bad("json")
            name = self.string()
            if not self.skips(":"):
                raise Bad("json")
            members[name] = self.value(depth)
            if self.skips("}"):
                return members
            if not self.skips(","):
                raise Bad("json")

    def items(self, depth):
        items = []
        if self.skips("]"):
            return items
        while True:
            items.append(self.value(depth))
            if self.skips("]"):
                return items
            if not self.skips(","):
                raise Bad("json")

    def skips(self, sign):
        """Whether this character is next, which is then passed over."""
        is_next = self.next() == sign
        self.place += is_next
        return is_next

    def string(self):
        text = ESCAPE.sub(unescaped, self.found(TEXT)[1])
        if re.search("[\ud800-\udfff]", text):
            raise Bad("json")
        return text


def unescaped(found):
    high, low, code, letter = found.groups()
    if high:
        return chr(0x10000 + ((int(high, 16) - 0xD800) << 10) + int(low, 16) - 0xDC00)
    return chr(int(code, 16)) if code else ESCAPES.get(letter, letter)


def number(text):
    """A number that a float can hold."""
    if abs(float(text)) == float("inf"):
        raise Bad("json")
    return int(text) if re.fullmatch("[0-9]+", text) else float(text)


def text(value):
    return type(value) is str


def label(value):
    return type(value) is int and value < 2**32


def row_count(value):
    return type(value) is int and 1 <= value <= 100


def kind(value):
    return value in ("arr", "dep")


def text_or_null(value):
    return value is None or text(value)


def version(value):
    return type(value) is int and value in (1, 2)


CALL = {"trip": text, "date": text, "call": label}
EVENT = CALL | {"event": kind}
VALUE = EVENT | {"time": text}
NEW_CALLS = [{"stop": text, "arr": text, "dep": text}]
STRETCH = {"trip": text, "date": text, "from": label, "to": label}
CHOICE = {"feeder": CALL, "train": CALL}
TYPES = {
    "forecast": VALUE,
    "report": VALUE,
    "correct": EVENT | {"time": text_or_null},
    "withdraw": EVENT,
    "cancel": STRETCH,
    "reroute": STRETCH | {"via": NEW_CALLS},
    "extra": {"trip": text, "date": text, "route": text, "calls": NEW_CALLS},
    "keep": CHOICE,
    "drop": CHOICE,
    "rule": CHOICE,
    "query": dict.fromkeys(("client", "from", "to", "date", "time"), text),
    "flush": {},
}
# The type that `check` alone knows.
CLAIM = TYPES["query"] | {
    "arrives": text_or_null,
    "rides": [{"trip": text, "date": text, "board": label, "alight": label}],
    "reached": [{"stop": text, "time": text}],
}
# The types that `desk` alone knows.
DESK = {
    "departures": {"client": text, "stop": text, "date": text, "time": text, "rows": row_count},
    "why": EVENT,
}
OWN_TYPES = {"check": {"claim": CLAIM}, "desk": DESK}
# The types that no line of version 1 has.
OF_VERSION_2 = ("correct", "withdraw")


def shaped(value, shape):
    """The part of a value that a shape names."""
    if isinstance(shape, dict):
        if type(value) is not dict or not shape.keys() <= value.keys():
            raise Bad("shape")
        return {name: shaped(value[name], inner) for name, inner in shape.items()}
    if isinstance(shape, list):
        if type(value) is not list:
            raise Bad("shape")
        return [shaped(item, shape[0]) for item in value]
    if not shape(value):
        raise Bad("shape")
    return value


def check_times(message):
    """Checks the dates and times of a message, those of its parts too."""
    for part in (message, *(message.get(name, {}) for name in ("feeder", "train"))):
        if not is_date(part.get("date", "20260105")):
            raise Bad("time")
    calls = [message, *message.get("via", ()), *message.get("calls", ())]
    times = [call[name] for call in calls for name in ("time", "arr", "dep") if name in call]
    if not all(time is None or is_time(time) for time in times):
        raise Bad("time")


def read_line(line, command=None, long=LONG):
    """What the bytes of a line say: its type and the members that the type needs; or it raises Bad.

    Some commands know types of their own. A line of so many bytes is long.
    """
    if len(line) >= long:
        raise Bad("long")
    try:
        words = line.decode("utf-8")
    except UnicodeDecodeError:
        raise Bad("utf8") from None
    value = Json(words).whole()
    head = shaped(value, {"v": version, "type": text})
    types = TYPES | OWN_TYPES.get(command, {})
    if head["type"] not in types or (head["v"] == 1 and head["type"] in OF_VERSION_2):
        raise Bad("shape")
    message = {"type": head["type"]} | shaped(value, types[head["type"]])
    if len(message.get("calls", "..")) < 2:
        raise Bad("shape")
    if head["type"] not in ("query", "claim", "departures", "flush"):
        check_times(message)
    return message


def lines_of(data):
    """The lines of the input, each without its line end."""
    lines = data.split(b"\n")
    return lines if lines[-1] else lines[:-1]
