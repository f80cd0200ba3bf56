"""Journals for tools/plain_program.py: what `journal` writes, and what `restart` and `follow` read.

A journal is a header, which shows the values of the words that it was written with, and a line for each accepted
message, in the order in which they were accepted. Each line is the text of an object with its members in the order of
their names and without blanks, and an LF; that of a message is in version 2, with times as HH:MM:SS. What stands behind
the last LF was not written whole, and is passed over. A line is compared byte for byte with that which would be written
for it, and each message is checked in the state after those before it.
"""

from plain_feed import MONDAY, seconds_of, time_text
from plain_lines import Bad, read_line
from plain_program import DEFAULTS, TAKES, compact
from plain_tables import fault

NAME = "journal.jsonl"
LONG = 1_048_576
HEAD = "change", "days", "overrides", "slack", "spare-calls", "spare-trains", "stop", "window"
TIMES = "time", "arr", "dep"
CALLS = "via", "calls"


def line_of(value):
    """The bytes of the line of an object."""
    return compact(value).encode() + b"\n"


def header_line(options):
    """The header for the options that words give; where they give no zone, it shows none."""
    values = DEFAULTS | {"from": MONDAY} | options
    head = {name.replace("-", "_"): values[name] for name in HEAD}
    return line_of(head | {"from": values["from"].strftime("%Y%m%d"), "journal": 1, "zone": options.get("zone")})


def message_line(message):
    """The line of a message."""
    calls = {name: [*map(with_long_times, message[name])] for name in CALLS if name in message}
    return line_of(with_long_times(message) | calls | {"v": 2})


def with_long_times(part):
    """A message or a call of it, with two digits of hours in its times."""
    return part | {name: time_text(seconds_of(part[name], 0)) for name in TIMES if part.get(name)}


def journal_of(options, answered):
    """The journal of the messages that were accepted, among those that were answered, each with its reply."""
    lines = (message_line(message) for message, reply in answered if "accepted" in reply)
    return b"".join([header_line(options), *lines])


def restart(plain, options):
    """Takes the journal in the folder of the feed; or it raises Refused."""
    replay(plain, options, plain.feed.tables.data(NAME, NAME))


def replay(plain, options, data):
    """Takes the messages of a journal; or it raises Refused with its first line that is wrong."""
    *lines, rest = data.split(b"\n")
    for number, line in enumerate(lines, 1):
        check_length(number, line)
        if number == 1:
            check_header(options, line)
        elif not is_taken(plain, line):
            raise fault(NAME, number, "bad line")
    check_length(len(lines) + 1, rest)
    if not lines:
        check_header(options, None)


def check_length(number, line):
    if len(line) >= LONG:
        raise fault(NAME, number, "bad line")


def check_header(options, line):
    """Raises Refused where the first line is not the header of these options, or is None, not whole."""
    if line is None or line + b"\n" != header_line(options):
        raise fault(NAME, 1, "bad header")


def is_taken(plain, line):
    """Whether these bytes are the line of a message that is accepted, which then has its effect."""
    try:
        message = read_line(line, long=LONG)
    except Bad:
        return False
    return message["type"] in TAKES and message_line(message) == line + b"\n" and "accepted" in plain.taken(message)
