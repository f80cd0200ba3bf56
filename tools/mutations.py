"""Mutations of the tables, words, lines and journals of a case of tools/fuzz.

Each takes the random numbers of the case first. Tables are bytes by name; a name that
is not there is a table that is not there, and None is a folder in place of the table.
"""

import json
import os
import re
from copy import deepcopy

BYTES = (
    *[bytes([byte]) for byte in b'\r\n\n\n"",, \t\0-+:.;0159aZ{}[]\\/'], b"\r\n", b'""', b"\xff", b"\xc3",
    b"\xc3\xa4", b"\xed\xa0\x80", b"\xc0\x80", b"\xf4\x90\x80\x80", b"\xf0\x9f\x9a\x82", b"\xef\xbb\xbf", b"\xc2\xa0",
    b"\x7f", b"\x85",
)  # fmt: skip
FIELDS = (
    "", "", " ", "\t", "0", "1", "2", "3", "4", "5", "00", "01", "001", "-1", "+1", "1.0", "1e0", "999999999",
    "1000000000", "0999999999", "86400", "86401", "8:05:00", "8:5:00", "08:00", "24:00:00", "99:59:59", "100:00:00",
    "07:60:00", "07:59:60", "0:00:00", "00:00:00", "008:00:00", "-1:00:00", " 08:00:00\t", "20260105", "20260106",
    "20260229", "20240229", "00000101", "00000229", "01000229", "00000000", "99991231", "2026-01-05", "2026010",
    "NONE", "\u00a0", "\u0661", "e\u0301", '"', '""', '"A"', 'A"B', '"A,B"', '"A\nB"', '"A"B', ' "A"', "\0",
    "\ufeffA", "A", "B", "T1", "R1", "W",
)  # fmt: skip
TIMES = (
    "", "8:05:00", "08:05:00", "8:5:00", "08:00", "24:00:00", "99:59:59", "100:00:00", "07:60:00", "07:59:60",
    "0:00:00", "00:00:00", "008:00:00", "-1:00:00", "08:00:00:00", "08:00:0", "08-00-00",
)  # fmt: skip
DAYS = (
    "", "20260105", "20260106", "20260104", "20260107", "20260229", "20240229", "00000101", "00000229", "01000229",
    "00000000", "99991231", "20261301", "20260132", "20260100", "2026-01-05", "2026010", "202601055", "0020260105",
)  # fmt: skip
COLUMNS = {
    b"location_type": ("", "0", "1", "2", "3", "4", "5", "00", "01", "-1"),
    b"stop_sequence": ("", "0", "1", "01", "1", "2", "02", "3", "03", "+1", "999999999", "0999999999", "000000001"),
    b"transfer_type": ("", "0", "1", "2", "2", "3", "3", "4", "5", "00", "02", "03", "999999999", "1000000000", "x"),
    b"min_transfer_time": ("", "0", "000", "1", "60", "86400", "999999999", "1000000000", "-1"),
    b"max_wait": ("", "0", "000", "1", "60", "3600", "86400", "086400", "86401", "86399", "-1", "1000000000"),
    b"exception_type": ("", "0", "1", "2", "3", "01", "02"),
}
COLUMNS |= dict.fromkeys((b"pickup_type", b"drop_off_type"), ("", "0", "1", "1", "001", "2", "01", "1000000000", "x"))
COLUMNS |= dict.fromkeys((b"arrival_time", b"departure_time"), TIMES)
COLUMNS |= dict.fromkeys((b"start_date", b"end_date", b"date"), DAYS)
WEEKDAY = ("", "0", "0", "1", "2", "00", "01")
PLACES = (b"stop_id", b"from_stop_id", b"to_stop_id", b"parent_station")
OPTIONAL = (
    "location_type", "parent_station", "pickup_type", "drop_off_type", "min_transfer_time", "from_route_id",
    "to_route_id", "from_trip_id", "to_trip_id", "stop_name", "Stop_id", "stop_id", "trip_id", "",
)  # fmt: skip
NAMES = (
    "stops.txt", "trips.txt", "stop_times.txt", "calendar.txt", "calendar_dates.txt", "transfers.txt",
    "waiting_rules.txt", "frequencies.txt",
)  # fmt: skip
WORDS = (
    "", "-", "--", "---", "-5", "-d", "--days", "--days=2", "--days=", "--fro", "--FROM", "--from", "--from=20260106",
    "--help", "--version", "-h", "-V", "--workers", "--workers=16", "--workers=17", "--workers=0", "--slack=51",
    "--slack=-5", "--no", "0", "1", "2", "007", "16", "17", "31", "32", "50", "51", "3600", "3601", "86400",
    "000000001", "0000000001", "2000", "2001", "40000", "40001", "100000", "100001", "+1", "1,000", "1.0", " 1",
    "feed", "./feed", "feed/", "feed/stops.txt", "nofeed", "x" * 300, "feed/..", "/dev/null", "\u00e4", "\u0661",
    "times", "serve", "check", "plans", "watch", "desk", "journal", "restart", "follow", "gen", "help", "TIMES",
    "20260106", "20260229", "18991231", "19000101", "21001231", "--rides", "--rides", "--rides=1", "--rides=8",
    "--rides=9", "--rides=0", "--rides=", "8", "9", "21010101", "00000101", "2026-01-05", "202601055",
    "--zone", "--zone=", "--zone=UTC0",
    "--zone=CET-1CEST,M3.5.0,M10.5.0/3", "CET-1CEST,M3.5.0,M10.5.0/3", "UTC0", "CET",
)  # fmt: skip
RENAMED = (
    b"", b'"A,B"', b'"A\nB"', b'"A\rB"', b'"A\rB"', b'"A\r\nB"', b'"A""B"', b'A"B', b'""""', b'"A"B', b"\xc3\xa4",
    b"e\xcc\x81", b"\xc2\xa0", b"\0", b"\x1f", b"\x7f", b"\xe2\x80\xa8", b"\xf0\x9f\x9a\x82", b"a b", b"\\", b"/",
    b"null", b"1e400", b"a", b"A", b"A ", b'" A"', b"\xef\xbb\xbfA", b"x" * 300, b"\x08\x0c", b"{}", b"T1", b"R1",
    b"B1", b"20260105",
)  # fmt: skip
HYPHENS = ("-", "-", "--", "--", "-5", "--days", "--days=2", "--workers", "--rides", "--=", "---", "--slack=-5", "")
VALUES = (
    None, True, False, 0, 1, 2, 3, 100, 101, -1, 1.0, 1.5, 4294967295, 4294967296, 2**53, 2**64 - 1, 2**64, 10**40,
    "", "0", "1", "arr", "dep", "A", "B", "B1", "T1", "T2", "R1", "X1", "none", [], {}, [1], ["A"], {"a": 1}, "8:05:00",
    "24:00:00", "99:59:59", "100:00:00", "08:60:00", "8:5:00", "08:00:00 ", "00:00:00", "0008:00:00", "00008:00:00",
    "9320:40:31", "9320:40:32", "9999:59:59", "20260105", "20260106", "20260107", "20260230", "00000229", "99991231",
    "2026010", "\0", "\u00e4", "\u2028", "\U0001f682", "\ufeff",
    'a"b', "a\\b", "a\nb", "a\rb", "a/b", "\x7f", "a,b",
)  # fmt: skip
TEXTS = (
    "-0", "-1", "1.0", "1e0", "1E+2", "01", "1.", ".5", "+1", "1e", "0x1", "1e400", "-1e400", "1e-400", "0e999",
    "1" * 400, "4294967295.0", "NaN", "1.7976931348623158e308", "1.7976931348623159e308", "Infinity", "nul", "True",
    "'a'", '"\\ud800"', '"\\udc00\\ud800"', '"\\ud83d\\ude82"', '"\\u0041"', '"\\u00e"', '"\\x41"', '"\\/"',
    '"\\b\\f"', '"\t"', '"', "[", "{", "]", "}", "[1,]", '{"a":1,}', '{"a"}', "{1:1}", "", "[" * 125 + "]" * 125,
    "[" * 126 + "]" * 126, "[" * 127 + "]" * 127, '{"a":' * 126 + "1" + "}" * 126, "/* */ 1", "1 2",
)  # fmt: skip
MEMBERS = (
    "v", "type", "trip", "date", "call", "event", "time", "from", "to", "via", "route", "calls", "feeder", "train",
    "client", "stop", "arr", "dep", "arrives", "rides", "reached", "board", "alight", "rows", "V", "more",
)  # fmt: skip
ENDS = (
    b"", b"\n", b"\n", b"\n\n", b"\r\n", b" \t\r\n", b"\0\n", b"\n \n", b"}\n", b"{}\n", b"\n[]\n", b"\nnull\n",
    b"\n1\n", b'\n""\n',
)  # fmt: skip
NO_MESSAGES = (
    b"", b" ", b"{}", b"null", b'{"type":"flush","v":2}',
    b'{"client":"c1","date":"20260105","from":"A","time":"08:00:00","to":"D","type":"query","v":2}',
)  # fmt: skip
MESSAGES = "forecast", "report", "correct", "withdraw", "cancel", "reroute", "extra", "keep", "drop", "rule"
TYPES = (*MESSAGES, "query", "claim", "departures", "why", "flush", "Flush", "")
LONG = 65_536
TIME = re.compile("[0-9]+:[0-9]+:[0-9]+")


def bytes_mutated(random, data):
    """A few bytes changed, put in, taken out, doubled or cut."""
    place, size = random.randint(0, len(data)), random.choice((1, 1, 1, 2, 5, 20))
    end = min(len(data), place + size)
    way = random.randrange(8)
    if way == 0 and place < len(data):
        return data[:place] + bytes([data[place] ^ 1 << random.randrange(8)]) + data[place + 1 :]
    if way == 1:
        return data[:place] + data[end:]
    if way == 2:
        return data[:end] + data[place:]
    if way == 3 and random.randrange(4) == 0:
        return data[:place]
    if way == 4:
        return data[:place] + bytes([random.randrange(256)]) + data[place + 1 :]
    if way == 5:
        return data[:place] + random.choice(BYTES) + data[place + 1 :]
    return data[:place] + random.choice(BYTES) + data[place:]


def cells_of(data):
    return [line.split(b",") for line in data.split(b"\n")]


def joined(cells):
    return b"\n".join(b",".join(row) for row in cells)


def other_cell(random, tables, column):
    """A field of any table, most times of a column of the same name or of one that names places as well."""
    known = [cells_of(data) for data in tables.values() if data]
    names = PLACES[:1] if column in PLACES else (column,)
    same = [(table, table[0].index(name)) for table in known for name in names if name in table[0]]
    if column in PLACES and same and random.randrange(2):
        same = [max(same, key=lambda found: found[0][0][:1] == [b"stop_id"])]
    if same and random.randrange(6):
        table, place = random.choice(same)
        return (random.choice(table) + [b""] * len(table[0]))[place]
    return random.choice(random.choice(random.choice(known)))


def near(random, field):
    """A field with another digit, or with blanks, quotes or a byte more or less."""
    digits = [place for place, byte in enumerate(field) if byte in b"0123456789"]
    if digits and random.randrange(4):
        place = random.choice(digits)
        return field[:place] + random.choice(b"0123456789").to_bytes(1, "big") + field[place + 1 :]
    quoted = b'"' + field.replace(b'"', b'""') + b'"'
    blank = b" " + field, field + b"\t", b'" ' + field + b'"'
    return random.choice((*blank, b"0" + field, quoted, quoted, field.upper(), field[:-1]))


def field_mutated(random, tables, name):
    """Another value for one to three fields, of one row or of several."""
    cells = cells_of(tables[name])
    row = random.choice(cells[random.randrange(20) > 0 :] or cells)
    for _ in range(random.choice((1, 1, 1, 2, 2, 3))):
        place = random.randrange(len(row))
        column = cells[0][place] if place < len(cells[0]) else b""
        usual = COLUMNS.get(column, WEEKDAY if column.endswith(b"day") else FIELDS)
        other, field = other_cell(random, tables, column), row[place]
        ways = random.choice(FIELDS).encode(), other, other, near(random, field), random.choice(usual).encode()
        row[place] = random.choice((*ways, ways[-1], ways[-1]))
        if random.randrange(6) == 0:
            row = random.choice(cells)
    tables[name] = joined(cells)


def rows_mutated(random, tables, name):
    cells = cells_of(tables[name])
    first, second = (random.randrange(len(cells)) for _ in range(2))
    extra = [b""], [b" "], [b""] * len(cells[0]), cells[first][:-1], [*cells[first], b""], [b"\r"], [b'""']
    way = random.randrange(7)
    if way == 0:
        del cells[first]
    elif way == 1:
        cells.insert(second, [*cells[first]])
    elif way == 2:
        cells[first], cells[second] = cells[second], cells[first]
    elif way == 3:
        cells.insert(second, cells.pop(first))
    elif way == 4:
        cells.insert(second, random.choice(extra))
    elif way == 5:
        body = cells[1:]
        random.shuffle(body)
        cells[1:] = body
    elif random.randrange(3) == 0:
        del cells[1 + first :]
    tables[name] = joined(cells)


def columns_mutated(random, tables, name):
    cells = [row for row in cells_of(tables[name]) if row != [b""]]
    width = min(map(len, cells), default=0)
    if not width:
        return
    first, second = random.randrange(width), random.randrange(width)
    way = random.choice((0, 1, 1, 2, 2, 3, 3, 4, 4, 4, 5))
    value = random.choice((b"", b"", b"0", b"1", b"2", b"A", random.choice(FIELDS).encode()))
    for number, row in enumerate(cells):
        if way == 0:
            del row[first]
        elif way == 1:
            row.insert(second, row[first])
        elif way == 2:
            row[first], row[second] = row[second], row[first]
        elif way == 3:
            row.insert(second, row.pop(first))
        elif way == 4 and number > 0:
            row.append(value)
    if way == 4:
        cells[0].append(random.choice(OPTIONAL).encode())
    elif way == 5:
        cells[0][first] = random.choice((*OPTIONAL, cells[0][second].decode("latin-1"))).encode()
    tables[name] = joined(cells) + b"\n"


def table_formed(random, tables, name):
    """Another form of the same table."""
    data = tables[name]
    quoted = b"\n".join(b",".join(b'"' + cell + b'"' for cell in row) for row in cells_of(data) if row != [b""])
    spaced = data.replace(b",", random.choice((b" ,", b", ", b"\t,", b" ,\t")))
    ends = (data.replace(b"\n", end) for end in (b"\r\n", b"\r", b"\n\n", b"\n\r\n"))
    mark = b"\xef\xbb\xbf"
    marked = mark + data, mark + mark + data, b"\n" + data, mark + b"\n" + data, data.removesuffix(b"\n")
    tables[name] = random.choice((*ends, *marked, quoted, spaced))


def renamed(random, tables, name):
    """One id of a table exchanged for another text wherever it stands; or any field, where the table has no id."""
    header, *cells = [row for row in cells_of(tables[name]) if row != [b""]] or [[]]
    places = [place for place, column in enumerate(header) if column.endswith(b"_id")] or [*range(len(header))]
    row = random.choice(cells or [[]])
    old = [row[place] for place in places if place < len(row)]
    if old:
        old, new = random.choice(old), random.choice(RENAMED)
        for table in [table for table, data in tables.items() if data]:
            tables[table] = joined([[new if cell == old else cell for cell in row] for row in cells_of(tables[table])])


def calls_mutated(random, tables, name):
    """Some rows of a trip that lose their times, or stand alone, or have their times exchanged."""
    name = "stop_times.txt"
    header, *cells = cells_of(tables.get(name) or b"")
    columns = [header.index(column) for column in (b"arrival_time", b"departure_time") if column in header]
    trip = header.index(b"trip_id") if b"trip_id" in header else 0
    rows = [row for row in cells if len(row) == len(header)]
    if not rows or not columns:
        return
    one = random.choice(rows)[trip]
    rows = [row for row in rows if row[trip] == one]
    random.shuffle(rows)
    first, last = rows[0], rows[-1]
    way = random.randrange(4)
    if way == 0:
        cells = [row for row in cells if row not in rows[1:]]
    for column in columns if way > 0 else ():
        for row in rows[: random.randint(1, len(rows))] if way == 1 else ():
            row[column] = b""
        if way > 1:
            other = columns[way % len(columns)]
            first[column], last[other] = last[other], first[column]
    tables[name] = joined([header, *cells])


def whole_table(random, tables, name):
    """A table taken out, emptied, exchanged with another one, or put in."""
    other, header = random.choice(NAMES), (tables[name] or b"").split(b"\n")[0] + b"\n"
    way = random.randrange(6)
    if way == 0:
        tables.pop(name)
        if name.startswith("calendar"):
            tables.pop(random.choice(("calendar.txt", "calendar_dates.txt")), None)
    elif way == 1:
        tables[name] = random.choice((b"", b"\n", b"\xef\xbb\xbf", b" ", header, header.rstrip(), None))
    elif way == 2 and other in tables:
        tables[name], tables[other] = tables[other], tables[name]
    elif way == 3:
        tables[other] = tables[name]
    elif way == 4:
        some = b"", b"a,b\n", b"a\nb\n", b"a,b\n1\n", b"\xff\n\n", b"\xff\n\xff", None
        tables["frequencies.txt"] = random.choice(some)
    else:
        tables[random.choice(("agency.txt", "feed_info.txt", "stops"))] = random.choice((b"", b"\xff\xff", None))


def tables_mutated(random, tables):
    """One mutation of the tables."""
    names = [name for name, data in tables.items() if data is not None]
    if not names:
        return
    ways = [field_mutated] * 14 + [rows_mutated] * 5 + [columns_mutated] * 3 + [table_formed] * 3 + [whole_table] * 2
    name, way = random.choice(names), random.choice((*ways, renamed, *[calls_mutated] * 3, None, None, None))
    if way:
        way(random, tables, name)
    else:
        tables[name] = bytes_mutated(random, tables[name])


def words_mutated(random, words):
    """One word put in, taken out, changed, doubled or moved."""
    place = random.randrange(len(words) + 1)
    end = min(len(words), place + random.choice((1, 1, 2)))
    word = random.choice(random.choice((WORDS, WORDS, HYPHENS)))
    if random.randrange(20) == 0:
        word = bytes_mutated(random, os.fsencode((words[place : place + 1] or [""])[0])).replace(b"\0", b"")
        word = word.decode("utf-8", "surrogateescape")
    way = random.randrange(6)
    if way == 0:
        return words[:place] + words[end:]
    if way == 1:
        return words[:end] + words[place:]
    if way == 2:
        return words[:place] + [word] + words[place:]
    if way == 3:
        taken = words[place:end]
        rest = words[:place] + words[end:]
        place = random.randrange(len(rest) + 1)
        return rest[:place] + taken + rest[place:]
    return words[:place] + [word] + words[place + 1 :]


def journal_mutated(random, data):
    """A journal that is cut, most times, or with a line changed, put in, taken out, doubled or moved."""
    lines = data.split(b"\n")[:-1]
    way, is_behind = random.randrange(12), len(lines) > 1 and random.randrange(6) > 0
    if way < 4 or not lines:
        return data[: random.randint(len(lines[0]) + 1 if is_behind else 0, len(data))]
    if way == 4:
        return bytes_mutated(random, data)
    first, second = (random.randrange(is_behind, len(lines)) for _ in range(2))
    if way == 5:
        del lines[first]
    elif way == 6:
        lines.insert(second, lines[first])
    elif way == 7:
        lines[first], lines[second] = lines[second], lines[first]
    elif way == 8:
        lines.insert(first, random.choice(NO_MESSAGES))
    else:
        lines[first] = line_mutated(random, lines[first].decode()).removesuffix(b"\n")
    return b"".join(line + b"\n" for line in lines)


def parts_of(value):
    """All objects within a value, with itself."""
    if isinstance(value, dict):
        yield value
    for inner in value.values() if isinstance(value, dict) else value if isinstance(value, list) else ():
        yield from parts_of(inner)


def any_value(random):
    """A value that no other line has, since a later mutation may change it."""
    return deepcopy(random.choice(VALUES))


def object_mutated(random, message):
    """One member of a line dropped, renamed, exchanged or given another value."""
    part = random.choice([part for part in parts_of(message) if part] or [{"v": 1}])
    name, other, way = random.choice(list(part)), random.choice(MEMBERS), random.randrange(9)
    lists = [name for name, value in part.items() if isinstance(value, list)]
    if lists and random.randrange(3) == 0:
        name, way = lists[0], 5
    if way == 0:
        del part[name]
    elif way == 1:
        part[other] = part.pop(name)
    elif way == 2:
        second = random.choice(list(part))
        part[name], part[second] = part[second], part[name]
    elif way == 3:
        part[name] = random.choice((*TYPES, *MESSAGES)) if name == "type" else [part[name]]
    elif way == 4:
        part[other] = any_value(random)
    elif way == 5 and isinstance(part[name], list):
        part[name] = random.choice((part[name] * 2, part[name][:1], part[name][1:], part[name][::-1], [*part[name], 1]))
    elif way == 6 and isinstance(part[name], int):
        part[name] += random.choice((-1, 1, 2))
    elif way == 6 and isinstance(part[name], str) and TIME.fullmatch(part[name]):
        part[name] = near(random, part[name].encode()).decode()
    else:
        part[name] = any_value(random)


def text_of(random, message):
    """A text of an object, with a member that stands twice or a value that only a text can hold at times."""
    separators = random.choice(((",", ":"), (", ", ": ")))
    text = json.dumps(message, ensure_ascii=random.randrange(2) == 0, separators=separators)
    places = [found.end() for found in re.finditer('":', text)]
    way = random.randrange(6)
    if way == 0 and places:
        place = random.choice(places)
        end = re.compile(r' *("[^"]*"|[^,{}\[\]]*)').match(text, place).end()
        text = text[:place] + random.choice(TEXTS) + text[end:]
    elif way == 1 and isinstance(message, dict) and message:
        name, value = random.choice(list(message)), random.choice((*VALUES, *message.values()))
        more = json.dumps({name: value})[1:-1]
        text = random.choice(("{" + more + "," + text[1:], text[:-1] + "," + more + "}"))
    elif way == 2:
        letters = [found.start() for found in re.finditer("[A-Za-z]", text)]
        place = random.choice(letters) if letters else 0
        text = text[:place] + f"\\u{ord(text[place]):04x}" + text[place + 1 :]
    elif way == 3:
        text = '{"more":' + random.choice(TEXTS) + "," + text[1:]
    return text.encode("utf-8", "surrogatepass")


def padded(random, line):
    """A line of about the greatest length."""
    size = LONG + random.choice((-2, -1, 0, 1, 300)) - len(line)
    blanks = random.choice((b" ", b"\t", b"\r")) * size
    return random.choice((line + blanks, blanks + line, line[:1] + blanks + line[1:]))


def line_mutated(random, line):
    """The bytes of a line with one to three mutations, and with its line end."""
    way = random.randrange(12)
    if way < 7:
        message = json.loads(line)
        for _ in range(random.choice((1, 1, 2, 3))):
            object_mutated(random, message)
        return text_of(random, message) + b"\n"
    line = line.encode()
    if way < 10:
        for _ in range(random.choice((1, 1, 2, 3))):
            line = bytes_mutated(random, line)
        return line + b"\n"
    if way == 10 and random.randrange(8) == 0:
        return padded(random, line) + b"\n"
    return random.choice((b"", b"", b"", b"", b"\xef\xbb\xbf", b" ", line + b"\n")) + line + random.choice(ENDS)
