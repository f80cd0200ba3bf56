"""The files of a GTFS archive or folder for tools/feed, and the rows of their tables one by one.

No file is unpacked by its path: a table is opened by its name and read as a stream.
"""

import codecs
import csv
import io
import operator
import re
import stat
import zipfile
import zlib
from collections import Counter
from functools import partial
from pathlib import Path

from gtfs_report import Fault

# The tables without which there is no feed; they show in which folder a feed lies.
MAIN = ("stops.txt", "trips.txt", "stop_times.txt")
BLOCK = 1 << 20
TELL_ENCODING = "--encoding NAME, as latin-1, says what it is"
LONGEST_LINE = 1 << 24
READ_FAULTS = (zipfile.BadZipFile, zlib.error, EOFError, NotImplementedError, RuntimeError, OSError)
csv.field_size_limit(LONGEST_LINE)


def open_source(path, inside, report):
    """The source of this path, an archive or a folder."""
    if path.is_dir():
        try:
            return Folder(path, inside, report)
        except OSError as cause:
            raise Fault(path.name, None, None, "cannot be read", str(cause)) from cause
    if not path.is_file():
        raise Fault(path.name, None, None, "no archive and no folder")
    return Archive(path, inside, report)


class Source:
    """The files of the one folder in which the tables lie. GTFS Schedule, Dataset Files: all files lie at the root."""

    def __init__(self, path, found, inside, report):
        self.path, self.report = path, report
        folders = {folder for folder, name in found if name in MAIN}
        self.inside = inside.strip("/") if inside is not None else "" if "" in folders else None
        if self.inside is None:
            if len(folders) > 1:
                names = ", ".join(sorted(folders))
                raise Fault(path.name, None, None, "tables in several folders", f"{names}; --inside says which is read")
            self.inside = folders.pop() if folders else ""
            if self.inside:
                report.change(path.name, f"the tables lie in the folder {self.inside}, and are taken from there")
        self.names = {name for folder, name in found if folder == self.inside}
        for folder in sorted(folders - {self.inside}):
            report.note(path.name, f"the tables in the folder {folder} are not read")
        # By table: its codec and whether it is converted, and what its bytes have otherwise than the folder.
        self.kinds, self.facts = {}, {}

    def __contains__(self, name):
        return name in self.names

    def blocks(self, name):
        """The bytes of a file, block by block."""
        try:
            with self.open(name) as file:
                yield from iter(partial(file.read, BLOCK), b"")
        except READ_FAULTS as cause:
            raise Fault(name, None, None, "cannot be read", str(cause)) from cause

    def kind(self, name, encoding):
        """The codec of a table, and whether it is converted from the encoding that was told."""
        if name not in self.kinds:
            self.kinds[name] = self.find_kind(name, encoding)
        return self.kinds[name]

    def find_kind(self, name, encoding):
        """GTFS Schedule, File Requirements: files are UTF-8, with or without a byte-order mark."""
        decoder, is_utf8, has_zero, has_cr, begin = codecs.getincrementaldecoder("utf-8")(), True, False, False, b""
        for block in self.blocks(name):
            begin = begin or block[:3]
            has_zero, has_cr = has_zero or b"\0" in block, has_cr or b"\r" in block
            try:
                decoder.decode(block)
            except UnicodeDecodeError:
                is_utf8 = False
                break
        try:
            decoder.decode(b"", is_utf8)
        except UnicodeDecodeError:
            is_utf8 = False
        # ASCII text in two or four bytes a letter is UTF-8 by its bytes, and has zero bytes.
        is_wide = bool(encoding) and len("A".encode(encoding)) > 1 and has_zero
        if is_utf8 and not is_wide:
            has_mark = begin == codecs.BOM_UTF8
            self.facts[name] = ["the byte-order mark is left out"] * has_mark
            self.facts[name] += ["line ends with CR are now LF"] * has_cr
            return "utf-8-sig", False
        if encoding:
            self.facts[name] = [f"read as {encoding} and written in UTF-8"]
            self.find_bad_text(name, encoding, "replace", "\ufffd", f"no text in {encoding}")
            return encoding, True
        self.find_bad_text(name, "utf-8-sig", "surrogateescape", "\udc80-\udcff", "not UTF-8")
        raise Fault(name, None, None, "not UTF-8", TELL_ENCODING)

    def find_bad_text(self, name, encoding, errors, letters, cause):
        """Raises the faults of a table that has letters which stand for what is no text."""
        bad, header, found = re.compile(f"[{letters}]"), None, []
        for row, fields in self.lists(name, encoding, errors):
            header = header or [field.strip(" \t") for field in fields]
            for place, field in enumerate(fields):
                if bad.search(field):
                    column = header[place] if place < len(header) and row > 1 else f"column {place + 1}"
                    shown = bad.sub("?", field)
                    detail = f"{shown!r}" + (f"; {TELL_ENCODING}" if cause == "not UTF-8" else "")
                    found.append((name, row, column, cause, detail))
        if found:
            raise Fault(*found[0], others=found[1:])

    def lists(self, name, encoding, errors="strict"):
        """The rows of a table that are not blank lines, each with its number; the header is row 1."""
        number = 0
        try:
            with self.open(name) as file, io.TextIOWrapper(file, encoding, errors, newline="") as text:
                for fields in csv.reader(whole_lines(name, text)):
                    if fields:
                        number += 1
                        yield number, fields
        except csv.Error as cause:
            raise Fault(name, number + 1, None, "cannot be read", str(cause)) from cause
        except READ_FAULTS as cause:
            raise Fault(name, None, None, "cannot be read", str(cause)) from cause
        except UnicodeError as cause:
            raise Fault(name, None, None, f"no text in {encoding}", str(cause)) from cause


def whole_lines(name, text):
    """The lines of a text, none of them so long that it would fill the memory."""
    for number, line in enumerate(iter(partial(text.readline, LONGEST_LINE), ""), 1):
        if len(line) == LONGEST_LINE:
            raise Fault(name, None, None, "too long a line", f"line {number} has {LONGEST_LINE:,} letters or more")
        yield line


class Folder(Source):
    """A folder of tables; where it has none of the main ones, a folder in it may have them."""

    def __init__(self, path, inside, report):
        folders = [path, *([path / inside] if inside else [])]
        if inside is None and not any((path / name).exists() for name in MAIN):
            folders += sorted(part for part in path.iterdir() if part.is_dir())
        files = [file for folder in folders if folder.is_dir() for file in sorted(folder.iterdir())]
        relative = ["" if file.parent == path else file.parent.relative_to(path).as_posix() for file in files]
        self.no_files = {file for file in files if not file.is_file()}
        # What has the name of a table and is no file is named when it is read.
        pairs = [(folder, file) for folder, file in zip(relative, files) if file.is_file() or file.suffix == ".txt"]
        found = [(folder, file.name) for folder, file in pairs]
        super().__init__(path, found, inside, report)

    def open(self, name):
        file = self.path / self.inside / name
        if file in self.no_files:
            raise Fault(name, None, None, "no file")
        return open(file, "rb")


class Archive(Source):
    """A zip archive."""

    def __init__(self, path, inside, report):
        try:
            self.zip = zipfile.ZipFile(path)
        except READ_FAULTS as cause:
            raise Fault(path.name, None, None, "broken archive", str(cause)) from cause
        self.members, found = {}, []
        for member in self.zip.infolist():
            if member.is_dir():
                continue
            parts = re.split(r"[/\\]", member.filename)
            if ".." in parts or not parts[0] or re.match("[A-Za-z]:", parts[0]):
                report.fault(path.name, None, member.filename, "a path outside of the archive")
                continue
            name = "/".join(part for part in parts if part != ".")
            folder, _, base = name.rpartition("/")
            found.append((folder, base))
            self.members.setdefault((folder, base), []).append(member)
        super().__init__(path, found, inside, report)
        for name in sorted(self.names):
            if name.endswith(".zip"):
                report.note(path.name, f"the archive {name} in it is not opened")

    def open(self, name):
        first, *others = self.members[self.inside, name]
        if others:
            raise Fault(name, None, None, "stands in the archive more than once")
        if first.flag_bits & 1:
            raise Fault(name, None, None, "encrypted")
        if stat.S_ISLNK(first.external_attr >> 16):
            raise Fault(name, None, None, "no file", "a link in an archive is not followed")
        return self.zip.open(first)


class Table:
    """A table, of which only the columns are taken that are asked for.

    Needed columns must be there. Others, and those of `empty`, are empty where they are not there.
    """

    def __init__(self, source, name, needed, others=(), encoding=None, empty=()):
        self.source, self.name = source, name
        self.encoding, self.is_converted = source.kind(name, encoding)
        header = next((fields for _, fields in source.lists(name, self.encoding)), [])
        self.header = [column.strip(" \t") for column in header]
        self.columns = *needed, *others
        lacking = [column for column in needed if column not in self.header and column not in empty]
        for column in lacking[1:]:
            source.report.fault(name, 1, column, "no column")
        if lacking:
            like = [column for column in self.header if column.lower().strip(' "') == lacking[0]]
            raise Fault(name, 1, lacking[0], "no column", f"{like[0]!r} is another name" if like else "")
        self.made = [column for column in needed if column not in self.header]
        self.present = [column for column in self.columns if column in self.header or column in self.made]
        self.left_out = [column for column in self.header if column not in self.columns]
        twice = [column for column, count in Counter(self.header).items() if count > 1 and column in self.columns]
        for column in twice:
            source.report.note(name, "a column stands twice, and the first counts", column)
        width = len(self.header)
        places = [self.header.index(column) if column in self.header else width for column in self.columns]
        # An itemgetter of one place gives no tuple.
        self.get = operator.itemgetter(*places, width)

    def rows(self, tell=None):
        """The number and the values of each row; one of a wrong length is told, and not among them."""
        width, get = len(self.header), self.get
        rows = self.source.lists(self.name, self.encoding)
        next(rows, None)
        for number, fields in rows:
            if len(fields) != width:
                if tell:
                    tell(number, fields)
                continue
            fields.append("")
            values = [field.strip(" \t") for field in get(fields)]
            values.pop()
            yield number, values
