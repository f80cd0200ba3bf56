"""What tools/feed says: what it changed and what it only tells, table by table, and the faults."""

import sys

FIRST = 3


class Fault(Exception):
    """A fault behind which a table, or the whole source, cannot be read."""

    def __init__(self, table, row, field, cause, detail="", others=()):
        super().__init__(cause)
        self.place, self.others = (table, row, field, cause, detail), others


class Lists:
    """Lines under headings, in their order; of each heading the first ones are kept, and all are counted."""

    def __init__(self):
        self.kept, self.counts = {}, {}

    def add(self, heading, line=None):
        kept = self.kept.setdefault(heading, [])
        if line is not None:
            self.counts[heading] = self.counts.get(heading, 0) + 1
            if len(kept) < FIRST:
                kept.append(line)

    def lines(self):
        for (table, text), kept in self.kept.items():
            count = self.counts.get((table, text), 0)
            yield f"{table}: {text}" + (f": {count:,}" if count else "")
            yield from (f"    {line}" for line in kept)
            if count > len(kept):
                yield f"    and {count - len(kept):,} more"


class Report:
    """Changes are what the folder has otherwise than the source; notes are said and nothing is done about them."""

    def __init__(self):
        self.changes, self.notes = Lists(), Lists()
        self.faults, self.more = [], {}
        # The first and the last day on which a train runs; and the day with the most nodes, its trains and nodes.
        self.range = self.fullest = None

    def change(self, table, text, line=None):
        self.changes.add((table, text), line)

    def note(self, table, text, line=None):
        self.notes.add((table, text), line)

    def fault(self, table, row, field, cause, detail=""):
        """A fault; of one cause in one field of a table the first ones are named in full, and all are counted."""
        key = table, field if row else None, cause
        self.more[key] = self.more.get(key, 0) + 1
        if self.more[key] <= FIRST:
            place = " ".join([table, *([f"row {row}"] if row else []), *([field] if field else [])])
            self.faults.append(f"{place}: {cause}" + (f": {detail}" if detail else ""))

    def fault_of(self, fault):
        for place in (fault.place, *fault.others):
            self.fault(*place)

    def fault_lines(self):
        yield from self.faults
        for (table, field, cause), count in self.more.items():
            if count > FIRST:
                yield f"{table}{' ' + field if field else ''}: {cause}: {count - FIRST:,} more"

    def fault_count(self):
        return sum(self.more.values())

    def print_changes(self):
        print(*self.changes.lines(), sep="\n", end="\n" if self.changes.kept else "")

    def print_notes(self):
        for line in self.notes.lines():
            print(line if line.startswith(" ") else f"note: {line}")

    def print_faults(self):
        sys.stdout.flush()
        for line in self.fault_lines():
            print(f"feed: {line}", file=sys.stderr)
