"""The lines of the program records as rows, beside the trace's own records; rows as CSV and as JSON."""

import collections
import csv
import io
import json
import re

from egrynnol_lib.programs import lines_printed
from egrynnol_lib.streams import Failed
from egrynnol_lib.traces import OPEN, WORDS, Bad, parsed

# row: event, delivered, lost, dropped, held or stop. What a row has no part in is None.
COLUMNS = ("file", "row", "event", "line", "offset", "name", "refusal", "records", "octets_delivered", "octets_lost", "position", "timeouts", "decision", "place",
           "made_by", "association", "context", "reference", "instruction", "cause", "segments", "octets", "origin", "destination")
ADDRESSES = ("origin", "destination")
TIMER = 6  # the cause of a loss by the clock's work, and by nothing else
Row = collections.namedtuple("Row", COLUMNS)
NOTHING = Row(*[None] * len(COLUMNS))

NUMBER = r"([0-9]{1,19})"
ADDRESS = r"((?:[0-9A-F]{2})+|-)"
OR_NONE = r"(-|[0-9]{1,19})"
# A segment's line has a position, and how many records are the clock's; no other one has.
EVENT = re.compile(r"((segment)|open|clock|release) N N N N(?(2) P) N(?(2) N) (?:(refused) N|(saved) N|(delivered|lost|-))\Z".replace("N", NUMBER).replace("P", OR_NONE))
UNDER = re.compile(r"(delivered|lost|dropped|held) N N P N N N N A A\Z".replace("A", ADDRESS).replace("N", NUMBER).replace("P", OR_NONE))


def number_or_none(word):
    return None if word in (None, "-") else int(word)


def event_row(found):
    """The row of an event's line, and the refusal number that its decision has."""
    name, _, *numbers = found.groups()[:9]
    refused, number, saved, place, other = found.groups()[9:]
    numbers = dict(zip(("refusal", "records", "octets_delivered", "octets_lost", "position", "event", "timeouts"), map(number_or_none, numbers)))
    decision = refused or saved or (other if other != "-" else None)
    return NOTHING._replace(row="event", name=name, decision=decision, place=number_or_none(place), **numbers), int(number or 0)


def row_of(line):
    """The row of a line that records printed."""
    event, under = EVENT.match(line), UNDER.match(line)
    if event:
        row, number = event_row(event)
        if row.refusal != number:
            raise Failed("records printed refusals that differ: %s" % line)
        if not number and row.position is not None:
            raise Failed("records printed a position where nothing is refused: %s" % line)
        if row.name == "segment" and row.records != row.timeouts + (row.decision in ("delivered", "lost")):
            raise Failed("records printed records that are neither the clock's nor the segment's: %s" % line)
        return row
    if under:
        name, association, context, reference, *numbers, origin, destination = under.groups()
        numbers = dict(zip(("instruction", "cause", "segments", "octets"), map(int, numbers)))
        addresses = {address: "" if word == "-" else word for address, word in zip(ADDRESSES, (origin, destination))}
        return NOTHING._replace(row=name, association=int(association), context=int(context), reference=number_or_none(reference),
                                **numbers, **addresses)
    if line == "stop":
        return NOTHING._replace(row="stop")
    raise Failed("records printed what is not understood: %s" % line[:80])


# One record of the trace: index from 0, offset in octets, and the record, or why there is none (Bad).
Item = collections.namedtuple("Item", "index offset record")


class Beside:
    """A trace given to records: its records as they go in, and the rows as they come out."""

    def __init__(self, trace):
        self.trace, self.items, self.opened = trace, collections.deque(), False
        self.last, self.told = NOTHING, 0  # the last event's row, and how many of its records were told

    def pieces(self):
        """What records is fed. An item is there before its octets are, so before its row."""
        index = 0
        for block, found in parsed(self.trace.stream):
            for offset, record in found:
                self.items.append(Item(index, offset, record))
                index += 1
            yield block

    def place_of(self, item):
        """The columns that say where in the input an item is."""
        if self.trace.lines is None:
            return {"offset": item.offset}
        return {"line": self.trace.lines[item.index]}

    def batches(self):
        """Lists of pairs of a row and its item. A registered context has no row, and what is held no item."""
        event = None
        for lines in lines_printed("records", self.pieces()):
            pairs = []
            for line in lines:
                row = row_of(line)
                if row.row == "event":
                    pairs += self.contexts()
                    event = (self.event(row), row.event)
                elif row.row in ("held", "stop"):
                    pairs += self.contexts()
                    event = (self.stopped_at() if row.row == "stop" else None, None)
                if event is None:
                    raise Failed("records printed a record before any event: %s" % line)
                if row.row in ("delivered", "lost"):
                    row = self.made(row, line)
                pairs.append((self.placed(row, *event), event[0]))
            yield pairs
        yield list(self.contexts())

    def event(self, row):
        """The item that an event's row is of."""
        item = self.items.popleft() if self.items else None
        if item is None or isinstance(item.record, Bad) or WORDS.get(row.name) != item.record.kind:
            raise Failed("records printed event %d, which is not the trace's" % row.event)
        self.opened = self.opened or item.record.kind == OPEN
        self.last, self.told = row, 0
        return item

    def made(self, row, line):
        """A record's row, with what made it: of a segment's records the first are the clock's, which loses by the timer alone."""
        by = "clock" if self.told < (self.last.timeouts or 0) else self.last.name
        self.told += 1
        if self.told > self.last.records or (by == "clock") != (row.cause == TIMER):
            raise Failed("records printed a record that its event did not make: %s" % line)
        return row._replace(made_by=by)

    def contexts(self):
        """The registered contexts up to the next event, or up to where it stops."""
        while self.items and not self.opened and isinstance(self.items[0].record, tuple) and self.items[0].record.kind < OPEN:
            yield None, self.items.popleft()

    def stopped_at(self):
        """Where the trace is not understood from; its record is why."""
        item = self.items[0] if self.items else None
        if item and isinstance(item.record, Bad):
            return item
        if item and self.opened and item.record.kind < OPEN:
            return item._replace(record=Bad("a registered context after the first open"))
        raise Failed("records stopped where the trace does not")

    def placed(self, row, item, event):
        where = self.place_of(item) if item else {}
        return row._replace(file=self.trace.name, event=event, **where)


# ---- tables ----

def csv_line(cells):
    out = io.StringIO()
    csv.writer(out, lineterminator="\n").writerow(cells)
    return out.getvalue()


def csv_head():
    return csv_line(COLUMNS)


def csv_of(row):
    """An address has 0x before it: a spreadsheet takes 0007 and 07 for one number, and 1E05 for 100000."""
    marked = {address: "0x" + getattr(row, address) for address in ADDRESSES if getattr(row, address)}
    return csv_line("" if cell is None else cell for cell in row._replace(**marked))


def json_of(row):
    return json.dumps(row._asdict()) + "\n"
