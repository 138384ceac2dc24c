"""The lines of the program totals as rows, and rows as CSV."""

import collections
import contextlib
import re

from egrynnol_lib.programs import lines_printed
from egrynnol_lib.rows import NUMBER, csv_line
from egrynnol_lib.streams import Failed
from egrynnol_lib.traces import blocks_of

# opening: the number of its event. An opening under which no row is used has none here.
COLUMNS = ("opening", "refusal", "association", "taken_segments", "taken_octets", "delivered_segments", "delivered_octets", "lost_segments", "lost_octets")
Row = collections.namedtuple("Row", COLUMNS)

HEADING = re.compile(r"opening N N\Z".replace("N", NUMBER))
ROW = re.compile(" ".join([NUMBER] * 7) + r"\Z")


class Rows:
    """The rows of a trace, each with the opening that it stands under; and whether the trace stopped."""

    def __init__(self, trace):
        self.trace, self.opening, self.stopped = trace, None, False

    def batches(self):
        """Lists of rows, as they come."""
        with contextlib.closing(lines_printed("totals", blocks_of(self.trace.stream))) as printed:
            for lines in printed:
                yield [row for row in map(self.row_of, lines) if row]

    def row_of(self, line):
        """The row of a line that totals printed; None for a heading and for stop."""
        heading, row = HEADING.match(line), ROW.match(line)
        if self.stopped:
            raise Failed("totals printed more after its end: %s" % line[:80])
        if heading:
            self.opening = tuple(map(int, heading.groups()))
            return None
        if line == "stop":
            self.stopped = True
            return None
        if row is None:
            raise Failed("totals printed what is not understood: %s" % line[:80])
        if self.opening is None:
            raise Failed("totals printed a row before any opening: %s" % line)
        return Row(*self.opening, *map(int, row.groups()))


def csv_head():
    return csv_line(COLUMNS)


def csv_of(row):
    return csv_line(row)
