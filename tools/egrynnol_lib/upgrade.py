"""Traces of before version 4, whose segments have no time: told apart from those of now, and turned into them."""

import collections
import tempfile

from egrynnol_lib.traces import BEFORE, CLOCK, FORMS, IN_MEMORY, OPEN, SEGMENT, Bad, Doubt, blocks_of, octets_of_record, parsed, read_text

ROUND = 2 ** 32  # the clock runs round, and half of that is a step back
TIMER, CONTEXTS, CONTEXT = 1000000, 8, 16383  # the most that an opening takes


# ---- octets of now and of before ----

# start: where the last record that was begun starts, and end: where it ends; known: whether its kind is; begun: how many were, and segments: how many of them; total: octets in all.
Seen = collections.namedtuple("Seen", "start end known begun segments total")


class Walk:
    """How far octets are whole records of these forms. Each block of them is taken at once: another thread may ask meanwhile."""

    def __init__(self, forms):
        self.forms, self.seen = forms, Seen(0, 0, True, 0, 0, 0)

    def take(self, block):
        start, end, known, begun, segments, base = self.seen
        total = base + len(block)
        while known and end < total:
            start, kind = end, block[end - base]
            known = kind in self.forms
            end += self.forms[kind].length if known else 0
            begun, segments = begun + 1, segments + (kind == SEGMENT)
        self.seen = Seen(start, end, known, begun, segments, total)

    def is_whole(self):
        return self.seen.known and self.seen.end == self.seen.total


class Watched:
    """A stream of octets, and how far those that were read are records of now, and of before version 4: up to the block that has a kind that is none of now."""

    def __init__(self, stream):
        self.stream, self.now, self.before, self.ended = stream, Walk(FORMS), Walk(BEFORE), False

    def read1(self, most):
        block = self.stream.read1(most)
        if self.now.seen.known:
            self.before.take(block)
            self.now.take(block)
        self.ended = not block
        return block

    def is_older(self):
        """Whether there are segments, and all are records of before, where one is none of now: of another kind, or cut by the end."""
        now, before = self.now.seen, self.before.seen
        if now.known:
            return self.ended and before.segments > 0 and self.before.is_whole() and not self.now.is_whole()
        return before.segments > 0 and before.known


# ---- times ----

class Clock:
    """The time that a segment met: that of the last opening that was accepted, then of each step of the clock that was; 0 where nothing is open."""

    def __init__(self):
        self.listed, self.open, self.time = [], False, 0

    def take(self, record):
        if record.kind < OPEN:
            self.listed = (self.listed + [record.numbers[0]])[:CONTEXTS + 1]
        elif record.kind == OPEN:
            timer, clock = record.numbers
            self.open = 1 <= timer <= TIMER and self.registry_is_good()
            self.time = clock if self.open else 0
        elif record.kind == CLOCK:
            time, = record.numbers
            self.time = time if self.open and (time - self.time) % ROUND < ROUND // 2 else self.time

    def registry_is_good(self):
        return len(self.listed) <= CONTEXTS and len(set(self.listed)) == len(self.listed) and all(1 <= context <= CONTEXT for context in self.listed)


# ---- a trace of before, turned into one of now ----

def text_upgraded(stream, name, out, report):
    """Each line as it was, and in that of a segment its time. All of the text is good, or nothing is written."""
    clock, doubt = Clock(), Doubt(BEFORE)
    with tempfile.SpooledTemporaryFile(IN_MEMORY) as kept:
        for _, line, record in read_text(stream, name, report, BEFORE):
            if record:
                clock.take(record)
                doubt.take(line, record)
            kept.write(timed(line, clock.time) if record and record.kind == SEGMENT else line)
        if doubt.stands():
            raise Bad("%s: each segment has its time: there is nothing to upgrade" % name)
        copied(kept, 0, out)


def timed(line, time):
    """A segment's line with this time behind its first word."""
    at = line.index(b"segment") + len(b"segment")
    return line[:at] + b" %d" % time + line[at:]


def octets_upgraded(stream, out):
    """Each record, up to the end or to what is none; from there on the octets stay as they are. Answers why that is no record, or None."""
    now, before = Walk(FORMS), Walk(BEFORE)
    with tempfile.SpooledTemporaryFile(IN_MEMORY) as kept:
        for block in blocks_of(stream):
            kept.write(block)
            now.take(block)
            before.take(block)
        start = before.seen.start
        reason = None if before.is_whole() else Bad("offset %d: %s" % (start, first_of(kept, start)))
        if reason:
            judge(now, before.seen, octet_at(kept, start), reason)
        kept.seek(0)
        clock = Clock()
        for _, record in records_of(kept):
            if not isinstance(record, Bad):
                out.write(octets_of_record(upgraded(record, clock)))
        if reason:
            copied(kept, start, out)
        return reason


def records_of(stream):
    return (pair for _, found in parsed(stream, BEFORE) for pair in found)


def first_of(kept, offset):
    """The record there, or why there is none."""
    kept.seek(offset)
    return next(records_of(kept))[1]


def octet_at(kept, offset):
    kept.seek(offset)
    return kept.read(1)[0]


def judge(now, before, octet, reason):
    """Bad where octets of which some are no record of before, beginning with this one, are a trace of now, or nothing at all.
    One of now has more records as such; or as many, where its only segment ends in zeros, as segments do."""
    if now.is_whole():
        raise Bad("each segment has its time: there is nothing to upgrade")
    if now.seen.begun > before.begun or (now.seen.begun == before.begun and before.segments and octet == 0):
        raise Bad("%s; with times it is good up to offset %d: there is nothing to upgrade" % (reason, now.seen.start))
    if before.start == 0:
        raise reason


def upgraded(record, clock):
    clock.take(record)
    return record._replace(numbers=(clock.time, *record.numbers)) if record.kind == SEGMENT else record


def copied(kept, offset, out):
    kept.seek(offset)
    for block in blocks_of(kept):
        out.write(block)
