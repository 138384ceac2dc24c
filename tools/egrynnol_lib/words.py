"""A trace in words: what the proved programs answered, and beside it what each parameter says when it is read alone."""

import collections
import textwrap

from egrynnol_lib.traces import FORMS, OPEN, SEGMENT, hexed

COLUMNS = 80  # of a screen

REFUSALS = {
    1: "table or summary not sound: here, nothing is open, for there was no opening or the last one was refused",
    2: "the store is too short",
    3: "the report area is too short",
    4: "the parameter is over 255 octets",
    5: "the parameter ends inside its fields",
    6: "octet 1a, 2 or 3a has extension 0",
    7: "octet 3a is present or absent wrongly",
    8: "the context is not registered",
    9: "an address is over 20 octets",
    10: "a new sequence, and none of the 16 places is free",
    11: "the registry has a context that is not 1 to 16,383, or one twice, or over 8 of them",
    12: "T is not 1 to 1,000,000",
    13: "the clock's step is 2^31 or more, which is a step back",
    21: "no row for a new association: 64 have one",
    22: "a total would pass 2^63",
    23: "context padded: octet 1a has a zero upper part",
}
CAUSES = {
    1: "a later segment, and no sequence of its key is open",
    2: "a segment is missing or out of turn: remaining is not one less than before",
    3: "a first segment of the same key came again: what was saved is lost, and this segment is saved in its place",
    4: "more than 9 segments remaining",
    5: "more than 2,048 octets together",
    6: "the timer: T ticks or more have passed since the first segment",
    7: "the association was released",
}


def count(number, what="octet"):
    return "%d %s%s" % (number, what, "" if number == 1 else "s")


def wrapped(line, indent):
    """A line that is cut at blanks where a screen ends, and goes on so far to the right."""
    return textwrap.wrap(line, COLUMNS, subsequent_indent=" " * indent, break_long_words=False, break_on_hyphens=False)


# ---- one parameter, read alone ----

# What is wrong with a parameter: the number that refuses it, the position of the octet at fault, from 0, and what should be there.
Fault = collections.namedtuple("Fault", "number position words")


class Ends(Exception):
    """Reading a parameter alone goes no further."""


class Reading:
    """A parameter read from left to right, told line by line; never what the information is.
    It knows nothing of what is open, so it says nothing of what the machine did.
    fault is the first one, and end the one after which nothing is read. The octets before at were read."""

    def __init__(self, octets):
        self.octets, self.at, self.lines, self.fault, self.end = octets, 0, [], None, None

    def ends(self, number, position, words):
        self.end = Fault(number, position, words)
        self.fault = self.fault or self.end
        raise Ends()

    def octet(self, name):
        if self.at == len(self.octets):
            self.ends(5, self.at, "it ends where %s should be, at position %d" % (name, self.at))
        self.at += 1
        return self.octets[self.at - 1]

    def last_octet(self, name):
        """An octet that has to end its field."""
        at, value = self.at, self.octet(name)
        if value < 128:
            self.ends(6, at, "%s, at position %d, is %02X: extension 0, and it has to be 1 (80 to FF)" % (name, at, value))
        return value - 128

    def context(self, registry):
        first = self.octet("octet 1")
        high = self.last_octet("octet 1a") if first < 128 else 0
        last = self.at - 1
        if first < 128 and not high:
            self.ends(23, last, "octet 1a, at position %d, has a zero upper part: context %d is padded, and its shortest form is the one octet %02X"
                      % (last, first, first + 128))
        context = first % 128 + 128 * high
        kinds = registry.kinds(context)
        self.lines.append("context %d: %s" % (context, registry.words(context)))
        if not kinds:
            self.fault = Fault(8, last, "context %d, whose last octet is at position %d, is %s registered; registered: %s"
                               % (context, last, "not" if context else "never", registry.contexts()))
        return kinds

    def instruction(self):
        value = self.last_octet("octet 2")
        answer = ("no", "yes")
        spare = "; spare bits are not 0, ignored" if value > 3 else ""
        self.lines.append("instruction %d: send notification %s, release call %s%s"
                          % (value % 4, answer[value // 2 % 2], answer[value % 2], spare))

    def sequence(self):
        at, value = self.at, self.octet("octet 3")
        present, new, remaining = value < 128, value // 64 % 2 == 1, value % 64
        over = " (over 9, more than a sequence can have)" if remaining > 9 else ""
        name = "new" if new else "subsequent"
        self.lines.append("%s segment, %s remaining%s" % (name, count(remaining, "segment"), over))
        if present:
            self.lines.append("reference %d" % self.last_octet("octet 3a"))
        single = new and remaining == 0
        if single == present:
            self.ends(7, at, "octet 3, at position %d, is %02X and says %s, %d remaining, so octet 3a has to be %s, and it is %s"
                      % (at, value, name, remaining, *(("absent", "present") if single else ("present", "absent"))))
        if single:
            self.lines.append("unsegmented: no reference")

    def address(self, name):
        at, length = self.at, self.octet("the length octet of the %s address" % name)
        if length > 20:
            self.ends(9, at, "the length octet of the %s address, at position %d, says %d, and at most 20 is allowed" % (name, at, length))
        left = len(self.octets) - self.at
        # A cut address is not shown: what is there may be information.
        if left < length:
            self.ends(5, len(self.octets), "it ends inside the %s address, at position %d, with %d of its %s" % (name, len(self.octets), left, count(length)))
        octets = self.octets[self.at:self.at + length]
        self.at += length
        self.lines.append("%s address: %s%s" % (name, count(length), ": " + hexed(octets) if octets else ""))

    def rest(self, kinds):
        left = len(self.octets) - self.at
        if len(kinds) != 1:
            self.lines.append("%s left: whether addresses are among them, the registry does not say" % count(left))
            return
        if 2 in kinds:
            self.address("originating")
            self.address("destination")
        self.lines.append("information: %s" % count(len(self.octets) - self.at))

    def lines_but(self, said):
        """What it says, and why it was not read on, where that is not what was said before."""
        ends = self.end is not None and self.end is not said
        return self.lines + (["not read on: %s" % self.end.words] if ends else [])


def read_alone(octets, registry):
    """The reading of a parameter, as far as it can be read alone."""
    reading = Reading(octets)
    try:
        kinds = reading.context(registry)
        reading.instruction()
        reading.sequence()
        reading.rest(kinds)
    except Ends:
        pass
    return reading


class Registry:
    """The contexts that a trace has listed so far."""

    def __init__(self):
        self.listed = []

    def add(self, context, kind):
        self.listed.append((context, kind))

    def kinds(self, context):
        return {kind for listed, kind in self.listed if listed == context and context}

    def contexts(self):
        """All that are listed, and can be registered."""
        return ", ".join("%d" % context for context in sorted({context for context, _ in self.listed if context})) or "none"

    def words(self, context):
        kinds = self.kinds(context)
        if not context:
            return "never registered"
        if not kinds:
            return "not listed so far in this trace"
        if len(kinds) == 2:
            return "listed as of 1998 and as of 2000"
        return "listed as of 1998, no address fields" if 1 in kinds else "listed as of 2000, with address fields"

    def oddities(self):
        """What a reader may look at where an opening was refused for the registry."""
        contexts = [context for context, _ in self.listed]
        for context in sorted(set(contexts)):
            if contexts.count(context) > 1:
                yield "context %d is listed %s" % (context, count(contexts.count(context), "time"))
            if not 1 <= context <= 16383:
                yield "context %d is not 1 to 16,383" % context
        if len(contexts) > 8:
            yield "%s are listed, over 8" % count(len(contexts), "context")


# ---- the octets around the one at fault ----

A_LINE, GROUP = 16, 8  # octets of a line, and of a group in it
BEFORE = 2             # lines before the one that has the mark: no field that can be at fault lies further back


def column(place):
    """Where an octet of a line begins."""
    return 3 * place + place // GROUP


def marked(octets, read, position):
    """A parameter in hex up to the line that has the position, with a mark under it; each line begins with the position of its first octet.
    Octets that were not read may be information: of these it is shown only where they are."""
    shown = ["%02X" % octet for octet in octets[:read]] + [".."] * (len(octets) - read)
    last = position // A_LINE * A_LINE
    for first in range(max(0, last - BEFORE * A_LINE), last + 1, A_LINE):
        label = "%3d  " % first
        groups = (" ".join(shown[at:at + GROUP]) for at in range(first, first + A_LINE, GROUP))
        yield (label + "  ".join(groups)).rstrip()
    yield " " * (len(label) + column(position - last)) + "^^"
    if read < len(octets):
        where = "position %d is" % read if read + 1 == len(octets) else "positions %d to %d are" % (read, len(octets) - 1)
        yield "%s not shown: what stands there may be information" % where


# ---- what was answered ----

def address(name, digits):
    """An address of a record, by its name and its hex digits."""
    return "%s address %s" % (name, hexed(bytes.fromhex(digits))) if digits else "no %s address" % name


def fields(row):
    """What a record covers, whose it is, and where it goes."""
    reference = "unsegmented" if row.reference is None else "reference %d" % row.reference
    return "%s in %s; association %d, context %d, %s, instruction %d, %s, %s" % (
        count(row.octets), count(row.segments, "segment"), row.association, row.context, reference, row.instruction,
        address("originating", row.origin), address("destination", row.destination))


def answer_lines(row):
    """What was decided of an event, and the sum where its records are more than one."""
    if row.decision == "refused":
        where = "" if row.position is None else " at position %d" % row.position
        yield "refused %d%s: %s" % (row.refusal, where, REFUSALS.get(row.refusal, "a number that a trace does not meet"))
    elif row.decision == "saved":
        yield "saved in place %d" % row.place
    elif row.decision is None:
        yield "accepted" + ("" if row.records or row.name == "open" else ", nothing lost")
    if row.records > 1:
        yield "%s: %s delivered, %s lost" % (count(row.records, "record"), count(row.octets_delivered), count(row.octets_lost))


def compared(row, reading):
    """The fault of a parameter read alone beside the one that was answered: the fault, where it is the same, and words for it.
    Where nothing is open, or the clock's step is too large, no parameter is read."""
    answered = None if row.position is None else (row.refusal, row.position)
    found = None if reading.fault is None else reading.fault[:2]
    if row.refusal in (1, 13) or answered is found is None:
        return None, None
    if answered == found:
        return reading.fault, reading.fault.words
    other = "no fault is found" if found is None else "the fault is refusal %d at position %d" % found
    return None, other + ", and that is not what the program answered; its answer counts"


def under_line(row):
    if row.row == "delivered":
        return "delivered: " + fields(row)
    if row.row == "lost":
        return "lost, cause %d (%s): %s" % (row.cause, CAUSES.get(row.cause, "unknown"), fields(row))
    if row.row == "dropped":
        return "dropped by this opening, with no record: " + fields(row)
    return "held, still open and in no record: " + fields(row)


class Teller:
    """The lines that tell a trace, pair by pair of a row of records and the trace's own record."""

    def __init__(self, trace):
        self.trace, self.registry, self.alone, self.held, self.last = trace, Registry(), [], False, None

    def where(self, item):
        return "line %d" % self.trace.lines[item.index] if self.trace.lines is not None else "offset %d" % item.offset

    def lines(self, row, item):
        if row is None:
            yield from self.rest()
            yield from self.context(item)
        elif row.row == "event":
            yield from self.event(row, item)
        elif row.row == "stop":
            yield from self.rest()
            yield "%s: stop, nothing is read from here on" % self.where(item)
            yield "    read alone, %s" % item.record
        else:
            yield from self.under(row)

    def rest(self):
        """What of the last event is still to be told: its own parameter, after its records."""
        lines, self.alone = self.alone, []
        return lines

    def context(self, item):
        context, = item.record.numbers
        self.registry.add(context, item.record.kind)
        return ["%s: %s %d" % (self.where(item), FORMS[item.record.kind].name, context)]

    def event(self, row, item):
        self.last = row
        yield from self.rest()
        yield "%s, event %d: %s" % (self.where(item), row.event, head(item.record))
        for line in answer_lines(row):
            yield "    " + line
        if item.record.kind == SEGMENT:
            yield from self.parameter(row, item.record)
        elif row.refusal == 11:
            self.alone = ["    read alone, of the registry: %s" % line for line in self.registry.oddities()]

    def parameter(self, row, record):
        """Around the octet at fault, if one is; what is read alone waits until the event's records are told."""
        reading = read_alone(record.octets, self.registry)
        if row.position is not None:
            for line in marked(record.octets, reading.at, row.position):
                yield "        " + line
        said, words = compared(row, reading)
        lines = reading.lines_but(said)
        if record.past:
            lines.append("octets past its length are not all zero; they do not count")
        self.alone = wrapped("    read alone, %s" % words, 8) if words else []
        self.alone += ["    read alone, the parameter says:"] if lines else []
        self.alone += [part for line in lines for part in wrapped("        " + line, 12)]

    def under(self, row):
        if row.row == "held" and not self.held:
            self.held = True
            yield from self.rest()
            yield "at the end:"
        yield "    " + self.whose(row) + under_line(row)

    def whose(self, row):
        """Words before a record of a segment's that is the clock's."""
        if row.made_by != "clock" or self.last.name == "clock":
            return ""
        return "by the clock first, and it stands: " if self.last.refusal else "by the clock first: "


def head(record):
    """A record's own numbers."""
    if record.kind == OPEN:
        return "open, T %d, clock %d" % record.numbers
    if record.kind == SEGMENT:
        return "segment at %d, association %d, %s" % (*record.numbers, count(len(record.octets)))
    name, ((field, _),), _ = FORMS[record.kind]
    return "%s, %s %d" % (name, field, record.numbers[0])
