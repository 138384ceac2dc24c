"""A trace's records: as lines of text, and as octets."""

import array
import collections
import re
import tempfile

LINE_LIMIT = 65535  # octets of a text line; keeps the memory constant
BAD_LINES = 20      # after so many bad lines the rest is not read
PARAMETER = 255     # octets of a parameter's field in kind 33
BLOCK = 65536       # octets that are read at a time
IN_MEMORY = 8 << 20  # octets of a text's trace that are not put into a file

WORDS = {"open": 32, "segment": 33, "clock": 34, "release": 35}
OPEN, SEGMENT, CLOCK = 32, 33, 34
REPORT = range(16, 20)  # kinds of a report's records: 18 and 19, and before version 3 they were 16 and 17

# Of a kind: the words of its line; its numbers, each with its octets; the octets of its record, with the kind.
Form = collections.namedtuple("Form", "name numbers length")


def form(name, *numbers, more=0):
    return Form(name, numbers, 1 + sum(width for _, width in numbers) + more)


FORMS = {
    1: form("context 1998", ("context", 2)),
    2: form("context 2000", ("context", 2)),
    32: form("open", ("T", 4), ("clock", 4)),
    33: form("segment", ("time", 4), ("association", 2), more=1 + PARAMETER),
    34: form("clock", ("time", 4)),
    35: form("release", ("association", 2)),
}
# Before version 4 a segment had no time.
BEFORE = {**FORMS, SEGMENT: form("segment", ("association", 2), more=1 + PARAMETER)}

# numbers: those of its form; octets: the parameter; past: what stands after it in the 255 octets, without its last zeros.
Record = collections.namedtuple("Record", "kind numbers octets past")


class Bad(Exception):
    """The input is not a trace from here on; the text says why."""


# ---- one line of text ----

def shown(word):
    """A word of the input, fit to stand in a message."""
    text = word.decode("utf-8", "backslashreplace")
    text = "".join(c if c.isprintable() else "\\x%02X" % ord(c) for c in text)
    return "'%s'" % (text if len(text) <= 40 else text[:37] + "...")


def number_of(word, name, width):
    """A decimal number that fits into width octets."""
    top = 256 ** width - 1
    if not re.match(rb"[0-9]+\Z", word):
        raise Bad("%s: %s is not a decimal number" % (name, shown(word)))
    digits = word.lstrip(b"0") or b"0"
    # Length first: Python refuses to convert very long numbers.
    if len(digits) > 10 or int(digits) > top:
        raise Bad("%s: %s is out of range, 0 to %d" % (name, shown(word), top))
    return int(digits)


PAIRS = re.compile(rb"(?:0[xX])?(?:[0-9A-Fa-f]{2})+\Z")
COLONS = re.compile(rb"[0-9A-Fa-f]{2}(?::[0-9A-Fa-f]{2})+\Z")
CANONICAL = re.compile(rb"(?:[0-9A-Fa-f]{2}(?: |\Z))*\Z")


def hex_of(words):
    """The octets of words of hex digits: pairs, joined or not, with colons between, or with 0x before them."""
    joined = b" ".join(words)
    # The usual form all at once: word by word takes minutes on a long trace.
    if not CANONICAL.match(joined):
        joined = b"".join(digits_of(word) for word in words)
    return bytes.fromhex(joined.decode("ascii"))


def digits_of(word):
    if COLONS.match(word):
        return word.replace(b":", b"")
    if PAIRS.match(word):
        return word[2:] if word[1:2] in b"xX" else word
    if re.match(rb"(?:0[xX])?[0-9A-Fa-f]+\Z", word):
        raise Bad("%s is not whole octets: two hex digits each" % shown(word))
    raise Bad("%s is not an octet: two hex digits each, as 83 81, 8381, 83:81 or 0x8381" % shown(word))


def hexed(octets):
    return octets.hex(" ").upper()


def octets_of(words):
    """The octets of a segment line: the parameter, and what stands past its length."""
    if b"|" not in words:
        octets, past = hex_of(words), b""
    else:
        bar = words.index(b"|")
        octets, past = hex_of(words[:bar]), hex_of(words[bar + 1:])
        if not past:
            raise Bad("no octet after '|'")
    if len(octets) > PARAMETER:
        raise Bad("a parameter has 0 to %d octets, here are %d" % (PARAMETER, len(octets)))
    if len(octets) + len(past) > PARAMETER:
        raise Bad("parameter and octets after '|' are %d octets together, over %d"
                  % (len(octets) + len(past), PARAMETER))
    return octets, past.rstrip(b"\0")


def kind_of(words):
    """The kind that a line's first words name, and the rest of its words."""
    name = words[0].decode("ascii", "replace")
    if name == "context":
        if len(words) < 2:
            raise Bad("context: 1998 or 2000 is missing, then the context")
        if words[1] not in (b"1998", b"2000"):
            raise Bad("context: %s is neither 1998 nor 2000" % shown(words[1]))
        return (1 if words[1] == b"1998" else 2), words[2:]
    if name not in WORDS:
        raise Bad("unknown word %s; a line starts with context, open, segment, clock or release"
                  % shown(words[0]))
    return WORDS[name], words[1:]


def parse_line(line, forms=FORMS):
    """The record of one line of text (octets, as read); None for a blank line or a comment."""
    if line is None:
        raise Bad("the line is longer than %d octets" % LINE_LIMIT)
    if b"\0" in line:
        raise Bad("this is not text, it has an octet 00; for a trace in octets use decode, or --octets")
    words = line.split(b"#", 1)[0].split()
    if not words:
        return None
    kind, rest = kind_of(words)
    name, fields, _ = forms[kind]
    if len(rest) < len(fields):
        raise Bad("%s: the number for %s is missing" % (name, fields[len(rest)][0]))
    numbers = tuple(number_of(word, "%s: %s" % (name, field), width)
                    for word, (field, width) in zip(rest, fields))
    rest = rest[len(fields):]
    if kind == SEGMENT:
        return Record(kind, numbers, *octets_of(rest))
    if rest:
        raise Bad("%s: %s is one word too many" % (name, shown(rest[0])))
    return Record(kind, numbers, b"", b"")


def text_of(record):
    """The line of a record, in the canonical form, without its newline."""
    words = [FORMS[record.kind].name] + ["%d" % number for number in record.numbers]
    if record.octets:
        words.append(hexed(record.octets))
    if record.past:
        words += ["|", hexed(record.past)]
    return " ".join(words)


def lines_of(stream):
    """The lines of a text with their numbers from 1; None for a line that is too long."""
    def whole(line):
        return len(line) <= LINE_LIMIT or line.endswith(b"\n")

    number = 0
    line = stream.readline(LINE_LIMIT + 1)
    while line:
        number += 1
        # Some editors put a mark in front of a text.
        marked = number == 1 and line.startswith(b"\xef\xbb\xbf")
        yield number, line[3 if marked else 0:] if whole(line) else None
        while not whole(line):
            line = stream.readline(LINE_LIMIT + 1)
        line = stream.readline(LINE_LIMIT + 1)


def read_text(stream, name, report, forms=FORMS):
    """The lines of a text, each with its number and its record, if it has one. Bad lines are all reported; with one, the end is Bad."""
    bad = 0
    for number, line in lines_of(stream):
        try:
            record = parse_line(line, forms)
        except Bad as error:
            report("%s:%d: %s%s" % (name, number, error, good_otherwise(line, forms)))
            bad += 1
            if bad == BAD_LINES:
                raise Bad("%s: %d bad lines, the rest is not read" % (name, bad))
            continue
        if not bad:
            yield number, line, record
    if bad:
        raise Bad("")


def records_of_text(stream, name, report):
    """The records of a text, each with its line."""
    doubt = Doubt(FORMS)
    for number, line, record in read_text(stream, name, report):
        if record:
            doubt.take(line, record)
            yield number, record
    if doubt.stands():
        report("%s: note: this looks like a trace of before version 4, read wrongly: a segment's time is missing, and what stands for its association is octet 1; use 'egrynnol upgrade'" % name)


def spooled(stream, name, report):
    """A text's trace in octets, as a stream, and the line of each record. All of the text is good, or it is Bad."""
    octets, lines = tempfile.SpooledTemporaryFile(IN_MEMORY), array.array("Q")
    try:
        for number, record in records_of_text(stream, name, report):
            octets.write(octets_of_record(record))
            lines.append(number)
        octets.seek(0)
    except BaseException:
        octets.close()
        raise
    return octets, lines


# ---- text of now and of before version 4 ----

def other_than(forms):
    return BEFORE if forms is FORMS else FORMS


def good_otherwise(line, forms):
    """What to add to the reason why a line is bad, where it is a good one of the other forms."""
    try:
        parse_line(line, other_than(forms))
    except Bad:
        return ""
    if forms is BEFORE:
        return "; with a time before the association it is a line of now"
    return "; before version 4, when no time stood before the association, it was a good line: use 'egrynnol upgrade'"


class Doubt:
    """Whether a text whose lines are good in these forms is one of the others: there a segment has a context that is listed, and here none has."""

    def __init__(self, forms):
        self.forms, self.listed, self.found, self.over = forms, set(), False, False

    def take(self, line, record):
        if record.kind < OPEN:
            self.listed.add(record.numbers[0])
        elif record.kind == SEGMENT and not self.over:
            self.segment(line, record)

    def segment(self, line, record):
        try:
            other = parse_line(line, other_than(self.forms))
        except Bad:
            self.over = True
            return
        self.over = context_of(record.octets) in self.listed
        self.found = self.found or context_of(other.octets) in self.listed

    def stands(self):
        return self.found and not self.over


def context_of(octets):
    """The context of a parameter, or None where it has none."""
    if not octets or (octets[0] < 128 and (len(octets) < 2 or octets[1] < 128)):
        return None
    return octets[0] % 128 + (128 * (octets[1] % 128) if octets[0] < 128 else 0)


# ---- one record of octets ----

def octets_of_record(record):
    out = bytes([record.kind])
    for number, (_, width) in zip(record.numbers, FORMS[record.kind].numbers):
        out += number.to_bytes(width, "big")
    if record.kind == SEGMENT:
        field = record.octets + record.past
        out += bytes([len(record.octets)]) + field + bytes(PARAMETER - len(field))
    return out


def record_at(octets, at, forms):
    """The record that starts there; None where it is not whole."""
    kind = octets[at]
    if kind in REPORT:
        raise Bad("kind %d is a record of a report, it has no place in a trace" % kind)
    if kind not in forms:
        raise Bad("kind %d is unknown; a trace has kinds 1, 2, 32, 33, 34 and 35" % kind)
    if len(octets) - at < forms[kind].length:
        return None
    numbers, at = [], at + 1
    for _, width in forms[kind].numbers:
        numbers.append(int.from_bytes(octets[at:at + width], "big"))
        at += width
    parameter = past = b""
    if kind == SEGMENT:
        end = at + 1 + octets[at]
        parameter, past = octets[at + 1:end], octets[end:at + 1 + PARAMETER].rstrip(b"\0")
    return Record(kind, tuple(numbers), parameter, past)


def cut(octets, forms):
    """Why octets that are left at the end are no record."""
    kind = octets[0]
    return Bad("the record is cut: kind %d (%s) has %d octets, here are %d"
               % (kind, forms[kind].name, forms[kind].length, len(octets)))


def blocks_of(stream):
    """What is there, as soon as it is there."""
    read = stream.read1 if hasattr(stream, "read1") else stream.read
    block = read(BLOCK)
    while block:
        yield block
        block = read(BLOCK)


def parsed(stream, forms=FORMS):
    """Each block of a trace in octets, with the records that end in it: pairs of offset and record, or offset and Bad.
    After a Bad one there is none."""
    left, offset, good = b"", 0, True
    for block in blocks_of(stream):
        found, octets, at = [], left + block if good else b"", 0
        while good and at < len(octets):
            try:
                record = record_at(octets, at, forms)
            except Bad as error:
                found.append((offset + at, error))
                good = False
                break
            if record is None:
                break
            found.append((offset + at, record))
            at += forms[record.kind].length
        left, offset = octets[at:], offset + at
        yield block, found
    if good and left:
        yield b"", [(offset, cut(left, forms))]
