#!/usr/bin/env python3
"""What egrynnol explain says in words is what the programs replay and records print, on every example and on generated traces; and its marks stand under the octets at fault.

    python3 tests/test_explain.py            the programs are in EGRYNNOL_LIBEXEC, or in target/bin; SEED and RUNS set the traces
"""

import io
import os
import random
import re
import subprocess
import sys
import tempfile
import unittest

sys.dont_write_bytecode = True

from running import EXAMPLES, FIELDS, TOOLS, example, examples, process, run, unwrapped
from egrynnol_lib import commands, programs, rows, streams, words

SEED = int(os.environ.get("SEED", "765"))
RUNS = int(os.environ.get("RUNS", "1000"))
programs.command_folder = TOOLS

EVENT = re.compile(r"(?:line|offset) \d+, event (\d+): (open|segment|clock|release)(?: at \d+)?, ")
CLOCKED = "    by the clock first"
FIRST = r"    (?:by the clock first(?:, and it stands)?: )?"
RECORD = re.compile(FIRST + r"(delivered|lost, cause \d \(.*?\)): (\d+) octets? in ")
SUM = re.compile(r"    (\d+) records: (\d+) octets? delivered, (\d+) octets? lost\Z")
REFUSED = re.compile(r"    refused (\d+)(?: at position (\d+))?: ")
UNDER = re.compile(FIRST + r"(delivered|lost|dropped|held)(?:, cause (\d) \(.*?\)| by this opening, with no record|, still open and in no record)?: (\d+) octets? in (\d+) segments?; "
                   r"association (\d+), context (\d+), (?:unsegmented|reference (\d+)), instruction (\d), "
                   r"(?:no originating address|originating address ([0-9A-F ]+)), (?:no destination address|destination address ([0-9A-F ]+))\Z")


class Told:
    """What the words say of an event."""

    def __init__(self, name):
        self.name, self.refusal, self.records, self.octets, self.sum, self.answers, self.position = name, 0, 0, [0, 0], None, 0, "-"
        self.timeouts = 0

    def line(self):
        return "%s %d %d %d %d" % (self.name, self.refusal, self.records, *self.octets) + (" %s" % self.position if self.name == "segment" else "")

    def take(self, line):
        refused, record, summed = REFUSED.match(line), RECORD.match(line), SUM.match(line)
        if refused:
            self.refusal, self.position = int(refused.group(1)), refused.group(2) or "-"
            assert self.name == "segment" or self.position == "-", line
        if record:
            self.clocked(line)
            self.records += 1
            self.octets[record.group(1) != "delivered"] += int(record.group(2))
        if summed:
            self.sum = [int(number) for number in summed.groups()]
        self.answers += bool(refused or record) or line.startswith(("    saved in place ", "    accepted"))


    def clocked(self, line):
        """The clock's records are said to be so, come first, and are losses by the timer."""
        if self.name == "segment" and line.startswith(CLOCKED):
            assert self.timeouts == self.records and "lost, cause 6 (" in line and (", and it stands: " in line) == bool(self.refusal), line
            self.timeouts += 1
        else:
            assert not line.startswith(CLOCKED) and (self.name == "clock") == ("lost, cause 6 (" in line), line


def told_in_words(text):
    """What is told of each event, and whether the trace stops."""
    told, stopped = [], False
    for line in text.splitlines():
        event = EVENT.match(line)
        if event:
            assert int(event.group(1)) == len(told) + 1, line
            told.append(Told(event.group(2)))
        elif line.endswith(": stop, nothing is read from here on"):
            stopped = True
        elif told and line.startswith("    "):
            told[-1].take(line)
    for it in told:
        assert it.answers >= 1, "nothing is said of %s" % it.line()
        assert it.sum is None or it.sum == [it.records, *it.octets], (it.sum, it.line())
        assert (it.sum is not None) == (it.records > 1)
    return told, stopped


def lines_in_words(text):
    """The lines that replay prints, put together again from the words."""
    told, stopped = told_in_words(text)
    return [it.line() for it in told] + ["stop"] * stopped


def timeouts_in_words(text):
    """Of each segment, how many of its records are said to be the clock's."""
    return [it.timeouts for it in told_in_words(text)[0] if it.name == "segment"]


def agree(text, lines):
    try:
        return lines_in_words(text) == lines
    except AssertionError:
        return False


def records_in_words(text):
    """The lines of records for what was delivered, lost, dropped and held, put together again from the words."""
    lines = []
    for name, cause, octets, segments, association, context, reference, instruction, *addresses in (found.groups() for found in map(UNDER.match, text.splitlines()) if found):
        lines.append(" ".join([name, association, context, reference or "-", instruction, cause or "0", segments, octets] + [(digits or "-").replace(" ", "") for digits in addresses]))
    return lines


def printed(name, octets):
    done = subprocess.run([programs.path_of(name)], input=octets, stdout=subprocess.PIPE, stderr=subprocess.PIPE, timeout=60)
    assert done.stderr == b"", done.stderr
    return done.stdout.decode("ascii").splitlines()


def replayed(octets):
    return printed("replay", octets)


def timeouts_of(octets):
    """The same as records has it."""
    return [int(line.split(" ")[7]) for line in printed("records", octets) if line.startswith("segment")]


def recorded(octets):
    """Of the lines of records, those for what was delivered, lost, dropped and held."""
    return [line for line in printed("records", octets) if line.split(" ")[0] in ("delivered", "lost", "dropped", "held")]


class Sink(io.BytesIO):
    name = "sink"


def explained(octets):
    """In this process, since there are many."""
    out = Sink()
    status = commands.explained(streams.Trace("T", io.BufferedReader(io.BytesIO(octets)), None), out)
    return status, out.getvalue().decode("ascii")


# ---- traces ----

class Now:
    """The time of a trace that is made. It mostly stays, goes on now and then, and some would have it go back."""

    def __init__(self):
        self.time = 0

    def next(self, chance, steps=(0,) * 16 + (1, 1, 30, 60, 99, 100, 101, 2 ** 31 + 5)):
        step = chance.choice(steps)
        time = (self.time + step) % 2 ** 32
        self.time = time if step < 2 ** 31 else self.time
        return time


def segment(chance, time, association, heading, information):
    octets = bytes(heading) + information
    return bytes([33]) + time.to_bytes(4, "big") + association.to_bytes(2, "big") + bytes([len(octets)]) + octets.ljust(255, chance.choice([b"\0", b"\0", b"\x5a"]))


def some_segment(chance, now):
    """Of a few keys, so that sequences meet; begun, continued, ended, and sometimes bad."""
    context = chance.choice([3, 3, 4, 4, 5])
    padded = chance.random() < 0.05
    heading = [context, 128] if padded else [128 + context]
    heading.append(128 + chance.randrange(4))
    new, remaining = chance.random() < 0.45, chance.choice([0, 0, 0, 1, 1, 1, 2, 2, 9, 10])
    if new and remaining == 0:
        heading.append(0xC0)
    else:
        heading += [64 * new + remaining, 128 + chance.choice([5, 5, 5, 6, chance.randrange(128)])]
    if context == 4:
        heading += chance.choice([[2, 0, 7, 0], [1, 7, 0], [0, 0], [1, 7, 1, 9], [1, 7, 2, 0, 9], [1, 7, 2, 9, 0], [21]])
    if chance.random() < 0.1:
        heading = heading[:chance.randrange(len(heading))] + [chance.randrange(256)] * chance.randrange(2)
    return segment(chance, now.next(chance), chance.choice([9, 9, 10]), heading, bytes(chance.choice([0, 1, 3, 230])))


def some_event(chance, now):
    kind = chance.choice([33] * 12 + [34, 34, 35, 32])
    if kind == 33:
        return some_segment(chance, now)
    if kind == 34:
        return bytes([34]) + now.next(chance, (0, 1, 50, 99, 100, 101, 200, 2 ** 31 + 5)).to_bytes(4, "big")
    if kind == 35:
        return bytes([35, 0, chance.choice([9, 10, 11])])
    now.time = 0
    return bytes([32]) + chance.choice([100, 100, 100, 0]).to_bytes(4, "big") + bytes(4)


def some_trace(chance):
    now = Now()
    octets = b"" if chance.random() < 0.9 else some_event(chance, now)
    now.time = 0
    octets += b"".join([b"\1\0\3", b"\2\0\4", b"\1\0\3" if chance.random() < 0.05 else b""])
    octets += bytes([32, 0, 0, 0, 100, 0, 0, 0, 0]) if chance.random() < 0.97 else b""
    many = chance.random() < 0.1
    octets += b"".join(some_event(chance, now) for _ in range(chance.randrange(40)))
    octets += b"".join(segment(chance, now.time, 9, [0x83, 0x80, 0x41, 128 + k], b"\7") for k in range(20 if many else 0))
    crowd = chance.random() < 0.05
    octets += b"".join(segment(chance, now.time, 100 + k, [0x83, 0x80, 0xC0], b"\7") for k in range(70 if crowd else 0))
    octets += b"".join(some_event(chance, now) for _ in range(chance.randrange(10)))
    return octets + chance.choice([b"", b"", b"", b"\1\0\5", b"\7", b"\x21\0"])


# ---- the octets that are shown ----

RULER = "00 01 02 03 04 05 06 07  08 09 0A 0B 0C 0D 0E 0F"  # a line of octets, with each one's place for its value
PLACES = {found.start(): int(found.group(), 16) for found in re.finditer(r"\w\w", RULER)}
LABEL = re.compile(r" {8}([ \d]{2}\d)(?:  |\Z)")
HIDDEN = re.compile(r" {8}(?:position (\d+) is|positions (\d+) to (\d+) are) not shown: what stands there may be information\Z")


class Shown:
    """What is shown of an event's parameter: the octets by position, where the mark stands, and what is said not to be shown."""

    def __init__(self, lines):
        self.octets, self.mark, self.hidden, first = {}, None, range(0), None
        for line in lines:
            label, hidden = LABEL.match(line), HIDDEN.match(line)
            if hidden:
                only, begins, ends = hidden.groups()
                self.hidden = range(int(only or begins), int(only or ends) + 1)
            elif label:
                first = self.row(first, int(label.group(1)), line[13:])
            else:
                assert line.strip() == "^^" and self.mark is None, lines
                self.mark = first + PLACES[len(line) - len("^^") - 13]

    def row(self, before, first, body):
        """A line of octets, right behind the one before it."""
        assert before is None or first == before + 16, body
        words_ = {place: body[column:column + 2] for column, place in PLACES.items()}
        self.octets.update((first + place, word) for place, word in words_.items() if word)
        assert body == re.sub(r"\w\w", lambda found: words_[int(found.group(), 16)], RULER).rstrip(), body
        return first


def shown(text):
    """For each segment of a text that explain printed, what is shown of it: lines between its refusal and what is read alone."""
    found, inside = [], False
    for line in text.splitlines():
        event = EVENT.match(line)
        if event and event.group(2) == "segment":
            found.append([])
        inside = bool(event) or inside and not line.startswith("    read alone, ")
        if found and inside and line.startswith("        "):
            found[-1].append(line)
    return [Shown(lines) for lines in found]


# ---- bad parameters, each with the number and the position that it has to be refused by ----

REGISTRY = b"\1\0\3" + b"\2\0\4" + b"\1\1\x2c" + b"\2\1\x2d"  # contexts 3 and 300 of 1998, 4 and 301 of 2000
OPENING = bytes([32, 0, 0, 0, 100, 0, 0, 0, 0])


def trace_of(parameters):
    return REGISTRY + OPENING + b"".join(bytes([33, 0, 0, 0, 0, 0, 9, len(octets)]) + octets.ljust(255, b"\0") for octets in parameters)


def bad_parameters():
    """Every position that each of 5 to 9 and 23 can have. Behind the octet at fault stand none, some or as many as fit, and they do not matter."""
    for context, addresses in ((b"\x83", False), (b"\x84", True), (b"\x2c\x82", False), (b"\x2d\x82", True)):
        at = len(context)
        for heading in (b"\x80\xc0", b"\x80\x41\x85"):
            front = context + heading
            longest = front + (b"\x14" + bytes(range(20)) + b"\x14" + bytes(range(100, 120)) if addresses else b"")
            yield from (((5, cut), longest[:cut]) for cut in range(len(longest)))
            if addresses:
                yield from (((9, len(front)), front + bytes([length]) + more) for length in (21, 128, 255) for more in (b"", b"\0", bytes(range(200))))
                yield from (((9, len(front) + 1 + length), front + bytes([length]) + bytes(length) + b"\x15" + more) for length in range(21) for more in (b"", bytes(30)))
        for more in (b"", b"\x80", bytes(range(100, 200)), bytes(240)):
            yield (6, at), context + b"\0" + more
            yield (6, at + 2), context + b"\x80\x41\5" + more
            yield (7, at + 1), context + b"\x80\x40\x85" + more
            yield (7, at + 1), context + b"\x81\x80" + more
            yield (6, 1), b"\3\3" + more
            yield (8, 0), b"\x85" + more
            yield (8, 0), b"\x80" + more
            yield (8, 1), b"\5\x81" + more
            yield (23, 1), b"\3\x80" + more
            yield (23, 1), b"\0\x80" + more


class Positions(unittest.TestCase):
    """Where a parameter went wrong: replay, records, the words, the mark and the reading alone say the same."""

    ALL = {(5, at) for at in range(47)} | {(6, at) for at in (1, 2, 3, 4)} | {(7, 2), (7, 3), (8, 0), (8, 1), (23, 1)} | {(9, at) for at in range(3, 27)}

    def registry(self):
        registry = words.Registry()
        for context, kind in ((3, 1), (4, 2), (300, 1), (301, 2)):
            registry.add(context, kind)
        return registry

    def test_every_position(self):
        wanted, parameters = zip(*bad_parameters())
        self.assertEqual(set(wanted), self.ALL)
        octets, registry = trace_of(parameters), self.registry()
        self.assertEqual(replayed(octets)[1:], ["segment %d 0 0 0 %d" % fault for fault in wanted])
        self.assertEqual(printed("records", octets)[1:], ["segment %d 0 0 0 %d %d 0 refused %d" % (*fault, number, fault[0]) for number, fault in enumerate(wanted, 2)])
        status, text = explained(octets)
        self.assertEqual((status, [(int(number), int(at)) for number, at in re.findall(r"(?m)^    refused (\d+) at position (\d+): ", text)]), (0, list(wanted)))
        self.assertNotIn("its answer counts", text)
        for fault, parameter, seen in zip(wanted, parameters, shown(text)):
            self.assertEqual(words.read_alone(parameter, registry).fault[:2], fault, parameter.hex())
            self.seen(fault, parameter, seen)

    def seen(self, fault, parameter, seen):
        """The mark is under the octet at fault, or where the first missing one would be; the octets are the parameter's, from the first on, and each that is not shown is said to be so."""
        self.assertEqual(seen.mark, fault[1], parameter.hex())
        self.assertEqual(seen.mark == len(parameter), fault[0] == 5)
        self.assertEqual(sorted(seen.octets), list(range(len(seen.octets))))
        for at, word in seen.octets.items():
            self.assertEqual(word, ".." if at in seen.hidden else "%02X" % parameter[at], parameter.hex())
        self.assertTrue(seen.mark in seen.octets or fault[0] == 5)
        self.assertNotIn(seen.mark, seen.hidden)
        self.assertEqual(len(parameter), seen.hidden.stop or len(seen.octets))

    def test_what_should_be_there(self):
        """The words under the mark name the position too, and each field that was read stands below them."""
        faults, parameters = zip(*bad_parameters())
        lines = unwrapped(explained(trace_of(parameters))[1])
        reasons = [line for line in lines if line.startswith("    read alone, ") and line != FIELDS]
        self.assertEqual([int(re.search(r"at position (\d+)", line).group(1)) for line in reasons], [at for _, at in faults])
        wanted = {5: "it ends ", 6: "extension 0, and it has to be 1 (80 to FF)", 7: "so octet 3a has to be ", 8: "registered: 3, 4, 300, 301", 9: "and at most 20 is allowed",
                  23: "its shortest form is the one octet 8"}
        for line, (number, _) in zip(reasons, faults):
            self.assertIn(wanted[number], line)

    def test_one_event_fits_in_a_screen(self):
        """Of 24 lines and 80 columns, however long the parameter is; here with spare bits, the longest addresses and octets past the length."""
        _, parameters = zip(*bad_parameters())
        most = b"\x2d\x82\xff\x7f\xff\x14" + bytes(20) + b"\x14" + bytes(19)
        octets = trace_of((*parameters, most)) + bytes([33, 0x7f, 255, 255, 255, 255, 255, len(most)]) + most.ljust(255, b"\xff")
        _, text = explained(octets)
        events = re.split(r"(?m)^(?=offset \d+, event )", text)[2:]
        self.assertEqual(len(events), len(parameters) + 2)
        for event in events:
            self.assertLessEqual(len(event.splitlines()), 24, event)
            self.assertLessEqual(max(map(len, event.splitlines())), 80, event)
        self.assertIn("octets past its length are not all zero", events[-1])

    def test_no_position(self):
        """Nothing open, saved, delivered, lost, no place, no row and a step back: neither a position nor a mark, whatever the parameter is."""
        many = b"".join(bytes([33, 0, 0, 0, 0, 1, k, 4, 0x83, 0x80, 0xC0, 1]) + bytes(251) for k in range(64)) + bytes([33, 128, 0, 0, 0, 0, 9, 2, 0x83]) + bytes(254)
        full = trace_of([bytes([0x83, 0x80, 0x41, 128 + k]) for k in range(17)] + [b"\x83\x80\0\x80", b"\x83\x80\0\xff", b"\x83\x80\xc0"])
        octets = trace_of([b"", b"\x83\0"])[len(REGISTRY + OPENING):] + full + many
        lines = replayed(octets)
        self.assertEqual({line.split(" ")[1] for line in lines if line.startswith("segment")}, {"0", "1", "10", "13", "21"})
        self.assertEqual({line.split(" ")[5] for line in lines if line.startswith("segment")}, {"-"})
        _, text = explained(octets)
        self.assertEqual(lines_in_words(text), lines)
        for line in text.splitlines():
            self.assertNotIn("^^", line)
            self.assertFalse(line.startswith("    refused") and "position" in line, line)
        self.assertEqual({seen.mark for seen in shown(text)}, {None})

    def test_a_mark_that_is_moved_is_found(self):
        """The same checks on texts that were changed."""
        parameter = b"\x84\x80\x41\x85\x14" + bytes(20) + b"\x14\1\2\3"
        _, text = explained(trace_of([parameter]))
        self.seen((5, 29), parameter, shown(text)[0])
        mark = re.search(r"(?m)^ +\^\^$", text).group()
        for old, new in ((mark, " " + mark), (mark, mark[1:]), (mark, mark[3:]), (mark + "\n", ""), ("14 .. ..", "14 01 .."), ("84 80 41", "84 81 41"), ("         16  ", "         17  "),
                         ("positions 26 to 28", "positions 26 to 27"), ("00  00", "00 00"), ("^^", "^")):
            self.assertIn(old, text)
            with self.assertRaises((AssertionError, KeyError), msg=old):
                self.seen((5, 29), parameter, shown(text.replace(old, new, 1))[0])

    def beside(self, line, parameter):
        """What explain says of a parameter of which a stand-in for records prints this."""
        with tempfile.TemporaryDirectory() as place:
            path = os.path.join(place, "records")
            with open(path, "w") as file:
                file.write("#!/bin/sh\ncat >/dev/null; printf 'open 0 0 0 0 1 -\n%s\n'\n" % line)
            os.chmod(path, 0o755)
            ran = process("explain", data=trace_of([parameter]), env=dict(os.environ, EGRYNNOL_LIBEXEC=place))
        self.assertEqual(ran[::2], (0, ""))
        return ran.out.decode()

    def test_the_programs_answer_counts(self):
        """Where the reading alone differs, the answer is shown all the same, and it is said that they differ."""
        differs = ", and that is not what the program answered; its answer counts"
        for line, parameter, reason, mark in (
                ("segment 6 0 0 0 3 2 0 refused 6", b"\x83\0\x41\5", "the fault is refusal 6 at position 1" + differs, 3),
                ("segment 5 0 0 0 1 2 0 refused 5", b"\x83\0\x41\5", "the fault is refusal 6 at position 1" + differs, 1),
                ("segment 6 0 0 0 1 2 0 refused 6", b"\x83\x80\xc0", "no fault is found" + differs, 1),
                ("segment 9 0 0 0 200 2 0 refused 9", b"\x83\x80\xc0", "no fault is found" + differs, 200),
                ("segment 0 0 0 0 - 2 0 saved 0", b"\x83\0", "the fault is refusal 6 at position 1" + differs, None),
                ("segment 10 0 0 0 - 2 0 refused 10", b"\x83\0", "the fault is refusal 6 at position 1" + differs, None),
                ("segment 6 0 0 0 - 2 0 refused 6", b"\x83\0", "the fault is refusal 6 at position 1" + differs, None),
                ("segment 1 0 0 0 - 2 0 refused 1", b"\x83\0", None, None), ("segment 13 0 0 0 - 2 0 refused 13", b"\x83\0", None, None), ("segment 6 0 0 0 1 2 0 refused 6", b"\x83\0", "octet 2, at position 1, is 00", 1)):
            text = self.beside(line, parameter)
            said = [line for line in unwrapped(text) if line.startswith("    read alone, ") and line != FIELDS]
            self.assertEqual([line[16:16 + len(reason or "")] for line in said], [reason] if reason else [], text)
            self.assertEqual([seen.mark for seen in shown(text)], [mark], text)
            number, position = line.split(" ")[1], line.split(" ")[5]
            if number != "0":
                self.assertIn("    refused %s%s: " % (number, "" if position == "-" else " at position " + position), text)

    def test_positions_in_the_examples(self):
        """What the comments of bad-input say is what replay prints, and there all six numbers are met; the marks say the same in every example."""
        with open(example("bad-input"), encoding="utf-8") as file:
            told = [re.search(r"# position (\d+)\b", line) for line in file if line.startswith("segment ")]
        lines = [line.split(" ") for line in replayed(run("encode", example("bad-input")).out) if line.startswith("segment")]
        self.assertEqual([found.group(1) if found else "-" for found in told], [line[5] for line in lines])
        self.assertEqual({line[1] for line in lines if line[5] != "-"}, {"5", "6", "7", "8", "9", "23"})
        for name in examples():
            lines = [line.split(" ") for line in replayed(run("encode", example(name)).out) if line.startswith("segment")]
            self.assertEqual(["-" if seen.mark is None else str(seen.mark) for seen in shown(run("explain", example(name)).out.decode())], [line[5] for line in lines], name)

    def test_the_page_of_the_examples(self):
        """What it shows of explain is what explain prints."""
        with open(os.path.join(EXAMPLES, "README.md"), encoding="utf-8") as file:
            page = file.read()
        part = page[page.index("    tools/egrynnol explain examples/bad-input.trace\n"):]
        blocks = re.findall(r"(?:    .*\n)+", part)
        block = "".join(line[4:] + "\n" for line in blocks[1].splitlines())
        self.assertIn("^^", block)
        self.assertTrue(block in run("explain", example("bad-input")).out.decode(), block)


class Agrees(unittest.TestCase):

    def test_examples(self):
        for name in examples():
            octets = run("encode", example(name)).out
            text = run("explain", example(name)).out.decode()
            self.assertEqual(lines_in_words(text), replayed(octets), name)
            self.assertEqual(records_in_words(text), recorded(octets), name)
            self.assertEqual(timeouts_in_words(text), timeouts_of(octets), name)

    def test_generated_traces(self):
        chance = random.Random(SEED)
        met = set()
        for _ in range(RUNS):
            octets = some_trace(chance)
            status, text = explained(octets)
            lines = replayed(octets)
            self.assertEqual(lines_in_words(text), lines, octets.hex())
            self.assertEqual(timeouts_in_words(text), timeouts_of(octets), octets.hex())
            self.assertEqual(status, 3 if lines[-1:] == ["stop"] else 0)
            self.assertNotIn("its answer counts", text)
            self.assertEqual(["-" if seen.mark is None else str(seen.mark) for seen in shown(text)], [line.split(" ")[5] for line in lines if line.startswith("segment")], octets.hex())
            met |= set(re.findall(r"refused \d+|cause \d|saved in place 15|dropped|held|stop,|    delivered|by the clock first[a-z, ]*", text))
        wanted = {"refused %d" % number for number in (1, 5, 6, 7, 8, 9, 10, 11, 12, 13, 21, 23)} | {"cause %d" % number for number in (1, 2, 3, 4, 6, 7)}
        wanted |= {"saved in place 15", "dropped", "held", "stop,", "    delivered", "by the clock first", "by the clock first, and it stands"}
        self.assertEqual(wanted - met if RUNS >= 1000 else set(), set(), "not met")

    def test_whose_each_record_is(self):
        """Every field of a record, both addresses too, of all four kinds of lines."""
        chance, kinds, addresses = random.Random(SEED + 2), set(), set()
        for _ in range(RUNS // 3):
            octets = some_trace(chance)
            lines = recorded(octets)
            self.assertEqual(records_in_words(explained(octets)[1]), lines, octets.hex())
            kinds |= {line.split(" ")[0] for line in lines}
            addresses |= {tuple(line.split(" ")[-2:]) for line in lines}
        self.assertEqual(kinds, {"delivered", "lost", "dropped", "held"})
        self.assertLessEqual({("-", "-"), ("0007", "-"), ("07", "-"), ("07", "09"), ("07", "0009"), ("07", "0900")}, addresses)

    def test_nothing_vanishes(self):
        """Every segment that was not refused, and each of its octets, is delivered, lost, dropped or held."""
        chance, kinds = random.Random(SEED + 1), set()
        for _ in range(RUNS // 3):
            octets = some_trace(chance)
            trace = streams.Trace("T", io.BufferedReader(io.BytesIO(octets)), None)
            registry, taken, told = words.Registry(), [0, 0], [0, 0]
            for row, item in (pair for batch in rows.Beside(trace).batches() for pair in batch):
                if row is None:
                    registry.add(item.record.numbers[0], item.record.kind)
                elif row.name == "segment" and row.decision != "refused":
                    reading = words.read_alone(item.record.octets, registry)
                    taken = [taken[0] + 1, taken[1] + len(item.record.octets) - reading.at]
                elif row.segments is not None:
                    told = [told[0] + row.segments, told[1] + row.octets]
                    kinds.add(row.row)
            self.assertEqual(taken, told, octets.hex())
        self.assertEqual(kinds, {"delivered", "lost", "dropped", "held"})

    def test_words_that_are_changed_are_found(self):
        octets = run("encode", example("callback")).out
        _, text = explained(octets)
        lines = replayed(octets)
        self.assertTrue(agree(text, lines))
        for old, new in (("    lost, cause 2", "    kept, cause 2"), ("10 octets in 3 segments", "9 octets in 3 segments"), ("event 3", "event 4"),
                         ("    saved in place 0\n", ""), ("    saved in place 0\n", "    refused 5: x\n"), ("    delivered", "    lost, cause 1 (x)"),
                         ("    saved in place 0\n", "    refused 0 at position 1: x\n")):
            self.assertIn(old, text)
            self.assertFalse(agree(text.replace(old, new, 1), lines), old)

    def test_words_of_the_clock_that_are_changed_are_found(self):
        octets = run("encode", example("arrival")).out
        _, text = explained(octets)
        lines = replayed(octets)
        self.assertTrue(agree(text, lines))
        self.assertEqual(sorted(set(timeouts_in_words(text))), [0, 1, 16])
        for old, new in (("by the clock first: ", ""), ("by the clock first, and it stands: ", "by the clock first: "), ("by the clock first: ", "by the clock first, and it stands: "),
                         ("    lost, cause 1", "    by the clock first: lost, cause 1"), ("by the clock first: lost, cause 6", "by the clock first: lost, cause 7")):
            self.assertIn(old, text)
            self.assertFalse(agree(text.replace(old, new, 1), lines), old)


if __name__ == "__main__":
    unittest.main()
