#!/usr/bin/env python3
"""Traces as text and as octets, and a parameter read alone: egrynnol encode, decode, and what explain says of the fields.

    python3 tests/test_traces.py            all; the programs are in EGRYNNOL_LIBEXEC, or in target/bin
"""

import io
import os
import random
import re
import stat
import subprocess
import sys
import tempfile
import tracemalloc
import unittest

sys.dont_write_bytecode = True

from running import FIELDS, example, examples, process, run, unwrapped
from egrynnol_lib import commands, streams, traces, words


class Wrote:
    """What a piece of the command wrote, said and answered."""

    def __init__(self, work, data):
        self.said, out = [], io.BytesIO()
        keep = commands.report
        commands.report = self.said.append
        try:
            self.good = work(io.BufferedReader(io.BytesIO(data)), out, self.said.append)
        except traces.Bad as error:
            self.good = False
            self.said += [str(error)] if str(error) else []
        finally:
            commands.report = keep
        self.out = out.getvalue()


def encode(text):
    def work(stream, out, report):
        for _, record in traces.records_of_text(stream, "T", report):
            out.write(traces.octets_of_record(record))
        return True
    return Wrote(work, text.encode() if isinstance(text, str) else text)


def decode(octets):
    return Wrote(lambda stream, out, _: commands.decoded(streams.Trace("T", stream, None), out) == commands.GOOD, octets)


def explain_text(text):
    """What explain says of a text that is good."""
    ran = run("explain", "--text", data=text.encode())
    assert ran.status in (0, 3), ran
    return ran.out.decode()


# ---- random traces ----

def some_octets(dice, most):
    return bytes(dice.randrange(256) for _ in range(dice.choice([0, 1, 5, dice.randint(0, most), most])))


def number(dice, width):
    top = 256 ** width - 1
    return dice.choice([0, 1, 9, top, dice.randint(0, top)])


def random_line(dice):
    """A line in the canonical form, made without the tool."""
    kind = dice.randrange(6)
    if kind < 2:
        return "context %s %d" % (("1998", "2000")[kind], number(dice, 2))
    if kind == 2:
        return "open %d %d" % (number(dice, 4), number(dice, 4))
    if kind == 3:
        return "clock %d" % number(dice, 4)
    if kind == 4:
        return "release %d" % number(dice, 2)
    octets = some_octets(dice, 255)
    words = ["segment", "%d" % number(dice, 4), "%d" % number(dice, 2)] + ["%02X" % o for o in octets]
    room = 255 - len(octets)
    if room and dice.random() < 0.2:
        past = some_octets(dice, room)[:room - 1] + bytes([dice.randint(1, 255)])
        words += ["|"] + ["%02X" % o for o in past]
    return " ".join(words)


def random_record(dice):
    """A record in octets, made without the tool."""
    kind = dice.choice([1, 2, 32, 33, 33, 34, 35])
    length = {1: 2, 2: 2, 32: 8, 33: 262, 34: 4, 35: 2}[kind]
    body = bytearray(dice.randrange(256) for _ in range(length))
    if kind == 33 and dice.random() < 0.7:
        body[7 + body[6]:] = bytes(255 - body[6])
    return bytes([kind]) + bytes(body)


class RoundTrips(unittest.TestCase):

    def test_text_to_octets_to_text(self):
        dice = random.Random(1)
        for _ in range(60):
            text = "".join(random_line(dice) + "\n" for _ in range(dice.randint(0, 30)))
            octets = encode(text)
            self.assertTrue(octets.good, octets.said)
            back = decode(octets.out)
            self.assertTrue(back.good)
            self.assertEqual(back.out.decode(), text)

    def test_octets_to_text_to_octets(self):
        dice = random.Random(2)
        for _ in range(60):
            octets = b"".join(random_record(dice) for _ in range(dice.randint(0, 30)))
            text = decode(octets)
            self.assertTrue(text.good, text.said)
            again = encode(text.out)
            self.assertTrue(again.good, again.said)
            self.assertEqual(again.out, octets)

    def test_any_octets_up_to_the_offset(self):
        """Of octets that are no trace, the text has all that came before the offset it names."""
        dice = random.Random(3)
        for _ in range(300):
            good = b"".join(random_record(dice) for _ in range(dice.randint(0, 3)))
            octets = good + bytes(dice.choice([1, 2, 32, 34, 35, dice.randrange(256)])
                                  for _ in range(dice.randint(0, 12)))
            text = decode(octets)
            again = encode(text.out)
            self.assertTrue(again.good)
            if text.good:
                self.assertEqual(again.out, octets)
                continue
            offset = int(re.match(r"T: offset (\d+): ", text.said[0]).group(1))
            self.assertEqual(again.out, octets[:offset])
            self.assertLess(offset, len(octets))

    def test_loose_text_means_the_same(self):
        loose = "\ufeff# a comment\r\n\r\n  context\t1998   003 # three\r\n\nsegment 07 9 aa Bb cC#x\n  \nclock 00000000000000000007"
        self.assertEqual(decode(encode(loose).out).out, b"context 1998 3\nsegment 7 9 AA BB CC\nclock 7\n")

    def test_hex_forms(self):
        """Without blanks, with colons, with 0x, and mixed: the same octets; decode writes one form."""
        for form in ("83814185AA", "83:81:41:85:AA", "0x83814185AA", "0x83 0x81 0x41 0x85 0xAA", "8381 4185aa", "0X8381 41:85 aa", "83 81:41 0x85AA",
                     "83 81 41 85 AA |", "83 81 41 85 AA | 0000", "8381:41"):
            ran = encode("segment 0 9 %s\n" % form)
            if form in ("83 81 41 85 AA |", "8381:41"):
                self.assertFalse(ran.good, form)
                continue
            self.assertEqual((ran.good, ran.said), (True, []), form)
            self.assertEqual(decode(ran.out).out, b"segment 0 9 83 81 41 85 AA\n", form)
        self.assertEqual(decode(encode("segment 0 9 aabb | 00:01 0x0203").out).out, b"segment 0 9 AA BB | 00 01 02 03\n")
        self.assertTrue(encode("segment 0 9 " + "AB" * 255).good)
        self.assertEqual(encode("segment 0 9 0x" + "AB" * 256).said, ["T:1: a parameter has 0 to 255 octets, here are 256"])

    def test_hex_forms_at_random(self):
        dice = random.Random(5)
        for _ in range(300):
            octets, words_, at = some_octets(dice, 60), [], 0
            while at < len(octets):
                piece = octets[at:at + dice.randint(1, 7)]
                words_.append(dice.choice([piece.hex(), piece.hex().upper(), piece.hex(":"), piece.hex(" "), "0x" + piece.hex(), "0X" + piece.hex().upper()]))
                at += len(piece)
            ran = encode("segment 0 7 %s\n" % " ".join(words_))
            self.assertEqual((ran.good, ran.out[8:8 + len(octets)], ran.out[7]), (True, octets, len(octets)), words_)

    def test_the_octets_of_each_kind(self):
        for text, octets in [
                ("context 1998 3", "01 00 03"), ("context 2000 65535", "02 FF FF"),
                ("open 100 4294967295", "20 00 00 00 64 FF FF FF FF"), ("open 0 0", "20" + " 00" * 8),
                ("clock 99", "22 00 00 00 63"), ("release 65535", "23 FF FF"),
                ("segment 0 9", "21 00 00 00 00 00 09 00" + " 00" * 255),
                ("segment 16909060 258 83 81", "21 01 02 03 04 01 02 02 83 81" + " 00" * 253),
                ("segment 4294967295 9 AA | 00 01", "21 FF FF FF FF 00 09 01 AA 00 01" + " 00" * 252),
                ("segment 7 9" + " FE" * 255, "21 00 00 00 07 00 09 FF" + " FE" * 255)]:
            self.assertEqual(encode(text).out, bytes.fromhex(octets.replace(" ", "")), text)

    def test_octets_past_the_length_are_kept_and_said(self):
        octets = bytes([33, 0, 0, 0, 5, 0, 9, 1, 0xAA]) + bytes(253) + b"\x07"
        ran = decode(bytes([1, 0, 3]) + octets)
        self.assertEqual(ran.out.decode(), "context 1998 3\nsegment 5 9 AA |" + " 00" * 253 + " 07\n")
        self.assertEqual(len(ran.said), 1)
        self.assertIn("offset 3", ran.said[0])
        self.assertTrue(ran.good)
        self.assertEqual(decode(octets[:-1] + b"\0").said, [])

    def test_zeros_after_the_bar_are_not_needed(self):
        self.assertEqual(encode("segment 0 9 AA | 00 00").out, encode("segment 0 9 AA").out)


class BadText(unittest.TestCase):

    BAD = [
        ("foo 1", "unknown word 'foo'; a line starts with context, open, segment, clock or release"),
        ("Open 1 2", "unknown word 'Open'"),
        ("\u00e9t\u00e9", "unknown word '\u00e9t\u00e9'"),
        ("\x07", "unknown word '\\x07'"),
        ("x" * 100, "unknown word '" + "x" * 37 + "...'"),
        ("context", "context: 1998 or 2000 is missing, then the context"),
        ("context 1999 3", "context: '1999' is neither 1998 nor 2000"),
        ("context 3", "context: '3' is neither 1998 nor 2000"),
        ("context 1998", "context 1998: the number for context is missing"),
        ("context 1998 65536", "context 1998: context: '65536' is out of range, 0 to 65535"),
        ("context 2000 3 4", "context 2000: '4' is one word too many"),
        ("open", "open: the number for T is missing"),
        ("open 100", "open: the number for clock is missing"),
        ("open 100 0 0", "open: '0' is one word too many"),
        ("open 4294967296 0", "open: T: '4294967296' is out of range, 0 to 4294967295"),
        ("open 1 4294967296", "open: clock: '4294967296' is out of range, 0 to 4294967295"),
        ("open 1 " + "9" * 5000, "open: clock: '" + "9" * 37 + "...' is out of range"),
        ("open 0x64 0", "open: T: '0x64' is not a decimal number"),
        ("open 100, 0", "open: T: '100,' is not a decimal number"),
        ("segment", "segment: the number for time is missing"),
        ("segment 4294967296 9 AA", "segment: time: '4294967296' is out of range, 0 to 4294967295"),
        ("segment 0 65536 AA", "segment: association: '65536' is out of range, 0 to 65535"),
        ("segment AA 83", "segment: time: 'AA' is not a decimal number"),
        ("segment 0 9 8", "'8' is not whole octets: two hex digits each"),
        ("segment 0 9 83814", "'83814' is not whole octets"),
        ("segment 0 9 0x838", "'0x838' is not whole octets"),
        ("segment 0 9 0x", "'0x' is not an octet"),
        ("segment 0 9 x83", "'x83' is not an octet"),
        ("segment 0 9 83: 81", "'83:' is not an octet"),
        ("segment 0 9 83::81", "'83::81' is not an octet"),
        ("segment 0 9 8:3", "'8:3' is not an octet"),
        ("segment 0 9 838:14", "'838:14' is not an octet"),
        ("segment 0 9 0G", "'0G' is not an octet: two hex digits each, as 83 81, 8381, 83:81 or 0x8381"),
        ("segment 0 9 \u0661\u0661", "is not an octet"),
        ("segment 0 9 AA|01", "'AA|01' is not an octet"),
        ("segment 0 9 AA | 01 | 02", "'|' is not an octet"),
        ("segment 0 9 AA |", "no octet after '|'"),
        ("segment 0 9" + " 00" * 256, "a parameter has 0 to 255 octets, here are 256"),
        ("segment 0 9" + " 00" * 255 + " | 00", "parameter and octets after '|' are 256 octets together, over 255"),
        ("clock", "clock: the number for time is missing"),
        ("clock -1", "clock: time: '-1' is not a decimal number"),
        ("clock 1.5", "clock: time: '1.5' is not a decimal number"),
        ("clock \u0661", "clock: time: '\u0661' is not a decimal number"),
        ("clock 4294967296", "clock: time: '4294967296' is out of range, 0 to 4294967295"),
        ("clock 1 2", "clock: '2' is one word too many"),
        ("release", "release: the number for association is missing"),
        ("release 65536", "release: association: '65536' is out of range, 0 to 65535"),
        ("release 1 2", "release: '2' is one word too many"),
        ("clock 1 # \0", "this is not text, it has an octet 00; for a trace in octets use decode, or --octets"),
        ("# " + "x" * 70000, "the line is longer than 65535 octets"),
    ]

    def test_every_message_with_its_line(self):
        for line, message in self.BAD:
            ran = encode("clock 1\n# why\n\n%s\nclock 2\n" % line)
            self.assertFalse(ran.good, line)
            self.assertEqual(len(ran.said), 1, line)
            self.assertTrue(ran.said[0].startswith("T:4: "), ran.said)
            self.assertIn(message, ran.said[0])
            self.assertEqual(ran.out, bytes([34, 0, 0, 0, 1]), "nothing from the bad line on")

    def test_the_longest_line(self):
        for end in ("", "\n", "\nclock 2\n"):
            line = "clock 1 #" + "x" * 65526
            self.assertEqual(len(line), 65535)
            self.assertTrue(encode(line + end).good)
            self.assertEqual(encode(line + "x" + end).said, ["T:1: the line is longer than 65535 octets"])
            self.assertEqual(encode("\ufeff" + line + end).said, ["T:1: the line is longer than 65535 octets"])

    def test_bad_bytes(self):
        self.assertEqual(encode(b"\xff\xfe").said, ["T:1: unknown word '\\xff\\xfe'; "
                                                    "a line starts with context, open, segment, clock or release"])

    def test_all_bad_lines_are_named(self):
        self.assertEqual([s.split(":")[1] for s in encode("a\nclock 1\nb\n\nc").said], ["1", "3", "5"])

    def test_gives_up_at_last(self):
        ran = encode("a\n" * 1000)
        self.assertEqual(len(ran.said), 21)
        self.assertEqual(ran.said[-1], "T: 20 bad lines, the rest is not read")

    def test_what_the_replay_program_refuses_can_be_written(self):
        for line in ["open 0 0", "open 4294967295 0", "context 1998 0", "context 2000 65535",
                     "release 65535", "segment 4294967295 65535", "open 1 1\ncontext 1998 3"]:
            self.assertTrue(encode(line).good, line)

    def test_the_others_name_the_lines_too(self):
        """And nothing is run: a text is good as a whole, or not at all."""
        for words_ in (["explain"], ["replay"], ["records"], ["records", "--json"], ["totals"]):
            ran = run(*words_, data=b"clock 1\nclock x\nclock 2\nopen\n")
            self.assertEqual((ran.status, ran.out), (1, b""))
            self.assertEqual(ran.err, "standard input:2: clock: time: 'x' is not a decimal number\nstandard input:4: open: the number for T is missing\n")


class BadOctets(unittest.TestCase):

    def test_offset_and_reason(self):
        head = bytes([1, 0, 3])
        for tail, message in [
                (b"\x00", "kind 0 is unknown; a trace has kinds 1, 2, 32, 33, 34 and 35"),
                (b"\x03\0\0", "kind 3 is unknown"), (b"\x24", "kind 36 is unknown"),
                (b"\x10" + bytes(31), "kind 16 is a record of a report, it has no place in a trace"),
                (b"\x11" + bytes(31), "kind 17 is a record of a report"),
                (b"\x12" + bytes(52), "kind 18 is a record of a report, it has no place in a trace"),
                (b"\x13" + bytes(52), "kind 19 is a record of a report"),
                (b"\x0f" + bytes(52), "kind 15 is unknown"), (b"\x14" + bytes(52), "kind 20 is unknown"),
                (b"\x01\0", "the record is cut: kind 1 (context 1998) has 3 octets, here are 2"),
                (b"\x02", "kind 2 (context 2000) has 3 octets, here are 1"),
                (b"\x20" + bytes(7), "kind 32 (open) has 9 octets, here are 8"),
                (b"\x21" + bytes(261), "kind 33 (segment) has 263 octets, here are 262"),
                (b"\x22\0", "kind 34 (clock) has 5 octets, here are 2"),
                (b"\x23\0", "kind 35 (release) has 3 octets, here are 2")]:
            ran = decode(head + tail)
            self.assertFalse(ran.good)
            self.assertEqual(ran.out, b"context 1998 3\n")
            self.assertEqual(len(ran.said), 1)
            self.assertTrue(ran.said[0].startswith("T: offset 3: "), ran.said)
            self.assertIn(message, ran.said[0])
            told_ = run("explain", data=head + tail)
            self.assertEqual((told_.status, told_.err), (3, ""))
            first, second, third = told_.out.decode().splitlines()
            self.assertEqual((first, second), ("offset 0: context 1998 3", "offset 3: stop, nothing is read from here on"))
            self.assertTrue(third.startswith("    read alone, ") and message in third, third)

    def test_text_given_to_decode(self):
        self.assertIn("looks like text", decode(b"context 1998 3\n").said[0])
        self.assertIn("looks like text", decode(b"# why\ncontext 1998 3\n").said[0])


REGISTRY = "context 1998 3\ncontext 2000 4\nopen 100 0\n"


def told(*parameters, registry=REGISTRY):
    """What explain says of each parameter alone, as lists of lines: its fields, and last what is wrong. Each meets a fresh opening."""
    found, fault, fields = [], None, False
    for line in unwrapped(explain_text(registry + "".join("segment 0 9 %s\nopen 100 0\n" % parameter for parameter in parameters))):
        if ": segment at 0, association 9" in line:
            found.append([])
        elif ": open, T 100" in line and fault:
            found[-1].append(fault)
        elif fields and line.startswith("        "):
            found[-1].append(line.strip())
        elif line.startswith("    read alone, ") and line != FIELDS:
            fault = "wrong: " + line[len("    read alone, "):]
        fields = line == FIELDS or fields and line.startswith("        ")
        fault = None if line.startswith("line ") else fault
    return found if len(parameters) > 1 else found[0]


class Explained(unittest.TestCase):

    CONTEXT3 = "context 3: listed as of 1998, no address fields"
    CONTEXT4 = "context 4: listed as of 2000, with address fields"
    NONE = "instruction 0: send notification no, release call no"

    def test_examples_of_the_paper(self):
        self.assertEqual(told(""), ["wrong: it ends where octet 1 should be, at position 0"])
        self.assertEqual(told("83 80 C0 AA BB"), [
            self.CONTEXT3, self.NONE, "new segment, 0 segments remaining",
            "unsegmented: no reference", "information: 2 octets"])
        self.assertEqual(told("83 81 41 85 AA"), [
            self.CONTEXT3, "instruction 1: send notification no, release call yes",
            "new segment, 1 segment remaining", "reference 5", "information: 1 octet"])
        self.assertEqual(told("83 80 00 85 BB"), [
            self.CONTEXT3, self.NONE, "subsequent segment, 0 segments remaining", "reference 5",
            "information: 1 octet"])
        self.assertEqual(told("83 80 49 85")[2:], ["new segment, 9 segments remaining", "reference 5", "information: 0 octets"])
        self.assertEqual(told("83 80 4A 85")[2], "new segment, 10 segments remaining (over 9, more than a sequence can have)")
        self.assertEqual(told("84 80 41 85 02 00 07 00 AA"), [
            self.CONTEXT4, self.NONE, "new segment, 1 segment remaining", "reference 5",
            "originating address: 2 octets: 00 07", "destination address: 0 octets", "information: 1 octet"])
        self.assertEqual(told("84 80 41 85 01 07 00 BB")[4:], [
            "originating address: 1 octet: 07", "destination address: 0 octets", "information: 1 octet"])
        self.assertEqual(told("84 80 C0 00 00")[4:], [
            "originating address: 0 octets", "destination address: 0 octets", "information: 0 octets"])
        self.assertEqual(told("84 80 C0 00 01 07")[4:], [
            "originating address: 0 octets", "destination address: 1 octet: 07", "information: 0 octets"])
        self.assertEqual(told("00 81 80 C0 AA"), [
            "context 128: not listed so far in this trace",
            self.NONE, "new segment, 0 segments remaining", "unsegmented: no reference",
            "1 octet left: whether addresses are among them, the registry does not say",
            "wrong: context 128, whose last octet is at position 1, is not registered; registered: 3, 4"])

    def test_instruction(self):
        self.assertEqual(told("83 82 C0")[1], "instruction 2: send notification yes, release call no")
        self.assertEqual(told("83 83 C0")[1], "instruction 3: send notification yes, release call yes")
        self.assertEqual(told("83 FD C0")[1],
                         "instruction 1: send notification no, release call yes; spare bits are not 0, ignored")

    REFUSED = [
        # M1, M7 to M10
        ("", 5), ("83 80 40 85", 7), ("83 80 C1", 7), ("83 00", 6), ("85", 8),
        # the literal cases
        ("83 80 40", 5), ("83 80 40 05", 6), ("84 80 40 85 15", 7), ("84 80 C1", 7), ("83 80 80", 7),
        ("05", 5), ("05 05", 6), ("05 81", 8), ("80 80 C0", 8), ("00 81 80 C0", 8),
        # M12, and padded contexts, registered or not
        ("03 80 80 C0 AA", 23), ("03 00", 6), ("05 80", 23), ("00 80", 23), ("00 80 80 C0", 23), ("7F 80 80 C0", 23),
        # where the fields end, and long addresses
        ("83", 5), ("83 7F", 6), ("83 80", 5), ("84 80 C0", 5), ("84 80 C0 15", 9), ("84 80 C0 FF 01", 9),
        ("84 80 C0 02 01", 5), ("84 80 C0 14", 5), ("84 80 C0 00", 5), ("84 80 C0 00 15", 9),
        ("84 80 C0 01 07 02 01", 5), ("84 80 41 85 02 00 07 15", 9), ("84 80 41 05 15", 6),
    ]

    def test_refusals_are_the_programs(self):
        """Its number in words; and before any opening it is 1, whatever the parameter is."""
        lines = explain_text(REGISTRY + "".join("segment 0 9 %s\n" % parameter for parameter, _ in self.REFUSED)).splitlines()
        refused = [re.sub(r" at position \d+: ", ": ", line.strip()) for line in lines if line.startswith("    refused")]
        self.assertEqual(refused, ["refused %d: %s" % (number, words.REFUSALS[number]) for _, number in self.REFUSED])
        self.assertEqual(sum("at position" in line for line in lines if line.startswith("    refused")), len(self.REFUSED))
        lines = explain_text("".join("segment 0 9 %s\n" % parameter for parameter, _ in self.REFUSED)).splitlines()
        refused = [line.strip() for line in lines if "refused" in line]
        self.assertEqual(refused, ["refused 1: %s" % words.REFUSALS[1]] * len(self.REFUSED))
        self.assertNotIn("^^", "".join(lines))

    def test_reasons(self):
        cases = [
            ("83", "it ends where octet 2 should be, at position 1"),
            ("83 80", "it ends where octet 3 should be, at position 2"),
            ("83 80 41", "it ends where octet 3a should be, at position 3"),
            ("05", "it ends where octet 1a should be, at position 1"),
            ("03 80 80 C0 AA", "octet 1a, at position 1, has a zero upper part: context 3 is padded, and its shortest form is the one octet 83"),
            ("00 80", "octet 1a, at position 1, has a zero upper part: context 0 is padded, and its shortest form is the one octet 80"),
            ("05 05", "octet 1a, at position 1, is 05: extension 0, and it has to be 1 (80 to FF)"),
            ("83 00", "octet 2, at position 1, is 00: extension 0, and it has to be 1 (80 to FF)"),
            ("83 80 41 05", "octet 3a, at position 3, is 05: extension 0, and it has to be 1 (80 to FF)"),
            ("83 80 40 85", "octet 3, at position 2, is 40 and says new, 0 remaining, so octet 3a has to be absent, and it is present"),
            ("83 80 80", "octet 3, at position 2, is 80 and says subsequent, 0 remaining, so octet 3a has to be present, and it is absent"),
            ("83 80 C1", "octet 3, at position 2, is C1 and says new, 1 remaining, so octet 3a has to be present, and it is absent"),
            ("85 80 C0", "context 5, whose last octet is at position 0, is not registered; registered: 3, 4"),
            ("05 81", "context 133, whose last octet is at position 1, is not registered; registered: 3, 4"),
            ("80 80 C0", "context 0, whose last octet is at position 0, is never registered; registered: 3, 4"),
            ("84 80 C0 15", "the length octet of the originating address, at position 3, says 21, and at most 20 is allowed"),
            ("84 80 C0 00 FF", "the length octet of the destination address, at position 4, says 255, and at most 20 is allowed"),
            ("84 80 C0", "it ends where the length octet of the originating address should be, at position 3"),
            ("84 80 C0 00 03 01", "it ends inside the destination address, at position 6, with 1 of its 3 octets")]
        for lines, (_, reason) in zip(told(*(parameter for parameter, _ in cases)), cases):
            self.assertEqual(lines[-1], "wrong: " + reason)
        self.assertEqual(told("85", registry="open 100 0\n")[-1], "wrong: context 5, whose last octet is at position 0, is not registered; registered: none")

    def test_reasons_where_nothing_is_open(self):
        """The parameter is not read then, so it is not blamed; what is wrong with it is still said."""
        text = "\n".join(unwrapped(explain_text("context 1998 3\nsegment 0 9 83 00\nsegment 0 9 85 00\nsegment 0 9 83 80\n")))
        octet2 = "octet 2, at position 1, is 00: extension 0, and it has to be 1 (80 to FF)"
        for context, reason in (("context 3: listed as of 1998, no address fields", octet2), ("context 5: not listed so far in this trace", octet2)):
            self.assertIn("    read alone, the parameter says:\n        %s\n        not read on: %s\n" % (context, reason), text)
        self.assertTrue(text.endswith("        not read on: it ends where octet 3 should be, at position 2"), text)
        self.assertEqual(text.count("read alone, "), 3)

    def test_what_stands_behind_a_context_that_is_not_registered(self):
        """It has no part in the refusal, and is read on all the same."""
        self.assertEqual(told("85 00"), ["context 5: not listed so far in this trace",
                                         "not read on: octet 2, at position 1, is 00: extension 0, and it has to be 1 (80 to FF)",
                                         "wrong: context 5, whose last octet is at position 0, is not registered; registered: 3, 4"])

    def test_listed_so_far(self):
        self.assertEqual(told("83 80 C0", registry="open 100 0\n")[0], "context 3: not listed so far in this trace")
        self.assertEqual(told("83 80 C0 01 02", registry="open 100 0\n")[-2],
                         "2 octets left: whether addresses are among them, the registry does not say")
        self.assertEqual(told("7F FF", registry="context 1998 16383\n")[0], "context 16383: listed as of 1998, no address fields")
        self.assertEqual(told("80 80 C0", registry="context 1998 0\n")[0], "context 0: never registered")
        both = told("83 80 C0 02 01 02", registry="context 1998 3\ncontext 2000 3\n")
        self.assertEqual(both[0], "context 3: listed as of 1998 and as of 2000")
        self.assertEqual(both[-1], "3 octets left: whether addresses are among them, the registry does not say")
        before = explain_text("segment 0 9 83 80 C0\ncontext 1998 3\nsegment 0 9 83 80 C0\n")
        self.assertEqual(before.count("not listed so far"), 1)

    def test_other_records(self):
        self.assertEqual(explain_text(
            "context 1998 3\ncontext 2000 3\ncontext 1998 0\ncontext 1998 16384\nopen 0 7\n"
            "open 1000000 7\nclock 8\nrelease 65535\ncontext 1998 9\n").splitlines(), [
                "line 1: context 1998 3", "line 2: context 2000 3", "line 3: context 1998 0", "line 4: context 1998 16384",
                "line 5, event 1: open, T 0, clock 7", "    refused 12: T is not 1 to 1,000,000",
                "line 6, event 2: open, T 1000000, clock 7", "    refused 11: " + words.REFUSALS[11],
                "    read alone, of the registry: context 0 is not 1 to 16,383",
                "    read alone, of the registry: context 3 is listed 2 times",
                "    read alone, of the registry: context 16384 is not 1 to 16,383",
                "line 7, event 3: clock, time 8", "    refused 1: " + words.REFUSALS[1],
                "line 8, event 4: release, association 65535", "    refused 1: " + words.REFUSALS[1],
                "line 9: stop, nothing is read from here on", "    read alone, a registered context after the first open"])
        many = explain_text("".join("context 1998 %d\n" % n for n in range(1, 10)) + "open 1 1\n").splitlines()
        self.assertEqual(many[-1], "    read alone, of the registry: 9 contexts are listed, over 8")

    def test_every_decision(self):
        """Saved, delivered both ways, every cause, refusal 10, what an opening drops, what is held."""
        text = explain_text(
            REGISTRY + "segment 0 9 83 81 41 85 AA\nsegment 0 9 83 80 00 85 BB\nsegment 0 9 83 80 C0 CC\nsegment 0 9 83 80 00 85\n"
            "segment 0 9 83 80 42 85 01\nsegment 0 9 83 80 00 85 02\nsegment 0 9 83 80 42 85 01\nsegment 0 9 83 80 42 85 02\nsegment 0 9 83 80 4A 85 03\n"
            "segment 0 9 84 80 42 86 02 00 07 00 01 02 03\nclock 100\nsegment 100 9 83 80 42 85 01\nrelease 9\nsegment 100 9 83 80 42 85 01\nopen 100 0\n"
            "segment 0 9 83 80 42 86 01\nopen 0 0\nopen 5 5\nsegment 5 8 83 80 42 87 01 02\n")
        whose = "association 9, context 3, reference %d, instruction %d, no originating address, no destination address"
        for line in ("saved in place 0", "delivered: 2 octets in 2 segments; " + whose % (5, 1),
                     "delivered: 1 octet in 1 segment; association 9, context 3, unsegmented, instruction 0, no originating address, no destination address",
                     "lost, cause 1 (%s): 0 octets in 1 segment; %s" % (words.CAUSES[1], whose % (5, 0)),
                     "lost, cause 2 (%s): 2 octets in 2 segments; %s" % (words.CAUSES[2], whose % (5, 0)),
                     "lost, cause 3 (%s): 1 octet in 1 segment; %s" % (words.CAUSES[3], whose % (5, 0)),
                     "lost, cause 4 (%s): 2 octets in 2 segments; %s" % (words.CAUSES[4], whose % (5, 0)),
                     "lost, cause 6 (%s): 3 octets in 1 segment; association 9, context 4, reference 6, instruction 0, originating address 00 07, no destination address" % words.CAUSES[6],
                     "lost, cause 7 (%s): 1 octet in 1 segment; %s" % (words.CAUSES[7], whose % (5, 0)),
                     "dropped by this opening, with no record: 1 octet in 1 segment; " + whose % (5, 0),
                     "dropped by this opening, with no record: 1 octet in 1 segment; " + whose % (6, 0)):
            self.assertIn("\n    %s\n" % line, text)
        self.assertTrue(text.endswith(
            "at the end:\n    held, still open and in no record: 2 octets in 1 segment; association 8, context 3, reference 7, instruction 0, no originating address, no destination address\n"), text)
        full = run("explain", example("full-table")).out.decode()
        self.assertIn("    refused 10: %s\n" % words.REFUSALS[10], full)
        lessees = run("explain", example("lessees")).out.decode()
        self.assertEqual(lessees.count("    refused 21: no row for a new association: 64 have one\n"), 4)
        self.assertIn("lost, cause 5 (%s): 2049 octets in 10 segments" % words.CAUSES[5], run("explain", example("longest")).out.decode())

    def test_what_a_segments_time_loses(self):
        """Before the segment's own record, and beside a refusal; where the step is one back no parameter is read."""
        late = "by the clock first%s: lost, cause 6 (" + words.CAUSES[6] + "): 1 octet in 1 segment; association 9, context 3, reference 5, instruction 1, no originating address, no destination address"
        first = REGISTRY + "segment 0 9 83 81 41 85 AA\n"
        lines = explain_text(first + "segment 100 9 83 80 00 85 BB CC\n").splitlines()
        at = lines.index("line 5, event 3: segment at 100, association 9, 6 octets")
        self.assertEqual(lines[at + 1:at + 3], ["    2 records: 0 octets delivered, 3 octets lost", "    " + late % ""])
        self.assertTrue(lines[at + 3].startswith("    lost, cause 1 (%s): 2 octets in 1 segment; " % words.CAUSES[1]), lines[at + 3])
        lines = explain_text(first + "segment 100 9 83 81 41 85 AA\n").splitlines()
        at = lines.index("line 5, event 3: segment at 100, association 9, 5 octets")
        self.assertEqual(lines[at + 1:at + 3], ["    saved in place 0", "    " + late % ""])
        lines = explain_text(first + "segment 100 9 85\n").splitlines()
        at = lines.index("line 5, event 3: segment at 100, association 9, 1 octet")
        self.assertEqual(lines[at + 1:at + 5], ["    refused 8 at position 0: " + words.REFUSALS[8], "          0  85", "             ^^", "    " + late % ", and it stands"])
        self.assertTrue(lines[at + 5].startswith("    read alone, context 5, "), lines[at + 5])
        lines = explain_text(first + "segment 2147483648 9 83 00\n").splitlines()
        at = lines.index("line 5, event 3: segment at 2147483648, association 9, 2 octets")
        self.assertEqual(lines[at + 1:at + 3], ["    refused 13: " + words.REFUSALS[13], FIELDS])
        self.assertNotIn("by the clock", explain_text(first + "clock 100\n"))

    def test_both_addresses_of_a_record(self):
        """Either, both or none, each in the same words."""
        for parameter, said in (("02 00 07 01 31", "originating address 00 07, destination address 31"), ("00 02 07 00", "no originating address, destination address 07 00"),
                                ("01 07 00", "originating address 07, no destination address"), ("00 00", "no originating address, no destination address")):
            text = explain_text(REGISTRY + "segment 0 9 84 80 C0 %s AA\nsegment 0 9 84 80 00 85 %s AA\nsegment 0 9 84 80 41 85 %s AA\n" % (parameter, parameter, parameter))
            for line in ("delivered: 1 octet in 1 segment; association 9, context 4, unsegmented, instruction 0, " + said,
                         "lost, cause 1 (%s): 1 octet in 1 segment; association 9, context 4, reference 5, instruction 0, %s" % (words.CAUSES[1], said),
                         "held, still open and in no record: 1 octet in 1 segment; association 9, context 4, reference 5, instruction 0, " + said):
                self.assertIn("\n    %s\n" % line, text)
        text = run("explain", example("two-exchanges")).out.decode()
        for to, octets in (("21", 3), ("22", 5)):
            self.assertIn("\n    delivered: %d octets in 2 segments; association 9, context 4, reference 5, instruction 0, originating address 31 32, destination address %s\n" % (octets, to), text)
        self.assertIn("\n    2 records: 0 octets delivered, 3 octets lost\n", text)

    def test_octets_and_text_are_told_alike(self):
        text = REGISTRY + "segment 0 9 84 80 41 85 02 00 07 00 AA\nsegment 0 9\n"
        octets = encode(text).out
        names = re.compile(r"^(offset|line) \d+", re.M)
        of_octets = run("explain", data=octets).out.decode()
        self.assertEqual(names.sub("", of_octets), names.sub("", explain_text(text)))
        self.assertIn("offset 15, event 2: segment", of_octets)


class NoInformation(unittest.TestCase):
    """What the information is must not be seen: other octets in its place give the same words."""

    def registry(self):
        registry = words.Registry()
        for context, kind in [(3, 1), (4, 2), (5, 1), (5, 2)]:
            registry.add(context, kind)
        return registry

    def test_random_parameters(self):
        dice = random.Random(4)
        registry = self.registry()
        seen = set()
        for _ in range(4000):
            head = [dice.choice([0x83, 0x84, 0x85, 0x03, 0x86]), dice.choice([0x80, 0x81, 0x83, 0x03]),
                    dice.choice([0xC0, 0x41, 0x01, 0xC1, 0x40]), dice.choice([0x85, 0x02, 0]), dice.choice([0, 1, 2, 20, 21])]
            octets = bytes(head[:dice.randint(0, 5)]) + some_octets(dice, 60)
            reading = words.read_alone(octets, registry)
            other = octets[:reading.at] + bytes(255 - o for o in octets[reading.at:])
            again = words.read_alone(other, registry)
            self.assertEqual((reading.lines_but(None), reading.fault), (again.lines_but(None), again.fault), octets.hex())
            seen.add(re.sub(r"\d+", "N", reading.lines_but(None)[-1]))
            for position in (0, reading.at, len(octets)):
                self.assertEqual(list(words.marked(octets, reading.at, position)), list(words.marked(other, again.at, position)), octets.hex())
        for last in ("information: N octets", "not read on: it ends inside the originating address, at position N, with N of its N octets",
                     "N octets left: whether addresses are among them, the registry does not say"):
            self.assertIn(last, seen)
        self.assertGreater(len(seen), 15)

    def test_what_was_not_read_is_not_shown(self):
        for parameter in ("84 80 C0 14 5A 5A 5A", "84 80 C0 00 14 5A 5A 5A", "85 80 C0 5A", "83 00 5A", "83 80 C1 5A", "84 80 C0 15 5A", "03 80 5A"):
            text = explain_text(REGISTRY + "segment 0 9 %s\n" % parameter)
            self.assertNotIn("5A", text)
            self.assertIn(" ..", text)
            self.assertRegex(text, r"\n        positions? \d+ (is|to \d+ are) not shown: what stands there may be information\n")

    def test_octets_past_the_length_are_not_shown(self):
        text = explain_text(REGISTRY + "segment 0 9 83 80 C0 | 5A 5A\n")
        self.assertNotIn("5A", text)
        self.assertIn("octets past its length are not all zero; they do not count", text)
        self.assertNotIn("past its length", explain_text("segment 0 9 83 80 C0 | 00 00\n"))


class CommandLine(unittest.TestCase):

    def test_pipes_and_files(self):
        text = b"context 1998 3\nopen 100 0\nsegment 0 9 83 81 41 85 AA\n"
        with tempfile.TemporaryDirectory() as place:
            source, octets, back = (os.path.join(place, n) for n in ("t", "o", "b"))
            with open(source, "wb") as stream:
                stream.write(text)
            self.assertEqual(process("encode", source, "-o", octets), (0, b"", ""))
            self.assertEqual(process("decode", octets), (0, text, ""))
            self.assertEqual(process("decode", "-o", back, octets), (0, b"", ""))
            with open(back, "rb") as stream:
                self.assertEqual(stream.read(), text)
            self.assertEqual(sorted(os.listdir(place)), ["b", "o", "t"])
            self.assertEqual(stat.S_IMODE(os.stat(octets).st_mode), stat.S_IMODE(os.stat(source).st_mode))

    def test_a_bad_text_keeps_the_old_file(self):
        with tempfile.TemporaryDirectory() as place:
            old = os.path.join(place, "old")
            with open(old, "wb") as stream:
                stream.write(b"precious")
            status, out, said = run("encode", "-o", old, data=b"clock 1\nclock\n")
            self.assertEqual((status, out), (1, b""))
            self.assertIn("standard input:2: clock: the number for time is missing", said)
            with open(old, "rb") as stream:
                self.assertEqual(stream.read(), b"precious")
            self.assertEqual(os.listdir(place), ["old"])

    def test_decode_writes_what_came_before(self):
        status, out, said = run("decode", data=bytes([34, 0, 0, 0, 7, 35, 1]))
        self.assertEqual((status, out), (1, b"clock 7\n"))
        self.assertEqual(said, "standard input: offset 5: the record is cut: kind 35 (release) has 3 octets, here are 2\n")

    def test_empty_input(self):
        for command in ("encode", "decode", "explain", "replay", "records", "totals"):
            self.assertEqual(run(command), (0, b"", ""))

    def test_the_example_of_the_help_works_when_pasted(self):
        status, out, _ = process("--help")
        self.assertEqual(status, 0)
        line = [line for line in out.decode().split("\n") if line.startswith("  printf ")]
        self.assertEqual(len(line), 1)
        done = subprocess.run(["sh", "-c", line[0]], stdout=subprocess.PIPE, stderr=subprocess.PIPE)
        self.assertEqual((done.returncode, done.stderr), (0, b""))
        self.assertIn(b"information: 2 octets", done.stdout)

    def test_the_examples_of_the_repository(self):
        self.assertGreaterEqual(len(examples()), 5)
        for name in examples():
            with open(example(name), "rb") as stream:
                ran = encode(stream.read())
            self.assertTrue(ran.good, (name, ran.said))
            self.assertEqual(encode(decode(ran.out).out).out, ran.out)

    def test_memory_stays_small(self):
        """Record by record: a long trace is not held."""
        class Endless(io.RawIOBase):
            left = 20000

            def readable(self):
                return True

            def readinto(self, area):
                size = min(len(area), 263) if self.left else 0
                area[:size] = (bytes([33, 0, 0, 0, 0, 0, 9, 4, 0x83, 0x80, 0xC0, 1]) + bytes(251))[:size]
                self.left -= 1 if size else 0
                return size

        class Sink:
            def write(self, octets):
                pass

            def flush(self):
                pass

        tracemalloc.start()
        self.assertEqual(commands.decoded(streams.Trace("T", io.BufferedReader(Endless(), 263), None), Sink()), commands.GOOD)
        peak = tracemalloc.get_traced_memory()[1]
        tracemalloc.stop()
        self.assertLess(peak, 1000000)


if __name__ == "__main__":
    unittest.main()
