#!/usr/bin/env python3
"""Traces of before version 4, whose segments have no time: egrynnol upgrade, and what the other subcommands say of them.

    python3 tests/test_upgrade.py            the programs are in EGRYNNOL_LIBEXEC, or in target/bin; SEED and RUNS set the traces

tests/before has traces of version 3.1.0, some of its examples and one made at random, and what its program replay printed of each.
"""

import os
import pty
import random
import re
import subprocess
import sys
import tempfile
import unittest

sys.dont_write_bytecode = True

from running import HERE, TOOL, example, examples, process, run

SEED = int(os.environ.get("SEED", "765"))
RUNS = int(os.environ.get("RUNS", "300"))
BEFORE = os.path.join(HERE, "before")
NAMES = sorted(name[:-6] for name in os.listdir(BEFORE) if name.endswith(".trace"))
LENGTHS = {1: 3, 2: 3, 32: 9, 34: 5, 35: 3}
OF_BEFORE, OF_NOW = 259, 263  # octets of a segment's record
READING = (["replay"], ["records"], ["records", "--csv"], ["records", "--json"], ["totals"], ["totals", "--csv"], ["refusals"], ["explain"])
OCTETS_NOTE = "%s: note: these octets are a trace of before version 4, whose segments have no time, and are read wrongly: use 'egrynnol upgrade'\n"
TEXT_NOTE = "%s: note: this looks like a trace of before version 4, read wrongly: a segment's time is missing, and what stands for its association is octet 1; use 'egrynnol upgrade'\n"


def content(name):
    with open(os.path.join(BEFORE, name), "rb") as file:
        return file.read()


# ---- traces of before, in octets, made without the tool ----

def record_of(line):
    """The octets of a line of before."""
    words = line.split(b"#")[0].replace(b"context 1998", b"\1").replace(b"context 2000", b"\2").split()
    if not words:
        return b""
    if words[0] == b"segment":
        octets, _, past = b"".join(words[2:]).partition(b"|")
        return b"\x21" + int(words[1]).to_bytes(2, "big") + bytes([len(octets) // 2]) + bytes.fromhex((octets + past).decode()).ljust(255, b"\0")
    kind, widths = {b"\1": (1, [2]), b"\2": (2, [2]), b"open": (32, [4, 4]), b"clock": (34, [4]), b"release": (35, [2])}[words[0]]
    return bytes([kind]) + b"".join(int(word).to_bytes(width, "big") for word, width in zip(words[1:], widths))


def octets_of(text):
    return b"".join(map(record_of, text.splitlines()))


def some_segment(chance):
    new, remaining = chance.random() < 0.5, chance.choice([0, 0, 1, 1, 2, 9, 10])
    octets = [chance.choice([0x83, 0x83, 0x84, 0x85]), 128 + chance.randrange(4)] + ([0xC0] if new and not remaining else [64 * new + remaining, 128 + chance.choice([5, 6, chance.randrange(20)])])
    octets = bytes(octets[:chance.choice([4, 4, 4, chance.randrange(5)])]) + bytes(chance.choice([0, 1, 3, 230]))
    return b"\x21\0" + bytes([chance.choice([9, 10]), len(octets)]) + octets.ljust(255, chance.choice([b"\0", b"\x5a"]))


def some_record(chance):
    kind = chance.choice([33] * 10 + [34] * 4 + [35, 32, 32])
    if kind == 33:
        return some_segment(chance)
    if kind == 34:
        return b"\x22" + chance.choice([0, 1, 50, 99, 100, 101, 200, 2 ** 31, 2 ** 31 + 5, 2 ** 32 - 1, 2 ** 32 - 50]).to_bytes(4, "big")
    if kind == 35:
        return bytes([35, 0, chance.choice([9, 10])])
    return b"\x20" + chance.choice([100, 100, 100, 1000000, 0, 1000001]).to_bytes(4, "big") + chance.choice([0, 5, 2 ** 32 - 50, 2 ** 31]).to_bytes(4, "big")


REGISTRIES = ([3, 4], [3, 4], [3], [3, 4, 5], [3, 3], [3, 0], [16383], [16384], range(1, 9), range(1, 10), [])
ENDS = (b"", b"", b"", b"\1\0\5", b"\7", b"\x21\0", b"\x22\0", b"\x21" + bytes(257), b"\x12" * 60)


def some_trace(chance, end=None):
    """Some have events before the registry, or a registry that no opening takes."""
    octets = b"".join(some_record(chance) for _ in range(chance.choice([0, 0, 0, 3])))
    octets += b"".join(bytes([chance.choice([1, 1, 2])]) + context.to_bytes(2, "big") for context in chance.choice(REGISTRIES))
    octets += b"\x20\0\0\0\x64\0\0\0\0" + b"".join(some_record(chance) for _ in range(3 + chance.randrange(60)))
    if chance.random() < 0.2:
        octets += b"".join(b"\x21\0\x09\4\x83\x80\x41" + bytes([128 + k]) + bytes(251) for k in range(20))
    return octets + (chance.choice(ENDS) if end is None else end)


def records_of(octets, segment):
    """The records one after the other, and what is left that is none."""
    found, at = [], 0
    while at < len(octets):
        length = {**LENGTHS, 33: segment}.get(octets[at])
        if length is None or at + length > len(octets):
            break
        found.append(octets[at:at + length])
        at += length
    return found, octets[at:]


def is_whole(octets, segment):
    return not records_of(octets, segment)[1]


def kinds_are_known(octets, segment):
    """Whether nothing is left, or only a record that is cut."""
    rest = records_of(octets, segment)[1]
    return not rest or rest[0] in LENGTHS or rest[0] == 33


def without_times(octets):
    found, rest = records_of(octets, OF_NOW)
    return b"".join(record[:1] + record[5:] if record[0] == 33 else record for record in found) + rest


class Upgraded(unittest.TestCase):

    def test_lines_of_3_1_0(self):
        """What it printed of the old trace is printed of the new one, of the text and of the octets; and both say the same."""
        self.assertGreaterEqual(len(NAMES), 5)
        for name in NAMES:
            text, octets, lines = content(name + ".trace"), octets_of(content(name + ".trace")), content(name + ".out")
            status = 3 if lines.endswith(b"\nstop\n") else 0
            new, same = run("upgrade", os.path.join(BEFORE, name + ".trace")), run("upgrade", data=octets)
            self.assertEqual((new[::2], same[::2]), ((0, ""), (0, "")), name)
            self.assertEqual(run("replay", data=new.out), (status, lines, ""), name)
            self.assertEqual(run("replay", data=same.out), (status, lines, ""), name)
            self.assertEqual(run("encode", data=new.out), (0, same.out, ""), name)
            self.assertEqual(re.sub(rb"(?m)^(segment) \d+", rb"\1", new.out), text, name)
            self.assertEqual(without_times(same.out), octets, name)

    def test_by_hand(self):
        """The times of a day, one by one."""
        text = (b"segment 9\ncontext 1998 3\nopen 0 7\nsegment 9\nclock 8\nsegment 9\nopen 100 7\nsegment 9 # x\nclock 8\n  segment\t9 8380C0\r\nclock 2147483656\nsegment 9 0x83\nclock 2147483655\n"
                b"\nsegment 9 83:80\nrelease 9\nsegment 9\nopen 1000001 9\nsegment 9\nopen 1000000 4294967295\nsegment 9\nclock 3\nsegment 9\nclock 2\nsegment 9")
        timed = (b"segment 0 9\ncontext 1998 3\nopen 0 7\nsegment 0 9\nclock 8\nsegment 0 9\nopen 100 7\nsegment 7 9 # x\nclock 8\n  segment 8\t9 8380C0\r\nclock 2147483656\nsegment 8 9 0x83\nclock 2147483655\n"
                 b"\nsegment 2147483655 9 83:80\nrelease 9\nsegment 2147483655 9\nopen 1000001 9\nsegment 0 9\nopen 1000000 4294967295\nsegment 4294967295 9\nclock 3\nsegment 3 9\nclock 2\nsegment 3 9")
        self.assertEqual(run("upgrade", data=text), (0, timed, ""))
        self.assertEqual(run("upgrade", data=text + b" | 00 01\n"), (0, timed + b" | 00 01\n", ""))

    def test_registries(self):
        """An opening that the registry refuses leaves nothing open, so the time is 0; an empty one is good."""
        for contexts, good in (([], True), ([1], True), ([16383], True), ([0], False), ([16384], False), ([3, 3], False), (range(1, 9), True), (range(1, 10), False)):
            text = "".join("context 1998 %d\n" % context for context in contexts) + "open 100 7\n"
            self.assertEqual(run("upgrade", data=(text + "segment 9\nclock 9\nsegment 9\n").encode()).out.decode(),
                             text + ("segment 7 9\nclock 9\nsegment 9 9\n" if good else "segment 0 9\nclock 9\nsegment 0 9\n"), contexts)

    def test_times_are_those_that_the_program_accepts(self):
        """Of generated traces: each segment has the time of the last opening or step that replay's own lines say was accepted, so that nothing is due by it, and all else is as it was."""
        chance, met = random.Random(SEED), set()
        for _ in range(RUNS):
            octets = some_trace(chance)
            ran = run("upgrade", "--octets", data=octets)
            whole = is_whole(octets, OF_BEFORE)
            self.assertEqual((ran.status, "note: offset " in ran.err), (0, False) if whole else (3, True), (octets.hex(), ran))
            self.assertEqual(without_times(ran.out), octets)
            lines = [line.split(" ") for line in run("records", "--octets", data=ran.out).out.decode().splitlines()]
            events = [line for line in lines if line[0] in ("open", "segment", "clock", "release")]
            self.holds([record for record in records_of(ran.out, OF_NOW)[0] if record[0] >= 32], events)
            met |= {" ".join(event[:2]) for event in events}
        if RUNS >= 100:
            self.assertLessEqual({"open 0", "open 11", "open 12", "clock 0", "clock 1", "clock 13", "segment 0", "segment 1", "segment 5", "segment 8", "segment 10"}, met)
            self.assertNotIn("segment 13", met)

    def holds(self, found, events):
        time = 0
        for record, event in zip(found, events):
            first, last = int.from_bytes(record[1:5], "big"), int.from_bytes(record[-4:], "big")
            if event[0] == "open":
                time = last if event[1] == "0" else 0
            elif event[0] == "clock":
                time = first if event[1] == "0" else time
            elif event[0] == "segment":
                self.assertEqual((first, event[7]), (time, "0"))

    def test_a_file_onto_itself(self):
        with tempfile.TemporaryDirectory() as place:
            path = os.path.join(place, "T")
            for octets in (content("timer.trace"), octets_of(content("timer.trace"))):
                with open(path, "wb") as file:
                    file.write(octets)
                self.assertEqual(run("upgrade", path, "-o", path), (0, b"", ""))
                self.assertEqual(run("replay", path), (0, content("timer.out"), ""))
                status, out, said = run("upgrade", path, "-o", path)
                self.assertEqual((status, out), (1, b""))
                self.assertIn("%s: not written\n" % path, said)
                self.assertEqual(run("replay", path), (0, content("timer.out"), ""))
                self.assertEqual(os.listdir(place), ["T"])

    def test_nothing_in_it(self):
        for data in (b"", b"# a comment\n\n", b"\xef\xbb\xbfcontext 1998 3\nopen 100 0", b"\1\0\3\x20\0\0\0\x64\0\0\0\0"):
            self.assertEqual(run("upgrade", data=data), (0, data.replace(b"\xef\xbb\xbf", b""), ""))


class Stops(unittest.TestCase):
    """Traces at which replay stops."""

    START = octets_of(b"context 1998 3\nopen 100 5\nsegment 9 83 80 C0 AA\nclock 7\nsegment 9 83 80 C0 AA\n")
    TIMED = run("encode", data=b"context 1998 3\nopen 100 5\nsegment 5 9 83 80 C0 AA\nclock 7\nsegment 7 9 83 80 C0 AA\n").out

    def test_what_is_no_record_stands_as_it_was(self):
        for rest, why in ((b"\7", "kind 7 is unknown; a trace has kinds 1, 2, 32, 33, 34 and 35"), (b"\0\1\2" * 400, "kind 0 is unknown; a trace has kinds 1, 2, 32, 33, 34 and 35"),
                          (b"\x12" + bytes(52), "kind 18 is a record of a report, it has no place in a trace"), (b"\x22\0", "the record is cut: kind 34 (clock) has 5 octets, here are 2"),
                          (b"\x21\0\x09" + bytes(200), "the record is cut: kind 33 (segment) has 259 octets, here are 203")):
            ran = run("upgrade", data=self.START + rest)
            self.assertEqual(ran, (3, self.TIMED + rest, "standard input: note: offset %d: %s; from there on the octets stand as they were\n" % (len(self.START), why)))
            self.assertEqual(run("replay", data=ran.out), (3, b"open 0 0 0 0\nsegment 0 1 1 0 -\nclock 0 0 0 0\nsegment 0 1 1 0 -\nstop\n", ""))

    def test_a_registered_context_after_the_first_open(self):
        more = b"context 1998 4\nsegment 9 83 80 C0 AA\n"
        ran = run("upgrade", data=self.START + octets_of(more))
        self.assertEqual(ran[::2], (0, ""))
        self.assertEqual(run("replay", data=ran.out), (3, b"open 0 0 0 0\nsegment 0 1 1 0 -\nclock 0 0 0 0\nsegment 0 1 1 0 -\nstop\n", ""))
        self.assertEqual(run("decode", data=ran.out).out.splitlines()[-2:], [b"context 1998 4", b"segment 7 9 83 80 C0 AA"])
        self.assertEqual(run("upgrade", data=b"open 100 5\n" + more).out, b"open 100 5\ncontext 1998 4\nsegment 5 9 83 80 C0 AA\n")

    def test_to_a_file(self):
        with tempfile.TemporaryDirectory() as place:
            path = os.path.join(place, "new")
            self.assertEqual(run("upgrade", "-o", path, data=self.START + b"\7")[:2], (3, b""))
            with open(path, "rb") as file:
                self.assertEqual(file.read(), self.TIMED + b"\7")


class NothingToUpgrade(unittest.TestCase):

    def bad(self, data, *said, words=()):
        ran = run("upgrade", *words, data=data)
        self.assertEqual((ran.status, ran.out), (1, b""), ran)
        self.assertEqual(ran.err, "".join("standard input%s\n" % line for line in said))

    def test_octets_of_now(self):
        for name in examples():
            self.bad(run("encode", example(name)).out, ": each segment has its time: there is nothing to upgrade")

    def test_octets_of_now_that_stop(self):
        octets = run("encode", example("origins")).out
        for rest in (b"\7", b"\x21\0"):
            self.bad(octets + rest, ": offset 271: kind 0 is unknown; a trace has kinds 1, 2, 32, 33, 34 and 35; with times it is good up to offset %d: there is nothing to upgrade" % len(octets))
        one = run("encode", data=b"context 1998 3\nopen 100 0\nsegment 0 9 83 80 C0 AA\n").out
        self.bad(one + b"\7", ": offset 271: kind 0 is unknown; a trace has kinds 1, 2, 32, 33, 34 and 35; with times it is good up to offset 275: there is nothing to upgrade")

    def test_no_trace_at_all(self):
        self.bad(b"\7\7", ": offset 0: kind 7 is unknown; a trace has kinds 1, 2, 32, 33, 34 and 35")
        self.bad(b"\x22\0", ": offset 0: the record is cut: kind 34 (clock) has 5 octets, here are 2")
        self.bad(b"\xff\xfeo\0p\0", ": this is text in UTF-16: save it as UTF-8")

    def test_text_of_now(self):
        """Where the second number cannot be octets, each such line is bad; where it can, the contexts that are listed tell."""
        self.bad(b"context 1998 3\nopen 100 0\nsegment 0 9 83 80 C0 AA\nsegment 100 12 83 80 C0 AA\n",
                 ":3: '9' is not whole octets: two hex digits each; with a time before the association it is a line of now")
        self.bad(b"context 1998 3\nopen 100 0\nsegment 0 10 83 80 C0 AA\nsegment 100 12 85\n", ": each segment has its time: there is nothing to upgrade")
        for name in examples():
            with open(example(name), "rb") as file:
                self.assertEqual(run("upgrade", data=file.read())[:2], (1, b""), name)

    def test_bad_text(self):
        self.bad(b"context 1998 3\nopen 100 0\nsegment 9 83 8\nfoo\nsegment 65536 8A\n", ":3: '8' is not whole octets: two hex digits each",
                 ":4: unknown word 'foo'; a line starts with context, open, segment, clock or release", ":5: segment: association: '65536' is out of range, 0 to 65535")
        self.bad(octets_of(content("timer.trace")), ":1: this is not text, it has an octet 00; for a trace in octets use decode, or --octets", words=["--text"])

    def test_what_the_contexts_do_not_tell_is_taken_for_one_of_before(self):
        self.assertEqual(run("upgrade", data=b"open 100 0\nsegment 12 85\nsegment 13 85 80 C0\n"), (0, b"open 100 0\nsegment 0 12 85\nsegment 0 13 85 80 C0\n", ""))


class Command(unittest.TestCase):

    def test_a_terminal_gets_no_octets(self):
        ours, theirs = pty.openpty()
        with open(ours, "rb", buffering=0), open(theirs, "wb", buffering=0) as terminal:
            done = subprocess.run([TOOL, "upgrade"], input=octets_of(content("timer.trace")), stdout=terminal, stderr=subprocess.PIPE, timeout=60)
            self.assertEqual((done.returncode, done.stderr), (64, b"egrynnol upgrade: octets are not for a terminal: use -o FILE or a pipe\n"))

    def test_octets_that_look_like_text(self):
        """All printable, and whole with the record of before alone."""
        octets = b"!AB " + b"x" * 255
        self.assertEqual(run("upgrade", data=octets), (0, b"!\0\0\0\0AB " + b"x" * 255, ""))
        self.assertEqual(run("upgrade", "--text", data=octets).status, 1)


# ---- what the others say ----

class Notes(unittest.TestCase):

    def test_octets_of_before(self):
        """Said once, and the status is what it would be; what comes out is of a trace that is read wrongly."""
        for name in NAMES:
            octets = octets_of(content(name + ".trace"))
            self.assertFalse(is_whole(octets, OF_NOW))
            for words in READING:
                ran = run(*words, data=octets)
                self.assertEqual(ran[::2], (3, OCTETS_NOTE % "standard input"), (name, words))

    def test_decode(self):
        ran = run("decode", data=octets_of(content("timer.trace")))
        self.assertEqual((ran.status, ran.out.split(b"\n")[:2]), (1, [b"context 1998 3", b"open 100 0"]))
        self.assertEqual(ran.err, "standard input: offset 275: kind 50 is unknown; a trace has kinds 1, 2, 32, 33, 34 and 35; " + OCTETS_NOTE.split("note: ")[1])

    def test_several_files(self):
        with tempfile.TemporaryDirectory() as place:
            old = os.path.join(place, "old")
            with open(old, "wb") as file:
                file.write(octets_of(content("timer.trace")))
            ran = run("replay", example("origins"), old, example("timer"), old)
            self.assertEqual(ran[::2], (3, OCTETS_NOTE % old * 2))

    def test_octets_that_have_not_ended(self):
        """As far as they were read; nobody waits for the rest."""
        it = subprocess.Popen([TOOL, "replay"], stdin=subprocess.PIPE, stdout=subprocess.PIPE, stderr=subprocess.PIPE, bufsize=0)
        with it.stdin, it.stdout, it.stderr:
            it.stdin.write(octets_of(content("timer.trace"))[:600])
            self.assertEqual((it.stderr.read(), it.wait(60)), ((OCTETS_NOTE % "standard input").encode(), 3))

    def test_long_octets(self):
        """Longer than any block, of which the first alone is read."""
        octets = octets_of(b"context 1998 3\nopen 100 0\n") + octets_of(b"segment 9 83 80 C0 AA\n") * 4000
        self.assertEqual(run("replay", data=octets)[::2], (3, OCTETS_NOTE % "standard input"))
        self.assertEqual(run("replay", data=run("upgrade", data=octets).out), (0, b"open 0 0 0 0\n" + b"segment 0 1 1 0 -\n" * 4000, ""))

    def test_octets_of_now_have_none(self):
        for name in examples():
            octets = run("encode", example(name)).out
            for words in READING:
                self.assertEqual(run(*words, data=octets).err, "", (name, words))

    def test_exactly_where_octets_are_records_of_before_alone(self):
        """Whole, cut and damaged, of before and of now; without a segment both are one. Cut ones count where a kind shows it."""
        chance, met = random.Random(SEED), set()
        for _ in range(RUNS):
            octets = some_trace(chance, b"")
            octets = run("upgrade", "--octets", data=octets).out if chance.random() < 0.5 else octets
            octets = octets[:chance.choice([len(octets), len(octets), 274, 271, chance.randrange(len(octets))])]
            if chance.random() < 0.2:
                at = chance.randrange(len(octets))
                octets = octets[:at] + bytes([chance.randrange(256)]) + octets[at + 1:]
            wanted = is_whole(octets, OF_BEFORE) and not is_whole(octets, OF_NOW) or kinds_are_known(octets, OF_BEFORE) and not kinds_are_known(octets, OF_NOW)
            ran = run(*chance.choice(READING), "--octets", data=octets)
            self.assertEqual(ran.err, OCTETS_NOTE % "standard input" if wanted else "", octets.hex())
            met.add((wanted, ran.status))
        self.assertLessEqual({(True, 3), (False, 0), (False, 3)}, met)

    def test_text_of_before(self):
        """Its lines can be read with a time: then none of the contexts is listed, and without one some are."""
        for words in READING + (["encode"],):
            ran = run(*words, os.path.join(BEFORE, "timer.trace"))
            self.assertEqual((ran.status, ran.err), (0, TEXT_NOTE % os.path.join(BEFORE, "timer.trace")), words)
        for text, wanted in ((b"context 1998 3\nopen 100 0\nsegment 9 83 80 C0\n", True), (b"context 1998 3\nopen 100 0\nsegment 9 83 80 C0\nsegment 9 85 80 C0\n", True),
                             (b"context 1998 3\nopen 100 0\nsegment 9 83 80 C0\nsegment 9 12 83 80 C0\n", False), (b"context 1998 3\nopen 100 0\nsegment 9 83 80 C0\nsegment 0 9 85\n", False),
                             (b"open 100 0\nsegment 9 83 80 C0\n", False), (b"context 1998 3\nopen 100 0\nsegment 9 85 80 C0\n", False), (b"context 1998 3\nopen 100 0\n", False),
                             (b"segment 9 83 80 C0\ncontext 1998 3\nopen 100 0\n", False), (b"context 1998 128\nopen 100 0\nsegment 9 00 81 80 C0\n", True)):
            self.assertEqual(run("replay", data=text)[::2], (0, TEXT_NOTE % "standard input" if wanted else ""), text)

    def test_text_of_now_has_none(self):
        for name in examples():
            self.assertEqual(run("encode", example(name)).err, "", name)

    def test_bad_lines_that_were_good(self):
        hint = "; before version 4, when no time stood before the association, it was a good line: use 'egrynnol upgrade'"
        for line, why in (("segment 9", "segment: the number for association is missing"), ("segment 9 8A 80", "segment: association: '8A' is not a decimal number"),
                          ("segment 9 8380C0AA", "segment: association: '8380C0AA' is not a decimal number"), ("segment 9 83:80:C0", "segment: association: '83:80:C0' is not a decimal number"),
                          ("segment 9 0x83", "segment: association: '0x83' is not a decimal number"), ("segment 9 838041", "segment: association: '838041' is out of range, 0 to 65535")):
            for words in (["replay"], ["encode"]):
                self.assertEqual(run(*words, data=("open 100 0\n%s\n" % line).encode()), (1, b"\x20\0\0\0\x64\0\0\0\0" if words == ["encode"] else b"", "standard input:2: %s%s\n" % (why, hint)))
        for line in ("segment", "segment 9 8", "segment 65536 8A", "segment 9 x", "open 100", "segments 9"):
            self.assertNotIn("upgrade", run("replay", data=line.encode() + b"\n").err, line)

    def test_what_is_said_of_them_helps(self):
        """After it, the same command on what upgrade made of it says nothing."""
        for data in (content("timer.trace"), octets_of(content("timer.trace"))):
            self.assertIn("use 'egrynnol upgrade'", process("replay", data=data).err)
            self.assertEqual(process("replay", data=process("upgrade", data=data).out), (0, content("timer.out"), ""))


if __name__ == "__main__":
    unittest.main()
