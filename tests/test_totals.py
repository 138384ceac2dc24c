#!/usr/bin/env python3
"""The totals program on traces whose whole output is known, beside what the lines of records add up to, and on garbage.

    python3 tests/test_totals.py            TOTALS and RECORDS are the programs; without them, those of target/bin
    python3 tests/test_totals.py Garbage    one class of tests; SEED and RUNS set the traces
"""

import os
import random
import re
import subprocess
import sys
import unittest

sys.dont_write_bytecode = True

from test_explain import Now, some_event, some_trace
from test_replay import PAPER, clock, context, damaged, expected_names, opening, release, segment

HERE = os.path.dirname(os.path.abspath(__file__))
TOTALS = os.environ.get("TOTALS", os.path.join(HERE, "..", "target", "bin", "totals"))
RECORDS = os.environ.get("RECORDS", os.path.join(HERE, "..", "target", "bin", "records"))
SEED = int(os.environ.get("SEED", "765"))
RUNS = int(os.environ.get("RUNS", "1000"))

LINE = re.compile(r"opening \d+ \d+|\d+( \d+){6}")


def printed(program, octets):
    done = subprocess.run([program], input=octets, stdout=subprocess.PIPE, stderr=subprocess.PIPE, timeout=60)
    assert done.returncode == 0, "exit status %d on %s" % (done.returncode, octets.hex())
    assert done.stderr == b"", "on standard error: %r" % done.stderr
    return done.stdout.decode("ascii")


class Cases(unittest.TestCase):
    def prints(self, octets, *lines):
        self.assertEqual(printed(TOTALS, octets), "".join(line + "\n" for line in lines))

    def from_open(self, octets, *lines):
        """Registry, T and clock of the paper's examples, then these records."""
        self.prints(PAPER + opening() + octets, "opening 1 0", *lines)

    def test_no_opening(self):
        self.prints(b"")
        self.prints(PAPER)
        self.prints(segment("8380C0AA") + clock(5) + release())
        self.prints(segment("8380C0AA") + b"\7", "stop")

    def test_an_opening_alone(self):
        self.from_open(b"")
        self.from_open(clock(5) + release() + segment("85"))
        self.prints(segment("8380C0") + clock(5) + PAPER + opening(), "opening 3 0")

    def test_refused_openings(self):
        self.prints(opening(0) + segment("8380C0AA") + opening(), "opening 1 12", "opening 3 0")
        self.prints(context(0) + opening() + opening(0), "opening 1 11", "opening 2 12")

    def test_what_is_taken(self):
        """Saved, in one piece, and lost at once; what is refused is not."""
        self.from_open(segment("8380C0AABB"), "9 1 2 1 2 0 0")
        self.from_open(segment("8380C0"), "9 1 0 1 0 0 0")
        self.from_open(segment("83804185AABB"), "9 1 2 0 0 0 0")
        self.from_open(segment("83800085AABB"), "9 1 2 0 0 1 2")
        self.from_open(segment("83804A85AABB"), "9 1 2 0 0 1 2")
        self.from_open(segment("8480C0020007010AAABBCC"), "9 1 3 1 3 0 0")
        bad = segment("8580C0AA") + segment("8380") + segment("83804085")
        self.from_open(bad)
        self.from_open(segment("8380C0AA") + bad, "9 1 1 1 1 0 0")

    def test_receiving_lines(self):
        first, last = segment("83814185AA"), segment("83800085BBBB")
        self.from_open(first + last, "9 2 3 2 3 0 0")
        self.from_open(first + segment("83804A85AA"), "9 2 2 0 0 2 2")
        self.from_open(first + first + last, "9 3 4 2 3 1 1")
        self.from_open(segment("83804285AA") + last, "9 2 3 0 0 2 3")
        self.from_open(first + clock(100), "9 1 1 0 0 1 1")
        self.from_open(first + release(), "9 1 1 0 0 1 1")
        self.from_open(first + release(8), "9 1 1 0 0 0 0")

    def test_joined_2048_and_2049(self):
        for size, row in ((2048, "9 10 2048 10 2048 0 0"), (2049, "9 10 2049 0 0 10 2049")):
            octets = b"".join(segment("8380%02X85" % (73 if k == 0 else 9 - k) + "AA" * 227) for k in range(9))
            self.from_open(octets + segment("83800085" + "BB" * (size - 9 * 227)), row)

    def test_rows_in_the_order_of_the_first_taken_segments(self):
        self.from_open(segment("85", 1) + segment("8380C0", 7) + segment("8380C0AA", 0) + segment("8380C0", 65535) + segment("8380C0BBCC", 7) + segment("8380C0", 1),
                       "7 2 2 2 2 0 0", "0 1 1 1 1 0 0", "65535 1 0 1 0 0 0", "1 1 0 1 0 0 0")

    def test_two_destinations_have_one_row(self):
        """What goes to both is delivered apart, and is one association's; a stray last segment is lost by itself."""
        to = ["8480%s850131" + "01%02X%s" % (destination, octets) for destination, octets in ((0x21, "AA"), (0x22, "BBBBBB"))]
        first, other_first, last, other_last = (segment(text % heading) for heading in ("41", "00") for text in to)
        self.from_open(first + other_first + last + other_last, "9 4 8 4 8 0 0")
        self.from_open(first + other_last + last, "9 3 5 2 2 1 3")
        self.from_open(first + other_first + release(), "9 2 4 0 0 2 4")

    def test_several_losses_in_one_call(self):
        octets = b"".join(segment("838041%02XAA" % (128 + k), 9 + k % 2) for k in range(16))
        self.from_open(octets + clock(100), "9 8 8 0 0 8 8", "10 8 8 0 0 8 8")
        self.from_open(octets + release(10), "9 8 8 0 0 0 0", "10 8 8 0 0 8 8")

    def test_an_arrival_and_what_it_times_out(self):
        """Each association has its own losses, and the segment its own count; a refused segment is not taken, and what was due is lost all the same."""
        first, late = segment("83814185AA") + segment("83814185AABB", 10), segment("83800085CCCC", time=100)
        self.from_open(first + late, "9 2 3 0 0 2 3", "10 1 2 0 0 1 2")
        self.from_open(first + segment("8380C0CCCC", 11, time=100), "9 1 1 0 0 1 1", "10 1 2 0 0 1 2", "11 1 2 1 2 0 0")
        self.from_open(first + segment("85", time=100), "9 1 1 0 0 1 1", "10 1 2 0 0 1 2")
        self.from_open(first + segment("85", time=99), "9 1 1 0 0 0 0", "10 1 2 0 0 0 0")
        self.from_open(first + segment("8380C0", time=2 ** 31), "9 1 1 0 0 0 0", "10 1 2 0 0 0 0")

    def test_each_opening_begins_anew(self):
        self.from_open(segment("83804185AA") + opening(50) + segment("83800085BB", 10) + opening(0) + segment("8380C0") + opening(),
                       "9 1 1 0 0 0 0", "opening 3 0", "10 1 1 0 0 1 1", "opening 5 12", "opening 7 0")

    def test_stop(self):
        self.from_open(segment("8380C0AA") + context(5) + segment("8380C0AA"), "9 1 1 1 1 0 0", "stop")
        self.from_open(segment("8380C0AA") + segment("8380C0AA")[:-1], "9 1 1 1 1 0 0", "stop")
        self.from_open(b"\0", "stop")

    def test_sixty_five_associations(self):
        many = b"".join(segment("8380C0AA", k) for k in range(65534, 65470, -1))
        rows, twice = (["%d %s 0 0" % (k, numbers) for k in range(65534, 65470, -1)] for numbers in ("1 1 1 1", "2 2 2 2"))
        self.from_open(many + segment("8380C0AA", 0) + segment("83804185AA", 0) + release(65534), *rows)
        self.from_open(many + many + segment("8380C0AA", 0), *twice)
        self.from_open(many + opening() + segment("8380C0AA", 0), *rows, "opening 66 0", "0 1 1 1 1 0 0")
        self.from_open((many + opening()) * 300, *(line for k in range(300) for line in (*rows, "opening %d 0" % (65 * (k + 1) + 1))))

    def test_long_traces(self):
        self.from_open((segment("83814185AA") + segment("83800085BB")) * 6000, "9 12000 12000 12000 12000 0 0")
        self.prints(PAPER + opening() * 60000, *("opening %d 0" % (k + 1) for k in range(60000)))


def added_up(lines):
    """What totals has to print, from the lines of records: taken is what is delivered, lost, dropped and held."""
    openings, stop = [], []
    for line in lines:
        name, *fields = line.split(" ")
        if name == "stop":
            stop = ["stop"]
        elif name == "open":
            before, rows = (openings[-1][1] if openings else {}), {}
            openings.append(("opening %s %s" % (fields[4], fields[0]), rows))
        elif name in ("delivered", "lost", "dropped", "held") and len(fields) == 9:
            association, segments, octets = fields[0], int(fields[5]), int(fields[6])
            row = (before if name == "dropped" else openings[-1][1]).setdefault(association, [0] * 6)
            for at in (0, 2 if name == "delivered" else 4) if name in ("delivered", "lost") else (0,):
                row[at] += segments
                row[at + 1] += octets
    return [sorted([heading] + ["%s %s" % (association, " ".join(map(str, row))) for association, row in rows.items()]) for heading, rows in openings], stop


def by_opening(lines):
    """The same of the lines of totals, the rows in no order."""
    stop = lines[-1:] == ["stop"]
    found = []
    for line in lines[:-1] if stop else lines:
        if line.startswith("opening "):
            found.append([])
        found[-1].append(line)
    return [sorted(part) for part in found], ["stop"] * stop


class Agrees(unittest.TestCase):
    """Two programs, two ways: the rows are what the records cover."""

    def holds(self, octets):
        lines = printed(TOTALS, octets).splitlines()
        self.assertEqual(by_opening(lines), added_up(printed(RECORDS, octets).splitlines()), octets.hex())
        return lines

    def test_generated_traces(self):
        chance, met = random.Random(SEED), set()
        for _ in range(RUNS):
            octets, now = some_trace(chance), Now()
            lines = self.holds(octets + b"".join(some_event(chance, now) for _ in range(chance.randrange(20))))
            met |= {re.sub(r"\d+ (\d+)\Z", r"N \1", line) for line in lines if line.startswith("opening")} | {"stop"} & set(lines)
            met |= {"full"} if len(lines) > 64 else set()
        self.assertLessEqual({"opening N 0", "opening N 11", "opening N 12", "stop", "full"}, met)

    def test_damaged_traces(self):
        chance = random.Random(SEED + 1)
        for _ in range(RUNS):
            self.holds(damaged(chance))


class Garbage(unittest.TestCase):
    def holds(self, octets):
        names, lines = expected_names(octets), printed(TOTALS, octets).splitlines()
        stop = names[-1:] == ["stop"]
        self.assertEqual(lines[-1:] == ["stop"], stop, octets.hex())
        lines = lines[:-1] if stop else lines
        self.assertEqual([line.split(" ")[1] for line in lines if line.startswith("opening")], [str(at) for at, name in enumerate(names, 1) if name == "open"])
        for line in lines:
            self.assertTrue(LINE.fullmatch(line), line)

    def test_random_octets(self):
        chance = random.Random(SEED + 2)
        for _ in range(RUNS):
            self.holds(bytes(chance.choice([32, chance.randrange(256)]) for _ in range(chance.randrange(40))))

    def test_damaged_traces(self):
        chance = random.Random(SEED + 3)
        for _ in range(RUNS):
            self.holds(damaged(chance))


if __name__ == "__main__":
    for command in (TOTALS, RECORDS):
        if not os.access(command, os.X_OK):
            sys.exit("tests/test_totals.py: no program at %s: build it, or set TOTALS and RECORDS" % command)
    unittest.main()
