#!/usr/bin/env python3
"""The replay program on traces whose whole output is known, and on garbage.

    python3 tests/test_replay.py            REPLAY is the program; without it, target/bin/replay
    python3 tests/test_replay.py Garbage    one class of tests; SEED and RUNS set the garbage
"""

import os
import random
import re
import subprocess
import sys
import unittest

HERE = os.path.dirname(os.path.abspath(__file__))
REPLAY = os.environ.get("REPLAY", os.path.join(HERE, "..", "target", "bin", "replay"))
SEED = int(os.environ.get("SEED", "765"))
RUNS = int(os.environ.get("RUNS", "4000"))

BODY = {1: 2, 2: 2, 32: 8, 33: 262, 34: 4, 35: 2}
NAME = {32: "open", 33: "segment", 34: "clock", 35: "release"}
# Refusals 5 to 9 and 23 have the position of an octet, and no other answer to a segment has one. Beside these and 21 there can be losses by the clock; beside 10, none was due.
LINE = re.compile(r"open \d+ 0 0 0|(?:clock|release) (?:0 \d+ 0 \d+|[1-9]\d* 0 0 0)"
                  r"|segment (?:(?:[5-9]|23) \d+ 0 \d+ \d+|21 \d+ 0 \d+ -|0 \d+ \d+ \d+ -|(?!(?:0|[5-9]|21|23) )\d+ 0 0 0 -)")


def replay(octets):
    done = subprocess.run([REPLAY], input=octets, stdout=subprocess.PIPE, stderr=subprocess.PIPE, timeout=60)
    assert done.returncode == 0, "exit status %d on %s" % (done.returncode, octets.hex())
    assert done.stderr == b"", "on standard error: %r" % done.stderr
    return done.stdout.decode("ascii")


def context(number, kind=1):
    return bytes([kind]) + number.to_bytes(2, "big")


def opening(timer=100, clock=0):
    return bytes([32]) + timer.to_bytes(4, "big") + clock.to_bytes(4, "big")


def segment(text, association=9, past=b"", time=0):
    octets = bytes.fromhex(text)
    return bytes([33]) + time.to_bytes(4, "big") + association.to_bytes(2, "big") + bytes([len(octets)]) + (octets + past).ljust(255, b"\0")


def clock(time):
    return bytes([34]) + time.to_bytes(4, "big")


def release(association=9):
    return bytes([35]) + association.to_bytes(2, "big")


PAPER = context(3) + context(4, 2)


class Cases(unittest.TestCase):
    def prints(self, octets, *lines):
        self.assertEqual(replay(octets), "".join(line + "\n" for line in lines))

    def from_open(self, octets, *lines):
        """Registry, T and clock of the paper's examples, then these records."""
        self.prints(PAPER + opening() + octets, "open 0 0 0 0", *lines)

    def test_the_papers_own(self):
        self.prints(context(3) + opening() + segment("83814185AA") + segment("83800085BB") + release(),
                    "open 0 0 0 0", "segment 0 0 0 0 -", "segment 0 1 2 0 -", "release 0 0 0 0")

    def test_empty_input(self):
        self.prints(b"")

    def test_registry_alone_prints_nothing(self):
        self.prints(PAPER)

    def test_events_before_open(self):
        self.prints(segment("8380C0") + clock(5) + release() + context(3) + opening() + segment("8380C0AA"),
                    "segment 1 0 0 0 -", "clock 1 0 0 0", "release 1 0 0 0", "open 0 0 0 0", "segment 0 1 1 0 -")

    def test_refusals_of_reading(self):
        """The number, and the position of the octet at fault."""
        for text, number, position in (
                ("", 5, 0), ("83", 5, 1), ("8380", 5, 2), ("838040", 5, 3), ("848041", 5, 3), ("8480418502AA", 5, 6), ("05", 5, 1),
                ("8300", 6, 1), ("0505", 6, 1), ("83804005", 6, 3),
                ("83804085", 7, 2), ("8380C1", 7, 2), ("838080", 7, 2), ("8480408515", 7, 2), ("8480C1", 7, 2),
                ("85", 8, 0), ("0581", 8, 1), ("80", 8, 0), ("0081", 8, 1),
                ("038080C0AA", 23, 1), ("0580", 23, 1), ("0080", 23, 1), ("7F80", 23, 1), ("0300", 6, 1), ("03", 5, 1),
                ("8480418515", 9, 4), ("848041850015", 9, 5), ("8480C015", 9, 3), ("8480C0010715", 9, 5)):
            with self.subTest(text):
                self.from_open(segment(text), "segment %d 0 0 0 %d" % (number, position))

    def test_where_a_parameter_is_cut(self):
        """5 has the parameter's length, also inside an address; of the longest fields each length but the whole one."""
        for whole in ("0081" + "80" + "4185" + "14" + "AA" * 20 + "14" + "BB" * 20, "84" + "80" + "C0" + "14" + "AA" * 20 + "14" + "BB" * 20):
            octets = b"".join(segment(whole[:2 * length]) for length in range(len(whole) // 2))
            lines = ["segment 5 0 0 0 %d" % length for length in range(len(whole) // 2)]
            self.prints(context(4, 2) + context(128, 2) + opening() + octets, "open 0 0 0 0", *lines)

    def test_positions_behind_a_context_in_two_octets(self):
        for text, number, position in (("0081", 5, 2), ("008100", 6, 2), ("00818041", 5, 4), ("0081804105", 6, 4), ("0081804085", 7, 3), ("00818080", 7, 3), ("008180C015", 9, 4),
                                       ("0081804185" + "14" + "00" * 20 + "15", 9, 26), ("0081" + "80C0" + "00" + "FF", 9, 5)):
            with self.subTest(text):
                self.prints(context(128, 2) + opening() + segment(text), "open 0 0 0 0", "segment %d 0 0 0 %d" % (number, position))

    def test_octets_past_the_length_are_not_the_missing_ones(self):
        self.from_open(segment("83", past=b"\x80\xc0\xaa") + segment("8480C002AA", past=b"\xaa\0"), "segment 5 0 0 0 1", "segment 5 0 0 0 5")

    def test_contexts_in_two_octets(self):
        """128 is not padded, and is good where it is registered; the same octets with a zero upper part are 23 though context 0 never is."""
        self.prints(context(128) + context(16383) + context(127) + opening() + segment("008180C0AA") + segment("7FFF80C0") + segment("FF80C0") + segment("7F8080C0") + segment("008080C0AA"),
                    "open 0 0 0 0", "segment 0 1 1 0 -", "segment 0 1 0 0 -", "segment 0 1 0 0 -", "segment 23 0 0 0 1", "segment 23 0 0 0 1")

    def test_refusals_of_opening(self):
        good = context(3)
        for registry, timer, number in ((good, 0, 12), (good, 1000001, 12), (good, 1000000, 0), (good, 1, 0), (b"", 100, 0),
                                        (context(0), 100, 11), (context(16384), 100, 11), (context(16383), 100, 0),
                                        (good + context(3, 2), 100, 11), (good + good, 0, 12)):
            with self.subTest(registry=registry.hex(), timer=timer):
                self.prints(registry + opening(timer), "open %d 0 0 0" % number)

    def test_nine_registry_records(self):
        nine = b"".join(context(number) for number in range(1, 10))
        self.prints(nine + opening() + opening(0) + segment("8180C0"), "open 11 0 0 0", "open 12 0 0 0", "segment 1 0 0 0 -")
        self.prints(nine[:24] + opening() + segment("8880C0"), "open 0 0 0 0", "segment 0 1 0 0 -")
        self.prints(nine * 40 + opening(), "open 11 0 0 0")

    def test_no_registry_record(self):
        self.prints(opening() + segment("8380C0"), "open 0 0 0 0", "segment 8 0 0 0 0")

    def test_registry_after_open(self):
        self.from_open(context(5) + release(), "stop")
        self.prints(context(3) + opening(0) + context(5), "open 12 0 0 0", "stop")

    def test_records_of_a_report_are_no_events(self):
        """Kinds 16 to 19, as long as they were or are, before an open and after it."""
        for kind in (16, 17, 18, 19):
            for length in (31, 52):
                with self.subTest(kind, length=length):
                    self.from_open(bytes([kind]) + bytes(length) + release(), "stop")
                    self.prints(context(3) + bytes([kind]) + bytes(length) + opening(), "stop")

    def test_unknown_kinds(self):
        for kind in [0, *range(3, 32), *range(36, 256)]:
            with self.subTest(kind):
                self.from_open(bytes([kind]) + bytes(300), "stop")
        self.prints(b"\0", "stop")

    def test_input_that_ends_inside_a_record(self):
        for kind, length in BODY.items():
            for there in (0, 1, length - 1):
                with self.subTest(kind=kind, there=there):
                    self.from_open(bytes([kind]) + bytes(there), "stop")

    def test_refused_open_after_a_good_one(self):
        self.from_open(segment("83804185AA") + opening(0) + segment("83800085BB") + opening() + segment("83800085BB"),
                       "segment 0 0 0 0 -", "open 12 0 0 0", "segment 1 0 0 0 -", "open 0 0 0 0", "segment 0 1 0 1 -")

    def test_receiving_lines(self):
        first, last = segment("83814185AA"), segment("83800085BB")
        self.from_open(segment("8380C0AABB"), "segment 0 1 2 0 -")                                    # unsegmented
        self.from_open(segment("83804A85AA"), "segment 0 1 0 1 -")                                    # line 1, none open
        self.from_open(first + segment("83804A85AA"), "segment 0 0 0 0 -", "segment 0 1 0 2 -")         # line 1, open
        self.from_open(first + first + last, "segment 0 0 0 0 -", "segment 0 1 0 1 -", "segment 0 1 2 0 -")  # line 2
        self.from_open(segment("83804985"), "segment 0 0 0 0 -")                                      # line 3
        self.from_open(last, "segment 0 1 0 1 -")                                                     # line 4
        self.from_open(segment("83804285AA") + last, "segment 0 0 0 0 -", "segment 0 1 0 2 -")          # line 5
        self.from_open(first + last, "segment 0 0 0 0 -", "segment 0 1 2 0 -")                          # line 7

    def test_joined_2048_and_2049(self):
        for size, line in ((2048, "segment 0 1 2048 0 -"), (2049, "segment 0 1 0 2049 -")):
            octets, lines = b"", []
            for k in range(9):
                octets += segment("8380%02X85" % (73 if k == 0 else 9 - k) + "AA" * 227)
                lines.append("segment 0 0 0 0 -")
            octets += segment("83800085" + "BB" * (size - 9 * 227))
            self.from_open(octets, *lines, line)

    def test_timer(self):
        self.from_open(segment("83804185AA") + clock(99) + clock(100) + clock(100),
                       "segment 0 0 0 0 -", "clock 0 0 0 0", "clock 0 1 0 1", "clock 0 0 0 0")
        self.prints(context(3) + opening(11, 4294967290) + segment("83804185AA", time=4294967290) + clock(4) + clock(5) + clock(4),
                    "open 0 0 0 0", "segment 0 0 0 0 -", "clock 0 0 0 0", "clock 0 1 0 1", "clock 13 0 0 0")
        self.prints(context(3) + opening(100, 4294967290) + clock(5) + clock(4),
                    "open 0 0 0 0", "clock 0 0 0 0", "clock 13 0 0 0")
        self.from_open(clock(2 ** 31 - 1) + clock(2 ** 32 - 1) + clock(0),
                       "clock 0 0 0 0", "clock 13 0 0 0", "clock 13 0 0 0")

    def test_seventeen_sequences(self):
        octets = b"".join(segment("838041%02XAA" % (128 + k)) for k in range(17))
        lines = ["segment 0 0 0 0 -"] * 16 + ["segment 10 0 0 0 -"]
        self.from_open(octets + clock(100) + segment("83804190AA", time=100), *lines, "clock 0 16 0 16", "segment 0 0 0 0 -")
        self.from_open(octets + release(8) + release(9), *lines, "release 0 0 0 0", "release 0 16 0 16")

    def test_sixty_five_associations(self):
        """Who has no row is refused by 21, whatever the segment is: after what reading refuses, and after 10."""
        many = b"".join(segment("8380C0AA", k) for k in range(65534, 65470, -1))
        lines = ["segment 0 1 1 0 -"] * 64
        self.from_open(many + segment("8380C0AA", 0), *lines, "segment 21 0 0 0 -")
        self.from_open(many + segment("83804185AA", 0) + segment("83800085AA", 0) + segment("83804A85AA", 0) + segment("8580C0AA", 0) + segment("8380", 0),
                       *lines, *["segment 21 0 0 0 -"] * 3, "segment 8 0 0 0 0", "segment 5 0 0 0 2")
        self.from_open(many + segment("83804185AA", 65500) + release(65500) + release(0) + segment("8380C0AA", 0) + segment("8380C0AA", 65500),
                       *lines, "segment 0 0 0 0 -", "release 0 1 0 1", "release 0 0 0 0", "segment 21 0 0 0 -", "segment 0 1 1 0 -")
        full = b"".join(segment("838041%02XAA" % (128 + k), 65534) for k in range(16))
        self.from_open(many + full + segment("83804185AA", 0) + segment("8380C0AA", 0), *lines, *["segment 0 0 0 0 -"] * 16, "segment 10 0 0 0 -", "segment 21 0 0 0 -")
        for timer, number in ((100, 0), (0, 12)):
            self.from_open(many + opening(timer) + opening() + segment("8380C0AA", 0), *lines, "open %d 0 0 0" % number, "open 0 0 0 0", "segment 0 1 1 0 -")

    FIRST, LAST = "83814185AA", "83800085BBBB"

    def test_the_time_of_a_segment(self):
        """It is the clock's from there on: a step of 0 is good, one back is 13, be the next one a segment or a clock; and 13 changes nothing."""
        self.from_open(segment("8380C0AA", time=7) + clock(7) + segment("8380C0AA", time=7) + clock(6) + segment("8380C0AA", time=6) + segment("8380C0AA", time=7),
                       "segment 0 1 1 0 -", "clock 0 0 0 0", "segment 0 1 1 0 -", "clock 13 0 0 0", "segment 13 0 0 0 -", "segment 0 1 1 0 -")
        self.from_open(segment("8380C0AA", time=2 ** 31) + segment("8380C0AA", time=2 ** 31 - 1) + clock(2 ** 31), "segment 13 0 0 0 -", "segment 0 1 1 0 -", "clock 0 0 0 0")
        self.prints(context(3) + opening(100, 4294967290) + segment(self.FIRST, time=4294967295) + segment(self.LAST, time=98), "open 0 0 0 0", "segment 0 0 0 0 -", "segment 0 1 3 0 -")
        self.prints(segment("8380C0AA", time=5) + context(3) + opening(), "segment 1 0 0 0 -", "open 0 0 0 0")

    def test_a_segment_that_times_its_own_sequence_out(self):
        """A tick before T it is joined. From T on the sequence is lost, and then a subsequent one too; a first one begins anew, and one in one piece is delivered."""
        first = segment(self.FIRST)
        self.from_open(first + segment(self.LAST, time=99), "segment 0 0 0 0 -", "segment 0 1 3 0 -")
        for time in (100, 101, 2 ** 31 - 1):
            with self.subTest(time):
                self.from_open(first + segment(self.LAST, time=time), "segment 0 0 0 0 -", "segment 0 2 0 3 -")
                self.from_open(first + segment(self.FIRST, time=time) + segment(self.LAST, time=time + 99), "segment 0 0 0 0 -", "segment 0 1 0 1 -", "segment 0 1 3 0 -")
                self.from_open(first + segment("83804A85AABB", time=time), "segment 0 0 0 0 -", "segment 0 2 0 3 -")
                self.from_open(first + segment("8380C0AABB", time=time) + segment(self.LAST, time=time), "segment 0 0 0 0 -", "segment 0 2 2 1 -", "segment 0 1 0 2 -")

    def test_the_timer_of_a_sequence_runs_from_its_first_segment(self):
        octets = segment("83804285AA", time=30) + segment("83800185BB", time=129)
        self.from_open(octets + segment("83800085CC", time=129), "segment 0 0 0 0 -", "segment 0 0 0 0 -", "segment 0 1 3 0 -")
        self.from_open(octets + segment("83800085CC", time=130), "segment 0 0 0 0 -", "segment 0 0 0 0 -", "segment 0 2 0 3 -")

    def test_a_refused_segment_with_losses_beside_it(self):
        """5 to 9, 23 and 21: the clock's work stands. What was lost stays so, and the time is set."""
        many = b"".join(segment("8380C0AA", 100 + k) for k in range(63))
        for text, association, line in (("83", 9, "5 %s 1"), ("8300", 9, "6 %s 1"), ("8380C1", 9, "7 %s 2"), ("85", 9, "8 %s 0"), ("8480C015", 9, "9 %s 3"), ("0380", 9, "23 %s 1"), ("8380C0AA", 8, "21 %s -")):
            with self.subTest(text):
                self.from_open(segment(self.FIRST) + many + segment(text, association, time=100) + clock(99) + segment(self.LAST, time=100),
                               "segment 0 0 0 0 -", *["segment 0 1 1 0 -"] * 63, "segment " + line % "1 0 1", "clock 13 0 0 0", "segment 0 1 0 2 -")
                self.from_open(segment(self.FIRST) + many + segment(text, association, time=99) + segment(self.LAST, time=99),
                               "segment 0 0 0 0 -", *["segment 0 1 1 0 -"] * 63, "segment " + line % "0 0 0", "segment 0 1 3 0 -")

    def test_13_before_what_is_wrong_with_the_parameter(self):
        for text in ("", "8300", "85", "0380"):
            self.from_open(segment(text, time=2 ** 31), "segment 13 0 0 0 -")

    def test_a_full_table_that_an_arrival_empties(self):
        """10 a tick too early, and that leaves its time; then sixteen are lost and one place is taken, the first, with the arrival's time as its start."""
        octets = b"".join(segment("838041%02XAA" % (128 + k)) for k in range(16))
        lines = ["segment 0 0 0 0 -"] * 16
        self.from_open(octets + segment("83804190F0", time=99) + clock(98) + segment("83804190F0", time=100) + clock(199) + segment("83800090F1F2", time=199),
                       *lines, "segment 10 0 0 0 -", "clock 13 0 0 0", "segment 0 16 0 16 -", "clock 0 0 0 0", "segment 0 1 3 0 -")
        self.from_open(octets + segment("83804190F0", time=100) + clock(200), *lines, "segment 0 16 0 16 -", "clock 0 1 0 1")
        self.from_open(octets + segment("8380C0F0F1", time=100) + release(), *lines, "segment 0 17 2 16 -", "release 0 0 0 0")

    def test_losses_of_others(self):
        """An arrival's time is everybody's: what is due of another association is lost too, and counted in this line."""
        self.from_open(segment(self.FIRST, 7) + segment(self.FIRST, 8, time=50) + segment("8380C0AABB", time=120) + segment(self.LAST, 8, time=149),
                       "segment 0 0 0 0 -", "segment 0 0 0 0 -", "segment 0 2 2 1 -", "segment 0 1 3 0 -")

    def test_origins_apart(self):
        self.from_open(segment("8480418502000700AA") + segment("848041850107" + "00BB") + segment("8480008502000700CC") + segment("848000850107" + "00DDEE"),
                       "segment 0 0 0 0 -", "segment 0 0 0 0 -", "segment 0 1 2 0 -", "segment 0 1 3 0 -")

    def test_destinations_apart(self):
        """One origin, one reference: 21 and 22; 00 07 and 07; 07 and 07 00; and none beside 00."""
        for one, other in (("0121", "0122"), ("020007", "0107"), ("0107", "020700"), ("00", "0100")):
            with self.subTest(one, other=other):
                first, last, other_first, other_last = (segment("8480%s850131%s%s" % (heading, to, octets)) for to, heading, octets in
                                                        ((one, "41", "AA"), (one, "00", "CC"), (other, "41", "BBBB"), (other, "00", "DDDD")))
                self.from_open(first + other_first + last + other_last, "segment 0 0 0 0 -", "segment 0 0 0 0 -", "segment 0 1 2 0 -", "segment 0 1 4 0 -")
                self.from_open(first + other_first + other_last + last, "segment 0 0 0 0 -", "segment 0 0 0 0 -", "segment 0 1 4 0 -", "segment 0 1 2 0 -")
                self.from_open(first + other_last + last, "segment 0 0 0 0 -", "segment 0 1 0 2 -", "segment 0 1 2 0 -")               # line 4, and the other stays open
                self.from_open(first + segment("84804A850131%sEE" % other) + last, "segment 0 0 0 0 -", "segment 0 1 0 1 -", "segment 0 1 2 0 -")  # line 1, of itself alone
                self.from_open(first + other_first + first + last + release(), "segment 0 0 0 0 -", "segment 0 0 0 0 -", "segment 0 1 0 1 -", "segment 0 1 2 0 -", "release 0 1 0 2")

    def test_seventeen_destinations(self):
        """Each has a place of its own, and there are 16."""
        octets = b"".join(segment("848041850131%02X%sAA" % (k, "07" * k)) for k in range(17))
        self.from_open(octets + clock(100), *["segment 0 0 0 0 -"] * 16, "segment 10 0 0 0 -", "clock 0 16 0 16")

    def test_octets_past_the_length_do_not_count(self):
        self.from_open(segment("8380C0AA", past=b"\xbb" * 200), "segment 0 1 1 0 -")

    def test_longer_than_any_block(self):
        once = segment("83814185AA") + segment("83800085BB") + release()
        self.from_open(once * 3000, *["segment 0 0 0 0 -", "segment 0 1 2 0 -", "release 0 0 0 0"] * 3000)

    def test_more_lines_than_any_block(self):
        self.from_open(release() * 60000, *["release 0 0 0 0"] * 60000)


def expected_names(octets):
    """The names that the lines begin with, from the records' kinds and lengths alone."""
    names, at, begun = [], 0, False
    while at < len(octets):
        kind = octets[at]
        end = at + 1 + BODY.get(kind, 0)
        if kind not in BODY or end > len(octets) or (kind < 32 and begun):
            return names + ["stop"]
        if kind >= 32:
            names.append(NAME[kind])
        begun = begun or kind == 32
        at = end
    return names


def some_record(chance):
    kind = chance.choice([1, 2, 32, 33, 33, 33, 33, 34, 35])
    if kind < 3:
        return context(chance.choice([3, 4, 5, 0, 20000]), kind)
    if kind == 32:
        return opening(chance.choice([100, 100, 1, 0]), chance.choice([0, 4294967290]))
    if kind == 34:
        return clock(chance.choice([0, 5, 99, 100, 101, 4294967290, chance.randrange(2 ** 32)]))
    if kind == 35:
        return release(chance.choice([9, 10]))
    head = chance.choice(["8380", "8481", "0380", "83"]) + "%02X%02X" % (chance.randrange(256), 128 + chance.randrange(4))
    time = chance.choice([0, 0, 0, 5, 50, 99, 100, 101, 4294967290, chance.randrange(2 ** 32)])
    return segment(head + bytes(chance.randrange(256) for _ in range(chance.randrange(30))).hex(), chance.choice([9, 10]), time=time)


def damaged(chance):
    octets = bytearray(b"".join(some_record(chance) for _ in range(chance.randrange(1, 12))))
    for _ in range(chance.randrange(3)):
        octets[chance.randrange(len(octets))] = chance.randrange(256)
    return bytes(octets[:chance.randrange(len(octets) + 1)] if chance.random() < 0.3 else octets)


class Garbage(unittest.TestCase):
    def holds(self, octets):
        lines = replay(octets).splitlines()
        self.assertEqual([line.split(" ")[0] for line in lines], expected_names(octets), octets.hex())
        for line in lines:
            self.assertTrue(line == "stop" or LINE.fullmatch(line), line)

    def test_what_a_line_looks_like(self):
        for line, good in (("segment 6 0 0 0 1", True), ("segment 0 1 5 0 -", True), ("segment 10 0 0 0 -", True), ("clock 13 0 0 0", True), ("segment 5 0 0 0", False), ("segment 6 0 0 0 -", False),
                           ("segment 10 0 0 0 1", False), ("segment 0 1 5 0 3", False), ("segment 1 0 0 0", False), ("open 0 0 0 0 -", False), ("segment 23 0 0 0 -", False),
                           ("segment 6 1 0 3 1", True), ("segment 21 2 0 3 -", True), ("segment 6 1 2 3 1", False), ("segment 10 1 0 1 -", False), ("segment 13 1 0 1 -", False),
                           ("segment 1 1 0 1 -", False), ("clock 13 1 0 1", False), ("clock 0 1 1 0", False)):
            self.assertEqual(bool(LINE.fullmatch(line)), good, line)

    def test_random_octets(self):
        chance = random.Random(SEED)
        for _ in range(RUNS // 4):
            self.holds(bytes(chance.randrange(256) for _ in range(chance.randrange(40))))

    def test_damaged_traces(self):
        chance = random.Random(SEED + 1)
        for _ in range(RUNS - RUNS // 4):
            self.holds(damaged(chance))


if __name__ == "__main__":
    if not os.access(REPLAY, os.X_OK):
        sys.exit("tests/test_replay.py: no replay program at %s: build it, or set REPLAY" % REPLAY)
    unittest.main()
