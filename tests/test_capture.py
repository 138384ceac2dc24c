#!/usr/bin/env python3
"""egrynnol from-pcap: tshark's fields, as recorded in capture.pdml, to a trace; and the whole from a capture where tshark is installed.

    python3 tests/test_capture.py              tests/capture.pdml is what tshark 4.0.17 prints of the capture that is made here
    python3 tests/test_capture.py --record     makes capture.pdml anew
"""

import decimal
import io
import os
import random
import shutil
import struct
import subprocess
import sys
import tempfile
import unittest

sys.dont_write_bytecode = True

from running import HERE, TOOL, process, run
from egrynnol_lib import capture, traces

RECORDED = os.path.join(HERE, "capture.pdml")
APM, REL, RSC, GRS = 65, 12, 18, 23


# ---- the capture: ISUP over MTP3, as tools/peers writes it ----

def apm(*parameters):
    """An APM message, or the optional part of any other."""
    return b"".join(bytes([120, len(octets)]) + octets for octets in parameters) + b"\0"


def frame(time, circuit, kind, body, points=(1, 2), cut=0):
    """A packet with its header. cut: octets that were not captured."""
    packet = struct.pack("<BIH", 0x85, points[1] | points[0] << 14, circuit) + bytes([kind]) + body
    seconds, rest = divmod(time, 1)
    return struct.pack("<IIII", int(seconds), int(rest * 1000000), len(packet) - cut, len(packet)) + packet[:len(packet) - cut]


def hexed(text):
    return bytes.fromhex(text)


FRAMES = (
    frame(decimal.Decimal("100.25"), 9, APM, b"\1" + apm(hexed("83814185AA"))),
    frame(decimal.Decimal("100.2505"), 9, APM, b"\1" + apm(hexed("83800085BB"))),
    frame(decimal.Decimal("101"), 300, APM, b"\1" + apm(hexed("8480418502000700AA"), hexed("03808041"))),
    frame(decimal.Decimal("100.5"), 300, APM, b"\1" + apm(hexed("8480008502000700BB"))),
    frame(decimal.Decimal("102"), 9, APM, b"\1" + apm(hexed("8A8242870502")), points=(2, 1)),
    frame(decimal.Decimal("102"), 9, REL, hexed("02 00") + hexed("02 80 90")),
    frame(decimal.Decimal("103"), 77, RSC, b""),
    frame(decimal.Decimal("104"), 1, GRS, hexed("01 01 03")),
    frame(decimal.Decimal("105"), 9, APM, b"\1" + apm(hexed("83804186" + "CC" * 40)), cut=20),
    frame(decimal.Decimal("106"), 12, APM, b"\1" + apm(b"\x83")),
)


def pcap():
    return struct.pack("<IHHiIII", 0xA1B2C3D4, 2, 4, 0, 0, 65535, 141) + b"".join(FRAMES)


TRACE = """\
# From the capture T: 7 application transport parameters.
# The association is the circuit code (CIC).
# A tick is 0.001 s; the clock is 0 at frame 1, which is 100.250000000 s after 1970.
# Releases are the messages REL and RSC; one that is not in the capture is not here.
# 1 group reset (GRS) in the capture: add the releases of their circuits by hand.

# Contexts: a capture does not tell whether one is of 1998 or of 2000. Look each of these up, and correct it here.
context 1998 3     # 4 parameters, taken as of 1998: it is 1 to 3
context 2000 4     # 2 parameters, taken as of 2000: addresses can be read in all of them
context 1998 10    # 1 parameter, taken as of 1998: addresses cannot be read in all of them
# 1 parameter with a padded context, in two octets where one would do: refused by 23.
# Circuit 9 has segments both ways, and both are one association here: take them apart by --filter.

# T: a capture does not tell it; 15000 ticks are 15.000 s here, and Q.765 has 10 to 18 s.
open 15000 0

segment 0 9 83 81 41 85 AA    # frame 1
segment 0 9 83 80 00 85 BB    # frame 2
segment 750 300 84 80 41 85 02 00 07 00 AA    # frame 3
segment 750 300 03 80 80 41    # frame 3
# frame 4 is 500 ticks earlier than one before it: the clock stays
segment 750 300 84 80 00 85 02 00 07 00 BB    # frame 4
segment 1750 9 8A 82 42 87 05 02    # frame 5
release 9    # frame 6, REL
clock 2750
release 77    # frame 7, RSC
# frame 9 is not read to its end: the capture has cut it, or tshark cannot read it; parameters may be missing
segment 5750 12 83    # frame 10
"""


def lines_from(pdml, tick="0.001", timer=15000):
    messages = [message for packet in capture.packets_of(io.BytesIO(pdml)) for message in capture.messages_of(packet)]
    return list(capture.trace_lines("T", messages, decimal.Decimal(tick), timer))


def times(lines):
    """The times of a trace, one after the other, of segments and of the clock's lines."""
    return [int(line.split()[1]) for line in lines if line.startswith(("clock", "segment"))]


def recorded():
    with open(RECORDED, "rb") as file:
        return file.read()


class Recorded(unittest.TestCase):

    def test_the_trace(self):
        self.assertEqual("".join(line + "\n" for line in lines_from(recorded())), TRACE)

    def test_it_is_a_trace_that_is_opened(self):
        ran = run("replay", data=TRACE.encode())
        self.assertEqual(ran[::2], (0, ""))
        self.assertEqual(ran.out.split(b"\n")[0], b"open 0 0 0 0")
        self.assertEqual([line.split()[:2] for line in ran.out.decode().splitlines() if line.split()[1] != "0"], [["segment", "23"], ["segment", "5"]], "only the padded and the cut one are refused")

    def test_ticks_and_timer(self):
        lines = lines_from(recorded(), "1", 10)
        self.assertIn("open 10 0", lines)
        self.assertEqual(times(lines), [0, 0, 0, 0, 0, 1, 2, 5])
        self.assertEqual([line for line in lines if line.startswith("clock")], ["clock 2"])

    def test_long_pauses(self):
        """A step of 2^31 ticks or more is made in steps that are none; the clock runs round."""
        for days in (100000, 10 ** 7):
            later = recorded().replace(b'value="106.000000000"', b'value="%d.250000000"' % (100 + days * 86400))
            clocks = times(lines_from(later))
            self.assertLess(len(clocks), 14)
            self.assertEqual(clocks[-1], days * 86400000 % 2 ** 32)
            steps = [(after - before) % 2 ** 32 for before, after in zip(clocks, clocks[1:])]
            self.assertTrue(all(step < 2 ** 31 for step in steps) and sum(steps) >= 2 ** 32)
        later = recorded().replace(b'value="106.000000000"', b'value="5000100.250000000"')
        self.assertEqual([line.split("#")[0].rstrip() for line in lines_from(later)[-3:]],
                         ["clock %d" % ((2750 + 2 ** 31 - 1) % 2 ** 32), "clock %d" % ((2750 + 2 * (2 ** 31 - 1)) % 2 ** 32), "segment %d 12 83" % (5000000000 % 2 ** 32)])

    def test_times(self):
        """A segment has its own, and needs no line of the clock before it; a release has none, and gets one where time has passed since."""
        def message(frame, time, kind, *parameters):
            return capture.Message(frame, decimal.Decimal(time), 7, kind, ("1", "2"), list(parameters), True)

        whole = b"\x83\x80\xc0"
        for messages, lines in (([message(1, 0, APM, whole), message(2, 5, APM, whole, whole), message(3, 5, REL)], ["segment 0 7 83 80 C0", "segment 5 7 83 80 C0", "segment 5 7 83 80 C0", "release 7"]),
                                ([message(1, 0, APM, whole), message(2, 5, REL), message(3, 9, REL, whole)], ["segment 0 7 83 80 C0", "clock 5", "release 7", "segment 9 7 83 80 C0", "release 7"]),
                                ([message(1, 0, APM, whole), message(2, 5, APM, None), message(3, 4, APM, whole)], ["segment 0 7 83 80 C0", "segment 4 7 83 80 C0"]),
                                ([message(1, 0, APM, whole), message(2, 2 ** 32, APM, whole)], ["segment 0 7 83 80 C0", "clock 2147483647", "clock 4294967294", "segment 0 7 83 80 C0"]),
                                ([message(1, 0, APM, whole), message(2, 2 ** 31, REL)], ["segment 0 7 83 80 C0", "clock 2147483647", "clock 2147483648", "release 7"])):
            found = [line.split("#")[0].rstrip() for line in capture.trace_lines("T", messages, decimal.Decimal(1), 10)]
            self.assertEqual([line for line in found if line.startswith(("segment", "clock", "release"))], lines)

    def test_more_contexts_than_a_table_has(self):
        messages = [capture.Message(k, decimal.Decimal(0), 1, APM, ("1", "2"), [bytes([128 + k, 0x80, 0xC0])], True) for k in [*range(1, 12), 0, 11]]
        lines = list(capture.trace_lines("T", messages, decimal.Decimal(1), 10))
        listed = [line.split()[2] for line in lines if line.startswith("context")]
        self.assertEqual(listed, ["11", "1", "2", "3", "4", "5", "6", "7"])
        self.assertEqual(sum(1 for line in lines if line.startswith("# over 8, left out: context")), 3)
        self.assertIn("# 1 parameter of context 0, which cannot be registered.", lines)
        self.assertEqual(run("replay", data="\n".join(lines).encode()).out.split(b"\n")[0], b"open 0 0 0 0")

    def test_pairs_of_points(self):
        messages = [capture.Message(k, decimal.Decimal(0), 1, APM, points, [b"\x83\x80\xc0"], True) for k, points in enumerate([("1", "2"), ("3", "2")])]
        self.assertIn("# Circuit 1 is met between 2 pairs of points, and all are one association here: take them apart by --filter.",
                      list(capture.trace_lines("T", messages, decimal.Decimal(1), 10)))

    def test_what_tshark_does_not_read(self):
        """It gives a message up at what it takes for bad charging information (context 3): only a parameter after that can be missing."""
        packets = list(capture.packets_of(io.BytesIO(recorded())))
        found = [message for packet in packets[:2] for message in capture.messages_of(packet)]
        self.assertTrue(all(message.whole for message in found))
        self.assertIn(b"_ws.malformed", recorded())
        longer = recorded().replace(b'<proto name="isup" showname="ISDN User Part" size="12" pos="5">', b'<proto name="isup" showname="ISDN User Part" size="19" pos="5">')
        lines = lines_from(longer)
        self.assertIn("# frame 1 is not read to its end: the capture has cut it, or tshark cannot read it; parameters may be missing", lines)

    def test_nothing_in_it(self):
        with self.assertRaises(traces.Bad):
            lines_from(b"<pdml></pdml>")

    def test_a_parameter_that_is_cut(self):
        for old, new in ((b'value="780583814185aa"', b'value="780683814185aa"'), (b'value="780583814185aa"', b'value="78"')):
            self.assertIn(old, recorded())
            self.assertIn("# frame 1: a parameter that the capture has cut, left out", lines_from(recorded().replace(old, new)))

    def test_damaged_fields(self):
        """Whatever tshark prints: a trace, or Bad."""
        good = recorded()
        for old, new in ((b'show="120"', b'show="121"'), (b"isup.cic", b"isup.cik"), (b'name="isup.cic" showname="CIC: 9" size="2" pos="5" show="9"', b'name="isup.cic" show=""'),
                         (b'name="timestamp"', b'name="timestomp"'), (b'value="106.000000000"', b'value="nan"'), (b'value="106.000000000"', b'value=""'), (b'value="106.000000000"', b'value="1e99999999"'), (b"</pdml>", b""), (b"<packet>", b"<packet"), (b'value="7805', b'value="7806')):
            self.assertIn(old, good)
            try:
                self.assertTrue(lines_from(good.replace(old, new)))
            except traces.Bad:
                pass


    def test_damage_at_random(self):
        """Nothing but a trace or Bad, whatever octets are changed."""
        chance, seen = random.Random(765), set()
        for _ in range(120):
            octets = bytearray(recorded())
            for _ in range(chance.choice([1, 1, 3, 20])):
                at = chance.randrange(len(octets))
                octets[at:at + chance.choice([0, 1, 1, 30])] = bytes(chance.choice(b'"<>/ 09azAZ=\0\xff') for _ in range(chance.choice([0, 1, 2])))
            try:
                seen.add(bool(lines_from(bytes(octets))))
            except traces.Bad:
                seen.add(False)
        self.assertEqual(seen, {True, False})


class Whole(unittest.TestCase):

    def setUp(self):
        place = tempfile.TemporaryDirectory()
        self.addCleanup(place.cleanup)
        self.place, self.path = place.name, os.path.join(place.name, "T")
        with open(self.path, "wb") as file:
            file.write(pcap())

    def test_without_tshark(self):
        for name in ("sh", "dirname", "readlink", "python3"):
            os.symlink(shutil.which(name), os.path.join(self.place, name))
        ran = process("from-pcap", self.path, env=dict(os.environ, PATH=self.place))
        self.assertEqual(ran, (2, b"", "egrynnol: tshark is not there, and a capture is read by it: apt-get install -y tshark (as root)\n"))

    @unittest.skipUnless(shutil.which("tshark"), "no tshark here")
    def test_with_tshark(self):
        ran = process("from-pcap", "T", cwd=self.place)
        self.assertEqual((ran.status, ran.out.decode(), ran.err), (0, TRACE, ""))
        with open(self.path, "rb") as file:
            done = process("from-pcap", "-", data=file.read())
        self.assertEqual(done.out.decode().replace("standard input", "T"), TRACE)
        one = process("from-pcap", "T", "--filter", "mtp3.opc == 2", cwd=self.place)
        self.assertEqual([line.split()[0] for line in one.out.decode().splitlines() if line[:1] not in ("", "#")], ["context", "open", "segment"])

    @unittest.skipUnless(shutil.which("tshark"), "no tshark here")
    def test_a_pipe(self):
        done = subprocess.run(["bash", "-c", '"$0" from-pcap <(cat T)', TOOL], stdout=subprocess.PIPE, stderr=subprocess.PIPE, cwd=self.place)
        self.assertEqual((done.returncode, done.stdout.decode().split("\n")[1:], done.stderr), (0, TRACE.split("\n")[1:], b""))
        closed = subprocess.run(["bash", "-c", '"$0" from-pcap - <&-', TOOL], stdout=subprocess.PIPE, stderr=subprocess.PIPE)
        self.assertEqual((closed.returncode, closed.stderr), (2, b"standard input: Bad file descriptor\n"))

    @unittest.skipUnless(shutil.which("tshark"), "no tshark here")
    def test_damaged_captures(self):
        chance = random.Random(765)
        for _ in range(8):
            octets = bytearray(pcap())
            for _ in range(chance.choice([1, 5, 40])):
                octets[chance.randrange(len(octets))] = chance.randrange(256)
            with open(self.path, "wb") as file:
                file.write(octets[:chance.choice([len(octets), 100, 300])])
            ran = run("from-pcap", self.path)
            self.assertIn(ran.status, (0, 1))
            self.assertNotRegex(ran.err, "Traceback|fault of its own")
            self.assertEqual(ran.err.count("\n"), ran.status, ran.err)

    @unittest.skipUnless(shutil.which("tshark"), "no tshark here")
    def test_captures_that_are_none(self):
        for octets, status in ((b"", 1), (b"no capture at all", 1), (pcap()[:-3], 1), (pcap()[:24], 1)):
            with open(self.path, "wb") as file:
                file.write(octets)
            ran = process("from-pcap", self.path)
            self.assertEqual((ran.status, ran.out), (status, b""), octets[:20])
            self.assertEqual(ran.err.count("\n"), 1, ran.err)
        self.assertEqual(process("from-pcap", self.path, "--filter", "no (such").status, 1)


def record():
    with open(RECORDED, "wb") as out:
        subprocess.run(capture.command_for(None), input=pcap(), stdout=out, stderr=subprocess.DEVNULL, check=True)


if __name__ == "__main__":
    if sys.argv[1:] == ["--record"]:
        record()
    else:
        unittest.main()
