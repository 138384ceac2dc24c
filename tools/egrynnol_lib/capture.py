"""A text trace from a capture, by the fields that tshark reads in it."""

import collections
import decimal
import errno
import os
import re
import shutil
import stat
import subprocess
import tempfile
import xml.etree.ElementTree as tree

from egrynnol_lib.streams import Failed, fit, opened
from egrynnol_lib.traces import SEGMENT, Bad, Record, context_of, text_of
from egrynnol_lib.words import Ends, Reading, count

APPLICATION_TRANSPORT = 120
RELEASES = {12: "REL", 18: "RSC"}  # message types after which nothing of the circuit's call goes on
GROUP_RESET = 23
MOST = 8            # contexts that a table can have
ROUND = 2 ** 32     # the clock runs round
HALF = 2 ** 31 - 1  # its longest step
GET = "apt-get install -y tshark"

# An ISUP message: parameters are the application transport ones, None for one that is cut; whole: whether none can be missing after them.
Message = collections.namedtuple("Message", "frame time circuit kind points parameters whole")


# ---- tshark ----

def command_for(chosen):
    """tshark on standard input. chosen: a display filter, or None."""
    return ["tshark", "-n", "-r", "-", "-T", "pdml", "-J", "mtp3 isup", "-Y", "isup && (%s)" % chosen if chosen else "isup"]


def packets(handle, chosen):
    """tshark's reading of an open capture, packet by packet."""
    if not shutil.which("tshark"):
        raise Failed("tshark is not there, and a capture is read by it: %s (as root)" % GET)
    with tempfile.TemporaryFile() as errors:
        with subprocess.Popen(command_for(chosen), stdin=handle, stdout=subprocess.PIPE, stderr=errors) as process:
            try:
                yield from packets_of(process.stdout)
                status = process.wait()
            finally:
                process.kill()
        if status:
            errors.seek(0)
            raise Bad("tshark: %s" % said(errors.read(4096), status))


def said(octets, status):
    """tshark's own words, without what it says to root."""
    lines = octets.decode("utf-8", "backslashreplace").split("\n")
    lines = [re.sub("^tshark: ", "", line.strip()) for line in lines if line.strip() and not line.startswith("Running as user")]
    return "; ".join(lines) or "it ended with status %d" % status


def packets_of(stream):
    """The packets of tshark's PDML."""
    try:
        root = None
        for event, element in tree.iterparse(stream, events=("start", "end")):
            root = element if root is None else root
            if event == "end" and element.tag == "packet":
                yield element
                root.clear()
    except tree.ParseError as error:
        # Nothing at all is what tshark prints where it cannot read the capture; its status tells.
        if root is not None:
            raise Bad("tshark printed what is not understood: %s" % error)


# ---- tshark's fields ----

def messages_of(packet):
    """The ISUP messages of a packet; Bad where tshark's fields are not as it prints them."""
    try:
        return list(read_messages(packet))
    except (AttributeError, KeyError, TypeError, ValueError) as error:
        raise Bad("tshark printed what is not understood: %s" % error)


def read_messages(packet):
    frame, time, points = 0, None, (None, None)
    ends = {proto.get("name") for proto in packet.iter("proto")} & {"_ws.short", "_ws.malformed"}
    for proto in packet.iter("proto"):
        fields = {field.get("name"): field.get("show") for field in proto.iter("field")}
        if proto.get("name") == "geninfo":
            frame, time = int(fields["num"]), seconds(proto.find("field[@name='timestamp']").get("value"))
        elif proto.get("name") == "mtp3":
            points = (fields.get("mtp3.opc"), fields.get("mtp3.dpc"))
        elif proto.get("name") == "isup" and "isup.cic" in fields:
            yield Message(frame, time, int(fields["isup.cic"]), int(fields["isup.message_type"]), points,
                          list(parameters_of(proto)), not ends or nothing_after(proto))


def seconds(text):
    if not re.match(r"-?[0-9]{1,12}(\.[0-9]{1,12})?\Z", text):
        raise ValueError("%r is no time" % text)
    return decimal.Decimal(text)


def parameters_of(proto):
    """The octets of each application transport parameter. The field around it has its type, its length and them."""
    for outer in proto.iter("field"):
        kinds = [field.get("show") for field in outer.findall("field") if field.get("name") == "isup.parameter_type"]
        if kinds == ["%d" % APPLICATION_TRANSPORT]:
            octets = bytes.fromhex(outer.get("value") or "")
            whole = len(octets) >= 2 and len(octets) == 2 + octets[1]
            yield octets[2:] if whole else None


def nothing_after(proto):
    """Whether the last parameter of a message that was not read to its end reaches up to the octet that ends them all."""
    reached = [int(field.get("pos")) + int(field.get("size")) for field in proto.findall("field")]
    return max(reached, default=0) + 1 >= int(proto.get("pos")) + int(proto.get("size"))


# ---- a trace of them ----

class ReadAs2000:
    """A registry in which every context is of 2000."""

    def kinds(self, _):
        return {2}

    def words(self, _):
        return ""


def is_padded(octets):
    """Whether the context is in two octets where one would do."""
    return len(octets) > 1 and octets[0] < 128 and octets[1] == 128


def addresses_fit(octets):
    """Whether what follows the fields of a parameter can be two addresses; True where the fields are bad anyway."""
    reading = Reading(octets)
    try:
        reading.context(ReadAs2000())
        reading.instruction()
        reading.sequence()
    except Ends:
        return True
    try:
        reading.rest({2})
    except Ends:
        return False
    return True


class Writer:
    """The lines of a trace from ISUP messages."""

    def __init__(self, name, messages, tick, timer):
        self.name, self.messages, self.tick, self.timer = name, messages, tick, timer
        self.clock, self.ticks = 0, 0
        self.segments = [(message, octets) for message in messages for octets in message.parameters]

    def lines(self):
        yield from self.head()
        yield from self.contexts()
        yield from self.circuits()
        yield ""
        yield "# T: a capture does not tell it; %d ticks are %s s here, and Q.765 has 10 to 18 s." % (self.timer, format(self.tick * self.timer, "f"))
        yield "open %d 0" % self.timer
        yield ""
        for message in self.messages:
            yield from self.message(message)

    def head(self):
        yield "# From the capture %s: %s." % (self.name, count(len(self.segments), "application transport parameter"))
        yield "# The association is the circuit code (CIC)."
        yield "# A tick is %s s; the clock is 0 at frame %d, which is %s s after 1970." % (self.tick, self.messages[0].frame, format(self.messages[0].time, "f"))
        yield "# Releases are the messages REL and RSC; one that is not in the capture is not here."
        resets = sum(1 for message in self.messages if message.kind == GROUP_RESET)
        if resets:
            yield "# %s (GRS) in the capture: add the releases of their circuits by hand." % count(resets, "group reset")

    def contexts(self):
        """The contexts met, the most frequent first where a table cannot have them all."""
        met = collections.Counter(context_of(octets) for _, octets in self.segments if octets is not None)
        listed = sorted((context for context in met if context), key=lambda context: (-met[context], context))
        yield ""
        yield "# Contexts: a capture does not tell whether one is of 1998 or of 2000. Look each of these up, and correct it here."
        for place, context in enumerate(listed):
            kind, why = self.kind_of(context)
            out = "" if place < MOST else "# over 8, left out: "
            yield "%scontext %d %-5d # %s, %s" % (out, kind, context, count(met[context], "parameter"), why)
        if met[0]:
            yield "# %s of context 0, which cannot be registered." % count(met[0], "parameter")
        padded = sum(1 for _, octets in self.segments if octets is not None and is_padded(octets))
        if padded:
            yield "# %s with a padded context, in two octets where one would do: refused by 23." % count(padded, "parameter")

    def kind_of(self, context):
        if context <= 3:
            return 1998, "taken as of 1998: it is 1 to 3"
        fit_all = all(addresses_fit(octets) for _, octets in self.segments if octets is not None and context_of(octets) == context)
        if fit_all:
            return 2000, "taken as of 2000: addresses can be read in all of them"
        return 1998, "taken as of 1998: addresses cannot be read in all of them"

    def circuits(self):
        """What one association mixes here."""
        ways = collections.defaultdict(set)
        for message, _ in self.segments:
            ways[message.circuit].add(message.points)
        for circuit in sorted(ways):
            pairs = {frozenset(points) for points in ways[circuit]}
            if len(pairs) > 1:
                yield "# Circuit %d is met between %d pairs of points, and all are one association here: take them apart by --filter." % (circuit, len(pairs))
            elif len(ways[circuit]) > 1:
                yield "# Circuit %d has segments both ways, and both are one association here: take them apart by --filter." % circuit

    def message(self, message):
        release = message.kind in RELEASES
        carried = any(octets is not None for octets in message.parameters)
        if carried or release:
            yield from self.time(message, carried)
        if not message.whole:
            yield "# frame %d is not read to its end: the capture has cut it, or tshark cannot read it; parameters may be missing" % message.frame
        for octets in message.parameters:
            if octets is None:
                yield "# frame %d: a parameter that the capture has cut, left out" % message.frame
            else:
                yield "%s    # frame %d" % (text_of(Record(SEGMENT, (self.clock, message.circuit), octets, b"")), message.frame)
        if release:
            yield "release %d    # frame %d, %s" % (message.circuit, message.frame, RELEASES[message.kind])

    def time(self, message, carried):
        """The clock's lines up to a message, in steps that are no steps back; the last step needs none where a segment carries it."""
        ticks = int((message.time - self.messages[0].time) / self.tick)
        gap = ticks - self.ticks
        if gap < 0:
            yield "# frame %d is %s earlier than one before it: the clock stays" % (message.frame, count(-gap, "tick"))
            return
        self.ticks = ticks
        if gap >= 2 * ROUND:
            gap = gap % ROUND + ROUND  # T is far below a round of the clock: one more or less is the same
        while gap:
            step = min(gap, HALF)
            gap -= step
            self.clock = (self.clock + step) % ROUND
            if gap or not carried:
                yield "clock %d" % self.clock


def trace_lines(name, messages, tick, timer):
    """The lines of a text trace; Bad where there is nothing to make one of."""
    messages = list(messages)
    if not any(message.parameters for message in messages):
        raise Bad("no application transport parameter is in it")
    return Writer(name, messages, tick, timer).lines()


def from_capture(path, chosen, tick, timer):
    """The same, from a file or standard input; tick: a decimal as text."""
    with opened(path) as raw:
        if stat.S_ISDIR(os.fstat(raw.handle).st_mode):
            raise OSError(errno.EISDIR, os.strerror(errno.EISDIR), path)
        try:
            messages = [message for packet in packets(raw.handle, chosen) for message in messages_of(packet)]
            return trace_lines(fit(raw.name), messages, decimal.Decimal(tick), timer)
        except Bad as error:
            raise Bad("%s: %s" % (fit(raw.name), error))
