"""The command line: a subcommand is an entry of COMMANDS and a function."""

import argparse
import collections
import contextlib
import io
import os
import re
import shlex
import signal

from egrynnol_lib import VERSION, programs, streams, totals as of_totals
from egrynnol_lib.rows import Beside, csv_head, csv_line, csv_of, json_of
from egrynnol_lib.streams import Failed, NotWritten, Trace, fit, is_text, opened, output, report, trace
from egrynnol_lib.traces import BEFORE, BLOCK, Bad, blocks_of, octets_of_record, parsed, records_of_text, text_of
from egrynnol_lib.upgrade import octets_upgraded, text_upgraded
from egrynnol_lib.words import Teller

GOOD, BAD, FAILED, STOPPED, USAGE = 0, 1, 2, 3, 64
WORST = (GOOD, STOPPED, BAD, FAILED)  # of several files the worst one counts

OLDER = "these octets are a trace of before version 4, whose segments have no time, and are read wrongly: use 'egrynnol upgrade'"


class Misused(Exception):
    """The command line is wrong; the text says how."""


# ---- the subcommands: each is given its options and its output, and answers a status ----

def each_trace(options, out, work, headed=True):
    """Does the work on the trace of each file; one that is bad does not keep the others from theirs."""
    status = GOOD
    for path in options.files or ["-"]:
        try:
            with trace(path, options.kind) as it:
                if headed and len(options.files) > 1 and not getattr(options, "table", None):
                    out.write(("# %s\n" % it.name).encode("utf-8", "backslashreplace"))
                now = work(it, out)
                if it.is_older():
                    report("%s: note: %s" % (it.name, OLDER))
        except Bad as error:
            now = told_bad(error)
        except Failed as error:
            now = told_failure("egrynnol: %s" % error)
        except BrokenPipeError:
            raise
        except OSError as error:
            if error.filename == out.name:
                raise
            now = told_failure("%s: %s" % (error.filename or "a temporary file", error.strerror or error))
        out.flush()
        status = max(status, now, key=WORST.index)
    return status


def told_bad(error):
    if str(error):
        report(str(error))
    return BAD


def told_failure(text):
    report(text)
    return FAILED


def passed_on(program):
    """Work that hands a program's lines on as they are."""
    def work(it, out):
        end = b""
        with contextlib.closing(programs.printed(program, blocks_of(it.stream))) as blocks:
            for block in blocks:
                out.write(block)
                out.flush()
                end = (end + block)[-6:]
        return STOPPED if end in (b"stop\n", b"\nstop\n") else GOOD
    return work


def replay(options, out):
    return each_trace(options, out, passed_on("replay"))


def records(options, out):
    if options.table == "csv":
        out.write(csv_head().encode("ascii"))
    if options.table is None:
        return each_trace(options, out, passed_on("records"))
    return each_trace(options, out, table_of(csv_of if options.table == "csv" else json_of))


def totals(options, out):
    if options.table is None:
        return each_trace(options, out, passed_on("totals"))
    if len(options.files) > 1:
        raise Misused("egrynnol totals: --csv is the table of one trace: its rows do not say which file they are of\nTry 'egrynnol totals --help'.")
    out.write(of_totals.csv_head().encode("ascii"))
    return each_trace(options, out, tabled)


def tabled(it, out):
    """Writes a row for each row of totals, as they come."""
    rows = of_totals.Rows(it)
    with contextlib.closing(rows.batches()) as batches:
        for batch in batches:
            out.write("".join(map(of_totals.csv_of, batch)).encode("ascii"))
            out.flush()
    return STOPPED if rows.stopped else GOOD


def refusals(options, out):
    """All traces together."""
    counts = collections.Counter()
    status = each_trace(options, out, counted(counts), headed=False)
    shown = [(*of, counts[of]) for of in sorted(counts) if options.number in (None, of[1])]
    if options.table:
        out.write(csv_line(("association", "refusal", "segments")).encode("ascii"))
    for cells in shown:
        out.write((csv_line(cells) if options.table else "%d %d %d\n" % cells).encode("ascii"))
    return status


def counted(counts):
    """Work that counts refused segments by association and number; a trace that cannot be read to its end counts for nothing."""
    def work(it, out):
        own = collections.Counter()

        def nothing_printed(row, item):
            if row and row.name == "segment" and row.refusal:
                _, association = item.record.numbers
                own[association, row.refusal] += 1
            return []

        status = batch_by_batch(it, out, nothing_printed)
        counts.update(own)
        return status
    return work


def table_of(line_of):
    """Work that writes a row for each line of records."""
    def work(it, out):
        return batch_by_batch(it, out, lambda row, _: [line_of(row)] if row else [])
    return work


def explain(options, out):
    return each_trace(options, out, explained)


def explained(it, out):
    teller = Teller(it)
    status = batch_by_batch(it, out, lambda row, item: [line + "\n" for line in teller.lines(row, item)])
    out.write("".join(line + "\n" for line in teller.rest()).encode("ascii"))
    return status


def batch_by_batch(it, out, lines_of):
    """Gives a trace to records, and writes the lines of each row and item as they come."""
    status = GOOD
    with contextlib.closing(Beside(it).batches()) as batches:
        for batch in batches:
            for row, item in batch:
                out.write("".join(lines_of(row, item)).encode("utf-8", "backslashreplace"))
                status = STOPPED if row and row.row == "stop" else status
            out.flush()
    return status


def encode(options, out):
    """Text to octets. Nothing is written from the first bad line on, but all lines are checked."""
    no_terminal("encode", options)
    with opened(options.file) as raw:
        for _, record in records_of_text(io.BufferedReader(raw, BLOCK), fit(raw.name), report):
            out.write(octets_of_record(record))
    return GOOD


def decode(options, out):
    """Octets to text, up to what is bad."""
    with opened(options.file) as raw:
        return decoded(Trace(fit(raw.name), io.BufferedReader(raw, BLOCK), None), out)


def hint_of(it, block):
    """What an input looks like that begins so and is no trace in octets."""
    if it.is_older():
        return "; %s" % OLDER
    try:
        return "; this looks like text: use encode" if streams.told(block, True) else ""
    except Bad as error:
        return "; %s" % error


def decoded(it, out):
    past = front = None
    for block, found in parsed(it.stream):
        front = front or block
        for offset, record in found:
            if isinstance(record, Bad):
                raise Bad("%s: offset %d: %s%s" % (it.name, offset, record, hint_of(it, front)))
            out.write(text_of(record).encode("ascii") + b"\n")
            past = offset if past is None and record.past else past
        out.flush()
    if past is not None:
        report("%s: note: from offset %d on there are octets past a parameter's length that are not zero; they stand after '|'" % (it.name, past))
    return GOOD


def upgrade(options, out):
    """A trace of before version 4 to one of now, text to text and octets to octets."""
    with opened(options.file) as raw:
        name, text = fit(raw.name), is_text(raw, options.kind, BEFORE)
        stream = io.BufferedReader(raw, BLOCK)
        if text:
            text_upgraded(stream, name, out, report)
            return GOOD
        no_terminal("upgrade", options)
        try:
            reason = octets_upgraded(stream, out)
        except Bad as error:
            raise Bad("%s: %s" % (name, error))
    if reason:
        report("%s: note: %s; from there on the octets stand as they were" % (name, reason))
    return STOPPED if reason else GOOD


def no_terminal(name, options):
    """Octets go to a file or a pipe."""
    if options.out in (None, "-") and 1 not in streams.wrong and os.isatty(1):
        raise Misused("egrynnol %s: octets are not for a terminal: use -o FILE or a pipe" % name)


def from_pcap(options, out):
    from egrynnol_lib.capture import from_capture  # here: what it needs takes long to load

    for line in from_capture(options.file, options.filter, options.tick, options.timer):
        out.write(line.encode("utf-8", "backslashreplace") + b"\n")
    return GOOD


# ---- what they are called, and what is said of them ----

TELLING = """\
An input is text or octets, and its content tells which. It is text if, after
blanks and comment lines, it begins with one of the words context, open,
segment, clock and release. Else it is octets if there is a control character
in it other than a blank one, or if it can be read as whole records. Else it
is text. Up to 65,536 octets are looked at. Octets can look like text only
where they are all printable, as a release of association 16,706 is '#AB':
--octets and --text decide.
"""

TEXT = """\
The text has a line for each record. Numbers are decimal, octets are hex.

  context 1998 3            registered context: of 1998 or 2000, context (0 to 65535)
  open 100 0                T and clock (0 to 4294967295 each)
  segment 0 9 83 80 C0 AA   time (0 to 4294967295), association (0 to 65535),
                            then 0 to 255 octets
  clock 99                  time (0 to 4294967295)
  release 9                 association (0 to 65535)

Octets may also stand without blanks, with colons or with 0x, and mixed:
8380C0AA, 83:80:C0:AA, 0x83 0x80, 0x8380. '#' starts a comment that goes to the
end of the line. Blank lines are passed over. A line has up to 65535 octets.
"""

STATUS = """\
Exit status: 0 good; 1 bad input; 2 something could not be read, written or
run; 3 the trace ended by 'stop'; 64 the command line is wrong.
"""

REPLAY = """\
Runs the proved program replay on each trace and prints its lines: name,
refusal number or 0, records, octets delivered, octets lost. A segment's line
ends with the position, from 0, of the octet that it was refused for, or with
'-' where no octet is to blame. A segment does the clock's work first, by its
own time: what that loses is counted in its line, where the segment itself is
refused too. A last line 'stop' says that the trace was not understood from
there on. See egrynnol-trace(5).
"""

RECORDS = """\
Runs the proved program records on each trace. Under the line of each event it
prints its records, and what an opening drops; at the end what is still held.
See egrynnol-trace(5).

--csv and --json write a table, one row for each line: CSV with a header row,
JSON with one object a line. The columns are the same: file; row (event,
delivered, lost, dropped, held, stop); event, its number from 1; line, of a
text, or offset, of octets; then the event's name, refusal, records,
octets_delivered, octets_lost, position (of the octet at fault, where a segment
was refused for one), timeouts (how many of a segment's records are the
clock's), decision and place; then of a record made_by (clock, segment or
release), association, context, reference (none for an unsegmented parameter),
instruction, cause, segments, octets, origin and destination (both in hex; in
CSV with 0x before them, since a spreadsheet takes 0007 and 07 for one number).
What a row does not have is empty in CSV and null in JSON.
"""

TOTALS = """\
Runs the proved program totals on each trace. For each opening it prints
'opening', the number of its event and its refusal number or 0, and under that
a line for each association of which a segment was taken: association, then
segments and octets taken, delivered and lost since that opening. See
egrynnol-trace(5).

--csv writes a table of one trace: a header row, then a row for each
association's line, with its opening before it. An opening that has no such line
has no row.
"""

REFUSALS = """\
Counts the refused segments of all the traces together, by what the proved
program records answers: a line for each association and refusal number that
were met, association, number, segments. --number keeps one number. So

  egrynnol refusals --number 23 OLD.trace ...

tells how many segments of each association in old traces have a padded
context, which version 2.1 and those after it refuse. (A trace of before version
4 is upgraded first.) A trace that cannot be read to its end counts for nothing,
and one that stops counts up to there.
"""

EXPLAIN = """\
Tells each trace in words, beside its line number (text) or offset (octets):
what was refused and why, saved where, delivered, lost by which cause, dropped
by an opening, held at the end, and where it stops. All that is the answer of
the proved program records. What a segment's own time has lost before the
segment was looked at stands after 'by the clock first'. What a parameter's
fields say stands after 'read alone': that is of the parameter and not of what
became of it. Of the information only the length is told.

Where an octet of a parameter is to blame for a refusal (5 to 9 and 23), the
octets are shown in hex, 16 a line, each line behind the position of its first
octet, and ^^ stands under the octet at the position that records answered; for
5 that is the first one that is missing. '..' is an octet that was not read:
it may be information. Under that stands, read alone, what should be there.
Positions count from 0.
"""

ENCODE = """\
Text to octets. Only what a record cannot hold is an error: a trace that is
refused, or at which replay stops, can be written. Nothing is written from the
first bad line on, and with -o the file stays as it was; every bad line is
named, to the twentieth.

A segment's record has 255 octets, of which the length counts some. The others
are written as zero. Where they are not all zero, they stand after '|', up to
the last one that is not zero:

  segment 0 9 83 80 C0 AA | 00 01
"""

DECODE = """\
Octets to text, in the canonical form: no comments and no blank lines, single
spaces and none at the ends, upper-case hex, numbers without leading zeros, a
newline after each line. Canonical text, encoded and decoded, is the same text;
octets, decoded and encoded, are the same octets. Octets past a parameter's
length that are not zero stand after '|'.
"""

FROM_PCAP = """\
A text trace from a capture, by the fields that tshark reads in it (Debian's
package tshark). Each application transport parameter of an ISUP message is a
segment; its association is the circuit code (CIC), and its time that of the
frame, in ticks from the first one. REL and RSC are releases, with a clock line
before them where time has passed. What a capture cannot tell (which contexts
are of 1998 and of 2000, T, releases that are not in it) stands in the trace as
a comment, beside a default.
"""

UPGRADE = """\
A trace of before version 4, in which segments have no time, to one of now: text
to text, with its comments, and octets to octets. Each segment gets the time
that it met: that of the last opening that was accepted, or of the last step of
the clock after it that was; where nothing is open, 0. So replay prints of the
new trace what it printed of the old one.

An input whose segments have their times already is left alone: that is status
1, and so is a text with a bad line. Octets that are no record, at which replay
stops, stand in the new trace as they were, with all behind them, so that it
stops there again; that is status 3. A registered context after the first open,
at which it stops too, is a record like the others.
"""

# name: what is typed; work: the function; what: a line of help; text: more of it; options: of OPTIONS.
Command = collections.namedtuple("Command", "name work what text options")
COMMANDS = (
    Command("replay", replay, "replay traces, a line for each event", REPLAY + "\n" + TELLING, ("kind", "out", "files")),
    Command("records", records, "the same, with every record, and what is dropped or held; also as a table", RECORDS + "\n" + TELLING,
            ("kind", "table", "out", "files")),
    Command("totals", totals, "what each association had taken, delivered and lost, opening by opening; also as a table", TOTALS + "\n" + TELLING,
            ("kind", "csv", "out", "files")),
    Command("refusals", refusals, "how many segments of each association are refused, by number; over all traces together", REFUSALS + "\n" + TELLING,
            ("kind", "number", "together", "out", "files")),
    Command("explain", explain, "traces in words", EXPLAIN + "\n" + TELLING, ("kind", "out", "files")),
    Command("encode", encode, "a trace in text to octets", ENCODE + "\n" + TEXT, ("out", "file")),
    Command("decode", decode, "a trace in octets to text", DECODE, ("out", "file")),
    Command("upgrade", upgrade, "a trace of before version 4 to one of now", UPGRADE + "\n" + TELLING, ("kind", "out", "file")),
    Command("from-pcap", from_pcap, "a text trace from a capture", FROM_PCAP, ("capture", "out")),
)

TOP = """\
Traces of the application transport of ITU-T Q.765 over the proved programs.

subcommands:
%s
'egrynnol SUBCOMMAND --help' says more of each.

""" + TEXT + """
Where the proved programs are: EGRYNNOL_LIBEXEC, if set; else libexec/egrynnol
of the place where this is installed; else target/bin of the repository.

""" + STATUS + """
Example:

  printf 'context 1998 3\\nopen 100 0\\nsegment 0 9 83 80 C0 AA BB\\n' | %s explain
"""


# ---- the command line ----

class Said(Exception):
    """A text that was asked for, as the help."""


class Parser(argparse.ArgumentParser):
    """Neither prints nor exits by itself."""

    def error(self, message):
        raise Misused("%s: %s\nTry '%s --help'." % (self.prog, message, self.prog))

    def print_help(self, file=None):
        raise Said(self.format_help())


class Version(argparse.Action):
    def __call__(self, parser, *_):
        raise Said("egrynnol %s\n" % VERSION)


def ticks(word):
    value = int(word) if word.isascii() and word.isdigit() and len(word) < 8 else 0
    if not 1 <= value <= 1000000:
        raise argparse.ArgumentTypeError("'%s' is not 1 to 1000000" % word)
    return value


def refusal_number(word):
    value = int(word) if word.isascii() and word.isdigit() and len(word) < 4 else 0
    if not 1 <= value <= 255:
        raise argparse.ArgumentTypeError("'%s' is not 1 to 255" % word)
    return value


def seconds(word):
    """A decimal, as it was typed."""
    good = re.match(r"[0-9]{1,4}(\.[0-9]{1,9})?\Z", word)
    if not good or not 0 < float(word) <= 1000:
        raise argparse.ArgumentTypeError("'%s' is not 0.000000001 to 1000" % word)
    return word


def kind_option(parser):
    group = parser.add_mutually_exclusive_group()
    group.add_argument("--text", dest="kind", action="store_const", const="text", help="the input is text")
    group.add_argument("--octets", dest="kind", action="store_const", const="octets", help="the input is octets")


def table_option(parser):
    group = parser.add_mutually_exclusive_group()
    group.add_argument("--csv", dest="table", action="store_const", const="csv", help="a table as CSV, with a header row")
    group.add_argument("--json", dest="table", action="store_const", const="json", help="a table as JSON, one object a line")


def csv_option(parser):
    parser.add_argument("--csv", dest="table", action="store_const", const="csv", help="a table as CSV, with a header row; of one trace")


def capture_option(parser):
    parser.add_argument("--tick", type=seconds, default="0.001", metavar="SECONDS", help="a tick of the clock (default 0.001)")
    parser.add_argument("--timer", type=ticks, default=15000, metavar="TICKS", help="T, 1 to 1000000 (default 15000)")
    parser.add_argument("--filter", metavar="FILTER", help="of the capture, only what this display filter of tshark lets through")
    parser.add_argument("file", metavar="FILE", help="the capture; '-' is standard input")


OPTIONS = {
    "kind": kind_option,
    "table": table_option,
    "csv": csv_option,
    "together": lambda parser: parser.add_argument("--csv", dest="table", action="store_const", const="csv", help="a table as CSV, with a header row"),
    "number": lambda parser: parser.add_argument("--number", type=refusal_number, metavar="N", help="of the refusals, only this number"),
    "capture": capture_option,
    "out": lambda parser: parser.add_argument("-o", dest="out", metavar="FILE", help="the output; standard output if not given"),
    "file": lambda parser: parser.add_argument("file", nargs="?", default="-", metavar="FILE", help="the input; standard input if none or '-'"),
    "files": lambda parser: parser.add_argument("files", nargs="*", metavar="FILE", help="the inputs; standard input if none, or for '-'"),
}


def parser_of(command):
    parser = Parser(prog="egrynnol " + command.name, description=command.text, epilog=STATUS, allow_abbrev=False,
                    formatter_class=argparse.RawDescriptionHelpFormatter)
    for name in command.options:
        OPTIONS[name](parser)
    return parser


def top_parser(typed):
    listed = "".join("  %-10s %s\n" % (command.name, command.what) for command in COMMANDS)
    parser = Parser(prog="egrynnol", usage="egrynnol [-h] [--version] SUBCOMMAND ...", description=TOP % (listed, shlex.quote(typed)), allow_abbrev=False,
                    formatter_class=argparse.RawDescriptionHelpFormatter)
    parser.add_argument("--version", action=Version, nargs=0, help="show the version and exit")
    return parser


def plain(words):
    """The same words without '--': a file's name after it that looks like an option gets its folder before it."""
    if "--" not in words:
        return words
    at = words.index("--")
    return words[:at] + ["./" + word if word.startswith("-") and word != "-" else word for word in words[at + 1:]]


def arguments(typed, argv):
    """The subcommand and its options."""
    top = top_parser(typed)
    if not argv or argv[0].startswith("-"):
        top.parse_args(argv)
        top.error("a subcommand is missing: %s" % ", ".join(command.name for command in COMMANDS))
    for command in COMMANDS:
        if command.name == argv[0]:
            return command, parser_of(command).parse_intermixed_args(plain(argv[1:]))
    top.error("'%s' is no subcommand; these are: %s" % (argv[0], ", ".join(command.name for command in COMMANDS)))


def run(command, options):
    with output(options.out) as out:
        try:
            status = command.work(options, out)
        except Bad as error:
            out.flush()
            status = told_bad(error)
        if status in (BAD, FAILED) and options.out not in (None, "-"):
            raise NotWritten(status)
        return status


def say(text):
    with output(None) as out:
        out.write(text.encode("utf-8", "backslashreplace"))
    return GOOD


def answer(folder, argv):
    """The status of a command line; what ends it early is an exception."""
    try:
        command, options = arguments(os.path.join(folder, "egrynnol"), argv)
    except Said as said:
        return say(str(said))
    try:
        return run(command, options)
    except NotWritten as error:
        report("%s: not written" % options.out)
        return error.args[0]


def main(folder, stdin, argv):
    """The exit status. No exception gets out, whatever the input is."""
    try:
        streams.hold(stdin)
        programs.command_folder = folder
        return answer(folder, argv)
    except Misused as error:
        for line in str(error).split("\n"):
            report(line)
        return USAGE
    except BrokenPipeError:
        # The reader of our output has gone, as with 'head': nothing to say, nowhere to say it.
        streams.end_by(signal.SIGPIPE)
    except Failed as error:
        return told_failure("egrynnol: %s" % error)
    except OSError as error:
        return told_failure("%s: %s" % (error.filename or "egrynnol", error.strerror or error))
    except MemoryError:
        return told_failure("egrynnol: out of memory")
    except Exception as error:
        return told_failure("egrynnol: a fault of its own: %s: %s" % (type(error).__name__, error))
