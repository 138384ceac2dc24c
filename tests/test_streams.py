#!/usr/bin/env python3
"""The programs where reading or writing fails, and where they are given arguments: told on standard error, and nothing passed over.

    python3 tests/test_streams.py            REPLAY, RECORDS, TOTALS and LOOPED are the programs; without them, those of target/bin
    python3 tests/test_streams.py Answers    one class of tests

A program installs no signal handler, so no signal from outside makes a read or a write of its answer EINTR. In the class Answers the system
hands these calls over to the test (seccomp's user notification), and the test answers them: EINTR a number of times, EIO, or 0 for a write.
"""

import ctypes
import errno
import fcntl
import itertools
import os
import platform
import re
import resource
import select
import signal
import socket
import struct
import subprocess
import sys
import tempfile
import unittest

HERE = os.path.dirname(os.path.abspath(__file__))
REPLAY = os.environ.get("REPLAY", os.path.join(HERE, "..", "target", "bin", "replay"))
RECORDS = os.environ.get("RECORDS", os.path.join(HERE, "..", "target", "bin", "records"))
TOTALS = os.environ.get("TOTALS", os.path.join(HERE, "..", "target", "bin", "totals"))
LOOPED = os.environ.get("LOOPED", os.path.join(HERE, "..", "target", "bin", "looped"))

USAGE = {
    "replay": "usage: replay < TRACE\nA trace in octets on standard input; its lines on standard output. See egrynnol(1).\n",
    "records": "usage: records < TRACE\nA trace in octets on standard input; its events and their records on standard output. See egrynnol(1).\n",
    "totals": "usage: totals < TRACE\nA trace in octets on standard input; the totals of each opening on standard output. See egrynnol(1).\n",
    "looped": "usage: looped < DATA\n",
}


def example(name):
    """An example's trace in octets, and what replay, records and totals print of it."""
    there = os.path.join(HERE, "..", "examples", name)
    octets = subprocess.run([os.path.join(HERE, "..", "tools", "egrynnol"), "encode", there + ".trace"], stdout=subprocess.PIPE, check=True).stdout
    with open(there + ".out", "rb") as out, open(there + ".records", "rb") as records, open(there + ".totals", "rb") as totals:
        return octets, out.read(), records.read(), totals.read()


TRACE, LINES, TOLD, BILL = example("origins")
DATA = bytes(range(256)) * 8

# name, command, good input, what is printed of it
PROGRAMS = (("replay", REPLAY, TRACE, LINES), ("records", RECORDS, TRACE, TOLD), ("totals", TOTALS, TRACE, BILL), ("looped", LOOPED, DATA, DATA))


class Streams(unittest.TestCase):
    def file(self, octets=b""):
        """A file that has these octets, at its start."""
        file = tempfile.TemporaryFile()
        self.addCleanup(file.close)
        file.write(octets)
        file.seek(0)
        return file

    def pipe(self):
        ends = [open(end, mode, buffering=0) for end, mode in zip(os.pipe(), ("rb", "wb"))]
        for end in ends:
            self.addCleanup(end.close)
        return ends

    def run_on(self, command, stdin, *words, stdout=None, before=None):
        """What went to standard output and to standard error, and the exit status; before: what is done before the program starts."""
        out, err = self.file(), self.file()
        done = subprocess.run([command, *words], stdin=stdin, stdout=stdout or out, stderr=err, preexec_fn=before, timeout=60)
        return octets_of(out), octets_of(err).decode("ascii"), done.returncode


def octets_of(file):
    file.seek(0)
    return file.read()


def told(name, deed, number):
    return "%s: cannot %s: %s\n" % (name, deed, os.strerror(number))


class Cases(Streams):
    def fails(self, name, deed, number, got, out=b""):
        """This went out, then this failure was told, and the program ended as it always does."""
        self.assertEqual(got, (out, told(name, deed, number), 0))

    def test_good_input(self):
        for name, command, good, printed in PROGRAMS:
            with self.subTest(name):
                self.assertEqual(self.run_on(command, self.file(good)), (printed, "", 0))

    def test_no_input(self):
        for name, command, _, _ in PROGRAMS:
            with self.subTest(name):
                self.assertEqual(self.run_on(command, self.file()), (b"", "", 0))

    def test_input_in_pieces(self):
        for name, command, good, printed in PROGRAMS:
            with self.subTest(name):
                pipe = subprocess.PIPE
                with subprocess.Popen([command], stdin=pipe, stdout=pipe, stderr=pipe, bufsize=0) as program:
                    for at in range(0, len(good), 97):
                        program.stdin.write(good[at:at + 97])
                    self.assertEqual((*program.communicate(timeout=60), program.returncode), (printed, b"", 0))

    def test_refused_by_looped(self):
        self.assertEqual(self.run_on(LOOPED, self.file(bytes(2049))), (b"refused 14\n", "", 0))

    def test_arguments(self):
        for name, command, good, _ in PROGRAMS:
            for words in (["FILE"], ["--help"], ["-h"], [""], ["--", "FILE"]):
                with self.subTest(name, words=words):
                    stdin = self.file(good)
                    self.assertEqual(self.run_on(command, stdin, *words), (b"", USAGE[name], 0))
                    self.assertEqual(os.lseek(stdin.fileno(), 0, os.SEEK_CUR), 0, "standard input was read")

    def test_output_that_is_full(self):
        for name, command, good, _ in PROGRAMS:
            with self.subTest(name), open("/dev/full", "wb") as full:
                self.fails(name, "write", errno.ENOSPC, self.run_on(command, self.file(good), stdout=full))

    def test_one_failure_is_the_end(self):
        """Where there is more to write, and more to read: one message, and neither is done."""
        clocks = bytes([34, 0, 0, 0, 7]) * 20000
        stdin = self.file(clocks)
        with open("/dev/full", "wb") as full:
            self.fails("replay", "write", errno.ENOSPC, self.run_on(REPLAY, stdin, stdout=full))
            self.assertLess(os.lseek(stdin.fileno(), 0, os.SEEK_CUR), len(clocks), "standard input was read on")
            stdin = self.file(bytes([32, 0, 0, 0, 100, 0, 0, 0, 0]) * 20000)
            self.fails("totals", "write", errno.ENOSPC, self.run_on(TOTALS, stdin, stdout=full))
            self.assertLess(os.lseek(stdin.fileno(), 0, os.SEEK_CUR), 180000, "standard input was read on")
            self.fails("looped", "write", errno.ENOSPC, self.run_on(LOOPED, self.file(bytes(2049)), stdout=full))

    def test_output_that_fills_up(self):
        """A part goes out, then no more does: here by a limit on the size of a file."""
        def limited():
            signal.signal(signal.SIGXFSZ, signal.SIG_IGN)
            resource.setrlimit(resource.RLIMIT_FSIZE, (20, 20))

        for name, command, good, printed in PROGRAMS:
            with self.subTest(name):
                out = self.file()
                # the message goes to a pipe, which the limit does not reach
                done = subprocess.run([command], stdin=self.file(good), stdout=out, stderr=subprocess.PIPE, preexec_fn=limited, restore_signals=False, timeout=60)
                self.fails(name, "write", errno.EFBIG, (octets_of(out), done.stderr.decode("ascii"), done.returncode), printed[:20])

    def test_output_closed(self):
        for name, command, good, _ in PROGRAMS:
            with self.subTest(name):
                self.fails(name, "write", errno.EBADF, self.run_on(command, self.file(good), before=lambda: os.close(1)))

    def test_output_that_does_not_wait(self):
        for name, command, good, _ in PROGRAMS:
            with self.subTest(name):
                _, writer = self.pipe()
                os.set_blocking(writer.fileno(), False)
                while writer.write(bytes(4096)):
                    pass
                self.fails(name, "write", errno.EAGAIN, self.run_on(command, self.file(good), stdout=writer))

    def test_output_that_nobody_reads(self):
        """A failure as any other: a program of Rattle ignores SIGPIPE from its start on, and cannot be written not to."""
        for name, command, good, _ in PROGRAMS:
            with self.subTest(name):
                reader, writer = self.pipe()
                reader.close()
                self.fails(name, "write", errno.EPIPE, self.run_on(command, self.file(good), stdout=writer))

    def test_standard_error_that_is_full(self):
        """There is nowhere to tell it, and the program ends all the same."""
        for name, command, good, _ in PROGRAMS:
            with self.subTest(name), open("/dev/full", "wb") as full:
                done = subprocess.run([command], stdin=self.file(good), stdout=full, stderr=full, timeout=60)
                self.assertEqual(done.returncode, 0)

    def test_input_is_a_directory(self):
        folder = os.open(HERE, os.O_RDONLY)
        self.addCleanup(os.close, folder)
        for name, command, _, _ in PROGRAMS:
            with self.subTest(name):
                self.fails(name, "read", errno.EISDIR, self.run_on(command, folder))

    def test_input_closed(self):
        for name, command, _, _ in PROGRAMS:
            with self.subTest(name):
                self.fails(name, "read", errno.EBADF, self.run_on(command, subprocess.DEVNULL, before=lambda: os.close(0)))

    def test_input_for_writing_alone(self):
        for name, command, _, _ in PROGRAMS:
            with self.subTest(name), open(os.devnull, "wb") as null:
                self.fails(name, "read", errno.EBADF, self.run_on(command, null))

    def run_after(self, command, octets):
        """On input that has these octets, has not ended, and does not wait."""
        reader, writer = self.pipe()
        os.set_blocking(reader.fileno(), False)
        writer.write(octets)
        return self.run_on(command, reader)

    def test_nothing_there_yet(self):
        for name, command, _, _ in PROGRAMS:
            with self.subTest(name):
                self.fails(name, "read", errno.EAGAIN, self.run_after(command, b""))

    def test_failure_after_a_part(self):
        """replay has printed the lines of what it read, and no 'stop', even inside a record; nor has records told what is held; nor totals the rows of the last opening; looped, which needs
        all its input, nothing."""
        self.fails("replay", "read", errno.EAGAIN, self.run_after(REPLAY, TRACE), LINES)
        self.fails("replay", "read", errno.EAGAIN, self.run_after(REPLAY, TRACE + b"\x22\x00"), LINES)
        self.fails("records", "read", errno.EAGAIN, self.run_after(RECORDS, TRACE + b"\x22\x00"), TOLD)
        self.fails("records", "read", errno.EAGAIN, self.run_after(RECORDS, TRACE[:275]), TOLD[:TOLD.index(b"segment 0 0 0 0 - 3 ")])
        for octets, before in ((TRACE, b""), (TRACE + b"\x22\x00", b""), (TRACE + TRACE[3:12], BILL)):
            out, *rest = self.run_after(TOTALS, octets)
            self.assertEqual(re.sub(rb"opening \d+ 0\n\Z", b"", out), before)  # a heading may be there before its rows
            self.assertEqual(rest, [told("totals", "read", errno.EAGAIN), 0])
        self.fails("looped", "read", errno.EAGAIN, self.run_after(LOOPED, DATA[:100]))


# The numbers of seccomp, read and write in the machine's own system, which an emulator calls too.
CALLS = {"x86_64": {"seccomp": 317, "read": 0, "write": 1}, "aarch64": {"seccomp": 277, "read": 63, "write": 64}}.get(platform.machine())

CONTINUE = object()     # the call is made as it was asked for
TRIES = 1000            # of crates/streams: how often an interrupted call is made again


class Program(ctypes.Structure):
    _fields_ = [("length", ctypes.c_ushort), ("lines", ctypes.c_void_p)]


def listen(call, descriptor):
    """From here on this process's calls of this name on this descriptor wait for an answer: the descriptor to answer them by, or None."""
    def line(code, yes, no, number):
        return struct.pack("=HBBI", code, yes, no, number)

    load, equal, answer = 0x20, 0x15, 0x06
    # the descriptor is the lower half of the first argument
    lines = b"".join([line(load, 0, 0, 0), line(equal, 0, 3, CALLS[call]), line(load, 0, 0, 16), line(equal, 0, 1, descriptor),
                      line(answer, 0, 0, 0x7fc00000), line(answer, 0, 0, 0x7fff0000)])
    kept = ctypes.create_string_buffer(lines, len(lines))
    program = Program(len(lines) // 8, ctypes.addressof(kept))
    system = ctypes.CDLL(None)
    if system.prctl(38, 1, 0, 0, 0) != 0:                                           # no new privileges, which a filter needs
        return None
    listener = system.syscall(CALLS["seccomp"], 1, 8, ctypes.byref(program))        # a filter, with a listener
    return listener if listener >= 0 else None


def answer_all(listener, answers):
    """Answers each call by the next of the answers, an error's number, 0 for 'nothing moved' or CONTINUE, until the program has ended. How many calls there were."""
    count = 0
    poll = select.poll()
    poll.register(listener, select.POLLIN)
    while True:
        events = poll.poll(60000)
        assert events, "the program neither went on nor ended"
        if not events[0][1] & select.POLLIN:
            return count
        asked = bytearray(80)
        fcntl.ioctl(listener, 0xc0502100, asked)
        answer = next(answers)
        count += 1
        number = 0 if answer is CONTINUE else -answer
        fcntl.ioctl(listener, 0xc0182101, asked[:8] + struct.pack("=qiI", 0, number, 1 if answer is CONTINUE else 0))


# program, call, and what Answers.answered takes of them; what is printed
CALLED = [(name, call, (command, call, descriptor, good), printed) for name, command, good, printed in PROGRAMS for call, descriptor in (("read", 0), ("write", 1))]


class Answers(Streams):
    def answered(self, command, call, descriptor, good, answers):
        """A run in which these are the answers to this call, and afterwards it is made as it was asked for; and how many calls there were."""
        if CALLS is None:
            self.skipTest("EINTR and EIO are not tried: the numbers of this machine's system calls are not known here")

        def ready():
            listener = listen(call, descriptor)
            socket.send_fds(there, [b"1"], [] if listener is None else [listener])

        here, there = socket.socketpair()
        out, err = self.file(), self.file()
        with here, there, subprocess.Popen([command], stdin=self.file(good), stdout=out, stderr=err, preexec_fn=ready) as program:
            listeners = socket.recv_fds(here, 1, 1)[1]
            if not listeners:
                self.skipTest("EINTR and EIO are not tried: this system does not hand a program's calls over")
            try:
                count = answer_all(listeners[0], itertools.chain(answers, itertools.repeat(CONTINUE)))
            finally:
                os.close(listeners[0])
        return octets_of(out), octets_of(err).decode("ascii"), program.returncode, count

    def test_interrupted_and_tried_again(self):
        for name, call, how, printed in CALLED:
            plain = self.answered(*how, [])
            self.assertEqual(plain[:3], (printed, "", 0))
            for times in (1, 2, 10, TRIES):
                with self.subTest(name, call=call, times=times):
                    self.assertEqual(self.answered(*how, [errno.EINTR] * times), (printed, "", 0, plain[3] + times))

    def test_interrupted_for_ever(self):
        for name, call, how, _ in CALLED:
            with self.subTest(name, call=call):
                self.assertEqual(self.answered(*how, [errno.EINTR] * (TRIES + 100)), (b"", told(name, call, errno.EINTR), 0, TRIES + 1))

    def test_interrupted_at_each_call(self):
        for name, call, how, printed in CALLED:
            with self.subTest(name, call=call):
                self.assertEqual(self.answered(*how, [errno.EINTR, CONTINUE] * 20)[:3], (printed, "", 0))

    def test_other_errors(self):
        for name, call, how, _ in CALLED:
            for number in (errno.EIO, errno.ENXIO, errno.EDQUOT):
                for before in (0, 3):
                    with self.subTest(name, call=call, number=number, before=before):
                        self.assertEqual(self.answered(*how, [errno.EINTR] * before + [number]), (b"", told(name, call, number), 0, before + 1))

    def test_read_error_after_a_part(self):
        self.assertEqual(self.answered(REPLAY, "read", 0, TRACE, [CONTINUE, errno.EIO]), (LINES, told("replay", "read", errno.EIO), 0, 2))

    def test_write_that_takes_nothing(self):
        """Also after an interruption, of which errno still tells."""
        for name, command, good, _ in PROGRAMS:
            for answers in ([0], [errno.EINTR, 0]):
                with self.subTest(name, answers=answers):
                    self.assertEqual(self.answered(command, "write", 1, good, answers), (b"", "%s: cannot write: nothing was taken\n" % name, 0, len(answers)))


if __name__ == "__main__":
    for command in (REPLAY, RECORDS, TOTALS, LOOPED):
        if not os.access(command, os.X_OK):
            sys.exit("tests/test_streams.py: no program at %s: build it, or set REPLAY, RECORDS, TOTALS and LOOPED" % command)
    unittest.main()
