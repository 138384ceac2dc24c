#!/usr/bin/env python3
"""The command egrynnol as a Unix tool: its exit statuses, closed pipes, signals, full disks, odd files, programs that fail, and no traceback ever.

    python3 tests/test_command.py            the programs are in EGRYNNOL_LIBEXEC, or in target/bin
    python3 tests/test_command.py Sweep      one class of tests; SEED and RUNS set the sweep
"""

import csv
import io
import json
import os
import pty
import random
import re
import resource
import shutil
import signal
import stat
import subprocess
import sys
import tempfile
import threading
import time
import unittest

sys.dont_write_bytecode = True

from running import ROOT, SUBCOMMANDS, TOOL, TOOLS, Ran, example, examples, process, run
from egrynnol_lib import VERSION, commands, programs, rows, streams, totals

SEED = int(os.environ.get("SEED", "765"))
RUNS = int(os.environ.get("RUNS", "600"))
FAULTS = re.compile("Traceback|Exception|fault of its own|Fatal Python")
REPLAYING = (["replay"], ["records"], ["records", "--csv"], ["records", "--json"], ["totals"], ["totals", "--csv"], ["explain"])
ONE_FILE = (["totals", "--csv"],)  # of these, those that take no more than one file
TRACE = run("encode", example("origins")).out
LONG = run("encode", data=b"context 1998 3\n" + b"open 100 0\nsegment 0 9 83 81 41 85 AA\nsegment 0 9 83 80 00 85 BB\n" * 8000).out


def head_of(words):
    """What is printed before anything of the input is."""
    return {("records", "--csv"): rows.csv_head(), ("totals", "--csv"): totals.csv_head()}.get(tuple(words), "").encode()


def program_of(words):
    """The program that the subcommand runs."""
    return "records" if words[0] == "explain" else words[0]


# A shell that starts this in the background has it ignore interruptions, and so would all that is started here.
signal.signal(signal.SIGINT, signal.default_int_handler)


class Folder(unittest.TestCase):
    def setUp(self):
        place = tempfile.TemporaryDirectory()
        self.addCleanup(place.cleanup)
        self.place = place.name

    def path(self, name, octets=None):
        path = os.path.join(self.place, name)
        if octets is not None:
            with open(path, "wb") as file:
                file.write(octets)
        return path

    def start(self, *words, **streams_):
        """The command, still at work when this answers."""
        for name in ("stdin", "stdout", "stderr"):
            streams_.setdefault(name, subprocess.PIPE)
        it = subprocess.Popen([TOOL, *words], bufsize=0, **streams_)
        self.addCleanup(it.wait)
        self.addCleanup(it.kill)
        for stream in (it.stdin, it.stdout, it.stderr):
            if stream:
                self.addCleanup(stream.close)
        return it


class Statuses(Folder):

    def test_good(self):
        for words in REPLAYING:
            self.assertEqual(run(*words, example("origins"))[::2], (0, ""), words)
        self.assertEqual(run("encode", example("origins"))[::2], (0, ""))
        self.assertEqual(run("decode", data=TRACE)[::2], (0, ""))

    def test_bad_input(self):
        for words in REPLAYING + (["encode"],):
            ran = run(*words, data=b"open 1\n")
            self.assertEqual(ran, (1, head_of(words), "standard input:1: open: the number for clock is missing\n"))
        self.assertEqual(run("decode", data=b"\7").status, 1)
        self.assertEqual(run("replay", data=b"\xff\xfeo\0p\0")[::2], (1, "standard input: this is text in UTF-16: save it as UTF-8\n"))

    def test_not_read(self):
        for words in REPLAYING + (["encode"], ["decode"], ["upgrade"], ["from-pcap"]):
            ran = run(*words, self.path("none"))
            self.assertEqual(ran.status, 2)
            self.assertEqual(ran.err, "%s: No such file or directory\n" % self.path("none"))
            ran = run(*words, self.place)
            self.assertEqual(ran[::2], (2, "%s: Is a directory\n" % self.place))

    def test_stop(self):
        for words in REPLAYING:
            ran = run(*words, example("bad-input"))
            self.assertEqual(ran[::2], (3, ""), words)
            self.assertEqual(run(*words, data=b"\x22\0")[::2], (3, ""), words)
        for words in (["replay"], ["totals"]):
            self.assertEqual(run(*words, data=b"\x22\0").out, b"stop\n")
        self.assertEqual(run("totals", "--csv", data=b"\x22\0").out, head_of(["totals", "--csv"]))

    def test_wrong_use(self):
        for words in ([], ["foo"], ["--foo"], ["-"], ["encode", "--text"], ["decode", "a", "b"], ["upgrade", "a", "b"], ["upgrade", "--csv"], ["replay", "--csv"], ["records", "--csv", "--json"],
                      ["explain", "--text", "--octets"], ["totals", "--json"], ["totals", "--csv", "a", "b"], ["from-pcap"], ["from-pcap", "--tick", "0", "x"], ["from-pcap", "--tick", "nan", "x"],
                      ["from-pcap", "--timer", "1000001", "x"], ["replay", "-o"], ["replay", "--te"]):
            ran = run(*words)
            self.assertEqual((ran.status, ran.out), (64, b""), words)
            self.assertRegex(ran.err, r"\Aegrynnol[^\n]*: [^\n]+\nTry 'egrynnol[^\n]* --help'\.\n\Z")

    def test_a_terminal_gets_no_octets(self):
        ours, theirs = pty.openpty()
        with open(ours, "rb", buffering=0), open(theirs, "wb", buffering=0) as terminal:
            it = self.start("encode", example("origins"), stdout=terminal)
            self.assertEqual(it.communicate()[1], b"egrynnol encode: octets are not for a terminal: use -o FILE or a pipe\n")
            self.assertEqual(it.returncode, 64)

    def test_of_several_files_the_worst_counts(self):
        good, stops, bad, none = example("origins"), example("bad-input"), self.path("bad", b"open 1\n"), self.path("none")
        for files, status in (((good, stops), 3), ((stops, bad, good), 1), ((none, bad), 2), ((bad, none, stops), 2), ((good, good), 0)):
            for words in REPLAYING:
                if words in ONE_FILE:
                    continue
                ran = run(*words, *files)
                self.assertEqual(ran.status, status, (words, files))
                if words in (["replay"], ["totals"]):
                    self.assertEqual(ran.out.count(b"# "), sum(1 for file in files if file in (good, stops)))

    def test_several_files_are_told_apart(self):
        one, two = example("origins"), example("timer")
        for name in ("replay", "totals"):
            out = b"".join(b"# %s\n" % os.fsencode(path) + run(name, path).out for path in (one, two))
            self.assertEqual(run(name, one, two).out, out)
        table = list(csv.DictReader(io.StringIO(run("records", "--csv", one, two).out.decode())))
        self.assertEqual({row["file"] for row in table}, {one, two})

    def test_a_dash_is_standard_input(self):
        for words in (["replay", "-"], ["replay"], ["replay", "--", "-"]):
            self.assertEqual(run(*words, data=TRACE).out, run("replay", example("origins")).out)

    def test_a_name_like_an_option(self):
        self.path("-x", TRACE)
        ran = process("replay", "--", "-x", cwd=self.place)
        self.assertEqual(ran[::2], (0, ""))


class Streams(Folder):

    def shell(self, line, **names):
        names = {"TOOL": TOOL, "GOOD": example("origins"), "PLACE": self.place, **names}
        done = subprocess.run(["bash", "-c", line], stdin=subprocess.DEVNULL, stdout=subprocess.PIPE, stderr=subprocess.PIPE, env=dict(os.environ, **names), timeout=60)
        return Ran(done.returncode, done.stdout, done.stderr.decode())

    def test_closed_and_odd_streams(self):
        full, closed, folder = "No space left on device", "Bad file descriptor", "Is a directory"
        for line, err in (('"$TOOL" replay <&-', "standard input: " + closed), ('"$TOOL" replay < /', "standard input: " + folder),
                          ('"$TOOL" encode < /', "standard input: " + folder), ('"$TOOL" explain - < /', "standard input: " + folder),
                          ('"$TOOL" replay "$GOOD" >&-', "standard output: " + closed), ('"$TOOL" --help >&-', "standard output: " + closed),
                          ('"$TOOL" replay "$GOOD" 1</', "egrynnol: standard output: " + folder),
                          ('"$TOOL" replay "$GOOD" > /dev/full', "standard output: " + full), ('"$TOOL" records "$GOOD" > /dev/full', "standard output: " + full),
                          ('"$TOOL" records --csv "$GOOD" > /dev/full', "standard output: " + full), ('"$TOOL" records --json "$GOOD" > /dev/full', "standard output: " + full),
                          ('"$TOOL" totals "$GOOD" > /dev/full', "standard output: " + full), ('"$TOOL" totals --csv "$GOOD" > /dev/full', "standard output: " + full),
                          ('"$TOOL" totals "$GOOD" >&-', "standard output: " + closed), ('"$TOOL" totals <&-', "standard input: " + closed),
                          ('"$TOOL" totals < /', "standard input: " + folder), ('"$TOOL" totals "$GOOD" -o /dev/full', "/dev/full: %s\n" % full),
                          ('"$TOOL" explain "$GOOD" > /dev/full', "standard output: " + full), ('"$TOOL" encode "$GOOD" > /dev/full', "standard output: " + full),
                          ('"$TOOL" encode "$GOOD" | "$TOOL" decode > /dev/full', "standard output: " + full),
                          ('"$TOOL" --help > /dev/full', "standard output: " + full), ('"$TOOL" replay --help > /dev/full', "standard output: " + full),
                          ('"$TOOL" --version > /dev/full', "standard output: " + full),
                          ('"$TOOL" replay "$GOOD" -o /dev/full', "/dev/full: %s\n" % full), ('"$TOOL" encode "$GOOD" -o "$PLACE"', self.place + ": " + folder),
                          ('"$TOOL" encode "$GOOD" -o "$PLACE/a/b"', self.place + "/a/b: No such file or directory")):
            with self.subTest(line):
                ran = self.shell(line)
                self.assertEqual((ran.status, ran.out, ran.err.rstrip("\n")), (2, b"", err.rstrip("\n")))

    def test_streams_that_are_not_needed(self):
        good = run("replay", example("origins")).out
        for line in ('"$TOOL" replay "$GOOD" <&-', '"$TOOL" replay "$GOOD" < /', '"$TOOL" replay "$GOOD" 2>&-', '"$TOOL" replay "$GOOD" 2< /'):
            self.assertEqual(self.shell(line), (0, good, ""), line)
        for line, status in (('"$TOOL" foo 2>&-', 64), ('"$TOOL" foo 2>/dev/full', 64), ('"$TOOL" replay <&- >&- 2>&-', 2), ('"$TOOL" encode /none 2>&-', 2),
                             ('"$TOOL" replay "$GOOD" -o "$PLACE/out" <&- >&- 2>&-', 0), ('"$TOOL" replay "$GOOD" -o "$PLACE/out" 2>&-', 0)):
            self.assertEqual(self.shell(line), (status, b"", ""), line)
        with open(self.path("out"), "rb") as file:
            self.assertEqual(file.read(), good)

    def test_no_file_gets_the_number_of_a_closed_stream(self):
        """What is said on standard error must not land in the file that is written."""
        octets = self.path("octets", b"\x22\0\0\0\7" + b"\x21\0\0\0\7\0\x09\1\xaa" + b"\x5a" * 254)
        text = run("decode", octets).out
        for closed in ("2>&-", "<&- 2>&-", "<&- >&- 2>&-"):
            self.assertEqual(self.shell('"$TOOL" decode "$PLACE/octets" -o "$PLACE/out" ' + closed).status, 0)
            with open(self.path("out"), "rb") as file:
                self.assertEqual(file.read(), text, closed)

    def test_closed_pipes(self):
        """Ended by the signal, with nothing said."""
        long = self.path("long", LONG)
        for words in REPLAYING + (["decode"],):
            with self.subTest(words):
                it = self.start(*words, long)
                self.assertTrue(it.stdout.read(10))
                it.stdout.close()
                self.assertEqual((it.stderr.read(), it.wait(60)), (b"", -signal.SIGPIPE))
        self.assertEqual(self.shell('set -o pipefail; "$TOOL" decode "$PLACE/long" | head -n 1').status, 141)
        self.assertEqual(self.shell('set -o pipefail; "$TOOL" --help | true').status, 141)

    def test_interrupted(self):
        for words in REPLAYING + (["encode"], ["decode"], ["replay", "-o", self.path("out")], ["encode", "-o", self.path("out")]):
            for number in (signal.SIGINT, signal.SIGTERM):
                with self.subTest(words, signal=number):
                    it = self.start(*words)
                    it.stdin.write(b"\x01\0\3" if words != ["encode"] else b"open 1 1\n")
                    self.settle(it)
                    it.send_signal(number)
                    self.assertEqual((it.wait(60), it.stderr.read()), (-number, b""))
        self.assertEqual(os.listdir(self.place), [], "an unfinished file is left")

    def test_interrupted_at_any_time(self):
        """From the first moment on: ended by the signal, and nothing said."""
        if subprocess.run(["env", "--block-signal=INT", "true"], stderr=subprocess.DEVNULL).returncode:
            self.skipTest("env cannot block a signal here")
        chance = random.Random(SEED)
        for _ in range(40):
            it = self.start("replay")
            time.sleep(chance.random() * 0.15)
            it.send_signal(signal.SIGINT)
            self.assertEqual((it.wait(60), it.stderr.read()), (-signal.SIGINT, b""))

    def settle(self, it):
        """Until it waits for more input."""
        for _ in range(600):
            with open("/proc/%d/stat" % it.pid) as file:
                state = file.read().rsplit(")", 1)[1].split()[0]
            with open("/proc/%d/cmdline" % it.pid) as file:
                python = "__main__" in file.read()
            names = os.listdir("/proc/%d/fd" % it.pid)
            if python and state == "S" and len(names) >= 3:
                time.sleep(0.15)
                return
            time.sleep(0.02)
        self.fail("it never waits")

    def test_interruptions_that_are_ignored_stay_so(self):
        it = self.start("replay", preexec_fn=lambda: signal.signal(signal.SIGINT, signal.SIG_IGN))
        self.settle(it)
        it.send_signal(signal.SIGINT)
        self.assertEqual(it.communicate(TRACE, timeout=60), (run("replay", example("origins")).out, b""))

    def test_a_disk_that_fills_up(self):
        """Part of a file is written, then no more is: the old file stays, and no other is left."""
        def limited():
            resource.setrlimit(resource.RLIMIT_FSIZE, (100, 100))

        long = self.path("long", LONG)
        old = self.path("old", b"precious")
        for words in REPLAYING + (["decode"],):
            ran = process(*words, long, "-o", old, preexec_fn=limited)
            self.assertEqual(ran, (2, b"", "%s: File too large\n" % old), words)
        with open(old, "rb") as file:
            self.assertEqual(file.read(), b"precious")
        self.assertEqual(sorted(os.listdir(self.place)), ["long", "old"])

    CLOSE = r"""
        #define _GNU_SOURCE
        #include <dlfcn.h>
        #include <errno.h>
        #include <stdlib.h>
        #include <sys/stat.h>
        int close(int number)
        {
            struct stat it;
            int bad = fstat(number, &it) == 0 && S_ISREG(it.st_mode) && it.st_size > 0 && it.st_ino == strtoul(getenv("FULL_AT_CLOSE"), 0, 10);
            int (*next)(int) = (int (*)(int))dlsym(RTLD_NEXT, "close");
            int answer = next(number);
            if (bad) { errno = ENOSPC; return -1; }
            return answer;
        }
    """

    def test_a_disk_that_is_full_only_at_the_end(self):
        """Some systems tell that a file has no room when it is closed."""
        if not shutil.which("gcc"):
            self.skipTest("no gcc")
        library, out = self.path("full.so"), self.path("out", b"")
        subprocess.run(["gcc", "-shared", "-fPIC", "-x", "c", "-", "-o", library, "-ldl"], input=self.CLOSE.encode(), check=True)
        names = dict(os.environ, LD_PRELOAD=library, FULL_AT_CLOSE=str(os.stat(out).st_ino))
        with open(out, "wb") as file:
            done = subprocess.run([TOOL, "encode", example("origins")], stdout=file, stderr=subprocess.PIPE, env=names, timeout=60)
        self.assertEqual((done.returncode, done.stderr), (2, b"standard output: No space left on device\n"))

    def test_undecodable_names(self):
        name = os.path.join(os.fsencode(self.place), b"a\xff\n\x1b[31mb")
        with open(name, "wb") as file:
            file.write(TRACE)
        for words in REPLAYING:
            self.assertEqual(run(*words, os.fsdecode(name))[::2], (0, ""), words)
        shown = "%s/a\\xFF\\x0A\\x1B[31mb" % self.place
        self.assertEqual(json.loads(run("records", "--json", os.fsdecode(name)).out.splitlines()[0])["file"], shown)
        os.unlink(name)
        self.assertEqual(process("replay", os.fsdecode(name)), (2, b"", shown + ": No such file or directory\n"))
        self.assertEqual(process(b"fo\xff").status, 64)
        self.assertEqual(process("encode", example("origins"), "-o", os.fsdecode(name)), (0, b"", ""))
        self.assertEqual(os.listdir(os.fsencode(self.place)), [os.path.basename(name)])

    def test_names_of_files_in_any_locale(self):
        for locale in ("C", "POSIX", "C.UTF-8"):
            ran = process("replay", os.fsdecode(b"/none\xc3\xa9"), env=dict(os.environ, LC_ALL=locale, PYTHONIOENCODING="none", PYTHONPATH=self.place))
            self.assertEqual(ran, (2, b"", "/none\u00e9: No such file or directory\n"))

    def test_a_file_keeps_its_mode_and_links(self):
        real, link = self.path("real", b"old"), self.path("link")
        os.chmod(real, 0o640)
        os.symlink("real", link)
        self.assertEqual(run("encode", example("origins"), "-o", link).status, 0)
        self.assertTrue(os.path.islink(link))
        self.assertEqual(stat.S_IMODE(os.stat(real).st_mode), 0o640)
        with open(real, "rb") as file:
            self.assertEqual(file.read(), TRACE)

    def test_input_that_comes_slowly(self):
        """Lines come as their records do, in octets; and where a trace stops, nobody waits for the rest of it."""
        it = self.start("replay")
        it.stdin.write(TRACE[:12])
        self.assertEqual(it.stdout.read(13), b"open 0 0 0 0\n")
        it.stdin.write(b"\7")
        self.assertEqual((it.stdout.read(), it.wait(60)), (b"stop\n", 3))
        it = self.start("explain")
        it.stdin.write(TRACE[:12])
        self.assertIn(b"open, T 100", it.stdout.read(200))
        it.stdin.close()
        self.assertEqual(it.wait(60), 0)

    def test_input_that_does_not_wait(self):
        ours, theirs = os.pipe()
        os.set_blocking(ours, False)
        it = self.start("decode", stdin=ours)
        self.assertEqual((it.stderr.read(), it.wait(60)), (b"standard input: Resource temporarily unavailable\n", 2))
        os.close(ours)
        os.close(theirs)


class Programs(Folder):
    """With programs that fail, or are not there."""

    def with_program(self, name, script, *words, data=TRACE):
        path = self.path(name, b"#!/bin/sh\n" + script.encode())
        os.chmod(path, 0o755)
        return process(*words, data=data, env=dict(os.environ, EGRYNNOL_LIBEXEC=self.place))

    def test_missing(self):
        for words in REPLAYING:
            name = program_of(words)
            ran = process(*words, example("origins"), env=dict(os.environ, EGRYNNOL_LIBEXEC=self.place))
            self.assertEqual(ran.status, 2)
            self.assertEqual(ran.err, "egrynnol: the program %s is missing: there is no %s; build it with make, or set EGRYNNOL_LIBEXEC to its folder\n"
                             % (name, self.path(name)))

    def test_not_for_this_machine(self):
        path = self.path("replay", b"no program")
        os.chmod(path, 0o755)
        ran = process("replay", example("origins"), env=dict(os.environ, EGRYNNOL_LIBEXEC=self.place))
        self.assertEqual(ran[::2], (2, "egrynnol: %s cannot be run: Exec format error\n" % path))

    def test_anything_on_standard_error(self):
        ran = self.with_program("replay", "cat >/dev/null; echo open 0 0 0 0; printf 'replay: cannot write: x' >&2", "replay")
        self.assertEqual(ran, (2, b"open 0 0 0 0\n", "replay: cannot write: xegrynnol: replay failed: what it printed is not whole\n"))

    def test_a_failure_keeps_the_old_file(self):
        old = self.path("old", b"precious")
        ran = self.with_program("replay", "cat >/dev/null; echo open 0 0 0 0; echo replay: cannot read: x >&2", "replay", "-o", old)
        self.assertEqual((ran.status, ran.err.splitlines()[-1]), (2, old + ": not written"))
        with open(old, "rb") as file:
            self.assertEqual(file.read(), b"precious")

    def test_ended_by_a_signal(self):
        ran = self.with_program("replay", "kill -SEGV $$", "replay")
        self.assertEqual(ran[::2], (2, "egrynnol: replay was ended by signal 11 (SIGSEGV)\n"))
        self.assertEqual(self.with_program("replay", "exit 7", "replay")[::2], (2, "egrynnol: replay ended with status 7\n"))

    def test_nothing_waits_for_anything(self):
        """Much on both outputs while nothing is read; and nothing is read at all."""
        script = "head -c 3000000 /dev/zero >&2; head -c 3000000 /dev/zero; cat >/dev/null"
        ran = self.with_program("replay", script, "replay", data=LONG)
        self.assertEqual((ran.status, len(ran.out), ran.err.count("\0")), (2, 3000000, 3000000))
        self.assertEqual(self.with_program("replay", "exec <&-; sleep 0.1; echo stop", "replay", data=LONG)[:2], (3, b"stop\n"))

    def test_nonsense(self):
        opened = "open 0 0 0 0 1 -\n"
        for line in ("event 1", "open 0 0 0 0", "segment 0 0 0 0 1 -", "segment 6 0 0 0 2 refused 6", "open 0 0 0 0 - 1 -", "open 12 0 0 0 0 1 refused 12", opened + "segment 0 0 0 0 - 2 saved 0",
                     opened + "segment 6 0 0 0 2 0 refused 6", opened + "segment 6 0 0 0 x 2 0 refused 6", opened + "segment 6 0 0 0 -1 2 0 refused 6", opened + "segment 6 0 0 0 1 2 - refused 6",
                     opened + "segment 0 0 0 0 1 2 0 saved 0", opened + "segment 6 0 0 0 %s 2 0 refused 6" % ("9" * 5000), opened + "open 0 0 0 0 2 -\nopen 0 0 0 0 3 -", "delivered 1 2", "\\377\\376", "stop", "held 1 2 3",
                     "delivered 9 3 5 1 0 2 2 - -", opened + "delivered 9 3 5 1 0 2 2 -", opened + "delivered 9 3 5 1 0 2 2 - -", opened + "segment 0 1 2 0 - 2 0 delivered\ndelivered 9 4 5 1 0 2 2 07 0a",
                     opened + "segment 0 1 2 0 - 2 0 delivered\ndelivered 9 4 5 1 0 2 2 07 070", opened + "segment 0 1 0 2 - 2 0 lost\nlost 9 4 5 1 1 2 2 07 07 07",
                     "open 0 0 0 0 1 refused 5", "open 5 0 0 0 1 -", "open 0 0 0 0 1 0 -", "open 0 0 0 0 %s -" % ("9" * 5000),
                     # records that are neither the clock's nor the segment's own, or in another order
                     opened + "segment 0 1 0 2 - 2 0 saved 0", opened + "segment 0 1 0 2 - 2 1 lost", opened + "segment 0 0 0 0 - 2 0 delivered", opened + "segment 8 1 0 2 0 2 0 refused 8", opened + "segment 8 0 0 0 0 2 1 refused 8",
                     opened + "segment 0 0 0 0 - 2 %s saved 0" % ("9" * 19), opened + "segment 0 2 0 2 - 2 1 lost\nlost 9 4 5 1 1 1 1 - -", opened + "segment 0 1 0 1 - 2 1 saved 0\nlost 9 4 5 1 7 1 1 - -",
                     opened + "segment 0 1 0 1 - 2 0 lost\nlost 9 4 5 1 6 1 1 - -", opened + "segment 0 0 0 0 - 2 0 saved 0\nlost 9 4 5 1 6 1 1 - -", opened + "segment 8 1 0 1 0 2 1 refused 8\nlost 9 4 5 1 6 1 1 - -\nlost 9 4 5 1 6 1 1 - -"):
            for words in (["explain"], ["records", "--json"]):
                ran = self.with_program("records", "cat >/dev/null; printf '%s\\n'" % line, *words)
                self.assertEqual(ran.status, 2, line)
                self.assertRegex(ran.err, r"\Aegrynnol: records (printed|stopped) [^\n]+\n\Z")
        for line in ("opening 1", "opening 1 0 0", "9 1 1 1 1 0 0", "opening 1 0\n9 1 1 1 1 0", "opening 1 0\n9 1 1 1 1 0 0 0", "opening 1 0\n9 1 1 1 1 0 -1", "opening -", "Stop", "\\377\\376", " ",
                     "stop\nstop", "stop\nopening 1 0", "opening 1 0\n9 1 1 1 1 0 %s" % ("9" * 5000), "opening 1 0\n9  1 1 1 1 0 0"):
            ran = self.with_program("totals", "cat >/dev/null; printf '%s\\n'" % line, "totals", "--csv")
            self.assertEqual((ran.status, ran.out), (2, head_of(["totals", "--csv"])), line)
            self.assertRegex(ran.err, r"\Aegrynnol: totals printed [^\n]+\n\Z")
        ran = self.with_program("totals", "cat >/dev/null; printf 'opening 1 0\\n9 1 1'", "totals", "--csv")
        self.assertEqual(ran[::2], (2, "egrynnol: totals printed half a line\n"))

    def test_a_file_that_cannot_be_read_to_its_end(self):
        """It must not look like the end of the trace: nothing is told as held."""
        ours, theirs = os.pipe()
        os.set_blocking(ours, False)
        os.write(theirs, TRACE[:12 + 263])
        it = self.start("records", stdin=ours)
        out, err = it.communicate(timeout=60)
        self.assertEqual((it.returncode, err), (2, b"standard input: Resource temporarily unavailable\n"))
        self.assertNotIn(b"held", out)
        os.close(ours)
        os.close(theirs)

    def test_totals_of_a_file_that_cannot_be_read_to_its_end(self):
        """Nor is there a row: more might have come to it."""
        for words in (["totals"], ["totals", "--csv"]):
            ours, theirs = os.pipe()
            os.set_blocking(ours, False)
            os.write(theirs, TRACE[:12 + 263])
            it = self.start(*words, stdin=ours)
            out, err = it.communicate(timeout=60)
            self.assertEqual((it.returncode, err), (2, b"standard input: Resource temporarily unavailable\n"))
            self.assertIn(out, (head_of(words), head_of(words) + b"opening 1 0\n"))
            os.close(ours)
            os.close(theirs)

    def test_a_number_is_not_read_from_once_it_may_be_another_file(self):
        """A program can stop while a thread of ours still reads the trace for it."""
        ours, theirs = os.pipe()
        raw = streams.Raw(ours, "T")
        raw.stop()
        self.assertRaises(OSError, os.fstat, ours)
        again = os.dup(theirs)
        self.assertEqual((again, raw.some(10)), (ours, b""))
        os.close(again)
        os.close(theirs)
        ours, theirs = os.pipe()
        raw, got = streams.Raw(ours, "T"), []
        waits = threading.Thread(target=lambda: got.append(raw.some(10)))
        waits.start()
        while not raw.reading:
            time.sleep(0.01)
        raw.stop()
        os.fstat(ours)
        os.write(theirs, b"x")
        waits.join(60)
        self.assertEqual((got, raw.some(10)), ([b"x"], b""))
        os.close(ours)
        os.close(theirs)

    def test_where_they_are(self):
        """The variable, then as installed, then as built."""
        names = os.environ.pop(programs.VARIABLE, None)
        keep = programs.command_folder
        try:
            programs.command_folder = os.path.join(self.place, "bin")
            self.assertEqual(programs.folder(), os.path.join(self.place, "target", "bin"))
            os.makedirs(os.path.join(self.place, "libexec", "egrynnol"))
            os.makedirs(os.path.join(self.place, "bin"))
            self.assertEqual(programs.folder(), os.path.join(self.place, "libexec", "egrynnol"))
            os.environ[programs.VARIABLE] = "elsewhere"
            self.assertEqual(programs.folder(), "elsewhere")
        finally:
            programs.command_folder = keep
            os.environ.pop(programs.VARIABLE, None)
            if names is not None:
                os.environ[programs.VARIABLE] = names


class TextOrOctets(Folder):

    def test_told_apart(self):
        for octets, text in ((b"context 1998 3\n", True), (b"  open 1 1", True), (b"# why\n", True), (b"# why\n\n \t# more\r\nclock 1\r\n", True), (b"\xef\xbb\xbf# x\n", True),
                             (b"opne 100 0\n", True), (b"#A", True), (b"", True), (b"# caf\xc3\xa9\nopen 1 1\n", True), (b"#ABclock", True),
                             (b"context 1998 3\n# \0", True), (b"\n\nclock 1", True), (b" context 1998 3\n", True),
                             (b"\1\0\3", False), (b" \0\0\0d\0\0\0\0", False), (b"#AB", False), (b"#AB#CD", False), (b'"abcd', False), (b"!timeAB " + b"x" * 255, False), (b"!AB " + b"x" * 255, True),
                             (b"#\0\t", False), (b"\0", False), (b"# \0context 1998 3\n", False)):
            self.assertEqual(bool(streams.told(octets, True)), text, octets)

    def test_as_little_as_is_needed(self):
        for octets in (b"#AB", b"#A", b"# ", b"", b"!timeAB " + b"x" * 200):
            self.assertIsNone(streams.told(octets, False), octets)
        self.assertEqual(streams.told(b"#AB" * 30000, False), False)

    def test_options_decide(self):
        self.assertEqual(run("replay", data=b"#AB"), (0, b"release 1 0 0 0\n", ""))
        self.assertEqual(run("replay", "--text", data=b"#AB"), (0, b"", ""))
        self.assertEqual(run("replay", "--octets", data=b"clock 1\n"), (3, b"stop\n", ""))
        self.assertEqual(run("replay", "--text", data=TRACE).status, 1)

    def test_every_example_both_ways(self):
        for name in examples():
            octets = run("encode", example(name)).out
            for words in (["replay"], ["records"], ["totals"], ["totals", "--csv"]):
                self.assertEqual(run(*words, data=octets), run(*words, example(name)), name)


def as_line(row):
    """The line of records that a row of a table was made from, without the table's code."""
    if row["row"] == "stop":
        return "stop"
    if row["row"] == "event":
        decided = row["decision"] or "-"
        decided += " %s" % row["refusal"] if decided == "refused" else " %s" % row["place"] if decided == "saved" else ""
        of_segment = row["name"] == "segment"
        position = ["-" if row["position"] in (None, "") else row["position"]] if of_segment else []
        assert of_segment or (row["position"], row["timeouts"]) in ((None, None), ("", "")), row
        return " ".join(map(str, [row["name"], row["refusal"], row["records"], row["octets_delivered"], row["octets_lost"], *position, row["event"], *[row["timeouts"]] * of_segment, decided]))
    origin, destination = (re.sub("^0x", "", row[name]) or "-" for name in ("origin", "destination"))
    reference = "-" if row["reference"] in (None, "") else row["reference"]
    return "%s %s %s %s %s %s %s %s %s %s" % (row["row"], row["association"], row["context"], reference, row["instruction"], row["cause"], row["segments"], row["octets"],
                                              origin, destination)


class Tables(Folder):

    def check(self, path, text):
        """Both tables say what the lines say, and where."""
        lines = run("records", path).out.decode().splitlines()
        csv_rows = list(csv.DictReader(io.StringIO(run("records", "--csv", path).out.decode(), newline="")))
        json_rows = [json.loads(line) for line in run("records", "--json", path).out.decode().splitlines()]
        self.assertEqual([as_line(row) for row in csv_rows], lines)
        self.assertEqual([as_line(row) for row in json_rows], lines)
        for left, right in zip(csv_rows, json_rows):
            self.assertEqual(list(left), list(right))
            self.assertTrue(all(isinstance(value, (int, type(None))) for key, value in right.items() if key not in ("file", "row", "name", "decision", "made_by", "origin", "destination")))
        self.makers(json_rows)
        self.places(json_rows, path, text)

    def makers(self, found):
        """Of a segment's records as many as its timeouts are the clock's, and the first; what was dropped or is held nobody made."""
        event, told = None, 0
        for row in found:
            if row["row"] == "event":
                event, told = row, 0
            elif row["row"] in ("delivered", "lost"):
                self.assertEqual(row["made_by"], "clock" if told < (event["timeouts"] or 0) else event["name"])
                self.assertEqual(row["made_by"] == "clock", row["cause"] == 6)
                told += 1
            self.assertTrue(row["made_by"] is None or row["row"] in ("delivered", "lost"))

    def places(self, found, path, text):
        """An event's line has its name on it, and its records the same line; what is held has none."""
        with open(path, "rb") as file:
            octets = file.read()
        event = None
        for row in found:
            where = (row["line"], row["offset"])
            self.assertEqual(row["line" if not text else "offset"], None)
            if row["row"] == "event":
                event = (row["event"], where)
                word = octets.splitlines()[row["line"] - 1].split()[0].decode() if text else {32: "open", 33: "segment", 34: "clock", 35: "release"}[octets[row["offset"]]]
                self.assertEqual(word, row["name"])
            elif row["row"] == "held":
                self.assertEqual((row["event"], where), (None, (None, None)))
            elif row["row"] == "stop":
                self.assertIsNone(row["event"])
                self.assertNotEqual(where, (None, None))
            else:
                self.assertEqual((row["event"], where), event)

    def test_examples(self):
        for name in examples():
            self.check(example(name), True)
            self.check(self.path(name, run("encode", example(name)).out), False)

    def test_every_kind_of_row(self):
        text = self.path("t", b"context 2000 4\nopen 100 0\n\nsegment 0 9 84 80 41 85 02 00 07 02 07 00 AA\nopen 0 0 # drops\nopen 100 0\nsegment 0 9 84 80 41 85 01 1E 00 AA\ncontext 1998 3\n")
        self.check(text, True)
        found = [json.loads(line) for line in run("records", "--json", text).out.decode().splitlines()]
        self.assertEqual([row["row"] for row in found], ["event", "event", "event", "dropped", "event", "event", "held", "stop"])
        self.assertEqual([row["line"] for row in found], [2, 4, 5, 5, 6, 7, None, 8])
        self.assertEqual([(row["origin"], row["destination"]) for row in found], [(None, None)] * 3 + [("0007", "0700")] + [(None, None)] * 2 + [("1E", ""), (None, None)])

    def test_columns(self):
        """The destination stands behind the origin, and both last."""
        head, *table = csv.reader(io.StringIO(run("records", "--csv", example("two-exchanges")).out.decode(), newline=""))
        self.assertEqual(head, list(rows.COLUMNS))
        self.assertEqual(head[-3:], ["octets", "origin", "destination"])
        self.assertEqual([row[-9:] for row in table[-3:]], [[""] * 9, "9 4 9 2 7 1 1 0x3132 0x21".split(), "9 4 9 0 7 1 2 0x3132 0x22".split()])
        last = json.loads(run("records", "--json", example("two-exchanges")).out.decode().splitlines()[-1])
        self.assertEqual(list(last), head)
        self.assertEqual((last["origin"], last["destination"]), ("3132", "22"))

    def test_positions(self):
        """Behind what replay prints before it, as a number; nothing where no octet is at fault, and nothing for what is no segment."""
        self.assertEqual(rows.COLUMNS[5:14], ("name", "refusal", "records", "octets_delivered", "octets_lost", "position", "timeouts", "decision", "place"))
        text = b"segment 0 9\ncontext 2000 4\nopen 100 0\nsegment 0 9 84 00\nsegment 0 9\nsegment 0 9 84 80 C0 02 AA\nsegment 0 9 84 80 41 85 00 00\nclock 5\nclock 1\n"
        found = [json.loads(line) for line in run("records", "--json", data=text).out.decode().splitlines()]
        self.assertEqual([(row["name"], row["refusal"], row["position"]) for row in found if row["row"] == "event"],
                         [("segment", 1, None), ("open", 0, None), ("segment", 6, 1), ("segment", 5, 0), ("segment", 5, 5), ("segment", 0, None), ("clock", 0, None), ("clock", 13, None)])
        table = list(csv.DictReader(io.StringIO(run("records", "--csv", data=text).out.decode(), newline="")))
        self.assertEqual([row["position"] for row in table], ["", "", "1", "0", "5", "", "", "", ""])

    def test_whose_a_segments_records_are(self):
        """timeouts stands for segments alone, and made_by for records alone, before whose they are."""
        self.assertEqual(rows.COLUMNS[14:16], ("made_by", "association"))
        text = b"context 1998 3\nopen 100 0\nsegment 0 9 83 80 41 85 AA\nsegment 100 9 83 80 00 85 BB\nsegment 100 9 83 80 41 85 AA\nsegment 200 9 85\nsegment 200 9 83 80 41 85 AA\nclock 300\nsegment 300 9 83 80 41 85 AA\nrelease 9\n"
        found = [json.loads(line) for line in run("records", "--json", data=text).out.decode().splitlines()]
        self.assertEqual([(row["name"], row["timeouts"]) for row in found if row["row"] == "event"],
                         [("open", None), ("segment", 0), ("segment", 1), ("segment", 0), ("segment", 1), ("segment", 0), ("clock", None), ("segment", 0), ("release", None)])
        self.assertEqual([(row["event"], row["made_by"], row["cause"]) for row in found if row["row"] == "lost"],
                         [(3, "clock", 6), (3, "segment", 1), (5, "clock", 6), (7, "clock", 6), (9, "release", 7)])
        table = list(csv.DictReader(io.StringIO(run("records", "--csv", data=text).out.decode(), newline="")))
        self.assertEqual([row["made_by"] for row in table if row["row"] == "lost"], ["clock", "segment", "clock", "clock", "release"])

    def test_a_spreadsheet_must_not_take_an_address_for_a_number(self):
        self.assertIn(b",0x0007,\n", run("records", "--csv", example("origins")).out)
        found = run("records", "--csv", example("two-exchanges")).out
        for digits in (b"07", b"0007", b"0700"):
            self.assertIn(b",0x3132,0x%s\n" % digits, found)
        self.assertNotRegex(found.decode(), r",(?:3132|0007|0700|07)[,\n]")

    def test_to_a_file(self):
        out = self.path("table.csv")
        self.assertEqual(run("records", "--csv", example("billing-day"), "-o", out), (0, b"", ""))
        with open(out, "rb") as file:
            self.assertEqual(file.read(), run("records", "--csv", example("billing-day")).out)


class Totals(Folder):

    HEAD = "opening,refusal,association,taken_segments,taken_octets,delivered_segments,delivered_octets,lost_segments,lost_octets\n"

    def lines_again(self, table):
        """The lines of totals that a table was made from; an opening with no row is not told."""
        lines, last = [], None
        for row in table:
            heading = "opening %s %s" % (row["opening"], row["refusal"])
            lines += [heading] * (heading != last)
            lines.append(" ".join(list(row.values())[2:]))
            last = heading
        return lines

    def told_lines(self, text):
        """The lines that the program prints, but for 'stop' and headings with nothing under them."""
        lines = text.decode().splitlines()
        lines = [line for line in lines if line != "stop"]
        return [line for line, next_ in zip(lines, lines[1:] + ["opening"]) if not (line.startswith("opening") and next_.startswith("opening"))]

    def test_examples(self):
        for name in examples():
            lines, table = run("totals", example(name)), run("totals", "--csv", example(name))
            self.assertEqual((table.status, table.err), (lines.status, ""))
            self.assertTrue(table.out.decode().startswith(self.HEAD))
            self.assertEqual(self.lines_again(csv.DictReader(io.StringIO(table.out.decode(), newline=""))), self.told_lines(lines.out), name)

    def test_the_bill_of_a_day(self):
        self.assertEqual(run("totals", "--csv", example("billing-day")), (0, (self.HEAD + "1,0,101,5,17,3,11,2,6\n1,0,202,6,19,5,16,1,3\n").encode(), ""))

    def test_openings(self):
        """Refused ones, empty ones, events before the first; each opening begins anew, and a stop is no row."""
        text = (b"clock 1\ncontext 1998 3\nopen 0 0\nsegment 0 9 83 80 C0 AA\nopen 100 0\nopen 100 0\nsegment 0 9 83 80 C0 AA\nsegment 0 0 83 80 41 85 01\n"
                b"open 100 0\nsegment 0 0 83 80 00 85 01 02\ncontext 1998 4\n")
        self.assertEqual(run("totals", data=text), (3, b"opening 2 12\nopening 4 0\nopening 5 0\n9 1 1 1 1 0 0\n0 1 1 0 0 0 0\nopening 8 0\n0 1 2 0 0 1 2\nstop\n", ""))
        self.assertEqual(run("totals", "--csv", data=text), (3, (self.HEAD + "5,0,9,1,1,1,1,0,0\n5,0,0,1,1,0,0,0,0\n8,0,0,1,2,0,0,1,2\n").encode(), ""))

    def test_no_opening(self):
        for text in (b"", b"context 1998 3\n", b"clock 1\nrelease 9\n"):
            self.assertEqual(run("totals", data=text), (0, b"", ""))
            self.assertEqual(run("totals", "--csv", data=text), (0, self.HEAD.encode(), ""))

    def test_to_a_file(self):
        out = self.path("bill.csv")
        self.assertEqual(run("totals", "--csv", example("billing-day"), "-o", out), (0, b"", ""))
        with open(out, "rb") as file:
            self.assertEqual(file.read(), run("totals", "--csv", example("billing-day")).out)
        self.assertEqual(run("totals", "--csv", "a", "b", "-o", out).status, 64)
        self.assertEqual(os.listdir(self.place), ["bill.csv"])

    def test_an_opening_with_its_rows_as_soon_as_the_next_one_comes(self):
        for words, wanted in ((["totals"], b"opening 1 0\n9 4 8 4 8 0 0\n"), (["totals", "--csv"], head_of(["totals", "--csv"]) + b"1,0,9,4,8,4,8,0,0\n")):
            it = self.start(*words)
            it.stdin.write(TRACE + TRACE[3:12])
            got = b""
            while len(got) < len(wanted):
                got += it.stdout.read(len(wanted) - len(got))
            self.assertEqual(got, wanted)
            it.stdin.close()
            self.assertEqual(it.wait(60), 0)

    def test_the_largest_numbers(self):
        path = self.path("totals", b"#!/bin/sh\ncat >/dev/null; echo opening 18446744073709551 0; echo 65535 9223372036854775808 9223372036854775808 1 2 3 4\n")
        os.chmod(path, 0o755)
        ran = process("totals", "--csv", data=TRACE, env=dict(os.environ, EGRYNNOL_LIBEXEC=self.place))
        self.assertEqual(ran, (0, (self.HEAD + "18446744073709551,0,65535,9223372036854775808,9223372036854775808,1,2,3,4\n").encode(), ""))


class Refusals(Folder):

    def test_examples(self):
        """By association and number, as the lines of replay have them."""
        for name in examples():
            counts = run("refusals", example(name))
            lines = [line.split() for line in run("replay", example(name)).out.decode().splitlines()]
            refused = [line[1] for line in lines if line[0] == "segment" and line[1] != "0"]
            again = [number for _, number, segments in map(str.split, counts.out.decode().splitlines()) for _ in range(int(segments))]
            self.assertEqual(sorted(again), sorted(refused), name)
            self.assertEqual((counts.status, counts.err), (run("replay", example(name)).status, ""))

    def test_one_number(self):
        self.assertEqual(run("refusals", "--number", "23", example("padded")), (0, b"9 23 4\n10 23 1\n", ""))
        self.assertEqual(run("refusals", "--number", "13", example("padded")), (0, b"", ""))
        self.assertEqual(run("refusals", "--csv", "--number", "8", example("padded")), (0, b"association,refusal,segments\n9,8,1\n", ""))
        for word in ("0", "256", "x", "-1", "\u0662"):
            self.assertEqual(run("refusals", "--number=" + word, example("padded")).status, 64)

    def test_traces_together(self):
        self.assertEqual(run("refusals", "--number", "23", example("padded"), example("padded"), example("origins")), (0, b"9 23 8\n10 23 2\n", ""))

    def test_bad_and_stopped(self):
        """A text with a bad line counts for nothing; a trace that stops counts up to there; the worst status counts."""
        bad = self.path("bad.trace", b"context 1998 3\nopen 100 0\nsegment 0 9 03 80\nsegments\n")
        stopped = self.path("stopped.trace", b"context 1998 3\nopen 100 0\nsegment 0 9 03 80\ncontext 1998 4\nsegment 0 9 03 80\n")
        self.assertEqual(run("refusals", stopped)[:2], (3, b"9 23 1\n"))
        ran = run("refusals", bad, stopped)
        self.assertEqual(ran[:2], (1, b"9 23 1\n"))
        self.assertIn("bad.trace", ran.err)
        self.assertEqual(run("refusals", self.path("none"))[:2], (2, b""))


class Help(Folder):

    def test_help_of_each(self):
        top = run("--help")
        self.assertEqual(top[::2], (0, ""))
        for name in SUBCOMMANDS:
            self.assertRegex(top.out.decode(), r"(?m)^  %s +\w" % name)
            for word in ("--help", "-h"):
                ran = run(name, word)
                self.assertEqual(ran[::2], (0, ""))
                self.assertTrue(ran.out.startswith(b"usage: egrynnol %s " % name.encode()))
                self.assertIn(b"Exit status: 0 good; 1 bad input; 2", ran.out)

    def test_version(self):
        with open(os.path.join(ROOT, "include", "egrynnol.h")) as file:
            self.assertIn('\n#define EGRYNNOL_VERSION_STRING "%s"\n' % VERSION, file.read())
        self.assertEqual(process("--version"), (0, b"egrynnol %s\n" % VERSION.encode(), ""))

    def test_one_more_is_an_entry_and_a_function(self):
        def further(options, out):
            out.write(b"further\n")
            return commands.STOPPED

        keep = commands.COMMANDS
        commands.COMMANDS += (commands.Command("further", further, "one more", "More of it.\n", ("out",)),)
        try:
            self.assertEqual(run("further"), (3, b"further\n", ""))
            self.assertIn(b"  further    one more\n", run("--help").out)
            self.assertIn(b"More of it.", run("further", "--help").out)
            self.assertEqual(run("further", "x").status, 64)
        finally:
            commands.COMMANDS = keep

    def complete(self, *words):
        script = 'source "$1"; shift; COMP_WORDS=("$@"); COMP_CWORD=$(($# - 1)); _egrynnol; printf "%s\\n" "${COMPREPLY[@]}"'
        done = subprocess.run(["bash", "-c", script, "bash", os.path.join(TOOLS, "egrynnol.bash"), *words], stdout=subprocess.PIPE, check=True, cwd=self.place)
        return set(done.stdout.decode().split())

    def test_completion(self):
        self.assertEqual(self.complete(TOOL, ""), set(SUBCOMMANDS) | {"--help", "--version"})
        self.assertEqual(self.complete(TOOL, "re"), {"replay", "records", "refusals"})
        self.path("a.trace", b"")
        self.assertEqual(self.complete(TOOL, "replay", ""), {"a.trace"})
        self.assertEqual(self.complete(TOOL, "from-pcap", "--tick", ""), set())
        for name in SUBCOMMANDS:
            parser = commands.parser_of(next(command for command in commands.COMMANDS if command.name == name))
            options = {words[-1] for words in (action.option_strings for action in parser._actions) if words}
            self.assertEqual(self.complete(TOOL, name, "-"), options, name)
        self.assertEqual(self.complete(TOOL, "records", "--j"), {"--json"})
        self.assertEqual(self.complete(TOOL, "t"), {"totals"})
        self.assertEqual(self.complete(TOOL, "u"), {"upgrade"})
        self.assertEqual(self.complete(TOOL, "totals", "--c"), {"--csv"})


class Documents(Folder):
    """What the pages show of the command is what it prints."""

    def page(self, *names):
        with open(os.path.join(ROOT, *names), encoding="utf-8") as file:
            return file.read()

    def blocks(self, name):
        """The examples of a manual page, as a reader sees them."""
        text = self.page("man", name)
        for escape, plain in (("\\(aq", "'"), ("\\(ha", "^"), ("\\-", "-"), ("\\e", "\\")):
            text = text.replace(escape, plain)
        return re.findall(r"^\.EX\n(.*?)^\.EE$", text, flags=re.S | re.M)

    def pasted(self, line):
        done = subprocess.run(["sh", "-c", line], stdout=subprocess.PIPE, stderr=subprocess.PIPE, env=dict(os.environ, PATH=TOOLS + ":" + os.environ["PATH"]), timeout=60)
        self.assertEqual(done.stderr, b"")
        return done.stdout.decode()

    def test_examples_of_the_manual(self):
        """A command, and in the next block what it prints, or the end of that."""
        for name, most in (("egrynnol.1", 3), ("egrynnol-trace.5", 3)):
            blocks, tried = self.blocks(name), 0
            for command, shown in zip(blocks, blocks[1:]):
                if command.startswith("printf ") and re.match("open|line", shown):
                    self.assertTrue(self.pasted(command).endswith(shown), (command, shown))
                    tried += 1
            self.assertEqual(tried, most, name)
        self.assertTrue(self.pasted(self.blocks("egrynnol-trace.5")[-1]).endswith("\nstop\n"))

    def test_the_manuals_lines_of_records_and_totals(self):
        text = b"context 1998 3\nopen 100 0\nsegment 0 9 83 81 41 85 AA\nsegment 1 9 83 80 00 85 BB\nsegment 2 9 83 80 41 86 CC\nrelease 8\n"
        for name in ("records", "totals"):
            self.assertIn(run(name, data=text).out.decode(), self.blocks("egrynnol-trace.5"))

    def test_what_the_readme_prints(self):
        text = self.page("README.md")
        block = re.search(r"It prints\n\n((?:    .*\n)+)", text).group(1)
        self.assertEqual(re.sub("(?m)^    ", "", block).encode(), run("replay", example("origins")).out)

    def test_lines_of_the_examples(self):
        """What the page and the trace itself show of examples/arrival is what records prints of it."""
        lines = run("records", example("arrival")).out.decode().splitlines()
        shown = re.findall(r"[`'](segment \d+ \d+ \d+ \d+ [-\d]+ \d+ \d+ \w+(?: \d+)?)[`']", self.page("examples", "README.md") + self.page("examples", "arrival.trace"))
        self.assertEqual(len(shown), 3)
        self.assertLessEqual(set(shown), set(lines))

    def test_lines_of_before_and_of_now(self):
        """docs/MIGRATION.md: the lines of now are printed so, and its sed makes those of before of them."""
        text = self.page("docs", "MIGRATION.md")
        script = re.search(r"^ +sed '(.*\[-0-9\].*)'$", text, flags=re.M).group(1)
        pairs = re.findall(r"^  \| `((?:segment|clock) [\d ]+)` \| `((?:segment|clock) [-\d ]+)` \|$", text, flags=re.M)
        self.assertEqual(len(pairs), 4)
        now = "".join(now + "\n" for _, now in pairs)
        done = subprocess.run(["sed", script], input=now.encode(), stdout=subprocess.PIPE, check=True)
        self.assertEqual(done.stdout.decode(), "".join(before + "\n" for before, _ in pairs))
        printed = b"".join(run("replay", example(name)).out for name in examples()).decode().splitlines()
        for _, line in pairs:
            self.assertIn(line, printed)


class Sweep(Folder):
    """Random and damaged inputs over every subcommand: a status of the list, and never a traceback."""

    WORDS = REPLAYING + (["encode"], ["decode"], ["replay", "--text"], ["records", "--csv", "--octets"], ["explain", "--text"], ["explain", "--octets"],
                         ["refusals"], ["refusals", "--csv", "--number", "5"], ["upgrade"], ["upgrade", "--octets"])

    def some_input(self, chance):
        with open(example(chance.choice(examples())), "rb") as file:
            octets = file.read()
        if chance.random() < 0.5:
            octets = run("encode", data=octets).out
        octets = bytearray(octets[:chance.choice([len(octets), 2000, 300])])
        for _ in range(chance.choice([0, 1, 3, 30])):
            at = chance.randrange(len(octets))
            octets[at:at + chance.choice([0, 1, 1, 5])] = bytes(chance.choice([0, 10, 32, 33, 34, 35, 124, 255, chance.randrange(256)]) for _ in range(chance.choice([0, 1, 1, 3])))
        if chance.random() < 0.2:
            octets = bytes(chance.choice(b"!\"# \n\t0123456789abcdefx:|openclocksegment\0\xff") for _ in range(chance.randrange(80)))
        return bytes(octets[:chance.randrange(len(octets) + 1)] if chance.random() < 0.3 else octets)

    def test_no_traceback(self):
        chance = random.Random(SEED)
        seen = set()
        for _ in range(RUNS):
            data, words = self.some_input(chance), chance.choice(self.WORDS)
            ran = run(*words, data=data)
            self.assertIn(ran.status, (0, 1, 3), (words, data, ran))
            self.assertIsNone(FAULTS.search(ran.err), (words, data, ran.err))
            self.assertEqual(ran.status == 1, ran.err != "" and "note: " not in ran.err, (words, data, ran))
            seen.add((words[0], ran.status))
        for name in ("replay", "records", "totals", "refusals", "explain"):
            self.assertTrue({(name, 0), (name, 1), (name, 3)} <= seen, seen)

    def test_no_traceback_on_any_words(self):
        chance = random.Random(SEED + 1)
        words = SUBCOMMANDS + ["-o", "--csv", "--json", "--text", "--octets", "--help", "-h", "--version", "--", "-", "--tick", "--timer", "--filter", "--number", "", "\udcff", "x", "/", "0", "-1",
                               "/dev/null", "--tick=1", "--text=1", "-ox", "\n", "a" * 5000]
        for _ in range(RUNS // 2):
            chosen = [chance.choice(SUBCOMMANDS)] * (chance.random() < 0.8) + [chance.choice(words) for _ in range(chance.randrange(5))]
            ran = self.run_there(chosen)
            self.assertIn(ran.status, (0, 1, 2, 3, 64), (chosen, ran))
            self.assertIsNone(FAULTS.search(ran.err), (chosen, ran.err))

    def run_there(self, words):
        """So that a file that is written is written there."""
        here = os.getcwd()
        os.chdir(self.place)
        try:
            return run(*words)
        finally:
            os.chdir(here)


if __name__ == "__main__":
    unittest.main()
