"""The proved programs: where they are, and one at work on a trace."""

import contextlib
import os
import signal
import subprocess
import threading

from egrynnol_lib.streams import Failed, fit
from egrynnol_lib.traces import BLOCK

VARIABLE = "EGRYNNOL_LIBEXEC"
command_folder = ""  # where the command is; main sets it


def folder():
    """Where the programs are: as the variable says, as installed, or as built in the repository."""
    named = os.environ.get(VARIABLE)
    installed = os.path.join(command_folder, "..", "libexec", "egrynnol")
    built = os.path.join(command_folder, "..", "target", "bin")
    return named or os.path.normpath(installed if os.path.isdir(installed) else built)


def path_of(name):
    path = os.path.join(folder(), name)
    if not os.path.isfile(path):
        raise Failed("the program %s is missing: there is no %s; build it with make, or set %s to its folder" % (name, fit(path), VARIABLE))
    return path


class Running:
    """A program that is fed, and whose standard error is passed on, while its standard output is read.
    Nothing waits for anything else: each of the three has its own thread."""

    def __init__(self, name, pieces):
        self.name, self.failure, self.spoke, self.given_up = name, None, False, False
        path, pipe = path_of(name), subprocess.PIPE
        try:
            self.process = subprocess.Popen([path], stdin=pipe, stdout=pipe, stderr=pipe, bufsize=0)
        except OSError as error:
            raise Failed("%s cannot be run: %s" % (fit(path), error.strerror))
        self.errors = threading.Thread(target=self.pass_on, daemon=True)
        try:
            self.errors.start()
            threading.Thread(target=self.feed, args=(pieces,), daemon=True).start()
        except RuntimeError as error:
            self.process.kill()
            raise Failed("%s cannot be run: %s" % (fit(path), error))

    def feed(self, pieces):
        stdin = self.process.stdin
        try:
            for piece in pieces:
                while piece:
                    piece = piece[stdin.write(piece):]
        except BrokenPipeError:
            pass  # it reads no more; what it printed says why
        except BaseException as error:
            # It must not take this for the end of the trace.
            self.failure = error
            self.process.kill()
        with contextlib.suppress(OSError):
            stdin.close()

    def pass_on(self):
        """A program has no exit status: anything here is the sign of failure."""
        try:
            with self.process.stderr as stderr:
                for octets in iter(lambda: stderr.read(BLOCK), b""):
                    self.spoke = True
                    with contextlib.suppress(OSError):
                        os.write(2, b"" if self.given_up else octets)
        except Exception:
            self.spoke = True  # what it says is not known: that is no better

    def blocks(self):
        return iter(lambda: self.process.stdout.read(BLOCK), b"")

    def end(self):
        """It has printed all it will: did it fail?"""
        status = self.process.wait()
        self.errors.join()
        if self.failure:
            raise self.failure
        if self.spoke:
            raise Failed("%s failed: what it printed is not whole" % self.name)
        if status < 0:
            raise Failed("%s was ended by signal %d (%s)" % (self.name, -status, signal_name(-status)))
        if status:
            raise Failed("%s ended with status %d" % (self.name, status))

    def close(self):
        """Where nobody wants the rest, it ends before it could say that its output is closed."""
        self.given_up = True
        self.process.kill()
        self.process.wait()
        self.process.stdout.close()


def signal_name(number):
    try:
        return signal.Signals(number).name
    except ValueError:
        return "unknown"


def printed(name, pieces):
    """What the program prints for these octets, block by block; Failed at the end where it failed."""
    with contextlib.closing(Running(name, pieces)) as running:
        yield from running.blocks()
        running.end()


def lines_printed(name, pieces):
    """The same in whole lines, as many at a time as there are."""
    left = b""
    for block in printed(name, pieces):
        *lines, left = (left + block).split(b"\n")
        yield [line.decode("ascii", "backslashreplace") for line in lines]
    if left:
        raise Failed("%s printed half a line" % name)
