"""Files and standard streams: opened, told apart, written, and every failure of theirs."""

import contextlib
import errno
import io
import os
import re
import signal
import stat
import tempfile
import threading

from egrynnol_lib.traces import BLOCK, FORMS, Bad, spooled
from egrynnol_lib.upgrade import Watched

STANDARD_INPUT = "standard input"
STANDARD_OUTPUT = "standard output"
LOOK = 65536  # octets that are looked at to tell text from octets


class Failed(Exception):
    """Something could not be read, written or run; the text says what."""


class NotWritten(Exception):
    """The file that was asked for stays as it was."""


# ---- standard streams ----

wrong = {}  # what is wrong with a standard stream, by its number


def hold(stdin):
    """Keeps the numbers of standard streams that are closed, so that no file gets one of them."""
    for number in (0, 1, 2):
        try:
            os.fstat(number)
        except OSError as error:
            wrong[number] = error.errno
            os.open(os.devnull, os.O_RDWR)
    if stdin == "directory":
        wrong[0] = errno.EISDIR


def fit(text):
    """A text that one line of a message can have, whatever is in it."""
    def escaped(c):
        code = ord(c)
        # What was no UTF-8 in a file's name stands for octets.
        return "\\x%02X" % (code - 0xDC00 if 0xDC80 <= code <= 0xDCFF else code)

    return "".join(c if c.isprintable() else escaped(c) for c in text)


def report(message):
    """A line on standard error. Where that cannot be, there is nobody to tell."""
    octets = (fit(message) + "\n").encode("utf-8", "backslashreplace")
    with contextlib.suppress(OSError):
        while octets:
            octets = octets[os.write(2, octets):]


def standard(number, name):
    if number in wrong:
        raise OSError(wrong[number], os.strerror(wrong[number]), name)
    return number


# ---- input ----

class Raw(io.RawIOBase):
    """An open file, with octets that were read already in front of it; a failure names the file."""

    def __init__(self, handle, name):
        io.RawIOBase.__init__(self)
        self.handle, self.name, self.front = handle, name, b""
        self.lock, self.reading, self.stopped = threading.Lock(), False, False

    def readable(self):
        return True

    def some(self, most):
        with self.lock:
            if self.stopped:
                return b""
            self.reading = True
        try:
            return os.read(self.handle, most)
        except OSError as error:
            raise OSError(error.errno, error.strerror, self.name)
        finally:
            self.reading = False

    def stop(self):
        """No more is read. A handle that a thread waits at stays open: its number must not become another file's."""
        with self.lock:
            self.stopped = True
            waiting = self.reading
        if not waiting:
            os.close(self.handle)

    def readinto(self, area):
        octets = self.front[:len(area)] or self.some(len(area))
        self.front = self.front[len(octets):]
        area[:len(octets)] = octets
        return len(octets)


@contextlib.contextmanager
def opened(path):
    """A file to read, or standard input."""
    if path in (None, "-"):
        yield Raw(standard(0, STANDARD_INPUT), STANDARD_INPUT)
        return
    raw = Raw(os.open(path, os.O_RDONLY | os.O_CLOEXEC), path)
    try:
        yield raw
    finally:
        raw.stop()


CONTROL = re.compile(rb"[\0-\x08\x0e-\x1f\x7f]")
WORD = re.compile(rb"(?:\xef\xbb\xbf)?(?:[\t-\r ]|#[^\0-\x08\n\x0e-\x1f\x7f]*\n)*(?:context|open|segment|clock|release)(?=[\t-\r ])")


def told(head, ended, forms=FORMS):
    """Whether an input that begins so is text; None where more has to be seen."""
    if head[:2] in (b"\xff\xfe", b"\xfe\xff"):
        raise Bad("this is text in UTF-16: save it as UTF-8")
    if WORD.match(head):
        return True
    if CONTROL.search(head):
        return False
    at = 0
    while at < len(head):
        if head[at] not in forms:
            return True
        at += forms[head[at]].length
    if ended:
        return at > len(head) or not head
    return False if len(head) >= LOOK else None


def is_text(raw, kind, forms=FORMS):
    """What kind says, text or octets; else looks at the front of an input, as far as is needed, and puts it back."""
    if kind is not None:
        return kind == "text"
    head, answer = b"", None
    while answer is None:
        block = raw.some(LOOK - len(head))
        head += block
        try:
            answer = told(head, not block, forms)
        except Bad as error:
            raise Bad("%s: %s" % (fit(raw.name), error))
    raw.front = head
    return answer


class Trace:
    """An input as a trace in octets. lines: the line of each record where it was text."""

    def __init__(self, name, stream, lines):
        self.name, self.lines = name, lines
        self.stream = Watched(stream) if lines is None else stream

    def is_older(self):
        """Whether its octets, as far as they were read, are those of a trace of before version 4 and of none of now."""
        return self.lines is None and self.stream.is_older()


@contextlib.contextmanager
def trace(path, kind):
    """The trace of a file or of standard input; kind: text, octets, or None to look."""
    with opened(path) as raw:
        name, text = fit(raw.name), is_text(raw, kind)
        stream = io.BufferedReader(raw, BLOCK)
        if not text:
            yield Trace(name, stream, None)
            return
        octets, lines = spooled(stream, name, report)
        with octets:
            yield Trace(name, octets, lines)


# ---- output ----

class Output:
    """Octets go out when they are flushed; a failure names the file."""

    def __init__(self, handle, name):
        self.handle, self.name, self.kept, self.size = handle, name, [], 0

    def write(self, octets):
        self.kept.append(octets)
        self.size += len(octets)
        if self.size >= BLOCK:
            self.flush()

    def flush(self):
        octets = memoryview(b"".join(self.kept))
        self.kept, self.size = [], 0
        try:
            while octets:
                octets = octets[os.write(self.handle, octets):]
        except BrokenPipeError:
            raise
        except OSError as error:
            raise OSError(error.errno, error.strerror, self.name)

    def finish(self):
        """All has gone out, and the system has nothing against it: some tell only when a file is closed."""
        self.flush()
        try:
            os.close(os.dup(self.handle))
        except OSError as error:
            raise OSError(error.errno, error.strerror, self.name)


@contextlib.contextmanager
def output(path):
    """Standard output or a file. A file is replaced only when its new content is complete."""
    if path in (None, "-"):
        out = Output(standard(1, STANDARD_OUTPUT), STANDARD_OUTPUT)
        yield out
        out.finish()
        return
    if os.path.exists(path) and not os.path.isfile(path):
        handle = os.open(path, os.O_WRONLY | os.O_CLOEXEC)  # a device or a pipe is written as it is
        out = Output(handle, path)
        yield out
        out.finish()
        os.close(handle)
        return
    handle, new = new_file_beside(path)
    try:
        with gone_if_ended(new):
            out = Output(handle, path)
            yield out
            out.finish()
            os.replace(new, os.path.realpath(path))
    except BaseException:
        with contextlib.suppress(OSError):
            os.unlink(new)
        raise
    finally:
        os.close(handle)


def new_file_beside(path):
    """A new file where path is, with the permissions that path has or would get."""
    mask = os.umask(0)
    os.umask(mask)
    try:
        mode = stat.S_IMODE(os.stat(path).st_mode) if os.path.exists(path) else 0o666 & ~mask
        handle, new = tempfile.mkstemp(prefix=".egrynnol-", dir=os.path.dirname(os.path.realpath(path)))
    except OSError as error:
        raise OSError(error.errno, error.strerror, path)  # name the file that was asked for
    os.chmod(new, mode)
    return handle, new


@contextlib.contextmanager
def gone_if_ended(path):
    """Where a signal ends the program, the unfinished file goes too."""
    def end(number, _):
        with contextlib.suppress(OSError):
            os.unlink(path)
        end_by(number)

    ends = [number for number in (signal.SIGINT, signal.SIGTERM, signal.SIGHUP) if signal.getsignal(number) == signal.SIG_DFL]
    for number in ends:
        signal.signal(number, end)
    try:
        yield
    finally:
        for number in ends:
            signal.signal(number, signal.SIG_DFL)


def end_by(number):
    """The end that the signal makes by itself."""
    signal.signal(number, signal.SIG_DFL)
    os.kill(os.getpid(), number)
    os._exit(128 + number)  # where the signal is blocked
