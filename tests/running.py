"""The command egrynnol for its tests: as a process, and without the start of one where there are many runs."""

import collections
import os
import signal
import subprocess
import sys
import tempfile

HERE = os.path.dirname(os.path.abspath(__file__))
ROOT = os.path.dirname(HERE)
TOOLS = os.path.join(ROOT, "tools")
TOOL = os.path.join(TOOLS, "egrynnol")
EXAMPLES = os.path.join(ROOT, "examples")
sys.path.insert(0, TOOLS)

from egrynnol_lib import commands

Ran = collections.namedtuple("Ran", "status out err")

SUBCOMMANDS = [command.name for command in commands.COMMANDS]


def example(name):
    return os.path.join(EXAMPLES, name + ".trace")


def examples():
    return sorted(name[:-6] for name in os.listdir(EXAMPLES) if name.endswith(".trace"))


def process(*words, data=b"", **more):
    """The command as it is typed."""
    done = subprocess.run([TOOL, *words], input=data, stdout=subprocess.PIPE, stderr=subprocess.PIPE, timeout=120, **more)
    return Ran(done.returncode, done.stdout, done.stderr.decode("utf-8", "backslashreplace"))


FIELDS = "    read alone, the parameter says:"


def unwrapped(text):
    """The lines of explain, each that was cut where a screen ends in one piece again."""
    lines, goes_on, fields = [], None, False
    for line in text.splitlines():
        if goes_on and line.startswith(goes_on):
            lines[-1] += " " + line.strip()
            continue
        lines.append(line)
        fields = line == FIELDS or fields and line.startswith(" " * 8)
        goes_on = None if line == FIELDS else " " * 12 if fields else " " * 8 if line.startswith("    read alone, ") else None
    return lines


def octets_of(file):
    file.seek(0)
    return file.read()


def run(*words, data=b""):
    """The same in a fork of this process: all but the start. Its streams are files."""
    with tempfile.TemporaryFile() as stdin, tempfile.TemporaryFile() as out, tempfile.TemporaryFile() as err:
        stdin.write(data)
        stdin.seek(0)
        child = os.fork()
        if child == 0:
            try:
                signal.signal(signal.SIGINT, signal.SIG_DFL)
                for number, file in enumerate((stdin, out, err)):
                    os.dup2(file.fileno(), number)
                os._exit(commands.main(TOOLS, "", list(words)))
            finally:
                os._exit(99)  # something got out of main
        status = os.waitstatus_to_exitcode(os.waitpid(child, 0)[1])
        return Ran(status, octets_of(out), octets_of(err).decode("utf-8", "backslashreplace"))
