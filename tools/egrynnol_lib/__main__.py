"""Started by the command egrynnol, with its folder, what is wrong with standard input, and its words."""

import signal

# An interruption ends this at once, as it ends any Unix tool; who started it with interruptions ignored keeps that.
if signal.getsignal(signal.SIGINT) is signal.default_int_handler:
    signal.signal(signal.SIGINT, signal.SIG_DFL)
signal.pthread_sigmask(signal.SIG_UNBLOCK, [signal.SIGINT])  # blocked by who started this

import os
import sys

sys.path.insert(0, os.path.dirname(os.path.dirname(os.path.abspath(__file__))))

from egrynnol_lib.commands import main

if __name__ == "__main__":
    # Not by sys.exit: a thread may still wait for input that nobody needs any more.
    os._exit(main(sys.argv[1], sys.argv[2], sys.argv[3:]))
