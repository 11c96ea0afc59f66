"""What an interrupt does until a command of this package is at work: it ends the command, without a word and with its usual status.

The package loads this module first. A program that imports the package handles its interrupts itself.
"""

from __future__ import annotations

import os
import signal
import sys
import types

# The exit status of a command that was interrupted.
STATUS = 130
COMMANDS = ("diag-bench", "diag-boards", "diag-netlist", "diag-picture", "diag-shell")


def _is_command() -> bool:
    """Whether Python was started to run a command of this package: one that is installed, or by `-m diag_client`."""
    argv = getattr(sys, "argv", None) or [""]
    # While Python loads a package for `-m`, it calls the module `-m`. Its name stands before the words that follow it.
    module = next(iter(sys.orig_argv[-len(argv):]), "").removeprefix("-m").partition(".")[0]
    return os.path.basename(argv[0]) in COMMANDS or (argv[0] == "-m" and module == "diag_client")


def _end(number: int, frame: types.FrameType | None) -> None:
    os._exit(STATUS)


def raise_again() -> None:
    """An interrupt is a KeyboardInterrupt from now on: the command knows what to do about it."""
    if signal.getsignal(signal.SIGINT) is _end:
        signal.signal(signal.SIGINT, signal.default_int_handler)


# Whoever starts a command may want it to ignore interrupts.
if _is_command() and signal.getsignal(signal.SIGINT) is signal.default_int_handler:
    signal.signal(signal.SIGINT, _end)
