"""What the tests share: where the built program is, what it answers by itself, and how they wait and interrupt."""

import atexit
import collections
import os
import pathlib
import shutil
import signal
import subprocess
import sys
import tempfile
import threading
import time
import unittest

TOP = pathlib.Path(__file__).resolve().parents[2]
EXAMPLES = TOP / "examples"
C17 = EXAMPLES / "c17.bench"
TESTS = TOP / "python/tests"
# No board of a test is kept.
os.environ["DIAG_BOARDS"] = tempfile.mkdtemp(prefix="diag-boards-")
atexit.register(shutil.rmtree, os.environ["DIAG_BOARDS"], True)
# The built program itself, and not the launcher, which asks whether a source is newer. Some tests go to another folder.
PROGRAM = os.environ["DIAG_PROGRAM"] = os.path.abspath(os.environ.get("DIAG_PROGRAM") or TOP / "crates/diag/out/diag")
needs_program = unittest.skipUnless(os.access(PROGRAM, os.X_OK), f"there is no program {PROGRAM}: `./diag --build`, or set DIAG_PROGRAM")
# So many seconds something is waited for that has to come, on a starved machine too.
SOON = 300.0

sys.path.insert(0, str(TOP / "python"))

# How many tests were skipped, by the reason.
_skipped = collections.Counter()
_add_skip = unittest.TestResult.addSkip


def _count_skip(result, test, reason):
    """A test that is skipped is counted, and where CI is true it fails."""
    _skipped[reason] += 1
    _add_skip(result, test, reason)
    if os.environ.get("CI") == "true":
        error = AssertionError(f"skipped, and that is a failure where CI is true: {reason}")
        result.addFailure(test, (AssertionError, error, None))


def _tell_skipped():
    """The last line says how many tests were skipped, and why, since the line before it says OK."""
    if _skipped:
        reasons = "; ".join(f"{count} since {reason}" for reason, count in _skipped.most_common())
        print(f"{_skipped.total()} skipped: {reasons}", file=sys.stderr)


unittest.TestResult.addSkip = _count_skip
atexit.register(_tell_skipped)

# If the locale of this machine is not installed, each shell says so on standard error.
os.environ["LC_ALL"] = "C"
# A shell starts what runs in the background with interrupts ignored, and `nohup` with hang-ups: what the tests start would inherit that.
if signal.getsignal(signal.SIGINT) == signal.SIG_IGN:
    signal.signal(signal.SIGINT, signal.default_int_handler)
for number in (signal.SIGQUIT, signal.SIGHUP, signal.SIGTERM):
    if signal.getsignal(number) == signal.SIG_IGN:
        signal.signal(number, signal.SIG_DFL)


def replies(script, *words, file=C17):
    """The program's own replies to the lines of a script, with no client between."""
    text = "".join(f"{line}\n" for line in script)
    done = subprocess.run([PROGRAM, "serve", file, *words], input=text, capture_output=True, text=True, check=True)
    return done.stdout.splitlines()[1:]


def stand_in(*words):
    """The words that start a program which behaves as no `diag` does."""
    return [sys.executable, str(TESTS / "stand_in.py"), *words]


def wait_until(is_so):
    """Waits for something that has to come."""
    end = time.monotonic() + SOON
    while not is_so():
        if time.monotonic() > end:
            raise AssertionError(f"not within {SOON:.0f} seconds: {is_so}")
        time.sleep(0.001)


def kill(service):
    """Kills the program of a service, and waits for its end."""
    process = service._child._process.pid
    os.kill(process, signal.SIGKILL)
    os.waitid(os.P_PID, process, os.WEXITED | os.WNOWAIT)


def interrupt_at(service, line):
    """Interrupts this thread once a line was sent and its reply is awaited."""

    def is_awaited():
        child = service._child
        return not child._unsent and any(request.line == line for request in list(child._awaited))

    def interrupt():
        wait_until(is_awaited)
        signal.pthread_kill(asking, signal.SIGINT)

    asking = threading.get_ident()
    threading.Thread(target=interrupt, daemon=True).start()
