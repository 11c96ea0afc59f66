"""The command `boards`: its words, what is written and shown, and how it ends."""

from __future__ import annotations

import argparse
import contextlib
import sys
import time

from .. import interrupts
from ..errors import DiagError, sentence
from ..hints import as_options
from ..progress import options_in
from .batch import Answering, make_pool, wanted_of
from .cross_check import CrossCheck
from .resume import STANDARD_OUTPUT, ResultsFile, UnusableResults
from .results import FlatTable, Tally
from .stream import Readings
from .tables import BadTable

# The exit status for what can never be done, as for wrong words.
WRONG = 2
# So many seconds are between two times that the progress is shown.
PAUSE = 0.5
CLEARED = "\r\x1b[K"


def _from_one(text: str) -> int:
    if not (text.isascii() and text.isdigit() and int(text) >= 1):
        raise argparse.ArgumentTypeError(f"it is a number from 1, and not {text}")
    return int(text)


def _seconds(text: str) -> float:
    with contextlib.suppress(ValueError):
        if 0 < float(text) < float("inf"):
            return float(text)
    raise argparse.ArgumentTypeError(f"it is a number of seconds above 0, and not {text}")


def add_words(parser: argparse.ArgumentParser) -> None:
    """What the command takes beside what all take that serve a device."""
    parser.add_argument("readings", metavar="READINGS", help="a table (.csv) or JSON Lines; - is standard input")
    parser.add_argument("-o", "--output", metavar="RESULTS", default=STANDARD_OUTPUT, help="the file of results; else standard output")
    parser.add_argument("--resume", action="store_true", help="go on after the last whole line of RESULTS, if it is there")
    parser.add_argument("--csv", action="store_true", help="write a flat table, and no JSON Lines")
    parser.add_argument("--list", type=_from_one, default=10, metavar="K", help="list at most K sets of faulty parts (%(default)s)")
    parser.add_argument("--blame", action="store_true", help="say which parts are faulty in all sets, and in some")
    parser.add_argument("--next", action="store_true", help="say which wire is best measured next")
    parser.add_argument("--seconds", action="store_true", help="say how long each board took")
    summary = "print how many boards have which status, and the parts suspected most often"
    parser.add_argument("--summary", action="store_true", help=summary)
    parser.add_argument("--ignore", action="append", default=[], metavar="NAME", help="a column that is no wire; may be given again")
    parser.add_argument("--timeout", type=_seconds, metavar="S", help="a board may take S seconds")
    workers = parser.add_mutually_exclusive_group()
    workers.add_argument("--jobs", type=_from_one, metavar="N", help="use N processes of the program; else one for each processor")
    workers.add_argument("--cluster", metavar="ADDRESS", help="use the workers of a Dask cluster, whose scheduler is there")
    parser.add_argument("--check", choices=["clasp"], help="compare each result with gringo and clasp, and count differences")


class _Progress:
    """A line on a terminal: how many boards are answered, how many in a second, and how long it will take."""

    def __init__(self, readings: Readings, before: int) -> None:
        self._readings = readings
        self._stream = sys.stderr
        self._is_shown = self._stream.isatty()
        self._begun = time.monotonic()
        self._last = 0.0
        # What was answered and read before, by another run.
        self._before = before
        self._share = readings.share or 0.0

    def show(self, boards: int) -> None:
        """So many boards are answered now."""
        now = time.monotonic()
        if not self._is_shown or now - self._last < PAUSE:
            return
        self._last = now
        took = now - self._begun
        text = f"{boards:,} boards, {(boards - self._before) / took:,.0f} a second"
        share = self._readings.share
        if share is not None and share > self._share:
            text += f", about {took * (1 - share) / (share - self._share):,.0f} s left"
        self._stream.write(CLEARED + text)
        self._stream.flush()

    def clear(self) -> None:
        """Makes room for what is printed now."""
        if self._is_shown and self._last:
            self._stream.write(CLEARED)
            self._stream.flush()


def run(words: argparse.Namespace) -> int:
    """Answers a table of readings, and gives the exit status."""
    tally = Tally()
    try:
        with contextlib.ExitStack() as stack:
            table = Readings(words.readings, words.ignore)
            stack.callback(table.close)
            check = _answer(words, table, tally, stack)
    except KeyboardInterrupt:
        _say(f"interrupted; {_state(words, tally)}")
        return interrupts.STATUS
    except (BadTable, UnusableResults) as error:
        _say(as_options(sentence(error)))
        return WRONG
    except BrokenPipeError:
        raise
    except (DiagError, OSError, ValueError) as error:
        _say(as_options(sentence(error)) + (f"; {_state(words, tally)}" if tally.boards else ""))
        return 1
    text = (tally.text() if words.summary else "") + (check.text() if check else "")
    print(text, end="", file=sys.stderr if words.output == STANDARD_OUTPUT else sys.stdout, flush=True)
    return 0 if tally.all_answered and not (check and check.differing) else 1


def _answer(words: argparse.Namespace, readings: Readings, tally: Tally, stack: contextlib.ExitStack) -> CrossCheck | None:
    """Answers the boards, writes their results and counts them. Gives what compared them, if anything did."""
    options = {name: value for name, value in options_in(words).items() if name != "timeout"}
    wanted = wanted_of(words.list, words.blame, words.next, words.seconds, words.timeout, options, words.cluster)
    flat = FlatTable(wanted.asked) if words.csv else None
    results = ResultsFile(words.output, flat, wanted.asked, words.resume)
    stack.callback(results.close)
    pool = make_pool(words.jobs, words.cluster)
    stack.callback(pool.stop)
    answering = Answering(words.file, readings, wanted, pool)
    answering.check()
    check = CrossCheck(readings.layout, words.list, words.frames) if words.check else None
    if check is not None:
        stack.callback(check.close)
    boards = iter(readings)
    results.answered(boards, tally)
    progress = _Progress(readings, tally.boards)
    stack.callback(progress.clear)
    for batch, answers in answering.answers(boards):
        results.write(flat.rows(answers.lines) if flat else answers.lines)
        tally.add(answers.tally)
        if check is not None:
            boards_of = [(batch.devices[board.device].path, board) for board in batch.boards]
            for text in check.differences(boards_of, answers.lines.splitlines()):
                progress.clear()
                _say(text)
        progress.show(tally.boards)
    return check


def _state(words: argparse.Namespace, tally: Tally) -> str:
    """How far it is, and what goes on from there."""
    text = f"{tally.boards} boards are answered"
    return text if words.output == STANDARD_OUTPUT else f"{text}; the same words and `--resume` go on from there"


def _say(text: str) -> None:
    print("diag-boards:", text, file=sys.stderr)
