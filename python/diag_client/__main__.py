"""`python -m diag_client`: pictures, a terminal and a page in the browser, over the same client."""

from __future__ import annotations

import argparse
import functools
import os
import sys

from . import bench, interrupts, progress
from .boards import command as boards
from .errors import DiagError, sentence
from .files import drop_unwritten, open_streams
from .hints import as_options
from .pictures import command as pictures
from .service import ENGINES
from .terminal import patterns, shell


def words_of() -> argparse.ArgumentParser:
    """The words that may follow `python -m diag_client`."""
    parser = argparse.ArgumentParser(prog="python3 -m diag_client", description="Tools around the program `diag`; see docs/PYTHON.md.")
    commands = parser.add_subparsers(dest="command", required=True, metavar="COMMAND")
    served = argparse.ArgumentParser(add_help=False)
    served.add_argument("file", metavar="FILE", help="a netlist (.bench) or a design (.dev)")
    narrow = argparse.BooleanOptionalAction
    forest = "compile along a forest of variables by which the sum is small, or by the order of the names"
    served.add_argument("--narrow", action=narrow, default=True, help=forest)
    fits = "what answers: a graph that is compiled before, a search, or the graph if it is ready in three seconds, and else the search"
    served.add_argument("--engine", choices=ENGINES, default="auto", help=fits)
    served.add_argument("--budget", type=int, metavar="N", help="the greatest sum of a device that is served")
    served.add_argument("--frames", type=int, metavar="F", help="serve a netlist with flip-flops over F times")
    served.add_argument("--program", metavar="PATH", help="the program or launcher to start")

    # An installed command has a name of its own.
    name = os.path.basename(sys.argv[0])
    own = name if name.startswith("diag-") else None
    draws = commands.add_parser("picture", parents=[served], prog=own, help="draw a device with what was seen, held and blamed")
    pictures.add_words(draws)

    asks = commands.add_parser("shell", parents=[served], prog=own, help="ask a device interactively")
    asks.add_argument("--health", type=int, metavar="N", help="FILE is a graph (.nnf) whose first N variables are parts")
    asks.add_argument("--levels", type=int, metavar="C", help="what is next best may be asked for, up to a cost of C")
    asks.add_argument("--least", action="store_true", help="the graph of the diagnoses may be asked for")
    begin = "begin with the test patterns of a table (.csv): wires in its first row, then 0, 1 or nothing"
    asks.add_argument("--patterns", metavar="TABLE", help=begin)
    opens = commands.add_parser("bench", parents=[served], prog=own, help="open a page on which readings are entered by clicking wires")
    bench.add_words(opens)
    answers = commands.add_parser("boards", parents=[served], prog=own, help="answer a table with the readings of many boards")
    boards.add_words(answers)
    return parser


def run(words: argparse.Namespace) -> int:
    """Does what the words say, and gives the exit status."""
    if words.command == "bench":
        return bench.run(words)
    if words.command == "boards":
        return boards.run(words)
    given = progress.options_in(words)
    if words.command == "picture":
        return pictures.draw(words, lambda: progress.serve(words.file, **given))
    with progress.serve(words.file, **given) as service:
        return shell.run(service, functools.partial(patterns.begin, table=words.patterns))


def main() -> int:
    """Does what the command line says, and gives the exit status, whatever goes wrong."""
    open_streams()
    try:
        try:
            words = pictures.read_words(words_of())
        finally:
            # It may be the help.
            sys.stdout.flush()
        interrupts.raise_again()
        status = run(words)
        sys.stdout.flush()
        return status
    except KeyboardInterrupt:
        print("diag_client: interrupted", file=sys.stderr)
        return interrupts.STATUS
    except BrokenPipeError:
        # Nobody reads what is written.
        return 1
    except (DiagError, OSError, ValueError) as error:
        print("diag_client:", as_options(sentence(error)), file=sys.stderr)
        return 1
    finally:
        drop_unwritten()


if __name__ == "__main__":
    sys.exit(main())
