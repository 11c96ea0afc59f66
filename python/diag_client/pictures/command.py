"""The command `picture`: its words, and what it writes where."""

from __future__ import annotations

import argparse
import contextlib
import sys
from collections.abc import Callable, Iterable

from ..errors import Ended
from ..hints import as_options
from ..service import Service
from . import graphviz, picture

# The exit status of the program for a device above the budget.
TOO_LARGE = 3


def part_count(text: str) -> int:
    """How many parts are drawn at most, of an option's text."""
    if not text.isascii() or not text.isdigit() or int(text) < 1:
        raise argparse.ArgumentTypeError(f"it is a number from 1, and not {text}")
    return int(text)


def add_words(parser: argparse.ArgumentParser) -> None:
    """What the command takes beside what all take that serve a device."""
    parser.add_argument("script", metavar="SCRIPT", nargs="?", help="a script; the case at its end is drawn; - is standard input")
    parser.add_argument("-o", "--output", metavar="OUT", help="out.svg, out.pdf, out.png or out.dot; else the text is written")
    parser.add_argument("--session", metavar="S", help="the session that is drawn; else the one that the script speaks of last")
    parser.add_argument("--most", type=part_count, metavar="N", default=picture.MOST, help="draw at most N parts (%(default)s)")


def read_words(parser: argparse.ArgumentParser) -> argparse.Namespace:
    """The words of the command line. SCRIPT may follow options, which argparse does not take by itself."""
    words, rest = parser.parse_known_args()
    if rest and words.command == "picture" and words.script is None and (rest[0] == "-" or not rest[0].startswith("-")):
        words.script = rest.pop(0)
    if rest:
        parser.error(f"unrecognized arguments: {' '.join(rest)}")
    return words


def draw(words: argparse.Namespace, serve: Callable[[], Service]) -> int:
    """Draws a device. If the wanted form needs a program that is not here, the graph's text is written and the status is 1."""
    output = None if words.output is None else graphviz.check_output(words.output)
    with contextlib.ExitStack() as stack:
        script: Iterable[str] | None = None
        if words.script is not None:
            source = sys.stdin.fileno() if words.script == "-" else words.script
            opened = open(source, encoding="utf-8", errors="surrogateescape", newline="\n", closefd=words.script != "-")
            script = stack.enter_context(opened)
        text = _text(words, serve, script)
    if output is None:
        sys.stdout.buffer.write(text.encode())
        sys.stdout.buffer.flush()
        return 0
    written = graphviz.render(text, output)
    if written == output:
        return 0
    print(f"diag_client: {graphviz.NO_DOT}; wrote {written} alone", file=sys.stderr)
    return 1


def _text(words: argparse.Namespace, serve: Callable[[], Service], script: Iterable[str] | None) -> str:
    """The text of the picture, without diagnoses if the program refuses the device for its size."""
    try:
        with serve() as service:
            return picture.picture(service, script, words.session, words.most)
    except Ended as ended:
        if ended.status != TOO_LARGE:
            raise
        print(f"diag_client: {as_options(str(ended))}; drawn without diagnoses", file=sys.stderr)
        return picture.picture_alone(words.file, words.frames, script, words.session, words.most, ended.last_line.removeprefix("error: "))
