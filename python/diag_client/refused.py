"""Which lines of a script were refused, found in the replies to it: `python3 -m diag_client.refused SCRIPT REPLIES`."""

from __future__ import annotations

import itertools
import pathlib
import re
import sys
from collections.abc import Iterable, Iterator, Sequence

from .errors import sentence, shown
from .faults import no_names

REFUSAL = re.compile(r"(?:\S+ )?error ([0-9]+) (.+)")
# A longer line is refused whatever it is.
LONGEST_LINE = 1 << 20
# The commands whose replies end with `S end`: those that list everything, and those that list at most k. Graphs say how long they are.
ALL, SOME, GRAPHS = ("probes", "blame"), ("list", "levels"), ("dnnf", "leastnnf")
# What the reasons are about: a word of the line by its place, or the names or values from there on.
WORD, NAMED = {1: 0, 6: 1, 7: 1, 8: 1, 11: 0, 12: 0}, {9: 2, 10: 2}


def refused_lines(script: Iterable[str], replies: Iterable[str]) -> Iterator[str]:
    """What is to be said of each refused line of a script.

    >>> list(refused_lines(["# C17", "open S", "see S 99=1", "min S"], ["ready 6 11", "S open", "S error 9 no wire", "S min 0"]))
    ['line 3 of the script: no wire: 99 in `see S 99=1`']
    """
    told = iter(replies)
    if not next(told, "").startswith("ready "):
        return
    for number, line in enumerate(script, 1):
        words = re.split("[ \t\r]+", line.strip(" \t\r"))
        if len(line) <= LONGEST_LINE and (not words[0] or words[0].startswith("#")):
            continue
        reply = next(told, None)
        if reply is None:
            return
        if refusal := REFUSAL.fullmatch(reply):
            yield f"line {number} of the script: {refusal[2]}{about(int(refusal[1]), words, line)}"
        else:
            pass_over(words, reply, told)


def pass_over(words: Sequence[str], reply: str, told: Iterator[str]) -> None:
    """Passes over what comes after the first line of the reply to a line."""
    command = words[0]
    if command in GRAPHS:
        header = next(told, "").split(" ")
        list(itertools.islice(told, int(header[1]) if len(header) > 1 else 0))
    elif command in (*ALL, *SOME) and reply not in (f"{words[1]} end", f"{words[1]} inconsistent"):
        left = None if command in ALL else int(words[2]) - 1
        list(itertools.takewhile(lambda line: line != f"{words[1]} end", itertools.islice(told, left)))


def about(number: int, words: Sequence[str], line: str) -> str:
    """Which word of a line it is that is refused for the reason of this number."""
    if number in WORD:
        found = words[WORD[number] : WORD[number] + 1]
    elif number in NAMED:
        found = [word.partition("=")[0] for word in words[NAMED[number] :]]
    else:
        names = [(word.partition("=")[0], 0) for word in words[1:]]
        found = [word for word, _ in no_names(names, "(),=#")][:1] if number == 3 else []
    told = [f": {shown(' '.join(found))}"] if found else []
    return "".join(told) + ("" if found == [line.strip()] else f" in `{shown(line.strip())}`")


def lines_of(path: str) -> list[str]:
    """The lines of a file, byte by byte. A last line need not be ended."""
    text = pathlib.Path(path).read_bytes().decode("latin-1")
    return text.removesuffix("\n").split("\n")


def main(*paths: str) -> int:
    """Prints a line for each refused one, and gives 1 if there is one; 2 for other words, and 4 for a file that cannot be read."""
    if len(paths) != 2:
        print("diag: after `--refused` come SCRIPT and REPLIES, two files", file=sys.stderr)
        return 2
    try:
        script, replies = map(lines_of, paths)
    except OSError as error:
        print("diag:", sentence(error), file=sys.stderr)
        return 4
    found = list(refused_lines(script, replies))
    print(*found, sep="\n", end="\n" if found else "")
    return 1 if found else 0


if __name__ == "__main__":
    sys.exit(main(*sys.argv[1:]))
