"""Where in a file the fault is whose line the program names: at which column, and which word.

The program has found the line and says what is wrong in it. The word is looked for here by plain rules, for a hint alone.
"""

from __future__ import annotations

import pathlib
import re
from collections.abc import Iterable, Iterator, Sequence, Set

from .devices import GATES
from .errors import shown

FAULT = re.compile(r"error: line ([0-9]+): fault ([0-9]+) ")
UTF_16 = "the file is in UTF-16: save it as UTF-8"
# What some editors put before a text.
MARKS = {b"\xef\xbb\xbf": "the file begins with a byte order mark: save it as UTF-8 without one", b"\xff\xfe": UTF_16, b"\xfe\xff": UTF_16}
# The program takes no file of more bytes.
LONGEST = 1 << 24
# A word of a netlist, or a sign between two; and a word of other files.
SIGN, WORD = re.compile(r"[^\s(),=#]+|[(),=]"), re.compile(r"[^\s#]+")
# As much of a line as fits one of the two forms in a netlist.
FORMS = [
    re.compile(form.replace("W", r"[^\s(),=#]+"), re.IGNORECASE)
    for form in (
        r"\s*(INPUT|OUTPUT)\s*(\(\s*(W\s*(\)\s*)?)?)?",
        r"\s*(W\s*(=\s*(W\s*(\(\s*(W\s*(,\s*W\s*)*)?(\)\s*)?)?)?)?)?",
    )
]
NAME = re.compile(r"[!-~]{1,64}")
MOST_PORTS = 6

# A word, and at which place of its line it begins. No word is the end of the line.
Place = tuple[str, int]


def hint(file: pathlib.Path, last_line: str) -> str:
    """The line, the column and the word that the last line of the output is about, if they are found; or which mark is before all."""
    fault = FAULT.match(last_line)
    try:
        # A pipe is read already, and would be waited for.
        if fault is None or not file.is_file():
            return ""
        with file.open("rb") as data:
            read = data.read(LONGEST)
    except OSError:
        return ""
    if mark := next((text for begin, text in MARKS.items() if read.startswith(begin)), ""):
        return mark
    lines = read.decode("utf-8", "replace").split("\n")
    number = int(fault[1])
    if not 1 <= number <= len(lines):
        return ""
    line = lines[number - 1].strip()
    found = find_place(file.suffix, lines, number, int(fault[2]))
    if found is None:
        return f"line {number} is `{shown(line)}`"
    word, at = found
    what = f"`{shown(word)}` in" if word else "the end of"
    return f"line {number}, column {at + 1}: {what} `{shown(line)}`"


def find_place(suffix: str, lines: Sequence[str], number: int, what: int) -> Place | None:
    """Where the fault of this number is in this line, counted from 1."""
    above, line = lines[: number - 1], lines[number - 1].rstrip()
    if suffix == ".bench":
        return in_netlist(lines, line, what)
    return in_design(above, line, what) if suffix == ".dev" else in_graph(above, line, what)


def places(line: str, pattern: re.Pattern[str] = WORD, begin: int = 0) -> list[Place]:
    """The words of a line before its comment, from a place on."""
    return [(found[0], found.start()) for found in pattern.finditer(line.partition("#")[0], begin)]


def first_of(words: Iterable[Place]) -> Place | None:
    """The first word, if there is one."""
    return next(iter(words), None)


def no_names(words: Iterable[Place], signs: str = "") -> Iterator[Place]:
    """The words that are no names, or have one of these signs."""
    return (place for place in words if not NAME.fullmatch(place[0]) or set(signs) & set(place[0]))


def taken_names(words: Sequence[Place], taken: Set[str]) -> Iterator[Place]:
    """The words that are taken, or stand among those before them."""
    return (place for at, place in enumerate(words) if place[0] in taken or place[0] in [word for word, _ in words[:at]])


def driven_by(line: str) -> str:
    """The signal that a line of a netlist drives, if it does."""
    words = [word for word, _ in places(line, SIGN)]
    if words[1:2] == ["="]:
        return words[0]
    return words[2] if len(words) > 2 and words[0].upper() == "INPUT" else ""


def in_netlist(lines: Sequence[str], line: str, what: int) -> Place | None:
    """The place in a line of a netlist, which has all these lines."""
    line = line.partition("#")[0].rstrip()
    words = places(line, SIGN)
    is_gate = [word for word, _ in words[1:2]] == ["="]
    signals = [place for place in (words[:1] + words[4:] if is_gate else words[2:]) if place[0] not in "(),"]
    if what == 1:
        fits = max(found.end() for form in FORMS if (found := form.match(line)))
        return first_of([*places(line, SIGN, fits), ("", len(line))])
    if what == 2:
        return first_of(no_names(signals))
    if what == 6:
        return first_of(signals)
    if what == 7:
        driven = set(map(driven_by, lines))
        return first_of(place for place in signals if place[0] not in driven)
    # The kind of the gate.
    return first_of(words[2:])


def in_design(above: Sequence[str], line: str, what: int) -> Place | None:
    """The place in a line of a design, below these lines."""
    words = places(line)
    first, names = "".join(word for word, _ in words[:1]), words[1:]
    kinds, wires, parts = declared(above)
    if what == 2:
        return first_of(no_names(names, "(),=."))
    if what == 3 and first in ("type", "block"):
        return first_of([*taken_names(names[:1], kinds), *taken_names(names[1:], set())])
    if what == 3 and first in ("wire", "part"):
        return first_of(taken_names(names, wires) if first == "wire" else taken_names(names[:1], parts))
    if what == 4 and first == "part":
        return first_of([place for at, place in enumerate(names[1:]) if place[0] not in (wires if at else kinds)])
    if what == 5:
        return first_of(names[1:] if first == "part" else names[MOST_PORTS + 1 :] or names)
    # The first word is what is not allowed here.
    return first_of(words if what in (1, 3, 8) else names)


def declared(lines: Iterable[str]) -> tuple[Set[str], Set[str], Set[str]]:
    """Types and blocks that are closed above a line of a design, with the gates; and wires and parts of the block that is open."""
    kinds, wires, parts, opened = set(GATES), set[str](), set[str](), ""
    for line in lines:
        first, *names = [word for word, _ in places(line)] or [""]
        if first in ("type", "block"):
            opened, wires, parts = "".join(names[:1]), set(names[1:]), set()
        elif first == "end":
            kinds.add(opened)
        elif first == "wire":
            wires.update(names)
        elif first == "part":
            parts.update(names[:1])
    return kinds, wires, parts


def in_graph(above: Sequence[str], line: str, what: int) -> Place | None:
    """The place in a line of a graph, below these lines: a child that is no earlier node, or a variable."""
    words = places(line)
    if what == 4:
        return first_of(words[1:])
    nodes = sum(bool(other.split()) for other in above) - 1
    children = words[3:] if line.lstrip().startswith("O") else words[2:]
    return first_of(place for place in children if what == 3 and not (place[0].isdecimal() and int(place[0]) < nodes))
