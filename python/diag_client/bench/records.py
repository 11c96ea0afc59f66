"""What is known of one board as plain data: its patterns, what was noted of it, and the readers of what a technician types and pastes."""

from __future__ import annotations

import dataclasses
import sys
from collections.abc import Collection, Mapping, Sequence

from ..boards.tables import MARK, SEPARATOR, BadTable, cells_of, rows_of
from ..case import NAME_RULE, SESSION_NAME, Board, Case, Mode
from ..errors import BadScript, shown
from ..readings import at_odds, bit_of, without_buses, words_of

MOST_PATTERNS = 100
# A record is a script of at most so many lines.
MOST_LINES = 20_000
MOST_TEXT = 2000
# Lines of a saved record that the program passes over.
UNREACHABLE, REPLACED = "# cannot reach ", "# replaced "


class Bad(ValueError):
    """What was asked cannot be done. The text says what is wrong and what to do; nothing was changed."""


@dataclasses.dataclass(frozen=True)
class Record:
    """What is known of one board. `now` says at which pattern readings are entered; parts are held for all patterns."""

    board: Board = Board({"P1": Case()})
    now: int = 0
    unreachable: frozenset[str] = frozenset()
    replaced: str = ""

    @property
    def names(self) -> list[str]:
        """The names of the patterns."""
        return list(self.board.patterns)

    @property
    def seen(self) -> Mapping[str, int]:
        """The readings of the present pattern."""
        return self.board.patterns[self.names[self.now]].seen

    @property
    def line_count(self) -> int:
        """How many lines its script has."""
        cases = self.board.patterns.values()
        return 1 + sum(1 + len(case.seen) + len(case.held) for case in cases) + len(self.unreachable) + len(self.replaced.splitlines())

    def with_readings(self, seen: Mapping[str, int | None]) -> Record:
        """The same with other readings in the present pattern; None takes a reading back."""
        kept = {wire: bit for wire, bit in self.seen.items() if wire not in seen}
        kept |= {wire: bit for wire, bit in seen.items() if bit is not None}
        name = self.names[self.now]
        return self._with({**self.board.patterns, name: Case(kept, self.board.patterns[name].held)}, self.now)

    def with_held(self, held: Mapping[str, Mode]) -> Record:
        """The same with just these parts held, in all patterns."""
        return self._with({name: Case(case.seen, held) for name, case in self.board.patterns.items()}, self.now)

    def with_pattern(self, name: str = "") -> Record:
        """The same with one more pattern, which is the present one."""
        patterns = self.board.patterns
        if not name:
            name = next(made for number in range(1, len(patterns) + 2) if (made := f"P{number}") not in patterns)
        if not SESSION_NAME.fullmatch(name):
            raise Bad(f"{shown(name)!r} is no name of a pattern: use {NAME_RULE}")
        if name in patterns:
            raise Bad(f"there is a pattern {name} already: choose another name")
        if len(patterns) >= MOST_PATTERNS:
            raise Bad(f"a board has at most {MOST_PATTERNS} patterns: remove one")
        return self._with({**patterns, name: Case({}, self.board.held)}, len(patterns))

    def without_pattern(self, name: str) -> Record:
        """The same without a pattern; the last one that is left is emptied."""
        left = {other: case for other, case in self.board.patterns.items() if other != name}
        return self._with(left or {"P1": Case({}, self.board.held)}, max(0, min(self.now, len(left) - 1)))

    def script(self, title: str) -> list[str]:
        """The record as lines of a script, which the program takes as they are."""
        lines = [f"# {title}", *self.board.script().splitlines(), *(f"{UNREACHABLE}{wire}" for wire in sorted(self.unreachable))]
        return lines + [f"{REPLACED}{line}" for line in self.replaced.splitlines()]

    def _with(self, patterns: Mapping[str, Case], now: int) -> Record:
        return dataclasses.replace(self, board=Board(patterns), now=now)


@dataclasses.dataclass(frozen=True)
class Known:
    """The names that a reading or a test may speak of, and other names of these. A name that can be reached is one without its time."""

    wires: Collection[str]
    parts: Collection[str]
    reachable: Collection[str]
    others: Mapping[str, str] = dataclasses.field(default_factory=dict)

    def wire(self, name: str) -> str:
        """The wire of a name."""
        here = self.others.get(name, name)
        if here not in self.wires and here in self.reachable:
            raise Bad(f"{name} has a reading for each time: write {name}@0001 for the first")
        if here not in self.wires and (timeless := here.rpartition("@")[0]) in self.reachable and timeless not in self.wires:
            raise Bad(f"{shown(name)} is at no time of these: the first is {timeless}@0001")
        if here not in self.wires:
            raise Bad(f"no wire {shown(name)}: names are those in the drawing, capital and small letters are not the same")
        # A name is kept once, however often it is entered.
        return sys.intern(here)

    def reading(self, name: str, text: str) -> tuple[str, int | None]:
        """A wire and its bit; what is no reading takes one back."""
        wire = self.wire(name)
        try:
            return wire, bit_of(text)
        except ValueError as error:
            raise Bad(f"{name}={shown(text)}: {error}") from None

    def part(self, name: str) -> str:
        """The part of a name."""
        here = self.others.get(name, name)
        if here not in self.parts:
            raise Bad(f"no part {shown(name)}")
        return here

    def name_of(self, command: str, name: str) -> str:
        """The name that counts for one in a line of a script."""
        return self.wire(name) if command.endswith("see") else self.part(name)


def read_script(text: str, known: Known) -> Record:
    """What a script leaves. A line that is not understood is refused by its number; questions are passed over."""
    unreachable: set[str] = set()
    replaced: list[str] = []
    for number, line in enumerate(text.replace("\r", "").split("\n"), 1):
        wire = line.removeprefix(UNREACHABLE).strip()
        if line.startswith(UNREACHABLE) and wire not in known.reachable:
            raise Bad(f"line {number}: no wire {shown(wire)}; nothing was loaded")
        if line.startswith(UNREACHABLE):
            unreachable.add(wire)
        elif line.startswith(REPLACED):
            replaced.append(line.removeprefix(REPLACED))
    record = Record(Board())
    try:
        board = Board.from_script(text, known.name_of)
        for name, case in board.patterns.items():
            record = record.with_pattern(name).with_readings(case.seen)
    except (BadScript, Bad) as error:
        raise Bad(f"{error}; nothing was loaded") from error
    if not board.patterns:
        raise Bad("there is no reading in it: a saved case has lines such as `open P1` and `see P1 a=0`; nothing was loaded")
    noted = {"unreachable": frozenset(unreachable), "replaced": "\n".join(replaced)[:MOST_TEXT]}
    return dataclasses.replace(record.with_held(board.held), now=0, **noted)


def has_case(text: str) -> bool:
    """Whether a script that was saved says anything of the board: `read_script` refuses an empty one."""
    return any(line.startswith("open ") for line in text.splitlines())


def read_readings(text: str, known: Known) -> list[tuple[str | None, dict[str, int | None]]]:
    """What was pasted: pairs such as a=0 b=1, a table whose first row has the names of wires and each further row a pattern, or a script.

    Gives the name of a pattern, which is empty if none is said, with its readings; None for pairs, which are of the present pattern.
    """
    lines = [line for line in text.removeprefix(MARK).splitlines() if line.strip() and not line.startswith("#")]
    try:
        if lines and lines[0].split()[0] in ("open", "see"):
            board = Board.from_script(text, known.name_of)
            if board.held:
                raise Bad("tests of parts are in this script: take it by Load")
            return [(name, dict(case.seen)) for name, case in board.patterns.items()]
        if len(lines) < 2 and not any("=" in line for line in lines):
            raise Bad(f"{shown(text.strip())!r} is no reading: write a=0 b=1")
        if not any("=" in line for line in lines) or SEPARATOR.fullmatch(lines[0]):
            names = {wire: wire for wire in known.wires} | dict(known.others)
            return [(name, dict(seen)) for name, seen in rows_of("the table", cells_of("the table", text, names), names)]
    except (BadTable, BadScript) as error:
        raise Bad(f"{error}; nothing was taken. Write a=0 b=1, or a table of wires by patterns") from error
    try:
        words = without_buses(words_of("\n".join(lines)), {*known.wires, *known.others})
    except ValueError as error:
        raise Bad(f"{error}; nothing was taken") from None
    pairs = [word.rpartition("=") for word in words]
    for word, (wire, _, _) in zip(words, pairs, strict=True):
        if not wire:
            raise Bad(f"{shown(word)!r} is no reading: write a=0 b=1")
    if why := at_odds(words, known.others):
        raise Bad(why)
    return [(None, dict(known.reading(wire, bit) for wire, _, bit in pairs))]


def take_readings(record: Record, rows: Sequence[tuple[str | None, Mapping[str, int | None]]], here: bool = False) -> Record:
    """Adds what was pasted. Each row is a pattern: the present one if it is empty, and else a new one.

    Pairs, and the only row if it is meant for `here`, are of the present pattern.
    """
    if here and len(rows) != 1:
        raise Bad(f"these are {len(rows)} patterns, and not one for the present pattern; nothing was taken")
    if len(rows) > MOST_PATTERNS:
        raise Bad(f"a board has at most {MOST_PATTERNS} patterns, and these are {len(rows)}; nothing was taken")
    for index, (name, seen) in enumerate(rows):
        if name is not None and not here:
            if name in record.board.patterns:
                record = dataclasses.replace(record, now=record.names.index(name))
            elif index or record.seen or name:
                held = record.board.held
                if not record.seen and len(record.names) == 1 and not index:
                    record = dataclasses.replace(record, board=Board(), now=0)
                record = record.with_pattern(name).with_held(held)
        record = record.with_readings(seen)
    return record


def told_of_change(before: Mapping[str, Case], after: Mapping[str, Case], count: int) -> str:
    """What was done by a paste: how much was taken, and the readings that it replaced by other bits."""
    new = len(after.keys() - before.keys())
    other = [
        f"{wire} was {bit}" for name, case in before.items() for wire, bit in case.seen.items()
        if name in after and after[name].seen.get(wire, bit) != bit
    ]  # fmt: skip
    words = [f"{count} reading{'s' * (count != 1)} taken", f"{new} new pattern{'s' * (new != 1)}" if new else "", ", ".join(other)]
    return "; ".join(filter(None, words))
