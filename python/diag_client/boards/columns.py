"""What the columns of a table mean for one device: lines of a script, or the bits of wires."""

from __future__ import annotations

import json
import operator
from collections.abc import Iterable, Iterator, Mapping, Sequence
from typing import Any

from ..readings import UNREAD, bit_of
from .stream import NAMING, PATTERN, BadReading, Layout, Row

# The session that each board of one pattern has for itself.
NAME = "S"
# So many cells are looked up at a time, and so many texts of them are kept.
AT_A_TIME = 8
MOST_KNOWN = 10_000


class _AnyWord(dict[Any, str]):
    """No line, whatever a cell says."""

    def __missing__(self, word: object) -> str:
        return ""


class _Piece(dict[str, str]):
    """The lines of some cells that follow one another, by their text: most rows of a table have the same few of them."""

    def __init__(self, tables: Sequence[Mapping[str, str]], sign: str) -> None:
        super().__init__()
        self._tables = tables
        self._sign = sign

    def __missing__(self, text: str) -> str:
        cells = text.removesuffix(self._sign).split(self._sign)
        lines = "".join(table[cell] for table, cell in zip(self._tables, cells, strict=True))
        if len(self) >= MOST_KNOWN:
            self.clear()
        self[text] = lines
        return lines


class Columns:
    """What rows say about the wires of a device: lines of a script, or the bits that were seen."""

    def __init__(self, layout: Layout, wires: Iterable[str], others: Mapping[str, str]) -> None:
        self.layout = layout
        self._wires = {wire: wire for wire in wires} | dict(others)
        self._skipped = {*NAMING, *layout.ignored}
        self._tables = [self._table(column) for column in layout.columns]
        self._by_name: dict[str, dict[Any, str]] = {name: _AnyWord() for name in self._skipped}
        if not others:
            self._by_name = {name: self._of_wire(name) for name in self._wires} | self._by_name
        named = [self._wires[column] for column in layout.columns if column in self._wires and column not in self._skipped]
        self._has_pairs = len(set(named)) < len(named)
        # Wires that come after all names are looked up some at a time, as long as each cell is one sign.
        self._first = next((place for place, column in enumerate(layout.columns) if column not in self._skipped), 0)
        rest = range(self._first, len(layout.columns), AT_A_TIME)
        is_plain = self._skipped.isdisjoint(layout.columns[self._first:]) and not self._has_pairs
        self._pieces = [_Piece(self._tables[place:place + AT_A_TIME], layout.sign) for place in rest] if is_plain else []
        self._places = range(0, 2 * (len(layout.columns) - self._first) - 1, 2 * AT_A_TIME)

    @property
    def unknown(self) -> list[str]:
        """The columns that are no wires."""
        return [column for column in self.layout.columns if column not in self._wires and column not in self._skipped]

    @property
    def clashing(self) -> list[str]:
        """The columns that are wires too, although their names have another meaning in a table."""
        return [column for column in self.layout.columns if column in self._wires and column in NAMING]

    def script(self, row: Row) -> str:
        """The lines of what was seen. Raises `BadReading`."""
        try:
            if self.layout.is_json:
                found = json.loads(row[1])
                return "".join([self._by_name[name][value] for name, value in found.items()])
            rest = row[1].split(self.layout.sign, self._first)[-1]
            if self._pieces and len(rest) == 2 * (len(self._tables) - self._first) - 1 and '"' not in row[1]:
                return "".join([piece[rest[place:place + 2 * AT_A_TIME]] for piece, place in zip(self._pieces, self._places)])
            cells = self.layout.cells(row)
            if len(cells) == len(self._tables) and not self._has_pairs:
                return "".join(map(operator.getitem, self._tables, cells))
        except (KeyError, TypeError, ValueError, AttributeError):
            pass
        # What is not quite usual takes a little longer.
        return "".join(f"see {NAME} {wire}={bit}\n" for wire, bit in self.seen(row).items())

    def seen(self, row: Row) -> dict[str, int]:
        """The bits of the wires. Raises `BadReading`."""
        seen: dict[str, int] = {}
        for column, word in self._words(row):
            if column in self._skipped:
                continue
            try:
                bit = bit_of(word)
            except ValueError as error:
                raise BadReading(row[0], column, word, str(error)) from None
            if bit is None:
                continue
            if column not in self._wires:
                raise BadReading(row[0], column, word, "a reading of no wire")
            if seen.setdefault(self._wires[column], bit) != bit:
                raise BadReading(row[0], column, word, "another reading of one wire with a column before it")
        return seen

    def label(self, row: Row) -> str:
        """What a row calls its pattern."""
        return next((word for column, word in self._words(row) if column == PATTERN), "")

    def _words(self, row: Row) -> Iterator[tuple[str, str]]:
        """Each column with what stands there."""
        if self.layout.is_json:
            for name, value in self.layout.object(row).items():
                yield name, "" if value is None else value if isinstance(value, str) else json.dumps(value)
            return
        columns, cells = self.layout.columns, [cell.strip() for cell in self.layout.cells(row)]
        while len(cells) > len(columns) and not cells[-1]:
            cells.pop()
        if len(cells) != len(columns):
            word = cells[len(columns)] if len(cells) > len(columns) else None
            raise BadReading(row[0], None, word, f"{len(cells)} cells, and the first row has {len(columns)}")
        yield from zip(columns, cells, strict=True)

    def _table(self, column: str) -> dict[str, str]:
        return _AnyWord() if column in self._skipped else self._of_wire(self._wires.get(column))

    @staticmethod
    def _of_wire(wire: str | None) -> dict[Any, str]:
        lines: dict[Any, str] = dict.fromkeys([None, *UNREAD, *map(str.upper, UNREAD)], "")
        for bit in (0, 1) if wire is not None else ():
            lines[bit] = lines[str(bit)] = f"see {NAME} {wire}={bit}\n"
        return lines
