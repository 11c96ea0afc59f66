"""Test patterns as a table: the first row has the names of wires, and each further row what one pattern shows of them."""

from __future__ import annotations

import codecs
import csv
import io
import os
import pathlib
import re
from collections.abc import Iterable, Mapping, Sequence

from ..case import NAME_RULE, SESSION_NAME, Board, Case
from ..errors import DiagError, shown
from ..readings import bit_of, bits_of, bus_of

# The column that names the patterns.
NAME = "pattern"
Rows = Iterable[Sequence[str | int | None]]
MARK = "\N{BYTE ORDER MARK}"
UTF_16 = (codecs.BOM_UTF16_LE, codecs.BOM_UTF16_BE)
# The begin of a workbook (.xlsx, .ods).
ZIP = b"PK\x03\x04"
COMMENT = "#"
# A first line by which a spreadsheet learns what parts the cells.
SEPARATOR = re.compile("sep=(.)", re.IGNORECASE)


class BadTable(DiagError, ValueError):
    """A table of patterns says what no pattern can be. The text has the row and the column; nothing is taken from the table."""


def read_table(source: str | os.PathLike[str] | Rows, wires: Iterable[str], others: Mapping[str, str] | None = None) -> Board:
    """The patterns in a file of comma-separated values, or in rows of cells, over a device with these wires and other names of them.

    A cell is 0 or 1; X, Z, - and an empty one say that nothing was read. A column called `pattern` names the patterns; without it they
    are p1, p2 and so on. Semicolons, tabs or blanks may part the cells as well, and lines that begin with # are passed over.
    """
    names = {wire: wire for wire in wires} | dict(others or {})
    if isinstance(source, (str, os.PathLike)):
        data = pathlib.Path(source).read_bytes()
        if data.startswith(ZIP):
            raise BadTable(f"{source}: a workbook or an archive, and no comma-separated values: save the sheet as CSV")
        # Some programs write UTF-16, which begins with a mark.
        text = data.decode("utf-16", "replace") if data.startswith(UTF_16) else data.decode("utf-8", "surrogateescape")
        rows = rows_of(os.fspath(source), cells_of(os.fspath(source), text, names), names)
    else:
        rows = rows_of("the table", [_cells(row) for row in source], names)
    return Board({name or f"p{place}": Case(seen) for place, (name, seen) in enumerate(rows, 1)})


def _cells(row: Sequence[str | int | None]) -> list[str]:
    if isinstance(row, str):
        raise BadTable(f"the table: a row is a list of cells, and not the text {shown(row)!r}")
    return ["" if cell is None else str(cell).strip() for cell in row]


def cells_of(table: str, text: str, names: Mapping[str, str]) -> list[list[str]]:
    """The cells of a text. What parts them is seen in its first row, and none that is a name in itself is cut."""
    lines = text.removeprefix(MARK).replace("\r\n", "\n").replace("\r", "\n").split("\n")
    told = SEPARATOR.fullmatch(lines[0].strip(" "))
    if told:
        lines[0] = ""
    header = next((line.strip() for line in lines if line.strip() and not line.startswith(COMMENT)), "")
    sign = told[1] if told else "," if header in names else sign_in(header)
    # A line stays where it is, so that a row has the number of its line.
    lines = ["" if line.startswith(COMMENT) else line for line in lines]
    if sign == " ":
        return [line.split() for line in lines]
    try:
        rows = csv.reader(io.StringIO("\n".join(lines), newline=""), delimiter=sign, strict=True)
        return [[cell.strip() for cell in row] for row in rows]
    except csv.Error as error:
        raise BadTable(f"{table}: not comma-separated values: {error}") from None


def sign_in(header: str) -> str:
    """What parts the cells of a first row."""
    return next((sign for sign in ",;\t " if sign in header), ",")


def rows_of(table: str, cells: Sequence[Sequence[str]], names: Mapping[str, str]) -> list[tuple[str, dict[str, int]]]:
    """The patterns in the cells of a table, given the wire of each name: the name of each, which is empty if none is said, and its bits.

    A row of empty cells is passed over, and so are empty columns at the end.
    """
    numbered = [(number, row) for number, row in enumerate(cells, 1) if any(row)]
    if len(numbered) < 2:
        raise BadTable(f"{table}: a first row with the names of wires is needed, and a row for each pattern")
    (first, header), *rest = numbered
    buses = {column: bus for column in header if column.lower() != NAME and (bus := bus_of(column, names))}
    if buses:
        header, rest = _apart(table, header, rest, buses)
    header = _header(f"{table}: row {first}", header, names)
    found: list[tuple[str, dict[str, int]]] = []
    taken: set[str] = set()
    for number, row in rest:
        name, seen = _row(f"{table}: row {number}", header, row, names)
        if name in taken:
            raise BadTable(f"{table}: row {number}, column {header.index(NAME) + 1}: a second pattern {shown(name)!r}")
        taken.update([name] if name else [])
        found.append((name, seen))
    return found


def _apart(
    table: str, header: Sequence[str], rest: list[tuple[int, Sequence[str]]], buses: Mapping[str, list[str]]
) -> tuple[list[str], list[tuple[int, Sequence[str]]]]:
    """The same columns and rows, with a column for each wire in place of one for a bus."""
    rows: list[tuple[int, Sequence[str]]] = []
    for number, row in rest:
        cells: list[str] = []
        for column, (name, cell) in enumerate(zip(header, row), 1):
            try:
                cells += [bit for _, bit in bits_of(name, cell, buses[name])] if name in buses else [cell]
            except ValueError as error:
                raise BadTable(f"{table}: row {number}, column {column} ({name}): {error}") from None
        rows.append((number, [*cells, *row[len(header):]]))
    return [wire for name in header for wire in buses.get(name, [name])], rows


def _header(where: str, row: Sequence[str], names: Mapping[str, str]) -> list[str]:
    """The names of the columns, checked."""
    header = [name if name in names or name.lower() != NAME else NAME for name in _without_end(row)]
    for column, name in enumerate(header, 1):
        if name == NAME and name in names:
            raise BadTable(f"{where}, column {column}: {NAME} is a wire here and cannot name the patterns: see it without a table")
        if name != NAME and name not in names:
            raise BadTable(f"{where}, column {column}: no wire {shown(name)!r}")
    if len(set(header)) < len(header):
        column = next(column for column, name in enumerate(header) if name in header[:column])
        raise BadTable(f"{where}, column {column + 1}: a second column {shown(header[column])!r}")
    return header


def _without_end(row: Sequence[str], least: int = 0) -> list[str]:
    """A row without the empty cells at its end, down to so many cells."""
    count = len(row)
    while count > least and not row[count - 1]:
        count -= 1
    return list(row[:count])


def _row(where: str, header: Sequence[str], row: Sequence[str], names: Mapping[str, str]) -> tuple[str, dict[str, int]]:
    row = _without_end(row, len(header))
    if len(row) != len(header):
        raise BadTable(f"{where}, column {min(len(row), len(header)) + 1}: {len(row)} cells, and the first row has {len(header)}")
    seen: dict[str, int] = {}
    name = ""
    for column, (wire, cell) in enumerate(zip(header, row, strict=True), 1):
        if wire == NAME:
            if not SESSION_NAME.fullmatch(cell):
                raise BadTable(f"{where}, column {column}: not the name of a pattern, which has {NAME_RULE}: {shown(cell)!r}")
            name = cell
            continue
        try:
            bit = bit_of(cell)
        except ValueError as error:
            raise BadTable(f"{where}, column {column} ({wire}): not {shown(cell)!r}: {error}") from None
        if bit is not None and seen.setdefault(names[wire], bit) != bit:
            raise BadTable(f"{where}, column {column} ({wire}): not {cell}, since it is one wire with a column before it")
    return name, seen
