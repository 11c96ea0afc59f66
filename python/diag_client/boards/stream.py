"""A table of readings as it comes, from a file or a pipe, taken board by board: comma-separated values, or a JSON object in each line."""

from __future__ import annotations

import collections
import contextlib
import csv
import dataclasses
import functools
import io
import itertools
import json
import os
import pathlib
import sys
from collections.abc import Iterable, Iterator, Mapping
from typing import IO, Any, NamedTuple

from ..errors import DiagError, shown
from ..session import BLANKS
from .tables import COMMENT, NAME, SEPARATOR, UTF_16, ZIP, BadTable, sign_in

# The columns that name the board, its pattern and its device. Each other column, unless it is ignored, is a wire.
BOARD, PATTERN, DEVICE = "board", NAME, "device"
NAMING = (BOARD, PATTERN, DEVICE)
# A quote that is not closed within so many lines was never meant to be.
LONGEST_CELL = 20

Row = tuple[int, str]


class BadReading(DiagError):
    """What a row says is no reading: in which line and column, and by which word."""

    def __init__(self, line: int, column: str | None, word: str | None, what: str) -> None:
        super().__init__(line, column, word, what)
        self.line = line
        self.column = column
        self.word = word
        self.what = what

    def __str__(self) -> str:
        where = f"line {self.line}" + ("" if self.column is None else f", column {shown(self.column)}")
        return f"{where}: {self.what}" + ("" if self.word is None else f": {shown(self.word)!r}")


class BoardRows(NamedTuple):
    """The rows of one board, each with the number of its line, as they are written."""

    name: str
    device: str
    rows: tuple[Row, ...]


@dataclasses.dataclass(frozen=True)
class Layout:
    """How rows are read: the columns' names, and the sign between cells. JSON has no sign, and its columns are the keys of each row."""

    columns: tuple[str, ...] = ()
    sign: str = ""
    ignored: frozenset[str] = frozenset()

    @property
    def is_json(self) -> bool:
        """Whether each row is a JSON object."""
        return not self.sign

    def cells(self, row: Row) -> list[str]:
        """The cells of a row, with the blanks around them."""
        line, text = row
        if self.sign == " ":
            return text.split()
        if '"' not in text:
            return text.split(self.sign)
        try:
            return next(csv.reader([text], delimiter=self.sign, strict=True))
        except csv.Error as error:
            raise BadReading(line, None, None, f"not comma-separated values: {error}") from None

    def object(self, row: Row) -> dict[str, Any]:
        """The object in a row of JSON."""
        line, text = row
        try:
            found = json.loads(text)
        except (ValueError, RecursionError) as error:
            raise BadReading(line, None, None, f"not JSON: {error}") from None
        if not isinstance(found, dict):
            raise BadReading(line, None, None, "not a JSON object")
        return found

    def check(self, row: Row) -> None:
        """Raises `BadReading` if nothing can be read of a row."""
        self.object(row) if self.is_json else self.cells(row)

    def names(self, row: Row) -> tuple[str | None, str]:
        """What a row calls its board, None if it does not say, and its device."""
        if self.is_json:
            try:
                found = self.object(row)
            except BadReading:
                return "", ""
            return (_plain(found[BOARD]) if BOARD in found else None), _plain(found.get(DEVICE))
        board, device, most = self._places
        try:
            cells = self.cells(row) if '"' in row[1] or self.sign == " " else row[1].split(self.sign, most)
        except BadReading:
            cells = row[1].split(self.sign)
        return (None if board is None else _at(cells, board)), ("" if device is None else _at(cells, device))

    @functools.cached_property
    def _places(self) -> tuple[int | None, int | None, int]:
        """The columns of the board and of the device, and how many cells are looked at to find both."""
        places = [self.columns.index(column) if column in self.columns else None for column in (BOARD, DEVICE)]
        return places[0], places[1], max((place for place in places if place is not None), default=0) + 1


def _at(cells: list[str], place: int) -> str:
    return _plain(cells[place]) if place < len(cells) else ""


def _plain(value: object) -> str:
    """A name as a line of results has it."""
    return "" if value is None else " ".join(str(value).split())


class Readings:
    """The boards of a table. Rows of one board follow one another. A row that has no place for a board's name is one, and has a number.

    `source` is a file, `-` for standard input, or rows as mappings from names to readings.
    """

    def __init__(self, source: str | os.PathLike[str] | Iterable[Mapping[str, Any]], ignored: Iterable[str] = ()) -> None:
        self._binary: IO[bytes] | None = None
        self._size = 0
        self._ignored = frozenset(ignored)
        if isinstance(source, (str, os.PathLike)):
            self.title = os.fspath(source)
            self.folder = pathlib.Path(source).parent if self.title != "-" else pathlib.Path()
            self._lines: Iterator[Row] = ((number, line.rstrip("\r\n")) for number, line in enumerate(self._opened(), 1))
            self.layout = self._read_layout()
        else:
            self.title, self.folder = "the readings", pathlib.Path()
            self._lines = ((number, json.dumps(row, default=str)) for number, row in enumerate(source, 1))
            self.layout = Layout(ignored=self._ignored)

    def __iter__(self) -> Iterator[BoardRows]:
        name, device, number = "", "", 0
        rows: list[Row] = []
        for row in self._rows():
            number += 1
            board, of = self.layout.names(row)
            if rows and board and board == name:
                rows.append(row)
                continue
            if rows:
                yield BoardRows(name, device, tuple(rows))
            name, device, rows = str(number) if board is None else board, of, [row]
        if rows:
            yield BoardRows(name, device, tuple(rows))

    @property
    def share(self) -> float | None:
        """How much of the file was read; None if nobody knows."""
        if self._binary is None or not self._size:
            return None
        # It is closed once all of it was read.
        return 1.0 if self._binary.closed else self._binary.tell() / self._size

    def close(self) -> None:
        """Closes what was opened."""
        if self._binary is not None:
            with contextlib.suppress(OSError):
                self._binary.close()

    def _opened(self) -> Iterable[str]:
        """The lines of the file, as text."""
        raw = io.FileIO(sys.stdin.fileno() if self.title == "-" else self.title, closefd=self.title != "-")
        with contextlib.suppress(OSError):
            self._size = os.fstat(raw.fileno()).st_size if raw.seekable() else 0
        self._binary = raw
        buffered = io.BufferedReader(raw, 1 << 18)
        begin = buffered.peek(len(ZIP))
        if begin.startswith(ZIP):
            raise BadTable(f"{self.title}: a workbook or an archive, and no comma-separated values: save the sheet as CSV")
        encoding, errors = ("utf-16", "replace") if begin.startswith(UTF_16) else ("utf-8-sig", "surrogateescape")
        return io.TextIOWrapper(buffered, encoding, errors)

    def _read_layout(self) -> Layout:
        """What the first row says, or that there are objects from the first row on."""
        first = next(self._rows_among(self._lines, ""), None)
        if first is None:
            raise BadTable(f"{self.title}: no rows: a first row with the names of wires is needed, and then a row for each board")
        if first[1].lstrip(BLANKS).startswith("{"):
            self._lines = itertools.chain([first], self._lines)
            return Layout(ignored=self._ignored)
        told = SEPARATOR.fullmatch(first[1].strip(" "))
        if told:
            first = next(self._rows_among(self._lines, ""), (first[0], ""))
        sign = told[1] if told else sign_in(first[1].strip())
        self._lines = _joined(itertools.chain([first], self._lines), sign)
        row = next(self._lines)
        names = [cell.strip(BLANKS) for cell in Layout((), sign).cells(row)]
        columns = [name.lower() if name.lower() in NAMING else name for name in names]
        while columns and not columns[-1]:
            columns.pop()
        self._check(row[0], columns)
        return Layout(tuple(columns), sign, self._ignored)

    def _check(self, line: int, columns: list[str]) -> None:
        for place, name in enumerate(columns, 1):
            if name in columns[:place - 1]:
                raise BadTable(f"{self.title}: line {line}, column {place}: a second column {shown(name)!r}")
        if PATTERN in columns and BOARD not in columns:
            raise BadTable(f"{self.title}: line {line}: a column `{PATTERN}` needs a column `{BOARD}`")

    def _rows(self) -> Iterator[Row]:
        return self._rows_among(self._lines, self.layout.sign)

    @staticmethod
    def _rows_among(rows: Iterable[Row], sign: str) -> Iterator[Row]:
        """Those that say something."""
        empty = BLANKS + sign
        for row in rows:
            if row[1].strip(empty) and not row[1].startswith(COMMENT):
                yield row


def _joined(rows: Iterator[Row], sign: str) -> Iterator[Row]:
    """Rows whose cells in quotes may have more than one line. A quote that nothing closes is in one row alone."""
    waiting: collections.deque[Row] = collections.deque()

    def following() -> Row | None:
        if waiting:
            return waiting.popleft()
        return next(rows, None)

    while (row := following()) is not None:
        if '"' not in row[1]:
            yield row
            continue
        text, more = row[1], list[Row]()
        while (is_open := _is_open(text, sign)) and len(more) < LONGEST_CELL and (after := following()) is not None:
            more.append(after)
            text = f"{text}\n{after[1]}"
        if is_open:
            waiting.extendleft(reversed(more))
        yield row if is_open else (row[0], text)


def _is_open(text: str, sign: str) -> bool:
    """Whether a row ends within quotes."""
    if text.count('"') % 2 == 0:
        return False
    try:
        next(csv.reader([text], delimiter=sign, strict=True))
    except csv.Error as error:
        return "end of data" in str(error)
    return False
