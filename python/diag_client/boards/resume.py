"""The file of results: whole lines are added to it, and a run that was ended goes on after the last one."""

from __future__ import annotations

import contextlib
import errno
import fcntl
import json
import os
import stat
from collections.abc import Iterator
from typing import Any

from ..child import interrupts_held_back
from ..errors import DiagError, shown
from .results import KEYS, FlatTable, Tally, suspects_of
from .stream import BoardRows

STANDARD_OUTPUT = "-"
# How each line of JSON begins.
BEGIN = b'{"board": '


def _flags(path: str) -> int:
    """How the file is opened: one that is there and no plain file, such as a pipe, can only be written."""
    is_other = os.path.exists(path) and not os.path.isfile(path)
    return os.O_WRONLY if is_other else os.O_RDWR | os.O_CREAT | os.O_APPEND


class UnusableResults(DiagError):
    """The file of results cannot be written, or is none of this run."""


class ResultsFile:
    """Where results go. What is written is whole lines, whatever ends the run; another run cannot write there meanwhile.

    With `goes_on` a file that is there is kept, and what is in it is not asked again.
    """

    def __init__(self, path: str, table: FlatTable | None, asked: list[str], goes_on: bool) -> None:
        self.path = path
        self._table = table
        self._keys = [*KEYS, *asked]
        self._is_new = not os.path.exists(path)
        self._file = os.dup(1) if path == STANDARD_OUTPUT else os.open(path, _flags(path), 0o666)
        self._is_plain = stat.S_ISREG(os.fstat(self._file).st_mode) and path != STANDARD_OUTPUT
        # All whole lines are before this place.
        self._end = 0
        self._is_begun = False
        try:
            self._claim(goes_on)
        except BaseException:
            os.close(self._file)
            raise

    def answered(self, boards: Iterator[BoardRows], tally: Tally) -> None:
        """Takes the boards that are in the file, and counts them. What comes after the last whole line of a board is cut off."""
        header = b"" if self._table is None else self._table.header
        if self._is_plain:
            with os.fdopen(os.dup(self._file), "rb") as file:
                file.seek(0)
                begin = file.read(len(header))
                if not header.startswith(begin):
                    raise UnusableResults(f"{self.path}: it does not begin as the results of this run do; give another name by -o")
                self._end = len(header) if begin == header else 0
                for number, line in enumerate(file if begin == header else (), 1):
                    if (found := self._read(number, line)) is None:
                        break
                    self._compare(number, found, next(boards, None))
                    tally.count(found["status"], suspects_of(found["diagnoses"]))
                    self._end += len(line)
        self._is_begun = True
        self.cut()
        if self._end == 0:
            self.write(header)

    def write(self, lines: bytes) -> None:
        """Adds whole lines."""
        left = memoryview(lines)
        # A pipe that nobody reads may hold this up.
        with interrupts_held_back() if self._is_plain else contextlib.nullcontext():
            while left:
                left = left[self._written(left):]
            self._end += len(lines)

    def cut(self) -> None:
        """Cuts off what is no whole line."""
        if self._is_plain:
            os.ftruncate(self._file, self._end)

    def close(self) -> None:
        """Closes the file, once all is on the disk."""
        try:
            if self._is_begun:
                self.cut()
                with contextlib.suppress(OSError):
                    os.fsync(self._file)
            elif self._is_plain and self._is_new:
                os.unlink(self.path)
        finally:
            os.close(self._file)

    def _written(self, data: memoryview) -> int:
        try:
            return os.write(self._file, data)
        except OSError as error:
            error.filename = self.path
            raise

    def _claim(self, goes_on: bool) -> None:
        if not self._is_plain:
            if goes_on:
                raise UnusableResults("--resume needs a file of results: give its name by -o")
            return
        try:
            fcntl.flock(self._file, fcntl.LOCK_EX | fcntl.LOCK_NB)
        except BlockingIOError:
            raise UnusableResults(f"{self.path}: another run writes it") from None
        except OSError as error:
            # Some file systems have no locks.
            if error.errno not in (errno.ENOLCK, errno.ENOTSUP, errno.ENOSYS):
                raise
        if not goes_on and os.fstat(self._file).st_size:
            raise UnusableResults(f"{self.path}: it is there: `--resume` goes on with it, and another name begins anew")

    def _read(self, number: int, line: bytes) -> dict[str, Any] | None:
        """What a line says; None if it is not whole: it is the last one, or has what a disk leaves where nothing was written."""
        with contextlib.suppress(ValueError):
            text = line.decode("utf-8", "surrogateescape")
            found = json.loads(text) if self._table is None else self._table.read(text)
            if line.endswith(b"\n") and isinstance(found, dict) and found.keys() >= set(KEYS):
                return found
        if b"\0" in line or not line.endswith(b"\n") and (self._table or line.startswith(BEGIN[:len(line)])):
            return None
        raise UnusableResults(f"{self.path}: line {number} is no result of this run; give another name by -o")

    def _compare(self, number: int, found: dict[str, Any], board: BoardRows | None) -> None:
        """Raises an error if a line is not of this board, or was asked otherwise."""
        there = "no more boards" if board is None else f"board {shown(board.name)!r}"
        if board is None or found["board"] != board.name:
            text = f"{self.path}: result {number} is of board {shown(str(found['board']))!r}, and the readings have {there}"
            raise UnusableResults(f"{text}: it is of other readings; give another name by -o")
        is_answered = "reason" not in found
        if self._table is None and is_answered and list(found) != self._keys:
            raise UnusableResults(f"{self.path}: result {number} has other keys than are asked for now: {', '.join(found)}")
