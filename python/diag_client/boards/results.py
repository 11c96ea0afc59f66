"""What is said of a board: one object in a line of JSON, or one row of a flat table; and what all of them say together."""

from __future__ import annotations

import collections
import csv
import dataclasses
import functools
import io
import json
from collections.abc import Iterable, Mapping, Sequence
from typing import Any

OK, INCONSISTENT, REFUSED, FAILED = "ok", "inconsistent", "refused", "failed"
STATUSES = (OK, INCONSISTENT, REFUSED, FAILED)
# The keys that each result has, those that are there on demand, and those of a board that has no answer.
KEYS = ("board", "status", "cost", "diagnoses", "complete")
ON_DEMAND = ("blame", "next", "seconds")
REASONS = ("reason", "line", "column", "word")
# So many suspects are printed.
MOST_SUSPECTS = 20

END = "}\n"
# The parts that are in some sets, and those that are in all.
Suspects = tuple[frozenset[str], frozenset[str]]

encoded = json.JSONEncoder().encode


@dataclasses.dataclass(frozen=True)
class Result:
    """What is said of one board; docs/SCALING.md has what each field means."""

    board: str
    status: str
    cost: int | None = None
    diagnoses: tuple[tuple[str, ...], ...] = ()
    complete: bool = False
    blame: Mapping[str, Sequence[str]] | None = None
    next: Mapping[str, str | None] | None = None
    seconds: float | None = None
    reason: str | None = None
    line: int | None = None
    column: str | None = None
    word: str | None = None

    @classmethod
    def of(cls, line: bytes | str) -> Result:
        """What a line of results says."""
        found: dict[str, Any] = json.loads(line)
        found["diagnoses"] = tuple(tuple(names) for names in found["diagnoses"])
        return cls(**found)


def suspects_of(sets: Sequence[Sequence[str]]) -> Suspects:
    """The parts that are in some sets, and in all of them."""
    return frozenset().union(*sets), frozenset(sets[0] if sets else ()).intersection(*sets)


@dataclasses.dataclass(frozen=True, eq=False)
class Outcome:
    """What is said of a board, without its name: many boards have the same. `text` is what follows the name in a line of results."""

    status: str
    sets: Sequence[Sequence[str]]
    text: str

    @classmethod
    def of(cls, status: str, cost: int | None, sets: Sequence[Sequence[str]], complete: bool, **more: Any) -> Outcome:
        """What is said, and what more was asked for, or why there is no answer."""
        said = {"status": status, "cost": cost, "diagnoses": sets, "complete": complete, **more}
        return cls(status, sets, ", " + encoded(said)[1:] + "\n")

    @functools.cached_property
    def suspects(self) -> Suspects:
        """The parts that are in some of the sets, and in all of them."""
        return suspects_of(self.sets)

    def with_seconds(self, seconds: float) -> Outcome:
        """The same, and how long it took."""
        return dataclasses.replace(self, text=f'{self.text.removesuffix(END)}, "seconds": {seconds:.6f}{END}')

    def line(self, board: str) -> str:
        """The line of results for a board."""
        return f'{{"board": {encoded(board)}{self.text}'


def answered(cost: int | None, sets: Sequence[Sequence[str]], complete: bool, **more: Any) -> Outcome:
    """What is said of a board that has an answer; without a cost nothing explains its readings."""
    return Outcome.of(INCONSISTENT if cost is None else OK, cost, sets, complete, **more)


def refused(reason: str, line: int, column: str | None, word: str | None) -> Outcome:
    """What is said of a board whose readings are none."""
    return Outcome.of(REFUSED, None, [], False, reason=reason, line=line, column=column, word=word)


def failed(reason: str) -> Outcome:
    """What is said of a board that has no answer, whatever its readings are."""
    return Outcome.of(FAILED, None, [], False, reason=reason)


class FlatTable:
    """The same as rows of comma-separated values. Names of one set are parted by blanks, and sets by commas."""

    def __init__(self, wanted: Iterable[str]) -> None:
        columns = {"blame": ["always", "sometimes"], "next": ["next", "next_pattern"]}
        self.columns = [*KEYS, *(name for key in ON_DEMAND if key in set(wanted) for name in columns.get(key, [key])), *REASONS]

    @property
    def header(self) -> bytes:
        """The first row."""
        return self._rows([dict(zip(self.columns, self.columns, strict=True))])

    def rows(self, lines: bytes) -> bytes:
        """Lines of JSON as rows."""
        return self._rows(self._flat(json.loads(line)) for line in lines.splitlines())

    def read(self, row: str) -> dict[str, Any]:
        """What a row says, as far as it is counted. Raises ValueError if it is none."""
        try:
            found: dict[str, Any] = dict(zip(self.columns, next(csv.reader([row], strict=True)), strict=True))
        except (csv.Error, StopIteration) as error:
            raise ValueError(str(error)) from None
        if found["status"] not in STATUSES:
            raise ValueError(f"not a status: {found['status']}")
        is_listed = found["status"] == OK
        found["diagnoses"] = [names.split() for names in found["diagnoses"].split(",")] if is_listed else []
        return found

    @staticmethod
    def _flat(result: Mapping[str, Any]) -> dict[str, Any]:
        flat = {**result, "diagnoses": ", ".join(map(" ".join, result["diagnoses"])), "complete": str(result["complete"]).lower()}
        flat |= {verdict: " ".join(names) for verdict, names in (result.get("blame") or {}).items()}
        following = result.get("next") or {}
        return flat | {"next": following.get("wire"), "next_pattern": following.get("pattern")}

    def _rows(self, rows: Iterable[Mapping[str, Any]]) -> bytes:
        text = io.StringIO()
        writer = csv.DictWriter(text, self.columns, extrasaction="ignore", lineterminator="\n")
        writer.writerows(rows)
        return text.getvalue().encode("utf-8", "surrogateescape")


@dataclasses.dataclass
class Tally:
    """How often each status was given, and in how many boards each part is in some or in all of the sets that are listed."""

    statuses: collections.Counter[str] = dataclasses.field(default_factory=collections.Counter)
    some: collections.Counter[str] = dataclasses.field(default_factory=collections.Counter)
    always: collections.Counter[str] = dataclasses.field(default_factory=collections.Counter)
    faulty: int = 0

    def count(self, status: str, suspects: Suspects, boards: int = 1) -> None:
        """So many boards more with this status and these suspects."""
        some, always = suspects
        self.statuses[status] += boards
        self.faulty += boards if some else 0
        for part in some:
            self.some[part] += boards
        for part in always:
            self.always[part] += boards

    def add(self, other: Tally) -> None:
        """All that another one has counted."""
        self.statuses.update(other.statuses)
        self.some.update(other.some)
        self.always.update(other.always)
        self.faulty += other.faulty

    @property
    def boards(self) -> int:
        """How many were counted."""
        return self.statuses.total()

    @property
    def all_answered(self) -> bool:
        """Whether each board has an answer."""
        return not (self.statuses[REFUSED] or self.statuses[FAILED])

    def text(self) -> str:
        """The counts, and the parts that are suspected most often."""
        counts = ", ".join(f"{self.statuses[status]} {status}" for status in STATUSES)
        lines = [f"{self.boards} boards: {counts}; of those that are ok {self.faulty} have a fault"]
        if self.some:
            lines.append(f"{'suspect':<32} {'boards':>8} {'share':>7} {'in all sets':>12}")
        ranked = sorted(self.some.items(), key=lambda row: (-row[1], row[0]))
        for part, count in ranked[:MOST_SUSPECTS]:
            lines.append(f"{part:<32} {count:>8} {count / self.faulty:>7.1%} {self.always[part]:>12}")
        if len(ranked) > MOST_SUSPECTS:
            lines.append(f"and {len(ranked) - MOST_SUSPECTS} more parts, in at most {ranked[MOST_SUSPECTS][1]} boards each")
        return "\n".join(lines) + "\n"
