"""The one table of forms, options, commands and statuses, `forms.tsv`, and what the client goes by.

`docs/write-help` makes the help, the manual page, the completion and tables of the pages from it. The launcher reads it too.
"""

from __future__ import annotations

import dataclasses
import functools
import pathlib
import re
from collections.abc import Mapping

# It is package data, so it is there without the checkout.
TABLE = pathlib.Path(__file__).parent / "forms.tsv"


@dataclasses.dataclass(frozen=True)
class Row:
    """A row of the table. Which columns are filled goes by its kind.

    A `form` has a word, the words that follow it as `value`, and the endings of its file. An `operand` is a number among these words. An
    `option` may follow the forms that it is `of`. `value` is the letter of its number, if it takes one; `files` are the only endings of
    files, and `beside` the only other options, that it goes with. A `command` of a script has its words as `value`, and `beside` the
    option that allows it. Its type says what the last letter of these words stands for: words to choose from, or a number.
    """

    kind: str
    of: tuple[str, ...]
    word: str
    value: str
    type: str
    least: int | None
    most: int | None
    default: int | None
    files: tuple[str, ...]
    beside: tuple[str, ...]
    text: str
    prints: str

    @property
    def head(self) -> str:
        """How it is typed: `--budget N`."""
        return f"{self.word} {self.value}".strip()

    @property
    def name(self) -> str:
        """What it is called in Python."""
        return self.word.removeprefix("--").lower()

    @property
    def choices(self) -> str:
        """What the last letter of a command may stand for, as the pages say it; nothing if it is a name or there is none."""
        letter = self.value[-1:]
        if self.type != "number":
            return f"{letter} is " + " or ".join(f"`{word}`" for word in self.type.split()) if self.type else ""
        return f"{letter} may be {self.least}" if self.most is None else f"{letter} is {self.range}"

    @property
    def range(self) -> str:
        """The numbers that it takes, as the pages say it."""
        return f"{self.least:,} to {self.most:,}"


@dataclasses.dataclass(frozen=True)
class Usage:
    """One command of a script: `see` with the words that follow the session's name, and which `choices` there are for the last of them."""

    command: str
    words: tuple[str, ...]
    text: str
    choices: str


def read_row(cells: Mapping[str, str]) -> Row:
    """A row, from its cells by the names of their columns."""

    def words(name: str) -> tuple[str, ...]:
        return tuple(cells[name].split())

    def number(name: str) -> int | None:
        return int(cells[name]) if cells[name] else None

    return Row(
        cells["kind"], words("of"), cells["word"], cells["value"], cells["type"], number("least"), number("most"), number("default"),
        words("files"), words("beside"), cells["text"], cells["prints"],
    )


@functools.cache
def rows(kind: str, of: str = "") -> Mapping[str, Row]:
    """The rows of a kind by their words, or those of them that belong to one form.

    >>> [row.head for row in rows("option", "ask").values()], rows("option")["--budget"].range
    (['--sessions N'], '1 to 8,388,608')
    """
    first, *lines = (line.split("\t") for line in TABLE.read_text(encoding="utf-8").splitlines())
    found = (read_row(dict(zip(first, cells, strict=True))) for cells in lines)
    return {row.word: row for row in found if row.kind == kind and (not of or of in row.of)}


def limits() -> dict[str, tuple[int, int]]:
    """The least and the greatest number that options and HEALTH of `ask` take, by their names."""
    numbers = (*rows("option").values(), *rows("operand", "ask").values())
    return {row.name: (row.least, row.most) for row in numbers if row.least is not None and row.most is not None}


def unlinked(cell: str) -> str:
    """A cell without links."""
    return re.sub(r"\[([^\]]*)\]\([^)]*\)", r"\1", cell)


def plain(cell: str) -> str:
    """A cell as a terminal shows it: without links and marks of code, and numbers as they are typed."""
    return re.sub(r"(?<=[0-9]),(?=[0-9]{3})", "", unlinked(cell).replace("`", ""))


def needs(row: Row) -> str:
    """What a command needs, or which other options an option goes with, as the pages say it."""
    options = rows("option")
    if row.kind == "command":
        return "".join(f"with `{options[word].head}`" for word in row.beside)
    return "with no other option than " + ", ".join(f"`{word}`" for word in row.beside) if row.beside else ""


def usages() -> dict[str, Usage]:
    """The commands of a script, by their words."""
    found = {}
    for row in rows("command").values():
        text = "; ".join(filter(None, (row.text, row.choices, needs(row))))
        found[row.word] = Usage(row.word, tuple(row.value.split()[1:]), plain(text), plain(row.choices))
    return found
