"""Lines of a script and their replies: where each reply ends, and the answers that are read from it."""

from __future__ import annotations

import dataclasses
import enum
import os
import pathlib
import re
from collections.abc import Callable, Iterator, Sequence

from . import display
from .errors import NoGraph, Refused
from .files import write_whole

REFUSAL = re.compile(r"error ([0-9]+) (.+)")
# A command that there is not, so that its reply marks the end of what came before.
MARK = "."
MARKED = "error 1 unknown command"


class NotAReply(Exception):
    """A line that does not answer what was asked: the last line of a program that ends."""


@dataclasses.dataclass(frozen=True)
class Minimum:
    """The least cost of a set of faulty parts that explains the case, and the first such set, in name order."""

    cost: int
    faulty: tuple[str, ...]

    def _repr_html_(self) -> str:
        return display.table([self])


@dataclasses.dataclass(frozen=True)
class Diagnosis:
    """A cheapest set of faulty parts that explains the case. It is empty if nothing is wrong.

    >>> diagnosis = Diagnosis(("10", "22"))
    >>> len(diagnosis), list(diagnosis), "10" in diagnosis
    (2, ['10', '22'], True)
    """

    faulty: tuple[str, ...]

    def __iter__(self) -> Iterator[str]:
        return iter(self.faulty)

    def __len__(self) -> int:
        return len(self.faulty)

    def __contains__(self, part: object) -> bool:
        return part in self.faulty

    def __str__(self) -> str:
        return " ".join(self.faulty) or "nothing"


@dataclasses.dataclass(frozen=True)
class Level:
    """A set of faulty parts that explains the case, be it a cheapest one or not, and what it costs."""

    cost: int
    faulty: tuple[str, ...]

    def __str__(self) -> str:
        return f"{self.cost}: {' '.join(self.faulty) or 'nothing'}"


@dataclasses.dataclass(frozen=True)
class Probe:
    """The least cost if a wire is seen as 0 too, and if it is seen as 1 too; None if no set explains that."""

    wire: str
    if_zero: int | None
    if_one: int | None

    @property
    def fault_free(self) -> int | None:
        """The bit that the wire has if all parts are ok; None if it may have either, or if they cannot be.

        >>> Probe("11", 1, 0).fault_free, Probe("22", 0, 0).fault_free, Probe("1", 0, None).fault_free
        (1, None, 0)
        """
        if (self.if_zero == 0) == (self.if_one == 0):
            return None
        return 0 if self.if_zero == 0 else 1


class Verdict(enum.StrEnum):
    """Whether a part is faulty in all diagnoses, in some but not all, or in none."""

    ALWAYS = "always"
    SOMETIMES = "sometimes"
    NEVER = "never"


@dataclasses.dataclass(frozen=True)
class Blame:
    """What the diagnoses say of one part."""

    part: str
    verdict: Verdict


@dataclasses.dataclass(frozen=True, repr=False)
class Graph:
    """A decomposable graph over the parts, as `.nnf` text. Variable i is the i-th part in name order, true if it is ok."""

    text: str

    def __repr__(self) -> str:
        return f"Graph(nodes={self.nodes}, edges={self.edges}, parts={self.parts})"

    @property
    def nodes(self) -> int:
        """How many nodes it has."""
        return int(self._header()[1])

    @property
    def edges(self) -> int:
        """How many children its nodes have together."""
        return int(self._header()[2])

    @property
    def parts(self) -> int:
        """How many parts it is over."""
        return int(self._header()[3])

    def write(self, path: str | os.PathLike[str]) -> None:
        """Writes the text to a file, which `diag check` and `diag ask` read."""
        write_whole(pathlib.Path(path), self.text.encode("ascii"))

    def _header(self) -> list[str]:
        return self.text.split("\n", 1)[0].split()


class Request:
    """One line of a script, and its reply as it comes."""

    is_answered = False
    # Whether it takes whole lines as one text, which is faster if there are many.
    takes_text = False

    def __init__(self, session: str, line: str) -> None:
        self.session = session
        self.line = line
        self.refusals: list[Refused] = []

    @property
    def refused(self) -> Refused | None:
        """Why it is refused, if it is: the first reason."""
        return self.refusals[0] if self.refusals else None

    @property
    def sent(self) -> str:
        """What is written for it."""
        return f"{self.line}\n"

    def take(self, line: str) -> bool:
        """Takes the next line of the reply, and says whether it was the last one."""
        raise NotImplementedError

    def take_from(self, lines: Sequence[str], place: int) -> int:
        """Takes what these lines have of the reply, which goes on at a place. Gives the place after it."""
        while place < len(lines) and not self.is_answered:
            self.is_answered = self.take(lines[place])
            place += 1
        return place

    def take_text(self, text: str) -> str:
        """Takes what a text of whole lines has of the reply, and gives the rest of it."""
        raise NotImplementedError

    def refusal(self, line: str) -> re.Match[str] | None:
        """What a line says if it is a refusal: the session's own reply, or that to a line that names none."""
        if "error " not in line:
            return None
        return REFUSAL.fullmatch(line) or REFUSAL.fullmatch(line.removeprefix(f"{self.session} "))

    def refuse(self, line: str) -> bool:
        """Whether a line of the reply refuses the request."""
        said = self.refusal(line)
        if said is not None:
            self.refusals.append((NoGraph if said[2] == "no graph" else Refused)(int(said[1]), said[2], self.line))
        return said is not None


class Ready(Request):
    """The line that comes unasked, once the device is compiled."""

    def __init__(self) -> None:
        super().__init__("", "")
        self.parts = self.wires = 0

    def take(self, line: str) -> bool:
        told = re.fullmatch(r"ready ([0-9]+) ([0-9]+)", line)
        if told is None:
            raise NotAReply(line)
        self.parts, self.wires = int(told[1]), int(told[2])
        return True


class Listing(Request):
    """A line whose reply has lines that begin with the session and a word.

    A line with a word in `more` is followed by another one, except the one that makes them `most`; one with a word in `last` ends it.
    `rows` are the words of all of them, the session left out.
    """

    def __init__(self, session: str, line: str, last: str, more: str = "", most: int | None = None) -> None:
        super().__init__(session, line)
        self._last = last.split()
        self._more = more.split()
        self._most = most
        self.rows: list[list[str]] = []

    def take(self, line: str) -> bool:
        if self.refuse(line):
            return True
        name, *row = line.split(" ")
        if name != self.session or not row or row[0] not in self._last + self._more:
            raise NotAReply(line)
        self.rows.append(row)
        return row[0] in self._last or len(self.rows) == self._most

    @property
    def is_inconsistent(self) -> bool:
        """Whether no health state agrees with the case."""
        return self.rows[-1:] == [["inconsistent"]]

    def told(self, word: str) -> list[list[str]]:
        """What follows the word in each line that begins with it."""
        return [row[1:] for row in self.rows if row[0] == word]


class Lines(Request):
    """Lines that have the same beginning and the same reply each, unless they are refused. `line` is the one that was answered last.

    If they change what a session knows, `note` is called with how those end that were carried out.
    """

    def __init__(
        self,
        session: str,
        begins: str,
        rests: Sequence[str] = ("",),
        reply: str = "ok",
        note: Callable[[Sequence[str]], None] | None = None,
    ) -> None:
        super().__init__(session, begins + rests[0])
        self._begins = begins
        self._rests = rests
        self._done = f"{session} {reply}"
        self._answered = 0
        self.note = note
        # The lines of the replies.
        self.lines: list[str] = []

    @property
    def sent(self) -> str:
        """The lines that are still to be answered."""
        return self._begins + f"\n{self._begins}".join(self._rests[self._answered:]) + "\n"

    def take_from(self, lines: Sequence[str], place: int) -> int:
        rests = self._rests[self._answered:self._answered + len(lines) - place]
        told = lines[place:place + len(rests)]
        if told.count(self._done) < len(told):
            return super().take_from(lines, place)
        # All of them are carried out.
        if self.note is not None:
            self.note(rests)
        self.lines += told
        self.line = self._begins + rests[-1]
        self._answered += len(told)
        self.is_answered = self._answered == len(self._rests)
        return place + len(told)

    def take(self, line: str) -> bool:
        rest = self._rests[self._answered]
        self.line = self._begins + rest
        if line != self._done:
            if not self.refuse(line):
                raise NotAReply(line)
        elif self.note is not None:
            self.note([rest])
        self.lines.append(line)
        self._answered += 1
        return self._answered == len(self._rests)


class GraphText(Request):
    """A line whose reply is one line and then a graph, whose header says how many lines follow."""

    def __init__(self, session: str, line: str, word: str) -> None:
        super().__init__(session, line)
        self._word = word
        self._awaited: int | None = None
        self.lines: list[str] = []

    def take(self, line: str) -> bool:
        if self._awaited is None:
            if self.refuse(line):
                return True
            if line != f"{self.session} {self._word}":
                raise NotAReply(line)
            self._awaited = 1
            return False
        self.lines.append(line)
        if len(self.lines) == 1:
            header = line.split(" ")
            if header[0] != "nnf" or len(header) != 4:
                raise NotAReply(line)
            self._awaited += int(header[1])
        return len(self.lines) == self._awaited

    @property
    def text(self) -> str:
        """The graph's text."""
        return "".join(f"{line}\n" for line in self.lines)


class AnyLines(Request):
    """Any lines of a script that have a reply. A mark is sent after each, and the reply to the mark ends that to the line.

    `lines` are those of all replies, and `line` is the one that was answered last. `note` is called for each that is answered by `ok`.
    """

    def __init__(self, asked: Sequence[str], session: str = "", note: Callable[[str], None] | None = None) -> None:
        super().__init__(session, asked[0])
        self._asked = asked
        self._answered = 0
        self._has_begun = False
        self._done = f"{session} ok"
        self.note = note
        self._is_wanted = True
        self.lines: list[str] = []

    @property
    def sent(self) -> str:
        """The lines, and the marks."""
        return f"\n{MARK}\n".join([*self._asked, ""])

    def take(self, line: str) -> bool:
        if not self._has_begun:
            # Only the first line of a reply can be a refusal that names no session.
            self._has_begun = True
            self.line = self._asked[self._answered]
            if line != self._done:
                self.refuse(line)
            elif self.note is not None:
                self.note(self.line)
        elif line == MARKED:
            self._has_begun = False
            self._answered += 1
            return self._answered == len(self._asked)
        if self._is_wanted:
            self.lines.append(line)
        return False

    def forget(self) -> None:
        """Nobody waits for the reply any more, so what comes of it is not kept."""
        self._is_wanted = False
        self.lines.clear()
