"""Copies of sessions in which parts are held to ask what if, many at a time. Sets of parts are numbers, one bit for each part."""

from __future__ import annotations

import contextlib
import dataclasses
import functools
import operator
import time
from collections.abc import Callable, Iterator, Sequence
from typing import TYPE_CHECKING

from ..errors import DiagError, Inconsistent
from ..replies import Lines, Listing, NotAReply, Request

if TYPE_CHECKING:
    from ..session import Session

# Progress is reported at most once in so many seconds.
BETWEEN = 0.1


@dataclasses.dataclass(frozen=True)
class JointProgress:
    """How far a search for all patterns is: no set of parts is cheaper than `cost`, and so much was looked at and asked."""

    cost: int
    sets: int
    questions: int

    def __str__(self) -> str:
        return f"cost {self.cost} or more: {self.sets} sets checked, {self.questions} questions"


class TookLonger(DiagError, TimeoutError):
    """A search for all patterns took longer than its `timeout`. `progress` says how far it is; nothing is left at work."""

    def __init__(self, seconds: float, progress: JointProgress) -> None:
        super().__init__(seconds, progress)
        self.seconds = seconds
        self.progress = progress

    def __str__(self) -> str:
        return f"no answer within {self.seconds:g} seconds; {self.progress}"


class Least:
    """What is least of one pattern: its cost, the first sets of that cost in name order, whether these are all, and what is faulty in
    each of all and in some, as far as that is known."""

    def __init__(self, cost: int, listed: Sequence[int], is_all: bool) -> None:
        self.cost = cost
        self.listed = listed
        self.is_all = is_all
        self.always, self.some = 0, -1
        if is_all:
            self.always, self.some = functools.reduce(operator.and_, listed), functools.reduce(operator.or_, listed)

    def within(self, bad: int, ok: int) -> Least | None:
        """What is least if parts are held so too; None if it costs more."""
        listed = [found for found in self.listed if not (bad & ~found or ok & found)]
        return Least(self.cost, listed, True) if listed else None


@dataclasses.dataclass(frozen=True)
class Question:
    """What is least of one pattern if parts are held so? If `ok` is None, parts that are held ok and not bad stay so."""

    place: int
    bad: int
    ok: int | None


class Parts:
    """The names of the parts, in name order. The first part has the highest bit, so that of two sets the first is the greater number."""

    def __init__(self, names: Sequence[str]) -> None:
        self.names = tuple(names)
        self.bits = {name: 1 << (len(names) - 1 - place) for place, name in enumerate(names)}
        self.all = (1 << len(names)) - 1

    def each(self, parts: int) -> Iterator[int]:
        """The bits of a set, in name order."""
        while parts:
            bit = 1 << (parts.bit_length() - 1)
            yield bit
            parts ^= bit

    def name(self, bit: int) -> str:
        """The name of the part that has this bit."""
        return self.names[len(self.names) - bit.bit_length()]

    def names_of(self, parts: int) -> tuple[str, ...]:
        """The names of a set, in name order."""
        return tuple(map(self.name, self.each(parts)))

    def set_of(self, names: Sequence[str]) -> int:
        """The set of the parts with these names."""
        return sum(self.bits[name] for name in names)


class Listed(Request):
    """What is least of a session, and the first sets of that cost. Both are asked in one, since the second is then at hand."""

    def __init__(self, session: str, limit: int, parts: Parts) -> None:
        super().__init__(session, f"min {session}")
        self._limit = limit
        self._bits = parts.bits
        self._begins = f"{session} diag"
        self._ends = (f"{session} end", f"{session} inconsistent")
        self._cost: int | None = None
        self._listed: list[int] = []
        self._is_all = False

    @property
    def sent(self) -> str:
        """Both lines."""
        return f"min {self.session}\nlist {self.session} {self._limit}\n"

    def take(self, line: str) -> bool:
        if line.startswith(self._begins):
            self._listed.append(sum([self._bits[name] for name in line.split(" ")[2:]]))
            return len(self._listed) == self._limit
        if line.startswith(f"{self.session} min "):
            self._cost = int(line.split(" ", 3)[2])
            return False
        if line == self._ends[0]:
            self._is_all = True
            return True
        if line != self._ends[1] and not self.refuse(line):
            raise NotAReply(line)
        # Both lines have this reply.
        self._is_all = not self._is_all
        return not self._is_all

    @property
    def least(self) -> Least | None:
        """None if nothing explains the case."""
        return None if self._cost is None else Least(self._cost, self._listed, self._is_all)


class BlameBits(Request):
    """What `blame` answers, as sets of parts."""

    def __init__(self, session: str, parts: Parts) -> None:
        super().__init__(session, f"blame {session}")
        self._next = parts.all + 1
        self._ends = f"{session} end"
        self.always = self.some = 0

    def take(self, line: str) -> bool:
        self._next >>= 1
        if line.endswith(" never"):
            return False
        if line.endswith(" sometimes"):
            self.some |= self._next
        elif line.endswith(" always"):
            self.some |= self._next
            self.always |= self._next
        elif line == self._ends or self.refuse(line):
            return True
        else:
            raise NotAReply(line)
        return False


class Copy:
    """A copy of a session, and the parts that are held in it."""

    def __init__(self, session: Session, parts: Parts) -> None:
        self.name = session.service.made_name()
        self._parts = parts
        self._held = {True: 0, False: 0}
        for part, mode in session.held.items():
            self._held[mode == "bad"] |= parts.bits[part]
        self._case = session.restoring(self.name)

    def opening(self) -> list[Request]:
        """The lines that open it. If it is not opened, the others are refused after that."""
        return [Lines(self.name, f"open {self.name}", reply="open"), *self._case]

    def closing(self) -> Request:
        """The line that closes it, if it is open."""
        return Lines(self.name, f"close {self.name}", reply="closed")

    def held(self, bad: int, ok: int | None) -> list[Request]:
        """The lines that leave just these parts held, and put the point of the listing at its start."""
        was_bad, was_ok = self._held[True], self._held[False]
        ok = was_ok & ~bad if ok is None else ok
        changes = [(bad & ~was_bad, "hold", "=bad"), (ok & ~was_ok, "hold", "=ok"), ((was_bad | was_ok) & ~(bad | ok), "unhold", "")]
        self._held = {True: bad, False: ok}
        if not any(change for change, _, _ in changes) and self._parts.names:
            bit = (bad | ok | 1) & -(bad | ok | 1)
            changes = [(bit, "hold", "=ok" if bit & ok else "=bad"), (bit & ~(bad | ok), "unhold", "")]
        return [
            Lines(self.name, f"{command} {self.name} ", [f"{name}{mode}" for name in self._parts.names_of(change)])
            for change, command, mode in changes if change
        ]


class Copies:
    """Copies of some sessions of one service. They are opened for the first question within a `with` block, and closed at its end. The
    sessions stay as they are."""

    def __init__(self, sessions: Sequence[Session], progress: Callable[[JointProgress], None] | None, timeout: float | None) -> None:
        self.sessions = tuple(sessions)
        self.service = sessions[0].service
        self._progress = progress
        self._timeout = timeout
        self._copies: list[Copy] = []
        self._parts: Parts | None = None
        self._ends = self._told = 0.0
        self.cost = self.sets = self.questions = 0

    def __enter__(self) -> None:
        self._told = time.monotonic()
        self._ends = self._told + (float("inf") if self._timeout is None else self._timeout)

    def __exit__(self, *_: object) -> None:
        copies, self._copies = self._copies, []
        if copies and self.service.is_running:
            with contextlib.suppress(DiagError):
                self.service.send([copy.closing() for copy in copies])

    @property
    def parts(self) -> Parts:
        """The parts of the device. Raises `Inconsistent` if nothing explains the first pattern."""
        if self._parts is None:
            rows = self.sessions[0].ask("blame")
            if rows[0].endswith(" inconsistent"):
                raise Inconsistent(self.sessions[0].pattern)
            self._parts = Parts([row.split(" ")[2] for row in rows[:-1]])
        return self._parts

    def least(self, questions: Sequence[Question], limit: int) -> list[Least | None]:
        """Of each of these questions what is least, or None if nothing explains it; at most so many sets of each."""
        asked, requests = [], self._opening()
        for question in questions:
            copy = self._copies[question.place]
            asked.append(Listed(copy.name, limit, self.parts))
            requests += [*copy.held(question.bad, question.ok), asked[-1]]
        self._ask(requests, len(asked))
        return [request.least for request in asked]

    def blame(self, question: Question, least: Least) -> None:
        """Asks what is blamed if not all is listed. Something explains the pattern."""
        opening, copy = self._opening(), self._copies[question.place]
        request = BlameBits(copy.name, self.parts)
        self._ask([*opening, *copy.held(question.bad, question.ok), request], 1)
        least.always, least.some = request.always, request.some

    def bits_left(self, faulty: int) -> list[dict[str, tuple[bool, bool]]]:
        """Of each pattern and of each of its wires that was not seen: whether it may be 0, and 1, if just these parts are faulty."""
        asked, requests = [], self._opening()
        for copy in self._copies:
            asked.append(Listing(copy.name, f"probes {copy.name}", more="probe", last="end inconsistent"))
            requests += [*copy.held(faulty, self.parts.all & ~faulty), asked[-1]]
        self._ask(requests, len(asked))
        return [{wire: (zero != "-", one != "-") for wire, zero, one in request.told("probe")} for request in asked]

    def reach(self, cost: int) -> None:
        """No set of parts is cheaper."""
        self.cost = cost
        self._tell()

    def _opening(self) -> list[Request]:
        """What opens the copies, if they are not open."""
        if self._copies:
            return []
        self._copies = [Copy(session, self.parts) for session in self.sessions]
        return [request for copy in self._copies for request in copy.opening()]

    def _ask(self, requests: Sequence[Request], questions: int) -> None:
        self.service.do(requests)
        self.questions += questions
        self._tell()

    def _tell(self) -> None:
        now = time.monotonic()
        if now > self._ends:
            assert self._timeout is not None
            raise TookLonger(self._timeout, JointProgress(self.cost, self.sets, self.questions))
        if self._progress is not None and now > self._told + BETWEEN:
            self._told = now
            self._progress(JointProgress(self.cost, self.sets, self.questions))
