"""Answers boards over one device: many at a time, and one once more alone if its program ends or takes too long."""

from __future__ import annotations

import collections
import contextlib
import dataclasses
import itertools
import signal
import time
from collections.abc import Iterable, Iterator, Mapping, Sequence
from typing import Any

from ..errors import Ended, Inconsistent, Refused, sentence
from ..replies import Request
from ..service import LIMITS, Service
from ..session import Session
from .columns import NAME, Columns
from .joint import Joint, JointProposal
from .results import Outcome, answered, failed, refused
from .stream import BOARD, DEVICE, BadReading, BoardRows, Layout

# So many boards are asked at once, while the replies to as many before them are read.
AT_ONCE = 128
# Each piece of a reply that wakes this process may stop the program. So there are some naps of so many seconds before it waits.
NAP = 0.001
NAPS = 20
# So many replies are kept that further boards may have.
MOST_KNOWN = 10_000
# A search over many patterns opens each a second time, and the advice opens one more.
MOST_PATTERNS = LIMITS["sessions"][1] // 2 - 1
OPENED, TAKEN, CLOSED = f"{NAME} open\n", f"{NAME} ok\n", f"\n{NAME} closed\n"
LISTED, NOTHING, BLAMED = f"{NAME} diag", f"{NAME} inconsistent", f"{NAME} blame "
# How a program is lost.
LOST = (Ended, TimeoutError)


@dataclasses.dataclass(frozen=True)
class Wanted:
    """What is asked of each board, and how the device is served."""

    limit: int = 10
    blame: bool = False
    next: bool = False
    seconds: bool = False
    timeout: float | None = None
    options: Mapping[str, Any] = dataclasses.field(default_factory=dict)

    @property
    def asked(self) -> list[str]:
        """The keys that are asked for beside those that each result has."""
        return [name for name in ("blame", "next", "seconds") if getattr(self, name)]


class Asked(Request):
    """All lines of some boards that have one pattern each, from `open` to `close`, and their replies."""

    takes_text = True

    def __init__(self, seen: Sequence[str], ends: str) -> None:
        super().__init__(NAME, f"open {NAME}")
        self._text = "".join([f"open {NAME}\n{lines}{ends}" for lines in seen])
        self._left = len(seen)
        self._begun = ""
        # Of each board that is answered all lines but the last one.
        self.replies: list[str] = []

    @property
    def sent(self) -> str:
        return self._text

    def take_text(self, text: str) -> str:
        *whole, rest = (self._begun + text).split(CLOSED, self._left)
        self.replies += whole
        self._left -= len(whole)
        self.is_answered = not self._left
        self._begun = "" if self.is_answered else rest
        return rest if self.is_answered else ""

    def take_from(self, lines: Sequence[str], place: int) -> int:
        rest = self.take_text("".join(f"{line}\n" for line in lines[place:]))
        return len(lines) - rest.count("\n")


def outcome_of(told: Sequence[str], wanted: Wanted) -> Outcome:
    """What the replies to what is asked say of a board."""
    if told[0] == NOTHING:
        return answered(None, [], True, **({"blame": None} if wanted.blame else {}))
    sets = [line.split(" ")[2:] for line in itertools.takewhile(lambda line: line.startswith(LISTED), told[1:])]
    is_all = len(sets) <= wanted.limit
    rows = (line.rsplit(" ", 2)[1:] for line in told if line.startswith(BLAMED))
    more = {"blame": _by_verdict(rows)} if wanted.blame else {}
    return answered(int(told[0].split(" ", 3)[2]), sets if is_all else sets[:-1], is_all, **more)


def _by_verdict(rows: Iterable[Sequence[str]]) -> dict[str, list[str]]:
    """The parts that are faulty in all sets, and those that are in some."""
    blamed: dict[str, list[str]] = {"always": [], "sometimes": []}
    for part, verdict in rows:
        if verdict in blamed:
            blamed[verdict].append(part)
    return blamed


def why(error: Exception, timeout: float | None = None) -> str:
    """Why a board has no answer, in words that are the same on each machine."""
    if isinstance(error, TimeoutError) and timeout is not None:
        return f"no answer within {timeout:g} seconds"
    if not isinstance(error, Ended):
        return sentence(error)
    how = f"status {error.status}" if error.status >= 0 else f"signal {-error.status} ({signal.strsignal(-error.status)})"
    return f"the program ended with {how}" + (f": {error.last_line}" if error.status > 0 and error.last_line else "")


@dataclasses.dataclass(frozen=True)
class Pattern:
    """One of several rows of a board."""

    label: str
    seen: Mapping[str, int]


# The lines of what was seen if a board has one pattern, or its patterns; or what is wrong with a row.
Question = str | list[Pattern] | BadReading


class Desk:
    """A device that is served. Its program is started again when it has ended."""

    def __init__(self, file: str, wanted: Wanted) -> None:
        self._file = file
        self._wanted = wanted
        self._service = Service(file, **wanted.options)
        self._others = self._service.other_names
        self._wires = self._service.wires
        self._columns: dict[Layout, Columns] = {}
        self._known: dict[str, Outcome] = {}
        self._naps = 0
        blames = f"blame {NAME}\n" if wanted.blame else ""
        # One more shows whether these are all.
        self._ends = f"min {NAME}\nlist {NAME} {wanted.limit + 1}\n{blames}close {NAME}\n"

    def columns(self, layout: Layout) -> Columns:
        """What rows of this layout say."""
        if layout not in self._columns:
            self._columns[layout] = Columns(layout, self._wires, self._others)
        return self._columns[layout]

    def outcomes(self, layout: Layout, boards: Sequence[BoardRows]) -> list[Outcome]:
        """What is said of each board, in order."""
        columns = self.columns(layout)
        found: list[Outcome] = []
        while len(found) < len(boards):
            try:
                for outcome in self._asked(columns, boards[len(found):]):
                    found.append(outcome)
            except LOST:
                found.append(self._once_more(columns, boards[len(found)]))
        return found

    def stop(self) -> None:
        """Ends the program."""
        self._service.stop()

    def _once_more(self, columns: Columns, board: BoardRows) -> Outcome:
        """A board at which the program was lost, or the time."""
        self._service.stop()
        try:
            return next(self._asked(columns, [board]))
        except LOST as error:
            self._service.stop()
            return failed(why(error, self._wanted.timeout))

    def _asked(self, columns: Columns, boards: Sequence[BoardRows]) -> Iterator[Outcome]:
        """What is said of each board, as it comes. Raises what lost the program at the first one that is not answered."""
        if not self._service.is_running:
            self._service = Service(self._file, **self._wanted.options)
        self._service.limit(self._wanted.timeout)
        is_plain = not (self._wanted.next or self._wanted.seconds) and all(len(board.rows) == 1 for board in boards)
        self._naps = NAPS if is_plain else 0
        # If a board may take only so long, each is waited for by itself.
        size, ahead = (AT_ONCE, 1) if is_plain and self._wanted.timeout is None else (1, AT_ONCE if is_plain else 0)
        waiting: collections.deque[tuple[list[Question], Asked]] = collections.deque()
        for first in range(0, len(boards), size):
            begun = time.monotonic()
            questions = [self._question(columns, board) for board in boards[first:first + size]]
            asked = Asked([question for question in questions if isinstance(question, str)], self._ends)
            # A program that has ended is lost at the first board that waits.
            with contextlib.suppress(Ended):
                self._service.send([asked] if asked.sent else [])
            waiting.append((questions, asked))
            if len(waiting) > ahead:
                yield from self._settled(*waiting.popleft(), begun)
        for questions, asked in waiting:
            yield from self._settled(questions, asked, begun)

    def _question(self, columns: Columns, board: BoardRows) -> Question:
        """What is asked of a board, or what is wrong with its rows."""
        try:
            if len(board.rows) == 1 and board.name and not self._wanted.next:
                return columns.script(board.rows[0])
            _check_rows(board, columns.layout)
            return [Pattern(columns.label(row) or f"p{place}", columns.seen(row)) for place, row in enumerate(board.rows, 1)]
        except BadReading as error:
            return error

    def _settled(self, questions: Iterable[Question], asked: Asked, begun: float) -> Iterator[Outcome]:
        lost = self._waited_for(asked)
        replies = iter(asked.replies)
        for question in questions:
            if isinstance(question, str):
                reply = next(replies, None)
                if reply is None:
                    raise lost or ValueError("a board has no reply")
                outcome = self._answered(question, reply)
            elif isinstance(question, BadReading):
                outcome = refused(str(question), question.line, question.column, question.word)
            else:
                outcome = self._searched(question)
            yield outcome.with_seconds(time.monotonic() - begun) if self._wanted.seconds else outcome

    def _waited_for(self, asked: Asked) -> Exception | None:
        """Waits for the replies to some boards, and gives what the program, or the time, was lost by."""
        try:
            for _ in range(self._naps):
                if asked.is_answered or not asked.sent or not self._service.is_behind:
                    break
                time.sleep(NAP)
            if asked.sent:
                self._service.wait_for(asked)
        except LOST as error:
            return error
        return None

    def _answered(self, seen: str, reply: str) -> Outcome:
        """What is said of a board of one pattern. Boards with the same faults have the same replies."""
        begin = OPENED + TAKEN * seen.count("\n")
        if not reply.startswith(begin):
            wrong = next((line for line in reply.splitlines(keepends=True) if line not in (OPENED, TAKEN)), "")
            return failed(f"unexpected reply: {wrong.strip()}")
        key = reply[len(begin):]
        outcome = self._known.get(key)
        if outcome is None:
            if len(self._known) >= MOST_KNOWN:
                self._known.clear()
            outcome = self._known[key] = outcome_of(key.split("\n"), self._wanted)
        return outcome

    def _searched(self, patterns: Sequence[Pattern]) -> Outcome:
        """What explains all patterns of a board."""
        sessions = {Session(self._service, self._service.made_name()): pattern for pattern in patterns}
        try:
            return self._explained(sessions)
        except Inconsistent:
            return answered(None, [], True, **dict.fromkeys(name for name in self._wanted.asked if name != "seconds"))
        except Refused as error:
            return failed(str(error))
        finally:
            for session in sessions:
                session.abandon()
            self._service.limit(self._wanted.timeout)

    def _explained(self, sessions: Mapping[Session, Pattern]) -> Outcome:
        """All answers together take no longer than the time that a board may take."""
        service, wanted = self._service, self._wanted
        limits = _left(wanted.timeout)
        more: dict[str, Any] = {}
        service.limit(next(limits))
        service.do([session.opening() for session in sessions])
        service.do([line for session, pattern in sessions.items() for line in session.seeing(pattern.seen)])
        asked: Session | Joint = next(iter(sessions))
        if len(sessions) > 1:
            asked = service.together(sessions, timeout=next(limits))
        cost = asked.minimum().cost
        service.limit(next(limits))
        sets = [list(found) for found in asked.diagnoses(wanted.limit + 1)]
        service.limit(next(limits))
        if wanted.blame:
            more["blame"] = _by_verdict((row.part, row.verdict) for row in asked.blame())
        service.limit(next(limits))
        if wanted.next:
            best = asked.best_probe()
            names = {session.name: pattern.label for session, pattern in sessions.items()}
            more["next"] = best and {"wire": best.wire, "pattern": names[best.pattern] if isinstance(best, JointProposal) else None}
        return answered(cost, sets[:wanted.limit], len(sets) <= wanted.limit, **more)


def _check_rows(board: BoardRows, layout: Layout) -> None:
    """Raises `BadReading` if the rows are not those of one board."""
    if len(board.rows) > 1:
        devices = [layout.names(row)[1] for row in board.rows]
        for (line, _), device in zip(board.rows, devices, strict=True):
            if device != devices[0]:
                raise BadReading(line, DEVICE, device, f"another device than in line {board.rows[0][0]}, for one board")
        if len(board.rows) > MOST_PATTERNS:
            raise BadReading(board.rows[MOST_PATTERNS][0], None, None, f"{len(board.rows)} patterns of one board, at most {MOST_PATTERNS}")
    elif not board.name:
        # What else is wrong with the row is said first.
        layout.check(board.rows[0])
        raise BadReading(board.rows[0][0], BOARD, "", "no name of a board")


def _left(timeout: float | None) -> Iterator[float | None]:
    """How much of a time is left, each time that it is asked."""
    ends = time.monotonic() + (timeout or 0)
    while True:
        # What is over by now is said by the next wait.
        yield None if timeout is None else max(0.001, ends - time.monotonic())
