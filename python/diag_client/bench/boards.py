"""Boards over one served device: each has a case of its own, and sessions of the one program that answer it.

A case is plain data, and the sessions follow it: before a question they get what differs. So a program that died is started again and
gets everything, and a board that nobody looks at gives its sessions to one that needs them.
"""

from __future__ import annotations

import collections
import contextlib
import dataclasses
import itertools
import os
import secrets
import threading
import time
from collections.abc import Callable, Mapping, Sequence
from typing import Any, TypeVar

from .. import progress
from ..advice import Proposal
from ..boards.joint import Joint, JointProposal
from ..case import Case, change, checked
from ..clash import clash_of
from ..devices import other_names
from ..errors import DiagError, Ended, Inconsistent, Refused
from ..replies import Listing, Request, Verdict
from ..session import Session
from .drawing import Json, Scene
from .records import MOST_LINES, MOST_TEXT, Bad, Known, Record, has_case, read_readings, read_script, take_readings, told_of_change
from .saved import Shelf
from .shared import ADVICE, CLICK, SEARCH, Dropped, Lost, SharedService

# The program keeps this many sessions; some are left for questions that need one for a moment, or one for each pattern.
SESSIONS, KEPT_FREE = 1024, 640
MOST_BOARDS = 200
# Undo keeps so many cases of a board, with so many readings in all.
MOST_UNDO, MOST_KEPT = 200, 30_000
# So many explanations are shown at first, and at most.
SHOWN, MOST_SHOWN = 20, 500
PROPOSALS = 3
# So many explanations count when the next measurement is chosen.
AT_HAND = 20
# And it is asked of so many wires, since each takes four questions.
MOST_RANKED = 20
# So many seconds an answer over several patterns may take.
LONGEST = 5.0
# So many bits that wires should have are kept.
KEPT_EXPECTED = 300_000
KEPT_DRAWINGS = 32
# Requests that go by what their tab shows.
LOOKING = frozenset(("turn", "see", "readings", "hold", "pattern", "clear", "undo", "redo"))
Answered = TypeVar("Answered")


class Gone(Exception):
    """There is no such board."""


@dataclasses.dataclass
class View:
    """What a board asks to see beside its case."""

    shown: int = SHOWN
    with_levels: bool = False


class Bench:
    """One device, its program and all boards. `lock` is for its tables alone, and is never held while the program is asked."""

    def __init__(self, file: str | os.PathLike[str], **options: Any) -> None:
        self.has_levels = options.get("levels") is not None
        self.frames: int | None = options.get("frames")
        with progress.compiling(file, options):
            self.service = SharedService(file, sessions=SESSIONS, **options)
        self.lock = threading.Lock()
        self._drawing_lock = threading.Lock()
        self.scene = Scene(file)
        self.shelf = Shelf(file)
        self.other_names = other_names(file)
        self.title = f"{self.service.title}, by {self.service.engine}"
        self.boards: dict[str, Board] = {}
        self._watched: dict[str, Board] = {}
        self._uses = 0
        self._expected: collections.OrderedDict[frozenset[tuple[str, int]], dict[str, int]] = collections.OrderedDict()
        self._drawings: collections.OrderedDict[tuple[frozenset[str], frozenset[str] | None], Json] = collections.OrderedDict()
        wires = self.scene.device.wires
        times = range(1, (self.frames or 0) + 1)
        names = frozenset(f"{wire}@{time:04}" for wire in wires for time in times) if self.frames else frozenset(wires)
        self.known = Known(names, frozenset(self.scene.parts), frozenset(wires), self.service.other_names)
        # What is put in from outside: the inputs at each time, and what the flip-flops hold at the first.
        self.given = frozenset(f"{wire}@{time:04}" for wire in self.scene.inputs for time in times) or frozenset(self.scene.inputs)
        self.given |= frozenset(f"{wire}@0001" for wire in self.scene.flip_flops)

    def close(self) -> None:
        """Ends the program."""
        self.shelf.close()
        self.service.close()

    def open_board(self, name: str | None = None, record: Record | None = None) -> Board:
        """A new board, or one that was saved. Of too many, one that is empty and was not used for longest goes."""
        oldest = None
        with self.lock:
            if len(self.boards) >= MOST_BOARDS:
                empty = [board for board in self.boards.values() if board.is_empty]
                if not empty:
                    raise Bad(f"there are {MOST_BOARDS} boards with cases already: save yours, end the program and start it again")
                oldest = min(empty, key=lambda board: board.used)
                del self.boards[oldest.id], self._watched[oldest.watch_id]
            board = self.boards.get(name or "") or Board(self, name, record or Record())
            self.boards[board.id] = self._watched[board.watch_id] = board
        if oldest is not None:
            oldest.give_back()
        return board

    def board(self, name: str, watching: bool = False) -> Board:
        """The board of this id, or of this id for those who watch. One that was saved comes back."""
        if not watching and name not in self.boards and (text := self.shelf.text(name)) is not None:
            self.open_board(name, read_script(text, self.known) if has_case(text) else Record())
        with self.lock:
            board = (self._watched if watching else self.boards).get(name)
            if board is None:
                raise Gone
            self._uses += 1
            if not watching:
                board.used = self._uses
            return board

    def last_used(self) -> Board:
        """The board that was used last."""
        with self.lock:
            if not self.boards:
                raise Gone
            return max(self.boards.values(), key=lambda board: board.used)

    def session(self, wanted: Board) -> Session:
        """A new session for a board. If there is no room, the boards that were not used for longest give theirs back."""
        with self.lock:
            boards = sorted(self.boards.values(), key=lambda board: board.used)
        count = sum(board.session_count for board in boards)
        for board in boards:
            if count < SESSIONS - KEPT_FREE:
                break
            if board is not wanted:
                count -= board.give_back()
        return self.service.session()

    def expected(self, seen: Mapping[str, int]) -> dict[str, int]:
        """What each wire should be, by what is put in alone."""
        given = {wire: bit for wire, bit in seen.items() if wire in self.given}
        key = frozenset(given.items())
        with self.lock:
            found = self._expected.pop(key, None)
        if found is None:
            found = self._ask_expected(given)
        with self.lock:
            self._expected[key] = found
            while len(self._expected) > max(1, KEPT_EXPECTED // len(self.known.wires)):
                self._expected.popitem(last=False)
        return found

    def _ask_expected(self, given: Mapping[str, int]) -> dict[str, int]:
        if not given:
            return {}
        session = self.service.session()
        try:
            session.see(given)
            return {row.wire: bit for row in session.probes(every=True) if (bit := row.fault_free) is not None}
        except Inconsistent:
            return {}
        finally:
            session.abandon()

    def wire_of(self, name: str) -> str:
        """The wire of a reading: over several times a name says its time too."""
        wire, sign, _ = name.rpartition("@")
        return wire if self.frames and sign and name in self.known.wires else name

    def drawing(self, is_open: frozenset[str], only: frozenset[str] | None = None) -> Json:
        """The drawing with these blocks open, of all parts or of these alone."""
        key = (is_open.intersection(self.scene.device.blocks), only)
        with self._drawing_lock:
            if key not in self._drawings:
                self._drawings[key] = self.scene.draw(*key)
                while len(self._drawings) > KEPT_DRAWINGS:
                    self._drawings.popitem(last=False)
            return self._drawings[key]


@dataclasses.dataclass
class Answers:
    """What the program says of a case. The cost is None if nothing explains it."""

    cost: int | None = None
    candidates: list[tuple[int, tuple[str, ...]]] = dataclasses.field(default_factory=list)
    complete: bool = True
    blame: dict[str, Verdict] = dataclasses.field(default_factory=dict)
    expected: list[dict[str, int]] = dataclasses.field(default_factory=list)
    advice: list[Json] | None = None
    # What clashes if nothing explains the case.
    clash: dict[str, Case] = dataclasses.field(default_factory=dict)
    is_late: bool = False


class Board:
    """One case, with undo. One request at a time changes it, or asks the program about it."""

    def __init__(self, bench: Bench, name: str | None, record: Record) -> None:
        self.bench = bench
        self.lock = threading.RLock()
        # The last request that may change it: advice that was begun before is dropped.
        self._newest = 0
        self._numbers = itertools.count(1)
        self.id = name or secrets.token_urlsafe(12)
        self.watch_id = secrets.token_urlsafe(12)
        self.used = 0
        # A page that was open when the bench ended takes what comes for new.
        self.version = 0 if name is None else time.time_ns() // 1_000_000
        self.record = record
        # What was done, in words, beside the new state.
        self._said = ""
        self.view = View()
        self._before: list[Record] = []
        self._after: list[Record] = []
        # The versions that the last changes made, each with the tab that asked for it.
        self._changes: collections.deque[tuple[int, object]] = collections.deque(maxlen=MOST_UNDO)
        self._sessions: dict[str, Session] = {}
        self._answers: Answers | None = None
        # The state as it was shown last: to look at it nobody waits.
        self._shown: Json | None = None
        self._joint: Joint | None = None
        self._acts: dict[str, Callable[[Mapping[str, Any]], None]] = {
            "state": lambda act: None, "turn": self._turn, "see": self._see, "readings": self._readings, "hold": self._hold,
            "pattern": self._pattern, "reach": self._reach, "replaced": self._replaced, "load": self._load, "clear": self._clear,
            "undo": self._undo, "redo": self._redo, "show": self._show,
        }  # fmt: skip

    @property
    def is_empty(self) -> bool:
        """Whether nothing was entered yet."""
        return self.record == Record() and not self._before

    @property
    def session_count(self) -> int:
        """How many sessions it has."""
        return len(self._sessions)

    def do(self, act: Mapping[str, Any]) -> Json:
        """Does what the page asks, and gives the whole new state. Raises `Bad` for what cannot be done."""
        if act.get("act") == "state" and (shown := self._shown) is not None:
            return shown
        if act.get("act") == "advise":
            with self.lock:
                self._shown = self._advised()
                return self._shown
        if act.get("act") != "state":
            self._newest = next(self._numbers)
        with self.lock:
            self._said = ""
            self._shown = self._done(act)
            return self._shown | ({"said": self._said} if self._said else {})

    def _done(self, act: Mapping[str, Any]) -> Json:
        name = act.get("act")
        if not isinstance(name, str) or name not in self._acts:
            raise Bad("there is no such request: load the page again")
        shown, tab = act.get("version"), act.get("tab")
        if name in LOOKING and isinstance(shown, int) and any(made > shown and by != tab for made, by in self._changes):
            raise Bad("another tab has changed this board, and nothing was entered: here it is as it is now")
        record, view, version = self.record, self.view, self.version
        self._acts[name](act)
        if (self.record, self.view) != (record, view):
            self._shown = None
            self.version += 1
            if dataclasses.replace(self.record, replaced=record.replaced) != record or self.view != view:
                self._answers = None
        try:
            return self._state()
        except Refused as error:
            # It is left as it was: the page never shows a case without its answers.
            self.record, self.view, self.version, self._answers = record, view, version, None
            raise Bad(f"the program refuses this: {error}") from error
        finally:
            if self.record != record:
                self._changes.append((self.version, tab))
                self.bench.shelf.keep(self.bench.shelf.place(self.id).name, "\n".join([*self.record.script(self.bench.title), ""]))

    def _advised(self) -> Json:
        """The state with the next measurement, or without it if a newer request came meanwhile."""
        newest = self._newest
        answers = self._answered()
        if answers.advice is None:
            with contextlib.suppress(Dropped):
                answers.advice = self._trying(self._advice, ADVICE, lambda: self._newest != newest)
                # Who watches asks for what is newer than the version that they have.
                self.version += 1
        return self._state()

    def state(self) -> Json:
        """The whole state."""
        return self.do({"act": "state"})

    def give_back(self) -> int:
        """Closes its sessions, unless a request is under way, and gives how many. The record stays, and new sessions get it in time."""
        if not self.lock.acquire(blocking=False):
            return 0
        try:
            sessions, self._sessions, self._joint = self._sessions, {}, None
            self._answers = self._shown = None
            with contextlib.suppress(DiagError):
                for session in sessions.values():
                    session.close()
            return len(sessions)
        finally:
            self.lock.release()

    def cone(self) -> frozenset[str] | None:
        """The suspects and what lies between them and the wrong readings; None if nothing is wrong.

        If no suspects are known, since nothing explains the case or it takes too long, it is all that leads to the wrong readings.
        """
        state = self.state()
        wrong = {self.bench.wire_of(wire) for pattern in state["patterns"] for wire in pattern["against"]}
        suspects = [part for part, _ in state["blame"]]
        return frozenset(self.bench.scene.wiring.cone(suspects or None, sorted(wrong))) if wrong else None

    # What a page may ask.

    def _change(self, record: Record) -> None:
        if record == self.record:
            return
        if record.line_count > MOST_LINES:
            most = f"a board has at most {MOST_LINES} readings and tests of parts"
            raise Bad(f"{most}, and these would be more: begin a board for other patterns")
        self._before = _last([*self._before, self.record])
        self._after = []
        self.record = record

    def _turn(self, act: Mapping[str, Any]) -> None:
        """A click: no reading, 0, 1, and none again."""
        wire = self._wire(act)
        following: dict[int | None, int | None] = {None: 0, 0: 1, 1: None}
        self._change(self.record.with_readings({wire: following[self.record.seen.get(wire)]}))

    def _see(self, act: Mapping[str, Any]) -> None:
        bit = act.get("bit")
        wire, value = self.bench.known.reading(self._wire(act), "" if bit is None else _text(act, "bit"))
        self._change(self.record.with_readings({wire: value}))

    def _readings(self, act: Mapping[str, Any]) -> None:
        rows = read_readings(_text(act, "text"), self.bench.known)
        before = self.record.board.patterns
        self._change(take_readings(self.record, rows, act.get("here") is True))
        self._said = told_of_change(before, self.record.board.patterns, sum(len(seen) for _, seen in rows))

    def _hold(self, act: Mapping[str, Any]) -> None:
        part, mode = _text(act, "part"), act.get("mode")
        held = {name: how for name, how in self.record.board.held.items() if name != part}
        if mode is not None:
            try:
                change({}, held, "hold", [checked("hold", f"{part}={_text(act, 'mode')}", self.bench.known.name_of)])
            except ValueError as error:
                raise Bad(str(error)) from error
        self._change(self.record.with_held(held))

    def _pattern(self, act: Mapping[str, Any]) -> None:
        """A new pattern, another one of those that are there, or one less."""
        names = self.record.names
        name = _text(act, "name") if act.get("name") is not None else ""
        if act.get("how") == "new":
            self._change(self.record.with_pattern(name))
        elif name not in names:
            raise Bad(f"there is no pattern {name}")
        elif act.get("how") == "remove":
            self._change(self.record.without_pattern(name))
        else:
            # To look at another one changes nothing that undo should bring back.
            self.record = dataclasses.replace(self.record, now=names.index(name))

    def _reach(self, act: Mapping[str, Any]) -> None:
        wire = self.bench.wire_of(_text(act, "wire"))
        if wire not in self.bench.known.reachable:
            raise Bad(f"no wire {wire}")
        changed = self.record.unreachable - {wire} if act.get("can") is True else self.record.unreachable | {wire}
        self._change(dataclasses.replace(self.record, unreachable=changed))

    def _replaced(self, act: Mapping[str, Any]) -> None:
        text = _text(act, "text")
        if len(text) > MOST_TEXT:
            raise Bad(f"a note has at most {MOST_TEXT} characters")
        changed = dataclasses.replace(self.record, replaced=text)
        if self._before and not self._after and dataclasses.replace(self._before[-1], replaced=self.record.replaced) == self.record:
            # What is typed is sent piece by piece, and undo takes all of it back.
            self.record = changed
        else:
            self._change(changed)

    def _load(self, act: Mapping[str, Any]) -> None:
        self._change(read_script(_text(act, "text"), self.bench.known))

    def _clear(self, act: Mapping[str, Any]) -> None:
        self._change(Record())

    def _undo(self, act: Mapping[str, Any]) -> None:
        if self._before:
            self._after.append(self.record)
            self.record = self._before.pop()

    def _redo(self, act: Mapping[str, Any]) -> None:
        if self._after:
            self._before.append(self.record)
            self.record = self._after.pop()

    def _show(self, act: Mapping[str, Any]) -> None:
        shown, with_levels = act.get("shown", self.view.shown), act.get("levels", self.view.with_levels)
        if not isinstance(shown, int) or not 1 <= shown <= MOST_SHOWN:
            raise Bad(f"at most {MOST_SHOWN} explanations are shown")
        self.view = View(shown, with_levels is True and self.bench.has_levels)

    def _wire(self, act: Mapping[str, Any]) -> str:
        return self.bench.known.reading(_text(act, "wire"), "")[0]

    # What the program answers.

    def _answered(self) -> Answers:
        """The answers to the case. A program that has ended is started again, once."""
        if self._answers is None:
            patterns = sum(bool(case.seen) for case in self.record.board.patterns.values())
            self._answers = self._trying(self._ask, SEARCH if patterns > 1 else CLICK)
        return self._answers

    def _trying(self, ask: Callable[[], Answered], rank: int, is_dropped: Callable[[], bool] = lambda: False) -> Answered:
        """What is asked. A program that has ended is started again, once, and gets all cases."""
        service = self.bench.service
        with contextlib.suppress(Ended, Lost), service.errand(rank, is_dropped) as restarts:
            return ask()
        service.revive(restarts)
        with service.errand(rank, is_dropped):
            return ask()

    def _synced(self) -> dict[str, Session]:
        """A session for each pattern, once each knows what the case says."""
        patterns = self.record.board.patterns
        for name in self._sessions.keys() - patterns.keys():
            self._sessions.pop(name).close()
        changes: list[Request] = []
        for name, case in patterns.items():
            if name not in self._sessions:
                self._sessions[name] = self.bench.session(self)
                self._sessions[name].pattern = name
            changes += self._sessions[name].becoming(case)
        self.bench.service.do(changes)
        return {name: self._sessions[name] for name in patterns}

    def _read(self) -> list[Session]:
        """The sessions of patterns with readings, since one without them says nothing; the first if none has any."""
        sessions = self._synced()
        return [session for name, session in sessions.items() if self.record.board.patterns[name].seen] or [next(iter(sessions.values()))]

    def _asked(self, sessions: Sequence[Session]) -> Session | Joint:
        """What is asked: the one session, or all of them together."""
        if len(sessions) == 1:
            return sessions[0]
        if self._joint is None or self._joint.sessions != tuple(sessions):
            self._joint = self.bench.service.together(sessions, timeout=LONGEST)
        return self._joint

    def _ask(self) -> Answers:
        answers = Answers(expected=[self.bench.expected(case.seen) for case in self.record.board.patterns.values()])
        asked = self._asked(self._read())
        try:
            _explain(answers, asked, self.view)
        except Inconsistent:
            answers.blame, answers.candidates = {}, []
        except TimeoutError:
            answers.is_late = True
        return answers

    def _advice(self) -> list[Json]:
        """The best measurements, over all patterns."""
        answers = self._answered()
        if answers.cost is None and not answers.is_late:
            with contextlib.suppress(TimeoutError):
                answers.clash = clash_of(self._read(), LONGEST)
        if not answers.cost or (answers.complete and sum(cost == answers.cost for cost, _ in answers.candidates) < 2):
            return []
        patterns = self._read()
        asked = self._asked(patterns)
        ranked: Sequence[Proposal]
        try:
            if isinstance(asked, Joint):
                ranked = asked.rank_probes(limit=max(2, AT_HAND // len(patterns)))
            else:
                ranked = asked.rank_probes(self._splitting(asked, answers), AT_HAND)
        except TimeoutError:
            return []
        rows = [row for row in ranked if row.reduction > 0 and self.bench.wire_of(row.wire) not in self.record.unreachable]
        return [
            {"pattern": row.pattern if isinstance(row, JointProposal) else patterns[0].pattern, "wire": row.wire,
             "zero": row.with_zero, "one": row.with_one, "of": row.at_hand, "complete": row.complete}
            for row in rows[:PROPOSALS]
        ]  # fmt: skip

    def _splitting(self, session: Session, answers: Answers) -> list[str]:
        """The wires that may split the explanations, since neither bit costs more; if there are many, those next to suspects."""
        suspects = {part for part, verdict in answers.blame.items() if verdict is not Verdict.NEVER}
        scene = self.bench.scene

        def distance(name: str) -> int:
            wire = self.bench.wire_of(name)
            return 0 if scene.drivers.get(wire) in suspects else 1 if suspects.intersection(scene.readers.get(wire, ())) else 2

        found = [row.wire for row in session.probes() if row.if_zero == row.if_one == answers.cost]
        return sorted((wire for wire in found if self.bench.wire_of(wire) not in self.record.unreachable), key=distance)[:MOST_RANKED]

    def _state(self) -> Json:
        answers = self._answered()
        record, bench = self.record, self.bench
        shares = collections.Counter(part for cost, parts in answers.candidates if cost == answers.cost for part in parts)
        return {
            "version": self.version, "title": bench.title, "restarts": bench.service.restarts, "now": record.now,
            "patterns": [
                {"name": name, "seen": list(case.seen.items()), "expected": list(expected.items()),
                 "against": _against(case.seen, expected)}
                for (name, case), expected in zip(record.board.patterns.items(), answers.expected)
            ],
            "held": list(record.board.held.items()), "unreachable": sorted(record.unreachable), "replaced": record.replaced,
            "cost": answers.cost, "late": answers.is_late, "complete": answers.complete, "shares": list(shares.items()),
            "candidates": [{"cost": cost, "parts": parts} for cost, parts in answers.candidates],
            "blame": [(part, str(verdict)) for part, verdict in answers.blame.items() if verdict is not Verdict.NEVER],
            "advice": answers.advice,
            "clash": [(name, list(case.seen.items()), list(case.held.items())) for name, case in answers.clash.items()],
            "log": record.script(bench.title), "undo": len(self._before), "redo": len(self._after),
            "shown": self.view.shown, "levels": self.view.with_levels,
        }  # fmt: skip


def _last(records: Sequence[Record]) -> list[Record]:
    """The last of these, as many as are kept. What two of them share counts once."""
    met: dict[int, int] = {}
    count = 0
    for record in reversed(records[-MOST_UNDO:]):
        known = [known for case in record.board.patterns.values() for known in (case.seen, case.held)]
        contents = (record.unreachable, record.replaced, *known)
        met |= {id(content): len(content) for content in contents}
        if sum(met.values()) > MOST_KEPT:
            break
        count += 1
    return list(records[len(records) - count :])


def _against(seen: Mapping[str, int], expected: Mapping[str, int]) -> list[str]:
    return [wire for wire, bit in seen.items() if expected.get(wire, bit) != bit]


def _text(act: Mapping[str, Any], name: str) -> str:
    """A text or a bit that the page sent. One with bytes that are no text is none."""
    value = act.get(name)
    if isinstance(value, int) and not isinstance(value, bool):
        return str(value)
    if not isinstance(value, str):
        raise Bad(f"the request lacks {name}: load the page again")
    return value.encode("utf-8", "replace").decode()


def _explain(answers: Answers, asked: Session | Joint, view: View) -> None:
    """The explanations. Raises `Inconsistent` if there are none."""
    if isinstance(asked, Session):
        cost, answers.blame, found = _explained(asked, view)
    else:
        cost = asked.minimum().cost
        answers.blame = {row.part: row.verdict for row in asked.blame()}
        found = [(cost, row.faulty) for row in asked.diagnoses(view.shown + 1)]
    answers.cost, answers.candidates, answers.complete = cost, found[: view.shown], len(found) <= view.shown


def _explained(session: Session, view: View) -> tuple[int, dict[str, Verdict], list[tuple[int, tuple[str, ...]]]]:
    """The same of one session, asked all at once: a click waits for the program a single time."""
    name, most = session.name, view.shown + 1
    command, word = ("levels", "level") if view.with_levels else ("list", "diag")
    least = Listing(name, f"min {name}", last="min inconsistent")
    blamed = Listing(name, f"blame {name}", last="end inconsistent", more="blame")
    listed = Listing(name, f"{command} {name} {most}", last="end inconsistent", more=word, most=most)
    # A listing goes on after the one before it. A reading that is sent again makes it begin at the first.
    session.service.do([*session.placing(None), least, blamed, listed])
    if least.is_inconsistent:
        raise Inconsistent(name)
    cost = int(least.told("min")[0][0])
    rows = [(int(row[0]), tuple(row[1:])) if view.with_levels else (cost, tuple(row)) for row in listed.told(word)]
    return cost, {part: Verdict(verdict) for part, verdict in blamed.told("blame")}, rows
