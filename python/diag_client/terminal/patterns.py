"""A terminal over many test patterns of one board: the commands of the terminal, for all patterns together."""

from __future__ import annotations

import itertools
import sys
from collections.abc import Collection, Sequence
from typing import Any

from ..boards.holding import JointProgress
from ..boards.joint import Joint
from ..case import Board
from ..errors import DiagError, Inconsistent, Refused, shown
from ..replies import Probe
from ..service import Service
from ..session import Session
from .shell import LISTED, MORE, REFUSED, Asked, Shell, _read_script, in_words

MORE_PATTERNS = {
    "drop": ("drop NAME", "takes a pattern away, with its readings"),
    "pattern": ("pattern NAME", "begins a test pattern of the same board, or goes back to one; see belongs to it, hold to the board"),
    "patterns": ("patterns", "the patterns: the present one has a star"),
    "this": (
        "this COMMAND ..",
        "min, next, list, probe, probes, blame or best for the present pattern alone; without `this` they are for all together, and"
        " probes is slower",
    ),
}
# What is asked for all patterns together once there are two, and what has an answer for one pattern alone.
TOGETHER = ("min", "next", "list", "probe", "probes", "blame", "best")
ALONE = ("after", "level", "levels", "dnnf", "leastnnf", "expect", "case", "picture")


class BoardShell(Shell):
    """The terminal, with patterns. With one pattern alone it is the plain terminal."""

    def __init__(self, service: Service, session: Session) -> None:
        super().__init__(service, session)
        self.sessions = {session.name: session}
        self._joint: Joint | None = None
        # Whether a line of the progress is on the screen.
        self._has_line = False
        # Whether a line is asked of the present pattern alone.
        self._is_one = False
        # What is still to be printed before an answer.
        self._heading = ""
        # How many diagnoses of all patterns were printed, and the number of changes when they were.
        self._told_since = (0, 0)

    def take(self, patterns: dict[str, Session]) -> None:
        """These are the patterns from now on, and the first one is the present one."""
        for name, session in self.sessions.items():
            if name not in patterns:
                session.close()
        self.sessions = dict(patterns)
        self.session = next(iter(patterns.values()))
        self._joint = None
        self._told_since = (0, 0)

    def carry_out_line(self, line: str) -> bool:
        """Carries out a line. If there are several patterns, one for all of them is one of `all`, and one for the present one of `this`."""
        try:
            return super().carry_out_line(f"{self._whose(line.split(None, 1))} {line.strip()}".lstrip())
        finally:
            self._heading = ""

    def say(self, text: str) -> None:
        """Prints an answer, and before the first of a line whose it is."""
        self._clear()
        for part in filter(None, (self._heading, text)):
            print(part)
        self._heading = ""

    def do_all(self, rest: str) -> bool:
        """What is asked of all patterns together, and what is said of the board."""
        command, *words = rest.split() or [""]
        if command in ("hold", "unhold"):
            self._ask_one(rest)
            self._hold_in_all()
        elif command in TOGETHER:
            if words and command in self.commands and not self.commands[command].words:
                raise ValueError(f"{command}: nothing follows it")
            self._revive()
            try:
                self._hold_in_all()
                getattr(self, f"_{command}")(words)
            finally:
                self._clear()
        else:
            raise ValueError(f"all COMMAND: one of {', '.join(TOGETHER)}, hold and unhold")
        return False

    def do_pattern(self, rest: str) -> bool:
        """Another pattern."""
        if len(rest.split()) != 1:
            raise ValueError("pattern NAME: which pattern? a name without blanks; `patterns` lists them")
        name = rest.strip()
        self._revive()
        self._hold_in_all()
        if name not in self.sessions:
            patterns = dict(self.sessions)
            # The one that the terminal began with is a pattern if something was seen in it.
            if len(patterns) == 1 and not self.session.seen:
                patterns.clear()
            patterns[name] = self.service.session(name)
            patterns[name].hold(self.session.held)
            self.take(patterns)
        self.session = self.sessions[name]
        print(f"pattern {name}: {_count_of(self.session.seen, 'reading')}")
        return False

    def all_sessions(self) -> list[Session]:
        """All patterns."""
        return list(self.sessions.values())

    def do_drop(self, rest: str) -> bool:
        """One pattern less."""
        name = rest.strip()
        if name not in self.sessions:
            raise ValueError(f"drop NAME: there is no pattern {shown(name)}" if name else "drop NAME: which pattern?")
        if len(self.sessions) == 1:
            raise ValueError("it is the only pattern: unsee takes its readings back")
        self._revive()
        self._hold_in_all()
        present = self.session
        self.take({other: session for other, session in self.sessions.items() if other != name})
        self.session = present if present.is_open else self.session
        return self.do_patterns("")

    def do_undo(self, rest: str) -> bool:
        """The case as it was, of the pattern that was changed last."""
        super().do_undo(rest)
        self._hold_in_all()
        return False

    def do_patterns(self, _: str) -> bool:
        """All patterns."""
        self.service.catch_up()
        for name, session in self.sessions.items():
            print("*" if session is self.session else " ", f"{name}: {_count_of(session.seen, 'reading')}")
        return False

    def do_this(self, rest: str) -> bool:
        """A command for the present pattern alone, which is named if there are others."""
        command = rest.split()[0] if rest else ""
        if command not in TOGETHER + ALONE:
            raise ValueError(f"this COMMAND: one of {', '.join(TOGETHER)}")
        if len(self.sessions) > 1:
            self._heading = f"pattern {self.session.pattern} alone:"
        ask = getattr(self, f"do_{command}", None)
        return bool(ask(rest[len(command):])) if ask else self._ask_one(rest)

    def _saved(self) -> tuple[str, str]:
        if len(self.sessions) == 1:
            return super()._saved()
        self._hold_in_all()
        text = Board({name: session.case for name, session in self.sessions.items()}).script()
        return text, f"{len(self.sessions)} patterns, {_count_of(self.session.held, 'part')} held"

    def do_load(self, rest: str) -> bool:
        """A script that was saved: one pattern, or many."""
        board = Board.from_script(_read_script(rest))
        if len(board.patterns) < 2:
            return super().do_load(rest)
        if self.session.seen or self.session.held or len(self.sessions) > 1:
            raise ValueError(f"there are {len(board.patterns)} patterns in this script: load it before anything is seen or held")
        self._revive()
        self.take(self.service.patterns(board))
        # What is held is held for the board.
        self.session.hold(board.held)
        self._hold_in_all()
        readings = [wire for case in board.patterns.values() for wire in case.seen]
        print(f"{len(board.patterns)} patterns, {_count_of(readings, 'reading')}, {_count_of(board.held, 'part')} held")
        return False

    def complete_pattern(self, text: str, *_: Any) -> list[str]:
        """The patterns that begin so."""
        return sorted(f"{name} " for name in self.sessions if name.startswith(text))

    def complete_this(self, text: str, *_: Any) -> list[str]:
        """The commands that begin so."""
        return [f"{name} " for name in TOGETHER if name.startswith(text)]

    def _whose(self, words: Sequence[str]) -> str:
        """Whether a line is for all patterns or for the present one alone, if there are several. A reading belongs to the present one."""
        command = words[0] if words and len(self.sessions) > 1 else ""
        return "all" if command in (*TOGETHER, "hold", "unhold") else "this" if command in ALONE else ""

    def _asked(self, words: list[str]) -> Asked:
        # Of the lines from a pipe these are carried out one by one.
        if not self._is_one and self._whose(words):
            raise ValueError("not one of many lines")
        return super()._asked(words)

    def _told(self, row: Asked, begin: str) -> list[str]:
        texts = super()._told(row, begin)
        place = next((place for place, text in enumerate(texts) if not text.startswith(REFUSED)), None)
        if self._heading and place is not None:
            texts.insert(place, self._heading)
            self._heading = ""
        return texts

    def _ask_one(self, line: str) -> bool:
        self._is_one = True
        try:
            return super().default(line)
        finally:
            self._is_one = False

    def _hold_in_all(self) -> None:
        """In each pattern what is held in the present one. An interrupt, or the end of the program, may have come in between."""
        self.service.catch_up()
        held = self.session.held
        for session in self.sessions.values():
            if session is not self.session:
                session.unhold(*(session.held.keys() - held.keys()))
                # A change begins the listing anew, so what is held already is not sent again.
                session.hold(dict(held.items() - session.held.items()))

    def _together(self) -> Joint:
        """All patterns. What was found is kept as long as they are the same."""
        if self._joint is None:
            self._joint = self.service.together(self.sessions.values(), progress=self._tell_progress)
        return self._joint

    def _tell_progress(self, progress: JointProgress) -> None:
        if self.use_rawinput and sys.stderr.isatty():
            self._has_line = True
            print(f"\r{progress}\x1b[K", end="", file=sys.stderr, flush=True)

    def _clear(self) -> None:
        """Takes the line of the progress off the screen."""
        if self._has_line:
            self._has_line = False
            print("\r\x1b[K", end="", file=sys.stderr, flush=True)

    def _min(self, _: list[str]) -> None:
        least = self._together().minimum()
        told = " ".join(["min", str(least.cost), *least.faulty])
        self.say(in_words(told) if self.prompt else told)

    def _next(self, _: list[str]) -> None:
        self._tell_diagnoses(1)

    def _list(self, words: list[str]) -> None:
        if len(words) > 1 or not all(word.isdecimal() and int(word) for word in words):
            raise ValueError("list [k]: at most k diagnoses, k from 1")
        self._tell_diagnoses(int(words[0]) if words else LISTED)

    def _tell_diagnoses(self, most: int) -> None:
        """Those after the last one that was printed. A change begins anew, as in one session."""
        self.service.catch_up()
        changes = sum(session.changes for session in self.sessions.values())
        if self._told_since[1] != changes:
            self._told_since = (0, changes)
        begin, _ = self._told_since
        end = begin + most
        for told, diagnosis in enumerate(itertools.islice(self._together().diagnoses(end), begin, None), begin + 1):
            self.say(" ".join(["diag", *diagnosis.faulty]))
            self._told_since = (told, changes)
        if self._told_since[0] < end:
            self.say("end")

    def _probe(self, words: list[str]) -> None:
        if not words:
            raise ValueError("probe w: which wire?")
        for wire in words:
            try:
                self._tell_costs(self.session.probe(wire))
            except Refused as refused:
                # The other wires are asked all the same.
                self.refuse(f"{REFUSED}{self.why(refused)}")

    def _probes(self, _: list[str]) -> None:
        for alone in self.session.probes():
            self._tell_costs(alone)
        self.say("end")

    def _tell_costs(self, alone: Probe) -> None:
        """The least costs for all patterns if a wire was seen as 0 in the present one too, and if it was seen as 1."""
        costs = ["-" if cost is None else self._cost_with(alone.wire, bit) for bit, cost in enumerate((alone.if_zero, alone.if_one))]
        if costs == ["-", "-"]:
            raise Inconsistent(self.session.pattern)
        self.say(self.placed(f"probe {alone.wire} {costs[0]} {costs[1]}"))

    def _cost_with(self, wire: str, bit: int) -> str:
        with self.session.copy() as other:
            other.see({wire: bit})
            sessions = [other if session is self.session else session for session in self.sessions.values()]
            try:
                return str(self.service.together(sessions, progress=self._tell_progress).minimum().cost)
            except Inconsistent:
                return "-"

    def _blame(self, _: list[str]) -> None:
        for row in self._together().blame():
            self.say(f"blame {row.part} {row.verdict}")
        self.say("end")

    def _best(self, words: list[str]) -> None:
        # An unknown name is refused.
        among = [row.wire for row in self.session.probe_each(words)] or None
        rows = self._together().rank_probes(among=among)
        self.say(self._advice(rows, lambda: self._together().minimum().cost))


def _count_of(found: Collection[str], noun: str) -> str:
    """How many there are.

    >>> _count_of(["a"], "part"), _count_of([], "part")
    ('1 part', '0 parts')
    """
    return f"{len(found)} {noun}{'' if len(found) == 1 else 's'}"


def begin(service: Service, session: Session, table: str | None = None) -> BoardShell:
    """The terminal, with the patterns of a table if there is one."""
    shell = BoardShell(service, session)
    if table is not None:
        # One of the patterns may have its name.
        session.close()
        try:
            shell.take(service.patterns(table))
        except Refused as refused:
            raise DiagError(f"{table}: {shell.why(refused)}") from None
        try:
            # Too many to be searched are refused before anything is typed.
            shell._together()
        except ValueError as error:
            raise DiagError(f"{table}: {error}") from None
        print(f"{_count_of(shell.sessions, 'pattern')} of {table}; the present one is {shell.session.pattern}")
    return shell


MORE.update(MORE_PATTERNS)
