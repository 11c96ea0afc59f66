"""A device that is served, and the sessions over it."""

from __future__ import annotations

import collections
import functools
import itertools
import math
import os
import pathlib
import weakref
from collections.abc import Callable, Iterable, Iterator, Mapping, Sequence
from typing import TYPE_CHECKING, Literal, NoReturn, get_args

from . import hints, manual
from .boards.joint import Joint
from .boards.tables import BadTable, Rows, read_table
from .case import CHANGES, Board, Case
from .child import Child
from .devices import input_wires, other_names, pins_at
from .errors import Ended, NotBuilt, TimedOut, shown
from .program import find_program
from .replies import AnyLines, Lines, Ready, Request
from .session import BLANKS, Session, check_list

if TYPE_CHECKING:
    from .boards.holding import JointProgress

# All options, and the numbers that some of them and HEALTH of `ask` take, from the least to the greatest.
OPTIONS = {row.name: row for row in manual.rows("option").values()}
LIMITS = manual.limits()

# What answers: a graph that is compiled before, a search, or the graph if it is ready soon, and else the search.
Engine = Literal["auto", "graph", "search"]
ENGINES: tuple[Engine, ...] = get_args(Engine)
# So many seconds a graph may take to be ready if a search can stand in for it.
SOON = 3.0

Program = str | os.PathLike[str] | Sequence[str | os.PathLike[str]]


def option_words(options: Mapping[str, int | bool | None]) -> list[str]:
    """The words of options, by their names. One that is False or None is not given.

    >>> option_words({"narrow": True, "least": False, "budget": None, "levels": 3})
    ['--narrow', '--levels', '3']
    """
    words = []
    for name, value in options.items():
        if value is not None and value is not False:
            words += [f"--{name}"] + ([] if value is True else [str(value)])
    return words


def check_options(options: Mapping[str, int | bool | None]) -> None:
    """Raises TypeError or ValueError for options that no program takes, before one is started."""
    for name, value in options.items():
        if name not in OPTIONS and name != "health":
            raise TypeError(f"there is no option {name}")
        if name not in LIMITS:
            if not isinstance(value, bool):
                raise TypeError(f"{name} is True or False, not {value!r}")
        elif value is not None:
            if isinstance(value, bool) or not isinstance(value, int):
                raise TypeError(f"{name} is a whole number, not {value!r}")
            least, most = LIMITS[name]
            if not least <= value <= most:
                raise ValueError(f"{name} is from {least} to {most}, not {value}")


def words_of(path: str, health: int | None, options: Mapping[str, int | bool | None]) -> list[str]:
    """The words that start a service of a device, or of a graph. Raises ValueError if they are no form."""
    if health is None and path.endswith(".nnf"):
        raise ValueError(f"{path}: a graph (.nnf) needs health=N, the number of its parts")
    words = ["serve", path] if health is None else ["ask", path, str(health)]
    # A graph is compiled already, and stays as it is with `narrow` or without.
    words += option_words(options if health is None else {**options, "narrow": False})
    if fault := next(hints.faults_of_words(words), ""):
        raise ValueError(f"{shown(path)}: {fault}")
    return words


def engines_of(engine: Engine, health: int | None, options: Mapping[str, int | bool | None]) -> tuple[Engine, ...]:
    """The engines that are tried, one after the other. Raises ValueError for none, and for what it does not have.

    A graph alone has a budget, the order of the names, and the graph of the diagnoses. Who gives one of these gets no search.
    """
    if engine not in ENGINES:
        raise ValueError(f"engine is one of {', '.join(ENGINES)}, not {engine!r}")
    needs = "health" if health is not None else "least" if options["least"] else None
    if engine == "search" and needs is not None:
        raise ValueError(f"{needs} needs a graph, and {hints.SEARCH} has none")
    if engine != "auto":
        return (engine,)
    both: tuple[Engine, ...] = ("graph", "search")
    return both if needs is None and options["budget"] is None and options["narrow"] else both[:1]


def options_of(engine: Engine, options: Mapping[str, int | bool | None]) -> Mapping[str, int | bool | None]:
    """The options by which an engine is started. A search has no forest and no budget."""
    return {**options, "narrow": False, "budget": None, "search": True} if engine == "search" else options


def is_too_large(ended: Ended) -> bool:
    """Whether a device was refused that a search may serve: for its sum, its bits, or the memory that they take."""
    return ended.status in (3, 6) or ended.last_line.startswith("error: bits ")


def check_timeout(timeout: float | None) -> None:
    """Raises TypeError or ValueError for what is no time to wait."""
    if timeout is None:
        return
    if isinstance(timeout, bool) or not isinstance(timeout, (int, float)):
        raise TypeError(f"timeout is a number of seconds, or None to wait for as long as it takes, and not {timeout!r}")
    if not 0 < timeout < math.inf:
        raise ValueError(f"timeout is more than 0 seconds, and not {timeout}; None waits for as long as it takes")


def explained(ended: Ended, file: pathlib.Path) -> Exception:
    """Why a program ended before it was ready, with what to try; an OSError if this file cannot be read here."""
    if ended.status == 4 and ended.last_line == "error: read":
        try:
            file.open("rb").close()
        except OSError as error:
            return error
    hint = hints.hint(ended.status, ended.last_line, ended.words, file) if ended.status in (1, 3) else ""
    return Ended(ended.words, ended.status, ended.last_line, ended.said, hint)


class Service:
    """A device that is served by a program of its own, which is started here and ended by `close` or at the end of `with`.

    `file` is a netlist (`.bench`) or a design (`.dev`). `budget`, `sessions`, `frames`, `levels` and `least` are the options of `diag
    serve`. As many sessions as the program allows may be open at a time; with None it is
    the program's own default. The program looks for a forest by which the device is small unless `narrow` is False, which asks for the
    order of the names. With `health=N` the file is a graph (`.nnf`) whose first N variables are parts, and `diag ask` serves it. `program`
    is the program or launcher to start, a path or words; see `find_program` for what is started otherwise. `timeout` is how many seconds a
    call, this one too, may wait for its answer; then it raises `TimedOut`. Without it a call waits for as long as it takes.

    With `engine="graph"` the device is compiled before it is served, and with `"search"` it is searched for each answer: every device
    within the limits is served so, and the answers are the same. With `"auto"` it is searched if it is too wide or not compiled within
    three seconds; with a budget, without `narrow` and for a graph it is compiled. `engine` says what answers. A search has no graph:
    `Session.graph` raises `NoGraph`, and `least` is refused.

    Raises TypeError or ValueError for wrong options, `NotBuilt` if there is no program, OSError if the file cannot be read, and `Ended` if
    the program refuses the device. What is sent and what comes is logged by `diag_client` at the level DEBUG.

    Threads may share a service, and one waits for the other; for answers at the same time start one for each. It belongs to the process
    that started it: after a fork the other process gets `OtherProcess`. A session that is dropped is closed.

    >>> with Service("examples/c17.bench") as service:
    ...     print(service.part_count, service.wire_count)
    6 11
    >>> Service("examples/c17.bench", budget=1)
    Traceback (most recent call last):
        ...
    diag_client.errors.Ended: ... ended with status 3: error: sum above 1; try budget=8388608, then engine='search'
    """

    def __init__(
        self,
        file: str | os.PathLike[str],
        *,
        engine: Engine = "auto",
        health: int | None = None,
        narrow: bool = True,
        budget: int | None = None,
        sessions: int | None = LIMITS["sessions"][1],
        frames: int | None = None,
        levels: int | None = None,
        least: bool = False,
        program: Program | None = None,
        timeout: float | None = None,
    ) -> None:
        self.file = pathlib.Path(file)
        self.frames = frames
        options = {"narrow": narrow, "budget": budget, "sessions": sessions, "frames": frames, "levels": levels, "least": least}
        check_options({**options, "health": health})
        check_timeout(timeout)
        tried = engines_of(engine, health, options)
        asked = {one: words_of(os.fspath(file), health, options_of(one, options)) for one in tried}
        start = find_program() if program is None else program
        words = [os.fspath(start)] if isinstance(start, (str, os.PathLike)) else [os.fspath(word) for word in start]
        self._timeout = timeout
        self._numbers = itertools.count(1)
        self._given: set[str] = set()
        self._open: weakref.WeakValueDictionary[str, Session] = weakref.WeakValueDictionary()
        # What keeps a session that is closed from being closed once more when it is dropped, and the names of those that were dropped.
        self._keepers: dict[str, Callable[[], object]] = {}
        self._dropped: collections.deque[str] = collections.deque()
        # So many sessions may be open; None if that is the program's own to say.
        self.most_sessions = sessions
        self._names: tuple[tuple[str, ...], tuple[str, ...]] | None = None
        self._child, ready = self._begin({one: [*words, *asked[one]] for one in tried})
        self.part_count = ready.parts
        self.wire_count = ready.wires

    def __enter__(self) -> Service:
        return self

    def __reduce__(self) -> NoReturn:
        raise TypeError("a service cannot be pickled or copied: start one in each process")

    def __exit__(self, kind: type[BaseException] | None, *_: object) -> None:
        if kind is None:
            self.close()
        else:
            self._child.stop()

    def __repr__(self) -> str:
        return f"<Service {self.file} parts={self.part_count} wires={self.wire_count}{'' if self.is_running else ' ended'}>"

    @property
    def engine(self) -> Engine:
        """What answers: `graph`, or `search`.

        >>> with Service("examples/c17.bench", engine="search") as service, service.session_from("see S 22=1") as session:
        ...     service.engine, session.minimum()
        ('search', Minimum(cost=0, faulty=()))
        """
        return self._engine

    @property
    def title(self) -> str:
        """What is served, in a few words.

        >>> with Service("examples/c17.bench") as service:
        ...     print(service.title)
        c17.bench: 6 parts, 11 wires
        """
        return f"{self.file.name}: {self.part_count} parts, {self.wire_count} wires"

    @property
    def is_running(self) -> bool:
        """Whether the program still answers this process, as far as was seen."""
        return self._child.is_running and self._child.is_own

    @property
    def is_behind(self) -> bool:
        """Whether the program is still at work on something that nobody waits for any more, since the call was interrupted."""
        return self._child.is_behind()

    @property
    def parts(self) -> tuple[str, ...]:
        """The names of all parts, in name order. They are asked once, in a session that is opened for it and closed again.

        Raises `Inconsistent` if no bits of the wires fit the device at all, since the program then names nothing, and `Refused` 8 if as
        many sessions are open as may be.
        """
        return self._all_names()[0]

    @property
    def wires(self) -> tuple[str, ...]:
        """The names of all wires, in name order; as `parts`.

        >>> with Service("examples/c17.bench") as service:
        ...     print(*service.wires)
        1 10 11 16 19 2 22 23 3 6 7
        """
        return self._all_names()[1]

    @functools.cached_property
    def inputs(self) -> frozenset[str]:
        """The names of the wires that are inputs, as far as the file says so. A graph has none.

        >>> with Service("examples/c17.bench") as service:
        ...     print(*sorted(service.inputs))
        1 2 3 6 7
        """
        return frozenset() if self.file.suffix == ".nnf" else input_wires(self.file, self.frames)

    @functools.cached_property
    def other_names(self) -> dict[str, str]:
        """Names that sessions take too, with the name that each stands for: those that `diag-netlist` has replaced."""
        return other_names(self.file, self.frames)

    @functools.cached_property
    def pins(self) -> dict[str, tuple[str, ...]]:
        """Of a board's device the wires that a probe reaches, each with its pins, such as `U3.6`. Nothing if each wire can be reached."""
        return pins_at(self.file, self.frames)

    def can_reach(self, wire: str) -> bool:
        """Whether a probe reaches a wire: of a board's device one at a pin or a test point, and of another device each."""
        return not self.pins or wire in self.pins

    def session(self, name: str | int | None = None) -> Session:
        """Opens a session, by a name of your own or by one that is made, which is s and a number.

        Raises `Refused` if as many are open as may be, if there is one of this name, or if it is no name. A name is free again once its
        session is closed or dropped.
        """
        if name is None:
            name = self.made_name()
        else:
            name = str(name)
            self._given.add(name)
        session = Session(self, name)
        try:
            session.open()
        except BaseException:
            # Nobody has it, so it is closed as soon as it is open.
            session.abandon()
            raise
        return session

    def made_name(self) -> str:
        """A name that no session has had."""
        return next(made for number in self._numbers if (made := f"s{number}") not in self._given)

    def session_from(self, script: str | Iterable[str] | Case, name: str | int | None = None) -> Session:
        """Opens a session with a case, or that of a script, as `Session.load` reads it. No session is left open if a line is refused.

        >>> with Service("examples/c17.bench") as service, service.session_from("see S 22=1\\nhold S 10=ok\\n") as session:
        ...     dict(session.seen), dict(session.held)
        ({'22': 1}, {'10': 'ok'})
        """
        session = self.session(name)
        try:
            session.load(script)
        except BaseException:
            session.abandon()
            raise
        return session

    def patterns(self, source: str | os.PathLike[str] | Rows | Board) -> dict[str, Session]:
        """Opens a session for each row of a table of test patterns, a file of comma-separated values or rows of cells, by its name.

        The first row has names of wires, and each further row the bits that one pattern shows: 0 or 1, and X, Z, - or nothing if none was
        read. A column `pattern` names the patterns; without it they are p1, p2 and so on. A `Board` has them too. Raises `BadTable`, with
        the row and the column, and opens no session then. If a session of a pattern's name is open, the new one has a made name.

        >>> with Service("examples/c17.bench") as service:
        ...     patterns = service.patterns([["1", "3", "22", "16"], [0, 0, 1, 1], [1, 1, 0, 1]])
        ...     print({name: session.minimum().cost for name, session in patterns.items()}, service.together(patterns.values()).minimum())
        {'p1': 1, 'p2': 1} Minimum(cost=1, faulty=('10',))
        """
        board = source if isinstance(source, Board) else read_table(source, self.wires, self.other_names)
        most = self.most_sessions
        if most is not None and len(board.patterns) > most:
            where = os.fspath(source) if isinstance(source, (str, os.PathLike)) else "the table"
            searched = f"at most {most} sessions are open at a time, of which {most // 2} can be searched together"
            raise BadTable(f"{where}: {len(board.patterns)} patterns, and {searched}")
        self._given.update(board.patterns)
        names = {name: self.made_name() if self.has_open(name) else name for name in board.patterns}
        opened = {name: Session(self, made, name) for name, made in names.items()}
        try:
            # A session that was open before is not to see anything.
            self.do([session.opening() for session in opened.values()])
            cases = [(opened[name], case) for name, case in board.patterns.items()]
            self.do([request for session, case in cases for request in [*session.seeing(case.seen), *session.holding(case.held)]])
        except BaseException:
            for session in opened.values():
                session.abandon()
            raise
        return opened

    def together(
        self, sessions: Iterable[Session], *, progress: Callable[[JointProgress], None] | None = None, timeout: float | None = None
    ) -> Joint:
        """What explains all of these sessions at once, as many test patterns of one board: see `Joint`."""
        return Joint(sessions, progress, timeout)

    def ask(self, line: str) -> list[str]:
        """Carries out any line of a script and gives the lines of its reply, refusals too; see `batch`.

        >>> with Service("examples/c17.bench") as service:
        ...     print(service.ask("open S"), service.ask("list S 5"), service.ask("dance S"))
        ['S open'] ['S diag', 'S end'] ['error 1 unknown command']
        """
        return self.batch([line])[0]

    def batch(self, lines: Iterable[str]) -> list[list[str]]:
        """The lines of the reply to each of these lines of a script, in order. All are sent at once, and a refusal is a reply too.

        What a line changes in a session that `session` opened is noted by that session. Only the program knows one that a line opens.

        >>> with Service("examples/c17.bench") as service, service.session("S") as session:
        ...     print(service.batch(["see S 22=1", "see S 99=1", "# a comment", "min S"]))
        ...     print(session.seen)
        [['S ok'], ['S error 9 no wire'], [], ['S min 0']]
        {'22': 1}
        """
        requests = [self._request(line) for line in check_list(lines, "lines")]
        self.carry_out([request for request in requests if request is not None])
        return [[] if request is None else request.lines for request in requests]

    def carry_out(self, requests: Sequence[Request]) -> None:
        """Asks all of these at once, and waits for their replies. Raises `Ended` if the program ends before."""
        self._child.ask(requests)

    def do(self, requests: Sequence[Request]) -> None:
        """The same, and then raises the first refusal."""
        self.carry_out(requests)
        _raise_refused(requests)

    def follow(self, requests: Sequence[Request]) -> Iterator[None]:
        """The same, but comes back each time that a piece of the replies was read, so that they can be printed as they come."""
        return self._child.follow(requests)

    def send(self, requests: Sequence[Request]) -> None:
        """The same, and waits for nothing."""
        self._child.send(requests)

    def wait_for(self, request: Request) -> None:
        """Waits for the reply to something that was sent."""
        self._child.wait_for(request)

    def limit(self, timeout: float | None) -> None:
        """From now on a call may wait so many seconds for its answer."""
        self._timeout = timeout
        self._child.limit(timeout)

    def catch_up(self) -> None:
        """Waits for what an interrupt left to be answered, so that each session knows what the program knows of it."""
        self._child.catch_up()

    def restart(self) -> None:
        """Ends the program at once, whatever it does, starts it again, and gives it what each open session has seen and holds.

        Readings that were sent and not yet answered are sent again; whatever else was asked is dropped. It may be called after the program
        has ended too, or after a `restart` that was interrupted.

        >>> with Service("examples/c17.bench") as service, service.session() as session:
        ...     session.see({"22": 1})
        ...     service.restart()
        ...     session.probe("22")
        Probe(wire='22', if_zero=None, if_one=0)
        """
        old = self._child
        old.stop()
        # A new program has none of the sessions that were dropped.
        self._dropped.clear()
        child = self._start(Ready(), self._timeout)
        try:
            known = [request for session in list(self._open.values()) for request in session.reopening()]
            # Nobody has a session whose opening was not answered, so it is not opened again.
            again = [
                request for request in old.unanswered
                if isinstance(request, Lines) and request.note and not (request.is_answered or request.line.startswith("open "))
            ]
            child.ask([*known, *again])
            # One is refused if the file is another one by now.
            _raise_refused(known)
        except BaseException:
            child.stop()
            raise
        self._child = child

    def close(self) -> None:
        """Ends the program, once all that was asked is answered. Raises `Ended` if it ends with another status than 0.

        It waits for `timeout` seconds, or 10 if there is none, and then ends the program at once, which loses nothing. A service that has
        ended, or was closed, or belongs to another process, stays as it is.
        """
        if not self.is_running:
            return
        try:
            status = self._child.close()
        except BaseException:
            self._child.stop()
            raise
        if status != 0:
            raise self._child.ended()

    def stop(self) -> None:
        """Ends the program at once, whatever it does. `restart` starts it again."""
        self._child.stop()

    def has_open(self, name: str) -> bool:
        """Whether a session of this name is open, by the replies so far."""
        return name in self._open

    def note_open(self, session: Session) -> None:
        """A session is open from now on."""
        self._open[session.name] = session
        closer = weakref.finalize(session, _note_dropped, self._dropped, self._keepers, session.name)
        closer.atexit = False
        self._keepers[session.name] = closer.detach

    def note_closed(self, session: Session) -> None:
        """A session is closed from now on."""
        if self._open.pop(session.name, None) is not None:
            self._keepers.pop(session.name)()

    def _closings(self) -> Iterator[Request]:
        """The lines that close the sessions that were dropped."""
        while self._dropped:
            name = self._dropped.popleft()
            yield Lines(name, f"close {name}", reply="closed")

    def _begin(self, tried: Mapping[Engine, Sequence[str]]) -> tuple[Child, Ready]:
        """The program by the first of these engines that is ready in time and does not refuse the device for its size."""
        *others, last = tried
        left = self._timeout
        for engine in others:
            # The last one may take at least half of the time.
            soon = SOON if self._timeout is None else min(SOON, self._timeout / 2)
            self._engine, self._words, ready = engine, tried[engine], Ready()
            try:
                return self._start(ready, soon), ready
            except TimedOut:
                pass
            except Ended as ended:
                if not is_too_large(ended):
                    raise
            left = None if left is None else left - soon
        self._engine, self._words, ready = last, tried[last], Ready()
        return self._start(ready, left), ready

    def _start(self, ready: Ready, timeout: float | None) -> Child:
        """The program, started, and ready within so many seconds."""
        try:
            child = Child(self._words, timeout, self._closings)
        except OSError as error:
            raise NotBuilt(f"{self._words[0]} cannot be started: {error.strerror}") from error
        try:
            child.expect(ready)
        except Ended as ended:
            raise explained(ended, self.file) from None
        except BaseException:
            child.stop()
            raise
        child.limit(self._timeout)
        return child

    def _request(self, line: str) -> Lines | AnyLines | None:
        """A line, ready to be carried out; None if it has no reply."""
        if "\n" in line:
            raise ValueError(f"more than one line: {line!r}")
        words = line.strip(BLANKS).split(" ")
        if not words[0] or words[0].startswith("#"):
            return None
        session = self._open.get(words[1]) if len(words) > 1 and words[0] in CHANGES else None
        return AnyLines([line]) if session is None else session.request(words[0], *filter(None, words[2:]))

    def _all_names(self) -> tuple[tuple[str, ...], tuple[str, ...]]:
        if self._names is None:
            with self.session() as session:
                self._names = (tuple(row.part for row in session.blame()), tuple(row.wire for row in session.probes(every=True)))
        return self._names


def _note_dropped(dropped: collections.deque[str], keepers: dict[str, Callable[[], object]], name: str) -> None:
    """Nobody has the session of this name any more."""
    dropped.append(name)
    keepers.pop(name, None)


def _raise_refused(requests: Iterable[Request]) -> None:
    refused = next((request.refused for request in requests if request.refused is not None), None)
    if refused is not None:
        raise refused
