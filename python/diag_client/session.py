"""One session over a served device: what was seen and held, and the answers to it."""

from __future__ import annotations

import contextlib
import functools
import itertools
import re
import types
from collections.abc import Iterable, Iterator, Mapping, Sequence
from typing import TYPE_CHECKING, NoReturn

from . import advice, clash, display
from .case import CHANGES, Case, Mode, change
from .errors import Changed, DiagError, Inconsistent
from .readings import at_odds
from .replies import AnyLines, Blame, Diagnosis, Graph, GraphText, Level, Lines, Listing, Minimum, Probe, Request, Verdict

if TYPE_CHECKING:
    from .advice import Proposal
    from .service import Service


BLANKS = " \t\r\n"
BLANK = re.compile(f"[{BLANKS}]")
FIRST_PAGE = 8
LARGEST_PAGE = 512
# The commands that list states: the word of their lines, and how many words are between it and the names of the faulty parts.
LISTINGS = {"list": ("diag", 0), "levels": ("level", 1)}
# The commands whose words are names, which may be other names of wires.
NAMING = (*CHANGES, "probe", "after")


class Session:
    """What was seen and held in one session, and the answers to it. `Service.session` opens one.

    A session is closed by `close` or at the end of `with`. `minimum`, `diagnoses`, `levels`, `probe`, `probes`, `blame` and
    `best_probe` raise `Inconsistent` if no set of faulty parts explains the case. All raise `Refused` for what cannot be done, which
    changes nothing, and `Ended` if the program has ended.

    >>> with Service("examples/c17.bench") as service, service.session() as session:
    ...     session.see({"1": 0, "2": 0, "3": 0, "6": 0, "7": 0})
    ...     session.see({"22": 1, "23": 0})
    ...     print(session.minimum())
    ...     print(*session.diagnoses(), sep=", ")
    Minimum(cost=1, faulty=('10',))
    10, 22
    """

    def __init__(self, service: Service, name: str, pattern: str = "") -> None:
        self.service = service
        self.name = name
        # What advice over several sessions calls it.
        self.pattern = pattern or name
        self._seen: dict[str, int] = {}
        self._held: dict[str, Mode] = {}
        self._is_open = False
        self._opened_by: Lines | None = None
        self._changes = 0
        # Where `diagnoses` and `levels` begin.
        self._start: tuple[str, ...] | None = None

    def __enter__(self) -> Session:
        return self

    def __exit__(self, kind: type[BaseException] | None, *_: object) -> None:
        if kind is None:
            self.close()
        else:
            self.abandon()

    def __reduce__(self) -> NoReturn:
        raise TypeError("a session cannot be pickled or copied so: pickle its case, and open it by session_from; copy() opens a twin")

    def __repr__(self) -> str:
        return f"<Session {self.name} of {self.service.file.name}: {len(self._seen)} seen, {len(self._held)} held>"

    def _repr_svg_(self) -> str | None:
        return display.svg(self)

    def _repr_html_(self) -> str | None:
        return display.session_html(self)

    @property
    def seen(self) -> Mapping[str, int]:
        """What was seen, wire by wire, as it is now. It is changed only by `see` and `unsee`."""
        return types.MappingProxyType(self._seen)

    @property
    def held(self) -> Mapping[str, Mode]:
        """How parts are held, `ok` or `bad`. It is changed only by `hold` and `unhold`."""
        return types.MappingProxyType(self._held)

    @property
    def case(self) -> Case:
        """What was seen and held, as it is at this moment."""
        return Case(dict(self._seen), dict(self._held))

    @property
    def is_open(self) -> bool:
        """Whether it is open, by the replies so far."""
        return self._is_open

    @property
    def changes(self) -> int:
        """How often the case was changed."""
        return self._changes

    def open(self) -> None:
        """Opens the session. `Service.session` has done so."""
        self.service.do([self.opening()])

    def opening(self) -> Lines:
        """The line that opens the session, for `Service.carry_out`."""

        def note(_: Sequence[str]) -> None:
            self._is_open = True
            # The line knows the session, which is dropped only if it does not know the line.
            self._opened_by = None
            self.service.note_open(self)

        self._opened_by = Lines(self.name, self._line("open"), reply="open", note=note)
        return self._opened_by

    def seeing(self, seen: Mapping[str, int]) -> list[Lines]:
        """The lines of `see`, for `Service.carry_out`."""
        return self._changed("see", _words(seen))

    def holding(self, held: Mapping[str, Mode]) -> list[Lines]:
        """The lines of `hold`, for `Service.carry_out`."""
        return self._changed("hold", _words(held))

    def becoming(self, case: Case) -> list[Lines]:
        """The lines after which the session knows just this, for `Service.carry_out`."""
        return [
            *self._changed("unsee", [wire for wire in self._seen if wire not in case.seen]),
            *self.seeing({wire: bit for wire, bit in case.seen.items() if self._seen.get(wire) != bit}),
            *self._changed("unhold", [part for part in self._held if part not in case.held]),
            *self.holding({part: mode for part, mode in case.held.items() if self._held.get(part) != mode}),
        ]

    def close(self) -> None:
        """Closes the session, and what it knew is gone. Does nothing if it, or the service, is closed, or belongs to another process."""
        if not self.service.is_running:
            return
        self.service.catch_up()
        if self._is_open:
            self.service.do([self._closing()])

    def abandon(self) -> None:
        """Closes the session without waiting for anything: it is closed once what was asked before is answered. Raises no `DiagError`.

        >>> with Service("examples/c17.bench") as service:
        ...     service.session("S").abandon()
        ...     service.session("S").name
        'S'
        """
        # An opening that an interrupt left unanswered will open it, unless another session has the name.
        will_open = self._opened_by is not None and not self._opened_by.is_answered and not self.service.has_open(self.name)
        if not self.service.is_running:
            # It is not to be opened again by `Service.restart`.
            if self._is_open:
                self._is_open = False
                self.service.note_closed(self)
        elif self._is_open or will_open:
            with contextlib.suppress(DiagError):
                self.service.send([self._closing()])

    def see(self, seen: Mapping[str, int] | None = None, /, **wires: int) -> None:
        """Wires were seen as 0 or 1, whatever was seen of them before. Names that are no Python names go into a mapping.

        All lines are sent in one piece, and each is carried out or refused by itself. Then the first refusal is raised.

        >>> with Service("examples/full_adder.bench") as service, service.session() as session:
        ...     session.see(a=1, b=1, carry_in=0)
        ...     session.see({"sum": 1})
        ...     session.see(nowhere=1)
        Traceback (most recent call last):
            ...
        diag_client.errors.Refused: no wire (error 9): see s1 nowhere=1
        """
        self.service.do(self._changed("see", [*_words(seen or {}), *_words(wires)]))

    def unsee(self, *wires: str) -> None:
        """Nothing was seen of these wires."""
        self.service.do(self._changed("unsee", wires))

    def hold(self, held: Mapping[str, Mode] | None = None, /, **parts: Mode) -> None:
        """Parts were `ok` or `bad` when the readings were taken, for instance if one was tested by itself. The board after a repair is
        another session. Names and refusals are as those of `see`.

        >>> with Service("examples/full_adder.bench") as service, service.session() as session:
        ...     session.see(a=0, b=0, carry_in=0, sum=1)
        ...     session.hold(sum="ok")
        ...     print(session.minimum())
        Minimum(cost=1, faulty=('half',))
        """
        self.service.do(self._changed("hold", [*_words(held or {}), *_words(parts)]))

    def unhold(self, *parts: str) -> None:
        """These parts are held no more."""
        self.service.do(self._changed("unhold", parts))

    def minimum(self) -> Minimum:
        """The least cost of a set of faulty parts that explains the case, and the first such set.

        >>> with Service("examples/c17.bench") as service, service.session() as session:
        ...     session.see({"22": 1}), session.minimum()
        (None, Minimum(cost=0, faulty=()))
        """
        cost, *faulty = self._told(Listing(self.name, self._line("min"), last="min inconsistent"), "min")[0]
        return Minimum(int(cost), tuple(faulty))

    def diagnoses(self, limit: int | None = None) -> Iterator[Diagnosis]:
        """The diagnoses one after the other, at most `limit` of them: from the first, or after the state that `after` names.

        They are asked page by page as they are taken, by `list`. Each call begins anew, and several may be under way. What is taken after
        the case was changed raises `Changed`.

        >>> with Service("examples/c17.bench") as service, service.session() as session:
        ...     session.see({"1": 0, "3": 0, "22": 1, "16": 1})
        ...     [str(diagnosis) for diagnosis in session.diagnoses()]
        ['10', '22']
        """
        return display.Listed(lambda: (Diagnosis(tuple(names)) for names in self._listed("list", limit)))

    def levels(self, limit: int | None = None) -> Iterator[Level]:
        """What explains the case, by rising cost up to that which the service was given, at most `limit` of it: the diagnoses first, then
        what is next best. It is taken as `diagnoses` are, by `levels`, and refused if the service was given no `levels`.

        >>> with Service("examples/c17.bench", levels=2) as service, service.session() as session:
        ...     session.see({"1": 0, "3": 0, "22": 1, "16": 1})
        ...     [str(state) for state in session.levels(4)]
        ['1: 10', '1: 22', '2: 10 11', '2: 10 16']
        """
        return display.Listed(lambda: (Level(int(cost), tuple(names)) for cost, *names in self._listed("levels", limit)))

    def level(self) -> Level | None:
        """The first of `levels`, or None if all that explains the case costs more than is listed.

        >>> with Service("examples/c17.bench", levels=2) as service, service.session() as session:
        ...     session.see({"1": 0, "3": 0, "22": 1, "16": 1})
        ...     session.after("10", "11")
        ...     session.level()
        Level(cost=2, faulty=('10', '16'))
        """
        return next(self.levels(1), None)

    def after(self, *faulty: str) -> None:
        """From now on `diagnoses` and `levels` begin after the state in which just these parts are faulty, be it a diagnosis or none.

        So a listing goes on after the end of another one. Each `see`, `unsee`, `hold` and `unhold` takes it back.

        >>> with Service("examples/c17.bench") as service, service.session() as session:
        ...     session.see({"1": 0, "3": 0, "22": 1, "16": 1})
        ...     session.after("10")
        ...     list(session.diagnoses())
        [Diagnosis(faulty=('22',))]
        """

        def note(_: Sequence[str]) -> None:
            self._start = tuple(self._named("after", faulty))

        self.service.do([Lines(self.name, self._line("after", *faulty), note=note)])

    def probe(self, wire: str) -> Probe:
        """The least cost if the wire is seen as 0 too, and if it is seen as 1 too.

        >>> with Service("examples/c17.bench") as service, service.session() as session:
        ...     session.see({"1": 0, "3": 0, "22": 1, "16": 1})
        ...     session.probe("10")
        Probe(wire='10', if_zero=1, if_one=1)
        """
        return self.probe_each([wire])[0]

    def probes(self, every: bool = False) -> list[Probe]:
        """The same of each wire that is not seen, in name order; of a board's device of those that a probe reaches, or of `every` one."""
        request = Listing(self.name, self._line("probes"), more="probe", last="end inconsistent")
        rows = map(_probe, self._told(request, "probe"))
        return display.Rows(row for row in rows if every or self.service.can_reach(row.wire))

    def blame(self) -> list[Blame]:
        """Of each part, in name order, whether it is faulty in all diagnoses, in some, or in none.

        >>> with Service("examples/c17.bench") as service, service.session() as session:
        ...     session.see({"1": 0, "3": 0, "22": 1, "16": 1})
        ...     [row.part for row in session.blame() if row.verdict is Verdict.SOMETIMES]
        ['10', '22']
        """
        request = Listing(self.name, self._line("blame"), more="blame", last="end inconsistent")
        return display.Rows(Blame(part, Verdict(verdict)) for part, verdict in self._told(request, "blame"))

    def graph(self) -> Graph:
        """The graph of all health states that agree with the case, not only those of the least cost.

        >>> with Service("examples/c17.bench", engine="graph") as service, service.session() as session:
        ...     session.graph().parts
        6
        """
        return self._graph("dnnf")

    def least_graph(self) -> Graph:
        """The graph of the diagnoses: it is true for these alone, and never if nothing explains the case. It is smooth: below all
        children of an or are the same parts. It is refused if the service was not given `least`.

        >>> with Service("examples/c17.bench", least=True) as service, service.session() as session:
        ...     session.see({"1": 0, "3": 0, "22": 1, "16": 1})
        ...     session.least_graph().parts
        6
        """
        return self._graph("leastnnf")

    def best_probe(self, among: Iterable[str] | None = None, limit: int = advice.AT_HAND) -> Proposal | None:
        """The unseen wire that splits the diagnoses at hand best, with the counts that say why; None if no wire splits them.

        It is the first of `rank_probes`, which see: advice, and not proved.

        >>> with Service("examples/c17.bench") as service, service.session() as session:
        ...     session.see({"1": 0, "2": 0, "3": 0, "6": 0, "7": 0, "22": 1, "23": 0})
        ...     print(session.best_probe())
        measure 10: of 2 diagnoses 1 goes on with 0 and 1 with 1, so that 1.0 are expected to be left
        """
        return next((row for row in self.rank_probes(among, limit) if row.reduction > 0), None)

    def rank_probes(self, among: Iterable[str] | None = None, limit: int = advice.AT_HAND) -> list[Proposal]:
        """The wires of `among`, else all that a probe reaches, that were not seen, the one first that splits the diagnoses at hand best.

        At hand are the first `limit` diagnoses. Of each wire it is counted how many of these are still diagnoses if the wire is
        seen as 0 too, and if it is seen as 1 too, as the program answers it. If these are z and o of n, which are equally likely, then
        (n (z + o) + (z - o)²) / 2n are expected to be left. That is asked in a session of its own, which is closed again: this one stays
        as it is, and there has to be room for one more (`Refused` 8 if there is none).
        """
        return display.Rows(advice.rank(self, among, limit))

    def clash(self) -> Case | None:
        """The fewest readings and tests of the case that no set of faulty parts explains, by the program's answers to parts of the case.

        None if something explains the case. In a large case there may be fewer, but none of these can be left out.

        >>> with Service("examples/c17.bench") as service, service.session() as session:
        ...     session.see({"1": 0, "2": 0, "3": 0, "6": 0, "7": 0, "22": 1, "23": 0})
        ...     session.hold({"10": "ok", "16": "ok", "22": "ok"})
        ...     print(session.clash())
        Case(seen={'1': 0, '2': 0, '22': 1}, held={'10': 'ok', '16': 'ok', '22': 'ok'})
        """
        return clash.clash_of([self]).get(self.pattern)

    def copy(self, name: str | None = None) -> Session:
        """Opens another session that has seen and holds the same, to ask what if.

        >>> with Service("examples/c17.bench") as service, service.session() as session:
        ...     session.see({"22": 1})
        ...     with session.copy() as other:
        ...         other.see({"10": 1, "16": 1})
        ...         print(session.minimum().cost, other.minimum().cost)
        0 1
        """
        return self.service.session_from(self.case, name)

    def script(self) -> str:
        """The case as lines of a script, without the one that opens the session. `load` and `Case.from_script` read them.

        >>> with Service("examples/c17.bench") as service, service.session("S") as session:
        ...     session.see({"1": 0, "22": 1})
        ...     session.hold({"10": "ok"})
        ...     print(session.script(), end="")
        see S 1=0
        see S 22=1
        hold S 10=ok
        """
        return self.case.script(self.name)

    def load(self, script: str | Iterable[str] | Case, of: str | None = None) -> None:
        """Adds a case, or that of a script, a text or its lines: of the session that it names last, or of the one that is named.

        What it says in the end is carried out as by `see` and `hold`; questions, comments and other sessions are passed over. Raises
        `BadScript` for a line that is none of a script.

        >>> with Service("examples/c17.bench") as service, service.session() as session:
        ...     session.load("open S\\nsee S 1=0\\nsee S 22=1\\nmin S\\n")
        ...     dict(session.seen)
        {'1': 0, '22': 1}
        """
        case = script if isinstance(script, Case) else Case.from_script(script, of)
        self.service.do([*self.seeing(case.seen), *self.holding(case.held)])

    def expected(self) -> dict[str, int]:
        """The bits that wires have if all parts are ok, given the inputs that were seen. Wires that these do not fix are left out.

        Inputs are those that a netlist declares, and what its flip-flops hold at the first time. In a design a wire counts as an input
        if it is the last port of no part. It is asked in a session of its own, as `best_probe` is.

        >>> with Service("examples/c17.bench") as service, service.session() as session:
        ...     session.see({"1": 0, "2": 0, "3": 0, "6": 0, "7": 0, "22": 1})
        ...     session.expected()
        {'1': 0, '10': 1, '11': 1, '16': 1, '19': 1, '2': 0, '22': 0, '23': 0, '3': 0, '6': 0, '7': 0}
        """
        inputs = self._inputs_seen()
        with self.service.session() as scratch:
            scratch.see(inputs)
            try:
                rows = scratch.probes(every=True)
            except Inconsistent:
                return {}
        bits = inputs | {row.wire: bit for row in rows if (bit := row.fault_free) is not None}
        return dict(sorted(bits.items()))

    def expect(self, wire: str) -> int | None:
        """The bit that a wire has if all parts are ok, given the inputs that were seen; None if they do not fix it. See `expected`.

        >>> with Service("examples/c17.bench") as service, service.session() as session:
        ...     session.see({"3": 0, "22": 0})
        ...     session.expect("11"), session.expect("22")
        (1, None)
        """
        with self.service.session() as scratch:
            scratch.see(self._inputs_seen())
            try:
                return scratch.probe(wire).fault_free
            except Inconsistent:
                return None

    def batch(self, lines: Iterable[str]) -> list[list[str]]:
        """The lines of the reply to each of these lines, which leave out the session's name. All are sent at once.

        A refusal is a reply too. What is seen and held is noted, as by `see` and `hold`.

        >>> with Service("examples/c17.bench") as service, service.session("S") as session:
        ...     session.batch(["see 22=1", "see 99=1", "list 5"])
        [['S ok'], ['S error 9 no wire'], ['S diag', 'S end']]
        """
        requests = [self.request(*line.split()) for line in check_list(lines, "lines")]
        self.service.carry_out(requests)
        return [request.lines for request in requests]

    def ask(self, command: str, *words: str) -> list[str]:
        """The lines of the reply to any command of this session, as they come. Raises `Refused` if it is refused.

        >>> with Service("examples/c17.bench") as service, service.session("S") as session:
        ...     session.ask("see", "22=1"), session.ask("list", "5")
        (['S ok'], ['S diag', 'S end'])
        """
        request = self.request(command, *words)
        self.service.do([request])
        return request.lines

    def request(self, command: str = "", *words: str) -> Lines | AnyLines:
        """A line that changes the case, or that asks, ready to be carried out by `Service.carry_out` or `Service.follow`.

        >>> with Service("examples/c17.bench") as service, service.session("S") as session:
        ...     request = session.request("min")
        ...     service.carry_out([request])
        ...     request.line, request.lines, request.refused
        ('min S', ['S min 0'], None)
        """
        if command in CHANGES:
            return self._change(command, *words)
        if command in ("open", "close") or command.startswith("#"):
            raise ValueError(f"not a command of a session that is open: {command!r}")
        return AnyLines([self._line(command, *words)], self.name)

    def requests(self, rows: Iterable[Sequence[str]]) -> list[Lines | AnyLines]:
        """The same for many commands with their words. Those that follow each other and change the case alike are one request."""
        made: list[Lines | AnyLines] = []
        for (command, count), alike in itertools.groupby(rows, lambda row: (row[0], len(row))):
            if command in CHANGES and count == 2:
                made += self._changed(command, [word for _, word in alike])
            else:
                made += [self.request(*words) for words in alike]
        return made

    def piece(self, rows: Iterable[Sequence[str]]) -> AnyLines:
        """The same as one request. The words have no blanks."""
        lines = [" ".join([command, self.name, *self._named(command, words)]) for command, *words in rows]
        return AnyLines(lines, self.name, self._note_line)

    def probe_each(self, wires: Iterable[str]) -> list[Probe]:
        """`probe` of each of these wires, all asked at once."""
        requests = [Listing(self.name, self._line("probe", wire), last="probe inconsistent") for wire in check_list(wires, "wires")]
        self.service.do(requests)
        return [_probe(row) for request in requests for row in self._rows(request, "probe")]

    def diagnoses_with(self, wire: str, limit: int) -> tuple[list[Diagnosis], list[Diagnosis]]:
        """The first diagnoses if a wire that is not seen is seen as 0 too, and if it is seen as 1 too: none if none explain that.

        The wire is not seen afterwards.
        """
        lists = [Listing(self.name, self._line("list", str(limit)), last="end inconsistent", more="diag", most=limit) for _ in range(2)]
        zero, one = (self._change("see", f"{wire}={bit}") for bit in (0, 1))
        self.service.do([zero, lists[0], one, lists[1], self._change("unsee", wire)])
        below, above = ([Diagnosis(tuple(names)) for names in request.told("diag")] for request in lists)
        return below, above

    def _line(self, command: str, *words: str) -> str:
        texts = [command, self.name, *self._named(command, [*map(str, words)])]
        line = " ".join(texts)
        if line.split() != texts:
            # Some that Python takes for a blank is none in a script.
            _check_words(texts)
        return line

    def _named(self, command: str, words: Sequence[str]) -> Sequence[str]:
        """The words of a command, other names of wires replaced."""
        others = self.service.other_names
        if not others or command not in NAMING:
            return words
        rows = [(word, *word.rpartition("=")) for word in words]
        return [others.get(word) or f"{others.get(name, name)}{equals}{value}" for word, name, equals, value in rows]

    def _told(self, request: Listing, word: str) -> list[list[str]]:
        """What follows the word, in each line of the reply that begins with it."""
        self.service.do([request])
        return self._rows(request, word)

    def _rows(self, request: Listing, word: str) -> list[list[str]]:
        if request.is_inconsistent:
            raise Inconsistent(self.pattern)
        return request.told(word)

    def _graph(self, command: str) -> Graph:
        request = GraphText(self.name, self._line(command), command)
        self.service.do([request])
        return Graph(request.text)

    def _listed(self, command: str, limit: int | None) -> Iterator[list[str]]:
        """What a command lists, page by page: of each line the words after the first."""
        self.service.catch_up()
        changes, point, page = self._changes, self._start, FIRST_PAGE
        left = limit
        while left is None or left > 0:
            size = page if left is None else min(page, left)
            told = self._page(command, point, size)
            for row in told:
                if self._changes != changes:
                    raise Changed(f"session {self.name}")
                yield row
            if self._changes != changes:
                raise Changed(f"session {self.name}")
            if len(told) < size:
                return
            point = self._faulty(command, told[-1])
            left = None if left is None else left - size
            page = min(2 * page, LARGEST_PAGE)

    def _page(self, command: str, point: tuple[str, ...] | None, size: int) -> list[list[str]]:
        """The next lines after a point, at most so many. It is placed for each page, since other listings move the program's own too."""
        word, _ = LISTINGS[command]
        page = Listing(self.name, self._line(command, str(size)), last="end inconsistent", more=word, most=size)
        self.service.do([*self.placing(point), page])
        return self._rows(page, word)

    @staticmethod
    def _faulty(command: str, row: list[str]) -> tuple[str, ...]:
        return tuple(row[LISTINGS[command][1]:])

    def placing(self, point: tuple[str, ...] | None) -> list[Request]:
        """Lines that put the program's point somewhere, or take it back, and change nothing else."""
        if point is not None:
            return [self._answered("after", *point)]
        for command, words in self.case.words():
            return [Lines(self.name, f"{command} {self.name} {words[0]}")]
        # Nothing is known, so nothing is lost. A session that is closed stays so.
        return [self._answered("close", reply="closed"), self._answered("open", reply="open")] if self._is_open else []

    def restoring(self, name: str) -> list[Lines]:
        """Lines that make the case of the session with this name what it is here. Nothing is noted of them."""
        return [Lines(name, f"{command} {name} ", words) for command, words in self.case.words()]

    def reopening(self) -> list[Request]:
        """Lines that give a program that is started anew what this session knows."""
        after = [] if self._start is None else [self._answered("after", *self._start)]
        return [self._answered("open", reply="open"), *self.restoring(self.name), *after]

    def _inputs_seen(self) -> dict[str, int]:
        return {wire: self._seen[wire] for wire in sorted(self._seen.keys() & self.service.inputs)}

    def _answered(self, command: str, *words: str, reply: str = "ok") -> Request:
        """A line whose reply is one word. Nothing is noted of it."""
        return Lines(self.name, self._line(command, *words), reply=reply)

    def _change(self, command: str, *words: str) -> Lines:
        """A line that changes the case."""
        return Lines(self.name, self._line(command, *words), note=lambda _: self._note(command, self._named(command, words[:1])))

    def _changed(self, command: str, words: Iterable[str]) -> list[Lines]:
        """Lines that change the case, one for each word, as one request. Raises ValueError if two of them are at odds."""
        words = list(words)
        if command in ("see", "hold") and (why := at_odds(words, self.service.other_names)):
            raise ValueError(why)
        texts = self._named(command, [*map(str, words)])
        if "" in texts or BLANK.search("".join(texts)):
            _check_words(texts)
        return [Lines(self.name, f"{command} {self.name} ", texts, note=functools.partial(self._note, command))] if texts else []

    def _note(self, command: str, words: Sequence[str]) -> None:
        """Lines of a command that changes the case were carried out, one for each word."""
        change(self._seen, self._held, command, words)
        self._changes += len(words)
        self._start = None

    def _note_line(self, line: str) -> None:
        """A line was carried out."""
        command, _, *words = line.split(" ")
        if command in CHANGES:
            self._note(command, words)

    def _closing(self) -> Lines:
        def note(_: Sequence[str]) -> None:
            self._is_open = False
            self.service.note_closed(self)
            self._seen.clear()
            self._held.clear()
            self._changes += 1
            self._start = None

        return Lines(self.name, self._line("close"), reply="closed", note=note)


def _words(values: Mapping[str, object]) -> list[str]:
    """The words that say what wires or parts have."""
    return [f"{name}={int(value) if isinstance(value, bool) else value}" for name, value in values.items()]


def check_list(given: Iterable[str], what: str) -> Iterable[str]:
    """Raises TypeError for a text, which would be taken letter by letter."""
    if isinstance(given, str):
        raise TypeError(f"{what} are given as a list, as [{given!r}]")
    return given


def _check_words(texts: Iterable[str]) -> None:
    """Names and values are words of a line. Whether one is known is the program's to say."""
    for text in texts:
        if not text or BLANK.search(text):
            raise ValueError(f"not a word of a script, which is not empty and has no blanks: {text!r}")


def _cost(text: str) -> int | None:
    return None if text == "-" else int(text)


def _probe(row: Sequence[str]) -> Probe:
    wire, zero, one = row
    return Probe(wire, _cost(zero), _cost(one))
