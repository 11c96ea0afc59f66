"""One board, many patterns: the least sets of faulty parts that explain several sessions together."""

from __future__ import annotations

import dataclasses
from collections.abc import Callable, Iterable, Iterator
from typing import TYPE_CHECKING

from ..advice import AT_HAND, Proposal
from ..case import Case
from ..clash import clash_of
from ..errors import Changed
from ..replies import Blame, Diagnosis, Minimum, Verdict
from .holding import Copies, JointProgress
from .joint_search import Search

if TYPE_CHECKING:
    from ..session import Session

# So many sets are looked for before `blame` asks part by part.
WITNESSES = 256
PAGE = 64


@dataclasses.dataclass(frozen=True)
class JointProposal(Proposal):
    """A wire that may be measured while a pattern is applied."""

    pattern: str

    def __str__(self) -> str:
        return f"pattern {self.pattern}: {super().__str__()}"


class Joint:
    """What explains several sessions of one service together: the same parts are faulty in all of them. `Service.together` makes one.

    Each session is one pattern, with what it has seen and holds when it is asked. All sessions stay as they are, after an interrupt
    too: what is asked is asked in copies, one for each session, which are closed again. So there has to be room for as many more
    (`Refused` 8 if there is none). All calls raise `Inconsistent` if nothing explains all sessions, and TimeoutError if the answer takes
    longer than `timeout` seconds, which is looked at between questions. The sets of parts are found by the client, which is not proved,
    from answers of the program.

    >>> from diag_client import Service
    >>> with Service("examples/c17.bench") as service, service.session("one") as one, service.session("two") as two:
    ...     one.see({"1": 0, "2": 0, "3": 0, "6": 0, "7": 0, "22": 1, "23": 0})
    ...     two.see({"1": 1, "2": 0, "3": 1, "6": 0, "7": 0, "22": 0, "23": 0})
    ...     joint = service.together([one, two])
    ...     print(joint.minimum(), *joint.diagnoses(), sep="; ")
    Minimum(cost=1, faulty=('10',)); 10; 22
    """

    def __init__(
        self, sessions: Iterable[Session], progress: Callable[[JointProgress], None] | None = None, timeout: float | None = None
    ) -> None:
        self.sessions = tuple(sessions)
        if not self.sessions:
            raise ValueError("no session: give at least one")
        self.service = self.sessions[0].service
        if any(session.service is not self.service for session in self.sessions):
            raise ValueError("the sessions are not all of one service")
        if len(set(self.sessions)) < len(self.sessions):
            raise ValueError("a session is given twice")
        most = self.service.most_sessions
        if most is not None and len(self.sessions) > most // 2:
            raise ValueError(f"{len(self.sessions)} patterns, and at most {most // 2} can be searched together, since each is copied")
        self._progress = progress
        self._timeout = timeout
        self._case: tuple[object, ...] = ()
        self._copies: Copies
        self._search: Search
        self._rest: Iterator[int]
        self._found: list[int]
        self._is_all: bool
        self._begin()

    @property
    def progress(self) -> JointProgress:
        """How far the search is."""
        return JointProgress(self._copies.cost, self._copies.sets, self._copies.questions)

    def minimum(self) -> Minimum:
        """The least cost of a set of faulty parts that explains all sessions, and the first such set."""
        self._look_for(1)
        return Minimum(self._copies.cost, self._names(self._found[0]))

    def clash(self) -> dict[str, Case]:
        """The fewest readings and tests that nothing explains, of one pattern or of several; as `Session.clash`."""
        return clash_of(self.sessions, self._timeout)

    def diagnoses(self, limit: int | None = None) -> Iterator[Diagnosis]:
        """The sets of that cost, in name order, at most `limit` of them. They are looked for as they are taken.

        What is taken after a session was changed raises `Changed`.
        """
        self._look_for(1)
        place, case = 0, self._case
        while limit is None or place < limit:
            if self._cases() != case or self._case != case:
                raise Changed("a session")
            if place == len(self._found):
                self._look_for(place + PAGE if limit is None else min(limit, place + PAGE))
                if place == len(self._found):
                    return
            yield Diagnosis(self._names(self._found[place]))
            place += 1

    def blame(self) -> list[Blame]:
        """Of each part, in name order, whether it is faulty in all of these sets, in some, or in none."""
        self._look_for(WITNESSES)
        parts = self._copies.parts
        some, always = 0, parts.all
        for found in self._found:
            some |= found
            always &= found
        if not self._is_all:
            some, always = self._asked(some, always)
        verdicts = {0: Verdict.NEVER, 1: Verdict.SOMETIMES, 2: Verdict.ALWAYS}
        return [Blame(name, verdicts[bool(some & bit) + bool(always & bit)]) for name, bit in parts.bits.items()]

    def best_probe(self, limit: int = AT_HAND) -> JointProposal | None:
        """The session and the wire, not seen there, that split the first `limit` sets best; None if no wire splits them.

        A set goes on if it still explains all sessions once the wire was seen so. It is advice, and not proved.
        """
        return next((row for row in self.rank_probes(limit) if row.reduction > 0), None)

    def rank_probes(self, limit: int = AT_HAND, among: Iterable[str] | None = None) -> list[JointProposal]:
        """All sessions and their wires of `among`, else all that a probe reaches, that were not seen, the best first, as
        `Session.rank_probes` ranks them."""
        if limit < 1:
            raise ValueError(f"the number of diagnoses at hand is at least 1, and not {limit}")
        # One more shows whether these are all.
        self._look_for(limit + 1)
        at_hand = self._found[:limit]
        counts: list[dict[str, list[int]]] = [{} for _ in self.sessions]
        with self._copies:
            for found in at_hand:
                for count, wires in zip(counts, self._copies.bits_left(found), strict=True):
                    for wire, bits in wires.items():
                        row = count.setdefault(wire, [0, 0])
                        row[0] += bits[0]
                        row[1] += bits[1]
        complete, pins = len(self._found) <= limit, self.service.pins
        is_asked = self.service.can_reach if among is None else {self.service.other_names.get(wire, wire) for wire in among}.__contains__
        rows = [
            JointProposal(wire, len(at_hand), zero, one, complete, session.pattern, pins=pins.get(wire, ()))
            for session, count in zip(self.sessions, counts, strict=True) for wire, (zero, one) in count.items() if is_asked(wire)
        ]
        # Of rows that are alike the first session and wire come first, since sorting keeps their order.
        return sorted(rows, key=lambda row: (-row.reduction, max(row.with_zero, row.with_one)))

    def _begin(self) -> None:
        self._case = self._cases()
        self._copies = Copies(self.sessions, self._progress, self._timeout)
        self._search = Search(self._copies, self.service.file.suffix == ".bench")
        self._rest = self._search.found()
        self._found = []
        self._is_all = False

    def _cases(self) -> tuple[object, ...]:
        self.service.catch_up()
        return tuple((session.changes, session.is_open) for session in self.sessions)

    def _look_for(self, count: int) -> None:
        """Looks until so many sets are found, or all."""
        if self._case != self._cases():
            self._begin()
        if self._is_all or len(self._found) >= count:
            return
        try:
            with self._copies:
                while not self._is_all and len(self._found) < count:
                    found = next(self._rest, None)
                    self._is_all = found is None
                    self._found += [] if found is None else [found]
        except BaseException:
            # What was under way is lost, so the next call begins anew.
            self._begin()
            raise

    def _asked(self, some: int, always: int) -> tuple[int, int]:
        """Of parts that are in none of the sets found, or in all, whether another set has them or has them not."""
        with self._copies:
            for bit in self._copies.parts.bits.values():
                if not some & bit and self._search.has(bit, 0):
                    some |= bit
                if always & bit and self._search.has(0, bit):
                    always &= ~bit
        return some, always

    def _names(self, found: int) -> tuple[str, ...]:
        return self._copies.parts.names_of(found)
