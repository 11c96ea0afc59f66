"""The next measurement: which wire splits the diagnoses at hand best. It is advice, and not proved."""

from __future__ import annotations

import dataclasses
import fractions
from collections.abc import Iterable, Sequence
from typing import TYPE_CHECKING

from .devices import pin_in_words

if TYPE_CHECKING:
    from .replies import Diagnosis
    from .session import Session

# So many diagnoses are at hand if nothing else is said.
AT_HAND = 100
# So many of the pins at a wire are named.
MOST_PINS = 3
# So many wires at least are counted by diagnoses. To hold all parts takes longer than to ask a few wires.
MANY = 50


@dataclasses.dataclass(frozen=True)
class Proposal:
    """A wire that may be measured, and why: of the diagnoses at hand so many go on if it is 0, and so many if it is 1.

    One goes on if it is still a diagnosis once the wire was seen so. It may go on with both bits, if the wire may be either. With
    `complete` the diagnoses at hand are all that there are, and else the first of them.
    """

    wire: str
    at_hand: int
    with_zero: int
    with_one: int
    complete: bool
    # Where a probe reaches the wire on a board, such as `U3.6`.
    pins: tuple[str, ...] = dataclasses.field(default=(), kw_only=True)

    @property
    def expected_left(self) -> fractions.Fraction:
        """How many go on, on average: each diagnosis at hand is taken to be as likely, and of one that goes on with both each bit."""
        total = self.at_hand * (self.with_zero + self.with_one) + (self.with_zero - self.with_one) ** 2
        return fractions.Fraction(total, 2 * self.at_hand)

    @property
    def reduction(self) -> fractions.Fraction:
        """How many fewer these are than now."""
        return self.at_hand - self.expected_left

    def __str__(self) -> str:
        goes = "goes" if self.with_zero == 1 else "go"
        of = f"of {self.at_hand} diagnoses" if self.complete else f"of the first {self.at_hand} diagnoses"
        counts = f"{of} {self.with_zero} {goes} on with 0 and {self.with_one} with 1"
        at = " or ".join(map(pin_in_words, self.pins[:MOST_PINS]))
        wire = f"{at} ({self.wire})" if at else self.wire
        return f"measure {wire}: {counts}, so that {float(self.expected_left):.1f} are expected to be left"


def rank(session: Session, among: Iterable[str] | None, limit: int) -> list[Proposal]:
    """The unseen wires of `among`, else all within reach, with what they split: see `Session.rank_probes`."""
    if limit < 1:
        raise ValueError(f"the number of diagnoses at hand is at least 1, and not {limit}")
    if isinstance(among, str):
        raise TypeError(f"among is a list of names, such as [{among!r}]")
    with session.copy() as scratch:
        # If nothing explains the case, that is said of the session that was asked.
        scratch.pattern = session.pattern
        # One more shows whether these are all.
        found = list(scratch.diagnoses(limit + 1))
        at_hand = found[:limit]
        cost = scratch.minimum().cost
        unseen = None if among is None else sorted({session.service.other_names.get(wire, wire) for wire in among} - session.seen.keys())
        rows = scratch.probes() if unseen is None else scratch.probe_each(unseen)
        # If the least cost rises with a bit, no diagnosis goes on with it, and so all do with the other one.
        counts = {row.wire: [len(at_hand) if bit == cost else 0 for bit in (row.if_zero, row.if_one)] for row in rows}
        either = [wire for wire, (zero, one) in counts.items() if zero and one]
        # Two lists for each wire, or one for each diagnosis.
        count = by_diagnosis if len(either) >= max(MANY, len(at_hand) // 2) else by_wire
        counts |= count(scratch, at_hand, either)
    pins, complete = session.service.pins, len(found) <= limit
    proposals = [Proposal(wire, len(at_hand), zero, one, complete, pins=pins.get(wire, ())) for wire, (zero, one) in counts.items()]
    return sorted(proposals, key=lambda row: (-row.reduction, max(row.with_zero, row.with_one), row.wire))


def by_wire(scratch: Session, at_hand: Sequence[Diagnosis], wires: Sequence[str]) -> dict[str, list[int]]:
    """How many of the diagnoses go on with 0 and with 1, of each wire: those that are listed once it is seen so."""
    known = frozenset(at_hand)
    return {wire: [len(known.intersection(listed)) for listed in scratch.diagnoses_with(wire, len(at_hand))] for wire in wires}


def by_diagnosis(scratch: Session, at_hand: Sequence[Diagnosis], wires: Sequence[str]) -> dict[str, list[int]]:
    """The same, by the bits that the wires may have if just the parts of a diagnosis are bad."""
    counts = {wire: [0, 0] for wire in wires}
    scratch.hold({row.part: "ok" for row in scratch.blame()})
    for diagnosis in at_hand:
        scratch.hold(dict.fromkeys(diagnosis, "bad"))
        for row in scratch.probes(every=True):
            if row.wire in counts:
                counts[row.wire][0] += row.if_zero is not None
                counts[row.wire][1] += row.if_one is not None
        scratch.hold(dict.fromkeys(diagnosis, "ok"))
    return counts
