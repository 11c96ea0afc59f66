"""What is drawn over a device: a case, and what the program says of it."""

from __future__ import annotations

import collections
import contextlib
import dataclasses
from collections.abc import Mapping

from ..case import Case
from ..errors import Inconsistent, Refused
from ..replies import Verdict
from ..session import Session


@dataclasses.dataclass(frozen=True)
class Findings:
    """What is drawn over a device: what was seen and held, what is expected, and what the diagnoses say of the parts.

    The cost is None if nothing explains the case, or if nothing was asked: `refusal` says why then. With `frames` the names that were
    seen and are expected are those of wires at times, such as `w@0001`.
    """

    case: Case
    verdicts: Mapping[str, Verdict]
    cost: int | None
    frames: int | None = None
    expected: Mapping[str, int] = dataclasses.field(default_factory=dict)
    following: str | None = None
    refusal: str = ""

    @classmethod
    def of(cls, session: Session) -> Findings:
        """The case of a session, its blame, what is expected, and the next measurement.

        The last two are asked in another session. If no more may be open, they are left out.
        """
        case, frames, best = session.case, session.service.frames, None
        expected: dict[str, int] = {}
        with contextlib.suppress(Refused):
            expected = session.expected()
        try:
            cost = session.minimum().cost
            verdicts = {row.part: row.verdict for row in session.blame()}
            with contextlib.suppress(Refused):
                best = session.best_probe() if cost > 0 else None
        except Inconsistent:
            return cls(case, {}, None, frames, expected)
        return cls(case, verdicts, cost, frames, expected, best.wire if best else None)

    def wire_of(self, name: str) -> tuple[str, str]:
        """The wire that a name speaks of, and at which time; no time if there is only one."""
        if self.frames is None:
            return name, ""
        wire, _, time = name.rpartition("@")
        return wire, time.lstrip("0")

    def suspects(self) -> list[str]:
        """The parts that are faulty in some diagnosis, those first that are so in all."""
        return [part for wanted in (Verdict.ALWAYS, Verdict.SOMETIMES) for part, verdict in self.verdicts.items() if verdict is wanted]

    def wrong(self) -> list[str]:
        """The readings that are not as expected."""
        return [name for name, bit in self.case.seen.items() if self.expected.get(name, bit) != bit]

    def by_wire(self, bits: Mapping[str, int]) -> dict[str, dict[str, int]]:
        """Bits of names, by the wire and the time."""
        found: dict[str, dict[str, int]] = collections.defaultdict(dict)
        for name, bit in sorted(bits.items()):
            wire, time = self.wire_of(name)
            found[wire][time] = bit
        return found

    def summary(self) -> str:
        """What the diagnoses say, in a few words."""
        if self.refusal:
            return f"no diagnoses, since the program refuses the device: {self.refusal}"
        if self.cost is None:
            return "no set of faulty parts explains what was seen and held"
        return "nothing is wrong as far as was seen" if self.cost == 0 else f"least cost of faulty parts: {self.cost}"
