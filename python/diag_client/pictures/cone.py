"""Which parts of a device lie between its suspects and its wrong readings, and what its wires should be if nothing compiles it."""

from __future__ import annotations

import collections
import dataclasses
from collections.abc import Callable, Iterable, Mapping

from ..devices import FLIP_FLOP, GATES, Device, Part, Reduction


class Wiring:
    """Which parts drive a wire, and which read it. The ports of a type have no direction, so such a part may do both."""

    def __init__(self, device: Device) -> None:
        self.parts = {part.name: part for part in device.parts}
        self.drivers: dict[str, list[Part]] = collections.defaultdict(list)
        self.ends: dict[str, list[Part]] = collections.defaultdict(list)
        for part in device.parts:
            if part.is_directed:
                self.drivers[part.wires[-1]].append(part)
            for wire in dict.fromkeys(part.wires):
                self.ends[wire].append(part)

    def before(self, wire: str) -> list[str]:
        """The parts that a wire may get its bit from."""
        return [end.name for end in self.ends[wire] if not end.is_directed or end.wires[-1] == wire]

    def after(self, wire: str) -> list[str]:
        """The parts that may get a bit from a wire."""
        return [end.name for end in self.ends[wire] if not end.is_directed or wire in end.wires[:-1]]

    def sources(self, name: str) -> list[str]:
        """The parts that a part may get bits from."""
        part = self.parts[name]
        return [near for wire in (part.wires[:-1] if part.is_directed else part.wires) for near in self.before(wire)]

    def readers(self, name: str) -> list[str]:
        """The parts that may get bits from a part."""
        part = self.parts[name]
        return [near for wire in (part.wires[-1:] if part.is_directed else part.wires) for near in self.after(wire)]

    def cone(self, suspects: Iterable[str] | None, wrong: Iterable[str]) -> list[str]:
        """The suspects, and the parts through which they reach the wrong wires: those first that lie on the shortest ways.

        If the suspects are not known (None), every part that reaches a wrong wire is one.
        """
        back = _distances([name for wire in wrong for name in self.before(wire)], self.sources)
        begun = [name for name in (back if suspects is None else suspects) if name in self.parts]
        ahead = _distances(begun, self.readers)
        between = [name for name in ahead if name in back]
        return list(dict.fromkeys(begun + sorted(between, key=lambda name: (ahead[name] + back[name], name))))

    def nearest(self, begun: Iterable[str]) -> list[str]:
        """These parts, and then all others that are wired to their inputs and outputs, the nearest first.

        A common input makes no parts near, since it would make all near that read it.
        """
        return list(_distances(begun, lambda name: sorted({*self.sources(name), *self.readers(name)})))


def _distances(begun: Iterable[str], near: Callable[[str], Iterable[str]]) -> dict[str, int]:
    """How many steps each part is away, for those that steps lead to, the nearest first."""
    found = dict.fromkeys(begun, 0)
    queue = collections.deque(found)
    while queue:
        name = queue.popleft()
        for other in near(name):
            if other not in found:
                found[other] = found[name] + 1
                queue.append(other)
    return found


@dataclasses.dataclass(frozen=True)
class Derived:
    """The bit that a wire has if all parts are ok, and the parts from which that follows. If it is read as the other, one is faulty."""

    bit: int
    by: frozenset[str]


def derive(device: Device, seen: Mapping[str, int], frames: int | None = None) -> dict[str, Derived]:
    """The bits that follow from the inputs that were seen, by the names of their readings. Flip-flops are inputs at the first time.

    This is for pictures of what the program refuses. It goes gate by gate, and so finds nothing of a wire whose bit follows only from two
    cases, and nothing of parts whose ports have no direction.

    >>> from diag_client.devices import read_netlist
    >>> derive(read_netlist("INPUT(a)\\nINPUT(b)\\nx = NAND(a, b)\\ny = NOT(x)\\n"), {"a": 0})["y"].bit
    0
    """
    found: dict[str, Derived] = {}
    directed = [part for part in device.parts if part.is_directed]
    for time in range(1, (frames or 1) + 1):
        at, before = ("", "") if frames is None else (f"@{time:04}", f"@{time - 1:04}")
        for wire in device.inputs | ({part.name for part in directed if part.kind == FLIP_FLOP} if time == 1 else set()):
            if wire + at in seen:
                found[wire + at] = Derived(seen[wire + at], frozenset())
        is_new = True
        while is_new:
            is_new = False
            for part in directed:
                put_out = part.wires[-1] + at
                if put_out not in found and (derived := _output(part, at, before, found)) is not None:
                    found[put_out] = derived
                    is_new = True
    return found


def _output(part: Part, at: str, before: str, found: Mapping[str, Derived]) -> Derived | None:
    """What a part puts out if it is ok and that follows from what its inputs are known to be."""
    if part.kind == FLIP_FLOP:
        held = found.get(part.wires[0] + before) if before else None
        return None if held is None else Derived(held.bit, held.by | {part.name})
    gate = GATES[part.kind]
    known = [found.get(wire + at) for wire in part.wires[:-1]]
    if gate.reduction is not Reduction.ODD_ONES:
        deciding = int(gate.reduction is Reduction.ANY_ONE)
        one = min((row for row in known if row is not None and row.bit == deciding), key=lambda row: len(row.by), default=None)
        if one is not None:
            return Derived(int(bool(deciding) == gate.positive), one.by | {part.name})
    rows = [row for row in known if row is not None]
    if len(rows) < len(known):
        return None
    return Derived(gate.output([row.bit for row in rows]), frozenset({part.name}).union(*(row.by for row in rows)))
