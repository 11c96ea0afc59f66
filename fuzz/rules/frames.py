"""Netlists with flip-flops over several times: their wires, their refusals, their clauses, and what fits, time by time."""

import itertools

from . import truths
from .clauses import CLAUSES_LIMIT, clauses_of, rows, tidied
from .devices import Device, Part, PARTS_LIMIT, WIRES_LIMIT, allowed_rows
from .netlists import FLIP_FLOP
from .sessions import System
from .texts import Refused


def wire_at(wire, time):
    return wire + b"@%04d" % time


def is_flip_flop(part):
    return part.kind == FLIP_FLOP


def copy_at(part, time):
    """The name has the time first, so that the order of the copies' names is by time and then by part."""
    *inputs, output = part.wires
    before = time - 1 if is_flip_flop(part) else time
    return Part(b"%04d@" % time + part.name, "BUFF" if is_flip_flop(part) else part.kind,
                [*(wire_at(wire, before) for wire in inputs), wire_at(output, time)])


def clause_count(part):
    copy = copy_at(part, 2)
    return len(clauses_of(Device([copy], set(copy.wires)))[0])


def steps_of(device, frames):
    """How many steps it takes to ask of each wire at each time, for all health states and all bits of the flip-flops."""
    choices = len(device.parts) + sum(map(is_flip_flop, device.parts))
    return (frames * frames * len(device.wires) << choices) + (1 << len(device.wires))


class TimedNetlist:
    """A netlist whose flip-flops are parts, over times from 1 to `frames`; or the first of its refusals."""

    def __init__(self, device, frames):
        self.device, self.frames = device, frames
        self.refuse()
        self.wires = sorted(wire_at(wire, time) for wire in device.wires for time in range(1, frames + 1))

    def times_of(self, part):
        """At the first time a flip-flop may put out anything, and has no copy."""
        return range(2 if is_flip_flop(part) else 1, self.frames + 1)

    def refuse(self):
        many = [(part, len(self.times_of(part))) for part in self.device.parts]
        for what, count, most in (("parts", sum(times for _, times in many), PARTS_LIMIT),
                                  ("wires", self.frames * len(self.device.wires), WIRES_LIMIT),
                                  ("clauses", sum(clause_count(part) * times for part, times in many), CLAUSES_LIMIT)):
            if count > most:
                raise Refused(f"error: {what} {count} above {most}")

    def copies(self):
        """The device of all copies."""
        return Device([copy_at(part, time) for part in self.device.parts for time in self.times_of(part)], self.wires)

    def vars(self):
        """How many variables the clauses are over."""
        copies = self.copies()
        return clauses_of(copies)[1] - len(copies.parts) + len(self.device.parts)

    def clauses(self):
        """Those of the device of all copies, in which the health of a copy is that of its part."""
        parts, copies = self.device.part_names(), self.copies()
        owners = [parts.index(name.split(b"@", 1)[1]) + 1 for name in copies.part_names()]

        def shared(literal):
            variable = abs(literal)
            variable = owners[variable - 1] if variable <= len(owners) else variable - len(owners) + len(parts)
            return variable if literal > 0 else -variable
        return tidied([[shared(literal) for literal in clause] for clause in clauses_of(copies)[0]])


class TimedSystem(System):
    """What sessions are asked over. Of each health state the bits that all wires can have together are found time by time: what one
    time leaves to the next is the bits of the wires that flip-flops read."""

    def __init__(self, netlist):
        device = netlist.device
        parts = device.part_names()
        super().__init__(parts, netlist.wires, [1] * len(parts), None, len(parts) + len(netlist.wires))
        self.device, self.frames, self.bits = device, netlist.frames, len(device.wires)
        self.ports = [[device.places[wire] + 1 for wire in part.wires] for part in device.parts]
        # what a flip-flop allows hangs on two times, and is not asked within one
        self.rows = [truths.all_rows(self.bits) if is_flip_flop(part) else allowed_rows(part.kind, True, ports, self.bits)
                     for part, ports in zip(device.parts, self.ports)]

    def allowed(self, held, seen):
        shown = self.shown(seen)
        table = 0
        for number, row in enumerate(rows(len(self.parts))):
            if all(row[part - 1] == is_ok for part, is_ok in held.items()) and self.fits(row, shown):
                table |= 1 << number
        return table

    def shown(self, seen):
        """Of each time the bits of all wires that are as was seen."""
        literals = [[] for _ in range(self.frames)]
        for variable, bit in seen.items():
            wire, time = self.wires[variable - len(self.parts) - 1].rsplit(b"@", 1)
            place = self.device.places[wire] + 1
            literals[int(time) - 1].append(place if bit else -place)
        return [truths.conjunction(of_time, self.bits) for of_time in literals]

    def fits(self, state, shown):
        """Whether some bits of all wires at all times are as they were shown and fit a health state."""
        ok = [place for place, is_ok in enumerate(state) if is_ok]
        gates = truths.all_rows(self.bits)
        for place in ok:
            gates &= self.rows[place]
        flip_flops = [self.ports[place] for place in ok if is_flip_flop(self.device.parts[place])]
        reached = gates & shown[0]
        for now in shown[1:]:
            reached = gates & now & self.passed(reached, flip_flops)
        return reached != 0

    def passed(self, before, flip_flops):
        """The bits of all wires in which each of these flip-flops puts out what its input was in some bits of the time before."""
        after = 0
        for row in itertools.product((1, -1), repeat=len(flip_flops)):
            if before & truths.conjunction([sign * it for sign, (it, _) in zip(row, flip_flops)], self.bits):
                after |= truths.conjunction([sign * it for sign, (_, it) in zip(row, flip_flops)], self.bits)
        return after
