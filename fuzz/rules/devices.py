"""Devices: parts, wires, and which rows of bits the parts allow."""

import itertools
from dataclasses import dataclass

from diag_client.devices import GATES, Reduction

from . import truths

PARTS_LIMIT = 4096
WIRES_LIMIT = 16384


@dataclass
class Type:
    """A type of parts. A row is a tuple of bits, one for each port."""
    name: bytes
    ports: int
    ok: set
    bad: set
    cost: int = 1


@dataclass
class Part:
    name: bytes
    kind: object  # a word of GATES, or a Type
    wires: list  # of a gate its inputs and then its output


def takes(gate, inputs):
    return 1 <= inputs <= GATES[gate].most_inputs


def allows(kind, is_ok, row):
    if isinstance(kind, Type):
        return row in (kind.ok if is_ok else kind.bad)
    return not is_ok or row[-1] == GATES[kind].output(row[:-1])


def allowed_rows(kind, is_ok, ports, vars):
    """The truth of: a part of this kind at these variables, that is ok or faulty, allows the row of their bits."""
    table = 0
    for row in itertools.product((0, 1), repeat=len(ports)):
        if allows(kind, is_ok, row):
            table |= truths.conjunction([port if bit else -port for port, bit in zip(ports, row)], vars)
    return table


class Device:
    """Parts and wires in the order of their names, compared byte by byte."""

    def __init__(self, parts, wires):
        self.parts = sorted(parts, key=lambda part: part.name)
        self.wires = sorted(wires)
        self.places = {wire: place for place, wire in enumerate(self.wires)}

    def part_names(self):
        return [part.name for part in self.parts]

    def costs(self):
        return [part.kind.cost if isinstance(part.kind, Type) else 1 for part in self.parts]

    def wire_variable(self, wire):
        """Variables are counted from 1: first the parts, each true if it is ok, then the wires."""
        return len(self.parts) + self.places[wire] + 1

    def fits(self):
        """The truth of: every part allows the row at its wires, as its health is."""
        vars = len(self.parts) + len(self.wires)
        fitting = truths.all_rows(vars)
        for health, part in enumerate(self.parts, 1):
            ports = [self.wire_variable(wire) for wire in part.wires]
            ok, faulty = (allowed_rows(part.kind, is_ok, ports, vars) for is_ok in (True, False))
            fitting &= truths.literal(health, vars) & ok | truths.literal(-health, vars) & faulty
        return fitting
