"""The chips of a board as they are seen from above: which pins are on which side, at which wires, and which parts are in each."""

from __future__ import annotations

import dataclasses
import os
import pathlib
from collections.abc import Iterable, Mapping

from ..convert.chips import find_chip
from ..devices import Device, table_rows
from ..replies import Verdict


@dataclasses.dataclass(frozen=True)
class Leg:
    """A pin of a package: its number, its name, what it does, and its wire, which is empty if a probe there tells nothing."""

    number: str
    name: str
    direction: str
    wire: str


@dataclasses.dataclass(frozen=True)
class Package:
    """A chip of a board: what is printed on it, what it is, and its pins. Its notch is at the top, and both sides are from the top down."""

    reference: str
    printed: str
    title: str
    left: tuple[Leg, ...]
    right: tuple[Leg, ...]
    # The chip itself, if it is a part, or else its gates.
    parts: tuple[str, ...]

    def verdict(self, verdicts: Mapping[str, Verdict]) -> Verdict:
        """Whether something in the chip is faulty in all diagnoses, given the verdict of each part of the device.

        If all suspects are in one chip, each diagnosis has one of them, though perhaps none is in all diagnoses.
        """
        suspects = {part for part, verdict in verdicts.items() if verdict is not Verdict.NEVER}
        own = suspects.intersection(self.parts)
        if own and (own == suspects or Verdict.ALWAYS in map(verdicts.get, own)):
            return Verdict.ALWAYS
        return Verdict.SOMETIMES if own else Verdict.NEVER


def packages_of(path: str | os.PathLike[str], device: Device) -> list[Package]:
    """The chips of a device that `diag-netlist` made of a board, U2 before U10; of another device those in a table beside it.

    In a table that a person writes, x.bench.chips of x.bench, a row has a wire, a pin such as U3.6, and perhaps what is printed on the
    chip. The first row of a wire has the pin that drives it.
    """
    path = pathlib.Path(path)
    if by_hand := _by_hand(path.with_name(f"{path.name}.chips"), device):
        return by_hand
    printed: dict[str, str] = {}
    wires: dict[str, dict[str, str]] = {}
    for row in table_rows(path, path.with_name(f"{path.name}.pins")):
        words = row.split("\t")
        if len(words) == 5 and words[4]:
            reference, _, number = words[1].rpartition(".")
            printed[reference] = words[4]
            wires.setdefault(reference, {})[number] = words[0]
    return [package(name, printed[name], wires[name], device) for name in sorted(printed, key=lambda name: (len(name), name))]


def _by_hand(table: pathlib.Path, device: Device) -> list[Package]:
    try:
        rows = [line.split("#")[0].split() for line in table.read_text(encoding="utf-8", errors="surrogateescape").splitlines()]
    except OSError:
        return []
    names = {part.name for part in device.parts}
    driven: dict[str, str] = {}
    printed: dict[str, str] = {}
    wires: dict[str, dict[str, str]] = {}
    for number, row in enumerate(rows, 1):
        reference, _, pin = row[1].rpartition(".") if len(row) > 1 else ("", "", "")
        if row and not (reference and pin.isdecimal() and row[0] in device.wires):
            raise ValueError(f"{table}: line {number}: not a wire, and a pin such as U3.6")
        if row:
            driven.setdefault(row[0], reference)
            wires.setdefault(reference, {})[pin] = row[0]
            printed[reference] = row[2] if len(row) > 2 else printed.get(reference, "")
    return [
        dataclasses.replace(
            package(name, printed[name], wires[name], device),
            parts=tuple(wire for wire, chip in driven.items() if chip == name and wire in names),
        )
        for name in sorted(wires, key=lambda name: (len(name), name))
    ]


def package(reference: str, printed: str, wires: Mapping[str, str], device: Device) -> Package:
    """One chip with all its pins."""
    chip = find_chip(printed)
    if chip:
        legs = [Leg(pin.number, pin.name, pin.direction.value, wires.get(pin.number, "")) for pin in chip.pins.values()]
    else:
        # Of a chip that is not known only the pins are drawn that are named, and what lies between them.
        count = max([14, *map(int, filter(str.isdecimal, wires))])
        legs = [Leg(str(number), "", "", wires.get(str(number), "")) for number in range(1, count + count % 2 + 1)]
    names = [part.name for part in device.parts]
    parts = (reference,) if reference in names else tuple(name for name in names if name.startswith(f"{reference}."))
    return Package(reference, printed, chip.title if chip else "", *sides(legs), parts)


def sides(legs: Iterable[Leg]) -> tuple[tuple[Leg, ...], tuple[Leg, ...]]:
    """The pins on the left and on the right: they are numbered down the left and up the right."""
    ordered = sorted(legs, key=lambda leg: int(leg.number))
    half = len(ordered) // 2
    return tuple(ordered[:half]), tuple(reversed(ordered[half:]))
