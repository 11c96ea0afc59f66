"""Netlists and designs as plain data, to draw and to simulate them.

The program has read a file before it is read here, so nothing is looked for that it refuses: docs/NETLIST.md has both languages.
"""

from __future__ import annotations

import dataclasses
import enum
import os
import pathlib
import re
from collections.abc import Iterable

from .errors import DiagError


class Reduction(enum.Enum):
    """What is asked of the inputs of a gate."""

    ALL_ONES = "whether all are 1"
    ANY_ONE = "whether one or more are 1"
    ODD_ONES = "whether an odd number of them is 1"

    def of(self, bits: Iterable[int]) -> bool:
        """The answer for these bits."""
        if self is Reduction.ODD_ONES:
            return sum(bits) % 2 == 1
        return all(bits) if self is Reduction.ALL_ONES else any(bits)


@dataclasses.dataclass(frozen=True)
class Gate:
    """What a gate puts out: what is asked of its inputs, or the opposite; and the most inputs that it takes."""

    reduction: Reduction
    positive: bool
    most_inputs: int = 64

    def output(self, bits: Iterable[int]) -> int:
        """What it puts out if it is ok.

        >>> GATES["NAND"].output([1, 0]), GATES["NAND"].output([1, 1])
        (1, 0)
        """
        return int(self.reduction.of(bits) == self.positive)


GATES = {
    "AND": Gate(Reduction.ALL_ONES, True),
    "OR": Gate(Reduction.ANY_ONE, True),
    "NAND": Gate(Reduction.ALL_ONES, False),
    "NOR": Gate(Reduction.ANY_ONE, False),
    "XOR": Gate(Reduction.ODD_ONES, True),
    "XNOR": Gate(Reduction.ODD_ONES, False),
    "NOT": Gate(Reduction.ALL_ONES, False, most_inputs=1),
    "BUFF": Gate(Reduction.ALL_ONES, True, most_inputs=1),
}
# Other words of gates in netlists.
OTHER_WORDS = {"BUF": "BUFF"}
FLIP_FLOP = "DFF"
# How the files that `diag-netlist` makes begin and end in their first lines, and the first line of the table of names beside one.
MADE, MADE_BY = "# Made of ", " by diag-netlist."
NAMES = "# The name here, and the name in the file that it was made of."
# The first line of the table of pins beside a device that was made of a board.
PINS = "# The wire here, a pin where a probe reaches it, the name of the pin on its chip, what it is, and what is printed on the chip."


@dataclasses.dataclass(frozen=True)
class Part:
    """A part: its wires are in the order of its ports, of a gate and of a flip-flop the output last."""

    name: str
    kind: str
    wires: tuple[str, ...]

    @property
    def is_directed(self) -> bool:
        """Whether its last wire is what it puts out. Ports of a type have no direction."""
        return self.kind in GATES or self.kind == FLIP_FLOP


@dataclasses.dataclass
class Type:
    """What parts of a type allow: rows of bits, one for each port, if they are ok and if they are faulty; and what a failure costs."""

    ok: list[str] = dataclasses.field(default_factory=list)
    # If there are none, a faulty part allows every row.
    bad: list[str] = dataclasses.field(default_factory=list)
    cost: int = 1


@dataclasses.dataclass
class Device:
    """Parts over wires, both in name order. `blocks` has the kind of each instance of a block, by its path; a netlist has none."""

    parts: list[Part]
    wires: list[str]
    inputs: frozenset[str] = frozenset()
    outputs: frozenset[str] = frozenset()
    blocks: dict[str, str] = dataclasses.field(default_factory=dict)
    ports: dict[str, tuple[str, ...]] = dataclasses.field(default_factory=dict)
    types: dict[str, Type] = dataclasses.field(default_factory=dict)

    def cost(self, part: Part) -> int:
        """What a failure of a part costs."""
        return self.types[part.kind].cost if part.kind in self.types else 1


def read_device(path: str | os.PathLike[str]) -> Device:
    """The device in a file, which the program has read without a fault."""
    path = pathlib.Path(path)
    if path.is_fifo():
        # Nobody writes into it any more.
        raise DiagError(f"{path}: the program has read this pipe, and what is asked needs the file once more: copy it into a plain file")
    # A line ends at a line feed alone, and a carriage return is a blank.
    text = path.read_bytes().decode("utf-8", "surrogateescape")
    device = read_design(text) if path.suffix == ".dev" else read_netlist(text)
    device.parts.sort(key=lambda part: part.name)
    device.wires.sort()
    return device


def read_netlist(text: str) -> Device:
    """The device of a netlist."""
    inputs: set[str] = set()
    outputs: set[str] = set()
    parts = []
    for line in text.split("\n"):
        words = re.findall(r"[^ \t\r(),=]+", line.split("#")[0])
        if not words:
            continue
        if "=" in line.split("#")[0]:
            name, kind, *reads = words
            kind = kind.upper()
            parts.append(Part(name, OTHER_WORDS.get(kind, kind), (*reads, name)))
        else:
            (inputs if words[0].upper() == "INPUT" else outputs).add(words[1])
    return Device(parts, sorted(inputs | {part.name for part in parts}), frozenset(inputs), frozenset(outputs))


@dataclasses.dataclass
class _Block:
    ports: list[str]
    wires: list[str]
    parts: list[tuple[str, str, list[str]]]


def read_design(text: str) -> Device:
    """The flat device of a design."""
    ports_of: dict[str, tuple[str, ...]] = {}
    blocks: dict[str, _Block] = {}
    block, kind = _Block([], [], []), Type()
    device = Device([], [])
    for line in text.split("\n"):
        match re.findall(r"[^ \t\r]+", line.split("#")[0]):
            case ["type", name, *ports]:
                ports_of[name] = tuple(ports)
                kind = device.types[name] = Type()
            case ["ok", row]:
                kind.ok.append(row)
            case ["bad", row]:
                kind.bad.append(row)
            case ["cost", number]:
                kind.cost = int(number)
            case ["block", name, *ports]:
                block = blocks[name] = _Block(ports, [], [])
            case ["wire", *wires]:
                block.wires += wires
            case ["part", name, of, *arguments]:
                block.parts.append((name, of, arguments))
            case ["top", name]:
                top = blocks[name]
                device.wires += top.ports
                _flatten(device, blocks, top, "", {port: port for port in top.ports})
    device.ports = ports_of
    return device


def _flatten(device: Device, blocks: dict[str, _Block], block: _Block, path: str, passed: dict[str, str]) -> None:
    """Adds what the instance of a block has, its ports being the wires passed to it."""
    own = {wire: path + wire for wire in block.wires}
    device.wires += own.values()
    known = passed | own
    for name, kind, arguments in block.parts:
        wires = [known[argument] for argument in arguments]
        if kind in blocks:
            device.blocks[path + name] = kind
            inner = blocks[kind]
            _flatten(device, blocks, inner, f"{path}{name}.", dict(zip(inner.ports, wires)))
        else:
            device.parts.append(Part(path + name, kind, tuple(wires)))


def title_of(path: pathlib.Path) -> str:
    """The first line of a file."""
    with path.open(encoding="utf-8", errors="surrogateescape") as file:
        return file.readline().rstrip("\n")


def is_made_here(path: pathlib.Path) -> bool:
    """Whether a file was made by `diag-netlist`, by its first line."""
    line = title_of(path)
    return line in (NAMES, PINS) or (line.startswith(MADE) and line.endswith(MADE_BY))


def table_rows(path: pathlib.Path, table: pathlib.Path) -> list[str]:
    """The rows of a table beside a device, if `diag-netlist` wrote both."""
    try:
        is_ours = is_made_here(table) and is_made_here(path)
        return table.read_text(encoding="utf-8", errors="surrogateescape").split("\n") if is_ours else []
    except OSError:
        return []


def other_names(path: str | os.PathLike[str], frames: int | None = None) -> dict[str, str]:
    """Other names of wires and of their gates, by the tables that `diag-netlist` wrote beside a device: those in the file that it was made
    of, and the pins of chips, such as `U3.6`; and the names that these have in the device; over several times each at each time too. What
    the device itself calls so goes first.
    """
    rows = _rows_beside(path, "pins", "names")
    wires = set(read_device(path).wires) if rows else set()
    pairs = [(row[1], row[0]) for row in rows if len(row) > 1 and row[0] in wires and row[1] not in wires]
    times = range(1, (frames or 0) + 1)
    return dict(pairs) | {f"{other}@{time:04}": f"{name}@{time:04}" for other, name in pairs for time in times}


def pins_at(path: str | os.PathLike[str], frames: int | None = None) -> dict[str, tuple[str, ...]]:
    """The wires that a probe reaches if `diag-netlist` made a device of a board, each with its pins and test points, such as `U3.6` and
    `TP1`; over several times at each time. None of another device.
    """
    found: dict[str, tuple[str, ...]] = {}
    for row in _rows_beside(path, "pins"):
        if len(row) > 1:
            found[row[0]] = (*found.get(row[0], ()), row[1])
    if frames is None:
        return found
    times = range(1, frames + 1)
    return {at_time(wire, time): tuple(at_time(pin, time) for pin in pins) for time in times for wire, pins in found.items()}


def pin_in_words(pin: str) -> str:
    """A pin as a person calls it.

    >>> pin_in_words("U3.6"), pin_in_words("TP1"), pin_in_words("U3.6@0002")
    ('U3 pin 6', 'TP1', 'U3 pin 6 at time 2')
    """
    name, at, time = pin.partition("@")
    reference, dot, number = name.rpartition(".")
    return (f"{reference} pin {number}" if dot else name) + (f" at time {int(time)}" if at else "")


def _rows_beside(path: str | os.PathLike[str], *endings: str) -> list[list[str]]:
    path = pathlib.Path(path)
    return [row.split("\t") for ending in endings for row in table_rows(path, path.with_name(f"{path.name}.{ending}"))]


def at_time(name: str, time: int) -> str:
    """A wire at a time, which is counted from 1."""
    return f"{name}@{time:04}"


def copies(device: Device, frames: int | None) -> list[Part]:
    """The parts of a device, or over several times a copy of each at each time, which has its part's name.

    A flip-flop puts out what its input was at the time before, and at the first time anything.
    """
    if frames is None:
        return device.parts
    found = []
    for time in range(1, frames + 1):
        for part in device.parts:
            *reads, output = part.wires
            if part.kind != FLIP_FLOP:
                found.append(Part(part.name, part.kind, tuple(at_time(wire, time) for wire in part.wires)))
            elif time > 1:
                found.append(Part(part.name, "BUFF", (at_time(reads[0], time - 1), at_time(output, time))))
    return found


def wires_of(device: Device, frames: int | None) -> list[str]:
    """The wires of a device, over several times each at each time, in name order."""
    return device.wires if frames is None else sorted(at_time(wire, time) for wire in device.wires for time in range(1, frames + 1))


def input_wires(path: str | os.PathLike[str], frames: int | None = None) -> frozenset[str]:
    """The names of the wires that nothing in the device drives.

    Of a netlist these are its inputs; over several times they are those at each time, and what flip-flops hold at the first. Ports in a
    design have no direction, so they are the wires that are the last port of no part.
    """
    device = read_device(path)
    if frames is None:
        return device.inputs or frozenset(device.wires) - {part.wires[-1] for part in device.parts}
    held = {part.name for part in device.parts if part.kind == FLIP_FLOP}
    at_times = {at_time(wire, time) for wire in device.inputs for time in range(1, frames + 1)}
    return frozenset(at_times | {at_time(wire, 1) for wire in held})
