"""A device as what the page draws: boxes, frames of blocks that are open, lines and pins, as plain data for JSON."""

from __future__ import annotations

import collections
import dataclasses
import itertools
import os
import pathlib
import re
from collections.abc import Collection, Iterable, Mapping
from typing import Any

from ..devices import FLIP_FLOP, Part, read_device
from ..pictures.cone import Wiring
from ..pictures.packages import Leg, Package, packages_of
from . import layout

# A design with more parts than this is first drawn with its blocks closed.
OPEN_AT_FIRST = 80
GATE_WIDTH, TABLE_WIDTH = 80.0, 156.0
IN_STEP, OUT_STEP = 16.0, 28.0
LEAST_HEIGHT = 44.0
# A frame around an open block: room at the sides, for its title and below.
SIDE, TITLE, FOOT = 18.0, 28.0, 14.0

Json = dict[str, Any]


def natural(name: str) -> list[tuple[int, int, str]]:
    """A key by which a10 comes after a9."""
    return [(0, int(piece), "") if piece.isdecimal() else (1, 0, piece) for piece in re.findall(r"[0-9]+|[^0-9]+", name)]


def read_rows(path: str | os.PathLike[str]) -> dict[str, list[str]]:
    """The rows that each type of a design allows while it is ok."""
    rows: dict[str, list[str]] = {}
    kind = ""
    for line in pathlib.Path(path).read_bytes().decode("utf-8", "surrogateescape").split("\n"):
        match line.split("#")[0].split():
            case ["type", kind, *_]:
                rows[kind] = []
            case ["ok", bits] if kind in rows:
                rows[kind].append(bits)
    return rows


def outputs_of(rows: list[str], ports: int) -> list[int]:
    """The ports that follow from the others, as the rows say, taken from the last one on: a type itself has no directions.

    >>> outputs_of(["000", "011", "101", "110"], 3), outputs_of(["00"], 2), outputs_of([], 2)
    ([2], [0, 1], [])
    """
    others = list(range(ports))
    for port in reversed(range(ports)):
        rest = [other for other in others if other != port]
        answers: dict[tuple[str, ...], set[str]] = collections.defaultdict(set)
        for row in rows:
            answers[tuple(row[other] for other in rest)].add(row[port])
        if rows and all(len(bits) == 1 for bits in answers.values()):
            others = rest
    return [port for port in range(ports) if port not in others]


@dataclasses.dataclass(frozen=True)
class Roles:
    """Which wires a part or a block reads, and which it drives, with the names of the ports if they have any."""

    ins: tuple[str, ...]
    outs: tuple[str, ...]
    in_ports: tuple[str, ...] = dataclasses.field(default=(), compare=False)
    out_ports: tuple[str, ...] = dataclasses.field(default=(), compare=False)


class Scene:
    """A device with its directions, to draw all of it or a part of it."""

    def __init__(self, path: str | os.PathLike[str]) -> None:
        self.device = read_device(path)
        self.parts = {part.name: part for part in self.device.parts}
        rows = read_rows(path) if self.device.ports else {}
        self.drivers: dict[str, str] = {}
        self.roles = {part.name: self._roles(part, rows) for part in self.device.parts}
        self.readers: dict[str, list[str]] = collections.defaultdict(list)
        for name, roles in self.roles.items():
            for wire in roles.ins:
                self.readers[wire].append(name)
        self.inputs = sorted((wire for wire in self.device.wires if wire not in self.drivers), key=natural)
        ends = self.device.outputs or {wire for wire in self.drivers if wire not in self.readers}
        self.outputs = sorted((wire for wire in ends if wire in self.drivers), key=natural)
        self.flip_flops = frozenset(part.name for part in self.device.parts if part.kind == FLIP_FLOP)
        self.open_at_first = frozenset(self.device.blocks if len(self.parts) <= OPEN_AT_FIRST else ())
        self.wiring = Wiring(self.device)
        self.chips = [self._chip(each) for each in packages_of(path, self.device)]

    def _roles(self, part: Part, rows: Mapping[str, list[str]]) -> Roles:
        driven = [len(part.wires) - 1] if part.is_directed else outputs_of(rows.get(part.kind, []), len(part.wires))
        # What another part drives already is read here.
        outs = [port for port in driven if self.drivers.setdefault(part.wires[port], part.name) == part.name]
        ins = [port for port in range(len(part.wires)) if port not in outs]
        # One wire may be at two ports: each has its own name, but a wire is driven once.
        outs = list({part.wires[port]: port for port in reversed(outs)}.values())[::-1]
        wires = (tuple(part.wires[port] for port in ports) for ports in (ins, outs))
        names = () if part.is_directed else self.device.ports[part.kind]
        return Roles(*wires, *(tuple(names[port] for port in ports if names) for ports in (ins, outs)))

    def _chip(self, chip: Package) -> Json:
        def legs(side: Iterable[Leg]) -> list[Json]:
            return [
                {"number": leg.number, "name": leg.name, "wire": leg.wire, "drives": self.drivers.get(leg.wire) in chip.parts}
                for leg in side
            ]  # fmt: skip

        own = {"name": chip.reference, "printed": chip.printed, "title": chip.title, "parts": chip.parts}
        return own | {"left": legs(chip.left), "right": legs(chip.right)}

    def draw(self, is_open: Collection[str], only: Collection[str] | None = None) -> Json:
        """What the page draws, with these blocks open, of all parts or of only some."""
        return _Sheet(self, frozenset(is_open), frozenset(self.parts if only is None else only)).json()


@dataclasses.dataclass
class _Level:
    """What is laid out together: the parts and blocks in one block, or at the top."""

    laid: layout.Laid
    boxes: list[layout.Box]
    roles: Roles
    # Wires of flip-flops whose cycles are cut: they begin again at the left.
    states: list[str]


class _Sheet:
    """One drawing of a scene."""

    def __init__(self, scene: Scene, is_open: frozenset[str], only: frozenset[str]) -> None:
        self.scene = scene
        self.is_open = is_open
        self.only = only
        # What is in each block that is drawn: all parts at any depth, and what is in it directly.
        self.inside: dict[str, list[str]] = collections.defaultdict(list)
        self.members: dict[str, dict[str, None]] = collections.defaultdict(dict)
        for name in scene.parts:
            if name in only:
                self._put(name)
        self.levels: dict[str, _Level] = {}
        self.boxes: list[Json] = []
        self.frames: list[Json] = []
        self.pins: list[Json] = []
        self.apart: list[Json] = []
        self.lines: dict[str, list[str]] = collections.defaultdict(list)
        self.dots: dict[str, list[tuple[float, float]]] = collections.defaultdict(list)
        self.marks: dict[str, tuple[float, float]] = {}

    def _put(self, name: str) -> None:
        below, path = name, self._above(name)
        while True:
            self.inside[path].append(name)
            self.members[path][below] = None
            if not path:
                return
            below, path = path, self._above(path)

    def _above(self, path: str) -> str:
        above = path.rpartition(".")[0]
        return above if above in self.scene.device.blocks else ""

    def json(self) -> Json:
        """Draws all."""
        read = {wire for name in self.only for wire in self.scene.roles[name].ins}
        driven = {wire for name in self.only for wire in self.scene.roles[name].outs}
        everything = len(self.only) == len(self.scene.parts)
        left, right = self.scene.inputs, self.scene.outputs
        if not everything:
            # What comes from parts that are left out, or goes to them alone, can be measured too, so it has a pin.
            left = sorted(read - driven, key=natural)
            right = sorted({wire for wire in driven if wire in self.scene.outputs or wire not in read}, key=natural)
        level = self._lay("", Roles(tuple(left), tuple(right)))
        self._add("", 0.0, 0.0)
        self._pin(level.laid.left, "left", level.states)
        self._pin(level.laid.right, "right", [])
        lines = [
            {"wire": wire, "path": "".join(path), "dots": self.dots[wire], "mark": self.marks.get(wire)}
            for wire, path in self.lines.items()
        ]
        size = {"width": level.laid.width, "height": level.laid.height}
        return size | {"boxes": self.boxes, "blocks": self.frames, "pins": self.pins, "apart": self.apart, "lines": lines}

    def _pin(self, at: Mapping[str, tuple[float, float]], side: str, states: Collection[str]) -> None:
        for wire, (x, y) in at.items():
            self.pins.append({"wire": wire, "x": x, "y": y, "side": "state" if wire in states else side})

    def _lay(self, path: str, roles: Roles) -> _Level:
        """The layout of what is in a block; blocks that are open in it are laid out first."""
        boxes = [self._box(name) for name in self.members[path]]
        states = self._cycles(boxes)
        laid = layout.lay(boxes, [*roles.ins, *states], roles.outs, may_float=not path)
        self.levels[path] = _Level(laid, boxes, roles, states)
        return self.levels[path]

    def _box(self, name: str) -> layout.Box:
        if name not in self.scene.device.blocks:
            roles, width = self.scene.roles[name], GATE_WIDTH if self.scene.parts[name].is_directed else TABLE_WIDTH
        else:
            roles, width = self._block_roles(name), TABLE_WIDTH
            if name in self.is_open:
                laid = self._lay(name, roles).laid
                heights = [[at[wire][1] + TITLE for wire in wires] for at, wires in ((laid.left, roles.ins), (laid.right, roles.outs))]
                return layout.Box(name, [*roles.ins], [*roles.outs], laid.width + 2 * SIDE, laid.height + TITLE + FOOT, *heights)
        height = max(LEAST_HEIGHT, len(roles.ins) * IN_STEP + 8, len(roles.outs) * OUT_STEP + 8)
        ins, outs = (_spread(len(wires), step, height) for wires, step in ((roles.ins, IN_STEP), (roles.outs, OUT_STEP)))
        return layout.Box(name, [*roles.ins], [*roles.outs], width, height, ins, outs)

    def _block_roles(self, path: str) -> Roles:
        """What crosses the border of a block."""
        names = set(self.inside[path])
        driven = [wire for name in self.inside[path] for wire in self.scene.roles[name].outs]
        read = [wire for name in self.inside[path] for wire in self.scene.roles[name].ins]
        ends, inner = set(self.scene.outputs), set(driven)
        outs = [wire for wire in driven if wire in ends or any(reader not in names for reader in self.scene.readers[wire])]
        return Roles(tuple(dict.fromkeys(wire for wire in read if wire not in inner)), tuple(dict.fromkeys(outs)))

    def _cycles(self, boxes: list[layout.Box]) -> list[str]:
        """The wires of flip-flops in cycles, where these are cut: what is left once all that has no driver, or no reader, is gone."""
        flip_flops = {box.key for box in boxes} & self.scene.flip_flops
        if not flip_flops:
            return []
        reads = {box.key: {self.scene.drivers[wire] for wire in box.ins if wire in self.scene.drivers} for box in boxes}
        left = set(reads)
        while True:
            read = {driver for name in left for driver in reads[name] & left}
            kept = {name for name in left & read if reads[name] & left}
            if kept == left:
                return [wire for box in boxes if box.key in flip_flops & left for wire in box.outs]
            left = kept

    def _add(self, path: str, x: float, y: float) -> None:
        """Puts what is in a block at a place."""
        level = self.levels[path]
        laid = level.laid
        for box in level.boxes:
            left, top = laid.at[box.key]
            if box.key in self.levels:
                self._add_frame(box, x + left, y + top)
            else:
                self.boxes.append(self._box_json(box, x + left, y + top))
        for wire, line in laid.lines.items():
            self.lines[wire].append(_moved(line.path, x, y))
            self.dots[wire] += [(x + left, y + top) for left, top in line.dots]
            if not path or wire not in level.roles.ins:
                self.marks.setdefault(wire, (x + line.start[0], y + line.start[1]))
        self.apart += [{"wire": wire, "x": x + left, "y": y + top, "drives": drives} for wire, left, top, drives in laid.apart]

    def _add_frame(self, box: layout.Box, x: float, y: float) -> None:
        self.frames.append({"path": box.key, "kind": self.scene.device.blocks[box.key], "x": x, "y": y, "w": box.width, "h": box.height})
        self._add(box.key, x + SIDE, y + TITLE)
        for wires, heights, side in ((box.ins, box.in_at, 0.0), (box.outs, box.out_at, box.width - SIDE)):
            for wire, at in zip(wires, heights):
                self.lines[wire].append(f"M{x + side:g} {y + at:g}h{SIDE:g}")

    def _box_json(self, box: layout.Box, x: float, y: float) -> Json:
        part = self.scene.parts.get(box.key) if box.key not in self.scene.device.blocks else None
        kind = self.scene.device.blocks[box.key] if part is None else part.kind

        def ports(wires: Iterable[str], heights: Iterable[float], names: Iterable[str]) -> list[Json]:
            rows = itertools.zip_longest(wires, heights, names, fillvalue="")
            return [{"wire": wire, "y": at, "port": port} for wire, at, port in rows]

        if part is None:
            names = [[wire.rpartition(".")[2] for wire in wires] for wires in (box.ins, box.outs)]
        else:
            names = [[*self.scene.roles[box.key].in_ports], [*self.scene.roles[box.key].out_ports]]
        return {
            "name": box.key, "kind": kind, "is_block": part is None, "x": x, "y": y, "w": box.width, "h": box.height,
            "parts": self.inside[box.key] if part is None else [box.key],
            "ins": ports(box.ins, box.in_at, names[0]), "outs": ports(box.outs, box.out_at, names[1]),
        }  # fmt: skip


def _spread(count: int, step: float, height: float) -> list[float]:
    """The heights of so many ports, about the middle of a box."""
    return [height / 2 + (index - (count - 1) / 2) * step for index in range(count)]


def _moved(path: str, x: float, y: float) -> str:
    """A path of lines and moves, which lies somewhere else."""
    if not (x or y):
        return path

    def move(piece: re.Match[str]) -> str:
        word, first, second = piece[1], float(piece[2]), piece[3]
        if word == "M":
            return f"M{first + x:g} {float(second) + y:g}"
        return f"{word}{first + (x if word == 'H' else y):g}"

    return re.sub(r"([MHV])([-0-9.]+)(?: ([-0-9.]+))?", move, path)
