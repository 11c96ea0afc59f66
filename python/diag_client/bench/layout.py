"""Boxes and wires in layers, left to right, with few crossings: plain geometry, which knows nothing of devices.

A box is one layer to the right of whatever drives it (longest path). Wires that pass a layer get a place of their own in it. Sweeps by
barycentre order the layers, medians set the heights, and between two layers each wire that bends has a vertical track.
"""

from __future__ import annotations

import bisect
import collections
import dataclasses
import itertools
from collections.abc import Iterable, Mapping, Sequence

GAP = 16.0
# A wire that only passes by needs less room than a box.
PASSING = 12.0
TRACK = 8.0
# Room for the mark of a reading, right of what drives a wire; and left of the next layer.
LEAD = 48.0
TAIL = 12.0
SWEEPS = 8
# With more places of wires that pass than this, pins float.
MOST_PASSING = 1200
STRAIGHTENINGS = 6
# Lines that are no farther apart look like one.
NEAR = 4


@dataclasses.dataclass
class Box:
    """What is placed: its wires with the height of each port from its top."""

    key: str
    ins: list[str]
    outs: list[str]
    width: float
    height: float
    in_at: list[float]
    out_at: list[float]


@dataclasses.dataclass
class Line:
    """How a wire runs: an SVG path, where it branches, and where it begins."""

    path: str
    dots: list[tuple[float, float]]
    start: tuple[float, float]


@dataclasses.dataclass
class Laid:
    """A finished layout: top left corners of boxes, lines of wires, where the pins are, and ports that are drawn apart.

    `apart` has the ports whose wire would run backwards, and whether they drive it: each is to be labelled with its wire's name.
    """

    width: float
    height: float
    at: dict[str, tuple[float, float]]
    lines: dict[str, Line]
    left: dict[str, tuple[float, float]]
    right: dict[str, tuple[float, float]]
    apart: list[tuple[str, float, float, bool]]


class Node:
    """A box, a pin or a wire that passes a layer."""

    __slots__ = ("box", "height", "layer", "lefts", "place", "rights", "top", "wire")

    def __init__(self, height: float, layer: int = 0, box: Box | None = None, wire: str = "") -> None:
        self.height = height
        self.layer = layer
        self.box = box
        self.wire = wire
        self.place = 0.0
        self.top = 0.0
        # Links to both sides: the other node, the height there, and the height here.
        self.lefts: list[tuple[Node, float, float]] = []
        self.rights: list[tuple[Node, float, float]] = []


def lay(boxes: Sequence[Box], left: Sequence[str], right: Sequence[str], may_float: bool = False) -> Laid:
    """Places boxes between the pins of wires at the left edge and at the right edge.

    Where they may float, the pins of a deep device are beside what they are joined to: a wire over a hundred layers helps nobody.
    """
    net = _Net(boxes, left, right)
    if may_float and net.passing() > MOST_PASSING:
        net.float_pins()
    layers = net.layers()
    _order(layers)
    _straighten(layers)
    return _Drawing(layers, net).finish()


class _Net:
    """Boxes and pins as nodes, with who drives which wire, and no cycles left."""

    def __init__(self, boxes: Sequence[Box], left: Sequence[str], right: Sequence[str]) -> None:
        self.pins = {wire: Node(PASSING * 2, wire=wire) for wire in left}
        self.nodes = [Node(box.height, box=box, wire=box.key) for box in boxes]
        self.ends = {wire: Node(PASSING * 2, wire=wire) for wire in right}
        self.drivers: dict[str, tuple[Node, float]] = {}
        for node in self.nodes:
            assert node.box is not None
            for wire, at in zip(node.box.outs, node.box.out_at):
                self.drivers.setdefault(wire, (node, at))
        for wire, node in self.pins.items():
            self.drivers[wire] = (node, node.height / 2)
        self.cut: set[tuple[int, str]] = set()
        self._set_layers()
        last = 1 + max((node.layer for node in self.nodes), default=0)
        for end in self.ends.values():
            end.layer = last

    def _reads(self, node: Node) -> list[tuple[Node, str]]:
        assert node.box is not None
        return [(self.drivers[wire][0], wire) for wire in node.box.ins if wire in self.drivers]

    def _set_layers(self) -> None:
        """Longest paths from the left, by a search in depth that cuts what would close a cycle."""
        state: dict[int, int] = {id(pin): 2 for pin in self.pins.values()}
        for first in self.nodes:
            stack = [] if id(first) in state else [(first, iter(self._reads(first)))]
            state.setdefault(id(first), 1)
            while stack:
                node, reads = stack[-1]
                for driver, wire in reads:
                    if state.get(id(driver)) == 1:
                        self.cut.add((id(node), wire))
                    elif id(driver) not in state:
                        state[id(driver)] = 1
                        stack.append((driver, iter(self._reads(driver))))
                        break
                else:
                    stack.pop()
                    state[id(node)] = 2
                    drivers = [driver.layer for driver, wire in self._reads(node) if (id(node), wire) not in self.cut]
                    node.layer = 1 + max(drivers, default=0)

    def passing(self) -> int:
        """How many places of wires that only pass there would be."""
        farthest = ((wire, max(node.layer for node, _ in readers)) for wire, readers in self._readers().items())
        return sum(layer - self.drivers[wire][0].layer - 1 for wire, layer in farthest)

    def float_pins(self) -> None:
        """Moves pins, and boxes that only pins drive, to what they are joined to."""
        readers = self._readers()
        for node in sorted(self.nodes, key=lambda node: -node.layer):
            assert node.box is not None
            if all(driver.box is None for driver, _ in self._reads(node)):
                near = [other.layer for wire in node.box.outs for other, _ in readers.get(wire, []) if other.box is not None]
                node.layer = max(node.layer, min(near, default=1) - 1)
        for wire, pin in self.pins.items():
            pin.layer = max(0, min((node.layer for node, _ in readers.get(wire, []) if node.box is not None), default=1) - 1)
        for wire, end in self.ends.items():
            end.layer = self.drivers[wire][0].layer + 1

    def layers(self) -> list[list[Node]]:
        """The nodes by layer, with those of wires that pass, all linked."""
        nodes = [*self.pins.values(), *self.nodes, *self.ends.values()]
        layers: list[list[Node]] = [[] for _ in range(1 + max((node.layer for node in nodes), default=0))]
        for node in nodes:
            layers[node.layer].append(node)
        for wire, readers in self._readers().items():
            driver, at = self.drivers[wire]
            here = driver
            for layer in range(driver.layer + 1, max(node.layer for node, _ in readers) + 1):
                for node, port in readers:
                    if node.layer == layer:
                        _link(here, at, node, port)
                if any(node.layer > layer for node, _ in readers):
                    passing = Node(PASSING, layer, wire=wire)
                    layers[layer].append(passing)
                    _link(here, at, passing, PASSING / 2)
                    here, at = passing, PASSING / 2
        return layers

    def _readers(self) -> dict[str, list[tuple[Node, float]]]:
        readers: dict[str, list[tuple[Node, float]]] = collections.defaultdict(list)
        for node in self.nodes:
            assert node.box is not None
            for wire, at in zip(node.box.ins, node.box.in_at):
                if wire in self.drivers and (id(node), wire) not in self.cut:
                    readers[wire].append((node, at))
        for wire, end in self.ends.items():
            if wire in self.drivers:
                readers[wire].append((end, end.height / 2))
        return readers


def _link(here: Node, at: float, there: Node, port: float) -> None:
    here.rights.append((there, port, at))
    there.lefts.append((here, at, port))


def _order(layers: list[list[Node]]) -> None:
    """Orders each layer so that few lines cross. It sweeps by barycentre and keeps the best."""
    _number(layers)
    best, kept = _crossings(layers), [list(layer) for layer in layers]
    for sweep in range(SWEEPS):
        if best == 0:
            break
        forward = sweep % 2 == 0
        for layer in layers[1:] if forward else reversed(layers[:-1]):
            keys = {id(node): _barycentre(node, node.lefts if forward else node.rights) for node in layer}
            layer.sort(key=lambda node: keys[id(node)])
            _number([layer])
        count = _crossings(layers)
        if count < best:
            best, kept = count, [list(layer) for layer in layers]
    for layer, nodes in zip(layers, kept):
        layer[:] = nodes
    _number(layers)


def _number(layers: Iterable[Sequence[Node]]) -> None:
    for layer in layers:
        for place, node in enumerate(layer):
            node.place = float(place)


def _barycentre(node: Node, links: list[tuple[Node, float, float]]) -> float:
    if not links:
        return node.place
    # Ports count as a part of a place, so that the inputs of one box keep their order.
    return sum(other.place + at / (other.height + 1.0) for other, at, _ in links) / len(links)


def _crossings(layers: Sequence[Sequence[Node]]) -> int:
    """How many pairs of links cross."""
    count = 0
    for layer in layers[:-1]:
        links = sorted((node.place, here, other.place, there) for node in layer for other, there, here in node.rights)
        seen: list[tuple[float, float]] = []
        for _, _, place, there in links:
            at = bisect.bisect_right(seen, (place, there))
            count += len(seen) - at
            seen.insert(at, (place, there))
    return count


def _straighten(layers: list[list[Node]]) -> None:
    """Heights: each node wants the median of its neighbours, and those of a layer keep their order and their distance."""
    for layer in layers:
        top = 0.0
        for node in layer:
            node.top = top
            top += node.height + GAP
    for turn in range(STRAIGHTENINGS):
        if turn % 2 == 0:
            for layer in layers[1:]:
                _settle(layer, [node.lefts for node in layer])
        else:
            for layer in reversed(layers[:-1]):
                _settle(layer, [node.rights for node in layer])
    for layer in layers[1:]:
        _settle(layer, [node.lefts for node in layer])
    _settle(layers[0], [node.rights for node in layers[0]])
    least = min((node.top for layer in layers for node in layer), default=0.0)
    for layer in layers:
        for node in layer:
            node.top = round(node.top - least)


def _settle(layer: Sequence[Node], links: Sequence[list[tuple[Node, float, float]]]) -> None:
    """The tops nearest to what is wanted, by squares, that keep the distances: neighbours that would overlap are pooled."""
    pools: list[list[float]] = []
    sizes: list[int] = []
    offset = 0.0
    offsets = []
    for node, near in zip(layer, links):
        wanted = sorted(other.top + there - here for other, there, here in near)
        top = wanted[(len(wanted) - 1) // 2] if wanted else node.top
        offsets.append(offset)
        pools.append([top - offset, 1.0])
        sizes.append(1)
        while len(pools) > 1 and pools[-2][0] > pools[-1][0]:
            (mean, weight), (before, more) = pools.pop(), pools.pop()
            pools.append([(mean * weight + before * more) / (weight + more), weight + more])
            sizes[-2:] = [sizes[-2] + sizes[-1]]
        offset += node.height + (GAP if node.box else GAP / 2)
    at = 0
    for (mean, _), size in zip(pools, sizes):
        for index in range(at, at + size):
            layer[index].top = mean + offsets[index]
        at += size


class _Bend:
    """What runs from one height at the left of a channel to others at its right, and on which track. What is split goes on in `rest`."""

    __slots__ = ("ends", "high", "low", "rest", "start", "track", "wire")

    def __init__(self, wire: str, start: float) -> None:
        self.wire = wire
        self.start = self.low = self.high = start
        self.ends: list[float] = []
        self.track = -1
        self.rest: _Bend | None = None

    def reach(self, end: float) -> None:
        """Goes to one more height."""
        self.ends.append(end)
        self.low, self.high = min(self.low, end), max(self.high, end)

    def split(self, height: float) -> _Bend:
        """From now on it goes to this height alone, and another bend goes on from there, which is given."""
        rest = self.rest = _Bend(self.wire, height)
        for end in self.ends:
            rest.reach(end)
        self.ends, self.low, self.high = [], self.start, self.start
        self.reach(height)
        return rest

    @property
    def is_straight(self) -> bool:
        """Whether it needs no track."""
        return self.low == self.high


class _Drawing:
    """Layers with heights, to lines: one channel after the other."""

    def __init__(self, layers: list[list[Node]], net: _Net) -> None:
        self.layers = layers
        self.net = net
        self.paths: dict[str, list[str]] = collections.defaultdict(list)
        self.dots: dict[str, list[tuple[float, float]]] = collections.defaultdict(list)
        self.starts: dict[str, tuple[float, float]] = {}
        # Where pins are, by their nodes.
        self.ports: dict[int, tuple[float, float]] = {}
        self.at: dict[str, tuple[float, float]] = {}
        self.apart: list[tuple[str, float, float, bool]] = []

    def finish(self) -> Laid:
        """Draws all channels, left to right."""
        x = 0.0
        for index, layer in enumerate(self.layers):
            width = max((node.box.width for node in layer if node.box), default=0.0)
            for node in layer:
                self._place(node, x, x + width)
            if index + 1 < len(self.layers):
                x = self._channel(layer, x + width)
        height = max((node.top + node.height for layer in self.layers for node in layer), default=0.0)
        left, right = ({wire: self.ports[id(pin)] for wire, pin in pins.items()} for pins in (self.net.pins, self.net.ends))
        lines = {wire: Line("".join(path), self.dots[wire], self.starts[wire]) for wire, path in self.paths.items()}
        return Laid(x, height, self.at, lines, left, right, self.apart)

    def _place(self, node: Node, x: float, right: float) -> None:
        box = node.box
        if box is None:
            y = node.top + node.height / 2
            if node.rights and node.lefts:
                # A wire that passes goes through its layer.
                self.paths[node.wire].append(f"M{x:g} {y:g}H{right:g}")
            self.ports[id(node)] = (x if node.lefts else right, y)
            return
        self.at[box.key] = (x, node.top)
        for wire, at in zip(box.ins, box.in_at):
            if wire not in self.net.drivers or (id(node), wire) in self.net.cut:
                self.apart.append((wire, x, node.top + at, False))
        for wire, at in zip(box.outs, box.out_at):
            if self.net.drivers[wire][0] is not node:
                self.apart.append((wire, x + box.width, node.top + at, True))
                continue
            self.starts[wire] = (x + box.width, node.top + at)
            self.paths[wire].append(f"M{x + box.width:g} {node.top + at:g}H{max(right, x + box.width + LEAD / 2):g}")

    def _channel(self, layer: Sequence[Node], x: float) -> float:
        """The lines between a layer and the next one; gives where that one begins."""
        bends: dict[tuple[str, float], _Bend] = {}
        for node in layer:
            for other, there, here in node.rights:
                wire = node.wire if node.box is None else next(w for w, at in zip(node.box.outs, node.box.out_at) if at == here)
                bend = bends.setdefault((wire, node.top + here), _Bend(wire, node.top + here))
                bend.reach(other.top + there)
                self.starts.setdefault(wire, (x, node.top + here))
        tracks = _Tracks(list(bends.values()))
        end = x + LEAD + tracks.count * TRACK + TAIL
        for bend in tracks.bends:
            self._draw(bend, x, end)
        return end

    def _draw(self, bend: _Bend, x: float, end: float) -> None:
        """The lines of a bend in the channel from `x` to `end`, and of what it goes on in."""
        path = self.paths[bend.wire]
        if bend.is_straight:
            path.append(f"M{x:g} {bend.start:g}H{end:g}")
            return
        begin: float | None = x
        here: _Bend | None = bend
        while here is not None:
            track = x + LEAD + here.track * TRACK
            to = end if here.rest is None else x + LEAD + here.rest.track * TRACK
            level = "" if begin is None else f"M{begin:g} {here.start:g}H{track:g}"
            path.append(f"{level}M{track:g} {here.low:g}V{here.high:g}")
            ends = set(here.ends)
            path += [f"M{track:g} {y:g}H{to:g}" for y in ends]
            for y in ends | {here.start}:
                ways = (y == here.start) + (y in ends) + (y > here.low) + (y < here.high)
                if ways > 2:
                    self.dots[bend.wire].append((track, y))
            # What goes on begins where this one ends.
            begin, here = None, here.rest


class _Tracks:
    """A track for each bend of a channel, so that none lies on another.

    Where one starts near the height at which another ends, the first has to be left of the second, or their level pieces look like one
    line. If that goes round in a circle, one of them is split: it goes to a free height first, and from there on another track.
    """

    def __init__(self, bends: list[_Bend]) -> None:
        self.bends = bends
        self.count = 0
        self._taken: list[list[tuple[float, float]]] = []
        self._heights = {round(y) for bend in bends for y in (bend.start, *bend.ends)}
        # What goes up is taken from above, what goes down from below, which crosses least.
        waiting = [bend for bend in bends if not bend.is_straight]
        waiting.sort(key=lambda bend: (bend.high > bend.start, bend.start if bend.high <= bend.start else -bend.start))
        starting = {round(bend.start): bend for bend in waiting}
        self._lefts = {bend: self._left_of(bend, starting) for bend in waiting}
        while waiting:
            bend = next((bend for bend in waiting if all(other.track >= 0 for other in self._lefts[bend])), None)
            if bend is None:
                bend = self._in_a_circle(waiting[0])
                rest = bend.split(self._free(bend.start))
                waiting.append(rest)
                self._lefts[rest] = [*self._lefts[bend], bend]
                self._lefts[bend] = []
            waiting.remove(bend)
            self._place(bend)
        self.count = len(self._taken)

    @staticmethod
    def _left_of(bend: _Bend, starting: Mapping[int, _Bend]) -> list[_Bend]:
        """The bends that have to be left of one."""
        near = (starting.get(round(end) + off) for end in bend.ends for off in range(-NEAR, NEAR + 1))
        return [other for other in near if other is not None and other is not bend]

    def _in_a_circle(self, bend: _Bend) -> _Bend:
        """A bend that waits for itself, found from one that waits."""
        met: set[_Bend] = set()
        while bend not in met:
            met.add(bend)
            bend = next(other for other in self._lefts[bend] if other.track < 0)
        return bend

    def _free(self, height: float) -> float:
        """The nearest height at which nothing starts or ends."""
        for off in itertools.count(NEAR + 1):
            for found in (round(height) + off, round(height) - off):
                if not any(found + near in self._heights for near in range(-NEAR, NEAR + 1)):
                    self._heights.add(found)
                    return float(found)
        raise AssertionError

    def _place(self, bend: _Bend) -> None:
        track = max((other.track + 1 for other in self._lefts[bend]), default=0)
        while track < len(self._taken) and any(low - NEAR <= bend.high and bend.low <= high + NEAR for low, high in self._taken[track]):
            track += 1
        if track == len(self._taken):
            self._taken.append([])
        self._taken[track].append((bend.low, bend.high))
        bend.track = track
