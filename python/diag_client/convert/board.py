"""What is on a board, by its netlist: chips whose function is known, supplies, pull-ups, what the world outside drives, and the rest.

A net is known by its name in KiCad. Nets that a resistor in series joins are one net here, under the name of the one that a chip drives.
"""

from __future__ import annotations

import collections
import dataclasses
import enum
import functools
import re
import string
from collections.abc import Iterable, Sequence

from .chips import STORAGE, Chip, Direction, Function, Pin, find_chip, number_in
from .circuit import UnusableNetlist
from .kicad import Component, Node, Schematic

# Supplies by the last part of their name.
SUPPLIES = (
    (0, re.compile(r"[ADP]?GND[AD]?\d?|GND(REF|PWR)|VSS[AD]?|0V|Earth", re.IGNORECASE)),
    (1, re.compile(r"[AD]?V(CC|DD)[AQ]?\d?|\+?[1-9]\d*(V\d*|\.\d+V)", re.IGNORECASE)),
)
RAILS = {"GND": 0, "VSS": 0, "VCC": 1, "VDD": 1}
# Networks of resistors by their symbol: the pins of each resistor, given their number.
STAR, PACK = re.compile(r"(?:R_Network|RR)(\d+)\w*"), re.compile(r"R_Pack(\d+)\w*")
# Kinds of pins, in the words of KiCad, that drive nothing.
SILENT = {"input", "power_in", "no_connect", "unconnected", "free"}
DRIVING = {"output", "tri_state", "open_collector", "open_emitter"}
# What a pin of a chip cannot be in a netlist: then it is another chip, or in another case.
CLASHES = {
    Direction.IN: DRIVING | {"power_in", "power_out"},
    Direction.POWER: DRIVING | {"input", "bidirectional"},
    **dict.fromkeys((Direction.OUT, Direction.TRISTATE, Direction.OPEN, Direction.BUS), {"power_in", "power_out"}),
    **dict.fromkeys((Direction.OUT, Direction.OPEN), {"input", "power_in", "power_out"}),
}


class Role(enum.Enum):
    """What a part does, as far as levels go."""

    CHIP = "a chip whose function is known"
    LINK = "a resistor, or what else joins two pins"
    OUTSIDE = "a connector, a switch or a test point: what is at it is driven from outside"
    LAMP = "a lamp: it pulls an open collector up, and drives nothing else"
    LOAD = "what drives nothing"
    UNKNOWN = "what is not understood"


# The roles of parts by the letters of their references.
LETTERS = {
    Role.LINK: ("R", "RN", "RP", "RR", "L", "FB", "F"),
    Role.OUTSIDE: ("J", "P", "CN", "CON", "K", "SW", "S", "JP", "TP", "X", "BT"),
    Role.LAMP: ("LED", "DS"),
    Role.LOAD: ("C", "CP", "H", "MH", "FID", "LOGO"),
}
LAMPS = re.compile(r"LED\w*")
LOADS = re.compile(r"C(_\w+)?|CP(\d\w*|_\w+)?|MountingHole\w*|Fiducial\w*")
# The roles of parts by how the name of their library begins.
LIBRARIES = {
    Role.LAMP: ("Display_", "LED"),
    Role.LOAD: ("Mechanical", "Graphic"),
    Role.OUTSIDE: ("Connector", "Switch", "Jumper"),
}


@dataclasses.dataclass(frozen=True)
class Driver:
    """A pin that drives a net."""

    node: Node
    pin: Pin


@dataclasses.dataclass
class Net:
    """Pins that are one wire. `pull` is the level that a resistor gives if nothing drives; a lamp does so, too, if all else lets go. It
    `is_free` if what is not modelled may drive it, and `is_shared` if that is more than the world outside.
    """

    name: str
    names: list[str]
    nodes: list[Node]
    drivers: list[Driver] = dataclasses.field(default_factory=list)
    level: int | None = None
    pull: int | None = None
    is_free: bool = False
    is_shared: bool = False
    has_lamp: bool = False

    @property
    def is_constant(self) -> bool:
        """Whether it has one level for ever: that of a supply, or a pull alone."""
        return self.level is not None or (self.pull is not None and not self.drivers and not self.is_free)

    @property
    def constant(self) -> int:
        """The level that it has for ever."""
        return (self.pull if self.level is None else self.level) or 0

    @property
    def is_input(self) -> bool:
        """Whether no chip drives it, and it has no level for ever."""
        return not self.drivers and not self.is_constant


@dataclasses.dataclass
class Placed:
    """A chip on the board: its functions as far as something reads them, and the net at each pin that is connected, by the pin's name."""

    reference: str
    chip: Chip
    number: str
    nets: dict[str, Net]
    functions: list[Function] = dataclasses.field(default_factory=list)

    @functools.cached_property
    def pins(self) -> dict[str, Pin]:
        """Its pins by name."""
        return {pin.name: pin for pin in self.chip.pins.values()}

    @property
    def outputs(self) -> list[str]:
        """The pins that drive a net."""
        return [pin.name for pin in self.chip.pins.values() if self.drives(pin)]

    @property
    def inputs(self) -> list[str]:
        """The pins that its functions read, in the order of their numbers."""
        read = {name for function in self.functions for name in function.inputs}
        return [pin.name for pin in self.chip.pins.values() if pin.direction.is_read and pin.name in read]

    @property
    def used_nets(self) -> list[Net]:
        """The nets that its functions read and drive."""
        return [self.nets[name] for name in [*self.inputs, *self.outputs]]

    def drives(self, pin: Pin) -> bool:
        """Whether a pin drives a net that something else is at."""
        net = self.nets.get(pin.name)
        own = (self.reference, pin.number)
        return net is not None and any((driver.node.reference, driver.node.number) == own for driver in net.drivers)


@dataclasses.dataclass
class Board:
    """What was understood. `remarks` are lines for the user; `unknown` is what is not understood, each with a reason."""

    chips: list[Placed] = dataclasses.field(default_factory=list)
    nets: list[Net] = dataclasses.field(default_factory=list)
    # What can be probed: the net, the pin in words, its name on the chip, what it is, and of a chip what is printed on it.
    pins: list[tuple[Net, list[str]]] = dataclasses.field(default_factory=list)
    remarks: list[str] = dataclasses.field(default_factory=list)
    unknown: list[str] = dataclasses.field(default_factory=list)

    def kind_of(self, driver: Driver) -> str:
        """How a pin drives: OUT always, OPEN to 0 alone, TRISTATE while it is let."""
        functions = next(placed.functions for placed in self.chips if placed.reference == driver.node.reference)
        if any(function.kind == "TRISTATE" for function in functions if function.output == driver.pin.name):
            return "TRISTATE"
        return "OUT" if driver.pin.direction is Direction.OUT else "OPEN"

    def pull_of(self, net: Net) -> int | None:
        """The level of a net while nothing drives it. Pins that go both ways and pull to 0 have a pull-up inside, and what is outside may
        pull them to 0.
        """
        kinds = [self.kind_of(driver) for driver in net.drivers]
        both_ways = [kind for driver, kind in zip(net.drivers, kinds) if driver.pin.direction is Direction.BUS]
        if net.is_shared or (both_ways and net.is_free):
            return None
        return 1 if "OPEN" in both_ways or (net.has_lamp and set(kinds) == {"OPEN"}) else net.pull

    def is_direct(self, net: Net) -> bool:
        """Whether a net has the level of its one driver."""
        kinds = [self.kind_of(driver) for driver in net.drivers]
        return kinds == ["OUT"] or (kinds == ["OPEN"] and self.pull_of(net) == 1)

    @property
    def used_nets(self) -> list[Net]:
        """The nets that chips read or drive."""
        used = {id(net) for placed in self.chips for net in placed.used_nets}
        return [net for net in self.nets if id(net) in used]

    def forget_clocks(self) -> None:
        """Lets flip-flops store anything. What only they read does not matter then."""
        for placed in self.chips:
            placed.functions = needed([without_clock(function) for function in placed.functions], placed.outputs)

    @property
    def has_flip_flops(self) -> bool:
        """Whether something on it steps with a clock."""
        return any(function.kind == "FLIPFLOP" for placed in self.chips for function in placed.functions)


def letters_of(reference: str) -> str:
    """The letters that a reference begins with."""
    return reference[: len(reference) - len(reference.lstrip(string.ascii_letters))].upper()


def role_of(component: Component) -> Role:
    """What a part is, by its library, its symbol and its reference; a chip is looked up apart."""
    if LAMPS.fullmatch(component.symbol):
        return Role.LAMP
    if LOADS.fullmatch(component.symbol):
        return Role.LOAD
    letters = letters_of(component.reference)
    by_library = (role for role, known in LIBRARIES.items() if component.library.startswith(known))
    return next(by_library, next((role for role, known in LETTERS.items() if letters in known), Role.UNKNOWN))


def chip_of(component: Component) -> tuple[Chip | None, str]:
    """The chip that a part is; else why it is none."""
    by_value, by_symbol = find_chip(component.value), find_chip(component.symbol)
    if by_value and by_symbol and by_value != by_symbol:
        return None, f"its value is {component.value} and its symbol {component.symbol}"
    found = by_value or by_symbol
    return found, "" if found else "no chip of the library"


def wrong_pin(chip: Chip, nodes: Iterable[Node]) -> str:
    """What the netlist says of a pin that the chip has otherwise, or nothing."""
    for node in nodes:
        pin = chip.pins.get(node.number)
        if pin is None:
            return f"a {chip.numbers[0]} has no pin {node.number}"
        if node.kind in CLASHES.get(pin.direction, ()):
            return f"pin {node.number} is {pin.direction.value} of a {chip.numbers[0]}, and {node.kind} in the netlist"
    return ""


class Reader:
    """A schematic while it is understood."""

    def __init__(self, schematic: Schematic) -> None:
        self.schematic = schematic
        self.board = Board()
        self.nodes: dict[str, list[tuple[str, Node]]] = collections.defaultdict(list)
        self.roles: dict[str, Role] = {}
        self.chips: dict[str, Chip] = {}
        for net, nodes in schematic.nets.items():
            for node in nodes:
                if schematic.components[node.reference].is_fitted:
                    self.nodes[node.reference].append((net, node))
        # The net that each net is joined to, and the nets that something else reaches through a resistor.
        self.joined: dict[str, str] = {}
        self.reached: set[str] = set()

    def find(self, net: str) -> str:
        """The net that a net is joined to in the end."""
        while net in self.joined:
            net = self.joined[net]
        return net

    def read(self) -> Board:
        """The board."""
        self.classify()
        levels = self.levels()
        drivers = self.drivers()
        pulls = self.links(levels, drivers)
        self.make_nets(levels, drivers, pulls)
        self.place_chips()
        self.report()
        return self.board

    def classify(self) -> None:
        """What each part is."""
        for reference, component in self.schematic.components.items():
            if not component.is_fitted:
                self.board.remarks.append(f"not fitted: {reference}")
                continue
            self.roles[reference] = role_of(component)
            if self.roles[reference] is Role.UNKNOWN:
                self.look_up(reference, component)

    def look_up(self, reference: str, component: Component) -> None:
        """Finds a chip in the library, and compares its pins."""
        chip, why = chip_of(component)
        if chip is not None:
            why = wrong_pin(chip, [node for _, node in self.nodes[reference]])
        if chip is None or why:
            self.board.unknown.append(f"{reference} ({component.value or component.symbol}): {why}")
        else:
            self.roles[reference] = Role.CHIP
            self.chips[reference] = chip

    def levels(self) -> dict[str, int]:
        """The level of each net that is a supply: by the pins of chips, or by its name."""
        found: dict[str, tuple[int, str]] = {}
        for name in self.schematic.nets:
            for level, pattern in SUPPLIES:
                if pattern.fullmatch(name.rpartition("/")[2]):
                    found[name] = (level, "its name")
        for reference, chip in self.chips.items():
            for name, node in self.nodes[reference]:
                pin = chip.pins[node.number]
                if pin.direction is not Direction.POWER or pin.name not in RAILS:
                    continue
                level, why = found.setdefault(name, (RAILS[pin.name], str(node)))
                if level != RAILS[pin.name]:
                    raise UnusableNetlist(f"net {name} is a supply of the level {level} by {why}, but pin {node} ({pin.name}) is at it")
        return {name: level for name, (level, _) in found.items()}

    def drivers(self) -> dict[str, list[Driver]]:
        """The pins of known chips that drive each net that another pin is at, too."""
        found: dict[str, list[Driver]] = collections.defaultdict(list)
        for reference, chip in self.chips.items():
            for name, node in self.nodes[reference]:
                pin = chip.pins[node.number]
                if pin.direction.is_driven and (len(self.schematic.nets[name]) > 1 or pulls_inside(chip, pin)):
                    found[name].append(Driver(node, pin))
        return found

    def links(self, levels: dict[str, int], drivers: dict[str, list[Driver]]) -> dict[str, set[int]]:
        """Joins the nets at resistors in series. Gives the levels that resistors pull each net to."""
        pulls: dict[str, set[int]] = collections.defaultdict(set)
        for reference, role in self.roles.items():
            if role is not Role.LINK:
                continue
            for one, other in self.ends_of(reference):
                one, other = self.find(one), self.find(other)
                if one == other or (one in levels and other in levels):
                    continue
                if one in levels or other in levels:
                    supply, net = (one, other) if one in levels else (other, one)
                    pulls[net].add(levels[supply])
                else:
                    near, far = (other, one) if drivers.get(other) else (one, other)
                    self.link(reference, near, far, drivers)
                    if far in self.joined:
                        pulls[near] |= pulls.pop(far, set())
        return pulls

    def link(self, reference: str, near: str, far: str, drivers: dict[str, list[Driver]]) -> None:
        """Joins two nets at a resistor in series, unless something at each end may drive."""
        joined = [nodes for name, nodes in self.schematic.nets.items() if self.find(name) == far]
        is_unknown = any(self.is_unknown(node) for nodes in joined for node in nodes)
        if drivers.get(near) and (drivers.get(far) or is_unknown):
            self.board.remarks.append(f"{reference} is left out: both of its nets are driven, {near} and {far}")
            self.reached |= {near, far}
            return
        if self.feeds_back(near, far, drivers):
            self.board.remarks.append(f"{reference} feeds a gate back to itself, and is left out: {far} may have any level")
            return
        self.joined[far] = near
        if self.has_probe_pins(far) and self.has_probe_pins(near):
            self.board.remarks.append(f"{reference} is taken as a wire: {far} is {near}")

    def is_unknown(self, node: Node) -> bool:
        """Whether what is not understood may drive the net at a pin."""
        return self.roles.get(node.reference) is Role.UNKNOWN and node.kind not in SILENT

    def has_probe_pins(self, net: str) -> bool:
        """Whether a chip, or the world outside, is at a net."""
        return any(self.roles.get(node.reference) in (Role.CHIP, Role.OUTSIDE) for node in self.schematic.nets[net])

    def feeds_back(self, near: str, far: str, drivers: dict[str, list[Driver]]) -> bool:
        """Whether a gate that drives the one net reads the other, as in an oscillator: joined, it would be blamed for ever."""
        for driver in drivers.get(near, []):
            chip = self.chips[driver.node.reference]
            gates = needed([function for function in chip.functions if function.kind not in STORAGE], [driver.pin.name])
            at_far = {chip.pins[node.number].name for net, node in self.nodes[driver.node.reference] if self.find(net) == far}
            if any(at_far & set(gate.inputs) for gate in gates):
                return True
        return False

    def ends_of(self, reference: str) -> list[tuple[str, str]]:
        """The nets at the two ends of each resistor that a part has."""
        at = {node.number: name for name, node in self.nodes[reference]}
        symbol = self.schematic.components[reference].symbol
        if found := STAR.fullmatch(symbol):
            pairs = [("1", str(number)) for number in range(2, int(found[1]) + 2)]
        elif found := PACK.fullmatch(symbol):
            pairs = [(str(number), str(2 * int(found[1]) + 1 - number)) for number in range(1, int(found[1]) + 1)]
        elif len(at) <= 2:
            pairs = [("1", "2")]
        else:
            self.roles[reference] = Role.UNKNOWN
            self.board.unknown.append(f"{reference} ({symbol}): a resistor with {len(at)} pins")
            return []
        return [(at[one], at[other]) for one, other in pairs if one in at and other in at]

    def make_nets(self, levels: dict[str, int], drivers: dict[str, list[Driver]], pulls: dict[str, set[int]]) -> None:
        """Puts together what is known of each net."""
        groups: dict[str, list[str]] = collections.defaultdict(list)
        for name in self.schematic.nets:
            groups[self.find(name)].append(name)
        for name, names in groups.items():
            nodes = [node for other in names for node in self.schematic.nets[other] if node.reference in self.roles]
            shown = [name, *(other for other in names if other != name and self.has_probe_pins(other))]
            net = Net(name, shown, nodes, [driver for other in names for driver in drivers.get(other, [])])
            net.level = levels.get(name)
            found = pulls.get(name, set())
            net.pull = next(iter(found)) if len(found) == 1 else None
            net.has_lamp = any(self.roles[node.reference] is Role.LAMP for node in nodes)
            net.is_free = any(self.may_drive(node) for node in nodes)
            net.is_shared = any(self.is_unknown(node) for node in nodes) or not self.reached.isdisjoint(names)
            if len(found) > 1:
                self.board.remarks.append(f"net {name} is pulled both ways, and is taken as not pulled")
            if net.level is not None and net.drivers:
                self.board.remarks.append(f"{' and '.join(str(driver.node) for driver in net.drivers)}: an output at the supply {name}")
                net.drivers = []
            self.board.nets.append(net)

    def may_drive(self, node: Node) -> bool:
        """Whether something that is not modelled may drive the net at a pin."""
        if self.roles[node.reference] is Role.OUTSIDE:
            return letters_of(node.reference) != "TP" and node.kind != "no_connect"
        return self.is_unknown(node)

    def place_chips(self) -> None:
        """The chips with what is connected, and what can be probed."""
        by_name = {name: net for net in self.board.nets for name in net.names}
        for reference, chip in self.chips.items():
            nets = {chip.pins[node.number].name: by_name[name] for name, node in self.nodes[reference]}
            component = self.schematic.components[reference]
            number = number_in(component.value) if find_chip(component.value) else number_in(component.symbol)
            placed = Placed(reference, chip, number or chip.numbers[0], nets)
            placed.functions = needed(chip.functions, placed.outputs)
            for name in placed.inputs:
                if name not in nets:
                    # The netlist does not have the pin.
                    pin = placed.pins[name]
                    node = Node(reference, pin.number, "")
                    nets[name] = Net(f"unconnected-({reference}-Pad{pin.number})", [], [node])
                    nets[name].drivers = [Driver(node, pin)] if pulls_inside(chip, pin) else []
                    self.board.nets.append(nets[name])
            self.board.chips.append(placed)
        for net in self.board.nets:
            for node in net.nodes:
                self.add_pin(net, node)

    def add_pin(self, net: Net, node: Node) -> None:
        """Notes a pin that can be probed."""
        role = self.roles[node.reference]
        if role is Role.CHIP and net.level is None:
            pin, part = self.chips[node.reference].pins[node.number], self.schematic.components[node.reference]
            printed = part.value if find_chip(part.value) else part.symbol
            self.board.pins.append((net, [str(node), pin.name, pin.direction.value, " ".join(printed.split())]))
        elif role is Role.OUTSIDE and net.level is None:
            is_point = letters_of(node.reference) == "TP"
            self.board.pins.append((net, [node.reference if is_point else str(node), "", "test point" if is_point else "connector", ""]))

    def report(self) -> None:
        """What may not be meant: two outputs at a net, no pull-up, and inputs that nothing drives."""
        for net in self.board.nets:
            nodes = [driver.node for driver in net.drivers]
            nodes += [node for node in net.nodes if self.roles[node.reference] is Role.UNKNOWN and node.kind == "output"]
            if len(nodes) > 1 and any(driver.pin.direction is Direction.OUT for driver in net.drivers):
                self.board.remarks.append(f"net {net.name} has several drivers: {' '.join(map(str, nodes))}")
            kinds = {self.board.kind_of(driver) for driver in net.drivers}
            if kinds == {"OPEN"} and self.board.pull_of(net) != 1 and not net.is_shared:
                pins = " ".join(str(driver.node) for driver in net.drivers)
                self.board.remarks.append(f"net {net.name} has no pull-up at its open collector: {pins}")
        for placed in self.board.chips:
            for name in placed.inputs:
                net = placed.nets[name]
                if not (net.drivers or net.is_constant or net.is_free):
                    pin = f"{placed.reference}.{placed.pins[name].number} ({name})"
                    self.board.remarks.append(f"unused input: {pin}; it may have any level")


def pulls_inside(chip: Chip, pin: Pin) -> bool:
    """Whether a pin goes both ways and pulls to 0 against a resistor in the chip."""
    return pin.direction is Direction.BUS and all(function.kind != "TRISTATE" for function in chip.functions if function.output == pin.name)


def without_clock(function: Function) -> Function:
    """A flip-flop of which only its set and its clear matter; each other function as it is."""
    if function.kind != "FLIPFLOP":
        return function
    kept = {role: name for role, name in function.reads.items() if role in ("set", "clear")}
    return dataclasses.replace(function, inputs=tuple(kept.values()), roles=tuple(kept))


def needed(functions: Sequence[Function], outputs: Sequence[str]) -> list[Function]:
    """The functions that these outputs depend on, in the same order."""
    by_output = {function.output: function for function in functions}
    wanted, waiting = set[str](), list(outputs)
    while waiting:
        name = waiting.pop()
        if name in by_output and name not in wanted:
            wanted.add(name)
            waiting += by_output[name].inputs
    return [function for function in functions if function.output in wanted]


def read_board(schematic: Schematic) -> Board:
    """What is on a board."""
    return Reader(schematic).read()
