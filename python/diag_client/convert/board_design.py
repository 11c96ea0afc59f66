"""Writes a board as a design: its chips as parts, or their gates.

A chip is one health wire and a block of gates that depend on it: while it is faulty, each of them may put out anything. Those gates, and
the wiring of the board, are types whose faulty part allows the same rows as a sound one, so that they explain nothing.
"""

from __future__ import annotations

import itertools
import re
from collections.abc import Callable, Iterable, Sequence

from ..devices import GATES
from .board import Board, Driver, Net, Placed
from .chips import Direction, Function, small

# A type that explains nothing costs more than any number of chips.
COST = 1000
LONGEST = 64
WIRES_ON_A_LINE = 12
# A type has at most six ports: so many inputs and an output.
MOST_INPUTS = 5
STORED = ("data", "gate", "set", "clear")
# The types of wires with several drivers, by what pulls them while all let go.
BUSES = {None: "BUS_FREE", 0: "BUS_DOWN", 1: "BUS_UP"}
Allows = Callable[[tuple[int, ...]], bool]


class Names:
    """Names for wires and parts, each given once."""

    def __init__(self, barred: str) -> None:
        self.barred = re.compile(rf"[^!-~]|[{re.escape(barred)}]")
        self.taken: set[str] = set()

    def give(self, wanted: str) -> str:
        """A name that is like the wanted one: without brackets, and with `_` for what is illegal."""
        plain = self.barred.sub("_", re.sub(r"[()]", "", wanted))[:LONGEST] or "_"
        found = plain
        for number in itertools.count(2):
            if found not in self.taken:
                break
            found = f"{plain[: LONGEST - 6]}-{number}"
        self.taken.add(found)
        return found


def stored_allows(roles: Sequence[str]) -> Allows:
    """What bits a latch allows at its inputs and its output; without `gate`, what it stores may be either bit."""

    def allows(bits: tuple[int, ...]) -> bool:
        reads, bit = dict(zip(roles, bits)), bits[-1]
        if reads.get("set") or reads.get("clear"):
            return bit == reads.get("set", 0)
        return not reads.get("gate") or bit == reads["data"]

    return allows


def gate_allows(kind: str) -> Allows:
    """What bits a gate allows."""
    return lambda bits: GATES[kind].output(bits[:-1]) == bits[-1]


def bus_allows(pull: int | None) -> Allows:
    """What a wire may be if something drives it to 1, and something to 0: either bit if both do so."""

    def allows(bits: tuple[int, ...]) -> bool:
        high, low, bit = bits
        return bool(high and low) or bit == (high if high or low else bit if pull is None else pull)

    return allows


def numbered(inputs: Sequence[str]) -> list[str]:
    """Ports for so many inputs and an output."""
    return [*(f"i{number}" for number in range(1, len(inputs) + 1)), "y"]


class Design:
    """The design of a board while it is made."""

    def __init__(self, board: Board, is_of_gates: bool) -> None:
        self.board = board
        self.is_of_gates = is_of_gates
        self.types: dict[str, list[str]] = {}
        self.blocks: dict[tuple[object, ...], str] = {}
        self.block_lines: list[str] = []
        self.kinds = Names("().,=#")
        self.kinds.taken |= set(GATES)
        self.wires, self.parts = Names("().,=#"), Names("().,=#")
        self.names: dict[int, str] = {}
        self.inner: list[str] = []
        self.lines: list[str] = []
        # How many gates each chip has.
        self.parts_of: dict[str, int] = {}
        self.offers: dict[tuple[str, str], tuple[str, str]] = {}
        references = {placed.reference: self.parts.give(placed.reference) for placed in board.chips}
        for net in board.used_nets:
            self.names[id(net)] = self.wires.give(net.name)
        for net in board.used_nets:
            self.wire_up(net)
        for placed in board.chips:
            if placed.functions:
                self.place(placed, references[placed.reference])

    def name(self, net: Net) -> str:
        """The wire of a net."""
        return self.names[id(net)]

    def new_wire(self, wanted: str) -> str:
        """A further wire of the board."""
        found = self.wires.give(wanted)
        self.inner.append(found)
        return found

    def type(self, name: str, ports: Sequence[str], allows: Allows, has_health: bool = False, is_sure: bool = True) -> str:
        """A type by its name. With health, its first port is that of its chip; one that is sure explains nothing."""
        if name not in self.types:
            self.kinds.taken.add(name)
            every = ["".join(map(str, bits)) for bits in itertools.product((0, 1), repeat=len(ports))]
            rows = [row for row in every if allows(tuple(map(int, row)))]
            if has_health:
                rows = [*(f"0{row}" for row in every), *(f"1{row}" for row in rows)]
                ports = ["health", *ports]
            lines = [f"type {name} {' '.join(ports)}", *(f"ok {row}" for row in rows)]
            lines += [*(f"bad {row}" for row in rows), f"cost {COST}"] if is_sure else []
            self.types[name] = [*lines, "end", ""]
        return name

    def health_type(self) -> str:
        """The type of what is ok or faulty, and tells others by its wire."""
        self.types.setdefault("CHIP", ["type CHIP health", "ok 1", "bad 0", "end", ""])
        return "CHIP"

    def sure(self, wire: str, kind: str, reads: Sequence[str]) -> None:
        """Adds a gate of the wiring of the board. One of many inputs is several of them."""
        made: dict[str, str] = {}
        # No wire is called `=`.
        for gate in small([Function("=", kind, tuple(reads))], MOST_INPUTS):
            made[gate.output] = own = wire if gate.output == "=" else self.new_wire(f"{wire}_part")
            kind_of_gate = self.type(f"SURE_{gate.kind}_{len(gate.inputs)}", numbered(gate.inputs), gate_allows(gate.kind))
            self.part(own, kind_of_gate, [*(made.get(name, name) for name in gate.inputs), own])

    def part(self, name: str, kind: str, wires: Iterable[str]) -> None:
        """Adds a part of the board."""
        self.lines.append(" ".join(["part", self.parts.give(name), kind, *wires]))

    def wire_up(self, net: Net) -> None:
        """Adds what gives a net its level, if it is not one pin of one chip alone."""
        wire = self.name(net)
        if net.is_constant:
            self.part(wire, self.type(("ZERO", "ONE")[net.constant], ["y"], lambda bits: bits[0] == net.constant), [wire])
            return
        if not net.drivers or self.board.is_direct(net):
            return
        kinds, pull = [self.board.kind_of(driver) for driver in net.drivers], self.board.pull_of(net)
        offers = [self.offer(driver, kind) for driver, kind in zip(net.drivers, kinds)]
        if set(kinds) == {"OPEN"} and pull != 0:
            lowest = wire if pull == 1 else offers[0][0]
            if len(offers) > 1:
                lowest = wire if pull == 1 else self.new_wire(f"{wire}_lowest")
                self.sure(lowest, "AND", [data for data, _ in offers])
            if pull is None:
                self.part(wire, self.type("OPEN_1", ["data", "y"], lambda bits: bits[0] == 1 or bits[1] == 0), [lowest, wire])
        elif kinds == ["TRISTATE"] and (pull is None or net.is_free):
            self.part(wire, self.type("BUS_1", ["data", "on", "y"], lambda bits: not bits[1] or bits[0] == bits[2]), [*offers[0], wire])
        else:
            self.resolve(wire, kinds, offers, None if net.is_free else pull)

    def resolve(self, wire: str, kinds: Sequence[str], offers: Sequence[tuple[str, str]], pull: int | None) -> None:
        """Adds what several drivers make of a net: what drives it to 1, what to 0, and the level that follows."""
        high, low = [], []
        for kind, (data, on) in zip(kinds, offers):
            inverse = self.new_wire(f"{data}_low")
            self.sure(inverse, "NOT", [data])
            if kind == "TRISTATE":
                drives = [self.new_wire(f"{data}_is1"), self.new_wire(f"{data}_is0")]
                self.sure(drives[0], "AND", [data, on])
                self.sure(drives[1], "AND", [inverse, on])
            else:
                drives = [data, inverse]
            low.append(drives[1])
            if kind != "OPEN":
                high.append(drives[0])
        ends = []
        for word, reads in (("high", high), ("low", low)):
            ends.append(self.new_wire(f"{wire}_{word}"))
            if reads:
                self.sure(ends[-1], "OR", reads)
            else:
                self.part(ends[-1], self.type("ZERO", ["y"], lambda bits: bits[0] == 0), [ends[-1]])
        self.part(wire, self.type(BUSES[pull], ["high", "low", "y"], bus_allows(pull)), [*ends, wire])

    def offer(self, driver: Driver, kind: str) -> tuple[str, str]:
        """Wires for what a pin offers to its net, and whether it does so."""
        word = f"{driver.node.reference}-{driver.node.number}"
        found = self.new_wire(word), self.new_wire(f"{word}_on") if kind == "TRISTATE" else ""
        self.offers[driver.node.reference, driver.pin.name] = found
        return found

    def place(self, placed: Placed, name: str) -> None:
        """Adds a chip: its health and its gates, or its gates alone."""
        arguments, ports = [], []
        if not self.is_of_gates:
            health = self.new_wire(f"{name}-ok")
            self.lines.append(f"part {name} {self.health_type()} {health}")
            arguments, ports = [health], ["health"]
        for pin in placed.inputs:
            arguments.append(self.name(placed.nets[pin]))
            ports.append(pin)
        for pin in placed.outputs:
            offered = self.offers.get((placed.reference, pin), (self.name(placed.nets[pin]), ""))
            arguments += [wire for wire in offered if wire]
            ports += [self.driven(placed, pin), f"{pin}_on"][: 1 + bool(offered[1])]
        kind = self.block_of(placed, ports)
        self.parts_of[placed.reference] = len(placed.functions)
        instance = name if self.is_of_gates else self.parts.give(f"{name}-{kind}")
        self.lines.append(" ".join(["part", instance, kind, *arguments]))

    def driven(self, placed: Placed, name: str) -> str:
        """The name inside a chip of what it puts out: a pin that goes both ways has another one for that."""
        return f"{name}_out" if name in placed.pins and placed.pins[name].direction is Direction.BUS else name

    def block_of(self, placed: Placed, ports: Sequence[str]) -> str:
        """The block of a chip with these ports."""
        key = (placed.number, tuple(function.output for function in placed.functions), tuple(ports))
        if key not in self.blocks:
            self.blocks[key] = self.kinds.give(placed.number)
            gates = [line for function in placed.functions for line in self.function_lines(placed, function)]
            inner = sorted({wire for line in gates for wire in line.split()[3:]} - set(ports))
            lines = [f"# {placed.chip.title}", " ".join(["block", self.blocks[key], *ports])]
            lines += [" ".join(["wire", *inner[at : at + WIRES_ON_A_LINE]]) for at in range(0, len(inner), WIRES_ON_A_LINE)]
            self.block_lines += [*lines, *gates, "end", ""]
        return self.blocks[key]

    def function_lines(self, placed: Placed, function: Function) -> list[str]:
        """The lines of a function inside a block."""
        output = self.driven(placed, function.output)
        name = placed.pins[function.output].number if self.is_of_gates and function.output in placed.pins else output
        if function.kind == "TRISTATE":
            lines, health = [], "health"
            if self.is_of_gates:
                # One part, whose faults let what it puts out and whether it does be anything.
                health = f"{output}_ok"
                lines = [f"part {name} {self.health_type()} {health}"]
            kind = self.type("BUFF_1", ["i1", "y"], gate_allows("BUFF"), has_health=True)
            ends = [(output, function.reads["data"]), (f"{function.output}_on", function.reads["gate"])]
            return [*lines, *(f"part {end} {kind} {health} {read} {end}" for end, read in ends)]
        if function.kind in GATES and self.is_of_gates:
            return [f"part {name} {function.kind} {' '.join(function.inputs)} {output}"]
        return [self.small_line(gate, name, output, function.output) for gate in self.small_of(function)]

    def small_of(self, function: Function) -> list[Function]:
        """A function as gates of few inputs, or what it stores as its inputs that matter."""
        if function.kind in GATES:
            return small([function])
        roles = tuple(role for role in STORED if role in function.roles and not (role == "data" and "gate" not in function.roles))
        return [Function(function.output, "STORE", tuple(function.reads[role] for role in roles), roles)] if roles else []

    def small_line(self, gate: Function, name: str, output: str, last: str) -> str:
        """The line of a gate that depends on the health of its chip, if the chip is the part."""
        allows = stored_allows(gate.roles) if gate.roles else gate_allows(gate.kind)
        word = "_".join([gate.kind, *(gate.roles or [str(len(gate.inputs))])])
        ports = [*gate.roles, "y"] if gate.roles else numbered(gate.inputs)
        kind = self.type(word, ports, allows, has_health=not self.is_of_gates, is_sure=not self.is_of_gates)
        is_last = gate.output == last
        wires = [*([] if self.is_of_gates else ["health"]), *gate.inputs, output if is_last else gate.output]
        return f"part {name if is_last else gate.output} {kind} {' '.join(wires)}"

    @property
    def count(self) -> int:
        """How many parts can be faulty."""
        return sum(self.parts_of.values()) if self.is_of_gates else len(self.parts_of)

    def text(self) -> str:
        """The file after its first line."""
        nets = self.board.used_nets
        outer = [self.name(net) for net in nets if net.is_input]
        inner = [*(self.name(net) for net in nets if not net.is_input), *self.inner]
        top = self.kinds.give("BOARD")
        lines = [*(line for lines in self.types.values() for line in lines), *self.block_lines]
        lines.append(" ".join(["block", top, *outer]))
        lines += [" ".join(["wire", *inner[at : at + WIRES_ON_A_LINE]]) for at in range(0, len(inner), WIRES_ON_A_LINE)]
        return "\n".join([*lines, *self.lines, "end", "", f"top {top}"]) + "\n"
