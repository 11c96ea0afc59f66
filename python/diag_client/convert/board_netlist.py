"""Writes a board with flip-flops as a netlist over clock periods. A gate has the name of its chip and its output pin, such as `U3.6`."""

from __future__ import annotations

from ..devices import GATES
from .board import Board, Driver, Net, Placed
from .board_design import Names
from .chips import FORCED, Function
from .circuit import Circuit


class Gates:
    """The circuit of a board while it is made. All wires have the names that they have in the file."""

    def __init__(self, board: Board) -> None:
        self.board = board
        self.circuit = Circuit()
        self.names = Names("(),=#")
        self.placed = {placed.reference: placed for placed in board.chips}
        # The wire of each net, and of each name in a chip.
        self.nets: dict[int, str] = {}
        self.wires: dict[tuple[str, str], str] = {}
        for placed in board.chips:
            for function in placed.functions:
                pin = placed.pins.get(function.output)
                name = self.names.give(f"{placed.reference}.{pin.number if pin else function.output}")
                self.wires[placed.reference, function.output] = name
        for net in board.used_nets:
            self.nets[id(net)] = self.wire_of_driver(net.drivers[0]) if board.is_direct(net) else self.names.give(net.name)
        for placed in board.chips:
            for function in placed.functions:
                self.add(placed, function)
        for net in board.used_nets:
            self.add_net(net)
        self.drop_clock_gates()
        self.circuit.settle()

    def wire_of_driver(self, driver: Driver) -> str:
        """The wire that a pin offers to its net."""
        return self.wires[driver.node.reference, driver.pin.name]

    def new_wire(self, wanted: str) -> str:
        """A name for a further gate."""
        return self.names.give(wanted)

    def gate(self, name: str, kind: str, *inputs: str) -> str:
        """Adds a gate, and gives its wire."""
        self.circuit.add_gate(name, kind, inputs)
        return name

    def read(self, placed: Placed, name: str) -> str:
        """The wire of a name in a chip: of the net at a pin that is read, else of what a function puts out."""
        pin = placed.pins.get(name)
        if pin is not None and pin.direction.is_read:
            return self.nets[id(placed.nets[name])]
        return self.wires[placed.reference, name]

    def add(self, placed: Placed, function: Function) -> None:
        """Adds a function of a chip."""
        wire = self.wires[placed.reference, function.output]
        reads = {role: self.read(placed, name) for role, name in function.reads.items()}
        if function.kind in GATES:
            self.gate(wire, function.kind, *(self.read(placed, name) for name in function.inputs))
        elif function.kind == "TRISTATE":
            self.gate(wire, "BUFF", reads["data"])
            self.wires[placed.reference, f"{function.output} on"] = self.gate(self.new_wire(f"{wire}_on"), "BUFF", reads["gate"])
        elif function.kind == "FLIPFLOP":
            # A set or a clear that is tied off is no gate.
            levels = levels_in(placed)
            tied_off = {role for role, name in function.reads.items() if role in FORCED and levels.get(name) == 0}
            self.add_flip_flop(wire, {role: name for role, name in reads.items() if role not in tied_off})
        else:
            self.add_latch(wire, reads)

    def add_flip_flop(self, wire: str, reads: dict[str, str]) -> None:
        """Adds a flip-flop. A set or a clear acts on what it puts out, and on what it stores, in the whole clock period."""
        role = "rise" if "rise" in reads else "fall"
        edge = "rising" if role == "rise" else "falling"
        stored = wire if reads.keys() <= {"data", "rise", "fall"} else self.new_wire(f"{wire}_stored")
        taken = self.override(self.new_wire(f"{wire}_next"), reads["data"], reads) if stored != wire else reads["data"]
        self.circuit.add_flip_flop(stored, taken, reads[role], edge)
        if stored != wire:
            self.override(wire, stored, reads)

    def override(self, wire: str, source: str, reads: dict[str, str]) -> str:
        """Adds gates for a bit that a clear makes 0, and a set 1."""
        if "clear" in reads:
            let = self.gate(self.new_wire(f"{wire}_let"), "NOT", reads["clear"])
            source = self.gate(wire if "set" not in reads else self.new_wire(f"{wire}_kept"), "AND", source, let)
        return self.gate(wire, "OR", source, reads["set"]) if "set" in reads else source

    def add_latch(self, wire: str, reads: dict[str, str]) -> None:
        """Adds a latch as a loop of gates, which may hold either bit."""
        source = wire
        is_last = not reads.keys() & {"set", "clear"}
        if "gate" in reads:
            follows = self.gate(self.new_wire(f"{wire}_follows"), "AND", reads["data"], reads["gate"])
            shut = self.gate(self.new_wire(f"{wire}_shut"), "NOT", reads["gate"])
            holds = self.gate(self.new_wire(f"{wire}_holds"), "AND", wire, shut)
            source = self.gate(wire if is_last else self.new_wire(f"{wire}_stored"), "OR", follows, holds)
        if not is_last:
            self.override(wire, source, reads)

    def levels(self) -> dict[str, int]:
        """The levels of constants, and of the gates that read nothing else."""
        found = {name: level for name, level in self.circuit.constants.items() if level is not None}
        count = -1
        while count != len(found):
            count = len(found)
            for node in self.circuit.nodes:
                if found.keys() >= set(node.inputs):
                    found[node.output] = GATES[node.kind or ""].output([found[name] for name in node.inputs])
        return found

    def source_of(self, clock: str, edge: str, levels: dict[str, int]) -> tuple[str, str]:
        """Where a clock comes from, through gates that only hand it on, and at which edge there flip-flops step."""
        nodes = {node.output: node for node in self.circuit.nodes}
        seen = set()
        while (node := nodes.get(clock)) and clock not in seen:
            seen.add(clock)
            rest = set(node.inputs) - levels.keys()
            bits = [GATES[node.kind or ""].output([levels.get(name, bit) for name in node.inputs]) for bit in (0, 1)]
            if len(rest) != 1 or bits[0] == bits[1]:
                break
            if bits[0]:
                edge = "falling" if edge == "rising" else "rising"
            clock = rest.pop()
        return clock, edge

    def drop_clock_gates(self) -> None:
        """Leaves out the gates that only hand on a clock, and that nothing else reads."""
        circuit, levels = self.circuit, self.levels()
        circuit.clocks = {self.source_of(*clock, levels) for clock in circuit.clocks}
        known = levels.keys() | {clock for clock, _ in circuit.clocks}
        reads: dict[str, set[str]] = {}
        while found := {node.output: set(node.inputs) for node in circuit.nodes if node.output not in known and known >= set(node.inputs)}:
            reads |= found
            known |= found.keys()
        waiting = [*circuit.flip_flops.values(), *(name for node in circuit.nodes if node.output not in reads for name in node.inputs)]
        while waiting:
            waiting += reads.pop(waiting.pop(), ())
        if reads:
            circuit.nodes = [node for node in circuit.nodes if node.output not in reads]
            circuit.outputs = [wire for wire in circuit.outputs if wire not in reads]
            circuit.left_out.append(f"gates that only hand on the clock: {' '.join(reads)}")

    def add_net(self, net: Net) -> None:
        """Adds what gives a net its level, its names, and whether it is an output."""
        wire = self.nets[id(net)]
        if net.is_constant:
            self.circuit.add_constant(wire, net.constant)
        elif net.is_input:
            self.circuit.add_input(wire)
        elif not self.board.is_direct(net):
            self.resolve(net, wire)
        if not net.is_constant:
            for name in net.names:
                if name != wire and name not in self.circuit.driven:
                    self.circuit.connect(name, wire)
        if net.drivers and net.is_free:
            self.circuit.outputs.append(wire)

    def resolve(self, net: Net, wire: str) -> None:
        """Adds gates for a net with drivers that may let go: while all do so it has the level of its pull, or 1."""
        kinds = [self.board.kind_of(driver) for driver in net.drivers]
        is_down = self.board.pull_of(net) == 0 and "OPEN" not in kinds
        if "TRISTATE" in kinds and self.board.pull_of(net) is None:
            self.board.remarks.append(f"net {net.name} is taken as 1 while nothing drives it")
        reads = []
        for driver, kind in zip(net.drivers, kinds):
            data = self.wire_of_driver(driver)
            if kind == "TRISTATE":
                on = self.wires[driver.node.reference, f"{driver.pin.name} on"]
                if is_down:
                    data = self.gate(self.new_wire(f"{data}_drives"), "AND", data, on)
                else:
                    lets_go = self.gate(self.new_wire(f"{data}_off"), "NOT", on)
                    data = self.gate(self.new_wire(f"{data}_drives"), "OR", data, lets_go)
            reads.append(data)
        self.gate(wire, "OR" if is_down else "AND", *reads)


def levels_in(placed: Placed) -> dict[str, int]:
    """The levels of the pins of a chip that are tied, and of what is in it and reads nothing else."""
    found = {name: net.constant for name, net in placed.nets.items() if net.is_constant}
    for function in placed.functions:
        if function.kind in GATES and found.keys() >= set(function.inputs):
            found[function.output] = GATES[function.kind].output([found[name] for name in function.inputs])
    return found
