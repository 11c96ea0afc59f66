"""Each chip alone on a board: the netlist is converted and served, and the program says of every output what the chip's rule says."""

import collections
import pathlib
import random
import tempfile
import unittest

import chip_rules
import chip_rules_stored
from support import needs_program
from test_chips import SEED, different_chips, driven_pins, read_pins, rules_of

from diag_client import Service
from diag_client.convert.chips import Direction, find_chip
from diag_client.convert.circuit import UnusableNetlist
from diag_client.convert.netlist import convert

# So many random rows for each chip.
ROWS = 4
KINDS = {Direction.IN: "input", Direction.OUT: "output", Direction.TRISTATE: "tri_state", Direction.OPEN: "open_collector"}
# At which net a pin that can stop a clock lets it be.
GATING = {"INH": "GND", "EN": "VCC"}
# So many clock periods.
TIMES = 2
TRANSCEIVERS = {"74242", "74243"}


def part(reference, value):
    return f'(comp (ref "{reference}") (value "{value}") (libsource (lib "") (part "{value}")))'


def node(reference, pin, kind="passive"):
    return f'(node (ref "{reference}") (pin "{pin}") (pintype "{kind}"))'


def board_text(parts, nets):
    """A netlist of KiCad."""
    texts = [f'(net (name "{name}") {" ".join(nodes)})' for name, nodes in nets.items()]
    return f"(export (components {' '.join(parts)}) (nets {' '.join(texts)}))"


def board_of(chip, tied=()):
    """A netlist: inputs are at a connector, outputs at test points, and open collectors have a resistor. Pins may be tied to nets."""
    parts, nets = [part("U1", chip.numbers[0]), part("J1", "Conn")], {"VCC": [], "GND": []}
    for pin in chip.pins.values():
        here = node("U1", pin.number, KINDS.get(pin.direction, "bidirectional"))
        if pin.direction is Direction.POWER:
            nets["GND" if pin.name in ("GND", "VSS") else "VCC"].append(node("U1", pin.number, "power_in"))
        elif pin.name in dict(tied):
            nets.setdefault(dict(tied)[pin.name], []).extend([here, node("J1", pin.number)])
        elif pin.direction is not Direction.UNUSED:
            parts.append(part(f"TP{pin.number}", "TestPoint"))
            nets[pin.name] = [here, node("J1", pin.number) if pin.direction.is_read else node(f"TP{pin.number}", 1)]
        if pin.direction is Direction.OPEN:
            parts.append(part(f"R{pin.number}", "R"))
            nets[pin.name].append(node(f"R{pin.number}", 1))
            nets["VCC"].append(node(f"R{pin.number}", 2))
    return board_text(parts, nets)


@needs_program
class Converted(unittest.TestCase):
    def setUp(self):
        self.folder = pathlib.Path(self.enterContext(tempfile.TemporaryDirectory()))

    def test_chips_as_parts(self):
        self.check(is_of_gates=False)

    def test_gates_as_parts(self):
        self.check(is_of_gates=True)

    def check(self, is_of_gates):
        for chip in different_chips():
            for rule in rules_of(chip, chip_rules.PLAIN):
                with self.subTest(chip.title, numbers=chip.numbers):
                    board, device = self.folder / "one.net", self.folder / "one.dev"
                    board.write_text(board_of(chip))
                    convert(board, device, is_of_gates)
                    with Service(device, narrow=True) as service:
                        self.check_rows(chip, rule, service)

    def check_rows(self, chip, rule, service):
        random_bits = random.Random(SEED)
        for _ in range(ROWS):
            row = {name: random_bits.getrandbits(1) for name in read_pins(chip)}
            if set(chip.numbers) & TRANSCEIVERS:
                # Both ways at once is a loop.
                row["GBA"] = row["GAB_n"]
            wanted = rule(row)
            ways = {pin.name for pin in chip.pins.values() if pin.direction is Direction.BUS}
            # What a pin that goes both ways puts out decides its level, but a pin that pulls to 0 lets others pull, too.
            seen = {name: bit for name, bit in row.items() if name not in ways or wanted[name] is None}
            if "BI_RBO_n" in row:
                seen["BI_RBO_n"] = wanted["BI_RBO_n"] & row["BI_RBO_n"]
            with service.session() as session:
                session.see(seen)
                self.assertEqual(session.minimum().cost, 0, row)
                probes = session.probe_each([name for name in driven_pins(chip) if name not in seen])
                found = {probe.wire: probe.fault_free for probe in probes}
                self.assertEqual(found, {wire: wanted[wire] for wire in found}, row)


@needs_program
class Clocked(unittest.TestCase):
    """Chips with flip-flops over clock periods, with all clocks at one net."""

    # Some of each way to step, to set and to clear, all of whose bits can be seen.
    NUMBERS = "4013 4017 4027 4518 7474 7476 7490 7492 7493 74109 74114 74164 74174 74195 74298 74377 74390"
    # Their gates read the clock, too.
    REFUSED = ("74191", "74193")

    def setUp(self):
        self.folder = pathlib.Path(self.enterContext(tempfile.TemporaryDirectory()))
        self.board, self.device = self.folder / "one.net", self.folder / "one.bench"

    def convert(self, text):
        """What is said of a netlist with its gates as parts."""
        self.board.write_text(text)
        return convert(self.board, self.device, is_of_gates=True)

    def test_flip_flops_step_as_the_rules_say(self):
        for number in self.NUMBERS.split():
            chip = find_chip(number)
            with self.subTest(chip.title, number=number):
                self.check_periods(chip, *rules_of(chip, chip_rules_stored.STORING))

    def check_periods(self, chip, rule):
        words = {name: name.lstrip("12") for name in read_pins(chip) if name.lstrip("12") in chip_rules_stored.CLOCKS}
        # What stops a clock is tied, so that it does not.
        stops = {name: GATING[word] for name, word in words.items() if word in GATING}
        self.convert(board_of(chip, {name: stops.get(name, "CLOCK") for name in words}))
        random_bits = random.Random(SEED)
        others = [name for name in read_pins(chip) if name not in words]
        before_edge = int(any("fall" in function.roles for function in chip.functions))
        with Service(self.device, narrow=True, frames=TIMES) as service:
            for _ in range(ROWS):
                rows = [{name: random_bits.getrandbits(1) for name in others} for _ in range(TIMES)]
                still = {name: before_edge for name in words} | {name: int(net == "VCC") for name, net in stops.items()}
                edge = still | {name: 1 - before_edge for name in words if name not in stops}
                self.check_run(rule, rows, still, edge, service)

    def check_run(self, rule, rows, still, edge, service):
        stored = collections.defaultdict(int)
        shown = []
        before = rows[0] | still
        for row in rows:
            for clocks in (still, edge, still):
                levels = row | clocks
                found = rule(levels, before, stored)
                shown += [found] if clocks is still and before.items() >= still.items() else []
                before = levels
        inputs = {f"{name}@{time:04}": bit for time, row in enumerate(rows, 1) for name, bit in row.items()}
        seen = {wire: bit for wire, bit in inputs.items() if wire in service.wires}
        with service.session() as session:
            session.see(seen | {f"{name}@0001": bit for name, bit in shown[0].items()})
            self.assertEqual(session.minimum().cost, 0, rows)
            wanted = {f"{name}@{time:04}": bit for time, found in enumerate(shown[1:], 2) for name, bit in found.items()}
            found = [probe.fault_free for probe in session.probe_each(list(wanted))]
            self.assertEqual(dict(zip(wanted, found)), wanted, rows)

    def test_a_clock_that_gates_read_is_refused(self):
        for number in self.REFUSED:
            with self.subTest(number), self.assertRaisesRegex(UnusableNetlist, "the clock CLOCK is read by a gate"):
                chip = find_chip(number)
                clocks = {name: "CLOCK" for name in read_pins(chip) if name in ("CLK", "UP")}
                self.convert(board_of(chip, clocks | {"DN": "VCC"}))

    def test_a_nand_gate_with_both_inputs_at_a_clock_hands_it_on(self):
        nets = {
            "CLOCK": [node("U1", 1, "input"), node("U1", 2, "input"), node("J1", 1)],
            "UNCLOCK": [node("U1", 3, "output"), node("U2", 3, "input")],
            "BACK": [node("U2", 2, "input"), node("U2", 6, "output")],
            "Q": [node("U2", 5, "output"), node("J1", 2)],
            "VCC": [node("U2", 1, "input"), node("U2", 4, "input"), node("U2", 14, "power_in")],
        }
        said = self.convert(board_text([part("U1", "7400"), part("U2", "7474"), part("J1", "Conn")], nets))
        self.assertIn("left out: the clock CLOCK", said)
        self.assertEqual(self.device.read_text().split("\n")[1:], ["OUTPUT(U2.5)", "U2.5 = DFF(U2.6)", "U2.6 = NOT(U2.5)", ""])

    def test_an_oscillator_is_not_blamed(self):
        nets = {
            "IN": [node("U1", 1, "input"), node("R1", 1), node("C1", 1)],
            "OUT": [node("U1", 2, "output"), node("R1", 2), node("U1", 3, "input")],
            "Y": [node("U1", 4, "output"), node("J1", 1)],
            "GND": [node("C1", 2)],
        }
        self.board.write_text(board_text([part(name, name) for name in ("R1", "C1", "J1")] + [part("U1", "7414")], nets))
        for is_of_gates in (False, True):
            device = self.folder / "one.dev"
            said = convert(self.board, device, is_of_gates)
            self.assertIn("R1 feeds a gate back to itself, and is left out: IN may have any level", said)
            with Service(device) as service, service.session() as session:
                for bit in (0, 1):
                    session.see(OUT=bit)
                    self.assertEqual(session.minimum().cost, 0)


if __name__ == "__main__":
    unittest.main()
