"""Netlists of boards that KiCad exports: what is read, what is understood, and that what is written behaves as the chips do."""

import itertools
import os
import pathlib
import random
import re
import subprocess
import sys
import tempfile
import unittest

import chip_rules
from support import EXAMPLES, PROGRAM, TOP, needs_program

from diag_client import Service
from diag_client.convert import netlist
from diag_client.convert.board import Role, letters_of, read_board
from diag_client.convert.chips import all_chips
from diag_client.convert.circuit import UnusableNetlist
from diag_client.convert.kicad import read_kicad
from diag_client.devices import GATES, other_names, pins_at, read_device

BOARDS = EXAMPLES / "boards"
SEED = 4


def quoted(text):
    return f'"{text}"'


def netlist_of(parts, nets, quote=quoted, has_kinds=True):
    """A netlist as KiCad writes it: parts as (reference, value, library:symbol, fields), nets as name and pins."""
    lines = ['(export (version "E")', "  (components"]
    for reference, value, symbol, *fields in parts:
        library, _, name = symbol.partition(":")
        lines.append(f"    (comp (ref {quote(reference)})\n      (value {quote(value)})")
        lines.append(f"      (libsource (lib {quote(library)}) (part {quote(name)}) (description \"\"))")
        lines += [f"      (property (name {quote(field)}) (value \"\"))" for field in fields]
        lines.append('      (sheetpath (names "/") (tstamps "/")))')
    lines += ["  )", "  (nets"]
    for code, (name, pins) in enumerate(nets.items(), 1):
        lines.append(f"    (net (code {quote(str(code))}) (name {quote(name)})")
        for pin in pins.split():
            reference, _, rest = pin.partition(".")
            number, _, kind = rest.partition(":")
            said = f' (pintype "{kind}")' if kind and has_kinds else ""
            lines.append(f"      (node (ref {quote(reference)}) (pin {quote(number)}){said})")
        lines.append("    )")
    return "\n".join([*lines, "  )", ")", ""])


SELECTOR = (
    [("U1", "74LS00", "74xx:74LS00"), ("J1", "IN", "Connector_Generic:Conn_01x03"), ("TP1", "Y", "Connector:TestPoint"), ("C1", "100n", "Device:C")],
    {
        "/A[0]": "J1.1:passive U1.4:input", "/007": "J1.2:passive U1.9:input", "/SELECT": "J1.3:passive U1.1:input U1.2:input U1.10:input",
        "Net-(U1-Pad3)": "U1.3:output U1.5:input", "Net-(U1-Pad12)": "U1.6:output U1.12:input", "Net-(U1-Pad13)": "U1.8:output U1.13:input",
        "/Y": "TP1.1:passive U1.11:output", "GND": "U1.7:power_in C1.2:passive", "VCC": "U1.14:power_in C1.1:passive",
    },
)


def xml_of(parts, nets):
    """The same netlist in the XML form."""
    lines = ['<?xml version="1.0" encoding="UTF-8"?>', '<export version="E">', "<components>"]
    for reference, value, symbol in parts:
        library, _, name = symbol.partition(":")
        lines.append(f'<comp ref="{reference}"><value>{value}</value><libsource lib="{library}" part="{name}" description=""/></comp>')
    lines += ["</components>", "<nets>"]
    for name, pins in nets.items():
        nodes = re.sub(r"(\w+)\.(\w+):(\w+)", r'<node ref="\1" pin="\2" pintype="\3"/>', pins)
        lines.append(f'<net code="1" name="{name}">{nodes}</net>')
    return "\n".join([*lines, "</nets>", "</export>", ""])


class Settled:
    """A design or a netlist that was written: the bits of its wires if all its parts are ok, as far as they follow."""

    def __init__(self, path):
        self.device = read_device(path)
        self.rows = {}
        name = ""
        for line in path.read_text().split("\n") if path.suffix == ".dev" else []:
            match line.split():
                case ["type", name, *_]:
                    self.rows[name] = set()
                case ["ok", row]:
                    self.rows[name].add(row)

    def allowed(self, part, reads):
        """The bits that a part allows at its last port, given some of the others."""
        if part.kind not in GATES:
            return {int(row[-1]) for row in self.rows[part.kind] if all(bit in (None, int(mark)) for bit, mark in zip(reads, row))}
        every = itertools.product(*([0, 1] if bit is None else [bit] for bit in reads))
        return {GATES[part.kind].output(bits) for bits in every}

    def bits(self, given):
        found, count = dict(given), -1
        while count != len(found):
            count = len(found)
            for part in self.device.parts:
                reads = [found.get(wire) for wire in part.wires[:-1]]
                if part.kind != "DFF" and part.wires[-1] not in found and len(self.allowed(part, reads)) == 1:
                    (found[part.wires[-1]],) = self.allowed(part, reads)
        return found


class Boards(unittest.TestCase):
    """A folder of its own for each test."""

    def setUp(self):
        folder = tempfile.TemporaryDirectory()
        self.addCleanup(folder.cleanup)
        self.folder = pathlib.Path(folder.name)

    def convert(self, parts, nets, out=None, **options):
        """What is said of a board, and the file."""
        given = self.folder / "board.net"
        given.write_text(netlist_of(parts, nets))
        said = netlist.convert(given, out and self.folder / out, **options)
        return said, pathlib.Path(said[0].split(":")[0])

    def refused(self, text, name="board.net", **options):
        given = self.folder / name
        given.write_text(text)
        with self.assertRaises(UnusableNetlist) as raised:
            netlist.convert(given, **options)
        self.assertEqual({path.name for path in self.folder.iterdir()}, {name})
        given.unlink()
        return str(raised.exception)


class Read(Boards):
    """The forms of a netlist."""

    def test_forms(self):
        """Version 6 and later quote all words, version 5 only some, and the XML says the same."""
        wanted = read_kicad(netlist_of(*SELECTOR), False)
        self.assertEqual([str(node) for node in wanted.nets["/A[0]"]], ["J1.1", "U1.4"])
        bare = netlist_of(*SELECTOR, quote=lambda text: f'"{text}"' if re.search(r"[\s()-]", text) else text)
        self.assertEqual(read_kicad(bare.replace('"E"', "D"), False), wanted)
        self.assertEqual(read_kicad(xml_of(*SELECTOR), True), wanted)
        mark = "\N{BYTE ORDER MARK}"
        self.assertEqual(read_kicad(mark + bare.replace("\n", "\r\n"), False), wanted)
        self.assertEqual(read_kicad(mark + xml_of(*SELECTOR), True), wanted)
        self.assertIn("/007", wanted.nets)

    def test_kinds_of_version_5(self):
        """Then the pins of a symbol say of what kind they are."""
        text = netlist_of(*SELECTOR, has_kinds=False)
        pins = "".join(f"(pin (num {number}) (name ~) (type {kind}))" for number, kind in ((3, "output"), (1, "input"), (4, "BiDi"), (5, "openCol")))
        text = text.replace("  (nets", f"  (libparts (libpart (lib 74xx) (part 74LS00) (pins {pins})))\n  (nets")
        kinds = {str(node): node.kind for nodes in read_kicad(text, False).nets.values() for node in nodes}
        self.assertEqual([kinds[f"U1.{number}"] for number in (3, 1, 4, 5, 6)], ["output", "input", "bidirectional", "open_collector", ""])

    def test_broken(self):
        whole = netlist_of(*SELECTOR)
        for text, why in (
            ("", "do not match"), (whole[:-30], "the file is not whole"), (whole + ")", "do not match"), (whole.replace('"74LS00")', '"74LS00)', 1), "do not match"),
            ("( { EESchema Netlist Version 1.1 created }\n)\n", "this is no netlist of KiCad; in KiCad's schematic editor: File, Export"),
            ("(kicad_sch (version 20211123))", "this is no netlist of KiCad"), ("(" * 100000, "do not match"),
            (whole.replace('(ref "U1")\n', "\n"), "a comp without its ref"), (whole.replace('(pin "4")', ""), "/A[0]: a node without its pin"),
            (whole.replace('(ref "TP1")\n', '(ref "U1")\n'), "two parts U1: annotate"), (whole.replace('(pin "4")', '(pin "9")'), "U1.9 is at two nets"),
            (whole.replace('(ref "J1") (pin "1")', '(ref "J7") (pin "1")'), "J7, which is no part of the schematic"),
        ):
            self.assertIn(why, self.refused(text), text[-60:])
        self.assertIn("no XML of KiCad", self.refused("<export>", "board.xml"))
        self.assertIn("this is no netlist", self.refused("<a/>", "board.xml"))
        self.assertIn("--gates and --strict are for", self.refused("INPUT(a)\n", "x.bench", is_strict=True))

    def test_cut(self):
        """A file that was cut anywhere is refused, or says less of what is not needed."""
        whole = netlist_of(*SELECTOR)
        for end in range(0, len(whole) - 1, 37):
            self.assertTrue(self.refused(whole[:end]))

    def test_real_exports(self):
        """KiCad 6 wrote these."""
        for name, chips, inputs in (("adder", 3, 9), ("counter", 12, 15)):
            schematic = read_kicad((BOARDS / f"{name}.net").read_text(), False)
            board = read_board(schematic)
            self.assertEqual((len(board.chips), sum(net.is_input for net in board.used_nets), board.unknown), (chips, inputs, []))
        wanted = read_kicad((BOARDS / "adder.net").read_text(), False)
        self.assertEqual(read_kicad((BOARDS / "adder.xml").read_text(), True), wanted)


class Understood(Boards):
    """What a board has, and what is said of it."""

    def test_selector(self):
        said, path = self.convert(*SELECTOR)
        self.assertEqual(said[0], f"{path}: 1 chips, 3 inputs")
        settled = Settled(path)
        for a, b, select in itertools.product((0, 1), repeat=3):
            bits = settled.bits({"/A[0]": a, "/007": b, "/SELECT": select})
            self.assertEqual(bits["/Y"], b if select else a)
        names = other_names(path)
        self.assertEqual([names[name] for name in ("U1.3", "TP1", "Net-(U1-Pad3)", "J1.2")], ["Net-U1-Pad3", "/Y", "Net-U1-Pad3", "/007"])
        pins = path.with_name("board.dev.pins").read_text().split("\n")
        self.assertIn("/Y\tTP1\t\ttest point\t", pins)
        self.assertIn("Net-U1-Pad12\tU1.6\t2Y\tout\t74LS00", pins)
        self.assertFalse([line for line in pins if "C1" in line or "U1.7" in line])

    def test_gates(self):
        _, path = self.convert(*SELECTOR, is_of_gates=True)
        self.assertEqual([part.name for part in read_device(path).parts], ["U1.11", "U1.3", "U1.6", "U1.8"])

    def test_renamed(self):
        """Brackets go, what is illegal is a line, and no two nets get one name."""
        names = {"Net-(U1-Pad4)": "Net-U1-Pad4", "Net-U1-Pad4": "Net-U1-Pad4-2", "/A.B": "/A_B", "/A B": "/A_B-2", "/é,=#": "/____"}
        nets = {name: f"J1.{place}:passive U1.{pin}:input" for place, (name, pin) in enumerate(zip(names, (1, 3, 5, 9, 11)), 1)}
        outputs = {f"/Y{pin}": f"J1.{pin + 10}:passive U1.{pin}:output" for pin in (2, 4, 6, 8, 10)}
        said, path = self.convert([("U1", "74HC04", "74xx:74HC04"), ("J1", "", "Connector_Generic:Conn_01x20")], nets | outputs)
        told = [line for line in said if line.startswith("renamed")]
        self.assertEqual(told, [f"renamed: {old} is {new}" for old, new in names.items() if old != new])
        self.assertEqual({wire for wire in read_device(path).wires if wire in names.values()}, set(names.values()))

    def test_passive_parts(self):
        """A resistor to a supply makes a constant, unless something else may drive the net; one in series is a wire."""
        parts = [("U1", "74LS00", "74xx:74LS00"), ("J1", "", "Connector_Generic:Conn_01x04"), ("SW1", "", "Switch:SW_Push"), ("D1", "", "Device:LED")]
        parts += [(f"R{number}", "1k", "Device:R") for number in range(1, 5)] + [("C1", "", "Device:C"), ("R9", "", "Device:R", "dnp")]
        nets = {
            "/PULLED": "R1.1:passive U1.1:input", "/SWITCHED": "R2.1:passive SW1.1:passive U1.2:input C1.1:passive",
            "+5V": "R1.2:passive R2.2:passive U1.14:power_in R9.1:passive", "GND": "U1.7:power_in SW1.2:passive C1.2:passive D1.1:passive",
            "/NEAR": "U1.3:output R3.1:passive", "/FAR": "R3.2:passive U1.4:input R9.2:passive", "/TIED": "U1.5:input J1.1:passive",
            "/LIT": "U1.6:output R4.1:passive J1.2:passive", "/LED": "R4.2:passive D1.2:passive",
        }
        said, path = self.convert(parts, nets)
        self.assertEqual(said[3:], ["not fitted: R9", "R3 is taken as a wire: /FAR is /NEAR"])
        settled = Settled(path)
        self.assertEqual(settled.bits({"/SWITCHED": 0, "/TIED": 1})["/LIT"], 0)
        self.assertEqual({name: settled.bits({"/SWITCHED": 1, "/TIED": 1})[name] for name in ("/PULLED", "/NEAR", "/LIT")}, {"/PULLED": 1, "/NEAR": 0, "/LIT": 1})
        self.assertEqual(other_names(path)["/FAR"], "/NEAR")

    def test_networks(self):
        """The first pin of a star is common, and a pack has resistors across."""
        parts = [("U1", "4081", "4xxx:4081"), ("RN1", "10k", "Device:R_Network03"), ("RN2", "0", "Device:R_Pack02"), ("J1", "", "Connector_Generic:Conn_01x04")]
        nets = {
            "VDD": "RN1.1:passive U1.14:power_in", "VSS": "U1.7:power_in", "/ONE": "RN1.3:passive U1.1:input", "/A": "J1.1:passive RN2.1:passive",
            "/A2": "RN2.4:passive U1.2:input", "/Y": "U1.3:output RN2.2:passive", "/Y2": "RN2.3:passive J1.2:passive",
        }
        said, path = self.convert(parts, nets)
        self.assertEqual(said[3:], ["RN2 is taken as a wire: /A2 is /A", "RN2 is taken as a wire: /Y2 is /Y"])
        self.assertEqual([Settled(path).bits({"/A": bit})["/Y"] for bit in (0, 1)], [0, 1])

    def test_unknown(self):
        """What is not understood is told, what it drives is free, and `--strict` refuses it."""
        parts = [("U1", "74LS08", "74xx:74LS08"), ("U2", "LM393", "Comparator:LM393"), ("Q1", "BC547", "Transistor_BJT:BC547"), ("J1", "", "Connector:Conn_01x02")]
        nets = {"/HIGH": "U2.1:open_collector U1.1:input", "/C": "Q1.1:passive U1.2:input", "/Y": "U1.3:output Q1.2:input J1.1:passive"}
        said, path = self.convert(parts, nets)
        free = "what it drives may have any level"
        self.assertEqual(said[2:], [f"not understood: U2 (LM393): no chip of the library; {free}", f"not understood: Q1 (BC547): no chip of the library; {free}"])
        self.assertEqual(Settled(path).bits({"/HIGH": 1, "/C": 1})["/Y"], 1)
        for file in self.folder.iterdir():
            file.unlink()
        self.assertIn("this is not understood:\n  U2 (LM393)", self.refused(netlist_of(parts, nets), is_strict=True))

    def test_reports(self):
        chips = [("U1", "74LS00", "74xx:74LS00"), ("U2", "74LS05", "74xx:74LS05"), ("J1", "", "Connector_Generic:Conn_01x04")]
        inputs = {"/A": "J1.1:passive U1.1:input U1.2:input U1.4:input U2.1:input"}
        for nets, why in (
            ({"/Y": "U1.3:output U1.6:output J1.2:passive", "/B": "U1.5:input J1.3:passive"}, "net /Y has several drivers: U1.3 U1.6"),
            ({"GND": "U1.3:output U1.7:power_in", "/Y": "U1.6:output J1.2:passive", "/B": "U1.5:input J1.3:passive"}, "U1.3: an output at the supply GND"),
            ({"/Y": "U1.6:output J1.2:passive", "unconnected-(U1-Pad5)": "U1.5:input"}, "unused input: U1.5 (2B); it may have any level"),
            ({"/Y": "U1.6:output J1.2:passive", "/B": "U1.5:input U1.9:input"}, "unused input: U1.5 (2B); it may have any level"),
            ({"/Y": "U1.6:output J1.2:passive"}, "unused input: U1.5 (2B); it may have any level"),
            ({"/Y": "U2.2:open_collector U1.9:input", "/Z": "U1.8:output J1.3:passive", "/B": "U1.10:input J1.4:passive"},
             "net /Y has no pull-up at its open collector: U2.2"),
        ):
            said, _ = self.convert(chips, inputs | nets)
            self.assertEqual([line for line in said[1:] if not re.search(r"\.names:|\.pins:|^renamed", line)], [why], nets)

    def test_other_chips(self):
        """A pin or a symbol that is not as the library has it makes a chip unknown, and a supply at two levels is refused."""
        nets = {"/A": "U1.1:input J1.1:passive", "/Y": "U1.3:output J1.2:passive", "/B": "U1.2:input J1.3:passive"}
        jack = ("J1", "", "Connector_Generic:Conn_01x04")
        for value, symbol, more, why in (
            ("74LS00", "74xx:74LS04", {}, "its value is 74LS00 and its symbol 74LS04"),
            ("74LS00", "74xx:74LS00", {"/Z": "U1.15:input J1.4:passive"}, "a 7400 has no pin 15"),
            ("74LS00", "74xx:74LS00", {"/Z": "U1.4:output J1.4:passive"}, "pin 4 is in of a 7400, and output in the netlist"),
            ("74LS00", "74xx:74LS00", {"/Z": "U1.6:input J1.4:passive"}, "pin 6 is out of a 7400, and input in the netlist"),
            ("74LS00", "74xx:74LS00", {"/Z": "U1.14:input J1.4:passive"}, "pin 14 is power of a 7400, and input in the netlist"),
        ):
            self.assertIn(why, self.refused(netlist_of([("U1", value, symbol), jack], nets | more), is_strict=True))
        text = netlist_of([("U1", "74LS00", "74xx:74LS00"), jack], nets | {"GND": "U1.14:power_in U1.7:power_in"})
        self.assertIn("net GND is a supply of the level 0 by its name, but pin U1.14 (VCC) is at it", self.refused(text))
        self.assertIn("no chip of the library drives anything", self.refused(netlist_of([jack], {"/A": "J1.1:passive"})))

    def test_supplies(self):
        """A net is a supply by its name alone, too, and a signal with a longer name is none."""
        for name, level in (
            ("GND", 0), ("/power/AGND", 0), ("0V", 0), ("VSS", 0), ("+5V", 1), ("+3.3V", 1), ("3V3", 1), ("VDD", 1),
            ("/VCC_OK", None), ("-5V", None), ("/GND_SENSE", None),
        ):
            nets = {name: "U1.1:input U1.2:input", "/Y": "U1.3:output J1.1:passive"}
            schematic = read_kicad(netlist_of([("U1", "74LS00", "74xx:74LS00"), ("J1", "", "Connector:X")], nets), False)
            self.assertEqual([net.level for net in read_board(schematic).nets if net.name == name], [level], name)

    def test_endings(self):
        text = netlist_of(*SELECTOR)
        for out, options, why in (("x.bench", {}, "give --gates"), ("x.net", {}, "does not end in .bench or .dev")):
            (self.folder / "board.net").write_text(text)
            with self.assertRaisesRegex(UnusableNetlist, why):
                netlist.convert(self.folder / "board.net", self.folder / out, **options)

    def test_roles(self):
        self.assertEqual([letters_of(text) for text in ("U12", "rn3", "7", "")], ["U", "RN", "", ""])
        self.assertEqual(len(Role), 6)


class Wiring(Boards):
    """Nets that more than one pin drives, or that may be let go."""

    def levels(self, parts, nets, wires, given, **options):
        """The levels of some wires if all parts are ok; None if one does not follow."""
        _, path = self.convert(parts, nets, **options)
        bits = Settled(path).bits(given)
        return [bits.get(other_names(path).get(wire, wire)) for wire in wires]

    def test_open_collectors(self):
        """With a pull-up the net is 1 if all let go. Without one it may be anything then, and with a lamp it is 1."""
        parts = [("U1", "74LS05", "74xx:74LS05"), ("J1", "", "Connector_Generic:Conn_01x04"), ("R1", "", "Device:R"), ("D1", "", "Device:LED")]
        inputs = {"/A": "U1.1:input J1.1:passive", "/B": "U1.3:input J1.2:passive"}
        tied = {"VCC": "R1.1:passive D1.2:passive U1.14:power_in"}
        both, one = "U1.2:open_collector U1.4:open_collector J1.3:passive", "U1.2:open_collector J1.3:passive"
        for net, more, gates, wanted in (
            (f"{both} R1.2:passive", tied, (False, True), [1, 0, 0, 0]), (f"{one} R1.2:passive", tied, (False, True), [1, 1, 0, 0]),
            (both, {}, (False,), [None, 0, 0, 0]), (one, {}, (False,), [None, None, 0, 0]), (f"{one} D1.1:passive", tied, (False,), [1, 1, 0, 0]),
        ):
            for (a, b), level in zip(((0, 0), (0, 1), (1, 0), (1, 1)), wanted):
                for is_of_gates in gates:
                    found = self.levels(parts, inputs | more | {"/Y": net}, ["/Y"], {"/A": a, "/B": b}, is_of_gates=is_of_gates)
                    self.assertEqual(found, [level], (net, a, b, is_of_gates))

    def test_bus(self):
        """Two drivers of one wire, by their enables: what drives it, what it is if none does, and anything if they fight."""
        parts = [("U1", "74LS125", "74xx:74LS125"), ("U2", "74LS00", "74xx:74LS00"), ("J1", "", "Connector_Generic:Conn_01x09"), ("R1", "", "Device:R")]
        nets = {
            "/E1": "U1.1:input J1.1:passive", "/D1": "U1.2:input J1.2:passive", "/E2": "U1.4:input J1.3:passive", "/D2": "U1.5:input J1.4:passive",
            "/N": "U2.3:output J1.5:passive", "VCC": "U1.14:power_in", "GND": "U1.7:power_in",
        }
        bus = "U1.3:tri_state U1.6:tri_state U2.1:input U2.2:input"
        for pull, more, idle in (("", "", None), (" R1.2:passive", "VCC", 1), (" R1.2:passive", "GND", 0)):
            given = nets | {"/BUS": bus + pull} | ({more: nets[more] + " R1.1:passive"} if more else {})
            for e1, d1, e2, d2 in itertools.product((0, 1), repeat=4):
                driving = {data for enable, data in ((e1, d1), (e2, d2)) if enable == 0}
                level = driving.pop() if len(driving) == 1 else None if driving else idle
                inverse = None if level is None else 1 - level
                found = self.levels(parts, given, ["/BUS", "/N"], {"/E1": e1, "/D1": d1, "/E2": e2, "/D2": d2})
                self.assertEqual(found, [level, inverse], (more, e1, d1, e2, d2))

    def test_outside_drives_a_bus(self):
        """What a connector does to a bus is not known while no chip drives it, whatever pulls."""
        parts = [("U1", "74LS125", "74xx:74LS125"), ("J1", "", "Connector_Generic:Conn_01x09"), ("R1", "", "Device:R")]
        nets = {"/E": "U1.1:input J1.1:passive", "/D": "U1.2:input J1.2:passive", "/BUS": "U1.3:tri_state J1.3:passive R1.1:passive", "VCC": "U1.14:power_in R1.2:passive"}
        for enable, data, level in ((0, 0, 0), (0, 1, 1), (1, 0, None), (1, 1, None)):
            self.assertEqual(self.levels(parts, nets, ["/BUS"], {"/E": enable, "/D": data}), [level])

    def test_blanking_of_a_7447(self):
        """The pin that goes both ways has its pull-up inside: left open it is 1, and 0 while a leading zero is blanked."""
        parts = [("U1", "74LS47", "74xx:74LS47"), ("J1", "", "Connector_Generic:Conn_01x09"), ("R1", "", "Device:R")]
        names = {"A": 7, "B": 1, "C": 2, "D": 6, "LT": 3, "RBI": 5}
        nets = {f"/{name}": f"U1.{pin}:input J1.{place}:passive" for place, (name, pin) in enumerate(names.items(), 1)}
        nets |= {"/SEG": "U1.13:open_collector J1.8:passive R1.1:passive", "VCC": "R1.2:passive U1.16:power_in", "unconnected-(U1-Pad4)": "U1.4:input"}
        zero = dict.fromkeys(("/A", "/B", "/C", "/D"), 0)
        for given, level in (({"/RBI": 1, "/LT": 1}, 0), ({"/RBI": 0, "/LT": 1}, 1), ({"/RBI": 0, "/LT": 0}, 0)):
            self.assertEqual(self.levels(parts, nets, ["/SEG"], zero | given), [level], given)


class Stored(Boards):
    """What latches and flip-flops are in a design, where they store anything, and in a netlist."""

    def test_flip_flop(self):
        """A preset goes before a clear, both of which do not wait for the clock."""
        pins = {"D": 2, "CLK": 3, "PRE": 4, "CLR": 1}
        nets = {f"/{name}": f"U1.{pin}:input J1.{pin}:passive" for name, pin in pins.items()}
        nets |= {"/Q": "U1.5:output J1.5:passive", "/NQ": "U1.6:output J1.6:passive"}
        board = [("U1", "74HC74", "74xx:74HC74"), ("J1", "", "Connector_Generic:Conn_01x09")], nets
        said, design = self.convert(*board)
        self.assertTrue(said[-1].startswith("what flip-flops store may be either bit at each time; --gates writes a .bench"))
        said, path = self.convert(*board, is_of_gates=True)
        self.assertIn("left out: the clock /CLK", said)
        for data, preset, clear, stored in itertools.product((0, 1), repeat=4):
            given = {"/D": data, "/PRE": preset, "/CLR": clear}
            level = 1 if preset == 0 else 0 if clear == 0 else None
            self.assertEqual(Settled(design).bits(given).get("/Q"), level)
            bits = Settled(path).bits({**given, "U1.5_stored": stored})
            self.assertEqual((bits["U1.5"], bits["U1.5_next"]), (stored, data) if level is None else (level, level))
            self.assertEqual(bits["U1.6"], 1 if clear == 0 else 1 - bits["U1.5"])

    def test_latch(self):
        nets = {"/D": "U1.2:input J1.1:passive", "/E": "U1.13:input J1.2:passive", "/Q": "U1.16:output J1.3:passive"}
        board = [("U1", "74LS75", "74xx:74LS75"), ("J1", "", "Connector_Generic:Conn_01x09")], nets
        for options, name in (({}, "/Q"), ({"is_of_gates": True}, "/Q"), ({"is_of_gates": True, "out": "x.bench"}, "U1.16")):
            _, path = self.convert(*board, **options)
            for data, enable in itertools.product((0, 1), repeat=2):
                self.assertEqual(Settled(path).bits({"/D": data, "/E": enable}).get(name), data if enable else None, options)

    def test_clocks(self):
        """Flip-flops with two clocks or edges cannot step at once; a clock may pass gates, and the edge turns with them."""
        parts = [("U1", "74LS74", "74xx:74LS74"), ("U2", "74LS04", "74xx:74LS04"), ("J1", "", "Connector_Generic:Conn_01x09")]
        nets = {"/D": "U1.2:input U1.12:input J1.1:passive", "/Q": "U1.5:output J1.2:passive", "/Q2": "U1.9:output J1.3:passive"}
        nets |= {"VCC": "U1.1:input U1.4:input U1.10:input U1.13:input"}
        for clocks, why in (
            ({"/CK": "U2.1:input J1.4:passive", "/A": "U2.2:output U1.3:input U1.11:input"}, ""),
            ({"/CK": "U2.1:input J1.4:passive U1.11:input", "/A": "U2.2:output U1.3:input"}, "several clocks or edges"),
            ({"/CK": "U1.3:input J1.4:passive", "/CK2": "U1.11:input J1.5:passive"}, "several clocks or edges"),
            ({"/CK": "U1.3:input U1.11:input J1.4:passive U2.1:input", "/A": "U2.2:output J1.5:passive"}, ""),
            ({"/CK": "U1.3:input J1.4:passive", "/Q": "U1.5:output U1.11:input J1.5:passive"}, "several clocks or edges"),
        ):
            if why:
                self.assertIn(why, self.refused(netlist_of(parts, nets | clocks), is_of_gates=True))
                continue
            _, path = self.convert(parts, nets | clocks, is_of_gates=True)
            self.assertEqual([part.name for part in read_device(path).parts if part.kind == "DFF"], ["U1.5", "U1.9"], clocks)
            for file in self.folder.iterdir():
                file.unlink()

    def test_bus_in_a_netlist(self):
        """Gates cannot let go: a bus is 1 while nothing drives it, and that is said; with a pull-down it is 0."""
        parts = [("U1", "74LS125", "74xx:74LS125"), ("J1", "", "Connector_Generic:Conn_01x09"), ("R1", "", "Device:R")]
        nets = {
            "/E1": "U1.1:input J1.1:passive", "/D1": "U1.2:input J1.2:passive", "/E2": "U1.4:input J1.3:passive", "/D2": "U1.5:input J1.4:passive",
            "/BUS": "U1.3:tri_state U1.6:tri_state J1.5:passive R1.1:passive",
        }
        for more, idle in (({}, 1), ({"GND": "R1.2:passive"}, 0), ({"VCC": "R1.2:passive"}, 1)):
            said, path = self.convert(parts, nets | more, "x.bench", is_of_gates=True)
            self.assertEqual("net /BUS is taken as 1 while nothing drives it" in said, not more)
            for e1, d1, e2, d2 in itertools.product((0, 1), repeat=4):
                driving = {data for enable, data in ((e1, d1), (e2, d2)) if enable == 0} or {idle}
                level = Settled(path).bits({"/E1": e1, "/D1": d1, "/E2": e2, "/D2": d2})["/BUS"]
                self.assertIn(level, driving)


class Explained(Boards):
    """Which chips explain readings, compared with all levels of all nets tried one by one."""

    PARTS = [
        ("U1", "74LS05", "74xx:74LS05"), ("U2", "74LS125", "74xx:74LS125"), ("U3", "74LS00", "74xx:74LS00"), ("R1", "4k7", "Device:R"),
        ("J1", "", "Connector_Generic:Conn_01x04"), ("TP1", "", "Connector:TestPoint"),
    ]
    NETS = {
        "/A": "J1.1:passive U1.1:input U3.4:input", "/B": "J1.2:passive U1.3:input", "/C": "J1.3:passive U2.5:input",
        "/E": "J1.4:passive U2.1:input U3.1:input U3.2:input", "/W": "U1.2:open_collector U1.4:open_collector R1.1:passive U2.2:input",
        "/E2": "U3.3:output U2.4:input", "/BUS": "U2.3:tri_state U2.6:tri_state U3.5:input", "/Y": "U3.6:output TP1.1:passive", "VCC": "R1.2:passive",
    }

    def allows(self, net, faulty):
        """Whether these levels are possible if these chips are faulty."""
        a, b, c, e, w, e2, bus, y = (net[f"/{name}"] for name in ("A", "B", "C", "E", "W", "E2", "BUS", "Y"))
        driving = {level for enable, level in ((e, w), (e2, c)) if enable == 0}
        is_bus = "U2" in faulty or len(driving) != 1 or bus in driving
        gates = "U3" in faulty or (e2 == 1 - e and y == 1 - (bus & a))
        return is_bus and gates and ("U1" in faulty or w == int(not a and not b))

    @needs_program
    def test_chips(self):
        _, path = self.convert(self.PARTS, self.NETS)
        tried = random.Random(SEED)
        wires = [name for name in self.NETS if name != "VCC"]
        levels = [dict(zip(wires, bits)) for bits in itertools.product((0, 1), repeat=len(wires))]
        possible = {faulty: [net for net in levels if self.allows(net, faulty)] for size in range(4) for faulty in itertools.combinations(("U1", "U2", "U3"), size)}
        sizes = set()
        with Service(path, narrow=True) as service, service.session() as session:
            for _ in range(150):
                seen = {wire: tried.randrange(2) for wire in tried.sample(wires, tried.randint(3, 8))}
                found = [faulty for faulty, nets in possible.items() if any(seen.items() <= net.items() for net in nets)]
                wanted = [faulty for faulty in found if len(faulty) == len(found[0])]
                session.see(seen)
                self.assertEqual({diagnosis.faulty for diagnosis in session.diagnoses()}, set(wanted), seen)
                sizes.add(len(wanted[0]))
                session.unsee(*seen)
        self.assertEqual(sizes, {0, 1, 2, 3})

    @needs_program
    def test_pins(self):
        """A reading at a pin is one of its wire."""
        _, path = self.convert(self.PARTS, self.NETS)
        with Service(path, narrow=True) as service, service.session() as session:
            session.see({"U3.3": 1, "J1.4": 1, "TP1": 0})
            self.assertEqual((session.seen, session.minimum().faulty), ({"/E2": 1, "/E": 1, "/Y": 0}, ("U3",)))


class Reached(unittest.TestCase):
    """What is advised is within reach of a probe, and is called by its pins: 5 - 3 is 4, so U1 or U2 is bad."""

    FIRST = "measure U1 pin 2 or U2 pin 6 (Net-U1-Pad2): of 2 diagnoses 1 goes on with 0 and 1 with 1, so that 1.0 are expected to be left"

    def setUp(self):
        folder = pathlib.Path(self.enterContext(tempfile.TemporaryDirectory()))
        self.path = folder / "adder.dev"
        netlist.convert(BOARDS / "adder.net", self.path)
        self.lines = (BOARDS / "adder.script").read_text().split("min S")[0]

    @needs_program
    def test_sessions(self):
        with Service(self.path, narrow=True) as service, service.session("S") as session:
            session.load(self.lines)
            inner = [row.wire for row in session.probes(every=True) if not service.can_reach(row.wire)]
            self.assertEqual(("U1-ok" in inner, set(service.pins) & set(inner), service.pins["Net-U1-Pad2"]), (True, set(), ("U1.2", "U2.6")))
            self.assertEqual([row.wire for row in session.probes()], sorted(service.pins.keys() - session.seen.keys()))
            self.assertEqual({row.wire for row in session.rank_probes()}, service.pins.keys() - session.seen.keys())
            self.assertEqual([row.wire for row in session.rank_probes(inner[:1])], inner[:1])
            self.assertEqual(str(session.best_probe()), self.FIRST)
            with service.session() as other:
                together = service.together([session, other])
                self.assertEqual(str(together.best_probe()), f"pattern S: {self.FIRST}")
                self.assertLessEqual({row.wire for row in together.rank_probes()}, service.pins.keys())
                self.assertEqual({row.wire for row in together.rank_probes(among=["U2.6"])}, {"Net-U1-Pad2"})

    @needs_program
    def test_terminal(self):
        lines = "".join(f"{line}\n".replace("see S ", "see ") for line in self.lines.splitlines() if line.startswith("see"))
        words = [sys.executable, "-m", "diag_client", "shell", self.path]
        asked = lines + "best\nprobes\nsee U2.6=1\nlist 9\n"
        done = subprocess.run(words, input=asked, capture_output=True, text=True, env={**os.environ, "PYTHONPATH": str(TOP / "python")})
        told = [line for line in done.stdout.splitlines() if line != "ok"]
        self.assertEqual((done.stderr, told[0], told[-2:]), ("", self.FIRST, ["diag U2", "end"]))
        self.assertEqual([line for line in told if line.startswith("probe Net-U1-Pad2 ")], ["probe Net-U1-Pad2 1 1: U1 pin 2, U2 pin 6"])
        self.assertEqual([line for line in told if line.startswith("probe ") and " pin " not in line and "TP" not in line], [])

    def test_times(self):
        """Over several times a pin is there at each."""
        given = self.path.with_name("counter.bench")
        netlist.convert(BOARDS / "counter.net", given, is_of_gates=True)
        found = pins_at(given, 2)
        self.assertEqual({wire[-5:] for wire in found}, {"@0001", "@0002"})
        self.assertEqual({pin[-5:] for pins in found.values() for pin in pins}, {"@0001", "@0002"})
        self.assertEqual(len(found), 2 * len(pins_at(given)))


class EveryChip(Boards):
    """Each chip of the library without a memory, alone on a board, against what chip_rules.py says of it."""

    def test_all(self):
        tried, chips = random.Random(SEED), {chip.numbers: chip for chip in all_chips().values()}
        count = 0
        for chip in chips.values():
            rules = [rule for words, rule in chip_rules.PLAIN.items() if set(words.split()) & set(chip.numbers)]
            directions = {pin.direction.value for pin in chip.pins.values()}
            if not rules or "bus" in directions:
                continue
            count += 1
            nets = {f"/{pin.name}": f"U1.{number} J1.{number}" for number, pin in chip.pins.items() if pin.direction.value != "power"}
            pulls = [number for number, pin in chip.pins.items() if pin.direction.value == "open"]
            nets = {name: pins + f" R{pins.split('.')[-1]}.1" * (pins.split(".")[-1] in pulls) for name, pins in nets.items()}
            parts = [("U1", chip.numbers[0], ":"), ("J1", "", "Connector_Generic:"), *((f"R{number}", "1k", "Device:R") for number in pulls)]
            nets["VCC"] = " ".join(f"R{number}.2" for number in pulls)
            made = [Settled(self.convert(parts, nets, is_of_gates=is_of_gates)[1]) for is_of_gates in (False, True)]
            for _ in range(12):
                levels = {pin.name: tried.randrange(2) for pin in chip.pins.values() if pin.direction.is_read}
                for settled in made:
                    bits = settled.bits({f"/{name}": bit for name, bit in levels.items()})
                    for rule in rules:
                        wanted = {f"/{name}": bit for name, bit in rule(levels).items()}
                        self.assertEqual({name: bits.get(name) for name in wanted}, wanted, (chip.numbers, levels))
        self.assertGreater(count, 80)


class Counter(Boards):
    """The counter of examples/boards, over clock periods, against arithmetic."""

    SEGMENTS = [0x3F, 0x06, 0x5B, 0x4F, 0x66, 0x6D, 0x7C, 0x07, 0x7F, 0x67]

    def test_over_periods(self):
        given = self.folder / "counter.net"
        given.write_text((BOARDS / "counter.net").read_text())
        said = netlist.convert(given, is_of_gates=True)
        self.assertIn("left out: gates that only hand on the clock: U1.2 U1.4", said)
        self.assertIn("its flip-flops need clock periods: serve it with --frames", said)
        path = self.folder / "counter.bench"
        settled, names = Settled(path), other_names(path)
        flip_flops = {part.wires[-1]: part.wires[0] for part in settled.device.parts if part.kind == "DFF"}
        chips = {"U2": "N", "U3": "T"}
        held = {f"{chip}.{pin}_stored": bit for chip in chips for pin, bit in zip((14, 13, 12, 11), (0, 0, 0, 1))}
        self.assertEqual(held.keys(), flip_flops.keys())
        tried, count = random.Random(SEED), 88
        for _ in range(250):
            limit, run, stop, reset, read, select = tried.choice([count, tried.randrange(100)]), *(int(tried.random() < chance) for chance in (0.5, 0.3, 0.02, 0.5, 0.5))
            inputs = {f"/L{place}{bit}": digit >> bit & 1 for place, digit in (("N", limit % 10), ("T", limit // 10)) for bit in range(4)}
            inputs |= {"/RUN": run, "/STOP": stop, "/RST_KEY": 1 - reset, "/RD_N": 1 - read, "/SEL_N": 1 - select, "/LAMP_N": 1}
            bits = settled.bits(held | inputs)
            level = {wire: bits[names.get(wire, wire)] for wire in ("/EQUAL", "/ALARM", "/IRQ_N", "/COUNT", "/OVER")}
            count = 0 if reset else count
            steps = not (stop and count == limit)
            alarm, over = int(run and count >= limit), int(steps and count == 99)
            wanted = {"/EQUAL": int(count == limit), "/ALARM": alarm, "/IRQ_N": int(not (alarm or over)), "/COUNT": int(steps), "/OVER": over}
            self.assertEqual(level, wanted, (count, limit))
            if read and select:
                bus = sum(bits[names.get(f"/D{place}", f"/D{place}")] << place for place in range(8))
                self.assertEqual(bus, count % 10 | count // 10 << 4)
            lit = [sum(1 - bits[f"U{chip}.{pin}"] << place for place, pin in enumerate((13, 12, 11, 10, 9, 15, 14))) for chip in (4, 5)]
            self.assertEqual(lit, [self.SEGMENTS[count % 10], self.SEGMENTS[count // 10] if count > 9 else 0])
            held = {output: bits[reads] for output, reads in flip_flops.items()}
            count = 0 if reset else (count + steps) % 100

    def test_design_of_gates_is_refused(self):
        text = (BOARDS / "counter.net").read_text()
        (self.folder / "counter.net").write_text(text)
        with self.assertRaisesRegex(UnusableNetlist, "no flip-flops: let OUT end in .bench"):
            netlist.convert(self.folder / "counter.net", self.folder / "counter.dev", is_of_gates=True)

    @needs_program
    def test_page(self):
        """What examples/boards/README.md shows is printed."""
        page = re.sub(r"(?m)^   ", "", (BOARDS / "README.md").read_text())
        (self.folder / "adder.net").write_text((BOARDS / "adder.net").read_text())
        said = netlist.convert(self.folder / "adder.net")
        self.assertIn("\n".join(["$ diag-netlist adder.net", *(line.replace(f"{self.folder}/", "") for line in said), "```"]), page)
        with open(BOARDS / "adder.script") as script:
            done = subprocess.run([PROGRAM, "serve", self.folder / "adder.dev", "--narrow"], stdin=script, capture_output=True, text=True, check=True)
        self.assertIn("< adder.script\n" + done.stdout[done.stdout.index("S min") :] + "```", page)

    def test_command(self):
        """The command from outside of the checkout; a full disk leaves nothing half written."""
        (self.folder / "adder.net").write_text((BOARDS / "adder.net").read_text())
        words = [sys.executable, "-m", "diag_client.netlist", "--strict", "adder.net"]
        options = {"cwd": self.folder, "env": {**os.environ, "PYTHONPATH": str(TOP / "python")}, "text": True, "capture_output": True}
        done = subprocess.run([*words, "--gates"], **options, check=True)
        self.assertIn("adder.dev: 33 gates, 9 inputs\n", done.stdout)
        done = subprocess.run([*words, "-o", "/dev/full/x.dev"], **options)
        self.assertEqual((done.returncode, done.stderr), (1, "diag-netlist: /dev/full/x.dev: not a directory\n"))
        done = subprocess.run([*words, "-o", "given.bench"], **options)
        self.assertEqual((done.returncode, "give --gates" in done.stderr), (1, True))

    @needs_program
    def test_is_served(self):
        for name, options in (("adder.net", {}), ("adder.net", {"is_of_gates": True}), ("counter.net", {"is_of_gates": True})):
            (self.folder / name).write_text((BOARDS / name).read_text())
            said = netlist.convert(self.folder / name, **options)
            words = ["--frames", "1"] if ".bench" in said[0] else []
            done = subprocess.run([PROGRAM, "serve", said[0].split(":")[0], "--narrow", *words], input="open S\nmin S\n", capture_output=True, text=True)
            self.assertIn("S min 0\n", done.stdout, said[0])


if __name__ == "__main__":
    unittest.main()
