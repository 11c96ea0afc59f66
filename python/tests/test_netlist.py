"""What `diag-netlist` writes means what it read: both sides are simulated, and ABC compares them if it is here."""

import contextlib
import errno
import graphlib
import io
import json
import os
import pathlib
import random
import shutil
import subprocess
import sys
import tempfile
import time
import unittest
from unittest import mock

from support import EXAMPLES, PROGRAM, TOP, needs_program

from diag_client import DiagError, Refused, Service
from diag_client.bench import boards
from diag_client.convert import netlist
from diag_client.convert.circuit import Circuit, UnusableNetlist, table_of
from diag_client.convert.readers import TABLES, read_blif
from diag_client.devices import GATES, other_names, read_device

VERILOG = EXAMPLES / "verilog"
ABC = shutil.which("berkeley-abc") or shutil.which("yosys-abc")
SEGMENTS = [0x3F, 0x06, 0x5B, 0x4F, 0x66, 0x6D, 0x7D, 0x07, 0x7F, 0x6F]
SEED = 3


def rows_of(path):
    """The rows of each type in a design, each with all but its last bit as a key."""
    rows, name = {}, None
    for line in path.read_text().split("\n"):
        match line.split():
            case ["type", name, *_]:
                rows[name] = {}
            case ["ok", bits]:
                rows[name][tuple(map(int, bits[:-1]))] = int(bits[-1])
    return rows


class Simulated:
    """A device that was written, and what it does."""

    def __init__(self, path):
        self.device = read_device(path)
        self.rows = rows_of(path) if path.suffix == ".dev" else {}
        gates = {part.wires[-1]: part for part in self.device.parts if part.kind != "DFF"}
        self.flip_flops = {part.wires[-1]: part.wires[0] for part in self.device.parts if part.kind == "DFF"}
        order = graphlib.TopologicalSorter({name: [wire for wire in gate.wires[:-1] if wire in gates] for name, gate in gates.items()})
        self.gates = [gates[name] for name in order.static_order()]

    def bits(self, inputs):
        """The bits of all wires, given those of the inputs and of what the flip-flops hold."""
        bits = dict(inputs)
        for gate in self.gates:
            read = tuple(bits[wire] for wire in gate.wires[:-1])
            bits[gate.wires[-1]] = GATES[gate.kind].output(read) if gate.kind in GATES else self.rows[gate.kind][read]
        return bits

    def held_next(self, bits):
        """What the flip-flops hold at the next time."""
        return {output: bits[reads] for output, reads in self.flip_flops.items()}


class Converts(unittest.TestCase):
    """A folder of its own for each test."""

    def setUp(self):
        folder = tempfile.TemporaryDirectory()
        self.addCleanup(folder.cleanup)
        self.folder = pathlib.Path(folder.name)

    def convert(self, text, name="given.blif", out=None):
        """What is written of a text: the file, and its table of names."""
        given = self.folder / name
        given.write_text(text)
        said = netlist.convert(given, out and self.folder / out)
        path = pathlib.Path(said[0].split(":")[0])
        table = path.with_name(path.name + ".names")
        return path, table.read_text() if table.exists() else ""

    def refused(self, text, name="given.blif", out=None):
        """Why a text is refused."""
        before = {path.name for path in self.folder.iterdir()}
        with self.assertRaises(UnusableNetlist) as raised:
            self.convert(text, name, out)
        self.assertEqual({path.name for path in self.folder.iterdir()} - before, {name} - before)
        return str(raised.exception)


class OfTools(Converts):
    """The files in examples/verilog, each compared with what the Verilog says."""

    def test_seven_segments(self):
        files = sorted(VERILOG.glob("seven_segments*.[bj]*"))
        self.assertEqual(len(files), 5)
        for file in files:
            path, table = self.convert(file.read_text(), file.name, None if file.suffix != ".bench" else "abc.dev")
            simulated = Simulated(path)
            self.assertIn("# left out: output never, which is always 0: no reading of it can be entered\n", table)
            for digit in range(16):
                bits = simulated.bits({f"digit[{place}]": digit >> place & 1 for place in range(4)})
                lit = sum(bits[f"segments[{place}]"] << place for place in range(7))
                self.assertEqual((lit, bits["is_digit"]), (SEGMENTS[digit] if digit < 10 else 0, int(digit < 10)), file.name)

    def test_gray(self):
        files = [file for file in sorted(VERILOG.glob("gray*.[bj]*")) if "enable" not in file.name]
        self.assertEqual(len(files), 4)
        for file in files:
            path, table = self.convert(file.read_text(), file.name)
            simulated = Simulated(path)
            self.assertEqual(path.suffix, ".bench")
            # What the flip-flop and the output share has one name, and the table has the other.
            state = [name if name in simulated.flip_flops else "code[2]" for name in ("count[0]", "count[1]", "count[2]")]
            self.assertEqual(set(state), set(simulated.flip_flops), file.name)
            tried, count, held = random.Random(SEED), 5, {name: 5 >> place & 1 for place, name in enumerate(state)}
            for _ in range(60):
                enable, clear = tried.randrange(2), int(tried.random() < 0.1)
                bits = simulated.bits({**held, "enable": enable, "clear": clear, "clock": 0})
                code = sum(bits["code[2]" if place == 2 and "code[2]" in bits else f"code[{place}]" if place < 2 else "count[2]"] << place for place in range(3))
                self.assertEqual((code, bits["at_end"]), (count ^ count >> 1, int(count == 7 and enable)), file.name)
                held = simulated.held_next(bits)
                count = 0 if clear else (count + enable) % 8

    def test_enable_is_refused(self):
        why = self.refused((VERILOG / "gray_enable.blif").read_text())
        self.assertIn("flip-flop count[0] ($_SDFFE_PP0P_) has an enable or a reset that is no gate", why)
        self.assertEqual(why.count("dfflegalize"), 1)

    @needs_program
    def test_page(self):
        """What examples/verilog/README.md shows."""
        page = (VERILOG / "README.md").read_text()
        for file in ("seven_segments.blif", "gray.blif"):
            said = netlist.convert(self.folder / shutil.copy(VERILOG / file, self.folder / file))
            self.assertIn("\n".join(["", *(line.replace(f"{self.folder}/", "") for line in said), ""]), page)
        with open(VERILOG / "two.script") as script:
            words = [PROGRAM, "serve", self.folder / "seven_segments.dev", "--narrow"]
            done = subprocess.run(words, stdin=script, capture_output=True, text=True, check=True)
        self.assertIn(done.stdout[done.stdout.index("S min") :], page)

    @needs_program
    def test_is_served(self):
        for file in sorted(VERILOG.glob("*.blif")):
            if "enable" in file.name:
                continue
            path, _ = self.convert(file.read_text(), file.name)
            words = ["--frames", "2"] if "gray" in file.name else []
            done = subprocess.run([PROGRAM, "serve", path, "--narrow", *words], input="open S\nmin S\n", capture_output=True, text=True)
            self.assertIn("S min 0\n", done.stdout, file.name)


def random_blif(tried, gates, most_inputs, is_gate):
    """A BLIF of random tables, or of gates as tables."""
    names = [f"in{number}" for number in range(5)]
    lines = [".model random", f".inputs {' '.join(names)}", ".outputs " + " ".join(f"w.{number}" for number in range(gates - 4, gates))]
    for number in range(gates):
        count = tried.randrange(1, most_inputs + 1)
        inputs = tried.sample(names, count)
        kinds = [kind for kind, gate in GATES.items() if count <= gate.most_inputs and (count > 1 or not gate.positive)]
        table = table_of(tried.choice(kinds), count) if is_gate else tried.randrange(1, (1 << (1 << count)) - 1)
        bit = tried.randrange(2)
        lines.append(f".names {' '.join(inputs)} w.{number}")
        for index in range(1 << count):
            if table >> index & 1 == bit:
                lines.append("".join(str(index >> place & 1) for place in range(count)) + f" {bit}")
        names.append(f"w.{number}")
    return "\n".join([*lines, ".end", ""])


def blif_bits(text, inputs):
    """The bits of a BLIF of tables, read in the plainest way."""
    bits = dict(inputs)
    for part in text.split(".names ")[1:]:
        head, *rows = part.replace(".end", "").strip().split("\n")
        *reads, output = head.split()
        fits = any(all(mark in ("-", str(bits[name])) for mark, name in zip(row.split()[0], reads)) for row in rows)
        bit = int(rows[0].split()[1])
        bits[output] = bit if fits else 1 - bit
    return bits


class AtRandom(Converts):
    """Random tables, compared with a second reading, and by ABC."""

    def test_tables(self):
        tried = random.Random(SEED)
        for _ in range(25):
            text = random_blif(tried, 12, 5, False)
            path, table = self.convert(text)
            old = {line.split("\t")[1]: line.split("\t")[0] for line in table.split("\n") if "\t" in line}
            simulated = Simulated(path)
            for _ in range(8):
                inputs = {f"in{place}": tried.randrange(2) for place in range(5)}
                wanted, bits = blif_bits(text, inputs), simulated.bits(inputs)
                for number in range(8, 12):
                    if f"output w.{number}," not in table:
                        name = f"w.{number}"
                        self.assertEqual(bits[old.get(name, name)], wanted[name], text)

    # ABC reads no XNOR of more than two inputs.
    @unittest.skipUnless(ABC, "there is no ABC")
    def test_gates_by_abc(self):
        tried = random.Random(SEED)
        for _ in range(4):
            path, _ = self.convert(random_blif(tried, 20, 2, True), out="new.bench")
            done = subprocess.run([ABC, "-q", f"cec given.blif {path.name}"], capture_output=True, text=True, cwd=self.folder)
            self.assertIn("Networks are equivalent", done.stdout)

    def test_cells(self):
        """Each cell of yosys by what its manual says of it."""
        says = {
            "ANDNOT": lambda a, b: a & ~b, "ORNOT": lambda a, b: a | ~b, "MUX": lambda a, b, s: b if s else a,
            "NMUX": lambda a, b, s: ~(b if s else a), "AOI3": lambda a, b, c: ~(a & b | c), "OAI3": lambda a, b, c: ~((a | b) & c),
            "AOI4": lambda a, b, c, d: ~(a & b | c & d), "OAI4": lambda a, b, c, d: ~((a | b) & (c | d)),
        }
        self.assertEqual(says.keys(), TABLES.keys())
        for word, (letters, table) in TABLES.items():
            for index in range(1 << len(letters)):
                bits = [index >> place & 1 for place in range(len(letters))]
                self.assertEqual(table >> index & 1, says[word](*bits) & 1, (word, bits))


class OneWire(Converts):
    """Two pins of one wire: a reading may have either name."""

    def setUp(self):
        super().setUp()
        cells = ".gate $_AND_ A=a B=b Y=y[1]\n.gate $_NOT_ A=y[1] Y=z\n.names y[1] n\n1 1\n.names a through\n1 1\n"
        self.given = f".model m\n.inputs a b\n.outputs y[1] n z through\n{cells}.end\n"

    def served(self, text, **options):
        """A service of what is written of a text."""
        path, _ = self.convert(text)
        return self.enterContext(Service(path, **options))

    def test_says_so(self):
        (self.folder / "given.blif").write_text(self.given)
        said = netlist.convert(self.folder / "given.blif")
        self.assertEqual(said[2:], ["one wire: a through; its name is a", "one wire: y[1] n; its name is n"])

    @needs_program
    def test_both_are_read(self):
        service = self.served(self.given)
        session = service.session("S")
        with self.assertRaisesRegex(ValueError, "a=1 and through=0 are of one wire"):
            session.see({"a": 1, "b": 1, "y[1]": 0, "through": 0})
        session.see({"a": 0, "b": 1, "y[1]": 0, "through": 0})
        self.assertEqual(session.seen, {"a": 0, "b": 1, "n": 0})
        session.see(through=1)
        self.assertEqual((session.minimum().faulty, session.expect("y[1]"), session.probe("y[1]").wire), (("n",), 1, "n"))
        session.unsee("y[1]")
        self.assertEqual((session.seen, session.rank_probes(["y[1]", "b"])[0].wire), ({"a": 1, "b": 1}, "n"))
        session.hold({"y[1]": "bad"})
        session.after("y[1]")
        service.restart()
        self.assertEqual((session.held, list(session.diagnoses())), ({"n": "bad"}, []))
        self.assertEqual(session.batch(["see y[1]=0", "min", "unsee y[1]"]), [["S ok"], ["S min 1 n"], ["S ok"]])
        with self.assertRaisesRegex(Refused, "no wire"):
            session.see({"y[2]": 1})

    @needs_program
    def test_tables(self):
        service = self.served(self.given)
        patterns = service.patterns([["a", "y[1]", "n"], [0, 0, ""], [1, "", 1], [1, 1, 1]])
        self.assertEqual([dict(session.seen) for session in patterns.values()], [{"a": 0, "n": 0}, {"a": 1, "n": 1}, {"a": 1, "n": 1}])
        with self.assertRaisesRegex(DiagError, r"row 2, column 3 \(n\): not 1, since it is one wire with a column before it"):
            service.patterns([["a", "y[1]", "n"], [0, 0, 1]])

    @needs_program
    def test_over_times(self):
        flip_flop = ".gate $_DFF_P_ C=c D=a Q=q\n.names q y\n1 1\n"
        service = self.served(f".model m\n.inputs a c\n.outputs y\n{flip_flop}.end\n", frames=2)
        with service.session() as session:
            session.see({"q@0001": 1, "y@0002": 0, "a@0001": 0})
            session.hold(q="ok")
            self.assertEqual((list(session.seen), session.held), (["y@0001", "y@0002", "a@0001"], {"y": "ok"}))

    @needs_program
    def test_in_the_terminal(self):
        path, _ = self.convert(self.given)
        lines = "see a=1 b=1 through=1\nsee n=1 y[1]=0\nsee y[1]=0\nexpect y[1]\nmin\nsee y[2]=0\n"
        words = [sys.executable, "-m", "diag_client", "shell", path]
        done = subprocess.run(words, input=lines, capture_output=True, text=True, env={**os.environ, "PYTHONPATH": str(TOP / "python")})
        why = "refused: n=1 and y[1]=0 are of one wire; nothing was taken"
        wanted = ["3 readings taken", why, "ok", "n should be 1, and was seen as 0", "min 1 n", "refused: no wire (error 9): y[2]; near it: y[1]"]
        self.assertEqual(done.stdout.splitlines(), wanted)

    @needs_program
    def test_at_the_bench(self):
        path, _ = self.convert(self.given)
        bench = boards.Bench(path)
        self.addCleanup(bench.close)
        board = bench.open_board()
        state = board.do({"act": "readings", "text": "a=1 b=1 y[1]=0"})
        self.assertEqual((state["patterns"][0]["seen"], state["candidates"][0]["parts"]), ([("a", 1), ("b", 1), ("n", 0)], ("n",)))
        for text, why in (("y[1]=2", r"y\[1\]=2: a reading"), ("y[1]=1 b=0 n=0", "one wire; nothing")):
            with self.assertRaisesRegex(boards.Bad, why):
                board.do({"act": "readings", "text": text})
        state = board.do({"act": "readings", "text": "a,y[1]\n0,0\n"})
        self.assertEqual(dict(state["patterns"][1]["seen"]), {"a": 0, "n": 0})
        state = board.do({"act": "load", "text": "see P y[1]=0\nhold P y[1]=bad\n"})
        self.assertEqual(state["log"][1:], ["open P", "see P n=0", "hold P n=bad"])

    def test_edited_by_hand(self):
        """The names in the device itself go first, and a table counts only if `diag-netlist` wrote both files."""
        path, _ = self.convert(self.given)
        made = path.read_text()
        self.assertEqual(other_names(path), {"y[1]": "n", "through": "a"})
        for text in (f"{made}y[1] = NOT(b)\n", made.replace("n)", "m)").replace("n =", "m =")):
            path.write_text(text)
            self.assertEqual(other_names(path), {"through": "a"})
        path.write_text(made.replace("# Made", "# Not made"))
        self.assertEqual(other_names(path), {})
        path.write_text(made)
        path.with_name(f"{path.name}.names").write_text("a\tthrough\n")
        self.assertEqual(other_names(path), {})


class Odd(Converts):
    """What no tool writes so is refused, and the text names where it is."""

    def test_cells_of_blif(self):
        head = ".model m\n.inputs a b c\n.outputs y\n"
        for lines, why in (
            (".gate $_NAND_ A=a Y=y", r"the cell in line 4 ($_NAND_): pin B is missing"),
            (".gate $_NOT_ A=a B=b Y=y", r"the cell in line 4 ($_NOT_): there is no pin B"),
            (".gate $_AND_ A=a A=b B=c Y=y", r"the cell in line 4 ($_AND_): pin A is there 2 times"),
            (".gate $_AND_ A=a B=b", r"the cell in line 4 ($_AND_): pin Y is missing"),
            (".subckt $_MUX_ A=a B=b T=c Y=y", r"the cell in line 4 ($_MUX_): pin S is missing, there is no pin T"),
            ("# a remark\n.gate $_DFF_P_ C=c D=a", r"the cell in line 5 ($_DFF_P_): pin Q is missing"),
            (".gate $_AND_ A=a B Y=y", r"the cell in line 4 ($_AND_): B is no pin with its net"),
            (".gate $_AND_ A=a B= Y=y", r"the cell in line 4 ($_AND_): B= is no pin with its net"),
            (".gate", "line 4: .gate is not known here"),
            (".latch a y re", "line 4: .latch y has other words"), (".latch a y re c 2 2", "line 4: .latch y has other words"),
            (".names", "line 4: .names without names"), (".names a b y", "line 4: the rows of .names y are no table"),
            (".names a y\n1 0 1", "line 4: the rows of .names y are no table"),
            (".gate $_NOT_ A=a Y=y\n.end\n.gate $_NOT_ A=a Y=z", "line 6: .gate after .end"),
            (".gate $dlatch D=a EN=b Q=y", "latch y ($dlatch)\n  latches cannot be taken"),
        ):
            self.assertIn(why, self.refused(f"{head}{lines}\n.end\n"), lines)
        why = self.refused(f"{head}.gate NAND2 A=a Y=z\n.gate $_DLATCH_P_ E=a D=b Q=y\n.end\n")
        self.assertNotIn("dfflegalize", why)
        self.assertIn("line 1: .inputs before .model", self.refused(".inputs a\n.model m\n.end\n"))
        self.assertIn(".model without a name", self.refused(".model\n.end\n"))

    def module(self, cell, ports=None, nets=None):
        """A JSON of one cell g over the wires a (2), b (3) and y (4), as text."""
        directions = {"a": "input", "b": "input", "y": "output"}
        own = {name: {"direction": directions[name], "bits": [bit]} for bit, name in enumerate(directions, 2)}
        return json.dumps({"modules": {"m": {"ports": own | (ports or {}), "cells": {"g": cell}, "netnames": nets or {}}}})

    def test_json(self):
        def cell(kind="$_AND_", **pins):
            return {"type": kind, "connections": pins}

        whole = cell(A=[2], B=[3], Y=[4])
        lut = {**cell("$lut", A=[2, 3], Y=[4]), "parameters": {"LUT": "01", "WIDTH": "10"}}
        for text, why in (
            (self.module(cell("$_NOT_", A=[2])), "cell g ($_NOT_): pin Y is missing"),
            (self.module(cell("$_NOT_", A=[2], B=[3], Y=[4])), "cell g ($_NOT_): there is no pin B"),
            (self.module(cell(A=[2], B=[], Y=[4])), "cell g ($_AND_): pin B is missing"),
            (self.module(cell(A=[2], B=[3, 2], Y=[4])), "cell g ($_AND_): pin B has 2 wires"),
            (self.module(cell(A=[2], B=True, Y=[4])), "cell g has no B as yosys writes it"),
            (self.module(cell(A=[2], B=[True], Y=[4])), "cell g: True in B is no wire"),
            (self.module(cell(A=[2], B=["q"], Y=[4])), "cell g: q in B is no wire"),
            (self.module({"type": "$_AND_"}), "cell g has no connections"),
            (self.module({**whole, "parameters": {"LUT": "1"}}), "cell g ($_AND_): it has parameters"),
            (self.module(lut), "cell g ($lut): the table, its inputs (A) and its output (Y) do not fit"),
            (self.module(whole, {"b": {"direction": "input", "bits": [2]}}), "input b is one wire with a"),
            (self.module(whole, {"a": {"direction": "input", "bits": ["0"]}}), "input a is one wire with $0"),
            (self.module(whole, {"b": {"direction": "inout", "bits": [3]}}), "port b is neither an input nor an output"),
            (self.module(whole, nets={"y": {"bits": [3]}}), "port y has other wires as a net"),
            (self.module(whole).replace('"B": [3]', '"B": [3], "B": [2]'), "B is there twice"),
            (self.module(whole).replace('"netnames"', '"names"'), "the module has no netnames"),
            ("[" * 200000, "this is no JSON that yosys wrote"), ("{}", "this JSON has no modules"),
        ):
            self.assertIn(why, self.refused(text, "x.json"), text[:300])

    def test_two_wires_of_one_name(self):
        """A net may be called as a place of another one is: they stay two wires."""
        cell = {"type": "$_AND_", "connections": {"A": [2], "B": [7], "Y": [4]}}
        text = self.module(cell, {"w[1]": {"direction": "input", "bits": [7]}}, {"w": {"bits": [3, 2]}})
        path, _ = self.convert(text, "x.json")
        self.assertIn("y = AND(a, w[1])\n", path.read_text())

    def test_tables_of_json(self):
        """The text of a table begins with its highest row, the first input being the lowest bit: here y is b and not a."""
        cell = {"type": "$lut", "parameters": {"LUT": "0100", "WIDTH": "0010"}, "connections": {"A": [2, 3], "Y": [4]}}
        path, _ = self.convert(self.module(cell), "x.json")
        simulated = Simulated(path)
        bits = [simulated.bits({"a": a, "b": b})["y"] for b, a in ((0, 0), (0, 1), (1, 0), (1, 1))]
        self.assertEqual(bits, [0, 0, 1, 0])

    def test_bench(self):
        head = "INPUT(a)\nINPUT(b)\nOUTPUT(y)\n"
        for line, why in (
            ("y = NOT(a, b)", "line 4: gate y (NOT) has 2 inputs"), ("y = AND()", "line 4: gate y (AND) has 0 inputs"),
            ("y = AND(a, , b)", "line 4: one name is wanted between two commas"), ("y = AND(a b)", "line 4: one name is wanted between"),
            ("y = LUT(a)", "line 4: gate y (LUT) is not known here"), ("y = LUT 0x1f (a, b)", "line 4: gate y: the table does not fit"),
            ("y = DFF(a, b)", "line 4: gate y (DFF) has 2 inputs"), ("y = DFFRSE(a)", "line 4: gate y (DFFRSE) is not known here"),
            (f"y = AND({', '.join(['a'] * 65)})", "line 4: gate y (AND) has 65 inputs"),
        ):
            self.assertIn(why, self.refused(f"{head}{line}\n", "x.bench"), line)


class ByHand(Converts):
    """Names, constants and what is refused."""

    def test_names(self):
        path, table = self.convert(".model m\n.inputs a b.c $x\n.outputs y\n.names a b.c t(1)\n11 1\n.names t(1) $x y\n1- 1\n-1 1\n.end\n")
        self.assertEqual(path.read_text().split("\n")[1:], ["INPUT(a)", "INPUT(b.c)", "INPUT(n0001)", "OUTPUT(y)", "n0002 = AND(a, b.c)", "y = OR(n0002, n0001)", ""])
        self.assertEqual(table.split("\n")[1:], ["n0001\t$x", "n0002\tt(1)", ""])
        # In a design a name has no dot.
        path, table = self.convert(".model m\n.inputs a b.c\n.outputs y\n.names a b.c y\n10 1\n.end\n")
        self.assertIn("part y ANDNOT a n0001 y\n", path.read_text())

    def test_nothing_to_replace(self):
        _, table = self.convert(".model m\n.inputs a b\n.outputs y\n.names a b y\n11 1\n.end\n")
        self.assertEqual(table, "")

    def test_constants(self):
        text = (
            ".model m\n.inputs a b \\\n c\n.outputs y z\n.names one\n1\n.names zero\n.gate $_NAND_ A=a B=one Y=n\n.gate $_MUX_ A=n B=c S=zero Y=m\n"
            ".gate $_XOR_ A=m B=one Y=x\n.gate $_OR_ A=x B=b Y=y\n.gate $_AND_ A=b B=zero Y=z\n.end\n"
        )
        path, table = self.convert(text)
        self.assertEqual(path.read_text().split("\n")[4:], ["OUTPUT(y)", "n = NOT(a)", "m = BUFF(n)", "x = NOT(m)", "y = OR(x, b)", ""])
        lines = "# left out: gate z, which always puts out 0\n# left out: output z, which is always 0: no reading of it can be entered\n"
        self.assertIn(lines, table)

    def test_many_constants(self):
        """Each output that is left out is told, and of many gates the first."""
        gates = "".join(f".gate $_AND_ A=a B=zero Y=y{place}\n" for place in range(12))
        outputs = " ".join(f"y{place}" for place in range(12))
        (self.folder / "given.blif").write_text(f".model m\n.inputs a\n.outputs {outputs} z\n.names zero\n{gates}.gate $_NOT_ A=a Y=z\n.end\n")
        said = netlist.convert(self.folder / "given.blif")
        self.assertEqual(said[2:14], [f"left out: output y{place}, which is always 0: no reading of it can be entered" for place in range(12)])
        told = [f"left out: gate y{place}, which always puts out 0" for place in range(8)]
        self.assertEqual(said[14:], [*told, "left out: 4 more, which the table of names has"])
        table = (self.folder / "given.bench.names").read_text()
        self.assertEqual(table.count("# left out: gate y"), 12)

    def test_wide_tables(self):
        names = " ".join(f"i{number}" for number in range(20))
        head = f".model m\n.inputs {names}\n.outputs y\n.names {names} y\n"
        single = "\n".join("-" * place + "1" + "-" * (19 - place) for place in range(20))
        for rows, kind in (
            ("1" * 20 + " 1", "AND"), ("1" * 20 + " 0", "NAND"), ("0" * 20 + " 1", "NOR"), (single.replace("\n", " 1\n") + " 1", "OR"),
        ):
            path, _ = self.convert(f"{head}{rows}\n.end\n")
            self.assertIn(f"y = {kind}(i0, ", path.read_text())
        self.assertIn("y has 20 inputs and is no gate", self.refused(f"{head}{'10' * 10} 1\n.end\n"))

    def test_refusals(self):
        head = ".model m\n.inputs a b c\n.outputs y\n"
        for lines, why in (
            (".gate $_DLATCH_P_ E=a D=b Q=y", "latch y ($_DLATCH_P_)"),
            (".latch a y ah c 2", "latch y (.latch of the kind ah)"),
            (".gate $_DFF_PP0_ C=c D=a R=b Q=y", "flip-flop y ($_DFF_PP0_) has an enable or a reset"),
            (".gate $_AND_ A=a B=b Y=y\n.gate $_OR_ A=a B=b Y=y", "wires with several drivers: y"),
            (".gate $_NOT_ A=a Y=b", "wires with several drivers: b"),
            (".gate $_NOT_ A=q Y=y", "wires that nothing drives: q"), (".names q y\n1 1", "wires that nothing drives: q"),
            (".names q r\n1 1\n.gate $_NOT_ A=r Y=y", "wires that nothing drives: q"),
            (".latch a y re c 2\n.latch b z re a 2", "several clocks"),
            (".latch a y re c 2\n.gate $_NOT_ A=c Y=z", "the clock c is read by a gate"),
            (".latch a y re c 2\n.names a b z\n10 1", "flip-flops"),
            (".gate NAND2X1 A=a B=b Y=y", "NAND2X1"),
            (".names a b c d0 d1 d2 y\n110101 1", "d0 d1 d2"),
            (".names $undef\n.gate $_AND_ A=a B=$undef Y=y", "gate y reads a value that is not defined"),
            (".search other.blif", ".search is not known here"),
            ("11 1", "rows without .names"),
        ):
            self.assertIn(why, self.refused(f"{head}{lines}\n.end\n"), lines)
        self.assertIn("2 models", self.refused(".model a\n.end\n.model b\n.end\n"))
        self.assertIn("no modules", self.refused("[]", "x.json"))
        self.assertIn("of Verilog yosys makes BLIF", self.refused("module x;", "x.v"))
        self.assertIn("not known here", self.refused("INPUT(a)\ny = TOASTER(a)\n", "x.bench"))
        self.assertIn("line 2", self.refused("INPUT(a)\nwhat\n", "x.bench"))
        self.assertIn("need types", self.refused(head + ".names a b y\n10 1\n.end\n", out="x.bench"))

    def test_end(self):
        """A file that was cut off may say something else."""
        text = ".model m\n.inputs a b\n.outputs y\n.names a b y\n11 1\n"
        self.assertIn("the file is not whole", self.refused(text))
        self.assertEqual(self.convert(f"{text}.end\n")[1], "")

    def test_abc_words(self):
        path, _ = self.convert("INPUT(a)\nOUTPUT(q)\nq = DFFRSE( d, gnd, gnd, gnd, gnd )\none = vdd\nd = LUT 0x6 ( a, q )\nz = LUT 0x8 ( a, one )\n", "x.bench")
        self.assertEqual(path.name, "x-diag.bench")
        self.assertEqual(path.read_text().split("\n")[1:], ["INPUT(a)", "OUTPUT(q)", "q = DFF(d)", "d = XOR(a, q)", "z = BUFF(a)", ""])

    def test_other_files_stay(self):
        """What it has made itself it makes anew; a file that somebody else has written stays, unless OUT names it."""
        text, own = ".model m\n.inputs a b\n.outputs y\n.names a b y\n11 1\n.end\n", "y = AND(a, b) # by hand\n"
        made, _ = self.convert(text)
        self.assertEqual(self.convert(text)[0], made)
        names = self.folder / "given.bench.names"
        for file in (made, names):
            file.write_text(own)
        self.assertIn("given.bench", self.refused(text))
        self.assertEqual([made.read_text(), names.read_text()], [own, own])
        made.unlink()
        self.assertIn("given.bench.names", self.refused(text))
        self.assertEqual(names.read_text(), own)
        made.write_text(own)
        self.assertIn("given.bench.names", self.refused(text, out="given.bench"))
        self.assertEqual([made.read_text(), names.read_text()], [own, own])
        names.unlink()
        self.convert(text, out="given.bench")
        self.assertIn("AND(a, b)\n", made.read_text())

    def test_no_room_for_the_table(self):
        """The one of the netlist before does not stay beside the new netlist."""
        text = ".model m\n.inputs a[0] b\n.outputs y\n.names a[0] b y\n11 1\n.end\n"
        self.assertIn("a(0)", self.convert(text.replace("[0]", "(0)"))[1])
        write = mock.Mock(side_effect=[None, OSError(errno.ENOSPC, "No space left on device")])
        with mock.patch.object(netlist, "write_whole", write), self.assertRaises(OSError):
            self.convert(text.replace("[0]", "(1)"))
        self.assertEqual([path.name for path in sorted(self.folder.iterdir())], ["given.bench", "given.blif"])

    def test_command(self):
        words = [sys.executable, "-m", "diag_client.netlist", VERILOG / "gray.blif", "-o", self.folder / "gray.bench"]
        env = {**os.environ, "PYTHONPATH": str(TOP / "python"), "PYTHONUNBUFFERED": ""}
        done = subprocess.run(words, capture_output=True, text=True, env=env, check=True)
        self.assertIn("14 gates, 3 flip-flops, 2 inputs\n", done.stdout)
        # The disk is full, or nobody reads.
        for closed, told in ((">/dev/full", "diag-netlist: no space left on device\n"), (">&-", ""), ("| true", "")):
            done = subprocess.run(["bash", "-c", f'"$@" {closed}', "bash", *words], stderr=subprocess.PIPE, text=True, env=env)
            self.assertEqual(done.stderr, told, closed)

    def test_odd_files(self):
        for name in ("empty.blif", "binary.blif", "binary.bench", "binary.json", "folder.bench", "other.v", "nowhere.blif"):
            path = self.folder / name
            if "folder" in name:
                path.mkdir()
            elif "nowhere" not in name:
                path.write_bytes(b"" if "empty" in name else b"\xff\x00\n(\n")
            with contextlib.redirect_stderr(io.StringIO()) as said:
                self.assertEqual(netlist.main([str(path)]), 1)
            self.assertIn(name, said.getvalue())
            self.assertNotIn("Errno", said.getvalue())

    def test_loop(self):
        """Two gates that read each other are taken, and said."""
        gates = ".gate $_AND_ A=a B=y[0] Y=z\n.gate $_NOT_ A=z Y=y[0]\n"
        (self.folder / "given.blif").write_text(f".model m\n.inputs a\n.outputs y[0]\n{gates}.end\n")
        said = netlist.convert(self.folder / "given.blif")
        self.assertRegex(said[1], r"^a loop of 2 gates: (y\[0\] z|z y\[0\]); its wires may have any bits that fit all of them$")

    def test_made_of_another_file(self):
        text = ".model m\n.inputs a\n.outputs y\n.gate $_NOT_ A=a Y=y\n.end\n"
        for name in ("v4.blif", "v4.other.blif"):
            (self.folder / name).write_text(text)
        made = self.folder / "v4.bench"
        for name, told in (("v4.blif", []), ("v4.blif", []), ("v4.other.blif", [f"{made} is no longer the one that was made of v4.blif"])):
            self.assertEqual(netlist.convert(self.folder / name, made)[1:], told)

    def test_large(self):
        """Each takes seconds if the time grows with the square: many inputs, connections in a chain, and constants from gate to gate."""
        count = 30000
        inputs = f".inputs {' '.join(f'i{place}' for place in range(count))}\n.gate $_AND_ A=i0 B=i1 Y=y\n"
        chain = "".join(f".names w{place} w{place + 1}\n1 1\n" for place in range(count))
        reads = "".join(f".gate $_AND_ A=a B=w{place} Y=g{place}\n" for place in range(0, count, 100)) + f".gate $_NOT_ A=w{count} Y=y\n"
        ties = "".join(f".gate $_AND_ A=w{place} B=a Y=w{place + 1}\n" for place in reversed(range(count)))
        for text in (inputs, f".inputs a w0\n{chain}{reads}", f".inputs a\n.names w0\n{ties}.gate $_XOR_ A=w{count} B=a Y=y\n"):
            began = time.process_time()
            self.convert(f".model m\n.outputs y\n{text}.end\n", out="given.bench")
            self.assertLess(time.process_time() - began, 6)
        gates = "".join(f".gate $_NOT_ A=a Y=g{place}\n" for place in range(4097))
        (self.folder / "given.blif").write_text(f".model m\n.inputs a\n.outputs g0\n{gates}.end\n")
        said = netlist.convert(self.folder / "given.blif")
        self.assertIn("too large: diag serves at most 4096 parts and 16384 wires, and these are 4097 and 4098", said)

    def test_connections_in_a_ring(self):
        circuit = read_blif(".model m\n.inputs a\n.outputs y\n.names y z\n1 1\n.names z y\n1 1\n.end\n")
        self.assertIsInstance(circuit, Circuit)
        with self.assertRaisesRegex(UnusableNetlist, "nothing drives"):
            circuit.settle()


if __name__ == "__main__":
    unittest.main()
