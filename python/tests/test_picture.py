"""Pictures: C17 against a stored text, blocks, times, cones of large devices, devices that are refused, and what is written where."""

import os
import pathlib
import re
import shutil
import signal
import subprocess
import sys
import tempfile
import unittest
from unittest import mock

from support import C17, EXAMPLES, TESTS, TOP, needs_program

from diag_client import Case, DiagError, Service, Verdict
from diag_client.devices import Part, read_device, read_netlist
from diag_client.pictures import graphviz, picture
from diag_client.pictures.cone import Wiring, derive
from diag_client.pictures.findings import Findings

# The case of the README, up to its first question.
SCRIPT = (EXAMPLES / "c17.script").read_text().splitlines()[:8]
STORED = TESTS / "c17.dot"
SHOWN = TOP / "docs/c17.svg"


class Devices(unittest.TestCase):
    """Files are read as the program reads them."""

    def test_netlist(self):
        device = read_netlist("input( a )\n# INPUT(x)\nOUTPUT(y)\ny=nand(a , b)# c\nb = BUF(a)\nq = DFF(y)\n")
        self.assertEqual(device.wires, ["a", "b", "q", "y"])
        self.assertEqual(device.parts, [Part("y", "NAND", ("a", "b", "y")), Part("b", "BUFF", ("a", "b")), Part("q", "DFF", ("y", "q"))])
        self.assertEqual((device.inputs, device.outputs), ({"a"}, {"y"}))

    def test_a_pipe(self):
        """The program has read it, and nobody writes into it any more."""
        with tempfile.TemporaryDirectory() as folder:
            os.mkfifo(f"{folder}/pipe.bench")
            with self.assertRaisesRegex(DiagError, "copy it into a plain file"):
                read_device(f"{folder}/pipe.bench")

    def test_carriage_returns_are_blanks(self):
        with tempfile.NamedTemporaryFile(suffix=".bench") as file:
            file.write(b"INPUT(\ra)# old\rINPUT(b)\r\ny =\rNOT(a)\r\n")
            file.flush()
            device = read_device(file.name)
        self.assertEqual((device.wires, device.parts), (["a", "y"], [Part("y", "NOT", ("a", "y"))]))

    def test_design(self):
        device = read_device(EXAMPLES / "adder.dev")
        self.assertEqual(device.blocks, {"first": "HALF", "second": "HALF"})
        self.assertEqual(device.wires, sorted(["a", "b", "c", "sum", "carry", "s", "g1", "g2"]))
        self.assertIn(Part("second.x", "XOR", ("s", "c", "sum")), device.parts)

    @needs_program
    def test_names_are_those_of_the_program(self):
        for path in [*EXAMPLES.glob("*.bench"), *EXAMPLES.glob("*.dev")]:
            with self.subTest(path.name), Service(path) as served:
                device = read_device(path)
                self.assertEqual(([part.name for part in device.parts], device.wires), (list(served.parts), list(served.wires)))


class Texts(unittest.TestCase):
    """What the text says."""

    def test_quotes(self):
        device = read_netlist('INPUT(a"\\n)\ny<&> = NOT(a"\\n)\n')
        text = picture.dot_text(device, Findings(Case({'a"\\n': 1}), {}, 0), "<title>")
        self.assertIn(r'"wire a\"\\n" [label="a\"\\n = 1"', text)
        self.assertIn("&lt;title&gt;", text)
        self.render(text)

    def test_verdicts_and_held(self):
        device = read_netlist("INPUT(a)\nx = NOT(a)\ny = XOR(a, x)\n")
        case = Findings(Case({}, {"x": "ok"}), {"x": Verdict.NEVER, "y": Verdict.ALWAYS}, 1)
        text = picture.dot_text(device, case, "t")
        self.assertIn(f'"part y" [label="y\\nXOR\\nalways" shape="hexagon" fillcolor="{picture.FILLS[Verdict.ALWAYS]}"]', text)
        self.assertIn(
            f'"part x" [label="x\\nNOT\\nheld ok" shape="house" fillcolor="white" orientation="270" margin="0.06,0.02" '
            f'color="{picture.HELD["ok"]}" penwidth="3"]', text,
        )
        self.assertIn('"part x" -> "part y" [dir="both" arrowtail="odot"]', text)
        self.render(text)

    def test_types_and_blocks(self):
        device = read_device(EXAMPLES / "ripple_64_blocks.dev")
        text = picture.dot_text(device, Findings(Case(), {}, 0), "t", most=1000)
        self.assertEqual(text.count("subgraph"), 4 + 16 + 64)
        self.assertIn('label="1.2.3: FULL"', text)
        pump = picture.dot_text(read_device(EXAMPLES / "pump.dev"), Findings(Case(), {}, 0), "t")
        self.assertIn('"part at_inlet" [label="at_inlet\\nSENSOR" shape="component"', pump)
        self.assertIn('"part at_inlet" -> "wire inlet" [dir="none" taillabel=" shown " labeldistance="1.6"]', pump)
        self.render(pump)

    def test_times(self):
        device = read_netlist("INPUT(d)\nq = DFF(d)\n")
        text = picture.dot_text(device, Findings(Case({"d@0001": 0, "q@0001": 1, "q@0002": 1}), {}, 1, 2), "t")
        self.assertIn('[label="q\\n@1 = 1\\n@2 = 1"', text)
        self.assertIn('[label="d @1 = 0"', text)

    def test_names_that_look_like_times(self):
        device = read_netlist("INPUT(a)\na@0001 = NOT(a)\n")
        rows = (("a@0001", None, "a@0001 = 1"), ("a@0001", 2, "a @1 = 1"), ("a@0001@0002", 2, "a@0001 @2 = 1"))
        for seen, frames, label in rows:
            self.assertIn(f'[label="{label}"', picture.dot_text(device, Findings(Case({seen: 1}), {}, 0, frames), "t"))

    def test_expected(self):
        """What is not as expected is marked, and what is expected of the others is in grey."""
        device = read_netlist("INPUT(a)\nx = NOT(a)\ny = NOT(x)\nz = NOT(y)\n")
        expected = {"a": 1, "x": 0, "y": 1, "z": 0}
        text = picture.dot_text(device, Findings(Case({"a": 1, "z": 1}), {}, 1, None, expected, "y"), "t")
        grey = f'<font color="{picture.EXPECTED}">'
        self.assertIn(f'"part x" [label=<x<br/>NOT {grey}= 0</font>>', text)
        self.assertIn(f'"wire z" [label=<z = 1 {grey}expected 0</font>> shape="note"', text)
        self.assertRegex(text, f'"wire z" .* color="{picture.WRONG}" penwidth="3"')
        self.assertRegex(text, f'"wire y" .label=<y {grey}= 1</font><br/>measure next> .* color="{picture.NEXT}"')
        # It is right, so nothing more is said of it.
        self.assertIn('"wire a" [label="a = 1" shape="note"', text)
        self.render(text)

    def test_expected_at_times(self):
        device = read_netlist("INPUT(d)\nq = DFF(d)\nz = BUFF(q)\ny = NOT(z)\n")
        expected = {row: found.bit for row, found in derive(device, {"d@0001": 1}, 2).items()}
        self.assertEqual(expected, {"d@0001": 1, "q@0002": 1, "z@0002": 1, "y@0002": 0})
        text = picture.dot_text(device, Findings(Case({"d@0001": 1, "y@0002": 1}), {}, 1, 2, expected, "z@0002"), "t")
        self.assertIn("= - 1</font>", text)
        self.assertIn("@2 = 1 <font", text)
        self.assertIn("measure next @2", text)
        self.render(text)

    def test_large(self):
        """Of 300 buffers in a row, with a branch at each, those between the suspect and the wrong reading are drawn."""
        row = "".join(f"w{number:03} = BUFF(w{number - 1:03})\nside{number} = NOT(w{number:03})\n" for number in range(1, 301))
        device = read_netlist("INPUT(w000)\n" + row)
        verdicts = {"w200": Verdict.SOMETIMES}
        text = picture.dot_text(device, Findings(Case({"w220": 1}), verdicts, 1, None, {"w220": 0}), "t")
        self.assertEqual(self.drawn(text), [f"w{number:03}" for number in range(200, 221)])
        self.assertIn("of 600 parts 21 are drawn: those between the suspects and the wrong readings", text)
        self.assertIn('label="w199\\n+2 parts"', text)
        self.render(text)
        text = picture.dot_text(device, Findings(Case({"w220": 1}), verdicts, 1, None, {"w220": 0}), "t", most=5)
        self.assertEqual(len(self.drawn(text)), 5)
        self.assertIn("5 of 21 are drawn", text)
        self.assertIn("w200", self.drawn(text))
        self.assertIn("w220", self.drawn(text))
        seen = picture.dot_text(device, Findings(Case({"w300": 0}), {}, 0), "t", most=2)
        self.assertEqual(sorted(self.drawn(seen)), ["side300", "w300"])
        self.assertIn("nearest to what was seen", seen)

    def test_most(self):
        for most in (0, -1):
            with self.assertRaises(ValueError):
                picture.dot_text(read_netlist("INPUT(a)\n"), Findings(Case(), {}, 0), "t", most)

    def test_cone_without_directions(self):
        """Ports of a type have no direction, so the cone goes through them both ways."""
        device = read_device(EXAMPLES / "pump.dev")
        some = device.parts[0]
        self.assertEqual(set(Wiring(device).cone([some.name], some.wires)) - {part.name for part in device.parts}, set())
        self.assertEqual(Wiring(device).cone([some.name], [])[0], some.name)

    def test_derived(self):
        """A bit follows from one input that decides a gate, if there is one, and names the fewest parts."""
        device = read_netlist("INPUT(a)\nINPUT(b)\nx = NOT(a)\ny = AND(x, b)\nz = XOR(y, b)\nfree = OR(c, a)\nc = BUFF(free)\n")
        found = derive(device, {"a": 1, "b": 0})
        self.assertEqual({name: row.bit for name, row in found.items()}, {"a": 1, "b": 0, "x": 0, "y": 0, "z": 0, "free": 1, "c": 1})
        self.assertEqual((found["y"].by, found["z"].by), ({"y"}, {"y", "z"}))
        self.assertEqual(set(derive(device, {"b": 1})), {"b"})

    def drawn(self, text):
        return re.findall(r'"part (\w+)" \[label', text)

    def render(self, text):
        if shutil.which("dot"):
            done = subprocess.run(["dot", "-Tsvg"], input=text, capture_output=True, text=True, check=True)
            # What this machine lacks, such as fonts, is not of the text.
            wrong = [line for line in done.stderr.splitlines() if line and not re.search("font|metrics|plugin|pango", line, re.IGNORECASE)]
            self.assertEqual(wrong, [])


class TooLarge(unittest.TestCase):
    """A device that the program refuses for its size."""

    def test_drawn_without_diagnoses(self):
        lines = ["open S", *SCRIPT[1:], "hold S 16=ok"]
        text = picture.picture_alone(C17, None, lines, None, 9, "sum above 1")
        self.assertIn("no diagnoses, since the program refuses the device: sum above 1", text)
        self.assertIn("22 = 1 <font", text)
        self.assertNotIn("faulty in all", text)
        # What the bit of 22 follows from, and nothing else.
        text = picture.picture_alone(C17, None, lines, None, 3, "sum above 1")
        self.assertEqual(re.findall(r'"part (\w+)" \[label', text), ["10", "16", "22"])
        self.assertIn("from which the expected bits of the wrong readings follow", text)

    def test_says_what_is_wrong(self):
        for line, why in (
            ("see S 99=0", "line 2: no wire 99"), ("hold S 1=ok", "no part"), ("see S 1=2", "1=2: a reading is 0 or 1"),
            ("see S 1", "a reading"),
        ):
            with self.subTest(line), self.assertRaisesRegex(DiagError, why):
                picture.picture_alone(C17, None, ["open S", line], None, 9, "")


class Written(unittest.TestCase):
    """OUT is written whole or not at all."""

    def setUp(self):
        self.folder = pathlib.Path(self.enterContext(tempfile.TemporaryDirectory()))
        self.out = self.folder / "out.svg"
        self.out.write_text("before")

    def dot(self, script):
        """A stand-in for Graphviz's program."""
        program = self.folder / "dot"
        program.write_text(f"#!/bin/sh\n{script}\n")
        program.chmod(0o755)
        self.enterContext(mock.patch.object(graphviz, "find_dot", lambda: str(program)))

    def test_whole(self):
        self.dot("cat >/dev/null; echo drawn as $1")
        self.assertEqual(graphviz.render("graph {}", self.out), self.out)
        self.assertEqual(self.out.read_text(), "drawn as -Tsvg\n")
        loud = self.out.with_name("out.SVG")
        graphviz.render("graph {}", loud)
        self.assertEqual(loud.read_text(), "drawn as -Tsvg\n")
        self.assertEqual(sorted(path.name for path in self.folder.iterdir()), ["dot", "out.SVG", "out.svg"])

    def test_not_at_all(self):
        for script, why in (("echo half; echo no room >&2; exit 1", "no room"), ("exit 3", "status 3")):
            with self.subTest(script):
                self.dot(script)
                with self.assertRaisesRegex(DiagError, why):
                    graphviz.render("graph {}", self.out)
                self.assertEqual(self.out.read_text(), "before")

    def test_no_room(self):
        self.dot("cat >/dev/null; echo drawn")
        with mock.patch("os.replace", side_effect=OSError), self.assertRaises(OSError):
            graphviz.render("graph {}", self.out)
        self.assertEqual(self.out.read_text(), "before")
        self.assertEqual(sorted(path.name for path in self.folder.iterdir()), ["dot", "out.svg"])

    def test_slow(self):
        self.dot("exec sleep 100")
        with mock.patch.object(graphviz, "PATIENCE", 0.1), self.assertRaisesRegex(DiagError, "--most"):
            graphviz.render("graph {}", self.out)
        self.assertEqual(self.out.read_text(), "before")

    def test_names(self):
        self.dot("cat >/dev/null; echo drawn")
        with mock.patch.dict("os.environ", HOME=str(self.folder)):
            self.assertEqual(graphviz.render("graph {}", "~/home.svg"), self.folder / "home.svg")
        with self.assertRaisesRegex(DiagError, "such as out.svg"):
            graphviz.render("graph {}", self.folder / "out")
        with self.assertRaisesRegex(DiagError, "no folder"):
            graphviz.render("graph {}", self.folder / "nowhere/out.svg")
        link = self.folder / "link.svg"
        link.symlink_to(self.out)
        graphviz.render("graph {}", link)
        self.assertTrue(link.is_symlink())
        self.assertEqual(self.out.read_text(), "drawn\n")


@needs_program
class Served(unittest.TestCase):
    """Pictures of what is served."""

    def test_stored(self):
        with Service(C17) as served:
            self.assertEqual(picture.picture(served, SCRIPT, None, picture.MOST), STORED.read_text())

    @unittest.skipUnless(shutil.which("dot"), "there is no dot")
    def test_shown(self):
        """The picture in docs/ is that of the stored text. Where its pieces lie is up to this `dot` and the fonts here."""
        drawn = subprocess.run(["dot", "-Tsvg", STORED], capture_output=True, text=True, check=True).stdout
        said = re.compile("<(?:title|text)[^>]*>(.*)</")
        self.assertEqual(sorted(said.findall(drawn)), sorted(said.findall(SHOWN.read_text())))

    def run_tool(self, *words, script=SCRIPT, path=None):
        env = {**os.environ, "PATH": path or os.environ["PATH"], "PYTHONPATH": str(TOP / "python")}
        words = [sys.executable, "-m", "diag_client", "picture", *words]
        return subprocess.run(words, input="\n".join(script).encode(), capture_output=True, env=env, check=False)

    def test_tool(self):
        self.assertEqual(self.run_tool(C17, "--most", "60", "-").stdout.decode(), STORED.read_text())
        with tempfile.TemporaryDirectory() as folder:
            # Names that are not UTF-8.
            file, out = os.path.join(os.fsencode(folder), b"c\xff.bench"), os.path.join(os.fsencode(folder), b"\xff.dot")
            shutil.copy(C17, file)
            self.assertNotIn(b"Traceback", self.run_tool(file, "-o", out, "-").stderr)
            text = picture.picture_alone(os.fsdecode(file), None, None, None, 9, "")
            self.assertIn("c\ufffd.bench", text)
            self.assertEqual(graphviz.render(text, os.fsdecode(out)).read_text(encoding="utf-8"), text)

    def test_too_large(self):
        done = self.run_tool(C17, "--budget", "1", "-")
        self.assertEqual(done.returncode, 0)
        self.assertIn(b"no diagnoses, since the program refuses the device: sum above 1", done.stdout)
        self.assertIn(b"22 = 1 <font", done.stdout)
        self.assertIn(b"; try --budget 8388608, then --engine search; drawn without diagnoses", done.stderr)

    def test_interrupt(self):
        """While a device is compiled, an interrupt ends the picture, and the terminal, without a traceback."""
        env = {**os.environ, "PYTHONPATH": str(TOP / "python")}
        with tempfile.TemporaryDirectory() as folder:
            waits = pathlib.Path(folder, "waits")
            waits.write_text("#!/bin/sh\necho started >&2\nexec sleep 100\n")
            waits.chmod(0o755)
            for command in ("picture", "shell"):
                words = [sys.executable, "-m", "diag_client", command, C17, "--program", waits]
                with subprocess.Popen(words, stderr=subprocess.PIPE, env=env) as child:
                    self.assertEqual(child.stderr.readline(), b"started\n")
                    child.send_signal(signal.SIGINT)
                    said = child.stderr.read()
                    self.assertEqual(child.wait(), 130)
                self.assertIn(b"interrupted", said)
                self.assertNotIn(b"Traceback", said)

    def test_without_dot(self):
        with tempfile.TemporaryDirectory() as folder:
            done = self.run_tool(C17, "-", "-o", f"{folder}/out.svg", path=folder)
            self.assertEqual(done.returncode, 1)
            self.assertIn(b"wrote", done.stderr)
            self.assertEqual(pathlib.Path(folder, "out.dot").read_text(), STORED.read_text())

    def test_says_what_is_wrong(self):
        script = pathlib.Path(self.enterContext(tempfile.TemporaryDirectory()), "typed")
        script.write_text("see 1=0\n")
        for words, why in (
            ((C17, script), "line 1: `see 1=0` is not understood: lines are such as `see S a=0`"),
            ((C17, "-", "--session", "T"), "the script has no session T"),
            (("nowhere.bench",), ": nowhere.bench: no such file or directory\n"),
            (("nowhere.nnf",), ": nowhere.nnf: a graph (.nnf) is asked in the terminal, by `shell FILE --health N`\n"),
            ((C17, "nowhere.script"), "nowhere.script"),
            ((EXAMPLES / "lamps.nnf",), "lamps.nnf"),
            ((C17, "-o", "out"), "such as out.svg"),
            ((C17, "-o", "nowhere/out.svg"), "no folder"),
        ):
            done = self.run_tool(*words)
            self.assertEqual(done.returncode, 1)
            self.assertIn(why, done.stderr.decode())
            self.assertNotIn(b"Traceback", done.stderr)
        for words in ((C17, "--most", "0"), (C17, "--most", "-1"), (C17, "-", "more"), (C17, "--scale")):
            self.assertEqual(self.run_tool(*words).returncode, 2)

    def test_scripts(self):
        """What a script says of the session that is drawn, as if it were alone."""
        with Service(C17) as served:
            many = [f"open case{number}" for number in range(20)] + ["open S", "see S 99=1", "see case7 1=1", "open S"]
            self.assertIn("1 = 1", picture.picture(served, many, "case7", picture.MOST))
            for wrong in (["see S 99=0"], ["see S"], ["open"], ["open S", "dance S"]):
                with self.subTest(wrong), self.assertRaises(DiagError):
                    picture.picture(served, wrong, None, picture.MOST)
            # A session that the service has open itself stays as it is.
            with served.session("S") as own:
                own.see({"1": 0})
                picture.picture(served, ["open S", "see S 2=0"], None, picture.MOST)
                self.assertEqual(own.probe("1").if_one, None)

    def test_no_room_for_another_session(self):
        with Service(C17, sessions=1) as served:
            text = picture.picture(served, SCRIPT, None, 9)
        self.assertIn("sometimes", text)
        self.assertNotIn("measure next", text)

    def test_inconsistent(self):
        lines = [*SCRIPT, "hold S 10=ok", "hold S 22=ok", "hold S 23=ok"]
        with Service(C17) as served:
            self.assertIn("no set of faulty parts explains", picture.picture(served, lines, None, 9))

    def test_no_gates(self):
        with Service(EXAMPLES / "lamps.nnf", health=3) as served, self.assertRaisesRegex(DiagError, "only a netlist"):
            picture.picture(served, None, None, 9)


if __name__ == "__main__":
    unittest.main()
