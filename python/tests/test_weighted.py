"""`diag-netlist --wcnf`: a case as weighted CNF."""

import os
import pathlib
import re
import shutil
import subprocess
import sys
import tempfile
import unittest

from support import C17, EXAMPLES, TOP, needs_program, replies

sys.path.insert(0, str(TOP / "fuzz"))

from rules import clauses as rules
from rules import designs, frames, netlists

from diag_client.case import Case
from diag_client.convert.weighted import Clauses
from diag_client.devices import read_device

# As on the page of the clauses: the part is 1, its inputs come next, and then its output.
WORKED = {
    "AND(a, b)": "-1 2 -4, -1 3 -4, -1 -2 -3 4", "OR(a, b)": "-1 -2 4, -1 -3 4, -1 2 3 -4",
    "XOR(a, b)": "-1 2 3 -4, -1 -2 3 4, -1 2 -3 4, -1 -2 -3 -4", "BUFF(a)": "-1 2 -3, -1 -2 3",
    "NAND(a, a)": "-1 2 3, -1 2 3, -1 -2 -3", "XOR(a, a)": "-1 2 -3, -1 -2 -3",
    "AND(a, b, c, d, e)":
        "2 -8, 3 -8, -2 -3 8, 8 -9, 4 -9, -4 -8 9, 9 -10, 5 -10, -5 -9 10, -1 -7 10, -1 6 -7, -1 -6 7 -10",
}
TYPE = "type T a y\nok 00\nok 11\nbad 10\nend\nblock B a y\npart p T a y\nend\ntop B\n"
OF_TYPE = "-1 -2 3, -1 2 -3, 1 2 3, 1 2 -3, 1 -2 -3"


def sets_of(text):
    return sorted(sorted(map(int, clause.split()), key=abs) for clause in text.split(", "))


class Written(unittest.TestCase):
    """The clauses are the defined ones."""

    def setUp(self):
        self.folder = pathlib.Path(self.enterContext(tempfile.TemporaryDirectory()))

    def clauses(self, name, text):
        file = self.folder / name
        file.write_text(text)
        return sorted(Clauses(read_device(file)).clauses)

    def test_worked_rows(self):
        for gate, expected in WORKED.items():
            with self.subTest(gate):
                inputs = sorted(set(re.findall(r"\b[a-e]\b", gate)))
                text = "".join(f"INPUT({name})\n" for name in inputs) + f"y = {gate}\n"
                self.assertEqual(self.clauses("x.bench", text), sets_of(expected))
        self.assertEqual(self.clauses("x.dev", TYPE), sets_of(OF_TYPE))

    def test_as_other_rules_say(self):
        """Those of the random tests were written from the pages, and by nobody who saw these."""
        for file in sorted([*EXAMPLES.glob("*.bench"), *EXAMPLES.glob("*.dev")]):
            data = file.read_bytes()
            device = designs.read(data) if file.suffix == ".dev" else netlists.read(data)
            with self.subTest(file.name):
                self.assertEqual(sorted(Clauses(read_device(file)).clauses), sorted(rules.tidied(rules.clauses_of(device)[0])))
        for times in (EXAMPLES / "frames").glob("*.frames"):
            file, count = times.with_suffix(".bench"), int(times.read_text())
            timed = frames.TimedNetlist(netlists.read(file.read_bytes(), True), count)
            with self.subTest(file.name):
                self.assertEqual(sorted(Clauses(read_device(file), count).clauses), sorted(timed.clauses()))


@needs_program
@unittest.skipUnless(shutil.which("clasp"), "there is no clasp")
class Solved(unittest.TestCase):
    """clasp reads it as other tools do, and finds the least cost that the program finds."""

    def run_netlist(self, *words, text=""):
        env = {**os.environ, "PYTHONPATH": str(TOP / "python")}
        words = [sys.executable, "-m", "diag_client.netlist", "--wcnf", *words]
        done = subprocess.run(words, input=text, capture_output=True, text=True, env=env, cwd=TOP)
        self.assertNotIn("Traceback", done.stderr)
        return done.returncode, done.stdout, done.stderr

    def test_least_costs(self):
        for name in ("c17.bench", "full_adder.bench", "wide_gates.bench", "latch.bench", "pump.dev", "costs.dev", "valves.dev", "ripple_64.bench"):
            file = EXAMPLES / name
            case = Case.from_script(file.with_suffix(".script").read_text())
            status, text, _ = self.run_netlist(file, "-", text="open S\n" + case.script())
            least = replies(["open S", *case.script().splitlines(), "min S"], file=file)[-1]
            with self.subTest(name), tempfile.NamedTemporaryFile("w", suffix=".wcnf") as made:
                made.write(text)
                made.flush()
                told = subprocess.run(["clasp", made.name], capture_output=True, text=True).stdout
                costs = [int(line.split()[1]) for line in told.splitlines() if re.match("o [0-9]", line)]
                self.assertEqual((status, "S inconsistent" if "s UNSATISFIABLE" in told else f"min {costs[-1]}"),
                                 (0, least if "inconsistent" in least else " ".join(least.split()[1:3])))

    def test_refusals(self):
        for words, text, why in (
            ((C17, "nowhere"), "", "nowhere: no such file"), ((C17, "-"), "see S 9=1\n", "no wire 9"), ((C17, "-"), "hold S 1=ok\n", "no part 1"),
            ((C17, "-"), "see S 1=2\n", "-: line 1: "), ((TOP / "README.md", "-"), "", "README.md: not a device"),
            ((EXAMPLES / "frames/toggle.bench", "-"), "", "give --frames F"), ((C17, "-", "-o", "/dev/full"), "", "no space left"),
        ):
            with self.subTest(why):
                status, _, said = self.run_netlist(*words, text=text)
                self.assertEqual(status, 1)
                self.assertIn(why, said)


if __name__ == "__main__":
    unittest.main()
