"""The examples in docstrings and in docs/PYTHON.md, and the script `examples/troubleshoot`."""

import doctest
import importlib
import inspect
import os
import pathlib
import pkgutil
import re
import shutil
import subprocess
import sys
import unittest

from support import C17, TOP, needs_program

import diag_client

FLAGS = doctest.ELLIPSIS | doctest.NORMALIZE_WHITESPACE


@needs_program
class Examples(unittest.TestCase):
    """They run at the top of the checkout, as they are."""

    def setUp(self):
        self.addCleanup(os.chdir, os.getcwd())
        os.chdir(TOP)

    def test_docstrings(self):
        tried = 0
        for name in ["diag_client", *(found.name for found in pkgutil.walk_packages(diag_client.__path__, "diag_client."))]:
            module = importlib.import_module(name)
            failed, found = doctest.testmod(module, optionflags=FLAGS, extraglobs={"Service": diag_client.Service})
            self.assertEqual(failed, 0, name)
            tried += found
        self.assertGreater(tried, 10)

    def test_pages(self):
        for page in ("docs/PYTHON.md", "README.md"):
            text = re.sub(r"^```.*$", "", pathlib.Path(page).read_text(), flags=re.MULTILINE)
            example = doctest.DocTestParser().get_doctest(text, {}, page, page, 0)
            self.assertTrue(example.examples, page)
            self.assertEqual(doctest.DocTestRunner(optionflags=FLAGS).run(example).failed, 0)

    def test_each_call_has_an_example(self):
        """Every method of a session is tried in its docstring, except some, which other tests try."""
        tried_elsewhere = {
            "open", "close", "unsee", "unhold", "probes", "probe_each", "rank_probes", "diagnoses_with", "restoring", "reopening",
            "opening", "seeing", "holding", "becoming", "placing", "requests", "piece",
        }
        for name, method in vars(diag_client.Session).items():
            if inspect.isfunction(method) and not name.startswith("_") and name not in tried_elsewhere:
                self.assertIn(">>>", method.__doc__, name)


@needs_program
class Troubleshoot(unittest.TestCase):
    """The script finds what it put in, in fewer measurements than in name order."""

    def run_script(self, *words, **variables):
        words = [sys.executable, TOP / "examples/troubleshoot", *words]
        done = subprocess.run(words, capture_output=True, text=True, check=False, env={**os.environ, **variables})
        return done.returncode, done.stdout, done.stderr

    def test_repair(self):
        status, told, _ = self.run_script()
        self.assertEqual(status, 0)
        stuck = re.search(r"^(\S+) is stuck at", told, re.MULTILINE)[1]
        self.assertIn(f"left: {stuck}\nreplaced {stuck}: the outputs are right\n", told)
        advised, named = map(int, re.search(r"measurements: ([0-9]+); in name order it takes ([0-9]+)", told).groups())
        self.assertEqual(told.count("\nmeasure "), advised)
        self.assertIn(f"takes {advised} measurements; in name order it takes {named}.", (TOP / "docs/PYTHON.md").read_text())
        self.assertLess(advised, named)

    def test_every_gate(self):
        status, told, _ = self.run_script(C17, "--every")
        self.assertEqual(status, 0)
        advised, named = map(float, re.findall(r": ([0-9.]+) measurements on average", told))
        self.assertLess(advised, named)

    def test_looks_for_an_order(self):
        """Unless it is to take that of the names."""
        for words, is_narrow in (((C17,), True), ((C17, "--no-narrow"), False)):
            _, _, said = self.run_script(*words, DIAG_PROGRAM=shutil.which("false"))
            self.assertEqual("--narrow" in said, is_narrow, said)

    def test_says_what_is_wrong(self):
        for words, why in (
            (("nowhere.bench",), "nowhere.bench"), ((C17, "99"), "no gate 99"), ((TOP / "examples/latch.bench",), "cycle"),
            ((TOP / "examples/adder.dev",), "netlist"),
        ):
            status, _, said = self.run_script(*words)
            self.assertNotEqual(status, 0)
            self.assertIn(why, said)
            self.assertNotIn("Traceback", said)


if __name__ == "__main__":
    unittest.main()
