"""A small run of `fuzz/broken-netlists`, and rows for the rules that it compares with."""

import importlib.machinery
import importlib.util
import pathlib
import sys
import tempfile
import unittest
from unittest import mock

sys.dont_write_bytecode = True

LOADER = importlib.machinery.SourceFileLoader("broken_netlists", str(pathlib.Path(__file__).with_name("broken-netlists")))
broken = importlib.util.module_from_spec(importlib.util.spec_from_loader("broken_netlists", LOADER))
LOADER.exec_module(broken)


class Rules(unittest.TestCase):
    """What the rules read, by hand."""

    def test_bits(self):
        blif = ".model m\n.inputs a b\n.outputs y\n.gate $_ANDNOT_ A=a B=b Y=n\n.names n b y\n0- 1\n-1 1\n.end\n"
        bench = "INPUT(a)\nINPUT(b)\nOUTPUT(y)\nn = LUT 0x2 (a, b)\ny = NAND(n, n)\n"
        for ending, text in ((".blif", blif), (".bench", bench)):
            for bits, wanted in (((0, 0), 1), ((1, 0), 0), ((0, 1), 1), ((1, 1), 1)):
                self.assertEqual(broken.READERS[ending](text).bits(dict(zip("ab", bits)))["y"], wanted, ending)

    def test_odd(self):
        head = ".model m\n.inputs a b\n.outputs y\n"
        pins = ("$_NAND_ A=a Y=y", "$_NOT_ A=a B=b Y=y", "$_NOT_ A=a A=b Y=y", "$_NOT_ A=a Y=")
        for line in (*(f".gate {words}" for words in pins), ".names a y", ".latch a y re", ".names"):
            with self.assertRaises(broken.Odd):
                broken.READERS[".blif"](f"{head}{line}\n.end\n")


class Run(unittest.TestCase):
    """The cases of one seed."""

    def test_cases(self):
        with tempfile.TemporaryDirectory() as folder, mock.patch.object(broken, "TOP", pathlib.Path(folder)):
            ends = [broken.tried(1, number)[0] for number in range(400)]
        self.assertEqual(set(ends), {"refused", "written, and the same"})
        self.assertGreater(ends.count("written, and the same"), 100)


if __name__ == "__main__":
    unittest.main()
