"""How `fuzz/narrow` counts its cases, over a stand-in for the program."""

import importlib.machinery
import importlib.util
import pathlib
import subprocess
import sys
import tempfile
import unittest
from unittest import mock

sys.dont_write_bytecode = True

LOADER = importlib.machinery.SourceFileLoader("narrow", str(pathlib.Path(__file__).with_name("narrow")))
narrow = importlib.util.module_from_spec(importlib.util.spec_from_loader("narrow", LOADER))
LOADER.exec_module(narrow)


class Ends(unittest.TestCase):
    """Only what was compared counts as the same, or as different."""

    def tried(self, plain, forest, search):
        """How a case ends whose runs write this, or end with this status, and whether it is kept. A run with None takes too long."""

        def run(words, **options):
            end = forest if "--narrow" in words else search if "--search" in words else plain
            if end is None:
                raise subprocess.TimeoutExpired(words, 1)
            return subprocess.CompletedProcess(words, end, b"") if isinstance(end, int) else subprocess.CompletedProcess(words, 0, end)

        with tempfile.TemporaryDirectory() as folder, mock.patch("subprocess.run", run):
            with mock.patch.object(narrow, "TOP", pathlib.Path(folder)):
                end, kept = narrow.tried("diag", 1, 0)
        return end, kept is not None

    def test_ends(self):
        for ends, wanted in (
            ((b"a", b"a", b"a"), ("the same 3 ways, status 0", False)), ((1, 1, 1), ("the same 3 ways, status 1", False)),
            ((b"a", b"b", b"a"), ("different", True)), ((b"a", b"a", b"b"), ("different", True)), ((b"b", b"a", b"a"), ("different", True)),
            ((3, b"a", b"a"), ("the same 2 ways, status 0", False)), ((3, b"a", b"b"), ("different", True)),
            ((3, 3, b"a"), ("the same 1 ways, status 0", False)), ((b"a", 3, b"a"), ("different", True)), ((3, 3, 3), ("different", True)),
            ((3, b"a", 3), ("different", True)), ((None, None, None), ("too long by plain and narrow and search", False)),
            ((None, b"a", b"a"), ("too long by plain", False)), ((None, b"a", b"b"), ("different", True)),
            ((None, 3, b"a"), ("too long by plain", False)), ((b"a", None, b"a"), ("too long by narrow", True)),
            ((b"a", b"a", None), ("too long by search", True)), ((b"a", b"b", None), ("different", True)),
            ((b"a", b"a", -11), ("ended by a signal", True)),
        ):
            with self.subTest(ends):
                self.assertEqual(self.tried(*ends), wanted)


if __name__ == "__main__":
    unittest.main()
