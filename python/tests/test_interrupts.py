"""An interrupt of a command, from its first moment on."""

import contextlib
import io
import os
import pathlib
import signal
import subprocess
import sys
import tempfile
import unittest
from unittest import mock

from support import C17, TOP

from diag_client.convert import netlist

INTERRUPT = "import os, signal\nos.kill(os.getpid(), signal.SIGINT)\n"


class Interrupts(unittest.TestCase):
    """The status is 130, and nobody sees where it was."""

    def setUp(self):
        self.folder = pathlib.Path(self.enterContext(tempfile.TemporaryDirectory()))

    def run_python(self, *words):
        """The status, and all that is printed."""
        env = {**os.environ, "PYTHONPATH": f"{self.folder}:{TOP / 'python'}"}
        done = subprocess.run([sys.executable, *words], env=env, stdout=subprocess.PIPE, stderr=subprocess.STDOUT, text=True)
        return done.returncode, done.stdout

    def test_while_it_is_loaded(self):
        """Modules of the library are replaced by such as interrupt whoever loads them: the package, or the command itself."""
        script = self.folder / "diag-shell"
        script.write_text("import sys\nfrom diag_client.commands import shell\nsys.exit(shell())\n")
        for module in ("selectors", "argparse"):
            replaced = self.folder / f"{module}.py"
            replaced.write_text(INTERRUPT)
            for words in (["-m", "diag_client", "shell", C17], ["-mdiag_client.netlist", C17], [script, C17]):
                with self.subTest(module, words=words):
                    self.assertEqual(self.run_python(*words), (130, ""))
            replaced.unlink()

    def test_another_program(self):
        """One that imports the package is told."""
        (self.folder / "selectors.py").write_text(INTERRUPT)
        package = self.folder / "other"
        package.mkdir()
        (package / "__init__.py").write_text("import diag_client")
        (package / "__main__.py").touch()
        for words in (["-c", "import diag_client"], ["-m", "other", "diag_client"]):
            status, told = self.run_python(*words)
            self.assertEqual((status, told.splitlines()[-1]), (-signal.SIGINT, "KeyboardInterrupt"))

    def test_at_work(self):
        program = self.folder / "program"
        program.write_text("#!/bin/sh\nkill -s INT $PPID\nexec sleep 900\n")
        program.chmod(0o755)
        told = self.run_python("-m", "diag_client", "shell", C17, "--program", program)
        self.assertEqual(told, (130, "diag_client: interrupted\n"))

    def test_while_a_netlist_is_made(self):
        with mock.patch.object(netlist, "convert", side_effect=KeyboardInterrupt), contextlib.redirect_stderr(io.StringIO()) as said:
            self.assertEqual((netlist.main(["x.blif"]), said.getvalue()), (130, "diag-netlist: interrupted\n"))


if __name__ == "__main__":
    unittest.main()
