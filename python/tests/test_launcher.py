"""The launcher `diag`: what it says itself, when it takes the program for current, and that it is not noticed when it runs it."""

import contextlib
import os
import pathlib
import re
import shutil
import signal
import subprocess
import tempfile
import unittest
from unittest import mock

from checkout import FAKE_PROGRAM, FAKE_RT, leave_program, make_checkout, put_program, wait_past
from support import C17, EXAMPLES, PROGRAM, SOON, TOP, needs_program, wait_until

HELP = (TOP / "python/diag_client/help.txt").read_text()
SETPRIV = pathlib.Path("/usr/bin/setpriv")


def failing(path):
    """Makes a program that fails at once."""
    path.write_text("#!/bin/sh\nexit 1\n")
    path.chmod(0o755)
    return path


class InCheckout(unittest.TestCase):
    """Each test has a small checkout of its own, outside of any repository."""

    program: str | None = FAKE_PROGRAM

    def setUp(self):
        folder = tempfile.TemporaryDirectory()
        self.addCleanup(folder.cleanup)
        self.elsewhere = pathlib.Path(folder.name)
        self.top = self.elsewhere / "top"
        self.top.mkdir()
        make_checkout(self.top, self.program)

    def run_diag(self, *words, top=None, text="", **variables):
        """The status, standard output and standard error."""
        env = {**os.environ, **variables}
        words = [(top or self.top) / "diag", *words]
        done = subprocess.run(words, input=text, capture_output=True, text=True, cwd=self.elsewhere, env=env, timeout=2 * SOON)
        return done.returncode, done.stdout, done.stderr

    def is_current(self, top=None):
        """Whether the program is taken for built from these sources, and what is said besides."""
        status, told, said = self.run_diag("--path", top=top)
        self.assertEqual((status, told), (0, f"{(top or self.top).resolve()}/crates/diag/out/diag\n") if not status else (1, ""))
        return status == 0, said

    def without_tee(self):
        """A path to tools, of which one writes no file, as if the disk were full."""
        tools = self.elsewhere / "full"
        tools.mkdir()
        (tools / "tee").write_text("#!/bin/sh\ncat\nexit 1\n")
        (tools / "tee").chmod(0o755)
        return f"{tools}:{os.environ['PATH']}"


class Says(InCheckout):
    """Words that are the launcher's own."""

    def test_help(self):
        for word in ("-h", "help", "--help"):
            self.assertEqual(self.run_diag(word), (0, HELP, ""))
        self.assertEqual(self.run_diag(), (2, "", HELP))

    def test_version(self):
        """Of a program that `rt ci` left no more is known than the times of the files say."""
        for _ in range(2):
            told = self.run_diag("--version")[1].splitlines()
            self.assertEqual(told[0], "diag, commit unknown")
            self.assertEqual(told[1:], ["by the times of its files `rt ci` proved and built the program from these sources; `diag --build` makes sure"])

    @unittest.skipUnless(shutil.which("git"), "there is no git")
    def test_version_in_a_repository(self):
        # A hook of git gives those that it starts its own repository, and the configuration of whoever runs this may sign commits.
        others = {name: value for name, value in os.environ.items() if not name.startswith("GIT_")}
        self.enterContext(mock.patch.dict(os.environ, {**others, "GIT_CONFIG_GLOBAL": os.devnull, "GIT_CONFIG_NOSYSTEM": "1"}, clear=True))
        git = ["git", "-C", str(self.top), "-c", "user.name=a", "-c", "user.email=a"]
        subprocess.run([*git, "init", "-q"], check=True)
        subprocess.run([*git, "add", "crates.txt"], check=True)
        subprocess.run([*git, "commit", "-qm", "one"], check=True, env={**os.environ, "GIT_COMMITTER_DATE": "2026-11-05T12:00:00"})
        self.assertRegex(self.run_diag("--version")[1], r"^diag, commit [0-9a-f]+ of 2026-11-05\n")
        (self.top / "crates.txt").write_text("diag: low\n")
        _, told, _ = self.run_diag("--version")
        self.assertRegex(told, r"^diag, commit [0-9a-f]+ of 2026-11-05, changed since\nthe program is not built from these sources")
        # Without it, it is the commit that was noted with the checksums.
        shutil.rmtree(self.top / ".git")
        self.assertRegex(self.run_diag("--version")[1], r"^diag, commit [0-9a-f]+ of 2026-11-05\n")


class IsCurrent(InCheckout):
    """By the checksums of one record, which are compared each time. `rt ci` leaves none: then the launcher looks once at what it left."""

    def test_after_the_gate(self):
        for _ in range(2):
            self.assertEqual(self.is_current(), (True, ""))
            record = (self.top / "crates/diag/out/diag.sources").read_text()
            self.assertRegex(record, r"\Asources [0-9a-f]{64}\nprogram [0-9a-f]{64}\nby rt ci\n\Z")

    def test_not_left_by_the_gate(self):
        """A program that was copied there, before the gate ran both or after it, and one that does not answer the stored run."""
        out = self.top / "crates/diag/out"
        for change in (
            lambda: (out / "stdout.by-rattle").unlink(),
            lambda: (out / "diag.by-rattle").unlink(),
            lambda: (wait_past(out, out / "diag.by-rattle"), put_program(self.top, FAKE_PROGRAM)),
            # `rt ci diag` works on a copy, and leaves here what its programs wrote.
            lambda: (wait_past(out, out / "diag.by-rattle"), put_program(self.top, FAKE_PROGRAM), (out / "stdout.by-rattle").touch()),
            lambda: (wait_past(out, out / "diag.by-rattle"), put_program(self.top, pathlib.Path("/bin/true")), (out / "stdout").touch()),
            lambda: leave_program(self.top, pathlib.Path("/bin/true")),
            lambda: (wait_past(out, out / "diag"), (self.top / "crates/low/src/lib.rt").touch()),
            lambda: (wait_past(out, out / "diag"), (self.top / "crates/low/specs/Low.antt").unlink()),
        ):
            with self.subTest():
                leave_program(self.top, FAKE_PROGRAM)
                change()
                self.assertEqual(self.is_current(), (False, ""))

    def test_changes(self):
        self.is_current()
        source = self.top / "crates/low/specs/Low.antt"
        for change, wanted in (
            (lambda: source.touch(), True),
            (lambda: (source.write_text("lox\n"), os.utime(source, (1, 1))), False),
            (lambda: source.write_text("low\n"), True),
            (lambda: (self.top / "crates/diag_tests/src/lib.rt").write_text(""), True),
            (lambda: (self.top / "crates/low/proofs").mkdir(), True),
            (lambda: (self.top / "crates/diag/proofs/New.antt").write_text("x\n"), False),
            (lambda: (self.top / "crates/diag/proofs/New.antt").unlink(), True),
            (lambda: (self.top / "HANDLES").write_text("\n"), False),
            (lambda: (self.top / "HANDLES").write_text("Handles allowed: none.\n"), True),
            (lambda: (self.top / "crates/low").rename(self.top / "crates/lower"), False),
            (lambda: (self.top / "crates/lower").rename(self.top / "crates/low"), True),
            (lambda: put_program(self.top, pathlib.Path("/bin/true")), False),
            (lambda: put_program(self.top, FAKE_PROGRAM), True),
        ):
            change()
            self.assertEqual(self.is_current(), (wanted, ""))

    def test_copies(self):
        """The record goes with them, and says the same of the same files."""
        self.is_current()
        for words in (["cp", "-r"], ["cp", "-a"]):
            copy = self.elsewhere / f"[a] *{words[1]}"
            subprocess.run([*words, str(self.top), str(copy)], check=True)
            self.assertEqual(self.is_current(copy), (True, ""))
            (copy / "crates/low/src/lib.rt").write_text("fn other() {}\n")
            self.assertEqual(self.is_current(copy), (False, ""))

    def test_many_at_once(self):
        """Each writes the record, and none reads one that another has begun."""
        out = self.top / "crates/diag/out"
        for _ in range(5):
            (out / "diag.sources").unlink(missing_ok=True)
            runs = [subprocess.Popen([self.top / "diag", "--path"], stdout=subprocess.DEVNULL) for _ in range(8)]
            self.assertEqual([run.wait() for run in runs], [0] * len(runs))
        self.assertEqual(sorted(os.listdir(out)), ["diag", "diag.by-rattle", "diag.sources", "stdout", "stdout.by-rattle"])

    def test_record_that_cannot_be_written(self):
        """The program is current all the same."""
        self.assertEqual(self.run_diag("--path", PATH=self.without_tee())[0], 0)
        self.assertEqual(sorted(os.listdir(self.top / "crates/diag/out")), ["diag", "diag.by-rattle", "stdout", "stdout.by-rattle"])


class Hints(InCheckout):
    """One line on standard error after a status from 1 to 5, and nothing else but what the program says. test_hints has what it says."""

    def setUp(self):
        super().setUp()
        self.is_current()

    def test_hints(self):
        (self.elsewhere / "any.bench").write_text("INPUT(a)\ny = MAJ(a)\n")
        fault = "error: line 2: fault 3 kind"
        for words, status, line, why in (
            ("serve any.bench", 1, fault, "line 2, column 5: `MAJ` in `y = MAJ(a)`"), ("serve any.bench", 1, "error: other", "README.md"),
            ("serve any.bench", 3, "", "try --narrow, then --budget 8388608, then --search"), ("serve no.bench", 4, "", "there is no file no.bench"),
            ("serve any.bench --wide", 2, "", "`serve` takes no `--wide`; `diag --help` shows all forms"),
        ):
            got, told, said = self.run_diag(*words.split(), FAKE=str(status), FAKE_LINE=line)
            self.assertEqual((got, told, said.count("\n")), (status, f"{line}\n", 1), (words, said))
            self.assertIn(why, said, words)

    def test_without_python(self):
        """What is said then is the same for all."""
        self.assertIn("README.md", self.run_diag("plan", "no.bench", FAKE="4", PATH=f"{failing(self.elsewhere / 'python3').parent}:{os.environ['PATH']}")[2])

    def test_own_modules_alone(self):
        """What lies in the folder of the user is not run."""
        (self.elsewhere / "re.py").write_text("print('mine')\n")
        self.assertIn("there is no file", self.run_diag("plan", "no.bench", FAKE="4")[2])

    def test_full_disk(self):
        with open("/dev/full", "w") as full:
            words = [self.top / "diag", "serve", "x.bench"]
            done = subprocess.run(words, stdout=full, stderr=subprocess.PIPE, text=True, env={**os.environ, "FAKE": "5"})
        self.assertEqual(done.returncode, 5)
        self.assertIn("diag: the output could not be written to its end: is the disk full?\n", done.stderr)

    def test_none(self):
        """Of a failed write nothing is said if the output is a pipe: who reads has had enough."""
        for status in (0, 5, 6, 7):
            self.assertEqual(self.run_diag("serve", "x.bench", FAKE=str(status)), (status, "told\n", ""))


class Passes(InCheckout):
    """What goes in and out, and signals."""

    def setUp(self):
        super().setUp()
        self.is_current()

    def start(self):
        words = [self.top / "diag", "serve", EXAMPLES / "c17.bench"]
        child = subprocess.Popen(words, stdin=subprocess.PIPE, stdout=subprocess.PIPE, stderr=subprocess.PIPE, process_group=0, bufsize=0)
        for end in (child.stdin, child.stdout, child.stderr):
            self.addCleanup(end.close)
        child.stdin.write(b"here\n")
        self.assertEqual(child.stdout.readline(), b"here\n")
        # The program is there, and the launcher hands on signals once it catches the last of them.
        wait_until(lambda: self.caught(child.pid) >> (signal.SIGUSR2 - 1) & 1)
        return child

    @staticmethod
    def caught(process):
        """The signals that a process catches, a bit for each."""
        return int(re.search("SigCgt:\\s*(.*)", pathlib.Path(f"/proc/{process}/status").read_text())[1], 16)

    def test_bytes(self):
        data = bytes(range(256)) * 1000
        done = subprocess.run([self.top / "diag", "serve", "x.bench"], input=data, capture_output=True)
        self.assertEqual((done.returncode, done.stdout, done.stderr), (0, data, b""))

    def test_signals_to_the_launcher(self):
        for number in (signal.SIGINT, signal.SIGTERM, signal.SIGHUP):
            child = self.start()
            os.kill(child.pid, number)
            # The program ends though its input does not.
            self.assertEqual(child.wait(SOON), -number)
            self.assertEqual((child.stdout.read(), child.stderr.read()), (b"", b""))

    def test_interrupt_at_the_terminal(self):
        child = self.start()
        os.killpg(child.pid, signal.SIGINT)
        self.assertEqual((child.wait(SOON), child.communicate()), (-signal.SIGINT, (b"", b"")))

    @unittest.skipUnless(os.access(SETPRIV, os.X_OK) and not SETPRIV.is_symlink(), "there is no setpriv")
    def test_killed_launcher(self):
        child = self.start()
        child.kill()
        self.assertEqual(child.wait(SOON), -signal.SIGKILL)
        self.assertEqual(child.stdout.read(), b"")

    def test_killed_program(self):
        for name in ("KILL", "TERM", "PIPE"):
            self.assertEqual(self.run_diag("serve", "x.bench", FAKE=name), (-getattr(signal, f"SIG{name}"), "", ""))


class WithKit(InCheckout):
    """There is a kit, which only pretends, and no program yet."""

    program = None

    def with_kit(self, **variables):
        """What the launcher finds around it."""
        tools = self.elsewhere / "tools"
        tools.mkdir(exist_ok=True)
        (tools / "rt").write_text(FAKE_RT)
        (tools / "rt").chmod(0o755)
        self.said_to_rt = self.elsewhere / "said"
        return {"PATH": f"{tools}:{os.environ['PATH']}", "RT_SAID": str(self.said_to_rt), "RT_PROGRAM": FAKE_PROGRAM, **variables}


class Unproved(WithKit):
    """Without a program the kit runs the sources."""

    def run_unproved(self, words, ends, **variables):
        return self.run_diag(*words.split(), **self.with_kit(RT_ENDS=ends, **variables))

    def test_ends(self):
        """As the program does, with the same hints; 125 is of the kit alone, whose own status means something else."""
        (self.elsewhere / "any.bench").write_text("INPUT(a)\ny = MAJ(a)\n")
        fault = "error: line 2: fault 3 kind"
        for ends, line, status, why in (
            ("run=ended status=0 runners=1 proved=no", "ready 1 1", 0, "are run unproved"),
            ("run=ended status=1 runners=1 proved=no", fault, 1, "line 2, column 5: `MAJ` in `y = MAJ(a)`"),
            ("run=ended status=6 runners=1 proved=no", "error: memory", 6, "are run unproved"),
            ("run=no-answer proved=no", "", 125, "checked: said\nrun=no-answer proved=no\ndiag: the kit stopped the run before its end"),
        ):
            got, told, said = self.run_unproved("serve any.bench --narrow", ends, RT_WRITES=line)
            self.assertEqual((got, told), (status, f"{line}\n" if status < 125 else ""), said)
            self.assertIn(why, said)
            self.assertEqual("run=" in said, status == 125)
        given = f"--data given.bench={self.elsewhere}/any.bench -- serve given.bench --narrow"
        self.assertIn(f"{self.top}/crates/diag: rt try --seconds 50 {given}\n", self.said_to_rt.read_text())

    def test_at_once(self):
        """What the words decide, and a file that is not there, waits for no kit."""
        for words, line, status, why in (
            ("plan nofile", "error: usage", 2, "ends in .bench or .dev"), ("plan any.bench --wide", "error: usage", 2, "takes no `--wide`"),
            ("plan any.bench", "error: read", 4, "there is no file any.bench"), ("load 801", "error: usage", 2, "from 1 to 800"),
        ):
            got, told, said = self.run_unproved(words, "")
            self.assertEqual((got, told, said.count("\n")), (status, f"{line}\n", 1), said)
            self.assertIn(why, said)
        self.assertFalse(self.said_to_rt.exists())
        # Without a Python the program says it.
        with mock.patch.dict(os.environ, PATH=f"{failing(self.elsewhere / 'python3').parent}:{os.environ['PATH']}"):
            got, told, _ = self.run_unproved("plan", "run=ended status=2 runners=1 proved=no", RT_WRITES="error: usage")
        self.assertEqual((got, told), (2, "error: usage\n"))

    def test_full_disk(self):
        env = {**os.environ, **self.with_kit(RT_ENDS="run=ended status=0 runners=1 proved=no")}
        with open("/dev/full", "w") as full:
            done = subprocess.run([self.top / "diag", "load", "1"], stdout=full, stderr=subprocess.PIPE, text=True, env=env)
        self.assertEqual(done.returncode, 5)
        self.assertIn("is the disk full?", done.stderr)


class Builds(WithKit):
    """`--build` leaves proofs to the kit, and says how far it is."""

    def build(self, **variables):
        return self.run_diag("--build", **self.with_kit(**variables))

    def test_progress(self):
        goes_on = self.elsewhere / "goes-on"
        env = {**os.environ, **self.with_kit(RT_GOES_ON=str(goes_on))}
        with subprocess.Popen([self.top / "diag", "--build"], stderr=subprocess.PIPE, text=True, env=env) as build:
            self.addCleanup(build.kill)
            said = [build.stderr.readline() for _ in range(2)]
            goes_on.touch()
            build.stderr.read()
        self.assertEqual((build.returncode, said[1]), (0, "diag: low is done; 1 of 2 crates to go\n"))
        self.assertIn("about 20 minutes", said[0])

    def test_build(self):
        status, told, said = self.build()
        self.assertEqual((status, told), (0, ""), said)
        self.assertIn("all is proved; compiling the program\n", said)
        folder = self.top / "crates/diag"
        self.assertRegex(self.said_to_rt.read_text(), rf"\A{folder}: rt all check --jobs [0-9]+\n{folder}: rt run -- load 1\n\Z")
        self.assertEqual(self.is_current(), (True, ""))
        self.assertIn("\nthe program is proved and built from these sources\n", self.run_diag("--version")[1])
        self.assertIn("is built from these sources already\n", self.build()[2])
        # A program of the gate is built again.
        leave_program(self.top, FAKE_PROGRAM)
        self.assertTrue(self.is_current()[0])
        self.assertIn("all is proved; compiling the program\n", self.build()[2])

    def test_no_record(self):
        """A build that cannot be noted says so."""
        with mock.patch.dict(os.environ, PATH=self.without_tee()):
            status, _, said = self.build()
        self.assertEqual((status, said.splitlines()[-1]), (1, f"diag: {self.top}/crates/diag/out/diag.sources cannot be written"))

    def test_nothing_follows(self):
        """A file after it is a mistake, and 20 minutes would be lost."""
        self.assertEqual(self.run_diag("--build", "c17.bench"), (2, "", "diag: nothing follows `--build`\n"))

    def test_not_proved(self):
        status, _, said = self.build(RT_FAILS="1")
        self.assertEqual(status, 1)
        self.assertIn("2 of 2 crates ok\ndiag: not built", said)
        self.assertEqual(self.is_current(), (False, ""))

    @unittest.skipIf(shutil.which("rt", path="/usr/bin:/bin"), "the kit is where the tools of the system are")
    def test_no_kit(self):
        for words in ("--build", "load 1"):
            status, _, said = self.run_diag(*words.split(), PATH="/usr/bin:/bin")
            self.assertEqual((status, said), (127, "diag: the kit's command `rt` is not on this machine\n"))


@needs_program
class RefusedLines(InCheckout):
    """Somebody at a terminal learns which lines of a script in a file were refused, and whoever keeps the replies can ask."""

    SCRIPT = "# a comment\nopen S\nsee S 99=1\nlist S 3\ndance\n"
    SAID = ["line 3 of the script: no wire: 99 in `see S 99=1`", "line 5 of the script: unknown command: dance"]

    program = pathlib.Path(PROGRAM)

    def setUp(self):
        super().setUp()
        self.script = self.elsewhere / "any.script"
        self.script.write_text(self.SCRIPT)

    def at_terminal(self, *words):
        """What a terminal shows, and the status."""
        main, terminal = os.openpty()
        with open(self.script) as script, open(main, "rb", buffering=0) as shown:
            child = subprocess.Popen([self.top / "diag", *words], stdin=script, stdout=terminal, stderr=terminal, start_new_session=True)
            os.close(terminal)
            text = b""
            # At its end a terminal fails.
            with contextlib.suppress(OSError):
                while piece := shown.read(4096):
                    text += piece
            return text.decode().replace("\r\n", "\n"), child.wait(SOON)

    def test_at_terminal(self):
        told, status = self.at_terminal("serve", C17)
        plain = subprocess.run([PROGRAM, "serve", C17], input=self.SCRIPT, capture_output=True, text=True).stdout
        wait = f"diag: working on {C17}, which may take some seconds\n"
        self.assertEqual((told, status), (wait + plain + "".join(f"diag: {line}\n" for line in self.SAID), 0))

    def test_replies_that_were_kept(self):
        replies = self.elsewhere / "replies"
        replies.write_text(self.run_diag("serve", C17, text=self.SCRIPT)[1])
        self.assertEqual(self.run_diag("--refused", self.script, replies), (1, "".join(f"{line}\n" for line in self.SAID), ""))
        self.script.write_text("open S\nmin S\n")
        replies.write_text("ready 6 11\nS open\nS min 0\n")
        self.assertEqual(self.run_diag("--refused", self.script, replies), (0, "", ""))
        self.assertEqual(self.run_diag("--refused", self.script)[0], 2)
        self.assertEqual(self.run_diag("--refused", self.script, "none"), (4, "", "diag: none: no such file or directory\n"))


class QuickCheck(unittest.TestCase):
    """`examples/check`, whose lines for the program's own answers come first."""

    def test_wrong_program(self):
        with tempfile.TemporaryDirectory() as tools:
            # Without a Python it leaves out tests such as this one.
            program = failing(pathlib.Path(tools, "python3"))
            env = {**os.environ, "PATH": f"{tools}:{os.environ['PATH']}", "DIAG_PROGRAM": str(program)}
            done = subprocess.run([TOP / "examples/check"], capture_output=True, text=True, env=env)
        *lines, _ = done.stdout.splitlines()
        wrong = [line for line in lines if not line.startswith("FAILED ") and "has an entry for each file" not in line]
        self.assertEqual((wrong, done.returncode), ([], 1))
        self.assertGreater(len(lines), 100)

    def test_no_program(self):
        done = subprocess.run([TOP / "examples/check"], capture_output=True, text=True, env={**os.environ, "DIAG_PROGRAM": "/nonexistent"})
        self.assertEqual((done.returncode, done.stdout), (1, "0 passed, 1 failed\n"))


if __name__ == "__main__":
    unittest.main()
