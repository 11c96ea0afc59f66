"""The terminal, by lines and by its completion."""

import contextlib
import importlib
import io
import os
import pathlib
import re
import resource
import shlex
import signal
import subprocess
import sys
import tempfile
import unittest
from unittest import mock

from support import C17, EXAMPLES, SOON, TOP, interrupt_at, kill, needs_program, replies, stand_in

from diag_client import Case, Proposal, Service, find_program, manual
from diag_client.terminal import patterns, shell


@needs_program
class Lines(unittest.TestCase):
    """What a line is answered."""

    def setUp(self):
        self.service = self.enterContext(Service(C17))
        self.session = self.enterContext(self.service.session("S"))
        self.enterContext(mock.patch("sys.stdin", io.StringIO()))
        self.shell = shell.Shell(self.service, self.session)

    def say(self, *lines):
        with contextlib.redirect_stdout(io.StringIO()) as told:
            for line in lines:
                self.shell.onecmd(line)
        return told.getvalue().splitlines()

    def test_readme(self):
        self.assertEqual(self.say("see 1=0 2=0 3=0 6=0 7=0"), ["5 readings taken"])
        self.assertEqual(self.say("see 22=1", "see 23=0", "min", "list 9"), ["ok", "ok", "min 1 10", "diag 10", "diag 22", "end"])
        self.assertEqual(self.say("probe 10 16"), ["probe 10 1 1", "probe 16 2 1"])
        self.assertEqual(self.say("best"), [str(Proposal("10", 2, 1, 1, True))])
        self.assertEqual(self.say("hold 10=ok", "min", "case"), ["ok", "min 1 22", "seen: 1=0 2=0 3=0 6=0 7=0 22=1 23=0", "held: 10=ok"])
        self.assertEqual(self.say("after 16 19"), ["ok"])

    def test_page(self):
        """What docs/PYTHON.md shows of it."""
        shown = re.search(r"Type \? for help\.\n(diag> .*?)```", (TOP / "docs/PYTHON.md").read_text(), re.DOTALL)[1]
        rows = [row.splitlines() for row in shown.split("diag> ")[1:]]
        self.assertGreater(len(rows), 2)
        for line, *told in rows:
            self.assertEqual(self.say(line), told)

    def test_all_commands_are_there(self):
        """What the help names is answered as the program answers it."""
        words = {"w=b": "1=0", "w": "1", "p=m": "10=ok", "p": "10", "k": "2", "p1": "10", "..": "", "pk": "16"}
        for name, usage in manual.usages().items():
            if name not in ("open", "close"):
                follows = " ".join(words[word] for word in usage.words)
                told = [line.removeprefix("S ") for line in replies(["open S", f"{name} S {follows}"], "--narrow")[1:]]
                # A command that needs an option is refused, which is told in words.
                told[0] = re.sub("^error ([0-9]+) (.*)$", r"refused: \2 (error \1)", told[0])
                with self.subTest(name), self.service.session("T") as self.shell.session:
                    said = self.say(f"{name} {follows}")
                    self.assertEqual([said[0].partition(": start the terminal")[0], *said[1:]], told)

    def test_refusals_in_words(self):
        rows = {
            "see 24=1": "see S 24=1", "hold 1=ok": "hold S 1=ok", "see 1": "see S 1", "see 1=2": "see S 1=2", "dance": "dance S",
            "min 1": "min S 1",
        }
        for line, script in rows.items():
            _, number, text = replies(["open S", script])[-1].removeprefix("S ").split(" ", 2)
            told = self.say(line)
            self.assertEqual(len(told), 1)
            self.assertTrue(told[0].startswith(f"refused: {text} (error {number})"), told)
        self.assertIn("near it: 2", self.say("see 24=1")[0])
        self.assertIn("it is see w=b: b is 0 or 1", self.say("see 1=2")[0])
        self.assertIn("it is hold p=m: m is ok or bad", self.say("hold 10=faulty")[0])
        self.assertIn("it is list k: the next k diagnoses; k is 1 to 1000000", self.say("list 1000001")[0])
        self.assertIn("? lists the commands", self.say("dance")[0])

    def test_none_is_lost(self):
        """What comes after a mistyped name is taken, and one line says so."""
        self.assertEqual(
            self.say("see 1=0 2=0 99=1 3=0 6=0 7=0", "hold 10=ok 1=ok 22=bad", "unhold 22 23", "unsee 1 2"),
            [
                "5 readings taken, 1 refused: no wire (error 9): 99",
                "2 parts held, 1 refused: no part (error 10): 1; near it: " + ", ".join(["19", "16", "11"]),
                "2 parts released", "2 readings taken back",
            ],
        )
        self.assertEqual(dict(self.session.seen), {"3": 0, "6": 0, "7": 0})
        self.assertTrue(self.shell.has_refused)

    def test_hints(self):
        for line, hint in (
            ("see 1:0", "write 1=0"), ("see 22=H", "write 22=1"), ("see 22=Low", "write 22=0"), ("SEE 1=0", "do you mean see?"),
            ("hold 10=OK", "write 10=ok"), ("probe 1,2", "no commas"), ("level", "--levels C"), ("leastnnf", "--least"),
            ("exitt", "do you mean exit?"), ("best 10,16", "no commas"), ("see Net-(U1)=1", "none of ( )"), ("probe café", "ASCII"),
            ("see 1=\x1b[2J", "1=\ufffd[2J; write 1=\ufffd[2j"), (f"min {'1' * 2000}", f"{'1' * 60}...; it is min"),
            (f"{'x' * 1048577}", "at most 1048576 bytes"),
        ):
            with self.subTest(line[:80]):
                self.assertIn(hint, " ".join(self.say(line)))
        self.assertEqual(dict(self.session.seen), {})

    def test_name_without_its_time(self):
        toggle = EXAMPLES / "frames/toggle.bench"
        with Service(toggle, frames=4) as service, service.session() as session, contextlib.redirect_stdout(io.StringIO()) as told:
            shell.Shell(service, session).onecmd("see q=1")
        self.assertEqual(told.getvalue(), "refused: no wire (error 9): q; near it: q@0001, q@0002, q@0003\n")

    def test_saved_and_loaded(self):
        with tempfile.TemporaryDirectory() as folder, mock.patch.dict("os.environ", HOME=folder):
            self.say("see 1=0 22=1", "hold 10=ok")
            self.assertEqual(self.say("save ~/case.script"), [f"wrote {folder}/case.script: 2 seen, 1 held"])
            script = pathlib.Path(folder, "case.script")
            self.assertEqual(script.read_text(), "open S\nsee S 1=0\nsee S 22=1\nhold S 10=ok\n")
            self.say("unsee 1 22", "unhold 10")
            script.write_text(script.read_text() + "see S 99=1\n")
            self.assertEqual(self.say(f"load {script}"), ["2 readings taken, 1 part held, 1 refused: no wire (error 9): 99"])
            self.assertEqual((dict(self.session.seen), dict(self.session.held)), ({"1": 0, "22": 1}, {"10": "ok"}))
            # Lines without the name of a session, and a netlist, are no script.
            for text in ("see 1=0\n", "10 = NAND(1, 3)\n"):
                script.write_text(text)
                self.assertIn("is not understood: lines are such as `see S a=0`", self.say(f"load {script}")[0])
            script.write_text("open S\n")
            self.assertIn("nothing is seen or held in this script", self.say(f"load {script}")[0])
            # Only a saved case is written over.
            pathlib.Path(folder, "c17.bench").write_text("INPUT(a)\n")
            self.assertIn("not a saved case", self.say("save ~/c17.bench")[0])
            self.assertEqual(len(self.say("save ~/case.script", "save", "load")), 3)
            self.assertEqual(self.say("load ~/nowhere"), [f"{folder}/nowhere: no such file or directory"])
            self.assertEqual(self.say("load ~nobody-here/x"), ["~nobody-here/x: no such file or directory"])
            self.assertEqual(self.say("picture ~nobody-here/x.svg"), ["~nobody-here/x.svg: there is no folder ~nobody-here"])
            self.assertEqual(sorted(path.name for path in pathlib.Path(folder).iterdir()), ["c17.bench", "case.script"])

    def test_saving_touches_no_other_file(self):
        """Neither one whose name is like it, nor any if the disk is full: then the old file stays, and nothing is left beside it."""
        with tempfile.TemporaryDirectory() as folder:
            case, other = pathlib.Path(folder, "case.script"), pathlib.Path(folder, "case.script.new")
            other.write_text("mine\n")
            self.say("see 1=0", f"save {case}")
            self.assertEqual((case.read_text(), other.read_text()), ("open S\nsee S 1=0\n", "mine\n"))
            limit = resource.getrlimit(resource.RLIMIT_FSIZE)
            try:
                resource.setrlimit(resource.RLIMIT_FSIZE, (0, limit[1]))
                told = self.say("see 2=0", f"save {case}")
            finally:
                resource.setrlimit(resource.RLIMIT_FSIZE, limit)
            self.assertEqual(told[1:], [f"{case}: file too large"])
            self.assertEqual(case.read_text(), "open S\nsee S 1=0\n")
            self.assertEqual(sorted(path.name for path in pathlib.Path(folder).iterdir()), [case.name, other.name])

    def test_expect(self):
        self.say("see 1=0 2=0 3=0 6=0 22=1")
        self.assertEqual(self.say("expect 22 16"), ["22 should be 0, and was seen as 1", "16 should be 1"])
        told = ["2 readings taken back", "23 may be 0 or 1: the inputs that were seen do not fix it"]
        self.assertEqual(self.say("unsee 2 6", "expect 23"), told)
        self.assertIn("10 should be 1", self.say("expect"))
        self.assertEqual(self.say("expect 99 10"), ["refused: no wire (error 9): 99", "10 should be 1"])
        self.assertEqual(self.say("unsee 1 3", "expect")[1], "the inputs that were seen fix no wire")

    def test_nothing_is_wrong(self):
        self.shell.prompt = "diag> "
        self.assertEqual(self.say("list 2", "min"), ["diag (nothing is wrong)", "end", "min 0 (nothing is wrong)"])
        self.assertEqual(self.say("open T"), ["there is one session here, which is open to the end"])

    def test_inconsistent(self):
        self.say("see 1=0 2=0 3=0 6=0 7=0 22=1 23=0", "hold 10=ok 22=ok 23=ok")
        self.assertEqual(self.say("min"), ["inconsistent"])
        self.assertEqual(self.say("best"), ["no set of faulty parts explains what was seen and held: clash says why"])
        self.assertEqual(self.say("clash"), ["nothing explains 1=0 22=1 23=0 10=ok 22=ok 23=ok"])
        self.assertEqual(self.say("unhold 10", "clash")[-1], "nothing clashes: a set of faulty parts explains what was seen and held")

    def test_nothing_fits(self):
        """Where no bits of the wires fit the device at all, no names are there to be looked through."""
        with tempfile.NamedTemporaryFile("w", suffix=".dev") as file:
            file.write("type A x\nok 1\nbad 1\nend\ntype B x\nok 0\nbad 0\nend\nblock D x\npart a A x\npart b B x\nend\ntop D\n")
            file.flush()
            with Service(file.name) as service, service.session("S") as session:
                self.shell = shell.Shell(service, session)
                self.assertEqual(self.say("see y=1"), ["refused: no wire (error 9): y"])
                self.assertEqual(self.say("min"), ["inconsistent"])

    def test_the_program_ends(self):
        self.shell.use_rawinput = True
        self.say("see 22=1")
        kill(self.service)
        self.assertRegex(self.say("min")[0], r"signal 9 \(Killed\)\. The next command starts it anew")
        self.assertEqual(self.say("min"), ["the program was started anew, and the case is as it was", "min 0"])

    def test_help(self):
        told = self.say("?")
        for name in [*manual.usages(), *shell.MORE]:
            self.assertEqual(any(line.startswith(name) for line in told), name not in ("open", "close"), name)
        self.assertEqual(self.say("? min"), [f"{'min':18}{self.shell.commands['min'].text}"])

    def test_picture(self):
        with tempfile.TemporaryDirectory() as folder:
            self.assertEqual(self.say(f"picture {folder}/out.dot"), [f"wrote {folder}/out.dot"])
            self.assertIn("part 10", pathlib.Path(folder, "out.dot").read_text())
            with mock.patch("diag_client.pictures.graphviz.find_dot", return_value=None):
                told = [f"Graphviz's `dot` is not here (Debian: graphviz); wrote {folder}/out.dot alone"]
                self.assertEqual(self.say(f"picture {folder}/out.svg"), told)
        self.assertEqual(len(self.say("picture")), 1)
        with mock.patch("diag_client.pictures.picture.Findings.of", side_effect=AssertionError):
            # It is found before anything is asked.
            self.assertIn("there is no folder nowhere", self.say("picture nowhere/out.svg")[0])

    def test_ends(self):
        self.assertTrue(self.shell.onecmd("quit"))
        self.assertTrue(self.shell.onecmd("exit"))
        self.assertTrue(self.shell.onecmd("EOF"))
        self.assertFalse(self.shell.onecmd(""))

    def test_loop(self):
        self.assertEqual(self.from_pipe(b"see 22=1\n\n# a comment\nmin\n"), (0, ["ok", "min 0"]))

    def from_pipe(self, data):
        """The status of a terminal whose input is a pipe, and what it prints."""
        self.session.close()
        out = io.TextIOWrapper(io.BytesIO(), "utf-8", write_through=True)
        with mock.patch("sys.stdin", io.TextIOWrapper(io.BytesIO(data), "utf-8")), contextlib.redirect_stdout(out):
            return shell.run(self.service), out.buffer.getvalue().decode("utf-8", "surrogateescape").splitlines()

    def test_pipe(self):
        """Lines are answered in order whatever they are, and the status says whether one was refused."""
        data = b"see 22=1\ncase\nsee 99=1\nmin\nopen T\n\xff\nsee 1=0 2=0\r\nexit\nmin\n"
        status, told = self.from_pipe(data)
        self.assertEqual(status, 1)
        self.assertEqual(told[:5], ["ok", "seen: 22=1", "held: nothing", "refused: no wire (error 9): 99", "min 0"])
        self.assertEqual(told[5], "there is one session here, which is open to the end")
        self.assertIn("unknown command (error 1): \ufffd;", told[6])
        self.assertEqual(told[7:], ["2 readings taken"])

    def test_many_lines(self):
        """They are asked in batches, and so without a pause for each."""
        with mock.patch.object(self.service._child, "follow", side_effect=self.service._child.follow) as follow:
            status, told = self.from_pipe(b"see 22=1\n" + b"min\n" * 200)
        self.assertEqual((status, told), (0, ["ok"] + ["min 0"] * 200))
        self.assertLess(sum(len(call.args[0]) for call in follow.call_args_list), 5)

    def test_nobody_reads(self):
        """It ends without a word, whether what it prints is written at once or at its end."""
        words = [sys.executable, "-m", "diag_client", "shell", str(C17)]
        python = {"PYTHONPATH": str(TOP / "python"), "PYTHONUNBUFFERED": ""}
        pipes = dict.fromkeys(("stdin", "stdout", "stderr"), subprocess.PIPE)
        for line in (b"min\n", b"case\n"):
            with subprocess.Popen(words, env=os.environ | python, **pipes) as shell_run:
                shell_run.stdout.close()
                self.assertEqual(shell_run.communicate(line)[1], b"")
            self.assertEqual(shell_run.returncode, 1)

    def test_full_disk(self):
        """It says so once."""
        words = [sys.executable, "-m", "diag_client", "shell", str(C17)]
        python = {"PYTHONPATH": str(TOP / "python"), "PYTHONUNBUFFERED": ""}
        for line in (b"min\n", b"case\n"):
            with open("/dev/full", "wb") as full:
                done = subprocess.run(words, input=line, stdout=full, stderr=subprocess.PIPE, env=os.environ | python)
            self.assertEqual((done.returncode, done.stderr), (1, b"diag_client: no space left on device\n"))

    def test_help_that_nobody_reads(self):
        """The help goes as any other output does."""
        python = {"PYTHONPATH": str(TOP / "python"), "PYTHONUNBUFFERED": ""}
        for words in (["diag_client", "--help"], ["diag_client", "shell", "--help"], ["diag_client.netlist", "--help"]):
            for closed, told in ((">/dev/full", "no space left on device\n"), ("| true", "")):
                shell_run = ["bash", "-c", f'"$@" {closed}', "bash", sys.executable, "-m", *words]
                done = subprocess.run(shell_run, stderr=subprocess.PIPE, text=True, env=os.environ | python)
                self.assertEqual(done.stderr.partition(": ")[2] or done.stderr, told, (words, closed))

    def test_what_is_said_besides(self):
        """What the program says on standard error may be lost, and its answers are not."""
        speaks = pathlib.Path(self.enterContext(tempfile.TemporaryDirectory()), "speaks")
        speaks.write_text(f'#!/bin/sh\necho note >&2\nexec {shlex.quote(str(find_program()))} "$@"\n')
        speaks.chmod(0o755)
        words = [sys.executable, "-m", "diag_client", "shell", str(C17), "--program", speaks]
        with open("/dev/full", "wb") as full:
            done = subprocess.run(
                words, input=b"min\n", stdout=subprocess.PIPE, stderr=full, env=os.environ | {"PYTHONPATH": str(TOP / "python")}
            )
        self.assertEqual((done.returncode, done.stdout), (0, b"min 0\n"))

    def test_closed_streams(self):
        """Nothing comes from one, and what goes into one is gone."""
        words, python = [sys.executable, "-m", "diag_client", "shell", str(C17)], {"PYTHONPATH": str(TOP / "python")}
        for closed, told in (("<&-", b""), (">&-", b""), ("2>&-", b"min 0\n")):
            shell_run = ["sh", "-c", f'exec "$@" {closed}', "sh", *words]
            done = subprocess.run(shell_run, input=b"min\n", env=os.environ | python, capture_output=True, check=False)
            self.assertEqual((done.returncode, done.stdout, done.stderr), (0, told, b""), closed)

    def test_options_in_words(self):
        """What Python gives as budget=N is an option at the terminal."""
        for hint, *given in (
            ("try --narrow, then --budget 8388608", str(C17), "--no-narrow", "--budget", "1"), ("needs --health N", "c17.nnf"),
        ):
            with mock.patch("sys.argv", ["diag_client", "shell", *given]), contextlib.redirect_stderr(io.StringIO()) as said:
                self.assertEqual(importlib.import_module("diag_client.__main__").main(), 1)
            self.assertIn(hint, said.getvalue())

    def test_graph(self):
        """It is asked as a netlist is, and not drawn."""
        lines = io.TextIOWrapper(io.BytesIO(b"see 00005=0\nmin\npicture out.svg\n"))
        words = ["diag_client", "shell", str(EXAMPLES / "lamps.nnf"), "--health", "3"]
        with mock.patch("sys.argv", words), mock.patch("sys.stdin", lines), contextlib.redirect_stdout(io.StringIO()) as told:
            self.assertEqual(importlib.import_module("diag_client.__main__").main(), 1)
        *answers, drawn = told.getvalue().splitlines()
        self.assertEqual([f"S {line}" for line in answers], (EXAMPLES / "lamps.expected").read_text().splitlines()[2:4])
        self.assertIn("has no gates", drawn)

    def test_completion(self):
        def complete(line):
            text = line.split(" ")[-1]
            if " " not in line:
                return self.shell.completenames(text)
            command = line.split()[0]
            return getattr(self.shell, f"complete_{command}", self.shell.completedefault)(text, line)

        self.assertEqual(complete("pro"), ["probe ", "probes "])
        self.assertEqual(complete("see 2"), ["22=", "23=", "2="])
        self.assertEqual(complete("see 1=0 22="), ["22=0", "22=1"])
        self.assertEqual(complete("hold 1"), ["10=", "11=", "16=", "19="])
        self.assertEqual(complete("hold 10="), ["10=bad", "10=ok"])
        self.assertEqual(complete("after 10 2"), ["22", "23"])
        self.assertEqual(complete("probe 2"), ["2", "22", "23"])
        self.assertEqual(complete("list "), [])
        self.assertEqual(complete("unsee "), [])
        self.session.see({"22": 1})
        self.assertEqual(complete("unsee "), ["22"])
        self.assertEqual(complete("best 2"), ["2", "23"])
        self.assertEqual(complete("help un"), ["undo ", "unhold ", "unsee "])
        with tempfile.TemporaryDirectory() as folder:
            pathlib.Path(folder, "case.script").touch()
            self.assertEqual(complete(f"load {folder}/c"), [f"{folder}/case.script"])


@needs_program
class AtABench(unittest.TestCase):
    """What is typed by somebody who holds a probe in the other hand."""

    ZERO = "1=0 2=0 3=0 6=0 7=0"

    def setUp(self):
        self.service = self.enterContext(Service(C17))
        self.enterContext(mock.patch("sys.stdin", io.StringIO()))
        self.shell = patterns.BoardShell(self.service, self.service.session("S"))
        self.shell.use_rawinput, self.shell.prompt = True, "diag> "

    def say(self, *lines):
        with contextlib.redirect_stdout(io.StringIO()) as told:
            for line in lines:
                self.shell.onecmd(line)
        return told.getvalue().splitlines()

    def test_readings(self):
        """They need no command, and no blank where it should be. What is no reading is none."""
        for line, told, seen in (
            ("1=0 2=0", "2 readings taken", {"1": 0, "2": 0}),
            ("3 = 0", "ok", {"3": 0}),
            ("see 6= 0,7 =0", "2 readings taken", {"6": 0, "7": 0}),
            ("1=0;2=0", "2 readings taken", {"1": 0, "2": 0}),
            ("1=0 2=X 3=- 6=z", "1 reading taken", {"1": 0}),
        ):
            with self.subTest(line):
                self.assertEqual((self.say(line), dict(self.shell.session.seen)), ([told], seen))
                self.shell.session.unsee(*self.shell.session.seen)
        self.assertEqual(self.say("1=0 2=1", "1=x 2=0"), ["2 readings taken", "1 reading taken back, 1 reading taken (before: 2=1)"])
        self.assertEqual(self.say("1=x"), ["nothing was read, and nothing was seen there before"])
        self.assertEqual(self.say("1=0 99=x"), ["1 reading taken, 1 refused: no wire (error 9): 99"])

    def test_two_values(self):
        why = "refused: 1=0 and 1=1 are of one wire; nothing was taken"
        held = "refused: 10=ok and 10=bad are of one part; nothing was taken"
        self.assertEqual(self.say("see 1=0 1=1", "1=0 2=0 1=1", "hold 10=ok 10=bad"), [why, why, held])
        self.assertEqual(self.shell.session.case, Case())

    def test_a_reading_that_is_replaced(self):
        self.assertEqual(self.say("1=0", "1=0", "1=1", "1=0 2=0"), ["ok", "ok", "ok (before: 1=0)", "2 readings taken (before: 1=1)"])

    def test_undo(self):
        self.say("1=0", "hold 10=ok", "1=1 2=1", "min")
        self.assertEqual(self.say("undo"), ["seen: 1=0", "held: 10=ok"])
        self.assertEqual(self.say("undo", "undo")[2:], ["seen: nothing", "held: nothing"])
        self.assertEqual(self.say("undo"), ["nothing is there to be taken back"])
        self.say("pattern one", "1=1", "hold 10=bad", "pattern two", "1=0")
        self.assertEqual(self.say("undo", "undo")[-2:], ["seen: 1=1", "held: nothing"])
        self.assertEqual([dict(session.held) for session in self.shell.sessions.values()], [{}, {}])

    def test_patterns_go(self):
        self.say("pattern one", "1=1", "pattern two", "1=0", "hold 10=ok")
        self.assertEqual(self.say("drop three", "drop"), ["drop NAME: there is no pattern three", "drop NAME: which pattern?"])
        self.assertEqual(self.say("drop two"), ["* one: 1 reading"])
        self.assertEqual(self.shell.session.case, Case({"1": 1}, {"10": "ok"}))
        self.assertEqual(self.say("drop one"), ["it is the only pattern: unsee takes its readings back"])

    def test_names(self):
        self.assertEqual(self.say("wires", "parts", "inputs"), ["1 2 3 6 7 10 11 16 19 22 23", "10 11 16 19 22 23", "1 2 3 6 7"])
        self.assertEqual(self.say(self.ZERO, "expect")[1:], [
            "22 should be 0", "23 should be 0", "10 should be 1", "11 should be 1", "16 should be 1", "19 should be 1",
        ])

    def test_words_of_python(self):
        self.say(self.ZERO, "22=1", "23=0")
        self.assertEqual(self.say("diagnoses"), ["diag 10", "diag 22", "end"])
        self.assertEqual(self.say("enum 1", "minimum", "seen")[:3], ["end", "min 1 10", "seen: 1=0 2=0 3=0 6=0 7=0 22=1 23=0"])
        self.assertEqual(self.say("restart", "min"), ["the program was started anew, and the case is as it was", "min 1 10"])

    def test_nothing_is_wrong_yet(self):
        told = "nothing is wrong yet: enter the inputs and what was read, such as see 1=0"
        self.assertEqual(self.say("best"), [told])
        self.assertEqual(self.say("pattern one", "1=0", "pattern two", "1=1", "best")[-1], told)

    def test_pasted(self):
        """Lines that a terminal hands over as one."""
        for feed in ("\r", "\n", "\r\n"):
            lines = feed.join(["see 1=0", "2=0 3=0", "min", ""])
            self.assertEqual(self.say(f"\x1b[200~{lines}\x1b[201~"), ["ok", "2 readings taken", "min 0 (nothing is wrong)"])

    def test_files(self):
        """A name may have quotes around it, and a script a mark before it."""
        with tempfile.TemporaryDirectory() as folder:
            script = pathlib.Path(folder, "a b.script")
            self.assertEqual(self.say("1=0", f"save '{script}'")[1:], [f"wrote {script}: 1 seen, 0 held"])
            script.write_text("\ufeff" + script.read_text())
            self.assertEqual(self.say("unsee 1", f'load "{script}"')[1:], ["1 reading taken"])
            script.write_text("open S\nsee S 1=0\nsea S 2=0\n")
            self.assertEqual(self.say(f"load {script}"), ["line 3: `sea S 2=0` is not understood: lines are such as `see S a=0`"])

    def test_killed(self):
        """What was typed is kept, and that is said."""
        kill(self.service)
        [told] = self.say("1=0 2=0")
        self.assertRegex(told, "anew. What was seen and held is kept; a question has to be asked again$")
        self.assertEqual(self.say("case")[1:], ["seen: 1=0 2=0", "held: nothing"])


@unittest.skipUnless(shell.readline, "there is no readline")
class History(unittest.TestCase):
    """The lines that were typed, in a file."""

    def setUp(self):
        self.file = pathlib.Path(self.enterContext(tempfile.TemporaryDirectory()), "history")
        self.enterContext(mock.patch.dict("os.environ", DIAG_HISTORY=str(self.file)))
        shell.readline.clear_history()
        self.addCleanup(shell.readline.clear_history)

    def written(self):
        """What is said when it is written."""
        with contextlib.redirect_stderr(io.StringIO()) as said:
            shell._write_history()
        return said.getvalue()

    def test_last_lines(self):
        for number in range(shell.HISTORY_LINES + 1):
            shell.readline.add_history(f"see a{number}=1")
        self.assertEqual(self.written(), "")
        shell.readline.clear_history()
        self.assertTrue(shell._read_history())
        shell.readline.add_history("min")
        self.assertEqual(self.written(), "")
        lines = self.file.read_text().split("\n")
        self.assertEqual((lines[0], lines[-3:], len(lines)), ("see a2=1", ["see a1000=1", "min", ""], shell.HISTORY_LINES + 1))
        self.assertEqual(self.file.stat().st_mode & 0o777, 0o600)

    def test_full_disk(self):
        """The file stays as it is."""
        self.file.write_text("min\n")
        shell.readline.add_history("see a=1")
        limit = resource.getrlimit(resource.RLIMIT_FSIZE)
        try:
            resource.setrlimit(resource.RLIMIT_FSIZE, (0, limit[1]))
            said = self.written()
        finally:
            resource.setrlimit(resource.RLIMIT_FSIZE, limit)
        self.assertEqual(said, f"diag_client: the lines of this run are not kept: {self.file}: file too large\n")
        self.assertEqual((self.file.read_text(), os.listdir(self.file.parent)), ("min\n", ["history"]))

    def test_odd_paths(self):
        """A link that leads to itself is replaced; of a path below a file it says what was asked for."""
        self.file.symlink_to(self.file)
        self.assertTrue(shell._read_history())
        self.assertEqual(self.written(), "")
        self.assertTrue(self.file.is_file())
        below = self.file / "below"
        with mock.patch.dict("os.environ", DIAG_HISTORY=str(below)):
            self.assertEqual(self.written(), f"diag_client: the lines of this run are not kept: {below}: not a directory\n")

    def test_unreadable(self):
        """What cannot be read is not written over."""
        self.file.mkdir()
        with contextlib.redirect_stderr(io.StringIO()) as said:
            self.assertFalse(shell._read_history())
        self.assertEqual(said.getvalue(), f"diag_client: no lines are kept: {self.file}: is a directory\n")


class Interrupts(unittest.TestCase):
    """The first interrupt lets go of a reply, and the second one of the program. The case stays."""

    def setUp(self):
        self.service = self.enterContext(Service("any.bench", program=stand_in("dozes")))
        self.addCleanup(self.service.stop)
        self.session = self.service.session("S")
        self.enterContext(mock.patch("sys.stdin", io.StringIO()))
        self.shell = shell.Shell(self.service, self.session)
        self.shell.use_rawinput = True

    def say(self, line):
        with contextlib.redirect_stdout(io.StringIO()) as told:
            self.shell.onecmd(line)
        return told.getvalue()

    def interrupted(self, line):
        """What is said if an interrupt comes while the reply is awaited."""
        command, *words = line.split()
        interrupt_at(self.service, " ".join([command, "S", *words]))
        return self.say(line)

    def test_twice(self):
        self.say("see a=1 b=0")
        self.assertIn("Ctrl-C once more", self.interrupted("min"))
        # It waits for the reply to the line before it.
        self.assertEqual(self.interrupted("see c=1"), "\nthe program was started anew, and the case is as it was\n")
        self.assertEqual(dict(self.session.seen), {"a": 1, "b": 0, "c": 1})
        self.assertEqual(self.say("see d=1"), "ok\n")

    def test_first_of_another_command(self):
        """What was interrupted and answered by now does not count."""
        self.interrupted("min")
        self.service.restart()
        self.say("see a=1")
        self.assertIn("Ctrl-C once more", self.interrupted("min"))

    def test_while_it_starts(self):
        self.say("see a=1")
        self.interrupted("min")
        with mock.patch.object(self.service, "_start", side_effect=KeyboardInterrupt):
            self.assertIn("The next command starts", self.interrupted("list 1"))
        self.assertIn("the case is as it was\nok", self.say("see b=1"))
        self.assertEqual(dict(self.session.seen), {"a": 1, "b": 0} | {"b": 1})

    def test_quit(self):
        """It waits for nothing, and ends the program that is at work."""
        self.session.abandon()
        # If it does wait, that is an error and not for ever.
        self.service._child._timeout = SOON
        with mock.patch("builtins.input", side_effect=["min", EOFError]), contextlib.redirect_stdout(io.StringIO()):
            with mock.patch("sys.stdin.isatty", lambda: True), mock.patch.object(shell, "readline", None):
                interrupt_at(self.service, "min S")
                self.assertEqual(shell.run(self.service), 0)
        self.assertEqual(self.service._child._process.returncode, -signal.SIGKILL)

    def test_import(self):
        """What looks at all modules, as a browser of their docstrings does, starts nothing."""
        sys.modules.pop("diag_client.__main__", None)
        self.assertTrue(importlib.import_module("diag_client.__main__").main)

    def test_lines_as_they_come(self):
        """What has come of a long listing is printed before the rest of it."""
        request = mock.Mock(refusals=[], is_answered=False)
        self.enterContext(mock.patch.object(self.session, "requests", return_value=[request]))

        def follow(_):
            for part in ("p1", "p2"):
                request.lines = [f"S diag {part}"]
                yield
                self.assertTrue(told.getvalue().endswith(f"diag {part}\n"))

        with mock.patch.object(self.service, "follow", follow), contextlib.redirect_stdout(io.StringIO()) as told:
            self.shell.carry_out([shell.Asked([["list", "2"]])])
        self.assertEqual(told.getvalue(), "diag p1\ndiag p2\n")


if __name__ == "__main__":
    unittest.main()
