"""What explains many patterns of one board, the table that they come from, and the terminal over them."""

import contextlib
import io
import os
import pathlib
import subprocess
import sys
import tempfile
import unittest
from unittest import mock

from support import C17, EXAMPLES, TOP, kill, needs_program

from diag_client import BadTable, Case, DiagError, Inconsistent, Refused, Service, Session, case
from diag_client.boards import holding
from diag_client.boards.tables import read_table
from diag_client.replies import Verdict
from diag_client.terminal import patterns, shell

TABLE = "pattern,1,2,3,6,7,22,23\none,0,0,0,0,0,1,0\ntwo,1,0,1,0,0,0,0\n"
ROWS = [line.split(",") for line in TABLE.splitlines()]


@needs_program
class Together(unittest.TestCase):
    def setUp(self):
        self.service = Service(C17, narrow=False, sessions=4)
        self.one, self.two = self.sessions = list(self.service.patterns(ROWS).values())
        self.joint = self.service.together(self.sessions)

    def tearDown(self):
        self.service.close()

    def test_answers(self):
        self.assertEqual((self.joint.minimum().cost, self.joint.minimum().faulty), (1, ("10",)))
        self.assertEqual([row.faulty for row in self.joint.diagnoses()], [("10",), ("22",)])
        self.assertEqual([row.faulty for row in self.joint.diagnoses(1)], [("10",)])
        self.assertEqual([row.part for row in self.joint.blame() if row.verdict is Verdict.SOMETIMES], ["10", "22"])
        best = self.joint.best_probe()
        self.assertEqual((best.pattern, best.wire, best.with_zero, best.with_one), ("one", "10", 1, 1))

    def test_more_than_each_pattern_asks_for(self):
        """Each alone takes one fault, and both together two."""
        self.two.see({"22": 1, "23": 1})
        self.assertEqual([self.one.minimum().cost, self.two.minimum().cost], [1, 1])
        self.assertEqual(self.joint.minimum().cost, 2)
        self.assertTrue(all(len(row) == 2 for row in self.joint.diagnoses()))

    def test_one_session_answers_as_it_does_alone(self):
        for name in ("pump.dev", "costs.dev", "full_adder.bench", "adder.dev"):
            file = EXAMPLES / name
            with self.subTest(name), Service(file, narrow=False) as service, service.session() as session:
                with contextlib.suppress(Refused):
                    session.load(file.with_suffix(".script").read_text())
                joint = service.together([session])
                self.assertEqual(joint.minimum(), session.minimum())
                self.assertEqual(list(joint.diagnoses()), list(session.diagnoses()))
                self.assertEqual(joint.blame(), session.blame())

    def test_sessions_stay_as_they_are(self):
        self.one.hold({"11": "ok"})
        self.one.after("10")
        under_way = self.two.diagnoses()
        first = next(under_way)
        cases = [(dict(session.seen), dict(session.held)) for session in self.sessions]
        self.joint.best_probe()
        self.assertEqual([(dict(session.seen), dict(session.held)) for session in self.sessions], cases)
        self.assertEqual([str(row) for row in self.one.diagnoses()], ["22"])
        self.assertEqual([first, *under_way], list(self.two.diagnoses()))

    def test_an_interrupt_and_a_timeout_leave_all_as_it_was(self):
        def interrupt(_):
            raise KeyboardInterrupt

        with mock.patch.object(holding, "BETWEEN", -1):
            interrupted = self.service.together(self.sessions, progress=interrupt)
            # There is room for two more sessions, so none may be left open.
            for _ in range(3):
                with self.assertRaises(KeyboardInterrupt):
                    interrupted.minimum()
        late = self.service.together(self.sessions, timeout=0)
        with self.assertRaises(TimeoutError) as caught:
            late.minimum()
        self.assertIsInstance(caught.exception, DiagError)
        self.assertIn("no answer within 0 seconds; cost 0 or more", str(caught.exception))
        self.assertEqual(self.joint.minimum().faulty, ("10",))
        self.assertEqual([str(row) for row in self.one.diagnoses()], ["10", "22"])

    def test_progress(self):
        told = []
        with mock.patch.object(holding, "BETWEEN", -1):
            self.service.together(self.sessions, progress=told.append).minimum()
        self.assertEqual(told[-1].cost, 1)
        self.assertGreater(told[-1].questions, 1)

    def test_it_asks_little(self):
        """Most is told by what each of the 12 patterns lists."""
        folder = EXAMPLES / "patterns"
        with Service(folder / "adder_16.bench", sessions=24) as service:
            joint = service.together(service.patterns(folder / "readings.csv").values())
            joint.minimum(), joint.blame(), list(joint.diagnoses())
            asked = joint.progress.questions
            self.assertLess(asked, 30)
            joint.minimum(), joint.blame(), list(joint.diagnoses())
            self.assertEqual(joint.progress.questions, asked)

    def test_no_room(self):
        with self.service.session(), self.assertRaises(Refused) as caught:
            self.joint.minimum()
        self.assertEqual(caught.exception.number, 8)
        self.assertEqual(self.joint.minimum().cost, 1)

    def test_nothing_explains_one_or_all(self):
        self.one.hold(dict.fromkeys(self.service.parts, "ok"))
        with self.assertRaises(Inconsistent) as caught:
            self.joint.minimum()
        self.assertEqual(caught.exception.session, "one")
        self.one.unhold(*self.service.parts)
        self.one.hold({"10": "ok", "22": "ok"})
        self.two.hold({"10": "bad"})
        with self.assertRaises(Inconsistent) as caught:
            self.joint.blame()
        self.assertEqual(caught.exception.session, "one, two")

    def test_a_changed_case(self):
        taken = self.joint.diagnoses()
        next(taken)
        self.two.hold({"10": "ok"})
        with self.assertRaises(RuntimeError):
            next(taken)
        self.assertEqual(self.joint.minimum().faulty, ("22",))

    def test_wrong_sessions(self):
        with Service(C17, narrow=False) as other, other.session() as strange:
            for sessions in ([], [self.one, strange], [self.one, self.one]):
                with self.subTest(len(sessions)), self.assertRaises(ValueError):
                    self.service.together(sessions)


@needs_program
class Tables(unittest.TestCase):
    def test_faults_by_row_and_column(self):
        with Service(C17, narrow=False) as service, tempfile.TemporaryDirectory() as folder:
            path = pathlib.Path(folder, "readings.csv")
            for text, why in {
                "": "a first row with the names of wires is needed",
                "1,2\n": "a row for each pattern",
                "1,99\n0,1\n": "row 1, column 2: no wire '99'",
                "1,1\n0,1\n": "row 1, column 2: a second column '1'",
                "1,2\n0,1\n\n0,2\n": "row 4, column 2 (2): not '2': a reading is 0 or 1, and X, Z, - or nothing if there is none",
                "1,2\n0,1\n0\n": "row 3, column 2: 1 cells, and the first row has 2",
                "1,2\n0,1,1\n": "row 2, column 3: 3 cells, and the first row has 2",
                "pattern,1\na b,1\n": "row 2, column 1: not the name of a pattern",
                "pattern,1\na=,1\n": "row 2, column 1: not the name of a pattern, which has 1 to 64",
                "1,pattern\n1,a\n0,a\n": "row 3, column 2: a second pattern 'a'",
            }.items():
                path.write_text(text)
                with self.subTest(text), self.assertRaises(BadTable) as caught:
                    service.patterns(path)
                self.assertIn(why, str(caught.exception))
                self.assertIn(str(path), str(caught.exception))
            path.write_bytes(b"PK\x03\x04\0,1\n0,1\n")
            with self.assertRaisesRegex(BadTable, "save the sheet as CSV"):
                service.patterns(path)
            # Nothing was taken: the names are free, and a table with a mark before it is read.
            path.write_text("\ufeff22, 1,3\r\n1,0,\r\n0,1,1\r\n")
            patterns = service.patterns(path)
            seen = {name: dict(row.seen) for name, row in patterns.items()}
            self.assertEqual(seen, {"p1": {"22": 1, "1": 0}, "p2": {"22": 0, "1": 1, "3": 1}})

    def test_other_separators(self):
        """Some programs write semicolons or tabs. A wire may have a semicolon in its name."""
        with tempfile.TemporaryDirectory() as folder:
            path = pathlib.Path(folder, "readings.csv")
            for text, wires in (
                ("a;b\r\n0;1\r\n", "ab"), ("a\tb\n0\t1\n", "ab"), ("pattern;b\np1;1\n", "b"), ("a;b\n1\n", ["a;b"]),
                ("a;b,c\n1,0\n", ["a;b", "c"]),
            ):
                path.write_text(text)
                with self.subTest(text):
                    found = [(name, list(case.seen)) for name, case in read_table(path, wires).patterns.items()]
                    self.assertEqual(found, [("p1", list(wires))])
            path.write_text("a;z\n0;1\n")
            with self.assertRaisesRegex(BadTable, "row 1, column 2: no wire 'z'"):
                read_table(path, "ab")

    def test_utf_16(self):
        """A spreadsheet may write it, with tabs."""
        with tempfile.TemporaryDirectory() as folder:
            path = pathlib.Path(folder, "readings.txt")
            for encoding in ("utf-16-le", "utf-16-be"):
                path.write_bytes("\ufeffa\tb\r\n0\t1\r\n".encode(encoding))
                self.assertEqual(read_table(path, "ab"), case.Board({"p1": Case({"a": 0, "b": 1})}))
        self.assertEqual(read_table([["a", "b"], [0, None], [None, 1]], "ab"), case.Board({"p1": Case({"a": 0}), "p2": Case({"b": 1})}))

    def test_a_refusal_opens_none(self):
        with Service(C17, narrow=False, sessions=2) as service:
            with service.session(), self.assertRaises(Refused):
                service.patterns([["pattern", "1"], ["a", 0], ["b", 1]])
            self.assertEqual(list(service.patterns([["pattern", "1"], ["a", 0], ["b", 1]])), ["a", "b"])


@needs_program
class Board(unittest.TestCase):
    def told(self, lines, *words, file=C17):
        done = subprocess.run(
            [sys.executable, "-m", "diag_client", "shell", file, "--no-narrow", *words], input="\n".join(lines) + "\n",
            capture_output=True, text=True, cwd=TOP, env={**os.environ, "PYTHONPATH": str(TOP / "python")}, check=False)
        return done.stdout.splitlines(), done.returncode, done.stderr

    def test_patterns(self):
        with tempfile.TemporaryDirectory() as folder:
            table, saved = pathlib.Path(folder, "readings.csv"), pathlib.Path(folder, "board.script")
            table.write_text(TABLE)
            told, status, _ = self.told(
                ["min", "list", "hold 10=ok", "min", "pattern three", "see 1=0", "this min", f"save {saved}", "patterns", "list 1"],
                "--patterns", table)
            self.assertEqual(told, [
                f"2 patterns of {table}; the present one is one", "min 1 10", "diag 10", "diag 22", "end", "ok", "min 1 22",
                "pattern three: 0 readings", "ok", "pattern three alone:", "min 0", f"wrote {saved}: 3 patterns, 1 part held",
                "  one: 7 readings", "  two: 7 readings", "* three: 1 reading", "diag 22"])
            self.assertEqual(status, 0)
            told, _, _ = self.told([f"load {saved}", "patterns", "min", "pattern two", "case"])
            self.assertEqual(told, [
                "3 patterns, 15 readings, 1 part held", "* one: 7 readings", "  two: 7 readings", "  three: 1 reading", "min 1 22",
                "pattern two: 7 readings", "pattern two alone:", "seen: 1=1 2=0 3=1 6=0 7=0 22=0 23=0", "held: 10=ok"])

    def test_one_pattern(self):
        with tempfile.TemporaryDirectory() as folder:
            table = pathlib.Path(folder, "readings.csv")
            table.write_text("1,22\n0,1\n")
            self.assertEqual(self.told(["case"], "--patterns", table)[0][0], f"1 pattern of {table}; the present one is p1")

    def test_patterns_by_hand(self):
        told, status, _ = self.told(
            ["pattern one", "see 1=0 3=0 22=1 16=1", "pattern two", "see 1=1 3=1 22=0 16=1", "min", "unhold 10", "blame", "best", "min 1",
             "pattern", "pattern é", "this see 1=1", "all 1", "pattern one", "this min"])
        self.assertEqual(told[:4], ["pattern one: 0 readings", "4 readings taken", "pattern two: 0 readings", "4 readings taken"])
        self.assertEqual(told[4:6], ["min 1 10", "ok"])
        self.assertEqual(told[6:13], ["blame 10 sometimes", *(f"blame {part} never" for part in (11, 16, 19)), "blame 22 sometimes",
                                      "blame 23 never", "end"])
        together = "one of min, next, list, probe, probes, blame, best"
        self.assertEqual(told[-8:], [
            "min: nothing follows it", "pattern NAME: which pattern? a name without blanks; `patterns` lists them",
            f"refused: bad name (error 3): é; {shell.NAMES}",
            f"this COMMAND: {together}", f"all COMMAND: {together}, hold and unhold", "pattern one: 4 readings", "pattern one alone:",
            "min 1 10"])
        self.assertEqual(status, 1)

    def test_for_all_or_for_one(self):
        """An answer is for all patterns, or says for which one it is."""
        with tempfile.TemporaryDirectory() as folder:
            table = pathlib.Path(folder, "readings.csv")
            table.write_text(TABLE)
            told, status, _ = self.told(
                ["next", "next", "next", "list 1", "this next", "probe 16 22", "this probe 16", "probes", "level", "after 10", "level",
                 "expect 22", "hold 10=ok", "next", "hold 99=ok", "list 1", "probe", "probe 99 19", "best 10 99", "hold 16=ok", "probe 16",
                 "hold 22=ok", "probe 16"], "--patterns", table, "--levels", "2")
        alone = "pattern one alone:"
        self.assertEqual(told[1:], [
            "diag 10", "diag 22", "end", "end", alone, "diag 10",
            # What each costs was found by trying all sets of parts.
            "probe 16 3 1", "probe 22 - 1", alone, "probe 16 2 1",
            "probe 10 1 1", "probe 11 2 1", "probe 16 3 1", "probe 19 3 1", "end",
            alone, "level 1 22", alone, "ok", alone, "level 1 22", alone, "22 should be 0, and was seen as 1",
            "ok", "diag 22", "refused: no part (error 10): 99", "end", "probe w: which wire?", "refused: no wire (error 9): 99",
            "probe 19 3 1", "refused: no wire (error 9): 99", "ok",
            "probe 16 - 1", "ok", "no set of faulty parts explains what was seen and held: clash says why"])
        self.assertEqual(status, 1)

    def test_a_refusal_is_of_no_pattern(self):
        """The pattern is named before an answer alone."""
        with tempfile.TemporaryDirectory() as folder:
            table = pathlib.Path(folder, "readings.csv")
            table.write_text(TABLE)
            told, _, _ = self.told(
                ["this probe 99", "expect 99", "after 99", "level", "see 1=0", "this probe 99 16", "picture nowhere/out.svg"],
                "--patterns", table)
        self.assertEqual([text.partition(" (")[0] for text in told[1:-1]], [
            "refused: no wire", "refused: no wire", "refused: no part", "refused: no levels", "ok", "refused: no wire",
            "pattern one alone:", "probe 16 2 1"])

    @unittest.skipUnless(shell.readline, "there is no completion")
    def test_completion(self):
        """With several patterns names are completed as with one."""
        with Service(C17) as service, mock.patch("sys.stdin", io.StringIO()):
            terminal = patterns.BoardShell(service, service.session("S"))
            terminal.take(service.patterns(ROWS))
            for line, found in (
                ("expect 2", ["2", "22", "23"]), ("probe 2", ["2", "22", "23"]), ("best 1", ["10", "11", "16", "19"]),
                ("pattern t", ["two "]),
            ):
                text = line.split()[1]
                ends = {"get_line_buffer": line, "get_begidx": len(line) - len(text), "get_endidx": len(line)}
                with contextlib.ExitStack() as stack:
                    for name, value in ends.items():
                        stack.enter_context(mock.patch(f"readline.{name}", return_value=value))
                    self.assertEqual([terminal.complete(text, place) for place in range(len(found))], found)

    def test_the_program_ends(self):
        """Whatever is asked next starts it anew."""
        with Service(C17) as service, mock.patch("sys.stdin", io.StringIO()):
            terminal = patterns.BoardShell(service, service.session("S"))
            terminal.take(service.patterns(ROWS))
            terminal.use_rawinput = True
            for line, answer in (("min", "min 1 10"), ("pattern three", "pattern three: 0 readings")):
                kill(service)
                with contextlib.redirect_stdout(io.StringIO()) as told:
                    terminal.onecmd(line)
                    terminal.onecmd(line)
                self.assertEqual(told.getvalue().splitlines()[1:], ["the program was started anew, and the case is as it was", answer])

    def test_interrupt_of_hold(self):
        """What only the present pattern was told of, all are told of before anything is asked of all, or another is the present one."""
        with Service(C17) as service, mock.patch("sys.stdin", io.StringIO()), contextlib.redirect_stdout(io.StringIO()):
            terminal = patterns.BoardShell(service, service.session("S"))
            terminal.take(service.patterns(ROWS))
            terminal.use_rawinput = True
            one, two = terminal.sessions.values()
            for line, after in (("hold 10=bad", "min"), ("unhold 10", "min"), ("hold 10=bad", "pattern two"), ("unhold 10", "pattern one")):
                with mock.patch.object(terminal, "_hold_in_all", side_effect=KeyboardInterrupt):
                    terminal.onecmd(line)
                self.assertNotEqual(one.held, two.held)
                wanted = dict(terminal.session.held)
                terminal.onecmd(after)
                self.assertEqual((one.held, two.held), (wanted, wanted), (line, after))

    def test_the_program_ends_while_a_script_is_loaded(self):
        """No session is left open, so that the script may be loaded again."""
        with Service(C17) as service, mock.patch("sys.stdin", io.StringIO()), tempfile.TemporaryDirectory() as folder:
            script = pathlib.Path(folder, "case.script")
            script.write_text("open one\nsee one 1=0\nopen two\nsee two 1=1\n")
            terminal = patterns.BoardShell(service, service.session("S"))
            terminal.use_rawinput = True
            seeing = Session.seeing

            def see_first(session, seen):
                if session.pattern == "two":
                    kill(service)
                return seeing(session, seen)

            with mock.patch.object(Session, "seeing", see_first), contextlib.redirect_stdout(io.StringIO()) as told:
                terminal.onecmd(f"load {script}")
            self.assertIn("The next command starts it anew", told.getvalue())
            with contextlib.redirect_stdout(io.StringIO()) as told:
                terminal.onecmd(f"load {script}")
            self.assertEqual(told.getvalue().splitlines()[1:], ["2 patterns, 2 readings, 0 parts held"])

    def test_the_example(self):
        """The commands of the example have the output that its page shows."""
        folder = EXAMPLES / "patterns"
        shown = (folder / "README.md").read_text().split("```")[1].splitlines()[3:]
        told, _, _ = self.told((folder / "commands").read_text().splitlines(), "--patterns", "examples/patterns/readings.csv",
                               file="examples/patterns/adder_16.bench")
        self.assertEqual(told, shown)

    def test_a_table_that_is_refused(self):
        with tempfile.TemporaryDirectory() as folder:
            table = pathlib.Path(folder, "readings.csv")
            table.write_text("1,99\n0,1\n")
            told, status, said = self.told(["min"], "--patterns", table)
            self.assertEqual((told, status), ([], 1))
            self.assertIn("row 1, column 2: no wire '99'", said)
            most = {600: "600 patterns, and at most 512 can be searched", 1025: "1025 patterns, and at most 1024 sessions are open"}
            for count, why in most.items():
                table.write_text("1\n" + "0\n" * count)
                texts, status, said = self.told(["min"], "--patterns", table)
                self.assertEqual((status, texts), (1, []))
                self.assertIn(f"{table}: {why}", said)


if __name__ == "__main__":
    unittest.main()
