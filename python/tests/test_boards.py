"""`diag-boards`: tables of readings in, one line of result for each board out, whatever happens meanwhile."""

import contextlib
import csv
import io
import json
import os
import pathlib
import pty
import re
import resource
import shutil
import signal
import subprocess
import sys
import tempfile
import unittest

from support import C17, EXAMPLES, PROGRAM, TOP, needs_program, wait_until

sys.path.insert(0, str(TOP / "bench"))

from programs import loaded

from diag_client import Ended
from diag_client.boards import results
from diag_client.boards.batch import diagnose_boards

HEADER = "board,1,2,3,6,7,22,23\n"
# The inputs are all 0. Then 22 and 23 should be 0: of 22 the part itself or 10 is wrong, of both only 16 alone explains it.
WRONG, SOUND, BOTH = "0,0,0,0,0,1,0", "0,0,0,0,0,0,0", "0,0,0,0,0,1,1"
TABLE = HEADER + f"B1,{WRONG}\nB2,{SOUND}\nB3,{BOTH}\n"
ANSWERS = [("B1", "ok", 1, [["10"], ["22"]]), ("B2", "ok", 0, [[]]), ("B3", "ok", 1, [["16"]])]
# A constant, and a buffer between two wires.
FIXED = "type ONE y\nok 1\nbad 1\nend\n\nblock TOP a b\npart one ONE a\npart through BUFF a b\nend\n\ntop TOP\n"
# A program that dies, or sleeps, at a word of its script.
POISONED = """#!{python}
import os, subprocess, sys, time
program = subprocess.Popen([{program!r}, *sys.argv[1:]], stdin=subprocess.PIPE)
for line in sys.stdin.buffer:
    if line.endswith(b" 6=1\\n"):
        program.kill()
        os.kill(os.getpid(), 9)
    if line.endswith(b" 7=1\\n"):
        time.sleep(900)
    program.stdin.write(line)
    program.stdin.flush()
program.stdin.close()
sys.exit(program.wait())
"""


class Case(unittest.TestCase):
    """What the tests share: a folder, and runs of the command."""

    def setUp(self):
        self.folder = pathlib.Path(self.enterContext(tempfile.TemporaryDirectory()))
        self.results = self.folder / "results"

    def words(self, *words, file=C17):
        return [sys.executable, "-m", "diag_client", "boards", file, *words]

    def run_boards(self, text, *words, file=C17, **how):
        """The status, what is written, and what is said of it. The table comes from a pipe."""
        data = text.encode("utf-8", "surrogateescape") if isinstance(text, str) else text
        env = {**os.environ, "PYTHONPATH": str(TOP / "python")}
        done = subprocess.run(self.words("-", *words, file=file), input=data, capture_output=True, env=env, cwd=self.folder, **how)
        self.assertNotIn(b"Traceback", done.stderr)
        return done.returncode, done.stdout.decode(), done.stderr.decode()

    def answered(self, text, *words, **how):
        """The results of a run, each as its words of it."""
        _, told, _ = self.run_boards(text, *words, **how)
        return [json.loads(line) for line in told.splitlines()]

    def brief(self, text, *words, **how):
        return [tuple(found[key] for key in ("board", "status", "cost", "diagnoses")) for found in self.answered(text, *words, **how)]

    def refused(self, text, *words, **how):
        return [tuple(found.get(key) for key in ("board", "line", "column", "word")) for found in self.answered(text, *words, **how)
                if found["status"] == "refused"]


@needs_program
class Readings(Case):
    """What rows say, in all the ways in which they are written."""

    def test_same_table_in_all_ways(self):
        rows = list(csv.DictReader(io.StringIO(TABLE)))
        ways = {
            "commas": TABLE, "semicolons": TABLE.replace(",", ";"), "tabs": TABLE.replace(",", "\t"), "blanks": TABLE.replace(",", " "),
            "another sign": "sep=|\n" + TABLE.replace(",", "|"), "quotes": re.sub(r"\b(\w+)\b", r'"\1"', TABLE),
            "carriage returns": TABLE.replace("\n", "\r\n"), "a mark": "\ufeff" + TABLE, "comments": "# a day\n" + TABLE.replace("B2", "#\nB2"),
            "commas at the end": TABLE.replace("\n", ",,\n"), "empty rows": TABLE.replace("\n", "\n,,,,,,,\n"), "no last line feed": TABLE[:-1],
            "UTF-16": TABLE.encode("utf-16"), "other letters": TABLE.replace("board", "Board"),
            "objects": "".join(json.dumps(row) + "\n" for row in rows),
            "numbers": "".join(json.dumps({name: word if name == "board" else int(word) for name, word in row.items()}) + "\n" for row in rows),
            "truths": "".join(json.dumps({name: word if name == "board" else word == "1" for name, word in row.items()}) + "\n" for row in rows),
        }
        for what, text in ways.items():
            with self.subTest(what):
                self.assertEqual(self.brief(text, "--jobs", "1"), ANSWERS)

    def test_no_reading(self):
        """Without the reading of 23 another part explains 22 too, since 16 drives both."""
        for word in ("", "X", "x", "Z", "z", "-", "?"):
            with self.subTest(word):
                self.assertEqual(self.brief(f"{HEADER}B,0,0,0,0,0,1,{word}\n", "--jobs", "1"), [("B", "ok", 1, [["10"], ["16"], ["22"]])])

    def test_refused_rows(self):
        """Each with its line, its column and its word; the boards around it are answered."""
        text = HEADER + f"B1,{WRONG}\nB2,0,2,0,0,0,1,0\nB3,0,0\nB4,{SOUND},1\n,{SOUND}\nB6,0,\"0,0,0,0,1,0\nB7,{WRONG}\n"
        self.assertEqual(self.refused(text), [
            ("B2", 3, "2", "2"), ("B3", 4, None, None), ("B4", 5, None, "1"), ("", 6, "board", ""), ("B6", 7, None, None),
        ])
        self.assertEqual([found["board"] for found in self.answered(text) if found["status"] == "ok"], ["B1", "B7"])

    def test_quotes(self):
        """Those around a cell may hold a line feed, and those within one are signs as others are."""
        text = HEADER + f'B 5",{WRONG}\nB 7",{SOUND}\n"B\n8",{BOTH}\n"B 9,{WRONG}\nB 10,{WRONG}\n'
        found = self.answered(text)
        self.assertEqual([(row["board"], row["status"]) for row in found], [
            ('B 5"', "ok"), ('B 7"', "ok"), ("B 8", "ok"), ('"B 9', "refused"), ("B 10", "ok"),
        ])
        self.assertEqual([row["diagnoses"] for row in found], [[["10"], ["22"]], [[]], [["16"]], [], [["10"], ["22"]]])

    def test_refused_objects(self):
        text = '{"board": "A", "1": 0}\n{"board": "B", "1": 2}\n{"board": "C", "9": 1}\n[1]\n{"board": \n{"board": ""}\n{"1": 0}\n'
        self.assertEqual(self.refused(text), [("B", 2, "1", "2"), ("C", 3, "9", "1"), ("", 4, None, None), ("", 5, None, None), ("", 6, "board", "")])
        self.assertEqual([found["board"] for found in self.answered(text) if found["status"] == "ok"], ["A", "7"])

    def test_refused_tables(self):
        """They are wrong as a whole: the status is 2, and nothing is written."""
        for text, why in (
            ("", "no rows"), (b"PK\x03\x04more", "workbook"), ("board,1,1\nB,0,0\n", "second column"), ("board,1,nobody\nB,0,0\n", "no wire 'nobody'"),
            ("pattern,1\np,0\n", "needs a column `board`"),
        ):
            with self.subTest(why):
                status, _, said = self.run_boards(text, "-o", self.results)
                self.assertEqual(status, 2)
                self.assertIn(why, said)
                self.assertFalse(self.results.exists())
        self.assertEqual(self.brief("board,1,who\nB,0,me\n", "--ignore", "who"), [("B", "ok", 0, [[]])])

    def test_a_wire_with_the_name_of_a_column(self):
        file = self.folder / "named.bench"
        file.write_text("INPUT(board)\ny = NOT(board)\n")
        self.assertIn("the device has a wire board", self.run_boards("board,y\nB,1\n", file=file)[2])

    def test_patterns(self):
        """Rows that follow one another with the same name are patterns of one board: 10 and 22 explain both rows."""
        text = f"pattern,{HEADER}one,A,{WRONG}\ntwo,A,1,0,1,0,0,0,0\none,B,{BOTH}\n"
        found = self.answered(text, "--blame", "--next")
        self.assertEqual([(row["board"], row["cost"], row["diagnoses"]) for row in found], [("A", 1, [["10"], ["22"]]), ("B", 1, [["16"]])])
        self.assertEqual([row["blame"] for row in found], [{"always": [], "sometimes": ["10", "22"]}, {"always": ["16"], "sometimes": []}])
        self.assertEqual([row["next"] for row in found], [{"wire": "10", "pattern": "one"}, None])

    def test_several_devices(self):
        """A column names the file, beside the table. One that is not there fails, and so does a board of two devices."""
        shutil.copy(EXAMPLES / "full_adder.bench", self.folder)
        text = "device,board,a,b,carry_in,sum,1,3,22,16\nfull_adder.bench,F,0,0,0,1,,,,\n,C,,,,,0,0,1,1\nno.bench,N,1,,,,,,,\nfull_adder.bench,G,1,,,,1,,,\n"
        text += ",H,,,,,1,,,\nfull_adder.bench,H,1,,,,,,,\n"
        found = self.answered(text)
        self.assertEqual([row["status"] for row in found], ["ok", "ok", "failed", "refused", "refused"])
        self.assertEqual([row["diagnoses"] for row in found[:2]], [[["half"], ["sum"]], [["10"], ["22"]]])
        self.assertEqual(found[2]["reason"], "no.bench: no such file or directory")

    def test_inconsistent(self):
        file = self.folder / "fixed.dev"
        file.write_text(FIXED)
        found = self.answered("board,a\nA,0\nB,1\n", "--blame", file=file)
        self.assertEqual(found[0], {"board": "A", "status": "inconsistent", "cost": None, "diagnoses": [], "complete": True, "blame": None})
        self.assertEqual(found[1]["blame"], {"always": [], "sometimes": []})


@needs_program
class Results(Case):
    """What is written, and how a run ends."""

    def test_keys(self):
        """They are those of the page."""
        page = (TOP / "docs/SCALING.md").read_text()
        table = re.search(r"\| Key \|.*?\n\n", page, re.DOTALL)[0]
        named = re.findall(r"`(\w+)`", "".join(re.findall(r"(?m)^\| (.*?) \|", table)))
        self.assertEqual(named, [*results.KEYS, *results.ON_DEMAND, *results.REASONS])
        found = self.answered(HEADER + f"A,{WRONG}\nB,2,0,0,0,0,0,0\n", "--blame", "--next", "--seconds")
        self.assertEqual([list(row) for row in found], [[*results.KEYS, *results.ON_DEMAND], [*results.KEYS, *results.REASONS, "seconds"]])
        self.assertTrue(0 < found[0]["seconds"] < 60)

    def test_flat_table(self):
        status, told, _ = self.run_boards(TABLE + "B4,2,0,0,0,0,0,0\n", "--csv", "--blame", "--next")
        rows = list(csv.DictReader(io.StringIO(told)))
        self.assertEqual(status, 1)
        self.assertEqual([(row["board"], row["cost"], row["diagnoses"], row["sometimes"], row["always"], row["next"]) for row in rows], [
            ("B1", "1", "10, 22", "10 22", "", "10"), ("B2", "0", "", "", "", ""), ("B3", "1", "16", "", "16", ""), ("B4", "", "", "", "", ""),
        ])
        self.assertEqual((rows[3]["status"], rows[3]["line"], rows[3]["column"], rows[3]["word"]), ("refused", "5", "1", "2"))

    def test_list(self):
        for limit, listed, complete in (("1", [["10"]], False), ("2", [["10"], ["22"]], True)):
            found, = self.answered(f"{HEADER}B,{WRONG}\n", "--list", limit)
            self.assertEqual((found["diagnoses"], found["complete"]), (listed, complete))

    def test_summary(self):
        status, told, said = self.run_boards(TABLE + f"B4,{WRONG}\nB5,2,0,0,0,0,0,0\n", "--summary", "-o", self.results)
        self.assertEqual((status, said), (1, ""))
        self.assertIn("5 boards: 4 ok, 0 inconsistent, 1 refused, 0 failed; of those that are ok 3 have a fault\n", told)
        self.assertEqual([line.split() for line in told.splitlines()[2:]], [
            ["10", "2", "66.7%", "0"], ["22", "2", "66.7%", "0"], ["16", "1", "33.3%", "1"],
        ])

    def test_statuses(self):
        for text, words, status in (
            (TABLE, (), 0), (TABLE + "B,2,0,0,0,0,0,0\n", (), 1), (TABLE, ("--jobs", "0"), 2), (TABLE, ("--list", "x"), 2),
            (TABLE, ("--budget", "1"), 1), (TABLE, ("--timeout", "0"), 2), (TABLE, ("--resume",), 2), (TABLE, ("-o", "/dev/full"), 1),
            (TABLE, ("--cluster", "tcp://127.0.0.1:1"), 1), (TABLE, ("--frames", "0"), 1), (TABLE, ("--jobs", "1", "--cluster", "tcp://127.0.0.1:1"), 2),
        ):
            with self.subTest(words):
                found, _, said = self.run_boards(text, *words)
                self.assertEqual(found, status, said)
                self.assertEqual(bool(said), status > 0 and words != ())

    def test_progress(self):
        """A terminal shows how far it is, by the file that is read, and is clear again at the end."""
        table = self.folder / "table.csv"
        table.write_text(HEADER + "".join(f"B{number},{WRONG}\n" for number in range(30_000)))
        ours, theirs = pty.openpty()
        env = {**os.environ, "PYTHONPATH": str(TOP / "python")}
        with subprocess.Popen(self.words(table, "-o", self.results, "--jobs", "1"), stderr=theirs, env=env) as run:
            os.close(theirs)
            told = b""
            # The terminal is gone with the last process that has it.
            with contextlib.suppress(OSError):
                while came := os.read(ours, 4096):
                    told += came
        os.close(ours)
        self.assertEqual(run.returncode, 0, told)
        first, *_, last = told.decode().split("\r\x1b[K")[1:]
        self.assertRegex(first, r"^[0-9,]+ boards, [0-9,]+ a second(, about [0-9,]+ s left)?$")
        self.assertIn(" s left", told.decode())
        self.assertEqual(last, "")

    def test_any_number_of_jobs(self):
        text = HEADER + "".join(f"B{number},{number & 1},{number >> 1 & 1},{number >> 2 & 1},0,0,1,{number >> 3 & 1}\n" for number in range(300))
        told = {self.run_boards(text, "--jobs", jobs)[1] for jobs in ("1", "3")}
        self.assertEqual(len(told), 1)

    def test_call(self):
        rows = [{"board": "B1", "22": 1, "1": 0, "3": 0, "16": 1}, {"22": 3}]
        found = list(diagnose_boards(C17, rows, jobs=1, blame=True))
        self.assertEqual([(row.board, row.status, row.diagnoses, row.column) for row in found], [
            ("B1", "ok", (("10",), ("22",)), None), ("2", "refused", (), "22"),
        ])
        with self.assertRaises(Ended):
            list(diagnose_boards(C17, rows, jobs=1, budget=1))

    @unittest.skipUnless(shutil.which("gringo") and shutil.which("clasp"), "there is no gringo and clasp")
    def test_check(self):
        """clasp finds the same over gates, types, times and patterns; and a difference is counted."""
        for file, text, words in (
            (C17, TABLE + f"B4,{BOTH}\n", ()),
            (C17, f"pattern,{HEADER}one,A,{WRONG}\ntwo,A,1,0,1,0,0,1,1\none,B,{BOTH}\n", ()),
            (EXAMPLES / "pump.dev", "board,switch,ready,inlet,outlet,pressure,power\nA,1,1,0,,,\nB,1,1,0,0,0,1\nC,0,1,1,0,,\nD,1,0,1,1,1,\n", ()),
            (EXAMPLES / "frames/toggle.bench", "board,q@0001,q@0002,q@0003\nA,0,0,0\nB,1,0,1\nC,1,1,0\n", ("--frames", "3")),
        ):
            with self.subTest(file.name):
                status, _, said = self.run_boards(text, "--check", "clasp", *words, file=file)
                boards = 2 if "pattern" in text else text.count("\n") - 1
                self.assertEqual((status, said), (0, f"clasp: {boards} results compared, 0 differ, 0 left out\n"))
        from diag_client.boards import cross_check, stream

        check = cross_check.CrossCheck(stream.Layout(("board", "22"), ","), 10, None)
        self.addCleanup(check.close)
        board = stream.BoardRows("B", "", ((2, "B,1"),))
        lines = [b'{"board": "B", "status": "ok", "cost": 1, "diagnoses": [["10"]], "complete": true}']
        self.assertEqual(list(check.differences([(str(C17), board)], lines)), ["board B: cost 1 and 1 sets here, cost 0 and 1 sets by clasp"])
        self.assertEqual(check.differing, 1)


@needs_program
class NothingIsLost(Case):
    """Whole lines, each board once, whatever ends a run."""

    def setUp(self):
        super().setUp()
        self.program = self.folder / "poisoned"
        self.program.write_text(POISONED.format(python=sys.executable, program=PROGRAM))
        self.program.chmod(0o755)

    def test_boards_that_kill_the_program(self):
        """Each is tried once more alone, and fails with the reason; the others are answered."""
        rows = [WRONG] * 9
        rows[3], rows[4] = "0,0,0,1,0,0,0", "0,0,0,0,1,0,0"
        text = HEADER + "".join(f"B{number},{row}\n" for number, row in enumerate(rows))
        for words in ((), ("--next",), ("--seconds",)):
            found = self.answered(text, "--program", self.program, "--timeout", "1", "--jobs", "1", *words)
            self.assertEqual([row["status"] for row in found], ["ok"] * 3 + ["failed"] * 2 + ["ok"] * 4)
            self.assertEqual([found[place]["reason"] for place in (3, 4)], ["the program ended with signal 9 (Killed)", "no answer within 1 seconds"])

    def test_killed_at_random(self):
        """Some of the rounds that `bench/boards kills` has."""
        kills = loaded(TOP / "bench/boards")
        with contextlib.redirect_stdout(io.StringIO()) as said:
            self.assertEqual(kills.kills(rounds=4, seed=7, boards=1500), 0, said.getvalue())

    def test_no_more_room(self):
        text = HEADER + "".join(f"B{number},{WRONG}\n" for number in range(500))
        expected = self.run_boards(text)[1].encode()

        def little_room():
            signal.signal(signal.SIGXFSZ, signal.SIG_IGN)
            resource.setrlimit(resource.RLIMIT_FSIZE, (5000, 5000))

        for words, first in (((), b"{"), (("--csv",), b"board,")):
            status, _, said = self.run_boards(text, "-o", self.results, "--jobs", "1", *words, preexec_fn=little_room)
            self.assertEqual(status, 1)
            self.assertIn(f"{self.results}: file too large", said)
            kept = self.results.read_bytes()
            self.assertTrue(kept.startswith(first) and kept.endswith(b"\n"))
            self.assertEqual(self.run_boards(text, "-o", self.results, "--resume", *words)[0], 0)
            if not words:
                self.assertEqual(self.results.read_bytes(), expected)
            self.results.unlink()

    def test_interrupt(self):
        table = self.folder / "table.csv"
        table.write_text(HEADER + "".join(f"B{number},{WRONG}\n" for number in range(200_000)))
        env = {**os.environ, "PYTHONPATH": str(TOP / "python")}
        run = subprocess.Popen(self.words(table, "-o", self.results), stderr=subprocess.PIPE, env=env)
        wait_until(lambda: self.results.exists() and self.results.stat().st_size)
        run.send_signal(signal.SIGINT)
        _, said = run.communicate()
        self.assertEqual(run.returncode, 130)
        self.assertRegex(said.decode(), r"^diag-boards: interrupted; [0-9]+ boards are answered; the same words and `--resume` go on from there\n$")
        self.assertTrue(self.results.read_bytes().endswith(b"\n"))

    def test_goes_on_after_the_last_whole_line(self):
        """What is not whole is cut off. A file of something else is left as it is."""
        whole = self.run_boards(TABLE)[1].encode()
        first = whole.splitlines(keepends=True)[0]
        for begin in (b"", first, first + b'{"boa', first + bytes(100), whole, whole[:-1]):
            self.results.write_bytes(begin)
            status, _, said = self.run_boards(TABLE, "-o", self.results, "--resume")
            self.assertEqual((status, self.results.read_bytes(), said), (0, whole, ""))
        for begin, why in (
            (b"my notes\n", "line 1 is no result"), (first.replace(b"B1", b"B9"), "result 1 is of board 'B9', and the readings have board 'B1'"),
            (whole + first, "result 4 is of board 'B1', and the readings have no more boards"), (b"my notes", "line 1 is no result"),
            (first.replace(b"}\n", b', "blame": null}\n'), "other keys"),
        ):
            self.results.write_bytes(begin)
            status, _, said = self.run_boards(TABLE, "-o", self.results, "--resume")
            self.assertEqual((status, self.results.read_bytes()), (2, begin))
            self.assertIn(why, said)

    def test_results_that_are_there(self):
        self.results.write_bytes(b"mine\n")
        status, _, said = self.run_boards(TABLE, "-o", self.results)
        self.assertEqual((status, self.results.read_bytes()), (2, b"mine\n"))
        self.assertIn("`--resume` goes on with it", said)

    def test_two_runs(self):
        """The second one is refused while the first one waits for its readings."""
        env = {**os.environ, "PYTHONPATH": str(TOP / "python")}
        with subprocess.Popen(self.words("-", "-o", self.results), stdin=subprocess.PIPE, env=env) as first:
            first.stdin.write(TABLE.encode())
            first.stdin.flush()
            wait_until(self.results.exists)
            wait_until(lambda: "another run writes it" in self.run_boards(TABLE, "-o", self.results, "--resume")[2])
            first.stdin.close()
            self.assertEqual(first.wait(), 0)
        self.assertEqual(self.results.read_bytes().count(b"\n"), 3)


@needs_program
class OnACluster(Case):
    """Workers of Dask, here on this machine; `bench/boards hosts` has two hosts."""

    def setUp(self):
        super().setUp()
        bench = loaded(TOP / "bench/boards")
        self.python = bench.dask_python()
        if self.python is None:
            self.skipTest("no Python here has dask.distributed")
        self.environment = bench.ENVIRONMENT
        self.scheduler = self.folder / "scheduler.json"
        self.start("dask_scheduler", "--host", "127.0.0.1", "--port", "0", "--no-dashboard", "--scheduler-file", self.scheduler)
        wait_until(lambda: self.scheduler.exists() and self.scheduler.read_text().endswith("}"))
        self.address = json.loads(self.scheduler.read_text())["address"]
        words = ("--host", "127.0.0.1", "--nthreads", "1", "--no-nanny", "--no-dashboard")
        self.workers = [self.start("dask_worker", self.address, *words) for _ in range(2)]

    def start(self, module, *words):
        words = [self.python, "-m", f"distributed.cli.{module}", *words]
        with (self.folder / module).open("a") as log:
            process = subprocess.Popen(words, env=self.environment, cwd=self.folder, stdout=log, stderr=log)
        self.addCleanup(process.wait)
        self.addCleanup(process.kill)
        return process

    def test_a_worker_that_dies(self):
        """It costs no board, and the bytes are those of one process. The programs end with the run."""
        rows = "".join(f"B{number},{number & 1},{number >> 1 & 1},{number >> 2 & 1},0,0,1,{number >> 3 & 1}\n" for number in range(60_000))
        expected = self.run_boards(HEADER + rows, "--jobs", "1")[1].encode()
        words = [self.python, *map(str, self.words("-", "-o", self.results, "--cluster", self.address)[1:])]
        run = subprocess.Popen(words, stdin=subprocess.PIPE, env=self.environment, stderr=subprocess.PIPE)
        text = HEADER + rows
        run.stdin.write(text[:len(text) // 2].encode())
        wait_until(lambda: self.results.exists() and self.results.stat().st_size)
        self.workers[0].kill()
        _, said = run.communicate(text[len(text) // 2:].encode())
        self.assertEqual((run.returncode, self.results.read_bytes() == expected), (0, True), said.decode())
        self.assertFalse(loaded(TOP / "bench/boards").children(self.workers[1].pid))


if __name__ == "__main__":
    unittest.main()
