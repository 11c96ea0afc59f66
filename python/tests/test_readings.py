"""Readings as people and testers write them: the same in a table, in the terminal, on the page and in a script."""

import pathlib
import tempfile
import time
import unittest

from support import C17, needs_program, stand_in

from diag_client import BadScript, BadTable, Board, Case, Service
from diag_client.bench import records
from diag_client.boards.tables import read_table
from diag_client.readings import bit_of, bus_of, without_buses

WIRES = ["1", "3", "22"]
BUSES = {"a[0]", "a[1]", "a[2]", "b0", "b1", "c_1", "c_2", "1_d", "2_d", "e", "10", "11"}
LOW_HIGH = Board({"low": Case({"1": 0, "22": 1}), "high": Case({"1": 1, "3": 0, "22": 0})})
# Each of these texts says the same.
TABLES = {
    "commas": "pattern,1,3,22\nlow,0,,1\nhigh,1,0,0\n",
    "semicolons": "pattern;1;3;22\nlow;0;;1\nhigh;1;0;0\n",
    "tabs": "pattern\t1\t3\t22\nlow\t0\t\t1\nhigh\t1\t0\t0\n",
    "blanks": "pattern 1 3 22\nlow     0 X 1\nhigh    1 0 0\n",
    "a comma at each end": "pattern,1,3,22,\nlow,0,,1,\nhigh,1,0,0,\n",
    "commas at some ends": "pattern,1,3,22,,\nlow,0,,1\nhigh,1,0,0,,,\n",
    "what a spreadsheet is told": "sep=;\npattern;1;3;22\nlow;0;;1\nhigh;1;0;0\n",
    "another sign that it is told": "SEP=|\npattern|1|3|22\nlow|0||1\nhigh|1|0|0\n",
    "comments": "# board 7\npattern,1,3,22\n# retried = 2\nlow,0,,1\nhigh,1,0,0\n",
    "a mark": "\ufeffpattern,1,3,22\nlow,0,,1\nhigh,1,0,0\n",
    "a capital letter": "Pattern,1,3,22\nlow,0,,1\nhigh,1,0,0\n",
    "quotes": '"pattern","1","3","22"\n"low","0","","1"\n"high","1","0","0"\n',
    "carriage returns": "pattern,1,3,22\rlow,0,,1\rhigh,1,0,0\r",
    "numbers": "pattern,1,3,22\nlow,0.0,,1.0\nhigh,1.0,0.0,0.0\n",
    "words": "pattern,1,3,22\nlow,FALSE,,TRUE\nhigh,TRUE,FALSE,FALSE\n",
    **{f"{sign!r} for none": f"pattern,1,3,22\nlow,0,{sign},1\nhigh,1,0,0\n" for sign in ("X", "x", "Z", "z", "-", "?", " ", "NaN")},
}
# What is refused, and why.
REFUSED = {
    "1,3\n0,2\n": "row 2, column 2 (3): not '2': a reading is 0 or 1, and X, Z, - or nothing if there is none",
    "1,3\n0,H\n": "row 2, column 2 (3): not 'H': write 1",
    "1,3\n0,low\n": "not 'low': write 0",
    "1,3,1\n0,1,0\n": "row 1, column 3: a second column '1'",
    "1,also\n0,1\n": "row 2, column 2 (also): not 1, since it is one wire with a column before it",
    "1,,3\n0,,1\n": "row 1, column 2: no wire ''",
    "1,3\n0,1,1\n": "row 2, column 3: 3 cells, and the first row has 2",
}


class Buses(unittest.TestCase):
    """Wires that are read together, as a number."""

    def test_a_number_is_the_bits_of_its_wires(self):
        for words, wanted in (
            ("a=0x5", "a[0]=1 a[1]=0 a[2]=1"), ("a[2:1]=2", "a[1]=0 a[2]=1"), ("a[1:2]=2", "a[1]=0 a[2]=1"), ("b=0b10 e=1", "b0=0 b1=1 e=1"),
            ("c=2", "c_1=0 c_2=1"), ("d=3", "1_d=1 2_d=1"), ("b[1:0]=1", "b0=1 b1=0"), ("b[1:0]=X", "b0=X b1=X"),
            # A bit alone is of a wire, and wire 10 is no bit of a bus 1.
            ("a=1", "a=1"), ("1=0x1", "1=0x1"), ("e=0", "e=0"),
        ):  # fmt: skip
            with self.subTest(words):
                self.assertEqual(" ".join(without_buses(words.split(), BUSES)), wanted)
        self.assertEqual(bus_of("e", BUSES) + bus_of("a[5:0]", BUSES) + bus_of("", BUSES), [])

    def test_what_does_not_fit_is_refused(self):
        for word, why in (("a=8", "8 needs 4 bits, and a has 3 wires"), ("a=0xg", "a is a bus of 3 wires: write a number, such as 12"), ("a[1:0]=4", "needs 3 bits")):
            with self.subTest(word), self.assertRaisesRegex(ValueError, why):
                without_buses([word], BUSES)

    def test_in_tables_and_on_the_page(self):
        with tempfile.TemporaryDirectory() as folder:
            table = pathlib.Path(folder, "t.csv")
            table.write_text("pattern,a,e,b[1:0]\nlow,0x4,1,\nhigh,1,X,3\n")
            wanted = {"low": Case({"a[0]": 0, "a[1]": 0, "a[2]": 1, "e": 1}), "high": Case({"a[0]": 1, "a[1]": 0, "a[2]": 0, "b0": 1, "b1": 1})}
            self.assertEqual(read_table(table, BUSES), Board(wanted))
            table.write_text("a,e\n9,1\n")
            with self.assertRaisesRegex(BadTable, r"row 2, column 1 \(a\): 9 needs 4 bits"):
                read_table(table, BUSES)
        known = records.Known(BUSES, set(), BUSES)
        self.assertEqual(records.read_readings("a=0x3, e=0", known), [(None, {"a[0]": 1, "a[1]": 1, "a[2]": 0, "e": 0})])
        self.assertEqual(records.read_readings("a e\n3 0", known), [("", {"a[0]": 1, "a[1]": 1, "a[2]": 0, "e": 0})])
        with self.assertRaisesRegex(records.Bad, "needs 4 bits"):
            records.read_readings("a=0xf", known)


class Tables(unittest.TestCase):
    """A file, the rows of a program, and what is pasted on the page."""

    def file(self, text):
        path = pathlib.Path(self.enterContext(tempfile.TemporaryDirectory()), "readings.csv")
        path.write_bytes(text.encode())
        return path

    def test_taken(self):
        known = records.Known(WIRES, [], WIRES)
        pasted = [(name, dict(case.seen)) for name, case in LOW_HIGH.patterns.items()]
        for name, text in TABLES.items():
            with self.subTest(name):
                self.assertEqual(read_table(self.file(text), WIRES), LOW_HIGH)
                self.assertEqual(records.read_readings(text, known), pasted)

    def test_refused(self):
        known = records.Known(WIRES, [], WIRES, {"also": "1"})
        for text, why in REFUSED.items():
            with self.subTest(text):
                with self.assertRaises(BadTable) as caught:
                    read_table(self.file(text), WIRES, {"also": "1"})
                self.assertIn(why, str(caught.exception))
                with self.assertRaises(records.Bad) as caught:
                    records.read_readings(text, known)
                self.assertIn(why, str(caught.exception))

    def test_rows(self):
        """Cells are what a program has at hand: bits, None, truth values, floats with none missing."""
        rows = [["pattern", "1", "3", "22"], ["low", False, None, True], ["high", 1.0, 0.0, 0]]
        self.assertEqual(read_table(rows, WIRES), LOW_HIGH)
        self.assertEqual(read_table([["1", "3"], [0, float("nan")]], WIRES), Board({"p1": Case({"1": 0})}))
        with self.assertRaisesRegex(BadTable, "a row is a list of cells, and not the text '13'"):
            read_table(["13", "01"], WIRES)

    def test_a_wire_called_pattern(self):
        with self.assertRaisesRegex(BadTable, "row 1, column 1: pattern is a wire here and cannot name the patterns"):
            read_table([["pattern", "b"], [0, 1]], ["pattern", "b"])
        self.assertEqual(read_table([["Pattern", "b"], [0, 1]], ["Pattern", "b"]), Board({"p1": Case({"Pattern": 0, "b": 1})}))

    def test_many_rows(self):
        """The time grows as the rows do: it took minutes."""
        text = "pattern,1,3,22\n" + "".join(f"n{number},0,1,X\n" for number in range(100_000))
        begun = time.process_time()
        self.assertEqual(len(read_table(self.file(text), WIRES).patterns), 100_000)
        self.assertLess(time.process_time() - begun, 20)
        with self.assertRaisesRegex(records.Bad, "at most 100 patterns, and these are 100000; nothing was taken"):
            records.take_readings(records.Record(), records.read_readings(text, records.Known(WIRES, [], WIRES)))


class Pasted(unittest.TestCase):
    """What is not a table."""

    KNOWN = records.Known({"a", "b", "c"}, {"g"}, {"a", "b", "c"})

    def test_pairs(self):
        for text in ("a=0 b=1 c=x", "a = 0, b= 1; c =Z", "a=0;b=1;c=", "\ufeffa=0\r\nb=1\r\nc=-\r\n", "# U7 = 74283\na=0 b=1 c=?"):
            with self.subTest(text):
                self.assertEqual(records.read_readings(text, self.KNOWN), [(None, {"a": 0, "b": 1, "c": None})])

    def test_two_values(self):
        for text in ("a=0 b=1 a=1", "a=X a=0"):
            with self.subTest(text), self.assertRaisesRegex(records.Bad, "a=. and a=. are of one wire; nothing was taken"):
                records.read_readings(text, self.KNOWN)

    def test_script(self):
        self.assertEqual(records.read_readings("open P1\nsee P1 a=0\nsee P2 a=1\n", self.KNOWN), [("P1", {"a": 0}), ("P2", {"a": 1})])
        with self.assertRaisesRegex(records.Bad, "line 1: no wire d"):
            records.read_readings("see P1 d=0\n", self.KNOWN)
        with self.assertRaisesRegex(records.Bad, "take it by Load"):
            records.read_readings("see P1 a=0\nhold P1 g=ok\n", self.KNOWN)

    def test_no_table(self):
        """Of one line it is not said that a table has more of them."""
        for text in ("1:0", "a b", ""):
            with self.subTest(text), self.assertRaisesRegex(records.Bad, f"^'{text}' is no reading: write a=0 b=1$"):
                records.read_readings(text, self.KNOWN)

    def test_levels_are_not_guessed(self):
        with self.assertRaisesRegex(ValueError, "^write 1$"):
            bit_of("High")


class Scripts(unittest.TestCase):
    """A case and a board are told as a script, and read back."""

    BOARD = Board({"one": Case({"a": 0, "b": 1}, {"g": "ok"}), "two": Case({}, {"g": "bad"})})

    def test_there_and_back(self):
        self.assertEqual(Board.from_script(self.BOARD.script()), self.BOARD)
        for name, case in self.BOARD.patterns.items():
            self.assertEqual(Case.from_script(self.BOARD.script(), name), case)
        self.assertEqual(Case.from_script(self.BOARD.script()), self.BOARD.patterns["two"])
        self.assertEqual(self.BOARD.held, {"g": "bad"})
        self.assertEqual((Case.from_script(""), bool(Case())), (Case(), False))

    def test_lines(self):
        """A line changes what those before it said, a session that is opened again begins anew, and one that is closed keeps its case."""
        lines = ["open S", "see S a=0", "open S", "", "# min", "see S b=0", "see\tS b=1", "hold S g=ok", "unhold S g", "list S 9"]
        script = "\ufeff" + "\r\n".join([*lines, "close S"])
        self.assertEqual(Case.from_script(script), Case({"b": 1}))
        self.assertEqual(Case.from_script(script.splitlines()), Case({"b": 1}))

    def test_refused(self):
        for script, why in {
            "hello\nworld": "line 1: `hello` is not understood: lines are such as `see S a=0`",
            "open S\n\nsea S a=0": "line 3: `sea S a=0` is not understood",
            "see S a=0 b=1": "line 1: `see S a=0 b=1` is not understood",
            "see S a": "line 1: a: a reading is 0 or 1",
            "see S a=x": "line 1: a=x: a reading is 0 or 1",
            "see S a=0\nhold S g=fine": "line 2: g=fine: a part was tested ok or bad",
        }.items():
            with self.subTest(script), self.assertRaises(BadScript) as caught:
                Case.from_script(script)
            self.assertIn(why, str(caught.exception))
        with self.assertRaisesRegex(BadScript, "the script has no session T"):
            Case.from_script("see S a=0", "T")


class Calls(unittest.TestCase):
    """What a call of Python is given."""

    def test_a_text_is_no_list(self):
        with Service("any.bench", program=stand_in("lists")) as service, service.session("S") as session:
            for ask in (lambda: service.batch("min"), lambda: session.batch("min a"), lambda: session.probe_each("10")):
                with self.assertRaisesRegex(TypeError, "are given as a list, as "):
                    ask()

    def test_two_values(self):
        with Service("any.bench", program=stand_in("lists")) as service, service.session("S") as session:
            for change, noun in ((lambda: session.see({"a": 0}, a=1), "wire"), (lambda: session.hold({"p1": "ok"}, p1="bad"), "part")):
                with self.assertRaisesRegex(ValueError, f"are of one {noun}; nothing was taken"):
                    change()
            self.assertEqual(session.case, Case())

    def test_nothing_is_loaded_of_a_wrong_script(self):
        with Service("any.bench", program=stand_in("lists")) as service, service.session("S") as session:
            with self.assertRaisesRegex(BadScript, "line 2: `world` is not understood"):
                session.load("see S a=0\nworld")
            self.assertEqual(session.case, Case())


@needs_program
class Patterns(unittest.TestCase):
    """Tables that become sessions."""

    ROWS = [["1", "3", "22"], [0, 0, 1], [1, 1, 0]]

    def test_one_board_after_the_other(self):
        """The names of patterns come again, whether the sessions of the board before are still at hand or not."""
        with Service(C17) as service:
            boards = [service.patterns(self.ROWS) for _ in range(3)]
            self.assertEqual([list(board) for board in boards], [["p1", "p2"]] * 3)
            self.assertEqual([board["p1"].case for board in boards], [Case({"1": 0, "3": 0, "22": 1})] * 3)
            self.assertEqual(len({session.name for board in boards for session in board.values()}), 6)
            self.assertEqual({row.pattern for row in service.together(boards[2].values()).rank_probes()}, {"p1", "p2"})
            for _ in range(600):
                patterns = service.patterns(self.ROWS)
            self.assertEqual(patterns["p2"].seen["22"], 0)

    def test_of_a_board(self):
        with Service(C17) as service:
            board = Board({"low": Case({"22": 1}, {"10": "ok"})})
            self.assertEqual({name: session.case for name, session in service.patterns(board).items()}, board.patterns)

    def test_too_many(self):
        """It is said at once how many there may be, and no session is left open."""
        with Service(C17, sessions=4) as service:
            with self.assertRaisesRegex(BadTable, "the table: 5 patterns, and at most 4 sessions are open at a time, of which 2 can be"):
                service.patterns([["22"], *[[0]] * 5])
            with self.assertRaisesRegex(ValueError, "3 patterns, and at most 2 can be searched together"):
                service.together(service.patterns([["22"], *[[0]] * 3]).values())


if __name__ == "__main__":
    unittest.main()
