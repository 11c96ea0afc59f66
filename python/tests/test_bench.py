"""Records and boards of the page at the bench."""

import os
import tempfile
import unittest
from unittest import mock

from support import C17, EXAMPLES, SOON, kill, needs_program

from diag_client import Board, Case
from diag_client.bench import boards, records
from diag_client.bench.records import Bad, Record
from diag_client.bench.saved import Shelf

KNOWN = records.Known({"a", "b", "pattern2"}, {"g"}, {"a", "b"})
ZEROS = "1=0 2=0 3=0 6=0 7=0"


class Folder(unittest.TestCase):
    """Where boards and the tokens of the addresses are kept."""

    def setUp(self):
        place = tempfile.TemporaryDirectory()
        self.addCleanup(place.cleanup)
        self.enterContext(mock.patch.dict(os.environ, {"DIAG_BOARDS": place.name}))

    def shelf(self):
        shelf = Shelf(C17)
        self.addCleanup(shelf.close)
        return shelf

    def test_it_is_the_users_alone(self):
        shelf = self.shelf()
        shelf.close()
        shelf.folder.chmod(0o777)
        self.assertEqual(self.shelf().folder.stat().st_mode & 0o777, 0o700)

    def test_a_folder_of_another_user(self):
        """It is not used: its owner could choose the token."""
        shelf = self.shelf()
        shelf.keep("addresses", '{"token": "chosen"}')
        shelf.close()
        with mock.patch("pathlib.Path.chmod", side_effect=PermissionError(1, "Operation not permitted")):
            other = self.shelf()
        self.assertEqual((other.addresses(), other.earlier(), other.text("a" * 16)), ({}, [], None))
        other.keep("addresses", "{}")
        self.assertEqual(other.why, "boards are not saved: [Errno 1] Operation not permitted")
        self.assertEqual(shelf.addresses(), {"token": "chosen"})


class Texts(unittest.TestCase):
    """What is pasted and loaded."""

    def refused(self, text, read=records.read_readings):
        with self.assertRaises(Bad) as caught:
            read(text, KNOWN)
        return str(caught.exception)

    def test_pairs(self):
        self.assertEqual(records.read_readings(" a=0, b=1\n", KNOWN), [(None, {"a": 0, "b": 1})])
        self.assertEqual(records.read_readings("a=x b=", KNOWN), [(None, {"a": None, "b": None})])
        self.assertIn("c", self.refused("a=0 c=1"))
        self.assertIn("a=2", self.refused("a=2"))
        self.assertIn("'b'", self.refused("a=1 b"))
        self.assertIn("a=0 b=1", self.refused("hello"))
        self.assertIn(f"no wire {'c' * 60}...: names", self.refused(f"{'c' * 9999}=1"))
        self.assertIn("a=0 b=1", self.refused(""))

    def test_tables(self):
        self.assertEqual(records.read_readings("a,b\n0,1\n,0\n", KNOWN), [("", {"a": 0, "b": 1}), ("", {"b": 0})])
        self.assertEqual(records.read_readings("pattern;a\r\nlow;0\r\nhigh;1", KNOWN), [("low", {"a": 0}), ("high", {"a": 1})])
        self.assertIn("row 3", self.refused("a,b\n0,1\n0"))
        self.assertIn("no wire 'c'", self.refused("a,c\n0,1"))
        self.assertIn("row 2", self.refused("a,b\nmaybe,1"))

    def test_names_have_times(self):
        """The drawing shows a wire without its time."""
        known = records.Known({"a@0001", "a@0002"}, {"g"}, {"a"})
        self.assertEqual(records.read_readings("a@0002=1", known), [(None, {"a@0002": 1})])
        with self.assertRaisesRegex(Bad, "a has a reading for each time: write a@0001 for the first"):
            records.read_readings("a=1", known)
        for text in ("a@1=1", "a@0003=1"):
            with self.assertRaisesRegex(Bad, f"{text[:-2]} is at no time of these: the first is a@0001"):
                records.read_readings(text, known)
        with self.assertRaisesRegex(Bad, "no wire b@1: names"):
            records.read_readings("b@1=1", known)

    def test_rows_are_patterns(self):
        record = records.take_readings(Record(), records.read_readings("a,b\n0,1\n1,0\n", KNOWN))
        self.assertEqual(record.board, Board({"P1": Case({"a": 0, "b": 1}), "P2": Case({"a": 1, "b": 0})}))
        record = records.take_readings(record, records.read_readings("pattern,a\nP1,1\nnew,0", KNOWN))
        self.assertEqual([(name, case.seen.get("a")) for name, case in record.board.patterns.items()], [("P1", 1), ("P2", 1), ("new", 0)])
        record = records.take_readings(Record().with_held({"g": "ok"}), records.read_readings("pattern,a\nlow,1\n", KNOWN))
        self.assertEqual(record.board, Board({"low": Case({"a": 1}, {"g": "ok"})}))

    def test_a_saved_case_is_loaded(self):
        record = Record().with_readings({"a": 0, "b": 1}).with_pattern("low").with_readings({"a": 1}).with_held({"g": "bad"})
        record = boards.dataclasses.replace(record, unreachable=frozenset("b"), replaced="U7\nU8", now=0)
        self.assertEqual(records.read_script("\n".join(record.script("title")), KNOWN), record)

    def test_a_case_of_the_terminal_is_loaded(self):
        record = records.read_script("see S a=0\r\nhold S g=ok\nmin S\n", KNOWN)
        self.assertEqual(record.board, Board({"S": Case({"a": 0}, {"g": "ok"})}))

    def test_scripts_are_refused_by_their_lines(self):
        for text, wanted in (
            ("open P1\nsee P1 c=0", "line 2: no wire c"),
            ("open P1\nsee P1 a=2", "line 2: a=2"),
            ("open P1\nhold P1 h=ok", "line 2: no part h"),
            ("open P1\nhold P1 g=fine", "line 2: g=fine"),
            ("open P1\nsee P1 a=0 b=1", "line 2: `see P1 a=0 b=1` is not understood"),
            ("see a=0", "such as `see S a=0`"),
            ("open P 1", "line 1: `open P 1` is not understood"),
            ("# cannot reach c", "line 1: no wire c"),
            ("open (b)", "no name of a pattern"),
            ("", "no reading in it"),
        ):
            self.assertIn(wanted, self.refused(text, records.read_script), text)

    def test_patterns(self):
        record = Record().with_pattern().with_pattern("x")
        self.assertEqual(record.names, ["P1", "P2", "x"])
        self.assertEqual(record.with_pattern("t:01<b>").names[-1], "t:01<b>")
        self.assertEqual(record.without_pattern("P2").now, 1)
        self.assertEqual(Record().without_pattern("P1"), Record())
        for name in ("x", "a b", "a,b", "#", "é", "y" * 65):
            with self.subTest(name), self.assertRaises(Bad):
                record.with_pattern(name)


@needs_program
class OnC17(unittest.TestCase):
    """Boards over the smallest netlist."""

    @classmethod
    def setUpClass(cls):
        cls.bench = boards.Bench(C17, levels=2)
        cls.addClassCleanup(cls.bench.close)

    def setUp(self):
        self.board = self.bench.open_board()
        self.enterContext(mock.patch.object(boards, "LONGEST", SOON))

    def do(self, act, **more):
        return self.board.do({"act": act, **more})

    def enter(self):
        return self.do("readings", text=f"{ZEROS} 22=1 23=0")

    def parts(self, state):
        return [row["parts"] for row in state["candidates"]]

    def test_a_click_turns_a_reading(self):
        bits = [dict(self.do("turn", wire="22")["patterns"][0]["seen"]).get("22") for _ in range(3)]
        self.assertEqual(bits, [0, 1, None])

    def test_two_tabs_on_one_board(self):
        """What goes by what a tab shows is refused if another tab has changed the board since. A tab's own clicks may follow quickly."""
        for bit in (0, 1):
            state = self.do("turn", wire="22", tab="one", version=0)
            self.assertEqual(state["patterns"][0]["seen"], [("22", bit)])
        for act, more in (("turn", {"wire": "22"}), ("see", {"wire": "1", "bit": 0}), ("pattern", {"how": "new"}), ("undo", {})):
            with self.subTest(act), self.assertRaisesRegex(Bad, "another tab"):
                self.do(act, tab="two", version=1, **more)
        self.assertEqual(self.board.state()["patterns"][0]["seen"], [("22", 1)])
        self.assertEqual(dict(self.do("turn", wire="1", tab="two", version=state["version"])["patterns"][0]["seen"]), {"1": 0, "22": 1})
        self.do("show", shown=3, tab="one", version=0)

    def test_the_fault_is_found(self):
        state = self.enter()
        self.assertEqual((state["cost"], self.parts(state)), (1, [("10",), ("22",)]))
        self.assertEqual(state["blame"], [("10", "sometimes"), ("22", "sometimes")])
        self.assertEqual(state["patterns"][0]["against"], ["22"])
        self.assertEqual(dict(state["patterns"][0]["expected"])["10"], 1)
        self.assertIsNone(state["advice"])
        [advice] = self.do("advise")["advice"]
        self.assertEqual((advice["wire"], advice["zero"], advice["one"], advice["complete"]), ("10", 1, 1, True))
        state = self.do("see", wire="10", bit=0)
        self.assertEqual(state["blame"], [("10", "always")])

    def test_who_watches_sees_the_advice(self):
        before = self.enter()
        advised = self.do("advise")
        self.assertGreater(advised["version"], before["version"])
        self.assertEqual((self.board.state()["advice"], self.do("advise")["version"]), (advised["advice"], advised["version"]))

    def test_what_cannot_be_reached_is_not_advised(self):
        self.enter()
        self.do("reach", wire="10", can=False)
        self.assertEqual([row["wire"] for row in self.do("advise")["advice"] if row["wire"] == "10"], [])
        self.assertEqual(self.do("reach", wire="10", can=True)["unreachable"], [])

    def test_of_many_wires_those_next_to_suspects_are_advised(self):
        self.enter()
        with mock.patch.object(boards, "MOST_RANKED", 1):
            self.assertEqual([row["wire"] for row in self.do("advise")["advice"]], ["10"])

    def test_one_explanation_needs_no_advice(self):
        self.enter()
        self.do("hold", part="22", mode="ok")
        with mock.patch.object(boards.Session, "rank_probes", side_effect=AssertionError):
            self.assertEqual(self.do("advise")["advice"], [])

    def test_tested_parts(self):
        self.enter()
        self.assertEqual(self.parts(self.do("hold", part="10", mode="ok")), [("22",)])
        self.assertEqual(self.do("hold", part="22", mode="ok")["cost"], 2)
        self.assertEqual(self.do("hold", part="10", mode=None)["held"], [("22", "ok")])

    def test_next_best(self):
        self.enter()
        state = self.do("show", levels=True, shown=3)
        self.assertEqual([(row["cost"], row["parts"]) for row in state["candidates"]][:2], [(1, ("10",)), (1, ("22",))])
        self.assertEqual(state["candidates"][2]["cost"], 2)
        self.assertFalse(state["complete"])

    def test_the_cone_lies_between_suspects_and_wrong_readings(self):
        self.assertIsNone(self.board.cone())
        self.enter()
        self.assertEqual(self.board.cone(), {"10", "22"})
        # If nothing explains the readings it is all that leads to them.
        for part in ("10", "22", "16", "11", "19", "23"):
            self.do("hold", part=part, mode="ok")
        self.assertEqual(self.board.cone(), {"10", "11", "16", "22"})

    def test_two_patterns_together(self):
        self.enter()
        self.do("pattern", how="new")
        # Here 10 should be 0, so a 1 at 22 is what both suspects would do; then 22 alone fails with 10 at its bit.
        state = self.do("readings", text="1=1 2=0 3=1 6=0 7=0 22=0 23=0")
        self.assertEqual(self.parts(state), [("10",), ("22",)])
        self.assertEqual([row["name"] for row in state["patterns"]], ["P1", "P2"])
        advice = self.do("advise")["advice"]
        self.assertTrue(advice and all(row["pattern"] in ("P1", "P2") for row in advice))
        state = self.do("see", wire="10", bit=0)
        self.assertEqual(self.parts(state), [("22",)])

    def test_undo_and_redo(self):
        before = self.enter()
        after = self.do("hold", part="10", mode="ok")
        self.assertEqual(self.do("undo")["candidates"], before["candidates"])
        self.assertEqual(self.do("redo")["candidates"], after["candidates"])
        self.do("undo")
        self.do("see", wire="10", bit=0)
        self.assertEqual(self.do("redo")["redo"], 0)
        for _ in range(9):
            state = self.do("undo")
        self.assertEqual((state["undo"], state["patterns"][0]["seen"]), (0, []))

    def test_a_board_has_a_quota(self):
        self.enter()
        before = self.board.state()
        for text in (f"{ZEROS} 22=1 23=0 10=1 11=1", "open A\nsee A 1=0\nopen B\nhold B 10=ok\nhold B 11=ok\nhold B 16=ok"):
            with mock.patch.object(boards, "MOST_LINES", 9), self.assertRaisesRegex(Bad, "at most 9"):
                self.do("load" if "open" in text else "readings", text=text)
        self.assertEqual(self.board.state(), before)
        record = self.board.record.with_pattern().with_readings({"1": 0}).with_held({"10": "ok"})
        record = boards.dataclasses.replace(record, unreachable=frozenset({"11"}), replaced="U1\nU2")
        self.assertEqual(record.line_count, len(record.script("title")))

    def test_undo_has_a_quota(self):
        with mock.patch.object(boards, "MOST_KEPT", 10):
            self.enter()
            self.do("clear")
            # The seven readings are there once, in the case before; now they are twice.
            self.assertEqual(self.do("readings", text=f"{ZEROS} 22=1 23=0")["undo"], 3)
            self.assertEqual(self.do("clear")["undo"], 2)
        with mock.patch.object(boards, "MOST_UNDO", 5):
            for _ in range(7):
                self.do("turn", wire="22")
            self.assertEqual(self.board.state()["undo"], 5)

    def test_boards_have_a_quota(self):
        self.enter()
        with mock.patch.object(boards, "MOST_BOARDS", 1), mock.patch.dict(self.bench.boards, {self.board.id: self.board}, clear=True):
            with self.assertRaisesRegex(Bad, "1 boards with cases"):
                self.bench.open_board()

    def test_save_and_load(self):
        self.enter()
        self.do("hold", part="16", mode="ok")
        self.do("replaced", text="U1")
        log = self.do("pattern", how="new", name="second")["log"]
        other = self.bench.open_board()
        self.assertEqual(other.do({"act": "load", "text": "\n".join(log)})["log"], log)
        with self.assertRaises(Bad):
            other.do({"act": "load", "text": "open P1\nsee P1 nowhere=1"})
        self.assertEqual(other.state()["log"], log)

    def test_nothing_explains(self):
        self.enter()
        for part in ("10", "22", "16", "11", "19", "23"):
            state = self.do("hold", part=part, mode="ok")
        self.assertEqual((state["cost"], self.parts(state), self.do("advise")["advice"]), (None, [], []))

    def test_boards_are_apart(self):
        self.enter()
        other = self.bench.open_board()
        self.assertEqual(other.state()["patterns"][0]["seen"], [])
        self.assertNotEqual(other.id, self.board.id)
        self.assertIs(self.bench.board(other.watch_id, watching=True), other)
        for name, watching in ((other.watch_id, False), (other.id, True), ("", False)):
            with self.assertRaises(boards.Gone):
                self.bench.board(name, watching)

    def test_the_program_is_started_again(self):
        before = self.enter()
        kill(self.bench.service)
        after = self.do("hold", part="16", mode="ok")
        self.assertEqual(after["candidates"], before["candidates"])
        self.assertEqual(after["restarts"], before["restarts"] + 1)

    def test_sessions_are_given_back(self):
        with mock.patch.object(boards, "SESSIONS", 131):
            self.enter()
            others = [self.bench.open_board() for _ in range(4)]
            for other in others:
                other.state()
            self.assertEqual(self.board.session_count, 0)
            self.assertLessEqual(sum(board.session_count for board in self.bench.boards.values()), 4)
            self.assertEqual(self.parts(self.do("hold", part="16", mode="ok")), [("10",), ("22",)])

    def test_empty_boards_go(self):
        with mock.patch.object(boards, "MOST_BOARDS", len(self.bench.boards)):
            self.bench.open_board()
            self.assertLessEqual(len(self.bench.boards), boards.MOST_BOARDS)

    def test_boards_are_saved(self):
        self.enter()
        self.do("replaced", text="U7")
        again = boards.Bench(C17)
        self.addCleanup(again.close)
        # A second bench of the device has a folder of its own, and one that begins after the end of the first has that of the first.
        self.assertNotEqual(again.shelf.folder, self.bench.shelf.folder)
        with self.assertRaises(boards.Gone):
            again.board(self.board.id)
        again.shelf.folder = self.bench.shelf.folder
        self.assertEqual(again.board(self.board.id).record, self.board.record)
        for name in ("../../etc/passwd", "..", "a" * 30):
            with self.assertRaises(boards.Gone):
                again.board(name)
        self.assertEqual(self.bench.shelf.place(self.board.id).stat().st_mode & 0o77, 0)

    def test_it_says_if_nothing_can_be_saved(self):
        with mock.patch("diag_client.bench.saved.write_whole", side_effect=OSError(28, "No space left on device")):
            self.enter()
            self.assertIn("not saved: [Errno 28]", self.bench.shelf.why)
        self.do("undo")
        self.assertEqual(self.bench.shelf.why, "")

    def test_refused(self):
        before = self.enter()
        del before["said"]
        for act in (
            {}, {"act": None}, {"act": "__class__"}, {"act": "see"}, {"act": "see", "wire": "99", "bit": 0},
            {"act": "see", "wire": 1, "bit": 7},
            {"act": "see", "wire": "1", "bit": "0\nclose s1"}, {"act": "turn", "wire": "1=0\nopen X"}, {"act": "turn", "wire": ["1"]},
            {"act": "hold", "part": "10", "mode": "fine"}, {"act": "hold", "part": "nothing", "mode": "ok"},
            {"act": "show", "shown": 10**9}, {"act": "show", "shown": "many"}, {"act": "pattern", "how": "choose", "name": "P9"},
            {"act": "pattern", "how": "new", "name": "a b"}, {"act": "reach", "wire": "nowhere"},
            {"act": "replaced", "text": "x" * 2001}, {"act": "replaced"}, {"act": "load", "text": "\ud800"},
        ):  # fmt: skip
            with self.subTest(act), self.assertRaises(Bad):
                self.board.do(act)
        self.assertEqual(self.board.state() | {"version": 0}, before | {"version": 0})


@needs_program
class OverTimes(unittest.TestCase):
    """A netlist with flip-flops."""

    def test_names_have_times(self):
        bench = boards.Bench(EXAMPLES / "frames/toggle.bench", frames=3)
        self.addCleanup(bench.close)
        board = bench.open_board()
        with self.assertRaises(Bad):
            board.do({"act": "turn", "wire": "q"})
        board.do({"act": "see", "wire": "q@0001", "bit": 0})
        state = board.do({"act": "see", "wire": "q@0003", "bit": 1})
        self.assertEqual(state["patterns"][0]["against"], ["q@0003"])
        self.assertEqual(state["cost"], 1)
        advice = board.do({"act": "advise"})["advice"]
        state = board.do({"act": "reach", "wire": advice[0]["wire"], "can": False})
        self.assertEqual(state["unreachable"], [advice[0]["wire"].split("@")[0]])


if __name__ == "__main__":
    unittest.main()
