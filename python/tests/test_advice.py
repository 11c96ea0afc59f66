"""The next measurement, on devices whose answer is known by hand."""

import fractions
import tempfile
import unittest
from unittest import mock

from support import EXAMPLES, needs_program

from diag_client import Proposal, Refused, Service, Session, advice

CASE = {"1": 0, "2": 0, "3": 0, "6": 0, "7": 0, "22": 1, "23": 0}


def chain(length):
    """Buffers in a row from w0 to the last, whose wires are named as they are."""
    return "INPUT(w0)\n" + "".join(f"w{number} = BUFF(w{number - 1})\n" for number in range(1, length + 1))


class Counts(unittest.TestCase):
    """What is expected to be left, by the counts."""

    def test_expected(self):
        # Halves; all with one bit; all with both; of three one with 0, one with 1 and one with both: on average half of four.
        for at_hand, zero, one, left in ((8, 4, 4, 4), (8, 8, 0, 8), (8, 8, 8, 8), (3, 2, 2, 2), (4, 1, 3, fractions.Fraction(5, 2))):
            row = Proposal("w", at_hand, zero, one, True)
            self.assertEqual(row.expected_left, left)
            self.assertEqual(row.reduction, at_hand - left)

    def test_says_why(self):
        told = str(Proposal("w4", 8, 4, 4, True))
        self.assertEqual(told, "measure w4: of 8 diagnoses 4 go on with 0 and 4 with 1, so that 4.0 are expected to be left")
        self.assertIn("of the first 8 diagnoses", str(Proposal("w4", 8, 4, 4, False)))


@needs_program
class Chains(unittest.TestCase):
    """If the last of a row of buffers is wrong each may be faulty, and to measure in the middle halves them."""

    def setUp(self):
        file = self.enterContext(tempfile.NamedTemporaryFile(suffix=".bench", mode="w"))
        file.write(chain(8))
        file.flush()
        self.served = self.enterContext(Service(file.name))
        self.session = self.enterContext(self.served.session())
        self.session.see(w0=0, w8=1)

    def test_middle(self):
        # If w4 is 1, the fault is at or before it, and if it is 0, after it.
        self.assertEqual(self.session.best_probe(), Proposal("w4", 8, 4, 4, True))
        ranked = [(row.wire, row.with_zero, row.with_one) for row in self.session.rank_probes()]
        # The further from the middle the worse; of two alike the one that comes first by its name.
        self.assertEqual(
            ranked, [("w4", 4, 4), ("w3", 5, 3), ("w5", 3, 5), ("w2", 6, 2), ("w6", 2, 6), ("w1", 7, 1), ("w7", 1, 7)]
        )

    def test_three_are_enough(self):
        for faulty in range(1, 9):
            with self.session.copy() as session:
                measured = 0
                while (best := session.best_probe()) is not None:
                    session.see({best.wire: int(int(best.wire[1:]) >= faulty)})
                    measured += 1
                self.assertEqual(([str(diagnosis) for diagnosis in session.diagnoses()], measured), ([f"w{faulty}"], 3))

    def test_many_wires(self):
        """They are not asked one by one, each by two lists, and the answer is the same."""
        ranked = self.session.rank_probes()
        with mock.patch.object(advice, "MANY", 7), mock.patch.object(Session, "diagnoses_with", side_effect=AssertionError):
            self.assertEqual(self.session.rank_probes(), ranked)

    def test_among(self):
        self.assertEqual(self.session.best_probe(among=["w7", "w2", "w0"]).wire, "w2")
        self.assertEqual(self.session.rank_probes(among=["w0", "w8"]), [])
        self.assertIsNone(self.session.best_probe(among=[]))
        with self.assertRaises(Refused):
            self.session.best_probe(among=["nowhere"])

    def test_some_at_hand(self):
        # The first three by their names are w1, w2 and w3: each of w1 and w2 parts them two to one.
        best = self.session.best_probe(limit=3)
        self.assertEqual((best, best.complete), (Proposal("w1", 3, 2, 1, False), False))
        with self.assertRaises(ValueError):
            self.session.best_probe(limit=0)

    def test_session_stays(self):
        name = self.session.name
        self.assertEqual([self.session.ask("next"), self.session.ask("next")], [[f"{name} diag w1"], [f"{name} diag w2"]])
        self.session.best_probe()
        self.assertEqual((dict(self.session.seen), dict(self.session.held)), ({"w0": 0, "w8": 1}, {}))
        # The point, too, is where it was.
        self.assertEqual(self.session.ask("next"), [f"{name} diag w3"])

    def test_nothing_to_split(self):
        self.session.hold({f"w{number}": "ok" for number in range(2, 9)})
        self.assertIsNone(self.session.best_probe())
        self.session.unsee("w8")
        self.assertIsNone(self.session.best_probe())


@needs_program
class Others(unittest.TestCase):
    """Costs that differ, and wires that may be either."""

    def test_both_ways(self):
        """What is counted by wires and by diagnoses is the same."""
        pump = {"switch": 1, "ready": 1, "inlet": 0}
        for file, seen in (("c17.bench", CASE), ("c17.bench", {"22": 1, "1": 0, "3": 0}), ("pump.dev", pump)):
            with self.subTest(seen), Service(EXAMPLES / file) as served, served.session() as session:
                session.see(seen)
                at_hand, wires = list(session.diagnoses()), [row.wire for row in session.probes()]
                counts = advice.by_wire(session, at_hand, wires)
                self.assertEqual(advice.by_diagnosis(session, at_hand, wires), counts)

    def test_fan_in(self):
        # Two inverters feed an AND, whose output is wrong.
        with tempfile.NamedTemporaryFile(suffix=".bench", mode="w") as file:
            file.write("INPUT(a)\np = NOT(a)\nq = NOT(a)\ny = AND(p, q)\n")
            file.flush()
            with Service(file.name) as served, served.session() as session:
                session.see(a=1, y=1)
                self.assertEqual([str(row) for row in session.diagnoses()], ["y"])
                session.see(a=0, y=0)
                # It is p, q or y: with p seen as 0 it is p, and with 1 it is q or y. The same of q, whose name comes later.
                self.assertEqual(session.rank_probes(), [Proposal("p", 3, 1, 2, True), Proposal("q", 3, 1, 2, True)])

    def test_costs(self):
        # The relay costs less than all others, so it alone is at hand, and nothing parts one diagnosis.
        with Service(EXAMPLES / "pump.dev") as served, served.session() as session:
            session.see(switch=1, ready=1, inlet=0)
            self.assertIsNone(session.best_probe())
            # Where there is power two sensors, at 3 each, are cheaper than one pump, at 8.
            session.see(power=1, outlet=0)
            self.assertEqual([row.faulty for row in session.diagnoses()], [("at_inlet", "at_outlet")])


if __name__ == "__main__":
    unittest.main()
