"""Worked rows over the rules: states by rising cost, and the graph of the diagnoses. Each answer was found by hand.

    python3 -m unittest discover -s fuzz
"""

import pathlib
import sys
import unittest

sys.dont_write_bytecode = True

from rules.pieces import Bits, Graph, complaint
from rules.runs import TooLarge, asked_by, bits_for_node, wanted

# Wire b is a if part b is ok, and c is b if part c is.
BUFFERS = b"INPUT(a)\nb = BUFF(a)\nc = BUFF(b)\n"
ONE_ROW = b"type T p\nok 1\nbad 0\nend\nblock M p\npart u T p\nend\ntop M\n"
# Something was seen that no state explains.
NEVER = b"type T p\nok 1\nbad 1\nend\nblock M p\npart u T p\npart v T p\nend\ntop M\n"
# Either of two parts is faulty: a line for each node of a graph that says so.
EITHER = b"""nnf 10 9 2
L 1
L -1
L 2
L -2
A 1 1
A 1 3
A 2 4 2
A 2 5 0
O 0 2 6 7
A 1 8
"""


def served(text, script, *options, file="f.bench"):
    """What may be written, of one answer alone."""
    (pieces, status), = wanted(["serve", file, *options], {file: text}, b"\n".join(script))
    return pieces, status


class Rows(unittest.TestCase):
    def told(self, pieces, *lines):
        self.assertIsNone(complaint(pieces, b"".join(line + b"\n" for line in lines)))

    def test_levels(self):
        script = [b"open S", b"see S a=0", b"see S c=1", b"levels S 9", b"after S c", b"level S", b"after S", b"level S"]
        pieces, _ = served(BUFFERS, script, "--levels", "2")
        self.told(pieces, b"ready 2 3", b"S open", b"S ok", b"S ok", b"S level 1 b", b"S level 1 c", b"S level 2 b c", b"S end", b"S ok",
                  b"S level 2 b c", b"S ok", b"S level 1 b")
        pieces, _ = served(BUFFERS, script[:4], "--levels", "1")
        self.told(pieces, b"ready 2 3", b"S open", b"S ok", b"S ok", b"S level 1 b", b"S level 1 c", b"S end")

    def test_a_part_of_which_nothing_is_said_may_be_faulty(self):
        pieces, _ = served(ONE_ROW, [b"open S", b"levels S 3"], "--levels", "1", file="f.dev")
        self.told(pieces, b"ready 1 1", b"S open", b"S level 0", b"S level 1 u", b"S end")

    def test_one_point(self):
        script = [b"open S", b"see S a=0", b"see S c=1", b"next S", b"level S", b"level S", b"next S", b"hold S b=bad", b"level S"]
        pieces, _ = served(BUFFERS, script, "--levels", "9")
        # both diagnoses come after the state of both parts
        self.told(pieces, b"ready 2 3", b"S open", b"S ok", b"S ok", b"S diag b", b"S level 1 c", b"S level 2 b c", b"S diag b", b"S ok",
                  b"S level 1 b")

    def test_no_state(self):
        script = [b"open S", b"see S p=0", b"levels S 3", b"level S", b"leastnnf S"]
        pieces, _ = served(NEVER, script, "--levels", "9", "--least", file="f.dev")
        self.told(pieces, b"ready 2 1", b"S open", b"S ok", b"S inconsistent", b"S inconsistent", b"S leastnnf", b"nnf 1 0 2", b"O 0 0")

    def test_refusals(self):
        pieces, _ = served(BUFFERS, [b"level T", b"leastnnf T", b"open S", b"level S", b"levels S 0", b"levels S 1", b"leastnnf S"])
        self.told(pieces, b"ready 2 3", b"T error 6 no session", b"T error 6 no session", b"S open", b"S error 11 no levels",
                  b"error 4 bad value", b"S error 11 no levels", b"S error 12 no least")
        for options in (["--levels"], ["--levels", "4096001"], ["--levels", "01"], ["--least", "--least"]):
            self.assertEqual(([b"error: usage\n"], 2), served(BUFFERS, [], *options))
        self.assertEqual(([b"error: usage\n"], 2), wanted(["plan", "f.bench", "--least"], {"f.bench": BUFFERS}, b"")[0])

    def test_search(self):
        script = [b"open S", b"see S a=0", b"see S c=1", b"min S", b"dnnf S", b"dnnf T", b"leastnnf S", b"levels S 2"]
        told = [b"S open", b"S ok", b"S ok", b"S min 1 b", b"S error 13 no graph", b"T error 6 no session", b"S error 12 no least"]
        pieces, _ = served(BUFFERS, script, "--search", "--levels", "2", "--sessions", "1")
        self.told(pieces, b"ready 2 3", *told, b"S level 1 b", b"S level 1 c")
        usage = [b"error: usage\n"], 2
        for options in (["--least"], ["--narrow"], ["--search"], ["--budget", "9"], ["--frames", "0"]):
            self.assertEqual(usage, served(BUFFERS, [], "--search", *options))
        for form in ("plan", "compile"):
            self.assertEqual(usage, wanted([form, "f.bench", "--search"], {"f.bench": BUFFERS}, b"")[0])
        # over two times, of a buffer and a flip-flop
        pieces, _ = served(b"INPUT(a)\nb = DFF(a)\n", [b"open S", b"see S a@0001=0", b"see S b@0002=1", b"min S", b"dnnf S"], "--search", "--frames", "2")
        self.told(pieces, b"ready 1 4", *told[:3], b"S min 1 b", b"S error 13 no graph")

    def test_bits(self):
        # two buffers have the sum 12 and five variables: at most 48 nodes, each with 2 bits and 32 more for each 32 costs
        pieces, status = served(BUFFERS, [], "--levels", "4096000")
        self.assertEqual(([b"ready 2 3\n"], 0), (pieces, status))
        # an adder of two bits has the sum 423, 25 variables and 10 parts: at most 1,321 nodes
        text = (pathlib.Path(__file__).resolve().parent.parent / "examples/adder_by_bit.bench").read_bytes()
        line = b"error: bits 2147515354 above 2147483648\n"
        self.assertEqual(([line], 1), served(text, [], "--levels", "1625632", "--least"))
        self.assertRaises(TooLarge, served, text, [], "--levels", "1625631", "--least")
        # a search has no nodes
        self.assertRaises(TooLarge, served, text, [], "--levels", "1625632", "--search")
        # the budget comes first
        self.assertEqual(([b"error: sum above 422\n"], 3), served(text, [], "--levels", "4096000", "--budget", "422"))
        # by another order the sum is no greater
        bits = Bits(10 + 32 * 50802, 25, 423)
        self.assertIsNone(complaint([bits], line))
        self.assertIn("no bits", complaint([bits], b"error: bits 2147515355 above 2147483648\n"))
        self.assertIn("no bits", complaint([bits], b"error: bits %d above 2147483648\n" % (1324 * bits.each)))

    def test_bits_of_a_field(self):
        # 4,095 gates over 20,476 variables, of the sum 159,704
        asked = asked_by(["serve", "f.bench", "--levels", "32", "--least"])
        nodes = 3 * 159704 + 2 * 20476 + 2
        self.assertEqual([2162954494, 2163474560], [nodes * each for each in bits_for_node(asked, 4095)])

    def test_least(self):
        graph = Graph(2, 2, 0b0110, smooth=True)
        self.assertIsNone(complaint([graph], EITHER))
        for wrong, why in (
                (b"nnf 4 3 2\nL -1\nL -2\nO 0 2 0 1\nA 1 2\n", "differs"),
                (b"nnf 7 6 2\nL 1\nL -1\nL 2\nL -2\nA 2 1 2\nA 2 0 3\nO 0 2 4 5\n", None),
                (b"nnf 8 7 2\nL 1\nL -1\nL 2\nL -2\nA 2 1 2\nA 2 0 3\nO 0 2 4 5\nA 2 6 6\n", "refused"),
                (EITHER.replace(b"nnf 10 9", b"nnf 10 8"), "refused"),
                (EITHER.replace(b"A 1 8", b"A  1 8"), "not the text"),
                (b"nnf 9 9 2\nL 1\nL -1\nL 2\nL -2\nO 0 0\nA 2 1 2\nA 2 0 3\nO 0 3 4 5 6\nA 2 7 7\n", "refused"),
                (b"nnf 8 7 2\nL 1\nL -1\nL 2\nL -2\nO 0 0\nA 2 1 2\nA 2 0 3\nO 0 3 4 5 6\n", "not smooth")):
            with self.subTest(text=wrong):
                told = complaint([graph], wrong)
                self.assertEqual(why is None, told is None, told)
                self.assertIn(why or "", told or "")
        self.assertIn("no literal of [2]", complaint([Graph(2, 2, 0b1010, smooth=True)], b"nnf 1 0 2\nL 1\n"))


if __name__ == "__main__":
    unittest.main()
