"""The drawing of the page at the bench: layers, frames, flip-flops."""

import itertools
import pathlib
import random
import re
import tempfile
import time
import unittest

from support import EXAMPLES

from diag_client.bench import drawing, layout


def full_adders(count):
    """A netlist of so many full adders, of five gates each."""
    lines = ["INPUT(c0)"]
    for i in range(count):
        lines += [f"INPUT(a{i})", f"INPUT(b{i})", f"OUTPUT(s{i})", f"h{i} = XOR(a{i}, b{i})", f"s{i} = XOR(h{i}, c{i})"]
        lines += [f"g{i} = AND(a{i}, b{i})", f"p{i} = AND(h{i}, c{i})", f"c{i + 1} = OR(g{i}, p{i})"]
    return "\n".join(lines)


def scene(text, suffix=".bench"):
    """The scene of a device that is given as a text."""
    with tempfile.TemporaryDirectory() as folder:
        file = pathlib.Path(folder) / f"device{suffix}"
        file.write_text(text)
        return drawing.Scene(file)


def pieces(path):
    """The straight pieces of an SVG path of absolute moves and level and upright lines."""
    at = (0.0, 0.0)
    for word, first, second in re.findall(r"([MHVh])(-?[0-9.]+)(?: (-?[0-9.]+))?", path):
        x, y = at
        to = {"M": (float(first), float(second or 0)), "H": (float(first), y), "V": (x, float(first)), "h": (x + float(first), y)}[word]
        if word != "M":
            yield (min(x, to[0]), min(y, to[1]), max(x, to[0]), max(y, to[1]))
        at = to


def joined(drawn):
    """Pieces of two wires that look like one line: level or upright ones that are side by side and next to each other."""
    rows = [(line["wire"], piece) for line in drawn["lines"] for piece in pieces(line["path"])]
    level = sorted((top, left, right, wire) for wire, (left, top, right, low) in rows if top == low and left < right)
    upright = sorted((left, top, low, wire) for wire, (left, top, right, low) in rows if left == right and top < low)
    found = []
    for lines in (level, upright):
        for place, (at, begin, end, wire) in enumerate(lines):
            for other in itertools.takewhile(lambda row: row[0] - at < layout.NEAR, lines[place + 1 :]):
                if other[3] != wire and min(end, other[2]) > max(begin, other[1]):
                    found.append((wire, other[3], at))
    return found


def tangle(chance):
    """A netlist of gates that read any wires before them."""
    wires = [f"i{place}" for place in range(chance.randint(2, 12))]
    lines = [f"INPUT({wire})" for wire in wires]
    for place in range(chance.randint(10, 80)):
        ins = [chance.choice(wires[-chance.randint(3, 30):]) for _ in range(chance.randint(2, 4))]
        lines.append(f"g{place} = NAND({', '.join(ins)})")
        wires.append(f"g{place}")
    return "\n".join(lines + [f"OUTPUT({wire})" for wire in wires[-4:]])


class Placed(unittest.TestCase):
    """What holds of each layout."""

    def check(self, drawn):
        for one, other in itertools.combinations(drawn["boxes"], 2):
            apart = one["x"] + one["w"] <= other["x"] or other["x"] + other["w"] <= one["x"]
            apart = apart or one["y"] + one["h"] <= other["y"] or other["y"] + other["h"] <= one["y"]
            self.assertTrue(apart, (one["name"], other["name"]))
        names = {box["name"] for box in drawn["boxes"]}
        lines = {line["wire"]: list(pieces(line["path"])) for line in drawn["lines"]}
        for box in drawn["boxes"]:
            for port in box["ins"]:
                ends = [piece[2:] for piece in lines.get(port["wire"], [])]
                is_apart = any(end["wire"] == port["wire"] and end["x"] == box["x"] for end in drawn["apart"])
                self.assertTrue((box["x"], box["y"] + port["y"]) in ends or is_apart, (box["name"], port))
        return names, lines

    def test_examples(self):
        names = ("c17.bench", "adder.dev", "pump.dev", "ttl_74283.bench", "ripple_64_blocks.dev", "latch.bench", "frames/counter_4.bench")
        for name in names:
            with self.subTest(name):
                found = drawing.Scene(EXAMPLES / name)
                for is_open in ((), found.device.blocks):
                    self.check(found.draw(is_open))

    def test_inputs_left_outputs_right(self):
        drawn = drawing.Scene(EXAMPLES / "c17.bench").draw(())
        left = [pin["wire"] for pin in drawn["pins"] if pin["side"] == "left" and pin["x"] == 0]
        right = [pin["wire"] for pin in drawn["pins"] if pin["side"] == "right" and pin["x"] == drawn["width"]]
        self.assertEqual((sorted(left), sorted(right)), (["1", "2", "3", "6", "7"], ["22", "23"]))
        x = {box["name"]: box["x"] for box in drawn["boxes"]}
        self.assertTrue(x["10"] == x["11"] < x["16"] == x["19"] < x["22"] == x["23"])

    def test_every_wire_has_a_mark(self):
        for name in ("c17.bench", "adder.dev", "frames/counter_4.bench"):
            found = drawing.Scene(EXAMPLES / name)
            drawn = found.draw(found.device.blocks)
            marked = {line["wire"] for line in drawn["lines"] if line["mark"]} | {pin["wire"] for pin in drawn["pins"]}
            self.assertEqual(marked, set(found.device.wires))

    def test_wires_do_not_lie_on_each_other(self):
        for name in ("c17.bench", "ttl_74283.bench", "ttl_74182.bench", "ripple_64.bench", "adder_by_bit.bench"):
            drawn = drawing.Scene(EXAMPLES / name).draw(())
            self.check(drawn)
            self.assertEqual(joined(drawn), [], name)

    def test_wires_of_tangled_netlists_do_not_lie_on_each_other(self):
        for seed in range(20):
            drawn = scene(tangle(random.Random(seed))).draw(())
            self.check(drawn)
            self.assertEqual(joined(drawn), [], seed)

    def test_bends_that_wait_for_each_other(self):
        # Each begins where the other one ends, so neither can be left of the other.
        bends = [layout._Bend("a", 10.0), layout._Bend("b", 60.0)]
        bends[0].reach(60.0)
        bends[1].reach(10.0)
        tracks = layout._Tracks(bends)
        split, whole = sorted(bends, key=lambda bend: bend.rest is None)
        self.assertIsNone(whole.rest)
        self.assertLess(split.track, whole.track)
        self.assertLess(whole.track, split.rest.track)
        self.assertEqual((split.rest.ends, tracks.count), ([whole.start], 3))

    def test_crossings(self):
        # Two pairs that cross in the order of their names.
        boxes = [layout.Box(name, [name.lower()], [f"{name}!"], 50, 40, [20], [20]) for name in "AB"]
        boxes += [layout.Box(f"{name}2", [f"{name}!"], [], 50, 40, [20], []) for name in "BA"]
        laid = layout.lay(boxes, ["b", "a"], [])
        self.assertEqual(laid.at["A"][1] < laid.at["B"][1], laid.at["A2"][1] < laid.at["B2"][1])
        self.assertEqual(laid.left["a"][1] < laid.left["b"][1], laid.at["A"][1] < laid.at["B"][1])

    def test_300_gates_in_seconds(self):
        found = scene(full_adders(60))
        begin = time.process_time()
        drawn = found.draw(())
        # On an idle machine it is a fraction of one.
        self.assertLess(time.process_time() - begin, 10.0)
        self.assertEqual(len(drawn["boxes"]), 300)
        # In a device this deep the pins are beside what they are joined to.
        self.assertGreater(max(pin["x"] for pin in drawn["pins"] if pin["side"] == "left"), drawn["width"] / 2)
        self.assertLess(drawn["height"], 3000)


class Directions(unittest.TestCase):
    """Who drives what, in designs and with flip-flops."""

    def test_types_by_their_rows(self):
        found = drawing.Scene(EXAMPLES / "pump.dev")
        self.assertEqual(found.inputs, ["ready", "switch"])
        self.assertEqual(found.outputs, ["inlet", "outlet", "pressure"])
        self.assertEqual(found.roles["pump"], drawing.Roles(("power",), ("flow",)))

    def test_two_outputs_of_a_type(self):
        rows = ["00000", "00110", "01010", "01101", "10010", "10101", "11001", "11111"]
        kind = "type FULL a b c s o\n" + "".join(f"ok {row}\n" for row in rows) + "end\n"
        found = scene(f"{kind}block T a b c s o\npart u FULL a b c s o\nend\ntop T", ".dev")
        self.assertEqual(found.roles["u"], drawing.Roles(("a", "b", "c"), ("s", "o")))

    def test_one_wire_at_two_ports(self):
        kind = "type T p q r\nok 000\nok 111\nok 010\nok 100\nend\n"
        drawn = scene(f"{kind}block B a y\npart x T a a y\nend\ntop B", ".dev").draw(())
        [box] = drawn["boxes"]
        self.assertEqual([(port["wire"], port["port"]) for port in box["ins"] + box["outs"]], [("a", "p"), ("a", "q"), ("y", "r")])
        # A gate has no names at its ports.
        gate = scene("INPUT(a)\nOUTPUT(y)\ny = AND(a, a)").draw(())["boxes"][0]
        self.assertEqual([port["port"] for port in gate["ins"] + gate["outs"]], ["", "", ""])

    def test_a_bus_has_one_driver(self):
        found = scene("block T a b y\npart u NOT a y\npart v NOT b y\nend\ntop T", ".dev")
        self.assertEqual(found.roles["v"], drawing.Roles(("b", "y"), ()))
        found.draw(())

    def test_flip_flops_cut_cycles(self):
        found = drawing.Scene(EXAMPLES / "frames/toggle.bench")
        drawn = found.draw(())
        self.assertEqual([pin["wire"] for pin in drawn["pins"] if pin["side"] == "state"], ["q"])
        # A chain of flip-flops has no cycle, and stays a chain.
        chain = scene("INPUT(d)\nOUTPUT(q2)\nq1 = DFF(d)\nq2 = DFF(q1)").draw(())
        self.assertEqual([pin["side"] for pin in chain["pins"]], ["left", "right"])

    def test_a_part_of_the_drawing(self):
        found = drawing.Scene(EXAMPLES / "c17.bench")
        self.assertEqual(set(found.wiring.cone(None, ["22"])), {"10", "11", "16", "22"})
        self.assertEqual(set(found.wiring.cone(["11"], ["22"])), {"11", "16", "22"})
        drawn = found.draw((), {"11", "16", "22"})
        self.assertEqual({box["name"] for box in drawn["boxes"]}, {"11", "16", "22"})
        # What comes from a part that is left out can be measured: 10 has a pin. So has 19 if nothing is drawn that reads it.
        sides = {pin["wire"]: pin["side"] for pin in drawn["pins"]}
        self.assertEqual(sides, {"10": "left", "2": "left", "3": "left", "6": "left", "22": "right"})
        self.assertIn(("19", "right"), {(pin["wire"], pin["side"]) for pin in found.draw((), {"19"})["pins"]})

    def test_blocks_open_and_close(self):
        found = drawing.Scene(EXAMPLES / "adder.dev")
        closed = found.draw(())
        first = next(box for box in closed["boxes"] if box["name"] == "first")
        self.assertEqual((first["is_block"], first["parts"]), (True, ["first.g", "first.x"]))
        opened = found.draw({"first"})
        frame = opened["blocks"][0]
        self.assertEqual(frame["path"], "first")
        for box in opened["boxes"]:
            inside = frame["x"] <= box["x"] and box["x"] + box["w"] <= frame["x"] + frame["w"]
            inside = inside and frame["y"] <= box["y"] and box["y"] + box["h"] <= frame["y"] + frame["h"]
            self.assertEqual(inside, box["name"].startswith("first."), box["name"])

    def test_natural(self):
        self.assertEqual(sorted(["a10", "a9", "10", "9", "b"], key=drawing.natural), ["9", "10", "a9", "a10", "b"])


if __name__ == "__main__":
    unittest.main()
