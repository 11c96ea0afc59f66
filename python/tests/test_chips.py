"""The chips in diag_client/convert/chips: what they do by the rules in chip_rules.py and chip_rules_stored.py, and their pins by KiCad."""

import collections
import functools
import itertools
import operator
import random
import re
import unittest

import chip_rules
import chip_rules_stored
import kicad_symbols
from support import TOP

from diag_client.convert import chips
from diag_client.convert.chips import Direction, UnusableChip, all_chips, find_chip, number_in, read_chips, small
from diag_client.devices import GATES, Reduction

# All rows of so many inputs are tried, and otherwise so many random ones.
MOST_INPUTS_FOR_ALL = 14
ROWS = 10_000
# Of what stores bits, so many runs of so many steps.
RUNS, STEPS = 100, 100
SEED = 78
WANTED_7400 = (
    "00 02 04 08 10 11 14 20 21 27 30 32 86 125 138 139 147 148 151 153 155 157 158 180 181 182 240 244 245 251 253 257 266 280 283 "
    "352 353 373 374 74 75 76 85"
)
WANTED_4000 = "4001 4002 4011 4012 4013 4023 4025 4030 4049 4050 4068 4069 4070 4071 4072 4073 4075 4077 4078 4081 4082"
REDUCE = {Reduction.ALL_ONES: operator.and_, Reduction.ANY_ONE: operator.or_, Reduction.ODD_ONES: operator.xor}


class Simulated:
    """Many copies of a chip at once. A level is an integer with a bit for each copy; `let_go` has the copies that do not drive a pin."""

    def __init__(self, functions, copies):
        self.functions = functions
        self.ones = (1 << copies) - 1
        self.stored = {function.output: 0 for function in functions if function.kind in chips.STORAGE}
        self.before = {}

    def gate(self, function, levels):
        gate = GATES[function.kind]
        found = functools.reduce(REDUCE[gate.reduction], [levels[name] for name in function.inputs])
        return found if gate.positive else self.ones & ~found

    def settle(self, pins):
        """Works out all gates. Gives the levels and what lets go. A pin that is read and driven has the lower of both levels."""
        levels, let_go = {**pins, **self.stored}, {}
        for function in self.functions:
            if function.kind in GATES:
                levels[function.output] = self.gate(function, levels) & pins.get(function.output, self.ones)
            elif function.kind == "TRISTATE":
                let_go[function.output] = self.ones & ~levels[function.reads["gate"]]
        return levels, let_go

    def keep(self, function, levels, old, takes):
        """The bits that a mark stores from now on, of which some take their data."""
        reads = function.reads
        kept = (self.stored[function.output] & ~takes) | (old[reads["data"]] & takes if "data" in reads else 0)
        kept &= ~levels[reads["clear"]] if "clear" in reads else self.ones
        return kept | (levels[reads["set"]] if "set" in reads else 0)

    def store(self, pins):
        """Flip-flops take what was there before the step, and then latches what there is now, until nothing changes."""
        levels, _ = self.settle(pins)
        old = self.before or levels
        found = {}
        for function in self.functions:
            if function.kind == "FLIPFLOP":
                clock = function.reads.get("rise") or function.reads["fall"]
                edge = levels[clock] & ~old[clock] if "rise" in function.reads else old[clock] & ~levels[clock]
                found[function.output] = self.keep(function, levels, old, edge)
        self.stored |= found
        is_settled = False
        while not is_settled:
            levels, _ = self.settle(pins)
            latches = [function for function in self.functions if function.kind == "LATCH"]
            found = {latch.output: self.keep(latch, levels, levels, levels.get(latch.reads.get("gate"), 0)) for latch in latches}
            is_settled = found.items() <= self.stored.items()
            self.stored |= found

    def step(self, pins):
        """What the pins are that functions drive, after the others got these levels: the levels, and which copies let go."""
        self.store(pins)
        levels, let_go = self.settle(pins)
        self.before = levels
        found = {}
        for function in self.functions:
            if function.kind == "TRISTATE":
                found[function.output] = (levels[function.reads["data"]], let_go[function.output])
            else:
                found[function.output] = (self.gate(function, levels) if function.kind in GATES else levels[function.output], 0)
        return found


def rules_of(chip, rules):
    """The rules under one of the numbers of a chip."""
    return [rule for words, rule in rules.items() if set(words.split()) & set(chip.numbers)]


def read_pins(chip):
    return [pin.name for pin in chip.pins.values() if pin.direction.is_read]


def driven_pins(chip):
    return [pin.name for pin in chip.pins.values() if pin.direction.is_driven]


def different_chips():
    return list({chip.numbers: chip for chip in all_chips().values()}.values())


def rows_of(names, random_bits):
    """A level for each name and row: all rows, or random ones."""
    if len(names) <= MOST_INPUTS_FOR_ALL:
        return [dict(zip(names, row)) for row in itertools.product((0, 1), repeat=len(names))]
    return [{name: random_bits.getrandbits(1) for name in names} for _ in range(ROWS)]


def packed(rows):
    """The rows as levels of many copies."""
    return {name: int(bytes([48 + row[name] for row in reversed(rows)]), 2) for name in rows[0]}


def unpacked(found, names, copies):
    """The levels of these pins in each copy; None if one lets go."""
    columns = []
    for name in names:
        level, let_go = (f"{value:0{copies}b}"[::-1] for value in found[name])
        columns.append([None if gone == "1" else int(bit) for bit, gone in zip(level, let_go)])
    return [dict(zip(names, row)) for row in zip(*columns)]


class Run:
    """Levels of the pins of a chip, step by step. Some pins change seldom, so that a counter gets far before it is cleared."""

    def __init__(self, chip, random_bits):
        names = read_pins(chip)
        self.clocks = [name for name in names if name.lstrip("12") in chip_rules_stored.CLOCKS]
        self.changes = {name: random_bits.choice((0.01, 0.05, 0.25)) for name in names if name not in self.clocks}
        self.levels = self.before = {name: random_bits.getrandbits(1) for name in names}
        stored = [function.output for function in chip.functions if function.kind in chips.STORAGE and function.output in driven_pins(chip)]
        ones = random_bits.choice((0.5, 0.9))
        found = {name for name in stored if random_bits.random() < ones}
        if set(chip.numbers) & chip_rules_stored.FROM_ONE:
            found = {random_bits.choice(stored)}
        self.stored = collections.defaultdict(int, {name: int(name in found) for name in stored})

    def go_on(self, random_bits):
        """Changes one clock, or some of the other pins."""
        chosen = [name for name, rate in self.changes.items() if random_bits.random() < rate]
        if self.clocks and random_bits.random() < 0.6:
            chosen = [random_bits.choice(self.clocks)]
        self.before = self.levels
        self.levels = self.levels | {name: 1 - self.levels[name] for name in chosen}


def inputs_of(chip, output):
    """The numbers of the pins that decide an output."""
    functions = {function.output: function for function in chip.functions}
    numbers = {pin.name: pin.number for pin in chip.pins.values() if pin.direction.is_read}
    found, seen, waiting = set(), {output}, list(functions[output].inputs)
    while waiting:
        name = waiting.pop()
        if name in numbers:
            found.add(numbers[name])
        elif name not in seen:
            seen.add(name)
            waiting += functions[name].inputs
    return found


def groups_of(chip):
    """Pins of one direction whose names differ in a number or a letter alone, in the order of it."""
    groups = {}
    for pin in chip.pins.values():
        if pin.direction in (Direction.POWER, Direction.UNUSED):
            continue
        for found in re.finditer(r"\d+|(?<![A-Za-z])[A-Z](?![A-Za-z])", pin.name):
            sign = "#" if found[0].isdigit() else "@"
            groups.setdefault((pin.name[: found.start()] + sign + pin.name[found.end() :], pin.direction), []).append(pin)
    return [(name, sorted(pins, key=lambda pin: by_number(pin.name))) for (name, _), pins in groups.items()]


def by_number(name):
    """A key that sorts names by the numbers in them."""
    return [int(word) if word.isdigit() else word for word in re.split(r"(\d+)", name)]


class Functions(unittest.TestCase):
    def test_each_chip_has_one_rule(self):
        for chip in different_chips():
            with self.subTest(chip.title, numbers=chip.numbers):
                self.assertEqual(len(rules_of(chip, chip_rules.PLAIN)) + len(rules_of(chip, chip_rules_stored.STORING)), 1)
                is_storing = any(function.kind in chips.STORAGE for function in chip.functions)
                self.assertEqual(is_storing, bool(rules_of(chip, chip_rules_stored.STORING)))

    def test_each_rule_is_of_a_chip(self):
        words = [word for rules in (chip_rules.PLAIN, chip_rules_stored.STORING) for text in rules for word in text.split()]
        self.assertEqual(sorted(set(words)), sorted(words))
        self.assertEqual(set(words) - set(all_chips()), set())

    def test_chips_without_memory(self):
        for chip in different_chips():
            for rule in rules_of(chip, chip_rules.PLAIN):
                with self.subTest(chip.title, numbers=chip.numbers):
                    rows = rows_of(read_pins(chip), random.Random(SEED))
                    found = Simulated(chip.functions, len(rows)).step(packed(rows))
                    for row, shown in zip(rows, unpacked(found, driven_pins(chip), len(rows))):
                        self.assertEqual(shown, rule(row), row)

    def test_chips_with_memory(self):
        for chip in different_chips():
            for rule in rules_of(chip, chip_rules_stored.STORING):
                with self.subTest(chip.title, numbers=chip.numbers):
                    self.check_runs(chip, rule)

    def check_runs(self, chip, rule):
        random_bits = random.Random(SEED)
        runs = [Run(chip, random_bits) for _ in range(RUNS)]
        simulated = Simulated(chip.functions, RUNS)
        simulated.stored |= packed([run.stored for run in runs]) if runs[0].stored else {}
        for _ in range(STEPS):
            found = simulated.step(packed([run.levels for run in runs]))
            for run, shown in zip(runs, unpacked(found, driven_pins(chip), RUNS)):
                self.assertEqual(shown, rule(run.levels, run.before, run.stored), (run.before, run.levels))
                run.go_on(random_bits)

    def test_small_gates_do_the_same(self):
        for chip in different_chips():
            with self.subTest(chip.title, numbers=chip.numbers):
                functions = small(chip.functions)
                outputs = [function.output for function in functions]
                self.assertEqual(len(set(outputs) - {pin.name for pin in chip.pins.values()}), len(outputs) - len(driven_pins(chip)))
                self.assertEqual(len(set(outputs)), len(outputs))
                self.assertLessEqual(max(len(function.inputs) for function in functions), chips.MOST_INPUTS)
                rows = rows_of(read_pins(chip), random.Random(SEED))
                found = Simulated(functions, len(rows)).step(packed(rows))
                wanted = Simulated(chip.functions, len(rows)).step(packed(rows))
                self.assertEqual({name: found[name] for name in wanted}, wanted)


@unittest.skipUnless(kicad_symbols.ARE_HERE, "Debian's package kicad-symbols is not installed")
class Pins(unittest.TestCase):
    KINDS = {
        Direction.IN: {"input"},
        Direction.OUT: {"output"},
        Direction.TRISTATE: {"tri_state"},
        Direction.OPEN: {"open_collector"},
        Direction.BUS: {"bidirectional", "open_collector", "tri_state"},
        Direction.POWER: {"power_in"},
        Direction.UNUSED: {"no_connect", None},
    }
    # What the symbols say otherwise, and data sheets say as the chips here. A 7448 has resistors to its supply inside.
    OTHERWISE = {
        "4008": {(Direction.POWER, "output")},
        "4043": {(Direction.TRISTATE, "output"), (Direction.POWER, "input")},
        "4044": {(Direction.TRISTATE, "output")},
        "4078": {(Direction.IN, "output"), (Direction.IN, "power_in"), (Direction.OUT, None)},
        "4512": {(Direction.TRISTATE, "output")},
        "7409": {(Direction.OPEN, "output")},
        "7422": {(Direction.OPEN, "output")},
        "7446": {(Direction.BUS, "input")},
        "7447": {(Direction.BUS, "input")},
        "7448": {(Direction.BUS, "input"), (Direction.OUT, "open_collector")},
        "74156": {(Direction.OPEN, "output")},
        "74181": {(Direction.OPEN, "output")},
        "74242": {(Direction.BUS, "input")},
        "74243": {(Direction.BUS, "input")},
        "74246": {(Direction.BUS, "output")},
        "74247": {(Direction.BUS, "output")},
        "74248": {(Direction.OUT, "open_collector")},
        "74266": {(Direction.OPEN, "output")},
        "74293": {(Direction.UNUSED, "input")},
        "74298": {(Direction.OUT, "tri_state")},
    }
    # Groups whose pins the symbols name by other words or in another order. An input and its output have the same one.
    NAMED_OTHERWISE = {
        "74148": {"I#_n"},
        "74151": {"@"},
        "74155": {"2@_n"},
        "74156": {"2@_n"},
        "74158": {"#A", "#B", "#Y"},
        "74181": {"@_n"},
        "74195": {"@"},
        "74240": {"2A#", "2Y#"},
        "74244": {"2A#", "2Y#"},
        "74251": {"@"},
        "74257": {"#A", "#B", "#Y"},
        "74258": {"#A", "#B", "#Y"},
    }

    @classmethod
    def setUpClass(cls):
        """The symbols that are chips here; the second libraries count for what the first ones have not."""
        first = kicad_symbols.symbols(kicad_symbols.FIRST)
        numbers = {number_in(name) for name in first}
        second = kicad_symbols.symbols(kicad_symbols.SECOND)
        found = first | {name: pins for name, pins in second.items() if number_in(name) not in numbers}
        cls.symbols = {name: pins for name, pins in found.items() if find_chip(name)}

    def each_symbol(self, check):
        """Checks each symbol: its chip, its number, and the symbol's pins."""
        for symbol, pins in self.symbols.items():
            chip = find_chip(symbol)
            with self.subTest(symbol, title=chip.title):
                check(chip, number_in(symbol), pins)

    def test_numbers_and_directions(self):
        def check(chip, number, pins):
            self.assertEqual(pins.keys() - chip.pins.keys(), set())
            kinds = [(pin, pins[pin.number].kind if pin.number in pins else None) for pin in chip.pins.values()]
            wrong = [(pin, kind) for pin, kind in kinds if kind not in self.KINDS[pin.direction]]
            self.assertEqual([(pin, kind) for pin, kind in wrong if (pin.direction, kind) not in self.OTHERWISE.get(number, ())], [])

        self.each_symbol(check)

    def test_which_chips_have_no_symbol(self):
        self.assertEqual(all_chips().keys() - {number_in(symbol) for symbol in self.symbols}, {"74180", "74279"})

    def test_an_output_is_decided_by_the_inputs_of_its_unit(self):
        self.each_symbol(self.check_units)

    def check_units(self, chip, _, pins):
        outputs = {pin.number: pin.name for pin in chip.pins.values() if pin.direction.is_driven and pin.number in pins}
        decided = {pins[number].unit: set() for number in outputs}
        for number, name in outputs.items():
            decided[pins[number].unit] |= inputs_of(chip, name)
        for unit, numbers in decided.items():
            drawn = {number for number, pin in pins.items() if pin.unit == unit and chip.pins[number].direction.is_read}
            self.assertLessEqual(drawn, numbers, unit)
            # A pin that several units share is drawn in one of them, or in a unit of its own.
            shared = set().union(*(others for other, others in decided.items() if other != unit))
            common = {number for number, pin in pins.items() if pin.unit not in decided}
            self.assertLessEqual(numbers - drawn, shared | common, unit)

    def test_pins_that_are_counted_are_in_the_same_order(self):
        def check(chip, number, pins):
            for group, counted in groups_of(chip):
                names = [pins[pin.number].name for pin in counted if pin.number in pins]
                if len(set(names)) == len(names) and group not in self.NAMED_OTHERWISE.get(number, ()):
                    self.assertEqual(names, sorted(names, key=by_number), group)

        self.each_symbol(check)


class Names(unittest.TestCase):
    def test_the_wanted_chips_are_there(self):
        wanted = ["74" + word for word in WANTED_7400.split()] + WANTED_4000.split()
        self.assertEqual([number for number in wanted if number not in all_chips()], [])
        self.assertGreaterEqual(len(different_chips()), 60)

    def test_pins_are_numbered_around_a_package(self):
        for chip in different_chips():
            with self.subTest(chip.title, numbers=chip.numbers):
                self.assertIn(len(chip.pins), (14, 16, 20, 24))
                self.assertEqual(sorted(map(int, chip.pins)), list(range(1, len(chip.pins) + 1)))

    def test_the_number_in_what_is_printed(self):
        rows = [
            ("7400", "7400"),
            ("5400", "7400"),
            ("74LS00", "7400"),
            ("74HCU04", "7404"),
            ("74ACT245", "74245"),
            ("SN74LS00N", "7400"),
            ("DM74S181J/883", "74181"),
            ("MC74HC00ADR2G", "7400"),
            ("74ls00 ", "7400"),
            ("74LS244_Split", "74244"),
            ("74HC4075", "4075"),
            ("74HCT4002D", "4002"),
            ("4011", "4011"),
            ("CD4011BE", "4011"),
            ("CD40106", "40106"),
            ("HEF4093B", "4093"),
            ("MC14069UBCP", "4069"),
            ("TC4011BP", "4011"),
            ("74AC11000", "7411000"),
            ("74LVC1G00", None),
            ("SN74LVC2G04", None),
            ("LM358", None),
            ("LM741", None),
            ("1N4148", None),
            ("4N35", None),
            ("100n", None),
            ("4k7", None),
            ("", None),
        ]
        for text, number in rows:
            with self.subTest(text):
                self.assertEqual(number_in(text), number)
        self.assertIsNone(find_chip("74AC11000"))


class Files(unittest.TestCase):
    def test_the_example_of_the_page_is_in_a_file(self):
        folder = TOP / "python/diag_client/convert/chips"
        example = re.search("```\n(.*?)...\n```", (folder / "README.md").read_text(), re.DOTALL)[1]
        self.assertIn(example, (folder / "storage.chips").read_text())

    CHIP = "chip 9\ntitle t\nin 1:A 2:B\nout 3:Y\n"

    def test_a_file_is_read(self):
        rest = "power 4:GND 5:VCC # supply\nnote one\ny = AND(A, B)\nY=NOT( y )\nchip 8 7\nout 1:Q\nQ = LATCH(set=Q, clear=Q)\n"
        found = read_chips("# head\n\n" + self.CHIP + rest, "f")
        self.assertEqual(list(found), ["9", "8", "7"])
        chip = found["9"]
        self.assertEqual((chip.numbers, chip.title, chip.notes), (("9",), "t", ("one",)))
        self.assertEqual(" ".join(f"{key}:{pin.name}:{pin.direction.value}" for key, pin in chip.pins.items()), self.PINS)
        self.assertEqual([(one.output, one.kind, one.inputs, one.roles) for one in chip.functions], self.FUNCTIONS)
        self.assertIs(found["8"], found["7"])
        self.assertEqual(found["8"].functions[0].reads, {"set": "Q", "clear": "Q"})

    PINS = "1:A:in 2:B:in 3:Y:out 4:GND:power 5:VCC:power"
    FUNCTIONS = [("y", "AND", ("A", "B"), ()), ("Y", "NOT", ("y",), ())]

    def test_what_is_refused(self):
        rows = [
            ("in 1:A", "line 1: a chip begins with `chip` and its numbers, such as `chip 7400 7437`"),
            ("chip", "line 1: a chip begins with `chip` and its numbers, such as `chip 7400 7437`"),
            ("chip 74LS00", "line 1: a chip begins with `chip` and its numbers, such as `chip 7400 7437`"),
            (self.CHIP + "Y = AND(A, B)\nchip 9", "line 6: chip 9 is there twice"),
            (self.CHIP, "line 1: nothing drives Y"),
            (self.CHIP + "pins 1", "line 5: a line begins with chip, title, note, in, out, tristate, open, bus, power, unused, or is "),
            (self.CHIP + "Y = AND(A, B", "line 5: a line begins with chip, title"),
            (self.CHIP + "in 4", "line 5: a pin is NUMBER:NAME, the name of letters, digits and _: 4"),
            (self.CHIP + "in 4:/OE", "line 5: a pin is NUMBER:NAME"),
            (self.CHIP + "in x:C", "line 5: a pin is NUMBER:NAME"),
            (self.CHIP + "in 3:C", "line 5: pin 3:C has a number or a name that is taken"),
            (self.CHIP + "in 4:A", "line 5: pin 4:A has a number or a name that is taken"),
            (self.CHIP + "Y = MUX(A, B)", "line 5: a kind is one of AND, OR, NAND, NOR, XOR, XNOR, NOT, BUFF, TRISTATE, LATCH, "),
            (self.CHIP + "Y = NOT(A, B)", "line 5: NOT has at most 1 inputs"),
            (self.CHIP + "Y = AND()", "line 5: a name is of letters, digits and _: "),
            (self.CHIP + "Y = AND(A, B-)", "line 5: a name is of letters, digits and _: B-"),
            (self.CHIP + "Y = TRISTATE(data=A)", "line 5: TRISTATE takes data=NAME, gate=NAME"),
            (self.CHIP + "Y = TRISTATE(data=A, gate=B, set=B)", "line 5: TRISTATE takes data=NAME, gate=NAME"),
            (self.CHIP + "Y = FLIPFLOP(data=A, clock=B)", "line 5: FLIPFLOP takes data=NAME, rise=NAME or data=NAME, fall=NAME"),
            (self.CHIP + "Y = FLIPFLOP(data=A, rise=B, fall=B)", "line 5: FLIPFLOP takes data=NAME"),
            (self.CHIP + "Y = FLIPFLOP(A, B)", "line 5: FLIPFLOP takes data=NAME"),
            (self.CHIP + "Y = LATCH(data=A, data=B)", "line 5: LATCH takes data=NAME, gate=NAME or set=NAME, clear=NAME"),
            (self.CHIP + "Y = LATCH(set=A)", "line 5: LATCH takes data=NAME"),
            (self.CHIP + "Y = TRISTATE(data=A, gate=B)", "line 5: Y: a TRISTATE drives pins that are tristate or bus, and nothing else"),
            (self.CHIP + "y = TRISTATE(data=A, gate=B)\nY = NOT(y)", "line 5: y: a TRISTATE drives pins that are tristate or bus"),
            (self.CHIP + "tristate 4:Z\nY = NOT(A)\nZ = NOT(A)", "line 7: Z: a TRISTATE drives pins that are tristate or bus"),
            (self.CHIP + "Y = AND(A, B)\nY = OR(A, B)", "line 6: Y is driven twice"),
            (self.CHIP + "Y = NOT(A)\nB = NOT(A)", "line 6: B is driven, but the pin is in"),
            (self.CHIP + "Y = NOT(y)\ny = NOT(A)", "line 5: Y reads y, which is no input and is not driven above it"),
            (self.CHIP + "Y = NOT(Y)", "line 5: Y reads Y, which is no input and is not driven above it"),
        ]
        for text, said in rows:
            with self.subTest(text), self.assertRaises(UnusableChip) as caught:
                read_chips(text, "f")
            self.assertTrue(str(caught.exception).startswith("f: " + said), str(caught.exception))


if __name__ == "__main__":
    unittest.main()
