"""Netlists of tools, read in the plainest way: BLIF and JSON of yosys, and `.bench` of ABC. What is not plain is `Odd`."""

import json
import re
from collections import Counter
from dataclasses import dataclass, field

# What the manual of yosys says of its cells.
CELLS = {
    "BUF": ("A", lambda a: a), "NOT": ("A", lambda a: not a), "AND": ("AB", lambda a, b: a and b),
    "NAND": ("AB", lambda a, b: not (a and b)), "OR": ("AB", lambda a, b: a or b), "NOR": ("AB", lambda a, b: not (a or b)), "XOR": ("AB", lambda a, b: a != b),
    "XNOR": ("AB", lambda a, b: a == b), "ANDNOT": ("AB", lambda a, b: a and not b), "ORNOT": ("AB", lambda a, b: a or not b),
    "MUX": ("ABS", lambda a, b, s: b if s else a), "NMUX": ("ABS", lambda a, b, s: not (b if s else a)),
    "AOI3": ("ABC", lambda a, b, c: not (a and b or c)), "OAI3": ("ABC", lambda a, b, c: not ((a or b) and c)),
    "AOI4": ("ABCD", lambda a, b, c, d: not (a and b or c and d)), "OAI4": ("ABCD", lambda a, b, c, d: not ((a or b) and (c or d))),
}
# Gates of a `.bench`, by how many of their inputs are 1.
GATES = {
    "AND": lambda ones, count: ones == count, "NAND": lambda ones, count: ones != count, "OR": lambda ones, count: ones > 0,
    "NOR": lambda ones, count: ones == 0, "XOR": lambda ones, count: ones % 2, "XNOR": lambda ones, count: ones % 2 == 0,
}
UNDEFINED = object()


class Odd(Exception):
    """A text that no tool writes so."""


@dataclass
class Netlist:
    """Inputs, outputs, what drives each wire (a function and what it reads), and what each flip-flop reads."""

    inputs: list = field(default_factory=list)
    outputs: list = field(default_factory=list)
    drivers: dict = field(default_factory=dict)
    flip_flops: dict = field(default_factory=dict)
    clocks: set = field(default_factory=set)

    def drive(self, wire, function, *reads):
        demand(wire not in self.drivers and wire not in self.flip_flops and wire not in self.inputs)
        self.drivers[wire] = (function, reads)

    def hold(self, wire, reads, clock):
        demand(wire not in self.drivers and wire not in self.flip_flops and wire not in self.inputs)
        self.flip_flops[wire] = reads
        self.clocks.add(clock)

    def take(self, wire):
        demand(wire not in self.drivers and wire not in self.flip_flops and wire not in self.inputs)
        self.inputs.append(wire)

    def bits(self, given):
        """The bits of all wires that have one, given those of the inputs and of the flip-flops."""
        found = dict(given)
        count = -1
        while count != len(found):
            count = len(found)
            for wire, (function, reads) in self.drivers.items():
                if wire not in found and all(read in found for read in reads):
                    bits = [found[read] for read in reads]
                    found[wire] = UNDEFINED if UNDEFINED in bits else function(*bits)
        return {wire: bit if bit is UNDEFINED else int(bool(bit)) for wire, bit in found.items()}


def demand(holds):
    if not holds:
        raise Odd


def constant(bit):
    return lambda: bit


def add_cell(netlist, kind, pins):
    """Adds a cell with a list of pins and their wires."""
    demand(len(dict(pins)) == len(pins))
    pins = dict(pins)
    if kind in ("$_DFF_P_", "$_DFF_N_"):
        demand(pins.keys() == set("CDQ"))
        netlist.hold(pins["Q"], pins["D"], (pins["C"], kind))
        return
    letters, function = CELLS.get(kind[2:-1], (None, None))
    demand(letters and kind == f"$_{kind[2:-1]}_" and pins.keys() == {*letters, "Y"})
    netlist.drive(pins["Y"], function, *(pins[letter] for letter in letters))


def cover_of(count, rows):
    """The function of the rows of a BLIF."""
    demand(all(len(row) == (2 if count else 1) for row in rows) and (rows or not count))
    outs = {row[-1] for row in rows}
    cubes = [row[0] if count else "" for row in rows]
    demand(len(outs) <= 1 and outs <= {"0", "1"} and all(len(cube) == count and set(cube) <= set("01-") for cube in cubes))
    if_met = outs != {"0"}

    def function(*bits):
        is_met = any(all(mark in ("-", str(int(bit))) for mark, bit in zip(cube, bits)) for cube in cubes)
        return is_met == if_met if rows else False

    return function


def table_of(number):
    """The function whose value for the inputs that are the bits of i, the first one lowest, is bit i of a number."""
    return lambda *bits: number >> sum(int(bit) << place for place, bit in enumerate(bits)) & 1


def read_blif(text):
    netlist, table, is_open, models = Netlist(), None, False, 0
    for line in text.replace("\\\n", " ").split("\n"):
        words = re.sub(r"(^|\s)#.*", "", line).split()
        if not words:
            continue
        if table and words[0].startswith("."):
            *reads, output = table[0]
            netlist.drive(output, constant(UNDEFINED) if output == "$undef" and not reads else cover_of(len(reads), table[1]), *reads)
            table = None
        demand(is_open or words[0] == ".model")
        if table:
            table[1].append(words)
        elif words[0] == ".model":
            demand(len(words) > 1)
            models += 1
            is_open = True
        elif words[0] == ".end":
            is_open = False
        elif words[0] == ".inputs":
            for wire in words[1:]:
                netlist.take(wire)
        elif words[0] == ".outputs":
            netlist.outputs += words[1:]
        elif words[0] == ".names":
            demand(len(words) > 1)
            table = (words[1:], [])
        elif words[0] in (".gate", ".subckt") and len(words) > 1:
            demand(all(re.fullmatch("[^=]+=.+", word) for word in words[2:]))
            add_cell(netlist, words[1], [tuple(word.split("=", 1)) for word in words[2:]])
        else:
            # A kind and its clock, and one of the initial values, may be there.
            found = re.fullmatch(r"\.latch (\S+) (\S+)(?: (re|fe) (\S+))?(?: [0-3])?", " ".join(words))
            demand(found)
            netlist.hold(found[2], found[1], (found[4] if found[4] != "NIL" else None, found[3] or "re"))
    # A text without its last line may be cut, and the table that is last is then another one.
    demand(models == 1 and not is_open)
    return netlist


def plain_pairs(pairs):
    demand(len(dict(pairs)) == len(pairs))
    return dict(pairs)


def bits_in(holder, name):
    bits = holder[name]
    demand(type(bits) is list and all(type(bit) is int or (type(bit) is str and bit in tuple("01xz")) for bit in bits))
    return bits


def read_json(text):
    """The wires are the numbers and the constants; `names` are theirs."""
    try:
        modules = json.loads(text, object_pairs_hook=plain_pairs)["modules"]
        demand(type(modules) is dict and len(modules) == 1)
        (module,) = modules.values()
        netlist, names = Netlist(), {}
        for value, bit in {"0": 0, "1": 1, "x": UNDEFINED, "z": UNDEFINED}.items():
            netlist.drive(value, constant(bit))
        for port, said in module["ports"].items():
            demand(said["direction"] in ("input", "output"))
            for bit in bits_in(said, "bits"):
                if said["direction"] == "input":
                    netlist.take(bit)
                else:
                    netlist.outputs.append(bit)
            demand(module["netnames"].get(port, said)["bits"] == said["bits"])
        for name, said in {**module["netnames"], **module["ports"]}.items():
            bits, first = bits_in(said, "bits"), said.get("offset", 0)
            places = range(len(bits) - 1, -1, -1) if said.get("upto") else range(len(bits))
            demand(type(first) is int and name)
            for place, bit in zip(places, bits):
                names.setdefault(bit, set()).add(name if len(bits) == 1 and not first else f"{name}[{first + place}]")
        for cell in module["cells"].values():
            pins = {pin: bits_in(cell["connections"], pin) for pin in cell["connections"]}
            if cell["type"] == "$lut":
                table = cell["parameters"]["LUT"]
                demand(int(cell["parameters"]["WIDTH"], 2) == len(pins["A"]))
                demand(pins.keys() == set("AY") and len(pins["Y"]) == 1 and set(table) <= set("01") and len(table) == 1 << len(pins["A"]))
                netlist.drive(pins["Y"][0], table_of(int(table, 2)), *pins["A"])
            else:
                demand(all(len(bits) == 1 for bits in pins.values()) and not cell.get("parameters"))
                add_cell(netlist, cell["type"], [(pin, bits[0]) for pin, bits in pins.items()])
    except (ValueError, KeyError, TypeError, AttributeError, RecursionError) as error:
        raise Odd from error
    count = Counter(name for of in names.values() for name in of)
    # What is the name of two wires is the name of neither.
    netlist.names = {bit: {name for name in of if count[name] == 1} for bit, of in names.items()}
    return netlist


def read_bench(text):
    netlist = Netlist()
    for line in text.split("\n"):
        line = line.split("#")[0].strip()
        if not line:
            continue
        if found := re.fullmatch(r"(INPUT|OUTPUT) *\( *([^\s(),]+) *\)", line):
            netlist.take(found[2]) if found[1] == "INPUT" else netlist.outputs.append(found[2])
            continue
        found = re.fullmatch(r"([^\s(),=]+) *= *(?:(vdd|gnd)|(LUT +0x([0-9a-fA-F]+)|\w+) *\((.*)\))", line)
        demand(found)
        if found[2]:
            netlist.drive(found[1], constant(found[2] == "vdd"))
            continue
        reads = [word.strip() for word in found[5].split(",")] if found[5].strip() else []
        demand(all(re.fullmatch(r"[^\s(),=]+", read) for read in reads))
        if found[4]:
            demand(not int(found[4], 16) >> (1 << len(reads)))
            netlist.drive(found[1], table_of(int(found[4], 16)), *reads)
        elif found[3] == "DFF":
            demand(len(reads) == 1)
            netlist.hold(found[1], reads[0], (None, ""))
        elif found[3] in ("NOT", "BUF", "BUFF"):
            demand(len(reads) == 1)
            netlist.drive(found[1], (lambda bit: not bit) if found[3] == "NOT" else (lambda bit: bit), reads[0])
        else:
            demand(found[3] in GATES and reads)
            netlist.drive(found[1], lambda *bits, of=GATES[found[3]]: of(sum(map(int, bits)), len(bits)), *reads)
    return netlist


READERS = {".blif": read_blif, ".json": read_json, ".bench": read_bench}
