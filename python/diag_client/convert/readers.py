"""Readers of what tools write: BLIF, yosys JSON, and ABC's `.bench`."""

from __future__ import annotations

import collections
import json
import re
from collections.abc import Iterator, Sequence
from typing import Any, NamedTuple, TypeVar

from ..devices import FLIP_FLOP, GATES, OTHER_WORDS
from ..errors import shown
from .circuit import MOST_TABLE_INPUTS, NO_LATCHES, Circuit, Constant, UnusableNetlist

Kind = TypeVar("Kind", str, list[Any], dict[str, Any])

# The gate cells of yosys that are gates of a netlist, and all others by their inputs and tables.
KINDS = {"BUF": "BUFF", "NOT": "NOT", "AND": "AND", "NAND": "NAND", "OR": "OR", "NOR": "NOR", "XOR": "XOR", "XNOR": "XNOR"}
TABLES = {
    "ANDNOT": ("AB", 0x2),
    "ORNOT": ("AB", 0xB),
    "MUX": ("ABS", 0xCA),
    "NMUX": ("ABS", 0x35),
    "AOI3": ("ABC", 0x07),
    "OAI3": ("ABC", 0x1F),
    "AOI4": ("ABCD", 0x0777),
    "OAI4": ("ABCD", 0x111F),
}
PLAIN_FLIP_FLOPS = {"DFF_P": "rising", "DFF_N": "falling"}
# The pins of each cell, the output last.
PINS = {
    **{word: "AY" if word in ("BUF", "NOT") else "ABY" for word in KINDS},
    **{word: f"{letters}Y" for word, (letters, _) in TABLES.items()},
    **dict.fromkeys(PLAIN_FLIP_FLOPS, "DCQ"),
}
PLAIN_CELLS = "synth -flatten; dfflegalize -cell $_DFF_P_ 01; abc -g AND,NAND,OR,NOR,XOR,XNOR; opt_clean"
TO_PLAIN_CELLS = f"in yosys: `{PLAIN_CELLS}`"
# The wires of a JSON that are tied; nothing defines the last two.
CONSTANTS: dict[str, Constant] = {"0": 0, "1": 1, "x": None, "z": None}
# Words of BLIF that are lines of a circuit, and the values that a flip-flop may begin with.
STATEMENTS = {".gate", ".subckt", ".latch", ".conn", ".barbuf"}
INITIAL_VALUES = {"0", "1", "2", "3"}
# Words of BLIF that say nothing of what the circuit does.
SKIPPED = {".attr", ".param", ".cname", ".clock", ".area", ".delay", ".default_input_arrival", ".input_arrival", ".output_required"}


def wrong_pins(given: Sequence[tuple[str, str]], wanted: str) -> list[str]:
    """What is wrong with the pins of a cell that wants one of each of these letters."""
    count = collections.Counter(pin for pin, _ in given)
    found = [f"pin {pin} is missing" for pin in wanted if pin not in count]
    found += [f"pin {pin} is there {count[pin]} times" for pin in wanted if count[pin] > 1]
    return found + [f"there is no pin {shown(pin)}" for pin in count if len(pin) != 1 or pin not in wanted]


def add_cell(circuit: Circuit, cell: str, given: Sequence[tuple[str, str]], where: str) -> None:
    """Adds a gate cell of yosys, such as `$_NAND_`, with its pins and their nets. `where` says in the file."""
    word = cell[2:-1] if cell.startswith("$_") and cell.endswith("_") else ""
    if word in PINS and (wrong := wrong_pins(given, PINS[word])):
        circuit.fault(f"{where} ({cell}): {', '.join(wrong)}")
        return
    pins = dict(given)
    output = pins.get("Q") or pins.get("Y") or ""
    if word in KINDS:
        circuit.add_gate(output, KINDS[word], [pins[pin] for pin in PINS[word][:-1]])
    elif word in TABLES:
        letters, table = TABLES[word]
        circuit.add_table(output, table, [pins[pin] for pin in letters])
    elif word in PLAIN_FLIP_FLOPS:
        circuit.add_flip_flop(output, pins["D"], pins["C"], PLAIN_FLIP_FLOPS[word])
    elif re.match(r"DLATCH|SR|a?dlatch|sr$", word or cell[1:]):
        circuit.fault(f"latch {output} ({cell})", NO_LATCHES)
    elif re.match(r"S?DFFC?E?|ALDFF", word):
        circuit.fault(f"flip-flop {output} ({cell}) has an enable or a reset that is no gate", TO_PLAIN_CELLS)
    else:
        circuit.fault(f"{where}: {output} ({cell}) is no gate that is known here", TO_PLAIN_CELLS)


class Cover(NamedTuple):
    """A table of a BLIF: the line where it begins, its names, and the words of its rows."""

    number: int
    names: list[str]
    rows: list[list[str]]


def logical_lines(text: str) -> Iterator[tuple[int, list[str]]]:
    """The words of each line of a BLIF, with its number. A line that ends in a backslash goes on in the next."""
    words: list[str] = []
    first = 1
    for number, line in enumerate(text.split("\n"), 1):
        line = re.sub(r"(^|\s)#.*", "", line.rstrip("\r"))
        if not words:
            first = number
        goes_on = line.rstrip().endswith("\\")
        words += line.rstrip().removesuffix("\\").split()
        if words and not goes_on:
            yield first, words
            words = []


def read_blif(text: str) -> Circuit:
    """The circuit in a BLIF of one model."""
    circuit = Circuit()
    models, is_open, is_whole = 0, False, False
    cover: Cover | None = None
    for number, words in logical_lines(text):
        if words[0] == ".model":
            models += 1
            is_open = True
            if len(words) == 1:
                raise UnusableNetlist(f"line {number}: .model without a name")
        elif not is_open:
            raise UnusableNetlist(f"line {number}: {shown(words[0])} {'after .end' if models else 'before .model: this is no BLIF'}")
        elif not words[0].startswith("."):
            if cover is None:
                raise UnusableNetlist(f"line {number}: rows without .names")
            cover.rows.append(words)
            continue
        if cover is not None:
            add_cover(circuit, cover)
            cover = None
        if words[0] == ".names":
            cover = Cover(number, words[1:], [])
        elif words[0] in (".end", ".exdc"):
            is_open, is_whole = False, True
            if words[0] == ".exdc":
                break
        elif words[0] != ".model":
            add_statement(circuit, number, words)
    if cover is not None:
        add_cover(circuit, cover)
    if models != 1:
        raise UnusableNetlist(f"{models} models instead of one; in yosys: `flatten`" if models else "no .model: this is no BLIF")
    if not is_whole:
        # A table that lost its last rows is another table.
        raise UnusableNetlist("the last line, .end, is not there: the file is not whole")
    return circuit


def add_statement(circuit: Circuit, number: int, words: list[str]) -> None:
    """Adds what a line of a BLIF says that is no table."""
    match words:
        case [".inputs", *names]:
            for name in names:
                circuit.add_input(name)
        case [".outputs", *names]:
            circuit.outputs += names
        case [".gate" | ".subckt", cell, *pins]:
            odd = [pin for pin in pins if not re.fullmatch("[^=]+=.+", pin)]
            if odd:
                circuit.fault(f"the cell in line {number} ({cell}): {shown(odd[0])} is no pin with its net, such as A=x")
            else:
                add_cell(circuit, cell, [(pin.split("=", 1)[0], pin.split("=", 1)[1]) for pin in pins], f"the cell in line {number}")
        case [".latch", reads, output, *more]:
            add_latch(circuit, number, reads, output, more)
        case [".conn" | ".barbuf", reads, output]:
            circuit.connect(output, reads)
        case [word, *_] if word not in SKIPPED:
            circuit.fault(f"line {number}: {' '.join(words) if word in STATEMENTS else word} is not known here")


def add_latch(circuit: Circuit, number: int, reads: str, output: str, more: list[str]) -> None:
    """Adds a flip-flop of a BLIF, which calls it a latch; what is one in truth is a fault."""
    match more[:-1] if len(more) in (1, 3) and more[-1] in INITIAL_VALUES else more:
        case [("re" | "fe") as kind, clock]:
            circuit.add_flip_flop(output, reads, "" if clock == "NIL" else clock, {"re": "rising", "fe": "falling"}[kind])
        case []:
            circuit.add_flip_flop(output, reads, "", "rising")
        case [("ah" | "al" | "as") as kind, _]:
            circuit.fault(f"line {number}: latch {output} (.latch of the kind {kind})", NO_LATCHES)
        case _:
            circuit.fault(f"line {number}: .latch {output} has other words than its kind, its clock and its initial value")


def add_cover(circuit: Circuit, cover: Cover) -> None:
    """Adds a table of a BLIF. A table that hands on its one input is a connection, and one without inputs a constant."""
    if not cover.names:
        circuit.fault(f"line {cover.number}: .names without names")
        return
    *inputs, output = cover.names
    is_table = (cover.rows or not inputs) and all(len(row) == (2 if inputs else 1) for row in cover.rows)
    ones = {row[-1] for row in cover.rows}
    cubes = [row[0] if inputs else "" for row in cover.rows]
    if not is_table or len(ones) > 1 or ones - {"0", "1"} or any(len(cube) != len(inputs) or set(cube) - set("01-") for cube in cubes):
        circuit.fault(f"line {cover.number}: the rows of .names {output} are no table")
        return
    bit = int(ones.pop()) if ones else 1
    if not inputs:
        circuit.add_constant(output, None if output == "$undef" else int(bool(cubes)) & bit)
    elif len(inputs) == 1 and (cubes, bit) in ((["1"], 1), (["0"], 0)):
        circuit.connect(output, inputs[0])
    elif len(inputs) <= MOST_TABLE_INPUTS:
        circuit.add_table(output, table_of_cover(len(inputs), cubes, bit), inputs)
    elif (kind := kind_of_cover(len(inputs), cubes, bit)) and len(inputs) <= GATES[kind].most_inputs:
        circuit.add_gate(output, kind, inputs)
    else:
        circuit.fault(f".names {output} has {len(inputs)} inputs and is no gate", TO_PLAIN_CELLS)


def table_of_cover(count: int, cubes: list[str], bit: int) -> int:
    """The truth table of rows: those whose output is `bit`, the others having the opposite."""
    whole = (1 << (1 << count)) - 1
    found = 0
    for cube in cubes:
        indexes = [0]
        for place, mark in enumerate(cube):
            if mark != "0":
                with_one = [index | 1 << place for index in indexes]
                indexes = with_one if mark == "1" else indexes + with_one
        for index in indexes:
            found |= 1 << index
    return found if bit else whole ^ found


def kind_of_cover(count: int, cubes: list[str], bit: int) -> str | None:
    """The gate that rows of many inputs are, by how they look."""
    alone = {("1",): ("AND", "NAND"), ("0",): ("NOR", "OR")}
    if len(cubes) == 1 and len(set(cubes[0])) == 1 and (cubes[0][0],) in alone:
        return alone[cubes[0][0],][1 - bit]
    for mark, (if_one, if_zero) in {"1": ("OR", "NOR"), "0": ("NAND", "AND")}.items():
        if sorted(cubes) == sorted("-" * place + mark + "-" * (count - place - 1) for place in range(count)):
            return if_one if bit else if_zero
    return None


def without_doubles(pairs: list[tuple[str, Any]]) -> dict[str, Any]:
    """An object of a JSON. Raises `UnusableNetlist` for a name that is there twice, of which Python takes the last."""
    found = dict(pairs)
    if len(found) != len(pairs):
        twice, _ = collections.Counter(name for name, _ in pairs).most_common(1)[0]
        raise UnusableNetlist(f"{shown(twice)} is there twice in one object of the JSON")
    return found


def member(holder: Any, name: str, kind: type[Kind], where: str) -> Kind:
    """What an object of a JSON has under a name. Raises `UnusableNetlist` if there is nothing of that kind."""
    found = holder.get(name) if isinstance(holder, dict) else None
    if not isinstance(found, kind):
        raise UnusableNetlist(f"{where} has no {name} as yosys writes it")
    return found


def bits_of(holder: Any, name: str, where: str) -> list[Any]:
    """The wires in a list of a JSON: each is a number, or a constant as text."""
    bits: list[Any] = member(holder, name, list, where)
    odd = [bit for bit in bits if type(bit) is not int and not (isinstance(bit, str) and bit in CONSTANTS)]
    if odd:
        raise UnusableNetlist(f"{where}: {shown(str(odd[0]))} in {name} is no wire")
    return bits


def top_of(text: str) -> dict[str, Any]:
    """The top module in a JSON, or the only one."""
    try:
        modules = json.loads(text, object_pairs_hook=without_doubles)
    except (ValueError, RecursionError) as error:
        raise UnusableNetlist(f"this is no JSON that yosys wrote: {error}") from error
    modules = member(modules, "modules", dict, "this JSON")
    tops = [module for module in modules.values() if isinstance(module, dict)]
    marked = [module for module in tops if str(dict(module.get("attributes") or {}).get("top", "")).strip("0")]
    if len(marked or tops) != 1:
        raise UnusableNetlist(f"{len(marked or tops)} modules instead of one; in yosys: `hierarchy -top NAME; flatten`")
    return (marked or tops)[0]


def read_json(text: str) -> Circuit:
    """The circuit in a JSON that yosys wrote: its top module, or the only one."""
    module = top_of(text)
    circuit = Circuit()
    names = names_of_bits(module)
    for port, said in member(module, "ports", dict, "the module").items():
        add_port(circuit, port, said, names)
    for value, constant in CONSTANTS.items():
        circuit.add_constant(names[value], constant)
    for name, cell in member(module, "cells", dict, "the module").items():
        add_json_cell(circuit, f"cell {shown(name)}", cell, names)
    return circuit


def add_port(circuit: Circuit, port: str, said: Any, names: dict[Any, str]) -> None:
    """Adds the pins of a port of a JSON."""
    direction = member(said, "direction", str, f"port {shown(port)}")
    for name, bit in zip(names_in(port, said), said["bits"]):
        if direction == "input" and names[bit] != name:
            circuit.fault(f"input {name} is one wire with {names[bit]}")
        elif direction == "input":
            circuit.add_input(name)
        elif direction == "output":
            circuit.outputs.append(name)
            if names[bit] != name:
                circuit.connect(name, names[bit])
        else:
            circuit.fault(f"port {name} is neither an input nor an output")


def add_json_cell(circuit: Circuit, where: str, cell: Any, names: dict[Any, str]) -> None:
    """Adds a cell of a JSON. A wire that has no name gets one."""
    kind = member(cell, "type", str, where)
    connections = member(cell, "connections", dict, where)
    wires = {pin: [names.setdefault(bit, f"$bit{bit}") for bit in bits_of(connections, pin, where)] for pin in connections}
    if kind == "$lut":
        add_lut(circuit, where, wires, cell.get("parameters"))
        return
    odd = [f"pin {pin} has {len(found)} wires" for pin, found in wires.items() if len(found) > 1]
    odd += ["it has parameters"] * bool(cell.get("parameters"))
    if odd and kind.startswith("$_"):
        circuit.fault(f"{where} ({kind}): {', '.join(odd)}")
    else:
        add_cell(circuit, kind, [(pin, found[0]) for pin, found in wires.items() if found], where)


def add_lut(circuit: Circuit, where: str, wires: dict[str, list[str]], parameters: Any) -> None:
    """Adds a table of a JSON: its text begins with the bit of the highest row."""
    table, width = (member(parameters, name, str, where) for name in ("LUT", "WIDTH"))
    inputs = wires.get("A", [])
    is_one = wires.keys() == {"A", "Y"} and len(wires["Y"]) == 1 and width.lstrip("0") == f"{len(inputs):b}".lstrip("0")
    if not is_one or len(table) != 1 << len(inputs) or set(table) - set("01"):
        circuit.fault(f"{where} ($lut): the table, its inputs (A) and its output (Y) do not fit each other")
    elif len(inputs) > MOST_TABLE_INPUTS:
        circuit.fault(f"{where} ($lut) has {len(inputs)} inputs", TO_PLAIN_CELLS)
    else:
        circuit.add_table(wires["Y"][0], int(table, 2), inputs)


def names_in(name: str, said: Any) -> list[str]:
    """The names of the bits of a port or a net."""
    where = f"net {shown(name) or '(without a name)'}"
    count, first = len(bits_of(said, "bits", where)), said.get("offset", 0)
    if type(first) is not int or not name:
        raise UnusableNetlist(f"{where}: this is not written as yosys writes it")
    if count == 1 and not first:
        return [name]
    places = range(count - 1, -1, -1) if said.get("upto") else range(count)
    return [f"{name}[{first + place}]" for place in places]


def names_of_bits(module: dict[str, Any]) -> dict[Any, str]:
    """A name for each bit: that of an input if it has one, else of an output, else the shortest that a person gave."""
    found: dict[Any, tuple[tuple[bool, bool, bool, int], str]] = {}
    ports, nets = (member(module, part, dict, "the module") for part in ("ports", "netnames"))
    for name, said in [*ports.items(), *nets.items()]:
        names = names_in(name, said)
        if name in ports and said["bits"] != ports[name]["bits"]:
            raise UnusableNetlist(f"port {shown(name)} has other wires as a net")
        port = ports[name].get("direction") if name in ports else None
        for bit_name, bit in zip(names, said["bits"]):
            rank = (port != "input", port != "output", bool(said.get("hide_name")), len(bit_name))
            if bit not in CONSTANTS and (bit not in found or rank < found[bit][0]):
                found[bit] = (rank, bit_name)
    named: dict[str, Any] = {}
    for bit, name in [*((bit, name) for bit, (_, name) in found.items()), *((value, f"${value}") for value in CONSTANTS)]:
        # Two wires never get one name, such as that of `a[0]` and of a place of `a`.
        while name in named:
            name += "$"
        named[name] = bit
    return {bit: name for name, bit in named.items()}


def read_bench(text: str) -> Circuit:
    """The circuit in a `.bench`, in which ABC writes tables and constants too."""
    circuit = Circuit()
    for number, line in enumerate(text.split("\n"), 1):
        line = line.split("#")[0].strip()
        if not line:
            continue
        if found := re.fullmatch(r"(INPUT|OUTPUT)\s*\(\s*([^\s(),]+)\s*\)", line, re.IGNORECASE):
            if found[1].upper() == "INPUT":
                circuit.add_input(found[2])
            else:
                circuit.outputs.append(found[2])
        elif found := re.fullmatch(r"([^\s(),=]+)\s*=\s*(vdd|gnd)", line, re.IGNORECASE):
            circuit.add_constant(found[1], int(found[2].lower() == "vdd"))
        elif found := re.fullmatch(r"([^\s(),=]+)\s*=\s*(LUT\s+0x[0-9a-f]+|\w+)\s*\(([^()=]*)\)", line, re.IGNORECASE):
            inputs = [word.strip() for word in found[3].split(",")] if found[3].strip() else []
            if not all(re.fullmatch(r"\S+", name) for name in inputs):
                raise UnusableNetlist(f"line {number}: one name is wanted between two commas: {shown(line)}")
            add_bench_gate(circuit, f"line {number}: gate {found[1]}", found[1], found[2].split(), inputs)
        else:
            raise UnusableNetlist(f"line {number}: this is no line of a .bench: {shown(line)}")
    used = {name for node in circuit.nodes for name in node.inputs}
    for name in sorted(used - circuit.driven.keys()):
        if name.lower() in ("gnd", "vdd"):
            circuit.add_constant(name, int(name.lower() == "vdd"))
    return circuit


def add_bench_gate(circuit: Circuit, where: str, output: str, kind: list[str], inputs: list[str]) -> None:
    """Adds a gate of a `.bench`: a kind, a table as `LUT 0x8`, or a flip-flop."""
    word = OTHER_WORDS.get(kind[0].upper(), kind[0].upper())
    if len(kind) == 2:
        if len(inputs) > MOST_TABLE_INPUTS or int(kind[1], 16) >> (1 << len(inputs)):
            circuit.fault(f"{where}: the table does not fit its {len(inputs)} inputs")
        else:
            circuit.add_table(output, int(kind[1], 16), inputs)
    elif (word == FLIP_FLOP and len(inputs) == 1) or (word == "DFFRSE" and [name.lower() for name in inputs[1:]] == ["gnd"] * 4):
        circuit.add_flip_flop(output, inputs[0], "", "rising")
    elif word in GATES and 0 < len(inputs) <= GATES[word].most_inputs:
        circuit.add_gate(output, word, inputs)
    elif word in GATES or word == FLIP_FLOP:
        circuit.fault(f"{where} ({word}) has {len(inputs)} inputs")
    else:
        circuit.fault(f"{where} ({word}) is not known here")


READERS = {".blif": read_blif, ".json": read_json, ".bench": read_bench}
