"""`diag-netlist FILE`: makes a `.bench`, or a `.dev` if types are needed, of a netlist that a tool wrote."""

from __future__ import annotations

import argparse
import dataclasses
import pathlib
import re
import sys
from collections.abc import Sequence

from .. import interrupts
from ..devices import MADE, MADE_BY, NAMES, PINS, is_made_here, read_design, title_of
from ..errors import DiagError, sentence
from ..files import drop_unwritten, open_streams, write_whole
from . import weighted
from .board import Board, read_board
from .board_design import Design
from .board_netlist import Gates
from .circuit import Circuit, Node, UnusableNetlist, kind_of
from .kicad import read_kicad
from .readers import PLAIN_CELLS, READERS, TABLES, TO_PLAIN_CELLS

# A name that is longer is replaced.
LONGEST_NAME = 32
# A type has at most so many ports. The output is one of them.
MOST_PORTS = 6
# What `diag` takes of a device.
MOST_PARTS, MOST_WIRES = 4096, 16384
# So many gates of a loop are shown, and so many lines of one kind.
SHOWN = 8
# So many wires are on a line of a design.
WIRES_ON_A_LINE = 12
TYPE_NAMES = {(len(letters), table): name for name, (letters, table) in TABLES.items()}
TOP = "TOP"
# Netlists of boards.
BOARDS = (".net", ".xml")
NO_DESIGN = "a design (.dev) has no flip-flops: let OUT end in .bench"
FROM_VERILOG = f"; of Verilog yosys makes BLIF: `read_verilog x.v; {PLAIN_CELLS}; write_blif -icells -gates x.blif`"


@dataclasses.dataclass
class Made:
    """What is made of a file: its text after the first line, what is in it in words, and what is said of it.

    `renamed` has new names with those of the file, and `pins` a line for each pin that can be reached.
    """

    ending: str
    text: str
    summary: str
    renamed: list[tuple[str, str]]
    left_out: list[str]
    remarks: list[str]
    pins: list[str] = dataclasses.field(default_factory=list)


def text_of(path: pathlib.Path) -> str:
    """The text of a file."""
    return path.read_text(encoding="utf-8", errors="surrogateescape")


def made_of_circuit(path: pathlib.Path, ending: str | None) -> Made:
    """What is made of a netlist of yosys or ABC, to end so if it is said."""
    circuit = READERS[path.suffix](text_of(path))
    circuit.settle()
    special = check_types(circuit, ending == ".bench")
    is_design = bool(special) or ending == ".dev"
    if is_design and circuit.flip_flops:
        raise UnusableNetlist(NO_DESIGN)
    names = new_names(circuit, is_design)
    text = design_text(circuit, special, names) if is_design else bench_text(circuit, names)
    return made(circuit, names, ".dev" if is_design else ".bench", text)


def made(circuit: Circuit, names: dict[str, str], ending: str, text: str) -> Made:
    """What is made of a circuit with these names."""
    summary = f"{len(circuit.nodes)} gates, {len(circuit.flip_flops)} flip-flops, {len(circuit.inputs)} inputs"
    remarks_of_it = one_wire(circuit, names) + remarks(circuit, names)
    return Made(ending, text, summary, renamed(circuit, names), circuit.left_out, remarks_of_it)


def made_of_board(path: pathlib.Path, ending: str | None, is_of_gates: bool, is_strict: bool) -> Made:
    """What is made of a netlist of KiCad: a design of its chips or of their gates, or a netlist if gates with flip-flops are asked for."""
    board = read_board(read_kicad(text_of(path), path.suffix == ".xml"))
    if is_strict and board.unknown:
        raise UnusableNetlist("\n  ".join(["this is not understood:", *board.unknown]))
    if not any(placed.functions for placed in board.chips):
        raise UnusableNetlist("no chip of the library drives anything on this board")
    if is_of_gates and (board.has_flip_flops or ending == ".bench"):
        if ending == ".dev":
            raise UnusableNetlist(NO_DESIGN)
        return gates_of_board(board)
    if ending == ".bench":
        raise UnusableNetlist("chips are parts of a design: let OUT end in .dev, or give --gates")
    return design_of_board(board, is_of_gates)


def said_of_board(board: Board) -> list[str]:
    """What is not understood of a board, and what may not be meant."""
    return [f"not understood: {text}; what it drives may have any level" for text in board.unknown] + board.remarks


def gates_of_board(board: Board) -> Made:
    """A netlist of the gates and flip-flops of a board."""
    gates = Gates(board)
    circuit = gates.circuit
    names = {name: name for name in circuit.driven}
    found = made(circuit, names, ".bench", bench_text(circuit, names))
    found.remarks += said_of_board(board)
    if circuit.flip_flops:
        found.remarks.append("its flip-flops need clock periods: serve it with --frames")
    found.pins = pins_of(board, {key: wire for key, wire in gates.nets.items() if wire in circuit.wires})
    return found


def design_of_board(board: Board, is_of_gates: bool) -> Made:
    """A design of the chips of a board, or of their gates."""
    said = said_of_board(board)
    if board.has_flip_flops:
        board.forget_clocks()
        said.append("what flip-flops store may be either bit at each time; --gates writes a .bench, which has them over clock periods")
    design = Design(board, is_of_gates)
    nets = board.used_nets
    renamed_nets = [(design.name(net), other) for net in nets for other in net.names if other != design.name(net)]
    own = {net.name for net in nets}
    said += few([f"renamed: {other} is {name}" for name, other in renamed_nets if other in own])
    summary = f"{design.count} {'gates' if is_of_gates else 'chips'}, {sum(net.is_input for net in nets)} inputs"
    text = design.text()
    flat = read_design(text)
    said += too_large(len(flat.parts), len(flat.wires))
    return Made(".dev", text, summary, renamed_nets, [], said, pins_of(board, design.names))


def few(lines: list[str]) -> list[str]:
    """The first of many lines, all of which the table of names has."""
    more = len(lines) - SHOWN
    return lines if more <= 0 else [*lines[:SHOWN], f"{lines[0].split(':')[0]}: {more} more, which the table of names has"]


def pins_of(board: Board, wires: dict[int, str]) -> list[str]:
    """A line for each pin that a probe reaches: its wire here, the pin, its name on the chip, what it is, and what is on the chip."""
    return ["\t".join([wires[id(net)], *words]) for net, words in board.pins if id(net) in wires]


def new_names(circuit: Circuit, is_design: bool) -> dict[str, str]:
    """The name that each wire has from now on: one of its own that is legal and short, or else a number."""
    named: dict[str, list[str]] = {}
    for name in [*circuit.driven, *circuit.joined]:
        named.setdefault(circuit.find(name), []).append(name)
    legal = re.compile(r"[!-~]+")
    barred = set("(),=#$" + ("." if is_design else ""))
    inputs, outputs, taken, found = set(circuit.inputs), set(circuit.outputs), set(circuit.driven), {}
    numbers = (f"n{number:04}" for number in range(1, len(taken) * 2 + 2))
    free = (name for name in numbers if name not in taken)
    for wire in [*circuit.inputs, *circuit.flip_flops, *(node.output for node in circuit.nodes)]:
        fit = [name for name in named[wire] if len(name) <= LONGEST_NAME and legal.fullmatch(name) and not barred & set(name)]
        best = min(fit, key=lambda name: (name != wire or wire not in inputs, name not in outputs, len(name)), default="")
        found[wire] = best or next(free)
    return found


def type_of(node: Node) -> str:
    """The name of the type that a table gets."""
    return TYPE_NAMES.get((len(node.inputs), node.table), f"LUT{len(node.inputs)}_{node.table:X}")


def check_types(circuit: Circuit, is_bench_wanted: bool) -> list[Node]:
    """The gates that need a type. Raises `UnusableNetlist` if one is too large, or if no types may be used."""
    special = [node for node in circuit.nodes if kind_of(node) is None]
    for node in special:
        if len(node.inputs) >= MOST_PORTS:
            text = f"the table of {node.output} has {len(node.inputs)} inputs, and a type has at most {MOST_PORTS - 1}"
            circuit.fault(text, TO_PLAIN_CELLS)
    words = ", ".join(sorted(set(map(type_of, special))))
    if special and circuit.flip_flops:
        circuit.fault(f"the gates {words} need a design (.dev), which has no flip-flops", TO_PLAIN_CELLS)
    elif special and is_bench_wanted:
        circuit.fault(f"the gates {words} need types: let OUT end in .dev", TO_PLAIN_CELLS)
    circuit.check()
    return special


def bench_text(circuit: Circuit, names: dict[str, str]) -> str:
    """The circuit as a netlist."""
    lines = [f"INPUT({names[name]})" for name in circuit.inputs]
    lines += [f"OUTPUT({name})" for name in dict.fromkeys(names[circuit.find(name)] for name in circuit.outputs)]
    lines += [f"{names[output]} = DFF({names[reads]})" for output, reads in circuit.flip_flops.items()]
    lines += [f"{names[node.output]} = {kind_of(node)}({', '.join(names[name] for name in node.inputs)})" for node in circuit.nodes]
    return "\n".join(lines) + "\n"


def type_lines(node: Node) -> list[str]:
    """A type whose rows are those of a table. If it is faulty it may put out anything."""
    count = len(node.inputs)
    ports = " ".join([f"i{place}" for place in range(1, count + 1)] + ["y"])
    rows = []
    for index in range(1 << count):
        bits = "".join(str(index >> place & 1) for place in range(count))
        rows.append(f"ok {bits}{node.table >> index & 1}")
    return [f"type {type_of(node)} {ports}", *sorted(rows), "end", ""]


def design_text(circuit: Circuit, special: Sequence[Node], names: dict[str, str]) -> str:
    """The circuit as a design of one block, whose ports are the inputs and outputs."""
    lines = []
    for node in {type_of(node): node for node in special}.values():
        lines += type_lines(node)
    ports = list(dict.fromkeys([names[name] for name in circuit.inputs] + [names[circuit.find(name)] for name in circuit.outputs]))
    inner = [name for name in (names[node.output] for node in circuit.nodes) if name not in set(ports)]
    lines.append(" ".join(["block", TOP, *ports]))
    lines += [" ".join(["wire", *inner[at : at + WIRES_ON_A_LINE]]) for at in range(0, len(inner), WIRES_ON_A_LINE)]
    for node in circuit.nodes:
        arguments = " ".join(names[name] for name in [*node.inputs, node.output])
        lines.append(f"part {names[node.output]} {kind_of(node) or type_of(node)} {arguments}")
    return "\n".join([*lines, "end", "", f"top {TOP}"]) + "\n"


def renamed(circuit: Circuit, names: dict[str, str]) -> list[tuple[str, str]]:
    """The new name and the old one where they differ."""
    pairs = [(names.get(circuit.find(name), name), name) for name in dict.fromkeys([*circuit.driven, *circuit.joined])]
    return [(new, old) for new, old in pairs if new != old]


def one_wire(circuit: Circuit, names: dict[str, str]) -> list[str]:
    """Which pins are one wire, and so have one name here."""
    pins: dict[str, list[str]] = {}
    for pin in dict.fromkeys([*circuit.inputs, *circuit.outputs]):
        pins.setdefault(names[circuit.find(pin)], []).append(pin)
    return [f"one wire: {' '.join(found)}; its name is {name}" for name, found in pins.items() if len(found) > 1]


def remarks(circuit: Circuit, names: dict[str, str]) -> list[str]:
    """What is taken as it is, and may not be meant: a loop of gates, and more than `diag` serves."""
    said = []
    if loop := circuit.loop():
        shown = " ".join(names[name] for name in loop[:SHOWN])
        said.append(f"a loop of {len(loop)} gates: {shown}{' ..' * (len(loop) > SHOWN)}; its wires may have any bits that fit all of them")
    return said + too_large(len(circuit.nodes) + len(circuit.flip_flops), len(circuit.wires))


def too_large(parts: int, wires: int) -> list[str]:
    """Whether a device has more than `diag` serves."""
    told = f"too large: diag serves at most {MOST_PARTS} parts and {MOST_WIRES} wires, and these are {parts} and {wires}"
    return [told] * (parts > MOST_PARTS or wires > MOST_WIRES)


def convert(path: pathlib.Path, out: pathlib.Path | None = None, is_of_gates: bool = False, is_strict: bool = False) -> list[str]:
    """Converts a file, and says what was written. Without `out` the new file has the old name with another ending. No file is replaced
    that was not made so, except `out`. Of a board the parts are its chips, or their gates; if it is strict, all of it has to be understood.
    """
    if out is not None and out.suffix not in (".bench", ".dev"):
        raise UnusableNetlist(f"the name of {out} does not end in .bench or .dev")
    ending = out.suffix if out else None
    if path.suffix in BOARDS:
        found = made_of_board(path, ending, is_of_gates, is_strict)
    elif path.suffix not in READERS:
        hint = FROM_VERILOG if path.suffix in (".v", ".sv") else ""
        raise UnusableNetlist(f"the name of the file ends in {', '.join([*READERS, *BOARDS])}{hint}")
    elif is_of_gates or is_strict:
        raise UnusableNetlist("--gates and --strict are for the netlist of a board")
    else:
        found = made_of_circuit(path, ending)
    return write(path, out, found)


def write(path: pathlib.Path, out: pathlib.Path | None, found: Made) -> list[str]:
    """Writes what was made of a file, with its tables beside it, and says so."""
    is_named = out is not None
    out = out or path.with_suffix(found.ending)
    if out.exists() and out.samefile(path):
        is_named, out = False, path.with_name(f"{path.stem}-diag{out.suffix}")
    rows = [f"{new}\t{old}" for new, old in found.renamed] + [f"# left out: {text}" for text in found.left_out]
    tables = [(out.with_name(out.name + ".names"), NAMES, rows, f"{len(found.renamed)} names that were replaced")]
    tables += [(out.with_name(out.name + ".pins"), PINS, found.pins, f"{len(found.pins)} pins and test points")]
    # `-o` names the file and not its tables, so it lets the file alone be replaced.
    in_the_way = [(out, "or this one to replace it")] * (not is_named) + [(table[0], "or move that file") for table in tables]
    for file, advice in in_the_way:
        if file.exists() and not is_made_here(file):
            raise UnusableNetlist(f"{file} is there, and diag-netlist has not made it: give another name by -o, {advice}")
    title = f"{MADE}{' '.join(path.name.split())}{MADE_BY}"
    before = title_of(out) if out.is_file() and is_made_here(out) else title
    write_whole(out, f"{title}\n{found.text}".encode("utf-8", "surrogateescape"))
    said = [f"{out}: {found.summary}"]
    for table, head, lines, summary in tables:
        # The table of another netlist would be worse than none, if there is no room for the new one.
        table.unlink(missing_ok=True)
        if lines:
            write_whole(table, "\n".join([head, *lines, ""]).encode("utf-8", "surrogateescape"))
            said.append(f"{table}: {summary}")
    if before != title:
        said.append(f"{out} is no longer the one that was made of {before.removeprefix(MADE).removesuffix(MADE_BY)}")
    gates = [f"left out: {text}" for text in found.left_out if text.startswith("gate ")]
    others = [f"left out: {text}" for text in found.left_out if not text.startswith("gate ")]
    return said + found.remarks + others + few(gates)


def main(words: Sequence[str] | None = None) -> int:
    """Does what the words say, and gives the exit status."""
    parser = argparse.ArgumentParser(prog="diag-netlist", description=__doc__.split(": ")[1].strip() if __doc__ else None)
    what = "BLIF or JSON (.blif, .json) of yosys, a .bench of ABC, or a board of KiCad (.net, .xml)"
    parser.add_argument("file", metavar="FILE", type=pathlib.Path, help=what)
    parser.add_argument("-o", "--output", metavar="OUT", type=pathlib.Path, help="a .bench or .dev; else FILE with that ending")
    parser.add_argument("--gates", action="store_true", help="of a board, the parts are the gates and not the chips")
    parser.add_argument("--strict", action="store_true", help="refuse a board with something that is not understood")
    open_streams()
    try:
        if weighted.is_asked(words):
            return weighted.main(words)
        try:
            given = parser.parse_args(words)
        finally:
            # It may be the help.
            sys.stdout.flush()
        interrupts.raise_again()
        print("\n".join(convert(given.file, given.output, given.gates, given.strict)), flush=True)
    except KeyboardInterrupt:
        print("diag-netlist: interrupted", file=sys.stderr)
        return interrupts.STATUS
    except BrokenPipeError:
        # Nobody reads what is said.
        return 1
    except (DiagError, OSError) as error:
        print(f"diag-netlist: {'' if isinstance(error, OSError) else f'{given.file}: '}{sentence(error)}", file=sys.stderr)
        return 1
    finally:
        drop_unwritten()
    return 0
