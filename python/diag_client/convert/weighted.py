"""`diag-netlist --wcnf FILE CASE`: writes a case over a device as weighted CNF, as the MaxSAT evaluations have it, for other tools.

The clauses are those of docs/definitions/clauses.md. A part has a variable that is true if it is ok, and to let it be false costs what the
failure of the part costs. So what an optimum costs is the least cost of a set of faulty parts.
"""

from __future__ import annotations

import argparse
import itertools
import pathlib
import sys
from collections.abc import Iterator, Mapping, Sequence

from .. import interrupts
from ..case import Case
from ..devices import FLIP_FLOP, GATES, Device, Gate, Part, Reduction, Type, copies, other_names, read_device, wires_of
from ..errors import BadScript, DiagError, sentence, shown
from ..files import write_whole

Clause = list[int]
# A gate with more inputs has a chain of inner variables.
MOST_INPUTS = 4
MOST_FRAMES = 64


def _literal(variable: int, bit: bool) -> int:
    return variable if bit else -variable


def _rows(count: int) -> Iterator[tuple[int, ...]]:
    """All rows of bits upwards, the first port being the lowest bit."""
    return (row[::-1] for row in itertools.product((0, 1), repeat=count))


def _forbidden(row: Sequence[int], ports: Sequence[int]) -> Clause:
    """The literals that are false in a row."""
    return [_literal(port, not bit) for port, bit in zip(ports, row, strict=True)]


def gate_clauses(gate: Gate, ok: int, reads: Sequence[int], output: int) -> list[Clause]:
    """What a gate of a few inputs asks for if it is ok."""
    if gate.reduction is Reduction.ODD_ONES:
        return [[-ok, *_forbidden(row, reads), _literal(output, sum(row) % 2 == gate.positive)] for row in _rows(len(reads))]
    # That some are 1 is that not all are 0.
    is_any = gate.reduction is Reduction.ANY_ONE
    y, xs = _literal(output, gate.positive != is_any), [_literal(read, not is_any) for read in reads]
    return [*([-ok, -y, x] for x in xs), [-ok, y, *(-x for x in xs)]]


def step_clauses(reduction: Reduction, z: int, before: int, x: int) -> list[Clause]:
    """That an inner variable says of two others what is asked."""
    if reduction is Reduction.ODD_ONES:
        return [[-z, before, x], [-z, -before, -x], [z, before, -x], [z, -before, x]]
    sign = 1 if reduction is Reduction.ALL_ONES else -1
    return [[-sign * z, sign * before], [-sign * z, sign * x], [sign * z, -sign * before, -sign * x]]


def type_clauses(kind: Type, ok: int, ports: Sequence[int]) -> list[Clause]:
    """That a part has no row that its type does not allow."""
    clauses = []
    for literal, allowed in ((-ok, kind.ok), (ok, kind.bad)):
        known = {tuple(map(int, row)) for row in allowed}
        # Without rows a faulty part allows all of them.
        if known or literal == -ok:
            clauses += [[literal, *_forbidden(row, ports)] for row in _rows(len(ports)) if row not in known]
    return clauses


class Clauses:
    """The clauses of a device: its variables are the parts, the wires, and then inner ones."""

    def __init__(self, device: Device, frames: int | None = None) -> None:
        wires = wires_of(device, frames)
        self.parts = {part.name: number for number, part in enumerate(device.parts, 1)}
        self.wires = {wire: number for number, wire in enumerate(wires, len(self.parts) + 1)}
        self.count = len(self.parts) + len(wires)
        self.costs = [device.cost(part) for part in device.parts]
        raw = [clause for part in copies(device, frames) for clause in self._of(device, part)]
        # A clause with both literals of a variable says nothing.
        self.clauses = [sorted(set(clause), key=abs) for clause in raw if not any(-literal in clause for literal in clause)]

    def _of(self, device: Device, part: Part) -> list[Clause]:
        ok, ports = self.parts[part.name], [self.wires[wire] for wire in part.wires]
        if part.kind in device.types:
            return type_clauses(device.types[part.kind], ok, ports)
        gate, (*reads, output) = GATES[part.kind], ports
        chain: list[Clause] = []
        if len(reads) > MOST_INPUTS:
            before = reads[0]
            for x in reads[1:-1]:
                self.count += 1
                chain += step_clauses(gate.reduction, self.count, before, x)
                before = self.count
            reads = [before, reads[-1]]
        return chain + gate_clauses(gate, ok, reads, output)

    def of_case(self, case: Case) -> list[Clause]:
        """What was seen and held. Raises DiagError for a name that the device has not."""
        held = {name: mode == "ok" for name, mode in case.held.items()}
        return [*_units("wire", self.wires, case.seen), *_units("part", self.parts, held)]


def _units(noun: str, variables: Mapping[str, int], known: Mapping[str, int]) -> Iterator[Clause]:
    for name, bit in known.items():
        if name not in variables:
            raise DiagError(f"no {noun} {shown(name)}")
        yield [_literal(variables[name], bool(bit))]


def text_of(made: Clauses, case: Case, title: str) -> str:
    """The weighted CNF: comments say which variable is what."""
    hard, top = made.clauses + made.of_case(case), sum(made.costs) + 1
    lines = [f"c {title}", "c a part's variable is true if the part is ok; an optimum is the least cost of a set of faulty parts"]
    for noun, variables in (("part", made.parts), ("wire", made.wires)):
        lines += [f"c {noun} {number} {name}" for name, number in variables.items()]
    lines.append(f"p wcnf {made.count} {len(made.parts) + len(hard)} {top}")
    lines += [f"{cost} {number} 0" for cost, number in zip(made.costs, made.parts.values(), strict=True)]
    lines += [" ".join(map(str, [top, *clause, 0])) for clause in hard]
    return "\n".join(lines) + "\n"


def _words() -> argparse.ArgumentParser:
    description = "Writes a case over a device as weighted CNF, for MaxSAT solvers."
    parser = argparse.ArgumentParser(prog="diag-netlist --wcnf", description=description)
    parser.add_argument("--wcnf", action="store_true", help=argparse.SUPPRESS)
    parser.add_argument("file", metavar="FILE", type=pathlib.Path, help="a netlist (.bench) or a design (.dev)")
    parser.add_argument("case", metavar="CASE", help="a script, whose lines `see` and `hold` say the case; - is standard input")
    parser.add_argument("-o", "--output", metavar="OUT", type=pathlib.Path, help="the file that is written; else standard output")
    parser.add_argument("--session", metavar="S", help="the session whose case it is; else the one that the script names last")
    parser.add_argument("--frames", type=int, metavar="F", choices=range(1, MOST_FRAMES + 1), help="serve flip-flops over F times")
    return parser


def write(words: Sequence[str] | None = None) -> str:
    """Does what the words say, and gives what is to be printed."""
    given = _words().parse_args(words)
    try:
        device = read_device(given.file)
    except (KeyError, IndexError, ValueError, TypeError, AssertionError):
        raise DiagError(f"{given.file}: not a device that `diag` takes: `diag plan {given.file}` says why") from None
    if given.frames is None and any(part.kind == FLIP_FLOP for part in device.parts):
        raise DiagError(f"{given.file}: the netlist has flip-flops: give --frames F, the number of clock periods that are seen")
    opened = sys.stdin if given.case == "-" else open(given.case, encoding="utf-8", errors="surrogateescape")
    with opened as script:
        others = other_names(given.file, given.frames)
        try:
            case = Case.from_script(script, given.session, lambda _, name: others.get(name, name))
        except BadScript as error:
            raise DiagError(f"{given.case}: {error}") from None
    text = text_of(Clauses(device, given.frames), case, f"{given.file.name} with the case of {given.case}")
    if given.output is None:
        return text.removesuffix("\n")
    write_whole(given.output, text.encode("utf-8", "surrogateescape"))
    return f"{given.output}: {text.count(chr(10))} lines"


def is_asked(words: Sequence[str] | None) -> bool:
    """Whether the words of `diag-netlist` ask for this."""
    return "--wcnf" in (sys.argv[1:] if words is None else words)


def main(words: Sequence[str] | None = None) -> int:
    """Does what the words say, and gives the exit status."""
    interrupts.raise_again()
    try:
        print(write(words), flush=True)
    except DiagError as error:
        sys.exit(f"diag-netlist: {sentence(error)}")
    return 0
