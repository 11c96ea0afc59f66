"""Compares results with those of gringo and clasp, which know the device by its gates and rows alone, and search in another way."""

from __future__ import annotations

import json
import shutil
import subprocess
from collections.abc import Iterable, Iterator, Mapping, Sequence
from concurrent.futures import ThreadPoolExecutor
from typing import Any

from ..devices import GATES, copies, other_names, read_device, wires_of
from ..errors import DiagError, shown
from .columns import Columns
from .stream import BoardRows, Layout

NEEDED = ("gringo", "clasp")
# clasp may take so many seconds for a board.
PATIENCE = 60
SOLVE = ["clasp", "--opt-mode=optN", "--project=project", "--quiet=1", "--outf=2", f"--time-limit={PATIENCE}"]
# A wire may have any bit in each pattern. A part that is ok has the output that its gate asks for, or a row that its type allows.
ENCODING = """
{ faulty(P) : part(P,C) }.
{ on(Q,W) : wire(W) } :- pattern(Q).
low(Q,G) :- reads(G,I,W), pattern(Q), not on(Q,W).
value(Q,G) :- gate(G,P,"ALL_ONES",S), pattern(Q), not low(Q,G).
value(Q,G) :- gate(G,P,"ANY_ONE",S), reads(G,I,W), on(Q,W).
value(Q,G) :- gate(G,P,"ODD_ONES",S), pattern(Q), N = #count { I : reads(G,I,W), on(Q,W) }, N \\ 2 = 1.
:- gate(G,P,K,1), not faulty(P), puts(G,W), value(Q,G), not on(Q,W).
:- gate(G,P,K,1), not faulty(P), puts(G,W), pattern(Q), not value(Q,G), on(Q,W).
:- gate(G,P,K,0), not faulty(P), puts(G,W), value(Q,G), on(Q,W).
:- gate(G,P,K,0), not faulty(P), puts(G,W), pattern(Q), not value(Q,G), not on(Q,W).
has(Q,G,M,R) :- of(G,P,T), row(T,M,R), pattern(Q), on(Q,W) : port(G,I,W), bit(T,M,R,I,1); not on(Q,W) : port(G,I,W), bit(T,M,R,I,0).
:- of(G,P,T), pattern(Q), not faulty(P), not has(Q,G,ok,R) : row(T,ok,R).
:- of(G,P,T), pattern(Q), faulty(P), row(T,bad,_), not has(Q,G,bad,R) : row(T,bad,R).
#minimize { C,P : faulty(P), part(P,C) }.
#project faulty/1.
#show faulty/1.
"""


def _quoted(name: str) -> str:
    return '"' + name.replace("\\", "\\\\").replace('"', '\\"') + '"'


def program_of(path: str, frames: int | None) -> str:
    """A device as facts below the encoding."""
    device = read_device(path)
    facts = [f"part({_quoted(part.name)},{device.cost(part)})." for part in device.parts]
    facts += [f"wire({_quoted(wire)})." for wire in wires_of(device, frames)]
    for number, part in enumerate(copies(device, frames)):
        wires = [_quoted(wire) for wire in part.wires]
        if part.kind in device.types:
            facts.append(f"of({number},{_quoted(part.name)},{_quoted(part.kind)}).")
            facts += [f"port({number},{place},{wire})." for place, wire in enumerate(wires)]
        else:
            gate = GATES[part.kind]
            facts.append(f'gate({number},{_quoted(part.name)},"{gate.reduction.name}",{int(gate.positive)}).')
            facts += [f"reads({number},{place},{wire})." for place, wire in enumerate(wires[:-1])]
            facts.append(f"puts({number},{wires[-1]}).")
    for name, kind in device.types.items():
        for mode, rows in (("ok", kind.ok), ("bad", kind.bad)):
            for number, row in enumerate(rows):
                facts.append(f"row({_quoted(name)},{mode},{number}).")
                facts += [f"bit({_quoted(name)},{mode},{number},{place},{bit})." for place, bit in enumerate(row)]
    return ENCODING + "\n".join(facts) + "\n"


def case_of(patterns: Sequence[Mapping[str, int]]) -> str:
    """What was seen, pattern by pattern."""
    lines = [f"pattern(1..{len(patterns)})."]
    for number, seen in enumerate(patterns, 1):
        lines += [f":- {'not ' if bit else ''}on({number},{_quoted(wire)})." for wire, bit in seen.items()]
    return "\n".join(lines) + "\n"


def solved(program: str, most: int) -> tuple[int | None, set[frozenset[str]]] | None:
    """The least cost, None if nothing explains the case, and the first sets of that cost, in any order. None if clasp takes too long."""
    ground = subprocess.run(["gringo"], input=program.encode(), capture_output=True, check=True)
    done = subprocess.run([*SOLVE, "-n", str(most)], input=ground.stdout, capture_output=True, check=False)
    told = json.loads(done.stdout)
    if told["Result"] == "UNSATISFIABLE":
        return None, set()
    if told["Result"] != "OPTIMUM FOUND":
        return None
    witnesses = told["Call"][-1]["Witnesses"]
    # An atom is faulty("a"), whose name is quoted as in JSON.
    sets = {frozenset(json.loads(atom.removeprefix("faulty(").removesuffix(")")) for atom in found.get("Value", [])) for found in witnesses}
    return witnesses[-1]["Costs"][0], sets


class CrossCheck:
    """Counts in how many results the sets, or their cost, differ from those that clasp finds."""

    def __init__(self, layout: Layout, limit: int, frames: int | None) -> None:
        for name in NEEDED:
            if not shutil.which(name):
                raise DiagError(f"--check clasp needs {name}: `apt-get install gringo clasp`")
        self._layout = layout
        self._limit = limit
        self._frames = frames
        self._known: dict[str, tuple[str, Columns]] = {}
        self._threads = ThreadPoolExecutor()
        self.compared = self.differing = self.left_out = 0

    def differences(self, boards: Iterable[tuple[str, BoardRows]], lines: Iterable[bytes]) -> Iterator[str]:
        """What differs, in words: of boards, each with the path of its device, and of their results."""
        pairs = [(path, board, json.loads(line)) for (path, board), line in zip(boards, lines, strict=True)]
        asked = [(path, board, result) for path, board, result in pairs if "reason" not in result]
        for path, _, _ in asked:
            self._device(path)
        for (_, board, result), found in zip(asked, self._threads.map(self._found, asked), strict=True):
            if found is None:
                self.left_out += 1
                continue
            self.compared += 1
            cost, sets = found
            listed = {frozenset(names) for names in result["diagnoses"]}
            is_same = cost == result["cost"] and (listed == sets if result["complete"] else listed <= sets or len(sets) > self._limit)
            if not is_same:
                self.differing += 1
                here = f"cost {result['cost']} and {len(listed)} sets here"
                yield f"board {shown(board.name)}: {here}, cost {cost} and {len(sets)} sets by clasp"

    def text(self) -> str:
        """The counts."""
        return f"clasp: {self.compared} results compared, {self.differing} differ, {self.left_out} left out\n"

    def close(self) -> None:
        """Waits for nothing more."""
        self._threads.shutdown(cancel_futures=True)

    def _device(self, path: str) -> tuple[str, Columns]:
        if path not in self._known:
            columns = Columns(self._layout, wires_of(read_device(path), self._frames), other_names(path, self._frames))
            self._known[path] = program_of(path, self._frames), columns
        return self._known[path]

    def _found(self, asked: tuple[str, BoardRows, dict[str, Any]]) -> tuple[int | None, set[frozenset[str]]] | None:
        path, board, result = asked
        program, columns = self._device(path)
        # One more shows whether these are all.
        return solved(program + case_of([columns.seen(row) for row in board.rows]), self._limit + 1)
