"""A device as a graph that Graphviz draws: its gates by kind, what was seen on its wires, and which parts are blamed."""

from __future__ import annotations

import collections
import html
import os
from collections.abc import Iterable

from ..case import Case
from ..devices import FLIP_FLOP, GATES, Device, Part, Reduction, read_device
from ..errors import DiagError
from ..replies import Verdict
from ..service import Service
from .cone import Wiring, derive
from .findings import Findings

# What others look for here.
__all__ = ["MOST", "Findings", "dot_text", "picture", "picture_alone"]

# So many parts are drawn if nothing else is said.
MOST = 60

# A gate's shape says what is asked of its inputs, and a circle at its output that it negates.
SHAPES = {Reduction.ALL_ONES: "box", Reduction.ANY_ONE: "ellipse", Reduction.ODD_ONES: "hexagon"}
ONE_INPUT_SHAPE = "house"
# A house that lies on its side points to the right, and has room for its text with almost no margin.
ONE_INPUT_STYLE: dict[str, object] = {"orientation": 270, "margin": "0.06,0.02"}
FLIP_FLOP_SHAPE = "box3d"
TABLE_SHAPE = "component"
FILLS = {Verdict.ALWAYS: "#f98b7b", Verdict.SOMETIMES: "#fdcc8a", Verdict.NEVER: "white"}
BITS = {0: "#cfe2f3", 1: "#fff2a8"}
HELD = {"ok": "#1a7f37", "bad": "#b30000"}
WRONG = "#d7191c"
NEXT = "#1f4fbf"
LINE = "#444444"
EXPECTED = "#666666"


class Markup(str):
    """A text in Graphviz's own language of tags."""


def shape(kind: str) -> str:
    """The shape of the parts of a kind."""
    gate = GATES.get(kind)
    if gate is None:
        return FLIP_FLOP_SHAPE if kind == FLIP_FLOP else TABLE_SHAPE
    return ONE_INPUT_SHAPE if gate.most_inputs == 1 else SHAPES[gate.reduction]


def is_negated(part: Part) -> bool:
    """Whether a part is a gate that puts out the opposite of what is asked of its inputs."""
    return part.kind in GATES and not GATES[part.kind].positive


def quoted(text: str) -> str:
    """A text as Graphviz reads it back; a line feed begins a new line."""
    if isinstance(text, Markup):
        return f"<{text}>"
    escaped = text.replace("\\", "\\\\").replace('"', '\\"').replace("\n", "\\n")
    return f'"{escaped}"'


def attributes(**given: object) -> str:
    """Attributes of a node, an edge or a graph."""
    return "[" + " ".join(f"{name}={quoted(value if isinstance(value, str) else str(value))}" for name, value in given.items()) + "]"


def label(lines: Iterable[tuple[str, str]]) -> str:
    """A text of lines, each with a grey part at its end."""
    lines = list(lines)
    if not any(grey for _, grey in lines):
        return "\n".join(text for text, _ in lines)
    rows = (html.escape(text) + (f' <font color="{EXPECTED}">{html.escape(grey)}</font>' if grey else "") for text, grey in lines)
    return Markup("<br/>".join(rows))


class Drawing:
    """The text of the graph, as it grows."""

    def __init__(self, device: Device, found: Findings, most: int) -> None:
        if most < 1:
            raise ValueError(f"at least one part is drawn, and not {most}")
        self.device = device
        self.found = found
        self.wiring = Wiring(device)
        self.blocks_in: dict[str, list[str]] = collections.defaultdict(list)
        for path in device.blocks:
            self.blocks_in[path.rpartition(".")[0]].append(path)
        self.nodes: dict[str, list[str]] = collections.defaultdict(list)
        self.edges: list[str] = []
        self.readings = found.by_wire(found.case.seen)
        self.expected = found.by_wire(found.expected)
        self.wrong = {found.wire_of(name)[0] for name in found.wrong()}
        self.following = found.wire_of(found.following)[0] if found.following else None
        self.drawn, self.choice = self._chosen(most)

    def text(self, title: str) -> str:
        """The whole text."""
        parts = [part for part in self.device.parts if part.name in self.drawn]
        for part in parts:
            self._draw_part(part)
        touched = {wire for part in parts for wire in part.wires}
        for wire in self.device.wires:
            if wire in touched or not self.wiring.ends[wire] and len(self.drawn) == len(self.device.parts):
                self._draw_wire(wire)
        style = attributes(rankdir="LR", labelloc="t", fontname="Helvetica", fontsize=12, ranksep=0.4, nodesep=0.25)
        told = [title, self.found.summary()] + ([self.choice] if self.choice else [])
        lines = ["digraph device {", f"  graph {style}", f"  label={self._heading(told, parts)}"]
        lines += ["  node " + attributes(fontname="Helvetica", fontsize=11, style="filled", fillcolor="white", color=LINE)]
        lines += ["  edge " + attributes(fontname="Helvetica", fontsize=9, color=LINE, arrowsize=0.6)]
        lines += self._clustered("", "  ") + [f"  {edge}" for edge in self.edges] + ["}"]
        # A file's name may be no text.
        return "\n".join(lines).encode("utf-8", "surrogateescape").decode("utf-8", "replace") + "\n"

    def _chosen(self, most: int) -> tuple[frozenset[str], str]:
        """The parts that are drawn, and what the title says of the choice."""
        count = len(self.device.parts)
        if count <= most:
            return frozenset(self.wiring.parts), ""
        wrong = sorted(self.wrong)
        suspects = self.found.suspects()
        if suspects:
            found = self.wiring.cone(suspects, wrong or self.readings)
            which = f"between the suspects and {'the wrong readings' if wrong else 'what was seen'}"
        elif wrong:
            known = derive(self.device, self.found.case.seen, self.found.frames)
            basis = {name for reading in self.found.wrong() if reading in known for name in known[reading].by}
            drivers = [name for wire in wrong for name in self.wiring.before(wire)]
            found = [name for name in self.wiring.nearest(drivers) if name in basis or name in drivers]
            which = "from which the expected bits of the wrong readings follow"
        else:
            begun = [name for wire in self.readings for name in self.wiring.before(wire) + self.wiring.after(wire)]
            found = self.wiring.nearest(begun or self.wiring.parts)
            which = "nearest to what was seen" if begun else "that come first by name"
        marked = [name for wire in [self.following, *wrong] if wire is not None for name in self.wiring.before(wire)]
        order = list(dict.fromkeys([*suspects, *marked, *found]))
        of = f"{most} of {len(order)}" if most < len(order) else str(len(order))
        return frozenset(order[:most]), f"of {count} parts {of} are drawn: those {which}"

    def _is_edge(self, wire: str) -> bool:
        """Whether a wire is drawn as edges from the gate that drives it to those that read it, since there is nothing to say of it."""
        ends = [part for part in self.wiring.ends[wire] if part.name in self.drawn]
        drivers = self.wiring.drivers[wire]
        is_marked = bool(self.readings.get(wire)) or wire == self.following
        readers = [part for part in ends if part not in drivers or wire in part.wires[:-1]]
        is_whole = len(ends) == len(self.wiring.ends[wire]) and all(part.is_directed for part in ends)
        return not is_marked and len(drivers) == 1 and bool(readers) and is_whole

    def _draw_part(self, part: Part) -> None:
        verdict = self.found.verdicts.get(part.name, Verdict.NEVER)
        held = self.found.case.held.get(part.name)
        # The wire has no node of its own then that could say it.
        has_bits = part.is_directed and part.wires[-1] == part.name and self._is_edge(part.name)
        lines = [(part.name, ""), (part.kind, self._expectation(part.name) if has_bits else "")]
        lines += ([(str(verdict), "")] if verdict is not Verdict.NEVER else []) + ([(f"held {held}", "")] if held else [])
        style: dict[str, object] = {"label": label(lines), "shape": shape(part.kind), "fillcolor": FILLS[verdict]}
        if style["shape"] == ONE_INPUT_SHAPE:
            style |= ONE_INPUT_STYLE
        if held:
            style |= {"color": HELD[held], "penwidth": 3}
        self.nodes[self._home(part.name)].append(f"{quoted('part ' + part.name)} {attributes(**style)};")

    def _draw_wire(self, wire: str) -> None:
        ends = [part for part in self.wiring.ends[wire] if part.name in self.drawn]
        if self._is_edge(wire):
            driver = self.wiring.drivers[wire][0]
            told = {} if wire == driver.name else {"label": label([(wire.rpartition(".")[2], self._expectation(wire))])}
            for reader in ends:
                if reader is not driver or wire in reader.wires[:-1]:
                    self._edge("part " + driver.name, "part " + reader.name, driver, **told)
            return
        others = len(self.wiring.ends[wire]) - len(ends)
        self.nodes[self._home(wire)].append(f"{quoted('wire ' + wire)} {self._wire_style(wire, others)};")
        for part in ends:
            for port, end in enumerate(part.wires):
                if end == wire:
                    self._connect(part, port, wire)

    def _connect(self, part: Part, port: int, wire: str) -> None:
        is_last = port == len(part.wires) - 1
        here, there = ("part " + part.name, "wire " + wire) if is_last else ("wire " + wire, "part " + part.name)
        if part.is_directed:
            self._edge(here, there, part if is_last else None)
            return
        ports = self.device.ports.get(part.kind, ())
        name = {"taillabel" if is_last else "headlabel": f" {ports[port]} ", "labeldistance": 1.6} if port < len(ports) else {}
        self.edges.append(f"{quoted(here)} -> {quoted(there)} {attributes(dir='none', **name)};")

    def _edge(self, here: str, there: str, driver: Part | None, **style: object) -> None:
        if driver is not None and is_negated(driver):
            style |= {"dir": "both", "arrowtail": "odot"}
        self.edges.append(f"{quoted(here)} -> {quoted(there)}{' ' + attributes(**style) if style else ''};")

    def _expectation(self, wire: str) -> str:
        """The bit that a wire should have, or those that it should have at the times, one after the other."""
        bits = self.expected.get(wire)
        if not bits:
            return ""
        times = range(1, (self.found.frames or 1) + 1)
        return "= " + " ".join(str(bits.get("" if self.found.frames is None else str(time), "-")) for time in times)

    def _wire_lines(self, wire: str, others: int) -> list[tuple[str, str]]:
        """What a wire's node says: its bits as they were seen, and in grey what they should be if they are not seen so."""
        bits, expected = self.readings.get(wire, {}), self.expected.get(wire, {})
        if not bits:
            lines = [(wire, self._expectation(wire))]
        else:
            told = {time: f"expected {expected[time]}" if expected.get(time, bit) != bit else "" for time, bit in bits.items()}
            rows = [(f"@{time} = {bit}" if time else f"= {bit}", told[time]) for time, bit in bits.items()]
            lines = [(f"{wire} {rows[0][0]}", rows[0][1])] if len(rows) == 1 else [(wire, ""), *rows]
        if wire == self.following and self.found.following is not None:
            time = self.found.wire_of(self.found.following)[1]
            lines.append((f"measure next{f' @{time}' if time else ''}", ""))
        return lines + ([(f"+{others} part{'s' * (others > 1)}", "")] if others else [])

    def _wire_style(self, wire: str, others: int) -> str:
        bits = self.readings.get(wire, {})
        text = label(self._wire_lines(wire, others))
        frame: dict[str, object] = {"color": WRONG, "penwidth": 3} if wire in self.wrong else {}
        if wire == self.following:
            frame = {"color": NEXT, "penwidth": 3}
        if not bits and not frame:
            return attributes(label=text, shape="plaintext", style="", fontsize=10)
        fill = BITS[next(iter(bits.values()))] if len(set(bits.values())) == 1 else "white"
        return attributes(label=text, shape="note", fillcolor=fill, fontsize=10, **frame)

    def _home(self, name: str) -> str:
        """The path of the instance of a block that a name is in."""
        path = name.rpartition(".")[0]
        return path if path in self.device.blocks else ""

    def _clustered(self, path: str, indent: str) -> list[str]:
        """The nodes of an instance, and within it those of its blocks."""
        lines = [indent + node for node in self.nodes[path]]
        for inner in self.blocks_in[path]:
            within = self._clustered(inner, indent + "  ")
            if within:
                told = f"{inner}: {self.device.blocks[inner]}"
                style = attributes(label=told, style="rounded", color="#999999", bgcolor="#f7f7f7", labelloc="t")
                lines += [f"{indent}subgraph {quoted('cluster ' + inner)} {{", f"{indent}  graph {style};", *within, f"{indent}}}"]
        return lines

    def _heading(self, told: Iterable[str], parts: Iterable[Part]) -> str:
        """The picture's title and its legend, as a table in Graphviz's own language."""
        cells = [
            ("faulty in all diagnoses", FILLS[Verdict.ALWAYS], LINE), ("in some", FILLS[Verdict.SOMETIMES], LINE),
            ("in none", FILLS[Verdict.NEVER], LINE),
        ]
        cells = [] if self.found.refusal else cells
        cells += [("seen as 0", BITS[0], LINE), ("as 1", BITS[1], LINE)]
        if self.wrong:
            cells += [("not as expected", "white", WRONG)]
        if self.found.case.held:
            cells += [("held ok", "white", HELD["ok"]), ("held bad", "white", HELD["bad"])]
        row = "".join(f'<td bgcolor="{fill}" color="{edge}">{text}</td>' for text, fill, edge in cells)
        if self.expected:
            row += f'<td border="0"><font color="{EXPECTED}">grey: if all parts are ok</font></td>'
        if any(map(is_negated, parts)):
            row += '<td border="0">a circle at an output: negated</td>'
        title = "<br/>".join(html.escape(text) for text in told)
        return (
            f'<<table border="0" cellborder="0"><tr><td>{title}</td></tr>'
            '<tr><td><font point-size="9"><table border="0" cellborder="1" cellspacing="3">'
            f"<tr>{row}</tr></table></font></td></tr></table>>"
        )


def dot_text(device: Device, found: Findings, title: str, most: int = MOST) -> str:
    """The device and what was found as a graph in Graphviz's language.

    If there are more parts than the most, only those are drawn that lie between the suspects and the readings that are not as expected,
    and the title says so.

    >>> from diag_client.devices import read_netlist
    >>> print(dot_text(read_netlist("INPUT(a)\\ny = NOT(a)\\n"), Findings(Case({"a": 0}), {}, 0), "one gate"))
    digraph device {
    ...
      "wire a" [label="a = 0" shape="note" fillcolor="#cfe2f3" fontsize="10"];
    ...
    """
    return Drawing(device, found, most).text(title)


def picture(service: Service, script: Iterable[str] | None, name: str | None, most: int) -> str:
    """The text of the picture of what is served, in the case at the end of a script."""
    check_drawable(service)
    with service.session_from(Case() if script is None else Case.from_script(script, name)) as session:
        return dot_text(read_device(service.file), Findings.of(session), service.title, most)


def check_drawable(service: Service) -> None:
    """Raises `DiagError` if what is served is a graph."""
    if service.file.suffix not in (".bench", ".dev"):
        raise DiagError(f"{service.file.name} has no gates: only a netlist or a design can be drawn")


def picture_alone(
    file: str | os.PathLike[str], frames: int | None, script: Iterable[str] | None, name: str | None, most: int, refusal: str
) -> str:
    """The text of the picture of a device that the program has read, and refuses to compile: there is no blame in it."""
    device = read_device(file)
    times = [""] if frames is None else [f"@{time:04}" for time in range(1, frames + 1)]
    names = {
        "wire": frozenset(wire + time for wire in device.wires for time in times), "part": frozenset(part.name for part in device.parts),
    }

    def known(command: str, name: str) -> str:
        noun = "wire" if command.endswith("see") else "part"
        if name not in names[noun]:
            raise ValueError(f"no {noun} {name}")
        return name

    case = Case() if script is None else Case.from_script(script, name, known)
    expected = {wire: row.bit for wire, row in derive(device, case.seen, frames).items()}
    title = f"{os.path.basename(file)}: {len(device.parts)} parts, {len(device.wires)} wires"
    return dot_text(device, Findings(case, {}, None, frames, expected, None, refusal), title, most)
