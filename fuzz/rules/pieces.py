"""What is written: known bytes, and pieces whose meaning alone is known. Each takes itself off the front."""

import re
from dataclasses import dataclass

from . import graphs, truths
from .texts import Refused


@dataclass
class Graph:
    """A text of a graph over so many variables, with at most so many nodes, that has this truth table over the first few, for some
    bits of the others. If it has to be smooth, and is true somewhere, all variables are below its root."""
    vars: int
    few: int
    table: int
    most_nodes: int = None
    smooth: bool = False

    def take(self, out):
        """What is left after it, and what is wrong with it or none."""
        cut = graphs.cut_text(out)
        if cut is None:
            return out, "no text of a graph"
        text, rest = cut
        try:
            nodes, vars = graphs.read(text)
        except Refused as refused:
            return rest, f"the text is refused: {refused}"
        if vars != self.vars:
            return rest, f"{vars} variables and not {self.vars}"
        if graphs.written(nodes, vars) != text:
            return rest, "it is not the text of its graph"
        if self.most_nodes is not None and len(nodes) > self.most_nodes:
            return rest, f"{len(nodes)} nodes, at most {self.most_nodes} wanted"
        differs = truths.over_first(graphs.truth(nodes, vars), vars, self.few) ^ self.table
        if differs:
            return rest, f"it differs in the rows {truths.rows_of(differs, self.few)[:9]}"
        return rest, self.rough(nodes) if self.smooth else None

    def rough(self, nodes):
        """Where a graph is not smooth, or none."""
        if (place := graphs.rough(nodes)) is not None:
            return f"the or {place} is not smooth"
        missing = set(range(1, self.vars + 1)) - graphs.variables_below(nodes)[-1]
        return f"below the root no literal of {sorted(missing)}" if self.table and missing else None


@dataclass
class Text:
    """A text of a graph that is known to the byte."""
    text: bytes

    def take(self, out):
        if not out.startswith(self.text):
            return out, f"wanted {self.text[:200]!r}, got {out[:200]!r}"
        return out[len(self.text):], None


@dataclass
class Sum:
    """The last line of `plan`, with a sum of at most so much."""
    most: int

    def take(self, out):
        line = re.match(rb"sum ([0-9]+)\n", out)
        if not line or not 1 <= int(line[1]) <= self.most:
            return out, f"no sum of at most {self.most}"
        return out[line.end():], None


@dataclass
class Bits:
    """The line of too many bits: so many for each node of a graph that is compiled from clauses over so many variables, and of a sum of
    at most so much."""
    each: int
    vars: int
    most: int

    def take(self, out):
        line = re.match(rb"error: bits ([0-9]+) above %d\n" % graphs.BITS_LIMIT, out)
        nodes, rest = divmod(int(line[1]) if line else 0, self.each)
        sum, left = divmod(nodes - 2 * self.vars - 2, 3)
        if rest or left or not 1 <= sum <= self.most or nodes * self.each <= graphs.BITS_LIMIT:
            return out, f"no bits above the limit, {self.each} for each node of a sum of at most {self.most}, got {out[:200]!r}"
        return out[line.end():], None


def complaint(pieces, out):
    """What is wrong with what was written, or none."""
    rest = out
    for piece in pieces:
        if isinstance(piece, bytes):
            if not rest.startswith(piece):
                return f"wanted {piece[:200]!r}, got {rest[:200]!r}"
            rest = rest[len(piece):]
        else:
            rest, wrong = piece.take(rest)
            if wrong:
                return wrong
    return f"more than wanted: {rest[:200]!r}" if rest else None
