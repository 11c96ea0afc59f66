"""`.dev` texts and their flat devices."""

import itertools
from dataclasses import dataclass, field

from .devices import Device, GATES, Part, PARTS_LIMIT, Type, WIRES_LIMIT, takes
from .texts import Refused, is_name, lines_of, plain_number_in, words_of

FAULTS = {1: "line", 2: "name", 3: "twice", 4: "unknown", 5: "ports", 6: "row", 7: "no top", 8: "after top", 9: "cost"}
GATE_NAMES = {gate.encode(): gate for gate in GATES}
BLOCKS_LIMIT = 4096
PATH_LIMIT = 255
STILL = 18446744073709551615


@dataclass
class Block:
    name: bytes
    ports: int
    wires: list  # the ports first
    parts: dict = field(default_factory=dict)  # by name: the kind and the wires passed to it


class Fault(Exception):
    pass


def demand(holds, number):
    if not holds:
        raise Fault(number)


def plain(word):
    return is_name(word, 64) and b"." not in word


def is_set(words):
    return len(set(words)) == len(words)


def takes_arguments(kind, count):
    if isinstance(kind, str):
        return takes(kind, count - 1)
    return count == kind.ports


class Reader:
    """What was closed above a line, what is open, and the top. The tests of a line are in the order of their numbers."""

    def __init__(self):
        self.kinds = dict(GATE_NAMES)
        self.open = None
        self.has_cost = self.has_bad = False
        self.top = None

    def line(self, words):
        demand(self.top is None, 8)
        section = {type(None): "outside", Type: "in_type", Block: "in_block"}[type(self.open)]
        read = getattr(self, f"{section}_{words[0].decode('latin-1')}", None) if words[0].isalpha() else None
        demand(read, 1)
        read(words)

    def opened(self, words):
        demand(len(words) >= 2, 1)
        demand(all(map(plain, words[1:])), 2)
        demand(words[1] not in self.kinds and is_set(words[2:]), 3)

    def outside_type(self, words):
        self.opened(words)
        demand(1 <= len(words) - 2 <= 6, 5)
        self.open = Type(words[1], len(words) - 2, set(), set())
        self.has_cost = self.has_bad = False

    def outside_block(self, words):
        self.opened(words)
        self.open = Block(words[1], len(words) - 2, words[2:])

    def outside_top(self, words):
        demand(len(words) == 2, 1)
        demand(plain(words[1]), 2)
        demand(isinstance(self.kinds.get(words[1]), Block), 4)
        self.top = self.kinds[words[1]]

    def row(self, words, rows):
        demand(len(words) == 2, 1)
        demand(len(words[1]) == self.open.ports and set(words[1]) <= set(b"01"), 6)
        rows.add(tuple(byte - ord("0") for byte in words[1]))

    def in_type_ok(self, words):
        self.row(words, self.open.ok)

    def in_type_bad(self, words):
        self.row(words, self.open.bad)
        self.has_bad = True

    def in_type_cost(self, words):
        demand(len(words) == 2, 1)
        demand(not self.has_cost, 3)
        cost = plain_number_in(words[1], 1, 1000)
        demand(cost is not None, 9)
        self.open.cost = cost
        self.has_cost = True

    def close(self, words):
        demand(len(words) == 1, 1)
        self.kinds[self.open.name] = self.open
        self.open = None

    def in_type_end(self, words):
        demand(len(words) == 1, 1)
        if not self.has_bad:
            self.open.bad = set(itertools.product((0, 1), repeat=self.open.ports))
        self.close(words)

    def in_block_end(self, words):
        self.close(words)

    def in_block_wire(self, words):
        demand(len(words) >= 2, 1)
        demand(all(map(plain, words[1:])), 2)
        demand(is_set(self.open.wires + words[1:]), 3)
        self.open.wires += words[1:]

    def in_block_part(self, words):
        demand(len(words) >= 3, 1)
        demand(all(map(plain, words[1:])), 2)
        _, name, word, *passed = words
        demand(name not in self.open.parts, 3)
        kind = self.kinds.get(word)
        demand(kind is not None and all(wire in self.open.wires for wire in passed), 4)
        demand(takes_arguments(kind, len(passed)), 5)
        self.open.parts[name] = (kind, passed)


def design_of(text):
    """The top block of a design, or its first fault."""
    reader = Reader()
    for number, line in enumerate(lines_of(text), 1):
        words = words_of(line.split(b"#")[0])
        try:
            if words:
                reader.line(words)
        except Fault as found:
            raise Refused(f"error: line {number}: fault {found} {FAULTS[found.args[0]]}") from None
    if reader.top is None:
        raise Refused("error: line 0: fault 7 no top")
    return reader.top


def counts_of(block, known):
    """Of an instance of a block: its parts, its wires that are no ports, the instances in it, and its longest path."""
    if block.name not in known:
        parts, wires, blocks = 0, len(block.wires) - block.ports, 0
        path = max(map(len, [*block.wires[block.ports:], *block.parts]), default=0)
        for name, (kind, _) in block.parts.items():
            if isinstance(kind, Block):
                inner = counts_of(kind, known)
                parts, wires, blocks = parts + inner[0], wires + inner[1], blocks + inner[2] + 1
                path = max(path, len(name) + 1 + inner[3] if inner[3] else 0)
            else:
                parts += 1
        known[block.name] = parts, wires, blocks, path
    return known[block.name]


def expand(block, path, wires, parts, flat_wires):
    """The parts and the wires of an instance, to which these wires were passed."""
    own = {wire: path + wire for wire in block.wires[block.ports:]}
    flat_wires += own.values()
    own.update(zip(block.wires, wires))
    for name, (kind, passed) in block.parts.items():
        at = [own[wire] for wire in passed]
        if isinstance(kind, Block):
            expand(kind, path + name + b".", at, parts, flat_wires)
        else:
            parts.append(Part(path + name, kind, at))


def read(text):
    """The flat device of a design, or its first fault, or the first of its counts that is too great."""
    top = design_of(text)
    parts, wires, blocks, path = counts_of(top, {})
    wires += top.ports
    path = max([path, *map(len, top.wires)])
    for what, count, most in (("parts", parts, PARTS_LIMIT), ("wires", wires, WIRES_LIMIT), ("blocks", blocks, BLOCKS_LIMIT),
                              ("path", path, PATH_LIMIT)):
        if count > most:
            raise Refused(f"error: {what} {min(count, STILL)} above {most}")
    flat_parts, flat_wires = [], list(top.wires[:top.ports])
    expand(top, b"", flat_wires[:], flat_parts, flat_wires)
    return Device(flat_parts, flat_wires)
