"""Scripts: what each line asks, and what each session replies."""

import pathlib
import re
from bisect import bisect_right
from dataclasses import dataclass, field

from diag_client import manual

from . import truths
from .pieces import Graph, Text
from .texts import is_name, plain_number_in, words_of

LINE_LIMIT = 1048576
LIST_LIMIT = 1000000
SESSION_NAME, NAME = 64, 255
# What may follow the name of a session.
WIRE, PART, READING, MODE, COUNT, PARTS = "w", "p", "w=b", "p=m", "k", "p1 .. pk"
VALUES = {READING: {b"0": False, b"1": True}, MODE: {b"ok": True, b"bad": False}}
# What follows the session's name in each command, by the table of forms. A method of the session answers each but the first two.
TAKES = {command.encode(): " ".join(usage.words) for command, usage in manual.usages().items()}
# Refusals by their numbers, as the page has them.
SCRIPT = (pathlib.Path(__file__).resolve().parents[2] / "docs/SCRIPT.md").read_text()
REASONS = {int(number): text for number, text in re.findall("^[|] `(?:S )?error ([0-9]+) ([a-z ]+)`", SCRIPT, re.MULTILINE)}


class System:
    """What sessions are asked over. Variables are the parts, true if ok, then the wires, then others; `table` has the rows that
    are allowed. `text_of(held, seen)` gives the one text of `dnnf` if it is known, and else None. `levels` is the cost up to which
    states are listed, if they are, `least` whether the graph of the diagnoses is told, and `graphs` whether there is a graph at all."""

    def __init__(self, parts, wires, costs, table, vars, text_of=lambda held, seen: None):
        self.parts, self.wires, self.costs = parts, wires, costs
        self.table, self.vars, self.text_of = table, vars, text_of
        self.levels, self.least, self.graphs = None, False, True
        self.known, self.listed = {}, {}

    def allowed(self, held, seen):
        """The truth table of the health states that agree."""
        literals = [variable if bit else -variable for known in (held, seen) for variable, bit in known.items()]
        return truths.over_first(self.table & truths.conjunction(literals, self.vars), self.vars, len(self.parts))

    def states(self, held, seen):
        """These states in order: 1 if a part is ok, so that a faulty part comes first."""
        key = frozenset(held.items()), frozenset(seen.items())
        if key not in self.known:
            self.known[key] = truths.rows_of(self.allowed(held, seen), len(self.parts))
        return self.known[key]

    def cost(self, state):
        return sum(cost for cost, is_ok in zip(self.costs, state) if not is_ok)

    def least_cost(self, held, seen):
        return min(map(self.cost, self.states(held, seen)), default=None)

    def diagnoses(self, held, seen):
        least = self.least_cost(held, seen)
        return [state for state in self.states(held, seen) if self.cost(state) == least]

    def by_cost(self, held, seen):
        """The states that are listed, each after its cost: the cheapest first, and of one cost in their order."""
        key = frozenset(held.items()), frozenset(seen.items())
        if key not in self.listed:
            priced = sorted((self.cost(state), state) for state in self.states(held, seen))
            self.listed[key] = [pair for pair in priced if pair[0] <= self.levels]
        return self.listed[key]

    def faulty(self, state):
        return [name for name, is_ok in zip(self.parts, state) if not is_ok]


class Declined(Exception):
    """A line that asks nothing that can be done, by the number of the reason."""


def demand(holds, number):
    if not holds:
        raise Declined(number)


@dataclass
class Session:
    system: System
    seen: dict = field(default_factory=dict)  # by the variable of the wire
    held: dict = field(default_factory=dict)  # by the variable of the part: whether it is ok
    point: tuple = None

    def part(self, name):
        demand(name in self.system.parts, 10)
        return self.system.parts.index(name) + 1

    def wire(self, name):
        demand(name in self.system.wires, 9)
        return len(self.system.parts) + self.system.wires.index(name) + 1

    def see(self, name, bit):
        self.seen[self.wire(name)] = bit
        self.point = None
        return [b"ok"]

    def unsee(self, name):
        self.seen.pop(self.wire(name), None)
        self.point = None
        return [b"ok"]

    def hold(self, name, is_ok):
        self.held[self.part(name)] = is_ok
        self.point = None
        return [b"ok"]

    def unhold(self, name):
        self.held.pop(self.part(name), None)
        self.point = None
        return [b"ok"]

    def after(self, *names):
        faulty = {self.part(name) for name in names}
        self.point = tuple(int(part not in faulty) for part in range(1, len(self.system.parts) + 1))
        return [b"ok"]

    def diagnoses(self):
        return self.system.diagnoses(self.held, self.seen)

    def min(self):
        if not self.diagnoses():
            return [b"inconsistent"]
        least = self.system.least_cost(self.held, self.seen)
        return [b" ".join([b"min", b"%d" % least, *self.system.faulty(self.diagnoses()[0])])]

    def next(self):
        if not self.diagnoses():
            return [b"inconsistent"]
        rest = [state for state in self.diagnoses() if self.point is None or state > self.point]
        if not rest:
            return [b"end"]
        self.point = rest[0]
        return [b" ".join([b"diag", *self.system.faulty(rest[0])])]

    def repeated(self, step, count):
        replies = []
        while len(replies) < count and replies[-1:] not in ([b"end"], [b"inconsistent"]):
            replies += step()
        return replies

    def list(self, count):
        return self.repeated(self.next, count)

    def level(self):
        demand(self.system.levels is not None, 11)
        if not self.system.states(self.held, self.seen):
            return [b"inconsistent"]
        listed = self.system.by_cost(self.held, self.seen)
        place = 0 if self.point is None else bisect_right(listed, (self.system.cost(self.point), self.point))
        if place == len(listed):
            return [b"end"]
        cost, self.point = listed[place]
        return [b" ".join([b"level", b"%d" % cost, *self.system.faulty(self.point)])]

    def levels(self, count):
        return self.repeated(self.level, count)

    def least_with(self, wire, bit):
        if self.seen.get(wire, bit) != bit:
            return b"-"
        least = self.system.least_cost(self.held, {**self.seen, wire: bit})
        return b"-" if least is None else b"%d" % least

    def probe(self, name):
        wire = self.wire(name)
        if not self.diagnoses():
            return [b"inconsistent"]
        return [b" ".join([b"probe", name, self.least_with(wire, False), self.least_with(wire, True)])]

    def probes(self):
        if not self.diagnoses():
            return [b"inconsistent"]
        return [line for name in self.system.wires if self.wire(name) not in self.seen for line in self.probe(name)] + [b"end"]

    def blame(self):
        if not self.diagnoses():
            return [b"inconsistent"]
        replies = []
        for name, modes in zip(self.system.parts, zip(*self.diagnoses())):
            verdict = b"never" if all(modes) else b"sometimes" if any(modes) else b"always"
            replies.append(b" ".join([b"blame", name, verdict]))
        return replies + [b"end"]

    def dnnf(self):
        demand(self.system.graphs, 13)
        text, parts = self.system.text_of(self.held, self.seen), len(self.system.parts)
        return [b"dnnf", Graph(parts, parts, self.system.allowed(self.held, self.seen)) if text is None else Text(text)]

    def leastnnf(self):
        demand(self.system.least, 12)
        parts = len(self.system.parts)
        return [b"leastnnf", Graph(parts, parts, truths.table_of(self.diagnoses()), smooth=True)]


def asked(line):
    """The command, the session and the arguments of a line that asks something, or why it is declined; none of any other line."""
    demand(len(line) <= LINE_LIMIT, 5)
    words = words_of(line)
    if not words or words[0].startswith(b"#"):
        return None
    command, *rest = words
    demand(command in TAKES, 1)
    takes = TAKES[command]
    demand(len(words) >= 2 if takes == PARTS else len(words) == (3 if takes else 2), 2)
    if takes in VALUES:
        demand(b"=" in rest[1], 2)
        rest[1:] = rest[1].split(b"=", 1)
    names = rest[1:2] if takes in VALUES else [] if takes == COUNT else rest[1:]
    demand(is_name(rest[0], SESSION_NAME) and all(is_name(name, NAME) for name in names), 3)
    if takes in VALUES:
        demand(rest[2] in VALUES[takes], 4)
        rest[2] = VALUES[takes][rest[2]]
    if takes == COUNT:
        rest[1] = plain_number_in(rest[1], 1, LIST_LIMIT)
        demand(rest[1] is not None, 4)
    return command, rest[0], rest[1:]


def carried_out(system, most, table, command, name, arguments):
    """The replies of a line over the table of the open sessions, without the session's name, which no text of a graph has."""
    if command == b"open":
        demand(name not in table, 7)
        demand(len(table) < most, 8)
        table[name] = Session(system)
        return [b"open"]
    demand(name in table, 6)
    if command == b"close":
        del table[name]
        return [b"closed"]
    return getattr(table[name], command.decode())(*arguments)


def error(number):
    return f"error {number} {REASONS[number]}".encode()


def replies(system, most, script):
    """What is written to a script: bytes, and graphs if their text is left open."""
    table, pieces = {}, []
    for line in script.split(b"\n"):
        try:
            it = asked(line)
        except Declined as why:
            pieces.append(error(*why.args) + b"\n")
            continue
        if it is None:
            continue
        command, name, arguments = it
        try:
            lines = carried_out(system, most, table, command, name, arguments)
        except Declined as why:
            lines = [error(*why.args)]
        pieces += [name + b" " + reply + b"\n" if isinstance(reply, bytes) else reply for reply in lines]
    return pieces
