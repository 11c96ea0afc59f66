"""`.nnf` texts: how they are read, checked, written and projected, and what they mean."""

import re
from dataclasses import dataclass

from . import truths
from .texts import Refused, lines_of, number_in, words_of

BITS_LIMIT = 2147483648
WORD = 4294967295


@dataclass
class Node:
    kind: str  # L, A or O
    number: int = 0  # the literal
    kids: tuple = ()


def small(word):
    return number_in(word, 10, 0, WORD)


def node_of(number, words, place, vars):
    """The node of a line, or its least fault."""
    def demand(holds, fault):
        if not holds:
            raise Refused(f"error: line {number}: fault {fault} {dict([(2, 'line'), (3, 'child'), (4, 'variable')])[fault]}")
    if words[0] == b"L":
        demand(len(words) == 2, 2)
        variable = small(words[1].removeprefix(b"-"))
        demand(variable is not None, 2)
        demand(1 <= variable <= vars, 4)
        return Node("L", -variable if words[1].startswith(b"-") else variable)
    demand(words[0] in (b"A", b"O"), 2)
    numbers = [small(word) for word in words[1:]]
    demand(None not in numbers, 2)
    rest = numbers[1:] if words[0] == b"O" else numbers
    demand(rest and rest[0] == len(rest) - 1 and len(numbers) - len(rest) == (words[0] == b"O"), 2)
    demand(all(kid < place for kid in rest[1:]), 3)
    return Node(words[0].decode(), 0, tuple(rest[1:]))


def parsed(text):
    """The nodes and the number of variables, or the first refusal before those that look at decomposability."""
    filled = [(number, words) for number, line in enumerate(lines_of(text), 1) if (words := words_of(line))]
    head = filled[0][1] if filled else []
    said = [number_in(word, *range_) for word, range_ in
            zip(head[1:], ((10, 1, WORD), (20, 0, 18446744073709551615), (10, 0, WORD)))]
    if len(head) != 4 or head[0] != b"nnf" or None in said:
        raise Refused("error: fault 1 header")
    nodes = []
    for number, words in filled[1:]:
        nodes.append(node_of(number, words, len(nodes), said[2]))
    for count, found in ((said[0], len(nodes)), (said[1], sum(len(node.kids) for node in nodes))):
        if count != found:
            raise Refused(f"error: fault 5 counts {count} {found}")
    return nodes, said[2]


def read(text):
    nodes, vars = parsed(text)
    if len(nodes) * vars > BITS_LIMIT:
        raise Refused(f"error: fault 6 bits {len(nodes) * vars} above {BITS_LIMIT}")
    below = variables_below(nodes)
    for place, node in enumerate(nodes):
        mentioned, shared = set(), set()
        for kid in node.kids:
            shared |= mentioned & below[kid]
            mentioned |= below[kid]
        if node.kind == "A" and shared:
            raise Refused(f"error: fault 7 shared node {place} variable {min(shared)}")
    return nodes, vars


def variables_below(nodes):
    """The variables at or below each node."""
    below = []
    for node in nodes:
        below.append({abs(node.number)} if node.kind == "L" else set().union(*(below[kid] for kid in node.kids)))
    return below


def rough(nodes):
    """The first or of whose children one has a variable below it that another one has not; none of a smooth graph."""
    below = variables_below(nodes)
    for place, node in enumerate(nodes):
        if node.kind == "O" and any(below[kid] != below[node.kids[0]] for kid in node.kids):
            return place
    return None


def edges(nodes):
    return sum(len(node.kids) for node in nodes)


def written(nodes, vars):
    """The one text of a graph."""
    lines = [f"nnf {len(nodes)} {edges(nodes)} {vars}"]
    for node in nodes:
        if node.kind == "L":
            lines.append(f"L {node.number}")
        else:
            lines.append(" ".join(map(str, [node.kind, *([0] if node.kind == "O" else []), len(node.kids), *node.kids])))
    return "".join(line + "\n" for line in lines).encode()


def truth(nodes, vars):
    """The truth table of the root."""
    values = []
    for node in nodes:
        if node.kind == "L":
            values.append(truths.literal(node.number, vars))
            continue
        value = truths.all_rows(vars) if node.kind == "A" else 0
        for kid in node.kids:
            value = value & values[kid] if node.kind == "A" else value | values[kid]
        values.append(value)
    return values[-1]


def projected(nodes, parts, held, seen):
    """The graph over the parts alone, by what is held of parts and seen of wires: of each such variable a bit."""
    known = {**held, **seen}

    def literal(number):
        variable = abs(number)
        if variable not in known:
            return Node("L", number) if variable <= parts else Node("A")
        return Node("A") if known[variable] == (number > 0) else Node("O")
    kept = [literal(node.number) if node.kind == "L" else node for node in nodes]
    literals = [Node("L", part if held[part] else -part) for part in sorted(held)]
    kids = (len(nodes) - 1, *range(len(nodes), len(nodes) + len(held)))
    return kept + literals + [Node("A", 0, kids)]


def cut_text(out):
    """One text without blank lines from the front of what was written, as its header says, and the rest; none if there is none."""
    head = re.match(rb"nnf ([0-9]{1,10}) [0-9]+ [0-9]+\n", out)
    if not head:
        return None
    end = head.end()
    for _ in range(int(head[1])):
        end = out.find(b"\n", end) + 1
        if end == 0:
            return None
    return out[:end], out[end:]
