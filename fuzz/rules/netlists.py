"""`.bench` texts."""

import re
from dataclasses import dataclass

from .devices import Device, Part, PARTS_LIMIT, WIRES_LIMIT, takes, GATES
from .texts import Refused, is_name, lines_of

FAULTS = {1: "line", 2: "name", 3: "kind", 4: "inputs", 5: "sequential", 6: "driven twice", 7: "undriven", 8: "too many"}
FLIP_FLOP = "DFF"


@dataclass
class Statement:
    line: int
    form: str  # INPUT, OUTPUT or GATE
    signal: bytes
    kind: str = ""
    inputs: tuple = ()


def fault(line, number):
    return Refused(f"error: line {line}: fault {number} {FAULTS[number]}")


def tokens_of(line):
    """Marks and words, up to a `#`."""
    return re.findall(rb"[(),=]|[^(),= \t\r]+", line.split(b"#")[0])


def is_word(token):
    return token not in (b"(", b")", b",", b"=")


def arguments_of(tokens):
    """The words of `( a1 , .. , ak )`, k at least 0; none if it has not this form."""
    if len(tokens) < 2 or tokens[0] != b"(" or tokens[-1] != b")":
        return None
    inner = tokens[1:-1]
    if not inner:
        return ()
    words, commas = inner[::2], inner[1::2]
    well_formed = len(inner) % 2 == 1 and all(map(is_word, words)) and all(comma == b"," for comma in commas)
    return tuple(words) if well_formed else None


def statement_of(number, tokens, takes_flip_flops):
    """What a line that is not blank says, or its least fault."""
    first = tokens[0].upper()
    if first in (b"INPUT", b"OUTPUT") and len(tokens) == 4 and is_word(tokens[2]) and arguments_of(tokens[1:]):
        if not is_name(tokens[2], 64):
            raise fault(number, 2)
        return Statement(number, first.decode(), tokens[2])
    inputs = arguments_of(tokens[3:])
    if len(tokens) < 3 or not is_word(tokens[0]) or tokens[1] != b"=" or not is_word(tokens[2]) or inputs is None:
        raise fault(number, 1)
    if not all(is_name(signal, 64) for signal in (tokens[0], *inputs)):
        raise fault(number, 2)
    kind = tokens[2].upper().decode("latin-1") if tokens[2].isascii() else ""
    kind = "BUFF" if kind == "BUF" else kind
    if kind == FLIP_FLOP and not takes_flip_flops:
        raise fault(number, 5)
    if kind not in (*GATES, FLIP_FLOP):
        raise fault(number, 3)
    if not (len(inputs) == 1 if kind == FLIP_FLOP else takes(kind, len(inputs))):
        raise fault(number, 4)
    return Statement(number, "GATE", tokens[0], kind, inputs)


def read(text, takes_flip_flops=False):
    """The device of a netlist, or its first fault. Flip-flops, if they are taken, are parts of a kind that is no gate."""
    numbered = enumerate(map(tokens_of, lines_of(text)), 1)
    statements = [statement_of(number, tokens, takes_flip_flops) for number, tokens in numbered if tokens]
    outside, gates = set(), set()
    for it in statements:
        if it.form == "GATE":
            if it.signal in outside or it.signal in gates:
                raise fault(it.line, 6)
            gates.add(it.signal)
        elif it.form == "INPUT":
            if it.signal in gates:
                raise fault(it.line, 6)
            outside.add(it.signal)
    driven = outside | gates
    for it in statements:
        used = it.inputs if it.form == "GATE" else (it.signal,)
        if not driven.issuperset(used):
            raise fault(it.line, 7)
    if len(gates) > PARTS_LIMIT or len(driven) > WIRES_LIMIT:
        raise fault(0, 8)
    parts = [Part(it.signal, it.kind, [*it.inputs, it.signal]) for it in statements if it.form == "GATE"]
    return Device(parts, driven)
