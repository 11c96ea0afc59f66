"""The symbols of KiCad, from Debian's package kicad-symbols: which pins they have."""

import dataclasses
import pathlib
import re

FOLDER = pathlib.Path("/usr/share/kicad/symbols")
FIRST = [FOLDER / "74xx.kicad_sym", FOLDER / "4xxx.kicad_sym"]
# These have chips that the first ones have not, and more mistakes.
SECOND = [FOLDER / "74xx_IEEE.kicad_sym", FOLDER / "4xxx_IEEE.kicad_sym"]
ARE_HERE = all(library.exists() for library in FIRST + SECOND)


@dataclasses.dataclass(frozen=True)
class SymbolPin:
    """A pin of a symbol. A unit is what is drawn alone, such as one gate of a chip."""

    number: str
    name: str
    kind: str
    unit: str


def nested(text):
    """The first S-expression of a text as lists of texts."""
    stack = [[]]
    for token in re.findall(r'"(?:[^"\\]|\\.)*"|[()]|[^\s()"]+', text):
        if token == "(":
            stack.append([])
        elif token == ")":
            done = stack.pop()
            stack[-1].append(done)
        else:
            stack[-1].append(token.strip('"'))
    return stack[0][0]


def lists_of(item, word):
    """The lists in a list that begin with a word."""
    return [found for found in item if isinstance(found, list) and found[0] == word]


def pins_of(symbol):
    found = {}
    for unit in lists_of(symbol, "symbol"):
        for pin in lists_of(unit, "pin"):
            number, name = (lists_of(pin, word)[0][1] for word in ("number", "name"))
            found[number] = SymbolPin(number, name, pin[1], unit[1].split("_")[-2])
    return found


def symbols(libraries):
    """The pins of all symbols of these libraries, by the symbol's name and the pin's number."""
    found, parents = {}, {}
    for library in libraries:
        for symbol in lists_of(nested(library.read_text(encoding="utf-8")), "symbol"):
            found[symbol[1]] = pins_of(symbol)
            parents |= {symbol[1]: parent for _, parent in lists_of(symbol, "extends")}
    return found | {name: found[parent] for name, parent in parents.items()}
