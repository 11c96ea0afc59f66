"""The chips in the folder `chips`: their pins, and what is in them as gates. chips/README.md says how these files are written."""

from __future__ import annotations

import dataclasses
import enum
import functools
import importlib.resources
import re
from collections.abc import Iterable, Iterator, Mapping
from typing import NoReturn

from ..devices import GATES
from ..errors import DiagError, shown

# A type of a design has at most six ports. A gate of four inputs leaves one for its output and one for the health of its chip.
MOST_INPUTS = 4
# What the inputs of each mark are for: one of these rows. What stores a bit may have both roles of `FORCED` in any row.
MARKS = {
    "TRISTATE": (("data", "gate"),),
    "LATCH": (("data", "gate"), ("set", "clear")),
    "FLIPFLOP": (("data", "rise"), ("data", "fall")),
}
STORAGE = ("LATCH", "FLIPFLOP")
FORCED = {"set", "clear"}
# The gates that ask the same of their inputs, without an inverter at their output.
POSITIVE = {gate.reduction: kind for kind, gate in GATES.items() if gate.positive and gate.most_inputs > 1}
NAME = r"[A-Za-z0-9_]+"
# The number of a chip among what is printed on it: before it a maker and a family, after it the kind of package.
FAMILIES = "ABT ACT AC AHCT AHC ALS AS BCT C FCT F HCT HCU HC H LCX LS LVC LVT LV L S VHCT VHC"
SERIES_7400 = re.compile(rf"[A-Z]*?[57]4({'|'.join(FAMILIES.split())})?(?P<number>\d{{2,5}})([^\d].*)?")
SERIES_4000 = re.compile(r"(CD|HCF|HEF|MC1|MM|TC)?(?P<number>4\d{3,4})([^\d].*)?")


class UnusableChip(DiagError):
    """A file of chips that is not written as chips/README.md says."""


class Direction(enum.Enum):
    """What a pin does, in the words of the files."""

    IN = "in"
    OUT = "out"
    TRISTATE = "tristate"
    OPEN = "open"
    BUS = "bus"
    POWER = "power"
    UNUSED = "unused"

    @property
    def is_driven(self) -> bool:
        """Whether a function drives such a pin."""
        return self in (Direction.OUT, Direction.TRISTATE, Direction.OPEN, Direction.BUS)

    @property
    def is_read(self) -> bool:
        """Whether the level of such a pin comes from outside."""
        return self in (Direction.IN, Direction.BUS)


@dataclasses.dataclass(frozen=True)
class Pin:
    """A pin. Its number is a text, as in netlists."""

    number: str
    name: str
    direction: Direction


@dataclasses.dataclass(frozen=True)
class Function:
    """What drives a pin or an inner name: a gate of a kind in `GATES`, or a mark, whose inputs have roles."""

    output: str
    kind: str
    inputs: tuple[str, ...]
    roles: tuple[str, ...] = ()

    @property
    def reads(self) -> dict[str, str]:
        """What a mark reads, by role.

        >>> Function("Q", "LATCH", ("D", "G"), ("data", "gate")).reads
        {'data': 'D', 'gate': 'G'}
        """
        return dict(zip(self.roles, self.inputs))


@dataclasses.dataclass(frozen=True)
class Chip:
    """A chip: its numbers without letters of a family, its pins by number, and its functions in the order of its file."""

    numbers: tuple[str, ...]
    title: str
    pins: Mapping[str, Pin]
    functions: tuple[Function, ...]
    notes: tuple[str, ...] = ()


def number_in(text: str) -> str | None:
    """The number of a chip in what is printed on it, or None if this looks like no chip of the two series.

    >>> [number_in(text) for text in ("SN74LS00N", "74HC4075", "CD4011BE", "MC14011BCP", "74LVC1G00", "LM358", "100n")]
    ['7400', '4075', '4011', '4011', None, None, None]
    """
    text = text.strip().upper()
    if found := SERIES_4000.fullmatch(text):
        return found["number"]
    found = SERIES_7400.fullmatch(text)
    if found is None:
        return None
    # Chips of the 4000 series are made in families of the other, such as the 74HC4075.
    return found["number"] if len(found["number"]) == 4 and found["number"][0] == "4" else "74" + found["number"]


def find_chip(text: str) -> Chip | None:
    """The chip on which this is printed, or None if it is not in the folder.

    >>> find_chip("SN74LS00N").title, find_chip("LM358")
    ('Four NAND gates of two inputs', None)
    """
    number = number_in(text)
    return all_chips().get(number) if number else None


@functools.cache
def all_chips() -> dict[str, Chip]:
    """All chips of the folder by number."""
    found: dict[str, Chip] = {}
    folder = importlib.resources.files(__package__) / "chips"
    for file in sorted(folder.iterdir(), key=lambda file: file.name):
        if file.name.endswith(".chips"):
            found |= read_chips(file.read_text(encoding="ascii"), file.name)
    return found


def read_chips(text: str, file: str) -> dict[str, Chip]:
    """The chips of a file by number. Raises `UnusableChip` with the file's name and the line."""
    found: dict[str, Chip] = {}
    for first, lines in chips_in(text):
        reader = ChipReader(file)
        for number, line in lines:
            reader.line = number
            reader.read(line)
        reader.line = first
        chip = reader.chip()
        for name in chip.numbers:
            if name in found:
                reader.refuse(f"chip {name} is there twice")
            found[name] = chip
    return found


def chips_in(text: str) -> Iterator[tuple[int, list[tuple[int, str]]]]:
    """The number of the first line of each chip, and its numbered lines. What is before the first chip is a chip without a number."""
    lines: list[tuple[int, str]] = []
    for number, line in enumerate(text.split("\n"), 1):
        line = line.split("#")[0].strip()
        if line.split()[:1] == ["chip"] and lines:
            yield lines[0][0], lines
            lines = []
        if line:
            lines.append((number, line))
    if lines:
        yield lines[0][0], lines


def are_roles(kind: str, roles: set[str]) -> bool:
    """Whether the inputs of a mark may be these.

    >>> are_roles("LATCH", {"data", "gate", "clear"}), are_roles("LATCH", {"data"})
    (True, False)
    """
    rows = [set(row) for row in MARKS[kind]]
    return roles in rows or kind in STORAGE and roles - FORCED in rows


class ChipReader:
    """A chip while it is read. `line` is where."""

    def __init__(self, file: str) -> None:
        self.file = file
        self.line = 0
        self.numbers: tuple[str, ...] = ()
        self.title = ""
        self.pins: dict[str, Pin] = {}
        self.functions: list[Function] = []
        # The line that drives each name.
        self.places: dict[str, int] = {}
        self.notes: list[str] = []

    def refuse(self, text: str) -> NoReturn:
        """Says what is in the way, and where."""
        raise UnusableChip(f"{self.file}: line {self.line}: {text}")

    def read(self, line: str) -> None:
        """Reads one line."""
        word, rest = [*line.split(maxsplit=1), ""][:2]
        if found := re.fullmatch(rf"({NAME})\s*=\s*([A-Z]+)\s*\((.*)\)", line):
            self.add_function(found[1], found[2], [part.strip() for part in found[3].split(",")])
        elif word == "chip":
            self.numbers = tuple(rest.split())
        elif word == "title":
            self.title = rest
        elif word == "note":
            self.notes.append(rest)
        elif word in {direction.value for direction in Direction}:
            for pin in rest.split():
                self.add_pin(pin, Direction(word))
        else:
            words = ", ".join(["chip", "title", "note", *(direction.value for direction in Direction)])
            self.refuse(f"a line begins with {words}, or is NAME = KIND(NAME, ..): {shown(line)}")

    def add_pin(self, text: str, direction: Direction) -> None:
        """Adds a pin, as `1:1A`."""
        number, _, name = text.partition(":")
        if not number.isdecimal() or not re.fullmatch(NAME, name):
            self.refuse(f"a pin is NUMBER:NAME, the name of letters, digits and _: {shown(text)}")
        is_named = direction not in (Direction.POWER, Direction.UNUSED)
        if number in self.pins or is_named and name in {pin.name for pin in self.pins.values()}:
            self.refuse(f"pin {shown(text)} has a number or a name that is taken")
        self.pins[number] = Pin(number, name, direction)

    def add_function(self, output: str, kind: str, parts: list[str]) -> None:
        """Adds a gate, or a mark with its roles."""
        roles: tuple[str, ...] = ()
        inputs = tuple(parts)
        if kind in GATES:
            if len(inputs) > GATES[kind].most_inputs:
                self.refuse(f"{kind} has at most {GATES[kind].most_inputs} inputs")
        elif kind in MARKS:
            roles = tuple(part.partition("=")[0].strip() for part in parts)
            inputs = tuple(part.partition("=")[2].strip() for part in parts)
            if len(set(roles)) < len(roles) or not are_roles(kind, set(roles)):
                self.refuse(f"{kind} takes {' or '.join(', '.join(f'{role}=NAME' for role in row) for row in MARKS[kind])}")
        else:
            self.refuse(f"a kind is one of {', '.join([*GATES, *MARKS])}: {shown(kind)}")
        for name in inputs:
            if not re.fullmatch(NAME, name):
                self.refuse(f"a name is of letters, digits and _: {shown(name)}")
        if output in self.places:
            self.refuse(f"{output} is driven twice")
        self.places[output] = self.line
        self.functions.append(Function(output, kind, inputs, roles))

    def chip(self) -> Chip:
        """The chip that was read."""
        if not self.numbers or not all(number.isdecimal() for number in self.numbers):
            self.refuse("a chip begins with `chip` and its numbers, such as `chip 7400 7437`")
        directions = {pin.name: pin.direction for pin in self.pins.values()}
        for name, direction in directions.items():
            if direction.is_driven and name not in self.places:
                self.refuse(f"nothing drives {name}")
        self.check_order(directions)
        return Chip(self.numbers, self.title, self.pins, tuple(self.functions), tuple(self.notes))

    def check_order(self, directions: Mapping[str, Direction]) -> None:
        """Whether each name is known where it is read, so that gates can be worked out from the first line to the last."""
        known = {name for name, direction in directions.items() if direction.is_read}
        known |= {function.output for function in self.functions if function.kind in STORAGE}
        for function in self.functions:
            self.line = self.places[function.output]
            self.check_driver(function, directions.get(function.output))
            for name in function.inputs:
                if name not in known:
                    self.refuse(f"{function.output} reads {name}, which is no input and is not driven above it")
            known.add(function.output)

    def check_driver(self, function: Function, direction: Direction | None) -> None:
        """Whether such a function may drive a pin of this direction, or an inner name."""
        if direction is not None and not direction.is_driven:
            self.refuse(f"{function.output} is driven, but the pin is {direction.value}")
        if direction is not Direction.BUS and (function.kind == "TRISTATE") != (direction is Direction.TRISTATE):
            self.refuse(f"{function.output}: a TRISTATE drives pins that are tristate or bus, and nothing else drives one that is tristate")


def small(functions: Iterable[Function], most: int = MOST_INPUTS) -> list[Function]:
    """The same functions with at most so many inputs for each gate.

    >>> [(gate.output, gate.kind, *gate.inputs) for gate in small([Function("y", "NAND", tuple("abcdef"))])]
    [('y_1', 'AND', 'a', 'b', 'c', 'd'), ('y', 'NAND', 'y_1', 'e', 'f')]
    """
    found = []
    for function in functions:
        inputs = list(function.inputs)
        count = 0
        while function.kind in GATES and len(inputs) > most:
            count += 1
            inner = f"{function.output}_{count}"
            found.append(Function(inner, POSITIVE[GATES[function.kind].reduction], tuple(inputs[:most])))
            inputs = [inner, *inputs[most:]]
        found.append(dataclasses.replace(function, inputs=tuple(inputs)))
    return found
