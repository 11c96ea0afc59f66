"""Readings as people write them: pairs such as a=0 b=1. What is no reading is the same here, in tables and on the page."""

from __future__ import annotations

import itertools
import re
from collections.abc import Collection, Iterable, Mapping, Sequence

# What is written for a bit, in small letters, and for none: a wire that was not read, or floats.
BITS = {"0": 0, "1": 1, "0.0": 0, "1.0": 1, "false": 0, "true": 1}
UNREAD = ("", "-", "?", "x", "z", "nan")
RULE = "a reading is 0 or 1, and X, Z, - or nothing if there is none"
# Of logic levels it is not known whether they were read or expected.
LEVELS = {"h": 1, "high": 1, "l": 0, "low": 0}


def bit_of(text: str) -> int | None:
    """The bit that a text is, or None if it says that none was read. Raises ValueError for any other text.

    >>> bit_of("1"), bit_of("X")
    (1, None)
    """
    small = text.strip().lower()
    if small in UNREAD:
        return None
    if small not in BITS:
        raise ValueError(f"write {LEVELS[small]}" if small in LEVELS else RULE)
    return BITS[small]


def words_of(text: str) -> list[str]:
    """The words of a text of readings, one for each: no blanks are around `=`, and commas and semicolons part them as blanks do.

    >>> words_of("a = 0,b=1; c=X")
    ['a=0', 'b=1', 'c=X']
    """
    text = re.sub(r"[ \t]*=[ \t]*", "=", text)
    # A name may have a semicolon in it, and what follows a name has none.
    return re.split(r"[\s,]+", re.sub(r"(=[^\s,;=]*)[;,]", r"\1 ", text).strip(" \t\r\n,;"))


# How the bits of a bus are named: a[3], a3, a_3, a.3 or 3_a.
BITS_OF = ("{0}[{1}]", "{0}{1}", "{0}_{1}", "{0}.{1}", "{1}_{0}")
RANGE = re.compile(r"(.+)\[(\d{1,4}):(\d{1,4})\]")
NUMBER = re.compile("0x[0-9a-f]{1,1024}|0b[01]{1,4096}|[0-9]{1,1000}", re.IGNORECASE)
MOST_BITS = 4096


def bus_of(name: str, wires: Collection[str]) -> list[str]:
    """The wires of a bus, the least bit first: `sum[7:0]` names its bits, and `sum` has all that there are. Empty if it is none.

    >>> bus_of("a", {"a0", "a1", "b0"}), bus_of("a[1:1]", {"a0", "a1"}), bus_of("c", {"a0"})
    (['a0', 'a1'], ['a1'], [])
    """
    if not name or name in wires:
        return []
    part = RANGE.fullmatch(name)
    for form in BITS_OF:
        if form == "{0}{1}" and (part[1] if part else name)[-1:].isdecimal():
            # Wire 10 is no bit of a bus 1.
            continue
        if part:
            low, high = sorted((int(part[2]), int(part[3])))
            bits = [form.format(part[1], place) for place in range(low, min(high, low + MOST_BITS) + 1)]
            if all(bit in wires for bit in bits):
                return bits
        else:
            first = next((place for place in (0, 1) if form.format(name, place) in wires), None)
            if first is not None:
                return list(itertools.takewhile(wires.__contains__, (form.format(name, place) for place in itertools.count(first))))
    return []


def bits_of(name: str, text: str, bus: Sequence[str]) -> list[tuple[str, str]]:
    """The bits of a bus by a number, such as 12, 0x3f or 0b101; what says that nothing was read says it of each. Raises ValueError.

    >>> bits_of("a", "0x2", ["a0", "a1"])
    [('a0', '0'), ('a1', '1')]
    """
    if text.strip().lower() in UNREAD:
        return [(wire, text) for wire in bus]
    if not NUMBER.fullmatch(text):
        raise ValueError(f"{name} is a bus of {len(bus)} wires: write a number, such as 12, 0x3f or 0b101")
    number = int(text, 0 if text[1:2].lower() in ("x", "b") else 10)
    if number >> len(bus):
        raise ValueError(f"{text} needs {number.bit_length()} bits, and {name} has {len(bus)} wires")
    return [(wire, str(number >> place & 1)) for place, wire in enumerate(bus)]


def without_buses(words: Iterable[str], wires: Collection[str]) -> list[str]:
    """Words such as a=0, with a word for each wire in place of one for a bus. Raises ValueError for what does not fit a bus.

    >>> without_buses(["a=0x2", "c=1"], {"a0", "a1", "c"})
    ['a0=0', 'a1=1', 'c=1']
    """
    found: list[str] = []
    for word in words:
        name, _, text = word.rpartition("=")
        # A bit alone is of a wire, even if none has the name.
        bus = [] if text in BITS and not RANGE.fullmatch(name) else bus_of(name, wires)
        found += [f"{wire}={bit}" for wire, bit in bits_of(name, text, bus)] if bus else [word]
    return found


def at_odds(words: Iterable[str], others: Mapping[str, str]) -> str:
    """Why words such as a=0 cannot all be right: one wire, or one part, has two values. It is empty if they can.

    >>> at_odds(["n=0", "y=1"], {"y": "n"}), at_odds(["n=0", "n=0"], {})
    ('n=0 and y=1 are of one wire; nothing was taken', '')
    """
    first: dict[str, tuple[str, str]] = {}
    for name, _, value in (word.rpartition("=") for word in words):
        other, before = first.setdefault(others.get(name, name), (name, value))
        if value != before:
            noun = "part" if value in ("ok", "bad") else "wire"
            return f"{other}={before} and {name}={value} are of one {noun}; nothing was taken"
    return ""
