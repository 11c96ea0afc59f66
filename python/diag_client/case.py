"""What is known of a board: a case for each test pattern that was applied, and the lines of a script that say it."""

from __future__ import annotations

import dataclasses
import re
from collections.abc import Callable, Iterable, Iterator, Mapping, Sequence
from typing import Literal

from .errors import BadScript, shown

Mode = Literal["ok", "bad"]

# What a session, and so a pattern, may be called.
SESSION_NAME = re.compile("(?:(?![(),=#])[!-~]){1,64}")
NAME_RULE = "1 to 64 printable ASCII characters, no blanks and none of ( ) , = #"
# The commands that change a case, and those that only ask.
CHANGES = ("see", "unsee", "hold", "unhold")
QUESTIONS = ("min", "next", "list", "after", "probe", "probes", "blame", "dnnf", "level", "levels", "leastnnf")
# What is written after a name, and the rule of it.
VALUES = {"see": (("0", "1"), "a reading is 0 or 1"), "hold": (("ok", "bad"), "a part was tested ok or bad")}
LIKE = "lines are such as `see S a=0`"
# The name that counts for one in a line of a command.
NameOf = Callable[[str, str], str]


def _itself(_: str, name: str) -> str:
    return name


@dataclasses.dataclass(frozen=True)
class Case:
    """What was seen of wires, 0 or 1, and how parts are held, `ok` or `bad`.

    >>> case = Case({"22": 1}, {"10": "ok"})
    >>> print(case.script("S"), end="")
    see S 22=1
    hold S 10=ok
    >>> Case.from_script(case.script("S")) == case
    True
    """

    seen: Mapping[str, int] = dataclasses.field(default_factory=dict)
    held: Mapping[str, Mode] = dataclasses.field(default_factory=dict)

    def __bool__(self) -> bool:
        return bool(self.seen or self.held)

    def words(self) -> Iterator[tuple[str, list[str]]]:
        """The words that say it, by their command, if there are any."""
        known: dict[str, Mapping[str, object]] = {"see": self.seen, "hold": self.held}
        for command, values in known.items():
            if values:
                yield command, [f"{name}={value}" for name, value in values.items()]

    def script(self, name: str = "S") -> str:
        """The lines of a script that say it of a session, without the one that opens the session."""
        return "".join(f"{command} {name} {word}\n" for command, words in self.words() for word in words)

    @classmethod
    def from_script(cls, script: str | Iterable[str], name: str | None = None, name_of: NameOf = _itself) -> Case:
        """What a script says of one session: of the one that is named, or that it names last. Questions and comments are passed over.

        Raises `BadScript`, with the number of the line, for a line of the session that is none of a script, and if there is no such
        session. `name_of` gives the name that counts for one in a line of a command; a ValueError that it raises is about that line.

        >>> Case.from_script("see S 1=1\\nopen T\\nsee T 1=0\\nmin T\\n").seen
        {'1': 0}
        """
        rows = list(_rows(script))
        about = name or (rows[-1][1][1] if rows else "")
        found = _cases((row for row in rows if row[1][1] == about), name_of)
        if name and name not in found:
            raise BadScript(f"the script has no session {shown(name)}: {LIKE}")
        return found.get(about, cls())


@dataclasses.dataclass(frozen=True)
class Board:
    """The test patterns of one board, each with its case."""

    patterns: Mapping[str, Case] = dataclasses.field(default_factory=dict)

    @property
    def held(self) -> dict[str, Mode]:
        """How parts are held, which is a matter of the board and not of a pattern. What is said last counts."""
        return {part: mode for case in self.patterns.values() for part, mode in case.held.items()}

    def script(self) -> str:
        """The lines of a script that say it, a session for each pattern."""
        return "".join(f"open {name}\n{case.script(name)}" for name, case in self.patterns.items())

    @classmethod
    def from_script(cls, script: str | Iterable[str], name_of: NameOf = _itself) -> Board:
        """What a script says, each session a pattern; as `Case.from_script`.

        >>> list(Board.from_script("open one\\nsee one a=0\\nopen two\\nsee two a=1\\n").patterns)
        ['one', 'two']
        """
        return cls(_cases(_rows(script), name_of))


def change(seen: dict[str, int], held: dict[str, Mode], command: str, words: Iterable[str]) -> None:
    """What lines of a command that changes a case do to it, one for each word."""
    for word in words:
        name, _, value = word.rpartition("=")
        if command == "see":
            seen[name] = int(value)
        elif command == "hold":
            held[name] = "ok" if value == "ok" else "bad"
        else:
            known: dict[str, int] | dict[str, Mode] = seen if command == "unsee" else held
            known.pop(word, None)


def _rows(script: str | Iterable[str]) -> Iterator[tuple[int, list[str]]]:
    """The words of the lines that are neither comments nor questions, each with its number."""
    for number, line in enumerate(script.split("\n") if isinstance(script, str) else script, 1):
        words = line.lstrip("\N{BYTE ORDER MARK}").split()
        if words and not words[0].startswith("#") and words[0] not in QUESTIONS:
            if len(words) < 2:
                raise BadScript(f"line {number}: `{shown(line.strip())}` is not understood: {LIKE}")
            yield number, words


def _cases(rows: Iterable[tuple[int, Sequence[str]]], name_of: NameOf) -> dict[str, Case]:
    """The cases of sessions. One that is closed keeps its case, until it is opened again."""
    found: dict[str, tuple[dict[str, int], dict[str, Mode]]] = {}
    for number, words in rows:
        match words:
            case ["open", session]:
                found[session] = ({}, {})
            case ["close", _]:
                pass
            case [("see" | "unsee" | "hold" | "unhold") as command, session, word]:
                try:
                    change(*found.setdefault(session, ({}, {})), command, [checked(command, word, name_of)])
                except ValueError as error:
                    raise BadScript(f"line {number}: {error}") from None
            case _:
                raise BadScript(f"line {number}: `{shown(' '.join(words))}` is not understood: {LIKE}")
    return {name: Case(seen, held) for name, (seen, held) in found.items()}


def checked(command: str, word: str, name_of: NameOf) -> str:
    """A word of a line that changes a case, with the name that counts. Raises ValueError if its value is none."""
    if command not in VALUES:
        return name_of(command, word)
    name, equals, value = word.rpartition("=")
    values, rule = VALUES[command]
    if value not in values or not equals:
        raise ValueError(f"{shown(word)}: {rule}")
    return f"{name_of(command, name)}={value}"
