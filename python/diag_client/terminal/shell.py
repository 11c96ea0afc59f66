"""A terminal over one session of a device: the commands of scripts without the session's name, and some more."""

from __future__ import annotations

import cmd
import collections
import dataclasses
import difflib
import functools
import io
import os
import pathlib
import re
import sys
import textwrap
from collections.abc import Callable, Iterable, Iterator, Sequence
from typing import Any

from .. import manual
from ..advice import Proposal
from ..case import CHANGES, NAME_RULE, Board, Case
from ..clash import clash_of
from ..devices import pin_in_words, read_device
from ..errors import DiagError, Ended, Inconsistent, Refused, sentence, shown
from ..files import write_whole
from ..pictures import graphviz, picture
from ..progress import Progress
from ..readings import NUMBER, UNREAD, at_odds, without_buses, words_of
from ..replies import AnyLines, Lines
from ..service import LIMITS, Service
from ..session import Session

try:
    import readline
except ImportError:  # A Python that was built without it: there is no completion and no history then.
    readline = None  # type: ignore[assignment]

MORE = {
    "best": ("best [WIRE ..]", "the wires that split the diagnoses at hand best, of these or of all that are not seen; advice, not proved"),
    "case": ("case", "what was seen and held"),
    "clash": ("clash", "if nothing explains the case: the fewest readings and tests that clash"),
    "expect": ("expect [WIRE ..]", "the bits that these wires, or all, have if all parts are ok, as far as the inputs seen fix them"),
    "inputs": ("inputs", "the names of the inputs"),
    "load": ("load FILE", "adds the case that a script holds, such as one that was saved"),
    "parts": ("parts", "the names of the parts"),
    "picture": ("picture OUT", "draws the device and the case into out.svg, out.pdf, out.png or out.dot"),
    "quit": ("quit", "ends; so do exit and the end of the input"),
    "restart": ("restart", "starts the program anew, with the same case"),
    "save": ("save FILE", "writes the case as a script"),
    "undo": ("undo", "takes the last line back that changed the case"),
    "wires": ("wires", "the names of the wires"),
}
# Commands by their names in Python and in other programs.
ALIASES = {
    "diagnoses": "list", "diag": "list", "enum": "list", "minimum": "min", "best_probe": "best", "expected": "expect", "seen": "case",
    "held": "case",
}
# So many diagnoses are listed for an alias that says no number.
LISTED = 100
# How often a change can be taken back.
MOST_UNDO = 200
# What some terminals put around lines that are pasted.
PASTED = re.compile(r"\x1b\[20[01]~")
WIDTH = 100
HISTORY_LINES = 1000
# So many of the best wires are printed.
BEST = 5
# So many names that look like an unknown one are printed.
NEAR = 3
PIECE = 65536
# What is counted of each command that changes the case.
COUNTED = {
    "see": ("reading taken", "readings taken"),
    "unsee": ("reading taken back", "readings taken back"),
    "hold": ("part held", "parts held"),
    "unhold": ("part released", "parts released"),
}
# What to do about a refusal of the program, by its text.
CURES = {
    "line too long": "a line has at most 1048576 bytes",
    "no levels": "start the terminal with --levels C",
    "no least": "start the terminal with --least",
    "no graph": "a search has none: start the terminal with --engine graph",
    "full": "each pattern is a session, and a search opens one more for each: at most"
    f" {LIMITS['sessions'][1] // 2} patterns can be searched, and one fewer by probe",
}
# What a refusal begins with.
REFUSED = "refused: "
# What is said of a name that is none.
NAMES = f"the name of a pattern has {NAME_RULE}; that of a wire or a part has up to 255"
# Replies that mean that nothing is wrong.
NOTHING_WRONG = ("diag", "min 0", "level 0")


def history_file() -> pathlib.Path:
    """Where lines are kept: as DIAG_HISTORY says, else in the home folder."""
    return pathlib.Path(os.environ.get("DIAG_HISTORY") or os.path.expanduser("~/.diag_history"))


@dataclasses.dataclass(slots=True)
class Asked:
    """Commands with their words, which are carried out. What a line that names several wires or parts does to the case is counted."""

    rows: list[list[str]]
    is_counted: bool = False
    # Readings that it replaces by other bits.
    before: list[str] = dataclasses.field(default_factory=list)
    requests: list[Lines | AnyLines] = dataclasses.field(default_factory=list)
    told: int = 0

    @property
    def is_apart(self) -> bool:
        """Whether its replies are not printed as they are."""
        return self.is_counted or self.rows[0][0] == "probes"


class Shell(cmd.Cmd):
    """Reads lines, and prints answers. The launcher's help says which commands there are, except those of the shell itself."""

    prompt = "diag> "

    def __init__(self, service: Service, session: Session) -> None:
        super().__init__()
        self.use_rawinput = sys.stdin.isatty()
        if not self.use_rawinput:
            self.prompt = ""
        self.service = service
        self.session = session
        self.has_refused = False
        self.commands = {name: usage for name, usage in manual.usages().items() if name not in ("open", "close")}
        # Those that take one name, so that several are asked one after the other.
        self.for_each = {name for name, usage in self.commands.items() if len(usage.words) == 1 and usage.words[0] != "k"}
        self.intro = f"{service.title}, by {service.engine}. Type ? for help." if self.prompt else None
        # Whether an interrupt left the program at work on what nobody waits for.
        self.was_interrupted = False
        # The sessions that were changed, each with its case before.
        self.changed: collections.deque[tuple[Session, Case]] = collections.deque(maxlen=MOST_UNDO)

    def onecmd(self, line: str) -> bool:
        """Carries out a line, and says in words what is refused. Lines that were pasted may come as one."""
        return any(self.carry_out_line(self._plain(part)) for part in re.split("[\r\n]+", PASTED.sub("", line)))

    def _plain(self, line: str) -> str:
        """A line with the terminal's own word for its command."""
        command, *rest = line.split(None, 1)[:2] or [""]
        meant = ALIASES.get(command, command)
        if meant == "list" != command and not rest:
            rest = [str(LISTED)]
        return line if meant == command else " ".join([meant, *rest])

    def carry_out_line(self, line: str) -> bool:
        """The same for one line."""
        try:
            return bool(super().onecmd(line))
        except Refused as refused:
            self.refuse(f"{REFUSED}{self.why(refused)}")
        except Inconsistent:
            self.say("no set of faulty parts explains what was seen and held: clash says why")
        except KeyboardInterrupt:
            if not self.use_rawinput:
                raise
            self.interrupt()
        except BrokenPipeError:
            raise
        except Ended as ended:
            if not self.use_rawinput:
                raise
            ended.hint = ""
            self.refuse(f"{ended}. The next command starts it anew. What was seen and held is kept; a question has to be asked again")
        except (DiagError, OSError, ValueError, TypeError) as error:
            self.refuse(sentence(error))
        return False

    def say(self, text: str) -> None:
        """Prints an answer."""
        print(text)

    def refuse(self, text: str) -> None:
        """Says why something was not done."""
        self.has_refused = True
        print(text)

    def interrupt(self) -> None:
        """Lets go of what is awaited. If the program is still at work on what an interrupt let go of before, it is started anew."""
        try:
            if not self.service.is_behind:
                print("\ninterrupted")
            elif self.was_interrupted:
                print()
                self._restart()
            else:
                self.was_interrupted = True
                print("\ninterrupted. The program is still at work on it: Ctrl-C once more starts it anew, and the case stays")
        except KeyboardInterrupt:
            print("\ninterrupted. The next command starts the program anew, and the case stays")
        except DiagError as error:
            self.refuse(str(error))

    def emptyline(self) -> bool:
        """An empty line asks nothing."""
        return False

    def default(self, line: str) -> bool:  # type: ignore[override] # What it answers is answered by `onecmd`.
        """A command of scripts. One that takes one name is carried out for each that is given."""
        if line == "EOF":
            return self.do_quit("")
        if not line.startswith("#"):
            self.carry_out([self._asked(self._split(line))])
        return False

    def carry_out(self, asked: Sequence[Asked]) -> None:
        """Asks what these lines ask, all at once, and prints the replies as they come."""
        self._revive()
        for row in asked:
            is_piece = len(row.rows) > 1 and not row.is_counted
            row.requests = [self.session.piece(row.rows)] if is_piece else self.session.requests(row.rows)
        requests = [request for row in asked for request in row.requests]
        left = collections.deque(asked)
        if any(words[0] in CHANGES for row in asked for words in row.rows):
            self.changed.append((self.session, self.session.case))
        with Progress(requests[0].line if sum(len(row.rows) for row in asked) == 1 else "at work") as progress:
            try:
                for _ in self.service.follow(requests):
                    self._tell(left, progress.clear)
            finally:
                for request in reversed(requests):
                    if request.is_answered:
                        break
                    if isinstance(request, AnyLines):
                        request.forget()
        self.was_interrupted = False

    def lines_from_pipe(self, lines: Iterable[str]) -> bool:
        """Carries out lines that came at once, those that are commands of scripts in one piece. Says whether it is the end."""
        asked: list[Asked] = []
        for line in map(self._plain, lines):
            words = self._split(line)
            if not words or words[0].startswith("#"):
                continue
            if words[0] in self.commands or not hasattr(self, f"do_{self.parseline(line)[0]}"):
                try:
                    row = self._asked(words)
                    if asked and not (asked[-1].is_apart or row.is_apart):
                        asked[-1].rows += row.rows
                    else:
                        asked.append(row)
                    continue
                except ValueError:
                    # The reason is printed once the lines before it are answered.
                    pass
            self.carry_out(asked)
            asked.clear()
            if self.onecmd(line):
                return True
        self.carry_out(asked)
        return False

    def do_best(self, rest: str) -> bool:
        """The next measurement."""
        rows = self._waited("best", lambda: self.session.rank_probes(rest.split() or None))
        self.say(self._advice(rows, lambda: self.session.minimum().cost))
        return False

    @staticmethod
    def _advice(rows: Iterable[Proposal], cost: Callable[[], int]) -> str:
        """The best of these, or why there are none."""
        told = [str(row) for row in rows if row.reduction > 0][:BEST]
        if not told and cost() == 0:
            return "nothing is wrong yet: enter the inputs and what was read, such as see 1=0"
        return "\n".join(told) or "no wire splits the diagnoses at hand"

    def do_case(self, _: str) -> bool:
        """What was seen and held."""
        self._waited("case", self.service.catch_up)
        self.say("seen: " + (" ".join(f"{wire}={bit}" for wire, bit in self.session.seen.items()) or "nothing"))
        self.say("held: " + (" ".join(f"{part}={mode}" for part, mode in self.session.held.items()) or "nothing"))
        return False

    def do_clash(self, _: str) -> bool:
        """The readings and tests that clash."""
        found = self._waited("clash", lambda: clash_of(self.all_sessions()))
        for pattern, case in found.items():
            where = f"in {pattern}: " if len(self.all_sessions()) > 1 else ""
            self.say(f"nothing explains {where}{' '.join(word for _, words in case.words() for word in words)}")
        if not found:
            self.say("nothing clashes: a set of faulty parts explains what was seen and held")
        return False

    def all_sessions(self) -> list[Session]:
        """What is asked about: a session for each pattern."""
        return [self.session]

    def do_expect(self, rest: str) -> bool:
        """What wires should be."""
        bits = self._waited("expect", self.session.expected)
        wires = [self.service.other_names.get(wire, wire) for wire in rest.split()]
        fixed = self._outputs_first(bits.keys() - self.service.inputs)
        for wire in wires or fixed:
            if wire not in bits:
                # An unknown name is refused, and the others are answered all the same.
                try:
                    self.session.probe(wire)
                    self.say(f"{wire} may be 0 or 1: the inputs that were seen do not fix it")
                except Refused as refused:
                    self.refuse(f"{REFUSED}{self.why(refused)}")
                continue
            seen = self.session.seen.get(wire, bits[wire])
            self.say(f"{wire} should be {bits[wire]}" + (f", and was seen as {seen}" if seen != bits[wire] else ""))
        if not wires and not fixed:
            self.say("the inputs that were seen fix no wire")
        return False

    def _outputs_first(self, wires: Iterable[str]) -> list[str]:
        """Names in the order in which a person looks for them."""
        outputs = frozenset() if self.service.file.suffix == ".nnf" else read_device(self.service.file).outputs

        def is_inner(wire: str) -> bool:
            return (wire if self.service.frames is None else wire.rpartition("@")[0]) not in outputs

        return sorted(wires, key=lambda wire: (is_inner(wire), _natural(wire)))

    def _list_names(self, kind: str, _: str) -> bool:
        """The names of the wires, of the parts or of the inputs."""
        names = sorted(self._waited(kind, lambda: getattr(self.service, kind)), key=_natural)
        self.say(textwrap.fill(" ".join(names), WIDTH, break_long_words=False, break_on_hyphens=False) or "none")
        return False

    do_wires = functools.partialmethod(_list_names, "wires")
    do_parts = functools.partialmethod(_list_names, "parts")
    do_inputs = functools.partialmethod(_list_names, "inputs")

    def do_restart(self, _: str) -> bool:
        """The program anew."""
        self._restart()
        return False

    def do_undo(self, _: str) -> bool:
        """The case as it was before the last change."""
        if not self.use_rawinput:
            raise ValueError("undo is for lines that are typed: those from elsewhere are carried out many at a time")
        self._waited("undo", self.service.catch_up)
        while self.changed:
            session, case = self.changed.pop()
            if session.is_open and session.case != case:
                self.session = session
                self.service.do(session.becoming(case))
                return self.do_case("")
        raise ValueError("nothing is there to be taken back")

    def do_load(self, rest: str) -> bool:
        """The case of a script."""
        case = Case.from_script(_read_script(rest))
        if not case:
            raise ValueError("nothing is seen or held in this script, whose lines are such as `see S a=0`")
        self.carry_out([Asked([[command, word] for command, words in case.words() for word in words], is_counted=True)])
        return False

    def do_save(self, rest: str) -> bool:
        """The case as a script."""
        path = _path(rest, "save FILE: into which file? board.script, say")
        self._waited("save", self.service.catch_up)
        if path.exists():
            with path.open("rb") as there:
                if there.read(len(b"open ")) != b"open ":
                    raise ValueError(f"{path} is there and is not a saved case: choose another name")
        text, told = self._saved()
        write_whole(path, text.encode("utf-8", "surrogateescape"))
        print(f"wrote {path}: {told}")
        return False

    def _saved(self) -> tuple[str, str]:
        """The case as a script, and what is in it."""
        case = self.session.case
        return Board({self.session.name: case}).script(), f"{len(case.seen)} seen, {len(case.held)} held"

    def do_picture(self, rest: str) -> bool:
        """A picture of the case."""
        picture.check_drawable(self.service)
        out = graphviz.check_output(_path(rest, "picture OUT: into which file? out.svg, say"))
        found = self._waited("picture", lambda: picture.Findings.of(self.session))
        written = graphviz.render(picture.dot_text(read_device(self.service.file), found, self.service.title), out)
        if written == out:
            self.say(f"wrote {written}")
        else:
            self.refuse(f"{graphviz.NO_DOT}; wrote {written} alone")
        return False

    def do_quit(self, _: str) -> bool:
        """Ends."""
        if self.use_rawinput:
            print()
        return True

    do_exit = do_quit

    def do_help(self, arg: str) -> None:
        """What a command does, or all of them."""
        rows = {name: (" ".join([name, *usage.words]), usage.text) for name, usage in self.commands.items()} | MORE
        wanted = [arg] if arg in rows else list(rows)
        if arg and arg not in rows:
            print(f"there is no command {arg}:")
        for name in wanted:
            print(f"{rows[name][0]:18}{rows[name][1]}")
        if not arg:
            print("A command that takes one name may be given several: see 1=0 2=1. The tab key completes commands and names.")

    def completenames(self, text: str, *_: Any) -> list[str]:
        """The commands that begin so."""
        return sorted(f"{name} " for name in self.commands.keys() | MORE.keys() if name.startswith(text))

    def completedefault(self, *given: Any) -> list[str]:
        """The names that begin so, of the kind that the command takes, and after a name its values."""
        text, line, *_ = given
        return sorted(word for word in self._words(line.split()[0], text) if word.startswith(text))

    def complete_best(self, text: str, *_: Any) -> list[str]:
        """The wires that begin so."""
        return sorted(wire for wire in self.service.wires if wire.startswith(text) and wire not in self.session.seen)

    def complete_expect(self, text: str, *_: Any) -> list[str]:
        """The wires that begin so."""
        return sorted(wire for wire in self.service.wires if wire.startswith(text))

    def complete_help(self, *given: Any) -> list[str]:
        """The commands that begin so."""
        return self.completenames(given[0])

    def complete_load(self, text: str, *_: Any) -> list[str]:
        """The files and folders that begin so."""
        folder, begun = os.path.split(text)
        try:
            entries = sorted(os.scandir(os.path.expanduser(folder) or "."), key=lambda entry: entry.name)
        except OSError:
            return []
        names = [entry.name + ("/" if entry.is_dir() else "") for entry in entries if entry.name.startswith(begun)]
        return [os.path.join(folder, name) for name in names]

    complete_save = complete_picture = complete_load

    def _split(self, line: str) -> list[str]:
        """The words of a line. Readings need no command, and neither they nor tests need their blanks where they should be."""
        command, *rest = line.split(None, 1) or [""]
        if command in CHANGES:
            return [command, *filter(None, words_of("".join(rest)))]
        words = words_of(line)
        return ["see", *words] if all("=" in word for word in words) else line.split()

    def _asked(self, words: list[str]) -> Asked:
        command = words[0]
        if command == "see" and any(self._is_number(word) for word in words[1:]):
            words = [command, *without_buses(words[1:], {*self.service.wires, *self.service.other_names})]
        if command in ("open", "close"):
            raise ValueError("there is one session here, which is open to the end")
        if command in ("see", "hold") and (why := at_odds(words[1:], self.service.other_names)):
            raise ValueError(f"{REFUSED}{why}")
        if command == "see":
            return self._asked_readings(words[1:])
        if len(words) > 2 and command in self.for_each:
            return Asked([[command, word] for word in words[1:]], command in CHANGES)
        return Asked([words])

    @staticmethod
    def _is_number(word: str) -> bool:
        """Whether a word may be of a bus: only then the program is asked for the names of the wires."""
        name, _, value = word.rpartition("=")
        return value not in ("0", "1") and bool(NUMBER.fullmatch(value)) or name.endswith("]")

    def _asked_readings(self, words: Sequence[str]) -> Asked:
        """Readings. One that says that nothing was read takes back what was."""
        rows, before = [], []
        for word in words:
            name, equals, value = word.rpartition("=")
            wire = self.service.other_names.get(name, name)
            if equals and value.lower() in UNREAD:
                # The program refuses a name that is none.
                rows += [["unsee", wire]] if wire in self.session.seen or not self._is_wire(wire) else []
                continue
            rows.append(["see", word])
            if value in ("0", "1") and self.session.seen.get(wire, int(value)) != int(value):
                before.append(f"{name}={self.session.seen[wire]}")
        if words and not rows:
            raise ValueError("nothing was read, and nothing was seen there before")
        return Asked(rows or [["see"]], len(words) > 1, before if self.prompt else [])

    def _is_wire(self, name: str) -> bool:
        """Whether a wire has this name, as far as the program names any."""
        try:
            return name in self.service.wires
        except (Inconsistent, Refused):
            return True

    def _tell(self, left: collections.deque[Asked], clear: Callable[[], None]) -> None:
        """Prints what has come by now of the replies that are left."""
        texts: list[str] = []
        begin = f"{self.session.name} "
        while left:
            row = left[0]
            if row.is_counted:
                if not row.requests[-1].is_answered:
                    break
                texts.append(self._counted(row.requests))
            else:
                texts += self._told(row, begin)
                if row.told < len(row.requests):
                    break
            if row.before:
                texts[-1] += f" (before: {' '.join(row.before)})"
            left.popleft()
        if texts:
            clear()
            print("\n".join(texts), flush=True)

    def _told(self, row: Asked, begin: str) -> list[str]:
        """What has come by now of the replies to a line and is not printed yet. The words that they begin with are left out."""
        texts: list[str] = []
        for request in row.requests[row.told:]:
            # To say why something is refused, the program may be asked for names, so that more comes.
            while lines := request.lines:
                refusals, request.lines, request.refusals = request.refusals, [], []
                told = [line.removeprefix(begin) for line in lines]
                if refusals:
                    self.has_refused = True
                    whys = map(self.why, refusals)
                    told = [f"{REFUSED}{next(whys)}" if request.refusal(line) else text for line, text in zip(lines, told)]
                if request.line.startswith("probes "):
                    told = [self.placed(text) for text in told if self._is_within_reach(text)]
                texts += map(in_words, told) if self.prompt else told
            if not request.is_answered:
                break
            row.told += 1
        return texts

    def placed(self, text: str) -> str:
        """A line that begins with `probe` and a wire, and where a probe reaches the wire on a board."""
        pins = self.service.pins.get(text.split(" ")[1], ()) if text.startswith("probe ") else ()
        return f"{text}: {', '.join(map(pin_in_words, pins))}" if pins else text

    def _is_within_reach(self, text: str) -> bool:
        return not text.startswith("probe ") or self.service.can_reach(text.split(" ")[1])

    def _counted(self, requests: Sequence[Lines | AnyLines]) -> str:
        """How many lines that change the case were carried out, and which were refused."""
        taken: collections.Counter[str] = collections.Counter()
        for request in requests:
            taken[request.line.split()[0]] += len(request.lines) - len(request.refusals)
        texts = [f"{count} {COUNTED[command][count > 1]}" for command, count in taken.items() if count]
        refused = [refused for request in requests for refused in request.refusals]
        if refused:
            self.has_refused = True
            whys = "; ".join(dict.fromkeys(map(self.why, refused)))
            texts.append(f"{len(refused)} refused: {whys}")
        return ", ".join(texts)

    def _waited(self, what: str, ask: Callable[[], Any]) -> Any:
        """What is answered. If that takes longer, a terminal shows for how long."""
        self._revive()
        with Progress(what):
            answer = ask()
        self.was_interrupted = False
        return answer

    def _revive(self) -> None:
        """Starts the program anew if it has ended and somebody is at a terminal."""
        if not self.service.is_running and self.use_rawinput:
            self._restart()

    def _restart(self) -> None:
        with Progress("starting the program anew"):
            self.service.restart()
        self.was_interrupted = False
        print("the program was started anew, and the case is as it was")

    def _words(self, command: str, text: str) -> list[str]:
        usage = self.commands.get(command)
        kind = usage.words[0] if usage is not None and usage.words else ""
        name, equals, _ = text.partition("=")
        if command in ("unsee", "unhold"):
            return list(self.session.seen if command == "unsee" else self.session.held)
        if kind.startswith("w"):
            # Tools make many other names, so they are completed only once they are begun.
            names, values = (*self.service.wires, *(self.service.other_names if text else ())), ("0", "1")
        elif kind.startswith("p"):
            names, values = self.service.parts, ("ok", "bad")
        else:
            return []
        if "=" not in kind:
            return list(names)
        return [f"{name}={value}" for value in values] if equals else [f"{name}=" for name in names]

    def why(self, refused: Refused) -> str:
        """A refusal in words, and what to do."""
        command, session, *words = refused.line.split() + [""]
        told = f"{refused.text} (error {refused.number})"
        given = shown(" ".join(filter(None, words)))
        if refused.text == "bad name":
            return f"{told}: {given or shown(session)}; {_hint(given) or NAMES}"
        if refused.text in ("no wire", "no part"):
            return f"{told}: {self._unknown_name(refused.text, words)}"
        if refused.text in CURES:
            return f"{told}: {CURES[refused.text]}"
        usage = self.commands.get(command)
        if usage is None:
            small = command.lower()
            near = [small] if small in self.commands else difflib.get_close_matches(small, [*self.commands, *MORE, "exit"], 1)
            return f"{told}: {shown(command)}" + (f"; do you mean {near[0]}?" if near else "; ? lists the commands")
        # What a number or a value may be is in the text.
        form = " ".join(["it is", command, *usage.words])
        if usage.words == ("k",) or "=" in form:
            form += f": {usage.text if usage.words == ('k',) else usage.choices}"
        return f"{told}: {given or command}; {_hint(given) or form}"

    def _unknown_name(self, text: str, words: Sequence[str]) -> str:
        """The name in a line that is not known, and what looks like it."""
        names = [word.rpartition("=")[0] or word for word in words if word]
        try:
            known = (*self.service.wires, *self.service.other_names) if text == "no wire" else self.service.parts
        except (Inconsistent, Refused):
            # The program names nothing, or has no room for a session in which it would.
            return shown(" ".join(names))
        missing = next((name for name in names if name not in known), "")
        same = [name for name in known if name.lower() == missing.lower()]
        # A wire over several times is named without its time.
        timed = [name for name in known if name.startswith(f"{missing}@")][:NEAR]
        near = same or timed or difflib.get_close_matches(missing, known, NEAR)
        return shown(missing) + (f"; near it: {', '.join(near)}" if near else "")


def _natural(name: str) -> list[str | int]:
    """By this key 2 comes before 10.

    >>> sorted(["b10", "b2", "a"], key=_natural)
    ['a', 'b2', 'b10']
    """
    return [int(text) if place % 2 else text for place, text in enumerate(re.split("([0-9]+)", name))]


def in_words(reply: str) -> str:
    """A reply, as a person reads it."""
    said = "nothing explains this: clash says why" if reply == "inconsistent" else "nothing is wrong" if reply in NOTHING_WRONG else ""
    return f"{reply} ({said})" if said else reply


def _hint(given: str) -> str:
    """How to write what a reading or a part was given as, if it is clear what was meant."""
    name, equals, value = given.partition("=")
    if not equals and ":" in given:
        name, _, value = given.partition(":")
        return f"write {name}={value}" if name and value else ""
    if "," in given:
        return "put blanks between names, and no commas"
    if value.upper() in ("H", "L", "HIGH", "LOW"):
        return f"write {name}={int(value.upper().startswith('H'))}"
    return f"write {name}={value.lower()}" if value != value.lower() else ""


def _path(rest: str, question: str) -> pathlib.Path:
    """The file that a command names, with quotes or without."""
    name = rest.strip()
    if len(name) > 1 and name[0] == name[-1] and name[0] in "'\"":
        name = name[1:-1]
    if not name:
        raise ValueError(question)
    return pathlib.Path(os.path.expanduser(name))


def _read_script(rest: str) -> str:
    """The text of the script that a command names."""
    return _path(rest, "load FILE: which script?").read_text(encoding="utf-8", errors="surrogateescape")


def run(service: Service, begin: Callable[[Service, Session], Shell] = Shell) -> int:
    """A terminal until the end of the input, and its exit status: 1 if lines from elsewhere than a terminal were refused."""
    for stream in (sys.stdin, sys.stdout):
        if isinstance(stream, io.TextIOWrapper):
            stream.reconfigure(errors="surrogateescape")
    keep = readline is not None and sys.stdin.isatty() and _read_history()
    try:
        with service.session("S") as session:
            shell = begin(service, session)
            if shell.use_rawinput:
                while not _loops(shell):
                    shell.intro = None
            else:
                any(map(shell.lines_from_pipe, _pieces()))
            if service.is_behind:
                # Nobody waits for what is still to come.
                service.stop()
    finally:
        if keep:
            _write_history()
    return int(shell.has_refused and not shell.use_rawinput)


def _read_history() -> bool:
    """Reads the lines of earlier runs. If they are there and cannot be read, it says so, and they are not to be written over."""
    readline.set_completer_delims(" \t\n")
    path = history_file()
    try:
        lines = path.read_text(encoding="utf-8", errors="surrogateescape").split("\n") if path.exists() else []
    except OSError as error:
        print(f"diag_client: no lines are kept: {sentence(error)}", file=sys.stderr)
        return False
    for line in filter(None, lines):
        readline.add_history(line.replace("\0", ""))
    return True


def _write_history() -> None:
    """Writes the last lines. `readline` itself would empty the file first, and lose them if the disk is full."""
    count = readline.get_current_history_length()
    items = map(readline.get_history_item, range(max(0, count - HISTORY_LINES) + 1, count + 1))
    text = "".join(f"{line}\n" for line in items if line)
    try:
        write_whole(history_file(), text.encode("utf-8", "surrogateescape"), 0o600)
    except OSError as error:
        print(f"diag_client: the lines of this run are not kept: {sentence(error)}", file=sys.stderr)


def _pieces() -> Iterator[list[str]]:
    """The lines of the input, as many at a time as have come."""
    begun = b""
    read: Callable[[int], bytes] = getattr(sys.stdin.buffer, "read1")
    while piece := read(PIECE):
        *lines, begun = (begun + piece).split(b"\n")
        yield [line.decode("utf-8", "surrogateescape") for line in lines]
    yield [begun.decode("utf-8", "surrogateescape")]


def _loops(shell: Shell) -> bool:
    """Reads lines to the end, or up to an interrupt at the prompt, which only lets go of the line."""
    try:
        shell.cmdloop()
    except KeyboardInterrupt:
        print("^C")
        if shell.was_interrupted:
            shell.interrupt()
        return False
    return True
