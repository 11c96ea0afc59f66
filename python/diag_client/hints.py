"""What to try after the program has ended, by its words, its status and its last line. The launcher says it, and so do errors here."""

from __future__ import annotations

import itertools
import os
import pathlib
import re
import sys
from collections.abc import Iterator, Sequence

from . import faults, manual
from .errors import sentence, shown
from .manual import Row

LIMITS = manual.limits()
MOST_BUDGET = LIMITS["budget"][1]
# An option as it is given in Python, and one that a text begins with.
OPTION = re.compile(rf"\b({'|'.join(LIMITS)})=(\w+)")
NAMED = re.compile(rf"^({'|'.join(LIMITS)}) is ")
# The engine that nothing is too wide for, as it is given in Python.
SEARCH = "engine='search'"
# What gates are called by tools whose netlists are not taken as they are.
OF_OTHER_TOOLS = re.compile(r"=\s*(lut|vdd|gnd|dffrse|mux|0x)", re.IGNORECASE)
# A number that is longer is above every limit.
NUMBER = re.compile("0|[1-9][0-9]{0,8}")


def as_options(text: str) -> str:
    """A text with options as the command line of the tools has them, and not as Python does.

    >>> as_options("try narrow=True, then budget=8388608, then engine='search'")
    'try --narrow, then --budget 8388608, then --engine search'
    >>> as_options("frames is from 1 to 64, not 0")
    '--frames is from 1 to 64, not 0'
    """
    return NAMED.sub(r"--\1 is ", OPTION.sub(r"--\1 \2", text.replace("narrow=True", "--narrow").replace(SEARCH, "--engine search")))


def hint(status: int, last_line: str, words: Sequence[str], file: str | os.PathLike[str]) -> str:
    """What to try after a run with these words, with options as Python has them; nothing if there is nothing to say.

    >>> hint(3, "error: sum above 2097152", ["serve", "x.bench", "--narrow"], "x.bench")
    "try budget=8388608, then engine='search'"
    """
    if status == 1:
        return of_refusal(pathlib.Path(file), last_line)
    if status == 2:
        return next(faults_of_words(words), "")
    if status == 3:
        return of_sum(words)
    return of_reading(pathlib.Path(file)) if status == 4 else ""


def of_refusal(file: pathlib.Path, last_line: str) -> str:
    """What is wrong where in the file, and what to try."""
    if last_line.startswith("error: bits "):
        return f"try a smaller levels=C, or leave out least; or try {SEARCH}, without least"
    where = faults.hint(file, last_line)
    if "fault 5 sequential" in last_line and file.suffix == ".bench":
        return "; ".join(filter(None, (where, "the netlist has flip-flops: give frames=N, the number of clock periods that are seen")))
    if file.suffix == ".bench" and OF_OTHER_TOOLS.search(where):
        return f"{where}; if ABC or another tool wrote the file, `diag-netlist` writes it anew"
    return where


def of_sum(words: Sequence[str]) -> str:
    """How a device that is too wide may be served. `plan` takes no budget, and `load` has no file that could be another."""
    if words[:1] == ["load"]:
        return ""
    tried = [] if "--narrow" in words else ["narrow=True"]
    tried += [] if "plan" in words or str(MOST_BUDGET) in words else [f"budget={MOST_BUDGET}"]
    return f"try {', then '.join([*tried, SEARCH if 'serve' in words else f'`serve` with {SEARCH}'])}"


def of_reading(file: pathlib.Path) -> str:
    """Why a file cannot be read."""
    if os.path.isdir(file):
        return f"{file} is a folder"
    try:
        file.stat()
    except FileNotFoundError:
        return f"there is no file {file}"
    except OSError as error:
        return sentence(error)
    return f"{file} may not be read by you" if not os.access(file, os.R_OK) else "the file or the script could not be read to its end"


def fits(files: Sequence[str], file: str) -> bool:
    """Whether a name ends in one of these, after at least one more byte; none stand for all."""
    return not files or any(file.endswith(ending) and file != ending for ending in files)


def conversion(file: str) -> str:
    """How a netlist is made of a file of another kind, if that is known."""
    ending = os.path.splitext(file)[1]
    made = dict.fromkeys((".blif", ".json"), f"; `diag-netlist {file}` makes one")
    return (made | dict.fromkeys((".v", ".sv"), "; of Verilog yosys and then `diag-netlist` make one")).get(ending, "")


def faults_of_words(words: Sequence[str]) -> Iterator[str]:
    """Why words are none of the forms, by the table of forms. What comes first is the gravest; none comes if they are a form.

    >>> list(faults_of_words(["serve", "x.bench", "--narrow"])), next(faults_of_words(["serve", "x.bench", "--wide"]))
    ([], '`serve` takes no `--wide`')
    """
    form, *rest = words or [""]
    if form in manual.rows("option"):
        yield f"options come after the file, such as `diag serve FILE {form}`"
    elif form not in manual.rows("form"):
        yield f"there is no form `{shown(form)}`"
    else:
        row = manual.rows("form")[form]
        operands = row.value.split()
        for operand, word in itertools.zip_longest(operands, rest[: len(operands)], fillvalue=""):
            yield from fault_of_file(row, word) if operand == "FILE" else fault_of_number(manual.rows("operand", form)[operand], word)
        yield from faults_of_options(row, rest[0] if rest else "", rest[len(operands) :])


def fault_of_file(form: Row, file: str) -> Iterator[str]:
    """Why a form does not take a file of this name."""
    if fits(form.files, file):
        try:
            os.fsencode(file).decode()
        except UnicodeDecodeError:
            yield "the name of the file is not UTF-8, and the program takes no other; give the file another name"
    elif file.startswith("-"):
        yield f"the file comes before the options: `diag {form.word} FILE {shown(file)}`"
    else:
        yield f"the file of `{form.word}` ends in {' or '.join(form.files)}" + (conversion(shown(file)) if ".bench" in form.files else "")


def fault_of_number(row: Row, word: str) -> Iterator[str]:
    """Why a word is no number that an operand or an option takes."""
    assert row.least is not None and row.most is not None
    if not (NUMBER.fullmatch(word) and row.least <= int(word) <= row.most):
        yield f"{row.word} {'is' if row.kind == 'operand' else 'takes'} a number from {row.least} to {row.most}, without leading zeros"


def faults_of_options(form: Row, file: str, words: Sequence[str]) -> Iterator[str]:
    """Why words that follow a form's file are no options that go with it and with each other."""
    taken, given = manual.rows("option", form.word), dict[str, Row]()
    left = iter(words)
    for word in left:
        row = taken.get(word)
        if row is None:
            more = ": a blank, and no =, comes before a number" if re.match("--.*=", word) else ""
            yield f"`{form.word}` takes no `{shown(word)}`{more}"
            return
        if word in given:
            yield f"`{word}` is given twice"
        if not fits(row.files, file):
            yield f"`{word}` is for files that end in {' or '.join(row.files)}"
        if row.value:
            yield from fault_of_number(row, next(left, ""))
        given[word] = row
    for word, row in given.items():
        if row.beside and (others := given.keys() - {word, *row.beside}):
            yield f"`{word}` goes with {', '.join(row.beside)} alone, not with {', '.join(sorted(others))}"


def is_read(words: Sequence[str]) -> bool:
    """Whether the file in the words of a form, if there is one, can be read, as far as that is seen before."""
    return "FILE" not in manual.rows("form")[words[0]].value or not os.path.isdir(words[1]) and os.access(words[1], os.R_OK)


def said(status: int, last_line: str, words: Sequence[str]) -> str:
    """What the launcher says."""
    text = as_options(hint(status, last_line, words, words[1] if len(words) > 1 else "").replace(SEARCH, "--search"))
    return f"{text}; `diag --help` shows all forms" if text and status == 2 else text


def before(*words: str) -> None:
    """Prints how a run ends whose end is known before it begins: the status, the last line and what the launcher says."""
    if text := said(2, "", words):
        print(2, "error: usage", text, sep="|")
    elif not is_read(words):
        print(4, "error: read", said(4, "", words), sep="|")


def after(status: str, last_line: str, *words: str) -> None:
    """Prints what the launcher says after a run."""
    print(said(int(status), last_line, words))


if __name__ == "__main__":
    if sys.argv[1] == "before":
        before(*sys.argv[2:])
    else:
        after(*sys.argv[2:])
