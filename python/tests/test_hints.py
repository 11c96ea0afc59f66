"""What the launcher and the errors say after a run: by its words, by a fault of a file, and of the lines of a script that were refused."""

import itertools
import os
import pathlib
import re
import subprocess
import tempfile
import unittest

from support import C17, EXAMPLES, PROGRAM, needs_program, replies

from diag_client import hints, manual
from diag_client.faults import hint
from diag_client.refused import refused_lines

# Files with one fault each, by the pages of the two languages and of graphs: the ending, the text, the fault's line, number and text, and
# the column and the word that were found by hand. Without a word it is the end of the line; without a column no place is looked for.
FAULTS = (
    (".bench", "y = AND(a", 1, "1 line", 10, ""), (".bench", "y = AND a)", 1, "1 line", 9, "a"), (".bench", "INPUT[a]", 1, "1 line", 9, ""),
    (".bench", "INPUT(a b) # c", 1, "1 line", 9, "b"), (".bench", "\n y = AND(a) z", 2, "1 line", 13, "z"), (".bench", "OUTPUT a", 1, "1 line", 8, "a"),
    (".bench", "y = AND(a # ,b)", 1, "1 line", 10, ""), (".bench", "INPUT(caf\u00e9)", 1, "2 name", 7, "caf\u00e9"),
    (".bench", f"INPUT(a)\ny = AND(a, {'b' * 65})", 2, "2 name", 12, "b" * 60 + "..."), (".bench", "INPUT(a)\ny = MUX(a, a)", 2, "3 kind", 5, "MUX"),
    (".bench", "INPUT(a)\n y  =  NOT(a, a)", 2, "4 inputs", 8, "NOT"), (".bench", "INPUT(d)\nq = DFF(d)", 2, "5 sequential", 5, "DFF"),
    (".bench", "INPUT(a)\ny = BUFF(a)\n  y = NOT(a)", 3, "6 driven twice", 3, "y"), (".bench", "y = BUFF(a)\nINPUT( a )\nINPUT( y )", 3, "6 driven twice", 8, "y"),
    (".bench", "input(a)\r\ny = AND(a, b, c)\r", 2, "7 undriven", 12, "b"), (".bench", "OUTPUT(z)", 1, "7 undriven", 8, "z"),
    (".dev", "part u NOT a b", 1, "1 line", 1, "part"), (".dev", "block M a.b", 1, "2 name", 9, "a.b"), (".dev", "block M a b a", 1, "3 twice", 13, "a"),
    (".dev", "type AND p", 1, "3 twice", 6, "AND"), (".dev", "block M a\nwire b c\nwire d e c f", 3, "3 twice", 10, "c"),
    (".dev", "block M a b\npart u NOT a b\npart u NOT b a", 3, "3 twice", 6, "u"), (".dev", "type T a\nok 1\ncost 1\ncost 2", 4, "3 twice", 1, "cost"),
    (".dev", "block M a b\nend\nblock M c d", 3, "3 twice", 7, "M"), (".dev", "block M a b\npart u M a b", 2, "4 unknown", 8, "M"),
    (".dev", "block M a b\npart u NOT a c", 2, "4 unknown", 14, "c"), (".dev", "top Q", 1, "4 unknown", 5, "Q"), (".dev", "block M a b\npart u NOT a", 2, "5 ports", 8, "NOT"),
    (".dev", "type T a b c d e f g", 1, "5 ports", 20, "g"), (".dev", "type T", 1, "5 ports", 6, "T"), (".dev", "type T a\nok 00", 2, "6 row", 4, "00"),
    (".dev", "block B a\nend\ntop B\n\nx y", 5, "8 after top", 1, "x"), (".dev", "type T a\ncost 01", 2, "9 cost", 6, "01"),
    (".nnf", "nnf 2 1 1\nL 1\nA 1 1", 3, "3 child", 5, "1"), (".nnf", "nnf 3 1 1\nL 1\n\nO 0 2 0 7", 4, "3 child", 9, "7"),
    (".nnf", "nnf 1 0 1\nL -2", 2, "4 variable", 3, "-2"), (".nnf", "nnf 2 1 1\nL 1\nA 3 0 1", 3, "2 line", None, None),
)


class OfFiles(unittest.TestCase):
    """The line, the column and the word of a fault."""

    def setUp(self):
        self.folder = pathlib.Path(self.enterContext(tempfile.TemporaryDirectory()))

    def write(self, ending, data):
        file = self.folder / f"any{ending}"
        file.write_bytes(data if isinstance(data, bytes) else data.encode())
        return file

    def test_places(self):
        for ending, text, line, fault, column, word in FAULTS:
            with self.subTest(text):
                file = self.write(ending, text)
                shown = text.split("\n")[line - 1].strip()
                shown = shown[:60] + ("..." if len(shown) > 60 else "")
                at = f"line {line} is" if column is None else f"line {line}, column {column}: " + (f"`{word}` in" if word else "the end of")
                self.assertEqual(hint(file, f"error: line {line}: fault {fault}"), f"{at} `{shown}`")

    @needs_program
    def test_these_are_faults(self):
        for ending, text, line, fault, _, _ in FAULTS:
            done = subprocess.run([PROGRAM, "check" if ending == ".nnf" else "plan", self.write(ending, text)], capture_output=True, text=True)
            self.assertEqual((done.stdout, done.returncode), (f"error: line {line}: fault {fault}\n", 1), text)

    def test_no_place(self):
        """A fault of no line, a file that is not read, and one that begins with what no text begins with."""
        for data, last_line, said in (
            ("", "error: line 0: fault 8 too many", ""), ("x", "error: line 9: fault 1 line", ""), ("x", "error: parts 5000 above 4096", ""),
            (b"\xef\xbb\xbfINPUT(a)", "error: line 1: fault 1 line", "byte order mark"), ("INPUT(a)".encode("utf-16"), "error: line 1: fault 1 line", "UTF-16"),
        ):
            found = hint(self.write(".bench", data), last_line)
            self.assertEqual((said in found, bool(found)), (True, bool(said)), last_line)
        os.mkfifo(self.folder / "pipe.bench")
        self.assertEqual(hint(self.folder / "pipe.bench", "error: line 1: fault 1 line"), "")
        self.assertEqual(hint(self.folder / "none.bench", "error: line 1: fault 1 line"), "")

    def test_large_file(self):
        """No more is read than the program takes."""
        file = self.write(".bench", "INPUT(a)\nwrong\n")
        os.truncate(file, 1 << 36)
        self.assertEqual(hint(file, "error: line 2: fault 1 line"), "line 2, column 6: the end of `wrong`")

    def test_what_to_try(self):
        for data, last_line, said in (
            ("INPUT(d)\nq = DFF(d)", "error: line 2: fault 5 sequential", "`DFF` in `q = DFF(d)`; the netlist has flip-flops: give frames=N"),
            ("q = LUT 0x1 ( a )", "error: line 1: fault 1 line", "`diag-netlist` writes it anew"), ("", "error: bits 3 above 2", "try a smaller levels=C, or leave out least; or try engine='search'"),
        ):
            self.assertIn(said, hints.hint(1, last_line, ["serve"], self.write(".bench", data)))


class OfWords(unittest.TestCase):
    """Which of the words is none of a form."""

    def test_hints(self):
        for words, said in (
            ("serve --narrow x.bench", "the file comes before the options: `diag serve FILE --narrow`"), ("--narrow serve x.bench", "options come after the file"),
            ("srve x.bench", "there is no form `srve`"), ("", "there is no form ``"), ("-v", "there is no form `-v`"), ("serve x.txt", "ends in .bench or .dev"),
            ("plan /dev/stdin", "ends in .bench or .dev"), ("plan x.blif", "`diag-netlist x.blif` makes one"), ("check x.json", "ends in .nnf"),
            ("plan x.v", "of Verilog yosys and then `diag-netlist` make one"), ("serve", "ends in .bench or .dev"), ("check x.bench", "ends in .nnf"),
            ("ask x.nnf", "HEALTH is a number from 0 to 4096"), ("ask x.nnf --sessions 2", "HEALTH is a number"), ("ask x.nnf 02", "without leading zeros"),
            ("ask x.nnf 4096 --wide", "`ask` takes no `--wide`"), ("ask x.nnf 0 --narrow", "`ask` takes no `--narrow`"), ("load 801", "N is a number from 1 to 800"),
            ("check x.nnf x", "`check` takes no `x`"), ("plan x.bench --frames 2", "`plan` takes no `--frames`"), ("serve x.dev --levels=3", "a blank, and no ="),
            ("serve x.bench --least --budget 2 --least", "`--least` is given twice"), ("serve x.dev --frames 2", "`--frames` is for files that end in .bench"),
            ("serve x.bench --frames 65", "--frames takes a number from 1 to 64"), ("serve x.bench --budget", "from 1 to 8388608"),
            ("serve x.bench --levels 08 --least", "from 0 to 4096000"), ("plan x.bench --search", "`plan` takes no `--search`"),
            *((f"serve x.bench --search {word}", "`--search` goes with --sessions, --frames, --levels alone, not with --")
              for word in ("--least", "--narrow", "--budget 9")), ("plan caf\udce9.bench", "is not UTF-8"),
        ):
            self.assertIn(said, hints.hint(2, "error: usage", words.split(), ""), words)

    @needs_program
    def test_as_the_program(self):
        """Words have a fault here if and only if they are no form of the program."""
        for words in every_words():
            with tempfile.TemporaryDirectory() as folder:
                done = subprocess.run([PROGRAM, *words], capture_output=True, text=True, cwd=folder, stdin=subprocess.DEVNULL)
            self.assertEqual(next(hints.faults_of_words(words), "") == "", done.returncode != 2, (words, done.stdout))

    def test_sum_and_file(self):
        for words, said in (
            ("serve x.bench", "try narrow=True, then budget=8388608, then engine='search'"), ("serve x.bench --budget 8388608 --narrow", "try engine='search'"),
            ("plan x.bench", "try narrow=True, then `serve` with engine='search'"), ("plan x.bench --narrow", "try `serve` with engine='search'"),
            ("compile x.dev --narrow", "try budget=8388608, then `serve` with engine='search'"), ("load 800", ""),
        ):
            self.assertEqual(hints.hint(3, "error: sum above 2097152", words.split(), "x.bench"), said)
        for file, said in (
            (C17.parent, "is a folder"), ("none.bench", "there is no file none.bench"), (C17, "could not be read to its end"),
            (f"{'x' * 999}.bench", ".bench: file name too long"),
        ):
            self.assertIn(said, hints.hint(4, "error: read", ["plan", os.fspath(file)], file))


def every_words():
    """Words of each form, right and wrong: its file, its operands, one or two of the options, and their numbers."""
    numbers = {name: (row.least - 1, row.least, row.most, row.most + 1, "", "01", "1x", "1" * 30) for name, row in manual.rows("option").items() if row.value}
    for form, row in [*manual.rows("form").items(), ("tell", manual.rows("form")["plan"])]:
        operands = [["x.bench", "x.dev", "x.nnf", "x.txt", ".bench", "./.dev", "-.nnf", ""] if word == "FILE" else ["0", "1", "4096", "4097", "00", ""] for word in row.value.split()]
        yield from ([form, *given, *more] for given in itertools.product(*operands) for more in ([], ["--narrow"], ["x"]))
        right = [f"x{row.files[0]}" if row.files else "1", *(["3"] if len(operands) == 2 else [])]
        given = [[name, *number] for name in manual.rows("option") for number in ([[str(number)] for number in numbers[name]] + [[]] if name in numbers else [[]])]
        yield from ([form, *right, *words] for words in given)
        fair = [[name, *(["1"] if name in numbers else [])] for name in manual.rows("option")]
        yield from ([form, *right, *one, *other] for one in fair for other in fair)
        yield [form]


class OfScripts(unittest.TestCase):
    """Which lines of a script were refused."""

    @needs_program
    def test_each_reason(self):
        """The reasons as the page has them, each at its line, between replies of all kinds."""
        rows = (
            ("dance S", "unknown command: dance in `dance S`"), ("see S 2", "bad words in `see S 2`"), ("see S (=1", "bad name: ( in `see S (=1`"),
            ("see S 2=2", "bad value in `see S 2=2`"), ("min T", "no session: T in `min T`"), ("open S", "open already: S in `open S`"),
            ("open T", "full: T in `open T`"), ("\tsee  S 99=0\r", "no wire: 99 in `see  S 99=0`"), ("hold S 99=ok", "no part: 99 in `hold S 99=ok`"),
            ("level S", "no levels: level in `level S`"), ("leastnnf S", "no least: leastnnf in `leastnnf S`"),
        )
        others = ["", "  # a comment", "list S 2", "list S 9", "probes S", "dnnf S", "blame S", "min S"]
        script = ["open S", *itertools.chain.from_iterable([*others, line] for line, _ in rows), "see S 22=0", "min S"]
        found = list(refused_lines(script, ["ready 6 11", *replies(script, "--sessions", "1")]))
        number = len(others) + 1
        self.assertEqual(found, [f"line {at * number + 1} of the script: {said}" for at, (_, said) in enumerate(rows, 1)])

    @needs_program
    def test_none_in_examples(self):
        """Every reply is passed over, those of all commands too."""
        for file in EXAMPLES.glob("*.script"):
            device = next((file.with_suffix(ending) for ending in (".bench", ".dev") if file.with_suffix(ending).exists()), C17)
            script = file.read_text().splitlines()
            told = ["ready 1 1", *replies(script, file=device)]
            refused = [line for line in told if re.match("([^ ]+ )?error [0-9]+ ", line)]
            left = iter(told)
            self.assertEqual((len(list(refused_lines(script, left))), list(left)), (len(refused), []), file.name)

    def test_without_replies(self):
        """What comes of a run that was refused or cut says nothing of lines."""
        for told in ([], ["error: read"], ["ready 1 1"], ["ready 1 1", "S open"], ["ready 1 1", "S open", "S dnnf"]):
            self.assertEqual(list(refused_lines(["open S", "dnnf S", "dance"], told)), [])


if __name__ == "__main__":
    unittest.main()
