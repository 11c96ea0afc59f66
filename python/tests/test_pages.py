"""The help, the manual page, the completion and the tables of the pages say what the table of forms says."""

import argparse
import functools
import os
import pathlib
import re
import shlex
import shutil
import subprocess
import sys
import tempfile
import unittest
from unittest import mock

from support import TOP

from diag_client import manual
from diag_client.__main__ import words_of
from diag_client.devices import GATES

COMPLETION = TOP / "completions/diag.bash"
PAGE = TOP / "docs/diag.1"


HELP = (TOP / "python/diag_client/help.txt").read_text()
# What `docs/write-help` reads and writes.
WRITTEN = ("docs/SCRIPT.md", "docs/diag.1", "docs/diag-boards.1", "README.md", "examples/c17.script", "examples/c17_commands.script", "completions/diag.bash")


class Table(unittest.TestCase):
    """`forms.tsv`, from which the help and all else is made."""

    def test_nothing_is_lost(self):
        """The help says the words of each row."""
        said = " ".join(HELP.replace("`", "").split())
        for kind in ("form", "option", "launcher", "status"):
            for row in manual.rows(kind).values():
                texts = [row.head] + ([] if "{" in row.text else [manual.plain(row.text), manual.plain(row.prints)])
                texts += [str(number) for number in (row.least, row.most, row.default) if number is not None]
                self.assertEqual([text for text in texts if text not in said], [], row)

    def test_commands(self):
        usages = manual.usages()
        self.assertEqual((usages["see"].words, usages["see"].choices), (("w=b",), "b is 0 or 1"))
        self.assertEqual((usages["after"].words, usages["after"].choices), (("p1", "..", "pk"), "k may be 0"))
        self.assertEqual((usages["min"].words, usages["min"].choices), ((), ""))
        for usage in usages.values():
            self.assertIn(usage.text, " ".join(HELP.split()))


class OneRow(unittest.TestCase):
    """A form, an option and a command that are added to the table are in all that is made of it, and nothing else is changed by hand."""

    ROWS = (
        ("option", "serve", "--alone", "", "flag", "", "", "", "", "--sessions --frames --levels", "searches [each case](SIZE.md)", ""),
        ("option", "serve", "--wide", "N", "number", "2", "3000", "2500", ".dev", "", "is wide", ""),
        ("form", "", "tell", "FILE", "", "", "", "", ".nnf", "", "tells [what](SIZE.md)", "`1,000`"),
        ("option", "tell", "--far", "", "flag", "", "", "", "", "", "is far", ""),
        ("command", "", "dance", "S w=b", "0 1", "", "", "", "", "--alone", "dances", "`S ok`"),
    )

    def setUp(self):
        self.top = pathlib.Path(self.enterContext(tempfile.TemporaryDirectory()))
        for folder in ("docs", "examples", "completions", "crates/diag"):
            (self.top / folder).mkdir(parents=True)
        for file in (*WRITTEN, "docs/write-help", "diag", "crates.txt"):
            shutil.copy(TOP / file, self.top / file)
        shutil.copytree(TOP / "python/diag_client", self.top / "python/diag_client", ignore=shutil.ignore_patterns("__pycache__", "bin"))
        with open(self.top / "python/diag_client/forms.tsv", "a") as table:
            table.writelines("\t".join(row) + "\n" for row in self.ROWS)
        self.runs = [self.run_in("docs/write-help", *words) for words in ([], ["--write"], [])]

    def run_in(self, *words):
        return subprocess.run([self.top / words[0], *words[1:]], capture_output=True, text=True, cwd=self.top)

    def read(self, file):
        return (self.top / file).read_text()

    def test_written(self):
        self.assertEqual([done.returncode for done in self.runs], [1, 0, 0], self.runs)
        made = "python/diag_client/help.txt, docs/diag.1, examples/c17_commands.script, docs/SCRIPT.md, README.md, completions/diag.bash"
        self.assertIn(f"{made}: not as they are made", self.runs[0].stderr)
        for file, texts in {
            "python/diag_client/help.txt": (
                "\ndiag tell FILE        tells what; prints 1000; --far may follow\n",
                "--alone         searches each case; with no other option than --sessions,\n",
                "--wide N        is wide; from 2 to 3000; 2500 if none is given\n", "\ndance S w=b         dances; b is 0 or 1; with --alone\n",
            ),
            "docs/SCRIPT.md": (
                "| `dance S w=b`, b is `0` or `1`, with `--alone` | `S ok` | dances |\n", "| `--wide N` | 2 to 3,000 | 2,500 | is wide |\n",
                "| `--alone` | | off | searches [each case](SIZE.md); with no other option than `--sessions`, `--frames`, `--levels` |\n",
                "| `tell FILE [--far]` | `.nnf` | tells [what](SIZE.md) | `1,000` |\n", "| `serve FILE [options]` |",
            ),
            "docs/diag.1": ("[\\-\\-search]", "diag tell FILE [\\-\\-far]"),
            "README.md": ("| `diag tell FILE` | tells what |\n",),
            "examples/c17_commands.script": ("\ndance S 10=1\n",),
        }.items():
            for text in texts:
                self.assertIn(text, self.read(file), file)

    def test_hints(self):
        """The launcher takes the words, and says which of them do not go with each other."""
        for words, said in (
            ("serve x.bench --alone --levels 3", "no file x.bench"), ("serve x.bench --alone --least", "`--alone` goes with --sessions, --frames, --levels alone"),
            ("plan x.bench --alone", "`plan` takes no `--alone`"), ("serve x.bench --wide 3", "`--wide` is for files that end in .dev"),
            ("serve x.dev --wide 1", "--wide takes a number from 2 to 3000"), ("tell x.nnf --far", "no file x.nnf"), ("tell x.dev", "ends in .nnf"),
        ):
            self.assertIn(said, self.run_in("diag", *words.split()).stderr, words)

    def test_client(self):
        """It knows the numbers of the option, and the terminal the command."""
        script = "from diag_client import manual\nprint(manual.limits()['wide'], manual.usages()['dance'])"
        env = {**os.environ, "PYTHONPATH": str(self.top / "python")}
        done = subprocess.run([sys.executable, "-B", "-c", script], capture_output=True, text=True, env=env)
        self.assertIn("(2, 3000) Usage(command='dance', words=('w=b',), text='dances; b is 0 or 1; with --alone'", done.stdout)

    def test_completion(self):
        complete = functools.partial(Completion.complete, self, completion=self.top / "completions/diag.bash", folder=self.top)
        for words, wanted in (
            ("t", ["tell"]), ("tell x.nnf ", ["--far"]), ("serve x.dev --w", ["--wide"]), ("serve x.bench --w", []),
            ("serve x.bench --alone ", ["--frames", "--levels", "--sessions"]), ("serve x.bench --least --s", ["--sessions"]),
        ):
            self.assertEqual(complete(*words.split(" ")), wanted, words)


class Page(unittest.TestCase):
    """`docs/diag.1`."""

    def test_sections(self):
        titles = re.findall(r"^\.SH (.*)$", PAGE.read_text(), re.MULTILINE)
        self.assertEqual([title for title in ("SYNOPSIS", "FILES", "EXAMPLES", "SEE ALSO") if title not in titles], [])
        self.assertRegex(PAGE.read_text(), r"(?s)\.TH DIAG 1 [0-9-]{10}\n.*\.SH SYNOPSIS\n.*diag \\-\\-build\n.*\.SH DESCRIPTION")

    # A small machine may have a script in its place that only says that it is not there.
    @unittest.skipUnless(shutil.which("man") and shutil.which("groff"), "there is no man")
    def test_is_set(self):
        text = self.text_of(PAGE)
        # An entry and what explains it are parted by two blanks or more.
        for said in filter(None, re.split(r"  +|\n", HELP.replace("`", ""))):
            if not said.endswith(":") and not said.startswith("Exit"):
                self.assertIn(said.strip(), text)
        text = self.text_of(PAGE.with_name("diag-boards.1"))
        for action in boards_words():
            words = [str(action.help) % vars(action), *(action.option_strings or [action.metavar])]
            self.assertEqual([word for word in words if word not in text], [])

    def text_of(self, page):
        """A manual page as it is read, without line ends."""
        # Without a filter of system calls, which an emulated machine has not.
        env = {"PATH": os.environ["PATH"], "LC_ALL": "C", "MANWIDTH": "200", "MAN_DISABLE_SECCOMP": "1"}
        words = ["man", "--warnings", "--no-hyphenation", "--no-justification", "-l", str(page)]
        done = subprocess.run(words, capture_output=True, text=True, check=True, env=env)
        self.assertEqual(done.stderr, "")
        return " ".join(re.sub("\x1b\\[[0-9]*m|.\b", "", done.stdout).split())


def table(page, heading, number=0):
    """The rows of a table of a page, each as its cells."""
    text = (TOP / page).read_text().split(f"\n## {heading}\n")[1].split("\n## ")[0]
    rows = re.findall(r"(?:^\|.*\n)+", text, re.MULTILINE)[number].splitlines()[2:]
    return [[cell.strip() for cell in row.strip("|").split("|")] for row in rows]


def codes(cell):
    """What is code in a cell."""
    return re.findall("`(.*?)`", cell)


class Tables(unittest.TestCase):
    """What several pages say of one thing is the same, and is what the help and the client say."""

    def test_every_command_has_an_example(self):
        shown = {line.split()[0] for line in (TOP / "examples/c17_commands.script").read_text().splitlines() if line}
        self.assertLessEqual(manual.usages().keys(), shown)

    def test_statuses(self):
        self.assertEqual([*dict.fromkeys(status for status, *_ in table("docs/SCRIPT.md", "How a run ends"))], [*manual.rows("status")])

    def test_gates(self):
        rows = table("docs/NETLIST.md", "Gates")
        shown = {word: int(inputs.split()[-1]) for cell, _, inputs in rows for word in codes(cell)}
        self.assertEqual(shown, {word: gate.most_inputs for word, gate in GATES.items()})


def boards_words():
    """What `diag-boards` takes."""
    (commands,) = (action for action in words_of()._actions if isinstance(action, argparse._SubParsersAction))
    return commands.choices["boards"]._actions


class Completion(unittest.TestCase):
    """`completions/diag.bash`, asked as bash asks it."""

    def complete(self, *words, folder=TOP, completion=COMPLETION, at=None, tool="_diag"):
        """What is offered for the last word, or another one; `offered_as` is how, where that is asked for."""
        script = (
            f'compopt() {{ printf "%s\\n" "$*" >&3; }}; source "$1"; shift; COMP_WORDS=(diag "$@"); COMP_CWORD={at or len(words)}; {tool} 3>asked; '
            'printf "%s\\n" "${COMPREPLY[@]}"'
        )
        with tempfile.NamedTemporaryFile("r") as asked:
            words = ["bash", "-c", script.replace("3>asked", f"3>{shlex.quote(asked.name)}"), "bash", str(completion), *words]
            done = subprocess.run(words, capture_output=True, text=True, check=True, cwd=folder)
            self.offered_as = asked.read().strip()
        self.assertEqual(done.stderr, "")
        return sorted(filter(None, done.stdout.split("\n")))

    def test_forms(self):
        self.assertEqual(self.complete(""), sorted([*manual.rows("form"), *manual.rows("launcher")]))
        self.assertEqual(self.complete("--b"), ["--build"])

    def test_options(self):
        for form, row in manual.rows("form").items():
            given = row.value.replace("FILE", f"x{row.files[0]}" if row.files else "").split()
            told = manual.rows("option", form)
            self.assertEqual(self.complete(form, *given, ""), sorted(told), form)
            for word, option in told.items():
                others = sorted(
                    other for other, row in told.items() if other != word and word in (row.beside or told) and other in (option.beside or told)
                )
                self.assertEqual(self.complete(form, *given, word, ""), [] if option.value else others)
                self.assertEqual(self.complete(form, *given, *option.head.split(), ""), others)
            if len(given) == 2:
                self.assertEqual(self.complete(form, given[0], ""), [])
        self.assertNotIn("--frames", self.complete("serve", "x.dev", ""))
        self.assertEqual(self.complete("load", ""), [])

    def test_before_other_words(self):
        self.assertEqual(self.complete("serve", "examples/c1", "--narrow", at=2), ["examples/c17.bench"])

    def test_files(self):
        with tempfile.TemporaryDirectory() as folder:
            pathlib.Path(folder, "deep folder").mkdir()
            for name in ("a.bench", "b.dev", "b b.dev", "c.nnf", "d.txt", "deep folder/a.bench"):
                open(f"{folder}/{name}", "w").close()
            for form in ("serve", "plan", "compile"):
                self.assertEqual(self.complete(form, "", folder=folder), ["a.bench", "b b.dev", "b.dev", "deep folder"])
                # So bash quotes what has blanks, and goes on in a folder.
                self.assertEqual(self.offered_as, "-o filenames")
            for form in ("check", "ask"):
                self.assertEqual(self.complete(form, "", folder=folder), ["c.nnf", "deep folder"])
            with mock.patch.dict(os.environ, HOME=folder):
                self.assertEqual(self.complete("serve", "~/d"), ["~/deep folder"])
        self.assertIn("examples", self.complete("serve", "ex"))

    def test_boards(self):
        """The words of `diag-boards`: its two files, its options, and what these take."""
        complete = functools.partial(self.complete, tool="_diag_boards")
        options = {option: action for action in boards_words() for option in action.option_strings}
        with tempfile.TemporaryDirectory() as folder:
            for name in ("a.bench", "b.dev", "c.csv"):
                open(f"{folder}/{name}", "w").close()
            self.assertEqual(complete("", folder=folder), ["a.bench", "b.dev"])
            self.assertEqual(complete("--jobs", "4", "", folder=folder), ["a.bench", "b.dev"])
            for given in (["a.bench"], ["--csv", "a.bench"], ["x.dev", "c.csv", "-o"], ["x.dev", "c.csv", "--csv", "--output"]):
                self.assertEqual(complete(*given, "", folder=folder), ["a.bench", "b.dev", "c.csv"])
        self.assertEqual(complete("x.dev", "c.csv", ""), sorted(options))
        self.assertEqual(complete("--re"), ["--resume"])
        self.assertEqual(complete("x.dev", "c.csv", "--check", ""), ["clasp"])
        for option, action in options.items():
            if action.nargs != 0 and not action.choices and action.metavar not in ("RESULTS", "PATH"):
                self.assertEqual(complete("x.dev", "c.csv", option, ""), [])
            given = [option] if action.nargs == 0 else [option, "1"]
            self.assertEqual(complete("x.dev", "c.csv", *given, "--"), sorted(word for word in options if word[:2] == "--" and (word != option or word == "--ignore")))


if __name__ == "__main__":
    unittest.main()
