"""The program with `--search` against a search by answer sets, over netlists without flip-flops some of whose outputs are wrong. Times are
those of the processor. It needs gringo and clasp.

Inputs have bits at random, and so many outputs, which are chosen at random, are the opposite of what follows; all are seen. Each case is
asked from scratch for the least cost, which is a whole run of the program, or of gringo and clasp; as a further case of a service that
runs, or by clasp over what is grounded; and from scratch for all diagnoses, up to a number.
"""

import pathlib
import random
import statistics
import subprocess
import tempfile

import many_patterns
from many_patterns import Board

WRONG = (1, 2, 3, 5, 8)
CASES = 10
LISTED = 5000
# clasp is cut after so many seconds.
LIMIT = 60
CLASP = [*many_patterns.CLASP, f"--time-limit={LIMIT}"]
KINDS = ("from scratch", "a further case", "all diagnoses")


def case_of(board, chance, wrong):
    """What is seen, when so many outputs are wrong."""
    seen = board.pattern(chance, {})
    for wire in chance.sample(ends(board), wrong):
        seen[wire] = 1 - seen[wire]
    return seen


def ends(board):
    """The outputs that are no inputs."""
    return [wire for wire in board.outputs if wire not in board.inputs]


def lines_of(seen, ask):
    """The lines of a script."""
    return [*(f"see S {wire}={bit}" for wire, bit in seen.items()), ask]


class Running:
    """A service that runs, and has answered before."""

    def __init__(self, program, file):
        self.process = subprocess.Popen([program, "serve", file, "--search"], stdin=subprocess.PIPE, stdout=subprocess.PIPE, text=True)
        self.ask(["open S", "min S"])

    def ask(self, lines):
        """The reply to the last of these lines, and how long the processor took."""
        before = self.seconds()
        self.process.stdin.write("".join(f"{line}\n" for line in lines))
        self.process.stdin.flush()
        while not (told := self.process.stdout.readline()).startswith("S min "):
            if not told:
                raise EOFError(f"the program has ended with status {self.process.wait()}")
        return told, self.seconds() - before

    def seconds(self):
        """How long the processor was at work for it."""
        return int(pathlib.Path(f"/proc/{self.process.pid}/schedstat").read_text().split()[0]) / 1e9

    def close(self):
        self.process.stdin.close()
        self.process.stdout.close()
        self.process.wait()


class Case:
    """The times of both for each kind of question, in seconds, and what they answer. What clasp is cut at is None."""

    def __init__(self, run, folder, board, running, seen):
        self.run, self.output, self.script = run, folder / "output", folder / "script"
        words = [run.PROGRAM, "serve", str(board.file), "--search"]
        first, told = self.served(words, lines_of(seen, "min S"))
        self.cost = int(told[-1].split()[2])
        further, again = run_further(running, seen)
        every, told = self.served(words, lines_of(seen, f"list S {LISTED}"))
        self.count = sum(line.startswith("S diag") for line in told)
        self.ours = first, further, every
        source, ground = folder / "case.lp", folder / "case.ground"
        source.write_text(many_patterns.ENCODING + many_patterns.facts(board.inputs, board.gates, [(seen, {})]))
        _, grounding, _ = run.run(["gringo", "--warn=none", str(source)], "/dev/null", ground)
        solving, one = self.solved(ground)
        listing, sets = self.solved(ground, "--opt-mode=optN", "-n", str(LISTED))
        self.theirs = [None if one is None else grounding + solving, None if one is None else solving, None if sets is None else grounding + listing]
        self.agrees = again == self.cost and one in (None, self.cost) and sets in (None, (self.cost, self.count))

    def served(self, words, lines):
        """How long the processor took for a run, and what it wrote."""
        self.script.write_text("".join(f"{line}\n" for line in ["open S", *lines]))
        _, seconds, _ = self.run.run(words, self.script, self.output)
        return seconds, self.output.read_text().splitlines()

    def solved(self, ground, *options):
        """How long clasp took, and the least cost; with options the least cost and how many sets have it. None if it was cut."""
        _, seconds, _ = self.run.run([*CLASP, *options, str(ground)], "/dev/null", self.output)
        found, is_done = many_patterns.found_in(self.output.read_text())
        if not is_done and not (options and found and len(found[1]) >= LISTED):
            return seconds, None
        return seconds, (found[0], min(len(found[1]), LISTED)) if options else found[0]


def run_further(running, seen):
    """How long a further case took, and its least cost."""
    told, seconds = running.ask(lines_of(seen, "min S"))
    return seconds, int(told.split()[2])


class Table:
    """The rows, and of each kind of question all ratios with their cases."""

    def __init__(self, run):
        self.run = run
        self.ratios = {kind: [] for kind in KINDS}
        self.cases = self.cut = self.differing = 0

    def rows(self, file):
        """The rows of a netlist: of each number of wrong outputs the medians of its cases."""
        board = Board(file)
        running = Running(self.run.PROGRAM, str(file))
        with tempfile.TemporaryDirectory() as place:
            for wrong in WRONG:
                if wrong <= len(ends(board)):
                    chance = random.Random(f"{file.name}/{wrong}")
                    cases = [Case(self.run, pathlib.Path(place), board, running, case_of(board, chance, wrong)) for _ in range(CASES)]
                    yield self.row(file.name, board, wrong, cases)
        running.close()

    def row(self, name, board, wrong, cases):
        costs, counts = [case.cost for case in cases], [case.count for case in cases]
        columns = [name, str(len(board.gates)), str(wrong), f"{min(costs)} to {max(costs)}", f"{min(counts)} to {max(counts)}"]
        for place, kind in enumerate(KINDS):
            pairs = [(case.ours[place], case.theirs[place]) for case in cases]
            self.ratios[kind] += [(theirs / ours, f"{name}, {wrong} wrong, case {number}")
                                  for number, (ours, theirs) in enumerate(pairs, 1) if theirs is not None and ours > 0]
            columns += [milliseconds([ours for ours, _ in pairs]), milliseconds([theirs for _, theirs in pairs if theirs is not None])]
        self.cases += len(cases)
        self.cut += sum(None in case.theirs for case in cases)
        self.differing += sum(not case.agrees for case in cases)
        return columns

    def text(self):
        """What is told of all cases."""
        lines = ["Medians of the processor's time. A ratio above 1 says that `diag` is faster."]
        for kind, ratios in self.ratios.items():
            if ratios:
                worst, where = min(ratios)
                lines.append(f"{kind}: median ratio {statistics.median(ratio for ratio, _ in ratios):.2f}, worst {worst:.2f}: {where}.")
        lines.append(f"{self.cases} cases; least cost or number of diagnoses differ in {self.differing}; clasp was cut in {self.cut}.")
        return "\n".join(lines)


def milliseconds(seconds):
    """The median of times, as it is printed."""
    return f"{statistics.median(seconds) * 1e3:.2f}" if seconds else "cut"


def main(run, files):
    """Prints the table for these netlists, and gives 1 if some answers differ."""
    table = Table(run)
    columns = [f"{kind}: {of}, ms" for kind in KINDS for of in ("`diag`", "clasp")]
    print("| " + " | ".join(["Netlist", "Gates", "Wrong outputs", "Least cost", "Diagnoses", *columns]) + " |")
    print("|---" * (5 + len(columns)) + "|")
    for file in files:
        for row in table.rows(pathlib.Path(file)):
            print("| " + " | ".join(row) + " |", flush=True)
    print()
    print(table.text())
    return 1 if table.differing else 0
