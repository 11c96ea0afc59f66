"""Many patterns of one netlist for a search by answer sets, all at once: a faulty part is faulty in each of them, and there it puts out
anything. It needs gringo and clasp."""

import argparse
import os
import pathlib
import random
import re
import subprocess
import sys
import tempfile
import time

sys.dont_write_bytecode = True
TOP = pathlib.Path(__file__).resolve().parents[1]
sys.path.insert(0, str(TOP / "python"))

from diag_client import Service
from diag_client.devices import GATES, Reduction, read_device

# The gates have no cycles: a wire has the value that its gate reads, or if its part is faulty, any.
ENCODING = """
{ faulty(P) : gate(P,K) }.
{ on(W,T) : input(W) } :- pattern(T).
{ on(P,T) } :- gate(P,K), faulty(P), pattern(T).
on(P,T) :- gate(P,K), not faulty(P), puts_one(P,T).
low(P,T) :- reads(P,I,W), pattern(T), not on(W,T).
high(P,T) :- reads(P,I,W), on(W,T).
odd(P,T) :- gate(P,K), kind(K,"odd",B), pattern(T), N = #count { I : reads(P,I,W), on(W,T) }, N \\ 2 = 1.
puts_one(P,T) :- gate(P,K), kind(K,"all",1), pattern(T), not low(P,T).
puts_one(P,T) :- gate(P,K), kind(K,"all",0), low(P,T).
puts_one(P,T) :- gate(P,K), kind(K,"any",1), high(P,T).
puts_one(P,T) :- gate(P,K), kind(K,"any",0), pattern(T), not high(P,T).
puts_one(P,T) :- gate(P,K), kind(K,"odd",1), odd(P,T).
puts_one(P,T) :- gate(P,K), kind(K,"odd",0), pattern(T), not odd(P,T).
:- seen(W,T,1), not on(W,T).
:- seen(W,T,0), on(W,T).
:- held(P,"ok"), faulty(P).
:- held(P,"bad"), not faulty(P).
#minimize { 1,P : faulty(P) }.
#project faulty/1.
#show faulty/1.
"""
ASKED = {Reduction.ALL_ONES: "all", Reduction.ANY_ONE: "any", Reduction.ODD_ONES: "odd"}
CLASP = ["clasp", "--opt-strategy=usc", "--project=project", "--outf=1"]


def facts(inputs, gates, patterns):
    """The device and its patterns below the encoding. A gate is its name, its kind and what it reads; a pattern is what is seen and held."""
    lines = [f'kind("{word}","{ASKED[gate.reduction]}",{gate.positive:d}).' for word, gate in GATES.items()]
    lines += [f'input("{name}").' for name in inputs]
    for name, kind, reads in gates:
        lines.append(f'gate("{name}","{kind}").')
        lines += [f'reads("{name}",{place},"{wire}").' for place, wire in enumerate(reads)]
    for number, (seen, held) in enumerate(patterns):
        lines.append(f"pattern({number}).")
        lines += [f'seen("{wire}",{number},{bit}).' for wire, bit in seen.items()]
        lines += [f'held("{part}","{mode}").' for part, mode in held.items()]
    return "\n".join(lines) + "\n"


def grounded(folder, text):
    """The file that gringo makes of the encoding over these facts, and its seconds."""
    source, ground = folder / "patterns.lp", folder / "patterns.ground"
    source.write_text(ENCODING + text)
    start = time.monotonic()
    with open(ground, "wb") as out:
        subprocess.run(["gringo", str(source)], stdout=out, stderr=subprocess.DEVNULL, check=True)
    return ground, time.monotonic() - start


def solved(ground, *options):
    """What clasp finds: the least cost and the sets that it lists, or None; its seconds; and whether it came to its end."""
    start = time.monotonic()
    told = subprocess.run([*CLASP, *options, str(ground)], capture_output=True, text=True, check=False).stdout
    return found_in(told)[0], time.monotonic() - start, found_in(told)[1]


def found_in(told):
    """What clasp found, by what it printed, and whether it came to its end."""
    answers = [(int(cost), tuple(sorted(re.findall(r'faulty\("([^"]+)"\)', row))))
               for row, cost in re.findall(r"^ANSWER\n(.*)\nCOST ([0-9]+)$", told, re.MULTILINE)]
    is_done = bool(re.search("^(OPTIMUM|INCONSISTENT)", told, re.MULTILINE))
    least = min(answers, default=(None,))[0]
    return answers and (least, {row for cost, row in answers if cost == least}) or None, is_done


class Board:
    """A netlist, each gate after those that it reads."""

    def __init__(self, file):
        device = read_device(file)
        self.file, self.inputs, self.outputs = file, sorted(device.inputs), sorted(device.outputs)
        left = {part.name: part for part in device.parts}
        self.gates = []
        while left:
            ready = [part for part in left.values() if not any(wire in left for wire in part.wires[:-1])]
            self.gates += [(part.name, part.kind, part.wires[:-1]) for part in ready]
            for part in ready:
                del left[part.name]

    def patterns(self, chance, faults, count):
        """The bits of inputs and outputs of each pattern, when some parts put out the opposite, one bit always, or bits at random."""
        faulty = {name: chance.choice(["opposite", "0", "1", "random"]) for name, _, _ in chance.sample(self.gates, faults)}
        return sorted(faulty), [self.pattern(chance, faulty) for _ in range(count)]

    def pattern(self, chance, faulty):
        bits = {name: chance.getrandbits(1) for name in self.inputs}
        for name, kind, reads in self.gates:
            bit = GATES[kind].output([bits[wire] for wire in reads])
            how = faulty.get(name, "ok")
            bits[name] = {"ok": bit, "opposite": 1 - bit, "0": 0, "1": 1, "random": chance.getrandbits(1)}[how]
        return {wire: bits[wire] for wire in (*self.inputs, *self.outputs)}


def by_client(board, patterns, program, timeout=None, **options):
    """The least cost and all sets as the client finds them; and the search. What took too long is None. Before them are the seconds for
    the first set and for all, from the opening of the first session on."""
    with Service(board.file, sessions=1024, program=program, **options) as service:
        sessions = []
        start = time.monotonic()
        for seen in patterns:
            sessions.append(service.session())
            sessions[-1].see(seen)
        joint = service.together(sessions, timeout=timeout)
        times, cost, sets = [None, None], None, None
        try:
            cost = joint.minimum().cost
            times[0] = time.monotonic() - start
            sets = {tuple(sorted(row.faulty)) for row in joint.diagnoses()}
            times[1] = time.monotonic() - start
        except TimeoutError:
            pass
        return times, cost, sets, joint.progress


def row_of(what, board, faults, count, program, seed="", limit=120, **options):
    """A row of the table: both over the same patterns."""
    _, patterns = board.patterns(random.Random(f"{what}{seed}"), faults, count)
    ours, cost, sets, progress = by_client(board, patterns, program, limit, **options)
    with tempfile.TemporaryDirectory() as place:
        ground, grounding = grounded(pathlib.Path(place), facts(board.inputs, board.gates, [(seen, {}) for seen in patterns]))
        one, first, is_done = solved(ground, f"--time-limit={limit}")
        every, each, is_all = solved(ground, f"--time-limit={limit}", "--opt-mode=optN", "-n", "0")
    if cost is not None and is_done and cost != one[0] or sets is not None and is_all and (cost, sets) != every:
        sys.exit(f"bench/many_patterns: {what}: the client has {cost}, {sets}, and clasp {every if is_all else one}")
    told = f"{'cut' if cost is None else cost}, {'cut' if sets is None else len(sets)}"
    theirs = [grounding + first if is_done else None, grounding + each if is_all else None]
    times = ["cut" if seconds is None else f"{seconds:.3f}" for pair in zip(ours, theirs) for seconds in pair]
    return [what, str(len(board.gates)), str(faults), str(count), told, *times, str(progress)]


HEADER = ["Device", "Parts", "Faults planted", "Patterns", "Least cost, sets", "Client for one, s", "clasp for one, s",
          "Client for all, s", "clasp for all, s", "The search"]


def main(words):
    """Prints a row for each seed."""
    parser = argparse.ArgumentParser(description="Many patterns of one netlist: the client against gringo and clasp.")
    parser.add_argument("file", type=pathlib.Path)
    parser.add_argument("faults", type=int)
    parser.add_argument("patterns", type=int)
    parser.add_argument("--seeds", type=int, default=1)
    parser.add_argument("--limit", type=int, default=120)
    parser.add_argument("--budget", type=int)
    parser.add_argument("--narrow", action=argparse.BooleanOptionalAction, default=True)
    parser.add_argument("--program", default=os.environ.get("DIAG_PROGRAM", TOP / "crates/diag/out/diag"))
    given = parser.parse_args(words)
    print("| " + " | ".join(HEADER) + " |")
    print("|---" * len(HEADER) + "|")
    board = Board(given.file)
    for seed in range(given.seeds):
        row = row_of(given.file.name, board, given.faults, given.patterns, given.program, seed, given.limit,
                     budget=given.budget, narrow=given.narrow)
        print("| " + " | ".join(row) + " |", flush=True)
