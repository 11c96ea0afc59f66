"""A whole run: what the words ask, what is written to a file and a script, and the status."""

import functools
from dataclasses import dataclass

from diag_client import manual
from diag_client.service import LIMITS

from . import clauses, designs, frames, graphs, netlists
from .devices import WIRES_LIMIT
from .pieces import Bits, Graph, Sum
from .sessions import System, replies
from .texts import FILE_LIMIT, Refused, plain_number_in

BUDGET, SESSIONS = 2097152, 16
PLACES_LIMIT = 800
# Trying all values of more variables, or counting more states, takes too long.
VARIABLES_TRIED = 20
SUM_TRIED = 100000
# So does going in more steps through the times of a netlist.
STEPS_TRIED = 200000
USAGE = Refused("error: usage", 2)
DEVICES = {".bench": netlists.read, ".dev": designs.read}
GRAPHS = (".nnf",)


@dataclass(frozen=True)
class Form:
    """How often it is tried, and how its file ends."""
    often: int
    endings: tuple


# The forms over a file, and the options of each by the table of forms.
FORMS = {"serve": Form(28, (*DEVICES,)), "plan": Form(10, (*DEVICES,)), "compile": Form(10, (*DEVICES,)),
         "check": Form(8, GRAPHS), "ask": Form(16, GRAPHS)}
OPTIONS = {form: manual.rows("option", form) for form in manual.rows("form")}


class TooLarge(Exception):
    """A device or a graph that is too large to try all values."""


@dataclass
class Asked:
    form: str
    file: str = ""
    number: int = 0  # HEALTH of `ask`, or the places of `load`
    budget: int = BUDGET
    sessions: int = SESSIONS
    frames: int = 0  # over how many times a netlist is served; 0 if the option is not given
    levels: int = None  # the cost up to which states are listed
    least: bool = False
    narrow: bool = False
    search: bool = False  # without a graph, and so without a sum


def number(word, least, most):
    value = plain_number_in(word.encode("latin-1"), least, most)
    if value is None:
        raise USAGE
    return value


def options_of(form, words):
    found = {}
    words = list(words)
    while words:
        word = words.pop(0)
        if word not in OPTIONS[form] or word[2:] in found:
            raise USAGE
        row = OPTIONS[form][word]
        found[word[2:]] = number(words.pop(0) if words else "", row.least, row.most) if row.value else True
    for name in found:
        beside = OPTIONS[form][f"--{name}"].beside
        if beside and not {f"--{other}" for other in found} <= {f"--{name}", *beside}:
            raise USAGE
    return found


def asked_by(words):
    if len(words) < 2:
        raise USAGE
    form, file, *rest = words
    if form == "load" and not rest:
        return Asked(form, number=number(file, 1, PLACES_LIMIT))
    if form not in FORMS or not any(file.endswith(ending) and file != ending for ending in FORMS[form].endings):
        raise USAGE
    health = number(rest.pop(0) if rest else "", *LIMITS["health"]) if form == "ask" else 0
    asked = Asked(form, file, health, **options_of(form, rest))
    if asked.frames and not file.endswith(".bench"):
        raise USAGE
    return asked


class Encoded:
    """A device with its clauses, its sum by the names, and all that it allows."""

    def __init__(self, device):
        self.device = device
        raw, self.vars = clauses.clauses_of(device)
        if len(raw) > clauses.CLAUSES_LIMIT:
            raise Refused(f"error: clauses {len(raw)} above {clauses.CLAUSES_LIMIT}")
        self.clauses = clauses.tidied(raw)

    @functools.cached_property
    def sum(self):
        found = clauses.sum_of(self.clauses, SUM_TRIED)
        if found is None:
            raise TooLarge()
        return found

    def outer(self):
        """How many variables are parts and wires."""
        return len(self.device.parts) + len(self.device.wires)

    def sizes(self):
        return f"parts {len(self.device.parts)}\nwires {len(self.device.wires)}\nclauses {len(self.clauses)}\n".encode()

    def fits(self):
        if self.vars > VARIABLES_TRIED:
            raise TooLarge()
        return self.device.fits()

    def system(self):
        names = self.device.part_names(), self.device.wires, self.device.costs()
        return System(*names, self.fits(), self.outer())


def above(budget):
    return [f"error: sum above {budget}\n".encode()], 3


def weighed(encoded, budget, narrow, *answers):
    """The answers within the budget, or that the sum is above it. By another order it may be within, though it is not by the names."""
    if encoded.sum <= budget:
        return [*answers]
    return [above(budget), *answers] if narrow else [above(budget)]


def bits_for_node(asked, parts):
    """How many bits each option takes for each node, in the order in which they are refused."""
    found = []
    if asked.levels is not None:
        found.append(parts + 32 * (asked.levels // 32 + 1))
    if asked.least:
        found.append(32 * (2 + (parts + 31) // 32))
    return found


def listed(asked, sum, vars, parts, system_of, script):
    """What `serve` may answer within the budget: the replies, or that an option takes too many bits. By another order, in which the sum
    is no greater than by the names, it may take fewer."""
    nodes = 3 * sum + 2 * vars + 2
    many = [each for each in bits_for_node(asked, parts) if nodes * each > graphs.BITS_LIMIT]
    if many and not asked.narrow:
        return [([b"error: bits %d above %d\n" % (nodes * many[0], graphs.BITS_LIMIT)], 1)]
    return [*(([Bits(each, vars, sum)], 1) for each in many), answered(asked, system_of(), script)]


def answered(asked, system, script):
    """The replies of `serve`."""
    system.levels, system.least, system.graphs = asked.levels, asked.least, not asked.search
    return [ready(system), *replies(system, asked.sessions, script)], 0


def ready(system):
    return f"ready {len(system.parts)} {len(system.wires)}\n".encode()


def timed(asked, text, script):
    """`serve` over several times."""
    device = netlists.read(text, True)
    netlist = frames.TimedNetlist(device, asked.frames)

    def system():
        if frames.steps_of(device, asked.frames) > STEPS_TRIED:
            raise TooLarge()
        return frames.TimedSystem(netlist)
    if asked.search:
        return [answered(asked, system(), script)]
    # whether the sum is above a small budget is known long before the sum is
    sum = clauses.sum_of(netlist.clauses(), min(asked.budget, SUM_TRIED))
    if sum is None and asked.budget > SUM_TRIED:
        raise TooLarge()
    if sum is None and not asked.narrow:
        return [above(asked.budget)]
    answers = listed(asked, sum or asked.budget, netlist.vars(), len(device.parts), system, script)
    return answers if sum else [above(asked.budget), *answers]


def described(asked, text, script):
    """What is done over a device."""
    read = next(read for ending, read in DEVICES.items() if asked.file.endswith(ending))
    encoded = Encoded(read(text))
    if asked.search:
        return [answered(asked, encoded.system(), script)]
    if asked.form == "plan":
        told = Sum(encoded.sum) if asked.narrow else f"sum {encoded.sum}\n".encode()
        return weighed(encoded, LIMITS["budget"][1], asked.narrow, ([encoded.sizes(), told], 0))
    if asked.form == "compile":
        most = 3 * encoded.sum + 2 * encoded.vars + 2
        answer = [Graph(encoded.vars, encoded.outer(), encoded.fits(), most)], 0
        return weighed(encoded, asked.budget, asked.narrow, answer)
    # if it is above the budget by the names, another order is within
    sum = min(encoded.sum, asked.budget)
    answers = listed(asked, sum, encoded.vars, len(encoded.device.parts), encoded.system, script)
    return weighed(encoded, asked.budget, asked.narrow, *answers)


def questioned(asked, text, script):
    """What is done over a graph."""
    nodes, vars = graphs.read(text)
    if asked.form == "check":
        return [([f"decomposable {len(nodes)} {graphs.edges(nodes)} {vars}\n".encode()], 0)]
    health, wires = asked.number, vars - asked.number
    if wires < 0:
        raise Refused(f"error: health {health} above {vars}")
    if wires > WIRES_LIMIT:
        raise Refused(f"error: wires {wires} above {WIRES_LIMIT}")
    if vars > VARIABLES_TRIED:
        raise TooLarge()
    names = [b"%05d" % variable for variable in range(1, vars + 1)]

    def text_of(held, seen):
        return graphs.written(graphs.projected(nodes, health, held, seen), health)
    system = System(names[:health], names[health:], [1] * health, graphs.truth(nodes, vars), vars, text_of)
    return [([ready(system), *replies(system, asked.sessions, script)], 0)]


def adder(places):
    """The netlist of `load`, and what was seen, as lines of a script."""
    lines, seen = ["INPUT(0000c)"], ["0000c=0"]
    for place in range(places):
        p, q = f"{place:04}", f"{place + 1:04}"
        lines += [f"INPUT({p}a)", f"INPUT({p}b)", f"{p}x = XOR({p}a, {p}b)", f"{p}s = XOR({p}x, {p}c)", f"{p}g = AND({p}a, {p}b)",
                  f"{p}p = AND({p}x, {p}c)", f"{q}c = OR({p}g, {p}p)"]
        seen += [f"{p}a=0", f"{p}b=0", f"{p}s={int(place % 16 == 0)}"]
    return "\n".join(lines).encode(), [f"see S {it}".encode() for it in [*seen, f"{places:04}c=0"]]


def loaded(asked):
    text, seen = adder(asked.number)
    encoded = Encoded(netlists.read(text))
    lines = [b"open S", *seen, b"min S", b"list S 20"]
    told = replies(encoded.system(), 1, b"\n".join(lines))[len(seen) + 1:]
    listed = [line.split()[2:] for line in told[1:] if line.startswith(b"S diag")]
    return [([encoded.sizes(), b"minimum " + told[0].split()[2] + b"\n", b" ".join([b"first", *listed[0]]) + b"\n",
              b"listed %d\n" % len(listed), b" ".join([b"last", *listed[-1]]) + b"\n"], 0)]


def wanted(words, files, script):
    """What may be written, as pieces, each with its status: one, unless a contract leaves two open."""
    try:
        asked = asked_by(words)
        if asked.form == "load":
            return loaded(asked)
        text = files.get(asked.file)
        if text is None:
            raise Refused("error: read", 4)
        if len(text) > FILE_LIMIT:
            raise Refused(f"error: file above {FILE_LIMIT} bytes")
        answer = timed if asked.frames else questioned if FORMS[asked.form].endings == GRAPHS else described
        return answer(asked, text, script)
    except Refused as refused:
        return [([refused.line], refused.status)]
