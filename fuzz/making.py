"""Random words, files and scripts, each from a source of random numbers: most are valid, and some are broken in one place."""

import re
from dataclasses import dataclass
from functools import partial

from rules import designs, frames, netlists
from rules.clauses import clauses_of, sum_of, tidied
from rules.devices import GATES, Reduction
from rules.graphs import BITS_LIMIT
from rules.runs import FORMS, GRAPHS, LIMITS, OPTIONS
from rules.sessions import COUNT, PART, PARTS, READING, TAKES, VALUES, WIRE
from rules.texts import Refused

NAMES = [b"a", b"b", b"c", b"a1", b"a-1", b"a.1", b"10", b"2", b"22", b"INPUT", b"and", b"AND", b"x[0]", b"~", b"!y", b"Z", b"z" * 64,
         b"a@", b"a@0001"]
PLAIN_NAMES = [name for name in NAMES if b"." not in name and name != b"AND"]
# What may replace a byte that is broken.
BYTES = b"(),=# \t\r\n\x0b\0.-+_~\x7f\x80\xff019aALOn"
PARITIES = [word for word, gate in GATES.items() if gate.reduction is Reduction.ODD_ONES]
VARIABLES = 17
# So many steps over all times take a tenth of a second, and a greater sum seconds.
STEPS, SUM = 50000, 5000
# Sets of costs of more words, over all nodes, take the program seconds.
WORDS = 100000
# How often commands are in a script, by weight: one that is not named here has 2. With an option some are there so much more often.
OFTEN = {b"close": 1, b"see": 16, b"hold": 3, b"min": 8, b"next": 10, b"list": 6, b"probe": 4, b"blame": 8,
         b"level": 0, b"levels": 0, b"leastnnf": 0}
WITH_OPTION = {b"level": ("--levels", 8), b"levels": ("--levels", 8), b"after": ("--levels", 4), b"leastnnf": ("--least", 8)}
LEVELS_LIMIT = LIMITS["levels"][1]
# Numbers that are tried with an option, if not the least and the greatest. Some options have a function of their own.
NUMBERS = {"--sessions": [1, 1, 2, 3, 1024]}
CHOSEN = ("--frames", "--budget", "--levels")
LEVELS = [0, 1, 1, 2, 2, 2, 3, 3, 5, 9, 31, 32, 63, 64, 999, 1000, 3003]


def chance(r, percent):
    return r.randrange(100) < percent


def spaced(r, tokens):
    """Tokens with blanks between them, or none if marks need none."""
    gap = r.choice([b"", b" ", b" ", b"\t ", b"\r"])
    return gap.join(tokens)


def cased(r, word):
    return r.choice([str.upper, str.upper, str.lower, str.title])(word).encode()


def ended(r, lines):
    """Lines as a text, with a blank line or a comment here and there; the last one may have no line feed."""
    for extra in (b"", b"# note", b" \t\r"):
        if chance(r, 15):
            lines.insert(r.randrange(len(lines) + 1), extra)
    return b"\n".join(lines) + (b"" if chance(r, 10) else b"\n")


def gate_of(r, signals):
    """A kind and its inputs, now and then more than four."""
    kind = r.choice([*GATES, "BUF"])
    count = 1 if kind == "BUF" or GATES[kind].most_inputs == 1 else r.choice([1, 2, 2, 2, 2, 3, 3, 4, 5, 6])
    return kind, [r.choice(signals) for _ in range(count)]


def netlist(r, flip_flops=0, most=8):
    """With so many flip-flops, which may read any signal, and at most so many wires."""
    names = r.sample(NAMES, r.randint(1, most))
    gates = r.randint(min(flip_flops, len(names)), min(6, len(names)))
    outputs, inputs = names[:gates], names[gates:]
    lines = [spaced(r, [cased(r, "input"), b"(", name, b")"]) for name in inputs]
    lines += [spaced(r, [cased(r, "output"), b"(", name, b")"]) for name in names if chance(r, 30)]
    same = r.choices(names, k=r.choice([3, 4]))
    is_wide = chance(r, 8)
    for place, output in enumerate(outputs):
        # mostly without a cycle
        signals = names if chance(r, 20) or not inputs + outputs[:place] else inputs + outputs[:place]
        # now and then so many clauses that a state has more than one word
        kind, of = (r.choice(PARITIES), same) if is_wide else gate_of(r, signals)
        if place < flip_flops:
            kind, of = "DFF", r.choices(names, k=r.choices([1, 2, 0], [97, 2, 1])[0])
        commas = [token for name in of for token in (name, b",")][:-1]
        lines.append(spaced(r, [output, b"=", cased(r, kind), b"(", *commas, b")"]))
    if chance(r, 30):
        r.shuffle(lines)
    return ended(r, lines)


def type_lines(r, name):
    ports = r.choice([1, 2, 2, 2, 2, 3, 3, 3, 4, 5, 6])
    lines = [b" ".join([b"type", name, *r.sample(PLAIN_NAMES, ports)])]
    for word, often in ((b"ok", 50), (b"bad", r.choice([0, 30, 70]))):
        for row in range(1 << ports):
            if chance(r, often):
                lines.append(word + b" " + bytes(48 + (row >> port & 1) for port in range(ports)))
    if chance(r, 50):
        lines.append(b"cost %d" % r.choice([1, 2, 3, 7, 1000]))
    return lines + [b"end"], ports


def block_lines(r, name, kinds):
    """A block over kinds that are closed, each with how many arguments it takes."""
    wires = r.sample(PLAIN_NAMES, r.randint(1, 5))
    ports = r.randint(0, min(4, len(wires)))
    lines = [b" ".join([b"block", name, *wires[:ports]])]
    if wires[ports:]:
        lines.append(b" ".join([b"wire", *wires[ports:]]))
    for part in r.sample(PLAIN_NAMES, r.randint(0, 3)):
        if kinds and chance(r, 60):
            kind, takes = r.choice(kinds)
        else:
            gate, of = gate_of(r, wires)
            kind, takes = (b"BUFF" if gate == "BUF" else gate.encode()), len(of) + 1
        lines.append(b" ".join([b"part", part, kind, *(r.choice(wires) for _ in range(takes))]))
    return lines + [b"end"], ports


def design(r):
    lines, kinds = [], []
    names = r.sample([name for name in PLAIN_NAMES if name != b"AND"], 6)
    for name in names[:r.randint(0, 2)]:
        more, ports = type_lines(r, name)
        lines += more
        kinds.append((name, ports))
    for name in names[2:r.randint(3, 6)]:
        more, ports = block_lines(r, name, kinds)
        lines += more
        kinds.append((name, ports))
        top = name
    return ended(r, lines + [b"top " + top])


def number(r, value):
    return (b"0" * r.choice([0, 0, 0, 0, 1, 5]) + b"%d" % value)[-10:]


def graph(r, most):
    """A graph of few variables, mostly decomposable. The greatest variable is at most so much."""
    vars = r.randint(0, most)
    mentionable = [r.randint(1, vars) for _ in range(9)] if vars else []
    lines, below, kids = [], [], 0
    for place in range(r.randint(1, 14)):
        kind = r.choice("LLLAAO" if vars else "AO") if place > 2 else "L" if vars else "A"
        if kind == "L":
            variable = r.choice(mentionable)
            lines.append([b"L", r.choice([b"", b"-"]) + number(r, variable)])
            below.append({variable})
            continue
        chosen, mentioned = [], set()
        for kid in r.sample(range(place), min(place, r.choice([0, 1, 2, 2, 3]))):
            if kind == "O" or not mentioned & below[kid] or chance(r, 3):
                chosen.append(kid)
                mentioned = mentioned | below[kid]
        lines.append([b"A"] if kind == "A" else [b"O", number(r, r.randint(0, 9))])
        lines[-1] += [number(r, len(chosen)), *(number(r, kid) for kid in chosen)]
        below.append(mentioned)
        kids += len(chosen)
    head = [b"nnf", number(r, len(lines)), number(r, kids), number(r, vars)]
    text = [r.choice([b" ", b" ", b"\t", b" \r "]).join(line) for line in [head, *lines]]
    return ended(r, text).replace(b"# note", b" "), vars


def broken(r, text):
    """A text with one place changed: a word, a line or a byte."""
    found = list(re.finditer(rb"[^ \t\r\n(),=]+", text))
    if found and chance(r, 40):
        place, other = r.choice(found), r.choice(found)[0]
        return text[:place.start()] + r.choice([other, other, other + b"0", b"1"]) + text[place.end():]
    if not text or chance(r, 40):
        lines = text.split(b"\n")
        place = r.randrange(len(lines))
        change = r.choice(["out", "twice", "moved", "word", "word twice"])
        words = lines[place].split(b" ")
        word = r.randrange(len(words))
        if change == "out":
            del lines[place]
        elif change == "twice":
            lines.insert(place, lines[place])
        elif change == "moved":
            lines.insert(r.randrange(len(lines)), lines.pop(place))
        else:
            words[word:word + 1] = [] if change == "word" else [words[word]] * 2
            lines[place] = b" ".join(words)
        return b"\n".join(lines)
    place = r.randrange(len(text))
    byte = bytes([r.choice(BYTES)])
    return text[:place] + r.choice([b"", byte, byte + text[place:place + 1]]) + text[place + 1:]


def commands(options):
    """How often each command is in a script under these options: one that is not allowed now and then."""
    often = {command: OFTEN.get(command, 2) for command in TAKES}
    for command, (option, more) in WITH_OPTION.items():
        often[command] += more if option in options else 0.3
    return often


def arguments(r, takes, parts, wires):
    """What follows the name of a session."""
    part, wire = (r.choice(names) if names and not chance(r, 2) else b"nobody" for names in (parts, wires))
    if takes in VALUES:
        return [(wire if takes == READING else part) + b"=" + r.choice([*VALUES[takes]])]
    if takes == COUNT:
        return [b"%d" % r.choice([1, 2, 3, 9, 1000000])]
    if takes == PARTS:
        return r.choices(parts, k=r.randint(0, 3)) if parts else []
    return [{WIRE: wire, PART: part}[takes]] if takes else []


def script_line(r, sessions, parts, wires, options):
    often = commands(options)
    command = r.choices([*often], often.values())[0]
    words = [command, r.choice(sessions), *arguments(r, TAKES[command], parts, wires)]
    return r.choice([b" ", b" ", b" ", b"\t", b" \r"]).join(words)


def script(r, parts, wires, looks=0, options=()):
    """Lines of some sessions in turn, of which some are opened first, and a few lines are broken. First so many percent of the wires
    are seen, so that much is faulty."""
    sessions = r.sample([b"S", b"T", b"S.1", b"session-2", b"q" * 64], r.randint(1, 4))
    lines = [b"open " + name for name in sessions if chance(r, 95)]
    lines += [b"see %s %s=%d" % (name, wire, chance(r, 50)) for name in sessions for wire in wires[:60] if chance(r, looks)]
    lines += [script_line(r, sessions, parts, wires, options) for _ in range(r.randint(0, 40))]
    lines = [broken(r, line) if chance(r, 4) else line for line in lines]
    if chance(r, 1):
        lines.insert(r.randrange(len(lines) + 1), r.choice([b"#", b"x"]) * r.choice([1048576, 1048577]))
    return ended(r, lines) if lines else b""


def frames_option(r, times):
    """Now and then with a number that is none, or twice."""
    wrong = [["--frames", word] for word in ("0", "65", f"+{times}", f"-{times}", f"0{times}", f"{times}.0", f" {times}", "1" * 30, "")]
    return r.choice([*wrong, ["--frames"], ["--frames", str(times)] * 2]) if chance(r, 4) else ["--frames", str(times)]


def levels_option(r, nodes):
    """Now and then with a number that is none, or twice."""
    top = str(r.choice([top for top in LEVELS if (top // 32 + 1) * nodes <= WORDS] or [0]))
    wrong = [["--levels", word] for word in ("4096001", "+1", "-1", "00", "01", "1.0", " 1", "1" * 30, "")]
    return r.choice([*wrong, ["--levels"], ["--levels", top] * 2]) if chance(r, 4) else ["--levels", top]


def options(r, form, sum, times=0, vars=0):
    """Options in any order, a few of them wrong."""
    # of a form that knows no times, or over a design, it is wrong whatever its number
    takes = OPTIONS[form]
    found = [frames_option(r, times)] if times else []
    # over several times a budget is all that shows the sum
    if "--budget" in takes and chance(r, 60 if times else 30):
        found.append(["--budget", str(max(1, r.choice([sum - 1, sum - 1, sum, sum, sum, sum + 1, sum // 2, 8388608, 1])))])
    if "--levels" in takes and chance(r, 35):
        found.append(levels_option(r, nodes_within(sum, vars)))
    for option, row in takes.items():
        if option not in CHOSEN and chance(r, 40 if row.value else 30):
            found.append([option, *([str(r.choice(NUMBERS.get(option) or (row.least, row.most)))] if row.value else [])])
    if ["--search"] in found and chance(r, 90):
        # without those that do not go with it
        found = [option for option in found if option[0] in ("--search", *takes["--search"].beside)]
    r.shuffle(found)
    words = [word for option in found for word in option]
    if chance(r, 2):
        words.insert(r.randrange(len(words) + 1), r.choice([*OPTIONS["serve"], "0", "01", "8388609", "1025", "65", "-1", ""]))
    return words


def nodes_within(sum, vars):
    """At most so many nodes has a graph that is compiled from clauses of this sum."""
    return 3 * sum + 2 * vars + 2


def is_small(device):
    return clauses_of(device)[1] <= VARIABLES


@dataclass
class Case:
    words: list
    files: dict
    script: bytes
    piece: int = 1  # how many bytes of the script come at once at most
    failing: str = ""  # "read": the first read of the script fails; "write": every write fails


def known_of(read, text):
    """What a text gives, if it gives something."""
    try:
        return read(text)
    except Refused:
        return None


def made_device(r):
    """A text, the device if it is one, which is then small, and the ending of its language."""
    while True:
        make, read, ending = r.choice([(netlist, netlists.read, ".bench"), (design, designs.read, ".dev")])
        # now and then with a flip-flop, which is refused
        text = netlist(r, 1) if make is netlist and chance(r, 3) else make(r)
        text = broken(r, text) if chance(r, 20) else text
        device = known_of(read, text)
        if device is None or is_small(device):
            return text, device, ending


def asking(r):
    """A case over a graph."""
    text, vars = graph(r, 8)
    health = r.randint(0, vars) if vars else 0
    text = broken(r, text) if chance(r, 20) else text
    names = [b"%05d" % variable for variable in range(1, vars + 1)]
    times = 1 if chance(r, 1) else 0
    words = ["ask", "f.nnf", str(r.choice([vars + 1, 4097, 4096]) if chance(r, 5) else health), *options(r, "ask", 1, times)]
    return Case(words, {"f.nnf": text}, script(r, names[:health], names[health:]))


def checking(r, form):
    text, _ = graph(r, r.choice([8, 200]))
    return Case([form, "f.nnf"], {"f.nnf": broken(r, text) if chance(r, 60) else text}, b"")


def describing(r, form):
    """A case over a device."""
    text, device, ending = made_device(r)
    parts, wires = (device.part_names(), device.wires) if device else ([b"a"], [b"b"])
    sum = sum_of(tidied(clauses_of(device)[0]), 100000) or 1 if device else 1
    file, vars = "f" + ending, clauses_of(device)[1] if device else 0
    times = r.randint(1, 64) if (form != "serve" or ending == ".dev") and chance(r, 3) else 0
    words = [form, file, *options(r, form, sum, times, vars)]
    # much is faulty if the script asks for dearer sets, or for a graph of many diagnoses
    looks = r.choice([0, 30, 60]) if {"--levels", "--least"} & {*words} else 0
    return Case(words, {file: text}, script(r, parts, wires, looks, words) if form == "serve" else b"")


def doubtful(r):
    """A case of many diagnoses: rows of buffers, some of which cost more than others. Each row is seen wrong at its end."""
    rows = r.choice([[2, 2, 3], [3, 3], [2, 4], [1, 2, 3], [6], [3, 4], [7]])
    names = r.sample([name for name in PLAIN_NAMES if name not in (b"D", b"M")], sum(rows) + len(rows))
    ends, lines, wrong = [*names], [], []
    for length in rows:
        row = [ends.pop() for _ in range(length + 1)]
        bit = r.randrange(2)
        wrong += [b"%s=%d" % (row[0], bit), b"%s=%d" % (row[-1], 1 - bit)]
        lines += [b"part %s %s %s %s" % (row[place + 1], r.choice([b"BUFF", b"BUFF", b"D"]), row[place], row[place + 1])
                  for place in range(length)]
    r.shuffle(lines)
    text = [b"type D x y", b"ok 00", b"ok 11", b"cost %d" % r.choice([1, 2, 3, 1000]), b"end", b"block M", b" ".join([b"wire", *names]),
            *lines, b"end", b"top M"]
    vars = 2 * len(names) - len(rows)
    words = ["serve", "f.dev", *options(r, "serve", 20 * vars, 0, vars)]
    parts = [line.split()[1] for line in lines]
    told = []
    for line in script(r, parts, names, options=words).split(b"\n"):
        told.append(line)
        if line.startswith(b"open "):
            told += [b"see " + line[5:] + b" " + reading for reading in wrong]
    return Case(words, {"f.dev": ended(r, text)}, b"\n".join(told))


def brimming(r):
    """A case whose sets of costs have as many bits as they may have, or a few more. It asks for little, since that takes long."""
    while True:
        text, device, ending = made_device(r)
        sum = sum_of(tidied(clauses_of(device)[0]), SUM) if device else None
        most = (BITS_LIMIT // nodes_within(sum, clauses_of(device)[1]) - len(device.parts)) // 32 if sum else LEVELS_LIMIT
        # a set of so many words is that of costs up to 32 less than the first that needs one word more
        if 32 * most <= LEVELS_LIMIT:
            top = r.choice([32 * most - 1, 32 * most, LEVELS_LIMIT])
            words = ["serve", "f" + ending, "--levels", str(top), *(["--least"] if chance(r, 30) else [])]
            return Case(words, {"f" + ending: text}, b"open S\nlevel S\n")


def times_for(r, device):
    """A number of times with which a netlist is small, and its sum over these; 0 if it is never small."""
    fitting = [times for times in range(1, r.choice([3, 8, 64]) + 1) if frames.steps_of(device, times) <= STEPS]
    times = r.choice(fitting or [0])
    while times:
        sum = sum_of(frames.TimedNetlist(device, times).clauses(), SUM)
        if sum:
            return times, sum
        times //= 2
    return 0, 0


def strangers(r, device, times):
    """Names that are nearly those of wires at a time."""
    wire = r.choice(device.wires)
    return [wire, wire + b"@0000", frames.wire_at(wire, times + 1), wire + b"@1", frames.wire_at(wire, 1) + b"0"]


def serving_times(r):
    """A case over a netlist at several times."""
    while True:
        text = netlist(r, r.choice([0, 1, 1, 2, 2, 3]), r.choice([2, 3, 4, 5, 6, 8]))
        text = broken(r, text) if chance(r, 15) else text
        device = known_of(partial(netlists.read, takes_flip_flops=True), text)
        if device is None:
            words = ["serve", "f.bench", *options(r, "serve", 1, r.randint(1, 64))]
            return Case(words, {"f.bench": text}, script(r, [b"a"], [b"b@0001"], options=words))
        times, sum = times_for(r, device)
        if not times:
            continue
        timed = frames.TimedNetlist(device, times)
        wires = timed.wires + (strangers(r, device, times) if timed.wires and chance(r, 30) else [])
        words = ["serve", "f.bench", *options(r, "serve", sum, times, timed.vars())]
        return Case(words, {"f.bench": text}, script(r, device.part_names(), wires, r.choice([0, 10, 30, 60]), words))


def crowded(r):
    """A case often with as many copies, wires or clauses over all times as there may be, or more. Its budget is below its sum."""
    times, more = r.choice([16, 32, 64, 64]), r.choice([0, 1])
    flip_flops, wide = r.randint(0, 4096 // times), "XOR(%s)" % ",".join(f"in{place}" for place in range(64))
    # a wide gate has 252 clauses, an exclusive nor of four 16, and a buffer or a flip-flop 2
    wides, rest = divmod(262144 // times, 252)
    kinds = r.choice([
        ["BUFF(in0)"],
        [wide] * (4096 // times + more),
        ["DFF(in0)"] * flip_flops + ["BUFF(in0)"] * ((4096 - (times - 1) * flip_flops) // times + more),
        [wide] * wides + ["XNOR(in0, in1, in2, in3)"] * (rest // 16) + ["BUFF(in0)"] * (rest % 16 // 2) + ["DFF(in0)"] * more])
    inputs = r.choice([64, 16384 // times - len(kinds) + r.choice([0, 1])])
    lines = [f"INPUT(in{place})" for place in range(inputs)] + [f"out{place} = {kind}" for place, kind in enumerate(kinds)]
    r.shuffle(lines)
    return Case(["serve", "f.bench", "--frames", str(times), "--budget", "1"], {"f.bench": "\n".join(lines).encode()}, b"open S\n")


def misspelling(r):
    """Words in no order, over a file that is there."""
    forms, names = [*FORMS, "load"], ["f.bench", "f.dev", "f.nnf", ".bench", "g.bench"]
    others = ["1", "0", "801", "2", *OPTIONS["serve"]]
    files = {"f.bench": b"INPUT(a)\ny = NOT(a)\n", "f.dev": b"block M\nend\ntop M\n", "f.nnf": b"nnf 1 0 1\nL 1\n"}
    words = [r.choice(forms), r.choice(names)]
    given = [*words, *r.choices(others, k=r.randint(0, 4))] if chance(r, 70) else r.choices(forms + names + others, k=r.randint(0, 4))
    return Case(given, files, b"open S\nmin S\n")


def case_of(r):
    often = [(form, it.often) for form, it in FORMS.items()]
    # `serve` over several times, and words that are no form or one of another file
    often[1:1] = [("frames", 24)]
    form = r.choices(*zip(*often, ("words", 4)))[0]
    if form == "ask":
        case = asking(r)
    elif form == "serve" and chance(r, 13):
        case = doubtful(r) if chance(r, 75) else brimming(r)
    elif form == "frames":
        case = crowded(r) if chance(r, 2) else serving_times(r)
    elif form == "words":
        case = misspelling(r)
    elif FORMS[form].endings == GRAPHS:
        case = checking(r, form)
    else:
        case = describing(r, form)
    case.piece = max(r.choice([1, 2, 7, 64, 4096]), len(case.script) // 1000)
    case.failing = r.choices(["", "read", "write"], [97, 2, 1])[0]
    return case
