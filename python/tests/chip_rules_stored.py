"""What each chip does that stores bits, said without gates. No data of the chips are read here.

A rule takes the levels of the pins now, those before the last step, and the bits that it stores, which it changes. It gives the levels of
the outputs, as in chip_rules.py. A step is a change of one clock or of other pins, so that data are there before an edge. Stored bits have
the names of their outputs, where they have one, and are 0 at first otherwise.
"""

from chip_rules import SHAPES, bits, number, one_of

HEX, QUAD, EIGHT = "123456", "1234", "12345678"
# The pins that are clocks or stop clocks, without the number of their unit.
CLOCKS = {"CLK", "CKA", "CKB", "SRCLK", "RCLK", "INH", "EN", "UP", "DN"}
# Chips that begin with a single 1, since their rules say nothing of what they never count.
FROM_ONE = {"7490", "74290", "7492", "74390", "4518"}



def has_edge(before, levels, clock, edge):
    return (before[clock], levels[clock]) == ((0, 1) if edge == "rise" else (1, 0))


def d_pair(set_pin, clear_pin, active):
    """Two D flip-flops whose set and clear act at this level. With both, both outputs are 1."""

    def rule(levels, before, stored):
        found = {}
        for unit in "12":
            is_set, is_clear = levels[unit + set_pin] == active, levels[unit + clear_pin] == active
            if is_set or is_clear:
                stored[unit + "Q"] = int(is_set)
            elif has_edge(before, levels, unit + "CLK", "rise"):
                stored[unit + "Q"] = levels[unit + "D"]
            found |= {unit + "Q": stored[unit + "Q"], unit + "Q_n": 1 if is_set and is_clear else 1 - stored[unit + "Q"]}
        return found

    return rule


def jk_pair(edge, set_pin=None, clear_pin=None, active=0, clock="{}CLK", k="K"):
    """Two JK flip-flops. {} in the name of a pin is the unit; K_n is K inverted."""

    def rule(levels, before, stored):
        found = {}
        for unit in "12":
            is_set = set_pin is not None and levels[set_pin.format(unit)] == active
            is_clear = clear_pin is not None and levels[clear_pin.format(unit)] == active
            wanted = (levels[unit + "J"], levels[unit + k] ^ (k == "K_n"))
            if is_set or is_clear:
                stored[unit + "Q"] = int(is_set)
            elif has_edge(before, levels, clock.format(unit), edge):
                stored[unit + "Q"] = {(0, 0): stored[unit + "Q"], (0, 1): 0, (1, 0): 1, (1, 1): 1 - stored[unit + "Q"]}[wanted]
            found |= {unit + "Q": stored[unit + "Q"], unit + "Q_n": 1 if is_set and is_clear else 1 - stored[unit + "Q"]}
        return found

    return rule


def register(units, clear=None, enable=None, is_both=False, let_go=None):
    """D flip-flops with a common rising clock. `clear` and `enable` are active low; outputs let go while `let_go` is 1."""

    def rule(levels, before, stored):
        found = {}
        is_edge = has_edge(before, levels, "CLK", "rise") and (enable is None or levels[enable] == 0)
        for unit in units:
            if clear is not None and levels[clear] == 0:
                stored[unit + "Q"] = 0
            elif is_edge:
                stored[unit + "Q"] = levels[unit + "D"]
            found[unit + "Q"] = None if let_go is not None and levels[let_go] else stored[unit + "Q"]
            if is_both:
                found[unit + "Q_n"] = 1 - stored[unit + "Q"]
        return found

    return rule


def register_173(levels, before, stored):
    is_edge = has_edge(before, levels, "CLK", "rise")
    for unit in QUAD:
        if levels["CLR"]:
            stored[unit + "Q"] = 0
        elif is_edge and levels["G1_n"] == 0 and levels["G2_n"] == 0:
            stored[unit + "Q"] = levels[unit + "D"]
    is_off = levels["OE1_n"] or levels["OE2_n"]
    return {unit + "Q": None if is_off else stored[unit + "Q"] for unit in QUAD}


def latches(gates, is_both=False, let_go=None):
    """D latches; `gates` has the enable of each."""

    def rule(levels, before, stored):
        found = {}
        for unit, gate in gates.items():
            if levels[gate]:
                stored[unit + "Q"] = levels[unit + "D"]
            found[unit + "Q"] = None if let_go is not None and levels[let_go] else stored[unit + "Q"]
            if is_both:
                found[unit + "Q_n"] = 1 - stored[unit + "Q"]
        return found

    return rule


def polar(levels, before, stored):
    """The latches of a 4042."""
    found = {}
    for unit in QUAD:
        if levels["CLK"] == levels["POL"]:
            stored[unit + "Q"] = levels[unit + "D"]
        found |= {unit + "Q": stored[unit + "Q"], unit + "Q_n": 1 - stored[unit + "Q"]}
    return found


def set_and_reset(sets, resets, active, stronger, let_go=None):
    """Latches of set and reset. Each has one set or two, and `stronger` is what it stores if both act."""

    def rule(levels, before, stored):
        found = {}
        for unit in QUAD:
            is_set = any(levels[unit + name] == active for name in sets if unit + name in levels)
            is_reset = levels[unit + resets] == active
            if is_set or is_reset:
                stored[unit] = stronger if is_set and is_reset else int(is_set)
            found[unit + "Q"] = None if let_go is not None and levels[let_go] == 0 else stored[unit]
        return found

    return rule


def rule_279(levels, before, stored):
    """It has no other way to let a pin go, so that its bits have the names of its outputs."""
    bits_of = {unit: stored[unit + "Q"] for unit in QUAD}
    found = set_and_reset(("S_n", "S1_n", "S2_n"), "R_n", 0, 1)(levels, before, bits_of)
    stored.update(found)
    return found


def stored_decoder(names, gate, level, is_on, count, suffix):
    """A decoder that takes the bits of its choice while its gate has a level."""

    def rule(levels, before, stored):
        if levels[gate] == level:
            stored["place"] = number(levels, names)
        return one_of(count, stored["place"] if is_on(levels) else None, suffix)

    return rule


def on_137(levels):
    return levels["G1"] == 1 and levels["G2_n"] == 0


def on_4514(levels):
    return levels["INH"] == 0


def chosen_298(levels, before, stored):
    if has_edge(before, levels, "CLK", "fall"):
        for name in "ABCD":
            stored[f"Q{name}"] = levels[f"{name}{levels['SELECT'] + 1}"]
    return {f"Q{name}": stored[f"Q{name}"] for name in "ABCD"}


def addressed(levels, before, stored):
    place = number(levels, "C B A")
    names = [f"Q{other}" for other in range(8)]
    for other, name in enumerate(names):
        if other == place and levels["G_n"] == 0:
            stored[name] = levels["D"]
        elif levels["CLR_n"] == 0:
            stored[name] = 0
    return {name: stored[name] for name in names}


# Counters and shift registers


def kept(stored, names):
    return {name: stored[name] for name in names.split()}


def counts(stored, names, size):
    """One more in these bits, the highest first."""
    stored.update(bits((number(stored, names) + 1) % size, names))


def counter_90(levels, before, stored):
    if has_edge(before, levels, "CKA", "fall"):
        counts(stored, "QA", 2)
    if has_edge(before, levels, "CKB", "fall"):
        counts(stored, "QD QC QB", 5)
    if levels["R91"] and levels["R92"]:
        stored.update(bits(9, "QD QC QB QA"))
    elif levels["R01"] and levels["R02"]:
        stored.update(bits(0, "QD QC QB QA"))
    return kept(stored, "QD QC QB QA")


def counter_92(levels, before, stored):
    if has_edge(before, levels, "CKA", "fall"):
        counts(stored, "QA", 2)
    if has_edge(before, levels, "CKB", "fall"):
        # It counts 0 1 2, and then the same with the highest bit.
        place = 3 * stored["QD"] + number(stored, "QC QB")
        high, low = divmod((place + 1) % 6, 3)
        stored.update(bits(4 * high + low, "QD QC QB"))
    if levels["R01"] and levels["R02"]:
        stored.update(bits(0, "QD QC QB QA"))
    return kept(stored, "QD QC QB QA")


def counter_93(levels, before, stored):
    if has_edge(before, levels, "CKA", "fall"):
        counts(stored, "QA", 2)
    if has_edge(before, levels, "CKB", "fall"):
        counts(stored, "QD QC QB", 8)
    if levels["R01"] and levels["R02"]:
        stored.update(bits(0, "QD QC QB QA"))
    return kept(stored, "QD QC QB QA")


def counter_390(levels, before, stored):
    names = {unit: f"{unit}QD {unit}QC {unit}QB" for unit in "12"}
    for unit in "12":
        if has_edge(before, levels, unit + "CKA", "fall"):
            counts(stored, unit + "QA", 2)
        if has_edge(before, levels, unit + "CKB", "fall"):
            counts(stored, names[unit], 5)
        if levels[unit + "CLR"]:
            stored.update(bits(0, f"{names[unit]} {unit}QA"))
    return kept(stored, " ".join(f"{names[unit]} {unit}QA" for unit in "12"))


def ripple(clear, *chains):
    """Counters that count as their clocks fall; each has the unit before its clock and clear, and its bits."""

    def rule(levels, before, stored):
        for unit, names in chains:
            if has_edge(before, levels, unit + "CLK", "fall"):
                counts(stored, names, 1 << len(names.split()))
            if levels[unit + clear]:
                stored.update(bits(0, names))
        return kept(stored, " ".join(names for _, names in chains))

    return rule


def counter_161(size, is_clear_at_clock):
    names = "QD QC QB QA"

    def rule(levels, before, stored):
        if has_edge(before, levels, "CLK", "rise"):
            if levels["CLR_n"] == 0:
                stored.update(bits(0, names))
            elif levels["LOAD_n"] == 0:
                stored.update(bits(number(levels, "D C B A"), names))
            elif levels["ENP"] and levels["ENT"]:
                # What follows a number that is no decimal digit, by the diagram of states of a 74160.
                strange = {11: 6, 13: 4, 15: 2} if size == 10 else {}
                value = number(stored, names)
                stored.update(bits(strange.get(value, 0 if value == size - 1 else value + 1), names))
        if levels["CLR_n"] == 0 and not is_clear_at_clock:
            stored.update(bits(0, names))
        return kept(stored, names) | {"RCO": int(levels["ENT"] == 1 and number(stored, names) == size - 1)}

    return rule


def counter_191(levels, before, stored):
    names = "QD QC QB QA"
    if levels["LOAD_n"] == 0:
        stored.update(bits(number(levels, "D C B A"), names))
    elif has_edge(before, levels, "CLK", "rise") and levels["CTEN_n"] == 0:
        stored.update(bits((number(stored, names) + (-1 if levels["DOWN"] else 1)) % 16, names))
    is_last = number(stored, names) == (0 if levels["DOWN"] else 15)
    is_rippling = is_last and levels["CTEN_n"] == 0 and levels["CLK"] == 0
    return kept(stored, names) | {"MAX_MIN": int(is_last), "RCO_n": int(not is_rippling)}


def counter_193(levels, before, stored):
    names = "QD QC QB QA"
    step = has_edge(before, levels, "UP", "rise") * levels["DN"] - has_edge(before, levels, "DN", "rise") * levels["UP"]
    stored.update(bits((number(stored, names) + step) % 16, names))
    if levels["CLR"]:
        stored.update(bits(0, names))
    elif levels["LOAD_n"] == 0:
        stored.update(bits(number(levels, "D C B A"), names))
    value = number(stored, names)
    is_carry, is_borrow = value == 15 and levels["UP"] == 0, value == 0 and levels["DN"] == 0
    return kept(stored, names) | {"CO_n": int(not is_carry), "BO_n": int(not is_borrow)}


def counter_4017(levels, before, stored):
    # The clock is what is left of CLK while INH is 0.
    if levels["CLK"] > levels["INH"] and not before["CLK"] > before["INH"]:
        stored["count"] = (stored["count"] + 1) % 10
    if levels["R"]:
        stored["count"] = 0
    return {f"Q{place}": int(place == stored["count"]) for place in range(10)} | {"CO": int(stored["count"] < 5)}


def counter_4518(size):
    def rule(levels, before, stored):
        found = {}
        for unit in "12":
            names = " ".join(f"{unit}Q{place}" for place in (4, 3, 2, 1))
            by_clock = has_edge(before, levels, unit + "CLK", "rise") and levels[unit + "EN"] == 1
            by_enable = has_edge(before, levels, unit + "EN", "fall") and levels[unit + "CLK"] == 0
            if by_clock or by_enable:
                counts(stored, names, size)
            if levels[unit + "R"]:
                stored.update(bits(0, names))
            found |= kept(stored, names)
        return found

    return rule


def shift_164(levels, before, stored):
    names = [f"Q{letter}" for letter in "ABCDEFGH"]
    row = [stored[name] for name in names]
    if has_edge(before, levels, "CLK", "rise"):
        row = [int(levels["A"] and levels["B"]), *row[:-1]]
    stored.update(zip(names, row if levels["CLR_n"] else [0] * 8))
    return kept(stored, " ".join(names))


def shift_165(levels, before, stored):
    names = ["a", "b", "c", "d", "e", "f", "g", "QH"]
    row = [stored[name] for name in names]
    if not (before["CLK"] or before["INH"]) and (levels["CLK"] or levels["INH"]):
        row = [levels["SER"], *row[:-1]]
    if levels["LOAD_n"] == 0:
        row = [levels[letter] for letter in "ABCDEFGH"]
    stored.update(zip(names, row))
    return {"QH": row[-1], "QH_n": 1 - row[-1]}


def shift_194(levels, before, stored):
    names = ["QA", "QB", "QC", "QD"]
    row = [stored[name] for name in names]
    if has_edge(before, levels, "CLK", "rise"):
        loaded = [levels[letter] for letter in "ABCD"]
        row = [row, [levels["SR"], *row[:-1]], [*row[1:], levels["SL"]], loaded][number(levels, "S1 S0")]
    stored.update(zip(names, row if levels["CLR_n"] else [0] * 4))
    return kept(stored, " ".join(names))


def shift_195(levels, before, stored):
    names = ["QA", "QB", "QC", "QD"]
    row = [stored[name] for name in names]
    if has_edge(before, levels, "CLK", "rise"):
        # J and K_n: 0 if both are 0, 1 if both are 1, and otherwise the bit stays or changes.
        first = {0: 0, 1: row[0], 2: 1 - row[0], 3: 1}[number(levels, "J K_n")]
        row = [first, *row[:-1]] if levels["SH_LD_n"] else [levels[letter] for letter in "ABCD"]
    stored.update(zip(names, row if levels["CLR_n"] else [0] * 4))
    return kept(stored, " ".join(names)) | {"QD_n": 1 - stored["QD"]}


def shift_595(levels, before, stored):
    row = [stored[f"shift {place}"] for place in range(7)] + [stored["QH_S"]]
    if has_edge(before, levels, "RCLK", "rise"):
        stored.update((f"out {place}", bit) for place, bit in enumerate(row))
    if has_edge(before, levels, "SRCLK", "rise"):
        row = [levels["SER"], *row[:-1]]
    if levels["SRCLR_n"] == 0:
        row = [0] * 8
    stored.update((f"shift {place}", bit) for place, bit in enumerate(row))
    stored["QH_S"] = row[-1]
    shown = [None if levels["OE_n"] else stored[f"out {place}"] for place in range(8)]
    return {f"Q{letter}": bit for letter, bit in zip("ABCDEFGH", shown)} | {"QH_S": row[-1]}


def digit_4511(levels, before, stored):
    if levels["LE"] == 0:
        stored["digit"] = number(levels, "D C B A")
    shape = SHAPES[stored["digit"]] if stored["digit"] < 10 and levels["BL_n"] else ""
    shape = shape if levels["LT_n"] else "abcdefg"
    return {name: int(name in shape) for name in "abcdefg"}


PAIRS = {"1": "C12", "2": "C12", "3": "C34", "4": "C34"}
STORING = {
    "4013": d_pair("S", "R", 1),
    "4027": jk_pair("rise", "{}S", "{}R", active=1),
    "7473 74107": jk_pair("fall", None, "{}CLR_n"),
    "7474": d_pair("PRE_n", "CLR_n", 0),
    "7475 74375": latches(PAIRS, is_both=True),
    "7476 74112": jk_pair("fall", "{}PRE_n", "{}CLR_n"),
    "7477": latches(PAIRS),
    "74109": jk_pair("rise", "{}PRE_n", "{}CLR_n", k="K_n"),
    "74113": jk_pair("fall", "{}PRE_n"),
    "74114": jk_pair("fall", "{}PRE_n", "CLR_n", clock="CLK"),
    "74173": register_173,
    "74174 40174": register(HEX, clear="CLR_n"),
    "74175 40175": register(QUAD, clear="CLR_n", is_both=True),
    "74259": addressed,
    "74273": register(EIGHT, clear="CLR_n"),
    "74373 74573": latches(dict.fromkeys(EIGHT, "LE"), let_go="OE_n"),
    "74374 74574": register(EIGHT, let_go="OE_n"),
    "74377": register(EIGHT, enable="E_n"),
    "74378": register(HEX, enable="E_n"),
    "74379": register(QUAD, enable="E_n", is_both=True),
    "7490 74290": counter_90,
    "7492": counter_92,
    "7493 74293": counter_93,
    "74160": counter_161(10, False),
    "74161": counter_161(16, False),
    "74162": counter_161(10, True),
    "74163": counter_161(16, True),
    "74164": shift_164,
    "74165": shift_165,
    "74191": counter_191,
    "74194": shift_194,
    "74390": counter_390,
    "74393": ripple("CLR", ("1", "1QD 1QC 1QB 1QA"), ("2", "2QD 2QC 2QB 2QA")),
    "74595": shift_595,
    "4017": counter_4017,
    "4024": ripple("R", ("", "Q7 Q6 Q5 Q4 Q3 Q2 Q1")),
    "4040": ripple("R", ("", "Q12 Q11 Q10 Q9 Q8 Q7 Q6 Q5 Q4 Q3 Q2 Q1")),
    "4511": digit_4511,
    "4518": counter_4518(10),
    "4520": counter_4518(16),
    "74137": stored_decoder("C B A", "GL_n", 0, on_137, 8, "_n"),
    "74193": counter_193,
    "74195": shift_195,
    "74237": stored_decoder("C B A", "GL_n", 0, on_137, 8, ""),
    "74279": rule_279,
    "74298": chosen_298,
    "4042": polar,
    "4043": set_and_reset(("S",), "R", 1, 1, let_go="OE"),
    "4044": set_and_reset(("S_n",), "R_n", 0, 0, let_go="OE"),
    "4514": stored_decoder("D C B A", "LE", 1, on_4514, 16, ""),
    "4515": stored_decoder("D C B A", "LE", 1, on_4514, 16, "_n"),
}
