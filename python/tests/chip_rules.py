"""What each chip does, said without gates: by numbers, comparison, counting and choice. No data of the chips are read here.

A rule takes the levels of the pins by name, and gives those of the outputs: a bit, or None where an output lets go. An output with an
open collector has the level that it has with a pull-up.
"""


def number(levels, names):
    """The number whose bits have these names, the highest first."""
    value = 0
    for name in names.split():
        value = 2 * value + levels[name]
    return value


def bits(value, names):
    """The bits of a number by name, the highest first."""
    words = names.split()
    return {name: value >> place & 1 for place, name in zip(range(len(words) - 1, -1, -1), words)}


def each(units, inputs, rule, output="Y"):
    """The same rule for each unit: its inputs and its output begin with its name."""

    def found(levels):
        return {unit + output: int(rule(*(levels[unit + name] for name in inputs.split()))) for unit in units}

    return found


def alone(inputs, rule, output="Y"):
    """A chip of one rule."""
    return each([""], inputs, rule, output)


def is_and(*read):
    return sum(read) == len(read)


def is_nand(*read):
    return sum(read) < len(read)


def is_or(*read):
    return sum(read) > 0


def is_nor(*read):
    return sum(read) == 0


def is_odd(*read):
    return sum(read) % 2


def is_even(*read):
    return sum(read) % 2 == 0


def is_same(read):
    return read


def is_not(read):
    return 1 - read


HEX, QUAD = "123456", "1234"
GATES = {
    "7400 7403 4011": each(QUAD, "A B", is_nand),
    "7401": each(QUAD, "A B", is_nand),
    "7402 7433 4001": each(QUAD, "A B", is_nor),
    "7408 7409 4081": each(QUAD, "A B", is_and),
    "7432 4071": each(QUAD, "A B", is_or),
    "7486 74136 74386 4030": each(QUAD, "A B", lambda a, b: a != b),
    "74266 4077": each(QUAD, "A B", lambda a, b: a == b),
    "7404 7405 4069 4049 4009": each(HEX, "A", is_not),
    "7407 4050 4010": each(HEX, "A", is_same),
    "7410 7412 4023": each("123", "A B C", is_nand),
    "7411 7415 4073": each("123", "A B C", is_and),
    "7427 4025": each("123", "A B C", is_nor),
    "4075": each("123", "A B C", is_or),
    "7413 7422 4012": each("12", "A B C D", is_nand),
    "7421 4082": each("12", "A B C D", is_and),
    "4002": each("12", "A B C D", is_nor),
    "4072": each("12", "A B C D", is_or),
    "7425": each("12", "G A B C D", lambda strobe, *read: not (strobe and sum(read))),
    "7430": alone("A B C D E F G H", is_nand),
    "74133": alone("A B C D E F G H I J K L M", is_nand),
}


def and_nor_51(levels):
    first = number(levels, "1A 1B 1C") == 7 or number(levels, "1D 1E 1F") == 7
    second = number(levels, "2A 2B") == 3 or number(levels, "2C 2D") == 3
    return {"1Y": int(not first), "2Y": int(not second)}


def and_nor_55(levels):
    return {"Y": int(number(levels, "A B C D") != 15 and number(levels, "E F G H") != 15)}


def gate_4068(levels):
    is_all = int(number(levels, "A B C D E F G H") == 255)
    return {"Y": is_all, "Y_n": 1 - is_all}


def gate_4078(levels):
    is_none = int(number(levels, "A B C D E F G H") == 0)
    return {"Y": 1 - is_none, "Y_n": is_none}


# Bus drivers


def let_through(level, is_on, is_inverted=False):
    """What a driver puts out."""
    return level ^ is_inverted if is_on else None


def quad_driver(enable, on_level):
    return lambda levels: {f"{n}Y": let_through(levels[f"{n}A"], levels[n + enable] == on_level) for n in QUAD}


def two_groups(is_inverted, second, on_level):
    """Of a 74240 and its like: the level at which the second group is on."""

    def rule(levels):
        on = {"1": levels["1OE_n"] == 0, "2": levels[second] == on_level}
        return {f"{group}Y{n}": let_through(levels[f"{group}A{n}"], on[group], is_inverted) for group in "12" for n in QUAD}

    return rule


def both_ways(places, direction, is_inverted=False):
    """Transceivers: `direction` gives whether the side B is driven, and whether A is."""

    def rule(levels):
        to_b, to_a = direction(levels)
        found = {f"B{n}": let_through(levels[f"A{n}"], to_b, is_inverted) for n in places}
        return found | {f"A{n}": let_through(levels[f"B{n}"], to_a, is_inverted) for n in places}

    return rule


def side_by_side(places, is_on, is_inverted=False):
    return lambda levels: {f"Y{n}": let_through(levels[f"A{n}"], is_on(levels, int(n)), is_inverted) for n in places}


def both_low(levels, _):
    return levels["OE1_n"] + levels["OE2_n"] == 0


def four_and_two(levels, place):
    return levels["1OE_n" if place <= 4 else "2OE_n"] == 0


def by_direction(levels):
    return (levels["DIR"] == 1, levels["DIR"] == 0) if levels["OE_n"] == 0 else (False, False)


def by_two_enables(levels):
    return levels["GAB_n"] == 0, levels["GBA"] == 1


DRIVERS = {
    "74125": quad_driver("OE_n", 0),
    "74126": quad_driver("OE", 1),
    "74240": two_groups(True, "2OE_n", 0),
    "74241": two_groups(False, "2OE", 1),
    "74244": two_groups(False, "2OE_n", 0),
    "74242": both_ways(QUAD, by_two_enables, True),
    "74243": both_ways(QUAD, by_two_enables),
    "74245": both_ways("12345678", by_direction),
    "74640": both_ways("12345678", by_direction, True),
    "74365": side_by_side(HEX, both_low),
    "74366": side_by_side(HEX, both_low, True),
    "74367": side_by_side(HEX, four_and_two),
    "74368": side_by_side(HEX, four_and_two, True),
    "74540": side_by_side("12345678", both_low, True),
    "74541": side_by_side("12345678", both_low),
}

# Multiplexers


def of_eight(has_tristate):
    def rule(levels):
        chosen = levels[f"D{number(levels, 'C B A')}"]
        if levels["G_n"]:
            return {"Y": None, "W": None} if has_tristate else {"Y": 0, "W": 1}
        return {"Y": chosen, "W": 1 - chosen}

    return rule


def two_of_four(off, is_inverted=False):
    """Two multiplexers of four inputs; `off` is what one puts out that is disabled."""

    def rule(levels):
        place = number(levels, "B A")
        return {f"{n}Y": off if levels[f"{n}G_n"] else levels[f"{n}C{place}"] ^ is_inverted for n in "12"}

    return rule


def four_of_two(enable, off, is_inverted=False):
    def rule(levels):
        side = "B" if levels["SELECT"] else "A"
        return {f"{n}Y": off if levels[enable] else levels[n + side] ^ is_inverted for n in QUAD}

    return rule


def selector_4512(levels):
    if levels["OE_n"]:
        return {"Y": None}
    return {"Y": 0 if levels["INH"] else levels[f"D{number(levels, 'C B A')}"]}


SELECTORS = {
    "4512": selector_4512,
    "74151": of_eight(False),
    "74251": of_eight(True),
    "74153": two_of_four(0),
    "74253": two_of_four(None),
    "74352": two_of_four(1, True),
    "74353": two_of_four(None, True),
    "74157": four_of_two("G_n", 0),
    "74158": four_of_two("G_n", 1, True),
    "74257": four_of_two("OE_n", None),
    "74258": four_of_two("OE_n", None, True),
}

# Decoders and encoders


def one_of(count, place, suffix="_n", prefix=""):
    """Outputs of which the one at a place is active, or none for None."""
    return {f"{prefix}Y{n}{suffix}": int((n == place) == (suffix == "")) for n in range(count)}


def decoder_138(suffix):
    def rule(levels):
        is_on = number(levels, "G1 G2A_n G2B_n") == 4
        return one_of(8, number(levels, "C B A") if is_on else None, suffix)

    return rule


def decoder_139(enable, suffix):
    def rule(levels):
        found = {}
        for unit in "12":
            place = number(levels, f"{unit}B {unit}A")
            found |= one_of(4, None if levels[unit + enable] else place, suffix, unit)
        return found

    return rule


def decoder_155(levels):
    place = number(levels, "B A")
    is_first = levels["1C"] == 1 and levels["1G_n"] == 0
    is_second = levels["2C_n"] == 0 and levels["2G_n"] == 0
    return one_of(4, place if is_first else None, prefix="1") | one_of(4, place if is_second else None, prefix="2")


def decoder_154(levels):
    return one_of(16, None if levels["G1_n"] or levels["G2_n"] else number(levels, "D C B A"))


def decoder_42(levels):
    return one_of(10, number(levels, "D C B A"))


def highest(levels, places):
    """The greatest place whose input is 0, or None."""
    return max((place for place in places if levels[f"I{place}_n"] == 0), default=None)


def encoder_147(levels):
    return bits(15 - (highest(levels, range(1, 10)) or 0), "D_n C_n B_n A_n")


def encoder_148(off):
    """`off` is the level of the three bits if no number is there."""

    def rule(levels):
        if levels["EI_n"]:
            return dict.fromkeys(("A2_n", "A1_n", "A0_n"), off) | {"GS_n": 1, "EO_n": 1}
        place = highest(levels, range(8))
        if place is None:
            return dict.fromkeys(("A2_n", "A1_n", "A0_n"), off) | {"GS_n": 1, "EO_n": 0}
        return bits(7 - place, "A2_n A1_n A0_n") | {"GS_n": 0, "EO_n": 1}

    return rule


# The segments that a 7447 lights for 0 to 15, and those that a 74247 does.
SHAPES = "abcdef bc abged abgcd fgbc afgcd fgedc abc abcdefg abcfg ged gcd fgb afgd fged".split() + [""]
WITH_TAILS = [*SHAPES[:6], "afgedc", *SHAPES[7:9], "abcdfg", *SHAPES[10:]]


def seven_segments(lit, suffix, shapes=SHAPES):
    def rule(levels):
        digit = number(levels, "D C B A")
        pulls = levels["RBI_n"] == 0 and digit == 0 and levels["LT_n"] == 1
        is_dark = pulls or levels["BI_RBO_n"] == 0
        shape = "" if is_dark else "abcdefg" if levels["LT_n"] == 0 else shapes[digit]
        return {name + suffix: lit if name in shape else 1 - lit for name in "abcdefg"} | {"BI_RBO_n": int(not pulls)}

    return rule


CODES = {
    "74138": decoder_138("_n"),
    "74238": decoder_138(""),
    "74139": decoder_139("G_n", "_n"),
    "4555": decoder_139("E_n", ""),
    "4556": decoder_139("E_n", "_n"),
    "74155 74156": decoder_155,
    "74154": decoder_154,
    "7442 7445": decoder_42,
    "74147": encoder_147,
    "74148": encoder_148(1),
    "74348": encoder_148(None),
    "7446": seven_segments(0, "_n"),
    "7448": seven_segments(1, ""),
    "74247": seven_segments(0, "_n", WITH_TAILS),
    "74248": seven_segments(1, "", WITH_TAILS),
}

# Arithmetic


def adder(levels):
    total = number(levels, "A4 A3 A2 A1") + number(levels, "B4 B3 B2 B1") + levels["C0"]
    return bits(total, "C4 S4 S3 S2 S1")


def comparator(levels):
    a, b = number(levels, "A3 A2 A1 A0"), number(levels, "B3 B2 B1 B0")
    if a != b:
        return {"GT": int(a > b), "EQ": 0, "LT": int(a < b)}
    # The last rows of the data sheet's table: greater, less, equal in; greater, less, equal out.
    table = {"100": "100", "010": "010", "001": "001", "101": "001", "011": "001", "111": "001", "110": "000", "000": "110"}
    read = "".join(str(levels[name]) for name in ("IN_GT", "IN_LT", "IN_EQ"))
    return dict(zip(("GT", "LT", "EQ"), map(int, table[read])))


def parity_180(levels):
    if levels["EVEN"] == levels["ODD"]:
        return dict.fromkeys(("SUM_EVEN", "SUM_ODD"), 1 - levels["EVEN"])
    is_even_sum = sum(levels[name] for name in "ABCDEFGH") % 2 == 0
    is_even_out = is_even_sum == (levels["EVEN"] == 1)
    return {"SUM_EVEN": int(is_even_out), "SUM_ODD": int(not is_even_out)}


def parity_280(levels):
    ones = sum(levels[name] for name in "ABCDEFGHI")
    return {"SUM_ODD": ones % 2, "SUM_EVEN": 1 - ones % 2}


def logic_table(a, b):
    """The sixteen functions of a 74181 if M is 1; levels are bits."""
    return [~a, ~(a | b), ~a & b, 0, ~(a & b), ~b, a ^ b, a & ~b, ~a | b, ~(a ^ b), b, a & b, 15, a | ~b, a | b, a]


def sums_high(a, b):
    """The sixteen sums of a 74181 for active-high data, without a carry. To take 1 away is to add 15."""
    left = [a, a | b, a | ~b, 0, a, a | b, a, a & ~b, a, a, a | ~b, a & b, a, a | b, a | ~b, a]
    right = [0, 0, 0, 15, a & ~b, a & ~b, ~b, 15, a & b, b, a & b, 15, a, a, a, 15]
    return [(one & 15, other & 15) for one, other in zip(left, right)]


def sums_low(a, b):
    """The same for active-low data, in whose terms P and G are carry propagate and generate."""
    left = [a, a & b, a & ~b, 0, a, a & b, a, 0, a, a, a & ~b, a | b, a, a & b, a & ~b, a]
    right = [15, 15, 15, 15, a | ~b, a | ~b, ~b, a | ~b, a | b, b, a | b, 0, a, a, a, 0]
    return [(one & 15, other & 15) for one, other in zip(left, right)]


def arithmetic_unit(levels):
    a, b, choice = number(levels, "A3 A2 A1 A0"), number(levels, "B3 B2 B1 B0"), number(levels, "S3 S2 S1 S0")
    one, other = sums_high(a, b)[choice]
    total = one + other + (1 - levels["CN"])
    shown = logic_table(a, b)[choice] & 15 if levels["M"] else total & 15
    low_one, low_other = sums_low(15 - a, 15 - b)[choice]
    return bits(shown, "F3 F2 F1 F0") | {
        "EQ": int(shown == 15),
        "CN4": int(total < 16),
        "G_n": int(low_one + low_other < 16),
        "P_n": int(low_one | low_other != 15),
    }


def carry_unit(levels):
    """Each carry is worked out one after the other, where the chip has them at once."""
    made = [1 - levels[f"G{place}_n"] for place in range(4)]
    passed = [1 - levels[f"P{place}_n"] for place in range(4)]
    found = {}
    carry = levels["CN"]
    for place, name in enumerate(["CNX", "CNY", "CNZ"]):
        carry = made[place] or (passed[place] and carry)
        found[name] = int(carry)
    carry = 0
    for place in range(4):
        carry = made[place] or (passed[place] and carry)
    return found | {"G_n": int(not carry), "P_n": int(sum(passed) < 4)}


def equal_bytes(levels):
    is_same = all(levels[f"P{n}"] == levels[f"Q{n}"] for n in range(8))
    return {"EQ_n": int(levels["G_n"] == 1 or not is_same)}


ARITHMETIC = {
    "7483 74283 4008": adder,
    "7485": comparator,
    "74180": parity_180,
    "74280": parity_280,
    "74181": arithmetic_unit,
    "74182": carry_unit,
    "74688": equal_bytes,
}

WIDE = {"7451": and_nor_51, "7455": and_nor_55, "4068": gate_4068, "4078": gate_4078}
PLAIN = {**GATES, **WIDE, **DRIVERS, **SELECTORS, **CODES, **ARITHMETIC}
