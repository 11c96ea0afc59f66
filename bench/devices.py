"""Devices that are measured, as texts of netlists. Each function gives the text of a device of a size.

The names of most put the gates in an order in which they are wired together. `by_tool` names them by kind and number, as tools
do it, and `at_random` in no order.
"""

import random
import re


def netlist(inputs, lines):
    """The text of a netlist."""
    return ("\n".join([f"INPUT({name})" for name in inputs] + lines) + "\n").encode()


def chain(parts):
    """Buffers in a row, whose names rise from its start."""
    return netlist(["b0000"], [f"b{part + 1:04} = BUFF(b{part:04})" for part in range(parts)])


def parities(gates):
    """Exclusive ors of the same 64 inputs, each of 252 clauses."""
    names = [f"i{number:02}" for number in range(64)]
    return netlist(names, [f"g{gate:04} = XOR({', '.join(names)})" for gate in range(gates)])


def by_bit(_kind, role, bit):
    """A name that begins with the bit."""
    return f"bit{bit:03}_{role}"


def by_stage(_kind, role, bit):
    """The same, the gates of a bit in the order in which they are wired: the sum is less."""
    return f"bit{bit:03}_{'c a b half both carried sum out'.split().index(role)}{role}"


def by_kind(kind, role, bit):
    """A name that begins with the kind of the gate."""
    return f"{kind}_{role}{bit}"


def adder(bits, named, gates=None):
    """A ripple adder, or the first of its gates with what these read."""
    carry = named("in", "c", 0)
    lines = []
    for bit in range(bits):
        a, b, half, total = named("in", "a", bit), named("in", "b", bit), named("xor", "half", bit), named("xor", "sum", bit)
        both, carried, out = named("and", "both", bit), named("and", "carried", bit), named("or", "out", bit)
        lines += [f"{half} = XOR({a}, {b})", f"{both} = AND({a}, {b})", f"{carried} = AND({half}, {carry})",
                  f"{total} = XOR({half}, {carry})", f"{out} = OR({both}, {carried})"]
        carry = out
    lines = lines[:gates]
    driven = {line.split(" = ")[0] for line in lines}
    read = {name for line in lines for name in line.split("(")[1].rstrip(")").split(", ")}
    return netlist(sorted(read - driven), lines)


def added(name, ends):
    """The gates that add two or three bits, and the names of their sum and of their carry."""
    if len(ends) == 2:
        lines = [f"{name}x = XOR({', '.join(ends)})", f"{name}c = AND({', '.join(ends)})"]
    else:
        x, y, z = ends
        lines = [f"{name}h = XOR({x}, {y})", f"{name}x = XOR({name}h, {z})", f"{name}b = AND({x}, {y})",
                 f"{name}d = AND({name}h, {z})", f"{name}c = OR({name}b, {name}d)"]
    return lines, f"{name}x", f"{name}c"


def multiplier(bits):
    """An array multiplier: the products of bits, added row by row. Names begin with the row."""
    lines = [f"r{i}_p{j} = AND(a{j}, b{i})" for i in range(bits) for j in range(bits)]
    above = [f"r0_p{j}" for j in range(1, bits)]
    for i in range(1, bits):
        carry, sums = [], []
        for j in range(bits):
            ends = [f"r{i}_p{j}"] + above[j:j + 1] + carry
            if len(ends) == 1:
                sums, carry = sums + ends, []
                continue
            more, total, over = added(f"r{i}_s{j}", ends)
            lines += more
            sums, carry = sums + [total], [over]
        above = sums[1:] + carry
    return netlist([f"{end}{bit}" for end in "ab" for bit in range(bits)], lines)


def fast_adder(bits):
    """An adder with fast carry, as the 74283 of four bits."""
    lines = ["none = NOT(carry0)", "again = NOT(none)"]
    for bit in range(1, bits + 1):
        lines += [f"nand{bit} = NAND(a{bit}, b{bit})", f"nor{bit} = NOR(a{bit}, b{bit})", f"or{bit} = NOT(nor{bit})",
                  f"half{bit} = AND(nand{bit}, or{bit})", f"sum{bit} = XOR(half{bit}, {'again' if bit == 1 else f'carry{bit - 1}'})"]
        kills = []
        for ended in range(bit):
            ends = [f"nand{through}" for through in range(bit, ended, -1)] + [f"nor{ended}" if ended else "none"]
            lines.append(f"kill{bit}_{ended} = AND({', '.join(ends)})")
            kills.append(f"kill{bit}_{ended}")
        lines.append(f"carry{bit} = NOR({', '.join([f'nor{bit}'] + kills[::-1])})")
    return netlist(["carry0"] + [f"{end}{bit}" for bit in range(1, bits + 1) for end in "ab"], lines)


def logic_unit(bits):
    """An arithmetic logic unit with fast carry, as the 74181 of four bits: what it does is selected by s0 to s3 and by m."""
    lines = ["logic = NOT(m)"]
    for bit in range(bits):
        lines += [f"not_b{bit} = NOT(b{bit})", f"x{bit}_0 = AND(b{bit}, s0)", f"x{bit}_1 = AND(not_b{bit}, s1)",
                  f"x{bit} = NOR(a{bit}, x{bit}_0, x{bit}_1)", f"y{bit}_0 = AND(not_b{bit}, s2, a{bit})",
                  f"y{bit}_1 = AND(a{bit}, b{bit}, s3)", f"y{bit} = NOR(y{bit}_0, y{bit}_1)", f"half{bit} = XOR(x{bit}, y{bit})"]
        # The carry into the bit: by those below it that make one, and lets it through by those between.
        makes = [f"carry{bit}_{low}" for low in range(bit)] + [f"carry{bit}_in"]
        for low in range(bit):
            lines.append(f"carry{bit}_{low} = AND({', '.join(['logic', f'x{low}'] + [f'y{i}' for i in range(low + 1, bit)])})")
        lines.append(f"carry{bit}_in = AND({', '.join(['logic', 'c'] + [f'y{i}' for i in range(bit)])})")
        lines += [f"carry{bit} = NOR({', '.join(makes)})", f"f{bit} = XOR(half{bit}, carry{bit})"]
    lines.append(f"same = AND({', '.join(f'f{bit}' for bit in range(bits))})")
    lines.append(f"p = NAND({', '.join(f'y{bit}' for bit in range(bits))})")
    for low in range(bits - 1):
        lines.append(f"g_{low} = AND({', '.join([f'x{low}'] + [f'y{i}' for i in range(low + 1, bits)])})")
    lines.append(f"g = NOR({', '.join([f'g_{low}' for low in range(bits - 1)] + [f'x{bits - 1}'])})")
    lines.append(f"over_in = NAND({', '.join(['c'] + [f'y{bit}' for bit in range(bits)])})")
    lines += ["not_g = NOT(g)", "not_over = NOT(over_in)", "over = OR(not_g, not_over)"]
    return netlist(["c", "m"] + [f"s{i}" for i in range(4)] + [f"{end}{bit}" for bit in range(bits) for end in "ab"], lines)


def interrupt_controller(channels):
    """Three buses of so many requests, one bus before the other, and the number of the channel that is served, as c432 for nine."""
    all_of = range(channels)
    lines = [f"disabled{i} = NOT(e{i})" for i in all_of]
    enabled = [f"e{i}" for i in all_of]
    for bus, above in [("a", None), ("b", "a"), ("c", "b")]:
        for i in all_of:
            lines.append(f"not_{bus}{i} = NOT({bus}{i})")
            # Whether a channel may be asked: it is enabled, and no bus above was granted another one.
            may = enabled[i] if above is None else f"may_{bus}{i}"
            if above is not None:
                lines.append(f"may_{bus}{i} = XOR(granted_{above}, asks_{above}{i})")
            lines.append(f"asks_{bus}{i} = NAND({may}, not_{bus}{i})")
        lines.append(f"none_{bus} = AND({', '.join(f'asks_{bus}{i}' for i in all_of)})")
        lines.append(f"granted_{bus} = NOT(none_{bus})")
    for i in all_of:
        taken = []
        for bus in "abc":
            lines.append(f"takes_{bus}{i} = NAND({bus}{i}, granted_{bus})")
            taken.append(f"takes_{bus}{i}")
        lines.append(f"channel{i} = NAND(e{i}, {', '.join(taken)})")
    lines.append(f"some = AND({', '.join(f'channel{i}' for i in all_of)})")
    for bit in range((channels - 1).bit_length()):
        lines.append(f"number{bit} = NAND({', '.join(f'channel{i}' for i in all_of if i >> bit & 1)})")
    return netlist([f"{bus}{i}" for bus in "abce" for i in all_of], lines)


def corrector(bits):
    """A corrector of single errors, as c499 for 32 bits: each bit of the data is in three parities, and in no others than another
    bit is. Where all three tell that something is wrong, the bit is set right."""
    rows = next(rows for rows in range(3, 64) if bits <= rows * (rows - 1) * (rows - 2) // 6)
    patterns = [pattern for pattern in range(1 << rows) if pattern.bit_count() == 3][:bits]
    lines = []
    for row in range(rows):
        ends = [f"d{bit:02}" for bit in range(bits) if patterns[bit] >> row & 1]
        lines += [f"check{row} = AND(i{row}, r)", f"syndrome{row} = XOR({', '.join(ends + [f'check{row}'])})"]
    for bit in range(bits):
        ends = [f"syndrome{row}" for row in range(rows) if patterns[bit] >> row & 1]
        lines += [f"wrong{bit:02} = AND({', '.join(ends)})", f"out{bit:02} = XOR(d{bit:02}, wrong{bit:02})"]
    return netlist(["r"] + [f"i{row}" for row in range(rows)] + [f"d{bit:02}" for bit in range(bits)], lines)


def in_nands(text):
    """A netlist whose exclusive ors are made of NANDs: two inputs after the other by four of them."""
    lines = []
    for line in text.decode().splitlines():
        name, _, ends = re.fullmatch(r"(?:(\S+) = )?(\w+)\((.*)\)", line).groups()
        if " = XOR(" not in line:
            lines.append(line)
            continue
        first, *others = ends.split(", ")
        for place, other in enumerate(others):
            made = name if place == len(others) - 1 else f"{name}_{place}"
            lines += [f"{made}n = NAND({first}, {other})", f"{made}l = NAND({first}, {made}n)", f"{made}r = NAND({other}, {made}n)",
                      f"{made} = NAND({made}l, {made}r)"]
            first = made
    return ("\n".join(lines) + "\n").encode()


def alu_slice(bits):
    """Slices that give the and, the or, the exclusive or or the sum of two bits, by two selecting wires."""
    lines, carry = ["n_0 = NOT(s_0)", "n_1 = NOT(s_1)"], "c"
    for i in range(bits):
        t = f"t{i}_"
        lines += [f"{t}and = AND(a{i}, b{i})", f"{t}or = OR(a{i}, b{i})", f"{t}xor = XOR(a{i}, b{i})", f"{t}sum = XOR({t}xor, {carry})",
                  f"{t}gen = AND({t}xor, {carry})", f"out{i} = OR({t}and, {t}gen)", f"{t}s0 = AND({t}and, n_0, n_1)",
                  f"{t}s1 = AND({t}or, s_0, n_1)", f"{t}s2 = AND({t}xor, n_0, s_1)", f"{t}s3 = AND({t}sum, s_0, s_1)",
                  f"{t}z = OR({t}s0, {t}s1, {t}s2, {t}s3)"]
        carry = f"out{i}"
    return netlist(["s_0", "s_1", "c"] + [f"{end}{i}" for i in range(bits) for end in "ab"], lines)


def counter(bits):
    """A counter that counts while it is enabled: of each bit the flip-flop, and the gates before it."""
    lines, carry = [], "enable"
    for bit in range(bits):
        value = f"bit{bit:02}_q"
        lines += [f"{value} = DFF(bit{bit:02}_next)", f"bit{bit:02}_next = XOR({value}, {carry})"]
        if bit + 1 < bits:
            lines.append(f"bit{bit:02}_carry = AND({value}, {carry})")
        carry = f"bit{bit:02}_carry"
    return netlist(["enable"], [f"OUTPUT(bit{bit:02}_q)" for bit in range(bits)] + lines)


def shift_register(stages):
    """Flip-flops in a row. The last one and the one in the middle are outputs."""
    lines = [f"stage{stage + 1:02} = DFF({f'stage{stage:02}' if stage else 'in'})" for stage in range(stages)]
    return netlist(["in"], [f"OUTPUT(stage{stages // 2:02})", f"OUTPUT(stage{stages:02})"] + lines)


def side_by_side(count, text):
    """So many of a device, each with names of its own. What comes before a bracket is no name."""
    return b"".join(re.sub(rb"\b(\w+)\b(?!\()", b"m%02d_\\1" % copy, text) for copy in range(count))


def under_names(text, name_of):
    """A netlist whose gates have the names that a function gives their kinds and numbers."""
    gates = re.findall(rb"^(\S+) *= *(\w+)", text, re.MULTILINE)
    names = {old: name_of(kind, number) for number, (old, kind) in enumerate(gates)}
    return re.sub(rb"[^\s(),=]+", lambda word: names.get(word[0], word[0]), text)


def by_tool(text):
    """Gates named by kind and number."""
    return under_names(text, lambda kind, number: b"%s_%05d" % (kind, number))


def at_random(text):
    """Gates named in no order, but the same one each time."""
    places = list(range(8192))
    random.Random(1).shuffle(places)
    return under_names(text, lambda _, number: b"n%05d" % places[number])
