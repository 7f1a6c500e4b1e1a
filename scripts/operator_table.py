#!/usr/bin/env python3
"""Writes the tables of outside values that the tests of bits_core in base_tests compare with.

The values are worked out with Python's integers by the sentences of the P4-16 specification, from nothing that the
crate has. Run it from the top of the repository; it writes crates/base_tests/src/operators/table_*.rt.
"""
import random

WIDTHS = [1, 7, 8, 64, 127, 128]
FOLDER = "crates/base_tests/src/operators"


def signed(width, value):
    return value - 2**width if value >= 2 ** (width - 1) else value


def clamp(low, value, high):
    return max(low, min(value, high))


def clamp_signed(width, value):
    return clamp(-(2 ** (width - 1)), value, 2 ** (width - 1) - 1) % 2**width


def each_bit(width, rule, *operands):
    """Goes over the bits as a string of digits, highest first."""
    digits = [format(x, "0%db" % width) for x in operands]
    return int("".join(str(rule(*(int(d) for d in place))) for place in zip(*digits)), 2)


SAME = {
    "Add": lambda w, x, y: (x + y) % 2**w,
    "Sub": lambda w, x, y: (x - y) % 2**w,
    "Mul": lambda w, x, y: (x * y) % 2**w,
    "AddSatU": lambda w, x, y: clamp(0, x + y, 2**w - 1),
    "SubSatU": lambda w, x, y: clamp(0, x - y, 2**w - 1),
    "AddSatS": lambda w, x, y: clamp_signed(w, signed(w, x) + signed(w, y)),
    "SubSatS": lambda w, x, y: clamp_signed(w, signed(w, x) - signed(w, y)),
    "And": lambda w, x, y: each_bit(w, lambda a, b: a & b, x, y),
    "Or": lambda w, x, y: each_bit(w, lambda a, b: a | b, x, y),
    "Xor": lambda w, x, y: each_bit(w, lambda a, b: a ^ b, x, y),
}
ONE = {
    "Not": lambda w, x: each_bit(w, lambda a: 1 - a, x),
    "Neg": lambda w, x: -x % 2**w,
}


def cut_amount(w, y):
    """Past the width every amount shifts alike, and Python's shifts want a small one."""
    return min(y, w + 1)


SHIFT = {
    "Shl": lambda w, x, y: (x << cut_amount(w, y)) % 2**w,
    "ShrU": lambda w, x, y: x >> cut_amount(w, y),
    "ShrS": lambda w, x, y: (signed(w, x) >> cut_amount(w, y)) % 2**w,
}
TEST = {
    "Eq": lambda w, x, y: int(x == y),
    "LtU": lambda w, x, y: int(x < y),
    "LeU": lambda w, x, y: int(x <= y),
    "LtS": lambda w, x, y: int(signed(w, x) < signed(w, y)),
    "LeS": lambda w, x, y: int(signed(w, x) <= signed(w, y)),
}


def pairs(w, rng):
    """Both extremes on either side, the two sides of the sign, equal operands, and one pair drawn."""
    top, half = 2**w - 1, 2 ** (w - 1)
    drawn = (rng.randrange(2**w), rng.randrange(2**w))
    wanted = [(0, top), (top, top), (half, half - 1), (half - 1, half), (half, top), drawn]
    seen = []
    for pair in wanted + [(0, 0), (top, 0)]:
        if pair not in seen:
            seen.append(pair)
    return seen[:4] if w == 1 else seen[:6]


def shift_pairs(w, rng):
    """Amounts 0, one, one below the width, the width, and the greatest of 128 bits."""
    top = 2**w - 1
    return [(top, 8, w - 1), (top, 8, w), (2 ** (w - 1), 128, 2**128 - 1), (rng.randrange(2**w), 8, 0), (rng.randrange(2**w), 64, 1)]


def join_splits(w):
    """Widths of the two operands, whose sum is w where it can be."""
    return [(1, 1), (1, 7), (1, 127)] if w == 1 else [(1, w - 1), (w - 1, 1), (w // 2, w - w // 2)]


def operators(rng):
    for name, rule in SAME.items():
        for w in WIDTHS:
            for x, y in pairs(w, rng):
                yield name, (w, x), (w, y), (w, rule(w, x, y))
    for name, rule in ONE.items():
        for w in WIDTHS:
            for x, y in pairs(w, rng):
                yield name, (w, x), (8, y % 256), (w, rule(w, x))
    for name, rule in SHIFT.items():
        for w in WIDTHS:
            for x, v, y in shift_pairs(w, rng):
                yield name, (w, x), (v, y), (w, rule(w, x, y))
    for w in WIDTHS:
        for left, right in join_splits(w):
            for x, y in [(2**left - 1, 0), (rng.randrange(2**left), rng.randrange(2**right))]:
                joined = format(x, "0%db" % left) + format(y, "0%db" % right)
                yield "Cat", (left, x), (right, y), (left + right, int(joined, 2))
    for name, rule in TEST.items():
        for w in WIDTHS:
            for x, y in pairs(w, rng):
                yield name, (w, x), (w, y), (1, rule(w, x, y))


def slices(rng):
    for w in WIDTHS:
        x = rng.randrange(2**w)
        for high, low in sorted({(w - 1, 0), (w - 1, w - 1), (0, 0), (w - 1, w // 2), (w // 2, w // 3)}):
            digits = format(x, "0%db" % w)
            yield (w, x), high, low, (high - low + 1, int(digits[w - 1 - high : w - low], 2))


def extensions(rng):
    for w in WIDTHS:
        for x in sorted({2 ** (w - 1), rng.randrange(2**w)}):
            for width in WIDTHS:
                for is_signed in (False, True):
                    read = signed(w, x) if is_signed else x
                    yield (w, x), width, is_signed, (width, read % 2**width)


def bits(pair):
    return "%d 0x%x" % pair


def write(name, head, kind, rule, lines):
    """A macro call keeps a row on a line, which the formatter would break."""
    with open("%s/%s.rt" % (FOLDER, name), "w") as out:
        out.write("//! %s Written by scripts/operator_table.py.\n" % head)
        out.write("use super::*;\n\n")
        out.write("pub(super) const %s: [%s; %d] = %s! {\n" % (name.upper(), kind, len(lines), rule))
        out.writelines("    %s\n" % line for line in lines)
        out.write("};\n")


def main():
    rng = random.Random(128)
    rows = ["%s %s, %s => %s;" % (name, bits(a), bits(b), bits(c)) for name, a, b, c in operators(rng)]
    print(len(rows), "rows of operators")
    middle = next(i for i, row in enumerate(rows) if row.startswith("AddSatS"))
    last = next(i for i, row in enumerate(rows) if row.startswith("Not"))
    end = next(i for i, row in enumerate(rows) if row.startswith("Eq"))
    head = "Operators, their operands and their results, each as its width and its value."
    for name, part in [("sums", rows[:middle]), ("bitwise", rows[middle:last]), ("places", rows[last:end]), ("orders", rows[end:])]:
        write("table_" + name, head, "OperatorCase", "operator_cases", part)
    cuts = ["%s [%d:%d] => %s;" % (bits(a), high, low, bits(c)) for a, high, low, c in slices(rng)]
    write("table_slices", "Values, the ends of a slice, and the slice.", "SliceCase", "slice_cases", cuts)
    wide = ["%s at %d, %s => %s;" % (bits(a), w, str(s).lower(), bits(c)) for a, w, s, c in extensions(rng)]
    write("table_extensions", "Values, a width, whether the sign is kept, and the value at that width.", "ExtensionCase", "extension_cases", wide)


main()
