"""Vertices in doubles, judged by exact fractions: no code is shared with the kernel.

    doubles.py make     writes the table of vertices and what is printed for it, both anew
    doubles.py check    derives the prints of the stored table anew and compares them

The table is a file of entries: four vertices of four doubles, eight bytes each, low byte first.
For each vertex the print is `taken X Y Z W` or `refused N P`; where all four of an entry are taken,
a line `c0 BITS` follows, the sixteen hexadecimal digits of the double that is their determinant.
"""

import random
import struct
import sys
from fractions import Fraction
from itertools import permutations
from pathlib import Path

from harness import first_other
from judge import COORDINATES, WEIGHTS

CRATE = Path(__file__).resolve().parents[2] / "crates" / "test_doubles"
TABLE, PRINTS = CRATE / "stdin", CRATE / "stdout"
COORDINATE_LIMIT, WEIGHT_LIMIT = COORDINATES[-1], WEIGHTS[-1]
SEED, RANDOM_ENTRIES = 7, 260


def value(bits):
    """The number that the bits of a double stand for; None for an infinity or no number."""
    sign, exponent, digits = bits >> 63, bits >> 52 & 0x7FF, bits & (1 << 52) - 1
    if exponent == 0x7FF:
        return None
    size = Fraction(digits + (1 << 52 if exponent else 0)) * Fraction(2) ** (max(exponent, 1) - 1075)
    return -size if sign else size


def fault(bits, place):
    """The refusal of the number at the place, 1 to 4; None where it is taken."""
    number = value(bits)
    if number is None or number.denominator != 1:
        return 15
    if place < 4:
        return None if number in COORDINATES else 5
    return 6 if number == 0 or number not in WEIGHTS else None


def taken(vertex):
    """A pair: the four whole numbers or None, and the refusal's number and place or None."""
    for place, bits in enumerate(vertex, 1):
        refusal = fault(bits, place)
        if refusal:
            return None, (refusal, place)
    return [int(value(bits)) for bits in vertex], None


def determinant(rows):
    total = 0
    for order in permutations(range(4)):
        inversions = sum(order[i] > order[j] for i in range(4) for j in range(i + 1, 4))
        product = -1 if inversions % 2 else 1
        for row, column in zip(rows, order):
            product *= row[column]
        total += product
    return total


def print_of(entry):
    lines, rows = [], []
    for vertex in entry:
        row, refusal = taken(vertex)
        rows.append(row)
        lines.append(f"refused {refusal[0]} {refusal[1]}" if refusal else "taken " + " ".join(map(str, row)))
    if all(rows):
        c0 = determinant(rows)
        bits = bits_of(c0)
        assert value(bits) == c0
        lines.append(f"c0 {bits:016x}")
    return "".join(line + "\n" for line in lines)


def bits_of(number):
    return struct.unpack("<Q", struct.pack("<d", float(number)))[0]


def beside(bits):
    """The doubles next to it, away from zero and toward it."""
    return [bits + 1, bits - 1]


def corner_cases(limit):
    """Bits of doubles around zero, one, the limit, 2^53 and the ends of the format."""
    marks = [0, 1 / 2, 1, 3 / 2, limit - 1, limit - 1 / 2, limit, limit + 1 / 2, limit + 1, 2.0 ** 52 - 1 / 2, 2.0 ** 52,
             2.0 ** 53 - 1, 2.0 ** 53, 2.0 ** 53 + 2, 2.0 ** 63, 2.0 ** 64, 1e300, 1.7976931348623157e308, 2.0 ** -1022, 0.1]
    bits = [bits_of(mark) for mark in marks]
    bits += [1, 2, 0x000FFFFFFFFFFFFF, 0x7FF0000000000000]            # subnormal, infinite
    bits += [0x7FF0000000000001, 0x7FF8000000000000, 0x7FFFFFFFFFFFFFFF, 0x7FF4000000000000]   # no numbers
    for mark in (1, limit, limit + 1, 2.0 ** 53):
        bits += beside(bits_of(mark))
    return [b | sign << 63 for b in bits for sign in (0, 1)]


def table():
    """Each corner case at each place, then random vertices."""
    rng = random.Random(SEED)

    def whole(limit):
        return bits_of(rng.choice((rng.randint(-limit, limit), limit, -limit, rng.randint(-3, 3))))

    def good():
        return [*(whole(COORDINATE_LIMIT) for _ in range(3)), bits_of(rng.choice((1, -1)) * rng.randint(1, WEIGHT_LIMIT))]

    vertices = []
    for place in range(4):
        for bits in corner_cases(WEIGHT_LIMIT if place == 3 else COORDINATE_LIMIT):
            vertex = good()
            vertex[place] = bits
            vertices.append(vertex)
    cases = corner_cases(COORDINATE_LIMIT)
    for _ in range(200):                                                # two faults: the first in order counts
        vertex = good()
        for place in rng.sample(range(4), 2):
            vertex[place] = rng.choice(cases)
        vertices.append(vertex)
    vertices += [[rng.getrandbits(64) for _ in range(4)] for _ in range(40)]
    vertices += [[bits_of(-0.0)] * 3 + [bits_of(1)]] * 4 + [[bits_of(-0.0)] * 4]
    rng.shuffle(vertices)
    vertices += [good() for _ in range(-len(vertices) % 4)]
    entries = [vertices[i:i + 4] for i in range(0, len(vertices), 4)]
    most, heavy = bits_of(COORDINATE_LIMIT), bits_of(WEIGHT_LIMIT)
    least, light = bits_of(-COORDINATE_LIMIT), bits_of(-WEIGHT_LIMIT)
    entries.append([[most, most, most, heavy], [most, least, most, light], [most, most, least, light], [least, most, most, light]])
    return entries + [[good() for _ in range(4)] for _ in range(RANDOM_ENTRIES)]


def packed(entries):
    return b"".join(struct.pack("<16Q", *(bits for vertex in entry for bits in vertex)) for entry in entries)


def unpacked(stored):
    numbers = [struct.unpack("<16Q", stored[i:i + 128]) for i in range(0, len(stored), 128)]
    return [[entry[i:i + 4] for i in range(0, 16, 4)] for entry in numbers]


def make():
    entries = table()
    CRATE.mkdir(parents=True, exist_ok=True)
    TABLE.write_bytes(packed(entries))
    PRINTS.write_text("".join(map(print_of, entries)))
    print(f"{4 * len(entries)} vertices written")
    return 0


def check():
    entries = unpacked(TABLE.read_bytes())
    other = first_other(map(print_of, entries), PRINTS.read_text())
    if other:
        print(f"the stored print of entry {other[0]} differs: {entries[other[0]]}")
        return 1
    print(f"{4 * len(entries)} vertices in doubles are taken or refused as they should be")
    return 0


if __name__ == "__main__":
    sys.exit({"make": make, "check": check}[sys.argv[1]]())
