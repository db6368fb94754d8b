"""A table of scenes at and beyond the limits, each with its name.

    limits.py make     writes the table and what is printed for it, both anew
    limits.py check    derives both anew and compares them

The table is a file of entries, a name and then its scene, each behind two bytes of length, low byte
first: the printed scene of the requirements with some of its bytes changed, cut or lengthened, and
scenes with the most vertices and faces.
"""

import sys
from pathlib import Path

from judge import FACE_COUNTS, VERTEX_COUNTS, judge, scene_bytes
from vectors import packed

ROOT = Path(__file__).resolve().parents[2]
TABLE, PRINTS = ROOT / "crates" / "test_limits" / "stdin", ROOT / "crates" / "test_limits" / "stdout"
PRINTED = (ROOT / "examples" / "printed.scene").read_bytes()
MOST_VERTICES, MOST_FACES = VERTEX_COUNTS[-1], FACE_COUNTS[-1]

# Bytes of the printed scene that are changed: from where on, and into what. SC stands at byte 0, FP
# at 6, VX at 15, 24, .. 78, FC at 87, 92, .. 122, EN at 127.
CHANGES = [
    # openings
    ("first byte T", 0, b"T"),
    ("second byte c", 1, b"c"),
    ("opening and counts", 1, b"c\x00\x00\x00\x00"),
    # counts
    ("2 vertices of A", 2, b"\x02"),
    ("1 face of A", 3, b"\x01"),
    ("97 faces of A", 3, b"\x61"),
    ("2 vertices of B", 4, b"\x02"),
    ("49 vertices of B", 4, b"\x31"),
    ("255 faces of B", 5, b"\xff"),
    ("no faces of B", 5, b"\x00"),
    ("a count of 3 for A's 4 vertices", 2, b"\x03"),
    ("a count of 5 for B's 4 faces", 5, b"\x05"),
    # marks
    ("mark of the far point", 6, b"PF"),
    ("mark of A's first vertex", 16, b"x"),
    ("mark of B's last vertex", 78, b"v"),
    ("mark of A's first face", 87, b"\x00\x00"),
    ("mark of B's last face", 123, b"c"),
    ("mark of the end", 128, b"M"),
    # coordinates
    ("coordinate 4095", 26, b"\xff\x0f"),
    ("coordinate -4095", 28, b"\x01\xf0"),
    ("coordinate 4096", 26, b"\x00\x10"),
    ("coordinate -4096", 28, b"\x00\xf0"),
    ("coordinate 32767", 30, b"\xff\x7f"),
    ("coordinate -32768", 19, b"\x00\x80"),
    ("coordinate 4096 of the far point", 8, b"\x00\x10"),
    ("coordinate 4095 of B's last vertex", 84, b"\xff\x0f"),
    ("coordinate 4096 of B's last vertex", 84, b"\x00\x10"),
    # weights
    ("weight 16", 32, b"\x10"),
    ("weight -16", 32, b"\xf0"),
    ("weight 17", 32, b"\x11"),
    ("weight -17", 32, b"\xef"),
    ("weight 0", 32, b"\x00"),
    ("weight 127", 50, b"\x7f"),
    ("weight -128", 50, b"\x80"),
    ("weight 0 of the far point", 14, b"\x00"),
    ("weight 17 of the far point", 14, b"\x11"),
    ("weight -16 of the far point", 14, b"\xf0"),
    ("a far point of four zeros", 8, b"\x00\x00\x00\x00\x00\x00\x00"),
    ("three zeros and weight 17", 8, b"\x00\x00\x00\x00\x00\x00\x11"),
    ("coordinate 4096 and weight 0", 8, b"\x00\x10\x00\x00\x00\x00\x00"),
    ("a far point of four zeros, then the next mark", 8, b"\x00\x00\x00\x00\x00\x00\x00XX"),
    ("weight 17 of B's last vertex", 86, b"\x11"),
    ("weight, then the next mark", 32, b"\x00XX"),
    # corners
    ("corner 0", 89, b"\x00"),
    ("corner 5 of 4", 96, b"\x05"),
    ("corner 255", 100, b"\xff"),
    ("corners 1 1 3", 89, b"\x01\x01\x03"),
    ("corners 1 3 3", 99, b"\x01\x03\x03"),
    ("corners 2 1 2 of B", 109, b"\x02\x01\x02"),
    ("corner 0 of B's last face", 124, b"\x00"),
    ("corner, then the mark of the end", 126, b"\x05XX"),
    # uses
    ("A's vertex 4 in no face", 87, b"FC\x01\x02\x03FC\x01\x02\x03FC\x01\x02\x03FC\x01\x02\x03"),
    ("A's vertex 1 in no face", 87, b"FC\x02\x03\x04FC\x02\x03\x04FC\x02\x03\x04FC\x02\x03\x04"),
    ("B's vertex 1 in no face", 107, b"FC\x02\x03\x04FC\x02\x03\x04FC\x02\x03\x04FC\x02\x03\x04"),
    ("B's vertex 4 in no face, A open", 104, b"\x01\x02\x03FC\x01\x02\x03FC\x01\x02\x03FC\x01\x02\x03FC\x01\x02\x03"),
    # edges
    ("A open", 104, b"\x01\x02\x03"),
    ("B open", 124, b"\x01\x02\x03"),
    ("A open and B open", 104, b"\x01\x02\x03FC\x01\x02\x04"),
    ("an edge in four faces of A", 87, b"FC\x01\x02\x03FC\x01\x02\x03FC\x01\x02\x04FC\x01\x02\x04"),
    ("edges in three faces of A", 87, b"FC\x01\x02\x03FC\x01\x02\x03FC\x01\x02\x03FC\x01\x02\x04"),
    ("an edge in four faces of B", 119, b"\x01\x02\x04FC\x01\x02\x03"),
    ("corners in another order", 109, b"\x03\x02\x01"),
]


def changed(scene, at, new):
    return scene[:at] + new + scene[at + len(new):]


def solids(v, f):
    """Two like solids of v vertices and f faces: a ring with two tips, and beside it pairs of faces
    on three of the ring's vertices, every other one. Points and weights are at their limits."""
    ring = v - 2
    sides = [(1 + j, 1 + (j + 1) % ring, tip) for j in range(ring) for tip in (v, v - 1)]
    pairs = [(1 + e, 3 + e, 5 + e) for e in range(f // 2 + 1) for _ in "12"]
    faces = (sides + pairs)[:f]
    points = [(4095, -4095, 4095, -16 if k % 2 else 16) for k in range(2 * v + 1)]
    return scene_bytes(points[0], points[1:v + 1], faces, points[v + 1:], faces)


def largest():
    scene = solids(MOST_VERTICES, MOST_FACES)
    end = len(scene)
    faces = 15 + 18 * MOST_VERTICES
    return [
        ("48 vertices and 92 faces a solid", solids(48, 92)),
        ("48 vertices and 96 faces a solid", scene),
        ("49 vertices a solid", solids(49, 94)),
        ("97 faces a solid", solids(48, 97)),
        ("largest, one byte more", scene + b"\0"),
        ("largest, last mark", changed(scene, end - 1, b"M")),
        ("largest, last weight", changed(scene, faces - 1, b"\0")),
        ("largest, last corner", changed(scene, end - 3, b"\x31")),
        ("largest, A's last face open", changed(scene, faces + 5 * MOST_FACES - 1, b"\x07")),
        ("largest, B's last face open", changed(scene, end - 3, b"\x07")),
    ]


def table():
    lengths = [
        ("the printed scene", PRINTED),
        ("empty", b""),
        ("5 bytes", PRINTED[:5]),
        ("the header alone", PRINTED[:6]),
        ("one byte too short", PRINTED[:-1]),
        ("one byte too long", PRINTED + b"\0"),
    ]
    return lengths + [(name, changed(PRINTED, at, new)) for name, at, new in CHANGES] + largest()


def said(scene):
    refusal = judge(scene)
    return "refused {} {}".format(*refusal) if refusal else "accepted"


def files():
    scenes = table()
    entries = [data for name, scene in scenes for data in (name.encode(), scene)]
    return packed(entries), "".join(f"{name}: {said(scene)}\n" for name, scene in scenes).encode()


def main():
    written, printed = files()
    if sys.argv[1:] == ["make"]:
        TABLE.write_bytes(written)
        PRINTS.write_bytes(printed)
    elif sys.argv[1:] == ["check"]:
        if TABLE.read_bytes() != written or PRINTS.read_bytes() != printed:
            sys.exit("limits.py: the table or its prints are not as they are made")
        print(f"{printed.count(bytes([10]))} scenes at the limits are as they are made")
    else:
        sys.exit(__doc__)


if __name__ == "__main__":
    main()
