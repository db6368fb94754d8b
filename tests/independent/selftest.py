"""The marked examples of the requirements, run through the independent program."""

import exact
from judge import LONGEST_SCENE, VERTEX_COUNTS, judge, scene_bytes

TETRAHEDRON = [(1, 2, 3), (1, 2, 4), (1, 3, 4), (2, 3, 4)]
A_VERTICES = [(0, 0, 0, 1), (4, 0, 0, 1), (0, 4, 0, 1), (0, 0, 4, 1)]
B_VERTICES = [(1, 1, 1, 1), (-8, -7, -9, 1), (9, -6, -9, 1), (2, 10, -9, 1)]
FAR = (100, 101, 103, 1)
PRINTED = scene_bytes(FAR, A_VERTICES, TETRAHEDRON, B_VERTICES, TETRAHEDRON)
PRINTED_REPORT = ["scene 4 4 4 4", "verdict cross", "inside 0 1", "pairs 3",
                  "5 6 1", "5 7 1", "5 8 1"]

UNIT = [(0, 0, 0, 1), (1, 0, 0, 1), (0, 1, 0, 1), (0, 0, 1, 1)]
FIVES = [(5, 5, 5, 1)] * 4
SQUARE = [(0, 0, 0, 1), (1, 0, 0, 1), (0, 1, 0, 1), (1, 1, 0, 1)]
IN_ORDER = (1, 2, 3, 4)

# name, point numbers, rows, the terms that the requirements give
SIGNS = [
    ("S1", IN_ORDER, UNIT, {0: -1}),
    ("S2", IN_ORDER, UNIT[:3] + [(0, 0, -1, -1)], {0: 1}),
    ("S3", IN_ORDER, FIVES, {0: 0, 1: 0, 2: 0, 3: -12}),
    ("S4", (2, 1, 3, 4), FIVES, {3: 12}),
    ("S5", IN_ORDER, SQUARE, {0: 0, 1: -30}),
    ("S6", IN_ORDER, SQUARE[:3] + [(9, 0, 0, 1)], {0: 0, 1: 0, 2: -354}),
    ("S7", IN_ORDER, FIVES[:3] + [(-5, -5, -5, -1)], {3: 12}),
    ("S8", IN_ORDER, [SQUARE[0], (2, 0, 0, 2)] + SQUARE[2:], {0: 0, 1: -60}),
]

# name, the edge from point 5 to point 6, whether it pierces
EDGES = [
    ("E1", [(1, 1, -3, 1), (1, 1, 1, 1)], True),
    ("E2", [(1, 1, -3, 1), (-1, -1, -1, -1)], False),
    ("E3", [(5, 5, -3, 1), (5, 5, 1, 1)], False),
    ("E4", [(1, 1, 0, 1), (1, 1, 1, 1)], False),
    ("E5", [(1, 1, 0, 1), (1, 1, -1, 1)], True),
]


def sign_cases():
    for name, numbers, rows, expected in SIGNS:
        four = exact.terms(numbers, rows)
        yield name, {k: four[k] for k in expected}, expected


def edge_cases():
    for name, edge, expected in EDGES:
        points = A_VERTICES + edge
        yield name, exact.Scene(b"", (4, 1, 2, 0), points, [(1, 2, 3)]).pierces(5, 6, 1), expected


def with_vertex(row):
    """The printed scene with another first vertex."""
    return scene_bytes(FAR, [row] + A_VERTICES[1:], TETRAHEDRON, B_VERTICES, TETRAHEDRON)


def with_far(row):
    """The printed scene with another far point."""
    return scene_bytes(row, A_VERTICES, TETRAHEDRON, B_VERTICES, TETRAHEDRON)


def with_faces(faces):
    """The printed scene with other faces of A."""
    return scene_bytes(FAR, A_VERTICES, faces, B_VERTICES, TETRAHEDRON)


def bipyramid(vertices):
    """Faces over a ring of all vertices but the last two."""
    ring = vertices - 2
    return [(i, i % ring + 1, tip) for i in range(1, ring + 1) for tip in (ring + 1, ring + 2)]


def with_vertices(count):
    """A solid of so many vertices against the printed scene's B."""
    rows = [(i, i * i, 7 * i % 11, 1) for i in range(count)]
    return scene_bytes(FAR, rows, bipyramid(count), B_VERTICES, TETRAHEDRON)


def limit_cases():
    most = VERTEX_COUNTS[-1]
    yield "printed scene, length", len(PRINTED), 129
    yield "coordinate 4095", judge(with_vertex((4095, 0, 0, 1))), None
    yield "coordinate 4096", judge(with_vertex((4096, 0, 0, 1))), (5, 2)
    yield "weight 16", judge(with_vertex((0, 0, 0, 16))), None
    yield "weight 17", judge(with_vertex((0, 0, 0, 17))), (6, 2)
    yield "weight 0", judge(with_vertex((0, 0, 0, 0))), (6, 2)
    yield "far point of weight 0", judge(with_far((1, 2, 3, 0))), None
    yield "far point of four zeros", judge(with_far((0, 0, 0, 0))), (14, 1)
    yield "far point of three zeros and weight 17", judge(with_far((0, 0, 0, 17))), (6, 1)
    yield "far point (4096, 0, 0, 0)", judge(with_far((4096, 0, 0, 0))), (5, 1)
    yield "an edge in four faces", judge(with_faces([(1, 2, 3), (1, 2, 3), (1, 2, 4), (1, 2, 4)])), None
    yield "edges in three faces", judge(with_faces([(1, 2, 3), (1, 2, 3), (1, 2, 3), (1, 2, 4)])), (9, 10)
    yield "48 vertices", judge(with_vertices(most)), None
    yield "49 vertices", judge(with_vertices(most + 1)), (2, 0)
    yield "a byte too long", judge(PRINTED + b"\0"), (3, 0)
    yield "a byte too short", judge(PRINTED[:-1]), (3, 0)
    yield "empty input", judge(b""), (1, 0)
    yield "longest scene", LONGEST_SCENE, 17 + 9 * 96 + 5 * 192


def printed_cases():
    scene = exact.read_scene(PRINTED)
    yield "printed scene", exact.report(scene), PRINTED_REPORT
    for words, expected in [
            ("judge", "accepted"), ("sign 1 2 3 4", "sign - -64 -1152 -632 -12"),
            ("sign 1 1 2 30", "refused 11 0"), ("sign 1 1 2 3", "refused 12 0"),
            ("pierces 5 6 1", "pierces yes"), ("pierces 6 7 1", "pierces no"),
            ("mask 5 6 1", "mask 1 0 1"), ("mask 9 9 3", "refused 11 0"),
            ("enclosed 5", "enclosed yes"), ("enclosed 9", "refused 11 0"),
            ("verdict", "verdict cross 5 6 1"), ("counts", "counts 3 0 1"),
            ("record 0", "record 83 67 4 4 4 4"), ("record 19", "refused 11 0"),
            ("sign 1 2 3", exact.USAGE), ("judge 1", exact.USAGE), ("record -1", exact.USAGE)]:
        yield "ask " + words, exact.ask(scene, words.split()), [expected]
    yield "ask listing 8", exact.ask(scene, ["listing", "8"]), ["refused 10 3", "kept"]
    yield "ask listing 9", exact.ask(scene, ["listing", "9"]), PRINTED_REPORT[3:] + ["kept"]


def run():
    """Prints what differs and the tally; answers the exit status."""
    passed = failed = 0
    for cases in (sign_cases, edge_cases, limit_cases, printed_cases):
        for name, found, expected in cases():
            if found == expected:
                passed += 1
            else:
                failed += 1
                print(f"{name}: found {found}, expected {expected}")
    print(f"{passed} passed, {failed} failed")
    return 1 if failed else 0
