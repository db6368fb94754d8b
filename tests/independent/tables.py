"""Closed tables of triangles: every edge in an even number of faces, in most of them in two.

A table is a list of faces (corners from 1) and a natural place for each vertex: three numbers of
size about one, so that the table makes a plain body around the origin.
"""

from math import cos, pi, sin

from judge import FACE_COUNTS

# The projective plane on six vertices and the torus on seven: closed, and bound to cross themselves.
PLANE = [(1, 2, 3), (1, 3, 4), (1, 4, 5), (1, 5, 6), (1, 2, 6),
         (2, 3, 5), (3, 4, 6), (2, 4, 5), (3, 5, 6), (2, 4, 6)]
SEVEN = [(i, (i + step) % 7, (i + 3) % 7) for i in range(7) for step in (1, 2)]


def direction(turn, height):
    """A place at this turn of a circle and this height between -1 and 1."""
    return cos(2 * pi * turn), sin(2 * pi * turn), height


def two_face(rng):
    return [(1, 2, 3), (3, 2, 1)], [direction(k / 3, 0) for k in range(3)]


def tetrahedron(rng):
    faces = [(1, 2, 3), (1, 2, 4), (1, 3, 4), (2, 3, 4)]
    return faces, [(1, 1, 1), (1, -1, -1), (-1, 1, -1), (-1, -1, 1)]


def box(rng):
    places = [(x, y, z) for x in (-1, 1) for y in (-1, 1) for z in (-1, 1)]
    squares = [(1, 2, 4, 3), (5, 6, 8, 7), (1, 2, 6, 5), (3, 4, 8, 7), (1, 3, 7, 5), (2, 4, 8, 6)]
    return [face for p, q, r, s in squares for face in ((p, q, r), (p, r, s))], places


def globe(rng):
    """A sphere: rings of vertices between two tips."""
    rings, around = rng.choice([(1, 3), (1, 4), (1, 6), (1, 12), (2, 4), (2, 7), (3, 4), (3, 5),
                                (3, 10), (4, 5), (5, 6), (4, 11)])
    last = rings * around + 1
    vertex = lambda ring, k: 2 + ring * around + k % around
    faces, places = [], [(0, 0, 1)]
    for ring in range(rings):
        height = 1 - 2 * (ring + 1) / (rings + 1)
        places += [direction(k / around, height) for k in range(around)]
        for k in range(around if ring + 1 < rings else 0):
            p, q, r, s = vertex(ring, k), vertex(ring, k + 1), vertex(ring + 1, k), vertex(ring + 1, k + 1)
            faces += [(p, q, r), (q, r, s)]
    for k in range(around):
        faces += [(1, vertex(0, k), vertex(0, k + 1)),
                  (last + 1, vertex(rings - 1, k), vertex(rings - 1, k + 1))]
    return faces, places + [(0, 0, -1)]


def torus(rng):
    long, short = rng.choice([(3, 3), (4, 3), (5, 3), (4, 4), (6, 4), (7, 3), (10, 3), (8, 4), (12, 4)])
    vertex = lambda i, j: 1 + i % long * short + j % short
    faces, places = [], []
    for i in range(long):
        for j in range(short):
            p, q, r, s = vertex(i, j), vertex(i + 1, j), vertex(i, j + 1), vertex(i + 1, j + 1)
            faces += [(p, q, r), (q, r, s)]
            x, y, _ = direction(i / long, 0)
            out, up, _ = direction(j / short, 0)
            places.append((x * (1 + out / 2), y * (1 + out / 2), up / 2))
    return faces, places


def grown(rng):
    """A tetrahedron with vertices set upon its faces: spiky and rarely convex."""
    faces, places = tetrahedron(rng)
    for new in range(5, 5 + rng.choice([1, 2, 3, 5, 8, 28, 44])):
        p, q, r = faces.pop(rng.randrange(len(faces)))
        faces += [(p, q, new), (q, r, new), (p, r, new)]
        lift = rng.choice((0.2, 0.33, 0.5, 0.6))
        places.append(tuple(lift * sum(places[c - 1][axis] for c in (p, q, r)) for axis in range(3)))
    return faces, places


def bound_to_cross(rng):
    faces = rng.choice([PLANE, [tuple(c + 1 for c in face) for face in SEVEN]])
    used = max(max(face) for face in faces)
    return faces, [tuple(rng.uniform(-1, 1) for _ in range(3)) for _ in range(used)]


def stack(rng):
    """Two-face bodies that share corners but no edge: the remainders of k name the corners."""
    size, first, second, third = rng.choice([(4, 4, 3, 5), (9, 5, 4, 3), (12, 4, 3, 5), (32, 12, 11, 9), (48, 17, 16, 15)])
    corners = [(1 + k % first, 1 + first + k % second, 1 + first + second + k % third)
               for k in range(size)]
    names = {old: new for new, old in enumerate(sorted({c for face in corners for c in face}), 1)}
    faces = [tuple(names[c] for c in face) for face in corners for _ in range(2)]
    return faces, [direction(rng.random(), rng.uniform(-1, 1)) for _ in names]


def parts(rng):
    """Two or three bodies beside each other, or one within the other."""
    faces, places = [], []
    for part in range(rng.choice((2, 2, 3))):
        more, around = rng.choice((two_face, tetrahedron, tetrahedron, box, globe))(rng)
        faces += [tuple(len(places) + c for c in face) for face in more]
        size, away = rng.choice(((1, 0), (0.4, 0), (0.4, 1.5), (1, 2.5)))
        places += [(size * x + away * part, size * y, size * z) for x, y, z in around]
    return faces, places


def on_one_edge(rng):
    """Two to five tetrahedra on one stored edge, each turned round it: that edge is in 4 to 10 faces."""
    faces, places = [], [(0, 0, -1), (0, 0, 1)]
    parts = rng.choice((2, 2, 2, 3, 5))
    for part in range(parts):
        p, q = len(places) + 1, len(places) + 2
        faces += [(1, 2, p), (1, 2, q), (1, p, q), (2, p, q)]
        places += [direction((part + turn) / parts, rng.uniform(-0.5, 0.5)) for turn in (0, 0.4)]
    return faces, places


def stored_again(rng):
    """Some faces stored four times, or the whole table twice: every edge still in an even number of faces."""
    faces, places = rng.choice((two_face, tetrahedron, box))(rng)
    return (faces * 2 if rng.random() < 0.5 else faces + 2 * [rng.choice(faces)]), places


FAMILIES = (two_face, tetrahedron, tetrahedron, box, globe, globe, torus, grown, bound_to_cross,
            stack, parts, on_one_edge, stored_again)


def table(rng, least, most):
    """A random table of so many vertices, its vertices, faces and corners shuffled."""
    while True:
        faces, places = rng.choice(FAMILIES)(rng)
        if least <= len(places) <= most and len(faces) in FACE_COUNTS:
            break
    order = rng.sample(range(len(places)), len(places))
    faces = [tuple(order[c - 1] + 1 for c in rng.sample(face, 3)) for face in faces]
    rng.shuffle(faces)
    moved = [None] * len(places)
    for old, new in enumerate(order):
        moved[new] = places[old]
    return faces, moved
