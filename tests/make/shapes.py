"""Solids and polygons at random, and how large they are."""

from fractions import Fraction
from itertools import product

BOX = [(0, 1, 3, 2), (4, 6, 7, 5), (0, 4, 5, 1), (2, 3, 7, 6), (0, 2, 6, 4), (1, 5, 7, 3)]


def area(flat):
    """Twice the area of a polygon that goes round to the left."""
    return sum(p[0] * q[1] - p[1] * q[0] for p, q in zip(flat, flat[1:] + flat[:1]))


def polygon(rng):
    """One that does not meet itself: a star about the origin, a comb, or a staircase with straight corners."""
    kind = rng.randrange(3)
    if kind == 0:
        directions = [(8, 1), (7, 5), (3, 8), (-2, 9), (-8, 4), (-9, -3), (-4, -8), (2, -7), (9, -5)]
        chosen = sorted(rng.sample(range(9), rng.randint(5, 9)))
        spread = chosen if all((b - a) % 9 <= 3 for a, b in zip(chosen, chosen[1:] + chosen[:1])) else range(9)
        return [tuple(n * size for n in directions[k]) for k in spread for size in [rng.randint(1, 9)]]
    teeth = rng.randint(1, 5)
    if kind == 1:
        top = [(x, rng.randint(1, 3) if x % 2 else rng.randint(4, 9)) for x in range(2 * teeth, -1, -1)]
        return [(0, 0), (2 * teeth, 0)] + top
    stairs = [point for k in range(teeth) for point in ((teeth - k, k + 1), (teeth - k - 1, k + 1))]
    return [(k, 0) for k in range(teeth + 1)] + stairs[:-1] + [(0, teeth - k) for k in range(teeth)]


def in_space(rng, flat):
    """The polygon in some plane, and stretched there."""
    u, v = (1, rng.randint(-3, 3), rng.randint(-3, 3)), (0, rng.choice([-2, 1, 3]), rng.randint(-3, 3))
    return [tuple(5 + x * a + y * b for a, b in zip(u, v)) for x, y in flat]


def rotated(rng, things):
    k = rng.randrange(len(things))
    return things[k:] + things[:k]


def solid(rng):
    """The whole coordinates of a box or of a prism, its faces seen from without, and six times its volume.  The last coordinate of
    some vertex is no multiple of ten, so that a drawing's scale can be told."""
    if rng.random() < 0.3:
        a, b, c = (rng.randint(1, 99) * 10 + 1 for _ in range(3))
        return [(a * x, b * y, c * z) for x, y, z in product((0, 1), repeat=3)], [tuple(face) for face in BOX], 6 * a * b * c
    base, height = rotated(rng, polygon(rng)), rng.randint(1, 40) * 10 + 3
    n = len(base)
    rows = [(x, y, 0) for x, y in base] + [(x, y, height) for x, y in base]
    sides = [(k, (k + 1) % n, n + (k + 1) % n, n + k) for k in range(n)]
    return rows, [tuple(range(n - 1, -1, -1)), tuple(range(n, 2 * n))] + sides, 3 * area(base) * height


def volume(rows, triangles):
    """Six times what triangles enclose; their corners are counted from 1."""
    total = Fraction(0)
    for p, q, r in ([rows[corner - 1] for corner in triangle] for triangle in triangles):
        total += p[0] * (q[1] * r[2] - q[2] * r[1]) - p[1] * (q[0] * r[2] - q[2] * r[0]) + p[2] * (q[0] * r[1] - q[1] * r[0])
    return total


def border(triangles):
    """The directed sides that have no opposite one."""
    sides = [(triangle[k - 1], triangle[k]) for triangle in triangles for k in range(3)]
    return {(i, j) for i, j in sides if (j, i) not in sides}
