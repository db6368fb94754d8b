"""Polygons in space, cut into triangles."""

from itertools import combinations


def minus(p, q):
    return tuple(a - b for a, b in zip(p, q))


def cross(p, q):
    return p[1] * q[2] - p[2] * q[1], p[2] * q[0] - p[0] * q[2], p[0] * q[1] - p[1] * q[0]


def turn(p, q, r):
    """Greater than 0 where the way from p over q to r turns to the left."""
    return (q[0] - p[0]) * (r[1] - p[1]) - (q[1] - p[1]) * (r[0] - p[0])


def dot(p, q):
    return sum(a * b for a, b in zip(p, q))


def seen(points):
    """The corners as seen along the polygon's normal, whether it is flat or not, from the side from which they go round to the left:
    moved along the normal into one plane, all times the same number, without the coordinate in which the normal is longest."""
    normal = [sum(parts) for parts in zip(*(cross(p, q) for p, q in zip(points, points[1:] + points[:1])))]
    square = dot(normal, normal)
    moved = [tuple(square * a - dot(p, normal) * n for a, n in zip(p, normal)) for p in points]
    axis = max(range(3), key=lambda k: abs(normal[k]))
    first, second = (axis + 1) % 3, (axis + 2) % 3
    return [(p[first], p[second] if normal[axis] > 0 else -p[second]) for p in moved]


def on_one_line(points):
    along = minus(points[1], points[0])
    return not any(any(cross(along, minus(p, points[0]))) for p in points)


def between(p, q, r):
    """Whether r, on the line through p and q, lies from p to q."""
    return all(min(a, b) <= c <= max(a, b) for a, b, c in zip(p, q, r))


def meet(side, other):
    """Whether two sides have a point in common."""
    (p, q), (r, s) = side, other
    turns = turn(p, q, r), turn(p, q, s), turn(r, s, p), turn(r, s, q)
    if turns[0] * turns[1] < 0 and turns[2] * turns[3] < 0:
        return True
    ends = (p, q, r), (p, q, s), (r, s, p), (r, s, q)
    return any(way == 0 and between(*end) for way, end in zip(turns, ends))


def meets_itself(flat):
    """Whether two sides meet that are no neighbours."""
    sides = list(zip(flat, flat[1:] + flat[:1]))
    return any(1 < j - i < len(sides) - 1 and meet(sides[i], sides[j]) for i, j in combinations(range(len(sides)), 2))


def is_convex(flat):
    return all(turn(flat[k - 2], flat[k - 1], flat[k]) >= 0 for k in range(len(flat)))


def is_ear(flat, left, k):
    """Whether the k-th of the corners that are left can be cut off with its two neighbours: no other corner is in the triangle."""
    ear = [left[k - 1], left[k], left[(k + 1) % len(left)]]
    p, q, r = (flat[corner] for corner in ear)
    if turn(p, q, r) <= 0:
        return False
    others = (flat[corner] for corner in left if corner not in ear)
    return not any(turn(p, q, o) >= 0 and turn(q, r, o) >= 0 and turn(r, p, o) >= 0 for o in others)


def ears(flat):
    """The corners of the triangles, n - 2 for n corners.  A polygon that does not meet itself always has an ear.  The corner behind
    the first is tried first, so that a convex polygon whose corners are no straight ones is cut by a fan from the first."""
    left, triangles = list(range(len(flat))), []
    while len(left) > 3:
        k = next(k % len(left) for k in range(1, len(left) + 1) if is_ear(flat, left, k % len(left)))
        triangles.append((left[k - 1], left[k], left[(k + 1) % len(left)]))
        del left[k]
    return triangles + [tuple(left)]


def fan(count):
    return [(0, k, k + 1) for k in range(1, count - 1)]
