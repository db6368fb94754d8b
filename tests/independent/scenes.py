"""Seeded random scenes: closed tables in plain, touching and degenerate positions, and damaged files.

    scenes.py SEED COUNT    tells how often each verdict, refusal and kind of place comes up
"""

import random
import sys
from collections import Counter

from damage import LONGEST_ENTRY, TABLE_DAMAGE, damage_bytes
from exact import read_scene, report
from judge import COORDINATES, LONGEST_SCENE, WEIGHTS, judge, record_marks, scene_bytes
from tables import table

# The least and the most vertices of a solid, and how often such a size is taken.
SIZES = {(3, 3): 2, (3, 4): 16, (3, 6): 28, (4, 8): 28, (6, 12): 18, (10, 32): 6, (33, 48): 2, (48, 48): 1}
NONZERO_WEIGHTS = [w for w in WEIGHTS if w]


# ---- positions ------------------------------------------------------------------------------


def placed(places, centre, radius):
    """The natural places as whole coordinates around a centre."""
    return [tuple(round(c + radius * value) for c, value in zip(centre, place)) for place in places]


def anywhere(rng, reach):
    return tuple(rng.randint(-reach, reach) for _ in range(3))


def plain(rng, a_places, b_places):
    """Two bodies of one size that overlap or stand apart."""
    reach = rng.choice((4, 10, 60, 250))
    centre = anywhere(rng, rng.choice((1, 1, 8)) * reach)
    return placed(a_places, (0, 0, 0), reach), placed(b_places, centre, reach)


def nested(rng, a_places, b_places):
    """A small body in or near the middle of a big one."""
    small = rng.choice((1, 4, 10, 60))
    big = rng.choice((8, 20)) * small
    centre = anywhere(rng, rng.choice((1, 2)) * small)
    if rng.random() < 0.5:
        return placed(a_places, (0, 0, 0), big), placed(b_places, centre, small)
    return placed(a_places, centre, small), placed(b_places, (0, 0, 0), big)


def permuted(rng, a_places, b_places):
    """Bodies that cross themselves: the natural places in another order."""
    a_rows, b_rows = plain(rng, a_places, b_places)
    return rng.sample(a_rows, len(a_rows)), rng.sample(b_rows, len(b_rows))


def scattered(rng, a_places, b_places):
    """Any coordinates, of a small or of the full reach."""
    reach = rng.choice((1, 1, 2, 3, 10, 100, COORDINATES[-1]))
    return [[anywhere(rng, reach) for _ in places] for places in (a_places, b_places)]


def touching(rng, a_places, b_places):
    """Bodies on a coarse grid, so that corners, edges and faces of the two coincide."""
    size = rng.choice((1, 2, 3))
    step = tuple(size * rng.choice((-2, -1, 0, 0, 1, 2)) for _ in range(3))
    b_radius = rng.choice((size, size, 2 * size, 3 * size))
    a_rows, b_rows = placed(a_places, (0, 0, 0), size), placed(b_places, step, b_radius)
    return (a_rows, b_rows) if rng.random() < 0.5 else (b_rows, a_rows)


def flat(rng, a_places, b_places):
    """All points in one plane, on one line, or in one place."""
    reach = rng.choice((1, 3, 40, 300))
    base, along, across = anywhere(rng, reach), anywhere(rng, 3), anywhere(rng, 3)
    rank = rng.choice((2, 2, 2, 1, 0))

    def point():
        s, t = rng.randint(-reach, reach) * (rank > 0), rng.randint(-reach, reach) * (rank > 1)
        return tuple(b + s * u + t * v for b, u, v in zip(base, along, across))
    return [[point() for _ in places] for places in (a_places, b_places)]


def borrowed(rng, a_places, b_places):
    """B takes some of its points from A."""
    a_rows, b_rows = rng.choice((plain, scattered))(rng, a_places, b_places)
    return a_rows, [rng.choice(a_rows) if rng.random() < 0.4 else row for row in b_rows]


POSITIONS = (plain, plain, nested, nested, nested, permuted, scattered, touching, touching, flat,
             borrowed)


# ---- weights and the far point --------------------------------------------------------------


def within(row):
    return all(value in COORDINATES for value in row[:3])


def weighted(rng, row, manner):
    """A row with its weight: 1, the same point with another weight, or any weight at all."""
    weight = 1 if manner == "ones" else rng.choice((1, 1, 2, 3, 7, 16))
    if manner == "both signs" and rng.random() < 0.3:
        weight = -weight
    if manner == "any":
        return row + (rng.choice(NONZERO_WEIGHTS),)
    scaled = tuple(weight * value for value in row)
    return scaled + (weight,) if within(scaled) else row + (1,)


def direction(rng):
    """A far point of weight 0: any direction, or one along an axis."""
    return rng.choice((anywhere(rng, COORDINATES[-1]), anywhere(rng, 3), (1, 0, 0), (0, -7, 0), (0, 0, 1))) + (0,)


def far_row(rng, rows):
    """A far point: far away in most scenes, among the vertices in some."""
    return rng.choice((
        (4001, 3977, 4093), (-4089, 3011, 2803), (3989, -4057, 409), (-3907, 4051, -3793),
        anywhere(rng, COORDINATES[-1]), anywhere(rng, 3), rng.choice(rows)))


def parts_of_scene(rng):
    """The five things that a scene is written from."""
    least, most = rng.choices(list(SIZES), list(SIZES.values()))[0]
    (a_faces, a_places), (b_faces, b_places) = table(rng, least, most), table(rng, least, most)
    while True:
        a_rows, b_rows = rng.choice(POSITIONS)(rng, a_places, b_places)
        if all(map(within, a_rows + b_rows)):
            break
    manner = rng.choice(("ones", "ones", "ones", "positive", "both signs", "any"))
    far = direction(rng) if rng.random() < 0.2 else weighted(rng, far_row(rng, a_rows + b_rows), manner)
    a_rows, b_rows = [[weighted(rng, row, manner) for row in rows] for rows in (a_rows, b_rows)]
    return [far, a_rows, a_faces, b_rows, b_faces]


# ---- the mixture ----------------------------------------------------------------------------


def random_scene(rng):
    """The bytes of one scene: two of three are whole, the others have one fault or several."""
    parts = parts_of_scene(rng)
    faults = 0 if rng.random() < 0.66 else rng.choice((1, 1, 2, 3))
    kinds = [rng.random() < 0.7 for _ in range(faults)]
    for _ in range(sum(kinds)):
        rng.choice(TABLE_DAMAGE)(rng, parts)
    data = scene_bytes(*parts)
    for _ in range(faults - sum(kinds)):
        data = damage_bytes(rng, data)
    return data[:LONGEST_ENTRY]


def kind_of_refusal(data):
    """The refusal, with what was wrong or the mark of the record and the solid of its place."""
    number, place = judge(data)
    if number == 1:
        return "refused 1 " + ("bytes" if len(data) < 6 else "mark")
    if number == 2:
        return "refused 2"
    a, fa, b, fb = data[2:6]
    if number == 3:
        short = len(data) < 17 + 9 * (a + b) + 5 * (fa + fb)
        return "refused 3 " + ("short" if short else "long" if len(data) <= LONGEST_SCENE else "longest")
    mark = "point" if number == 8 else record_marks(data)[place].decode()
    last_of_a = {"point": a, "VX": 1 + a, "FC": 1 + a + b + fa}
    solid = (" of A" if place <= last_of_a[mark] else " of B") if mark in last_of_a else ""
    return f"refused {number} {mark}{solid}"


def kind_of_scene(data):
    """The verdict of an accepted scene, or the kind of its refusal."""
    return kind_of_refusal(data) if judge(data) else report(read_scene(data))[1]


def main(seed, count):
    rng = random.Random(seed)
    tally = Counter(kind_of_scene(random_scene(rng)) for _ in range(count))
    for kind, times in sorted(tally.items()):
        print(f"{times:6} {kind}")


if __name__ == "__main__":
    main(int(sys.argv[1]), int(sys.argv[2]))
