"""Clean scenes and mapped scenes, once more in unbounded whole numbers.

    maps.py clean < scene                     clean yes, clean no, or the refusal
    maps.py map 16 NUMBERS [ROOM] < scene     image LENGTH and the image's bytes in hexadecimal, or the refusal
    maps.py selftest SEED COUNT               the theorem of the lecture on clean and on random scenes
    maps.py compare MAP CLEAN REPORT SEED COUNT
                                              clean scenes, tables and refusals: what the three programs print against this one
"""

import random
import sys
from itertools import combinations, product

import harness
from exact import Refused, determinant, read_scene
from judge import COORDINATES, POINT_FORM, WEIGHTS, judge, point_rows, records, scene_bytes, stored_faces
from scenes import anywhere, direction, random_scene, weighted

ENTRIES = range(-100, 100 + 1)


def is_clean(scene):
    """No four different points have c0 = 0."""
    return all(determinant([scene.points[n] for n in four]) for four in combinations(scene.points, 4))


def said_clean(data):
    """The line about a scene."""
    scene = read_scene(data)
    return scene.line if isinstance(scene, Refused) else "clean " + ("yes" if is_clean(scene) else "no")


def times(row, table):
    """The row multiplied by the table from the right: entry j is the sum over k of row[k] table[k][j]."""
    return tuple(sum(row[k] * table[k][j] for k in range(4)) for j in range(4))


def rows_in_file(data):
    """The far point's row, then the vertices'."""
    *vertices, far = point_rows(data)
    return [far] + vertices


def image(data, table, room=None):
    """The image's bytes, or the refusal: the scene's own, 17, 18, the image's 5 or 6 by record, 13."""
    fault = judge(data)
    if fault:
        return Refused(*fault)
    if any(entry not in ENTRIES for row in table for entry in row):
        return Refused(17)
    if determinant(table) == 0:
        return Refused(18)
    rows = [times(row, table) for row in rows_in_file(data)]
    for record, (x, y, z, weight) in enumerate(rows, 1):
        if any(value not in COORDINATES for value in (x, y, z)):
            return Refused(5, record)
        if weight not in WEIGHTS or weight == 0 and record > 1:
            return Refused(6, record)
    if room is not None and room < len(data):
        return Refused(13, len(data))
    parts = records(data)
    for record, row in enumerate(rows, 1):
        parts[record] = POINT_FORM.pack(parts[record][:2], *row)
    return b"".join(parts)


# ---- clean scenes, and tables that map them ---------------------------------------------------

# The faces of a tetrahedron and of an octahedron, and where their vertices are.
BODIES = [
    (list(combinations((1, 2, 3, 4), 3)), [(1, 1, 1), (1, -1, -1), (-1, 1, -1), (-1, -1, 1)]),
    (list(product((1, 2), (3, 4), (5, 6))), [(1, 0, 0), (-1, 0, 0), (0, 1, 0), (0, -1, 0), (0, 0, 1), (0, 0, -1)]),
]


def clean_scene(rng):
    """Two bodies a little out of shape, through, within or beside each other; a scene that is not clean is thrown away."""
    while True:
        reach, manner = rng.choice((8, 40, 300)), rng.choice(("ones", "positive", "both signs"))
        sizes, shift = rng.choice((((1, 1), 0), ((1, 1), 1), ((1, 0.2), 0), ((0.2, 1), 0), ((1, 1), 3)))
        solids = []
        for (faces, places), size, centre in zip(rng.choices(BODIES, k=2), sizes, (0, shift * reach)):
            rows = [tuple(round(size * (reach * value + jitter)) + centre for value, jitter in zip(place, anywhere(rng, reach // 2)))
                    for place in places]
            solids += [[weighted(rng, row, manner) for row in rows], faces]
        far = direction(rng) if rng.random() < 0.3 else anywhere(rng, 5 * reach) + (1,)
        data = scene_bytes(far, *solids)
        scene = read_scene(data)
        if not isinstance(scene, Refused) and is_clean(scene):
            return data


def random_table(rng):
    """Small entries; three of four keep the weights or turn them, so that more images are accepted."""
    reach = rng.choice((1, 1, 2, 100))
    table = [[rng.randint(-reach, reach) for _ in range(4)] for _ in range(4)]
    if rng.random() < 0.75:
        for row, entry in zip(table, (0, 0, 0, rng.choice((1, -1)))):
            row[3] = entry
    return table


def table_with_image(rng, data, turns):
    """A table by which the scene has an image, of negative determinant where it turns, and the image."""
    while True:
        table = random_table(rng)
        new = image(data, table)
        if not isinstance(new, Refused) and (determinant(table) < 0) == turns:
            return table, new


# ---- the theorem ------------------------------------------------------------------------------


def answers(scene):
    """What must not change: the masks that enclosure and listing ask for, the listing, and the verdict."""
    masks = [scene.mask(u, v, other) for solid, other in ((1, 2), (2, 1))
             for u, v in scene.edges(solid) + [(u, scene.far_point) for u in scene.vertices(solid)]]
    return masks, scene.listing, scene.verdict()


def multiplied(rng, data):
    """The scene with some rows of nonzero weight times positive whole numbers, where that stays within the limits."""
    parts = records(data)
    for record, row in enumerate(rows_in_file(data), 1):
        factor = rng.choice((1, 2, 3, 5))
        scaled = tuple(factor * value for value in row)
        if row[3] and all(value in COORDINATES for value in scaled[:3]) and scaled[3] in WEIGHTS:
            parts[record] = POINT_FORM.pack(parts[record][:2], *scaled)
    return b"".join(parts)


def exchanged(data):
    """The scene with A and B exchanged."""
    *vertices, far = point_rows(data)
    a_faces, b_faces = stored_faces(data)
    return scene_bytes(far, vertices[data[2]:], b_faces, vertices[:data[2]], a_faces)


def carried(scene):
    """The listing of a scene, its edges of B first, in the numbers that its points and faces have once A and B are exchanged."""
    a, fa, b, fb = scene.counts

    def number(n, of_a, of_b):
        return n + of_b if n <= of_a else n - of_a

    pairs = [pair for solid in (2, 1) for pair in scene.listing if pair[0] in scene.vertices(solid)]
    return [(number(u, a, b), number(v, a, b), number(face, fa, fb)) for u, v, face in pairs]


def renumbered(rng, data):
    """The scene with the vertices of each solid in another order, and the new number of each point."""
    *vertices, far = point_rows(data)
    new, solids = {}, []
    for rows, faces in zip((vertices[:data[2]], vertices[data[2]:]), stored_faces(data)):
        order = rng.sample(range(1, len(rows) + 1), len(rows))
        solids += [[rows[old - 1] for old in order], [tuple(order.index(corner) + 1 for corner in face) for face in faces]]
        new.update({len(new) + old: len(new) + order.index(old) + 1 for old in order})
    return scene_bytes(far, *solids), new


def same_pairs(scene, other, new):
    """Whether the other scene has the same pairs, in its own numbers, as many enclosed vertices, and the same word as its verdict."""
    pairs = sorted((*sorted((new[u], new[v])), face) for u, v, face in scene.listing)
    return (sorted(other.listing) == pairs and [len(solid) for solid in other.inside] == [len(solid) for solid in scene.inside]
            and other.verdict()[0] == scene.verdict()[0])


def selftest(words):
    """Clean scenes keep their answers under a map, with A and B exchanged and with other numbers, all scenes under multiplied rows; 14
    never comes up."""
    seed, count = map(int, words)
    rng = random.Random(seed)
    for n in range(count // 5):
        data = clean_scene(rng)
        scene = read_scene(data)
        table, new = table_with_image(rng, data, n % 2 == 1)
        turned, other = read_scene(new), read_scene(exchanged(data))
        assert is_clean(turned) and answers(turned) == answers(scene), (data.hex(), table)
        assert other.listing == carried(scene) and list(map(len, other.inside)) == list(map(len, scene.inside))[::-1], data.hex()
        shuffled, numbers = renumbered(rng, data)
        assert same_pairs(scene, read_scene(shuffled), numbers), data.hex()
    scaled = 0
    for _ in range(count):
        data = random_scene(rng)
        scene = read_scene(data)
        if isinstance(scene, Refused) or len(scene.points) > 20:
            continue
        assert answers(read_scene(multiplied(rng, data))) == answers(scene), data.hex()
        scaled += 1
        new = image(data, random_table(rng))
        assert new.line.split()[1] in ("5", "6", "18") if isinstance(new, Refused) else judge(new) is None, data.hex()
    print(f"{count // 5} clean scenes mapped, exchanged and renumbered and {scaled} scenes multiplied keep their answers")
    return 0


# ---- the programs -----------------------------------------------------------------------------


def run(program, words, data):
    """What a program writes on standard output, on standard error but for words about a refusal, and how many lines these are."""
    ran = harness.run(program, words, data)
    lines = ran.err.decode("latin-1").splitlines(keepends=True)
    others = [line for line in lines if not line.startswith("why: ")]
    return ran.out, "".join(others), len(lines) - len(others)


def faulty_tables(rng):
    """Tables of each refusal, some with a later one beside it: 17, 18, then most often 5 and 6."""
    def diagonal(*entries):
        return [[entry if j == k else 0 for j in range(4)] for k, entry in enumerate(entries)]

    most = rng.choice((-1, 1)) * 100
    return [diagonal(1, 1, 0, 101), diagonal(-101, 1, 1, 1), diagonal(1, 1, 0, 1), diagonal(100, 100, 100, 0),
            diagonal(most, most, most, 1), diagonal(1, 1, 1, most), [[0, 0, 0, 1], [0, 1, 0, 0], [0, 0, 1, 0], [1, 0, 0, 0]]]


def said_map(table):
    """The words of a map, as the program takes them."""
    return " ".join(["map", *map(str, sum(table, []))])


def compare_image(comparison, given, data, turns):
    """A clean scene's image: its bytes, that it is clean, and that its report is the scene's own."""
    table, new = table_with_image(comparison.rng, data, turns)
    words = sum(table, [])
    asked = said_map(table)
    inputs = {"scene": data, "image.scene": new}
    comparison.same(asked, inputs, (new, "", 0), run(given.map, words, data))
    comparison.same(f"clean, {asked}", inputs, [(b"clean yes\n", "", 0)] * 2, [run(given.clean, [], scene) for scene in (data, new)])
    comparison.same(f"report, {asked}", inputs, *(run(given.report, [], scene) for scene in (data, new)))


def compare(words):
    """Images with the scene's own report, refusals, and whether a scene is clean."""
    given = harness.words_of(words, ("map", "clean", "report"))
    comparison = harness.Comparison(given.seed)
    rng = comparison.rng
    for n in comparison.cases(given.count):
        data = clean_scene(rng)
        compare_image(comparison, given, data, n % 2 == 1)
        other = random_scene(rng)
        if len(other) < 400:
            line = said_clean(other)
            expected = line.encode() + b"\n", "", int(line.startswith("refused"))
            comparison.same("clean", {"scene": other}, expected, run(given.clean, [], other))
        table = rng.choice(faulty_tables(rng))
        for scene in (data, other):
            new = image(scene, table)
            expected = (b"", new.line + "\n", 1) if isinstance(new, Refused) else (new, "", 0)
            comparison.same(said_map(table), {"scene": scene}, expected, run(given.map, sum(table, []), scene))
    print(f"{given.count} clean scenes and their images with one report, and as many refusals")
    return 0


def print_clean(words):
    print(said_clean(sys.stdin.buffer.read()))
    return 0


def print_image(words):
    numbers = list(map(int, words))
    new = image(sys.stdin.buffer.read(), [numbers[k:k + 4] for k in range(0, 16, 4)], *numbers[16:])
    print(new.line if isinstance(new, Refused) else f"image {len(new)} {new.hex()}")
    return 0


if __name__ == "__main__":
    COMMANDS = {"clean": print_clean, "map": print_image, "selftest": selftest, "compare": compare}
    sys.exit(harness.main(sys.argv[1:], COMMANDS, __doc__))
