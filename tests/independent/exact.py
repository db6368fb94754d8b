"""The independent exact program: the requirements once more, in unbounded whole numbers.

It shares nothing with the kernel.  The determinant is the sum of its 24 signed products, each a
polynomial in the infinitesimal e; piercing is formula (13) as it is written; nothing is shortened
by a theorem.  Where the kernel and this program differ, one of the two is wrong.

    exact.py report < scene              prints the scene's report
    exact.py ask QUESTION ... < scene    answers one question
    exact.py selftest                    runs the marked examples
"""

import sys
from functools import cached_property
from itertools import permutations

from judge import face_edges, judge, point_rows, records, stored_faces

USAGE = "usage: report | ask QUESTION [NUMBER ...] | selftest"


class Refused(Exception):
    """A refusal: its number and its place."""

    def __init__(self, number, place=0):
        super().__init__(number, place)
        self.line = f"refused {number} {place}"


def need(held, number):
    """A question's own refusal 11 or 12, whose place is 0."""
    if not held:
        raise Refused(number)


# ---- the sign of four points ----------------------------------------------------------------


def permutation_sign(order):
    """-1 for an odd number of pairs out of order."""
    out_of_order = sum(order[i] > order[j] for i in range(4) for j in range(i + 1, 4))
    return -1 if out_of_order % 2 else 1


SIGNED_ORDERS = [(permutation_sign(order), order) for order in permutations(range(4))]


def determinant(rows):
    """The determinant of four rows: row i gives the first column, j the second, and so on."""
    return sum(sign * rows[i][0] * rows[j][1] * rows[k][2] * rows[m][3]
               for sign, (i, j, k, m) in SIGNED_ORDERS)


def terms(numbers, rows):
    """c0 to c3: the signed products (x + e dx)(y + e dy)(z + e dz) w, multiplied out and summed."""
    factors = [w or 1 for _, _, _, w in rows]
    shifts = [(k * n, k * n ** 2, k * n ** 3) for n, k in zip(numbers, factors)]
    c0 = c1 = c2 = c3 = 0
    for sign, (i, j, k, m) in SIGNED_ORDERS:
        x, y, z, w = rows[i][0], rows[j][1], rows[k][2], sign * rows[m][3]
        dx, dy, dz = shifts[i][0], shifts[j][1], shifts[k][2]
        c0 += x * y * z * w
        c1 += (dx * y * z + x * dy * z + x * y * dz) * w
        c2 += (dx * dy * z + dx * y * dz + x * dy * dz) * w
        c3 += dx * dy * dz * w
    return c0, c1, c2, c3


def sign_of_terms(four):
    """The sign of the first term that is not zero."""
    return 1 if next(term for term in four if term != 0) > 0 else -1


def ones(mask):
    """The number of ones of a mask."""
    return bin(mask).count("1")


# ---- the scene and what it answers ----------------------------------------------------------


class Scene:
    """An accepted scene.  Points and faces are found by their numbers, from 1."""

    def __init__(self, data, counts, points, faces):
        self.data, self.counts = data, counts
        self.points = dict(enumerate(points, 1))
        self.faces = dict(enumerate(faces, 1))
        self.far_point = len(points)
        self.known_signs = {}

    def vertices(self, solid):
        """The point numbers of a solid's vertices."""
        a, _, b, _ = self.counts
        return range(1, a + 1) if solid == 1 else range(a + 1, a + b + 1)

    def solid_faces(self, solid):
        """The face numbers of a solid."""
        _, fa, _, fb = self.counts
        return range(1, fa + 1) if solid == 1 else range(fa + 1, fa + fb + 1)

    def edges(self, solid):
        """Each edge of a solid once, by lower and then by higher point."""
        return sorted({edge for f in self.solid_faces(solid) for edge in face_edges(self.faces[f])})

    def terms(self, *numbers):
        return terms(numbers, [self.points[n] for n in numbers])

    def sign(self, *numbers):
        """The sign of four points; the later terms are asked for only where c0 is zero."""
        if numbers not in self.known_signs:
            c0 = determinant([self.points[n] for n in numbers])
            self.known_signs[numbers] = sign_of_terms((c0,) if c0 else self.terms(*numbers))
        return self.known_signs[numbers]

    def pierces(self, u, v, face):
        """Formula (13), with the lowest helper."""
        p, q, r = self.faces[face]
        if self.sign(p, q, r, u) == self.sign(p, q, r, v):
            return False
        helper = min(n for n in self.points if n not in (u, v, p, q, r))
        crossed = 0
        for s, t in (p, q), (q, r), (r, p):
            h_s, h_t = self.sign(u, v, helper, s), self.sign(u, v, helper, t)
            if h_s != h_t and h_s != self.sign(u, v, s, t):
                crossed += 1
        return crossed % 2 == 1

    def mask(self, u, v, solid):
        """Bit k-1 tells whether the solid's k-th face is pierced."""
        return sum(1 << bit for bit, face in enumerate(self.solid_faces(solid))
                   if self.pierces(u, v, face))

    def enclosed(self, vertex):
        """Whether the other solid encloses this vertex."""
        other = 2 if vertex in self.vertices(1) else 1
        return ones(self.mask(vertex, self.far_point, other)) % 2 == 1

    @cached_property
    def listing(self):
        """Every pierced pair (lower point, higher point, face), in the order of the listing."""
        return [(u, v, face) for solid, other in ((1, 2), (2, 1)) for u, v in self.edges(solid)
                for face in self.solid_faces(other) if self.pierces(u, v, face)]

    @cached_property
    def inside(self):
        """The enclosed vertices of A, and of B."""
        return [[v for v in self.vertices(solid) if self.enclosed(v)] for solid in (1, 2)]

    def verdict(self):
        """The word and its numbers: a pierced pair, an enclosed point, or none."""
        a_in_b, b_in_a = self.inside
        if self.listing:
            return "cross", self.listing[0]
        if a_in_b:
            return "a-in-b", (a_in_b[0],)
        if b_in_a:
            return "b-in-a", (b_in_a[0],)
        return "apart", ()


def read_scene(data):
    """The accepted scene in these bytes, or its refusal."""
    fault = judge(data)
    if fault:
        return Refused(*fault)
    a_faces, b_faces = stored_faces(data)
    vertices_of_a = data[2]
    b_faces = [tuple(vertices_of_a + corner for corner in face) for face in b_faces]
    return Scene(data, tuple(data[2:6]), point_rows(data), a_faces + b_faces)


# ---- the questions --------------------------------------------------------------------------


def answer_judge(scene):
    return ["accepted"]


def answer_sign(scene, *numbers):
    need(all(n in scene.points for n in numbers), 11)
    need(len(set(numbers)) == 4, 12)
    four = scene.terms(*numbers)
    return ["sign {} {} {} {} {}".format("+" if sign_of_terms(four) > 0 else "-", *four)]


def answer_pierces(scene, u, v, face):
    need(u in scene.points and v in scene.points and face in scene.faces, 11)
    need(u != v and not {u, v} & set(scene.faces[face]), 12)
    return ["pierces " + yes_or_no(scene.pierces(u, v, face))]


def answer_mask(scene, u, v, solid):
    need(u in scene.points and v in scene.points and solid in (1, 2), 11)
    need(u != v and not {u, v} & set(scene.vertices(solid)), 12)
    mask = scene.mask(u, v, solid)
    return [f"mask {mask % 2 ** 64} {mask >> 64} {ones(mask)}"]


def answer_enclosed(scene, vertex):
    need(vertex in scene.points and vertex != scene.far_point, 11)
    return ["enclosed " + yes_or_no(scene.enclosed(vertex))]


def answer_verdict(scene):
    word, numbers = scene.verdict()
    return [" ".join(["verdict", word, *map(str, numbers)])]


def answer_record(scene, k):
    shown = records(scene.data)
    need(k < len(shown), 11)
    return [" ".join(["record", *map(str, shown[k])])]


def answer_counts(scene):
    return ["counts {} {} {}".format(len(scene.listing), *map(len, scene.inside))]


def answer_listing(scene, places=None):
    count = len(scene.listing)
    if places is not None and places < 3 * count:
        raise Refused(10, count)
    return [f"pairs {count}"] + ["{} {} {}".format(*pair) for pair in scene.listing]


# Each question: how it is answered, and how many numbers may follow it.
QUESTIONS = {
    "judge": (answer_judge, (0,)), "sign": (answer_sign, (4,)), "pierces": (answer_pierces, (3,)),
    "mask": (answer_mask, (3,)), "enclosed": (answer_enclosed, (1,)),
    "verdict": (answer_verdict, (0,)), "record": (answer_record, (1,)),
    "counts": (answer_counts, (0,)), "listing": (answer_listing, (0, 1)),
}


def yes_or_no(held):
    return "yes" if held else "no"


def whole_number(word):
    """The number that decimal digits write.  Beyond 20 digits only that it is huge matters."""
    return int(word.lstrip("0")[:20] or "0")


def ask(scene, words):
    """The lines that answer one question about an accepted scene, or about a refused one."""
    answer, lengths = QUESTIONS.get(words[0] if words else "", (None, ()))
    if len(words) - 1 not in lengths or not all(w.isascii() and w.isdigit() for w in words[1:]):
        return [USAGE]
    try:
        if isinstance(scene, Refused):
            raise scene
        lines = answer(scene, *map(whole_number, words[1:]))
    except Refused as refusal:
        lines = [refusal.line]
    # A lent list is never touched here: the places behind the answer are kept by definition.
    return lines + ["kept"] if words[0] == "listing" and len(words) == 2 else lines


def report(scene):
    """The lines of the report."""
    if isinstance(scene, Refused):
        return [scene.line]
    return ["scene {} {} {} {}".format(*scene.counts), "verdict " + scene.verdict()[0],
            "inside {} {}".format(*map(len, scene.inside)), *answer_listing(scene)]


def main(words):
    if words == ["selftest"]:
        from selftest import run  # here, because it imports this program in turn
        return run()
    if words == ["report"]:
        lines = report(read_scene(sys.stdin.buffer.read()))
    elif words[:1] == ["ask"]:
        lines = ask(read_scene(sys.stdin.buffer.read()), words[1:])
    else:
        lines = [USAGE]
    print("\n".join(lines))
    return 0


if __name__ == "__main__":
    sys.exit(main(sys.argv[1:]))
