"""A drawing of the OFF family made into a text that the kernel's program reads: whole numbers, triangles, nothing else.

Nothing is guessed in silence: each change is a note.
"""

from collections import Counter
from fractions import Fraction
from itertools import combinations, count, islice
from math import lcm

from making import polygons
from making.files import Wrong, at, shown
from making.form import COORDINATES, FACE_COUNTS, VERTEX_COUNTS, WEIGHTS
from making.off import LONGEST_NUMBER, NUMBER, Drawing


def decimal(number):
    """A number greater than 0 with some six digits behind the point, rounded up, since it is the most that something can be."""
    digits = max(6, (number.denominator // number.numerator).bit_length() * 3 // 10 + 4)
    rounded = -(-number * 10 ** digits // 1)
    return f"{rounded // 10 ** digits}.{rounded % 10 ** digits:0{digits}}".rstrip("0").rstrip(".")


# ---- vertices and faces ---------------------------------------------------------------------


def one_vertex_a_place(rows, faces, notes):
    """Each row once, where it first stands, and the faces with the numbers of these."""
    new = {}
    same = [new.setdefault(row, len(new)) for row in rows]
    if len(new) < len(rows):
        notes.append(f"vertices made one with another that has the same numbers: {len(rows) - len(new)}")
    return list(new), [(line, [same[corner] for corner in corners]) for line, corners in faces]


def without_repeats(corners):
    """The corners without those that follow an equal one."""
    return [corner for k, corner in enumerate(corners) if corner != corners[k - 1]]


def proper_faces(faces, notes):
    """The faces of three or more corners, none of which follows an equal one."""
    parted = [(line, without_repeats(corners)) for line, corners in faces]
    kept = [(line, corners) for line, corners in parted if len(corners) >= 3]
    if len(kept) < len(faces):
        notes.append(f"faces left out, which have fewer than three different corners: {len(faces) - len(kept)}")
    repeats = sum(len(now) < len(corners) for (_, corners), (_, now) in zip(faces, parted) if len(now) >= 3)
    if repeats:
        notes.append(f"faces in which a corner follows an equal one, and is left out: {repeats}")
    return kept


def triangles_of(points):
    """How a polygon of these corners is cut, and whether it is convex.  On one line, it has no area however it is cut."""
    common = lcm(*(n.denominator for point in points for n in point))
    points = [tuple(int(n * common) for n in point) for point in points]
    if polygons.on_one_line(points):
        return polygons.fan(len(points)), True
    flat = polygons.seen(points)
    if polygons.meets_itself(flat):
        raise Wrong("the border of this face meets itself, so that no triangles are surely meant; draw it in parts")
    return polygons.ears(flat), polygons.is_convex(flat)


class Cutting:
    """The faces as triangles, and what was done to get them."""

    def __init__(self, path, rows):
        self.path, self.rows = path, rows
        self.triangles, self.polygons, self.not_convex, self.through_infinity = [], [], 0, 0

    def face(self, line, corners):
        if len(corners) == 3:
            self.triangles.append(tuple(corners))
            return
        self.polygons.append(corners)
        self.triangles += [tuple(corners[k] for k in triangle) for triangle in self.cut(line, [self.rows[corner] for corner in corners])]

    def cut(self, line, rows):
        if not (all(row[3] > 0 for row in rows) or all(row[3] < 0 for row in rows)):
            self.through_infinity += 1
            return polygons.fan(len(rows))
        with at(self.path, line):
            triangles, convex = triangles_of([tuple(n / row[3] for n in row[:3]) for row in rows])
        self.not_convex += not convex
        return triangles

    def note(self, notes):
        if self.polygons:
            many, made = len(self.polygons), sum(len(corners) - 2 for corners in self.polygons)
            notes.append(f"faces of more than three corners: {many}, cut into {made} triangles; not convex: {self.not_convex}")
        if self.through_infinity:
            many = self.through_infinity
            notes.append(f"faces of weights of both signs or 0: {many}, cut from the first corner, where another cut may be meant")


def cut_into_triangles(path, rows, faces, notes):
    """The triangles, and the polygons that they were."""
    cutting = Cutting(path, rows)
    for line, corners in faces:
        cutting.face(line, corners)
    cutting.note(notes)
    triangles = [triangle for triangle in cutting.triangles if len(set(triangle)) == 3]
    if len(triangles) < len(cutting.triangles):
        notes.append(f"triangles left out, which have two equal corners: {len(cutting.triangles) - len(triangles)}")
    return triangles, cutting.polygons


def in_use(rows, triangles, cut, notes):
    """The rows of the vertices in use, and the triangles and polygons with their new numbers."""
    new = {old: k for k, old in enumerate(sorted({corner for triangle in triangles for corner in triangle}))}
    if len(new) < len(rows):
        notes.append(f"vertices left out, which are in no face: {len(rows) - len(new)}; the others are numbered anew")
    renumbered = [[tuple(new[corner] for corner in corners if corner in new) for corners in faces] for faces in (triangles, cut)]
    return [rows[old] for old in new], *renumbered


# ---- numbers --------------------------------------------------------------------------------


def is_weight(number):
    return number.denominator == 1 and int(number) in WEIGHTS


def with_whole_weights(rows, notes):
    """Rows whose weight a scene cannot have are divided by its size: the point stays, and the weight is 1 or -1."""
    divided = [row[3] != 0 and not is_weight(row[3]) for row in rows]
    if any(divided):
        notes.append(f"weights that are no whole number from {WEIGHTS[0]} to {WEIGHTS[-1]}: {sum(divided)}; "
                     "the vertex's four numbers are divided by the weight's size, which makes it 1 or -1")
    without = sum(row[3] == 0 for row in rows)
    if without:
        notes.append(f"vertices of weight 0: {without}; only the far point may have it: refusal 6")
    return [tuple(n / abs(row[3]) for n in row) if divide else row for row, divide in zip(rows, divided)]


def fits(number):
    return round(number) in COORDINATES


def fitting_scale(numbers):
    """The smallest power of ten, 1 or more, that makes all numbers whole, or else the greatest with which they have room."""
    greatest = max(map(abs, numbers), default=Fraction(0))
    power = next(-k for k in count() if fits(greatest / 10 ** k))
    while fits(greatest * Fraction(10) ** (power + 1)) and any((n * Fraction(10) ** power).denominator > 1 for n in numbers):
        power += 1
    return "1" + "0" * power if power >= 0 else "0." + "0" * (-power - 1) + "1"


def judge_scale(word):
    if not NUMBER.fullmatch(word) or len(word) > LONGEST_NUMBER or Fraction(word) <= 0:
        raise Wrong(f"the scale {shown(word)} is no number greater than 0, such as 100 or 0.5")


def rounded(rows, scale, notes):
    """The rows with whole coordinates."""
    numbers, factor = [n for row in rows for n in row[:3]], Fraction(scale)
    if factor != 1:
        notes.append(f"every coordinate is multiplied by {scale}; give {scale} as the scale of the scene's other solid too")
    errors = [abs(n * factor - round(n * factor)) for n in numbers]
    if any(errors):
        most = max(errors)
        notes.append(f"coordinates rounded: {sum(map(bool, errors))} of {len(numbers)}, by at most {decimal(most)}, "
                     f"which is {decimal(most / factor)} in the drawing")
    beyond = sum(not fits(n * factor) for n in numbers)
    if beyond:
        notes.append(f"coordinates not from {COORDINATES[0]} to {COORDINATES[-1]}: {beyond}: refusal 5; a smaller scale helps")
    return [tuple(round(n * factor) for n in row[:3]) + (int(row[3]),) for row in rows]


# ---- what the solid is like -----------------------------------------------------------------


def plane(rows):
    """The four numbers of the plane through three points, all 0 where they are on one line."""
    parts = ([row[:k] + row[k + 1:] for row in rows] for k in range(4))
    return [(-1) ** k * polygons.dot(p, polygons.cross(q, r)) for k, (p, q, r) in enumerate(parts)]


def is_flat(rows):
    """Whether all corners lie in the plane of the first three that have one."""
    planes = (found for three in combinations(rows, 3) if any(found := plane(three)))
    return not any(polygons.dot(found, row) for found in islice(planes, 1) for row in rows)


def places(rows):
    """How many different places the vertices stand at."""
    return len({tuple(Fraction(n) / row[3] for n in row[:3]) if row[3] else row for row in rows})


def note_rounding(before, rows, triangles, cut, notes):
    """What rounding has done to the shape."""
    together = places(before) - places(rows)
    if together:
        notes.append(f"vertices that rounding has put where another one stands: {together}; a greater scale may keep them apart")
    without = sum(not any(plane([rows[corner] for corner in triangle])) for triangle in triangles)
    if without:
        notes.append(f"triangles of no area: {without}, kept, since the solid would be open without them")
    bent = sum(not is_flat([rows[corner] for corner in corners]) for corners in cut)
    if bent:
        notes.append(f"faces of more than three corners that are not flat, once rounded: {bent}; where they are cut decides their shape")


def note_limits(rows, triangles, notes):
    for what, many, counts in (("vertices", len(rows), VERTEX_COUNTS), ("triangles", len(triangles), FACE_COUNTS)):
        if many not in counts:
            notes.append(f"{what}: {many}, and a solid of a scene has {counts[0]} to {counts[-1]}: refusal 2")


def edges_of(triangles):
    """Each edge, and in how many triangles it is."""
    return Counter(edge for triangle in triangles for edge in combinations(sorted(triangle), 2))


def note_closed(edges, notes):
    odd = sorted(edge for edge, many in edges.items() if many % 2)
    if odd:
        notes.append(f"the solid is open, edges in an odd number of triangles: {len(odd)}, the first from vertex {odd[0][0]} to vertex "
                     f"{odd[0][1]} (from 0): refusal 9")
    else:
        notes.append("the solid is closed: each edge is in an even number of triangles")


# ---- the text -------------------------------------------------------------------------------


def text_of(rows, triangles, edges, scale):
    """A solid as a text: OFF, or 4OFF where a weight is not 1."""
    numbers = 3 if all(row[3] == 1 for row in rows) else 4
    lines = ["OFF" if numbers == 3 else "4OFF"]
    if Fraction(scale) != 1:
        lines.append(f"# every coordinate is {scale} times that of the drawing")
    lines.append(f"{len(rows)} {len(triangles)} {len(edges)}")
    lines += [" ".join(map(str, row[:numbers])) for row in rows]
    lines += ["3 " + " ".join(map(str, triangle)) for triangle in triangles]
    return "".join(line + "\n" for line in lines).encode()


def off_text(path, scale=None):
    """The text of a drawing, and the notes on what was changed."""
    if scale is not None:
        judge_scale(scale)
    drawing = Drawing(path)
    notes = drawing.notes
    rows, faces = one_vertex_a_place(drawing.rows, drawing.faces, notes)
    triangles, cut = cut_into_triangles(path, rows, proper_faces(faces, notes), notes)
    rows, triangles, cut = in_use(rows, triangles, cut, notes)
    before = with_whole_weights(rows, notes)
    scale = scale or fitting_scale([n for row in before for n in row[:3]])
    rows = rounded(before, scale, notes)
    note_rounding(before, rows, triangles, cut, notes)
    note_limits(rows, triangles, notes)
    edges = edges_of(triangles)
    note_closed(edges, notes)
    return text_of(rows, triangles, edges, scale), notes
