"""The judge that accepts or refuses a scene (refusals 1 to 9, and 14), and the parts of a scene that it accepts."""

import sys
from pathlib import Path

sys.path.append(str(Path(__file__).resolve().parents[2] / "examples"))

from making.form import (COORDINATES, FACE_COUNTS, FACE_FORM, HEADER_BYTES, LONGEST_SCENE, POINT_FORM, VERTEX_COUNTS, WEIGHTS,
                         record_marks, records, scene_bytes)

# The form is handed on with the judge.
__all__ = ["COORDINATES", "FACE_COUNTS", "FACE_FORM", "HEADER_BYTES", "LONGEST_SCENE", "POINT_FORM", "VERTEX_COUNTS", "WEIGHTS",
           "face_edges", "judge", "point_rows", "record_marks", "records", "scene_bytes", "stored_faces"]


def judge(data):
    """None for an accepted scene, else the refusal's number and place."""
    if len(data) < HEADER_BYTES or data[:2] != b"SC":
        return 1, 0
    a, fa, b, fb = data[2:HEADER_BYTES]
    if any(n not in VERTEX_COUNTS for n in (a, b)) or any(n not in FACE_COUNTS for n in (fa, fb)):
        return 2, 0
    if len(data) != 17 + 9 * (a + b) + 5 * (fa + fb):
        return 3, 0
    return judge_records(data) or judge_vertices(data) or judge_edges(data)


def judge_records(data):
    """Refusals 4 to 7 and 14, record by record."""
    a, fa, b, _ = data[2:HEADER_BYTES]
    first_face = 2 + a + b
    for place, (part, mark) in enumerate(zip(records(data), record_marks(data))):
        if part[:2] != mark:
            return 4, place
        if mark in (b"FP", b"VX"):
            _, x, y, z, weight = POINT_FORM.unpack(part)
            if any(value not in COORDINATES for value in (x, y, z)):
                return 5, place
            if weight not in WEIGHTS or weight == 0 and mark == b"VX":
                return 6, place
            if (x, y, z, weight) == (0, 0, 0, 0):
                return 14, place
        if mark == b"FC":
            corners = part[2:]
            highest = a if place < first_face + fa else b
            if any(not 1 <= corner <= highest for corner in corners) or len(set(corners)) < 3:
                return 7, place
    return None


def point_rows(data):
    """The rows (x, y, z, w) by point number: A's vertices, B's vertices, the far point."""
    far, *vertices = [POINT_FORM.unpack(part)[1:] for part in records(data)
                      if part[:2] in (b"FP", b"VX")]
    return vertices + [far]


def stored_faces(data):
    """The corners within the solid, of A's faces and of B's."""
    faces_of_a = data[3]
    faces = [tuple(part[2:]) for part in records(data) if part[:2] == b"FC"]
    return faces[:faces_of_a], faces[faces_of_a:]


def judge_vertices(data):
    """Refusal 8, A and then B, the lowest point."""
    a, _, b, _ = data[2:HEADER_BYTES]
    for faces, vertices, before in zip(stored_faces(data), (a, b), (0, a)):
        used = {corner for face in faces for corner in face}
        for vertex in range(1, vertices + 1):
            if vertex not in used:
                return 8, before + vertex
    return None


def face_edges(face):
    """The three edges of a face, each with the lower corner first."""
    p, q, r = sorted(face)
    return (p, q), (p, r), (q, r)


def judge_edges(data):
    """Refusal 9: the lowest face with any edge that is in an odd number of its solid's faces."""
    a, fa, b, _ = data[2:HEADER_BYTES]
    for faces, first_record in zip(stored_faces(data), (2 + a + b, 2 + a + b + fa)):
        edges = [edge for face in faces for edge in face_edges(face)]
        for place, face in enumerate(faces, first_record):
            if any(edges.count(edge) % 2 for edge in face_edges(face)):
                return 9, place
    return None
