"""The scene file: its form and its limits."""

import struct

VERTEX_COUNTS = range(3, 48 + 1)
FACE_COUNTS = range(2, 96 + 1)
COORDINATES = range(-4095, 4095 + 1)
WEIGHTS = range(-16, 16 + 1)

HEADER_BYTES = 6
POINT_FORM = struct.Struct("<2shhhb")
FACE_FORM = struct.Struct("<2s3B")
END_BYTES = 2
LONGEST_SCENE = 17 + 2 * 9 * VERTEX_COUNTS[-1] + 2 * 5 * FACE_COUNTS[-1]


def scene_bytes(far, a_vertices, a_faces, b_vertices, b_faces):
    """Writes a scene.  Points are (x, y, z, w), faces are corners within the solid, from 1."""
    counts = map(len, (a_vertices, a_faces, b_vertices, b_faces))
    points = [POINT_FORM.pack(b"VX", *vertex) for vertex in a_vertices + b_vertices]
    faces = [FACE_FORM.pack(b"FC", *face) for face in a_faces + b_faces]
    return b"".join([b"SC", bytes(counts), POINT_FORM.pack(b"FP", *far), *points, *faces, b"EN"])


def record_marks(data):
    """The mark that each record must have, from record 0 on."""
    a, fa, b, fb = data[2:HEADER_BYTES]
    return [b"SC", b"FP"] + [b"VX"] * (a + b) + [b"FC"] * (fa + fb) + [b"EN"]


def records(data):
    """The records of a scene of the right length, as parts of its bytes."""
    sizes = {b"SC": HEADER_BYTES, b"FP": POINT_FORM.size, b"VX": POINT_FORM.size,
             b"FC": FACE_FORM.size, b"EN": END_BYTES}
    parts, start = [], 0
    for mark in record_marks(data):
        parts.append(data[start:start + sizes[mark]])
        start += sizes[mark]
    return parts
