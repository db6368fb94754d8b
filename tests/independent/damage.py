"""Damage to scenes, of every kind that the judge refuses.

The first group changes the parts that a scene is written from (far point, vertices and faces of A,
vertices and faces of B); the second group changes the written bytes.
"""

from judge import FACE_COUNTS, record_marks, records

LONGEST_ENTRY = 1900


def any_solid(rng, parts):
    """The vertices and the faces of A or of B."""
    start = rng.choice((1, 3))
    return parts[start], parts[start + 1]


def damage_point(rng, parts, change):
    """Changes the far point or a vertex."""
    if rng.random() < 0.3:
        parts[0] = change(parts[0])
        return
    rows, _ = any_solid(rng, parts)
    k = rng.randrange(len(rows))
    rows[k] = change(rows[k])


def bad_coordinate(rng, parts):
    axis = rng.randrange(3)
    value = rng.choice((4096, -4096, 32767, -32768, rng.randint(4096, 32767)))
    damage_point(rng, parts, lambda row: row[:axis] + (value,) + row[axis + 1:])


def bad_weight(rng, parts):
    value = rng.choice((0, 0, 17, -17, 127, -128))
    damage_point(rng, parts, lambda row: row[:3] + (value,))


def no_far_point(rng, parts):
    """Four zeros, with a weight out of its limits in some."""
    parts[0] = (0, 0, 0, rng.choice((0, 0, 0, 17)))


def bad_corner(rng, parts):
    rows, faces = any_solid(rng, parts)
    k, c = rng.randrange(len(faces)), rng.randrange(3)
    value = rng.choice((0, len(rows) + 1, 255, faces[k][c - 1]))
    faces[k] = faces[k][:c] + (value,) + faces[k][c + 1:]


def other_corner(rng, parts):
    """A corner moved to another vertex: edges in one face and in three, often an unused vertex."""
    rows, faces = any_solid(rng, parts)
    k, c = rng.randrange(len(faces)), rng.randrange(3)
    free = [v for v in range(1, len(rows) + 1) if v not in faces[k]]
    if free:
        faces[k] = faces[k][:c] + (rng.choice(free),) + faces[k][c + 1:]


def lone_vertex(rng, parts):
    """A vertex in no face, before, among or behind the others."""
    rows, faces = any_solid(rng, parts)
    k = rng.choice((0, len(rows), rng.randint(0, len(rows))))
    rows.insert(k, (rng.randint(-9, 9), 0, 1, 1))
    faces[:] = [tuple(min(c + (c > k), 255) for c in face) for face in faces]


def open_edge(rng, parts):
    """A face left out, or there once more: edges in one face, or in three."""
    _, faces = any_solid(rng, parts)
    k = rng.randrange(len(faces))
    if rng.random() < 0.5 and len(faces) > 3:
        faces.pop(k)
    else:
        faces.insert(rng.randint(0, len(faces)), tuple(rng.sample(faces[k], 3)))


def three_times(rng, parts):
    """A face there twice more, and once more after that: edges in five faces, where there is room for them."""
    _, faces = any_solid(rng, parts)
    if len(faces) + 3 in FACE_COUNTS:
        faces += 3 * [rng.choice(faces)]


def lone_and_open(rng, parts):
    """Two faults of the tables, often in different solids: an unused vertex comes first."""
    lone_vertex(rng, parts)
    open_edge(rng, parts)


TABLE_DAMAGE = (bad_coordinate, bad_coordinate, bad_weight, bad_weight, no_far_point, bad_corner, other_corner,
                lone_vertex, lone_and_open, open_edge, three_times)


def set_byte(data, offset, value):
    return data[:offset] + bytes([value]) + data[offset + 1:]


def bad_mark(rng, data):
    """A wrong mark of a record of any kind."""
    marks = record_marks(data)
    kind = rng.choice(sorted(set(marks[1:])))
    place = rng.choice([k for k, mark in enumerate(marks) if mark == kind])
    offset = sum(map(len, records(data)[:place])) + rng.randrange(2)
    return set_byte(data, offset, rng.choice((0, 32, 69, 70, 86, 88, 255)))


def bad_count(rng, data):
    return set_byte(data, rng.randrange(2, 6), rng.choice((0, 1, 2, 3, 4, 48, 49, 96, 97, 128, 255)))


def bad_length(rng, data):
    more = bytes(rng.randrange(256) for _ in range(rng.choice((1, 2, 5, 9))))
    return rng.choice((data[:-1], data[:rng.randrange(len(data))], data[:6], data[:17], data + more,
                       data + bytes(LONGEST_ENTRY - len(data))))


def bad_start(rng, data):
    return rng.choice((b"", b"S", data[:rng.randint(0, 5)], b"SD" + data[2:], b"s" + data[1:],
                       data[1:], bytes(len(data)), b"SC" + bytes(4)))


def flipped(rng, data):
    for _ in range(rng.choice((1, 2, 8))):
        data = set_byte(data, rng.randrange(len(data)), rng.randrange(256))
    return data


BYTE_DAMAGE = (bad_mark, bad_mark, bad_count, bad_length, bad_start, flipped)


def damage_bytes(rng, data):
    """One more fault, while there is a whole header to find the records by."""
    return rng.choice(BYTE_DAMAGE)(rng, data) if len(data) >= 17 and data[:2] == b"SC" else data
