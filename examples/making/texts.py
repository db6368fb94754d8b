"""Readable texts of scenes: the bytes that a text describes, and the text of bytes. The form of a text stands at the head of make.py."""

import struct
from pathlib import Path

from making.files import Wrong, at, contents_of, input_name, looks_like_scene, say, shown, without_mark
from making.form import FACE_FORM, HEADER_BYTES, POINT_FORM, record_marks, records, scene_bytes

DESCRIBES = ("solid", "v", "f", "far", "like")
DAMAGES = ("record", "set", "append", "cut")
COUNTS = range(255 + 1)
LONGEST_NUMBER = 4000  # Python reads no number of more than 4300 digits


def line_at(text, offset):
    """The number of the line in which a byte stands."""
    return text.count(b"\n", 0, offset) + 1


def lines_of(path):
    """The lines of a text; a byte order mark and the line ends of Windows are passed over, and that is said."""
    contents = contents_of(path)
    with at(path):
        if looks_like_scene(contents):
            raise Wrong(f"this is a scene already; `make.py text {path}` makes a text of it")
        text = without_mark(contents)
    if text != contents:
        say(f"note: {input_name(path)}, line 1: a byte order mark is passed over")
    if b"\r\n" in text:
        line = line_at(text, text.index(b"\r\n"))
        say(f"note: {input_name(path)}, line {line}: this line ends as in Windows (CRLF), and is read like any other")
    try:
        return text.decode().splitlines()
    except UnicodeDecodeError as error:
        with at(path, line_at(text, error.start)):
            raise Wrong(f"the byte {text[error.start]} is not UTF-8; save the text as UTF-8") from None


# ---- a text's bytes -------------------------------------------------------------------------


def point(numbers):
    """A row; the weight is 1 where it is left out."""
    return tuple(numbers) + (1,) * (4 - len(numbers))


def numbers_of(words, least, most):
    """Between so many and so many whole numbers."""
    if not least <= len(words) <= most:
        wanted = f"{least}" if least == most else f"{least} or {most}" if most == least + 1 else f"{least} or more"
        raise Wrong(f"{wanted} numbers must stand here, and there are {len(words)}")
    for word in words:
        if not (word.isascii() and word.removeprefix("-").isdigit()):
            raise Wrong(f"{shown(word)} is no whole number")
        if len(word) > LONGEST_NUMBER:
            raise Wrong(f"{shown(word)} has too many digits")
    return list(map(int, words))


def fitting(numbers, low, high):
    """The numbers, each of which its record has room for."""
    for number in numbers:
        if not low <= number <= high:
            raise Wrong(f"{number} has no room in its record, which takes {low} to {high}")
    return numbers


def row_of(words):
    """A point's three coordinates and its weight."""
    numbers = numbers_of(words, 3, 4)
    return point(fitting(numbers[:3], -32768, 32767) + fitting(numbers[3:], -128, 127))


def written_over(data, offset, new):
    if not 0 <= offset <= len(data) - len(new):
        raise Wrong(f"this line writes {len(new)} bytes from byte {offset} on, and there are {len(data)} bytes, counted from 0")
    return data[:offset] + new + data[offset + len(new):]


def record_anew(data, k, mark, numbers):
    """Record k with this mark and these numbers, in the form of the record that stands there."""
    if len(data) < HEADER_BYTES or k not in range(len(records(data))):
        raise Wrong(f"there is no record {k}")
    start = sum(map(len, records(data)[:k]))
    form = {b"FP": POINT_FORM, b"VX": POINT_FORM, b"FC": FACE_FORM}.get(record_marks(data)[k])
    try:
        return written_over(data, start, form.pack(mark, *numbers) if form else mark)
    except struct.error as error:
        raise Wrong(f"record {k} has no room for these numbers ({error})") from None


def damaged(data, word, rest):
    """The bytes after one line that damages them."""
    if word == "record":
        if len(rest) < 2:
            raise Wrong("a record's number and its mark must stand here")
        return record_anew(data, *numbers_of(rest[:1], 1, 1), rest[1].encode(), numbers_of(rest[2:], 0, 4))
    numbers = numbers_of(rest, 1, 4096)
    if word == "set":
        return written_over(data, numbers[0], bytes(fitting(numbers[1:], 0, 255)))
    if word == "append":
        return data + bytes(fitting(numbers, 0, 255))
    if not 0 <= numbers[0] <= len(data):
        raise Wrong(f"{numbers[0]} bytes cannot be taken away: there are {len(data)}")
    return data[:len(data) - numbers[0]]


class Text:
    """A text, read line by line."""

    def __init__(self, path, within):
        self.folder, self.within = Path(path).parent, within
        self.far = self.far_line = self.data = self.data_line = self.first_line = None
        self.solids, self.solid = {"A": ([], []), "B": ([], [])}, None

    def own(self):
        """The solid that a line belongs to."""
        if self.solid is None:
            raise Wrong("`solid A` or `solid B` must come before this line")
        return self.solid

    def line(self, number, word, rest):
        if word not in DESCRIBES + DAMAGES:
            raise Wrong(f"no line begins with `{shown(word)}`; lines begin with {', '.join(DESCRIBES + DAMAGES)}")
        if word in DAMAGES:
            self.data, self.data_line = damaged(self.scene(), word, rest), self.data_line or number
        elif self.data is not None:
            raise Wrong(f"this line comes too late: the bytes were made in line {self.data_line}")
        elif word == "like":
            self.like(" ".join(rest))
            self.data_line = number
        else:
            self.description(number, word, rest)
        self.first_line = self.first_line or number

    def description(self, number, word, rest):
        if word == "solid":
            if len(rest) != 1 or rest[0] not in self.solids:
                raise Wrong("a solid is A or B")
            self.solid = self.solids[rest[0]]
        elif word == "v":
            self.own()[0].append(row_of(rest))
        elif word == "f":
            self.own()[1].append(tuple(fitting(numbers_of(rest, 3, 3), 0, 255)))
        elif self.far is not None:
            raise Wrong(f"a second far point; the first stands in line {self.far_line}")
        else:
            self.far, self.far_line = row_of(rest), number

    def like(self, name):
        if self.first_line:
            raise Wrong(f"`like` comes too late: line {self.first_line} would be lost")
        self.data = scene_of(self.folder / f"{name}.txt", self.within)

    def scene(self):
        if self.data is not None:
            return self.data
        if self.far is None:
            raise Wrong("there is no far point: a line `far X Y Z` must stand somewhere")
        for name, (vertices, faces) in self.solids.items():
            if max(len(vertices), len(faces)) not in COUNTS:
                raise Wrong(f"{name} has {len(vertices)} vertices and {len(faces)} faces, and a count has room for {COUNTS[-1]}")
        return scene_bytes(self.far, *self.solids["A"], *self.solids["B"])


def scene_of(path, within=()):
    """The bytes that a text describes, which may be like another text, and so on within one another."""
    lines, here = lines_of(path), Path(path).resolve()
    if here in within:
        raise Wrong(f"{path}: this text is like itself")
    text = Text(path, within + (here,))
    for number, line in enumerate(lines, 1):
        word, *rest = line.split("#")[0].split() or [""]
        if word:
            with at(path, number):
                text.line(number, word, rest)
    with at(path):
        return text.scene()


# ---- the text of bytes ----------------------------------------------------------------------


def parts_of(data):
    """The points and the faces of a scene whose length and marks are right."""
    if len(data) < HEADER_BYTES or data[:2] != b"SC":
        is_text = data.isascii() and b"\0" not in data and data.strip()
        hint = "; this looks like a text, of which `make.py scene` makes a scene" if is_text else ""
        raise Wrong(f"no scene begins like this: its first bytes must be SC and four counts{hint}")
    a, fa, b, fb = data[2:HEADER_BYTES]
    length = 17 + 9 * (a + b) + 5 * (fa + fb)
    if len(data) != length:
        raise Wrong(f"the counts ask for {length} bytes, and there are {len(data)}")
    parts = records(data)
    for k, (part, mark) in enumerate(zip(parts, record_marks(data))):
        if part[:2] != mark:
            raise Wrong(f"record {k} must begin with {mark.decode()}")
    return [POINT_FORM.unpack(part)[1:] for part in parts[1:2 + a + b]], [FACE_FORM.unpack(part)[1:] for part in parts[2 + a + b:-1]]


def text_of(path):
    """The text of a scene whose length and marks are right."""
    data = contents_of(path)
    with at(path):
        points, faces = parts_of(data)
    a, fa = data[2:4]
    rows = ["far " + " ".join(map(str, points[0]))]
    for name, vertices, corners in (("A", points[1:1 + a], faces[:fa]), ("B", points[1 + a:], faces[fa:])):
        rows.append(f"solid {name}")
        rows += ["v " + " ".join(map(str, vertex)) for vertex in vertices]
        rows += ["f " + " ".join(map(str, face)) for face in corners]
    return "".join(row + "\n" for row in rows).encode()
