"""Texts of the OFF family as drawing programs write them: OFF, COFF, NOFF, STOFF, 4OFF and so on, or no keyword at all.

The numbers of a vertex, and of a face, may stand on any lines, but what follows them on their line is a colour, a normal or a place
in a texture, which is left out; the keyword tells how much of that a vertex has.
"""

import re
from fractions import Fraction
from itertools import product

from making.files import Wrong, at, contents_of, looks_like_scene, shown, without_mark

KEYWORD = re.compile(r"(?P<texture>ST)?(?P<colour>C)?(?P<normal>N)?(?P<weight>4)?(?P<dimension>n)?OFF")
WHOLE = re.compile(r"[0-9]+")
NUMBER = re.compile(r"[+-]?([0-9]+\.?[0-9]*|\.[0-9]+)([eE][+-]?[0-9]{1,3})?")
LONGEST_NUMBER = 100
COLOURS = (0, 1, 3, 4)


class Items:
    """The words of a text, one after another, each with its line."""

    def __init__(self, path, contents):
        self.path, self.line, self.taken = path, 0, 0
        lines = contents.replace(b"\r\n", b"\n").replace(b"\r", b"\n").split(b"\n")
        self.items = [(number, word.decode("latin-1")) for number, line in enumerate(lines, 1) for word in line.split(b"#")[0].split()]
        self.last = len(lines)

    def wrong(self, words):
        """Words about the item taken last."""
        with at(self.path, self.line):
            raise Wrong(words)

    def peek(self):
        return self.items[self.taken][1] if self.taken < len(self.items) else ""

    def next(self, what):
        if self.taken == len(self.items):
            self.line = self.last
            self.wrong(f"the text ends here, and {what} must follow")
        self.line, word = self.items[self.taken]
        self.taken += 1
        return word

    def whole(self, what):
        word = self.next(what)
        if not WHOLE.fullmatch(word) or len(word) > LONGEST_NUMBER:
            self.wrong(f"{shown(word)} stands where {what} must stand, a whole number")
        return int(word)

    def number(self, what):
        word = self.next(what)
        if not NUMBER.fullmatch(word) or len(word) > LONGEST_NUMBER:
            self.wrong(f"{shown(word)} stands where {what} must stand, a number such as 12, -0.5 or 1e-3")
        return Fraction(word)

    def rest_of_line(self, what):
        """How many numbers follow on the line of the item taken last; they are passed over."""
        count = 0
        while self.taken < len(self.items) and self.items[self.taken][0] == self.line:
            self.number(what)
            count += 1
        return count


class Drawing:
    """What a text says: the vertices' rows (x, y, z, w), the faces' corners from 0, each with its line, and notes on what is left out."""

    def __init__(self, path):
        self.path, self.notes = path, []
        contents = contents_of(path)
        with at(path):
            self.items = Items(path, self.plain(contents))
        self.keyword = self.read_keyword()
        vertices, faces = self.read_counts()
        self.rows = self.read_vertices(vertices)
        try:
            self.faces = self.read_faces(faces)
        except Wrong as wrong:
            hint = "; several vertices stand on one line: is the keyword COFF or NOFF meant?" if self.crowded else ""
            raise Wrong(f"{wrong}{hint}") from None

    def plain(self, contents):
        """The bytes without a byte order mark; what the text written will not have is noted."""
        if looks_like_scene(contents):
            raise Wrong("this is a scene, and no OFF text; the program off writes one of a scene's solid (off --write 1 FILE)")
        text = without_mark(contents)
        found = [("a byte order mark", text != contents), ("line ends of Windows", b"\r\n" in text), ("tabs", b"\t" in text),
                 ("comments", b"#" in text)]
        if any(there for _, there in found):
            self.notes.append(f"left out: {', '.join(what for what, there in found if there)}")
        return text

    def read_keyword(self):
        """What a vertex has, by the keyword."""
        word = self.items.peek()
        if WHOLE.fullmatch(word):
            self.notes.append("no keyword stands at the beginning: the text is read as OFF")
            return KEYWORD.fullmatch("OFF")
        word = self.items.next("the keyword OFF")
        keyword = KEYWORD.fullmatch(word)
        if not keyword:
            self.items.wrong(f"{shown(word)} stands where the keyword must stand: OFF, with ST, C, N and 4 before it or not")
        if self.items.peek() == "BINARY":
            self.items.wrong("this is a binary OFF file, and a text is read; save it as a text (ASCII)")
        if keyword["dimension"] and (keyword["weight"] or self.items.whole("the number of coordinates") != 3):
            self.items.wrong("a vertex has three coordinates here, and no other number of them is read")
        return keyword

    def read_counts(self):
        vertices, first = self.items.whole("the number of vertices"), self.items.line
        faces, second = self.items.whole("the number of faces"), self.items.line
        self.items.whole("the number of edges")
        if first == second != self.items.line:
            self.items.line = second
            self.items.wrong("two counts stand here, and there must be three: vertices, faces, edges (0 will do)")
        return vertices, faces

    def read_vertices(self, count):
        """The rows.  Behind a vertex the keyword's numbers must stand on its line; a colour has three or four."""
        behind = self.numbers_behind_vertices()
        rows, lines = [], set()
        for k in range(count):
            row = [self.items.number(f"a coordinate of vertex {k}") for _ in range(4 if self.keyword["weight"] else 3)]
            rows.append(tuple((row + [Fraction(1)])[:4]))
            lines.add(self.items.line)
            more = self.items.rest_of_line("a number") if behind else 0
            if behind and more not in behind:
                wanted = " or ".join(map(str, behind))
                self.items.wrong(f"{more} numbers stand behind the coordinates of vertex {k}, and {self.keyword[0]} has {wanted} there")
        self.crowded = len(lines) < count
        return rows

    def numbers_behind_vertices(self):
        """How many numbers may stand there; nothing where the keyword speaks of none."""
        counts = {"normal": (3,), "colour": (3, 4), "texture": (2,)}
        there = [key for key in counts if self.keyword[key]]
        if there:
            self.notes.append(f"left out: the vertices' {', '.join(there)}")
        return sorted(map(sum, product(*(counts[key] for key in there)))) if there else []

    def read_faces(self, count):
        """The corners.  Where nothing but triangles is left they may stand on any lines, else what follows one on its line is a colour."""
        left = self.items.items[self.items.taken:]
        only_triangles = len(left) == 4 * count and all(word == "3" for _, word in left[::4])
        faces, coloured = [], 0
        for k in range(count):
            size = self.items.whole(f"the number of corners of face {k}")
            corners = self.read_corners(k, size)
            faces.append((self.items.line, corners))
            colour = 0 if only_triangles else self.items.rest_of_line(f"a colour of face {k}")
            if colour not in COLOURS:
                self.items.wrong(f"{colour} numbers follow face {k} on its line, and a colour has one, three or four")
            coloured += colour > 0
        if self.items.peek():
            word = self.items.next("")
            self.items.wrong(f"{shown(word)} follows the last of the {count} faces, behind which nothing may stand")
        if coloured:
            self.notes.append(f"left out: the faces' colours: {coloured}")
        return faces

    def read_corners(self, face, size):
        corners = []
        for _ in range(size):
            corner = self.items.whole(f"a corner of face {face}")
            if corner >= len(self.rows):
                self.items.wrong(f"face {face} has the corner {corner}, and the {len(self.rows)} vertices are counted from 0")
            corners.append(corner)
        return corners
