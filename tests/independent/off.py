"""Object files: a pair of Geomview OFF texts and a far point, as a scene or a refusal, in unbounded whole numbers.

    off.py FIRST SECOND X Y Z W          the scene's bytes, or on standard error the line `refused N P` and one in words
    off.py compare PROGRAM SEED COUNT    texts at random, against a program that takes the same words
"""

import os
import re
import sys
import tempfile

import harness
from judge import COORDINATES, FACE_COUNTS, VERTEX_COUNTS, WEIGHTS, judge, scene_bytes

ITEM = re.compile(rb"#[^\n]*|[^ \n#]+")
UNSIGNED = re.compile(rb"[0-9]+\Z")
SIGNED = re.compile(rb"-?[0-9]+\Z")
KEYWORDS = {b"OFF": 3, b"4OFF": 4}


class Refused(Exception):
    """A refusal: its number and its place."""


class Items:
    """The items of a text, one after another, each with the offset of its first byte."""

    def __init__(self, text, base):
        found = [(m.start() + base, m.group()) for m in ITEM.finditer(text)]
        self.left = [item for item in found if not item[1].startswith(b"#")]
        self.end = base + len(text)
        self.left.reverse()

    def next(self):
        return self.left.pop() if self.left else (self.end, b"")

    def number(self, form):
        place, word = self.next()
        if not form.match(word):
            raise Refused(20, place)
        sign, digits = (-1, word[1:]) if word.startswith(b"-") else (1, word)
        return place, sign * sum((d - 48) * 10 ** k for k, d in enumerate(reversed(digits)))


def solid(text, base):
    """The vertices and the faces that a text denotes; corners from 1, as a scene has them."""
    items = Items(text, base)
    place, keyword = items.next()
    if keyword not in KEYWORDS:
        raise Refused(20, place)
    vertices, faces, _ = [items.number(UNSIGNED)[1] for _ in range(3)]
    rows, corners = [], []
    while len(rows) < vertices:
        row = [items.number(SIGNED)[1] for _ in range(KEYWORDS[keyword])]
        rows.append(tuple((row + [1])[:4]))
    while len(corners) < faces:
        place, size = items.number(UNSIGNED)
        if size != 3:
            raise Refused(21, place)
        corners.append(tuple(items.number(UNSIGNED)[1] + 1 for _ in range(3)))
    place, word = items.next()
    if word:
        raise Refused(20, place)
    return rows, corners


def judge_point(place, point, is_far):
    if any(value not in COORDINATES for value in point[:3]):
        raise Refused(5, place)
    if point[3] not in WEIGHTS or point[3] == 0 and not is_far:
        raise Refused(6, place)
    if not any(point):
        raise Refused(14, place)


def judge_numbers(far, solids):
    """The scene's 2, and 5 to 7 and 14 by record: what numbers of any size may break."""
    for rows, faces in solids:
        if len(rows) not in VERTEX_COUNTS or len(faces) not in FACE_COUNTS:
            raise Refused(2, 0)
    points = [far] + [row for rows, _ in solids for row in rows]
    for place, point in enumerate(points, 1):
        judge_point(place, point, place == 1)
    corners = [(face, len(rows)) for rows, faces in solids for face in faces]
    for place, (face, most) in enumerate(corners, 1 + len(points)):
        if any(not 1 <= corner <= most for corner in face) or len(set(face)) < 3:
            raise Refused(7, place)


def scene_of(first, second, far, room):
    """The bytes of the scene that two texts and a far point denote, or a refusal."""
    solids = [solid(first, 0), solid(second, len(first))]
    judge_numbers(far, solids)
    scene = scene_bytes(far, *solids[0], *solids[1])
    refused = judge(scene)
    if refused:
        raise Refused(*refused)
    if len(scene) > room:
        raise Refused(13, len(scene))
    return scene


# ---- a refusal in words ---------------------------------------------------------------------

RULES = {2: "a count outside its limits", 5: "a coordinate outside its limits",
         6: "a weight outside its limits, or a vertex of weight 0", 7: "a corner that the text lacks, or two corners equal",
         8: "a vertex in no face", 9: "an edge in an odd number of its solid's faces", 14: "four numbers that are all 0"}


def is_of_form(text):
    try:
        solid(text, 0)
    except Refused:
        return False
    return True


def shown(item):
    """An item's first bytes, those that a terminal prints."""
    text = "".join(chr(byte) if 33 <= byte <= 126 else "?" for byte in item[:24])
    return text + "..." * (len(item) > 24)


def standing(text, place, number):
    """What stands in a text at the place of a refusal, 20 or 21."""
    if place == len(text):
        return "the text ends here, and more must come"
    item = ITEM.match(text, place).group()
    if number == 21:
        return f"a face with {shown(item)} corners, and only triangles without colours are taken"
    if item.startswith(b"\xef\xbb\xbf"):
        return "a byte order mark, and none may stand in the text"
    if b"\t" in item:
        return "a tab, and only spaces and newlines may stand between numbers"
    if b"\r" in item:
        return "a Windows line end (carriage return), and only spaces and newlines may stand between numbers"
    if place == Items(text, 0).next()[0]:
        return f'"{shown(item)}" is not OFF or 4OFF'
    if UNSIGNED.match(item):
        return f'"{shown(item)}" stands behind the last face, and nothing may follow that'
    if SIGNED.match(item):
        return f'"{shown(item)}" has a minus sign, and only coordinates and weights may have one'
    return f'"{shown(item)}" is not a whole number'


def spotted(first, second, place, number):
    """The text at fault, its line and its column, and what stands there."""
    name, text, place = ("second", second, place - len(first)) if is_of_form(first) else ("first", first, place)
    before = text[:place].split(b"\n")
    return f"{name} text, line {len(before)}, column {len(before[-1]) + 1}: {standing(text, place, number)}"


def record(first, second, place):
    """What a record of the scene is about in the texts, from 0 as they count."""
    if place < 2:
        return ["the texts", "the far point"][place]
    solids = [solid(first, 0), solid(second, 0)]
    things = [f"vertex {i} (from 0) of the {name} text" for name, k in zip(("first", "second"), solids) for i in range(len(k[0]))]
    things += [f"face {i} (from 0) of the {name} text" for name, k in zip(("first", "second"), solids) for i in range(len(k[1]))]
    return things[place - 2]


def words_of(first, second, number, place):
    if number in (20, 21):
        return f"{spotted(first, second, place, number)}\n".encode()
    return f"{record(first, second, place + (number == 8))}: {RULES[number]}\n".encode()


def answer(first, second, far, room=65536):
    """What a program writes: on standard output, and on standard error."""
    try:
        return scene_of(first, second, far, room), b""
    except Refused as refused:
        return b"", b"refused %d %d\n" % refused.args + words_of(first, second, *refused.args)


def text_of(rows, faces):
    """A solid as a text: OFF, or 4OFF where a weight is not 1."""
    numbers = 3 if all(row[3] == 1 for row in rows) else 4
    lines = [["OFF" if numbers == 3 else "4OFF"], [len(rows), len(faces), 0]]
    lines += [row[:numbers] for row in rows] + [[3, *(corner - 1 for corner in face)] for face in faces]
    return "".join(" ".join(map(str, line)) + "\n" for line in lines).encode()


# ---- texts at random ------------------------------------------------------------------------

TETRAHEDRON = [(0, 1, 2), (0, 1, 3), (0, 2, 3), (1, 2, 3)]
BOX = [(0, 1, 3), (0, 3, 2), (4, 5, 7), (4, 7, 6), (0, 1, 5), (0, 5, 4),
       (2, 3, 7), (2, 7, 6), (0, 2, 6), (0, 6, 4), (1, 3, 7), (1, 7, 5)]
ODD_WORDS = [b"-1", b"4", b"COFF", b"off", b"\xef\xbb\xbfOFF", b"0.5\t1\r", b"\x7f~!\x80", b"12345678901234567890.234", b"1" * 24 + b".5",
             b"2", b"+3", b"1.0", b"-", b"--1", b"-0", b"000003", b"3\t", b"\r", b"3x", b"#x\n", b"",
             b"4294967296", b"4294967297", b"18446744073709551616", b"18446744073709551619", b"65536", b"257", b"256",
             b"99999999999999999999999", b"9" * 400, b"0" * 300 + b"3", b"-" + b"0" * 40 + b"7", b"3\r", b"0\t1",
             b"4095", b"4096", b"-4096", b"16", b"17", b"-17", b"OFF", b"32768", b"-32769"]


def random_text(rng):
    faces = rng.choice([TETRAHEDRON, BOX, TETRAHEDRON[:2] * 2, [(0, 1, 2)] * 2])
    count = max(max(face) for face in faces) + 1
    weighted = rng.random() < 0.5
    words = [b"4OFF" if weighted else b"OFF", b"%d" % count, b"%d" % len(faces), b"0"]
    for _ in range(count):
        words += [b"%d" % rng.randint(-99, 99) for _ in range(3)]
        words += [b"%d" % rng.choice([1, 2, -3, 16])] * weighted
    for face in faces:
        words += [b"3"] + [b"%d" % corner for corner in face]
    for _ in range(rng.choice([0, 0, 0, 1, 1, 2])):
        where = rng.randrange(len(words))
        match rng.randrange(4):
            case 0:
                del words[where]
            case 1:
                words.insert(rng.choice([where, len(words)]), rng.choice(ODD_WORDS))
            case _:
                words[where] = rng.choice(ODD_WORDS)
    gaps = rng.choice([[b" "], [b"\n"], [b" ", b"\n", b"  \n ", b"#c 1\n", b" # OFF\n\n", b"#" + b"long " * 99 + b"\n"]])
    text = b"".join(word + rng.choice(gaps) for word in words)
    return rng.choice([b"", b"", b"# a solid\n", b" \n"]) + text + rng.choice([b"", b"", b"#end", b"\n"])


def damaged(rng, text):
    """A text with a byte lost, changed or put in, or with its end cut off; most stay as they are."""
    where = rng.randrange(len(text))
    match rng.randrange(12):
        case 0:
            return text[:where]
        case 1:
            return text[:where] + text[where + 1:]
        case 2:
            return text[:where] + bytes([rng.choice(b"\t\r\n #-0x\0\xff")]) + text[where + rng.randrange(2):]
        case _:
            return text


def written_by(program, words, data=b""):
    ran = harness.run(program, words, data)
    return ran.out, ran.err


def compare_pair(comparison, program, names, texts, far):
    """What a program writes of a pair of texts, one of which may be standard input, and of the solids of their scene."""
    given = b"".join(text for name, text in zip(names, texts) if name == "-")
    expected, inputs = answer(*texts, far), dict(zip(("first.off", "second.off"), texts))
    asked = " ".join([*map(os.path.basename, names), *map(str, far)])
    comparison.same(asked, inputs, expected, written_by(program, [*names, *far], given))
    if expected[0]:
        for k, text in zip("12", texts):
            found = written_by(program, ["--write", k], expected[0])
            comparison.same(f"{asked}, --write {k}", {**inputs, "scene": expected[0]}, (text_of(*solid(text, 0)), b""), found)


def compare(words):
    """What a program writes of pairs of texts at random, on standard output and on standard error."""
    given = harness.words_of(words, ("program",))
    comparison, made = harness.Comparison(given.seed), 0
    rng = comparison.rng
    with tempfile.TemporaryDirectory() as folder:
        names = [os.path.join(folder, name) for name in ("first.off", "second.off")]
        for _ in comparison.cases(given.count):
            texts = [damaged(rng, random_text(rng)) for _ in names]
            far = rng.choice([(100, 101, 103, 1), (0, 0, 1, 0), (0, 0, 0, 0), (4096, 0, 0, 1), (1, 2, 3, 17), (10 ** 30, 0, 0, 1)]
                             if rng.random() < 0.2 else [(1000, 1001, 1003, 1)])
            for name, text in zip(names, texts):
                with open(name, "wb") as file:
                    file.write(text)
            compare_pair(comparison, given.program, rng.choice([names, ["-", names[1]], [names[0], "-"]]), texts, far)
            made += not answer(*texts, far)[1]
    print(f"{given.count} pairs of texts alike, {made} of them scenes whose solids are written alike")
    return 0


def main(words):
    if words[:1] == ["compare"]:
        return compare(words[1:])
    texts = []
    for name in words[:2]:
        with open(name, "rb") as file:
            texts.append(file.read())
    out, err = answer(*texts, tuple(int(word) for word in words[2:6]))
    sys.stdout.buffer.write(out)
    sys.stderr.buffer.write(err)
    return 0


if __name__ == "__main__":
    sys.exit(main(sys.argv[1:]))
