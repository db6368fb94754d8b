"""Sessions once more: open, move a vertex, move the far point, reverse a face, save.

    session.py run [WORD ...] < scene      prints the steps to standard error, the scene to standard output
    session.py compare [--program COMMAND] SEED [COUNT]

The words are operations, one after another: `move P X Y Z W`, `far X Y Z W`, `reverse F`; a last word
that is none names the file.  A step's line is `counts PAIRS A B` or `refused N P`.  `compare` runs
random operations on random, broken and empty scenes through the program and holds both outputs to this
one, and that each refusal has words behind it; what was written is opened again; and where a word is
wrong or a file is missing, the program says which and writes nothing.
"""

import re
import shlex
import sys
import tempfile

import harness
from exact import Refused, read_scene
from judge import COORDINATES, FACE_FORM, HEADER_BYTES, POINT_FORM, WEIGHTS
from scenes import random_scene

NUMBERS_OF = {"move": 5, "far": 4, "reverse": 1}
NUMBER = re.compile("-?[0-9]+")
NOTHING_WRITTEN = "why: no scene is written"


class Session:
    """The bytes of an accepted scene, or none; every answer is worked out afresh."""

    def __init__(self):
        self.data = b""

    def counts(self):
        """Pierced pairs, vertices of A enclosed by B, of B by A."""
        if not self.data:
            return 0, 0, 0
        scene = read_scene(self.data)
        return (len(scene.listing), *map(len, scene.inside))

    def open(self, data):
        scene = read_scene(data)
        if isinstance(scene, Refused):
            self.data = b""
            raise scene
        self.data = data

    def sizes(self):
        """How many vertices there are, and how many faces."""
        if not self.data:
            raise Refused(1, 0)
        a, fa, b, fb = self.data[2:HEADER_BYTES]
        return a + b, fa + fb

    def put(self, start, record):
        self.data = self.data[:start] + record + self.data[start + len(record):]

    def move(self, p, *row):
        vertices, _ = self.sizes()
        if not 1 <= p <= vertices:
            raise Refused(11, 0)
        check_row(p, row)
        if row[3] == 0:
            raise Refused(6, p)
        self.put(HEADER_BYTES + POINT_FORM.size * p, POINT_FORM.pack(b"VX", *row))

    def far(self, *row):
        vertices, _ = self.sizes()
        check_row(vertices + 1, row)
        if not any(row):
            raise Refused(14, vertices + 1)
        self.put(HEADER_BYTES, POINT_FORM.pack(b"FP", *row))

    def reverse(self, f):
        vertices, faces = self.sizes()
        if not 1 <= f <= faces:
            raise Refused(11, 0)
        start = HEADER_BYTES + POINT_FORM.size * (vertices + 1) + FACE_FORM.size * (f - 1)
        mark, p, q, r = FACE_FORM.unpack(self.data[start:start + FACE_FORM.size])
        self.put(start, FACE_FORM.pack(mark, r, q, p))

    def save(self, room):
        """The bytes that a lent buffer of so many places holds in front afterwards."""
        if not self.data:
            raise Refused(1, 0)
        if room < len(self.data):
            raise Refused(13, len(self.data))
        return self.data


def check_row(p, row):
    if any(value not in COORDINATES for value in row[:3]):
        raise Refused(5, p)
    if row[3] not in WEIGHTS:
        raise Refused(6, p)


def operations(words):
    """The operations that the words say; a last word that is none names the file."""
    while words and words[0] in NUMBERS_OF:
        count = NUMBERS_OF[words[0]]
        yield words[0], [int(word) for word in words[1:count + 1]]
        words = words[count + 1:]


def first_wrong(words):
    """The first word, counted from 1, that is no operation's name, none of its numbers and no file's name at the end; or None."""
    at = 0
    while at < len(words):
        if words[at] not in NUMBERS_OF:
            return None if at + 1 == len(words) and not re.match("-.", words[at]) else at + 1
        end = at + 1 + NUMBERS_OF[words[at]]
        for k in range(at + 1, end):
            if k == len(words) or not NUMBER.fullmatch(words[k]):
                return k + 1
        at = end
    return None


def play(data, steps):
    """The line of the opening and of each step, and the bytes at the end."""
    session, lines = Session(), []
    for name, numbers in [("open", [data]), *steps]:
        try:
            getattr(session, name)(*numbers)
            lines.append("counts {} {} {}".format(*session.counts()))
        except Refused as refusal:
            lines.append(refusal.line)
    return lines, session.data


def random_number(rng, limit):
    """Mostly within the limit, sometimes at it or beyond, seldom far beyond."""
    return rng.choice([rng.randint(-limit, limit), rng.randint(-9, 9), limit, -limit, limit + 1, -limit - 1,
                       rng.choice([0, 2 ** 15, -2 ** 15, 2 ** 16, 2 ** 63 - 1, -2 ** 63])] + [rng.randint(-limit, limit)] * 18)


def random_row(rng):
    row = [random_number(rng, COORDINATES[-1]) for _ in range(3)] + [random_number(rng, WEIGHTS[-1])]
    return [0] * 4 if rng.random() < 0.05 else row


def random_step(rng, data):
    highest = sum(data[2:HEADER_BYTES:2]) if len(data) >= HEADER_BYTES else 6
    name = rng.choice(["move", "move", "move", "far", "reverse"])
    if name == "move":
        return name, [rng.randint(0, highest + 2), *random_row(rng)]
    if name == "far":
        return name, random_row(rng)
    return name, [rng.randint(0, 2 * highest)]


def damaged(rng, words):
    """The words with one of them lost, doubled or replaced."""
    if not words:
        return words
    k = rng.randrange(len(words))
    put = rng.choice([[], words[k:k + 1] * 2, [rng.choice(["", "-", "+1", "1.5", "0x1", "--1", "1-", "Move", "moves", "far"])]])
    return words[:k] + put + words[k + 1:]


def run(program, words, data):
    """The lines on standard error, of those in words only which they are; and the bytes on standard output."""
    ran = harness.run(program, words, data)
    lines = ran.lines()
    shorter = [re.sub("^(why|note): .+| is wrong or missing; .*", r"\1", line) for line in lines]
    return [line if line == NOTHING_WRITTEN else short for line, short in zip(lines, shorter)], ran.out


def said(data, steps):
    """What `run` should find."""
    lines, held = play(data, steps)
    words = [more for line in lines for more in ([line, "why"] if line.startswith("refused") else [line])]
    if not data:
        words.insert(2, "note")
    return words + [NOTHING_WRITTEN] * (not held), held


def expected_of(words, data, name):
    """The same, where data are in the file of this name and on standard input."""
    wrong = first_wrong(words)
    if wrong:
        return [f"edit: word {wrong}"], b""
    steps = list(operations(words))
    file = words[sum(1 + len(numbers) for _, numbers in steps):]
    if file and file[0] not in ("-", name):
        return [f"edit: {file[0]}: No such file or directory"], b""
    return said(data, steps)


def compare_one(comparison, program, words, data, name):
    """A session, and what it wrote opened again."""
    expected = expected_of(words, data, name)
    asked = shlex.join("scene" if word == name else word for word in words)
    comparison.same(asked, {"scene": data}, expected, run(program, words, b"" if name in words else data))
    written = expected[1]
    if written:
        inputs = {"scene": data, "written.scene": written}
        comparison.same(f"{asked}; opened again", inputs, said(written, []), run(program, ["-"], written))


def compare(words):
    given = harness.words_of(words, default="target/bin/edit", count=200)
    comparison = harness.Comparison(given.seed)
    rng = comparison.rng
    with tempfile.NamedTemporaryFile() as file:
        for n in comparison.cases(given.count):
            data = b"" if n % 10 == 9 else random_scene(rng)
            file.seek(0)
            file.truncate()
            file.write(data)
            file.flush()
            steps = [random_step(rng, data) for _ in range(rng.randint(0, 8))]
            words = [str(word) for name, numbers in steps for word in (name, *numbers)]
            if n % 5 == 4:
                words = damaged(rng, words)
            words += rng.choice([[], [file.name], ["-"]])
            compare_one(comparison, given.program, words, data, file.name)
    print(f"{given.count} sessions alike")
    return 0


def print_session(words):
    lines, held = play(sys.stdin.buffer.read(), operations(words))
    print("\n".join(lines), file=sys.stderr)
    sys.stdout.buffer.write(held)
    return 0


if __name__ == "__main__":
    sys.exit(harness.main(sys.argv[1:], {"run": print_session, "compare": compare}, __doc__))
