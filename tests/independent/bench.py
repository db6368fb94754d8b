"""A bench once more: one fixture, one far point, and a solid for each of two groups.

    bench.py run FIRST SECOND [WORD ...]    prints the answers and the counts
    bench.py compare [--program COMMAND] SEED [COUNT]

The words are moves, one after another: `one P X Y Z W`, `two P X Y Z W`, `lecturer N X Y Z W`.  The
opening and each move print `done` or `refused N P`, and then `counts` and six numbers, group one's
first.  The fixture is held once here, and a group's scene is written from it when it is asked.
`compare` makes random moves at random benches, some of them damaged, with the program and with this
one, and holds the program to a line in words for each refusal, the opening's with the file refused.
"""

import shlex
import sys
import tempfile
from itertools import zip_longest
from pathlib import Path

import harness
from exact import Refused, read_scene
from judge import judge, point_rows, scene_bytes, stored_faces
from scenes import parts_of_scene
from damage import damage_bytes
from session import check_row, random_row

GROUPS = "one", "two"


def parts(data):
    """The far point, and the rows and the faces of A and of B, of an accepted scene."""
    *rows, far = point_rows(data)
    a_faces, b_faces = stored_faces(data)
    return far, (rows[:data[2]], a_faces), (rows[data[2]:], b_faces)


class Bench:
    """A fixture and a far point, and each group's own solid; or nothing."""

    def __init__(self):
        self.own = {}

    def open(self, first, second):
        for data in first, second:
            if judge(data):
                raise Refused(*judge(data))
        (far, one, fixture), (other_far, two, other_fixture) = parts(first), parts(second)
        if (far, fixture) != (other_far, other_fixture):
            raise Refused(22)
        self.far, self.fixture, self.own = far, fixture, dict(zip(GROUPS, (one, two)))

    def counts(self, group):
        if not self.own:
            return 0, 0, 0
        scene = read_scene(scene_bytes(self.far, *self.own[group], *self.fixture))
        return len(scene.listing), *map(len, scene.inside)

    def move(self, who, number, *row):
        if not self.own:
            raise Refused(1)
        if who == "lecturer":
            self.lecturer_move(number, row)
        else:
            self.group_move(who, number, row)

    def group_move(self, group, number, row):
        rows, _ = self.own[group]
        points = len(rows) + len(self.fixture[0]) + 1
        if not 1 <= number <= points:
            raise Refused(11)
        if number > len(rows):
            raise Refused(19, number)
        put_vertex(rows, number, row)

    def lecturer_move(self, number, row):
        rows, _ = self.fixture
        if not 1 <= number <= len(rows) + 1:
            raise Refused(11)
        if number <= len(rows):
            put_vertex(rows, number, row)
            return
        check_row(number, row)
        if not any(row):
            raise Refused(14, number)
        self.far = row


def put_vertex(rows, number, row):
    check_row(number, row)
    if row[3] == 0:
        raise Refused(6, number)
    rows[number - 1] = row


def play(first, second, words):
    """The lines of the opening and of each move, the counts behind each."""
    bench = Bench()
    moves = [(words[k], *map(int, words[k + 1:k + 6])) for k in range(0, len(words), 6)]
    lines = []
    for act, given in [(bench.open, (first, second)), *((bench.move, move) for move in moves)]:
        try:
            act(*given)
            lines.append("done")
        except Refused as refusal:
            lines.append(refusal.line)
        numbers = [n for group in GROUPS for n in bench.counts(group)]
        lines.append(" ".join(map(str, ["counts", *numbers])))
    return lines


# ---- the comparison ---------------------------------------------------------------------------


def random_bench(rng):
    """Two scenes that share their fixture in most cases, and are damaged in some."""
    far, a_rows, a_faces, b_rows, b_faces = parts_of_scene(rng)
    _, c_rows, c_faces, d_rows, d_faces = parts_of_scene(rng)
    change = rng.randrange(20)
    shared = far, b_rows, b_faces
    if change == 0:
        shared = far, d_rows, d_faces
    elif change == 1:
        shared = far, b_rows, [b_faces[0][1:] + b_faces[0][:1], *b_faces[1:]]
    elif change == 2:
        shared = far, b_rows, b_faces[1:] + b_faces[:1]
    elif change == 3:
        shared = (far[0] + 1 if far[0] < 4095 else 0, *far[1:]), b_rows, b_faces
    elif change == 4:
        shared = far, [*b_rows[:-1], (*b_rows[-1][:2], 7, b_rows[-1][3])], b_faces
    first = scene_bytes(far, a_rows, a_faces, b_rows, b_faces)
    second = scene_bytes(shared[0], c_rows, c_faces, *shared[1:])
    if change == 5:
        first = damage_bytes(rng, first)
    if change in (5, 6):
        second = damage_bytes(rng, second)
    return first, second


def random_words(rng, first, second):
    highest = max(sum(data[2:6:2]) for data in (first + bytes(6), second + bytes(6)))
    words = []
    for _ in range(rng.randint(0, 6)):
        who = rng.choice((*GROUPS, "lecturer"))
        number = rng.choice((rng.randint(0, highest + 2), rng.randint(1, 8), rng.randint(1, 8), -1))
        words += [who, number, *random_row(rng)]
    return [str(word) for word in words]


def words_behind(lines, names, scenes):
    """How the lines on standard error begin: one for each refusal, the opening's with the name of the scene refused."""
    begin = ["why: " for line in lines if line.startswith("refused")]
    refused = [name for name, data in zip(names, scenes) if judge(data)]
    return [f"why: {refused[0]}: ", *begin[1:]] if refused else begin


def beginnings(lines, begin):
    """The lines, each cut to what it should begin with where it does."""
    return [start if start and line.startswith(start) else line for line, start in zip_longest(lines, begin, fillvalue="")]


def compare_one(comparison, program, files, scenes, words):
    """The lines on standard output, and how those on standard error begin; one of the files may be standard input."""
    names = [str(name) for name in files]
    given = b"".join(data for name, data in zip(names, scenes) if name == "-")
    ran = harness.run(program, [*names, *words], given)
    expected = play(*scenes, words)
    begin = words_behind(expected, [name if name != "-" else "standard input" for name in names], scenes)
    found = ran.out.decode(errors="replace").splitlines(), beginnings(ran.lines(), begin)
    inputs = {f"{group}.scene": data for group, data in zip(GROUPS, scenes)}
    asked = shlex.join([*(Path(name).name for name in names), *words])
    comparison.same(asked, inputs, (expected, begin), found)


def compare(words):
    given = harness.words_of(words, default="target/bin/bench", count=100)
    comparison = harness.Comparison(given.seed)
    rng = comparison.rng
    with tempfile.TemporaryDirectory() as folder:
        files = [Path(folder, f"{group}.scene") for group in GROUPS]
        for _ in comparison.cases(given.count):
            scenes = random_bench(rng)
            words = random_words(rng, *scenes)
            for file, data in zip(files, scenes):
                file.write_bytes(data)
            names = rng.choice([files, ["-", files[1]], [files[0], "-"]])
            compare_one(comparison, given.program, names, scenes, words)
    print(f"{given.count} benches alike")
    return 0


def print_bench(words):
    print("\n".join(play(*(Path(name).read_bytes() for name in words[:2]), words[2:])))
    return 0


if __name__ == "__main__":
    sys.exit(harness.main(sys.argv[1:], {"run": print_bench, "compare": compare}, __doc__))
