"""Runs examples/make.py as a user does, and reads drawings of many dialects.

    selftest.py [MAKE]    MAKE is the make.py to run, with the folder `making` beside it; else that of the examples
"""

import random
import shutil
import subprocess
import sys
import tempfile
from itertools import product
from pathlib import Path

ROOT = Path(__file__).resolve().parent.parent.parent
MAKE = Path(sys.argv[1]).resolve() if sys.argv[1:] else ROOT / "examples" / "make.py"
sys.path[:0] = [str(Path(__file__).resolve().parent), str(MAKE.parent), str(ROOT / "tests" / "independent")]

import dialects
import shapes
from cases import CLOSED, DRAWINGS, TETRAHEDRON, TEXT, WRONG_DRAWINGS, WRONG_TEXTS
from making import drawings, polygons, texts
from making.files import Wrong
from off import Refused, solid
from runner import Bench, as_nobody, with_full_output, with_small_files, without

# ---- texts and scenes -----------------------------------------------------------------------


def wrong_texts(bench):
    scene = bench.file("a.scene", b"as it was")
    for name, text, words in WRONG_TEXTS:
        bench.file("a.txt", text)
        bench.said(name, ["scene", "a.txt"], 2, words)
    bench.check("a scene stays where its text is wrong", scene.read_bytes() == b"as it was")


def accepted_texts(bench):
    plain = bench.run(["scene", "-"], TEXT)
    bench.check("a text on standard input", plain[0] == 0 and plain[1][:2] == b"SC" and not plain[2], plain)
    windows = bench.run(["scene", "-"], TEXT.replace(b"\n", b"\r\n"))
    note = "note: standard input, line 1: this line ends as in Windows"
    bench.check("CRLF", windows[:2] == plain[:2] and windows[2].startswith(note), windows)
    marked = bench.run(["scene", "-"], b"\xef\xbb\xbf" + TEXT)
    note = "note: standard input, line 1: a byte order mark is passed over\n"
    bench.check("a byte order mark", marked[:2] == plain[:2] and marked[2] == note, marked)
    back = bench.run(["text", "-"], plain[1])
    bench.check("the text of a scene makes the scene", bench.run(["scene", "-"], back[1])[1] == plain[1], back)
    path = bench.file("mine.txt", TEXT)
    bench.said("a scene beside its text", ["scene", str(path)], 0, "")
    bench.check("a scene beside its text is whole", path.with_suffix(".scene").read_bytes() == plain[1])
    bench.said("a text of a text", ["text", "mine.txt"], 2, "this looks like a text")
    bench.said("a text of a cut scene", ["text", "-"], 2, "standard input: the counts ask for", data=plain[1][:-1])


# ---- files ----------------------------------------------------------------------------------


def files_that_cannot_be_read(bench):
    bench.file("locked", TEXT).chmod(0)
    for command in "scene", "text", "off":
        more = ["out"] if command == "off" else []
        bench.said(f"{command} of a folder", [command, ".", *more], 2, "make.py: .: Is a directory")
        bench.said(f"{command} of nothing", [command, "nothing", *more], 2, "make.py: nothing: No such file or directory")
        bench.said(f"{command} of a locked file", [command, "locked", *more], 2, "make.py: locked: Permission denied", before=as_nobody)
        bench.said(f"{command} of a closed standard input", [command, "-", *more], 2, "make.py: standard input: ", before=without(0))


def inputs(bench):
    """A command, and what it takes."""
    return [("scene", TEXT), ("text", bench.run(["scene", "-"], TEXT)[1]), ("off", b"OFF " + TETRAHEDRON)]


def outputs_that_cannot_be_written(bench):
    troubles = ("No space left on device", with_full_output), ("Bad file descriptor", without(1))
    for (command, data), (what, before) in product(inputs(bench), troubles):
        bench.said(f"{command}: {what}", [command, "-", "-"], 2, f"make.py: standard output: {what}", data=data, before=before)
    bench.said("help: no space", ["--help"], 2, "make.py: standard output: No space left on device", before=with_full_output)
    alone = bench.run(["off", "-", "-"], TETRAHEDRON, without(2))
    bench.check("a closed standard error", alone == (0, b"OFF\n" + TETRAHEDRON, ""), alone)


def files_that_cannot_be_written(bench):
    bench.file("mine.txt", TEXT)
    scene = bench.file("mine.scene", b"as it was")
    bench.said("a full device", ["scene", "mine.txt", "/dev/full"], 2, "make.py: /dev/full: No space left on device")
    bench.said("no folder", ["scene", "mine.txt", "no/where"], 2, "make.py: no/where: No such file or directory")
    bench.said("a folder", ["scene", "mine.txt", "."], 2, "make.py: .: Is a directory")
    bench.said("no name", ["scene", "mine.txt", ""], 2, "make.py: : Is a directory")
    bench.said("a disk that fills", ["scene", "mine.txt"], 2, "make.py: mine.scene: File too large", before=with_small_files)
    scene.chmod(0o444)
    bench.said("a file that is not one's own", ["scene", "mine.txt"], 2, "make.py: mine.scene: Permission denied", before=as_nobody)
    bench.check("after failing writes a file is as it was", scene.read_bytes() == b"as it was")


def inputs_are_kept(bench):
    (bench.work / "link").symlink_to("same")
    for command, data in inputs(bench):
        same = bench.file("same", data)
        bench.said(f"{command} into its input", [command, "same", "./same"], 2, "which would be lost")
        bench.said(f"{command} through a link into its input", [command, "same", "link"], 2, "which would be lost")
        bench.check(f"{command}: the input is as it was", same.read_bytes() == data)
    bench.said("through a link", ["scene", "mine.txt", "link"], 0, "")
    scene = bench.run(["scene", "-"], TEXT)[1]
    bench.check("what the link names is written", (bench.work / "link").is_symlink() and same.read_bytes() == scene)


def alone(bench):
    """The program as it is installed, with nothing of the project around it."""
    shutil.copy(MAKE, bench.folder / "make.py")
    shutil.copytree(MAKE.parent / "making", bench.folder / "making", ignore=shutil.ignore_patterns("__pycache__"))
    scene = bench.run(["scene", "-"], TEXT)[1]
    text = bench.run(["text", "-"], scene)[1]
    for words, data, expected in (["scene", "-"], TEXT, (0, scene)), (["text", "-"], scene, (0, text)), (["check"], b"", (2, b"")), \
            (["off", "-", "-"], TETRAHEDRON, (0, b"OFF\n" + TETRAHEDRON)):
        command = [sys.executable, "-B", str(bench.folder / "make.py"), *words]
        ran = subprocess.run(command, input=data, capture_output=True, cwd=bench.work, check=False)
        bench.check(f"alone: {words}", (ran.returncode, ran.stdout) == expected and b"Traceback" not in ran.stderr, ran)


def wrong_use(bench):
    for words in [], ["nothing"], ["scene"], ["off", "a"], ["check", "x"], ["off", "a", "b", "1", "2"]:
        ended, out, err = bench.run(words)
        bench.check(f"wrong use {words}", ended == 2 and not out and "make.py scene TEXT" in err, (ended, out, err))
    ended, out, err = bench.run(["--help"])
    bench.check("help", ended == 0 and b"make.py off IN OUT" in out and b"far X Y Z" in out and not err, (ended, out, err))


# ---- drawings -------------------------------------------------------------------------------

def wrong_drawings(bench):
    for name, text, words in WRONG_DRAWINGS:
        bench.file("a.off", text)
        bench.said(f"drawing: {name}", ["off", "a.off", "out.off"], 2, words)
    bench.file("a.off", b"OFF\n" + TETRAHEDRON)
    for scale in "0", "-1", "1/2", "x", "":
        bench.said(f"a scale {scale}", ["off", "a.off", "out.off", scale], 2, "is no number greater than 0")
    bench.check("nothing is written of a wrong drawing", not (bench.work / "out.off").exists())


def drawings_and_notes(bench):
    for name, text, scale, notes, written in DRAWINGS:
        ended, out, err = bench.run(["off", "-", "-"] + ([scale] if scale else []), text)
        held = ended == 0 and all(note in err for note in notes) and all(line.startswith("note: ") for line in err.splitlines())
        bench.check(f"drawing: {name}", held and written in (None, out), (ended, out, err))


def as_read(path, scale=None):
    """The rows and the corners, from 1, of the text made of a drawing, by the independent reader of the form."""
    text, notes = drawings.off_text(path, scale)
    return *solid(text, 0), notes


def dialects_at_random(bench, count):
    """A solid in any dialect is the solid, whole number by whole number, and as large as it is."""
    rng = random.Random(1)
    for k in range(count):
        rows, faces, volume = shapes.solid(rng)
        text = dialects.written(rng, rows, faces)
        path = bench.file("random.off", text)
        try:
            seen, triangles, notes = as_read(path)
            held = [row[:3] for row in seen] == rows and shapes.volume(rows, triangles) == volume and CLOSED[6:] in notes[-1]
        except (Wrong, Refused) as error:
            held, seen = False, error
        bench.check(f"dialect {k}", held, (seen, text))


def damage_at_random(bench, count):
    """Whatever the text, it is refused in words or made into a text of the form."""
    rng, taken = random.Random(2), 0
    for k in range(count):
        rows, faces, _ = shapes.solid(rng)
        text = dialects.damaged(rng, dialects.written(rng, rows, faces))
        path = bench.file("random.off", text)
        try:
            as_read(path, rng.choice([None, "3", "0.01"]))
            taken += 1
        except Wrong:
            pass
        except Exception as error:
            bench.check(f"damage {k}", False, (repr(error), text))
    bench.check("some damaged texts are taken, and some are not", 0 < taken < count, taken)


def texts_at_random(bench, count):
    """Whatever the text, it is refused in words or made into bytes."""
    rng, taken, texts.say = random.Random(3), 0, lambda line: None
    for k in range(count):
        path = bench.file("random.txt", dialects.damaged(rng, TEXT + rng.choice([b"", b"record 2 VX 1 2 3 4\n", b"set 4 5\ncut 3\n"])))
        try:
            texts.scene_of(path)
            taken += 1
        except Wrong:
            pass
        except Exception as error:
            bench.check(f"text {k}", False, (repr(error), path.read_bytes()))
    bench.check("some damaged texts make bytes, and some do not", 0 < taken < count, taken)


def polygons_at_random(bench, count):
    """The triangles of a polygon turn as it does, are n - 2, and meet along its diagonals: they cover it once."""
    rng, bent = random.Random(4), 0
    for k in range(count):
        flat = shapes.polygon(rng)
        bent += not polygons.is_convex(flat)
        triangles = polygons.ears(flat)
        turns = [polygons.turn(*(flat[corner] for corner in triangle)) for triangle in triangles]
        held = not polygons.meets_itself(flat) and min(turns) > 0 and len(triangles) == len(flat) - 2
        held = held and shapes.border(triangles) == {(i, (i + 1) % len(flat)) for i in range(len(flat))}
        bench.check(f"polygon {k}", held and sum(turns) == shapes.area(flat), flat)
        tilted = shapes.in_space(rng, flat)
        bench.check(f"polygon {k} in space", drawings.triangles_of(tilted) == (triangles, polygons.is_convex(flat)), tilted)
    bench.check("some polygons are not convex, and some are", 0 < bent < count, bent)
    for k in range(3, 12):
        convex = [(i, i * i) for i in range(k)]
        bench.check(f"a fan of {k} corners", polygons.ears(convex) == polygons.fan(k))


def main():
    with tempfile.TemporaryDirectory() as folder:
        bench = Bench(Path(folder))
        for test in (alone, wrong_texts, accepted_texts, files_that_cannot_be_read, outputs_that_cannot_be_written,
                     files_that_cannot_be_written, inputs_are_kept, wrong_use, wrong_drawings, drawings_and_notes):
            test(bench)
        for test in dialects_at_random, damage_at_random, texts_at_random, polygons_at_random:
            test(bench, 300)
    print(f"{bench.passed} passed, {bench.failed} failed")
    return 1 if bench.failed else 0


if __name__ == "__main__":
    sys.exit(main())
