"""The calls from Python, many questions in one process: `python/bodhranhaze.py` over the shared library, against the exact programs.

    calls.py compare SEED [COUNT]    random, broken and empty scenes, and changes to them; then the table of vertices in doubles
    calls.py names                   the calls that the module knows are those of the header, with as many words
"""

import re
import struct
import sys
from pathlib import Path

import doubles
import exact
import harness
import session
from judge import FACE_COUNTS, HEADER_BYTES
from scenes import random_scene

ROOT = Path(__file__).resolve().parents[2]
sys.path.append(str(ROOT / "python"))

import bodhranhaze

# The order of the counted colours.
COLOURS = ["apart", "enclosed", "cross", "refused"]


def told(ask, *words):
    """What a question answers; a refusal as its line."""
    try:
        return ask(*words)
    except (bodhranhaze.Refused, exact.Refused) as refused:
        return getattr(refused, "line", None) or str(refused)


def report(scene):
    """The lines of a report, each number by the question that is for it."""
    line = told(scene.verdict)
    if isinstance(line, str):
        return [line]
    counts = scene.counts()
    return ["scene {} {} {} {}".format(*scene.data[2:HEADER_BYTES]), f"verdict {line}", f"inside {counts.a_in_b} {counts.b_in_a}",
            f"pairs {counts.pairs}", *("{} {} {}".format(*pair) for pair in scene.listing())]


def everything(data):
    """What the one question for everything tells, by the exact program."""
    scene = exact.read_scene(data)
    if isinstance(scene, exact.Refused):
        return scene.line
    return scene.verdict()[0], (len(scene.listing), *map(len, scene.inside)), scene.listing, [*scene.inside[0], *scene.inside[1]]


def surveyed(data):
    answer = told(bodhranhaze.Scene(data).survey)
    return answer if isinstance(answer, str) else (str(answer.verdict), tuple(answer.counts), answer.listing, answer.enclosed)


def compare_questions(comparison, data, counts, tally):
    scene, inputs = bodhranhaze.Scene(data), {"scene": data}
    lines = exact.report(exact.read_scene(data))
    comparison.same("the report", inputs, lines, report(scene))
    comparison.same("everything at once", inputs, everything(data), surveyed(data))
    colour = {"a-in-b": "enclosed", "b-in-a": "enclosed"}.get(lines[1].split()[1], lines[1].split()[1]) if lines[1:] else "refused"
    tally[COLOURS.index(colour)] += 1
    comparison.same("the light", inputs, COLOURS.index(colour), scene.light(counts).value)
    comparison.same("the counts of the light", inputs, tuple(tally), bodhranhaze.counted(counts))


def changed(scene, name, numbers):
    """The bytes after a step, or a refusal's line."""
    if name == "move":
        answer = told(scene.moved, numbers[0], tuple(numbers[1:]))
    else:
        answer = told(scene.moved_far, tuple(numbers)) if name == "far" else told(scene.reversed, *numbers)
    return answer if isinstance(answer, str) else answer.data


def compare_changes(comparison, data):
    """A few steps on a scene, or one on what is no scene, which tells the scene's own refusal."""
    held = session.Session()
    own = told(held.open, data)
    for _ in range(1 if own else 4):
        name, numbers = session.random_step(comparison.rng, data)
        before = data if own else held.data
        expected = own or told(getattr(held, name), *numbers) or held.data
        comparison.same(f"{name} {numbers}", {"scene": before}, expected, changed(bodhranhaze.Scene(before), name, numbers))


def compare_vertices(comparison):
    for vertex in (vertex for entry in doubles.table() for vertex in entry):
        row, refused = doubles.taken(vertex)
        found = told(bodhranhaze.take, *struct.unpack("<4d", struct.pack("<4Q", *vertex)))
        comparison.same(f"a vertex {vertex}", {}, tuple(row) if row else "refused {} {}".format(*refused), found)


def compare(words):
    given = harness.words_of(words, count=2000)
    comparison = harness.Comparison(given.seed)
    counts, tally = bytearray(16), [0] * 4
    for _ in comparison.cases(given.count):
        data = random_scene(comparison.rng)
        compare_questions(comparison, data, counts, tally)
        compare_changes(comparison, data)
    compare_vertices(comparison)
    print(f"{given.count} scenes and their changes alike from Python: green, amber, red, dark {tally}")
    return 0


def names(_):
    """Each call of the header with how many words it takes, against the module's table."""
    header = re.sub(r"\s+", " ", (ROOT / "include/bodhranhaze.h").read_text())
    declared = {name: words.count(",") + 1 for name, words in re.findall(r"size_t bodhranhaze_(\w+)\(([^)]*)\);", header)}
    known = {name: len(takes) for name, takes in bodhranhaze._CALLS.items()}
    for name in sorted({*declared, *known}):
        if declared.get(name) != known.get(name):
            print(f"bodhranhaze_{name}: {declared.get(name)} words in the header, {known.get(name)} in the module")
    longest = 3 * 2 * FACE_COUNTS[-1] ** 2
    if bodhranhaze._PLACES != longest:
        print(f"the longest listing has {longest} places, and in the module {bodhranhaze._PLACES}")
    print(f"{len(known)} calls")
    return 0 if declared == known and bodhranhaze._PLACES == longest else 1


if __name__ == "__main__":
    sys.exit(harness.main(sys.argv[1:], {"compare": compare, "names": names}, __doc__))
