"""The shipped vectors: random scenes and what is printed for them.

    vectors.py make     chooses the scenes anew and writes both files
    vectors.py check    derives the prints of the stored scenes anew and compares them

The scenes stand in one file of entries: two bytes of length, low byte first, then the scene's
bytes.  For each scene the print is its report and, where the scene is accepted, the answers to
the questions below, one after the other, as `ask` prints them; all of it twice, since the kernel
is asked by both of its engines.
"""

import random
import sys
from collections import Counter
from pathlib import Path

from exact import Refused, ask, read_scene, report
from harness import first_other
from judge import LONGEST_SCENE, judge
from scenes import kind_of_scene, random_scene

CRATE = Path(__file__).resolve().parents[2] / "crates" / "test_vectors"
SCENES, PRINTS = CRATE / "stdin", CRATE / "stdout"

SEED = 5
REFUSED_KINDS = (
    "refused 1 bytes", "refused 1 mark", "refused 2", "refused 3 short", "refused 3 long",
    "refused 3 longest", "refused 4 FP", "refused 4 VX of A", "refused 4 VX of B",
    "refused 4 FC of A", "refused 4 FC of B", "refused 4 EN", "refused 5 FP", "refused 5 VX of A",
    "refused 5 VX of B", "refused 6 FP", "refused 6 VX of A", "refused 6 VX of B",
    "refused 7 FC of A", "refused 7 FC of B", "refused 8 point of A", "refused 8 point of B",
    "refused 9 FC of A", "refused 9 FC of B", "refused 14 FP")
# How many scenes of each kind; `largest` has every count at its limit.
QUOTAS = {"verdict cross": 160, "verdict apart": 110, "verdict a-in-b": 90, "verdict b-in-a": 90,
          "largest": 3, **dict.fromkeys(REFUSED_KINDS, 12), "refused 3 longest": 4}
LONG_LISTING = 1000


def questions(n, data):
    """The questions to the n-th scene (n from 0), which depend on n and on the header's counts."""
    a, fa, b, fb = data[2:6]
    points, faces = a + b + 1, fa + fb
    return [
        ("sign", 1, 2, 3, 4),
        ("sign", 1 + n % points, 1 + n // 2 % points, 1 + (3 * n + 1) % points,
         1 + (5 * n + 2) % points),
        ("pierces", 1 + n % a, points, 1 + fa + n % fb),
        ("pierces", 1 + n % points, 1 + n // 2 % points, 1 + n % (faces + 1)),
        ("mask", a + 1 + n % b, points, 1),
        ("mask", 1 + n % points, points, 1 + n % 3),
        ("enclosed", 1 + n % (points + 1)),
        ("verdict",),
        ("record", n % (points + faces + 3)),
        ("listing", n % 100),
    ]


def print_of(n, data):
    """What is printed for the n-th scene."""
    scene = read_scene(data)
    lines = report(scene)
    if not isinstance(scene, Refused):
        for question in questions(n, data):
            lines += ask(scene, [str(word) for word in question])
    return 2 * "".join(line + "\n" for line in lines)


def packed(scenes):
    return b"".join(len(data).to_bytes(2, "little") + data for data in scenes)


def unpacked(stored):
    scenes, start = [], 0
    while start < len(stored):
        end = start + 2 + int.from_bytes(stored[start:start + 2], "little")
        scenes.append(stored[start + 2:end])
        start = end
    return scenes


def chosen_scenes():
    """Random scenes until every kind has its quota; long listings only from the largest scenes."""
    rng, wanted, scenes = random.Random(SEED), Counter(QUOTAS), []
    while any(wanted.values()):
        data = random_scene(rng)
        largest = len(data) == LONGEST_SCENE and judge(data) is None
        kind = "largest" if largest else kind_of_scene(data)
        if wanted[kind] and (largest or len(print_of(0, data).splitlines()) < LONG_LISTING):
            wanted[kind] -= 1
            scenes.append(data)
    return scenes


def make():
    scenes = chosen_scenes()
    SCENES.parent.mkdir(parents=True, exist_ok=True)
    SCENES.write_bytes(packed(scenes))
    PRINTS.write_text("".join(print_of(n, data) for n, data in enumerate(scenes)))
    print(f"{len(scenes)} scenes written")
    return 0


def check():
    """Each scene's print must follow in the stored prints, and nothing may be left over."""
    scenes = unpacked(SCENES.read_bytes())
    other = first_other((print_of(n, data) for n, data in enumerate(scenes)), PRINTS.read_text())
    passed = other[0] if other else len(scenes)
    if other:
        print(f"the stored print of scene {passed} differs: {scenes[passed].hex()}")
    print(f"{passed} passed, {len(scenes) - passed} failed")
    return 1 if other else 0


if __name__ == "__main__":
    sys.exit({"make": make, "check": check}[sys.argv[1]]())
