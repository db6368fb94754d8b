"""The limits that the header for C states, against the constants of the source and the numbers of the independent programs.

    header_limits.py [ROOT]    ROOT is the folder with include/ and crates/; else this project's own
"""

import re
import sys
from pathlib import Path

HERE = Path(__file__).resolve()
ROOT = Path(sys.argv[1]) if sys.argv[1:] else HERE.parents[2]
sys.path.append(str(HERE.parents[1] / "independent"))

from judge import COORDINATES, FACE_COUNTS, LONGEST_SCENE, VERTEX_COUNTS, WEIGHTS

# A listing has three numbers for each pair, and no more pairs than twice the product of both solids' faces.
REQUIRED = {"MOST_VERTICES": VERTEX_COUNTS[-1], "MOST_FACES": FACE_COUNTS[-1], "MOST_COORDINATE": COORDINATES[-1],
            "MOST_WEIGHT": WEIGHTS[-1], "LONGEST": LONGEST_SCENE, "PLACES": 3 * 2 * FACE_COUNTS[-1] ** 2}


def value(name, stated):
    """The number that a definition comes to: sums and products of numbers and of other definitions."""
    text = re.sub("[A-Z_]+", lambda found: str(value(found[0], stated)), stated[name])
    if not re.fullmatch("[0-9+*() -]+", text):
        raise ValueError(f"{name} = {stated[name]}: no sum or product that can be read")
    return eval(text)


def values(definitions):
    return {name: value(name, definitions) for name in definitions}


def in_header():
    """The limits are the first enumeration."""
    text = re.sub(r"/\*.*?\*/", "", (ROOT / "include/bodhranhaze.h").read_text(), flags=re.S)
    limits = re.search(r"enum\s*{(.*?)}", text, re.S)[1].replace("BODHRANHAZE_", "")
    return values(dict(re.findall(r"([A-Z_]+)\s*=\s*([^,]+?)\s*(?:,|$)", limits)))


def in_source():
    """The constants of `Scene`; the room for a listing follows from the constant of its pairs, which stands in a crate above."""
    def constants(files, name):
        texts = "".join(path.read_text() for path in sorted(ROOT.glob(files)))
        return {found: text.replace("Scene::", "") for found, text in re.findall(rf"pub const ({name}): usize = ([^;]+);", texts)}

    scene = constants("crates/scene/src/*.rt", "[A-Z_]+")
    pairs = constants("crates/questions/src/*.rt", "MOST_PAIRS")
    return values({**scene, **pairs, "PLACES": "3 * MOST_PAIRS"})


def main():
    header, source = in_header(), in_source()
    wrong = 0
    for name in sorted({*header, *REQUIRED}):
        found = header.get(name), source.get(name), REQUIRED.get(name)
        if None in found or len(set(found)) > 1:
            wrong += 1
            print("BODHRANHAZE_{}: the header has {}, the source {}, the independent programs {}".format(name, *found))
    alike = f"{len(REQUIRED)} limits of the header are those of the source and of the independent programs"
    print(f"{wrong} differ" if wrong else alike)
    return 1 if wrong else 0


if __name__ == "__main__":
    sys.exit(main())
