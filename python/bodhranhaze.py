"""Questions to a scene of two solids, asked of the proved library libbodhranhaze.

    >>> scene = Scene.read(EXAMPLES / "printed.scene")
    >>> print(scene.verdict())
    cross
    >>> scene.counts()
    Counts(pairs=3, a_in_b=0, b_in_a=1)
    >>> scene.listing()[0]
    Pair(lower=5, higher=6, face=1)

A scene is any bytes; each question judges them first, and one that is refused raises `Refused`, with the number and the place that
docs/SCENE.md has.  A scene never changes: `moved`, `moved_far` and `reversed` answer another one.

    >>> print(scene.moved(5, (1, 1, -5, 1)).verdict())
    apart
    >>> scene.moved(5, (4096, 0, 0, 1))
    Traceback (most recent call last):
    ...
    bodhranhaze.Refused: refused 5 5

The library is the file that BODHRANHAZE_LIBRARY names, or the one of the tree or repository in which this file stands, or else the
system's.  This file needs Python 3.6 and nothing beside it.
"""

import ctypes
import enum
import operator
import os
from pathlib import Path
from typing import Any, List, NamedTuple, Optional, Tuple, Union

__all__ = ["Colour", "Counts", "Pair", "Refused", "Row", "Scene", "Survey", "Verdict", "counted", "take"]

_HERE = Path(__file__).resolve().parent
# The scenes that come with this file, in the repository and in the installed tree alike.
EXAMPLES = _HERE.parent / "examples"

Row = Tuple[int, int, int, int]
"""A point's four numbers: x, y, z, weight."""


# ---- the library


# The widths of the header's types.
_Size, _Whole, _Double = ctypes.c_size_t, ctypes.c_int64, ctypes.c_double
# Bytes that a call only reads, and places that are lent to it; each of the two is followed by its length.
_READ = [ctypes.c_char_p, _Size]
_LENT = [ctypes.c_void_p, _Size]

# Every call of the header answers a number. What it takes:
_CALLS = {
    "refusal": [*_READ],
    "place": [*_READ],
    "verdict": [*_READ],
    "pairs": [*_READ],
    "inside": [*_READ, _Size],
    "inside_refusal": [*_READ, _Size],
    "listing": [*_READ, *_LENT],
    "listing_refusal": [*_READ, _Size],
    "survey": [*_READ, *_LENT, *_LENT],
    "move": [*_LENT, _Size, _Whole, _Whole, _Whole, _Whole],
    "move_far": [*_LENT, _Whole, _Whole, _Whole, _Whole],
    "reverse": [*_LENT, _Size],
    "take": [_Double, _Double, _Double, _Double, *_LENT],
    "take_place": [_Double, _Double, _Double, _Double],
    "light": [*_READ, *_LENT],
}

# Of the header: the places of the longest listing, those of the facts, and the bytes of a vertex's record.
_PLACES, _FACTS, _RECORD = 3 * 2 * 96 * 96, 8, 9
# The numbers of refusals that are no scene's own.
_NO_ROOM, _LACKING = 10, 11


def _found() -> str:
    """The library's file; a name without a folder is looked for by the system."""
    beside = [_HERE.parent / "target/shared/libbodhranhaze.so", _HERE / "../../../lib/libbodhranhaze.so.1"]
    given = os.environ.get("BODHRANHAZE_LIBRARY")
    return given or next((str(path) for path in beside if path.exists()), "libbodhranhaze.so.1")


def _loaded() -> ctypes.CDLL:
    library = ctypes.CDLL(_found())
    for name, takes in _CALLS.items():
        call = getattr(library, f"bodhranhaze_{name}")
        call.argtypes, call.restype = takes, _Size
    return library


_library = _loaded()


def _ask(name: str, *words: Any) -> int:
    answer: int = getattr(_library, f"bodhranhaze_{name}")(*words)
    return answer


def _whole(number: int) -> int:
    """A number as the library takes it.  One that is too large for that is as far outside every limit as the largest."""
    return max(-2**63, min(2**63 - 1, operator.index(number)))


def _numbered(number: int) -> int:
    """The number of a point or a face.  No scene has one that is below 1 or beyond any size, nor number 0."""
    number = operator.index(number)
    return number if 0 < number < 2**31 else 0


def _lent(data: bytes) -> "ctypes.Array[ctypes.c_uint8]":
    """A copy that may be written.  It has a place more, since no pointer may be null."""
    return (ctypes.c_uint8 * (len(data) + 1)).from_buffer_copy(data + b"\0")


# ---- the answers


class Refused(ValueError):
    """What was asked is refused: the refusal's number and its place.

    >>> try:
    ...     Scene(b"SC").verdict()
    ... except Refused as refused:
    ...     print(refused.number, refused.place)
    1 0
    """

    def __init__(self, number: int, place: int) -> None:
        super().__init__(number, place)
        self.number, self.place = number, place

    def __str__(self) -> str:
        return f"refused {self.number} {self.place}"


class Verdict(enum.Enum):
    """How two solids lie; as a text, the word of a report."""

    CROSS, A_IN_B, B_IN_A, APART = range(4)

    def __str__(self) -> str:
        return self.name.lower().replace("_", "-")


class Colour(enum.Enum):
    """The fit light: green for apart, amber for enclosed, red for crossing, dark for refused."""

    GREEN, AMBER, RED, DARK = range(4)

    def __str__(self) -> str:
        return self.name.lower()


class Counts(NamedTuple):
    """How many pairs there are, how many vertices of A are enclosed by B, and of B by A."""

    pairs: int
    a_in_b: int
    b_in_a: int


class Pair(NamedTuple):
    """An edge, by its lower and its higher point, and a face that it pierces."""

    lower: int
    higher: int
    face: int


class Survey(NamedTuple):
    """Everything that is asked of a whole scene.  The enclosed vertices are point numbers, of A's vertices and then of B's."""

    verdict: Verdict
    counts: Counts
    listing: List[Pair]
    enclosed: List[int]


def _ones(word: int) -> List[int]:
    """The numbers, from 1, of a word's bits that are set."""
    return [j + 1 for j in range(word.bit_length()) if word >> j & 1]


# ---- a scene


class Scene:
    """The bytes of a scene, whether they are accepted or not.

    >>> Scene.read(EXAMPLES / "apart.scene")
    <Scene of 129 bytes>
    >>> Scene(b"").refusal()
    (1, 0)
    """

    __slots__ = ("_data",)

    def __init__(self, data: Union[bytes, bytearray, memoryview]) -> None:
        self._data = bytes(data)

    @property
    def data(self) -> bytes:
        """The scene's bytes."""
        return self._data

    @classmethod
    def read(cls, path: "Union[str, os.PathLike[str]]") -> "Scene":
        """The scene that a file has; only reading may fail here, nothing is judged."""
        return cls(Path(path).read_bytes())

    def write(self, path: "Union[str, os.PathLike[str]]") -> None:
        """Writes the scene's bytes to a file."""
        Path(path).write_bytes(self.data)

    def __eq__(self, other: object) -> bool:
        return isinstance(other, Scene) and self.data == other.data

    def __hash__(self) -> int:
        return hash(self.data)

    def __repr__(self) -> str:
        return f"<Scene of {len(self.data)} bytes>"

    # ---- the questions

    def refusal(self) -> Optional[Tuple[int, int]]:
        """The number and the place of the scene's refusal; None where it is accepted.

        >>> Scene.read(EXAMPLES / "refused-6-zero.scene").refusal()
        (6, 5)
        >>> Scene.read(EXAMPLES / "printed.scene").refusal()
        """
        number = _ask("refusal", self.data, len(self.data))
        return (number, _ask("place", self.data, len(self.data))) if number else None

    def verdict(self) -> Verdict:
        """The verdict alone, which is found sooner than everything.

        >>> [str(Scene.read(EXAMPLES / f"{name}.scene").verdict()) for name in ("printed", "a-in-b", "direction-b-in-a", "apart")]
        ['cross', 'a-in-b', 'b-in-a', 'apart']
        >>> Scene.read(EXAMPLES / "refused-9-one.scene").verdict()
        Traceback (most recent call last):
        ...
        bodhranhaze.Refused: refused 9 10
        """
        number = _ask("verdict", self.data, len(self.data))
        if number == len(Verdict):
            self._accepted()
        return Verdict(number)

    def counts(self) -> Counts:
        """The counts of a report.

        >>> Scene.read(EXAMPLES / "a-in-b.scene").counts()
        Counts(pairs=0, a_in_b=4, b_in_a=0)
        """
        return self._surveyed(0).counts

    def listing(self) -> List[Pair]:
        """Every pair once, in the order of a report.

        >>> for pair in Scene.read(EXAMPLES / "printed.scene").listing():
        ...     print(*pair)
        5 6 1
        5 7 1
        5 8 1
        """
        return self._surveyed(_PLACES).listing

    def survey(self) -> Survey:
        """Everything at once: the scene is judged, decoded and surveyed one time.

        >>> everything = Scene.read(EXAMPLES / "printed.scene").survey()
        >>> everything.enclosed, everything.counts == Scene.read(EXAMPLES / "printed.scene").counts()
        ([5], True)
        """
        return self._surveyed(_PLACES)

    def light(self, counts: bytearray) -> Colour:
        """The colour of the fit light, counted in sixteen lent bytes; `counted` reads them.

        Refused 16 where they are not sixteen bytes or add up to 1,000,000; they then keep their contents.

        >>> lent = bytearray(16)
        >>> print(Scene.read(EXAMPLES / "printed.scene").light(lent), Scene(b"").light(lent), counted(lent))
        red dark (0, 0, 1, 1)
        >>> Scene(b"").light(bytearray(15))
        Traceback (most recent call last):
        ...
        bodhranhaze.Refused: refused 16 0
        """
        lent = _lent(bytes(counts))
        number = _ask("light", self.data, len(self.data), lent, len(counts))
        if number >= len(Colour):
            raise Refused(number, 0)
        counts[:] = bytes(lent)[:len(counts)]
        return Colour(number)

    # ---- the changes

    def moved(self, point: int, row: Row) -> "Scene":
        """The scene with a vertex moved to a row; the vertex is named by its point number.

        >>> scene = Scene.read(EXAMPLES / "printed.scene")
        >>> scene.moved(5, (1, 1, 1, 1)) == scene, scene.moved(5, (2, 1, 1, 1)) == scene
        (True, False)
        >>> scene.moved(9, (1, 1, 1, 1))
        Traceback (most recent call last):
        ...
        bodhranhaze.Refused: refused 11 0
        """
        x, y, z, weight = map(_whole, row)
        return self._changed(point, "move", _numbered(point), x, y, z, weight)

    def moved_far(self, row: Row) -> "Scene":
        """The scene with the far point moved; of weight 0 it is a direction.

        >>> scene = Scene.read(EXAMPLES / "printed.scene")
        >>> print(scene.moved_far((0, 0, 1, 0)).verdict())
        cross
        >>> scene.moved_far((0, 0, 0, 0))
        Traceback (most recent call last):
        ...
        bodhranhaze.Refused: refused 14 9
        """
        x, y, z, weight = map(_whole, row)
        return self._changed(sum(self.data[2:5:2]) + 1, "move_far", x, y, z, weight)

    def reversed(self, face: int) -> "Scene":
        """The scene with a face's first and third corners swapped, which changes no answer.

        >>> scene = Scene.read(EXAMPLES / "printed.scene")
        >>> scene.reversed(1) == scene, scene.reversed(1).reversed(1) == scene, scene.reversed(1).listing() == scene.listing()
        (False, True, True)
        """
        return self._changed(0, "reverse", _numbered(face))

    # ---- what these share

    def _accepted(self) -> None:
        refusal = self.refusal()
        if refusal:
            raise Refused(*refusal)

    def _surveyed(self, places: int) -> Survey:
        """Everything; the listing all or nothing, as there is room.  The facts are told in any case."""
        listed, facts = (ctypes.c_uint16 * (places + 1))(), (ctypes.c_uint64 * _FACTS)()
        refused = _ask("survey", self.data, len(self.data), listed, places, facts, _FACTS)
        if refused not in (0, _NO_ROOM):
            raise Refused(facts[0], facts[1])
        numbers = listed[:0 if refused else 3 * facts[3]]
        pairs = [Pair(*numbers[i:i + 3]) for i in range(0, len(numbers), 3)]
        enclosed = _ones(facts[6]) + [self.data[2] + j for j in _ones(facts[7])]
        return Survey(Verdict(facts[2]), Counts(facts[3], facts[4], facts[5]), pairs, enclosed)

    def _changed(self, point: int, name: str, *words: int) -> "Scene":
        """The scene after a change.  A refused one's place is the point that was to be moved, or 0 where the scene lacks the number."""
        lent = _lent(self.data)
        number = _ask(name, lent, len(self.data), *words)
        if number:
            self._accepted()
            raise Refused(number, 0 if number == _LACKING else point)
        return Scene(bytes(lent)[:len(self.data)])


# ---- beside a scene


def take(x: float, y: float, z: float, weight: float) -> Row:
    """A vertex of four doubles as a row, exactly when all four are whole numbers within the limits.  The place of a refusal is 1 to 4.

    >>> take(1.0, -0.0, 4095.0, -16.0)
    (1, 0, 4095, -16)
    >>> take(1.0, 0.5, 0.0, 1.0)
    Traceback (most recent call last):
    ...
    bodhranhaze.Refused: refused 15 2
    """
    vertex = float(x), float(y), float(z), float(weight)
    lent = _lent(bytes(_RECORD))
    number = _ask("take", *vertex, lent, _RECORD)
    if number:
        raise Refused(number, _ask("take_place", *vertex))
    record = bytes(lent)
    first, second, third = (int.from_bytes(record[at:at + 2], "little", signed=True) for at in (2, 4, 6))
    return first, second, third, int.from_bytes(record[8:9], "little", signed=True)


def counted(counts: Union[bytes, bytearray]) -> Tuple[int, int, int, int]:
    """The sixteen bytes of `Scene.light` as four counts: green, amber, red, dark."""
    green, amber, red, dark = (int.from_bytes(counts[at:at + 4], "little") for at in (0, 4, 8, 12))
    return green, amber, red, dark
