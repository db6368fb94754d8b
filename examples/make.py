"""Texts, scenes and drawings: makes the bytes of a readable text, the text of bytes, and an OFF text of a drawing.

    make.py scene TEXT [SCENE]    the scene that a text describes; into SCENE, else beside TEXT as NAME.scene
    make.py text SCENE [TEXT]     the text of a scene; into TEXT, else on standard output
    make.py off IN OUT [SCALE]    a text that the program off reads, of any text of the OFF family (COFF, NOFF, 4OFF, ...): numbers
                                  times SCALE and rounded, polygons cut into triangles; each change is said on standard error
    make.py examples              NAME.scene and NAME.report for each NAME.txt of this folder, and the table in README.md
    make.py check                 whether all of those are as they would be written

A name of `-` is standard input or output. What is wrong is said on standard error with the file and the line; the exit status is
then 2, and no file is changed.

One line of a text is one of these; `#` opens a comment, and the text's first comment says what the
scene shows:

    solid A              the lines that follow belong to A (or B)
    v X Y Z [W]          a vertex; the weight is 1 where it is left out
    f I J K              a face: three vertex numbers within the solid, from 1
    far X Y Z [W]        the far point
    like NAME            the bytes of the text NAME.txt in the same folder, to be damaged by the lines below
    record K MARK N ...  writes record K anew
    set OFFSET BYTE ...  writes bytes over those that stand there, whatever they mean
    append BYTE ...      adds bytes at the end
    cut N                takes the last N bytes away
"""

import signal
import sys
from pathlib import Path

from making import drawings, texts
from making.files import Wrong, contents_of, refuse_same, say, write_to

HERE = Path(__file__).resolve().parent
INDEPENDENT = HERE.parent / "tests" / "independent"
TABLE_HEAD = "| name | what it shows | the report begins |\n|---|---|---|\n"


def what_it_shows(name):
    """The first comment of a text: all lines up to the first that is none."""
    words = []
    for line in texts.lines_of(HERE / f"{name}.txt"):
        if not line.startswith("# "):
            break
        words.append(line[2:])
    return " ".join(words)


def reports():
    """How the independent program reports a scene's bytes."""
    if not INDEPENDENT.is_dir():
        raise Wrong(f"{INDEPENDENT}: the examples are made and checked with the programs of this folder, and it is not there")
    sys.path.append(str(INDEPENDENT))
    from exact import read_scene, report
    return lambda data: report(read_scene(data))


def all_files():
    """Each file that is made, with its contents."""
    rows, report = "", reports()
    for name in sorted(path.stem for path in HERE.glob("*.txt")):
        data = texts.scene_of(HERE / f"{name}.txt")
        lines = report(data)
        yield HERE / f"{name}.scene", data
        yield HERE / f"{name}.report", "".join(line + "\n" for line in lines).encode()
        begins = ", ".join(f"`{line}`" for line in lines[1:4] or lines)
        rows += f"| `{name}` | {what_it_shows(name)} | {begins} |\n"
    introduction = contents_of(HERE / "README.md").decode().split(TABLE_HEAD)[0]
    yield HERE / "README.md", (introduction + TABLE_HEAD + rows).encode()


def check():
    made = list(all_files())
    different = [path.name for path, contents in made if not path.exists() or contents_of(path) != contents]
    lines = [f"differs: {name}" for name in different] + [f"{len(made) - len(different)} passed, {len(different)} failed"]
    write_to("-", "".join(line + "\n" for line in lines).encode())
    return 1 if different else 0


def examples():
    made = list(all_files())
    for path, contents in made:
        write_to(path, contents)
    write_to("-", f"{len(made)} files written\n".encode())
    return 0


def scene(source, target=None):
    data = texts.scene_of(source)
    if target is None:
        target = "-" if source == "-" else Path(source).with_suffix(".scene")
    refuse_same(source, target)
    write_to(target, data)
    return 0


def text(source, target="-"):
    made = texts.text_of(source)
    refuse_same(source, target)
    write_to(target, made)
    return 0


def off(source, target, scale=None):
    made, notes = drawings.off_text(source, scale)
    refuse_same(source, target)
    write_to(target, made)
    for note in notes:
        say(f"note: {note}")
    return 0


# Each command, with the fewest and the most words behind it.
COMMANDS = {"scene": (scene, 1, 2), "text": (text, 1, 2), "off": (off, 2, 3), "examples": (examples, 0, 0), "check": (check, 0, 0)}


def main(words):
    command, least, most = COMMANDS.get(words[0] if words else "", (None, 0, 0))
    if command and least <= len(words) - 1 <= most:
        return command(*words[1:])
    if words in (["-h"], ["--help"]):
        write_to("-", __doc__.encode())
        return 0
    say(__doc__.rstrip())
    return 2


def run(words):
    """The exit status; what is wrong is said."""
    try:
        return main(words)
    except Wrong as wrong:
        say(f"make.py: {wrong}")
        return 2


if __name__ == "__main__":
    if hasattr(signal, "SIGPIPE"):  # a reader who has seen enough ends the program, in silence
        signal.signal(signal.SIGPIPE, signal.SIG_DFL)
    try:
        sys.exit(run(sys.argv[1:]))
    except KeyboardInterrupt:
        sys.exit(130)
