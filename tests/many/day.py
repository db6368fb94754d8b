"""The office's day: 300 files, among them one three bytes short, a text and an empty one; a table, a report, blocks, their report."""

import random

from checks import run
from lines import lines
from office import Office, independent

COUNT = 300
TABLE, CLASS, PACK, ONE = map(lines, ("A line for each file", "The report of the class", "Blocks", "One machine"))


def handed_in(folder):
    """The files, by their names in order."""
    rng, files = random.Random(7), {}
    while len(files) < COUNT:
        scene = independent.random_scene(rng)
        if independent.ends_whole(scene):
            files[f"{len(files) + 1:03}.scene"] = scene
    files["050.scene"] = files["050.scene"][:-3]
    files["100.scene"] = b"# a text, not the bytes\nfar 100 101 103 1\n"
    files["150.scene"] = b""
    folder.mkdir(parents=True)
    for name, scene in files.items():
        (folder / name).write_bytes(scene)
    (folder / "list.txt").write_text("no scene\n")
    return files


def answer(scene):
    """The verdict or the refusal, and the pairs."""
    found = independent.read_scene(scene)
    return (found.line, 0) if isinstance(found, independent.Refused) else (found.verdict()[0], len(found.listing))


def report(files):
    counts, pairs = dict.fromkeys(independent.LINES, 0), 0
    for scene in files.values():
        word, more = answer(scene)
        counts["scenes"] += 1
        counts[" ".join(word.split()[:2])] += 1
        pairs += more
    return "\n".join(independent.printed(counts, pairs)) + "\n"


def cases(folder, checks):
    files = handed_in(folder / "autumn")
    done = run(TABLE, folder)
    heading, *rows = [line.split("\t") for line in (folder / "table.txt").read_text().splitlines()]
    found = [(row[0].rsplit("/", 1)[-1], row[1]) for row in rows]
    checks.holds("the columns", heading == ["name", "verdict", "A in B", "B in A", "pairs", "why"])
    checks.holds("300 files, a line each", done.returncode == 0 and found == [(name, answer(scene)[0]) for name, scene in files.items()])
    checks.holds("what is not read is said", "note: 1 other files" in done.stderr)
    done = run(CLASS, folder)
    checks.holds("300 files, their report", done.returncode == 0 and (folder / "autumn.report").read_text() == report(files))
    packed(folder, files, checks)
    (folder / "autumn" / "200.scene").unlink()
    (folder / "autumn" / "200.scene").symlink_to("gone")
    for text, name in ((TABLE, "table.txt"), (CLASS, "autumn.report")):
        before = (folder / name).read_text()
        checks.refused(f"a file that cannot be read, {name}", run(text, folder), "200.scene: No such file or directory")
        checks.holds(f"{name} is that of before", (folder / name).read_text() == before)


def packed(folder, files, checks):
    """The blocks hold all scenes but those that are named."""
    done = run(PACK, folder)
    left_out = [name for name in files if f"{name}: left out" in done.stderr]
    checks.holds("pack names what it leaves out", done.returncode == 2 and left_out == ["050.scene", "100.scene", "150.scene"])
    office = Office(folder)
    blocks = b"".join((office.blocks / name).read_bytes() for name in office.names())
    checks.holds("the blocks hold all the others", blocks == b"".join(scene for name, scene in files.items() if name not in left_out))
    checks.right("the blocks' report", run(ONE, folder), office)
