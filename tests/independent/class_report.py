"""The class report once more, from the requirements alone: scenes end to end in a block, tallied.

    class_report.py report < block                       prints the report of a block
    class_report.py merge < reports                      prints the report of all reports, end to end
    class_report.py selftest                             runs small blocks whose report is written here
    class_report.py blocks FOLDER SEED COUNT             writes random blocks into a folder
    class_report.py compare PROGRAM MERGE SEED COUNT     random blocks, and sets of them; the programs' prints against this one's
"""

import random
import sys

import harness
from exact import Refused, read_scene
from judge import FACE_COUNTS, HEADER_BYTES, VERTEX_COUNTS, scene_bytes
from scenes import random_scene

MOST_BYTES = 65536
WORDS = ["cross", "a-in-b", "b-in-a", "apart"]
NUMBERS = [1, 2, 3, 4, 5, 6, 7, 8, 9, 14]
REFUSED = "refused 23 0"
LINES = ["scenes", *WORDS, *(f"refused {number}" for number in NUMBERS)]


# ---- the scenes of a block --------------------------------------------------------------------


def scene_at_front(rest):
    """The scene that these bytes begin with, and the bytes behind it; or the refusal that ends the report."""
    if len(rest) < HEADER_BYTES or rest[:2] != b"SC":
        return Refused(1), None
    a, fa, b, fb = rest[2:HEADER_BYTES]
    if any(n not in VERTEX_COUNTS for n in (a, b)) or any(n not in FACE_COUNTS for n in (fa, fb)):
        return Refused(2), None
    length = 17 + 9 * (a + b) + 5 * (fa + fb)
    if length > len(rest):
        return Refused(3), None
    return read_scene(rest[:length]), rest[length:]


def tally(block):
    """How often each line of the report holds, and the pierced pairs of all accepted scenes."""
    counts, pairs, rest = dict.fromkeys(LINES, 0), 0, block
    while rest:
        scene, rest = scene_at_front(rest)
        counts["scenes"] += 1
        if isinstance(scene, Refused):
            counts[" ".join(scene.line.split()[:2])] += 1
        else:
            counts[scene.verdict()[0]] += 1
            pairs += len(scene.listing)
    return counts, pairs


def printed(counts, pairs):
    """The lines of the report."""
    accepted = sum(counts[word] for word in WORDS)
    mean = (pairs // accepted, pairs % accepted, accepted) if accepted else (0, 0, 0)
    return [*(f"{line} {counts[line]}" for line in LINES), "mean {} {} {}".format(*mean)]


def report(block):
    return [REFUSED] if len(block) > MOST_BYTES else printed(*tally(block))


def merged(text):
    """The report of all blocks whose reports these are; refused where one of them is."""
    lines, sums, pairs = text.split("\n")[:-1], dict.fromkeys(LINES, 0), 0
    if REFUSED in lines:
        return [REFUSED]
    for start in range(0, len(lines), len(LINES) + 1):
        *counted, mean = lines[start:start + len(LINES) + 1]
        for line in counted:
            name, count = line.rsplit(" ", 1)
            sums[name] += int(count)
        whole, remainder, divisor = map(int, mean.split()[1:])
        pairs += whole * divisor + remainder
    return printed(sums, pairs)


# ---- blocks to try ----------------------------------------------------------------------------


TETRAHEDRON = [(1, 2, 3), (1, 2, 4), (1, 3, 4), (2, 3, 4)]
CROSS = scene_bytes((100, 101, 103, 1), [(0, 0, 0, 1), (4, 0, 0, 1), (0, 4, 0, 1), (0, 0, 4, 1)], TETRAHEDRON,
                    [(1, 1, 1, 1), (-8, -7, -9, 1), (9, -6, -9, 1), (2, 10, -9, 1)], TETRAHEDRON)
OPEN = scene_bytes((100, 101, 103, 1), [(0, 0, 0, 1), (4, 0, 0, 1), (0, 4, 0, 1), (0, 0, 4, 1)], TETRAHEDRON[:3],
                   [(1, 1, 1, 1), (-8, -7, -9, 1), (9, -6, -9, 1), (2, 10, -9, 1)], TETRAHEDRON)


def said(block):
    """The report in short: the counts that are not 0, and the mean."""
    lines = report(block)
    return [line for line in lines if not line.endswith(" 0") or line.startswith(("mean", "refused 23"))]


def selftest(words):
    cases = [
        (b"", ["mean 0 0 0"]),
        (CROSS, ["scenes 1", "cross 1", "mean 3 0 1"]),
        (CROSS + OPEN + CROSS, ["scenes 3", "cross 2", "refused 9 1", "mean 3 0 2"]),
        (CROSS + b"SCxx", ["scenes 2", "cross 1", "refused 1 1", "mean 3 0 1"]),
        (CROSS + b"XX" + CROSS, ["scenes 2", "cross 1", "refused 1 1", "mean 3 0 1"]),
        (CROSS + b"SC\x02\x04\x04\x04" + CROSS, ["scenes 2", "cross 1", "refused 2 1", "mean 3 0 1"]),
        (CROSS + CROSS[:-1], ["scenes 2", "cross 1", "refused 3 1", "mean 3 0 1"]),
        (CROSS[:6], ["scenes 1", "refused 3 1", "mean 0 0 0"]),
        (bytes(MOST_BYTES), ["scenes 1", "refused 1 1", "mean 0 0 0"]),
        (bytes(MOST_BYTES + 1), ["refused 23 0"]),
    ]
    for block, expected in cases:
        if said(block) != expected:
            print(f"expected {expected}, found {said(block)}")
            return 1
    reports = ["\n".join(report(block)) + "\n" for block, _ in cases]
    if merged("".join(reports[1:4]))[-1] != "mean 3 0 4" or merged("".join(reports)) != [REFUSED]:
        print("reports are merged otherwise")
        return 1
    print(f"{len(cases)} blocks as they should be")
    return 0


def random_block(rng):
    """Scenes end to end, most of them whole; at times one that ends the report, at times more than 65,536 bytes."""
    parts = []
    for _ in range(rng.choice([0, 1, 1, 2, 3, 5, 8])):
        scene = random_scene(rng)
        front, rest = scene_at_front(scene)
        if rest == b"" or rng.random() < 0.1:
            parts.append(scene)
    block = b"".join(parts)
    manner = rng.randrange(12)
    if manner == 0:
        block = block[:rng.randrange(len(block) + 1)]
    elif manner == 1:
        block += bytes(rng.randrange(256) for _ in range(rng.randrange(1, 9)))
    elif manner == 2 and block:
        block = (block * (MOST_BYTES // len(block) + 1))[:MOST_BYTES + rng.randrange(2)] if len(block) > 9000 else block
    return block


def ends_whole(block):
    """Whether each scene of the block is whole, so that another block may follow."""
    while block:
        block = scene_at_front(block)[1]
    return block is not None


def answer_of(program, data, *words):
    """The status that a program ends with, and the lines that it prints."""
    ran = harness.run(program, words, data)
    return ran.status, ran.out.decode("latin-1").split("\n")


def answer(lines):
    """The same, as it should be."""
    return 0, [*lines, ""]


def compare_count(comparison, merge, text, number, expected):
    """Asked for as many reports as there are, it prints them merged; asked for one more, nothing, and says how many there are."""
    comparison.same(f"--reports {number}", {"reports": text}, expected, answer_of(merge, text, "--reports", number))
    more = harness.run(merge, ["--reports", number + 1], text)
    said = f"merge: {number} reports, and {number + 1} are asked for\n".encode()
    comparison.same(f"--reports {number + 1}", {"reports": text}, (b"", said), (more.out, more.err))


def chosen_blocks(rng, blocks, n):
    """The numbers of a set: the first has the last block, which is too long, and every other one only blocks that can stand end to end."""
    chosen = rng.sample(range(len(blocks)), rng.randrange(6))
    if n == 0:
        return chosen + [len(blocks) - 1]
    return [k for k in chosen if ends_whole(blocks[k]) and len(blocks[k]) < 9000] if n % 2 else chosen


def compare_sets(comparison, given, blocks, reports):
    """Sets of blocks: their reports merged and counted; and, where they can stand end to end, the report of that block."""
    end_to_end, count = 0, given.count // 2
    for n in comparison.cases(count, "set-"):
        chosen = chosen_blocks(comparison.rng, blocks, n)
        text = "".join(reports[k] for k in chosen)
        expected, text = answer(merged(text)), text.encode()
        comparison.same("merge", {"reports": text}, expected, answer_of(given.merge, text))
        compare_count(comparison, given.merge, text, len(chosen), expected)
        block = b"".join(blocks[k] for k in chosen)
        if len(block) <= MOST_BYTES and all(ends_whole(blocks[k]) for k in chosen):
            end_to_end += 1
            comparison.same("blocks end to end", {"reports": text, "block": block}, expected, answer_of(given.program, block))
    print(f"{count} sets of reports merged and counted alike, {end_to_end} of them as blocks end to end")


def compare_refusals(comparison, merge, text):
    """Texts that are not reports end to end: nothing is printed, and one line says where."""
    wrong = [text[:-1], text + "x", text.replace("mean ", "mean", 1), text.replace("cross ", "cross  ", 1),
             text.replace("apart ", "apart -", 1)]
    begin = b"merge: standard input: no class report"
    for n in comparison.cases(len(wrong), "wrong-"):
        broken = wrong[n].encode()
        ran = harness.run(merge, [], broken)
        is_said = ran.err.startswith(begin) and ran.err.count(b"\n") == 1
        comparison.same("a text that is no report", {"reports": broken}, (b"", begin), (ran.out, begin if is_said else ran.err))
    print(f"{len(wrong)} texts refused")


def compare(words):
    """Each block's report, the last one's too long; and sets of half as many, where there is a program that merges."""
    given = harness.words_of(words, ("program", "merge"))
    comparison, blocks, reports = harness.Comparison(given.seed), [], []
    for n in comparison.cases(given.count):
        blocks.append(random_block(comparison.rng) if n + 1 < given.count else bytes(MOST_BYTES + 1))
        lines = report(blocks[n])
        comparison.same("the report of a block", {"block": blocks[n]}, answer(lines), answer_of(given.program, blocks[n]))
        reports.append("".join(line + "\n" for line in lines))
    print(f"{given.count} blocks alike")
    if given.merge != "-":
        compare_sets(comparison, given, blocks, reports)
        compare_refusals(comparison, given.merge, "".join(reports))
    return 0


def write_blocks(folder, seed, count):
    """Small blocks, the last scene of some not whole."""
    rng, scenes = random.Random(seed), []
    while len(scenes) < 60:
        scene = random_scene(rng)
        if ends_whole(scene):
            scenes.append(scene)
    for n in range(count):
        block = b"".join(rng.choices(scenes, k=rng.randrange(4)))
        with open(f"{folder}/{n + 1:04}.block", "wb") as out:
            out.write(block if rng.randrange(9) else block[:-1])
    return 0


def print_report(words):
    print("\n".join(report(sys.stdin.buffer.read())))
    return 0


def print_merged(words):
    print("\n".join(merged(sys.stdin.buffer.read().decode("latin-1"))))
    return 0


def write_random(words):
    folder, seed, count = words
    return write_blocks(folder, int(seed), int(count))


if __name__ == "__main__":
    COMMANDS = {"report": print_report, "merge": print_merged, "selftest": selftest, "blocks": write_random, "compare": compare}
    sys.exit(harness.main(sys.argv[1:], COMMANDS, __doc__))
