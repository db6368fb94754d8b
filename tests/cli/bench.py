"""bench: counts after each move, and whose file it was that is refused."""

from tree import EXAMPLES, example, front, holds, same, test

PAIR = [example("bench-first.scene"), example("bench-second.scene")]


@test
def a_pair_ships():
    ended = front("bench", *PAIR)
    same((ended.status, ended.err), (0, ""))
    same([line.split()[0] for line in ended.out.decode().splitlines()], ["done", "counts"])


@test
def counts_stand_behind_each_move():
    ended = front("bench", *PAIR, *"one 1 0 0 0 1 two 2 1 1 1 1 lecturer 2 1 2 3 1".split())
    lines = ended.out.decode().splitlines()
    same((ended.status, len(lines)), (0, 8))
    for k, line in enumerate(lines):
        holds(line.split()[0] in (("done", "refused") if k % 2 == 0 else ("counts",)), line)
        holds(k % 2 == 0 or len(line.split()) == 7, line)


@test
def a_refused_move_leaves_the_counts():
    lines = front("bench", *PAIR, *"one 99 0 0 0 1".split()).out.decode().splitlines()
    same((lines[1], lines[2]), (lines[3], "refused 11 0"))


@test
def the_file_that_is_refused_is_named():
    bad, good = EXAMPLES / "refused-14.scene", PAIR[0]
    for files in ([bad, good], [good, bad]):
        ended = front("bench", *files)
        same(ended.out.split(b"\n")[0], b"refused 14 1")
        holds("refused-14.scene" in ended.err, ended.err)
    ended = front("bench", example("printed.scene"), example("gear-meets.scene"))
    same(ended.out.split(b"\n")[0], b"refused 22 0")
    holds(ended.err.startswith("why: "), ended.err)
