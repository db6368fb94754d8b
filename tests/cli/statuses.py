"""Exit statuses: a refusal is an answer, but where no scene could be written; --refusals tells refusals."""

from pathlib import Path

from given import IDENTITY
from tree import data, each, example, folder, front, holds, same, test

# Scenes that are refused, and the question each gets.
REFUSED = ["refused-1-empty", "refused-3-short", "refused-9-one", "refused-14"]
ASKED = ["judge", "why", "verdict", "counts", "pierces 5 6 1", "enclosed 5", "mask 5 6 1", "sign 1 2 3 4", "record 1", "listing",
         "listing 9", "clean"]


@each(*REFUSED)
def a_refused_report_is_an_answer(name):
    wanted = data(f"{name}.report")
    same(front("report", example(f"{name}.scene")), (0, wanted, ""))
    same(front("--refusals", "report", example(f"{name}.scene")), (1, wanted, ""))


@each("printed", "apart", "heaviest")
def an_accepted_report_is_an_answer(name):
    same(front("--refusals", "report", example(f"{name}.scene")), (0, data(f"{name}.report"), ""))


@each(*ASKED)
def a_question_about_a_refused_scene(words):
    path = example("refused-14.scene")
    ended = front("ask", *words.split(), path)
    same(ended.status, 0)
    holds(ended.out.startswith(b"refused 14 1\n") or words == "why", ended.out)
    same(front("--refusals", "ask", *words.split(), path)[:2], (1, ended.out))
    same(front("--refusals", "ask", "--formula", *words.split(), path)[:2], (1, ended.out))


@each(*(words for words in ASKED if words not in ("pierces 5 6 1", "mask 5 6 1")))
def a_question_about_an_accepted_scene(words):
    path = example("printed.scene")
    ended = front("ask", *words.split(), path)
    same(ended.status, 0)
    same(front("--refusals", "ask", *words.split(), path)[:2], (0, ended.out))


@each("pierces 99 1 5", "enclosed 9", "mask 1 2 1", "sign 1 1 2 3", "record 50", "listing 1")
def a_question_with_a_refusal_of_its_own(words):
    path = example("printed.scene")
    ended = front("ask", *words.split(), path)
    holds(ended.status == 0 and ended.out.startswith(b"refused 1"), ended)
    same(front("--refusals", "ask", *words.split(), path)[:2], (1, ended.out))


@each("edit", "edit reverse 8", f"map {' '.join(IDENTITY)}", "off --write 1")
def no_scene_is_written_of_one_that_is_refused(words):
    for name in REFUSED:
        ended = front(*words.split(), example(f"{name}.scene"))
        same((ended.status, ended.out), (1, b""))
        refusal = data(f"{name}.report").decode()
        holds(ended.err.startswith(refusal), refusal, ended.err)


@test
def a_map_that_is_refused_writes_nothing():
    for entries, number in ((["101", *IDENTITY[1:]], 17), (["0"] * 16, 18), (["100", *IDENTITY[1:]], 0)):
        ended = front("map", *entries, example("heaviest.scene"))
        same((ended.status, ended.out == b""), (1, True))
        holds(number == 0 or ended.err.startswith(f"refused {number} 0\n"), ended.err)


@test
def a_change_that_is_refused_leaves_the_scene():
    path = example("printed.scene")
    ended = front("edit", "move", "99", "0", "0", "0", "1", "reverse", "8", path)
    same((ended.status, ended.out), (0, front("edit", "reverse", "8", path).out))
    same([line.split()[0] for line in ended.err.splitlines() if not line.startswith("why: ")], ["counts", "refused", "counts"])
    same(front("--refusals", "edit", "move", "99", "0", "0", "0", "1", path)[:2], (1, data("printed.scene")))


@test
def off_that_is_refused_writes_nothing():
    far = "1000 1001 1003 1".split()
    ended = front("off", example("clamp.off"), example("printed.txt"), *far)
    same((ended.status, ended.out), (1, b""))
    holds(ended.err.startswith("refused 20 "), ended.err)
    ended = front("off", example("clamp.off"), example("workpiece.off"), "0", "0", "0", "0")
    same((ended.status, ended.out), (1, b""))
    holds(ended.err.startswith("refused 14 1\n"), ended.err)


@test
def a_refused_move_of_a_bench_is_told():
    path = example("printed.scene")
    ended = front("bench", path, path, "one", "5", "0", "0", "0", "1")
    same(ended.status, 0)
    holds(b"\nrefused 19 5\n" in ended.out, ended.out)
    same(front("--refusals", "bench", path, path, "one", "5", "0", "0", "0", "1")[:2], (1, ended.out))
    same(front("--refusals", "bench", path, path, "one", "1", "0", "0", "0", "1").status, 0)
    same(front("--refusals", "bench", path, example("apart.scene")).status, 1)


@test
def a_count_of_refusals_is_no_refusal():
    with folder() as room:
        block = Path(room) / "block"
        block.write_bytes(data("refused-14.scene") * 3)
        ended = front("--refusals", "marks", block)
        same((ended.status, ended.out.split(b"\n")[0]), (0, b"scenes 3"))
        holds(b"refused 14 3\n" in ended.out, ended.out)
        same(front("--refusals", "merge", stdin=ended.out)[:2], (0, ended.out))


@test
def a_block_that_is_too_long_is_refused():
    same(front("marks", stdin=bytes(65537))[:2], (0, b"refused 23 0\n"))
    same(front("--refusals", "marks", stdin=bytes(65537))[:2], (1, b"refused 23 0\n"))
    same(front("--refusals", "merge", stdin=b"refused 23 0\n")[:2], (1, b"refused 23 0\n"))
