"""Refusals in words."""

from tree import each, example, front, holds, same, test


def whys(ended):
    """The words behind `why: ` on standard error."""
    return [line for line in ended.err.splitlines() if line.startswith("why: ")]


@test
def a_text_in_place_of_a_scene_is_seen():
    ended = front("ask", "why", example("printed.txt"))
    same((ended.status, ended.err), (0, ""))
    holds(b"text" in ended.out and b"make.py" in ended.out, ended.out)


VERTICES = {"refused-5-below": b"vertex 4 of B", "refused-6-lowest": b"vertex 1 of A", "refused-8-b": b"vertex 5 of B"}


@each(*VERTICES)
def a_vertex_is_named_by_its_solid(name):
    ended = front("ask", "why", example(f"{name}.scene"))
    holds(VERTICES[name] in ended.out, ended.out)


@test
def the_examples_are_explained_as_written():
    for line in example("whys").read_text().splitlines():
        name, words = line.split(": ", 1)
        same(front("ask", "why", example(f"{name}.scene")), (0, f"{words}\n".encode(), ""))


@each("ask enclosed 99", "ask pierces 1 1 5", "edit reverse 99", "map 101 0 0 0 0 1 0 0 0 0 1 0 0 0 0 1", f"map{' 0' * 16}")
def a_refusal_has_words(words):
    program, *rest = words.split()
    ended = front(program, *rest, example("printed.scene"))
    holds("refused 1" in ended.out.decode("latin-1") + ended.err, ended)
    same(len(whys(ended)), 1)


@test
def a_fixture_that_a_group_moves_has_words():
    path = example("printed.scene")
    ended = front("bench", path, path, "one", "5", "0", "0", "0", "1")
    holds(b"refused 19 5\n" in ended.out and len(whys(ended)) == 1, ended)


TEXTS = {"a tab": b"OFF\t4 4 6", "a Windows line end": b"OFF\r\n4 4 6", "is not a whole number": b"OFF\n4 4 6\n10.0 0 0",
         "the text ends here": b"OFF\n4 4 6\n", "a byte order mark": b"\xef\xbb\xbfOFF\n"}


@each(*TEXTS)
def an_off_text_has_words(said):
    ended = front("off", "-", example("workpiece.off"), "1000", "1001", "1003", "1", stdin=TEXTS[said])
    same((ended.status, ended.out), (1, b""))
    holds(ended.err.startswith("refused 20 ") and said in ended.err, ended.err)
