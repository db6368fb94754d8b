"""Compares fresh random scenes with the kernel's program.

    compare.py [--program COMMAND] [--batch SCENES] SEED [COUNT]

The program reads entries like those of the shipped vectors from standard input and prints what
`vectors.py` says; the number n of a scene starts from 0 in each batch.  The first difference is
printed as a scene that can be replayed, and saved; then the exit status is 1.
"""

import sys
from itertools import zip_longest

import harness
from judge import judge
from scenes import random_scene
from vectors import packed, print_of, questions


def asked_of(n, data):
    """What a scene, the n-th of its batch, is asked; each can be asked again of the saved scene."""
    words = [("ask", *question) for question in questions(n, data)] if judge(data) is None else []
    return "; ".join(["report", *(" ".join(map(str, question)) for question in words)])


def compare_batch(comparison, program, scenes, start):
    """What the program prints for these scenes, the first of which is `start`."""
    expected = [print_of(n, data) for n, data in enumerate(scenes)]
    ran = harness.run(program, (), packed(scenes))
    other = harness.first_other(expected, ran.out.decode("latin-1"))
    if other:
        n, found = other
        pairs = zip_longest(expected[n].splitlines(), found.splitlines())
        line, (wanted, got) = next((line, pair) for line, pair in enumerate(pairs, 1) if pair[0] != pair[1])
        comparison.case = start + n
        asked = f"scene {n} of its batch, line {line} of its print, status {ran.status}; asked: {asked_of(n, scenes[n])}"
        comparison.show(asked, {"scene": scenes[n]}, repr(wanted), repr(got))
    comparison.same("the status", {"entries": packed(scenes)}, 0, ran.status)


def main(words):
    given = harness.words_of(words, default="target/bin/test_vectors", count=20000, batch=100)
    comparison = harness.Comparison(given.seed)
    for start in range(0, given.count, given.batch):
        comparison.case = start
        scenes = [random_scene(comparison.rng) for _ in range(min(given.batch, given.count - start))]
        compare_batch(comparison, given.program, scenes, start)
    print(f"{given.count} scenes alike")
    return 0


if __name__ == "__main__":
    sys.exit(main(sys.argv[1:]))
