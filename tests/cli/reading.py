"""Reads that fail: words and 2, and never an answer about what came before."""

import os

from given import TAKING, given
from tree import FRONT, LOADER, NAMES, PROGRAMS, each, example, folder, front, holds, needs, run, shell, trouble


def failing(words, path, k, log):
    """A run in which the k-th read of a file fails; whether it did."""
    ended = run(["strace", "-f", "-qq", "-o", log, "-P", path, "-e", f"inject=read:error=EIO:when={k}", *words])
    with open(log, encoding="utf-8", errors="replace") as lines:
        return ended, "INJECTED" in lines.read()


def fails_each_time(words, path, program, room, what, rows=False):
    """Whichever read it is that fails, the program says so and answers nothing, but for rows about other files."""
    needs("strace")
    for k in range(1, 9):
        ended, failed = failing(words, path, k, os.path.join(room, "log"))
        if not failed:
            holds(k > 1, "no read failed")
            return
        trouble(ended._replace(out=b"") if rows else ended, program, f"{what}: Input/output error")


@each(*TAKING)
def a_read_of_a_file_fails(title):
    with folder() as room:
        words, path = given(title, room)
        fails_each_time([FRONT, *words, path], path, words[0], room, path)


@each("report", "marks", "merge", "edit", "ask judge")
def a_read_of_standard_input_fails(words):
    with folder() as room:
        path = os.path.join(room, "input")
        with open(path, "wb") as file:
            # Longer than any one read.
            file.write(example("printed.scene").read_bytes() if words in ("report", "edit", "ask judge") else bytes(200000))
        line = ["sh", "-c", '"$0" "$@" < ' + path, FRONT, *words.split()]
        fails_each_time(line, path, words.split()[0], room, "standard input")


@each("bench 0", "bench 1", "off 0", "off 1")
def a_read_of_one_of_two_files_fails(title):
    program, k = title.split()
    names = ["clamp.off", "workpiece.off"] if program == "off" else ["bench-first.scene", "bench-second.scene"]
    paths = [example(name) for name in names]
    more = ["1000", "1001", "1003", "1"] if program == "off" else ["one", "1", "0", "0", "0", "1"]
    with folder() as room:
        fails_each_time([FRONT, program, *paths, *more], paths[int(k)], program, room, paths[int(k)])


@each("class", "table")
def a_read_of_one_of_many_files_fails(program):
    with folder() as room:
        paths = [example(f"{name}.scene") for name in ("printed", "apart", "a-in-b")]
        fails_each_time([FRONT, program, *paths], paths[1], program, room, paths[1], rows=program == "table")


@each("class", "table", "pack")
def a_list_of_names_cannot_be_read(program):
    first = ["DIR"] if program == "pack" else []
    with folder() as room:
        trouble(front(program, *first, "--names", f"{room}/none", cwd=room), program, f"{room}/none: No such file or directory")
        # Of a table the heading stands already.
        trouble(front(program, *first, "--names", room, cwd=room)._replace(out=b""), program, "Is a directory")


@each("report", "ask judge", "edit", f"map{' 1' * 16}", "off --write 1", "marks", "merge")
def standard_input_is_closed(words):
    program, *rest = words.split()
    trouble(shell('"$@" <&-', FRONT, program, *rest), program, "standard input: Bad file descriptor")
    ended = shell('"$@" <&-', *LOADER.split(), PROGRAMS / program, *rest)
    trouble(ended._replace(status=2), program, "standard input: Bad file descriptor")


@each(*(name for name in NAMES if name not in ("bench", "off", "map", "ask", "pack")))
def a_file_is_read_though_standard_input_is_closed(program):
    with folder() as room:
        _, path = given("merge" if program == "merge" else "report", room)
        ended = shell('"$@" <&-', FRONT, program, path)
        holds(ended.status == 0 and ended.out, ended)
