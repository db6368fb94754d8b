"""What every program tells about itself, and wrong use."""

import os

from tree import FRONT, NAMES, PROGRAMS, alone, each, front, holds, run, same, test, trouble, version

# Words that no program takes.
WRONG = [
    "report x y", "marks x y",
    "ask", "ask nothing", "ask --formula", "ask pierces 5 6", "ask pierces 5 x 1", "ask verdict x.scene y.scene",
    "edit mvoe 1", "edit move 1 2", "edit move 1 2 3 x 5", "map 1 2 3", "map 1 0 0 0 0 1 0 0 0 0 1 0 0 0 0 x",
    "off", "off one.off", "off --write", "off --write 3", "off a b 1 2 3",
    "bench", "bench one.scene", "bench x y one 1 2", "bench x y nobody 1 2 3 4 5",
    "merge --reports", "merge --reports x", "class", "class --names", "table", "table --names", "pack", "pack DIR", "pack DIR --names",
]


def open_end():
    """A standard input that no byte comes from and that does not end."""
    read, write = os.pipe()
    return os.fdopen(read, "rb"), os.fdopen(write, "wb")


def both(program, *words):
    """The same run through the front command and alone, where nothing may wait for input."""
    read, write = open_end()
    with read, write:
        return front(program, *words, stdin=read), alone(program, *words, stdin=read)


@each(*NAMES)
def it_has_its_own_help(program):
    texts = set()
    for word in ("-h", "--help"):
        for ended in both(program, word):
            same((ended.status, ended.err), (0, ""))
            texts.add(ended.out)
    same(len(texts), 1)
    holds(program.encode() in texts.pop())


@each(*NAMES)
def it_tells_the_version(program):
    for ended in both(program, "--version"):
        same(ended, (0, version(), ""))


@test
def the_command_tells_the_version():
    same(front("--version"), (0, version(), ""))


@test
def the_command_has_help():
    short, long = front("-h"), front("--help")
    same(short, long)
    same((long.status, long.err), (0, ""))
    for name in NAMES:
        holds(f"\n    {name} ".encode() in long.out, name)


@each([], ["nothing"], ["--nothing"], ["-o"], ["--refusals"], ["../bodhranhaze/report"], ["."], [""])
def the_command_is_used_wrongly(words):
    ended = front(*words)
    same((ended.status, ended.out), (2, b""))
    if words in (["nothing"], ["."]):
        for name in NAMES:
            holds(name in ended.err, name)
    holds(ended.err)


@each(*WRONG)
def a_program_is_used_wrongly(words):
    program = words.split()[0]
    for ended in both(*words.split()):
        holds(ended.out == b"", ended.out)
        holds(ended.err.startswith(f"{program}: "), ended.err)
    same(front(*words.split()).status, 2)


@each(*NAMES)
def an_option_that_there_is_not_is_named(program):
    ended = front(program, "--nothing")
    trouble(ended, program)


@test
def the_programs_are_found_through_links():
    here = str(FRONT)
    ended = run(["sh", "-c", 'cd "$(mktemp -d)" && ln -s "$1" a && ln -s a b && ./b --version; rm a b; rmdir "$PWD"', "sh", here])
    same(ended, (0, version(), ""))


@test
def each_program_is_there_and_nothing_else():
    same(sorted(os.listdir(PROGRAMS)), sorted(NAMES))
