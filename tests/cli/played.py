"""What the front command makes of programs that do what the real ones seldom do: these are scripts, played in their place."""

import os
import pty
from pathlib import Path

from tree import ENVIRONMENT, FRONT, each, folder, holds, run, same, test


def played(script, *words, program="report", **more):
    """A run of the front command over a script."""
    with folder() as room:
        Path(room, program).write_text(script if script.startswith("\0") else f"#!/bin/sh\n{script}\n")
        os.chmod(Path(room, program), 0o755)
        return run([FRONT, *words], **{"env": {**ENVIRONMENT, "BODHRANHAZE_PROGRAMS": room, "BODHRANHAZE_LOADER": ""}, **more})


@each("1", "2", "6", "9", "11", "15", "31")
def a_signal_is_told(number):
    for options in ([], ["--refusals"]):
        ended = played(f"kill -{number} $$", *options, "report")
        same(ended, (128 + int(number), b"", f"report: ended by signal {number}\n"))


@test
def a_reader_that_has_gone_is_not_told():
    for options in ([], ["--refusals"]):
        same(played("kill -13 $$", *options, "report"), (141, b"", ""))


@test
def a_program_for_another_machine_is_told():
    for options in ([], ["--refusals"]):
        ended = played("\0no program", *options, "report")
        same((ended.status, ended.out), (2, b""))
        holds(ended.err.splitlines()[-1].startswith("bodhranhaze: ") and "cannot be run" in ended.err, ended.err)


@test
def an_answer_is_passed_on_byte_for_byte():
    same(played("printf 'a\\000\\n\\n b\\377\\n\\n\\n'", "report"), (0, b"a\0\n\n b\xff\n\n\n", ""))
    same(played("printf '\\n refused 1 0\\n\\n\\n'", "--refusals", "report"), (0, b"\n refused 1 0\n\n\n", ""))
    same(played("printf 'no end'", "--refusals", "report"), (0, b"no end", ""))
    same(played("cat", "report", stdin=bytes(range(256)) * 1000).out, bytes(range(256)) * 1000)


@each("report", "edit", "merge")
def trouble_is_2_wherever_its_line_stands(program):
    for lines in (f"{program}: x", f"note: x\n{program}: x", f"counts 1 2 3\n{program}: x", f"refused 1 0\n{program}: x"):
        same(played(f"echo '{lines}' >&2", program, program=program), (2, b"", f"{lines}\n"))


@each("note: report: x", "why: x", "reports: x", " report: x", "x report: y")
def other_words_are_no_trouble(line):
    same(played(f"echo '{line}' >&2", "report"), (0, b"", f"{line}\n"))


@test
def only_the_opening_of_an_edit_decides():
    for lines, status in (("refused 1 0", 1), ("why: x\nrefused 1 0", 1), ("refused 1 0\nrefused 1 0", 1),
                          ("counts 1 2 3\nrefused 11 0", 0)):
        same(played(f"echo '{lines}' >&2", "edit", program="edit").status, status)
        same(played(f"echo '{lines}' >&2", "--refusals", "edit", program="edit").status, 1)


@test
def progress_is_asked_for_on_a_terminal():
    master, slave = pty.openpty()
    for program in ("class", "table"):
        same(played('echo "$*"', program, "x.scene", program=program, stderr=slave), (0, b"--progress x.scene\n", ""))
        same(played('echo "$*"', program, "--help", program=program, stderr=slave), (0, b"--help\n", ""))
        same(played('echo "$*"', program, "x.scene", program=program), (0, b"x.scene\n", ""))
    same(played('echo "$*"', "pack", "DIR", "x.scene", program="pack", stderr=slave), (0, b"--progress DIR x.scene\n", ""))
    same(played('echo "$*"', "pack", "--progress", "DIR", "x.scene", program="pack"), (0, b"--progress DIR x.scene\n", ""))
    os.close(master)
    os.close(slave)


@test
def a_folder_becomes_a_list_of_names():
    with folder() as room:
        for k in range(3000):
            Path(room, f"a scene of number {k:04}.scene").write_bytes(b"")
        ended = played('echo "$*"; cat', "class", room, "one more", program="class")
        wanted = [f"{room}/a scene of number {k:04}.scene" for k in range(3000)]
        same((ended.status, ended.err), (0, ""))
        same(ended.out.decode().splitlines(), ["--names -", *wanted, "one more"])
        same(played('echo "$*"', "pack", room, "x", program="pack").out.decode(), f"{room} x\n")
        same(played('echo "$*"', "pack", "DIR", room, program="pack").out.decode(), "DIR --names -\n")
        same(played('echo "$*"', "table", "--names", room, program="table").out.decode(), f"--names {room}\n")
        same(played('echo "$*"', "report", room).out.decode(), f"{room}\n")
