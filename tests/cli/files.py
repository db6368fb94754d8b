"""A file, - and nothing; files that are not there, are folders, or may not be read."""

import os
import shutil

from given import TAKING, given
from tree import AS_NOBODY, TREE, alone, each, example, folder, front, run, same, trouble

@each(*TAKING)
def a_file_and_standard_input_are_read_alike(title):
    with folder() as room:
        words, path = given(title, room)
        named = front(*words, path)
        same(named.status, 0)
        for way in (front, alone):
            same(way(*words, path), named)
            same(way(*words, "-", stdin=path), named)
            same(way(*words, stdin=path), named)


def faulty(path, said):
    """A file that cannot be read is named, alone and through the front command."""
    for title in TAKING:
        words, _ = TAKING[title]
        trouble(front(*words, path), words[0], f"{path}: {said}")
    trouble(alone("report", path)._replace(status=2), "report", f"{path}: {said}")
    for words in (["bench", path, example("printed.scene")], ["bench", example("printed.scene"), path],
                  ["off", path, example("workpiece.off"), 100, 101, 103, 1], ["off", example("clamp.off"), path, 100, 101, 103, 1]):
        trouble(front(*words), words[0], f"{path}: {said}")


@each("missing")
def a_file_that_is_not_there(_):
    with folder() as room:
        faulty(f"{room}/nothing.scene", "No such file or directory")


@each("folder")
def a_folder_is_no_scene(_):
    with folder() as room:
        faulty(room, "Is a directory")
        for program in ("report", "marks", "merge"):
            trouble(front(program, stdin=os.open(room, os.O_RDONLY)), program, "standard input: Is a directory")


@each("unreadable")
def a_file_that_may_not_be_read(_):
    with folder() as room:
        path = f"{room}/secret.scene"
        with open(path, "wb") as file:
            file.write(b"SC")
        os.chmod(path, 0)
        # Root may read it: so nobody reads, by a copy of the tree where nobody may go.
        shutil.copytree(TREE, f"{room}/tree", symlinks=True)
        for words in (["report"], ["ask", "judge"], ["marks"], ["merge"], ["class"]):
            trouble(run([f"{room}/tree/bin/bodhranhaze", *words, path], **AS_NOBODY), words[0], f"{path}: Permission denied")


@each("standard input for one of two files")
def dash_is_a_file(_):
    scene, off = example("printed.scene"), example("clamp.off")
    moves = "one 1 0 0 0 1".split()
    named = front("bench", scene, scene, *moves)
    same(named.status, 0)
    same(front("bench", "-", scene, *moves, stdin=scene), named)
    same(front("bench", scene, "-", *moves, stdin=scene), named)
    far = "1000 1001 1003 1".split()
    made = front("off", off, example("workpiece.off"), *far)
    same(made.status, 0)
    same(front("off", "-", example("workpiece.off"), *far, stdin=off), made)
    same(front("off", off, "-", *far, stdin=example("workpiece.off")), made)
