"""Files: read whole, written whole or not at all, and what is wrong with them in words."""

import os
import shutil
from contextlib import contextmanager
from pathlib import Path

BYTE_ORDER_MARK = b"\xef\xbb\xbf"
LONGEST_SHOWN = 40


class Wrong(Exception):
    """What is wrong with a file, and where."""


def trouble(path, error):
    return Wrong(f"{path}: {getattr(error, 'strerror', None) or error}")


def input_name(path):
    return "standard input" if str(path) == "-" else str(path)


@contextmanager
def at(path, line=None):
    """What goes wrong within is said with the file and the line."""
    try:
        yield
    except Wrong as wrong:
        raise Wrong(f"{input_name(path)}{f', line {line}' if line else ''}: {wrong}") from None


def contents_of(path):
    """A file's bytes; `-` is standard input."""
    try:
        with open(0, "rb", closefd=False) if str(path) == "-" else open(path, "rb") as file:
            return file.read()
    except (OSError, ValueError) as error:
        raise trouble(input_name(path), error) from None


def write_to(path, contents):
    """A file is written beside its place and moved there when it is whole; `-` is standard output."""
    try:
        if str(path) == "-":
            with open(1, "wb", closefd=False) as file:
                file.write(contents)
        elif os.path.exists(path) and not os.path.isfile(path):
            Path(path).write_bytes(contents)
        else:
            move_into_place(Path(os.path.realpath(path)), contents)
    except OSError as error:
        raise trouble("standard output" if str(path) == "-" else path, error) from None


def move_into_place(path, contents):
    if path.exists():
        open(path, "ab").close()  # nobody's file is replaced who may not write to it
    beside = path.with_name(f".making.{os.getpid()}")
    try:
        with open(beside, "xb") as file:
            file.write(contents)
            file.flush()
            os.fsync(file.fileno())
        if path.exists():
            shutil.copymode(path, beside)
        os.replace(beside, path)
    except BaseException:
        beside.unlink(missing_ok=True)
        raise


def refuse_same(source, target):
    """An input is never written over."""
    there = "-" not in (str(source), str(target)) and os.path.exists(source) and os.path.exists(target)
    if there and os.path.samefile(source, target):
        raise Wrong(f"{target}: this is the input, which would be lost; name another file for the answer")


def say(line):
    """A line on standard error.  Where nobody listens there, it is lost and nothing else."""
    try:
        os.write(2, f"{line}\n".encode(errors="surrogateescape"))
    except OSError:
        pass


def shown(word):
    """A word of a file in words about it: short, and with nothing in it that a terminal obeys."""
    word = word if word.isprintable() else ascii(word)[1:-1]
    return word if len(word) <= LONGEST_SHOWN else word[:LONGEST_SHOWN] + "..."


def looks_like_scene(contents):
    return contents[:2] == b"SC" and (contents[6:8] == b"FP" or b"\0" in contents)


def without_mark(contents):
    """The bytes behind a byte order mark."""
    if contents[:2] in (b"\xff\xfe", b"\xfe\xff"):
        raise Wrong("this is a text in UTF-16; save it as UTF-8")
    return contents.removeprefix(BYTE_ORDER_MARK)
