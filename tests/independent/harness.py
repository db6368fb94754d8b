"""What the comparing programs share: the words of a comparison, a run of the program that is compared, and a difference shown so that it
can be repeated: with its seed, the number of its case, and the bytes that it is about.
"""

import argparse
import random
import shlex
import subprocess
import sys
from pathlib import Path
from typing import NamedTuple

# More bytes than any scene has are saved, and not shown.
MOST_SHOWN = 2048


def words_of(words, programs=(), default=None, count=None, batch=None):
    """What the words of a comparison say: the programs by name, or one that has a default; the seed and the count; and how many cases one
    run takes, where it takes several.  Wrong words end this program with status 2."""
    called = [Path(sys.argv[0]).name, *(["compare"] if sys.argv[1:2] == ["compare"] else [])]
    parser = argparse.ArgumentParser(prog=" ".join(called), description="Compares a program with this one, at random.")
    for name in programs:
        parser.add_argument(name, help="a command")
    if default:
        parser.add_argument("--program", default=default, help="the command to run")
    if batch:
        parser.add_argument("--batch", type=int, default=batch, help="cases in one run of the program")
    parser.add_argument("seed", type=int)
    parser.add_argument("count", type=int, nargs="?" if count else None, default=count)
    return parser.parse_args(words)


class Ran(NamedTuple):
    """How a program ended, and what it wrote."""

    status: int
    out: bytes
    err: bytes

    def lines(self):
        """The lines on standard error."""
        return self.err.decode(errors="replace").splitlines()


def run(program, words=(), data=b""):
    """A run of a command, with further words and the bytes of standard input."""
    ran = subprocess.run([*shlex.split(program), *map(str, words)], input=data, capture_output=True, check=False)
    return Ran(ran.returncode, ran.stdout, ran.stderr)


class Comparison:
    """The cases of a seed, in turn.  The first difference ends the program with status 1."""

    def __init__(self, seed):
        self.seed, self.rng, self.case = seed, random.Random(seed), "0"

    def cases(self, count, kind=""):
        """The numbers from 0; a kind tells them from those of other cases of this seed."""
        for n in range(count):
            self.case = f"{kind}{n}"
            yield n

    def same(self, asked, inputs, expected, found):
        """Inputs are the bytes that a difference is saved with, by the ending of the file's name."""
        if expected != found:
            self.show(asked, inputs, expected, found)

    def show(self, asked, inputs, expected, found):
        print(f"difference in case {self.case} of seed {self.seed}: {asked}")
        for ending, data in inputs.items():
            self.save(Path(f"difference-{self.seed}-{self.case}.{ending}"), data)
        print(f"expected {expected}\nfound {found}\nagain: {shlex.join(['python3', *sys.argv])}")
        sys.exit(1)

    def save(self, path, data):
        if len(data) <= MOST_SHOWN:
            print(data.hex())
        try:
            path.write_bytes(data)
            print(f"saved as {path}, {len(data)} bytes")
        except OSError as error:
            print(f"not saved: {error}")


def first_other(expected, found):
    """Texts that should stand one after the other: the number of the first that does not come next and what stands there, or None."""
    start, n, text = 0, -1, ""
    for n, text in enumerate(expected):
        if not found.startswith(text, start):
            return n, found[start:]
        start += len(text)
    return None if start == len(found) else (n, text + found[start:])


def main(words, commands, about):
    """Does what the first word names, with the words behind it, and answers the exit status; where it names nothing, says what there is."""
    if words[:1] and words[0] in commands:
        return commands[words[0]](words[1:])
    print(about, file=sys.stderr)
    return 2
