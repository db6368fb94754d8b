"""The installed tree that is tested, runs of its programs, and the register of tests."""

import os
import shutil
import subprocess
import sys
import tempfile
from pathlib import Path
from typing import NamedTuple

ROOT = Path(__file__).resolve().parents[2]
# The folder that has bin, libexec and share.
TREE = Path(sys.argv[1] if sys.argv[1:] else "/usr/local").resolve()
FRONT = TREE / "bin/bodhranhaze"
PROGRAMS = TREE / "libexec/bodhranhaze"
NAMES = "report ask edit map off bench marks merge class table pack".split()
EXAMPLES = TREE / "share/bodhranhaze/examples"
# No kit is here.
PATH = "/usr/bin:/bin"
# What root adds to a run that may not be root's.
AS_NOBODY = {"user": 65534, "group": 65534, "extra_groups": []} if os.geteuid() == 0 else {}

TESTS = []


def test(function):
    """Registers a test; its name is the sentence that it holds to."""
    TESTS.append((function.__name__.replace("_", " "), function))
    return function


def each(*items):
    """Registers a test for each of the items."""
    def register(function):
        for item in items:
            title = item if isinstance(item, str) else " ".join(item)
            TESTS.append((f"{function.__name__.replace('_', ' ')}: {title}", lambda item=item: function(item)))
        return function
    return register


class Skipped(Exception):
    """Why a test could not be run here."""


# The words before a program, where this machine cannot run it by itself.
LOADER = os.environ.get("BODHRANHAZE_LOADER", "")
ENVIRONMENT = {"PATH": PATH, "HOME": "/", "LC_ALL": "C", **({"BODHRANHAZE_LOADER": LOADER} if LOADER else {})}


class Run(NamedTuple):
    status: int
    out: bytes
    err: str


def run(words, stdin=b"", **more):
    """A command, its standard input given as bytes, a path or an open file; it must end within half a minute."""
    given = {"input": stdin} if isinstance(stdin, bytes) else {"stdin": open(stdin, "rb") if isinstance(stdin, (str, Path)) else stdin}
    more = {"stdout": subprocess.PIPE, "stderr": subprocess.PIPE, "env": ENVIRONMENT, **given, **more}
    ended = subprocess.run([str(word) for word in words], timeout=30, check=False, **more)
    return Run(ended.returncode, ended.stdout, (ended.stderr or b"").decode("utf-8", "replace"))


def front(*words, **more):
    """A run through the front command."""
    return run([FRONT, *words], **more)


def alone(program, *words, **more):
    """A run of a program by itself."""
    return run([*LOADER.split(), PROGRAMS / program, *words], **more)


def shell(script, *words, **more):
    """A shell's line: "$@" are the words."""
    return run(["sh", "-c", script, "sh", *words], **more)


def example(name):
    return EXAMPLES / name


def data(name):
    return example(name).read_bytes()


def folder():
    """A new folder that anyone may read; it goes when it is used no more."""
    made = tempfile.TemporaryDirectory(prefix="bodhranhaze-")
    os.chmod(made.name, 0o755)
    return made


def same(got, wanted):
    if got != wanted:
        raise AssertionError(f"{wanted!r} was expected, and there is {got!r}")


def holds(fact, *shown):
    if not fact:
        raise AssertionError(" ".join(map(repr, shown)) or "it does not hold")


def trouble(ended, program, words=""):
    """It ended with 2, an empty answer, and a line of the program's that has these words."""
    same((ended.status, ended.out or b""), (2, b""))
    lines = [line for line in ended.err.splitlines() if line.startswith(f"{program}: ") and words in line]
    holds(lines, f"no line `{program}: …{words}`", ended.err)


def version():
    """The line of --version, by the version that the pkg-config file has."""
    lines = (TREE / "lib/pkgconfig/bodhranhaze.pc").read_text().splitlines()
    return [f"bodhranhaze {line.split()[1]}\n".encode() for line in lines if line.startswith("Version:")][0]


def needs(command):
    if not shutil.which(command, path=PATH):
        raise Skipped(f"{command} is not installed")
