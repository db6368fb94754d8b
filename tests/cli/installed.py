"""The tree itself: it may be moved, its pages and its completion work, its examples are made with it."""

import os
import shutil
import subprocess
import sys

from tree import EXAMPLES, NAMES, ROOT, TREE, data, each, example, folder, holds, needs, run, same, test, version

PAGES = ["man1/bodhranhaze.1", "man1/bodhranhaze-blocks.1", "man3/bodhranhaze.3", "man5/bodhranhaze-scene.5"]


@test
def the_tree_may_be_moved():
    with folder() as room:
        shutil.copytree(TREE, f"{room}/else where", symlinks=True)
        same(run([f"{room}/else where/bin/bodhranhaze", "report", example("printed.scene")]), (0, data("printed.report"), ""))
        os.symlink("else where/bin/bodhranhaze", f"{room}/link")
        same(run(["sh", "-c", "PATH=$PWD:$PATH; link --version"], cwd=room), (0, version(), ""))


@test
def the_version_stands_in_one_place():
    source = (ROOT / "crates/cli/src/lib.rt").read_text()
    holds(f'b"{version().decode().strip()}\\n"' in source, version())
    number = version().decode().split()[1]
    holds((TREE / f"lib/libbodhranhaze.so.{number}").is_file())
    for page in PAGES:
        holds(version().decode().strip() in (TREE / "share/man" / page).read_text(), page)


@each(*PAGES)
def a_page_is_well_formed(page):
    needs("groff")
    ended = run(["groff", "-man", "-Tutf8", "-ww", "-z", TREE / "share/man" / page])
    same(ended, (0, b"", ""))


@test
def the_page_has_every_program():
    page = (TREE / "share/man/man1/bodhranhaze.1").read_text()
    for name in NAMES:
        holds(f"\n.SS {name}\n" in page, name)


@test
def the_page_has_every_call():
    header = (TREE / "include/bodhranhaze.h").read_text()
    page = (TREE / "share/man/man3/bodhranhaze.3").read_text()
    calls = [line.split("(")[0].split()[-1] for line in header.splitlines() if line.startswith("size_t bodhranhaze_")]
    holds(len(calls) >= 15, calls)
    for call in calls:
        holds(f"{call}(" in page and f"{call} ()" in page, call)


def completed(*words):
    """What bash offers for the last of the words."""
    script = ('. "$0"; compopt() { :; }; COMP_WORDS=(bodhranhaze "$@"); COMP_CWORD=$#; _bodhranhaze; '
              'printf "%s\\n" "${COMPREPLY[@]}"')
    source = TREE / "share/bash-completion/completions/bodhranhaze"
    return run(["bash", "-c", script, source, *words], cwd=EXAMPLES).out.decode().split()


@test
def words_are_completed():
    needs("bash")
    for name in NAMES:
        holds(name in completed(""), name)
    same(completed("rep"), ["report"])
    same(completed("--refusals", "ask", "enc"), ["enclosed"])
    same(completed("report", "heaviest.s"), ["heaviest.scene"])
    same(completed("-o", "heaviest.s"), ["heaviest.scene"])
    same(completed("-o", "x", "mar"), ["marks"])


@test
def examples_are_made_where_they_are():
    with folder() as room:
        shutil.copy(example("printed.txt"), f"{room}/mine.txt")
        same(run([sys.executable, "-B", EXAMPLES / "make.py", "scene", "mine.txt"], cwd=room).status, 0)
        same(open(f"{room}/mine.scene", "rb").read(), data("printed.scene"))
        same(run([sys.executable, "-B", EXAMPLES / "make.py", "text", f"{room}/mine.scene"]).status, 0)
    same(run([sys.executable, "-B", EXAMPLES / "make.py", "check"]).status, 0)


@test
def documents_are_there():
    for name in ("README.md", "GUIDE.md", "LICENSE"):
        holds((TREE / "share/doc/bodhranhaze" / name).is_file(), name)


@test
def nobody_else_may_write_there():
    ended = subprocess.run(["find", str(TREE), "!", "-type", "l", "-perm", "/022"], stdout=subprocess.PIPE, check=True)
    same(ended.stdout, b"")
