"""The Makefile, where all is built: no kit is in PATH."""

import os
import subprocess
from pathlib import Path

from tree import AS_NOBODY, PATH, ROOT, TREE, Skipped, data, example, folder, holds, run, same, test


def make(*words, **more):
    """A run of make in the repository."""
    if run(["make", "-s"], cwd=ROOT, env={"PATH": PATH}).status != 0:
        raise Skipped("what stands here is not built as it is; make builds it")
    return run(["make", "-s", *words], cwd=ROOT, env={"PATH": PATH}, **more)


def files_below(room):
    """Each file and link with what it holds, but for the pages and lists that Python keeps."""
    paths = [path for path in Path(room).rglob("*") if (path.is_file() or path.is_symlink()) and "__pycache__" not in path.parts]
    return {str(path.relative_to(room)): os.readlink(path) if path.is_symlink() else path.read_bytes() for path in paths}


@test
def a_second_make_does_nothing():
    same(make(), (0, b"", ""))


@test
def anyone_may_install_into_a_folder_of_their_own():
    with folder() as room:
        if AS_NOBODY:
            os.chown(room, 65534, 65534)
        if run(["test", "-r", ROOT / "Makefile"], **AS_NOBODY).status != 0:
            raise Skipped("nobody may not read the repository")
        same(make("install", f"DESTDIR={room}", "PREFIX=/opt/x", **AS_NOBODY), (0, b"", ""))
        same(files_below(f"{room}/opt/x"), files_below(TREE))
        same(make("uninstall", f"DESTDIR={room}", "PREFIX=/opt/x").status, 0)
        same(files_below(room), {})


@test
def the_pack_is_unpacked_anywhere_and_runs():
    made = make("dist")
    same((made.status, made.err), (0, ""))
    pack = ROOT / made.out.decode().split()[-1]
    with folder() as room:
        subprocess.run(["tar", "-C", room, "-xzf", pack], check=True)
        name = pack.name.removesuffix(".tar.gz")
        same(os.listdir(room), [name])
        same(files_below(f"{room}/{name}"), files_below(TREE))
        os.rename(f"{room}/{name}", f"{room}/of another name")
        same(run([f"{room}/of another name/bin/bodhranhaze", "report", example("printed.scene")]), (0, data("printed.report"), ""))


@test
def what_is_not_built_is_not_installed():
    with folder() as room:
        ended = run(["make", "-s", "-f", ROOT / "Makefile", "install", f"DESTDIR={room}/tree"], cwd=room, env={"PATH": PATH})
        holds(ended.status == 2 and "make builds it" in ended.err, ended)
        same(os.listdir(room), [])
