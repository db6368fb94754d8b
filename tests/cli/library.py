"""The library: it is loaded by its soname, exports its calls alone, and answers as the programs do."""

import ctypes
import platform
from pathlib import Path

from tree import EXAMPLES, LOADER, ROOT, TREE, Skipped, folder, holds, needs, run, same, test

LIB = TREE / "lib"
NAMES = ["printed", "apart", "a-in-b", "direction-b-in-a", "gear-meets", "refused-9-one", "refused-14"]
SCENES = [EXAMPLES / f"{name}.scene" for name in NAMES]


def wanted():
    return b"".join(path.with_suffix(".report").read_bytes() for path in SCENES)


@test
def links_lead_to_the_library():
    same((LIB / "libbodhranhaze.so").resolve(), (LIB / "libbodhranhaze.so.1").resolve())
    holds((LIB / "libbodhranhaze.so.1").resolve().name.startswith("libbodhranhaze.so.1."))


@test
def only_the_calls_are_exported():
    needs("readelf")
    dynamic = run(["readelf", "-d", LIB / "libbodhranhaze.so"]).out
    holds(b"soname: [libbodhranhaze.so.1]" in dynamic, dynamic)
    symbols = [line.split() for line in run(["readelf", "-W", "--dyn-syms", LIB / "libbodhranhaze.so"]).out.decode().splitlines()]
    defined = {words[7] for words in symbols if len(words) == 8 and words[0].endswith(":") and words[6].isdigit()}
    header = (TREE / "include/bodhranhaze.h").read_text()
    same(defined, {line.split("(")[0].split()[-1] for line in header.splitlines() if line.startswith("size_t bodhranhaze_")})


@test
def it_is_loaded_and_answers():
    if platform.machine() != "x86_64":
        raise Skipped("the library is for x86-64")
    library = ctypes.CDLL(str(LIB / "libbodhranhaze.so.1"))
    for path in SCENES:
        data = path.read_bytes()
        lines = path.with_suffix(".report").read_text().splitlines()
        verdict = ["cross", "a-in-b", "b-in-a", "apart"].index(lines[1].split()[1]) if len(lines) > 1 else 4
        same(library.bodhranhaze_verdict(data, ctypes.c_size_t(len(data))), verdict)


def compiled_by_the_kit(tools, room, libraries):
    """tests/c/survey.c by the kit's compiler."""
    lib = tools.parent / "lib"
    run([tools / "clang", "--target=x86_64-unknown-linux-gnu", "-O2", "-fPIE", "-ffreestanding", "-nostdinc",
         f"-I{ROOT}/tests/c/headers", f"-I{TREE}/include", "-c", ROOT / "tests/c/survey.c", "-o", f"{room}/survey.o"])
    starts = [lib / name for name in ("Scrt1.o", "crti.o", "crtbeginS.o")]
    ends = [lib / name for name in ("libc.so.6", "libc_nonshared.a", "libgcc.a", "crtendS.o", "crtn.o")]
    return run([tools / "ld.lld", "-pie", "-dynamic-linker", lib / "ld-linux-x86-64.so.2", "-rpath", LIB,
                *starts, f"{room}/survey.o", *libraries, *ends, "-o", f"{room}/survey"])


def compiled_here(room, libraries):
    needs("cc")
    return run(["cc", f"-I{ROOT}/tests/c/headers", f"-I{TREE}/include", f"-Wl,-rpath,{LIB}", ROOT / "tests/c/survey.c", *libraries,
                "-o", f"{room}/survey"])


def reports_by(libraries):
    """What a program in C prints of the examples that is linked with the library."""
    with folder() as room:
        tools = Path(LOADER.split()[0]).parents[1] / "bin" if LOADER else None
        if tools and not (tools / "clang").exists():
            raise Skipped("there is no compiler for x86-64")
        made = compiled_by_the_kit(tools, room, libraries) if tools else compiled_here(room, libraries)
        same((made.status, made.err), (0, ""))
        return run([*LOADER.split(), f"{room}/survey", *SCENES]).out


@test
def a_program_in_c_is_linked_with_it():
    same(reports_by([f"-L{LIB}", "-lbodhranhaze"]), wanted())


@test
def a_program_in_c_is_linked_with_the_archive():
    same(reports_by([LIB / "libbodhranhaze.a"]), wanted())


@test
def pkg_config_finds_it():
    needs("pkg-config")
    ended = run(["pkg-config", "--with-path", LIB / "pkgconfig", "--cflags", "--libs", "bodhranhaze"])
    same((ended.status, ended.err), (0, ""))
    words = ended.out.decode().split()
    same((Path(words[0][2:]).resolve(), Path(words[1][2:]).resolve(), words[2]), (TREE / "include", LIB, "-lbodhranhaze"))
