"""class, table and pack: each file is one scene, and none is passed over silently."""

import os
import subprocess
import time
from pathlib import Path

from tree import EXAMPLES, FRONT, LOADER, data, each, example, folder, front, holds, needs, run, same, test, trouble

SCENES = sorted(EXAMPLES.glob("*.scene"))
VERDICTS = ("cross", "a-in-b", "b-in-a", "apart")


def told(name):
    """Of an example: its verdict or `refused N P`, enclosed counts and pairs, read off its report."""
    lines = example(f"{name}.report").read_text().splitlines()
    if len(lines) < 4:
        return lines[0], None, None, None
    return (lines[1].split()[1], *lines[2].split()[1:], lines[3].split()[1])


def class_report(tellings):
    """The lines of a class report over what was told of each scene."""
    firsts = [first for first, *_ in tellings]
    lines = [f"scenes {len(firsts)}", *(f"{verdict} {firsts.count(verdict)}" for verdict in VERDICTS)]
    lines += [f"refused {n} {sum(first.startswith(f'refused {n} ') for first in firsts)}" for n in (*range(1, 10), 14)]
    pairs = [int(pairs) for first, _, _, pairs in tellings if not first.startswith("refused")]
    lines.append("mean " + (f"{sum(pairs) // len(pairs)} {sum(pairs) % len(pairs)} {len(pairs)}" if pairs else "0 0 0"))
    return "".join(line + "\n" for line in lines).encode()


WANTED = class_report([told(path.stem) for path in SCENES])


@test
def the_class_of_the_examples():
    same(front("class", *SCENES), (0, WANTED, ""))


@test
def the_class_of_a_folder():
    ended = front("class", EXAMPLES)
    same((ended.status, ended.out), (0, WANTED))
    others = sum(not path.name.endswith(".scene") and path.is_file() for path in EXAMPLES.iterdir())
    holds(f"note: {others} other files in {EXAMPLES} are not read\n" in ended.err, ended.err)


@test
def a_hidden_scene_counts_and_the_answers_own_file_does_not():
    with folder() as room:
        for name in ("a.scene", ".b.scene"):
            Path(room, name).write_bytes(data("apart.scene"))
        same(front("class", room).out.splitlines()[0], b"scenes 2")
        same(front("-o", f"{room}/t.txt", "table", room), (0, b"", ""))
        holds(front("table", room).err.startswith("note: 1 other files"), room)


@test
def the_class_of_a_list():
    names = "".join(f"{path}\n" for path in SCENES).encode()
    same(front("class", "--names", "-", stdin=names), (0, WANTED, ""))
    with folder() as room:
        Path(room, "list").write_bytes(names)
        same(front("class", "--names", f"{room}/list"), (0, WANTED, ""))


@test
def a_line_for_each_file():
    ended = front("table", *SCENES)
    same((ended.status, ended.err), (0, ""))
    heading, *lines = ended.out.decode().splitlines()
    same(heading, "name\tverdict\tA in B\tB in A\tpairs\twhy")
    same(len(lines), len(SCENES))
    for path, line in zip(SCENES, lines):
        name, first, *rest = line.split("\t")
        wanted = told(path.stem)
        same((name, first), (str(path), wanted[0]))
        same(len(rest), 4)
        if first in VERDICTS:
            same(tuple(rest), (*wanted[1:], ""))
        else:
            holds(rest[:3] == ["", "", ""] and rest[3], line)


@test
def the_table_of_a_folder():
    same(front("table", EXAMPLES).out, front("table", *SCENES).out)
    same(front("--refusals", "table", EXAMPLES).status, 1)
    same(front("--refusals", "table", example("printed.scene")).status, 0)


def office(room, count):
    """A folder of good scenes."""
    kinds = [data(f"{name}.scene") for name in ("printed", "apart", "a-in-b", "gear-clear")]
    for k in range(count):
        Path(room, f"{k:04}.scene").write_bytes(kinds[k % 4])


@each("short", "empty", "text", "long")
def one_bad_file_costs_no_other(kind):
    bad = {"short": data("printed.scene")[:-3], "empty": b"", "text": data("printed.txt"), "long": data("printed.scene") * 50}[kind]
    refusal = {"short": "refused 3 0", "empty": "refused 1 0", "text": "refused 1 0", "long": "refused 3 0"}[kind]
    with folder() as room:
        office(room, 12)
        Path(room, "0005.scene").write_bytes(bad)
        ended = front("class", room)
        same((ended.status, ended.err), (0, ""))
        lines = ended.out.decode().splitlines()
        same((lines[0], sum(int(line.split()[1]) for line in lines[1:5])), ("scenes 12", 11))
        table = front("table", room).out.decode().splitlines()[1:]
        same(len(table), 12)
        same(table[5].split("\t")[1], refusal)


@each("class", "table")
def a_file_that_cannot_be_read_is_trouble(program):
    with folder() as room:
        office(room, 3)
        os.symlink("nowhere", f"{room}/0001x.scene")
        ended = front(program, room)
        trouble(ended._replace(out=b""), program, f"{room}/0001x.scene: No such file or directory")
        if program == "class":
            same(ended.out, b"")
        else:
            same(ended.out.decode().splitlines()[3].split("\t")[:2], [f"{room}/0001x.scene", "not read"])


def timed(*words):
    began = time.monotonic()
    ended = front(*words)
    return ended, time.monotonic() - began


@each("class", "table")
def a_thousand_files(program):
    with folder() as room:
        office(room, 1000)
        ended, took = timed(program, room)
        same((ended.status, ended.err), (0, ""))
        if program == "class":
            holds(ended.out.startswith(b"scenes 1000\ncross 250\na-in-b 250\nb-in-a 0\napart 500\n"), ended.out)
        else:
            same(ended.out.count(b"\n"), 1001)
        # An emulator takes its own time.
        holds(took < (5 if LOADER else 0.2), f"{took:.2f} s")


@test
def progress_is_seen_on_a_terminal_where_it_takes_long():
    """One of the files is a pipe into which nothing is written for three seconds."""
    needs("script")
    with folder() as room:
        office(room, 3)
        os.mkfifo(f"{room}/0001x.scene")
        line = f"(sleep 3; : > {room}/0001x.scene) & '{FRONT}' class {room} > {room}/report; echo status $?; wait"
        ended = run(["script", "-qec", line, "/dev/null"], stdin=subprocess.DEVNULL)
        holds(b"files\r" in ended.out and b"status 0" in ended.out, ended.out)
        holds(Path(room, "report").read_bytes().startswith(b"scenes 4\n"))


@test
def folders_that_do_not_fit():
    with folder() as room:
        trouble(front("class", room), "bodhranhaze", f"{room}: no name in this folder ends in .scene")
        office(room, 1)
        trouble(front("class", room, "-"), "bodhranhaze", "standard input")
        Path(room, "a\nb.scene").write_bytes(b"")
        trouble(front("table", room), "bodhranhaze", "line")


@test
def standard_input_is_read_once():
    scene = example("printed.scene")
    trouble(front("class", "-", "-", stdin=scene), "class", "-: Bad file descriptor")
    ended = front("table", "-", "-", stdin=scene)
    same((ended.status, [line.split("\t")[:2] for line in ended.out.decode().splitlines()[1:]]), (2, [["-", "cross"], ["-", "not read"]]))
    with folder() as room:
        ended = front("pack", f"{room}/blocks", "-", "-", stdin=scene)
        holds("pack: -: Bad file descriptor\n" in ended.err and ended.status == 2, ended)


@test
def folders_and_files_together():
    with folder() as room:
        os.mkdir(f"{room}/sub")
        office(f"{room}/sub", 3)
        Path(room, "-odd name.scene").write_bytes(data("apart.scene"))
        ended = front("table", "sub", example("printed.scene"), ".", cwd=room)
        same(ended.status, 0)
        names = [line.split("\t")[0] for line in ended.out.decode().splitlines()]
        same(names, ["name", "sub/0000.scene", "sub/0001.scene", "sub/0002.scene", str(example("printed.scene")), "./-odd name.scene"])


def reports_of(blocks):
    """The report of all blocks of a folder, each of which holds whole scenes."""
    reports = b""
    for name in sorted(os.listdir(blocks)):
        holds(0 < os.path.getsize(f"{blocks}/{name}") <= 65536, name)
        reports += front("marks", stdin=f"{blocks}/{name}").out
    return front("merge", "--reports", str(len(os.listdir(blocks))), stdin=reports).out


@test
def files_are_packed_into_blocks():
    with folder() as room:
        office(room, 200)
        ended = front("pack", "blocks", ".", cwd=room)
        same((ended.status, ended.err), (0, ""))
        lines = [line.split() for line in ended.out.decode().splitlines()]
        same([name for name, _, _ in lines], sorted(os.listdir(f"{room}/blocks")))
        same([int(size) for _, _, size in lines], [os.path.getsize(f"{room}/blocks/{name}") for name, _, _ in lines])
        same(sum(int(scenes) for _, scenes, _ in lines), 200)
        holds(len(lines) > 1, lines)
        same(reports_of(f"{room}/blocks"), front("class", room).out)


@test
def what_cannot_stand_in_a_block_is_named():
    with folder() as room:
        office(room, 20)
        Path(room, "0007.scene").write_bytes(data("printed.scene")[:-3])
        Path(room, "0008.scene").write_bytes(b"")
        Path(room, "0009.scene").write_bytes(data("refused-14.scene"))
        Path(room, "0010.scene").write_bytes(data("printed.txt"))
        ended = front("pack", "blocks", ".", cwd=room)
        same(ended.status, 2)
        named = [line for line in ended.err.splitlines() if line.startswith("pack: ") and ".scene: " in line]
        same([line.split(":")[1].strip() for line in named], ["./0007.scene", "./0008.scene", "./0010.scene"])
        lines = reports_of(f"{room}/blocks").decode().splitlines()
        holds(lines[0] == "scenes 17" and "refused 14 1" in lines, lines)


@test
def no_block_is_overwritten():
    with folder() as room:
        office(room, 3)
        same(front("pack", "blocks", ".", cwd=room).status, 0)
        before = Path(room, "blocks/00001.block").read_bytes()
        Path(room, "0000.scene").write_bytes(data("apart.scene"))
        trouble(front("pack", "blocks", ".", cwd=room), "pack", "00001.block")
        same((os.listdir(f"{room}/blocks"), Path(room, "blocks/00001.block").read_bytes()), (["00001.block"], before))
