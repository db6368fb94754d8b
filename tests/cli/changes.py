"""Programs that write a scene: through pipes, several at once, and of something that is none."""

from concurrent.futures import ThreadPoolExecutor

from given import IDENTITY
from tree import FRONT, data, each, example, folder, front, holds, same, shell, test


@test
def a_pipe_of_two():
    ended = shell('"$1" edit move 5 1 2 1 1 reverse 8 "$2" 2> /dev/null | "$1" report', FRONT, example("printed.scene"))
    same((ended.status, ended.err), (0, ""))
    same(ended.out, front("report", stdin=front("edit", "move", "5", "1", "2", "1", "1", "reverse", "8", example("printed.scene")).out).out)


@test
def a_pipe_of_four():
    line = '"$1" off "$2/clamp.off" "$2/workpiece.off" 1000 1001 1003 1 | "$1" map "$@" | "$1" edit 2> /dev/null | "$1" report'
    ended = shell('one=$1 two=$2; shift 2; ' + line.replace("$1", "$one").replace("$2", "$two"), FRONT, example("."), *IDENTITY)
    same(ended, (0, b"scene 16 28 8 12\nverdict apart\ninside 0 0\npairs 0\n", ""))


@each("2", "8")
def so_many_at_once(count):
    def one(_):
        return front("report", example("gear-meets.scene"))
    with ThreadPoolExecutor(int(count)) as pool:
        for ended in pool.map(one, range(int(count))):
            same(ended, (0, data("gear-meets.report"), ""))


@test
def an_edit_without_changes_writes_the_same_bytes():
    ended = front("edit", example("printed.scene"))
    same(ended, (0, data("printed.scene"), "counts 3 0 1\n"))


@each("", "no scene at all", "SC\4\4\4\4")
def an_edit_of_no_scene_writes_nothing(text):
    ended = front("edit", "reverse", "1", stdin=text.encode())
    same((ended.status, ended.out), (1, b""))
    holds(ended.err.startswith("refused "), ended.err)


@test
def a_solid_goes_out_as_a_text_and_comes_back():
    with folder() as room:
        for k in ("1", "2"):
            same(front("-o", f"{room}/{k}.off", "off", "--write", k, example("printed.scene")).status, 0)
        again = front("off", f"{room}/1.off", f"{room}/2.off", "100", "101", "103", "1")
    same((again.status, again.out), (0, data("printed.scene")))
