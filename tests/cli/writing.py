"""Writes that fail: words and 2. And -o, which replaces a file only by a whole answer."""

import os
import resource
import signal
import subprocess

from given import IDENTITY, TAKING, given
from tree import (ENVIRONMENT, FRONT, LOADER, NAMES, PROGRAMS, data, each, example, folder, front, holds, needs, run, same, shell, test,
                  trouble)

FAR = "1000 1001 1003 1".split()
MORE = {
    "bench": ["bench", example("printed.scene"), example("printed.scene"), *"one 1 0 0 0 1".split()],
    "off of two texts": ["off", example("clamp.off"), example("workpiece.off"), *FAR],
    "class": ["class", example("printed.scene"), example("apart.scene")],
    "table": ["table", example("printed.scene"), example("apart.scene")],
    "a long report": ["report", example("heaviest.scene")],
    "a long listing": ["ask", "listing", example("heaviest.scene")],
    "a refusal": ["report", example("refused-14.scene")],
    "why": ["ask", "why", example("refused-14.scene")],
    **{f"{name} --help": [name, "--help"] for name in NAMES},
    **{f"{name} --version": [name, "--version"] for name in NAMES},
}


def words_of(title, room):
    if title in MORE:
        return MORE[title]
    words, path = given(title, room)
    return [*words, path]


@each(*TAKING, *MORE)
def a_full_disk_is_told(title):
    with folder() as room, open("/dev/full", "wb") as full:
        words = words_of(title, room)
        said = "standard output: No space left on device"
        trouble(front(*words, stdout=full), words[0], said)
        trouble(run([*LOADER.split(), PROGRAMS / words[0], *words[1:]], stdout=full)._replace(status=2), words[0], said)


@each("report", "ask", "merge", "bench", "table", "why")
def a_full_disk_is_told_where_refusals_are_asked_for(title):
    with folder() as room, open("/dev/full", "wb") as full:
        words = words_of(title, room)
        trouble(front("--refusals", *words, stdout=full), words[0], "standard output: No space left on device")


@test
def a_full_disk_is_told_by_the_command_itself():
    with open("/dev/full", "wb") as full:
        trouble(front("--help", stdout=full), "bodhranhaze", "standard output: No space left on device")


@each(*TAKING, "bench", "class", "table", "off of two texts", "report --help")
def a_closed_standard_output_is_told(title):
    with folder() as room:
        words = words_of(title, room)
        ended = shell('"$@" >&-', FRONT, *words)
        same(ended.status, 2)
        holds("standard output: Bad file descriptor" in ended.err, ended.err)


@each("report", "ask listing", "edit", "marks")
def a_program_alone_tells_that_standard_output_is_closed(title):
    with folder() as room:
        words = words_of(title, room)
        ended = shell('"$@" >&-', *LOADER.split(), PROGRAMS / words[0], *words[1:])
        holds(f"{words[0]}: standard output: Bad file descriptor" in ended.err, ended.err)


@each("write", "fsync")
def a_disk_that_is_full_only_later_is_told(call):
    """At the second write, or only where the file is handed to the disk, as some file servers tell it."""
    needs("strace")
    with folder() as room:
        path = f"{room}/answer"
        error = "error=ENOSPC:when=2" if call == "write" else "error=ENOSPC:when=1+"
        line = ["strace", "-f", "-qq", "-o", "/dev/null", "-P", path, "-e", f"inject={call}:{error}"]
        with open(path, "wb") as file:
            ended = run([*line, FRONT, "report", example("heaviest.scene")], stdout=file)
        trouble(ended, "report", "standard output: No space left on device")


def without_reader(*words, **more):
    """How a run ends, and what it says, whose answer no one reads."""
    words = [str(word) for word in (FRONT, *words)]
    with subprocess.Popen(words, stdout=subprocess.PIPE, stderr=subprocess.PIPE, env=ENVIRONMENT, **more) as ended:
        ended.stdout.close()
        return ended.wait(timeout=60), ended.stderr.read()


@each([], ["--refusals"])
def a_reader_that_has_gone_ends_it_silently(options):
    same(without_reader(*options, "report", example("heaviest.scene")), (141, b""))


@test
def a_reader_that_has_gone_ends_a_program_that_would_say_more():
    with folder() as room:
        same(without_reader("pack", f"{room}/blocks", example("printed.scene")), (141, b""))


@test
def a_reader_that_has_gone_is_told_where_the_signal_is_ignored():
    words = (example("heaviest.scene"),)
    ignored = {"restore_signals": False, "preexec_fn": lambda: signal.signal(signal.SIGPIPE, signal.SIG_IGN)}
    same(without_reader("report", *words, **ignored), (2, b"report: standard output: Broken pipe\n"))


def room_for_none():
    """Files can't grow, and the signal that goes with it is ignored, so that a write fails."""
    resource.setrlimit(resource.RLIMIT_FSIZE, (0, 0))
    signal.signal(signal.SIGXFSZ, signal.SIG_IGN)


def left_in(room):
    return sorted(os.listdir(room))


@test
def a_file_takes_the_answer():
    with folder() as room:
        path = f"{room}/answer"
        same(front("-o", path, "report", example("printed.scene")), (0, b"", ""))
        same(open(path, "rb").read(), data("printed.report"))
        same(front("--output", path, "report", example("apart.scene")).status, 0)
        same(open(path, "rb").read(), data("apart.report"))
        same(left_in(room), ["answer"])


@test
def a_scene_is_changed_in_place():
    with folder() as room:
        path = f"{room}/x.scene"
        with open(path, "wb") as file:
            file.write(data("printed.scene"))
        os.chmod(path, 0o640)
        wanted = front("edit", "reverse", "8", path).out
        same(front("-o", path, "edit", "reverse", "8", path).status, 0)
        same(open(path, "rb").read(), wanted)
        same(os.stat(path).st_mode & 0o777, 0o640)
        same(front("-o", path, "map", *IDENTITY, path).status, 0)
        same(open(path, "rb").read(), wanted)
        same(left_in(room), ["x.scene"])


@test
def what_is_read_is_not_lost():
    with folder() as room:
        path = f"{room}/x.scene"
        with open(path, "wb") as file:
            file.write(data("printed.scene"))
        for words in (["report", path], ["ask", "verdict", f"{room}/./x.scene"], ["table", room], ["class", path]):
            same(front("-o", path, *words).status, 2)
            same(open(path, "rb").read(), data("printed.scene"))
        same(front("-o", "", "report", path).status, 2)
        same(left_in(room), ["x.scene"])


@each(["edit", "reverse", "8", "refused-14.scene"], ["edit", "move", "1", "2"], ["report", "nothing.scene"], ["nothing"],
      ["map", *["0"] * 16, "printed.scene"], ["off", "--write", "1", "refused-14.scene"])
def a_file_keeps_its_contents_where_there_is_no_answer(words):
    with folder() as room:
        path = f"{room}/x"
        with open(path, "wb") as file:
            file.write(b"what stood there")
        ended = front("-o", path, *words, cwd=example("."))
        holds(ended.status in (1, 2), ended)
        same(open(path, "rb").read(), b"what stood there")
        same(left_in(room), ["x"])


@test
def a_file_keeps_its_contents_where_the_disk_is_full():
    with folder() as room:
        path = f"{room}/x"
        with open(path, "wb") as file:
            file.write(b"what stood there")
        ended = front("-o", path, "report", example("printed.scene"), preexec_fn=room_for_none, restore_signals=False)
        trouble(ended, "report", "standard output: File too large")
        same(open(path, "rb").read(), b"what stood there")
        same(left_in(room), ["x"])


@test
def a_file_that_cannot_be_replaced_is_named():
    with folder() as room:
        trouble(front("-o", room, "--version"), "bodhranhaze", f"{room}: Is a directory")
        trouble(front("-o", "/dev/null", "--version"), "bodhranhaze", "/dev/null")
        trouble(front("-o", f"{room}/none/x", "--version"), "bodhranhaze", f"{room}/none/x")
        same(left_in(room), [])
    holds(not os.path.isfile("/dev/null"))


@test
def a_link_stays_a_link():
    with folder() as room:
        os.symlink("x", f"{room}/link")
        same(front("-o", f"{room}/link", "report", example("printed.scene")).status, 0)
        same(os.readlink(f"{room}/link"), "x")
        same(open(f"{room}/x", "rb").read(), data("printed.report"))


@each([], ["-o", "answer"])
def an_interrupt_leaves_nothing(options):
    """As a terminal sends it: to all of them."""
    with folder() as room:
        read, write = os.pipe()
        words = [str(word) for word in (FRONT, *options, "report")]
        ended = subprocess.Popen(words, stdin=read, cwd=room, start_new_session=True, stdout=subprocess.DEVNULL, env=ENVIRONMENT)
        try:
            ended.wait(timeout=1)
        except subprocess.TimeoutExpired:
            os.killpg(ended.pid, signal.SIGINT)
        status = ended.wait(timeout=20)
        holds(status in (-signal.SIGINT, 130), status)
        os.close(read)
        os.close(write)
        same(left_in(room), [])
        same(run(["pgrep", "-s", str(ended.pid)]).out, b"")
