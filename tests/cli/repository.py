"""./run in the repository: one build at a time, none where nothing has changed. The kit is played by a script that takes its time and tells
when two of it run at once."""

import os
import shutil
import signal
import subprocess
import time
from concurrent.futures import ThreadPoolExecutor
from pathlib import Path

from tree import ENVIRONMENT, PATH, PROGRAMS, ROOT, Skipped, each, data, example, folder, holds, run, same, shell, test, version

KIT = """#!/bin/sh
case $1 in
    version) echo "a kit" && exit ;;
    run) name=${PWD##*/} ;;
    *) exit 2 ;;
esac
cd ../..
echo "$name" >> calls
mkdir alone || { echo "two at once"; exit 1; }
sleep 0.5
rmdir alone
[ ! -e crates/wrong ] || { echo "crates/wrong stands in the way"; exit 1; }
mkdir -p crates/"$name"/out && cp built/"$name" crates/"$name"/out/
"""


class Repository:
    """A small repository with the real ./run, the built programs, and a kit in PATH."""

    def __init__(self, room):
        self.root = Path(room, "repository")
        shutil.copytree(ROOT / "packaging", self.root / "packaging")
        shutil.copy(ROOT / "run", self.root)
        shutil.copytree(PROGRAMS, self.root / "built")
        for crate in ("report", "edit", "class"):
            (self.root / "crates" / crate / "src").mkdir(parents=True)
            (self.root / "crates" / crate / "src/main.rt").write_text("fn main() {}\n")
        (self.root / "crates/cli/src").mkdir(parents=True)
        shutil.copy(ROOT / "crates/cli/src/lib.rt", self.root / "crates/cli/src")
        (self.root / "crates.txt").write_text("report:\nedit:\n")
        Path(room, "kit").mkdir()
        Path(room, "kit/rt").write_text(KIT)
        os.chmod(Path(room, "kit/rt"), 0o755)
        self.environment = {**ENVIRONMENT, "PATH": f"{room}/kit:{PATH}"}

    def run(self, *words, **more):
        return run([self.root / "run", *words], **{"env": self.environment, "cwd": self.root, **more})

    def calls(self):
        """What the kit was asked to prove, in turn."""
        path = self.root / "calls"
        return path.read_text().split() if path.exists() else []

    def without_kit(self):
        return {"env": {**self.environment, "PATH": PATH}}


PRINTED = example("printed.scene")
ANSWER = data("printed.report")


def repository(function):
    """Registers a test that is given a repository of its own."""
    def in_its_own():
        with folder() as room:
            function(Repository(room))
    in_its_own.__name__ = function.__name__
    return test(in_its_own)


def answers(ended):
    same((ended.status, ended.out), (0, ANSWER))


@repository
def it_builds_once(its):
    first = its.run("report", PRINTED)
    answers(first)
    holds("some minutes" in first.err, first.err)
    same(its.run("report", PRINTED), (0, ANSWER, ""))
    same(its.calls(), ["report"])


@repository
def it_looks_again_where_something_has_changed(its):
    answers(its.run("report", PRINTED))
    (its.root / "crates/cli/src/lib.rt").write_text((its.root / "crates/cli/src/lib.rt").read_text())
    answers(its.run("report", PRINTED))
    (its.root / "crates/edit/src/main.rt").unlink()
    answers(its.run("report", PRINTED))
    # A file that is older than the look, and new here.
    (its.root / "crates/cli/src/old.rt").write_text("")
    answers(its.run("report", PRINTED))
    os.utime(its.root / "crates/cli/src/old.rt", (0, 0))
    answers(its.run("report", PRINTED))
    (its.root / "crates.txt").write_text("report: cli\n")
    answers(its.run("report", PRINTED))
    same(len(its.calls()), 6)
    same(its.run("report", PRINTED), (0, ANSWER, ""))
    same(len(its.calls()), 6)


def at_once(its, count):
    with ThreadPoolExecutor(count) as pool:
        for ended in pool.map(lambda _: its.run("report", PRINTED), range(count)):
            answers(ended)
    same(its.calls(), ["report"])


@repository
def two_at_once_wait_for_one_another(its):
    at_once(its, 2)


@repository
def eight_at_once_wait_for_one_another(its):
    at_once(its, 8)


@repository
def two_at_once_wait_where_there_is_no_flock(its):
    tools = its.root.parent / "tools"
    tools.mkdir()
    for name in {name for place in PATH.split(":") for name in os.listdir(place)} - {"flock", "rt"}:
        (tools / name).symlink_to(shutil.which(name, path=PATH) or "/nowhere")
    its.environment["PATH"] = f"{its.root.parent}/kit:{tools}"
    at_once(its, 2)
    holds(not (its.root / ".building.d").exists())


@repository
def a_pipe_of_two_programs(its):
    line = './run edit "$1" 2> /dev/null | ./run report'
    for _ in range(2):
        answers(shell(line, PRINTED, env=its.environment, cwd=its.root))
    same(sorted(its.calls()), ["edit", "report"])


@repository
def what_is_not_proved_is_not_run(its):
    (its.root / "crates/wrong").write_text("")
    for _ in range(2):
        ended = its.run("report", PRINTED)
        same((ended.status, ended.out), (2, b""))
        holds("crates/wrong stands in the way" in ended.err and "not proved: report" in ended.err, ended.err)
    (its.root / "crates/wrong").unlink()
    answers(its.run("report", PRINTED))
    same(len(its.calls()), 3)


@repository
def no_kit_is_needed_where_all_is_built(its):
    ended = its.run("report", PRINTED, **its.without_kit())
    same((ended.status, ended.out), (2, b""))
    holds("rt" in ended.err, ended.err)
    answers(its.run("report", PRINTED))
    same(its.run("report", PRINTED, **its.without_kit()), (0, ANSWER, ""))
    same(its.run("--version", **its.without_kit()), (0, version(), ""))


@repository
def as_built_asks_no_kit(its):
    ended = its.run("--as-built", "report", PRINTED)
    same((ended.status, ended.out), (2, b""))
    holds("has not been built" in ended.err, ended.err)
    answers(its.run("report", PRINTED))
    (its.root / "crates/wrong").write_text("")
    same(its.run("--as-built", "report", PRINTED), (0, ANSWER, ""))
    same(its.run("--as-built", "--refusals", "report", example("refused-14.scene")).status, 1)
    same(len(its.calls()), 1)


@repository
def a_captured_run_does_not_wait(its):
    answers(its.run("report", PRINTED))
    began = time.monotonic()
    ended = shell('answer=$(./run report "$1" 2>&1); printf "%s\\n" "$answer"', PRINTED, env=its.environment, cwd=its.root)
    answers(ended)
    holds(time.monotonic() - began < 2.5, time.monotonic() - began)


@repository
def an_interrupt_leaves_nothing(its):
    ended = subprocess.Popen([its.root / "run", "report", PRINTED], cwd=its.root, env=its.environment, start_new_session=True,
                             stdout=subprocess.DEVNULL, stderr=subprocess.DEVNULL)
    while not (its.root / "alone").exists():
        time.sleep(0.01)
    os.killpg(ended.pid, signal.SIGINT)
    holds(ended.wait(timeout=20) in (-signal.SIGINT, 130, 2), ended.returncode)
    same(run(["pgrep", "-s", str(ended.pid)]).out, b"")
    (its.root / "alone").rmdir()
    answers(its.run("report", PRINTED))
    same(sorted(path.name for path in its.root.iterdir()),
         [".building", "built", "calls", "crates", "crates.txt", "packaging", "run", "target"])


@repository
def a_class_is_built_under_its_own_name(its):
    ended = its.run("class", PRINTED)
    holds(ended.status == 0 and ended.out.startswith(b"scenes 1\ncross 1\n"), ended)
    same(its.calls(), ["class"])


@repository
def options_and_words_go_the_same_way(its):
    same(its.run("--version"), (0, version() + b"a kit\n", ""))
    holds(b"./run [--as-built]" in its.run("--help").out)
    answers(its.run("report", PRINTED))
    for words in ([], ["nothing"], ["--nothing"], ["-o"]):
        same(its.run(*words).status, 2)
    same(its.run("-o", "answer", "report", PRINTED).status, 0)
    same((its.root / "answer").read_bytes(), ANSWER)


@each("report", "test_vectors")
def what_stands_here_is_run_as_built(program):
    """In the real repository, where it is built: no kit is in PATH."""
    if not (ROOT / "target/bin" / program).exists():
        raise Skipped("it is not built here")
    ended = run([ROOT / "run", "--as-built", program], stdin=PRINTED if program == "report" else b"")
    same((ended.status, ended.err), (0, ""))
    holds(program != "report" or ended.out == ANSWER, ended.out)
