"""Debian's Slurm on the loopback: munged, slurmctld and two slurmd, started in the foreground and ended again."""

import contextlib
import os
import pathlib
import subprocess

import room

NODES = {"node1": 17001, "node2": 17002}


def asked(*words):
    return subprocess.run(words, check=True, stdout=subprocess.PIPE, text=True, timeout=30).stdout


class Cluster:
    def __init__(self, folder):
        self.folder, self.running = folder, {}
        (folder / "state").mkdir(parents=True)
        text = pathlib.Path(__file__).with_name("slurm.conf.in").read_text().replace("@DIR@", str(folder))
        (folder / "slurm.conf").write_text(text)
        (folder / "key").write_bytes(os.urandom(1024))
        (folder / "key").chmod(0o400)

    def begin(self, name, *words):
        with open(self.folder / f"{name}.out", "a") as log:
            self.running[name] = subprocess.Popen(words, stdin=subprocess.DEVNULL, stdout=log, stderr=log)

    def begin_node(self, name):
        self.begin(name, "slurmd", "-D", "-N", name)
        room.until(f"{name} listens", lambda: room.listening(NODES[name]))

    def begin_all(self):
        files = [f"--{what}-file={self.folder}/{what}" for what in ("key", "log", "pid", "seed")]
        self.begin("munged", "munged", "--foreground", "--force", *files)
        room.until("munged", lambda: os.path.exists("/run/munge/munge.socket.2"))
        self.begin("slurmctld", "slurmctld", "-D")
        room.until("slurmctld listens", lambda: room.listening(16817))
        for name in NODES:
            self.begin_node(name)
        room.until("both nodes are idle", lambda: self.states() == {"idle"}, 60)

    def states(self):
        return set(asked("sinfo", "--noheader", "--Node", "--format=%t").split())

    def tasks(self):
        """Each task of the queue, as its job's number and its own, and its state."""
        found = asked("squeue", "--noheader", "--array", "--format=%F_%K %T").split()
        return dict(zip(found[::2], found[1::2]))

    def empty(self):
        room.until("the queue is empty", lambda: not self.tasks(), 60)

    def end(self, name):
        room.end(self.running.pop(name))


@contextlib.contextmanager
def cluster(folder):
    made = Cluster(folder)
    os.environ["SLURM_CONF"] = str(folder / "slurm.conf")
    try:
        made.begin_all()
        yield made
    finally:
        for name in reversed(list(made.running)):
            made.end(name)
        del os.environ["SLURM_CONF"]
