"""How long 200 blocks take, each way; nothing else is looked at but that the report is right."""

import time

import alone
import by_slurm
import by_ssh
from checks import run
from hosts import hosts
from office import Office
from slurm import cluster

COUNT = 200


def timed(what, text, office, checks):
    office.forget()
    began = time.monotonic()
    done = run(text, office.folder)
    seconds = time.monotonic() - began
    checks.right(f"{COUNT} blocks, {what}: {seconds:.1f} seconds", done, office)


def cases(folder, checks):
    office = Office(folder / "office", 9, COUNT)
    timed("one after the other", alone.ONE, office, checks)
    timed("two shares at once", alone.TWO, office, checks)
    with hosts(folder / "shared", office.folder, True):
        timed("two hosts by ssh, one folder", by_ssh.SHARED, office, checks)
    with hosts(folder / "own", office.folder, False):
        timed("two hosts by ssh, own folders", by_ssh.OWN, office, checks)
    with cluster(folder / "cluster"):
        timed("two tasks of Slurm", by_slurm.SLURM, office, checks)
