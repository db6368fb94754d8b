"""All cases: the office's day, many blocks on one machine, by ssh, by Slurm. The last line counts those that passed. `run` starts it."""

import os
import pathlib
import shutil
import signal
import sys

import alone
import by_slurm
import by_ssh
import day
import room
import timing
from checks import Checks

MOST_SECONDS = 1200
SSH = ["ssh", "ssh-keygen", "sshd", "rsync"]
SLURM = ["munged", "slurmctld", "slurmd", "sbatch", "scancel", "scontrol"]
PARTS = {"day": (day, []), "alone": (alone, []), "ssh": (by_ssh, SSH), "Slurm": (by_slurm, SLURM), "time": (timing, SSH + SLURM)}


def lacking(needed):
    """Why a part is left out; empty where nothing lacks."""
    if needed and not room.own():
        return "this user may not make namespaces"
    missing = [name for name in needed if not shutil.which(name)]
    return f"not installed: {' '.join(missing)} (--install does it)" if missing else ""


def ended(number, frame):
    sys.exit(f"ended by signal {number}; the limit is {MOST_SECONDS} seconds")


def main(work, prefix, names):
    for number in (signal.SIGALRM, signal.SIGTERM):
        signal.signal(number, ended)
    signal.alarm(MOST_SECONDS)
    os.environ["PATH"] = f"{prefix}/bin:/usr/local/bin:/usr/bin:/bin:/usr/local/sbin:/usr/sbin:/sbin"
    if room.own():
        room.furnish()
    checks = Checks()
    for name in names:
        part, needed = PARTS[name]
        why = lacking(needed)
        if why:
            print(f"{name} left out: {why}")
        else:
            checks.all_of(name, part.cases, work / name)
    print(f"{checks.passed} passed, {checks.failed} failed")
    return 1 if checks.failed else 0


if __name__ == "__main__":
    sys.stdout.reconfigure(line_buffering=True)
    sys.exit(main(pathlib.Path(sys.argv[1]), sys.argv[2], sys.argv[3:]))
