"""A job array of Slurm: twice, a task killed, a pending one cancelled, a node that is off, a full disk."""

import room
from checks import finish, run, start
from lines import lines
from office import Held, Office
from slurm import asked, cluster

SLURM = lines("Slurm")


def cases(folder, checks):
    room.small_disk(folder / "office", "4m")
    office = Office(folder / "office", 1, 40)
    with cluster(folder / "cluster") as nodes:
        for time in ("first", "second"):
            checks.right(f"Slurm, {time} time", run(SLURM, office.folder), office)
        killed(office, nodes, checks)
        cancelled(office, nodes, checks)
        full_disk(office, checks)
        node_off(office, nodes, checks)


def task(nodes, ending, state):
    """The task of this number in its array, once it is in this state."""
    def found():
        return [name for name, now in nodes.tasks().items() if name.endswith(ending) and now == state]
    room.until(f"the task {ending} is {state}", found)
    return found()[0]


def killed(office, nodes, checks):
    """The second task is killed at its eleventh block, with old reports in place."""
    office.fill(2, 40)
    held = Held(office, office.share(2, 2)[10])
    process = start(SLURM, office.folder)
    held.reached()
    asked("scancel", "--signal=KILL", "--full", task(nodes, "_2", "RUNNING"))
    done = finish(process)
    held.drop()
    checks.told("Slurm, a task killed", done, office.share(2, 2)[10:])
    nodes.empty()
    checks.right("Slurm, and all again", run(SLURM, office.folder), office)


def cancelled(office, nodes, checks):
    """One node; while it holds the first task, the second is cancelled: Slurm's own status is 0 then."""
    office.fill(3, 40)
    asked("scontrol", "update", "NodeName=node2", "State=DRAIN", "Reason=test")
    held = Held(office, office.share(1, 2)[0])
    process = start(SLURM, office.folder)
    held.reached()
    asked("scancel", task(nodes, "_2", "PENDING"))
    held.let_go()
    checks.told("Slurm, a pending task cancelled", finish(process), office.share(2, 2))
    asked("scontrol", "update", "NodeName=node2", "State=RESUME")
    nodes.empty()
    checks.right("Slurm, and all again", run(SLURM, office.folder), office)


def full_disk(office, checks):
    office.fill(4, 40)
    filling = room.fill(office.folder)
    checks.told("Slurm, a full disk", run(SLURM, office.folder), office.names())
    filling.unlink()
    checks.right("Slurm, with room again", run(SLURM, office.folder), office)


def node_off(office, nodes, checks):
    """A node that is off: the other one does both tasks."""
    office.fill(5, 40)
    nodes.end("node2")
    room.until("node2 is known to be off", lambda: nodes.states() != {"idle"}, 60)
    checks.right("Slurm, a node that is off", run(SLURM, office.folder), office)
