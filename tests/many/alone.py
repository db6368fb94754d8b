"""One machine: twice, in two shares, blocks changed or reports lost behind its back, a program killed, a full disk."""

import room
from checks import finish, run, start
from lines import lines
from office import Held, Office

ONE, TWO = lines("One machine"), lines("One machine, two processors")
MERGE = "bodhranhaze-blocks merge blocks"


def cases(folder, checks):
    office = Office(folder, 1, 40)
    checks.told("before anything is marked every block is named", run(MERGE, folder), office.names())
    for time in ("first", "second"):
        checks.right(f"one machine, {time} time", run(ONE, folder), office)
    checks.right("two shares at once", run(TWO, folder), office)
    changed(office, checks)
    lost(office, checks)
    killed(office, checks)
    checks.refused("a merged report that cannot be written", run(MERGE + " > /dev/full", folder), "No space left on device")
    checks.refused("a folder that is not there", run("bodhranhaze-blocks mark nothing", folder), "nothing has no blocks")
    checks.refused("a share that is not there", run("bodhranhaze-blocks mark blocks 3 2", folder), "no share 3 of 2")
    full_disk(folder / "disk", checks)


def changed(office, checks):
    office.fill(2, 40)
    checks.told("other blocks, and the old reports in place", run(MERGE, office.folder), office.names())
    checks.right("marked again, the old reports still in place", run(ONE, office.folder), office)


def lost(office, checks):
    gone = office.names()[6]
    for report in office.reports(gone):
        report.unlink()
    checks.told("a report that was deleted", run(MERGE, office.folder), [gone])
    office.forget()
    run(ONE, office.folder)
    cut = office.reports()[20]
    for text, what in (("", "emptied"), (cut.read_text()[:-3], "cut"), (cut.read_text() * 2, "doubled")):
        cut.write_text(text)
        checks.refused(f"a report that was {what}", run(MERGE, office.folder), "merge: ")
    checks.right("and marked again", run(ONE, office.folder), office)


def killed(office, checks):
    office.forget()
    held = Held(office, office.names()[29])
    process = start(ONE, office.folder)
    try:
        held.reached()
    finally:
        room.end(process)
    held.drop()
    finish(process)
    checks.told("killed at the thirtieth block", run(MERGE, office.folder), office.names()[29:])
    checks.right("and run again", run(ONE, office.folder), office)


def full_disk(folder, checks):
    if not room.own():
        print("a full disk left out: this user may not mount one")
        return
    room.small_disk(folder, "1m")
    office = Office(folder, 3, 40)
    filling = room.fill(folder)
    done = run(ONE, folder)
    checks.told("a full disk", done, office.names())
    checks.holds("a full disk's words", "No space left on device" in done.stderr)
    checks.holds("a full disk has no reports in part", office.reports() == [])
    filling.unlink()
    checks.right("and with room again", run(ONE, folder), office)
