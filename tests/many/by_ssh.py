"""Two hosts by ssh, with the office's folder and with folders of their own: twice, one off, broken, without the programs, a full disk."""

import shutil

import room
from checks import finish, run, start
from hosts import hosts
from lines import lines
from office import Office

SHARED, OWN = lines("Several machines that see the same folder"), lines("Several machines with folders of their own")


def cases(folder, checks):
    for text, what, shared in ((SHARED, "one folder", True), (OWN, "own folders", False)):
        place = folder / what.replace(" ", "-")
        room.small_disk(place / "office", "2m")
        office = Office(place / "office", 1, 40)
        with hosts(place, office.folder, shared) as both:
            common(text, what, office, both, checks)
            breaks_down(text, what, office, both, checks)
            if shared:
                broken_off(text, what, office, both, checks)
            else:
                other_blocks(text, what, office, both, checks)
            full_disk(text, what, office, office.folder if shared else both.home("two"), checks)


def common(text, what, office, both, checks):
    for time in ("first", "second"):
        checks.right(f"{what}, {time} time", run(text, office.folder), office)
    office.fill(2, 40)
    checks.right(f"{what}, other blocks and the old reports in place", run(text, office.folder), office)
    office.fill(3, 40)
    both.end("two")
    checks.told(f"{what}, a host that is off", run(text, office.folder), office.share(2, 2))
    both.begin("two", "/usr/bin:/bin")
    checks.told(f"{what}, a host without the programs", run(text, office.folder), office.share(2, 2))
    both.end("two")
    both.begin("two")
    checks.right(f"{what}, both there again", run(text, office.folder), office)


def stuck(both):
    """A folder with a program that marks half of the second share, says so by a file, and then hangs; and that file."""
    reached, program = both.folder / "reached", both.folder / "stuck" / "bodhranhaze-blocks"
    program.parent.mkdir()
    program.write_text(f'#!/bin/sh\n{shutil.which(program.name)} mark "$2" 2 4\ntouch {reached}\nexec sleep 300\n')
    program.chmod(0o755)
    return program.parent, reached


def breaks_down(text, what, office, both, checks):
    """A host that hangs in the midst of its share, and then is gone."""
    folder, reached = stuck(both)
    both.end("two")
    both.begin("two", f"{folder}:/usr/bin:/bin")
    office.fill(4, 40)
    process = start(text, office.folder)
    room.until("half of a share", reached.exists)
    both.end("two")
    checks.told(f"{what}, a host that breaks down", finish(process), office.share(4, 4) if both.shared else office.share(2, 2))
    both.begin("two")
    checks.right(f"{what}, and is there again", run(text, office.folder), office)


def broken_off(text, what, office, both, checks):
    """The lines are ended while a host hangs; the last of them is run by itself."""
    both.end("two")
    both.begin("two", f"{both.folder}/stuck:/usr/bin:/bin")
    office.fill(5, 40)
    marked = len(office.reports()) + 30
    process = start(text, office.folder)
    room.until("one share and a half", lambda: len(office.reports()) == marked)
    room.end(process)
    checks.told(f"{what}, broken off", run(text.splitlines()[-1], office.folder), office.share(4, 4))
    both.end("two")
    both.begin("two")


def other_blocks(text, what, office, both, checks):
    """A block of another class in a host's folder: it counts the shares otherwise."""
    office.fill(5, 40)
    other = both.home("two") / "blocks" / "0000.block"
    other.write_bytes(b"")
    checks.told(f"{what}, with other blocks in one", run(text, office.folder), office.share(2, 2))
    other.unlink()
    checks.right(f"{what}, without them", run(text, office.folder), office)


def full_disk(text, what, office, disk, checks):
    office.fill(6, 40)
    filling = room.fill(disk)
    done = run(text, office.folder)
    checks.told(f"{what}, a full disk", done, office.names() if disk == office.folder else office.share(2, 2))
    checks.holds(f"{what}, a full disk's words", "No space left on device" in done.stderr)
    filling.unlink()
    checks.right(f"{what}, with room again", run(text, office.folder), office)
