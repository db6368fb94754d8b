"""Runs that answer: the words before a file, and a file that fits."""

import os

from tree import example, front

IDENTITY = "1 0 0 0 0 1 0 0 0 0 1 0 0 0 0 1".split()
# The words before a file, and a file that fits.
TAKING = {
    "report": (["report"], "printed.scene"),
    "ask": (["ask", "verdict"], "printed.scene"),
    "ask clean": (["ask", "clean"], "printed.scene"),
    "ask pierces": (["ask", "--formula", "pierces", "5", "6", "1"], "printed.scene"),
    "ask record": (["ask", "record", "3"], "printed.scene"),
    "ask listing": (["ask", "listing", "9"], "printed.scene"),
    "edit": (["edit", "reverse", "8"], "printed.scene"),
    "edit nothing": (["edit"], "printed.scene"),
    "map": (["map", *IDENTITY], "printed.scene"),
    "off": (["off", "--write", "2"], "printed.scene"),
    "marks": (["marks"], "printed.scene"),
    "merge": (["merge"], "report"),
}


def given(title, room):
    """The words, and the file, for which a class report is made in a room."""
    words, name = TAKING[title]
    if name != "report":
        return words, example(name)
    path = os.path.join(room, "class.report")
    with open(path, "wb") as file:
        file.write(front("marks", stdin=example("printed.scene")).out)
    return words, path
