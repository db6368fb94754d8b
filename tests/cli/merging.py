"""merge: reports that are missing, empty, cut or twice are not passed over."""

import os

from tree import each, example, folder, front, holds, same, test, trouble


def reports(room, *names):
    """Class reports of one scene each, as files."""
    paths = []
    for name in names:
        path = os.path.join(room, f"{name}.report")
        front("-o", path, "marks", stdin=example(f"{name}.scene"))
        paths.append(path)
    return paths


def scenes(ended):
    return ended.out.split(b"\n")[0]


@test
def reports_add_up():
    with folder() as room:
        paths = reports(room, "printed", "apart", "a-in-b")
        named = front("merge", *paths)
        same((named.status, scenes(named)), (0, b"scenes 3"))
        together = b"".join(open(path, "rb").read() for path in paths)
        same(front("merge", stdin=together), named)
        same(front("merge", "-", stdin=together), named)
        same(front("merge", "--reports", "3", *paths), named)
        same(front("merge", "--reports", "3", stdin=together), named)
        same(front("merge", "--reports", "3", *reversed(paths)), named)
        same(front("merge", "--reports", "1", stdin=named.out), named)


@each("0", "1", "2", "4")
def another_number_of_reports_is_trouble(count):
    with folder() as room:
        paths = reports(room, "printed", "apart", "a-in-b")
        trouble(front("merge", "--reports", count, *paths), "merge")
        trouble(front("merge", "--reports", count, stdin=b"".join(open(path, "rb").read() for path in paths)), "merge")


@test
def a_report_that_is_missing_is_trouble():
    with folder() as room:
        paths = reports(room, "printed", "apart")
        trouble(front("merge", *paths, f"{room}/none.report"), "merge", f"{room}/none.report: No such file or directory")
        trouble(front("merge", "--reports", "3", *paths, f"{room}/none.report"), "merge", f"{room}/none.report")


@test
def an_empty_report_is_trouble_where_they_are_counted():
    with folder() as room:
        paths = reports(room, "printed", "apart")
        open(f"{room}/empty.report", "wb").close()
        trouble(front("merge", "--reports", "3", *paths, f"{room}/empty.report"), "merge")


@test
def a_cut_report_is_trouble():
    with folder() as room:
        paths = reports(room, "printed", "apart")
        whole = open(paths[1], "rb").read()
        for length in range(1, len(whole), 40):
            with open(paths[1], "wb") as file:
                file.write(whole[:length])
            trouble(front("merge", *paths), "merge")
            trouble(front("merge", *reversed(paths)), "merge")
        with open(paths[1], "wb") as file:
            file.write(b"no report\n")
        trouble(front("merge", *paths), "merge")


@test
def nothing_is_no_report_where_they_are_counted():
    trouble(front("merge", "--reports", "1"), "merge")
    ended = front("merge", "--reports", "0")
    same((ended.status, scenes(ended)), (0, b"scenes 0"))


@test
def many_reports():
    with folder() as room:
        report = front("marks", stdin=example("printed.scene")).out
        for k in range(500):
            with open(f"{room}/{k}", "wb") as file:
                file.write(report)
        ended = front("merge", "--reports", "500", *(f"{room}/{k}" for k in range(500)))
        holds(ended.status == 0 and ended.out.startswith(b"scenes 500\ncross 500\n"), ended)
