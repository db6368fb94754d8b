"""Runs of make.py, each in a process of its own and in a folder of their own, and the count of what passed."""

import os
import resource
import traceback

import make


def as_nobody():
    """Root reads and writes everything, and so becomes somebody else."""
    if os.geteuid() == 0:
        os.setgroups([])
        os.setgid(65534)
        os.setuid(65534)


def with_small_files():
    resource.setrlimit(resource.RLIMIT_FSIZE, (20, 20))


def with_full_output():
    os.dup2(os.open("/dev/full", os.O_WRONLY), 1)


def without(descriptor):
    return lambda: os.close(descriptor)


def in_child(words, folder, ends, before):
    """Runs the program and ends the process with its status."""
    status = 3
    try:
        for descriptor, end in enumerate(ends):
            os.dup2(end, descriptor)
        os.closerange(3, 64)
        os.chdir(folder)
        if before:
            before()
        status = make.run(words)
    except BaseException:
        os.write(2, traceback.format_exc().encode())
    finally:
        os._exit(status)


class Bench:
    """A folder to run the program in, and the count of what passed."""

    def __init__(self, folder):
        self.folder, self.work, self.passed, self.failed = folder, folder / "work", 0, 0
        self.work.mkdir()
        for path, mode in (folder, 0o755), (self.work, 0o777):
            path.chmod(mode)

    def check(self, name, held, seen=""):
        self.passed, self.failed = self.passed + bool(held), self.failed + (not held)
        if not held:
            print(f"failed: {name}: {seen}")

    def file(self, name, contents):
        path = self.work / name
        path.write_bytes(contents)
        return path

    def run(self, words, data=b"", before=None):
        """What the program does in a process of its own, once `before` is done there: its status, and what it writes on standard output
        and on standard error.  All of that has room in the pipes."""
        given, out, err = os.pipe(), os.pipe(), os.pipe()
        os.write(given[1], data)
        os.close(given[1])
        child = os.fork()
        if child == 0:
            in_child(words, self.work, (given[0], out[1], err[1]), before)
        for end in given[0], out[1], err[1]:
            os.close(end)
        with open(out[0], "rb") as written, open(err[0], "rb") as said:
            answer = written.read(), said.read().decode(errors="surrogateescape")
        return os.waitstatus_to_exitcode(os.waitpid(child, 0)[1]), *answer

    def said(self, name, words, status, expected, **more):
        """A run ends with this status and says this, in lines that begin as they should; nothing half written is left."""
        ended, _, err = self.run(words, **more)
        lines = err.splitlines()
        begin = all(line.startswith(("note: ", "make.py: ")) for line in lines)
        left = list(self.work.glob(".making*"))
        self.check(name, ended == status and expected in err and begin and not left, (ended, err, left))
