"""A folder with blocks in it, as the office has it, and the report that is right for them."""

import os
import pathlib
import sys

import room

sys.path.insert(0, str(pathlib.Path(__file__).resolve().parents[1] / "independent"))
import class_report as independent

FAR_X = 8


class Office:
    """`folder` holds `blocks`: those that stand there, or random ones of a seed."""

    def __init__(self, folder, seed=0, count=0):
        self.folder, self.blocks = folder, folder / "blocks"
        self.blocks.mkdir(parents=True, exist_ok=True)
        if count:
            self.fill(seed, count)

    def fill(self, seed, count):
        """Blocks of the same names, each unlike those of any other seed by its first scene; reports stay as they are."""
        independent.write_blocks(str(self.blocks), seed, count)
        first = bytearray(independent.CROSS)
        first[FAR_X] = seed
        for name in self.names():
            path = self.blocks / name
            path.write_bytes(first + path.read_bytes())

    def names(self):
        return sorted(path.name for path in self.blocks.glob("*.block"))

    def share(self, k, n):
        return self.names()[k - 1::n]

    def reports(self, name=".block"):
        """The reports of a block, of now and of before; or of all."""
        return sorted(self.blocks.glob(f"{name.removesuffix('.block')}*.report"))

    def forget(self):
        for report in self.reports():
            report.unlink()

    def expected(self):
        """The report of all blocks in sequence, by the independent program."""
        each = [independent.report((self.blocks / name).read_bytes()) for name in self.names()]
        return "\n".join(independent.merged("".join(line + "\n" for lines in each for line in lines))) + "\n"


class Held:
    """A block that holds whoever reads it, as a disk does that hangs."""

    def __init__(self, office, name):
        self.path, self.aside = office.blocks / name, office.blocks / f"{name}.aside"
        self.bytes = self.path.read_bytes()
        self.path.rename(self.aside)
        os.mkfifo(self.path)

    def reached(self):
        """Waits for the reader, and keeps it; for those who come later the block itself stands there again."""
        room.until(f"{self.path.name} is read", self._opened)
        self.aside.replace(self.path)

    def _opened(self):
        try:
            self.end = os.open(self.path, os.O_WRONLY | os.O_NONBLOCK)
        except OSError:
            return False
        return True

    def let_go(self):
        os.write(self.end, self.bytes)
        os.close(self.end)

    def drop(self):
        os.close(self.end)
