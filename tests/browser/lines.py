"""lines.py SEED COUNT: random and damaged scenes, one a line: the bytes in hex, a space, and the independent program's report.

A newline of the report is written as `;`.
"""

import random
import sys
from pathlib import Path

sys.dont_write_bytecode = True
sys.path.append(str(Path(__file__).resolve().parents[1] / "independent"))

from exact import read_scene, report  # noqa: E402
from scenes import random_scene  # noqa: E402

seed, count = map(int, sys.argv[1:])
rng = random.Random(seed)
for _ in range(count):
    data = random_scene(rng)
    print(data.hex(), ";".join(report(read_scene(data))))
