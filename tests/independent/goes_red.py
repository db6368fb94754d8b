"""Each comparison with a program that answers wrongly: it ends with status 1, and shows the seed and the bytes that it differs on.

    goes_red.py
"""

import subprocess
import sys
import tempfile
from pathlib import Path

HERE = Path(__file__).resolve().parent
SEED = "7"
REPORT = f"python3 {HERE}/class_report.py report"

# Programs that say nothing; and one that reports as it should, before one that merges nothing.
WRONG = [
    ["compare.py", "--program", "true", SEED, "3"],
    ["session.py", "compare", "--program", "true", SEED, "3"],
    ["bench.py", "compare", "--program", "true", SEED, "3"],
    ["maps.py", "compare", "true", "true", "true", SEED, "3"],
    ["off.py", "compare", "true", SEED, "3"],
    ["class_report.py", "compare", "true", "-", SEED, "3"],
    ["class_report.py", "compare", REPORT, "true", SEED, "3"],
]
RIGHT = ["class_report.py", "compare", REPORT, "-", SEED, "3"]


def run(words, folder):
    return subprocess.run([sys.executable, HERE / words[0], *words[1:]], cwd=folder, capture_output=True, text=True, check=False)


def is_red(words):
    """Whether the difference is told, and each of its inputs saved and, where it is short, shown."""
    with tempfile.TemporaryDirectory() as folder:
        ran = run(words, folder)
        saved = [path.read_bytes() for path in Path(folder).glob(f"difference-{SEED}-*.*")]
        told = [line for line in ran.stdout.splitlines() if line.startswith("difference in case ") and f" of seed {SEED}: " in line]
        shown = all(data.hex() in ran.stdout.splitlines() for data in saved if len(data) < 2000)
        return ran.returncode == 1 and len(told) == 1 and saved and shown and "\nagain: " in ran.stdout


def main():
    with tempfile.TemporaryDirectory() as folder:
        failed = [RIGHT] if run(RIGHT, folder).returncode != 0 else []
    failed += [words for words in WRONG if not is_red(words)]
    for words in failed:
        print(f"not as it should be: {words}")
    print(f"{1 + len(WRONG) - len(failed)} passed, {len(failed)} failed")
    return 1 if failed else 0


if __name__ == "__main__":
    sys.exit(main())
