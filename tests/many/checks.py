"""What is asked of every case: the merged report is right, or the status is not 0 and words name each block that is missing."""

import subprocess

import room

MOST_SECONDS = 120


class Checks:
    def __init__(self):
        self.passed = self.failed = 0

    def all_of(self, name, cases, folder):
        """The cases of a part; what keeps one from being run is a failure too."""
        try:
            cases(folder, self)
        except Exception as trouble:
            self._count(f"{name}: {trouble}", None, False)

    def right(self, case, done, office):
        """All is there: the report is that of the independent program."""
        self._count(case, done, done.returncode == 0 and done.stdout == office.expected())

    def told(self, case, done, missing):
        """Nothing is printed, and exactly the missing blocks are named as such."""
        named = [line.split()[1].rsplit("/", 1)[-1] for line in done.stderr.splitlines() if line.endswith(" has no report")]
        self._count(case, done, done.returncode != 0 and done.stdout == "" and missing != [] and named == missing)

    def refused(self, case, done, words):
        """Nothing is printed, and words say why."""
        self._count(case, done, done.returncode != 0 and done.stdout == "" and words in done.stderr)

    def holds(self, case, fact):
        self._count(case, None, fact)

    def _count(self, case, done, good):
        self.passed += good
        self.failed += not good
        print(f"{'pass' if good else 'FAIL'}  {case}")
        if not good and done:
            print(f"      status {done.returncode}\n{done.stdout}{done.stderr}", end="")


def start(text, folder):
    """Lines of the shell, in a folder."""
    pipe = subprocess.PIPE
    return subprocess.Popen(["sh", "-c", text], cwd=folder, stdin=subprocess.DEVNULL, stdout=pipe, stderr=pipe, text=True)


def finish(process):
    try:
        out, words = process.communicate(timeout=MOST_SECONDS)
    except subprocess.TimeoutExpired:
        room.end(process)
        raise
    return subprocess.CompletedProcess(process.args, process.returncode, out, words)


def run(text, folder):
    return finish(start(text, folder))
