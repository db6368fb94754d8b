"""all.py PAGE [--report COMMAND] [--damaged N] [--moves N] [--pictures FOLDER] [PART ...]: the page in a real browser.

After each step what the page says must be the report of the scene that it saves. COMMAND is the
built program; without it the independent program answers in its place.
"""

import argparse
import random
import shlex
import subprocess
import sys
import tempfile
import time
from pathlib import Path

ROOT = Path(__file__).resolve().parents[2]
EXAMPLES = ROOT / "examples"
sys.dont_write_bytecode = True
sys.path.append(str(ROOT / "tests" / "independent"))

from browser import Browser  # noqa: E402
from exact import read_scene, report  # noqa: E402
from judge import point_rows  # noqa: E402
from scenes import random_scene  # noqa: E402
from selenium.webdriver.common.keys import Keys  # noqa: E402
from session import Session  # noqa: E402

PIERCED, PIERCING = (58, 15, 44), (163, 25, 91)  # web/colours.js


class Checks:
    def __init__(self, browser, words, downloads):
        self.browser, self.words, self.downloads, self.passed, self.failed = browser, words, downloads, 0, 0

    def same(self, what, got, wanted):
        if got == wanted:
            self.passed += 1
            return
        self.failed += 1
        print(f"failed: {what}: {got!r:.300}, and not {wanted!r:.300}", flush=True)

    def report(self, data):
        if self.words.report:
            return subprocess.run(shlex.split(self.words.report), input=data, capture_output=True, check=True).stdout.decode()
        return "".join(line + "\n" for line in report(read_scene(data)))

    def step(self, what):
        """What the page says is the report of what it saves; the bytes are handed back."""
        data = self.browser.saved()
        self.same(f"{what}: the report", self.browser.state(), self.report(data))
        return data


def example(name):
    return (EXAMPLES / f"{name}.scene").read_bytes()


def rows_of(data):
    """The vertices' rows, and the far point's behind them."""
    *vertices, far = [list(row) for row in point_rows(data)]
    return vertices, far


def examples(checks):
    """Every example by its address: the report of the repository, and the very bytes."""
    for path in sorted(EXAMPLES.glob("*.scene")):
        checks.browser.example(path.stem)
        checks.same(f"{path.stem}: saved", checks.browser.saved(), path.read_bytes())
        checks.same(f"{path.stem}: said", checks.browser.state(), path.with_suffix(".report").read_text())


def files(checks):
    """Scenes and texts by the button, a damaged text, an OFF text, and a real download."""
    browser = checks.browser
    browser.example("printed")
    for name in ("gear-meets.scene", "refused-9-one.scene", "infinity.txt", "direction-cross.txt"):
        browser.open(EXAMPLES / name)
        checks.same(name, checks.step(name), example(Path(name).stem))
    before = browser.saved()
    browser.drop("wrong.txt", b"solid A\nv 1 2\n")
    checks.same("a wrong text is told with its line", "line 2" in browser.text("said"), True)
    browser.open(EXAMPLES / "clamp.off")
    checks.same("the scene stays", checks.step("wrong files"), before)
    browser.example("printed")
    browser.driver.execute_script("window.downloads = true")
    browser.find("save").click()
    written = Path(checks.downloads) / "printed.scene"
    browser.wait("a download", written.exists)
    checks.same("a file on the disk", written.read_bytes(), example("printed"))


def dragging(checks):
    """A vertex dragged by the mouse, through weight 0 in mid-drag; the same moves by the independent session."""
    browser, data = checks.browser, example("printed")
    browser.example("printed")
    vertices, _ = rows_of(data)
    browser.hold(browser.at(vertices, vertices[3]))
    checks.same("picked", browser.find("number").get_attribute("value"), "4")
    seen = set()
    for _ in range(12):
        browser.pull(6, -9)
        seen.add(checks.step("dragged"))
    checks.same("it moves", len(seen) > 3, True)
    before = browser.saved()
    browser.press_shifted("w")
    checks.same("weight 0 is refused", browser.text("said").startswith("refused 6: point 4"), True)
    checks.same("the scene stays", checks.step("weight 0"), before)
    browser.pull(5, 5)
    checks.same("also in mid-drag", [browser.text("said")[:9], checks.step("weight 0, dragged")], ["refused 6", before])
    browser.press_shifted("w")
    browser.pull(1, 1)
    checks.same("through infinity", rows_of(checks.step("weight -1"))[0][3][3], -1)
    browser.release()
    for _ in range(4):
        browser.find("undo").click()
        checks.step("undone")
    checks.same("all undone", browser.saved(), data)


def typing(checks):
    """Random rows typed: accepted and refused as the independent session has it, byte for byte."""
    browser, session, rng = checks.browser, Session(), random.Random(38)
    browser.example("printed")
    session.open(example("printed"))
    for _ in range(25):
        point, row = rng.choice((1, 4, 5, 9, 10)), [rng.choice((0, 1, -7, 4095, 4096, 10**30)) for _ in range(3)] + [rng.randint(-2, 2)]
        try:
            session.far(*row) if point == 9 else session.move(point, *row)
            refused = ""
        except Exception as error:
            refused = error.line.rsplit(" ", 1)[0]
        browser.type_row(point, row)
        said = browser.text("said").split(":")[0]
        checks.same(f"typed {point} {row}: refused", said if said.startswith("refused") else "", refused)
        checks.same(f"typed {point} {row}", checks.step("typed"), session.data)
    browser.type_row(1, ["1.5", 0, 0, 1])
    checks.same("not whole", browser.text("said"), "refused 15 1: x 1.5")


def buttons(checks):
    """Reverse, exchange, direction, undo and redo; a pair that is pointed at by keys."""
    browser = checks.browser
    browser.example("face-on-face")
    browser.find("exchange").click()
    checks.same("exchanged", checks.step("exchanged"), example("face-on-face-swapped"))
    browser.example("printed")
    browser.find("direction").click()
    checks.same("a direction", checks.step("a direction"), example("direction-cross"))
    browser.find("undo").click()
    checks.same("undone", checks.step("undone"), example("printed"))
    browser.find("redo").click()
    checks.same("done again", checks.step("done again"), example("direction-cross"))
    browser.find("face").send_keys("3" + Keys.ENTER)
    checks.step("reversed")
    browser.find("state").send_keys(Keys.ARROW_DOWN)
    checks.same("a pair is shown", browser.find("bar").is_displayed(), True)
    browser.find("labels").send_keys(Keys.TAB, Keys.TAB)
    checks.same("Tab picks", browser.find("number").get_attribute("value"), "2")
    browser.find("copy").click()
    browser.wait("copied", lambda: "report is" in browser.text("said"))


def damaged(checks):
    """Random and damaged files, dropped one after another."""
    rng = random.Random(3838)
    checks.browser.example("printed")
    for k in range(checks.words.damaged):
        data = random_scene(rng)
        checks.browser.drop("random.scene", data)
        checks.same(f"random scene {k}", checks.step(f"random scene {k}"), data)


def redraws(checks):
    """Many moves and redraws by keys: no growth, and how long a frame takes with 46 vertices."""
    browser = checks.browser
    browser.example("gear-meets")
    browser.press(Keys.TAB)
    browser.find("labels").send_keys(Keys.TAB)
    drive = """
        const done = arguments[1], box = document.getElementById("labels"), begun = performance.now();
        let k = 0;
        const step = () => {
            const shiftKey = k % 2 === 1;
            box.dispatchEvent(new KeyboardEvent("keydown", { key: shiftKey ? "X" : "x", shiftKey, cancelable: true }));
            if (++k < arguments[0]) requestAnimationFrame(step); else done((performance.now() - begun) / k);
        };
        requestAnimationFrame(step);"""
    browser.driver.set_script_timeout(600)
    browser.driver.execute_async_script(drive, 1100)
    before = browser.heap()
    each = browser.driver.execute_async_script(drive, checks.words.moves)
    grown = browser.heap() - before
    print(f"{checks.words.moves} moves of the gear, each with its redraw: {each:.1f} ms each, {grown} bytes grown", flush=True)
    checks.same("no growth", grown < 500_000, True)
    checks.step("after many moves")


PICTURES = ("printed infinity a-in-b gear-meets face-on-face direction-cross edge-in-six self-crossing flat two-parts").split()


def pictures(checks):
    """Ten pictures; a pierced face is hatched and a piercing edge marked exactly where there are pairs."""
    for name in PICTURES:
        checks.browser.example(name)
        time.sleep(0.2)
        picture = checks.browser.picture()
        if checks.words.pictures:
            (Path(checks.words.pictures) / f"{name}.png").write_bytes(picture)
        crosses = "verdict cross" in checks.browser.state()
        edges = checks.browser.pixels(PIERCING)
        checks.same(f"{name}: piercing edges ({edges} pixels)", edges > 20, crosses)


def console(checks):
    checks.same("nothing on the console", checks.browser.console(), [])


PARTS = [examples, files, dragging, typing, buttons, damaged, redraws, pictures, console]


def main():
    parser = argparse.ArgumentParser(description=__doc__)
    parser.add_argument("page")
    parser.add_argument("parts", nargs="*")
    for name in ("report", "pictures"):
        parser.add_argument(f"--{name}")
    parser.add_argument("--damaged", type=int, default=2000)
    parser.add_argument("--moves", type=int, default=10000)
    words = parser.parse_args()
    with tempfile.TemporaryDirectory() as downloads:
        browser = Browser(words.page, downloads)
        checks = Checks(browser, words, downloads)
        try:
            for part in [part for part in PARTS if not words.parts or part.__name__ in words.parts]:
                begun = time.monotonic()
                part(checks)
                print(f"{part.__name__}: {time.monotonic() - begun:.0f} s", flush=True)
        finally:
            browser.end()
    print(f"{checks.passed} passed, {checks.failed} failed")
    return 1 if checks.failed else 0


if __name__ == "__main__":
    sys.exit(main())
