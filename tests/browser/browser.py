"""A browser with the page in it, driven as a user does: real mouse events, keys and files."""

import base64
import re
from pathlib import Path

from selenium import webdriver
from selenium.webdriver.common.action_chains import ActionChains
from selenium.webdriver.common.by import By
from selenium.webdriver.common.keys import Keys
from selenium.webdriver.support.ui import WebDriverWait

ROOT = Path(__file__).resolve().parents[2]
FLAGS = ["--headless=new", "--no-sandbox", "--use-angle=swiftshader", "--enable-unsafe-swiftshader", "--window-size=1200,800",
         "--force-device-scale-factor=1", "--hide-scrollbars"]

# What the page hands to the browser for saving is seen on the way; a file is written only where a test asks for it.
KEEP = """
const make = URL.createObjectURL, click = HTMLAnchorElement.prototype.click;
URL.createObjectURL = (blob) => { window.kept = blob; return make.call(URL, blob); };
HTMLAnchorElement.prototype.click = function () { if (window.downloads) click.call(this); };
"""
READ = """
const done = arguments[0], reader = new FileReader();
reader.onload = () => done(reader.result.split(",")[1] || "");
reader.readAsDataURL(window.kept);
"""
DROP = """
const bytes = Uint8Array.from(atob(arguments[1]), (letter) => letter.charCodeAt(0)), data = new DataTransfer();
data.items.add(new File([bytes], arguments[0]));
window.dispatchEvent(new DragEvent("drop", { dataTransfer: data, cancelable: true, bubbles: true }));
"""
COUNT = """
const done = arguments[2], [wanted, by] = arguments;
createImageBitmap(window.kept).then((image) => {
    const canvas = new OffscreenCanvas(image.width, image.height), context = canvas.getContext("2d");
    context.drawImage(image, 0, 0);
    const { data } = context.getImageData(0, 0, image.width, image.height);
    let found = 0;
    for (let k = 0; k < data.length; k += 4) found += wanted.every((part, axis) => Math.abs(part - data[k + axis]) <= by);
    done(found);
});
"""


def camera():
    """web/view.js for the test's own use: where a row is seen when a page has just opened a scene."""
    text = re.sub(r"^export ", "", (ROOT / "web" / "view.js").read_text(), flags=re.M)
    return text + """
        const box = document.getElementById("labels"), size = { width: box.clientWidth, height: box.clientHeight };
        const at = seen(matrixOf(fitted(arguments[0]), size), size, arguments[1]);
        return [at.x - size.width / 2, at.y - size.height / 2];"""


class Browser:
    def __init__(self, page, downloads):
        options = webdriver.ChromeOptions()
        for flag in FLAGS:
            options.add_argument(flag)
        options.set_capability("goog:loggingPrefs", {"browser": "ALL"})
        self.page, self.opened = Path(page).resolve().as_uri(), 0
        self.driver = webdriver.Chrome(options=options)
        self.driver.execute_cdp_cmd("Page.addScriptToEvaluateOnNewDocument", {"source": KEEP})
        self.driver.execute_cdp_cmd("Browser.setDownloadBehavior", {"behavior": "allow", "downloadPath": str(downloads)})

    def end(self):
        self.driver.quit()

    def find(self, name):
        return self.driver.find_element(By.ID, name)

    def text(self, name):
        return self.driver.execute_script("return document.getElementById(arguments[0]).textContent", name)

    def wait(self, what, held):
        WebDriverWait(self.driver, 10, poll_frequency=0.01).until(lambda _: held(), what)

    def example(self, name):
        """A fresh page with an example, by its address."""
        self.driver.get("about:blank")
        self.driver.get(f"{self.page}#{name}")
        self.wait(f"{name} is open", lambda: self.text("said").startswith(f"{name}"))

    def open(self, path):
        self.find("file").send_keys(str(path))
        self.wait(f"{path} is open", lambda: self.text("said").startswith(Path(path).name))

    def drop(self, name, data):
        self.opened += 1
        name = f"{self.opened}-{name}"
        self.driver.execute_script(DROP, name, base64.b64encode(data).decode())
        self.wait(f"{name} is open", lambda: self.text("said").startswith(name))

    def state(self):
        return self.text("state")

    def saved(self):
        """The bytes that the button saves."""
        self.find("save").click()
        return base64.b64decode(self.driver.execute_async_script(READ))

    def at(self, rows, row):
        return self.driver.execute_script(camera(), rows, row)

    def hold(self, place):
        """The button down over a place of the drawing, counted from its middle."""
        over = ActionChains(self.driver, duration=0).move_to_element_with_offset(self.find("labels"), *map(round, place))
        over.click_and_hold().perform()

    def pull(self, right, down):
        ActionChains(self.driver, duration=0).move_by_offset(right, down).perform()

    def release(self):
        ActionChains(self.driver, duration=0).release().perform()

    def press(self, *keys):
        ActionChains(self.driver, duration=0).send_keys(*keys).perform()

    def press_shifted(self, letter):
        ActionChains(self.driver, duration=0).key_down(Keys.SHIFT).send_keys(letter).key_up(Keys.SHIFT).perform()

    def type_row(self, point, row):
        fields = [self.find("number"), *self.driver.find_elements(By.CLASS_NAME, "row")]
        for field, number in zip(fields, [point, *row]):
            field.clear()
            field.send_keys(str(number))
        fields[-1].send_keys(Keys.ENTER)

    def picture(self):
        """The PNG that the button saves."""
        self.driver.execute_script("window.kept = null")
        self.find("picture").click()
        self.wait("a picture", lambda: self.driver.execute_script("return window.kept !== null"))
        return base64.b64decode(self.driver.execute_async_script(READ))

    def pixels(self, colour, by=10):
        """How many pixels of the last picture have nearly this colour."""
        return self.driver.execute_async_script(COUNT, colour, by)

    def console(self):
        return [entry["message"] for entry in self.driver.get_log("browser")]

    def heap(self):
        """Bytes in use, after what is no longer used has been collected."""
        self.driver.execute_cdp_cmd("HeapProfiler.collectGarbage", {})
        return self.driver.execute_script("return performance.memory.usedJSHeapSize")
