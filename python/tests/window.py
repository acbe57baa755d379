"""The window of ``ptulab app`` in headless Chromium, for tests and for the pictures of the documents."""

import re
import shutil
import time
from collections.abc import Callable
from pathlib import Path
from typing import Any

from alone import output_of

BROWSER, DRIVER = shutil.which("chromium"), shutil.which("chromedriver")
SECONDS = 240  # for whatever the browser does, on a machine with other work
VIEWS = ((True, 390), (True, 1100), (False, 390), (False, 1100))  # themes, of which one is dark, and widths
WORDS = ("--headless=new", "--no-sandbox", "--disable-gpu", "--disable-dev-shm-usage", "--hide-scrollbars", "--window-size=1100,1400")


def browser(saved: Path) -> Any:
    """A browser that puts what it saves into a folder."""
    from selenium import webdriver
    from selenium.webdriver.chrome.options import Options
    from selenium.webdriver.chrome.service import Service

    options = Options()
    options.binary_location = str(BROWSER)
    for word in WORDS:
        options.add_argument(word)
    driver = webdriver.Chrome(service=Service(str(DRIVER)), options=options)
    driver.set_page_load_timeout(SECONDS)
    driver.set_script_timeout(SECONDS)
    saves_into(driver, saved)
    return driver


def saves_into(driver: Any, folder: Path) -> None:
    driver.execute_cdp_cmd("Browser.setDownloadBehavior", {"behavior": "allow", "downloadPath": str(folder)})


class Window:
    """The window in a browser. ``first`` is the address with the token, ``served`` the server with what asks it without the browser."""

    def __init__(self, driver: Any, first: str, saved: Path, served: Any) -> None:
        self.driver, self.first, self.saved, self.served = driver, first, saved, served

    def open(self, dark: bool = False, width: int = 1100) -> None:
        self.shown_as(dark, width)
        self.driver.get(self.first)
        self.until(lambda: self.js("return document.documentElement.dataset.ready") == "yes")

    def shown_as(self, dark: bool, width: int) -> None:
        """Changes the theme and the width, of a page that is open too."""
        scheme = [{"name": "prefers-color-scheme", "value": "dark" if dark else "light"}]
        self.driver.execute_cdp_cmd("Emulation.setEmulatedMedia", {"features": scheme})
        told = {"width": width, "height": 1400, "deviceScaleFactor": 1, "mobile": width < 500}
        self.driver.execute_cdp_cmd("Emulation.setDeviceMetricsOverride", told)

    def faults(self, rules: str) -> dict[tuple[bool, int], list[str]]:
        """What a script finds in the page as it stands, in each theme and width where it finds something."""
        found = {}
        for view in VIEWS:
            self.shown_as(*view)
            self.until(lambda: self.js("return document.documentElement.scrollWidth <= innerWidth + 1"), "plots as wide as the page")
            found[view] = self.js(rules)
        return {view: faults for view, faults in found.items() if faults}

    def js(self, words: str, *more: Any) -> Any:
        return self.driver.execute_script(words, *more)

    def until(self, true: Callable[[], Any], what: str = "") -> Any:
        end, pause = time.monotonic() + SECONDS, 0.01
        while not (found := true()):
            assert time.monotonic() < end, f"nothing came: {what} {self.js('return document.body.innerText')[-1500:]}"
            time.sleep(pause)
            pause = min(0.2, 1.3 * pause)  # each question takes the browser's time too
        return found

    def click(self, selector: str) -> None:
        self.js("const one = document.querySelector(arguments[0]); one.scrollIntoView({block: 'center'}); one.click()", selector)

    def text(self, selector: str) -> str:
        return str(self.js("return document.querySelector(arguments[0])?.textContent ?? ''", selector))

    def complaints(self) -> list[str]:
        """What went wrong in the page since this was asked last; an answer that refuses isn't of these."""
        return [line["message"] for line in self.driver.get_log("browser") if line["level"] == "SEVERE" and line["source"] != "network"]

    def choose(self, file: str, question: str) -> None:
        """Opens a file and a question of it."""
        self.click(f'#files button[data-name="{file}"]')
        self.until(lambda: self.text("#look-title") == file and self.js("return document.querySelector('#questions-list button') && !document.getElementById('questions').hidden"))
        self.click(f'#questions-list button[data-name="{question}"]')
        self.until(lambda: self.js("return !document.getElementById('ask').hidden && document.getElementById('text').value.length > 0 && document.activeElement.id === 'ask-title'"))

    def set(self, **values: Any) -> None:
        for key, value in values.items():
            self.js("document.getElementById('setting-' + arguments[0]).value = arguments[1]", key, str(value))

    def run(self, button: str = "#run") -> str:
        """Runs what is asked, and gives its numbers once its figures are drawn."""
        self.js("document.getElementById('numbers')?.remove()")
        self.click(button)
        self.until(lambda: self.text("#run-said") == "Done." or self.text("#run-said").startswith("It didn't work"), "the run")
        assert self.text("#run-said") == "Done.", self.text("#run-said")
        self.until(lambda: self.js("return [...document.querySelectorAll('#result figure > .plot')].every((one) => one.dataset.drawn === 'yes')"))
        return self.text("#numbers")

    def number(self, word: str) -> float:
        found = re.search(rf"^{re.escape(word)}: ([-0-9.e]+)", self.text("#numbers"), re.M)
        assert found, self.text("#numbers")
        return float(found[1])

    def plot(self, name: str, *parts: tuple[float, float]) -> None:
        """Drags over a plot along places, in parts of its width and height."""
        x, y, width, height = self.js(
            "const plot = document.getElementById(`figure-${arguments[0]}-plot`); plot.scrollIntoView({block: 'center'});"
            "const look = plot._fullLayout, at = plot.getBoundingClientRect(), x = look.xaxis, y = look.yaxis;"
            "return [at.x + x._offset, at.y + y._offset, x._length, y._length]",
            name,
        )
        self.drag([(x + width * across, y + height * down) for across, down in parts])

    def drag(self, places: Any) -> None:
        """Presses at the first place, and moves to the others, the last of which lets go."""
        kinds = ["mousePressed", *["mouseMoved"] * len(places), "mouseReleased"]
        for kind, (x, y) in zip(kinds, [places[0], *places, places[-1]]):
            self.driver.execute_cdp_cmd("Input.dispatchMouseEvent", {"type": kind, "x": x, "y": y, "button": "left", "buttons": 1, "clickCount": 1})
            time.sleep(0.05)

    def dragging(self, name: str) -> None:
        """Lets dragging over a plot choose something."""
        self.until(lambda: self.js("return document.getElementById(`figure-${arguments[0]}-plot`)?.dataset.drawn", name) == "yes")
        self.js("const one = document.querySelector(`#figure-${arguments[0]} select`); one.value = 'choose'; one.dispatchEvent(new Event('change'))", name)
        self.until(lambda: self.js("return document.getElementById(`figure-${arguments[0]}-plot`)._fullLayout.dragmode !== 'zoom'", name))

    def file(self, name: str) -> bytes:
        """A file of the result that is shown, as a link of the page hands it out."""
        where = self.until(lambda: self.js("return document.querySelector(`#result-files a[download='${arguments[0]}']`)?.getAttribute('href')", name), name)
        return bytes(self.served.client.get(where).content)

    def script_prints_the_same(self, folder: Path) -> None:
        """The script that is handed out, run in a folder of its own, prints the numbers that are shown."""
        for name in ("analysis.py", "plan.toml"):
            (folder / name).write_bytes(self.file(name))
        told = output_of(folder / "analysis.py")
        assert told and told == self.text("#numbers")

    def pictured(self, name: str, kind: str) -> bytes:
        """A picture that is saved of a plot."""
        path = self.saved / f"{name}.{kind}"
        path.unlink(missing_ok=True)
        self.js("document.querySelector(`#figure-${arguments[0]} [aria-label$='as ${arguments[1]}']`).click()", name, kind.upper())
        self.until(lambda: path.exists() and path.stat().st_size > 0, str(path))
        return path.read_bytes()
