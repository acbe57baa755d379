#!/usr/bin/env python3
"""Makes the pictures of the window, python_files/app_*.png: make_app_pictures.py [NAME ..]

Each is what headless Chromium shows of `ptulab app` over examples/scan.ptu and simulated measurements, after the clicks that
docs/app.md tells. A NAME is that of a picture, as `look`; without one all are made. It needs Debian's chromium,
chromium-driver, python3-selenium and python3-pil, and takes the package and the program of this tree.
"""

import base64
import io
import os
import shutil
import subprocess
import sys
import tempfile
from collections.abc import Callable, Iterator
from contextlib import contextmanager
from pathlib import Path

from PIL import Image

DOCS = Path(__file__).resolve().parent
ROOT = DOCS.parent
for source in ("python/src", "python/tests"):
    sys.path.insert(0, str(ROOT / source))

import simulated  # noqa: E402
from window import Window, browser  # noqa: E402

WIDE, NARROW = 1100, 390
WAYS = ((False, WIDE), (True, WIDE), (False, NARROW))  # light, dark, and on a phone
GREY = (128, 128, 128)
# Whether all plots have the colour and the width of the page.
SETTLED = """const paper = getComputedStyle(document.documentElement).getPropertyValue('--paper').trim();
return [...document.querySelectorAll('#result-told figure > .plot')].every((one) => one._fullLayout && one._fullLayout.width === one.clientWidth && one.layout.paper_bgcolor === paper)"""
PICTURES: dict[str, Callable[[Window], list[str]]] = {}  # what is done before each, and the parts of the page that it shows
SHEETS: dict[str, tuple[Callable[[Window], None], list[str]]] = {}  # the same of those that are shown in each of the ways, side by side


def picture(make: Callable[[Window], list[str]]) -> Callable[[Window], list[str]]:
    PICTURES[make.__name__] = make
    return make


def looked(window: Window) -> None:
    window.until(lambda: window.js("return [...document.querySelectorAll('#look figure > .plot')].every((one) => one.dataset.drawn === 'yes')"))


@picture
def look(window: Window) -> list[str]:
    """The first look at a scan."""
    window.open()
    window.choose("scan.ptu", "image")
    looked(window)
    return ["header", "nav", "#look"]


@picture
def times(window: Window) -> list[str]:
    """What a question counts, in times and sizes, of which one was rounded."""
    window.open()
    window.choose("scan.ptu", "image")
    window.until(lambda: window.js("return document.getElementById('length-cube-1-dwidth')"))
    window.js("const one = document.getElementById('length-cube-1-dwidth'); one.value = '0.21 ns'; one.dispatchEvent(new Event('change'))")
    window.until(lambda: "in all" in window.text("#length-cube-1-dbins-all"))
    return ["#ask-title", "#lengths"]


@picture
def phasors(window: Window) -> list[str]:
    """Two regions of phasors, and their pixels in the image."""
    window.open()
    window.choose("scan.ptu", "image")
    window.set(threshold=40)
    window.run()
    for ends in ((0.6, 0.84, 0.26, 0.5), (0.85, 1.02, 0.04, 0.26)):
        for label, end in zip(("g from", "g to", "s from", "s to"), ends):
            window.js("document.querySelector(`[aria-label='${arguments[0]}']`).value = arguments[1]", label, str(end))
        window.click("#add-phasor-region")
    window.until(lambda: "phasor region 2" in window.text("#region-numbers"))
    return ["#figure-cube-1-delays", "#figure-phasors .plot"]


@picture
def part(window: Window) -> list[str]:
    """A part of the trace that was dragged."""
    window.open()
    window.choose("bursts.ptu", "trace")
    window.dragging("look-trace")
    window.plot("look-trace", (0.3, 0.5), (0.45, 0.5), (0.6, 0.5))
    window.until(lambda: window.text("#look-window"))
    return ["#look-title", "#figure-look-trace .plot"]


def flim(window: Window) -> None:
    """The lifetime image of a scan."""
    window.choose("scan.ptu", "image")
    window.run()


def fcs(window: Window) -> None:
    """A correlation with its fit."""
    window.choose("diffusion.ptu", "correlation")
    window.set(dimensions=2, first=1, second=2, begin=50)
    window.run()


def antibunching(window: Window) -> None:
    """A dip at 0."""
    window.choose("emitter.ptu", "antibunching")
    window.run()


def smfret(window: Window) -> None:
    """Bursts by their E."""
    window.choose("bursts.ptu", "bursts")
    window.set(rate=15)
    window.run()


SHEETS |= {
    "flim": (flim, ["#result-title", "#numbers", "#figure-cube-1-delays .plot"]),
    "fcs": (fcs, ["#result-title", "#numbers", "#figure-correlation .plot"]),
    "antibunching": (antibunching, ["#result-title", "#numbers", "#result-told figure .plot"]),
    "smfret": (smfret, ["#result-title", "#numbers", "#figure-efficiency .plot"]),
}


def sheet(window: Window, name: str) -> bytes:
    """One way from a file to a picture as it looks in light, in dark and on a phone, side by side."""
    do, parts = SHEETS[name]
    window.open()
    do(window)
    shown = []
    for dark, width in WAYS:
        window.shown_as(dark, width)
        window.until(lambda: window.js(SETTLED))
        shown.append(Image.open(io.BytesIO(taken(window, parts))))
    whole = Image.new("RGB", (sum(one.width for one in shown) + 16 * (len(shown) - 1), max(one.height for one in shown)), GREY)
    across = 0
    for one in shown:
        whole.paste(one, (across, 0))
        across += one.width + 16
    out = io.BytesIO()
    whole.save(out, "PNG")
    return in_few_colours(out.getvalue())


@contextmanager
def served(folder: Path) -> Iterator[str]:
    """The address of the window of a folder."""
    words = [sys.executable, "-m", "ptulab", "app", str(folder), "--no-browser"]
    with subprocess.Popen(words, stderr=subprocess.PIPE, text=True, env=os.environ | {"PYTHONPATH": str(ROOT / "python" / "src")}) as child:
        assert child.stderr is not None
        yield child.stderr.readline().split()[-1]
        child.terminate()


def taken(window: Window, parts: list[str]) -> bytes:
    """A picture of what surrounds some parts of the page."""
    window.js("scrollTo(0, 0); document.activeElement?.blur(); document.querySelectorAll('[role=status].said').forEach((one) => { one.textContent = ''; })")
    boxes = window.js("return arguments[0].map((part) => { const box = document.querySelector(part).getBoundingClientRect(); return [box.x, box.y + scrollY, box.right, box.bottom + scrollY]; })", parts)
    left, top, right, bottom = (pick(values) for pick, values in zip((min, min, max, max), zip(*boxes)))
    left, top, right = max(0, left - 8), max(0, top - 8), min(right + 8, window.js("return document.documentElement.clientWidth"))
    clip = {"x": left, "y": top, "width": right - left, "height": bottom + 8 - top, "scale": 1}
    shot = window.driver.execute_cdp_cmd("Page.captureScreenshot", {"format": "png", "clip": clip, "captureBeyondViewport": True})
    return base64.b64decode(shot["data"])


def in_few_colours(data: bytes) -> bytes:
    """The same picture in 256 colours, a third of the bytes."""
    out = io.BytesIO()
    Image.open(io.BytesIO(data)).convert("RGB").quantize(256, method=Image.Quantize.MAXCOVERAGE).save(out, "PNG", optimize=True)
    return out.getvalue()


def main() -> None:
    names = sys.argv[1:] or [*PICTURES, *SHEETS]
    with tempfile.TemporaryDirectory() as work:
        folder, saved = Path(work, "measurements"), Path(work, "saved")
        folder.mkdir()
        shutil.copyfile(ROOT / "examples" / "scan.ptu", folder / "scan.ptu")
        for name in ("diffusion", "emitter", "bursts"):
            getattr(simulated, name)(folder / f"{name}.ptu")
        with served(folder) as address:
            driver = browser(saved)
            try:
                window = Window(driver, address, saved, lambda path: path)
                for name in names:
                    data = sheet(window, name) if name in SHEETS else in_few_colours(taken(window, PICTURES[name](window)))
                    (DOCS / "python_files" / f"app_{name}.png").write_bytes(data)
                    print(f"app_{name}.png", flush=True)
            finally:
                driver.quit()


if __name__ == "__main__":
    main()
