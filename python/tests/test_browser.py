"""The page in Chromium: it draws, the pointer and the keys read its values, and it goes on without scripts."""

import re
import time
from pathlib import Path
from typing import Any

import numpy as np
import pytest
from window import BROWSER, DRIVER, SECONDS, saves_into

import ptulab
from conftest import EXAMPLES
from ptulab.page import write_page
from ptulab.page._figures import figures_of
from ptulab.report import Head, Report
from ptulab.tables import empty_table

selenium = pytest.importorskip("selenium", reason="python3-selenium isn't on this machine")
pytestmark = pytest.mark.skipif(not (BROWSER and DRIVER), reason="chromium and its driver aren't on this machine")
HOSTILE = "<img src=x onerror=document.title='bad'><svg onload=document.title='bad'><script>document.title='bad'\"'.ptu"


@pytest.fixture
def browser(chromium: Any) -> Any:
    """The browser, whose console has nothing of another test."""
    chromium.get_log("browser")
    return chromium


@pytest.fixture(scope="module")
def pages(program: str, tmp_path_factory: pytest.TempPathFactory) -> Any:
    """The pages of a scan's report and of its lifetimes, with the reports."""
    folder, made = tmp_path_factory.mktemp("pages"), {}
    for name in ("scan", "lifetimes"):
        plan = EXAMPLES / f"{name}.toml"
        report = ptulab.run(plan, EXAMPLES / "scan.ptu", program=program)
        write_page(report, folder / f"{name}.html", file=HOSTILE, plan=plan, program=program)
        made[name] = (folder / f"{name}.html", report)
    return made


def emulate(browser: Any, dark: Any, width: Any) -> None:
    browser.execute_cdp_cmd("Emulation.setEmulatedMedia", {"features": [{"name": "prefers-color-scheme", "value": "dark" if dark else "light"}]})
    browser.execute_cdp_cmd("Emulation.setDeviceMetricsOverride", {"width": width, "height": 1400, "deviceScaleFactor": 1, "mobile": width < 500})


def opened(browser: Any, path: Any) -> Any:
    emulate(browser, False, 1000)
    browser.get(path.as_uri())
    until(lambda: browser.execute_script("return document.documentElement.dataset.drawn") == "yes")
    return browser


def until(true: Any) -> None:
    end = time.monotonic() + SECONDS
    while not true():
        assert time.monotonic() < end, "nothing came"
        time.sleep(0.05)


def place_of_point(browser: Any, name: str, at: Any) -> Any:
    """Where a point of a curve is drawn in the window, by the axes of its plot."""
    return browser.execute_script(
        "const plot = document.getElementById(arguments[0] + '-plot'); plot.scrollIntoView({block: 'center'});"
        "const look = plot._fullLayout, box = plot.getBoundingClientRect(), data = plot.data[0];"
        "return [box.x + look.xaxis._offset + look.xaxis.d2p(data.x[arguments[1]]), box.y + look.yaxis._offset + look.yaxis.d2p(data.y[arguments[1]])]",
        name,
        at,
    )


def move_to(browser: Any, place: Any) -> None:
    for x in (place[0] - 3, place[0]):
        browser.execute_cdp_cmd("Input.dispatchMouseEvent", {"type": "mouseMoved", "x": x, "y": place[1]})
        time.sleep(0.12)


def test_the_pointer_reads_a_value_off_a_curve(browser: Any, pages: Any) -> None:
    path, report = pages["scan"]
    decay = report.table("histogram")
    opened(browser, path)
    for at in (int(decay.counts.argmax()), 30):
        move_to(browser, place_of_point(browser, "histogram-1", at))
        wanted = f"{float(f'{decay.seconds[at] * 1e9:.6g}')!r} ns: {int(decay.counts[at]):,} photons"
        until(lambda wanted=wanted: wanted in browser.execute_script("return [...document.querySelectorAll('#histogram-1 .hovertext')].map(e => e.textContent)"))
        assert browser.find_element("id", "histogram-1-said").text == wanted


def test_the_pointer_reads_a_pixel(browser: Any, pages: Any) -> None:
    path, _ = pages["scan"]
    opened(browser, path)
    place = browser.execute_script(
        "const plot = document.getElementById('image-1-plot'); plot.scrollIntoView({block: 'center'});"
        "const look = plot._fullLayout, box = plot.getBoundingClientRect();"
        "return [box.x + look.xaxis._offset + look.xaxis.d2p(24), box.y + look.yaxis._offset + look.yaxis.d2p(25)]"
    )
    move_to(browser, place)
    until(lambda: browser.find_element("id", "image-1-said").text == "column 24, row 25: 296 photons")


def test_a_hostile_name_runs_nothing(browser: Any, pages: Any) -> None:
    opened(browser, pages["scan"][0])
    assert browser.title == f"Report of {HOSTILE}"
    assert HOSTILE in browser.find_element("tag name", "header").text
    assert browser.execute_script("return document.querySelectorAll('img').length") == 0
    assert [line["message"] for line in browser.get_log("browser") if line["level"] == "SEVERE"] == []


def test_the_keys_walk_over_a_curve_and_a_picture(browser: Any, pages: Any) -> None:
    from selenium.webdriver.common.keys import Keys

    path, report = pages["lifetimes"]
    opened(browser, path)
    plot = browser.find_element("id", "cube-1-decay-plot")
    said = browser.find_element("id", "cube-1-decay-said")
    decay = report.table("cube").counts.sum(axis=(0, 1))
    for keys, at in ((Keys.HOME, 0), (Keys.ARROW_RIGHT, 1), (Keys.END, 39), (Keys.ARROW_LEFT, 38), (Keys.PAGE_UP, 36)):
        plot.send_keys(keys)
        assert said.text.endswith(f" ns: {int(decay[at]):,} photons")
    picture = browser.find_element("id", "cube-1-image-plot")
    picture.send_keys(Keys.HOME, Keys.ARROW_DOWN, Keys.ARROW_RIGHT)
    count = int(report.table("cube").counts[1, 1].sum())
    assert browser.find_element("id", "cube-1-image-said").text == f"column 1, row 1: {count} photons"


def test_the_threshold_hides_pixels_and_the_scale_changes(browser: Any, pages: Any) -> None:
    path, report = pages["lifetimes"]
    opened(browser, path)
    shown = "return document.getElementById('cube-1-delays-plot').data[0].z.flat().filter(z => z !== null).length"
    begin = 4
    photons = report.table("cube").counts[:, :, begin:].sum(axis=2)
    for bound in (100, 1):
        browser.execute_script(
            "const slider = document.getElementById('cube-1-delays-threshold'); slider.value = arguments[0]; slider.dispatchEvent(new Event('input'))", bound
        )
        until(lambda bound=bound: browser.execute_script(shown) == np.count_nonzero(photons >= bound))
    assert browser.find_element("id", "cube-1-delays-bound").text == "1"
    scale = "return document.getElementById('cube-1-decay-plot')._fullLayout.yaxis.type"
    assert browser.execute_script(scale) == "log"
    browser.find_element("id", "cube-1-decay-log").click()
    until(lambda: browser.execute_script(scale) == "linear")


def ranges(browser: Any, name: str) -> Any:
    """The ends of both axes of a plot."""
    return browser.execute_script(
        "const look = document.getElementById(arguments[0] + '-plot')._fullLayout; return [look.xaxis.range, look.yaxis.range]", name
    )


def zoom(browser: Any, name: str) -> Any:
    """Draws a box with the pointer, and gives the ranges that come of it."""
    before = ranges(browser, name)
    box = browser.execute_script(
        "const plot = document.getElementById(arguments[0] + '-plot'); plot.scrollIntoView({block: 'center'});"
        "const look = plot._fullLayout, box = plot.getBoundingClientRect();"
        "return [box.x + look.xaxis._offset, box.y + look.yaxis._offset, look.xaxis._length, look.yaxis._length]",
        name,
    )
    for at, (kind, button) in ((0.3, ("mouseMoved", "none")), (0.3, ("mousePressed", "left")), (0.5, ("mouseMoved", "left")),
                               (0.7, ("mouseMoved", "left")), (0.7, ("mouseReleased", "left"))):
        place = {"x": box[0] + at * box[2], "y": box[1] + at * box[3]}
        browser.execute_cdp_cmd("Input.dispatchMouseEvent", {"type": kind, "button": button, "buttons": int(button == "left"), "clickCount": 1, **place})
        time.sleep(0.1)
    until(lambda: ranges(browser, name) != before)
    time.sleep(0.5)
    return ranges(browser, name)


def test_the_zoom_stays(browser: Any, pages: Any) -> None:
    """Whatever else changes: the threshold, the theme, and of a decay the scale, whose own axis alone begins anew."""
    opened(browser, pages["lifetimes"][0])
    near = zoom(browser, "cube-1-delays")
    shown = "return document.getElementById('cube-1-delays-plot').data[0].z.flat().filter(z => z !== null).length"
    before = browser.execute_script(shown)
    browser.execute_script("const slider = document.getElementById('cube-1-delays-threshold'); slider.value = 1; slider.dispatchEvent(new Event('input'))")
    until(lambda: browser.execute_script(shown) > before)
    assert ranges(browser, "cube-1-delays") == near
    decay = zoom(browser, "cube-1-decay")
    emulate(browser, True, 1000)
    until(lambda: is_dark(browser))
    assert ranges(browser, "cube-1-decay") == decay and ranges(browser, "cube-1-delays") == near
    browser.find_element("id", "cube-1-decay-log").click()
    until(lambda: browser.execute_script("return document.getElementById('cube-1-decay-plot')._fullLayout.yaxis.type") == "linear")
    assert ranges(browser, "cube-1-decay")[0] == decay[0] and ranges(browser, "cube-1-decay")[1] != decay[1]


def test_a_plot_is_downloaded_as_png(browser: Any, saved: Path, pages: Any, tmp_path: Path) -> None:
    opened(browser, pages["scan"][0])
    saves_into(browser, tmp_path)
    for name in ("histogram-1", "image-1"):
        browser.execute_script("document.querySelector(`#${arguments[0]}-plot .modebar-btn[data-title*=png]`).click()", name)
        until(lambda: any(path.suffix == ".png" and path.stat().st_size > 1000 for path in tmp_path.iterdir()))
        (path,) = tmp_path.iterdir()
        assert path.read_bytes().startswith(b"\x89PNG")
        path.unlink()
    saves_into(browser, saved)
    assert [line["message"] for line in browser.get_log("browser") if line["level"] == "SEVERE"] == []


def test_the_colours_go_by_the_pixels_that_are_shown(browser: Any, pages: Any) -> None:
    path, report = pages["lifetimes"]
    opened(browser, path)
    delays: Any = figures_of(report)[1]
    limits = "const data = document.getElementById('cube-1-delays-plot').data[0]; return [data.zmin, data.zmax]"
    for bound in (delays.threshold, 100):
        browser.execute_script(
            "const slider = document.getElementById('cube-1-delays-threshold'); slider.value = arguments[0]; slider.dispatchEvent(new Event('input'))", bound
        )
        wanted = np.percentile(delays.values[delays.photons >= bound], (2, 98))
        until(lambda wanted=wanted: browser.execute_script(limits) == pytest.approx(wanted, rel=1e-6))


def test_a_decay_within_two_decades_has_some_labels(browser: Any, tmp_path: Path) -> None:
    counts = np.round(900 * np.exp(-np.arange(64) / 17)).astype(np.int64)
    head = Head("MultiHarpT3", None, 1e-7, 1e-10, 1, 1, 0, 0, 0, 0, 0, 9)
    made = empty_table("histogram", 1, {"width": 1, "bins": 64}, 1e-10)
    made.counts, made.rest = counts, {"over": 0}
    write_page(Report(head, (made,)), tmp_path / "page.html")
    opened(browser, tmp_path / "page.html")
    labels = browser.execute_script("return [...document.querySelectorAll('#histogram-1 .ytick text')].map(e => e.textContent)")
    assert counts.min() > 20 and len(labels) >= 4, labels


def test_both_themes_and_widths(browser: Any, pages: Any) -> None:
    """The theme and the width change while the page is open."""
    opened(browser, pages["lifetimes"][0])
    for dark in (False, True):
        for width in (390, 1000):
            emulate(browser, dark, width)
            until(lambda dark=dark, width=width: fits(browser, width) and is_dark(browser) == dark)


def fits(browser: Any, width: Any) -> Any:
    """The page isn't wider than the window, and no plot reaches out of it."""
    plots = "[...document.querySelectorAll('.plot, .plot svg')].map(e => e.getBoundingClientRect())"
    ends = browser.execute_script(f"return {plots}.flatMap(box => [box.left, box.right])")
    return browser.execute_script("return document.documentElement.scrollWidth") <= width and 0 <= min(ends) and width / 2 < max(ends) <= width


def is_dark(browser: Any) -> Any:
    """Whether the plot and the page around it have light letters on a dark ground, or None where they differ."""
    plot = "const look = document.getElementById('cube-1-decay-plot')._fullLayout; return [look.paper_bgcolor, look.font.color]"
    paper, ink = map(luminance, browser.execute_script(plot))
    around = browser.execute_script("return getComputedStyle(document.body).backgroundColor")
    both = {paper < 0.2 < 0.8 < ink, sum(map(int, re.findall(r"\d+", around))) < 150}
    return both.pop() if len(both) == 1 and abs(paper - ink) > 0.6 else None


def luminance(colour: Any) -> Any:
    return sum(int(colour[at : at + 2], 16) for at in (1, 3, 5)) / 765


def test_without_scripts_there_are_plain_pictures(browser: Any, pages: Any) -> None:
    browser.execute_cdp_cmd("Emulation.setScriptExecutionDisabled", {"value": True})
    try:
        for width in (390, 1000):
            emulate(browser, False, width)
            browser.get(pages["scan"][0].as_uri())
            pictures = browser.find_elements("css selector", "img.plain")
            assert len(pictures) == 3 and all(picture.is_displayed() and picture.size["width"] > 300 for picture in pictures)
            assert all(picture.rect["x"] >= 0 and picture.rect["x"] + picture.rect["width"] <= width for picture in pictures)
            assert not any(plot.is_displayed() for plot in browser.find_elements("css selector", ".plot"))
    finally:
        browser.execute_cdp_cmd("Emulation.setScriptExecutionDisabled", {"value": False})
