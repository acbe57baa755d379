"""The window in Chromium: a laboratory's four ways from a file to pictures and exports against simulated truth, keys, and rules of accessibility."""

import json
import os
import re
import shutil
from collections.abc import Iterator
from pathlib import Path
from typing import Any

import made
import numpy as np
import pytest
import simulated
from test_app import Served, begun, gone
from window import BROWSER, DRIVER, VIEWS, Window

selenium = pytest.importorskip("selenium", reason="python3-selenium isn't on this machine")
pytestmark = pytest.mark.skipif(not (BROWSER and DRIVER), reason="chromium and its driver aren't on this machine")


@pytest.fixture(scope="module")
def laboratory(program: str, chromium: Any, saved: Path, tmp_path_factory: pytest.TempPathFactory) -> Iterator[Window]:
    """The browser, and the server of a folder of simulated files."""
    folder = tmp_path_factory.mktemp("laboratory")
    for name in ("scan", "diffusion", "emitter", "bursts", "lasers"):
        getattr(simulated, name)(folder / f"{name}.ptu")
    simulated.emitter(folder / "emitter 2.ptu", 33)
    served = Served(folder, tmp_path_factory.mktemp("work") / "results", program)
    yield Window(chromium, f"{served.origin}/?token=right", saved, served)
    chromium.get("about:blank")
    served.end()


@pytest.fixture
def window(laboratory: Window) -> Iterator[Window]:
    """The window, opened anew, so that nothing is chosen; what a test does may make no error in it."""
    laboratory.open()
    yield laboratory
    assert laboratory.complaints() == []


LEFT = (0.05, 0.05), (0.25, 0.05), (0.45, 0.05), (0.45, 0.5), (0.45, 0.95), (0.05, 0.95), (0.05, 0.06)  # of a scan


def test_lifetimes_from_a_scan_to_regions_and_exports(window: Window, tmp_path: Path) -> None:
    tifffile, h5py = pytest.importorskip("tifffile"), pytest.importorskip("h5py")
    window.choose("scan.ptu", "image")
    window.run()
    assert 1.2 < window.number("lifetime_1") < 3.6
    window.script_prints_the_same(tmp_path)
    window.dragging("cube-1-delays")
    window.plot("cube-1-delays", *LEFT)
    told = window.until(lambda: window.text("#region-numbers"), "a region")
    lifetime, pixels = (re.search(rf"{word}: ([0-9.]+)", told) for word in ("lifetime_1", "region 1"))
    assert lifetime and pixels and float(lifetime[1]) == pytest.approx(1.2, rel=0.1) and 70 < float(pixels[1]) <= 128
    printed = window.file("regions.txt").decode()
    assert printed == told
    window.js("const one = document.getElementById('region-threshold'); one.value = '95'; one.dispatchEvent(new Event('change', {bubbles: true}))")
    fewer = window.until(lambda: (window.text("#region-numbers") or told) != told and window.text("#region-numbers"), "a region of bright pixels")
    bright = re.search(r"region 1: ([0-9.]+)", fewer)
    assert bright and 0 < float(bright[1]) < float(pixels[1]) and "\nthreshold = 95\n" in window.file("regions.py").decode()
    cube, photons = tmp_path / "cube.ome.tif", tmp_path / "photons.hdf5"
    window.click("[data-kind=images]")
    cube.write_bytes(window.file("cube_1.ome.tif"))
    assert tifffile.imread(cube).sum() == 25_600
    window.click("[data-kind=photons]")
    photons.write_bytes(window.file("photons.hdf5"))
    with h5py.File(photons) as opened:
        assert len(opened["photon_data/timestamps"]) == 25_600
    assert window.pictured("cube-1-delays", "png").startswith(b"\x89PNG") and b"<svg" in window.pictured("cube-1-decay", "svg")
    pictures_have_one_zoom_and_a_threshold(window)


SQUARE = (0.81, 0.57), (0.9, 0.57), (0.98, 0.57), (0.98, 0.69), (0.98, 0.81), (0.9, 0.81), (0.81, 0.81), (0.81, 0.58)  # around the phasors of 1.2 ns


def test_regions_of_phasors_are_painted_in_the_image(window: Window) -> None:
    """Those of the left half of a scan; a click takes all regions away, and another brings them back."""
    painted = "const one = document.getElementById('figure-cube-1-delays-plot').data[1]; return one ? one.z.map((row) => row.map((cell) => cell !== null)) : []"
    window.choose("scan.ptu", "image")
    window.run()
    window.dragging("phasors")
    window.plot("phasors", *SQUARE)
    told = window.until(lambda: window.js(painted) and window.text("#region-numbers"), "a region of phasors")
    lifetime, pixels = (re.search(rf"{word}: ([0-9.]+)", told) for word in ("lifetime_1", "phasor region 1"))
    cells = np.array(window.js(painted))
    assert lifetime and float(lifetime[1]) == pytest.approx(1.2, rel=0.1) and not cells[:, 8:].any()
    assert pixels and 110 < cells.sum() == int(pixels[1]) <= 128
    window.click("#remove-region-1")
    window.until(lambda: not window.js(painted) and not window.text("#region-numbers"), "no region")
    window.click("#undo")
    window.until(lambda: window.js(painted) and window.text("#region-numbers") == told, "the region again")
    window.click("#add-phasor-region")
    window.until(lambda: "phasor region 2: 256 pixels" in window.text("#region-numbers"), "a region of all phasors")


def pictures_have_one_zoom_and_a_threshold(window: Window) -> None:
    range_of = "return document.getElementById(`figure-${arguments[0]}-plot`).layout.xaxis.range"
    window.js("window.Plotly.relayout('figure-cube-1-image-plot', {'xaxis.range[0]': 1, 'xaxis.range[1]': 3})")
    window.until(lambda: window.js(range_of, "cube-1-delays") == [1, 3])
    kept = "return document.getElementById('figure-cube-1-delays-plot').data[0].z.flat().filter((one) => one !== null).length"
    many = window.js(kept)
    window.js("const one = document.getElementById('figure-cube-1-delays-threshold'); one.value = '105'; one.dispatchEvent(new Event('input', {bubbles: true}))")
    window.until(lambda: 0 < window.js(kept) < many)


def test_gates_and_windows_of_time_by_dragging(window: Window) -> None:
    window.choose("scan.ptu", "decay")
    window.dragging("look-decay")
    window.plot("look-decay", (0.2, 0.5), (0.3, 0.5), (0.4, 0.5))
    gates = window.until(lambda: re.search(r"gates = \[\[(\d+), (\d+)\]\]", window.js("return document.getElementById('text').value")), "a gate")
    assert 100 < int(gates[1]) < int(gates[2]) < 600
    window.js("window.drawn = 0; document.getElementById('figure-look-decay-plot').on('plotly_afterplot', () => { window.drawn += 1; })")
    window.js("const one = document.getElementById('text'); one.value = one.value.replace('bins = ', 'bins = 0 #'); one.dispatchEvent(new Event('input'))")
    window.until(lambda: window.text("#lines b") and window.text("#findings"))
    assert window.js("return window.drawn") == 0  # since the gates are the same
    assert f"line {window.text('#lines b')}: histogram 1: bins = 0" in window.text("#findings")
    window.choose("bursts.ptu", "trace")
    window.dragging("look-trace")
    window.plot("look-trace", (0.25, 0.5), (0.4, 0.5), (0.5, 0.5))
    window.until(lambda: float(window.js("return document.getElementById('setting-to_seconds').value")) > 0, "a window")
    begin, end = (float(window.js(f"return document.getElementById('setting-{key}').value")) for key in ("from_seconds", "to_seconds"))
    assert 1 < begin < 2 < end < 4
    window.run()
    assert 'part_of(file, ' in window.text("#script") and window.number("bins") < 200
    a_window_of_time_is_shown_and_can_be_taken_back(window, begin, end)


def test_a_window_of_microseconds_over_ticks_of_markers(window: Window) -> None:
    """The scan lasts 391 µs, and its trace has them on its axis; its 33 markers are ticks below it, in rows by their bits."""
    window.choose("scan.ptu", "trace")
    window.dragging("look-trace")
    title, marks = window.js("const plot = document.getElementById('figure-look-trace-plot'); return [plot.layout.xaxis.title.text, plot.data.filter((one) => one.yaxis === 'y2').map((one) => [one.name, one.x.length, one.text[0]])]")
    assert title == "time (µs)" and marks == [["marker bit 1", 16, "marker bit 1: 5 µs"], ["marker bit 2", 16, "marker bit 2: 21 µs"], ["marker bit 3", 1, "marker bit 3: 0 µs"]]
    captions = window.js("return [...document.querySelectorAll('#figure-look-trace caption')].map((one) => one.textContent)")
    assert captions[-3:] == [f"marker bit {bit}: every value" for bit in (1, 2, 3)]
    for keys, said in ((["Home", "PageUp"], "marker bit 3: 0 µs"), (["PageUp", "End", "PageUp"], "marker bit 1: 380 µs"), (["Home"], "marker bit 1: 5 µs")):
        window.js("for (const key of arguments[0]) document.getElementById('figure-look-trace-plot').dispatchEvent(new KeyboardEvent('keydown', {key}))", keys)
        labels = window.js("return [...document.querySelectorAll('#figure-look-trace-plot .hovertext')].map((one) => one.textContent)")
        assert [window.text("#figure-look-trace .said"), *labels] == [said] * 2  # however fast the keys come
    lasts = window.js("return document.getElementById('figure-look-trace-plot')._fullLayout.xaxis.range")
    window.plot("look-trace", (0.25, 1.1), (0.4, 1.1), (0.5, 1.1))  # over the ticks, which a window may not fade
    window.until(lambda: float(window.js("return document.getElementById('setting-to_seconds').value")) > 0, "a window")
    begin, end = (float(window.js(f"return document.getElementById('setting-{key}').value")) for key in ("from_seconds", "to_seconds"))
    width = lasts[1] - lasts[0]
    assert [1e6 * begin, 1e6 * end] == pytest.approx([lasts[0] + part * width for part in (0.25, 0.5)], abs=0.01 * width)
    band = window.js("const [band] = document.getElementById('figure-look-trace-plot').layout.shapes; return [band.x0, band.x1]")
    assert band == pytest.approx([1e6 * begin, 1e6 * end]) and re.search(r"only \S+ µs to \S+ µs", window.text("#look-window"))
    drawn = "return [...document.querySelectorAll('#figure-look-trace-plot .scatterlayer .trace')].filter((one) => one.querySelectorAll('.point').length).map((one) => [...one.querySelectorAll('.point')].map((point) => getComputedStyle(point).opacity))"
    assert [set(ticks) for ticks in window.js(drawn)] == [{"1"}] * 3  # those outside of the window too
    assert not window.js("return document.querySelectorAll('#figure-look-trace-plot .modebar-btn[data-val=select], #figure-look-trace-plot .modebar-btn[data-val=lasso]').length")
    window.run()
    assert f"part_of(file, {begin!r}, {end!r})" in window.text("#script")


def a_window_of_time_is_shown_and_can_be_taken_back(window: Window, begin: float, end: float) -> None:
    """The window that was chosen of bursts.ptu stays with it, in sight, till a click takes all of the file."""

    def shown(file: str, ends: list[float], words: str) -> None:
        window.choose(file, "trace")
        window.until(lambda: window.js("return document.getElementById('figure-look-trace-plot')?.dataset.drawn") == "yes")
        assert [float(window.js(f"return document.getElementById('setting-{key}').value")) for key in ("from_seconds", "to_seconds")] == ends
        assert window.text("#look-window").startswith(words)
        assert [shape["x0"] for shape in window.js("return document.getElementById('figure-look-trace-plot').layout.shapes")] == ends[:1] * (ends[1] > 0)

    shown("diffusion.ptu", [0, 0], "")
    shown("bursts.ptu", [begin, end], "What is run next takes only ")
    window.click("#look-window button")
    assert window.text("#look-window") == "" and window.js("return document.getElementById('setting-to_seconds').value") == "0"
    window.click("#undo")
    assert window.text("#look-window").startswith("What is run next takes only ") and float(window.js("return document.getElementById('setting-to_seconds').value")) == end
    window.click("#take-all")
    assert window.text("#undo-said") == "All of the file is taken."
    window.run()
    assert window.number("bins") > 400
    shown("bursts.ptu", [0, 0], "")


def test_correlation_of_molecules_that_diffuse(window: Window, tmp_path: Path) -> None:
    window.choose("diffusion.ptu", "correlation")
    window.set(dimensions=2, first=1, second=2, begin=50)
    window.run()
    assert window.number("number") == pytest.approx(simulated.NUMBER, rel=0.15)
    assert window.number("diffusion") == pytest.approx(simulated.DIFFUSION * 1e3, rel=0.3)
    window.script_prints_the_same(tmp_path)
    rows = np.loadtxt(window.file("correlation.csv").decode().splitlines(), delimiter=",", skiprows=1)
    assert rows.shape[1] == 3 and rows[:, 0].min() > 0
    window.js("document.getElementById('fit-diffusion').value = '2'; document.getElementById('hold-diffusion').checked = true")
    window.run("#fit-again")
    assert "\ndiffusion: 2 ms\n" in window.text("#numbers") and window.js("return document.getElementById('hold-diffusion').checked && document.getElementById('fit').open")
    window.script_prints_the_same(tmp_path)


def test_antibunching_of_one_emitter_over_two_files_and_their_sum(window: Window, tmp_path: Path) -> None:
    window.choose("emitter.ptu", "antibunching")
    window.run()
    assert window.number("g2 at 0") < 0.25
    window.script_prints_the_same(tmp_path)
    window.js("for (const box of document.querySelectorAll('#many-list input')) box.checked = arguments[0].includes(box.value)", ["emitter.ptu", "emitter 2.ptu"])
    told = window.run("#run-many")
    assert told.count("== ") == 3 and "== the sum of 2 files" in told
    head, *rows = window.file("results.csv").decode().splitlines()
    assert head.startswith("file,g2 at 0,lowest g2") and sorted(row.split(",")[0] for row in rows) == ["emitter 2.ptu", "emitter.ptu"]


def test_bursts_of_single_molecules_and_a_session(window: Window, tmp_path: Path) -> None:
    window.choose("bursts.ptu", "bursts")
    window.set(rate=15)
    told = window.run()
    assert 250 < window.number("bursts") <= 310 and window.number("mean of E") == pytest.approx(simulated.EFFICIENCY, abs=0.02)
    script = window.text("#script")
    window.script_prints_the_same(tmp_path)
    assert window.file("numbers.txt").decode() == told and window.file("analysis.py").decode() == script
    cells = json.loads(window.file("analysis.ipynb"))["cells"]
    assert cells[1]["outputs"][0]["text"] == told.splitlines(keepends=True)
    window.click("#keep")
    window.until(lambda: "ptulab-sessions" in window.text("#session-said"))
    window.open()
    window.until(lambda: window.text("#sessions button") == "bursts bursts")
    window.click("#sessions button")
    window.until(lambda: window.text("#numbers") == told and window.js("return document.querySelector('#figure-efficiency > .plot')?.dataset.drawn") == "yes")
    assert window.text("#script") == script and window.js("return document.getElementById('setting-rate').value") == "15"


def typed(window: Window, selector: str, value: Any) -> None:
    """Types into a field."""
    window.js("const one = document.querySelector(arguments[0]); one.value = arguments[1]; for (const name of ['input', 'change']) one.dispatchEvent(new Event(name, {bubbles: true}))", selector, str(value))


def gated(window: Window, line: str, many: int) -> None:
    """The plan has so many lines with these gates."""
    window.until(lambda: window.js("return document.getElementById('text').value").count(line) >= many, "a gate")


def test_groups_by_hand_tell_bursts_of_two_lasers(window: Window, tmp_path: Path) -> None:
    """A group is added, named, and gets an input and a gate; what is typed into the plan comes to the table; and Undo takes back."""
    plan = "return document.getElementById('text').value"
    window.choose("lasers.ptu", "bursts")
    window.js("document.getElementById('plan').open = true")
    groups = window.js(plan).count("[[group]]")
    window.click("#add-group")
    window.until(lambda: window.js(plan).count("[[group]]") == groups + 1, "a group")
    own = f"#groups fieldset:nth-of-type({groups + 1})"
    typed(window, f"{own} input[type=text]", "own laser")
    window.until(lambda: "[[group]] # own laser\ninputs = [1]\n" in window.js(plan), "a name")
    for number in (1, 2):
        window.click(f"{own} label:nth-of-type({number}) input[type=checkbox]")
    window.until(lambda: "[[group]] # own laser\ninputs = [2]\n" in window.js(plan), "an input")
    for group, begin in ((1, 0), (2, 0), (groups + 1, 500)):
        window.click(f"[aria-label='Add a gate to group {group}']")
        for word, value in (("from", begin), ("to", begin + 500)):
            typed(window, f"#group-{group}-gate-1-{word}", f"{value} ticks")
        gated(window, f"gates = [[{begin}, {begin + 500}]]", 2 if group == 2 else 1)
    window.click(f"[aria-label='Remove group {groups + 1}']")
    window.until(lambda: window.js(plan).count("[[group]]") == groups, "no group")
    window.click("#undo")
    window.until(lambda: "[[500, 1000]]" in window.js(plan) and window.js("return document.querySelectorAll('#groups fieldset').length") == groups + 1, "the group again")
    typed(window, "#text", window.js(plan).replace("own laser", "by its own laser"))
    window.until(lambda: window.js("return document.querySelector(arguments[0])?.value", f"{own} input[type=text]") == "by its own laser", "a name that was typed")
    window.set(rate=15, own=groups + 1)
    window.run()
    rows = np.loadtxt(window.file("bursts.csv").decode().splitlines(), delimiter=",", skiprows=1)
    both = (rows[:, 3] > 0.3) & (rows[:, 3] < 0.8)
    assert 185 <= both.sum() <= 200 and rows[both, 2].mean() == pytest.approx(simulated.EFFICIENCY, abs=0.01)
    assert rows[both, 3].mean() == pytest.approx(simulated.STOICHIOMETRY, abs=0.01) and window.number("mean of S") == pytest.approx(rows[:, 3].mean(), abs=1e-3)
    window.until(lambda: window.js("return document.getElementById('figure-e-s-plot')?.data[0].x.length") == len(rows), "each burst by E and S")
    window.script_prints_the_same(tmp_path)
    window.click("[data-kind=page]")
    assert b"E and S</h2>" in window.file("page.html")


def outlined(window: Window, name: str) -> None:
    """A plot has a region."""
    window.until(lambda: window.js("return document.getElementById(`figure-${arguments[0]}-plot`).layout.shapes.length", name) == 1, name)


def test_a_session_brings_back_regions_thresholds_and_what_was_held(window: Window) -> None:
    window.choose("scan.ptu", "image")
    window.run()
    window.js("document.getElementById('fit-background').value = '3'; document.getElementById('hold-background').checked = true")
    window.run("#fit-again")
    typed(window, "[aria-label='x to (µm)']", 3.75)
    window.click("#add-region")
    window.click("#add-phasor-region")
    window.until(lambda: "phasor region 1" in window.text("#region-numbers"), "two regions")
    before = window.text("#region-numbers")
    typed(window, "#figure-cube-1-delays-threshold", 95)
    told = window.until(lambda: window.text("#region-numbers") not in ("", before) and window.text("#region-numbers"), "fewer pixels")
    typed(window, "#session-name", "two regions")
    window.click("#keep")
    window.until(lambda: "ptulab-sessions/two regions" in window.text("#session-said"))
    window.open()
    window.until(lambda: "two regions" in window.text("#sessions"))
    window.js("[...document.querySelectorAll('#sessions button')].find((one) => one.textContent === 'two regions').click()")
    window.until(lambda: window.text("#region-numbers") == told, "the regions again")
    values = {name: window.js("return document.getElementById(arguments[0]).value", name) for name in ("region-threshold", "figure-cube-1-delays-threshold", "fit-background")}
    assert values == {"region-threshold": "95", "figure-cube-1-delays-threshold": "95", "fit-background": "3"}
    assert window.js("return document.getElementById('hold-background').checked") and "\nbackground: 3\n" in window.text("#numbers")
    outlined(window, "cube-1-delays")
    outlined(window, "phasors")
    assert "threshold = 95\n" in window.file("regions.py").decode()
    shutil.rmtree(window.served.folder / "ptulab-sessions" / "two regions")


def test_looks_runs_and_exports_are_stopped(window: Window) -> None:
    """Of a file of half a terabyte, nearly all of which is a hole; what is run next is whole."""
    huge = made.write(window.served.folder / "zz.ptu", "HydraHarp2T2", [(1, 1)], tick=1e-9)
    os.truncate(huge, 1 << 39)
    try:
        window.driver.get(window.first)  # which is ready once the look in the background ends
        window.until(lambda: "looks at zz.ptu" in window.text("#files-said") and window.js("return document.querySelector('#files-progress progress')?.value") > 0, "a look in the background")
        window.click("#files-stop")
        window.until(lambda: window.js("return document.activeElement.id") == "files-on" and not window.js("return document.querySelector('#files-progress progress')"))
        window.click("#files button[data-name='zz.ptu']")
        window.until(lambda: (window.js("return document.querySelector('#look-progress progress')?.value") or 0) > 0, "how far the look is")
        process = begun(window.served)
        window.click("#look-stop")
        window.until(lambda: window.text("#look-said").startswith("Stopped.") and window.js("return document.activeElement.id") == "look-title")
        assert gone(process) and window.js("return document.getElementById('questions').hidden")
    finally:
        huge.unlink()
    window.choose("emitter.ptu", "antibunching")
    window.click("#run")
    process = begun(window.served)
    window.click("#stop")
    window.until(lambda: window.text("#run-said") == "Stopped." and window.js("return document.getElementById('stop').disabled"))
    assert gone(process)
    window.run()
    assert window.number("g2 at 0") < 0.25
    window.click("[data-kind=photons]")
    process = begun(window.served)
    window.until(lambda: window.js("return document.querySelector('.halt') && document.querySelector('[data-kind=photons]').disabled"))
    window.click(".halt")
    window.until(lambda: not window.js("return document.querySelector('.halt') || document.querySelector('[data-kind=photons]').disabled"))
    assert gone(process) and window.js("return document.getElementById('trouble').hidden")
    window.click("[data-kind=photons]")
    assert window.file("photons.hdf5").startswith(b"\x89HDF")
    window.click("[data-kind=photons]")
    process = begun(window.served)
    window.choose("bursts.ptu", "trace")  # with which the result goes, and its exports
    assert gone(process)


# ## For people

FAULTS = r"""
const shown = (one) => one.getClientRects().length > 0 && getComputedStyle(one).visibility !== "hidden", faults = [], ids = new Map();
const name = (one) => (one.getAttribute("aria-label") || (one.getAttribute("aria-labelledby") || "").split(/ +/).map((id) => document.getElementById(id)?.textContent || "").join(" ").trim() ||
  [...(one.labels || [])].map((label) => label.textContent.trim()).join(" ") || (/^(BUTTON|A|SUMMARY)$/.test(one.tagName) ? one.textContent.trim() : "")).trim();
for (const one of document.querySelectorAll("[id]")) ids.set(one.id, (ids.get(one.id) || 0) + 1);
for (const [id, many] of ids) if (many > 1 && !/^(clip|legend|topdefs|defs|g)/.test(id)) faults.push(`the id ${id} ${many} times`);
for (const one of document.querySelectorAll("button, input, select, textarea, a[href], summary, [role=application], [role=region], progress, nav, figure"))
  if (shown(one) && !one.closest(".plotly") && !name(one)) faults.push(`no name: ${one.outerHTML.slice(0, 90)}`);
for (const one of document.querySelectorAll("[aria-describedby], [aria-labelledby]")) for (const id of `${one.getAttribute("aria-describedby") || ""} ${one.getAttribute("aria-labelledby") || ""}`.trim().split(/ +/))
  if (!document.getElementById(id)) faults.push(`nothing has the id ${id}`);
for (const one of document.querySelectorAll("[tabindex]")) if (one.tabIndex > 0) faults.push(`a tabindex of ${one.tabIndex}`);
for (const one of document.querySelectorAll("pre, .rows")) if (shown(one) && (one.scrollWidth > one.clientWidth || one.scrollHeight > one.clientHeight) && one.tabIndex < 0 && !one.ariaHidden) faults.push(`scrolls without keys: ${one.id}`);
for (const one of document.querySelectorAll("ul, ol")) for (const child of one.children) if (child.tagName !== "LI") faults.push(`${child.tagName} in a list`);
if (!document.documentElement.lang || !document.title || document.querySelectorAll("main").length !== 1 || document.querySelectorAll("h1").length !== 1) faults.push("the page has no language, title, one main part or one head");
let level = 0;
for (const one of document.querySelectorAll("h1, h2, h3, h4")) if (shown(one)) { const now = Number(one.tagName[1]); if (now > level + 1) faults.push(`${one.tagName} behind H${level}`); level = now; }
const light = (words) => { const parts = words.match(/[0-9.]+/g).map(Number), some = parts.slice(0, 3).map((part) => (part /= 255) <= 0.03928 ? part / 12.92 : ((part + 0.055) / 1.055) ** 2.4); return 0.2126 * some[0] + 0.7152 * some[1] + 0.0722 * some[2]; };
const back = (one) => { for (; one; one = one.parentElement) { const colour = getComputedStyle(one).backgroundColor; if (!/, 0\)$|transparent/.test(colour)) return colour; } return "rgb(255, 255, 255)"; };
for (const one of document.querySelectorAll("h1, h2, h3, p, span, strong, label, li, dt, dd, th, td, button, summary, pre, input, textarea, a, select, legend, b, i")) {
  if (!shown(one) || one.closest(".js-plotly-plot, [aria-hidden=true]") || one.disabled || ![...one.childNodes].some((node) => node.nodeType === 3 && node.textContent.trim())) continue;
  const [more, less] = [light(getComputedStyle(one).color), light(back(one))].sort((a, b) => b - a);
  if ((more + 0.05) / (less + 0.05) < 4.5) faults.push(`contrast ${((more + 0.05) / (less + 0.05)).toFixed(2)}: ${one.tagName} ${one.textContent.slice(0, 40)}`);
}
if (document.documentElement.scrollWidth > innerWidth + 1) faults.push(`wider than the window: ${document.documentElement.scrollWidth}`);
return faults;
"""


def test_rules_that_axe_checks(window: Window) -> None:
    """Names, references, focus, heads, lists and contrasts, over the page with all its parts, which begins dark and narrow."""
    window.open(*VIEWS[0])
    window.choose("scan.ptu", "image")
    window.run()
    window.js("for (const one of document.querySelectorAll('details')) one.open = true")
    assert window.faults(FAULTS) == {}
    assert [line["message"] for line in window.driver.get_log("browser") if line["level"] == "SEVERE"] == []


def test_a_look_by_keys_alone(window: Window) -> None:
    from selenium.webdriver.common.action_chains import ActionChains
    from selenium.webdriver.common.keys import Keys

    def press(*keys: str) -> None:
        ActionChains(window.driver).send_keys(*keys).perform()

    def to(what: str) -> None:
        for _ in range(80):
            if window.js(f"return document.activeElement.matches({what!r})"):
                return
            press(Keys.TAB)
        raise AssertionError(window.js("return document.activeElement.outerHTML"))

    to("[data-name='emitter.ptu']")
    press(Keys.ENTER)
    window.until(lambda: window.js("return document.activeElement.id") == "look-title" and window.js("return document.querySelector('#questions-list button')"))
    window.until(lambda: window.js("return document.querySelector('#look figure > .plot')?.dataset.drawn") == "yes")
    to(".plot")
    press(Keys.ARROW_RIGHT, Keys.ARROW_RIGHT)
    assert re.search(r"photons? a second|a second", window.text("#figure-look-trace .said"))
    to("#questions-list [data-name=antibunching]")
    press(Keys.ENTER)
    window.until(lambda: window.js("return document.activeElement.id") == "ask-title")
    to("#run")
    press(Keys.ENTER)
    window.until(lambda: window.text("#run-said") == "Done.")
    assert window.js("return document.activeElement.id") == "result-title" and window.number("g2 at 0") < 0.25
