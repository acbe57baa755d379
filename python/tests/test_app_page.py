"""The page of the window in Chromium: times that are typed, what is taken back, where the focus goes, and what a screen reader hears."""

import re
from collections.abc import Iterator
from functools import partial
from pathlib import Path
from typing import Any

import made
import numpy as np
import pytest
import simulated
from test_app import Served, begun, gone, jobs_of
from test_app_browser import FAULTS
from window import BROWSER, DRIVER, VIEWS, Window

import ptulab
from ptulab._plan_rules import SHAPES
from ptulab.app._figures import lasting
from ptulab.app._lengths import LENGTHS, lengths_of
from ptulab.app.scripts import decay_like
from ptulab.phasors import phasor_of_lifetime

selenium = pytest.importorskip("selenium", reason="python3-selenium isn't on this machine")
pytestmark = pytest.mark.skipif(not (BROWSER and DRIVER), reason="chromium and its driver aren't on this machine")


@pytest.fixture(scope="module")
def page(program: str, chromium: Any, saved: Path, tmp_path_factory: pytest.TempPathFactory) -> Iterator[Window]:
    """The browser, and the server of a folder with a scan, a dye, a pulse, and an emitter."""
    folder = tmp_path_factory.mktemp("page")
    for name in ("scan", "dye", "pulse", "emitter"):
        getattr(simulated, name)(folder / f"{name}.ptu")
    served = Served(folder, tmp_path_factory.mktemp("work") / "results", program)
    yield Window(chromium, f"{served.origin}/?token=right", saved, served)
    chromium.get("about:blank")
    served.end()


@pytest.fixture
def window(page: Window) -> Iterator[Window]:
    """The page, opened anew, so that nothing is chosen; what a test does may make no error in it."""
    page.open()
    yield page
    assert page.complaints() == []


PLAN = "return document.getElementById('text').value"
FOCUS = "return document.activeElement.id"


def typed(window: Window, name: str, value: Any) -> None:
    """Types into the field with an id, and leaves it."""
    window.js("const one = document.getElementById(arguments[0]); one.value = arguments[1]; for (const name of ['input', 'change']) one.dispatchEvent(new Event(name, {bubbles: true}))", name, str(value))


def says(window: Window, name: str, words: str) -> None:
    """The element with an id says this, at the latest after a while."""
    window.until(lambda: window.text(f"#{name}") == words, f"{name}: {words}")


def value(window: Window, name: str) -> Any:
    return window.js("return document.getElementById(arguments[0])?.value", name)


def imported(window: Window, module: str, words: str, *more: Any) -> Any:
    """What lines tell that have a module of the page as ``module``, and more words as ``more``."""
    script = f"const [more, done] = arguments; import('/static/{module}.js').then((module) => done((() => {{ {words} }})())).catch((error) => done(String(error)))"
    return window.driver.execute_async_script(script, more)


# ## Times


TICKS = [(16e-12, "1 ps"), (5e-8, "1 ns"), (1 / 78e6, "1 ns"), (1.2500000000000001e-08, "1 ns"), (1e-12, "1 ps")]


def test_times_are_exact_to_the_tick(window: Window) -> None:
    """Each tick up to the last of a gate, and some up to 2^40, come back from what is shown of them."""
    back = "const [tick] = more, odd = []; for (let at = 0; at < 40000; at += 1) { const ticks = at <= 32768 ? at : Math.floor(2 ** (40 * (at - 32768) / 7232)), found = module.asTicks(module.asTime(ticks, tick), tick, '1 ns');" \
        " if (found?.ticks !== ticks || found.rounded) odd.push(ticks); } return odd;"
    for tick, _ in TICKS:
        assert imported(window, "times", back, tick) == []
    told = "return more.map((words) => { const found = module.asTicks(words, 16e-12, '1 ns'); return found && [found.ticks, found.rounded]; })"
    typed_words = {"10": [625, False], "10.01 ns": [626, True], "10.016ns": [626, False], " 0.5 us ": [31250, False], "0.5 \u03bcs": [31250, False], ".5 ms": [31_250_000, False], "5 ticks": [5, False], "1 s": [62_500_000_000, False]}
    assert imported(window, "times", told, *typed_words) == list(typed_words.values())
    assert imported(window, "times", told, "", "x", "-1 ns", "1,5 ns", "1 h", "1e999 s", "ns", "0x10") == [None] * 8
    shown = "return more.map(([ticks, tick]) => module.asTime(ticks, tick))"
    assert imported(window, "times", shown, [625, 16e-12], [0, 16e-12], [20, 5e-8], [1, None], [7000, None], [100_000, 1 / 78e6]) == ["10 ns", "0 ns", "1 µs", "1 tick", "7,000 ticks", "1.2820513 ms"]


def test_a_time_has_the_unit_that_makes_it_short() -> None:
    assert [lasting(seconds) for seconds in (2.5, 1e-3, 4e-7, 5e-11, 3e-13, 1e-9 * (1 - 1e-12))] == ["2.5 s", "1 ms", "400 ns", "50 ps", "0.3 ps", "1 ns"]


def test_a_plan_is_shown_and_typed_in_times_and_lengths(window: Window) -> None:
    window.choose("scan.ptu", "image")
    width = int(re.search(r"\ndwidth = (\d+)", window.js(PLAN))[1])  # type: ignore[index]
    window.until(lambda: value(window, "length-cube-1-dwidth"), "fields")
    assert value(window, "length-cube-1-dwell") == "1 µs" and window.text("#length-cube-1-dwell-ticks") == "= 20 sync periods"
    assert value(window, "length-cube-1-dwidth") == f"{width * 50 / (1000 if width >= 20 else 1):g} {'ns' if width >= 20 else 'ps'}"
    assert (value(window, "length-cube-1-width"), window.text("#length-cube-1-width-all")) == ("16", "= 8 µm")
    window.js("document.getElementById('length-cube-1-dwidth').focus()")
    typed(window, "length-cube-1-dwidth", "0.21 ns")
    assert value(window, "length-cube-1-dwidth") == "200 ps" and window.text("#length-cube-1-dwidth-ticks") == "rounded to 200 ps = 4 ticks"
    window.until(lambda: "\ndwidth = 4\n" in window.js(PLAN), "the plan in ticks")
    bins = int(value(window, "length-cube-1-dbins"))
    window.until(lambda: window.text("#length-cube-1-dbins-all") == f"= {bins * 0.2:g} ns in all", "how long all bins are")
    assert window.text("#length-cube-1-dwidth-ticks").startswith("rounded") and window.js(FOCUS) == "length-cube-1-dwidth"
    typed(window, "length-cube-1-dwidth", "wide")
    assert window.text("#length-cube-1-dwidth-ticks") == "a time is wanted, as 2.5 ns" and "\ndwidth = 4\n" in window.js(PLAN)
    assert window.js("return document.getElementById('length-cube-1-dwidth').getAttribute('aria-invalid')") == "true"
    window.click("#undo")
    window.until(lambda: f"\ndwidth = {width}\n" in window.js(PLAN) and value(window, "length-cube-1-dwidth").startswith(f"{width * 50 / (1000 if width >= 20 else 1):g}"), "the width again")
    window.click("#redo")
    window.until(lambda: "\ndwidth = 4\n" in window.js(PLAN) and value(window, "length-cube-1-dwidth") == "200 ps")


def test_the_times_of_a_plan_by_their_lines() -> None:
    """Each key that is a time or a size, in the table where it stands; not those that only look like one."""
    text = "# width = 3\nperiod = 1_000 # ticks\nversion = 2\n\n[limits]\nrecords = 5\nwidth = 9\n[[group]]\ninputs = [1]\nwidth = 3\n[[ histogram ]] # one\ngroup = 1\nwidth=8\n  bins = 250\n" \
        "[[histogram]]\nwidth = 0x8\nbins = '3'\n[[trace]]\norigin = 0\nwidth = 4611686018427387904\n[[cube]]\nwidth = 16\nheight = 8\ndwell = 20\ndwidth = 4\ndbins = 7\n[[fold]]\nwindow = 12 x\n"
    found = [(one["line"], one["part"], one["key"], one["unit"], one["value"]) for one in lengths_of(text)]
    assert found == [
        (2, "the plan", "period", "delay", 1000), (13, "histogram 1", "width", "delay", 8), (14, "histogram 1", "bins", "width", 250), (19, "trace 1", "origin", "time", 0),
        (22, "cube 1", "width", "pixels", 16), (23, "cube 1", "height", "pixels", 8), (24, "cube 1", "dwell", "time", 20), (25, "cube 1", "dwidth", "delay", 4), (26, "cube 1", "dbins", "dwidth", 7),
    ]  # fmt: skip
    assert all(text.split("\n")[one["line"] - 1].strip().startswith(one["key"]) for one in lengths_of(text))
    assert {(kind, key) for kind, keys in LENGTHS.items() for key in keys if kind} <= {(kind, key) for kind, shape in SHAPES.items() for key in shape.keys}
    assert len(lengths_of("[[trace]]\nwidth = 1\n" * 10_000)) == 200
    assert lengths_of("[[" * 100_000 + "\nwidth = " + " " * 100_000 + "1x") == []


def test_what_a_number_of_sync_periods_lasts_is_said(page: Window) -> None:
    """Of a pulsed source before two detectors."""
    events = [(at, at % 2, 5) for at in range(200)]
    path = made.write(page.served.folder / "two.ptu", "HydraHarp2T3", events, tick=50e-9, resolution=50e-12)
    try:
        page.open()
        page.choose("two.ptu", "pulsed")
        assert page.text("#setting-reach-lasts") == "= 500 ns"
        typed(page, "setting-reach", 30)
        assert page.text("#setting-reach-lasts") == "= 1.5 µs"
    finally:
        path.unlink()


def test_gates_are_typed_in_nanoseconds_and_the_focus_stays_near(window: Window) -> None:
    window.choose("scan.ptu", "decay")
    window.js("document.getElementById('plan').open = true")
    window.click("#group-1-add")
    assert window.js(FOCUS) == "group-1-gate-1-from" and value(window, "group-1-gate-1-to") == "50 ns"
    window.until(lambda: "gates = [[0, 1000]]" in window.js(PLAN), "a gate of the sync period")
    typed(window, "group-1-gate-1-from", "2.52")
    assert value(window, "group-1-gate-1-from") == "2.5 ns" and window.text("#group-1-gate-1-from-ticks") == "rounded to 2.5 ns = 50 ticks"
    window.until(lambda: "gates = [[50, 1000]]" in window.js(PLAN), "ticks in the plan")
    typed(window, "group-1-gate-1-to", "600 ticks")
    window.until(lambda: "gates = [[50, 600]]" in window.js(PLAN), "a second change")
    window.click("#group-1-add")
    window.until(lambda: "[[0, 1000], [50, 600]]" in window.js(PLAN))
    window.click("#group-1-gate-2-remove")
    assert window.js(FOCUS) == "group-1-gate-1-remove"
    window.click("#group-1-gate-1-remove")
    assert window.js(FOCUS) == "group-1-add"
    window.until(lambda: "gates" not in window.js(PLAN))
    window.click("#add-group")
    many = window.js("return document.querySelectorAll('#groups fieldset').length")
    assert window.js(FOCUS) == f"group-{many}-name"
    window.until(lambda: window.js(PLAN).count("[[group]]") == many)
    window.click(f"#group-{many}-remove")
    assert window.js(FOCUS) == f"group-{many - 1}-remove" and window.text("#undo-said") != ""
    window.until(lambda: window.js(PLAN).count("[[group]]") == many - 1 and window.text("#undo-said") == f"Group {many} was removed.")
    window.js("document.getElementById('undo').focus(); document.getElementById('undo').click()")
    window.until(lambda: window.js(PLAN).count("[[group]]") == many and window.js("return document.querySelectorAll('#groups fieldset').length") == many)
    assert window.js(FOCUS) == "undo" and window.text("#undo-said") == f"Taken back: Group {many} was removed."
    for _ in range(20):
        window.js("document.getElementById('undo').click()")
    assert window.js(FOCUS) == "redo" and window.js("return document.getElementById('undo').hidden")


LATE = """const usual = window.fetch; window.letOn = null; window.fetch = async (name, asked) => {
  const answer = await usual(name, asked);
  if (name === "/api/groups" && !window.letOn) await new Promise((done) => { window.letOn = done; });
  return answer;
}"""  # answers to changes of groups wait, till the page lets one on


def meanwhile(window: Window, button: str, name: str, words: str) -> None:
    """Types into a field between a click that changes the groups and the server's answer, which comes at once then."""
    window.js(LATE)
    window.click(button)
    window.until(lambda: window.js("return window.letOn !== null"), "an answer")
    window.js("const one = document.getElementById(arguments[0]); one.value = arguments[1]; for (const name of ['input', 'change']) one.dispatchEvent(new Event(name, {bubbles: true})); window.letOn()", name, words)


def test_what_is_changed_before_an_answer_comes_is_kept(window: Window) -> None:
    """A gate, which is in the plan then, and the text of the plan itself."""
    window.choose("scan.ptu", "decay")
    window.js("document.getElementById('plan').open = true")
    meanwhile(window, "#group-1-add", "group-1-gate-1-to", "600 ticks")
    window.until(lambda: "gates = [[0, 600]]" in window.js(PLAN), "the gate as it was typed")
    by_hand = window.js(PLAN) + "# by hand\n"
    meanwhile(window, "#add-group", "text", by_hand)
    window.until(lambda: window.js("return document.querySelectorAll('#groups fieldset').length") == window.js(PLAN).count("[[group]]"), "the groups of the text")
    assert window.js(PLAN) == by_hand


# ## What is lost by a click


def test_what_a_click_on_a_question_or_a_file_discards_comes_back(window: Window) -> None:
    """A plan by hand, settings, a result, and what was typed; and all that was done to them before, step by step."""
    window.choose("scan.ptu", "decay")
    proposed = window.js(PLAN)
    window.js("document.getElementById('plan').open = true; document.getElementById('text').focus()")
    typed(window, "text", proposed + "# by hand\n")
    window.set(terms=2)
    told = window.run()
    window.click("#questions-list button[data-name=image]")
    window.until(lambda: "[[cube]]" in window.js(PLAN) and window.js("return document.getElementById('result').hidden"), "another question")
    window.click("#files button[data-name='emitter.ptu']")
    window.until(lambda: window.text("#look-title") == "emitter.ptu" and window.js("return document.querySelector('#questions-list [data-name=antibunching]') && !document.getElementById('questions').hidden"), "another file")
    assert window.text("#undo-said") == "emitter.ptu was opened."
    window.click("#undo")
    window.until(lambda: window.text("#look-title") == "scan.ptu" and "[[cube]]" in window.js(PLAN), "the file again")
    window.click("#undo")
    window.until(lambda: window.text("#numbers") == told and not window.js("return document.getElementById('result').hidden"), "the result again")
    assert window.js(PLAN) == proposed + "# by hand\n" and value(window, "setting-terms") == "2" and window.file("numbers.txt").decode() == told
    window.click("#undo")
    window.until(lambda: window.js(PLAN) == proposed, "what was there before the typing")
    for _ in range(3):
        window.click("#redo")
        window.until(lambda: window.text("#undo-said").startswith("Done again"))
    window.until(lambda: window.text("#look-title") == "emitter.ptu", "the other file once more")


def test_another_result_and_the_keys_of_undo(window: Window) -> None:
    from selenium.webdriver.common.action_chains import ActionChains
    from selenium.webdriver.common.keys import Keys

    window.choose("emitter.ptu", "antibunching")
    first = window.run()
    window.js("const one = document.getElementById('text'); one.value = one.value.replace(/reach = .*/, 'reach = 300'); one.dispatchEvent(new Event('input'))")
    second = window.run()
    assert first != second
    window.js("document.getElementById('result-title').focus()")
    ActionChains(window.driver).key_down(Keys.CONTROL).send_keys("z").key_up(Keys.CONTROL).perform()
    window.until(lambda: window.text("#numbers") == first, "the first result")
    window.click("#redo")
    window.until(lambda: window.text("#numbers") == second, "the second one")


def test_what_was_held_and_ticked_comes_back(window: Window) -> None:
    held = "return document.getElementById('hold-background').checked"
    window.choose("scan.ptu", "decay")
    free = window.run()
    typed(window, "fit-background", 3)
    window.js("document.getElementById('hold-background').checked = true")
    assert "\nbackground: 3\n" in window.run("#fit-again") and window.js(held)
    window.click("#undo")
    window.until(lambda: window.text("#numbers") == free and not window.js(held), "the free fit")
    assert window.run() == free
    ticked = "return [...document.querySelectorAll('#many-list input:checked')].map((one) => one.value)"
    window.click("#tick-all")
    every = window.js(ticked)
    window.click("#tick-none")
    assert "scan.ptu" in every and not window.js(ticked)
    window.click("#undo")
    assert window.js(ticked) == every and window.text("#undo-said") == "Taken back: All ticks were taken away."


def test_a_model_without_a_second_file_forgets_what_was_held_of_it(window: Window) -> None:
    """The shift of a pulse that is none any more: the next run is one of the tail, as if nothing had been held."""
    window.choose("scan.ptu", "decay")
    free = window.run()
    typed(window, "second", "pulse.ptu")
    window.run()
    window.js("document.getElementById('hold-shift').checked = true")
    window.run("#fit-again")
    assert window.js("return document.getElementById('hold-shift').checked")
    typed(window, "second", "")
    assert window.run() == free
    window.click("#undo")
    window.until(lambda: window.text("#numbers") != free, "the fit with the pulse")
    assert window.run() == free


def test_checks_and_regions_are_stopped(window: Window) -> None:
    """A check by its button, which gives the focus to Stop and gets it back; a region with the result that it is of."""
    window.choose("scan.ptu", "image")
    window.js("document.getElementById('plan').open = true; const one = document.getElementById('check'); one.focus(); one.click()")
    process = begun(window.served)
    window.until(lambda: window.js("return document.querySelector('.halt') && document.getElementById('check').disabled"))
    assert window.js("return document.activeElement.className") == "halt"
    window.click(".halt")
    window.until(lambda: "Stopped." in window.text("#findings") and not window.js("return document.querySelector('.halt') || document.getElementById('check').disabled"), "no check")
    assert gone(process) and window.js(FOCUS) == "check"
    window.run()
    window.click("#add-region")
    process = begun(window.served)
    window.until(lambda: window.js("return document.querySelector('#regions-progress progress')"), "a bar")
    window.choose("emitter.ptu", "antibunching")
    assert gone(process) and window.js("return document.getElementById('result').hidden")


def seen_of(window: Window, file: str, words: str) -> None:
    """The list says this of a file, at the latest after a while."""
    window.until(lambda: words in window.text(f"#files button[data-name='{file}']"), words)


def test_the_folder_is_read_again(window: Window) -> None:
    window.click("#files-again")
    says(window, "files-again-said", "No file is new or changed.")
    new = window.served.folder / "new.ptu"
    try:
        for many in (3, 5):
            made.write(new, "HydraHarp2T2", [(number, 1) for number in range(1, many + 1)], tick=1e-9)
            window.click("#files-again")
            says(window, "files-again-said", "1 file is new or changed.")
            seen_of(window, "new.ptu", f"{many} photons")
            window.js("document.getElementById('files-again-said').textContent = ''")
    finally:
        new.unlink()
    window.click("#files-again")
    window.until(lambda: not window.text("#files button[data-name='new.ptu']"), "no such file")


def test_many_markers_have_an_axis_of_their_own(window: Window) -> None:
    """A thousand and one of bit 2, over two inputs; the one of bit 1 is a tick, and both have a table."""
    new = window.served.folder / "new.ptu"
    made.write(new, "HydraHarp2T3", [(0, made.Bits(1)), (0, 0, 5), *((10 + at, made.Bits(2)) for at in range(1001)), (2047, 1, 7)], tick=1e-6)
    try:
        window.open()
        window.choose("new.ptu", "trace")
        window.until(lambda: window.js("return document.getElementById('figure-look-trace-plot')?.dataset.drawn") == "yes")
        axes, right, left = window.js("const { data, _fullLayout: { yaxis3: right, yaxis: left } } = document.getElementById('figure-look-trace-plot'); return [data.map((one) => [one.name, one.yaxis]), [right.side, right.title.text, right.domain, right.range], [left.title.text, left.domain, left.range]]")
        assert axes == [["input 0", "y"], ["input 1", "y"], ["marker bit 1", "y2"], ["marker bit 2", "y3"]]
        assert right[:2] == ["right", "markers a second"] and left[0] == "photons a second" and right[2] == left[1] != [0, 1]
        assert right[3][1] >= 1e6 > left[2][1]  # one in each tick, and one in two ticks
        assert window.js("return document.getElementById('figure-look-trace-plot').data[3].text[100]") == "marker bit 2, 0.1 ms: 1,000,000 markers a second"
        captions = window.js("return [...document.querySelectorAll('#figure-look-trace caption')].map((one) => one.textContent)")
        assert captions[1:] == ["marker bit 1: every value", "marker bit 2: every 11th value"]
    finally:
        new.unlink()


HELD = """window.usual = window.fetch; window.fetch = async (name, asked) => {
  const answer = await window.usual(name, asked);
  if (name !== "/api/look") return answer;
  asked.signal.throwIfAborted();
  await new Promise((done, fail) => { window.letOn = done; asked.signal.addEventListener("abort", fail); });
  return answer;
}"""  # answers to looks wait, till the page lets one on


def test_a_look_under_way_at_a_file_that_changes_is_done_again(window: Window) -> None:
    """In the background, where it is ended, and by a click: what is found of the file as it was isn't kept."""
    new = window.served.folder / "new.ptu"

    def written(many: int) -> None:
        made.write(new, "HydraHarp2T2", [(number, 1) for number in range(1, many + 1)], tick=1e-9)
        window.click("#files-again")
        says(window, "files-again-said", "1 file is new or changed.")
        window.js("document.getElementById('files-again-said').textContent = ''")

    try:
        window.until(lambda: all(window.text(f"#files button[data-name='{name}.ptu']").endswith("whole") for name in ("scan", "dye", "emitter", "pulse")), "all looks")
        written(3)
        process = begun(window.served)
        written(5)
        assert gone(process)
        seen_of(window, "new.ptu", "5 photons")
        new.unlink()
        window.click("#files-again")
        window.until(lambda: not window.text("#files button[data-name='new.ptu']"), "no such file")
        window.js(HELD)
        written(4)
        window.js("window.letOn = null; document.querySelector(\"#files button[data-name='new.ptu']\").click()")
        window.until(lambda: window.js("return window.letOn !== null") and jobs_of(window.served).process is None, "an answer")
        written(6)
        window.js("window.fetch = window.usual; window.letOn()")
        seen_of(window, "new.ptu", "6 photons")
    finally:
        new.unlink(missing_ok=True)
    window.click("#files-again")
    window.until(lambda: not window.text("#files button[data-name='new.ptu']"), "no such file")


def test_regions_are_typed_in_micrometres_and_come_back(window: Window) -> None:
    window.choose("scan.ptu", "image")
    window.run()
    labels = window.js("return [...document.querySelectorAll('#add-region')].flatMap((one) => [...one.parentElement.querySelectorAll('input')].map((input) => [input.getAttribute('aria-label'), input.value]))")
    assert labels == [["x from (µm)", "-0.25"], ["x to (µm)", "7.75"], ["y from (µm)", "-0.25"], ["y to (µm)", "7.75"]]
    window.js("document.querySelector(\"[aria-label='x to (µm)']\").value = '3.75'")
    window.click("#add-region")
    half = window.until(lambda: window.text("#region-numbers"), "a region")
    assert half.startswith("region 1: 128 pixels")
    window.click("#add-phasor-region")
    both = window.until(lambda: "phasor region 1" in window.text("#region-numbers") and window.text("#region-numbers"), "two regions")
    window.click("#remove-region-2")
    assert window.js(FOCUS) == "remove-region-1"
    says(window, "region-numbers", half)
    window.click("#remove-region-1")
    assert window.js(FOCUS) == "region-threshold"
    says(window, "regions-said", "No regions.")
    for wanted in (half, both):
        window.click("#undo")
        says(window, "region-numbers", wanted)
    window.run()
    window.until(lambda: window.text("#regions-said") != "Adds up the pixels .." and not window.text("#region-numbers"))
    window.click("#undo")
    says(window, "region-numbers", both)


# ## For people


# Whether there are a hundred findings, and the last of them begins with these words.
SAYS_LAST = "return document.querySelector('#findings li:nth-child(100)') && document.querySelector('#findings li:last-child').textContent.startsWith(arguments[0])"


def test_more_than_a_hundred_findings_are_said_to_be_more(window: Window) -> None:
    window.choose("scan.ptu", "decay")
    for many, last in ((100, "line 100: the plan: k99 is no key"), (101, "There is more: these are the first 100.")):
        typed(window, "text", "".join(f"k{number} = 1\n" for number in range(many)) + "[[group]]\ninputs = [0]\n")
        window.until(partial(window.js, SAYS_LAST, last), last)


def test_progress_is_said_now_and_then(window: Window) -> None:
    """Of work of 100 s that tells five times a second: with each tenth of it and each five seconds, and nothing twice."""
    words = """let now = 0, all = []; const place = { words: "", get textContent() { return this.words; }, set textContent(words) { this.words = words; all.push(words); } }, tell = module.teller(place, () => now);
    tell("Runs"); for (let at = 0; at <= 500; at += 1) { now = at * 200; tell("counts", at / 500); } return all"""
    all_said = imported(window, "dom", words)
    assert all_said[0] == "Runs .." and all_said[-1] == "counts: 100 %" and 12 <= len(all_said) <= 32 and len(set(all_said)) == len(all_said)


def test_live_regions_are_quiet_while_a_plan_is_changed(window: Window) -> None:
    """Nothing that a screen reader reads is written anew with the same words."""
    window.choose("scan.ptu", "decay")
    window.js("window.same = []; new MutationObserver((all) => { for (const one of all) { const place = one.target.closest?.('[role=status], [aria-live=polite]'), before = [...one.removedNodes].map((node) => node.textContent).join('');"
              " if (place && before && before === [...one.addedNodes].map((node) => node.textContent).join('')) window.same.push(place.id + ': ' + before); } }).observe(document.body, { childList: true, subtree: true })")
    for bins in (0, 125, 0, 125):
        changed = re.sub(r"bins = \d+", f"bins = {bins}", window.js(PLAN))
        typed(window, "text", changed)
        found = window.served.ask("plan", plan=changed)["findings"]
        says(window, "findings", "".join(f"line {one['line']}: {one['text']}" for one in found))
        assert bool(found) == (bins == 0)
    window.run()
    assert window.js("return window.same") == []


def test_values_of_a_fit_stand_in_the_table(window: Window) -> None:
    window.choose("scan.ptu", "decay")
    window.run()
    heads, cells = window.js("const one = document.querySelector('#figure-histogram-1 table'); return [[...one.querySelectorAll('thead th')].map((head) => head.textContent), [...one.querySelectorAll('tbody tr')].map((row) => [...row.children].map((cell) => cell.textContent.replace(/,/g, '')))]")
    fit = window.js("const one = document.getElementById('figure-histogram-1-plot').data[1]; return [one.x, one.y]")
    known = np.array([[row[0], row[heads.index("fit")]] for row in cells if row[heads.index("fit")]], np.float64)
    assert len(known) > 20 and known[:, 1] == pytest.approx(np.interp(known[:, 0], *fit), rel=1e-4)


def test_rules_that_axe_checks_over_each_view(window: Window) -> None:
    """The first page, a file, a wrong plan with gates, what can be taken back, and an error; test_app_browser has a result."""
    assert window.faults(FAULTS) == {}
    window.open(*VIEWS[0])
    window.choose("scan.ptu", "decay")
    window.js("for (const one of document.querySelectorAll('details')) one.open = true")
    window.click("#group-1-add")
    window.until(lambda: "gates" in window.js(PLAN))
    typed(window, "length-histogram-1-width", "x")
    typed(window, "text", window.js(PLAN).replace("bins = ", "bins = 0 #"))
    window.until(lambda: window.text("#findings"))
    window.click("#tick-none")
    window.click("#run-many")
    window.until(lambda: window.text("#trouble"))
    assert window.faults(FAULTS) == {}


# ## A reference for phasors


def test_phasors_are_calibrated_by_a_dye(window: Window, tmp_path: Path) -> None:
    """Both halves of the scan lie where their lifetimes are on the semicircle, which the rise of the decay tells only nearly; so do its regions."""
    wanted = [complex(phasor_of_lifetime(lifetime, 1 / 50e-9, 8 * 50e-12)) for lifetime in (simulated.SHORT, simulated.LONG)]

    def clouds() -> list[complex]:
        plot = window.js("const one = document.getElementById('figure-phasors-plot').data[0]; return [one.z, one.x0, one.dx, one.y0, one.dy]")
        many = np.array([[cell or 0 for cell in row] for row in plot[0]])
        rows, columns = np.nonzero(many)
        points = plot[1] + plot[2] * columns + 1j * (plot[3] + plot[4] * rows)
        nearer = np.abs(points - wanted[0]) < np.abs(points - wanted[1])
        return [complex(np.average(points[which], weights=many[rows, columns][which])) for which in (nearer, ~nearer)]

    window.choose("scan.ptu", "image")
    labels = window.js("return [...document.querySelectorAll('#settings select, #settings input')].map((one) => one.id)")
    assert labels.index("setting-reference") == labels.index("second") + 1  # of which it tells the lifetime
    window.set(threshold=40, reference=simulated.DYE * 1e9)
    window.run()
    assert max(abs(one - other) for one, other in zip(clouds(), wanted)) > 0.015
    typed(window, "second", "dye.ptu")
    window.run()
    assert clouds() == pytest.approx(wanted, abs=0.004)
    window.script_prints_the_same(tmp_path)
    window.click("#add-phasor-region")
    window.until(lambda: "phasor region 1: 256 pixels" in window.text("#region-numbers"), "a region of calibrated phasors")
    assert "reference=reference" in window.file("regions.py").decode() and window.file("reference.csv").startswith(b"g,s\n")


def test_a_reference_of_other_ticks_is_refused(program: str, tmp_path: Path, monkeypatch: pytest.MonkeyPatch) -> None:
    monkeypatch.setenv("PTU", program)
    plan = tmp_path / "plan.toml"
    plan.write_text("version = 2\nperiod = 1000\n[[shift]]\ninput = 0\nshift = 3\n[[group]]\ninputs = [0]\ngates = [[0, 900]]\n"
                    "[[cube]]\ngroup = 1\nwidth = 16\nheight = 16\ndwell = 20\nline = 1\ndwidth = 10\ndbins = 100\n")  # fmt: skip
    report = ptulab.run(plan, simulated.scan(tmp_path / "scan.ptu"))
    dye = simulated.dye(tmp_path / "dye.ptu")
    decay = decay_like(report, plan, dye)
    ticks = (ptulab.read_events(dye).dtimes + 3) % 1000
    assert decay.tolist() == np.bincount(ticks[ticks < 900] // 10, minlength=100).tolist()
    for tick, resolution, said in ((51e-9, 50e-12, "another sync period: 5.1e-08 s"), (50e-9, 25e-12, "another tick of the dtime: 2.5e-11 s")):
        other = made.write(tmp_path / "other.ptu", "HydraHarp2T3", [(1, 0, 5)], tick=tick, resolution=resolution)
        with pytest.raises(ValueError, match=said):
            decay_like(report, plan, other)
