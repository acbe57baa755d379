"""The page: its figures, its text, and that nothing of a report or a name gets into it unescaped."""

import html.parser
import json
import re
from collections.abc import Callable
from dataclasses import replace
from pathlib import Path
from typing import Any

import numpy as np
import pytest
from hypothesis import given, settings
from hypothesis import strategies as st

import ptulab
from conftest import EXAMPLES
from made import Bits as made_bits
from matplotlib.axes import Axes
from ptulab.errors import MissingLibraryError
from ptulab.antibunching import g2
from ptulab.page import _document as document, _figures as figures, checksum, page, write_page
from ptulab.page._figures import Curve, Picture, begin_of, blocks, start_of, thinned, unit_of
from ptulab.report import Head, Report
from ptulab.tables import Measurement, empty_table

figures_of: Any = figures.figures_of  # a figure is a curve or a picture, as its table asks
HOSTILE = "</script><script>alert(1)</script><img src=x onerror=alert(1)>\"'&\u2028<!--\x00"
HEAD = Head("HydraHarp2T3", 10, 50e-9, 16e-12, 12, 9, 1, 2, 0, 3, 5, 1000)


def table(kind: str, settings: Any, counts: Any, rest: Any = None, head: Any = HEAD, photons: Any = None, groups: Any = None) -> Any:
    made = empty_table(kind, 1, settings, head.global_seconds)
    made.counts = np.array(counts, dtype=np.int64).reshape(made.counts.shape)
    made.rest, made.groups = rest or {}, groups
    made.measurements = (Measurement(995, photons),)
    return made


@pytest.fixture
def small(monkeypatch: pytest.MonkeyPatch) -> None:
    """Pages without the eight megabytes of Plotly."""
    offline = type("Offline", (), {"get_plotlyjs": staticmethod(lambda: "/* plotly */")})
    whole = ptulab._optional.want
    monkeypatch.setattr("ptulab.page.want", lambda name, feature: offline if name == "plotly.offline" else whole(name, feature))


class Elements(html.parser.HTMLParser):
    def __init__(self, text: str) -> None:
        super().__init__()
        self.found: list[tuple[str, dict[str, Any]]] = []
        self.ids: list[str] = []
        self.texts: list[str] = []
        self.scripts: list[str] = []
        self.within = ""
        self.feed(text)
        self.close()

    def handle_starttag(self, tag: Any, attrs: Any) -> None:
        self.found.append((tag, dict(attrs)))
        self.ids += [value for key, value in attrs if key == "id"]
        self.within = tag

    def handle_endtag(self, tag: Any) -> None:
        self.within = ""

    def handle_data(self, data: Any) -> None:
        (self.scripts if self.within == "script" else self.texts).append(data)


def test_hostile_names_and_plans_stay_texts(small: Any, tmp_path: Path) -> None:
    plan = tmp_path / "plan.toml"
    plan.write_text(f"# {HOSTILE}\n", encoding="utf-8")
    report = ptulab.Report(HEAD, (table("histogram", {"width": 1, "bins": 3}, [1, 5, 2], {"over": 1}),))
    elements = Elements(page(report, file=HOSTILE, plan=plan, program=plan))
    scripts = [attributes for tag, attributes in elements.found if tag == "script"]
    assert [one.get("type") for one in scripts] == ["application/json", None, None]
    assert [tag for tag, attributes in elements.found if "onerror" in attributes or attributes.get("src") == "x"] == []
    assert sum("alert(1)" in text for text in elements.texts) == 4  # the title, the heading, the name of the file, and the plan
    assert not any("alert(1)" in text for text in elements.scripts)
    assert "\x00" not in "".join(elements.texts)


@pytest.mark.filterwarnings("ignore:Glyph")
def test_labels_of_figures_are_escaped_too(small: Any) -> None:
    curve = Curve(HOSTILE, HOSTILE, HOSTILE, np.arange(3.0), np.arange(3.0), HOSTILE, HOSTILE, HOSTILE, HOSTILE, names=[HOSTILE] * 3, log=True)
    text = document.whole_page(HOSTILE, [(HOSTILE, HOSTILE)], HOSTILE, HEAD, [curve], "/* plotly */")
    elements = Elements(text)
    assert [tag for tag, _ in elements.found].count("script") == 3 and "img" in [tag for tag, _ in elements.found]
    assert not any("onerror" in attributes for _, attributes in elements.found)
    assert json.loads(elements.scripts[0])[0]["xlabel"] == HOSTILE  # in JSON, whose < is written as an escape
    assert "<" not in elements.scripts[0]


@settings(deadline=None)
@given(text=st.text() | st.text(alphabet="<>&\"'/-! scriptalet()=\\u2028\x00\n"))
def test_any_text_comes_back_as_a_text(text: str) -> None:
    elements = Elements(f'<p title="{document.escaped(text)}">{document.escaped(text)}</p><script>{document.script_json([text])}</script>')
    assert [tag for tag, _ in elements.found] == ["p", "script"]
    shown = "".join(letter if letter.isprintable() or letter in "\n\t" else "\ufffd" for letter in text)
    assert "".join(elements.texts) == shown and elements.found[0][1]["title"] == shown
    assert json.loads("".join(elements.scripts)) == [text] and "<" not in elements.scripts[0]


def test_only_the_two_scripts_of_the_page_may_run(small: Any) -> None:
    elements = Elements(page(Report(HEAD, ())))
    (rules,) = (attributes["content"] for tag, attributes in elements.found if attributes.get("http-equiv") == "Content-Security-Policy")
    assert "default-src 'none'" in rules and "unsafe-inline" not in rules.partition("script-src")[2]
    assert {document._digest(script) for script in elements.scripts[1:]} == set(re.findall(r"'sha256-[^']+'", rules))


def test_the_heading_and_its_warnings(small: Any, tmp_path: Path) -> None:
    (tmp_path / "ptu").write_bytes(b"abc")
    (tmp_path / "plan.toml").write_bytes(b"\xef\xbb\xbf[[group]]\r\n\tinputs = [1]\r\n")
    assert ">[[group]]\n\tinputs = [1]\n</pre>" in page(Report(HEAD, ()), plan=tmp_path / "plan.toml")
    text = page(Report(HEAD, ()), file="some/data.ptu", program=tmp_path / "ptu")
    assert "<h1>Report of data.ptu</h1>" in text and "<dd>data.ptu</dd>" in text and "some/" not in text
    assert tmp_path.name not in page(Report(HEAD, ()), file=tmp_path / "data.ptu", plan=tmp_path / "plan.toml", program=tmp_path / "ptu")
    assert "ba7816bf8f01cfea414140de5dae2223b00361a396177a9cb410ff61f20015ad" in text and checksum(tmp_path / "ptu") in text
    assert "The header announces 10 records, and there are 12.<" in text and "3 events are late" in text
    assert "announces 13 records, and there are 12: the file may be cut.<" in page(Report(replace(HEAD, announced=13), ()))
    assert "announces" not in page(Report(replace(HEAD, announced=12), ()))
    assert "<dt>length</dt><dd>49.75 µs</dd>" in text
    assert "not told" in page(Report(Head("HydraHarp2T2", None, None, None, 0, 0, 0, 0, 0, 0, None, None), ()))


def test_every_figure_has_labels_a_table_and_a_plain_picture(small: Any, program: str) -> None:
    for plan, data in (("scan", "scan"), ("lifetimes", "scan"), ("bench", "bench")):
        report = ptulab.run(EXAMPLES / f"{plan}.toml", EXAMPLES / f"{data}.ptu", program=program)
        drawn = figures_of(report)
        text = page(report)
        elements = Elements(text)
        assert len(elements.ids) == len(set(elements.ids))
        plots = [attributes for _, attributes in elements.found if attributes.get("class", "").startswith("plot")]
        assert len(plots) == len(drawn) == text.count("data:image/png;base64") == text.count("<table>") and drawn
        for plot in plots:
            assert plot["tabindex"] == "0" and plot["aria-label"]
            assert set(plot["aria-describedby"].split()) <= set(elements.ids)
        for label in (attributes["for"] for tag, attributes in elements.found if tag == "label" and "for" in attributes):
            assert label in elements.ids
        for curve in (figure for figure in drawn if isinstance(figure, Curve)):
            assert re.search(r"\((ns|µs|ms|s|sync periods)\)$", curve.xlabel) and curve.ylabel


def test_a_page_appears_when_it_is_whole(small: Any, tmp_path: Path, monkeypatch: pytest.MonkeyPatch) -> None:
    path = tmp_path / "page.html"
    write_page(Report(HEAD, ()), path)
    assert path.read_text(encoding="utf-8") == page(Report(HEAD, ()))
    monkeypatch.setattr("ptulab.page.figures_of", lambda report, header: 1 / 0)
    with pytest.raises(ZeroDivisionError):
        write_page(Report(HEAD, ()), path)
    assert path.stat().st_size > 1000 and len(list(tmp_path.iterdir())) == 1


def test_without_plotly_it_says_what_to_install(monkeypatch: pytest.MonkeyPatch) -> None:
    monkeypatch.setitem(__import__("sys").modules, "plotly", None)
    monkeypatch.setitem(__import__("sys").modules, "plotly.offline", None)
    with pytest.raises(MissingLibraryError, match="python3-plotly"):
        page(Report(HEAD, ()))


# ## The figures


def test_a_decay_and_what_is_in_no_bin() -> None:
    (curve,) = figures_of(Report(HEAD, (table("histogram", {"width": 64, "bins": 4}, [0, 8, 4, 2], {"over": 3}, groups=(2,)),)))
    assert curve.log and curve.title == "Decay: histogram 1; group 2"
    assert curve.xs == pytest.approx([0, 1.024, 2.048, 3.072]) and curve.xlabel == "delay after the sync (ns)"
    assert "14 photons" in curve.summary and "8 photons, are at 1.024 ns" in curve.summary and "3 photons are past the last bin" in curve.summary


def test_a_trace_is_a_rate_where_the_seconds_are_known() -> None:
    settings = {"origin": 0, "width": 200_000, "bins": 2}
    (curve,) = figures_of(Report(HEAD, (table("trace", settings, [5, 10], {"before": 0, "beyond": 0}),)))
    assert curve.ys == pytest.approx([0.5, 1.0]) and curve.ylabel == "rate (1000 photons/s)" and curve.xs == pytest.approx([0, 10])
    for seconds in (None, float("nan"), -1.0, float("inf")):
        head = Head("HydraHarp2T3", None, seconds, None, 1, 1, 0, 0, 0, 0, 0, 9)
        (curve,) = figures_of(Report(head, (table("trace", settings, [5, 10], {}, head),)))
        assert (curve.xlabel, curve.ylabel, curve.ys.tolist()) == ("time (sync periods)", "photons in a bin", [5, 10])
    (curve,) = figures_of(Report(HEAD, (table("trace", {"origin": 0, "width": 9, "bins": 1}, [5], {"before": 0, "beyond": 2}),)))
    assert len(curve.xs) == 0 and curve.summary == "5 photons in one bin. 2 photons are behind the last bin."


@pytest.mark.parametrize("tick", [5e-324, 1e300, float("inf"), float("nan"), -1.0])
def test_odd_seconds_of_a_tick_are_not_taken(program: str, make_file: Callable[..., Path], make_plan: Callable[..., Path], tick: Any) -> None:
    plan = make_plan("group = [{ inputs = [1] }]\ntrace = [{ group = 1, width = 100, bins = 10 }]\ncorrelation = [{ first = 1, second = 1, lags = 4, levels = 2 }]")
    report = ptulab.run(plan, make_file("HydraHarp2T2", [(1, 1), (900, 1)], tick=tick), program=program)
    assert [figure.xunit for figure in figures_of(report)] == ["ticks", "ticks"]


def test_g2_of_even_light_is_1_in_every_cell_and_the_last_one_is_narrower() -> None:
    draws = np.random.default_rng(3)
    first, second = (np.sort(draws.integers(0, 10**6, 20_000)) for _ in range(2))
    differences = np.concatenate([second[(second > t - 50) & (second < t + 50)] - t for t in first])
    counts = np.histogram(differences, bins=[-49 - 0.5, *(-49 + 7 * np.arange(1, 14) - 0.5), 42.5, 49.5])[0]
    cells = 2 * 49 // 7 + 1
    counts = np.bincount((differences[np.abs(differences) <= 49] + 49) // 7, minlength=cells)
    made = table("coincidence", {"reach": 49, "width": 7}, counts, photons=(20_000, 20_000))
    made.measurements = (Measurement(10**6, (20_000, 20_000)),)
    values, errors = g2(made)
    assert np.abs((values - 1) / errors).max() < 4 and values[-1] == pytest.approx(1, abs=4 * errors[-1]) and counts[-1] < counts[-2] / 3
    (curve,) = figures_of(Report(HEAD, (made,)))
    assert curve.title.startswith("g2") and curve.level == 1 and curve.errors is not None


def test_the_summary_of_g2_names_its_lowest_cell() -> None:
    """Which needn't be at 0, as with a cable longer than the other; a cell of few pairs, with a great error, isn't it."""
    counts = np.full(21, 400)
    counts[13], counts[20] = 270, 380
    made = table("coincidence", {"reach": 10, "width": 1}, counts, photons=(1000, 1000))
    (curve,) = figures_of(Report(replace(HEAD, global_seconds=1e-9), (made,)))
    lowest, middle = (f"{curve.ys[at]:.3g} ± {curve.errors[at]:.2g}" for at in (13, 10))
    assert f"g2 is lowest at 3 ns, with {lowest}, and {middle} at 0 ns" in curve.summary
    counts[10] = 100
    made.counts = counts
    (curve,) = figures_of(Report(replace(HEAD, global_seconds=1e-9), (made,)))
    assert f"g2 is lowest at 0 ns, with {curve.ys[10]:.3g} ± {curve.errors[10]:.2g}." in curve.summary


def test_colours_of_mean_delays_go_by_the_pixels_with_photons_enough(monkeypatch: pytest.MonkeyPatch) -> None:
    """Background of few photons has mean delays all over the period; the limits are those of most of what is looked at."""
    draws = np.random.default_rng(4)
    counts = np.zeros((32, 32, 64), dtype=np.int64)
    for y, x in np.ndindex(32, 32):
        bright = 8 <= y < 20 and 8 <= x < 20
        delays = 4 + draws.exponential(6.0 if x < 14 else 10.0, 800) if bright else draws.uniform(0, 64, 6)
        counts[y, x] = np.bincount(delays[delays < 64].astype(int), minlength=64)
    counts[9, 9], counts[9, 10] = np.roll(counts[9, 9], 40), np.roll(counts[9, 10], -5)  # two odd ones among the bright
    settings = {"width": 32, "height": 32, "dwell": 1, "dwidth": 1, "dbins": 64}
    made = table("cube", settings, counts, {"outside": 0, "over": 0}, replace(HEAD, global_seconds=1e-9))
    _, means, _ = figures_of(Report(replace(HEAD, global_seconds=1e-9, resolution_seconds=1e-9), (made,)))
    told = document._pixels(means)
    assert 4 < told["zmin"] < 7 and 8 < told["zmax"] < 11
    drawn: list[Any] = []
    whole = Axes.imshow

    def imshow(axes: Any, *words: Any, **more: Any) -> Any:
        drawn.append(whole(axes, *words, **more))
        return drawn[-1]

    monkeypatch.setattr("matplotlib.axes.Axes.imshow", imshow)
    document._section(means)
    assert drawn[0].get_clim() == (told["zmin"], told["zmax"])


def test_a_picture_has_micrometres_where_the_header_knows(small: Any, program: str, make_file: Callable[..., Path], tmp_path: Path) -> None:
    scan = {"ImgHdr_PixX": 4, "ImgHdr_PixY": 3, "ImgHdr_PixResol": 0.25}
    events = [(40 * line + at, *rest) for line in range(3) for at, rest in ((0, (made_bits(1),)), (5, (0, 3)), (25, (0, 4)))]
    path = make_file("MultiHarpT3", events, tick=1e-7, resolution=1e-11, **scan)
    for width, known in ((4, True), (8, False)):
        plan = tmp_path / "plan.toml"
        plan.write_text(f"group = [{{ inputs = [0] }}]\nimage = [{{ group = 1, width = {width}, height = 3, dwell = {40 // width}, line = 1 }}]\n")
        report = ptulab.run(plan, path, program=program)
        for file, told in ((path, known), (tmp_path / "gone.ptu", False), (None, False)):
            (numbers,) = json.loads(Elements(page(report, file=file)).scripts[0])
            assert numbers["micrometres"] == (0.25 if told else None)


def test_pairs_of_unknown_photons_are_not_normalised() -> None:
    made = [table("coincidence", {"reach": 1, "width": 1}, [1, 2, 3]), table("correlation", {"lags": 2, "levels": 2}, [4, 4, 8])]
    curves = figures_of(Report(HEAD, tuple(made)))
    assert all("isn't normalised" in curve.summary and curve.level is None for curve in curves)
    curve = curves[-1]
    assert curve.ys.tolist() == [4, 4, 4] and curve.ylabel == "pairs / 2^level"


def test_a_correlation_begins_where_its_errors_are_small(program: str, tmp_path: Path) -> None:
    values = np.array([9.0, 0.0, 2.1, 2.0, 1.9, 1.8, 1.7, 1.6, 1.2, 1.0, 1.0])
    errors = np.array([5.0, 5.0, *[0.05] * 9])
    assert start_of(values, errors) == 2
    assert start_of(np.ones(9), np.array([0.5, 0.3, *[0.05] * 7])) == 2
    assert start_of(np.ones(3), np.full(3, 9.0)) == 0
    made = table("correlation", {"lags": 4, "levels": 6}, np.zeros(14), photons=(60, 60))
    made.counts = np.round(1.5 * made.expected()).astype(np.int64)  # seen on the last two levels, and small on the last
    (curve,) = figures_of(Report(HEAD, (made,)))
    assert curve.xlog and curve.errors is not None and len(curve.errors) == len(curve.xs) == 14
    begin = start_of(curve.ys, curve.errors)
    assert begin == 12 and curve.start == curve.xs[12] == pytest.approx((3 << 5) * 50e-9)
    steady = table("correlation", {"lags": 4, "levels": 1}, [4000] * 4, photons=(600, 600))
    assert figures_of(Report(HEAD, (steady,)))[0].start is None
    for words in ("Poisson errors", "several times too small", "correlation_by_segments"):
        assert words in curve.summary


def test_a_fold_has_a_bar_for_each_set() -> None:
    (curve,) = figures_of(Report(HEAD, (table("fold", {"window": 9, "sets": 4}, [0, 5, 3, 1], groups=(2, 7)),)))
    assert list(curve.names) == ["2", "7", "2 and 7"] and curve.ys.tolist() == [5, 3, 1] and curve.xlabel == "groups"


def test_start_stops() -> None:
    (curve,) = figures_of(Report(HEAD, (table("startstop", {"width": 5, "bins": 3}, [0, 5, 3], {"over": 2}),)))
    assert curve.log is False and "2 times are past the last bin" in curve.summary


def test_great_pictures_are_added_up_in_blocks() -> None:
    assert blocks(np.arange(12).reshape(3, 4), 2).tolist() == [[10, 18], [17, 21]]
    counts = np.ones((600, 1100), dtype=np.int64)
    (picture,) = figures_of(Report(HEAD, (table("image", {"width": 1100, "height": 600, "dwell": 1}, counts, {"outside": 4}),)))
    assert picture.block == 3 and picture.photons.shape == (200, 367) and picture.photons.sum() == counts.sum()
    assert picture.photons.max() == 9 and "photons in 3 by 3 pixels" == picture.label and "4 photons are outside the picture" in picture.summary


def test_mean_delays_count_from_where_the_decay_begins() -> None:
    counts = np.zeros((1, 2, 6), dtype=np.int64)
    counts[0, 0] = [1, 0, 40, 20, 10, 5]
    counts[0, 1] = [0, 0, 0, 0, 1, 0]
    report = Report(HEAD, (table("cube", {"width": 2, "height": 1, "dwell": 1, "dwidth": 10, "dbins": 6}, counts, {"outside": 0, "over": 0}),))
    image, delays, decay = figures_of(report)
    assert begin_of(counts.sum(axis=(0, 1)).astype(float)) == 2
    mean = (40 * 4.5 + 20 * 14.5 + 10 * 24.5 + 5 * 34.5) / 75 * 16
    assert delays.values == pytest.approx(np.array([[mean, 24.5 * 16]])) and delays.photons.tolist() == [[75, 1]] and delays.unit == "ps"
    assert image.photons.tolist() == [[76, 1]] and decay.ys.tolist() == [1, 0, 40, 20, 11, 5] and decay.log
    assert begin_of(np.array([5.0, 1.0])) == 0


def test_long_curves_are_thinned_and_keep_their_extremes() -> None:
    ys = np.zeros(100_000)
    ys[[17, 50_000]] = 9, -3
    curve = Curve("a", "a", "", np.arange(100_000.0), ys, "", "", "", "")
    places = thinned(curve)
    assert len(places) <= figures.POINTS and {17, 50_000} <= set(places.tolist())
    text = document._table(curve)
    assert "every 500th of 100,000 values" in text and text.count("<tr>") == figures.ROWS + 1


@pytest.mark.parametrize(("seconds", "unit"), [(3.0, "s"), (0.02, "ms"), (5e-5, "µs"), (-3e-8, "ns"), (2e-11, "ps"), (0.0, "ps")])
def test_units(seconds: Any, unit: Any) -> None:
    assert unit_of(seconds)[1] == unit


@pytest.mark.parametrize("most", [3, 300, 70_000, 1 << 40])
def test_numbers_are_packed_in_few_bytes(most: Any) -> None:
    kind = document.packed(np.array([0, most], dtype=np.int64))["kind"]
    assert {3: "u1", 300: "u2", 70_000: "u4", 1 << 40: "f8"}[most] == kind


def test_an_empty_picture() -> None:
    report = Report(HEAD, (table("cube", {"width": 2, "height": 2, "dwell": 1, "dwidth": 1, "dbins": 2}, np.zeros(8), {"outside": 0, "over": 0}),))
    pictures = [figure for figure in figures_of(report) if isinstance(figure, Picture)]
    assert len(pictures) == 2 and all(document._pixels(picture)["zmax"] == 1 for picture in pictures)
    assert document._section(pictures[0]).count("<tr>") == 3
