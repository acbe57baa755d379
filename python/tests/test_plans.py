"""Plans that are proposed for files, and what is wrong with plans for files."""

import numpy as np
import pytest
from collections.abc import Callable
from pathlib import Path
from typing import Any

import made
from conftest import EXAMPLES
from made import Bits
from ptulab._documents import read_plan
from ptulab.errors import BadFileError
from ptulab._looks import BINS, BITS, KEPT, Marks, look
from ptulab.plans import check_plan, plan_for
from ptulab.program import run

T3 = "HydraHarp2T3"
SCAN = {"ImgHdr_PixX": 4, "ImgHdr_PixY": 2, "ImgHdr_LineStart": 1, "ImgHdr_LineStop": 2, "ImgHdr_Frame": 3}
SYNC = 50e-9


def scan(dwell: Any) -> Any:
    """Two lines of four pixels, with a photon in each pixel of the first line, and one in the last of the second."""
    ends = 200 + 4 * dwell
    events = [(200, Bits(5)), *((200 + pixel * dwell, 0, 7) for pixel in range(4)), (ends, Bits(2))]
    return [*events, (ends + 50, Bits(1)), (ends + 50 + 3 * dwell, 0, 7), (ends + 50 + 4 * dwell, Bits(2))]


@pytest.fixture
def proposed(make_plan: Callable[..., Path], program: str) -> Any:
    """The plan for a file and its report; the plan must be good for it."""

    def propose(path: Any) -> Any:
        text = str(plan_for(path))
        plan = make_plan(text)
        assert check_plan(plan, path, program=program) == []
        return text, run(plan, path, program=program)

    return propose


@pytest.mark.parametrize("tags", [{"ImgHdr_TimePerPixel": 32 * SYNC * 1e3}, {}])
def test_the_plan_of_a_scan(make_file: Callable[..., Path], proposed: Any, tags: Any) -> None:
    text, report = proposed(make_file(T3, scan(32), tick=SYNC, resolution=25e-12, **SCAN, **tags))
    assert f"lasts 32 sync periods ({'the header' if tags else 'measured'}" in text
    assert report.table("image").counts.tolist() == [[1, 1, 1, 1], [0, 0, 0, 1]]
    assert report.table("cube").counts.sum() == report.table("histogram").counts.sum() == 5
    assert report.table("cube").counts.shape == (2, 4, 125)
    assert report.table("histogram").counts.shape == (2000,)


def test_the_plan_of_a_scan_in_both_directions_with_broken_pixels(make_file: Callable[..., Path], proposed: Any) -> None:
    tags = SCAN | {"ImgHdr_BiDirect": True, "ImgHdr_Frame": -1, "ImgHdr_TimePerPixel": 32.4 * SYNC * 1e3, "ImgHdr_SinCorrection": 70}
    text, _ = proposed(make_file(T3, scan(32), tick=SYNC, **tags))
    assert "no whole number, so the columns are shifted" in text and "like a sine" in text
    assert "version = 2\n" in text and "serpentine = true\n" in text and "frame" not in text


@pytest.mark.parametrize(
    ("tags", "said"),
    [
        ({"ImgHdr_PixX": 2049}, "2049 times 2 pixels, and an image has up to 2048 times 2048: no image"),
        ({"ImgHdr_LineStart": 0}, "not which marker begins a line: no image"),
        ({"ImgHdr_LineStart": 4, "ImgHdr_LineStop": 4}, "not how long a pixel lasts: no image"),
    ],
)
def test_scans_that_no_image_suits(make_file: Callable[..., Path], proposed: Any, tags: Any, said: Any) -> None:
    assert said in proposed(make_file(T3, scan(32), tick=SYNC, **(SCAN | tags)))[0]


@pytest.mark.parametrize("number", [float("inf"), float("nan"), 1e300, 5e-324, 0.0, -1.0])
def test_headers_of_odd_seconds(make_file: Callable[..., Path], proposed: Any, number: Any) -> None:
    """The plan is one that the program takes, whatever numbers stand in the header."""
    for tags in ({"tick": number, "resolution": 1e-12}, {"tick": SYNC, "resolution": number}, {"tick": SYNC, "ImgHdr_TimePerPixel": number}):
        report = proposed(make_file(T3, scan(32), **(SCAN | tags)))[1]
        assert report.table("histogram").counts.sum() == report.head.photons
    assert proposed(make_file("HydraHarp2T2", [(0, 1), (1000, 2)], tick=number))[1].table("coincidence").counts.sum() == 1


def test_a_deep_file_of_great_pictures_has_few_bins_a_pixel(make_file: Callable[..., Path], proposed: Any) -> None:
    _, report = proposed(make_file(T3, scan(1), tick=SYNC, resolution=2e-12, **(SCAN | {"ImgHdr_PixX": 2048, "ImgHdr_PixY": 2048})))
    cube = report.table("cube").settings
    assert cube["dbins"] == 16 and 25000 - cube["dwidth"] < cube["dbins"] * cube["dwidth"] <= 25000


def test_the_plan_of_a_file_of_lifetimes_correlates_it(make_file: Callable[..., Path], proposed: Any) -> None:
    _, report = proposed(make_file("PicoHarpT3", [(time, 1 + time % 2, 9) for time in range(5000)], tick=SYNC, resolution=4e-12))
    assert {table.kind for table in report.tables} == {"trace", "histogram", "correlation"}
    assert report.table("correlation").photons == (2500, 2500)
    assert report.table("correlation").settings == {"lags": 16, "levels": 6}
    assert report.table("trace").counts.sum() == 5000 and report.table("trace").counts.min() > 0


@pytest.mark.parametrize(("tick", "width"), [(1e-12, 501), (4e-12, 125), (25e-12, 21), (250e-12, 1), (1e-9, 1), (None, 501)])
def test_the_reach_of_two_inputs_suits_the_tick(make_file: Callable[..., Path], proposed: Any, tick: Any, width: Any) -> None:
    text, report = proposed(make_file("HydraHarp2T2", [(0, 0), (1, 1), (500, 2), (600, 3), (10**6, 1)], **({} if tick is None else {"tick": tick})))
    table = report.table("coincidence").settings
    assert table["width"] == width and table["reach"] % width == width // 2
    assert tick is None or table["reach"] * tick == pytest.approx(200e-9, rel=0.05)
    assert ("a guess" in text) == (tick is None) and "# input 0 is the sync\n" in text
    assert report.table("correlation").photons == (2, 1)  # of the inputs 1 and 2, not of the sync
    assert report.table("trace").counts.sum() == 5


def test_the_plan_of_one_input_correlates_it_with_itself(make_file: Callable[..., Path], proposed: Any) -> None:
    _, report = proposed(make_file("MultiHarpT2", [(n * 1000, 4) for n in range(100)], tick=5e-12))
    assert {table.kind for table in report.tables} == {"trace", "correlation"}
    assert report.table("correlation").photons == (100, 100)


def test_late_events_and_no_photons(make_file: Callable[..., Path], proposed: Any) -> None:
    assert str(plan_for(make_file(T3, [(3, Bits(1))]))) == "# no photons\n"
    assert "# 1 events are late: try settle" in str(plan_for(make_file(T3, [(9, 0, 1), (5, 0, 1), (9, 0, 1)])))


def test_no_plan_for_a_file_that_is_refused(tmp_path: Path) -> None:
    (tmp_path / "bad.ptu").write_text("no such file")
    with pytest.raises(BadFileError, match="not a PTU file"):
        plan_for(tmp_path / "bad.ptu")


def test_a_look_at_a_file(make_file: Callable[..., Path], monkeypatch: pytest.MonkeyPatch) -> None:
    monkeypatch.setattr("ptulab._looks.iter_events", lambda path: __import__("ptulab").iter_events(path, records=3))
    seen = look(make_file(T3, [*scan(10), (5, 3, 99), (900, 3, 98)]))
    assert seen.inputs == {0: 5, 3: 2} and seen.bits == {1: 2, 2: 2, 3: 1}
    assert (seen.first, seen.last, seen.length, seen.late, seen.deepest) == (200, 900, 700, 1, 98)
    assert [seen.marks.times(bit).tolist() for bit in BITS] == [[200, 290], [240, 330], [200], []]
    assert seen.periods_of_line(1, 2) == 40 and seen.periods_of_line(1, 1) == 90 and seen.periods_of_line(1, 4) is None


def test_lines_without_an_end_are_left_out() -> None:
    seen = look(EXAMPLES / "scan.ptu")
    assert seen.periods_of_line(1, 3) == 300 * 64
    seen.marks = Marks()
    seen.marks.take(np.array([0, 100, 140]), np.array([1, 1, 2], dtype=np.uint8))
    assert seen.periods_of_line(1, 2) == 40


def test_markers_are_kept_in_little_memory() -> None:
    """Of each bit the first times, and how many come when in all; some of the pieces have no marker."""
    draws, marks = np.random.default_rng(2), Marks()
    times, bits = np.cumsum(draws.integers(0, 90, 600_000)), draws.choice(np.array([1, 2, 3, 8], np.uint8), 600_000)
    for begin in range(0, 600_000, 50_000):
        marks.take(times[begin : begin + 50_000], bits[begin : begin + 50_000])
        marks.take(times[:0], bits[:0])
    assert marks.width * BINS // 2 <= times[-1] < marks.width * BINS
    for bit in BITS:
        some = times[bits & (1 << (bit - 1)) != 0]
        assert marks.counts[bit] == len(some) and marks.trace[bit - 1].tolist() == np.bincount(some // marks.width, minlength=BINS).tolist()
        assert marks.times(bit).tolist() == some[:KEPT].tolist()
    assert marks.counts[1] > 2 * KEPT and marks.counts[3] == 0


def test_bins_of_pixels_lie_within_the_sync_period(make_file: Callable[..., Path], proposed: Any) -> None:
    """The period has 1,562.5, 255, 100 or 62.5 ticks; less than a bin of it is left over."""
    for resolution, bins in ((32e-12, (13, 120)), (SYNC / 255, (2, 127)), (SYNC / 100, (1, 100)), (8e-10, (1, 62))):
        _, report = proposed(make_file(T3, scan(1), tick=SYNC, resolution=resolution, **SCAN))
        assert tuple(report.table("cube").settings[key] for key in ("dwidth", "dbins")) == bins


GROUP = "group = [{ inputs = [0] }]\n"


@pytest.mark.parametrize(
    ("plan", "part", "key", "said"),
    [
        ("group = [{ inputs = [0, 7] }]", "group 1", "inputs", "input 7 doesn't occur in the file; these do: 0"),
        (GROUP + "image = [{ group = 1, width = 4, height = 2, dwell = 32, line = 4 }]", "image 1", "line", "marker bit doesn't occur"),
        (GROUP + "image = [{ group = 1, width = 2, height = 2, dwell = 32, line = 1 }]", "image 1", "dwell", "3 of 5 photons have no place"),
        (GROUP + "startstop = [{ start = 1, stop = 1, width = 1, bins = 1 }]", "startstop 1", "startstop", "doesn't suit T3"),
        (GROUP + "histogram = [{ group = 1, width = 1, bins = 7 }]", "histogram 1", "bins", "5 of 5 photons are past the last bin"),
        (GROUP + "trace = [{ group = 1, width = 1, bins = 9, origin = 205 }]", "trace 1", "bins", "4 of 5 photons come behind"),
        (GROUP + "trace = [{ group = 1, width = 900, bins = 9, origin = 205 }]", "trace 1", "origin", "1 of 5 photons come before"),
        (GROUP + "trace = [{ group = 1, width = 1, bins = 1, origin = 9999 }]", "trace 1", "origin", "behind the last event, at 506"),
        (GROUP + "correlation = [{ first = 1, second = 1, lags = 16, levels = 9 }]", "correlation 1", "levels", "up to 4,096, and the file is only 306"),
        ("version = 2\nperiod = 9\nshift = [{ input = 5, shift = 1 }]\n" + GROUP, "shift 1", "input", "input 5 doesn't occur"),
    ],
)
def test_what_does_not_go_with_a_file(make_file: Callable[..., Path], make_plan: Callable[..., Path], program: str, plan: Any, part: Any, key: Any, said: Any) -> None:
    found = check_plan(make_plan(plan), make_file(T3, scan(32), tick=SYNC), program=program)
    assert (part, key) in [(one.part, one.key) for one in found]
    assert any(said in str(one) for one in found if one.key == key), list(map(str, found))
    assert [one.refused for one in found if one.key == "startstop"] == ([True] if part == "startstop 1" else [])


def test_gates_want_dtimes(make_file: Callable[..., Path], make_plan: Callable[..., Path], ptu: Callable[..., Any]) -> None:
    path = make_file("HydraHarp2T2", [(1, 1)])
    plan = make_plan("group = [{ inputs = [1], gate = [0, 5] }]")
    assert ptu("run", plan, path).returncode == 9
    assert [(str(one), one.refused) for one in check_plan(plan, path)] == [
        ("group 1: a gate doesn't suit T2, where photons have no dtime", True)
    ]


@pytest.mark.parametrize(("reach", "width", "keys"), [(10, 3, []), (10, 4, ["reach", "width"]), (11, 3, ["reach"]), (4, 9, [])])
def test_cells_of_coincidences(make_plan: Callable[..., Path], reach: Any, width: Any, keys: Any) -> None:
    plan = make_plan(f"group = [{{ inputs = [1] }}]\ncoincidence = [{{ first = 1, second = 1, reach = {reach}, width = {width} }}]")
    found = check_plan(plan)
    assert [one.key for one in found] == keys and not any(one.refused for one in found)
    for one in found:
        better = dict(part.split(" = ") for part in str(one).rpartition("take ")[2].split(" and "))
        again = make_plan(plan.read_text().replace(f"reach = {reach}, width = {width}", ", ".join(f"{k} = {v}" for k, v in better.items())))
        assert check_plan(again) == []
        make_plan(plan.read_text())


def test_a_plan_with_a_mark_in_front_and_late_events(make_file: Callable[..., Path], make_plan: Callable[..., Path], program: str) -> None:
    path = make_file(T3, [(9, 0, 1), (5, 0, 1), (9, 0, 1)])
    plan = make_plan("")
    plan.write_bytes(b"\xef\xbb\xbf" + GROUP.encode())
    assert [str(one) for one in check_plan(plan, path, program=program)] == ["the file: 1 events are late, and in no table: try settle in version 2"]
    assert check_plan(plan.read_bytes()) == []
    plan.write_text(GROUP + 'order = "stop"\n')
    (refused,) = check_plan(plan, path, program=program)
    assert refused.refused and "goes back from 9 to 5" in str(refused)


def test_a_check_without_a_program_says_so(make_file: Callable[..., Path], make_plan: Callable[..., Path], tmp_path: Path) -> None:
    (warning,) = check_plan(make_plan(GROUP), make_file(T3, [(9, 0, 1)]), program=tmp_path / "none")
    assert "weren't counted" in str(warning) and not warning.refused


def test_the_proposed_plan_is_a_document() -> None:
    assert read_plan(plan_for(EXAMPLES / "scan.ptu"))["group"] == [{"inputs": [0]}]
    assert made.CODES["HydraHarp2T3"] == 0x01010304
