import dataclasses
import operator
from collections.abc import Callable, Iterable
from fractions import Fraction
from pathlib import Path
from typing import Any

import made
import numpy as np
import pytest
import random_events
from conftest import EXAMPLES
from hypothesis import given, settings
from hypothesis import strategies as st

import ptulab
from ptulab import groups
from ptulab.groups import Group, photons_of, shifted
from ptulab.antibunching import coincidences
from ptulab.scans import Cube, Image, Scan, _likeness, best_phase, cube, image, lines_of, scan_of
from ptulab.segments import window

BITS = st.one_of(st.none(), st.integers(1, 4))


@pytest.fixture(scope="session")
def folder(tmp_path_factory: pytest.TempPathFactory) -> Path:
    return tmp_path_factory.mktemp("scans")


def counted(program: str, folder: Path, plan: str, events: Iterable[tuple[int, ...]]) -> tuple[ptulab.Report, ptulab.Events]:
    """What ptu counts by a plan, and the events, of a file of these events."""
    (folder / "plan.toml").write_text("version = 2\n" + plan)
    path = made.write(folder / "data.ptu", "HydraHarp2T3", events, tick=1e-8, resolution=1e-11)
    return ptulab.run(folder / "plan.toml", path, program=program), ptulab.read_events(path)


def keys(width: int, height: int, dwell: int, line: int, frame: int | None, stop: int | None, serpentine: Any) -> str:
    """The keys of an image of a plan."""
    said = {"group": 1, "width": width, "height": height, "dwell": dwell, "line": line, "frame": frame, "stop": stop}
    told = [f"{key} = {value}" for key, value in said.items() if value is not None]
    return ", ".join([*told, f"serpentine = {str(serpentine).lower()}"])


@settings(max_examples=40, deadline=None)
@given(
    random_events.scans, st.integers(1, 6), st.integers(1, 4), st.integers(1, 9), st.integers(1, 4), BITS, BITS, st.booleans()
)
def test_whole_pixel_times_are_counted_as_ptu_does(program: str, folder: Path, events: Any, width: int, height: int, dwell: int, line: int, frame: int | None, stop: int | None, serpentine: Any) -> None:
    said = keys(width, height, dwell, line, frame, stop, serpentine)
    plan = f"group = [{{ inputs = [0, 2], gates = [[0, 9], [12, 40]] }}]\nimage = [{{ {said} }}]\n"
    plan += f"cube = [{{ {said}, dwidth = 7, dbins = 4 }}]\n"
    report, read = counted(program, folder, plan, events)
    scan = Scan(width, height, line, stop, frame, width * dwell, serpentine)
    group = Group((0, 2), ((0, 9), (12, 40)))
    ours, table = image(read, scan, group), report.table("image")
    assert (ours.counts == table.counts).all() and ours.outside == table.rest["outside"]
    deep, table = cube(read, scan, 7, 4, group), report.table("cube")
    assert (deep.counts == table.counts).all() and (deep.ticks == table.ticks).all()
    assert {"outside": deep.outside, "over": deep.over} == table.rest
    framed = image(read, Scan(width, height, line, stop, frame, width * dwell, serpentine, frames=True), group)
    assert (framed.counts.sum(axis=0) == report.table("image").counts).all() and framed.outside == table.rest["outside"]


def has(event: Any, bit: int | None) -> Any:
    return bit is not None and isinstance(event[1], made.Bits) and event[1] >> bit - 1 & 1


def place(events: Any, at: int, scan: Scan) -> tuple[int, int, int] | None:
    """The frame, row and column of a photon, by looking at all markers before it, or None."""
    line = max((i for i in range(at) if has(events[i], scan.line)), default=None)
    if line is None or any(has(event, scan.stop) for event in events[line + 1 : at]):
        return None
    number = sum(bool(has(event, scan.line)) for event in events[:line])
    frame, row = number // scan.height, number % scan.height
    if scan.frame:
        begin = max((i for i in range(line + 1) if has(events[i], scan.frame)), default=None)
        if begin is None:
            return None
        frame = sum(bool(has(event, scan.frame)) for event in events[: line + 1]) - 1
        row = sum(bool(has(event, scan.line)) for event in events[begin:line])
    start, time = events[line][0], scan.time
    if time is None:
        end = next((event for event in events[line + 1 :] if has(event, scan.stop) or has(event, scan.line)), None)
        if end is None or not has(end, scan.stop) or end[0] == start:
            return None
        time = end[0] - start
    back = scan.serpentine and (number if scan.serpentine == "lines" else row) % 2 == 1
    since = Fraction(events[at][0] - start) - (Fraction(scan.phase) if back else 0)
    column = since * scan.width // Fraction(str(time))
    if not 0 <= column < scan.width or row >= scan.height:
        return None
    return frame, row, int(scan.width - 1 - column if back else column)


@settings(max_examples=50, deadline=None)
@given(
    random_events.scans.map(lambda events: sorted(events, key=operator.itemgetter(0))),
    st.integers(1, 4),
    BITS,
    st.integers(1, 4),
    st.one_of(st.none(), st.sampled_from([4.2, 8.4, 33.75, 0.5, 60])),
    st.sampled_from([False, True, "lines"]),
    st.sampled_from([0, 1.5, -2.25, 3]),
)
def test_every_photon_is_in_its_place(folder: Path, events: Any, line: int, frame: int | None, stop: int | None, time: float | None, serpentine: Any, phase: float) -> None:
    scan = Scan(5, 3, line, stop, frame, time, serpentine, phase, frames=True)
    path = made.write(folder / "fractions.ptu", "HydraHarp2T3", events)
    photons = [at for at, event in enumerate(events) if not isinstance(event[1], made.Bits)]
    places = [place(events, at, scan) for at in photons]
    ours = image(path, scan)
    expected = np.zeros(ours.counts.shape, np.int64)
    for one in places:
        if one is not None:
            expected[one] += 1
    assert (ours.counts == expected).all() and ours.outside == places.count(None)


def test_pixels_of_no_whole_time_are_not_displaced(make_file: Callable[..., Path]) -> None:
    """512 pixels of 8.4 periods, a photon in the middle of each: one in each column, and displaced by a whole time of 8."""
    photons = [(100 + int(8.4 * (column + 0.5)), 0) for column in range(512)]
    path = make_file("HydraHarp2T3", [(100, made.Bits(1)), *photons, (100 + 4301, made.Bits(2))])
    assert (image(path, Scan(512, 1, 1, stop=2)).counts == 1).all()
    assert (image(path, Scan(512, 1, 1, time=4300.8)).counts == 1).all()
    displaced = image(path, Scan(512, 1, 1, time=8 * 512))
    assert displaced.outside == 24 and displaced.counts.min() == 0


def test_columns_of_the_scan_stay_in_place(program: str) -> None:
    """The example's scan, by its markers' own time of a line: the sum of each row is that of ptu's image."""
    report = ptulab.run(EXAMPLES / "scan.toml", EXAMPLES / "scan.ptu", program=program)
    events = ptulab.read_events(EXAMPLES / "scan.ptu")
    ours = image(events, Scan(64, 64, 1, stop=3, frame=2, frames=True))
    assert ours.counts.shape == (2, 64, 64) and ours.global_seconds == events.header.global_seconds
    assert (ours.counts.sum(axis=0) == report.table("image").counts).all()


def two_ways(late: int) -> Any:
    """Three frames of five lines to and fro of 40 periods, with two bright places; those backwards are late."""
    events, pixels = [], 10
    for number in range(15):
        start = 100 * number
        shift = late if number % 2 else 0
        bright = [column if number % 2 == 0 else pixels - 1 - column for column in (2, 3, 7)]
        events += [(start, made.Bits(1)), *((start + 4 * column + 1 + shift, 0, 5) for column in sorted(bright)), (start + 40 + late, made.Bits(2))]
    return events


def test_a_phase_of_both_directions_is_found(make_file: Callable[..., Path]) -> None:
    path = make_file("HydraHarp2T3", two_ways(6))
    scan = Scan(10, 5, 1, stop=2, time=40, serpentine="lines")
    phase = best_phase(path, scan, np.arange(0, 12.0))
    assert 3 < phase <= 7
    counts = image(path, Scan(10, 5, 1, stop=2, time=40, serpentine="lines", phase=phase)).counts
    assert (counts == np.array([0, 0, 3, 3, 0, 0, 0, 3, 0, 0])).all()
    with pytest.raises(ValueError, match="both directions"):
        best_phase(path, Scan(10, 5, 1, time=40), np.arange(3.0))


HEADER = {"ImgHdr_PixX": 512, "ImgHdr_PixY": 256, "ImgHdr_LineStart": 1, "ImgHdr_LineStop": 2, "ImgHdr_Frame": 3, "ImgHdr_BiDirect": True}


def test_the_header_tells_of_a_scan(make_file: Callable[..., Path]) -> None:
    def told(tags: Any, **other: Any) -> Any:
        return scan_of(ptulab.read_header(make_file("HydraHarp2T3", [], tick=5e-8, **tags)), **other)

    assert told(HEADER) == Scan(512, 256, 1, stop=2, frame=3, serpentine=True)
    assert told(HEADER, phase=3.5, frames=True).phase == 3.5 and told(HEADER, height=4).height == 4
    less = {"ImgHdr_PixX": 512, "ImgHdr_PixY": 256, "ImgHdr_LineStart": 1, "ImgHdr_LineStop": -1}
    assert told(less | {"ImgHdr_TimePerPixel": 8.4 * 5e-5}).time == pytest.approx(4300.8)
    assert told(less, time=99) == Scan(512, 256, 1, time=99)
    assert told(HEADER | {"ImgHdr_Frame": 0, "ImgHdr_LineStop": 0}, time=99) == Scan(512, 256, 1, time=99, serpentine=True)
    with pytest.raises(ValueError, match="the time of a line"):
        told(less)
    for tag in ("PixX", "PixY", "LineStart"):
        with pytest.raises(ptulab.NotKnownError, match=f"ImgHdr_{tag}"):
            told({name: value for name, value in HEADER.items() if name != f"ImgHdr_{tag}"})


def test_lines_tell_their_markers(make_file: Callable[..., Path]) -> None:
    path = make_file("HydraHarp2T3", [(5, made.Bits(1)), (10, made.Bits(3)), (30, made.Bits(2)), (40, made.Bits(1)), (41, 0)])
    lines = lines_of(ptulab.read_events(path), Scan(4, 2, 1, stop=2))
    assert lines["start"].tolist() == [5, 10, 40] and lines["length"].tolist() == [5, 20, 0]
    assert lines["row"].tolist() == [0, 1, 0] and lines["frame"].tolist() == [0, 0, 1]


def test_empty_files_give_empty_images(make_file: Callable[..., Path]) -> None:
    path = make_file("HydraHarp2T3", [])
    assert image(path, Scan(3, 2, 1, time=9)).counts.sum() == 0
    assert cube(path, Scan(3, 2, 1, time=9, frames=True), 5, 4).counts.shape == (0, 2, 3, 4)
    assert len(photons_of(path)) == 0 and len(photons_of(ptulab.read_events(path), 1)) == 0


def test_settings_that_no_scan_has_are_refused(make_file: Callable[..., Path]) -> None:
    good = Scan(4, 4, 1, time=9)
    bad: list[dict[str, Any]] = [{"width": 0}, {"line": 5}, {"stop": 0}, {"time": None}, {"time": -1.0}, {"time": float("nan")}, {"phase": float("inf")}]
    for words in bad:
        with pytest.raises(ValueError):
            dataclasses.replace(good, **words)
    path = make_file("HydraHarp2T3", [(5, made.Bits(1)), (7, 0)])
    with pytest.raises(ValueError, match="too long"):
        image(path, Scan(4, 4, 1, time=2.0**62))
    with pytest.raises(ValueError, match="bins"):
        cube(path, Scan(4, 4, 1, time=9), 0, 4)
    inputs: list[int | list[int]] = [65, [-1], [0, 300]]
    for wrong in inputs:
        with pytest.raises(ValueError, match="inputs are 0 to 64"):
            image(path, Scan(4, 4, 1, time=9), wrong)
    with pytest.raises(ValueError, match="a gate from 5 to 5"):
        Group(gates=[(5, 5)])


def test_the_image_of_a_cube(make_file: Callable[..., Path]) -> None:
    """All photons of each pixel within the bins, of each frame by itself; one whose dtime is past them is in no pixel."""
    first = [(5, made.Bits(1)), (5, 0, 0), (6, 0, 7), (12, 0, 9), (13, 0, 10)]
    path = make_file("HydraHarp2T3", [*first, (20, made.Bits(1)), (24, 0, 4), (30, made.Bits(1)), (36, 0, 5)])
    scan = Scan(3, 2, 1, time=9)
    whole, framed = (cube(path, dataclasses.replace(scan, frames=some), 5, 2) for some in (False, True))
    assert whole.image.tolist() == [[2, 0, 2], [0, 1, 0]] and whole.over == framed.over == 1
    assert framed.image.tolist() == [[[2, 0, 1], [0, 1, 0]], [[0, 0, 1], [0, 0, 0]]]


def test_shifts_are_those_of_a_plan(program: str, folder: Path) -> None:
    shown: list[tuple[int, ...]] = [(1, 0, 3), (2, 1, 90), (3, 1, 4), (3, made.Bits(1)), (4, 2, 99)]
    plan = "period = 100\nshift = [{ input = 1, shift = 85 }]\ngroup = [{ inputs = [0, 1, 2] }]\n"
    report, events = counted(program, folder, plan + "histogram = [{ group = 1, width = 1, bins = 100 }]\n", shown)
    dtimes = photons_of(shifted(events.array, {1: 85}, 100))["dtime"]
    assert (np.bincount(dtimes, minlength=100) == report.table("histogram").counts).all()
    for period in (0, 32_769, 4_000_000_000):
        with pytest.raises(ValueError, match="1 to 32768"):
            shifted(events.array, {1: 3_000_000_000}, period)
    assert (shifted(events, {1: -1}, 32_768).dtimes[1], shifted(events, {1: 32_767}, 32_768).dtimes[1]) == (89, 89)


@settings(max_examples=20, deadline=None)
@given(random_events.scans, st.integers(1, 16), st.booleans())
def test_pieces_of_a_file_are_put_together(folder: Path, events: Any, piece: int, by_path: bool) -> None:
    """Images, pairs, windows and groups are the same however the file falls into pieces."""
    path = made.write(folder / "pieces.ptu", "HydraHarp2T3", events, tick=1e-8, resolution=1e-11)
    read = ptulab.read_events(path)
    scan = Scan(5, 4, 1, stop=2, frame=3, serpentine=True, phase=1.5, frames=True)

    def counted(source: Any) -> Any:
        pairs, found = coincidences(source, 0, (1, 2), 9), cube(source, scan, 9, 3, (0, 1))
        whole = [image(source, scan).counts, image(source, scan).outside, found.counts, found.outside, found.over]
        seconds = [image(source, scan).global_seconds, found.seconds, pairs.seconds]
        return [*whole, *seconds, pairs.counts, pairs.length, photons_of(source, 1), window(source, 20, 300), lines_of(source, scan)]

    with pytest.MonkeyPatch.context() as patch:
        patch.setattr(groups, "PIECE", piece)
        parts = counted(path if by_path else read)
    assert all(np.array_equal(one, other) for one, other in zip(parts, counted(read), strict=True))
    assert parts[5] == 1e-8 and parts[6][1] == pytest.approx(9e-11) and parts[7][-1] == pytest.approx(9e-8)


# What leaves a picture empty is said.


@pytest.mark.parametrize(
    ("words", "said"),
    [
        ({"frame": 3}, "bit 3, which begins a frame"),
        ({"line": 4}, "bit 4, which begins a line"),
        ({"time": None, "stop": 4}, "bit 4, which ends it"),
        ({"time": 1}, "none comes within a line"),
        ({"time": 1, "frame": 2}, "none comes within a line"),
    ],
)
def test_a_picture_without_photons_says_why(make_file: Callable[..., Path], words: Any, said: str, caplog: pytest.LogCaptureFixture) -> None:
    path = make_file("HydraHarp2T3", [(2, made.Bits(2)), (5, made.Bits(1)), (9, 0, 3), (12, 0, 3), (40, made.Bits(1)), (44, 0, 1)])
    scan = Scan(**({"width": 4, "height": 2, "line": 1, "time": 20} | words))
    calls: list[Callable[[], Image | Cube]] = [lambda: image(path, scan), lambda: cube(path, scan, 1, 2)]
    for call in calls:
        caplog.clear()
        assert call().outside == 3 and len(caplog.messages) == 1
        assert caplog.messages[0].startswith("all 3 photons are outside of the image: ") and said in caplog.messages[0]


def test_pictures_with_a_photon_and_of_none_say_nothing(make_file: Callable[..., Path], caplog: pytest.LogCaptureFixture) -> None:
    path = make_file("HydraHarp2T3", [(5, made.Bits(1)), (9, 0, 3), (50, 0, 3)])
    scan = Scan(4, 2, 1, time=20)
    assert image(path, scan).outside == 1 and cube(path, scan, 1, 2).over == 1
    assert image(path, Scan(4, 2, 1, time=20, frame=3), 2).outside == 0 and not caplog.messages


def test_a_sine_that_the_header_tells_of_is_said(make_file: Callable[..., Path], caplog: pytest.LogCaptureFixture) -> None:
    header = ptulab.read_header(make_file("HydraHarp2T3", [], tick=5e-8, **HEADER, ImgHdr_SinCorrection=80))
    assert scan_of(header) == Scan(512, 256, 1, stop=2, frame=3, serpentine=True)
    assert "ImgHdr_SinCorrection = 80" in caplog.messages[0] and caplog.messages[0].endswith("aren't straightened")
    caplog.clear()
    scan_of(ptulab.read_header(make_file("HydraHarp2T3", [], tick=5e-8, **HEADER, ImgHdr_SinCorrection=0)))
    assert not caplog.messages


def test_lines_of_no_time_are_refused(make_file: Callable[..., Path]) -> None:
    """A time that its nearest fraction makes 0 left the image empty."""
    path = make_file("HydraHarp2T3", [(5, made.Bits(1)), (5, 0, 3), (6, 0, 3)])
    times: list[float | Fraction] = [4e-7, 9e-7, Fraction(1, 1_000_001)]
    for time in times:
        with pytest.raises(ValueError, match="a line of"):
            Scan(4, 4, 1, time=time)
    assert image(path, Scan(4, 4, 1, time=1e-6)).counts.sum() == 1
    with pytest.raises(ValueError, match="too short for a phase"):
        image(path, Scan(2048, 4, 1, time=0.25, phase=1e12 + 0.001))
    assert Scan(4, 4, 1, time=1e-6).time == 1e-6


def rows_of(*times: int) -> Any:
    """A marker of bit 1 at 5, and photons at these times, of T3."""
    events = np.zeros(1 + len(times), ptulab.EVENT)
    events["record"], events["time"] = np.arange(1, len(events) + 1), [5, *times]
    events["marker"][0] = events["number"][0] = 1
    return events


def test_the_longest_line_that_columns_have() -> None:
    events = rows_of(9, 2**62)
    assert image(events, Scan(1, 1, 1, time=2**62 - 2)).counts.tolist() == [[2]]
    with pytest.raises(ValueError, match="too long"):
        image(events, Scan(1, 1, 1, time=2**62 - 1))


def test_photons_far_behind_a_line_of_a_fine_time_are_outside() -> None:
    """Their columns would have more than 64 bits."""
    ours = image(rows_of(5, 2**60, 2**62 - 1), Scan(40, 1, 1, time=Fraction(333_333, 1_000_000)))
    assert ours.counts.sum() == ours.counts[0, 0] == 1 and ours.outside == 2


def test_photons_far_before_a_line_are_outside() -> None:
    """As before a marker of T2, which has no order: 1000 times the time between has more than 64 bits."""
    events = rows_of(0, 2**61 + 5)
    events["time"][0] = 2**61
    ours = image(events, Scan(4, 1, 1, time=8, serpentine=True, phase=0.001))
    assert ours.counts.tolist() == [[0, 0, 1, 0]] and ours.outside == 1


@settings(max_examples=50, deadline=None)
@given(st.integers(2, 5), st.integers(0, 2**32))
def test_rows_are_alike_by_the_angle_between_them(rows: int, seed: int) -> None:
    counts = np.random.default_rng(seed).integers(0, 9, (rows, 4))
    above, below = counts[:-1].ravel().astype(float), counts[1:].ravel().astype(float)
    if above.any() and below.any():
        assert _likeness(counts) == pytest.approx(above @ below / np.linalg.norm(above) / np.linalg.norm(below))
    assert _likeness(np.tile(counts[:1] + 1, (rows, 1))) == pytest.approx(1) and _likeness(0 * counts) == 0
