"""Results as values: differences of counts, comparisons, places in a set, and ``sum``."""

import copy
from collections.abc import Callable
from pathlib import Path
from typing import Any

import numpy as np
import pytest
from conftest import EXAMPLES

import ptulab
from ptulab import antibunching, bursts, fits, scans, segments

PLAN = """
version = 2
group = [{ inputs = [1] }]
histogram = [{ group = 1, width = 1, bins = 8 }]
trace = [{ group = 1, width = 4, bins = 4 }]
"""


@pytest.fixture
def counted(make_file: Callable[..., Path], make_plan: Callable[..., Path], program: str) -> Callable[..., ptulab.Report]:
    """The report of ``PLAN`` over so many photons of one dtime."""

    def report(photons: int, dtime: int = 3) -> ptulab.Report:
        path = make_file("MultiHarpT3", [(time, 1, dtime) for time in range(photons)], tick=1e-7, resolution=1e-12)
        return ptulab.run(make_plan(PLAN), path, program=program)

    return report


def test_a_difference_of_counts_can_be_below_zero(counted: Callable[..., ptulab.Report]) -> None:
    """A signal less its background, of tables and of what the package itself counts."""
    signal, dark = counted(2), counted(5)
    for number, table in enumerate(signal.tables):
        assert table.counts.dtype == np.int64
        assert (table.counts - dark.tables[number].counts).sum() == -3
    photons = made_events(5)
    scan = scans.Scan(2, 2, line=1, time=4)
    ours: list[Any] = [
        scans.image(photons, scan),
        scans.cube(photons, scan, 4, 4),
        antibunching.coincidences(photons, 1, 1, 2),
        antibunching.start_stops(photons, 1, 1, 1, 4),
    ]
    for one in ours:
        assert one.counts.dtype == np.int64
        assert np.all((one.counts - one.counts.max() - 1) < 0)
    assert ours[1].image.dtype == np.int64


def made_events(photons: int, dtime: int = 3) -> ptulab.Events:
    path = EXAMPLES / "scan.ptu"
    return ptulab.read_events(path, start=dtime, stop=dtime + photons)


def different() -> list[tuple[Callable[[], Any], Any]]:
    """Of each kind of result how one is made, and another one of the same kind."""
    photons, more = made_events(600), made_events(700)
    scan = scans.Scan(2, 2, line=1, time=4)
    axis, tail = np.arange(12.0), np.round(1000 * np.exp(-np.arange(12.0) / 3))
    counts = np.array([4, 0, 7])
    return [
        (lambda: made_events(600), more),
        (lambda: ptulab.read_header(EXAMPLES / "scan.ptu"), ptulab.read_header(EXAMPLES / "bench.ptu")),
        (lambda: scans.image(photons, scan), scans.image(more, scan)),
        (lambda: scans.cube(photons, scan, 4, 4), scans.cube(more, scan, 4, 4)),
        (lambda: antibunching.coincidences(photons, 0, 0, 3), antibunching.coincidences(more, 0, 0, 3)),
        (lambda: antibunching.start_stops(photons, 0, 0, 1, 4), antibunching.start_stops(more, 0, 0, 1, 4)),
        (lambda: fits.fit_tail(tail, axis, 0.0), fits.fit_tail(tail + 1, axis, 0.0)),
        (lambda: segments.correlation_by_segments(photons, 0, 0, segments=2, lags=4, levels=2),
         segments.correlation_by_segments(more, 0, 0, segments=2, lags=4, levels=2)),
        (lambda: bursts.fret(counts, counts), bursts.fret(counts, counts + 1)),
        (lambda: ptulab.read_trace(b"trace 1 origin 0 width 5\n0 3\n4 1\n"), ptulab.read_trace(b"trace 1 origin 0 width 5\n0 3\n4 2\n")),
    ]


@pytest.mark.parametrize("place", range(10))
def test_results_are_compared_by_their_values(place: int) -> None:
    make, other = different()[place]
    one, same = make(), make()
    assert one == same and one is not same and hash(one) == hash(same)
    assert one != other and one != 3 and not one == "events"
    assert {one, same, other} == {one, other} and len({one, same, other}) == 2


def test_reports_are_compared_by_their_values(counted: Callable[..., ptulab.Report]) -> None:
    one, same, moved = counted(4), counted(4), counted(4, dtime=5)
    assert one == same and one.tables == same.tables and hash(one) == hash(same)
    assert one != moved and one.tables[0] != moved.tables[0] and one.tables[1] == moved.tables[1]
    assert {one: "first"}[same] == "first" and len({*one.tables, *moved.tables}) == 3
    longer = copy.deepcopy(one)
    longer.tables[1].counts = longer.tables[1].counts.astype(object) + 2**63
    assert longer != one and longer == copy.deepcopy(longer)


def test_reports_are_summed_by_sum(counted: Callable[..., ptulab.Report]) -> None:
    reports = [counted(4), counted(5), counted(6)]
    whole = sum(reports)
    assert isinstance(whole, ptulab.Report) and whole == ptulab.sum_reports(reports)
    assert whole.table("histogram").counts.tolist() == [0, 0, 0, 15, 0, 0, 0, 0]
    assert [report.head.photons for report in reports] == [4, 5, 6]
    alone = sum(reports[:1])
    alone += reports[1]
    assert alone.head.photons == 9 and reports[0].table("histogram").counts.sum() == 4
    for other in (1, None, 2.5):
        with pytest.raises(TypeError):
            reports[0] + other  # type: ignore[operator]
        with pytest.raises(TypeError):
            other + reports[0]  # type: ignore[operator]


def test_pairs_past_the_numbers_of_64_bits(counted: Callable[..., ptulab.Report]) -> None:
    """They stay whole numbers, and so do their differences."""
    report = counted(3)
    report.tables[0].counts = np.full(8, 2**63 - 1, dtype=np.int64)
    whole = report + report
    assert whole.tables[0].counts.tolist() == [2**64 - 2] * 8
    assert (report.tables[0].counts - whole.tables[0].counts).tolist() == [1 - 2**63] * 8
