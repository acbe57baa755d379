"""Photons of a PicoHarp T3 file, and cells of its correlations, beside what others wrote: the decoder of PicoHarp T3 records
and the correlation after Wahl and others that FCS_viewer has, as Debian's pycorrfit brings them."""

import importlib
import struct
import sys
from pathlib import Path
from typing import Any

import made
import numpy as np
import pytest

import ptulab
from ptulab.segments import correlation

SCRIPTS = Path("/usr/lib/pycorrfit/pycorrfit/readfiles/read_pt3_scripts")
LEVELS, LAGS = 5, 16  # of theirs, whose cascade j has the lags LAGS (1 - 2^-j) + 1 to LAGS (2 - 2^-j) of 2^j periods
PLAN = f"""
group = [{{ inputs = [1] }}, {{ inputs = [2] }}]
correlation = [
    {{ first = 1, second = 1, lags = {2 * LAGS}, levels = {LEVELS} }},
    {{ first = 1, second = 2, lags = {2 * LAGS}, levels = {LEVELS} }},
    {{ first = 2, second = 1, lags = {2 * LAGS}, levels = {LEVELS} }},
]
"""


@pytest.fixture
def theirs(monkeypatch: pytest.MonkeyPatch) -> Any:
    """Their modules by name."""
    if not SCRIPTS.is_dir():
        pytest.skip("there is no PyCorrFit: install Debian's pycorrfit")
    monkeypatch.syspath_prepend(str(SCRIPTS.parent))
    yield lambda name: importlib.import_module(f"{SCRIPTS.name}.{name}")
    for name in [name for name in sys.modules if name.startswith(SCRIPTS.name)]:
        del sys.modules[name]


@pytest.fixture
def file(tmp_path: Path) -> Path:
    """Photons of four inputs, often some in one sync period, in bursts and with gaps longer than a wrap, and markers."""
    draws = np.random.default_rng(12)
    steps = np.where(draws.random(6000) < 0.999, draws.integers(0, 4, 6000), 90_000)
    times = np.cumsum(steps)
    inputs, dtimes = draws.choice([1, 1, 2, 2, 3, 4], 6000), draws.integers(0, 4096, 6000)
    events: list[tuple[int, ...]] = []
    for at, (time, number, dtime) in enumerate(zip(times.tolist(), inputs.tolist(), dtimes.tolist())):
        events += [(time, made.Bits(1 + at % 15))] if at % 50 == 7 else []
        events.append((time, number, dtime))
    return made.write(tmp_path / "some.ptu", "PicoHarpT3", events, tick=1e-9, resolution=4e-12)


def as_pt3(path: Path) -> Path:
    """The same records behind the header of an older file (.pt3) whose sync periods last 1 ns, and whose delays take no time,
    so that the decoder's times are numbers of sync periods."""
    header = ptulab.read_header(path)
    records = path.read_bytes()[header.length_bytes :]
    numbers = bytes(4 * (18 + 16 + 9 + 4)) + bytes(20 + 16 + 8) + bytes(4 * (2 + 4)) + struct.pack("f", 0.0) + bytes(4 * (2 + 24 + 3))
    pt3 = path.with_suffix(".pt3")
    pt3.write_bytes(bytes(16 + 6 + 18 + 12 + 18 + 2 + 256) + numbers + struct.pack("6i", 10**9, 0, 0, 0, header.records, 0) + records)
    return pt3


def test_photons_and_markers_are_those_of_their_decoder(theirs: Any, file: Path) -> None:
    channels, times, dtimes, _ = theirs("import_methods").pt3import(as_pt3(file))
    events = ptulab.read_events(file)
    markers = events["marker"]
    records = events.records - 1
    assert len(events) == 6120 and markers.sum() == 120 and len(channels) == ptulab.read_header(file).records > len(events) + 3
    assert np.array_equal(channels[records], np.where(markers, 15, events.numbers))
    assert np.array_equal(times[records], events.times) and np.array_equal(dtimes[records], events.dtimes)
    assert set(np.delete(channels, records).tolist()) == {15}  # the wraps


class Numpy:
    """NumPy as the script means it: ``unique`` gives the last place of each value, and ``bool`` is there."""

    bool = np.bool_

    def __getattr__(self, name: str) -> Any:
        return getattr(np, name)

    @staticmethod
    def unique(values: Any, places: int) -> Any:
        found, first = np.unique(values[::-1], return_index=True)
        return found, len(values) - 1 - first


def their_pairs(module: Any, times: Any, numbers: Any) -> Any:
    """Their pairs, (cascades, lags, 2, 2): of a photon of one input, and another one that is later.

    Halving rounds upwards there, so the times are mirrored. The last time takes part in no pair there, so one without photons
    is put behind the others. What is divided by, and the correction for the length, is taken off again.
    """
    whole = (int(times.max()) // (1 << LEVELS) + 2) << LEVELS
    mirrored = np.append((whole - times)[::-1], 10 * whole).astype(float)
    photons = np.vstack([np.stack([numbers == 1, numbers == 2], axis=1)[::-1], [False, False]]).astype(float)
    pairs, delays = module.tttr2xfcs(mirrored, photons, 0, LEVELS, LAGS)
    delays, length = np.rint(delays.ravel() * 1e6), mirrored.max() - mirrored.min()
    pairs = pairs * ((length - delays) / length)[:, None, None] * np.repeat(2.0 ** np.arange(LEVELS), LAGS)[:, None, None]
    assert len(delays) == LEVELS * LAGS and np.abs(pairs - np.rint(pairs)).max() < 1e-6
    return np.rint(pairs).astype(np.int64).reshape(LEVELS, LAGS, 2, 2)


def test_cells_of_correlations_are_theirs(theirs: Any, file: Path, program: str, monkeypatch: pytest.MonkeyPatch) -> None:
    """All cells that both have, of the program and of the package: equal to the last pair."""
    module = theirs("correlation_methods")
    monkeypatch.setattr(module, "np", Numpy())
    photons = ptulab.read_events(file).photons
    photons = photons[photons.numbers < 3]
    pairs = their_pairs(module, photons.times, photons.numbers)
    (file.parent / "plan.toml").write_text(PLAN)
    report = ptulab.run(file.parent / "plan.toml", file, program=program)
    compared = 0
    for number, (first, second) in enumerate(((1, 1), (1, 2), (2, 1)), 1):
        table = report.table("correlation", number)
        ours = correlation(photons.times, photons.numbers == first, photons.numbers == second, lags=2 * LAGS, levels=LEVELS)
        assert np.array_equal(ours, table.counts)
        assert table.levels is not None
        for level in range(LEVELS):
            lags = LAGS - (LAGS >> level) + 1 + np.arange(LAGS)
            cells = {int(tick) >> level: int(count) for tick, count in zip(table.ticks[table.levels == level], ours[table.levels == level])}
            both = [(cells[lag], int(pairs[level, at, first - 1, second - 1])) for at, lag in enumerate(lags.tolist()) if lag in cells]
            assert [one for one, _ in both] == [other for _, other in both] and sum(one for one, _ in both) > 1000
            compared += len(both)
    assert compared == 3 * sum(16 if level == 0 else 16 - (16 >> level) for level in range(LEVELS))
