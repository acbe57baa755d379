"""The samples of examples/make_samples.py: what was put into them is found, and what ptu can count is counted alike."""

import subprocess
import sys
from pathlib import Path
from typing import Any

import numpy as np
import pytest
from conftest import EXAMPLES

import ptulab
from ptulab import fits, intensity, phasors
from ptulab.bursts import find_bursts, fret, fused, photons_in
from ptulab.groups import Group, photons_of
from ptulab.antibunching import coincidences, start_stops
from ptulab.scans import Scan, best_phase, cube, image
from ptulab.segments import correlation, correlation_by_segments

PERIOD, TICK, SYNC = 2000, 50e-12, 100e-9
TWO_WAYS: dict[str, Any] = {"width": 64, "height": 64, "line": 1, "frame": 2, "stop": 3, "serpentine": True}


@pytest.fixture(scope="module")
def folder(tmp_path_factory: pytest.TempPathFactory) -> Any:
    folder = tmp_path_factory.mktemp("samples")
    subprocess.run([sys.executable, EXAMPLES / "make_samples.py", folder], check=True)
    return folder


def report_of(program: str, folder: Path, name: str, plan: Any) -> Any:
    (folder / "plan.toml").write_text("version = 2\n" + plan)
    return ptulab.run(folder / "plan.toml", folder / f"{name}.ptu", program=program)


def test_the_letter_stands_still(folder: Path) -> None:
    """Rows that run backwards are late by 12.6 periods: with that phase the letter's edge is in one column."""
    phases = np.arange(0, 30, 0.7)
    assert best_phase(folder / "two_ways.ptu", Scan(**TWO_WAYS, time=64 * 8.4), phases) == pytest.approx(12.6, abs=1.5)
    found = image(folder / "two_ways.ptu", Scan(**TWO_WAYS, time=64 * 8.4, phase=12.6, frames=True))
    both = found.counts.sum(axis=0)
    rows = both[20:27].astype(float)
    assert found.counts.shape == (2, 64, 64) and rows[:, 16:24].min() > 2 * rows[:, :15].max()
    assert (np.argmax(rows > 10, axis=1) == 16).all()
    late = np.argmax(image(folder / "two_ways.ptu", Scan(**TWO_WAYS, time=64 * 8.4)).counts[20:27] > 10, axis=1)
    assert (late[0::2] == 16).all() and (late[1::2] < 16).all()


def test_lifetimes_of_the_letter(folder: Path) -> None:
    found = cube(ptulab.read_events(folder / "two_ways.ptu"), Scan(**TWO_WAYS, time=64 * 8.4, phase=12.6), 10, 200)
    means = phasors.mean_delays(found.counts, np.asarray(found.seconds), offset=5e-9, threshold=15)
    assert np.nanmean(means[10:18]) == pytest.approx(1.5e-9, rel=0.05) and np.nanmean(means[28:36]) == pytest.approx(4e-9, rel=0.05)


@pytest.mark.parametrize("dwell", [8, 9])
def test_images_and_cubes_of_whole_pixel_times(program: str, folder: Path, dwell: Any) -> None:
    keys = f"group = 1, width = 64, height = 64, dwell = {dwell}, line = 1, frame = 2, stop = 3, serpentine = true"
    plan = f"group = [{{ inputs = [0] }}]\nimage = [{{ {keys} }}]\ncube = [{{ {keys}, dwidth = 100, dbins = 12 }}]\n"
    report = report_of(program, folder, "two_ways", plan)
    scan = Scan(**TWO_WAYS, time=64 * dwell)
    ours = image(folder / "two_ways.ptu", scan)
    assert (ours.counts == report.table("image").counts).all() and ours.outside == report.table("image").rest["outside"]
    whole = cube(folder / "two_ways.ptu", scan, 100, 12)
    assert (whole.counts == report.table("cube").counts).all() and whole.over == report.table("cube").rest["over"]


def test_the_emitter_gives_single_photons_of_its_lifetime(folder: Path) -> None:
    events, response = (ptulab.read_events(folder / f"{name}.ptu") for name in ("emitter", "response"))
    ratio, error = coincidences(events, 0, 1, 10).central_ratio()
    assert abs(ratio - (1 - (200 / 210) ** 2)) < 4 * error
    decay, pulse = (np.bincount(one.photons["dtime"], minlength=PERIOD) for one in (events, response))
    fit = fits.fit_reconvolution(decay, pulse, TICK, period=SYNC)
    assert abs(fit.values["lifetime_1"] - 3.5e-9) < 4 * fit.errors["lifetime_1"] and fit.reduced == pytest.approx(1, abs=0.15)
    tail = fits.fit_tail(decay, TICK * np.arange(PERIOD), 6e-9)
    assert abs(tail.values["lifetime_1"] - 3.5e-9) < 4 * tail.errors["lifetime_1"]
    phasor = phasors.phasor(decay, np.arange(PERIOD) * TICK, 1 / SYNC, reference=complex(phasors.phasor(pulse, np.arange(PERIOD) * TICK, 1 / SYNC)))
    assert abs(phasor / (200 / 210) - phasors.phasor_of_lifetime(3.5e-9, 1 / SYNC)) < 0.01


def test_t3_correlations_of_the_emitter(program: str, folder: Path) -> None:
    groups = "group = [{ inputs = [0] }, { inputs = [1] }]\n"
    report = report_of(program, folder, "emitter", groups + "correlation = [{ first = 1, second = 2, lags = 16, levels = 20 }]\n")
    photons = photons_of(folder / "emitter.ptu")
    counts = correlation(photons["time"], photons["number"] == 0, photons["number"] == 1, levels=20)
    assert (counts == report.table("correlation").counts).all()
    assert (coincidences(folder / "emitter.ptu", 0, 1, 16).counts[17:] == counts[:16]).all()


def test_pairs_of_the_diffusing_molecules(program: str, folder: Path) -> None:
    plan = "group = [{ inputs = [1] }, { inputs = [2] }]\ncoincidence = [{ first = 1, second = 2, reach = 90000, width = 999 }]\n"
    plan += "startstop = [{ start = 1, stop = 2, width = 500, bins = 40 }]\n"
    report = report_of(program, folder, "diffusion", plan)
    ours = coincidences(folder / "diffusion.ptu", 1, 2, 90000, width=999)
    assert (ours.counts == report.table("coincidence").counts).all() and (ours.ticks == report.table("coincidence").ticks).all()
    stops = start_stops(folder / "diffusion.ptu", 1, 2, 500, 40)
    assert (stops.counts == report.table("startstop").counts).all() and stops.over == report.table("startstop").rest["over"]


def test_the_diffusion_is_found(folder: Path) -> None:
    curve = correlation_by_segments(ptulab.read_events(folder / "diffusion.ptu"), 1, 2, segments=10, levels=24)
    fit = fits.fit_fcs(np.asarray(curve.seconds), curve.values, segments=curve.segments, dimensions=2, span=(2e-5, 0.05))
    assert fit.values["diffusion"] == pytest.approx(500e-6, rel=0.1) and fit.values["number"] == pytest.approx(20 * np.pi / 64, rel=0.1)


def test_the_molecules_are_of_two_kinds(folder: Path) -> None:
    photons = photons_of(folder / "molecules.ptu")
    bursts = fused(find_bursts(photons["time"], 20_000, minimum=50, unit_seconds=SYNC))
    groups = Group([0], [(0, 1000)]), Group([1], [(0, 1000)]), Group([1], [(1000, 2000)])
    result = fret(*(photons_in(bursts, photons, group) for group in groups))
    assert len(bursts) == 400 and np.median(np.asarray(result.S)) == pytest.approx(0.5, abs=0.03)
    assert [np.median(result.E[n::2]) for n in (0, 1)] == pytest.approx([0.7, 0.2], abs=0.03)


def test_the_source_that_blinks(folder: Path) -> None:
    """Its times on and off come out by its levels, and its rates."""
    times = ptulab.read_events(folder / "blinking.ptu").photons["time"]
    levels = intensity.change_points(times, level=0.01)
    on, off = intensity.on_and_off(levels, 12e3 * 1e-9)
    for some, known in ((on, 0.02), (off, 0.04)):
        fit = intensity.fit_durations(some * 1e-9, span=(5e-3, 1.0))
        assert abs(fit.values["time"] - known) < 4 * fit.errors["time"] + 0.1 * known and fit.reduced < 2.5
    bright = levels.rates > 12e3 * 1e-9
    assert np.average(levels.rates[bright], weights=levels.durations[bright]) == pytest.approx(30e3 * 1e-9, rel=0.03)
