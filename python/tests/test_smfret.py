"""Single molecules with FRET beside made truths: corrections and their errors, bleaching, and E that changes within bursts."""

import re
import subprocess
import sys
from collections.abc import Callable
from dataclasses import replace
from pathlib import Path
from typing import Any

import numpy as np
import pytest
from conftest import EXAMPLES
from hypothesis import given, settings
from hypothesis import strategies as st

import ptulab
from ptulab import smfret
from ptulab.bursts import BURST, and_gate, background, counted, find_bursts, fret, fused
from ptulab.events import EVENT, Events, events_of
from ptulab.groups import Group, photons_of
from ptulab.headers import Header

SYNC = 100e-9
HEADER = Header("HydraHarp2T3", {}, None, SYNC, 50e-12, 0, 0)
DONOR, ACCEPTOR, DIRECT = Group([0], [(0, 1000)]), Group([1], [(0, 1000)]), Group([1], [(1000, 2000)])
EITHER = Group([0, 1], [(0, 1000)])
TRUTH: dict[str, Any] = {"gamma": 0.7, "beta": 1.3, "leakage": 0.08, "direct_excitation": 0.05}
EFFICIENCIES = (0.15, 0.4, 0.65, 0.9)


def photons_at(times: Any, source: Any) -> Events:
    """Photons at these times, in any order: of the donor (0), the acceptor (1), and the acceptor by its laser (2)."""
    order = np.argsort(times, kind="stable")
    rows = np.zeros(len(times), EVENT)
    rows["time"], rows["number"] = np.asarray(times)[order], np.asarray(source)[order] > 0
    rows["dtime"] = np.where(np.asarray(source)[order] == 2, 1100, 100)
    return events_of(rows, HEADER)


def measured(draws: Any, each: int = 100, size: float = 80.0) -> tuple[list[Any], Any]:
    """The photons of bursts, of four with both dyes, of one with the donor alone, and of one with the acceptor alone."""
    kind = np.repeat(np.arange(6), each)
    bright = 30 + draws.exponential(size, len(kind))
    efficiency = np.array((*EFFICIENCIES, 0.0, 0.0))[kind]
    donor = np.where(kind == 5, 0, bright * (1 - efficiency) / TRUTH["gamma"])
    own = np.where(kind == 4, 0, bright * TRUTH["beta"])
    passed = bright * efficiency + TRUTH["leakage"] * donor + TRUTH["direct_excitation"] * own
    return [draws.poisson(one) for one in (donor, passed, own)], kind


def calibrated(counts: Any, kind: Any, **more: Any) -> Any:
    return smfret.calibrate(*counts, donor_only=kind == 4, acceptor_only=kind == 5, populations=[kind == n for n in range(4)], **more)


def test_e_and_s_of_four_populations_and_their_errors() -> None:
    """Factors, E and S are right within their errors, which are as the scatter of measurements, within a tenth."""
    truth = [*TRUTH.values(), *EFFICIENCIES, 0.5, 0.5, 0.5, 0.5]
    values, errors = [], []
    for seed in range(400):
        counts, kind = measured(np.random.default_rng(seed))
        result = calibrated(counts, kind)
        means = [result.mean(kind == n) for n in range(4)]
        found = [(result.corrections[name], result.errors[name]) for name in TRUTH] + [one[name] for name in "ES" for one in means]
        values.append([value for value, _ in found])
        errors.append([error for _, error in found])
    told = np.mean(errors, axis=0)
    parts = np.std(values, axis=0, ddof=1) / told
    assert np.abs(np.array(values)[0, 4:] - truth[4:]).max() < 0.02
    assert (np.abs(np.mean(values, axis=0) - truth) < 0.25 * told).all()
    assert np.sqrt(np.mean(parts**2)) == pytest.approx(1, abs=0.05) and (np.abs(parts - 1) < 0.1).all()


def test_e_and_s_of_four_populations_by_their_photons(tmp_path: Path) -> None:
    """Of a file of photons: bursts are found over a background that grows, bleached molecules left out, and all is corrected."""
    subprocess.run([sys.executable, EXAMPLES / "make_fret.py", tmp_path / "fret.ptu"], check=True)
    photons = photons_of(tmp_path / "fret.ptu")
    found = fused(find_bursts(photons, background(photons, seconds=10), F=6, minimum=30))
    each = counted(found, photons, (DONOR, ACCEPTOR, DIRECT), seconds=10)
    raw, steady = fret(**each), smfret.alex_2cde(found, photons, EITHER, DIRECT) < 15
    kinds = [steady & raw.select(E, S=(0.25, 0.85)) for E in ((0, 0.29), (0.29, 0.49), (0.49, 0.73), (0.73, 1))]
    result = smfret.calibrate(**each, donor_only=raw.select(S=(0.9, 2)), acceptor_only=raw.select(S=(-1, 0.15)), populations=kinds)
    for kind, known in zip(kinds, EFFICIENCIES):
        means = result.mean(kind)
        assert kind.sum() > 100 and means["E"][0] == pytest.approx(known, abs=0.02) and means["S"][0] == pytest.approx(0.5, abs=0.02)
    assert result.corrections == pytest.approx(TRUTH, rel=0.05, abs=0.02)


def test_a_background_is_taken_off_and_told() -> None:
    draws = np.random.default_rng(2)
    counts, kind = measured(draws, each=600)
    more = [np.full(len(kind), mean) for mean in (4.0, 3.0, 6.0)]
    noisy = [one + draws.poisson(mean) for one, mean in zip(counts, more)]
    result = calibrated(noisy, kind, backgrounds=more)
    for name, value in TRUTH.items():
        assert result.corrections[name] == pytest.approx(value, abs=4 * result.errors[name])
    for n, E in enumerate(EFFICIENCIES):
        assert result.mean(kind == n)["E"][0] == pytest.approx(E, abs=0.02) and result.mean(kind == n)["S"][0] == pytest.approx(0.5, abs=0.02)
    assert re.fullmatch(
        r"E and S of 3,600 bursts, corrected for background, gamma 0.[67]\d* ± 0.00\d, beta 1.[23]\d* ± 0.00\d, leakage 0.08\d* ± 0.001, "
        r"direct excitation 0.05\d* ± 0.00\d*", str(result)
    )  # fmt: skip
    without = fret(*noisy)
    assert str(without) == "E and S of 3,600 bursts, not corrected for background, gamma, beta, leakage, direct excitation"
    assert abs(without.mean(kind == 0)["E"][0] - EFFICIENCIES[0]) > 0.05
    again = fret(*noisy, backgrounds=more, **result.corrections)
    assert again == replace(result, errors={}) and again != result
    assert again.mean(kind == 1)["E"][0] == result.mean(kind == 1)["E"][0]


def test_nothing_is_left_of_bursts_without_noise() -> None:
    """By the true factors each lies on the line of E and S; by a wrong one, as with its other sign, it doesn't."""
    E, bright = np.array(EFFICIENCIES), np.array([100.0, 50.0, 80.0, 120.0])
    donor, own = bright * (1 - E) / TRUTH["gamma"], bright * TRUTH["beta"]
    photons = np.stack([donor, bright * E + TRUTH["leakage"] * donor + TRUTH["direct_excitation"] * own, own], axis=1)
    line = smfret._Line({}, np.ones(4))
    assert line.scatter(photons, np.eye(4, dtype=np.bool_), np.array(list(TRUTH.values()))) == pytest.approx(np.zeros(4), abs=1e-18)
    for wrong in np.eye(4) * 0.1:
        assert (line.scatter(photons, np.eye(4, dtype=np.bool_), np.array(list(TRUTH.values())) * (1 - wrong)) > 0.01).all()


def test_factors_can_be_held() -> None:
    counts, kind = measured(np.random.default_rng(3), each=500)
    free = calibrated(counts, kind)
    held = smfret.calibrate(*counts, acceptor_only=kind == 5, populations=[kind == n for n in range(4)], fixed={"leakage": 0.08})
    assert held.corrections["leakage"] == 0.08 and set(held.errors) == {"gamma", "beta", "direct_excitation"}
    one = smfret.calibrate(*counts, populations=[kind == 2], fixed={"leakage": 0.08, "direct_excitation": 0.05, "gamma": 0.7})
    assert one.corrections["beta"] == pytest.approx(1.3, abs=4 * one.errors["beta"]) and one.errors["beta"] < free.errors["beta"]
    assert set(one.errors) == {"beta"} and one.mean(kind == 2)["S"][0] == pytest.approx(0.5, abs=1e-6)
    other = smfret.calibrate(*counts, populations=[kind == 2], fixed={"leakage": 0.08, "direct_excitation": 0.05, "beta": 1.3})
    assert other.corrections["gamma"] == pytest.approx(0.7, abs=4 * other.errors["gamma"]) and other.corrections["beta"] == 1.3 and set(other.errors) == {"gamma"}
    all_held = smfret.calibrate(*counts, fixed=TRUTH)
    assert all_held.corrections == TRUTH and not all_held.errors and all_held.E == pytest.approx(fret(*counts, **TRUTH).E, nan_ok=True)


def test_what_calibrates_nothing_is_refused() -> None:
    counts, kind = measured(np.random.default_rng(4))
    both = [kind == n for n in range(4)]
    with pytest.raises(ptulab.NotKnownError, match="leakage and direct_excitation"):
        smfret.calibrate(*counts, populations=both)
    with pytest.raises(ptulab.NotKnownError, match="gamma and beta"):
        smfret.calibrate(*counts, donor_only=kind == 4, acceptor_only=kind == 5, populations=both[:1])
    with pytest.raises(ValueError, match="dir_ex"):
        calibrated(counts, kind, fixed={"dir_ex": 0.1})
    with pytest.raises(ValueError, match="calibrate nothing"):  # no photons with the donor alone
        smfret.calibrate(*counts, donor_only=np.zeros(len(kind), bool), acceptor_only=kind == 5, populations=both)
    with pytest.raises(ValueError, match="calibrate nothing"):  # one population twice
        smfret.calibrate(*counts, donor_only=kind == 4, acceptor_only=kind == 5, populations=[kind == 1, kind == 1])
    with pytest.raises(ValueError, match="2 backgrounds"):
        fret(*counts, backgrounds=[np.zeros(len(kind))] * 2)


def test_bursts_are_chosen_and_added_up() -> None:
    result = fret(np.array([80, 20, 0, 50]), np.array([20, 80, 0, 50]), np.array([100, 50, 10, 0]))
    assert result.select(E=(0.1, 0.3)).tolist() == [True, False, False, False]
    assert result.select((0.2, 0.8), S=(0.5, 0.9)).tolist() == [True, True, False, False]
    assert result.mean()["E"][0] == pytest.approx(150 / 300) and result.mean(np.array([1, 1, 0, 0], bool))["S"][0] == pytest.approx(200 / 350)
    E, error = fret(np.array([80, 60]), np.array([20, 40])).mean()["E"]
    assert E == pytest.approx(0.3) and error == pytest.approx(np.sqrt(2) * 10 / 200)
    with pytest.raises(ptulab.NotKnownError, match="no mean"):
        result.mean(np.zeros(4, bool))
    assert list(fret(np.array([8]), np.array([2])).mean()) == ["E"]
    with pytest.raises(ptulab.NotKnownError):
        fret(np.array([8]), np.array([2])).select(S=(0, 1))
    with pytest.raises(ValueError, match="beta"):
        fret(np.array([8]), np.array([2]), beta=0.0)
    assert str(fret(np.array([8]), np.array([2]), gamma=0.5)) == (
        "E of 1 bursts, corrected for gamma 0.5; not corrected for background, beta, leakage, direct excitation"
    )


@st.composite
def some_bursts(draw: Any) -> tuple[Events, Any]:
    """Photons of three kinds, and bursts among them, some of which share photons or have few."""
    draws = np.random.default_rng(draw(st.integers(0, 2**32 - 1)))
    many = int(draws.integers(2, 120))
    photons = photons_at(np.cumsum(draws.integers(0, 3000, many)), draws.integers(0, 3, many))
    bursts = np.zeros(int(draws.integers(0, 6)), BURST)
    bursts["first"] = np.sort(draws.integers(0, many, len(bursts)))
    bursts["last"] = np.minimum(bursts["first"] + draws.integers(0, 40, len(bursts)), many - 1)
    bursts["start"], bursts["stop"] = photons.times[bursts["first"]], photons.times[bursts["last"]]
    return photons, bursts


def each_burst(photons: Events, bursts: Any, *groups: Any) -> Any:
    """The seconds of the photons of each group, burst by burst."""
    for burst in bursts:
        inside = photons[int(burst["first"]) : int(burst["last"]) + 1]
        yield [inside.times[group.mask(inside)] * SYNC for group in groups]


@settings(max_examples=40, deadline=None)
@given(some_bursts(), st.sampled_from([20e-6, 1e-4, 1.0]))
def test_alex_2cde_and_asymmetry_are_those_of_the_formula(made: Any, tau: float) -> None:
    photons, bursts = made

    def density(at: Any, of: Any) -> Any:
        return np.exp(-np.abs(at[:, None] - of[None]) / tau).sum(axis=1)

    told, late = [], []
    for D, A in each_burst(photons, bursts, EITHER, DIRECT):
        few = not len(D) or not len(A)
        told.append(np.nan if few else 100 - 50 * ((density(D, A) / density(D, D)).sum() / len(A) + (density(A, D) / density(A, A)).sum() / len(D)))
        late.append(np.nan if few else D.mean() - A.mean())
    assert smfret.alex_2cde(bursts, photons, EITHER, DIRECT, tau=tau) == pytest.approx(told, abs=1e-8, nan_ok=True)
    assert smfret.asymmetry(bursts, photons, EITHER, DIRECT) == pytest.approx(late, abs=1e-10, nan_ok=True)


@settings(max_examples=40, deadline=None)
@given(some_bursts(), st.integers(2, 7))
def test_burst_variance_is_that_of_the_pieces(made: Any, n: int) -> None:
    photons, bursts = made
    found = smfret.burst_variance(bursts, photons, DONOR, ACCEPTOR, n=n)
    for at, burst in enumerate(bursts):
        inside = photons[int(burst["first"]) : int(burst["last"]) + 1]
        passed = inside.numbers[EITHER.mask(inside)]
        pieces = [passed[k : k + n].mean() for k in range(0, len(passed) - n + 1, n)]
        assert found.pieces[at] == len(pieces)
        assert found.E[at] == pytest.approx(np.mean(pieces) if pieces else np.nan, nan_ok=True)
        assert found.deviations[at] == pytest.approx(np.std(pieces, ddof=1) if len(pieces) > 1 else np.nan, nan_ok=True, abs=1e-12)


def crossing(draws: Any, many: int, size: int, efficiency: Callable[[Any], Any], bleached: bool = False) -> tuple[Events, Any]:
    """Molecules with S of a half in a row, of ``size`` photons in 2 ms each; of E by the time within, from -1 to 1."""
    at = np.sort(draws.uniform(-1, 1, (many, size)), axis=1)
    own = draws.random((many, size)) < 0.5
    passed = draws.random((many, size)) < efficiency(at)
    if bleached:
        own &= at < 0
        passed &= at < 0
    times = (100_000 * np.arange(1, many + 1)[:, None] + 10_000 * at).astype(np.int64)
    photons = photons_at(times.ravel(), np.where(own, 2, passed).ravel())
    bursts = np.zeros(many, BURST)
    bursts["first"], bursts["last"] = np.arange(many) * size, np.arange(1, many + 1) * size - 1
    bursts["start"], bursts["stop"] = photons.times[bursts["first"]], photons.times[bursts["last"]]
    return photons, bursts


def test_bleached_molecules_are_told() -> None:
    draws = np.random.default_rng(5)
    steady = crossing(draws, 200, 150, lambda at: 0.5)
    bleached = crossing(draws, 200, 150, lambda at: 0.5, bleached=True)
    values = [smfret.alex_2cde(bursts, photons, EITHER, DIRECT) for photons, bursts in (steady, bleached)]
    assert np.percentile(values[0], 98) < 15 < np.percentile(values[1], 2) and abs(np.median(values[0])) < 10
    late = [smfret.asymmetry(bursts, photons, EITHER, DIRECT) for photons, bursts in (steady, bleached)]
    assert np.median(late[0]) == pytest.approx(0, abs=5e-5) and np.median(late[1]) > 4e-4  # from the middles -0.5 and 0.17 of 1 ms


def test_molecules_that_change_vary_more_than_counting_does() -> None:
    """E of a burst goes from 0.1 to 0.9 in its middle, or stays 0.5."""
    draws = np.random.default_rng(6)
    steady, changing = (
        smfret.burst_variance(bursts, photons, DONOR, ACCEPTOR)
        for photons, bursts in (crossing(draws, 400, 200, lambda at: 0.5), crossing(draws, 400, 200, lambda at: np.where(at < 0, 0.1, 0.9)))
    )
    for found, expected in ((steady, np.sqrt(0.25 / 5)), (changing, np.sqrt(0.09 / 5 + 0.4**2))):
        E, deviation, bar = (values[0] for values in found.binned(1))
        assert E == pytest.approx(0.5, abs=0.01) and deviation == pytest.approx(expected, abs=4 * bar + 0.01) and bar < 0.005
    assert steady.expected(np.array([0.5])) == pytest.approx([np.sqrt(0.05)])
    E, deviation, _ = steady.binned(20)
    told = deviation[8:12]
    assert np.isnan(deviation[[0, 19]]).all() and told == pytest.approx(steady.expected(E[8:12]), rel=0.06)
    with pytest.raises(ValueError, match="1 photons"):
        smfret.burst_variance(np.zeros(0, BURST), photons_at([1], [0]), DONOR, ACCEPTOR, n=1)


def test_errors_of_deviations_are_their_scatter() -> None:
    photons, bursts = crossing(np.random.default_rng(7), 15_000, 100, lambda at: 0.4)
    found = smfret.burst_variance(bursts, photons, DONOR, ACCEPTOR)
    each = [smfret.BurstVariance(found.E[n::250], found.deviations[n::250], found.pieces[n::250], found.n).binned(1) for n in range(250)]
    deviations, bars = (np.array([one[n][0] for one in each]) for n in (1, 2))
    assert deviations.std(ddof=1) == pytest.approx(bars.mean(), rel=0.1) and deviations.mean() == pytest.approx(np.sqrt(0.24 / 5), rel=0.005)


def test_bins_of_e_have_their_edges() -> None:
    """E of 0 is in the first bin and of 1 in the last, and a bin of one burst tells nothing."""
    E, deviations, pieces = np.array([0.0, 0.0, 1.0, 1.0, 0.5]), np.array([0.0, 0.0, 0.1, 0.3, 0.2]), np.array([5, 3, 4, 2, 9])
    found = smfret.BurstVariance(E, deviations, pieces, 5).binned(4)
    assert found[0] == pytest.approx([0, np.nan, np.nan, 1], nan_ok=True)
    variance = (3 * 0.01 + 0.09) / 4
    assert found[1] == pytest.approx([0, np.nan, np.nan, np.sqrt(variance)], nan_ok=True)
    assert found[2][3] == pytest.approx(np.hypot(3 * (0.01 - variance), 0.09 - variance) / 4 / (2 * np.sqrt(variance)))
    upper = smfret.BurstVariance(E / 2 + 0.5, deviations, pieces, 5).binned(4, (0.5, 1.0))
    assert np.array(upper[1:]) == pytest.approx(np.array(found[1:]), nan_ok=True) and upper[0] == pytest.approx(found[0] / 2 + 0.5, nan_ok=True)


def test_two_channels_leave_molecules_with_one_dye_out() -> None:
    """Of three kinds in turn: both dyes, the donor alone, the acceptor alone; and a background of all."""
    draws = np.random.default_rng(8)
    many, kinds = 60, ([0, 1, 2], [0, 0, 0], [2, 2, 2])
    source = np.concatenate([draws.choice(kinds[n % 3], 120) for n in range(many)])
    times = np.repeat(500_000 * np.arange(1, many + 1), 120) + draws.integers(0, 20_000, 120 * many)
    noise = draws.integers(0, 500_000 * (many + 1), 6000)
    photons = photons_at(np.concatenate((times, noise)), np.concatenate((source, draws.integers(0, 3, 6000))))
    searches = [find_bursts(photons, background(photons, group), group=group, minimum=15) for group in (EITHER, DIRECT)]
    assert [len(fused(one)) for one in searches] == [2 * many // 3, 2 * many // 3]
    both = and_gate(searches[0], searches[1], photons, minimum=30)
    assert (both["stop"] // 500_000).tolist() == [1 + 3 * n for n in range(many // 3)]
    words = counted(both, photons, (DONOR, ACCEPTOR, DIRECT))
    assert fret(**words).mean()["S"][0] == pytest.approx(2 / 3, abs=0.02) and all(0 < one.mean() < 2 for one in words["backgrounds"])
    assert set(counted(both, photons, (DONOR, ACCEPTOR))) == {"donor", "acceptor", "backgrounds"}
    with pytest.raises(ptulab.NotKnownError, match="seconds"):
        smfret.asymmetry(both, photons.array, EITHER, DIRECT)
    assert smfret.asymmetry(both, photons.array, EITHER, DIRECT, unit_seconds=SYNC) == pytest.approx(smfret.asymmetry(both, photons, EITHER, DIRECT))
