import time
from collections import Counter
from collections.abc import Callable
from dataclasses import replace
from fractions import Fraction
from pathlib import Path
from typing import Any

import made
import numpy as np
import pytest
import random_events
import simulated
from hypothesis import given, settings
from hypothesis import strategies as st
from scipy import stats

import ptulab
from ptulab import antibunching
from ptulab.events import events_of
from ptulab.groups import Group
from ptulab.antibunching import Coincidences, coincidences, fit_g2, start_stops

GROUPS = st.sampled_from([(0,), (1,), (0, 1), (1, 2), (0, 1, 2)])


@pytest.fixture(scope="session")
def folder(tmp_path_factory: pytest.TempPathFactory) -> Path:
    return tmp_path_factory.mktemp("pulsed")


def report_of(program: str, folder: Path, plan: Any, path: Any) -> Any:
    (folder / "plan.toml").write_text("version = 2\n" + plan)
    return ptulab.run(folder / "plan.toml", path, program=program)


def groups_of(*groups: Any) -> str:
    return "group = [" + ", ".join(f"{{ inputs = {list(group)} }}" for group in groups) + "]\n"


@settings(max_examples=40, deadline=None)
@given(random_events.streams, GROUPS, GROUPS, st.integers(1, 40), st.integers(1, 90))
def test_coincidences_of_t3_are_those_of_the_same_times_in_t2(program: str, folder: Path, events: Any, first: Any, second: Any, reach: int, width: int) -> None:
    """A plan counts coincidences of T2 files: the sync periods of a T3 file are written as the ticks of one."""
    t3 = made.write(folder / "t3.ptu", "HydraHarp2T3", events, tick=1e-8)
    t2 = made.write(folder / "t2.ptu", "HydraHarp2T2", [(time, number) for time, number, _ in events], tick=1e-8)
    plan = f"coincidence = [{{ first = 1, second = 2, reach = {reach}, width = {width} }}]\n"
    table = report_of(program, folder, groups_of(first, second) + plan, t2).table("coincidence")
    for path in (t2, t3):
        ours = coincidences(ptulab.read_events(path), first, second, reach, width=width)
        assert (ours.counts == table.counts).all() and (ours.ticks == table.ticks).all()
        assert np.allclose(np.asarray(ours.seconds), table.seconds, rtol=1e-12)
        assert ours.widths.sum() == 2 * reach + 1


@settings(max_examples=40, deadline=None)
@given(random_events.streams, GROUPS, GROUPS)
def test_lags_of_sync_periods_are_those_of_the_first_level(program: str, folder: Path, events: Any, first: Any, second: Any) -> None:
    path = made.write(folder / "levels.ptu", "HydraHarp2T3", events)
    plan = "correlation = [{ first = 1, second = 2, lags = 16, levels = 1 }, { first = 2, second = 1, lags = 16, levels = 1 }]\n"
    report = report_of(program, folder, groups_of(first, second) + plan, path)
    ours = coincidences(path, first, second, 16)
    assert (ours.counts[17:] == report.table("correlation", 1).counts).all()
    assert (ours.counts[15::-1] == report.table("correlation", 2).counts).all()


@settings(max_examples=40, deadline=None)
@given(random_events.streams, GROUPS, GROUPS, st.integers(1, 9), st.integers(1, 9))
def test_start_stops_are_those_of_ptu(program: str, folder: Path, events: Any, start: Any, stop: Any, width: int, bins: int) -> None:
    t2 = made.write(folder / "stops.ptu", "HydraHarp2T2", [(time, number) for time, number, _ in events])
    t3 = made.write(folder / "stops3.ptu", "HydraHarp2T3", events)
    plan = f"startstop = [{{ start = 1, stop = 2, width = {width}, bins = {bins} }}]\n"
    table = report_of(program, folder, groups_of(start, stop) + plan, t2).table("startstop")
    for path in (t2, t3):
        ours = start_stops(path, start, stop, width, bins)
        assert (ours.counts == table.counts).all() and ours.over == table.rest["over"]


@settings(max_examples=40, deadline=None)
@given(random_events.streams, GROUPS, GROUPS, st.integers(1, 150), st.sampled_from([40, 41, 64.5]))
def test_differences_in_ticks_join_sync_and_dtime(folder: Path, events: Any, first: Any, second: Any, reach: int, period: float) -> None:
    path = made.write(folder / "ticks.ptu", "HydraHarp2T3", events)
    array = ptulab.read_events(path).photons
    times = [(round(int(e["time"]) * period) + int(e["dtime"]), int(e["number"])) for e in array]
    pairs = Counter(
        t - s for i, (s, m) in enumerate(times) for j, (t, n) in enumerate(times) if i != j and m in first and n in second
    )
    ours = coincidences(path, first, second, reach, period=period)
    assert ours.counts.tolist() == [pairs[lag] for lag in range(-reach, reach + 1)]
    ordered = [one for one in sorted(times, key=lambda one: one[0]) if one[1] in first + second]
    steps = Counter(t - s for (s, m), (t, n) in zip(ordered, ordered[1:]) if m in first and n in second)
    stops = start_stops(path, first, second, 1, 100, period=period)
    assert stops.counts.tolist() == [steps[lag] for lag in range(100)] and stops.over == sum(n for lag, n in steps.items() if lag >= 100)


@settings(max_examples=100, deadline=None)
@given(st.lists(st.tuples(st.integers(1, 5), st.integers(0, 3), st.integers(0, 3)), min_size=1, max_size=60), st.integers(1, 30))
def test_pairs_of_dense_and_of_sparse_times_are_the_same(steps: Any, reach: int) -> None:
    times = np.cumsum([step for step, _, _ in steps])
    firsts, seconds = (np.array([step[which] for step in steps]) for which in (1, 2))
    counts = [0] * (reach + 1)
    for i, first in zip(times, firsts):
        for j, second in zip(times, seconds):
            if 0 <= j - i <= reach:
                counts[j - i] += first * second
    with pytest.MonkeyPatch.context() as patch:
        patch.setattr(antibunching, "BLOCK", 7)
        for dense in (0, 100):
            patch.setattr(antibunching, "DENSE", dense)
            assert antibunching.pair_counts(times, firsts, seconds, reach).tolist() == counts


def pulses(seed: int, brightness: float, both: float) -> Any:
    """Photons of two detectors by pulse: each sees one with a probability, and both at once with another."""
    draws = np.random.default_rng(seed).random((3, 60000))
    one, two = draws[0] < brightness, draws[1] < brightness
    together = one & two & (draws[2] >= both / brightness**2)
    one[together] = False
    return sorted([(int(time), 0, 10) for time in np.flatnonzero(one)] + [(int(time), 1, 12) for time in np.flatnonzero(two)])


def test_an_emitter_of_single_photons_is_told_by_lag_0(make_file: Callable[..., Path]) -> None:
    brightness = 0.05
    antibunched = make_file("HydraHarp2T3", pulses(1, brightness, 0.0004), tick=1e-7, resolution=1e-11)
    laser = make_file("HydraHarp2T3", pulses(2, brightness, brightness**2), name="laser.ptu", tick=1e-7)
    ratio, error = coincidences(antibunched, 0, 1, 20).central_ratio()
    assert abs(ratio - 0.0004 / brightness**2) < 4 * error and error < 0.06
    ours = coincidences(ptulab.read_events(laser), 0, 1, 20)
    ratio, error = ours.central_ratio()
    assert abs(ratio - 1) < 4 * error
    normalised = ours.counts / ours.expected()
    assert abs(normalised.mean() - 1) < 0.03 and ours.length <= 60000
    assert ours.seconds is not None and ours.seconds[0] == pytest.approx(-2e-6)
    peaks = coincidences(ptulab.read_events(antibunched), 0, 1, 14999, width=10000, period=1e4)
    assert peaks.counts.tolist() == coincidences(antibunched, 0, 1, 1).counts.tolist() and peaks.unit_seconds == 1e-11


def test_the_error_of_a_ratio_is_that_of_its_counts() -> None:
    few = Coincidences(np.array([4, 1, 6], np.int64), 1, 1, 9, 9, 100)
    assert few.central_ratio() == pytest.approx((1 / 5, np.sqrt(1 / 5**2 + (1 / 5) ** 2 / 10)))
    none = Coincidences(np.array([4, 0, 6], np.int64), 1, 1, 9, 9, 100)
    assert none.central_ratio() == pytest.approx((0, 1 / 5))


def test_pairs_of_measurements_add_up(make_file: Callable[..., Path]) -> None:
    """With what each of them expects, of other rates and lengths."""
    draws = np.random.default_rng(7)
    ones = []
    for place, (many, last) in enumerate(((300, 2000), (900, 3000), (50, 9000))):
        times = np.sort(draws.integers(0, last, many))
        path = make_file("HydraHarp2T3", [(int(time), int(draws.integers(0, 2))) for time in times], name=f"{place}.ptu", tick=1e-7)
        ones.append(antibunching.coincidences(path, 0, 1, 6, width=2))
    whole: Any = sum(ones)
    assert whole == ones[0] + ones[1] + ones[2] != whole + ones[0]
    assert (whole.counts == sum(one.counts for one in ones)).all() and whole.length == sum(one.length for one in ones)
    assert whole.expected() == pytest.approx(sum(one.expected() for one in ones)) and (ones[0] + ones[0]).expected() == pytest.approx(2 * ones[0].expected())
    for other in (replace(ones[0], period=2), replace(ones[0], unit_seconds=None), replace(ones[0], reach=5)):
        with pytest.raises(ptulab.UnlikeError):
            ones[0] + other
    odd: list[Any] = [1, "x"]
    for wrong in odd:
        with pytest.raises(TypeError):
            wrong + ones[0]
        with pytest.raises(TypeError):
            ones[0] + wrong


def test_gates_choose_photons(make_file: Callable[..., Path]) -> None:
    path = make_file("HydraHarp2T3", [(1, 0, 5), (1, 1, 30), (2, 1, 5), (3, made.Bits(1)), (4, 1, 6)])
    ours = coincidences(path, 0, Group((1,), ((0, 10),)), 3)
    assert ours.counts.tolist() == [0, 0, 0, 0, 1, 0, 1] and ours.length == 4


def test_nothing_to_pair(make_file: Callable[..., Path]) -> None:
    path = make_file("HydraHarp2T3", [])
    ours = coincidences(path, 0, 1, 3)
    assert ours.counts.tolist() == [0] * 7 and ours.expected().tolist() == [0] * 7 and ours.seconds is None
    with pytest.raises(ptulab.NotKnownError):
        ours.central_ratio()
    none = start_stops(path, 0, 1, 1, 2)
    assert (none.counts.tolist(), none.over, none.seconds) == ([0, 0], 0, None)
    timed = make_file("HydraHarp2T2", [(1, 1), (8, 2)], name="timed.ptu", tick=1e-9)
    stops = start_stops(ptulab.read_events(timed), 1, 2, 3, 4)
    assert stops.counts.tolist() == [0, 0, 1, 0] and stops.ticks.tolist() == [0, 3, 6, 9]
    assert stops.seconds == pytest.approx([0, 3e-9, 6e-9, 9e-9])
    with pytest.raises(ValueError):
        coincidences(path, 0, 1, 0)
    with pytest.raises(ValueError):
        start_stops(path, 0, 1, 1, 0)
    far = make_file("HydraHarp2T3", [(9, 0, 1)])
    with pytest.raises(ValueError, match="told apart"):
        coincidences(far, 0, 0, 3, period=1e18)


# g2(0) of pulsed sources, with peaks of a known area.


def pulsed_source(seed: int, *, period: float = 1000.0, together: float = 0.3, blinks: int | None = None, delay: int = 0, pulses: int = 400_000, bright: float = 0.05) -> Any:
    """Events of T3 of an emitter whose photons of a pulse go to two detectors, each to one, or with a chance of ``together``
    beside that of two pulses to both; 50 ticks after a pulse it decays in 60. ``period``: ticks of a pulse; ``blinks``: for
    how many pulses it is on, and off, in the mean; ``delay``: ticks of the second detector's cable."""
    draws = np.random.default_rng(seed)
    shine = np.full(pulses, bright)
    if blinks is not None:
        shine *= 2 * (np.cumsum(draws.random(pulses) < 1 / blinks) % 2)
    one, two = draws.random((2, pulses)) < shine / 2
    both = (draws.random(pulses) < together * shine**2 / 4) & (one == two)
    one, two = (np.flatnonzero(alone & (one != two) | both) for alone in (one, two))
    numbers = np.repeat([0, 1], [len(one), len(two)])
    dtimes = 50 + draws.exponential(60.0, len(numbers)) + delay * numbers
    times = np.append(one, two) * period + dtimes
    events = np.zeros(len(times), ptulab.EVENT)
    events["time"], events["dtime"], events["number"] = times // period, times % period, numbers
    return events[np.argsort(events["time"], kind="stable")]


def ratio_of_source(together: float, bright: float) -> float:
    """What its pairs of one pulse are beside those of two."""
    alone = bright / 2 * (1 - bright / 2)
    both = together * bright**2 / 4 * (1 - 2 * alone)
    return both / (alone + both) ** 2


def test_the_error_of_a_ratio_is_its_scatter() -> None:
    """Of 300 sources, by pulses and by whole peaks: their ratios scatter as is told around the known one.

    A tenth of a photon a pulse: of more the pairs scatter less than by Poisson's law.
    """
    events = [pulsed_source(seed, pulses=80_000, bright=0.1) for seed in range(300)]
    units: list[dict[str, Any]] = [{"reach": 10}, {"reach": 10_600, "width": 20, "period": 1000}]
    for words in units:
        ratios, errors = np.array([coincidences(one, 0, 1, **words).central_ratio() for one in events]).T
        assert np.sqrt((errors**2).mean()) == pytest.approx(ratios.std(), rel=0.1)
        assert ratios.mean() == pytest.approx(ratio_of_source(0.3, 0.1), abs=4 * ratios.std() / np.sqrt(300))


def test_g2_of_an_emitter_and_the_dark_within_its_error(tmp_path: Path, program: str) -> None:
    """The program pairs the photons of 20 emitters with a quarter as many counts in the dark: g2(0) is 1 - 0.8^2, or of the light alone 0."""
    plan = ptulab.Plan().group("one", 1).group("two", 2).coincidence("one", "two", reach="60 ns", width="0.5 ns")
    away, spreads = [], []
    for seed in range(20):
        table = ptulab.run(plan, simulated.emitter(tmp_path / "dark.ptu", seed, dark=10_000), program=program).table("coincidence")
        fit = fit_g2(table)
        away.append([fit.values["depth"] - 0.64, fit.values["lifetime"] - 4e-9, fit.values["centre"]])
        spreads.append([fit.errors["depth"], fit.errors["lifetime"], fit.errors["centre"]])
    parts = np.array(away) / np.array(spreads)
    assert np.abs(parts).max() < 4 and np.abs(parts.mean(axis=0)).max() < 4 / np.sqrt(20)
    light = fit_g2(table, fixed={"signal": 0.8}, bounds={"depth": (0.0, 2.0)})
    assert abs(light.values["depth"] - 1) < 4 * light.errors["depth"] < 0.2


@pytest.mark.parametrize("period", [1000, 1562.5])
def test_whole_peaks_have_the_ratio_of_pulses(period: float) -> None:
    """By ticks, in narrow and wide cells, and with a period of no whole number of ticks."""
    events = pulsed_source(3, period=period)
    known, error = coincidences(events, 0, 1, 6).central_ratio()
    reach = int(6.5 * period) + 1
    for width in (1, 10, 77):
        ours, same = coincidences(events, 0, 1, reach, width=width, period=period).central_ratio()
        assert ours == pytest.approx(known, abs=0.01) and same == pytest.approx(error, rel=0.05)
    with pytest.raises(ptulab.NotKnownError, match="take finer ones"):
        coincidences(events, 0, 1, reach, width=int(period / 3), period=period).central_ratio()
    with pytest.raises(ptulab.NotKnownError, match="whole peaks"):
        coincidences(events, 0, 1, int(period), period=period).central_ratio()


def test_light_of_a_laser_has_a_ratio_of_1() -> None:
    draws = np.random.default_rng(4)
    events = np.zeros(60_000, ptulab.EVENT)
    events["time"], events["number"] = np.sort(draws.integers(0, 300_000, 60_000)), draws.integers(0, 2, 60_000)
    events["dtime"] = 50 + draws.exponential(60, 60_000)
    units: list[dict[str, Any]] = [{"reach": 10}, {"reach": 6600, "period": 1000}, {"reach": 6600, "width": 50, "period": 1000}]
    for words in units:
        ratio, error = coincidences(events, 0, 1, **words).central_ratio()
        assert abs(ratio - 1) < 4 * error and error < 0.02


def test_cables_of_other_lengths() -> None:
    """A second detector that is 300 ticks late, and one that is 2 pulses and 300 ticks late."""
    events = pulsed_source(5, delay=300)
    known = coincidences(pulsed_source(5), 0, 1, 6500, width=10, period=1000).central_ratio()
    pairs = coincidences(events, 0, 1, 7000, width=10, period=1000)
    assert pairs.central_ratio(delay=300, neighbours=6) == pytest.approx(known, abs=0.01)
    far = coincidences(pulsed_source(5, delay=2000), 0, 1, 8)
    assert far.central_ratio()[0] > 0.95 and far.central_ratio(delay=2, neighbours=6)[0] == pytest.approx(known[0], abs=0.01)
    with pytest.raises(ptulab.NotKnownError, match="no 7 whole peaks on either side of 2"):
        far.central_ratio(delay=2, neighbours=7)


def test_cells_with_a_last_narrow_one() -> None:
    """A flat source in cells of which the last is narrow has a ratio of 1, or none, and never one by the number of cells."""
    flat = Coincidences(np.array([30, 30, 30, 30, 30, 30, 30, 10]), 11, 3, 9, 9, 100)
    with pytest.raises(ptulab.NotKnownError, match="take finer ones"):
        flat.central_ratio()
    tick = Coincidences(np.full(23, 10), 11, 1, 9, 9, 100, period=None)
    with pytest.raises(ptulab.NotKnownError, match="period isn't known"):
        tick.central_ratio()
    assert tick.central_ratio(period=7.5)[0] == pytest.approx(1)
    wide = Coincidences(np.append(np.full(50, 3), 1), 75, 3, 9, 9, 1000, period=None)
    assert wide.widths[-1] == 1 and wide.central_ratio(period=49.3)[0] == pytest.approx(1)


def test_two_ticks_of_a_t2_file_have_no_pulses(make_file: Callable[..., Path]) -> None:
    path = make_file("HydraHarp2T2", [(1, 1), (8, 2), (18, 2), (27, 1), (38, 2)], tick=1e-9)
    pairs = coincidences(path, 1, 2, 35)
    assert pairs.period is None and coincidences(make_file("HydraHarp2T3", []), 1, 2, 35).period == 1
    with pytest.raises(ptulab.NotKnownError, match="period"):
        pairs.central_ratio()
    assert pairs.central_ratio(period=10.0)[0] == pytest.approx(0)
    for bad in (0, -1, float("nan"), float("inf")):
        with pytest.raises(ptulab.NotKnownError):
            pairs.central_ratio(period=bad)


def test_a_source_that_blinks_wants_near_neighbours() -> None:
    events = pulsed_source(6, blinks=20)
    for pairs in (coincidences(events, 0, 1, 100), coincidences(events, 0, 1, 100_500, width=100, period=1000)):
        with pytest.raises(ptulab.NotKnownError, match="blinks"):
            pairs.central_ratio()
        assert pairs.central_ratio(neighbours=1)[0] == pytest.approx(ratio_of_source(0.3, 0.1) / np.exp(-2 / 20), abs=0.04)


def test_pairs_of_one_unit_of_time() -> None:
    """Two photons and three in a measurement of one unit: all pairs are at 0."""
    assert Coincidences(np.zeros(3, np.int64), 1, 1, 2, 3, 1).expected().tolist() == [0, 6, 0]


def test_pairs_of_one_detector_have_twice_the_error() -> None:
    events = pulsed_source(7)
    events["number"] = 0
    pairs = coincidences(events, 0, 0, 10)
    ratio, error = pairs.central_ratio()
    half = int(pairs.counts.sum() - pairs.counts[10]) // 2
    assert error == pytest.approx(ratio * np.sqrt(2 / pairs.counts[10] + 1 / half), rel=1e-6)


@pytest.mark.parametrize(("reach", "width"), [(6, 3), (7, 3), (5, 11), (4, 2), (9, 20), (8, 1)])
def test_variances_count_what_has_its_opposite_in_the_same_cell(reach: int, width: int) -> None:
    pairs = Coincidences(np.full(2 * reach // width + 1, 12), reach, width, 9, 16, 100, None, 6)
    for cell, variance in enumerate(pairs.variances()):
        inside = range(cell * width - reach, min((cell + 1) * width - reach, reach + 1))
        both = sum(-difference in inside for difference in inside)
        assert variance == pytest.approx(12 * (1 + 36 / 144 * both / len(inside)))


def test_ratios_are_told_apart_as_by_scipys_test() -> None:
    """The chance of a ratio so far from 1, by its error, is that of a test of two means of Poisson's law."""
    for centre in (80, 100, 130):
        ratio, error = Coincidences(np.array([100] * 10 + [centre] + [100] * 10), 10, 1, 9, 9, 100).central_ratio()
        chance = 2 * stats.norm.sf(abs(ratio - 1) / error)
        assert chance == pytest.approx(stats.poisson_means_test(centre, 1, 2000, 20).pvalue, abs=0.02)


# Many units of time.


@pytest.mark.parametrize(("photons", "span", "reach"), [(2500, 16_000, 65_536), (2500, 16_000, 1 << 20), (20_000, 160_000, 30_000)])
def test_dense_pairs_take_no_time_by_the_reach(photons: int, span: int, reach: int) -> None:
    """As many as those of an array of each difference, and in a second of the processor at most."""
    draws = np.random.default_rng(8)
    times = np.unique(draws.integers(0, span, photons))
    firsts, seconds = draws.integers(0, 3, (2, len(times)))
    begun = time.process_time()
    counts = antibunching.pair_counts(times, firsts, seconds, reach)
    assert time.process_time() - begun < 1 and counts.shape == (reach + 1,)
    known = np.zeros(reach + 1, np.int64)
    for at in range(len(times)):
        last = np.searchsorted(times, times[at] + reach, side="right")
        known[times[at:last] - times[at]] += firsts[at] * seconds[at:last]
    assert np.array_equal(counts, known)


def test_what_is_dense_is_told_by_pairs_of_times() -> None:
    """50 times, each with six others in reach, in less than eight times as many units of time; none without one of the groups."""
    times, ones = np.arange(0, 1000, 20), np.ones(50, np.int64)
    assert antibunching._is_dense(times, ones, ones, 980, 100)
    assert not antibunching._is_dense(times, 0 * ones, ones, 980, 100) and not antibunching._is_dense(times, ones, ones, 8000, 100)


@settings(max_examples=60, deadline=None)
@given(st.integers(2, 3000), st.integers(1, 2000), st.integers(0, 2**32), st.sampled_from([1, 1000, 10**8]))
def test_fourier_transforms_lose_no_pair(span: int, reach: int, seed: int, most: int) -> None:
    draws = np.random.default_rng(seed)
    times = np.unique(draws.integers(0, span, 1 + span // 2))
    firsts, seconds = draws.integers(0, most + 1, (2, len(times)))
    plain = antibunching._pairs_of_sparse(times, firsts, seconds, reach)
    with pytest.MonkeyPatch.context() as patch:
        patch.setattr(antibunching, "BLOCK", 64)
        assert np.array_equal(antibunching._pairs_of_dense(times - times[0], firsts, seconds, reach), plain)


@pytest.mark.parametrize("period", [12_500, 12_500.0, 12_500.5, 3.125])
def test_hours_in_ticks_of_a_picosecond(period: float) -> None:
    """Three hours of 80 MHz by 1 ps pass 2^53 ticks: times are exact to the tick, beside Python's own fractions."""
    events = np.zeros(4, ptulab.EVENT)
    events["time"], events["dtime"] = [0, 1, 864_000_000_001, 864_000_000_002], [5, 7, 11, 4000]
    ours = antibunching.in_ticks(events_of(events), period)
    known = [round(Fraction(period) * int(one["time"])) + int(one["dtime"]) for one in events]
    assert ours.tolist() == known
    shown = coincidences(events, 0, 0, 20_000, period=period)
    assert shown.counts[20_000 + known[1] - known[0]] == 1 and shown.length == known[3] - known[0] + 1


def test_periods_that_tell_no_times_apart() -> None:
    events = np.zeros(2, ptulab.EVENT)
    events["time"] = [0, 10**13]
    for bad in (0, -3, float("nan"), float("inf"), 1000 + 1 / 3, 500_000):
        with pytest.raises(ValueError, match="told apart"):
            antibunching.in_ticks(events_of(events), bad)
    assert antibunching.in_ticks(events_of(events), 100 + 1 / 3)[1] == pytest.approx(10**15 + 10**13 / 3, abs=1)
