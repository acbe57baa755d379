from collections.abc import Callable
from pathlib import Path
from typing import Any

import numpy as np
import pytest
import random_events
from hypothesis import given, settings
from hypothesis import strategies as st

import ptulab
from ptulab.bursts import Background, and_gate, background, find_bursts, fret, fused, photons_in
from ptulab.events import EVENT, events_of
from ptulab.groups import Alternated, Group, photons_of
from ptulab.headers import Header


def searched(times: Any, minimum: int, m: int, longest: float) -> Any:
    """The search photon by photon, as FRETBursts tells it."""
    bursts, start = [], None
    for i in range(len(times) - m + 1):
        if times[i + m - 1] - times[i] <= longest:
            start = i if start is None else start
        elif start is not None:
            bursts.append((start, i + m - 2))
            start = None
    if start is not None:
        bursts.append((start, len(times) - 1))
    return [(a, b, times[a], times[b]) for a, b in bursts if b - a + 1 >= minimum]


@settings(max_examples=80, deadline=None)
@given(random_events.times, st.integers(1, 30), st.integers(2, 8), st.floats(0.05, 3), st.sampled_from([-1, 0]))
def test_bursts_are_those_of_the_plain_search(times: Any, minimum: int, m: int, rate: float, c: float) -> None:
    ours = find_bursts(times, rate, minimum=minimum, m=m, c=c)
    assert ours.tolist() == searched(times.tolist(), minimum, m, (m - 1 - c) / rate)


def test_ten_photons_and_bursts_of_twenty_are_looked_for() -> None:
    """Ten photons of the first burst span 9, of the second 18; the third has nineteen photons in all."""
    times = np.concatenate([np.arange(20), 100 + 2 * np.arange(20), 300 + np.arange(19)])
    assert find_bursts(times, 10 / 9).tolist() == [(0, 19, 0, 19)]
    assert find_bursts(times, 10 / 18).tolist() == [(0, 19, 0, 19), (20, 39, 100, 138)]
    assert len(find_bursts(times, 10 / 8.9)) == 0 and len(find_bursts(times, 10 / 17.9)) == 1


@settings(max_examples=40, deadline=None)
@given(random_events.times, st.integers(0, 30), st.floats(0.2, 2))
def test_fused_bursts_are_apart(times: Any, gap: int, rate: float) -> None:
    bursts = find_bursts(times, rate, minimum=3, m=3)
    expected: list[tuple[int, int, int, int]] = []
    for one in bursts.tolist():
        if expected and one[2] - expected[-1][3] <= gap:
            expected[-1] = (expected[-1][0], one[1], expected[-1][2], one[3])
        else:
            expected.append(one)
    assert fused(bursts, gap).tolist() == expected


def test_bursts_that_touch_are_one_and_those_a_tick_apart_are_two() -> None:
    times = np.array([0, 1, 2, 3, 4, 5])
    for second in (2, 3):
        found = np.concatenate([find_bursts(some, 1.0, minimum=2, m=2) for some in (times[:3], times[second:])])
        assert fused(found)[["start", "stop"]].tolist() == ([(0, 5)] if second == 2 else [(0, 2), (3, 5)])


def molecules(seed: int = 3) -> Any:
    """Two kinds of molecules on a background, of T3: E of 0.2 and 0.7, S of a half; the ticks 0 to 99 excite the donor."""
    draws = np.random.default_rng(seed)
    events = [(int(time), int(number), int(dtime)) for time, number, dtime in zip(
        draws.integers(0, 40_000_000, 8000), draws.integers(0, 2, 8000), draws.integers(0, 200, 8000))]
    for at in range(400):
        efficiency = 0.2 if at % 2 else 0.7
        times = 100_000 * at + 5000 + draws.integers(0, 1000, 120)
        for time, draw, seen in zip(times, draws.random(120), draws.random(120)):
            events.append((int(time), int(seen < efficiency) if draw < 0.5 else 1, 20 if draw < 0.5 else 120))
    return sorted(events)


def test_two_kinds_of_molecules_are_told_apart(make_file: Callable[..., Path]) -> None:
    photons = photons_of(make_file("HydraHarp2T3", molecules(), tick=1e-6))
    bursts = fused(find_bursts(photons["time"], 20_000, minimum=50, unit_seconds=1e-6))
    assert len(bursts) == 400 and (np.diff(bursts["start"]) > 90_000).all()
    during = ((0, 100),)
    counts = [photons_in(bursts, photons, one) for one in (Group((0,), during), Group((1,), during), Group((1,), ((100, 200),)))]
    assert (np.sum(counts, axis=0) >= 100).all() and photons_in(bursts, photons, None).sum() >= 400 * 100
    result = fret(*counts)
    assert np.median(result.E[0::2]) == pytest.approx(0.7, abs=0.02) and np.median(result.E[1::2]) == pytest.approx(0.2, abs=0.02)
    assert np.median(np.asarray(result.S)) == pytest.approx(0.5, abs=0.02)
    one, edges = result.histogram()
    assert one.sum() == 400 and len(edges) == 49
    both, edges = result.histogram_2d(24)
    assert both.sum() == 400 and (both.sum(axis=0) == result.histogram(24)[0]).all()


def test_corrections_of_e_and_s() -> None:
    counts = [np.array([100, 0, 40]), np.array([50, 0, 80]), np.array([60, 0, 20])]
    plain = fret(*counts)
    assert plain.E[0] == pytest.approx(1 / 3) and np.asarray(plain.S)[0] == pytest.approx(150 / 210) and np.isnan(plain.E[1])
    corrected = fret(*counts, gamma=0.5, leakage=0.1, direct_excitation=0.05)
    passed = 50 - 10 - 3
    assert corrected.E[0] == pytest.approx(passed / (passed + 50)) and np.asarray(corrected.S)[0] == pytest.approx((passed + 50) / (passed + 110))
    assert fret(*counts[:2]).S is None
    with pytest.raises(ptulab.NotKnownError):
        fret(*counts[:2]).histogram_2d()
    with pytest.raises(ValueError):
        fret(*counts, gamma=0)


def test_searches_that_cannot_be() -> None:
    times = np.array([1, 2, 3])
    for bad in ((0.0, 10), (1.0, 1)):
        with pytest.raises(ValueError):
            find_bursts(times, bad[0], m=bad[1])
    with pytest.raises(ValueError, match="rise"):
        find_bursts(times[::-1], 1.0)
    assert len(fused(find_bursts(times, 1.0))) == 0


def arrivals(draws: Any, rate: Any, seconds: float, tick: float) -> Any:
    """The times of even light in ticks, of a rate by the part of the time that is over."""
    most = float(np.max(rate(np.linspace(0, 1, 1000))))
    at = draws.random(draws.poisson(most * seconds))
    return np.sort((at[draws.random(len(at)) * most < rate(at)] * seconds / tick).astype(np.int64))


@pytest.mark.parametrize("tick", [1e-7, 3e-4])
def test_a_background_and_its_error(tick: float) -> None:
    """Of 300 windows: right in the mean, with errors as their scatter, also where few ticks go between photons."""
    times = arrivals(np.random.default_rng(1), lambda at: 1000 + 0 * at, 300.0, tick)
    found = background(times, seconds=1.0, unit_seconds=tick)
    parts = (found.rates - 1000) / found.errors
    assert found.rates.shape == (300,) and found.edges.shape == (301,) and abs(parts.mean()) < 0.2
    assert parts.std() == pytest.approx(1, abs=0.1) and np.median(found.errors) == pytest.approx(1000 / np.sqrt(135), rel=0.15)
    assert found.tails == pytest.approx(2 / found.rates, rel=0.25)


def test_a_background_grows_below_bursts() -> None:
    """The bursts have more photons than the background; the threshold follows it, so no more bursts are found at the end."""
    draws, tick = np.random.default_rng(2), 1e-7
    noise = arrivals(draws, lambda at: 500 + 2500 * at, 60.0, tick)
    starts = np.sort(draws.choice(600, 400, replace=False)) * 1_000_000
    many = 200 + draws.poisson(100, 400)
    bright = np.repeat(starts, many) + draws.integers(0, 40_000, many.sum())
    times = np.sort(np.concatenate((noise, bright)))
    found = background(times, seconds=4.0, unit_seconds=tick)
    middles = 500 + 2500 * (np.arange(15) + 0.5) / 15
    assert (np.abs(found.rates - middles) < 3 * found.errors + 0.03 * middles).all() and len(times) / 60 > 1.8 * middles.mean()
    bursts = fused(find_bursts(times, found, unit_seconds=tick, minimum=50), 10_000)
    assert (bursts["stop"] // 1_000_000).tolist() == (starts // 1_000_000).tolist()
    within = np.searchsorted(noise, bursts["stop"]) - np.searchsorted(noise, bursts["start"])
    assert found.of(bursts).sum() == pytest.approx(within.sum(), rel=0.1) and np.corrcoef(found.of(bursts), within)[0, 1] > 0.7
    assert found.at(np.array([-5, 0, times[-1], times[-1] * 2])).tolist() == found.rates[[0, 0, 14, 14]].tolist()


def test_the_tail_of_a_background_by_hand() -> None:
    """Waits of 1 to 12 ticks and tails from 3 ticks on: ten are 0 to 9 ticks longer."""
    times = np.cumsum(np.arange(13))
    found = background(times, tail=3.0, seconds=100)
    rate = np.log(1 + 9 / 45)
    assert (found.rates[0], found.errors[0], found.tails[0]) == (pytest.approx(rate), pytest.approx(rate / np.sqrt(8)), 3)
    assert found.edges.tolist() == [0, 78] and found.unit_seconds == 1
    fine = background(times, tail=0.6, unit_seconds=0.2)
    assert fine.rates[0] == pytest.approx(5 * rate) and fine.errors[0] == pytest.approx(5 * found.errors[0]) and fine.tails[0] == pytest.approx(0.6)
    two = background(np.cumsum(np.tile([1, 4], 40)), seconds=90, tail=1)  # of 199 ticks
    assert two.edges.tolist() == [1, 100.5, 200] and two.rates == pytest.approx([np.log(1 + 38 / 57), np.log(1 + 39 / 63)], rel=0.1)
    for tail, why in ((4.0, "9 waits of its 12 from 4"), (100.0, "0 waits")):
        with pytest.raises(ptulab.NotKnownError, match=why):
            background(times, seconds=100, tail=tail)
    for many, why in ((1, "1 photons"), (2, "waits of its 1 from")):
        with pytest.raises(ptulab.NotKnownError, match=why):
            background(times[:many])
    with pytest.raises(ptulab.NotKnownError, match="39 waits of its 39"):
        background(np.arange(40), tail=1.0, seconds=100)  # all waits are of a tick
    assert background(np.cumsum([0, *[1] * 9, 2]), tail=1.0).rates == pytest.approx([np.log(1 + 9)])  # one of them is a tick longer
    wrong: list[dict[str, Any]] = [{"seconds": 0.0}, {"F": 0.0}, {"tail": 0.0}]
    for words in wrong:
        with pytest.raises(ValueError, match="windows of"):
            background(times, **words)


@settings(max_examples=40, deadline=None)
@given(random_events.times, st.integers(2, 8), st.integers(1, 4), st.integers(0, 2**32 - 1))
def test_bursts_of_a_group_over_a_background(times: Any, m: int, windows: int, seed: int) -> None:
    """Each photon has the threshold of its window, and bursts are numbered among all photons."""
    draws = np.random.default_rng(seed)
    rows = np.zeros(len(times), EVENT)
    rows["time"], rows["number"] = times, draws.integers(0, 2, len(times))
    photons = events_of(rows, Header("HydraHarp2T2", {}, None, 0.5, None, 0, 0))
    edges = np.linspace(0, times[-1] if len(times) else 1, windows + 1)
    level = Background(edges, draws.uniform(0.1, 2, windows), np.ones(windows), np.ones(windows), 0.5)
    mine = np.flatnonzero(rows["number"] == 1)
    thresholds = [2 * level.rates[min(int(np.searchsorted(edges[1:-1], times[at], "right")), windows - 1)] * 0.5 for at in mine]
    bursts, start = [], None
    for i in range(len(mine) - m + 1):
        if times[mine[i + m - 1]] - times[mine[i]] <= m / thresholds[i]:
            start = i if start is None else start
        elif start is not None:
            bursts.append((start, i + m - 2))
            start = None
    bursts += [] if start is None else [(start, len(mine) - 1)]
    expected = [(mine[a], mine[b], times[mine[a]], times[mine[b]]) for a, b in bursts if b - a + 1 >= 5]
    assert find_bursts(photons, level, group=1, minimum=5, m=m, F=2).tolist() == expected


@settings(max_examples=40, deadline=None)
@given(random_events.times, st.integers(1, 6), st.integers(0, 2**32 - 1))
def test_both_searches_have_a_burst(times: Any, minimum: int, seed: int) -> None:
    times = np.unique(times)
    draws = np.random.default_rng(seed)
    masks, searches = [], []
    for _ in range(2):
        which = np.flatnonzero(draws.random(len(times)) < 0.7)
        rows = np.zeros(len(times), EVENT)
        rows["time"], rows["number"][which] = times, 1
        photons = events_of(rows, Header("HydraHarp2T2", {}, None, 1.0, None, 0, 0))
        searches.append(find_bursts(photons, 0.7, group=1, minimum=3, m=3))
        inside = np.zeros(len(times) + 1, bool)
        for burst in searches[-1]:
            inside[burst["first"] : burst["last"] + 1] = True
        masks.append(inside)
    both = masks[0] & masks[1]
    found = and_gate(searches[0], searches[1], times, minimum=minimum)
    inside = np.zeros(len(times) + 1, bool)
    for burst in found:
        assert burst["last"] - burst["first"] + 1 >= minimum and times[burst["first"]] == burst["start"] and times[burst["last"]] == burst["stop"]
        inside[burst["first"] : burst["last"] + 1] = True
    assert not (inside & ~both).any() and (minimum > 1 or (inside == both).all())


def test_the_header_tells_the_tick(make_file: Callable[..., Path]) -> None:
    path = make_file("HydraHarp2T2", [(10 * n, n % 2) for n in range(400)], tick=1e-3)
    photons = photons_of(path)
    assert find_bursts(photons, 100).tolist() == find_bursts(photons.times, 100, unit_seconds=1e-3).tolist() != []
    assert len(find_bursts(photons, 111)) == 1 and len(find_bursts(photons, 112)) == 0 and len(find_bursts(photons, 112, c=-1.2)) == 1
    assert find_bursts(photons.array, 100, unit_seconds=1e-3).tolist() == find_bursts(photons, 100).tolist()
    with pytest.raises(ptulab.NotKnownError, match="unit_seconds"):
        find_bursts(photons.array, 100)
    with pytest.raises(ValueError, match="groups"):
        find_bursts(photons.times, 100, group=1)


def test_lasers_that_are_switched_make_groups() -> None:
    rows = np.zeros(1000, EVENT)
    rows["time"], rows["number"] = np.arange(1000) * 7, np.arange(1000) % 3
    at = (rows["time"] - 13) % 100
    found = Alternated([0, 2], [(5, 40), (90, 100)], period=100, offset=13).mask(rows)
    assert np.array_equal(found, (rows["number"] != 1) & ((at >= 5) & (at < 40) | (at >= 90)))
    assert Alternated(period=100).mask(rows).all()
    for gates in ([(0, 101)], [(5, 5)]):
        with pytest.raises(ValueError):
            Alternated([0], gates, period=100)
