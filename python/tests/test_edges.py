"""What holds of any events: of ticks of 1 ps to 1 us, times up to 2^62, no photon or one, markers alone, all of them late.

Each is compared with a count in Python's own whole numbers.
"""

import logging
from collections import Counter
from fractions import Fraction
from typing import Any

import numpy as np
import pytest
from hypothesis import given, settings
from hypothesis import strategies as st

import ptulab
from ptulab import fits, phasors
from ptulab.bursts import find_bursts, fused, photons_in
from ptulab.groups import photons_of
from ptulab.antibunching import coincidences, in_ticks, start_stops
from ptulab.scans import Scan, cube, image
from ptulab.segments import correlation_by_segments, split, window

KINDS = ("all", "photons", "markers", "late", "none", "one")
TICKS = st.sampled_from([1e-12, 4e-12, 6.4e-11, 1e-9, 1e-6])


def some(many: int, seed: int, power: int, kind: str) -> Any:
    """So many events in order, from anywhere on, over 2^power ticks, most of them near others."""
    draws = np.random.default_rng(seed)
    events = np.zeros({"none": 0, "one": 1}.get(kind, many), ptulab.EVENT)
    n = len(events)
    span = 2**power
    at = draws.integers(0, span, n) if draws.random() < 0.5 else (draws.integers(0, span, max(n // 4, 1))[draws.integers(0, max(n // 4, 1), n)] + draws.integers(0, 9, n))
    events["time"] = np.sort(np.minimum(at, 2**62 - 1 - span) + draws.integers(0, 2) * (2**62 - 1 - span) if power < 61 else at)
    events["record"], events["dtime"], events["number"] = np.arange(1, n + 1), draws.integers(0, 60, n), draws.integers(0, 3, n)
    events["marker"] = True if kind == "markers" else draws.random(n) < 0.3 if kind == "all" else False
    events["number"][events["marker"]] = draws.integers(1, 16, int(events["marker"].sum()))
    events["late"] = True if kind == "late" else draws.random(n) < 0.1 if kind == "all" else False
    return events


events_of_any_kind = st.builds(some, st.integers(2, 60), st.integers(0, 2**32), st.integers(1, 61), st.sampled_from(KINDS))


def photons(events: Any, *inputs: int) -> list[int]:
    return [int(one["time"]) for one in events if not one["marker"] and not one["late"] and int(one["number"]) in inputs]


@settings(max_examples=150, deadline=None)
@given(events_of_any_kind, st.integers(1, 40), st.integers(1, 30))
def test_coincidences_are_those_of_each_two_photons(events: Any, reach: int, width: int) -> None:
    first, second = photons(events, 0), photons(events, 1, 2)
    pairs = Counter((t - s + reach) // width for s in first for t in second if abs(t - s) <= reach)
    ours = coincidences(events, 0, (1, 2), reach, width=width)
    assert ours.counts.tolist() == [pairs[cell] for cell in range(2 * reach // width + 1)]
    assert coincidences(events, (1, 2), 0, reach).counts.tolist() == coincidences(events, 0, (1, 2), reach).counts[::-1].tolist()
    told = [int(one["time"]) for one in events if not one["late"]]
    assert ours.length == (max(told) - min(told) + 1 if told else 0) and np.isfinite(ours.expected()).all()
    assert (ours.first_photons, ours.second_photons) == (len(first), len(second))
    try:
        ratio, error = ours.central_ratio()
        assert ratio >= 0 and error > 0 and width == 1
    except ptulab.NotKnownError:
        pass


@settings(max_examples=100, deadline=None)
@given(events_of_any_kind, st.sampled_from([25, 40.0, 62.5, 1562.5, 33.3, 12_500]), st.integers(1, 90))
def test_times_with_a_period_are_those_of_fractions(events: Any, period: float, width: int) -> None:
    """Also of a period that is no whole number; where ticks can't be told apart it is refused, and only there."""
    exact = Fraction(period)
    most = int(events["time"].max(initial=0)) * exact
    refused = most * exact.denominator >= 2**62 if exact.denominator <= 1024 else most >= 2**53
    if refused:
        with pytest.raises(ValueError, match="told apart"):
            start_stops(events, 0, (1, 2), width, 5, period=period)
        return
    times = [round(int(one["time"]) * exact) + int(one["dtime"]) for one in events]
    assert np.abs(in_ticks(events, period) - np.array(times, dtype=np.int64)).max(initial=0) <= (0 if exact.denominator <= 1024 else 1)
    ours = start_stops(events, 0, (1, 2), width, 5, period=period)
    ordered = sorted((t, int(one["number"])) for t, one in zip(in_ticks(events, period).tolist(), events) if not one["marker"] and not one["late"])
    steps = [t - s for (s, m), (t, n) in zip(ordered, ordered[1:]) if m == 0 and n > 0]
    if len({t for t, _ in ordered}) == len(ordered):
        assert ours.counts.tolist() == [sum(step // width == cell for step in steps) for cell in range(5)]
        assert ours.over == sum(step // width >= 5 for step in steps)


@settings(max_examples=100, deadline=None)
@given(events_of_any_kind, st.integers(1, 6), st.sampled_from([2, 6, 16]))
def test_segments_are_correlated_as_pairs_of_bins(events: Any, segments: int, lags: int) -> None:
    told = [int(one["time"]) for one in events if not one["late"]]
    length = (max(told) + 1 - min(told)) // segments if told else 0
    if not length:
        with pytest.raises(ValueError):
            correlation_by_segments(events, 0, (1, 2), segments=segments, lags=lags)
        return
    curve = correlation_by_segments(events, 0, (1, 2), segments=segments, lags=lags)
    assert curve.levels.max() < 40 and (curve.ticks[-1] <= length / 8 or curve.levels.max() == 0)
    for part, values in zip(range(segments), curve.segments, strict=True):
        begin = min(told) + part * length
        first, second = ([t - begin for t in photons(events, *inputs) if 0 <= t - begin < length] for inputs in ((0,), (1, 2)))
        for cell in {0, len(values) // 2, len(values) - 1}:
            level, ticks = int(curve.levels[cell]), int(curve.ticks[cell])
            pairs = sum((t >> level) - (s >> level) == ticks >> level for s in first for t in second)
            expected = Fraction(len(first) * len(second) * 2**level * max(length - ticks, 0), length**2)
            assert values[cell] == pytest.approx(float(pairs / expected) if expected else np.nan, rel=1e-9, nan_ok=True)


@settings(max_examples=100, deadline=None)
@given(events_of_any_kind, st.integers(1, 5), st.sampled_from([None, 3, 40.5, 2.0**50]), st.sampled_from([None, 3]))
def test_every_photon_is_in_a_picture_or_outside(events: Any, width: int, time: float | None, frame: int | None) -> None:
    scan = Scan(width, 2, 1, stop=2, frame=frame, time=time, frames=frame is None)
    seen = len(photons(events, 0, 1, 2))
    said: list[logging.LogRecord] = []
    noted = logging.Handler()
    setattr(noted, "emit", said.append)
    logging.getLogger("ptulab.scans").addHandler(noted)
    try:
        flat, deep = image(events, scan), cube(events, scan, 7, 5)
    except (ValueError, MemoryError) as error:
        assert "too long" in str(error)
        return
    finally:
        logging.getLogger("ptulab.scans").removeHandler(noted)
    assert flat.counts.sum() + flat.outside == deep.counts.sum() + deep.outside + deep.over == seen
    assert bool(said) == bool(seen and flat.outside == seen)


@settings(max_examples=100, deadline=None)
@given(events_of_any_kind, TICKS, st.floats(0.01, 3), st.integers(2, 6))
def test_bursts_are_those_of_any_tick(events: Any, tick: float, rate: float, m: int) -> None:
    found = photons_of(events)
    bursts = find_bursts(found["time"], rate / tick, minimum=m, m=m, unit_seconds=tick)
    times = [int(t) for t in found["time"]]
    longest = Fraction(m) / Fraction(rate)
    inside = {i for i in range(len(times) - m + 1) if times[i + m - 1] - times[i] <= longest}
    near = any(abs(times[i + m - 1] - times[i] - longest) < longest / 10**9 for i in range(len(times) - m + 1))
    if not near:
        firsts = sorted(i for i in inside if i - 1 not in inside)
        assert bursts["first"].tolist() == firsts
        assert bursts["last"].tolist() == [i + m - 1 for i in sorted(inside) if i + 1 not in inside]
    assert (bursts["start"] == found["time"][bursts["first"]]).all() and (bursts["stop"] == found["time"][bursts["last"]]).all()
    joined = fused(bursts)
    assert photons_in(joined, found, None).sum() == len({i for one in bursts for i in range(int(one["first"]), int(one["last"]) + 1)})


@settings(max_examples=60, deadline=None)
@given(events_of_any_kind, st.integers(1, 4))
def test_windows_and_segments_lose_nothing(events: Any, segments: int) -> None:
    middle = int(events["time"][len(events) // 2]) if len(events) else 5
    assert len(window(events, 0, middle)) + len(window(events, middle, 2**63 - 1)) == len(events)
    told = [int(one["time"]) for one in events if not one["late"]]
    if told and max(told) + 1 - min(told) >= segments:
        length = (max(told) + 1 - min(told)) // segments
        parts = [len(part) for part in split(events, segments)]
        assert parts == [sum(k * length <= t - min(told) < (k + 1) * length for t in told) for k in range(segments)]


@settings(max_examples=12, deadline=None)
@given(TICKS, st.sampled_from([125.0, 124.5, 124.2]), st.integers(0, 2**32))
def test_fits_and_phasors_are_those_of_any_tick(tick: float, period: float, seed: int) -> None:
    """In seconds as in bins, whatever these are."""
    draws, bins = np.random.default_rng(seed), 125
    delays = (draws.normal(12, 1.5, 20_000) + draws.exponential(15, 20_000)) % period
    counts, pulse = np.bincount(delays.astype(int), minlength=bins), np.bincount(draws.normal(12, 1.5, 50_000).astype(int), minlength=bins)
    axis, lifetimes = np.arange(bins) * 1.0, []
    for unit in (1.0, tick):
        whole = fits.fit_reconvolution(counts, pulse, unit, period=period * unit)
        tail = fits.fit_tail(counts, axis * unit, (18 * unit, 124 * unit))
        turned = phasors.phasor(counts, axis * unit, 1 / (period * unit), offset=12 * unit)
        shifted = [fit.values[name] for fit, name in ((whole, "lifetime_1"), (whole, "shift"), (tail, "lifetime_1"))]
        errors = [fit.errors["lifetime_1"] for fit in (whole, tail)]
        by_phase = float(phasors.lifetimes_of_phasor(turned, 1 / (period * unit), unit)[0])
        lifetimes.append(np.array([*shifted, *errors, by_phase, float(phasors.mean_delays(counts, axis * unit))]) / unit)
    assert lifetimes[1] == pytest.approx(lifetimes[0], rel=2e-3, abs=0.01)  # far less than the errors
    assert abs(lifetimes[0][0] - 15) < 6 * lifetimes[0][3] and abs(lifetimes[0][2] - 15) < 6 * lifetimes[0][4]
