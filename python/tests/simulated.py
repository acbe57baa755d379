"""Small measurements of which the truth is known: a scan of two lifetimes, diffusing molecules, emitters, and bursts of FRET with one laser or two."""

from pathlib import Path
from typing import Any

import made
import numpy as np
from made import Bits
from numpy.typing import NDArray

SHORT, LONG = 1.2e-9, 3.6e-9  # lifetimes of the left and the right half of the scan
DYE = 2.5e-9
EFFICIENCY = 0.7
NUMBER, DIFFUSION = 0.982, 1.25e-3  # molecules in the focus, and seconds that one stays there
STOICHIOMETRY = 80 / (80 + 60)  # of molecules with both dyes, by the photons of either laser
SIGNAL, DARK = 0.1, 0.01  # photons of the pulsed emitter, and of the dark, in a detector at each pulse
PULSED = 1 - SIGNAL**2 / (SIGNAL + DARK) ** 2  # its g2(0), of which only the dark is the reason


def scan(path: Path, seed: int = 1) -> Path:
    """16 rows of 16 pixels, of 100 photons each; a pixel lasts 20 periods of 50 ns, a tick 50 ps."""
    draws = np.random.default_rng(seed)
    events: list[tuple[int, ...]] = [(0, Bits(4))]
    for row in range(16):
        start = 100 + row * 500
        times = np.sort(draws.integers(0, 320, 1600))
        lifetimes = np.where(times < 160, SHORT, LONG)
        ticks = np.minimum(60 + (draws.exponential(lifetimes) / 50e-12).astype(int), 999)
        events += [(start, Bits(1)), *((start + int(time), 0, int(tick)) for time, tick in zip(times, ticks)), (start + 320, Bits(2))]
    tags = {"PixX": 16, "PixY": 16, "LineStart": 1, "LineStop": 2, "Frame": 3}
    told = {f"ImgHdr_{name}": value for name, value in tags.items()} | {"ImgHdr_TimePerPixel": 20 * 50e-9 * 1e3, "ImgHdr_PixResol": 0.5}
    return made.write(path, "HydraHarp2T3", events, tick=50e-9, resolution=50e-12, **told)


def dye(path: Path, seed: int = 5) -> Path:
    """40,000 photons of one dye, whose lifetime is 2.5 ns, by the same laser and electronics as the scan."""
    draws = np.random.default_rng(seed)
    ticks = np.minimum(60 + (draws.exponential(DYE, 40_000) / 50e-12).astype(int), 999)
    return made.write(path, "HydraHarp2T3", [(at, 0, int(tick)) for at, tick in enumerate(ticks)], tick=50e-9, resolution=50e-12)


def pulse(path: Path, seed: int = 7) -> Path:
    """The laser's pulse by the same electronics: 40,000 photons, with a standard deviation of 0.2 ns."""
    ticks = np.rint(np.random.default_rng(seed).normal(60, 4, 40_000))
    return made.write(path, "HydraHarp2T3", [(at, 0, int(tick)) for at, tick in enumerate(ticks)], tick=50e-9, resolution=50e-12)


def _t2(path: Path, seconds: NDArray[np.float64], inputs: NDArray[np.int64], tick: float) -> Path:
    """What ``made.write`` does of inputs from 1 on, for many photons."""
    order = np.argsort(seconds, kind="stable")
    times, size, kind = (seconds[order] / tick).astype(np.int64), made.unit("HydraHarp2T2"), "HydraHarp2T2"
    wraps = np.repeat(np.arange(len(times)), np.diff(times // size, prepend=0))
    words = np.insert((inputs[order] - 1) << 25 | times % size, wraps, made.wrap_word(kind))
    path.write_bytes(made.header(kind, announced=len(words), tick=tick) + words.astype("<u4").tobytes())
    return path


def diffusion(path: Path, seed: int = 2, step: float = 25e-6) -> Path:
    """20 molecules that diffuse in two dimensions through a Gaussian focus, in 160,000 steps of so many seconds (4 s); each shines
    on two detectors.

    They are in a square of 8 radii, at whose sides they come in again on the other one. So up to some ten diffusion times G is 1 -
    1 / 20 + 1 / NUMBER / (1 + t / DIFFUSION), but for what a step rounds off: 0.2 % of the amplitude, of one of a tenth of that time.
    """
    draws, side, molecules = np.random.default_rng(seed), 8.0, 20
    coefficient = 1 / (4 * DIFFUSION)  # of a focus whose radius is 1
    places, seconds = draws.uniform(0, side, (molecules, 2)), []
    for first in range(0, 160_000, 8000):
        moves = draws.normal(0, np.sqrt(2 * coefficient * step), (8000, molecules, 2))
        paths = (places + np.cumsum(moves, axis=0)) % side
        places = paths[-1]
        bright = 60e3 * step * np.exp(-2 * ((paths - side / 2) ** 2).sum(axis=2)).sum(axis=1)
        counts = draws.poisson(bright)
        seconds.append((np.repeat(np.arange(first, first + 8000), counts) + draws.random(counts.sum())) * step)
    all_seconds = np.concatenate(seconds)
    return _t2(path, all_seconds, draws.integers(1, 3, len(all_seconds)), 1e-8)


def emitter(path: Path, seed: int = 3, dark: int = 0) -> Path:
    """One emitter, excited after 20 ns and shining after 5 ns in the mean, before two detectors, which count so many in the dark:
    g2 is 1 - (40,000 / (40,000 + dark))^2 * exp(-|t| / 4 ns)."""
    draws, many = np.random.default_rng(seed), 40_000
    seconds = np.cumsum(draws.exponential(20e-9, many) + draws.exponential(5e-9, many))
    inputs = draws.integers(1, 3, many + dark)
    return _t2(path, np.append(seconds, draws.uniform(0, seconds[-1], dark)), inputs, 1e-10)


def bursts(path: Path, seed: int = 4) -> Path:
    """300 molecules of 80 photons in 2 ms each, of which 70 % come to the acceptor, input 2, over little background."""
    draws = np.random.default_rng(seed)
    begins = 0.01 + np.arange(300) * 0.02
    light = (begins[:, None] + draws.uniform(0, 2e-3, (300, 80))).ravel()
    inputs = np.where(draws.random(len(light)) < EFFICIENCY, 2, 1)
    dark = draws.uniform(0, 6.1, 1200)
    return _t2(path, np.concatenate([light, dark]), np.concatenate([inputs, draws.integers(1, 3, 1200)]), 1e-8)


def lasers(path: Path, seed: int = 5) -> Path:
    """200 molecules with both dyes and 100 with the donor alone, by pulses of two lasers in turn: the acceptor's comes after 500 ticks of 1000.

    In 2 ms a molecule has 80 photons by the donor's laser, of both dyes 70 % of them of the acceptor, input 2, and of both dyes 60 by
    the acceptor's own laser; over little background.
    """
    draws = np.random.default_rng(seed)
    begins = np.repeat(4000 * (5 + 10 * np.arange(300)), 140)  # in periods of 0.5 us
    is_own = np.tile(np.arange(140) >= 80, 300)
    both = np.repeat(draws.permutation(300) < 200, 140)
    acceptor = is_own | (both & (draws.random(300 * 140) < EFFICIENCY))
    kept = both | ~is_own
    times = (begins + draws.integers(0, 4000, len(begins)))[kept]
    delays = np.minimum(20 + draws.exponential(40, len(times)).astype(int), 480) + 500 * is_own[kept]
    photons = np.stack([times, 1 + acceptor[kept], delays], axis=1)
    dark = np.stack([draws.integers(0, 12_000_000, 1200), draws.integers(1, 3, 1200), draws.integers(0, 1000, 1200)], axis=1)
    events = np.concatenate([photons, dark])
    events = events[np.argsort(events[:, 0], kind="stable")]
    return made.write(path, "HydraHarp2T3", [(time, number, delay) for time, number, delay in events.tolist()], tick=500e-9, resolution=500e-12)


def pulsed(path: Path, seed: int = 6) -> Path:
    """One emitter at 200,000 pulses of 100 ns, with at most one photon of a pulse, before two detectors that also count in the dark."""
    draws, pulses = np.random.default_rng(seed), 200_000
    light = draws.random(pulses)
    clicks = [(light < SIGNAL), (light >= SIGNAL) & (light < 2 * SIGNAL), *(draws.random(pulses) < DARK for _ in range(2))]
    events = sorted((int(time), place % 2, int(draws.integers(20, 900))) for place, there in enumerate(clicks) for time in np.flatnonzero(there))
    return made.write(path, "HydraHarp2T3", events, tick=100e-9, resolution=100e-12)


def picture(path: Path) -> Path:
    """A scan without lifetimes, since its header tells no tick of the delay: 8 rows of 8 pixels of 10 periods, where row r and column c have r + c photons."""
    events: list[tuple[int, ...]] = [(0, Bits(4))]
    for row in range(8):
        start = 200 * row + 10
        photons = [(start + 10 * column + place % 10, 1 + place % 2) for column in range(8) for place in range(row + column)]
        events += [(start, Bits(1)), *sorted(photons), (start + 80, Bits(2))]
    return made.write(path, "HydraHarp2T3", events, tick=1e-6)


def told_over_scatter(found: Any, known: dict[str, float], variances: Any = None, away: Any = None) -> dict[str, float]:
    """The errors that fits tell of these parameters over the fits' scatter, which some forty fits so tell to 2 %.

    Beside each fit is the best estimate that is straight in the same data, whose scatter is known: what these estimates scatter more
    or less by chance is taken off the fits' scatter, and off the errors that segments tell (control variates). ``variances``: of the
    points, where their law doesn't tell; ``away``: how far each fit's points are from the truth, shape (fits, points), where its own data
    don't tell.
    """
    problem, whole = found[0].problem, {**found[0].values, **known}
    spread = np.sqrt(problem.law.variances(problem.curve(whole)) if variances is None else variances)
    slopes = [(problem.curve({**whole, name: 1.001 * one}) - problem.curve({**whole, name: 0.999 * one})) / (0.002 * one) for name, one in known.items()]
    straight = np.linalg.pinv((np.array(slopes) / spread).T) / spread
    exact = np.linalg.norm(straight * spread, axis=1)
    values, errors = (np.array([[getattr(fit, what)[name] for name in known] for fit in found]) for what in ("values", "errors"))
    left = np.array([fit.data - fit.problem.curve(whole) for fit in found]) if away is None else np.asarray(away)
    scatter = values.std(axis=0) * exact / np.std(left @ straight.T, axis=0)
    told = np.sqrt(np.nanmean(errors**2, axis=0))
    if problem.parts is not None:
        parts = np.array([fit.problem.parts for fit in found])
        told *= exact / np.sqrt(((parts - parts.mean(axis=1, keepdims=True)) @ straight.T).var(axis=(0, 1)) / (parts.shape[1] - 1))
    return dict(zip(known, (told / scatter).tolist()))
