"""Lifetimes of all pixels of a picture by the likelihood of their counts, neighbours, and regions.

Arrays of counts are those of a cube: (.., bins), in most functions (rows, columns, bins).
"""

import math
from collections.abc import Mapping, Sequence
from dataclasses import dataclass
from typing import Any, Literal

import numpy as np
from numpy.typing import NDArray

from .fits import Convolved
from ._values import Compared
from ._xarrays import Axis, labelled
from ._xarrays import pixels as axes_of

__all__ = ["Lifetimes", "binned", "fit_pixels", "inside", "to_xarray", "with_neighbours"]

Numbers = NDArray[np.float64]
TOGETHER = 1 << 16  # counts that are fitted together, so that their arrays stay in the processor's cache
KINDS = ("free", "shared", "fixed")  # lifetimes
LIFETIMES = 500  # between the shortest and the longest one, of which curves are kept
STEPS = 60  # of a fit, at most
LEAST = 1e-9  # of an amplitude, in photons of its pixel
NEAR = 1e-5  # of the likelihood's logarithm, which a last step may gain: it is 3 thousandths of the errors long
WORSE = 0.01  # of the likelihood's logarithm, by which a step may make it less
PARTS = (0.3, 2.0)  # of a step of Fisher's scoring, between which it is taken
MANY = 1 << 12  # photons of a pixel that want numbers of 64 bits
SOME = 16  # blocks of which one is taken first where lifetimes are shared


@dataclass(frozen=True, eq=False)
class Lifetimes(Compared):
    """What ``fit_pixels`` found; all of shape (.., terms), nan in pixels with too few photons.

    ``amplitudes``: photons; ``lifetimes``: in the unit of the bins' width; ``errors``: one standard deviation of each lifetime by
    Fisher's information, of a pixel that is at a bound and of lifetimes that are held nan.
    """

    amplitudes: Numbers
    lifetimes: Numbers
    errors: Numbers

    @property
    def mean(self) -> Numbers:
        """The mean of the lifetimes of each pixel, by their photons: (..)."""
        with np.errstate(invalid="ignore"):
            return np.asarray((self.amplitudes * self.lifetimes).sum(axis=-1) / self.amplitudes.sum(axis=-1))

    def to_xarray(self, pixel_micrometres: float | None = None) -> Any:
        """An ``xarray.Dataset`` of ``amplitudes``, ``lifetimes`` and ``errors`` over the axes of ``pixels.to_xarray`` and ``term``, from 1,
        and of the ``mean`` without it. Raises as that does."""
        terms = Axis("term", np.arange(1, self.lifetimes.shape[-1] + 1), None, counted="number")
        arrays, axes = {"amplitudes": self.amplitudes, "lifetimes": self.lifetimes, "errors": self.errors}, axes_of(self.mean.shape, pixel_micrometres)
        return labelled(arrays, [*axes, terms], {}, {}).merge(labelled({"mean": self.mean}, axes, {}, {}))


def to_xarray(pictures: Mapping[str, NDArray[Any]], pixel_micrometres: float | None = None) -> Any:
    """Pictures of one place by their names, as phasors and mean delays, as an ``xarray.Dataset`` over ``row`` and ``column``.

    Their shape is (rows, columns), or (frames, rows, columns), also with the axis ``frame``. ``pixel_micrometres``: how long and
    wide a pixel is, as ``Cube`` and ``Image`` tell it; the coordinates are the middles of pixels in micrometres then, else numbers.
    Raises ``MissingLibraryError`` without xarray, and ``ValueError`` for other and unlike shapes, and no picture.
    """
    arrays = {name: np.asarray(picture) for name, picture in pictures.items()}
    if len({array.shape for array in arrays.values()}) != 1:
        raise ValueError(f"pictures of shapes {', '.join(str(array.shape) for array in arrays.values()) or 'that none has'}")
    return labelled(arrays, axes_of(next(iter(arrays.values())).shape, pixel_micrometres), {}, {})


def fit_pixels(
    counts: NDArray[Any],
    pulse: NDArray[Any],
    width: float,
    lifetimes: Sequence[float],
    *,
    kind: Literal["free", "shared", "fixed"] = "free",
    period: float | None = None,
    shift: float = 0.0,
    background: NDArray[Any] | float = 0.0,
    threshold: int = 30,
) -> Lifetimes:
    """A fit of each pixel's decay by the pulse convolved with one or two exponentials, by Poisson's likelihood.

    ``counts``: shape (.., bins), of equal bins of ``width``; ``pulse``, ``period`` and ``shift`` as of ``fit_reconvolution``, whose fit of
    all pixels together tells the shift. ``lifetimes``: where they begin, one or two; of ``kind`` free, each pixel has its own;
    shared, all pixels have the same, which are fitted with all amplitudes; fixed, they are held. ``background``: counts
    that are expected of it, a number, or an array that goes with ``counts``. Pixels with fewer photons than ``threshold`` are
    left out. By steps of Fisher's scoring in all pixels at once (Maus and others, Analytical Chemistry 73, 2078, 2001, compare
    this likelihood with least squares of few photons). Raises ``ValueError`` for shapes that don't go together, counts or a
    background less than 0, lifetimes and a width that aren't positive, another ``kind``, and where the last bin begins behind the period.
    """
    counts, pulse = np.asarray(counts), np.asarray(pulse, dtype=np.float64)
    bins = counts.shape[-1] if counts.ndim else 0
    if not 1 <= len(lifetimes) <= 2 or not pulse.sum() > 0 or pulse.ndim != 1 or not bins or len(pulse) % bins:
        raise ValueError(f"{len(lifetimes)} lifetimes, and a pulse of {pulse.sum():g} counts in {pulse.size} bins for {bins}")
    if kind not in KINDS:
        raise ValueError(f"lifetimes are {', '.join(KINDS)}, not {kind!r}")
    _refuse(counts, background, width, lifetimes, period)
    pixels, terms = counts.reshape(-1, bins), len(lifetimes)
    level = np.broadcast_to(np.asarray(background, dtype=np.float64), counts.shape).reshape(-1, bins)
    photons = pixels.sum(axis=1)
    kept = np.flatnonzero(photons >= max(threshold, 1))
    curves = _Curves(Convolved(pulse, len(pulse) // bins, width, period), shift, bins, photons.max(initial=0) < MANY)
    begin, amplitudes = np.log(np.asarray(lifetimes, dtype=np.float64)), _begun(photons, level, terms)
    if kind == "free":
        logarithms = np.repeat(begin[:, None], len(pixels), axis=1)
        found = _fitted(pixels, level, curves, np.stack([amplitudes, logarithms]), kept)
    else:
        found, many = np.full((3, terms, len(pixels)), np.nan), -(-len(kept) * bins // TOGETHER)
        blocks = [kept[at::many] for at in range(many)]  # each from all over the picture
        if kind == "shared" and blocks:
            begin, error = _shared(pixels, level, blocks, curves, begin, amplitudes)
            found[2][:, kept] = error[:, None]
        for block in blocks:
            some, dark = (one[block].astype(curves.kind) for one in (pixels, level))
            found[0][:, block] = _held(some, dark, curves, curves.of(begin)[:terms], amplitudes[:, block])
        found[1][:, kept] = np.exp(begin)[:, None]
    return Lifetimes(*(one.T.reshape(*counts.shape[:-1], terms) for one in found))


def _refuse(counts: NDArray[Any], background: NDArray[Any] | float, width: float, lifetimes: Sequence[float], period: float | None) -> None:
    """Raises ``ValueError`` for numbers of which there is no fit of pixels."""
    bins = counts.shape[-1]
    if not all(0 < one < math.inf for one in (width, *lifetimes)):
        raise ValueError(f"lifetimes of {', '.join(map(str, lifetimes))} in bins of {width}, which must be more than 0")
    if counts.min(initial=0) < 0 or not np.min(background, initial=0) >= 0:
        raise ValueError("counts or a background less than 0: give the background, rather than counts without it")
    if period is not None and not (bins - 1) * width < period:
        raise ValueError(f"{bins} bins of {width} are longer than a period of {period}: leave out those behind it")


def _begun(photons: NDArray[Any], level: Numbers, terms: int) -> Numbers:
    """Where amplitudes begin, (terms, pixels): the photons that are no background, alike."""
    return np.repeat(np.maximum(photons - level.sum(axis=1), 0.1 * photons)[None] / terms, terms, axis=0)


class _Curves:
    """What part of a decay's photons each bin has, and its derivative by the logarithm of the lifetime, from a table."""

    def __init__(self, shape: Convolved, shift: float, bins: int, short: bool) -> None:
        self.kind, self.ridge = (np.float32, 1e-5) if short else (np.float64, 1e-10)
        width = shape.width * shape.finer
        self.logarithms = np.linspace(np.log(width / 20), np.log(20 * bins * width), LIFETIMES)
        self.step = float(self.logarithms[1] - self.logarithms[0])
        each = np.stack([shape.decay(float(np.exp(one)), shift) for one in self.logarithms])
        slopes = np.gradient(each, self.step, axis=0)
        self.table = np.stack([each, slopes, np.gradient(slopes, self.step, axis=0)]).astype(self.kind)

    def of(self, logarithms: Numbers) -> Numbers:
        """Of lifetimes of shape (terms, ..): (2 * terms, .., bins), first all parts and then all derivatives."""
        at = (logarithms - self.logarithms[0]) / self.step
        near = np.rint(at)
        rows = self.table.take(near.astype(np.int64), axis=1)
        beyond = ((at - near) * self.step).astype(self.kind)[..., None]
        rows[2] *= beyond
        rows[0] += beyond * (rows[1] + rows[2] / 2)
        rows[1] += rows[2]
        return np.asarray(rows[:2].reshape(2 * len(logarithms), *rows.shape[2:]))


def _sums(counts: Numbers, level: Numbers, rows: Numbers, amplitudes: Numbers) -> tuple[Numbers, Numbers, Numbers]:
    """The logarithm of the likelihood, (pixels,), its gradient by amplitudes and by logarithms of lifetimes, (rows, pixels), and
    Fisher's information, (rows, rows, pixels)."""
    terms = len(amplitudes)
    curve = np.maximum(np.einsum("tp,tpb->pb", amplitudes.astype(rows.dtype), rows[:terms]) + level, 1e-12)
    likely = np.einsum("pb,pb->p", counts, np.log(curve)) - curve.sum(axis=1)
    over = 1 / curve
    slope = np.einsum("rpb,pb->rp", rows, counts * over - 1).astype(np.float64)
    inform = np.empty((len(rows), *slope.shape))
    for at, row in enumerate(rows * over):
        inform[at, : at + 1] = inform[: at + 1, at] = np.einsum("pb,rpb->rp", row, rows[: at + 1])
    return likely, *_by_logarithms(slope, inform, amplitudes)


def _by_logarithms(slope: Numbers, inform: Numbers, amplitudes: Numbers) -> tuple[Numbers, Numbers]:
    """The gradient and the information by logarithms of lifetimes, of those by what amplitudes of 1 would have."""
    terms = len(amplitudes)
    slope[terms:] *= amplitudes
    inform[terms:] *= amplitudes[:, None]
    inform[:, terms:] *= amplitudes
    return slope, inform


def _step(slope: Numbers, inform: Numbers, held: NDArray[np.bool_], ridge: float) -> tuple[Numbers, Numbers]:
    """A step of Fisher's scoring where these parameters are held, (rows, pixels), and the inverse of the information."""
    free = ~held
    inform = inform * (free[:, None] & free)
    every = np.arange(len(held))
    inform[every, every] += ridge * inform[every, every] + np.where(held, 1.0, 1e-300)
    inverse = _inverse(inform)
    return np.einsum("rsp,sp->rp", inverse, slope * free), inverse


def _inverse(matrices: Numbers) -> Numbers:
    """The inverses of symmetric matrices, (rows, rows, pixels), by Gauss and Jordan's steps in all pixels at once."""
    found = matrices.copy()
    for at in range(len(found)):
        one = 1 / found[at, at]
        row, column = found[at] * one, found[:, at].copy()
        found -= column[:, None] * row
        found[at], found[:, at], found[at, at] = row, -column * one, one
    return found


def _fitted(pixels: NDArray[Any], level: Numbers, curves: _Curves, begin: Numbers, kept: NDArray[np.int64]) -> Numbers:
    """Amplitudes, lifetimes and the errors of these of the pixels that are kept, (3, terms, pixels).

    ``begin``: amplitudes and logarithms of lifetimes, (2, terms, pixels).
    """
    _, terms, many = begin.shape
    found, going = np.full((3, terms, many), np.nan), kept
    state = np.concatenate((begin.reshape(-1, many), np.zeros((2 * terms, many)), np.full((1, many), -np.inf), np.ones((2, many))))
    for _ in range(STEPS):
        parts = np.array_split(going, -(-len(going) * pixels.shape[1] // TOGETHER) or 1)
        going = np.concatenate([_turned(pixels, level, curves, state, found[2], some) for some in parts])
        if not len(going):
            break
    found[0][:, kept], found[1][:, kept] = state[:terms, kept], np.exp(state[terms : 2 * terms, kept])
    found[2] *= found[1]
    return found


def _turned(
    pixels: NDArray[Any], level: Numbers, curves: _Curves, state: Numbers, errors: Numbers, some: NDArray[np.int64]
) -> NDArray[np.int64]:
    """Those of some pixels that aren't at their best fit after a step of Fisher's scoring more, which changes their state.

    The state has amplitudes and logarithms of lifetimes, the last step of each, the logarithm of the likelihood before it, what part
    it was of a step of the scoring, and its rise by the slope. The next one is as much longer or shorter as the slope changed less or
    more along the last one than Fisher's information has it (Barzilai and Borwein, IMA Journal of Numerical Analysis 8, 141,
    1988). One that makes the likelihood less is taken back by half, and by half again.
    """
    terms, (first, last) = len(errors), curves.logarithms[[0, -1]]
    now, ahead, (best, part, rise) = np.split(state[:, some], [2 * terms, 4 * terms])
    counts = pixels[some].astype(curves.kind)
    likely, slope, inform = _sums(counts, level[some].astype(curves.kind), curves.of(now[terms:]), now[:terms])
    least = LEAST * counts.sum(axis=1, dtype=np.float64)
    none, outward = now[:terms] <= least, np.where(slope[terms:] > 0, now[terms:] >= last, now[terms:] <= first)
    held = np.concatenate((none & (slope[:terms] < 0), none | outward))
    step, inverse = _step(slope, inform, held, curves.ridge)
    if (again := none & (step[:terms] < 0)).any():
        held[:terms] |= again
        step, inverse = _step(slope, inform, held, curves.ridge)
    variances = np.maximum(inverse[range(terms, 2 * terms), range(terms, 2 * terms)], 0.0)
    errors[:, some] = np.where(none | outward, np.nan, np.sqrt(variances))
    back, bent = likely < best - WORSE, rise - (ahead * slope).sum(axis=0)
    part = np.clip(np.divide(part * rise, bent, out=np.full(len(some), np.inf), where=bent > 0), *PARTS)
    room = np.concatenate((np.where(step[:terms] < 0, now[:terms] - least, np.inf), np.full(none.shape, 0.7)))
    part = np.minimum(part, np.divide(room, np.abs(step), out=np.full(step.shape, np.inf), where=step != 0).min(axis=0))
    moves = np.where(back, -0.5 * ahead, part * step)
    ahead = np.where(back, 0.5 * ahead, moves)
    rise, part = np.where(back, 0.5 * rise, (moves * slope).sum(axis=0)), np.where(back, 0.5 * state[-2, some], part)
    amplitudes, places = now[:terms] + moves[:terms], now[terms:] + moves[terms:]
    now = np.concatenate((np.maximum(amplitudes, least), np.clip(places, first, last)))
    state[:, some] = np.concatenate((now, ahead, [np.where(back, best, likely), part, rise]))
    return np.asarray(some[back | ((slope * step).sum(axis=0) > NEAR)])


def _held(counts: Numbers, level: Numbers, curves: _Curves, parts: Numbers, amplitudes: Numbers, steps: int = STEPS) -> Numbers:
    """The amplitudes of some pixels, (terms, pixels), of decays with these parts, (terms, bins), that all pixels share."""
    found, going, photons = amplitudes.copy(), np.arange(len(counts)), counts.sum(axis=1, dtype=np.float64)
    for turn in range(steps):
        now, least = found[:, going], LEAST * photons
        slope, inform = _linear(counts, level, parts, now)
        step, _ = _step(slope, inform, (now <= least) & (slope < 0), curves.ridge)
        part = 1.0 if turn % 2 == 0 else 0.5  # by whole steps a lone photon before the pulse moves some pixels to and fro for ever
        moves = np.clip(part * step, -0.9 * now - least, photons)
        found[:, going] = np.maximum(now + moves, least)
        more = (slope * step).sum(axis=0) > NEAR
        counts, level, photons, going = counts[more], level[more], photons[more], going[more]
        if not len(going):
            break
    return found


def _linear(counts: Numbers, level: Numbers, rows: Numbers, amplitudes: Numbers) -> tuple[Numbers, Numbers]:
    """The gradient, (rows, pixels), and the information, (rows, rows, pixels), by these rows, (rows, bins), which all pixels share, and
    of which the first are parts of decays with these amplitudes."""
    many = len(rows)
    over = 1 / np.maximum(amplitudes.T.astype(rows.dtype) @ rows[: len(amplitudes)] + level, 1e-12)
    inform = (rows[:, None] * rows).reshape(many * many, -1) @ over.T
    return (rows @ (counts * over - 1).T).astype(np.float64), inform.reshape(many, many, -1).astype(np.float64)


def _shared(
    pixels: NDArray[Any], level: Numbers, blocks: list[NDArray[np.int64]], curves: _Curves, begin: Numbers, amplitudes: Numbers
) -> tuple[Numbers, Numbers]:
    """The logarithms of the lifetimes that all pixels share, and the errors of the lifetimes; amplitudes go along.

    It begins with those of all pixels as one, and goes on with some of the blocks, before it takes all.
    """
    every = np.concatenate(blocks)
    total, dark = (one[every].sum(axis=0, dtype=np.float64)[None] for one in (pixels, level))
    at = np.stack([_begun(total.sum(axis=1), dark, len(begin)), begin[:, None]])
    logs = np.log(_fitted(total, dark, curves, at, np.zeros(1, np.int64))[1][:, 0])
    logs, _ = _settled(pixels, level, blocks[::SOME], curves, logs, amplitudes)
    return _settled(pixels, level, blocks, curves, logs, amplitudes)


def _settled(
    pixels: NDArray[Any], level: Numbers, blocks: list[NDArray[np.int64]], curves: _Curves, logs: Numbers, amplitudes: Numbers
) -> tuple[Numbers, Numbers]:
    """The logarithms of the lifetimes that these pixels share, and the errors of the lifetimes."""
    now = [amplitudes[:, block] for block in blocks]
    for turn in range(STEPS):
        found = [_efficient(pixels[block], level[block], curves, logs, one, 2 if turn else 8) for block, one in zip(blocks, now, strict=True)]
        whole, left = (np.sum([one[at] for one in found], axis=0) for at in (0, 1))
        step = np.clip(np.linalg.solve(whole, left), -0.7, 0.7)
        logs = np.clip(logs + step, curves.logarithms[0], curves.logarithms[-1])
        now = [np.maximum(one - np.einsum("rap,a->rp", along, step), LEAST) for _, _, one, along in found]
        errors = np.sqrt(np.diagonal(np.linalg.inv(whole)))
        if np.all(np.abs(step) < 0.03 * errors):
            break
    amplitudes[:, np.concatenate(blocks)] = np.concatenate(now, axis=1)
    return logs, errors * np.exp(logs)


def _efficient(
    counts: NDArray[Any], level: Numbers, curves: _Curves, logs: Numbers, now: Numbers, steps: int
) -> tuple[Numbers, Numbers, Numbers, Numbers]:
    """What is left of Fisher's information and of the gradient by the logarithms where amplitudes go along, even below 0 (the
    efficient score: Lindsay, Philosophical Transactions A 296, 639, 1980), the amplitudes after these steps, and how they go along.

    The likelihood itself, with no amplitude below 0, would pull the lifetimes apart where pixels have one of them alone. There
    a part in a hundred of the lifetimes is left of that at 250 photons a pixel, which may be more than the errors.
    """
    counts, level, rows, terms = counts.astype(curves.kind), level.astype(curves.kind), curves.of(logs), len(logs)
    now = _held(counts, level, curves, rows[:terms], now, steps)
    slope, inform = _by_logarithms(*_linear(counts, level, rows, now), now)
    across = inform[:terms, terms:]
    alone, inverse = _step(slope[:terms], inform[:terms, :terms], np.zeros(now.shape, np.bool_), curves.ridge)
    along = np.einsum("rsp,sap->rap", inverse, across)
    whole = inform[terms:, terms:].sum(axis=-1) - np.einsum("rap,rbp->ab", across, along)
    return whole, slope[terms:].sum(axis=1) - np.einsum("rap,rp->a", across, alone), now, along


def with_neighbours(counts: NDArray[Any], reach: int = 1) -> NDArray[Any]:
    """The counts of each pixel and of all that are at most ``reach`` rows and columns away, of those that there are.

    ``counts``: (rows, columns) or (rows, columns, bins), and so is the result. ``with_neighbours(image) >= 100`` is a threshold
    that follows the picture more than single pixels.
    """
    for axis in (0, 1):
        so_far = np.cumsum(counts, axis=axis)
        many = counts.shape[axis]
        last = np.take(so_far, np.minimum(np.arange(many) + reach, many - 1), axis=axis)
        before = np.take(so_far, np.maximum(np.arange(many) - reach - 1, 0), axis=axis)
        shape = [-1 if one == axis else 1 for one in range(counts.ndim)]
        counts = last - np.where(np.reshape(np.arange(many) > reach, shape), before, 0)
    return counts


def binned(counts: NDArray[Any], size: int) -> NDArray[Any]:
    """The sums of ``size`` by ``size`` pixels, of (rows, columns) or (rows, columns, bins). Rows and columns that are left over at
    the end are left out."""
    rows, columns = (many // size for many in counts.shape[:2])
    cut = counts[: rows * size, : columns * size]
    return np.asarray(cut.reshape(rows, size, columns, size, *counts.shape[2:]).sum(axis=(1, 3)))


def inside(points: NDArray[np.complex128], corners: Sequence[complex]) -> NDArray[np.bool_]:
    """Which points of a plane lie in a polygon: shape of ``points``; nan lies nowhere.

    Points and corners are complex, as phasors; of pixels column + 1j * row, as ``np.add.outer(1j * np.arange(rows),
    np.arange(columns))``. By how often a line from the point to the right crosses the edges.
    """
    odd = np.zeros(np.shape(points), np.bool_)
    for one, other in zip(corners, (*corners[1:], corners[0]), strict=True):
        if one.imag != other.imag:
            at = one.real + (points.imag - one.imag) * (other.real - one.real) / (other.imag - one.imag)
            odd ^= ((points.imag >= one.imag) != (points.imag >= other.imag)) & (points.real < at)
    return np.asarray(odd & np.isfinite(points))
