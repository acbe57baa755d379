"""Single molecules with FRET, beyond E and S: corrections by calibration, and molecules that change while they are seen.

Bursts, photons and groups are those of ``ptulab.bursts``: the donor's and the acceptor's photons while the donor is excited, and
the acceptor's while the acceptor is, by lasers that excite in turn (ALEX, PIE).
"""

from collections.abc import Mapping, Sequence
from dataclasses import dataclass, replace
from typing import Any

import numpy as np
from numpy.typing import NDArray

from .bursts import FACTORS, Fret, corrected, less_background, slopes_of
from .errors import NotKnownError
from .events import Events, events_of
from .groups import GroupLike, Part, group_of
from ._optional import want
from ._values import Compared

__all__ = ["BurstVariance", "alex_2cde", "asymmetry", "burst_variance", "calibrate"]

Mask = NDArray[np.bool_]


def calibrate(
    donor: NDArray[np.int64],
    acceptor: NDArray[np.int64],
    direct: NDArray[np.int64],
    *,
    donor_only: Mask | None = None,
    acceptor_only: Mask | None = None,
    populations: Sequence[Mask] = (),
    backgrounds: Sequence[NDArray[np.float64]] | None = None,
    fixed: Mapping[str, float] | None = None,
) -> Fret:
    """E and S of bursts, with corrections that some of them calibrate.

    Photons and backgrounds are those of ``fret``, each of shape (bursts,). Bursts are chosen by masks, for the most part by
    E and S without corrections (``Fret.select``):

    - ``donor_only``: leakage = A / D of all their photons together;
    - ``acceptor_only``: direct_excitation = (A - leakage * D) / AA;
    - ``populations``: two or more of molecules with both dyes and with an E of their own, without which the line has no slope.
      AA = beta * (gamma * D + F), which over F + D is the line 1 / S = (1 + beta * gamma) + beta * (1 - gamma) * E of E and S
      that are corrected for all but gamma and beta; it is fitted to the populations' sums by their scatter.

    So are the factors of Lee and others (Biophysical Journal 88, 2939, 2005) and Hellenkamp and others (Nature Methods 15, 669,
    2018). ``fixed`` holds factors, as those of another measurement; with gamma or beta held, one population does. Gives a
    ``Fret`` with ``corrections`` and ``errors``, standard deviations by the scatter of the bursts, to the first order, of which
    ``Fret.mean`` knows how they go together.
    Raises ``ValueError`` for populations that tell no factor, and ``NotKnownError`` for a factor that nothing tells.
    """
    photons = less_background([donor, acceptor, direct], backgrounds)
    held = dict(fixed or {})
    if wrong := held.keys() - FACTORS.keys():
        raise ValueError(f"no correction is named {', '.join(sorted(wrong))}: there are {', '.join(FACTORS)}")
    _told(held, donor_only, acceptor_only, len(populations))
    none = np.zeros(len(photons), np.bool_)
    masks = np.stack([none if one is None else np.asarray(one, np.bool_) for one in (donor_only, acceptor_only, *populations)])
    sums = masks @ photons
    line = _Line(held, np.ones(len(populations)))
    with np.errstate(divide="ignore", invalid="ignore"):
        for _ in range(2 if len(populations) else 0):  # at first of equal weights
            line = replace(line, weights=1 / line.scatter(photons, masks[2:], line.factors(sums.ravel())))
        factors, slopes = line.factors(sums.ravel()), slopes_of(line.factors, sums.ravel()).reshape(4, *sums.shape)
    if not np.all(np.isfinite(factors)) or not np.all(factors[:2] > 0):
        raise ValueError(f"these bursts calibrate nothing: {dict(zip(FACTORS, factors.tolist()))}")
    moves = np.sum([mask[:, None] * (photons @ slope.T) for mask, slope in zip(masks, slopes.swapaxes(0, 1))], axis=0)
    values = dict(zip(FACTORS, factors.tolist()))
    errors = {name: float(bar) for name, bar in zip(FACTORS, np.sqrt((moves**2).sum(axis=0))) if name not in held}
    return replace(corrected(photons, values, backgrounds is not None), errors=errors, moves=moves)


def _told(held: Mapping[str, float], donor_only: Mask | None, acceptor_only: Mask | None, populations: int) -> None:
    """Raises ``NotKnownError`` where a factor is neither held nor calibrated."""
    told = {"leakage": donor_only is not None, "direct_excitation": acceptor_only is not None}
    told |= {name: populations >= (1 if other in held else 2) for name, other in (("gamma", "beta"), ("beta", "gamma"))}
    if missing := [name for name, is_told in told.items() if not is_told and name not in held]:
        raise NotKnownError(f"nothing tells {' and '.join(missing)}: name bursts that do, or hold it by fixed")


@dataclass(frozen=True)
class _Line:
    """The factors of sums of photons, with those that are held, and the weights of populations in the line of E and S."""

    held: Mapping[str, float]
    weights: NDArray[np.float64]

    def factors(self, flat: NDArray[Any]) -> NDArray[Any]:
        """The four factors, shape (4, ..), of sums of shape (2 + populations, 3) in a row, (numbers, ..): those with the donor
        alone, with the acceptor alone, and of each population."""
        sums = flat.reshape(-1, 3, *flat.shape[1:])
        weights = self.weights.reshape(-1, *[1] * (flat.ndim - 1))
        nothing = np.zeros(flat.shape[1:])
        leakage = self.held["leakage"] + nothing if "leakage" in self.held else sums[0, 1] / sums[0, 0]
        direct = self.held["direct_excitation"] + nothing if "direct_excitation" in self.held else (sums[1, 1] - leakage * sums[1, 0]) / sums[1, 2]
        donor, own = sums[2:, 0], sums[2:, 2]
        passed = sums[2:, 1] - leakage * donor - direct * own
        if "gamma" in self.held:
            gamma = self.held["gamma"] + nothing
            whole = passed + gamma * donor
            beta = self.held["beta"] + nothing if "beta" in self.held else (weights * whole * own).sum(axis=0) / (weights * whole**2).sum(axis=0)
            return np.array([gamma, beta, leakage, direct])
        if "beta" in self.held:
            beta = self.held["beta"] + nothing
            gamma = (weights * donor * (own / beta - passed)).sum(axis=0) / (weights * donor**2).sum(axis=0)
            return np.array([gamma, beta, leakage, direct])
        a, b, c = ((weights * one).sum(axis=0) for one in (donor * donor, donor * passed, passed * passed))
        if not np.all(np.abs(a * c - b * b) > 1e-12 * np.abs(a * c)):
            raise ValueError("populations of one E have no line of E and S: they calibrate nothing")
        of_donor, of_passed = (weights * donor * own).sum(axis=0), (weights * passed * own).sum(axis=0)
        return np.array([(c * of_donor - b * of_passed) / (a * of_passed - b * of_donor), (a * of_passed - b * of_donor) / (a * c - b * b), leakage, direct])

    def scatter(self, photons: NDArray[np.float64], masks: Mask, factors: NDArray[np.float64]) -> NDArray[np.float64]:
        """The variance of what is left of each population, by its bursts: shape (populations,)."""
        gamma, beta, leakage, direct = factors
        passed = photons[:, 1] - leakage * photons[:, 0] - direct * photons[:, 2]
        left = photons[:, 2] - beta * (gamma * photons[:, 0] + passed)
        return np.asarray(masks @ left**2)


def _photons_of(bursts: NDArray[np.void]) -> tuple[NDArray[np.int64], NDArray[np.int64]]:
    """The photons of all bursts, one burst after the other, and of which burst each is."""
    many = bursts["last"] - bursts["first"] + 1
    owner = np.repeat(np.arange(len(bursts)), many)
    return np.arange(len(owner)) + np.repeat(bursts["first"] - np.cumsum(many) + many, many), owner


def _seconds_of(photons: Part, unit_seconds: float | None) -> tuple[Events, float]:
    """Photons in columns, and the seconds of a unit of their times."""
    events = events_of(photons)
    unit = unit_seconds or events.header.global_seconds or 0.0
    if not unit > 0:
        raise NotKnownError("the header doesn't tell how many seconds a tick has: give unit_seconds")
    return events, unit


def asymmetry(bursts: NDArray[np.void], photons: Part, first: GroupLike, second: GroupLike, *, unit_seconds: float | None = None) -> NDArray[np.float64]:
    """The mean time of one group's photons in each burst less that of another's, in seconds: shape (bursts,).

    Of all photons while the donor is excited and those while the acceptor is, it is T_DX - T_AX, which is about 0 unless a dye
    was bleached within the burst (Kudryavtsev and others, ChemPhysChem 13, 1060, 2012); of donor and acceptor while the donor
    is excited, FRETBursts' asymmetry. nan where a burst has none of either.
    """
    events, unit = _seconds_of(photons, unit_seconds)
    which, owner = _photons_of(bursts)
    after = (events.times[which] - bursts["start"][owner]) * unit
    at = []
    for group in (first, second):
        mask = group_of(group).mask(events)[which]
        many = np.bincount(owner[mask], minlength=len(bursts))
        added = np.bincount(owner[mask], after[mask], minlength=len(bursts))
        at.append(np.divide(added, many, out=np.full(len(bursts), np.nan), where=many > 0))
    return np.asarray(at[0] - at[1])


def alex_2cde(
    bursts: NDArray[np.void], photons: Part, donor_excitation: GroupLike, acceptor_excitation: GroupLike, *, tau: float = 100e-6, unit_seconds: float | None = None
) -> NDArray[np.float64]:
    """ALEX-2CDE of each burst: shape (bursts,), near 0 where both dyes shine all the time, and greater where one was bleached
    or blinked, up to 100; bursts below some 10 are kept.

    ``donor_excitation``: the photons of both detectors while the donor is excited (D), ``acceptor_excitation``: of the
    acceptor's while the acceptor is (A). With densities K_Y(t), the sum of exp(-|t - t_j| / tau) over the photons of Y,

        100 - 50 * (sum over D of K_A / K_D / number of A + sum over A of K_D / K_A / number of D)

    (Tomov and others, Biophysical Journal 102, 1163, 2012), ``tau`` in seconds. nan where a burst has none of either.
    """
    events, unit = _seconds_of(photons, unit_seconds)
    which, owner = _photons_of(bursts)
    sides = np.stack([group_of(group).mask(events)[which] for group in (donor_excitation, acceptor_excitation)])
    kept = sides.any(axis=0)
    which, owner, sides = which[kept], owner[kept], sides[:, kept]
    near = np.zeros(len(which) + 1)  # how much of a density is left at the next photon
    near[1:-1] = np.exp(-np.diff(events.times[which]) * (unit / tau)) * (np.diff(owner) == 0)
    weights = sides.astype(np.float64)
    density = _decayed(weights, near[:-1]) + _decayed(weights[:, ::-1], near[:0:-1])[:, ::-1] - weights
    many = np.stack([np.bincount(owner[side], minlength=len(bursts)) for side in sides]).astype(np.float64)
    many[many == 0] = np.nan
    ratios = [np.bincount(owner[side], density[1 - n, side] / density[n, side], minlength=len(bursts)) / many[1 - n] for n, side in enumerate(sides)]
    return np.asarray(100 - 50 * (ratios[0] + ratios[1]))


def _decayed(weights: NDArray[np.float64], left: NDArray[np.float64]) -> NDArray[np.float64]:
    """The sums s of s[n] = weights[n] + left[n] * s[n - 1], by steps that double, over the last axis; left[0] is 0."""
    sums, left, step = np.array(weights), np.array(left), 1
    while step < sums.shape[-1] and left.any():
        sums[:, step:] += left[step:] * sums[:, :-step]
        left[step:] *= left[:-step]
        step *= 2
    return sums


@dataclass(frozen=True, eq=False)
class BurstVariance(Compared):
    """How far E varies within bursts: each of shape (bursts,).

    - ``E``: the proximity ratio of the photons of a burst that are in a piece;
    - ``pieces``: how many pieces of ``n`` photons it has;
    - ``deviations``: the standard deviation of E over its pieces, without the bias of few, nan where there are fewer than two.
    """

    E: NDArray[np.float64]
    deviations: NDArray[np.float64]
    pieces: NDArray[np.int64]
    n: int

    def expected(self, E: NDArray[np.float64]) -> NDArray[np.float64]:
        """The deviation that counting alone gives: sqrt(E * (1 - E) / n)."""
        variances: NDArray[np.float64] = E * (1 - E) / self.n
        return np.sqrt(variances)

    def to_pandas(self) -> Any:
        """The bursts as a ``pandas.DataFrame``: ``E``, ``deviation`` and ``pieces``. Raises ``MissingLibraryError`` without pandas."""
        return want("pandas", "bursts as a list").DataFrame({"E": self.E, "deviation": self.deviations, "pieces": self.pieces})

    def binned(self, bins: int = 20, span: tuple[float, float] = (0.0, 1.0)) -> tuple[NDArray[np.float64], NDArray[np.float64], NDArray[np.float64]]:
        """By bins of E the mean E, the deviation over all pieces of its bursts, and that one's standard deviation by the scatter
        of the bursts: each of shape (bins,), nan where a bin has fewer than two bursts."""
        free = np.maximum(self.pieces - 1.0, 0.0)
        place = np.floor((self.E - span[0]) / (span[1] - span[0]) * bins)
        place = np.where(self.E == span[1], bins - 1, place)
        inside = (free > 0) & (place >= 0) & (place < bins)
        where, free, E, variances = place[inside].astype(np.int64), free[inside], self.E[inside], self.deviations[inside] ** 2
        many, bursts = np.bincount(where, free, minlength=bins), np.bincount(where, minlength=bins)
        few = np.where(bursts > 1, many, np.nan)
        variance = np.bincount(where, free * variances, minlength=bins) / few
        bar = np.sqrt(np.bincount(where, (free * (variances - variance[where])) ** 2, minlength=bins)) / few
        deviation = np.sqrt(variance)
        with np.errstate(divide="ignore", invalid="ignore"):
            return np.bincount(where, free * E, minlength=bins) / few, deviation, bar / (2 * deviation)


def burst_variance(bursts: NDArray[np.void], photons: Part, donor: GroupLike, acceptor: GroupLike, *, n: int = 5) -> BurstVariance:
    """Burst variance analysis: whether E changes within bursts (Torella, Holden, Santoso, Hohlbein and Kapanidis, Biophysical
    Journal 100, 1568, 2011).

    ``donor`` and ``acceptor``: the photons of either detector while the donor is excited, which don't overlap. They are cut
    into pieces of ``n``, from the beginning of a burst, and what is left over at its end isn't taken. Molecules of one E have
    the deviation that counting alone gives, sqrt(E * (1 - E) / n), and those that change in the time of a burst more. Unlike
    there, the variance of a burst is over its own mean, and over one piece less, so that short bursts aren't too even. Raises
    ``ValueError`` for n below 2.
    """
    if n < 2:
        raise ValueError(f"pieces of {n} photons")
    masks = [group_of(group).mask(photons) for group in (donor, acceptor)]
    passed = np.append(0, np.cumsum(masks[1][masks[0] | masks[1]]))
    so_far = np.append(0, np.cumsum(masks[0] | masks[1]))
    first, last = so_far[bursts["first"]], so_far[bursts["last"] + 1]
    pieces = (last - first) // n
    owner = np.repeat(np.arange(len(bursts)), pieces)
    begin = np.repeat(first, pieces) + n * (np.arange(len(owner)) - np.repeat(np.cumsum(pieces) - pieces, pieces))
    each = (passed[begin + n] - passed[begin]) / n
    mean = _over(np.bincount(owner, each, minlength=len(bursts)), pieces)
    variance = _over(np.bincount(owner, (each - mean[owner]) ** 2, minlength=len(bursts)), pieces - 1)
    return BurstVariance(mean, np.sqrt(variance), pieces, n)


def _over(part: NDArray[Any], whole: NDArray[Any]) -> NDArray[np.float64]:
    return np.divide(part, whole, out=np.full(len(part), np.nan), where=whole > 0)
