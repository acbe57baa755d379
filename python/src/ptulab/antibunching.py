"""Pairs of photons: coincidences and start-stops of T2 and T3 files, g2 of these and of a report's tables, and its fits.

Times are sync periods (ticks in T2), or, with the period given in ticks of the dtime, sync * period + dtime.
"""

import math
import warnings
from collections.abc import Mapping
from dataclasses import dataclass, field, replace
from fractions import Fraction
from typing import Any

import numpy as np
from numpy.typing import NDArray

from .errors import FitError, NotKnownError, UnlikeError
from .events import Events
from ._fitting import Bounds, Fit, Numbers, Values, Problem, poisson, solved, steered
from .groups import EventsLike, GroupLike, group_of, header_of, pieces_of, ticks_of
from ._optional import want
from .tables import Given, Table, measured
from ._values import Compared
from ._xarrays import Axis, labelled, listed

__all__ = ["Coincidences", "StartStops", "coincidences", "fit_g2", "g2", "g2_model", "start_stops", "without_background"]

DENSE = 8  # where so few units of time come to each time that has photons, or to each pair, all of them are gone through
BLOCK = 1 << 15  # units of time that are taken together then
EXACT = 1 << 53  # sums of floating-point numbers below it are those of whole numbers
SHORT = 64  # up to such a reach pairs of a block are added up one difference at a time, beyond by Fourier transforms

Delays = Mapping[int, int] | None  # by inputs, in the unit of times
Weights = tuple[NDArray[np.int64], NDArray[np.int64], NDArray[np.int64], NDArray[np.int64]]


@dataclass(frozen=True, eq=False)
class Coincidences(Compared):
    """Pairs of photons by their difference of time, the second's less the first's.

    - ``counts``: shape (cells,); cell c has the differences c * width - reach up to (c + 1) * width - reach - 1, the last
      one up to reach, as in a report.
    - ``reach``, ``width``: in sync periods, or in ticks where a period was given.
    - ``period``: of a pulsed source, in the same unit, so 1 of sync periods; None where it isn't known, as in T2 files.
    - ``first_photons``, ``second_photons``: of the two groups; ``both_photons``: that are in both. ``length``: the unit
      times from the first event to the last, both counted.
    - ``unit_seconds``: of a sync period or a tick, None where the file doesn't tell.

    Those of several measurements, as of files, add up: ``sum`` takes them. ``added`` has these then, each with its photons
    and its length.
    """

    counts: NDArray[np.int64]
    reach: int
    width: int
    first_photons: float
    second_photons: float
    length: int
    unit_seconds: float | None = None
    both_photons: float = 0
    period: float | None = 1
    added: tuple[tuple[float, float, int], ...] = field(default=(), repr=False)

    def __add__(self, other: "Coincidences") -> "Coincidences":
        """The pairs of both. Raises ``UnlikeError`` for other cells, another period or another unit."""
        if not isinstance(other, Coincidences):
            return NotImplemented
        if any(getattr(self, name) != getattr(other, name) for name in ("reach", "width", "unit_seconds", "period")):
            raise UnlikeError("coincidences with other cells, another period or another unit don't add up")
        sums = {name: getattr(self, name) + getattr(other, name) for name in ("counts", "first_photons", "second_photons", "both_photons", "length")}
        return replace(self, **sums, added=self._measurements + other._measurements)

    def __radd__(self, other: int) -> "Coincidences":
        """So that ``sum`` adds them up, which begins with 0."""
        if not isinstance(other, int) or other != 0:
            return NotImplemented
        return self

    @property
    def _measurements(self) -> tuple[tuple[float, float, int], ...]:
        return self.added or ((self.first_photons, self.second_photons, self.length),)

    @property
    def _edges(self) -> NDArray[np.int64]:
        """The first difference of each cell, and the one behind the last: shape (cells + 1,)."""
        return np.minimum(np.arange(len(self.counts) + 1, dtype=np.int64) * self.width - self.reach, self.reach + 1)

    @property
    def widths(self) -> NDArray[np.int64]:
        """How many differences each cell has: shape (cells,). All have ``width``, but perhaps the last."""
        return np.diff(self._edges)

    @property
    def ticks(self) -> NDArray[np.float64]:
        """The middle of each cell's differences: shape (cells,), in sync periods, or in ticks where a period was given."""
        return np.asarray((self._edges[:-1] + self._edges[1:] - 1) / 2)

    @property
    def seconds(self) -> NDArray[np.float64] | None:
        """The same in seconds, None where the file doesn't tell."""
        return None if self.unit_seconds is None else self.ticks * self.unit_seconds

    def expected(self) -> NDArray[np.float64]:
        """How many pairs each cell would have without correlation: shape (cells,).

        FIRST * SECOND / T^2 times the sum of T - |d| over the differences d of the cell, where T is ``length``: so many
        places has a pair of that difference in the measurement. Those of several measurements add up.
        """
        return np.asarray(np.sum([self._expected(first, second, float(length)) for first, second, length in self._measurements], axis=0))

    def _expected(self, first: float, second: float, length: float) -> NDArray[np.float64]:
        ends = self._edges - 1.0
        steps = np.minimum(np.where(ends < 0, -1 - ends, ends), length)
        free = steps * (length - (steps + 1) / 2)  # of the differences 1 up to so many
        return np.asarray(float(first) * float(second) * np.diff(np.where(ends < 0, -free, length + free)) / max(length, 1.0) ** 2)

    def variances(self) -> NDArray[np.float64]:
        """The variance of the pairs of each cell without correlation: shape (cells,), of one pair where there was none.

        By Poisson's law it is the number of pairs, in cells of any width, where lags are short beside the length. A pair
        of photons that are both in both groups counts twice, at its difference and at the opposite one: in a cell that
        has both of these, as one around 0, the variance is twice that. For longer lags it is greater, about 1 + n lag / T
        times that, where n are the photons of both groups in a cell's width: take segments of the measurement then.
        """
        begin, end = self._edges[:-1], self._edges[1:] - 1
        mirrored = np.where((begin <= 0) & (end >= 0), 2 * np.minimum(-begin, end) + 1, 0)
        part = float(self.both_photons) ** 2 / max(float(self.first_photons) * float(self.second_photons), 1.0)
        twice: Numbers = 1 + part * mirrored / self.widths
        counts: Numbers = np.maximum(self.counts.astype(np.float64), 1.0)
        return np.asarray(counts * twice)

    def central_ratio(
        self, *, delay: float = 0.0, neighbours: int | None = None, period: float | None = None
    ) -> tuple[float, float]:
        """The pairs of one pulse over those of two pulses in the mean, with its Poisson error: g2(0) of a pulsed source.

        The pairs of a peak are those whose difference is less than half a period from it; a cell with differences of
        two peaks counts in both by its share (Kurtsiefer, Mayer, Zarda and Weinfurter, Physical Review Letters 85, 290,
        2000, compare areas of peaks so). ``delay``: where the peak of one pulse is, in the unit of ``reach``, so by how much
        the second detector's cable is longer; ``neighbours``: how many peaks on either side are taken for the mean, None
        for all that are whole; ``period``: between two peaks, where it isn't told, as of T2 files.

        An error is of one standard deviation; without a pair of one pulse it is that of one pair. Raises ``NotKnownError``
        where a period isn't known; where cells are wider than an eighth of it and don't begin where peaks do; where the
        reach doesn't have the whole peak of one pulse and those beside it; where these have no pairs; and where the nearer
        of them have more or fewer than the further ones, by five standard deviations, as of a source that blinks: take
        some ``neighbours`` then.
        """
        edges = self._peaks(self.period if period is None else period, delay, neighbours)
        areas, peaks = self._areas(edges), len(edges) // 2 - 1
        doubled = 1 + self.both_photons**2 / max(self.first_photons * self.second_photons, 1)  # each pair at d and at -d
        near = np.abs(np.arange(-peaks, peaks + 1)) <= peaks // 2
        centre, beside = float(areas[peaks]), float(areas.sum() - areas[peaks])
        if not beside > 0:
            raise NotKnownError("no pairs at other lags to compare with")
        part = (near.sum() - 1) / (2 * peaks)  # of the peaks beside that are near
        if abs(areas[near].sum() - centre - part * beside) > 5 * math.sqrt(doubled * part * (1 - part) * beside):
            raise NotKnownError("pairs of two pulses depend on how far these are apart, as of a source that blinks: take some neighbours")
        mean = beside / (2 * peaks)
        ratio = centre / mean
        return ratio, math.sqrt(doubled * (max(centre, 1.0) / mean**2 + ratio**2 / beside))

    def to_xarray(self) -> Any:
        """An ``xarray.Dataset`` over ``delay``, in seconds where the file tells a tick: ``pairs``, and ``values`` and ``errors``, those
        of ``g2``. Raises ``MissingLibraryError`` without xarray."""
        values, errors = g2(self)
        return labelled({"pairs": self.counts, "values": values, "errors": errors}, [Axis("delay", self.ticks, self.seconds)], {}, {})

    def to_pandas(self) -> Any:
        """The same as a ``pandas.DataFrame``, a line for each cell. Raises ``MissingLibraryError`` without pandas or xarray."""
        return listed(self.to_xarray(), "pairs as a list")

    def _peaks(self, period: float | None, delay: float, neighbours: int | None) -> NDArray[np.float64]:
        """Where the peaks of so many neighbours begin and end, from the one of the least difference to the greatest."""
        if period is None or not 0 < period < math.inf:
            raise NotKnownError("peaks of pulses whose period isn't known: give it")
        whole = math.floor((self.reach + 0.5 - abs(delay)) / period - 0.5)
        peaks = whole if neighbours is None else neighbours
        if not 1 <= peaks <= whole:
            raise NotKnownError(f"a reach of {self.reach} has no {max(peaks, 1)} whole peaks on either side of {delay:g}")
        edges = delay + period * (np.arange(-peaks, peaks + 2) - 0.5)
        cells = self._edges - 0.5
        nearest = np.searchsorted((cells[1:] + cells[:-1]) / 2, edges)
        off = np.abs(edges - cells[nearest]).max()
        if 8 * self.width > period and (off > 0.5 or self.width > period):
            raise NotKnownError(f"cells of {self.width} don't begin where peaks with a period of {period:g} do: take finer ones")
        return np.asarray(edges)

    def _areas(self, edges: NDArray[np.float64]) -> NDArray[np.float64]:
        """The pairs between each two of these differences; a difference d is the span from d - 1/2 to d + 1/2."""
        so_far = np.cumsum(np.append(0.0, self.counts.astype(np.float64)))
        return np.asarray(np.diff(np.interp(edges, self._edges - 0.5, so_far)))


def without_background(values: Any, errors: Any, signal: float, signal_error: float = 0.0) -> tuple[Any, Any]:
    """g2 or a correlation G of the light without its background, and its errors: shapes of what is given.

    (g - 1 + signal^2) / signal^2, where ``signal`` is the part of the photons that are no background, S / (S + B), of two
    detectors the root of the product of both (Brouri, Beveratos, Poizat and Grangier, Optics Letters 25, 1294, 2000; of
    FCS Thompson, Topics in Fluorescence Spectroscopy 1, 337, 1991). A ratio of ``central_ratio`` and its error are
    corrected so too. The error of ``signal`` counts as independent. Raises ``ValueError`` where it isn't above 0 and at most 1.
    """
    if not 0 < signal <= 1:
        raise ValueError(f"a signal of {signal} of the photons")
    away = (np.asarray(values) - 1) / signal**2
    return 1 + away, np.hypot(np.asarray(errors) / signal**2, 2 * away * signal_error / signal)


def coincidences(
    source: EventsLike,
    first: GroupLike,
    second: GroupLike,
    reach: int,
    *,
    width: int = 1,
    period: float | None = None,
    delays: Delays = None,
) -> Coincidences:
    """All pairs of a photon of the first group and another of the second, at most ``reach`` apart.

    A photon of both groups is paired with each other photon of either group and not with itself, as in a plan's
    coincidence. Without ``period`` the unit is the sync period (a tick in T2): lag 0 is two photons of one pulse, lag
    -1 a second photon one pulse earlier. With ``period``, the ticks of the dtime in a sync period, the unit is a tick.
    ``delays``: by input, what is added to the times of its photons, in the same unit, as for cables of other lengths.

    They are all pairs, not those of neighbours (``start_stops``), so that light of any rate tells its g2 (Hanbury Brown and Twiss,
    Nature 177, 27, 1956, correlated two detectors so). Warns of a PicoHarp in T3, whose router's detectors share a dead time.
    Raises ``ValueError`` for a reach or a width below 1, or times that can't be told apart: of 2^62 ticks or more, with a period
    of any part of a tick 2^53.
    """
    if reach < 1 or width < 1:
        raise ValueError(f"coincidences with a reach of {reach} and a width of {width}")
    header = header_of(source)
    if header.record_type == "PicoHarpT3" and group_of(first).inputs != group_of(second).inputs:
        warnings.warn("detectors of a PicoHarp's router share a dead time of some 90 ns: it has no pairs of one pulse", stacklevel=2)
    (times, firsts, seconds, both), ends = _occupied(source, first, second, period, delays)
    later = pair_counts(times, firsts, seconds, reach)
    earlier = pair_counts(times, seconds, firsts, reach)
    later[0] -= both.sum()
    counts = np.concatenate((earlier[:0:-1], later))
    pairs = np.add.reduceat(counts, np.arange(0, 2 * reach + 1, width))
    length = ends[1] - ends[0] + 1 if ends else 0
    one, two, in_both = (int(photons.sum()) for photons in (firsts, seconds, both))
    between = period if period is not None else None if header.mode == "T2" else 1
    return Coincidences(pairs, reach, width, one, two, length, _unit(source, period), in_both, between)


def _unit(source: EventsLike, period: float | None) -> float | None:
    ticks = ticks_of(source)
    return ticks.global_seconds if period is None else ticks.resolution_seconds


def in_ticks(photons: Events, period: float | None) -> NDArray[np.int64]:
    """The times of events: as they stand, or with the period in ticks of the dtime as sync * period + dtime, in ticks.

    The product is rounded to the nearest tick, and to an even one halfway. A period with a part of a tick that is a
    fraction with a denominator up to 1024, as 1562.5, is multiplied in whole numbers; others as floating-point numbers.
    """
    times = np.ascontiguousarray(photons["time"])
    if period is None or not len(times):
        return times
    exact = Fraction(period) if period > 0 and math.isfinite(period) else Fraction(0)
    small = exact.denominator <= 1024
    most = int(times.max()) * exact
    if not exact or (most * exact.denominator >= 1 << 62 if small else most >= 1 << 53):
        raise ValueError(f"times of {period} ticks a period can't be told apart")
    if not small:
        return np.asarray(np.rint(times * float(period)).astype(np.int64) + photons["dtime"])
    ticks, rest = np.divmod(times * exact.numerator, exact.denominator)
    up = (2 * rest > exact.denominator) | ((2 * rest == exact.denominator) & (ticks % 2 == 1))
    return np.asarray(ticks + up + photons["dtime"])


def _moved(events: Events, times: NDArray[np.int64], delays: Delays) -> NDArray[np.int64]:
    """The times of events, those of photons moved by what their inputs are late."""
    added = np.zeros(256, np.int64)
    for number, late in (delays or {}).items():
        added[number] = late
    return np.asarray(times + np.where(events["marker"], 0, added[events.numbers])) if delays else times


def _occupied(
    source: EventsLike, first: GroupLike, second: GroupLike, period: float | None, delays: Delays = None
) -> tuple[Weights, tuple[int, int] | None]:
    """The times that have photons of either group, how many of each and of both, and the first and last time of all."""
    groups, parts, ends = (group_of(first), group_of(second)), [], []
    for piece in pieces_of(source):
        one, two = (group.mask(piece) for group in groups)
        either = one | two
        times = in_ticks(piece, period)
        parts.append((_moved(piece, times, delays)[either], one[either], two[either]))
        inside = times[~piece["late"]]
        ends += [int(inside.min()), int(inside.max())] if len(inside) else []
    if not ends:
        return occupied(np.zeros(0, np.int64), np.zeros(0, np.bool_), np.zeros(0, np.bool_)), None
    times, one, two = (np.concatenate(column) for column in zip(*parts, strict=True))
    return occupied(times, one, two), (min(ends), max(ends))


def occupied(times: NDArray[np.int64], first: NDArray[Any], second: NDArray[Any]) -> Weights:
    """Of photons by their times, and whether they are of either group: the times that have some, in order, and how many
    of the first group, of the second and of both each of them has."""
    if not len(times):
        return times, times, times, times
    if np.any(times[1:] < times[:-1]):
        order = np.argsort(times, kind="stable")
        times, first, second = times[order], first[order], second[order]
    begin = np.flatnonzero(np.concatenate(([True], times[1:] != times[:-1])))
    one, two, both = (np.add.reduceat(some.astype(np.int64), begin) for some in (first, second, first & second))
    return times[begin], one, two, both


def pair_counts(
    times: NDArray[np.int64], firsts: NDArray[np.int64], seconds: NDArray[np.int64], reach: int
) -> NDArray[np.int64]:
    """How many pairs there are whose second is so much later: shape (reach + 1,), by the difference 0, 1, .. reach.

    ``times`` rise, and have so many photons of the first and of the second group each.
    """
    counts = np.zeros(reach + 1, np.int64)
    span = int(times[-1] - times[0]) if len(times) else 0
    within = min(reach, span)
    dense = _is_dense(times, firsts, seconds, span, within)
    found = _pairs_of_dense(times - times[0], firsts, seconds, within) if dense else _pairs_of_sparse(times, firsts, seconds, within)
    counts[: within + 1] = found
    return counts


def _is_dense(times: NDArray[np.int64], firsts: NDArray[np.int64], seconds: NDArray[np.int64], span: int, reach: int) -> bool:
    """Whether there is less to do if all units of time are gone through."""
    if reach <= SHORT:
        return span < DENSE * len(times)
    one, two = times[firsts != 0], times[seconds != 0]
    pairs = np.searchsorted(two, one + reach, side="right") - np.searchsorted(two, one)
    return span < DENSE * int(pairs.sum())


def _pairs_of_sparse(
    times: NDArray[np.int64], firsts: NDArray[np.int64], seconds: NDArray[np.int64], reach: int
) -> NDArray[np.int64]:
    """Of all times of the first group the k-th times of the second behind them are taken together, for k = 0, 1, .. until
    none is in reach. Each pair of such times is looked at once, and differences are counted when there are as many as
    cells, so that the seconds go with the times and the pairs that are found."""
    counts = np.zeros(reach + 1, np.int64)
    start, two = np.flatnonzero(firsts), np.flatnonzero(seconds)
    stop = np.cumsum(seconds != 0)[start] - (seconds[start] != 0)
    found: list[tuple[NDArray[np.int64], NDArray[np.int64]]] = []
    waiting = 0
    while len(start):
        end = int(np.searchsorted(stop, len(two)))
        start, stop = start[:end], stop[:end]
        behind = two[stop]
        differences = times[behind] - times[start]
        near = differences <= reach
        start, stop = start[near], stop[near] + 1
        found.append((differences[near], firsts[start] * seconds[behind[near]]))
        waiting += len(start)
        if waiting > reach or not len(start):
            differences, products = (np.concatenate(column) for column in zip(*found, strict=True))
            _add_products(counts, differences, products)
            found, waiting = [], 0
    return counts


def _add_products(counts: NDArray[np.int64], places: NDArray[np.int64], products: NDArray[np.int64]) -> None:
    if float(products.sum(dtype=np.float64)) < EXACT:
        counts += np.rint(np.bincount(places, products, len(counts))).astype(np.int64)
    else:
        np.add.at(counts, places, products)


def _pairs_of_dense(
    times: NDArray[np.int64], firsts: NDArray[np.int64], seconds: NDArray[np.int64], reach: int
) -> NDArray[np.int64]:
    """All times have a place, also those without photons: a block of the first group with what is in its reach."""
    counts = np.zeros(reach + 1, np.int64)
    size = 1 << min(2 * max(BLOCK, reach), int(times[-1]) + reach + 1).bit_length()
    block = size - reach
    for begin in range(0, int(times[-1]) + 1, block):
        low, high, last = np.searchsorted(times, (begin, begin + block, begin + size))
        one, two = np.zeros(block), np.zeros(size)
        one[times[low:high] - begin] = firsts[low:high]
        two[times[low:last] - begin] = seconds[low:last]
        counts += _correlated(one, two)
    return counts


def _correlated(one: NDArray[np.float64], two: NDArray[np.float64]) -> NDArray[np.int64]:
    """The sums of the products of one with two from its first place on, from its second, and so on while it has places.

    By Fourier transforms where that is less work and their rounding, at most a few times 2^-53 of the product of the
    norms for each halving, can't come near a half.
    """
    size = len(two)
    if float(one.sum()) * float(two.sum()) >= EXACT:
        return np.asarray(np.correlate(two.astype(np.int64), one.astype(np.int64), "valid").astype(np.int64))
    rounding = 2.0**-50 * size.bit_length() * float(np.linalg.norm(one)) * float(np.linalg.norm(two))
    if size - len(one) <= SHORT or rounding > 0.1:
        sums: NDArray[np.float64] = np.correlate(two, one, "valid")
        return np.rint(sums).astype(np.int64)
    turned = np.fft.rfft(two) * np.conj(np.fft.rfft(one, size))
    return np.asarray(np.rint(np.fft.irfft(turned, size)[: size - len(one) + 1]).astype(np.int64))


@dataclass(frozen=True, eq=False)
class StartStops(Compared):
    """Times between neighbours: ``counts`` has shape (bins,), bin b those of b * width up to (b + 1) * width - 1.

    ``over``: the longer ones; ``unit_seconds``: of the unit of ``width``, None where the file doesn't tell.
    """

    counts: NDArray[np.int64]
    width: int
    over: int
    unit_seconds: float | None = None

    @property
    def ticks(self) -> NDArray[np.int64]:
        """Where each bin begins: shape (bins,), in the unit of ``width``."""
        return self.width * np.arange(len(self.counts), dtype=np.int64)

    @property
    def seconds(self) -> NDArray[np.float64] | None:
        """The same in seconds, None where the file doesn't tell."""
        return None if self.unit_seconds is None else self.ticks * self.unit_seconds

    def to_xarray(self) -> Any:
        """The counts as an ``xarray.DataArray`` over ``delay``, in seconds where the file tells a tick, with ``over`` as an
        attribute. Raises ``MissingLibraryError`` without xarray."""
        return labelled({"pairs": self.counts}, [Axis("delay", self.ticks, self.seconds)], {}, {})["pairs"].assign_attrs(over=self.over)

    def to_pandas(self) -> Any:
        """The same as a ``pandas.DataFrame``, a line for each bin. Raises ``MissingLibraryError`` without pandas or xarray."""
        return listed(self.to_xarray().to_dataset(), "times as a list")


def start_stops(
    source: EventsLike,
    start: GroupLike,
    stop: GroupLike,
    width: int,
    bins: int,
    *,
    period: float | None = None,
    delays: Delays = None,
) -> StartStops:
    """Of the photons in either group, the times between each two neighbours of which the first starts and the second stops.

    As a plan's start-stop of a T2 file. With ``period``, the ticks of the dtime in a sync period, times of a T3 file
    are in ticks, and photons are neighbours in the order of these times. ``delays`` as of ``coincidences``. Raises ``ValueError`` without a bin, and as
    ``coincidences`` does.
    """
    if width < 1 or bins < 1:
        raise ValueError(f"{bins} bins of {width}")
    groups, parts = (group_of(start), group_of(stop)), []
    for piece in pieces_of(source):
        starts, stops = (group.mask(piece) for group in groups)
        either = starts | stops
        parts.append((_moved(piece, in_ticks(piece, period), delays)[either], starts[either], stops[either]))
    if not parts:
        return StartStops(np.zeros(bins, np.int64), width, 0, _unit(source, period))
    times, starts, stops = (np.concatenate(column) for column in zip(*parts, strict=True))
    order = np.argsort(times, kind="stable")
    times, starts, stops = times[order], starts[order], stops[order]
    cells = (times[1:] - times[:-1])[starts[:-1] & stops[1:]] // width
    counts = np.bincount(cells[cells < bins], minlength=bins).astype(np.int64, copy=False)
    return StartStops(counts, width, int(np.count_nonzero(cells >= bins)), _unit(source, period))


def g2(
    pairs: Table | Coincidences, first_photons: Given = None, second_photons: Given = None
) -> tuple[Numbers, Numbers]:
    """Pairs normalised so that they are 1 without correlation, and their Poisson bars: both of shape (cells,).

    ``pairs``: a coincidence or a correlation of a report, or ``Coincidences``. The photons of the two groups of a report's
    table are told by its plan (``read_report``), or given: of a sum for each measurement, or one number for all of it, as
    ``Table.expected`` takes them. A bar is the root of ``Coincidences.variances`` over what is expected, in cells of any
    width; groups of a report that share some photons but not all count as different. nan where no pair is expected.
    Raises ``NotKnownError`` for another table, and where photons or the length of the measurement aren't known.
    """
    expected, variances = _normal(pairs, first_photons, second_photons)
    values, bars = np.full(len(expected), np.nan), np.full(len(expected), np.nan)
    np.divide(pairs.counts.astype(np.float64), expected, out=values, where=expected > 0)
    np.divide(np.sqrt(variances), expected, out=bars, where=expected > 0)
    return values, bars


def _normal(pairs: Table | Coincidences, first_photons: Given, second_photons: Given) -> tuple[Numbers, Numbers]:
    """The pairs that each cell would have without correlation, and the variance of those that it has."""
    counts = pairs.counts.astype(np.float64)
    if isinstance(pairs, Table) and pairs.kind != "coincidence":
        return pairs.expected(first_photons, second_photons), np.maximum(counts, 1)
    each = [pairs] if isinstance(pairs, Coincidences) else _coincidences(pairs, first_photons, second_photons)
    expected = sum((one.expected() for one in each), np.zeros(len(counts)))
    return expected, each[0].variances() if each else counts


def _coincidences(table: Table, first_photons: Given, second_photons: Given) -> list[Coincidences]:
    """A coincidence of a report with the photons and the length of each measurement in it."""
    same = table.groups is not None and len(set(table.groups)) == 1
    reach, width = table.settings["reach"], table.settings["width"]
    return [
        Coincidences(table.counts, reach, width, first, second, length + 1, None, min(first, second) if same else 0)
        for length, first, second in measured(table, first_photons, second_photons)
    ]


def g2_model(
    differences: Numbers,
    depth: float,
    lifetime: float,
    *,
    centre: float = 0.0,
    baseline: float = 1.0,
    bunching: float = 0.0,
    bunching_time: float = 1.0,
    signal: float = 1.0,
    jitter: float = 0.0,
    width: float = 0.0,
) -> Numbers:
    """Antibunched light with bunching: shape of ``differences``.

    baseline * (1 - depth * signal^2 * ((1 + bunching) * e(lifetime) - bunching * e(bunching_time))) with e(c) = exp(-|t -
    centre| / c), so that g2 is 1 - depth at the ``centre`` where there is no background: 1 / depth emitters that are alike
    (Kurtsiefer, Mayer, Zarda and Weinfurter, Physical Review Letters 85, 290, 2000). ``signal``: the part of photons that
    are no background. ``jitter``: the standard deviation of a difference of times by the detectors, as of a normal law that e
    is convolved with; ``width``: of a cell of which each place is as likely, over which e is integrated. Times are in the
    unit of ``differences``.
    """
    at = differences - centre

    def dip(time: float) -> Numbers:
        wide = width or 1e-4 * time
        return np.asarray((_under_dip(at + wide / 2, time, jitter) - _under_dip(at - wide / 2, time, jitter)) / wide)

    dips = (1 + bunching) * dip(lifetime) - (bunching * dip(bunching_time) if bunching else 0.0)
    return np.asarray(baseline * (1 - depth * signal**2 * dips))


def _under_dip(at: Numbers, time: float, jitter: float) -> Numbers:
    """The integral of exp(-|t| / time), convolved with a normal law, from 0 to a time."""
    if not jitter:
        return np.asarray(-np.sign(at) * time * np.expm1(-np.abs(at) / time))
    special = want("scipy.special", "fits of g2")
    wide, x, half = jitter / time, at / jitter, jitter**2 / (2 * time**2)
    powers = [half + sign * at / time + special.log_ndtr(-sign * x - wide) for sign in (1, -1)]
    later, sooner = (np.exp(np.minimum(power, 700)) for power in powers)
    return np.asarray(time * (later - sooner + 2 * special.ndtr(x) - 1))


def fit_g2(
    pairs: Table | Coincidences,
    first_photons: Given = None,
    second_photons: Given = None,
    *,
    bunching: bool = False,
    span: tuple[float, float] = (-math.inf, math.inf),
    fixed: Values = None,
    start: Values = None,
    bounds: Bounds = None,
) -> Fit:
    """A fit of coincidences by ``g2_model``, integrated over the cells, by the likelihood of their pairs.

    ``pairs`` and photons as of ``g2``. The fit is in seconds, in ticks where the file doesn't tell; ``data`` and ``curve`` are
    g2. ``span``: the differences that are fitted. Parameters: ``centre``, where the dip is, so by how much the second input's
    cable is longer; ``depth``, so 1 - depth is g2 at the dip and 1 / depth the number of emitters; ``lifetime``; ``baseline``; with
    ``bunching`` also ``bunching`` and ``bunching_time``. Where they are named there are ``signal``, else 1, the part of photons
    that are no background (the root of the product of both detectors'), and ``jitter``, else 0. Raises ``NotKnownError`` as ``g2``, and
    ``FitError``.
    """
    expected, variances = _normal(pairs, first_photons, second_photons)
    unit = 1.0
    if pairs.seconds is not None:
        unit = float(np.ptp(pairs.seconds)) / float(np.ptp(pairs.ticks))
    axis, width = pairs.ticks * unit, (pairs.settings["width"] if isinstance(pairs, Table) else pairs.width) * unit
    kept = (expected > 0) & (axis >= span[0]) & (axis <= span[1])
    counts, axis, expected, variances = pairs.counts[kept].astype(np.float64), axis[kept], expected[kept], variances[kept]
    if len(axis) < 6 or not counts.sum() > 0:
        raise FitError(f"a dip of {len(axis)} cells and {counts.sum():g} pairs")
    values, law = counts / expected, poisson(counts, expected, variances / np.maximum(counts, 1.0))
    more = {"signal": {"value": 1.0, "min": 0.0, "max": 1.0}, "jitter": {"value": 0.0, "min": 0.0, "brute_step": width}}
    begin = steered(_begin_g2(axis, values, np.sqrt(variances) / expected, width, bunching), fixed, start, bounds, more)
    return solved(Problem(axis, values, lambda at, now: g2_model(at, width=width, **now), law, begin))


def _begin_g2(axis: Numbers, values: Numbers, bars: Numbers, width: float, bunching: bool) -> Any:
    """Where a fit of a dip begins: at the best of a grid of centres and lifetimes, over which the others are linear."""
    step = max(1, len(axis) // 1000)
    cells = slice(0, len(axis) // step * step)
    times, levels, squares = (one[cells].reshape(-1, step).mean(axis=1) for one in (axis, values, bars**2))
    near = np.ones(min(9, len(times)))
    weights = np.convolve(np.ones(len(times)), near, "same") / np.convolve(squares, near, "same")
    reach, missing = float(axis[-1] - axis[0]), (np.average(levels, weights=weights) - levels) * weights
    best: tuple[float, Any] = (math.inf, None)
    for time in np.geomspace(max(width / 2, reach / 1000), reach / 4, 16):
        kernel = np.exp(-np.abs(np.arange(-((len(times) - 1) // 2), (len(times) - 1) // 2 + 1)) * width * step / time)
        scatter: Numbers = np.sqrt(np.convolve(weights, kernel**2, "same"))
        found = np.convolve(missing, kernel, "same") / scatter
        centre = float(times[int(np.argmax(found))])
        for long in np.geomspace(3 * time, max(reach, 4 * time), 6) if bunching else np.zeros(1):
            shapes = [-np.exp(-np.abs(times - centre) / time), *([np.exp(-np.abs(times - centre) / long)] if long else [])]
            columns = np.stack([np.ones(len(times)), *shapes], axis=1) * np.sqrt(weights)[:, None]
            heights = np.linalg.lstsq(columns, levels * np.sqrt(weights), rcond=None)[0]
            left = float(((columns @ heights - levels * np.sqrt(weights)) ** 2).sum())
            if left < best[0] and np.all(heights > 0):
                best = left, (centre, float(time), float(long), *heights)
    if best[1] is None:
        raise FitError("no dip: nowhere are fewer pairs than beside it")
    centre, time, long, level, down, *up = best[1]
    rise = up[0] if up else 0.0
    begin = want("lmfit", "fits").Parameters()
    begin.add("depth", value=min(max((down - rise) / level, 0.05), 0.98), min=0, max=1, brute_step=0.01)
    begin.add("lifetime", value=time, min=width / 100, max=reach)
    begin.add("centre", value=centre, min=float(axis[0]), max=float(axis[-1]), brute_step=time)
    begin.add("baseline", value=level, min=0)
    if bunching:
        begin.add("bunching", value=min(max(rise / max(down - rise, 0.01), 0.01), 50.0), min=0, max=100, brute_step=0.01)
        begin.add("bunching_time", value=long, min=width / 100, max=100 * reach)
    return begin
