"""Bursts of single molecules: background, search, and E and S of each.

Photons are those of ``photons_of`` (or ``read_events(..).photons``), whose header tells how long a tick is; times alone do too.
The search is that of FRETBursts (Ingargiola, Lerner, Chung, Weiss and Michalet, PLoS ONE 11, e0160716, 2016), by a window of
photons that slides: m photons that follow one another begin a burst where they take no longer than a threshold. Corrections are calibrated, and molecules that change looked for, in ``ptulab.smfret``.
"""

from collections.abc import Callable, Mapping, Sequence
from dataclasses import dataclass, field
from typing import Any, cast

import numpy as np
from numpy.typing import NDArray

from .errors import NotKnownError
from .events import events_of
from .groups import GroupLike, Part, group_of
from ._optional import want
from ._values import Compared

__all__ = ["BURST", "Background", "Fret", "Timed", "and_gate", "background", "counted", "find_bursts", "fret", "fused", "photons_in", "to_pandas"]

BURST = np.dtype([("first", "<i8"), ("last", "<i8"), ("start", "<i8"), ("stop", "<i8")])
FACTORS = {"gamma": 1.0, "beta": 1.0, "leakage": 0.0, "direct_excitation": 0.0}  # corrections, and what corrects nothing
ROUNDS, LEAST_WAITS = 20, 10  # of a tail that is sought, and in a tail

Timed = Part | NDArray[np.int64]  # photons, or their times alone, shape (photons,), rising, in ticks of T2 or sync periods of T3


def _times_of(photons: Timed, group: GroupLike, unit_seconds: float | None) -> tuple[NDArray[np.int64], NDArray[np.int64] | None, float]:
    """The times of a group's photons, which of all they are (None: each), and the seconds of a unit of time."""
    if isinstance(photons, np.ndarray) and photons.dtype.names is None:
        if group is not None:
            raise ValueError("times alone have no groups: give photons")
        times, which = np.asarray(photons, dtype=np.int64), None
        unit = 1.0 if unit_seconds is None else unit_seconds
    else:
        events = events_of(cast(Part, photons))
        which = None if group is None else np.flatnonzero(group_of(group).mask(events))
        times = events.times if which is None else events.times[which]
        unit = unit_seconds or events.header.global_seconds or 0.0
        if not unit > 0:
            raise NotKnownError("the header doesn't tell how many seconds a tick has: give unit_seconds")
    if np.any(times[1:] < times[:-1]):
        raise ValueError("the times of photons must rise")
    return times, which, unit


@dataclass(frozen=True, eq=False)
class Background(Compared):
    """The rate of a background by windows of time.

    - ``edges``: shape (windows + 1,), where the windows begin and end, in units of time;
    - ``rates`` and ``errors``: shape (windows,), in photons a second, with their standard deviations;
    - ``tails``: shape (windows,), in seconds; waiting times from there on were taken;
    - ``unit_seconds``: of a unit of time; 1 where times were given without it, and a second is a unit then.
    """

    edges: NDArray[np.float64]
    rates: NDArray[np.float64]
    errors: NDArray[np.float64]
    tails: NDArray[np.float64]
    unit_seconds: float

    def at(self, times: NDArray[np.int64]) -> NDArray[np.float64]:
        """The rate at each time, in photons a second, that of the nearest window outside them: shape of ``times``."""
        return self.rates[np.searchsorted(self.edges[1:-1], times, side="right")]

    def of(self, bursts: NDArray[np.void]) -> NDArray[np.float64]:
        """How many photons of the background each burst has in the mean: shape (bursts,), by the window that it begins in."""
        return np.asarray(self.at(bursts["start"]) * (bursts["stop"] - bursts["start"]) * self.unit_seconds)

    def to_pandas(self) -> Any:
        """The windows as a ``pandas.DataFrame``: ``start`` and ``stop`` in seconds, ``rate`` and ``error`` in photons a second, and the
        ``tail`` in seconds. Raises ``MissingLibraryError`` without pandas."""
        times = self.edges * self.unit_seconds
        columns = {"start": times[:-1], "stop": times[1:], "rate": self.rates, "error": self.errors, "tail": self.tails}
        return want("pandas", "windows as a list").DataFrame(columns)


def background(
    photons: Timed, group: GroupLike = None, *, seconds: float = 30.0, tail: float | None = None, F: float = 2.0, unit_seconds: float | None = None
) -> Background:
    """The background of a group's photons in windows of some ``seconds``, by the tail of their waiting times.

    Of even light the waiting times from ``tail`` seconds on are exponential, however bright the molecules are between them; n
    of them that are k ticks longer in the mean give the rate of the greatest likelihood without its bias, ln(1 + (n - 1) / (n
    k)) a tick, which for waits of many ticks is (n - 1) / (n k), with a relative error of 1 / sqrt(n - 2). Without ``tail``
    it is ``F`` of the mean waits of the background, found step by step, as in FRETBursts (Ingargiola and others, PLoS ONE 11,
    e0160716, 2016). Bursts that begin end a wait too, so it is too great by about as many a second as there are bursts; where a
    rate changes within a window, its lesser values count more.

    Windows are as long as one another. ``photons`` are an array of times too, with ``unit_seconds``; see ``Timed``. Raises
    ``NotKnownError`` where a window has fewer than ten such waits, and ``ValueError`` for a tail that isn't positive.
    """
    times, _, unit = _times_of(photons, group, unit_seconds)
    if not seconds > 0 or not F > 0 or (tail is not None and not tail > 0):
        raise ValueError(f"windows of {seconds} seconds and a tail of {F if tail is None else tail}")
    if len(times) < 2:
        raise NotKnownError(f"{len(times)} photons have no background: there are no waits between them")
    length = float(times[-1] - times[0])
    edges = times[0] + np.linspace(0.0, length, max(1, round(length * unit / seconds)) + 1)
    ends = np.searchsorted(times, edges[1:-1])
    waits = np.diff(times)
    found = [_tail_of(part, None if tail is None else tail / unit, F) for part in np.split(waits, ends - 1)]
    rates, errors, tails = np.array(found, dtype=np.float64).T
    return Background(edges, rates / unit, errors / unit, tails * unit, unit)


def _tail_of(waits: NDArray[np.int64], tail: float | None, F: float) -> tuple[float, float, float]:
    """The rate of a background a tick, its error, and where the tail begins."""
    ordered = np.sort(waits)
    beyond = np.append(np.cumsum(ordered[::-1], dtype=np.float64)[::-1], 0.0)  # the sum of the waits from each on
    begin, rate, many = 0, len(waits) / max(float(beyond[0]), 1.0), 0
    for _ in range(ROUNDS):
        before, begin = begin, max(1, int(np.ceil(F / rate if tail is None else tail)))
        if begin == before:
            break
        place = int(np.searchsorted(ordered, begin))
        many, longer = len(ordered) - place, float(beyond[place]) - begin * (len(ordered) - place)
        if many < LEAST_WAITS or not longer > 0:
            raise NotKnownError(f"a window has {many} waits of its {len(waits)} from {begin} ticks on: take longer ones, or another tail")
        rate = float(np.log1p((many - 1) / longer))
    return rate, rate / np.sqrt(many - 2), begin


def find_bursts(
    photons: Timed,
    rate: float | Background,
    *,
    group: GroupLike = None,
    minimum: int = 20,
    m: int = 10,
    c: float = -1,
    F: float = 6.0,
    unit_seconds: float | None = None,
) -> NDArray[np.void]:
    """The bursts among the photons of a group, of at least ``minimum`` of its photons each.

    ``photons``: with a header that tells the tick, or an array of times with ``unit_seconds``, without which a second is a unit
    of time (``Timed``). ``rate``: the threshold, in photons a second, or a background, of which it is ``F`` times the rate of
    each window. Of ``m`` photons that follow one another the rate is above it where they take at most (m - 1 - c) / rate, as
    FRETBursts has it. A burst goes from the first photon of the first such m to the last photon of the last, of all that
    follow one another without a gap; as in FRETBursts, two bursts may share photons, until they are ``fused``.

    Gives one element a burst: ``first`` and ``last``, the numbers of its photons among all of ``photons``, from 0, and
    ``start`` and ``stop``, their times. Raises ``ValueError`` for a rate that isn't positive, m below 2 or times that fall,
    and ``NotKnownError`` for a header without a tick.
    """
    times, which, unit = _times_of(photons, group, unit_seconds)
    ends = times[m - 1 :]
    begins = times[: len(ends)]
    rates: NDArray[np.float64] = np.asarray(F * rate.at(begins) if isinstance(rate, Background) else rate, dtype=np.float64)
    if m < 2 or not np.all(rates > 0):
        raise ValueError(f"bursts of {m} photons at a rate of {rates}")
    above = np.zeros(len(ends) + 2, np.int8)
    above[1:-1] = ends - begins <= (m - 1 - c) / rates / unit
    steps = np.diff(above)
    first, last = np.flatnonzero(steps == 1), np.flatnonzero(steps == -1) + m - 2
    kept = last - first + 1 >= minimum
    return _bursts(times, first[kept], last[kept], which)


def _bursts(times: NDArray[np.int64], first: NDArray[np.int64], last: NDArray[np.int64], which: NDArray[np.int64] | None = None) -> NDArray[np.void]:
    bursts = np.zeros(len(first), BURST)
    bursts["start"], bursts["stop"] = times[first], times[last]
    bursts["first"], bursts["last"] = (first, last) if which is None else (which[first], which[last])
    return bursts


def fused(bursts: NDArray[np.void], gap: int = 0) -> NDArray[np.void]:
    """The same bursts, where each two that are at most ``gap`` units of time apart, or share photons, are one.

    ``bursts``: as ``find_bursts`` gives them.
    """
    if not len(bursts):
        return np.array(bursts)
    apart = bursts["start"][1:] - bursts["stop"][:-1] > gap
    begin = np.append(True, apart)
    result = np.array(bursts[begin])
    ends = np.append(np.flatnonzero(begin)[1:] - 1, len(bursts) - 1)
    result["last"], result["stop"] = bursts["last"][ends], bursts["stop"][ends]
    return result


def and_gate(bursts: NDArray[np.void], others: NDArray[np.void], photons: Timed, *, minimum: int = 1) -> NDArray[np.void]:
    """The times in which both of two searches have a burst, as bursts of at least ``minimum`` of all photons.

    With the photons of either excitation searched for one by one, this is the search by two channels (DCBS; Nir and others,
    Journal of Physical Chemistry B 110, 22103, 2006), which leaves out molecules with one dye, and what comes after one was
    bleached. ``photons``: those among which both were found. Bursts that touch are fused before.
    """
    times = _times_of(photons, None, 1.0)[0]
    one, other = fused(bursts), fused(others)
    begin = np.searchsorted(other["stop"], one["start"])
    many = np.maximum(np.searchsorted(other["start"], one["stop"], side="right") - begin, 0)
    mine = np.repeat(np.arange(len(one)), many)
    earlier = begin - np.cumsum(many) + many
    theirs = np.arange(many.sum()) + np.repeat(earlier, many)
    first = np.searchsorted(times, np.maximum(one["start"][mine], other["start"][theirs]))
    until = np.minimum(one["stop"][mine], other["stop"][theirs])
    last = np.searchsorted(times, until, side="right") - 1
    kept = last - first + 1 >= minimum
    return _bursts(times, first[kept], last[kept])


def to_pandas(bursts: NDArray[np.void], photons: Timed, *, unit_seconds: float | None = None) -> Any:
    """Bursts as a ``pandas.DataFrame``, a line for each: ``first`` and ``last`` as they are, ``start``, ``stop`` and the ``duration``
    in seconds, and ``photons``, how many it has of all.

    ``photons``: those among which they were found, as of ``find_bursts``, which raises the same; beside it ``pandas.concat`` has what
    ``Fret.to_pandas`` gives. Raises ``MissingLibraryError`` without pandas.
    """
    _, _, unit = _times_of(photons, None, unit_seconds)
    start, stop = bursts["start"] * unit, bursts["stop"] * unit
    columns = {"first": bursts["first"], "last": bursts["last"], "start": start, "stop": stop}
    columns |= {"duration": stop - start, "photons": bursts["last"] - bursts["first"] + 1}
    return want("pandas", "bursts as a list").DataFrame(columns)


def photons_in(bursts: NDArray[np.void], photons: Part, group: GroupLike) -> NDArray[np.int64]:
    """How many photons of a group each burst has: shape (bursts,).

    ``photons``: those in whose times the bursts were found, as ``photons_of`` gives them.
    """
    so_far = np.zeros(len(photons) + 1, np.int64)
    np.cumsum(group_of(group).mask(photons), out=so_far[1:])
    return np.asarray(so_far[bursts["last"] + 1] - so_far[bursts["first"]])


def counted(bursts: NDArray[np.void], photons: Part, groups: Sequence[GroupLike], *, seconds: float = 30.0) -> dict[str, Any]:
    """The words of ``fret`` and ``smfret.calibrate`` for bursts of such photons: ``fret(**counted(..))``.

    ``groups``: the photons of donor and acceptor while the donor is excited, and, with a second laser, of the acceptor while it
    is. ``seconds``: the windows of the ``background`` of each.
    """
    backgrounds = [background(photons, group, seconds=seconds).of(bursts) for group in groups]
    photons_of = [photons_in(bursts, photons, group) for group in groups]
    return dict(zip(("donor", "acceptor", "direct"), photons_of, strict=False)) | {"backgrounds": backgrounds}


Counted = tuple[NDArray[np.int64], NDArray[np.float64]]  # bursts in bins, and the edges of the bins
Span = tuple[float, float]


@dataclass(frozen=True, eq=False)
class Fret(Compared):
    """Of each burst E and S, shape (bursts,), nan where no photon tells, and which corrections they have.

    - ``E``: the FRET efficiency, or the proximity ratio where nothing is corrected; ``S``: the stoichiometry, None where there
      were no photons of the acceptor's own excitation;
    - ``photons``: shape (bursts, 3), or 2 without S: of donor and acceptor while the donor is excited, and of the acceptor by
      its own laser, less the background where ``subtracted``;
    - ``corrections``: of ``gamma``, ``beta``, ``leakage`` and ``direct_excitation`` those that were given or calibrated, so that
      ``fret(.., **result.corrections)`` corrects other bursts likewise, and ``errors``, of those that were calibrated.

    As a text it says which corrections it has, and which it hasn't.
    """

    E: NDArray[np.float64]
    S: NDArray[np.float64] | None
    photons: NDArray[np.float64]
    subtracted: bool = False
    corrections: Mapping[str, float] = field(default_factory=dict)
    errors: Mapping[str, float] = field(default_factory=dict)
    moves: NDArray[np.float64] | None = field(default=None, repr=False, compare=False)  # (bursts, 4): of each factor, by each burst that calibrated it

    def __str__(self) -> str:
        known = {"background": self.subtracted} | {name: name in self.corrections for name in FACTORS}
        told = {name: f" {self.corrections[name]:.3g}" for name in self.corrections}
        told |= {name: f"{told[name]} ± {error:.1g}" for name, error in self.errors.items()}
        having = [name.replace("_", " ") + told.get(name, "") for name, given in known.items() if given]
        lacking = [name.replace("_", " ") for name, given in known.items() if not given]
        parts = [f"corrected for {', '.join(having)}"] * bool(having) + [f"not corrected for {', '.join(lacking)}"] * bool(lacking)
        return f"{'E' if self.S is None else 'E and S'} of {len(self.E):,} bursts, " + "; ".join(parts)

    def select(self, E: Span = (-np.inf, np.inf), S: Span = (-np.inf, np.inf)) -> NDArray[np.bool_]:
        """Which bursts have an E and S from the first up to the second of these: shape (bursts,). Raises ``NotKnownError``
        for a span of S without S."""
        inside = (self.E >= E[0]) & (self.E <= E[1])
        if S != (-np.inf, np.inf):
            known = self._stoichiometry()
            inside &= (known >= S[0]) & (known <= S[1])
        return np.asarray(inside)

    def mean(self, some: NDArray[np.bool_] | None = None) -> dict[str, tuple[float, float]]:
        """``E`` and ``S`` of some bursts (a mask, all by default), each with its standard deviation.

        They are those of all their photons together, which is the mean of bursts by their sizes, and has no bias by small
        ones. Errors are by the scatter of the bursts and of those that calibrated the corrections, by the delta method, so
        they know where both are the same; corrections that were given are taken as exact.
        """
        chosen = np.ones(len(self.E), np.bool_) if some is None else np.asarray(some, dtype=np.bool_)
        if not chosen.any():
            raise NotKnownError("no bursts have no mean")
        factors = np.array([self.corrections.get(name, neutral) for name, neutral in FACTORS.items()])
        photons = np.zeros((len(self.E), 3))
        photons[:, : self.photons.shape[1]] = self.photons
        at = np.concatenate((photons[chosen].sum(axis=0), factors))
        values, slopes = means(at), slopes_of(means, at)
        each = (photons * chosen[:, None]) @ slopes[:, :3].T + (0 if self.moves is None else self.moves @ slopes[:, 3:].T)
        bars = np.sqrt((each**2).sum(axis=0))
        return {name: (float(values[n]), float(bars[n])) for n, name in enumerate("E" if self.S is None else "ES")}

    def histogram(self, bins: int = 48, span: Span = (-0.1, 1.1)) -> Counted:
        """How many bursts have each E, shape (bins,), and the edges of the bins, shape (bins + 1,)."""
        counts, edges = np.histogram(self.E[~np.isnan(self.E)], bins=bins, range=span)
        return counts.astype(np.int64), edges

    def histogram_2d(self, bins: int = 48, span: Span = (-0.1, 1.1)) -> Counted:
        """How many bursts have each S and E, shape (bins, bins) with S first, and the edges of both, shape (bins + 1,).

        Raises ``NotKnownError`` without S.
        """
        S = self._stoichiometry()
        known = ~(np.isnan(self.E) | np.isnan(S))
        counts, edges, _ = np.histogram2d(S[known], self.E[known], bins=bins, range=(span, span))
        return counts.astype(np.int64), edges

    def to_pandas(self) -> Any:
        """The bursts as a ``pandas.DataFrame``: ``E`` and ``S``, and the photons that they are of, ``donor``, ``acceptor`` and ``direct``;
        without S neither it nor the last. Raises ``MissingLibraryError`` without pandas."""
        ratios = {"E": self.E} | ({} if self.S is None else {"S": self.S})
        return want("pandas", "bursts as a list").DataFrame(ratios | dict(zip(("donor", "acceptor", "direct"), self.photons.T)))

    def _stoichiometry(self) -> NDArray[np.float64]:
        if self.S is None:
            raise NotKnownError("no stoichiometry: there were no photons of the acceptor's own excitation")
        return self.S


def fret(
    donor: NDArray[np.int64],
    acceptor: NDArray[np.int64],
    direct: NDArray[np.int64] | None = None,
    *,
    backgrounds: Sequence[NDArray[np.float64]] | None = None,
    gamma: float | None = None,
    beta: float | None = None,
    leakage: float | None = None,
    direct_excitation: float | None = None,
) -> Fret:
    """E and S of bursts by their photons, each of shape (bursts,).

    ``donor`` and ``acceptor``: photons of either detector while the donor is excited (D and A); ``direct``: of the acceptor's
    while the acceptor is (AA). ``backgrounds``: how many of each are the background's, as ``Background.of`` tells; they are
    taken off first. With F = A - leakage * D - direct_excitation * AA,

        E = F / (F + gamma * D)    and    S = (F + gamma * D) / (F + gamma * D + AA / beta)

    after Lee and others (Biophysical Journal 88, 2939, 2005) and Hellenkamp and others (Nature Methods 15, 669, 2018): gamma is
    what a photon of the donor counts beside one of the acceptor, and beta is AA over F + gamma * D of molecules with one dye
    of each kind, whose S is then a half. What isn't given isn't corrected; ``smfret.calibrate`` finds all four. Raises
    ``ValueError`` where gamma or beta isn't positive.
    """
    given = {"gamma": gamma, "beta": beta, "leakage": leakage, "direct_excitation": direct_excitation}
    corrections = {name: float(value) for name, value in given.items() if value is not None}
    if not all(corrections.get(name, 1.0) > 0 for name in ("gamma", "beta")):
        raise ValueError(f"gamma = {gamma}, beta = {beta}")
    return corrected(less_background([donor, acceptor] if direct is None else [donor, acceptor, direct], backgrounds), corrections, backgrounds is not None)


def less_background(counts: Sequence[NDArray[np.int64]], backgrounds: Sequence[NDArray[np.float64]] | None) -> NDArray[np.float64]:
    """Photons of bursts less those of the background, shape (bursts, groups)."""
    if backgrounds is not None and len(backgrounds) != len(counts):
        raise ValueError(f"{len(backgrounds)} backgrounds of {len(counts)} groups")
    photons = np.stack(counts, axis=-1).astype(np.float64)
    return photons if backgrounds is None else photons - np.stack(backgrounds, axis=-1)


def corrected(photons: NDArray[np.float64], corrections: Mapping[str, float], subtracted: bool) -> Fret:
    """E and S of photons, shape (bursts, 2 or 3), by the corrections."""
    factors = FACTORS | dict(corrections)
    donor, acceptor = photons[:, 0], photons[:, 1]
    own = photons[:, 2] if photons.shape[1] == 3 else np.zeros(len(photons))
    passed = acceptor - factors["leakage"] * donor - factors["direct_excitation"] * own
    whole = passed + factors["gamma"] * donor
    S = None if photons.shape[1] == 2 else _ratio(whole, whole + own / factors["beta"])
    return Fret(_ratio(passed, whole), S, photons, subtracted, dict(corrections))


def means(at: NDArray[Any]) -> NDArray[Any]:
    """E and S, shape (2, ..), of the sums of three kinds of photons, and the four factors after them: shape (7, ..)."""
    donor, acceptor, own, gamma, beta, leakage, direct = at
    passed = acceptor - leakage * donor - direct * own
    whole = passed + gamma * donor
    return np.array([passed / whole, whole / (whole + own / beta)])


def slopes_of(function: Callable[[NDArray[Any]], NDArray[Any]], at: NDArray[np.float64]) -> NDArray[np.float64]:
    """The derivatives of a function of real numbers, shape (values, numbers), by a step along the imaginary axis, which loses
    no digits (Squire and Trapp, SIAM Review 40, 110, 1998). It takes numbers of shape (numbers, steps)."""
    step = 1e-30
    return np.asarray(function(at[:, None] + 1j * step * np.eye(len(at))).imag / step)


def _ratio(part: NDArray[np.float64], whole: NDArray[np.float64]) -> NDArray[np.float64]:
    return np.divide(part, whole, out=np.full(len(part), np.nan), where=whole > 0)
