"""The figures of a page: of each table of a report what is drawn, and the same as numbers and words.

Nothing is drawn here. A figure has its numbers in the units of its axes; ``page.js`` draws it where scripts are on, and
``plain.py`` where they are off.
"""

from __future__ import annotations

import math
from collections.abc import Callable, Sequence
from dataclasses import dataclass, replace
from typing import Any, NamedTuple

import numpy as np
from numpy.typing import NDArray

from ..errors import NotKnownError
from ..antibunching import g2
from ..headers import Header
from ..report import Head, Report
from ..tables import BY_DTIME, Table, enough, weighted_sums

Floats = NDArray[np.float64]
POINTS = 4096  # of a curve, at most; of more the least and the greatest of each piece are drawn
SIDE = 512  # columns or rows of a picture, at most; more are added up
ROWS = 200  # of a table of values, at most
SIGNIFICANT = 3.0  # errors that a correlation is from 1 where it counts as seen
STEADY = 6  # cells that follow with small errors where a correlation begins


class Line(NamedTuple):
    """Another curve in a figure, as of a fit."""

    label: str
    xs: Floats
    ys: Floats


@dataclass(frozen=True)
class Curve:
    """A curve, or bars: x and y in the units that the labels tell, ``errors`` as long as y or None; ``more`` are drawn over it.

    ``log`` is whether the counts are drawn logarithmic at first, None where that is no choice. ``start`` is the x from
    which the errors are small, None where all are shown, ``level`` a y that is marked, ``names`` those of bars.
    """

    name: str
    title: str
    summary: str
    xs: Floats
    ys: Floats
    xlabel: str
    ylabel: str
    xunit: str
    yunit: str
    errors: Floats | None = None
    xlog: bool = False
    log: bool | None = None
    shape: str = "hv"
    start: float | None = None
    level: float | None = None
    names: Sequence[str] | None = None
    more: Sequence[Line] = ()


@dataclass(frozen=True)
class Picture:
    """A picture of pixels: ``photons`` and ``values`` of shape (rows, columns); ``values`` are nan where there is none.

    ``block`` is how many pixels of the table stand in one of the picture, in each direction; ``micrometres`` how long and
    wide a pixel of the table is, None where nothing tells.
    """

    name: str
    title: str
    summary: str
    photons: NDArray[np.uint64]
    values: Floats
    label: str
    unit: str
    block: int
    threshold: int
    colours: str
    micrometres: float | None = None


Figure = Curve | Picture


def figures_of(report: Report, header: Header | None = None) -> list[Figure]:
    """The figures of a report, in its order: one for each table, and of a cube the image, the mean delays and the decay.

    By the header of the file pictures have micrometres, where they have as many columns as the scan.
    """
    figures = [figure for table in report.tables for figure in DRAWN[table.kind](table, scale_of(table, report.head))]
    if header is None:
        return figures
    columns = {f"{table.kind}-{table.number}": table.settings["width"] for table in report.tables if "height" in table.settings}
    return [
        replace(one, micrometres=header.pixel_micrometres(columns["-".join(one.name.split("-")[:2])])) if isinstance(one, Picture) else one
        for one in figures
    ]


def limits_of(picture: Picture) -> tuple[float, float]:
    """From where to where the colours of a picture go: of photons from 0 to the most, of other values from the 2nd to the
    98th percentile of the pixels with photons enough, so that background of few photons stretches nothing."""
    seen = picture.values[(picture.photons >= picture.threshold) & np.isfinite(picture.values)]
    if picture.unit == "photons":
        return 0.0, float(seen.max(initial=1.0))
    least, most = np.percentile(seen, (2, 98)) if len(seen) else (0.0, 1.0)
    return float(least), float(most)


def unit_of(seconds: float) -> tuple[float, str]:
    """What seconds are multiplied by, and the unit that comes of it, so that this time is a short number."""
    for factor, unit in ((1.0, "s"), (1e3, "ms"), (1e6, "µs"), (1e9, "ns")):
        if abs(seconds) * factor >= 1:
            return factor, unit
    return 1e12, "ps"


class Scale(NamedTuple):
    """What a tick of a table's axis is: its seconds, None where the file doesn't tell, and its word."""

    seconds: float | None
    word: str


def scale_of(table: Table, head: Head) -> Scale:
    """The scale of a table's axis."""
    of_delay = table.kind in BY_DTIME
    seconds = head.resolution_seconds if of_delay else head.global_seconds
    known = seconds is not None and 1e-30 < seconds < 1e30  # a header may tell any number
    return Scale(seconds if known else None, "ticks" if of_delay or head.mode == "T2" else "sync periods")


def axis_of(table: Table, scale: Scale) -> tuple[Floats, str, float]:
    """Where the cells are, the unit, and what a tick (T3: a sync period) is in it."""
    ticks = np.asarray(table.ticks, dtype=np.float64)
    if scale.seconds is None:
        return ticks, scale.word, 1.0
    factor, unit = unit_of(float(np.abs(ticks).max(initial=0.0)) * scale.seconds)
    return ticks * (scale.seconds * factor), unit, scale.seconds * factor


def measured(value: float, unit: str) -> str:
    """A number with its unit, seconds with the one that makes it short."""
    factor, short = unit_of(value) if unit == "s" else (1.0, unit)
    return f"{value * factor:.4g} {short}"


def count(number: float) -> str:
    """A count with its thousands parted."""
    return f"{int(number):,}"


def counts_of(table: Table) -> Floats:
    return np.asarray(table.counts.astype(np.float64), dtype=np.float64)


def peak(xs: Floats, ys: Floats, unit: str, what: str) -> str:
    """The greatest y in words."""
    if not len(ys) or not ys.max(initial=0) > 0:
        return f"There are no {what}."
    at = int(np.nanargmax(ys))
    most = count(ys[at]) if ys[at] == int(ys[at]) else f"{ys[at]:,.4g}"
    return f"The most, {most} {what}, are at {xs[at]:.6g} {unit}."


def _of_groups(table: Table) -> str:
    groups = table.groups or ()
    return "" if not groups else f"; group{'s' * (len(groups) > 1)} {', '.join(map(str, groups))}"


def _named(table: Table, title: str) -> dict[str, Any]:
    return {"name": f"{table.kind}-{table.number}", "title": f"{title}: {table.kind} {table.number}{_of_groups(table)}"}


WHERE = {"over": "past the last bin", "before": "before the first bin", "beyond": "behind the last bin", "outside": "outside the picture"}
UNKNOWN = "It isn't normalised, since the photons of the groups aren't known: a plan with a trace of each tells them."


POISSON = (
    "Bars are Poisson errors. Of light that fluctuates, as of molecules that blink or diffuse, they can be several times too small:"
    " the scatter of segments tells its errors (correlation_by_segments of ptulab.segments)."
)


def _rest(table: Table) -> str:
    what = "times" if table.kind == "startstop" else "photons"
    return " ".join(f"{count(number)} {what} are {WHERE[word]}." for word, number in table.rest.items() if number)


def _decay(table: Table, scale: Scale) -> list[Figure]:
    xs, unit, tick = axis_of(table, scale)
    ys = counts_of(table)
    summary = f"{count(ys.sum())} photons by their delay after the sync, in {len(xs)} bins of {table.settings['width'] * tick:.6g} {unit}."
    summary = f"{summary} {peak(xs, ys, unit, 'photons')} {_rest(table)}"
    return [Curve(**_named(table, "Decay"), summary=summary, xs=xs, ys=ys, xlabel=f"delay after the sync ({unit})",
                  ylabel="photons", xunit=unit, yunit="photons", log=True)]


def _trace(table: Table, scale: Scale) -> list[Figure]:
    xs, unit, tick = axis_of(table, scale)
    width, ys = table.settings["width"], counts_of(table)
    summary = f"{count(ys.sum())} photons over the time of the file, in {len(xs)} bins of {width * tick:.6g} {unit}. {_rest(table)}"
    if len(xs) == 1:
        summary, none = f"{count(ys.sum())} photons in one bin. {_rest(table)}", xs[:0]
        return [Curve(**_named(table, "Photons"), summary=summary, xs=none, ys=none, xlabel="", ylabel="", xunit="", yunit="")]
    label, yunit = "photons in a bin", "photons"
    if scale.seconds is not None:
        ys, label, yunit = ys / (width * scale.seconds) / 1e3, "rate (1000 photons/s)", "thousand photons a second"
    return [Curve(**_named(table, "Trace"), summary=f"{summary} {peak(xs, ys, unit, yunit)}", xs=xs, ys=ys,
                  xlabel=f"time ({unit})", ylabel=label, xunit=unit, yunit=yunit)]


def _startstop(table: Table, scale: Scale) -> list[Figure]:
    xs, unit, tick = axis_of(table, scale)
    ys = counts_of(table)
    summary = f"{count(ys.sum())} times between neighbours, in {len(xs)} bins of {table.settings['width'] * tick:.6g} {unit}."
    return [Curve(**_named(table, "Start-stop"), summary=f"{summary} {peak(xs, ys, unit, 'times')} {_rest(table)}", xs=xs, ys=ys,
                  xlabel=f"time from start to stop ({unit})", ylabel="times", xunit=unit, yunit="times", log=False)]


def _coincidence(table: Table, scale: Scale) -> list[Figure]:
    xs, unit, tick = axis_of(table, scale)
    width = table.settings["width"] * tick
    summary = f"{count(counts_of(table).sum())} pairs of photons by the difference of their times, in cells of {width:.6g} {unit}."
    common: dict[str, Any] = {"xs": xs, "xlabel": f"difference of times ({unit})", "xunit": unit, "shape": "hvh"}
    try:
        values, errors = g2(table)
    except NotKnownError:
        named = _named(table, "Coincidence")
        return [Curve(**named, summary=f"{summary} {UNKNOWN}", ys=counts_of(table), ylabel="pairs", yunit="pairs", **common)]
    there = np.isfinite(values)
    common["xs"], values, errors = xs[there], values[there], errors[there]
    if not len(values):
        summary += " Without photons in both groups there is no g2."
        return [Curve(**_named(table, "g2"), summary=summary, ys=values, ylabel="", yunit="", **common)]
    xs = xs[there]
    middle, lowest = int(np.abs(xs).argmin()), int((values + errors).argmin())  # with its error, which is great where there are few pairs
    summary += " Normalised, 1 is light without correlation: g2 is lowest"
    summary += f" at {xs[lowest]:.4g} {unit}, with {values[lowest]:.3g} ± {errors[lowest]:.2g}"
    summary += "." if middle == lowest else f", and {values[middle]:.3g} ± {errors[middle]:.2g} at {xs[middle]:.4g} {unit}."
    return [Curve(**_named(table, "g2"), summary=f"{summary} Bars are Poisson errors.", ys=values, errors=errors,
                  ylabel="g2 (1 is no correlation)", yunit="", level=1.0, **common)]


def start_of(values: Floats, errors: Floats) -> int:
    """The cell from which a correlation's errors are small: less than a fourth of its greatest deviation from 1 that is seen.

    A deviation is seen where it is three errors or more. Of a curve without any the errors are small below 0.1.
    """
    away = np.abs(values - 1)
    seen = np.isfinite(away) & (away > SIGNIFICANT * errors)
    greatest = np.sort(away[seen])[-STEADY:]
    bound = max(0.02, 0.25 * float(np.median(greatest))) if seen.any() else 0.1
    small = errors <= bound
    steady = [cell for cell in range(len(small)) if small[cell : cell + STEADY].all()]
    return steady[0] if steady else 0


def _correlation(table: Table, scale: Scale) -> list[Figure]:
    levels = table.levels if table.levels is not None else np.zeros(len(table.counts))
    xs = np.asarray(table.ticks, dtype=np.float64) * (scale.seconds or 1.0)
    unit = scale.word if scale.seconds is None else "s"
    common: dict[str, Any] = {"xlabel": f"delay ({unit})", "xunit": unit, "xlog": True, "shape": "linear"}
    summary = f"{count(counts_of(table).sum())} pairs of photons by their delay, at {len(xs)} delays."
    try:
        values, errors = g2(table)
    except NotKnownError:
        pairs = np.asarray(counts_of(table) / 2.0**levels, dtype=np.float64)
        return [Curve(**_named(table, "Correlation"), summary=f"{summary} {UNKNOWN}", xs=xs, ys=pairs, ylabel="pairs / 2^level", yunit="", **common)]
    there = np.isfinite(values)
    xs, values, errors = xs[there], values[there], errors[there]
    begin = start_of(values, errors) if len(values) else 0
    said = f"Normalised, 1 is light without correlation. {POISSON}"
    if len(values):
        said += f" From {measured(xs[begin], unit)} on the errors are small: there it is {values[begin]:.4g} ± {errors[begin]:.2g},"
        said += f" and {values[-1]:.4g} at {measured(xs[-1], unit)}."
    return [Curve(**_named(table, "Correlation"), summary=f"{summary} {said}", xs=xs, ys=values, errors=errors, ylabel="G (1 is no correlation)",
                  yunit="", level=1.0, start=float(xs[begin]) if begin else None, **common)]


def _fold(table: Table, scale: Scale) -> list[Figure]:
    names = [" and ".join(map(str, groups)) for groups in table.patterns()]
    told = "groups" if table.groups else "places in the fold"
    ys = counts_of(table)
    window = table.settings["window"]
    summary = f"{count(ys.sum())} photons by the {told} that have a photon in the window of {window} ticks behind."
    return [Curve(**_named(table, "Fold"), summary=summary, xs=np.arange(1, len(ys), dtype=np.float64), ys=ys[1:], names=names[1:],
                  xlabel=told, ylabel="photons", xunit="", yunit="photons", log=True)]


def blocks(array: NDArray[Any], size: int) -> NDArray[Any]:
    """An array of pixels with ``size`` by ``size`` of them added up; what is cut off at the ends is added to smaller ones."""
    rows, columns = (np.arange(0, length, size) for length in array.shape[:2])
    return np.asarray(np.add.reduceat(np.add.reduceat(array, rows, axis=0), columns, axis=1)) if size > 1 else array


def _block(table: Table) -> int:
    return math.ceil(max(table.counts.shape[:2]) / SIDE)


def _photons(table: Table, photons: NDArray[Any], title: str, name: str) -> Picture:
    size = _block(table)
    rows, columns = photons.shape
    y, x = np.unravel_index(int(photons.argmax()), photons.shape)
    summary = f"{columns} columns and {rows} rows; {count(photons.sum())} photons, the most in a pixel {count(photons.max())} at column {x}, row {y}."
    summary += f" {np.count_nonzero(photons == 0):,} pixels have none. {_rest(table)}"
    drawn = blocks(photons, size)
    unit = "photons in a pixel" if size == 1 else f"photons in {size} by {size} pixels"
    return Picture(name, title, summary, drawn, drawn.astype(np.float64), unit, "photons", size, 0, "Viridis")


def _image(table: Table, scale: Scale) -> list[Figure]:
    named = _named(table, "Image")
    return [_photons(table, table.counts, named["title"], named["name"])]


def _cube(table: Table, scale: Scale) -> list[Figure]:
    named = _named(table, "Image of the cube")
    photons = table.counts.sum(axis=2)
    return [_photons(table, photons, named["title"], named["name"] + "-image"), _mean_delays(table, scale), _sum_of_pixels(table, scale)]


def begin_of(decay: Floats) -> int:
    """The bin in which a decay begins: the last before its peak with less than half of that."""
    top = int(decay.argmax())
    below = np.flatnonzero(decay[: top + 1] < decay[top] / 2)
    return int(below[-1]) + 1 if len(below) else 0


def _mean_delays(table: Table, scale: Scale) -> Picture:
    """The mean delays of a cube's pixels from where the decay of all pixels begins; photons before that are left out."""
    xs, unit, tick = axis_of(table, scale)
    begin = begin_of(table.counts.sum(axis=(0, 1)).astype(np.float64))
    size, width = _block(table), table.settings["dwidth"]
    photons = blocks(table.counts[:, :, begin:].sum(axis=2), size)
    bins = np.arange(table.counts.shape[2]) - begin
    middles = np.where(bins < 0, 0.0, bins * width + (width - 1) / 2) * tick
    weighted = blocks(weighted_sums(table.counts, middles), size)
    values = np.where(photons > 0, weighted / np.where(photons > 0, photons, 1), np.nan)
    threshold = enough(photons)
    seen = values[photons >= threshold]
    summary = f"The mean delay of each pixel after {xs[begin]:.6g} {unit}, where the decay of all pixels begins."
    if len(seen):
        summary += f" Of pixels with {count(threshold)} photons or more the median is {np.median(seen):.4g} {unit},"
        summary += f" from {seen.min():.4g} to {seen.max():.4g}."
    named = _named(table, "Mean delays")
    label = f"mean delay ({unit})"
    return Picture(named["name"] + "-delays", named["title"], summary, photons, values, label, unit, size, threshold, "Cividis")


def _sum_of_pixels(table: Table, scale: Scale) -> Curve:
    xs, unit, tick = axis_of(table, scale)
    ys = np.asarray(table.counts.sum(axis=(0, 1)).astype(np.float64))
    named = _named(table, "Decay of all pixels")
    summary = f"{count(ys.sum())} photons of all pixels, in {len(xs)} bins of {table.settings['dwidth'] * tick:.6g} {unit}."
    summary = f"{summary} {peak(xs, ys, unit, 'photons')} {_rest(table)}"
    across = f"delay after the sync ({unit})"
    return Curve(named["name"] + "-decay", named["title"], summary, xs, ys, across, "photons", unit, "photons", log=True)


DRAWN: dict[str, Callable[[Table, Scale], Sequence[Figure]]] = {
    "histogram": _decay,
    "trace": _trace,
    "startstop": _startstop,
    "coincidence": _coincidence,
    "image": _image,
    "correlation": _correlation,
    "cube": _cube,
    "fold": _fold,
}


def thinned(curve: Curve) -> NDArray[np.int64]:
    """The places of a curve that are drawn: all, or of many the least and the greatest of each piece."""
    number = len(curve.xs)
    if number <= POINTS:
        return np.arange(number)
    pieces = np.array_split(np.arange(number), POINTS // 2)
    kept = [place for piece in pieces for place in (piece[curve.ys[piece].argmin()], piece[curve.ys[piece].argmax()])]
    return np.unique(np.array(kept, dtype=np.int64))
