"""Pictures by Matplotlib, each with labels and units. Every function gives the axes it drew on, to be changed further."""

from collections.abc import Callable, Sequence
from typing import Any

import numpy as np
from numpy.typing import NDArray

from .antibunching import Coincidences, StartStops, g2
from .bursts import Fret
from .fits import Fit
from ._optional import want
from .phasors import mean_delays
from .scans import Cube, Image
from .segments import Curve
from .smfret import BurstVariance
from .tables import Table, enough

__all__ = [
    "plot",
    "plot_burst_variance",
    "plot_coloured",
    "plot_correlation",
    "plot_decay",
    "plot_fit",
    "plot_fret",
    "plot_g2",
    "plot_image",
    "plot_lifetimes",
    "plot_phasors",
    "plot_picture",
    "plot_start_stops",
]

UNITS = ((1.0, "s"), (1e3, "ms"), (1e6, "µs"), (1e9, "ns"), (1e12, "ps"))
DELAY = "delay after the sync"


def in_units(seconds: NDArray[np.float64] | None, ticks: NDArray[Any], word: str = "ticks") -> tuple[NDArray[np.float64], str]:
    """An axis in a unit of time in which its greatest number is 1 or more, and the name of the unit: shape of ``ticks``.

    Without ``seconds`` the axis is in ticks, whose name is ``word``.
    """
    if seconds is None:
        return np.asarray(ticks, dtype=np.float64), word
    most = float(np.abs(seconds).max(initial=0))
    factor, name = next((unit for unit in UNITS if most * unit[0] >= 1), UNITS[0] if most == 0 else UNITS[-1])
    return seconds * factor, name


def _axes(axes: Any) -> Any:
    return want("matplotlib.pyplot", "plots").subplots(layout="constrained")[1] if axes is None else axes


def plot(what: Table | Image | Cube | Curve | Coincidences | StartStops, axes: Any = None) -> Any:
    """A picture of a table of a report, or of what this package counted, as its kind asks.

    Of a cube the mean delays are drawn, of a correlation the normalised curve, where it is known, and of coincidences g2
    likewise. ``axes``: Matplotlib's axes to draw on; without them a new figure is made. Gives the axes. Raises ``MissingLibraryError``
    without Matplotlib.
    """
    if isinstance(what, Table):
        return TABLES[what.kind](what, _axes(axes))
    return COUNTED[type(what)](what, axes)


def plot_decay(
    counts: NDArray[Any],
    seconds: NDArray[Any] | None = None,
    *,
    ticks: NDArray[Any] | None = None,
    fit: Fit | None = None,
    axes: Any = None,
) -> Any:
    """A decay with logarithmic counts: ``counts`` of shape (bins,) over ``seconds``, or ``ticks``, where bins begin.

    ``fit``: one over an axis in the same unit as ``seconds`` (else ``ticks``), drawn over the counts.
    """
    axes = _axes(axes)
    begin = np.arange(len(counts)) if ticks is None else ticks
    axis, unit = in_units(seconds, begin)
    axes.step(axis, counts, where="post", linewidth=0.8, label="photons")
    if fit is not None:
        factor = 1.0 if seconds is None else dict((name, factor) for factor, name in UNITS)[unit]
        axes.plot(fit.axis * factor, fit.curve, color="tab:red", linewidth=1.2, label="fit")
        axes.legend()
    most = float(np.max(counts, initial=0))
    axes.set_yscale("log", nonpositive="mask")
    axes.set_ylim(0.5, max(most * 2, 2))
    axes.set(xlabel=f"{DELAY} ({unit})", ylabel="photons a bin")
    return axes


def plot_fit(
    fit: Fit, xlabel: str = "axis", ylabel: str = "counts", *, logarithmic_x: bool = False, logarithmic: bool = False, axes: Any = None
) -> Any:
    """A fit over its data, below it its residuals in standard deviations, and their autocorrelation over the points.

    ``logarithmic``: the counts. ``axes``: two or three of Matplotlib's; without the third the autocorrelation isn't drawn.
    Gives the axes, shape (3,) where they were made here.
    """
    if axes is None:
        pyplot = want("matplotlib.pyplot", "plots")
        axes = pyplot.subplots(3, 1, gridspec_kw={"height_ratios": (3, 1, 1)}, layout="constrained")[1]
        axes[1].sharex(axes[0])
    above, below, *more = axes
    above.plot(fit.axis, fit.data, ".", markersize=3, label="data")
    above.plot(fit.axis, fit.curve, color="tab:red", label=f"fit, reduced chi-square {fit.reduced:.3g}")
    above.set_ylabel(ylabel)
    above.legend()
    below.plot(fit.axis, fit.residuals, linewidth=0.8)
    below.axhline(0, color="grey", linewidth=0.6)
    below.set(xlabel=xlabel, ylabel="residuals (σ)")
    for one in more[:1]:
        one.plot(fit.autocorrelation, linewidth=0.8)
        one.set(xlabel="points between residuals", ylabel="autocorrelation", ylim=(-0.5, 1.05))
    if logarithmic_x:
        above.set_xscale("log")
        below.set_xscale("log")
    if logarithmic:
        above.set_yscale("log", nonpositive="mask")
    return axes


def plot_picture(
    pixels: NDArray[Any],
    label: str,
    *,
    axes: Any = None,
    cmap: str = "inferno",
    least: float | None = None,
    most: float | None = None,
) -> Any:
    """Pixels of shape (rows, columns) with a colour bar of this label; pixels that are nan are grey. The colours, a
    colour map of Matplotlib's, go from ``least`` to ``most``, or over all pixels."""
    axes = _axes(axes)
    colours = want("matplotlib.pyplot", "plots").get_cmap(cmap).copy()
    colours.set_bad("0.7")
    shown = np.asarray(pixels, dtype=np.float64)
    drawn = axes.imshow(shown, cmap=colours, vmin=least, vmax=most, interpolation="nearest")
    axes.figure.colorbar(drawn, ax=axes, label=label)
    axes.set(xlabel="column (pixels)", ylabel="row (pixels)")
    return axes


def plot_image(image: Image | Table, axes: Any = None) -> Any:
    """The photons of each pixel, of all frames, with a colour bar."""
    counts = image.counts
    return plot_picture(counts.sum(axis=0) if counts.ndim == 3 else counts, "photons a pixel", axes=axes)


def plot_lifetimes(cube: Cube | Table, axes: Any = None, *, offset: float = 0.0, threshold: int | None = None) -> Any:
    """The mean delay of each pixel of a cube, of all frames; ``offset``, in seconds (ticks where the file doesn't tell), is
    taken off, and pixels with fewer photons than ``threshold`` are grey, by default than a tenth of what the brightest ones
    have. The colours go from the 2nd to the 98th percentile of the others."""
    counts = cube.counts.sum(axis=0) if cube.counts.ndim == 4 else cube.counts
    seconds = cube.seconds if len(cube.ticks) > 1 else None  # one bin doesn't tell how many seconds it has
    width = float(cube.dwidth if isinstance(cube, Cube) else cube.settings["dwidth"]) if seconds is None else None
    threshold = enough(counts.sum(axis=-1)) if threshold is None else threshold
    means = mean_delays(counts, cube.ticks if seconds is None else seconds, offset=offset, threshold=threshold, width=width)
    known = means[np.isfinite(means)]
    _, unit = in_units(None if seconds is None else known, known)
    factor = 1.0 if seconds is None else dict((name, factor) for factor, name in UNITS)[unit]
    least, most = np.percentile(known, (2, 98)) * factor if len(known) else (None, None)
    return plot_picture(means * factor, f"mean delay ({unit})", axes=axes, cmap="viridis", least=least, most=most)


def plot_correlation(curve: Curve | Table, axes: Any = None, *, fit: Fit | None = None, label: str | None = None) -> Any:
    """A normalised correlation over logarithmic delays, with its errors where they are known, and a fit over seconds.

    ``label``: what the legend calls it, where several are drawn on the same ``axes``.
    """
    axes = _axes(axes)
    delays, unit = (curve.ticks.astype(np.float64), "ticks") if curve.seconds is None else (curve.seconds, "s")
    values = curve.normalised() if isinstance(curve, Table) else curve.values
    if isinstance(curve, Curve) and not np.isnan(curve.errors).all():
        axes.errorbar(delays, values, curve.errors, fmt=".", markersize=3, linewidth=0.7, label=label or "mean of segments, standard error")
    else:
        axes.plot(delays, values, ".-", markersize=3, linewidth=0.7, label=label or "correlation")
    if fit is not None:
        axes.plot(fit.axis, fit.curve, color="tab:red", label="fit")
    axes.axhline(1, color="grey", linewidth=0.6)
    axes.set_xscale("log")
    axes.set(xlabel=f"delay ({unit})", ylabel="G (1 without correlation)")
    axes.legend()
    return axes


def plot_g2(pairs: Coincidences | Table, axes: Any = None) -> Any:
    """Coincidences over the difference of times, normalised and with Poisson bars; counts where nothing tells the photons."""
    axes = _axes(axes)
    axis, unit = in_units(pairs.seconds, pairs.ticks, "ticks" if isinstance(pairs, Table) else "sync periods or ticks")
    if isinstance(pairs, Table) and pairs.photons is None:
        values, bars = pairs.counts.astype(np.float64), np.sqrt(pairs.counts.astype(np.float64))
        label = "pairs a cell"
    else:
        (values, bars), label = g2(pairs), "g2 (1 without correlation)"
        axes.axhline(1, color="grey", linewidth=0.6)
    axes.errorbar(axis, values, bars, fmt=".", markersize=3, linewidth=0.7)
    axes.set(xlabel=f"difference of times, second less first ({unit})", ylabel=label)
    axes.set_ylim(bottom=0)
    return axes


def plot_start_stops(stops: StartStops, axes: Any = None) -> Any:
    """Delays from a start to the stop that follows it, neighbours only."""
    return _plot_steps(stops.ticks, stops.seconds, stops.counts, "time from start to stop", "counts", _axes(axes))


def _plot_steps(
    ticks: NDArray[Any], seconds: NDArray[np.float64] | None, counts: NDArray[Any], across: str, up: str, axes: Any
) -> Any:
    axis, unit = in_units(seconds, ticks)
    axes.step(axis, counts.astype(np.float64), "o" if len(axis) == 1 else "-", where="post", linewidth=0.8)
    axes.set(xlabel=f"{across} ({unit})", ylabel=up)
    axes.set_ylim(bottom=0)
    return axes


def _histogram(table: Table, axes: Any) -> Any:
    return plot_decay(table.counts, table.seconds, ticks=table.ticks, axes=axes)


def _trace(table: Table, axes: Any) -> Any:
    if table.seconds is None or len(table.seconds) < 2:
        return _plot_steps(table.ticks, table.seconds, table.counts, "time", "photons a bin", axes)
    rates = table.counts.astype(np.float64) / float(table.seconds[1] - table.seconds[0]) / 1000
    return _plot_steps(table.ticks, table.seconds, rates, "time", "count rate (kHz)", axes)


def _startstop(table: Table, axes: Any) -> Any:
    return _plot_steps(table.ticks, table.seconds, table.counts, "time from start to stop", "counts", axes)


def _correlation(table: Table, axes: Any) -> Any:
    if table.photons is not None:
        return plot_correlation(table, axes)
    axis, unit = (table.ticks, "ticks") if table.seconds is None else (table.seconds, "s")
    levels = np.zeros(len(table.counts)) if table.levels is None else table.levels
    axes.plot(axis, table.counts.astype(np.float64) / 2.0**levels, ".-", markersize=3, linewidth=0.7)
    axes.set_xscale("log")
    axes.set(xlabel=f"delay ({unit})", ylabel="pairs over 2^level (not normalised)")
    return axes


def _fold(table: Table, axes: Any) -> Any:
    names = [" ".join(map(str, groups)) or "none" for groups in table.patterns()]
    axes.bar(names[1:], table.counts[1:].astype(np.float64))
    axes.set(xlabel="groups with a photon in the window", ylabel="photons")
    axes.tick_params(axis="x", labelrotation=90 if len(names) > 8 else 0)
    return axes


TABLES: dict[str, Callable[[Table, Any], Any]] = {
    "histogram": _histogram,
    "trace": _trace,
    "startstop": _startstop,
    "coincidence": plot_g2,
    "image": plot_image,
    "correlation": _correlation,
    "cube": plot_lifetimes,
    "fold": _fold,
}
COUNTED: dict[type, Callable[[Any, Any], Any]] = {
    Image: plot_image,
    Cube: plot_lifetimes,
    Curve: plot_correlation,
    Coincidences: plot_g2,
    StartStops: plot_start_stops,
}


def _shown(counts: NDArray[Any]) -> NDArray[np.float64]:
    """Counts of which those of 0 aren't drawn."""
    return np.where(counts == 0, np.nan, counts.astype(np.float64))


def plot_coloured(values: NDArray[Any], brightness: NDArray[Any], label: str, *, axes: Any = None, cmap: str = "turbo") -> Any:
    """Pixels of shape (rows, columns) whose colours are their values, from the 2nd to the 98th percentile of those that are
    known, and whose brightness is that of the pixels, up to the 99th percentile; values that are nan are grey."""
    axes, pyplot = _axes(axes), want("matplotlib.pyplot", "plots")
    known = values[np.isfinite(values)]
    norm = pyplot.Normalize(*(np.percentile(known, (2, 98)) if len(known) else (0, 1)))
    brightest = max(float(np.percentile(brightness, 99)), 1e-300)
    light = np.clip(brightness / brightest, 0, 1)[..., None]
    colours = np.where(np.isfinite(values)[..., None], pyplot.get_cmap(cmap)(norm(np.nan_to_num(values)))[..., :3], 0.5)
    axes.imshow(colours * light, interpolation="nearest")
    axes.figure.colorbar(pyplot.cm.ScalarMappable(norm, cmap), ax=axes, label=label)
    axes.set(xlabel="column (pixels)", ylabel="row (pixels)")
    return axes


def plot_phasors(
    phasors: NDArray[np.complex128], axes: Any = None, *, bins: int = 200, corners: Sequence[complex] | None = None
) -> Any:
    """How many pixels have which phasor, with the semicircle of single exponentials, a colour bar, and the outline of a
    region with these ``corners``, as of ``pixels.inside``."""
    axes = _axes(axes)
    known = phasors[np.isfinite(phasors)]
    counts, across, up = np.histogram2d(known.real, known.imag, bins=bins, range=((-0.1, 1.1), (-0.1, 0.7)))
    drawn = axes.pcolormesh(across, up, _shown(counts.T), cmap="viridis")
    axes.figure.colorbar(drawn, ax=axes, label="pixels")
    circle = 0.5 + 0.5 * np.exp(1j * np.linspace(0, np.pi, 200))
    axes.plot(circle.real, circle.imag, color="grey", linewidth=0.8)
    if corners is not None:
        axes.fill([one.real for one in corners], [one.imag for one in corners], fill=False, edgecolor="tab:red")
    axes.set(xlabel="g", ylabel="s", aspect="equal")
    return axes


def plot_fret(result: Fret, axes: Any = None, *, bins: int = 48) -> Any:
    """Bursts over E, and over S where it is known, with a colour bar."""
    axes = _axes(axes)
    if result.S is None:
        counts, edges = result.histogram(bins)
        axes.stairs(counts, edges, fill=True)
        axes.set(xlabel="E", ylabel="bursts a bin")
        return axes
    counts, edges = result.histogram_2d(bins)
    drawn = axes.pcolormesh(edges, edges, _shown(counts), cmap="viridis")
    axes.figure.colorbar(drawn, ax=axes, label="bursts a bin")
    axes.set(xlabel="E", ylabel="S", aspect="equal")
    return axes


def plot_burst_variance(result: BurstVariance, axes: Any = None, *, bins: int = 20) -> Any:
    """The deviation of E within bursts over their E, and by bins, beside the one that counting alone gives."""
    axes, E = _axes(axes), np.linspace(0, 1, 200)
    known = ~np.isnan(result.deviations)
    drawn = axes.hist2d(result.E[known], result.deviations[known], bins=2 * bins, range=((0, 1), (0, 0.5)), cmap="viridis", cmin=1)[3]
    axes.figure.colorbar(drawn, ax=axes, label="bursts a bin")
    middles, deviations, bars = result.binned(bins)
    axes.errorbar(middles, deviations, bars, fmt="o", markersize=4, color="tab:red", label="bursts of a bin together")
    axes.plot(E, result.expected(E), color="black", label="counting alone")
    axes.set(xlabel="proximity ratio", ylabel=f"deviation over pieces of {result.n} photons", xlim=(0, 1), ylim=(0, 0.5))
    axes.legend()
    return axes
