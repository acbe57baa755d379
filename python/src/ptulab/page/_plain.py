"""A plain picture of a figure, for where scripts are off."""

from __future__ import annotations

import base64
import io
from typing import Any

import numpy as np

from .._optional import want
from ._figures import Curve, Figure, limits_of, thinned

INCHES, DOTS = (6.4, 3.6), 80


def plain_picture(figure: Figure) -> str:
    """A PNG of a figure as a data address. Raises ``MissingLibraryError`` without Matplotlib."""
    want("matplotlib", "the page")
    drawing = want("matplotlib.figure", "the page").Figure(figsize=INCHES, dpi=DOTS, layout="constrained")
    axes = drawing.subplots()
    if isinstance(figure, Curve):
        _curve(figure, axes)
    else:
        values = np.where(figure.photons >= figure.threshold, figure.values, np.nan)
        pixel = figure.micrometres or 1.0
        first, rows, columns = (pixel * (size * figure.block - 0.5) for size in (0, *values.shape))
        least, most = limits_of(figure)
        drawn = axes.imshow(values, interpolation="nearest", extent=(first, columns, rows, first), cmap="viridis", vmin=least, vmax=most)
        drawing.colorbar(drawn, label=figure.label)
        across, down = ("column (pixels)", "row (pixels)") if figure.micrometres is None else ("x (µm)", "y (µm)")
        axes.set(xlabel=across, ylabel=down)
    out = io.BytesIO()
    drawing.savefig(out, format="png", metadata={"Software": None})
    return "data:image/png;base64," + base64.b64encode(out.getvalue()).decode()


def _curve(curve: Curve, axes: Any) -> None:
    places = thinned(curve)
    xs, ys = curve.xs[places], curve.ys[places]
    if curve.names is not None:
        axes.bar(np.arange(len(ys)), ys)
        axes.set_xticks(np.arange(len(ys)), curve.names, rotation=60 if len(ys) > 8 else 0)
    elif curve.shape == "points":
        axes.plot(xs, ys, ".", markersize=3)
    elif curve.errors is not None:
        axes.errorbar(xs, ys, curve.errors[places], fmt=".-", markersize=3, linewidth=0.8)
    else:
        axes.plot(xs, np.maximum(ys, 0.5) if curve.log else ys, drawstyle="default" if curve.shape == "linear" else "steps-post", linewidth=1)
    for one in curve.more:
        axes.plot(one.xs, one.ys, linewidth=1, label=one.label.replace("$", r"\$"))
    if curve.more:
        axes.legend()
    if curve.xlog and len(xs):
        axes.set_xscale("log")
    if curve.log and len(ys) and ys.max() > 0:
        axes.set_yscale("log")
        labels = want("matplotlib.ticker", "the page").LogFormatterSciNotation(minor_thresholds=(3, 1))  # also within few decades
        axes.yaxis.set_minor_formatter(labels)
    if curve.start is not None:
        shown = xs >= curve.start
        axes.set_xlim(curve.start, xs[-1])
        axes.set_ylim(min(0.0, float(np.nanmin(ys[shown]))), 1.08 * float(np.nanmax(ys[shown])))
    axes.set(xlabel=curve.xlabel, ylabel=curve.ylabel)
