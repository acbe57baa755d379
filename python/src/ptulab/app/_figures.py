"""What the window draws, as JSON: curves that share their axes, and pictures."""

from __future__ import annotations

import csv
import math
from collections.abc import Iterator, Sequence
from pathlib import Path
from typing import Any

import numpy as np
from numpy.typing import NDArray

from .._looks import Look, Marks
from ..first_look import Info
from ..page._document import packed
from ..page._figures import POINTS, Curve, Figure, Line, Picture, figures_of, limits_of
from ..phasors import phasor_of_lifetime

Floats = NDArray[np.float64]
Drawn = dict[str, Any]
CELLS = 100  # of the plane of phasors, in a unit of g or s
PER_SECOND = {"s": 1.0, "ms": 1e3, "µs": 1e6, "ns": 1e9, "ps": 1e12}
FEW = 1000  # markers of a bit that are drawn each by itself
MARKED = (0.25, 0.5, 1, 2, 4, 8, 16)  # nanoseconds on the semicircle


def curve(label: str, xs: NDArray[Any], ys: NDArray[Any], errors: NDArray[Any] | None = None, shape: str = "hv", right: bool = False) -> Drawn:
    """A curve of a figure, by its axis on the ``right`` or the left; of many points the least and the greatest of each piece are drawn."""
    places = _thinned(np.asarray(ys, np.float64))
    told = None if errors is None else _listed(errors[places])
    return {"label": label, "x": _listed(xs[places]), "y": _listed(ys[places]), "errors": told, "shape": shape, "right": right}


def figure(name: str, title: str, summary: str, xaxis: tuple[str, str], yaxis: tuple[str, str], curves: Sequence[Drawn], **more: Any) -> Drawn:
    """A figure of curves: the axes are their labels and units; ``more`` has ``xlog``, ``log``, ``level`` and ``start``, and
    ``right``, the label of the axis on the right."""
    axes = {"xlabel": xaxis[0], "xunit": xaxis[1], "ylabel": yaxis[0], "yunit": yaxis[1]}
    usual = {"xlog": False, "log": None, "level": None, "start": None, "names": None, "drag": None, "tick": None, "right": None}
    return {"kind": "curves", "name": name, "title": title, "summary": summary, **axes, **usual, **more, "curves": list(curves)}


def drawn(one: Figure) -> Drawn:
    """A figure of the page, for the window."""
    if isinstance(one, Picture):
        return _picture(one)
    curves = [curve(one.title, one.xs, one.ys, one.errors, one.shape)] if len(one.xs) else []
    names = None if one.names is None else list(one.names)
    axes = (one.xlabel, one.xunit), (one.ylabel, one.yunit)
    return figure(one.name, one.title, one.summary, *axes, curves, xlog=one.xlog, log=one.log, level=one.level, start=one.start, names=names)


def of_report(report: Any, kind: str, number: int = 1, header: Any = None) -> list[Figure]:
    """The figures of one table of a report."""
    return [one for one in figures_of(report, header) if "-".join(one.name.split("-")[:2]) == f"{kind}-{number}"]


def with_curve(one: Drawn, label: str, xs: NDArray[Any], ys: NDArray[Any]) -> Drawn:
    """The same figure with another curve, as of a fit."""
    return one | {"curves": [*one["curves"], curve(label, xs, ys, shape="linear")]}


def for_page(one: Drawn) -> Curve:
    """The same curves as a figure of a page."""
    same = {key: one[key] for key in ("name", "title", "summary", "xlabel", "ylabel", "xunit", "yunit", "xlog", "log", "start", "level", "names")}
    if not one["curves"]:
        return Curve(**same, xs=np.zeros(0), ys=np.zeros(0))
    lines = [Line(each["label"], _numbers(each["x"]), _numbers(each["y"])) for each in one["curves"]]
    first, errors = lines[0], one["curves"][0]["errors"]
    return Curve(**same, xs=first.xs, ys=first.ys, errors=None if errors is None else _numbers(errors), shape=one["curves"][0]["shape"], more=lines[1:])


def _numbers(listed: Sequence[float | None]) -> Floats:
    return np.array(listed, np.float64)  # where there is none nan


def units_of_second(one: Drawn) -> float:
    """How many units of its x axis a figure has for a second."""
    return PER_SECOND.get(one["xunit"], math.nan)


def _picture(one: Picture) -> Drawn:
    rows, columns = one.photons.shape
    least, most = limits_of(one)
    values = None if one.unit == "photons" else packed(one.values.astype("<f4"))
    return {
        "kind": "picture", "name": one.name, "title": one.title, "summary": one.summary, "rows": rows, "columns": columns, "block": one.block,
        "label": one.label, "unit": one.unit, "micrometres": one.micrometres, "photons": packed(one.photons), "values": values,
        "threshold": one.threshold, "most": int(one.photons.max(initial=1)), "zmin": least, "zmax": most, "colours": one.colours,
    }  # fmt: skip


def phasor_plane(points: NDArray[np.complex128], period: float, axis: NDArray[Any]) -> Drawn:
    """How many pixels have which phasor, of pulses with this ``period`` and bins that begin as the ``axis`` tells; both in seconds."""
    known = points[np.isfinite(points)]
    (left, right), (low, high) = _cells(known.real, 1.1), _cells(known.imag, 0.7)
    counts = np.zeros((high - low, right - left), np.int64)
    np.add.at(counts, (np.floor(known.imag * CELLS).astype(int) - low, np.floor(known.real * CELLS).astype(int) - left), 1)
    marks = [(time, phasor_of_lifetime(time * 1e-9, 1 / period, float(axis[1] - axis[0]))) for time in MARKED if 0.005 * period < time * 1e-9 < period / 2]
    told = f"How many of {len(known):,} pixels have which phasor. Decays of one lifetime lie on the semicircle, where it is marked, and mixtures inside of it."
    return {"kind": "plane", "name": "phasors", "title": "Phasors of the pixels", "summary": told, "rows": high - low, "columns": right - left, "left": left, "low": low,
            "cells": CELLS, "counts": packed(counts), "marks": [{"label": f"{time:g} ns", "g": float(at.real), "s": float(at.imag)} for time, at in marks]}  # fmt: skip


def _cells(values: Floats, usual: float) -> tuple[int, int]:
    """From which cell to which a side of the plane goes, so that all values are on it; from -0.1 to what is usual at least."""
    return math.floor(values.min(initial=-0.1) * CELLS), math.floor(values.max(initial=usual) * CELLS) + 1


def figures_of_look(seen: Info, known: Look) -> list[Drawn]:
    """The traces of all inputs and the markers over the time of the file, and of T3 the decays of the inputs."""
    if not seen.inputs:
        return []
    tick, mode = seen.tick_seconds, seen.header.mode
    unit = unit_of((seen.head.last or 0) * tick) if tick else "ticks" if mode == "T2" else "sync periods"
    factor = tick * PER_SECOND[unit] if tick else 1.0
    starts = np.arange(0, (seen.head.last or 0) + 1, seen.bin_ticks, dtype=np.float64)
    rate = 1 / (seen.bin_ticks * tick) if tick else 1.0
    traces = [curve(f"input {one.number}", starts * factor, one.trace[: len(starts)] * rate) for one in seen.inputs]
    markers = [_markers(known.marks, bit, seen.head.last or 0, (factor, tick)) for bit, many in known.marks.counts.items() if many]
    wide, of_markers = ((lasting(ticks * tick) if tick else f"{ticks:,} {unit if ticks > 1 else unit[:-1]}") for ticks in (seen.bin_ticks, known.marks.width))
    told = f"The light of each input over the file, in {len(starts)} bins of {wide}."
    told += " Of each marker there is a tick below it." if any(one["shape"] == "marks" for one in markers) else ""
    right = ("markers a second" if tick else "markers in a bin") if any(one["right"] for one in markers) else None
    told += f" Of markers with more than {FEW:,} of a bit there is a curve in bins of {of_markers}, whose axis is on the right." if right else ""
    ylabel = ("photons a second", "a second") if tick else ("photons in a bin", "photons")
    more = {"drag": "time", "tick": PER_SECOND[unit]} if tick else {}
    figures = [figure("look-trace", "Over the time", told, (f"time ({unit})", unit), ylabel, traces + markers, right=right, **more)]
    return figures + ([_decays(seen)] if mode == "T3" else [])


def _markers(marks: Marks, bit: int, last: int, scales: tuple[float, float | None]) -> Drawn:
    """Few markers of a bit as ticks, of many how often they come; ``scales`` are units and seconds of a tick."""
    (factor, tick), label = scales, f"marker bit {bit}"
    if marks.counts[bit] <= FEW:
        times = marks.times(bit)
        return curve(label, times * factor, np.full(len(times), bit), shape="marks")
    counts = marks.trace[bit - 1][: last // marks.width + 1]
    return curve(label, np.arange(len(counts)) * marks.width * factor, counts / (marks.width * tick if tick else 1), right=True)


def unit_of(seconds: float) -> str:
    """The unit that makes a time short."""
    return next((word for word, factor in PER_SECOND.items() if seconds * factor >= 0.9999999), "ps")


def lasting(seconds: float) -> str:
    """A time with the unit that makes it short."""
    unit = unit_of(seconds)
    return f"{seconds * PER_SECOND[unit]:.4g} {unit}"


def _decays(seen: Info) -> Drawn:
    tick = seen.dtime_seconds
    factor, unit = (tick * 1e9, "ns") if tick else (1.0, "ticks")
    decays = [(one.number, one.decay) for one in seen.inputs if one.decay is not None]
    depth = max(int(np.flatnonzero(decay)[-1]) + 1 for _, decay in decays)
    xs = np.arange(depth) * factor
    curves = [curve(f"input {number}", xs, decay[:depth]) for number, decay in decays]
    told = f"The photons of each input by their delay after the sync, in {depth:,} bins of {factor:.4g} {unit}."
    axes = (f"delay after the sync ({unit})", unit), ("photons", "photons")
    return figure("look-decay", "By the delay after the sync", told, *axes, curves, log=True, tick=factor, drag="gate")


def write_curves(folder: Path, names: dict[str, Any]) -> None:
    """A CSV of each list of columns that a script names ``curves``."""
    for name, columns in names.get("curves", {}).items():
        with open(folder / f"{name}.csv", "w", encoding="utf-8", newline="") as out:
            rows = csv.writer(out, lineterminator="\n")
            rows.writerow(columns)
            rows.writerows(zip(*(np.asarray(column).tolist() for column in columns.values())))


def _thinned(ys: Floats) -> NDArray[np.int64]:
    if len(ys) <= POINTS:
        return np.arange(len(ys))
    return np.unique(np.fromiter(_ends(np.nan_to_num(ys)), np.int64))


def _ends(ys: Floats) -> Iterator[int]:
    for piece in np.array_split(np.arange(len(ys)), POINTS // 2):
        yield from (piece[ys[piece].argmin()], piece[ys[piece].argmax()])


def _listed(values: NDArray[Any]) -> list[float | None]:
    return [float(f"{value:.9g}") if math.isfinite(value) else None for value in np.asarray(values, np.float64).tolist()]
