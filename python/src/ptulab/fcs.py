"""Fluorescence correlation beyond a curve: background, afterpulsing, filters by the delay, a calibrated focus, brightness.

Curves are those of ``segments``, which are fitted by ``fits.fit_fcs``, and several together by ``fits.fit_together``.
"""

import math
from dataclasses import dataclass, field, replace
from typing import Any

import numpy as np
from numpy.typing import NDArray

from .events import events_of
from .fits import Fit
from .groups import Group, Part
from .antibunching import without_background
from .segments import Curve

__all__ = ["Filtered", "Focus", "brightness", "curve_without_background", "filters", "signal_of", "without_afterpulsing"]

AVOGADRO = 6.02214076e23  # molecules of a mole
UNITS = 1 << 12  # in which weights are whole numbers


@dataclass(frozen=True, eq=False)
class Filtered(Group):
    """A group whose photons count in ``correlation_by_segments`` by a filter of their dtimes, in units of 1 / 4096.

    ``filter``: shape (bins,), of bins of ``width`` ticks of the dtime, a row of what ``filters`` gives; a photon behind them
    counts for nothing. Elsewhere it is the ``Group`` of its inputs and gates.
    """

    filter: NDArray[np.float64] = field(default_factory=lambda: np.ones(1))
    width: int = 1
    units = UNITS

    def weights(self, events: Part) -> NDArray[Any]:
        events = events_of(events)
        each = np.append(np.rint(np.asarray(self.filter) * self.units), 0).astype(np.int32)
        return np.where(self.mask(events), each[np.minimum(events.dtimes // self.width, len(each) - 1)], 0)


def filters(patterns: NDArray[Any], decay: NDArray[Any]) -> NDArray[np.float64]:
    """What a photon counts for each species by its delay, so that on average photons of the others count nothing.

    ``patterns``: shape (species, bins), the decay of each species alone, of any height; afterpulses and background are one
    of them, as a level pattern. ``decay``: shape (bins,), that of the measurement. Gives shape (species, bins), (M W
    M^T)^-1 M W with patterns M that add up to 1 and W one over the decay (Böhmer, Wahl, Rahn, Erdmann and Enderlein, Chemical
    Physics Letters 353, 439, 2002; of afterpulses Enderlein and Gregor, Review of Scientific Instruments 76, 033102, 2005).
    Bins without photons count nothing. Raises ``ValueError`` for patterns that aren't told apart.
    """
    patterns, decay = np.asarray(patterns, dtype=np.float64), np.asarray(decay, dtype=np.float64)
    if patterns.ndim != 2 or patterns.shape[1:] != decay.shape or np.any(patterns < 0) or not np.all(patterns.sum(axis=1) > 0):
        raise ValueError(f"patterns of shape {patterns.shape} for a decay of shape {decay.shape}")
    shapes = patterns / patterns.sum(axis=1, keepdims=True)
    weighted = np.divide(shapes, decay, out=np.zeros(shapes.shape), where=decay > 0)
    both = weighted @ shapes.T
    if np.linalg.cond(both) > 1e10:
        raise ValueError("patterns that are too alike to be told apart")
    return np.asarray(np.linalg.solve(both, weighted))


def signal_of(curve: Curve, *backgrounds: float) -> float:
    """The part of a curve's photons that are no background, of two groups the root of the product of both.

    ``backgrounds``: the rate of each group's background, in photons a second, or a tick where the file doesn't tell how long that is.
    """
    unit = curve.unit_seconds or 1.0
    first, second = (1 - background * unit / rate for background, rate in zip(backgrounds * (3 - len(backgrounds)), curve.rates))
    return math.sqrt(max(first, 0.0) * max(second, 0.0))


def curve_without_background(curve: Curve, signal: float) -> Curve:
    """The same curve without a background that has no correlation, which makes the amplitude too small by signal^2.

    ``signal``: the part of photons that are no background (``signal_of``); values, errors and segments are those of
    ``without_background``, so that the number of molecules that is fitted is the right one.
    """
    values, errors = without_background(curve.values, curve.errors, signal)
    return replace(curve, values=values, errors=errors, segments=without_background(curve.segments, curve.segments, signal)[0])


def without_afterpulsing(curve: Curve, pattern: Curve) -> Curve:
    """The same autocorrelation without the afterpulses of its detector, by the curve of light without correlation.

    ``pattern``: measured with the same detector, cells and unit of time, as of a lamp, at any rate: an afterpulse follows a
    count with the density (G0 - 1) * rate0, so G has (G0 - 1) * rate0 / rate too much, to the first order of its probability
    (Zhao, Jin, Chen, Ding, Ma and Chen, Applied Optics 42, 4031, 2003). Errors of both count. Where the pattern has no delay
    nothing is taken off. Raises ``ValueError`` for other cells.
    """
    many = min(len(curve.ticks), len(pattern.ticks))
    if not np.array_equal(curve.ticks[:many], pattern.ticks[:many]):
        raise ValueError("curves with other delays: the pattern needs as many lags")
    part = math.sqrt(pattern.rates[0] * pattern.rates[1] / (curve.rates[0] * curve.rates[1]))
    more, bars = np.zeros(len(curve.ticks)), np.zeros(len(curve.ticks))
    more[:many], bars[:many] = part * np.nan_to_num(pattern.values[:many] - 1), part * np.nan_to_num(pattern.errors[:many])
    return replace(curve, values=curve.values - more, errors=np.hypot(curve.errors, bars), segments=curve.segments - more)


def brightness(fit: Fit, rate: float, background: float = 0.0) -> tuple[float, float]:
    """Photons a second of a molecule and its error: (rate - background) / number, of a fit of a curve without its background
    (Thompson, Topics in Fluorescence Spectroscopy 1, 337, 1991). Rates are known well beside the number."""
    number = fit.values["number"]
    return (rate - background) / number, (rate - background) / number**2 * fit.errors["number"]


@dataclass(frozen=True)
class Focus:
    """A focus by a Gaussian in space: its short radius, in metres, where the light is e^-2 of the middle's, with its error,
    and its ``structure``, the long radius over the short one.

    The diffusion time is radius^2 / (4 * constant), and the volume pi^(3/2) * structure * radius^3 (Rigler, Mets, Widengren
    and Kask, European Biophysics Journal 22, 169, 1993).
    """

    radius: float
    radius_error: float = 0.0
    structure: float = 5.0

    @classmethod
    def calibrated(cls, fit: Fit, constant: float, constant_error: float = 0.0) -> "Focus":
        """That of a fit, in seconds, of a dye with a known diffusion constant, in square metres a second."""
        radius = math.sqrt(4 * constant * fit.values["diffusion"])
        parts = fit.errors["diffusion"] / fit.values["diffusion"], constant_error / constant
        return cls(radius, radius * math.hypot(*parts) / 2, fit.values.get("structure", 5.0))

    @property
    def litres(self) -> float:
        """The effective volume in litres."""
        return float(1000 * math.pi**1.5 * self.structure * self.radius**3)

    def constant(self, fit: Fit) -> tuple[float, float]:
        """The diffusion constant of a fit in seconds, and its error, in square metres a second."""
        value = self.radius**2 / (4 * fit.values["diffusion"])
        return value, value * math.hypot(2 * self.radius_error / self.radius, fit.errors["diffusion"] / fit.values["diffusion"])

    def concentration(self, fit: Fit) -> tuple[float, float]:
        """The concentration of a fit, and its error, in moles a litre."""
        value = fit.values["number"] / (AVOGADRO * self.litres)
        return value, value * math.hypot(3 * self.radius_error / self.radius, fit.errors["number"] / fit.values["number"])
