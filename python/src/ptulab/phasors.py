"""Phasors of decays, and mean delays: what photons tell of lifetimes without a fit, of one decay and of all pixels of a picture."""

import math
from typing import Any

import numpy as np
from numpy.typing import NDArray

from .tables import weighted_sums

__all__ = ["lifetimes_of_phasor", "mean_delays", "phasor", "phasor_of_lifetime", "phasor_reference"]

Numbers = NDArray[np.float64]


def mean_delays(
    counts: NDArray[Any],
    axis: NDArray[Any],
    *,
    offset: float = 0.0,
    threshold: int = 1,
    width: float | None = None,
    background: NDArray[Any] | float = 0.0,
) -> Numbers:
    """The mean delay of the photons of each pixel: a fast picture of lifetimes. Shape of ``counts`` without its last axis.

    With n counts in a bin, b of them of the background, and t its middle, it is sum((n - b) t) / sum(n - b) - offset, which of a
    single exponential is its lifetime (Isenberg and Dyson, Biophysical Journal 9, 1337, 1969, have lifetimes by moments).

    ``counts``: shape (.., bins), as of a cube or a histogram; ``axis``: shape (bins,), where bins begin, evenly spaced,
    in seconds or ticks. A photon counts in the middle of its bin. ``offset``, in the same unit, is when the pulse comes,
    and is taken off; ``threshold``: with fewer photons a pixel is nan. ``width``: of a bin, where the axis has only one,
    which doesn't tell it; ``ValueError`` without it. ``background``: counts that are expected of it in each bin, a number, or
    an array that goes with ``counts``, as (bins,); it is taken off photons and delays. In seconds the middle of a bin is half a tick later than that of
    ``mean_delays`` of a table, which counts whole ticks.
    """
    photons = counts.sum(axis=-1).astype(np.float64)
    middles = axis + _width(axis, width) / 2 - offset
    moments = weighted_sums(counts, middles)
    if np.any(background):
        dark = np.broadcast_to(np.asarray(background, dtype=np.float64), counts.shape)
        photons, moments = photons - dark.sum(axis=-1), moments - dark @ middles
    means = np.full(np.shape(photons), np.nan)
    np.divide(moments, photons, out=means, where=photons >= max(threshold, 1))
    return means


def _width(axis: NDArray[Any], width: float | None = None) -> float:
    """The width of the bins that begin there."""
    if width is None and len(axis) < 2:
        raise ValueError("one bin doesn't tell its width: give it")
    return float(axis[1] - axis[0]) if width is None else width


def phasor(
    counts: NDArray[Any],
    axis: NDArray[Any],
    frequency: float,
    *,
    offset: float = 0.0,
    reference: complex = 1.0,
    threshold: int = 1,
) -> NDArray[np.complex128]:
    """The phasor g + i s of the photons of each pixel: shape of ``counts`` without its last axis.

    ``counts`` and ``axis`` as of ``mean_delays``, over the whole period; ``frequency``: in cycles per unit of the axis, as
    one over the sync period. g and s are the means of cos and sin of 2 pi * frequency * (t - offset) (Digman, Caiolfa,
    Zamai and Gratton, Biophysical Journal 94, L14, 2008) with t in the middle of a bin, times the cosine of half the
    angle of a bin: then single exponentials lie on the half circle in bins of any width (see ``phasor_of_lifetime``).

    They do only if it is told when the pulse comes, by ``offset``, its time in the unit of the axis, or by ``reference``,
    what is divided by (``phasor_reference``, of a measured pulse or a known dye). nan with fewer than ``threshold`` photons.
    """
    angle = 2 * np.pi * frequency
    width = _width(axis)
    photons = counts.sum(axis=-1).astype(np.float64)
    turns = np.exp(1j * angle * (axis + width / 2 - offset)) * math.cos(angle * width / 2)
    sums = weighted_sums(counts, turns / reference)
    phasors = np.full(np.shape(photons), np.nan + 0j)
    np.divide(sums, photons, out=phasors, where=photons >= max(threshold, 1))
    return phasors


def phasor_reference(counts: NDArray[Any], axis: NDArray[Any], frequency: float, lifetime: float = 0.0) -> complex:
    """What phasors are divided by: that of a measured pulse, or with its ``lifetime`` that of a dye, over what it should be.

    ``counts``: shape (bins,), with the bins of the pixels; its background must have been taken off. A pulse must be wider
    than the bins: a narrow one can be anywhere in its bin, which tells lifetimes to half a bin only. Raises ``ValueError``
    without photons.
    """
    if not np.sum(counts) > 0:
        raise ValueError("a reference without photons")
    width = _width(axis) if lifetime else 0.0
    return complex(phasor(counts, axis, frequency)) / complex(phasor_of_lifetime(lifetime, frequency, width))


def phasor_of_lifetime(lifetime: NDArray[np.float64] | float, frequency: float, width: float = 0.0) -> Any:
    """The phasor of a single exponential, on the half circle: 1 / (1 - 2 pi i * frequency * lifetime).

    As ``phasor`` sees it in bins of this ``width`` of which one begins with the pulse: with the half angle h = pi *
    frequency * width of a bin, tan(h) * coth(width / (2 * lifetime)) stands there for 2 pi * frequency * lifetime. (The
    counts of such bins are a geometric series q^k with q = exp(-width / lifetime), whose mean of exp(2 i h (k + 1/2)) is
    exp(i h) * (1 - q) / (1 - q exp(2 i h)) = 1 / (cos(h) - i sin(h) (1 + q) / (1 - q)).)
    """
    lifetime = np.asarray(lifetime, dtype=np.float64)
    if not width:
        return 1 / (1 - 2j * np.pi * frequency * lifetime)
    with np.errstate(divide="ignore"):
        return 1 / (1 - 1j * math.tan(math.pi * frequency * width) / np.tanh(width / (2 * lifetime)))


def lifetimes_of_phasor(phasors: NDArray[np.complex128], frequency: float, width: float = 0.0) -> tuple[Numbers, Numbers]:
    """The lifetimes by phase, s / (g w), and by modulation, sqrt(1 / (g^2 + s^2) - 1) / w, with w = 2 pi * frequency (Jameson,
    Gratton and Hall, Applied Spectroscopy Reviews 20, 55, 1984).

    Both are equal of a single exponential. nan where the modulation is above 1. With the ``width`` of the bins what
    ``phasor_of_lifetime`` tells of them is turned round, and a phasor that is nearer to 1 than that of no lifetime is nan.
    """
    with np.errstate(invalid="ignore", divide="ignore"):
        phase = phasors.imag / phasors.real
        modulation = np.sqrt(1 / np.abs(phasors) ** 2 - 1)
        if not width:
            return np.asarray(phase / (2 * np.pi * frequency)), np.asarray(modulation / (2 * np.pi * frequency))
        least = math.tan(math.pi * frequency * width)
        by_phase, by_modulation = (width / (2 * np.arctanh(least / one)) for one in (phase, modulation))
    return np.asarray(by_phase), np.asarray(by_modulation)
