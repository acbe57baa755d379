"""Arrays with their axes, as xarray has them."""

from __future__ import annotations

from collections.abc import Mapping, Sequence
from typing import Any, NamedTuple

import numpy as np
from numpy.typing import NDArray

from ._optional import want


class Axis(NamedTuple):
    """An axis with numbers along it: in seconds or micrometres where these are known, else in what they are ``counted`` in, as
    ticks; nothing where that isn't told."""

    name: str
    numbers: NDArray[Any]
    known: NDArray[np.float64] | None  # the same in seconds or micrometres
    unit: str = "s"
    counted: str = "ticks"


def labelled(values: Mapping[str, NDArray[Any]], axes: Sequence[Axis], more: Mapping[str, tuple[str, Any]], attributes: Mapping[str, Any]) -> Any:
    """An ``xarray.Dataset`` of arrays over all axes; ``more`` are other coordinates, each along an axis.

    An axis has its name and its unit as the attribute ``units``; where seconds or micrometres are known, the numbers that they
    are made of are the coordinate ``NAME_ticks`` or ``NAME_number`` too. Raises ``MissingLibraryError`` without xarray.
    """
    xarray = want("xarray", "axes as xarray")
    places: dict[str, Any] = {}
    for axis in axes:
        if axis.known is None:
            places[axis.name] = (axis.name, axis.numbers, {"units": axis.counted} if axis.counted else {})
            continue
        places[axis.name] = (axis.name, axis.known, {"units": axis.unit})
        places[f"{axis.name}_{axis.counted}"] = (axis.name, axis.numbers)
    names = tuple(axis.name for axis in axes)
    whole = {name: (names, array) for name, array in values.items()}
    return xarray.Dataset(whole, coords=places | dict(more), attrs=dict(attributes))


def listed(found: Any, feature: str) -> Any:
    """An ``xarray.Dataset`` as a ``pandas.DataFrame``, a line for each place, with its axes as columns before its values. Raises
    ``MissingLibraryError`` without pandas."""
    want("pandas", feature)
    return found.to_dataframe().reset_index()[[*found.coords, *found.data_vars]]


def pixels(shape: Sequence[int], micrometres: float | None) -> list[Axis]:
    """The axes of a picture, (rows, columns) or (frames, rows, columns), whose coordinates are the middles of its pixels. Raises
    ``ValueError`` for another shape."""
    if not 2 <= len(shape) <= 3:
        raise ValueError(f"no picture: an array of {len(shape)} axes")
    axes = [Axis("frame", np.arange(shape[0]), None, counted="number")] if len(shape) == 3 else []
    for name, size in zip(("row", "column"), shape[-2:]):
        numbers = np.arange(size)
        axes.append(Axis(name, numbers, None if micrometres is None else (numbers + 0.5) * micrometres, "um", "number"))
    return axes
