"""Results that are compared by what they hold."""

from collections.abc import Mapping
from dataclasses import fields
from typing import Any

import numpy as np


class Compared:
    """A dataclass (with ``eq=False``) of which two are equal where they are of one type and all their fields are equal:
    arrays cell by cell, and nan as nan. Its hash goes by the shapes of its arrays, which stay when counts are added."""

    def __eq__(self, other: object) -> bool:
        if type(self) is not type(other):
            return NotImplemented
        return all(_same(getattr(self, one.name), getattr(other, one.name)) for one in fields(self) if one.compare)

    def __hash__(self) -> int:
        return hash((type(self), *(_shape(getattr(self, one.name)) for one in fields(self) if one.compare)))


def _same(one: Any, other: Any) -> bool:
    if isinstance(one, np.ndarray) or isinstance(other, np.ndarray):
        one, other = np.asarray(one), np.asarray(other)
        same = one.shape == other.shape and (one == other) | ((one != one) & (other != other))  # nan isn't itself
        return bool(np.all(same))
    if isinstance(one, Mapping) and isinstance(other, Mapping):
        return one.keys() == other.keys() and all(_same(value, other[key]) for key, value in one.items())
    if isinstance(one, tuple) and isinstance(other, tuple):
        return len(one) == len(other) and all(map(_same, one, other))
    return bool(one == other or (one != one and other != other))


def _shape(value: Any) -> Any:
    if isinstance(value, tuple):
        return tuple(map(_shape, value))
    return value.shape if isinstance(value, np.ndarray) else hash(value) if isinstance(value, Compared) else None
