"""How a result is looked at: regions of its image and its phasors, and thresholds, which a session keeps."""

from __future__ import annotations

import math
import re
from typing import Any

CORNERS, REGIONS, FIGURES = 512, 16, 64  # at most
FIGURE = re.compile(r"[a-z0-9-]{1,60}")
Region = list[tuple[float, float]]


def regions_of(regions: Any, of_phasors: Any) -> tuple[list[Region], list[Region]]:
    """The corners of regions that a page sent, those of an image and those of the plane of phasors. Raises ``ValueError`` for what are none."""
    if not isinstance(regions, list) or not isinstance(of_phasors, list) or not 1 <= len(regions) + len(of_phasors) <= REGIONS:
        raise ValueError(f"one to {REGIONS} regions are wanted")
    return [_region(one, 3) for one in regions], [_region(one, 5) for one in of_phasors]


def _region(given: Any, digits: int) -> Region:
    if not isinstance(given, list) or not 3 <= len(given) <= CORNERS or not all(isinstance(one, list) and len(one) == 2 for one in given):
        raise ValueError(f"a region has 3 to {CORNERS} corners, each of two numbers")
    numbers = [value for corner in given for value in corner]
    if not all(isinstance(value, int | float) and not isinstance(value, bool) and math.isfinite(value) for value in numbers):
        raise ValueError("a corner of a region has two numbers")
    return [(round(float(x), digits), round(float(y), digits)) for x, y in given]


def threshold_of(given: Any) -> int:
    """A threshold that a page sent. Raises ``ValueError`` for what is none."""
    if not isinstance(given, int) or isinstance(given, bool) or not 0 <= given < 1 << 63:
        raise ValueError("a threshold is a whole number of photons")
    return given


def view_of(given: Any) -> dict[str, Any]:
    """What a page or a session tells of the look at a result. Raises ``ValueError`` for what is none."""
    given = {} if given is None else given
    if not isinstance(given, dict) or not isinstance(thresholds := given.get("thresholds", {}), dict) or len(thresholds) > FIGURES:
        raise ValueError(f"a look at a result has regions, and thresholds of at most {FIGURES} pictures")
    regions, phasors = given.get("regions", []), given.get("phasors", [])
    if regions or phasors:
        regions, phasors = regions_of(regions, phasors)
    if not all(map(FIGURE.fullmatch, thresholds)):
        raise ValueError("a threshold is of a picture")
    told = {"regions": regions or [], "phasors": phasors or [], "thresholds": {name: threshold_of(value) for name, value in thresholds.items()}}
    return told | ({"threshold": threshold_of(given["threshold"])} if "threshold" in given else {})
