"""What the words of a PTU file tell before its photons are counted: its markers, its wraps, and which inputs occur."""

from __future__ import annotations

import os
from collections.abc import Callable, Iterator
from concurrent.futures import ThreadPoolExecutor
from dataclasses import dataclass

import numpy as np
from numpy.typing import NDArray

from ._layouts import MARKER, RESERVED, WRAP, Layout, Words, layout_of
from ._looks import Marks
from .headers import Header

PIECE = 1 << 18  # words that are looked at together
SAMPLE = 1 << 12  # words of each piece in which inputs are looked for, where not all are
GREATEST = 1 << 62  # that wraps may add up to: beyond that the program refuses the file
WORKERS = 4  # threads, at most
BATCH = 4 * WORKERS  # pieces

Found = tuple[NDArray[np.int64], NDArray[np.uint8]]  # times and bits of markers


@dataclass
class Told:
    """What words tell: the inputs that were met, how often each marker bit occurs, a time that all events come before, and
    the markers."""

    inputs: list[int]
    markers: dict[int, int]
    until: int
    marks: Marks


def workers() -> int:
    """How many threads or programs may work at once here."""
    return max(1, min(WORKERS, len(os.sched_getaffinity(0)) if hasattr(os, "sched_getaffinity") else os.cpu_count() or 1))


def words_of(path: str, header: Header, progress: Callable[[int], None], sample: int = SAMPLE) -> Told:
    """Looks at all words for markers and wraps, in the memory of some pieces; at ``sample`` words of each piece for inputs.
    ``progress`` is called with the bytes that were looked at."""
    layout, met, base, marks = layout_of(header.record_type), np.zeros(256, np.int64), 0, Marks()

    def piece(at: int) -> tuple[int, NDArray[np.int64], Found, int]:
        words = np.fromfile(path, "<u4", min(PIECE, header.records - at), offset=header.length_bytes + 4 * at)
        inputs = np.bincount(layout.read(words[:sample]), minlength=256)
        return at + len(words), inputs, *_specials(words[np.flatnonzero(words >= layout.special)], layout)

    with ThreadPoolExecutor(workers()) as pool:
        for some in _batches(range(0, header.records, PIECE)):
            for end, inputs, (times, bits), wraps in pool.map(piece, some):
                met += inputs
                if base + wraps <= GREATEST:  # beyond that, times may have no room in 64 bits
                    marks.take(times + base, bits)
                base = min(base + wraps, GREATEST)
                progress(header.length_bytes + 4 * end)
    inputs_met = [number for number in range(RESERVED) if met[number]]
    return Told(inputs_met, {bit: count for bit, count in marks.counts.items() if count}, base + layout.field + 1, marks)


def _batches(places: range) -> Iterator[range]:
    """Some places at a time, since a thread pool takes all that it is given at once."""
    yield from (places[at : at + BATCH] for at in range(0, len(places), BATCH))


def _specials(words: Words, layout: Layout) -> tuple[Found, int]:
    """Of words among which all markers and wraps are: the markers' times after the first of them, their bits, and the sum of
    the wraps."""
    meanings = layout.read(words)
    wraps = np.zeros(len(words), np.int64)
    wraps[meanings == WRAP] = layout.amounts(words[meanings == WRAP])
    markers = meanings & 0xF0 == MARKER
    times = (np.cumsum(wraps) + (words & layout.field))[markers]
    whole = 2 * GREATEST if wraps.sum(dtype=np.float64) > GREATEST else int(wraps.sum())
    return (times, meanings[markers] & 15), whole
