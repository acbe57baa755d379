"""A look at a whole PTU file: what a plan for it has to know."""

from __future__ import annotations

import os
from dataclasses import dataclass, field

import numpy as np
from numpy.typing import NDArray

from .errors import BadFileError
from .events import Events, iter_events
from .headers import Header, read_header

INPUTS, BITS = 65, (1, 2, 3, 4)
KEPT = 1 << 17  # times that are kept of each bit: those of its first markers
BINS = 1 << 10  # of time, in which all markers are counted
LEFT_OVER = 17  # the status of a file that ends within a record
Times = NDArray[np.int64]


class Marks:
    """The markers of a file by their bits, in memory that doesn't grow with their number.

    ``counts`` has how many have each bit, and ``trace`` how many of them come when, ``(bits, bins)``: in bins of ``width``
    ticks of T2 or sync periods of T3 from 0, a power of two.
    """

    def __init__(self) -> None:
        self.counts = dict.fromkeys(BITS, 0)
        self.width = 1
        self.trace = np.zeros((len(BITS), BINS), np.int64)
        self._first: dict[int, list[Times]] = {bit: [] for bit in BITS}

    def take(self, times: Times, bits: NDArray[np.uint8]) -> None:
        """Takes the times and the bits of the next markers."""
        while int(times.max(initial=0)) >= self.width * BINS:
            self.width *= 2
            self.trace = np.pad(self.trace.reshape(len(BITS), -1, 2).sum(axis=2), ((0, 0), (0, BINS // 2)))
        for bit, row in zip(BITS, self.trace):
            some = times[bits & (1 << (bit - 1)) != 0]
            if (room := KEPT - self.counts[bit]) > 0 and len(some):
                self._first[bit].append(some[:room].copy())
            self.counts[bit] += len(some)
            row += np.bincount(some // self.width, minlength=BINS)

    def times(self, bit: int) -> Times:
        """The times of the markers with a bit, at most the first ``KEPT`` of them."""
        return np.concatenate([np.zeros(0, np.int64), *self._first[bit]])


@dataclass
class Look:
    """What a file holds.

    ``inputs`` has the photons of each input that occurs, ``bits`` how often each marker bit occurs, both late events
    too; ``deepest`` is the greatest dtime in ticks, ``first`` and ``last`` the least and the greatest time of an event
    that isn't late, in ticks of T2 or sync periods of T3, None where there is no event. ``marks`` has the markers that
    aren't late.
    """

    header: Header
    inputs: dict[int, int] = field(default_factory=dict)
    bits: dict[int, int] = field(default_factory=dict)
    deepest: int = 0
    first: int | None = None
    last: int | None = None
    late: int = 0
    marks: Marks = field(default_factory=Marks)

    @property
    def length(self) -> int:
        """How long the measurement is, from the first event to the last, in ticks of T2 or sync periods of T3."""
        return 0 if self.first is None or self.last is None else self.last - self.first

    def periods_of_line(self, start: int, stop: int) -> float | None:
        """The median of the sync periods from a marker with the bit ``start`` to the next with the bit ``stop``, of the markers
        whose times are kept."""
        begins, ends = self.marks.times(start), self.marks.times(stop)
        after = np.searchsorted(ends, begins, side="right")
        begins, after = begins[after < len(ends)], after[after < len(ends)]
        following = np.append(begins[1:], np.iinfo(np.int64).max)
        lines = (ends[after] - begins)[ends[after] <= following]
        return float(np.median(lines)) if len(lines) else None


def look(path: str | os.PathLike[str], *, partial: bool = False) -> Look:
    """Looks at all events of a file, in the memory of one piece; with ``partial`` at those of the whole records of a file
    that ends within one.

    Raises ``BadFileError`` for a file that ``ptu events`` refuses.
    """
    seen = Look(read_header(path))
    photons, values = np.zeros(INPUTS, np.int64), np.zeros(16, np.int64)
    try:
        for piece in iter_events(path):
            is_marker = piece["marker"]
            photons += np.bincount(piece["number"][~is_marker], minlength=INPUTS)
            values += np.bincount(piece["number"][is_marker], minlength=16)
            seen.late += int(np.count_nonzero(piece["late"]))
            good = piece[~piece["late"]]
            if len(good):
                _times(seen, good)
                some = good[good["marker"]]
                seen.marks.take(some["time"], some["number"])
    except BadFileError as error:
        if not partial or error.status != LEFT_OVER:
            raise
    seen.inputs = {number: int(count) for number, count in enumerate(photons) if count}
    times_of_bits = {bit: int(sum(values[value] for value in range(16) if value >> (bit - 1) & 1)) for bit in BITS}
    seen.bits = {bit: count for bit, count in times_of_bits.items() if count}
    return seen


def _times(seen: Look, events: Events) -> None:
    """Takes the least and the greatest time, and the greatest dtime, of events that aren't late."""
    least, most = int(events["time"].min()), int(events["time"].max())
    seen.first = least if seen.first is None else min(seen.first, least)
    seen.last = most if seen.last is None else max(seen.last, most)
    seen.deepest = max(seen.deepest, int(events["dtime"].max()))
