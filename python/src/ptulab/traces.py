"""What ``ptu trace`` prints: the photons of each bin that isn't empty, and how often each count came (docs/trace.md)."""

import io
import os
import re
from collections.abc import Iterator
from dataclasses import dataclass, replace
from typing import Any, IO

import numpy as np
from numpy.typing import NDArray

from ._digits import MOST_DIGITS, whole_numbers
from .errors import BadReportError
from ._values import Compared
from ._xarrays import Axis, labelled, listed

__all__ = ["LongTrace", "read_trace"]

COUNTS = 1024  # of which the text tells how often each came
FIRST = re.compile(rb"trace 1 origin (\d{1,19}) width (\d{1,19})\n")
LAST = re.compile(rb"before (\d+)\n((?:frequency \d+ \d+\n)*)(?:above (\d+)\n)?")
PIECE = 1 << 16  # bytes of text that are read together, so that their arrays stay in the processor's cache
LONGEST_LINE = 1 << 10
GREATEST = 1 << 62  # of an origin or a width
LONGEST_END = 1 << 17  # bytes of the lines behind the bins: more than 1026 lines have


@dataclass(frozen=True, eq=False)
class LongTrace(Compared):
    """A trace without an end."""

    origin: int  # where bin 0 begins, in ticks of T2, in sync periods of T3
    width: int  # of a bin, in the same unit
    bins: NDArray[np.int64]  # the numbers of the bins that aren't empty, (n,)
    counts: NDArray[np.int64]  # how many photons they have, (n,)
    before: int | None = None  # the photons before the origin; None where the text ends before the end of the file
    frequencies: NDArray[np.int64] | None = None  # how many bins have 0, 1, .. 1023 photons, (1024,)
    above: int | None = None  # and how many have more

    @property
    def ticks(self) -> NDArray[np.int64]:
        """Where each of the bins begins, (n,), in ticks of T2, in sync periods of T3."""
        return np.asarray(self.origin + self.bins * self.width)

    def to_xarray(self, global_seconds: float | None = None) -> Any:
        """The counts of the bins that aren't empty as an ``xarray.DataArray`` over ``time``, in seconds where it is given how
        long a tick or a sync period is. Raises ``MissingLibraryError`` without xarray."""
        known = None if global_seconds is None else self.ticks * global_seconds
        return labelled({"photons": self.counts}, [Axis("time", self.ticks, known)], {}, {})["photons"]

    def to_pandas(self, global_seconds: float | None = None) -> Any:
        """The same as a ``pandas.DataFrame``, a line for each bin. Raises ``MissingLibraryError`` without pandas or xarray."""
        return listed(self.to_xarray(global_seconds).to_dataset(), "a trace as a list")


def read_trace(source: str | os.PathLike[str] | bytes) -> LongTrace:
    """What ``ptu trace`` printed into the file at a path, or the text itself, also where it was cut behind a line.

    The text is read in pieces, so the memory is that of the arrays, 16 bytes for each bin that isn't empty. Raises
    ``BadReportError`` for another text.
    """
    if isinstance(source, str) and "\n" in source:
        source = source.encode()
    if isinstance(source, bytes):
        return _trace(io.BytesIO(source))
    with open(source, "rb") as file:
        return _trace(file)


def _trace(file: IO[bytes]) -> LongTrace:
    first = FIRST.fullmatch(file.readline(LONGEST_LINE))
    if not first or max(map(int, first.groups())) > GREATEST:
        raise BadReportError("this is nothing that ptu trace printed")
    parts = [np.zeros((0, 2), dtype=np.int64)]
    end = b""
    for text in _pieces(file):
        at = text.find(b"before")
        lines = text if at < 0 else text[:at]
        parts += [_bins(lines, int(parts[-1][-1, 0]) if len(parts) > 1 else -1)] if lines else []
        if at >= 0:
            end = text[at:] + file.read(LONGEST_END)
            break
    bins, counts = (np.concatenate([part[:, column] for part in parts]) for column in (0, 1))
    if int(first[1]) + int(bins.max(initial=0)) * int(first[2]) >= 1 << 63:
        raise BadReportError("a bin of this trace begins after the greatest time")
    trace = LongTrace(int(first[1]), int(first[2]), bins, counts)
    return _with_end(trace, end) if end else trace


def _pieces(file: IO[bytes]) -> Iterator[bytes]:
    """The rest of a text in pieces of whole lines."""
    while piece := file.read(PIECE):
        yield piece + file.readline(LONGEST_LINE)


def _bins(text: bytes, before: int) -> NDArray[np.int64]:
    """The bins of some lines and their counts, (n, 2); each bin stands behind the one before."""
    lines = whole_numbers(text, 2)
    if lines is None or lines[0, 0] <= before or np.any(lines[1:, 0] <= lines[:-1, 0]):
        raise BadReportError("a bin or a count of this trace is none of a trace")
    return lines


def _with_end(trace: LongTrace, end: bytes) -> LongTrace:
    """The same trace with what stands behind its bins, of which a text that was cut may have a part."""
    found = LAST.fullmatch(end)
    if not found:
        raise BadReportError("this is nothing that ptu trace printed")
    if found[3] is None:
        return trace
    frequencies = np.zeros(COUNTS, dtype=np.int64)
    for _, count, many in (line.split() for line in found[2].splitlines()):
        if len(count) > 4 or int(count) >= COUNTS or len(many) > MOST_DIGITS:
            raise BadReportError("a frequency of this trace is none of a trace")
        frequencies[int(count)] = int(many)
    if max(len(found[1]), len(found[3])) > MOST_DIGITS:
        raise BadReportError("a count of this trace is none of a trace")
    return replace(trace, before=int(found[1]), frequencies=frequencies, above=int(found[3]))
