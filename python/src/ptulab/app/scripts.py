"""What the scripts call that the window hands out: a time window of a file, sums over files, a decay as of an image's pixels, regions, and numbers with their errors."""

from __future__ import annotations

import functools
import json
import math
import operator
import os
import sys
import tempfile
from collections.abc import Callable, Iterator, Sequence
from typing import IO, Any

import numpy as np
from numpy.typing import NDArray

from .._documents import read_plan
from ..errors import NotKnownError, PtulabError
from ..events import iter_events
from ..headers import PREAMBLE, TAG, WITH_BODY, read_header
from ..pixels import inside as inside_plane
from ..program import run
from ..segments import Curve, together
from ._folder import named

__all__ = ["decay_like", "drop_parts", "inside", "measured", "named", "part_of", "summed", "why"]

PathLike = str | os.PathLike[str]
PIECE = 1 << 20
COUNT = b"TTResult_NumberOfRecords"
_parts: list[IO[bytes]] = []  # which the system removes when the process ends, however it ends


def measured(value: float, error: float | None = None, unit: str = "") -> str:
    """A number with its error of one standard deviation, nan where a fit doesn't tell it, None of what has none; ``unit``
    begins with a blank."""
    if math.isnan(value):
        return "not known"
    if error is None:
        return f"{value:.5g}{unit}"
    return f"{value:.5g}{unit}" + (", its error isn't known" if math.isnan(error) else f" ± {error:.2g}{unit}")


def inside(corners: Sequence[tuple[float, float]], rows: int, columns: int) -> NDArray[np.bool_]:
    """Which pixels have their middle within a polygon: shape (rows, columns).

    ``corners`` are places (x, y) in pixels, so pixel (0, 0) reaches from (0, 0) to (1, 1) and its middle is (0.5, 0.5). Where
    sides cross, what is surrounded an odd number of times is within.
    """
    middles = np.add.outer(1j * (np.arange(rows) + 0.5), np.arange(columns) + 0.5)
    return inside_plane(middles, [complex(x, y) for x, y in corners])


def decay_like(report: Any, plan: PathLike, file: PathLike) -> NDArray[np.int64]:
    """The decay of another file, a scan or not: of the photons that the first cube of a report has, and in its bins.

    The file must have the same sync period, to a thousandth, and the same ticks of the dtime: else ``ValueError`` is raised.
    """
    document = read_plan(plan)
    cube = document["cube"][0]
    group = document["group"][cube["group"] - 1]
    lines = ["version = 2", *(f"{key} = {json.dumps(document[key])}" for key in ("order", "reserved", "period", "settle") if key in document)]
    lines += [line for one in document.get("shift", []) for line in ("[[shift]]", f"input = {one['input']}", f"shift = {one['shift']}")]
    lines += ["[[group]]", f"inputs = {group['inputs']}", *([f"gates = {group['gates']}"] if "gates" in group else [])]
    lines += ["[[histogram]]", "group = 1", f"width = {cube['dwidth']}", f"bins = {cube['dbins']}", ""]
    counted = run("\n".join(lines), file)
    for key, word, near in (("global_seconds", "sync period", 1e-3), ("resolution_seconds", "tick of the dtime", 1e-6)):
        one, other = (getattr(each.head, key) or math.nan for each in (report, counted))
        if not math.isclose(one, other, rel_tol=near):
            raise ValueError(f"the reference has another {word}: {other:g} s and not {one:g} s")
    return np.asarray(counted.table("histogram", 1).counts)


def part_of(file: PathLike, start: float, stop: float = math.inf) -> str:
    """The path of a PTU file with the records of ``file`` from the second ``start`` on and before the second ``stop``.

    It is a temporary file that is gone when this process ends. Its header is that of ``file``, with its own number of records.
    Its records are those of ``file`` from the first event of the window up to the first one behind it, markers too, so its
    times begin anew, before one unit of a wrap. Raises ``NotKnownError`` where the header doesn't tell how long a tick is, and
    ``ValueError`` where no event is in the window.
    """
    header = read_header(file)
    tick = header.global_seconds
    if tick is None or not 0 < tick < math.inf:
        raise NotKnownError("the header doesn't tell how long a tick is, so there is no window of seconds")
    first, last = _records(file, start / tick, stop / tick, header.records)
    if first >= last:
        raise ValueError(f"no event from {start:g} s on" + ("" if stop == math.inf else f" and before {stop:g} s"))
    part = tempfile.TemporaryFile(prefix="ptulab-part-")
    with open(file, "rb") as source:
        part.write(_announcing(source.read(header.length_bytes), last - first))
        source.seek(4 * first, os.SEEK_CUR)
        left = 4 * (last - first)
        while left and (piece := source.read(min(PIECE, left))):
            part.write(piece)
            left -= len(piece)
    part.flush()
    _parts.append(part)
    return f"/proc/{os.getpid()}/fd/{part.fileno()}"


def drop_parts() -> None:
    """Removes the parts of files that ``part_of`` made."""
    _parts.clear()  # which closes them


def why(error: BaseException, file: PathLike) -> str:
    """What is wrong with a file, in a line, by its name alone."""
    return " ".join(str(error).replace(os.fspath(file), named(file)).split())


def summed(count: Callable[[PathLike], Any], files: Sequence[PathLike], start: float = 0.0, stop: float = math.inf) -> Any:
    """What is counted of each file, or of its window from the second ``start`` to ``stop``, added up.

    Reports and coincidences add up; correlations are taken ``together``, each by its photons; of arrays, as of bursts, those of one
    file stand behind those of another, and a last array has the name of the file of each. A line is printed of each file that is left out: one that can't be counted, or is of
    another type or tick than the first. It ends with that where none is left.
    """
    found = _each(count, files, start, stop)
    first = next(found, None)
    if first is None:
        sys.exit("no file could be added")
    if isinstance(first, Curve):
        return together([first, *found])
    if isinstance(first, tuple):
        return tuple(np.concatenate(columns) for columns in zip(first, *found))
    return functools.reduce(operator.iadd, found, first)


def _each(count: Callable[[PathLike], Any], files: Sequence[PathLike], start: float, stop: float) -> Iterator[Any]:
    kind: tuple[Any, ...] = ()
    for file in files:
        try:
            header = read_header(file)
            mine = header.record_type, header.global_seconds, header.resolution_seconds
            if kind not in ((), mine):
                raise ValueError("another type or tick than the first file has")
            found = count(file if (start, stop) == (0.0, math.inf) else part_of(file, start, stop))
        except (PtulabError, OSError, ValueError) as error:
            print(f"left out of the sum: {named(file)}: {why(error, file)}")
            continue
        finally:
            drop_parts()
        kind = mine
        yield (*found, np.full(len(found[0]), named(file))) if isinstance(found, tuple) else found


def _records(file: PathLike, begin: float, end: float, records: int) -> tuple[int, int]:
    """The places of the first record of the window and of the one behind its last."""
    first: int | None = None
    for piece in iter_events(file):
        if first is None:
            first = _place(piece, piece.times >= begin)
        if first is not None:
            last = _place(piece, piece.times >= end)
            if last is not None:
                return first, last
    return (records, records) if first is None else (first, records)


def _place(piece: Any, there: NDArray[np.bool_]) -> int | None:
    """The place of the first record among some, from 0."""
    at = int(there.argmax()) if there.any() else None
    return None if at is None else int(piece.records[at]) - 1


def _announcing(head: bytes, records: int) -> bytes:
    """A header that announces so many records, where it announces any."""
    at, data = PREAMBLE, bytearray(head)
    while at + TAG.size <= len(data):
        name, index, code, value = TAG.unpack_from(data, at)
        if name.rstrip(b"\0") == COUNT:
            TAG.pack_into(data, at, name, index, code, records)
        at += TAG.size + (value if code in WITH_BODY else 0)
    return bytes(data)
