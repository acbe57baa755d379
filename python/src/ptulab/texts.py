"""Reports as texts again: the lines that ``ptu run`` prints, of a report or of a sum (docs/report.md)."""

from __future__ import annotations

import os
import struct
from collections.abc import Iterator
from dataclasses import replace
from typing import Any

import numpy as np
from numpy.typing import NDArray

from .report import Head, Report
from .tables import Table, lags_of
from ._digits import lines_of
from ._whole import written_whole

__all__ = ["report_lines", "summed_head", "write_report"]

CELLS = 1 << 12  # whose lines are put together, so that their arrays stay in the nearest cache


def report_lines(report: Report) -> Iterator[bytes]:
    """The text of a report in pieces, byte by byte what the program prints; of a sum ``first`` and ``last`` are ``-``."""
    for word, value in report.head.items():
        yield f"{word} {_head_value(value)}\n".encode("ascii")
    for table in report.tables:
        settings = "".join(f" {word} {value}" for word, value in table.settings.items())
        yield f"{table.kind} {table.number}{settings}\n".encode("ascii")
        yield from _cells(table)
        yield "".join(f"{word} {count}\n" for word, count in table.rest.items()).encode("ascii")


def write_report(report: Report, path: str | os.PathLike[str]) -> None:
    """Writes the text of a report to a path, where it appears when it is whole. Raises ``OSError``."""
    with written_whole(path) as out:
        out.writelines(report_lines(report))


def summed_head(head: Head) -> Head:
    """The head of a sum of this report alone: without the times of one file."""
    return replace(head, first=None, last=None)


def _head_value(value: Any) -> str:
    if value is None:
        return "-"
    return struct.pack(">d", value).hex().upper() if isinstance(value, float) else str(value)


def _cells(table: Table) -> Iterator[bytes]:
    """The lines of all cells that aren't 0, in the report's order, which is that of the array."""
    flat = table.counts.reshape(-1)
    there = np.flatnonzero(flat)
    for at in range(0, len(there), CELLS):
        places = there[at : at + CELLS]
        yield lines_of([*_columns(table, places), flat[places]])


def _columns(table: Table, places: NDArray[np.int64]) -> list[NDArray[Any]]:
    """What stands in front of the counts of these cells."""
    if table.kind == "correlation":
        return [column[places] for column in lags_of(table.settings)]
    if table.kind in ("image", "cube"):
        rows, columns, *bins = np.unravel_index(places, table.counts.shape)
        return [columns, rows, *bins]
    return [places]
