"""A first look at a PTU file: what its header says in words, whether it is whole, and what each input and marker has.

Photons are counted by the program, whose counts are proved, by a plan of a trace and, of T3, a histogram of each input.
Which inputs and marker bits occur is looked up in the words of the records beforehand; that, and what the header says, is
tested, not proved.
"""

from __future__ import annotations

import json
import math
import os
import tempfile
import threading
from collections.abc import Callable, Iterator, Sequence
from concurrent.futures import ThreadPoolExecutor
from contextlib import contextmanager, suppress
from dataclasses import dataclass, field
from datetime import datetime
from typing import Any

import numpy as np
from numpy.typing import NDArray

from ._looks import Look, look
from ._optional import want
from ._values import Compared
from ._words import PIECE, Told, words_of, workers
from ._xarrays import Axis, labelled
from .errors import UnlikeError
from .headers import Header, other_records, read_header
from .program import report_of
from .report import Head, Report

__all__ = ["Info", "Input", "info"]

PathLike = str | os.PathLike[str]
Progress = Callable[[int], None]
BINS = 1024  # of a trace over the whole file, at most
AT_ONCE = 32  # traces, and histograms, of a plan
LONG = 1 << 22  # records of a file whose inputs are counted by two programs at the same time
DEEPEST = 32768  # dtimes that there are
BARS = " ▁▂▃▄▅▆▇█"
SHORT = 32  # letters of a sparkline
FAMILIES = {
    "PicoHarp": "PicoHarp 300",
    "HydraHarp": "HydraHarp 400, format version 1",
    "HydraHarp2": "HydraHarp 400, format version 2",
    "TimeHarp260N": "TimeHarp 260 NANO",
    "TimeHarp260P": "TimeHarp 260 PICO",
    "MultiHarp": "MultiHarp 150, or a later device that writes its format",
}
MODES = {"T2": "T2: absolute times of photons", "T3": "T3: sync periods, and delays after the sync"}


@dataclass(frozen=True, eq=False)
class Input(Compared):
    """What an input has, without late photons.

    ``rate_hertz`` is in photons a second over the time of the file, None where that isn't known; ``trace`` has the photons
    by time, (bins,), in bins of ``Info.bin_ticks``; ``decay`` those by delay after the sync, (bins,), in ticks of the dtime,
    None of T2.
    """

    number: int
    photons: int
    rate_hertz: float | None
    trace: NDArray[np.int64] = field(repr=False)
    decay: NDArray[np.int64] | None = field(repr=False)


@dataclass(frozen=True, eq=False)
class Info(Compared):
    """What a first look tells of a file. Times are in ticks of T2, in sync periods of T3, where no unit is named."""

    path: str
    size_bytes: int
    header: Header = field(repr=False)
    head: Head  # of the program's report: records and photons by kind, late events, first and last time
    inputs: tuple[Input, ...]  # those that have photons
    markers: dict[int, int]  # how many markers have each bit (1 to 4), of those that have any, late ones too
    bin_ticks: int  # of the traces

    @property
    def record_type(self) -> str:
        """The record type in words."""
        family, mode = self.header.record_type[:-2], self.header.mode
        return f"{FAMILIES[family]}; {MODES[mode]}"

    @property
    def device(self) -> str:
        """The device by ``HW_Type``, ``HW_Version`` and ``HW_SerialNo``; nothing where the header doesn't tell."""
        words = {"HW_Type": "", "HW_Version": "version ", "HW_SerialNo": "serial number "}
        return ", ".join(before + told for name, before in words.items() if (told := self._text(name)))

    @property
    def software(self) -> str:
        """The program that wrote the file by ``CreatorSW_Name`` and ``CreatorSW_Version``."""
        return " ".join(filter(None, map(self._text, ("CreatorSW_Name", "CreatorSW_Version"))))

    @property
    def comment(self) -> str:
        """The comment of who measured, by ``File_Comment``."""
        return self._text("File_Comment")

    @property
    def created(self) -> datetime | None:
        """When the measurement began, in the clock of its computer."""
        return self.header.created

    @property
    def is_cut(self) -> bool:
        """Whether records are missing: fewer than the header announces, or a part of one at the end."""
        return self.header.left_over_bytes > 0 or (self.header.announced or 0) > self.header.records

    @property
    def whole(self) -> str:
        """In words whether the file is whole, with the announced and the present records."""
        header = self.header
        if header.left_over_bytes:
            said = other_records(header.announced, header.records)
            return f"cut within a record: {header.left_over_bytes} bytes are left over{f'; {said}' if said else ''}"
        if header.announced == header.records:
            return f"whole: {header.records:,} records, as the header announces"
        return other_records(header.announced, header.records) or f"not told: {header.records:,} records, and the header announces none"

    @property
    def tick_seconds(self) -> float | None:
        """Seconds of a tick of T2, or of a sync period of T3, None where the header tells none that can be."""
        return _positive(self.header.global_seconds)

    @property
    def dtime_seconds(self) -> float | None:
        """Seconds of a tick of a T3 dtime, None of T2 and where the header tells none that can be."""
        return _positive(self.header.resolution_seconds) if self.header.mode == "T3" else None

    @property
    def seconds(self) -> float | None:
        """Seconds from the first event to the last, late ones left out; None where nothing tells."""
        return _seconds(self.head, self.tick_seconds)

    @property
    def announced_seconds(self) -> float | None:
        """How long the measurement was to last, by ``MeasDesc_AcquisitionTime``, which is in milliseconds."""
        told = self.header.tags.get("MeasDesc_AcquisitionTime")
        return told / 1e3 if isinstance(told, int) and told > 0 else None

    @property
    def sync_told_hertz(self) -> float | None:
        """The sync rate by ``TTResult_SyncRate``, which the device counted when it began."""
        told = self.header.tags.get("TTResult_SyncRate")
        return float(told) if isinstance(told, int | float) and _positive(float(told)) else None

    @property
    def sync_hertz(self) -> float | None:
        """The sync rate of the measurement: of T3 one over the sync period by which times are made; of T2 the events of
        input 0 a second, where that is the sync and was recorded, which a divider makes fewer. None otherwise."""
        if self.header.mode == "T3":
            return None if self.tick_seconds is None else 1 / self.tick_seconds
        sync = [one.rate_hertz for one in self.inputs if one.number == 0 and not self.header.record_type.startswith("Pico")]
        return sync[0] if sync else None

    def as_json(self) -> dict[str, Any]:
        """All of it as JSON has it: numbers, texts, lists and dictionaries; a date as ISO 8601 has it."""
        names = ("record_type", "device", "software", "comment", "is_cut", "whole", "seconds", "announced_seconds", "sync_told_hertz", "sync_hertz")
        header = self.header
        return {
            "file": os.path.basename(self.path),
            "size_bytes": self.size_bytes,
            "type": header.record_type,
            "mode": header.mode,
            **{name: getattr(self, name) for name in names},
            "created": self.created.isoformat(timespec="seconds") if self.created else None,
            "announced": header.announced,
            "tick_seconds": self.tick_seconds,
            "dtime_seconds": self.dtime_seconds,
            **{word: self.head[word] for word in ("records", "photons", "wraps", "reserved", "late", "first", "last")},
            "inputs": [_input(one) for one in self.inputs],
            "marker_events": self.head.markers,
            "markers": {str(bit): count for bit, count in self.markers.items()},
            "bin_ticks": self.bin_ticks,
            "tags": {name: _tag(value) for name, value in header.tags.items() if name not in ("Header_End", "File_CreatingTime")},
        }

    def to_pandas(self) -> Any:
        """The inputs as a ``pandas.DataFrame``: ``number``, ``photons`` and ``rate_hertz`` of each. Raises
        ``MissingLibraryError`` without pandas."""
        names = ["number", "photons", "rate_hertz"]
        return want("pandas", "inputs as a list").DataFrame([[getattr(one, name) for name in names] for one in self.inputs], columns=names)

    def to_xarray(self) -> Any:
        """An ``xarray.Dataset`` of the inputs' ``traces`` over ``input`` and ``time``, and of T3 of their ``decays`` over ``input`` and
        ``delay``, up to the last with a photon, both in seconds where the header tells a tick. Raises ``MissingLibraryError``
        without xarray."""
        inputs = Axis("input", np.array([one.number for one in self.inputs], np.int64), None, counted="")
        traces = _stacked(self.bin_ticks, self.tick_seconds, "time", [one.trace for one in self.inputs])
        found = labelled({"traces": traces[0]}, [inputs, traces[1]], {}, {})
        if self.header.mode == "T2":
            return found
        each = [one.decay for one in self.inputs if one.decay is not None]
        last = max((len(_shown_of_decay(decay)) for decay in each), default=0)
        decays = _stacked(1, self.dtime_seconds, "delay", [decay[:last] for decay in each])
        return found.merge(labelled({"decays": decays[0]}, [inputs, decays[1]], {}, {}))

    def json(self) -> str:
        """The same as a text; numbers that JSON doesn't have, as infinity, are null."""
        return json.dumps(self.as_json(), allow_nan=False, ensure_ascii=False)

    def __str__(self) -> str:
        return "\n".join([*self._lines(), *self._table()])

    def _text(self, name: str) -> str:
        """A tag's value as one line, without what a terminal would take as a command."""
        value = self.header.tags.get(name)
        if value is None or isinstance(value, bytes | dict | np.ndarray):
            return ""
        return " ".join("".join(letter if letter.isprintable() else " " for letter in str(value)).split())

    def _lines(self) -> Iterator[str]:
        yield f"file           {_printable(os.path.basename(self.path))}, {_size(self.size_bytes)}"
        told = {"type": self.record_type, "device": self.device, "written by": self.software, "comment": self.comment}
        told |= {"begun": self.created.isoformat(" ", "seconds") if self.created else "", "records": self.whole}
        asked = f" of {self.announced_seconds:,.6g} s that were asked for" if self.announced_seconds else ""
        told["lasts"] = "not told" if self.seconds is None else f"{self.seconds:,.6g} s{asked}"
        told["sync"] = self._sync()
        told["markers"] = ", ".join(f"bit {bit}: {count:,}" for bit, count in self.markers.items()) or "none"
        told["late"] = f"{self.head.late:,} events, which are in no count below" if self.head.late else "none"
        for word, value in told.items():
            if value:
                yield f"{word:14} {value}"

    def _sync(self) -> str:
        measured = _hertz(self.sync_hertz) if self.sync_hertz is not None else ""
        if measured and self.header.mode == "T2":
            measured += " on input 0"
        told = f"{_hertz(self.sync_told_hertz)} told when it began" if self.sync_told_hertz is not None else ""
        return "; ".join(filter(None, (measured, told))) or "not told"

    def _table(self) -> Iterator[str]:
        if not self.inputs:
            yield "no photons"
            return
        yield f"{'input':>5} {'photons':>15} {'photons/s':>12}  over the time{'':{SHORT - 13}}  {'by delay' if self.header.mode == 'T3' else ''}".rstrip()
        for one in self.inputs:
            rate = "-" if one.rate_hertz is None else f"{one.rate_hertz:,.0f}"
            decay = "" if one.decay is None else sparkline(_shown_of_decay(one.decay), logarithmic=True)
            yield f"{one.number:>5} {one.photons:>15,} {rate:>12}  {sparkline(one.trace)}  {decay}".rstrip()


def _stacked(width: int, unit: float | None, name: str, rows: list[NDArray[np.int64]]) -> tuple[NDArray[np.int64], Axis]:
    """Rows of as many bins below one another, and where the bins begin."""
    counts = np.stack(rows) if rows else np.zeros((0, 0), np.int64)
    ticks = width * np.arange(counts.shape[1], dtype=np.int64)
    return counts, Axis(name, ticks, None if unit is None else ticks * unit)


def info(path: PathLike, *, program: PathLike | None = None, progress: Progress | None = None) -> Info:
    """Looks at the whole PTU file at ``path``: of a gigabyte some seconds, in the memory of a piece.

    Of a file that ends within a record the whole records are counted. ``program`` is the ptu that counts, by default the one
    that ``run`` takes. ``progress`` is called with the bytes that were looked at before the program counts. Raises
    ``BadFileError`` for a header that is refused, ``RefusalError`` for records that are, ``NoProgramError``, and ``OSError``.
    """
    return look_at(path, program=program, progress=progress)[0]


def look_at(path: PathLike, *, program: PathLike | None = None, progress: Progress | None = None) -> tuple[Info, Look]:
    """The same, with what a plan for the file has to know."""
    header, name, said = read_header(path), os.fspath(path), progress or (lambda looked_at: None)
    told = words_of(name, header, said)
    seen = _counted(name, header, told, program)
    if sum(one.photons for one in seen.inputs) < seen.head.photons:  # late ones, or inputs that no sample met
        whole = words_of(name, header, said, sample=PIECE)
        seen = seen if whole.inputs == told.inputs else _counted(name, header, whole, program)
    return seen, _look_of(seen, told)


def _look_of(seen: Info, told: Told) -> Look:
    """What a plan has to know, of the same counts where no event is late."""
    if seen.head.late:
        return look(seen.path, partial=True)
    decays = [_shown_of_decay(one.decay) for one in seen.inputs if one.decay is not None]
    deepest = max((len(decay) - 1 for decay in decays), default=0)
    photons = {one.number: one.photons for one in seen.inputs}
    return Look(seen.header, photons, told.markers, deepest, seen.head.first, seen.head.last, 0, told.marks)


def _counted(name: str, header: Header, told: Told, program: PathLike | None) -> Info:
    """What the program counts of these inputs."""
    width = max(1, -(-told.until // BINS))
    parts = _parted(told.inputs, header.records)
    with tempfile.TemporaryDirectory() as folder, _whole_records(name, header, folder) as read:

        def count(numbers: Sequence[int]) -> Report:
            return report_of(_plan(numbers, width, -(-told.until // width), header.mode).encode("ascii"), read(), program=program)

        with ThreadPoolExecutor(len(parts)) as pool:
            reports = list(pool.map(count, parts))
    head = reports[0].head
    if any(report.head != head for report in reports):
        raise UnlikeError(f"{name} was changed while it was looked at")
    seconds = _seconds(head, _positive(header.global_seconds))
    inputs = [one for numbers, report in zip(parts, reports) for one in _inputs(numbers, report, seconds)]
    return Info(name, os.path.getsize(name), header, head, tuple(one for one in inputs if one.photons), told.markers, width)


def _inputs(numbers: Sequence[int], report: Report, seconds: float | None) -> Iterator[Input]:
    for place, number in enumerate(numbers, 1):
        counts = report.table("trace", place).counts
        decay = report.table("histogram", place).counts if report.head.mode == "T3" else None
        photons = int(counts.sum())
        yield Input(number, photons, photons / seconds if seconds else None, counts, decay)


def _parted(inputs: Sequence[int], records: int) -> list[list[int]]:
    """The inputs, as many at a time as a plan has room for, and in parts that programs count at the same time where the file
    is long; one part without any where there are none."""
    at_once = -(-workers() // 2) if records > LONG else 1
    each = max(1, min(AT_ONCE, -(-len(inputs) // at_once)))
    return [list(inputs[at : at + each]) for at in range(0, len(inputs), each)] or [[]]


def _plan(inputs: Sequence[int], width: int, bins: int, mode: str) -> str:
    parts = []
    for place, number in enumerate(inputs, 1):
        parts.append(f"[[group]]\ninputs = [{number}]\n[[trace]]\ngroup = {place}\nwidth = {width}\nbins = {bins}\n")
        if mode == "T3":
            parts.append(f"[[histogram]]\ngroup = {place}\nwidth = 1\nbins = {DEEPEST}\n")
    return "".join(parts)


@contextmanager
def _whole_records(path: str, header: Header, folder: str) -> Iterator[Any]:
    """Gives a function that names what the program reads: the file, or of one that ends within a record a pipe with the
    records before it, once more for each call."""
    if not header.left_over_bytes:
        yield lambda: path
        return
    feeding: list[threading.Thread] = []

    def feed(fifo: str) -> None:
        left = header.length_bytes + 4 * header.records
        with suppress(BrokenPipeError), open(path, "rb") as file, open(fifo, "wb") as out:
            while some := file.read(min(left, PIECE)):
                out.write(some)
                left -= len(some)

    def begun() -> str:
        fifo = os.path.join(folder, f"records {threading.get_ident()}")
        with suppress(FileExistsError):
            os.mkfifo(fifo)
        feeding.append(threading.Thread(target=feed, args=(fifo,), daemon=True))
        feeding[-1].start()
        return fifo

    yield begun
    for thread in feeding:
        thread.join()


# ## Numbers in words


def _positive(value: float | None) -> float | None:
    return value if value is not None and math.isfinite(value) and value > 0 else None


def _seconds(head: Head, tick: float | None) -> float | None:
    return None if head.first is None or head.last is None or tick is None else (head.last - head.first) * tick


def _size(size: int) -> str:
    return f"{size:,} bytes" if size < 100_000 else f"{size / 1e6:,.1f} MB"


def _hertz(rate: float) -> str:
    size, unit = next(((size, unit) for size, unit in ((1e6, "MHz"), (1e3, "kHz")) if rate >= size), (1.0, "Hz"))
    return f"{rate / size:,.6g} {unit}"


def _input(one: Input) -> dict[str, Any]:
    decay = None if one.decay is None else _shown_of_decay(one.decay).tolist()
    return {"number": one.number, "photons": one.photons, "rate_hertz": one.rate_hertz, "trace": one.trace.tolist(), "decay": decay}


def _shown_of_decay(decay: NDArray[np.int64]) -> NDArray[np.int64]:
    """A decay up to its last bin with photons."""
    there = np.flatnonzero(decay)
    return decay[: there[-1] + 1] if len(there) else decay[:0]


def _printable(text: str) -> str:
    return "".join(letter if letter.isprintable() else "\ufffd" for letter in text)


def _tag(value: Any) -> Any:
    """A tag's value as JSON has it."""
    if isinstance(value, dict):
        return {str(index): _tag(element) for index, element in value.items()}
    if isinstance(value, np.ndarray):
        return [_tag(one) for one in value.tolist()]
    if isinstance(value, float):
        return value if math.isfinite(value) else None
    return value.hex() if isinstance(value, bytes) else value


def sparkline(counts: NDArray[np.int64], logarithmic: bool = False) -> str:
    """Counts as a line of bars of up to 32 letters, as high as the greatest; nothing of none."""
    if not len(counts):
        return ""
    edges = np.linspace(0, len(counts), min(SHORT, len(counts)) + 1).astype(int)
    sums = np.add.reduceat(counts, edges[:-1]) / np.diff(edges)
    heights = np.log1p(sums) if logarithmic else sums
    most = float(heights.max())
    return "".join(BARS[math.ceil(8 * value / most)] if most else " " for value in heights.tolist())
