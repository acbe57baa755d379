"""The photons and markers of a PTU file in columns, read from the file itself.

For what a plan can't ask; what a plan can ask is counted by the program (``ptulab.run``), whose counts are proved.
These functions are tested, not proved: they give what ``ptu events`` prints, which is shown by tests over random
headers and words of all twelve record types. Layouts, wraps and late events are told in ``docs/formats.md``, after
PicoQuant's documentation of the TTTR format and its demo readers.
"""

import functools
import mmap
import os
from collections.abc import Callable, Iterator, Sequence
from contextvars import ContextVar
from dataclasses import dataclass, field
from typing import Any, overload

import numpy as np
from numpy.typing import NDArray

from .errors import BadFileError
from .headers import Header, read_header
from ._layouts import RESERVED, WRAP, Words, layout_of
from ._scratch import keep_scratch
from ._optional import want
from ._values import Compared

__all__ = ["EVENT", "Events", "events_of", "iter_events", "read_events"]

EVENT = np.dtype(
    [("record", "<i8"), ("time", "<i8"), ("dtime", "<i4"), ("number", "u1"), ("marker", "?"), ("late", "?")], align=True
)
MARKER, LATE = 1, 2  # bits of flags
GREATEST = 1 << 62  # that all wraps of a file may add up to
PIECE = 1 << 16  # records that are decoded together, so that their arrays stay in the processor's cache
GIVEN_BACK = 1 << 24  # bytes of the file that stay mapped behind the records that are read
COLUMNS = {"record": "records", "time": "times", "dtime": "dtimes", "number": "numbers"}  # by their names in rows
UNKNOWN = Header("", {}, None, None, None, 0, 0)  # of rows alone
Heard = Callable[[str, float], None]  # a path, and the part of its records that were read
reading: ContextVar[Heard | None] = ContextVar("reading", default=None)  # hears how far files are read in pieces


@dataclass(eq=False)
class Records:
    """The numbers of the records of some events, which are worked out when they are asked for."""

    make: Callable[[], NDArray[np.int64]]

    @functools.cached_property
    def numbers(self) -> NDArray[np.int64]:
        """The numbers, (n,), from 1."""
        return self.make()


def _numbers_of(bits: NDArray[np.uint8], first: int, many: int) -> NDArray[np.int64]:
    return np.flatnonzero(np.unpackbits(bits, count=many)) + (first + 1)


def _numbers_in(rows: NDArray[np.void]) -> NDArray[np.int64]:
    return np.array(rows["record"])


def _numbers_among(records: Records, key: Any) -> NDArray[np.int64]:
    return np.asarray(records.numbers[key])


def _numbers_joined(parts: Sequence[Records]) -> NDArray[np.int64]:
    return np.concatenate([part.numbers for part in parts])


@dataclass(frozen=True, eq=False)
class Events(Compared):
    """The events of a file, or some of them, in columns, each of shape (n,), in the order of the file.

    - ``times``: absolute times, in ticks of T2, in sync periods of T3;
    - ``dtimes``: of a T3 photon its delay after the sync in ticks, else 0;
    - ``numbers``: the input of a photon, or the bits of a marker (bit n of a plan has the value 2^(n-1));
    - ``flags``: 1 of a marker, and 2 more of a late event: one that goes back in time, which the program counts in no table.

    ``events[some]`` has those that a slice, a mask or an array of places selects. ``events["time"]`` is a column by the name
    that it has in rows: ``record`` (from 1), ``time``, ``dtime``, ``number``, ``marker`` and ``late``; ``array`` has the rows,
    of which ``events[place]`` is one.
    """

    header: Header
    times: NDArray[np.int64]
    dtimes: NDArray[np.int32]
    numbers: NDArray[np.uint8]
    flags: NDArray[np.uint8]
    numbered: Records = field(repr=False, compare=False)

    def __len__(self) -> int:
        return len(self.times)

    def __iter__(self) -> Iterator[Any]:
        return iter(self.array)

    @overload
    def __getitem__(self, key: str) -> NDArray[Any]: ...

    @overload
    def __getitem__(self, key: int) -> np.void: ...

    @overload
    def __getitem__(self, key: slice | NDArray[Any]) -> "Events": ...

    def __getitem__(self, key: Any) -> Any:
        if isinstance(key, str):
            return self._column(key)
        if isinstance(key, int | np.integer):
            return self[np.array([key])].array[0]
        times = self.times[key]
        dtimes = self.dtimes[key] if self.dtimes.strides != (0,) else np.broadcast_to(self.dtimes[:1], times.shape)
        numbered = Records(functools.partial(_numbers_among, self.numbered, key))
        return Events(self.header, times, dtimes, self.numbers[key], self.flags[key], numbered)

    def _column(self, name: str) -> NDArray[Any]:
        if name in ("marker", "late"):
            return np.asarray(self.flags & (MARKER if name == "marker" else LATE) != 0)
        return np.asarray(getattr(self, COLUMNS[name]))

    def __array__(self, dtype: Any = None) -> NDArray[Any]:
        rows = np.empty(len(self), dtype=EVENT)
        for name in EVENT.names or ():
            rows[name] = self[name]
        return rows if dtype is None else rows.astype(dtype)

    @property
    def records(self) -> NDArray[np.int64]:
        """The numbers of their records, from 1: 8 bytes an event, once they are asked for."""
        return self.numbered.numbers

    @property
    def array(self) -> NDArray[np.void]:
        """The same as rows: an array with one element of the type ``EVENT``, 24 bytes, for each event, made anew."""
        return np.asarray(self)

    def to_pandas(self) -> Any:
        """The same as a ``pandas.DataFrame``, a line for each event. Raises ``MissingLibraryError`` without pandas."""
        return want("pandas", "events as a list").DataFrame({name: self[name] for name in EVENT.names or ()})

    @property
    def photons(self) -> "Events":
        """The photons that aren't late."""
        return self[np.asarray(self.flags == 0)]

    @property
    def markers(self) -> "Events":
        """The markers that aren't late."""
        return self[np.asarray(self.flags == MARKER)]


def events_of(rows: Events | NDArray[np.void], header: Header = UNKNOWN) -> Events:
    """Events in columns, of rows of the type ``EVENT``, of which ``header`` tells what their file says."""
    if isinstance(rows, Events):
        return rows
    flags = rows["marker"] * np.uint8(MARKER) + rows["late"] * np.uint8(LATE)
    times, dtimes, numbers = (np.ascontiguousarray(rows[name]) for name in ("time", "dtime", "number"))
    return Events(header, times, dtimes, numbers, flags, Records(functools.partial(_numbers_in, rows)))


def joined(parts: Sequence[Events], header: Header = UNKNOWN) -> Events:
    """Parts of a file with this header, one behind the other; where there is none, no events."""
    if not parts:
        return events_of(np.zeros(0, EVENT), header)
    times, dtimes, numbers, flags = (
        np.concatenate([getattr(part, name) for part in parts]) for name in ("times", "dtimes", "numbers", "flags")
    )
    numbered = Records(functools.partial(_numbers_joined, [part.numbered for part in parts]))
    return Events(parts[0].header, times, dtimes, numbers, flags, numbered)


def read_events(
    path: str | os.PathLike[str], *, start: int = 0, stop: int | None = None, partial: bool = False
) -> Events:
    """The events of the records ``start`` (from 0) up to and without ``stop`` of the PTU file at ``path``.

    Times and late marks are those of the whole file. An event takes 14 bytes, of T2 10, and a record one bit. With
    ``partial`` a file whose records are refused has the events before that, as one that was cut within a record. Raises
    ``BadFileError``, with the status and the line of the program, for a file that ``ptu events`` refuses.
    """
    header = read_header(path)
    first, last = _bounds(header, start, stop)
    walk = _Walk(path, header)
    room = _Room(header, first, last - first)
    try:
        walk.skip(first)
        walk.fill(room, last)
        if last == header.records:
            _ends_whole(path, header)
    except BadFileError:
        if not partial:
            raise
        if walk.refused > first:
            walk.fill(room, walk.refused)
    return room.events()


def iter_events(path: str | os.PathLike[str], *, records: int = 1 << 20) -> Iterator[Events]:
    """The same events in pieces: those of each ``records`` records of the file.

    The file is mapped, so that memory is that of one piece. A fault behind the header is raised where it is met.
    """
    if records < 1:
        raise ValueError("a piece has one record at least")
    header = read_header(path)
    walk = _Walk(path, header)
    for first in range(0, header.records, records):
        many = min(records, header.records - first)
        room = _Room(header, first, many)
        walk.fill(room, first + many)
        if heard := reading.get():
            heard(walk.path, (first + many) / header.records)
        yield room.events()
    _ends_whole(path, header)


def _bounds(header: Header, start: int, stop: int | None) -> tuple[int, int]:
    """``start`` and ``stop`` within the records of a file."""
    if start < 0 or (stop is not None and stop < start):
        raise ValueError(f"no records {start} to {stop}")
    last = header.records if stop is None else min(stop, header.records)
    return min(start, last), last


def _ends_whole(path: str | os.PathLike[str], header: Header) -> None:
    if header.left_over_bytes:
        raise BadFileError(17, f"{header.left_over_bytes} bytes of a record at the end", os.fspath(path))


class _Room:
    """Columns for the events of so many records from ``first`` on, filled piece by piece."""

    def __init__(self, header: Header, first: int, many: int) -> None:
        self.header, self.first, self.at = header, first, first
        self.times, self.numbers, self.flags = np.empty(many, np.int64), np.empty(many, np.uint8), np.empty(many, np.uint8)
        self.dtimes = np.empty(many if header.mode == "T3" else 0, np.int32)
        self.are_events = np.zeros(many, np.bool_)
        self.count = 0

    def part(self, are_events: NDArray[np.bool_], many: int) -> slice:
        """Where the next events stand, of records of which these are events."""
        self.are_events[self.at - self.first : self.at - self.first + len(are_events)] = are_events
        self.at += len(are_events)
        self.count += many
        return slice(self.count - many, self.count)

    def events(self) -> Events:
        """What was filled in."""
        columns: tuple[NDArray[Any], ...] = (self.times, self.numbers, self.flags, self.dtimes)
        for column in columns[: 4 if self.header.mode == "T3" else 3]:
            column.resize(self.count, refcheck=False)
        dtimes = self.dtimes if self.header.mode == "T3" else np.broadcast_to(np.int32(0), self.times.shape)
        numbered = Records(functools.partial(_numbers_of, np.packbits(self.are_events), self.first, len(self.are_events)))
        return Events(self.header, self.times, dtimes, self.numbers, self.flags, numbered)


class _Walk:
    """Goes through the records of a file, with the sum of the wraps and the greatest time so far."""

    def __init__(self, path: str | os.PathLike[str], header: Header) -> None:
        self.path, self.header, self.layout = os.fspath(path), header, layout_of(header.record_type)
        self.at, self.base, self.greatest = 0, 0, -1
        self.refused = 0  # up to which record the next ones are good, where one of them is refused
        self.seen = 0  # bytes of the map that were given back
        self.map: mmap.mmap | None = None
        keep_scratch()
        if header.records:
            with open(path, "rb") as file:
                self.map = mmap.mmap(file.fileno(), header.length_bytes + 4 * header.records, access=mmap.ACCESS_READ)

    def words(self, many: int) -> Words:
        """The next words. What lies far behind them is given back to the system."""
        assert self.map is not None
        begin = self.header.length_bytes + 4 * self.at
        if begin - self.seen > GIVEN_BACK and hasattr(mmap, "MADV_DONTNEED"):
            end = begin // mmap.PAGESIZE * mmap.PAGESIZE
            self.map.madvise(mmap.MADV_DONTNEED, self.seen, end - self.seen)
            self.seen = end
        return np.frombuffer(self.map[begin : begin + 4 * many], dtype="<u4")

    def skip(self, first: int) -> None:
        """Goes on to a record."""
        while self.at < first:
            many = min(PIECE, first - self.at)
            self.decode(many, _Room(self.header, self.at, many))

    def fill(self, room: _Room, last: int) -> None:
        """Puts the events up to a record into a room."""
        while self.at < last:
            self.decode(min(PIECE, last - self.at), room)

    def decode(self, many: int, room: _Room) -> None:
        """Puts the events of the next ``many`` records into a room."""
        words = self.words(many)
        meanings = self.layout.read(words)
        times = self._times(words, np.flatnonzero(meanings == WRAP))
        are_events = meanings & 0x7F < RESERVED
        which = np.flatnonzero(are_events)
        meanings, times = meanings[which], times[which]
        part = room.part(are_events, len(which))
        room.times[part] = times
        np.bitwise_and(meanings, 0x7F, out=room.numbers[part])
        markers = meanings >> 7  # the bit MARKER
        room.flags[part] = markers
        late = self._late(times, markers.view(np.bool_))
        if late is not None:
            room.flags[part][late] |= LATE
        if room.header.mode == "T3":
            room.dtimes[part] = self._dtimes(words, which, markers.view(np.bool_))
        self.at += many

    def _times(self, words: Words, wraps: NDArray[np.int64]) -> NDArray[np.int64]:
        """The time of each word, if it is an event: its field, and all wraps before it."""
        added = np.zeros(len(words), dtype=np.int64)
        added[:1] = self.base
        added[wraps] += self.layout.amounts(words[wraps])
        np.cumsum(added, out=added)  # a wrap is less than 2^51, so the first sum beyond 2^62 is no more than that
        if len(wraps) and int(added.max()) > GREATEST or int(added.min()) < 0:
            self.refused = self.at + int(np.argmax((added > GREATEST) | (added < 0)))
            raise BadFileError(21, f"record {self.refused + 1} passes the greatest time", self.path)
        self.base = int(added[-1])
        added += words & self.layout.field
        return added

    def _dtimes(self, words: Words, which: NDArray[np.int64], markers: NDArray[np.bool_]) -> NDArray[np.int32]:
        shift, bits = self.layout.dtime
        dtimes = words[which].view(np.int32)
        dtimes >>= shift
        dtimes &= bits
        dtimes[markers] = 0
        return dtimes

    def _late(self, times: NDArray[np.int64], markers: NDArray[np.bool_]) -> NDArray[np.bool_] | None:
        """Which events have a time less than that of an earlier one, None where none has; markers of T2 have no order."""
        if self.header.mode == "T2" and markers.any():
            late = np.zeros(len(times), dtype=np.bool_)
            found = self._late(times[~markers], np.zeros(0, np.bool_))
            late[~markers] = False if found is None else found
            return late
        if not len(times) or (times[0] >= self.greatest and np.all(times[1:] >= times[:-1])):
            self.greatest = int(times[-1]) if len(times) else self.greatest
            return None
        greatest = np.maximum(np.maximum.accumulate(times), self.greatest)
        self.greatest = int(greatest[-1])
        return np.asarray(times < greatest)
