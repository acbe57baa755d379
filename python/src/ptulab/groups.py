"""Photons by their groups, as a plan has them: by inputs and gates, with shifted dtimes, in pieces of a file."""

import os
from collections.abc import Collection, Iterable, Iterator, Mapping
from dataclasses import dataclass, replace
from typing import Any, ClassVar, NamedTuple

import numpy as np
from numpy.typing import NDArray

from .events import UNKNOWN, Events, events_of, iter_events, joined
from .headers import Header, read_header
from ._scratch import keep_scratch

__all__ = ["Alternated", "EventsLike", "Group", "GroupLike", "photons_of", "shifted"]

Part = Events | NDArray[np.void]  # events in columns, or as rows
EventsLike = Part | str | os.PathLike[str]  # events, or the path of the file that has them
PIECE = 1 << 18  # events that are looked at together
MOST_PERIOD = 1 << 15  # ticks of the dtime, by the limits of a plan


@dataclass(frozen=True)
class Group:
    """Which photons are meant: of these inputs, and with a dtime in one of the gates.

    ``inputs``: channels of the device, None for all. ``gates``: pairs (from, to) of ticks of the dtime, without the
    second, None for every dtime. A late photon is in no group, and neither is a marker (``docs/plan.md``). Raises
    ``ValueError`` for an input that no device has, and a gate that holds no dtime.
    """

    inputs: Collection[int] | None = None
    gates: Collection[tuple[int, int]] | None = None
    units: ClassVar[int] = 1  # of ``weights``, that count as one photon

    def __post_init__(self) -> None:
        for number in self.inputs or ():
            if not 0 <= number <= 64:
                raise ValueError(f"input {number}: inputs are 0 to 64")
        for start, stop in self.gates or ():
            if not 0 <= start < stop:
                raise ValueError(f"a gate from {start} to {stop}")

    def mask(self, events: Part) -> NDArray[np.bool_]:
        """Which of these events are photons of the group: shape (events,)."""
        events = events_of(events)
        found: NDArray[np.bool_] = events.flags == 0
        if self.inputs is not None:
            known = np.zeros(256, np.bool_)
            known[list(self.inputs)] = True
            found &= known[events.numbers]
        return found if self.gates is None else found & within(events.dtimes, self.gates)

    def weights(self, events: Part) -> NDArray[Any]:
        """What each of these events counts for in a correlation: shape (events,)."""
        return self.mask(events)


def within(ticks: NDArray[Any], gates: Collection[tuple[int, int]]) -> NDArray[np.bool_]:
    """Which of these ticks are in one of the gates."""
    return np.asarray(np.logical_or.reduce([(ticks >= start) & (ticks < stop) for start, stop in gates]))


@dataclass(frozen=True)
class Alternated(Group):
    """A group of lasers that are switched (µs-ALEX): its ``gates`` are of the times, not of the dtimes.

    They are pairs (from, to) of times less ``offset``, modulo ``period``, in ticks of T2 or sync periods of T3. For what Python
    counts; a plan has no such group. Raises ``ValueError`` for gates that aren't within a period.
    """

    period: int = 1
    offset: int = 0

    def __post_init__(self) -> None:
        super().__post_init__()
        if any(stop > self.period for _, stop in self.gates or ()):
            raise ValueError(f"gates {self.gates} of a period of {self.period}")

    def mask(self, events: Part) -> NDArray[np.bool_]:
        """Which of these events are photons of the group: shape (events,)."""
        events = events_of(events)
        found = Group(self.inputs).mask(events)
        return found if self.gates is None else found & within((events.times - self.offset) % self.period, self.gates)


GroupLike = Group | int | Iterable[int] | None  # a group, an input, some inputs, or None for all photons


def group_of(group: GroupLike) -> Group:
    """A group of what names one: an input, some inputs, or None for all photons."""
    if isinstance(group, Group):
        return group
    if isinstance(group, int | np.integer):
        return Group((int(group),))
    return Group(None if group is None else tuple(group))


def pieces_of(source: EventsLike) -> Iterator[Events]:
    """The events of a source in pieces, so that only one piece's arrays are in memory beside them."""
    keep_scratch()
    if isinstance(source, Events | np.ndarray):
        for at in range(0, len(source), PIECE):
            yield events_of(source[at : at + PIECE])
    else:
        yield from iter_events(source, records=PIECE)


class Ticks(NamedTuple):
    """What the header of a source tells of ticks, None where it doesn't, and of an array, which has no header."""

    global_seconds: float | None = None
    resolution_seconds: float | None = None


def header_of(source: EventsLike) -> Header:
    """The header of a source, that of rows without anything in it."""
    if isinstance(source, np.ndarray):
        return UNKNOWN
    return source.header if isinstance(source, Events) else read_header(source)


def ticks_of(source: EventsLike) -> Ticks:
    """How long the ticks of a source are."""
    header = header_of(source)
    return Ticks(header.global_seconds, header.resolution_seconds)


def photons_of(source: EventsLike, group: GroupLike = None) -> Events:
    """The photons of a group that aren't late, in the order of the file."""
    chosen = group_of(group)
    return joined([piece[chosen.mask(piece)] for piece in pieces_of(source)], header_of(source))


def shifted(events: Part, shifts: Mapping[int, int], period: int) -> Events:
    """A copy of the events with shifted dtimes, as a plan's ``shift`` has them.

    ``shifts`` has for each input the ticks that are added to its dtimes; the sum is taken modulo ``period``, in ticks.
    The dtimes of the other inputs stay. Raises ``ValueError`` for a period that no plan has: it has 1 to 32,768 ticks.
    """
    if not 1 <= period <= MOST_PERIOD:
        raise ValueError(f"a period of {period} ticks: it has 1 to {MOST_PERIOD}")
    events = events_of(events)
    dtimes = np.array(events.dtimes)
    for number, ticks in shifts.items():
        moved = (events.numbers == number) & ~events["marker"]
        dtimes[moved] = (dtimes[moved].astype(np.int64) + ticks) % period
    return replace(events, dtimes=dtimes)
