"""Hands out files to those who count, as each becomes free, until every file is in the sum or known to be left.

A *lane* counts one chunk of files after the other and has the sum of them, which is collected now and then. Who counts,
processes of this machine or workers of dask, is an `Engine`'s.
"""

from __future__ import annotations

import math
import queue
import time
from collections import Counter, deque
from collections.abc import Iterator, Sequence
from dataclasses import dataclass, field, replace
from typing import Protocol

from ._manifest import Manifest
from ._parts import File, Kind, Part
from ._progress import Progress
from ._work import OF_PLAN
from .errors import PtulabError
from .program import refusal

TRIES = 3  # of a file, each at another host, or after those who counted it were lost
CHUNK = 1.0  # seconds that a chunk should take
GROWTH = 4  # of a chunk over the one before
COLLECT = 10.0  # seconds between two collections, at least
SHARE = 20  # a collection may take this part of the time
HOLD = 2.0  # seconds for which those who are ready wait for the others before a collection
LOOKS = 0.2  # seconds between two looks at who counts


class GoneError(PtulabError):
    """Nobody can be asked any more, as when a scheduler has ended."""


@dataclass(eq=False)
class Lane:
    """One who counts a chunk at a time."""

    host: str
    places: list[int] = field(default_factory=list)  # of the files that it knows, till they are collected
    chunk: list[int] = field(default_factory=list)  # that it counts now
    size: int = 1  # of its next chunk
    began: float = 0.0


@dataclass(frozen=True)
class Event:
    """What an engine tells: a new lane; a chunk that was counted; a lane that was lost; or a host that is left out."""

    lane: Lane | None = None
    counted: Part | None = None
    lost: str = ""
    host: str = ""


class Engine(Protocol):
    """Those who count."""

    events: queue.SimpleQueue[Event]

    def look(self) -> None:
        """Sees who came and who was lost. Raises ``GoneError`` where nobody can come any more."""

    def pending(self) -> bool:
        """Whether somebody is being checked."""

    def start(self, lane: Lane, files: Sequence[tuple[int, str]], kind: Kind | None) -> None:
        """Lets a lane count some files."""

    def collect(self, lanes: Sequence[Lane]) -> Iterator[Part]:
        """The sums of these lanes, which begin anew; of a lane that is lost there is none."""

    def leave_out(self, host: str) -> None:
        """Gives this host no more files."""

    def close(self) -> None:
        """Ends all that runs."""


class HandOut:
    """Hands out the files at ``paths``, and adds up what is collected into ``whole``."""

    patience = 120.0  # seconds without anybody who counts
    shown = Progress((), False)

    def __init__(self, engine: Engine, paths: Sequence[str], whole: Part, kind: Kind | None, manifest: Manifest | None) -> None:
        self.engine, self.paths, self.whole, self.kind, self.manifest = engine, paths, whole, kind, manifest
        self.lanes: list[Lane] = []
        self.waiting = deque(place for place in range(len(paths)) if place not in whole.files)
        self.alone: deque[int] = deque()  # whose lane was lost: each is a chunk by itself
        self.again: set[int] = set()  # those for another host
        self.tried: dict[int, list[File]] = {}  # how it went so far with files that are in no sum yet
        self.losses: Counter[int] = Counter()
        self.known: dict[int, File] = dict(whole.files)
        self.counted: Counter[str] = Counter()  # by host
        self.strikes: Counter[str] = Counter()  # files that a host could not open, and another one could
        self.left_out: dict[str, str] = {}
        self.seen = time.monotonic()  # when somebody who counts was last seen
        self.due = time.monotonic() + COLLECT

    def run(self) -> None:
        """All of it."""
        try:
            while self.is_open():
                self.engine.look()
                self.hand_out()
                self.give_up()
                self.take_events()
                self.collect_in_time()
                self.shown.look()
        except GoneError as gone:
            self.leave_all(str(gone))

    def is_open(self) -> bool:
        """Whether there is something to do."""
        return bool(self.waiting or self.alone or self.again) or any(lane.places or lane.chunk for lane in self.lanes)

    # ## Chunks

    def hand_out(self) -> None:
        """Gives each lane that is free a chunk, unless a collection is due."""
        if time.monotonic() >= self.due:
            return
        for lane in self.lanes:
            if not lane.chunk and (places := self.next_for(lane)):
                lane.chunk, lane.began = places, time.monotonic()
                self.engine.start(lane, [(place, self.paths[place]) for place in places], self.kind)

    def next_for(self, lane: Lane) -> list[int]:
        """Files for a lane: those that others could not count come first."""
        if self.alone:
            return [self.alone.popleft()]
        if others := sorted(place for place in self.again if lane.host not in self.hosts_of(place))[: lane.size]:
            self.again -= set(others)
            return others
        share = math.ceil(len(self.waiting) / (2 * len(self.lanes)))
        return [self.waiting.popleft() for _ in range(min(lane.size, share, len(self.waiting)))]

    def hosts_of(self, place: int) -> set[str]:
        """Those that could not count a file."""
        return {file.host for file in self.tried.get(place, ())}

    def take_events(self) -> None:
        """What the engine tells, or nothing after a while."""
        try:
            event: Event | None = self.engine.events.get(timeout=LOOKS)
            while event is not None:
                self.take(event)
                event = self.engine.events.get_nowait()
        except queue.Empty:
            pass

    def take(self, event: Event) -> None:
        lane = event.lane
        if event.host:
            self.leave_out(event.host, event.lost)
        elif lane is None:
            return
        elif event.counted is not None:
            if lane in self.lanes:
                self.take_counted(lane, event.counted)
        elif event.lost:
            if lane in self.lanes:
                self.take_lost(lane, event.lost)
        else:
            self.lanes.append(lane)

    def take_counted(self, lane: Lane, counted: Part) -> None:
        """A chunk is done: the next one is so large that it takes a second."""
        pace = max(1e-6, time.monotonic() - lane.began) / max(1, len(lane.chunk))
        lane.size = max(1, min(GROWTH * len(lane.chunk), round(CHUNK / pace)))
        lane.chunk = []
        for place, file in counted.files.items():
            if file.status in OF_PLAN:
                raise refusal(int(file.status or 0), f"ptu: {file.why}")
            if file.again:
                self.tried.setdefault(place, []).append(file)
                self.again.add(place)
                continue
            lane.places.append(place)
            self.counted[lane.host] += 1
            self.know(place, file)
            for other in self.tried.pop(place, []) if file.is_added else ():
                self.strike(other.host, other.why)

    def take_lost(self, lane: Lane, why: str) -> None:
        """What a lane had is to be counted anew, and what it was at by itself, as it may be the reason."""
        self.lanes.remove(lane)
        for place in lane.places:
            self.known.pop(place, None)
        self.waiting.extendleft(reversed(lane.places))
        for place in lane.chunk:
            self.losses[place] += 1
            if self.losses[place] >= TRIES:
                self.tried.setdefault(place, []).append(File(self.paths[place], why=why, host=lane.host))
                self.leave(place)
            else:
                self.alone.append(place)

    def strike(self, host: str, why: str) -> None:
        """A host that often can't read what others can gets no more files."""
        self.strikes[host] += 1
        if self.strikes[host] >= TRIES and self.strikes[host] > self.counted[host] and host not in self.left_out:
            self.leave_out(host, f"it could not read {self.strikes[host]} files that others could: {why}")
            self.engine.leave_out(host)

    def leave_out(self, host: str, why: str) -> None:
        """A host, or a worker, gets no more files."""
        self.left_out[host] = why
        self.shown.left_out(host, why)
        if self.manifest is not None:
            self.manifest.left_out(host, why)

    # ## Files that are settled

    def know(self, place: int, file: File) -> None:
        """What came of a file; the first one that was counted says of which kind all are."""
        self.known[place] = file
        self.shown.settled(file)
        if self.kind is None:
            for file in map(self.known.get, range(len(self.paths))):  # type: ignore[assignment]
                if file is None or file.kind is not None:
                    self.kind = None if file is None else file.kind
                    break

    def leave(self, place: int) -> None:
        """No host could count a file."""
        tried = self.tried.pop(place)
        hosts = ", ".join(dict.fromkeys(file.host for file in tried if file.host))
        self.whole.files[place] = replace(tried[-1], host=hosts, again=False)
        self.know(place, self.whole.files[place])

    def give_up(self) -> None:
        """Leaves what was tried often enough, and all where nobody counts for too long."""
        hosts = {lane.host for lane in self.lanes}
        if hosts or self.engine.pending():
            self.seen = time.monotonic()
        if not self.engine.pending():
            for place in sorted(self.again):
                if len(self.tried[place]) >= TRIES or (hosts and hosts <= self.hosts_of(place)):
                    self.again.remove(place)
                    self.leave(place)
        if time.monotonic() - self.seen > self.patience:
            self.leave_all("nobody could count it")

    def leave_all(self, why: str) -> None:
        """Leaves all that isn't in the sum."""
        said = "; ".join([why, *(f"{host}: {reason}" for host, reason in self.left_out.items())])
        for place in range(len(self.paths)):
            if place not in self.whole.files:
                self.tried.setdefault(place, [File(self.paths[place], why=said)])
                self.leave(place)
        for these in (self.waiting, self.alone, self.again, self.lanes):
            these.clear()  # type: ignore[attr-defined]

    # ## Sums

    def collect_in_time(self) -> None:
        """Collects the sums of the lanes that are free, from time to time and at the end."""
        now = time.monotonic()
        busy = any(lane.chunk for lane in self.lanes)
        is_last = not (busy or self.waiting or self.alone or self.again)
        if is_last or (now >= self.due and (not busy or now >= self.due + HOLD)):
            self.collect([lane for lane in self.lanes if lane.places and not lane.chunk])
            ended = time.monotonic()
            self.due = ended + max(COLLECT, SHARE * (ended - now))

    def collect(self, lanes: Sequence[Lane]) -> None:
        """Adds up the sums of some lanes; what is missing is counted anew."""
        wanted = {place for lane in lanes for place in lane.places}
        for lane in lanes:
            lane.places = []
        for part in self.engine.collect(lanes) if lanes else ():
            if part.files.keys() <= wanted:
                self.whole.take(part)
                wanted -= part.files.keys()
            del part  # before the next one comes
        if self.kind is not None:
            self.whole.only(self.kind)
        for place in wanted:
            self.known.pop(place, None)
        self.waiting.extendleft(sorted(wanted, reverse=True))
        if self.manifest is not None and self.kind in self.whole.sums and self.is_open():
            self.manifest.sum(self.whole.sums[self.kind][0], self.whole.files, self.manifest.part)
