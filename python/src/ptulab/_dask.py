"""Those who count on many machines: the threads of dask's workers.

A lane is a thread of a worker, and its sum so far is a value that dask keeps on that worker: each chunk of files makes a
new one of the one before, which stays as it is, so what dask does with its values can't change a sum. All tasks are bound
to their worker; what is lost with it is handed out anew.
"""

from __future__ import annotations

import asyncio
import concurrent.futures
import queue
import threading
import time
from collections import Counter
from collections.abc import Iterator, Sequence
from contextlib import suppress
from dataclasses import dataclass, field
from typing import Any, NamedTuple

from ._hand_out import Event, GoneError, Lane
from ._optional import want
from ._parts import Kind, Part, added
from ._work import HostError, Work, check, count, free_megabytes

LOOKS = 1.0  # seconds between two questions for the workers
LOST = 3  # times that a worker may be lost before it has counted anything
WAITS = 30.0  # seconds for a small answer
BRIEF = 1.0  # seconds that are given to a word which isn't needed
PAIR = 120.0  # seconds for a sum of two on a worker, before each comes by itself
NO_MORE = ("lost", "cancelled", "error")  # of a future
CANCELLED = (asyncio.CancelledError, concurrent.futures.CancelledError)
FAILURES = (Exception, *CANCELLED)  # whatever dask or a worker raises
USED = 0.8  # the part of its limit at which a worker of dask pauses


class Value(NamedTuple):
    """What dask keeps: a sum, and what came of the last chunk."""

    part: Part
    latest: Part


# ## On a worker


def _check(work: Work, program: bytes | None) -> tuple[str, int]:
    """The name of the host, and how many threads have room."""
    import psutil  # type: ignore[import]
    from distributed import get_worker
    from distributed.system import MEMORY_LIMIT

    worker = get_worker()
    limit = worker.memory_manager.memory_limit or MEMORY_LIMIT
    rooms = [int(USED * limit) - psutil.Process().memory_info().rss >> 20, free_megabytes()]
    room = min(room for room in rooms if room is not None)
    host = check(work, program, room)
    return host, max(1, min(worker.state.nthreads, room // max(1, work.need())))


def _count(work: Work, before: Value | None, files: Sequence[tuple[int, str]], kind: Kind | None) -> Value:
    from distributed import get_worker

    worker, key = get_worker(), get_worker().get_current_task()

    def stopped() -> bool:
        state = worker.state.tasks.get(key)
        return state is None or state.state == "cancelled" or worker.status.name not in ("running", "paused", "closing_gracefully")

    part = Part() if before is None else before.part.copy()
    return Value(part, count(work, part, files, kind, stopped))


def _latest(value: Value) -> Part:
    return value.latest


def _added(one: Value, other: Value) -> Value:
    return Value(added(one.part, other.part), Part())


# ## At the client


@dataclass
class _Thread:
    """What the client knows of a lane."""

    worker: str
    value: Any = None  # the future of its sum
    coming: tuple[Any, Any] | None = None  # those of the chunk that it counts now: the sum, and what came of the files
    is_broken: bool = False  # its answer did not come


@dataclass
class _Worker:
    """What it knows of a worker."""

    checking: Any = None  # a future
    host: str = ""
    lanes: list[Lane] = field(default_factory=list)
    since: float = field(default_factory=time.monotonic)


class Dask:
    """A lane is a thread of a worker of dask."""

    def __init__(self, work: Work, program: bytes | None, client: Any, patience: float) -> None:
        want("distributed", "many machines")
        self.patience = max(patience, WAITS)  # seconds in which a worker must be checked, which may have other tasks
        self.events: queue.SimpleQueue[Event] = queue.SimpleQueue()
        self.work, self.program, self.client = work, program, client
        self.workers: dict[str, _Worker] = {}
        self.threads: dict[Lane, _Thread] = {}
        self.losses: Counter[str] = Counter()
        self.there: set[str] | None = None  # the workers that the scheduler told last
        self.out: set[str] = set()  # hosts
        self.closed = threading.Event()
        threading.Thread(target=self.watch, daemon=True).start()

    def watch(self) -> None:
        """Asks the scheduler for its workers."""
        while not self.closed.is_set():
            try:
                self.there = set(self.client.nthreads())
            except FAILURES:  # the client knows when its connection is closed for good
                pass
            self.closed.wait(LOOKS)

    def submit(self, worker: str, function: Any, *words: Any) -> Any:
        """A task for one worker."""
        return self.client.submit(function, *words, workers=[worker], allow_other_workers=False, pure=False, priority=1)

    # ## Who is there

    def pending(self) -> bool:
        """Whether a worker is being checked, or the scheduler hasn't told of any yet."""
        return self.there is None or any(worker.checking is not None for worker in self.workers.values())

    def look(self) -> None:
        """Checks new workers, and sees which were lost."""
        if self.client.status in ("closing", "closed"):
            raise GoneError("the scheduler of dask is gone")
        if self.there is None:
            return
        for address in self.there - self.workers.keys():
            self.workers[address] = _Worker(self.submit(address, _check, self.work, self.program))
        for address in list(self.workers):
            self.look_at(address, address in self.there)

    def look_at(self, address: str, is_there: bool) -> None:
        worker = self.workers[address]
        if not is_there:
            self.lose(address, "the worker that counted it was lost")
        elif worker.checking is not None and worker.checking.status != "pending":
            self.take_check(address, worker)
        elif worker.checking is not None and time.monotonic() - worker.since > self.patience:
            self.drop(worker.checking)
            worker.checking = None
            self.events.put(Event(lost=f"it did not answer within {self.patience:.0f} s", host=address))
        elif any(self.failed(lane) for lane in worker.lanes):
            self.lose(address, "the worker that counted it lost its values")

    def failed(self, lane: Lane) -> bool:
        """Whether one of its futures is no more."""
        thread = self.threads[lane]
        futures = [thread.value, *(thread.coming or ())]
        return thread.is_broken or any(future is not None and future.status in NO_MORE for future in futures)

    def take_check(self, address: str, worker: _Worker) -> None:
        """A worker that is good gets its lanes, and one that isn't is left out."""
        checking, worker.checking = worker.checking, None
        try:
            worker.host, number = checking.result(timeout=WAITS)
        except (*CANCELLED, TimeoutError):  # as while a link is down
            self.lose(address, "its check was lost")
            return
        except Exception as error:
            said = str(error) if isinstance(error, HostError) else f"{type(error).__name__}: {error}"
            self.events.put(Event(lost=said, host=address))
            return
        for _ in range(0 if worker.host in self.out else number):
            lane = Lane(worker.host)
            worker.lanes.append(lane)
            self.threads[lane] = _Thread(address)
            self.events.put(Event(lane))

    def lose(self, address: str, why: str) -> None:
        """A worker, or what it had, is no more; one that comes again is checked again."""
        worker = self.workers.pop(address)
        threads = [self.threads.pop(lane) for lane in worker.lanes]
        self.drop(*(future for thread in threads for future in (thread.value, *(thread.coming or ()))))
        for lane in worker.lanes:
            self.events.put(Event(lane, lost=why))
        self.losses[address] += 1
        if self.losses[address] >= LOST and self.there is not None and address in self.there:
            self.workers[address] = _Worker()
            self.events.put(Event(lost=f"{why}, {LOST} times", host=address))

    def drop(self, *futures: Any) -> None:
        """Lets the scheduler forget some tasks, which ends those that run. It hears of it later where a link is down."""
        these = [future for future in futures if future is not None]

        def ask() -> None:
            with suppress(*FAILURES):
                self.client.cancel(these, force=True, asynchronous=False)

        if these and self.client.status == "running":
            asking = threading.Thread(target=ask, daemon=True)
            asking.start()
            asking.join(BRIEF)

    def leave_out(self, host: str) -> None:
        """Gives this host no more files; what it has counted is lost."""
        self.out.add(host)
        for address in [address for address, worker in self.workers.items() if worker.host == host]:
            self.lose(address, "its host is left out")
            self.workers[address] = _Worker(host=host)

    # ## Chunks

    def start(self, lane: Lane, files: Sequence[tuple[int, str]], kind: Kind | None) -> None:
        """Lets a thread count some files."""
        thread = self.threads.get(lane)
        if thread is None:  # its loss is told already
            return
        value = self.submit(thread.worker, _count, self.work, thread.value, list(files), kind)
        told = self.submit(thread.worker, _latest, value)
        thread.coming = value, told
        told.add_done_callback(lambda future: self.told(lane, future))

    def told(self, lane: Lane, future: Any) -> None:
        """A chunk ended; called by a thread of dask."""
        thread = self.threads.get(lane)
        if thread is None or thread.coming is None or thread.coming[1] is not future:
            return
        try:
            latest = future.result(timeout=WAITS)
        except FAILURES:
            thread.is_broken = True
        else:
            thread.value, thread.coming = thread.coming[0], None
            self.losses.pop(thread.worker, None)
            self.events.put(Event(lane, counted=latest))

    # ## Sums

    def collect(self, lanes: Sequence[Lane]) -> Iterator[Part]:
        """The sum of these lanes, made pairwise on their workers; of what is lost on the way there is none."""
        values = []
        for lane in lanes:
            if thread := self.threads.get(lane):
                values.append((thread.worker, thread.value))
                thread.value = None
        values.sort(key=lambda value: value[0])
        while len(values) > 1:
            pairs = [(one, other, self.submit(one[0], _added, one[1], other[1])) for one, other in zip(values[::2], values[1::2])]
            made = [value for pair in pairs for value in self.of_pair(*pair)]
            values = made + values[len(values) & ~1 :]
            if not any(future.status == "finished" for _, _, future in pairs):
                break  # these can't be brought together, so each comes by itself
            del pairs  # and with it what was added up
        for worker, future in values:
            value = self.fetched(worker, future)
            if value is not None:
                yield value.part
            del value  # before the next one comes
        self.drop(*(future for _, future in values))

    def is_lost(self, worker: str, future: Any) -> bool:
        return self.client.status != "running" or worker not in (self.there or ()) or future.status in NO_MORE

    def of_pair(self, one: tuple[str, Any], other: tuple[str, Any], future: Any) -> list[tuple[str, Any]]:
        """The sum of two, or those of the two that are still there."""
        end = time.monotonic() + PAIR
        while future.status == "pending" and time.monotonic() < end and not self.is_lost(*one) and not self.is_lost(*other):
            time.sleep(0.01)
        if future.status == "finished":
            return [(one[0], future)]
        self.drop(future)
        return [value for value in (one, other) if not self.is_lost(*value)]

    def fetched(self, worker: str, future: Any) -> Value | None:
        """A value, or None where it is lost before it is here."""
        box: queue.SimpleQueue[Value | None] = queue.SimpleQueue()

        def fetch() -> None:
            try:
                box.put(future.result())
            except FAILURES:
                box.put(None)

        threading.Thread(target=fetch, daemon=True).start()
        while True:
            try:
                return box.get(timeout=LOOKS)
            except queue.Empty:
                if self.is_lost(worker, future):
                    self.drop(future)
                    return None

    def close(self) -> None:
        """Ends all tasks, and the programs that they run."""
        self.closed.set()
        futures = [future for thread in self.threads.values() for future in (thread.value, *(thread.coming or ()))]
        self.drop(*futures, *(worker.checking for worker in self.workers.values()))
        self.threads.clear()
