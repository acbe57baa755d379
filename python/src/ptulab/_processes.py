"""Those who count on one machine: this process, or some of its own.

A process gets its work through a pipe, and ends, with the run that it has begun, when the pipe does.
"""

from __future__ import annotations

import mmap
import os
import pickle
import queue
import signal
import struct
import subprocess
import sys
import threading
from collections.abc import Iterator, Sequence
from contextlib import suppress
from typing import IO, Any

from ._hand_out import Event, GoneError, Lane
from ._parts import Kind, Part
from ._work import HostError, Work, check, count, free_megabytes
from .errors import PtulabError

LOST = 10  # processes that may be lost in a row before a file was counted
MAPPED = 1 << 20  # bytes from which on memory of its own is mapped for an array
Files = Sequence[tuple[int, str]]


def processors() -> int:
    """How many processors this process may use."""
    with suppress(AttributeError):  # where the system doesn't tell
        return len(os.sched_getaffinity(0))
    return os.cpu_count() or 1


class Here:
    """This process counts."""

    def __init__(self, work: Work, program: bytes | None) -> None:
        self.events: queue.SimpleQueue[Event] = queue.SimpleQueue()
        self.work, self.part = work, Part()
        self.events.put(Event(Lane(check(work, program, None))))

    def look(self) -> None:
        """It is always here."""

    def pending(self) -> bool:
        """It is checked."""
        return False

    def start(self, lane: Lane, files: Files, kind: Kind | None) -> None:
        """Counts at once."""
        self.events.put(Event(lane, counted=count(self.work, self.part, files, kind)))

    def collect(self, lanes: Sequence[Lane]) -> Iterator[Part]:
        """The sum."""
        part, self.part = self.part, Part()
        yield part

    def leave_out(self, host: str) -> None:
        """There is no other."""

    def close(self) -> None:
        """Nothing runs."""


class Processes:
    """A lane is a process of this machine."""

    def __init__(self, work: Work, program: bytes | None, number: int) -> None:
        self.events: queue.SimpleQueue[Event] = queue.SimpleQueue()
        self.work, self.program, self.number = work, program, number
        self.lanes: dict[Lane, _Process] = {}
        self.lost, self.why = 0, ""
        room = free_megabytes()
        if room is not None and work.need() > room:
            raise PtulabError(f"the work takes {work.need()} MiB of memory, and {room} are free")
        self.number = number if room is None else max(1, min(number, room // max(1, work.need())))

    def look(self) -> None:
        """Begins processes that are missing."""
        if not self.lanes and self.lost >= LOST:
            raise GoneError(self.why)
        while len(self.lanes) < self.number and self.lost < LOST:
            lane = Lane("")
            self.lanes[lane] = _Process(self, lane)
            threading.Thread(target=self.lanes[lane].serve, daemon=True).start()

    def pending(self) -> bool:
        """Whether a process is beginning."""
        return any(not lane.host for lane in list(self.lanes))

    def start(self, lane: Lane, files: Files, kind: Kind | None) -> None:
        """Lets a process count some files."""
        if process := self.lanes.get(lane):  # else its loss is told already
            process.asked.put(("count", self.work, files, kind))

    def collect(self, lanes: Sequence[Lane]) -> Iterator[Part]:
        """The sums of these processes, one after the other."""
        for process in filter(None, map(self.lanes.get, lanes)):
            process.asked.put(("give",))
            part = process.given.get()
            if part is not None:
                yield part
            del part

    def leave_out(self, host: str) -> None:
        """There is no other."""

    def ended(self, lane: Lane, why: str) -> None:
        """A process is no more."""
        self.lost, self.why = self.lost + 1, why
        if self.lanes.pop(lane, None) is not None:
            self.events.put(Event(lane, lost=why))

    def close(self) -> None:
        """Ends all processes, with what they run."""
        for lane in list(self.lanes):
            if process := self.lanes.pop(lane, None):
                process.close()


class _Process:
    """A process that counts, and the thread that speaks with it."""

    def __init__(self, owner: Processes, lane: Lane) -> None:
        self.owner, self.lane = owner, lane
        self.asked: queue.SimpleQueue[Any] = queue.SimpleQueue()
        self.given: queue.SimpleQueue[Part | None] = queue.SimpleQueue()
        paths = os.environ | {"PYTHONPATH": os.pathsep.join(filter(None, sys.path))}
        words = [sys.executable, "-m", "ptulab._worker"]
        pipes = {"stdin": subprocess.PIPE, "stdout": subprocess.PIPE}
        self.child = subprocess.Popen(words, env=paths, start_new_session=True, **pipes)  # type: ignore[call-overload]
        self.is_open, self.closing = True, threading.Lock()

    def serve(self) -> None:
        """Asks and hears, until the process is lost."""
        why = ""
        try:
            self.owner_heard(self.hear(("check", self.owner.work, self.owner.program)))
            while True:
                words = self.asked.get()
                self.owner_heard(self.hear(words))
        except HostError as error:
            self.owner.lost = LOST
            why = str(error)
        except Exception as error:  # whatever it is: nobody may wait for this one
            why = f"the process that counted it ended ({self.status() or error})"
        self.close()
        self.given.put(None)
        self.owner.ended(self.lane, why)

    def hear(self, words: tuple[Any, ...]) -> Any:
        """The answer to some words."""
        assert self.child.stdin is not None and self.child.stdout is not None
        put(self.child.stdin, words)
        answer = get(self.child.stdout)
        if isinstance(answer, Exception):
            raise answer
        return answer

    def owner_heard(self, answer: Any) -> None:
        """Hands on an answer: the host at first, what came of files, or a sum."""
        if isinstance(answer, str):
            self.lane.host = answer
            self.owner.events.put(Event(self.lane))
        elif answer[0] == "count":
            self.owner.lost = 0
            self.owner.events.put(Event(self.lane, counted=answer[1]))
        else:
            self.given.put(answer[1])

    def status(self) -> str:
        """How it ended."""
        with suppress(subprocess.TimeoutExpired):
            code = self.child.wait(1)
            return f"signal {-code}" if code < 0 else f"status {code}"
        return ""

    def close(self) -> None:
        """Ends it and all that it runs, once: its number may be another's then."""
        with self.closing:
            if self.is_open:
                self.is_open = False
                with suppress(OSError):
                    if hasattr(os, "killpg"):
                        os.killpg(self.child.pid, signal.SIGKILL)
                    else:
                        self.child.kill()
                self.child.wait()


# ## What goes through the pipes: a pickle, whose arrays stand behind it as they are


def put(out: IO[bytes], what: Any) -> None:
    """Writes an object."""
    buffers: list[pickle.PickleBuffer] = []
    pickled = pickle.dumps(what, protocol=5, buffer_callback=buffers.append)
    raw = [buffer.raw() for buffer in buffers]
    out.write(struct.pack(f"<{2 + len(raw)}Q", len(raw), len(pickled), *(len(one) for one in raw)))
    for piece in (pickled, *raw):
        out.write(piece)
    out.flush()


def get(source: IO[bytes]) -> Any:
    """Reads an object. Raises ``EOFError`` at the end."""
    number, size = struct.unpack("<2Q", _bytes(source, 16))
    sizes = struct.unpack(f"<{number}Q", _bytes(source, 8 * number))
    pickled = _bytes(source, size)
    return pickle.loads(pickled, buffers=[_bytes(source, one) for one in sizes])


def _bytes(source: IO[bytes], size: int) -> bytearray | mmap.mmap:
    """So many bytes; what is mapped goes back to the system with its last array, and isn't kept for the thread that read it."""
    found: bytearray | mmap.mmap = mmap.mmap(-1, size) if size >= MAPPED else bytearray(size)
    if source.readinto(found) < size:  # type: ignore[attr-defined]
        raise EOFError("the pipe ended")
    return found
