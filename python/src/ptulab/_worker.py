"""What a process does that counts for another one: ``python -m ptulab._worker``, which _processes.py starts."""

from __future__ import annotations

import os
import queue
import signal
import sys
import threading
from typing import IO, Any

from ._parts import Part
from ._processes import get, put
from ._work import HostError, Work, check, count


def serve(source: IO[bytes], out: IO[bytes]) -> None:
    """Answers what it is asked. Another thread hears, so that the end of the pipe ends a run at once."""
    asked: queue.SimpleQueue[Any] = queue.SimpleQueue()

    def hear() -> None:
        try:
            while True:
                asked.put(get(source))
        except (EOFError, OSError):
            if hasattr(os, "killpg"):
                os.killpg(0, signal.SIGKILL)
            os._exit(1)

    threading.Thread(target=hear, daemon=True).start()
    part = Part()
    while True:
        what, *words = asked.get()
        if what == "check":
            put(out, _or_error(*words))
        elif what == "count":
            put(out, ("count", count(words[0], part, *words[1:])))
        else:
            put(out, ("give", part))
            part = Part()


def _or_error(work: Work, program: bytes | None) -> str | HostError:
    try:
        return check(work, program, None)
    except HostError as error:
        return error


if __name__ == "__main__":
    results = os.fdopen(os.dup(1), "wb")
    os.dup2(2, 1)  # what a library prints goes to standard error
    serve(sys.stdin.buffer, results)
