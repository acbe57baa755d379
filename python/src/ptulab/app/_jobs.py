"""Work in processes of their own, one at a time: what it says is passed on as it comes, line by line of JSON."""

from __future__ import annotations

import asyncio
import json
import os
import signal
import socket
import subprocess
import sys
from collections.abc import AsyncGenerator, Callable
from contextlib import aclosing, closing, suppress
from pathlib import Path
from typing import Any

from ..errors import PtulabError

WAITING = 8  # pieces of work that may wait
PIECE = 1 << 16
QUIET = {name: "1" for name in ("OMP_NUM_THREADS", "OPENBLAS_NUM_THREADS", "PYTHONDONTWRITEBYTECODE")} | {"MPLBACKEND": "Agg"}


class Mother:
    """A process that has imported what work needs, and makes a process for each piece of it."""

    def __init__(self, program: str) -> None:
        self.program = program
        self.child: subprocess.Popen[bytes] | None = None
        self.control: socket.socket | None = None

    def begin(self) -> None:
        """Starts it, where it doesn't run."""
        if self.child is not None and self.child.poll() is None:
            return
        self.end()
        source = str(Path(__file__).resolve().parents[2])
        path = os.pathsep.join(filter(None, (source, os.environ.get("PYTHONPATH"))))
        self.control, theirs = socket.socketpair(socket.AF_UNIX, socket.SOCK_STREAM)
        with theirs:
            self.child = subprocess.Popen(
                [sys.executable, "-P", "-m", "ptulab.app._job"],
                stdin=theirs.fileno(),
                stdout=subprocess.DEVNULL,
                start_new_session=True,
                cwd="/",
                env=os.environ | QUIET | {"PYTHONPATH": path, "PTU": self.program},
            )

    def bear(self) -> tuple[int, int]:
        """A new process for work: where its input is written, and its output read. Raises ``OSError``."""
        self.begin()
        assert self.control is not None
        reads, asks = os.pipe()
        tells, writes = os.pipe()
        try:
            socket.send_fds(self.control, [b"."], [reads, writes])
        except OSError:
            os.close(asks)
            os.close(tells)
            raise
        finally:
            os.close(reads)
            os.close(writes)
        return asks, tells

    def end(self) -> None:
        """Ends it; what it has borne goes on."""
        if self.control is not None:
            self.control.close()
        if self.child is not None:
            self.child.kill()
            self.child.wait()
        self.child = self.control = None


class Jobs:
    """Does one piece of work at a time, each in a process that has at most ``megabytes`` for its data."""

    def __init__(self, program: str, megabytes: int) -> None:
        self.megabytes, self.mother = megabytes, Mother(program)
        self.lock = asyncio.Lock()
        self.waiting, self.is_running = 0, False  # whether a run is among them
        self.process: int | None = None  # the one that works, or None
        self.mother.begin()

    def end(self) -> None:
        """Ends what works, and takes nothing more."""
        self.waiting += WAITING
        self.mother.end()
        if self.process is not None:
            _killed(self.process)

    async def lines(self, begin: Callable[[], dict[str, Any]], is_run: bool = False) -> AsyncGenerator[bytes, None]:
        """What the work says, of which ``begin`` tells once its turn has come. It ends with the iterator, whether it is done or not."""
        if self.waiting >= WAITING or (is_run and self.is_running):
            yield _line({"error": "Something else is running: stop it, or wait until it ends."})
            return
        self.waiting += 1
        self.is_running = self.is_running or is_run
        try:
            if self.lock.locked():
                yield _line({"words": "waits until other work ends"})
            async with self.lock, aclosing(self._said(begin)) as lines:
                async for some in lines:
                    yield some
        finally:
            self.waiting -= 1
            self.is_running = self.is_running and not is_run

    async def _said(self, begin: Callable[[], dict[str, Any]]) -> AsyncGenerator[bytes, None]:
        try:
            request = begin()
            asks, tells = self.mother.bear()
        except OSError as error:
            yield _line({"error": said(error)})
            return
        yield _line({"begun": os.path.basename(request.get("out", ""))})
        reader = asyncio.StreamReader()
        transport, _ = await asyncio.get_running_loop().connect_read_pipe(lambda: asyncio.StreamReaderProtocol(reader), os.fdopen(tells, "rb"))
        with closing(transport), os.fdopen(asks, "wb", buffering=0) as asking:
            try:
                self.process = int(await reader.readline() or b"0") or None
                with suppress(OSError):
                    await asyncio.to_thread(asking.write, _line(request | {"megabytes": self.megabytes}))
                last = b""
                while some := await reader.read(PIECE):
                    last = (last + some)[-2:]
                    yield some
                if last != b"\n\n":  # with which its last line ends
                    yield b"\n" + _line({"error": "The work was ended by the system; there may have been too little memory."})
            finally:
                if self.process is not None:
                    _killed(self.process)
                self.process = None
                for left in Path(request["out"]).glob(".ptulab-*") if request.get("out") else ():  # a file that wasn't whole yet
                    left.unlink(missing_ok=True)


def said(error: BaseException) -> str:
    """An error in a line, without the folders of a path."""
    if isinstance(error, OSError) and not isinstance(error, PtulabError):
        return f"{os.path.basename(str(error.filename or ''))}: {error.strerror or error}".removeprefix(": ")
    return f"{error} is wanting" if isinstance(error, KeyError) and not isinstance(error, PtulabError) else str(error)


def _killed(process: int) -> None:
    """Ends a process and all that it started."""
    with suppress(ProcessLookupError):
        os.killpg(process, signal.SIGKILL)


def _line(value: dict[str, Any]) -> bytes:
    return json.dumps(value).encode("ascii") + b"\n"
