"""Locks on what only one run at a time may make. A lock is a file that says who holds it."""

from __future__ import annotations

import contextlib
import json
import os
import secrets
import socket
import tempfile
import threading
import time
from typing import IO, Any

from .errors import PtulabError

RENEWED, STALE = 10, 120  # seconds after which a lock is renewed, and after which it is old
TOLD = 1.0  # seconds in which a run that makes a lock says in it who it is


class Lock:
    """The lock ``PATH.lock`` on what stands at a path, till it is closed.

    A run renews its lock. One that is old is taken over, and so is that of a process of this host that has ended; of the
    others it is told who holds them, and how they are taken off (``PtulabError``).
    """

    def __init__(self, path: str) -> None:
        self.made, self.path = path, f"{path}.lock"
        mine = {"host": socket.gethostname(), "process": os.getpid(), "since": now(), "run": secrets.token_hex(8)}
        self.mine: dict[str, Any] = mine
        told = time.monotonic() + TOLD
        while not self.is_taken():
            self.take_off(waits=time.monotonic() < told)
        self.ended = threading.Event()
        threading.Thread(target=self.renew, daemon=True).start()

    def is_taken(self) -> bool:
        """Takes it where there is none."""
        try:
            file = open(self.path, "xb")
        except FileExistsError:
            return False
        try:
            with file:
                file.write(json.dumps(self.mine).encode("ascii"))
        except BaseException:
            os.unlink(self.path)
            raise
        return True

    def take_off(self, *, waits: bool) -> None:
        """Takes off an old one, of which of several runs only one does; raises ``PtulabError`` where it is held, but for one that waits for its holder's name."""
        with contextlib.suppress(FileNotFoundError), open(self.path, "rb") as file:
            held = holder(file)
            if not held and waits:
                time.sleep(0.02)
                return
            if not is_dead(held) and self.age() < STALE:
                who = f"process {held.get('process')} on {held.get('host')} makes it since {held.get('since')}" if held else "another run makes it"
                raise PtulabError(f"{self.made}: {who}; once that has ended, remove {self.path}")
            with contextlib.suppress(ImportError, OSError):  # where there are no locks on files
                import fcntl

                fcntl.flock(file, fcntl.LOCK_EX)
            if os.path.samestat(os.fstat(file.fileno()), os.stat(self.path)):
                os.unlink(self.path)

    def age(self) -> float:
        """Seconds since it was renewed, by the clock of the disk."""
        try:
            with tempfile.TemporaryFile(dir=os.path.dirname(self.path)) as new:
                return os.fstat(new.fileno()).st_mtime - os.stat(self.path).st_mtime
        except OSError:
            return 0

    def is_mine(self) -> bool:
        """Whether this run holds it still."""
        try:
            with open(self.path, "rb") as file:
                return holder(file) == self.mine
        except OSError:
            return False

    def check(self) -> None:
        """Raises ``PtulabError`` where it was taken over, as of a process that was stopped for a while."""
        if not self.is_mine():
            raise PtulabError(f"{self.made}: {self.path} was taken off meanwhile, so another run may make it")

    def renew(self) -> None:
        """Renews it, till it is taken off."""
        while not self.ended.wait(RENEWED) and self.is_mine():
            with contextlib.suppress(OSError):
                os.utime(self.path)

    def close(self) -> None:
        """Takes it off."""
        self.ended.set()
        if self.is_mine():
            with contextlib.suppress(FileNotFoundError):
                os.unlink(self.path)


def holder(file: IO[bytes]) -> dict[str, Any]:
    """Who holds it, or nothing where that isn't told yet."""
    try:
        held = json.loads(file.read(1000))
    except (OSError, ValueError):
        return {}
    return held if isinstance(held, dict) else {}


def is_dead(held: dict[str, Any]) -> bool:
    """Whether a process of this host has ended; of other hosts nothing is known."""
    process = held.get("process")
    if held.get("host") != socket.gethostname() or not isinstance(process, int) or os.name != "posix":
        return False
    try:
        os.kill(process, 0)
    except ProcessLookupError:
        return True
    except PermissionError:
        pass
    return False


def now() -> str:
    """The date, by UTC."""
    return time.strftime("%Y-%m-%dT%H:%M:%SZ", time.gmtime())
