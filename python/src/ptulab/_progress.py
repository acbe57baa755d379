"""How far a count of many files is: a bar on a terminal, else a line every ten seconds."""

from __future__ import annotations

import os
import sys
import time
from collections.abc import Sequence
from contextlib import suppress
from typing import Any

from ._optional import want
from ._parts import File

EVERY = 10.0  # seconds between two lines


class Progress:
    """Told of each file that is settled, it shows files, bytes, and what was left and why."""

    def __init__(self, paths: Sequence[str], shown: bool) -> None:
        self.files, self.left, self.latest = 0, 0, ""
        self.bytes, self.number = 0, len(paths)
        self.shown, self.began = shown, time.monotonic()
        self.next, self.lines = self.began + EVERY, 0
        self.seen: set[str] = set()
        self.sizes = sizes_of(paths) if shown else {}
        self.total = sum(self.sizes.values())
        self.bar: Any = None
        if shown and sys.stderr.isatty():
            self.bar = want("tqdm", "the progress of many files").tqdm(total=self.total, unit="B", unit_scale=True)

    def settled(self, file: File) -> None:
        """A file is counted, or left, maybe again after those who counted it were lost."""
        if file.path in self.seen:
            return
        self.seen.add(file.path)
        self.files += 1
        size = self.sizes.get(file.path, 0)
        self.bytes += size
        if not file.is_added:
            self.left, self.latest = self.left + 1, f"{file.path}: {file.why}"
        if self.bar is not None:
            self.bar.update(size)
            self.bar.set_postfix_str(f"{self.files} of {self.number} files{self.said_of_left()}")

    def left_out(self, host: str, why: str) -> None:
        """A host gets no more files."""
        if self.shown:
            say = print if self.bar is None else self.bar.write
            say(f"{host} was left out: {why}", file=sys.stderr)

    def look(self) -> None:
        """Says how far it is where that is due, also where nothing was settled meanwhile."""
        if self.shown and self.bar is None and time.monotonic() >= self.next:
            self.next, self.lines = time.monotonic() + EVERY, self.lines + 1
            print(self.line(), file=sys.stderr, flush=True)

    def said_of_left(self) -> str:
        return f", {self.left} left, the last {self.latest}" if self.left else ""

    def line(self) -> str:
        """How far it is."""
        told = f"{self.files} of {self.number} files, {self.bytes / 1e6:,.0f} of {self.total / 1e6:,.0f} MB{self.said_of_left()}"
        if 0 < self.bytes < self.total:
            seconds = (time.monotonic() - self.began) * (self.total / self.bytes - 1)
            told += f"; some {seconds:,.0f} s to go"
        return told

    def close(self) -> None:
        """The last line, where there were others."""
        if self.bar is not None:
            self.bar.close()
        elif self.lines:
            print(self.line(), file=sys.stderr, flush=True)


def sizes_of(paths: Sequence[str]) -> dict[str, int]:
    """The bytes of each file that can be seen here."""
    sizes = {}
    for path in paths:
        with suppress(OSError):
            sizes[path] = os.stat(path).st_size
    return sizes
