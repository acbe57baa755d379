"""The manifest beside a sum: what came of each file, as it goes, and from where a run can go on.

A file of JSON lines. The first has the plan and the program by their sha256; each file has a line of its own (``File``); and
a line ``sum`` names a file beside it with its sha256, which has all files that were added above that line. Such a line is
written before the file gets its name; so whatever ends a run, the last of them whose file has this sha256 is true.
"""

from __future__ import annotations

import contextlib
import dataclasses
import hashlib
import json
import os
import socket
from collections.abc import Iterator, Sequence
from typing import IO, Any

from ._lock import Lock, now
from ._parts import File, Kind, Part, kind_of, measured
from ._whole import whole_path
from .report import Report, read_report
from .texts import report_lines

FIELDS = [field.name for field in dataclasses.fields(File) if field.name not in ("path", "kind", "again")]
PathLike = str | os.PathLike[str]


def line_of(file: File) -> dict[str, Any]:
    """The line of a file."""
    return {"file": file.path} | {name: getattr(file, name) for name in FIELDS}


def file_of(line: dict[str, Any]) -> File:
    """The file of a line."""
    groups = tuple(None if one is None else tuple(one) for one in line["groups"])
    return File(line["file"], **{name: line[name] for name in FIELDS if name != "groups"}, groups=groups)


class Manifest:
    """The manifest of a sum that stands at ``out``, which is locked till it is closed."""

    def __init__(self, out: PathLike, head: dict[str, Any]) -> None:
        self.out, self.head = os.path.abspath(out), head
        self.path, self.part = f"{self.out}.jsonl", f"{self.out}.part"
        self.written: set[int] = set()
        self.added = 0  # files of the sum that was written last
        self.file: IO[bytes] | None = None
        self.lock = Lock(self.out)

    # ## What stands there

    def before(self, paths: Sequence[str]) -> tuple[Part, Kind | None]:
        """The sum that a run can go on from, where it has files of ``paths`` alone that are as they were, and its kind."""
        try:
            at, name, files = self.last()
        except (OSError, ValueError, KeyError, TypeError):
            at, name, files = 0, "", []
        places = {path: place for place, path in enumerate(paths)}
        if not name or len(places) < len(paths) or not all(file.path in places and as_it_was(file) for file in files):
            self.begin()
            return Part(), None
        report = measured(read_report(os.path.join(os.path.dirname(self.out), name)), files)
        kind = kind_of(report)
        self.file = open(self.path, "r+b")
        self.file.truncate(at)
        self.file.seek(at)
        self.written, self.added = {places[file.path] for file in files}, len(files)
        known = {places[file.path]: dataclasses.replace(file, kind=kind) for file in files}
        return Part({kind: (report, sorted(known))}, known), kind

    def last(self) -> tuple[int, str, list[File]]:
        """Where the last line of a sum ends that is there, its name, and the files in it."""
        found: tuple[int, str, list[File]] = 0, "", []
        files: list[File] = []
        sums: dict[str, str] = {}
        lines = whole_lines(self.path)
        head, _ = next(lines, ({}, 0))
        for line, end in lines if head | self.head == head else ():
            if line.get("status") == 0:
                files.append(file_of(line))
            if name := os.path.basename(line.get("sum", "")):
                sums[name] = sums.get(name) or digest(os.path.join(os.path.dirname(self.out), name))
                if sums[name] == line["sha256"]:
                    found = end, name, list(files)
        return found

    # ## What is written

    def begin(self) -> None:
        """A manifest of nothing yet."""
        self.file = open(self.path, "wb")
        self.line({**self.head, "host": socket.gethostname(), "process": os.getpid(), "began": now()})

    def line(self, words: dict[str, Any]) -> None:
        """Writes a line."""
        assert self.file is not None
        self.file.write(json.dumps(words).encode("ascii") + b"\n")
        self.file.flush()

    def sum(self, report: Report | None, files: dict[int, File], path: str) -> None:
        """Writes the lines of all files that have none, and the sum at a path."""
        self.lock.check()
        for place in sorted(files.keys() - self.written):
            self.line(line_of(files[place]))
        self.written |= files.keys()
        self.added = sum(file.is_added for file in files.values())
        if report is not None:
            with whole_path(path) as temporary:
                told = written(report, temporary)
                self.line({"sum": os.path.basename(path), "sha256": told, "added": self.added, "at": now()})

    def left_out(self, host: str, why: str) -> None:
        """Writes that a host could not count."""
        self.lock.check()
        self.line({"host": host, "left_out": why})

    def end(self, report: Report | None, files: dict[int, File]) -> None:
        """Writes the sum where it belongs."""
        self.sum(report, files, self.out)
        with contextlib.suppress(FileNotFoundError):
            os.unlink(self.part)

    def close(self) -> None:
        """Takes the lock off."""
        try:
            if self.file is not None:
                self.file.close()  # which fails where the disk was full
        finally:
            self.lock.close()


def written(report: Report, path: str) -> str:
    """Writes the text of a report, and gives its sha256."""
    told = hashlib.sha256()
    with open(path, "wb") as out:
        for piece in report_lines(report):
            out.write(piece)
            told.update(piece)
        out.flush()
        os.fsync(out.fileno())
    return told.hexdigest()


def whole_lines(path: str) -> Iterator[tuple[dict[str, Any], int]]:
    """The lines and where each ends, up to one that is no whole line."""
    at = 0
    with open(path, "rb") as lines:
        for line in lines:
            at += len(line)
            try:
                words = json.loads(line)
            except ValueError:
                return
            if not line.endswith(b"\n") or not isinstance(words, dict):
                return
            yield words, at


def digest(path: str) -> str:
    """The sha256 of a file, or nothing where there is none."""
    try:
        with open(path, "rb") as file:
            return hashlib.file_digest(file, "sha256").hexdigest()
    except OSError:
        return "-"


def as_it_was(file: File) -> bool:
    """Whether a file has the size and the time that it had when it was counted."""
    try:
        seen = os.stat(file.path)
    except OSError:
        return False
    return (seen.st_size, seen.st_mtime_ns) == (file.size, file.modified)
