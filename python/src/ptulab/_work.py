"""What one process does that counts: it checks itself, and counts files one after the other, each by a run of its own.

The plan and the program come as bytes, and a run gets them from files that only it sees.
"""

from __future__ import annotations

import errno
import functools
import hashlib
import os
import re
import shutil
import socket
import stat
import subprocess
import sys
import tempfile
import threading
import time
from collections.abc import Callable, Iterator, Sequence
from contextlib import contextmanager, suppress
from dataclasses import dataclass, field, replace
from pathlib import Path

from ._documents import read_plan
from ._parts import File, Kind, Part, left_as_other, with_report
from .errors import BadPlanError, BadReportError, PtulabError, RefusalError, UnlikeError
from .program import _read, refusal
from .report import Report, read_stream

LOOKS = 0.1  # seconds between two looks at whether a run is still wanted
OF_PLAN = (6, 7, 8)  # statuses by which the program refuses a plan
OF_FILE = (*range(9, 22), 24)  # those by which it refuses a file; by all others the machine failed
WAIT_BEFORE_EXEC = 60  # seconds that the check of a program may take
GONE = "it was changed while it was counted"
REFUSED = re.compile(rb"refused (\d+) ([^\n]*)\n")  # what may stand in the place of a report of a file that was refused

Stopped = Callable[[], bool]


class NotWantedError(PtulabError):
    """Nobody waits for this any more."""


class HostError(PtulabError):
    """This process can't count: something that it needs isn't here."""


def sha256(content: bytes) -> str:
    """In hexadecimal digits."""
    return hashlib.sha256(content).hexdigest()


@functools.cache
def version() -> str:
    """The version of this package, and the first digits of the sha256 of its sources: what is the same works alike."""
    from importlib import metadata  # which most processes don't need

    told = hashlib.sha256()
    for path in sorted(Path(__file__).parent.glob("*.py")):
        told.update(path.read_bytes())
    try:
        return f"{metadata.version('ptulab')} ({told.hexdigest()[:12]})"
    except metadata.PackageNotFoundError:
        return f"of a checkout ({told.hexdigest()[:12]})"


@dataclass(frozen=True)
class Work:
    """What is asked of each file: to count it by a plan and a program, or without a program to read a report.

    ``megabytes`` are those of the arrays of one report, and of a run of the program.
    """

    plan: bytes | None
    program: str = ""  # its sha256
    megabytes: int = 0
    version: str = field(default_factory=version)
    guarded: bool = False  # a run ends when this process is killed

    @functools.cached_property
    def document(self) -> dict[str, object] | None:
        """The plan; one that is bad is for the program to refuse."""
        try:
            return None if self.plan is None else read_plan(self.plan)
        except BadPlanError:
            if self.program:
                return None
            raise

    def need(self) -> int:
        """MiB that one needs who counts: three reports, and a run of the program."""
        return 4 * self.megabytes


# ## Files that only this process sees


_contents: dict[str, int | str] = {}  # by sha256: a descriptor, or where there are none of this kind a path


def keep(content: bytes) -> str:
    """Keeps some bytes as a file that can be run; gives their sha256."""
    name = sha256(content)
    if name not in _contents:
        if hasattr(os, "memfd_create"):
            descriptor = os.memfd_create("ptulab")
            with open(descriptor, "wb", closefd=False) as out:
                out.write(content)
            _contents[name] = descriptor
        else:
            descriptor, path = tempfile.mkstemp(prefix="ptulab-")
            with open(descriptor, "wb") as out:
                out.write(content)
            os.chmod(path, 0o700)
            _contents[name] = path
    return name


def path_of(name: str, passed: list[int]) -> str:
    """A path for a child to such a file; a descriptor is added to those that it gets."""
    try:
        kept = _contents[name]
    except KeyError:
        raise HostError("the process was started anew") from None
    if isinstance(kept, str):
        return kept
    passed.append(kept)
    return f"/proc/self/fd/{kept}"


# ## Whether this process can count


def check(work: Work, program: bytes | None, room: int | None) -> str:
    """The name of this host, once it is known that it can do this work in ``room`` MiB.

    Raises ``HostError`` where it can't.
    """
    if version() != work.version:
        raise HostError(f"it has ptulab {version()}, not {work.version}")
    if room is not None and work.need() > room:
        raise HostError(f"the work takes {work.need()} MiB of memory, and {room} are free")
    if program is not None:
        if keep(program) != work.program:
            raise HostError("the program came with other bytes")
        _try(work.program)
    return socket.gethostname()


def _try(name: str) -> None:
    """Runs the program without words, which it refuses with status 1."""
    passed: list[int] = []
    words = [path_of(name, passed)]
    try:
        run = subprocess.run(words, pass_fds=passed, capture_output=True, timeout=WAIT_BEFORE_EXEC, stdin=subprocess.DEVNULL, check=False)
    except (OSError, subprocess.TimeoutExpired) as error:
        raise HostError(f"the program can't be run: {error}") from None
    if run.returncode != 1 or not run.stderr.startswith(b"ptu: "):
        said = run.stderr.decode(errors="replace").strip()[:200]
        raise HostError(f"the program ends with status {run.returncode} {said}".strip())


def free_megabytes() -> int | None:
    """MiB of memory that are free for this process, by the machine and its control group; None where nothing tells."""
    found = []
    with suppress(OSError, ValueError), open("/proc/meminfo", encoding="ascii") as lines:
        found += [int(line.split()[1]) >> 10 for line in lines if line.startswith("MemAvailable:")]
    with suppress(OSError, ValueError, IndexError):
        with open("/proc/self/cgroup", encoding="ascii") as lines:
            group = "/sys/fs/cgroup" + [line for line in lines if line.startswith("0::")][0].strip()[3:]
        limit, used = (open(f"{group}/memory.{word}", encoding="ascii").read() for word in ("max", "current"))
        found.append((int(limit) - int(used)) >> 20)
    return min(found, default=None)


# ## One file


@contextmanager
def opened(path: str) -> Iterator[int]:
    """A descriptor of a regular file. Raises ``OSError``, at once for a pipe, a folder or a device too."""
    descriptor = os.open(path, os.O_RDONLY | getattr(os, "O_NONBLOCK", 0) | getattr(os, "O_CLOEXEC", 0) | getattr(os, "O_BINARY", 0))
    try:
        if not stat.S_ISREG(os.fstat(descriptor).st_mode):
            raise OSError(errno.EINVAL, "it is no regular file", path)
        yield descriptor
    finally:
        os.close(descriptor)


def content_of(path: str | os.PathLike[str], most: int = -1) -> bytes:
    """The bytes of a regular file, or so many of them."""
    with opened(os.fspath(path)) as descriptor, open(descriptor, "rb", closefd=False) as file:
        return file.read(most)


def _looks_of(descriptor: int) -> tuple[int, int]:
    seen = os.fstat(descriptor)
    return seen.st_size, seen.st_mtime_ns


def one_file(work: Work, path: str, child_of: list[subprocess.Popen[bytes]]) -> tuple[File, Report | None]:
    """The report of one file, or why there is none."""
    began, file = time.monotonic(), File(path, host=socket.gethostname())
    report = None
    try:
        with opened(path) as descriptor:
            size, modified = looks = _looks_of(descriptor)
            file = replace(file, size=size, modified=modified)
            found = _run(work, descriptor, child_of) if work.program else _stored(work, descriptor)
            if _looks_of(descriptor) != looks:
                file = replace(file, why=GONE, again=True)
            elif isinstance(found, Report):
                file, report = with_report(file, found), found
            else:
                file = _left(file, found)
    except OSError as error:
        file = replace(file, why=error.strerror or str(error), again=error.errno != errno.EINVAL)
    except MemoryError:
        file = replace(file, why="out of memory", again=True)
    return replace(file, seconds=round(time.monotonic() - began, 6)), report


def _left(file: File, error: PtulabError) -> File:
    if isinstance(error, RefusalError):
        line = error.line.removeprefix("ptu: ") or error.meaning
        return replace(file, status=error.status, why=line, again=error.status not in (*OF_FILE, *OF_PLAN))
    return replace(file, why=str(error))


def _run(work: Work, descriptor: int, child_of: list[subprocess.Popen[bytes]]) -> Report | PtulabError:
    """A run of the program over an open file."""
    passed = [descriptor]
    words = [path_of(work.program, passed), "run", path_of(keep(work.plan or b""), passed), _again(descriptor)]
    if work.guarded:
        words = [*guard(), *words]
    with tempfile.TemporaryFile() as told:
        more = {"stdout": subprocess.PIPE, "stderr": told, "stdin": subprocess.DEVNULL}
        with subprocess.Popen(words, pass_fds=passed, **more) as child:  # type: ignore[call-overload]
            child_of[:] = [child]
            try:
                report: Report | PtulabError = _read(child.stdout, work.document)
            except BaseException:
                child.kill()
                child.wait()  # which an interrupt would cut short
                raise
            finally:
                child_of.clear()
        told.seek(0)
        if child.returncode != 0:
            return refusal(child.returncode, told.read(4096).decode(errors="replace").strip())
    return report


def _again(descriptor: int) -> str:
    return f"/proc/self/fd/{descriptor}" if sys.platform == "linux" else f"/dev/fd/{descriptor}"


@functools.cache
def guard() -> tuple[str, ...]:
    """Words before a command by which the system ends it when this process is killed, or none where it can't (util-linux)."""
    words = (shutil.which("setpriv") or "", "--pdeathsig", "KILL")
    good = words[0] and subprocess.run([*words, "true"], capture_output=True, check=False).returncode == 0
    return words if good else ()


def _stored(work: Work, descriptor: int) -> Report | PtulabError:
    """A report on disk, or the line of a refusal that stands in its place."""
    with open(descriptor, "rb", closefd=False) as source:
        if refused := REFUSED.fullmatch(source.read(4096)):
            return RefusalError(int(refused[1]), refused[2].decode(errors="replace"), "")
        source.seek(0)
        try:
            return read_stream(source, work.document)
        except (BadReportError, UnlikeError) as error:
            return error


# ## Several files


@contextmanager
def _watched(stopped: Stopped | None) -> Iterator[list[subprocess.Popen[bytes]]]:
    """A place for the child that runs, which is killed when nobody waits for it any more."""
    running: list[subprocess.Popen[bytes]] = []
    if stopped is None:
        yield running
        return
    ended = threading.Event()
    watching = threading.Thread(target=_look, args=(ended, stopped, running), daemon=True)
    watching.start()
    try:
        yield running
    finally:
        ended.set()
        watching.join()


def _look(ended: threading.Event, stopped: Stopped, running: list[subprocess.Popen[bytes]]) -> None:
    """Looks whether a run is wanted, until it has ended."""
    while not ended.wait(LOOKS):
        if stopped():
            for child in running[:]:
                child.kill()


def count(work: Work, part: Part, files: Sequence[tuple[int, str]], kind: Kind | None, stopped: Stopped | None = None) -> Part:
    """Counts files into a part, and gives what came of these.

    With a ``kind`` only files of this kind are added. Raises ``NotWantedError`` once ``stopped`` says so.
    """
    latest = Part()
    if kind is not None:
        part.only(kind)
    with _watched(stopped) as running:
        for place, path in files:
            file, report = one_file(work, path, running)
            if stopped is not None and stopped():
                raise NotWantedError("nobody waits for it")
            if kind is not None and file.kind not in (None, kind):
                file, report = left_as_other(file, kind), None
            latest.files[place] = file
            if not file.again:
                part.add(place, file, report)
            del report  # before the next one comes
    return latest
