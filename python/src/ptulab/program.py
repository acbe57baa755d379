"""Runs of the program ``ptu``, whose counts are proved. What it refuses is an exception here."""

import logging
import os
import subprocess
import tempfile
import threading
from collections.abc import Callable, Iterator
from contextlib import ExitStack, contextmanager
from typing import IO, Any

from ._documents import PlanLike, plan_path, read_plan
from ._refusals import meaning_of
from .errors import BadPlanError, BadReportError, RefusalError, UnlikeError
from ._found import find_program
from ._optional import want
from .headers import other_records
from .report import Report, read_stream

__all__ = ["find_program", "refusal", "run"]

LOG = logging.getLogger(__name__)
LOOKS = 0.1  # seconds between two looks at how far the program is


def run(
    plan: PlanLike,
    file: str | os.PathLike[str],
    *,
    program: str | os.PathLike[str] | None = None,
    progress: bool = False,
    whole: Report | None = None,
) -> Report:
    """The report of ``ptu run PLAN FILE``, whose tables know their groups by the plan: a path, a text, bytes or a ``Plan``.

    With ``progress`` tqdm shows a bar of the bytes of the file that the program has read. The report is read while it
    is printed, so the memory is that of its tables. With ``whole``, a report of the same plan, it is added into the
    arrays of that one once it is whole, and the sum is given; a file that is refused and what is ``UnlikeError`` it, as a plan
    of other tables or a file of another record type or tick, leave it as it is. Raises ``RefusalError`` where the program ends
    with another status than 0, with its line and its meaning; ``NoProgramError``; and ``MissingLibraryError`` where a bar is wanted and tqdm
    isn't there. A file that may have been cut, by the number of records in its header, is logged as a warning.
    """
    report = report_of(plan, file, program, progress)
    if odd := other_records(report.head.announced, report.head.records):
        LOG.warning("%s: %s", file, odd)
    if whole is None:
        return report
    whole += report
    return whole


def report_of(plan: PlanLike, file: str | os.PathLike[str], program: str | os.PathLike[str] | None, progress: bool = False) -> Report:
    """The report of ``run``, where what is odd about the file is told otherwise."""
    named = find_program(program)
    bar = want("tqdm", "the progress of a run").tqdm if progress else None
    with plan_path(plan, file) as path:
        report = _counted([named, "run", path, os.fspath(file)], _document(path), bar)
    if not isinstance(report, Report):
        raise report
    return report


def _counted(words: list[str], document: dict[str, Any] | None, bar: Callable[..., Any] | None) -> Report | BadReportError | UnlikeError:
    """The report that the program prints."""
    with tempfile.TemporaryFile() as told:
        with _called(words) as called, subprocess.Popen(**called, stdout=subprocess.PIPE, stderr=told) as child, _shown(bar, child, words[-1]):
            try:
                report = _read(child.stdout, document)
            except BaseException:
                child.kill()
                child.wait()  # which an interrupt would cut short
                raise
        told.seek(0)
        if child.returncode != 0:
            raise refusal(child.returncode, told.read().decode(errors="replace").strip())
    return report


@contextmanager
def _called(words: list[str]) -> Iterator[dict[str, Any]]:
    """How the program is called, which takes UTF-8 alone: a file by another name is opened, and goes as a descriptor."""
    odd = [word for word in words if os.fsencode(word).decode("utf-8", "ignore") != os.fsdecode(word)]
    with ExitStack() as ends:
        opened = {word: ends.enter_context(open(word, "rb")).fileno() for word in odd}
        yield {"args": [f"/dev/fd/{opened[word]}" if word in opened else word for word in words], "pass_fds": tuple(opened.values())}


def refusal(status: int, line: str) -> RefusalError:
    """What the program says by a status and a line: the words of the rule of a plan that is broken (status 8), and
    else when it ends so, as docs/plan.md and docs/formats.md have them."""
    return RefusalError(status, line, meaning_of(status, line))


def _document(path: str) -> dict[str, Any] | None:
    """The plan, where it can be read twice; what is wrong with it is for the program to say."""
    try:
        return read_plan(path) if os.path.isfile(path) else None
    except (OSError, BadPlanError):
        return None


def _read(stream: IO[bytes] | None, document: dict[str, Any] | None) -> Report | BadReportError | UnlikeError:
    """The report, or what is wrong with it: of a run that was refused there is none, or a part."""
    assert stream is not None
    try:
        return read_stream(stream, document)
    except (BadReportError, UnlikeError) as error:
        while stream.read(1 << 16):
            pass
        return error


@contextmanager
def _shown(bar: Callable[..., Any] | None, child: subprocess.Popen[bytes], path: str) -> Iterator[None]:
    """A bar of the bytes that were read, by the position of the file in the child, as long as it runs."""
    if bar is None:
        yield
        return
    whole = os.path.getsize(path) if os.path.isfile(path) else None
    ended = threading.Event()
    with bar(total=whole, unit="B", unit_scale=True, desc=os.path.basename(path)) as shown:

        def look() -> None:
            while not ended.wait(LOOKS):
                shown.update(max(0, _position(child.pid, path) - shown.n))

        looking = threading.Thread(target=look, daemon=True)
        looking.start()
        try:
            yield
            if child.wait() == 0 and whole is not None:
                ended.set()
                looking.join()
                shown.update(whole - shown.n)
        finally:
            ended.set()
            looking.join()


def _position(process: int, path: str) -> int:
    """How far a process has read the file at a path, or 0 where the system doesn't tell (Linux does)."""
    read = 0
    try:
        for number in os.listdir(f"/proc/{process}/fd"):
            if os.path.samefile(f"/proc/{process}/fd/{number}", path):
                with open(f"/proc/{process}/fdinfo/{number}", encoding="ascii") as lines:
                    read = max(read, int(lines.readline().split()[1]))
    except (OSError, ValueError, IndexError):
        pass
    return read
