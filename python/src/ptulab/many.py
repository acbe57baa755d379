"""Many files by one plan: on one machine by processes, on several by dask, and sums of reports on disk.

A file that is refused never spoils the sum: it is listed, and the rest is added. Every line of a table is a count, so
the sum is the same, to the last photon, however the files are shared out. docs/many.md tells how it goes on clusters;
jobs of a queue are Snakemake's: ``examples/Snakefile`` and ``examples/slurm``.
"""

from __future__ import annotations

import os
from collections.abc import Callable, Iterable, Sequence
from contextlib import ExitStack, suppress
from dataclasses import dataclass
from typing import Any, NamedTuple

from ._documents import LONGEST, PlanLike, is_path, name_of, plan_bytes, read_plan
from ._made_plans import Plan, Ticked
from ._hand_out import Engine, HandOut
from ._manifest import Manifest
from ._optional import want
from ._parts import File, Part
from ._plan_rules import broken_rules
from ._processes import Here, Processes, processors
from ._progress import Progress
from ._work import Work, check, content_of, sha256
from .errors import BadPlanError, PtulabError
from .headers import read_header
from .program import find_program
from .report import Report, read_head

__all__ = ["LeftFile", "SummedFiles", "count_files", "megabytes_of", "sum_files"]

PathLike = str | os.PathLike[str]


@dataclass(frozen=True, order=True)
class LeftFile:
    """A file that isn't in a sum, and why: ``status`` is the program's, None where it isn't the program that says so, and
    ``host`` the host that says so, or those that tried."""

    path: str
    status: int | None
    why: str
    host: str = ""


@dataclass(frozen=True)
class SummedFiles:
    """A sum over files: ``report`` is None where none could be added. ``added`` and ``left`` are in the order of the files.

    Reports of other record types, seconds of a tick or tables than those of the first file that can be added are left too,
    since they don't add up. ``odd`` has those of ``added`` that have another number of records than their headers announce,
    and says so: they may be cut.
    ``left_out`` has the hosts and workers that could not count, and why. ``plan`` and ``program`` are the sha256 of what all
    was counted by, empty where there was none.
    """

    report: Report | None
    added: tuple[str, ...]
    left: tuple[LeftFile, ...]
    odd: tuple[tuple[str, str], ...] = ()
    left_out: tuple[tuple[str, str], ...] = ()
    plan: str = ""
    program: str = ""

    def to_pandas(self) -> Any:
        """All files as a ``pandas.DataFrame``: ``path``, whether it is ``added``, and ``why`` it is left or odd. Raises
        ``MissingLibraryError`` without pandas."""
        odd = dict(self.odd)
        lines = [{"path": path, "added": True, "why": odd.get(path, "")} for path in self.added]
        lines += [{"path": one.path, "added": False, "why": one.why} for one in self.left]
        return want("pandas", "files as a list").DataFrame(lines, columns=["path", "added", "why"])


def count_files(
    plan: PlanLike,
    files: Iterable[PathLike],
    *,
    program: PathLike | None = None,
    processes: int | None = None,
    client: Any = None,
    progress: bool = False,
    out: PathLike | None = None,
    patience: float = 120.0,
) -> SummedFiles:
    """Counts files by one plan and adds up their reports: ``SummedFiles`` with the report, the files in it, and those left.

    Plan and program are read once, and go as bytes to all who count; the times of a ``Plan`` become ticks by the header of
    the first file that has one. ``processes`` is how many run side by side, by
    default one for each processor that this process may use. With a ``client`` of dask.distributed its workers count: the
    files must be seen by them under the same paths. A file that one host can't open or read is tried on others, and one
    whose process or worker is lost is tried again, by itself; after three tries it is left. ``progress`` shows files and
    bytes: a bar on a terminal, else a line every ten seconds on standard error. Where nobody counts for ``patience``
    seconds, all that is missing is left.

    With ``out`` the sum is written there, and beside it ``OUT.jsonl``, the manifest: a line for each file. From these a run
    goes on where it was ended, or counts only the files that are new: where plan and program are the same, and the files of
    the sum are as they were. While it runs, ``OUT.lock`` says so.

    Raises ``RefusalError`` where the plan is refused, ``NoProgramError``, ``MissingLibraryError``, ``OSError`` where plan or program can't be
    read or the sum can't be written, and ``PtulabError`` where another run makes it, or this machine can't count.
    """
    files = list(files)
    these = _content(plan, read_header, files), content_of(find_program(program))
    work = Work(these[0], sha256(these[1]), _megabytes_or_none(these[0]), guarded=client is not None)
    paths = [os.path.abspath(file) for file in files]

    def engine() -> Engine:
        if client is not None:
            return _by_dask(work, these[1], client, patience)
        check(work, these[1], None)
        return Processes(work, these[1], max(1, min(processes or processors(), len(paths))))

    return _made(work, paths, engine, _Wishes(progress, out, patience))


def sum_files(
    reports: Iterable[PathLike],
    plan: PlanLike | None = None,
    *,
    processes: int = 1,
    client: Any = None,
    progress: bool = False,
    out: PathLike | None = None,
    patience: float = 120.0,
) -> SummedFiles:
    """Adds up reports on disk as ``count_files`` adds up files, by default in this process, one at a time.

    In the place of a report a line ``refused STATUS LINE`` may stand. Such a file is left, and so are one that can't be
    read, a text that is no whole report, and a report of other tables than those of the first or of the plan. Raises
    ``BadPlanError`` for a plan that is no TOML, and what ``count_files`` raises.
    """
    text, reports = None, list(reports)
    if plan is not None:
        read_plan(text := _content(plan, read_head, reports))
    work = Work(text, megabytes=_megabytes_or_none(text or b""), guarded=client is not None)
    paths = [os.path.abspath(report) for report in reports]

    def engine() -> Engine:
        if client is not None:
            return _by_dask(work, None, client, patience)
        if processes == 1:
            return Here(work, None)
        return Processes(work, None, max(1, min(processes, len(paths))))

    return _made(work, paths, engine, _Wishes(progress, out, patience))


def _content(plan: PlanLike, read: Callable[[PathLike], Ticked], paths: Iterable[PathLike]) -> bytes:
    """The bytes of a plan, where a pipe is not waited for; the times of a ``Plan`` by the first of some files that tells ticks."""
    if is_path(plan):
        return content_of(name_of(plan), LONGEST + 1)
    for path in paths if isinstance(plan, Plan) else ():
        with suppress(PtulabError, OSError):
            return plan_bytes(plan, read(path))
    return plan_bytes(plan)


def _by_dask(work: Work, program: bytes | None, client: Any, patience: float) -> Engine:
    from ._dask import Dask  # and asyncio with it

    return Dask(work, program, client, patience)


class _Wishes(NamedTuple):
    """What is the same of counts and sums, as ``count_files`` tells."""

    progress: bool
    out: PathLike | None
    patience: float


def _made(work: Work, paths: Sequence[str], engine_of: Callable[[], Engine], wishes: _Wishes) -> SummedFiles:
    """The sum by an engine, which is closed however it ends."""
    plan = sha256(work.plan) if work.plan is not None else ""
    with ExitStack() as ends:
        manifest, whole, kind = None, Part(), None
        if wishes.out is not None:
            manifest = Manifest(wishes.out, {"ptulab": work.version, "plan": plan, "program": work.program})
            ends.callback(manifest.close)
            whole, kind = manifest.before(paths)
        shown = Progress(paths, wishes.progress)
        ends.callback(shown.close)
        for file in whole.files.values():
            shown.settled(file)
        if len(whole.files) < len(paths):
            engine = engine_of()
            ends.callback(engine.close)
            by = HandOut(engine, paths, whole, kind, manifest)
            by.shown, by.patience = shown, wishes.patience
            by.run()
            left_out = tuple(by.left_out.items())
        else:
            left_out = ()
        found = _sum_of(whole, paths, left_out, plan, work.program)
        if manifest is not None:
            manifest.end(found.report, whole.files)
    return found


def _sum_of(whole: Part, paths: Sequence[str], left_out: tuple[tuple[str, str], ...], plan: str, program: str) -> SummedFiles:
    """A sum of one kind, and the files that aren't in it."""
    files: list[File] = [whole.files[place] for place in range(len(paths))]
    report = next((report for report, _ in whole.sums.values()), None)
    left = tuple(LeftFile(file.path, file.status, file.why, file.host) for file in files if not file.is_added)
    added = tuple(file.path for file in files if file.is_added)
    return SummedFiles(report, added, left, tuple((file.path, file.odd) for file in files if file.odd), left_out, plan, program)


def megabytes_of(plan: PlanLike, file: PathLike | None = None) -> int:
    """How many MiB a run of this plan takes at most, with something to spare: what to ask a queue for.

    By the entries of its tables (docs/run.md, "Memory"): 8 bytes for a count and 16 for one of pairs, and of what pairs keep
    24 bytes for each bin. The times of a ``Plan`` become ticks by ``file``. Raises ``BadPlanError`` for a plan that is no TOML,
    or breaks a rule.
    """
    return _megabytes(plan_bytes(plan, file), name_of(plan))


def _megabytes_or_none(plan: bytes) -> int:
    """The same, or 0 of a bad plan, which is for the program to say."""
    with suppress(BadPlanError):
        return _megabytes(plan, "")
    return 0


def _megabytes(plan: bytes, name: str) -> int:
    document = read_plan(plan)
    if found := broken_rules(document):
        raise BadPlanError(f"{name}: {found[0]}")
    size = 16 << 20
    for kind, entries in BYTES.items():
        size += sum(entries(table) for table in document.get(kind, []))
    return -(-size // (1 << 20))


BYTES: dict[str, Callable[[dict[str, int]], int]] = {
    "histogram": lambda table: 8 * table["bins"],
    "trace": lambda table: 8 * table["bins"],
    "startstop": lambda table: 8 * table["bins"],
    "coincidence": lambda table: 16 * (2 * table["reach"] // table["width"] + 1) + 24 * table["reach"],
    "image": lambda table: 8 * table["width"] * table["height"],
    "correlation": lambda table: 40 * table["lags"] * table["levels"],
    "cube": lambda table: 8 * table["width"] * table["height"] * table["dbins"],
    "fold": lambda table: (8 << len(table["groups"])) + 24 * table["window"],  # type: ignore[arg-type]
}

