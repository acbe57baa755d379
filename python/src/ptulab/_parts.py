"""Sums over some of the files, and what came of each file: what goes between those who count and the one who asks."""

from __future__ import annotations

from collections.abc import Iterable
from dataclasses import dataclass, field, replace

from .headers import other_records
from .report import Report, first_lines, sum_reports
from .tables import Measurement
from .texts import summed_head

Kind = tuple[str, str, str, str]  # record type, seconds of a tick and of a dtime's, and tables: what is alike adds up


@dataclass(frozen=True)
class File:
    """What came of one file, a line of a manifest: it was added where ``status`` is 0, else ``why`` says why not."""

    path: str
    status: int | None = None  # the program's, None where it isn't the program that refused the file
    why: str = ""
    host: str = ""  # that counted it, or those that tried
    size: int | None = None  # bytes
    modified: int | None = None  # nanoseconds since 1970
    seconds: float | None = None
    announced: int | None = None
    records: int | None = None
    photons: int | None = None
    length: int | None = None  # from the first event to the last, in ticks of T2, in sync periods of T3
    groups: tuple[tuple[int, ...] | None, ...] = ()  # for each table the photons of its groups, where the plan told them
    kind: Kind | None = field(default=None, compare=False)  # of its report
    again: bool = field(default=False, compare=False)  # another host may be able to

    @property
    def is_added(self) -> bool:
        """Whether its counts are in the sum."""
        return self.status == 0

    @property
    def odd(self) -> str:
        """Words on one that was added, but has another number of records than its header announces."""
        return other_records(self.announced, self.records) if self.is_added and self.records is not None else ""


def with_report(file: File, report: Report) -> File:
    """The file with what its report tells."""
    head = report.head
    length = None if head.first is None or head.last is None else head.last - head.first
    groups = tuple(table.photons for table in report.tables)
    more = {"announced": head.announced, "records": head.records, "photons": head.photons}
    return replace(file, status=0, why="", length=length, groups=groups, kind=kind_of(report), **more)


def measured(report: Report, files: Iterable[File]) -> Report:
    """The report of a sum, read from disk, whose tables know each measurement again."""
    for place, table in enumerate(report.tables):
        table.measurements = tuple(Measurement(one.length, one.groups[place] if one.groups else None) for one in files)
    return report


def kind_of(report: Report) -> Kind:
    """What must be the same for reports to be added."""
    head = report.head
    return head.record_type, repr(head.global_seconds), repr(head.resolution_seconds), repr(first_lines(report))


def other_kind(kind: Kind, wanted: Kind) -> str:
    """Why a report of one kind can't be added to another."""
    both = zip(("type", "global", "resolution"), kind, wanted)
    return "; ".join(f"{word} {one}, not {other}" for word, one, other in both if one != other) or "other tables"


def left_as_other(file: File, wanted: Kind) -> File:
    """A file that was counted, but is of another kind."""
    return replace(file, status=None, why=other_kind(file.kind or wanted, wanted), kind=None)


@dataclass
class Part:
    """For each kind of file the sum, and the places of the files in it; and what came of these and of those left.

    A report is added once it is whole and known to suit, so no sum ever has a piece of one.
    """

    sums: dict[Kind, tuple[Report, list[int]]] = field(default_factory=dict)
    files: dict[int, File] = field(default_factory=dict)

    def take(self, other: Part) -> None:
        """Adds another one, in the arrays of this one."""
        for kind, (report, places) in other.sums.items():
            if kind in self.sums:
                together, before = self.sums[kind]
                together += report
                self.sums[kind] = together, before + places
            else:
                self.sums[kind] = Report(summed_head(report.head), report.tables), places
        self.files |= other.files

    def copy(self) -> Part:
        """The same in arrays of its own."""
        sums = {kind: (sum_reports([report]), list(places)) for kind, (report, places) in self.sums.items()}
        return Part(sums, dict(self.files))

    def add(self, place: int, file: File, report: Report | None = None) -> None:
        """Adds a file, by its report where it has one."""
        self.take(Part({kind_of(report): (report, [place])} if report is not None else {}, {place: file}))

    def only(self, wanted: Kind) -> None:
        """Keeps the sum of one kind; the files of the others are left."""
        for kind in [kind for kind in self.sums if kind != wanted]:
            for place in self.sums.pop(kind)[1]:
                self.files[place] = left_as_other(self.files[place], wanted)

    def __sizeof__(self) -> int:
        """The memory of its counts, which dask asks for."""
        return sum(int(table.counts.nbytes) for report, _ in self.sums.values() for table in report.tables)


def added(one: Part, other: Part) -> Part:
    """The sum of two, which both stay as they are."""
    whole = one.copy()
    whole.take(other)
    return whole

