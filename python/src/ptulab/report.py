"""Reports of ``ptu run`` and ``ptu demo`` as arrays, and their sums. docs/report.md tells what each line says.

Counts are proved by the program; that they are read as they stand is tested.
"""

import io
import os
import re
import struct
from collections.abc import Iterable, Iterator, Sequence
from dataclasses import dataclass, replace
from typing import IO, Any

import numpy as np
from numpy.typing import NDArray

from ._digits import whole_numbers
from ._documents import PlanLike, read_plan
from ._made_plans import Plan
from ._plan_rules import MOST
from .errors import BadReportError, NoTableError, PlanUnlikeError, UnlikeError
from .headers import RECORD_TYPES
from ._scratch import keep_scratch
from ._values import Compared
from .tables import BY_DTIME, KINDS, Measurement, Table, empty_table, names_of_groups

__all__ = ["Head", "Report", "ReportLike", "read_report", "sum_reports"]

ReportLike = str | os.PathLike[str] | bytes
HEAD = ("type", "announced", "global", "resolution", "records", "photons", "markers", "wraps", "reserved", "late", "first", "last")
FIELDS = {"type": "record_type", "global": "global_seconds", "resolution": "resolution_seconds"}  # of a Head
ADDED = ("announced", "records", "photons", "markers", "wraps", "reserved", "late")
OR_NONE = ("announced", "global", "resolution", "first", "last")  # may be -
ORDER = tuple(KINDS)  # of the tables of a report
HEAD_LINE = re.compile(rb"([a-z]+) ([!-~]+)\n")
NUMBER = re.compile(r"[0-9]{1,39}")  # a count of pairs can have 128 bits
LONGEST_LINE = 1 << 10  # bytes, more than any line of a report has
PIECE = 1 << 16  # bytes of text that are read together, so that their arrays stay in the processor's cache
GREATEST = (1 << 63) - 1
OF_ONE_GROUP = ("histogram", "trace", "image", "cube")


@dataclass(frozen=True)
class Head:
    """The twelve lines on the file. ``head["global"]`` gives the same by the word of the line."""

    record_type: str  # one of the twelve names
    announced: int | None  # records, by the header
    global_seconds: float | None  # of a tick of T2, of a sync period of T3
    resolution_seconds: float | None  # of a tick of a T3 dtime
    records: int
    photons: int
    markers: int
    wraps: int
    reserved: int
    late: int
    first: int | None  # time of the first event, in ticks of T2, in sync periods of T3; None of a sum
    last: int | None

    @property
    def mode(self) -> str:
        """``"T2"`` or ``"T3"``."""
        return self.record_type[-2:]

    def __getitem__(self, word: str) -> Any:
        if word not in HEAD:
            raise KeyError(word)
        return getattr(self, FIELDS.get(word, word))

    def items(self) -> Iterator[tuple[str, Any]]:
        """The words of the lines with their values, in the order of the report."""
        return ((word, self[word]) for word in HEAD)


@dataclass(eq=False)
class Report(Compared):
    """What a run counted: the head and the tables, in the order of the report."""

    head: Head
    tables: tuple[Table, ...]

    def table(self, kind: str, number: int = 1) -> Table:
        """The table of this kind with this number, as its first line has them. Raises ``NoTableError`` where there is none."""
        for table in self.tables:
            if (table.kind, table.number) == (kind, number):
                return table
        raise NoTableError(f"the report has no {kind} {number}")

    def __add__(self, other: "Report") -> "Report":
        """The sum of two reports, as ``sum_reports`` makes it."""
        if not isinstance(other, Report):
            return NotImplemented
        return sum_reports([self, other])

    def __radd__(self, other: int) -> "Report":
        """So that ``sum`` adds up reports, which begins with 0."""
        if not isinstance(other, int) or other != 0:
            return NotImplemented
        return _copy(self)

    def __iadd__(self, other: "Report") -> "Report":
        """The same in the arrays of the first, without memory for a third."""
        return _added(self, other)


def read_report(source: ReportLike, plan: PlanLike | None = None) -> Report:
    """The report in the file at a path, or in the text of a report itself (bytes, or a text of more than one line).

    With its plan (a path, a text, bytes or a ``Plan``) the tables know their groups, and the photons of these, where the plan also has a
    histogram, a trace, an image or a cube of each. The text is read in pieces, so the memory is that of the tables.
    Raises ``BadReportError`` for a text that is no whole report, and ``PlanUnlikeError`` for a plan of other tables.
    """
    return read_stream(source, document_of(plan, source))


def document_of(plan: PlanLike | None, source: Report | ReportLike) -> dict[str, Any] | None:
    """The document of a plan, with the ticks of a report."""
    if not isinstance(plan, Plan):
        return None if plan is None else read_plan(plan)
    return read_plan(plan, source.head if isinstance(source, Report) else read_head(source))


def read_head(source: ReportLike) -> Head:
    """The head of the report at a path or in a text, without its tables. Raises ``BadReportError`` where there is none."""
    if isinstance(source, str) and "\n" in source:
        source = source.encode("utf-8")
    if isinstance(source, bytes):
        return _Reader(io.BytesIO(source), "", None, None).head()
    with open(source, "rb") as file:
        return _Reader(file, os.fspath(source), None, None).head()


def sum_reports(reports: Iterable[Report | ReportLike], plan: PlanLike | None = None) -> Report:
    """The sum of reports of one plan, each given as a report, a path or a text; at least one.

    Every line of a table is a count, so the counts of several files add up exactly. Paths and texts are read one at a
    time into the same arrays, so the memory is that of one; with ``plan`` their tables know their groups. In the sum
    ``announced`` is a number where each report has one, and ``first`` and ``last`` are None; correlations are
    normalised by what each measurement expects. Raises ``UnlikeError`` for a report of another record type, other seconds
    of a tick or other tables, and ``BadReportError``; there is no sum then.
    """
    whole: Report | None = None
    document = None if plan is None or isinstance(plan, Plan) else read_plan(plan)
    for one in reports:
        if document is None:
            document = document_of(plan, one)
        if isinstance(one, Report):
            whole = _copy(one) if whole is None else _added(whole, one)
        else:
            whole = read_stream(one, document, whole)
    if whole is None:
        raise ValueError("no report to add up")
    return whole


def read_stream(source: ReportLike | IO[bytes], plan: dict[str, Any] | None = None, whole: Report | None = None) -> Report:
    """A report from a path, a text or a stream, with the document of its plan, added into the arrays of ``whole`` where
    that is given."""
    if isinstance(source, str) and "\n" in source:
        source = source.encode("utf-8")
    if isinstance(source, bytes):
        return _Reader(io.BytesIO(source), "", plan, whole).report()
    if isinstance(source, str | os.PathLike):
        with open(source, "rb") as file:
            return _Reader(file, os.fspath(source), plan, whole).report()
    return _Reader(source, "", plan, whole).report()


def groups_of(plan: dict[str, Any], tables: Sequence[Table]) -> list[tuple[int, ...]]:
    """The groups of each table by the plan. Raises ``PlanUnlikeError`` where it has other tables than the report."""
    if any(len(plan.get(kind, ())) != sum(table.kind == kind for table in tables) for kind in KINDS):
        raise PlanUnlikeError("the plan has other tables than the report")
    groups = []
    for table in tables:
        told = plan[table.kind][table.number - 1]
        if any(told.get(word, 0) != value for word, value in table.settings.items() if word != "sets"):
            raise PlanUnlikeError(f"the plan has another {table.kind} {table.number} than the report")
        groups.append(names_of_groups(table.kind, told))
    return groups


def _copy(report: Report) -> Report:
    tables = (replace(table, counts=table.counts.copy(), rest=dict(table.rest)) for table in report.tables)
    return Report(report.head, tuple(tables))


def _added(whole: Report, report: Report) -> Report:
    """Adds a report to another one, in whose arrays the sums are then."""
    _alike(whole.head, report.head, "")
    if first_lines(whole) != first_lines(report):
        raise UnlikeError("other tables")
    for table, more in zip(whole.tables, report.tables):
        table.counts = _sum(table.counts, more.counts)
        table.rest = {word: count + more.rest[word] for word, count in table.rest.items()}
        table.measurements += more.measurements
    return Report(_head_of_sum(whole.head, report.head), whole.tables)


def first_lines(report: Report) -> list[tuple[str, int, dict[str, int]]]:
    """Kind, number and settings of each table, as its first line has them."""
    return [(table.kind, table.number, table.settings) for table in report.tables]


def _sum(counts: NDArray[Any], more: NDArray[Any]) -> NDArray[Any]:
    if counts.dtype == object or more.dtype == object or int(counts.max(initial=0)) + int(more.max(initial=0)) > GREATEST:
        return np.asarray(counts.astype(object) + more.astype(object))
    counts += more
    return counts


def _alike(whole: Head, head: Head, name: str) -> None:
    """Only reports of one record type and of the same seconds of a tick add up."""
    for word in ("type", "global", "resolution"):
        if repr(head[word]) != repr(whole[word]):
            raise UnlikeError(f"{name}{word} {head[word]}, not {whole[word]}")


def _head_of_sum(one: Head, other: Head) -> Head:
    def total(word: str) -> int | None:
        return None if one[word] is None or other[word] is None else one[word] + other[word]

    return replace(one, **{word: total(word) for word in ADDED}, first=None, last=None)


class _Reader:
    """Reads a report from a stream, piece by piece, as a report of its own or into the sum of those before it."""

    def __init__(self, file: IO[bytes], name: str, plan: dict[str, Any] | None, whole: Report | None) -> None:
        self.file, self.plan, self.whole = file, plan, whole
        self.name = f"{name}: " if name else ""
        self.line = 0  # lines that were read
        self.tables: list[Table] = []
        self.totals: list[int] = []  # of this report: all cells of each table and what is in none
        self.rest: dict[str, int] = {}  # of the last table
        self.beyond = -1  # the place of its last cell
        keep_scratch()

    def bad(self, why: str) -> BadReportError:
        return BadReportError(f"{self.name}line {self.line}: {why}" if self.line else self.name + why)

    def report(self) -> Report:
        """Reads all of it."""
        head = self.head()
        while piece := self.file.read(PIECE):
            self.piece(head, piece + self.file.readline(LONGEST_LINE))
        self.ended()
        if self.whole is not None and len(self.tables) != len(self.whole.tables):
            raise UnlikeError(f"{self.name}other tables")
        if head.photons or head.markers or self.plan is not None:  # nothing is told of a file without events
            self.measured(None if head.first is None or head.last is None else head.last - head.first)
        return Report(head if self.whole is None else _head_of_sum(self.whole.head, head), tuple(self.tables))

    def measured(self, length: int | None) -> None:
        """Tells the tables of this measurement, and by the plan their groups."""
        if self.plan is None:
            for table in self.tables:
                table.measurements += (Measurement(length, None),)
            return
        try:
            groups = groups_of(self.plan, self.tables)
        except (UnlikeError, KeyError, TypeError, AttributeError) as error:
            raise PlanUnlikeError(f"{self.name}{error}" if isinstance(error, UnlikeError) else f"{self.name}the plan is none of this report") from error
        photons = {
            these[0]: total for table, these, total in zip(self.tables, groups, self.totals) if table.kind in OF_ONE_GROUP
        }
        for table, these in zip(self.tables, groups):
            known = all(group in photons for group in these)
            table.groups = these
            table.measurements += (Measurement(length, tuple(photons[group] for group in these) if known else None),)

    def head(self) -> Head:
        """The twelve lines."""
        values = []
        for word in HEAD:
            found = HEAD_LINE.fullmatch(self.file.readline(LONGEST_LINE))
            if not found or found[1].decode() != word:
                self.line = 0
                raise self.bad("this is no report of ptu run")
            self.line += 1
            values.append(self.value(word, found[2].decode()))
        head = Head(*values)
        if self.whole is not None:
            _alike(self.whole.head, head, self.name)
        return head

    def value(self, word: str, text: str) -> Any:
        """What a line of the head tells."""
        try:
            if word == "type" and text in RECORD_TYPES.values():
                return text
            if text == "-" and word in OR_NONE:
                return None
            if word in ("global", "resolution"):
                return struct.unpack(">d", bytes.fromhex(text))[0]
            if NUMBER.fullmatch(text.removeprefix("-") if word == "announced" else text):
                return int(text)
        except (ValueError, struct.error):
            pass
        raise self.bad(f"{word} can't be {text!r}")

    def piece(self, head: Head, text: bytes) -> None:
        """Whole lines: of cells, and between them those that begin with a letter."""
        letters = np.frombuffer(text, dtype=np.uint8)
        at = 0
        if int(letters.max()) > 57:
            worded = np.flatnonzero(letters > 57)
            newlines = np.flatnonzero(letters == 10)
            for number in np.unique(np.searchsorted(newlines, worded)):
                begins = int(newlines[number - 1]) + 1 if number else 0
                ends = int(newlines[number]) + 1 if number < len(newlines) else len(text)
                self.cells(text[at:begins])
                self.words(head, text[begins:ends])
                at = ends
        self.cells(text[at:])

    def words(self, head: Head, line: bytes) -> None:
        """The first line of a table, or what is in no cell."""
        self.line += 1
        words = line.decode("ascii", errors="replace").removesuffix("\n").split(" ")
        if not line.endswith(b"\n"):
            raise self.bad("the report is cut")
        if words[0] in KINDS and len(words) > 2:
            self.ended()
            self.tables.append(self.table(head, words))
            self.totals.append(0)
            self.rest, self.beyond = {}, -1
            return
        told = KINDS[self.tables[-1].kind].rest if self.tables else ()
        if len(self.rest) >= len(told) or len(words) != 2 or words[0] != told[len(self.rest)] or not NUMBER.fullmatch(words[1]):
            raise self.bad(f"{words[0]!r} has no place here")
        self.rest[words[0]] = int(words[1])
        self.totals[-1] += int(words[1])

    def table(self, head: Head, words: list[str]) -> Table:
        """A new table without cells, or that of the sum."""
        kind = KINDS[words[0]]
        if tuple(words[2::2]) != kind.settings or not all(map(NUMBER.fullmatch, words[1::2])):
            raise self.bad(f"no beginning of a {words[0]}")
        number, *values = map(int, words[1::2])
        if not self.follows(words[0], number):
            raise self.bad(f"{words[0]} {number} has no place here")
        settings = dict(zip(kind.settings, values))
        if self.whole is None:
            try:
                return empty_table(words[0], number, settings, head.resolution_seconds if words[0] in BY_DTIME else head.global_seconds)
            except BadReportError as error:
                raise self.bad(str(error)) from None
        more = self.whole.tables[len(self.tables) : len(self.tables) + 1]
        if [(one.kind, one.number, one.settings) for one in more] != [(words[0], number, settings)]:
            raise UnlikeError(f"{self.name}other tables")
        return more[0]

    def follows(self, kind: str, number: int) -> bool:
        """Whether a table comes in its place: kinds in their order, those of a kind by their numbers, not more than a plan may have."""
        before = self.tables[-1] if self.tables else None
        if before is not None and before.kind == kind:
            return number == before.number + 1 <= MOST[kind]
        return number == 1 and (before is None or ORDER.index(kind) > ORDER.index(before.kind))

    def ended(self) -> None:
        """A table has come to its end."""
        if not self.tables:
            return
        table = self.tables[-1]
        if tuple(self.rest) != KINDS[table.kind].rest:
            raise self.bad(f"the end of {table.kind} {table.number} is missing")
        table.rest = {word: count + table.rest.get(word, 0) for word, count in self.rest.items()}

    def cells(self, text: bytes) -> None:
        """Lines of cells of the table, each of which stands behind the one before."""
        if not text:
            return
        if not self.tables or self.rest:
            self.line += 1
            raise self.bad("a cell of no table")
        table = self.tables[-1]
        columns = KINDS[table.kind].columns
        lines = whole_numbers(text, columns)
        if lines is None:
            lines = self.long_numbers(text, columns)
        counts = lines[:, -1]
        places = KINDS[table.kind].place(table.settings, lines[:, :-1].astype(np.int64, copy=False))
        rises = places[0] > self.beyond and bool(np.all(places[1:] > places[:-1]))
        if not rises or places[-1] >= table.counts.size:
            right = (np.diff(places, prepend=self.beyond) > 0) & (places >= 0) & (places < table.counts.size)
            self.line += int(right.argmin()) + 1
            raise self.bad(f"a cell that {table.kind} {table.number} has not, or not in this place")
        _add_to(table, places, counts, self.whole is None)
        self.totals[-1] += int(counts.sum()) if counts.dtype != object and len(counts) * int(counts.max()) <= GREATEST else sum(map(int, counts))
        self.line += len(lines)
        self.beyond = int(places[-1])

    def long_numbers(self, text: bytes, columns: int) -> NDArray[Any]:
        """The same of numbers of any length, as Python's own."""
        lines = []
        for line in text.splitlines(keepends=True):
            self.line += 1
            words = line.decode("ascii", errors="replace").removesuffix("\n").split(" ")
            if len(words) != columns or not line.endswith(b"\n") or not all(map(NUMBER.fullmatch, words)):
                raise self.bad("no line of a cell")
            lines.append([int(word) for word in words])
            if max(lines[-1][:-1]) > GREATEST:
                raise self.bad("no line of a cell")
        self.line -= len(lines)
        return np.array(lines, dtype=object)


def _add_to(table: Table, places: NDArray[np.int64], counts: NDArray[Any], are_empty: bool) -> None:
    """Adds to cells, which are all different; in an array of objects where a count can then pass 2^63."""
    before: NDArray[Any] = np.zeros(1, dtype=np.int64) if are_empty else table.counts.reshape(-1)[places]
    if int(counts.max()) + int(before.max()) > GREATEST:
        table.counts, before = table.counts.astype(object), before.astype(object)
    cells = table.counts.reshape(-1)
    cells[places] = counts.astype(cells.dtype, copy=False) + before
