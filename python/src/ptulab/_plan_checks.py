"""What is wrong with a plan, or odd in it, by itself and for a file."""

from __future__ import annotations

import os
from collections.abc import Iterator
from typing import Any

from ._documents import PlanLike, read_plan
from .errors import NoProgramError, RefusalError
from .headers import other_records
from ._looks import Look, look
from ._plan_rules import Finding, Document, broken_rules
from .program import find_program, report_of
from .report import Report
from .tables import Table

ONLY = {"gates": "T3", "shift": "T3", "histogram": "T3", "image": "T3", "cube": "T3",
        "startstop": "T2", "coincidence": "T2", "fold": "T2"}  # the mode that a part needs
MANY = 0.1  # of the photons of a table, that are in no cell
OUTSIDE = {
    "outside": "have no place in the picture: compare width * dwell with the sync periods of a line, height with its rows",
    "over": "are past the last bin: more bins, or wider ones, have them",
    "beyond": "come behind the last bin: more bins, or wider ones, have them",
    "before": "come before the first bin",
}
PathLike = str | os.PathLike[str]


def check_plan(plan: PlanLike, file: PathLike | None = None, *, program: PathLike | None = None) -> list[Finding]:
    """What is wrong with a plan, the gravest first; nothing where it is good.

    ``plan`` is a path, a text or the bytes of one, read as the program reads it, or a ``Plan``. Of a plan that breaks rules
    each key whose value is out of its range is named. With a ``file`` it is looked at whole: a part that doesn't suit its mode,
    inputs and marker bits that don't occur, a correlation longer than the file, a file that may be cut; and where the program is found
    (``program``, else as ``run`` finds it) the plan is run, and tables that leave out more than a tenth of their photons
    are told. Findings that aren't ``refused`` are warnings.

    Raises ``BadPlanError`` for a plan that is no TOML, ``BadFileError`` for a file that the program refuses, ``OSError``.
    """
    document = read_plan(plan, file)
    found = broken_rules(document)
    if found:
        return found
    checked = Document(document)
    found += _cells(checked)
    if file is None:
        return found
    seen = look(file)
    unsuited = list(_modes(checked, seen))
    found = [*unsuited, *found, *_records(seen), *_inputs(checked, seen), *_markers(checked, seen), *_delays(checked, seen)]
    if not unsuited:
        found += _counted(plan, file, program)
    return found


def _warning(part: str, key: str, text: str) -> Finding:
    return Finding(0, int(part.rpartition(" ")[2]) if part[-1:].isdigit() else 0, part, key, text, refused=False)


def _tables(plan: Document, *kinds: str) -> Iterator[tuple[str, dict[str, Any]]]:
    for kind in kinds:
        for number, table in enumerate(plan.tables(kind), 1):
            yield f"{kind} {number}", table


def _cells(plan: Document) -> Iterator[Finding]:
    """Coincidences whose cells aren't all alike."""
    for part, table in _tables(plan, "coincidence"):
        reach, width = table["reach"], table["width"]
        sides = max(1, round(reach / width))
        better = f"take reach = {sides * (width | 1) + (width | 1) // 2} and width = {width | 1}"
        if left := (2 * reach + 1) % width:
            yield _warning(part, "reach", f"the last cell has {left} of {width} differences, which looks like a dip: {better}")
        if width % 2 == 0:
            yield _warning(part, "width", f"width = {width} is even, so no cell is centred on 0: {better}")


def _modes(plan: Document, seen: Look) -> Iterator[Finding]:
    """Parts that don't suit the mode of the file, for which the program refuses it with status 9."""
    mode = seen.header.mode
    for part, table in _tables(plan, "group"):
        if mode == "T2" and ("gate" in table or "gates" in table):
            yield Finding(0, int(part[6:]), part, "gate", "a gate doesn't suit T2, where photons have no dtime")
    for kind in ("shift", "histogram", "image", "cube", "startstop", "coincidence", "fold"):
        for number, _ in enumerate(plan.tables(kind), 1):
            if ONLY[kind] != mode:
                yield Finding(0, number, f"{kind} {number}", kind, f"a {kind} doesn't suit {mode}: it is of {ONLY[kind]} files only")


def _records(seen: Look) -> Iterator[Finding]:
    if odd := other_records(seen.header.announced, seen.header.records):
        yield _warning("the file", "", odd)


def _inputs(plan: Document, seen: Look) -> Iterator[Finding]:
    there = ", ".join(map(str, seen.inputs)) or "none"
    for part, table in _tables(plan, "group"):
        for number in table["inputs"]:
            if number not in seen.inputs:
                yield _warning(part, "inputs", f"input {number} doesn't occur in the file; these do: {there}")
    for part, table in _tables(plan, "shift"):
        if table["input"] not in seen.inputs:
            yield _warning(part, "input", f"input {table['input']} doesn't occur in the file; these do: {there}")


def _markers(plan: Document, seen: Look) -> Iterator[Finding]:
    there = ", ".join(map(str, seen.bits)) or "none"
    for part, table in _tables(plan, "image", "cube"):
        for key in ("line", "frame", "stop"):
            if key in table and table[key] not in seen.bits:
                yield _warning(part, key, f"{key} = {table[key]}: this marker bit doesn't occur in the file; these do: {there}")


def _delays(plan: Document, seen: Look) -> Iterator[Finding]:
    for part, table in _tables(plan, "correlation"):
        longest = table["lags"] << (table["levels"] - 1)
        if longest > seen.length:
            yield _warning(part, "levels", f"the delays go up to {longest:,}, and the file is only {seen.length:,} long")
    for part, table in _tables(plan, "trace"):
        origin = table.get("origin", 0)
        if seen.last is not None and origin > seen.last:
            yield _warning(part, "origin", f"origin = {origin:,} is behind the last event, at {seen.last:,}")


def _counted(plan: PlanLike, file: PathLike, program: PathLike | None) -> Iterator[Finding]:
    """What a run of the program shows: late events, and tables that leave many photons out."""
    try:
        report = report_of(plan, file, find_program(program))
    except NoProgramError as error:
        yield _warning("", "", f"photons that are in no cell weren't counted: {error}")
        return
    except RefusalError as refusal:
        yield Finding(0, 0, "the file", "", f"the program refuses it: {refusal}")
        return
    if report.head.late:
        yield _warning("the file", "settle", f"{report.head.late:,} events are late, and in no table: try settle in version 2")
    yield from _left_out(report)


def _left_out(report: Report) -> Iterator[Finding]:
    for table in report.tables:
        if table.kind == "startstop":
            continue  # long times are past any last bin
        whole = int(table.counts.sum()) + sum(table.rest.values())
        for word, count in table.rest.items():
            if whole and count > MANY * whole:
                yield _warning(f"{table.kind} {table.number}", _key(table, word), f"{count:,} of {whole:,} photons {OUTSIDE[word]}")


def _key(table: Table, word: str) -> str:
    """The key of a plan that a word of a report goes by."""
    return {"outside": "dwell", "over": "dbins" if table.kind == "cube" else "bins", "beyond": "bins", "before": "origin"}[word]
