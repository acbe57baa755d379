"""Every worked row: what this package decodes beside what the row says, and what the program says of each row's file."""

import functools
import subprocess
import tempfile
from pathlib import Path

import pytest
from test_events import ended, lines
from worked_rows import Row, names_that_passed, worked_rows

import ptulab
from ptulab.texts import report_lines

ROWS = list(worked_rows())
WHOLE = [row for row in ROWS if not (row.faults or row.alike or row.disk)]  # those that say what a whole run leaves
EVENTS = [row for row in WHOLE if row.words == ("events", "f")]
REPORTS = [row for row in WHOLE if row.words[:1] in (("run",), ("demo",)) and row.status == 0]
FILES = list({row.holds["file"]: row for row in reversed(ROWS)}.values())  # of each file the first row that has it


@functools.cache
def decoded(data: bytes) -> tuple[list[str], int, str]:
    """What this package decodes, record by record: the events up to the end or a fault, and the status and line of that."""
    with tempfile.TemporaryDirectory() as folder:
        Path(folder, "f").write_bytes(data)
        return ended(Path(folder, "f"), records=1)


def named(row: Row) -> str:
    return row.name


def test_the_rows_that_are_compared(capsys: pytest.CaptureFixture[str]) -> None:
    """All rows were read, as the program that runs them names them; how many of them are compared is told."""
    assert [row.name for row in ROWS] == names_that_passed()
    numbers = (len(ROWS), len(EVENTS), len(FILES), len(REPORTS))
    with capsys.disabled():
        print("\ncompared of %d worked rows: %d of events, %d files, %d reports" % numbers)
    assert len(EVENTS) >= 40 and len(FILES) >= 250 and len(REPORTS) >= 50, numbers


@pytest.mark.parametrize("row", EVENTS, ids=named)
def test_events_are_those_that_a_row_says(row: Row) -> None:
    told = row.holds["out"].decode().splitlines(), row.status, row.holds["err"].decode()
    assert decoded(row.holds["file"]) == told


@pytest.mark.parametrize("row", FILES, ids=named)
def test_events_are_those_of_the_program(tmp_path: Path, program: str, row: Row) -> None:
    (tmp_path / "f").write_bytes(row.holds["file"])
    run = subprocess.run([program, "events", str(tmp_path / "f")], capture_output=True, text=True, check=False)
    said, status, line = decoded(row.holds["file"])
    assert (said, status, line) == (run.stdout.splitlines(), run.returncode, run.stderr)
    if status == 0:
        assert lines(ptulab.read_events(tmp_path / "f").array) == said


@pytest.mark.parametrize("row", REPORTS, ids=named)
def test_reports_come_back_as_they_were(row: Row) -> None:
    assert b"".join(report_lines(ptulab.read_report(row.holds["out"]))) == row.holds["out"]
