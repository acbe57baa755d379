"""Files that were cut: between two records, which only the number of records in the header tells, and within one."""

import math
import subprocess
from pathlib import Path

import made
import pytest

import ptulab
from ptulab import BadFileError, _progress
from ptulab.__main__ import main

PLAN = "group = [{ inputs = [1] }]\ntrace = [{ group = 1, width = 100, bins = 8 }]\n"
SAID = "the header announces 300 records, and there are 250: the file may be cut"


@pytest.fixture
def cut(tmp_path: Path) -> Path:
    """A file of 300 photons that was cut behind 250 of them, a whole one beside it, and a plan."""
    photons = [(2 * time, 1) for time in range(300)]
    for name in ("whole.ptu", "cut.ptu", "odd.ptu"):
        made.write(tmp_path / name, "MultiHarpT2", photons, tick=1e-12)
    path = tmp_path / "cut.ptu"
    path.write_bytes(path.read_bytes()[:-200])
    (tmp_path / "odd.ptu").write_bytes((tmp_path / "odd.ptu").read_bytes()[:-198])
    (tmp_path / "plan.toml").write_text(PLAN)
    return path


def test_check_and_plan_say_that_a_file_was_cut(cut: Path, program: str) -> None:
    plan = cut.with_name("plan.toml")
    (found,) = ptulab.check_plan(plan, cut, program=program)
    assert (str(found), found.refused) == (f"the file: {SAID}", False)
    assert f"# {SAID}\n" in str(ptulab.plan_for(cut))
    whole = cut.with_name("whole.ptu")
    assert not ptulab.check_plan(plan, whole, program=program) and "announces" not in str(ptulab.plan_for(whole))


@pytest.mark.parametrize("announced", [0, None])
def test_a_header_that_announces_nothing_is_not_odd(cut: Path, program: str, announced: int | None) -> None:
    """Some programs write it before they know the number."""
    made.write(cut, "MultiHarpT2", [(5, 1), (6, 1)])
    cut.write_bytes(cut.read_bytes().replace(made.tag("TTResult_NumberOfRecords", 2), b"" if announced is None else made.tag("TTResult_NumberOfRecords", 0)))
    assert ptulab.read_header(cut).announced == announced
    assert not ptulab.check_plan(cut.with_name("plan.toml"), cut, program=program) and "announces" not in str(ptulab.plan_for(cut))


def test_count_and_sum_name_the_files_that_were_cut(
    cut: Path, program: str, capsys: pytest.CaptureFixture[str], monkeypatch: pytest.MonkeyPatch
) -> None:
    """They are in the sum, so the list says so, on standard error and in the file of those that are left."""
    monkeypatch.setattr(_progress, "EVERY", math.inf)  # a slow machine has lines of how far it is
    folder = cut.parent
    files = [str(folder / name) for name in ("whole.ptu", "cut.ptu")]
    left, out = folder / "left", folder / "sum.txt"
    assert main(["count", str(folder / "plan.toml"), *files, "-o", str(out), "--left", str(left), "--program", program, "--processes", "1"]) == 0
    told = f"{cut}: added, but {SAID}\n"
    assert capsys.readouterr().err == told == left.read_text()
    assert ptulab.read_report(out).head.records == 550
    reports = []
    for path in files:
        reports.append(path.replace(".ptu", ".txt"))
        ptulab.write_report(ptulab.run(folder / "plan.toml", path, program=program), reports[-1])
    left.unlink()
    assert main(["sum", *reports, "-o", str(out), "--left", str(left)]) == 0
    assert capsys.readouterr().err == told.replace(".ptu", ".txt") == left.read_text()


def test_run_says_once_that_a_file_was_cut(
    cut: Path, program: str, capsys: pytest.CaptureFixture[str], caplog: pytest.LogCaptureFixture
) -> None:
    """On standard error, or in the log; what is asked to be quiet isn't told, and of a whole file there is nothing to say."""
    plan, told = str(cut.with_name("plan.toml")), f"{cut}: {SAID}"
    cases: list[tuple[Path, list[str], str]] = [(cut, [], f"{told}\n"), (cut, ["--quiet"], ""), (cut.with_name("whole.ptu"), [], "")]
    for path, more, said in cases:
        assert main(["run", plan, str(path), *more, "--program", program]) == 0
        assert capsys.readouterr().err == said
    caplog.clear()
    assert ptulab.run(plan, cut, program=program).head.records == 250
    assert [(one.levelname, one.getMessage()) for one in caplog.records] == [("WARNING", told)]
    caplog.clear()
    assert ptulab.check_plan(plan, cut, program=program) and ptulab.info(cut, program=program).is_cut and not caplog.records


def test_the_whole_records_of_a_file_that_was_cut_within_one(cut: Path) -> None:
    odd = cut.with_name("odd.ptu")
    with pytest.raises(BadFileError, match=r"2 bytes of a record at the end .*partial=True.*head -c -2 ") as fault:
        ptulab.read_events(odd)
    assert (fault.value.status, fault.value.line) == (17, "2 bytes of a record at the end")
    events = ptulab.read_events(odd, partial=True)
    assert events.header.left_over_bytes == 2 and events.times.tolist() == list(range(0, 500, 2))
    assert len(ptulab.read_events(odd, start=100, partial=True)) == 150
    assert ptulab.read_events(cut, partial=True) == ptulab.read_events(cut)


def test_a_file_is_saved_by_the_words_of_its_fault(cut: Path, program: str) -> None:
    """What the message says is done in a shell, and the program reads what it gives."""
    odd = cut.with_name("odd.ptu")
    with pytest.raises(BadFileError) as fault:
        ptulab.read_events(odd)
    command = str(fault.value).partition("head")[2].partition(" >")[0].split()
    saved = subprocess.run(["head", *command], capture_output=True, check=True).stdout
    assert saved == cut.read_bytes()
    (cut.parent / "saved.ptu").write_bytes(saved)
    assert ptulab.run(cut.with_name("plan.toml"), cut.parent / "saved.ptu", program=program).head.photons == 250


@pytest.mark.parametrize("before", [0, 1, 5, 70_000])
def test_events_before_a_record_that_passes_the_greatest_time(tmp_path: Path, before: int) -> None:
    words = [*range(before), *[0xFE000000 | 0x1FFFFFF] * 5000, 7]
    path = made.write_words(tmp_path / "far.ptu", "HydraHarp2T2", words)
    with pytest.raises(BadFileError, match="passes the greatest time"):
        ptulab.read_events(path)
    assert ptulab.read_events(path, partial=True).times.tolist() == list(range(before))
    assert len(ptulab.read_events(path, start=before, partial=True)) == 0


def test_a_header_that_was_cut_has_no_events(cut: Path) -> None:
    cut.write_bytes(cut.read_bytes()[:60])
    with pytest.raises(BadFileError, match="header cut after 60 bytes"):
        ptulab.read_events(cut, partial=True)
