"""The command ptulab: what it exports, what it tells of refusals, and its words. Expected values are worked out by hand."""

import csv
import io
import json
import os
import subprocess
import sys
from collections.abc import Callable
from pathlib import Path
from typing import Any

import made
import numpy as np
import pytest
from conftest import EXAMPLES, ROOT
from hypothesis import given
from hypothesis import strategies as st

import ptulab
from ptulab import exports, read_report
from ptulab.__main__ import COMMANDS, main
from ptulab._plan_rules import SHAPES, broken_rules

SCAN = EXAMPLES / "scan.ptu"
PAIRS = ptulab.Plan().group("a", 1).group("b", 2).total("a").total("b").startstop("a", "b", width="4 ticks", bins=3)
PAIRS = PAIRS.coincidence("a", "b", reach="4 ticks", width="3 ticks").correlation("a", "b", lags=4, levels=2)


@pytest.fixture
def pairs(tmp_path: Path, program: str) -> Callable[..., str]:
    """Writes plan.toml and report.txt of photons of two inputs at these times; gives the text of the report."""

    def make(plan: str = PAIRS.text(), times: Any = ([0, 1], [3, 4, 6, 7, 8])) -> str:
        (tmp_path / "plan.toml").write_text(plan)
        events = sorted((time, number) for number, some in enumerate(times, 1) for time in some)
        data = made.write(tmp_path / "data.ptu", "HydraHarp2T2", events, tick=1e-12)
        text = subprocess.run([program, "run", tmp_path / "plan.toml", data], check=True, capture_output=True, text=True).stdout
        (tmp_path / "report.txt").write_text(text)
        return text

    return make


def rows(folder: Path, name: str) -> Any:
    with open(folder / name, newline="", encoding="utf-8") as file:
        return list(csv.reader(file))


def command(*words: Any) -> int:
    return main([str(word) for word in words])


def test_files_of_each_table(tmp_path: Path, pairs: Callable[..., str], monkeypatch: pytest.MonkeyPatch) -> None:
    monkeypatch.setattr(sys, "stdin", io.TextIOWrapper(io.BytesIO(pairs().encode())))
    assert command("export", "-", "--csv", tmp_path / "some") == 0
    assert sorted(os.listdir(tmp_path / "some")) == ["coincidence_1.csv", "correlation_1.csv", "startstop_1.csv", "trace_1.csv", "trace_2.csv"]
    startstop = [["ticks", "seconds", "count"], ["0", "0.0", "1"], ["4", "4e-12", "0"], ["8", "8e-12", "0"]]
    assert rows(tmp_path / "some", "startstop_1.csv") == startstop
    assert rows(tmp_path / "some", "coincidence_1.csv")[3] == ["3.0", "3e-12", "4"]
    assert rows(tmp_path / "some", "correlation_1.csv")[0] == ["ticks", "seconds", "level", "count"]


def test_a_curve_by_its_plan(tmp_path: Path, pairs: Callable[..., str]) -> None:
    pairs()
    assert command("export", tmp_path / "report.txt", "--plan", tmp_path / "plan.toml", "--csv", tmp_path / "some", "--table", "correlation", 1) == 0
    assert os.listdir(tmp_path / "some") == ["correlation_1.csv"]
    curve = rows(tmp_path / "some", "correlation_1.csv")
    assert curve[0] == ["ticks", "seconds", "level", "count", "normalised", "error"]
    # the cell of level 1 and lag 3 has 4 pairs, and T is 8: 4 * 8 * 8 / (2 * 5 * 2 * (8 - 6))
    assert curve[5][:4] == ["6", "6e-12", "1", "4"] and [float(one) for one in curve[5][4:]] == pytest.approx([4 * 64 / 40, 2 * 64 / 40])


def test_g2_of_a_report_by_its_plan(tmp_path: Path, pairs: Callable[..., str]) -> None:
    """With the two traces that tell the photons a coincidence has g2 and its bar, worked out by hand, and without them none."""
    pairs()
    assert command("export", tmp_path / "report.txt", "--plan", tmp_path / "plan.toml", "--csv", tmp_path / "some") == 0
    names, *cells = rows(tmp_path / "some", "coincidence_1.csv")
    assert names == ["ticks", "seconds", "count", "g2", "error"] and len(cells) == 3
    # the cell of the differences 2, 3, 4 has 4 pairs, T is 9, and 2 and 5 are the photons: 4 * 81 / (2 * 5 * (7 + 6 + 5))
    assert cells[2][:3] == ["3.0", "3e-12", "4"]
    assert [float(one) for one in cells[2][3:]] == pytest.approx([4 * 81 / 180, 2 * 81 / 180])
    # no pair in the cell of -4, -3, -2: the bar is that of one
    assert cells[0][2] == "0" and [float(one) for one in cells[0][3:]] == pytest.approx([0, 81 / 180])
    text = PAIRS.text()
    pairs(text[: text.index("[[trace]]")] + text[text.index("[[startstop]]") :])
    assert command("export", tmp_path / "report.txt", "--plan", tmp_path / "plan.toml", "--csv", tmp_path / "none") == 0
    assert rows(tmp_path / "none", "coincidence_1.csv")[0] == ["ticks", "seconds", "count"]


def written(table: Any) -> Any:
    return [line.split(",") for line in "".join(exports.csv_lines(table)).splitlines()]


def test_tables_of_a_scan(program: str) -> None:
    """Every cell has a row."""
    cube = ptulab.run(EXAMPLES / "lifetimes.toml", SCAN, program=program).table("cube")
    names, *cells = written(cube)
    assert names == ["row", "column", "ticks", "seconds", "count"] and len(cells) == 64 * 64 * 40
    for place in (0, 39, 40, 100_003):
        y, x, b = place // 40 // 64, place // 40 % 64, place % 40
        assert cells[place] == [str(value) for value in (y, x, b * 16, b * 16 * 32e-12, cube.counts[y, x, b])]
    names, *cells = written(ptulab.run(EXAMPLES / "scan.toml", SCAN, program=program).table("image"))
    assert names == ["row", "column", "count"] and cells[25 * 64 + 24] == ["25", "24", "296"] and len(cells) == 64 * 64


def test_a_fold_by_its_groups(tmp_path: Path, pairs: Callable[..., str]) -> None:
    plan = "version = 2\ngroup = [{ inputs = [2] }, { inputs = [1] }, { inputs = [2] }]\nfold = [{ groups = [2, 3], window = 4 }]\n"
    fold = read_report(pairs(plan, ([0], [4, 9])), plan).table("fold")
    assert "".join(exports.csv_lines(fold)).splitlines() == ["set,groups,count", "0,,0", "1,2,0", "2,3,2", "3,2 3,1"]


def test_all_of_a_report_as_json(tmp_path: Path, pairs: Callable[..., str]) -> None:
    pairs()
    assert command("export", tmp_path / "report.txt", "--json", tmp_path / "report.json", "--npz", tmp_path / "report.npz") == 0
    told = json.loads((tmp_path / "report.json").read_text())
    assert told["head"]["photons"] == 7 and told["head"]["global"] == 1e-12 and told["head"]["resolution"] is None
    assert [(table["kind"], table["number"]) for table in told["tables"]][-1] == ("correlation", 1)
    assert told["tables"][-1]["counts"] == [0, 1, 2, 1, 4, 2] and told["tables"][-1]["lags"] == 4
    assert told["tables"][2]["over"] == 0 and "normalised" not in told["tables"][-1]
    assert np.load(tmp_path / "report.npz")["correlation_1"].tolist() == [0, 1, 2, 1, 4, 2]
    assert command("export", tmp_path / "report.txt", "--json", tmp_path / "report.json", "--plan", tmp_path / "plan.toml") == 0
    told = json.loads((tmp_path / "report.json").read_text())["tables"]
    assert told[-1]["normalised"][4] == pytest.approx(4 * 64 / 40) and told[3]["g2"][2] == pytest.approx(4 * 81 / 180)
    assert "correlation_1_normalised" not in np.load(tmp_path / "report.npz")  # without the plan
    assert command("export", tmp_path / "report.txt", "--npz", tmp_path / "report.npz", "--plan", tmp_path / "plan.toml") == 0
    arrays = np.load(tmp_path / "report.npz")
    for table, names in ((told[-1], ("normalised", "error")), (told[3], ("g2", "error"))):
        for name in names:
            assert np.array_equal(arrays[f"{table['kind']}_1_{name}"], np.array(table[name], dtype=np.float64), equal_nan=True)
    assert not [name for name in arrays if name.startswith("trace_1_") and name.endswith("error")]


def test_what_is_no_report_or_no_table(tmp_path: Path, pairs: Callable[..., str], capsys: pytest.CaptureFixture[str]) -> None:
    pairs()
    (tmp_path / "empty.txt").write_text("")
    assert command("export", tmp_path / "empty.txt", "--csv", tmp_path) == 1
    assert capsys.readouterr().err == f"ptulab: {tmp_path}/empty.txt: this is no report of ptu run\n"
    assert command("export", tmp_path / "report.txt", "--csv", tmp_path, "--table", "trace", 9) == 1
    assert "the report has no trace 9" in capsys.readouterr().err
    wrong: list[list[Any]] = [[], ["--csv", tmp_path, "--table", "trace", "x"]]
    for words in wrong:
        with pytest.raises(SystemExit):
            command("export", tmp_path / "report.txt", *words)


# ## Refusals


def test_a_run_prints_what_the_program_prints(program: str, tmp_path: Path, capfd: pytest.CaptureFixture[str]) -> None:
    wanted = subprocess.run([program, "run", EXAMPLES / "scan.toml", SCAN], check=True, capture_output=True, text=True).stdout
    assert command("run", EXAMPLES / "scan.toml", SCAN, "--program", program) == 0
    assert capfd.readouterr() == (wanted, "")
    assert command("run", EXAMPLES / "scan.toml", SCAN, "-o", tmp_path / "scan.txt", "--quiet") == 0
    assert (tmp_path / "scan.txt").read_text() == wanted and capfd.readouterr() == ("", "")


T2 = "HydraHarp2T2"


@pytest.mark.parametrize(
    ("plan", "file", "said"),
    [
        ("scan.ptu", "scan.toml", "scan.ptu: this is a PTU file: plan and file seem to be exchanged; the plan comes first"),
        ("small.ptu", "scan.toml", "small.ptu: this is a PTU file: plan and file seem to be exchanged"),
        ("scan.toml", "g2.toml", "g2.toml: not a PTU file\nptulab: {folder}/g2.toml is a plan: plan and file were exchanged; the plan comes first"),
    ],
)
def test_a_check_tells_that_plan_and_file_were_exchanged(tmp_path: Path, capsys: pytest.CaptureFixture[str], plan: str, file: str, said: str) -> None:
    for name in ("scan.ptu", "scan.toml", "g2.toml"):
        (tmp_path / name).symlink_to(EXAMPLES / name)
    made.write(tmp_path / "small.ptu", T2, [(1, 1)])
    assert command("check", tmp_path / plan, tmp_path / file) == 1
    assert said.format(folder=tmp_path) in capsys.readouterr().err
    if plan.endswith(".ptu"):
        assert command("count", tmp_path / plan, tmp_path / file) == 1
        assert f"{plan} is a PTU file: plan and file were exchanged; the plan comes first" in capsys.readouterr().err


@pytest.mark.parametrize(
    ("plan", "data", "status", "said"),
    [
        (EXAMPLES / "scan.ptu", EXAMPLES / "scan.toml", 6, "scan.ptu is a PTU file: plan and file were exchanged; the plan comes first"),
        (EXAMPLES / "bench.ptu", EXAMPLES / "bench.toml", 7, "bench.ptu is a PTU file: plan and file were exchanged"),
        (EXAMPLES / "scan.toml", EXAMPLES / "g2.toml", 10, "g2.toml is a plan: plan and file were exchanged"),
        (EXAMPLES / "g2.toml", SCAN, 9, "scan.ptu is a T3 file, and {plan} a plan for T2 files: ptulab plan {file} proposes one that suits"),
        (EXAMPLES / "broken.toml", SCAN, 8, "A group's `gate`, if present, is a list of two whole numbers"),
        (EXAMPLES / "broken.toml", SCAN, 8, "group 2: gate = [5, 5] isn't two whole numbers"),
        (b"histogran = []", SCAN, 8, "histogran is no key of a plan: is histogram meant?"),
        (b"group = [{ input = [1] }]", SCAN, 8, "input is no key of a group: is inputs meant?"),
        (b"limits = { record = 1 }", SCAN, 8, "record is no key of limits: is records meant?"),
        (b"[[group]]\ninputs = [1\n[[trace]]\n", SCAN, 7, "line 3, column"),
        (b"limits = { records = 7 }", SCAN, 20, "the plan has limits.records"),
        (b'order = "stop"', [(20, 1), (15, 1)], 19, "settle = 1, 2, 4 .. 64 puts events back in order"),
        (b"", b"PicoHarp 300\0\0\0\0", 10, "is a file of PicoHarp 300 from before PTU (.pt2, .pt3 or a histogram); only PTU files are read"),
        (b"", b"HydraHarp 400\0", 10, "(.ht2, .ht3 or a histogram)"),
        (b"", b"\x1f\x8b\x08\0\0\0\0", 10, "is compressed: gzip -dc makes the file"),
        (b"", b"1,2,3,4,5\n", 10, "data.pt3 is named like a file of another format"),
        (b"", b"", 11, "header cut after 0 bytes"),
        (EXAMPLES / "none.toml", SCAN, 2, "there is no file {plan}"),
        (b"", EXAMPLES / "none.ptu", 2, "there is no file {file}"),
    ],
)
def test_what_a_run_tells_of_a_refusal(tmp_path: Path, program: str, capsys: pytest.CaptureFixture[str], plan: Any, data: Any, status: int, said: str) -> None:
    """The status is the program's, the first line has whose fault it is, and the others what may be done."""
    paths = {"plan": plan, "file": data}
    if isinstance(plan, bytes):
        paths["plan"] = tmp_path / "plan.toml"
        paths["plan"].write_bytes(plan)
    if isinstance(data, bytes):
        paths["file"] = tmp_path / "data.pt3"
        paths["file"].write_bytes(data)
    if isinstance(data, list):
        paths["file"] = made.write(tmp_path / "data.ptu", T2, data)
    assert command("run", paths["plan"], paths["file"], "--program", program) == status
    told = capsys.readouterr().err
    assert said.format(**paths) in told
    whose = paths["plan"] if status in (6, 7, 8) or paths["plan"].name == "none.toml" else paths["file"]
    assert told.startswith(f"ptulab: {whose}: ptu: ") and all(line.startswith("ptulab: ") for line in told.splitlines())


def test_a_cut_file_is_told_how_it_is_saved(tmp_path: Path, program: str, capsys: pytest.CaptureFixture[str]) -> None:
    (tmp_path / "cut.ptu").write_bytes(SCAN.read_bytes()[:-2])
    assert command("run", EXAMPLES / "scan.toml", tmp_path / "cut.ptu", "--program", program) == 17
    assert f"head -c -2 {tmp_path}/cut.ptu > COPY saves it" in capsys.readouterr().err


@given(st.sampled_from(sorted(SHAPES)), st.data())
def test_a_key_with_one_letter_wrong_is_known(kind: str, data: st.DataObject) -> None:
    """Of a key of five letters or more without its last one the right one is named."""
    key = data.draw(st.sampled_from([key for key in SHAPES[kind].keys if len(key) > 4]))
    if key[:-1] in SHAPES[kind].keys:
        return
    said = [found.text for found in broken_rules({"version": 2, kind: [{key[:-1]: 1}]})]
    assert f"{key[:-1]} is no key of a {kind}: is {key} meant?" in said


# ## Words


def test_every_command_and_word_has_its_help(capsys: pytest.CaptureFixture[str]) -> None:
    assert list(COMMANDS) == ["info", "plan", "check", "run", "sum", "count", "page", "export", "app"]
    for name in COMMANDS:
        assert main([name, "--help"]) == 0
        told = capsys.readouterr().out
        assert told.startswith(f"usage: ptulab {name} ") and "--quiet" in told
        lines = told[told.index("\n\n") :].splitlines()
        words = [at for at, line in enumerate(lines) if line.startswith("  ") and not line.startswith("    ")]
        assert words and all(len(lines[at].split("  ")) > 2 or lines[at + 1].startswith("          ") for at in words), told


def test_options_may_stand_between_files(pairs: Callable[..., str], tmp_path: Path) -> None:
    pairs()
    report = tmp_path / "report.txt"
    assert command("sum", report, "-o", tmp_path / "sum.txt", report, "--quiet", report) == 0
    assert read_report(tmp_path / "sum.txt").head.photons == 21


def test_quiet_leaves_out_what_is_left_out(pairs: Callable[..., str], tmp_path: Path, capsys: pytest.CaptureFixture[str]) -> None:
    pairs()
    words = ["sum", tmp_path / "report.txt", tmp_path / "none.txt", "-o", tmp_path / "sum.txt", "--left", tmp_path / "left"]
    assert command(*words) == 3 and "none.txt: not added: No such file" in capsys.readouterr().err
    assert command(*words, "-q") == 3 and capsys.readouterr().err == ""
    assert "none.txt: not added: No such file" in (tmp_path / "left").read_text()


def test_the_script_at_the_top(tmp_path: Path) -> None:
    """It finds the package of the checkout from anywhere, and through a link."""
    (tmp_path / "link").symlink_to(ROOT / "ptulab")
    run = subprocess.run([tmp_path / "link", "plan", SCAN], cwd=tmp_path, env=os.environ | {"PYTHON": sys.executable}, capture_output=True, text=True, check=False)
    assert (run.returncode, run.stderr) == (0, "") and run.stdout == str(ptulab.plan_for(SCAN))


def test_a_python_without_numpy(tmp_path: Path) -> None:
    """The script at the top tells of it in one line, and knows its words all the same."""
    bare = tmp_path / "python3"
    bare.write_text(f'#!/bin/sh\nexec "{sys.executable}" -S "$@"\n')  # without what is installed
    bare.chmod(0o755)

    def told(python: str | Path, *words: str) -> subprocess.CompletedProcess[str]:
        surroundings = {"PYTHON": str(python), "PATH": os.environ["PATH"], "COLUMNS": "80"}
        return subprocess.run([ROOT / "ptulab", *words], capture_output=True, text=True, env=surroundings, check=False)

    run = told(bare, "info", str(SCAN))
    assert (run.returncode, run.stdout) == (1, "") and run.stderr.count("\n") == 1
    assert "has no NumPy: apt install python3-numpy" in run.stderr and "PYTHON=/usr/bin/python3" in run.stderr
    for words in (["--version"], ["--help"], ["count", "--help"]):
        with_it, without = told(sys.executable, *words), told(bare, *words)
        assert (without.returncode, without.stdout, without.stderr) == (0, with_it.stdout, "") and with_it.stdout
    assert told(bare, "nothing").returncode == told(sys.executable, "nothing").returncode == 2
