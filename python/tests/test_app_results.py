"""What comes of the window's questions: against simulated truth, over many files, and as files to take along."""

import csv
import json
import re
import sys
from collections.abc import Iterator
from pathlib import Path
from typing import Any

import numpy as np
import pytest
import simulated
from alone import output_of
from test_app import done_here

pytest.importorskip("plotly", reason="python3-plotly isn't on this machine")
LASERS = "".join(f"[[group]]\ninputs = [{number}]\ngates = [[{begin}, {begin + 500}]]\n\n" for number, begin in ((1, 0), (2, 0), (2, 500)))
PAIR = "[[group]]\ninputs = [{}]\n\n[[group]]\ninputs = [{}]\n"


@pytest.fixture(autouse=True)
def words(monkeypatch: pytest.MonkeyPatch) -> None:
    """Scripts that are run here leave the words of this process as they were."""
    monkeypatch.setattr(sys, "argv", ["job"])


@pytest.fixture(scope="module")
def folder(tmp_path_factory: pytest.TempPathFactory) -> Path:
    """Simulated files, of some of them two."""
    here = tmp_path_factory.mktemp("simulated")
    for name in ("lasers", "pulsed", "bursts", "diffusion", "picture", "emitter"):
        getattr(simulated, name)(here / f"{name}.ptu")
    for name in ("pulsed", "bursts"):
        getattr(simulated, name)(here / f"{name}2.ptu", 20)
    return here


def columns(path: Path) -> dict[str, Any]:
    """The columns of a CSV file."""
    with open(path, encoding="utf-8", newline="") as lines:
        head, *rows = csv.reader(lines)
    return {name: np.array([row[at] if name == "file" else float(row[at]) for row in rows]) for at, name in enumerate(head)}


# ## Against what was simulated


def test_two_lasers_tell_E_and_S(folder: Path, tmp_path: Path) -> None:
    """Of molecules with both dyes, beside those with the donor alone, whose S is 1."""
    settings = {"own": 3, "rate": 15}
    told = done_here("run", folder / "lasers.ptu", tmp_path, plan=f"version = 2\n{LASERS}", analysis="bursts", settings=settings)
    found = columns(tmp_path / "bursts.csv")
    both, alone = (found["S"] > 0.3) & (found["S"] < 0.8), found["S"] > 0.9
    assert 185 <= both.sum() <= 200 and 92 <= alone.sum() <= 100 and both.sum() + alone.sum() == len(found["S"])
    assert found["E"][both].mean() == pytest.approx(simulated.EFFICIENCY, abs=0.01) and found["S"][both].mean() == pytest.approx(simulated.STOICHIOMETRY, abs=0.01)
    assert found["E"][alone].mean() == pytest.approx(0, abs=0.02) and found["S"][alone].mean() == pytest.approx(1, abs=0.02)
    assert f"mean of S: {found['S'].mean():.4g}" in told["numbers"] and [one["name"] for one in told["figures"]] == ["efficiency", "e-s"]
    assert told["figures"][1]["curves"][0]["shape"] == "points" and len(told["figures"][1]["curves"][0]["x"]) == len(found["S"])


def test_pairs_of_pulses_tell_one_emitter(folder: Path, tmp_path: Path) -> None:
    told = done_here("run", folder / "pulsed.ptu", tmp_path, plan=PAIR.format(0, 1), analysis="pulsed", settings={})
    value, error = ratio_in(told["numbers"])
    assert 0.005 < error < 0.012 and abs(value - simulated.PULSED) < 3.5 * error
    found = columns(tmp_path / "pairs.csv")
    beside = found["pairs"][found["periods"] != 0]
    assert beside.mean() == pytest.approx(200_000 * (simulated.SIGNAL + simulated.DARK) ** 2, rel=0.03)


def ratio_in(numbers: str) -> tuple[float, float]:
    value, error = numbers.rpartition(": ")[2].split(" ± ")
    return float(value), float(error)


def test_an_image_without_lifetimes(folder: Path, tmp_path: Path) -> None:
    """Of a file whose header tells no tick of the delay: its photons, pixel by pixel, and as OME-TIFF."""
    tifffile = pytest.importorskip("tifffile", reason="python3-tifffile isn't on this machine")
    asked = {one["name"]: one for one in done_here("look", folder / "picture.ptu", tmp_path)["questions"]}
    assert not asked["pulsed"]["reason"]  # which counts sync periods alone
    assert "how long a tick is" in asked["image"]["reason"] and not asked["light"]["reason"] and "[[image]]\ngroup = 3\n" in asked["light"]["plan"]
    told = done_here("run", folder / "picture.ptu", tmp_path, plan=asked["light"]["plan"], analysis="light", settings={})
    truth = np.add.outer(np.arange(8), np.arange(8))
    assert "photons in the picture: 448\n" in told["numbers"] and "the most: 14 photons at column 7, row 7\n" in told["numbers"]
    assert [one["kind"] for one in told["figures"]] == ["picture", "curves"]
    assert "image_1.ome.tif" in done_here("images", folder / "picture.ptu", tmp_path, settings={})["files"]
    assert (tifffile.imread(tmp_path / "image_1.ome.tif") == truth).all()
    for name, why in (("diffusion", "takes T3"), ("pulsed", "lines of a scan")):
        others = {one["name"]: one for one in done_here("look", folder / f"{name}.ptu", tmp_path)["questions"]}
        assert why in others["light"]["reason"]


def test_python_tells_how_far_it_reads_where_it_counts(folder: Path, tmp_path: Path, monkeypatch: pytest.MonkeyPatch) -> None:
    """Of a file, and of two one after the other; the program tells that by itself."""
    from ptulab.app import _job

    heard: list[float] = []
    has_read = _job.Work.has_read

    def listened(work: Any, path: str, part: float) -> None:
        has_read(work, path, part)
        heard.append(work.done)

    monkeypatch.setattr(_job.Work, "has_read", listened)
    monkeypatch.setattr("ptulab.groups.PIECE", 10_000)
    asked = {"plan": PAIR.format(0, 1), "analysis": "pulsed", "settings": {}}
    done_here("run", folder / "pulsed.ptu", tmp_path, **asked)
    assert len(heard) > 3 and heard == sorted(heard) and heard[-1] == 1.0
    heard.clear()
    done_here("many", folder / "pulsed.ptu", tmp_path, files=[str(folder / "pulsed.ptu"), str(folder / "pulsed2.ptu")], **asked)
    assert len(heard) > 6 and heard == sorted(heard) and heard[-1] == pytest.approx(2 / 3)
    heard.clear()
    trace = PAIR.format(0, 1) + "\n[[trace]]\ngroup = 1\nwidth = 1000\nbins = 10\n"
    done_here("run", folder / "pulsed.ptu", tmp_path, plan=trace, analysis="trace", settings={"from_seconds": 0.001})
    assert heard == []


# ## Sums over many files of what Python counts, and of windows of time


@pytest.fixture(scope="module")
def sums(folder: Path, tmp_path_factory: pytest.TempPathFactory) -> Iterator[Any]:
    """What comes of several files together, and of each by itself: ``sums(analysis, plan, settings, names)``, with the folders of each."""

    def made(analysis: str, plan: str, settings: Any, names: list[str]) -> tuple[Any, Path, list[Path]]:
        places = [tmp_path_factory.mktemp(analysis) for _ in range(len(names) + 1)]
        files = [str(folder / f"{name}.ptu") for name in names]
        asked = {"plan": plan, "analysis": analysis, "settings": settings}
        told = done_here("many", Path(files[0]), places[0], files=files, **asked)
        for file, place in zip(files, places[1:]):
            done_here("run", Path(file), place, **asked)
        rows = told["numbers"].split("== the sum of")[0]
        assert rows == "".join(f"== {Path(file).name}\n{(place / 'numbers.txt').read_text('utf-8')}" for file, place in zip(files, places[1:]))
        assert told["numbers"] == f"{rows}== the sum of {len(files)} files\n{output_of(places[0] / 'sum.py')}"
        assert told["figures"] and [row[0] for row in told["table"]["rows"]] == [Path(file).name for file in files]
        return told, places[0], places[1:]

    yield made


@pytest.mark.parametrize("window", [{}, {"from_seconds": 0.002, "to_seconds": 0.011}])
def test_pairs_of_pulses_add_up(window: Any, sums: Any) -> None:
    told, whole, parts = sums("pulsed", PAIR.format(0, 1), window, ["pulsed", "pulsed2"])
    assert (columns(whole / "pairs.csv")["pairs"] == sum(columns(part / "pairs.csv")["pairs"] for part in parts)).all()
    value, error = ratio_in(told["numbers"])
    assert abs(value - simulated.PULSED) < 3.5 * error < 3.5 * (0.0075 if not window else 0.011)


@pytest.mark.parametrize("window", [{}, {"from_seconds": 1.0}])
def test_bursts_of_files_stand_one_behind_the_other(window: Any, sums: Any) -> None:
    told, whole, parts = sums("bursts", PAIR.format(1, 2), {"rate": 15, **window}, ["bursts", "bursts2"])
    found, each = columns(whole / "bursts.csv"), [columns(part / "bursts.csv") for part in parts]
    assert all((found[name] == np.concatenate([one[name] for one in each])).all() for name in ("start", "stop", "E")) and len(found["E"]) > 450
    assert found["file"].tolist() == ["bursts.ptu"] * len(each[0]["E"]) + ["bursts2.ptu"] * len(each[1]["E"]) and "file" not in each[0]
    assert f"bursts: {len(found['E'])}\n" in told["numbers"] and found["E"].mean() == pytest.approx(simulated.EFFICIENCY, abs=0.01)


def test_correlations_are_taken_together_by_their_photons(folder: Path, sums: Any) -> None:
    """A file twice, and its window: a sum of the same is the same, with a smaller error."""
    settings = {"segments": 5, "dimensions": 2, "begin": 50}
    _, whole, (part, _) = sums("correlation", PAIR.format(1, 2), settings, ["diffusion", "diffusion"])
    one, both = columns(part / "correlation.csv"), columns(whole / "correlation.csv")
    assert both["G"] == pytest.approx(one["G"], rel=1e-9) and both["error"] == pytest.approx(one["error"] * np.sqrt(4 / 9), rel=1e-9)
    told, _, _ = sums("correlation", PAIR.format(1, 2), settings | {"to_seconds": 3.0}, ["diffusion"])
    assert "number: " in told["numbers"].split("== the sum of")[1]


def test_windows_of_what_the_program_counts_add_up(sums: Any) -> None:
    trace = "\n[[trace]]\ngroup = 1\nwidth = 1000000\nbins = 100\n"
    told, whole, parts = sums("trace", PAIR.format(1, 2) + trace, {"from_seconds": 1.0, "to_seconds": 1.5}, ["bursts", "bursts2"])
    assert told["numbers"].count("\nbins: 49\n") == 3  # of half a second, in each file and in the sum
    means = [float(one) for one in re.findall("mean: ([0-9.]+) photons", told["numbers"])]
    assert means[2] == pytest.approx(means[0] + means[1], rel=1e-4) and 10 < means[0] < 15
    assert (columns(whole / "trace.csv")["photons"] == sum(columns(part / "trace.csv")["photons"] for part in parts)).all()
    assert (whole / "report.txt").is_file() and columns(whole / "trace.csv")["photons"].sum() > 700


def test_windows_of_one_emitter_add_up_to_g2(sums: Any) -> None:
    """Normalised by what is expected of each window; a window twice has the g2 of one, with a smaller error."""
    tables = "\n[[coincidence]]\nfirst = 1\nsecond = 2\nreach = 1005\nwidth = 10\n" + "".join(f"\n[[trace]]\ngroup = {group}\nwidth = 100000000\nbins = 1\n" for group in (1, 2))
    told, whole, (part, _) = sums("antibunching", PAIR.format(1, 2) + tables, {"from_seconds": 0.0002}, ["emitter", "emitter"])
    one, both = columns(part / "g2.csv"), columns(whole / "g2.csv")
    assert (both["pairs"] == 2 * one["pairs"]).all() and both["g2"] == pytest.approx(one["g2"]) and both["error"] == pytest.approx(one["error"] / np.sqrt(2))
    assert both["g2"].min() < 0.25 and "g2 at 0: " in told["numbers"].split("== the sum of")[1]


def test_what_is_left_out_of_a_sum_is_said(folder: Path, tmp_path: Path) -> None:
    """A file of another type, one without an event in the window, and one that is gone; where none is left, the table stays."""
    files = [str(folder / name) for name in ("pulsed.ptu", "bursts.ptu", "no.ptu")]
    told = done_here("many", Path(files[0]), tmp_path, files=files, plan=PAIR.format(0, 1), analysis="pulsed", settings={})
    said = told["numbers"].split("== the sum of 3 files\n")[1]
    assert "left out of the sum: bursts.ptu: another type or tick than the first file has\n" in said and "left out of the sum: no.ptu: " in said and "g2(0)" in said
    assert str(folder) not in said and len(told["table"]["rows"]) == 3
    told = done_here("many", Path(files[0]), tmp_path, files=files[:1], plan=PAIR.format(0, 1), analysis="pulsed", settings={"from_seconds": 5.0})
    assert told["numbers"].endswith("no sum: no file could be added\n") and told["figures"] == [] and "no event from" in told["table"]["rows"][0][1]


# ## Files to take along


def test_a_page_of_what_python_counted(folder: Path, tmp_path: Path) -> None:
    """Of one file and of several: numbers, plots with their fits, and nothing that a browser would fetch."""
    asked: dict[str, Any] = {"plan": PAIR.format(1, 2), "analysis": "correlation", "settings": {"segments": 5, "dimensions": 2, "begin": 50}}
    file = folder / "diffusion.ptu"
    told = done_here("run", file, tmp_path, **asked)
    assert "page.html" in done_here("page", file, tmp_path, **asked)["files"]
    text = (tmp_path / "page.html").read_text("utf-8")
    assert "Correlation (FCS) of diffusion.ptu</h1>" in text and told["numbers"].replace("&", "&amp;") in text and "Python, which is tested, not proved" in text
    drawn = json.loads(text.split('id="numbers">')[1].split("</script>")[0])[0]
    one, fit = told["figures"][0]["curves"]
    assert drawn["y"] == one["y"] and drawn["errors"] == one["errors"] and drawn["more"] == [{"label": "fit", "x": fit["x"], "y": fit["y"]}]
    page = text.split("<script>")[0]  # before Plotly's own
    assert not any(f'{word}="http' in page for word in ("src", "href")) and "default-src 'none'" in page
    done_here("many", file, tmp_path, files=[str(file)], **asked)
    done_here("page", file, tmp_path, **asked)
    assert "== the sum of 1 files" in (tmp_path / "page.html").read_text("utf-8")
