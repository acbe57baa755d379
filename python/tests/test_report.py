"""Reports as arrays, and their sums, beside the counts that are worked out in docs/report.md and by hand."""

import re
import tempfile
from collections.abc import Callable
from pathlib import Path
from typing import Any

import made
import numpy as np
import pytest
from conftest import EXAMPLES, ROOT
from hypothesis import given, settings
from hypothesis import strategies as st

import ptulab
from ptulab import BadReportError, NotKnownError, NoTableError, Report, UnlikeError
from ptulab import report as module
from ptulab._digits import whole_numbers
from ptulab.tables import KINDS, lags_of

WHOLE = 2**62  # the width of a trace that has all photons in one bin
PAIRS = f"""
version = 2
group = [{{ inputs = [1] }}, {{ inputs = [2] }}]
trace = [{{ group = 1, width = {WHOLE}, bins = 1 }}, {{ group = 2, width = {WHOLE}, bins = 1 }}]
startstop = [{{ start = 1, stop = 2, width = 4, bins = 3 }}]
coincidence = [{{ first = 1, second = 2, reach = 4, width = 3 }}]
correlation = [{{ first = 1, second = 2, lags = 4, levels = 2 }}]
fold = [{{ groups = [1, 2], window = 4 }}]
"""
HEAD = """type HydraHarp2T2
announced -
global 3D719799812DEA11
resolution -
records 7
photons 7
markers 0
wraps 0
reserved 0
late 0
first 0
last 8
"""
Runner = Callable[..., Any]


@pytest.fixture
def pairs(make_plan: Runner, make_file: Runner, program: str) -> Callable[..., Report]:
    """The report of a plan over photons of the inputs 1, 2 .. at these times."""

    def report(*times: list[int], plan: str = PAIRS) -> Report:
        photons = sorted((time, number) for number, some in enumerate(times, 1) for time in some)
        return ptulab.run(make_plan(plan), make_file("HydraHarp2T2", photons, tick=1e-12), program=program)

    return report


def test_tables_of_pairs(pairs: Callable[..., Report]) -> None:
    report = pairs([0, 1], [3, 4, 6, 7, 8])
    head = report.head
    assert (head.record_type, head.mode, head.records, head.announced) == ("HydraHarp2T2", "T2", 7, 7)
    assert (head.global_seconds, head.resolution_seconds, head.first, head.last) == (1e-12, None, 0, 8)
    assert dict(head.items())["global"] == head["global"] == 1e-12 and head["photons"] == 7
    with pytest.raises(KeyError):
        head["mode"]
    assert report.table("trace", 2).counts.tolist() == [5]
    assert report.table("startstop").counts.tolist() == [1, 0, 0] and report.table("startstop").rest == {"over": 0}
    coincidence = report.table("coincidence")
    assert (coincidence.ticks.tolist(), coincidence.counts.tolist()) == ([-3, 0, 3], [0, 0, 4])
    assert (coincidence.groups, coincidence.photons, coincidence.length) == ((1, 2), (2, 5), 8)
    correlation = report.table("correlation")
    assert correlation.ticks.tolist() == [1, 2, 3, 4, 6, 8] and correlation.counts.tolist() == [0, 1, 2, 1, 4, 2]
    assert correlation.levels is not None and correlation.levels.tolist() == [0, 0, 0, 0, 1, 1]
    assert correlation.seconds is not None and correlation.seconds[5] == pytest.approx(8e-12)
    assert correlation.counts.dtype == np.int64
    fold = report.table("fold")
    assert fold.patterns() == [(), (1,), (2,), (1, 2)] and fold.seconds is None and fold.counts.sum() == 7
    with pytest.raises(NoTableError):
        report.table("cube")


def test_a_curve_by_its_plan(pairs: Callable[..., Report], tmp_path: Path, ptu: Runner) -> None:
    curve = pairs([0, 1], [3, 4, 6, 7, 8]).table("correlation")
    # the cell of level 1 and lag 3 has 4 pairs, and T is 8: 4 * 8 * 8 / (2 * 5 * 2 * (8 - 6))
    assert curve.normalised()[4] == pytest.approx(4 * 64 / 40) and np.isnan(curve.normalised()[5])
    text = ptu("run", tmp_path / "plan.toml", tmp_path / "data.ptu").stdout
    bare = ptulab.read_report(text).table("correlation")
    assert bare.photons is None and bare.groups is None
    assert np.array_equal(bare.normalised(2, 5), curve.normalised(), equal_nan=True)
    with pytest.raises(NotKnownError, match="photons of the two groups"):
        bare.normalised()
    with pytest.raises(NotKnownError):
        ptulab.read_report(text).table("trace").expected()


def test_light_without_correlation_is_1_at_every_lag(pairs: Callable[..., Report]) -> None:
    draws = np.random.default_rng(24)
    times = [np.flatnonzero(draws.random(400_000) < 0.02).tolist() for _ in range(2)]
    curve = pairs(*times, plan=PAIRS.replace("lags = 4, levels = 2", "lags = 16, levels = 12")).table("correlation")
    error = np.sqrt(1 / np.maximum(curve.counts.astype(float), 1)) + 3 / np.sqrt(0.02 * 400_000)
    assert np.all(np.abs(curve.normalised() - 1) < 5 * error)


def test_a_scan(program: str) -> None:
    report = ptulab.run(EXAMPLES / "scan.toml", EXAMPLES / "scan.ptu", program=program)
    image = report.table("image")
    assert image.counts.shape == (64, 64) and image.counts[25, 24] == image.counts.max() == 296
    assert image.counts.sum() + image.rest["outside"] == report.head.photons == image.measurements[0].photons[0]  # type: ignore[index]
    decay = report.table("histogram")
    assert decay.seconds is not None and decay.seconds[1] == pytest.approx(16 * 32e-12)
    cube = ptulab.run(EXAMPLES / "lifetimes.toml", EXAMPLES / "scan.ptu", program=program).table("cube")
    assert cube.counts.shape == (64, 64, 40) and cube.counts.sum() + cube.rest["over"] == image.counts.sum()
    assert np.array_equal(cube.counts.sum(axis=2) <= image.counts, np.ones((64, 64), bool))
    # the middle of a bead shines for 1.5 ns, a place on the ring for 4 ns
    assert cube.mean_delays()[26, 24] < 150 < cube.mean_delays()[10, 32] < 300
    for table, function in ((image, "mean_delays"), (cube, "patterns"), (image, "normalised")):
        with pytest.raises(NotKnownError):
            getattr(table, function)()


def test_every_report_of_the_documents(tmp_path: Path) -> None:
    """The tables that docs/report.md prints are read cell by cell."""
    text = (ROOT / "docs" / "report.md").read_text("utf-8")
    tried = 0
    for said in re.findall(r"^\$ ./ptu run \w+.toml few.ptu \| tail -n \+13\n((?:[a-z0-9].*\n)+)", text, flags=re.M):
        report = ptulab.read_report(HEAD + said)
        assert "".join(printed(report)) == said
        tried += len(report.tables)
    assert tried >= 12


def printed(report: Report) -> list[str]:
    """The tables of a report as the program prints them."""
    lines = []
    for table in report.tables:
        lines.append(f"{table.kind} {table.number} " + " ".join(f"{word} {value}" for word, value in table.settings.items()) + "\n")
        levels, lags = lags_of(table.settings) if table.kind == "correlation" else (None, None)
        for place in np.argwhere(table.counts):
            x = [place[1], place[0], *place[2:]] if len(place) > 1 else list(place)
            x = [levels[place[0]], lags[place[0]]] if levels is not None and lags is not None else x
            lines.append(" ".join(map(str, [*x, table.counts[tuple(place)]])) + "\n")
        lines += [f"{word} {count}\n" for word, count in table.rest.items()]
    return lines


def test_tables_as_xarray(pairs: Callable[..., Report], program: str) -> None:
    curve = pairs([0, 1], [3, 4, 6, 7, 8]).table("correlation")
    array = curve.to_xarray()
    assert array.dims == ("delay",) and array.sel(delay=6e-12, method="nearest").item() == 4 and array.attrs == {"lags": 4, "levels": 2}
    assert array.level.values.tolist() == [0, 0, 0, 0, 1, 1] and array.delay.values[0] == 1e-12 and array.delay.attrs == {"units": "s"}
    frame = curve.to_pandas()
    assert list(frame.columns) == ["delay", "delay_ticks", "level", "count"] and frame["count"].tolist() == curve.counts.tolist()
    cube = ptulab.run(EXAMPLES / "lifetimes.toml", EXAMPLES / "scan.ptu", program=program).table("cube").to_xarray()
    assert cube.dims == ("row", "column", "delay") and cube.sizes == {"row": 64, "column": 64, "delay": 40}
    assert cube.name == "cube 1" and cube.delay_ticks.values[2] == 32 and cube.delay.values[2] == 32 * 32e-12 and "over" in cube.attrs
    assert cube.row.attrs == {"units": "number"}


def test_axes_beyond_64_bits() -> None:
    report = ptulab.read_report(HEAD + f"trace 1 origin 7 width {WHOLE} bins 4\n3 1\nbefore 0\nbeyond 0\n")
    assert report.table("trace").ticks.tolist() == [7, WHOLE + 7, 2 * WHOLE + 7, 3 * WHOLE + 7]
    assert report.table("trace").seconds is not None and report.table("trace").seconds[3] == pytest.approx(3e-12 * WHOLE)  # type: ignore[index]


def test_counts_beyond_64_bits() -> None:
    said = "coincidence 1 reach 1 width 1\n0 5\n1 {}\n2 18446744073709551616\n"
    great = ptulab.read_report(HEAD + said.format(2**63))
    assert great.table("coincidence").counts.tolist() == [5, 2**63, 2**64]
    assert (great + great).table("coincidence").counts.tolist() == [10, 2**64, 2**65]
    half = HEAD + said.format(2**62).replace("18446744073709551616", str(2**63 - 1))
    assert ptulab.read_report(half).table("coincidence").counts.dtype == np.int64
    for whole in (ptulab.sum_reports([half.encode()] * 3), ptulab.sum_reports([ptulab.read_report(half)] * 3)):
        assert whole.table("coincidence").counts.tolist() == [15, 3 * 2**62, 3 * (2**63 - 1)]
    mixed = ptulab.sum_reports([half.encode(), (HEAD + said.format(1)).encode(), half.encode()])
    assert mixed.table("coincidence").counts.tolist() == [15, 2**63 + 1, 2**65 - 2]


def test_sums(pairs: Callable[..., Report], tmp_path: Path, ptu: Runner) -> None:
    """A sum has the counts of both; its curve is normalised by what each expects."""
    one = pairs([0, 1], [3, 4, 6, 7, 8])
    (tmp_path / "one.txt").write_text(ptu("run", tmp_path / "plan.toml", tmp_path / "data.ptu").stdout)
    two = pairs([0, 5, 90], [3, 9, 70])
    (tmp_path / "two.txt").write_text(ptu("run", tmp_path / "plan.toml", tmp_path / "data.ptu").stdout)
    before = one.table("correlation").counts.copy()
    sums = [one + two, ptulab.sum_reports([tmp_path / "one.txt", str(tmp_path / "two.txt")], tmp_path / "plan.toml")]
    sums.append(ptulab.sum_reports([one, tmp_path / "two.txt"], tmp_path / "plan.toml"))
    for whole in sums:
        assert (whole.head.records, whole.head.announced, whole.head.first, whole.head.last) == (13, 13, None, None)
        for a, b, c in zip(one.tables, two.tables, whole.tables):
            assert np.array_equal(a.counts + b.counts, c.counts)
            assert {word: a.rest[word] + b.rest[word] for word in a.rest} == c.rest
            assert a.groups == c.groups
        curve = whole.table("correlation")
        assert curve.length is None and curve.photons == (5, 8)
        expected = one.table("correlation").expected() + two.table("correlation").expected()
        assert np.allclose(curve.expected(), expected)
        each = [it.table("correlation").photons or () for it in (one, two)]
        assert np.array_equal(curve.normalised(*zip(*each)), curve.normalised(), equal_nan=True)
    assert np.array_equal(one.table("correlation").counts, before)
    with pytest.raises(ValueError):
        ptulab.sum_reports([])


@pytest.mark.parametrize(
    "change",
    [
        ("type HydraHarp2T2", "type MultiHarpT2"),
        ("global 3D719799812DEA11", "global -"),
        ("resolution -", "resolution 3D719799812DEA11"),
        ("width 3\n", "width 4\n"),
        ("startstop 1 width 4 bins 3\nover 0\n", ""),
        ("coincidence 1 reach 4 width 3\n0 1\n", ""),
    ],
)
def test_reports_that_do_not_add_up(tmp_path: Path, change: tuple[str, str]) -> None:
    text = HEAD + "startstop 1 width 4 bins 3\nover 0\ncoincidence 1 reach 4 width 3\n0 1\n"
    other = text.replace(*change)
    assert other != text
    (tmp_path / "other.txt").write_text(other)
    with pytest.raises(UnlikeError, match="other.txt"):
        ptulab.sum_reports([text, tmp_path / "other.txt"])
    with pytest.raises(UnlikeError):
        ptulab.read_report(text) + ptulab.read_report(other)


def test_resolutions_add_up_bit_for_bit() -> None:
    nan = HEAD.replace("resolution -", "resolution 7FF8000000000000")
    assert ptulab.sum_reports([nan, nan]).head.records == 14
    assert ptulab.sum_reports([HEAD, HEAD.replace("announced -", "announced -1")]).head.announced is None


@pytest.mark.parametrize(
    "plan",
    ["", PAIRS.replace("reach = 4", "reach = 5"), PAIRS + "histogram = [{ group = 1, width = 1, bins = 1 }]\n", "trace = 5\n", "trace = [5, 5]\n"],
)
def test_plans_of_other_reports(tmp_path: Path, pairs: Callable[..., Report], ptu: Runner, plan: str) -> None:
    pairs([0, 1], [3])
    text = ptu("run", tmp_path / "plan.toml", tmp_path / "data.ptu").stdout
    assert ptulab.read_report(text, tmp_path / "plan.toml").tables[0].groups == (1,)
    (tmp_path / "plan.toml").write_text(plan)
    with pytest.raises(UnlikeError):
        ptulab.read_report(text, tmp_path / "plan.toml")


BAD = [
    "",
    "\n",
    "ptu: plan is not TOML\n",
    HEAD[:-1],
    HEAD.replace("wraps 0\n", ""),
    HEAD.replace("HydraHarp2T2", "HydraHarp3T2"),
    HEAD.replace("records 7", "records -"),
    HEAD.replace("records 7", "records +7"),
    HEAD.replace("last 8", "last " + "9" * 5000),
    HEAD.replace("global 3D719799812DEA11", "global 3D71"),
    HEAD.replace("global 3D719799812DEA11", "global 0xzz"),
    HEAD + "5 1\n",
    HEAD + "over 1\n",
    HEAD + "histogram 1 width 1 bins 2\n0 1\n",
    HEAD + "histogram 1 width 1 bins 2\n0 1\nover 0",
    HEAD + "histogram 1 width 1 bins 2\n0 1\nover x\n",
    HEAD + "histogram 1 width 1 bins 2\nover 1\n0 1\n",
    HEAD + "histogram 1 width 1 bins 2\nover 1\nover 1\n",
    HEAD + "histogram 1 width 1 bins 2\nbeyond 1\n",
    HEAD + "histogram 1 width 1 bins 2\n0 1 1\nover 1\n",
    HEAD + "histogram 1 width 1 bins 2\n0  1\nover 1\n",
    HEAD + "histogram 1 width 1 bins 2\n0\n1\nover 1\n",
    HEAD + "histogram 1 width 1 bins 2\n0 -1\nover 1\n",
    HEAD + "histogram 1 width 1 bins 2\n0 1.5\nover 1\n",
    HEAD + "histogram 1 width 1 bins 2\n2 1\nover 1\n",
    HEAD + "histogram 1 width 1 bins 2\n1 1\n0 1\nover 1\n",
    HEAD + "histogram 1 width 1 bins 2\n1 1\n1 1\nover 1\n",
    HEAD + f"histogram 1 width 1 bins 2\n{2**64} 1\nover 1\n",
    HEAD + "histogram 1 width 1 bins 2\n0 " + "9" * 40 + "\nover 1\n",
    HEAD + "histogram 1 width 1 bins 0\nover 1\n",
    HEAD + "histogram 1 width 0 bins 5\nover 1\n",
    HEAD + "histogram 1 bins 1 width 2\nover 1\n",
    HEAD + "histogram 1 width x bins 2\nover 1\n",
    HEAD + "histogram 1\nover 1\n",
    HEAD + "trace 1 origin 0 width 0 bins 5\nbefore 0\nbeyond 0\n",
    HEAD + "image 1 width 2 height 2 dwell 1\n2 0 1\noutside 0\n",
    HEAD + "image 1 width 2 height 2 dwell 1\n0 2 1\noutside 0\n",
    HEAD + "image 1 width 2 height 2 dwell 1\n0 1 1\n0 0 1\noutside 0\n",
    HEAD + f"image 1 width 2 height 2 dwell 1\n0 {2**63 - 1} 1\noutside 0\n",
    HEAD + "cube 1 width 2 height 2 dwell 1 dwidth 1 dbins 2\n0 0 2 1\noutside 0\nover 0\n",
    HEAD + "cube 1 width 2048 height 2048 dwell 1 dwidth 1 dbins 2048\noutside 0\nover 0\n",
    HEAD + "cube 1 width 2 height 2 dwell 1 dwidth 1 dbins 2\nover 0\noutside 0\n",
    HEAD + "correlation 1 lags 4 levels 2\n0 0 1\n",
    HEAD + "correlation 1 lags 4 levels 2\n0 5 1\n",
    HEAD + "correlation 1 lags 4 levels 2\n1 2 1\n",
    HEAD + "correlation 1 lags 4 levels 2\n2 3 1\n",
    HEAD + "correlation 1 lags 4 levels 41\n",
    HEAD + f"coincidence 1 reach {2**20 + 1} width 1\n",
    HEAD + "nothing 1\n",
    HEAD + "histogram 2 width 1 bins 2\nover 1\n",
    HEAD + "histogram 1 width 1 bins 2\nover 1\n" * 2,
    HEAD + "fold 1 window 1 sets 4\nhistogram 1 width 1 bins 2\nover 1\n",
    HEAD + "".join(f"cube {n} width 1 height 1 dwell 1 dwidth 1 dbins 1\noutside 0\nover 0\n" for n in (1, 2, 3)),
    HEAD + "coincidence 1 reach 1 width 1\n0 \xe9\n",
]


@pytest.mark.parametrize("text", BAD)
@pytest.mark.parametrize("piece", [1, 1 << 16])
def test_texts_that_are_no_report(text: str, piece: int, monkeypatch: pytest.MonkeyPatch) -> None:
    monkeypatch.setattr(module, "PIECE", piece)
    with pytest.raises(BadReportError):
        ptulab.read_report(text.encode())


def test_a_fault_names_the_file_and_the_line(tmp_path: Path) -> None:
    (tmp_path / "bad.txt").write_text(HEAD + "histogram 1 width 1 bins 9\n0 1\n4 1\n3 1\nover 1\n")
    with pytest.raises(BadReportError, match=r"bad\.txt: line 16: "):
        ptulab.read_report(tmp_path / "bad.txt")
    with pytest.raises(FileNotFoundError):
        ptulab.read_report(tmp_path / "nothing.txt")


COUNT = st.one_of(st.integers(1, 9999), st.integers(1, 10**18), st.integers(1, 2**63 - 1), st.integers(1, 2**128 - 1))


@st.composite
def tables(draw: st.DrawFn, kind: str, number: int) -> str:
    """A table of a kind, with random cells."""
    sizes = {word: draw(st.integers(1, 12)) for word in KINDS[kind].settings}
    sizes |= {word: 2 * sizes[word] for word in ("lags",) if word in sizes} | ({"sets": 8} if kind == "fold" else {})
    shape = KINDS[kind].shape(sizes)
    cells = int(np.prod(shape))
    counts: Any = np.zeros(cells, dtype=object)
    for place in draw(st.sets(st.integers(0, cells - 1), max_size=20)):
        counts[place] = draw(COUNT if kind in ("coincidence", "correlation") else st.integers(1, 10**6))
    rest = {word: draw(st.integers(0, 10**9)) for word in KINDS[kind].rest}
    return "".join(printed(Report(None, (ptulab.Table(kind, number, sizes, counts.reshape(shape), counts, None, rest),))))  # type: ignore[arg-type]


@st.composite
def reports(draw: st.DrawFn) -> str:
    """Some tables, in the order of a report."""
    numbers = [draw(st.sampled_from([0, 0, 1, 2])) for _ in KINDS]
    return "".join(draw(tables(kind, number)) for kind, many in zip(KINDS, numbers) for number in range(1, many + 1))


@settings(max_examples=40, deadline=None)
@given(text=reports(), piece=st.sampled_from([1, 17, 1 << 16]))
def test_what_is_read_is_what_was_printed(text: str, piece: int) -> None:
    with pytest.MonkeyPatch.context() as patch, tempfile.TemporaryDirectory() as folder:
        patch.setattr(module, "PIECE", piece)
        report = ptulab.read_report(HEAD + text)
        assert "".join(printed(report)) == text
        path = Path(folder, "report.txt")
        path.write_text(HEAD + text, encoding="utf-8")
        twice = ptulab.sum_reports([path, path])
        for one, two, both in zip(report.tables, twice.tables, (report + report).tables):
            assert (2 * one.counts.astype(object)).tolist() == two.counts.tolist() == both.counts.tolist()
            assert both.rest == two.rest


@settings(max_examples=200, deadline=None)
@given(text=st.text(alphabet="0123456789 \n:-", max_size=40), columns=st.integers(1, 4))
def test_lines_of_numbers(text: str, columns: int) -> None:
    """Exactly the texts that are such lines are read, as Python reads their words."""
    number = r"[0-9]{1,18}"
    is_such = re.fullmatch(f"(?:{' '.join([number] * columns)}\n)+", text) is not None
    read = whole_numbers(text.encode(), columns)
    assert (read is not None) == is_such
    if read is not None:
        assert read.tolist() == [[int(word) for word in line.split(" ")] for line in text.splitlines()]


def test_numbers_of_any_length() -> None:
    text = "".join(f"{10**k} {10**k - 1} {7 * 10**k // 9}\n" for k in range(1, 18))
    read = whole_numbers(text.encode(), 3)
    assert read is not None and read.tolist() == [[10**k, 10**k - 1, 7 * 10**k // 9] for k in range(1, 18)]


def test_all_record_types(make_file: Runner, make_plan: Runner, program: str, record_type: str) -> None:
    photons = [(time, 1, 5) if record_type.endswith("T3") else (time, 1) for time in (5, 6, 3 * made.unit(record_type))]
    plan = make_plan(f"group = [{{ inputs = [1] }}]\ntrace = [{{ group = 1, width = {WHOLE}, bins = 1 }}]\n")
    report = ptulab.run(plan, make_file(record_type, photons, tick=2e-9), program=program)
    assert report.head.record_type == record_type and report.table("trace").counts.tolist() == [3]
    assert report.head.last == 3 * made.unit(record_type)
