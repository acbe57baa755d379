"""Plans that are put together in Python: times become ticks, text becomes what the program reads, and rules are told."""

import logging
import math
import subprocess
from collections.abc import Callable
from fractions import Fraction
from pathlib import Path
from typing import Any

import numpy as np
import pytest
from conftest import EXAMPLES
from hypothesis import given
from hypothesis import strategies as st

import ptulab
from ptulab import Plan, picked
from ptulab._plan_rules import broken_rules
from ptulab.errors import BadPlanError, NotKnownError
from ptulab.groups import Ticks
from ptulab.many import megabytes_of
from ptulab.plans import read_plan

SCAN = EXAMPLES / "scan.ptu"
T2, T3 = Ticks(4e-12, None), Ticks(50e-9, 16e-12)  # 3,125 ticks of the dtime are a sync period
TWO = Plan().group("donor", inputs=[1]).group("acceptor", inputs=[2])


def table(plan: Plan, kind: str, ticks: Ticks) -> Any:
    """The last table of a kind, as the program reads it."""
    return read_plan(plan, ticks)[kind][-1]


def test_a_plan_in_seconds() -> None:
    plan = Plan().group("donor", inputs=[1, 0], gates=[(0, "12.5 ns"), ("20 ns", 40e-9)]).histogram("donor", width="0.16 ns")
    assert table(plan, "group", T3) == {"inputs": [0, 1], "gates": [[0, 781], [1250, 2500]]}
    assert table(plan, "histogram", T3) == {"group": 1, "width": 10, "bins": 313}  # 3,125 ticks, of which the last bin has a half
    assert table(plan.histogram("donor", until="10 ns"), "histogram", T3) == {"group": 1, "width": 1, "bins": 625}
    assert table(Plan().group("donor", 0).histogram("donor", bins=7), "histogram", Ticks(None, 16e-12)) == {"group": 1, "width": 1, "bins": 7}
    assert table(plan.trace(1, width=1e-3, until=2, origin="0.5 s"), "trace", T3) == {"group": 1, "width": 20_000, "bins": 2000, "origin": 10_000_000}
    assert table(Plan().group("donor", 0).total("donor"), "trace", Ticks()) == {"group": 1, "width": 1 << 62, "bins": 1}
    image = plan.image("donor", width=64, height=32, dwell="10 us", line=1, stop=2, serpentine=True)
    assert table(image, "image", T3) == {"group": 1, "width": 64, "height": 32, "dwell": 200, "line": 1, "stop": 2, "serpentine": True}
    cube = plan.cube("donor", width=8, height=4, dwell="3 periods", line=1, frame=4, dwidth="0.8 ns")
    assert table(cube, "cube", T3) == {"group": 1, "width": 8, "height": 4, "dwell": 3, "line": 1, "frame": 4, "dwidth": 50, "dbins": 63}


def test_numbers_of_numpy_are_numbers() -> None:
    """Inputs, groups and seconds as arrays have them."""
    by_numpy: Any = np.unique(np.array([2, 1], np.uint8))
    some: list[Any] = [np.int64(0), np.float32(2e-9), np.float32(0.5), np.int64(2)]
    plan = Plan().group("both", by_numpy).group("one", by_numpy[0], gates=[(some[0], some[1])])
    assert plan.trace(by_numpy[1], width=some[2], until=some[3]).text(T3) == (
        Plan().group("both", [1, 2]).group("one", 1, gates=[(0, 2e-9)]).trace(2, width=0.5, until=2).text(T3)
    )


def test_pairs_in_seconds() -> None:
    plan = TWO.startstop("donor", "acceptor", width="40 ps", until="1 ns").fold("acceptor", "donor", window="1 us")
    assert table(plan, "startstop", T2) == {"start": 1, "stop": 2, "width": 10, "bins": 25}
    assert table(plan, "fold", T2) == {"groups": [1, 2], "window": 250_000}
    for width, cell in (("1 tick", 1), ("40 ps", 11), ("38 ps", 9), ("4 ticks", 4)):
        found = table(TWO.coincidence("donor", "acceptor", reach="100 ns", width=width), "coincidence", T2)
        assert found["width"] == cell and found["reach"] % cell == cell // 2 and abs(found["reach"] - 25_000) <= cell
    assert table(TWO.coincidence(1, 2, reach="1_012 ticks", width="9 ticks"), "coincidence", Ticks()) == {"first": 1, "second": 2, "reach": 1012, "width": 9}


@given(st.floats(1e-9, 1.0), st.sampled_from([2, 8, 16, 128]), st.sampled_from([1e-12, 4e-12, 50e-9]))
def test_levels_reach_the_delay_and_no_further(until: float, lags: int, tick: float) -> None:
    levels = table(TWO.correlation("donor", "acceptor", until=until, lags=lags), "correlation", Ticks(tick))["levels"]
    longest = Fraction(lags) * 2 ** (levels - 1) * Fraction(tick)
    assert longest >= Fraction(until) * Fraction("0.999999") and (levels == 1 or longest / 2 < Fraction(until))


def test_totals_come_with_pairs_that_need_them() -> None:
    """And not where another table tells the photons of a group."""
    plan = TWO.correlation("donor", "acceptor", until=1.0)
    assert [one["group"] for one in read_plan(plan, T2)["trace"]] == [1, 2]
    assert len(read_plan(plan.coincidence("donor", "acceptor", reach=1e-7), T2)["trace"]) == 2
    assert [one["group"] for one in read_plan(TWO.histogram("donor").correlation("donor", "acceptor", levels=3), T3)["trace"]] == [2]
    assert "trace" not in read_plan(TWO.histogram("donor").correlation("donor", levels=3), T3)


def test_shifts_of_two_detectors() -> None:
    plan = TWO.shift(2, "-1.6 ns").shift(0, "100 ticks").histogram("donor")
    assert read_plan(plan, T3) | {"group": 0, "histogram": 0} == {
        "version": 2, "period": 3125, "group": 0, "histogram": 0, "shift": [{"input": 0, "shift": 100}, {"input": 2, "shift": 3025}]
    }
    assert read_plan(TWO.shift(1, "-3 ticks", period="50 ticks"), Ticks())["shift"] == [{"input": 1, "shift": 47}]
    with pytest.raises(BadPlanError, match="shifts with other periods: 50 ticks, 60 ticks"):
        TWO.shift(1, "3 ticks", period="50 ticks").shift(2, "3 ticks", period="60 ticks").text(T3)


def test_the_text_as_it_stands() -> None:
    plan = Plan(order="stop", reserved="skip", records=5, settle=2).remark("two\nlines").group("donor", 1).remark("later").trace("donor", width="1 ms", bins=3)
    before, after = "# two\n# lines\n\nversion = 2\norder = \"stop\"\nreserved = \"skip\"\nsettle = 2\nlimits = { records = 5 }\n\n", "\n# later\n[[trace]]\ngroup = 1\n"
    group = "[[group]] # donor\ninputs = [1]\n"
    assert str(plan) == f'{before}{group}{after}width = "1 ms"\nbins = 3\n'
    assert plan.text(T2) == f"{before}{group}{after}width = 250000000\nbins = 3\n"
    assert str(Plan()) == "" and str(Plan(settle=1)) == "version = 2\nsettle = 1\n" and str(Plan().remark("nothing")) == "# nothing\n"
    assert 'period = "the sync period"' in str(TWO.shift(1, 1e-9)) and 'period = "1 ns"' in str(TWO.shift(1, 1e-9, period="1 ns"))
    assert str(TWO.histogram(1, bins=4)) == TWO.histogram(1, bins=4).text()


def test_plans_are_values() -> None:
    assert TWO.histogram("donor") == TWO.histogram(1) != TWO.histogram("acceptor") and hash(TWO) == hash(Plan().group("donor", 1).group("acceptor", 2))
    assert TWO.groups == {"donor": 1, "acceptor": 2} and TWO.number_of("acceptor") == 2
    before = TWO.parts
    TWO.total("donor")
    assert TWO.parts == before


@pytest.mark.parametrize(
    ("make", "said"),
    [
        (lambda: TWO.histogram("doner"), r"no group 'doner': the plan has donor, acceptor; is 'donor' meant\?"),
        (lambda: Plan().total("donor"), "no group 'donor': the plan has none yet"),
        (lambda: TWO.group("donor", 3), "a second group 'donor'"),
        (lambda: TWO.group("a\nb", 3), "can't be the name of a group"),
        (lambda: TWO.histogram(1, width="3 parsec"), "'3 parsec' is no time: write seconds, or a number with a unit"),
        (lambda: TWO.histogram(1, width="1.5 ticks"), "a number of ticks is whole"),
        (lambda: TWO.trace(1, width=1.0), "say either where it ends"),
        (lambda: TWO.histogram(1, until=1e-9, bins=3), "say either where it ends"),
        (lambda: TWO.correlation(1), "say either where it ends"),
        (lambda: TWO.trace(1, width=math.inf, bins=1), "inf is no time: write seconds"),
        (lambda: TWO.trace(1, width="1e999 s", bins=1), "'1e999 s' is no time: write seconds"),
        (lambda: TWO.trace(1, width=1, until="1e305 s").text(T3), r"1e305 s are more ticks of 5e-08 s than numbers tell"),
        (lambda: Plan().group("x", [1.5]).text(T3), r"inputs = \[1\.5\] isn't a list"),  # type: ignore[list-item]
        (lambda: TWO.group("x", 3, gates=[(0, -1)]), "a time of -1 s: only the shift of an input may be negative"),
        (lambda: TWO.group("x", 3, gates=[(-1e-9, 1e-9)]), "a time of -1e-09 s: only"),
        (lambda: TWO.group("x", 3, gates=[("-2 ticks", "5 ticks")]), "a time of -2 ticks: only"),
        (lambda: TWO.group("x", 3, gates=[("0 ticks", 0)]), "a gate from 0 ticks to 0 s: it must end after its beginning"),
        (lambda: TWO.group("x", 3, gates=[("3 ns", 3e-9)]), "a gate from 3 ns to 3e-09 s: it must end"),
        (lambda: TWO.group("x", 3, gates=[(0, "5 ticks"), ("5 ticks", "4 ticks")]), "a gate from 5 ticks to 4 ticks: it must end"),
        (lambda: TWO.coincidence(1, 2, reach=-1e-9), "a time of -1e-09 s: only"),
        (lambda: TWO.shift(1, "-3 ns", period="-50 ns"), "a time of -50 ns: only"),
        (lambda: Plan().group("x", 70).text(T3), r"x: group 1: inputs = \[70\] isn't a list .* \(rule 9\): A group's `inputs` are a list of 1 to 65"),
        (lambda: TWO.histogram(3).text(T3), r"histogram 1: group = 3 is no group.*\(rule 12\): A histogram's `group` is the number"),
        (lambda: TWO.trace(1, width=1e300, bins=1).text(T3), r"trace 1: width = .*\(rule 14\): A trace's"),
    ],
)
def test_what_is_wrong_is_told(make: Callable[[], Any], said: str) -> None:
    with pytest.raises(BadPlanError, match=said):
        make()


@pytest.mark.parametrize("ticks", [None, Ticks(), Ticks(0.0, float("nan")), Ticks(float("inf"), -1.0)])
def test_times_of_files_that_tell_no_tick(ticks: Any) -> None:
    for plan in (TWO.histogram(1, width="1 ns", bins=2), TWO.histogram(1), TWO.trace(1, width=1, bins=1), TWO.shift(1, 0)):
        with pytest.raises(NotKnownError, match="nothing tells how"):
            plan.text(ticks)


def test_what_is_rounded_far_is_said(caplog: pytest.LogCaptureFixture) -> None:
    with caplog.at_level(logging.WARNING, "ptulab"):
        TWO.histogram(1, width="16.1 ps", bins=2).text(T3)
        assert not caplog.messages
        assert table(TWO.histogram(1, width="3 ps", bins=2), "histogram", T3)["width"] == 1
    assert caplog.messages == ["3 ps are 0.1875 ticks of 1.6e-11 s: 1 are taken"]


KINDS: list[Callable[[Plan, Any], Plan]] = [
    lambda plan, data: plan.total(1),
    lambda plan, data: plan.trace(1, width=data.draw(st.floats(1e-9, 1)), bins=data.draw(st.integers(1, 1000))),
    lambda plan, data: plan.histogram(1, width=data.draw(st.floats(1e-12, 1e-9)), until=data.draw(st.floats(1e-9, 5e-8))),
    lambda plan, data: plan.coincidence(1, 2, reach=data.draw(st.floats(1e-9, 1e-6)), width=data.draw(st.floats(1e-12, 1e-9))),
    lambda plan, data: plan.correlation(1, 2, until=data.draw(st.floats(1e-9, 1))),
    lambda plan, data: plan.startstop(2, 1, width=data.draw(st.floats(1e-12, 1e-6)), bins=9),
    lambda plan, data: plan.fold(2, 1, window=data.draw(st.floats(1e-12, 1e-6))),
    lambda plan, data: plan.cube(2, width=3, height=2, dwell=data.draw(st.floats(1e-7, 1)), line=1, dwidth=data.draw(st.floats(1e-12, 1e-9))),
]


@given(st.data())
def test_any_plan_keeps_the_rules(data: st.DataObject) -> None:
    """Whatever the times are, a text that is made is one that the program reads, and it says so of the same document."""
    plan = TWO
    for make in data.draw(st.lists(st.sampled_from(KINDS), max_size=6)):
        plan = make(plan, data)
    ticks = Ticks(data.draw(st.sampled_from([1e-12, 4e-12, 50e-9])), data.draw(st.sampled_from([4e-12, 16e-12])))
    try:
        text = plan.text(ticks)
    except BadPlanError as error:
        assert "rule" in str(error) and "(rule 7)" in str(error)  # more than there may be of a kind
        return
    assert broken_rules(read_plan(text)) == [] and read_plan(plan, ticks) == read_plan(text.encode())


def test_a_plan_wherever_one_is_wanted(program: str, tmp_path: Path, caplog: pytest.LogCaptureFixture) -> None:
    """A Plan, its text, its bytes and a path count alike, in a run, a sum, a count of files, a check and a picked file."""
    plan = Plan().group("all", 0).histogram("all", width="0.5 ns").correlation("all", until=0.01)
    text = plan.text(SCAN)
    (tmp_path / "plan.toml").write_text(text)
    forms: list[Any] = [plan, text, text.encode(), tmp_path / "plan.toml", str(tmp_path / "plan.toml")]
    reports = [ptulab.run(form, SCAN, program=program) for form in forms]
    assert all(report == reports[0] for report in reports) and reports[0].table("correlation").photons == (97492, 97492)
    (tmp_path / "report.txt").write_bytes(subprocess.run([program, "run", forms[3], SCAN], capture_output=True, check=True).stdout)
    for form in forms:
        assert ptulab.read_report(tmp_path / "report.txt", form) == reports[0]
        assert ptulab.check_plan(form, SCAN, program=program) == []
        assert ptulab.sum_reports([tmp_path / "report.txt"] * 2, form).table("correlation").photons == (97492 * 2, 97492 * 2)
        whole = ptulab.sum_files([tmp_path / "report.txt"], form)
        assert whole.report is not None and whole.report.table("histogram").groups == (1,)
        assert megabytes_of(form, SCAN) == 17
    counted = ptulab.count_files(plan, [tmp_path / "nothing.ptu", SCAN], program=program, processes=1)
    assert counted.report is not None and np.array_equal(counted.report.table("histogram").counts, reports[0].table("histogram").counts)
    picked.pick(plan, "all", SCAN, tmp_path / "picked.ptu", program=program)
    assert len(ptulab.read_events(tmp_path / "picked.ptu")) == 97492
    plan.write(tmp_path / "written.toml", SCAN)
    assert (tmp_path / "written.toml").read_text() == text


def test_a_proposed_plan_is_added_to(program: str) -> None:
    plan = ptulab.plan_for(SCAN).image("input 0", width=64, height=64, dwell="15 us", line=1, frame=2, stop=3)
    assert ptulab.run(plan, SCAN, program=program).table("image").settings["dwell"] == 300
