"""Tests of check_measures.py: pytest docs"""

import datetime
import tomllib
from pathlib import Path
from typing import Any

import check_measures
import pytest
from check_measures import faults_of_constants, faults_of_counts, faults_of_days, pages_of, put_figures, unmeasured
from made_parts import ROOT

PAGE = """A run takes 1.5 to
2.25 seconds and 30 MiB, in version 3.11.2.

```
7.5 s
```

| `9.5` | 4 seconds |

<!-- made by docs/check_measures.py: rows -->
| 3.5 |
<!-- end -->
"""
WORDS = "takes {1.5} to {2.25} seconds"
NOTHING: dict[str, Any] = {"units": ["seconds", "MiB", "KiB", "records"], "things": ["facts"], "sources": []}


@pytest.mark.parametrize(
    ("page", "facts", "found"),
    [
        (PAGE, ["30 MiB", "4 seconds"], []),
        (PAGE + "It has all nine facts, in two parts.\n", ["30 MiB", "4 seconds"], ["p.md: 'It has all nine facts' is no measure of docs/measures.toml"]),
        (PAGE, ["4 seconds"], ["p.md: 'A run   and 30 MiB' is no measure of docs/measures.toml"]),
        (PAGE + "It took 0.9.\n", ["30 MiB", "4 seconds"], ["p.md: 'It took 0.9' is no measure of docs/measures.toml"]),
        (PAGE + "Of 2^20 records 12 % are late.\n", ["30 MiB", "4 seconds"], ["p.md: 'Of 2^20 records 12 %' is no measure of docs/measures.toml"]),
        (PAGE, ["30 MiB", "4 seconds", "8 KiB"], ["p.md: '8 KiB', a fact of docs/measures.toml, isn't there"]),
    ],
)
def test_each_figure_of_a_page_is_known(monkeypatch: pytest.MonkeyPatch, page: Any, facts: Any, found: Any) -> None:
    monkeypatch.setattr(check_measures, "read", lambda name: page)
    told = {**NOTHING, "told": {"run": {"page": "p.md", "words": [WORDS]}}, "facts": {"p.md": facts}}
    assert list(unmeasured("p.md", told)) == found


@pytest.mark.parametrize(
    ("text", "unknown"),
    [
        ("Of 97,492 there are 7,210.\n", ["97,492", "7,210"]),
        ("Of 97,492 there are 7,210.\n\n```console\n$ ptu\nphotons 97492\n```\n", ["7,210"]),
        ("Of `97492` there are 4,096 at most, in 65,536.\n", ["65,536"]),  # by the sources
        ("About 5, of 2^20; *J. Phys. E* **31**, 878 (1968), read on 28 November 2026, (1968) and 41.\n", ["41"]),
    ],
)
def test_other_numbers_are_of_an_example_or_the_sources(monkeypatch: pytest.MonkeyPatch, tmp_path: Path, text: str, unknown: list[str]) -> None:
    monkeypatch.setattr(check_measures, "read", lambda name: text)
    monkeypatch.setattr(check_measures, "ROOT", tmp_path)
    (tmp_path / "here.rt").write_text("SIZE: usize = 1 << 12; LIMIT: u64 = 1_024;", encoding="utf-8")
    check_measures.literals_of.cache_clear()
    found = list(unmeasured("p.md", {**NOTHING, "sources": ["*.rt"]}))
    check_measures.literals_of.cache_clear()
    assert [fault.split("'")[1].split(" ")[-1] for fault in found] == unknown
    assert all("is in no example" in fault for fault in found)


def test_the_figures_of_a_place_are_those_of_the_file() -> None:
    assert put_figures(PAGE, WORDS, ["1.5", "2.25"]) == PAGE
    assert put_figures(PAGE.replace("2.25", "2.26"), WORDS, ["1.5", "2.25"]) == PAGE
    assert put_figures(PAGE, "takes {1.5} to {2.25} hours", ["1.5", "2.25"]) is None
    assert put_figures(PAGE + PAGE, WORDS, ["1.5", "2.25"]) is None
    assert put_figures("In nine facts, or 9 rows", "In {9} facts, or {9} rows", ["11", "11"]) == "In eleven facts, or 11 rows"
    assert put_figures("In nine facts", "In {9} facts", ["21"]) == "In 21 facts"


def test_what_was_measured_has_its_day_and_conditions() -> None:
    day = datetime.date(2026, 11, 28)
    assert not list(faults_of_days({"measure": {"a": {"value": 1, "on": day}, "b": {"counted": "python"}}, "table": {"c": {"on": day, "how": "once"}}}))
    assert len(list(faults_of_days({"measure": {"a": {"value": 1}}, "told": {"b": {"on": day}, "c": {"how": "once"}}}))) == 3


def test_what_is_counted_may_differ_by_a_tenth(monkeypatch: pytest.MonkeyPatch) -> None:
    monkeypatch.setitem(check_measures.COUNTERS, "crates_of_program", lambda: 42)
    measures: dict[str, Any] = {"a": {"counted": "crates_of_program"}, "b": {"counted": "crates_of_program", "value": 40}, "c": {"counted": "crates_of_program", "value": 30}}
    assert [fault.split(": ")[1] for fault in faults_of_counts(measures)] == ["c is 30, and was counted as 42"]
    assert measures["a"]["value"] == 42


def test_constants_of_the_code_are_known_on_any_page(monkeypatch: pytest.MonkeyPatch) -> None:
    monkeypatch.setattr(check_measures, "read", lambda name: {"p.md": "It reads 8,192\nbytes, not 18,192 bytes.\n"}.get(name, "PIECE = 8192;"))
    constants = {"piece": {"words": ["8,192 bytes"], "file": "a.rt", "text": "PIECE = 8192;"}}
    told = {**NOTHING, "units": ["bytes"], "constant": constants}
    assert list(unmeasured("p.md", told)) == ["p.md: 'It reads  , not 18,192 bytes' is no measure of docs/measures.toml"]
    assert not list(faults_of_constants(constants))
    constants["piece"]["text"] = "PIECE = 4096;"
    assert list(faults_of_constants(constants)) == ["docs/measures.toml: constant.piece: a.rt hasn't the text 'PIECE = 4096;'"]


def test_every_page_is_checked_but_those_apart() -> None:
    found = pages_of({"pages": ["README.md", "docs/*.md"], "apart": ["docs/notebook.md"]})
    assert {"README.md", "docs/plan.md", "docs/app.md"} <= set(found) and "docs/notebook.md" not in found


def test_angles_and_multiples_in_words_are_figures(monkeypatch: pytest.MonkeyPatch) -> None:
    text = "It turns every point by 36 degrees, and is preset to six times the mean.\n"
    monkeypatch.setattr(check_measures, "read", lambda name: text)
    kinds = tomllib.loads((ROOT / "docs" / "measures.toml").read_text("utf-8"))
    found = list(unmeasured("p.md", {**NOTHING, "units": kinds["units"], "things": kinds["things"]}))
    assert len(found) == 2 and "36 degrees" in found[0] and "six times" in found[1]
