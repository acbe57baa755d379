"""The rules of a plan, beside the program's own word over random plans."""

import re
from collections.abc import Callable
from pathlib import Path
from typing import Any

import pytest
from hypothesis import HealthCheck, given, settings
from hypothesis import strategies as st

from conftest import EXAMPLES
from ptulab._documents import read_plan
from ptulab._plan_rules import KINDS, SHAPES, broken_rules

EDGES = [-1, 0, 1, 2, 3, 4, 5, 40, 41, 64, 65, 128, 129, 2048, 2049, 32768, 32769, 1 << 20, (1 << 20) + 1, 1 << 21,
         (1 << 21) + 1, 1 << 40, (1 << 40) + 1, 1 << 62, (1 << 62) + 1]
NUMBERS = st.one_of(st.sampled_from([1, 1, 2, 2, 3, 4]), st.sampled_from(EDGES))
OTHERS = st.sampled_from([True, 1.0, "1", [], {}])
GATE = st.one_of(st.just([0, 5]), st.lists(st.sampled_from([0, 1, 5, 32768, 32769]), min_size=1, max_size=3))
VALUES: dict[str, st.SearchStrategy[Any]] = {
    "inputs": st.one_of(st.sets(st.integers(0, 64), min_size=1, max_size=3).map(lambda some: sorted(some)), st.lists(NUMBERS, max_size=3)),
    "gate": GATE,
    "gates": st.one_of(st.just([[0, 5], [5, 9]]), st.lists(GATE, max_size=9)),
    "groups": st.one_of(st.just([1, 2]), st.lists(st.integers(0, 4), max_size=7)),
    "serpentine": st.one_of(st.booleans(), NUMBERS),
    "lags": st.sampled_from([2, 16, 128, 3, 130]),
}


def toml(value: Any) -> str:
    if isinstance(value, dict):
        return "{" + ", ".join(f"{key} = {toml(part)}" for key, part in value.items()) + "}"
    if isinstance(value, list):
        return "[" + ", ".join(map(toml, value)) + "]"
    return {True: "true", False: "false"}[value] if isinstance(value, bool) else f'"{value}"' if isinstance(value, str) else str(value)


@st.composite
def tables(draw: st.DrawFn, kind: str) -> dict[str, Any]:
    """A table that is mostly whole: now and then a key is wanting, another is there, or a value is of another type."""
    table = {}
    for key, known in SHAPES[kind].keys.items():
        if draw(st.integers(0, 20)) > (0 if known.needed else 14):
            table[key] = draw(OTHERS if draw(st.integers(0, 40)) == 0 else VALUES.get(key, NUMBERS))
    return table | ({"colour": 1} if draw(st.integers(0, 50)) == 0 else {})


@st.composite
def plans(draw: st.DrawFn) -> dict[str, Any]:
    plan: dict[str, Any] = {"version": draw(st.sampled_from([2, 2, 2, 2, 1, 1, 3, True]))} if draw(st.integers(0, 4)) else {}
    plan["group"] = [{"inputs": [number]} for number in range(draw(st.integers(1, 3)))]
    if draw(st.integers(0, 9)) == 0:
        plan["group"].append(draw(tables("group")))
    extra = {
        "order": st.sampled_from(["drop", "stop", "skip", 1]),
        "reserved": st.sampled_from(["skip", "stop", "drop", 1]),
        "limits": st.one_of(st.builds(lambda n: {"records": n}, NUMBERS), st.sampled_from([1, {}, {"x": 1}])),
        "period": NUMBERS,
        "settle": NUMBERS,
        "colour": NUMBERS,
    }
    for key in draw(st.lists(st.sampled_from(sorted(extra)), max_size=1)):
        plan[key] = draw(extra[key])
    for kind in draw(st.lists(st.sampled_from(KINDS[1:]), max_size=3, unique=True)):
        plan[kind] = draw(st.one_of(st.lists(tables(kind), min_size=1, max_size=3), st.sampled_from([[], 1, [1]])))
    return plan


@settings(max_examples=100, deadline=None, suppress_health_check=[HealthCheck.function_scoped_fixture, HealthCheck.too_slow])
@given(plan=plans())
def test_the_least_broken_rule_is_the_programs(tmp_path: Path, ptu: Callable[..., Any], plan: Any) -> None:
    (tmp_path / "plan.toml").write_text("\n".join(f"{key} = {toml(value)}" for key, value in plan.items()))
    told = ptu("run", tmp_path / "plan.toml", "/dev/null")
    found = broken_rules(plan)
    assert told.returncode == (8 if found else 11), told.stderr
    if found:
        assert [found[0].rule, found[0].index] == list(map(int, re.findall(r"\d+", told.stderr)))


@pytest.mark.parametrize("kind", KINDS)
def test_too_many_of_a_kind(tmp_path: Path, ptu: Callable[..., Any], kind: str) -> None:
    good = {"inputs": [0], "group": 1, "width": 1, "bins": 1, "start": 1, "stop": 1, "first": 1, "second": 1, "reach": 1,
            "height": 1, "dwell": 1, "line": 1, "lags": 2, "levels": 1, "shift": 0, "dwidth": 1, "dbins": 1, "groups": [1], "window": 1}
    plan: dict[str, Any] = {"version": 2, "period": 9, "group": [{"inputs": [0]}]}
    keys = [key for key, known in SHAPES[kind].keys.items() if known.needed]
    plan[kind] = [{key: number if key == "input" else good[key] for key in keys} for number in range(66)]
    (tmp_path / "plan.toml").write_text("\n".join(f"{key} = {toml(value)}" for key, value in plan.items()))
    assert broken_rules(plan)[0].rule == 7
    assert ptu("run", tmp_path / "plan.toml", "/dev/null").stderr.startswith("ptu: plan breaks rule 7 at ")


def test_the_key_is_named() -> None:
    plan = {"group": [{"inputs": [0]}], "histogram": [{"group": 1, "width": 0, "bins": 40000}, {"group": 2, "width": 1, "bins": 1}]}
    assert [(one.part, one.key) for one in broken_rules(plan)] == [("histogram 1", "width"), ("histogram 1", "bins"), ("histogram 2", "group")]
    assert str(broken_rules(plan)[1]) == "histogram 1: bins = 40000 isn't a whole number from 1 to 32,768 (rule 12)"
    assert broken_rules({"group": [{"inputs": [0]}]}) == []


def test_the_examples_keep_the_rules() -> None:
    broken = {path.name for path in EXAMPLES.glob("*.toml") if broken_rules(read_plan(path))}
    assert broken == {"broken.toml"}
