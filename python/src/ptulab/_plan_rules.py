"""The rules of a plan, told by the key that breaks them.

These are the rules 1 to 31 of docs/plan.md, for people who want to know *which value* is wrong: the program names the
rule and the number of the part, here stand the key and its range too. Tested against the program over random plans, not
proved; the program's word is the one that counts.
"""

from __future__ import annotations

import difflib
import math
from collections.abc import Callable, Iterable, Iterator, Mapping
from dataclasses import dataclass, field
from itertools import islice
from typing import Any, TypeGuard

KINDS = ("group", "histogram", "trace", "startstop", "coincidence", "image", "correlation", "shift", "cube", "fold")
MOST = {"group": 64, "histogram": 32, "trace": 32, "startstop": 16, "coincidence": 16, "image": 8, "correlation": 16,
        "shift": 65, "cube": 2, "fold": 8}
TOP = ("version", "order", "reserved", "limits", "period", "settle", *KINDS)  # keys of the document
SECOND = ("period", "shift", "settle", "cube", "fold")  # keys of the document in version 2 alone
LONG = 1 << 62
BINS_OF_CUBE = 1 << 26


@dataclass(frozen=True, order=True)
class Finding:
    """What is wrong with a plan, or odd in it.

    ``rule`` is the rule that is broken, or 0 of what breaks none; ``index`` is what the rule counts, the number of the
    part or 0; ``part`` names the part as "histogram 2", ``key`` its key, and ``text`` says it in words. ``refused`` is
    whether the program refuses the plan, or this file by it.
    """

    rule: int
    index: int
    part: str
    key: str
    text: str
    refused: bool = True

    def __str__(self) -> str:
        said = f"{self.part}: {self.text}" if self.part else self.text
        return f"{said} (rule {self.rule})" if self.rule else said


Test = Callable[[Any, "Document"], str]  # what is wrong with a value, or nothing


@dataclass(frozen=True)
class Document:
    """A plan's document, with what the rules of its parts ask: its version, and how many groups there are."""

    document: Mapping[str, Any]
    version: int = field(init=False)
    groups: int = field(init=False)

    def __post_init__(self) -> None:
        version = self.document.get("version", 1)
        object.__setattr__(self, "version", 2 if is_whole(version) and version == 2 else 1)
        object.__setattr__(self, "groups", len(self.tables("group")))

    def tables(self, kind: str) -> list[dict[str, Any]]:
        """The tables of a kind, or none where they are no list of tables."""
        tables: list[dict[str, Any]] = self.document.get(kind, [])
        good = isinstance(tables, list) and all(isinstance(table, dict) for table in tables)
        return tables if good else []


def is_whole(value: Any) -> TypeGuard[int]:
    """Whether a value is a whole number; a truth value is none."""
    return isinstance(value, int) and not isinstance(value, bool)


def whole(least: int, most: int) -> Test:
    def test(value: Any, plan: Document) -> str:
        return "" if is_whole(value) and least <= value <= most else f"isn't a whole number from {least:,} to {most:,}"

    return test


def one_of(*words: Any) -> Test:
    def test(value: Any, plan: Document) -> str:
        return "" if any(type(value) is type(word) and value == word for word in words) else f"isn't one of {list(words)}"

    return test


def group(value: Any, plan: Document) -> str:
    if is_whole(value) and 1 <= value <= plan.groups:
        return ""
    return f"is no group: the plan has the groups 1 to {plan.groups}" if plan.groups else "is no group: the plan has none"


def even(value: Any, plan: Document) -> str:
    return "" if is_whole(value) and value in range(2, 129, 2) else "isn't an even number from 2 to 128"


def rising(least: int, most: int, count: int) -> Test:
    """A list of up to ``count`` whole numbers, each greater than the one before it."""

    def test(value: Any, plan: Document) -> str:
        numbers = value if isinstance(value, list) else []
        good = bool(numbers) and len(numbers) <= count and all(map(is_whole, numbers))
        if not good or not least <= min(numbers) <= max(numbers) <= most:
            return f"isn't a list of 1 to {count} whole numbers from {least} to {most}"
        return "" if all(a < b for a, b in zip(numbers, numbers[1:])) else "doesn't rise: each must be greater than the one before"

    return test


def is_gate(value: Any) -> bool:
    return isinstance(value, list) and len(value) == 2 and all(map(is_whole, value)) and 0 <= value[0] < value[1] <= 32768


def gate(value: Any, plan: Document) -> str:
    return "" if is_gate(value) else "isn't two whole numbers from 0 to 32,768, the second greater than the first"


def gates(value: Any, plan: Document) -> str:
    if not isinstance(value, list) or not 1 <= len(value) <= 8 or not all(map(is_gate, value)):
        return "isn't a list of 1 to 8 gates, each two whole numbers from 0 to 32,768, the second greater than the first"
    follow = all(before[1] <= after[0] for before, after in zip(value, value[1:]))
    return "" if follow else "overlaps: each gate must begin at the end of the one before or later"


def of_groups(value: Any, plan: Document) -> str:
    return rising(1, plan.groups, 6)(value, plan)


def shifted(value: Any, plan: Document) -> str:
    period = plan.document.get("period")
    if not is_whole(period) or not 1 <= period <= 32768:
        return ""  # that is told of the period
    return whole(0, period - 1)(value, plan)


@dataclass(frozen=True)
class Key:
    """A key of a table: the rule of its value, the test, whether it may be left out, and its only version or 0."""

    test: Test
    needed: bool = True
    version: int = 0


@dataclass(frozen=True)
class Shape:
    """The rule of a table's keys, the rule of their values, and the keys."""

    rule: int
    values: int
    keys: dict[str, Key]


PIXELS = {"group": Key(group), "width": Key(whole(1, 2048)), "height": Key(whole(1, 2048)), "dwell": Key(whole(1, LONG)),
          "line": Key(whole(1, 4)), "frame": Key(whole(1, 4), False), "stop": Key(whole(1, 4), False),
          "serpentine": Key(one_of(True, False), False, 2)}
PAIR = {"first": Key(group), "second": Key(group)}
SHAPES = {
    "group": Shape(8, 9, {"inputs": Key(rising(0, 64, 65)), "gate": Key(gate, False, 1), "gates": Key(gates, False, 2)}),
    "histogram": Shape(11, 12, {"group": Key(group), "width": Key(whole(1, 32768)), "bins": Key(whole(1, 32768))}),
    "trace": Shape(13, 14, {"group": Key(group), "width": Key(whole(1, LONG)), "bins": Key(whole(1, 1 << 20)),
                            "origin": Key(whole(0, LONG), False)}),
    "startstop": Shape(15, 16, {"start": Key(group), "stop": Key(group), "width": Key(whole(1, LONG)),
                                "bins": Key(whole(1, 32768))}),
    "coincidence": Shape(17, 18, {**PAIR, "reach": Key(whole(1, 1 << 20)), "width": Key(whole(1, 1 << 21))}),
    "image": Shape(19, 20, PIXELS),
    "correlation": Shape(21, 22, {**PAIR, "lags": Key(even), "levels": Key(whole(1, 40))}),
    "shift": Shape(24, 25, {"input": Key(whole(0, 64)), "shift": Key(shifted)}),
    "cube": Shape(27, 28, {**PIXELS, "dwidth": Key(whole(1, 32768)), "dbins": Key(whole(1, 32768))}),
    "fold": Shape(30, 31, {"groups": Key(of_groups), "window": Key(whole(1, 1 << 20))}),
}


def broken_rules(document: Mapping[str, Any], most: int | None = None) -> list[Finding]:
    """Each rule that a document breaks, or the first ``most`` that are found; the least first as the program tells it; none of a good plan."""
    return sorted(islice(_broken(Document(document)), most), key=lambda finding: (finding.rule, finding.index))


def _broken(plan: Document) -> Iterator[Finding]:
    yield from _document(plan)
    yield from _lists(plan)
    for kind in KINDS:
        for number, table in enumerate(plan.tables(kind), 1):
            yield from _keys(plan, kind, number, table)
            yield from _values(plan, kind, number, table)
    yield from _shifts(plan)


def _document(plan: Document) -> Iterator[Finding]:
    document = plan.document
    for key in document:
        if key not in TOP:
            yield Finding(1, 0, "the plan", key, f"{key} is no key of a plan{_meant(key, TOP)}")
        elif key in SECOND and plan.version != 2:
            yield Finding(1, 0, "the plan", key, f"{key} is a key of a plan in version 2 only")
    tests = ((2, "version", one_of(1, 2)), (3, "order", one_of("drop", "stop")), (4, "reserved", one_of("skip", "stop")))
    for rule, key, test in (*tests, (23, "period", whole(1, 32768)), (26, "settle", whole(0, 64))):
        if key in document and (text := test(document[key], plan)):
            yield Finding(rule, 0, "the plan", key, f"{key} = {shown(document[key])} {text}")
    if document.get("shift") and "period" not in document:
        yield Finding(23, 0, "the plan", "period", "a plan with a shift needs a period")
    yield from _limits(plan)


def _limits(plan: Document) -> Iterator[Finding]:
    limits = plan.document.get("limits", {})
    if not isinstance(limits, dict):
        yield Finding(5, 0, "the plan", "limits", "limits isn't a table")
        return
    for key, value in limits.items():
        if key != "records":
            yield Finding(5, 0, "limits", key, f"{key} is no key of limits{_meant(key, ('records',))}")
        elif text := whole(1, 1 << 40)(value, plan):
            yield Finding(5, 0, "limits", key, f"{key} = {shown(value)} {text}")


def _lists(plan: Document) -> Iterator[Finding]:
    for index, kind in enumerate(KINDS, 1):
        tables = plan.document.get(kind, [])
        if not isinstance(tables, list) or not all(isinstance(table, dict) for table in tables):
            yield Finding(6, index, "the plan", kind, f"{kind} isn't a list of tables: write [[{kind}]]")
        elif len(tables) > MOST[kind]:
            yield Finding(7, index, "the plan", kind, f"there are {len(tables)} of {kind}, and at most {MOST[kind]} may be")


def _keys(plan: Document, kind: str, number: int, table: Mapping[str, Any]) -> Iterator[Finding]:
    """Keys that aren't known where they stand, and those that are wanting."""
    shape, part = SHAPES[kind], f"{kind} {number}"
    for key in table:
        if key not in shape.keys:
            yield Finding(shape.rule, number, part, key, f"{key} is no key of a {kind}{_meant(key, shape.keys)}")
        elif shape.keys[key].version not in (0, plan.version):
            yield Finding(shape.rule, number, part, key, f"{key} is a key of a {kind} in version {shape.keys[key].version} only")
    for key, known in shape.keys.items():
        if known.needed and key not in table:
            yield Finding(shape.rule, number, part, key, f"{key} is wanting")


def _values(plan: Document, kind: str, number: int, table: Mapping[str, Any]) -> Iterator[Finding]:
    """Values that are out of their ranges."""
    shape, part = SHAPES[kind], f"{kind} {number}"
    for key, known in shape.keys.items():
        if key in table and known.version in (0, plan.version) and (text := known.test(table[key], plan)):
            rule = 10 if key in ("gate", "gates") else shape.values
            yield Finding(rule, number, part, key, f"{key} = {shown(table[key])} {text}")
    if kind == "cube":
        sides = [side for key in ("width", "height", "dbins") if is_whole(side := table.get(key))]
        if len(sides) == 3 and (bins := math.prod(sides)) > BINS_OF_CUBE:
            yield Finding(29, number, part, "dbins", f"width * height * dbins is {bins:,}, and at most {BINS_OF_CUBE:,} may be")


def _shifts(plan: Document) -> Iterator[Finding]:
    """Shifts stand in the order of their inputs."""
    inputs = [table.get("input") for table in plan.tables("shift")]
    for number, (before, after) in enumerate(zip(inputs, inputs[1:]), 2):
        if is_whole(before) and is_whole(after) and after <= before:
            yield Finding(25, number, f"shift {number}", "input", f"input = {after} isn't greater than {before}, the one before")


def _meant(key: str, known: Iterable[str]) -> str:
    """A word on the key that may be meant by one that looks like it."""
    near = difflib.get_close_matches(key, known, 1)
    return f": is {near[0]} meant?" if near else ""


def shown(value: Any) -> str:
    """A value as a plan writes it, cut where it is long."""
    text = repr(value) if not isinstance(value, bool) else str(value).lower()
    return text if len(text) <= 60 else text[:57] + ".."
