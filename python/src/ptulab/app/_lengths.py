"""The times and sizes in a plan's tables, each with its line, for fields in which they are shown and typed in seconds."""

from __future__ import annotations

import re
from collections import Counter
from typing import Any

HEADER = re.compile(r"\s*\[\[\s*(\w+)\s*\]\]")
VALUE = re.compile(r"\s*([a-z]+)\s*=\s*([0-9](?:_?[0-9]){0,15})\s*(?:#.*)?$")
MOST = 200  # fields of a page
DELAY, TIME = "delay", "time"  # ticks of the dtime; and of T2 files, or sync periods of T3 files
PIXELS = {"width": ("columns", "pixels"), "height": ("rows", "pixels"), "dwell": ("a column lasts", TIME)}
BIN = ("a bin lasts", TIME)
# What each key is called, and its unit: one of those above, "pixels", or the key that it is a number of.
LENGTHS = {
    "histogram": {"width": ("a bin lasts", DELAY), "bins": ("bins", "width")},
    "trace": {"origin": ("the first bin begins at", TIME), "width": BIN, "bins": ("bins", "width")},
    "startstop": {"width": BIN, "bins": ("bins", "width")},
    "coincidence": {"reach": ("differences up to", TIME), "width": ("a cell lasts", TIME)},
    "image": PIXELS,
    "shift": {"shift": ("is later by", DELAY)},
    "cube": PIXELS | {"dwidth": ("a bin of the delay lasts", DELAY), "dbins": ("bins of the delay", "dwidth")},
    "fold": {"window": ("the window lasts", TIME)},
    "": {"period": ("the period of shifts lasts", DELAY)},
}


def lengths_of(text: str) -> list[dict[str, Any]]:
    """The times and sizes of a plan that stand on lines of their own, in the order of their lines, which count from 1."""
    found: list[dict[str, Any]] = []
    many: Counter[str] = Counter()
    kind = ""
    for line, words in enumerate(text.split("\n"), 1):
        if header := HEADER.match(words):
            kind = header[1]
            many[kind] += 1
        elif words.lstrip().startswith("["):
            kind = "another"
        told = VALUE.match(words)
        if told and told[1] in LENGTHS.get(kind, {}):
            label, unit = LENGTHS[kind][told[1]]
            part = f"{kind} {many[kind]}" if kind else "the plan"
            found.append({"part": part, "key": told[1], "label": label, "unit": unit, "value": int(told[2]), "line": line})
    return found[:MOST]
