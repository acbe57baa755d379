"""The plan as text and its groups as a table: each follows the other, and what is wrong stands at its line."""

from __future__ import annotations

import re
from collections.abc import Sequence
from typing import Any

from .._documents import read_plan
from .._plan_rules import Finding, Document, broken_rules, is_whole
from ..errors import BadPlanError
from ..many import _megabytes
from ._lengths import lengths_of

HEADER = re.compile(r"\s*\[\[\s*(\w+)\s*\]\]\s*(?:#(.*))?$")  # takes time by the length of the line alone
AT_LINE = re.compile(r"\(at line (\d+), column \d+\)")
KEY = re.compile(r"\s*(?:\[+\s*)?([\w-]+)\s*[=\].]")
NAME = 60  # letters of a group's name
MOST = 100  # findings that are told


def looked_over(text: str) -> dict[str, Any]:
    """The groups of a plan, whether they can be written from a table, its times and sizes, and what is wrong with it, each with its line."""
    try:
        document = read_plan(text.encode("utf-8", errors="replace"))
    except BadPlanError as error:
        place = AT_LINE.search(str(error))
        line = int(place[1]) if place else len(text.splitlines()) or 1
        return {"groups": None, "lengths": [], "findings": [{"line": line, "text": str(error), "refused": True}], "more": False}
    found = told(broken_rules(document, MOST + 1), text)
    groups = Document(document).tables("group")
    names = [(match[2] or "").strip() for match in map(HEADER.match, text.splitlines()) if match and match[1] == "group"]
    inline = len(names) != len(groups)
    return {"groups": None if inline else [_group(table, name) for table, name in zip(groups, names)], "lengths": lengths_of(text), **found}


def _group(table: dict[str, Any], name: str) -> dict[str, Any]:
    inputs, gates = table.get("inputs", []), table.get("gates", [table["gate"]] if "gate" in table else [])
    return {
        "name": name,
        "inputs": [one for one in inputs if is_whole(one)] if isinstance(inputs, list) else [],
        "gates": [one for one in gates if isinstance(one, list) and len(one) == 2 and all(map(is_whole, one))] if isinstance(gates, list) else [],
    }


def told(findings: Sequence[Finding], text: str) -> dict[str, Any]:
    """Findings as JSON has them, each with the line of the plan that it is about: at most 100, first those for which it is
    refused, and whether there are more."""
    lines, found = Lines(text), sorted(findings, key=lambda one: not one.refused)
    return {"findings": [{"line": lines.of(one), "text": str(one), "refused": one.refused} for one in found[:MOST]], "more": len(found) > MOST}


class Lines:
    """Where the parts and keys of a plan stand: each line is read once, however many are looked for."""

    def __init__(self, text: str) -> None:
        self.headers: dict[str, list[int]] = {}  # the lines of the parts of each kind, from 1
        self.keys: dict[int, dict[str, int]] = {0: {}}  # the first line of each key below a header, by the line of that
        self.all: dict[str, int] = {}  # and in the whole plan
        below = self.keys[0]
        for at, line in enumerate(text.splitlines(), 1):
            if header := HEADER.match(line):
                self.headers.setdefault(header[1], []).append(at)
            if line.lstrip().startswith("["):
                below = self.keys[at] = {}
            if key := KEY.match(line):
                below.setdefault(key[1], at)
                self.all.setdefault(key[1], at)

    def of(self, finding: Finding) -> int:
        """The line, from 1, of the key that a finding names, else that of its part, else the first."""
        kind, _, number = finding.part.rpartition(" ")
        if not number.isdigit():
            return self.all.get(finding.key, 1)
        headers = self.headers.get(kind, [])
        if not 0 < int(number) <= len(headers):
            return self.all.get(kind, 1)
        begin = headers[int(number) - 1]
        return self.keys[begin].get(finding.key, begin)


def with_groups(text: str, groups: Sequence[dict[str, Any]]) -> str:
    """The plan with these groups in the place of its own; all else stays as it is written.

    Raises ``BadPlanError`` for a plan that is no TOML, or whose groups are written inline, and ``ValueError`` for no groups.
    """
    if looked_over(text)["groups"] is None:
        raise BadPlanError("the groups of this plan can only be changed in its text")
    kept: list[str] = []
    place: int | None = None
    inside = False
    for line in text.splitlines():
        header = HEADER.match(line)
        if header and header[1] == "group":
            inside, place = True, len(kept) if place is None else place
        elif inside and (not line.strip() or line.lstrip().startswith(("[", "#"))):
            inside = False
        if not inside:
            kept.append(line)
    if place is None:
        place = next((at for at, line in enumerate(kept) if line.lstrip().startswith("[")), len(kept))
    written = [line for group in groups for line in _written(group)]
    before, after = kept[:place], kept[place:]
    while after and not after[0].strip():
        del after[0]
    whole = "\n".join([*before, *written, *after]).rstrip() + "\n"
    return _in_version_2(whole) if any(group["gates"] for group in groups) else whole


def _written(group: dict[str, Any]) -> list[str]:
    name = "".join(letter for letter in str(group["name"])[:NAME] if letter.isprintable()).strip()
    inputs = sorted({int(one) for one in group["inputs"]})
    gates = sorted([int(start), int(stop)] for start, stop in group["gates"])
    lines = [f"[[group]] # {name}" if name else "[[group]]", f"inputs = {inputs}"]
    return [*lines, *([f"gates = {gates}"] if gates else []), ""]


def _in_version_2(text: str) -> str:
    """The plan in version 2, which has lists of gates."""
    lines = text.splitlines()
    for at, line in enumerate(lines):
        if line.lstrip().startswith("["):
            break
        if re.match(r"\s*version\s*=", line):
            lines[at] = "version = 2"
            return "\n".join(lines) + "\n"
    place = next((at for at, line in enumerate(lines) if line.strip() and not line.lstrip().startswith("#")), len(lines))
    return "\n".join([*lines[:place], "version = 2", "", *lines[place:]]) + "\n"


def bounded(text: str, megabytes: int) -> dict[str, Any]:
    """The document of a plan. Raises ``BadPlanError`` where it breaks a rule, or its tables take more memory than there may be."""
    plan = text.encode("utf-8", errors="replace")
    needed = 2 * _megabytes(plan, "the plan")  # in the program, and here
    if needed > megabytes:
        raise BadPlanError(f"its tables take some {needed} MiB, and {megabytes} may be taken: ask for fewer or smaller ones")
    return read_plan(plan)
