"""The words of the program's refusals, which docs/make_references.py takes from the documents."""

from __future__ import annotations

import functools
import json
from importlib import resources
from typing import Any

__all__ = ["meaning_of", "rule_of"]


@functools.cache
def _words() -> dict[str, Any]:
    """The words of the rules of a plan by their numbers, and of the statuses by status and line."""
    words: dict[str, Any] = json.loads(resources.files(__package__).joinpath("refusals.json").read_text("utf-8"))
    return words


def rule_of(number: int) -> str:
    """A rule of plans in the words of docs/plan.md, nothing of one that there isn't."""
    return str(_words()["rules"].get(str(number), ""))


def meaning_of(status: int, line: str) -> str:
    """When the program ends with a status and a line, in the words of docs/formats.md, or of the rule that a plan breaks."""
    if status < 0:
        return f"signal {-status} ended the program"
    words = line.split()
    if status == 8 and "rule" in words[:-1]:
        number = words[words.index("rule") + 1]
        return rule_of(int(number)) if number.isdigit() else ""
    meanings: dict[str, str] = _words()["statuses"].get(str(status), {})
    return meanings.get(line, next(iter(meanings.values()), ""))
