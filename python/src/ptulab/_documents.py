"""Plans wherever one is wanted: a path, a text, bytes or a ``Plan``, and what the program reads as TOML, read in Python.

The program reads TOML 1.1 in UTF-8, with or without a byte order mark, of at most 65,536 bytes. Python's own reader
knows TOML 1.0, so what 1.1 has more is written in the words of 1.0 before it reads: newlines, comments and a last comma
within an inline table, the escapes ``\\e`` and ``\\xHH``, and times without seconds. Source: the TOML specification,
version 1.1.0 (toml.io). Tested against the program, not proved.
"""

from __future__ import annotations

import os
import re
import tempfile
import tomllib
from collections.abc import Iterator
from contextlib import contextmanager
from typing import Any

from ._made_plans import PathLike, Plan, Ticked
from .errors import BadPlanError

PlanLike = Plan | str | os.PathLike[str] | bytes  # a plan, a path, or the text of one: bytes, or more than one line
LONGEST = 65_536  # bytes of a plan
PTU = b"PQTTTR"  # with which a PTU file begins
DEEPEST = 80  # arrays, inline tables and the parts of dotted keys in one another

_TOKEN = re.compile(
    r'"""(?:[^\\]|\\.)*?(?:"{3,5}|\\?\Z)|\'\'\'.*?(?:\'{3,5}|\Z)'  # texts of several lines; one without an end goes to that of its line or plan
    r"|\"(?:[^\"\\\n]|\\[^\n])*\"?|'[^'\n]*'?"
    r"|\#[^\n]*|[{}\[\],]|\r?\n|[ \t]+|[^\s{}\[\],\"'#]+|.",
    re.DOTALL,
)
_ESCAPE = re.compile(r"\\(?:x([0-9A-Fa-f]{2})|(e)|(.))", re.DOTALL)
_DIGITS = re.compile(r"[0-9][0-9_]{4300}")
_CLOCK = re.compile(r"(?<![\d:+-])(\d\d:\d\d)(?![\d:])")


def read_plan(source: PlanLike, file: PathLike | Ticked | None = None) -> dict[str, Any]:
    """The document of a plan: its keys with whole numbers, texts, truth values, lists and tables.

    ``source`` is a path, the plan's bytes, its text (of more than one line), or a ``Plan``, whose times become ticks by
    ``file``. Raises ``BadPlanError`` where it is longer than 65,536 bytes or no TOML, with the path, the line and the column;
    whether it keeps the rules is for ``check_plan``.
    """
    try:
        return _document(plan_bytes(source, file))
    except BadPlanError as error:
        if not is_path(source):
            raise
        raise BadPlanError(f"{name_of(source)}: {error}") from error.__cause__


def is_path(plan: PlanLike) -> bool:
    """Whether a plan is given by its path."""
    return isinstance(plan, os.PathLike) or (isinstance(plan, str) and "\n" not in plan)


def name_of(plan: PlanLike) -> str:
    """What a plan is called: its path, or in words."""
    return os.fspath(plan) if isinstance(plan, str | os.PathLike) and is_path(plan) else "the plan"


def plan_bytes(plan: PlanLike, file: PathLike | Ticked | None = None) -> bytes:
    """The bytes of a plan, and of one at a path not many more than a plan may have; times become ticks by a file."""
    if isinstance(plan, Plan):
        return plan.text(file).encode("utf-8")
    if isinstance(plan, bytes):
        return plan
    if isinstance(plan, str) and not is_path(plan):
        return plan.encode("utf-8")
    with open(plan, "rb") as opened:
        return opened.read(LONGEST + 1)


@contextmanager
def plan_path(plan: PlanLike, file: PathLike | Ticked | None = None) -> Iterator[str]:
    """The path of a plan for the program: its own, or one of a file that is gone afterwards."""
    if isinstance(plan, str | os.PathLike) and is_path(plan):
        yield os.fspath(plan)
        return
    content = plan_bytes(plan, file)
    with tempfile.TemporaryDirectory(prefix="ptulab-") as folder:
        path = os.path.join(folder, "plan.toml")
        with open(path, "wb") as out:
            out.write(content)
        yield path


def _document(source: bytes) -> dict[str, Any]:
    if source.startswith(PTU):
        raise BadPlanError("this is a PTU file: plan and file seem to be exchanged; the plan comes first")
    if len(source) > LONGEST:
        raise BadPlanError(f"the plan is longer than {LONGEST} bytes")
    try:
        text = source.decode("utf-8").removeprefix("\ufeff")
    except UnicodeDecodeError as error:
        raise BadPlanError(f"the plan is not TOML: byte {error.start} is no UTF-8") from error
    if _deepest(text) > DEEPEST:
        raise BadPlanError(f"the plan is not TOML for the program: it is more than {DEEPEST} deep")
    try:
        document = _parsed(text)
    except (tomllib.TOMLDecodeError, RecursionError) as error:
        raise BadPlanError(f"the plan is not TOML: {error}") from error
    except ValueError as error:  # Python reads no number of so many digits
        raise BadPlanError(f"the plan is not TOML for the program: a number has more than 64 bits{_place_of_digits(text)}") from error
    _within_limits(document)
    return document


def _place_of_digits(text: str) -> str:
    """The place of the first number of thousands of digits, as ``tomllib`` tells one."""
    at = 0
    for token in _TOKEN.findall(text):
        if _DIGITS.search(token) and token[0] not in "\"'#":
            return f" (at line {text.count(chr(10), 0, at) + 1}, column {at - text.rfind(chr(10), 0, at)})"
        at += len(token)
    return ""


def _parsed(text: str) -> dict[str, Any]:
    try:
        return tomllib.loads(text)
    except tomllib.TOMLDecodeError:
        return tomllib.loads(older(text))


def older(text: str) -> str:
    """A text of TOML 1.1 in the words of TOML 1.0; what stands behind an inline table keeps its line."""
    return "".join(_older_tokens(text))


def _older_tokens(text: str) -> Iterator[str]:
    open_brackets: list[str] = []
    before, blanks, comma = "", "", False  # the last token that isn't blank, and what is kept back behind it
    lines = 0  # that ended within an inline table
    for token in _TOKEN.findall(text):
        inline = bool(open_brackets) and open_brackets[-1] == "{"
        if inline and (token.isspace() or token.startswith("#")):
            blanks += token
            continue
        lines += blanks.count("\n")
        free = before in ("{", ",") or token in (",", "}")  # a line may end here within an inline table
        yield "," if comma and token != "}" else ""
        yield " " if inline and free else blanks
        blanks, comma = "", inline and token == "," and before != "{"
        if token in ("{", "["):
            open_brackets.append(token)
        elif token in ("}", "]") and open_brackets:
            open_brackets.pop()
        before = token
        if not comma:
            yield _older_value(token)
        if lines and "{" not in open_brackets:
            yield "\n" * lines
            lines = 0


def _older_value(token: str) -> str:
    if token.startswith('"'):
        return _ESCAPE.sub(_older_escape, token)
    return token if token.startswith(("'", "#")) else _CLOCK.sub(r"\1:00", token)


def _older_escape(found: re.Match[str]) -> str:
    if found[1]:
        return "\\u00" + found[1]
    return "\\u001B" if found[2] else found[0]


def _within_limits(value: Any) -> None:
    """The program reads whole numbers of 64 bits, with their signs."""
    if isinstance(value, int) and not -(1 << 63) <= value < 1 << 63:
        told = value if value.bit_length() < 1000 else "a number"
        raise BadPlanError(f"the plan is not TOML for the program: {told} has more than 64 bits")
    if isinstance(value, dict | list):
        for part in value.values() if isinstance(value, dict) else value:
            _within_limits(part)


def _deepest(text: str) -> int:
    """How many brackets and parts of dotted keys stand in one another."""
    depths = [0]  # of each bracket that is open
    depth = most = 0
    for token in _TOKEN.findall(text):
        if token in ("{", "["):
            depths.append(depth)
            depth += 1
        elif token in ("}", "]"):
            depth = depths.pop() if len(depths) > 1 else 0
        elif token == "," or "\n" in token[:2]:
            depth = depths[-1] + (len(depths) > 1)
        elif token[0] not in "\"'#":
            depth += token.count(".")
        most = max(most, depth)
    return most
