"""The rows of whole runs (docs/rows.md): what the program read in each of them, and what it must leave.

It shares no code with the package, nor with the program that runs the rows.
"""

import shlex
import struct
from collections.abc import Iterator
from copy import deepcopy
from dataclasses import dataclass, field

import made
from conftest import ROOT

HOME = ROOT / "crates" / "worked_rows"
PREAMBLE = b"PQTTTR\0\0" + b"1.0.00\0\0"
HEAD = "type announced global resolution records photons markers wraps reserved late first last".split()
TYPES_OF_TAGS = {
    "tyEmpty8": 0xFFFF0008,
    "tyBool8": 0x00000008,
    "tyInt8": 0x10000008,
    "tyBitSet64": 0x11000008,
    "tyColor8": 0x12000008,
    "tyFloat8": 0x20000008,
    "tyTDateTime": 0x21000008,
    "tyFloat8Array": 0x2001FFFF,
    "tyAnsiString": 0x4001FFFF,
    "tyWideString": 0x4002FFFF,
    "tyBinaryBlob": 0xFFFFFFFF,
}


@dataclass
class Row:
    """A row: ``holds`` has the bytes of its ``plan`` and ``file``, and of ``out`` and ``err``, which it must leave."""

    name: str
    words: tuple[str, ...] = ()
    status: int = 0
    faults: bool = False  # calls fail, or an output has less room than it needs
    disk: bool = False  # it reads files of the folder data
    alike: bool = False  # it doesn't say what standard output has, but that it is the same in pieces of any size
    holds: dict[str, bytes] = field(default_factory=lambda: dict.fromkeys(("plan", "file", "out", "err"), b""))


def worked_rows() -> Iterator[Row]:
    """All rows, in the order in which the program of the rows runs them."""
    shared: dict[str, bytes] = {}
    for name in (HOME / "args").read_text().split():
        yield from _rows_of((HOME / "data" / name).read_text(), shared)


def names_that_passed() -> list[str]:
    """The names of all rows, as the program of the rows prints them. Two lines on the adapters to files come after them."""
    lines = (HOME / "stdout").read_text().splitlines()
    names = [line.removeprefix("ok ") for line in lines if line.startswith("ok ")]
    assert all(name.endswith(" not tried again") for name in names[-2:])
    return names[:-2]


def _rows_of(text: str, shared: dict[str, bytes]) -> Iterator[Row]:
    row, name = None, ""
    for line in text.split("\n"):
        key, _, rest = line.partition(" ")
        if not line or line.startswith("#"):
            continue
        if key in ("row", "let", "again"):
            if row:
                yield deepcopy(row)
            row = None if key == "let" else row if key == "again" else Row(rest)
            name = rest if key == "let" else ""
            if key == "let":
                shared[rest] = b""
            elif row:
                row.name, row.status = rest, 0
                row.holds |= {"out": b"", "err": b""}
        elif name:
            shared[name] = _with_line(shared[name], key.removeprefix("is"), rest, shared)
        else:
            assert row is not None, line
            _take(row, key, rest, shared)
    if row:
        yield row


def _take(row: Row, key: str, rest: str, shared: dict[str, bytes]) -> None:
    """A line of a row; those of bytes append."""
    match key:
        case "words":
            row.words = tuple(shlex.split(rest))
        case "status":
            row.status = int(rest)
        case "failing" | "room":
            row.faults = True
        case "pieces":
            row.alike = rest.startswith("alike ")
        case "disk":
            row.disk = True
        case "reads" | "with" | "with:":  # runs with more behind the plan are the program's alone
            pass
        case _:
            kind = key.removesuffix(":")
            row.holds[kind] = _with_line(row.holds[kind], key[len(kind) :], rest, shared)


def _with_line(before: bytes, colon: str, rest: str, shared: dict[str, bytes]) -> bytes:
    """The bytes so far with those of a line: of a text, or behind a colon of a kind."""
    if not colon:
        return before + _text(rest)
    kind, _, more = rest.partition(" ")
    if kind == "first":
        assert int(more) <= len(before)
        return before[: int(more)]
    if kind == "repeat":
        many, _, once = more.partition(" ")
        return before + int(many) * _once(once, shared)
    return before + _once(rest, shared)


def _once(made_of: str, shared: dict[str, bytes]) -> bytes:
    kind, _, rest = made_of.partition(" ")
    match kind:
        case "the":
            return shared[made_of]
        case "bytes":
            return bytes(int(byte, 16) for byte in rest.split())
        case "words":
            return _words(rest)
        case "tag":
            return _tag(*shlex.split(rest.replace("\\", "\\\\")))
        case "short":
            record_type, _, words = rest.partition(" ")
            code = f"{made.CODES.get(record_type) or int(record_type, 16):X}"
            tags = _tag("TTResultFormat_TTTRRecType", "-1", "tyInt8", code) + _tag("Header_End", "-1", "tyEmpty8", "0")
            return PREAMBLE + tags + _words(words)
        case "text":
            return _text(rest)
        case "summary":
            return "".join(f"{name} {value}\n" for name, value in zip(HEAD, rest.split(), strict=True)).encode()
        case "preamble":
            return PREAMBLE
    raise ValueError(f"no kind of bytes: {made_of}")


def _text(line: str) -> bytes:
    line = line.replace("\\n", "\n")
    return line.removesuffix("\\").encode() if line.endswith("\\") else f"{line}\n".encode()


def _words(digits: str) -> bytes:
    words = [int(word, 16) for word in digits.split()]
    return struct.pack(f"<{len(words)}I", *words)


def _tag(name: str, index: str, kind: str, value: str) -> bytes:
    assert len(name) <= 32
    code = made.CODES.get(kind) or TYPES_OF_TAGS.get(kind)
    return struct.pack("<32siIQ", name.encode(), int(index), int(kind, 16) if code is None else code, int(value, 16))
