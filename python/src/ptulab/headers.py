"""The header of a PTU file: a preamble, and tags up to ``Header_End``.

The format is PicoQuant's (documentation of the unified TTTR file format); ``docs/formats.md`` states what of it is read
here and by the program, and how a header is refused. What is refused here is what the program refuses.
"""

import math
import os
import stat
import struct
from collections.abc import Mapping
from dataclasses import dataclass, field
from datetime import datetime, timedelta
from typing import Any, BinaryIO

import numpy as np

from .errors import BadFileError
from ._values import Compared

__all__ = ["Header", "read_header"]

RECORD_TYPES = {
    0x00010203: "PicoHarpT2",
    0x00010303: "PicoHarpT3",
    0x00010204: "HydraHarpT2",
    0x00010304: "HydraHarpT3",
    0x01010204: "HydraHarp2T2",
    0x01010304: "HydraHarp2T3",
    0x00010205: "TimeHarp260NT2",
    0x00010305: "TimeHarp260NT3",
    0x00010206: "TimeHarp260PT2",
    0x00010306: "TimeHarp260PT3",
    0x00010207: "MultiHarpT2",
    0x00010307: "MultiHarpT3",
}
LONGEST = 1 << 24  # bytes of a header
SHORT = 1 << 16  # bytes that nearly every header has room in, and that are looked at first
PREAMBLE, TAG = 16, struct.Struct("<32siIq")
EMPTY, TRUTH, INTEGER, BITS, COLOUR = 0xFFFF0008, 0x00000008, 0x10000008, 0x11000008, 0x12000008
FLOAT, DATE, FLOATS, TEXT, WIDE, BLOB = 0x20000008, 0x21000008, 0x2001FFFF, 0x4001FFFF, 0x4002FFFF, 0xFFFFFFFF
WITH_BODY = {FLOATS, TEXT, WIDE, BLOB}
WITHOUT_BODY = {EMPTY, TRUTH, INTEGER, BITS, COLOUR, FLOAT, DATE}


@dataclass(frozen=True, eq=False)
class Header(Compared):
    """What a PTU file says of itself.

    ``tags`` has the value of each tag by its name, the first where a name stands twice: a whole number, a
    floating-point number (a date is the days since 1899-12-30), a truth value, a text, bytes, an array of
    floating-point numbers, or None of a tag that is empty. Where tags of one name form an array (index 0 or more) the
    value is a dictionary by their index.
    """

    record_type: str  # one of the twelve names
    tags: Mapping[str, Any] = field(repr=False)
    announced: int | None  # how many records the header says there are
    global_seconds: float | None  # of a tick of T2, of a sync period of T3
    resolution_seconds: float | None  # of a tick of a T3 dtime
    length_bytes: int  # up to the first record
    records: int  # whole records behind it
    left_over_bytes: int = 0  # behind the last whole record, 0 to 3

    @property
    def mode(self) -> str:
        """``"T2"`` or ``"T3"``."""
        return self.record_type[-2:]

    def pixel_micrometres(self, columns: int) -> float | None:
        """How long and wide a pixel is by ``ImgHdr_PixResol``, None where that isn't told, or the scan had other columns."""
        length = self.tags.get("ImgHdr_PixResol")
        known = isinstance(length, float) and 0 < length < math.inf and self.tags.get("ImgHdr_PixX") == columns
        return length if known else None

    @property
    def created(self) -> datetime | None:
        """When the measurement began, in the clock of its computer, by ``File_CreatingTime``; None where it isn't told."""
        days = self.tags.get("File_CreatingTime")
        if not isinstance(days, float):
            return None
        try:
            return datetime(1899, 12, 30) + timedelta(days=days)
        except (OverflowError, ValueError):
            return None


def other_records(announced: int | None, records: int) -> str:
    """Words on a file that has another number of records than its header announces; none where that tells nothing, as
    some programs write the header before they know the number, and announce 0 or nothing."""
    if not announced or announced == records:
        return ""
    said = f"the header announces {announced:,} records, and there are {records:,}"
    return said + ": the file may be cut" if announced > records else said


def read_header(path: str | os.PathLike[str]) -> Header:
    """The header of the PTU file at ``path``, which must be a file and no pipe.

    Raises ``BadFileError`` with the status and the line of the program (10 to 16) where the program would refuse it, and with
    3 for a pipe; ``OSError`` where it can't be opened.
    """
    if stat.S_ISFIFO(os.stat(path).st_mode):
        raise BadFileError(3, "cannot read the data: a pipe can't be mapped", os.fspath(path))
    with open(path, "rb") as file:  # read, since a map of a file that someone cuts meanwhile would end the process
        whole = os.fstat(file.fileno()).st_size
        return parse_header(file.read(min(SHORT, whole)), whole, os.fspath(path), file)


def parse_header(start: bytes, whole: int, path: str = "", rest: BinaryIO | None = None) -> Header:
    """The header that ``start`` begins with, of a file of ``whole`` bytes; ``rest`` gives what follows, for a long header."""
    try:
        values, firsts, length = _tags(start, whole)
    except BadFileError as fault:
        if fault.status in (11, 16) and rest is not None and len(start) < min(whole, LONGEST):
            return parse_header(start + rest.read(min(LONGEST, whole) - len(start)), whole, path)
        raise BadFileError(fault.status, fault.line, path) from None
    code = firsts.get(("TTResultFormat_TTTRRecType", INTEGER))
    if code is None:
        raise BadFileError(14, "no record type", path)
    if code not in RECORD_TYPES:
        raise BadFileError(15, f"record type {code % 2**64:016X}", path)
    return Header(
        RECORD_TYPES[code],
        values,
        firsts.get(("TTResult_NumberOfRecords", INTEGER)),
        firsts.get(("MeasDesc_GlobalResolution", FLOAT)),
        firsts.get(("MeasDesc_Resolution", FLOAT)),
        length,
        (whole - length) // 4,
        (whole - length) % 4,
    )


def _tags(data: bytes, whole: int) -> tuple[dict[str, Any], dict[tuple[str, int], Any], int]:
    """Of a header the values by name, the first value of each name and type, and its length."""
    if len(data) >= 6 and data[:6] != b"PQTTTR":
        raise BadFileError(10, "not a PTU file")
    values: dict[str, Any] = {}
    firsts: dict[tuple[str, int], Any] = {}
    at, number, name = PREAMBLE, 0, ""
    while name != "Header_End":
        if at + TAG.size > len(data):
            raise _ended(whole)
        number += 1
        raw, index, code, bits = TAG.unpack_from(data, at)
        name, at = raw.split(b"\0")[0].decode("latin-1"), at + TAG.size
        if code not in WITH_BODY and code not in WITHOUT_BODY:
            raise BadFileError(12, f"tag {number} has type {code:08X}")
        length = bits if code in WITH_BODY else 0
        if length < 0:
            raise BadFileError(13, f"tag {number} has length {length}")
        if at + length > len(data):
            raise _ended(whole)
        value = _value(code, bits, data[at : at + length])
        at += length
        firsts.setdefault((name, code), value)
        if index < 0:
            values.setdefault(name, value)
        else:
            elements = values.setdefault(name, {})
            if isinstance(elements, dict):
                elements.setdefault(index, value)
    return values, firsts, at


def _ended(whole: int) -> BadFileError:
    if whole >= LONGEST:
        return BadFileError(16, f"header longer than {LONGEST} bytes")
    return BadFileError(11, f"header cut after {whole} bytes")


def _value(code: int, bits: int, body: bytes) -> Any:
    """The value of a tag by its type."""
    if code in (FLOAT, DATE):
        return float(struct.unpack("<d", struct.pack("<q", bits))[0])
    if code == FLOATS:
        return np.frombuffer(body, dtype="<f8", count=len(body) // 8)
    if code == TEXT:
        return body.split(b"\0")[0].decode("latin-1")
    if code == WIDE:
        return body.decode("utf-16-le", errors="replace").split("\0")[0]
    if code in (BITS, COLOUR):
        return bits % 2**64
    return {EMPTY: None, TRUTH: bits != 0, BLOB: body}.get(code, bits)
