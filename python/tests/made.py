"""Small PTU files for tests: headers of any tags, and photons, markers and wraps of all twelve record types.

It shares no code with the package. An event is ``(time, number)`` or ``(time, number, dtime)``, a photon of an input,
or ``(time, Bits(n))``, a marker; times are absolute, and wraps are put where the time field runs over.
"""

import struct
from collections.abc import Iterable, Iterator
from pathlib import Path
from typing import Any

CODES = {
    "PicoHarpT2": 0x00010203,
    "PicoHarpT3": 0x00010303,
    "HydraHarpT2": 0x00010204,
    "HydraHarpT3": 0x00010304,
    "HydraHarp2T2": 0x01010204,
    "HydraHarp2T3": 0x01010304,
    "TimeHarp260NT2": 0x00010205,
    "TimeHarp260NT3": 0x00010305,
    "TimeHarp260PT2": 0x00010206,
    "TimeHarp260PT3": 0x00010306,
    "MultiHarpT2": 0x00010207,
    "MultiHarpT3": 0x00010307,
}
ALL_TYPES = tuple(CODES)
T2_TYPES = tuple(name for name in CODES if name.endswith("T2"))
T3_TYPES = tuple(name for name in CODES if name.endswith("T3"))
EMPTY, TRUTH, INTEGER, FLOAT, TEXT = 0xFFFF0008, 0x00000008, 0x10000008, 0x20000008, 0x4001FFFF


class Bits(int):
    """The bits of a marker, 1 to 15."""


def tag(name: str, value: Any, index: int = -1) -> bytes:
    """A tag of a whole number, a floating-point number, a truth value, a text, or with no value."""
    start = struct.pack("<32si", name.encode(), index)
    if isinstance(value, str):
        body = value.encode() + b"\0"
        return start + struct.pack("<Iq", TEXT, len(body)) + body
    code = {float: FLOAT, bool: TRUTH, type(None): EMPTY}.get(type(value), INTEGER)
    return start + struct.pack("<Id" if code == FLOAT else "<Iq", code, value or 0)


def header(
    record_type: str, tick: float | None = None, resolution: float | None = None, announced: int | None = None, **tags: Any
) -> bytes:
    """A header with the record type and these tags; ``tick`` is the global resolution, both in seconds."""
    values: dict[str, Any] = {"TTResultFormat_TTTRRecType": CODES[record_type]}
    values |= {} if announced is None else {"TTResult_NumberOfRecords": announced}
    values |= {} if tick is None else {"MeasDesc_GlobalResolution": tick}
    values |= {} if resolution is None else {"MeasDesc_Resolution": resolution}
    return b"PQTTTR\0\0" + b"1.0.00\0\0" + b"".join(tag(*one) for one in (values | tags | {"Header_End": None}).items())


def unit(record_type: str) -> int:
    """What one wrap adds to the time."""
    if record_type.startswith("Pico"):
        return 210698240 if record_type.endswith("T2") else 65536
    if record_type == "HydraHarpT2":
        return 33552000
    return 1 << 25 if record_type.endswith("T2") else 1024


def event_word(record_type: str, time: int, number: int, dtime: int = 0) -> int:
    """The word of a photon of an input, or of a marker, at a time of its field. In a marker of PicoHarp T2 the bits
    are the low four of the time, so the time must end with them."""
    is_t2, marker = record_type.endswith("T2"), isinstance(number, Bits)
    if record_type.startswith("Pico"):
        if is_t2:
            return 15 << 28 | (time & ~15) | number if marker else number << 28 | time
        return (15 << 28 | number << 16 if marker else number << 28 | dtime << 16) | time
    if marker:
        return 1 << 31 | number << 25 | time
    if is_t2:
        return (1 << 31 if number == 0 else (number - 1) << 25) | time
    return number << 25 | dtime << 10 | time


def wrap_word(record_type: str) -> int:
    """The word of one wrap."""
    return 0xF0000000 if record_type.startswith("Pico") else 0xFE000001


def words(record_type: str, events: Iterable[tuple[int, ...]]) -> Iterator[int]:
    """The words of events in their order; one that goes back over a wrap can't be written."""
    wraps, size = 0, unit(record_type)
    for time, number, *dtime in events:
        while time >= (wraps + 1) * size:
            wraps += 1
            yield wrap_word(record_type)
        yield event_word(record_type, time - wraps * size, number, *dtime)


def write(path: Path, record_type: str, events: Iterable[tuple[int, ...]], **tags: Any) -> Path:
    """Writes a file of these events, which announces its records."""
    return write_words(path, record_type, list(words(record_type, events)), **tags)


def write_words(path: Path, record_type: str, these: list[int], **tags: Any) -> Path:
    """Writes a file of these words."""
    path.write_bytes(header(record_type, announced=len(these), **tags) + struct.pack(f"<{len(these)}I", *these))
    return path
