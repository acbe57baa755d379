#!/usr/bin/env python3
"""Writes small PTU files for examples and tests: made_file.py FILE MODE EVENT ..

MODE is T2 or T3; the file is of type HydraHarp2T2 or HydraHarp2T3. An EVENT is a photon or a marker:

    1@20      a photon of input 1 at the time 20, which is in ticks in T2 and in sync periods in T3
    1@20+7    the same in T3, with the dtime 7
    m3@100    a marker with the bits 1 and 2 (1 + 2 = 3) at the time 100

Events are written in the order in which they stand, so that an event can be made that goes back in time.
"""

import re
import struct
import sys
from collections.abc import Iterator
from typing import Any

CODES = {"HydraHarp2T2": 0x01010204, "HydraHarp2T3": 0x01010304}
TIME_BITS = {"HydraHarp2T2": 25, "HydraHarp2T3": 10}  # of the time field of a record
INTEGER, FLOAT, TRUTH, EMPTY = 0x10000008, 0x20000008, 0x00000008, 0xFFFF0008


def tag(name: str, value: Any) -> Any:
    """A tag of a whole number, of a floating-point number, of a truth value, or with no value."""
    code = {float: FLOAT, bool: TRUTH, type(None): EMPTY}.get(type(value), INTEGER)
    form = "d" if code == FLOAT else "q"
    return struct.pack(f"<32siI{form}", name.encode(), -1, code, value or 0)


def header(record_type: str, tick: Any = None, announced: Any = None, **more: Any) -> Any:
    """The tags of a header: the record type, and where they are given the number of records, the seconds of a tick
    (in T3 of a sync period) and more tags by their names."""
    tags: dict[str, Any] = {"TTResultFormat_TTTRRecType": CODES[record_type]}
    tags |= {} if announced is None else {"TTResult_NumberOfRecords": announced}
    tags |= {} if tick is None else {"MeasDesc_GlobalResolution": tick}
    tags |= more | {"Header_End": None}
    return b"PQTTTR\0\0" + b"1.0.00\0\0" + b"".join(tag(name, value) for name, value in tags.items())


def photon(record_type: str, number: Any, dtime: int = 0) -> Any:
    """A photon's word, but for its time."""
    if record_type == "HydraHarp2T3":
        return number << 25 | dtime << 10
    return 0x80000000 if number == 0 else number - 1 << 25


def marker(bits: Any) -> Any:
    """A marker's word, but for its time."""
    return 0x80000000 | bits << 25


def records(record_type: str, events: Any) -> Iterator[Any]:
    """The words of events, each a time and a word without it, with wraps where the time field has run over."""
    bits, wraps = TIME_BITS[record_type], 0
    field = (1 << bits) - 1
    for time, word in events:
        while time >> bits > wraps:
            ahead = min((time >> bits) - wraps, field)
            wraps += ahead
            yield 0xFE000000 | ahead
        yield word | time & field


def t2_words(*times: Any) -> Any:
    """The records of photons of the inputs 1, 2, .. at these times, in order of time."""
    photons = sorted((int(time), number) for number, some in enumerate(times, 1) for time in some)
    return records("HydraHarp2T2", ((time, photon("HydraHarp2T2", number)) for time, number in photons))


def write(path: Any, record_type: str, words: Any, tick: Any = None, **more: Any) -> None:
    words = list(words)
    with open(path, "wb") as out:
        out.write(header(record_type, tick, len(words), **more))
        out.write(struct.pack(f"<{len(words)}I", *words))


def event(record_type: str, text: str) -> Any:
    """The time of an event that is written as above, and its word without it."""
    shape = re.fullmatch(r"(m?)(\d+)@(\d+)(?:\+(\d+))?", text)
    if not shape:
        sys.exit(f"{text} is no event")
    mark, number, time, dtime = shape[1], int(shape[2]), int(shape[3]), int(shape[4] or 0)
    return time, marker(number) if mark else photon(record_type, number, dtime)


if __name__ == "__main__":
    if len(sys.argv) < 3 or sys.argv[2] not in ("T2", "T3"):
        sys.exit(__doc__)
    kind = f"HydraHarp2{sys.argv[2]}"
    write(sys.argv[1], kind, records(kind, (event(kind, text) for text in sys.argv[3:])))
