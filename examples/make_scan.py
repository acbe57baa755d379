#!/usr/bin/env python3
"""Makes the sample of a scan: make_scan.py FILE

The file is of type HydraHarp2T3 and has two frames of 64 lines of 64 pixels. On a dark background is a ring with a
lifetime of 4 ns, and in it are three beads of different brightness with one of 1.5 ns. Photons come at random,
at a rate that is the brightness of the place where the scanner is, and the same ones each time.

A line takes 64 * 300 sync periods, and the way back 4,800, on which there is only background. Marker 1 begins a line,
marker 4 ends it, and marker 3 begins a line that is a frame's first.
"""

import functools
import math
import random
import struct
import sys
from collections.abc import Iterator
from typing import Any

SIZE = 64  # pixels of a line, and lines of a frame
FRAMES = 2
DWELL = 300  # sync periods of a pixel
BACK = 4800  # sync periods of the way back
SYNC = 50e-9  # seconds of a sync period
TICK = 32e-12  # seconds of a tick of a dtime
GROUND = 0.012  # photons of the ground in a sync period

# Column, row, radius in pixels, and photons in a sync period at the middle.
BEADS = [(24, 26, 3.0, 0.50), (41, 29, 2.5, 0.35), (31, 41, 3.5, 0.25)]
# Column, row, radius, half the width of the rim, and photons in a sync period.
RING = (32, 32, 22.0, 1.8, 0.16)


def glow(distance: Any, width: Any) -> Any:
    return math.exp(-((distance / width) ** 2))


@functools.cache
def brightness(x: Any, y: Any) -> Any:
    """Photons in a sync period at a place: of the ring, and of the beads."""
    column, row, radius, width, bright = RING
    ring = bright * glow(math.hypot(x - column, y - row) - radius, width)
    beads = sum(b * glow(math.hypot(x - c, y - r), radius) for c, r, radius, b in BEADS)
    return ring, beads


def photon(draws: Any, x: Any, y: Any) -> Any:
    """The dtime of a photon of this sync period, or None where none comes."""
    ring, beads = brightness(x, y) if x is not None else (0.0, 0.0)
    draw = draws.random()
    if draw < ring:
        delay = 2e-9 + draws.expovariate(1 / 4e-9)
    elif draw < ring + beads:
        delay = 2e-9 + draws.expovariate(1 / 1.5e-9)
    elif draw < ring + beads + GROUND:
        delay = draws.uniform(0, SYNC)
    else:
        return None
    return int(delay % SYNC / TICK)


def events() -> Iterator[Any]:
    """Each photon and marker: its sync period, and its word but for the sync."""
    draws = random.Random(64)
    sync = 0
    for line in range(FRAMES * SIZE):
        yield sync, 0x80000000 | (3 if line % SIZE == 0 else 1) << 25
        for step in range(SIZE * DWELL + BACK):
            if step == SIZE * DWELL:
                yield sync, 0x80000000 | 4 << 25
            x = step // DWELL + 0.5 if step < SIZE * DWELL else None
            dtime = photon(draws, x, line % SIZE + 0.5)
            if dtime is not None:
                yield sync, dtime << 10
            sync += 1


def records() -> Iterator[Any]:
    """The words of all events, with the wraps between them."""
    wraps = 0
    for sync, word in events():
        if sync // 1024 > wraps:
            yield 0xFE000000 | (sync // 1024 - wraps)
            wraps = sync // 1024
        yield word | sync % 1024


def tag(name: str, kind: int, value: bytes) -> bytes:
    return struct.pack("<32siI", name.encode(), -1, kind) + value


def header(count: Any) -> Any:
    return b"".join(
        [
            b"PQTTTR\0\0" + b"1.0.00\0\0",
            tag("MeasDesc_GlobalResolution", 0x20000008, struct.pack("<d", SYNC)),
            tag("MeasDesc_Resolution", 0x20000008, struct.pack("<d", TICK)),
            tag("TTResultFormat_TTTRRecType", 0x10000008, struct.pack("<q", 0x01010304)),
            tag("TTResult_NumberOfRecords", 0x10000008, struct.pack("<q", count)),
            tag("Header_End", 0xFFFF0008, bytes(8)),
        ]
    )


words = list(records())
with open(sys.argv[1], "wb") as file:
    file.write(header(len(words)))
    file.write(struct.pack(f"<{len(words)}I", *words))
