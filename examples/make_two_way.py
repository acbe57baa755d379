#!/usr/bin/env python3
"""Makes a sample of a scan in both directions, seen by two detectors: make_two_way.py FILE

The file is of type HydraHarp2T3 and has one frame of 48 lines of 48 pixels of 100 sync periods. Marker 1 begins a line,
and the scanner has no way back: odd lines run from right to left. A letter F with a lifetime of 3 ns stands on a dark background. Its photons
come to the inputs 0 and 1 alike, but the cable of the input 1 is 8 ns longer. The same photons come each time.
"""

import random
import sys
from collections.abc import Iterator
from typing import Any

from made_file import marker, photon, records, write

SIZE, DWELL = 48, 100  # pixels of a line, and sync periods of a pixel
SYNC, TICK = 50e-9, 50e-12  # seconds
LATE = 160  # ticks that the input 1 is behind
GROUND, BRIGHT = 0.002, 0.08  # photons in a sync period


def shines(x: Any, y: Any) -> Any:
    """Whether the letter stands at a column and a row."""
    return 6 <= y < 42 and (10 <= x < 18 or (x >= 10 and (y < 14 and x < 36 or 22 <= y < 29 and x < 30)))


def events() -> Iterator[Any]:
    draws, kind = random.Random(7), "HydraHarp2T3"
    for y in range(SIZE):
        yield y * SIZE * DWELL, marker(1)
        for step in range(SIZE * DWELL):
            x = step // DWELL if y % 2 == 0 else SIZE - 1 - step // DWELL
            draw = draws.random()
            if draw < GROUND + (BRIGHT if shines(x, y) else 0):
                delay = draws.uniform(0, SYNC) if draw < GROUND else 2e-9 + draws.expovariate(1 / 3e-9)
                number = int(draws.random() < 0.5)
                dtime = (int(delay / TICK) + number * LATE) % round(SYNC / TICK)
                yield y * SIZE * DWELL + step, photon(kind, number, dtime)


if __name__ == "__main__":
    scan = {"ImgHdr_PixX": SIZE, "ImgHdr_PixY": SIZE, "ImgHdr_LineStart": 1, "ImgHdr_BiDirect": 1}
    write(sys.argv[1], "HydraHarp2T3", records("HydraHarp2T3", events()), SYNC, MeasDesc_Resolution=TICK, **scan)
