#!/usr/bin/env python3
"""Makes a sample of single molecules that cross a focus one after the other: make_bursts.py FILE

The file is of type HydraHarp2T2 with ticks of 1 ns, and has some 90,000 photons of input 1 in 20 seconds. An even
background gives 2,000 of them a second. The others come in 800 bursts of about a millisecond and of 5 to 200 photons,
of which the bright ones are rare. The same photons come each time.
"""

import random
import sys
from typing import Any

from made_file import t2_words, write

TICK = 1e-9  # seconds
SECOND = 1_000_000_000  # ticks
LENGTH = 20  # seconds
BACKGROUND = 2_000  # photons a second
BURSTS, CROSSING = 800, 400_000  # how many there are, and how many ticks one takes, as a standard deviation


def photons() -> Any:
    """The rising times of input 1."""
    draws = random.Random(1974)
    times = [draws.randrange(LENGTH * SECOND) for _ in range(LENGTH * BACKGROUND)]
    for _ in range(BURSTS):
        middle = draws.randrange(SECOND // 100, LENGTH * SECOND - SECOND // 100)
        size = min(200, 5 + int(draws.expovariate(1 / 60)))
        times += [middle + int(draws.gauss(0, CROSSING)) for _ in range(size)]
    return sorted(times)


if __name__ == "__main__":
    write(sys.argv[1], "HydraHarp2T2", t2_words(photons()), TICK)
