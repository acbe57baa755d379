#!/usr/bin/env python3
"""Makes a sample of two detectors behind a beam splitter: make_pairs.py FILE [--steady]

The file is of type HydraHarp2T2 with ticks of 100 ps, and has 360,627 photons of the inputs 1 and 2. 300,001 of them
come from a single emitter, which cannot give two photons at once (antibunching), and which goes dark at random for some
microseconds (blinking). The others are an even background, a tenth as bright as the emitter while it shines. With
--steady it never goes dark: 330,014 photons, with half as much background, and g2 is 1 beside the dip. The same photons
come each time.
"""

import random
import sys
from collections.abc import Iterator
from typing import Any

from made_file import t2_words, write

TICK = 100e-12  # seconds
PHOTONS = 300_000
PUMP, DECAY = 300, 100  # ticks until the emitter is excited, and until it emits
BRIGHT, DARK = 40_000, 40_000  # ticks that it stays so, on average
GROUND = 4_000  # ticks between photons of the background


def emitted(draws: Any, blinks: Any) -> Iterator[Any]:
    """The times at which the emitter emits."""
    time, dark = 0.0, draws.expovariate(1 / BRIGHT) if blinks else float("inf")
    while True:
        time += draws.expovariate(1 / PUMP) + draws.expovariate(1 / DECAY)
        if time < dark:
            yield time
        else:
            time = dark + draws.expovariate(1 / DARK)
            dark = time + draws.expovariate(1 / BRIGHT)


def photons(blinks: bool = True) -> Any:
    """The rising times of each of the two inputs."""
    draws, background = random.Random(2003), 0.0
    inputs: tuple[list[int], list[int]] = ([], [])
    for count, time in enumerate(emitted(draws, blinks)):
        while background < time:
            inputs[draws.random() < 0.5].append(int(background))
            background += draws.expovariate(1 / GROUND)
        inputs[draws.random() < 0.5].append(int(time))
        if count == PHOTONS:
            return inputs


if __name__ == "__main__":
    write(sys.argv[1], "HydraHarp2T2", t2_words(*photons(blinks="--steady" not in sys.argv[2:])), TICK)
