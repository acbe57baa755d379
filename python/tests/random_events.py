"""Random events for hypothesis: a few inputs and markers that are near in time, some of them late, some of one time.

Hypothesis chooses how many there are and a seed, since lists that it draws one by one are short for the most part. It draws
a number anew that passes the bound, which can use up what it allows an example, so bounds are those of whole bits.
"""

import random
from typing import Any

import made
import numpy as np
from hypothesis import strategies as st

UNIT = 1024  # what a wrap of HydraHarp2T3 adds
SEEDS = st.integers(0, 2**32 - 1)


def in_order_but_few(steps: Any) -> Any:
    """Absolute times of steps of which some go back, never over a wrap."""
    time, events = 0, []
    for step, *rest in steps:
        if step < 0 and (time + step) // UNIT == time // UNIT and time + step >= 0:
            events.append((time + step, *rest))
        else:
            time += abs(step)
            events.append((time, *rest))
    return events


def some(many: Any, seed: int, markers: Any, back: Any) -> Any:
    """So many events, of which this part are markers, and this part go back in time."""
    draws = random.Random(seed)
    near = draws.choice((2, 6, 30))
    steps = []
    for _ in range(many):
        step = draws.randint(-3, -1) if draws.random() < back else 700 if draws.random() < 0.02 else draws.randint(0, near)
        event = (made.Bits(draws.randint(1, 15)),) if draws.random() < markers else (draws.randint(0, 2), draws.randint(0, 40))
        steps.append((step, *event))
    return in_order_but_few(steps)


def events(markers: Any, back: Any) -> Any:
    return st.builds(some, st.integers(0, 255), SEEDS, st.just(markers), st.just(back))


scans = st.one_of(events(0.15, 0.03), events(0.4, 0.03))
streams = events(0.0, 0.03)
rising = events(0.0, 0.0).map(lambda these: [(0, 1)] + [(time, number + 1) for time, number, _ in these])


def _times(many: Any, seed: int) -> Any:
    draws = np.random.default_rng(seed)
    most = np.where(draws.random(many) < 0.9, 4, 41)
    return np.cumsum(draws.integers(0, most), dtype=np.int64)


times = st.builds(_times, st.integers(0, 255), SEEDS)
