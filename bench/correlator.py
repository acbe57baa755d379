#!/usr/bin/env python3
"""Compares the correlation of 'ptu run' with python3-multipletau over the same photons: correlator.py PROGRAM

It makes a file of type HydraHarp2T2 whose photons have a known correlation: a light source that switches on and off at
random (a random telegraph signal), seen by two detectors. The plan asks for the cross correlation of the two with 16 lags, which is
a multiple-tau correlator with 16 channels. Three things are compared, and the first that is not as it must be ends
it with status 1:

- the pairs of each cell with the sums of multipletau over the same ticks, padded with dark ticks to a multiple of
  the widest bin. Both are the same sum of products of bins, so they must be equal, to the last pair;
- the normalised curve with that of multipletau, which may differ by what the two mean by it. ptu's report gives the
  ticks from the first photon to the last, and pairs are compared with those of two even lights; multipletau takes
  all ticks of the trace, and subtracts the means before it multiplies, so that what lies within a lag of the ends
  counts otherwise. Both effects are at most about the lag, and the dark ticks at the ends, over the length;
- the normalised curve with what is known of the light: 1 + exp(-t / RELAXES) over the two bins of a cell, within
  five standard errors.

It needs numpy and multipletau (Debian: python3-multipletau), and takes about ten seconds.
"""

import math
import os
import subprocess
import sys
import tempfile
from typing import Any

import multipletau
import numpy

sys.path.insert(0, os.path.join(os.path.dirname(os.path.dirname(os.path.abspath(__file__))), "examples"))
from made_file import t2_words, write  # noqa: E402
from ptulab import read_report  # noqa: E402

LAGS, LEVELS = 16, 14
TICKS = 2**23  # of the measurement, a multiple of the widest bin
RELAXES = 400  # ticks in which the correlation falls by e
BRIGHT = 0.05  # photons in a tick of light, on each input
SEED = 18

PLAN = f"""
[[group]]
inputs = [1]
[[group]]
inputs = [2]
[[trace]]
group = 1
width = {2**62 - 1}
bins = 1
[[trace]]
group = 2
width = {2**62 - 1}
bins = 1
[[correlation]]
first = 1
second = 2
lags = {LAGS}
levels = {LEVELS}
"""


def light(draws: Any) -> Any:
    """Whether the light is on, tick by tick. It stays on or off for 2 * RELAXES ticks in the mean."""
    changes = draws.random(TICKS) < 1 / (2 * RELAXES)
    return numpy.cumsum(changes) % 2 == 1


def photons(draws: Any, shines: Any) -> Any:
    """How many photons come in each tick on one input, none or one."""
    return (shines & (draws.random(TICKS) < BRIGHT)).astype(float)


def counted(program: str, first: Any, second: Any) -> Any:
    """The cells of the report by level and lag, the photons of each group, and the ticks from first to last."""
    with tempfile.TemporaryDirectory() as folder:
        data, plan = os.path.join(folder, "light.ptu"), os.path.join(folder, "plan.toml")
        write(data, "HydraHarp2T2", t2_words(numpy.flatnonzero(first), numpy.flatnonzero(second)))
        with open(plan, "w", encoding="utf-8") as out:
            out.write(PLAN)
        run = subprocess.run([program, "run", plan, data], check=True, capture_output=True, text=True)
    report = read_report(run.stdout)
    totals = [int(report.table("trace", number).counts[0]) for number in (1, 2)]
    return report.table("correlation"), totals


def known(level: Any, delay: Any) -> Any:
    """The mean of 1 + exp(-t / RELAXES) over the times between two bins."""
    half = 2**level / (2 * RELAXES)
    return 1 + math.exp(-delay / RELAXES) * (math.sinh(half) / half) ** 2


def fail(words: Any) -> None:
    print(words, file=sys.stderr)
    sys.exit(1)


def main() -> None:
    program = sys.argv[1]
    draws = numpy.random.default_rng(SEED)
    shines = light(draws)
    first, second = photons(draws, shines), photons(draws, shines)
    table, totals = counted(program, first, second)
    sums, _ = multipletau.correlate(second, first, m=LAGS, ret_sum=True, normalize=False)
    with numpy.errstate(divide="ignore"):  # it divides by medians, which are 0, for a warning alone
        curve = multipletau.correlate(second, first, m=LAGS, normalize=True)
    ours, length = table.normalised(*totals), table.length

    print(f"photons {totals[0]} and {totals[1]} in {length} ticks; the light's correlation falls by e in {RELAXES}")
    print("level    ticks       pairs        ptu  multipletau      known   error")
    far, chances = 0.0, []
    for place, (level, delay) in enumerate(zip(table.levels.tolist(), table.ticks.tolist())):
        pairs, other = table.counts[place], sums[place + 1, 1] * 4**level  # multipletau has lag 0 first, and means
        if pairs != round(other):
            fail(f"level {level}, {delay} ticks: {pairs} pairs, and multipletau has {other}")
        theirs = 1 + curve[place + 1, 1]
        # the pairs themselves, and the light, which is seen for length / RELAXES independent times
        error = ours[place] * math.sqrt(1 / max(pairs, 1) + 4 * RELAXES / length)
        far = max(far, abs(ours[place] - theirs) * length / (2 * ours[place] * (TICKS - length + delay)))
        chances.append(abs(ours[place] - known(level, delay)) / error)
        if delay in (1, LAGS << level):
            print(f"{level:5d} {delay:8d} {pairs:11d} {ours[place]:10.5f} {theirs:12.5f} {known(level, delay):10.5f} {error:7.5f}")
    print(f"all {len(chances)} sums of pairs are equal")
    print(f"the normalised curves differ by at most {far:.2f} of what the lag and the dark ends allow")
    print(f"the curve differs from the known one by at most {max(chances):.1f} standard errors")
    if far > 1 or max(chances) > 5:
        fail("the curves are not as they must be")


if __name__ == "__main__":
    main()
