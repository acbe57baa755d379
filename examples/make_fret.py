#!/usr/bin/env python3
"""Makes a sample of single molecules with FRET, as a setup with all its faults sees them: make_fret.py FILE

T3; input 0 is the donor's detector and 1 the acceptor's, and two lasers excite in turn: the acceptor's from tick 1000 of 2000
on. One molecule comes every 100 ms: of four with both dyes, with E of 0.15, 0.4, 0.65 and 0.9, of one with the donor alone, of
one with the acceptor alone, and of one with E of 0.65 whose acceptor is bleached half way. gamma, beta, leakage and direct
excitation are those of FACTORS, and the background of each detector and laser grows to twice what it was.

The same photons come each time.
"""

import sys
from typing import Any

import numpy as np
from make_samples import PERIOD, SYNC, delays, t3

EFFICIENCIES = (0.15, 0.4, 0.65, 0.9)
FACTORS = {"gamma": 0.7, "beta": 1.3, "leakage": 0.08, "direct_excitation": 0.05}
BACKGROUNDS = (400, 300, 250)  # photons a second, of donor, acceptor, and acceptor by its own laser
WIDTH, EVERY = 5000, 1_000_000  # sync periods: the standard deviation of a burst, and from one to the next


def photons_of(draws: Any, many: int) -> Any:
    """How many of each kind of photon so many molecules give, the kind of each molecule, and from when it has no acceptor."""
    gamma, beta, leakage, direct = FACTORS.values()
    kind = np.arange(many) % 7
    efficiency = np.array((*EFFICIENCIES, 0, 0, 0.65))[kind]
    bright = 80 + draws.exponential(80, many)
    donor = np.where(kind == 5, 0, bright * (1 - efficiency) / gamma)
    own = np.where(kind == 4, 0, beta * bright)
    counts = draws.poisson((donor, bright * efficiency * (kind < 4) + bright * efficiency * (kind == 6) + leakage * donor + direct * own, own))
    return counts, kind


def bursts(path: Any, many: int = 910) -> None:
    draws = np.random.default_rng(7)
    counts, kind = photons_of(draws, many)
    times, inputs, lasers = [], [], []
    for source, numbers in enumerate(counts):
        molecule = np.repeat(np.arange(many), numbers)
        at = draws.normal(0, WIDTH, len(molecule))
        seen = np.where((kind[molecule] == 6) & (at > 0), 0 if source == 1 else source, source)  # bleached: the donor keeps what it passed on
        seen = np.where((kind[molecule] == 6) & (at > 0) & (source == 2), -1, seen)
        noise = np.sqrt(draws.uniform(1, 4, draws.poisson(1.5 * BACKGROUNDS[source] * many * EVERY * SYNC))) - 1  # its rate doubles
        times += [EVERY // 2 + EVERY * molecule[seen >= 0] + at[seen >= 0], noise * many * EVERY]
        inputs += [seen[seen >= 0] > 0, np.full(len(noise), source > 0)]
        lasers += [seen[seen >= 0] == 2, np.full(len(noise), source == 2)]
    laser = np.concatenate(lasers)
    ticks = delays(draws, len(laser), 2e-9) % (PERIOD // 2) + laser * (PERIOD // 2)
    t3(path, np.concatenate(times).astype(np.int64), np.concatenate(inputs).astype(np.int64), ticks)


if __name__ == "__main__":
    bursts(sys.argv[1])
