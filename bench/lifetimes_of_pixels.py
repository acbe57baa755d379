#!/usr/bin/env python3
"""Seconds of ptulab.pixels.fit_pixels: lifetimes_of_pixels.py [-n ROWS] [--photons N]

A picture of ROWS by ROWS pixels (512) with 64 bins, of N photons (300) in the mean in each: lifetimes of 0.8 and 3.2 ns in parts
that differ by the pixel, after a pulse of 0.15 ns in a period of 25 ns, over 0.2 counts of background a bin. For two lifetimes
that are free in each pixel, and for two that all pixels share, it prints the processor seconds, of all threads, and the lifetimes.
"""

import argparse
import time
from typing import Literal

import numpy as np

from ptulab import pixels
from ptulab.fits import Convolved

BINS, PERIOD, DARK = 64, 25.0, 0.2
LIFETIMES = (0.8, 3.2)
KINDS: tuple[Literal["free", "shared"], ...] = ("free", "shared")


def main() -> None:
    parser = argparse.ArgumentParser(description=(__doc__ or "").splitlines()[0])
    parser.add_argument("-n", type=int, default=512, help="rows, and columns (512)")
    parser.add_argument("--photons", type=float, default=300, help="in a pixel, in the mean (300)")
    words = parser.parse_args()
    draws, width = np.random.default_rng(1), PERIOD / BINS
    axis = (np.arange(8 * BINS) + 0.5) * width / 8
    pulse = np.exp(-(((axis - 2.0) / 0.15) ** 2) / 2)
    shape = Convolved(pulse, 8, width, PERIOD)
    parts = draws.uniform(0, 1, (words.n, words.n, 1))
    curve = parts * shape.decay(LIFETIMES[0], 0.0) + (1 - parts) * shape.decay(LIFETIMES[1], 0.0)
    counts = draws.poisson((words.photons - BINS * DARK) * curve + DARK).astype(np.int32)
    for kind in KINDS:
        begun_at = time.process_time()
        found = pixels.fit_pixels(counts, pulse, width, [1.0, 3.0], kind=kind, period=PERIOD, background=DARK)
        seconds = time.process_time() - begun_at
        print(f"{kind}: {seconds:.1f} s, lifetimes {', '.join(f'{one:.2f}' for one in np.nanmedian(found.lifetimes, axis=(0, 1)))} ns")


if __name__ == "__main__":
    main()
