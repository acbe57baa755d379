#!/usr/bin/env python3
"""Makes six samples of measurements for the tasks of docs/python.md: make_samples.py FOLDER

    emitter.ptu    T3, one emitter of single photons that is excited by pulses, seen by the inputs 0 and 1; 3.5 ns
    response.ptu   T3, the pulse itself, as a scatterer shows it
    diffusion.ptu  T2, molecules that diffuse in a plane through a focus in 0.5 ms, on the inputs 1 and 2
    molecules.ptu  T3, single molecules with FRET of 0.2 or 0.7: input 0 is the donor's, 1 the acceptor's, and two lasers
                   excite in turn, the acceptor's from tick 1000 of 2000 on
    two_ways.ptu   T3, a scan in both directions, two frames of 64 lines of 64 pixels of 8.4 sync periods; lines that run
                   backwards are 12.6 periods late. Marker 1 begins a line, 2 a frame too, and 4 ends a line
    blinking.ptu   T2, a source that is on for 20 ms and off for 40 ms in the mean, on input 1

The same photons come each time.
"""

import os
import sys
from typing import Any

import numpy as np
from made_file import header

SYNC, TICK = 100e-9, 50e-12  # seconds of a sync period and of a tick of its delays, of which it has PERIOD
PERIOD = 2000


def write(path: Any, record_type: str, times: Any, words: Any, tick: Any, **tags: Any) -> None:
    """Events at these times, in any order, by their words without times; T3 files have 10 bits for a time, T2 25."""
    bits = 10 if record_type.endswith("T3") else 25
    order = np.argsort(times, kind="stable")
    times, words = times[order], words[order].astype(np.uint32) | (times[order] & (1 << bits) - 1).astype(np.uint32)
    ahead = np.diff(times >> bits, prepend=0)
    wrapped = np.flatnonzero(ahead)
    words = np.insert(words, wrapped, 0xFE000000 | ahead[wrapped].astype(np.uint32))
    with open(path, "wb") as out:
        out.write(header(record_type, tick, len(words), **tags) + words.astype("<u4").tobytes())


def t3(path: Any, times: Any, inputs: Any, ticks: Any, markers: Any = ((), ()), **tags: Any) -> None:
    """Photons by sync period, input and delay, and markers by sync period and bits."""
    words = np.concatenate((0x80000000 | np.array(markers[1], np.int64) << 25, inputs << 25 | ticks % PERIOD << 10))
    write(path, "HydraHarp2T3", np.concatenate((np.array(markers[0], np.int64), times)), words, SYNC, MeasDesc_Resolution=TICK, **tags)


def delays(draws: Any, many: Any, lifetime: Any) -> Any:
    """Delays in ticks: a pulse of 0.15 ns at 5 ns, and an exponential of this lifetime in seconds."""
    return ((5e-9 + draws.normal(0, 0.15e-9, many) + draws.exponential(lifetime or 1e-30, many)) / TICK).astype(np.int64)


def emitter(path: Any) -> None:
    draws = np.random.default_rng(1)
    times = np.flatnonzero(draws.random(10_000_000) < 0.02)
    noise = draws.integers(0, 10_000_000, 10_000)
    ticks = np.concatenate((delays(draws, len(times), 3.5e-9), draws.integers(0, PERIOD, len(noise))))
    times = np.concatenate((times, noise))
    t3(path, times, draws.integers(0, 2, len(times)), ticks)


def response(path: Any) -> None:
    draws = np.random.default_rng(2)
    t3(path, draws.integers(0, 10_000_000, 200_000), np.zeros(200_000, np.int64), delays(draws, 200_000, 0))


def diffusion(path: Any, step: float = 5e-6, steps: int = 1_000_000, molecules: int = 20, side: float = 8.0, crossing: float = 500e-6, brightness: int = 100_000) -> None:
    """A plane of ``side`` radii of the focus, that goes on at its edges; a molecule in the middle gives ``brightness``."""
    draws, light = np.random.default_rng(3), np.empty(steps)
    places = draws.uniform(0, side, (2, molecules, 1))
    for at in range(0, steps, 50_000):
        places = places[..., -1:] + draws.normal(0, np.sqrt(step / (2 * crossing)), (2, molecules, 50_000)).cumsum(axis=2)
        light[at : at + 50_000] = np.exp(-2 * ((places % side - side / 2) ** 2).sum(axis=0)).sum(axis=0)
    photons = draws.poisson(light * brightness * step)
    times = ((np.repeat(np.arange(steps), photons) + draws.random(photons.sum())) * step / 1e-9).astype(np.int64)
    write(path, "HydraHarp2T2", times, draws.integers(0, 2, len(times)) << 25, 1e-9)


def molecules(path: Any, many: int = 400, photons: int = 120) -> None:
    draws = np.random.default_rng(4)
    efficiency = np.where(np.arange(many) % 2, 0.2, 0.7)[:, None]
    times = 100_000 * np.arange(many)[:, None] + draws.integers(0, 10_000, (many, photons))
    own = draws.random((many, photons)) < 0.5  # excited by the acceptor's laser
    inputs = (own | (draws.random((many, photons)) < efficiency)).astype(np.int64)
    ticks = delays(draws, many * photons, 2e-9).reshape(many, photons) + np.where(own, PERIOD // 2, 0)
    noise = draws.integers(0, 100_000 * many, 4000)
    t3(path, *(np.concatenate((some.ravel(), more)) for some, more in (
        (times, noise), (inputs, draws.integers(0, 2, 4000)), (ticks, draws.integers(0, PERIOD, 4000)))))  # fmt: skip


def two_ways(path: Any, size: int = 64, dwell: float = 8.4, late: float = 12.6, between: int = 700) -> None:
    draws, line = np.random.default_rng(5), size * dwell
    starts = between * np.arange(2 * size)
    at = draws.uniform(0, size, (2 * size, 2000))  # the place of a photon along its line, in pixels, from the left
    row = np.broadcast_to(np.arange(2 * size)[:, None] % size, at.shape)
    letter = (row >= 10) & (row < 54) & (at >= 16) & ((at < 24) | (row < 18) & (at < 48) | (row >= 28) & (row < 36) & (at < 40))
    seen = draws.random(at.shape) < np.where(letter, 0.5, 0.02)
    back = row % 2 == 1
    times = starts[:, None] + np.where(back, (size - at) * dwell + late, at * dwell)
    ticks = np.where(row < 28, delays(draws, at.size, 1.5e-9).reshape(at.shape), delays(draws, at.size, 4e-9).reshape(at.shape))
    marks = np.concatenate((starts, starts + round(line + late) + 1))
    bits = np.concatenate((np.where(np.arange(2 * size) % size, 1, 3), np.full(2 * size, 4)))
    t3(path, times[seen].astype(np.int64), np.zeros(seen.sum(), np.int64), ticks[seen], (marks, bits))


def blinking(path: Any, spans: int = 300, on: float = 0.02, off: float = 0.04, bright: int = 30_000, dark: int = 4_000) -> None:
    """Times on and off with these means in seconds, with so many photons a second."""
    draws = np.random.default_rng(6)
    lengths = np.stack([draws.exponential(on, spans), draws.exponential(off, spans)], axis=1).ravel()
    photons = draws.poisson(lengths * np.tile([bright, dark], spans))
    times = np.repeat(np.cumsum(lengths) - lengths, photons) + np.repeat(lengths, photons) * draws.random(photons.sum())
    write(path, "HydraHarp2T2", (times / 1e-9).astype(np.int64), np.zeros(len(times), np.int64), 1e-9)


if __name__ == "__main__":
    makers: tuple[Any, ...] = (emitter, response, diffusion, molecules, two_ways, blinking)
    for make in makers:
        make(os.path.join(sys.argv[1], f"{make.__name__}.ptu"))
