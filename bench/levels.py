#!/usr/bin/env python3
"""Counts what a correlation costs by its number of levels: levels.py PROGRAM FILE [LAGS]

FILE is of type HydraHarp2T2, and the correlation is that of the inputs 1 and 2. For 10, 20, 30 and 40 levels it
prints, for each photon of the two inputs,

- the closings: how often the bin of a level was closed, once for each occupied bin;
- the pairs of bins: of a closing bin with photons of the second input and an occupied bin at a lag of its level;
- the additions, which are the steps that the contracts count (`spent`): ptu adds the pairs of a list at one lag
  together, once for each lag, and none where the distance that goes with a list is out of reach. They are counted here by going
  through the file as the program does: by pieces of 8,192 bytes, blocks of 64 records, blocks of up to 1,024 events that
  its tables are given, and lists of bins from level to level;
- the bound on additions, `work`: lags times the occupied bins of level 0, and half of that for each level above;
- the processor seconds of 'PROGRAM run', the best of five.

It needs numpy.
"""

import os
import resource
import subprocess
import sys
import tempfile
from collections.abc import Iterator
from typing import Any

import numpy

TABLE_BLOCK = 1024  # how many events a block of the tables has, as in the program

PLAN = """[[group]]
inputs = [1]
[[group]]
inputs = [2]
[[correlation]]
first = 1
second = 2
lags = {lags}
levels = {levels}
"""


def photons(path: Any) -> Any:
    """The times of the photons of the inputs 1 and 2, and whether each is of input 2."""
    data = numpy.fromfile(path, dtype=numpy.uint8)
    end = bytes(data[: 2**16]).find(b"Header_End\0")
    records = numpy.frombuffer(data[end + 48 :].tobytes(), "<u4").astype(numpy.int64)
    special, channel, field = records >> 31, records >> 25 & 63, records & 0x1FFFFFF
    wraps = numpy.where((special == 1) & (channel == 63), numpy.maximum(field, 1), 0)
    times = (numpy.cumsum(wraps) << 25) + field
    chosen = (special == 0) & (channel < 2)
    return times[chosen], channel[chosen] == 1


def level_counts(times: Any, second: Any, level: Any, lags: Any) -> Any:
    """The occupied bins of a level, and their pairs."""
    bins, where = numpy.unique(times >> level, return_inverse=True)
    asks = numpy.zeros(len(bins), bool)  # has a photon of the second input
    asks[where[second]] = True
    least = 1 if level == 0 else lags // 2 + 1
    near = numpy.searchsorted(bins, bins - least, side="right") - numpy.searchsorted(bins, bins - lags)
    return len(bins), int(near[asks].sum())


def events_of(words: Any, clock: Any) -> Any:
    """The events of some records: each is a time, its input 1 or 2 or else 0, and whether it is a photon."""
    events = []
    for word in words.tolist():
        field, channel, special = word & 0x1FFFFFF, word >> 25 & 63, word >> 31
        if special and channel == 63:
            clock["wraps"] += max(field, 1)
        elif not special or channel < 16:  # the others are reserved
            time = (clock["wraps"] << 25) + field
            events.append((time, channel + 1 if not special and channel < 2 else 0, not special or channel == 0))
    return events


def blocks_of(path: Any) -> Iterator[Any]:
    """The events of each block that the tables are given: the time of each, and its input 1 or 2 or else 0.

    A block takes the events of as many blocks of 64 records as fit, and ends with a piece of the file.
    """
    data = open(path, "rb").read()
    place = data[: 2**16].find(b"Header_End\0") + 48
    clock = {"wraps": 0}
    greatest = 0
    while place < len(data):
        piece = min((place // 8192 + 1) * 8192, len(data))
        gathered: list[Any] = []
        while place < piece:
            end = min(place + 256, piece)
            came = events_of(numpy.frombuffer(data[place : end - (end - place) % 4], "<u4"), clock)
            place = end
            kept = []
            for time, group, photon in came:
                if not photon or time >= greatest:
                    kept.append((time, group))
                    greatest = max(greatest, time) if photon else greatest
            # Where one is late, those of its records come one by one.
            for some in [kept] if len(kept) == len(came) else [[event] for event in kept]:
                if len(gathered) + len(some) > TABLE_BLOCK:
                    yield gathered
                    gathered = []
                gathered = gathered + some
        if gathered:
            yield gathered


def bins_of(block: Any) -> Any:
    """The photons of the two inputs in a block, each as a bin of one."""
    return [(time, int(group == 1), int(group == 2)) for time, group in block if group]


def raised(bins: Any, levels: Any) -> Any:
    """Bins so many levels up, where neighbours of one index stay apart."""
    return [(index >> levels, first, second) for index, first, second in bins]


def lowered(bins: Any, levels: Any) -> Any:
    """Bins so many levels down."""
    return [(index << levels, first, second) for index, first, second in bins]


def merged(bins: Any) -> Any:
    """Bins of which neighbours of one index are one."""
    made: list[Any] = []
    for index, first, second in bins:
        if made and made[-1][0] == index:
            made[-1] = (index, made[-1][1] + first, made[-1][2] + second)
        else:
            made.append((index, first, second))
    return made


def spacing(bins: Any) -> Any:
    """The least distance of neighbours."""
    return min((late[0] - early[0] for early, late in zip(bins, bins[1:])), default=2**64 - 1)


class Level:
    """A level of a correlation: its open bin, the ring of its closed ones, and the additions that it made."""

    def __init__(self, level: Any, lags: Any) -> None:
        self.own, self.lags = lags - lags // 2 if level else lags, lags
        self.open: list[Any] = []
        self.ring: list[Any] = []
        self.added = 0

    def take(self, came: Any, up: Any, apart: Any) -> Any:
        """Takes bins, so many levels up from where they stand, of which no two are nearer than `apart`, or that is 0.

        Answers those that it closes, and such a distance for these.
        """
        bins = lowered(self.open, up) + came
        before = lowered(self.ring, up) + lowered(self.open, up) + came[:1]
        apart = min(apart, spacing(before)) if apart >> up > self.lags else 0
        shut = [one for one in bins if one[0] >> up < bins[-1][0] >> up]
        self.open = merged(raised(bins[len(shut) :], up))
        self.shut(raised(shut, up), apart >> up)
        return shut, apart

    def shut(self, bins: Any, apart: Any) -> None:
        """Pairs and keeps closed bins."""
        if bins:
            self.added += self.own if apart <= self.lags else 0
            self.ring = [one for one in self.ring + merged(bins) if one[0] + self.lags > bins[-1][0]]


def carry_all(levels: Any, bins: Any, up: Any, apart: Any) -> None:
    """Gives bins, so many levels up from where they stand, to levels: no two are nearer than `apart`, or that is 0."""
    for level in levels:
        if not bins:
            return
        bins, apart = level.take(bins, up, apart)
        up += 1


def additions_by_level(path: Any, lags: Any, levels: Any) -> Any:
    """The additions that a run makes on each level."""
    all_levels = [Level(level, lags) for level in range(levels)]
    for block in blocks_of(path):
        bins = bins_of(block)
        carry_all(all_levels, bins, 0, spacing(bins))
    for place, level in enumerate(all_levels):
        last, level.open = level.open, []
        level.shut(last, 0)
        carry_all(all_levels[place + 1 :], last, 1, 0)
    return [level.added for level in all_levels]


def seconds(program: str, path: Any, lags: Any, levels: Any) -> Any:
    with tempfile.NamedTemporaryFile("w", suffix=".toml") as plan:
        plan.write(PLAN.format(lags=lags, levels=levels))
        plan.flush()
        best = float("inf")
        for _ in range(5):
            before = resource.getrusage(resource.RUSAGE_CHILDREN)
            subprocess.run([program, "run", plan.name, path], check=True, stdout=subprocess.DEVNULL)
            after = resource.getrusage(resource.RUSAGE_CHILDREN)
            best = min(best, after.ru_utime + after.ru_stime - before.ru_utime - before.ru_stime)
        return best


def main() -> None:
    program, path = sys.argv[1:3]
    lags = int(sys.argv[3]) if len(sys.argv) > 3 else 16
    times, second = photons(path)
    print(f"{os.path.basename(path)}: {len(times)} photons of the two inputs, {lags} lags")
    print("levels  closings  pairs of bins  additions  bound  (each for a photon)  seconds  nanoseconds a photon")
    made = additions_by_level(path, lags, 40)
    closings = pairs = bound = done = 0
    for levels in (10, 20, 30, 40):
        for level in range(done, levels):
            occupied, added = level_counts(times, second, level, lags)
            closings, pairs = closings + occupied, pairs + added
            bound += occupied * (lags if level == 0 else lags // 2)
        done = levels
        taken = seconds(program, path, lags, levels)
        each = len(times)
        additions = sum(made[:levels])
        print(
            f"{levels:6d} {closings / each:9.2f} {pairs / each:14.2f} {additions / each:10.2f} {bound / each:6.1f}"
            f" {taken:29.3f} {taken / each * 1e9:21.0f}"
        )


if __name__ == "__main__":
    main()
