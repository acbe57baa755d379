"""Plans: made in Python, proposed for files, and what is wrong with one.

A ``Plan`` is put together in seconds, by the names of its groups; ``plan_for`` looks at a whole file and proposes one;
``check_plan`` says which key of a plan is out of its range, and what of it doesn't go with a file. Keys, ranges and rules
are those of ``docs/plan.md``. All is tested against the program, not proved.
"""

from __future__ import annotations

import math
import os
from typing import Any

from ._documents import PlanLike, read_plan
from .headers import other_records
from ._looks import Look, look
from ._made_plans import Plan
from ._plan_checks import check_plan
from ._plan_rules import BINS_OF_CUBE, Finding

__all__ = ["Finding", "Plan", "PlanLike", "check_plan", "plan_for", "read_plan"]
BINS = 512  # of a trace over the whole file, at most
DEPTH = 128  # bins of a pixel of a cube, at most
WHOLE = 1 << 62  # the greatest time of a pixel
LAGS = 16
CELL, REACH = 0.5e-9, 200e-9  # seconds of a cell of coincidences, and how far they reach
SIDE = 2048  # columns or rows of an image, at most


def plan_for(path: str | os.PathLike[str]) -> Plan:
    """A plan for the file at ``path``, with remarks, to which more can be added; ``str`` of it is its text.

    It has a group for each input that occurs, as "input 1", and one of all of them, "all", which is the last; a trace over
    the whole file; of a T3 file a histogram of each input over the sync period, and where the header tells of a scan an
    image and a cube, else a correlation in sync periods; of a T2 file the photons of each group, a correlation, and of two
    inputs a start-stop and a coincidence whose reach suits the tick. What is a guess is marked so. Read it before you use it.

    Raises ``BadFileError`` for a file that the program would refuse. The whole file is looked at, in the memory of a piece.
    """
    return plan_of(look(path))


def plan_of(seen: Look) -> Plan:
    """A plan for a file that was looked at, as ``plan_for`` makes it."""
    plan = Plan()
    if not seen.inputs:
        return plan.remark("no photons")
    plan = _trace(_groups(_remarks(plan, seen), seen), seen)
    if seen.header.mode == "T2":
        return _correlation(_pairs(_totals(plan, seen), seen), seen)
    plan = _histograms(plan, seen)
    return (_scan if seen.header.tags.get("ImgHdr_PixX") else _correlation)(plan, seen)


def _ticks(number: int) -> str:
    return f"{number} ticks"


def _remarks(plan: Plan, seen: Look) -> Plan:
    said = [f"inputs: {', '.join(f'{number} ({count} photons)' for number, count in seen.inputs.items())}"]
    if seen.header.mode == "T3" and seen.bits and not seen.header.tags.get("ImgHdr_PixX"):
        said.append("the header tells of no scan (ImgHdr_PixX), so there is no image of the markers")
    if seen.bits:
        said.append(f"marker bits: {', '.join(f'{bit} ({count} times)' for bit, count in seen.bits.items())}")
    if 0 in seen.inputs and _sync_is_input_0(seen):
        said.append("input 0 is the sync")
    if odd := other_records(seen.header.announced, seen.header.records):
        said.append(odd)
    if seen.late:
        said.append(f"{seen.late} events are late: try settle = 1, 2, 4 .. 64 until the report has none")
    return plan.remark("\n".join(said))


def _sync_is_input_0(seen: Look) -> bool:
    return seen.header.mode == "T2" and not seen.header.record_type.startswith("PicoHarp")


def _groups(plan: Plan, seen: Look) -> Plan:
    for number in seen.inputs:
        plan = plan.group(f"input {number}", number)
    return plan.group("all", seen.inputs) if len(seen.inputs) > 1 else plan


def _of_all(seen: Look) -> int:
    """The number of the group of all inputs."""
    return len(seen.inputs) + (len(seen.inputs) > 1)


def _trace(plan: Plan, seen: Look) -> Plan:
    last = seen.last or 0
    width = last // BINS + 1
    return plan.remark("over the whole file").trace(_of_all(seen), width=_ticks(width), bins=last // width + 1)


def _histograms(plan: Plan, seen: Look) -> Plan:
    for group in range(1, len(seen.inputs) + 1):
        plan = plan.histogram(group, bins=_depth(seen))
    return plan


def _depth(seen: Look, whole: bool = False) -> int:
    """Ticks of a sync period, or up to the greatest dtime where that is later; of a period with ``whole`` those that lie wholly in it."""
    sync, tick = seen.header.global_seconds, seen.header.resolution_seconds
    told = sync / tick if sync and tick and sync > 0 and tick > 0 else 0.0
    told = min(told, 32768.0) if math.isfinite(told) else 0.0
    told = round(told) if abs(told - round(told)) < 1e-6 else told
    if seen.deepest >= math.ceil(told):
        return seen.deepest + 1
    return max(1, math.floor(told)) if whole else math.ceil(told)


# ## Scans


def _scan(plan: Plan, seen: Look) -> Plan:
    """The image and the cube of a scan, by the header's numbers of pixels, marker bits and time of a pixel."""
    tags = seen.header.tags
    width, height = (tags.get(f"ImgHdr_Pix{axis}") for axis in "XY")
    start, stop, frame = (_bit(seen, name) for name in ("LineStart", "LineStop", "Frame"))
    if not (isinstance(width, int) and isinstance(height, int) and start):
        return plan.remark("the header tells of a scan, but not its rows, or not which marker begins a line: no image")
    if not (1 <= width <= SIDE and 1 <= height <= SIDE):
        return plan.remark(f"the header tells of {width} times {height} pixels, and an image has up to {SIDE} times {SIDE}: no image")
    dwell, source = _periods_of_pixel(seen, start, stop or start, width)
    if dwell is None:
        return plan.remark("the header tells of a scan, but not how long a pixel lasts: no image")
    pixels: dict[str, Any] = {"width": width, "height": height, "dwell": _ticks(max(1, round(dwell)))}
    pixels |= {"line": start, "frame": frame, "stop": stop, "serpentine": bool(tags.get("ImgHdr_BiDirect"))}
    plan = plan.remark(_said_of_pixels(seen, dwell, source, width)).image(_of_all(seen), **pixels)
    bins = bins_of_pixel(seen, width * height)
    plan = plan.remark("the same with the dtimes of each pixel")
    return plan.cube(_of_all(seen), **pixels, dwidth=_ticks(bins["dwidth"]), dbins=bins["dbins"])


def _bit(seen: Look, name: str) -> int | None:
    """The number of a marker bit, or None: some programs write 0 or -1 where there is none."""
    bit = seen.header.tags.get(f"ImgHdr_{name}")
    return bit if isinstance(bit, int) and bit in (1, 2, 3, 4) else None


def _periods_of_pixel(seen: Look, start: int, stop: int, width: int) -> tuple[float | None, str]:
    """Sync periods of a pixel, by the header's milliseconds, or by the lines that the markers begin and end."""
    milliseconds, sync = seen.header.tags.get("ImgHdr_TimePerPixel"), seen.header.global_seconds
    told = milliseconds * 1e-3 / sync if isinstance(milliseconds, int | float) and sync and sync > 0 else 0.0
    if 0 < told < WHOLE:
        return told, "the header's time of a pixel"
    line = seen.periods_of_line(start, stop)
    return (line / width, "measured by the line markers") if line else (None, "")


def _said_of_pixels(seen: Look, dwell: float, source: str, width: int) -> str:
    said = f"a pixel lasts {dwell:g} sync periods ({source})"
    if abs(dwell - round(dwell)) > 1 / width:
        said += ": no whole number, so the columns are shifted\nwithin a line; the scans of ptulab have pixels of any length"
    if seen.header.tags.get("ImgHdr_BiDirect"):
        said += "\nlines go both ways, so every second row runs backwards"
    if seen.header.tags.get("ImgHdr_SinCorrection"):
        said += "\nthe header speaks of a mirror that swings like a sine: columns aren't straightened"
    return said


def bins_of_pixel(seen: Look, pixels: int) -> dict[str, int]:
    """Bins of the dtime, as fine as a cube has room for. All of them are whole, since one that is only partly within the sync
    period has too few photons for a fit; less than a bin is left over."""
    depth, most = _depth(seen, whole=True), min(DEPTH, BINS_OF_CUBE // pixels)
    widths = max(1, depth // most), math.ceil(depth / most)
    width = max(widths, key=lambda width: width * min(most, depth // width))
    return {"dwidth": width, "dbins": min(most, depth // width)}


# ## Pairs of photons


def _two(seen: Look) -> tuple[int, int]:
    """The groups of the first two inputs that are detectors, or twice the one that there is."""
    groups = [group for group, number in enumerate(seen.inputs, 1) if number != 0 or not _sync_is_input_0(seen)]
    return (groups[0], groups[1]) if len(groups) > 1 else ((groups or [1])[0],) * 2


def _totals(plan: Plan, seen: Look) -> Plan:
    plan = plan.remark("the photons of the groups, for normalised curves")
    for group in sorted(set(_two(seen))):
        plan = plan.total(group)
    return plan


def _pairs(plan: Plan, seen: Look) -> Plan:
    """A start-stop and a coincidence of two inputs, whose cells are centred on 0 and have one width each."""
    first, second = _two(seen)
    if first == second:
        return plan
    tick = seen.header.global_seconds
    known = tick is not None and 1e-15 <= tick < 1  # of less a cell would be wider than a plan's
    unit = tick if tick is not None and known else 1e-12
    width = 2 * round((CELL / unit - 1) / 2) + 1 if CELL > unit else 1
    sides = max(1, min(round(REACH / unit / width), ((1 << 20) - width // 2) // width, 4096))
    plan = plan.remark(f"{REACH * 1e9:g} ns on both sides of 0, by the header's tick of {unit:g} s" if known else "a guess: the header tells no tick")
    plan = plan.coincidence(first, second, reach=_ticks(sides * width + width // 2), width=_ticks(width))
    return plan.startstop(first, second, width=_ticks(width), bins=min(32768, 2 * sides))


def _correlation(plan: Plan, seen: Look) -> Plan:
    """A correlation up to an eighth of the measurement."""
    levels = max(1, min(40, (seen.length // (8 * LAGS)).bit_length()))
    unit = "sync periods" if seen.header.mode == "T3" else "ticks"
    return plan.remark(f"by {unit}, up to an eighth of the file").correlation(*_two(seen), lags=LAGS, levels=levels)
