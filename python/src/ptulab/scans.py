"""Images and cubes of a scan whose pixels last any time, also no whole number of sync periods.

A plan's image has a whole number of sync periods a pixel (``docs/plan.md``); where that suits, ``ptulab.run`` counts
it, and its counts are proved. What stands here is tested to give the same counts there.
"""

import math
import logging
from dataclasses import dataclass, replace
from fractions import Fraction
from typing import Any, Literal

import numpy as np
from numpy.typing import NDArray

from .errors import NotKnownError
from .events import Events, joined
from .groups import EventsLike, GroupLike, group_of, header_of, pieces_of
from .headers import Header
from ._values import Compared
from ._xarrays import Axis, labelled, pixels

__all__ = ["LINE", "Cube", "Image", "Scan", "best_phase", "cube", "image", "lines_of", "scan_of"]
LOG = logging.getLogger("ptulab.scans")

LINE = np.dtype([("record", "<i8"), ("until", "<i8"), ("start", "<i8"), ("length", "<i8"), ("row", "<i8"), ("frame", "<i8")])
FOREVER = np.iinfo(np.int64).max
TAGS = {"width": "PixX", "height": "PixY", "line": "LineStart", "stop": "LineStop", "frame": "Frame"}  # of a header
FINEST = 1_000_000  # the greatest denominator of a line's time


@dataclass(frozen=True)
class Scan:
    """How a scanner writes: the settings of an image.

    - ``width``, ``height``: columns and rows.
    - ``line``, ``frame``, ``stop``: marker bits, 1 to 4, that begin a line, begin a frame, and end a line. Without
      ``frame`` a frame has ``height`` lines, counted from the start of the file.
    - ``time``: how many sync periods a line lasts, any number of a millionth or more. It is taken as the nearest fraction
      with a denominator of at most a million. None: each line lasts from its own marker to its stop marker.
    - ``serpentine``: True where the odd rows of a frame, counted from 0, run backwards, and ``"lines"`` where the odd
      lines of the file do, so that the direction goes on from frame to frame.
    - ``phase``: how many sync periods the lines that run backwards are late; it is taken off the times in them, as the
      nearest fraction with a denominator of at most a thousand.
    - ``frames``: whether frames are an axis of the counts; else they are laid one on the other.

    Raises ``ValueError`` for settings that no scan has.
    """

    width: int
    height: int
    line: int
    stop: int | None = None
    frame: int | None = None
    time: float | Fraction | None = None
    serpentine: bool | Literal["lines"] = False
    phase: float | Fraction = 0
    frames: bool = False

    def __post_init__(self) -> None:
        if self.width < 1 or self.height < 1:
            raise ValueError(f"an image of {self.width} by {self.height} pixels")
        for name, bit in (("line", self.line), ("stop", self.stop), ("frame", self.frame)):
            if bit is not None and not 1 <= bit <= 4:
                raise ValueError(f"{name} = {bit}: a marker bit is 1 to 4")
        if self.time is None and self.stop is None:
            raise ValueError("the time of a line isn't known: give its stop marker, or its time in sync periods")
        if self.time is not None and not (math.isfinite(self.time) and self.time * FINEST >= 1):
            raise ValueError(f"a line of {self.time} sync periods")
        if not math.isfinite(self.phase):
            raise ValueError(f"a phase of {self.phase} sync periods")


def scan_of(header: Header, **other: Any) -> Scan:
    """The scan that a header tells of, by the tags ImgHdr_PixX, PixY, LineStart, LineStop, Frame and BiDirect.

    A line lasts from its marker to its stop marker, and where there is none PixX * ImgHdr_TimePerPixel (in milliseconds).
    ``other``: settings of ``Scan`` that the header doesn't tell, or tells wrong. Raises ``NotKnownError`` where the columns, the
    rows or the marker of a line aren't told, and ``ValueError`` as ``Scan`` does. Warns of a sine correction
    (ImgHdr_SinCorrection, of a resonant mirror), which isn't made: columns are of equal time.
    """
    if header.tags.get("ImgHdr_SinCorrection"):
        said = f"ImgHdr_SinCorrection = {header.tags['ImgHdr_SinCorrection']}"
        LOG.warning("the header tells of a mirror that swings like a sine (%s): columns aren't straightened", said)
    tags = {name: header.tags.get(f"ImgHdr_{tag}") for name, tag in TAGS.items()}
    told: dict[str, Any] = {name: value for name, value in tags.items() if isinstance(value, int) and value > 0}
    pixel = header.tags.get("ImgHdr_TimePerPixel")
    told |= {"serpentine": bool(header.tags.get("ImgHdr_BiDirect"))} | other
    missing = [TAGS[name] for name in ("width", "height", "line") if name not in told]
    if missing:
        raise NotKnownError(f"the header has no ImgHdr_{missing[0]}")
    if "stop" not in told and isinstance(pixel, int | float) and header.global_seconds:
        told.setdefault("time", told["width"] * pixel * 1e-3 / header.global_seconds)
    return Scan(**told)


@dataclass(frozen=True, eq=False)
class Image(Compared):
    """Photons by their place. ``counts``: shape (rows, columns), or (frames, rows, columns) where frames are an axis.

    ``outside``: photons of the group without a place. ``global_seconds``: of a sync period, and ``pixel_micrometres``: how
    long and wide a pixel is, None where the file doesn't tell. All counts and ``outside`` add up to the photons of the group that aren't late.
    """

    scan: Scan
    counts: NDArray[np.int64]
    outside: int
    global_seconds: float | None = None
    pixel_micrometres: float | None = None

    def to_xarray(self) -> Any:
        """The counts as an ``xarray.DataArray`` over ``row`` and ``column``, in micrometres where the file tells the size of a
        pixel, and ``frame``. Raises ``MissingLibraryError`` without xarray."""
        found = labelled({"photons": self.counts}, pixels(self.counts.shape, self.pixel_micrometres), {}, {})["photons"]
        found.attrs["outside"] = self.outside
        return found


@dataclass(frozen=True, eq=False)
class Cube(Compared):
    """Photons by place and dtime. ``counts``: shape (rows, columns, bins), or (frames, rows, columns, bins).

    ``ticks``: where each bin begins, in ticks of the dtime, of which ``dwidth`` are a bin; ``outside``: photons without
    a place; ``over``: photons with a place whose dtime is past the last bin; ``resolution_seconds``: of a tick, and
    ``pixel_micrometres``: how long and wide a pixel is, None where the file doesn't tell.
    """

    scan: Scan
    counts: NDArray[np.int64]
    dwidth: int
    outside: int
    over: int
    resolution_seconds: float | None = None
    pixel_micrometres: float | None = None

    @property
    def ticks(self) -> NDArray[np.int64]:
        """Where each bin begins, in ticks of the dtime: shape (bins,)."""
        return self.dwidth * np.arange(self.counts.shape[-1], dtype=np.int64)

    @property
    def seconds(self) -> NDArray[np.float64] | None:
        """The same in seconds, None where the file doesn't tell."""
        return None if self.resolution_seconds is None else self.ticks * self.resolution_seconds

    @property
    def image(self) -> NDArray[np.int64]:
        """All photons of each pixel within the bins: the shape of ``counts`` without its last axis."""
        return np.asarray(self.counts.sum(axis=-1))

    def to_xarray(self) -> Any:
        """The counts as an ``xarray.DataArray`` over the axes of an image and ``delay``, in seconds where the file tells a tick.
        Raises ``MissingLibraryError`` without xarray."""
        axes = [*pixels(self.counts.shape[:-1], self.pixel_micrometres), Axis("delay", self.ticks, self.seconds)]
        found = labelled({"photons": self.counts}, axes, {}, {})["photons"]
        found.attrs |= {"outside": self.outside, "over": self.over}
        return found


def lines_of(source: EventsLike, scan: Scan) -> NDArray[np.void]:
    """The lines of a scan, one element each, with the fields

    - ``record`` and ``until``: the numbers of the records between which its photons stand (without both);
    - ``start``: the time of its marker; ``length``: sync periods up to its stop marker, 0 where it has none;
    - ``row`` and ``frame``: counted from 0; ``frame`` is -1 before the first frame.

    In one marker the stop counts first, then the frame, then the line, as in ``docs/report.md``.
    """
    found = [piece[piece["marker"] & ~piece["late"]] for piece in pieces_of(source)]
    if not found:
        return np.zeros(0, LINE)
    markers = joined(found)
    line, frame, stop = (_with_bit(markers, bit) for bit in (scan.line, scan.frame, scan.stop))
    at = np.flatnonzero(line)
    records = np.append(markers["record"], FOREVER)
    times = np.append(markers["time"], FOREVER)
    stops = np.append(np.flatnonzero(stop), len(markers))
    end = stops[np.searchsorted(stops, at, side="right")]
    following = np.append(at[1:], len(markers))[: len(at)]
    lines = np.zeros(len(at), LINE)
    lines["record"], lines["until"] = records[at], records[np.minimum(end, following)]
    lines["start"] = times[at]
    whole = (end <= following) & (end < len(markers))
    lines["length"][whole] = times[end[whole]] - times[at[whole]]
    lines["row"], lines["frame"] = _rows(frame.astype(np.int64).cumsum()[at], scan)
    return lines


def _with_bit(markers: Events, bit: int | None) -> NDArray[np.bool_]:
    if bit is None:
        return np.zeros(len(markers), np.bool_)
    return (markers["number"] >> (bit - 1) & 1).astype(np.bool_)


def _rows(frames_so_far: NDArray[np.int64], scan: Scan) -> tuple[NDArray[np.int64], NDArray[np.int64]]:
    """Row and frame of each line, of which so many frames were begun up to it."""
    number = np.arange(len(frames_so_far))
    if scan.frame is None:
        return number % scan.height, number // scan.height
    return number - np.searchsorted(frames_so_far, frames_so_far), frames_so_far - 1


def image(source: EventsLike, scan: Scan, group: GroupLike = None) -> Image:
    """The photons of a group by their place in a scan of a T3 file.

    The column is floor(t * width / T), where t is the time since the line's marker and T how long the line lasts,
    computed with whole numbers, so that no rounding moves a photon; in lines that run backwards it is
    width - 1 - floor((t - phase) * width / T). With ``T = width * dwell`` this is the image of a plan.

    Raises ``ValueError`` where a line lasts so long, or so short beside the phase, that its columns can't be computed so.
    Warns where no photon of the group has a place, and says what is missing, as markers with the bit of a frame.
    """
    lines = lines_of(source, scan)
    shape, places = _shape(lines, scan), _Places(lines, scan)
    counts = np.zeros(math.prod(shape), np.int64)
    outside, chosen = 0, group_of(group)
    for piece in pieces_of(source):
        photons = chosen.mask(piece)
        cells, placed = places.of(piece["record"][photons], piece["time"][photons])
        outside += len(placed) - int(np.count_nonzero(placed))
        _add(counts, cells[placed])
    _say_if_empty(scan, lines, int(counts.sum()), outside)
    header = header_of(source)
    return Image(scan, counts.reshape(shape), outside, header.global_seconds, header.pixel_micrometres(scan.width))


def cube(source: EventsLike, scan: Scan, dwidth: int, dbins: int, group: GroupLike = None) -> Cube:
    """The photons of a group by their place, as of ``image``, and by their dtime in ``dbins`` bins of ``dwidth`` ticks.

    Raises ``ValueError`` and warns as ``image`` does, and raises it where there is no bin.
    """
    if dwidth < 1 or dbins < 1:
        raise ValueError(f"{dbins} bins of {dwidth} ticks")
    lines = lines_of(source, scan)
    shape, places = (*_shape(lines, scan), dbins), _Places(lines, scan)
    counts = np.zeros(math.prod(shape), np.int64)
    outside, over, chosen = 0, 0, group_of(group)
    for piece in pieces_of(source):
        photons = chosen.mask(piece)
        cells, placed = places.of(piece["record"][photons], piece["time"][photons])
        bins = piece["dtime"][photons] // np.int64(dwidth)
        kept = placed & (bins < dbins)
        outside += len(placed) - int(np.count_nonzero(placed))
        over += int(np.count_nonzero(placed)) - int(np.count_nonzero(kept))
        _add(counts, cells[kept] * dbins + bins[kept])
    _say_if_empty(scan, lines, int(counts.sum()) + over, outside)
    header = header_of(source)
    return Cube(scan, counts.reshape(shape), dwidth, outside, over, header.resolution_seconds, header.pixel_micrometres(scan.width))


def best_phase(source: EventsLike, scan: Scan, phases: NDArray[np.float64], group: GroupLike = None) -> float:
    """Of these phases, in sync periods, the one with which neighbouring rows are most alike.

    Alike is the sum of products of the pixels of each two rows that follow one another, over the root of the sums of
    their squares. Raises ``ValueError`` where there is no phase, or the scan runs in one direction.
    """
    if not scan.serpentine or not len(phases):
        raise ValueError("a phase is of scans in both directions, and one of some phases")
    one = replace(scan, frames=False)
    return float(max(phases, key=lambda phase: _likeness(image(source, replace(one, phase=float(phase)), group).counts)))


def _likeness(counts: NDArray[np.int64]) -> float:
    rows = counts.astype(np.float64)
    first, second = rows[:-1], rows[1:]
    scale = math.sqrt(float((first**2).sum()) * float((second**2).sum()))
    return float((first * second).sum()) / scale if scale else 0.0


def _say_if_empty(scan: Scan, lines: NDArray[np.void], placed: int, outside: int) -> None:
    """Warns where photons are outside, and none has a place."""
    if placed or not outside:
        return
    why = "none comes within a line"
    if not len(lines):
        why = f"no marker has the bit {scan.line}, which begins a line"
    elif scan.frame is not None and lines["frame"].max() < 0:
        why = f"no marker before a line has the bit {scan.frame}, which begins a frame; without frame= the rows are counted from the first line"
    elif scan.time is None and not lines["length"].any():
        why = f"no line has a marker with the bit {scan.stop}, which ends it; with time= all last as long as that"
    LOG.warning("all %d photons are outside of the image: %s", outside, why)


def _shape(lines: NDArray[np.void], scan: Scan) -> tuple[int, ...]:
    if not scan.frames:
        return scan.height, scan.width
    return int(lines["frame"].max(initial=-1)) + 1, scan.height, scan.width


class _Places:
    """Where photons are in a scan of these lines. Before the first line stands one that holds no photon."""

    def __init__(self, lines: NDArray[np.void], scan: Scan) -> None:
        time, phase = _fractions(lines, scan)
        length = lines["length"] if time is None else np.full(len(lines), time.numerator)
        good = (length > 0) & (lines["frame"] >= 0) & (lines["row"] < scan.height)
        number = np.arange(len(lines)) if scan.serpentine == "lines" else lines["row"]
        back = number % 2 == 1 if scan.serpentine else np.zeros(len(lines), np.bool_)
        frames = lines["frame"] if scan.frames else np.zeros(len(lines), np.int64)
        first = (frames * scan.height + lines["row"]) * scan.width
        self.width, self.parts = scan.width, scan.width * (1 if time is None else time.denominator)
        self.phase, self.scale = np.append(0, np.where(back, phase.numerator, 0)), phase.denominator
        self.record, self.start = np.append(-1, lines["record"]), np.append(0, lines["start"])
        self.until = np.append(-1, np.where(good, lines["until"], -1))
        self.length = np.append(1, np.where(good, length, 1))
        self.first, self.step = np.append(0, np.where(back, first + scan.width - 1, first)), np.append(1, np.where(back, -1, 1))
        self.most = self.length // (self.parts // scan.width) + math.ceil(abs(phase)) + 1  # beyond it, and so long before, all are outside

    def of(self, records: NDArray[np.int64], times: NDArray[np.int64]) -> tuple[NDArray[np.int64], NDArray[np.bool_]]:
        """Of photons, by the numbers of their records, which rise, and their times: the numbers of their pixels, frame by
        frame and row by row, and whether they have one."""
        if not len(records):
            return np.zeros(0, np.int64), np.zeros(0, np.bool_)
        low, high = np.searchsorted(self.record, records[[0, -1]]) - np.array([1, 0])
        many = np.diff(np.searchsorted(records, self.record[low + 1 : high], side="left"), prepend=0, append=len(records))

        def each(values: NDArray[np.int64]) -> NDArray[np.int64]:
            return np.repeat(values[low:high], many)

        most = each(self.most)
        since = np.clip(times - each(self.start), -most, most) * self.scale - each(self.phase)
        placed = (records < each(self.until)) & (since >= 0)
        columns = since * self.parts // each(self.length * self.scale)
        placed &= columns < self.width
        return each(self.first) + each(self.step) * columns, placed


def _fractions(lines: NDArray[np.void], scan: Scan) -> tuple[Fraction | None, Fraction]:
    """How long each line lasts, None for its own length, and the phase, in numbers with which columns fit 64 bits."""
    phase = Fraction(scan.phase).limit_denominator(1000)
    longest = int(lines["length"].max(initial=1)) if scan.time is None else math.ceil(scan.time)
    most = 2**62 // ((longest + 2 * math.ceil(abs(phase)) + 2) * phase.denominator * scan.width)
    if most < 1:
        raise ValueError(f"a line of {longest} sync periods is too long for columns without rounding")
    if scan.time is None:
        return None, phase
    time = Fraction(scan.time).limit_denominator(min(FINEST, most))
    if not time:
        raise ValueError(f"a line of {scan.time} sync periods is too short for a phase of {scan.phase}")
    return time, phase


def _add(counts: NDArray[np.int64], cells: NDArray[np.int64]) -> None:
    """Adds 1 to each of these cells as often as it stands there."""
    if not len(cells):
        return
    low, high = int(cells.min()), int(cells.max()) + 1
    if high - low <= 8 * len(cells):
        counts[low:high] += np.bincount(cells - low, minlength=high - low)
    else:
        places, times = np.unique(cells, return_counts=True)
        counts[places] += times
