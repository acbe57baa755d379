"""The tables of a report: what is counted, and on which axes. docs/report.md tells of each kind what its cells are."""

from collections.abc import Callable, Iterable, Mapping, Sequence
from dataclasses import dataclass, field
from typing import Any, NamedTuple

import numpy as np
from numpy.typing import NDArray

from .errors import BadReportError, NotKnownError
from ._values import Compared
from ._xarrays import Axis, labelled, listed, pixels
from .headers import Header

__all__ = ["Measurement", "Table"]

Settings = Mapping[str, int]
Given = int | Sequence[int] | None  # photons of a group: of all measurements, of each, or those that a plan told
BY_DTIME = ("histogram", "cube")  # whose axis is the delay after the sync
MOST_CELLS = 1 << 26  # of a table, by the limits of a plan
MOST_REACH = 1 << 20  # of coincidences, likewise
TOGETHER = 1 << 16  # counts that are floating-point numbers at a time


class Measurement(NamedTuple):
    """What a table needs of one measurement to be normalised: its length from the first event to the last, in ticks
    (T3: sync periods), and the photons of the table's groups where a plan told them."""

    length: int | None
    photons: tuple[int, ...] | None


@dataclass(eq=False)
class Table(Compared):
    """A table of a report.

    ``counts`` has all cells, those of 0 too: ``(cells,)``, of an image ``(rows, columns)``, of a cube
    ``(rows, columns, bins)``. They are whole numbers of 64 bits with a sign, so that they can be subtracted, or Python's
    own in an array of objects where one passes 2^63, which only pairs and sums can.
    """

    kind: str
    number: int
    settings: dict[str, int]  # by the words of its first line, as width and bins
    counts: NDArray[Any]
    ticks: NDArray[Any]  # where a cell begins, of an image a column, of a cube a bin; the middle of a coincidence's differences; a correlation's delay; a fold's set
    seconds: NDArray[np.float64] | None  # the same in seconds, None where the file doesn't tell, and of a fold
    rest: dict[str, int] = field(default_factory=dict)  # what is in no cell, as over
    levels: NDArray[np.int64] | None = None  # of a correlation, the level of each cell
    groups: tuple[int, ...] | None = None  # the groups it counts, where a plan told them
    measurements: tuple[Measurement, ...] = ()  # one, or those of a sum

    @property
    def length(self) -> int | None:
        """The ticks (T3: sync periods) from the first event of the measurement to the last, None of a sum."""
        return self.measurements[0].length if len(self.measurements) == 1 else None

    @property
    def photons(self) -> tuple[int, ...] | None:
        """The photons of each of its groups, added up over the measurements of a sum; None where no plan told them."""
        each = [one.photons for one in self.measurements]
        if not each or None in each:
            return None
        return tuple(map(sum, zip(*(one for one in each if one is not None))))

    def expected(self, first_photons: Given = None, second_photons: Given = None) -> NDArray[np.float64]:
        """How many pairs each cell of a correlation would have without correlation: ``(cells,)``.

        By the photons of its two groups: first * second * 2^level * (T - t) / T^2 with the delay t and the length T of the
        measurement (docs/correlation.md); of a sum of reports the sum of what each expects, so one without events adds
        nothing. 0 where a delay is longer than the measurement.

        Photons are those that a plan tells, or that are given: a number for each measurement of a sum, or one for all of
        it, which then is shared by their lengths, as of light of one rate. Raises ``NotKnownError`` where photons or a length
        aren't known, or the table is no correlation.
        """
        if self.kind != "correlation" or self.levels is None:
            raise NotKnownError(f"a {self.kind} has no expected pairs")
        whole = np.zeros(len(self.ticks))
        for length, first, second in measured(self, first_photons, second_photons):
            free = np.maximum(length - self.ticks.astype(float), 0)
            whole += float(first) * float(second) * 2.0**self.levels * free / float(max(length, 1)) ** 2
        return whole

    def normalised(self, first_photons: Given = None, second_photons: Given = None) -> NDArray[np.float64]:
        """A correlation as a curve that is 1 without correlation, ``(cells,)``; nan where no pair is expected. Photons and
        errors as of ``expected``."""
        expected = self.expected(first_photons, second_photons)
        return np.where(expected > 0, self.counts.astype(float) / np.where(expected > 0, expected, 1), np.nan)

    def mean_delays(self) -> NDArray[np.float64]:
        """Of each pixel of a cube the mean of its dtimes in ticks, ``(rows, columns)``; nan where it has none.

        A dtime is taken in the middle of its bin. What lies past the last bin is told for all pixels together, so it
        is left out. Raises ``NotKnownError`` for other tables.
        """
        if self.kind != "cube":
            raise NotKnownError(f"a {self.kind} has no dtimes by pixels")
        photons = self.counts.sum(axis=2)
        middles = self.ticks + (self.settings["dwidth"] - 1) / 2
        return np.where(photons > 0, weighted_sums(self.counts, middles) / np.where(photons > 0, photons, 1), np.nan)

    def patterns(self) -> list[tuple[int, ...]]:
        """Of each cell of a fold the groups that have a photon in the window: their numbers, where a plan told them,
        and else their places in the fold, from 1. Raises ``NotKnownError`` for other tables."""
        if self.kind != "fold":
            raise NotKnownError(f"a {self.kind} has no sets of groups")
        groups = self.groups or range(1, len(self.counts).bit_length())
        return [tuple(group for k, group in enumerate(groups) if s >> k & 1) for s in range(len(self.counts))]

    def to_xarray(self, header: Header | None = None) -> Any:
        """The counts as an ``xarray.DataArray`` over named axes, with settings and rest as attributes.

        ``delay``, or ``time`` of a trace, is in seconds where the file tells a tick, else in ticks (of a trace, an image and
        pairs of T3 in sync periods); ``row`` and ``column`` are in micrometres by the ``header`` of the file, where that tells
        the size of a pixel, else numbers; ``set`` of a fold. The attribute ``units`` of an axis says which. Raises
        ``MissingLibraryError`` without xarray.
        """
        name = {"trace": "time", "fold": "set"}.get(self.kind, "delay")
        along = Axis(name, self.ticks, self.seconds, counted="number" if self.kind == "fold" else "ticks")
        axes = [along]
        if self.kind in ("image", "cube"):
            size = header.pixel_micrometres(self.counts.shape[1]) if header is not None else None
            axes = [*pixels(self.counts.shape[:2], size), *([along] if self.kind == "cube" else [])]
        more = {"level": (name, self.levels)} if self.levels is not None else {}
        title = f"{self.kind} {self.number}"
        found = labelled({title: self.counts}, axes, more, {})[title]
        found.attrs = {**self.settings, **self.rest}
        return found

    def to_pandas(self) -> Any:
        """The cells as a ``pandas.DataFrame``, a line for each, with the axes of ``to_xarray`` and the column ``count``. Raises
        ``MissingLibraryError`` without pandas or xarray."""
        frame = listed(self.to_xarray().to_dataset(name="count"), "a table as a list")
        if self.kind == "fold":
            frame.insert(1, "groups", self.patterns())
        return frame


def measured(table: Table, first: Given = None, second: Given = None) -> list[tuple[int, float, float]]:
    """Of each measurement in a table of pairs its length and the photons of both groups, as ``Table.expected`` takes them.

    Those without photons are left out: they have no length.
    """
    some = [one for one in table.measurements if one.photons is None or any(one.photons)]
    if any(one.length is None for one in some):
        raise NotKnownError("pairs of measurements without a known length, as of a sum that was written as one report")
    firsts, seconds = (_shares(some, place, given) for place, given in enumerate((first, second)))
    return [(one.length, float(a), float(b)) for one, a, b in zip(some, firsts, seconds) if one.length is not None]


def _shares(measurements: Sequence[Measurement], place: int, given: Given) -> Sequence[float]:
    """How many photons of the first (0) or the second (1) group each measurement has."""
    if given is None:
        known = [one.photons[place] for one in measurements if one.photons is not None and len(one.photons) == 2]
        if len(known) < len(measurements):
            raise NotKnownError("the photons of the two groups are not known: give them, or read the report with its plan")
        return known
    if not isinstance(given, int | np.integer):
        if len(given) != len(measurements):
            raise ValueError(f"photons of {len(given)} measurements for {len(measurements)} that have some")
        return given
    lengths = [(one.length or 0) + 1 for one in measurements]
    return [float(given) * length / sum(lengths) for length in lengths]


def enough(photons: NDArray[Any]) -> int:
    """With how many photons a pixel has a mean delay to look at: a tenth of what the brightest have, the 99th percentile."""
    return max(1, round(0.1 * float(np.percentile(photons, 99)))) if photons.size else 1


def weighted_sums(counts: NDArray[Any], weights: NDArray[Any]) -> NDArray[Any]:
    """``counts @ weights``, of shape (.., bins) and (bins,), with some counts at a time as floating-point numbers."""
    bins = counts.shape[-1]
    pixels = counts.reshape(-1, bins)
    sums = np.empty(len(pixels), np.result_type(weights, np.float64))
    step = max(1, TOGETHER // max(1, bins))
    for at in range(0, len(pixels), step):
        sums[at : at + step] = pixels[at : at + step] @ weights
    return sums.reshape(counts.shape[:-1])


class Kind(NamedTuple):
    """What a kind of table has in a report, and where a cell of it stands in an array."""

    settings: tuple[str, ...]
    rest: tuple[str, ...]
    columns: int  # words of a line of a cell
    shape: Callable[[Settings], tuple[int, ...]]
    ticks: Callable[[Settings], NDArray[Any]]
    place: Callable[[Settings, NDArray[np.int64]], NDArray[np.int64]]  # of lines (n, columns - 1) the places in a flat array, -1 for none


def even(start: int, step: int, cells: int) -> NDArray[Any]:
    """``start``, ``start + step`` ..: Python's own numbers where 64 bits don't hold them."""
    if abs(start) + step * cells < 1 << 63:
        return start + step * np.arange(cells, dtype=np.int64)
    return np.array([start + step * cell for cell in range(cells)], dtype=object)


def lags_of(settings: Settings) -> tuple[NDArray[np.int64], NDArray[np.int64]]:
    """Level and lag of each cell of a correlation, in the order of the report."""
    lags, levels = settings["lags"], settings["levels"]
    first, more = np.arange(1, lags + 1), np.arange(lags // 2 + 1, lags + 1)
    level = np.repeat(np.arange(levels), [lags] + [len(more)] * (levels - 1))
    return level, np.concatenate([first] + [more] * (levels - 1))


def _delays(settings: Settings) -> NDArray[Any]:
    level, lag = lags_of(settings)
    return lag << level


def _differences(settings: Settings) -> NDArray[np.float64]:
    reach, width = settings["reach"], settings["width"]
    least = width * np.arange(2 * reach // width + 1) - reach
    most = np.minimum(least + width - 1, reach)
    return np.asarray((least + most) / 2)


def _first(settings: Settings, lines: NDArray[np.int64]) -> NDArray[np.int64]:
    return np.asarray(lines[:, 0])


def _pixel(settings: Settings, lines: NDArray[np.int64]) -> NDArray[np.int64]:
    column, row = lines.T
    return _inside(row * settings["width"] + column, (column, settings["width"]), (row, settings["height"]))


def _voxel(settings: Settings, lines: NDArray[np.int64]) -> NDArray[np.int64]:
    column, row, cell = lines.T
    place = (row * settings["width"] + column) * settings["dbins"] + cell
    return _inside(place, (column, settings["width"]), (row, settings["height"]), (cell, settings["dbins"]))


def _inside(place: NDArray[np.int64], *limits: tuple[NDArray[np.int64], int]) -> NDArray[np.int64]:
    """The places, -1 where a number is not less than its limit."""
    for numbers, limit in limits:
        if int(numbers.max(initial=0)) >= limit:
            place[numbers >= limit] = -1
    return place


def _lag(settings: Settings, lines: NDArray[np.int64]) -> NDArray[np.int64]:
    level, lag = lines.T
    half = settings["lags"] // 2
    place = level * half + lag - 1
    place[(level > 0) & (lag <= half)] = -1
    return _inside(place, (level, settings["levels"]), (lag, settings["lags"] + 1))


def _bins(settings: Settings) -> tuple[int, ...]:
    return (settings["bins"],)


def _even_bins(settings: Settings) -> NDArray[Any]:
    return even(settings.get("origin", 0), settings["width"], settings["bins"])


KINDS = {
    "histogram": Kind(("width", "bins"), ("over",), 2, _bins, _even_bins, _first),
    "trace": Kind(("origin", "width", "bins"), ("before", "beyond"), 2, _bins, _even_bins, _first),
    "startstop": Kind(("width", "bins"), ("over",), 2, _bins, _even_bins, _first),
    "coincidence": Kind(("reach", "width"), (), 2, lambda s: (2 * s["reach"] // s["width"] + 1,), _differences, _first),
    "image": Kind(
        ("width", "height", "dwell"),
        ("outside",),
        3,
        lambda s: (s["height"], s["width"]),
        lambda s: even(0, s["dwell"], s["width"]),
        _pixel,
    ),
    "correlation": Kind(
        ("lags", "levels"), (), 3, lambda s: (s["lags"] + (s["levels"] - 1) * (s["lags"] // 2),), _delays, _lag
    ),
    "cube": Kind(
        ("width", "height", "dwell", "dwidth", "dbins"),
        ("outside", "over"),
        4,
        lambda s: (s["height"], s["width"], s["dbins"]),
        lambda s: even(0, s["dwidth"], s["dbins"]),
        _voxel,
    ),
    "fold": Kind(("window", "sets"), (), 2, lambda s: (s["sets"],), lambda s: even(0, 1, s["sets"]), _first),
}


def empty_table(kind: str, number: int, settings: dict[str, int], seconds: float | None) -> Table:
    """A table without counts; ``seconds`` is what a tick of its axis lasts.

    Raises ``BadReportError`` where its settings are none that a plan can have.
    """
    few = min(settings.values()) < (0 if kind == "trace" else 1) or settings.get("width", 1) < 1 or settings.get("bins", 1) < 1
    if few or settings.get("levels", 1) > 40 or settings.get("reach", 1) > MOST_REACH:  # delays and differences have 64 bits
        raise BadReportError(f"a {kind} with settings that no plan has")
    shape = KINDS[kind].shape(settings)
    cells = 1
    for size in shape:
        cells *= size
    if cells > MOST_CELLS:
        raise BadReportError(f"a {kind} of {cells} cells, which no plan has")
    ticks = KINDS[kind].ticks(settings)
    with np.errstate(all="ignore"):  # a header may tell any floating-point number
        axis = None if seconds is None or kind == "fold" else np.asarray(ticks * seconds, dtype=np.float64)
    levels = lags_of(settings)[0] if kind == "correlation" else None
    return Table(kind, number, settings, np.zeros(shape, dtype=np.int64), ticks, axis, levels=levels)


def names_of_groups(kind: str, settings: Mapping[str, Any]) -> tuple[int, ...]:
    """The groups of a table of a plan, in the order in which the plan's keys name them."""
    if kind == "fold":
        return tuple(settings["groups"])
    keys: Iterable[str] = {"startstop": ("start", "stop"), "coincidence": ("first", "second"), "correlation": ("first", "second")}.get(
        kind, ("group",)
    )
    return tuple(settings[key] for key in keys)
