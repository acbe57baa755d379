"""Photons as a Photon-HDF5 file: https://photon-hdf5.readthedocs.io, the public specification, version 0.5."""

import functools
import logging
import math
import os
from collections.abc import Callable, Collection, Iterator, Sequence
from dataclasses import dataclass
from datetime import datetime, timezone
from pathlib import Path
from typing import Any, Literal, NamedTuple

import numpy as np
from numpy.typing import DTypeLike, NDArray

from .errors import NotKnownError
from .events import LATE, Events, Records
from .groups import PIECE, Alternated, EventsLike, Group, GroupLike, group_of, header_of, pieces_of
from .headers import Header
from ._optional import want
from ._versions import __version__
from ._whole import whole_path

__all__ = ["Setup", "read_photon_hdf5", "write_photon_hdf5"]

log = logging.getLogger(__name__)

PHOTON_HDF5 = "0.5"  # the version of the specification
FORMAT_URL = "http://photon-hdf5.org/"
TITLE = "Photon-HDF5: A file format for photon-counting detector based single-molecule spectroscopy experiments."
CHUNK = 1 << 16  # photons that are packed together; eight bytes of each are within HDF5's cache
LOOK = 0.2  # of all that is done, the part in which it is looked what photons there are


@dataclass(frozen=True)
class Setup:
    """What a measurement was, in the terms of Photon-HDF5.

    - ``kind``: ``"smFRET"``, ``"smFRET-usALEX"`` (lasers that are switched), ``"smFRET-nsALEX"`` (pulses in turn, as PIE) or
      ``"generic"``.
    - ``spectral``: the inputs of each spectral channel, the donor's first; ``polarization``: those of each polarisation.
      Without channels all inputs are one.
    - ``excitation``: of each laser, the donor's first, the pairs (from, to) of times in which it excites, without the second:
      of dtimes in ticks, and with an ``alternation_period`` of times, less ``alternation_offset``, modulo that period, in
      ticks of T2 or sync periods of T3.
    - ``repetition_rates``: of the pulses of each laser, in hertz; of T3 by default one over the sync period, of T2 a laser is
      else taken to be continuous. ``excitation_wavelengths`` of lasers and ``detection_wavelengths`` of spectral channels: in
      metres.

    Raises ``ValueError`` for what the format can't say.
    """

    kind: Literal["generic", "smFRET", "smFRET-usALEX", "smFRET-nsALEX"] = "generic"
    spectral: Sequence[Collection[int]] = ()
    polarization: Sequence[Collection[int]] = ()
    excitation: Sequence[Sequence[tuple[int, int]]] = ()
    alternation_period: int | None = None
    alternation_offset: int = 0
    repetition_rates: Sequence[float] = ()
    excitation_wavelengths: Sequence[float] = ()
    detection_wavelengths: Sequence[float] = ()

    def __post_init__(self) -> None:
        of_lasers = {len(told) for told in (self.excitation, self.repetition_rates, self.excitation_wavelengths) if told}
        wrong = {
            f"no type of measurement: {self.kind}": self.kind not in ("generic", "smFRET", "smFRET-usALEX", "smFRET-nsALEX"),
            f"{self.kind} has two spectral channels, not {len(self.spectral)}": self.kind != "generic" and len(self.spectral) != 2,
            f"{self.kind} has two lasers that excite in turn": "ALEX" in self.kind and len(self.excitation) != 2,
            "smFRET has one laser: smFRET-nsALEX and smFRET-usALEX have two in turn": self.kind == "smFRET" and bool(self.excitation),
            "smFRET-usALEX has an alternation_period": self.kind == "smFRET-usALEX" and not self.alternation_period,
            f"lasers are told differently: {self.excitation_wavelengths}, {self.repetition_rates}, {self.excitation}": len(of_lasers) > 1,
            f"{len(self.spectral)} spectral channels of wavelengths {self.detection_wavelengths}": len(self.detection_wavelengths)
            not in (0, len(self.spectral)),
            "wavelengths are in metres": not all(1e-7 < one < 1e-4 for one in (*self.excitation_wavelengths, *self.detection_wavelengths)),
            f"no rate of a laser: {self.repetition_rates}": not all(rate > 0 for rate in self.repetition_rates),
        }
        if found := [why for why, is_wrong in wrong.items() if is_wrong]:
            raise ValueError(found[0])

    @property
    def groups(self) -> tuple[Group, ...]:
        """The photons of donor and acceptor while the donor is excited, and, with lasers in turn, of the acceptor while it is.

        They are for ``bursts`` and ``smfret``. Raises ``NotKnownError`` for a measurement that is no smFRET.
        """
        if self.kind == "generic":
            raise NotKnownError("a generic measurement has no donor and acceptor")
        donor, acceptor = self.spectral
        if not self.excitation:
            return Group(donor), Group(acceptor)
        make: Any = Group
        if self.alternation_period:
            make = functools.partial(Alternated, period=self.alternation_period, offset=self.alternation_offset)
        first, second = ([(int(a), int(b)) for a, b in laser] for laser in self.excitation)
        return make(donor, first), make(acceptor, first), make(acceptor, second)

    @property
    def lasers(self) -> int:
        """How many lasers there are: one where nothing tells."""
        return max(1, len(self.excitation), len(self.repetition_rates), len(self.excitation_wavelengths))


class _Photons(NamedTuple):
    """What the photons of a group are, all together."""

    header: Header
    counts: NDArray[np.int64]  # by inputs
    deepest: int  # dtime
    stop: int  # behind the last event that isn't late, of any group

    @property
    def inputs(self) -> NDArray[np.uint8]:
        """Those that have photons."""
        return np.flatnonzero(self.counts).astype(np.uint8)


class _Column(NamedTuple):
    """A field with a number for each photon, which is filled in piece by piece."""

    kind: DTypeLike
    many: int


def write_photon_hdf5(
    events: EventsLike,
    path: str | os.PathLike[str],
    *,
    description: str,
    setup: Setup | None = None,
    author: str = "",
    affiliation: str = "",
    group: GroupLike = None,
    filename: str = "",
    progress: Callable[[float], None] | None = None,
) -> None:
    """The photons of a group that aren't late as a Photon-HDF5 file of one spot.

    Fields and units are those of the public specification, version 0.5 (Ingargiola, Laurence, Boutelle, Weiss and
    Michalet, Biophysical Journal 110, 26, 2016): ``timestamps`` in units of ``timestamps_unit`` seconds, of T3 the sync
    periods, ``detectors`` the inputs, and of T3 ``nanotimes`` in units of ``tcspc_unit`` seconds. Markers aren't written.
    ``events``: also the path of a PTU file, which is read twice, in the memory of a piece. ``setup``: what the measurement was,
    by default a "generic" one of one spectral channel. ``filename``: of the file the events were read from. ``progress`` is
    called with the part that is done. Raises ``ValueError`` for photons of inputs that have no channel and times that no laser
    has, ``NotKnownError`` where the header doesn't tell the seconds of a tick, and ``MissingLibraryError`` without h5py.
    """
    h5py = want("h5py", "Photon-HDF5")
    setup, chosen, said = Setup() if setup is None else setup, group_of(group), progress or (lambda part: None)
    unit = _positive(header_of(events).global_seconds)
    photons = _looked_at(events, chosen, lambda part: said(LOOK * part))
    tree: dict[str, Any] = {
        "acquisition_duration": photons.stop * unit,
        "description": description,
        "photon_data": _photon_data(photons, setup),
        "setup": _setup(photons, setup),
        "identity": _identity(author, affiliation, Path(path).name),
    }
    tree |= {"provenance": told} if (told := _provenance(photons.header, filename)) else {}
    with whole_path(path) as part, h5py.File(part, "w") as file:
        _put(file, "", tree, TITLE)
        for name, text in (("format_name", "Photon-HDF5"), ("format_version", PHOTON_HDF5), ("format_url", FORMAT_URL)):
            file.attrs[name] = np.bytes_(text.encode())
        _fill(file["photon_data"], events, chosen, lambda part: said(LOOK + (1 - LOOK) * part))


def _pieces(events: EventsLike, said: Callable[[float], None]) -> Iterator[Events]:
    """The pieces of a source; each that is done with is said."""
    whole = max(1, len(events) if isinstance(events, Events | np.ndarray) else header_of(events).records)
    for number, piece in enumerate(pieces_of(events), 1):
        yield piece
        said(min(1.0, number * PIECE / whole))


def _looked_at(events: EventsLike, group: Group, said: Callable[[float], None]) -> _Photons:
    counts, deepest, stop = np.zeros(256, np.int64), 0, 0
    for piece in _pieces(events, said):
        mine = group.mask(piece)
        counts += np.bincount(piece.numbers[mine], minlength=256)
        deepest = max(deepest, int(piece.dtimes[mine].max(initial=0)))
        stop = max(stop, int(piece.times[~piece["late"]].max(initial=-1)) + 1)
    return _Photons(header_of(events), counts, deepest, stop)


def _fill(data: Any, events: EventsLike, group: Group, said: Callable[[float], None]) -> None:
    """Puts the photons into their fields."""
    at = 0
    for piece in _pieces(events, said):
        photons = piece[group.mask(piece)]
        for name, column in (("timestamps", "time"), ("detectors", "number"), ("nanotimes", "dtime")):
            if name in data and len(photons):
                data[name][at : at + len(photons)] = photons[column]
        at += len(photons)


def read_photon_hdf5(path: str | os.PathLike[str], *, spot: int | None = None) -> tuple[Events, Setup]:
    """The photons of a Photon-HDF5 file, and what the measurement was; ``setup.groups`` has donor and acceptor.

    Times are in units of ``timestamps_unit`` seconds, inputs are ``detectors`` (0 where there are none), and dtimes, where the
    file has them, ``nanotimes``; such a file is of mode T3, another one of T2. Everything is taken as a photon, and one that goes
    back in time as late. ``spot``: which of several (``photon_data0``..). What the format knows and ``Setup`` doesn't, as other
    types of measurement, is left out, and that is logged. Raises ``OSError`` for a file that isn't HDF5, ``NotKnownError``
    where a field that is needed isn't there, ``ValueError`` for numbers that events don't hold, and ``MissingLibraryError``
    without h5py.
    """
    h5py = want("h5py", "Photon-HDF5")
    with h5py.File(path, "r") as file:
        place = "photon_data" if spot is None else f"photon_data{spot}"
        if place not in file:
            raise NotKnownError(f"{os.fspath(path)} has no {place}; it has {', '.join(sorted(file))}")
        return _events_in(file, file[place]), _setup_in(file, file[place])


def _value(node: Any, *names: str) -> Any:
    """The first of these fields that is there: a number, a text or an array; None where none is."""
    for name in names:
        if name in node:
            value = node[name][()]
            if isinstance(value, np.ndarray) and value.shape == (1,) and value.dtype.kind in "SO":
                value = value[0]
            return value.decode("utf-8", "replace").strip() if isinstance(value, bytes) else value
    return None


def _events_in(file: Any, data: Any) -> Events:
    times, unit = _value(data, "timestamps"), _value(data, "timestamps_specs/timestamps_unit")
    if times is None or unit is None:
        raise NotKnownError("the file has no timestamps, or no unit of them")
    times, numbers, dtimes = times.astype(np.int64), _value(data, "detectors"), _value(data, "nanotimes")
    numbers = np.zeros(len(times), np.uint8) if numbers is None else numbers
    if int(numbers.max(initial=0)) > 255 or (dtimes is not None and int(dtimes.max(initial=0)) > np.iinfo(np.int32).max):
        raise ValueError("a detector past 255, or a nanotime past 31 bits")
    if len(numbers) != len(times) or (dtimes is not None and len(dtimes) != len(times)):
        raise ValueError(f"{len(times)} timestamps of another number of detectors or nanotimes")
    columns = np.broadcast_to(np.int32(0), times.shape) if dtimes is None else dtimes.astype(np.int32)
    late = times < np.maximum.accumulate(times)
    tick = None if dtimes is None else _value(data, "nanotimes_specs/tcspc_unit")
    header = Header(f"Photon-HDF5 T{2 if dtimes is None else 3}", _tags(file), None, float(unit), None if tick is None else float(tick), 0, len(times))
    numbered = Records(functools.partial(np.arange, 1, len(times) + 1))
    return Events(header, times, columns, numbers.astype(np.uint8), late * np.uint8(LATE), numbered)


def _tags(file: Any) -> dict[str, Any]:
    """What the file says of its origin, by the names of tags of PTU."""
    told = {
        "File_Comment": _value(file, "description"),
        "CreatorSW_Name": _value(file, "provenance/software"),
        "CreatorSW_Version": _value(file, "provenance/software_version"),
    }
    created = _value(file, "provenance/creation_time")
    try:
        days = (datetime.strptime(created or "", "%Y-%m-%d %H:%M:%S") - datetime(1899, 12, 30)).total_seconds() / 86400
    except ValueError:
        days = None
    return {name: value for name, value in (told | {"File_CreatingTime": days}).items() if value is not None}


def _setup_in(file: Any, data: Any) -> Setup:
    specs = data.get("measurement_specs", {})
    kind: Any = _value(specs, "measurement_type") or "generic"
    period, excitation = _value(specs, "alex_period"), list(_numbered(specs, "alex_excitation_period"))
    if kind not in ("generic", "smFRET", "smFRET-usALEX", "smFRET-nsALEX") or ("ALEX" in kind and len(excitation) != 2):
        log.warning("measurement of the type %s and %d times of lasers: taken as generic", kind, len(excitation))
        kind, excitation = "generic", []
    lasers = [_pairs(laser.tolist(), None if period is None else int(period)) for laser in excitation]
    detectors = specs.get("detectors_specs", {})
    rates = _listed(file, "setup/laser_repetition_rates", 0, math.inf)
    waves, seen = (_listed(file, f"setup/{name}_wavelengths", 1e-7, 1e-4) for name in ("excitation", "detection"))
    spectral = [one.tolist() for one in _numbered(detectors, "spectral_ch")]
    many = len(lasers) or max(len(rates), len(waves))
    if left := [name for name, told in (("rates", rates), ("wavelengths", waves)) if told and len(told) != many]:
        log.warning("%s of lasers aren't those of %d lasers: left out", " and ".join(left), many)
    polarization = [one.tolist() for one in _numbered(detectors, "polarization_ch")]
    return Setup(
        kind, spectral or (), polarization or (), lasers or (),
        None if period is None or not lasers else int(period), int(_value(specs, "alex_offset") or 0) if lasers else 0,
        rates if rates and len(rates) == many else (), waves if waves and len(waves) == many else (), seen if seen and len(seen) == len(spectral) else (),
    )  # fmt: skip


def _listed(node: Any, name: str, low: float, high: float) -> list[float]:
    """The numbers of a field that are between these, none where there is no such field."""
    found = _value(node, name)
    return [] if found is None else [float(one) for one in np.atleast_1d(found) if low < one < high]


def _numbered(node: Any, name: str) -> Iterator[Any]:
    """The fields with a name that ends in 1, 2 and so on, as arrays."""
    number = 1
    while (found := _value(node, f"{name}{number}")) is not None:
        yield np.atleast_1d(found).ravel()
        number += 1


def _pairs(flat: list[int], period: int | None) -> list[tuple[int, int]]:
    """Times of a laser; those over the end of a period are two."""
    pairs = list(zip(flat[::2], flat[1::2]))
    ended = [(start, stop if start < stop or period is None else period) for start, stop in pairs]
    return ended + [(0, stop) for start, stop in pairs if period is not None and start >= stop > 0]


def _positive(seconds: float | None) -> float:
    if seconds is None or not seconds > 0:
        raise NotKnownError("the header doesn't tell how many seconds a tick has")
    return seconds


def _photon_data(photons: _Photons, setup: Setup) -> dict[str, Any]:
    header, bins, many = photons.header, 0, int(photons.counts.sum())
    data: dict[str, Any] = {
        "timestamps": _Column(np.int64, many),
        "timestamps_specs": {"timestamps_unit": header.global_seconds},
        "detectors": _Column(np.uint8, many),
    }
    if header.mode == "T3":
        period, tick = _positive(header.global_seconds), _positive(header.resolution_seconds)
        bins = max(round(period / tick), photons.deepest + 1)
        data["nanotimes"] = _Column(np.uint16 if photons.deepest < 1 << 16 else np.uint32, many)
        data["nanotimes_specs"] = {"tcspc_unit": tick, "tcspc_num_bins": bins, "tcspc_range": bins * tick}
    elif setup.kind == "smFRET-nsALEX":
        raise ValueError("smFRET-nsALEX is of T3 files, whose photons have delays")
    data["measurement_specs"] = _specs(photons, setup, bins)
    return data


def _specs(photons: _Photons, setup: Setup, bins: int) -> dict[str, Any]:
    """The type of the measurement, its channels, and when which laser excites."""
    channels = _channels("spectral", setup.spectral or [photons.inputs], photons)
    channels |= _channels("polarization", setup.polarization, photons) if setup.polarization else {}
    specs: dict[str, Any] = {"measurement_type": setup.kind, "detectors_specs": channels}
    if photons.header.mode == "T3":
        specs["laser_repetition_rate"] = _rates(photons, setup)[0]
    if setup.alternation_period:
        specs |= {"alex_period": setup.alternation_period, "alex_offset": setup.alternation_offset}
    last = 0
    for start, stop in sorted(pair for laser in setup.excitation for pair in laser):
        if start < last:
            raise ValueError(f"times of lasers overlap at {start}")
        if not start < stop <= (setup.alternation_period or bins):
            raise ValueError(f"no time of a laser: from {start} to {stop} of {setup.alternation_period or bins}")
        last = stop
    return specs | {f"alex_excitation_period{n}": np.array(laser, np.int64).ravel() for n, laser in enumerate(setup.excitation, 1)}


def _channels(kind: str, channels: Sequence[Collection[int]], photons: _Photons) -> dict[str, Any]:
    """The inputs of each channel. Raises ``ValueError`` where an input with photons is in none, or one is in two."""
    seen: set[int] = set()
    for channel in channels:
        if twice := seen & set(channel):
            raise ValueError(f"input {min(twice)} is in two {kind} channels")
        if not len(channel) and len(channels) > 1:
            raise ValueError(f"a {kind} channel of no input")
        seen |= set(channel)
    if missing := set(photons.inputs.tolist()) - seen:
        raise ValueError(f"input {min(missing)} is in no {kind} channel: leave its photons out by a group")
    return {f"{kind}_ch{n}": np.array(sorted(channel), np.uint8) for n, channel in enumerate(channels, 1)}


def _rates(photons: _Photons, setup: Setup) -> list[float]:
    """The repetition rate of each laser, or none where they are continuous."""
    if photons.header.mode == "T2" or setup.repetition_rates:
        return list(setup.repetition_rates)
    return [1 / _positive(photons.header.global_seconds)] * setup.lasers


def _setup(photons: _Photons, setup: Setup) -> dict[str, Any]:
    inputs = photons.inputs
    rates = _rates(photons, setup)
    told: dict[str, Any] = {
        "num_pixels": max(len(inputs), 1),
        "num_spots": 1,
        "num_spectral_ch": max(len(setup.spectral), 1),
        "num_polarization_ch": max(len(setup.polarization), 1),
        "num_split_ch": 1,
        "modulated_excitation": bool(setup.excitation),
        "excitation_alternated": np.array([bool(setup.excitation)] * setup.lasers, np.int8),
        "excitation_cw": np.array([not rates] * setup.lasers, np.int8),
        "lifetime": photons.header.mode == "T3",
        "detectors": {"id": inputs, "counts": photons.counts[inputs]},
    }
    arrays = {
        "laser_repetition_rates": rates,
        "excitation_wavelengths": setup.excitation_wavelengths,
        "detection_wavelengths": setup.detection_wavelengths,
    }
    return told | {name: np.array(values, np.float64) for name, values in arrays.items() if len(values)}


def _identity(author: str, affiliation: str, name: str) -> dict[str, Any]:
    written = {
        "author": author,
        "author_affiliation": affiliation,
        "creation_time": datetime.now(timezone.utc).strftime("%Y-%m-%d %H:%M:%S"),
        "software": "ptulab",
        "software_version": __version__,
        "format_name": "Photon-HDF5",
        "format_version": PHOTON_HDF5,
        "format_url": FORMAT_URL,
        "filename": name,
    }
    return {field: value for field, value in written.items() if value}


def _provenance(header: Header, filename: str) -> dict[str, Any]:
    created = header.created
    told = {"filename": Path(filename).name, "creation_time": "" if created is None else created.strftime("%Y-%m-%d %H:%M:%S")}
    told["software"] = str(header.tags.get("CreatorSW_Name") or "")
    told["software_version"] = str(header.tags.get("CreatorSW_Version") or "")
    return {field: value for field, value in told.items() if value}


TITLES = {
    "acquisition_duration": "Measurement duration in seconds.",
    "description": "A user-defined comment describing the data file.",
    "photon_data": "Group containing arrays of photon-data.",
    "photon_data/timestamps": "Array of photon timestamps.",
    "photon_data/timestamps_specs": "Specifications for timestamps.",
    "photon_data/timestamps_specs/timestamps_unit": "Time in seconds of 1-unit increment in timestamps.",
    "photon_data/detectors": "Array of detector numbers for each timestamp.",
    "photon_data/nanotimes": "TCSPC photon arrival time (nanotimes).",
    "photon_data/nanotimes_specs": "Group for nanotime-specific data.",
    "photon_data/nanotimes_specs/tcspc_unit": "TCSPC time bin duration in seconds (nanotimes unit).",
    "photon_data/nanotimes_specs/tcspc_num_bins": "Number of TCSPC bins.",
    "photon_data/nanotimes_specs/tcspc_range": "TCSPC full-scale range in seconds.",
    "photon_data/measurement_specs": "Metadata necessary for interpretation of the particular type of measurement.",
    "photon_data/measurement_specs/measurement_type": "Name of the measurement the data represents.",
    "photon_data/measurement_specs/laser_repetition_rate": "Repetition rate of the pulsed excitation laser in Hertz.",
    "photon_data/measurement_specs/detectors_specs": "Mapping between the pixel IDs and the detection channels.",
    "photon_data/measurement_specs/detectors_specs/spectral_ch1": "Pixel IDs for the first spectral channel (i.e. donor in a smFRET measurement).",
    "photon_data/measurement_specs/detectors_specs/spectral_ch2": "Pixel IDs for the second spectral channel (i.e. acceptor in a smFRET measurement).",
    "photon_data/measurement_specs/alex_period": "Period of laser alternation in us-ALEX measurements in timestamps units.",
    "photon_data/measurement_specs/alex_offset": "Time offset for the beginning of the alternation period in timestamps units.",
    "setup": "Information about the experimental setup.",
    "setup/num_pixels": "Total number of detector pixels.",
    "setup/num_spots": 'Number of excitation (or detection) "spots" in the sample.',
    "setup/num_spectral_ch": "Number of distinct detection spectral channels.",
    "setup/num_polarization_ch": "Number of distinct detection polarization channels.",
    "setup/num_split_ch": "Number of distinct detection channels of the same spectral band and polarization.",
    "setup/modulated_excitation": "True (or 1) if there is any form of excitation modulation.",
    "setup/excitation_alternated": "For each excitation source, True if the excitation is alternated.",
    "setup/excitation_cw": "For each excitation source, True if the excitation is continuous wave (CW), False if pulsed.",
    "setup/laser_repetition_rates": "Laser repetition rates in Hertz for each excitation source.",
    "setup/excitation_wavelengths": "List of excitation wavelengths (center wavelength if broad-band) in increasing order (unit: meter).",
    "setup/detection_wavelengths": "Reference wavelengths (in meters) for each detection spectral band.",
    "setup/lifetime": "True (or 1) if the measurement includes nanotimes.",
    "setup/detectors": "Group with per-detector information.",
    "setup/detectors/id": "ID of each detector as it appears in photon_data/detectors.",
    "setup/detectors/counts": "Number of photons in each detector.",
    "identity": "Information about the Photon-HDF5 data file.",
    "identity/author": "Author of the current data file.",
    "identity/author_affiliation": "Company or institution the author is affiliated with.",
    "identity/creation_time": "Creation time of the current file.",
    "identity/software": "Name of the software used to create the current file.",
    "identity/software_version": "Version of the software used to create the current file.",
    "identity/format_name": "Name of the format for the data file.",
    "identity/format_version": "Version of the format for the data file.",
    "identity/format_url": "Official URL for the Photon-HDF5 format.",
    "identity/filename": "File name of the current file.",
    "provenance": "Information about the original data file.",
    "provenance/filename": "File name of the original data file before conversion to Photon-HDF5.",
    "provenance/creation_time": "Creation time of the original data file.",
    "provenance/software": "Software used to save the original data file.",
    "provenance/software_version": "Version of the software used to save the original data file.",
}


NUMBERED = {
    "spectral_ch": "Pixel IDs for the spectral channel",
    "polarization_ch": "Pixel IDs for the polarization channel",
    "alex_excitation_period": "Start and stop values identifying the excitation period of laser",
}


def _put(node: Any, place: str, tree: dict[str, Any], title: str) -> None:
    """Writes a tree of groups, arrays, numbers and texts, each with the attribute TITLE."""
    node.attrs["TITLE"] = np.bytes_(title.encode())
    for name, value in tree.items():
        inner = f"{place}/{name}" if place else name
        said = TITLES.get(inner) or f"{NUMBERED[name[:-1]]} {name[-1]}."
        if isinstance(value, dict):
            _put(node.create_group(name), inner, value, said)
            continue
        if isinstance(value, str):
            value = np.bytes_(value.encode(errors="replace") or b" ")  # HDF5 has no text of no length
        elif isinstance(value, bool):
            value = np.int8(value)
        if isinstance(value, _Column):
            packed = {"compression": "gzip", "compression_opts": 1, "shuffle": True, "chunks": (min(value.many, CHUNK),)} if value.many > 1000 else {}
            field = node.create_dataset(name, (value.many,), value.kind, **packed)
        else:
            field = node.create_dataset(name, data=value)
        field.attrs["TITLE"] = np.bytes_(said.encode())
