"""Files for other programs: arrays of NumPy, curves for PyCorrFit, images as OME-TIFF, and photons as Photon-HDF5.

Every file appears when it is whole.
"""

import json
import math
import os
from collections.abc import Iterable, Iterator, Sequence
from typing import Any, Literal
from xml.etree import ElementTree

import numpy as np
from numpy.typing import NDArray

from .errors import NotKnownError
from .antibunching import g2
from ._optional import want
from .photon_hdf5 import write_photon_hdf5
from .report import Report
from .scans import Cube, Image
from .segments import Curve
from .tables import Table
from ._whole import whole_path, written_whole

__all__ = ["write_csv", "write_json", "write_npz", "write_ome_tiff", "write_photon_hdf5", "write_pycorrfit", "written_whole"]

PathLike = str | os.PathLike[str]
SPACES = {"": "http://www.openmicroscopy.org/Schemas/OME/2016-06", "xsi": "http://www.w3.org/2001/XMLSchema-instance"}


LEADING = {"image": ("row",), "cube": ("row", "column")}  # axes before the last one


def write_csv(tables: Table | Iterable[Table], folder: PathLike) -> None:
    """A file of each table in a folder, ``KIND_NUMBER.csv``: a line for each cell, those of 0 too, with the axes in ticks and
    seconds, and, where the plan told the photons of its groups, g2 or a normalised correlation, each with its Poisson error.
    Raises ``OSError``."""
    os.makedirs(folder, exist_ok=True)
    for table in [tables] if isinstance(tables, Table) else tables:
        with written_whole(os.path.join(folder, f"{table.kind}_{table.number}.csv")) as out:
            out.writelines(line.encode("ascii") for line in csv_lines(table))


def write_json(report: Report, path: PathLike, tables: Iterable[Table] | None = None) -> None:
    """A report, or some of its tables, as one text of JSON: its head, and of each table settings, axes, counts, what is in no
    cell, and normalised values where they are known. Raises ``OSError``."""
    told = [
        {
            "kind": table.kind,
            "number": table.number,
            **table.settings,
            "ticks": table.ticks.tolist(),
            "seconds": None if table.seconds is None else table.seconds.tolist(),
            "counts": table.counts.tolist(),
            **{name: [value if math.isfinite(value) else None for value in values.tolist()] for name, values in normalised(table).items()},
            **table.rest,
        }
        for table in (report.tables if tables is None else tables)
    ]
    with written_whole(path) as out:
        out.write(json.dumps({"head": dict(report.head.items()), "tables": told}).encode("ascii"))


def csv_lines(table: Table) -> Iterator[str]:
    """The lines of a CSV file of all cells of a table, with their names first."""
    columns, more = along(table), normalised(table)
    yield ",".join([*LEADING.get(table.kind, ()), *columns, "count", *more]) + "\n"
    middles = ["".join(f"{value}," for value in values) for values in zip(*(array.tolist() for array in columns.values()))]
    ends = ["".join(f",{value}" for value in values) + "\n" for values in zip(*(array.tolist() for array in more.values()))]
    for place in np.ndindex(table.counts.shape[:-1]):
        front = "".join(f"{number}," for number in place)
        counts = table.counts[place].tolist()
        yield "".join([f"{front}{middle}{count}{end}" for middle, count, end in zip(middles, counts, ends or ["\n"] * len(middles))])


def along(table: Table) -> dict[str, NDArray[Any]]:
    """The columns that go by the table's last axis, an array of each."""
    if table.kind == "image":
        return {"column": np.arange(len(table.ticks))}
    if table.kind == "fold":
        return {"set": table.ticks, "groups": np.array([" ".join(map(str, groups)) for groups in table.patterns()])}
    columns = {"ticks": table.ticks, "seconds": table.seconds, "level": table.levels}
    return {name: array for name, array in columns.items() if array is not None}


def normalised(table: Table) -> dict[str, NDArray[np.float64]]:
    """The column that is 1 without correlation, and its error, an array of each: none where photons or length aren't known."""
    if table.photons is None or None in (one.length for one in table.measurements):
        return {}
    name = {"coincidence": "g2", "correlation": "normalised"}.get(table.kind)
    return dict(zip((name, "error"), g2(table))) if name else {}


def write_npz(report: Report, path: PathLike) -> None:
    """All arrays of a report as one ``.npz`` file, which ``numpy.load`` reads without pickles.

    A table has the arrays ``KIND_NUMBER`` (its counts), ``KIND_NUMBER_ticks``, where they are known
    ``KIND_NUMBER_seconds`` and ``KIND_NUMBER_levels``, of pairs whose groups have known photons ``KIND_NUMBER_g2`` or
    ``KIND_NUMBER_normalised``, and ``KIND_NUMBER_error``, as in CSV, and ``head`` is a text in JSON: the lines of the head, and the
    settings and rest of each table. Counts that pass 2^63 are decimal texts. Raises ``OSError``.
    """
    arrays: dict[str, NDArray[Any]] = {}
    told: dict[str, Any] = {"head": dict(report.head.items())}
    for table in report.tables:
        name = f"{table.kind}_{table.number}"
        axes = {"": _plain(table.counts), "_ticks": _plain(table.ticks), "_seconds": table.seconds, "_levels": table.levels}
        axes |= {f"_{what}": array for what, array in normalised(table).items()}
        arrays |= {name + end: array for end, array in axes.items() if array is not None}
        told[name] = {**table.settings, **table.rest}
    arrays["head"] = np.array(json.dumps(told))
    with written_whole(path) as file:
        np.savez_compressed(file, **arrays)


def _plain(array: NDArray[Any]) -> NDArray[Any]:
    """An array without Python's objects: whole numbers of 64 bits, or decimal texts."""
    if array.dtype != object:
        return array
    return array.astype(np.int64 if int(max(array.flat, default=0)) < 1 << 63 else str)


def write_pycorrfit(
    curve: Curve | Table, path: PathLike, *, kind: Literal["auto", "cross"] | None = None, traces: Sequence[Table] = ()
) -> None:
    """A correlation as CSV that PyCorrFit opens: delays in seconds, G - 1, and, where they are known, errors as weights.

    ``curve``: a correlation of a report that was read with its plan, or what ``correlation_by_segments`` gives; points
    that are nan, or without an error where others have one, are left out. ``kind``: as the groups say, where a plan
    told them, else a cross-correlation. ``traces``: one of an autocorrelation, one of each group of a
    cross-correlation, in kHz over seconds. Raises ``NotKnownError`` where the file didn't tell how long a tick is, or nothing
    told the photons of the groups.
    """
    seconds, values, errors = _points(curve)
    if kind is None:
        groups = curve.groups if isinstance(curve, Table) else None
        kind = "auto" if groups and len(set(groups)) == 1 else "cross"
    lines = ["# written by ptulab", f"# Type AC/CC: {'Autocorrelation' if kind == 'auto' else 'Cross-correlation'}"]
    weights = "" if errors is None else "\tFitted correlation (none)\tResiduals (none)\tWeights [standard errors]"
    lines.append(f"# Lag time [s]\tExperimental correlation{weights}")
    for at, (time, value) in enumerate(zip(seconds, values, strict=True)):
        lines.append(f"{time:.10e},{value:.10e}" + ("" if errors is None else f",nan,nan,{errors[at]:.10e}"))
    for title, trace in zip(("# BEGIN TRACE", "# BEGIN SECOND TRACE"), traces, strict=False):
        lines += ["#", title, "# Time [s]\tIntensity trace [kHz]", *_trace_lines(trace)]
    with written_whole(path) as file:
        file.write("".join(line + "\r\n" for line in lines).encode())


def _points(curve: Curve | Table) -> tuple[NDArray[np.float64], NDArray[np.float64], NDArray[np.float64] | None]:
    """Delays in seconds, values that are 0 without correlation, and errors, without the points that aren't known."""
    if curve.seconds is None:
        raise NotKnownError("the file doesn't tell how many seconds a tick has")
    values = curve.normalised() if isinstance(curve, Table) else curve.values
    errors = None if isinstance(curve, Table) or np.isnan(curve.errors).all() else curve.errors
    kept = np.isfinite(values) & (True if errors is None else np.isfinite(errors))
    return curve.seconds[kept], values[kept] - 1, None if errors is None else errors[kept]


def _trace_lines(trace: Table) -> list[str]:
    if trace.kind != "trace" or trace.seconds is None or len(trace.seconds) < 2:
        raise NotKnownError("a trace of some bins, in seconds, is needed")
    rates = trace.counts.astype(np.float64) / float(trace.seconds[1] - trace.seconds[0]) / 1000
    return [f"{time:.10e},{rate:.10e}" for time, rate in zip(trace.seconds, rates, strict=True)]


def write_ome_tiff(
    pixels: Image | Cube | Table | NDArray[Any], path: PathLike, *, pixel_micrometres: float | None = None, name: str = ""
) -> None:
    """An image as OME-TIFF: frames as the axis T, the bins of a cube as the axis H (lifetime).

    ``pixels``: an image or a cube, of a report or of ``ptulab.scans``, or an array of shape (rows, columns) or (frames,
    rows, columns), as of mean lifetimes. Whole numbers are stored with 16 bits, or 32 where one needs them, others as
    floating-point numbers of 32 bits. ``pixel_micrometres``: how long and wide a pixel is, by default what the header of
    an image's or a cube's file tells (``ImgHdr_PixResol``). Raises ``ValueError`` for other tables and shapes, no pixels,
    and counts that pass 32 bits, and ``MissingLibraryError`` without tifffile.
    """
    tifffile = want("tifffile", "OME-TIFF")
    array, axes = _with_axes(pixels)
    if array.size == 0:
        raise ValueError("an image without pixels")
    if np.issubdtype(array.dtype, np.floating):
        array = array.astype(np.float32)
    else:
        most = int(array.max())
        if most >= 1 << 32 or int(array.min()) < 0:
            raise ValueError(f"a count of {most} needs more than 32 bits")
        array = array.astype(np.uint16 if most < 1 << 16 else np.uint32)
    metadata: dict[str, Any] = {"axes": axes}
    if name:
        metadata["Name"] = name
    if pixel_micrometres is None and isinstance(pixels, Image | Cube):
        pixel_micrometres = pixels.pixel_micrometres
    if pixel_micrometres is not None:
        for side in ("X", "Y"):
            metadata |= {f"PhysicalSize{side}": pixel_micrometres, f"PhysicalSize{side}Unit": "µm"}
    with whole_path(path) as part:
        tifffile.imwrite(part, array, ome=True, photometric="minisblack", metadata=metadata)
        step = _bin_seconds(pixels)
        if step is not None:
            tifffile.tiffcomment(part, _with_lifetimes(tifffile.tiffcomment(part), array.shape[-3], step))


def _with_lifetimes(text: str, bins: int, seconds: float) -> bytes:
    """The OME-XML that tifffile wrote, whose axis of lifetimes, which it counts by bins, is in picoseconds.

    It ends with the beginning of the last bin. A step has 32 bits, so that this is a whole number of steps for each reader,
    however it counts them. Raises ``ValueError`` where there is no such axis.
    """
    for prefix, name in SPACES.items():
        ElementTree.register_namespace(prefix, name)
    root = ElementTree.fromstring(text)
    axes = [one for one in root.iter() if one.get("Type") == "lifetime"]
    if len(axes) != 1:
        raise ValueError("tifffile wrote no axis of lifetimes")
    part, power = math.frexp(seconds * 1e12)
    step = math.ldexp(round(math.ldexp(part, 32)), power - 32)
    told = {"Unit": "ps", "Start": 0.0, "Step": step, "End": step * (bins - 1)}
    axes[0].attrib.update({word: value if isinstance(value, str) else f"{value:.17g}" for word, value in told.items()})
    return bytes(ElementTree.tostring(root, encoding="utf-8", xml_declaration=True))


def _bin_seconds(pixels: Image | Cube | Table | NDArray[Any]) -> float | None:
    """How many seconds a bin of a cube has, None where it isn't known or nothing has bins."""
    if isinstance(pixels, Cube):
        return None if pixels.resolution_seconds is None else pixels.dwidth * pixels.resolution_seconds
    if not isinstance(pixels, Table) or pixels.kind != "cube" or pixels.seconds is None or len(pixels.seconds) < 2:
        return None
    return float(pixels.seconds[1])


def _with_axes(pixels: Image | Cube | Table | NDArray[Any]) -> tuple[NDArray[Any], str]:
    """The pixels, with the axes of OME: bins stand before rows and columns."""
    array = pixels if isinstance(pixels, np.ndarray) else pixels.counts
    is_cube = isinstance(pixels, Cube) or (isinstance(pixels, Table) and pixels.kind == "cube")
    if isinstance(pixels, Table) and pixels.kind not in ("image", "cube"):
        raise ValueError(f"a {pixels.kind} is no image")
    if is_cube:
        array = np.moveaxis(array, -1, -3)
    axes = {2: "YX", 3: "HYX" if is_cube else "TYX", 4: "THYX" if is_cube else ""}.get(array.ndim, "")
    if not axes:
        raise ValueError(f"no image: an array of {array.ndim} axes")
    return np.ascontiguousarray(array), axes
