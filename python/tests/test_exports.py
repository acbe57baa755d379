import importlib.util
import json
import os
import re
import sys
from collections.abc import Callable
from pathlib import Path
from typing import Any, cast

import made
import numpy as np
import pytest
from hypothesis import given, settings
from hypothesis import strategies as st
from lxml import etree

import ptulab
from ptulab import exports, picked
from ptulab.phasors import mean_delays
from ptulab.scans import Cube, Scan, cube, image
from ptulab.segments import correlation_by_segments
from ptulab._whole import whole_path, written_whole

h5py = pytest.importorskip("h5py")
tifffile = pytest.importorskip("tifffile")
READER = Path("/usr/lib/pycorrfit/pycorrfit/readfiles/read_CSV_PyCorrFit.py")


@pytest.fixture(scope="session")
def folder(tmp_path_factory: pytest.TempPathFactory) -> Any:
    return tmp_path_factory.mktemp("exports")


@pytest.fixture
def curves(program: str, tmp_path: Path, make_file: Callable[..., Path]) -> Any:
    """A report with an auto- and a cross-correlation, two traces of some bins, and its file."""
    draws = np.random.default_rng(5)
    events = sorted((int(time), int(number)) for time, number in zip(draws.integers(0, 400_000, 20_000), draws.integers(1, 3, 20_000)))
    path = make_file("HydraHarp2T2", events, tick=1e-6)
    plan = tmp_path / "plan.toml"
    plan.write_text(
        "group = [{ inputs = [1] }, { inputs = [2] }]\n"
        "trace = [{ group = 1, width = 50000, bins = 8 }, { group = 2, width = 50000, bins = 8 }]\n"
        "correlation = [{ first = 1, second = 1, lags = 8, levels = 4 }, { first = 1, second = 2, lags = 8, levels = 4 }]\n"
    )
    return ptulab.run(plan, path, program=program), path


def read_by_pycorrfit(path: Any, monkeypatch: pytest.MonkeyPatch) -> Any:
    """What PyCorrFit's own reader makes of a file. It names a type that NumPy has no longer."""
    if not READER.is_file():
        pytest.skip("there is no PyCorrFit: install Debian's pycorrfit")
    monkeypatch.setattr(np, "float", float, raising=False)
    spec: Any = importlib.util.spec_from_file_location("pycorrfit_csv", READER)
    reader = importlib.util.module_from_spec(spec)
    spec.loader.exec_module(reader)
    return reader.openCSV(path)


def test_pycorrfit_opens_a_correlation_with_its_errors_and_traces(curves: Any, tmp_path: Path, monkeypatch: pytest.MonkeyPatch) -> None:
    report, path = curves
    curve = correlation_by_segments(ptulab.read_events(path), 1, 2, segments=5, lags=8, levels=4)
    out = tmp_path / "cross.csv"
    exports.write_pycorrfit(curve, out, traces=[report.table("trace", 1), report.table("trace", 2)])
    found = read_by_pycorrfit(out, monkeypatch)
    assert found["Type"] == ["CC"] and found["Filename"] == ["cross.csv"]
    assert np.allclose(found["Correlation"][0], np.stack([np.asarray(curve.seconds) * 1000, curve.values - 1], axis=1), rtol=1e-9)
    assert np.allclose(found["Weight"][0], curve.errors, rtol=1e-9) and "standard errors" in found["Weight Name"][0]
    for number, trace in enumerate(found["Trace"][0], 1):
        table = report.table("trace", number)
        assert np.allclose(trace[:, 0], table.seconds * 1000) and np.allclose(trace[:, 1], table.counts / 0.05 / 1000)


def test_pycorrfit_opens_a_correlation_of_a_report(curves: Any, tmp_path: Path, monkeypatch: pytest.MonkeyPatch) -> None:
    report, _ = curves
    for number, kind in ((1, "AC"), (2, "CC")):
        table = report.table("correlation", number)
        out = tmp_path / f"{number}.csv"
        exports.write_pycorrfit(table, out, traces=[report.table("trace")] * number)
        found = read_by_pycorrfit(out, monkeypatch)
        assert found["Type"] == [kind] and "Weight" not in found
        assert np.allclose(found["Correlation"][0][:, 1], table.normalised() - 1, rtol=1e-9)
        assert len(found["Trace"][0][0]) == (8 if kind == "CC" else 2)
    exports.write_pycorrfit(report.table("correlation", 2), out, kind="auto")
    assert read_by_pycorrfit(out, monkeypatch)["Trace"] == [None]


def test_points_that_are_not_known_are_left_out(tmp_path: Path, make_file: Callable[..., Path], monkeypatch: pytest.MonkeyPatch) -> None:
    path = make_file("HydraHarp2T2", [(time, 1 + time % 2) for time in range(0, 60, 3)], tick=1e-6)
    curve = correlation_by_segments(ptulab.read_events(path), 1, 2, segments=2, lags=8, levels=4)
    exports.write_pycorrfit(curve, tmp_path / "short.csv")
    found = read_by_pycorrfit(tmp_path / "short.csv", monkeypatch)
    assert np.isnan(curve.values).any() and len(found["Correlation"][0]) == len(found["Weight"][0]) == np.isfinite(curve.errors).sum()


def test_curves_that_cannot_be_exported(curves: Any, tmp_path: Path) -> None:
    report, path = curves
    unknown = correlation_by_segments(ptulab.read_events(path).array, 1, 2, segments=5, lags=8, levels=4)
    calls: tuple[Callable[[], None], ...] = (
        lambda: exports.write_pycorrfit(unknown, tmp_path / "no.csv"),
        lambda: exports.write_pycorrfit(report.table("correlation"), tmp_path / "no.csv", traces=[report.table("correlation")]),
    )
    for call in calls:
        with pytest.raises(ptulab.NotKnownError):
            call()
    assert not (tmp_path / "no.csv").exists()


def test_npz_has_every_array_of_a_report(program: str, curves: Any, tmp_path: Path) -> None:
    report, _ = curves
    exports.write_npz(report, tmp_path / "report.npz")
    with np.load(tmp_path / "report.npz", allow_pickle=False) as arrays:
        for table in report.tables:
            name = f"{table.kind}_{table.number}"
            assert (arrays[name] == table.counts).all() and (arrays[f"{name}_ticks"] == table.ticks).all()
            assert (arrays[f"{name}_seconds"] == table.seconds).all()
        told = json.loads(str(arrays["head"]))
    assert told["head"]["photons"] == 20_000 and told["correlation_2"] == {"lags": 8, "levels": 4}
    assert told["trace_1"]["beyond"] == 0 and "correlation_1_levels" in np.load(tmp_path / "report.npz").files


def test_counts_beyond_64_bits_are_texts_in_npz(curves: Any, tmp_path: Path) -> None:
    report, _ = curves
    for most, kind in ((2**63 - 1, "i"), (2**63, "U")):
        counts = np.array(report.tables[2].counts, dtype=object)
        counts[0] = most
        report.tables[2].counts = counts
        exports.write_npz(report, tmp_path / "large.npz")
        with np.load(tmp_path / "large.npz", allow_pickle=False) as arrays:
            assert arrays["correlation_1"].dtype.kind == kind and int(arrays["correlation_1"][0]) == most


SCAN = Scan(4, 3, 1, stop=2, frames=True)
SCHEMA = etree.XMLSchema(file=str(Path(__file__).with_name("ome_excerpt.xsd")))


def scanned(make_file: Callable[..., Path], frames: int = 2, **tags: Any) -> Any:
    draws = np.random.default_rng(6)
    events = []
    for line in range(3 * frames):
        times = sorted(draws.integers(0, 40, 30))
        events += [(line * 60, made.Bits(1)), *((line * 60 + int(t), 0, int(d)) for t, d in zip(times, draws.integers(0, 64, 30)))]
        events.append((line * 60 + 41, made.Bits(2)))
    return make_file("HydraHarp2T3", events, tick=5e-8, resolution=1e-9, **tags)


def test_ome_tiff_of_images_cubes_and_lifetimes(program: str, make_file: Callable[..., Path], tmp_path: Path) -> None:
    events = ptulab.read_events(scanned(make_file))
    one, whole = image(events, SCAN), cube(events, SCAN, 8, 8)
    means = mean_delays(whole.counts, whole.ticks, threshold=2).astype(np.float32)
    plan = tmp_path / "plan.toml"
    plan.write_text("version = 2\ngroup = [{ inputs = [0] }]\ncube = [{ group = 1, width = 4, height = 3, dwell = 10, line = 1, dwidth = 8, dbins = 8 }]\n")
    table = ptulab.run(plan, scanned(make_file), program=program).table("cube")
    for pixels, expected, axes, dtype in (
        (one, one.counts, "TYX", np.uint16),
        (whole, np.moveaxis(whole.counts, -1, 1), "THYX", np.uint16),
        (table, np.moveaxis(table.counts, -1, 0), "HYX", np.uint16),
        (means, means, "TYX", np.float32),
        (one.counts[0] * 70_000, one.counts[0] * 70_000, "YX", np.uint32),
    ):
        exports.write_ome_tiff(pixels, tmp_path / "data.ome.tif", pixel_micrometres=0.2, name="a <scan> & more")
        with tifffile.TiffFile(tmp_path / "data.ome.tif") as file:
            assert file.is_ome and "a &lt;scan&gt; &amp; more" in file.ome_metadata
            assert 'PhysicalSizeX="0.2"' in file.ome_metadata and 'PhysicalSizeYUnit="µm"' in file.ome_metadata
            found = file.series[0]
            assert found.dtype == dtype and np.array_equal(found.asarray().reshape(expected.shape), expected, equal_nan=dtype == np.float32)
            assert found.axes == axes
            assert SCHEMA.validate(etree.fromstring(file.ome_metadata.encode())), SCHEMA.error_log
            lifetimes = [one.attrib for one in etree.fromstring(file.ome_metadata.encode()).iter("{*}ModuloAlongT")]
            assert lifetimes == ([{"Type": "lifetime", "Unit": "ps", "Start": "0", "Step": "8000", "End": "56000"}] if "H" in axes else [])


def test_the_schema_refuses_what_is_none(make_file: Callable[..., Path], tmp_path: Path) -> None:
    exports.write_ome_tiff(image(scanned(make_file), SCAN), tmp_path / "data.tif", pixel_micrometres=0.2)
    good = tifffile.tiffcomment(tmp_path / "data.tif")
    assert SCHEMA.validate(etree.fromstring(good.encode()))
    for was, now in (('SizeX="4"', ""), ('Type="uint16"', 'Type="int64"'), ('XUnit="µm"', 'XUnit="micrometre"'), ("<TiffData", "<Tiff"), ('SizeT="2"', 'SizeT="0"')):
        assert was in good and not SCHEMA.validate(etree.fromstring(good.replace(was, now).encode())), was


def test_the_axis_of_lifetimes_in_other_words_of_the_library(tmp_path: Path, monkeypatch: pytest.MonkeyPatch) -> None:
    """Attributes in another order, and other quotes, lose it as little as one that isn't there: that is an error."""
    pixels, write = Cube(SCAN, np.ones((3, 4, 5), np.int64), 1, 0, 0, 1e-9), tifffile.imwrite
    for wording in ("<ModuloAlong{axis} End='4' Start='0' Type='lifetime'/>", '<ModuloAlong{axis} Type="lifetime" Start="0" End="4"></ModuloAlong{axis}>'):

        def other(path: Any, *words: Any, wording: Any = wording, **more: Any) -> None:
            write(path, *words, **more)
            said, many = re.subn(r'<ModuloAlong(.) Type="lifetime" Start="0" End="4"/>', lambda found: str(wording.format(axis=found[1])), tifffile.tiffcomment(path))
            assert many == 1
            tifffile.tiffcomment(path, said.encode())

        monkeypatch.setattr(tifffile, "imwrite", other)
        exports.write_ome_tiff(pixels, tmp_path / "data.tif")
        (axis,) = (one.attrib for one in etree.fromstring(tifffile.tiffcomment(tmp_path / "data.tif").encode()).iter("{*}ModuloAlongT", "{*}ModuloAlongZ", "{*}ModuloAlongC"))
        assert axis == {"Type": "lifetime", "Unit": "ps", "Start": "0", "Step": "1000", "End": "4000"}

    def without(path: Any, *words: Any, **more: Any) -> None:
        write(path, *words, **more)
        tifffile.tiffcomment(path, tifffile.tiffcomment(path).replace("lifetime", "other").encode())

    monkeypatch.setattr(tifffile, "imwrite", without)
    with pytest.raises(ValueError, match="lifetime"):
        exports.write_ome_tiff(pixels, tmp_path / "none.tif")
    assert not (tmp_path / "none.tif").exists()


def test_the_size_of_a_pixel_is_that_of_the_header(make_file: Callable[..., Path], tmp_path: Path) -> None:
    path = scanned(make_file, ImgHdr_PixX=4, ImgHdr_PixY=3, ImgHdr_PixResol=0.125)
    wide = Scan(8, 3, 1, stop=2, frames=True)
    cases: tuple[tuple[Any, dict[str, Any], str | None], ...] = (
        (image(path, SCAN), {}, "0.125"),
        (cube(ptulab.read_events(path), SCAN, 8, 8), {}, "0.125"),
        (image(path, SCAN), {"pixel_micrometres": 0.5}, "0.5"),
        (image(path, wide), {}, None),
        (image(scanned(make_file), SCAN), {}, None),
    )
    for pixels, size, told in cases:
        exports.write_ome_tiff(pixels, tmp_path / "data.tif", **size)
        (found,) = etree.fromstring(tifffile.tiffcomment(tmp_path / "data.tif").encode()).iter("{*}Pixels")
        assert (found.get("PhysicalSizeX"), found.get("PhysicalSizeY")) == (told, told)
        assert found.get("PhysicalSizeXUnit") == (None if told is None else "µm")


@settings(max_examples=25, deadline=None)
@given(st.integers(1, 300), st.floats(1e-12, 1e-9), st.integers(1, 500))
def test_bins_of_any_time_are_axes_that_are_read_back(folder: Path, bins: Any, resolution: Any, dwidth: Any) -> None:
    counts = np.arange(6 * bins, dtype=np.int64).reshape(2, 3, bins)
    exports.write_ome_tiff(Cube(SCAN, counts, dwidth, 0, 0, resolution), folder / "bins.tif")
    found = tifffile.imread(folder / "bins.tif")
    assert (found.reshape(bins, 2, 3) == np.moveaxis(counts, -1, 0)).all()
    (axis,) = etree.fromstring(tifffile.tiffcomment(folder / "bins.tif").encode()).iter("{*}ModuloAlongT")
    step, end = float(axis.get("Step")), float(axis.get("End"))
    assert step == pytest.approx(dwidth * resolution * 1e12, rel=1e-9)
    assert end / step == bins - 1 == int(end / step)  # the last bin, for readers that round and for those that cut


def test_what_is_no_image(curves: Any, tmp_path: Path) -> None:
    report, _ = curves
    for pixels in (report.table("trace"), np.zeros((2, 2, 2, 2)), np.zeros((0, 4)), np.array([[2**32]], np.int64)):
        with pytest.raises(ValueError):
            exports.write_ome_tiff(pixels, tmp_path / "no.tif")
    assert not (tmp_path / "no.tif").exists()


# The fields of the public specification of Photon-HDF5, version 0.5, that a file of one spot and a "generic" measurement
# has, with the kind of number and the unit of each: https://photon-hdf5.readthedocs.io, "Photon-HDF5 format definition".
FIELDS = {
    "acquisition_duration": ("f", "seconds"),
    "description": ("S", "text"),
    "photon_data/timestamps": ("i", "timestamps_unit"),
    "photon_data/timestamps_specs/timestamps_unit": ("f", "seconds"),
    "photon_data/detectors": ("u", "number of the detector"),
    "photon_data/nanotimes": ("u", "tcspc_unit"),
    "photon_data/nanotimes_specs/tcspc_unit": ("f", "seconds"),
    "photon_data/nanotimes_specs/tcspc_num_bins": ("i", "bins"),
    "photon_data/nanotimes_specs/tcspc_range": ("f", "seconds"),
    "photon_data/measurement_specs/measurement_type": ("S", "text"),
    "photon_data/measurement_specs/laser_repetition_rate": ("f", "hertz"),
    "photon_data/measurement_specs/detectors_specs/spectral_ch1": ("u", "number of the detector"),
    "setup/num_pixels": ("i", "count"),
    "setup/num_spots": ("i", "count"),
    "setup/num_spectral_ch": ("i", "count"),
    "setup/num_polarization_ch": ("i", "count"),
    "setup/num_split_ch": ("i", "count"),
    "setup/modulated_excitation": ("i", "0 or 1"),
    "setup/excitation_alternated": ("i", "0 or 1"),
    "setup/excitation_cw": ("i", "0 or 1"),
    "setup/laser_repetition_rates": ("f", "hertz"),
    "setup/lifetime": ("i", "0 or 1"),
    "setup/detectors/id": ("u", "number of the detector"),
    "setup/detectors/counts": ("i", "photons"),
    "identity/author": ("S", "text"),
    "identity/author_affiliation": ("S", "text"),
    "identity/creation_time": ("S", "YYYY-MM-DD HH:MM:SS"),
    "identity/software": ("S", "text"),
    "identity/software_version": ("S", "text"),
    "identity/format_name": ("S", "text"),
    "identity/format_version": ("S", "text"),
    "identity/format_url": ("S", "text"),
    "identity/filename": ("S", "text"),
    "provenance/filename": ("S", "text"),
    "provenance/creation_time": ("S", "YYYY-MM-DD HH:MM:SS"),
    "provenance/software": ("S", "text"),
    "provenance/software_version": ("S", "text"),
}
OF_T3 = ("nanotimes", "laser_repetition_rate")


def fields_of(file: Any) -> Any:
    """The data sets of a file by their paths."""
    found = {}
    file.visititems(lambda name, node: found.update({name: node}) if isinstance(node, h5py.Dataset) else None)
    return found


def test_photon_hdf5_has_the_fields_of_its_specification(make_file: Callable[..., Path], tmp_path: Path) -> None:
    events = [(2, 0, 5), (2, 1, 100), (3, made.Bits(1)), (9, 1, 4999), (8, 0, 7), (2000, 0, 0)]
    tags = {"CreatorSW_Name": "Maker", "CreatorSW_Version": "1.2", "File_CreatingTime": 45000.5}
    path = make_file("HydraHarp2T3", events, tick=5e-8, resolution=1e-11, **tags)
    out = tmp_path / "photons.h5"
    exports.write_photon_hdf5(ptulab.read_events(path), out, description="two inputs", author="Nobody", affiliation="Nowhere", filename="/here/data.ptu")
    with h5py.File(out) as file:
        found = fields_of(file)
        assert set(found) == set(FIELDS)
        assert {name: node.dtype.kind for name, node in found.items()} == {name: kind for name, (kind, _) in FIELDS.items()}
        value: Callable[[str], Any] = lambda name: found[name][()]
        assert value("photon_data/timestamps").tolist() == [2, 2, 9, 2000] and found["photon_data/timestamps"].dtype == np.int64
        assert value("photon_data/nanotimes").tolist() == [5, 100, 4999, 0]
        assert value("photon_data/detectors").tolist() == [0, 1, 1, 0]
        assert value("photon_data/timestamps_specs/timestamps_unit") == 5e-8 and value("acquisition_duration") == pytest.approx(2001 * 5e-8)
        assert value("photon_data/nanotimes_specs/tcspc_num_bins") == 5000
        assert value("photon_data/nanotimes_specs/tcspc_range") == pytest.approx(5e-8)
        assert value("setup/laser_repetition_rates").tolist() == [pytest.approx(2e7)]
        assert value("setup/detectors/counts").tolist() == [2, 2] and value("setup/num_pixels") == 2
        assert value("photon_data/measurement_specs/measurement_type") == b"generic" and value("provenance/filename") == b"data.ptu"
        assert value("provenance/creation_time") == b"2023-03-15 12:00:00" and value("identity/filename") == b"photons.h5"
        assert value("setup/lifetime") == 1 and value("setup/modulated_excitation") == 0
        assert file.attrs["format_name"] == b"Photon-HDF5" and file.attrs["format_version"] == b"0.5"
        nodes = [file, *found.values()]
        file.visititems(lambda name, node: nodes.append(node))
        assert all(node.attrs["TITLE"].decode().endswith(".") for node in nodes)


def test_photon_hdf5_of_t2_and_of_many_photons(make_file: Callable[..., Path], tmp_path: Path) -> None:
    times = np.sort(np.random.default_rng(1).integers(0, 10**6, 3000))
    path = make_file("HydraHarp2T2", [(int(time), 1) for time in times], tick=1e-12)
    exports.write_photon_hdf5(ptulab.read_events(path), tmp_path / "t2.h5", description="d", group=1)
    with h5py.File(tmp_path / "t2.h5") as file:
        found = fields_of(file)
        assert not any(word in name for name in found for word in OF_T3) and found["setup/lifetime"][()] == 0
        assert (found["photon_data/timestamps"][:] == times).all() and found["photon_data/timestamps"].compression == "gzip"


def test_a_file_without_photons_is_a_photon_hdf5_file_too(make_file: Callable[..., Path], tmp_path: Path) -> None:
    events = ptulab.read_events(make_file("HydraHarp2T3", [(7, made.Bits(1))], tick=1e-8, resolution=1e-11))
    exports.write_photon_hdf5(events, tmp_path / "none.h5", description="")
    with h5py.File(tmp_path / "none.h5") as file:
        found = fields_of(file)
        assert found["description"][()] == b" " and "provenance" not in file
        assert len(found["photon_data/timestamps"]) == 0 and found["acquisition_duration"][()] == pytest.approx(8e-8)
        assert found["photon_data/nanotimes_specs/tcspc_num_bins"][()] == 1000


@pytest.mark.parametrize("library", ["h5py", "tifffile"])
def test_a_library_that_is_missing_is_named(monkeypatch: pytest.MonkeyPatch, make_file: Callable[..., Path], tmp_path: Path, library: Any) -> None:
    monkeypatch.setitem(cast(dict[str, Any], sys.modules), library, None)
    events = ptulab.read_events(make_file("HydraHarp2T3", [(1, 0, 1)], tick=1e-8, resolution=1e-11))
    with pytest.raises(ptulab.MissingLibraryError, match=f"python3-{library}"):
        if library == "h5py":
            exports.write_photon_hdf5(events, tmp_path / "no.h5", description="d")
        exports.write_ome_tiff(np.ones((2, 2)), tmp_path / "no.tif")
    assert os.listdir(tmp_path) == ["data.ptu"]


def test_photons_without_seconds_are_not_exported(make_file: Callable[..., Path], tmp_path: Path) -> None:
    some: tuple[dict[str, float], ...] = ({}, {"tick": 1e-8}, {"tick": 0.0, "resolution": 1e-11}, {"tick": 1e-8, "resolution": -1.0})
    for tags in some:
        events = ptulab.read_events(make_file("HydraHarp2T3", [(1, 0, 1)], **tags))
        with pytest.raises(ptulab.NotKnownError):
            exports.write_photon_hdf5(events, tmp_path / "no.h5", description="")
    assert not (tmp_path / "no.h5").exists()


@pytest.mark.parametrize("kind", ["PicoHarpT3", "MultiHarpT2"])
def test_picked_files_get_their_resolutions_back(program: str, ptu: Callable[..., Any], make_file: Callable[..., Path], make_plan: Callable[..., Path], tmp_path: Path, kind: str) -> None:
    d = (3,) if kind.endswith("T3") else ()
    resolutions = {"tick": 1 / 3e7, "resolution": 4e-12} if d else {"tick": 0.1e-11}
    path = make_file(kind, [(5, 1, *d), (6, made.Bits(1)) if d else (6, 2), (90_000_000, 1, *d)], **resolutions)
    out = tmp_path / "picked.ptu"
    sidecar = picked.pick(make_plan("group = [{ inputs = [1] }]\n"), 1, path, out, program=program)
    assert sidecar.name == "picked.ptu.json" and json.loads(sidecar.read_text(encoding="utf-8"))["picked_from"] == "data.ptu"
    assert ptulab.read_events(out).header.global_seconds is None
    events, before = picked.read_picked(out), ptulab.read_events(path)
    assert events.photons["time"].tolist() == [5, 90_000_000]
    for one in ("global_seconds", "resolution_seconds"):
        assert getattr(events.header, one) == getattr(before.header, one)
    whole = tmp_path / "whole.ptu"
    picked.write_with_resolutions(out, whole)
    assert ptu("events", whole).stdout == ptu("events", out).stdout
    after = ptulab.read_events(whole).header
    assert (after.global_seconds, after.resolution_seconds) == (before.header.global_seconds, before.header.resolution_seconds)
    assert after.announced == after.records and ptu("count", whole).returncode == 0


def test_what_cannot_be_picked(program: str, make_file: Callable[..., Path], make_plan: Callable[..., Path], tmp_path: Path) -> None:
    path = make_file("HydraHarp2T3", [(5, 1, 3)])
    plan = make_plan("group = [{ inputs = [1] }]\n")
    with pytest.raises(ptulab.RefusalError) as refused:
        picked.pick(plan, 2, path, tmp_path / "no.ptu", program=program)
    assert refused.value.status == 23 and sorted(os.listdir(tmp_path)) == ["data.ptu", "plan.toml"]
    with pytest.raises(FileNotFoundError):
        picked.read_picked(path)
    for text in ("{", "[]", '{"global_seconds": "1"}', '{"global_seconds": 1}'):
        picked.sidecar_of(path).write_text(text, encoding="utf-8")
        with pytest.raises(ptulab.NotKnownError, match="no sidecar"):
            picked.read_picked(path)
    odd = tmp_path / "odd.ptu"
    end = made.tag("Header_End", "a text")
    odd.write_bytes(path.read_bytes()[:64] + end)
    picked.write_sidecar(path, odd)
    with pytest.raises(ptulab.NotKnownError, match="no header of ptu pick"):
        picked.write_with_resolutions(odd, tmp_path / "no.ptu")


def test_files_appear_when_they_are_whole(tmp_path: Path) -> None:
    target = tmp_path / "data.txt"
    target.write_text("before")
    with pytest.raises(RuntimeError), written_whole(target) as out:
        out.write(b"half")
        raise RuntimeError
    assert target.read_text() == "before" and os.listdir(tmp_path) == ["data.txt"]
    with whole_path(target) as part:
        Path(part).write_text("whole", encoding="utf-8")
        assert target.read_text() == "before"
    assert target.read_text() == "whole" and os.listdir(tmp_path) == ["data.txt"]
    with pytest.raises(FileNotFoundError), whole_path(tmp_path / "none" / "data.txt"):
        pass
