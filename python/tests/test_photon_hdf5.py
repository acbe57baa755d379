"""Photon-HDF5 of each type of measurement: what a reader that knows the specification alone makes of it."""

import re
from collections.abc import Callable
from dataclasses import replace
from pathlib import Path
from typing import Any

import h5py
import made
import numpy as np
import pytest
from conftest import ROOT

import ptulab
from ptulab import photon_hdf5
from ptulab.groups import Alternated, EventsLike, Group
from ptulab.photon_hdf5 import Setup, read_photon_hdf5, write_photon_hdf5

ALWAYS = {
    "acquisition_duration",
    "description",
    "photon_data/timestamps",
    "photon_data/timestamps_specs/timestamps_unit",
    "photon_data/detectors",
    "photon_data/measurement_specs/measurement_type",
    "photon_data/measurement_specs/detectors_specs/spectral_ch1",
    "setup/num_pixels",
    "setup/num_spots",
    "setup/num_spectral_ch",
    "setup/num_polarization_ch",
    "setup/num_split_ch",
    "setup/modulated_excitation",
    "setup/lifetime",
    "setup/excitation_alternated",
    "setup/excitation_cw",
    "identity/format_name",
    "identity/format_version",
    "identity/format_url",
    "identity/software",
    "identity/software_version",
}
OF_T3 = {"photon_data/nanotimes", "photon_data/nanotimes_specs/tcspc_unit", "photon_data/nanotimes_specs/tcspc_num_bins"}
TWO = "photon_data/measurement_specs/detectors_specs/spectral_ch2"
MANDATORY: dict[str, set[str]] = {
    "generic": set(),
    "smFRET": {TWO},
    "smFRET-usALEX": {TWO, "photon_data/measurement_specs/alex_period"},
    "smFRET-nsALEX": {TWO, *OF_T3, "photon_data/measurement_specs/laser_repetition_rate", "setup/laser_repetition_rates"},
}
NS = Setup("smFRET-nsALEX", spectral=[[0, 2], [1, 3]], excitation=[[(0, 1000)], [(1000, 2000)]])
US = Setup("smFRET-usALEX", spectral=[[0], [1]], excitation=[[(0, 900)], [(1100, 2000)]], alternation_period=2000, alternation_offset=50)


@pytest.fixture
def molecules(make_file: Callable[..., Path]) -> ptulab.Events:
    """Photons of four detectors at any delay of 100 ns, some of them late, and some markers."""
    draws = np.random.default_rng(9)
    photons = [(int(t), int(n), int(d)) for t, n, d in zip(np.sort(draws.integers(0, 10**5, 3000)), draws.integers(0, 4, 3000), draws.integers(0, 2000, 3000))]
    some: list[tuple[int, ...]] = [*photons[:2000], (photons[1999][0] // 1024 * 1024, 1, 5), (photons[2000][0], made.Bits(1)), *photons[2000:]]
    return ptulab.read_events(make_file("MultiHarpT3", some, tick=100e-9, resolution=50e-12))


@pytest.fixture
def stream(make_file: Callable[..., Path]) -> ptulab.Events:
    """A T2 file of two detectors."""
    draws = np.random.default_rng(10)
    some = [(int(t), int(n)) for t, n in zip(np.sort(draws.integers(0, 10**6, 3000)), draws.integers(0, 2, 3000))]
    return ptulab.read_events(make_file("HydraHarpT2", some, tick=1e-8))


def written(events: EventsLike, path: Path, **more: Any) -> dict[str, Any]:
    """The fields of the file that is written, by their places."""
    write_photon_hdf5(events, path, description="some molecules", **more)
    found: dict[str, Any] = {}
    with h5py.File(path) as file:
        file.visititems(lambda name, node: found.update({name: node[()]}) if isinstance(node, h5py.Dataset) else None)
    return found


def classes(found: dict[str, Any]) -> dict[tuple[int, int], np.ndarray[Any, Any]]:
    """By the specification alone: the photons of each laser (1, 2) and spectral channel (1, 2)."""
    specs = "photon_data/measurement_specs/"
    detectors = found["photon_data/detectors"]
    if found[specs + "measurement_type"] == b"smFRET-nsALEX":
        at = found["photon_data/nanotimes"]
    else:
        at = (found["photon_data/timestamps"] - found[specs + "alex_offset"]) % found[specs + "alex_period"]
    result = {}
    for laser in (1, 2):
        periods = found[f"{specs}alex_excitation_period{laser}"].reshape(-1, 2)
        inside = np.logical_or.reduce([(at >= start) & (at < stop) for start, stop in periods])
        for channel in (1, 2):
            result[laser, channel] = inside & np.isin(detectors, found[f"{specs}detectors_specs/spectral_ch{channel}"])
    return result


def test_donor_acceptor_and_laser_of_pulses_are_told(molecules: ptulab.Events, tmp_path: Path) -> None:
    found = written(molecules, tmp_path / "ns.h5", setup=NS)
    photons = molecules.photons
    assert found["photon_data/timestamps"].tolist() == photons.times.tolist() and found["photon_data/nanotimes"].tolist() == photons.dtimes.tolist()
    for (laser, channel), mask in classes(found).items():
        inputs, gates = NS.spectral[channel - 1], NS.excitation[laser - 1]
        assert mask.sum() > 500 and np.array_equal(mask, Group(inputs, gates).mask(photons))
    specs = "photon_data/measurement_specs/"
    assert found[specs + "laser_repetition_rate"] == pytest.approx(1e7) and found["setup/laser_repetition_rates"] == pytest.approx([1e7, 1e7])
    assert found["setup/excitation_cw"].tolist() == [0, 0] and found["setup/excitation_alternated"].tolist() == [1, 1]
    assert (found["setup/modulated_excitation"], found["setup/lifetime"], found["setup/num_spectral_ch"]) == (1, 1, 2)


def test_a_path_is_read_in_pieces_to_the_same_file(make_file: Callable[..., Path], tmp_path: Path, monkeypatch: pytest.MonkeyPatch) -> None:
    """As its events are; with the part that is done."""
    monkeypatch.setattr("ptulab.groups.PIECE", 700)
    monkeypatch.setattr("ptulab.photon_hdf5.PIECE", 700)
    monkeypatch.setattr("ptulab.photon_hdf5.CHUNK", 300)
    draws = np.random.default_rng(11)
    photons = [(int(t), int(n), int(d)) for t, n, d in zip(np.sort(draws.integers(0, 10**6, 5000)), draws.integers(0, 4, 5000), draws.integers(0, 2000, 5000))]
    for kind, resolution in (("MultiHarpT3", 50e-12), ("HydraHarp2T2", None)):
        path = make_file(kind, photons[:4000] + [(photons[3999][0], made.Bits(1)), (max(0, photons[3999][0] // 1024 * 1024), 1, 7)] + photons[4000:], tick=100e-9, resolution=resolution)
        parts: list[float] = []
        whole = written(ptulab.read_events(path), tmp_path / "one.h5", filename="data.ptu", group=[1, 2])
        pieces = written(path, tmp_path / "two.h5", filename="data.ptu", group=[1, 2], progress=parts.append)
        assert whole.keys() == pieces.keys() and len(whole["photon_data/timestamps"]) > 2000
        assert all(np.array_equal(whole[name], pieces[name]) and whole[name].dtype == pieces[name].dtype for name in whole if name not in ("identity/filename", "identity/creation_time"))
        assert parts == sorted(parts) and len(parts) > 14 and parts[-1] == 1.0


def test_lasers_that_are_switched_are_told(stream: ptulab.Events, tmp_path: Path) -> None:
    found = written(stream, tmp_path / "us.h5", setup=US)
    photons = stream.photons
    at = (photons.times - 50) % 2000
    for (laser, channel), mask in classes(found).items():
        ((start, stop),) = US.excitation[laser - 1]
        assert np.array_equal(mask, (at >= start) & (at < stop) & (photons.numbers == channel - 1)) and mask.sum() > 300
    assert found["setup/excitation_cw"].tolist() == [1, 1] and found["setup/lifetime"] == 0 and found["setup/modulated_excitation"] == 1
    pulsed = Setup("smFRET", spectral=[[0], [1]], repetition_rates=[4e7])
    found = written(stream, tmp_path / "pulsed.h5", setup=pulsed)
    assert found["setup/excitation_cw"].tolist() == [0] and found["setup/laser_repetition_rates"].tolist() == [4e7]


def test_polarisations_and_wavelengths_are_told(molecules: ptulab.Events, tmp_path: Path) -> None:
    setup = Setup("generic", spectral=[[0, 1], [2, 3]], polarization=[[0, 2], [1, 3]], excitation_wavelengths=[532e-9], detection_wavelengths=[580e-9, 680e-9])
    found = written(molecules, tmp_path / "all.h5", setup=setup)
    specs = "photon_data/measurement_specs/detectors_specs/"
    assert {name.removeprefix(specs): found[name].tolist() for name in found if name.startswith(specs)} == {
        "spectral_ch1": [0, 1], "spectral_ch2": [2, 3], "polarization_ch1": [0, 2], "polarization_ch2": [1, 3]
    }
    many = [found[f"setup/num_{what}"] for what in ("spectral_ch", "polarization_ch", "pixels", "spots", "split_ch")]
    assert many == [2, 2, 4, 1, 1] and written(molecules[:0], tmp_path / "none.h5")["acquisition_duration"] == 0
    assert found["setup/excitation_wavelengths"].tolist() == [532e-9] and found["setup/detection_wavelengths"].tolist() == [580e-9, 680e-9]


@pytest.mark.parametrize("kind", MANDATORY)
def test_each_type_has_the_fields_that_it_must_have(molecules: ptulab.Events, stream: ptulab.Events, tmp_path: Path, kind: str) -> None:
    one, two = Setup("smFRET", spectral=[[0, 2], [1, 3]]), Setup(spectral=[[0, 1, 2, 3]])
    setup = {"smFRET-nsALEX": NS, "smFRET-usALEX": US, "smFRET": one, "generic": two}[kind]
    found = written(stream if kind == "smFRET-usALEX" else molecules, tmp_path / "some.h5", setup=setup)
    assert not (ALWAYS | MANDATORY[kind]) - found.keys()
    assert found["photon_data/measurement_specs/measurement_type"] == kind.encode()


def test_the_page_has_the_same_table() -> None:
    """docs/python.md lists the fields that each type must have."""
    text = (ROOT / "docs" / "python.md").read_text("utf-8")
    told = {row[0]: set(re.findall(r"`([a-z0-9_/]+)`", row[1])) for row in re.findall(r"^\| `?([\w-]+)`? \| (.*photon_data/.*) \|$", text, flags=re.M)}
    assert told == {"each": ALWAYS, "T3": OF_T3, **{kind: fields - OF_T3 for kind, fields in MANDATORY.items() if fields}}


SM: dict[str, Any] = {"spectral": [[0, 2], [1, 3]]}


@pytest.mark.parametrize(
    ("more", "why"),
    [
        ({"kind": "smFRET", "spectral": [[0, 1, 2, 3]]}, "two spectral channels"),
        ({"kind": "smFRET-nsALEX", **SM}, "two lasers"),
        ({"kind": "smFRET-nsALEX", **SM, "excitation": [[(0, 900)], [(800, 2000)]]}, "overlap"),
        ({"kind": "smFRET-nsALEX", **SM, "excitation": [[(0, 900)], [(900, 2001)]]}, "2001"),
        ({"kind": "smFRET-nsALEX", **SM, "excitation": [[(0, 900)], [(900, 900)]]}, "900"),
        ({"kind": "smFRET-usALEX", **SM, "excitation": [[(0, 900)], [(900, 2000)]]}, "alternation_period"),
        ({"kind": "smFRET-usALEX", **SM, "excitation": [[(0, 900)], [(900, 2000)]], "alternation_period": 1999}, "2000"),
        ({"kind": "smFRET", **SM, "excitation": [[(0, 900)], [(900, 2000)]]}, "smFRET"),
        ({"kind": "smFRET-PAX", **SM}, "smFRET-PAX"),
        ({"kind": "generic", "spectral": [[0, 1, 2]]}, "input 3"),
        ({"kind": "generic", "spectral": [[0, 1, 2], [2, 3]]}, "input 2"),
        ({"kind": "generic", "spectral": [[0, 1, 2, 3]], "polarization": [[0, 1], [2]]}, "input 3"),
        ({"kind": "generic", "spectral": [[0, 1, 2, 3], []]}, "no input"),
        ({"kind": "smFRET", **SM, "excitation_wavelengths": [532]}, "metres"),
        ({"kind": "smFRET", **SM, "detection_wavelengths": [580e-9]}, "5.8e-07"),
        ({"kind": "smFRET-nsALEX", **SM, "excitation": [[(0, 900)], [(900, 2000)]], "excitation_wavelengths": [532e-9]}, "5.32e-07"),
        ({"kind": "smFRET", **SM, "repetition_rates": [0.0]}, "rate"),
    ],
)
def test_what_the_format_cannot_say_is_refused(molecules: ptulab.Events, tmp_path: Path, more: dict[str, Any], why: str) -> None:
    with pytest.raises(ValueError, match=re.escape(why)):
        write_photon_hdf5(molecules, tmp_path / "no.h5", description="d", setup=Setup(**more))
    assert not (tmp_path / "no.h5").exists()


def test_pulses_in_turn_need_delays(stream: ptulab.Events, tmp_path: Path) -> None:
    setup = Setup("smFRET-nsALEX", spectral=[[0], [1]], excitation=[[(0, 1000)], [(1000, 2000)]])
    with pytest.raises(ValueError, match="T3"):
        write_photon_hdf5(stream, tmp_path / "no.h5", description="d", setup=setup)


def test_inputs_that_are_left_out_need_no_channel(molecules: ptulab.Events, tmp_path: Path) -> None:
    found = written(molecules, tmp_path / "two.h5", setup=Setup("smFRET", spectral=[[0], [1]]), group=[0, 1])
    assert set(found["photon_data/detectors"].tolist()) == {0, 1} and found["setup/num_pixels"] == 2


def test_delays_of_more_than_16_bits_stay_as_they_are(molecules: ptulab.Events, tmp_path: Path) -> None:
    """As of events that were made otherwise than by reading a file."""
    far = replace(molecules, dtimes=molecules.dtimes + np.int32(70_000))
    found = written(far, tmp_path / "far.h5", setup=Setup())
    assert (found["photon_data/nanotimes"] == molecules.photons.dtimes + 70_000).all()
    assert written(molecules, tmp_path / "near.h5", setup=Setup())["photon_data/nanotimes"].dtype == np.uint16


def listed(setup: Setup) -> Setup:
    """With its channels and times as lists, as they are read."""
    lists = {name: [list(one) for one in getattr(setup, name)] or () for name in ("spectral", "polarization", "excitation")}
    return replace(setup, **lists)


@pytest.mark.parametrize("kind", ["ns", "us", "one", "generic"])
def test_what_is_written_is_read(molecules: ptulab.Events, stream: ptulab.Events, tmp_path: Path, kind: str) -> None:
    """The photons, the setup, and groups of the same photons as the specification has."""
    waves = {"excitation_wavelengths": [532e-9, 640e-9], "detection_wavelengths": [580e-9, 680e-9]}
    setup = {"ns": replace(NS, repetition_rates=[1e7, 1e7], **waves), "us": US, "one": Setup("smFRET", spectral=[[0], [1]], repetition_rates=[4e7]),
             "generic": Setup(spectral=[[0, 1], [2, 3]], polarization=[[0, 2], [1, 3]], repetition_rates=[1e7])}[kind]  # fmt: skip
    events = molecules if kind in ("ns", "generic") else stream
    found = written(events, tmp_path / "some.h5", setup=setup)
    read, told = read_photon_hdf5(tmp_path / "some.h5")
    photons = events.photons
    for name in ("times", "dtimes", "numbers", "flags"):
        assert np.array_equal(getattr(read, name), getattr(photons, name)), name
    assert read.records.tolist() == list(range(1, len(photons) + 1)) and read.header.mode == events.header.mode
    assert (read.header.global_seconds, read.header.resolution_seconds) == (events.header.global_seconds, events.header.resolution_seconds)
    assert told == listed(setup) and read.header.tags["File_Comment"] == "some molecules"
    if kind == "generic":
        with pytest.raises(ptulab.NotKnownError, match="generic"):
            print(told.groups)
    elif kind == "one":
        assert told.groups == (Group([0]), Group([1]))
    else:
        masks = classes(found)
        for group, key in zip(told.groups, ((1, 1), (1, 2), (2, 2)), strict=True):
            assert np.array_equal(group.mask(read), masks[key]) and isinstance(group, Alternated) == (kind == "us")


def made_file(path: Path, **fields: Any) -> Path:
    """A file of these fields, by names whose places are divided by __."""
    with h5py.File(path, "w") as file:
        for name, value in fields.items():
            file[name.replace("__", "/")] = value
    return path


PLAIN: dict[str, Any] = {"photon_data__timestamps": np.array([5, 9, 7, 12]), "photon_data__timestamps_specs__timestamps_unit": 1e-8}
SPECS = "photon_data__measurement_specs__"


def test_files_of_others_are_read(tmp_path: Path, caplog: pytest.LogCaptureFixture) -> None:
    read, setup = read_photon_hdf5(made_file(tmp_path / "a.h5", **PLAIN))
    assert read.numbers.tolist() == [0] * 4 and read["late"].tolist() == [False, False, True, False] and read.header.mode == "T2" and setup == Setup()
    assert len(read.photons) == 3 and read.header.created is None and read.header.resolution_seconds is None
    told = {f"{SPECS}measurement_type": np.array([b"smFRET-usALEX"]), f"{SPECS}alex_period": 4000, f"{SPECS}alex_excitation_period1": [2180, 3900],
            f"{SPECS}alex_excitation_period2": [3950, 1800], f"{SPECS}detectors_specs__spectral_ch1": 0, f"{SPECS}detectors_specs__spectral_ch2": 1,
            "provenance__creation_time": "2026-01-31 12:00:00", "provenance__software": b"some program", "setup__excitation_wavelengths": [532.0, 640e-9]}  # fmt: skip
    read, setup = read_photon_hdf5(made_file(tmp_path / "b.h5", **PLAIN, **told))
    assert setup == Setup("smFRET-usALEX", [[0], [1]], (), [[(2180, 3900)], [(3950, 4000), (0, 1800)]], 4000) and "wavelengths" in caplog.text
    assert str(read.header.created) == "2026-01-31 12:00:00" and read.header.tags["CreatorSW_Name"] == "some program"
    write_photon_hdf5(read, tmp_path / "again.h5", description="again", setup=setup)
    assert read_photon_hdf5(tmp_path / "again.h5")[1] == setup
    _, setup = read_photon_hdf5(made_file(tmp_path / "c.h5", **PLAIN, **{f"{SPECS}measurement_type": "smFRET-PAX"}))
    assert setup.kind == "generic" and "smFRET-PAX" in caplog.text
    several = {name.replace("photon_data", "photon_data1"): value for name, value in PLAIN.items()}
    assert len(read_photon_hdf5(made_file(tmp_path / "d.h5", **several), spot=1)[0]) == 4
    for spot, why in ((None, "no photon_data; it has photon_data1"), (3, "photon_data3")):
        with pytest.raises(ptulab.NotKnownError, match=why):
            read_photon_hdf5(tmp_path / "d.h5", spot=spot)


def test_numbers_that_events_do_not_hold_are_refused(tmp_path: Path) -> None:
    for n, (more, why) in enumerate((
        ({"photon_data__detectors": np.array([0, 1, 256, 3])}, "255"),
        ({"photon_data__detectors": np.array([0, 1, 2])}, "4 timestamps"),
        ({"photon_data__nanotimes": np.array([0, 1, 2, 1 << 31])}, "31 bits"),
        ({"photon_data__nanotimes": np.array([0, 1])}, "4 timestamps"),
    )):  # fmt: skip
        with pytest.raises(ValueError, match=why):
            read_photon_hdf5(made_file(tmp_path / f"{n}.h5", **PLAIN, **more))
    largest = read_photon_hdf5(made_file(tmp_path / "largest.h5", **PLAIN, photon_data__detectors=np.array([0, 255, 0, 0]), photon_data__nanotimes=np.full(4, 2**31 - 1)))[0]
    assert largest.numbers.max() == 255 and largest.dtimes.max() == 2**31 - 1 and largest.header.mode == "T3"
    with pytest.raises(ptulab.NotKnownError, match="unit"):
        read_photon_hdf5(made_file(tmp_path / "none.h5", photon_data__timestamps=[1]))
    (tmp_path / "text.h5").write_text("no HDF5")
    with pytest.raises(OSError):
        read_photon_hdf5(tmp_path / "text.h5")


@pytest.mark.parametrize(
    ("flat", "period", "pairs"),
    [
        ([10, 20, 30, 40], None, [(10, 20), (30, 40)]),
        ([1500, 500], 2000, [(1500, 2000), (0, 500)]),
        ([1500, 0], 2000, [(1500, 2000)]),
        ([1500, 1], 2000, [(1500, 2000), (0, 1)]),
        ([100, 100], 2000, [(100, 2000), (0, 100)]),
        ([1500, 500], None, [(1500, 500)]),
    ],
)
def test_times_of_a_laser_may_go_over_the_end_of_a_period(flat: list[int], period: int | None, pairs: list[tuple[int, int]]) -> None:
    assert photon_hdf5._pairs(flat, period) == pairs
