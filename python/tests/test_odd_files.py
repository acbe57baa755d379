"""Files that hold hardly anything, or odd things, at ticks from 1 ps to 1 µs and times up to 2^62: each is read, planned,
counted, shown and exported, or refused with words."""

from pathlib import Path
from typing import Any

import made
import numpy as np
import pytest
from hypothesis import given, settings
from hypothesis import strategies as st

import ptulab
from ptulab import exports
from ptulab.page._figures import figures_of

FAR = [0xFE000000 | 0x1FFFFFF] * 4000  # wraps of HydraHarp2T2 that make nearly 2^62
KINDS = ("empty", "one photon", "markers alone", "all late but one", "far", "a period that is no whole number of ticks")


def events_of(kind: str, record_type: str) -> list[tuple[int, ...]]:
    dtime = (5,) if record_type.endswith("T3") else ()
    if kind in ("empty", "far"):
        return []
    if kind == "markers alone":
        return [(16 * time + 3, made.Bits(3)) for time in range(1, 9)]
    times = {"one photon": [700], "all late but one": [900, *range(800, 860)]}.get(kind, range(0, 800, 7))
    return [(time, 1 + time % 2, *dtime) for time in times]


@pytest.fixture(scope="session")
def folder(tmp_path_factory: pytest.TempPathFactory) -> Path:
    return tmp_path_factory.mktemp("odd")


@settings(max_examples=24, deadline=None)
@given(st.sampled_from(KINDS), st.sampled_from(["HydraHarp2T2", "PicoHarpT3", "MultiHarpT3"]), st.floats(1e-12, 1e-6), st.integers(0, 2**32))
def test_odd_files_go_the_whole_way(folder: Path, program: str, kind: str, record_type: str, tick: float, seed: int) -> None:
    path = folder / "odd.ptu"
    resolution = {} if record_type.endswith("T2") else {"resolution": tick / (100 + seed % 1000 / 7)}
    if kind == "far" and record_type.endswith("T2"):
        made.write_words(path, record_type, [5, *FAR, 9, 9], tick=tick)
    else:
        made.write(path, record_type, events_of(kind, record_type), tick=tick, **resolution)
    events = ptulab.read_events(path)
    assert sum(map(len, ptulab.iter_events(path, records=3))) == len(events)
    plan = folder / "odd.toml"
    ptulab.plan_for(path).write(plan)
    assert not [found for found in ptulab.check_plan(plan, path, program=program) if found.refused]
    report = ptulab.run(plan, path, program=program)
    photons = ~events["marker"]
    assert (report.head.photons, report.head.markers, report.head.late) == (photons.sum(), (~photons).sum(), events["late"].sum())
    groups = ptulab.read_plan(plan).get("group", [])
    for table in report.tables:
        if table.kind in ("histogram", "trace") and table.groups is not None:
            inputs = groups[table.groups[0] - 1]["inputs"]
            assert table.counts.sum() + sum(table.rest.values()) == np.isin(events.photons.numbers, inputs).sum()
    assert {"trace"} <= {table.kind for table in report.tables} or not len(events.photons)
    assert all(np.isfinite(one.ys).all() for one in figures_of(report) if hasattr(one, "ys"))
    leave(folder, report, events)


def leave(folder: Path, report: ptulab.Report, events: ptulab.Events) -> None:
    """Writes all files of a report and its events, and reads them back."""
    ptulab.write_report(report, folder / "odd.txt")
    again = ptulab.read_report(folder / "odd.txt")
    assert [table.counts.tolist() for table in again.tables] == [table.counts.tolist() for table in report.tables]
    exports.write_npz(report, folder / "odd.npz")
    with np.load(folder / "odd.npz") as arrays:
        read: dict[str, Any] = dict(arrays)
    assert all(np.array_equal(read[f"{table.kind}_{table.number}"], table.counts) for table in report.tables)
    h5py = pytest.importorskip("h5py")
    exports.write_photon_hdf5(events, folder / "odd.h5", description="odd")
    with h5py.File(folder / "odd.h5") as file:
        assert file["photon_data/timestamps"][:].tolist() == events.photons.times.tolist()
        assert file["photon_data/detectors"][:].tolist() == events.photons.numbers.tolist()


@pytest.mark.parametrize("record_type", made.ALL_TYPES)
def test_parts_of_nothing(tmp_path: Path, record_type: str) -> None:
    events = ptulab.read_events(made.write(tmp_path / "none.ptu", record_type, [], tick=1e-12, resolution=1e-12))
    assert len(events) == len(events.photons) == len(events.markers) == len(events.array) == len(events.records) == 0
    assert events[events.times > 3] == events[:0] == events and list(events) == [] and events.dtimes.sum() == 0
