"""Events beside what `ptu events` prints: random headers and words, the rows of the documents, and bad files."""

import math
import os
import pickle
import re
import struct
import subprocess
import sys
import tempfile
import tracemalloc
from collections.abc import Callable
from datetime import datetime
from pathlib import Path
from typing import Any

import made
import numpy as np
import pytest
from conftest import EXAMPLES, ROOT
from hypothesis import example, given, settings
from hypothesis import strategies as st

import ptulab
from ptulab import BadFileError, headers
from ptulab import events as module


def lines(array: Any) -> list[str]:
    """Events as the program prints them."""
    said = []
    for record, time, dtime, number, marker, late in np.asarray(array).tolist():
        kind, more = ("marker", "") if marker else ("photon", f" {dtime}")
        said.append(f"{record} {kind} {number} {time}{more}{' late' if late else ''}")
    return said


def printed(program: str, path: Path) -> subprocess.CompletedProcess[str]:
    return subprocess.run([program, "events", str(path)], capture_output=True, text=True, check=False)


def ended(path: Path, **bounds: Any) -> tuple[list[str], int, str]:
    """The lines of all pieces up to the end or a fault, and the status and line of that."""
    said: list[str] = []
    try:
        for piece in ptulab.iter_events(path, **bounds):
            said += lines(piece)
    except BadFileError as fault:
        return said, fault.status, f"ptu: {fault.line}\n"
    return said, 0, ""


def agrees(program: str, path: Path) -> None:
    """The package and the program end alike, and where neither refuses the file they have the same events."""
    run = printed(program, path)
    said, status, line = ended(path)
    assert (status, line) == (run.returncode, run.stderr)
    assert said == run.stdout.splitlines()[: len(said)]
    if status == 0:
        assert said == run.stdout.splitlines() == lines(ptulab.read_events(path).array)
    else:
        with pytest.raises(BadFileError) as fault:
            ptulab.read_events(path)
        assert fault.value.status == status


# Words of which a good part is wraps, markers and photons near them, and which have all bits.
PICO: Any = st.builds(lambda high, low: high << 28 | low, st.sampled_from([0, 1, 4, 5, 14, 15, 15, 15]), st.integers(0, 2**28 - 1))
LOW: Any = st.builds(lambda high, low: high << 28 | low, st.just(15), st.sampled_from([0, 0, 1, 15, 0x10000, 0xF0000, 0xFFF0]))
HYDRA: Any = st.builds(
    lambda special, channel, low: special << 31 | channel << 25 | low,
    st.integers(0, 1),
    st.sampled_from([0, 1, 15, 16, 62, 63, 63]),
    st.one_of(st.integers(0, 3), st.integers(0, 2**25 - 1)),
)
WORDS = st.lists(st.one_of(st.integers(0, 2**32 - 1), PICO, LOW, HYDRA), max_size=60)


@settings(max_examples=25, deadline=None)
@given(words=WORDS, left=st.binary(max_size=3))
@example(words=[], left=b"")
@example(words=[0xFE000000], left=b"\0")
def test_random_words_of_every_type(program: str, words: list[int], left: bytes) -> None:
    with tempfile.TemporaryDirectory() as folder:
        path = Path(folder, "some.ptu")
        for record_type in made.ALL_TYPES:
            made.write_words(path, record_type, words, tick=1e-12)
            path.write_bytes(path.read_bytes() + left)
            agrees(program, path)


NAMES = st.one_of(
    st.sampled_from(["TTResultFormat_TTTRRecType", "TTResult_NumberOfRecords", "MeasDesc_GlobalResolution", "Other", ""]).map(str.encode),
    st.binary(max_size=32),
)
CODES = st.one_of(
    st.sampled_from(sorted(headers.WITH_BODY | headers.WITHOUT_BODY)), st.sampled_from(sorted(headers.WITH_BODY)), st.integers(0, 2**32 - 1)
)
VALUES = st.one_of(st.integers(-3, 70), st.sampled_from(sorted(made.CODES.values())), st.integers(-(2**63), 2**63 - 1))
TAGS = st.lists(st.tuples(NAMES, st.integers(-(2**31), 2**31 - 1), CODES, VALUES, st.binary(max_size=70)), max_size=5)


@settings(max_examples=100, deadline=None)
@given(tags=TAGS, magic=st.sampled_from([b"PQTTTR\0\0", b"PQTTTRxy", b"PQHISTO\0", b"PQT"]), good=st.booleans(), cut=st.integers(0, 400))
def test_random_headers(program: str, tags: list[tuple[bytes, int, int, int, bytes]], magic: bytes, good: bool, cut: int) -> None:
    data = magic + b"1.0.00\0\0"
    if good:
        data += made.tag("TTResultFormat_TTTRRecType", made.CODES["HydraHarp2T3"])
    for name, index, code, value, body in tags:
        has_body = code in headers.WITH_BODY
        value = min(value, len(body)) if has_body and good else value
        data += struct.pack("<32siIq", name, index, code, value) + (body[: max(0, value)] if has_body else b"")
    data += made.tag("Header_End", None) + struct.pack("<3I", 5, 0xFE000002, 7)
    with tempfile.TemporaryDirectory() as folder:
        path = Path(folder, "some.ptu")
        path.write_bytes(data if cut > len(data) or good else data[:-cut])
        agrees(program, path)


def test_values_of_tags(tmp_path: Path, program: str) -> None:
    told = {"Text": "caf\xe9", "Whole": -7, "Part": 2.5, "Yes": True, "Nothing": None, "File_CreatingTime": 1.0}
    data = made.header("TimeHarp260NT2", tick=1e-12, resolution=2e-12, announced=3, **told)
    end = data.index(b"Header_End")
    blob, floats, wide = b"\1\2\xff", struct.pack("<2d", 1.5, -2), "\u00b5s\0".encode("utf-16-le")
    more = b"".join(
        struct.pack("<32siIq", name, index, code, value) + body
        for name, index, code, value, body in (
            (b"Blob", -1, headers.BLOB, len(blob), blob),
            (b"Floats", -1, headers.FLOATS, len(floats), floats),
            (b"Wide", -1, headers.WIDE, len(wide), wide),
            (b"Bits", -1, headers.BITS, -1, b""),
            (b"Date", -1, headers.DATE, 0x40E6000000000000, b""),
            (b"Enabled", 0, headers.TRUTH, 1, b""),
            (b"Enabled", 2, headers.TRUTH, 0, b""),
            (b"Whole", -1, headers.INTEGER, 8, b""),
        )
    )
    (tmp_path / "some.ptu").write_bytes(data[:end] + more + data[end:])
    header = ptulab.read_header(tmp_path / "some.ptu")
    assert (header.record_type, header.mode, header.announced, header.records) == ("TimeHarp260NT2", "T2", 3, 0)
    assert (header.global_seconds, header.resolution_seconds) == (1e-12, 2e-12)
    tags = header.tags
    assert (tags["Whole"], tags["Part"], tags["Yes"], tags["Nothing"]) == (-7, 2.5, True, None)
    assert tags["Blob"] == blob and tags["Floats"].tolist() == [1.5, -2] and tags["Wide"] == "\u00b5s"
    assert tags["Bits"] == 2**64 - 1 and tags["Date"] == 45056.0 and tags["Enabled"] == {0: True, 2: False}
    assert header.created == datetime(1899, 12, 31)
    for days in (math.inf, math.nan, 1e300):
        made.write(tmp_path / "odd.ptu", "MultiHarpT2", [], File_CreatingTime=days)
        assert ptulab.read_header(tmp_path / "odd.ptu").created is None
    assert ptulab.read_header(EXAMPLES / "scan.ptu").created is None
    assert printed(program, tmp_path / "some.ptu").returncode == 0


def test_the_worked_rows_of_the_documents(tmp_path: Path, program: str) -> None:
    """Each file that a page of docs/ makes, and each record of its events."""
    tried = 0
    for page in sorted((ROOT / "docs").glob("*.md")):
        for words in re.findall(r"^\$ python3 examples/made_file.py few.ptu (.*)$", page.read_text("utf-8"), flags=re.M):
            subprocess.run([sys.executable, str(EXAMPLES / "made_file.py"), str(tmp_path / "few.ptu"), *words.split()], check=True)
            agrees(program, tmp_path / "few.ptu")
            tried += 1
    assert tried >= 10
    for name in ("bench.ptu", "scan.ptu"):
        agrees(program, EXAMPLES / name)


def test_the_row_of_the_page_of_events(tmp_path: Path) -> None:
    text = (ROOT / "docs" / "events.md").read_text("utf-8")
    said = text.split("$ ./ptu events examples/bench.ptu\n")[1].split("```")[0].splitlines()
    assert lines(ptulab.read_events(EXAMPLES / "bench.ptu").array) == said
    made.write(tmp_path / "late.ptu", "HydraHarp2T3", [(20, 0, 7), (15, 0, 7), (18, 0, 7)])
    said = text.split("$ ./ptu events late.ptu\n")[1].split("```")[0].splitlines()
    assert lines(ptulab.read_events(tmp_path / "late.ptu").array) == said


def test_pieces_of_any_size(make_file: Callable[..., Path], record_type: str, monkeypatch: pytest.MonkeyPatch) -> None:
    """Wraps, and the greatest time so far, go on from piece to piece; a part of a file has the times of the whole."""
    unit = made.unit(record_type)
    dtime = (3,) if record_type.endswith("T3") else ()
    draws = np.random.default_rng(7)
    times = np.sort(draws.integers(0, 9 * unit, 300)) | 3
    photons = [(int(time), int(number), *dtime) for time, number in zip(times, draws.integers(1, 4, 300))]
    some = [(time, made.Bits(3)) if place % 17 == 0 else (time, *rest) for place, (time, *rest) in enumerate(photons)]
    late = [(time // unit * unit, 2, *dtime) if place % 10 == 9 else (time, *rest) for place, (time, *rest) in enumerate(some)]
    path = make_file(record_type, late)
    whole = ptulab.read_events(path).array
    assert whole["late"].sum() > 3 and whole["marker"].sum() > 3
    monkeypatch.setattr(module, "PIECE", 7)
    monkeypatch.setattr(module, "GIVEN_BACK", 50)
    assert np.array_equal(ptulab.read_events(path).array, whole)
    for records in (1, 10, 1000):
        pieces = list(ptulab.iter_events(path, records=records))
        assert np.array_equal(np.concatenate(pieces), whole)
        assert len(pieces) == -(-ptulab.read_header(path).records // records)
    for start, stop in ((0, 11), (15, 160), (100, None), (290, 10**9), (10**6, None)):
        part = whole[(whole["record"] > start) & (whole["record"] <= (stop or 10**9))]
        assert np.array_equal(ptulab.read_events(path, start=start, stop=stop).array, part)


@pytest.mark.parametrize(("record_type", "bytes_an_event"), [("MultiHarpT3", 14), ("MultiHarpT2", 10)])
def test_events_are_columns(make_file: Callable[..., Path], record_type: str, bytes_an_event: int) -> None:
    """Each column is of its own, in order and aligned; beside them a record has one bit, and rows are made when asked for."""
    dtime = (9,) if record_type.endswith("T3") else ()
    path = make_file(record_type, [(7 * time, 1, *dtime) for time in range(40_000)])
    records = ptulab.read_header(path).records
    ptulab.read_events(path)
    tracemalloc.start()
    try:
        events = ptulab.read_events(path)
        held = tracemalloc.get_traced_memory()[0]
    finally:
        tracemalloc.stop()
    assert held < bytes_an_event * 40_000 + records / 8 + 20_000
    columns: tuple[Any, ...] = (events.times, events.numbers, events.flags)
    for column in columns:
        assert column.shape == (40_000,) and column.flags.c_contiguous and column.flags.aligned
    rows = events.array
    assert rows.dtype == ptulab.EVENT and rows.flags.aligned and all(np.array_equal(rows[name], events[name]) for name in ptulab.EVENT.names or ())
    assert np.array_equal(events["record"], events.records) and int(events.records[-1]) == records


def test_a_part_of_events(make_file: Callable[..., Path]) -> None:
    """By a mask, a slice, places and one place, with the numbers of their records, also when they were pickled."""
    some = [(300 * place, made.Bits(5) if place % 7 == 3 else place % 3, 0 if place % 7 == 3 else place) for place in range(200)]
    for path in (make_file("HydraHarpT3", some), make_file("MultiHarpT2", [event[:2] for event in some])):
        events = ptulab.read_events(path)
        rows = events.array
        order = np.argsort(rows["number"], kind="stable")
        keys: tuple[Any, ...] = (rows["marker"], rows["time"] > 9000, slice(20, 170), slice(None, None, -3), order)
        for key in keys:
            part = pickle.loads(pickle.dumps(events[key]))
            assert np.array_equal(part.array, rows[key]) and part.header == events.header
            assert np.array_equal(part[part.numbers == 1].array, rows[key][rows[key]["number"] == 1])
        assert events[5] == rows[5] and events[-1] == rows[-1] and [row.tolist() for row in events] == rows.tolist()
        with pytest.raises(IndexError):
            events[200]
        assert module.events_of(rows, events.header) == events and module.events_of(events) is events
        both = module.joined([events[:50], events[50:]])
        assert both == events and np.array_equal(both.records, events.records)
        assert len(module.joined([])) == 0 and np.concatenate([events[:9], events[9:]]).tolist() == rows.tolist()


def test_photons_and_markers_that_are_not_late(make_file: Callable[..., Path]) -> None:
    events = ptulab.read_events(make_file("MultiHarpT3", [(20, 1, 7), (21, made.Bits(5)), (15, 2, 7), (22, 63, 32767)], tick=50e-9, resolution=4e-12))
    assert events.photons["number"].tolist() == [1, 63] and events.photons["dtime"].tolist() == [7, 32767]
    assert events.markers.array.tolist() == [(2, 21, 0, 5, True, False)]
    assert (events.header.global_seconds, events.header.resolution_seconds) == (50e-9, 4e-12)


@pytest.mark.parametrize("old", ["HydraHarpT2", "PicoHarpT2"])
def test_a_file_whose_wraps_pass_the_greatest_time(tmp_path: Path, program: str, old: str) -> None:
    """Some 4096 wraps of the greatest amount, which only files with a field in their wraps have, make 2^62."""
    wraps = [0xFE000000 | 0x1FFFFFF] * 4096
    made.write_words(tmp_path / "good.ptu", "HydraHarp2T2", [*wraps, 5])
    assert ptulab.read_events(tmp_path / "good.ptu").array["time"].tolist() == [4096 * (2**25 - 1) * 2**25 + 5]
    made.write_words(tmp_path / "exact.ptu", "HydraHarp2T2", [*wraps, 0xFE000000 | 4096, 5, 9])
    assert ptulab.read_events(tmp_path / "exact.ptu").array["time"].tolist() == [2**62 + 5, 2**62 + 9]
    for words in ([7, *wraps, 0xFE001001, 5], [7, *wraps, 0xFE001000, 0xFE000000, 5], [7, *[0xFFFFFFFF] * 20000]):
        made.write_words(tmp_path / "far.ptu", "HydraHarp2T2", words)
        agrees(program, tmp_path / "far.ptu")
        with pytest.raises(BadFileError, match="passes the greatest time") as fault:
            ptulab.read_events(tmp_path / "far.ptu")
        assert fault.value.status == 21
    made.write_words(tmp_path / "old.ptu", old, [*[made.wrap_word(old)] * 3, 5])
    assert ptulab.read_events(tmp_path / "old.ptu").array["time"].tolist() == [3 * made.unit(old) + 5]


def tag(name: bytes, code: int, value: int) -> bytes:
    return struct.pack("<32siIq", name, -1, code, value)


START, END = b"PQTTTR\0\0" + b"1.0.00\0\0", tag(b"Header_End", headers.EMPTY, 0)
TYPE = b"TTResultFormat_TTTRRecType"


@pytest.mark.parametrize(
    ("data", "status"),
    [
        (b"PQHISTO\0" + END, 10),
        (b"PQTTT", 11),
        (START + tag(TYPE, headers.INTEGER, made.CODES["PicoHarpT2"]) + END[:-1], 11),
        (START + tag(b"Long", headers.BLOB, 2**62), 11),
        (START + tag(b"Odd", 0x10000009, 0) + END, 12),
        (START + tag(b"Odd", headers.TEXT, -1) + END, 13),
        (START + tag(TYPE, headers.BITS, made.CODES["PicoHarpT2"]) + END, 14),
        (START + tag(TYPE, headers.INTEGER, 0x10203 + 2**32) + END, 15),
        (START + tag(TYPE, headers.INTEGER, -1) + tag(TYPE, headers.INTEGER, made.CODES["PicoHarpT2"]) + END, 15),
    ],
)
def test_headers_that_are_refused(tmp_path: Path, program: str, data: bytes, status: int) -> None:
    (tmp_path / "some.ptu").write_bytes(data)
    agrees(program, tmp_path / "some.ptu")
    with pytest.raises(BadFileError, match="some.ptu: ") as fault:
        ptulab.read_header(tmp_path / "some.ptu")
    assert fault.value.status == status


def test_a_long_header(tmp_path: Path, program: str) -> None:
    """Up to 2^24 bytes; more than that is refused, however much there is."""
    start = made.header("HydraHarp2T3")[:-48]
    for length, status in ((2**24, 0), (2**24 + 1, 16), (100_000, 0)):
        body = length - len(start) - 96
        blob = struct.pack("<32siIq", b"Blob", -1, headers.BLOB, body) + b"\0" * body
        (tmp_path / "long.ptu").write_bytes(start + blob + made.tag("Header_End", None) + struct.pack("<I", 7))
        agrees(program, tmp_path / "long.ptu")
        assert printed(program, tmp_path / "long.ptu").returncode == status


def test_bounds_that_are_none(make_file: Callable[..., Path]) -> None:
    path = make_file("HydraHarp2T3", [(1, 0)])
    some: tuple[dict[str, Any], ...] = ({"start": -1}, {"start": 2, "stop": 1})
    for bounds in some:
        with pytest.raises(ValueError):
            ptulab.read_events(path, **bounds)
    with pytest.raises(ValueError):
        next(ptulab.iter_events(path, records=0))


def test_paths_that_are_no_file(tmp_path: Path) -> None:
    with pytest.raises(FileNotFoundError):
        ptulab.read_events(tmp_path / "nothing.ptu")
    with pytest.raises(IsADirectoryError):
        ptulab.read_events(tmp_path)
    os.mkfifo(tmp_path / "pipe")
    for path, status in ((Path("/dev/null"), 11), (tmp_path / "pipe", 3)):
        with pytest.raises(BadFileError) as fault:
            ptulab.read_events(path)
        assert fault.value.status == status


def test_left_over_bytes_are_told_at_the_end(make_file: Callable[..., Path]) -> None:
    path = make_file("HydraHarp2T3", [(1, 0), (2, 0)])
    path.write_bytes(path.read_bytes() + b"ab")
    assert len(ptulab.read_events(path, stop=1).array) == 1
    pieces = ptulab.iter_events(path, records=1)
    assert len(next(pieces)) == len(next(pieces)) == 1
    with pytest.raises(BadFileError, match="2 bytes of a record at the end") as fault:
        next(pieces)
    assert fault.value.status == 17 and fault.value.path == str(path)
