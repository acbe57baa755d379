"""The first look: what is told of made files whose truth is known."""

import json
import math
import tracemalloc
from collections.abc import Callable
from pathlib import Path
from typing import Any

import made
import numpy as np
import pytest

import ptulab
from conftest import EXAMPLES
from ptulab import first_look
from ptulab.__main__ import main
from ptulab._layouts import MARKER, WRAP, layout_of
from ptulab._looks import BITS, look
from ptulab._words import PIECE, words_of
from ptulab.first_look import sparkline

MakeFile = Callable[..., Path]


def photons(many: int, tick: float, inputs: int) -> list[tuple[int, ...]]:
    """So many photons over 2 ms, on the inputs 1, 2 .. in turn."""
    return [(round((at + 1) * 2e-3 / many / tick), 1 + at % inputs) for at in range(many)]


def test_each_record_type_tells_its_inputs_and_markers(record_type: str, make_file: MakeFile) -> None:
    is_t3 = record_type.endswith("T3")
    events = [(16 * at, 1 + at % 2, *([at % 7] if is_t3 else [])) for at in range(1, 301)]
    events += [(16 * at + 3 - at % 2, made.Bits(3 - at % 2)) for at in range(301, 311)]
    seen = ptulab.info(make_file(record_type, events, tick=50e-9, resolution=25e-12))
    assert [(one.number, one.photons) for one in seen.inputs] == [(1, 150), (2, 150)]
    assert seen.markers == {1: 5, 2: 10} and seen.head.late == 0 and not seen.is_cut
    assert all(one.trace.sum() == 150 for one in seen.inputs)
    assert record_type[:4].lower() in seen.record_type.lower() and seen.record_type.split("; ")[1].startswith(record_type[-2:])
    first, second = (one.decay for one in seen.inputs)
    if is_t3:
        assert first is not None and first.sum() == 150 and first[7:].sum() == 0
        assert np.array_equal(first[:7], np.bincount([at % 7 for at in range(2, 301, 2)], minlength=7))
    else:
        assert first is None and second is None


@pytest.mark.parametrize("tick", [1e-12, 4e-12])
def test_rates_over_picoseconds(tick: float, make_file: MakeFile) -> None:
    """2 ms in ticks of a picosecond pass many wraps; trace and rates are of seconds all the same."""
    seen = ptulab.info(make_file("MultiHarpT2", [(0, 0), *photons(200, tick, 2)], tick=tick, TTResult_SyncRate=40_000_000))
    assert seen.seconds is not None and seen.seconds == pytest.approx(2e-3, rel=1e-9)
    assert [one.photons for one in seen.inputs] == [1, 100, 100]
    assert seen.inputs[1].rate_hertz == pytest.approx(50_000, rel=1e-6)
    assert seen.sync_hertz == pytest.approx(500, rel=1e-6) and seen.sync_told_hertz == 4e7
    trace = seen.inputs[2].trace
    assert len(trace) <= 1024 and seen.bin_ticks * tick * len(trace) >= 2e-3
    places = [time // seen.bin_ticks for time, number in photons(200, tick, 2) if number == 2]
    assert np.array_equal(trace, np.bincount(places, minlength=len(trace)))


def test_the_sync_of_t3_is_one_over_its_period(make_file: MakeFile) -> None:
    seen = ptulab.info(make_file("HydraHarp2T3", [(5, 0, 3)], tick=12.5e-9, resolution=4e-12))
    assert seen.sync_hertz == pytest.approx(8e7) and seen.sync_told_hertz is None and seen.dtime_seconds == 4e-12
    assert "sync           80 MHz\n" in str(seen)


@pytest.mark.parametrize(("told", "shown"), [(999, "999 Hz"), (1000, "1 kHz"), (78_125_123, "78.1251 MHz")])
def test_rates_of_the_sync_are_short_texts(told: int, shown: str, make_file: MakeFile) -> None:
    assert f"sync           {shown} told when it began\n" in str(ptulab.info(make_file("HydraHarp2T2", [(5, 1)], TTResult_SyncRate=told)))


@pytest.mark.parametrize(("bytes_off", "whole"), [(8, "announces 100 records, and there are 98: the file may be cut"), (7, "cut within a record: 1 bytes")])
def test_a_cut_file_is_counted_as_far_as_it_goes(bytes_off: int, whole: str, tmp_path: Path) -> None:
    path = made.write(tmp_path / "cut.ptu", "HydraHarp2T2", [(10 * at, 1) for at in range(100)], tick=1e-9)
    path.write_bytes(path.read_bytes()[:-bytes_off])
    seen = ptulab.info(path)
    assert seen.is_cut and whole in seen.whole and whole in str(seen)
    assert seen.inputs[0].photons == seen.header.records == 100 - math.ceil(bytes_off / 4)


def test_late_events_are_told_and_in_no_count(make_file: MakeFile) -> None:
    seen = ptulab.info(make_file("HydraHarp2T3", [(10, 0, 1), (20, 0, 1), (15, 0, 1), (15, 1, 1), (30, 0, 1)], tick=1e-7))
    assert seen.head.late == 2 and seen.head.photons == 5
    assert [(one.number, one.photons) for one in seen.inputs] == [(0, 3)]
    assert "late           2 events, which are in no count below\ninput  " in str(seen)


def test_late_markers_are_told_above_that_line(make_file: MakeFile) -> None:
    seen = ptulab.info(make_file("HydraHarp2T3", [(10, made.Bits(1)), (20, 0, 1), (15, made.Bits(1))], tick=1e-7))
    assert seen.head.late == 1 and "markers        bit 1: 2\nlate           1 events" in str(seen)


def test_more_inputs_than_a_plan_has_traces(make_file: MakeFile) -> None:
    seen = ptulab.info(make_file("MultiHarpT2", [(at, at % 65) for at in range(650)], tick=1e-12))
    assert [(one.number, one.photons) for one in seen.inputs] == [(number, 10) for number in range(65)]


@pytest.mark.parametrize("record_type", ["PicoHarpT3", "HydraHarp2T2"])
def test_a_file_without_events(record_type: str, make_file: MakeFile) -> None:
    seen = ptulab.info(make_file(record_type, []))
    assert (seen.inputs, seen.markers, seen.seconds, seen.is_cut) == ((), {}, None, False)
    assert "no photons" in str(seen) and json.loads(seen.json())["inputs"] == []


def test_the_header_in_words() -> None:
    seen = ptulab.info(EXAMPLES / "bench.ptu")
    assert "bench.ptu, 783 bytes\n" in str(seen)
    assert (seen.device, seen.software, seen.comment, seen.announced_seconds) == ("Bench", "TestSW", "", 60.0)
    assert seen.created is not None and seen.created.isoformat() == "2023-05-10T00:00:00"


def test_what_a_header_says_is_one_line_and_no_command(make_file: MakeFile) -> None:
    """A comment of several lines and of escapes of terminals, and numbers that JSON doesn't have."""
    path = make_file("HydraHarp2T2", [(1, 1)], tick=math.inf, HW_Type="A\x1b[31m", HW_Version="1", File_Comment="one\r\n two\x7f", Odd=math.nan)
    seen = ptulab.info(path)
    assert seen.comment == "one two" and seen.device == "A [31m, version 1"
    assert seen.seconds is None and seen.tick_seconds is None and seen.inputs[0].rate_hertz is None
    assert json.loads(seen.json())["tags"]["Odd"] is None and "\x1b" not in str(seen)


def test_json_has_what_the_object_has() -> None:
    seen = ptulab.info(EXAMPLES / "scan.ptu")
    told = json.loads(seen.json())
    assert told["photons"] == seen.head.photons == sum(one["photons"] for one in told["inputs"])
    assert told["markers"] == {"1": 128, "2": 2, "3": 128} and told["marker_events"] == 256
    assert sum(told["inputs"][0]["trace"]) == sum(told["inputs"][0]["decay"]) == 97492
    assert told["whole"].startswith("whole: 100,747 records") and told["created"] is None
    assert seen == ptulab.info(EXAMPLES / "scan.ptu")


def test_the_command(capsys: Any, tmp_path: Path) -> None:
    assert main(["info", str(EXAMPLES / "scan.ptu")]) == 0
    told = capsys.readouterr().out
    assert "scan.ptu, 0.4 MB\n" in told and "bit 1: 128, bit 2: 2, bit 3: 128" in told and "\n    0          97,492      634,724  " in told
    assert main(["info", "--json", str(EXAMPLES / "scan.ptu")]) == 0
    assert json.loads(capsys.readouterr().out)["type"] == "HydraHarp2T3"
    (tmp_path / "text.ptu").write_text("no PTU file")
    assert main(["info", str(tmp_path / "text.ptu")]) == 1
    assert "not a PTU file" in capsys.readouterr().err


@pytest.mark.parametrize("is_late", [False, True])
def test_a_plan_is_made_of_what_the_look_counted(is_late: bool, record_type: str, make_file: MakeFile) -> None:
    """What a plan has to know is the same as by a look at each event, also where events are late."""
    draws, is_t3, unit = np.random.default_rng(5), record_type.endswith("T3"), made.unit(record_type)
    times = np.sort(draws.integers(0, 60_000 if is_t3 else 9 * unit, 500)) // 16 * 16
    events: list[tuple[int, ...]] = []
    for time, is_marker in zip(times.tolist(), draws.random(500) < 0.2):
        bits = int(draws.integers(1, 16))
        photon = (time, int(draws.integers(1, 4)), *([int(draws.integers(0, 3000))] if is_t3 else []))
        events.append((time + (bits if record_type == "PicoHarpT2" else 0), made.Bits(bits)) if is_marker else photon)
    if is_late:
        photons = [at for at, event in enumerate(events) if not isinstance(event[1], made.Bits)]
        at = next(at for at in photons if at + 1 in photons and 0 < events[at + 1][0] - events[at][0] and events[at][0] // unit == events[at + 1][0] // unit)
        events[at], events[at + 1] = events[at + 1], events[at]
    path = make_file(record_type, events, tick=50e-9, resolution=25e-12)
    seen, known = first_look.look_at(path)
    wanted = look(path)
    assert (seen.head.late > 0) == is_late and known.late == wanted.late == seen.head.late
    for name in ("inputs", "bits", "deepest", "first", "last"):
        assert getattr(known, name) == getattr(wanted, name), name
    assert known.marks.counts == wanted.marks.counts and min(known.marks.counts.values()) > 30
    assert known.marks.width == wanted.marks.width and np.array_equal(known.marks.trace, wanted.marks.trace)
    assert all(np.array_equal(known.marks.times(bit), wanted.marks.times(bit)) for bit in BITS)


def test_late_events_of_a_file_that_ends_within_a_record(make_file: MakeFile) -> None:
    """What a plan has to know is that of the whole records; a fault before the end is told all the same."""
    path = make_file("HydraHarp2T3", [(5, 1, 7), (9, made.Bits(2)), (8, 1, 3), (20, 1, 9), (30, made.Bits(2))], tick=1e-7)
    whole = look(path)
    path.write_bytes(path.read_bytes() + b"ab")
    seen, known = first_look.look_at(path)
    assert seen.is_cut and seen.head.late == known.late == 1 and known.marks.times(2).tolist() == [9, 30] == whole.marks.times(2).tolist()
    assert (known.inputs, known.bits, known.first, known.last, known.deepest) == (whole.inputs, whole.bits, whole.first, whole.last, whole.deepest)
    with pytest.raises(ptulab.errors.BadFileError, match="2 bytes of a record"):
        look(path)
    made.write_words(path, "HydraHarp2T2", [0xFFFFFFFF] * 5000)
    with pytest.raises(ptulab.errors.BadFileError):
        look(path, partial=True)


@pytest.mark.parametrize("wraps", [4097, 8193, PIECE + 8193])
def test_markers_after_more_wraps_than_times_have_room_for(wraps: int, tmp_path: Path) -> None:
    """The program refuses the file, by which the look ends; 8,193 of these wraps pass 64 bits."""
    path = made.write_words(tmp_path / "wraps.ptu", "HydraHarp2T2", [0xFFFFFFFF] * wraps + [made.event_word("HydraHarp2T2", 5, made.Bits(1))] * 2)
    with pytest.raises(ptulab.errors.RefusalError, match="record 4097 passes the greatest time"):
        ptulab.info(path)


def test_a_look_at_markers_alone_takes_little_memory(tmp_path: Path) -> None:
    """Eight million of them; their times alone would take 64 MiB, and a look held them twice."""
    piece = np.append(made.event_word("HydraHarp2T3", 0, made.Bits(15)) + np.arange(1023), made.wrap_word("HydraHarp2T3")).astype("<u4")
    path = tmp_path / "markers.ptu"
    path.write_bytes(made.header("HydraHarp2T3", announced=1 << 23, tick=1e-7) + np.tile(piece, 1 << 13).tobytes())
    tracemalloc.start()
    _, known = first_look.look_at(path)
    peak = tracemalloc.get_traced_memory()[1]
    tracemalloc.stop()
    assert known.bits == dict.fromkeys(BITS, 1023 << 13) and known.marks.trace.sum(axis=1).tolist() == [1023 << 13] * 4
    assert peak < 100e6


def test_inputs_that_no_sample_meets_are_counted(make_file: MakeFile, monkeypatch: pytest.MonkeyPatch) -> None:
    """The program's count of all photons tells that some are of none of the inputs that were met."""
    monkeypatch.setattr(first_look, "words_of", lambda path, header, progress, sample=8: words_of(path, header, progress, sample))
    path = make_file("HydraHarp2T3", [(at, at % 3 if at < 50 else 5 + at % 2, at) for at in range(100)], tick=1e-7)
    met = words_of(str(path), ptulab.read_header(path), lambda size: None, sample=8).inputs
    seen, known = first_look.look_at(path)
    assert met == [0, 1, 2] and {one.number: one.photons for one in seen.inputs} == known.inputs == {0: 17, 1: 17, 2: 16, 5: 25, 6: 25}


def test_words_that_may_be_wraps_or_markers(record_type: str) -> None:
    """No word below the least special one is a wrap or a marker."""
    layout = layout_of(record_type)
    words = np.random.default_rng(3).integers(0, 1 << 32, 1 << 16, dtype=np.uint32)
    meanings = layout.read(words)
    special = (meanings == WRAP) | (meanings & 0xF0 == MARKER)
    assert 0 < np.count_nonzero(special) and words[special].min() >= layout.special


def test_parts_of_a_long_file_are_counted_at_the_same_time(make_file: MakeFile, monkeypatch: pytest.MonkeyPatch) -> None:
    """The same as by one program, also of a file that ends within a record."""
    path = make_file("HydraHarp2T3", [(at, at % 5, at) for at in range(1000)], tick=1e-7)
    for cut in (0, 3):
        path.write_bytes(path.read_bytes()[: -cut or None])
        monkeypatch.setattr(first_look, "LONG", 1 << 22)
        whole = ptulab.info(path)
        monkeypatch.setattr(first_look, "LONG", 10)
        monkeypatch.setattr(first_look, "workers", lambda: 4)
        assert len(first_look._parted([0, 1, 2, 3, 4], 1000)) == 2 and ptulab.info(path) == whole and len(whole.inputs) == 5


def test_a_sparkline() -> None:
    assert sparkline(np.array([0, 1, 4, 8])) == " ▁▄█" and sparkline(np.zeros(3, np.int64)) == "   "
    assert len(sparkline(np.ones(1000, np.int64))) == 32 and sparkline(np.zeros(0, np.int64)) == ""
