"""Sums over many files: by processes, by dask on the loopback, and of reports on disk."""

import concurrent.futures
import json
import os
import signal
import socket
import subprocess
import sys
import threading
import time
from collections.abc import Callable
from pathlib import Path
from typing import Any, cast

import numpy as np
import pytest

import made
import ptulab
from conftest import EXAMPLES
from hosts import CALM, end_of, seconds, until
from plain_sum import cube_report, plain_sum, report_of
from hypothesis import given
from hypothesis import strategies as st
from ptulab import _progress
from ptulab.__main__ import main
from ptulab._dask import Dask
from ptulab._digits import lines_of
from ptulab._hand_out import HandOut
from ptulab._lock import Lock
from ptulab._parts import File, Part
from ptulab._processes import Here, Processes
from ptulab._work import Work, keep
from ptulab.errors import BadPlanError, MissingLibraryError, PtulabError, RefusalError, UnlikeError
from ptulab.many import LeftFile, SummedFiles, count_files, megabytes_of, sum_files
from ptulab.texts import report_lines, summed_head, write_report

PLAN = """
group = [{ inputs = [1] }, { inputs = [2] }]
trace = [{ group = 1, width = 4611686018427387904, bins = 1 }, { group = 2, width = 4611686018427387904, bins = 1 }]
startstop = [{ start = 1, stop = 2, width = 4, bins = 3 }]
coincidence = [{ first = 1, second = 2, reach = 4, width = 3 }]
correlation = [{ first = 1, second = 2, lags = 4, levels = 2 }]
"""


@pytest.fixture(autouse=True)
def two_at_a_time(request: pytest.FixtureRequest, monkeypatch: pytest.MonkeyPatch) -> None:
    """Two processes where a test doesn't say how many: each takes half a second to begin."""
    if "processes" not in request.fixturenames:
        monkeypatch.setattr("ptulab.many.processors", lambda: 2)


@pytest.fixture
def folder(tmp_path: Path) -> Path:
    """Eight files of pairs: the fourth is cut within a record, and the sixth has other ticks."""
    draws = np.random.default_rng(8)
    for number in range(8):
        times = np.sort(draws.integers(0, 3000, 200 + 10 * number))
        events = [(int(time), int(draws.integers(1, 3))) for time in times]
        made.write(tmp_path / f"{number}.ptu", "HydraHarp2T2", events, tick=2e-12 if number == 5 else 1e-12)
    cut = (tmp_path / "3.ptu").read_bytes()
    (tmp_path / "3.ptu").write_bytes(cut[:-1])
    (tmp_path / "plan.toml").write_text(PLAN)
    return tmp_path


def files_of(folder: Path) -> list[Path]:
    return sorted(folder.glob("*.ptu"))


def wanted(folder: Path, program: str) -> Any:
    """The sum of the good files by one process, file after file."""
    good = [path for path in files_of(folder) if path.stem not in "35"]
    return ptulab.sum_reports(ptulab.run(folder / "plan.toml", path, program=program) for path in good)


def same(one: Any, other: Any) -> bool:
    return b"".join(report_lines(one)) == b"".join(report_lines(other))


def check(whole: Any, folder: Path, program: str) -> None:
    assert same(whole.report, wanted(folder, program))
    assert (len(whole.plan), len(whole.program), whole.odd, whole.left_out) == (64, 64, (), ())
    assert whole.added == tuple(str(folder / f"{number}.ptu") for number in (0, 1, 2, 4, 6, 7))
    host = socket.gethostname()
    assert whole.left == (
        LeftFile(str(folder / "3.ptu"), 17, "3 bytes of a record at the end", host),
        LeftFile(str(folder / "5.ptu"), None, "global 2e-12, not 1e-12", host),
    )


@pytest.mark.parametrize("processes", [1, 3, None])
def test_files_by_processes(folder: Path, program: str, processes: Any) -> None:
    whole = count_files(folder / "plan.toml", files_of(folder), program=program, processes=processes)
    check(whole, folder, program)
    assert whole.report is not None
    curve, parts = whole.report.table("correlation"), [ptulab.run(folder / "plan.toml", path, program=program) for path in whole.added]
    assert curve.expected() == pytest.approx(sum(part.table("correlation").expected() for part in parts))


def test_files_by_dask_with_a_scheduler_and_three_workers(folder: Path, program: str) -> None:
    distributed = pytest.importorskip("distributed", reason="python3-distributed isn't on this machine")
    place = folder / "scheduler.json"
    quiet = {"stdout": subprocess.DEVNULL, "stderr": subprocess.DEVNULL, "env": made_environment() | CALM}
    words = [sys.executable, "-m", "distributed.cli.dask_scheduler", "--host", "127.0.0.1", "--port", "0", "--no-dashboard"]
    started = [subprocess.Popen([*words, "--scheduler-file", str(place)], cwd=folder, **quiet)]
    words = [sys.executable, "-m", "distributed.cli.dask_worker", "--host", "127.0.0.1", "--no-dashboard", "--nthreads", "1", "--no-nanny"]
    try:
        started += [subprocess.Popen([*words, "--scheduler-file", str(place)], cwd=folder, **quiet) for _ in range(3)]
        with distributed.Client(scheduler_file=str(place), timeout=180) as client:
            client.wait_for_workers(3, timeout=180)
            check(count_files(folder / "plan.toml", files_of(folder), program=program, client=client), folder, program)
            with pytest.raises(RefusalError, match="rule 1 "):
                (folder / "plan.toml").write_text("colour = 1")
                count_files(folder / "plan.toml", files_of(folder), program=program, client=client)
    finally:
        for one in reversed(started):
            one.terminate()
        for one in started:
            try:
                one.wait(5)
            except subprocess.TimeoutExpired:  # a worker that was just told of the scheduler's end may wait for it
                one.kill()
                one.wait()


def work_of(folder: Path, program: str) -> tuple[Work, bytes]:
    """What the processes are asked, and the bytes of the program."""
    code = Path(program).read_bytes()
    return Work((folder / "plan.toml").read_bytes(), keep(code)), code


def test_what_the_processes_do(folder: Path, program: str) -> None:
    """The same in this process, by three lanes whose sums are collected once in between."""
    paths, whole = list(map(str, files_of(folder))), Part()
    by = HandOut(Here(*work_of(folder, program)), paths, whole, None, None)
    by.due = 0
    by.run()
    assert by.kind is not None and same(whole.sums[by.kind][0], wanted(folder, program)) and whole.sums[by.kind][0].table("correlation").photons is not None
    assert [place for place, file in sorted(whole.files.items()) if not file.is_added] == [3, 5]


def test_a_fault_of_the_plan_stops_it(folder: Path, program: str) -> None:
    (folder / "plan.toml").write_text("version = 3")
    with pytest.raises(RefusalError, match="rule 2"):
        HandOut(Here(*work_of(folder, program)), list(map(str, files_of(folder))), Part(), None, None).run()


# ## What can go wrong on one machine


def script(folder: Path, program: str, words: Any) -> Any:
    """A program that does something else with some files; their path is $path."""
    path = folder / "other_ptu"
    path.write_text(f'#!/bin/sh\npath=$(readlink "$3")\n{words}\nexec {program} "$@"\n')
    path.chmod(0o755)
    return path


def text_of(whole: SummedFiles) -> str:
    assert whole.report is not None
    return b"".join(report_lines(whole.report)).decode()


def plain(folder: Path, program: str, numbers: Any) -> Any:
    return plain_sum(report_of(program, folder / "plan.toml", folder / f"{number}.ptu") for number in numbers)


def test_a_plan_that_changes_meanwhile_is_read_once(folder: Path, program: str) -> None:
    others = ["version = 3", PLAN.replace("bins = 3", "bins = 4"), PLAN.replace("inputs = [2]", "inputs = [1]")]
    for number in range(3):
        slow = script(folder, program, f"sleep 0.0{number}")
        (folder / "plan.toml").write_text(PLAN)
        words = [sys.executable, "-m", "ptulab", "count", folder / "plan.toml", *files_of(folder), "--processes", 2, "--program", slow, "-o", folder / "sum.txt"]
        running = subprocess.Popen(list(map(str, words)), env=made_environment(), stderr=subprocess.DEVNULL)
        until((folder / "sum.txt.jsonl").exists, "the plan to be read")
        while running.poll() is None:
            (folder / "plan.toml").write_text(others[number])
            time.sleep(0.02)
            (folder / "plan.toml").write_text(PLAN)
            time.sleep(0.02)
        (folder / "plan.toml").write_text(PLAN)
        assert (running.returncode, (folder / "sum.txt").read_text()) == (3, plain(folder, program, [0, 1, 2, 4, 6, 7]))
        (folder / "sum.txt.jsonl").unlink()


def test_a_file_that_ends_its_process_is_left_with_how(folder: Path, program: str) -> None:
    """Three processes end with it; the other files are counted. A run that ends between two tables is told by its signal too."""
    part = f'{program} "$@" | head -n 12; kill -9 $$'
    killer = script(folder, program, f"case $path in *2.ptu) kill -9 $PPID ;; *4.ptu) {part} ;; *6.ptu) kill -11 $$ ;; esac")
    whole = count_files(folder / "plan.toml", files_of(folder), program=killer, processes=2)
    assert [(Path(one.path).stem, one.status, one.why) for one in whole.left if Path(one.path).stem in "246"] == [
        ("2", None, "the process that counted it ended (signal 9)"),
        ("4", -9, "signal 9 ended the program"),
        ("6", -11, "signal 11 ended the program"),
    ]
    assert text_of(whole) == plain(folder, program, [0, 1, 7])


@pytest.mark.parametrize("number", [signal.SIGKILL, signal.SIGTERM, signal.SIGINT])
def test_an_end_ends_all_that_runs_and_the_next_goes_on(folder: Path, program: str, number: Any) -> None:
    waits = script(folder, program, f'case $path in *7.ptu) echo $$ > {folder}/there; exec sleep 1000 ;; esac')
    words = [sys.executable, "-m", "ptulab", "count", folder / "plan.toml", *files_of(folder), "--processes", 2, "--program", waits, "-o", folder / "sum.txt"]
    running = subprocess.Popen(list(map(str, words)), env=made_environment(), stderr=subprocess.PIPE, start_new_session=True)
    until(lambda: (folder / "there").exists() and (folder / "there").read_text().endswith("\n"), "the last file")
    running.send_signal(number)
    assert b"Traceback" not in end_of(running, 2)[1]
    assert running.returncode == {signal.SIGKILL: -9, signal.SIGTERM: 143, signal.SIGINT: 130}[number]
    until(lambda: not Path(f"/proc/{int((folder / 'there').read_text())}").exists(), "the end of the run", 2)
    (folder / "7.ptu").unlink()
    assert command("count", folder / "plan.toml", *files_of(folder), "--processes", 2, "--program", waits, "-o", folder / "sum.txt").returncode == 3
    assert (folder / "sum.txt").read_text() == plain(folder, program, [0, 1, 2, 4, 6])


def test_what_is_no_regular_file_is_refused_at_once(folder: Path, program: str) -> None:
    os.mkfifo(folder / "a.ptu")
    (folder / "b.ptu").mkdir()
    (folder / "c.ptu").symlink_to("/dev/zero")
    (folder / "d.ptu").symlink_to("0.ptu")
    whole = count_files(folder / "plan.toml", files_of(folder), program=program)
    assert [Path(one.path).stem for one in whole.left if one.why == "it is no regular file"] == ["a", "b", "c"]
    assert str(folder / "d.ptu") in whole.added
    reports = sum_files(files_of(folder))
    assert [one.why for one in reports.left][-4:-1] == ["it is no regular file"] * 3


def test_a_file_that_grows_while_it_is_counted_is_left(folder: Path, program: str) -> None:
    grower = script(folder, program, 'case $path in *4.ptu) printf 1234 >> "$path" ;; esac')
    whole = count_files(folder / "plan.toml", files_of(folder), program=grower)
    assert [one.why for one in whole.left if one.path.endswith("4.ptu")] == ["it was changed while it was counted"]
    assert text_of(whole) == plain(folder, program, [0, 1, 2, 6, 7])


def test_a_cut_file_is_named(folder: Path, program: str) -> None:
    (folder / "6.ptu").write_bytes((folder / "6.ptu").read_bytes()[:-8])
    whole = count_files(folder / "plan.toml", files_of(folder), program=program)
    odd = str(folder / "6.ptu")
    assert whole.odd == ((odd, "the header announces 260 records, and there are 258: the file may be cut"),) and odd in whole.added


def test_a_program_that_can_not_run_is_told_before_a_file_is_counted(folder: Path, program: str) -> None:
    (folder / "none").write_bytes(b"\x7fELF of nothing")
    (folder / "none").chmod(0o755)
    with pytest.raises(PtulabError, match="the program can't be run|the program ends with"):
        count_files(folder / "plan.toml", files_of(folder), program=folder / "none")


def test_what_can_be_no_plan_is_refused_at_once(folder: Path, program: str) -> None:
    os.mkfifo(folder / "pipe.toml")
    (folder / "folder.toml").mkdir()
    (folder / "dangling.toml").symlink_to("nothing")
    (folder / "cut.toml").write_text(PLAN[:-9])
    wanted = {
        "pipe.toml": "it is no regular file",
        "folder.toml": "it is no regular file",
        "dangling.toml": "No such file or directory",
        "cut.toml": "plan is not TOML",
        "0.ptu": "plan is not TOML",
        "/dev/zero": "it is no regular file",
    }
    for name, why in wanted.items():
        said = command("count", folder / name, folder / "0.ptu", "--program", program, "-o", folder / "sum.txt", timeout=seconds(20))
        assert said.returncode == 1 and why in said.stderr and "Traceback" not in said.stderr, said.stderr
        assert not (folder / "sum.txt").exists() and not (folder / "sum.txt.lock").exists()


def test_a_process_that_was_lost_is_told(folder: Path, program: str) -> None:
    """Also one that ended between two chunks, and is asked for its sum, or for more."""
    engine = Processes(*work_of(folder, program), 1)
    engine.look()
    lane = engine.events.get(timeout=seconds(20)).lane
    assert lane is not None
    os.kill(engine.lanes[lane].child.pid, signal.SIGKILL)
    assert not list(engine.collect([lane]))
    assert engine.events.get(timeout=seconds(20)).lost == "the process that counted it ended (signal 9)"
    engine.start(lane, [(0, str(folder / "0.ptu"))], None)
    assert not engine.pending() and not list(engine.collect([lane]))
    engine.close()


class Future:
    """What dask promises."""

    def __init__(self, status: str, given: object = None) -> None:
        self.status, self.given = status, given

    def result(self, timeout: float) -> object:
        if self.status == "cancelled":
            raise concurrent.futures.CancelledError
        return self.given


class Client:
    """A client of dask with one worker, whose link is down: it is never told that a task isn't wanted."""

    status = "running"

    def __init__(self, *futures: Future) -> None:
        self.futures, self.is_up = list(futures), threading.Event()

    def nthreads(self) -> dict[str, int]:
        return {"tcp://one": 1}

    def submit(self, *words: object, **more: object) -> Future:
        return self.futures.pop(0)

    def cancel(self, futures: list[Future], **more: object) -> None:
        self.is_up.wait()


def test_a_check_that_is_lost_is_made_again_and_an_end_waits_for_no_link() -> None:
    pytest.importorskip("distributed", reason="python3-distributed isn't on this machine")
    client = Client(Future("cancelled"), Future("finished", ("one", 1)), Future("pending"), Future("pending"))
    engine = Dask(Work(None), None, client, 120)
    until(lambda: engine.there, "the worker")
    engine.look()
    assert engine.events.empty() and len(client.futures) == 3
    engine.look()
    lane = engine.events.get_nowait().lane
    assert lane is not None and lane.host == "one" and engine.events.empty()
    engine.threads[lane].value = Future("finished")
    begun = time.monotonic()
    engine.close()
    assert time.monotonic() - begun < seconds(2)
    client.is_up.set()


# ## Manifests


def manifest(folder: Path) -> Any:
    return [json.loads(line) for line in (folder / "sum.txt.jsonl").read_text().splitlines()]


def counting(folder: Path, program: str) -> Any:
    """A program that notes each file that it is asked for, and those that it was asked for so far."""
    noted = folder / "noted"
    noted.write_text("")
    return script(folder, program, f'[ -z "$3" ] || basename "$path" >> {noted}'), lambda: noted.read_text().split()


def test_a_run_counts_only_what_is_new(folder: Path, program: str) -> None:
    slow, asked = counting(folder, program)
    good = [path for path in files_of(folder) if path.stem not in "357"]
    count_files(folder / "plan.toml", good, program=slow, out=folder / "sum.txt")
    assert len(asked()) == 5
    whole = count_files(folder / "plan.toml", [*good, folder / "7.ptu"], program=slow, out=folder / "sum.txt")
    assert asked()[5:] == ["7.ptu"] and same(whole.report, wanted(folder, program))
    assert (folder / "sum.txt").read_text() == plain(folder, program, [0, 1, 2, 4, 6, 7])
    assert whole.report is not None
    curve, parts = whole.report.table("correlation"), [ptulab.run(folder / "plan.toml", path, program=program) for path in whole.added]
    assert curve.expected() == pytest.approx(sum(part.table("correlation").expected() for part in parts))
    lines = {line["file"]: line for line in manifest(folder) if "file" in line}
    assert [(line["announced"], line["records"], line["status"]) for line in lines.values()] == [(200 + 10 * n, 200 + 10 * n, 0) for n in (0, 1, 2, 4, 6, 7)]
    again = count_files(folder / "plan.toml", whole.added, program=slow, out=folder / "sum.txt")
    assert len(asked()) == 6 and again.added == whole.added and same(again.report, whole.report)


@pytest.mark.parametrize("change", ["plan", "program", "file", "fewer", "sum", "manifest", "lines"])
def test_what_is_not_as_it_was_is_counted_anew(folder: Path, program: str, change: Any) -> None:
    slow, asked = counting(folder, program)
    files = [folder / f"{number}.ptu" for number in (0, 1, 2)]
    count_files(folder / "plan.toml", files, program=slow, out=folder / "sum.txt")
    if change == "plan":
        (folder / "plan.toml").write_text(PLAN.replace("bins = 3", "bins = 4"))
    elif change == "program":
        slow.write_text(slow.read_text() + "\n")
    elif change == "file":
        made.write(files[1], "HydraHarp2T2", [(1, 1), (2, 2)], tick=1e-12)
    elif change == "fewer":
        del files[1]
    else:
        path = folder / ("sum.txt" if change == "sum" else "sum.txt.jsonl")
        text = path.read_text()
        path.write_text({"sum": text.replace("\n", " \n", 1), "manifest": "[1]\n", "lines": text.replace("{", "[", 2)}[change])
    whole = count_files(folder / "plan.toml", files, program=slow, out=folder / "sum.txt")
    assert len(asked()) == 3 + len(files) == 3 + len(whole.added)
    assert (folder / "sum.txt").read_text() == plain(folder, program, [path.stem for path in files])


def test_a_run_goes_on_from_what_was_collected(folder: Path, program: str) -> None:
    """It ends at its last file; a manifest that is cut anywhere does no harm."""
    waits = script(folder, program, "case $path in *7.ptu) sleep 1000 ;; esac")
    running = subprocess.Popen([sys.executable, "-c", SOON, folder, waits], env=made_environment(), start_new_session=True)
    until(lambda: (folder / "sum.txt.part").exists(), "what was collected")
    os.killpg(running.pid, signal.SIGKILL)
    running.wait()
    text = (folder / "sum.txt.jsonl").read_bytes()
    for size in (len(text), len(text) - 3, text.rindex(b'{"sum"'), 40, 0):
        (folder / "sum.txt.jsonl").write_bytes(text[:size] + b'{"file": "half')
        whole = count_files(folder / "plan.toml", files_of(folder), program=program, out=folder / "sum.txt")
        check(whole, folder, program)
        assert (folder / "sum.txt").read_text() == plain(folder, program, [0, 1, 2, 4, 6, 7])


SOON = """
import sys, pathlib
from ptulab import _hand_out, count_files
_hand_out.COLLECT = _hand_out.HOLD = 0.0
folder = pathlib.Path(sys.argv[1])
count_files(folder / "plan.toml", sorted(folder.glob("*.ptu")), program=sys.argv[2], processes=2, out=folder / "sum.txt")
"""


def test_the_lock_says_who_holds_it(folder: Path, program: str) -> None:
    (folder / "sum.txt.lock").write_text(json.dumps({"host": "another", "process": 7, "since": "then"}))
    said = command("count", folder / "plan.toml", folder / "0.ptu", "--program", program, "-o", folder / "sum.txt")
    assert said.returncode == 1
    assert said.stderr == f"ptulab: {folder}/sum.txt: process 7 on another makes it since then; once that has ended, remove {folder}/sum.txt.lock\n"
    os.utime(folder / "sum.txt.lock", (1, 1))  # a run renews it
    assert command("count", folder / "plan.toml", folder / "0.ptu", "--program", program, "-o", folder / "sum.txt").returncode == 0
    ended = subprocess.Popen(["true"])
    ended.wait()
    (folder / "sum.txt.lock").write_text(json.dumps({"host": socket.gethostname(), "process": ended.pid, "since": "then"}))
    assert command("count", folder / "plan.toml", folder / "0.ptu", "--program", program, "-o", folder / "sum.txt").returncode == 0
    assert not (folder / "sum.txt.lock").exists()


def test_a_lock_that_does_not_say_yet_who_holds_it(tmp_path: Path) -> None:
    """Between the moments in which it is made and written."""
    lock = tmp_path / "sum.txt.lock"
    lock.touch()
    writer = threading.Timer(0.2, lock.write_text, [json.dumps({"host": "another", "process": 7, "since": "then"})])
    writer.start()
    with pytest.raises(PtulabError, match="process 7 on another makes it since then"):
        Lock(str(tmp_path / "sum.txt"))
    writer.join()
    lock.write_text("")
    with pytest.raises(PtulabError, match="another run makes it; once that has ended"):
        Lock(str(tmp_path / "sum.txt"))


def test_one_of_several_takes_an_old_lock_over(tmp_path: Path) -> None:
    ended = subprocess.Popen(["true"])
    ended.wait()

    def take(path: str) -> Lock | str:
        all_are_here.wait()
        try:
            return Lock(path)
        except PtulabError as error:
            return str(error)

    with concurrent.futures.ThreadPoolExecutor(8) as pool:
        for _ in range(20):
            (tmp_path / "sum.txt.lock").write_text(json.dumps({"host": socket.gethostname(), "process": ended.pid, "since": "then"}))
            all_are_here = threading.Barrier(8)
            found = list(pool.map(take, [str(tmp_path / "sum.txt")] * 8))
            locks = [one for one in found if isinstance(one, Lock)]
            assert len(locks) == 1 and all("makes it" in one for one in found if isinstance(one, str))
            locks[0].close()
            assert not os.listdir(tmp_path)


@pytest.mark.parametrize("after", ["", "echo {} >"])
def test_a_run_whose_lock_was_taken_off_writes_nothing_more(folder: Path, program: str, after: str) -> None:
    """As one that was stopped for so long that another one took its lock over, which stays then."""
    lock = folder / "sum.txt.lock"
    thief = script(folder, program, f"case $path in *7.ptu) rm {lock}; {after and f'{after} {lock}'} ;; esac")
    with pytest.raises(PtulabError, match="was taken off meanwhile"):
        count_files(folder / "plan.toml", files_of(folder), program=thief, out=folder / "sum.txt")
    assert "7.ptu" not in (folder / "sum.txt.jsonl").read_text() and not (folder / "sum.txt").exists() and lock.exists() == bool(after)


# ## Progress


def test_lines_say_how_far_it_is(folder: Path, program: str, capsys: pytest.CaptureFixture[str], monkeypatch: pytest.MonkeyPatch) -> None:
    """Also while none is settled."""
    monkeypatch.setattr(_progress, "EVERY", 0.0)
    slow = script(folder, program, "case $path in *7.ptu) sleep 1 ;; esac")
    count_files(folder / "plan.toml", files_of(folder), program=slow, processes=1, progress=True)
    said = capsys.readouterr().err.splitlines()
    assert said[0].startswith("0 of 8 files") and said[-1].startswith("8 of 8 files, 0 of 0 MB, 2 left, the last ")
    assert len([line for line in said if line.startswith("7 of 8 files") and "to go" in line]) > 1


def test_a_bar_on_a_terminal(folder: Path, capsys: pytest.CaptureFixture[str], monkeypatch: pytest.MonkeyPatch) -> None:
    monkeypatch.setattr("sys.stderr.isatty", lambda: True, raising=False)
    paths = [str(folder / "0.ptu"), str(folder / "1.ptu")]
    shown = _progress.Progress(paths, True)
    shown.settled(File(paths[0], 0))
    shown.settled(File(paths[0], 0))
    shown.settled(File(paths[1], why="it is away"))
    shown.left_out("two", "it is slow")
    shown.look()
    shown.close()
    said = capsys.readouterr().err
    assert "two was left out: it is slow\n" in said
    assert "2 of 2 files, 1 left, the last" in said and "it is away" in said and "100%" in said


def test_without_dask_it_says_what_to_install(folder: Path, program: str, monkeypatch: pytest.MonkeyPatch) -> None:
    monkeypatch.setitem(cast(dict[str, Any], sys.modules), "distributed", None)
    client = type("Client", (), {"status": "running", "nthreads": lambda self: {}})()
    with pytest.raises(MissingLibraryError, match="python3-distributed"):
        count_files(folder / "plan.toml", files_of(folder), program=program, client=client)


def test_a_plan_that_is_refused_ends_it(folder: Path, program: str) -> None:
    (folder / "plan.toml").write_text("version = 3")
    with pytest.raises(RefusalError, match="rule 2"):
        count_files(folder / "plan.toml", files_of(folder), program=program)


def test_a_report_is_added_into_the_arrays_of_another(folder: Path, program: str) -> None:
    one, other = (ptulab.run(folder / "plan.toml", folder / f"{number}.ptu", program=program) for number in (0, 1))
    wanted, array = one + other, one.table("correlation").counts
    one += other
    assert same(one, wanted) and one.table("correlation").counts is array
    assert same(ptulab.run(folder / "plan.toml", folder / "2.ptu", program=program, whole=one), wanted + ptulab.run(folder / "plan.toml", folder / "2.ptu", program=program))


def test_a_plan_of_other_tables_leaves_a_report_as_it_is(folder: Path, program: str) -> None:
    one = ptulab.run(folder / "plan.toml", folder / "0.ptu", program=program)
    before = one + ptulab.run(folder / "plan.toml", folder / "0.ptu", program=program)
    text = (folder / "plan.toml").read_text()
    (folder / "more.toml").write_text(text.replace("bins = 1 }]", "bins = 1 }, { group = 1, width = 77, bins = 3 }]"))
    (folder / "bad.toml").write_text("order = 1" + text)
    with pytest.raises(UnlikeError):
        ptulab.run(folder / "more.toml", folder / "0.ptu", program=program, whole=one)
    with pytest.raises(RefusalError, match="rule 3"):
        ptulab.run(folder / "bad.toml", folder / "0.ptu", program=program, whole=one)
    assert same(one + ptulab.run(folder / "plan.toml", folder / "0.ptu", program=program), before)


def test_no_file_can_be_added(folder: Path, program: str) -> None:
    bad = folder / "3.ptu"
    whole = count_files(folder / "plan.toml", [bad, folder / "none.ptu"], program=program, progress=True)
    assert (whole.report, whole.added) == (None, ())
    assert [(one.status, one.why) for one in whole.left] == [(17, "3 bytes of a record at the end"), (None, "No such file or directory")]
    assert count_files(folder / "plan.toml", [], program=program).report is None


def test_files_of_the_other_mode_are_left(folder: Path, program: str) -> None:
    made.write(folder / "8.ptu", "HydraHarp2T3", [(5, 1, 7)])
    whole = count_files(folder / "plan.toml", [folder / "0.ptu", folder / "8.ptu"], program=program)
    assert [(one.status, one.why) for one in whole.left] == [(9, "startstop 1 does not suit T3")] and len(whole.added) == 1
    assert whole.report is not None and whole.report.head.first is None


def test_reports_on_disk_and_lines_of_refusals(folder: Path, program: str) -> None:
    reports = []
    for path in files_of(folder):
        out = path.with_suffix(".txt")
        reports.append(out)
        said = subprocess.run([program, "run", folder / "plan.toml", path], capture_output=True, check=False)
        out.write_bytes(said.stdout if said.returncode == 0 else b"refused %d %s" % (said.returncode, said.stderr))
    (folder / "cut.txt").write_bytes(reports[0].read_bytes()[:-5])
    whole = sum_files([*reports, folder / "cut.txt"], folder / "plan.toml")
    assert same(whole.report, wanted(folder, program)) and whole.report is not None
    assert whole.report.table("correlation").photons is not None
    assert [(one.path.rpartition("/")[2], one.status) for one in whole.left] == [("3.txt", 17), ("5.txt", None), ("cut.txt", None)]
    alone = sum_files([folder / "none.txt"])
    assert (alone.report, [one.why for one in alone.left]) == (None, ["No such file or directory"])
    by_processes = sum_files([*reports, folder / "cut.txt"], folder / "plan.toml", processes=2, out=folder / "sum.txt")
    assert by_processes.left == whole.left and same(by_processes.report, whole.report)
    assert (folder / "sum.txt").read_text() == plain(folder, program, [0, 1, 2, 4, 6, 7])


# The command, which tells the most memory that it had, and that a process of its own had, in MiB.
MEASURED = """
import os
import sys

from hosts import memory
from ptulab import _processes
from ptulab.__main__ import main

most, close = [], _processes._Process.close


def last(process):
    most.append(memory(process.child.pid, "VmHWM"))
    close(process)


_processes._Process.close = last
status = main()
print(memory(os.getpid(), "VmHWM"), max(most))
sys.exit(status)
"""


def test_the_memory_of_a_sum_is_that_of_some_reports(tmp_path: Path) -> None:
    """A process has two, the sum and the one that is read, and the command three at most, however many processes there are."""
    most = []
    for bins in (2, 32):
        report = cube_report(tmp_path / f"{bins}.txt", bins)
        words = [sys.executable, "-c", MEASURED, "sum", "--processes", "8", *[report] * 24, "-o", tmp_path / f"sum{bins}.txt"]
        paths = os.pathsep.join([made_environment()["PYTHONPATH"], str(Path(__file__).parent)])
        said = subprocess.run(list(map(str, words)), env=made_environment() | {"PYTHONPATH": paths}, capture_output=True, text=True, check=False)
        assert said.returncode == 0, said.stderr
        assert (tmp_path / f"sum{bins}.txt").read_text() == plain_sum([report.read_text()] * 24)
        most.append(tuple(map(int, said.stdout.split())))
    command, process = (after - before for before, after in zip(*most))
    assert 15 <= command < 3.5 * 15 and 15 <= process < 2.5 * 15, most


# What a worker of dask does: it counts three chunks, and adds a sum to its own that comes from another worker.
WORKER = """
import sys
from types import SimpleNamespace

import distributed
from distributed.protocol.core import dumps, loads
from distributed.protocol.serialize import to_serialize
from ptulab import _dask
from ptulab._parts import Part
from ptulab._work import Work

state = SimpleNamespace(tasks={"key": SimpleNamespace(state="executing")})
worker = SimpleNamespace(get_current_task=lambda: "key", state=state, status=SimpleNamespace(name="running"))
distributed.get_worker = lambda: worker
kept, copy = [], Part.copy


def hoard(part):
    kept[:] = []
    kept.append(copy(part))
    return copy(part)


def most(path):
    open("/proc/self/clear_refs", "w").write("5")  # VmHWM is that of now
    value = None
    for place in range(0, 6, 2):
        value = _dask._count(Work(None), value, [(place, path), (place + 1, path)], None)
    frames = dumps({"sum": to_serialize(_dask._count(Work(None), None, [(6, path)], None))})
    value = _dask._added(value, loads(list(map(bytes, frames)))["sum"])
    assert value.part.sums.popitem()[1][1] == list(range(7))
    return next(int(line.split()[1]) for line in open("/proc/self/status") if line.startswith("VmHWM")) >> 10


if sys.argv[3] == "4":
    Part.copy = hoard
before = most(sys.argv[1])
print(most(sys.argv[2]) - before)
"""


@pytest.mark.parametrize("arrays", [3, 4])
def test_a_worker_of_dask_has_three_reports(tmp_path: Path, arrays: int) -> None:
    """Also seen of one that has one more, which is too much."""
    pytest.importorskip("distributed", reason="python3-distributed isn't on this machine")
    reports = [cube_report(tmp_path / f"{bins}.txt", bins) for bins in (2, 128)]  # of 1 MiB and of 64
    said = subprocess.run([sys.executable, "-c", WORKER, *reports, str(arrays)], capture_output=True, text=True, env=made_environment(), check=False)
    assert said.returncode == 0, said.stderr
    assert 2.5 * 63 < int(said.stdout) < (arrays + 0.5) * 63 and (int(said.stdout) < 3.5 * 63) == (arrays == 3), said.stdout


def test_reports_of_other_tables_are_left(folder: Path, program: str) -> None:
    (folder / "other.toml").write_text("[[group]]\ninputs = [1]\n[[trace]]\ngroup = 1\nwidth = 7\nbins = 3\n")
    for name, plan, number in (("a", "plan", 0), ("b", "other", 0), ("c", "plan", 1)):
        write_report(ptulab.run(folder / f"{plan}.toml", folder / f"{number}.ptu", program=program), folder / f"{name}.txt")
    paths = [str(folder / f"{name}.txt") for name in "abc"]
    for given_plan, why in ((None, "other tables"), (folder / "plan.toml", "the plan has other tables than the report")):
        whole = sum_files(paths, given_plan)
        assert whole.left == (LeftFile(paths[1], None, why, socket.gethostname()),) and same(whole.report, sum_files(paths[::2], given_plan).report)


# ## Texts


@pytest.mark.parametrize(("plan", "data"), [("scan", "scan"), ("lifetimes", "scan"), ("bench", "bench")])
def test_a_report_is_written_as_the_program_prints_it(tmp_path: Path, ptu: Callable[..., Any], plan: Any, data: Any) -> None:
    text = ptu("run", EXAMPLES / f"{plan}.toml", EXAMPLES / f"{data}.ptu").stdout
    write_report(ptulab.read_report(text), tmp_path / "again.txt")
    assert (tmp_path / "again.txt").read_text() == text
    head = summed_head(ptulab.read_report(text).head)
    assert (head.first, head.last, head.photons) == (None, None, ptulab.read_report(text).head.photons)


def test_tables_of_pairs_and_folds_are_written_too(folder: Path, program: str, ptu: Callable[..., Any]) -> None:
    for text in (PLAN, "version = 2\ngroup = [{ inputs = [1] }, { inputs = [2] }]\nfold = [{ groups = [1, 2], window = 5 }]"):
        (folder / "plan.toml").write_text(text)
        said = ptu("run", folder / "plan.toml", folder / "0.ptu").stdout
        assert b"".join(report_lines(ptulab.read_report(said))).decode() == said


@given(st.integers(1, 4).flatmap(lambda number: st.lists(st.tuples(*[st.integers(0, 10**18) | st.integers(0, 11)] * number), max_size=20)))
def test_lines_of_numbers(lines: Any) -> None:
    columns = [np.array(column, dtype=np.int64) for column in zip(*lines)] or [np.zeros(0, dtype=np.int64)]
    wanted = "".join(" ".join(map(str, line)) + "\n" for line in lines).encode()
    assert lines_of(columns) == lines_of([column.astype(object) for column in columns]) == wanted


def test_great_counts_are_written_whole(tmp_path: Path, ptu: Callable[..., Any]) -> None:
    text = ptu("run", EXAMPLES / "bench.toml", EXAMPLES / "bench.ptu").stdout.replace("0 2 1\n", f"0 2 {1 << 90}\n")
    assert b"".join(report_lines(ptulab.read_report(text))).decode() == text


@pytest.mark.parametrize(
    ("plan", "least", "most"),
    [
        ("", 16, 16),
        ("cube = [{ group = 1, width = 512, height = 512, dwell = 20, line = 1, dwidth = 64, dbins = 64 }]", 128, 150),
        ("coincidence = [{ first = 1, second = 1, reach = 1048576, width = 1 }]", 56, 80),
        ("correlation = [{ first = 1, second = 1, lags = 128, levels = 40 }]", 16, 20),
        ("fold = [{ groups = [1, 2], window = 1048576 }]", 24, 50),
    ],
)
def test_the_memory_that_is_asked_for(tmp_path: Path, plan: Any, least: Any, most: Any) -> None:
    (tmp_path / "plan.toml").write_text("version = 2\ngroup = [{ inputs = [0] }, { inputs = [1] }]\n" + plan)
    assert least <= megabytes_of(tmp_path / "plan.toml") <= most


@pytest.mark.parametrize("plan", ["cube = 1", "cube = [{ group = 1 }]", "coincidence = [{ reach = 3, width = 0 }]", "fold = ["])
def test_no_memory_is_told_of_a_bad_plan(tmp_path: Path, plan: Any) -> None:
    (tmp_path / "plan.toml").write_text(plan)
    with pytest.raises(BadPlanError):
        megabytes_of(tmp_path / "plan.toml")


def test_the_memory_of_a_run_is_less(tmp_path: Path, program: str) -> None:
    (tmp_path / "plan.toml").write_text(
        "version = 2\ngroup = [{ inputs = [0] }]\n"
        "cube = [{ group = 1, width = 64, height = 64, dwell = 300, line = 1, frame = 2, stop = 3, dwidth = 1, dbins = 2000 }]"
    )
    limit = f"ulimit -v {megabytes_of(tmp_path / 'plan.toml') * 1024}; exec {program} run {tmp_path}/plan.toml {EXAMPLES}/scan.ptu"
    assert subprocess.run(["sh", "-c", limit], capture_output=True, check=False).returncode == 0


# ## The commands


def command(*words: Any, **more: Any) -> Any:
    return subprocess.run([sys.executable, "-m", "ptulab", *map(str, words)], capture_output=True, text=True, env=made_environment(), **more, check=False)


def made_environment() -> Any:
    return os.environ | {"PYTHONPATH": str(Path(ptulab.__file__).parents[1])}


def test_the_command_count(folder: Path, program: str) -> None:
    said = command("count", folder / "plan.toml", *files_of(folder), "--program", program, "--left", folder / "left", "--processes", 2)
    assert said.returncode == 3 and same(ptulab.read_report(said.stdout), wanted(folder, program))
    assert said.stderr.endswith((folder / "left").read_text()) and "3.ptu: not added: 3 bytes of a record" in said.stderr
    assert command("count", folder / "plan.toml", folder / "3.ptu", "--program", program).returncode == 4
    with open("/dev/full", "wb") as full:
        told = subprocess.run([sys.executable, "-m", "ptulab", "sum", folder / "none.txt", folder / "sum.txt"], stdout=full, stderr=subprocess.PIPE, env=made_environment(), check=False)
        assert told.returncode == 4
        (folder / "sum.txt").write_text(said.stdout)
        told = subprocess.run([sys.executable, "-m", "ptulab", "sum", folder / "sum.txt"], stdout=full, stderr=subprocess.PIPE, env=made_environment(), check=False)
        assert told.returncode == 1 and told.stderr.endswith(b"ptulab: [Errno 28] No space left on device\n")
    (folder / "list").write_text("".join(f"{path}\n" for path in files_of(folder)))
    ways: list[list[Any]] = [["--from", folder / "list", "--share", "1/4"], [*files_of(folder)[1::4]]]
    for words in ways:
        assert main(["count", str(folder / "plan.toml"), *map(str, words), "--program", program, "-o", str(folder / "out")]) == 3
        assert (folder / "out").read_text() == plain(folder, program, [1])
    for wrong in ("", f"{folder}/0.ptu --share 2/2"):
        with pytest.raises(SystemExit, match="2"):
            main(["count", str(folder / "plan.toml"), *wrong.split()])


def test_the_other_commands_in_this_process(folder: Path, program: str, capsys: pytest.CaptureFixture[str], monkeypatch: pytest.MonkeyPatch) -> None:
    monkeypatch.setenv("PTU", program)
    scan, plan = EXAMPLES / "scan.ptu", EXAMPLES / "scan.toml"
    report = ptulab.run(plan, scan, program=program)
    write_report(report, folder / "scan.txt")
    assert main(["sum", str(folder / "scan.txt"), str(folder / "scan.txt"), "-o", str(folder / "sum.txt")]) == 0
    assert ptulab.read_report(folder / "sum.txt").head.photons == 2 * 97492
    assert main(["page", str(folder / "scan.txt"), "--plan", str(plan), "--file", "scan.ptu", "--program", program]) == 0
    assert "Report of scan.ptu" in (folder / "scan.html").read_text(encoding="utf-8")
    assert main(["plan", str(scan), "-o", str(folder / "proposed.toml")]) == 0
    assert main(["plan", str(scan)]) == 0
    assert capsys.readouterr().out == (folder / "proposed.toml").read_text()
    assert main(["check", str(folder / "proposed.toml"), str(scan)]) == 0
    assert capsys.readouterr().out == f"{folder}/proposed.toml: good\n"
    assert main(["check", str(EXAMPLES / "broken.toml")]) == 1
    assert capsys.readouterr().out.startswith("refused: group 2: gate = [5, 5] isn't two whole numbers")
    assert main(["check", str(EXAMPLES / "bench.toml"), str(scan)]) == 0
    assert "warning: group 2: input 1 doesn't occur" in capsys.readouterr().out
    assert main(["count", str(EXAMPLES / "broken.toml"), str(scan)]) == 1
    assert "breaks rule 10" in capsys.readouterr().err
    assert main(["page", str(folder / "none.txt")]) == 1 and main(["plan", str(folder / "plan.toml")]) == 1
    assert "No such file" in capsys.readouterr().err


def test_words_that_are_no_command(capsys: pytest.CaptureFixture[str]) -> None:
    assert main([]) == 2 and main(["paint"]) == 2 and main(["--help"]) == 0
    assert "\n    export " in capsys.readouterr().out
    with pytest.raises(SystemExit):
        main(["page", "-"])


def test_a_page_of_standard_input(folder: Path, program: str) -> None:
    text = subprocess.run([program, "run", EXAMPLES / "bench.toml", EXAMPLES / "bench.ptu"], capture_output=True, text=True, check=False).stdout
    assert command("page", "-", "-o", folder / "page.html", input=text).returncode == 0
    assert (folder / "page.html").stat().st_size > 1_000_000
    said = command("page", "-", "-o", folder / "other.html", input="no report\n")
    assert said.returncode == 1 and said.stderr.startswith("ptulab: ") and not (folder / "other.html").exists()
    assert issubclass(RefusalError, PtulabError)
