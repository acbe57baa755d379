#!/usr/bin/env python3
"""Measures how long the Python package reads, beside the program that counts: python_reading.py [OPTION ..]

    -n RECORDS    of the large files, 20000000 by default; the twenty small ones have a quarter of that each
    -t TIMES      how often each is measured, 3 by default; the least seconds are printed, and the most memory
    -o REGEX      only the tasks whose names match
    -p PROGRAM    the program, by default that of PTU, out/ptu of this tree, or ptu
    -d FOLDER     where the files stand for that time, /tmp by default; they take some 1.3 GB

Each task is a process of its own. A row has its seconds by the clock and those of the processor, how many million
records that is a second of the processor, the most memory that it held at a time, the mapped file with it, and what the
scripts took before the package was there. The files are made by make.cpp and make_shaped.cpp. With other work on the machine the seconds of the processor count; the
load is printed. It needs NumPy and g++.
"""

import argparse
import os
import re
import shutil
import subprocess
import sys
import tempfile
import time
from collections.abc import Callable
from pathlib import Path

BENCH = Path(__file__).resolve().parent
SOURCE = BENCH.parent / "python" / "src"
FILES = 20  # small ones
EVENTS = ("HydraHarp2T3", "HydraHarp2T2", "PicoHarpT3")  # record types whose events are read

TASKS: dict[str, Callable[..., object]] = {}  # what a process of Python does with paths; the name is that of the row


def task(function: Callable[..., object]) -> Callable[..., object]:
    TASKS[function.__name__] = function
    return function


@task
def only_import(*paths: str) -> None:
    import ptulab

    assert ptulab.__all__


@task
def read_report(path: str) -> None:
    import ptulab

    table = ptulab.read_report(path).table("cube")
    assert table.counts.any()


@task
def run(plan: str, path: str) -> None:
    import ptulab

    assert ptulab.run(plan, path).table("cube").counts.any()


@task
def sum_reports(*paths: str) -> None:
    import ptulab

    assert ptulab.sum_reports(paths).head.records > 0


@task
def read_events(path: str) -> None:
    import ptulab

    assert len(ptulab.read_events(path))


@task
def iter_events(path: str) -> None:
    import ptulab

    assert sum(len(piece) for piece in ptulab.iter_events(path))


@task
def image(path: str) -> None:
    from ptulab import scans

    assert scans.image(path, scans.Scan(512, 512, line=1, frame=2, stop=3)).counts.any()


@task
def cube(path: str) -> None:
    from ptulab import scans

    assert scans.cube(path, scans.Scan(512, 512, line=1, frame=2, stop=3), 64, 64).counts.any()


@task
def coincidences(path: str) -> None:
    from ptulab import antibunching

    assert antibunching.coincidences(path, 0, 1, 10).counts.any()


@task
def correlation_by_segments(path: str) -> None:
    from ptulab import segments

    assert len(segments.correlation_by_segments(path, 0, 1, levels=14).values)


@task
def find_bursts(path: str) -> None:
    from ptulab import bursts, groups

    assert bursts.find_bursts(groups.photons_of(path)["time"], 1.0, minimum=20).dtype == bursts.BURST


class Measured:
    """The least seconds, and the most memory, of some runs of a command."""

    def __init__(self, words: list[str], times: int, output: str = os.devnull) -> None:
        self.wall = self.processor = float("inf")
        self.memory = 0.0
        for _ in range(times):
            with open(output, "wb") as out:
                began = time.perf_counter()
                child = subprocess.Popen(words, stdout=out)
                _, status, used = os.wait4(child.pid, 0)
                wall = time.perf_counter() - began
            child.returncode = os.waitstatus_to_exitcode(status)
            if child.returncode != 0:
                sys.exit(f"{' '.join(words)}: ended with {child.returncode}")
            self.wall = min(self.wall, wall)
            self.processor = min(self.processor, used.ru_utime + used.ru_stime)
            self.memory = max(self.memory, used.ru_maxrss / 1024)


def show(name: str, what: str, one: Measured, records: int, before: str = "") -> None:
    rate = f"{records / one.processor / 1e6:8.1f}" if records else "       -"
    told = f"{one.wall:7.2f} | {one.processor:9.2f} | {rate} | {one.memory:6.0f} | {before}"
    print(f"| {name:<34} | {what:<14} | {told} |", flush=True)


class Bench:
    """The files of a folder, and what is measured of them."""

    def __init__(self, given: argparse.Namespace, folder: Path) -> None:
        self.given, self.folder = given, folder
        os.environ["PTU"] = given.p
        os.environ["PYTHONPATH"] = str(SOURCE)
        self.made: dict[str, Path] = {}

    def file(self, kind: str, records: int) -> str:
        """A file of this shape or record type, with as many records."""
        name = f"{kind}_{records}.ptu"
        if name not in self.made:
            maker = "make_shaped" if kind == "scan" else "make"
            subprocess.run([self.folder / maker, kind, str(records), self.folder / name], check=True)
            self.made[name] = self.folder / name
        return str(self.made[name])

    def program(self, name: str, records: int, words: list[str], output: str = os.devnull, many: int = 1) -> None:
        one = Measured([self.given.p, *words], self.given.t, output)
        one.wall, one.processor = many * one.wall, many * one.processor
        show(name, f"ptu {words[0]}", one, many * records)

    def python(self, name: str, records: int, what: str, *paths: str, before: str = "") -> None:
        one = Measured([sys.executable, __file__, "--task", what, *paths], self.given.t)
        show(name, what, one, records, before)

    def import_alone(self) -> None:
        self.python("the package alone", 0, "only_import")

    def lifetimes(self) -> None:
        records, plan = self.given.n, str(BENCH / "cube.toml")
        path, report = self.file("scan", records), str(self.folder / "report.txt")
        name = f"image with lifetimes, {records / 1e6:g} M"
        self.program(name, records, ["run", plan, path], report)
        self.python(name, records, "read_report", report, before="20.8 s, 2.0 GB")
        self.python(name, records, "run", plan, path)
        self.python(f"four of them, {4 * records / 1e6:g} M", 4 * records, "sum_reports", *[report] * 4)

    def sums(self) -> None:
        records, plan = self.given.n // 4, str(BENCH / "cube.toml")
        path, report = self.file("scan", records), str(self.folder / "report.txt")
        name = f"{FILES} files, {FILES * records / 1e6:g} M"
        self.program(name, records, ["run", plan, path], report, FILES)
        self.python(name, FILES * records, "sum_reports", *[report] * FILES, before="21 to 24 s, 1.27 GB")

    def events(self) -> None:
        for kind in EVENTS:
            path, name = self.file(kind, self.given.n), f"events of {kind}, {self.given.n / 1e6:g} M"
            self.program(name, self.given.n, ["events", path])
            self.python(name, self.given.n, "read_events", path, before="3.8 M photons 8.2 s, 1.19 GB")
            self.python(name, self.given.n, "iter_events", path)
            self.made.pop(Path(path).name).unlink()

    def beyond(self) -> None:
        """What a plan can't ask, by the path of a scan."""
        records, path = self.given.n, self.file("scan", self.given.n)
        for what in ("image", "cube", "coincidences", "correlation_by_segments", "find_bursts"):
            self.python(f"beyond the plan, {records / 1e6:g} M", records, what, path)


def options() -> argparse.Namespace:
    built = BENCH.parent / "out" / "ptu"
    program = os.environ.get("PTU") or (str(built) if built.is_file() else shutil.which("ptu") or "ptu")
    parser = argparse.ArgumentParser(description="Measures how long the Python package reads, beside the program.")
    parser.add_argument("-n", type=int, default=20_000_000, metavar="RECORDS")
    parser.add_argument("-t", type=int, default=3, metavar="TIMES")
    parser.add_argument("-o", default="", metavar="REGEX", help="of import_alone, lifetimes, sums, events, beyond")
    parser.add_argument("-p", default=program, metavar="PROGRAM")
    parser.add_argument("-d", default="/tmp", metavar="FOLDER")
    return parser.parse_args()


def main() -> None:
    if sys.argv[1:2] == ["--task"]:
        TASKS[sys.argv[2]](*sys.argv[3:])
        return
    given = options()
    with tempfile.TemporaryDirectory(dir=given.d) as name:
        for maker in ("make", "make_shaped"):
            subprocess.run(["g++", "-std=c++17", "-O2", "-o", Path(name, maker), BENCH / f"{maker}.cpp"], check=True)
        bench = Bench(given, Path(name))
        print(f"load {os.getloadavg()[0]:.1f}, least of {given.t}")
        print("| task, records                      | by             | seconds | processor | M/s      |    MiB | before |")
        print("|---|---|---|---|---|---|---|")
        for measure in (bench.import_alone, bench.lifetimes, bench.sums, bench.events, bench.beyond):
            if re.search(given.o, measure.__name__):
                measure()
        print(f"load {os.getloadavg()[0]:.1f}")


if __name__ == "__main__":
    main()
