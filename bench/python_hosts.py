#!/usr/bin/env python3
"""Measures many files on three hosts of their own: python_hosts.py PROGRAM [speed | cubes | here | more] ..

Needs root: the hosts are network namespaces with a worker of dask each (python/tests/hosts.py). With no word all are measured:

    speed   2,000 files of 10,000 records by three workers, and in turn by three processes with a third of the files each
    cubes   10,000 reports of a cube of 256 by 256 pixels with 32 bins, of which some 100,000 cells aren't 0, added up by
            three workers; 20 are distinct, the others are links to them. The most memory of the client and of the workers
    here    10,000 such reports, of which 4,096 cells aren't 0, each on a page of memory of its own, by twelve processes here
    more    one file of two million records and such a cube that is added to a finished sum of four, and in turn that file alone

Each sum is compared with one that is made without dask. -n says how many files or reports there are at most. It prints a
line for each, with the load.
"""

import argparse
import contextlib
import os
import random
import resource
import shutil
import struct
import subprocess
import sys
import tempfile
import time
from collections.abc import Callable
from pathlib import Path
from typing import Any

ROOT = Path(__file__).resolve().parent.parent
sys.path[:0] = [str(ROOT / "python" / "src"), str(ROOT / "python" / "tests")]

import made  # noqa: E402
import numpy as np  # noqa: E402
from hosts import PACKAGE, Cluster, children_of, cluster, memory, until  # noqa: E402
from numpy.typing import NDArray  # noqa: E402

import ptulab  # noqa: E402

PLAN = """group = [{ inputs = [1] }, { inputs = [2] }]
trace = [{ group = 1, width = 1000000, bins = 100 }]
correlation = [{ first = 1, second = 2, lags = 16, levels = 16 }]
"""
CUBE = """version = 2
group = [{ inputs = [1] }]
cube = [{ group = 1, width = 256, height = 256, dwell = 8, line = 1, dwidth = 4, dbins = 32 }]
"""


Counts = NDArray[Any]
CELLS = 256 * 256 * 32
DISTINCT = 20  # reports of a cube; all others are links to these
TIMES = 5  # that each of two ways is measured, in turn


def command(*words: object) -> float:
    """Runs ptulab here; gives the seconds."""
    began = time.monotonic()
    said = subprocess.run([sys.executable, "-m", "ptulab", *map(str, words)], env=os.environ | {"PYTHONPATH": PACKAGE}, capture_output=True, text=True, check=False)
    if said.returncode not in (0, 3):
        sys.exit(said.stderr)
    return time.monotonic() - began


def same(one: Path, other: Path) -> None:
    assert one.read_bytes() == other.read_bytes(), f"{one} isn't {other}"


def by_hosts(hosts: Cluster, name: str, *words: object) -> float:
    """Runs it on the host of the commands; gives the seconds."""
    began = time.monotonic()
    running = hosts.start(name, *words, "--patience", "600")
    said = running.communicate()[1]
    if running.returncode != 0:
        sys.exit(said)
    return time.monotonic() - began


def processor(process: int) -> float:
    """The seconds that a process used of processors."""
    fields = Path(f"/proc/{process}/stat").read_text("utf-8").rpartition(")")[2].split()
    return (int(fields[11]) + int(fields[12])) / os.sysconf("SC_CLK_TCK")


def speed(folder: Path, hosts: Cluster, program: str, number: int) -> None:
    draws = random.Random(1)
    names = []
    for file in range(8):
        times = sorted(draws.sample(range(100_000_000), 10_000))
        names.append(made.write(folder / f"{file}.ptu", "HydraHarp2T2", [(at, draws.randint(1, 2)) for at in times]))
    (folder / "data").mkdir()
    for file in range(min(number, 2000)):
        os.link(names[file % 8], folder / "data" / f"{file:04}.ptu")
    (folder / "plan.toml").write_text(PLAN)
    files = sorted((folder / "data").iterdir())
    (folder / "files").write_text("".join(f"{path}\n" for path in files))
    words = [folder / "plan.toml", "--from", folder / "files", "--program", program]
    alone, took = [], []
    for again in range(TIMES):
        parts = [folder / f"{again}.{share}.txt" for share in range(3)]
        began = time.monotonic()
        shares = [[sys.executable, "-m", "ptulab", "count", *words, "--processes", "1", "--share", f"{share}/3", "-o", part] for share, part in enumerate(parts)]
        running = [subprocess.Popen(list(map(str, one)), env=os.environ | {"PYTHONPATH": PACKAGE}) for one in shares]
        assert [one.wait() for one in running] == [0, 0, 0]
        alone.append(time.monotonic() - began)
        took.append(by_hosts(hosts, "count", *words, "-o", folder / f"{again}.txt"))
        command("sum", *parts, "-o", folder / "sum.txt")
        same(folder / f"{again}.txt", folder / "sum.txt")
    print(f"speed: {len(files)} files, the least of {TIMES}: three processes {min(alone):.1f} s, ", end="")
    print(f"three hosts {min(took):.1f} s: {min(alone) / min(took):.2f} of the speed", end="")


def cube_report(path: Path, seed: int, each: int) -> None:
    """A report of a cube in which one of so many cells isn't 0."""
    draws = random.Random(seed)
    cells = [min(at + draws.randrange(each), CELLS - 1) for at in range(0, CELLS, each)]
    lines = [f"{cell // 32 % 256} {cell // 8192} {cell % 32} {draws.randint(1, 9)}\n" for cell in cells]
    photons = sum(int(line.split()[3]) for line in lines)
    head = "type HydraHarp2T3\nannounced -\nglobal -\nresolution -\n" + f"records {photons}\nphotons {photons}\n"
    head += "markers 0\nwraps 0\nreserved 0\nlate 0\nfirst 0\nlast 9\ncube 1 width 256 height 256 dwell 8 dwidth 4 dbins 32\n"
    path.write_text(head + "".join(lines) + "outside 0\nover 0\n")


def cube_reports(folder: Path, number: int, each: int) -> tuple[list[Path], int, Counts]:
    """The paths of so many reports, which a list has too; their bytes; and their sum."""
    (folder / "reports").mkdir()
    paths = [folder / "reports" / f"{file:05}.txt" for file in range(number)]
    size, cells = 0, np.zeros((256, 256, 32), np.int64)
    for file in range(DISTINCT):
        cube_report(folder / f"{file}.txt", file, each)
        for path in paths[file::DISTINCT]:
            os.link(folder / f"{file}.txt", path)
        cells = cells + ptulab.read_report(folder / f"{file}.txt").tables[0].counts * len(paths[file::DISTINCT])
        size += (folder / f"{file}.txt").stat().st_size * len(paths[file::DISTINCT])
    (folder / "reports.list").write_text("".join(f"{path}\n" for path in paths))
    return paths, size, cells


def is_sum(path: Path, cells: Counts) -> None:
    """Checks the sum of such reports."""
    whole = ptulab.read_report(path)
    assert (whole.tables[0].counts == cells).all() and whole.head.photons == cells.sum()


def cubes(folder: Path, hosts: Cluster, program: str, number: int) -> None:
    paths, size, cells = cube_reports(folder, min(number, 10_000), 21)
    by_hosts(hosts, "sum", *paths[:9])  # the libraries are there now
    hosts.mend()
    workers = list(map(hosts.worker, hosts.workers))
    before, used = list(map(memory, workers)), sum(map(processor, workers))
    took = by_hosts(hosts, "sum", "--from", folder / "reports.list", "-o", folder / "cubes.txt")
    after, used = [memory(worker, "VmHWM") for worker in workers], sum(map(processor, workers)) - used
    scheduler = max(memory(process, "VmHWM") for process in hosts.boss.processes())
    client = resource.getrusage(resource.RUSAGE_CHILDREN).ru_maxrss >> 10
    is_sum(folder / "cubes.txt", cells)
    print(f"cubes: {len(paths)} reports, {size / 1e9:.1f} GB, in {took:.0f} s, {used:.0f} s of the workers' processors; ", end="")
    print(f"a cube has {cells.nbytes >> 20} MiB, the command had at most {client}, the scheduler {scheduler}, and the workers {after}, after {before} before", end="")


def here(folder: Path, hosts: Cluster, program: str, number: int) -> None:
    paths, size, cells = cube_reports(folder, min(number, 10_000), 512)
    words = [sys.executable, "-m", "ptulab", "sum", "--processes", "12", "--from", folder / "reports.list", "-o", folder / "here.txt"]
    began = time.monotonic()
    most: dict[int, int] = {}
    used: dict[int, float] = {}
    environment = os.environ | {"PYTHONPATH": PACKAGE}
    with subprocess.Popen(list(map(str, words)), env=environment) as running:
        while running.poll() is None:
            for process in [running.pid, *children_of(running.pid)]:
                most[process] = max(most.get(process, 0), memory(process, "VmHWM"))
                with contextlib.suppress(OSError):
                    used[process] = processor(process)
            time.sleep(0.1)
    took = time.monotonic() - began
    is_sum(folder / "here.txt", cells)
    print(f"here: {len(paths)} reports, {size / 1e9:.1f} GB, in {took:.0f} s, {sum(used.values()):.0f} s of processors; ", end="")
    print(f"a cube has {cells.nbytes >> 20} MiB, the command had at most {most.pop(running.pid)}, and a process {max(most.values())}", end="")


def scan_file(path: Path, seed: int, photons: int) -> None:
    """A scan of 256 lines with photons anywhere."""
    draws = random.Random(seed)
    each = photons // 256
    words = []
    for _ in range(256):
        words.append(1 << 31 | 1 << 25 | 1000)  # a marker begins the line
        words += [1 << 25 | draws.randrange(128) << 10 | min(1023, 1001 + photon) for photon in range(20)]
        words += [0xFE000001]
        for _ in range(each // 800):
            words += [1 << 25 | draws.randrange(128) << 10 | at for at in sorted(draws.choices(range(1000), k=800))]
            words.append(0xFE000001)
    path.write_bytes(made.header("HydraHarp2T3", announced=len(words)) + struct.pack(f"<{len(words)}I", *words))


def more(folder: Path, hosts: Cluster, program: str, number: int) -> None:
    (folder / "scans").mkdir()
    for file in range(5):
        scan_file(folder / "scans" / f"{file}.ptu", file, 2_000_000)
    files = sorted((folder / "scans").iterdir())
    (folder / "cube.toml").write_text(CUBE)
    words = ["count", folder / "cube.toml", "--program", program]
    command(*words, *files[:4], "-o", folder / "four.txt")
    own, took = [], []
    for again in range(TIMES):
        for end in ("", ".jsonl"):
            shutil.copy(folder / f"four.txt{end}", folder / f"more{again}.txt{end}")
        (folder / f"more{again}.txt.jsonl").write_text((folder / "four.txt.jsonl").read_text().replace("four.txt", f"more{again}.txt"))
        own.append(command(*words, files[4], "-o", folder / f"own{again}.txt"))
        took.append(command(*words, *files, "-o", folder / f"more{again}.txt"))
        assert len((folder / f"more{again}.txt.jsonl").read_text().splitlines()) == 8  # no other file was counted
    command(*words, *files, "-o", folder / "five.txt")
    same(folder / "more0.txt", folder / "five.txt")
    print(f"more: a file alone takes {min(own):.2f} s, and added to a finished sum {min(took):.2f} s: {min(took) / min(own):.2f} times", end="")


MEASURES: dict[str, Callable[[Path, Cluster, str, int], None]] = {"speed": speed, "cubes": cubes, "here": here, "more": more}


def main() -> None:
    parser = argparse.ArgumentParser(description="Measures many files on three hosts of their own.")
    parser.add_argument("program")
    parser.add_argument("what", nargs="*", metavar="speed | cubes | here | more")
    parser.add_argument("-n", type=int, default=10_000, metavar="FILES")
    parser.add_argument("-d", default="/tmp", metavar="FOLDER")
    given = parser.parse_intermixed_args()
    for name in given.what or MEASURES:
        with tempfile.TemporaryDirectory(dir=given.d) as place, cluster(Path(place), os.environ | {"PYTHONPATH": PACKAGE}) as hosts:
            until(hosts.is_ready, "three workers", 600)
            MEASURES[name](Path(place), hosts, os.path.abspath(given.program), given.n)
            print(f"; load {os.getloadavg()[0]:.1f}", flush=True)


if __name__ == "__main__":
    main()
