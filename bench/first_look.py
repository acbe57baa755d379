#!/usr/bin/env python3
"""Measures the first look of the window: first_look.py [OPTION ..]

    -m MEGABYTES  of the file, 100 by default; it may be given more than once
    -t TIMES      how often each is looked at, 3 by default; the least seconds and the most memory are printed
    -r TYPE       record type, HydraHarp2T3 by default; it may be given more than once
    -p PROGRAM    the program, by default that of PTU, or the one of this tree
    -d FOLDER     where the files stand for that time, /tmp by default

A row has the seconds by the clock from the request to its last line, those of the processor, how many lines on progress came,
and the most memory that server, work and programs held together, each shared page in parts (PSS). With other work on the machine
the seconds of the processor count; the load is printed. It needs what `ptulab app` needs, python3-httpx and g++.
"""

import argparse
import json
import os
import subprocess
import sys
import tempfile
import threading
import time
from collections.abc import Iterator
from contextlib import contextmanager, suppress
from pathlib import Path

import httpx

BENCH = Path(__file__).resolve().parent
SOURCE = BENCH.parent / "python" / "src"
EVERY = 0.02  # seconds between two looks at the processes
TICKS = os.sysconf("SC_CLK_TCK")


def family(process: int) -> Iterator[int]:
    """A process and all below it."""
    yield process
    with suppress(OSError):
        for task in Path(f"/proc/{process}/task").iterdir():
            for child in (task / "children").read_text("ascii").split():
                yield from family(int(child))


class Watch:
    """The processor's seconds and the memory of a process and all below it, seen again and again."""

    def __init__(self, process: int) -> None:
        self.process, self.most, self.seconds = process, 0, dict[int, float]()
        self.ended = threading.Event()
        self.thread = threading.Thread(target=self.watch, daemon=True)
        self.thread.start()

    def watch(self) -> None:
        while not self.ended.wait(EVERY):
            held = 0
            for process in family(self.process):
                with suppress(OSError, IndexError, StopIteration):
                    numbers = Path(f"/proc/{process}/stat").read_text("ascii").rsplit(")", 1)[1].split()
                    self.seconds[process] = sum(map(int, numbers[11:13])) / TICKS
                    lines = Path(f"/proc/{process}/smaps_rollup").read_text("ascii").splitlines()
                    held += 1024 * int(next(line for line in lines if line.startswith("Pss:")).split()[1])
            self.most = max(self.most, held)

    def end(self) -> None:
        self.ended.set()
        self.thread.join()


@contextmanager
def served(folder: Path, program: str) -> Iterator[tuple[int, httpx.Client]]:
    """A server of a folder, and who may ask it."""
    words = [sys.executable, "-m", "ptulab", "app", str(folder), "--no-browser", "--program", program]
    with subprocess.Popen(words, stderr=subprocess.PIPE, text=True, env=os.environ | {"PYTHONPATH": str(SOURCE)}) as child:
        assert child.stderr is not None
        address = child.stderr.readline().split()[-1]
        origin = address.split("/?")[0]
        with httpx.Client(base_url=origin, verify=False, headers={"origin": origin}, timeout=600) as client:
            client.get(address)
            yield child.pid, client
        child.terminate()


def looked(process: int, client: httpx.Client, name: str) -> tuple[float, float, int, int]:
    """Seconds by the clock and of the processor, lines on progress, and bytes of memory of one look."""
    watch, before = Watch(process), time.monotonic()
    time.sleep(5 * EVERY)
    first = sum(watch.seconds.values())
    begin, lines = time.monotonic(), 0
    with client.stream("POST", "/api/look", content=json.dumps({"file": name})) as answer:
        last = b""
        for some in answer.iter_bytes():
            lines += some.count(b'"progress"')
            last = (last + some)[-(1 << 16) :]
    assert before and b'"error"' not in last.rsplit(b"\n", 3)[-3][:20], last[-300:]
    seconds = time.monotonic() - begin
    watch.end()
    return seconds, sum(watch.seconds.values()) - first, lines, watch.most


def main() -> None:
    parser = argparse.ArgumentParser(description="Measures the first look of the window.")
    parser.add_argument("-m", type=int, action="append", dest="megabytes")
    parser.add_argument("-t", type=int, default=3, dest="times")
    parser.add_argument("-r", action="append", dest="types")
    parser.add_argument("-p", default=os.environ.get("PTU"), dest="program")
    parser.add_argument("-d", default="/tmp", dest="folder")
    given = parser.parse_args()
    program = given.program or subprocess.run([BENCH.parent / "ptu", "--path"], stdout=subprocess.PIPE, text=True, check=True).stdout.strip()
    with tempfile.TemporaryDirectory(dir=given.folder) as work:
        subprocess.run(["g++", "-O2", "-std=c++17", "-o", f"{work}/make", BENCH / "make.cpp"], check=True)
        folder = Path(work, "files")
        folder.mkdir()
        print(f"load {os.getloadavg()[0]:.1f}\n{'type':16} {'MB':>6} {'seconds':>8} {'of the processor':>17} {'progress':>9} {'memory (MB)':>12}")
        with served(folder, program) as (process, client):
            for kind in given.types or ["HydraHarp2T3"]:
                for megabytes in given.megabytes or [100]:
                    path = folder / f"{kind}.ptu"
                    subprocess.run([f"{work}/make", kind, str(250_000 * megabytes), path], check=True)
                    rows = [looked(process, client, path.name) for _ in range(given.times)]
                    (seconds, processor, lines), most = map(min, list(zip(*rows))[:3]), max(row[3] for row in rows)
                    print(f"{kind:16} {megabytes:6} {seconds:8.2f} {processor:17.2f} {lines:9} {most / 1e6:12.0f}", flush=True)
                    path.unlink()


if __name__ == "__main__":
    main()
