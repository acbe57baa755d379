#!/usr/bin/env python3
"""Measures the ten tasks of docs/python.md, each by the lines that stand there: python_tasks.py [OPTION ..]

    -n RECORDS    of the large file, 20000000 by default; each of the twenty files has a quarter of that
    -t TIMES      how often each is measured, 3 by default; the least seconds are printed, and the most memory
    -o REGEX      only the tasks whose titles match
    -d FOLDER     where the files stand for that time, /tmp by default; they take some 200 MB

A task is the first block of Python below its title, run as a process of its own, so the start of Python and of its libraries
counts. In the folder FILE is a scan of 512 by 512 pixels (make_shaped.cpp), PLAN and plan.toml ask for a cube of its lifetimes
(cube.toml), data has twenty files, and the samples of examples/make_samples.py are there. A row has the lines of the task, its
seconds by the clock and those of the processors, with those of the programs that it starts, and the most memory of a process.
With other work on the machine the seconds of the processors count; the load is printed. It needs all libraries of the package,
g++ and the program, which is that of PTU, out/ptu of this tree, or ptu.
"""

import argparse
import os
import re
import subprocess
import sys
import tempfile
import time
from pathlib import Path
from typing import Any

BENCH = Path(__file__).resolve().parent
ROOT = BENCH.parent
FILES, MOST_LINES = 20, 5
TITLES = (
    "An image with lifetimes",
    "Many files",
    "Events of a file",
    "Images of pixels of any time",
    "Pulsed antibunching",
    "Correlations with error bars",
    "Decays",
    "Bursts",
    "Plans",
    "A page",
)


def block_of(title: Any) -> Any:
    """The first block of Python below a title of docs/python.md."""
    text = (ROOT / "docs" / "python.md").read_text(encoding="utf-8")
    found = re.search(rf"^##+ {re.escape(title)}\n.*?^```python\n(.*?)^```$", text, flags=re.M | re.S)
    if not found:
        sys.exit(f"docs/python.md has no block below {title}")
    return found[1]


def lines_of(block: Any) -> Any:
    """The lines of a task; blank ones, remarks and the line that imports don't count."""
    return [line for line in block.splitlines() if line and not line.startswith(("#", "import ", "from "))]


def furnish(folder: Path, records: Any) -> None:
    """Puts into a folder what the blocks speak of."""
    subprocess.run(["g++", "-std=c++17", "-O2", "-o", folder / "make_shaped", BENCH / "make_shaped.cpp"], check=True)
    subprocess.run([folder / "make_shaped", "scan", str(records), folder / "FILE"], check=True)
    subprocess.run([folder / "make_shaped", "scan", str(records // 4), folder / "small.ptu"], check=True)
    (folder / "data").mkdir()
    for number in range(FILES):
        os.link(folder / "small.ptu", folder / "data" / f"{number:02}.ptu")
    for name in ("PLAN", "plan.toml"):
        (folder / name).symlink_to(BENCH / "cube.toml")
    subprocess.run([sys.executable, ROOT / "examples" / "make_samples.py", folder], check=True)


def measured(block: Any, folder: Path) -> Any:
    """Seconds by the clock and of the processors, and MiB, of a process that runs a block."""
    words = f"import resource, sys\n{block}\n" + "print(max(resource.getrusage(who).ru_maxrss for who in (0, -1)) // 1024, file=sys.stderr)"
    before, began = os.times(), time.perf_counter()
    run = subprocess.run([sys.executable, "-W", "ignore", "-c", words], cwd=folder, capture_output=True, text=True, check=False)
    wall, after = time.perf_counter() - began, os.times()
    if run.returncode != 0:
        sys.exit(f"{block}\n{run.stderr}")
    processor = after.children_user + after.children_system - before.children_user - before.children_system
    return wall, processor, int(run.stderr.split()[-1])


def main() -> None:
    parser = argparse.ArgumentParser(description="Measures the ten tasks of docs/python.md.")
    parser.add_argument("-n", type=int, default=20_000_000, metavar="RECORDS")
    parser.add_argument("-t", type=int, default=3, metavar="TIMES")
    parser.add_argument("-o", default="", metavar="REGEX")
    parser.add_argument("-d", default="/tmp", metavar="FOLDER")
    given = parser.parse_args()
    os.environ |= {"PYTHONPATH": str(ROOT / "python" / "src"), "MPLBACKEND": "Agg"}
    if (ROOT / "out" / "ptu").is_file():
        os.environ.setdefault("PTU", str(ROOT / "out" / "ptu"))
    with tempfile.TemporaryDirectory(dir=given.d) as name:
        furnish(Path(name), given.n)
        print(f"load {os.getloadavg()[0]:.1f}, least of {given.t}")
        print("| Task | Lines | Seconds | of the processors | MiB |\n|---|---|---|---|---|")
        for title in TITLES:
            if not re.search(given.o, title):
                continue
            block = block_of(title)
            count = len(lines_of(block))
            if count > MOST_LINES:
                sys.exit(f"{title}: {count} lines")
            rows = [measured(block, Path(name)) for _ in range(given.t)]
            wall, processor, memory = min(row[0] for row in rows), min(row[1] for row in rows), max(row[2] for row in rows)
            print(f"| {title} | {count} | {wall:.1f} | {processor:.1f} | {memory} |", flush=True)
        print(f"load {os.getloadavg()[0]:.1f}")


if __name__ == "__main__":
    main()
