"""The sum of reports by their texts alone, for tests: it shares no code with the package.

Lines of the head that count are added, and so are the lines of cells by the words before their counts, in the order in
which a report has them.
"""

import functools
import subprocess
from collections.abc import Iterable
from pathlib import Path

ADDED = ("announced", "records", "photons", "markers", "wraps", "reserved", "late")


def report_of(program: str, plan: Path, file: Path) -> str:
    """What the program prints of a file that it can count."""
    return subprocess.run([program, "run", plan, file], capture_output=True, text=True, check=True).stdout


def cube_report(path: Path, bins: int) -> Path:
    """A report of a cube of 256 by 256 pixels that has a count on each page of its memory, which is half a MiB for each bin."""
    cells = range(7, bins << 16, 512)
    lines = [f"{cell // bins & 255} {cell // bins >> 8} {cell % bins} {cell % 9 + 1}" for cell in cells]
    head = "type HydraHarp2T3\nannounced -\nglobal -\nresolution -\nrecords 9\nphotons 9\nmarkers 0\nwraps 0\nreserved 0\nlate 0\nfirst 0\nlast 9\n"
    path.write_text("\n".join([f"{head}cube 1 width 256 height 256 dwell 8 dwidth 4 dbins {bins}", *lines, "outside 0", "over 0\n"]))
    return path


def parts(text: str) -> list[tuple[str, list[tuple[tuple[int, ...], int]], list[tuple[str, int]]]]:
    """The tables: the first line, the cells with their counts, and what is in no cell."""
    found: list[tuple[str, list[tuple[tuple[int, ...], int]], list[tuple[str, int]]]] = []
    for line in text.splitlines()[12:]:
        words = line.split()
        if words[0].isdecimal():
            found[-1][1].append((tuple(map(int, words[:-1])), int(words[-1])))
        elif len(words) > 2:
            found.append((line, [], []))
        else:
            found[-1][2].append((words[0], int(words[1])))
    return found


def order(first: str, cell: tuple[int, ...]) -> tuple[int, ...]:
    """Where a cell comes: images and cubes go by rows."""
    return (cell[1], cell[0], *cell[2:]) if first.startswith(("image", "cube")) else cell


def plain_sum(texts: Iterable[str]) -> str:
    """The text of the sum."""
    these = list(texts)
    head = []
    for place, line in enumerate(these[0].splitlines()[:12]):
        word, value = line.split()
        if word in ADDED:
            values = [text.splitlines()[place].split()[1] for text in these]
            value = "-" if "-" in values else str(sum(map(int, values)))
        head.append(f"{word} {'-' if word in ('first', 'last') else value}")
    lines = head
    for tables in zip(*map(parts, these)):
        cells: dict[tuple[int, ...], int] = {}
        for _, ones, _ in tables:
            for cell, count in ones:
                cells[cell] = cells.get(cell, 0) + count
        first = tables[0][0]
        lines.append(first)
        lines += [f"{' '.join(map(str, cell))} {cells[cell]}" for cell in sorted(cells, key=functools.partial(order, first))]
        lines += [f"{one[0][0]} {sum(count for _, count in one)}" for one in zip(*(rest for _, _, rest in tables))]
    return "\n".join(lines) + "\n"
