"""What is done with a result: regions of its image, the same over many files, and files for other programs."""

from __future__ import annotations

import json
import math
import re
from collections.abc import Callable, Sequence
from pathlib import Path
from typing import Any

import numpy as np

from .._optional import want
from .._versions import __version__
from .._whole import written_whole
from ..page._figures import SIDE, blocks
from ..page._document import packed, whole_page
from ._analyses import BY_REFERENCE, BY_RISE, FIT, POINTS, REPORT, Analysis, Settings, threshold_of
from ._figures import Drawn, curve, figure, for_page
from ._folder import named
from ._view import Region

REGION = """\
# The decays of regions of an image and of its phasors, as the window of ptulab {version} showed them; report.txt and plan.toml stand beside this
from pathlib import Path

import numpy as np

import ptulab
from ptulab import fits, phasors, pixels
from ptulab.app.scripts import inside, measured

here = Path(__file__).parent
report = ptulab.read_report(here / "report.txt", here / "plan.toml")
cube = report.table("cube", 1)
{points}regions = {regions}  # corners in pixels
of_phasors = {of_phasors}  # corners in the plane of phasors
chosen = {{f"region {{number}}": inside(corners, *photons.shape) for number, corners in enumerate(regions, 1)}}
chosen |= {{f"phasor region {{number}}": pixels.inside(points, [complex(*corner) for corner in corners]) for number, corners in enumerate(of_phasors, 1)}}
curves = {{}}
for name, within in chosen.items():
    bright, word = within & (photons >= threshold), name.replace(" ", "-")
    decay = cube.counts[bright].sum(axis=0)
    print(f"{{name}}: {{np.count_nonzero(bright):,}} pixels, {{decay.sum():,}} photons")
    curves[word] = {{"seconds": cube.seconds, "photons": decay}}
    start = cube.seconds[decay.argmax()] + {after!r} * 1e-9
    try:
        fit = fits.fit_tail(decay, cube.seconds, start, terms={terms})
    except (fits.FitError, ValueError) as error:
        print(f"no fit: {{error}}")
        continue
    curves[f"{{word}}-fit"] = {{"seconds": fit.axis, "photons": fit.data, "fit": fit.curve}}
{fit}"""
MANY = """\
# {title} of many files, as the window of ptulab {version} did it; analysis.py and plan.toml stand beside this
import runpy
import sys
from pathlib import Path

import ptulab
from ptulab.app.scripts import drop_parts, named, why

here = Path(__file__).parent
files = sys.argv[1:] or [
{files}]
for file in files:
    print(f"== {{named(file)}}")
    sys.argv[1:] = [file]
    try:
        runpy.run_path(str(here / "analysis.py"))
    except (ptulab.errors.PtulabError, OSError, ValueError) as error:
        print(f"left out: {{why(error, file)}}")
    drop_parts()
"""
COUNTS = re.compile(r"^(report|curve|pairs|bursts, \*counted) = (.*\bfile\b.*)$", re.M)  # the line of a script that counts its file
FILE = re.compile(r"^file = sys\.argv.*\n", re.M)
PART = re.compile(r"^file = part_of\(file, (.*)\)  # seconds\n", re.M)
ADDED = """\
whole = ptulab.count_files(here / "plan.toml", files)
for left in whole.left:
    print(f"left out of the sum: {named(left.path)}: {left.why}")
if whole.report is None:
    sys.exit("no file could be added")
report = whole.report
"""


def region_script(regions: Sequence[Region], of_phasors: Sequence[Region], settings: Settings, threshold: int, by_reference: bool) -> str:
    """The script that tells the decays of regions; ``by_reference`` is whether the phasors have one."""
    fit = "".join(f"    {line}\n" for line in FIT.splitlines())
    told = {"regions": _listed(regions), "of_phasors": _listed(of_phasors), "points": POINTS.format(threshold=threshold, of_points=threshold_of(settings), **(BY_REFERENCE if by_reference else BY_RISE))}
    return REGION.format(version=__version__, fit=fit, after=settings["after"], terms=settings["terms"], **told)


def _listed(regions: Sequence[Region]) -> str:
    return "[\n" + "".join(f"    {region},\n" for region in regions) + "]" if regions else "[]"


def draw_regions(names: dict[str, Any]) -> list[Drawn]:
    """The decays of regions, each with its fit."""
    decays = []
    for name in names["chosen"]:
        told = names["curves"][name.replace(" ", "-")]
        decays.append(curve(name, told["seconds"] * 1e9, told["photons"]))
        if fit := names["curves"].get(f"{name.replace(' ', '-')}-fit"):
            decays.append(curve(f"fit of {name}", fit["seconds"] * 1e9, fit["fit"], shape="linear"))
    axes = ("delay after the sync (ns)", "ns"), ("photons", "photons")
    said = "The photons of all pixels of each region by their delay, and the exponentials that were fitted."
    return [figure("regions", "Decays of the regions", said, *axes, decays, log=True)]


def painted(names: dict[str, Any]) -> dict[str, str]:
    """Of each pixel of the picture the number of the last phasor region that has it, 0 where none has; packed."""
    shape = names["photons"].shape
    size = math.ceil(max(shape) / SIDE)
    paint = blocks(np.zeros(shape, np.int64), size)
    for number, _ in enumerate(names["of_phasors"], 1):
        within = names["chosen"][f"phasor region {number}"] & (names["photons"] >= names["threshold"])
        paint = np.where(blocks(within.astype(np.int64), size) > 0, number, paint)
    return packed(paint)


def many_script(analysis: Analysis, files: Sequence[str]) -> str:
    """The script that does the same with many files."""
    return MANY.format(title=analysis.title, version=__version__, files="".join(f"    {file!r},\n" for file in files))


def sum_script(script: str, files: Sequence[str]) -> str:
    """The script that does with the sum of many files what another does with one: a line of it counts a file."""
    part, names = PART.search(script), "".join(f"    {file!r},\n" for file in files)
    script = FILE.sub(lambda _: f"files = sys.argv[1:] or [\n{names}]\n", PART.sub("", script))
    by_program = not part and f"\n{REPORT}" in script
    script = re.sub(r"(import measured)(, part_of)?$", rf"\1, {'named' if by_program else 'summed'}", script, count=1, flags=re.M)
    if by_program:
        return script.replace(f"\n{REPORT}", f"\n{ADDED}")
    more = f", {part[1]}" if part else ""
    script = COUNTS.sub(lambda line: f"{line[1]} = summed(lambda file: {line[2]}, files{more})", script, count=1)
    return script.replace("bursts, *counted = ", "bursts, *counted, of_file = ").replace('"bursts": {"start"', '"bursts": {"file": of_file, "start"')


def results_of(printed: str) -> tuple[list[str], list[list[str]]]:
    """The table of what was printed of many files: its heads, and a row for each file."""
    rows: list[dict[str, str]] = []
    for line in printed.splitlines():
        if line.startswith("== "):
            rows.append({"file": line[3:]})
        elif rows:
            word, _, value = line.partition(": ")
            rows[-1].setdefault(word, value)
    heads = list(dict.fromkeys(word for row in rows for word in row))
    return heads, [[row.get(word, "") for word in heads] for row in rows]


def notebook_of(title: str, scripts: Sequence[tuple[str, str]], path: str = "") -> str:
    """A notebook with scripts and what each printed; ``path`` is the file of one that counts a single file. It draws the curves
    of the last one, if that has any."""
    said = f"# {title}\n\nAs the window of ptulab {__version__} showed it. plan.toml{' and analysis.py stand' if len(scripts) > 1 else ' stands'} beside this."
    cells: list[dict[str, Any]] = [{"cell_type": "markdown", "id": "title", "metadata": {}, "source": said}]
    cells += [_code(f"analysis-{number}", _in_notebook(script, path), printed) for number, (script, printed) in enumerate(scripts, 1)]
    cells += [_code("plots", PLOT)] if "\ncurves = " in scripts[-1][0] else []
    kernel = {"kernelspec": {"name": "python3", "display_name": "Python 3", "language": "python"}, "language_info": {"name": "python"}}
    return json.dumps({"cells": cells, "metadata": kernel, "nbformat": 4, "nbformat_minor": 5}, indent=1)


def _in_notebook(script: str, path: str) -> str:
    """A script without what only a script knows: its own place, and the words of its call."""
    changed = {"here": 'here = Path(".")', "file": f"file = {path!r}", "files": "files = ["}
    lines = [line for line in script.splitlines() if not line.startswith("#")]
    lines = [changed.get(line.split(" = ")[0], line) if " = Path(__file__)" in line or " = sys.argv" in line else line for line in lines]
    used = "\n".join(lines).strip()
    return used if "sys." in used else used.replace("import sys\n", "", 1)


def _code(name: str, source: str, printed: str = "") -> dict[str, Any]:
    outputs = [{"output_type": "stream", "name": "stdout", "text": printed.splitlines(keepends=True)}] if printed else []
    return {"cell_type": "code", "id": name, "execution_count": None, "metadata": {}, "outputs": outputs, "source": source}


PLOT = """\
import matplotlib.pyplot as plt

for name, columns in curves.items():
    (across, xs), *others = [(label, one) for label, one in columns.items() if not (len(one) and isinstance(one[0], str))]
    for label, ys in others:
        plt.plot(xs, ys, label=label)
    plt.title(name), plt.xlabel(across), plt.legend(), plt.show()"""


def write_numbers(folder: Path, shown: dict[str, Any], title: str, path: str) -> None:
    """A page of what Python found: its numbers and its plots, as the window shows them."""
    told = [("first file" if "table" in shown else "file", named(path)), ("counted by", "Python, which is tested, not proved"), ("page by", f"ptulab {__version__}")]
    plan, figures = (folder / "plan.toml").read_text("utf-8"), [for_page(one) for one in shown["figures"]]
    text = whole_page(f"{title} of {named(path)}", told, plan, str(shown["numbers"]), figures, str(want("plotly.offline", "the page").get_plotlyjs()))
    with written_whole(folder / "page.html") as out:
        out.write(text.encode("utf-8"))


def write_images(folder: Path, report: Any, header: Any) -> None:
    """OME-TIFF of each image and cube of a report. Raises ``ValueError`` where there is none."""
    from ..exports import write_ome_tiff

    tables = [table for table in report.tables if table.kind in ("image", "cube")]
    if not tables:
        raise ValueError("this result has no image, so there is no OME-TIFF of it")
    for table in tables:
        columns = table.counts.shape[1]
        write_ome_tiff(table, folder / f"{table.kind}_{table.number}.ome.tif", pixel_micrometres=header.pixel_micrometres(columns))


def write_photons(folder: Path, path: str, settings: Settings, progress: Callable[[float], None]) -> None:
    """The photons of a file, or of its window of time, as Photon-HDF5, in the memory of a piece."""
    from ..photon_hdf5 import write_photon_hdf5
    from .scripts import part_of

    start, stop, name = settings.get("from_seconds", 0), settings.get("to_seconds", 0) or math.inf, named(path)
    part = path if start == 0 and stop == math.inf else part_of(path, start, stop)
    write_photon_hdf5(part, folder / "photons.hdf5", description=f"photons of {name}", filename=name, progress=progress)
