"""A page of a report: one file by itself, with an interactive plot of every table.

Nothing is fetched: Plotly's script is in the page (Debian: python3-plotly), and for where scripts are off a plain picture
of each plot (Matplotlib). Nothing of a report or a name gets into the page unescaped, and a browser runs no other
scripts in it than the two that the page itself has.
"""

from __future__ import annotations

import os

from ptulab_program import checksum

from .._documents import PlanLike, is_path, name_of, plan_bytes
from .._optional import want
from ..headers import Header, read_header
from ..report import Report
from .._whole import written_whole
from .._versions import __version__, versions
from ._document import whole_page
from ._figures import figures_of

__all__ = ["checksum", "page", "write_page"]
PathLike = str | os.PathLike[str]


def page(report: Report, *, file: PathLike | None = None, plan: PlanLike | None = None, program: PathLike | None = None) -> str:
    """The page of a report as a text of HTML, some nine megabytes, of which eight are Plotly's.

    The heading has the names of the ``file`` and the ``plan``, with the plan's text, and of the ``program`` its SHA-256 and the
    sum that it was made from, where they are given: a report doesn't say which these were. Where the file can be read and
    its header tells the size of a pixel, pictures are in micrometres. Correlations and coincidences are normalised where the
    report knows the photons of their groups, as one that was read with its plan does.

    Raises ``MissingLibraryError`` without Plotly or Matplotlib, and ``OSError`` for a plan or a program that can't be read.
    """
    plotly = str(want("plotly.offline", "the page").get_plotlyjs())
    told, plan_text = [], None
    if file is not None:
        told.append(("file", os.path.basename(os.fspath(file))))
    if plan is not None:
        plan_text = plan_bytes(plan, report.head).decode("utf-8", errors="replace").removeprefix("\ufeff").replace("\r\n", "\n")
        if is_path(plan):
            told.append(("plan", os.path.basename(name_of(plan))))
    if program is not None:
        told.append(("program", f"{os.path.basename(os.fspath(program))}, SHA-256 {checksum(program)}"))
        told.append(("made from", versions(program)["made_from"] or "not known"))
    told.append(("page by", f"ptulab {__version__}"))
    title = f"Report of {os.path.basename(os.fspath(file))}" if file is not None else "Report of ptu"
    return whole_page(title, told, plan_text, report.head, figures_of(report, _header(file)), plotly)


def _header(file: PathLike | None) -> Header | None:
    """The header of a file, None where there is none to read: a page can be made where the file isn't."""
    try:
        return None if file is None else read_header(file)
    except (OSError, ValueError):
        return None


def write_page(
    report: Report, path: PathLike, *, file: PathLike | None = None, plan: PlanLike | None = None, program: PathLike | None = None
) -> None:
    """Writes the page of a report, as ``page`` makes it, to a path; the file appears when it is whole."""
    with written_whole(path) as out:
        out.write(page(report, file=file, plan=plan, program=program).encode("utf-8"))
