"""Python around ``ptu``, the program that counts exactly what is in PTU time-tag files.

Reports and their sums (``read_report``, ``sum_reports``), runs of the program (``run``), and the events of a file
(``read_events``, ``iter_events``); each module comes with it, as ``ptulab.scans``. It is tested, not proved; docs/python.md tells all of it.
"""

from importlib import import_module
from typing import TYPE_CHECKING, Any

from ._versions import __version__, versions

if TYPE_CHECKING:
    from . import (
        antibunching,
        app,
        bursts,
        errors,
        events,
        exports,
        fcs,
        first_look,
        fits,
        groups,
        headers,
        intensity,
        many,
        page,
        phasors,
        photon_hdf5,
        picked,
        pixels,
        plans,
        plots,
        program,
        report,
        scans,
        segments,
        smfret,
        tables,
        texts,
        traces,
    )
    from .errors import (
        BadFileError,
        BadPlanError,
        BadReportError,
        FitError,
        MissingLibraryError,
        NoProgramError,
        NoTableError,
        NotKnownError,
        PlanUnlikeError,
        PtulabError,
        RefusalError,
        UnlikeError,
    )
    from .events import EVENT, Events, iter_events, read_events
    from .first_look import Info, info
    from .headers import Header, read_header
    from .many import LeftFile, SummedFiles, count_files, sum_files
    from .page import write_page
    from .plans import Finding, Plan, check_plan, plan_for, read_plan
    from .program import find_program, run
    from .report import Head, Report, read_report, sum_reports
    from .tables import Table
    from .texts import write_report
    from .traces import LongTrace, read_trace

__all__ = [
    "BadFileError",
    "BadPlanError",
    "BadReportError",
    "EVENT",
    "Events",
    "Finding",
    "FitError",
    "Head",
    "Header",
    "Info",
    "LeftFile",
    "LongTrace",
    "MissingLibraryError",
    "NoProgramError",
    "NoTableError",
    "NotKnownError",
    "Plan",
    "PlanUnlikeError",
    "PtulabError",
    "RefusalError",
    "Report",
    "SummedFiles",
    "Table",
    "UnlikeError",
    "__version__",
    "antibunching",
    "app",
    "bursts",
    "check_plan",
    "count_files",
    "errors",
    "events",
    "exports",
    "fcs",
    "find_program",
    "first_look",
    "fits",
    "groups",
    "headers",
    "info",
    "intensity",
    "iter_events",
    "many",
    "page",
    "phasors",
    "photon_hdf5",
    "picked",
    "pixels",
    "plan_for",
    "plans",
    "plots",
    "program",
    "read_events",
    "read_header",
    "read_plan",
    "read_report",
    "read_trace",
    "report",
    "run",
    "scans",
    "segments",
    "smfret",
    "sum_files",
    "sum_reports",
    "tables",
    "texts",
    "traces",
    "versions",
    "write_page",
    "write_report",
]

_NAMES = {
    "errors": "BadFileError BadPlanError BadReportError FitError MissingLibraryError NoProgramError NoTableError NotKnownError PlanUnlikeError PtulabError RefusalError UnlikeError",
    "events": "EVENT Events iter_events read_events",
    "first_look": "Info info",
    "headers": "Header read_header",
    "many": "LeftFile SummedFiles count_files sum_files",
    "page": "write_page",
    "plans": "Finding Plan check_plan plan_for read_plan",
    "program": "find_program run",
    "report": "Head Report read_report sum_reports",
    "tables": "Table",
    "texts": "write_report",
    "traces": "LongTrace read_trace",
}  # by the modules that have them
_HOMES = {name: home for home, names in _NAMES.items() for name in names.split()}


def _found(name: str) -> Any:
    """A module of the package, or a name of one: read when it is first asked for, since a process that counts needs few of them."""
    if name not in __all__:
        raise AttributeError(f"module {__name__!r} has no attribute {name!r}")
    home = import_module(f".{_HOMES.get(name, name)}", __name__)
    globals()[name] = found = getattr(home, name) if name in _HOMES else home
    return found


def __dir__() -> list[str]:
    return sorted({*globals(), *__all__})


if not TYPE_CHECKING:  # which knows all of them
    __getattr__ = _found
