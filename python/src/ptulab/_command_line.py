"""The words of the command ``ptulab``: what it can be told, and its help. Nothing but Python is needed for them."""

from __future__ import annotations

import argparse
from collections.abc import Callable
from typing import Any

from ._versions import versions

PROGRAM = ("info", "check", "run", "count", "app")  # commands that call the program


class _Mixed(argparse.ArgumentParser):
    """A parser of a command, whose options may stand between its files."""

    _is_inside = False

    def parse_known_args(self, args: Any = None, namespace: Any = None) -> Any:
        """The same in both ways of it, of which one calls the other."""
        if self._is_inside:
            return super().parse_known_args(args, namespace)
        self._is_inside = True
        try:
            return self.parse_known_intermixed_args(args, namespace)
        finally:
            self._is_inside = False


class _Versions(argparse.Action):
    """Prints what makes a result."""

    def __call__(self, parser: argparse.ArgumentParser, *words: Any, **more: Any) -> None:
        print(*(f"{word} {value or 'not known'}" for word, value in versions().items()), sep="\n")
        parser.exit()


def command_line() -> argparse.ArgumentParser:
    """The parser of all words."""
    whole = argparse.ArgumentParser(prog="ptulab", description="ptulab: Python around ptu, which counts exactly what is in PTU files.")
    whole.add_argument("--version", action=_Versions, nargs=0, help="tell what made a result: package, program, and their sums")
    commands = whole.add_subparsers(dest="command", metavar="COMMAND", required=True, parser_class=_Mixed)
    for name, (said, fill) in COMMANDS.items():
        one = commands.add_parser(name, help=said, description=f"{said[0].upper()}{said[1:]}.")
        fill(one)
        if name in PROGRAM:
            one.add_argument("--program", metavar="PROGRAM", help="the ptu that counts, by default the one that goes with ptulab")
        one.add_argument("-q", "--quiet", action="store_true", help="tell faults alone: no progress, and nothing of what is left out or guessed")
        one.set_defaults(parser=one)
    return whole


def _of_info(parser: argparse.ArgumentParser) -> None:
    parser.add_argument("file", help="a PTU file")
    parser.add_argument("--json", action="store_true", help="as one line of JSON, with traces, decays and tags")


def _of_plan(parser: argparse.ArgumentParser) -> None:
    parser.add_argument("file", help="a PTU file, which is looked at whole")
    parser.add_argument("-o", "--out", help="where the plan goes, by default standard output")


def _of_check(parser: argparse.ArgumentParser) -> None:
    parser.add_argument("plan", help="a plan")
    parser.add_argument("file", nargs="?", help="a PTU file that the plan is for: what doesn't go with it is told too")
    parser.epilog = "ends with 1 where the plan or the file is refused"


def _of_run(parser: argparse.ArgumentParser) -> None:
    parser.add_argument("plan", help="a plan")
    parser.add_argument("file", help="a PTU file")
    parser.add_argument("-o", "--out", help="where the report goes, by default standard output")
    parser.epilog = "ends with the status of ptu where it refuses"


def _of_sum(parser: argparse.ArgumentParser) -> None:
    parser.add_argument("reports", nargs="*", help="what ptu run printed, a file of each")
    parser.add_argument("--plan", help="the plan of all of them: reports of other tables are left")
    _of_sums(parser, 1)


def _of_count(parser: argparse.ArgumentParser) -> None:
    parser.add_argument("plan", help="the plan of all files")
    parser.add_argument("files", nargs="*", help="PTU files")
    _of_sums(parser, None)


def _of_sums(parser: argparse.ArgumentParser, processes: int | None) -> None:
    """The words of a command that makes a sum."""
    parser.add_argument("-o", "--out", help="where the sum goes, by default standard output; OUT.jsonl has a line for each file")
    parser.add_argument("--left", help="a file for the list of those that weren't added, or that may be cut")
    parser.add_argument("--from", dest="listed", metavar="LIST", help="a file with a path on each line, more of them; - is standard input")
    parser.add_argument("--share", metavar="K/N", default="0/1", help="only every N-th of them, from the K-th on (0 is the first): for arrays of jobs")
    parser.add_argument("--processes", type=int, default=processes, help="how many run side by side")
    parser.add_argument("--scheduler", help="the address of a scheduler of dask, whose workers count")
    parser.add_argument("--patience", type=float, default=120, metavar="SECONDS", help="how long it waits for a scheduler or workers that are gone")
    parser.epilog = "ends with 0 where all are in the sum, 3 where some are left, 4 where all are, and 1 after a fault"


def _of_page(parser: argparse.ArgumentParser) -> None:
    parser.add_argument("report", help="what ptu run printed; - is standard input")
    parser.add_argument("-o", "--out", help="the page, by default REPORT.html")
    parser.add_argument("--plan", help="its plan: curves are normalised, and the page shows it")
    parser.add_argument("--file", help="the PTU file, for the heading, and the size of pixels")
    parser.add_argument("--program", help="the program that made the report: the heading has its SHA-256")


def _of_export(parser: argparse.ArgumentParser) -> None:
    parser.add_argument("report", help="what ptu run printed; - is standard input")
    parser.add_argument("--plan", help="its plan: correlations are normalised, and coincidences have g2, each with its error")
    parser.add_argument("--table", nargs=2, action="append", default=[], metavar=("KIND", "NUMBER"), help="only this table, as trace 1; may stand several times")
    parser.add_argument("--csv", metavar="FOLDER", help="a folder for a file of each table")
    parser.add_argument("--json", metavar="OUT", help="a file for all of them")
    parser.add_argument("--npz", metavar="OUT", help="a file for all arrays, which numpy.load reads")


def _of_app(parser: argparse.ArgumentParser) -> None:
    parser.add_argument("folder", nargs="?", default=".", help="the folder of the files, by default this one")
    parser.add_argument("--port", type=int, default=0, help="of 127.0.0.1, by default a free one")
    parser.add_argument("--no-browser", action="store_true", help="only print the address")


COMMANDS: dict[str, tuple[str, Callable[[argparse.ArgumentParser], None]]] = {
    "info": ("tell what a PTU file is: its header in words, whether it is whole, and what its inputs and markers have", _of_info),
    "plan": ("propose a plan for a PTU file", _of_plan),
    "check": ("tell what is wrong with a plan, or odd in it for a file", _of_check),
    "run": ("count a PTU file by a plan, as ptu run does, and tell what to do where it is refused", _of_run),
    "sum": ("add up reports of one plan; what can't be added is listed, and the rest is added", _of_sum),
    "count": ("count many PTU files by one plan, side by side, and add up their reports", _of_count),
    "page": ("make a page of a report: one file with a plot of every table", _of_page),
    "export": ("write the tables of a report for other programs: as CSV, JSON or arrays of NumPy", _of_export),
    "app": ("open a window to click in: a page on this machine over the PTU files of a folder", _of_app),
}
