"""Pieces of work of the window, each in a process of its own: a line of JSON says what, and lines of JSON come back.

The first line is the number of the process. The last one has ``result`` or ``error``, and an empty line behind it; those
between have ``progress``, the part of the file that was read (null where nothing tells it), and ``words`` on what is done.
The process ends, and all that it started, when its standard input ends.

Run as a program, this is the mother of such processes. It imports what they need once, and is told by its standard input, a
socket, of the pipes of each; it ends when the other end is closed.
"""

from __future__ import annotations

import contextlib
import importlib
import io
import json
import os
import re
import resource
import runpy
import select
import signal
import socket
import sys
import threading
from collections.abc import Callable, Iterator
from pathlib import Path
from typing import IO, Any

EVERY = 0.2  # seconds between two lines on progress
ENOUGH = 1 << 20  # bytes that are printed by a script, at most
SHOWN = "shown.json"  # of a result, what the page drew
AT_ONCE = ("ptulab.first_look", "ptulab.app._more")  # what a first look needs, and what is quickly there
LATER = ("scipy.optimize", "lmfit")  # for fits, imported once there was a first look and nothing else is to be done
IDLE = 0.5  # seconds
WORDS = 0.2  # of a first look, the part in which words are looked at
Request = dict[str, Any]


class Work:
    """Says how far it is."""

    def __init__(self, request: Request, out: IO[bytes]) -> None:
        self.request, self.out = request, out
        self.path: str = request["path"]
        self.size = max(1, os.path.getsize(self.path))
        self.words, self.done, self.begin, self.end = "reads", 0.0, 0.0, 1.0
        self.talking, self.ended = threading.Lock(), threading.Event()

    def say(self, **told: Any) -> None:
        """A line."""
        with self.talking:
            self.out.write(json.dumps(told, allow_nan=False).encode("ascii") + b"\n")
            self.out.flush()

    def looked_at(self, size: int) -> None:
        """So many bytes were looked at, before the program counts them."""
        self.done = WORDS * size / self.size

    def has_read(self, path: str, part: float) -> None:
        """Python read such a part of a file."""
        if path == self.path:
            self.done = self.begin + (self.end - self.begin) * part

    def has_done(self, part: float) -> None:
        """Such a part of the work is done."""
        self.done = part

    def goes_on_with(self, number: int, many: int, path: str) -> None:
        """Begins with one of many files."""
        self.path, self.size = path, 1
        with contextlib.suppress(OSError):  # of a file that vanished meanwhile, which the script says
            self.size = max(1, os.path.getsize(path))
        self.begin, self.end = number / many, (number + 1) / many
        self.done, self.words = self.begin, f"file {number + 1} of {many}"

    def watch(self) -> None:
        """Tells again and again how far the programs that this process started have read."""
        from ..program import _position

        while not self.ended.wait(EVERY):
            read = max((_position(child, self.path) for child in _children()), default=0)
            done = max(self.done, self.begin + (self.end - self.begin) * read / self.size if read else 0.0)
            self.say(progress=round(min(1.0, done), 3) if done else None, words=self.words)


def _children() -> Iterator[int]:
    with contextlib.suppress(OSError):
        for task in Path("/proc/self/task").iterdir():
            yield from map(int, (task / "children").read_text("ascii").split())


def look(work: Work) -> Any:
    """The first look at a file, and what can be asked of it, each with a plan."""
    from ..first_look import look_at
    from ._analyses import proposals
    from ._figures import figures_of_look

    work.begin = WORDS
    seen, known = look_at(work.path, progress=work.looked_at)
    told = seen.as_json()
    for one in told["inputs"]:
        del one["trace"], one["decay"]
    return {"info": told, "text": str(seen), "figures": figures_of_look(seen, known), "questions": proposals(known)}


def check(work: Work) -> Any:
    """What is wrong with a plan for a file."""
    from ..plans import check_plan
    from ._groups import told

    text, plan = work.request["plan"], Path(work.request["out"], "checked.toml")
    plan.write_text(text, "utf-8")
    findings = told(check_plan(plan, work.path), text)
    plan.unlink()
    return findings


def run(work: Work) -> Any:
    """Runs the script of an analysis, whose printed lines are the numbers that are shown."""
    from ._analyses import analysis_of, parameters_of

    folder, analysis = Path(work.request["out"]), analysis_of(work.request["analysis"])
    script = _prepared(work, folder)
    work.words = "counts in Python" if analysis.by_python else "counts"
    with _listening(work, analysis.by_python):
        names, numbers = _ran(folder, "analysis.py")
    work.words = "draws"
    _written(folder, names, numbers)
    from ._more import notebook_of

    (folder / "analysis.ipynb").write_text(notebook_of(analysis.title, [(script, numbers)], work.path), "utf-8", errors="surrogateescape")
    return _shown(folder, {"figures": analysis.draw(names), "numbers": numbers, "script": script, "fit": parameters_of(names) if analysis.fits else []})


def _prepared(work: Work, folder: Path) -> str:
    """Puts the plan and the script of an analysis into its folder."""
    from ._analyses import analysis_of, settings_of
    from ._groups import bounded

    request = work.request
    analysis = analysis_of(request["analysis"])
    document = bounded(request["plan"], request["megabytes"])
    script = analysis.script(work.path, document, settings_of(analysis, request["settings"]), request.get("second"))
    (folder / "plan.toml").write_text(request["plan"], "utf-8")
    (folder / "analysis.py").write_text(script, "utf-8", errors="surrogateescape")
    return script


@contextlib.contextmanager
def _listening(work: Work, by_python: bool) -> Iterator[None]:
    """Hears how far Python reads, where it counts."""
    from ..events import reading

    heard = reading.set(work.has_read if by_python else None)
    try:
        yield
    finally:
        reading.reset(heard)


def _ran(folder: Path, script: str, out: io.StringIO | None = None) -> tuple[dict[str, Any], str]:
    """What a script named, and what it printed."""
    printed = io.StringIO() if out is None else out
    with contextlib.redirect_stdout(printed):
        sys.argv[:] = [str(folder / script)]
        names = runpy.run_path(sys.argv[0])
    return names, printed.getvalue()[:ENOUGH]


def _written(folder: Path, names: dict[str, Any], numbers: str) -> None:
    """Writes what a script told: its numbers, its report and its curves."""
    from ..texts import write_report
    from ._figures import write_curves

    (folder / "numbers.txt").write_text(numbers, "utf-8", errors="surrogateescape")
    if "report" in names:
        write_report(names["report"], folder / "report.txt")
    write_curves(folder, names)


def _shown(folder: Path, told: dict[str, Any]) -> dict[str, Any]:
    """What is shown of a result, which is kept with it for a session that opens again."""
    (folder / SHOWN).write_text(json.dumps(told, allow_nan=False), "utf-8")
    return told | {"files": files_of(folder)}


def files_of(folder: Path) -> list[str]:
    """The files of a result that are handed out."""
    return sorted(path.name for path in folder.iterdir() if path.name != SHOWN and not path.name.startswith("."))


def region(work: Work) -> Any:
    """The decays of regions of a result's image and of its phasors."""
    from ._analyses import ANALYSES, settings_of
    from ._figures import write_curves
    from ._more import draw_regions, painted, region_script
    from ._view import regions_of, threshold_of

    folder, threshold = Path(work.request["out"]), threshold_of(work.request["threshold"])
    if not _is_report(folder) or "cube" not in (folder / "plan.toml").read_text("utf-8"):
        raise ValueError("this result has no lifetime image, so it has no regions")
    given = {word: value for word, value in work.request["settings"].items() if word in ("terms", "after", "threshold")}
    pixels, of_phasors = regions_of(work.request["regions"], work.request["phasors"])
    script = region_script(pixels, of_phasors, settings_of(ANALYSES["image"], given), threshold, (folder / "reference.csv").is_file())
    (folder / "regions.py").write_text(script, "utf-8")
    names, numbers = _ran(folder, "regions.py")
    (folder / "regions.txt").write_text(numbers, "utf-8")
    write_curves(folder, names)
    return {"figures": draw_regions(names), "numbers": numbers, "files": files_of(folder), "paint": painted(names)}


class _Heard(io.StringIO):
    """What is printed, of which each line that begins a file is said."""

    def __init__(self, begun: Callable[[int], None]) -> None:
        super().__init__()
        self.begun, self.many = begun, 0

    def write(self, text: str) -> int:
        if text.startswith("== "):
            self.begun(self.many)
            self.many += 1
        return super().write(text)


def many(work: Work) -> Any:
    """The same analysis over many files: a table of their numbers, and the same of their sum."""
    import csv

    from ..errors import PtulabError
    from ._analyses import analysis_of
    from ._more import many_script, notebook_of, results_of, sum_script

    folder, files = Path(work.request["out"]), work.request["files"]
    analysis = analysis_of(work.request["analysis"])
    script = _prepared(work, folder)
    each, added = many_script(analysis, files), sum_script(script, files)
    (folder / "many.py").write_text(each, "utf-8", errors="surrogateescape")
    with _listening(work, analysis.by_python):
        _, numbers = _ran(folder, "many.py", _Heard(lambda number: work.goes_on_with(number, len(files) + 1, files[number])))
    heads, rows = results_of(numbers)
    with open(folder / "results.csv", "w", encoding="utf-8", errors="surrogateescape", newline="") as out:
        csv.writer(out, lineterminator="\n").writerows([heads, *rows])
    work.done, work.words = len(files) / (len(files) + 1), "counts the sum"
    (folder / "sum.py").write_text(added, "utf-8", errors="surrogateescape")
    names: dict[str, Any] = {}
    printed = io.StringIO()
    try:
        names, _ = _ran(folder, "sum.py", printed)
    except (PtulabError, OSError, ValueError, SystemExit) as error:  # of the sum alone: what was found of each file stays
        printed.write(f"no sum: {_said(error, work.request)}\n")
    parts = [(each, numbers), (added, printed.getvalue()[:ENOUGH])][: 2 if names else 1]
    (folder / "many.ipynb").write_text(notebook_of(f"{analysis.title} of many files", parts), "utf-8", errors="surrogateescape")
    numbers = f"{numbers}== the sum of {len(files)} files\n{printed.getvalue()}"[:ENOUGH]
    _written(folder, names, numbers)
    return _shown(folder, {"figures": analysis.draw(names) if names else [], "numbers": numbers, "script": script, "table": {"heads": heads, "rows": rows}})


def _is_report(folder: Path) -> bool:
    return (folder / "report.txt").is_file()


def page(work: Work) -> Any:
    """The page of a result: of its report, or of what Python counted."""
    from ..page import write_page
    from ..program import find_program
    from ._analyses import analysis_of
    from ._more import write_numbers

    folder = Path(work.request["out"])
    if _is_report(folder):
        write_page(_report(folder), folder / "page.html", file=work.path, plan=folder / "plan.toml", program=find_program())
    else:
        write_numbers(folder, json.loads((folder / SHOWN).read_text("utf-8")), analysis_of(work.request["analysis"]).title, work.path)
    return {"files": files_of(folder)}


def _report(folder: Path) -> Any:
    from ..report import read_report

    if not _is_report(folder):
        raise ValueError("this result has no report of the program: Python counted it")
    return read_report(folder / "report.txt", folder / "plan.toml")


def images(work: Work) -> Any:
    """The images of a result as OME-TIFF."""
    from ..headers import read_header
    from ._more import write_images

    folder = Path(work.request["out"])
    write_images(folder, _report(folder), read_header(work.path))
    return {"files": files_of(folder)}


def photons(work: Work) -> Any:
    """The photons of a result's file as Photon-HDF5."""
    from ._more import write_photons

    folder, work.words = Path(work.request["out"]), "writes the photons"
    write_photons(folder, work.path, work.request["settings"], work.has_done)
    return {"files": files_of(folder)}


KINDS: dict[str, Callable[[Work], Any]] = {one.__name__: one for one in (look, check, run, many, region, page, images, photons)}


def main() -> int:
    """Makes a process for each piece of work, till nobody can ask for one any more."""
    signal.signal(signal.SIGCHLD, signal.SIG_IGN)  # nobody asks how they ended
    for name in AT_ONCE:
        importlib.import_module(name)
    later: list[str] = []
    control = socket.socket(fileno=os.dup(0))
    while True:
        if later and not select.select([control], [], [], IDLE)[0]:
            with contextlib.suppress(ImportError):
                importlib.import_module(later.pop(0))
            continue
        _, pipes, _, _ = socket.recv_fds(control, 1, 2)
        if len(pipes) != 2:
            return 0
        if os.fork() == 0:
            control.close()
            return _work(*pipes)
        for pipe in pipes:
            os.close(pipe)
        later = [name for name in LATER if name not in sys.modules]


def _work(reads: int, writes: int) -> int:
    """Does what a line says that is read from one pipe, and writes to the other."""
    os.setsid()
    signal.signal(signal.SIGCHLD, signal.SIG_DFL)
    for pipe, standard in ((reads, 0), (writes, 1)):
        os.dup2(pipe, standard)
        os.close(pipe)
    out, sys.stdout = sys.stdout.buffer, sys.stderr
    out.write(f"{os.getpid()}\n".encode("ascii"))
    out.flush()
    request = json.loads(sys.stdin.buffer.readline())
    threading.Thread(target=_ends_with_its_input, daemon=True).start()
    data = _data() + (request["megabytes"] << 20)
    resource.setrlimit(resource.RLIMIT_DATA, (data, data))
    out.write(json.dumps(_done(request, out), allow_nan=False).encode("ascii") + b"\n\n")
    out.flush()
    return 0


def _data() -> int:
    """The bytes of data that this process has, of which its mother brought the most along."""
    return int(Path("/proc/self/statm").read_text("ascii").split()[5]) * resource.getpagesize()


def _done(request: Request, out: IO[bytes]) -> dict[str, Any]:
    """Does the work; gives the last line, after which none comes."""
    try:
        work = Work(request, out)
        watching = threading.Thread(target=work.watch, daemon=True)
        watching.start()
        try:
            return {"result": KINDS[request["kind"]](work)}
        finally:
            work.ended.set()
            watching.join()
    except (Exception, SystemExit) as error:
        return {"error": _said(error, request)}


def _said(error: BaseException, request: Request) -> str:
    """An error in a line, with the file's name in the place of its path."""
    from ..errors import PtulabError

    if isinstance(error, MemoryError) or isinstance(error, ImportError) and re.search("cannot map|failed to map", str(error)):  # of a library's memory
        return f"This needs more memory than the {request['megabytes']} MiB that it may have: ask for fewer or smaller tables."
    if isinstance(error, OSError) and not isinstance(error, PtulabError):
        return f"{os.path.basename(str(error.filename or request['path']))}: {error.strerror or error}"
    text = " ".join(str(error).split()) or type(error).__name__
    text = text if isinstance(error, PtulabError | ValueError | SystemExit) else f"{type(error).__name__}: {text}"
    for path in (request["path"], request.get("second") or "", *request.get("files", ())):
        text = text.replace(path, os.path.basename(path)) if path else text
    return text


def _ends_with_its_input() -> None:
    while os.read(0, 1 << 12):
        pass
    os.killpg(0, signal.SIGKILL)


if __name__ == "__main__":
    sys.exit(main())
