"""What to do about a refusal: what was mistaken for what, and what may have been meant."""

from __future__ import annotations

import os
from collections.abc import Iterator

from ._documents import LONGEST, PTU, PlanLike, is_path, name_of, plan_bytes, read_plan
from ._plan_rules import TOP, broken_rules
from .errors import BadFileError, BadPlanError, PtulabError, RefusalError

OF_PLAN = (6, 7, 8)  # statuses by which the plan is refused
OTHERS = {
    b"PicoHarp 300": "a file of PicoHarp 300 from before PTU (.pt2, .pt3 or a histogram)",
    b"HydraHarp 400": "a file of HydraHarp 400 from before PTU (.ht2, .ht3 or a histogram)",
    b"TimeHarp 260": "a file of TimeHarp 260 from before PTU",
    b"TimeHarp 200": "a file of TimeHarp 200 (.t3r)",
    b"PQHISTO": "a file of histograms (.phu), which has no photons",
    b"\x1f\x8b": "compressed: gzip -dc makes the file",
    b"PK\x03\x04": "a ZIP archive: unpack it",
    b"\x89HDF": "an HDF5 file: ptulab writes Photon-HDF5, and reads PTU",
}
SUITS = {"startstop": "T2", "coincidence": "T2", "fold": "T2", "histogram": "T3", "image": "T3", "cube": "T3", "shift": "T3", "gate": "T3"}


def explained(refusal: RefusalError, plan: PlanLike, file: str | os.PathLike[str]) -> list[str]:
    """The lines that tell a refusal: whose it is and what the program said, its meaning, and what to do."""
    whose = name_of(plan) if refusal.status in OF_PLAN or refusal.line.endswith(" the plan") else os.fspath(file)
    lines = [f"{whose}: {refusal.line} (status {refusal.status})"]
    return [*lines, *([refusal.meaning] if refusal.meaning else []), *advice(refusal, plan, os.fspath(file))]


def advice(refusal: RefusalError, plan: PlanLike, file: str) -> Iterator[str]:
    """What may have been meant, and what to do."""
    status = refusal.status
    if status in OF_PLAN:
        yield from _of_plan(status, plan, file)
    elif status == 9:
        yield from _of_mode(refusal.line.split()[1], plan, file)
    elif status == 10:
        yield from of_other_file(file)
    elif status == 17:
        yield str(BadFileError(17, refusal.line.removeprefix("ptu: "), file)).partition(" (")[2].rstrip(")")
    elif status == 19:
        yield 'the plan has order = "stop": settle = 1, 2, 4 .. 64 puts events back in order, and order = "drop" leaves late ones out'
    elif status == 20:
        yield "the plan has limits.records: a greater number, or none, lets the file through"
    elif status == 2:
        yield from (f"there is no file {path}" for path in ([name_of(plan)] if is_path(plan) else []) + [file] if not os.path.exists(path))


def _begins(path: str, size: int = 16) -> bytes:
    try:
        with open(path, "rb") as file:
            return file.read(size)
    except OSError:
        return b""


def _of_plan(status: int, plan: PlanLike, file: str) -> Iterator[str]:
    name = name_of(plan)
    if plan_bytes(plan, file).startswith(PTU):
        yield f"{name} is a PTU file: plan and file were exchanged; the plan comes first"
    elif status != 6:
        try:
            document = read_plan(plan, file)
        except BadPlanError as error:
            yield str(error)
            return
        yield from map(str, broken_rules(document))


def _of_mode(part: str, plan: PlanLike, file: str) -> Iterator[str]:
    """A part of a plan that doesn't suit the mode of the file."""
    suits = SUITS.get(part, "T3")
    yield f"{file} is a {'T2' if suits == 'T3' else 'T3'} file, and {name_of(plan)} a plan for {suits} files: ptulab plan {file} proposes one that suits"
    if part == "coincidence":
        yield "pairs of photons of a T3 file are counted by ptulab.antibunching.coincidences in Python"


def of_other_file(file: str) -> Iterator[str]:
    """A file that is none of PTU."""
    start = _begins(file)
    for mark, what in OTHERS.items():
        if start.startswith(mark):
            yield f"{file} is {what}; only PTU files are read"
            return
    if os.path.splitext(file)[1].lower() in (".pt2", ".pt3", ".ht2", ".ht3", ".t3r", ".phu", ".spc"):
        yield f"{file} is named like a file of another format; only PTU files are read"
        return
    try:
        is_plan = os.path.getsize(file) <= LONGEST and {*read_plan(file)} & {*TOP} != set()
    except (PtulabError, OSError):
        is_plan = False
    if is_plan:
        yield f"{file} is a plan: plan and file were exchanged; the plan comes first"
