"""What ``ptu pick`` writes, with its resolutions.

A picked file's header has its record type alone (``docs/pick.md``). The sidecar, ``NAME.json`` beside it, keeps what the
header of the file it was picked from says of ticks.
"""

import json
import os
import struct
import subprocess
from dataclasses import replace
from pathlib import Path
from typing import Any

from ._documents import PlanLike, name_of, plan_path
from ._made_plans import Plan
from .errors import NotKnownError
from .events import Events, read_events
from .headers import FLOAT, INTEGER, TAG, read_header
from .program import find_program, refusal
from ._versions import __version__, versions
from ._whole import written_whole

__all__ = ["pick", "read_picked", "sidecar_of", "write_sidecar", "write_with_resolutions"]

PathLike = str | os.PathLike[str]
END = b"Header_End"


def pick(plan: PlanLike, group: int | str, file: PathLike, picked: PathLike, *, program: PathLike | None = None) -> Path:
    """Runs ``ptu pick PLAN GROUP FILE`` into the file ``picked``, and writes its sidecar, whose path it gives.

    ``group`` is a number, or the name of a group of a ``Plan``. Both files appear when they are whole. Raises ``RefusalError``
    where the program refuses, ``NoProgramError`` and ``OSError``.
    """
    number = plan.number_of(group) if isinstance(plan, Plan) else int(group)
    with plan_path(plan, file) as path, written_whole(picked) as out:
        words = [find_program(program), "pick", path, str(number), os.fspath(file)]
        ended = subprocess.run(words, stdout=out, stderr=subprocess.PIPE, check=False)
        if ended.returncode != 0:
            raise refusal(ended.returncode, ended.stderr.decode(errors="replace").strip())
        return write_sidecar(file, picked, plan=Path(name_of(plan)).name, group=number, **versions(words[0]) | {"program": Path(words[0]).name})


def sidecar_of(picked: PathLike) -> Path:
    """Where the sidecar of a picked file stands."""
    path = Path(picked)
    return path.with_name(path.name + ".json")


def write_sidecar(file: PathLike, picked: PathLike, **more: Any) -> Path:
    """Writes the sidecar of a file that was picked from ``file``, and gives its path.

    It is JSON, with ``picked_from``, ``global_seconds`` and ``resolution_seconds`` (null where the header doesn't tell), in
    decimal digits that give the same number of 64 bits, the version of ``ptulab``, and what else is told. Raises ``BadFileError`` and ``OSError``.
    """
    header = read_header(file)
    seconds = {"global_seconds": header.global_seconds, "resolution_seconds": header.resolution_seconds}
    told: dict[str, Any] = {"picked_from": Path(file).name, "ptulab": __version__, **more, **seconds}
    with written_whole(sidecar_of(picked)) as out:
        out.write(json.dumps(told, indent=1).encode() + b"\n")
    return sidecar_of(picked)


def _sidecar(picked: PathLike) -> dict[str, Any]:
    path = sidecar_of(picked)
    try:
        told = json.loads(path.read_text(encoding="utf-8"))
    except ValueError as error:
        raise NotKnownError(f"{path}: this is no sidecar: {error}") from error
    names = ("global_seconds", "resolution_seconds")
    if not isinstance(told, dict) or not all(isinstance(told.get(name, ""), float | int | None) for name in names):
        raise NotKnownError(f"{path}: this is no sidecar")
    return {name: None if told[name] is None else float(told[name]) for name in names}


def read_picked(picked: PathLike) -> Events:
    """The events of a picked file, in whose header the resolutions are those of its sidecar.

    Raises ``NotKnownError`` for a sidecar that is none, and ``OSError`` where it isn't there, besides what ``read_events`` does.
    """
    events = read_events(picked)
    return replace(events, header=replace(events.header, **_sidecar(picked)))


def write_with_resolutions(picked: PathLike, path: PathLike) -> None:
    """Writes a picked file anew, with its resolutions and its number of records in the header, for other programs.

    Records and all other tags stay as they are. Raises as ``read_picked`` does.
    """
    header, told = read_header(picked), _sidecar(picked)
    tags = [_tag("TTResult_NumberOfRecords", INTEGER, "q", header.records)]
    for name, seconds in (("GlobalResolution", told["global_seconds"]), ("Resolution", told["resolution_seconds"])):
        if seconds is not None:
            tags.append(_tag(f"MeasDesc_{name}", FLOAT, "d", seconds))
    with open(picked, "rb") as source, written_whole(path) as out:
        before = source.read(header.length_bytes - TAG.size)
        end = source.read(TAG.size)
        if not end.startswith(END):
            raise NotKnownError(f"{os.fspath(picked)}: this is no header of ptu pick")
        out.write(before + b"".join(tags) + end)
        while piece := source.read(1 << 20):
            out.write(piece)


def _tag(name: str, code: int, form: str, value: float) -> bytes:
    return struct.pack(f"<32siI{form}", name.encode(), -1, code, value)
