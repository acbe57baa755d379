"""The version of this package, and which program it calls."""

import os

import ptulab_program

from ._found import find_program
from .errors import NoProgramError

__version__ = "0.1.0"


def versions(program: str | os.PathLike[str] | None = None) -> dict[str, str | None]:
    """What a result is made by: the version of ``ptulab``, the path of the ``program`` (the one that ``find_program`` finds),
    its SHA-256 (``sha256``), and ``made_from``, the sum of all that it was made from: the kit and the sources of the crates that
    it stands on. None where there is no program, and where nothing tells what it was made from."""
    told: dict[str, str | None] = {"ptulab": __version__, "program": None, "sha256": None, "made_from": None}
    try:
        told["program"] = path = find_program(program)
    except NoProgramError:
        return told
    return told | {"sha256": ptulab_program.checksum(path), "made_from": ptulab_program.made_from(path)}
