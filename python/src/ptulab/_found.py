"""Where the program ``ptu`` is."""

import os
import shutil

import ptulab_program

from .errors import NoProgramError


def find_program(program: str | os.PathLike[str] | None = None) -> str:
    """The path of ``ptu``: the one that is given, that of the environment variable PTU, the one that goes with this package
    (in a checkout what was built there, else the one of the wheel or of ``bin/`` for this processor), or the one on the PATH.
    A text without a slash is the name of one on the PATH, and one in the working directory is found by no name alone, so that
    a folder of data brings no program along. Raises ``NoProgramError`` where there is none."""
    named = program or os.environ.get("PTU") or ptulab_program.find() or "ptu"
    if isinstance(named, str) and not os.path.dirname(named):
        folders = filter(os.path.isabs, os.environ.get("PATH", os.defpath).split(os.pathsep))
        found = next(filter(None, (shutil.which(os.path.join(folder, named)) for folder in folders)), None)
    else:
        found = shutil.which(os.path.abspath(named))
    if found is None:
        raise NoProgramError(f"no program {os.fspath(named)}: name it by program= or by the environment variable PTU")
    return found
