"""The files that the window may see: the PTU files within one folder, where links lead too.

A name that isn't UTF-8 is a text as Python has it, with a lone surrogate for each odd byte; JSON, and with it the page, keep that.
"""

from __future__ import annotations

import os

from ..errors import PtulabError

MOST = 2000  # files that are listed
LONGEST = 1024  # letters of a name


class NotHere(PtulabError, LookupError):
    """No such file is within the folder."""


def named(path: str | os.PathLike[str]) -> str:
    """The name of a file, to be printed: with U+FFFD for what isn't UTF-8."""
    return os.fsencode(os.path.basename(os.fspath(path))).decode("utf-8", "replace")


class Folder:
    """A folder, by its real path."""

    def __init__(self, root: str | os.PathLike[str]) -> None:
        self.root = os.path.realpath(root)
        if not os.path.isdir(self.root):
            raise NotADirectoryError(20, "no folder", os.fspath(root))

    def names(self) -> list[str]:
        """The PTU files by their names within the folder, sorted, at most 2000; hidden folders are passed over."""
        found: list[str] = []
        for at, folders, files in os.walk(self.root):
            folders[:] = sorted(name for name in folders if not name.startswith("."))
            names = (os.path.relpath(os.path.join(at, name), self.root) for name in sorted(files) if self._is_ptu(name))
            found += [name for name in names if self._is_here(os.path.realpath(os.path.join(self.root, name)))]
            if len(found) >= MOST:
                break
        return found[:MOST]

    def path(self, name: object) -> str:
        """The real path of a file by its name. Raises ``NotHere`` for all else than a regular PTU file within the folder."""
        if not isinstance(name, str) or "\0" in name or not 0 < len(name) <= LONGEST or os.path.isabs(name):
            raise NotHere("there is no such file in the folder")
        try:
            real = os.path.realpath(os.path.join(self.root, name))
        except UnicodeEncodeError:  # of surrogates that stand for no byte
            raise NotHere("there is no such file in the folder") from None
        if not self._is_here(real) or not self._is_ptu(real):
            raise NotHere("there is no such file in the folder")
        return real

    def _is_here(self, real: str) -> bool:
        return os.path.isfile(real) and os.path.commonpath([self.root, real]) == self.root

    @staticmethod
    def _is_ptu(name: str) -> bool:
        return name.lower().endswith(".ptu") and not os.path.basename(name).startswith(".")
