"""What goes wrong, one kind of exception for each kind of trouble.

A path that can't be opened or read is Python's own ``OSError``; all else is a ``PtulabError``.
"""

import shlex

__all__ = [
    "BadFileError",
    "BadPlanError",
    "BadReportError",
    "FitError",
    "MissingLibraryError",
    "NoProgramError",
    "NoTableError",
    "NotKnownError",
    "PlanUnlikeError",
    "PtulabError",
    "RefusalError",
    "UnlikeError",
]


class PtulabError(Exception):
    """The root of all exceptions of this package."""


class BadReportError(PtulabError, ValueError):
    """A text that is no whole report of ``ptu run``, or no lines of ``ptu trace``."""


class BadPlanError(PtulabError, ValueError):
    """A plan that is no TOML document, or longer than a plan may be, or breaks a rule where its numbers are needed."""


class NoTableError(PtulabError, LookupError):
    """A report has no table of this kind and number."""


class UnlikeError(PtulabError, ValueError):
    """Reports or files that don't go together, as those of other record types or of other plans."""


class PlanUnlikeError(UnlikeError):
    """A plan that has other tables than the report, or settings of them."""


class NotKnownError(PtulabError, ValueError):
    """A number that is needed is told by nothing, as the seconds of a tick, or the photons of a group."""


class FitError(PtulabError, ArithmeticError):
    """A fit that found no end, or that can't be begun, as one over no photons."""


class BadFileError(PtulabError, ValueError):
    """A PTU file that the program would refuse: ``status`` is its exit status, ``line`` what it would say.

    As a text it also says how the whole records of a file that was cut within one are saved.
    """

    def __init__(self, status: int, line: str, path: str = "") -> None:
        said = f"{path}: {line}" if path else line
        if status == 17:
            said += f" (in Python partial=True reads what is before them, and head -c -{line.split()[0]} {shlex.quote(path)} > COPY saves it)"
        super().__init__(said)
        self.status, self.line, self.path = status, line, path

    def __reduce__(self) -> tuple[type["BadFileError"], tuple[int, str, str]]:
        return type(self), (self.status, self.line, self.path)


class RefusalError(PtulabError):
    """The program refused a plan or a file: ``status`` is its exit status, ``line`` what it said, and ``meaning`` when
    it says so, or the words of the plan's rule that is broken."""

    def __init__(self, status: int, line: str, meaning: str) -> None:
        super().__init__(f"{line} (status {status}): {meaning}" if meaning else f"{line} (status {status})")
        self.status, self.line, self.meaning = status, line, meaning

    def __reduce__(self) -> tuple[type["RefusalError"], tuple[int, str, str]]:
        return type(self), (self.status, self.line, self.meaning)


class NoProgramError(PtulabError, FileNotFoundError):
    """The program ``ptu`` was not found."""


class MissingLibraryError(PtulabError, ImportError):
    """A library that a feature needs is not installed."""
