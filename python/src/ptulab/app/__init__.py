"""A window to click in: ``ptulab app`` is a page on this machine, over the proved program.

The server answers this machine alone (127.0.0.1), and only who came by the address with its token. It sees the PTU files of
one folder. Work is done one piece at a time, in a process of its own that ends when it is stopped or its page is closed.
docs/app.md tells how it is used, and what it can't do yet. It is tested, not proved; what the program counts is proved.
"""

from typing import TYPE_CHECKING, Any

if TYPE_CHECKING:
    from ._serve import make_app, serve

__all__ = ["make_app", "serve"]


def __getattr__(name: str) -> Any:
    if name not in __all__:  # each piece of work is a process that would import the server for nothing
        raise AttributeError(f"module {__name__!r} has no attribute {name!r}")
    from . import _serve

    return getattr(_serve, name)
