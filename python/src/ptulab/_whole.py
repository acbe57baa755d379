"""Files that appear when they are whole."""

from __future__ import annotations

import contextlib
import errno
import os
import secrets
from collections.abc import Iterator
from typing import IO


@contextlib.contextmanager
def whole_path(path: str | os.PathLike[str]) -> Iterator[str]:
    """The path of an empty file to write to, which gets the name ``path`` once the block has ended well.

    It stands in the folder of ``path`` till then, under another name; after an exception there is nothing of it, and
    what stood at ``path`` stands there still. A link stays, and what it names is written. Raises ``OSError`` where it
    can't be written, and where something else than a regular file stands there, as a device.
    """
    target = os.path.realpath(path)
    if os.path.exists(path) and not os.path.isfile(path):
        raise OSError(errno.EINVAL, "no regular file, so none can take its place", os.fspath(path))
    temporary = os.path.join(os.path.dirname(target), f".ptulab-{secrets.token_hex(8)}")
    try:
        os.close(os.open(temporary, os.O_CREAT | os.O_EXCL | os.O_WRONLY, 0o666))  # less the mask of the process
    except OSError as error:
        raise OSError(error.errno, error.strerror, os.fspath(path)) from None  # not of the name that nobody knows
    try:
        yield temporary
        os.replace(temporary, target)
    except BaseException:
        with contextlib.suppress(FileNotFoundError):
            os.unlink(temporary)
        raise


@contextlib.contextmanager
def written_whole(path: str | os.PathLike[str]) -> Iterator[IO[bytes]]:
    """A file to write bytes to, which gets the name ``path`` once the block has ended well, as ``whole_path`` says."""
    with whole_path(path) as temporary, open(temporary, "wb") as out:
        yield out
        out.flush()
        os.fsync(out.fileno())
