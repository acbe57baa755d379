"""Scripts that are run by themselves, each in a process of its own, whose mother has imported what takes long."""

import contextlib
import io
import multiprocessing
import os
import runpy
import sys
import traceback
from multiprocessing.connection import Connection
from pathlib import Path

MOTHER = multiprocessing.get_context("forkserver")
MOTHER.set_forkserver_preload(["ptulab.app.scripts", "ptulab.app._more", "scipy.optimize", "lmfit"])


def output_of(script: Path) -> str:
    """What a script prints, run in its folder; it may not fail."""
    hears, tells = MOTHER.Pipe(duplex=False)
    process = MOTHER.Process(target=_run, args=(script, dict(os.environ), tells))
    process.start()
    tells.close()
    is_well, told = hears.recv()
    process.join()
    assert is_well, told
    return str(told)


def _run(script: Path, environment: dict[str, str], tells: Connection) -> None:
    os.environ.clear()
    os.environ.update(environment)
    os.chdir(script.parent)
    sys.argv[:] = [str(script)]
    printed = io.TextIOWrapper(io.BytesIO(), encoding="utf-8", errors="strict", write_through=True)
    try:
        with contextlib.redirect_stdout(printed):
            runpy.run_path(str(script), run_name="__main__")
        tells.send((True, printed.buffer.getvalue().decode("utf-8")))  # type: ignore[attr-defined]
    except BaseException:  # pylint: disable=broad-exception-caught
        tells.send((False, traceback.format_exc()))
