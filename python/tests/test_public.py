"""The public names: each module lists its own, each of them says what it is, and the package alone needs NumPy alone."""

import importlib
import inspect
import os
import pkgutil
import re
import subprocess
import sys
from pathlib import Path

import pytest
from conftest import EXAMPLES, ROOT

import ptulab

MODULES = [one.name for one in pkgutil.iter_modules(ptulab.__path__, "ptulab.") if not one.name.rpartition(".")[2].startswith("_")]


@pytest.mark.parametrize("name", MODULES)
def test_names_of_a_module(name: str) -> None:
    module = importlib.import_module(name)
    assert module.__doc__ and sorted(module.__all__) == sorted(set(module.__all__))
    for word in module.__all__:
        what = getattr(module, word)
        if inspect.isclass(what) or inspect.isfunction(what):
            assert inspect.getdoc(what), word
            members = vars(what).items() if inspect.isclass(what) else ()
            methods = [one for key, one in members if not key.startswith("_") and (inspect.isfunction(one) or isinstance(one, property))]
            assert all(map(inspect.getdoc, methods)), word


def test_the_page_tells_of_each_public_name() -> None:
    """Each stands in docs/python.md, in the row of its module or elsewhere."""
    text = (ROOT / "docs" / "python.md").read_text("utf-8")
    names = [name for module in ("ptulab", *MODULES) for name in importlib.import_module(module).__all__]
    missing = [name for name in names if not re.search(rf"`[^`]*\b{name}\b[^`]*`", text)]
    assert len(names) > 60 and not missing, missing


def test_every_module_comes_with_the_package() -> None:
    """``ptulab.scans`` after ``import ptulab``, whatever else was imported: in a process of its own."""
    words = [sys.executable, "-c", f"import ptulab; print(*[name for name in {MODULES} if not hasattr(ptulab, name.partition('.')[2])])"]
    run = subprocess.run(words, capture_output=True, text=True, check=False)
    assert (run.returncode, run.stdout, run.stderr) == (0, "\n", "")
    assert {name.partition(".")[2] for name in MODULES} <= {*ptulab.__all__}


def test_a_process_that_counts_reads_few_modules() -> None:
    """Each name of the package is read when it is asked for: what one file wants of it begins in half the time."""
    words = [sys.executable, "-c", "import sys, ptulab._worker; print(*sys.modules)"]
    read = {*subprocess.run(words, capture_output=True, text=True, check=True).stdout.split()}
    assert "ptulab.report" in read and not {"asyncio", "ptulab.app", "ptulab.fits", "ptulab.many", "ptulab.page"} & read


def test_names_of_the_package() -> None:
    found = [getattr(ptulab, name) for name in ptulab.__all__]
    assert ptulab.run in found and ptulab.program.run is ptulab.run and {*ptulab.__all__} <= {*dir(ptulab)}
    with pytest.raises(AttributeError, match="'ptulab' has no attribute 'nothing'"):
        getattr(ptulab, "nothing")


IMPORTS = """
import importlib, importlib.abc, pkgutil, sys

class Nothing(importlib.abc.MetaPathFinder):
    def find_spec(self, name, path, target=None):
        if name.partition(".")[0] in {words}:
            raise ModuleNotFoundError(name, name=name)

sys.meta_path.insert(0, Nothing())
import ptulab
for one in pkgutil.walk_packages(ptulab.__path__, "ptulab."):
    if one.name != "ptulab.__main__":
        importlib.import_module(one.name)
print(len([name for name in sys.modules if name.startswith("ptulab.")]))
"""
SURROUNDINGS = os.environ | {"PYTHONPATH": str(Path(ptulab.__file__).parents[1])}  # the same package as here
LIBRARIES = ["matplotlib", "scipy", "lmfit", "h5py", "tifffile", "xarray", "plotly", "tqdm", "dask", "distributed", "pandas", "starlette", "uvicorn", "jinja2", "anyio", "httpx"]


def test_only_numpy_is_needed_to_import_it() -> None:
    """Every module is imported where no other library is."""
    words = [sys.executable, "-c", IMPORTS.replace("{words}", repr(LIBRARIES))]
    run = subprocess.run(words, capture_output=True, text=True, env=SURROUNDINGS, check=False)
    assert run.returncode == 0 and int(run.stdout) > 30, run.stderr


ELSEWHERE = """
import mmap, multiprocessing, os, signal, sys

for module, beginnings in ((os, ("sched_", "fork", "register_at_fork", "mkfifo", "geteuid")), (mmap, ("MADV_", "MAP_", "PROT_")), (signal, ("SIGKILL", "SIGHUP"))):
    for name in [name for name in dir(module) if name.startswith(beginnings)]:
        delattr(module, name)
for name in ("fcntl", "resource", "grp", "pwd", "termios"):
    sys.modules[name] = None  # importing it fails
multiprocessing.get_all_start_methods = lambda: ["spawn"]

import ptulab
from ptulab import events, exports, groups, scans
from ptulab._processes import processors

assert processors() >= 1
events.GIVEN_BACK = 1  # so that pages are given back at once
file, report, folder = sys.argv[1:]
read = ptulab.read_events(file)
assert sum(map(len, ptulab.iter_events(file, records=1000))) == len(read) > 1000
whole = ptulab.sum_files([report, report]).report
assert scans.image(file, scans.Scan(64, 64, line=1, frame=2, time=64 * 300)).counts.any()
exports.write_npz(whole, folder + "/report.npz")
ptulab.write_report(whole, folder + "/sum.txt")
assert (ptulab.read_report(folder + "/sum.txt").table("image").counts == whole.table("image").counts).all()
assert str(ptulab.plan_for(file)).startswith(("#", "version")) and ptulab.read_header(file) == read.header
"""


def test_the_parts_without_the_program_work_on_other_systems(tmp_path: Path, program: str) -> None:
    """Where the system has no affinity, fork, advice on memory or modules of Unix, as macOS and Windows."""
    text = subprocess.run([program, "run", EXAMPLES / "scan.toml", EXAMPLES / "scan.ptu"], capture_output=True, check=True).stdout
    (tmp_path / "report.txt").write_bytes(text)
    words = [sys.executable, "-c", ELSEWHERE, str(EXAMPLES / "scan.ptu"), str(tmp_path / "report.txt"), str(tmp_path)]
    run = subprocess.run(words, capture_output=True, text=True, env=SURROUNDINGS, check=False)
    assert (run.returncode, run.stderr) == (0, "")
