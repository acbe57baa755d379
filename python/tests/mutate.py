#!/usr/bin/env python3
"""Random changes of the package, of which its tests must notice nine in ten: mutate.py [-n N] [MODULE ..]

Each change is one operator, comparison, truth value or number of a module in MODULES: an operator becomes one of its kind,
a number is one greater, or twice as great. For each the package is copied, and those tests of the module that call the
function with the change run over the copy, the shortest first, until one fails (or takes too long, or too much memory). It
prints each change with its number and what became of it, and ends with 1 where fewer than nine in ten were noticed.
Constants in SPEED change how long something takes and nothing else, so they are left.

The tests must pass without a change, which is tried first, and tells what each of them calls; --calls keeps that in a file
for the next time. A run is a fork of this process, which has the libraries already. Install what python/debian-packages
lists, and name the program by the environment variable PTU.
"""

from __future__ import annotations

import argparse
import ast
import importlib
import json
import os
import random
import resource
import shutil
import sys
import tempfile
import time
from collections.abc import Iterator
from pathlib import Path
from types import FrameType
from typing import Any, NamedTuple

import pytest

ROOT = Path(__file__).resolve().parents[2]
MODULES = {  # with the tests of each
    "fits": ["test_fits.py", "test_steered.py", "test_axes.py"],
    "_fitting": ["test_fitting.py", "test_steered.py", "test_fits.py", "test_axes.py"],
    "segments": ["test_segments.py", "test_edges.py"],
    "fcs": ["test_fcs.py"],
    "pixels": ["test_pixels.py", "test_axes.py"],
    "antibunching": ["test_fitting.py", "test_antibunching.py", "test_edges.py", "test_fits.py", "test_segments.py", "test_steered.py", "test_axes.py"],
    "intensity": ["test_intensity.py"],
    "phasors": ["test_fits.py", "test_edges.py", "test_pixels.py"],
    "scans": ["test_scans.py", "test_edges.py"],
    "bursts": ["test_bursts.py", "test_smfret.py", "test_edges.py", "test_axes.py"],
    "smfret": ["test_smfret.py"],
    "photon_hdf5": ["test_photon_hdf5.py"],
    "events": ["test_events.py", "test_cut.py", "test_edges.py"],
}
LIBRARIES = ("hypothesis", "lmfit", "multipletau", "numpy", "scipy.stats")  # of the tests, but ptulab
SPEED = {"BLOCK", "DENSE", "GIVEN_BACK", "PIECE", "SHORT", "SOME", "TOGETHER"}
LONGEST = 60  # seconds of processor time of the tests of one change, beside five times what they take without it
MEMORY = 6 << 30  # bytes of address space of one run
KINDS: list[list[type[ast.AST]]] = [
    [ast.Add, ast.Sub],
    [ast.Mult, ast.Div],
    [ast.FloorDiv, ast.Mult],
    [ast.Mod, ast.FloorDiv],
    [ast.Pow, ast.Mult],
    [ast.LShift, ast.RShift],
    [ast.BitAnd, ast.BitOr],
    [ast.BitXor, ast.BitOr],
    [ast.MatMult, ast.Mult],
    [ast.Lt, ast.LtE],
    [ast.Gt, ast.GtE],
    [ast.Eq, ast.NotEq],
    [ast.Is, ast.IsNot],
    [ast.In, ast.NotIn],
    [ast.And, ast.Or],
    [ast.USub, ast.UAdd],
]


class Change(NamedTuple):
    """The change of one place of a module, by its number among those of the module, in one of two ways."""

    module: str
    place: int
    way: int


def places(tree: ast.Module) -> list[tuple[ast.AST, str]]:
    """The nodes that can be changed, and the field of each: an operator, or the value of a constant."""
    found: list[tuple[ast.AST, str]] = []
    for node in _code(tree):
        if isinstance(node, ast.BinOp | ast.AugAssign | ast.BoolOp) or (isinstance(node, ast.UnaryOp) and isinstance(node.op, ast.USub)):
            found.append((node, "op"))
        elif isinstance(node, ast.Compare):
            found.append((node, "ops"))
        elif isinstance(node, ast.Constant) and isinstance(node.value, int | float):
            found.append((node, "value"))
    return found


def _code(node: ast.AST) -> Iterator[ast.AST]:
    """What runs, in the order of the source: no annotations, texts, nor constants of speed."""
    for name, value in ast.iter_fields(node):
        if name in ("annotation", "returns", "decorator_list"):
            continue
        for child in value if isinstance(value, list) else [value]:
            if not isinstance(child, ast.AST) or isinstance(child, ast.JoinedStr):
                continue
            if isinstance(child, ast.Assign) and any(isinstance(one, ast.Name) and one.id in SPEED for one in child.targets):
                continue
            if _names_a_type(child):
                continue
            yield child
            yield from _code(child)


def _names_a_type(node: ast.AST) -> bool:
    """Whether it is one type or another, as in ``isinstance`` or an alias."""
    return isinstance(node, ast.BinOp) and isinstance(node.op, ast.BitOr) and "None" in ast.dump(node) or (
        isinstance(node, ast.BinOp) and isinstance(node.op, ast.BitOr) and all(isinstance(one, ast.Name) and one.id in TYPES for one in (node.left, node.right))
    )


TYPES = {"Events", "Table", "Coincidences", "int", "float", "Fraction"}


def changed(text: str, change: Change) -> tuple[str, str]:
    """The module with the change, and what is said of it."""
    tree = ast.parse(text)
    node, field = places(tree)[change.place]
    before, line = ast.unparse(node), getattr(node, "lineno", 0)
    if field == "value":
        _change_number(node, change.way)
    elif field == "ops":
        operators = node.ops  # type: ignore[attr-defined]
        operators[-1] = _other(operators[-1])
    else:
        node.op = _other(node.op)  # type: ignore[attr-defined]
    return ast.unparse(tree), f"{change.module}.py:{line}: {before} -> {ast.unparse(node)}"


def _change_number(node: ast.AST, way: int) -> None:
    value = node.value  # type: ignore[attr-defined]
    if isinstance(value, bool):
        node.value = not value  # type: ignore[attr-defined]
    else:
        node.value = value + 1 if way or not value else value * 2  # type: ignore[attr-defined]


def _other(operator: ast.AST) -> ast.AST:
    for kind in KINDS:
        if type(operator) in kind:
            return kind[1 - kind.index(type(operator))]()
    raise ValueError(f"no other operator for {operator}")


def function_of(text: str, change: Change) -> str | None:
    """The name of the innermost function that has the change, None of what runs on import."""
    tree = ast.parse(text)
    node, _ = places(tree)[change.place]
    line = getattr(node, "lineno", 0)
    functions = [one for one in ast.walk(tree) if isinstance(one, ast.FunctionDef)]
    around = sorted((one.lineno, one.name) for one in functions if one.lineno <= line <= (one.end_lineno or 0))
    return around[-1][1] if around else None


class Calls:
    """Notes what the tests of a module call and how long they take, or has those run that call a function."""

    def __init__(self, file: Path, wanted: str | None = None, known: dict[str, Any] | None = None) -> None:
        self.file, self.wanted, self.known = os.fspath(file), wanted, known
        self.called: set[str] = set()
        self.found: dict[str, Any] = {}

    def pytest_collection_modifyitems(self, items: list[pytest.Item]) -> None:
        """Leaves the tests that call the function, the shortest first."""
        if self.known is not None:
            some = {name: seconds for name, (seconds, called) in self.known.items() if self.wanted is None or self.wanted in called}
            items[:] = sorted((one for one in items if one.nodeid in some), key=lambda one: float(some[one.nodeid]))
            _limit(resource.RLIMIT_CPU, int(time.process_time() + LONGEST + 5 * sum(some.values())))

    @pytest.hookimpl(hookwrapper=True)  # type: ignore[misc]
    def pytest_runtest_protocol(self, item: pytest.Item) -> Iterator[None]:
        """Notes what one test calls."""
        self.called, begun_at = set(), time.process_time()
        if self.known is None:
            sys.settrace(self.trace)
        yield
        sys.settrace(None)
        self.found[item.nodeid] = (time.process_time() - begun_at, sorted(self.called))

    def trace(self, frame: FrameType, event: str, what: Any) -> None:
        """Notes a call of a function of the module."""
        if frame.f_code.co_filename == self.file:
            self.called.add(frame.f_code.co_name)


def _limit(what: int, most: int) -> None:
    resource.setrlimit(what, (most, most))


def begun(module: str, text: str | None, wanted: str | None, calls: Path) -> int:
    """A process that runs the tests of a module, with another text where one is given; its status is 0 where they pass."""
    process = os.fork()
    if process:
        return process
    status = 2
    try:
        _limit(resource.RLIMIT_AS, MEMORY)
        nothing = os.open(os.devnull, os.O_WRONLY)
        for stream in (1, 2) if text is not None else ():
            os.dup2(nothing, stream)
        with tempfile.TemporaryDirectory() as folder:
            status = _status(Path(folder), module, text, wanted, calls)
    finally:
        os._exit(status)


def _status(folder: Path, module: str, text: str | None, wanted: str | None, calls: Path) -> int:
    """The status of pytest, 0 too where no test calls the function."""
    shutil.copytree(ROOT / "python" / "src", folder / "src", ignore=shutil.ignore_patterns("__pycache__"))
    file = folder / "src" / "ptulab" / f"{module}.py"
    if text is not None:
        file.write_text(text, "utf-8")
    tests = ROOT / "python" / "tests"
    os.chdir(folder)
    words = ["-x", "-q", "-W", "ignore", "-p", "no:cacheprovider", "--hypothesis-seed=0", f"--basetemp={folder / 'made'}"]
    words += [f"--rootdir={tests.parent}", "-c", str(tests.parent / "pyproject.toml"), "-o", f"pythonpath={folder / 'src'} {tests}"]
    noted = Calls(file, wanted, None if text is None else json.loads(calls.read_text("utf-8"))[module])
    status = int(pytest.main([*words, *(str(tests / name) for name in MODULES[module])], [noted]))
    if text is None and not status:
        calls.with_suffix(f".{module}").write_text(json.dumps(noted.found), "utf-8")
    return 0 if status == pytest.ExitCode.NO_TESTS_COLLECTED else status


def noticed(changes: list[tuple[str, str | None, str | None]], processes: int, calls: Path) -> Iterator[tuple[int, str]]:
    """The place of each of these modules and texts, in the order in which their tests end, and what became of it."""
    waiting, running = list(enumerate(changes)), dict[int, int]()
    while waiting or running:
        while waiting and len(running) < processes:
            place, change = waiting.pop(0)
            running[begun(*change, calls)] = place
        process, status = os.wait()
        word = "NOT NOTICED" if not status else "took too long" if os.WIFSIGNALED(status) else "noticed"
        yield running.pop(process), word


def _calls_of(modules: list[str], processes: int, calls: Path) -> bool:
    """Whether the tests of these modules pass; what they call is noted in the file, if it isn't yet."""
    if not calls.exists():
        if any(word != "NOT NOTICED" for _, word in noticed([(name, None, None) for name in modules], processes, calls)):
            return False
        calls.write_text(json.dumps({name: json.loads(calls.with_suffix(f".{name}").read_text("utf-8")) for name in modules}), "utf-8")
    return True


def main() -> int:
    """Makes and tries the changes."""
    parser = argparse.ArgumentParser(description=(__doc__ or "").splitlines()[0])
    parser.add_argument("modules", nargs="*", default=[*MODULES], help="of which modules (all)")
    parser.add_argument("-n", type=int, default=100, help="how many changes (100)")
    parser.add_argument("--seed", type=int, default=1, help="chooses them (1)")
    parser.add_argument("-p", type=int, default=2, help="how many are tried at a time (2)")
    parser.add_argument("--calls", type=Path, help="a file that keeps what the tests call")
    parser.add_argument("--only", type=int, nargs="+", help="only those of the changes that have these numbers")
    words = parser.parse_args()
    one_thread = dict.fromkeys(("OMP_NUM_THREADS", "OPENBLAS_NUM_THREADS"), "1")
    os.environ |= {"PTU": os.path.realpath(os.environ.get("PTU") or ROOT / "out" / "ptu"), "MPLBACKEND": "Agg"} | one_thread
    for name in LIBRARIES:
        importlib.import_module(name)
    with tempfile.TemporaryDirectory() as folder:
        return tried(words, words.calls.absolute() if words.calls else Path(folder) / "calls")


def tried(words: argparse.Namespace, calls: Path) -> int:
    """Makes the changes, and says what became of them."""
    if not _calls_of(words.modules, words.p, calls):
        print("the tests fail without a change", file=sys.stderr)
        return 2
    texts = {name: (ROOT / "python" / "src" / "ptulab" / f"{name}.py").read_text("utf-8") for name in words.modules}
    every = [Change(name, place, way) for name, text in texts.items() for place in range(len(places(ast.parse(text)))) for way in (0, 1)]
    some = random.Random(words.seed).sample(every, words.n)
    numbers = words.only or range(words.n)
    made = [(one.module, *changed(texts[one.module], one), function_of(texts[one.module], one)) for one in (some[n] for n in numbers)]
    left: list[str] = []
    for place, word in noticed([(module, text, function) for module, text, _, function in made], words.p, calls):
        said = f"{numbers[place]} {made[place][2]}"
        print(word, said, flush=True)
        left += [said] if word == "NOT NOTICED" else []
    print(f"{len(made) - len(left)} of {len(made)} were noticed; those that weren't:", *left, sep="\n")
    return int(10 * (len(made) - len(left)) < 9 * len(made))


if __name__ == "__main__":
    sys.exit(main())
