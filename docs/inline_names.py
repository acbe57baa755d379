"""The names that a page has in the code of its prose, or in a block that isn't tried: whether there are such.

- Each word, as `--threads`, python3-numpy, dpkg-dev or phasor_reference, stands in some file of this tree that is no page, or in a
  block of its page that is tried; or it is one of OTHERS, with what it belongs to. Words in capitals stand for others.
- ptulab's names, on all pages but that of Rattle's contracts: `name(`, and `name` after a point, as in `table.photons`, are names that
  some module or class of ptulab has, and `module.name` those of this module, or of a class, as a variable may be called so.
- `keyword=`, on the same pages: a parameter of the functions and classes that are called so where it stands in `name(..)`, otherwise
  of any that ptulab has.

That the name is the right one isn't known here: a word passes that stands for something else in the tree.
"""

import builtins
import functools
import importlib
import inspect
import pkgutil
import re
import sys
from collections.abc import Iterator
from typing import Any

from inline_commands import inline
from made_parts import ROOT

RATTLE = "docs/contracts.md"  # names functions of the crates
ENDINGS = "bash csv h5 html js json jsonl lock md npz ome part png ptu py rt sh tar tif toml txt".split()  # of files
LIBRARIES = {"np", "numpy", "lmfit", "concurrent", "sys", "distributed", "kept"}  # before a point; the last is a crate's variable
WORD = re.compile(r"[A-Za-z_][\w-]*[A-Za-z\d]")
TREE = "* .ci/* bench/* bench/edits/**/* build/* crates/*/src/**/* crates/*/specs/**/* crates/*/proofs/**/* crates/*/must-fail/* crates/*/data/**/* docs/* examples/* python/* python/src/**/* python/tests/*"
TEXTS = ("", ".antt", ".css", ".edit", ".html", ".js", ".json", ".py", ".rows", ".rt", ".sh", ".toml", ".txt")
OTHERS = {
    "what a user names": "my me mnt",
    "the kit": "allow-holes lemma rattle-kit-13f dac8208d650f15bf returns-then-time-kept-clause-index tidy Passed-more",
    "an example of the page": "a_time_at_the_end_of_a_bin_counts_in_it SpanEnds SpanLaws recount",
    "packages and versions": "ptu-0 ptu_0 ptulab-0 py3-none-manylinux_2_34_x86_64 externally-managed-environment python3-bokeh dask-jobqueue",
    "Snakemake and dask": "cluster-cancel cluster-status comm executor snakemake-executor-plugin-slurm timeouts unlock",
    "other programs": "O3 callgrind haswell march pipefail sudo valgrind wsl",
    "libraries that were looked at": "filelock phconvert serde toml_datetime toml_writer tomli_w tomlkit",
    "Rust's": "assert_eq make_contiguous read_exact",
    "PicoQuant's": "HWMarkers_HoldOff HWMarkers_RisingEdge HWSync_Divider HWSync_Offset ImgHdr truensync truetime",
    "polars'": "row_number",
}
KEYWORDS = {"axis", "logic"}  # of NumPy, and what the kit prints


@functools.cache
def words_of_tree() -> set[str]:
    """The words of all files of this tree that are no pages, of the names of all, and of OTHERS."""
    told = {word for words in OTHERS.values() for word in words.split()}
    paths = {path for pattern in TREE.split() for path in ROOT.glob(pattern) if path.is_file()}
    files = [path for path in paths if path.suffix in TEXTS and (path.parent != ROOT / "docs" or not re.match(r"test_|measures|numbers|inline_", path.name))]
    return told.union(*(WORD.findall(path.read_text("utf-8", errors="replace")) for path in files), *(WORD.findall(str(path.relative_to(ROOT))) for path in paths))


def wrong_words(line: str, tried: set[str]) -> list[str]:
    """The words of a line of a page that are nowhere else, nor among those of the page's blocks that are tried."""
    return [word for word in WORD.findall(line) if not word.isupper() and word not in tried and word not in words_of_tree()]


@functools.cache
def modules_of_ptulab() -> dict[str, Any]:
    """ptulab and its public modules, by what is behind 'ptulab.'; none where it can't be imported."""
    sys.path.insert(0, str(ROOT / "python/src"))
    try:
        package = importlib.import_module("ptulab")
        found = [one.name for one in pkgutil.walk_packages(package.__path__, "ptulab.") if "._" not in one.name]
        return {name.partition(".")[2]: importlib.import_module(name) for name in ("ptulab", *found)}
    except ImportError:
        return {}
    finally:
        sys.path.pop(0)


def members(owner: Any) -> set[str]:
    """The names that a class has, or that a module gives."""
    return {*getattr(owner, "__all__", dir(owner)), *getattr(owner, "__annotations__", {})}


@functools.cache
def classes() -> list[Any]:
    return list(dict.fromkeys(value for module in modules_of_ptulab().values() for value in vars(module).values() if inspect.isclass(value)))


@functools.cache
def called() -> dict[str, list[Any]]:
    """All that ptulab's modules and their classes have under each name."""
    values: dict[str, list[Any]] = {}
    for owner in (*modules_of_ptulab().values(), *classes()):
        for name in members(owner):
            values.setdefault(name, []).append(getattr(owner, name, None))
    return values


@functools.cache
def parameters(name: str) -> set[str]:
    """The parameters of all that is called so."""
    found: set[str] = set()
    for value in called().get(name, []):
        try:
            found.update(inspect.signature(value).parameters)
        except (TypeError, ValueError):  # it can't be called, or doesn't tell
            continue
    return found


@functools.cache
def all_parameters() -> set[str]:
    return KEYWORDS.union(*map(parameters, called()))


@functools.cache
def names_of(module: str) -> set[str]:
    """What may stand behind the name of a module, which may also be a variable's."""
    return {*members(modules_of_ptulab()[module]), *ENDINGS}.union(*map(members, classes()))


def wrong_names(line: str) -> Iterator[str]:
    """Names of ptulab that it hasn't."""
    if not modules_of_ptulab() or "/" in line:
        return
    known = {*called(), *modules_of_ptulab(), *ENDINGS, *dir(builtins)}
    for module, name in re.findall(r"(?<![\w.])(?:ptulab\.)?([a-z]\w*)\.([a-zA-Z]\w*)(?![\w-])", line):
        if module in modules_of_ptulab() and name not in names_of(module):
            yield f"{module}.{name}"
    for owner, name in re.findall(r"(?<![\w.])([a-z]\w*)\.([a-z]\w*)(?![\w-])", line):
        if owner not in {*modules_of_ptulab(), *LIBRARIES} and name not in known:
            yield f"{owner}.{name}"
    yield from (f"{name}(" for name in re.findall(r"(?<!\w)(?<!np\.)([a-z]\w+)\(", line) if name not in known)


def wrong_keywords(line: str) -> Iterator[str]:
    """Keywords of a call that nothing of this name takes, and others that nothing of ptulab takes."""
    if not modules_of_ptulab() or "/" in line or "--" in line:
        return
    for name, given in re.findall(r"(?<!\w)(?<!np\.)(\w+)\(([^()]*)\)", line):
        taken = KEYWORDS | parameters(name)
        yield from (f"{name}({word}=" for word in re.findall(r"(?<![\w.])([a-z]\w*)=(?!=)", given) if name in called() and word not in taken)
    yield from (f"{word}=" for word in re.findall(r"(?<![\w.-])([a-z]\w*)=(?!=)", line) if word not in all_parameters())


def wrong_code(page: str, text: str) -> Iterator[str]:
    """Each name of a page that there isn't."""
    tried = set(WORD.findall("".join(re.findall(r"^```\w+\n.*?^```", text, flags=re.M | re.S))))
    for line in inline(page, text):
        yield from (f"'{word}' stands in no file of this tree" for word in wrong_words(line, tried))
        if page != RATTLE:
            yield from (f"ptulab has no '{name}'" for name in (*wrong_names(line), *wrong_keywords(line)))
