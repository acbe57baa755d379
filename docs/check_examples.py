#!/usr/bin/env python3
"""Compares the printed examples of the documents with what the program prints: check_examples.py [PROGRAM] [PAGE ..]

A page is README.md, CONTRIBUTING.md, CHANGELOG.md, a page of docs/ or examples/README.md, or the man page. Its blocks tell what is tried:

- console: each line that begins with '$ ' is a command, and the lines up to the next one are all that it prints,
  standard error included, byte by byte. A command goes on where its line ends with a backslash or within a text in
  single quotes. A line '..' stands for any lines, which were left out.
- sh and python: commands whose output isn't shown. They must end with status 0.
- toml: a plan, which the program must read. If its first line is a comment that is the name of a file, it is put into
  that file, for the commands behind it. If it begins with '# examples/NAME.toml', the block must be that file.
- edit: an edit that must fail, for a file of one of the crates: what it replaces stands there once.
- row: a row of crates/worked_rows/data.
- synopsis: a line for each command of ptulab, with the options that its --help tells, all but --help and --quiet.
- in the man page the lines between .nf and .fi are console.
- json, and py, which the notebook or another test runs, are not tried. Nor is a block with a reason after its kind, as
  'sh (needs root)'. Any other block is a fault, so that none is forgotten.

The blocks of a page are tried in their order, in a folder of their own that has what the pages speak of: the folders
examples, docs, bench and python, ./ptu, ./ptulab, FILE and PLAN, which are the sample of a scan and its plan, the same as big.ptu,
big.ptu.gz and plan.toml, and the folder data with three such files. A block with a program that isn't on this machine is
left out, and that is said. PROGRAM is the one that ./ptu of this tree runs by default. What differs is shown, and so is each link
to a file or a title that isn't there, each name of a crate's file, as `ptu_cli/specs/Runs.antt`, that none has, each path of this
tree, as `bench/run`, that isn't there, and of the code in the prose each command, as `rt check --only`, that there isn't with these
words (inline_commands.py says which are known), and each name (inline_names.py); it ends with 1 if there is any. The scripts of
examples/ want what ptulab wants (python/debian-packages): call it by a Python that has it.
"""

import difflib
import gzip
import itertools
import os
import pathlib
import re
import shutil
import subprocess
import sys
import tempfile
from collections.abc import Iterator
from typing import Any

from inline_commands import wrong_commands
from inline_names import wrong_code

ROOT = os.path.dirname(os.path.dirname(os.path.abspath(__file__)))
SHOWN = 40  # lines of a difference
BUILTINS = {"if", "for", "do", "done", "then", "fi", "cd", "echo", "exit", "export", "source"}


def pages() -> Any:
    names = [name for name in sorted(os.listdir(os.path.join(ROOT, "docs"))) if name.endswith((".md", ".1"))]
    return ["README.md", "CONTRIBUTING.md", "CHANGELOG.md", *(f"docs/{name}" for name in names), "examples/README.md"]


def blocks(text: str) -> Iterator[Any]:
    """The blocks of a page of Markdown: the line at which one begins, its kind, and its lines."""
    for found in re.finditer(r"^```([^`\n]*)\n(.*?)^```$", text, flags=re.M | re.S):
        yield text.count("\n", 0, found.start()) + 1, found[1], found[2]


def man_blocks(text: str) -> Iterator[Any]:
    for found in re.finditer(r"^\.nf\n(.*?)^\.fi$", text, flags=re.M | re.S):
        plain = re.sub(r"\\f[BIRP]", "", found[1]).replace("\\-", "-").replace("\\(aq", "'").replace("\\(dq", '"')
        yield text.count("\n", 0, found.start()) + 1, "console", plain


def commands(text: str) -> Iterator[Any]:
    """Each command of a console block, and what it is said to print."""
    for part in re.split(r"^\$ ", text, flags=re.M)[1:]:
        lines = part.split("\n")
        count = 1
        while lines[count - 1].endswith("\\") or "\n".join(lines[:count]).count("'") % 2:
            count += 1
        yield "\n".join(lines[:count]), "\n".join(lines[count:])


def missing(text: str) -> Any:
    """A program that a block calls and that isn't here, or None."""
    quoted = re.sub(r"'[^']*'|\"[^\"]*\"|#.*", "", text)
    for name in re.findall(r"(?:^|[|;&(])\s*([a-z][\w.-]*)(?=\s|$)", quoted, flags=re.M):
        if name not in BUILTINS and not shutil.which(name, path=search_path()):
            return name


def search_path() -> Any:
    return os.path.join(os.getcwd(), "bin") + ":" + os.environ["PATH"]


def shell(text: str) -> Any:
    """What a command prints, and its status."""
    places = {"PATH": search_path(), "LC_ALL": "C.UTF-8"}
    run = subprocess.run(["sh", "-c", text], stdout=subprocess.PIPE, stderr=subprocess.STDOUT, env=os.environ | places, check=False)
    return run.stdout.decode(), run.returncode


def agrees(said: Any, printed: Any) -> Any:
    """The text that was printed is the one that is said, where a line '..' stands for any lines."""
    parts = re.split(r"^\.\.\n", said, flags=re.M)
    return re.fullmatch("(?:.*\n)*?".join(map(re.escape, parts)), printed) is not None


def read_or_nothing(name: str) -> Any:
    if not os.path.exists(name):
        return ""
    with open(name, encoding="utf-8") as file:
        return file.read()


def fault_of_edit(text: str) -> Any:
    """What is wrong with an edit that must fail, or None."""
    told = dict(line.split(": ", 1) for line in text.splitlines())
    files = [path.read_text("utf-8") for path in pathlib.Path(ROOT, "crates").glob("*/" + told["file"])]
    return None if sum(file.count(told["old"]) == 1 for file in files) == 1 else f"{text}can't be made in just one crate"


def fault_of_row(text: str) -> Any:
    """What is wrong with a row, or None."""
    rows = [path.read_text("utf-8") for path in pathlib.Path(ROOT, "crates/worked_rows/data").glob("*.rows")]
    return None if any(text in one for one in rows) else f"{text}is no row of crates/worked_rows/data"


def fault_of_synopsis(text: str) -> Any:
    """What is wrong with the options of the commands of ptulab, or None."""
    for line in text.splitlines():
        command = line.split()[1]
        told = {*re.findall(r"(?<!\S)\[?(--?[a-z-]+)", line)}
        printed, _ = shell(f"./ptulab {command} --help")
        there = {*re.findall(r"^  (?:-\w[^\n,]*, )?(--?[a-z-]+)", printed, flags=re.M)} - {"--help", "--quiet"}
        if command != "--version" and {alike(option) for option in told} != {alike(option) for option in there} and "words of" not in line:
            return f"{line}: --help tells of {' '.join(sorted(there))}"
    return None


def alike(option: str) -> str:
    """A short option and the long one beside it are one."""
    return option.lstrip("-")[0] if option in ("-o", "--out") else option


def try_block(kind: str, text: str) -> Iterator[Any]:
    """What is wrong with a block, or nothing."""
    of_text = {"edit": fault_of_edit, "row": fault_of_row, "synopsis": fault_of_synopsis}
    if kind in of_text and (fault := of_text[kind](text)):
        yield fault
    if kind == "console":
        for command, said in commands(text):
            printed, _ = shell(command)
            if not agrees(said, printed):
                lines = difflib.unified_diff(said.split("\n"), printed.split("\n"), "said", "printed", lineterm="")
                yield "\n".join([f"$ {command}", *itertools.islice(lines, SHOWN)])
    elif kind in ("sh", "python"):
        with open("block", "w", encoding="utf-8") as out:
            out.write(text)
        printed, status = shell("sh -e block" if kind == "sh" else "PYTHONPATH=examples:python/src python3 block")
        if status != 0:
            yield f"{text}ends with {status}:\n{printed}"
    elif kind == "toml":
        shipped = re.match(r"# (examples/\w+\.toml)\b", text)
        if shipped and text != read_or_nothing(shipped[1]):
            yield f"{text}is not {shipped[1]}"
        named = re.match(r"# ([\w.]+\.toml)\n", text)
        name = named[1] if named else "some.toml"
        with open(name, "w", encoding="utf-8") as out:
            out.write(text)
        printed, status = shell(f"ptu run {name} /dev/null")
        if status != 11:  # the plan was read, and the empty file refused
            yield f"{text}{printed}"


def furnish(program: str) -> None:
    """Puts into this folder what the pages speak of."""
    for name in ("examples", "docs", "bench", "python", "install.sh"):
        os.symlink(os.path.join(ROOT, name), name)
    scan, plan = (os.path.join(ROOT, "examples", name) for name in ("scan.ptu", "scan.toml"))
    for name, target in (("FILE", scan), ("PLAN", plan), ("big.ptu", scan), ("plan.toml", plan)):
        os.symlink(target, name)
    write_script("ptu", f'[ "$1" = --path ] && {{ echo "{program}"; exit; }}\nexec "{program}" "$@"')
    with open(scan, "rb") as data, gzip.open("big.ptu.gz", "wb") as out:
        out.write(data.read())
    for folder in ("bin", "data", "FOLDER"):
        os.mkdir(folder)
    for name in ("a", "b", "c"):
        shutil.copy(scan, f"data/{name}.ptu")
    os.symlink(program, "bin/ptu")
    os.symlink(os.path.join(ROOT, "ptulab"), "ptulab")
    write_script("bin/python3", f'exec "{sys.executable}" "$@"')


def write_script(name: str, lines: str) -> None:
    with open(name, "w", encoding="utf-8") as out:
        out.write(f"#!/bin/sh\n{lines}\n")
    os.chmod(name, 0o755)


def prose(page: Any) -> Any:
    """A page without its blocks."""
    with open(os.path.join(ROOT, page), encoding="utf-8") as file:
        return re.sub(r"^```.*?^```", "", file.read(), flags=re.M | re.S)


def anchors(page: Any) -> Any:
    """What a link can name behind a '#': the titles of a page in small letters, with hyphens for spaces."""
    return {re.sub(r"[^\w -]", "", title.lower()).replace(" ", "-") for title in re.findall(r"^#+ (.*)$", prose(page), flags=re.M)}


def dead_links(page: Any) -> Iterator[Any]:
    """Each link of a page to a file or a title of this tree that isn't there, and each file of a crate that it names so."""
    for name in re.findall(r"`(\w+/(?:src|specs|proofs|must-fail)/[\w./-]+)`", prose(page)):
        if not os.path.exists(os.path.join(ROOT, "crates", name)):
            yield name
    for path in re.findall(r"`[^`\n]*?(?<![\w/.=-])((?:bench|docs|examples|python|build|\.ci|crates|bin)/[\w./-]+)(?=[` ])", prose(page)):
        if not re.search(r"[A-Z]{3}|\.\.|/out/", path) and not os.path.exists(os.path.join(ROOT, path)):
            yield path
    for target in re.findall(r"\]\(([^)\s]+)\)", prose(page)):
        name, _, anchor = target.partition("#")
        file = os.path.normpath(os.path.join(os.path.dirname(page), name)) if name else page
        if "://" not in target and not (os.path.exists(os.path.join(ROOT, file)) and (not anchor or anchor in anchors(file))):
            yield target


def try_page(page: Any, program: str) -> Any:
    """How many blocks of a page were tried, and how many of them differ."""
    with open(os.path.join(ROOT, page), encoding="utf-8") as file:
        text = file.read()
    tried = wrong = 0
    with tempfile.TemporaryDirectory() as folder:
        os.chdir(folder)
        furnish(program)
        for line, kind, block in man_blocks(text) if page.endswith(".1") else blocks(text):
            if kind in ("json", "py") or re.fullmatch(r"\w+ \(.+\)", kind):
                continue
            if kind not in ("console", "sh", "python", "toml", "edit", "row", "synopsis"):
                print(f"{page}:{line}: a block of the kind '{kind}' isn't tried, and doesn't say why")
                wrong += 1
                continue
            called = "\n".join(c for c, _ in commands(block)) if kind == "console" else block if kind == "sh" else ""
            if absent := missing(called):
                print(f"{page}:{line}: left out, {absent} is not on this machine")
                continue
            tried += 1
            faults = list(try_block(kind, block))
            wrong += bool(faults)
            for fault in faults:
                print(f"{page}:{line}: {fault}")
        os.chdir("/")
    return tried, wrong


def program_here() -> str:
    """The program that ./ptu of this tree runs; in the folder of a page the script itself would find no tree beside it."""
    return subprocess.run([os.path.join(ROOT, "ptu"), "--path"], capture_output=True, text=True, check=True).stdout.strip()


def main() -> None:
    given = sys.argv[1:]
    program = os.path.abspath(given.pop(0)) if given and not given[0].endswith((".md", ".1")) else program_here()
    results = [(page, *try_page(page, program)) for page in given or pages()]
    dead = [f"{page}: {target} leads nowhere" for page, _, _ in results for target in dead_links(page)]
    dead += [f"{page}: {fault}" for page, _, _ in results for fault in wrong_commands(page, read_or_nothing(os.path.join(ROOT, page)))]
    dead += [f"{page}: {fault}" for page, _, _ in results for fault in wrong_code(page, read_or_nothing(os.path.join(ROOT, page)))]
    for page, tried, wrong in results:
        if tried:
            print(f"{page}: {tried} blocks tried, {wrong} differ")
    for line in dead:
        print(line)
    sys.exit(bool(dead) or any(wrong for _, _, wrong in results))


if __name__ == "__main__":
    main()
