"""The commands that a page calls in its prose, as `./ptu run PLAN FILE`, or in a block that isn't tried: whether there are such.

A command is what begins with one of these, perhaps behind settings of variables or python3, and goes up to a redirection or pipe:

- ./ptu, ptu: a command of docs/help.txt by its name alone, or with as many words as it takes; or an option of the script ptu.
- ./ptulab, ptulab: a command that its --help tells, with options that its own --help tells.
- the path of a program of this tree, as bench/run or docs/make_crates.py: it can be run, and its text has each of the options.
  The words of .ci/stages are its stages.
- rt, where the kit is on this machine: a command that 'rt help' tells, with options that this or the kit's guide tells, crates
  of this tree, and functions of these, as bin::Bin::of. Elsewhere it isn't looked at.

- dask COMMAND and snakemake, where they are on this machine: a command that answers --help, with options that this tells.

- ./NAME is a file of the tree, and any other program that is given options, or a command of these, is on this machine.

Words in capitals, '..', and what begins with a bracket stand for others. Of anything else nothing is known here.
"""

import functools
import os
import pathlib
import re
import shutil
import subprocess
from collections.abc import Iterator

from made_parts import ROOT, read

ELSEWHERE = ("g++", "set", "sudo", "ulimit", "valgrind", "words", "wsl")  # of the shell, of rows, and programs that this machine may lack
FOLDERS = ("bench/", "build/", "docs/", "examples/", "python/", ".ci/")


def simple_commands(line: str) -> Iterator[list[str]]:
    """The words of each command of a line, without settings and redirections; those within $( ) come by themselves."""
    within = re.findall(r"\$\(([^()]*)\)", line)
    for part in [*within, *re.split(r"\\?\||&&|;", re.sub(r"\"?\$\([^()]*\)\"?", "GIVEN", line))]:
        words = re.sub(r"\s[<>].*", "", part).split()
        while words and re.match(r"\w+=", words[0]):
            words.pop(0)
        yield words


def options(words: list[str]) -> list[str]:
    return [word.partition("=")[0] for word in words if re.match(r"--?[a-zA-Z]", word)]


def names(words: list[str]) -> list[str]:
    """The words that are names as they stand, and stand for nothing else."""
    return [word for word in words if re.fullmatch(r"[a-z][\w-]*", word)]


def lacks(text: str, option: str) -> bool:
    return not re.search(rf"(?<![\w-]){re.escape(option)}(?![\w-])", text)


def fault_of_ptu(words: list[str]) -> str | None:
    """What is wrong with the words of a call of the program, or None."""
    takes = {found[1]: found[2].split() for found in re.finditer(r"^  ptu (\w+)((?: [A-Z]+)+)  ", read("docs/help.txt"), flags=re.M)}
    if absent := [option for option in options(words) if lacks(read("ptu"), option)]:
        return f"no option {absent[0]}"
    if not words or not names(words[:1]) or words[0] in takes and len(words) - 1 in (0, len(takes[words[0]])):
        return None
    return f"takes {' '.join(takes[words[0]])}" if words[0] in takes else f"no command {words[0]}"


@functools.cache
def help_of_ptulab(*words: str) -> str:
    run = subprocess.run([ROOT / "ptulab", *words, "--help"], capture_output=True, text=True, check=False)
    return run.stdout if run.returncode == 0 else ""


def fault_of_ptulab(words: list[str]) -> str | None:
    """What is wrong with the words of a call of ptulab, or None."""
    command = names(words[:1])
    told = help_of_ptulab(*command)
    if not told:
        return f"no command {words[0]}"
    return next((f"no option {option}" for option in options(words) if lacks(told, option)), None)


@functools.cache
def help_of_other(*words: str) -> str | None:
    """What another program tells of itself, None where it isn't on this machine or tells nothing."""
    if not shutil.which(words[0]):
        return None
    run = subprocess.run([*words, "--help"], capture_output=True, text=True, check=False)
    return run.stdout if run.returncode == 0 else None


def fault_of_other(words: list[str]) -> str | None:
    """What is wrong with the words of a call of dask or snakemake, or None."""
    command = names(words[1:2] if words[0] == "dask" else [])
    told = help_of_other(*words[:1], *command)
    if told is None and command and help_of_other(words[0]) is not None:
        return f"no command {command[0]}"
    return next((f"no option {option}" for option in options(words) if told is not None and lacks(told, option)), None)


def fault_of_script(path: str, words: list[str], is_called: bool) -> str | None:
    """What is wrong with the call of a program of this tree, or None; a path alone is a name of it."""
    file = ROOT / path
    if not file.is_file() or not words and not is_called:
        return None if file.exists() or "/out/" in path or not words else "no such file"
    text = file.read_text("utf-8")
    if absent := [option for option in options(words) if lacks(text, option)]:
        return f"no option {absent[0]}"
    if path == ".ci/stages" and (absent := [name for name in names(words) if f"\n{name}() {{" not in text]):
        return f"no stage {absent[0]}"
    return None if is_called or os.access(file, os.X_OK) else "can't be run without python3"


@functools.cache
def words_of_kit() -> tuple[set[str], str] | None:
    """The commands of rt, and all that the kit tells of them; None where it isn't on this machine."""
    if not shutil.which("rt"):
        return None
    told, first = (subprocess.run(["rt", word], stdout=subprocess.PIPE, stderr=subprocess.STDOUT, text=True, check=False).stdout for word in ("help", "doc"))
    guide = [path.read_text("utf-8") for path in pathlib.Path(first.strip()).parent.glob("rattle/*.md")]
    return {name for found in re.findall(r"\brt ([a-z][\w|-]*)", told) for name in found.split("|")}, "\n".join([told, *guide])


def has_function(name: str) -> bool:
    """Whether a crate has a function of this name, as count_block or hist::count_block."""
    module, _, _ = name.rpartition("::")
    files = pathlib.Path(ROOT, "crates").glob(f"*/src/{module.partition('::')[0] or '*'}.rt")
    return any(re.search(rf"\bfn {name.rpartition('::')[2]}\b", file.read_text("utf-8")) for file in files)


def fault_of_rt(words: list[str]) -> str | None:
    """What is wrong with the words of a call of the kit, or None."""
    kit = words_of_kit()
    if kit is None or not names(words[:1]):
        return None
    if words[0] not in kit[0]:
        return f"no command {words[0]}"
    if absent := [option for option in options(words) if lacks(kit[1], option)]:
        return f"no option {absent[0]}"
    functions = [word for before, word in zip(words, words[1:]) if before in ("--only", "--start")]
    if absent := [name for name in functions if not has_function(name)]:
        return f"no function {absent[0]}"
    crates = names(words[1:]) if words[0] in ("ci", "must-fail") else []
    return next((f"no crate {name}" for name in crates if not (ROOT / "crates" / name).is_dir()), None)


@functools.cache
def commands_here() -> set[str]:
    """The commands of ptu, ptulab and the kit."""
    kit = words_of_kit()
    return {*re.findall(r"^  ptu (\w+)", read("docs/help.txt"), flags=re.M), *re.findall(r"^    ([a-z]+)  ", help_of_ptulab(), flags=re.M), *(kit[0] if kit else ())}


def fault_of(words: list[str]) -> str | None:
    """What is wrong with the words of a command, or None."""
    is_called = words[:1] == ["python3"]
    words = words[is_called:]
    if not words or len(words) > 1 and words[1].endswith(":"):  # a line that is printed, as 'ptu build: ..'
        return None
    first, rest = words[0], words[1:]
    if first in ("./ptu", "ptu"):
        return fault_of_ptu(rest)
    if first in ("./ptulab", "ptulab"):
        return fault_of_ptulab(rest)
    if first.startswith(FOLDERS):
        return fault_of_script(first, rest, is_called)
    if first in ("dask", "snakemake"):
        return fault_of_other(words)
    if first == "rt":
        return fault_of_rt(rest)
    if not re.fullmatch(r"[a-z./][\w./+-]*", first) or not options(rest) and rest[:1] not in [[name] for name in commands_here()]:
        return None
    is_there = (ROOT / first).exists() if first.startswith("./") else first in ELSEWHERE or shutil.which(first)
    return None if is_there else f"no program {first}"


def inline(page: str, text: str) -> Iterator[str]:
    """The code in the prose of a page, and in its blocks that give a reason why they aren't tried."""
    if page.endswith(".1"):
        yield from (" ".join(re.sub(r'"|\\\(dq', "", line).replace("\\-", "-").split()) for line in re.findall(r"^\.B[IR]? (.*)$", text, flags=re.M))
    for block in re.findall(r"^```sh \([^`\n]*\n(.*?)^```$", text, flags=re.M | re.S):
        yield from block.splitlines()
    yield from re.findall(r"`([^`\n]+)`", re.sub(r"^```.*?^```", "", text, flags=re.M | re.S))


def wrong_commands(page: str, text: str) -> Iterator[str]:
    """Each command that a page calls so and that there isn't, with what is wrong."""
    for line in inline(page, text):
        for words in simple_commands(line):
            if fault := fault_of(words):
                yield f"'{line}': {fault}"
