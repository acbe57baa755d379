#!/usr/bin/env python3
"""Makes the lists of commands, of exit statuses and of rules of plans wherever they stand: make_references.py [--check]

The program's sources are the truth. The statuses and their printed lines are read off the definitions of the faults
(`status_of`, `reason_of`), which command can end with which off the law on the statuses of runs (`FailsWith`, `cases`), the
commands and what they do off `Request` and `Command`; wherever these stand among the crates. statuses.toml says when
a run ends so, and plan.md has the rules. Made of these are

- the table of statuses in formats.md, and in README.md if it has that part
- the statuses and the rules in the man page ptu.1
- help.txt, which ./ptu --help and the installed ptu-help print, with the version (VERSION)
- the completion examples/ptu.bash
- python/src/ptulab/refusals.json, by which the package says what a refusal means

With --check nothing is written, and it ends with 1 where one of these isn't current.
"""

import functools
import json
import re
import tomllib
from collections.abc import Iterable, Iterator
from dataclasses import dataclass

from made_parts import ROOT, finish, has_part, put_part, read

SCRIPT = "make_references.py"
ENDINGS = {"PLAN": "*.toml", "FILE": "*.ptu"}  # what the shell completes for a word of a command


@dataclass
class Command:
    """A command of the program: its word, the words behind it in capitals, and what it does."""

    word: str
    words: list[str]
    does: str


@dataclass
class Ending:
    """One way to end: the status, the line on standard error ('' for none), when it comes, and for which commands."""

    status: int
    line: str
    when: str
    commands: list[str]


# The sources.


@functools.cache
def sources(pattern: str) -> dict[str, str]:
    return {str(path): path.read_text("utf-8") for path in sorted(ROOT.glob(f"crates/*/{pattern}"))}


def source_with(pattern: str, begin: str) -> str:
    """From a line that begins so on: the text of the one source that has it."""
    found = [text[at.start() :] for text in sources(pattern).values() if (at := re.search(rf"^{begin}", text, flags=re.M))]
    if len(found) != 1:
        raise SystemExit(f"{len(found)} sources have a line that begins with {begin}; {SCRIPT} reads one")
    return found[0]


def cases(name: str) -> dict[str, str]:
    """The cases of a definition of specs/: what it is called with, and what it gives."""
    text = source_with("specs/**/*.antt", rf"(?:abbrev |unfoldable )?pub {name} :")
    lines = re.sub(r"\n +", " ", text).split("\n")[1:]
    found = [re.fullmatch(rf"{name} (.*?) = (.*)", line) for line in lines[: next((k for k, line in enumerate(lines) if not line), None)]]
    return {case[1]: case[2] for case in found if case}


def text_of(term: str) -> str:
    """A printed text, with the fields of a fault in capitals, of the definition of its bytes."""
    parts = re.findall(r'codes "(.*?)"|([a-z]\w*)\)?(?: \+\+|$)', term)
    return "".join(words or field.upper() for words, field in parts)


def statuses_in(term: str) -> set[int]:
    """The statuses that a fact on a number n allows, but for what it names besides."""
    ends = re.findall(r"IsIn (\d+) (\d+)", term) + [(n, n) for n in re.findall(r"n ≡ (\d+)", term)]
    return {status for low, high in ends for status in range(int(low), int(high) + 1)}


# What is told.


def commands() -> list[Command]:
    shapes = re.findall(r"^  (\w+) : (.*?)→ Request$", source_with("specs/**/*.antt", "pub data Request ").split("\n\n")[0], flags=re.M)
    docs = source_with("src/**/*.rt", r"pub enum Command\b").split("\n}\n")[0]
    found = []
    for name, arguments in shapes:
        words = [word.upper() for group in re.findall(r"\(([\w ]+?) :", arguments) for word in group.split()]
        does = re.search(rf"((?: *///[^\n]*\n)+) *{name} \{{", docs)
        if does is None:
            raise SystemExit(f"the command {name} has no comment in the enum Command")
        said = " ".join(line.strip().removeprefix("///").strip() for line in does[1].strip().split("\n"))
        found.append(Command(name.lower(), words, re.split(r"(?<=\w)\.(?: |$)", said)[0]))
    return found


def statuses_of_lines(term: str, above: tuple[str, ...] = ()) -> set[int]:
    """The statuses of the lines of a table (`Line`), and of those that it names."""
    ends = re.findall(r"(?:\w+_lines|Line \w+) (\d+) (\d+)", term) + [(n, n) for n in re.findall(r"Needs (\d+)", term)]
    found = {status for low, high in ends for status in range(int(low), int(high) + 1)}
    for name in set(re.findall(r"\b\w+_lines\b", term)) - set(above):
        body = source_with("specs/**/*.antt", rf"abbrev pub {name} :").split("\n\n")[0].split("\n", 1)[1]
        found |= statuses_of_lines(body, (*above, name))
    return found


def statuses_by_command() -> dict[str, set[int]]:
    """The statuses that the runs of each command may end with, by the law on them: those of its table, and of what fails outside."""
    outside = {case.split()[0].strip("()"): statuses_in(fact) for case, fact in cases("FailsWith").items()}
    shapes = {case: term.split()[0] for case, term in cases("behaviour").items()}
    named = {case: re.match(r"\(Some \((\w+) ", case) for case in cases("cases")}
    return {
        name[1].removesuffix("Of").lower(): statuses_of_lines(cases("cases")[case]) | outside[shapes[case]] for case, name in named.items() if name
    }


def endings() -> Iterator[Ending]:
    told = tomllib.loads(read("docs/statuses.toml"))
    numbers = {case.strip("()").split()[0]: int(number) for case, number in cases("status_of").items()}
    lines = {case.strip("()").split()[0]: text_of(term) for case, term in cases("reason_of").items()}
    if {fault["name"] for fault in told["fault"]} != set(numbers):
        raise SystemExit(f"statuses.toml has not the faults of the code: {set(numbers) ^ {fault['name'] for fault in told['fault']}}")
    kinds = [f"`{text_of(term)}`" for term in cases("kind_name").values()]
    named, may_end = commands(), statuses_by_command()
    yield Ending(0, "", told["success"], [command.word for command in named])
    for fault in told["fault"]:
        status, slot = numbers[fault["name"]], fault.get("slot")
        line = lines[fault["name"]].replace("SLOT", str(slot))
        when = fault["when"].replace("{kinds}", ", ".join(kinds[:-1]) + " or " + kinds[-1])
        asked = {"plan": "PLAN", "data": "FILE"}.get(slot)
        ends = [c.word for c in named if fault.get("words") or status in may_end[c.word] and (not asked or asked in c.words)]
        if not ends:
            raise SystemExit(f"by the law on the statuses no command ends with {status}, {fault['name']}")
        yield Ending(status, f"ptu: {line}", when, ends)


def rules() -> list[list[str]]:
    """The rules of plans: number, words, and what INDEX is."""
    text = read("docs/plan.md").split("## The rules\n", 1)[1]
    lines = text[text.index("|") :].split("\n\n", 1)[0].split("\n")[2:]
    return [[cell.strip() for cell in line.strip()[1:-1].split("|")] for line in lines]


# How it is written.


def unlinked(text: str) -> str:
    return re.sub(r"\[(.*?)\]\(.*?\)", r"\1", text)


def markdown(found: list[Ending], folder: str) -> str:
    names = [command.word for command in commands()]
    lines = ["| Status | Line | When | " + " | ".join(names) + " |", "|---" * (3 + len(names)) + "|"]
    for one in found:
        when = one.when.replace("](", f"]({folder}")
        marks = [" x " if name in one.commands else " " for name in names]
        lines.append(f"| {one.status} | {f'`{one.line}`' if one.line else 'none'} | {when} |" + "|".join(marks) + "|")
    return "\n".join(lines) + "\n"


def roff(text: str) -> str:
    """A text in the man page's own signs: no links, no code marks, and no control line by chance."""
    text = unlinked(text).replace("`", "").replace("\\", "\\e").replace("-", "\\-")
    return re.sub(r"^([.'])", r"\\&\1", text).replace('"', "\\(dq")


def man_rules() -> str:
    return "".join(f".TP 6\n.B {number}\n{roff(words)}\nINDEX: {roff(index)}.\n" for number, words, index in rules())


def man_statuses(found: Iterable[Ending]) -> str:
    names = [command.word for command in commands()]
    lines = []
    for one in found:
        said = f".B {roff(one.line)}\n.br\n" if one.line else ""
        whose = "every command" if one.commands == names else ", ".join(one.commands)
        lines.append(f".TP 6\n.B {one.status}\n{said}{roff(one.when[0].upper() + one.when[1:])} ({whose}).\n")
    return "".join(lines)


def help_text(found: Iterable[Ending]) -> str:
    shown = [(f"ptu {' '.join([c.word, *c.words])}", c.does) for c in commands()]
    wide = max(len(usage) for usage, _ in shown)
    lines = [f"  {usage:{wide}}  {does[0].lower()}{does[1:]}" for usage, does in shown]
    said = [f"  {one.status:2} {one.line.removeprefix('ptu: ')}" for one in found if one.line]
    return f"""ptu {read('VERSION').strip()} counts decays, lifetime images, correlations and coincidences in PicoQuant .ptu files.

{chr(10).join(lines)}

Status 0: all was done. With any other status standard error has one line: "ptu: " and
{chr(10).join(said)}

The program has no options, so 'ptu --help' is a bad command line to it: './ptu --help' in the source folder, and the
installed 'ptu-help', print this text. There './ptu --build' proves and builds the program anew, and './ptu --path' prints
which program './ptu' runs. All of it, with when each status comes: 'man ptu', or in the source folder 'man -l docs/ptu.1'.
How to write a plan: docs/plan.md. How to read a report: docs/report.md.
"""


def completion() -> str:
    found = commands()
    places: dict[str, list[str]] = {}
    for command in found:
        for at, word in enumerate(command.words, 2):
            if word in ENDINGS:
                places.setdefault(word, []).append(f"{command.word}:{at}")
    lines = [f'    local commands="{" ".join(command.word for command in found)}"']
    lines += [f'    local {word.lower()}s=" {" ".join(at)} "' for word, at in places.items()]
    return "\n".join(lines) + "\n"


def refusals(found: Iterable[Ending]) -> str:
    statuses: dict[str, dict[str, str]] = {}
    for one in found:
        if one.line:
            statuses.setdefault(str(one.status), {})[one.line] = unlinked(one.when)
    words = {"statuses": statuses, "rules": {number: unlinked(said) for number, said, _ in rules()}}
    return json.dumps(words, indent=1, ensure_ascii=False) + "\n"


def main() -> None:
    found = list(endings())
    page = put_part(read("docs/ptu.1"), SCRIPT, "rules", man_rules())
    texts = {
        "docs/formats.md": put_part(read("docs/formats.md"), SCRIPT, "statuses", markdown(found, "")),
        "docs/ptu.1": put_part(page, SCRIPT, "statuses", man_statuses(found)),
        "docs/help.txt": help_text(found),
        "examples/ptu.bash": put_part(read("examples/ptu.bash"), SCRIPT, "commands", completion()),
        "python/src/ptulab/refusals.json": refusals(found),
    }
    if has_part(read("README.md"), SCRIPT, "statuses"):
        texts["README.md"] = put_part(read("README.md"), SCRIPT, "statuses", markdown(found, "docs/"))
    finish(texts)


if __name__ == "__main__":
    main()
