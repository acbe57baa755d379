#!/usr/bin/env python3
"""Checks the figures that documents state against measures.toml: check_measures.py [--write]

A figure is a number with a decimal point, with a per cent sign, or with one of the `units` of measures.toml after it, or a number
in a word, as twelve, with one of its `things` after it; the others are looked at by check_numbers.py. On the `pages` of
measures.toml (patterns of names, but for those that are `apart`) each figure outside of blocks of code and made parts must be in
one of these:

- measure.NAME: one number, or the version, that one or more pages state. It has a `value` and the day on which it was measured (`on`), or is
  `counted` here in the tree; with both, what is counted may differ by a tenth. `said` lists its places as PAGE: WORDS, where {}
  stands for the number.
- told.NAME: places of one page, measured on one day (`on`) under the same conditions (`how`). Each is WORDS with its figures in
  braces, as "takes {1.04} of the seconds".
- table.NAME: a whole table of one page, made of `rows`, with `on` and `how`.
- constant.NAME: `words`, on any page, for a number that the code has: `text` must be in `file`.
- facts.PAGE: words with numbers that nothing measured, as facts of the format, limits of a plan, and those of an example.

Any other number of two digits or more, but of a date or a citation, must be in one of these too, stand in the page's own code
(whose examples are run), or in the `sources`. A small number stands in these by chance: what this finds is a large one that
nothing has.

WORDS must stand once on their page, where a line may break at each blank. With --write the figures and tables of measures.toml
are put there. Ends with 1 where something differs, or where a page has a figure that measures.toml hasn't.
"""

import datetime
import functools
import pathlib
import re
import shutil
import subprocess
import sys
import tomllib
from collections.abc import Callable, Iterator
from typing import Any

from made_parts import ROOT, finish, put_part, read

NUMBER = r"\d+(?:,\d{3})*(?:\.\d+)*"
WORDS = "two three four five six seven eight nine ten eleven twelve thirteen fourteen fifteen sixteen seventeen eighteen nineteen twenty".split()
WORD = "|".join(WORDS)
SCRIPT = "check_measures.py"
DATED = r"\*\*\d+\*\*(?:, \d+){1,2}|\((?:19|20)\d\d\)|\d+ November 2026"  # the volume and the page of a citation, its year, and days


def crates_of_program() -> int:
    """The crates that the program stands on, and itself."""
    below = {line.split(":")[0]: line.split(":")[1].split() for line in re.sub(r"#.*", "", read("crates.txt")).split("\n") if ":" in line}
    found, waiting = set(), ["ptu"]
    while waiting:
        name = waiting.pop()
        if name in below and name not in found:
            found.add(name)
            waiting += below[name]
    return len(found)


def files(*patterns: str) -> list[str]:
    return [str(path) for pattern in patterns for path in ROOT.glob(pattern)]


def lines_of_proofs(crate: str) -> int:
    return sum(pathlib.Path(name).read_text("utf-8").count("\n") for name in files(f"crates/{crate}/proofs/**/*.antt"))


PROGRAM = ROOT / "bin/x86-64-v2/ptu"


def program_kilobytes() -> int | None:
    """The size of the program in thousands of bytes, None where it isn't there."""
    return round(PROGRAM.stat().st_size / 1000) if PROGRAM.exists() else None


def c_library() -> float | None:
    """The version of the GNU C library that the program asks for, None where that can't be seen."""
    if not PROGRAM.exists() or not shutil.which("objdump"):
        return None
    symbols = subprocess.run(["objdump", "-T", PROGRAM], capture_output=True, text=True, check=True).stdout
    return max((float(f"{major}.{minor}") for major, minor in re.findall(r"GLIBC_(\d+)\.(\d\d)\b", symbols)), default=None)


COUNTERS: dict[str, Callable[[], float | str | None]] = {
    "version": lambda: read("VERSION").strip(),
    "crates_of_program": crates_of_program,
    "edits_of_gate": lambda: len(files("crates/*/must-fail/*.edit")),
    "other_edits": lambda: len(files("bench/edits/*/*.edit")),
    "rules_of_plans": lambda: len(re.findall(r"^\| \d+ \|", read("docs/plan.md").split("## The rules")[1], flags=re.M)),
    "program_kilobytes": program_kilobytes,
    "c_library": c_library,
    "python": lambda: float(re.findall(r'requires-python = ">=([\d.]+)"', read("python/pyproject.toml"))[0]),
    "lines_of_adapters": lambda: read("crates/ptu_cli/src/edge.rt").count("\n"),
    "bytes_of_bench": lambda: (ROOT / "examples/bench.ptu").stat().st_size,
    "bytes_of_scan": lambda: (ROOT / "examples/scan.ptu").stat().st_size,
    "facts": lambda: len(re.findall(r"^\| \d+ \|", read("docs/proved.md").split("facts\n")[1].split("\n## ")[0], flags=re.M)),
    "record_types": lambda: len(re.findall(r"\w+,", read("crates/tally_base/src/header.rt").split("enum RecordType {")[1].split("}")[0])),
    "kinds": lambda: len(re.findall(r"\w+_kind ∷", read("crates/plan_text/specs/Kinds.antt"))),
    "greatest_status": lambda: max(int(number) for number in re.findall(r"^  ( \d|\d\d) ", read("docs/help.txt"), flags=re.M)),
    "proofs_of_a_trace": lambda: lines_of_proofs("count_trace"),
    "proofs_of_a_decay": lambda: lines_of_proofs("tcspc_hist"),
    "proofs_of_a_cube": lambda: lines_of_proofs("flim_cube"),
    "proofs_of_a_correlation": lambda: lines_of_proofs("tau_cascade"),
    "least_coverage": lambda: int(re.findall(r"fail-under=(\d+)", read("python/check"))[0]),
}


def shown(value: float | str) -> str:
    return f"{value:,}" if not isinstance(value, str) and abs(value) >= 1000 else str(value)


def pattern(words: str) -> re.Pattern[str]:
    """Finds words with any numbers in the place of those in braces; its groups are words and numbers in turn."""
    between = [re.escape(part).replace(r"\ ", r"\s+") for part in re.split(r"\{[^{}]*\}", words)]
    return re.compile(f"({f')({NUMBER}|{WORD})('.join(between)})")


def as_before(number: str, before: str) -> str:
    """A number in a word, where it was in one."""
    return WORDS[int(number) - 2] if before in WORDS and number.isdigit() and 2 <= int(number) < len(WORDS) + 2 else number


def figures(words: str) -> list[str]:
    return re.findall(r"\{([^{}]*)\}", words)


def put_figures(text: str, words: str, numbers: list[str]) -> str | None:
    """The text with these numbers in the place that has these words, None where there isn't one such place."""
    found = list(pattern(words).finditer(text))
    if len(found) != 1:
        return None
    parts = list(found[0].groups())
    parts[1::2] = map(as_before, numbers, parts[1::2])
    return text[: found[0].start()] + "".join(parts) + text[found[0].end() :]


def faults_of_days(told: dict[str, Any]) -> Iterator[str]:
    """What was measured has a day; a table and places that are told also have their conditions."""
    for kind in ("measure", "told", "table"):
        for name, one in told.get(kind, {}).items():
            if ("counted" not in one or "value" in one) and not isinstance(one.get("on"), datetime.date):
                yield f"docs/measures.toml: {kind}.{name} has no day"
            if kind != "measure" and not one.get("how"):
                yield f"docs/measures.toml: {kind}.{name} has no conditions"


def faults_of_counts(measures: dict[str, Any]) -> Iterator[str]:
    """What can be counted in the tree is as it was measured. A count that isn't known has no value."""
    for name, measure in measures.items():
        counted = COUNTERS[measure["counted"]]() if "counted" in measure else None
        value = measure.setdefault("value", counted)
        if counted not in (None, value) and abs(counted - value) > 0.1 * value:
            yield f"docs/measures.toml: {name} is {value}, and was counted as {counted}: measure it anew"


def faults_of_constants(constants: dict[str, Any]) -> Iterator[str]:
    """The code has each constant, and a constant has words."""
    for name, one in constants.items():
        if one["text"] not in read(one["file"]) or not one["words"]:
            yield f"docs/measures.toml: constant.{name}: {one['file']} hasn't the text '{one['text']}'"


def pages_of(told: dict[str, Any]) -> list[str]:
    """The pages whose figures are checked: those that a pattern names, but for those apart."""
    found = {str(path.relative_to(ROOT)) for pattern in told["pages"] for path in ROOT.glob(pattern)}
    return sorted(found - set(told["apart"]))


def places(told: dict[str, Any]) -> Iterator[tuple[str, str, list[str] | None]]:
    """The places of figures: the page, the words, and the numbers, None where they aren't known on this machine."""
    for measure in told.get("measure", {}).values():
        for page, words in (place.split(": ", 1) for place in measure["said"]):
            yield page, words, None if measure.get("value") is None else [shown(measure["value"])]
    for one in told.get("told", {}).values():
        yield from ((one["page"], words, figures(words)) for words in one["words"])


def literals(text: str) -> set[str]:
    """The digits of the whole numbers in a text, and of powers of two that are shifted so."""
    shifts = re.findall(r"\b1 << (\d{1,2})\b", text)
    return {re.sub("[,_]", "", number) for number in re.findall(r"\d[\d,_]*", text)} | {str(1 << int(shift)) for shift in shifts}


@functools.cache
def literals_of(*patterns: str) -> set[str]:
    return literals("\n".join(pathlib.Path(name).read_text("utf-8") for name in files(*patterns)))


def with_words_before(found: re.Match[str]) -> str:
    """What was found in a text, with up to thirty characters of the line before it."""
    return found.string[: found.start()].rpartition("\n")[2][-30:] + found[0]


def blanks_may_break(words: str) -> re.Pattern[str]:
    return re.compile(re.escape(words).replace(r"\ ", r"\s+"))


def without_known(text: str, page: str, told: dict[str, Any]) -> str:
    """A text of a page without made parts, and without its measures and facts of measures.toml."""
    text = re.sub(r"^[^\n]*made by docs/.*?(?:<!--|#) end\b", "", text, flags=re.M | re.S)
    for whose, words, _ in places(told):
        text = pattern(words).sub(" ", text) if whose == page else text
    for fact in told.get("facts", {}).get(page, []):
        text = blanks_may_break(fact).sub(" ", text)
    return text


def unmeasured(page: str, told: dict[str, Any]) -> Iterator[str]:
    """Figures of a page that nothing in measures.toml has, and facts that the page hasn't."""
    text = re.sub(r"^```.*?^```", "", read(page), flags=re.M | re.S)
    for fact in told.get("facts", {}).get(page, []):
        if not blanks_may_break(fact).search(text):
            yield f"{page}: '{fact}', a fact of docs/measures.toml, isn't there"
    text = without_known(text, page, told)
    for words in (words for one in told.get("constant", {}).values() for words in one["words"]):
        text = re.sub(rf"(?<![\w.,^]){blanks_may_break(words).pattern}\b", " ", text)
    text = re.sub(r"`[^`\n]*`|\]\([^)\n]*\)", " ", text)
    unit = rf"[- ](?:(?:million|thousand) )?(?:{'|'.join(told['units'])})\b| ?%"
    figure = rf"{NUMBER}(?:{unit})|\d[\d,]*\.\d+(?!\w|\.\d)|(?:{WORD}) (?:{'|'.join(told['things'])})\b"
    for found in re.finditer(rf"(?<![\w.,^])(?:{figure})", text):
        yield f"{page}: '{with_words_before(found)}' is no measure of docs/measures.toml"
    code = "".join(re.findall(r"^```.*?^```|`[^`\n]*`", read(page), flags=re.M | re.S))
    known = literals(code) | literals_of(*told["sources"])
    for found in re.finditer(r"(?<![\w.,^])(?:\d{1,3}(?:,\d{3})+|\d\d+)(?![\w.]*\d)", re.sub(f"{figure}|{DATED}", " ", text)):
        if found[0].replace(",", "") not in known:
            yield f"{page}: '{with_words_before(found)}' is in no example of the page, nor in the sources or docs/measures.toml"


def main() -> None:
    told = tomllib.loads(read("docs/measures.toml"))
    wrong = [*faults_of_days(told), *faults_of_counts(told["measure"]), *faults_of_constants(told["constant"])]
    texts: dict[str, str] = {}
    for page, words, numbers in places(told):
        text = texts.setdefault(page, read(page))
        changed = put_figures(text, words, numbers) if numbers is not None else text
        if changed is None:
            wrong.append(f"{page}: the words '{words}' of docs/measures.toml must stand there once")
        texts[page] = changed or text
    for name, table in told.get("table", {}).items():
        page = table["page"]
        texts[page] = put_part(texts.setdefault(page, read(page)), SCRIPT, name, table["rows"])
    wrong += [fault for page in pages_of(told) for fault in unmeasured(page, told)]
    if "--write" not in sys.argv[1:]:
        sys.argv.append("--check")
    print(*wrong, sep="\n", end="\n" if wrong else "")
    finish(texts)
    sys.exit(bool(wrong))


if __name__ == "__main__":
    main()
