#!/usr/bin/env python3
"""Makes the tables of contracts.md of the sources: make_proved.py [--check]

A part of contracts.md begins with a line that names crates:

    <!-- made by docs/make_proved.py: abs_time settle -->

Behind it stands of each crate what its lib.rt says of it, and a table of what others use of it: each call with the names of
its clauses and what its comment says (and a clause's own comment, where it has one), each type with the facts that hold
of its values, each trait, and the laws, which are functions that do nothing and ensure something of the definitions. Below
stand the wrong bodies that the proofs refuse, those that the gate tries (crates/*/must-fail) and the others (bench/edits).

A crate that no part names is put behind the crate before it in crates.txt, and one that is gone, or has nothing to show, is
left out: nothing here knows a crate by heart. The facts of the main theorem are told by hand in proved.md; each field of the
record `Runs` must be a row there. With --check nothing is written, and it ends with 1 where the page isn't current.
"""

import re
from collections.abc import Iterator
from dataclasses import dataclass, field

from made_parts import ROOT, finish, read

PAGE = "docs/contracts.md"
FACTS = "docs/proved.md"
PART = re.compile(r"<!-- made by docs/make_proved\.py: ([\w ]+?) -->\n.*?<!-- end -->\n", re.S)
ITEM = re.compile(r"( *)(pub )?(?:final )?(?:const )?(fn|trait|struct|enum|impl)\b(.*)")
CLAUSE = re.compile(r" *(requires|ensures)\*?(?: (\w+))? \{")
GHOST = re.compile(r" *(pub )?ghost (\w+): ")


@dataclass
class Row:
    """Something that others use of a crate: a call, a type, a trait, or a law, with the names of its facts."""

    name: str
    says: str
    requires: list[str] = field(default_factory=list)
    ensures: list[str] = field(default_factory=list)


def comment(lines: list[str]) -> str:
    """What a comment says, in one line; a table in it is left out."""
    plain = [re.sub(r"^ *//[/!]? ?", "", line).strip() for line in lines]
    return " ".join(line for line in plain if line and not line.startswith("|"))


def before(lines: list[str], at: int) -> str:
    """The comment before a line, behind which attributes may stand."""
    first = at
    while first > 0 and re.match(r" *(///|#\[)", lines[first - 1]):
        first -= 1
    return comment([line for line in lines[first:at] if line.lstrip().startswith("///")])


def body(lines: list[str], at: int) -> list[str]:
    """The lines of an item, up to the one that closes it."""
    indent = re.match(r" *", lines[at])[0]  # type: ignore[index]
    end = next((k for k in range(at, len(lines)) if lines[k] == indent + "}" or lines[k].endswith("{}")), at)
    return lines[at : end + 1]


def contract(lines: list[str], at: int) -> tuple[list[tuple[str, str]], list[str]]:
    """The clauses of the function that begins at a line, each by kind and name, and what comments say of some of them.

    A comment within a contract is of all clauses from there to the next one.
    """
    clauses: list[tuple[str, str]] = []
    said: list[tuple[list[str], list[str]]] = []  # lines of a comment, and the names of its clauses
    indent = len(lines[at]) - len(lines[at].lstrip())
    for line in lines[at + 1 :]:
        inner = len(line) - len(line.lstrip()) - indent
        if line.strip() and inner <= 0 and (line.strip() in ("{", "{}", "}") or ITEM.match(line)):
            break
        if inner == 4 and (found := CLAUSE.match(line)):
            clauses.append((found[1], found[2] or ""))
            if said and found[1] == "ensures":
                said[-1][1].append(name(found[2]))
        elif inner == 4 and line.lstrip().startswith("//"):
            if not said or said[-1][1]:
                said.append(([], []))
            said[-1][0].append(line)
        if line.endswith("};") and inner >= 4:
            break
    return clauses, [f"{', '.join(names)}: {comment(told)}" for told, names in said]


def name(text: str | None) -> str:
    return f"`{text}`" if text else "the one without a name"


def first_word(text: str) -> str:
    found = re.match(r"\s*(\w+)", text)
    return found[1] if found else ""


def call(title: str, lines: list[str], at: int) -> Row | None:
    """The row of a function, None where it has no contract."""
    found, said = ([], []) if lines[at].endswith(("{", "{}")) else contract(lines, at)
    if not found:
        return None
    row = Row(title, " ".join([before(lines, at), *said]))
    for kind, clause in found:
        (row.requires if kind == "requires" else row.ensures).append(clause)
    return row


def members(lines: list[str]) -> Iterator[str]:
    """What the comments of fields or ghost members say."""
    for at, line in enumerate(lines):
        said = before(lines, at)
        if said and (found := GHOST.match(line) or re.match(r" *pub (\w+): ", line)):
            yield f"`{found[found.lastindex or 1]}`: {said}"


def typed(kind: str, title: str, lines: list[str], at: int) -> Iterator[Row]:
    """The rows of a type with facts, or of a trait with its calls."""
    inside = body(lines, at)
    facts = [found[2] for line in inside if (found := GHOST.match(line)) and (found[1] or kind == "trait")]
    if kind == "trait" or facts:
        said = " ".join([before(lines, at), *members(inside)])
        yield Row(f"{kind if kind == 'trait' else 'type'} `{title}`", said, [], facts)
    for k in range(at, at + len(inside)) if kind == "trait" else ():
        item = ITEM.match(lines[k])
        if item and item[3] == "fn" and (row := call(f"`{title}::{first_word(item[4])}`", lines, k)):
            yield row


def implemented(title: str, trait: str, lines: list[str], at: int) -> Row:
    """The row of a type that implements a trait: what its calls ensure beside the trait's clauses."""
    row = Row(f"`{title}` as `{trait}`", f"All that `{trait}` says.")
    for k in range(at, at + len(body(lines, at))):
        if ITEM.match(lines[k]) and not lines[k].endswith("{"):
            found, said = contract(lines, k)
            own = [clause for kind, clause in found if kind == "ensures" and clause not in OF_TRAITS[trait]]
            row.ensures += [clause for clause in own if clause not in row.ensures]
            row.says = " ".join([row.says, *said])
    return row


def rows(crate: str) -> Iterator[Row]:
    """What a crate lends to others, in the order of its files."""
    source = ROOT / "crates" / crate / "src"
    if not (source / "lib.rt").exists():
        return
    lib = (source / "lib.rt").read_text("utf-8")
    used = re.findall(r"^pub use [^;]*::(\{[^;]*\}|\w+);", lib, flags=re.M)
    lent = {*re.findall(r"\w+", " ".join(used)), *re.findall(r"^pub (?:struct|enum) (\w+)", lib, flags=re.M)}
    open_files = {f"{module}.rt" for module in re.findall(r"^pub mod (\w+);", lib, flags=re.M)} | {"lib.rt"}
    for path in sorted(source.rglob("*.rt"), key=lambda path: (path.name in open_files, path)):
        lines = path.read_text("utf-8").split("\n")
        whose: str | None = None
        for at, line in enumerate(lines):
            item = ITEM.match(line)
            if line == "}":
                whose = None
            if not item:
                continue
            indent, public, kind, rest = item.groups()
            title = first_word(rest)
            seen = path.name in open_files or title in lent
            if kind == "impl":
                of = re.match(r"(?:<.*?>)? (?:(?:\w+::)*(\w+)(?:<[^{]*?>)? for )?(?:\w+::)*(\w+)", rest)
                whose = of[2] if of and of[2] in lent and not of[1] else None
                if of and of[1] in OF_TRAITS and of[2] in lent:
                    yield implemented(of[2], of[1], lines, at)
            elif kind in ("struct", "enum", "trait") and public and seen:
                yield from typed(kind, title, lines, at)
            elif kind == "fn" and public and (whose if indent else seen):
                law = re.search(r"\(\)$", line) and path.name in open_files
                shown = f"law `{title}`" if law else f"`{whose}::{title}`" if indent else f"`{title}`"
                if row := call(shown, lines, at):
                    yield row


def traits() -> dict[str, set[str]]:
    """The traits of all crates whose calls have contracts, with the names of their clauses."""
    texts = [path.read_text("utf-8") for path in ROOT.glob("crates/*/src/**/*.rt")]
    found = [match for text in texts for match in re.finditer(r"^pub trait (\w+).*?^\}", text, flags=re.M | re.S)]
    return {match[1]: set(re.findall(r"^ +ensures (\w+)", match[0], flags=re.M)) for match in found if "ensures" in match[0]}


OF_TRAITS = traits()


def refused(crate: str) -> Iterator[str]:
    """What is said of the wrong bodies of a crate."""
    for folder, told in ((f"crates/{crate}/must-fail", "Wrong bodies that the gate must see refused"), (f"bench/edits/{crate}", "More of these, outside the gate")):
        edits = sorted((ROOT / folder).glob("*.edit"))
        if edits:
            files = [re.search(r"^file: src/(.*)$", path.read_text("utf-8"), flags=re.M) for path in edits]
            yield f"{told}: " + ", ".join(f"{path.stem.replace('_', ' ')} (`{at[1] if at else '?'}`)" for path, at in zip(edits, files, strict=True)) + "."


def cell(text: str) -> str:
    return text.replace("|", "\\|") or "-"


def clauses(found: list[str]) -> str:
    """The names of clauses; one without a name is an asterisk."""
    return ", ".join(f"`{one}`" if one else "\\*" for one in found)


def section(crate: str, found: list[Row]) -> str:
    lib = (ROOT / "crates" / crate / "src" / "lib.rt").read_text("utf-8")
    about = comment([line for line in lib.split("\n") if line.startswith("//!")])
    lines = [f"### `{crate}`", "", about, "", "| What | Requires | Ensures | What it says |", "|---|---|---|---|"]
    for row in found:
        lines.append("| " + " | ".join(map(cell, (row.name, clauses(row.requires), clauses(row.ensures), row.says))) + " |")
    return "\n".join([*lines, *(line for one in refused(crate) for line in ("", one))]) + "\n"


def parts(text: str, crates: list[str], pattern: re.Pattern[str] = PART) -> list[list[str]]:
    """The crates of each part, with those that no part names behind the ones before them in the list."""
    named = [[crate for crate in found.split() if crate in crates] for found in pattern.findall(text)]
    for at, crate in enumerate(crates):
        if not any(crate in part for part in named):
            earlier = [one for one in crates[:at] if any(one in part for part in named)]
            part = next((part for part in named if earlier and earlier[-1] in part), named[0])
            part.insert(part.index(earlier[-1]) + 1 if earlier else 0, crate)
    return named


def check_facts(text: str) -> None:
    """Each fact of the main theorem has a row that tells it."""
    records = [found for path in ROOT.glob("crates/*/specs/**/*.antt") for found in re.findall(r"^pub record Runs .*?(?=\n\n|\Z)", path.read_text("utf-8"), flags=re.M | re.S)]
    facts = [fact for record in records for fact in re.findall(r"^  pub (\w+) :", record, flags=re.M)]
    told = re.findall(r"^\| `(\w+)` \|", text.split("## The main theorem", 1)[1].split("\n## ", 1)[0], flags=re.M)
    if len(records) != 1 or sorted(facts) != sorted(told):
        raise SystemExit(f"{FACTS}: the main theorem has the facts {sorted(facts)}, and the page tells {sorted(told)}")


def check_laws(found: Iterator[Row]) -> None:
    """Each law that a page names is one."""
    laws = {word for row in found for word in [*re.findall(r"`(\w+)`", row.name), *row.ensures]}
    for path in [ROOT / "README.md", *sorted((ROOT / "docs").glob("*.md"))]:
        for law in re.findall(r"\blaw `(\w+)`", path.read_text("utf-8")):
            if law not in laws and path.name != "contracts.md":
                raise SystemExit(f"{path.relative_to(ROOT)}: there is no law {law}")


def main() -> None:
    text = read(PAGE)
    check_facts(read(FACTS))
    names = [line.split(":")[0].strip() for line in read("crates.txt").split("\n") if ":" in line.split("#")[0]]
    found = {crate: list(rows(crate)) for crate in names}
    check_laws(row for crate in names for row in found[crate])
    named = parts(text, [crate for crate in names if found[crate]])
    made = iter(named)

    def part(_: re.Match[str]) -> str:
        crates = next(made)
        return f"<!-- made by docs/make_proved.py: {' '.join(crates)} -->\n" + "\n".join(section(crate, found[crate]) for crate in crates) + "<!-- end -->\n"

    finish({PAGE: PART.sub(part, text)})


if __name__ == "__main__":
    main()
