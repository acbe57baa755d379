#!/usr/bin/env python3
"""Makes the tables of crates in architecture.md: make_crates.py [--check]

Each crate has there what the first lines of its lib.rt say, or of its main.rt: what it is for, and what to read first. The line that
opens a table names its crates. One of crates.txt that no table names is put behind the one before it in that list, and one
that is gone is left out. With --check nothing is written, and it ends with 1 where the page isn't current.
"""

import re

import make_proved
from made_parts import ROOT, finish, read

PAGE = "docs/architecture.md"
PART = re.compile(r"<!-- made by docs/make_crates\.py: ([\w ]+?) -->\n.*?<!-- end -->\n", re.S)


def row(crate: str) -> str:
    sources = [ROOT / "crates" / crate / "src" / name for name in ("lib.rt", "main.rt")]
    lines = next(path for path in sources if path.exists()).read_text("utf-8").split("\n")
    says = make_proved.comment([line for line in lines if line.startswith("//!")])
    return f"| `{crate}` | {says} |\n".replace("\\", "\\\\")


def main() -> None:
    text = read(PAGE)
    crates = [line.split(":")[0].strip() for line in read("crates.txt").split("\n") if ":" in line.split("#")[0]]
    made = iter(make_proved.parts(text, crates, PART))

    def part(_: re.Match[str]) -> str:
        named = next(made)
        return f"<!-- made by docs/make_crates.py: {' '.join(named)} -->\n| Crate | What it is for |\n|---|---|\n{''.join(map(row, named))}<!-- end -->\n"

    finish({PAGE: PART.sub(part, text)})


if __name__ == "__main__":
    main()
