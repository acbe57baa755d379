#!/usr/bin/env python3
"""Compares the numbers of the pages that nothing else checks with numbers.txt: check_numbers.py [--check]

These are the numbers in the prose of a page, and in its blocks that show no output, which measures.toml hasn't as measures or facts:
how many of a thing there are, an example's settings, the numbers of a list. numbers.txt has them by page and title, in their order,
in digits, hexadecimal ones too, or in one of WORDS, each with its unit. So a number that was changed by mistake is noticed. Whether one
is right isn't known here: who calls this without --check says so, having read what it tells of.

A number that the code has is also a constant of measures.toml, so that a change of the code is noticed.
"""

import re
import tomllib
from collections.abc import Iterator
from typing import Any

from check_measures import WORD, pages_of, without_known
from made_parts import finish, read

COMPARED = r"^```(?:console|edit|row|synopsis|toml\n# examples/).*?^```"  # blocks that check_examples.py compares
OTHERS = "thirty forty fifty sixty seventy eighty ninety hundred thousand million billion dozen twice half halves doubled? tripled? thirds? quarters? fourths? fifths? sixths? sevenths? eighths? ninths? tenths? hundredths? thousandths?"
WORDS = "|".join([WORD, *OTHERS.split()])


def numbers(page: str, told: dict[str, Any]) -> Iterator[str]:
    """A line for each title of a page that has numbers below it."""
    text = without_known(re.sub(COMPARED, "", read(page), flags=re.M | re.S), page, told)
    number = rf"(?<![A-Za-z_\d])(?:0x[0-9A-Fa-f]+|-?\d(?:[\d,._]*\d)?(?:e-?\d+)?|(?:{WORDS})\b)(?:[-\s](?:{'|'.join(told['units'])})\b| ?%)?"
    for part in re.split(r"^(?=#+ )", re.sub(r"\]\([^)\n]*\)", " ", text), flags=re.M):
        title, _, below = part.partition("\n")
        if found := re.findall(number, below, flags=re.I):
            yield f"{page}, {title.strip('# ')}: {'; '.join(map(' '.join, map(str.split, found)))}\n"


def main() -> None:
    told = tomllib.loads(read("docs/measures.toml"))
    finish({"docs/numbers.txt": "".join(line for page in pages_of(told) if page.endswith(".md") for line in numbers(page, told))})


if __name__ == "__main__":
    main()
