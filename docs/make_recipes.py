#!/usr/bin/env python3
"""Draws the pictures of docs/recipes.md: docs/make_recipes.py [TITLE ..]

Each recipe, or each of these titles, is run over the samples that the page makes, and its figures stand side by side in
docs/recipes_files, under the recipe's title. With --check nothing is run: it ends with 1 where a recipe has more than ten lines or
no picture. PTU names another program than ./ptu of this tree. It needs what the recipes need.
"""

import os
import re
import subprocess
import sys
import tempfile
from typing import Any

from check_examples import ROOT, blocks, furnish

PAGE, FOLDER = os.path.join(ROOT, "docs", "recipes.md"), os.path.join(ROOT, "docs", "recipes_files")
MOST = 10  # lines of a recipe that aren't empty
DOTS = 64  # in an inch
DRAW = """
from matplotlib import image, pyplot
figures = [pyplot.figure(number) for number in pyplot.get_fignums()]
shown = []
for figure in figures:
    figure.set(size_inches=(5.2, 4.0), dpi={dots})
    figure.canvas.draw()
    shown.append(__import__("numpy").asarray(figure.canvas.buffer_rgba()))
if shown:
    image.imsave({path!r}, __import__("numpy").concatenate(shown, axis=1))
"""


def recipes() -> dict[str, list[tuple[str, str]]]:
    """The blocks of each title of the page, with their kinds."""
    with open(PAGE, encoding="utf-8") as file:
        parts = re.split(r"^## (.*)\n", file.read(), flags=re.M)
    return {title: [(kind, block) for _, kind, block in blocks(text)] for title, text in zip(["", *parts[1::2]], parts[::2])}


def picture(title: str) -> str:
    return re.sub(r"[^a-z0-9]+", "_", title.lower()).strip("_") + ".png"


def faults() -> list[str]:
    """What is wrong with the page: recipes that are too long, and those without a picture."""
    found = []
    with open(PAGE, encoding="utf-8") as file:
        text = file.read()
    for title, some in list(recipes().items())[1:]:
        found += [f"{title}: more than {MOST} lines" for _, block in some if sum(bool(line) for line in block.splitlines()) > MOST]
        part = text[text.index(f"## {title}\n") :].split("\n## ")[0]
        shown = re.findall(r"!\[[^\]]+\]\(([^)]+)\)", part)
        found += [] if shown and all(os.path.isfile(os.path.join(ROOT, "docs", name)) for name in shown) else [f"{title}: no picture"]
    return found


def draw(titles: list[str]) -> None:
    """Runs the blocks of the page, each with the pictures of its figures."""
    os.makedirs(FOLDER, exist_ok=True)
    places: dict[str, Any] = os.environ | {"PYTHONPATH": "examples:python/src", "MPLBACKEND": "Agg"}
    with tempfile.TemporaryDirectory() as folder:
        os.chdir(folder)
        furnish(os.path.abspath(os.environ.get("PTU", os.path.join(ROOT, "ptu"))))
        for title, some in recipes().items():
            for kind, block in some if title in ("", *(titles or recipes())) else []:
                more = DRAW.format(dots=DOTS, path=os.path.join(FOLDER, picture(title))) if kind == "python" else ""
                words = [sys.executable, "-c", block + more] if kind == "python" else ["sh", "-e", "-c", block]
                subprocess.run(words, check=True, env=places)
        os.chdir("/")


def main() -> None:
    if sys.argv[1:] != ["--check"]:
        draw(sys.argv[1:])
    for line in faults():
        print(line)
    sys.exit(bool(faults()))


if __name__ == "__main__":
    main()
