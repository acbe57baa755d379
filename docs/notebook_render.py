#!/usr/bin/env python3
"""Runs notebook.ipynb and renders it to notebook.md, with its pictures in notebook_files: notebook_render.py

It needs nbconvert and ipykernel (Debian: python3-nbconvert, python3-ipykernel), Matplotlib, lmfit and Plotly, and the program,
which is out/ptu of this tree or the one that the environment variable PTU names. The notebook itself is kept without its outputs.
"""

import re
import shutil
import sys
from pathlib import Path
from typing import Any

import nbformat
from nbconvert import MarkdownExporter
from nbconvert.preprocessors import ExecutePreprocessor

DOCS = Path(__file__).resolve().parent
SECONDS = 600  # for a cell, at most


def rendered() -> Any:
    """The text of the notebook with what its cells print, and its pictures by their names."""
    notebook = nbformat.read(DOCS / "notebook.ipynb", as_version=4)
    ExecutePreprocessor(timeout=SECONDS, kernel_name="python3").preprocess(notebook, {"metadata": {"path": str(DOCS)}})
    text, more = MarkdownExporter().from_notebook_node(notebook, {"unique_key": "notebook", "output_files_dir": "notebook_files"})
    return readable(text), more["outputs"]


def readable(text: str) -> Any:
    """Pictures are called by the title above them, and code is py, which docs/check_examples.py doesn't try cell by cell."""
    lines, title = [], ""
    for line in text.splitlines():
        title = line.removeprefix("## ") if line.startswith("## ") else title
        lines.append(line.rstrip().replace("![png]", f"![{title}]").replace("```python", "```py"))
    return re.sub(r"\n{3,}", "\n\n", "\n".join(lines)).strip() + "\n"


def main() -> None:
    text, pictures = rendered()
    shutil.rmtree(DOCS / "notebook_files", ignore_errors=True)
    (DOCS / "notebook_files").mkdir()
    for name, data in pictures.items():
        (DOCS / name).write_bytes(data)
    (DOCS / "notebook.md").write_text(text, encoding="utf-8")
    print(f"notebook.md and {len(pictures)} pictures", file=sys.stderr)


if __name__ == "__main__":
    main()
