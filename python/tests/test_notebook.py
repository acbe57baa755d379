"""The notebook of docs/ runs from its first cell to its last, and its rendering is what comes of it."""

import re
import sys
from typing import Any

import pytest

from conftest import ROOT

DOCS = ROOT / "docs"
pytest.importorskip("nbconvert", reason="python3-nbconvert isn't on this machine")
pytest.importorskip("ipykernel", reason="python3-ipykernel isn't on this machine")
NUMBER = re.compile(r"\d+\.\d+(?:e[-+]\d+)?")


def numbers(text: str) -> Any:
    return [float(number) for number in NUMBER.findall(text)]


def test_the_notebook_runs_and_is_rendered_as_it_stands(program: str, monkeypatch: pytest.MonkeyPatch) -> None:
    monkeypatch.setenv("PTU", program)
    monkeypatch.setenv("PYDEVD_DISABLE_FILE_VALIDATION", "1")
    monkeypatch.delenv("MPLBACKEND", raising=False)  # pictures are drawn into the notebook
    monkeypatch.setattr(sys, "path", [str(DOCS), *sys.path])
    from notebook_render import rendered

    text, pictures = rendered()
    kept = (DOCS / "notebook.md").read_text(encoding="utf-8")
    assert NUMBER.sub("#", text) == NUMBER.sub("#", kept), "run docs/notebook_render.py"
    assert numbers(text) == pytest.approx(numbers(kept), rel=0.02)  # a fit may end a little elsewhere on another machine
    names = sorted(str(path.relative_to(DOCS)) for path in (DOCS / "notebook_files").iterdir())
    assert sorted(pictures) == names and all(data.startswith(b"\x89PNG") and len(data) > 10_000 for data in pictures.values())
    assert [name for name in names if name not in kept] == []


def test_the_notebook_is_kept_without_outputs() -> None:
    import nbformat

    notebook = nbformat.read(DOCS / "notebook.ipynb", as_version=4)
    nbformat.validate(notebook)
    assert all(cell.cell_type == "markdown" or (cell.outputs, cell.execution_count) == ([], None) for cell in notebook.cells)
