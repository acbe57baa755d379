"""Tests of make_recipes.py."""

from pathlib import Path

import pytest

import make_recipes


def test_what_is_too_long_and_what_has_no_picture(tmp_path: Path, monkeypatch: pytest.MonkeyPatch) -> None:
    lines = "".join(f"print({n})\n" for n in range(10))
    page = "# Recipes\n\n```sh\ntrue\n```\n\n## One day\n\n```python\nimport sys\n{0}```\n\n![One day](recipes.md)\n\n## Another: 2 g2\n\n```python\n{0}```\n\n![Another](none.png)\n"
    (tmp_path / "recipes.md").write_text(page.format(lines))
    monkeypatch.setattr(make_recipes, "PAGE", str(tmp_path / "recipes.md"))
    assert make_recipes.faults() == ["One day: more than 10 lines", "Another: 2 g2: no picture"]
    assert make_recipes.picture("Another: 2 g2") == "another_2_g2.png"
    assert [kind for some in make_recipes.recipes().values() for kind, _ in some] == ["sh", "python", "python"]
