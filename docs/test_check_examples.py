"""Tests of check_examples.py: pytest docs"""

from pathlib import Path
from typing import Any

import check_examples
import pytest
from check_examples import dead_links, fault_of_edit, fault_of_row, try_page

EDIT = "file: src/bin.rt\nold: time - kept.low < set.width\nnew: time - kept.low <= set.width\n"


@pytest.mark.parametrize(("info", "wrong"), [("json", 0), ("sh (needs root)", 0), ("", 1), ("text", 1)])
def test_a_block_that_isnt_tried_says_why(tmp_path: Path, capsys: pytest.CaptureFixture[str], info: str, wrong: int) -> None:
    page = tmp_path / "page.md"
    page.write_text(f"# A page\n\n```{info}\nrm -rf /\n```\n", encoding="utf-8")
    assert try_page(str(page), "/bin/true") == (0, wrong)
    assert ("doesn't say why" in capsys.readouterr().out) == bool(wrong)


def test_a_page_names_what_is_there(tmp_path: Path) -> None:
    page = tmp_path / "page.md"
    page.write_text("`bench/run -o fcs`, `python3 bench/nothing.py FILE`, `crates/NAME/src`, `bench/out/plain`, `tally_base/src/none.rt`\n", encoding="utf-8")
    assert list(dead_links(str(page))) == ["tally_base/src/none.rt", "bench/nothing.py"]


def test_an_edit_can_be_made() -> None:
    assert fault_of_edit(EDIT) is None
    assert fault_of_edit(EDIT.replace("kept.low <", "kept.high <")) is not None


def test_a_row_is_one_of_the_tests() -> None:
    assert fault_of_row("row records of each type 4\nwords count f\n") is None
    assert fault_of_row("row of nothing\n") is not None


def test_the_options_of_a_synopsis_are_those_of_its_help(monkeypatch: pytest.MonkeyPatch) -> None:
    told: dict[str, Any] = {"./ptulab plan --help": ("options:\n  -h, --help  show\n  -o OUT, --out OUT\n  --from LIST  files\n  -q, --quiet  less\n", 0)}
    monkeypatch.setattr(check_examples, "shell", told.__getitem__)
    assert check_examples.fault_of_synopsis("ptulab plan FILE [-o PLAN] [--from LIST]\n") is None
    assert check_examples.fault_of_synopsis("ptulab plan FILE [-o PLAN]\n") is not None
    assert check_examples.fault_of_synopsis("ptulab plan FILE [-o PLAN] [--from LIST] [--left LIST]\n") is not None


def test_the_program_is_one_that_needs_no_tree_beside_it(tmp_path: Path) -> None:
    """By default it is no script, so a copy of it runs alone."""
    program = tmp_path / "ptu"
    program.write_bytes(Path(check_examples.program_here()).read_bytes())
    assert program.read_bytes()[:4] == b"\x7fELF"
