"""The tasks of docs/python.md have at most five lines each, as many as its tables say."""

import re
import sys
from collections.abc import Iterator
from typing import Any

import pytest
from conftest import ROOT

sys.path.append(str(ROOT / "bench"))
from python_tasks import MOST_LINES, TITLES, block_of, lines_of  # noqa: E402

PAGE = (ROOT / "docs" / "python.md").read_text("utf-8")
ANCHORS = {title.lower().replace(" ", "-"): title for title in re.findall(r"^##+ (.*)$", PAGE, flags=re.M)}


def told() -> Iterator[Any]:
    """The title of each row of a table of tasks, and the lines that it tells."""
    for table in re.findall(r"^\| Task \|.*?\n((?:\|.*\n)+)", PAGE, flags=re.M):
        for row in table.splitlines()[1:]:
            cells = [cell.strip() for cell in row.strip("|").split("|")]
            anchor = re.search(r"\(#(.*?)\)", cells[0])
            if anchor:
                yield ANCHORS[anchor[1]], int(cells[2])


TOLD = list(told())


@pytest.mark.parametrize(("title", "lines"), TOLD)
def test_a_task_has_few_lines(title: str, lines: int) -> None:
    assert len(lines_of(block_of(title))) == lines <= MOST_LINES


def test_the_ten_tasks_are_those_that_are_measured() -> None:
    assert len(TITLES) == 10 and set(TITLES) <= {title for title, _ in TOLD} and len(TOLD) >= 15
