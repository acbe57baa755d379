"""Tests of check_numbers.py: pytest docs"""

from typing import Any

import check_numbers
import pytest
from check_numbers import numbers

PAGE = """# In two parts

It takes 1.5 s, a third of the 1,024
events, 430e-12 of T2, `x=-1`, 30 MiB, and 8 KiB.

## The other [part 9](p.md#3)

Twelve of x86-64, 5 % [more](p.md#9), 2^40, `0x00010307`.

```console
7.5
```

```python
read(20)
```

<!-- made by docs/check_measures.py: rows -->
| 3.5 |
<!-- end -->

# None
"""
TOLD: dict[str, Any] = {"units": ["s", "events", "MiB", "KiB"], "facts": {"p.md": ["30 MiB"]}, "constant": {"piece": {"words": ["8 KiB"]}}}
CHANGES = [("a third", "a tenth"), ("x=-1", "x=1"), ("20", "21"), ("1.5 s", "1.5 MiB"), ("two", "three"), ("430e-12", "430e-11"), ("0x00010307", "0x00010308")]


def lines_of(monkeypatch: pytest.MonkeyPatch, page: str) -> list[str]:
    monkeypatch.setattr(check_numbers, "read", lambda name: page)
    return list(numbers("p.md", TOLD))


def test_numbers_of_prose_and_of_blocks_that_show_no_output(monkeypatch: pytest.MonkeyPatch) -> None:
    first = "p.md, In two parts: 1.5 s; third; 1,024 events; 430e-12; -1; 8 KiB\n"
    assert lines_of(monkeypatch, PAGE) == [first, "p.md, The other [part 9: Twelve; 64; 5 %; 2; 40; 0x00010307; 20\n"]


@pytest.mark.parametrize(("before", "after"), CHANGES)
def test_what_is_changed_changes_a_line(monkeypatch: pytest.MonkeyPatch, before: str, after: str) -> None:
    assert PAGE.count(before) == 1
    assert lines_of(monkeypatch, PAGE.replace(before, after)) != lines_of(monkeypatch, PAGE)

