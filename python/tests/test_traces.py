"""What `ptu trace` prints, as arrays."""

from collections.abc import Callable
from pathlib import Path
from typing import Any

import numpy as np
import pytest
from conftest import EXAMPLES

import ptulab
from ptulab import BadReportError, traces

LINES = ["trace 1 origin 10 width 5", "0 2", "1 1", "198 1", "before 1", "frequency 0 196", "frequency 1 2", "frequency 2 1", "above 0", ""]


def test_a_trace(tmp_path: Path) -> None:
    (tmp_path / "trace.txt").write_text("\n".join(LINES))
    sources: list[Path | str | bytes] = [tmp_path / "trace.txt", "\n".join(LINES), "\n".join(LINES).encode()]
    for source in sources:
        trace = ptulab.read_trace(source)
        assert (trace.origin, trace.width, trace.before, trace.above) == (10, 5, 1, 0)
        assert trace.ticks.tolist() == [10, 15, 1000] and trace.counts.tolist() == [2, 1, 1]
        assert trace.frequencies is not None and trace.frequencies[:4].tolist() == [196, 2, 1, 0]
        assert trace.frequencies.sum() + trace.above == trace.bins[-1] + 1


@pytest.mark.parametrize("many", [1, 3, 5, 7])
def test_a_trace_that_was_cut(many: int) -> None:
    trace = ptulab.read_trace("\n".join([*LINES[:many], ""]))
    assert trace.bins.tolist() == [0, 1, 198][: many - 1] and trace.frequencies is None and trace.above is None


@pytest.mark.parametrize("text", ["", "trace 1 origin 10\n", "\n".join(LINES[:3]), "\n".join([LINES[0], "x 1", ""]), "\n".join([*LINES, "1 1", ""]),
                                  "\n".join([LINES[0], "1 1", "1 1", ""]), "\n".join([*LINES[:5], "9" * 2000]), f"{LINES[0]}\n{'1' * 70000}",
                                  f"trace 1 origin 0 width {2**62 + 1}\n", f"trace 1 origin 0 width {2**62}\n1 1\n2 5\n",
                                  f"trace 1 origin {2**62} width 9\n{10**18 - 1} 5\n"])
def test_texts_that_are_no_trace(text: str) -> None:
    with pytest.raises(BadReportError):
        ptulab.read_trace(text.encode())


def test_the_widest_trace() -> None:
    trace = ptulab.read_trace(f"trace 1 origin {2**62} width {2**62}\n0 5\n")
    assert trace.ticks.tolist() == [2**62] and trace.width == 2**62
    last = 2**63 - 1 - 9 * (10**18 - 1)
    assert ptulab.read_trace(f"trace 1 origin {last} width 9\n{10**18 - 1} 5\n").ticks.tolist() == [2**63 - 1]


@pytest.mark.parametrize("number", ["1024", "9" * 30])
def test_numbers_that_no_trace_has(number: str) -> None:
    for line in (5, 1):
        text = [*LINES]
        text[line] = text[line].replace(" 0 " if line == 5 else "0 ", f" {number} " if line == 5 else f"{'9' * 30} ")
        with pytest.raises(BadReportError):
            ptulab.read_trace("\n".join(text))


def test_a_long_text_is_read_in_pieces(monkeypatch: pytest.MonkeyPatch) -> None:
    """A bin that doesn't rise is told at the border of two pieces too."""
    rows = [f"{3 * n} {n % 1000 + 1}" for n in range(400)]
    for piece in (1, 50, 1 << 16):
        monkeypatch.setattr(traces, "PIECE", piece)
        trace = ptulab.read_trace("\n".join([LINES[0], *rows, *LINES[4:]]))
        assert trace.bins.tolist() == [3 * n for n in range(400)] and trace.counts.tolist() == [n % 1000 + 1 for n in range(400)]
        assert trace.frequencies is not None and trace.frequencies[:3].tolist() == [196, 2, 1]
        with pytest.raises(BadReportError):
            ptulab.read_trace("\n".join([LINES[0], *rows, rows[-1], ""]))


def test_a_trace_of_the_scan(ptu: Callable[..., Any]) -> None:
    trace = ptulab.read_trace(ptu("trace", EXAMPLES / "scan.toml", EXAMPLES / "scan.ptu").stdout)
    report = ptulab.read_report(ptu("run", EXAMPLES / "scan.toml", EXAMPLES / "scan.ptu").stdout).table("trace")
    assert np.array_equal(report.counts[trace.bins], trace.counts) and trace.counts.sum() + (trace.before or 0) == 97492
    assert np.array_equal(report.ticks[trace.bins], trace.ticks)
