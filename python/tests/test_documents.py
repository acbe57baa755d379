"""Plans as documents: what the program reads as TOML is read here, and nothing else."""

import pytest
from collections.abc import Callable
from pathlib import Path
from typing import Any

from ptulab._documents import LONGEST, older, read_plan
from ptulab.errors import BadPlanError

GOOD = [
    b"",
    b"\xef\xbb\xbfversion = 1\n",
    b"version = 1\r\n",
    b"version = 0x1 # one\n",
    b"limits.records = 1_000\n",
    b"group = [{ inputs = [0], }]\n",
    b"group = [{ # a remark, }\n  inputs = [0], # another, }\n},\n]",
    b"group = [{\r\n  inputs = [0,\n 1],\r\n}]",
    b'order = "\\x64rop"',
    b'order = "\\u0064rop"',
    b'order = """dr\\\n   op"""',
    b'"order" = \'drop\' # {, }\n',
    b"limits = { records = 5, }",
]
ODD = [  # TOML for the program, though no plan
    b'a = "\\e"',
    b'a = "\\\\x41"',
    b"a = { b = '''\n}''', }",
    b"a = { b = [1,\n2,\n], c = { d = 1, }, }",
    b"a = 07:32",
    b"a = 1979-05-27T07:32-07:00",
    b"a = 1979-05-27 07:32Z",
    b"a = 07:32:00.5",
    b'a = """x""""',
    b"a = " + b"[" * 80 + b"]" * 80,
]
BAD = [
    b"\xef\xbb\xbf\xef\xbb\xbfversion = 1\n",
    b"# \xff\n",
    b"version = 1\nversion = 1",
    b"version = 01",
    b"version = 9223372036854775808",
    b"a = [99999999999999999999]",
    b"a = { b = 1,, }",
    b"a = { , }",
    b"a = { b\n= 1 }",
    b"a = { b =\n1 }",
    b"a = {\n, b = 1 }",
    b"a = " + b"[" * 81 + b"]" * 81,
    b'order = "\\ud800"',
    b"\xc3\xa4 = 1",
]


@pytest.mark.parametrize("text", GOOD + ODD)
def test_what_the_program_reads(tmp_path: Path, ptu: Callable[..., Any], text: bytes) -> None:
    (tmp_path / "plan.toml").write_bytes(text)
    assert ptu("run", tmp_path / "plan.toml", "/dev/null").returncode == (11 if text in GOOD else 8)
    assert read_plan(tmp_path / "plan.toml") == read_plan(text)


@pytest.mark.parametrize("text", BAD)
def test_what_the_program_does_not_read(tmp_path: Path, ptu: Callable[..., Any], text: bytes) -> None:
    (tmp_path / "plan.toml").write_bytes(text)
    assert ptu("run", tmp_path / "plan.toml", "/dev/null").returncode == 7
    with pytest.raises(BadPlanError, match="not TOML"):
        read_plan(text)


def test_values_of_the_newer_words() -> None:
    plan = read_plan(b'\xef\xbb\xbforder = "\\x64\\e"\ngroup = [{\n inputs = [0, 1,], # remark\n}]\n')
    assert plan == {"order": "d\x1b", "group": [{"inputs": [0, 1]}]}
    assert older("a = { b = 1,\n}") == "a = { b = 1  }\n"


def test_a_plan_that_is_too_long(tmp_path: Path, ptu: Callable[..., Any]) -> None:
    (tmp_path / "plan.toml").write_bytes(b"#" * (LONGEST + 1))
    assert ptu("run", tmp_path / "plan.toml", "/dev/null").returncode == 6
    with pytest.raises(BadPlanError, match="longer than 65536 bytes"):
        read_plan(tmp_path / "plan.toml")
    assert read_plan(b"#" * LONGEST) == {}


def test_the_line_that_is_told_is_that_of_the_plan() -> None:
    with pytest.raises(BadPlanError, match="line 5"):
        read_plan(b"group = [{\n inputs = [0],\n}]\n\norder = drop\n")
