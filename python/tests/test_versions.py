"""Which program goes with the package, and what pages, sidecars and ``ptulab --version`` say of both."""

import hashlib
import json
import re
import subprocess
import sys
from importlib.metadata import version
from pathlib import Path

import ptulab_program
import pytest
from conftest import EXAMPLES, ROOT

import ptulab
from ptulab.__main__ import main
from ptulab.page import page
from ptulab.picked import pick, sidecar_of

FLAGS = [*ptulab_program.COMMON, *ptulab_program.FAST]
SUM = "5" * 64


def sum_of(path: Path) -> str:
    return hashlib.sha256(path.read_bytes()).hexdigest()


@pytest.fixture
def carried(tmp_path: Path, monkeypatch: pytest.MonkeyPatch) -> Path:
    """A folder with programs of both levels that print their level, in the place of those of the wheel."""
    told = f"kit a kit of tests\nmade_from {SUM}\n"
    for name in ("x86-64-v2", "x86-64-v3"):
        program = tmp_path / "carried" / name / "ptu"
        program.parent.mkdir(parents=True)
        program.write_text(f'#!/bin/sh\necho "{name} $*"\n')
        program.chmod(0o755)
        told += f"{name} {sum_of(program)}\n"
    (tmp_path / "carried" / "made_from").write_text(told)
    monkeypatch.setattr(ptulab_program, "HERE", str(tmp_path / "carried"))
    monkeypatch.setattr(ptulab_program, "CHECKOUT", str(tmp_path / "checkout"))
    monkeypatch.delenv("PTU", raising=False)
    return tmp_path / "carried"


def processor(path: Path, flags: list[str]) -> str:
    path.write_text("processor\t: 0\nflags\t\t: fpu " + " ".join(flags) + " xtopology\n\nprocessor\t: 1\nflags\t\t: fpu\n")
    return str(path)


def test_the_level_of_a_processor(tmp_path: Path) -> None:
    path = tmp_path / "cpuinfo"
    assert ptulab_program.level(processor(path, FLAGS)) == "x86-64-v3"
    for feature in FLAGS:
        without = [one for one in FLAGS if one != feature]
        assert ptulab_program.level(processor(path, without)) == (None if feature in ptulab_program.COMMON else "x86-64-v2"), feature
    path.write_text("CPU architecture: 8\n")
    assert ptulab_program.level(str(path)) == ptulab_program.level(str(tmp_path / "nothing")) == "x86-64-v2"


def test_the_script_knows_the_same_features() -> None:
    lists = re.findall(r"\bhas ((?:[a-z0-9_]+ )*[a-z0-9_]+) *\|\|", (ROOT / "ptu").read_text())
    assert [tuple(words.split()) for words in lists] == [ptulab_program.COMMON, ptulab_program.FAST]


@pytest.mark.parametrize("level", ["x86-64-v2", "x86-64-v3"])
def test_the_program_that_is_carried(carried: Path, monkeypatch: pytest.MonkeyPatch, level: str) -> None:
    monkeypatch.setattr(ptulab_program, "level", lambda: level)
    path = carried / level / "ptu"
    assert ptulab_program.find() == ptulab.find_program() == str(path)
    assert ptulab.versions() == {"ptulab": ptulab.__version__, "program": str(path), "sha256": sum_of(path), "made_from": SUM}
    path.write_text(path.read_text()[:-1])
    assert ptulab_program.find() is None and ptulab_program.made_from(str(path)) is None


def test_no_program_for_an_old_processor(carried: Path, monkeypatch: pytest.MonkeyPatch, capsys: pytest.CaptureFixture[str]) -> None:
    monkeypatch.setattr(ptulab_program, "level", lambda: None)
    monkeypatch.setenv("PATH", str(carried))
    monkeypatch.chdir(carried)
    assert ptulab_program.find() is None
    assert ptulab.versions() == {"ptulab": ptulab.__version__, "program": None, "sha256": None, "made_from": None}
    assert main(["--version"]) == 0
    assert capsys.readouterr().out.splitlines()[1:] == ["program not known", "sha256 not known", "made_from not known"]
    with pytest.raises(SystemExit) as ended:
        ptulab_program.main()
    assert ended.value.code == 127 and capsys.readouterr().err.startswith("ptu: this installation of ptulab has no program for this machine")


def test_what_was_built_in_a_checkout_comes_first(carried: Path, monkeypatch: pytest.MonkeyPatch) -> None:
    built = carried.parent / "checkout" / "out" / "ptu"
    built.parent.mkdir(parents=True)
    built.write_bytes((carried / "x86-64-v2" / "ptu").read_bytes() + b"# more\n")
    assert ptulab_program.find() != str(built)  # this isn't a checkout
    (carried.parent / "checkout" / "crates.txt").touch()
    built.chmod(0o755)
    assert ptulab_program.find() == ptulab.find_program() == str(built)
    assert ptulab.versions()["made_from"] is None
    built.with_name("ptu.made_from").write_text(f"x86-64-v3 {SUM[1:]}6\n")
    assert ptulab.versions()["made_from"] == f"{SUM[1:]}6"


def test_the_command_is_the_program() -> None:
    """It takes the place of Python, with its words, its output and its status."""
    words = [sys.executable, "-c", "import ptulab_program; ptulab_program.main()"]
    found = ptulab_program.find()
    assert found is not None, "bin/ isn't whole"
    calls: list[list[str]] = [["count", str(EXAMPLES / "bench.ptu")], ["nothing"], []]
    for more in calls:
        run, own = (subprocess.run([*begin, *more], capture_output=True, check=False) for begin in (words, [found]))
        assert (run.returncode, run.stdout, run.stderr) == (own.returncode, own.stdout, own.stderr)


def test_the_command_needs_nothing_of_ptulab() -> None:
    seen = "import sys, ptulab_program; print([one for one in sys.modules if one.partition('.')[0] in ('ptulab', 'numpy')])"
    assert subprocess.run([sys.executable, "-c", seen], capture_output=True, text=True, check=True).stdout == "[]\n"


def test_the_version(program: str, capsys: pytest.CaptureFixture[str]) -> None:
    assert ptulab.__version__ == version("ptulab") == (ROOT / "VERSION").read_text().strip()
    assert main(["--version"]) == 0
    lines = dict(line.split(" ", 1) for line in capsys.readouterr().out.splitlines())
    assert list(lines) == ["ptulab", "program", "sha256", "made_from"]
    assert lines["ptulab"] == ptulab.__version__ and lines["sha256"] == sum_of(Path(lines["program"])) and lines["program"] == program


def test_a_page_and_a_sidecar_say_what_made_them(carried: Path, tmp_path: Path, program: str) -> None:
    pytest.importorskip("plotly")
    told = ptulab.versions(carried / "x86-64-v2" / "ptu")
    text = page(ptulab.run(EXAMPLES / "scan.toml", EXAMPLES / "scan.ptu", program=program), program=told["program"])
    assert all(f">{value}<" in text or f" {value}<" in text for value in (f"ptulab {ptulab.__version__}", told["sha256"], told["made_from"]))
    pick(EXAMPLES / "scan.toml", 1, EXAMPLES / "scan.ptu", tmp_path / "picked.ptu", program=program)
    sidecar = json.loads(sidecar_of(tmp_path / "picked.ptu").read_text("utf-8"))
    assert {word: sidecar[word] for word in ("ptulab", "program", "sha256", "made_from")} == ptulab.versions(program) | {"program": Path(program).name}
