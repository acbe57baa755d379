"""Runs of the program: reports, refusals with their words, and the bar of the bytes that were read."""

import io
import os
import pickle
import subprocess
import sys
import time
from collections.abc import Callable
from pathlib import Path
from typing import Any, cast

import made
import ptulab_program
import pytest
from conftest import EXAMPLES

import ptulab
from ptulab import BadReportError, MissingLibraryError, NoProgramError, RefusalError, _refusals, program as module
from ptulab._optional import want

SCAN = EXAMPLES / "scan.toml", EXAMPLES / "scan.ptu"


def script(folder: Path, text: str) -> Path:
    """A program in the place of ptu."""
    path = folder / "other"
    path.write_text(f"#!{sys.executable}\n{text}")
    path.chmod(0o755)
    return path


def test_the_report_is_that_of_the_program(program: str, ptu: Callable[..., Any]) -> None:
    report = ptulab.run(*SCAN, program=program)
    read = ptulab.read_report(ptu("run", *SCAN).stdout, SCAN[0])
    assert report.head == read.head and len(report.tables) == len(read.tables) == 3
    assert all((a.counts == b.counts).all() and a.groups == b.groups == (1,) for a, b in zip(report.tables, read.tables))


def test_names_that_are_no_utf_8(program: str, tmp_path: Path) -> None:
    """Of the plan and the file; the program takes UTF-8 alone."""
    odd = [tmp_path / os.fsdecode(b"\xfc" + path.name.encode()) for path in SCAN]
    for path, other in zip(SCAN, odd):
        other.write_bytes(path.read_bytes())
    assert ptulab.run(*odd, program=program).head == ptulab.run(*SCAN, program=program).head
    with pytest.raises(FileNotFoundError):
        ptulab.run(odd[0], tmp_path / os.fsdecode(b"\xff.ptu"), program=program)


def test_refusals_say_what_the_documents_say(program: str, make_plan: Callable[..., Path], make_file: Callable[..., Path]) -> None:
    plan, data = make_plan("order = 'stop'\n"), make_file("HydraHarp2T3", [(20, 1), (15, 1)])
    with pytest.raises(RefusalError) as fault:
        ptulab.run(EXAMPLES / "broken.toml", data, program=program)
    assert (fault.value.status, fault.value.line) == (8, "ptu: plan breaks rule 10 at 2")
    assert fault.value.meaning.startswith("A group's `gate`, if present, is a list of two whole numbers from 0 to 32768")
    with pytest.raises(RefusalError, match=r"status 19") as fault:
        ptulab.run(plan, data, program=program)
    assert fault.value.line == "ptu: record 2 goes back from 20 to 15" and fault.value.meaning.startswith("an event that is out of order")
    with pytest.raises(RefusalError, match="PLAN can't be opened"):
        ptulab.run("nothing.toml", data, program=program)
    with pytest.raises(RefusalError, match="FILE can't be opened"):
        ptulab.run(plan, "nothing.ptu", program=program)
    with pytest.raises(RefusalError, match="a read of FILE failed"):
        ptulab.run(plan, plan.parent, program=program)
    with pytest.raises(RefusalError, match="isn.t a TOML document"):
        ptulab.run(make_plan("= 5"), data, program=program)


def test_words_are_those_of_the_documents() -> None:
    subprocess.run([sys.executable, EXAMPLES.parent / "docs" / "make_references.py", "--check"], check=True)
    words = _refusals._words()
    assert sorted(map(int, words["rules"])) == list(range(1, 32)) and sorted(map(int, words["statuses"])) == list(range(1, 25))
    assert module.refusal(8, "ptu: plan breaks rule 31 at 1").meaning == words["rules"]["31"] == _refusals.rule_of(31)
    assert module.refusal(8, "ptu: plan breaks rule x").meaning == _refusals.rule_of(99) == ""
    assert module.refusal(127, "no status of the program").meaning == ""
    assert module.refusal(-9, "").meaning == "signal 9 ended the program"


def test_exceptions_go_through_processes() -> None:
    for fault in (RefusalError(8, "a", "b"), ptulab.BadFileError(10, "a", "b")):
        copy = pickle.loads(pickle.dumps(fault))
        assert type(copy) is type(fault) and str(copy) == str(fault) and vars(copy) == vars(fault)


def test_a_bar_of_the_bytes(monkeypatch: pytest.MonkeyPatch, program: str, capsys: pytest.CaptureFixture[str]) -> None:
    pytest.importorskip("tqdm")
    ptulab.run(*SCAN, program=program, progress=True)
    said = capsys.readouterr().err
    assert "scan.ptu" in said and "100%" in said and "403k/403k" in said


def test_the_position_of_a_file_that_is_read(tmp_path: Path) -> None:
    """A bar goes on while the program reads, and no further where it is refused."""
    tqdm = pytest.importorskip("tqdm")
    (tmp_path / "data").write_bytes(b"\0" * 1000)
    wait = f"    while not os.path.exists({os.fspath(tmp_path / 'seen')!r}):\n        time.sleep(0.01)\n"
    slow = f"import os, sys, time\nwith open(sys.argv[3], 'rb', buffering=0) as file:\n    file.read(300)\n{wait}sys.exit(10)\n"
    seen: list[int] = []

    class Bar(tqdm.tqdm):  # type: ignore[misc,name-defined]
        def update(self, n: float = 1) -> bool | None:
            seen.append(int(self.n + n))
            if seen[-1]:
                (tmp_path / "seen").touch()
            return bool(super().update(n))

    monkeypatch = pytest.MonkeyPatch()
    with monkeypatch.context() as patch, pytest.raises(RefusalError):
        patch.setattr(tqdm, "tqdm", lambda **words: Bar(file=io.StringIO(), **words))
        ptulab.run("plan", tmp_path / "data", program=script(tmp_path, slow), progress=True)
    assert max(seen) == 300


def test_the_position_in_a_process_that_is_gone() -> None:
    assert module._position(2**22 + 1, str(SCAN[1])) == 0


def test_a_bar_without_tqdm(monkeypatch: pytest.MonkeyPatch, program: str) -> None:
    monkeypatch.setitem(cast(dict[str, Any], sys.modules), "tqdm", None)
    assert ptulab.run(*SCAN, program=program).head.photons == 97492
    with pytest.raises(MissingLibraryError, match=r"the progress of a run needs tqdm: install python3-tqdm \(Debian\), or the extra ptulab\[many\]"):
        ptulab.run(*SCAN, program=program, progress=True)


def test_libraries_that_are_there_and_not() -> None:
    assert want("json", "a test") is sys.modules["json"]
    with pytest.raises(MissingLibraryError, match="a test needs nosuchlibrary"):
        want("nosuchlibrary.part", "a test")
    assert issubclass(MissingLibraryError, ImportError)


def test_a_library_that_is_broken_says_so_itself(tmp_path: Path, monkeypatch: pytest.MonkeyPatch) -> None:
    (tmp_path / "brokenlibrary.py").write_text("import nosuchlibrary\n")
    monkeypatch.syspath_prepend(tmp_path)
    with pytest.raises(ModuleNotFoundError, match="nosuchlibrary") as fault:
        want("brokenlibrary", "a test")
    assert not isinstance(fault.value, MissingLibraryError)


def test_where_the_program_is(tmp_path: Path, monkeypatch: pytest.MonkeyPatch) -> None:
    path = script(tmp_path, "")
    assert module.find_program(path) == str(path)
    monkeypatch.setenv("PTU", str(path))
    assert module.find_program() == str(path)
    monkeypatch.chdir(tmp_path)
    others: tuple[Any, ...] = ("./other", Path("other"), "./nothing", "nothing", tmp_path / "nothing", tmp_path)
    for named in others[:2]:
        assert module.find_program(named) == str(path)
    for named in others[2:]:
        with pytest.raises(NoProgramError):
            module.find_program(named)
    monkeypatch.setenv("PATH", str(tmp_path))
    monkeypatch.chdir("/")
    assert module.find_program("other") == str(path)


def test_a_folder_of_data_brings_no_program(tmp_path: Path, monkeypatch: pytest.MonkeyPatch) -> None:
    """A name alone is one of the PATH, as in a shell: no file of that name in the working directory is run or hides it,
    also where the PATH has the working directory, and neither does one there or of the checkout that can't be run."""
    for folder in ("data", "bin", "dead", "checkout/out"):
        (tmp_path / folder).mkdir(parents=True)
        (tmp_path / folder / "ptu").write_text("#!/bin/sh\n")
    ours = tmp_path / "bin" / "ptu"
    ours.chmod(0o755)
    monkeypatch.chdir(tmp_path / "data")
    monkeypatch.delenv("PTU", raising=False)
    (tmp_path / "checkout" / "crates.txt").touch()
    monkeypatch.setattr(ptulab_program, "CHECKOUT", str(tmp_path / "checkout"))
    monkeypatch.setattr(ptulab_program, "HERE", str(tmp_path))
    for mode in (0o755, 0o644):
        Path("ptu").chmod(mode)
        for folders in (str(ours.parent), f":.:{ours.parent}", f"{ours.parent}:.", f"{tmp_path}/dead:{ours.parent}"):
            monkeypatch.setenv("PATH", folders)
            for named in (None, "ptu"):
                assert module.find_program(named) == str(ours)
            monkeypatch.setenv("PTU", "ptu")
            assert module.find_program() == str(ours)
            monkeypatch.delenv("PTU")
    for folders in ("", ".", str(tmp_path)):
        monkeypatch.setenv("PATH", folders)
        with pytest.raises(NoProgramError):
            module.find_program()
    (tmp_path / "checkout" / "out" / "ptu").chmod(0o755)
    assert module.find_program() == str(tmp_path / "checkout" / "out" / "ptu")


def test_a_program_that_answers_otherwise(tmp_path: Path) -> None:
    with pytest.raises(BadReportError):
        ptulab.run("plan", "data", program=script(tmp_path, "print('something else' * 100_000)"))
    with pytest.raises(RefusalError, match="signal 9"):
        ptulab.run("plan", "data", program=script(tmp_path, "import os\nos.kill(os.getpid(), 9)"))


def test_an_interrupted_run_leaves_no_process(tmp_path: Path, monkeypatch: pytest.MonkeyPatch) -> None:
    sleeper = script(tmp_path, "import os, time\nopen('pid', 'w').write(str(os.getpid()))\ntime.sleep(60)")
    monkeypatch.chdir(tmp_path)

    def interrupted(*words: Any) -> None:
        while not (tmp_path / "pid").exists() or not (tmp_path / "pid").read_text():
            time.sleep(0.01)
        raise KeyboardInterrupt

    monkeypatch.setattr(module, "read_stream", interrupted)
    with pytest.raises(KeyboardInterrupt):
        ptulab.run("plan", "data", program=sleeper)
    with pytest.raises(ProcessLookupError):
        os.kill(int((tmp_path / "pid").read_text()), 0)


def test_a_file_from_a_pipe(tmp_path: Path, program: str, make_plan: Callable[..., Path]) -> None:
    """Where a file's length isn't known the run is the same."""
    pytest.importorskip("tqdm")
    made.write(tmp_path / "data.ptu", "HydraHarp2T3", [(20, 1)])
    os.mkfifo(tmp_path / "pipe")
    child = os.fork()
    if child == 0:
        (tmp_path / "pipe").write_bytes((tmp_path / "data.ptu").read_bytes())
        os._exit(0)
    report = ptulab.run(make_plan(""), tmp_path / "pipe", program=program, progress=True)
    os.waitpid(child, 0)
    assert report.head.photons == 1


@pytest.mark.parametrize("piped", [True, False])
def test_what_is_cut_or_unlike_in_the_middle_adds_nothing(program: str, tmp_path: Path, make_plan: Callable[..., Path], make_file: Callable[..., Path], piped: bool) -> None:
    """A program that ends while it prints, and a second table of another width, of a plan that can be read or not."""
    path = make_file("HydraHarp2T2", [(time, 1) for time in range(30)])
    plan = make_plan("group = [{ inputs = [1] }]\n" + "".join(f"[[trace]]\ngroup = 1\nwidth = {width}\nbins = 8\n" for width in (2, 3)))
    one, as_it_was = (ptulab.run(plan, path, program=program) for _ in range(2))
    text = subprocess.run([program, "run", plan, path], capture_output=True, text=True, check=True).stdout
    told = tmp_path / "none.toml" if piped else plan
    for printed, end in ((text[: text.index("trace 2")], "os.kill(os.getpid(), 9)"), (text.replace("width 3", "width 4"), "")):
        with pytest.raises(RefusalError if end else ptulab.UnlikeError):
            ptulab.run(told, path, program=script(tmp_path, f"import os\nprint({printed!r}, end='', flush=True)\n{end}\n"), whole=one)
        assert one == as_it_was
    assert ptulab.run(plan, path, program=program, whole=one) == as_it_was + as_it_was
