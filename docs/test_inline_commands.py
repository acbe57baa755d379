"""Tests of inline_commands.py: pytest docs"""

import subprocess
from typing import Any

import inline_commands
import pytest
from inline_commands import fault_of, simple_commands, wrong_commands


@pytest.mark.parametrize(
    ("line", "fault"),
    [
        ("./ptu run PLAN FILE", None),
        ("ptu pick", None),
        ("PTU=$(./ptu --path) .ci/stages documents", None),
        ("ptu events FILE \\| head -1", None),
        ("ptu events FILE >>FILE", None),
        ("ptu build: 12 of 39: record_stream", None),
        ("ptu pick PLAN FILE", "takes PLAN GROUP FILE"),
        ("ptu histogram FILE", "no command histogram"),
        ("PTU=$(./ptu --where) .ci/stages documents", "no option --where"),
        ("x | .ci/stages lint pictures", "no stage pictures"),
        ("docs/check_measures.py --write", None),
        ("docs/check_measures.py --put", "no option --put"),
        ("docs/measures.toml", None),
        ("docs/made_parts.py NAME", "can't be run without python3"),
        ("python3 docs/made_parts.py NAME", None),
        ("bench/nothing FILE", "no such file"),
        ("./ptulab plan FILE -o PLAN", None),
        ("ptulab plan FILE --csv FOLDER", "no option --csv"),
        ("ptulab picture FILE", "no command picture"),
        ("something else", None),
        ("./put --help", "no program ./put"),
        ("./install.sh", None),
        ("rb try --test", "no program rb"),
        ("put count FILE", "no program put"),
        ("valgrind --tool=callgrind", None),
    ],
)
def test_a_command_is_one_that_there_is(monkeypatch: pytest.MonkeyPatch, line: str, fault: str | None) -> None:
    told = {(): "--version", ("plan",): "usage: ptulab plan\n  -o OUT, --out OUT\n"}
    monkeypatch.setattr(inline_commands, "help_of_ptulab", lambda *words: told.get(words, ""))
    assert [found for words in simple_commands(line) if (found := fault_of(words))] == ([fault] if fault else [])


@pytest.mark.parametrize(
    ("line", "fault"),
    [
        ("rt ci", None),
        ("rt must-fail count_trace", None),
        ("rt check --only bin::Bin::of", None),
        ("rt lemma take length", None),
        ("rt prove", "no command prove"),
        ("rt ci --again", "no option --again"),
        ("rt ci counted_traces", "no crate counted_traces"),
        ("rt check --only bin::Bin::nothing", "no function bin::Bin::nothing"),
    ],
)
def test_a_command_of_the_kit_is_one_that_it_tells(monkeypatch: pytest.MonkeyPatch, line: str, fault: str | None) -> None:
    monkeypatch.setattr(inline_commands, "words_of_kit", lambda: ({"ci", "check", "lemma", "must-fail"}, "rt ci [--anew], rt check --only"))
    assert [fault_of(words) for words in simple_commands(line)] == [fault]
    monkeypatch.setattr(inline_commands, "words_of_kit", lambda: None)
    assert [fault_of(words) for words in simple_commands(line)] == [None]


def test_commands_of_prose_and_of_blocks_that_arent_tried() -> None:
    text = "Call `ptu counts FILE`.\n\n```sh (needs root)\nbench/none FILE\n```\n\n```sh\nptu tried\n```\n"
    assert list(wrong_commands("page.md", text)) == ["'bench/none FILE': no such file", "'ptu counts FILE': no command counts"]
    assert list(wrong_commands("page.1", '.BI "ptu counts " FILE\n.B ptu \\-\\-help\n')) == ["'ptu counts FILE': no command counts"]


def test_the_help_of_ptulab_is_its_own(monkeypatch: pytest.MonkeyPatch) -> None:
    calls: list[Any] = []

    def run(words: Any, **more: Any) -> Any:
        calls.append(words)
        return subprocess.CompletedProcess(words, 2, "usage")

    monkeypatch.setattr(subprocess, "run", run)
    inline_commands.help_of_ptulab.cache_clear()
    assert inline_commands.help_of_ptulab("nothing") == "" and calls[0][1:] == ["nothing", "--help"]
    inline_commands.help_of_ptulab.cache_clear()


def test_options_of_dask_and_snakemake(monkeypatch: pytest.MonkeyPatch) -> None:
    monkeypatch.setattr(inline_commands, "help_of_other", lambda *words: {"dask": "  --nthreads INTEGER", "snakemake": "--unlock"}.get(words[0]))
    assert fault_of(["dask", "worker", "--nthreads", "8"]) is None and fault_of(["snakemake", "--unlock"]) is None
    assert fault_of(["dask", "worker", "--threads", "8"]) == "no option --threads"
    assert fault_of(["snakemake", "--unlok"]) == "no option --unlok"
    told = {("dask",): "Usage: dask", ("dask", "worker"): "  --nthreads INTEGER"}
    monkeypatch.setattr(inline_commands, "help_of_other", lambda *words: told.get(words))
    assert fault_of(["dask", "worker", "HOST"]) is None and fault_of(["dask", "workr", "HOST"]) == "no command workr"
    monkeypatch.setattr(inline_commands, "help_of_other", lambda *words: None)
    assert fault_of(["dask", "workr"]) is None
    assert fault_of(["snakemake", "--unlok"]) is None
