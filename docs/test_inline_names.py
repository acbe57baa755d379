"""Tests of inline_names.py: pytest docs"""

import inline_names
import pytest
from inline_names import wrong_code, wrong_keywords, wrong_names, wrong_words


@pytest.mark.parametrize(
    ("line", "wrong"),
    [
        ("sudo apt install python3-numpy dpkg-dev", []),
        ("sudo apt update && sudo apt install -y python3-nunpy dpkg-devv", ["python3-nunpy", "dpkg-devv"]),
        ("apt install ./ptu_0.1.0_amd64.deb", []),
        ("ptu-help", []),
        ("ptu-hlep", ["ptu-hlep"]),
        ("'ptulab[app]'", []),
        ("'ptulab[apps]'", ["apps"]),
        ("--processes 2", []),
        ("--procesess", ["procesess"]),
        ("dask workr --nthreads 8", ["workr"]),
        ("phasors_reference, phasor_reference", ["phasors_reference"]),
        ("PLAN.toml, FOLDR, test_*.py, HWSync_Divider", []),
    ],
)
def test_a_word_stands_in_a_file_of_the_tree(line: str, wrong: list[str]) -> None:
    assert wrong_words(line, set()) == wrong
    assert not wrong_words(line, set(wrong))


@pytest.mark.parametrize(
    ("line", "wrong"),
    [
        ("segments.together([curve, other])", []),
        ("ptulab.segments.together", []),
        ("segments.joined([curve, other])", ["segments.joined", "joined("]),
        ("scan_of(header)", []),
        ("scan_from(header)", ["scan_from("]),
        ("parts_of(file)", ["parts_of("]),
        ("part_of(file)", []),
        ("report.head", []),
        ("report.json", []),
        ("events.array", []),
        ("ptulab.burst", ["ptulab.burst"]),
        ("ptulab.app", []),
        ("focus.constants(fit)", ["focus.constants", "constants("]),
        ("np.cumsum(", []),
        ("table.photons, scan.html", []),
        ("table.photon", ["table.photon"]),
        ("docs/fits.nothing", []),
    ],
)
def test_a_name_is_one_of_ptulab(line: str, wrong: list[str]) -> None:
    pytest.importorskip("starlette")
    assert list(wrong_names(line)) == wrong


@pytest.mark.parametrize(
    ("line", "wrong"),
    [
        ("background=", []),
        ("fixt={'background': 2.0}", ["fixt="]),
        ("fit_tail(decay, fixed={'background': 2.0})", []),
        ("fit_tail(decay, processes=2)", ["fit_tail(processes="]),
        ("counts[mask].sum(axis=0)", []),
        ("a == b, PTU=x ptulab --axes=2", []),
    ],
)
def test_a_keyword_is_a_parameter(line: str, wrong: list[str]) -> None:
    pytest.importorskip("numpy")
    assert list(wrong_keywords(line)) == wrong


def test_without_ptulab_only_words_are_looked_up(monkeypatch: pytest.MonkeyPatch) -> None:
    monkeypatch.setattr(inline_names, "modules_of_ptulab", dict)
    assert not list(wrong_names("scan_from(header)")) and not list(wrong_keywords("fixt="))


def test_names_of_prose_and_of_blocks_that_arent_tried() -> None:
    pytest.importorskip("numpy")
    text = "Call `segments.joined`.\n\n```sh (needs root)\napt install python3-nunpy\n```\n\n```sh\nmakes_it\n```\n\nOr `makes_it`.\n"
    package = "'python3-nunpy' stands in no file of this tree"
    assert list(wrong_code("docs/python.md", text)) == [package, "ptulab has no 'segments.joined'"]
    assert list(wrong_code("docs/contracts.md", text)) == [package]
