"""Tests of make_picture.py."""

import pytest

import make_picture


def test_box_has_the_beginning_of_what_is_said() -> None:
    assert make_picture.in_box("The clock of a file: absolute times of records.") == ["The clock of a file"]
    assert make_picture.in_box("Reads a file (any), and `plans`.") == ["Reads a file"]
    long = make_picture.in_box("One part that is told at some length, and another of which nothing can be left out, and so on to the end")
    assert " ".join(long) == "One part that is told at some length, and another of which nothing can be left out"


def test_ways_go_where_crates_are_joined(monkeypatch: pytest.MonkeyPatch) -> None:
    stands = {"low": set[str](), "left": {"low"}, "right": {"low"}, "top": {"left", "low"}}
    monkeypatch.setattr(make_picture, "WAYS", {"count": [("top", ""), ("left", ""), ("low", "")]})
    make_picture.check_ways(stands)
    monkeypatch.setattr(make_picture, "WAYS", {"count": [("left", ""), ("right", "")]})
    with pytest.raises(SystemExit):
        make_picture.check_ways(stands)
    monkeypatch.setattr(make_picture, "WAYS", {"count": [("left", ""), ("gone", "")]})
    with pytest.raises(SystemExit):
        make_picture.check_ways(stands)
