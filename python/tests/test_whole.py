"""Files that appear when they are whole."""

import os
import stat
from pathlib import Path

import pytest

from ptulab._whole import written_whole


def test_a_file_appears_when_it_is_whole(tmp_path: Path) -> None:
    path = tmp_path / "out.txt"
    with written_whole(path) as out:
        out.write(b"some")
        assert not path.exists()
    assert path.read_bytes() == b"some" and os.listdir(tmp_path) == ["out.txt"]
    (tmp_path / "plain").touch()
    assert stat.S_IMODE(path.stat().st_mode) == stat.S_IMODE((tmp_path / "plain").stat().st_mode)


def test_the_mask_of_the_process_stays(tmp_path: Path, monkeypatch: pytest.MonkeyPatch) -> None:
    """Other threads may make files meanwhile, so it isn't set for a moment either; the system takes it off."""
    before = os.umask(0o027)
    try:
        monkeypatch.setattr(os, "umask", lambda mask: pytest.fail("the mask was set"))
        with written_whole(tmp_path / "out.txt") as out:
            assert stat.S_IMODE(os.fstat(out.fileno()).st_mode) == 0o640
        assert stat.S_IMODE((tmp_path / "out.txt").stat().st_mode) == 0o640
    finally:
        monkeypatch.undo()
        os.umask(before)


def test_after_a_fault_the_old_file_stands(tmp_path: Path) -> None:
    path = tmp_path / "out.txt"
    path.write_bytes(b"old")
    with pytest.raises(ZeroDivisionError), written_whole(path) as out:
        out.write(b"new")
        raise ZeroDivisionError
    assert path.read_bytes() == b"old" and os.listdir(tmp_path) == ["out.txt"]


def test_no_folder_is_an_error(tmp_path: Path) -> None:
    with pytest.raises(FileNotFoundError, match=r"none/out\.txt'$"), written_whole(tmp_path / "none" / "out.txt"):
        pass


def test_a_link_stays_and_a_device_is_let_be(tmp_path: Path) -> None:
    (tmp_path / "link").symlink_to("out.txt")
    with written_whole(tmp_path / "link") as out:
        out.write(b"some")
    assert (tmp_path / "link").is_symlink() and (tmp_path / "out.txt").read_bytes() == b"some"
    os.mkfifo(tmp_path / "pipe")
    for path in (tmp_path / "pipe", tmp_path):
        with pytest.raises(OSError, match="no regular file"), written_whole(path):
            pass
    assert stat.S_ISFIFO((tmp_path / "pipe").stat().st_mode) and sorted(os.listdir(tmp_path)) == ["link", "out.txt", "pipe"]
