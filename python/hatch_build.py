"""Puts the programs of ``bin/`` into a wheel, and ``bin/`` into a source distribution.

A wheel has the programs where the machine that makes it can run them, and is tagged for such machines: x86-64 with the GNU
C library 2.34 or later, the newest whose symbols the programs need. Elsewhere, and where it is editable, it has Python alone.
"""

import hashlib
from pathlib import Path
from typing import Any

from hatchling.builders.hooks.plugin.interface import BuildHookInterface
from packaging.tags import platform_tags

PLATFORM = "manylinux_2_34_x86_64"


class Programs(BuildHookInterface):  # type: ignore[type-arg]
    """The hook of hatchling."""

    def initialize(self, version: str, build_data: dict[str, Any]) -> None:
        """Adds the programs to what is built."""
        root = Path(self.root)
        programs = next((folder for folder in (root / "bin", root.parent / "bin") if (folder / "made_from").is_file()), None)
        if programs is None or version == "editable" or self.target_name == "wheel" and PLATFORM not in platform_tags():
            return
        told = dict(line.split(" ", 1) for line in (programs / "made_from").read_text("utf-8").splitlines())
        for path in programs.glob("*/ptu"):
            if hashlib.sha256(path.read_bytes()).hexdigest() != told.get(path.parent.name):
                raise SystemExit(f"{path} was cut or changed: its sum is not that of {programs / 'made_from'}")
        within = "bin" if self.target_name == "sdist" else "ptulab_program"
        for path in (programs / "made_from", *programs.glob("*/ptu")):
            build_data["force_include"][str(path)] = f"{within}/{path.relative_to(programs)}"
        if self.target_name == "wheel":
            build_data["pure_python"] = False
            build_data["tag"] = f"py3-none-{PLATFORM}"
