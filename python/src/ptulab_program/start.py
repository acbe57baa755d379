"""The command ``ptulab`` of a checkout, which a Python without NumPy answers in one line: ``python -m ptulab_program.start``."""

import importlib
import importlib.util
import os
import sys
import types


def main() -> int:
    """Runs the command. Without NumPy it knows its words alone: ``--version`` and ``--help`` are answered."""
    if importlib.util.find_spec("numpy") is not None:
        return int(importlib.import_module("ptulab.__main__").main())
    package = types.ModuleType("ptulab")  # which its own __init__ fills, by NumPy
    package.__path__ = [os.path.join(os.path.dirname(os.path.dirname(os.path.abspath(__file__))), "ptulab")]
    sys.modules["ptulab"] = package
    importlib.import_module("ptulab._command_line").command_line().parse_args()
    said = f"ptulab: {sys.executable} has no NumPy: apt install python3-numpy brings it to Debian's Python, which PYTHON=/usr/bin/python3 names"
    print(said, file=sys.stderr)
    return 1


if __name__ == "__main__":
    sys.exit(main())
