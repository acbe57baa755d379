"""The program ``ptu`` that goes with ptulab, without anything of ptulab, so that the command ``ptu`` starts at once.

A wheel carries one program for each of two levels of x86-64 processors, and ``made_from``, which has their sums and that
of all that they were made from. In a checkout, from which the wheel is made, these stand in ``bin/``.
"""

import hashlib
import os
import sys

__all__ = ["checksum", "find", "level", "main", "made_from"]

HERE = os.path.dirname(os.path.realpath(__file__))
CHECKOUT = os.path.dirname(os.path.dirname(os.path.dirname(HERE)))
COMMON = ("cx16", "lahf_lm", "popcnt", "pni", "sse4_1", "sse4_2", "ssse3")
FAST = ("avx", "avx2", "bmi1", "bmi2", "f16c", "fma", "abm", "movbe", "xsave")


def level(cpuinfo: str = "/proc/cpuinfo") -> str | None:
    """The level of the processor at hand, ``"x86-64-v3"`` or ``"x86-64-v2"``: the common one where the system doesn't tell,
    None of an older one."""
    try:
        with open(cpuinfo, encoding="ascii", errors="replace") as lines:
            flags = next((line.split() for line in lines if line.startswith("flags")), None)
    except OSError:
        flags = None
    if flags is None:
        return "x86-64-v2"
    if not set(COMMON) <= set(flags):
        return None
    return "x86-64-v3" if set(FAST) <= set(flags) else "x86-64-v2"


def find() -> str | None:
    """The path of the program that was built in the checkout of this file, else of the one for this processor that the wheel
    or the checkout's ``bin/`` has. None where there is none, and where its bytes are not those that ``made_from`` tells."""
    built = os.path.join(CHECKOUT, "out", "ptu")
    if os.path.isfile(os.path.join(CHECKOUT, "crates.txt")) and os.path.isfile(built) and os.access(built, os.X_OK):
        return built
    for folder in _folders():
        path = os.path.join(folder, level() or "", "ptu")
        if os.path.isfile(path) and checksum(path) == _made_from(folder).get(level() or ""):
            return path
    return None


def made_from(program: str) -> str | None:
    """The sum of all that a program was made from: the kit, and the sources of the crates that it stands on. None where nothing
    tells it: for programs with the bytes of the wheel's or of ``bin/`` these do, for others the file that ``./ptu --build``
    leaves beside them."""
    bytes_of_it = checksum(program)
    for folder in _folders():
        told = _made_from(folder)
        if bytes_of_it in told.values():
            return told.get("made_from")
    try:
        with open(f"{program}.made_from", encoding="utf-8") as line:
            return line.read().split()[-1]
    except (OSError, ValueError, IndexError):
        return None


def checksum(path: str | os.PathLike[str]) -> str:
    """The SHA-256 of a file, as ``sha256sum`` prints it."""
    with open(path, "rb") as file:
        return hashlib.file_digest(file, "sha256").hexdigest()


def main() -> None:
    """Runs the program in the place of this process, with the same words. Status 127 says that there is none."""
    program = find()
    if program is None:
        sys.stderr.write(f"ptu: this installation of ptulab has no program for this machine (level {level()}) that is whole\n")
        sys.exit(127)
    os.execv(program, [program, *sys.argv[1:]])


def _folders() -> list[str]:
    return [folder for folder in (HERE, os.path.join(CHECKOUT, "bin")) if os.path.isfile(os.path.join(folder, "made_from"))]


def _made_from(folder: str) -> dict[str, str]:
    with open(os.path.join(folder, "made_from"), encoding="utf-8") as lines:
        return {name: told for name, _, told in (line.rstrip("\n").partition(" ") for line in lines)}
