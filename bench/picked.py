#!/usr/bin/env python3
"""Reads back what 'ptu pick' writes: picked.py [PROGRAM]

PROGRAM is ./ptu by default. For each of the twelve record types a file of random records is made, its photons of one
group are picked, and the new file is read by 'count' and 'events' of the program and of brute.py. All must give the
photons that 'events' lists in the first file, those of the group that aren't late, at the same times. Ends with
status 1 where one doesn't.
"""

import os
import random
import subprocess
import sys
import tempfile
from collections.abc import Callable
from typing import Any

import brute

ROOT = os.path.dirname(os.path.dirname(os.path.abspath(__file__)))
PLAN = b"version = 2\n[[group]]\ninputs = [0, 2, 3]\n[[group]]\ninputs = [1, 4]\n"


def photons(text: Any, inputs: Any = None) -> Any:
    """The input, the time and the dtime of each photon among the lines of 'events' that isn't late."""
    lines = [line.split() for line in text.decode().splitlines()]
    chosen = [line for line in lines if line[1] == "photon" and line[-1] != "late"]
    return [line[2:] for line in chosen if inputs is None or int(line[2]) in inputs]


def said(program: str, words: Any) -> Any:
    done = subprocess.run([program, *words], stdout=subprocess.PIPE, stderr=subprocess.PIPE, check=False)
    return done.returncode, done.stdout, done.stderr


def differs(program: str, folder: Any, code: Any, seed: int) -> Any:
    """What is wrong with the files picked of a random file of a type."""
    rng = random.Random(seed)
    name: Callable[[str], str] = lambda end: os.path.join(folder, end)
    with open(name("plan.toml"), "wb") as file:
        file.write(PLAN)
    with open(name("data.ptu"), "wb") as file:
        file.write(brute.minimal_file(code, [rng.getrandbits(32) for _ in range(3000)]))
    status, lines, _ = said(program, ["events", name("data.ptu")])
    if status != 0:
        return "events ended with %d" % status
    for group, inputs in ((1, (0, 2, 3)), (2, (1, 4))):
        status, picked, _ = said(program, ["pick", name("plan.toml"), str(group), name("data.ptu")])
        with open(name("picked.ptu"), "wb") as file:
            file.write(picked)
        if status != 0:
            return "pick ended with %d" % status
        for command in ("count", "events"):
            words = [command, name("picked.ptu")]
            ours = said(program, words)
            if ours != brute.answer([os.fsencode(word) for word in words]):
                return f"{command} of the picked file isn't what brute.py says"
        if photons(ours[1]) != photons(lines, inputs):
            return "other photons"
    return None


def main() -> None:
    program = sys.argv[1] if len(sys.argv) > 1 else os.path.join(ROOT, "ptu")
    wrong = 0
    with tempfile.TemporaryDirectory() as folder:
        for code, (name, *_) in brute.TYPES.items():
            why = next((why for seed in range(5) if (why := differs(program, folder, code, seed))), None)
            print(f"{name}: {why or 'the same photons'}")
            wrong += why is not None
    sys.exit(1 if wrong else 0)


if __name__ == "__main__":
    main()
