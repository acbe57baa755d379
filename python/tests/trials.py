"""Trials of many files on hosts of their own: files, a plan, a program that is slow enough to disturb it, and runs of them."""

import contextlib
import hashlib
import json
import os
import random
import subprocess
from pathlib import Path
from typing import Any

import made
from hosts import Cluster, end_of, has_words, until
from plain_sum import plain_sum, report_of

FILES = 48
PLAN = """
group = [{ inputs = [1] }, { inputs = [2] }]
trace = [{ group = 1, width = 1000, bins = 8 }]
correlation = [{ first = 1, second = 2, lags = 8, levels = 4 }]
"""
OTHER_PLAN = PLAN.replace("bins = 8", "bins = 9")
REPORTS: dict[tuple[str, bytes], str] = {}  # by a plan and a file, both as they were; the files of all trials are the same
NOBODY = ("nobody could count it", "the scheduler of dask is gone")  # where no host tried
SLOW = """#!/bin/sh
# the program, which takes its time, and on a slow host more; a run waits for those that must have come first
come() { for name in "$@"; do until [ -e {folder}/came-$name ]; do sleep 0.05; done; done; }
if [ $# -eq 0 ]; then : > {folder}/came-$(hostname); exec {program}; fi
echo >> {folder}/begun
come {awaited}
file=$(readlink "$3")
case $file in
    */{last}.ptu) come end ;;
    */grows.ptu) printf 1234 >> "$file" ;;
    */shrinks.ptu) truncate -s -4 "$file"; truncate -s +4 "$file" ;;
    */changes.ptu) printf PQTTTR | dd of="$file" conv=notrunc status=none ;; # as it is there
esac
[ "$(hostname)" = slow ] && sleep 3
sleep {seconds}
exec {program} "$@"
"""


class Trial:
    """Files, a plan, a program that is slow enough to disturb it, and runs of them, whose last file waits for ``let_end``."""

    def __init__(self, folder: Path, hosts: Cluster, program: str) -> None:
        self.folder, self.hosts, self.real = folder, hosts, program
        self.plan, self.program, self.data = folder / "plan.toml", folder / "slow_ptu", folder / "data"
        self.plan.write_text(PLAN)
        self.slow()
        self.program.chmod(0o755)
        self.data.mkdir()
        self.files = [made.write(self.data / f"{number:02}.ptu", "HydraHarp2T2", events(number)) for number in range(FILES)]

    def slow(self, takes: float = 0.05, awaited: str = "") -> None:
        """Makes the program, which takes so many seconds for a file, and before the first awaits that some hosts were checked."""
        words = {"program": os.path.abspath(self.real), "folder": str(self.folder), "awaited": awaited, "seconds": str(takes), "last": str(FILES - 1)}
        text = SLOW
        for word, value in words.items():
            text = text.replace(f"{{{word}}}", value)
        self.program.write_text(text)

    def start(self, *words: object, out: str = "sum.txt", **more: Any) -> subprocess.Popen[str]:
        """Begins to count all of them."""
        for name in ("begun", "came-end"):
            (self.folder / name).unlink(missing_ok=True)
        listed = self.folder / "files"
        listed.write_text("".join(f"{path}\n" for path in self.files))
        return self.hosts.start("count", self.plan, "--from", listed, "--program", self.program, "-o", self.folder / out, *words, **more)

    def let_end(self) -> None:
        """Lets the last file be counted."""
        (self.folder / "came-end").touch()

    def begun(self, number: int = 1) -> None:
        """Waits until some runs were begun."""
        until(lambda: (self.folder / "begun").exists() and len((self.folder / "begun").read_bytes()) >= number, "runs")

    def left_out(self, number: int) -> None:
        """Waits until some hosts were left out."""
        until(lambda: len([line for line in self.lines() if "left_out" in line]) == number, "hosts that are left out")

    def lines(self, out: str = "sum.txt") -> list[dict[str, object]]:
        """The manifest, as far as it has whole lines."""
        with contextlib.suppress(FileNotFoundError):
            text = (self.folder / f"{out}.jsonl").read_text()
            return [json.loads(line) for line in text.splitlines(keepends=True) if line.endswith("\n")]
        return []

    def added(self, out: str = "sum.txt") -> list[Path]:
        """The files that are in the sum by its manifest."""
        return added(self.lines(out))

    def plain(self, files: list[Path]) -> str:
        """The sum of some files without ptulab."""
        keys = [(self.plan.read_text(), path.read_bytes()) for path in files]
        for key, path in zip(keys, files):
            if key not in REPORTS:
                REPORTS[key] = report_of(self.real, self.plan, path)
        return plain_sum(REPORTS[key] for key in keys)

    def check_standing(self) -> bool:
        """Whatever ended a run: a sum that its manifest names, and that is there, is that of the files above its line."""
        lines, is_there = self.lines(), False
        for at, line in enumerate(lines):
            path = self.folder / str(line.get("sum", "none"))
            if path.is_file() and hashlib.sha256(path.read_bytes()).hexdigest() == line["sha256"]:
                assert path.read_text() == self.plain(added(lines[:at]))
                is_there = True
        return is_there

    def left(self, out: str = "sum.txt") -> dict[str, tuple[str, str]]:
        """The files that aren't, why, and on which host."""
        last = {str(line["file"]): line for line in self.lines(out) if "file" in line}
        return {Path(name).name: (str(line["why"]), str(line["host"])) for name, line in last.items() if line["status"] != 0}

    def check(self, running: subprocess.Popen[str], left: int, out: str = "sum.txt") -> str:
        """Lets it end, and checks it; gives what it said."""
        self.let_end()
        said = end_of(running, 100)[1]
        these = self.added(out)
        assert (len(these), len(self.left(out))) == (len(self.files) - left, left), said
        assert running.returncode == (3 if left else 0), said
        assert (self.folder / out).read_text() == self.plain(these)
        self.check_reasons(out)
        self.check_nothing_runs()
        return said

    def check_reasons(self, out: str = "sum.txt") -> None:
        """Each file that is left has a reason, and the hosts that tried where there were some."""
        for why, host in self.left(out).values():
            assert why and (host or why.startswith(NOBODY)), (why, host)

    def check_runs_end(self) -> None:
        """All runs end within two seconds."""
        hosts = self.hosts.network.hosts.values()
        until(lambda: not any(is_run(process) for host in hosts for process in host.processes()), "the end of all runs", 2)

    def check_no_tasks(self) -> None:
        """The scheduler has forgotten all tasks."""
        until(lambda: not self.hosts.ask()[1], "the end of all tasks", 30)

    def check_nothing_runs(self) -> None:
        """No process but those of dask runs."""
        self.check_runs_end()
        assert not self.hosts.client.commands()


def is_run(process: int) -> bool:
    """Whether a process counts a file, or waits before it does."""
    return has_words(process, b"\0run\0") or has_words(process, b"sleep\0")


def added(lines: list[dict[str, object]]) -> list[Path]:
    """The files that are in a sum by such lines: the last one of a file tells what came of it."""
    last = {str(line["file"]): line["status"] for line in lines if "file" in line}
    return [Path(name) for name in sorted(last) if last[name] == 0]


def events(number: int) -> list[tuple[int, int]]:
    """Some photons of two inputs."""
    draws = random.Random(number)
    return [(time, draws.randint(1, 2)) for time in sorted(draws.sample(range(9000), 300 + number))]
