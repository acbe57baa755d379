#!/usr/bin/env python3
"""Tries the Snakefile and its profile for Slurm on this machine: python_slurm.py PROGRAM

It starts munged, slurmctld and slurmd on the loopback, with a folder of their own (root and Debian's slurm-wlm, munge and
snakemake are needed), makes eight files of which one is cut, counts them as jobs of the queue, and cancels one of the jobs
while it runs. The cancelled job must be counted again, the cut file be listed, and the sum be, to the byte, what one process
adds up of the other seven. Then the same files are counted by an array of jobs (examples/slurm/array.sh), of which one is
put back into the queue while it runs. The daemons are ended behind it by their ids. It prints what was seen, and ends with 0
where all was so. No figure here is part of the gate.
"""

import contextlib
import os
import shutil
import socket
import subprocess
import sys
import tempfile
import time
from collections.abc import Iterator
from pathlib import Path
from typing import Any

ROOT = Path(__file__).resolve().parent.parent
sys.path[:0] = [str(ROOT / "python" / "src"), str(ROOT / "examples")]

from made_file import t2_words, write  # noqa: E402

import ptulab  # noqa: E402
from ptulab.texts import report_lines  # noqa: E402

SLOW = 6  # seconds that the job to be cancelled takes
PATIENCE = 300  # seconds for all
PLAN = """group = [{ inputs = [1] }, { inputs = [2] }]
trace = [{ group = 1, width = 1000, bins = 500 }]
correlation = [{ first = 1, second = 2, lags = 16, levels = 10 }]
"""
CONFIG = """ClusterName=trial
SlurmctldHost={host}(127.0.0.1)
SlurmctldPort=16817
SlurmdPort=16818
AuthType=auth/munge
AuthInfo=socket={folder}/munge.socket
SlurmUser=root
ProctrackType=proctrack/linuxproc
TaskPlugin=task/none
SwitchType=switch/none
MpiDefault=none
ReturnToService=2
SelectType=select/cons_tres
SelectTypeParameters=CR_Core_Memory
AccountingStorageType=accounting_storage/none
JobAcctGatherType=jobacct_gather/none
SlurmctldPidFile={folder}/slurmctld.pid
SlurmdPidFile={folder}/slurmd.pid
SlurmctldLogFile={folder}/slurmctld.log
SlurmdLogFile={folder}/slurmd.log
SlurmdSpoolDir={folder}/spool
StateSaveLocation={folder}/state
NodeName={host} NodeAddr=127.0.0.1 CPUs=4 RealMemory=2000 State=UNKNOWN
PartitionName=all Nodes=ALL Default=YES MaxTime=INFINITE State=UP
"""


def until(true: Any, what: Any) -> None:
    end = time.monotonic() + PATIENCE
    while not true():
        if time.monotonic() > end:
            sys.exit(f"waited too long for {what}")
        time.sleep(0.2)


@contextlib.contextmanager
def queue(folder: Path) -> Iterator[Any]:
    """A queue of one node on the loopback."""
    host = socket.gethostname().split(".")[0]
    (folder / "slurm.conf").write_text(CONFIG.format(folder=folder, host=host))
    (folder / "munge.key").write_bytes(os.urandom(128))
    (folder / "munge.key").chmod(0o400)
    for name in ("spool", "state"):
        (folder / name).mkdir()
    os.environ["SLURM_CONF"] = str(folder / "slurm.conf")
    places = [f"--{name}={folder}/munge.{end}" for name, end in (("key-file", "key"), ("socket", "socket"), ("pid-file", "pid"))]
    places += [f"--log-file={folder}/munge.log", f"--seed-file={folder}/munge.seed"]
    commands = [["munged", "--foreground", "--force", *places], ["slurmctld", "-D"], ["slurmd", "-D", "-N", host]]
    started = []
    try:
        for command, place in zip(commands, ("munge.socket", "slurmctld.pid", "slurmd.pid")):
            with open(folder / f"{command[0]}.out", "wb") as out:
                started.append(subprocess.Popen(command, stdout=out, stderr=out))
            until((folder / place).exists, command[0])
        until(lambda: b"idle" in subprocess.run(["sinfo", "-h", "-o", "%T"], capture_output=True, check=False).stdout, "the node")
        yield
    finally:
        for one in reversed(started):
            one.terminate()
        for one in started:
            one.wait(60)


def make_files(folder: Path, program: str) -> None:
    """Eight files, of which the third is cut within a record; and a program that is slow with the sixth."""
    for number in range(8):
        times = [range(7 + number, 400_000, 61), range(11, 400_000, 97 + number)]
        write(folder / f"{number}.ptu", "HydraHarp2T2", t2_words(*times), 1e-12)
    cut = (folder / "2.ptu").read_bytes()
    (folder / "2.ptu").write_bytes(cut[:-2])
    (folder / "plan.toml").write_text(PLAN)
    (folder / "slow_ptu").write_text(f'#!/bin/sh\ncase $(readlink "$3") in */5.ptu) sleep {SLOW} ;; esac\nexec {program} "$@"\n')
    (folder / "slow_ptu").chmod(0o755)


def job_of(name: str) -> Any:
    """The number of a job that runs, or nothing."""
    words = ["squeue", "-h", "-r", "-t", "RUNNING", "-o", "%i", f"--name={name}"]
    return subprocess.run(words, capture_output=True, text=True, check=False).stdout.split()


def by_snakemake(folder: Path, wanted: Any) -> None:
    """A job for each file, one of which is cancelled."""
    words = ["snakemake", "--profile", str(ROOT / "examples" / "slurm"), "-s", str(ROOT / "examples" / "Snakefile")]
    words += ["--config", f"data={folder}", f"plan={folder}/plan.toml", f"ptu={folder}/slow_ptu", f"out={folder}/counts", "group=1"]
    begin = time.monotonic()
    with open(folder / "snakemake.out", "wb") as out, subprocess.Popen(words, cwd=folder, stdout=out, stderr=out) as run:
        until(lambda: job_of("count.00005"), "the job of 5.ptu")
        cancelled = job_of("count.00005")[0]
        subprocess.run(["scancel", cancelled], check=True)
    said = (folder / "snakemake.out").read_text()
    if run.returncode != 0:
        sys.exit(said)
    (made,) = (folder / "counts").glob("*/*/sum.txt")
    assert made.read_bytes() == wanted, "another sum"
    assert f"{folder}/2.ptu: not added: 2 bytes of a record at the end" in made.with_name("sum.left").read_text()
    assert "Trying to restart job" in said, said
    jobs = sum("Submitted job" in line for line in said.splitlines())
    print(f"8 files by {jobs} jobs in {time.monotonic() - begin:.0f} s: job {cancelled} was cancelled and counted again,")


def by_array(folder: Path, wanted: Any) -> None:
    """Four jobs of an array, one of which is put back into the queue."""
    (folder / "list").write_text("".join(f"{folder}/{number}.ptu\n" for number in range(8)))
    words: list[str | Path] = [ROOT / "examples" / "slurm" / "array.sh", folder / "plan.toml", folder / "list", folder / "out", "4", folder / "slow_ptu"]
    surroundings = os.environ | {"PTULAB": f"{sys.executable} -m ptulab", "PYTHONPATH": str(ROOT / "python" / "src")}
    begin = time.monotonic()
    subprocess.run(words, check=True, env=surroundings, stdout=subprocess.DEVNULL)
    until(lambda: len(job_of("ptulab-count")) == 1, "the job of 5.ptu alone")
    put_back = job_of("ptulab-count")[0]
    subprocess.run(["scontrol", "requeue", put_back], check=True)
    until((folder / "out" / "sum.txt").exists, "the sum")
    assert (folder / "out" / "sum.txt").read_bytes() == wanted, "another sum"
    print(f"8 files by an array of 4 jobs in {time.monotonic() - begin:.0f} s, which includes the wait for a job that was put back: {put_back},")


def main() -> None:
    program = os.path.abspath(sys.argv[1])
    for name in ("munged", "slurmctld", "slurmd", "sbatch", "snakemake"):
        if not shutil.which(name):
            sys.exit(f"{name} isn't on this machine")
    with tempfile.TemporaryDirectory(prefix="python_slurm.") as place:
        folder = Path(place)
        make_files(folder, program)
        good = [folder / f"{number}.ptu" for number in range(8) if number != 2]
        whole = ptulab.sum_reports(ptulab.run(folder / "plan.toml", path, program=program) for path in good)
        with queue(folder):
            by_snakemake(folder, b"".join(report_lines(whole)))
            by_array(folder, b"".join(report_lines(whole)))
        print(f"one file was refused and listed, and each sum of {whole.head.photons:,} photons is that of one process, byte for byte")


if __name__ == "__main__":
    main()
