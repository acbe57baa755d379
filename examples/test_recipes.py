"""Tests of the scripts that make samples, of Snakemake, of Slurm and of the completion: pytest examples (PTU names another program than ./ptu)."""

import ast
import hashlib
import os
import re
import shutil
import subprocess
import sys
from pathlib import Path
from typing import Any

import pytest

from made_file import t2_words, write
from make_fret import EFFICIENCIES

ROOT = os.path.dirname(os.path.dirname(os.path.abspath(__file__)))
PTU = os.environ.get("PTU", os.path.join(ROOT, "ptu"))
PAIRS = """
[[group]]
inputs = [1]
[[group]]
inputs = [2]
[[startstop]]
start = 1
stop = 2
width = 4
bins = 3
[[coincidence]]
first = 1
second = 2
reach = 4
width = 3
"""
sys.path.append(f"{ROOT}/python/src")  # where ptulab isn't installed

from ptulab import read_report  # noqa: E402


def run(*words: str) -> str:
    return subprocess.run([PTU, *words], check=True, capture_output=True, text=True).stdout


def script(name: str, *words: Any) -> Any:
    return subprocess.run([sys.executable, f"{ROOT}/examples/{name}", *map(str, words)], capture_output=True, text=True, check=False)


def command(*words: Any) -> Any:
    """Runs a command of ptulab by the script at the top."""
    return subprocess.run([f"{ROOT}/ptulab", *map(str, words)], capture_output=True, text=True, env=os.environ | {"PYTHON": sys.executable}, check=False)


def test_the_sample_of_a_scan_in_both_directions(tmp_path: Path) -> None:
    assert script("make_two_way.py", tmp_path / "two_way.ptu").returncode == 0
    plan = f"{ROOT}/examples/two_way.toml"
    report = read_report(run("run", plan, str(tmp_path / "two_way.ptu")), plan)
    first, second = (table.counts for table in report.tables if table.kind == "histogram")
    assert abs(int(first.argmax()) - int(second.argmax())) <= 1  # the decays begin together
    rows = report.table("image").counts[20:22]
    assert rows[:, 10:18].sum(axis=1).min() > 5 * rows[:, 0:8].sum(axis=1).max()  # the stem is on one side in both


def test_the_recipe_of_e_and_s(tmp_path: Path) -> None:
    """What docs/recipes.md finds for the four populations with both dyes is what the sample was made with."""
    assert script("make_fret.py", tmp_path / "fret.ptu").returncode == 0
    block = re.search(r"^## E and S of single molecules.*?^```python\n(.*?)^```", Path(ROOT, "docs", "recipes.md").read_text("utf-8"), flags=re.M | re.S)
    assert block
    surroundings = os.environ | {"MPLBACKEND": "Agg", "PYTHONPATH": f"{ROOT}/python/src"}
    said = subprocess.run([sys.executable, "-c", block[1]], cwd=tmp_path, env=surroundings, check=True, capture_output=True, text=True).stdout
    means = [ast.literal_eval(line) for line in said.splitlines()[1:]]
    assert [one["E"][0] for one in means] == pytest.approx(EFFICIENCIES, abs=0.02) and [one["S"][0] for one in means] == pytest.approx([0.5] * 4, abs=0.02)


def reports(folder: Path, *files: Any) -> Any:
    """The reports of made files, each told by the times of its two inputs."""
    (folder / "plan.toml").write_text(PAIRS)
    for number, times in enumerate(files):
        write(folder / f"{number}.ptu", "HydraHarp2T2", t2_words(*times), 1e-12)
        (folder / f"{number}.txt").write_text(run("run", str(folder / "plan.toml"), str(folder / f"{number}.ptu")))
    return [folder / f"{number}.txt" for number in range(len(files))]


def added(*paths: Any) -> str:
    """The sum of reports, as ptulab prints it."""
    return str(command("sum", "-q", *paths).stdout)


def snakemake(folder: Path, *more: str, plan: str = "plan.toml", data: str = ".", group: int = 2) -> tuple[str, str, str]:
    """Counts a folder with the Snakefile; gives the sum, what isn't in it, and what was said."""
    words = ["snakemake", "-j", "2", "-s", f"{ROOT}/examples/Snakefile", *more]
    words += ["--config", f"data={folder / data}", f"plan={folder / plan}", f"ptu={os.path.abspath(PTU)}", f"out={folder}/counts", f"group={group}"]
    said = subprocess.run(words, cwd=folder, capture_output=True, text=True, check=False)
    assert said.returncode == 0, said.stderr
    digest = hashlib.sha256((folder / plan).read_bytes()).hexdigest()
    (made,) = (folder / "counts" / digest).glob(f"{(folder / data).resolve().name}-????????")
    return (made / "sum.txt").read_text(), (made / "sum.left").read_text(), said.stderr


needs_snakemake = pytest.mark.skipif(not shutil.which("snakemake"), reason="snakemake isn't on this machine")


@needs_snakemake
@pytest.mark.parametrize("queue", [[], ["--cluster", "sh"]])
def test_a_folder_by_snakemake(tmp_path: Path, queue: list[str]) -> None:
    paths = reports(tmp_path, ([0, 1], [3, 4]), ([5], [7]), ([6], [7]))
    wanted = added(*paths)
    for path in paths:
        path.write_text("notes of the user")
    (tmp_path / "cut.ptu").write_bytes((tmp_path / "0.ptu").read_bytes()[:-1])
    (tmp_path / "gone.ptu").symlink_to("nothing")
    whole, left, _ = snakemake(tmp_path, *queue, group=100)
    assert whole == wanted and [path.read_text() for path in paths] == ["notes of the user"] * 3
    why = {line.rpartition("/")[2].partition(" (")[0] for line in left.splitlines()}
    assert {"cut.ptu: not added: 3 bytes of a record at the end", "gone.ptu: not added: No such file or directory"} <= why
    again, _, said = snakemake(tmp_path, *queue, group=100)
    assert again == wanted and "Nothing to be done" in said


@needs_snakemake
def test_only_what_is_new_is_counted_by_snakemake(tmp_path: Path) -> None:
    """A new file is a job of its own, its sum is added to the others; another plan or folder has a sum of its own."""
    paths = reports(tmp_path, ([0, 1], [3, 4]), ([5], [7]), ([6], [7]), ([8], [9]))
    texts = [path.read_text() for path in paths]
    (tmp_path / "3.ptu").rename(tmp_path / "later")
    assert snakemake(tmp_path)[0] == added(*paths[:3])
    (tmp_path / "later").rename(tmp_path / "3.ptu")
    whole, left, said = snakemake(tmp_path)
    assert (whole, left) == (added(*paths), "") and said.count("rule count:") == 1
    (tmp_path / "other.toml").write_text((tmp_path / "plan.toml").read_text() + "\n# another plan\n")
    assert snakemake(tmp_path, plan="other.toml")[0] == whole
    (tmp_path / "more").mkdir()
    shutil.copy(tmp_path / "0.ptu", tmp_path / "more" / "0.ptu")
    assert snakemake(tmp_path, data="more")[0] == added(paths[0])
    (tmp_path / "1.ptu").unlink()
    assert snakemake(tmp_path, data=".")[0] == added(paths[0], *paths[2:], paths[0])
    assert [path.read_text() for path in paths] == texts


@needs_snakemake
def test_two_runs_of_snakemake_at_once(tmp_path: Path) -> None:
    """From two working folders: the one that comes second says who makes the sum and how its lock is taken off, or finds it made."""
    paths = reports(tmp_path, ([0, 1], [3, 4]), ([5], [7]), ([6], [7]))
    wanted = added(*paths)
    runs = []
    for name in ("one", "two"):
        (tmp_path / name).mkdir()
        words = ["snakemake", "-j", "2", "-s", f"{ROOT}/examples/Snakefile", "--config", f"data={tmp_path}", f"plan={tmp_path}/plan.toml"]
        words += [f"ptu={os.path.abspath(PTU)}", f"out={tmp_path}/counts", "group=1"]
        runs.append(subprocess.Popen(words, cwd=tmp_path / name, stderr=subprocess.PIPE, text=True))
    said = [one.communicate()[1] for one in runs]
    for one, told in zip(runs, said):
        assert one.returncode == 0 or ("makes it since" in told and "sum.txt.lock" in told), told
    assert 0 in [one.returncode for one in runs] and not list((tmp_path / "counts").rglob("*.lock"))
    assert snakemake(tmp_path, group=1)[0] == wanted


def queue(folder: Path, answers: dict[str, str]) -> dict[str, str]:
    """Stand-ins for commands of Slurm: each runs its words of Shell, and notes what it was asked."""
    for name, words in answers.items():
        (folder / name).write_text(f'#!/bin/sh\necho {name} "$@" >> {folder}/asked\n{words}\n')
        (folder / name).chmod(0o755)
    return os.environ | {"PATH": f"{folder}:{os.environ['PATH']}"}


def test_an_array_of_jobs(tmp_path: Path) -> None:
    """sbatch is a stand-in that runs each job at once."""
    paths = reports(tmp_path, ([0, 1], [3, 4]), ([5], [7]), ([6], [7]))
    (tmp_path / "cut.ptu").write_bytes((tmp_path / "0.ptu").read_bytes()[:-1])
    (tmp_path / "list").write_text("".join(f"{tmp_path}/{name}.ptu\n" for name in ("0", "1", "2", "cut", "none")))
    runs = 'for script; do :; done; case "$*" in *--array=0-2*) for n in 0 1 2; do SLURM_ARRAY_TASK_ID=$n sh "$script" || exit 1; done ;; *) sh "$script" || exit 1 ;; esac; echo "7;all"'
    surroundings = queue(tmp_path, {"sbatch": runs}) | {"PTULAB": f"{sys.executable} -m ptulab", "PYTHONPATH": f"{ROOT}/python/src"}
    words = [f"{ROOT}/examples/slurm/array.sh", *(str(tmp_path / name) for name in ("plan.toml", "list", "out")), "3", os.path.abspath(PTU)]
    for _ in range(2):
        said = subprocess.run(words, capture_output=True, text=True, env=surroundings, check=False)
        assert said.returncode == 0, said.stderr
        assert (tmp_path / "out" / "sum.txt").read_text() == added(*paths)
    assert "--dependency=afterany:7 " in (tmp_path / "asked").read_text()
    assert "none.ptu: not added: No such file" in "".join(path.read_text() for path in (tmp_path / "out" / "parts").glob("*.left"))
    (tmp_path / "1.ptu").unlink()  # the only one of its job
    assert subprocess.run(words, capture_output=True, env=surroundings, check=False).returncode == 0
    assert (tmp_path / "out" / "sum.txt").read_text() == added(paths[0], paths[2])
    assert "parts/1.sum: not added: No such file" in (tmp_path / "out" / "sum.left").read_text()
    (tmp_path / "plan.toml").write_text("version = 2\n")
    assert subprocess.run(words, capture_output=True, env=surroundings, check=False).returncode == 1


@pytest.mark.parametrize(
    ("sacct", "scontrol", "said"),
    [
        ("COMPLETED", "", "success"),
        ("CANCELLED by 0", "", "failed"),
        ("", "JobId=7 JobState=RUNNING Reason=None", "running"),
        ("", "JobId=7 JobState=PENDING Reason=Resources", "running"),
        ("", "JobId=7 JobState=OUT_OF_MEMORY Reason=None", "failed"),
        ("", "", "failed"),
    ],
)
def test_the_status_of_a_job_of_slurm(tmp_path: Path, sacct: str, scontrol: str, said: str) -> None:
    surroundings = queue(tmp_path, {name: f"printf '%s' '{text}'" for name, text in (("sacct", sacct), ("scontrol", scontrol))})
    run = subprocess.run([f"{ROOT}/examples/slurm/status.sh", "7;cluster"], capture_output=True, text=True, env=surroundings, check=False)
    assert (run.returncode, run.stdout) == (0, f"{said}\n")


def test_jobs_of_slurm_are_cancelled_by_their_numbers(tmp_path: Path) -> None:
    subprocess.run([f"{ROOT}/examples/slurm/cancel.sh", "7;cluster", "8"], check=True, env=queue(tmp_path, {"scancel": ""}))
    assert (tmp_path / "asked").read_text() == "scancel 7\nscancel 8\n"


@pytest.mark.parametrize("words, said", [(["p"], ["pick"]), (["run", ""], ["plans/"]), (["run", "a.toml", ""], ["b.ptu", "plans/"]), (["demo", ""], [])])
def test_the_shell_completes_the_words_of_the_program(tmp_path: Path, words: Any, said: Any) -> None:
    for name in ("b.ptu", "c.txt"):
        (tmp_path / name).touch()
    (tmp_path / "plans").mkdir()
    text = f'. {ROOT}/examples/ptu.bash; COMP_WORDS=(ptu "$@") COMP_CWORD=$#; _ptu; printf "%s\n" "${{COMPREPLY[@]}}"'
    run = subprocess.run(["bash", "-c", text, "bash", *words], capture_output=True, text=True, check=True, cwd=tmp_path)
    assert [f"{word}/" if (tmp_path / word).is_dir() else word for word in run.stdout.split()] == said
