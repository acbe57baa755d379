"""Many files on hosts of their own: whatever becomes of plans, files and runs, the sum is that of the files which the manifest
says were added, every other file is listed with why, and nothing runs any more."""

import os
import random
import signal
import subprocess
import time

import made
import pytest
from hosts import end_of, until, why_not
from plain_sum import report_of
from trials import OTHER_PLAN, PLAN, Trial, events

pytest.importorskip("distributed", reason="python3-distributed isn't on this machine")
pytestmark = pytest.mark.skipif(bool(why_not()), reason=why_not())

# ## Plans and files


def test_a_plan_that_changes_meanwhile(trial: Trial) -> None:
    running = trial.start()
    trial.begun()
    trial.let_end()
    while running.poll() is None:
        for text in (OTHER_PLAN, "version = 3", PLAN):
            trial.plan.write_text(text)
            time.sleep(0.02)
    trial.plan.write_text(PLAN)
    trial.check(running, 0)
    trial.plan.write_text(OTHER_PLAN)
    trial.check(trial.start(), 0)  # and nothing of the sum by the other plan is in this one


def test_a_plan_that_vanishes_or_is_a_link(trial: Trial) -> None:
    trial.plan.rename(trial.folder / "first.toml")
    trial.plan.symlink_to("first.toml")
    running = trial.start()
    trial.begun()
    trial.plan.unlink()
    (trial.folder / "other.toml").write_text(OTHER_PLAN)
    trial.plan.symlink_to("other.toml")
    trial.let_end()
    until(lambda: running.poll() is not None, "the end of the run", 100)
    trial.plan.unlink()
    trial.plan.symlink_to("first.toml")
    trial.check(running, 0)
    running = trial.start(out="again.txt")
    trial.begun()
    trial.plan.unlink()
    trial.let_end()
    until(lambda: running.poll() is not None, "the end of the run", 100)
    trial.plan.write_text(PLAN)
    trial.check(running, 0, "again.txt")


def test_files_that_are_none_or_change(trial: Trial) -> None:
    pipe, folder, dangling, good, cut, end = (trial.data / f"{name}.ptu" for name in ("pipe", "folder", "dangling", "link", "cut", "end"))
    os.mkfifo(pipe)
    folder.mkdir()
    dangling.symlink_to("nothing")
    good.symlink_to("00.ptu")
    cut.write_bytes(trial.files[0].read_bytes()[:-1])
    end.write_bytes(trial.files[0].read_bytes()[:-40])  # ten records less than it announces
    changed = {"grows.ptu", "shrinks.ptu", "changes.ptu"}  # while they are counted
    vanished = trial.files[-1]
    trial.files += [pipe, folder, dangling, good, cut, end, *(made.write(trial.data / name, "HydraHarp2T2", events(1)) for name in sorted(changed))]
    trial.files.insert(0, trial.data / "none.ptu")
    trial.slow(awaited="end")
    running = trial.start()
    trial.begun()
    vanished.unlink()
    said = trial.check(running, 9)
    left = trial.left()
    assert left.keys() == {"none.ptu", "pipe.ptu", "folder.ptu", "dangling.ptu", "cut.ptu", vanished.name} | changed
    assert left["pipe.ptu"][0] == left["folder.ptu"][0] == "it is no regular file" and left["cut.ptu"][0] == "3 bytes of a record at the end"
    assert {left[name][0] for name in changed} == {"it was changed while it was counted"}
    for name in ("none.ptu", "dangling.ptu", vanished.name):
        assert left[name][0] == "No such file or directory" and set(left[name][1].split(", ")) == {"one", "two", "three"}
    assert f"{end}: added, but the header announces 300 records, and there are 290: the file may be cut" in said


# ## Sums


def test_a_full_disk(trial: Trial) -> None:
    small = trial.folder / "small"
    small.mkdir()
    subprocess.run(["mount", "-t", "tmpfs", "-o", "size=8k", "none", small], check=True)
    try:
        for fill in (8192, 0):  # no room for the lock, and none for the sum
            (small / "fill").write_bytes(bytes(fill))
            running = trial.start(out="small/sum.txt")
            trial.let_end()
            said = end_of(running)[1]
            assert running.returncode == 1 and "No space left on device" in said and "Traceback" not in said
            trial.check_nothing_runs()
            assert not (small / "sum.txt.lock").exists()
        subprocess.run(["mount", "-o", "remount,size=8m", small], check=True)
        trial.check(trial.start(out="small/sum.txt"), 0, "small/sum.txt")
    finally:
        subprocess.run(["umount", small], check=True)


def test_hosts_add_up_reports(trial: Trial) -> None:
    reports = [path.with_suffix(".txt") for path in trial.files]
    for path, report in zip(trial.files, reports):
        report.write_text(report_of(trial.real, trial.plan, path))
    reports[7].write_text("refused 17 3 bytes of a record at the end\n")
    running = trial.hosts.start("sum", "--plan", trial.plan, *reports, "-o", trial.folder / "sum.txt")
    said = end_of(running)[1]
    assert running.returncode == 3 and f"{reports[7]}: not added: 3 bytes of a record at the end (" in said
    assert trial.added() == reports[:7] + reports[8:]
    assert (trial.folder / "sum.txt").read_text() == trial.plain(trial.files[:7] + trial.files[8:])
    trial.check_no_tasks()


def test_two_runs_at_once(trial: Trial) -> None:
    first = trial.start()
    until((trial.folder / "sum.txt.lock").exists, "the lock")
    second = trial.start()
    said = end_of(second)[1]
    assert second.returncode == 1 and f"remove {trial.folder / 'sum.txt.lock'}" in said and "on client makes it since" in said
    os.killpg(first.pid, signal.SIGKILL)
    first.communicate()
    third, fourth = trial.start(), trial.start(out="other.txt")
    trial.let_end()
    until(lambda: None not in (third.poll(), fourth.poll()), "the end of both", 100)
    trial.check(third, 0)
    trial.check(fourth, 0, "other.txt")


def test_the_end_at_random_moments(trial: Trial) -> None:
    """Each of ten runs is ended at another moment, and the next goes on; the last leaves a sum, and none leaves more behind."""
    draws = random.Random(62)
    for number in range(10):
        running = trial.start(soon=True)
        if number % 3:  # else also while it begins
            until((trial.folder / "sum.txt.lock").exists, "the begin of a run")
        if number == 9:
            until((trial.folder / "sum.txt.part").exists, "what was collected")
        time.sleep(draws.uniform(0, 2))
        os.killpg(running.pid, signal.SIGINT)
        trial.check_runs_end()
        end_of(running, 6)
        is_there = trial.check_standing()
        trial.check_nothing_runs()
    assert is_there
    trial.check(trial.start(), 0)


def test_the_end_while_a_link_is_down(trial: Trial) -> None:
    """The hosts hear of it when the link is up again."""
    running = trial.start()
    trial.begun(5)
    trial.hosts.client.set_link("down")
    os.killpg(running.pid, signal.SIGINT)
    end_of(running, 6)
    assert running.returncode == 130
    trial.hosts.client.set_link("up")
    trial.check_no_tasks()
    trial.check_nothing_runs()
    trial.check_standing()
    trial.check(trial.start(), 0)
