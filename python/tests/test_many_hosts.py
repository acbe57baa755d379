"""Many files on hosts of their own: whatever happens to these, the sum is that of the files which the manifest says were added,
every other file is listed with why, and nothing runs any more."""

import collections
import concurrent.futures
import os
import signal
import time
from collections.abc import Iterator
from pathlib import Path

import pytest
from hosts import CALM, PACKAGE, cluster, end_of, until, why_not
from trials import FILES, Trial

pytest.importorskip("distributed", reason="python3-distributed isn't on this machine")
pytestmark = pytest.mark.skipif(bool(why_not()), reason=why_not())


@pytest.fixture(scope="module", autouse=True)
def minute(request: pytest.FixtureRequest, tmp_path_factory: pytest.TempPathFactory, program: str) -> Iterator[concurrent.futures.Future[None] | None]:
    """Two runs on hosts of their own, beside all other tests, while links are down for a minute."""
    with concurrent.futures.ThreadPoolExecutor(1) as pool:
        is_asked = any(item.name == test_links_are_down_for_a_minute.__name__ for item in request.session.items)
        yield pool.submit(links_are_down_for_a_minute, tmp_path_factory.mktemp("minute"), program) if is_asked else None


def test_all_hosts_count(trial: Trial) -> None:
    trial.slow(awaited="one two three")
    for out in ("sum.txt", "again.txt", "more.txt"):  # as the machine may have other work meanwhile
        trial.check(trial.start(out=out), 0, out)
        by_host = collections.Counter(line["host"] for line in trial.lines(out) if "file" in line)
        if len(by_host) == 3 and min(by_host.values()) > FILES / 8:
            break
    assert set(by_host) == {"one", "two", "three"} and min(by_host.values()) > FILES / 8
    trial.check_no_tasks()


def test_a_worker_is_killed(trial: Trial) -> None:
    running = trial.start()
    trial.begun(5)
    os.kill(trial.hosts.worker("two"), signal.SIGKILL)
    trial.check(running, 0)


def test_a_host_is_killed(trial: Trial) -> None:
    running = trial.start()
    trial.begun(5)
    trial.hosts.network.host("two").set_link("down")
    trial.hosts.network.host("two").kill()
    trial.check(running, 0)


def test_the_scheduler_is_killed_and_the_run_goes_on_with_another(trial: Trial) -> None:
    running = trial.start("--patience", 10)
    trial.begun(5)
    trial.hosts.boss.kill()
    said = end_of(running)[1]
    assert running.returncode in (3, 4) and "the scheduler of dask is gone" in said
    assert len(trial.left()) + len(trial.added()) == FILES
    trial.check_standing()
    trial.check_reasons()
    trial.check_nothing_runs()
    until(trial.hosts.is_ready, "three workers")
    trial.check(trial.start(), 0)


@pytest.mark.parametrize("number", [signal.SIGKILL, signal.SIGTERM, signal.SIGINT])
def test_the_client_is_ended(trial: Trial, number: int) -> None:
    running = trial.start()
    trial.begun(5)
    os.killpg(running.pid, number)
    trial.check_runs_end()
    end_of(running, 6)
    assert running.returncode == {signal.SIGKILL: -9, signal.SIGTERM: 143, signal.SIGINT: 130}[signal.Signals(number)]
    trial.check_nothing_runs()
    trial.check_standing()
    trial.check_no_tasks()
    trial.check(trial.start(), 0)


def test_a_link_is_down_for_some_seconds(trial: Trial) -> None:
    running = trial.start()
    trial.begun(5)
    trial.hosts.network.host("three").set_link("down")
    time.sleep(5)
    trial.hosts.network.host("three").set_link("up")
    trial.check(running, 0)


def test_the_link_of_the_client_is_down_for_some_seconds(trial: Trial) -> None:
    running = trial.start()
    trial.begun(5)
    trial.hosts.client.set_link("down")
    time.sleep(5)
    trial.hosts.client.set_link("up")
    trial.check(running, 0)


def test_a_host_without_data(trial: Trial) -> None:
    trial.slow(0.15, awaited="one two three")
    trial.hosts.start_worker("two", hidden=str(trial.data))
    until(trial.hosts.is_ready, "three workers")
    running = trial.start()
    trial.left_out(1)
    said = trial.check(running, 0)
    assert "two was left out: it could not read 3 files that others could: No such file or directory" in said


def test_a_host_without_the_program_is_there_first(trial: Trial) -> None:
    """The program goes along, and what it needs isn't there: here it is a script, which calls another one."""
    for name in ("one", "three"):
        trial.hosts.network.host(name).kill()
    trial.hosts.start_worker("two", hidden=os.path.dirname(os.path.abspath(trial.real)))
    until(lambda: trial.hosts.is_ready(1), "a worker")
    running = trial.start("--patience", 100)
    trial.left_out(1)
    for name in ("one", "three"):
        trial.hosts.start_worker(name)
    said = trial.check(running, 0)
    assert "was left out: the program ends with status 127" in said
    assert {line["host"] for line in trial.lines() if "file" in line} <= {"one", "three"}


def test_hosts_without_the_package_and_without_memory(trial: Trial) -> None:
    (trial.folder / "ptulab.py").write_text("raise ModuleNotFoundError(\"No module named 'ptulab'\")\n")
    trial.hosts.start_worker("two", PYTHONPATH=str(trial.folder))
    trial.hosts.start_worker("three", "--memory-limit", "170MB")
    until(trial.hosts.is_ready, "three workers")
    running = trial.start()
    trial.left_out(2)
    said = trial.check(running, 0)
    assert "No module named 'ptulab'" in said and "MiB of memory, and" in said
    assert {line["host"] for line in trial.lines() if "file" in line} == {"one"}


def test_no_host_can_count_and_none_is_there(trial: Trial) -> None:
    trial.program.write_text("#!/bin/sh\nexec nothing-of-this-name\n")
    for why in ("was left out: the program ends with status 127", "nobody could count it"):
        running = trial.start("--patience", 3)
        said = end_of(running)[1]
        assert running.returncode == 4 and why in said and len(trial.left()) == FILES
        for name in trial.hosts.workers:
            trial.hosts.network.host(name).kill()


def test_a_slow_host_and_a_late_one(trial: Trial) -> None:
    trial.hosts.network.host("two").kill()
    trial.hosts.network.host("three").kill()
    trial.hosts.start_worker("slow")
    until(lambda: trial.hosts.is_ready(2), "two workers")
    trial.slow(0.2, awaited="three")
    running = trial.start()
    trial.begun(2)
    trial.hosts.start_worker("three")
    trial.check(running, 0)
    by_host = collections.Counter(line["host"] for line in trial.lines() if "file" in line)
    assert 0 < by_host["slow"] < FILES / 4 and min(by_host["one"], by_host["three"]) > FILES / 8


def links_are_down_for_a_minute(folder: Path, program: str) -> None:
    """Those of a worker and of one of two commands, by dask's own times, after which a connection is given up."""
    with cluster(folder, os.environ | CALM | {"PYTHONPATH": PACKAGE}) as hosts:
        until(hosts.is_ready, "three workers")
        trials, running = [], []
        for name in ("client", "far"):
            (folder / name).mkdir()
            trials.append(Trial(folder / name, hosts, program))
            trials[-1].slow(0.5)
            running.append(trials[-1].start("--patience", 200, host=name))
        trials[1].begun(6)
        for state in ("down", "up"):
            for name in ("three", "far"):
                hosts.network.host(name).set_link(state)
            time.sleep(60 if state == "down" else 0)
        for trial in trials:
            trial.let_end()
        until(lambda: None not in [one.poll() for one in running], "the end of both", 200)
        for trial, one in zip(trials, running):
            trial.check(one, 0)
        trials[0].check_no_tasks()


def test_links_are_down_for_a_minute(minute: concurrent.futures.Future[None]) -> None:
    minute.result()
