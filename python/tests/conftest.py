"""Fixtures of all tests: the program, and small files."""

import gc
import itertools
import os
import re
import subprocess
from collections.abc import Callable, Iterable, Iterator
from pathlib import Path
from typing import Any

import made
import pytest
from hosts import Cluster, cluster, until
from hypothesis import HealthCheck, settings
from trials import Trial
from window import browser

import ptulab

settings.register_profile("any machine", deadline=None, suppress_health_check=[HealthCheck.too_slow, HealthCheck.data_too_large])
settings.load_profile("any machine")

ROOT = Path(__file__).resolve().parents[2]  # the checkout
EXAMPLES = ROOT / "examples"


LONG = (
    "test_many_hosts test_many_hosts_sums test_many test_app_browser test_app_page test_app test_app_results test_browser test_fits "
    "test_notebook test_pixels test_fcs test_steered test_intensity test_rows test_plots test_page"
).split()
PARTS = {"test_many": 3, "test_fits": 2, "test_app_browser": 2, "test_app_page": 2, "test_app": 2}  # files whose tests share nothing, in so many parts
# Whose coverage isn't measured, which would take a third of their time: what they reach in the package others reach too.
UNCOVERED = "test_many_hosts test_many_hosts_sums test_app_browser test_app_page test_browser".split()
# In the names of tests that fit again and again.
STATISTICS = re.compile("(their|its)_(scatter|errors?|threshold)|counted_background")
# What processes do is covered by the tests whose names have such words: to measure it takes half as long again as what they do.
PROCESSES = {"test_many": "files_by"}


def pytest_configure(config: pytest.Config) -> None:
    config.addinivalue_line("markers", "no_cover: a test whose coverage isn't measured; pytest-cov knows it too")


@pytest.hookimpl(hookwrapper=True)  # type: ignore[misc]
def pytest_collection() -> Iterator[None]:
    """What is read for the tests is no garbage: nothing looks through it, neither meanwhile nor later."""
    gc.disable()
    yield
    gc.freeze()
    gc.enable()


@pytest.hookimpl(tryfirst=True)  # type: ignore[misc]
def pytest_collection_modifyitems(config: pytest.Config, items: list[pytest.Item]) -> None:
    """The longest files first, each or each part of it in one process: the last one to begin would be waited for."""
    for item in items:
        if item.path.stem in UNCOVERED or STATISTICS.search(item.name):
            item.add_marker(pytest.mark.no_cover)
    items.sort(key=lambda item: LONG.index(item.path.stem) if item.path.stem in LONG else len(LONG))
    if config.pluginmanager.hasplugin("xdist"):
        for name, found in itertools.groupby(items, key=lambda item: item.path.stem):
            for place, item in enumerate(found):
                item.add_marker(pytest.mark.xdist_group(f"{name}-{place % PARTS.get(name, 1)}"))


def pytest_sessionfinish(session: pytest.Session) -> None:
    """In the gate a test that is skipped is a fault: what it needs isn't there."""
    reporter: Any = session.config.pluginmanager.get_plugin("terminalreporter")
    skipped = reporter.stats.get("skipped", []) if reporter else []
    if skipped and os.environ.get("PTULAB_NONE_SKIPPED"):
        reporter.write_line(f"skipped, and PTULAB_NONE_SKIPPED is set: {', '.join(one.nodeid for one in skipped)}")
        session.exitstatus = pytest.ExitCode.TESTS_FAILED


def start_uncovered(patched: pytest.MonkeyPatch) -> None:
    """Processes that are started from now on measure no coverage."""
    for name in [name for name in os.environ if name.startswith("COV_CORE_")]:
        patched.delenv(name)


@pytest.fixture(scope="module", autouse=True)
def uncovered(request: pytest.FixtureRequest) -> Iterator[None]:
    """What is started for a file of tests without coverage has none either."""
    with pytest.MonkeyPatch.context() as patched:
        if request.path.stem in UNCOVERED:
            start_uncovered(patched)
        yield


@pytest.fixture(autouse=True)
def processes_uncovered(request: pytest.FixtureRequest, monkeypatch: pytest.MonkeyPatch) -> None:
    """Nor has what is started by a test that isn't among those of its file which cover processes."""
    if PROCESSES.get(request.path.stem, "") not in request.node.name:
        start_uncovered(monkeypatch)


@pytest.fixture(scope="session")
def program() -> str:
    """The path of ptu: the one that the package finds, which PTU names in the gate."""
    return ptulab.find_program()


@pytest.fixture
def ptu(program: str) -> Callable[..., subprocess.CompletedProcess[str]]:
    """Calls the program with these words, whatever its end."""
    return lambda *words: subprocess.run([program, *map(str, words)], capture_output=True, text=True, check=False)


@pytest.fixture
def make_file(tmp_path: Path) -> Callable[..., Path]:
    """``make_file(record_type, events, name="data.ptu", **tags)`` writes a small file, as ``made.write`` does."""

    def make(record_type: str, events: Iterable[tuple[int, ...]], name: str = "data.ptu", **tags: Any) -> Path:
        return made.write(tmp_path / name, record_type, events, **tags)

    return make


@pytest.fixture
def make_plan(tmp_path: Path) -> Callable[..., Path]:
    """``make_plan(text, name="plan.toml")`` writes a plan."""

    def make(text: str, name: str = "plan.toml") -> Path:
        path = tmp_path / name
        path.write_text(text)
        return path

    return make


@pytest.fixture(params=made.ALL_TYPES)
def record_type(request: pytest.FixtureRequest) -> str:
    """Each of the twelve record types."""
    return str(request.param)


@pytest.fixture(scope="session")
def saved(tmp_path_factory: pytest.TempPathFactory) -> Path:
    """Where the browser puts what it saves."""
    return tmp_path_factory.mktemp("saved")


@pytest.fixture(scope="session")
def chromium(saved: Path) -> Iterator[Any]:
    """A browser, which takes as long to start as several tests."""
    driver = browser(saved)
    yield driver
    driver.quit()


@pytest.fixture(scope="module")
def hosts(tmp_path_factory: pytest.TempPathFactory) -> Iterator[Cluster]:
    """A scheduler, and three workers on hosts of their own."""
    with cluster(tmp_path_factory.mktemp("hosts")) as found:
        until(found.is_ready, "three workers")
        yield found


@pytest.fixture
def trial(tmp_path: Path, hosts: Cluster, program: str) -> Trial:
    hosts.mend()
    until(hosts.is_ready, "three workers")
    return Trial(tmp_path, hosts, program)
