"""Hosts of their own on one machine, for tests: network namespaces on a bridge, each with a name, mounts and processes.

It needs root, ``ip`` and ``unshare``. A host is killed by ending all processes in it, and its link is taken down and up.
"""

import contextlib
import itertools
import json
import os
import shutil
import signal
import subprocess
import sys
import time
from collections.abc import Callable, Iterator
from pathlib import Path
from typing import Any, AnyStr

import ptulab

PACKAGE = str(Path(ptulab.__file__).parents[1])
SOON = """
import sys
from ptulab import _hand_out
from ptulab.__main__ import main
_hand_out.COLLECT, _hand_out.HOLD = 0.3, 0.1
sys.exit(main())
"""
ASKED = """
import json
import sys
from distributed import Client
for line in sys.stdin:
    with Client(line.strip(), timeout=60) as client:
        tasks = client.run_on_scheduler(lambda dask_scheduler: list(dask_scheduler.tasks))
        print(json.dumps([len(client.scheduler_info()["workers"]), tasks]), flush=True)
"""
signal.signal(signal.SIGINT, signal.default_int_handler)  # for what is started here, where a shell let it be ignored
QUIET: dict[str, Any] = {"stdout": subprocess.DEVNULL, "stderr": subprocess.DEVNULL, "stdin": subprocess.DEVNULL}
CALM = {  # dask's looks at itself, which take a fifth of a processor where a scheduler and three workers wait
    "DASK_DISTRIBUTED__ADMIN__SYSTEM_MONITOR__INTERVAL": "10s",
    "DASK_DISTRIBUTED__ADMIN__TICK__INTERVAL": "2s",
    "DASK_DISTRIBUTED__WORKER__MEMORY__MONITOR_INTERVAL": "1s",
    "DASK_DISTRIBUTED__WORKER__PROFILE__CYCLE": "100s",
    "DASK_DISTRIBUTED__WORKER__PROFILE__INTERVAL": "10s",
}


def why_not() -> str:
    """Why there can be no hosts here, or nothing."""
    if os.name != "posix" or not hasattr(os, "geteuid") or os.geteuid() != 0:
        return "only root can make network namespaces"
    if not shutil.which("ip") or not shutil.which("unshare"):
        return "iproute2 isn't on this machine"
    name = f"ptulab-{os.getpid()}-try"
    made = subprocess.run(["ip", "netns", "add", name], check=False, **QUIET).returncode == 0
    subprocess.run(["ip", "netns", "del", name], check=False, **QUIET)
    return "" if made else "this machine makes no network namespaces"


def ip(*words: str) -> None:
    subprocess.run(["ip", *words], check=True, capture_output=True)


def seconds(number: float) -> float:
    """So many on a machine with little else to do, and more where processes wait for their processors, as this one now does."""
    began, used = time.monotonic(), time.thread_time()
    while (took := time.thread_time() - used) < 0.02:
        pass
    return number * max(1.0, 2 * (time.monotonic() - began) / took - 1, 2 * os.getloadavg()[0] / (os.cpu_count() or 1))


def until(true: Callable[[], object], what: str, patience: float = 60) -> None:
    """Waits until something is so, on an idle machine for ``patience`` seconds at most; how idle it is is asked at the end too."""
    began, pause = time.monotonic(), 0.02
    end = began + seconds(patience)
    while not true():
        if time.monotonic() > end:
            end = began + seconds(patience)
            assert time.monotonic() < end or true(), f"waited too long for {what}"
        time.sleep(pause)
        pause = min(0.2, 1.3 * pause)


def end_of(running: subprocess.Popen[AnyStr], patience: float = 60) -> tuple[AnyStr, AnyStr]:
    """Waits for the end of a command that prints little, and gives what it printed."""
    until(lambda: running.poll() is not None, "the end of a command", patience)
    return running.communicate(timeout=seconds(10))


class Host:
    """A host with an address on the bridge."""

    def __init__(self, network: "Network", name: str, number: int) -> None:
        self.network, self.name, self.space = network, name, f"{network.space}-{name}"
        self.address, self.link = f"10.77.0.{number}", f"pl{os.getpid() % 100000}p{number}"
        ip("netns", "add", self.space)
        ip("link", "add", self.link, "netns", network.space, "type", "veth", "peer", "name", "eth0", "netns", self.space)
        ip("-n", network.space, "link", "set", self.link, "master", "bridge", "up")
        ip("-n", self.space, "address", "add", f"{self.address}/24", "dev", "eth0")
        for device in ("lo", "eth0"):
            ip("-n", self.space, "link", "set", device, "up")

    def start(self, *words: str, hidden: str = "", environment: dict[str, str] | None = None, **more: Any) -> subprocess.Popen[str]:
        """Starts a command here; ``hidden`` is a folder that this host doesn't have."""
        script = f"hostname {self.name}\n" + (f"mount -t tmpfs none {hidden}\n" if hidden else "") + 'exec "$@"'
        command = ["ip", "netns", "exec", self.space, "unshare", "--uts", "--mount", "sh", "-ec", script, "sh", *words]
        child = subprocess.Popen(command, env=environment or surroundings(), start_new_session=True, text=True, **more)
        until(lambda: child.pid in self.processes() or child.poll() is not None, "a process on its host")
        return child

    def processes(self) -> list[int]:
        """Those that run here."""
        found = subprocess.run(["ip", "netns", "pids", self.space], capture_output=True, text=True, check=False).stdout
        return [int(word) for word in found.split()]

    def commands(self) -> list[str]:
        """Their command lines."""
        lines = []
        for process in self.processes():
            with contextlib.suppress(OSError):
                lines.append(Path(f"/proc/{process}/cmdline").read_bytes().replace(b"\0", b" ").decode(errors="replace"))
        return [line for line in lines if line]

    def kill(self) -> None:
        """Ends all that runs here at once."""
        while these := [process for process in self.processes() if is_alive(process)]:
            for process in these:
                with contextlib.suppress(ProcessLookupError):
                    os.kill(process, signal.SIGKILL)
            time.sleep(0.05)

    def set_link(self, state: str) -> None:
        """Takes the link ``down`` or ``up``."""
        ip("-n", self.network.space, "link", "set", self.link, state)


def memory(process: int, what: str = "VmRSS") -> int:
    """The MiB that a process has, or of ``VmHWM`` the most that it had; 0 where it is no more."""
    with contextlib.suppress(OSError, StopIteration):
        lines = Path(f"/proc/{process}/status").read_text("utf-8").splitlines()
        return next(int(line.split()[1]) >> 10 for line in lines if line.startswith(what))
    return 0


def children_of(process: int) -> list[int]:
    """The processes that the first thread of one began."""
    with contextlib.suppress(OSError):
        return [int(word) for word in Path(f"/proc/{process}/task/{process}/children").read_text("utf-8").split()]
    return []


def has_words(process: int, words: bytes) -> bool:
    """Whether these stand in the command line of a process."""
    with contextlib.suppress(OSError):
        return words in Path(f"/proc/{process}/cmdline").read_bytes()
    return False


def is_alive(process: int) -> bool:
    """Whether a process is more than a status that nobody has asked for."""
    try:
        return Path(f"/proc/{process}/stat").read_text("utf-8").rpartition(")")[2].split()[0] != "Z"
    except OSError:
        return False


def surroundings(**more: str) -> dict[str, str]:
    """The environment of a command: a connection that is down for eleven seconds, which is the least, is given up."""
    return os.environ | CALM | {"PYTHONPATH": PACKAGE, "DASK_DISTRIBUTED__COMM__TIMEOUTS__TCP": "11s"} | more


class Network:
    """A bridge, and the hosts on it."""

    numbers = itertools.count()

    def __init__(self) -> None:
        self.space = f"ptulab-{os.getpid()}-{next(self.numbers)}"
        self.hosts: dict[str, Host] = {}
        ip("netns", "add", self.space)
        ip("-n", self.space, "link", "add", "bridge", "type", "bridge")
        ip("-n", self.space, "link", "set", "bridge", "up")

    def host(self, name: str) -> Host:
        """The host of this name, which is made where it isn't there."""
        if name not in self.hosts:
            self.hosts[name] = Host(self, name, len(self.hosts) + 1)
        return self.hosts[name]

    def close(self) -> None:
        """Ends all."""
        for host in self.hosts.values():
            host.kill()
            subprocess.run(["ip", "netns", "del", host.space], check=False, **QUIET)
        subprocess.run(["ip", "netns", "del", self.space], check=False, **QUIET)


class Cluster:
    """A scheduler of dask, workers on hosts of their own, and a host on which the commands run."""

    workers = ("one", "two", "three")

    def __init__(self, folder: Path, environment: dict[str, str] | None = None) -> None:
        self.folder, self.environment = folder, environment or surroundings()
        self.network = Network()
        self.client, self.boss = self.network.host("client"), self.network.host("boss")
        self.scheduler = f"tcp://{self.boss.address}:8786"
        self.odd: set[str] = set()  # hosts whose workers are others than `mend` starts
        self.asked: subprocess.Popen[str] | None = None
        self.asks_again = 0.0

    def start_scheduler(self) -> None:
        words = [sys.executable, "-m", "distributed.cli.dask_scheduler", "--host", self.boss.address, "--port", "8786", "--no-dashboard"]
        with open(self.folder / "scheduler.log", "ab") as log:
            self.boss.start(*words, environment=self.environment, cwd=self.folder, stdout=log, stderr=log)

    def start_worker(self, name: str, *words: str, hidden: str = "", **environment: str) -> Host:
        """A worker of one thread on a host, under a nanny that starts it anew."""
        host = self.network.host(name)
        host.kill()
        host.set_link("up")
        self.odd |= {name} if words or hidden or environment or name not in self.workers else set()
        command = [sys.executable, "-m", "distributed.cli.dask_worker", self.scheduler, "--host", host.address, "--nthreads", "1", "--no-dashboard"]
        command += ["--local-directory", str(self.folder / f"worker-{name}"), "--death-timeout", "120", *(words or ("--memory-limit", "2GB"))]
        with open(self.folder / f"{name}.log", "ab") as log:
            host.start(*command, hidden=hidden, environment=self.environment | environment, cwd=self.folder, stdout=log, stderr=log)
        return host

    def worker(self, name: str) -> int:
        """The process of a host that counts."""
        return max(process for process in self.network.host(name).processes() if has_words(process, b"spawn_main"))

    def mend(self) -> None:
        """Starts what is missing, and ends what is too much."""
        self.client.kill()
        if not any("dask_scheduler" in line for line in self.boss.commands()):
            self.boss.kill()
            self.start_scheduler()
        while self.odd:
            self.network.host(self.odd.pop()).kill()
        for name in self.workers:
            host = self.network.host(name)
            host.set_link("up")
            if not any("dask_worker" in line for line in host.commands()):
                self.start_worker(name)

    def is_ready(self, workers: int = 3) -> bool:
        """Whether so many workers are there; one that could not start in time is started anew."""
        if not self.odd:
            self.mend()
        return self.ask()[0] == workers

    def ask(self) -> tuple[int, list[str]]:
        """How many workers the scheduler has, and its tasks, by a process on a host of its own; four times a second at most."""
        time.sleep(max(0.0, self.asks_again - time.monotonic()))
        self.asks_again = time.monotonic() + 0.25
        if self.asked is None or self.asked.poll() is not None:
            pipes: dict[str, Any] = {"stdin": subprocess.PIPE, "stdout": subprocess.PIPE, "stderr": subprocess.DEVNULL}
            self.asked = self.network.host("asker").start(sys.executable, "-c", ASKED, environment=self.environment, **pipes)
        assert self.asked.stdin is not None and self.asked.stdout is not None
        with contextlib.suppress(BrokenPipeError):
            print(self.scheduler, file=self.asked.stdin, flush=True)
        number, tasks = json.loads(self.asked.stdout.readline() or '[0, ["not known"]]')
        return number, tasks

    def start(self, name: str, *words: object, soon: bool = False, host: str = "client", **more: Any) -> subprocess.Popen[str]:
        """Starts a command of ``ptulab`` with these words, and the scheduler's address, on the host of the commands or another;
        ``soon`` brings sums together several times a second."""
        command = [sys.executable, *(["-c", SOON] if soon else ["-m", "ptulab"]), name, "--scheduler", self.scheduler, "--patience", f"{seconds(10):.0f}"]
        on = self.network.host(host)
        return on.start(*command, *map(str, words), environment=self.environment, stdout=subprocess.PIPE, stderr=subprocess.PIPE, **more)

    def close(self) -> None:
        self.network.close()


@contextlib.contextmanager
def cluster(folder: Path, environment: dict[str, str] | None = None) -> Iterator[Cluster]:
    """A cluster of three workers, which is ended at the end."""
    found = Cluster(folder, environment)
    try:
        found.mend()
        yield found
    finally:
        found.close()
