"""The window's server: who may ask it, what it sees, and that no file, request or run ends it."""

import base64
import errno
import io
import json
import os
import re
import shutil
import signal
import socket
import subprocess
import sys
import threading
import time
from collections.abc import Callable, Iterator
from concurrent.futures import ThreadPoolExecutor
from pathlib import Path
from typing import Any

import made
import numpy as np
import pytest
import simulated
from alone import output_of

import ptulab
from conftest import EXAMPLES

httpx = pytest.importorskip("httpx", reason="python3-httpx isn't on this machine")
uvicorn = pytest.importorskip("uvicorn", reason="python3-uvicorn isn't on this machine")
pytest.importorskip("starlette", reason="python3-starlette isn't on this machine")
SECONDS = 600  # for whatever is waited for, on a machine with other work
HOSTILE = "<img src=x onerror=alert(1)>\"'.ptu"
DECAY = "[[group]]\ninputs = [0]\n[[histogram]]\ngroup = 1\nwidth = 8\nbins = 250\n"


class Served:
    """A server of a folder, and a client that came by its first address."""

    def __init__(self, folder: Path, work: Path, program: str, megabytes: int = 3072) -> None:
        from ptulab.app import make_app

        listening = socket.socket()
        listening.bind(("127.0.0.1", 0))
        listening.listen()
        self.port, self.folder = listening.getsockname()[1], folder
        self.origin = f"http://127.0.0.1:{self.port}"
        work.mkdir()
        self.app = make_app(folder, token="right", port=self.port, work=str(work), program=program, megabytes=megabytes)
        self.server = uvicorn.Server(uvicorn.Config(self.app, log_level="critical", ws="none", timeout_keep_alive=SECONDS))
        self.thread = threading.Thread(target=self.server.run, kwargs={"sockets": [listening]}, daemon=True)
        self.thread.start()
        self.client = httpx.Client(base_url=self.origin, verify=False, headers={"origin": self.origin}, timeout=SECONDS)
        assert self.client.get("/?token=right").status_code == 303

    def end(self) -> None:
        self.client.close()
        self.app.end()
        self.server.should_exit = True
        self.thread.join(SECONDS)

    def ask(self, what: str, /, **asked: Any) -> Any:
        return self.client.post(f"/api/{what}", content=json.dumps(asked)).json()

    def work(self, what: str, /, **asked: Any) -> Any:
        """The last line of a piece of work, with the name of its result."""
        answer = self.client.post(f"/api/{what}", content=json.dumps(asked))
        lines = [json.loads(line) for line in answer.text.splitlines() if line]
        return {"begun": next((line["begun"] for line in lines if "begun" in line), None), **lines[-1]}


def jobs_of(served: Served) -> Any:
    """What does the work of a server."""
    return getattr(served.app.end, "__self__")


@pytest.fixture(scope="module")
def folder(tmp_path_factory: pytest.TempPathFactory) -> Path:
    """A laboratory's folder: good files, broken ones, and links out of it."""
    outside, here = tmp_path_factory.mktemp("outside"), tmp_path_factory.mktemp("folder")
    draws = np.random.default_rng(1)
    for name, lifetime in (("decay", 70), ("pulse", 1)):
        ticks = np.minimum(100 + draws.exponential(lifetime, 6000).astype(int) + draws.integers(0, 8, 6000), 1990)
        times = np.sort(draws.integers(0, 42_000, 6000))
        events = [(int(time), int(draws.integers(0, 2)), int(tick)) for time, tick in zip(times, ticks)]
        made.write(here / f"{name}.ptu", "HydraHarp2T3", events, tick=100e-9, resolution=50e-12)
    times = np.cumsum(draws.integers(1, 400, 8000))
    made.write(here / "pairs.ptu", "HydraHarp2T2", [(int(time), int(1 + draws.integers(0, 2))) for time in times], tick=1e-9)
    (here / "scan.ptu").write_bytes((EXAMPLES / "scan.ptu").read_bytes())
    (here / "cut.ptu").write_bytes((here / "pairs.ptu").read_bytes()[:-6])
    (here / "text.ptu").write_text("no PTU file")
    (here / "empty.ptu").write_bytes(b"")
    (here / HOSTILE).write_bytes((here / "pairs.ptu").read_bytes())
    (here / "more").mkdir()
    (here / "more" / "inside.ptu").write_bytes((here / "pairs.ptu").read_bytes())
    made.write(outside / "secret.ptu", "HydraHarp2T2", [(1, 1)])
    (here / "link.ptu").symlink_to(outside / "secret.ptu")
    (here / "away").symlink_to(outside)
    (here / "plain.txt").write_text("text")
    os.mkfifo(here / "pipe.ptu")
    return here


@pytest.fixture(scope="module")
def served(folder: Path, program: str, tmp_path_factory: pytest.TempPathFactory) -> Iterator[Served]:
    one = Served(folder, tmp_path_factory.mktemp("work") / "results", program)
    yield one
    one.end()


# ## Who may ask


@pytest.mark.parametrize(
    ("headers", "status"),
    [
        ({"host": "evil.example"}, 421),
        ({"host": "127.0.0.1"}, 421),
        ({"host": "127.0.0.1.evil.example:{port}"}, 421),
        ({"origin": "http://evil.example"}, 403),
        ({"origin": "null"}, 403),
        ({"origin": "http://localhost:{port}"}, 403),
        ({"origin": "https://127.0.0.1:{port}"}, 403),
        ({"sec-fetch-site": "cross-site"}, 403),
        ({"sec-fetch-site": "same-site"}, 403),
        ({"cookie": ""}, 403),
        ({"cookie": "ptulab-{port}=right"}, 403),
        ({"cookie": "ptulab-{port}"}, 403),
    ],
)
@pytest.mark.parametrize("path", ["/", "/api/files", "/static/app.js"])
def test_others_get_nothing(headers: dict[str, str], status: int, path: str, served: Served) -> None:
    wanted = {word: value.format(port=served.port) for word, value in headers.items()}
    answer = served.client.request("POST" if path.startswith("/api") else "GET", path, headers=wanted, content=b"{}" if path.startswith("/api") else None)
    assert answer.status_code == status and "ptu" not in answer.text.lower().replace("the page that it", "")
    assert answer.headers["content-security-policy"].startswith("default-src 'none'")


def test_a_post_without_an_origin_gets_nothing(served: Served) -> None:
    with httpx.Client(base_url=served.origin, verify=False, cookies=served.client.cookies, timeout=SECONDS) as client:
        assert client.post("/api/files").status_code == 403
        assert client.get("/").status_code == 200


def test_the_token_gives_a_cookie_that_scripts_cannot_read(served: Served) -> None:
    with httpx.Client(base_url=served.origin, verify=False, timeout=SECONDS) as client:
        assert [client.get(f"/?token={token}").status_code for token in ("", "wrong", "right%00", "RIGHT")] == [403] * 4
        assert client.get("/static/app.js?token=right").status_code == 403
        answer = client.get("/?token=right")
        assert answer.status_code == 303 and answer.headers["location"] == "/"
        words = answer.headers["set-cookie"].split("; ")
        assert words[0].startswith(f"ptulab-{served.port}=") and "right" not in words[0] and set(words[1:]) == {"HttpOnly", "SameSite=Strict", "Path=/"}
        assert client.get("/").status_code == 200


def test_the_token_of_the_browsers_words_is_good_once(served: Served) -> None:
    with httpx.Client(base_url=served.origin, verify=False, timeout=SECONDS) as client:
        token = served.app.once
        assert [client.get(f"/?token={token}").status_code for _ in range(3)] == [303, 403, 403]


def test_each_answer_has_the_policy(served: Served) -> None:
    for path in ("/", "/static/app.js", "/static/app.css", "/static/plotly.js", "/nowhere", "/result/0123456789abcdef/plan.toml"):
        headers = served.client.get(path).headers
        policy = dict(part.strip().partition(" ")[::2] for part in headers["content-security-policy"].split(";"))
        assert policy["default-src"] == "'none'" and policy.get("script-src", "'self'") == "'self'", path
        assert headers["x-content-type-options"] == "nosniff" and headers["x-frame-options"] == "DENY"


def test_the_page_has_no_script_of_its_own_and_nothing_from_elsewhere(served: Served) -> None:
    page = served.client.get("/").text
    assert not re.search(r"<script(?![^>]*src=\"/static/)", page) and not re.search(r"(src|href)=\"(?!/static/|#|data:,)", page)
    for name in re.findall(r"from \"\./(\w+\.js)\"", "".join(served.client.get(f"/static/{one}").text for one in ("app.js", "look.js", "questions.js"))):
        assert served.client.get(f"/static/{name}").status_code == 200


def test_the_name_of_the_folder_is_escaped(tmp_path: Path, program: str) -> None:
    """One that isn't UTF-8, too."""
    hostile = tmp_path / os.fsdecode(b"<script>alert(1)<\xfc")
    hostile.mkdir()
    one = Served(hostile, tmp_path / "results", program)
    try:
        assert "<script>alert" not in one.client.get("/").text and "&lt;script&gt;alert(1)&lt;\ufffd" in one.client.get("/").text
        assert one.ask("files") == {"folder": "<script>alert(1)<\ufffd", "files": []}
    finally:
        one.end()


# ## What it sees


BAD_NAMES = ["../outside/secret.ptu", "link.ptu", "away/secret.ptu", "more/../../x.ptu", "plain.txt", "more", "", ".", "pipe.ptu", "no.ptu", "a\0.ptu", "x" * 2000, None, 5, ["decay.ptu"]]


@pytest.mark.parametrize("name", BAD_NAMES)
@pytest.mark.parametrize("kind", ["look", "check", "run"])
def test_no_path_outside_the_folder(name: Any, kind: str, served: Served) -> None:
    answer = served.client.post(f"/api/{kind}", content=json.dumps({"file": name, "plan": DECAY, "analysis": "decay", "settings": {}}))
    assert answer.status_code == 404 and answer.json() == {"error": "there is no such file in the folder"}


def test_no_absolute_path_and_no_second_file_outside(served: Served, folder: Path) -> None:
    answer = served.client.post("/api/look", content=json.dumps({"file": str(folder / "decay.ptu")}))
    assert answer.status_code == 404
    asked = {"file": "decay.ptu", "second": "link.ptu", "plan": DECAY, "analysis": "decay", "settings": {}}
    assert served.client.post("/api/run", content=json.dumps(asked)).status_code == 404


@pytest.mark.parametrize("path", ["/static/../_serve.py", "/static/%2e%2e%2f_serve.py", "/static/page.html", "/result/../x/plan.toml", "/result/0123456789abcdef/..%2fplan.toml", "//etc/passwd"])
def test_no_other_file_is_handed_out(path: str, served: Served) -> None:
    assert served.client.get(path).status_code == 404


def test_the_files_of_the_folder(served: Served) -> None:
    files = {one["name"]: one for one in served.ask("files")["files"]}
    assert sorted(files) == sorted(["decay.ptu", "pulse.ptu", "pairs.ptu", "scan.ptu", "cut.ptu", "text.ptu", "empty.ptu", HOSTILE, "more/inside.ptu"])
    assert files["text.ptu"]["wrong"] == "not a PTU file" and files["empty.ptu"]["wrong"] == "header cut after 0 bytes"
    assert files["cut.ptu"]["odd"] == "cut within a record" and files["decay.ptu"]["type"] == "HydraHarp2T3"


def test_a_look_tells_what_info_tells(served: Served, folder: Path) -> None:
    told = served.work("look", file="decay.ptu")["result"]
    seen = ptulab.info(folder / "decay.ptu")
    assert told["text"] == str(seen) and told["info"]["photons"] == 6000
    trace, decay = told["figures"]
    assert [one["label"] for one in decay["curves"]] == ["input 0", "input 1"]
    first = seen.inputs[0].decay
    assert first is not None and decay["curves"][0]["y"] == first[: len(decay["curves"][0]["y"])].tolist() and sum(decay["curves"][0]["y"]) == first.sum()
    assert trace["yunit"] == "a second"
    assert served.work("look", file="cut.ptu")["result"]["info"]["is_cut"]


def test_a_look_and_a_check_here(folder: Path, tmp_path: Path) -> None:
    """What the process of the work does."""
    told = done_here("look", folder / "scan.ptu", tmp_path)
    assert told["info"]["markers"] == {"1": 128, "2": 2, "3": 128} and [one["name"] for one in told["figures"]] == ["look-trace", "look-decay"]
    assert done_here("check", folder / "pairs.ptu", tmp_path, plan=DECAY)["findings"][0]["refused"]


def test_markers_are_ticks_or_a_curve_of_the_trace(tmp_path: Path) -> None:
    """Up to 1,000 of a bit are ticks, more are counted in bins, with an axis of their own; times have the unit that makes the file's length short."""
    marks = [(10 + at, made.Bits(2)) for at in range(1001)]
    path = made.write(tmp_path / "marks.ptu", "HydraHarp2T3", [(0, made.Bits(1)), (0, 0, 5), *marks, (1500, made.Bits(5)), (2047, 0, 7)], tick=1e-6)
    trace = done_here("look", path, tmp_path)["figures"][0]
    curves = {one["label"]: one for one in trace["curves"]}
    assert (trace["xlabel"], trace["xunit"], trace["tick"], trace["ylabel"], trace["right"]) == ("time (ms)", "ms", 1e3, "photons a second", "markers a second")
    assert (curves["marker bit 1"]["shape"], curves["marker bit 1"]["x"], curves["marker bit 3"]["x"]) == ("marks", [0, 1.5], [1.5])
    many = curves["marker bit 2"]
    width = many["x"][1] / 1e3  # seconds of a bin
    assert many["shape"] == "hv" and many["right"] and not curves["input 0"]["right"] and "axis is on the right" in trace["summary"]
    assert width == pytest.approx(2e-6) and many["x"][-1] == pytest.approx(2.046) and sum(many["y"]) * width == pytest.approx(1001) and max(many["y"]) * width == pytest.approx(2)
    less = made.write(tmp_path / "less.ptu", "HydraHarp2T3", [(0, 0, 5), *marks[1:], (2047, 0, 7)])
    told = done_here("look", less, tmp_path)["figures"][0]
    assert [(one["label"], one["shape"]) for one in told["curves"]] == [("input 0", "hv"), ("marker bit 2", "marks")] and "tick below" in told["summary"]
    assert (told["xunit"], told["ylabel"], told["tick"], told["drag"], told["right"]) == ("sync periods", "photons in a bin", None, None, None)
    more = made.write(tmp_path / "more.ptu", "HydraHarp2T3", [(0, 0, 5), *marks, (2047, 0, 7)])
    told = done_here("look", more, tmp_path)["figures"][0]
    assert told["right"] == "markers in a bin" and "in bins of 1 sync period, whose axis" in told["summary"] and "bins of 2 sync periods." in told["summary"]


def test_broken_files_get_a_line_and_end_nothing(served: Served, folder: Path) -> None:
    assert served.work("look", file="text.ptu")["error"] == "text.ptu: not a PTU file"
    gone = folder / "gone.ptu"
    gone.write_bytes((folder / "pairs.ptu").read_bytes())
    names = [one["name"] for one in served.ask("files")["files"]]
    gone.unlink()
    assert "gone.ptu" in names and served.client.post("/api/look", content=json.dumps({"file": "gone.ptu"})).status_code == 404
    wrong = served.work("run", file="cut.ptu", plan="[[group]]\ninputs = [1]\n[[trace]]\ngroup = 1\nwidth = 1000\nbins = 9\n", analysis="trace", settings={})
    assert "2 bytes of a record at the end" in wrong["error"] and str(folder) not in wrong["error"]
    assert served.work("look", file="pairs.ptu")["result"]["info"]["photons"] == 8000


@pytest.mark.parametrize("body", [b"[]", b"{", b"\xff", b"3", b'{"file": {}}', b'{"plan": 1}', b"[" * 100_000, b"x" * (1 << 18) + b"yy"])
@pytest.mark.parametrize("path", ["/api/plan", "/api/run", "/api/keep", "/api/session", "/api/groups", "/api/page"])
def test_odd_requests_are_refused(body: bytes, path: str, served: Served) -> None:
    answer = served.client.post(path, content=body)
    assert answer.status_code in (400, 404) and answer.json()["error"]


# ## Plans and their groups


def test_what_is_wrong_stands_at_its_line(served: Served) -> None:
    told = served.ask("plan", plan=DECAY.replace("bins = 250", "bins = 0"))
    assert told["findings"] == [{"line": 6, "text": "histogram 1: bins = 0 isn't a whole number from 1 to 32,768 (rule 12)", "refused": True}]
    assert served.ask("plan", plan="version = 1\ngroup = [\n")["findings"][0]["line"] == 2
    inline = served.ask("plan", plan="group = [{ inputs = [0] }]\ntrace = [{ group = 2, width = 1, bins = 1 }]\n")
    assert inline["groups"] is None and inline["findings"][0]["line"] == 2
    assert served.ask("plan", plan="odd = 1\n")["findings"][0]["line"] == 1


def test_groups_follow_the_text_and_the_text_the_groups(served: Served) -> None:
    text = f"# a remark\n{DECAY.replace('[[group]]', '[[group]] # donor')}# another\n"
    groups = served.ask("plan", plan=text)["groups"]
    assert groups == [{"name": "donor", "inputs": [0], "gates": []}]
    groups.append({"name": "late", "inputs": [1, 0, 1], "gates": [[900, 1000], [100, 200]]})
    told = served.ask("groups", plan=text, groups=groups)
    assert told["groups"] == [groups[0], {"name": "late", "inputs": [0, 1], "gates": [[100, 200], [900, 1000]]}] and told["findings"] == []
    assert told["plan"].startswith("# a remark\nversion = 2\n\n[[group]] # donor\ninputs = [0]\n\n[[group]] # late\n") and told["plan"].endswith("bins = 250\n# another\n")
    again = served.ask("groups", plan=told["plan"], groups=told["groups"])
    assert again["plan"] == told["plan"]
    fewer = served.ask("groups", plan=told["plan"], groups=[])
    assert fewer["groups"] == [] and "is no group" in fewer["findings"][0]["text"]
    assert "only be changed in its text" in served.ask("groups", plan="group = [{ inputs = [0] }]\n", groups=groups)["error"]


def test_a_plan_is_checked_for_its_file(served: Served) -> None:
    found = served.work("check", file="pairs.ptu", plan=DECAY)["result"]["findings"]
    assert found[0]["refused"] and "doesn't suit T2" in found[0]["text"] and found[0]["line"] == 3


def test_what_suits_no_file_says_why(served: Served) -> None:
    t3 = {one["name"]: one for one in served.work("look", file="decay.ptu")["result"]["questions"]}
    t2 = {one["name"]: one for one in served.work("look", file="pairs.ptu")["result"]["questions"]}
    assert not t3["decay"]["reason"] and "[[histogram]]" in t3["decay"]["plan"] and "T2" in t3["antibunching"]["reason"]
    assert not t2["antibunching"]["reason"] and "[[coincidence]]" in t2["antibunching"]["plan"] and "T3" in t2["decay"]["reason"]
    assert "lines of a scan" in t3["image"]["reason"] and t3["pulsed"]["python"] and not t3["decay"]["python"]
    for one in (*t3.values(), *t2.values()):
        assert one["reason"] or served.ask("plan", plan=one["plan"])["findings"] == [], one["name"]


# ## Runs


QUESTIONS = [("decay.ptu", "decay", None), ("decay.ptu", "decay", "pulse.ptu"), ("decay.ptu", "pulsed", None), ("decay.ptu", "bursts", None), ("scan.ptu", "image", None),
             ("pairs.ptu", "trace", None), ("pairs.ptu", "correlation", None), ("pairs.ptu", "antibunching", None), ("pairs.ptu", "patterns", None)]  # fmt: skip


def done_here(kind: str, path: Path, out: Path, **asked: Any) -> Any:
    """A piece of work as its own process does it, in this one."""
    from ptulab.app import _job

    return _job.KINDS[kind](_job.Work({"path": str(path), "out": str(out), "megabytes": 3072, **asked}, io.BytesIO()))


@pytest.mark.parametrize(("file", "name", "second"), QUESTIONS)
def test_the_script_prints_what_the_window_shows(file: str, name: str, second: str | None, folder: Path, tmp_path: Path, monkeypatch: pytest.MonkeyPatch) -> None:
    """By the plan and settings that were proposed; the script is run in another folder, by itself."""
    monkeypatch.setattr(sys, "argv", ["job"])
    asked = next(one for one in done_here("look", folder / file, tmp_path)["questions"] if one["name"] == name)
    settings = {one["key"]: one["value"] for one in asked["settings"]} | ({"rate": 200} if name == "bursts" else {}) | ({"segments": 3} if name == "correlation" else {})
    for each in ("one", "other"):
        (tmp_path / each).mkdir()
    others = {"analysis": name, "settings": settings, "second": str(folder / second) if second else None}
    result = done_here("run", folder / file, tmp_path / "one", plan=asked["plan"], **others)
    for copied in ("analysis.py", "plan.toml"):
        (tmp_path / "other" / copied).write_bytes((tmp_path / "one" / copied).read_bytes())
    assert output_of(tmp_path / "other" / "analysis.py") == result["numbers"] and len(result["numbers"].splitlines()) >= 1
    assert result["figures"] and all(one["title"] and one["summary"] for one in result["figures"])
    assert {"analysis.py", "plan.toml", "numbers.txt"} < set(result["files"]) and json.dumps(result, allow_nan=False)
    if name == "decay":
        lifetime = float(re.findall(r"^lifetime_1: ([0-9.]+) ", result["numbers"], re.M)[0])
        assert lifetime == pytest.approx(3.5, rel=0.05)


def test_a_page_and_a_session_of_a_result(served: Served, folder: Path) -> None:
    told = served.work("run", file="decay.ptu", plan=DECAY, analysis="decay", settings={"terms": 1})
    answer = served.client.get(f"/result/{told['begun']}/numbers.txt")
    assert answer.text == told["result"]["numbers"] and answer.headers["content-disposition"].startswith("attachment")
    assert "sandbox" in answer.headers["content-security-policy"]
    assert "page.html" in served.work("page", result=told["begun"])["result"]["files"]
    assert b"<!doctype html>" in served.client.get(f"/result/{told['begun']}/page.html").content
    asked = {"result": told["begun"], "analysis": "decay", "settings": {"terms": 1}, "second": None}
    assert served.ask("keep", name="one", **asked) == {"folder": "ptulab-sessions/one"}
    assert {path.name for path in (folder / "ptulab-sessions" / "one").iterdir()} >= {"plan.toml", "analysis.py", "report.txt", "page.html", "decay.csv", "session.json"}
    assert served.ask("sessions") == {"sessions": ["one"]}
    opened = served.ask("session", name="one")
    begun, names = opened.pop("begun"), opened.pop("names")
    view: dict[str, Any] = {"regions": [], "phasors": [], "thresholds": {}}
    assert opened == {"analysis": "decay", "settings": {"terms": 1}, "second": None, "file": "decay.ptu", "files": None, "plan": DECAY, "view": view}
    assert {"plan.toml", "analysis.py", "analysis.ipynb", "report.txt", "page.html"} <= set(names)
    shown = served.client.get(f"/result/{begun}/shown.json").json()
    assert shown["numbers"] == told["result"]["numbers"] and shown["figures"] == told["result"]["figures"]
    assert served.client.get(f"/result/{begun}/report.txt").text == (folder / "ptulab-sessions" / "one" / "report.txt").read_text()
    assert all("error" in served.ask("keep", name=name, **asked) for name in ("one", "../two", "", ".hidden", "a/b", "x" * 99))
    assert all("error" in served.ask("session", name=name) for name in ("../..", "two", ""))
    (folder / "ptulab-sessions" / "linked").symlink_to("/etc")
    assert "error" in served.ask("session", name="linked") and served.ask("sessions") == {"sessions": ["one"]}


@pytest.mark.parametrize(
    ("change", "said"),
    [
        ({"settings": {"terms": 9}}, "Lifetimes: a number from 1 to 3 is wanted"),
        ({"settings": {"terms": "1); import os"}}, "Lifetimes: a number from 1 to 3 is wanted"),
        ({"settings": {"number": 2}}, "the report has no histogram 2"),
        ({"plan": DECAY.replace("bins = 250", "bins = 0")}, "the plan: histogram 1: bins = 0 isn't a whole number from 1 to 32,768 (rule 12)"),
        ({"plan": DECAY + "[[cube]]\n"}, "cube"),
        ({"analysis": "nothing"}, "there is no question 'nothing'"),
    ],
)
def test_a_run_that_cannot_be_says_why(change: dict[str, Any], said: str, served: Served) -> None:
    asked = {"file": "decay.ptu", "plan": DECAY, "analysis": "decay", "settings": {}}
    assert said in served.work("run", **(asked | change))["error"]


@pytest.mark.parametrize(("name", "file", "given"), [("decay", "decay.ptu", {"background": [2.0, True], "lifetime_1": [3e-9, False]}), ("correlation", "pairs.ptu", {"diffusion": [0.001, True]})])
def test_parameters_of_a_fit_are_held_and_begun(name: str, file: str, given: dict[str, Any], folder: Path, tmp_path: Path) -> None:
    """As a script of one's own would, and the window is told of each what it is and whether it is held."""
    groups = "[[group]]\ninputs = [1]\n\n[[group]]\ninputs = [2]\n"
    asked = {"plan": DECAY if name == "decay" else groups, "analysis": name}
    told = done_here("run", folder / file, tmp_path, **asked, settings={"segments": 3, "fit": given})
    held = {one["name"]: one["held"] for one in told["fit"]}
    assert {name: held[name] for name in given} == {name: is_held for name, (_, is_held) in given.items()}
    if name == "decay":
        assert "fixed={'background': 2.0}, start={'lifetime_1': 3e-09})" in told["script"] and "\nbackground: 2\n" in told["numbers"]
        free = done_here("run", folder / file, tmp_path, **asked, settings={})
        assert " ± " in re.findall(r"^amplitude_1: .*", free["numbers"], re.M)[0] and not any(one["held"] for one in free["fit"])
        lifetime = next(one for one in told["fit"] if one["name"] == "lifetime_1")
        assert lifetime["unit"] == "ns" and lifetime["value"] == pytest.approx(3.5, rel=0.1)
    else:
        assert "fixed={'diffusion': 0.001})" in told["script"] and "\ndiffusion: 1 ms\n" in told["numbers"] and held["structure"]


@pytest.mark.parametrize("given", [[], {"x": 1}, {"x": [1]}, {"x": ["1", True]}, {"x": [1, 1]}, {"x": [True, True]}, {"x); import os": [1, True]}, {"x": [1e999, True]}, {f"x{at}": [1, True] for at in range(21)}])
def test_odd_steering_of_a_fit_is_refused(given: Any) -> None:
    from ptulab.app._analyses import ANALYSES, settings_of

    if not given:
        assert settings_of(ANALYSES["decay"], {"fit": given})["fit"] == {}
        return
    with pytest.raises(ValueError, match="parameter"):
        settings_of(ANALYSES["decay"], {"fit": given})
    assert settings_of(ANALYSES["trace"], {"fit": given})["fit"] == {}  # which has no fit


def test_tables_that_take_too_much_are_refused_before_the_run(folder: Path, tmp_path: Path) -> None:
    """Two cubes of 512 MiB, each in the program and in Python."""
    plan = "version = 2\n" + DECAY + "[[cube]]\ngroup = 1\nwidth = 1024\nheight = 1024\ndwell = 1\nline = 1\ndwidth = 1\ndbins = 64\n" * 2
    with pytest.raises(ptulab.BadPlanError, match="its tables take some 2082 MiB, and 2081 may be taken: ask for fewer"):
        done_here("run", folder / "decay.ptu", tmp_path, plan=plan, analysis="decay", settings={}, megabytes=2081)
    assert not list(tmp_path.iterdir())


def test_what_a_script_is_told_stays_text(served: Served, folder: Path) -> None:
    """A file whose name would end a text of Python."""
    name = "a'''\"\"\"\n); print(1) #.ptu"
    (folder / name).write_bytes((folder / "pairs.ptu").read_bytes())
    told = served.work("run", file=name, plan="[[group]]\ninputs = [1]\n[[trace]]\ngroup = 1\nwidth = 100000\nbins = 20\n", analysis="trace", settings={})
    (folder / name).unlink()
    assert told["result"]["numbers"].startswith("bins: 16\n")


def test_a_name_that_is_no_utf_8(served: Served, folder: Path, tmp_path: Path) -> None:
    """As of an old Windows: listed, looked at, run by the program and by Python, over many files, kept, and opened again; each script prints the same by itself."""
    name = os.fsdecode(b"m\xfcller.ptu")
    (folder / name).write_bytes((folder / "pairs.ptu").read_bytes())
    try:
        assert name in [one["name"] for one in served.ask("files")["files"]]
        assert served.work("look", file=name)["result"]["info"]["photons"] == 8000
        groups = "[[group]]\ninputs = [1]\n[[group]]\ninputs = [2]\n"
        trace: dict[str, Any] = {"plan": groups + "[[trace]]\ngroup = 1\nwidth = 100000\nbins = 20\n", "analysis": "trace", "settings": {}}
        asked: list[tuple[str, dict[str, Any]]] = [("run", {"file": name, **trace}), ("many", {"files": [name, "pairs.ptu"], **trace}),
                 ("run", {"file": name, "plan": groups, "analysis": "correlation", "settings": {"segments": 3}})]  # fmt: skip
        for place, (kind, words) in enumerate(asked):
            told = served.work(kind, **words)
            assert "result" in told, told
            script, numbers = ("analysis.py", told["result"]["numbers"]) if kind == "run" else ("many.py", told["result"]["numbers"].split("== the sum")[0])
            assert printed(served, told["begun"], script, tmp_path / str(place)) == numbers
            assert served.ask("keep", result=told["begun"], name=f"odd {place}") == {"folder": f"ptulab-sessions/odd {place}"}
            assert served.ask("session", name=f"odd {place}")["file"] == name
            if kind == "run":
                assert "photons.hdf5" in served.work("photons", result=told["begun"])["result"]["files"]
            else:
                assert told["result"]["table"]["rows"][0][0] == "m\ufffdller.ptu"
        for odd in ("\ud800.ptu", "\udcfc.ptu"):
            assert served.client.post("/api/look", content=json.dumps({"file": odd})).status_code == 404
    finally:
        (folder / name).unlink()
        shutil.rmtree(folder / "ptulab-sessions", ignore_errors=True)


def printed(served: Served, result: str, name: str, here: Path) -> str:
    """What a script of a result prints by itself, in another folder, in a strict encoding."""
    here.mkdir()
    for copied in {name, "analysis.py", "plan.toml"}:
        (here / copied).write_bytes(served.client.get(f"/result/{result}/{copied}").content)
    source = str(Path(ptulab.__file__).resolve().parents[1])
    done = subprocess.run([sys.executable, name], cwd=here, capture_output=True, check=False, env=os.environ | {"PYTHONPATH": source, "PYTHONIOENCODING": "utf-8:strict"})
    assert done.returncode == 0, done.stderr
    return done.stdout.decode()


def test_little_memory_gets_a_line(folder: Path, program: str, tmp_path: Path) -> None:
    """Of four million events, which need twice the memory that there may be, whatever else does."""
    here, pairs = tmp_path / "here", (folder / "pairs.ptu").read_bytes()
    here.mkdir()
    records = int(ptulab.read_header(folder / "pairs.ptu").records)
    wrap = (0xFE000001).to_bytes(4, "little")
    (here / "long.ptu").write_bytes(pairs + (wrap + pairs[-4 * records :]) * 500)
    one = Served(here, tmp_path / "results", program, megabytes=48)
    try:
        told = one.work("run", file="long.ptu", plan="[[group]]\ninputs = [1]\n[[group]]\ninputs=[2]\n", analysis="correlation", settings={"segments": 3})
        assert "memory" in told["error"].lower() or "allocate" in told["error"], told
        assert len(one.ask("files")["files"]) == 1
    finally:
        one.end()


# ## Windows of time, regions, many files, and files for other programs


def test_a_window_of_time_has_the_photons_of_its_records(folder: Path, tmp_path: Path) -> None:
    from ptulab.app.scripts import part_of

    for name in ("decay.ptu", "pairs.ptu", "scan.ptu"):
        whole = ptulab.read_events(folder / name)
        tick = whole.header.global_seconds
        assert tick is not None
        last = int(whole.times.max())
        part = ptulab.read_events(part_of(folder / name, 0.3 * last * tick, 0.6 * last * tick))
        kept = whole[(whole.times >= 0.3 * last) & (whole.times < 0.6 * last)]
        assert part.numbers.tolist() == kept.numbers.tolist() and part.dtimes.tolist() == kept.dtimes.tolist() and 0 < len(kept) < len(whole)
        assert np.diff(part.times).tolist() == np.diff(kept.times).tolist() and part.header.announced == part.header.records
        assert part.header.global_seconds == tick and part.header.resolution_seconds == whole.header.resolution_seconds
        assert ptulab.read_events(part_of(folder / name, 0.0)).times.tolist() == whole.times.tolist()
        for start, stop in ((9e9, 9e10), (0.5 * last * tick, 0.5 * last * tick)):
            with pytest.raises(ValueError, match="no event from"):
                part_of(folder / name, start, stop)


def test_a_window_of_time_without_a_tick_is_not_known(tmp_path: Path) -> None:
    from ptulab.app.scripts import part_of

    with pytest.raises(ptulab.errors.NotKnownError, match="how long a tick is"):
        part_of(made.write(tmp_path / "odd.ptu", "PicoHarpT2", [(1, 1)]), 0.0, 1.0)


def test_pixels_within_a_polygon() -> None:
    from ptulab.app.scripts import inside

    assert np.argwhere(inside([(1, 2), (3, 2), (3, 4), (1, 4)], 5, 6)).tolist() == [[2, 1], [2, 2], [3, 1], [3, 2]]
    triangle = inside([(0, 0), (4, 0), (0, 4)], 4, 4)
    assert triangle.sum(axis=1).tolist() == [3, 2, 1, 0] or triangle.sum(axis=1).tolist() == [4, 3, 2, 1]
    assert not inside([(9, 9), (12, 9), (12, 12)], 4, 4).any() and inside([(-9, -9), (99, -9), (99, 99), (-9, 99)], 3, 2).all()
    crossed = inside([(0, 0), (4, 4), (4, 0), (0, 4)], 4, 4)
    assert crossed[0].tolist() != crossed[2].tolist() and crossed.sum() in range(4, 13)


def test_numbers_without_an_error_say_so() -> None:
    from ptulab.app.scripts import measured

    nan = float("nan")
    assert measured(1.5, 0.25, " ns") == "1.5 ns ± 0.25 ns" and measured(1.5, nan, " ns") == "1.5 ns, its error isn't known"
    assert measured(nan, 1.0) == measured(nan) == "not known" and measured(1.5, unit=" ns") == "1.5 ns"


def test_flat_light_gives_no_nan(folder: Path, tmp_path: Path) -> None:
    """A correlation of light that doesn't fluctuate tells no diffusion: what isn't known isn't printed as nan, nor as what is held."""
    groups = "[[group]]\ninputs = [1]\n\n[[group]]\ninputs = [2]\n"
    told = done_here("run", folder / "pairs.ptu", tmp_path, plan=groups, analysis="correlation", settings={"segments": 3})
    assert "nan" not in told["numbers"] and "number: " in told["numbers"] and "\nstructure: 5\n" in told["numbers"]


def test_regions_are_counted_and_refused(served: Served) -> None:
    asked = next(one for one in served.work("look", file="scan.ptu")["result"]["questions"] if one["name"] == "image")
    run = served.work("run", file="scan.ptu", plan=asked["plan"], analysis="image", settings={})
    picture = next(one for one in run["result"]["figures"] if one["kind"] == "picture")
    rows, columns = picture["rows"] * picture["block"], picture["columns"] * picture["block"]
    whole = [[0, 0], [columns, 0], [columns, rows], [0, rows]]
    told = served.work("region", result=run["begun"], regions=[whole, whole], threshold=0)["result"]
    photons = re.findall(r"region \d: [0-9,]+ pixels, ([0-9,]+) photons", told["numbers"])
    total = re.findall(r"photons in the picture: ([0-9,]+)", run["result"]["numbers"])
    assert photons == total * 2 and {"regions.py", "regions.txt", "region-1.csv"} <= set(told["files"])
    assert served.client.get(f"/result/{run['begun']}/regions.txt").text == told["numbers"]
    wrong_regions: list[Any] = [[], None, [[[0, 0], [1, 1]]], [[[0, 0], [1, 1], ["x", 2]]], [[[0, 0], [1, 1], [1e999, 2]]], [whole] * 17, [[[0, 0]] * 513]]
    for wrong in wrong_regions:
        assert "region" in served.work("region", result=run["begun"], regions=wrong, threshold=0)["error"]
    assert "threshold" in served.work("region", result=run["begun"], regions=[whole], threshold="1); import os")["error"]


def test_regions_of_phasors_take_the_pixels_of_their_lifetime(served: Served, folder: Path, tmp_path: Path) -> None:
    """A scan of two lifetimes, in its left and its right half, whose phasors are known; the script of the regions prints the same by itself."""
    simulated.scan(folder / "halves.ptu")
    plan = next(one for one in served.work("look", file="halves.ptu")["result"]["questions"] if one["name"] == "image")["plan"]
    run = served.work("run", file="halves.ptu", plan=plan, analysis="image", settings={})
    plane = next(one for one in run["result"]["figures"] if one["kind"] == "plane")
    assert unpacked(plane["counts"]).sum() == 256 and len(plane["marks"]) > 3 and all(abs(abs(complex(one["g"], one["s"]) - 0.5) - 0.5) < 1e-9 for one in plane["marks"])
    regions = [phasor_region(simulated.SHORT), phasor_region(simulated.LONG)]
    told = served.work("region", result=run["begun"], regions=[], phasors=regions, threshold=1)["result"]
    paint = unpacked(told["paint"]).reshape(16, 16)
    assert (paint[:, :8] == 1).sum() >= 124 and (paint[:, 8:] == 2).sum() >= 124 and not (paint[:, :8] == 2).any() and not (paint[:, 8:] == 1).any()
    pixels = [int(many) for many in re.findall(r"phasor region \d: (\d+) pixels", told["numbers"])]
    assert pixels == [np.count_nonzero(paint == number) for number in (1, 2)]
    lifetimes = [float(one) for one in re.findall(r"lifetime_1: ([0-9.]+) ns", told["numbers"])]
    assert lifetimes == pytest.approx([1e9 * simulated.SHORT, 1e9 * simulated.LONG], rel=0.06)
    assert [one["label"] for one in told["figures"][0]["curves"]] == ["phasor region 1", "fit of phasor region 1", "phasor region 2", "fit of phasor region 2"]
    for name in ("regions.py", "report.txt", "plan.toml"):
        (tmp_path / name).write_bytes(served.client.get(f"/result/{run['begun']}/{name}").content)
    assert output_of(tmp_path / "regions.py") == told["numbers"]
    both = served.work("region", result=run["begun"], regions=[[[0, 0], [16, 0], [16, 16], [0, 16]]], phasors=regions[:1], threshold=0)["result"]
    assert "region 1: 256 pixels, 25,600 photons" in both["numbers"] and "phasor-region-1.csv" in both["files"]
    wrong_phasors: list[Any] = [[], None, "x", [[[0, 0], [1, 1]]], [[[0, 0], [1, 1], [None, 2]]], [regions[0]] * 17]
    for wrong in wrong_phasors:
        assert "region" in served.work("region", result=run["begun"], regions=[], phasors=wrong, threshold=0)["error"]
    (folder / "halves.ptu").unlink()


def phasor_region(lifetime: float) -> list[list[float]]:
    """A square around the phasor of a lifetime in the scan, by its formula."""
    at = 1 / (1 - 2j * np.pi * lifetime / 50e-9)
    return [[at.real + x, at.imag + y] for x, y in ((-0.1, -0.1), (0.1, -0.1), (0.1, 0.1), (-0.1, 0.1))]


def unpacked(packed: dict[str, str]) -> Any:
    return np.frombuffer(base64.b64decode(packed["base64"]), f"<{packed['kind']}")


def test_what_a_result_has_not_is_said(served: Served) -> None:
    groups = "[[group]]\ninputs = [1]\n\n[[group]]\ninputs = [2]\n"
    told = served.work("run", file="pairs.ptu", plan=groups, analysis="correlation", settings={"segments": 3})
    for kind, said in (("images", "has no report of the program"), ("region", "has no lifetime image")):
        assert said in served.work(kind, result=told["begun"], regions=[], threshold=0)["error"]
    trace = "[[group]]\ninputs = [1]\n\n[[trace]]\ngroup = 1\nwidth = 1000\nbins = 2000\n"
    told = served.work("run", file="pairs.ptu", plan=trace, analysis="trace", settings={"from_seconds": 0.0005, "to_seconds": 0.001})
    assert "no image" in served.work("images", result=told["begun"])["error"] and "part_of(file, 0.0005, 0.001)" in told["result"]["script"]
    assert "photons.hdf5" in served.work("photons", result=told["begun"])["result"]["files"]


def test_many_files_give_a_table_and_their_sum(served: Served) -> None:
    files = ["decay.ptu", "pulse.ptu", "pairs.ptu"]
    told = served.work("many", files=files, plan=DECAY, analysis="decay", settings={})["result"]
    heads, rows = told["table"]["heads"], told["table"]["rows"]
    assert heads[:3] == ["file", "amplitude_1", "lifetime_1"] and [row[0] for row in rows] == files
    assert "suit" in rows[2][heads.index("left out")] and {"many.py", "sum.py", "results.csv", "report.txt"} <= set(told["files"])
    assert "== the sum of 3 files" in told["numbers"] and told["figures"][0]["curves"]
    one = served.work("run", file="decay.ptu", plan=DECAY, analysis="decay", settings={})["result"]["numbers"]
    assert told["numbers"].startswith(f"== decay.ptu\n{one}== pulse.ptu\n")
    wrong_files: list[Any] = [[], ["../x.ptu"], ["link.ptu"], None, "decay.ptu", ["decay.ptu"] * 501]
    for wrong in wrong_files:
        assert "error" in served.work("many", files=wrong, plan=DECAY, analysis="decay", settings={})


def test_the_notebook_prints_the_same(folder: Path, tmp_path: Path) -> None:
    """Its code, run in the folder of the result."""
    told = done_here("run", folder / "decay.ptu", tmp_path, plan=DECAY, analysis="decay", settings={})
    cells = json.loads((tmp_path / "analysis.ipynb").read_text())["cells"]
    source = str(Path(ptulab.__file__).resolve().parents[1])
    done = subprocess.run([sys.executable, "-c", cells[1]["source"]], cwd=tmp_path, capture_output=True, text=True, check=False, env=os.environ | {"PYTHONPATH": source})
    assert done.stdout == told["numbers"] == "".join(cells[1]["outputs"][0]["text"]), done.stderr


def test_the_notebook_of_many_files_prints_the_same(folder: Path, tmp_path: Path) -> None:
    """Its two codes, run after each other in the folder of the result; without a sum it has the first alone."""
    files = [str(folder / "decay.ptu"), str(folder / "pairs.ptu"), str(folder / "pulse.ptu")]
    told = done_here("many", Path(files[0]), tmp_path, files=files, plan=DECAY, analysis="decay", settings={})
    cells = json.loads((tmp_path / "many.ipynb").read_text())["cells"]
    each, added = ("".join(cell["outputs"][0]["text"]) for cell in cells[1:3])
    assert told["numbers"] == f"{each}== the sum of 3 files\n{added}" and "left out" in each and "left out of the sum" in added and "plt.plot" in cells[3]["source"]
    source = str(Path(ptulab.__file__).resolve().parents[1])
    code = "\n".join(cell["source"] for cell in cells[1:3])
    done = subprocess.run([sys.executable, "-c", code], cwd=tmp_path, capture_output=True, text=True, check=False, env=os.environ | {"PYTHONPATH": source})
    assert done.stdout == each + added, done.stderr
    done_here("many", folder / "pairs.ptu", tmp_path, files=files[1:2], plan=DECAY, analysis="decay", settings={})
    assert [cell["id"] for cell in json.loads((tmp_path / "many.ipynb").read_text())["cells"]] == ["title", "analysis-1"]


def test_the_plot_of_a_notebook_leaves_columns_of_text_out(monkeypatch: pytest.MonkeyPatch) -> None:
    """As the file of each burst: what comes next is the axis."""
    plt = pytest.importorskip("matplotlib.pyplot", reason="python3-matplotlib isn't on this machine")
    from ptulab.app._more import PLOT

    monkeypatch.setattr(plt, "show", lambda: None)
    plt.figure()
    exec(PLOT, {"curves": {"bursts": {"file": ["a.ptu", "b.ptu"], "start": [1.0, 2.0], "E": np.array([0.3, 0.7]), "S": np.array([0.5, 0.6])}}})  # pylint: disable=exec-used
    axes = plt.gca()
    lines = [(str(line.get_label()), line.get_xdata().tolist(), line.get_ydata().tolist()) for line in axes.lines]
    assert (axes.get_xlabel(), lines) == ("start", [("E", [1, 2], [0.3, 0.7]), ("S", [1, 2], [0.5, 0.6])])
    plt.close()


def test_a_session_keeps_regions_thresholds_and_what_was_held(served: Served, folder: Path) -> None:
    """And refuses what is none, from a page as from a session that someone else wrote."""
    held = {"terms": 1, "fit": {"background": [2.0, True]}}
    told = served.work("run", file="decay.ptu", plan=DECAY, analysis="decay", settings=held)
    corners = [[0.0, 0.0], [2.5, 0.0], [2.5, 4.25]]
    view = {"regions": [corners], "phasors": [corners, corners], "threshold": 95, "thresholds": {"cube-1-image": 3, "cube-1-delays": 95}}
    assert served.ask("keep", result=told["begun"], name="seen", view=view) == {"folder": "ptulab-sessions/seen"}
    opened = served.ask("session", name="seen")
    assert (opened["view"], opened["settings"]) == (view, held)
    odd: list[Any] = [[], 3, {"regions": 1}, {"regions": [corners] * 17}, {"phasors": [[["x", 1]] * 3]}, {"thresholds": []}, {"thresholds": {"a b": 1}}, {"thresholds": {"a": 1.5}},
                      {"thresholds": {"a": -1}}, {"threshold": True}, {"threshold": None}, {"thresholds": {f"a{at}": 1 for at in range(65)}}]  # fmt: skip
    for one in odd:
        assert served.ask("keep", result=told["begun"], name="odd", view=one).keys() == {"error"}, one
        session = json.loads((folder / "ptulab-sessions" / "seen" / "session.json").read_text())
        (folder / "ptulab-sessions" / "seen" / "session.json").write_text(json.dumps(session | {"view": one}))
        assert served.ask("session", name="seen").keys() == {"error"}, one
    assert not (folder / "ptulab-sessions" / "odd").exists()
    shutil.rmtree(folder / "ptulab-sessions" / "seen")


def test_a_session_brings_no_links_and_no_other_files(served: Served, folder: Path) -> None:
    told = served.work("run", file="decay.ptu", plan=DECAY, analysis="decay", settings={})
    assert served.ask("keep", result=told["begun"], name="linked in") == {"folder": "ptulab-sessions/linked in"}
    there = folder / "ptulab-sessions" / "linked in"
    (there / "secret.txt").symlink_to("/etc/passwd")
    (there / "other.sh.exe.x").write_text("no")
    opened = served.ask("session", name="linked in")
    assert "secret.txt" not in opened["names"] and "other.sh.exe.x" not in opened["names"] and "report.txt" in opened["names"]
    assert served.client.get(f"/result/{opened['begun']}/secret.txt").status_code == 404
    (there / "session.json").write_text(json.dumps({"file": "../x.ptu", "settings": {}, "analysis": "decay"}))
    assert "error" in served.ask("session", name="linked in")


def test_a_session_reads_no_link_and_waits_for_no_pipe(served: Served, folder: Path, tmp_path: Path) -> None:
    secret = tmp_path / "secret.txt"
    secret.write_text("a secret")
    ways: list[Callable[[Path], Any]] = [lambda plan: plan.symlink_to(secret), os.mkfifo, os.mkdir]
    for number, bring in enumerate(ways):
        there = folder / "ptulab-sessions" / f"brought {number}"
        there.mkdir(parents=True)
        (there / "session.json").write_text(json.dumps({"file": "decay.ptu", "settings": {}, "analysis": "decay"}))
        bring(there / "plan.toml")
        begun_at = time.monotonic()
        told = served.ask("session", name=there.name)
        assert told.keys() == {"error"} and "a secret" not in str(told) and time.monotonic() - begun_at < 5
    (there / "session.json").write_text("[]")
    assert "error" in served.ask("session", name=there.name)


def test_long_lines_of_a_plan_take_no_time(served: Served) -> None:
    begun_at = time.monotonic()
    served.ask("plan", plan=f"[[group]] # a{' ' * 200_000}b\ninputs = [0]\n")
    assert served.ask("groups", plan="[[group]]\ninputs = [0]\n", groups=[{"name": "", "inputs": [1e999], "gates": []}]).keys() == {"error"}
    assert time.monotonic() - begun_at < 5


@pytest.mark.parametrize(
    ("plan", "line", "words"),
    [
        ("[[group]]\n" * 6550, 1, "6550 of group, and at most 64"),
        ("".join(f"k{number}.a=1\n" for number in range(6550))[:65_000], 1, "k0 is no key"),
        ("[[histogram]]\ngroup = 1\nwidth = 0\n" * 1770, 1, "1770 of histogram"),
        ("version = 1\n" + "a." * 32_000 + "a = 1\n", 2, "more than 80 deep"),
        ("version = 1\nx = " + "9" * 65_490, 2, r"more than 64 bits \(at line 2, column 5\)"),
        ("version = 1\nx = 0x" + "f" * 65_000, 2, "more than 64 bits"),
        ('x = "\\"' + '\\"' * 32_000 + "\n", 1, "at line 1"),
    ],
    ids=["groups", "dotted", "histograms", "deep", "digits", "hexadecimal", "escapes"],
)
def test_what_is_wrong_with_a_full_plan_is_told_in_no_time(plan: str, line: int, words: str) -> None:
    from ptulab.app._groups import looked_over

    begun_at = time.process_time()
    told = looked_over(plan)
    assert time.process_time() - begun_at < 1
    findings = told["findings"]
    assert len(findings) <= 100 and findings[0]["line"] == line and re.search(words, findings[0]["text"])
    assert told["more"] == (len(findings) == 100)


def test_what_is_refused_is_told_before_a_hundred_warnings() -> None:
    """The first hundred of what is wrong, and that there is more."""
    from ptulab._plan_rules import Finding
    from ptulab.app._groups import told

    warnings = [Finding(0, number, f"trace {number}", "bins", "has no photons", refused=False) for number in range(1, 100)]
    refused = Finding(0, 0, "file", "", "is refused")
    for many in (99, 100):
        found = told([*warnings, *warnings[: many - 99], refused], "")
        assert [one["refused"] for one in found["findings"]] == [True, *[False] * 99] and found["more"] == (many == 100)


# ## Two windows, many requests, and the end


def begun(served: Served) -> int:
    """The process of a run that is held still."""
    end = time.monotonic() + SECONDS
    while jobs_of(served).process is None:
        assert time.monotonic() < end
        time.sleep(0.002)
    process: int = jobs_of(served).process
    os.killpg(process, signal.SIGSTOP)
    return process


def gone(process: int) -> bool:
    end = time.monotonic() + SECONDS
    while time.monotonic() < end:
        try:
            if "Z" in Path(f"/proc/{process}/stat").read_text("ascii").split(")")[1][:3]:
                return True
        except OSError:
            return True
        time.sleep(0.02)
    return False


def test_two_windows_and_a_page_that_closes(served: Served) -> None:
    """While one runs another is refused, and a look waits; when the page of the first is gone, so is its run."""
    asked = {"file": "decay.ptu", "plan": DECAY, "analysis": "decay", "settings": {}}
    with httpx.Client(base_url=served.origin, verify=False, headers={"origin": served.origin}, cookies=served.client.cookies, timeout=SECONDS) as other:
        with other.stream("POST", "/api/run", content=json.dumps(asked)) as first:
            assert first.status_code == 200
            process = begun(served)
            assert "Something else is running" in served.work("run", **asked)["error"]
            with ThreadPoolExecutor() as pool:
                look = pool.submit(served.work, "look", file="pairs.ptu")
                time.sleep(0.2)
                assert not look.done()
                first.close()
                assert gone(process) and look.result()["result"]["info"]["photons"] == 8000
    assert "numbers" in served.work("run", **asked)["result"]


def test_fifty_requests_at_once(served: Served) -> None:
    """All are answered, those for work one after another."""

    def one(number: int) -> Any:
        with httpx.Client(base_url=served.origin, verify=False, headers={"origin": served.origin}, cookies=served.client.cookies, timeout=SECONDS) as client:
            if number % 25 == 0:
                lines = client.post("/api/look", content=json.dumps({"file": "pairs.ptu"})).text.strip().splitlines()
                return json.loads(lines[-1])
            return client.post("/api/plan", content=json.dumps({"plan": DECAY})).json()

    with ThreadPoolExecutor(50) as pool:
        answers = list(pool.map(one, range(50)))
    assert all(answer["findings"] == [] for at, answer in enumerate(answers) if at % 25)
    assert all(look["result"]["info"]["photons"] == 8000 for look in answers[::25])
    assert jobs_of(served).waiting == 0 and not jobs_of(served).is_running


def test_fifty_runs_at_once(served: Served) -> None:
    """One runs at a time: the others are refused, and nothing is left over."""
    asked = json.dumps({"file": "decay.ptu", "plan": DECAY, "analysis": "decay", "settings": {}})

    def one(number: int) -> Any:
        headers = {"origin": served.origin if number % 2 else "http://evil.example"}
        with httpx.Client(base_url=served.origin, verify=False, headers=headers, cookies=served.client.cookies, timeout=SECONDS) as client:
            answer = client.post("/api/run", content=asked)
            return json.loads(answer.text.strip().splitlines()[-1]) if number % 2 else answer.status_code

    with ThreadPoolExecutor(50) as pool:
        answers = list(pool.map(one, range(50)))
    assert answers[::2] == [403] * 25
    runs = [answer for answer in answers[1::2] if "result" in answer]
    refused = [answer for answer in answers[1::2] if "Something else is running" in answer.get("error", "")]
    assert runs and len(runs) + len(refused) == 25, answers
    assert all(run["result"]["numbers"] == runs[0]["result"]["numbers"] for run in runs)
    assert jobs_of(served).waiting == 0 and not jobs_of(served).is_running and jobs_of(served).process is None


def test_a_run_that_was_stopped_leaves_the_next_one_whole(served: Served) -> None:
    asked = {"file": "decay.ptu", "plan": DECAY, "analysis": "decay", "settings": {}}
    for _ in range(3):
        with served.client.stream("POST", "/api/run", content=json.dumps(asked)) as first:
            process = begun(served)
            first.close()
        assert gone(process)
    assert "numbers" in served.work("run", **asked)["result"]


def test_a_mother_that_was_ended_is_made_anew(served: Served) -> None:
    """As by a system that is short of memory."""
    mother = jobs_of(served).mother
    first = mother.child.pid
    os.kill(first, signal.SIGKILL)
    mother.child.wait(SECONDS)
    assert served.work("look", file="pairs.ptu")["result"]["info"]["photons"] == 8000 and mother.child.pid != first


def test_work_that_the_system_ends_gets_a_line(served: Served) -> None:
    with served.client.stream("POST", "/api/look", content=json.dumps({"file": "pairs.ptu"})) as look:
        os.killpg(begun(served), signal.SIGKILL)
        lines = [json.loads(line) for line in look.iter_lines() if line.strip()]
    assert lines[-1] == {"error": "The work was ended by the system; there may have been too little memory."}
    assert served.work("look", file="pairs.ptu")["result"]["info"]["photons"] == 8000


# ## Files that are large, that change, and a disk that is full


def test_a_huge_file_tells_how_far_it_is_and_can_be_stopped(served: Served, folder: Path) -> None:
    """Half a terabyte, nearly all of which is a hole."""
    huge = folder / "huge.ptu"
    huge.write_bytes((folder / "pairs.ptu").read_bytes())
    os.truncate(huge, 1 << 39)
    try:
        with served.client.stream("POST", "/api/look", content=json.dumps({"file": "huge.ptu"})) as look:
            told = (json.loads(line) for line in look.iter_lines() if line.strip())
            line = next(line for line in told if line.get("progress"))
            assert 0 < line["progress"] < 0.2
            process = jobs_of(served).process
            pages = int(Path(f"/proc/{process}/statm").read_text("ascii").split()[1])
            assert pages * os.sysconf("SC_PAGESIZE") < 300e6
            look.close()
        assert gone(process)
    finally:
        huge.unlink()
    assert "pairs.ptu" in [one["name"] for one in served.ask("files")["files"]]


def test_photons_of_a_long_file_take_little_memory_and_can_be_stopped(program: str, tmp_path: Path) -> None:
    """64 MiB of photons at one time; as events they would take three times the memory that there is."""
    h5py = pytest.importorskip("h5py", reason="python3-h5py isn't on this machine")
    made.write(tmp_path / "long.ptu", "HydraHarp2T3", [], tick=1e-7, resolution=1e-10)
    os.truncate(tmp_path / "long.ptu", 1 << 26)
    one = Served(tmp_path, tmp_path / "results", program, megabytes=75)
    try:
        trace = "[[group]]\ninputs = [0]\n[[trace]]\ngroup = 1\nwidth = 10\nbins = 9\n"
        run = one.work("run", file="long.ptu", plan=trace, analysis="trace", settings={})
        there = tmp_path / "results" / run["begun"]
        names = {path.name for path in there.iterdir()}
        with one.client.stream("POST", "/api/photons", content=json.dumps({"result": run["begun"]})) as begun_here:
            told = (json.loads(line) for line in begun_here.iter_lines() if line.strip())
            line = next(line for line in told if line.get("progress", 0) and line["progress"] > 0.3)
            assert line["words"] == "writes the photons" and line["progress"] < 1 and len(list(there.glob(".ptulab-*"))) == 1
            process = jobs_of(one).process
            begun_here.close()
        assert gone(process)
        while jobs_of(one).waiting:
            time.sleep(0.02)
        assert {path.name for path in there.iterdir()} == names
        assert "photons.hdf5" in one.work("photons", result=run["begun"])["result"]["files"]
        with h5py.File(there / "photons.hdf5") as file:
            assert len(file["photon_data/timestamps"]) == len(file["photon_data/nanotimes"]) == ptulab.read_header(tmp_path / "long.ptu").records > 1.5e7
    finally:
        one.end()


def test_a_file_that_grows_or_is_cut_meanwhile_ends_nothing(served: Served, folder: Path) -> None:
    whole = (folder / "pairs.ptu").read_bytes()
    for size in (len(whole) // 2, len(whole) + 4000, 0):
        path = folder / "moves.ptu"
        path.write_bytes(whole)
        with served.client.stream("POST", "/api/look", content=json.dumps({"file": "moves.ptu"})) as look:
            process = begun(served)
            os.truncate(path, size)
            os.killpg(process, signal.SIGCONT)
            last = json.loads([line for line in look.iter_lines() if line.strip()][-1])
        assert ("error" in last) != ("result" in last) and str(folder) not in json.dumps(last)
        path.unlink()
    assert served.work("look", file="pairs.ptu")["result"]["info"]["photons"] == 8000


def test_a_header_that_lies_is_read_in_little_memory(served: Served, folder: Path) -> None:
    """Tags of a petabyte, of a negative length, and 17 MiB of tags without an end."""
    start = (folder / "pairs.ptu").read_bytes()[:16]
    tag = b"File_Comment".ljust(32, b"\0") + b"\xff\xff\xff\xff" + b"\xff\xff\x01\x40"
    lies = {"long": tag + (1 << 50).to_bytes(8, "little"), "less": tag + b"\xff" * 8, "many": made.tag("Odd", 1) * ((17 << 20) // 48)}
    for name, lie in lies.items():
        (folder / f"{name}.ptu").write_bytes(start + lie)
    files = {one["name"]: one["wrong"] for one in served.ask("files")["files"]}
    for name, said in (("long", "header cut after"), ("less", "tag 1 has length -1"), ("many", "header longer than")):
        assert said in files[f"{name}.ptu"] and said in served.work("look", file=f"{name}.ptu")["error"]
        (folder / f"{name}.ptu").unlink()


def test_a_full_disk_gets_a_line_and_leaves_no_half(served: Served, folder: Path, tmp_path: Path, monkeypatch: pytest.MonkeyPatch) -> None:
    from ptulab.app import _job

    told = served.work("run", file="decay.ptu", plan=DECAY, analysis="decay", settings={})

    def full(*given: Any, **more: Any) -> Any:
        raise OSError(errno.ENOSPC, os.strerror(errno.ENOSPC), str(tmp_path / "analysis.py"))

    with monkeypatch.context() as patched:
        patched.setattr(shutil, "copyfile", full)
        assert served.ask("keep", result=told["begun"], name="full") == {"error": "analysis.py: No space left on device"}
        patched.setattr(Path, "mkdir", full)
        assert "No space left" in served.work("run", file="decay.ptu", plan=DECAY, analysis="decay", settings={})["error"]
        patched.setattr(Path, "write_text", full)
        request = {"kind": "run", "path": str(folder / "decay.ptu"), "out": str(tmp_path), "megabytes": 3072, "plan": DECAY, "analysis": "decay", "settings": {}}
        assert _job._done(request, io.BytesIO()) == {"error": "analysis.py: No space left on device"}
    assert not (folder / "ptulab-sessions" / "full").exists()
    assert served.ask("keep", result=told["begun"], name="full") == {"folder": "ptulab-sessions/full"}
    shutil.rmtree(folder / "ptulab-sessions" / "full")


def test_a_link_that_is_turned_meanwhile_leads_nowhere(served: Served, folder: Path) -> None:
    """A link within the folder is good; turned outside, it is no file any more, whatever was listed."""
    link = folder / "turned.ptu"
    link.symlink_to(folder / "pairs.ptu")
    assert "turned.ptu" in [one["name"] for one in served.ask("files")["files"]]
    link.unlink()
    link.symlink_to("/etc/passwd")
    assert served.client.post("/api/look", content=json.dumps({"file": "turned.ptu"})).status_code == 404
    link.unlink()
    link.symlink_to(link)
    assert served.client.post("/api/look", content=json.dumps({"file": "turned.ptu"})).status_code == 404
    assert "turned.ptu" not in [one["name"] for one in served.ask("files")["files"]]
    link.unlink()


def test_work_beyond_what_may_wait_is_refused(served: Served) -> None:
    jobs_of(served).waiting += 8
    try:
        assert "Something else is running" in served.work("look", file="pairs.ptu")["error"]
    finally:
        jobs_of(served).waiting -= 8


def test_work_ends_with_its_server(folder: Path, program: str, tmp_path: Path) -> None:
    one = Served(folder, tmp_path / "results", program)
    with ThreadPoolExecutor() as pool:
        run = pool.submit(one.work, "run", file="decay.ptu", plan=DECAY, analysis="decay", settings={})
        process = begun(one)
        one.app.end()
        assert gone(process) and "error" in run.result()
    one.end()
    assert not one.thread.is_alive()


def test_the_command_serves_on_the_loopback_alone(folder: Path, program: str) -> None:
    words = [sys.executable, "-m", "ptulab", "app", str(folder), "--no-browser", "--program", program]
    source = str(Path(ptulab.__file__).resolve().parents[1])
    with subprocess.Popen(words, stderr=subprocess.PIPE, text=True, env=os.environ | {"PYTHONPATH": source}) as child:
        try:
            assert child.stderr is not None
            address = child.stderr.readline().split()[-1]
            assert re.fullmatch(r"http://127\.0\.0\.1:\d+/\?token=[\w-]{43}", address)
            with httpx.Client(verify=False) as client:  # the port listens before the address is told
                assert client.get(address, timeout=SECONDS).status_code == 303
            child.send_signal(signal.SIGINT)
            assert child.wait(SECONDS) in (0, 130)
        finally:
            child.kill()
