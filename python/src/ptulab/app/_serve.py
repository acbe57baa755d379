"""The server of the window: what the page asks, and what it gets."""

from __future__ import annotations

import asyncio
import json
import os
import re
import secrets
import shutil
import socket
import stat
import sys
import tempfile
import threading
import webbrowser
from collections.abc import AsyncGenerator, Callable
from contextlib import aclosing
from importlib import resources
from pathlib import Path
from typing import Any

from .._optional import want
from .._versions import __version__
from ..errors import PtulabError
from ..headers import other_records, read_header
from ..program import find_program
from ._folder import Folder, NotHere, named
from ._groups import looked_over, with_groups
from ._guard import Guard
from ._jobs import Jobs, said
from ._view import view_of

__all__ = ["make_app", "serve"]

FEATURE = "the window"
LONGEST = 1 << 18  # bytes that a page may send
KEPT = 8  # results whose files are kept
KEPT_BYTES = 1 << 30  # of a session that is opened, at most
MANY = 500  # files of one analysis, at most
RUNS = ("run", "many")  # work that makes a result
OF_A_RESULT = ("page", "images", "photons", "region")  # and work with one
MEGABYTES = 3072  # that a piece of work may have
SCRIPTS = ("app.js", "server.js", "dom.js", "files.js", "look.js", "plan.js", "questions.js", "plots.js", "take.js", "times.js", "undo.js")
TYPES = {".js": "text/javascript; charset=utf-8", ".css": "text/css; charset=utf-8"}
RESULT = re.compile(r"[0-9a-f]{16}")
FILE = re.compile(r"[A-Za-z0-9_-]{1,60}(\.ome)?\.[a-z0-9]{2,5}")
SESSIONS = "ptulab-sessions"
SESSION = re.compile(r"[\w][\w .()+-]{0,79}")
ODD = (PtulabError, ValueError, KeyError, TypeError, OSError, ArithmeticError, RecursionError)  # what a request may be refused for


class Window:
    """What the page of one folder asks."""

    def __init__(self, folder: str | os.PathLike[str], program: str, work: str, megabytes: int) -> None:
        self.folder, self.work, self.jobs = Folder(folder), Path(work), Jobs(program, megabytes)
        self.results: dict[str, dict[str, Any]] = {}  # of each what was asked: its file, settings ..

    # ## Files

    def files(self, asked: dict[str, Any]) -> Any:
        """The files of the folder, by their headers."""
        return {"folder": named(self.folder.root) or "/", "files": [self._file(name) for name in self.folder.names()]}

    def _file(self, name: str) -> dict[str, Any]:
        told: dict[str, Any] = {"name": name, "bytes": 0, "changed": "", "type": "", "wrong": ""}
        try:
            path = self.folder.path(name)
            now = os.stat(path)
            told |= {"bytes": now.st_size, "changed": f"{now.st_size} {now.st_mtime_ns}"}
            header = read_header(path)
        except (PtulabError, OSError) as error:
            return told | {"wrong": str(getattr(error, "line", "") or getattr(error, "strerror", "") or error)}
        odd = "cut within a record" if header.left_over_bytes else other_records(header.announced, header.records)
        return told | {"type": header.record_type, "odd": odd, "records": header.records}

    # ## Plans

    def plan(self, asked: dict[str, Any]) -> Any:
        """What is in a plan, and what is wrong with it."""
        return looked_over(_text(asked, "plan"))

    def groups(self, asked: dict[str, Any]) -> Any:
        """The plan with other groups."""
        text = with_groups(_text(asked, "plan"), asked["groups"])
        return {"plan": text, **looked_over(text)}

    # ## Work

    def request(self, kind: str, asked: dict[str, Any]) -> dict[str, Any]:
        """What a piece of work is told."""
        request: dict[str, Any] = {"kind": kind}
        if kind in OF_A_RESULT:
            folder = self._result(asked)
            told = self.results[folder.name]
            if kind == "region":
                request |= {"regions": asked["regions"], "phasors": asked.get("phasors", []), "threshold": asked["threshold"]}
            return request | {"path": self.folder.path(told["file"]), "out": str(folder), "analysis": told["analysis"], "settings": told["settings"]}
        if kind == "many":
            request["files"] = self._files(asked)
        request["path"] = request["files"][0] if kind == "many" else self.folder.path(asked.get("file"))
        if kind in ("check", *RUNS):
            request |= {"plan": _text(asked, "plan")}
            if kind in RUNS:
                request |= {"analysis": _text(asked, "analysis"), "settings": dict(asked["settings"])}
                request["second"] = self.folder.path(asked["second"]) if asked.get("second") else None
        return request

    def begin(self, kind: str, asked: dict[str, Any], request: dict[str, Any]) -> dict[str, Any]:
        """The same when it begins. A run gets a folder for its files then, and the oldest one is removed."""
        return request | ({"out": str(self._new(asked, kind))} if kind in ("check", *RUNS) else {})

    def _files(self, asked: dict[str, Any]) -> list[str]:
        names = asked.get("files")
        if not isinstance(names, list) or not 1 <= len(names) <= MANY:
            raise ValueError(f"one to {MANY} files are wanted")
        return [self.folder.path(name) for name in names]

    def _new(self, asked: dict[str, Any], kind: str) -> Path:
        """The folder of a new result."""
        result = secrets.token_hex(8)
        (self.work / result).mkdir()
        if kind in RUNS:
            told = {key: asked.get(key) for key in ("analysis", "settings", "second", "files")}
            self.results[result] = told | {"file": asked["files"][0] if kind == "many" else asked["file"]}
            self._forget()
        return self.work / result

    def _forget(self) -> None:
        while len(self.results) > KEPT:
            oldest = next(iter(self.results))
            del self.results[oldest]
            shutil.rmtree(self.work / oldest, ignore_errors=True)

    def _result(self, asked: dict[str, Any]) -> Path:
        name = asked.get("result")
        if not isinstance(name, str) or not RESULT.fullmatch(name) or name not in self.results:
            raise NotHere("this result isn't kept any more: run it once more")
        return self.work / name

    def file_of_result(self, result: str, name: str) -> Path:
        """A file of a result."""
        path = self._result({"result": result}) / name
        if not FILE.fullmatch(name) or not path.is_file() or path.is_symlink():
            raise NotHere("the result has no such file")
        return path

    # ## Sessions

    def keep(self, asked: dict[str, Any]) -> Any:
        """Puts the files of a result into a folder beside the data, with what was asked, and how it is looked at."""
        result, name = self._result(asked), _text(asked, "name").strip()
        if not SESSION.fullmatch(name):
            raise ValueError("a session's name has letters, digits, blanks and ( ) + - . _, at most 80")
        home = os.path.join(self.folder.root, SESSIONS)
        folder = os.path.join(home, name)
        if os.path.realpath(home) != home or os.path.lexists(folder):
            raise ValueError(f"there is a session {name}: take another name")
        told = self.results[result.name] | {"view": view_of(asked.get("view"))}
        os.makedirs(folder)
        try:
            for path in sorted(result.iterdir()):
                if FILE.fullmatch(path.name):
                    shutil.copyfile(path, os.path.join(folder, path.name))
            Path(folder, "session.json").write_text(json.dumps(told), "utf-8")
        except OSError:  # as of a full disk: half a session is none
            shutil.rmtree(folder, ignore_errors=True)
            raise
        return {"folder": f"{SESSIONS}/{name}"}

    def sessions(self, asked: dict[str, Any]) -> Any:
        """The sessions beside the data, by their names."""
        home = Path(self.folder.root, SESSIONS)
        names = sorted(path.parent.name for path in home.glob("*/session.json")) if home.is_dir() else []
        return {"sessions": [name for name in names if SESSION.fullmatch(name)]}

    def session(self, asked: dict[str, Any]) -> Any:
        """What a session asked: file, analysis, settings and plan, and its view; its files are those of a new result, which is shown again."""
        name = _text(asked, "name")
        folder = os.path.join(self.folder.root, SESSIONS, name)
        if not SESSION.fullmatch(name) or os.path.realpath(folder) != folder:
            raise NotHere("there is no such session")
        texts = [_read(os.path.join(folder, file)) for file in ("session.json", "plan.toml")]
        told = json.loads(texts[0])
        if not isinstance(told, dict):
            raise ValueError("this session doesn't say what was asked")
        told = {key: told.get(key) for key in ("analysis", "settings", "second", "file", "files")} | {"plan": texts[1], "view": view_of(told.get("view"))}
        for file in told["files"] or [told["file"]]:
            self.folder.path(file)
        if not isinstance(told["settings"], dict):
            raise ValueError("this session has no settings")
        result = self._new(told, "run")
        try:
            names = _copied(Path(folder), result)
        except OSError:
            shutil.rmtree(result, ignore_errors=True)
            raise
        return told | {"begun": result.name, "names": [name for name in names if name not in ("shown.json", "session.json")]}


def _read(path: str) -> str:
    """The beginning of a regular file of a session: no link is followed, and no pipe is waited for."""
    descriptor = os.open(path, os.O_RDONLY | os.O_NOFOLLOW | os.O_NONBLOCK)
    with open(descriptor, encoding="utf-8", errors="replace") as opened:
        if not stat.S_ISREG(os.fstat(descriptor).st_mode):
            raise NotHere(f"{os.path.basename(path)} of this session is no file")
        return opened.read(LONGEST)


def _copied(folder: Path, result: Path) -> list[str]:
    """Copies the files of a session, links and what is too long left out; gives their names."""
    names, size = [], 0
    for path in sorted(folder.iterdir()):
        if FILE.fullmatch(path.name) and path.is_file() and not path.is_symlink():
            long = path.stat().st_size
            if size + long <= KEPT_BYTES:
                shutil.copyfile(path, result / path.name)
                names.append(path.name)
                size += long
    return names


def _text(asked: dict[str, Any], key: str) -> str:
    value = asked.get(key)
    if not isinstance(value, str):
        raise ValueError(f"{key} is wanting")
    return value


def make_app(folder: str | os.PathLike[str], *, token: str, port: int, work: str, program: str | None = None, megabytes: int = MEGABYTES) -> Guard:
    """The application of a folder, for a server on this port.

    ``token`` is in the first address, ``work`` an empty folder for results, ``megabytes`` what a piece of work may have for its
    data. Raises ``MissingLibraryError`` without Starlette or Jinja, ``NoProgramError``, and ``OSError`` for a folder that can't be read.
    """
    want("starlette.applications", FEATURE)
    want("jinja2", FEATURE)
    from starlette.applications import Starlette
    from starlette.requests import Request
    from starlette.responses import FileResponse, Response
    from starlette.routing import Route

    window = Window(folder, find_program(program), work, megabytes)
    kept: dict[str, bytes] = {}

    def answered(answer: Callable[[dict[str, Any]], Any]) -> Callable[[Request], Any]:
        async def endpoint(request: Request) -> Any:
            try:
                return _json(await asyncio.to_thread(answer, await _asked(request)))
            except ODD as error:
                return _json({"error": said(error)}, 404 if isinstance(error, NotHere) else 400)

        return endpoint

    def worked(kind: str) -> Callable[[Request], Any]:
        async def endpoint(request: Request) -> Any:
            try:
                asked = await _asked(request)
                told = window.request(kind, asked)
            except ODD as error:
                return _json({"error": said(error)}, 404 if isinstance(error, NotHere) else 400)
            return _stream(window.jobs.lines(lambda: window.begin(kind, asked, told), kind in RUNS))

        return endpoint

    async def script(request: Request) -> Response:
        name = request.path_params["name"]
        if name == "plotly.js":
            if name not in kept:
                kept[name] = str(want("plotly.offline", FEATURE).get_plotlyjs()).encode()
            return Response(kept[name], headers={"content-type": TYPES[".js"], "cache-control": "private, max-age=86400"})
        if name not in (*SCRIPTS, "app.css"):
            return Response("no such file", 404)
        return Response(_static(name), headers={"content-type": TYPES[os.path.splitext(name)[1]]})

    async def download(request: Request) -> Response:
        try:
            path = window.file_of_result(request.path_params["result"], request.path_params["name"])
        except NotHere as error:
            return Response(str(error), 404)
        headers = {"content-security-policy": "sandbox; default-src 'none'"}
        return FileResponse(path, filename=path.name, media_type="application/octet-stream", headers=headers)

    async def page(request: Request) -> Response:
        text = _page({"folder": named(window.folder.root) or "/", "version": __version__})
        return Response(text, headers={"content-type": "text/html; charset=utf-8"})

    asked = {"files": window.files, "plan": window.plan, "groups": window.groups, "keep": window.keep, "sessions": window.sessions, "session": window.session}
    return Guard(
        Starlette(
            routes=[
                Route("/", page),
                Route("/static/{name}", script),
                Route("/result/{result}/{name}", download),
                *(Route(f"/api/{name}", answered(answer), methods=["POST"]) for name, answer in asked.items()),
                *(Route(f"/api/{kind}", worked(kind), methods=["POST"]) for kind in ("look", "check", *RUNS, *OF_A_RESULT)),
            ]
        ),
        token,
        port,
        window.jobs.end,
    )


def _json(value: Any, status: int = 200) -> Any:
    """An answer in ASCII, which has names that aren't UTF-8 too."""
    from starlette.responses import Response

    return Response(json.dumps(value, allow_nan=False), status, media_type="application/json")


async def _asked(request: Any) -> dict[str, Any]:
    """The JSON that a page sent, at most 256 KiB; what is more is read, so that the page hears of it, and thrown away."""
    body, size = bytearray(), 0
    async for piece in request.stream():
        size += len(piece)
        if size <= LONGEST:
            body += piece
        elif size > 256 * LONGEST:
            break
    if size > LONGEST:
        raise ValueError(f"more than {LONGEST} bytes were sent")
    asked = json.loads(body or b"{}")
    if not isinstance(asked, dict):
        raise ValueError("an object of JSON is wanted")
    return asked


def _stream(lines: AsyncGenerator[bytes, None]) -> Any:
    """An answer that ends the work when the page that asked is gone."""
    from starlette.responses import StreamingResponse

    class Stream(StreamingResponse):
        async def __call__(self, scope: Any, receive: Any, send: Any) -> None:
            async with aclosing(lines):
                await super().__call__(scope, receive, send)

    return Stream(lines, media_type="application/x-ndjson")


def _static(name: str) -> bytes:
    return resources.files(__package__).joinpath("static", name).read_bytes()


def _page(values: dict[str, Any]) -> str:
    """The page itself; what is put in is escaped."""
    jinja2 = want("jinja2", FEATURE)
    environment = jinja2.Environment(autoescape=True, undefined=jinja2.StrictUndefined)
    return str(environment.from_string(_static("page.html").decode("utf-8")).render(**values))


def serve(folder: str | os.PathLike[str] = ".", *, port: int = 0, browser: bool = True, program: str | None = None) -> None:
    """Serves the window of a folder on 127.0.0.1 till it is ended, and opens the browser at it.

    ``port`` 0 takes a free one. Raises as ``make_app`` does, and ``MissingLibraryError`` without uvicorn.
    """
    uvicorn = want("uvicorn", FEATURE)
    listening = socket.socket(socket.AF_INET, socket.SOCK_STREAM)
    listening.setsockopt(socket.SOL_SOCKET, socket.SO_REUSEADDR, 1)
    with listening, tempfile.TemporaryDirectory(prefix="ptulab-app-") as work:
        listening.bind(("127.0.0.1", port))
        listening.listen()  # so that a browser that comes early waits
        port, token = listening.getsockname()[1], secrets.token_urlsafe(32)
        app = make_app(folder, token=token, port=port, work=work, program=program)
        address = f"http://127.0.0.1:{port}/?token="
        print(f"The window is at {address}{token}\nIt ends with Control-C.", file=sys.stderr, flush=True)
        if browser:  # whose words others on this machine may see
            opening = threading.Timer(0.5, webbrowser.open, (address + app.once,))
            opening.daemon = True
            opening.start()
        settings = uvicorn.Config(app, log_level="warning", access_log=False, ws="none", server_header=False, timeout_keep_alive=30)
        server = uvicorn.Server(settings)
        handle = server.handle_exit

        def ended(number: int, frame: Any) -> None:
            app.end()
            handle(number, frame)

        server.handle_exit = ended
        server.run(sockets=[listening])
