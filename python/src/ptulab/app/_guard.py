"""Who may ask the window: this machine alone, by the window's own page, after the address with the token was opened."""

from __future__ import annotations

import hmac
import secrets
from collections.abc import Awaitable, Callable, Mapping, MutableMapping
from http.cookies import CookieError, SimpleCookie
from typing import Any
from urllib.parse import parse_qs

POLICY = (
    "default-src 'none'; script-src 'self'; style-src 'self' 'unsafe-inline'; img-src 'self' data: blob:; connect-src 'self'; "
    "base-uri 'none'; form-action 'none'; frame-ancestors 'none'"
)
HEADERS = {
    "content-security-policy": POLICY,
    "x-content-type-options": "nosniff",
    "x-frame-options": "DENY",
    "referrer-policy": "no-referrer",
    "cross-origin-opener-policy": "same-origin",
    "cross-origin-resource-policy": "same-origin",
    "cache-control": "no-store",
}
Message = MutableMapping[str, Any]
Send = Callable[[Message], Awaitable[None]]
Application = Callable[[Message, Any, Send], Awaitable[None]]


class Guard:
    """An application behind checks of the host, the origin and the cookie; every answer has the policy in its head."""

    def __init__(self, inner: Application, token: str, port: int, end: Callable[[], None]) -> None:
        self.inner, self.cookie, self.name = inner, secrets.token_urlsafe(32), f"ptulab-{port}"
        self.token, self.once = token, secrets.token_urlsafe(32)  # the second is good once, for an address that others may see
        self.end = end  # ends the work that runs, when the server ends
        self.hosts = {f"127.0.0.1:{port}", f"localhost:{port}"}

    async def __call__(self, scope: Message, receive: Any, send: Send) -> None:
        if scope["type"] == "lifespan":
            await self.inner(scope, receive, send)
        elif scope["type"] == "http":
            await self._http(scope, receive, send)
        else:
            await send({"type": "websocket.close", "code": 1008})

    async def _http(self, scope: Message, receive: Any, send: Send) -> None:
        headers: dict[str, list[str]] = {}
        for word, value in scope["headers"]:
            headers.setdefault(word.decode("latin-1"), []).append(value.decode("latin-1"))
        status, more = self._verdict(scope, headers)
        if status == 200:
            await self.inner(scope, receive, _headed(send))
            return
        words = b"" if status == 303 else b"This window is for the page that it opened itself: take the address that the terminal shows.\n"
        told = [(word.encode(), value.encode()) for word, value in (HEADERS | more | {"content-type": "text/plain"}).items()]
        await send({"type": "http.response.start", "status": status, "headers": told})
        await send({"type": "http.response.body", "body": words})

    def _verdict(self, scope: Message, headers: Mapping[str, list[str]]) -> tuple[int, dict[str, str]]:
        """The status, 200 where the application answers, and more headers."""
        host = headers.get("host", [])
        if len(host) != 1 or host[0] not in self.hosts:
            return 421, {}
        origin = headers.get("origin", [f"http://{host[0]}"] if scope["method"] in ("GET", "HEAD") else [])
        site = headers.get("sec-fetch-site", ["same-origin"])
        if origin != [f"http://{host[0]}"] or not set(site) <= {"same-origin", "none"}:
            return 403, {}
        given = parse_qs(scope["query_string"].decode("latin-1")).get("token", [""])[0]
        if scope["path"] == "/" and given:
            good = self._is_token(given)
            return (303, {"location": "/", "set-cookie": f"{self.name}={self.cookie}; HttpOnly; SameSite=Strict; Path=/"}) if good else (403, {})
        return (200 if self._has_cookie(headers.get("cookie", [])) else 403), {}

    def _is_token(self, given: str) -> bool:
        if hmac.compare_digest(given.encode(), self.once.encode()):
            self.once = secrets.token_urlsafe(32)
            return True
        return hmac.compare_digest(given.encode(), self.token.encode())

    def _has_cookie(self, given: list[str]) -> bool:
        try:
            cookies: SimpleCookie[str] = SimpleCookie("; ".join(given))
        except CookieError:
            return False
        found = cookies.get(self.name)
        return found is not None and hmac.compare_digest(found.value.encode(), self.cookie.encode())


def _headed(send: Send) -> Send:
    """Adds the headers that every answer has; one that the application gave stays."""

    async def headed(message: Message) -> None:
        if message["type"] == "http.response.start":
            there = {word.lower() for word, _ in message["headers"]}
            more = [(word.encode(), value.encode()) for word, value in HEADERS.items() if word.encode() not in there]
            message = {**message, "headers": [*message["headers"], *more]}
        await send(message)

    return headed
