"""A server on the loopback interface, for one page: which requests are answered, and which are refused.

Any page that a browser shows, and any program of any user of this machine, can send requests to a port of the loopback interface.
So the page's address has a random token. A request without it is refused, and so is one for another host, which a name that leads
here would bring (DNS rebinding), and one that a page of another origin sends. No request names a file: the files of the page are
read once, and each has a name of its own.
"""

from __future__ import annotations

import errno
import hmac
import json
import secrets
import socketserver
import sys
from http import HTTPStatus
from http.server import BaseHTTPRequestHandler
from pathlib import Path
from typing import Any, Callable, Mapping, NamedTuple
from urllib.parse import parse_qsl

HERE = "127.0.0.1"
# If a port is in use, so many are tried from it on.
_TRIED = 20
# The greatest length of a request's address, and of what it sends if nothing else is said.
_MOST_IN_ADDRESS, MOST_IN_REQUEST = 400, 1000
# A connection on which nothing comes for so many seconds is closed.
_PATIENCE = 20
# The page is this server's alone: it takes nothing from the network.
_POLICY = "default-src 'none'; script-src 'self'; style-src 'self'; img-src 'self'; connect-src 'self'; base-uri 'none'"
_HEADERS = {
    "Cache-Control": "no-store",
    "Content-Security-Policy": _POLICY,
    "Cross-Origin-Resource-Policy": "same-origin",
    "Referrer-Policy": "no-referrer",
    "X-Content-Type-Options": "nosniff",
}
# Where a browser says that a request comes from: this page, or the reader.
_FROM_HERE = ("same-origin", "none")


class Answer(NamedTuple):
    """What a request is answered with."""

    content: bytes
    kind: str  # the type of the media
    status: int = HTTPStatus.OK


class Request(NamedTuple):
    """What a request asks with."""

    words: Mapping[str, str]  # of its address
    content: bytes


class Route(NamedTuple):
    """Where a request leads."""

    answer: Callable[[Request], Answer]
    changes: bool = False  # whether it changes something, so that it must be a POST
    most: int = MOST_IN_REQUEST  # the greatest length of what it may send


_KINDS = {".html": "text/html; charset=utf-8", ".css": "text/css; charset=utf-8", ".js": "text/javascript; charset=utf-8"}


def file(content: bytes, kind: str) -> Route:
    """Where a file is."""
    return Route(lambda _: Answer(content, kind))


def files(folder: Path) -> dict[str, Route]:
    """The files of a page, by name. The page itself has none."""
    found = {path.name: file(path.read_bytes(), _KINDS[path.suffix]) for path in folder.iterdir() if path.suffix in _KINDS}
    return {"": found.pop("index.html"), **found}


class _Refused(Exception):
    """Why a request is not answered."""

    def __init__(self, status: HTTPStatus, sentence: str) -> None:
        super().__init__(sentence)
        self.status = status


class Server(socketserver.ThreadingTCPServer):
    """Answers requests by their routes, the page itself under the empty name. It is bound to the loopback interface alone."""

    daemon_threads = True
    allow_reuse_address = True

    def __init__(self, port: int, routes: Mapping[str, Route]) -> None:
        super().__init__((HERE, port), _Handler)
        self.port: int = self.server_address[1]
        self.token, self.routes = secrets.token_urlsafe(24), routes
        end = "" if self.port == 80 else f":{self.port}"  # which a browser leaves out
        self.hosts = {f"{name}{end}" for name in (HERE, "localhost")}

    @property
    def address(self) -> str:
        """Where the page is."""
        return f"http://{HERE}:{self.port}/{self.token}/"

    @property
    def tunnel(self) -> str:
        """The command that brings the page to another machine, with the name of this one after it."""
        return f"ssh -L {self.port}:{HERE}:{self.port}"

    def handle_error(self, request: Any, client_address: Any) -> None:
        """A browser may leave at any time."""
        if not isinstance(sys.exc_info()[1], (ConnectionError, TimeoutError)):
            super().handle_error(request, client_address)


def bound(port: int, routes: Mapping[str, Route]) -> Server:
    """A server at this port, or at the next one that is free. 0 is any free port."""
    last = min(port + _TRIED - 1, 65535) if port else 0
    for at in range(port, last + 1):
        try:
            return Server(at, routes)
        except OSError as error:
            if error.errno != errno.EADDRINUSE:
                raise OSError(error.errno, f"port {at} cannot be used ({error.strerror}): choose another from 1024 on") from None
    raise OSError(errno.EADDRINUSE, f"the ports from {port} to {last} are all in use: choose another, or 0 for any that is free")


class _Handler(BaseHTTPRequestHandler):
    """Answers one request."""

    server: Server
    server_version, sys_version = "sandpile", ""
    timeout = _PATIENCE

    def do_GET(self) -> None:
        self._answer(False)

    def do_POST(self) -> None:
        self._answer(True)

    def _answer(self, is_post: bool) -> None:
        try:
            answer = self._found(is_post)
        except _Refused as why:
            answer = refusal(str(why), why.status)
        except (ValueError, TypeError, RuntimeError, MemoryError, OSError) as error:
            answer = refusal(str(error) or "there is not enough memory")
        except Exception as error:
            answer = refusal(f"this is an error of the module sandpile: {error!r}", HTTPStatus.INTERNAL_SERVER_ERROR)
        self._send(answer)

    def _found(self, is_post: bool) -> Answer:
        """The answer, or an error that says why there is none."""
        if len(self.path) > _MOST_IN_ADDRESS:
            raise _Refused(HTTPStatus.REQUEST_URI_TOO_LONG, f"an address has at most {_MOST_IN_ADDRESS} characters")
        path, _, words = self.path.partition("?")
        token, *names = path.split("/")[1:] or [""]
        self._check_source(names == [""] and not is_post)
        if not hmac.compare_digest(token.encode(), self.server.token.encode()):
            raise _Refused(HTTPStatus.FORBIDDEN, "this is not the address of the page: use the one that was printed, as a whole")
        route = self.server.routes.get("/".join(names)) if names else None
        if route is None:
            raise _Refused(HTTPStatus.NOT_FOUND, "there is nothing at this address")
        if route.changes is not is_post:
            raise _Refused(HTTPStatus.METHOD_NOT_ALLOWED, f"this address takes {'POST' if route.changes else 'GET'} only")
        return route.answer(Request(dict(parse_qsl(words)), self._content(route.most)))

    def _check_source(self, is_page: bool) -> None:
        """Refuses a request for another host, or from a page of another origin, which may only show this page in a frame."""
        hosts: list[str] = self.headers.get_all("Host", [])
        if len(hosts) != 1 or hosts[0] not in self.server.hosts:
            sentence = f"this server is {HERE}:{self.server.port}, and answers for no other host"
            raise _Refused(HTTPStatus.MISDIRECTED_REQUEST, sentence)
        origins: list[str] = self.headers.get_all("Origin", [])
        is_here = self.headers.get("Sec-Fetch-Site", "none") in _FROM_HERE
        if origins not in ([], [f"http://{hosts[0]}"]) or not (is_here or is_page):
            raise _Refused(HTTPStatus.FORBIDDEN, "a page of another origin may not use this one")

    def _content(self, most: int) -> bytes:
        """What the request sends."""
        length = self.headers.get("Content-Length", "0")
        if "Transfer-Encoding" in self.headers or not (length.isascii() and length.isdigit()):
            raise _Refused(HTTPStatus.LENGTH_REQUIRED, "a request must say how many bytes it sends")
        if int(length) > most:
            sentence = f"this request sends {int(length):,} bytes, but at most {most:,} are read"
            raise _Refused(HTTPStatus.REQUEST_ENTITY_TOO_LARGE, sentence)
        content = self.rfile.read(int(length))
        if len(content) < int(length):
            raise _Refused(HTTPStatus.BAD_REQUEST, f"the request ended after {len(content):,} of {int(length):,} bytes")
        return content

    def _send(self, answer: Answer) -> None:
        self.send_response(answer.status)
        for name, value in {**_HEADERS, "Content-Type": answer.kind, "Content-Length": str(len(answer.content))}.items():
            self.send_header(name, value)
        self.end_headers()
        if self.command != "HEAD":
            self.wfile.write(answer.content)

    def send_error(self, code: int, message: str | None = None, explain: str | None = None) -> None:
        """What the base class refuses: another method, or what is no request."""
        self.close_connection = True
        self._send(refusal("this is no request that the page makes", HTTPStatus(code)))

    def log_message(self, *_: Any) -> None:
        """Nothing is logged: an address has the token."""


def refusal(sentence: str, status: HTTPStatus = HTTPStatus.BAD_REQUEST) -> Answer:
    """An answer that says in words what is wrong."""
    return Answer(json.dumps({"error": sentence}).encode(), "application/json", status)
