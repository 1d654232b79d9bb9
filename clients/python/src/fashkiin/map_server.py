"""The map page on one's own machine, over a server that passes the page's requests on."""

from __future__ import annotations

import contextlib
import io
import re
import ssl
import sys
from collections.abc import Callable
from functools import partial
from http import HTTPStatus
from http.server import SimpleHTTPRequestHandler, ThreadingHTTPServer
from pathlib import Path
from typing import Any, BinaryIO

from fashkiin.errors import FashkiinError, SettingsError
from fashkiin.settings import Settings
from fashkiin.wire import Address, Connection, Reply

HOST = "127.0.0.1"
PAGES = (Path("/usr/share/fashkiin/map"), Path(__file__).resolve().parents[3] / "map" / "page")
SCRIPTS = Path("/usr/share/javascript")
LARGEST_BODY = 65_536
HEADERS = {
    "X-Frame-Options": "DENY",
    "X-Content-Type-Options": "nosniff",
    "Referrer-Policy": "no-referrer",
    "Cache-Control": "no-cache",
}
_VISIBLE = re.compile(r"[ -~]*\Z")


class MapServer(ThreadingHTTPServer):
    """Serves the page at `/map/`, Debian's scripts at `/javascript/`, and passes anything else on to the server of the settings,
    with the token that the page sends. It keeps no token and no connection."""

    daemon_threads = True

    def __init__(self, settings: Settings, page: Path, port: int) -> None:
        self.address = Address.parse(settings.url)
        cafile = None if settings.ca_file is None else str(settings.ca_file)
        context = ssl.create_default_context(cafile=cafile) if self.address.secure else None
        self.connect = partial(Connection, self.address, settings.timeout, context)
        self.folders = {"/map/": page, "/javascript/": SCRIPTS}
        try:
            super().__init__((HOST, port), _Handler)
        except OSError as error:
            raise SettingsError(f"--port: {port}: {error.strerror}, wanted a free port") from None

    def handle_error(self, request: Any, client_address: Any) -> None:
        """Says nothing of a browser that has gone: the page ends requests whose answers it no longer needs."""
        if not isinstance(sys.exception(), ConnectionError):
            super().handle_error(request, client_address)

    @property
    def url(self) -> str:
        """The address of the page."""
        return f"http://{HOST}:{self.server_port}/map/"


class _Handler(SimpleHTTPRequestHandler):
    """One connection of a browser."""

    protocol_version = "HTTP/1.1"
    server: MapServer

    def do_GET(self) -> None:
        if self._is_ours():
            self._answer(super().do_GET)

    def do_HEAD(self) -> None:
        if self._is_ours():
            self._answer(super().do_HEAD)

    def do_POST(self) -> None:
        if self._is_ours():
            self._pass_on()

    do_DELETE = do_POST

    def _answer(self, send_file: Callable[[], None]) -> None:
        """Answers a GET or a HEAD. A file is sent by `send_file`, which takes `path` to be within `directory`."""
        if self.path == "/":
            self.send_response(HTTPStatus.FOUND)
            self.send_header("Location", "/map/")
            self.send_header("Content-Length", "0")
            self.end_headers()
            return
        for prefix, folder in self.server.folders.items():
            if self.path.startswith(prefix):
                self.directory = str(folder)
                self.path = "/" + self.path[len(prefix) :]
                send_file()
                return
        self._pass_on()

    def send_head(self) -> io.BytesIO | BinaryIO | None:
        """Sends the head of a file. For a folder named without its slash `SimpleHTTPRequestHandler` would redirect by `path`."""
        if not self.path.endswith("/") and Path(self.translate_path(self.path)).is_dir():
            self.send_error(HTTPStatus.NOT_FOUND)
            return None
        return super().send_head()

    def list_directory(self, path: Any) -> None:
        """Shows no listings of folders."""
        self.send_error(HTTPStatus.NOT_FOUND)

    def end_headers(self) -> None:
        """Adds the headers of each answer."""
        for name, value in HEADERS.items():
            self.send_header(name, value)
        super().end_headers()

    def log_message(self, format: str, *args: Any) -> None:
        """Logs nothing: a line would show what was asked for."""

    def _is_ours(self) -> bool:
        """Whether the browser asks for this server by its own name, and not by a name that somebody else points here, and for a
        path that no browser takes for another host's."""
        if self.headers.get("Host") not in (f"{host}:{self.server.server_port}" for host in (HOST, "localhost")):
            self.send_error(HTTPStatus.MISDIRECTED_REQUEST)
            return False
        # Of several slashes `path` has one alone.
        if self.requestline.split()[1].startswith("//") or self.path.startswith(tuple(f"{it}/" for it in self.server.folders)):
            self.send_error(HTTPStatus.NOT_FOUND)
            return False
        return True

    def _pass_on(self) -> None:
        length = self.headers.get("Content-Length", "0")
        token = self.headers.get("Authorization", "")
        if not length.isascii() or not length.isdigit() or int(length) > LARGEST_BODY:
            self.close_connection = True
            self.send_error(HTTPStatus.REQUEST_ENTITY_TOO_LARGE)
            return
        body = self.rfile.read(int(length))
        if not _VISIBLE.match(token + self.path):
            self.send_error(HTTPStatus.BAD_REQUEST)
            return
        try:
            reply = self._ask(token, body)
        except FashkiinError as error:
            self.send_error(HTTPStatus.BAD_GATEWAY, explain=str(error))
            return
        self.send_response(reply.status)
        self.send_header("Content-Type", "application/json")
        self.send_header("Content-Length", str(len(reply.body)))
        self.end_headers()
        if self.command != "HEAD":
            self.wfile.write(reply.body)

    def _ask(self, token: str, body: bytes) -> Reply:
        address = self.server.address
        method = "GET" if self.command == "HEAD" else self.command
        head = [
            f"{method} {address.prefix}{self.path} HTTP/1.1",
            f"Host: {address.authority}",
            f"Content-Length: {len(body)}",
        ]
        head += [f"Authorization: {token}"] if token else []
        with contextlib.closing(self.server.connect()) as connection:
            connection.send("\r\n".join([*head, "Connection: close", "", ""]).encode() + body)
            return connection.receive()
