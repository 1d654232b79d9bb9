"""`fashkiin map`: the page, and requests passed on with the page's own token."""

from __future__ import annotations

import http.client
import json
import pytest
import socket
import struct
import threading
from collections.abc import Iterator
from pathlib import Path
from served import free_port, token

from fashkiin.map_server import PAGES, MapServer
from fashkiin.settings import Settings

COUNT = json.dumps({"box": [0, 1, 0, 1, 0, 1], "auths": []})


@pytest.fixture
def port(url: str, tmp_path: Path) -> Iterator[int]:
    """The port of a map server."""
    yield from serving(url, tmp_path)


def serving(url: str, folder: Path) -> Iterator[int]:
    with MapServer(Settings(url, folder / "none", None, 10.0), PAGES[-1], 0) as server:
        thread = threading.Thread(target=server.serve_forever, kwargs={"poll_interval": 0.05})
        thread.start()
        try:
            yield server.server_port
        finally:
            server.shutdown()
            thread.join()


def ask(port: int, method: str, path: str, body: str | None = None, **headers: str) -> tuple[int, bytes]:
    connection = http.client.HTTPConnection("127.0.0.1", port, timeout=20)
    try:
        connection.request(method, path, body, headers)
        reply = connection.getresponse()
        return reply.status, reply.read()
    finally:
        connection.close()


def test_the_page_and_its_scripts(port: int) -> None:
    status, page = ask(port, "GET", "/map/")
    assert status == 200
    assert b"Content-Security-Policy" in page
    assert ask(port, "GET", "/map/main.js")[0] == 200
    assert ask(port, "GET", "/javascript/leaflet/leaflet.js")[0] == 200
    assert ask(port, "GET", "/")[0] == 302


@pytest.mark.parametrize("path", ["/map/../../python/pyproject.toml", "/map/%2e%2e/pytest.ini", "/javascript/", "/map/none.js"])
def test_nothing_but_the_page(port: int, path: str) -> None:
    assert ask(port, "GET", path)[0] == 404


def test_requests_are_passed_on_with_the_token_of_the_page(port: int) -> None:
    bearer = f"Bearer {token('root')}"
    assert ask(port, "POST", "/tables/points/count", COUNT, Authorization=bearer) == (200, b'{"count":0}')
    assert ask(port, "GET", "/whoami") == (401, b'{"error":"token"}')
    assert ask(port, "DELETE", "/tables/none", Authorization=bearer) == (404, b'{"error":"table","table":"none"}')


@pytest.mark.parametrize("method", ["GET", "HEAD", "POST", "DELETE"])
def test_another_name_of_this_machine_is_refused(port: int, method: str) -> None:
    assert ask(port, method, "/map/", Host="evil.example")[0] == 421


def test_head_is_as_get_without_the_body(port: int, tmp_path: Path, monkeypatch: pytest.MonkeyPatch) -> None:
    (tmp_path / ".config").mkdir()
    (tmp_path / ".config/token").write_text("a secret")
    monkeypatch.chdir(tmp_path)
    bearer = f"Bearer {token('root')}"
    for path, status in (("/map/", 200), ("/map/main.js", 200), ("/map/none.js", 404), ("/", 302), ("/.config/token", 404)):
        assert ask(port, "HEAD", path, Authorization=bearer) == (status, b"")
        assert ask(port, "GET", path, Authorization=bearer)[0] == status


@pytest.mark.parametrize("method", ["GET", "HEAD"])
@pytest.mark.parametrize("path", ["//evil", "///evil", "//map/", "/map//evil", "/javascript//leaflet", "/javascript/leaflet"])
def test_no_path_leads_to_another_host(port: int, method: str, path: str) -> None:
    assert ask(port, method, path, Authorization=f"Bearer {token('root')}")[0] == 404


def test_a_body_that_is_too_large_is_refused(port: int) -> None:
    assert ask(port, "POST", "/label", "x" * 65_537)[0] == 413


def test_a_server_that_is_not_there(tmp_path: Path) -> None:
    for port in serving(f"http://127.0.0.1:{free_port()}", tmp_path):
        assert ask(port, "GET", "/whoami")[0] == 502


def test_browser_that_goes_away_leaves_no_traceback(port: int, capfd: pytest.CaptureFixture[str]) -> None:
    with socket.create_connection(("127.0.0.1", port)) as browser:
        browser.sendall(f"POST /tables HTTP/1.1\r\nHost: 127.0.0.1:{port}\r\nContent-Length: 100\r\n\r\n".encode())
        browser.setsockopt(socket.SOL_SOCKET, socket.SO_LINGER, struct.pack("ii", 1, 0))  # so that it is reset
    assert ask(port, "GET", "/map/")[0] == 200
    for thread in threading.enumerate():
        if "process_request_thread" in thread.name:
            thread.join(10)
    assert capfd.readouterr().err == ""
