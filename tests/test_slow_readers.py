"""Clients of the built `st_served` that do not take their reply: each is ended in time, and others do not notice."""
from __future__ import annotations

import http.client
import json
import select
import socket
import time
from collections.abc import Iterator
from contextlib import contextmanager, suppress
from pathlib import Path

import pytest

from served import PROGRAM, SocketConnection, digest, free_port, listening, token

ROWS = 600
NOTE = "n" * 4000
HEAD = f"Host: a\r\nAuthorization: Bearer {token('root')}\r\n"
WHO = f"GET /whoami HTTP/1.1\r\n{HEAD}\r\n".encode()
BODY = json.dumps({"auths": [], "box": [0, 2097151, 0, 2097151, 0, 19818086399], "limit": 1000})
SCAN = f"POST /tables/points/scan HTTP/1.1\r\n{HEAD}Content-Length: {len(BODY)}\r\nConnection: close\r\n\r\n{BODY}".encode()

# Seconds after which a client that takes nothing, or next to nothing, has lost its worker: 5, what the kernel takes for it at 256 bytes
# a millisecond, 2 in which the server ends the connection, and some for a busy machine.
LIMIT = 15


def fill(connection: http.client.HTTPConnection) -> None:
    """Rows of which a page has some 2.4 MB."""
    for number in range(ROWS):
        row = json.dumps({"id": f"r{number}", "label": "", "note": NOTE, "point": [number, 0, 0]})
        connection.request("POST", "/tables/points/put", row, {"Authorization": f"Bearer {token('root')}"})
        assert connection.getresponse().read() == b'{"ok":true}'
    connection.close()


@contextmanager
def running(place: int | Path) -> Iterator[None]:
    """A server with rows, at a port or at a socket, with four workers and a time limit that is no help."""
    named = ["--port", str(place)] if isinstance(place, int) else ["--socket", str(place)]
    line = [str(PROGRAM), "--root", digest("root"), *named, "--workers", "4", "--timeout", "600"]
    with listening(line, place):
        fill(http.client.HTTPConnection("127.0.0.1", place, timeout=10) if isinstance(place, int) else SocketConnection(place))
        yield


def connected(place: int | Path, *, is_far: bool = False) -> socket.socket:
    """A connection to the place. One that is far has the small segments of a network, so that the kernel holds little of a reply."""
    if isinstance(place, int):
        client = socket.socket()
        if is_far:
            client.setsockopt(socket.IPPROTO_TCP, socket.TCP_MAXSEG, 536)
            client.setsockopt(socket.SOL_SOCKET, socket.SO_RCVBUF, 4096)
        client.settimeout(20)
        client.connect(("127.0.0.1", place))
    else:
        client = socket.socket(socket.AF_UNIX)
        client.settimeout(20)
        client.connect(str(place))
    return client


def rest(client: socket.socket) -> int:
    """How many bytes still come."""
    count = 0
    with client, suppress(ConnectionResetError):
        while piece := client.recv(65536):
            count += len(piece)
    return count


@pytest.mark.parametrize("is_port", [True, False], ids=["port", "socket"])
def test_a_client_that_takes_no_reply_frees_its_worker_and_a_steady_one_gets_all(tmp_path: Path, is_port: bool) -> None:
    place: int | Path = free_port() if is_port else tmp_path / "s"
    with running(place):
        idle, trickling = (connected(place, is_far=True) for _ in range(2))
        steady, other = (connected(place) for _ in range(2))
        for client in (idle, trickling, steady):
            client.sendall(SCAN)
        came = 0
        waiting = [connected(place) for _ in range(2)]
        for client in waiting:
            client.sendall(WHO)
        begin = time.monotonic()
        while came < ROWS * len(NOTE) or select.select(waiting, [], [], 0)[0] != waiting:
            assert time.monotonic() - begin < LIMIT
            came += len(steady.recv(30_000)) if came < ROWS * len(NOTE) else 0
            with suppress(ConnectionResetError):
                trickling.recv(1)
            asked = time.monotonic()
            other.sendall(WHO)
            assert other.recv(1000).startswith(b"HTTP/1.1 200 ")
            assert time.monotonic() - asked < 1
            time.sleep(0.04)
        for client in waiting:
            with client:
                assert client.recv(1000).startswith(b"HTTP/1.1 200 ")
        assert rest(idle) < ROWS * len(NOTE) / 2 and rest(trickling) < ROWS * len(NOTE) / 2
        steady.close()
        other.close()
