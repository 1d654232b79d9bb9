"""Many clients of the built `st_served`, half of which stall in every way: the others do not notice; and what ends a client."""
from __future__ import annotations

import http.client
import json
import socket
import statistics
import threading
import time
from collections.abc import Callable
from concurrent.futures import ThreadPoolExecutor
from contextlib import ExitStack, suppress

import pytest

from served import served, token

HEAD = f"Host: a\r\nAuthorization: Bearer {token('root')}\r\n"
WHO = f"GET /whoami HTTP/1.1\r\n{HEAD}\r\n".encode()
COUNT = json.dumps({"auths": [], "box": [0, 2097151, 0, 2097151, 0, 19818086399]}).encode()
SCAN = json.dumps({"auths": [], "box": [0, 2097151, 0, 2097151, 0, 19818086399], "limit": 1000}).encode()


def posted(path: str, body: bytes) -> bytes:
    """A message with a body."""
    return f"POST {path} HTTP/1.1\r\n{HEAD}Content-Length: {len(body)}\r\n\r\n".encode() + body


def connected(port: int) -> socket.socket:
    """A connection whose bytes are sent at once."""
    client = socket.create_connection(("127.0.0.1", port), timeout=20)
    client.setsockopt(socket.IPPROTO_TCP, socket.TCP_NODELAY, 1)
    return client


def fill(port: int) -> None:
    """300 rows with long notes, so that a page of them is more than the buffers of a connection hold."""
    client = http.client.HTTPConnection("127.0.0.1", port, timeout=20)
    for number in range(300):
        row = {"id": f"r{number}", "label": "", "note": "x" * 4000, "point": [number, 0, 0]}
        client.request("POST", "/tables/points/put", json.dumps(row), {"Authorization": f"Bearer {token('root')}"})
        reply = client.getresponse()
        assert (reply.status, reply.read()[:1]) == (200, b"{")
    client.close()


def sends_nothing(client: socket.socket) -> None:
    """It has connected, and that is all."""


def sends_half_a_head(client: socket.socket) -> None:
    client.sendall(WHO[:40])


def sends_half_a_body(client: socket.socket) -> None:
    client.sendall(posted("/tables/points/count", COUNT)[:-20])


def never_reads(client: socket.socket) -> None:
    """It asks for more than its buffers hold, and reads none of it."""
    client.setblocking(False)
    with suppress(BlockingIOError):
        for _ in range(20):
            client.sendall(posted("/tables/points/scan", SCAN))
    client.settimeout(20)


WAYS: list[Callable[[socket.socket], None]] = [sends_nothing, sends_half_a_head, sends_half_a_body, never_reads]


class Trickle(threading.Thread):
    """Sends each of its clients a byte of a message a second, until it is stopped."""

    def __init__(self, clients: list[socket.socket]) -> None:
        super().__init__()
        self.stopped = threading.Event()
        self._clients = clients

    def run(self) -> None:
        for at in range(len(WHO)):
            for client in self._clients:
                client.sendall(WHO[at : at + 1])
            if self.stopped.wait(1):
                return


def asked_often(port: int, number: int) -> list[float]:
    """How long each of 20 answers on one connection took, in seconds; all are right."""
    client = http.client.HTTPConnection("127.0.0.1", port, timeout=20)
    client.connect()
    client.sock.setsockopt(socket.IPPROTO_TCP, socket.TCP_NODELAY, 1)
    took = []
    for _ in range(20):
        time.sleep(0.05)
        begin = time.monotonic()
        client.request("POST", "/tables/points/count", COUNT, {"Authorization": f"Bearer {token('root')}"})
        reply = client.getresponse()
        assert (reply.status, json.loads(reply.read())) == (200, {"count": 300})
        took.append(time.monotonic() - begin)
    client.close()
    return took


def test_half_of_200_clients_stall_in_every_way_and_the_others_are_answered() -> None:
    with served("--workers", "200") as port, ExitStack() as closing:
        fill(port)
        stalled = [closing.enter_context(connected(port)) for _ in range(100)]
        for at, client in enumerate(stalled[20:]):
            WAYS[at % len(WAYS)](client)
        trickle = Trickle(stalled[:20])
        trickle.start()
        with ThreadPoolExecutor(100) as pool:
            took = [it for one in pool.map(lambda at: asked_often(port, at), range(100)) for it in one]
        trickle.stopped.set()
        trickle.join()
    assert len(took) == 2_000
    assert statistics.median(took) < 0.1


def ends_after(client: socket.socket, since: float) -> float:
    """After how many seconds the server ends the connection; it sends nothing more, and no reset."""
    assert client.recv(65536) == b""
    return time.monotonic() - since


@pytest.mark.parametrize("message", [WHO, posted("/tables/points/count", COUNT)], ids=["head", "body"])
def test_client_that_sends_a_byte_within_each_limit_is_ended(message: bytes) -> None:
    """A message has the limit as a whole, from its first byte to its last."""
    ended = threading.Event()
    with served("--timeout", "1") as port, connected(port) as client:
        begin = time.monotonic()
        client.sendall(message[:-10])

        def go_on() -> None:
            for at in range(len(message) - 10, len(message)):
                if ended.wait(0.4):
                    return
                with suppress(OSError):
                    client.sendall(message[at : at + 1])

        sender = threading.Thread(target=go_on)
        sender.start()
        took = ends_after(client, begin)
        ended.set()
        sender.join()
    assert 0.9 < took < 2


def answered(client: socket.socket) -> None:
    """Asks a short question, and gets its answer whole."""
    client.sendall(WHO)
    assert client.recv(65536).startswith(b"HTTP/1.1 200 ")


def test_client_may_be_idle_longer_than_a_message_may_take() -> None:
    with served("--timeout", "1", "--idle", "3") as port, connected(port) as client:
        answered(client)
        time.sleep(2)
        answered(client)
        assert 2.5 < ends_after(client, time.monotonic()) < 4


def test_client_that_is_idle_for_too_long_is_ended() -> None:
    with served("--timeout", "10", "--idle", "1") as port, connected(port) as client:
        answered(client)
        assert 0.9 < ends_after(client, time.monotonic()) < 2
