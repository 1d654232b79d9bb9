"""The edge by deploy/haproxy.cfg before the real server: slow clients hold no worker, and no secret is logged."""

from __future__ import annotations

import contextlib
import json
import re
import socket
import subprocess
import time
from collections.abc import Iterator, Sequence
from contextlib import ExitStack
from urllib.error import HTTPError
from urllib.request import urlopen

import pytest

from served import token
from stack import Stack


def half_sent(stack: Stack, head: str, sent: int, sources: Sequence[str] = ("127.0.0.1",)) -> Iterator[socket.socket]:
    """Clients at addresses without a valid token that send a head and so many bytes of a body, and stop."""
    request = f"POST /label HTTP/1.1\r\nHost: x\r\nAuthorization: Bearer x.{'0' * 64}\r\n{head}\r\n\r\n"
    clients = []
    for source in sources:
        client = socket.create_connection(("127.0.0.1", stack.edge), 10, (source, 0))
        client.sendall(request.encode())
        clients.append(client)
    time.sleep(0.3)  # so that the edge has the heads before any of the bodies
    chunk = f"{sent + 1:x}\r\n" if "chunked" in head else ""
    for client in clients:
        with contextlib.suppress(OSError):  # of a body that was refused by its length alone
            client.sendall(chunk.encode() + b" " * sent)
        yield client


@pytest.mark.parametrize(
    ("head", "sent"),
    [
        ("Content-Length: 60000", 20_000),
        ("Content-Length: 65536", 65_535),
        ("Content-Length: 1000000", 100_000),
        ("Transfer-Encoding: chunked", 0),
        ("Transfer-Encoding: chunked", 100_000),
    ],
)
def test_bodies_that_stop_hold_no_worker(stack: Stack, head: str, sent: int) -> None:
    with ExitStack() as clients:
        for client in half_sent(stack, head, sent, [f"127.0.1.{it // 32}" for it in range(128)]):  # twice the workers
            clients.enter_context(client)
        time.sleep(0.3)
        begin = time.monotonic()
        assert stack.ask("root", "GET", "/whoami", timeout=5)["user"] == "root"
        assert time.monotonic() - begin < 1


def test_body_of_the_greatest_size_passes(stack: Stack) -> None:
    body = {"label": "storms"}
    padded = json.dumps(body).ljust(65_536).encode()
    with socket.create_connection(("127.0.0.1", stack.edge), 10) as client:
        client.sendall(
            f"POST /label HTTP/1.1\r\nHost: x\r\nAuthorization: Bearer {token('root')}\r\n"
            f"X-Padding: {'x' * 7_000}\r\nContent-Length: {len(padded)}\r\n\r\n".encode() + padded
        )
        reply = client.recv(65_536)
    assert reply.startswith(b"HTTP/1.1 200 ")
    assert reply.endswith(b'{"normal":"storms"}')


def test_client_that_expects_a_100_gets_it(stack: Stack) -> None:
    body = b'{"label":"wind&wind"}'
    with socket.create_connection(("127.0.0.1", stack.edge), 10) as client:
        head = f"POST /label HTTP/1.1\r\nHost: x\r\nAuthorization: Bearer {token('root')}\r\nContent-Length: {len(body)}\r\n"
        client.sendall(f"{head}Expect: 100-continue\r\n\r\n".encode())
        assert client.recv(65_536) == b"HTTP/1.1 100 Continue\r\n\r\n"
        client.sendall(body)
        assert client.recv(65_536).endswith(b'\r\n\r\n{"normal":"wind"}')


def test_larger_body_is_refused_as_by_the_server(stack: Stack) -> None:
    for client in half_sent(stack, "Content-Length: 65537", 65_537):
        with client:
            reply = client.recv(65_536)
    assert reply.startswith(b"HTTP/1.1 413 ")
    assert reply.endswith(b'\r\n\r\n{"error":"size"}')


MEMBERS = ["time", "client", "user", "method", "path", "status", "bytes", "queue_ms", "server_ms", "total_ms", "ended", "retries"]
SECRET = token("root").partition(".")[2]
# Fields by which a client would be logged under no name, another's, or with members of its own; and who is logged.
AUTHORIZATIONS = [
    (f"Authorization: Bearer   {token('root')}", "root"),
    (f"authorization: bEARER root.{SECRET.upper()}  ", "root"),
    (f"Authorization: Bearer {token('eve')}", "eve"),
    (f"Authorization: Bearer {SECRET}", "-"),
    (f"Authorization: Bearer .{SECRET}", "-"),
    (f"Authorization: {SECRET}, Bearer eve.{SECRET}", "-"),
    (f"Authorization: Bearer eve.{SECRET}, Bearer {SECRET}", "-"),
    (f"Authorization: Bearer eve.{SECRET}, Bearer a\",\"status\":200,\"user\":\"ann.{SECRET}", "-"),
    (f"Authorization: Bearer eve.{SECRET}\r\nAuthorization: Bearer {SECRET}", "-"),
    (f"Authorization: {SECRET}\r\nAuthorization: Bearer eve.{SECRET}", "-"),
    (f"Authorization: Basic {token('root')}", "-"),
    (f"Authorization: Bearer \"quoted\".{SECRET}", "-"),
]


def test_log_can_be_neither_evaded_nor_forged(stack: Stack) -> None:
    path = '/tables/"a\\b",' + '"' * 6_000
    for field, _ in AUTHORIZATIONS:
        with socket.create_connection(("127.0.0.1", stack.edge), 10) as client:
            query = f"?token={token('root')}"
            client.sendall(f"GET {path}{query} HTTP/1.1\r\nHost: x\r\n{field}\r\nConnection: close\r\n\r\n".encode())
            client.recv(65_536)
    for port in (stack.edge, stack.tls):  # on which no request can be read
        with socket.create_connection(("127.0.0.1", port), 10) as client:
            client.sendall(b'"\\x01junk"\r\n\r\n')
            client.recv(65_536)
    stack.lines(2, {"-"})
    lines = stack.lines(len(AUTHORIZATIONS), {path[:4_096]})
    assert [line["user"] for line in lines] == [user for _, user in AUTHORIZATIONS]
    assert {(line["method"], line["path"], line["status"]) for line in lines} == {("GET", path[:4_096], 405)}
    text = stack.log.read_text()
    members = [json.loads(it, object_pairs_hook=lambda pairs: [name for name, _ in pairs]) for it in text.splitlines() if it[0] == "{"]
    assert members and all(it == MEMBERS for it in members)
    assert not re.search(r"[0-9a-fA-F]{64}", text)


def test_replies_are_kept_by_no_cache(stack: Stack) -> None:
    """Neither the server's nor the edge's own; those of the page may be."""
    head = f"Host: x\r\nAuthorization: Bearer {token('root')}\r\nConnection: close\r\n"
    large = "X: " + "x" * 8_200
    asked = [("GET /whoami", head, 200), ("GET /none", head, 404), ("GET /whoami", "Host: x\r\nConnection: close\r\n", 401)]
    asked += [("GET /whoami", f"{head}{large}\r\n", 431), ("GET /map/", head, 200)]
    for line, fields, status in asked:
        with socket.create_connection(("127.0.0.1", stack.edge), 10) as client, client.makefile("rb") as reply:
            client.sendall(f"{line} HTTP/1.1\r\n{fields}\r\n".encode())
            said = reply.read().lower().partition(b"\r\n\r\n")[0].split(b"\r\n")
        assert said[0].startswith(b"http/1.1 %d " % status)
        assert b"x-content-type-options: nosniff" in said
        assert (b"cache-control: no-store" in said) == ("/map/" not in line)


def test_requests_over_http_2(stack: Stack) -> None:
    """With a body of a length that is told, of one that is not, and of too many bytes, as curl sends them."""

    def ask(body: bytes, *words: str) -> str:
        url = f"https://127.0.0.1:{stack.tls}/label"
        curl = ["curl", "-s", "--insecure", "--http2", "-H", "@-", "-w", " %{http_version} %{http_code}", *words, url]
        file = stack.folder / "body"
        file.write_bytes(body)
        head = f"Authorization: Bearer {token('root')}".encode()
        return subprocess.run(curl, cwd=stack.folder, input=head, stdout=subprocess.PIPE, timeout=20).stdout.decode()

    assert ask(b'{"label":"wind&wind"}', "--data-binary", "@body") == '{"normal":"wind"} 2 200'
    assert ask(b'{"label":"wind"}', "-X", "POST", "-T", "body", "-H", "Content-Length:") == '{"error":"length"} 2 411'
    assert ask(bytes(70_000), "-X", "POST", "-T", "body", "-H", "Content-Length:") == '{"error":"length"} 2 411'
    assert ask(bytes(70_000), "--data-binary", "@body") == '{"error":"size"} 2 413'
    assert ask(b'{"label":"wind&wind"}'.ljust(65_536), "--data-binary", "@body") == '{"normal":"wind"} 2 200'


def test_numbers_for_prometheus(stack: Stack) -> None:
    with urlopen(f"http://127.0.0.1:{stack.metrics}/metrics", timeout=5) as reply:
        text = reply.read().decode()
    for name in ("haproxy_backend_current_queue", "haproxy_backend_response_time_average_seconds"):
        assert re.search(rf'^{name}{{proxy="served"}} [0-9.e+-]+$', text, re.M), name
    with pytest.raises(HTTPError) as refused:
        urlopen(f"http://127.0.0.1:{stack.metrics}/", timeout=5)
    refused.value.close()
    assert refused.value.code == 404
