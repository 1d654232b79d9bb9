"""Puts by Python's `http.client` or by `requests`: `ask.py LIBRARY KIND URL TOKEN FILE`. See ../real_clients.py for the kinds.

`ask.py LIBRARY` shows its version.
"""
from __future__ import annotations

import platform
import select
import sys
import time
from collections.abc import Iterator
from concurrent.futures import ThreadPoolExecutor
from http.client import HTTPConnection
from importlib import import_module
from pathlib import Path
from urllib.parse import urlsplit

SIZE = 1_000  # bytes of a chunk


def pieces(body: bytes) -> Iterator[bytes]:
    """The body in pieces, so that its length is not known before."""
    return (body[at : at + SIZE] for at in range(0, len(body), SIZE))


def tell(status: int, text: str) -> None:
    sys.stdout.write(f"HTTP/1.1 {status}\n{text}\n")


class ByHand:
    """`http.client`, which has no expectations of its own: here a second is waited for the 100, as curl does."""

    def __init__(self, url: str, token: str, body: bytes) -> None:
        self.at = urlsplit(url)
        self.heads = {"Authorization": f"Bearer {token}"}
        self.body = body

    def connection(self) -> HTTPConnection:
        return HTTPConnection(self.at.hostname or "", self.at.port, timeout=15)

    def put(self, connection: HTTPConnection) -> None:
        connection.request("POST", self.at.path, self.body, self.heads)
        self.read(connection)

    def read(self, connection: HTTPConnection) -> None:
        reply = connection.getresponse()
        tell(reply.status, reply.read().decode())

    def kept(self) -> None:
        connection = self.connection()
        for _ in range(5):
            self.put(connection)

    def expected(self) -> None:
        connection = self.connection()
        connection.putrequest("POST", self.at.path)
        for name, value in {**self.heads, "Expect": "100-continue", "Content-Length": str(len(self.body))}.items():
            connection.putheader(name, value)
        connection.endheaders()
        if select.select([connection.sock], [], [], 1)[0]:
            tell(100, "")  # which `getresponse` passes over
        connection.send(self.body)
        self.read(connection)

    def chunked(self) -> None:
        connection = self.connection()
        connection.request("POST", self.at.path, pieces(self.body), self.heads)
        self.read(connection)

    def one(self) -> None:
        self.put(self.connection())


class ByRequests:
    """`requests`."""

    def __init__(self, url: str, token: str, body: bytes) -> None:
        self.requests = import_module("requests")
        self.url, self.body = url, body
        self.heads = {"Authorization": f"Bearer {token}"}
        self.session = self.requests.Session()

    def put(self, body: bytes | Iterator[bytes], heads: dict[str, str] | None = None) -> None:
        reply = self.session.post(self.url, data=body, headers={**self.heads, **(heads or {})}, timeout=15)
        tell(reply.status_code, reply.text)

    def kept(self) -> None:
        for _ in range(5):
            self.put(self.body)

    def expected(self) -> None:
        self.put(self.body, {"Expect": "100-continue"})

    def chunked(self) -> None:
        self.put(pieces(self.body))

    def one(self) -> None:
        ByRequests(self.url, self.heads["Authorization"].removeprefix("Bearer "), self.body).put(self.body)


def together(client: ByHand | ByRequests) -> None:
    with ThreadPoolExecutor(20) as pool:
        list(pool.map(lambda _: client.one(), range(20)))


def main() -> None:
    library, *words = sys.argv[1:]
    if not words:
        print(import_module("requests").__version__ if library == "requests" else platform.python_version())
        return
    kind, url, token, file = words
    body = Path(file).read_bytes()
    client: ByHand | ByRequests = ByRequests(url, token, body) if library == "requests" else ByHand(url, token, body)
    begin = time.monotonic()
    try:
        if kind == "together":
            together(client)
        else:
            getattr(client, kind)()
    except OSError as fault:  # that of `requests` is one too
        print(f"fault {type(fault).__name__}: {fault}")
    print(f"seconds {time.monotonic() - begin}")


main()
