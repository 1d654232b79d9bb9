"""The clients of real_clients.py: how each shows its version, and the words by which it puts.

The programs of bench/clients put by the libraries of Python, Node and Java, and by `wrk`.
"""
from __future__ import annotations

import sys
from collections.abc import Callable
from dataclasses import dataclass
from enum import StrEnum
from pathlib import Path

TOP = Path(__file__).resolve().parent.parent
sys.path.insert(0, str(TOP / "tests"))

from served import token  # noqa: E402

ASK = TOP / "bench/clients"


class Kind(StrEnum):
    """A way to ask."""

    KEPT = "kept"
    EXPECTED = "expected"
    CHUNKED = "chunked"
    TOGETHER = "together"


@dataclass(frozen=True)
class Put:
    """What a client is to ask: where, and the file with the body."""

    kind: Kind
    url: str
    file: str


@dataclass(frozen=True)
class Client:
    """A client: the words that show its version, and those by which it puts."""

    name: str
    about: list[str]
    words: Callable[[Put], list[str]]
    lacks: tuple[Kind, ...] = ()
    at_once: int = 1  # how many processes make the twenty puts
    connections: int = 1  # how many it opens for five puts
    keeps: bool = True  # whether it speaks HTTP/1.1, where a connection is kept
    waits: bool = False  # whether it waits for a 100, for a second at least
    more: bool = False  # whether it may put more often than it tells


def bearer() -> str:
    return f"Authorization: Bearer {token('root')}"


def curl(put: Put) -> list[str]:
    more = {
        Kind.KEPT: ["--data-binary", f"@{put.file}", *[put.url] * 5],
        Kind.EXPECTED: ["-H", "Expect: 100-continue", "--data-binary", f"@{put.file}", put.url],
        Kind.CHUNKED: ["-X", "POST", "-H", "Transfer-Encoding: chunked", "-H", "Expect:", "-T", put.file, put.url],
        Kind.TOGETHER: ["-Z", "--parallel-immediate", "--parallel-max", "20", "--data-binary", f"@{put.file}", *[put.url] * 20],
    }
    return ["curl", "-sSi", "-H", bearer(), *more[put.kind]]


def wget(put: Put) -> list[str]:
    expects = ["--header", "Expect: 100-continue"] if put.kind is Kind.EXPECTED else []
    urls = [put.url] * (5 if put.kind is Kind.KEPT else 1)
    return ["wget", "-S", "-O", "-", "--tries", "1", "--header", bearer(), *expects, "--post-file", put.file, *urls]


def asking(*program: str) -> Callable[[Put], list[str]]:
    """A program of bench/clients, which takes the kind, the URL, the token and the file."""
    return lambda put: [*program, put.kind, put.url, token("root"), put.file]


def ab(put: Put) -> list[str]:
    expects = ["-H", "Expect: 100-continue"] if put.kind is Kind.EXPECTED else []
    number, together = {Kind.KEPT: (5, 1), Kind.EXPECTED: (1, 1), Kind.TOGETHER: (20, 20)}[put.kind]
    return ["ab", "-v", "4", "-k", "-n", str(number), "-c", str(together), "-H", bearer(), *expects, "-p", put.file, put.url]


def wrk(put: Put) -> list[str]:
    number, together = {Kind.KEPT: (5, 1), Kind.TOGETHER: (20, 20)}.get(put.kind, (1, 1))
    words = ["wrk", "-t", "1", "-c", str(together), "-d", "1s", "-s", str(ASK / "ask.lua"), put.url]
    return [*words, "--", put.kind, token("root"), put.file, str(number)]


PYTHON = [sys.executable, str(ASK / "ask.py")]
# Node's `fetch` takes up its second request before it has given the first connection back, at any server. `wrk` makes a trial
# connection, on which it asks nothing, puts again on a 100, and has other puts on their way when it ends.
CLIENTS = [
    Client("curl", ["curl", "--version"], curl, waits=True),
    Client("wget", ["wget", "--version"], wget, (Kind.CHUNKED,), at_once=20),
    Client("Python `requests`", [*PYTHON, "requests"], asking(*PYTHON, "requests")),
    Client("Python `http.client`", [*PYTHON, "http.client"], asking(*PYTHON, "http.client"), waits=True),
    Client("Node `fetch`", ["node", "--version"], asking("node", str(ASK / "ask.mjs")), connections=2),
    Client("Java `HttpClient`", ["java", "--version"], asking("java", str(ASK / "Ask.java")), waits=True),
    Client("`ab`", ["ab", "-V"], ab, (Kind.CHUNKED,), keeps=False),
    Client("`wrk`", ["wrk", "-v"], wrk, connections=2, more=True),
]
