"""A store of its own for a test: a built program with `--store FILE`, and one connection to it."""
import io
import json
import os
import socket
import sqlite3
import subprocess
from collections.abc import Iterator
from contextlib import closing, contextmanager, suppress
from pathlib import Path
from typing import IO, Any

from served import PROGRAM as SERVED
from served import TOP, digest, free_port, token

RUN = Path(os.environ.get("ST_RUN", TOP / "crates/st_run/out/st_run"))
PROGRAMS = [RUN, SERVED]
BOX = [0, 2097151, 0, 2097151, 0, 19818086399]
AUTHS = ["A", "B"]
OTHER_NAMES = "store of other authorizations of root (their order counts)"

# Seconds that a run may take to end. What it does is done in a few hundredths; the rest is for a busy machine.
PATIENCE = 60


def request(method: str, path: str, body: object = None, user: str = "root") -> bytes:
    text = b"" if body is None else json.dumps(body).encode()
    head = f"{method} {path} HTTP/1.1\r\nHost: a\r\nAuthorization: Bearer {token(user)}\r\nContent-Length: {len(text)}\r\n\r\n"
    return head.encode() + text


class Ended(Exception):
    """The program ended before it answered."""


def answer(stream: IO[bytes] | io.BufferedRWPair) -> tuple[int, dict[str, object]]:
    """The status and the body of the next answer."""
    length = 0
    try:
        first = stream.readline()
    except ConnectionError:
        raise Ended from None
    while (line := stream.readline()) not in (b"\r\n", b""):
        name, _, value = line.decode().partition(":")
        if name.lower() == "content-length":
            length = int(value)
    body = stream.read(length)
    if not body or len(body) < length:
        raise Ended
    told = json.loads(body)
    assert isinstance(told, dict)
    return int(first.split()[1]), told


class Run:
    """A program that serves one connection."""

    def __init__(self, process: "subprocess.Popen[bytes]") -> None:
        assert process.stdin is not None and process.stdout is not None and process.stderr is not None
        self.process = process
        self.stdin: IO[bytes] = process.stdin
        self.stdout: IO[bytes] = process.stdout
        self.stderr: IO[bytes] = process.stderr

    def send(self, asked: bytes) -> None:
        try:
            self.stdin.write(asked)
            self.stdin.flush()
        except BrokenPipeError:
            raise Ended from None

    def ask(self, asked: bytes) -> tuple[int, dict[str, object]]:
        self.send(asked)
        return answer(self.stdout)

    def rows(self, limit: int = 100) -> dict[str, str]:
        """The notes of all rows by their ids, page after page."""
        rows: dict[str, str] = {}
        asked: dict[str, object] = {"auths": ["A"], "box": BOX, "limit": limit}
        while True:
            status, told = self.ask(request("POST", "/tables/points/scan", asked))
            page = told["rows"]
            assert status == 200 and isinstance(page, list)
            rows |= {row["id"]: row["note"] for row in page}
            if told["next"] is None:
                return rows
            asked["after"] = told["next"]

    def audit(self) -> list[dict[str, object]]:
        """The entries of the audit listing."""
        status, told = self.ask(request("GET", "/audit"))
        entries = told["entries"]
        assert status == 200 and isinstance(entries, list)
        return entries

    def end(self) -> tuple[int, bytes, bytes]:
        """Ends the input: the status, and the rest of both streams. What a program that has ended did not read is dropped."""
        with suppress(BrokenPipeError):
            self.stdin.close()
        rest, faults = self.stdout.read(), self.stderr.read()
        return self.process.wait(PATIENCE), rest, faults

    def kill(self) -> None:
        self.process.kill()
        self.process.wait(PATIENCE)

    def close(self) -> None:
        self.kill()
        for stream in (self.stdout, self.stderr, self.stdin):
            with suppress(BrokenPipeError):
                stream.close()


class ServedRun(Run):
    """A server for so many connections, and the first one, where the server comes to listen."""

    def __init__(self, process: "subprocess.Popen[bytes]", port: int, connections: int = 1) -> None:
        super().__init__(process)
        self.port, self.connections = port, connections
        self.told = self.stdout
        self.client: socket.socket | None = None
        if self.told.readline() == b"listening %d\n" % port:
            self.client = socket.create_connection(("127.0.0.1", port), PATIENCE)
            self.client.setsockopt(socket.IPPROTO_TCP, socket.TCP_NODELAY, 1)
            self.stdin, self.stdout = self.client.makefile("wb"), self.client.makefile("rb")

    def send(self, asked: bytes) -> None:
        if self.client is None:
            raise Ended
        try:
            super().send(asked)
        except ConnectionError:
            raise Ended from None

    def end(self) -> tuple[int, bytes, bytes]:
        rest = b""
        if self.client is not None:
            with suppress(OSError):
                self.client.shutdown(socket.SHUT_WR)
                rest = self.stdout.read()
        told, faults = self.told.read(), self.stderr.read()
        status = self.process.wait(PATIENCE)
        assert told == (b"served %d\n" % self.connections if status == 0 else b"")
        return status, rest, faults

    def close(self) -> None:
        self.kill()
        if self.client is not None:
            with suppress(OSError):
                self.stdin.close()
            self.stdout.close()
            self.client.close()
        self.told.close()
        self.stderr.close()
        if self.process.stdin is not None:
            self.process.stdin.close()


def run_of(program: Path, words: list[str], connections: int = 1, environment: dict[str, str] | None = None) -> Run:
    port, pipe = free_port(), subprocess.PIPE
    if program == SERVED:
        words = ["--port", str(port), "--connections", str(connections), "--workers", str(max(2, connections)), *words]
    process = subprocess.Popen([str(program), *words], env={**os.environ, **(environment or {})}, stdin=pipe, stdout=pipe, stderr=pipe)
    return ServedRun(process, port, connections) if program == SERVED else Run(process)


@contextmanager
def started(*words: str, program: Path = RUN, connections: int = 1, environment: dict[str, str] | None = None) -> Iterator[Run]:
    """A run with these arguments, and these names in its environment; `st_served` for so many connections. It is killed at the end of the
    context, if it has not ended."""
    run = run_of(program, list(words), connections, environment)
    try:
        yield run
    finally:
        run.close()


@contextmanager
def opened(file: Path, root: str = "root", auths: list[str] | None = None, program: Path = RUN) -> Iterator[Run]:
    """A run over the store in a file."""
    words = ["--root", digest(root), "--store", str(file), *(AUTHS if auths is None else auths)]
    with started(*words, program=program) as run:
        yield run


def fill(file: Path, count: int) -> None:
    """Puts further rows into a store that no process has open, until it has so many changes. SQLite writes them."""
    body, result = '{{"id":"r{}","label":"A","note":"note","point":[1,2,3]}}', '{"ok":true}'
    with closing(sqlite3.connect(file)) as base, base:
        first = base.execute("select count(*) from changes").fetchone()[0]
        rows = ((number, body.format(number), result) for number in range(first, 1 + count))
        base.executemany("insert into changes values (?, 0, 'root', 'put', 'points', ?, ?)", rows)


def asked(file: Path, query: str) -> list[tuple[Any, ...]]:
    """What SQLite itself answers. The connection is closed, since an open one holds the file."""
    with closing(sqlite3.connect(file)) as base, base:
        return base.execute(query).fetchall()
