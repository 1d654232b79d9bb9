"""A server of its own for a test: the built `st_served` at a free port of the loopback interface."""
import contextlib
import hashlib
import http.client
import itertools
import os
import pathlib
import random
import socket
import subprocess
from collections.abc import Callable, Iterator, Mapping
from contextlib import contextmanager
from dataclasses import dataclass

TOP = pathlib.Path(__file__).resolve().parent.parent
PROGRAM = pathlib.Path(os.environ.get("ST_SERVED", TOP / "crates/st_served/out/st_served"))
# Ports below those that Linux gives to clients. Processes that run beside each other begin at other ones, and go on in order.
FIRST_PORT = random.randrange(20_000, 32_000)
PORTS = itertools.cycle(list(range(FIRST_PORT, 32_000)) + list(range(20_000, FIRST_PORT)))


def token(user: str) -> str:
    """The token of a user whose secret is the SHA-256 of its name, as in docs/API.md."""
    return f"{user}.{hashlib.sha256(user.encode()).hexdigest()}"


def digest(user: str) -> str:
    """The digest of the same user."""
    return hashlib.sha256(hashlib.sha256(user.encode()).digest()).hexdigest()


def free_port() -> int:
    """A port that nobody listens at, each time another one."""
    for port in PORTS:
        with socket.socket() as probe, contextlib.suppress(OSError):
            probe.bind(("127.0.0.1", port))
            break
    return port


class SocketConnection(http.client.HTTPConnection):
    """A connection by HTTP to a Unix socket."""

    def __init__(self, path: pathlib.Path) -> None:
        super().__init__("localhost", timeout=10)
        self.path = path

    def connect(self) -> None:
        self.sock = socket.socket(socket.AF_UNIX)
        self.sock.settimeout(self.timeout)
        self.sock.connect(str(self.path))


@contextmanager
def listening(
    words: list[str], place: object, stderr: int | None = None, env: Mapping[str, str] | None = None,
    preexec_fn: Callable[[], object] | None = None,
) -> Iterator["subprocess.Popen[bytes]"]:
    """A server of this command line, once it says that it listens at the place; it is killed at the end of the context."""
    with subprocess.Popen(words, stdout=subprocess.PIPE, stderr=stderr, env=env, preexec_fn=preexec_fn) as process:
        assert process.stdout is not None
        try:
            assert process.stdout.readline() == f"listening {place}\n".encode()
            yield process
        finally:
            process.kill()


@dataclass(frozen=True)
class Server:
    """A running `st_served`: the port that it listens at, and its process."""

    port: int
    process: "subprocess.Popen[bytes]"


@contextmanager
def serving(
    *words: str, root: str = digest("root"), stderr: int | None = None, env: Mapping[str, str] | None = None
) -> Iterator[Server]:
    """The built `st_served` with these words, at a free port, for root with this digest; it is killed at the end of the context."""
    port = free_port()
    with listening([str(PROGRAM), "--root", root, "--port", str(port), *words], port, stderr, env) as process:
        yield Server(port, process)


@contextmanager
def served(*words: str) -> Iterator[int]:
    """The port of such a server."""
    with serving(*words) as server:
        yield server.port
