"""A server, its edge and the page's nginx, started by the files of deploy/ on free ports of the loopback interface."""

from __future__ import annotations

import json
import os
import re
import socket
import subprocess
import time
from collections.abc import Collection, Iterator
from contextlib import ExitStack, contextmanager
from http.client import HTTPConnection
from pathlib import Path
from typing import Any, NamedTuple
from urllib.request import Request, urlopen

from served import TOP, free_port, serving, token

ROOT_AUTHS = ["storms", "flight", "wind"]


def until_open(place: int | Path, process: subprocess.Popen[bytes]) -> None:
    """Waits until a port or a Unix socket takes connections; fails where its process ends before."""
    end = time.monotonic() + 10
    while time.monotonic() < end:
        if process.poll() is not None:
            raise RuntimeError(f"{process.args!r} ended with {process.returncode}")
        with socket.socket(socket.AF_UNIX if isinstance(place, Path) else socket.AF_INET) as probe:
            probe.settimeout(1)
            try:
                probe.connect(str(place) if isinstance(place, Path) else ("127.0.0.1", place))
                return
            except OSError:
                time.sleep(0.05)
    raise TimeoutError(f"nothing listens at {place}")


@contextmanager
def running(folder: Path, name: str, *words: object, **variables: object) -> Iterator[subprocess.Popen[bytes]]:
    """A program with variables of the environment, and its output in a file of its name in the folder."""
    environment = os.environ | {variable: str(value) for variable, value in variables.items()}
    with open(folder / f"{name}.log", "wb") as log:
        process = subprocess.Popen([name, *map(str, words)], stdin=subprocess.DEVNULL, stdout=log, stderr=log, env=environment)
    try:
        yield process
    finally:
        process.terminate()
        process.wait(10)


class Edge(NamedTuple):
    """The ports of an edge: for clients, for clients with TLS where it has a certificate, and for numbers; HAProxy's process."""

    port: int
    tls: int
    metrics: int
    haproxy: int

    def ask(self, method: str, path: str) -> int:
        """The status of a client's request."""
        return status_at(self.port, method, path)

    def is_up(self) -> bool:
        """Whether the port of numbers tells that the server answers."""
        status = status_at(self.metrics, "GET", "/up")
        assert status in (200, 503)
        return status == 200


def status_at(port: int, method: str, path: str) -> int:
    """The status of a request on a connection of its own."""
    client = HTTPConnection("127.0.0.1", port, timeout=20)
    try:
        client.request(method, path, "{}" if method == "POST" else None)
        return client.getresponse().status
    finally:
        client.close()


@contextmanager
def edge_before(
    folder: Path, server: int | None, changes: dict[str, str] | None = None, tls: bool = False, **others: object
) -> Iterator[Edge]:
    """HAProxy and nginx by the files of deploy/, with parts of haproxy.cfg changed, and their sockets in the folder.

    The server is at a port, or where HAProxy looks for it by itself. Others are variables for HAProxy.
    """
    port, https, metrics = free_port(), free_port(), free_port()
    for name in ("edge", "nginx", "features"):
        (folder / name).mkdir()
    page = folder / "nginx.conf"
    page.write_text((TOP / "deploy/nginx.conf").read_text().replace("/run/fashkiin", str(folder)))
    text = (TOP / "deploy/haproxy.cfg").read_text()
    for old, new in (changes or {}).items():
        assert re.search(old, text)
        text = re.sub(old, new, text)
    file = folder / "haproxy.cfg"
    file.write_text(text)
    variables: dict[str, object] = {
        "FASHKIIN_RUN": folder, "FASHKIIN_USER": "",
        "FASHKIIN_HTTP": f"127.0.0.1:{port}", "FASHKIIN_METRICS": f"127.0.0.1:{metrics}",
    }
    if server is not None:
        variables["FASHKIIN_SERVER"] = f"127.0.0.1:{server}"
    if tls:
        variables |= {"FASHKIIN_HTTPS": f"127.0.0.1:{https}", "FASHKIIN_CERTIFICATE": certificate(folder)}
    user = "user root;" if os.geteuid() == 0 else ""  # whose folders nginx's own user may not read
    words = ["-p", TOP / "clients/map", "-c", page, "-e", "stderr", "-g", f"daemon off; {user}"]
    with running(folder, "nginx", *words) as nginx, running(folder, "haproxy", "-f", file, **variables | others) as haproxy:
        until_open(folder / "nginx/page", nginx)
        until_open(port, haproxy)
        yield Edge(port, https, metrics, haproxy.pid)


def certificate(folder: Path) -> Path:
    """A new certificate with its key in a file of the folder."""
    file = folder / "edge.pem"
    words = ["openssl", "req", "-x509", "-newkey", "rsa:2048", "-nodes", "-days", "1", "-subj", "/CN=localhost"]
    subprocess.run([*words, "-keyout", file, "-out", folder / "certificate"], check=True, stderr=subprocess.DEVNULL)
    with file.open("a") as pem:
        pem.write((folder / "certificate").read_text())
    return file


class Stack:
    """st_served, HAProxy and nginx; `url` is the edge, `log` the file of HAProxy's log, `server` the process of st_served."""

    def __init__(self, folder: Path) -> None:
        self.folder = folder
        self.log = folder / "haproxy.log"
        self._open = ExitStack()

    def __enter__(self) -> Stack:
        with ExitStack() as opening:
            server = opening.enter_context(serving(*ROOT_AUTHS))
            self.served, self.server = server.port, server.process
            self.edge, self.tls, self.metrics, self.haproxy = opening.enter_context(edge_before(self.folder, self.served, tls=True))
            self.url = f"http://127.0.0.1:{self.edge}"
            self._open = opening.pop_all()
        return self

    def __exit__(self, *_: object) -> None:
        self._open.close()

    def ask(self, user: str, method: str, path: str, body: object = None, timeout: float = 10) -> Any:
        """One request through the edge, on a connection of its own."""
        data = None if body is None else json.dumps(body).encode()
        request = Request(self.url + path, data, {"Authorization": f"Bearer {token(user)}"}, method=method)
        with urlopen(request, timeout=timeout) as reply:
            return json.load(reply)

    def lines(self, wait_for: int = 0, paths: Collection[str] = ()) -> list[dict[str, Any]]:
        """The lines of the edge's log, of these paths alone if some are given, after waiting until there are so many. A line is
        written when its connection has ended, so that of an earlier test may come late."""
        end = time.monotonic() + 5
        while True:
            lines = [json.loads(it) for it in self.log.read_text().splitlines() if it.startswith("{")]
            lines = [line for line in lines if not paths or line["path"] in paths]
            if len(lines) >= wait_for or time.monotonic() > end:
                return lines
            time.sleep(0.05)
