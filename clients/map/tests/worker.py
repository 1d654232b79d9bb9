"""A server in the place of st_served that answers as a test says: for what the real one does not do on demand."""

from __future__ import annotations

import re
import socket
import threading
from collections.abc import Callable, Iterator
from contextlib import contextmanager, suppress
from pathlib import Path
from typing import NamedTuple

LENGTH = re.compile(rb"\r\ncontent-length: *([0-9]+)", re.IGNORECASE)
CLOSES = re.compile(rb"\r\nconnection: *close\r\n", re.IGNORECASE)


class Asked(NamedTuple):
    """A request: its first line, the number of its connection, and whether it says that the connection is to end."""

    line: str
    connection: int
    closes: bool


Answer = Callable[[Asked], bytes | None]
"""The reply to a request; None ends the connection without one."""


def reply(status: int, body: str = "{}") -> bytes:
    """A whole reply."""
    return f"HTTP/1.1 {status} Said\r\nContent-Length: {len(body)}\r\n\r\n{body}".encode()


class Worker:
    """Takes connections at its port or Unix socket, answers their requests, and keeps all that it was asked, and each byte that came."""

    def __init__(self, answer: Answer, place: int | Path = 0) -> None:
        self.asked: list[Asked] = []
        self.bytes = bytearray()
        self.taken = 0
        """How many replies have been taken off it whole."""
        self._answer = answer
        self._lock = threading.Lock()
        self._listener = listener_at(place)
        self._connections: list[socket.socket] = []
        self.port = 0 if isinstance(place, Path) else int(self._listener.getsockname()[1])
        threading.Thread(target=self._accept, daemon=True).start()

    def close(self) -> None:
        """Ends the port and all connections."""
        for it in (self._listener, *self._connections):
            with suppress(OSError):  # it has ended
                it.shutdown(socket.SHUT_RDWR)
            it.close()

    def _accept(self) -> None:
        with suppress(OSError):  # closed
            while True:
                connection, _ = self._listener.accept()
                self._connections.append(connection)
                threading.Thread(target=self._serve, args=(connection, len(self._connections)), daemon=True).start()

    def _serve(self, connection: socket.socket, number: int) -> None:
        with connection, suppress(OSError):  # the edge has closed
            for head in requests(connection, self.bytes):
                asked = Asked(head.split(b"\r\n")[0].decode(), number, bool(CLOSES.search(head + b"\r\n")))
                self.asked.append(asked)
                said = self._answer(asked)
                if said is None:
                    return
                connection.sendall(said)
                with self._lock:
                    self.taken += 1
                if asked.closes:
                    return


def listener_at(place: int | Path) -> socket.socket:
    """A socket that listens at a port, a free one for 0, or at a path."""
    if isinstance(place, int):
        return socket.create_server(("127.0.0.1", place))
    listener = socket.socket(socket.AF_UNIX)
    listener.bind(str(place))
    listener.listen()
    return listener


def requests(connection: socket.socket, seen: bytearray) -> Iterator[bytes]:
    """The heads of the requests of a connection, once each body is read too. What comes is added to what was seen."""
    kept = b""
    while data := connection.recv(65_536):
        kept += data
        seen += data
        while b"\r\n\r\n" in kept:
            head, _, rest = kept.partition(b"\r\n\r\n")
            found = LENGTH.search(head)
            length = int(found[1]) if found else 0
            if len(rest) < length:
                break
            kept = rest[length:]
            yield head


@contextmanager
def working(answer: Answer, place: int | Path = 0) -> Iterator[Worker]:
    """A worker, at a free port where no place is given; it ends with the context."""
    worker = Worker(answer, place)
    try:
        yield worker
    finally:
        worker.close()
