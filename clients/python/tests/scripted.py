"""A server that answers by a script: for what the real one does not do on demand."""

from __future__ import annotations

import json
import re
import socket
import ssl
import threading
from collections.abc import Callable, Iterator, Sequence
from contextlib import contextmanager, suppress
from typing import Any

OK = b'HTTP/1.1 200 OK\r\nContent-Type: application/json\r\nContent-Length: 11\r\n\r\n{"ok":true}'
_LENGTH = re.compile(rb"content-length: *([0-9]+)", re.IGNORECASE)


def reply(status: int, body: object, more: bytes = b"") -> bytes:
    """A whole reply."""
    data = body if isinstance(body, bytes) else json.dumps(body).encode()
    return b"HTTP/1.1 %d Said\r\n%sContent-Length: %d\r\n\r\n%s" % (status, more, len(data), data)


class Talk:
    """One connection, from the server's side."""

    def __init__(self, connection: socket.socket) -> None:
        self.connection = connection
        self._kept = b""

    def request(self) -> tuple[bytes, Any] | None:
        """The request line and the body of the next request; None where the client has closed."""
        while b"\r\n\r\n" not in self._kept:
            if not self._more():
                return None
        head, _, self._kept = self._kept.partition(b"\r\n\r\n")
        found = _LENGTH.search(head)
        length = int(found[1]) if found else 0
        while len(self._kept) < length:
            if not self._more():
                return None
        body, self._kept = self._kept[:length], self._kept[length:]
        return head.split(b"\r\n")[0], json.loads(body) if body else None

    def send(self, data: bytes) -> None:
        """Sends bytes."""
        self.connection.sendall(data)

    def _more(self) -> bool:
        data = self.connection.recv(65536)
        self._kept += data
        return bool(data)


Script = Callable[[Talk], None]


@contextmanager
def scripted(scripts: Sequence[Script], context: ssl.SSLContext | None = None) -> Iterator[str]:
    """The URL of a server that meets its connections by these scripts, one after another, and closes each behind its script."""
    done = threading.Event()
    with socket.create_server(("127.0.0.1", 0)) as listener:
        listener.settimeout(0.05)

        def serve() -> None:
            for script in scripts:
                while not done.is_set():
                    try:
                        connection, _ = listener.accept()
                    except TimeoutError:
                        continue
                    with connection, suppress(OSError):
                        connection.settimeout(20)
                        script(Talk(context.wrap_socket(connection, server_side=True) if context else connection))
                    break

        server = threading.Thread(target=serve, daemon=True)
        server.start()
        try:
            yield f"{'https' if context else 'http'}://127.0.0.1:{listener.getsockname()[1]}"
        finally:
            done.set()
            server.join(20)
