"""Clients that ask an edge for much and take nothing, from addresses of their own: 127.0.0.0/8 has 16 million."""

from __future__ import annotations

import socket
import ssl
from collections.abc import Iterator
from contextlib import ExitStack, contextmanager

from h2.config import H2Configuration
from h2.connection import H2Connection
from h2.settings import SettingCodes, Settings

IP_BIND_ADDRESS_NO_PORT = 24
STREAMS = 100
"""As many requests at a time as an attacker has on one connection by HTTP/2, unless the edge allows fewer."""


def address(number: int) -> str:
    """One of 65,536 addresses of the loopback interface, none of which is 127.0.0.1."""
    return f"127.1.{number >> 8}.{number & 255}"


def connected(port: int, source: str) -> socket.socket:
    """A connection from an address that receives as little as it can."""
    client = socket.socket()
    client.settimeout(10)
    client.setsockopt(socket.SOL_SOCKET, socket.SO_RCVBUF, 2_048)
    client.setsockopt(socket.IPPROTO_TCP, socket.TCP_MAXSEG, 536)
    client.setsockopt(socket.IPPROTO_IP, IP_BIND_ADDRESS_NO_PORT, 1)
    client.bind((source, 0))
    client.connect(("127.0.0.1", port))
    return client


def head(method: str, path: str, token: str = "", length: int = 0, more: str = "") -> bytes:
    """The head of a request, with other fields as lines."""
    authorization = f"Authorization: Bearer {token}\r\n" if token else ""
    return f"{method} {path} HTTP/1.1\r\nHost: x\r\n{authorization}Content-Length: {length}\r\n{more}\r\n".encode()


class Streams:
    """A connection by HTTP/2 over TLS, each of whose streams has a window of 0: no byte of a body may be sent to it."""

    def __init__(self, port: int, source: str) -> None:
        context = ssl.create_default_context()
        context.check_hostname, context.verify_mode = False, ssl.CERT_NONE
        context.set_alpn_protocols(["h2"])
        self.socket = context.wrap_socket(connected(port, source))
        self._connection = H2Connection(H2Configuration(client_side=True))
        self._connection.local_settings = Settings(True, {SettingCodes.INITIAL_WINDOW_SIZE: 0, SettingCodes.ENABLE_PUSH: 0})
        self._connection.initiate_connection()
        self._send()
        self._connection.receive_data(self.socket.recv(65_536))  # the edge's settings
        self._send()

    def ask(self, method: str, path: str, token: str, body: bytes) -> int:
        """As many requests as the edge allows at a time, up to `STREAMS`, and how many these are."""
        number: int = min(STREAMS, self._connection.remote_settings.max_concurrent_streams)
        fields = [(":method", method), (":path", path), (":scheme", "https"), (":authority", "x"), ("content-length", str(len(body)))]
        fields += [("authorization", f"Bearer {token}")] if token else []
        for _ in range(number):
            stream = self._connection.get_next_available_stream_id()
            self._connection.send_headers(stream, fields)
            self._connection.send_data(stream, body, end_stream=True)
        self._send()
        return number

    def _send(self) -> None:
        self.socket.sendall(self._connection.data_to_send())


@contextmanager
def streams(port: int, connections: int, method: str, path: str, token: str = "", body: bytes = b"") -> Iterator[int]:
    """Connections by HTTP/2, each from an address of its own, that ask and take nothing; and how many requests they are."""
    with ExitStack() as opened:
        asked = 0
        for number in range(connections):
            made = Streams(port, address(number))
            opened.callback(made.socket.close)
            asked += made.ask(method, path, token, body)
        yield asked


@contextmanager
def silent(port: int, requests: list[bytes], sources: list[str]) -> Iterator[list[socket.socket]]:
    """Connections that send a request each and receive nothing."""
    with ExitStack() as opened:
        clients = []
        for request, source in zip(requests, sources, strict=True):
            client = opened.enter_context(connected(port, source))
            client.sendall(request)
            clients.append(client)
        yield clients
