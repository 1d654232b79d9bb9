"""One HTTP/1.1 connection, with replies read strictly: what is cut off is never taken for a reply."""

from __future__ import annotations

import json
import re
import select
import selectors
import socket
from collections.abc import Mapping
from dataclasses import dataclass
from functools import lru_cache
from typing import TYPE_CHECKING, Any, NamedTuple
from urllib.parse import urlsplit

from fashkiin.errors import ConnectError, CutOffError, EdgeError, ReplyError, SettingsError, refusal

if TYPE_CHECKING:
    import ssl

HEAD_BYTES = 65_536
BODY_BYTES = 1 << 28
LEAST_BYTES = len("HTTP/1.1 200\r\nContent-Length:0\r\n\r\n")
"""The fewest bytes of a reply."""

TOGETHER = 10
"""How long replies are waited for so that many of them are taken at once, in milliseconds."""

MISSES = 3
"""How many times in a row that may be in vain: then each reply is taken as it comes."""

PIECE = 1 << 16
LARGE_PIECE = 1 << 20
_STATUS = re.compile(rb"HTTP/1\.[01] ([2-5][0-9]{2})(?: [^\r\n]*)?\r\n\Z")
_FIELD = re.compile(rb"([!#$%&'*+.^_`|~0-9A-Za-z-]+):[ \t]*([^\r\n]*?)[ \t]*\r\n\Z")


@dataclass(frozen=True, slots=True)
class Address:
    """Where a server is, by its URL: `http://HOST:PORT/PREFIX` or `https://..`."""

    host: str
    port: int
    secure: bool
    prefix: str

    @classmethod
    def parse(cls, url: str) -> Address:
        """The address of a URL; `SettingsError` for another text."""
        try:
            parts = urlsplit(url)
            port = parts.port
        except ValueError:
            raise SettingsError(f"{url}: no URL, wanted http://HOST:PORT") from None
        if parts.scheme not in ("http", "https") or not parts.hostname or parts.query or parts.fragment:
            raise SettingsError(f"{url}: no URL of a server, wanted http://HOST:PORT or https://HOST:PORT")
        if parts.username is not None or parts.password is not None:
            raise SettingsError("a URL with a password in it, wanted a token file in its place")
        secure = parts.scheme == "https"
        prefix = parts.path.rstrip("/")
        if not re.fullmatch(r"[!-~]*", parts.hostname + prefix):
            raise SettingsError(f"{url}: no URL of a server, wanted ASCII without blanks")
        return cls(parts.hostname, port or (443 if secure else 80), secure, prefix)

    @property
    def authority(self) -> str:
        """Host and port, as they go into the Host field."""
        return f"[{self.host}]:{self.port}" if ":" in self.host else f"{self.host}:{self.port}"


class Reply(NamedTuple):
    """A whole reply: its status, its body, and whether the connection stays."""

    status: int
    body: bytes
    keeps: bool

    def value(self) -> dict[str, Any]:
        """The JSON object of a 200; `RefusalError` for a refusal, `EdgeError` for an answer of a proxy's own, `ReplyError` for
        anything else."""
        try:
            told = json.loads(self.body)
        except (ValueError, RecursionError):
            told = None
        if self.status == 200 and isinstance(told, dict):
            return told
        if self.status >= 400:
            if isinstance(told, dict) and isinstance(told.get("error"), str):
                raise refusal(self.status, told)
            raise EdgeError(self.status)
        raise ReplyError(f"status {self.status} without a JSON object: this is not the server's reply")


class Connection:
    """A connection to a server. After any error but a refusal it is of no use but to be closed."""

    def __init__(self, address: Address, timeout: float, context: ssl.SSLContext | None) -> None:
        self.address = address
        self._timeout = timeout
        try:
            plain = socket.create_connection((address.host, address.port), timeout)
            plain.setsockopt(socket.IPPROTO_TCP, socket.TCP_NODELAY, 1)
            self._socket = context.wrap_socket(plain, server_hostname=address.host) if context else plain
        except OSError as error:
            raise ConnectError(f"no connection to {address.authority}: {_reason(error)}") from None
        self._misses = 0
        self._poll = None if context else select.poll()
        if self._poll is not None:
            self._poll.register(self._socket, select.POLLIN)
        self._data = b""
        self._at = 0
        self._size = 0
        """The bytes of the reply that was taken last, if it stands whole in the data before `_at`."""

    def close(self) -> None:
        """Closes the connection."""
        self._socket.close()

    def stale(self) -> bool:
        """Whether the server has ended the connection meanwhile, or said what nobody asked for."""
        if self._at < len(self._data):
            return True
        with selectors.DefaultSelector() as selector:
            selector.register(self._socket, selectors.EVENT_READ)
            return bool(selector.select(0))

    def send(self, data: bytes) -> None:
        """Sends bytes; `CutOffError` where the connection has ended."""
        try:
            self._socket.sendall(data)
        except OSError as error:
            raise CutOffError(f"the connection ended while a request was sent: {_reason(error)}") from None

    def receive(self) -> Reply:
        """The next reply, whole; `CutOffError` where it is cut off or late, `ReplyError` where it is no reply."""
        while (reply := self.arrived()) is None:
            self._more(PIECE)
        return reply

    def arrived(self) -> Reply | None:
        """The next reply, if its head has come; the rest is waited for. Errors are those of `receive`."""
        end = self._data.find(b"\n\r\n", self._at)
        if end < 0 or end - self._at > HEAD_BYTES:
            if len(self._data) - self._at > HEAD_BYTES:
                raise ReplyError(f"a reply's head of over {HEAD_BYTES:,} bytes")
            return None
        status, length, keeps = _read_head(self._data[self._at : end + 1])
        start = end + 3
        self._size = start + length - self._at
        if len(self._data) < start + length:
            start = self._rest(start, length)
            self._size = 0
        self._at = start + length
        return Reply(status, self._data[start : self._at], keeps)

    def gather(self, replies: int) -> None:
        """Waits a moment for so many replies, unless some are there: to take each by itself costs system calls and waits. No more
        bytes are waited for than so many replies have at the least."""
        if self._poll is None or self._misses == MISSES or replies < 2 or self._at < len(self._data):
            return
        self._socket.setsockopt(socket.SOL_SOCKET, socket.SO_RCVLOWAT, replies * LEAST_BYTES)
        try:
            self._misses = 0 if self._poll.poll(TOGETHER) else self._misses + 1
        finally:
            self._socket.setsockopt(socket.SOL_SOCKET, socket.SO_RCVLOWAT, 1)

    def alike(self, most: int, wait: bool) -> tuple[Reply | None, int]:
        """The next reply, and how many times in a row the very same bytes have come, up to `most`; None where no head has come
        and it should not `wait`. Errors are those of `receive`."""
        reply = self.receive() if wait else self.arrived()
        times = 1
        if reply is not None and reply.keeps and self._size:
            whole = self._data[self._at - self._size : self._at]
            while times < most and self._data.startswith(whole, self._at):
                self._at += self._size
                times += 1
        return reply, times

    def _rest(self, start: int, length: int) -> int:
        """Waits for the whole body that begins at a place, and returns where it begins then."""
        pieces, there = [self._data[start:]], len(self._data) - start
        self._data, self._at = b"", 0
        while there < length:
            pieces.append(self._received(max(PIECE, min(length - there, LARGE_PIECE))))
            if not pieces[-1]:
                raise CutOffError(f"the reply was cut off after {there:,} of {length:,} bytes")
            there += len(pieces[-1])
        self._data = b"".join(pieces)
        return 0

    def _more(self, size: int) -> None:
        """Waits for bytes of a head."""
        piece = self._received(size)
        rest = self._data[self._at :]
        if not piece:
            raise CutOffError("the reply was cut off in its head" if rest else "the connection ended before a whole reply")
        self._data, self._at = rest + piece, 0

    def _received(self, size: int) -> bytes:
        try:
            return self._socket.recv(size)
        except TimeoutError:
            raise CutOffError(f"no whole reply within {self._timeout:g} seconds") from None
        except OSError as error:
            raise CutOffError(f"the reply was cut off: {_reason(error)}") from None


def tls(cafile: str | None) -> ssl.SSLContext:
    """What checks a server's certificate, by the certificates of a file or those of the system."""
    import ssl

    return ssl.create_default_context(cafile=cafile)


def member(told: Mapping[str, Any], key: str, kind: type) -> Any:
    """A member of a reply's object; `ReplyError` where it is not there or of another type."""
    value = told.get(key)
    if not isinstance(value, kind):
        raise ReplyError(f"a reply without {key!r}: this is not the server's")
    return value


@lru_cache(maxsize=64)
def _read_head(head: bytes) -> tuple[int, int, bool]:
    """The status of a head, the length of its body, and whether the connection stays; `ReplyError` for another head."""
    lines = head.splitlines(keepends=True) or [b""]
    status = _STATUS.match(lines[0])
    if status is None:
        raise ReplyError("this is not HTTP/1.1: no status line")
    length: int | None = None
    keeps = True
    for line in lines[1:]:
        found = _FIELD.match(line)
        if found is None:
            raise ReplyError("this is not HTTP/1.1: no header field")
        name, value = found[1].lower(), found[2]
        if name == b"content-length":
            length = _length(value, length)
        elif name == b"transfer-encoding":
            raise ReplyError("a reply with a Transfer-Encoding, which this server never sends")
        elif name == b"connection" and value.lower() == b"close":
            keeps = False
    if length is None:
        raise ReplyError("a reply without a Content-Length")
    return int(status[1]), length, keeps


def _length(value: bytes, before: int | None) -> int:
    if before is not None or not re.fullmatch(rb"[0-9]{1,9}", value) or int(value) > BODY_BYTES:
        raise ReplyError("a reply with a bad Content-Length")
    return int(value)


def _reason(error: OSError) -> str:
    return error.strerror or str(error) or type(error).__name__
