"""The client: requests over kept connections, and pipelines of puts."""

from __future__ import annotations

import threading
import time
from collections.abc import Callable, Iterable, Iterator, Mapping
from dataclasses import dataclass
from types import TracebackType
from typing import Any, TypeVar
from urllib.parse import quote

from fashkiin.accounts import Account, Change, Grants, Tables, Users, read_account, read_change
from fashkiin.errors import ConnectError, CutOffError, EdgeError, RefusalError, RowError
from fashkiin.pipeline import Part, Pipeline, Told, asking, pieces
from fashkiin.rows import Row, to_json
from fashkiin.table import Table
from fashkiin.tokens import Token
from fashkiin.wire import Address, Connection, Reply, member, tls

TRIES = 6
LARGEST_WINDOW = 256
Item = TypeVar("Item")


@dataclass(frozen=True, slots=True)
class Put:
    """What became of one row of `put_many`: `error` is None where it is stored."""

    row: Row
    error: RefusalError | RowError | None


def path(*segments: str) -> str:
    """A path of the API, its segments escaped."""
    return "".join("/" + quote(segment, safe="") for segment in segments)


class Client:
    """A server as one user sees it.

    `url` is `http://HOST:PORT` or `https://HOST:PORT`, with a prefix of the path if need be; `token` is a `Token` or its text.
    `timeout` is in seconds, for a connection and for each wait for a reply. `cafile` names the certificates that are trusted in
    place of the system's.

    Connections are kept: close the client, or use it as a context manager. Every method raises `ConnectError` where the server is
    not there, `CutOffError` where the connection ended before the reply, `ReplyError` where the reply is none of this server's,
    and the class of `RefusalError` that belongs to a refusal. A client may be shared by threads.
    """

    def __init__(self, url: str, token: Token | str, *, timeout: float = 30.0, cafile: str | None = None) -> None:
        self.address = Address.parse(url)
        self.token = Token.parse(token) if isinstance(token, str) else token
        self.timeout = timeout
        self._context = tls(cafile) if self.address.secure else None
        self._kept: list[Connection] = []
        self._lock = threading.Lock()

    def __enter__(self) -> Client:
        return self

    def __exit__(self, kind: type[BaseException] | None, error: BaseException | None, _: TracebackType | None) -> None:
        self.close()

    def close(self) -> None:
        """Closes the kept connections; the client may be used again."""
        with self._lock:
            kept, self._kept = self._kept, []
        for connection in kept:
            connection.close()

    def table(self, name: str) -> Table:
        """The table of a name, which may be of a namespace: `geo.trips`. Nothing is asked of the server yet."""
        return Table(self, name)

    @property
    def users(self) -> Users:
        """The users."""
        return Users(self)

    @property
    def tables(self) -> Tables:
        """The tables."""
        return Tables(self)

    @property
    def grants(self) -> Grants:
        """Who has been granted which permission."""
        return Grants(self)

    def whoami(self) -> Account:
        """One's own account."""
        return read_account(self.ask("GET", "/whoami"))

    def label(self, text: str) -> str:
        """The normal form of a label; `LabelError` where the text is none."""
        return str(member(self.ask("POST", "/label", {"label": text}, again=True), "normal", str))

    def audit(self) -> list[Change]:
        """The last 1,024 changes that were asked for, oldest first."""
        return [read_change(entry) for entry in member(self.ask("GET", "/audit"), "entries", list)]

    def ask(self, method: str, target: str, body: Mapping[str, Any] | None = None, *, again: bool = False) -> dict[str, Any]:
        """The JSON object that a request is answered by.

        A request that was cut off is sent again, once, where it is a GET or `again` says that a repeat does no harm.
        """
        data = b"" if body is None else to_json(body).encode()
        request = self.request(method, target, data)
        try:
            return self._exchange(request).value()
        except CutOffError:
            if not again and method != "GET":
                raise
            return self._exchange(request).value()

    def request(self, method: str, target: str, body: bytes) -> bytes:
        """The bytes of a request."""
        return self.requests(method, target)(body)

    def requests(self, method: str, target: str) -> Callable[[bytes], bytes]:
        """What makes the bytes of requests of their bodies, with the token that the client has now."""
        start = (
            f"{method} {self.address.prefix}{target} HTTP/1.1\r\nHost: {self.address.authority}\r\n"
            f"Authorization: Bearer {self.token.text}\r\nContent-Length: "
        ).encode()
        return lambda body: b"%b%d\r\n\r\n%b" % (start, len(body), body)

    def _exchange(self, request: bytes) -> Reply:
        connection = self._take()
        try:
            connection.send(request)
            reply = connection.receive()
        except BaseException:
            connection.close()
            raise
        self._give(connection, reply.keeps)
        return reply

    def _take(self) -> Connection:
        """A kept connection that still stands, or a new one."""
        while True:
            with self._lock:
                connection = self._kept.pop() if self._kept else None
            if connection is None:
                return Connection(self.address, self.timeout, self._context)
            if not connection.stale():
                return connection
            connection.close()

    def _give(self, connection: Connection, keeps: bool) -> None:
        if keeps:
            with self._lock:
                self._kept.append(connection)
        else:
            connection.close()

    def put_many(self, table: str, rows: Iterable[Row], window: int = 64) -> Iterator[Put]:
        """Puts rows over one connection, up to `window` of them on their way at a time (1 to 256), and tells in their order what
        became of each.

        Where the connection ends, the rows without an answer are sent again on a new one: a put is of the row's id and label, so
        a repeat changes nothing. After six tries without an answer the error is raised. A row on its way when the iterator
        is closed may be stored or not.
        """
        request = self.requests("POST", path("tables", table, "put"))
        for row, told in self.ask_many(rows, lambda row: request(row.body()), window):
            yield Put(row, told if isinstance(told, RefusalError | RowError) else None)

    def ask_many(
        self, items: Iterable[Item], request: Callable[[Item], bytes], window: int = 64
    ) -> Iterator[tuple[Item, Told]]:
        """Sends the requests that `request` makes of items over one connection, up to `window` of them on their way at a time (1
        to 256), and tells each answer in their order. Where it raises `RowError`, that is told in the answer's place.

        Where the connection ends, requests without an answer are sent again on a new one, so a repeat must do no harm. After six
        tries without an answer the error is raised. An error of `items` is raised behind the answers of the items before it.
        """
        if not 1 <= window <= LARGEST_WINDOW:
            raise ValueError(f"a window of {window}, wanted 1 to {LARGEST_WINDOW}")
        told: list[tuple[Item, Told]] = []
        parts = (asking(piece, request, told.append) for piece in pieces(items, max(1, window // 2)))
        for _ in self.ask_parts(parts, min(window, 2)):
            yield from told
            told.clear()

    def ask_parts(self, parts: Iterator[Part], ahead: int = 2) -> Iterator[None]:
        """`ask_many` by parts, up to `ahead` of them on their way at a time. Steps whenever answers have been told."""
        pipeline = Pipeline(self, parts, ahead)
        tries = 0
        while pipeline.unfinished():
            try:
                for _ in pipeline.run():
                    tries = 0
                    yield
            except (ConnectError, CutOffError, EdgeError):
                tries += 1
                if tries == TRIES:
                    raise
                time.sleep(0.05 * 2**tries)
        if pipeline.error is not None:
            raise pipeline.error
