"""The WSGI application: its paths, and what stands at each."""

from __future__ import annotations

from collections.abc import Callable, Iterable, Iterator
from contextlib import contextmanager
from datetime import UTC, datetime
from functools import partial
from typing import TYPE_CHECKING
from urllib.parse import quote

from fashkiin.cells import time_text
from fashkiin.client import Client
from fashkiin.errors import FashkiinError, NoTableError, PermissionDeniedError
from fashkiin.features import documents, items
from fashkiin.features.answers import (
    Answer,
    MethodNotAllowedError,
    NotThereError,
    Request,
    answer,
    options,
    prefers_page,
    refused,
)
from fashkiin.features.definition import definition
from fashkiin.features.documents import GEOJSON, HTML, JSON, OPENAPI, TITLE, Link, link, links, with_parameters
from fashkiin.features.extent import Extent, find_extent
from fashkiin.features.query import (
    OF_DOCUMENTS,
    OF_FEATURE,
    OF_FEATURES,
    ParameterError,
    Query,
    read_crs,
    read_query,
    write_after,
)
from fashkiin.features.turns import Turns
from fashkiin.rows import Place, Row
from fashkiin.table import Table
from fashkiin.tokens import Token

if TYPE_CHECKING:
    from wsgiref.types import StartResponse, WSGIEnvironment

Found = tuple[list[Row], Place | None, int | None]
"""The rows of a page, the place of the next one, and how many rows match, where that is known."""


class Features:
    """The application. `connect` makes a client of a caller's token, which is closed after the request. `base` is the URL that
    callers reach the application at: links begin with it, whatever name a caller uses."""

    def __init__(self, connect: Callable[[Token], Client], base: str) -> None:
        self._connect = connect
        self._base = base.rstrip("/")
        self._turns = Turns()

    def __call__(self, environ: WSGIEnvironment, start_response: StartResponse) -> Iterable[bytes]:
        method = environ["REQUEST_METHOD"]
        try:
            told = self._answer(method, Request.read(environ))
        except FashkiinError as error:
            told = refused(error, self._base, prefers_page(environ.get("HTTP_ACCEPT", "")))
        start_response(told.status, told.fields)
        return [] if method == "HEAD" else [told.body]

    def _answer(self, method: str, request: Request) -> Answer:
        found = self._at(request.segments)
        match method:
            case "GET" | "HEAD":
                return found(request)
            case "OPTIONS":
                return options()
            case _:
                raise MethodNotAllowedError(method)

    def _at(self, segments: tuple[str, ...]) -> Callable[[Request], Answer]:
        """What stands at a path."""
        match segments:
            case ():
                return self._landing
            case ("api",):
                return self._definition
            case ("conformance",):
                return self._conformance
            case ("collections",):
                return self._collections
            case ("collections", table):
                return partial(self._collection, table)
            case ("collections", table, "items"):
                return partial(self._items, table)
            case ("collections", table, "items", name):
                return partial(self._item, table, name)
            case _:
                raise NotThereError("no such path")

    @contextmanager
    def _client(self, request: Request) -> Iterator[Client]:
        """A client of a request's token, in one of the token's turns."""
        token = request.token()
        with self._turns.turn(token), self._connect(token) as client:
            yield client

    def _landing(self, request: Request) -> Answer:
        asked = request.asked(OF_DOCUMENTS)
        value = documents.landing(self._base, asked.links(f"{self._base}/", JSON))
        return answer(asked, JSON, value, TITLE, [])

    def _definition(self, request: Request) -> Answer:
        asked = request.asked(OF_DOCUMENTS)
        own = asked.links(f"{self._base}/api", OPENAPI)
        return answer(asked, OPENAPI, definition(self._base), "API definition", self._trail(), own)

    def _conformance(self, request: Request) -> Answer:
        asked = request.asked(OF_DOCUMENTS)
        value = documents.conformance(asked.links(f"{self._base}/conformance", JSON))
        return answer(asked, JSON, value, "Conformance classes", self._trail())

    def _collections(self, request: Request) -> Answer:
        asked = request.asked(OF_DOCUMENTS)
        with self._client(request) as client:
            found = list(_readable(client))
        value = documents.collections(self._base, asked.links(f"{self._base}/collections", JSON), found)
        return answer(asked, JSON, value, "Collections", self._trail())

    def _collection(self, table: str, request: Request) -> Answer:
        asked = request.asked(OF_DOCUMENTS)
        with self._client(request) as client:
            extent = find_extent(client.table(table), client.whoami().auths)
        own = asked.links(self._base + documents.collection_path(table), JSON)
        value = documents.collection(self._base, table, extent, own)
        return answer(asked, JSON, value, table, self._trail("collections"))

    def _items(self, table: str, request: Request) -> Answer:
        asked = request.asked(OF_FEATURES, others=True)
        query = read_query(asked.given)
        with self._client(request) as client:
            rows, after, matched = _found(client.table(table), query)
        url = f"{self._base}{documents.collection_path(table)}/items"
        own = [*asked.links(url, GEOJSON), *self._to_collection(table)]
        if after is not None:
            next = with_parameters(url, {**asked.given, "after": write_after(after)})
            own.append(link("next", next, HTML if asked.html else GEOJSON, "The next page"))
        page = {
            "type": "FeatureCollection",
            "features": [items.feature(row, query.crs) for row in rows],
            "links": own,
            "timeStamp": time_text(datetime.now(UTC).replace(microsecond=0)),
            "numberReturned": len(rows),
        }
        value = page if matched is None else page | {"numberMatched": matched}
        return answer(asked, GEOJSON, value, f"Features of {table}", self._trail("collections", table), None, _crs(query.crs))

    def _item(self, table: str, name: str, request: Request) -> Answer:
        asked = request.asked(OF_FEATURE)
        crs = read_crs(asked.given, "crs")
        with self._client(request) as client:
            row = items.find(client.table(table), name)
        if row is None:
            raise NotThereError("no such feature")
        url = f"{self._base}{documents.collection_path(table)}/items/{quote(name, safe='')}"
        value = items.feature(row, crs) | {"links": [*asked.links(url, GEOJSON), *self._to_collection(table)]}
        return answer(asked, GEOJSON, value, name, self._trail("collections", table, "items"), None, _crs(crs))

    def _to_collection(self, table: str) -> list[Link]:
        return links("collection", self._base + documents.collection_path(table), JSON, f"The collection {table}")

    def _trail(self, *names: str) -> list[tuple[str, str]]:
        """The titles and URLs of the pages that lead to one: the landing page, and those of the segments of a path."""
        paths = ["/".join(quote(name, safe="") for name in names[: number + 1]) for number in range(len(names))]
        return [(title, f"{self._base}/{path}?f=html") for title, path in zip((TITLE, *names), ("", *paths), strict=True)]


def _readable(client: Client) -> Iterator[tuple[str, Extent | None]]:
    """The tables that the client may read, each with its extent. Who may read one is judged by the server."""
    auths = client.whoami().auths
    for info in client.tables:
        try:
            yield info.table, find_extent(client.table(info.table), auths)
        except (PermissionDeniedError, NoTableError):
            continue


def _found(table: Table, query: Query) -> Found:
    """A page of a query; `ParameterError` for a filter by what is certainly no property."""
    rows, after = items.named(table, query) or items.read(table, query)
    if query.filters and not rows and after is None and query.after is None:
        unknown = items.unknown_property(table, query)
        if unknown is not None:
            raise ParameterError(unknown, f"one of {', '.join(OF_FEATURES)}, or a property of the features")
    return rows, after, items.count(table, query, len(rows), after)


def _crs(crs: str) -> list[tuple[str, str]]:
    """The field that names the coordinate reference system of an answer (OGC 18-058r1)."""
    return [("Content-Crs", f"<{crs}>")]
