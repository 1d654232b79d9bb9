"""Requests and answers of HTTP: the caller's token, the form that is wanted, refusals."""

from __future__ import annotations

import base64
import json
from collections.abc import Mapping, Sequence
from dataclasses import dataclass
from typing import TYPE_CHECKING, Any

from fashkiin.errors import (
    AuthorizationError,
    ConnectError,
    CutOffError,
    EdgeError,
    FashkiinError,
    InvalidNameError,
    NoTableError,
    OutOfMemoryError,
    PermissionDeniedError,
    RouteError,
    SettingsError,
    TokenError,
)
from fashkiin.features.accept import prefers
from fashkiin.features.documents import GEOJSON, HTML, JSON, OPENAPI, TITLE, Link, own_links
from fashkiin.features.page import POLICY, page
from fashkiin.features.query import ParameterError, read_parameters
from fashkiin.features.turns import BusyError
from fashkiin.tokens import Token

if TYPE_CHECKING:
    from wsgiref.types import WSGIEnvironment

METHODS = "GET, HEAD, OPTIONS"
CHALLENGES = ('Bearer realm="points"', 'Basic realm="points", charset="UTF-8"')
# What one caller sees is kept for nobody, and no other site shows it or learns from where a link was followed.
FIELDS = (
    ("Cache-Control", "no-store"),
    ("Vary", "Accept, Authorization"),
    ("X-Content-Type-Options", "nosniff"),
    ("X-Frame-Options", "DENY"),
    ("Referrer-Policy", "no-referrer"),
    ("Cross-Origin-Resource-Policy", "same-origin"),
    ("Content-Security-Policy", POLICY),
)


class NotThereError(FashkiinError):
    """A path, a collection or a feature that is not there."""


class MethodNotAllowedError(FashkiinError):
    """Another method than those of `METHODS`."""


@dataclass(frozen=True, slots=True)
class Asked:
    """The parameters that a document is asked for with, and whether as a page."""

    given: Mapping[str, str]
    html: bool

    def links(self, url: str, type: str) -> list[Link]:
        """The document's links to itself."""
        return own_links(url, self.given, type, self.html)


@dataclass(frozen=True, slots=True)
class Request:
    """What is asked: the segments of the path, the query, the fields Authorization and Accept."""

    segments: tuple[str, ...]
    query: str
    authorization: str
    accept: str

    @classmethod
    def read(cls, environ: WSGIEnvironment) -> Request:
        """The request of an environment; `NotThereError` where its path is no UTF-8."""
        try:
            path = str(environ.get("PATH_INFO", "")).encode("latin-1").decode().removeprefix("/")
        except UnicodeDecodeError:
            raise NotThereError("no such path") from None
        # A feature's id may have slashes.
        segments = tuple(path.split("/", 3)) if path else ()
        fields = (str(environ.get(f"HTTP_{name}", "")) for name in ("AUTHORIZATION", "ACCEPT"))
        return cls(segments, str(environ.get("QUERY_STRING", "")), *fields)

    def asked(self, known: tuple[str, ...], others: bool = False) -> Asked:
        """The parameters, by `read_parameters`. The parameter `f` counts before the field Accept."""
        given = read_parameters(self.query, known, others)
        return Asked(given, given["f"] == "html" if "f" in given else prefers_page(self.accept))

    def token(self) -> Token:
        """The caller's token, as a bearer's (RFC 6750), or as a user's name and its secret as password (RFC 7617), which is what
        QGIS and browsers can send; `SettingsError` where there is none."""
        scheme, _, credentials = self.authorization.partition(" ")
        match scheme.lower():
            case "bearer":
                return Token.parse(credentials)
            case "basic":
                return Token.parse(_joined(credentials))
            case _:
                raise SettingsError("no token, wanted the field Authorization: Bearer USER.SECRET, or user and secret by Basic")


def prefers_page(accept: str) -> bool:
    """Whether a page is wanted more than data."""
    return prefers(accept, HTML, (JSON, GEOJSON, OPENAPI.partition(";")[0]))


def _joined(credentials: str) -> str:
    """The text of the token whose user and secret are a user and a password."""
    try:
        user, _, secret = base64.b64decode(credentials, validate=True).decode().partition(":")
    except ValueError:
        raise SettingsError("no credentials, wanted a user and a secret in Base64") from None
    return f"{user}.{secret}"


@dataclass(frozen=True, slots=True)
class Answer:
    """An answer: its status, its header fields and its body."""

    status: str
    fields: list[tuple[str, str]]
    body: bytes


def answer(
    asked: Asked,
    type: str,
    value: Mapping[str, Any],
    title: str,
    trail: Sequence[tuple[str, str]],
    links: Sequence[Link] | None = None,
    fields: Sequence[tuple[str, str]] = (),
) -> Answer:
    """A document in the form that was asked for. The links of its page are its own where no others are given."""
    if asked.html:
        own = value["links"] if links is None else links
        return _answer("200 OK", f"{HTML}; charset=utf-8", page(title, value, own, trail), fields)
    return _answer("200 OK", type, _data(value), fields)


def options() -> Answer:
    """The answer to OPTIONS: which methods a path has."""
    return Answer("204 No Content", [("Allow", METHODS), *FIELDS], b"")


def _data(value: Mapping[str, Any]) -> str:
    return json.dumps(value, allow_nan=False, separators=(",", ":"))


def _answer(status: str, type: str, text: str, fields: Sequence[tuple[str, str]]) -> Answer:
    body = text.encode()
    return Answer(status, [("Content-Type", type), ("Content-Length", str(len(body))), *FIELDS, *fields], body)


def refused(error: FashkiinError, base: str, html: bool) -> Answer:
    """The exception that tells an error (OGC 17-069r4, 7.5.1)."""
    status, description, fields = _told(error)
    code = "InvalidParameterValue" if status.startswith("400") else status[4:].replace(" ", "")
    value = {"code": code, "description": description}
    if html:
        return _answer(status, f"{HTML}; charset=utf-8", page(status, value, (), [(TITLE, f"{base}/?f=html")]), fields)
    return _answer(status, JSON, _data(value), fields)


def _told(error: FashkiinError) -> tuple[str, str, list[tuple[str, str]]]:
    """The status, the description and further fields of an error. Where a server stands is told to nobody."""
    match error:
        case ParameterError():
            return "400 Bad Request", str(error), []
        case SettingsError() | TokenError():
            return "401 Unauthorized", str(error), [("WWW-Authenticate", challenge) for challenge in CHALLENGES]
        case PermissionDeniedError() | AuthorizationError():
            return "403 Forbidden", str(error), []
        case NotThereError():
            return "404 Not Found", str(error), []
        case NoTableError() | InvalidNameError() | RouteError():
            return "404 Not Found", "no such collection", []
        case MethodNotAllowedError():
            return "405 Method Not Allowed", f"wanted {METHODS}", [("Allow", METHODS)]
        case EdgeError(status=429) | BusyError():
            return "429 Too Many Requests", "too many requests at a time", [("Retry-After", "1")]
        case ConnectError() | CutOffError() | EdgeError() | OutOfMemoryError():
            return "503 Service Unavailable", "the server does not answer", [("Retry-After", "5")]
        case _:
            return "502 Bad Gateway", "the server answered what was not expected", []
