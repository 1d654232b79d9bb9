"""What can go wrong: a refusal of the server, a connection that fails, a row that cannot be stored."""

from __future__ import annotations

from collections.abc import Mapping
from typing import Any


class FashkiinError(Exception):
    """Every error of this package."""


class SettingsError(FashkiinError):
    """A setting, a token file or an argument that cannot be used."""


class Plain(str):
    """A text that messages show without quotes."""

    __slots__ = ()

    def __repr__(self) -> str:
        return str(self)


class RowError(FashkiinError, ValueError):
    """A row that cannot be stored: its field, the value there, and what was wanted."""

    def __init__(self, field: str, value: object, wanted: str) -> None:
        super().__init__(field, value, wanted)
        self.field = field
        self.value = value
        self.wanted = wanted

    def __str__(self) -> str:
        return f"{self.field}: {shown(self.value)}, wanted {self.wanted}"


class MissingError(RowError):
    """A row without a field that it needs."""

    def __init__(self, field: str, wanted: str) -> None:
        super().__init__(field, None, wanted)
        self.args = (field, wanted)

    def __str__(self) -> str:
        return f"{self.field}: missing, wanted {self.wanted}"


class InputError(FashkiinError):
    """A file that cannot be read on."""


class StoppedError(FashkiinError):
    """A load stopped at a row that cannot be stored."""


class RelabelError(FashkiinError):
    """It is not clear which row is to stand under the new label. Nothing was changed."""


class ConnectError(FashkiinError):
    """No connection to the server could be made."""


class CutOffError(FashkiinError):
    """A connection ended, or took too long, before the whole reply was there.

    Whether a change took effect is not known.
    """


class ReplyError(FashkiinError):
    """A reply that is none of this server's: not HTTP/1.1, no JSON object, or without a field."""


class EdgeError(ReplyError):
    """A reply that a proxy before the server made up by itself, such as 503 Service Unavailable."""

    def __init__(self, status: int) -> None:
        super().__init__(status)
        self.status = status

    def __str__(self) -> str:
        return f"a proxy before the server answered {self.status}"


class RefusalError(FashkiinError):
    """The server refused a request: its status, and the reply's body."""

    meaning = "refused"

    def __init__(self, status: int, body: Mapping[str, Any]) -> None:
        super().__init__(status, dict(body))
        self.status = status
        self.body = dict(body)

    def __str__(self) -> str:
        details = ", ".join(f"{key} {shown(value)}" for key, value in self.body.items() if key != "error")
        return f"{self.meaning}: {details}" if details else self.meaning


class HeadError(RefusalError):
    """The head is no HTTP/1.1 head."""

    meaning = "the server could not read the request's head"


class HostError(RefusalError):
    """The head has no Host field, or two."""

    meaning = "the request has no Host field, or two"


class BodyError(RefusalError):
    """The body is no JSON object."""

    meaning = "the body is no JSON object"


class FieldError(RefusalError):
    """A field is missing, of another type or out of range."""

    meaning = "a field is missing, of another type or out of range"

    @property
    def field(self) -> str:
        """The field's name."""
        return str(self.body["field"])


class BoxError(RefusalError):
    """The box's bounds are in the wrong order."""

    meaning = "the box's bounds are in the wrong order"


class LabelError(RefusalError):
    """A text is no label."""

    meaning = "invalid label"

    @property
    def at(self) -> int:
        """The byte of the text that shows it, counted from 0."""
        return int(self.body["at"])


class InvalidNameError(RefusalError):
    """A name of a table, a user, a namespace or an authorization is invalid."""

    meaning = "an invalid name"

    @property
    def field(self) -> str:
        """`table`, `user`, `namespace` or `auths`."""
        return str(self.body["field"])


class TokenError(RefusalError):
    """There is no token, or its user is unknown or its secret wrong."""

    meaning = "the token was refused"


class PermissionDeniedError(RefusalError):
    """The asker lacks a permission."""

    meaning = "a permission is missing"

    @property
    def permission(self) -> str:
        """The permission."""
        return str(self.body["permission"])

    @property
    def table(self) -> str | None:
        """The table on which it is missing, if on a table."""
        return self.body.get("table")

    @property
    def namespace(self) -> str | None:
        """The namespace on which it is missing, if on a namespace."""
        return self.body.get("namespace")


class AuthorizationError(RefusalError):
    """The asker does not hold an authorization that the request names."""

    meaning = "an authorization that you do not hold"

    @property
    def authorization(self) -> str:
        """The authorization."""
        return str(self.body["authorization"])


class ConstraintError(RefusalError):
    """The table's constraint is on, and the writer could not see the row."""

    meaning = "the table takes no row that its writer could not see"

    @property
    def label(self) -> str:
        """The row's label."""
        return str(self.body["label"])


class DropSelfError(RefusalError):
    """You cannot drop yourself."""

    meaning = "you cannot drop yourself"


class RouteError(RefusalError):
    """The server has no such path."""

    meaning = "the server has no such path"


class NoTableError(RefusalError):
    """There is no such table."""

    meaning = "no such table"

    @property
    def table(self) -> str:
        """The table's name."""
        return str(self.body["table"])


class NoUserError(RefusalError):
    """There is no such user."""

    meaning = "no such user"

    @property
    def user(self) -> str:
        """The user's name."""
        return str(self.body["user"])


class MethodError(RefusalError):
    """The path has other methods."""

    meaning = "the path has other methods"


class TableExistsError(RefusalError):
    """A table of that name is there already."""

    meaning = "a table of that name is there already"

    @property
    def table(self) -> str:
        """The table's name."""
        return str(self.body["table"])


class UserExistsError(RefusalError):
    """A user of that name is there already."""

    meaning = "a user of that name is there already"

    @property
    def user(self) -> str:
        """The user's name."""
        return str(self.body["user"])


class LengthError(RefusalError):
    """The request has a Transfer-Encoding field."""

    meaning = "the request has a Transfer-Encoding field"


class SizeError(RefusalError):
    """The body is over 65,536 bytes."""

    meaning = "the body is over 65,536 bytes"


class HeadersError(RefusalError):
    """The head is over 8,192 bytes or 64 fields."""

    meaning = "the head is over 8,192 bytes or 64 fields"


class OutOfMemoryError(RefusalError):
    """The server is out of memory; nothing was changed."""

    meaning = "the server is out of memory; nothing was changed"


REFUSALS: Mapping[tuple[int, str], type[RefusalError]] = {
    (400, "head"): HeadError,
    (400, "host"): HostError,
    (400, "json"): BodyError,
    (400, "field"): FieldError,
    (400, "box"): BoxError,
    (400, "label"): LabelError,
    (400, "name"): InvalidNameError,
    (401, "token"): TokenError,
    (403, "permission"): PermissionDeniedError,
    (403, "authorization"): AuthorizationError,
    (403, "constraint"): ConstraintError,
    (403, "self"): DropSelfError,
    (404, "route"): RouteError,
    (404, "table"): NoTableError,
    (404, "user"): NoUserError,
    (405, "method"): MethodError,
    (409, "table-exists"): TableExistsError,
    (409, "user-exists"): UserExistsError,
    (411, "length"): LengthError,
    (413, "size"): SizeError,
    (431, "headers"): HeadersError,
    (503, "memory"): OutOfMemoryError,
}
"""The class of each refusal, by its status and its `error`."""


def refusal(status: int, body: Mapping[str, Any]) -> RefusalError:
    """The exception of a refusal; a `RefusalError` itself for one that this version does not know."""
    return REFUSALS.get((status, str(body.get("error"))), RefusalError)(status, body)


def shown(value: object) -> str:
    """A value in one short line of a message."""
    text = repr(value) if isinstance(value, str) else str(value)
    return text if len(text) <= 60 else text[:57] + "..."
