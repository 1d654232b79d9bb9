"""Users, tables, grants and the audit listing."""

from __future__ import annotations

from collections.abc import Iterator, Mapping, Sequence
from dataclasses import dataclass
from typing import TYPE_CHECKING, Any
from urllib.parse import quote

from fashkiin.errors import ReplyError
from fashkiin.tokens import Token
from fashkiin.wire import member

if TYPE_CHECKING:
    from fashkiin.client import Client


@dataclass(frozen=True, slots=True)
class Account:
    """A user: its authorizations, and its permissions on the system."""

    user: str
    auths: tuple[str, ...]
    permissions: tuple[str, ...]


@dataclass(frozen=True, slots=True)
class TableInfo:
    """A table: its name, whether its constraint is on, and its period, `day` or `week`."""

    table: str
    constraint: bool
    period: str


@dataclass(frozen=True, slots=True)
class Grant:
    """The permissions that a user has been granted on a table or a namespace."""

    user: str
    permissions: tuple[str, ...]


@dataclass(frozen=True, slots=True)
class Change:
    """An entry of the audit listing: `result` is 0, or the number of the refusal."""

    user: str
    request: str
    target: str
    result: int


def read_account(told: Mapping[str, Any]) -> Account:
    """The account of a reply."""
    try:
        return Account(told["user"], tuple(told["auths"]), tuple(told["permissions"]))
    except (KeyError, TypeError):
        raise ReplyError("the server told an account without its fields") from None


def read_change(told: Mapping[str, Any]) -> Change:
    """The entry of a reply."""
    try:
        return Change(told["user"], told["request"], told["target"], int(told["result"]))
    except (KeyError, TypeError, ValueError):
        raise ReplyError("the server told an entry without its fields") from None


def read_table(told: Mapping[str, Any]) -> TableInfo:
    """The table of a reply."""
    try:
        return TableInfo(told["table"], told["constraint"], told["period"])
    except (KeyError, TypeError):
        raise ReplyError("the server told a table without its fields") from None


def read_grant(told: Mapping[str, Any]) -> Grant:
    """The grant of a reply."""
    try:
        return Grant(told["user"], tuple(told["permissions"]))
    except (KeyError, TypeError):
        raise ReplyError("the server told a grant without its fields") from None


class Users:
    """The users of a server: iterate for their names."""

    def __init__(self, client: Client) -> None:
        self._client = client

    def __iter__(self) -> Iterator[str]:
        return iter(member(self._client.ask("GET", "/users"), "users", list))

    def get(self, user: str) -> Account:
        """An account."""
        return read_account(self._client.ask("GET", f"/users/{quote(user, safe='')}"))

    def create(self, user: str, digest: str, auths: Sequence[str] = ()) -> None:
        """Makes a user without permissions; `digest` is that of its token."""
        self._client.ask("POST", "/users", {"user": user, "digest": digest, "auths": list(auths)})

    def drop(self, user: str) -> None:
        """Drops a user and all grants to it."""
        self._client.ask("DELETE", f"/users/{quote(user, safe='')}")

    def set_digest(self, user: str, digest: str) -> None:
        """Has the user's token be the one of a digest from now on."""
        self._client.ask("POST", f"/users/{quote(user, safe='')}/token", {"digest": digest})

    def set_auths(self, user: str, auths: Sequence[str]) -> None:
        """Has the user hold these authorizations alone."""
        self._client.ask("POST", f"/users/{quote(user, safe='')}/auths", {"auths": list(auths)})

    def rotate(self, token: Token) -> None:
        """Has this client's own user hold another token from now on, and this client use it."""
        self.set_digest(token.user, token.digest)
        self._client.token = token


class Tables:
    """The tables of a server: iterate for them."""

    def __init__(self, client: Client) -> None:
        self._client = client

    def __iter__(self) -> Iterator[TableInfo]:
        for told in member(self._client.ask("GET", "/tables"), "tables", list):
            yield read_table(told)

    def create(self, table: str, period: str | None = None) -> None:
        """Makes a table, whose period is `day` or `week`, a week where it is None."""
        self._client.ask("POST", "/tables", {"table": table, "period": period})

    def drop(self, table: str) -> None:
        """Drops a table, its rows and the grants on it."""
        self._client.ask("DELETE", f"/tables/{quote(table, safe='')}")

    def set_constraint(self, table: str, on: bool) -> None:
        """Turns the constraint of a table on or off: with it, the table takes no row that its writer could not see."""
        self._client.ask("POST", f"/tables/{quote(table, safe='')}/constraint", {"on": on})

    def set_period(self, table: str, period: str) -> None:
        """Sorts the rows of a table anew by days or weeks."""
        self._client.ask("POST", f"/tables/{quote(table, safe='')}/period", {"period": period})


class Grants:
    """Who has been granted which permission. A method needs a table, or a namespace, or for `grant` and `revoke` neither, which
    stands for the system."""

    def __init__(self, client: Client) -> None:
        self._client = client

    def list(self, *, table: str | None = None, namespace: str | None = None) -> list[Grant]:
        """The grants on a table itself, or on a namespace."""
        told = self._client.ask("GET", f"{_place(table, namespace)}/grants")
        return [read_grant(grant) for grant in member(told, "grants", list)]

    def grant(self, user: str, permission: str, *, table: str | None = None, namespace: str | None = None) -> None:
        """Grants a permission; nothing happens where it is held."""
        self._change("grant", user, permission, table, namespace)

    def revoke(self, user: str, permission: str, *, table: str | None = None, namespace: str | None = None) -> None:
        """Revokes a permission; nothing happens where it is not held."""
        self._change("revoke", user, permission, table, namespace)

    def _change(self, what: str, user: str, permission: str, table: str | None, namespace: str | None) -> None:
        if table is None and namespace is None:
            self._client.ask("POST", f"/users/{quote(user, safe='')}/{what}", {"permission": permission})
        else:
            self._client.ask("POST", f"{_place(table, namespace)}/{what}", {"user": user, "permission": permission})


def _place(table: str | None, namespace: str | None) -> str:
    """The path of a table or a namespace; `ValueError` where both or neither are named."""
    if (table is None) == (namespace is None):
        raise ValueError("wanted a table or a namespace")
    return f"/tables/{quote(table, safe='')}" if table is not None else f"/namespaces/{quote(str(namespace), safe='')}"
