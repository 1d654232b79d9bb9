"""What is exported, as the asker sees it."""

from __future__ import annotations

from collections.abc import Iterator, Sequence
from dataclasses import dataclass

from fashkiin.accounts import Account, TableInfo
from fashkiin.client import Client
from fashkiin.errors import FashkiinError
from fashkiin.rows import Row

READ, WRITE = "READ", "WRITE"


class ExportError(FashkiinError):
    """What the other database cannot hold."""


@dataclass(frozen=True, slots=True)
class Grantee:
    """A user and the permissions that it was granted, in the server's order."""

    user: str
    permissions: tuple[str, ...]


@dataclass(frozen=True, slots=True)
class TableExport:
    """A table, the grants on it, and those on its namespace."""

    info: TableInfo
    grants: tuple[Grantee, ...]
    namespace_grants: tuple[Grantee, ...]

    @property
    def name(self) -> str:
        """The whole name."""
        return self.info.table

    @property
    def namespace(self) -> str | None:
        """The namespace, if it has one."""
        namespace, dot, _ = self.name.partition(".")
        return namespace if dot else None

    def holders(self, permission: str) -> list[str]:
        """The users that hold a permission on the table, by a grant on it or on its namespace."""
        grants = (*self.grants, *self.namespace_grants)
        return sorted({grant.user for grant in grants if permission in grant.permissions})


@dataclass(frozen=True, slots=True)
class Export:
    """The users and the tables, and the authorizations by which rows are read: all that the asker holds."""

    client: Client
    users: tuple[Account, ...]
    tables: tuple[TableExport, ...]
    own: tuple[str, ...]

    @property
    def auths(self) -> list[str]:
        """The authorizations that any user holds."""
        return sorted({name for user in self.users for name in user.auths})

    @property
    def missing(self) -> list[str]:
        """The authorizations that some user holds and the asker does not: rows whose labels need them are not exported."""
        return [name for name in self.auths if name not in self.own]

    def rows(self, table: TableExport) -> Iterator[Row]:
        """The rows of a table that the asker sees."""
        return self.client.table(table.name).scan(auths=self.own)


def gather(client: Client, names: Sequence[str] | None = None) -> Export:
    """The users and these tables, or all of them; `ExportError` where one is not there."""
    infos = {info.table: info for info in client.tables}
    chosen = list(infos) if names is None else list(dict.fromkeys(names))
    for name in chosen:
        if name not in infos:
            raise ExportError(f"{name}: there is no such table")
    users = tuple(client.users.get(user) for user in client.users)
    return Export(client, users, tuple(_table(client, infos[name]) for name in chosen), client.whoami().auths)


def _table(client: Client, info: TableInfo) -> TableExport:
    namespace, dot, _ = info.table.partition(".")
    return TableExport(
        info=info,
        grants=tuple(Grantee(grant.user, grant.permissions) for grant in client.grants.list(table=info.table)),
        namespace_grants=tuple(
            Grantee(grant.user, grant.permissions) for grant in (client.grants.list(namespace=namespace) if dot else ())
        ),
    )
