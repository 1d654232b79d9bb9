"""`fashkiin grant` and `revoke`, and where a user has been granted what."""

from __future__ import annotations

import argparse
import contextlib
from collections.abc import Iterator
from dataclasses import dataclass

from fashkiin.client import Client
from fashkiin.commands import DONE, REJECTED, Command, Session
from fashkiin.commands.actions import WANTED, allowed, run_action

ON_TABLES = ("READ", "WRITE", "ALTER_TABLE", "GRANT", "DROP_TABLE")
ON_THE_SYSTEM = ("CREATE_TABLE", "DROP_TABLE", "ALTER_TABLE", "CREATE_USER", "DROP_USER", "ALTER_USER", "GRANT", "SYSTEM")


@dataclass(frozen=True, slots=True)
class Granted:
    """What a user has been granted on a table itself, or on a namespace."""

    table: str | None
    namespace: str | None
    permissions: tuple[str, ...]

    def __str__(self) -> str:
        return f"{' '.join(self.permissions)} on {self.table or f'the namespace {self.namespace}'}"


def grants_of(client: Client, user: str) -> list[Granted]:
    """The grants to a user on the tables, and on the namespaces that have tables."""
    tables = [info.table for info in client.tables]
    spaces = sorted({name for name in map(namespace_of, tables) if name is not None})
    found = [Granted(name, None, _permissions(client, user, table=name)) for name in tables]
    found += [Granted(None, name, _permissions(client, user, namespace=name)) for name in spaces]
    return [granted for granted in found if granted.permissions]


def namespace_of(table: str) -> str | None:
    """The namespace of a table, if it has one."""
    namespace, dot, _ = table.partition(".")
    return namespace if dot else None


def _permissions(client: Client, user: str, table: str | None = None, namespace: str | None = None) -> tuple[str, ...]:
    """What a user has been granted on a table itself or on a namespace, or else holds on the system."""
    if table is None and namespace is None:
        return client.users.get(user).permissions
    grants = client.grants.list(table=table, namespace=namespace)
    return next((grant.permissions for grant in grants if grant.user == user), ())


def _grant(session: Session, client: Client, words: argparse.Namespace) -> None:
    with _allowed(words):
        client.grants.grant(words.user, words.permission.upper(), table=words.table, namespace=words.namespace)


def _revoke(session: Session, client: Client, words: argparse.Namespace) -> int:
    permission = words.permission.upper()
    with _allowed(words):
        held = permission in _permissions(client, words.user, words.table, words.namespace)
        client.grants.revoke(words.user, permission, table=words.table, namespace=words.namespace)
    status = DONE
    if not held:
        session.say(f"fashkiin: {words.user} has not been granted {permission} {_place(words)}, so nothing is changed")
        status = REJECTED
    for other in _elsewhere(client, words, permission):
        session.say(f"fashkiin: {words.user} still holds {permission} by a grant on {other}")
    return status


def _elsewhere(client: Client, words: argparse.Namespace, permission: str) -> Iterator[str]:
    """Other grants of the same permission that reach the place of the arguments, or places in it."""
    if words.table is not None:
        namespace = namespace_of(words.table)
        if namespace is not None and permission in _permissions(client, words.user, namespace=namespace):
            yield f"the namespace {namespace}"
    elif words.namespace is not None:
        for info in client.tables:
            if namespace_of(info.table) == words.namespace and permission in _permissions(client, words.user, info.table):
                yield info.table


def _place(words: argparse.Namespace) -> str:
    if words.system:
        return "on the system"
    return f"on {words.table} itself" if words.table is not None else f"on the namespace {words.namespace}"


def _allowed(words: argparse.Namespace) -> contextlib.AbstractContextManager[None]:
    names = ON_THE_SYSTEM if words.system else ON_TABLES
    wanted = f"{', '.join(names[:-1])} or {names[-1]} {'on the system' if words.system else 'on tables'}"
    given = {"permission": words.permission.upper(), "user": words.user, "table": words.table, "namespace": words.namespace}
    return allowed({**WANTED, "permission": wanted}, **given)


def _arguments(parser: argparse.ArgumentParser) -> None:
    parser.add_argument("user", metavar="USER")
    parser.add_argument("permission", metavar="PERMISSION", help="such as READ or WRITE on tables, CREATE_TABLE on the system")
    place = parser.add_mutually_exclusive_group(required=True)
    place.add_argument("--table", metavar="TABLE", help="on a table")
    place.add_argument("--namespace", metavar="NAMESPACE", help="on each table of a namespace")
    place.add_argument("--system", action="store_true", help="on the system")


def _grant_arguments(parser: argparse.ArgumentParser) -> None:
    parser.set_defaults(action=_grant)
    _arguments(parser)


def _revoke_arguments(parser: argparse.ArgumentParser) -> None:
    parser.set_defaults(action=_revoke)
    _arguments(parser)


COMMANDS = (
    Command("grant", "grant a permission", _grant_arguments, run_action),
    Command("revoke", "revoke a permission (status 1 where it was not granted there)", _revoke_arguments, run_action),
)
