"""`fashkiin users` and `access`."""

from __future__ import annotations

import argparse
from collections.abc import Sequence
from dataclasses import asdict
from typing import Any

from fashkiin.accounts import Account
from fashkiin.client import Client
from fashkiin.commands import Command, Session
from fashkiin.commands.actions import add_action, allowed, run_action
from fashkiin.commands.grants import Granted, grants_of, namespace_of
from fashkiin.commands.where import read_auths
from fashkiin.commands.whoami import account_text
from fashkiin.errors import PermissionDeniedError
from fashkiin.texts import quoted


def _arguments(parser: argparse.ArgumentParser) -> None:
    parser.set_defaults(action=_list)
    parsers = parser.add_subparsers(metavar="ACTION")
    add_action(parsers, "list", "list the users", _list)
    show = add_action(parsers, "show", "show a user's authorizations, permissions on the system and grants on tables", _show)
    add = add_action(parsers, "add", "make a user by the digest of its token (fashkiin token new shows it)", _add)
    drop = add_action(parsers, "drop", "drop a user and all grants to it", lambda _, client, words: client.users.drop(words.name))
    auths = add_action(parsers, "auths", "have a user hold these authorizations alone", _set_auths)
    digest = add_action(parsers, "digest", "have a user's token be the one of this digest", _set_digest)
    for own in (show, add, drop, auths, digest):
        own.add_argument("name", metavar="USER")
    for own in (add, digest):
        own.add_argument("digest", metavar="DIGEST", help="64 hexadecimal digits")
    add.add_argument("--auths", metavar="A,B", default="", help="its authorizations, separated by commas")
    auths.add_argument("auths", metavar="A,B", help="separated by commas; '' for none")


def _list(session: Session, client: Client, arguments: argparse.Namespace) -> None:
    for user in client.users:
        session.show({"user": user}, user)


def _show(session: Session, client: Client, arguments: argparse.Namespace) -> None:
    account = client.users.get(arguments.name)
    grants = grants_of(client, arguments.name)
    told = [{name: value for name, value in asdict(grant).items() if value is not None} for grant in grants]
    session.show(asdict(account) | {"grants": told}, "\n".join((account_text(account), *map(str, grants))))


def _add(session: Session, client: Client, arguments: argparse.Namespace) -> None:
    auths = read_auths(arguments.auths) or []
    with allowed(user=arguments.name, digest=arguments.digest, auths=arguments.auths):
        client.users.create(arguments.name, arguments.digest, auths)
    _warn(session, client, arguments.name, auths)


def _set_auths(session: Session, client: Client, arguments: argparse.Namespace) -> None:
    auths = read_auths(arguments.auths) or []
    with allowed(user=arguments.name, auths=arguments.auths):
        client.users.set_auths(arguments.name, auths)
    _warn(session, client, arguments.name, auths)


def _set_digest(session: Session, client: Client, arguments: argparse.Namespace) -> None:
    with allowed(user=arguments.name, digest=arguments.digest):
        client.users.set_digest(arguments.name, arguments.digest)


def _warn(session: Session, client: Client, user: str, auths: Sequence[str]) -> None:
    """Tells the names that nobody else holds, as a misspelt one is."""
    unheld = set(auths)
    for other in client.users:
        if unheld and other != user:
            unheld -= set(client.users.get(other).auths)
    for name in sorted(unheld):
        session.say(f"fashkiin: nobody but {user} holds {quoted(name)}; names are separated by commas")


def _access(session: Session, client: Client, arguments: argparse.Namespace) -> None:
    """The account, and each table that the user has been granted something on, with the number of rows that it sees now."""
    account = client.users.get(arguments.name)
    grants = grants_of(client, arguments.name)
    own = client.whoami().auths
    tables = [_seen(client, name, account, own, grants) for name in sorted(_reached(client, grants))]
    session.show(asdict(account) | {"tables": tables}, "\n".join((account_text(account), *map(_line, tables))))


def _reached(client: Client, grants: Sequence[Granted]) -> set[str]:
    tables, spaces = {grant.table for grant in grants}, {grant.namespace for grant in grants} - {None}
    return {info.table for info in client.tables if info.table in tables or namespace_of(info.table) in spaces}


def _seen(client: Client, table: str, account: Account, own: Sequence[str], grants: Sequence[Granted]) -> dict[str, Any]:
    """What a user sees of a table. `rows` is None where the asker may not read it, the least number where `exact` is false."""
    itself = [name for grant in grants if grant.table == table for name in grant.permissions]
    space = [name for grant in grants if grant.namespace == (namespace_of(table) or "") for name in grant.permissions]
    rows: int | None = 0
    if "READ" in itself + space:
        try:
            rows = client.table(table).count(auths=[name for name in account.auths if name in own])
        except PermissionDeniedError:
            rows = None
    exact = "READ" not in itself + space or set(account.auths) <= set(own)
    return {"table": table, "granted": itself, "by_namespace": space, "rows": rows, "exact": exact}


def _line(table: dict[str, Any]) -> str:
    granted = [" ".join(table["granted"])] if table["granted"] else []
    if table["by_namespace"]:
        granted.append(f"{' '.join(table['by_namespace'])} by its namespace")
    if "READ" not in table["granted"] + table["by_namespace"]:
        rows = "sees no rows"
    elif table["rows"] is None:
        rows = "you may not read it, so its rows are not counted"
    else:
        rows = f"sees {'' if table['exact'] else 'at least '}{table['rows']:,} rows"
    return f"{table['table']}\t{', '.join(granted)}\t{rows}"


def _access_arguments(parser: argparse.ArgumentParser) -> None:
    parser.set_defaults(action=_access)
    parser.add_argument("name", metavar="USER")


COMMANDS = (
    Command("users", "list, make, change and drop users", _arguments, run_action),
    Command("access", "show what a user can see now: authorizations, tables and numbers of rows", _access_arguments, run_action),
)
