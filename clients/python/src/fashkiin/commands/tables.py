"""`fashkiin tables`."""

from __future__ import annotations

import argparse
import sys
from dataclasses import asdict

from fashkiin.client import Client
from fashkiin.commands import DONE, REJECTED, Command, Session
from fashkiin.commands.actions import add_action, allowed, run_action
from fashkiin.commands.where import make_table
from fashkiin.errors import PermissionDeniedError


def _arguments(parser: argparse.ArgumentParser) -> None:
    parser.set_defaults(action=_list)
    parsers = parser.add_subparsers(metavar="ACTION")
    add_action(parsers, "list", "list the tables", _list)
    create = add_action(parsers, "create", "make a table", _create)
    drop = add_action(parsers, "drop", "drop a table and its rows; asks first, at a terminal", _drop)
    period = add_action(
        parsers, "period", "sort a table anew", lambda _, client, words: client.tables.set_period(words.table, words.period)
    )
    constraint = add_action(
        parsers,
        "constraint",
        "have a table take no row that its writer could not see, or take all",
        lambda _, client, words: client.tables.set_constraint(words.table, words.on == "on"),
    )
    grants = add_action(parsers, "grants", "list the grants on a table itself, or on a namespace", _list_grants)
    for own in (create, drop, period, constraint, grants):
        own.add_argument("table", metavar="TABLE")
    create.add_argument("--period", choices=("day", "week"), default="week", help="the length of its time bins, week if left out")
    create.add_argument("--constraint", action="store_true", help="it takes no row that its writer could not see")
    drop.add_argument("--yes", "-y", action="store_true", help="do not ask")
    period.add_argument("period", choices=("day", "week"))
    grants.add_argument("--namespace", action="store_true", help="the name is that of a namespace")
    constraint.add_argument("on", choices=("on", "off"))


def _list(session: Session, client: Client, arguments: argparse.Namespace) -> None:
    for table in client.tables:
        constraint = "\tconstraint" if table.constraint else ""
        session.show(asdict(table), f"{table.table}\t{table.period}{constraint}")


def _create(session: Session, client: Client, arguments: argparse.Namespace) -> None:
    with allowed(table=arguments.table):
        make_table(client, arguments, there=False)


def _drop(session: Session, client: Client, arguments: argparse.Namespace) -> int:
    if not arguments.yes and sys.stdin.isatty() and not _sure(client, arguments.table):
        session.say("fashkiin: nothing is changed")
        return REJECTED
    client.tables.drop(arguments.table)
    return DONE


def _sure(client: Client, table: str) -> bool:
    """Asks at the terminal whether to drop a table."""
    try:
        rows = f"{client.table(table).count():,} rows that you see"
    except PermissionDeniedError:
        rows = "rows, which you may not read"
    print(f"{table}: {rows}. Drop it with all its rows and the grants on it? [y/N] ", end="", file=sys.stderr, flush=True)
    return sys.stdin.readline().strip().lower() in ("y", "yes")


def _list_grants(session: Session, client: Client, arguments: argparse.Namespace) -> None:
    place = "namespace" if arguments.namespace else "table"
    for grant in client.grants.list(**{place: arguments.table}):
        session.show(asdict(grant), f"{grant.user}\t{' '.join(grant.permissions)}")


COMMAND = Command("tables", "list, make, change and drop tables", _arguments, run_action)
