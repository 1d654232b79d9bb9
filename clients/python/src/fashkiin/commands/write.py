"""`fashkiin put` and `delete`."""

from __future__ import annotations

import argparse
import json
import shlex
from typing import Any

from fashkiin.cells import parse_time
from fashkiin.commands import DONE, REJECTED, Command, Session
from fashkiin.commands.labels import explained
from fashkiin.commands.where import add_table
from fashkiin.errors import ConnectError, CutOffError, EdgeError, PermissionDeniedError, RefusalError, SettingsError, shown
from fashkiin.formats.fields import degrees
from fashkiin.relabelling import find
from fashkiin.rows import Row
from fashkiin.table import Table
from fashkiin.texts import printable


def _put_arguments(parser: argparse.ArgumentParser) -> None:
    add_table(parser)
    parser.add_argument("id", metavar="ID", help="1 to 64 bytes")
    parser.add_argument("--lon", required=True, metavar="DEGREES", help="-180 to 180")
    parser.add_argument("--lat", required=True, metavar="DEGREES", help="-90 to 90")
    parser.add_argument("--time", required=True, metavar="TIME", help="ISO 8601, 1970 to 2598")
    parser.add_argument("--label", required=True, metavar="LABEL", help="such as A&(B|C); '' shows the row to everybody")
    parser.add_argument("--properties", default="{}", metavar="JSON", help="an object")


def _put(session: Session, arguments: argparse.Namespace) -> int:
    row = Row(
        arguments.id,
        degrees("lon", arguments.lon),
        degrees("lat", arguments.lat),
        parse_time(arguments.time),
        arguments.label,
        _object(arguments.properties),
    )
    with session.client() as client, explained(arguments.label):
        table = client.table(arguments.table)
        before = _labels(table, row.id)
        table.put(row)
    if before is not None and row.label in before:
        session.say("fashkiin: the row took the place of the one that was there")
    for label in sorted((before or set()) - {row.label}):
        _say_elsewhere(session, table, row.id, label)
    return DONE


def _labels(table: Table, id: str) -> set[str] | None:
    """The labels under which an id is seen; None where the table may not be read."""
    try:
        return {row["label"] for row in table.told(id)}
    except PermissionDeniedError:
        return None


def _say_elsewhere(session: Session, table: Table, id: str, label: str) -> None:
    command = shlex.join(["fashkiin", "delete", table.name, id, "--label", label])
    session.say(f"fashkiin: {shown(id)} also stands under {shown(label)}: {printable(command)}")


def _object(text: str) -> dict[str, Any]:
    try:
        value = json.loads(text)
    except (ValueError, RecursionError):
        value = None
    if not isinstance(value, dict):
        raise SettingsError(f"--properties: {text!r}, wanted a JSON object")
    return value


def _delete_arguments(parser: argparse.ArgumentParser) -> None:
    add_table(parser)
    parser.add_argument("id", metavar="ID", help="the row's id")
    parser.add_argument("--label", required=True, metavar="LABEL", help="the row's label, as it was written")


def _delete(session: Session, arguments: argparse.Namespace) -> int:
    with session.client() as client, explained(arguments.label):
        table = client.table(arguments.table)
        before = _labels(table, arguments.id)
        table.delete(arguments.id, arguments.label)
    if before is None or arguments.label in before:
        return DONE
    others = f" (it stands under {', '.join(map(shown, sorted(before)))})" if before else ""
    row = f"{shown(arguments.id)} under {shown(arguments.label)}"
    session.say(f"fashkiin: you see no row {row}{others}; if there was one that you do not see, it is deleted")
    return REJECTED


def _relabel_arguments(parser: argparse.ArgumentParser) -> None:
    add_table(parser)
    parser.add_argument("id", metavar="ID", help="the row's id")
    parser.add_argument("--label", required=True, metavar="LABEL", help="the new label")
    parser.add_argument("--from", dest="old", metavar="LABEL", help="the old one; all others that you see, if left out")


def _relabel(session: Session, arguments: argparse.Namespace) -> int:
    name, label, old = arguments.id, arguments.label, arguments.old
    with session.client() as client, explained(label):
        table = client.table(arguments.table)
        found = find(table, name, label, old)
        if not found.old:
            seen = f"{shown(name)} stands under {shown(label)} already" if found.there else f"you see no row {shown(name)}"
            session.say(f"fashkiin: {seen}{'' if old is None else f', and none under {shown(old)}'}; nothing is changed")
            return DONE if found.there else REJECTED
        try:
            found.put()
            try:
                found.delete()
            except RefusalError:
                session.say(f"fashkiin: {_LEFT}")
                raise
        except (ConnectError, CutOffError, EdgeError) as error:
            raise CutOffError(f"{error}; {_LEFT}") from None
        if label not in (_labels(table, name) or ()):
            session.say(f"fashkiin: {shown(name)} stands under {shown(label)} now, which you cannot read")
    return DONE


_LEFT = "the row may stand under the old label still, or under both, wanted the same command again"


COMMANDS = (
    Command(
        "relabel",
        "put a row under another label: it is stored under the new one, and then deleted under the old ones that you see",
        _relabel_arguments,
        _relabel,
    ),
    Command("put", "store a row", _put_arguments, _put),
    Command("delete", "delete the row of an id and a label", _delete_arguments, _delete),
)
