"""`fashkiin export`."""

from __future__ import annotations

import argparse
import sys
from collections.abc import Iterable
from pathlib import Path
from typing import TYPE_CHECKING

from fashkiin.commands import DONE, Command, Session
from fashkiin.errors import SettingsError

if TYPE_CHECKING:
    from fashkiin.export.store import Export


def _arguments(parser: argparse.ArgumentParser) -> None:
    parser.add_argument("to", choices=("postgis", "accumulo"), help="the database that it is for")
    parser.add_argument("folder", metavar="DIR", nargs="?", type=Path, help="the folder to make, for accumulo")
    parser.add_argument("--table", metavar="TABLE", action="append", help="a table to export; all of them where none is named")
    parser.add_argument("--role-prefix", metavar="TEXT", default="", help="what the names of PostgreSQL's roles begin with")


def _run(session: Session, arguments: argparse.Namespace) -> int:
    from fashkiin.export import accumulo, postgis
    from fashkiin.export.store import gather

    if (arguments.folder is None) == (arguments.to == "accumulo"):
        raise SettingsError("wanted: export postgis, or: export accumulo DIR")
    with session.client() as client:
        export = gather(client, arguments.table)
        _warn(session, export)
        if arguments.to == "postgis":
            _write(postgis.sql(export, postgis.Names(arguments.role_prefix)))
        else:
            accumulo.write(export, arguments.folder)
            session.say(f"{arguments.folder}: written, and tried with no Accumulo; read {arguments.folder / 'README'}")
    return DONE


def _warn(session: Session, export: Export) -> None:
    """Tells what the asker does not see."""
    for auth in export.missing:
        users = ", ".join(user.user for user in export.users if auth in user.auths)
        session.say(f"fashkiin: rows whose labels need {auth!r} are left out: you do not hold it, as {users} does")


def _write(lines: Iterable[str]) -> None:
    """Writes lines on standard output in UTF-8, whatever its locale."""
    sys.stdout.buffer.writelines(line.encode() for line in lines)
    sys.stdout.buffer.flush()


COMMAND = Command("export", "write the store for PostGIS, or for GeoMesa on Accumulo", _arguments, _run)
