"""Arguments that several subcommands share: a table, a bbox, a time, authorizations."""

from __future__ import annotations

import argparse
from typing import NamedTuple

from fashkiin.cells import Bbox, Span, as_time, latitude_cell, longitude_cell, time_second
from fashkiin.client import Client
from fashkiin.errors import RowError, SettingsError, TableExistsError

OPEN = ".."


class Where(NamedTuple):
    """What to read: a bbox, a time, and the authorizations by which is read."""

    bbox: Bbox | None
    time: Span | None
    auths: list[str] | None


def add_table(parser: argparse.ArgumentParser) -> None:
    """The table's name."""
    parser.add_argument("table", metavar="TABLE", help="a table, such as points or geo.trips")


def make_table(client: Client, arguments: argparse.Namespace, there: bool) -> bool:
    """Makes the table that `table`, `period` and `constraint` of the arguments say, and returns whether it did. Where it is
    `there`, it may be so already; `SettingsError` then, if its constraint was to be on and is not."""
    name = arguments.table
    try:
        client.tables.create(name, arguments.period)
    except TableExistsError:
        if not there:
            raise
        if arguments.constraint and not any(table.constraint for table in client.tables if table.table == name):
            wanted = f"wanted: fashkiin tables constraint {name} on"
            raise SettingsError(f"--constraint: {name} is there already, and takes any row, {wanted}") from None
        return False
    if arguments.constraint:
        try:
            client.tables.set_constraint(name, True)
        except BaseException:
            client.tables.drop(name)
            raise
    return True


def add_auths(parser: argparse.ArgumentParser) -> None:
    """The authorizations by which is read."""
    parser.add_argument(
        "--auths", metavar="A,B", help="read by these of your authorizations, separated by commas; all, if left out"
    )


def add_where(parser: argparse.ArgumentParser) -> None:
    """A bbox, a time and authorizations."""
    parser.add_argument(
        "--bbox", nargs=4, metavar=("WEST", "SOUTH", "EAST", "NORTH"), help="degrees; WEST may be greater than EAST"
    )
    parser.add_argument(
        "--time", nargs=2, metavar=("BEGIN", "END"), help="ISO 8601 times, both included; .. leaves that end open"
    )
    add_auths(parser)


def read_where(arguments: argparse.Namespace) -> Where:
    """What the arguments say; `SettingsError` for one of no use."""
    try:
        return Where(_bbox(arguments.bbox), _span(arguments.time), read_auths(arguments.auths))
    except RowError as error:
        raise SettingsError(f"{'--time' if error.field == 'time' else '--bbox'}: {error}") from None


def read_auths(text: str | None) -> list[str] | None:
    """Authorizations with commas between; none for an empty text."""
    if text is None:
        return None
    return [auth for auth in text.split(",") if auth]


def _bbox(words: list[str] | None) -> Bbox | None:
    if words is None:
        return None
    try:
        west, south, east, north = map(float, words)
    except ValueError:
        raise SettingsError(f"--bbox: {' '.join(words)}, wanted four numbers of degrees") from None
    for lon, lat in ((west, south), (east, north)):
        longitude_cell(lon)
        latitude_cell(lat)
    if south > north:
        raise SettingsError(f"--bbox: south {south:g} is north of {north:g}, wanted WEST SOUTH EAST NORTH")
    return west, south, east, north


def _span(words: list[str] | None) -> Span | None:
    if words is None:
        return None
    begin, end = (None if word in (OPEN, "") else as_time(word) for word in words)
    for moment in (begin, end):
        if moment is not None:
            time_second(moment)
    if begin is not None and end is not None and end < begin:
        raise SettingsError(f"--time: {words[1]} is before {words[0]}, wanted BEGIN END")
    return begin, end
