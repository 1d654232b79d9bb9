"""`fashkiin dump`, `scan`, `count`, `grid` and `get`."""

from __future__ import annotations

import argparse
import contextlib
import os
import sys
from collections.abc import Iterable, Iterator
from itertools import chain, islice
from pathlib import Path
from typing import Any, TextIO

from fashkiin.cells import time_text
from fashkiin.commands import DONE, REJECTED, Command, Session
from fashkiin.commands.load import add_names, read_names
from fashkiin.commands.where import add_auths, add_table, add_where, read_auths, read_where
from fashkiin.errors import SettingsError
from fashkiin.formats import FORMATS, format_of
from fashkiin.rows import Row, to_json
from fashkiin.table import PAGE
from fashkiin.texts import printable


def record(row: Row) -> dict[str, Any]:
    """A row as JSON for scripts."""
    return {
        "id": row.id,
        "lon": row.lon,
        "lat": row.lat,
        "time": time_text(row.time),
        "label": row.label,
        "properties": row.properties,
    }


def line(row: Row) -> str:
    """A row in a line: its fields with tabs between, and no control character in them."""
    fields = (row.id, f"{row.lon!r}", f"{row.lat!r}", time_text(row.time), row.label, to_json(row.properties))
    return "\t".join(map(printable, fields))


def show_rows(session: Session, rows: Iterable[Row]) -> int:
    """Writes rows a line each, and returns how many."""
    number = 0
    for number, row in enumerate(rows, 1):
        session.show(record(row) if session.json else None, "" if session.json else line(row))
    return number


def _dump_arguments(parser: argparse.ArgumentParser) -> None:
    add_table(parser)
    parser.add_argument("--format", choices=FORMATS, help="by the output's name, if left out; else geojsonseq")
    parser.add_argument(
        "--output", "-o", metavar="FILE", help="a file for you alone, there once it is whole; standard output, if left out"
    )
    add_where(parser)
    add_names(parser)


def _dump(session: Session, arguments: argparse.Namespace) -> int:
    names = read_names(arguments)
    named = format_of(arguments.output) if arguments.output else None
    form = FORMATS[arguments.format] if arguments.format else named or FORMATS["geojsonseq"]
    where = read_where(arguments)
    with session.client() as client, _output(arguments.output) as out:
        form.write(client.table(arguments.table).scan(*where), out, names)
    return DONE


@contextlib.contextmanager
def _output(file: str | None) -> Iterator[TextIO]:
    """Standard output, or a file that takes its name once it is whole."""
    if file is None:
        with open(sys.stdout.fileno(), "w", encoding="utf-8", newline="", closefd=False) as out:
            yield out
        return
    import tempfile

    target = Path(file)
    try:
        descriptor, part = tempfile.mkstemp(prefix=f".{target.name}.", dir=target.parent)
    except OSError as error:
        raise SettingsError(f"{file}: {error.strerror}, wanted a file to write") from None
    try:
        with open(descriptor, "w", encoding="utf-8", newline="") as out:
            yield out
        os.replace(part, target)
    except BaseException:
        os.unlink(part)
        raise


def _scan_arguments(parser: argparse.ArgumentParser) -> None:
    add_table(parser)
    add_where(parser)
    parser.add_argument("--limit", type=int, metavar="ROWS", help="at most this many rows")


def _scan(session: Session, arguments: argparse.Namespace) -> int:
    if arguments.limit is not None and arguments.limit < 0:
        raise SettingsError(f"--limit: {arguments.limit}, wanted 0 or more rows")
    where = read_where(arguments)
    with session.client() as client:
        pages = client.table(arguments.table).pages(*where, limit=max(1, min(PAGE, arguments.limit or PAGE)))
        show_rows(session, islice(chain.from_iterable(pages), arguments.limit))
    return DONE


def _count_arguments(parser: argparse.ArgumentParser) -> None:
    add_table(parser)
    add_where(parser)
    parser.add_argument("--exact", action="store_true", help="as many as scan shows: scan the cells that --bbox and --time cut")


def _count(session: Session, arguments: argparse.Namespace) -> int:
    where = read_where(arguments)
    with session.client() as client:
        table = client.table(arguments.table)
        if arguments.exact:
            least = count = table.count(*where, exact=True)
        else:
            least, count = table.count_range(*where)
    session.show({"count": count, "least": least}, str(count) if least == count else f"about {count}")
    return DONE


def _grid_arguments(parser: argparse.ArgumentParser) -> None:
    add_table(parser)
    add_where(parser)
    parser.add_argument("--nx", type=int, choices=range(1, 33), default=16, metavar="COLUMNS", help="1 to 32, 16 if left out")
    parser.add_argument("--ny", type=int, choices=range(1, 33), default=8, metavar="LINES", help="1 to 32, 8 if left out")


def _grid(session: Session, arguments: argparse.Namespace) -> int:
    where = read_where(arguments)
    with session.client() as client:
        try:
            grid = client.table(arguments.table).grid(*where, nx=arguments.nx, ny=arguments.ny)
        except ValueError as error:
            raise SettingsError(f"--bbox: {error}") from None
    width = max(len(str(count)) for cells in grid for count in cells)
    lines = (" ".join(f"{count or '.':>{width}}" for count in cells) for cells in reversed(grid))
    session.show({"grid": grid}, "\n".join(lines))
    return DONE


def _get_arguments(parser: argparse.ArgumentParser) -> None:
    add_table(parser)
    parser.add_argument("id", metavar="ID", help="the rows' id")
    add_auths(parser)


def _get(session: Session, arguments: argparse.Namespace) -> int:
    with session.client() as client:
        rows = client.table(arguments.table).get(arguments.id, read_auths(arguments.auths))
    return DONE if show_rows(session, rows) else REJECTED


COMMANDS = (
    Command("dump", "write all rows as a file that load reads", _dump_arguments, _dump),
    Command("scan", "show the rows of a place and a time", _scan_arguments, _scan),
    Command(
        "count",
        "count the rows of a place and a time; approximate where cells or seconds are cut",
        _count_arguments,
        _count,
    ),
    Command("grid", "count the rows in each cell of a grid, north up", _grid_arguments, _grid),
    Command("get", "show the rows of an id (status 1 where there is none)", _get_arguments, _get),
)
