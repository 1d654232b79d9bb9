"""The features of a collection: rows of a table as GeoJSON (RFC 7946)."""

from __future__ import annotations

from typing import Any

from fashkiin.cells import EVERYTHING
from fashkiin.features.crs import position
from fashkiin.features.query import Query, feature_properties
from fashkiin.rows import ID_BYTES, Place, Row
from fashkiin.table import PAGE, Table

MOST_PAGES = 20
"""How many pages of the server are read for one page of features. Behind as many, it ends with the rows that were found."""


def read(table: Table, query: Query) -> tuple[list[Row], Place | None]:
    """The next rows of a query, at most as many as its limit, and the place where the search goes on; None where no row
    follows. Where `MOST_PAGES` have been read, the rows may be fewer before the end, and with a filter none."""
    auths = table.auths(None)
    rows: list[Row] = []
    after, asked, filtered = query.after, 0, False
    for box in query.boxes():
        while True:
            # One row more than are wanted tells whether another follows. Where rows do not match, whole pages are read.
            wanted = query.limit - len(rows) + (0 if query.whole else 1)
            page = table.page(box, auths, PAGE if filtered else min(PAGE, wanted), after)
            for row in page.rows:
                if not query.matches(row):
                    filtered = True
                elif len(rows) == query.limit:
                    return rows, _place(rows[-1])
                else:
                    rows.append(row)
            after, asked = page.next, asked + 1
            if after is None:
                break
            if query.whole and len(rows) == query.limit:
                return rows, after
            # GDAL takes a page without a feature for the last one, and asks for no property.
            if asked >= MOST_PAGES and (rows or query.filters):
                return rows, after
    return rows, None


def named(table: Table, query: Query) -> tuple[list[Row], Place | None] | None:
    """The rows of a query for an id, by one request; None for another query, and where they are more than its limit."""
    id = next((one.value for one in query.filters if one.name == "id"), None)
    if id is None or query.after is not None:
        return None
    rows = [row for row in _get(table, id) if query.matches(row)]
    return (rows, None) if len(rows) <= query.limit else None


def count(table: Table, query: Query, returned: int, after: Place | None) -> int | None:
    """How many rows match, where the first page or a count tells it: the server counts by cells, and not by exact positions."""
    if query.after is not None:
        return None
    if after is None:
        return returned
    return table.count() if query.whole else None


def unknown_property(table: Table, query: Query) -> str | None:
    """The name of a filter that is no property of any seen row, where the table shows so few that one page has them all."""
    page = table.page(EVERYTHING, table.auths(None))
    if page.next is not None or not page.rows:
        return None
    names = {name for row in page.rows for name in feature_properties(row)}
    return next((one.name for one in query.filters if one.name not in names), None)


def _place(row: Row) -> Place:
    return Place(row.id, row.label, row.point())


def feature(row: Row, crs: str) -> dict[str, Any]:
    """The feature of a row."""
    return {
        "type": "Feature",
        "id": feature_id(row),
        "geometry": {"type": "Point", "coordinates": position(crs, row.lon, row.lat)},
        "properties": feature_properties(row),
    }


def feature_id(row: Row) -> str:
    """The name of a row in its table: the id, and behind a comma the label where it is not empty. A percent sign and a comma of
    the id are escaped as in URLs."""
    name = row.id.replace("%", "%25").replace(",", "%2C")
    return f"{name},{row.label}" if row.label else name


def find(table: Table, name: str) -> Row | None:
    """The seen row of a feature's id."""
    id, _, label = name.partition(",")
    for row in _get(table, id.replace("%2C", ",").replace("%25", "%")):
        if row.label == label and feature_id(row) == name:
            return row
    return None


def _get(table: Table, id: str) -> list[Row]:
    """The seen rows of an id; none where it cannot be one."""
    return table.get(id) if 1 <= len(id.encode()) <= ID_BYTES else []
