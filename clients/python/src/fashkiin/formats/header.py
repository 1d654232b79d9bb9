"""The header of a CSV file: which column holds what."""

from __future__ import annotations

import csv
from collections.abc import Iterator, Sequence
from typing import NamedTuple

from fashkiin.formats.fields import DEFAULTS, LABEL_WANTED, Names, Source, candidates


class Columns(NamedTuple):
    """Which column of a file holds what. A position is in the columns `lon` and `lat`, or as WKT in `point`."""

    header: Sequence[str]
    id: Sequence[int]
    lon: int
    lat: int
    point: int | None
    time: int | None
    label: int | None
    properties: Sequence[tuple[int, str, bool]]
    """The other columns: their places, their names, and whether they are numbers."""


def read_header(source: Source, records: Iterator[list[str]]) -> list[str]:
    """The names of the columns; `InputError` where there are none, or two alike."""
    try:
        header: list[str] = next(records, [])
    except csv.Error as error:
        raise source.fail("1", f"{error}, wanted a header line of CSV") from None
    if not header:
        raise source.fail("1", "nothing, wanted a header line of CSV")
    try:
        "".join(header).encode()
    except UnicodeEncodeError:
        raise source.fail("1", "the header is not UTF-8: name its --encoding") from None
    for name in header:
        if header.count(name) > 1:
            raise source.fail("1", f"column {name!r} is there twice, wanted names that differ")
    return header


def find_columns(source: Source, header: list[str], names: Names) -> Columns:
    """Which column holds what; `InputError` where one is missing, or two fit."""
    def find(field: str) -> int | None:
        given = getattr(names, field)
        found = [name for name in header if name == given] if given else candidates(field, header)
        if len(found) > 1:
            raise source.fail("1", f"columns {' and '.join(found)}: both fit {field}: name one by --{field}-column")
        return header.index(found[0]) if found else None

    def need(field: str) -> int:
        found = find(field)
        if found is None:
            own, others, last = DEFAULTS[field]
            wanted = getattr(names, field) or " or ".join((own, *others, *last))
            more = ", or give a time by --default-time" if field == "time" else ""
            raise source.fail("1", f"column {field}: missing, wanted {wanted}: name it by --{field}-column{more}")
        return found

    label = find("label")
    if label is None and (names.label or names.unlabelled is None):
        raise source.fail("1", f"column {names.label or 'label'}: missing, wanted {LABEL_WANTED}")
    for name in sorted(names.only or ()):
        if name not in header:
            raise source.fail("1", f"column {name}: missing, wanted it by --only")
    ids = _id_columns(source, header, names)
    point = find("point") if names.point or (find("lon") is None and find("lat") is None) else None
    if names.point and point is None:
        raise source.fail("1", f"column {names.point}: missing, wanted it for the position")
    lon, lat = (need("lon"), need("lat")) if point is None else (-1, -1)
    time = find("time") if names.default_time is not None else need("time")
    taken = {lon, lat, point, time, label, *(ids if len(ids) == 1 else ())}
    kept = [(at, name) for at, name in enumerate(header) if at not in taken and (names.only is None or name in names.only)]
    return Columns(header, ids, lon, lat, point, time, label, [(at, name, name in names.numbers) for at, name in kept])


def _id_columns(source: Source, header: list[str], names: Names) -> list[int]:
    for name in names.id:
        if name not in header:
            raise source.fail("1", f"column {name}: missing, wanted it for the id")
    if names.id:
        return [header.index(name) for name in names.id]
    found = candidates("id", header)
    if len(found) > 1:
        raise source.fail("1", f"columns {' and '.join(found)}: both fit id: name one by --id-column")
    if not found and names.number is None:
        raise source.fail(
            "1", "column id: missing, wanted an id: name its columns by --id-column, or number the rows by --number PREFIX"
        )
    return [header.index(name) for name in found]
