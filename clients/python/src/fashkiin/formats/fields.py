"""What the formats share: a source, the names of a row's fields, and the row that its values make."""

from __future__ import annotations

import io
import os
import re
import stat
from collections import deque
from collections.abc import Callable, Iterable, Iterator, Mapping, Sequence
from contextlib import AbstractContextManager
from dataclasses import dataclass, replace
from datetime import datetime, timedelta
from functools import lru_cache
from typing import Any, TypeVar

from fashkiin.cells import EPOCH, parse_time
from fashkiin.errors import InputError, MissingError, Plain, RowError
from fashkiin.pipeline import pieces
from fashkiin.rows import Row
from fashkiin.shares import Share

DEFAULTS: Mapping[str, tuple[str, tuple[str, ...], tuple[str, ...]]] = {
    "id": ("id", (), ()),
    "lon": ("lon", ("longitude", "long", "lng"), ("x",)),
    "lat": ("lat", ("latitude",), ("y",)),
    "point": ("wkt", ("geometry", "geom", "the_geom"), ()),
    "time": ("time", ("timestamp", "datetime"), ("date",)),
    "label": ("label", ("visibility",), ()),
}
"""The names that are looked for where none is given: a field's own, others, and those that count only where there is no other."""


def candidates(field: str, there: Iterable[str]) -> list[str]:
    """The names of a file that fit a field equally well: none, the one to take, or several, of which one must be named.

    The field's own name comes first, and names in these very letters before others.
    """
    own, others, last = DEFAULTS[field]
    names = list(there)
    if own in names:
        return [own]
    for group in ((own, *others), last):
        exact = [name for name in names if name in group]
        found = exact or [name for name in names if name.strip().lower() in group]
        if found:
            return found
    return []


@lru_cache(maxsize=1_024)
def _candidates_of(field: str, there: tuple[str, ...]) -> Sequence[str]:
    """The candidates of a row, among its names in small letters. Most rows of a file have the names of others."""
    return candidates(field, [name for name in there if name == name.lower()])


Found = tuple[int, Row | RowError]
"""The place of a row in its file, from 1, and the row or what is wrong with it."""

Prepared = tuple[int, str, str, bytes | RowError]
"""A row as a load needs it: its place, its id and its label as far as they are known, and the body of its put or what is wrong
with it."""

Unit = TypeVar("Unit")
_POINT = re.compile(r"\s*(?:SRID=4326\s*;\s*)?POINT\s*Z?\s*\(([^()_]*)\)\s*", re.IGNORECASE)
LABEL_WANTED = "a label, or --default-label (the empty text shows a row to everybody)"


class Source:
    """An open file or pipe of rows, and its name for messages."""

    def __init__(
        self,
        name: str,
        stream: io.BufferedReader,
        stem: str | None = None,
        packed: bool = False,
        again: Callable[[], AbstractContextManager[Source]] | None = None,
    ) -> None:
        self.name = name
        self.stream = stream
        self.stem = stem
        self.again = again
        """Opens it anew, where it is so large a file that several processes read it."""
        self.reached: float | None = None
        """How much of it these processes have read."""
        self.dropped: dict[str, None] = {}
        """What of it is kept in no row, once it is read."""
        self.raw: deque[bytes] | None = None
        """What the rows on their way look like, in their order, for a file of rejects; None where there is none."""
        self.head = b""
        """What stands before the rows of CSV in a file of rejects."""
        self._size = None if packed else _size(stream)

    @property
    def rereadable(self) -> bool:
        """Whether it can be read twice, as a file can and a pipe cannot."""
        return self.stem is not None and self.stream.seekable()

    def fraction(self) -> float | None:
        """How much has been read, 0 to 1; None for a pipe."""
        if self.reached is not None:
            return self.reached
        return min(1.0, self.stream.tell() / self._size) if self._size else None

    def fail(self, place: str, what: str) -> InputError:
        """The error of a place of this source."""
        return InputError(f"{self.name}:{place}: {what}")


def _size(stream: io.BufferedReader) -> int | None:
    try:
        found = os.fstat(stream.fileno())
    except OSError:
        return None
    return found.st_size if stat.S_ISREG(found.st_mode) else None


@dataclass(frozen=True, slots=True)
class Names:
    """How a file names the fields of its rows. An empty text or list stands for the names of `DEFAULTS`.

    `point` names a column of CSV with a position as WKT, which is looked for where there is neither `lon` nor `lat`. In lines of
    JSON, a name is a path with dots between: `position.lon`, `position.0`.

    A row's id is that of the fields `id`, joined by `join_ids`; or, without such fields, `number`, a dash and the row's number in
    its file. A row without a label has the label `unlabelled`; where that is None, it is an error. `only` are the properties that
    are kept; None keeps all. `time_format` is `iso`, `unix` or `unix-ms`. An empty
    `delimiter` stands for the one of comma, semicolon and tab that the header of a CSV file has most often, an empty `encoding`
    for UTF-8. `skip` lines stand before the header of a CSV file. `numbers` are the properties of a CSV or GPX file whose texts
    are read as numbers. A row without a time has `default_time`, where that is given. With `wrap`, longitudes of 180 to 360
    degrees are those of -180 to 0.
    """

    id: tuple[str, ...] = ()
    lon: str = ""
    lat: str = ""
    point: str = ""
    time: str = ""
    label: str = ""
    number: str | None = None
    unlabelled: str | None = None
    only: frozenset[str] | None = None
    time_format: str = "iso"
    delimiter: str = ""
    numbers: frozenset[str] = frozenset()
    encoding: str = ""
    skip: int = 0
    default_time: datetime | None = None
    wrap: bool = False

    def column(self, field: str) -> str:
        """The name of a field of a file that is written."""
        given: str = self.id[0] if field == "id" and self.id else getattr(self, field)
        return given if given and isinstance(given, str) else field

    def find(self, field: str, there: Mapping[str, Any]) -> str | None:
        """The name under which a field is there, in small letters, if it is; `RowError` where two are."""
        given: str = getattr(self, field)
        if given or field in there:
            name = given or field
            return name if name in there else None
        found = _candidates_of(field, tuple(there))
        if len(found) > 1:
            raise RowError(field, Plain(" and ".join(found)), f"one of them: name it by --{field}-column")
        return found[0] if found else None


def prepared(place: int, row: Row | RowError, wrap: bool) -> Prepared:
    """A row as a load needs it. With `wrap`, a longitude of 180 to 360 degrees is that of -180 to 0."""
    if isinstance(row, RowError):
        return place, "", "", row
    try:
        if wrap and 180.0 < row.lon <= 360.0:
            row = replace(row, lon=row.lon - 360.0)
        return place, row.id, row.label, row.body()
    except RowError as error:
        return place, row.id, row.label, error


def prepare_each(
    units: Iterable[tuple[int, Unit]], read: Callable[[Unit, int], Row | RowError], size: int, share: Share, wrap: bool
) -> Iterator[list[Prepared]]:
    """The rows of a share of units with places, by up to `size` at a time. `read` makes the row of a unit and its number."""
    rows = (
        (place, read(unit, number + 1) if share.has(number // size) else None) for number, (place, unit) in enumerate(units)
    )
    for batch in share.of(pieces(rows, size)):
        yield [prepared(place, row, wrap) for place, row in batch if row is not None]


def degrees(field: str, value: Any) -> float:
    """Degrees of a text or a number; `RowError` for another value. The range is judged where the row is put."""
    try:
        if value.__class__ is bool or (value.__class__ is str and "_" in value):
            raise ValueError
        return float(value)
    except (TypeError, ValueError, OverflowError):
        raise RowError(field, value, "degrees such as 12.5") from None


def read_point(field: str, text: str) -> list[float]:
    """Longitude, latitude and perhaps height of a point of WKT, or of EWKT in EPSG:4326; `RowError` for another text."""
    found = _POINT.fullmatch(text)
    try:
        numbers = [float(it) for it in found[1].split()] if found else []
    except ValueError:
        numbers = []
    if len(numbers) not in (2, 3):
        raise RowError(field, text, "WKT such as POINT(4.25 51.5), longitude first")
    return numbers


def read_time(value: Any, form: str) -> datetime:
    """The time of a value; `RowError` where it is none."""
    if form == "iso":
        if not isinstance(value, str):
            raise RowError("time", value, "an ISO 8601 time such as 2024-05-01T12:00:00Z, or --time-format unix")
        return parse_time(value)
    unit = "seconds" if form == "unix" else "milliseconds"
    try:
        number = float(value) if not isinstance(value, int) else value
        return EPOCH + timedelta(**{unit: number})
    except (TypeError, ValueError, OverflowError):
        raise RowError("time", value, f"{unit} since 1970-01-01T00:00:00Z") from None


def moment_of(text: str, names: Names) -> datetime:
    """The time of a text of CSV, of which the empty one is none; `RowError` where it is no time."""
    if text:
        return read_time(text, names.time_format)
    if names.default_time is None:
        raise MissingError("time", "a time, or --default-time")
    return names.default_time


def make_row(names: Names, number: int, lon: float, lat: float, values: dict[str, Any], own: Any = None) -> Row:
    """The row of a position and its values, which are taken out of `values` until the properties are left.

    `own` is the id that the row has beside its values. `RowError` where a field is missing or wrong.
    """
    name = read_id(names, number, values, own)
    time = _take_time(names, values)
    label = _take_label(names, values)
    properties = values if names.only is None else {key: values[key] for key in values if key in names.only}
    return Row(name, lon, lat, time, label, properties)


def read_id(names: Names, number: int, values: dict[str, Any], own: Any = None) -> str:
    """The id of a row by its values, out of which a single field of it is taken."""
    if names.id:
        parts = [_id_text(values.get(field), field) for field in names.id]
        if len(names.id) == 1:
            del values[names.id[0]]
        return join_ids(parts)
    if own is not None:
        return _id_text(own, "id")
    if values.get("id") is not None:
        return _id_text(values.pop("id"), "id")
    if names.number is None:
        raise MissingError("id", "an id: name its fields by --id-column, or number the rows by --number PREFIX")
    return f"{names.number}-{number}"


def join_ids(parts: Sequence[str]) -> str:
    """The id that several texts make, differently for different texts."""
    if len(parts) == 1:
        return parts[0]
    return "/".join(part.replace("%", "%25").replace("/", "%2F") for part in parts)


def _id_text(value: Any, field: str) -> str:
    if isinstance(value, str):
        return value
    if isinstance(value, int) and not isinstance(value, bool):
        return str(value)
    if value is None:
        raise MissingError(field, "an id of 1 to 64 bytes")
    raise RowError(field, value, "an id: a text or a whole number")


def _take_time(names: Names, values: dict[str, Any]) -> datetime:
    name = names.find("time", values)
    time = None if name is None else values.pop(name)
    if time is not None and time != "":
        return read_time(time, names.time_format)
    if names.default_time is None:
        raise MissingError(names.time or "time", "a time: name its field by --time-column, or give one by --default-time")
    return names.default_time


def _take_label(names: Names, values: dict[str, Any]) -> str:
    name = names.find("label", values)
    label = None if name is None else values.pop(name)
    if label is None:
        label = names.unlabelled
    if label is None:
        raise MissingError(names.label or "label", LABEL_WANTED)
    if not isinstance(label, str):
        raise RowError("label", label, "a text such as A&(B|C)")
    return label
