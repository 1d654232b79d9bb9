"""GeoJSON (RFC 7946): a FeatureCollection, or a Feature a line, with or without record separators (RFC 8142); and other objects,
one a line."""

from __future__ import annotations

import copy
import json
from collections.abc import Iterable, Iterator
from typing import Any, TextIO

from fashkiin.cells import time_text
from fashkiin.errors import FashkiinError, MissingError, Plain, RowError
from fashkiin.formats.collection import read_features
from fashkiin.formats.fields import Found, Names, Prepared, Source, degrees, make_row, prepare_each
from fashkiin.rows import Row, to_json
from fashkiin.shares import WHOLE, Share

AROUND = ('{"type":"FeatureCollection","features":[\n', ",\n", "\n]}\n")
"""What stands before, between and behind the features of a FeatureCollection."""

_decode = json.JSONDecoder().raw_decode


def read_lines(source: Source, names: Names) -> Iterator[Found]:
    """The rows of a file of a Feature or another object a line, by their lines."""
    for number, (line, text) in enumerate(_lines(source), 1):
        row = _read_line(text, names, number)
        if source.raw is not None:
            source.raw.append(_raw_line(text, names, number))
        yield line, row


def prepare_lines(source: Source, names: Names, size: int, share: Share = WHOLE) -> Iterator[list[Prepared]]:
    """A share of the rows that `read_lines` finds, by up to `size` at a time."""
    return prepare_each(_lines(source), lambda text, number: _read_line(text, names, number), size, share, names.wrap)


def _lines(source: Source) -> Iterator[tuple[int, bytes]]:
    """The lines that are not blank, by their numbers."""
    for line, data in enumerate(source.stream, 1):
        text = data.strip().lstrip(b"\x1e\xef\xbb\xbf")
        if text:
            yield line, text


def _read_line(text: bytes, names: Names, number: int) -> Row | RowError:
    try:
        value = _value(text.decode())
        if isinstance(value, dict) and value.get("type") != "Feature":
            return read_object(value, names, number)
        return read_feature(value, names, number)
    except UnicodeDecodeError as error:
        return RowError("row", text[max(0, error.start - 10) : error.start + 10], "UTF-8")
    except json.JSONDecodeError as error:
        return RowError("row", Plain(f"{error.msg} at column {error.colno}"), "a whole GeoJSON Feature in a line")
    except RecursionError:
        return RowError("row", Plain("too many brackets"), "a GeoJSON Feature in a line")
    except RowError as error:
        return error
    except ValueError as error:
        return RowError("row", Plain(error), "a GeoJSON Feature in a line")


def _value(text: str) -> Any:
    """A value of JSON. For other texts, and those with blanks around, `json.loads` takes longer."""
    try:
        value, end = _decode(text)
    except ValueError:
        end = -1
    return value if end == len(text) else json.loads(text)


def _raw_line(text: bytes, names: Names, number: int) -> bytes:
    """A line of a file of rejects: the line, with its id where that is the row's number."""
    try:
        return _raw(json.loads(text), names, number) + b"\n"
    except (ValueError, RecursionError):
        return text + b"\n"


def _raw(value: Any, names: Names, number: int) -> bytes:
    """A value in a file of rejects, with its id where that is the row's number."""
    if isinstance(value, dict) and names.number is not None and not names.id and value.get("id") is None:
        properties = value.get("properties")
        if not isinstance(properties, dict) or properties.get("id") is None:
            value = value | {"id": f"{names.number}-{number}"}
    return json.dumps(value).encode()


def read(source: Source, names: Names) -> Iterator[Found]:
    """The rows of a FeatureCollection, by the numbers of their features. `InputError` where the file is none."""
    for number, feature in _features(source, names):
        yield number, _read_feature(feature, names, number)


def prepare(source: Source, names: Names, size: int, share: Share = WHOLE) -> Iterator[list[Prepared]]:
    """A share of the rows that `read` finds, by up to `size` at a time."""
    units = _features(source, names)
    return prepare_each(units, lambda feature, number: _read_feature(feature, names, number), size, share, names.wrap)


def _features(source: Source, names: Names) -> Iterator[tuple[int, Any]]:
    """The features of a FeatureCollection, by their numbers, and what rejects need of them."""
    number = 0
    try:
        for number, feature in enumerate(read_features(source.stream), 1):
            if source.raw is not None:
                source.raw.append(_raw(feature, names, number))
            yield number, feature
    except LookupError:
        raise source.fail("1", "no features, wanted a GeoJSON FeatureCollection") from None
    except (ValueError, RecursionError) as error:
        raise source.fail(f"feature {number + 1}", f"{error}, wanted a GeoJSON FeatureCollection") from None


def _read_feature(feature: Any, names: Names, number: int) -> Row | RowError:
    """The row of a Feature, or what is wrong with it."""
    try:
        return read_feature(feature, names, number)
    except RowError as error:
        return error


def read_object(value: dict[str, Any], names: Names, number: int) -> Row:
    """The row of an object whose members are its fields and properties; `RowError` where a field is missing or wrong."""
    if any("." in name for name in (*names.id, names.lon, names.lat, names.time, names.label)):
        value = _flat(value, names)
    lon, lat = (degrees(field, _take(value, names, field)) for field in ("lon", "lat"))
    return make_row(names, number, lon, lat, value)


def _take(values: dict[str, Any], names: Names, field: str) -> Any:
    """The value of a field, which is taken out of the values."""
    name = names.find(field, values)
    if name is None:
        wanted: str = getattr(names, field) or field
        raise MissingError(wanted, f"a GeoJSON Feature, or an object with a {field}: name it by --map {field}=NAME")
    return values.pop(name)


def _flat(value: dict[str, Any], names: Names) -> dict[str, Any]:
    """The object with the values of paths such as `position.lon` as members of those names. An object that they leave empty is
    not kept; a list is."""
    flat = copy.deepcopy(value)
    for name in (*names.id, names.lon, names.lat, names.time, names.label):
        if "." in name and name not in flat:
            _lift(flat, name)
    return flat


def _lift(flat: dict[str, Any], path: str) -> None:
    *steps, last = path.split(".")
    holders: list[tuple[Any, str]] = []
    at: Any = flat
    for step in steps:
        holders.append((at, step))
        at = _member(at, step)
    found = _member(at, last)
    if found is None:
        return
    if isinstance(at, dict):
        del at[last]
        for holder, step in reversed(holders):
            if holder.__class__ is dict and holder[step] == {}:
                del holder[step]
    flat[path] = found


def _member(value: Any, step: str) -> Any:
    """A member of an object by its name, or of a list by its place from 0; None where there is none."""
    if isinstance(value, dict):
        return value.get(step)
    if isinstance(value, list) and step.isdecimal() and int(step) < len(value):
        return value[int(step)]
    return None


def read_feature(feature: Any, names: Names, number: int) -> Row:
    """The row of a Feature of a Point; `RowError` for another value. A third coordinate is the property `ele`."""
    if not isinstance(feature, dict) or feature.get("type") != "Feature":
        raise RowError("type", feature.get("type") if isinstance(feature, dict) else feature, "a GeoJSON Feature")
    geometry = feature.get("geometry")
    if not isinstance(geometry, dict) or geometry.get("type") != "Point":
        raise RowError("geometry", geometry.get("type") if isinstance(geometry, dict) else geometry, "a Point")
    place = geometry.get("coordinates")
    if not isinstance(place, list) or len(place) < 2:
        raise RowError("coordinates", place, "a longitude and a latitude")
    values = feature.get("properties")
    if values is None:
        values = {}
    if not isinstance(values, dict):
        raise RowError("properties", values, "an object")
    if len(place) > 2:
        values.setdefault("ele", place[2])
    return make_row(names, number, degrees("lon", place[0]), degrees("lat", place[1]), values, feature.get("id"))


def write_feature(row: Row, names: Names) -> str:
    """The Feature of a row; `FashkiinError` where a property has the name of the time or the label."""
    properties: dict[str, Any] = {names.column("time"): time_text(row.time), names.column("label"): row.label}
    for name, value in row.properties.items():
        if name in properties:
            field = "time" if name == names.column("time") else "label"
            raise FashkiinError(
                f"row {row.id!r} has a property {name!r} of its own: name the row's {field} by another --{field}-column"
            )
        properties[name] = value
    point = {"type": "Point", "coordinates": [row.lon, row.lat]}
    return to_json({"type": "Feature", "id": row.id, "geometry": point, "properties": properties})


def write_lines(rows: Iterable[Row], out: TextIO, names: Names) -> None:
    """Writes a Feature a line."""
    for row in rows:
        out.write(write_feature(row, names) + "\n")


def write(rows: Iterable[Row], out: TextIO, names: Names) -> None:
    """Writes a FeatureCollection."""
    head, between, tail = AROUND
    out.write(head)
    separator = ""
    for row in rows:
        out.write(separator + write_feature(row, names))
        separator = between
    out.write(tail)
