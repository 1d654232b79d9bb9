"""GPX 1.0 and 1.1: waypoints, track points and route points with a time.

What GPX has no element for stands in `extensions`, as JSON, when rows are written, and is read back from there.
"""

from __future__ import annotations

import json
from collections.abc import Iterable, Iterator, Mapping, Sequence
from decimal import Decimal
from typing import TYPE_CHECKING, Any, TextIO

from fashkiin.cells import parse_time, time_text
from fashkiin.errors import MissingError, RowError
from fashkiin.formats.fields import Found, Names, Prepared, Source, degrees, make_row, prepare_each, prepared
from fashkiin.formats.gpx_columns import Kind, PointBodies, Usual
from fashkiin.formats.gpx_points import NOTHING, Told, points, shared_points
from fashkiin.formats.gpx_texts import NAMESPACE, ROW, Texts, texts_of
from fashkiin.formats.numbers import NUMBERS_AT_A_TIME, Kinds, kinds_of, with_numbers
from fashkiin.pipeline import pieces
from fashkiin.rows import Row
from fashkiin.shares import WHOLE, Share

if TYPE_CHECKING:
    from xml.etree import ElementTree

GPX = "http://www.topografix.com/GPX/1/1"
HEAD = f'<?xml version="1.0" encoding="UTF-8"?>\n<gpx xmlns="{GPX}" version="1.1" creator="fashkiin">\n'
TAIL = "</gpx>\n"


def read(source: Source, names: Names) -> Iterator[Found]:
    """The rows of a GPX file, by the lines on which their points end. `InputError` where it is no GPX.

    A point of a track has its track's name as `track`, its track's type as `type` and the number of its segment as `segment`;
    elements of extensions, such as `hr` and `cad`, have their own names. What is kept in no row is told by `source.dropped`.
    """
    for number, (line, (point, track)) in enumerate(points(source, names.encoding), 1):
        row = _read_point(texts_of(point), track, names, number, source.dropped)
        if source.raw is not None:
            source.raw.append(_raw(point, track | {"id": f"{names.number}-{number}"}))
        yield line, row


def prepare(source: Source, names: Names, size: int, share: Share = WHOLE) -> Iterator[list[Prepared]]:
    """A share of the rows that `read` finds, by up to `size` at a time."""
    if _is_cut(names, share):
        bodies = PointBodies(names)
        for number, run in shared_points(source, size, share):
            rows = _rows(run, names, number, source.dropped, bodies)
            yield from (rows[at : at + size] for at in range(0, len(rows), size))
        return
    units = points(source, names.encoding)
    yield from prepare_each(
        units, lambda it, number: _read_point(texts_of(it[0]), it[1], names, number, source.dropped), size, share, names.wrap
    )


def _is_cut(names: Names, share: Share) -> bool:
    """Whether a process parses only its own share. In an encoding that the file does not name, points cannot be found before."""
    return share.is_cut and not names.encoding


def _rows(run: list[Told], names: Names, before: int, dropped: dict[str, None], bodies: PointBodies) -> list[Prepared]:
    """The rows of points behind so many others: those alike together, where they are as most are."""
    rows: dict[int, Prepared] = {}
    kinds: dict[Kind, list[Usual]] = {}
    for number, (line, texts, track) in enumerate(run, before + 1):
        if _is_usual(texts):
            kinds.setdefault((tuple(track), texts.names), []).append((number, line, texts, track))
    for kind, alike in kinds.items():
        rows.update(bodies.read(kind, alike))
    found = []
    for number, (line, texts, track) in enumerate(run, before + 1):
        if number in rows:
            dropped.update(texts.dropped)
            found.append(rows[number])
        else:
            found.append(prepared(line, _read_point(texts, track, names, number, dropped), names.wrap))
    return found


def _is_usual(point: Texts) -> bool:
    """Whether a point is as most are: with a place, a time, and texts that are not empty; and not one that `write` wrote."""
    return point.written is None and bool(point.lon and point.lat) and "time" in point.names and all(point.texts)


def numbers(source: Source, names: Names, share: Share = WHOLE) -> Iterator[Kinds]:
    """The kinds of the properties of a GPX file, by the points of a share."""
    for batch in _all_texts(source, names, share):
        kinds: dict[Sequence[str], list[Sequence[str]]] = {}
        for it in batch:
            kinds.setdefault(it.names, []).append(it.texts)
            source.dropped.update(it.dropped)
        texts: dict[str, list[str]] = {}
        for kind, alike in kinds.items():
            for name, column in zip(kind, zip(*alike, strict=True), strict=True):
                texts.setdefault(name, []).extend(filter(None, column))
        yield kinds_of(texts.items())


def _all_texts(source: Source, names: Names, share: Share) -> Iterator[list[Texts]]:
    """The texts of the points of a share, by many at a time."""
    size = NUMBERS_AT_A_TIME
    if _is_cut(names, share):
        for _, run in shared_points(source, size, share, is_for_kinds=True):
            yield from ([texts for _, texts, _ in run[at : at + size]] for at in range(0, len(run), size))
        return
    texts = (
        texts_of(point) if share.has(number // size) else NOTHING[1]
        for number, (_, (point, _)) in enumerate(points(source, names.encoding))
    )
    yield from share.of(pieces(texts, size))


def _read_point(point: Texts, track: Mapping[str, Any], names: Names, number: int, dropped: dict[str, None]) -> Row | RowError:
    """The row of a point and what it has of its track, or what is wrong with it."""
    try:
        lon, lat = degrees("lon", _needed("lon", point.lon)), degrees("lat", _needed("lat", point.lat))
        dropped.update(point.dropped)
        return _row(point, lon, lat, track, names, number)
    except RowError as error:
        return error


def _needed(field: str, text: str | None) -> str:
    if text is None:
        raise MissingError(field, f"a point with a {field}")
    return text


def _row(point: Texts, lon: float, lat: float, track: Mapping[str, Any], names: Names, number: int) -> Row:
    values: dict[str, Any] = point.values()
    if not values.get("time", "").strip():
        values.pop("time", "")
        if names.default_time is None:
            raise MissingError("time", "a point with a <time>, or --default-time")
    if point.written is not None:
        return _written(lon, lat, values.get("time", ""), point.written)
    return make_row(names, number, lon, lat, {**track, **with_numbers(values, names.numbers - {"time"})})


def _raw(point: ElementTree.Element, values: dict[str, Any]) -> bytes:
    """A point in a file of rejects: a waypoint, with its id and what it has of its track as extensions."""
    from xml.etree import ElementTree

    waypoint = ElementTree.Element(f"{{{GPX}}}wpt", point.attrib)
    waypoint.extend(point)
    if point.find(f"{{*}}extensions/{ROW}") is None:
        extensions = ElementTree.SubElement(waypoint, f"{{{GPX}}}extensions")
        for name, value in values.items():
            ElementTree.SubElement(extensions, f"{{{GPX}}}{name}").text = str(value)
    return ElementTree.tostring(waypoint) + b"\n"


def _written(lon: float, lat: float, time: str, text: str) -> Row:
    """A row that was written by `write`."""
    try:
        told = json.loads(text)
        return Row(told["id"], lon, lat, parse_time(time), told["label"], told["properties"])
    except RowError:
        raise
    except (ValueError, KeyError, TypeError):
        raise RowError("extensions", text, "the JSON of a row") from None


def write(rows: Iterable[Row], out: TextIO, names: Names) -> None:
    """Writes rows as waypoints."""
    out.write(HEAD)
    for row in rows:
        kept = json.dumps({"id": row.id, "label": row.label, "properties": row.properties}, separators=(",", ":"))
        kept = kept.replace("&", "&amp;").replace("<", "&lt;").replace(">", "&gt;")
        lon, lat = (format(Decimal(repr(float(degree))), "f") for degree in (row.lon, row.lat))
        out.write(
            f'<wpt lat="{lat}" lon="{lon}"><time>{time_text(row.time)}</time>'
            f'<extensions><row xmlns="{NAMESPACE}">{kept}</row></extensions></wpt>\n'
        )
    out.write(TAIL)
