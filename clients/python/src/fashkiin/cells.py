"""Degrees and times as cells of the store, by GeoMesa's normalized dimensions (`NormalizedLon`, `NormalizedLat`).

A longitude or latitude is one of 2,097,152 cells, a time is the whole seconds since 1970-01-01T00:00:00Z. A cell is about
19 m by 9.5 m at the equator. The way back gives the middle of the cell.
"""

from __future__ import annotations

import math
from collections.abc import Callable
from datetime import UTC, datetime, timedelta
from functools import lru_cache
from typing import NamedTuple

from fashkiin.errors import Plain, RowError

CELLS = 1 << 21
LAST_CELL = CELLS - 1
LAST_SECOND = 19_818_086_399
"""2598-01-03T23:59:59Z, the last second that the store takes."""

EPOCH = datetime(1970, 1, 1, tzinfo=UTC)
_SECOND = timedelta(seconds=1)

Bbox = tuple[float, float, float, float]
"""West, south, east, north in degrees. Where west is greater than east, it crosses the antimeridian (RFC 7946, 5.2)."""

Moment = datetime | str
"""A time: aware, or naive in UTC; a text is read by `parse_time`."""

Span = tuple[Moment | None, Moment | None]
"""First and last time, both included; None where that end is open."""

WORLD: Bbox = (-180.0, -90.0, 180.0, 90.0)


class Box(NamedTuple):
    """A box of cells and seconds as the server takes it, both ends included."""

    x0: int
    x1: int
    y0: int
    y1: int
    t0: int
    t1: int


EVERYTHING = Box(0, LAST_CELL, 0, LAST_CELL, 0, LAST_SECOND)


_COLUMNS_A_DEGREE = CELLS / 360.0
_LINES_A_DEGREE = CELLS / 180.0


def _denormalize(cell: int, low: float, high: float) -> float:
    return low + (min(cell, LAST_CELL) + 0.5) * ((high - low) / CELLS)


def longitude_cell(lon: float) -> int:
    """The column of a longitude of -180 to 180 degrees; `RowError` for another."""
    if not -180.0 <= lon <= 180.0:
        raise RowError("lon", lon, "-180 to 180 degrees")
    cell = int((lon + 180.0) * _COLUMNS_A_DEGREE)
    return cell if cell < CELLS else LAST_CELL


def latitude_cell(lat: float) -> int:
    """The line of a latitude of -90 to 90 degrees; `RowError` for another."""
    if not -90.0 <= lat <= 90.0:
        raise RowError("lat", lat, "-90 to 90 degrees")
    cell = int((lat + 90.0) * _LINES_A_DEGREE)
    return cell if cell < CELLS else LAST_CELL


def cell_longitude(x: int) -> float:
    """The longitude of the middle of a column."""
    return _denormalize(x, -180.0, 180.0)


def cell_latitude(y: int) -> float:
    """The latitude of the middle of a line."""
    return _denormalize(y, -90.0, 90.0)


@lru_cache(maxsize=4_096)
def parse_time(text: str) -> datetime:
    """An ISO 8601 time in UTC, to the microsecond; without an offset it is in UTC. `RowError` for another text."""
    try:
        return as_utc(datetime.fromisoformat(text.strip()))
    except (ValueError, OverflowError):
        raise RowError("time", text, "an ISO 8601 time such as 2024-05-01T12:00:00Z") from None


def as_utc(moment: datetime) -> datetime:
    """The time in UTC; a naive one is in UTC already."""
    if moment.tzinfo is UTC:
        return moment
    return moment.replace(tzinfo=UTC) if moment.tzinfo is None else moment.astimezone(UTC)


def as_time(moment: Moment) -> datetime:
    """A time in UTC from either form of a `Moment`."""
    return parse_time(moment) if isinstance(moment, str) else as_utc(moment)


def time_second(moment: datetime) -> int:
    """The second of a time from 1970-01-01T00:00:00Z to 2598-01-03T23:59:59Z; `RowError` for another."""
    second = (as_utc(moment) - EPOCH) // _SECOND
    if not 0 <= second <= LAST_SECOND:
        raise RowError("time", Plain(time_text(moment)), "1970-01-01T00:00:00Z to 2598-01-03T23:59:59Z")
    return second


def second_time(t: int) -> datetime:
    """The time of a second since 1970-01-01T00:00:00Z."""
    return EPOCH + timedelta(seconds=t)


def time_text(moment: datetime) -> str:
    """The time as ISO 8601 in UTC, with a fraction only where there is one."""
    return as_utc(moment).isoformat().removesuffix("+00:00") + "Z"


def span_times(span: Span | None) -> tuple[datetime, datetime]:
    """The first and the last time of a span, an open end being that of the store."""
    begin, end = span if span is not None else (None, None)
    first = EPOCH if begin is None else as_time(begin)
    last = second_time(LAST_SECOND) + timedelta(microseconds=999_999) if end is None else as_time(end)
    return first, last


def boxes(bbox: Bbox | None, span: Span | None) -> list[Box]:
    """The boxes that hold all cells of a bbox and a span: two where the bbox crosses the antimeridian, none where the
    span ends before it begins."""
    west, south, east, north = bbox if bbox is not None else WORLD
    first, last = span_times(span)
    if last < first or north < south:
        return []
    x0, x1 = longitude_cell(west), longitude_cell(east)
    rest = latitude_cell(south), latitude_cell(north), time_second(first), time_second(last)
    if west <= east:
        return [Box(x0, x1, *rest)]
    if x0 <= x1:
        return [Box(0, LAST_CELL, *rest)]
    return [Box(x0, LAST_CELL, *rest), Box(0, x1, *rest)]


def inner_box(box: Box, bbox: Bbox | None, span: Span | None) -> Box | None:
    """The part of one of the `boxes` of a bbox and a span whose cells and seconds lie wholly within both; None if there is none.

    A cell at an edge is cut where a position of it lies outside: the next number beyond the edge is of the same cell.
    """
    west, south, east, north = bbox if bbox is not None else WORLD
    first, last = span_times(span)
    if west > east and (box.x0, box.x1) == (0, LAST_CELL):
        return None  # It begins and ends in one cell.
    inner = Box(
        box.x0 + _cut(longitude_cell, west, -180.0, box.x0),
        box.x1 - _cut(longitude_cell, east, 180.0, box.x1),
        box.y0 + _cut(latitude_cell, south, -90.0, box.y0),
        box.y1 - _cut(latitude_cell, north, 90.0, box.y1),
        box.t0 + (first.microsecond != 0),
        box.t1 - (last.microsecond != 999_999),
    )
    return inner if inner.x0 <= inner.x1 and inner.y0 <= inner.y1 and inner.t0 <= inner.t1 else None


def _cut(cell: Callable[[float], int], degree: float, end: float, at: int) -> bool:
    """Whether an edge at a degree cuts the cell `at`, going out towards the end of the dimension. An end of the world that a box
    over the antimeridian has cuts nothing."""
    return cell(degree) == at and degree != end and cell(math.nextafter(degree, end)) == at


def shell(outer: Box, inner: Box) -> list[Box]:
    """Boxes that hold together, and each once, the cells and seconds of an outer box that are not in the inner one."""
    x, y, t = (inner.x0, inner.x1), (inner.y0, inner.y1), (outer.t0, outer.t1)
    parts = [
        Box(outer.x0, inner.x0 - 1, outer.y0, outer.y1, *t),
        Box(inner.x1 + 1, outer.x1, outer.y0, outer.y1, *t),
        Box(*x, outer.y0, inner.y0 - 1, *t),
        Box(*x, inner.y1 + 1, outer.y1, *t),
        Box(*x, *y, outer.t0, inner.t0 - 1),
        Box(*x, *y, inner.t1 + 1, outer.t1),
    ]
    return [part for part in parts if part.x0 <= part.x1 and part.y0 <= part.y1 and part.t0 <= part.t1]


def holds(bbox: Bbox | None, lon: float, lat: float) -> bool:
    """Whether the bbox holds an exact position."""
    if bbox is None:
        return True
    west, south, east, north = bbox
    column = west <= lon <= east if west <= east else lon >= west or lon <= east
    return column and south <= lat <= north
