"""The parameters of a request for the features of a collection (OGC 17-069r4, 7.15.2 to 7.15.5, and 18-058r1)."""

from __future__ import annotations

import base64
import json
import math
import re
from collections.abc import Mapping
from dataclasses import dataclass
from datetime import datetime, timedelta
from typing import Any
from urllib.parse import parse_qsl

from fashkiin.cells import EPOCH, LAST_CELL, LAST_SECOND, WORLD, Bbox, Box, as_utc, boxes, holds, second_time, time_text
from fashkiin.errors import FashkiinError, ReplyError, RowError
from fashkiin.features.crs import CRS84, EPSG_4326, SUPPORTED
from fashkiin.rows import ID_BYTES, LABEL_BYTES, Place, Row, bound, read_place, to_json

LEAST_LIMIT, DEFAULT_LIMIT, LARGEST_LIMIT = 1, 100, 1_000
# GDAL reads no document with more than 32 lists or objects within each other, four of which are around a property.
MOST_NESTED = 24
# GDAL takes integers beyond 64 bits for these, and warns of them.
LEAST_INTEGER, LARGEST_INTEGER = -(1 << 63), (1 << 63) - 1
FORMATS = ("json", "html")
OF_DOCUMENTS = ("f",)
OF_FEATURE = ("crs", "f")
OF_FEATURES = ("bbox", "bbox-crs", "datetime", "limit", "after", "crs", "f")

# RFC 3339, "date-time".
_DATE_TIME = re.compile(r"[0-9]{4}-[0-9]{2}-[0-9]{2}T[0-9]{2}:[0-9]{2}:[0-9]{2}(\.[0-9]+)?(Z|[+-][0-9]{2}:[0-9]{2})")
# RFC 8259, "number".
_NUMBER = re.compile(r"-?(0|[1-9][0-9]{0,30})(\.[0-9]{1,30})?([eE][+-]?[0-9]{1,3})?")
_LAST = second_time(LAST_SECOND) + timedelta(microseconds=999_999)


class ParameterError(FashkiinError):
    """A parameter of no use: its name, and what was wanted."""

    def __init__(self, name: str, wanted: str) -> None:
        super().__init__(name, wanted)
        self.name = name
        self.wanted = wanted

    def __str__(self) -> str:
        return f"{self.name}: wanted {self.wanted}"


@dataclass(frozen=True, slots=True)
class Filter:
    """A property and the value that it is to have."""

    name: str
    value: str

    def matches(self, properties: Mapping[str, Any]) -> bool:
        """Whether the property is this text, this number, or this `true` or `false`."""
        told = properties.get(self.name)
        match told:
            case str():
                return told == self.value
            case bool():
                return self.value == ("true" if told else "false")
            case int() | float():
                return _NUMBER.fullmatch(self.value) is not None and told == json.loads(self.value)
            case _:
                return False


@dataclass(frozen=True, slots=True)
class Query:
    """Which features are asked for. None stands for all; `begin` and `end` are included, and one of them may be open."""

    bbox: Bbox | None = None
    begin: datetime | None = None
    end: datetime | None = None
    filters: tuple[Filter, ...] = ()
    limit: int = DEFAULT_LIMIT
    after: Place | None = None
    crs: str = CRS84

    @property
    def whole(self) -> bool:
        """Whether every row matches."""
        return self.bbox is None and self.begin is None and self.end is None and not self.filters

    def matches(self, row: Row) -> bool:
        """Whether the exact position and time of a row, and its properties, are asked for."""
        return (
            holds(self.bbox, row.lon, row.lat)
            and (self.begin is None or self.begin <= row.time)
            and (self.end is None or row.time <= self.end)
            and (not self.filters or self._filters_match(row))
        )

    def _filters_match(self, row: Row) -> bool:
        properties = feature_properties(row)
        return all(one.matches(properties) for one in self.filters)

    def boxes(self) -> list[Box]:
        """The boxes of the store that hold all matching rows, from the one that `after` lies in on."""
        begin, end = self.begin or EPOCH, self.end or _LAST
        if end < EPOCH or _LAST < begin or (self.bbox is not None and not _meets_the_world(self.bbox)):
            return []
        found = boxes(_clamped(self.bbox), (max(begin, EPOCH), min(end, _LAST)))
        if self.after is None:
            return found
        column = self.after.point[0]
        for index, box in enumerate(found):
            if box.x0 <= column <= box.x1:
                return found[index:]
        raise _bad_after()


def feature_properties(row: Row) -> dict[str, Any]:
    """The properties of a row's feature: the row's, and `id`, `time` and `label`. A property of such a name has a line before its
    name. One that readers would take for another is its JSON as a text."""
    properties: dict[str, Any] = {"id": row.id, "time": time_text(row.time), "label": row.label}
    for name, value in row.properties.items():
        while name in properties:
            name = "_" + name
        properties[name] = to_json(value) if _is_misread(value) else value
    return properties


def _is_misread(value: Any) -> bool:
    """Whether a value has an integer beyond 64 bits, or lists or objects within each other beyond `MOST_NESTED`."""
    level = [value]
    for _ in range(MOST_NESTED + 1):
        if any(isinstance(one, int) and not LEAST_INTEGER < one < LARGEST_INTEGER for one in level):
            return True
        nested = [one.values() if isinstance(one, dict) else one for one in level if isinstance(one, dict | list)]
        if not nested:
            return False
        level = [one for each in nested for one in each]
    return True


def _meets_the_world(bbox: Bbox) -> bool:
    west, south, east, north = bbox
    return south <= 90 and north >= -90 and (west > east or (west <= 180 and east >= -180))


def _clamped(bbox: Bbox | None) -> Bbox:
    """The part of a bbox that lies in the world."""
    if bbox is None:
        return WORLD
    west, south, east, north = bbox
    return min(max(west, -180), 180), max(south, -90), min(max(east, -180), 180), min(north, 90)


def read_query(given: Mapping[str, str]) -> Query:
    """The query of a request's parameters; `ParameterError` for an invalid one. Those that have no meaning of their own are
    filters by a property."""
    begin, end = read_datetime(given["datetime"]) if "datetime" in given else (None, None)
    bbox_crs = read_crs(given, "bbox-crs")
    return Query(
        bbox=read_bbox(given["bbox"], bbox_crs) if "bbox" in given else None,
        begin=begin,
        end=end,
        filters=tuple(Filter(name, value) for name, value in given.items() if name not in OF_FEATURES),
        limit=read_limit(given["limit"]) if "limit" in given else DEFAULT_LIMIT,
        after=read_after(given["after"]) if "after" in given else None,
        crs=read_crs(given, "crs"),
    )


def read_parameters(text: str, known: tuple[str, ...], others: bool = False) -> dict[str, str]:
    """The parameters of a URL's query part; `ParameterError` for one that is there twice, for a form other than `FORMATS`, and,
    without `others`, for one that is not known."""
    try:
        pairs = parse_qsl(text, keep_blank_values=True, errors="strict", max_num_fields=100)
    except ValueError:
        raise ParameterError("query", "parameters in UTF-8, at most 100") from None
    given: dict[str, str] = {}
    for name, value in pairs:
        if name not in known and not others:
            raise ParameterError(name, f"one of {', '.join(known)}")
        if name in given:
            raise ParameterError(name, "one value")
        given[name] = value
    if given.get("f", "json") not in FORMATS:
        raise ParameterError("f", " or ".join(FORMATS))
    return given


def read_limit(text: str) -> int:
    """How many features a page has at most; a number beyond the largest stands for that."""
    if not re.fullmatch(r"[0-9]{1,18}", text) or int(text) < LEAST_LIMIT:
        raise ParameterError("limit", f"an integer from {LEAST_LIMIT} on")
    return min(int(text), LARGEST_LIMIT)


def read_crs(given: Mapping[str, str], name: str) -> str:
    """The coordinate reference system that a parameter names, CRS84 where it is not there."""
    crs = given.get(name, CRS84)
    if crs not in SUPPORTED:
        raise ParameterError(name, " or ".join(SUPPORTED))
    return crs


def read_bbox(text: str, crs: str = CRS84) -> Bbox:
    """Four numbers in the order of the system's axes, or six with heights, which no point has. Across the antimeridian, west is
    greater than east."""
    try:
        numbers = [float(number) for number in text.split(",")]
    except ValueError:
        numbers = []
    if len(numbers) == 6:
        numbers = [*numbers[:2], *numbers[3:5]]
    latitude_first = crs == EPSG_4326
    if latitude_first and len(numbers) == 4:
        numbers = [numbers[1], numbers[0], numbers[3], numbers[2]]
    if len(numbers) != 4 or not all(map(math.isfinite, numbers)) or numbers[1] > numbers[3]:
        order = "south,west,north,east" if latitude_first else "west,south,east,north"
        raise ParameterError("bbox", f"{order} in degrees, with south <= north")
    west, south, east, north = numbers
    return west, south, east, north


def read_datetime(text: str) -> tuple[datetime | None, datetime | None]:
    """A time as both ends of a span, or the two ends of an interval, one of which may be open."""
    ends = [None if end in ("", "..") else _date_time(end) for end in text.split("/")]
    begin, end = ends if len(ends) == 2 else (ends[0], ends[0])
    if len(ends) > 2 or (begin is None and end is None) or (begin is not None and end is not None and begin > end):
        raise _bad_datetime()
    return begin, end


def _date_time(text: str) -> datetime:
    # A plus that was not escaped in the URL is read as a blank.
    text = text.upper().replace(" ", "+")
    if not _DATE_TIME.fullmatch(text):
        raise _bad_datetime()
    try:
        return as_utc(datetime.fromisoformat(text))
    except (ValueError, OverflowError):
        raise _bad_datetime() from None


def _bad_datetime() -> ParameterError:
    return ParameterError("datetime", "a time of RFC 3339, or two with / between, the first not after the second, or .. for one")


def write_after(place: Place) -> str:
    """A place as the value of a parameter."""
    return base64.urlsafe_b64encode(to_json(place.wire()).encode()).decode()


def read_after(text: str) -> Place:
    """The place that `write_after` wrote."""
    try:
        told: Any = json.loads(base64.b64decode(text, altchars=b"-_", validate=True))
        place = read_place(told)
        if place is None:
            raise _bad_after()
        bound("id", place.id, 1, ID_BYTES)
        bound("label", place.label, 0, LABEL_BYTES)
        most = (LAST_CELL, LAST_CELL, LAST_SECOND)
        inside = all(type(number) is int and 0 <= number <= end for number, end in zip(place.point, most, strict=True))
    except (ValueError, RecursionError, ReplyError, AttributeError, RowError):
        raise _bad_after() from None
    if not inside:
        raise _bad_after()
    return place


def _bad_after() -> ParameterError:
    return ParameterError("after", "the value of a next link")
