"""Rows: labelled points in degrees and time, and how they stand in the store.

The store knows a point by its cell and its second. The exact position and time, and the row's properties, stand in the note as
a JSON object: `{"at":[lon,lat],"time":"2024-05-01T12:00:00Z","properties":{}}`. Any other note is read as the property `note`
of a row in the middle of its cell.
"""

from __future__ import annotations

import json
from collections.abc import Callable, Mapping, Sequence
from dataclasses import dataclass, field
from datetime import datetime
from functools import lru_cache
from typing import Any

from fashkiin.cells import (
    as_utc,
    cell_latitude,
    cell_longitude,
    latitude_cell,
    longitude_cell,
    parse_time,
    second_time,
    time_second,
    time_text,
)
from fashkiin.errors import Plain, ReplyError, RowError

ID_BYTES = 64
NOTE_BYTES = 4_096
LABEL_BYTES = 256
LABELS = 1_024

Properties = Mapping[str, Any]
"""The properties of a row by their names: values of JSON."""

_encoder = json.JSONEncoder(ensure_ascii=False, allow_nan=False, separators=(",", ":"))
to_json = _encoder.encode
"""A value as compact JSON."""

quoted: Callable[[str], str] = json.encoder.encode_basestring  # type: ignore[attr-defined]
"""A text as JSON."""


@dataclass(frozen=True, slots=True)
class Row:
    """A labelled point.

    `id` has 1 to 64 bytes, `lon` and `lat` are degrees of WGS 84, `time` is in UTC from 1970 to 2598, `label` is an Accumulo
    visibility expression, the empty one being seen by everybody. `properties` are values of JSON.
    """

    id: str
    lon: float
    lat: float
    time: datetime
    label: str
    properties: Properties = field(default_factory=dict)

    def point(self) -> tuple[int, int, int]:
        """The cell and the second; `RowError` where the position or the time is out of range."""
        return longitude_cell(self.lon), latitude_cell(self.lat), time_second(self.time)

    def note(self) -> str:
        """The note in the store; `RowError` where it takes more than 4,096 bytes or is no JSON."""
        text = f'{{"at":[{float(self.lon)!r},{float(self.lat)!r}],"time":"{time_text(self.time)}"'
        try:
            text += f',"properties":{to_json(self.properties)}}}' if self.properties else "}"
        except (TypeError, ValueError, RecursionError):
            raise RowError("properties", self.properties, "values of JSON, without NaN or Infinity") from None
        bound("note", text, 0, NOTE_BYTES)
        return text

    def body(self) -> bytes:
        """The body of a put; `RowError` where the row cannot be stored. The label is judged by the server."""
        bound("id", self.id, 1, ID_BYTES)
        label = label_json(self.label)
        x, y, t = self.point()
        return f'{{"id":{quoted(self.id)},"point":[{x},{y},{t}],"label":{label},"note":{quoted(self.note())}}}'.encode()


@lru_cache(maxsize=LABELS)
def label_json(label: str) -> str:
    """The JSON of a label; `RowError` where it is too long. Most rows of a file have one of few."""
    bound("label", label, 0, LABEL_BYTES)
    return quoted(label)


def bound(name: str, text: str, least: int, most: int) -> None:
    """`RowError` where a field is no text, no UTF-8, or not of so many bytes."""
    if not isinstance(text, str):
        raise RowError(name, text, "a text")
    if least <= len(text) <= most and text.isascii():
        return
    try:
        size = len(text.encode())
    except UnicodeEncodeError as error:
        raise RowError(name, text[error.start : error.start + 20], "UTF-8") from None
    if not least <= size <= most:
        raise RowError(name, Plain(f"{size:,} bytes"), f"{least} to {most:,} bytes")


@dataclass(frozen=True, slots=True)
class Place:
    """A place in a scan, behind which the next page begins."""

    id: str
    label: str
    point: tuple[int, int, int]

    def wire(self) -> dict[str, Any]:
        """The place as the server takes it."""
        return {"id": self.id, "label": self.label, "point": list(self.point)}


@dataclass(frozen=True, slots=True)
class Page:
    """The rows of one page of a scan, and the place of the next one; None where there is none."""

    rows: Sequence[Row]
    next: Place | None


def read_row(told: Mapping[str, Any]) -> Row:
    """The row of a reply; `ReplyError` where it is none."""
    try:
        x, y, t = told["point"]
        return _read_note(told["id"], told["label"], (x, y, t), told["note"])
    except (KeyError, TypeError, ValueError):
        raise ReplyError("the server told a row without its fields") from None


def _read_note(name: str, label: str, point: tuple[int, int, int], note: str) -> Row:
    exact = _exact(point, note)
    if exact is not None:
        lon, lat, time, properties = exact
        return Row(name, lon, lat, time, label, properties)
    x, y, t = point
    return Row(name, cell_longitude(x), cell_latitude(y), second_time(t), label, {"note": note} if note else {})


def _exact(point: tuple[int, int, int], note: str) -> tuple[float, float, datetime, Properties] | None:
    """What a note of the form above says, if it lies in the row's cell and second and is JSON that can be written again."""
    if not note.startswith('{"at":'):
        return None
    try:
        said = json.loads(note)
        lon, lat = said["at"]
        time = as_utc(parse_time(said["time"]))
        inside = (longitude_cell(lon), latitude_cell(lat), time_second(time)) == point
        properties = said.get("properties", {})
        if properties:
            to_json(properties).encode()
    except (ValueError, KeyError, TypeError, AttributeError, RecursionError):
        return None
    if not inside or type(lon) is not float or type(lat) is not float or not isinstance(properties, dict):
        return None
    return lon, lat, time, properties


def read_place(told: Mapping[str, Any] | None) -> Place | None:
    """The place of a reply's `next`; `ReplyError` where it is none."""
    if told is None:
        return None
    try:
        x, y, t = told["point"]
        return Place(told["id"], told["label"], (x, y, t))
    except (KeyError, TypeError, ValueError):
        raise ReplyError("the server told a place without its fields") from None
