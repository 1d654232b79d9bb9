"""Records of CSV by whole columns: the bodies of many puts at a time, each as `Row.body` makes it."""

from __future__ import annotations

import contextlib
from collections.abc import Iterable, Sequence
from datetime import UTC, datetime
from functools import lru_cache
from itertools import chain

from fashkiin.cells import latitude_cell, longitude_cell, time_second, time_text
from fashkiin.formats.fields import Names, Prepared, join_ids, moment_of
from fashkiin.formats.header import Columns
from fashkiin.formats.numbers import number_or_text
from fashkiin.rows import ID_BYTES, NOTE_BYTES, label_json, quoted, to_json

DAYS, TIMES, NUMBERS = 16_384, 131_072, 16_384
"""How many days, times of a day and numbers are remembered."""


class Bodies:
    """Makes rows of records that are as most are. For records with another one among them, `read` raises `ValueError` or
    `OverflowError`: then each of them is to be read by itself, so that it is known what is wrong with which."""

    def __init__(self, columns: Columns, names: Names) -> None:
        self._columns = columns
        self._names = names
        self._properties = [(at, f",{_within(quoted(name))}:", is_number) for at, name, is_number in columns.properties]

    def read(self, places: Sequence[int], records: Sequence[Sequence[str]], number: int) -> list[Prepared]:
        """The rows of records at these places. The first has this number in its file."""
        cells = list(zip(*records, strict=True))
        if len(cells) != len(self._columns.header) or self._columns.point is not None:
            raise ValueError("another number of columns, or WKT")
        "".join(chain.from_iterable(cells)).encode()
        ids = self._ids(cells, len(records), number)
        labels = self._labels(cells, len(records))
        lons, lats = self._degrees(cells)
        times = self._times(cells, len(records))
        notes = self._notes(cells, len(records))
        bodies = [
            f'{{"id":{quoted(name)},"point":[{longitude_cell(lon)},{latitude_cell(lat)},{second}],"label":{label_json(label)},'
            f'"note":"{{\\"at\\":[{lon!r},{lat!r}],\\"time\\":\\"{time}\\"{note}}}"}}'.encode()
            for name, label, lon, lat, (second, time), note in zip(ids, labels, lons, lats, times, notes, strict=True)
        ]
        if max(map(len, bodies)) > NOTE_BYTES:
            raise ValueError("perhaps a note that is too long")
        return list(zip(places, ids, labels, bodies, strict=True))

    def _ids(self, cells: Sequence[Sequence[str]], count: int, number: int) -> Sequence[str]:
        """The ids, each of 1 to 64 bytes."""
        at = self._columns.id
        if not at:
            ids: Sequence[str] = [f"{self._names.number}-{it}" for it in range(number, number + count)]
        elif len(at) == 1:
            ids = cells[at[0]]
        else:
            ids = [join_ids(parts) for parts in zip(*(cells[it] for it in at), strict=True)]
        sizes = list(map(len, ids if "".join(ids).isascii() else map(str.encode, ids)))
        if min(sizes) < 1 or max(sizes) > ID_BYTES:
            raise ValueError("an id of too many bytes, or of none")
        return ids

    def _labels(self, cells: Sequence[Sequence[str]], count: int) -> Sequence[str]:
        unlabelled = self._names.unlabelled or ""
        if self._columns.label is None:
            return [unlabelled] * count
        labels = cells[self._columns.label]
        return [label or unlabelled for label in labels] if unlabelled else labels

    def _degrees(self, cells: Sequence[Sequence[str]]) -> tuple[Sequence[float], Sequence[float]]:
        """The longitudes and latitudes, whose ranges are still to be judged."""
        columns = cells[self._columns.lon], cells[self._columns.lat]
        if any("_" in "".join(column) for column in columns):
            raise ValueError("perhaps a number as Python alone writes it")
        lons, lats = (list(map(float, column)) for column in columns)
        if self._names.wrap:
            lons = [lon - 360.0 if 180.0 < lon <= 360.0 else lon for lon in lons]
        return lons, lats

    def _times(self, cells: Sequence[Sequence[str]], count: int) -> Iterable[tuple[int, str]]:
        """The seconds of the times, and their texts in a note."""
        at, names = self._columns.time, self._names
        texts: Sequence[str] = [""] * count if at is None else cells[at]
        if names.time_format == "iso" and at is not None:
            with contextlib.suppress(ValueError):
                parts = [(_day(text[:10]), _time_of_day(text[10:])) for text in texts]
                return [(first + second, day + time) for (first, day), (second, time) in parts]
        moments = [moment_of(text, names) for text in texts]
        return [(time_second(moment), time_text(moment)) for moment in moments]

    def _notes(self, cells: Sequence[Sequence[str]], count: int) -> Iterable[str]:
        """The properties, as they stand in a note within a body. An empty cell is none."""
        columns = [_members(cells[at], before, is_number) for at, before, is_number in self._properties]
        texts = map("".join, zip(*columns, strict=True)) if columns else [""] * count
        return [f',\\"properties\\":{{{text[1:]}}}' if text else "" for text in texts]


def _within(text: str) -> str:
    """A text of JSON as it stands within a text of JSON."""
    return quoted(text)[1:-1]


def _members(cells: Sequence[str], before: str, is_number: bool) -> list[str]:
    """The members of objects that the cells of a column make. `before` is the name."""
    if is_number:
        return [before + _number(cell) if cell else "" for cell in cells]
    together = "".join(cells)
    if together.isprintable() and '"' not in together and "\\" not in together:
        return [f'{before}\\"{cell}\\"' if cell else "" for cell in cells]
    return [before + _within(quoted(cell)) if cell else "" for cell in cells]


@lru_cache(maxsize=NUMBERS)
def _number(text: str) -> str:
    """The number that a text is, or the text, within a text of JSON."""
    return _within(to_json(number_or_text(text)))


@lru_cache(maxsize=DAYS)
def _day(text: str) -> tuple[int, str]:
    """The first second of a day such as `2024-05-01`, and the day. `ValueError` for another text."""
    moment = datetime.fromisoformat(text).replace(tzinfo=UTC)
    if time_text(moment) != f"{text}T00:00:00Z":
        raise ValueError("no day as ISO 8601 writes it at length")
    return time_second(moment), text


@lru_cache(maxsize=TIMES)
def _time_of_day(text: str) -> tuple[int, str]:
    """The second of a time of a day in UTC, such as `T12:00:00Z`, or of none for the day's begin; and the time in a note.
    `ValueError` for another text."""
    moment = datetime.fromisoformat(f"1970-01-01{text}")
    if moment.tzinfo not in (None, UTC):
        raise ValueError("a time that may be of another day in UTC")
    return time_second(moment), time_text(moment)[len("1970-01-01") :]
