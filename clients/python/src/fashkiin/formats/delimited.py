"""CSV (RFC 4180), with a header line. A cell without text is a property that is not there."""

from __future__ import annotations

import codecs
import contextlib
import csv
import io
import json
from collections import deque
from collections.abc import Iterable, Iterator, Sequence
from itertools import chain, count, islice
from typing import Any, TextIO

from fashkiin.cells import time_text
from fashkiin.errors import FashkiinError, Plain, RowError
from fashkiin.formats.columns import Bodies
from fashkiin.formats.fields import Found, Names, Prepared, Source, degrees, join_ids, moment_of, prepared, read_point
from fashkiin.formats.header import Columns, find_columns, read_header
from fashkiin.formats.numbers import NUMBERS_AT_A_TIME, Kinds, kinds_of, number_or_text
from fashkiin.pipeline import pieces
from fashkiin.rows import Row, to_json
from fashkiin.shares import WHOLE, Share

FIELDS = ("id", "lon", "lat", "time", "label")
DELIMITERS = (",", ";", "\t")
csv.field_size_limit(1 << 20)

_Record = tuple[int, list[str] | RowError]


def read(source: Source, names: Names) -> Iterator[Found]:
    """The rows of a CSV file by their lines. `InputError` where the header lacks a column."""
    with _Text(source, names) as text:
        records = text.records()
        columns = find_columns(source, read_header(source, records), names)
        numbered = None if columns.id else names.number
        if source.raw is not None:
            source.head = text.head("" if numbered is None else "id")
        number = 0
        for line, fields in _records(text, records):
            number += bool(fields)
            if source.raw is not None:
                raw = text.record("" if numbered is None else f"{numbered}-{number}")
                source.raw.extend([raw] if fields else [])
            if fields:
                yield line, _found(fields, columns, names, number)


def prepare(source: Source, names: Names, size: int, share: Share = WHOLE) -> Iterator[list[Prepared]]:
    """A share of the rows that `read` finds, by up to `size` records at a time."""
    with _Text(source, names) as text:
        records = text.records(share)
        columns = find_columns(source, read_header(source, records), names)
        bodies = Bodies(columns, names)
        for number, batch in _batches(text, records, size, share):
            whole = [fields for _, fields in batch if isinstance(fields, list)]
            try:
                rows = bodies.read([line for line, _ in batch], whole, number + 1)
            except (ValueError, OverflowError):
                rows = _each(batch, columns, names, number)
            yield rows


def _batches(text: _Text, records: Any, size: int, share: Share) -> Iterator[tuple[int, list[_Record]]]:
    """The batches of a share of up to `size` records, with how many rows are before them."""
    number = 0
    batches = pieces(_records(text, records), size)
    for at in count():
        rows = None if share.has(at) else text.leave_out(size)
        if rows is None:
            batch = next(batches, None)
            if batch is None:
                return
            if share.has(at):
                yield number, batch
            rows = sum(bool(fields) for _, fields in batch)
        number += rows


def _each(batch: Iterable[_Record], columns: Columns, names: Names, number: int) -> list[Prepared]:
    """The rows of records behind so many others, each read by itself."""
    there = [(line, fields) for line, fields in batch if fields]
    found = [(line, _found(fields, columns, names, at)) for at, (line, fields) in enumerate(there, number + 1)]
    return [prepared(line, row, names.wrap) for line, row in found]


class _Text:
    """The text of a source. Where rejects are written, the lines of the record that was read last are kept."""

    def __init__(self, source: Source, names: Names) -> None:
        encoding = names.encoding or "utf-8-sig"
        self._text = io.TextIOWrapper(source.stream, encoding=encoding, errors="surrogateescape", newline="")
        self._encode = codecs.getincrementalencoder(names.encoding or "utf-8")("surrogateescape").encode
        self._left_out = 0
        """How many lines were read for no record."""
        self._back: deque[str] = deque()
        """Lines that are still to be read for records."""
        self._skipped = [self._text.readline() for _ in range(names.skip)]
        self._header = self._text.readline()
        most = "\t" if source.name.lower().removesuffix(".gz").endswith(".tsv") else max(DELIMITERS, key=self._header.count)
        self._delimiter = names.delimiter or most
        self._lines: list[str] = []
        self._keeps = source.raw is not None

    def __enter__(self) -> _Text:
        return self

    def __exit__(self, *_: object) -> None:
        with contextlib.suppress(ValueError):  # The file was closed before all was read.
            self._text.detach()

    def records(self, share: Share = WHOLE) -> Any:
        """The header and the records, whose delimiter is the one that is given, or that the header has most often, a comma where
        none is more often. Those of other shares may be left out."""
        lines = chain([self._header] if self._header else [], self._text if share.turns == 1 else self._rest())
        return csv.reader(self._kept(lines) if self._keeps else lines, delimiter=self._delimiter, strict=True)

    def line(self, records: Any) -> int:
        """The line on which the next record begins."""
        return len(self._skipped) + self._left_out + int(records.line_num) + 1

    def leave_out(self, size: int) -> int | None:
        """Leaves so many records out, and returns how many rows they are. None where some of them may be of several lines, may be
        none, or are not there: then they are to be read."""
        lines = [] if self._back else list(islice(self._text, size))
        together = "".join(lines)
        if len(lines) < size or '"' in together or len(together) > csv.field_size_limit():
            self._back.extend(lines)
            return None
        self._left_out += size
        return size - sum(map(lines.count, ("\n", "\r\n", "\r")))

    def _rest(self) -> Iterator[str]:
        """The lines that are left."""
        while line := self._back.popleft() if self._back else next(self._text, ""):
            yield line

    def _kept(self, lines: Iterable[str]) -> Iterator[str]:
        for line in lines:
            self._lines.append(line)
            yield line

    def head(self, more: str) -> bytes:
        """What stands before the first record, with a further column in front where that has a name."""
        return self._encode("".join(self._skipped)) + self.record(more)

    def record(self, more: str) -> bytes:
        """The record that was read, as it stands in the file, with a further cell in front where that is not empty."""
        text = "".join(self._lines)
        self._lines.clear()
        cell = more.replace('"', '""')
        front = f'"{cell}"{self._delimiter}' if more else ""
        return self._encode(front + text + ("" if text.endswith(("\n", "\r")) else "\n"))


def _records(text: _Text, records: Any) -> Iterator[_Record]:
    """The records with the lines on which they begin, or what is wrong with one. That of a blank line is empty."""
    while True:
        line = text.line(records)
        try:
            for fields in records:
                yield line, fields
                line = text.line(records)
            return
        except csv.Error as error:
            yield line, RowError("row", Plain(error), "a row of CSV")


def _found(fields: list[str] | RowError, columns: Columns, names: Names, number: int) -> Row | RowError:
    """The row of a record, or what is wrong with it."""
    if isinstance(fields, RowError):
        return fields
    try:
        return _row(fields, columns, names, number)
    except RowError as error:
        return error


def _row(fields: list[str], columns: Columns, names: Names, number: int) -> Row:
    header, ids, lon_at, lat_at, point_at, time_at, label_at, kept = columns
    if len(fields) != len(header):
        missing = f", {header[len(fields)]} is missing" if len(fields) < len(header) else ""
        raise RowError("row", Plain(f"{len(fields)} columns{missing}"), f"{len(header)} as in the header")
    if not "".join(fields).isascii():
        _check_utf8(fields, header)
    label = "" if label_at is None else fields[label_at]
    if len(ids) == 1:
        name = fields[ids[0]]
    else:
        name = join_ids([fields[at] for at in ids]) if ids else f"{names.number}-{number}"
    properties: dict[str, Any] = {
        key: number_or_text(fields[at]) if is_number else fields[at] for at, key, is_number in kept if fields[at]
    }
    if point_at is None:
        lon, lat = degrees(header[lon_at], fields[lon_at]), degrees(header[lat_at], fields[lat_at])
    else:
        lon, lat, *height = read_point(header[point_at], fields[point_at])
        if height:
            properties.setdefault("ele", height[0])
    time = moment_of("" if time_at is None else fields[time_at], names)
    return Row(name, lon, lat, time, label or names.unlabelled or "", properties)


def numbers(source: Source, names: Names, share: Share = WHOLE) -> Iterator[Kinds]:
    """The kinds of the properties of a CSV file, by the records of a share. It ends once none can be a number throughout."""
    with _Text(source, names) as text:
        records = text.records(share)
        columns = find_columns(source, read_header(source, records), names)
        left = {at: name for at, name, _ in columns.properties}
        width = len(columns.header)
        for _, batch in _batches(text, records, NUMBERS_AT_A_TIME, share):
            rows = [fields for _, fields in batch if isinstance(fields, list) and len(fields) == width]
            kinds = kinds_of((name, [fields[at] for fields in rows if fields[at]]) for at, name in left.items())
            yield kinds
            left = {at: name for at, name in left.items() if name not in kinds.others}
            if not left:
                break


def _check_utf8(fields: Sequence[str], header: Sequence[str]) -> None:
    for name, value in zip(header, fields, strict=True):
        try:
            value.encode()
        except UnicodeEncodeError as error:
            raise RowError(name, value[max(0, error.start - 10) : error.start + 10], "UTF-8, or its --encoding") from None


def write(rows: Iterable[Row], out: TextIO, names: Names) -> None:
    """Writes rows as CSV: the fields, then a column a property. A property that is no text is written as JSON."""
    import tempfile

    fields = [names.column(field) for field in FIELDS]
    properties: dict[str, None] = {}
    with tempfile.TemporaryFile("w+", encoding="utf-8", newline="") as kept:
        for row in rows:
            properties.update(dict.fromkeys(row.properties))
            kept.write(to_json([row.id, repr(row.lon), repr(row.lat), time_text(row.time), row.label, row.properties]) + "\n")
        for name in properties:
            if name in fields:
                raise FashkiinError(
                    f"a row has a property {name!r} of its own: name that column by another --{FIELDS[fields.index(name)]}-column"
                )
        kept.seek(0)
        writer = csv.writer(out, delimiter=names.delimiter or ",")
        writer.writerow([*fields, *properties])
        for line in kept:
            *own, told = _from_json(line)
            writer.writerow([*own, *(_cell(told.get(name, "")) for name in properties)])


def _from_json(line: str) -> list[Any]:
    value: list[Any] = json.loads(line)
    return value


def _cell(value: Any) -> str:
    return value if isinstance(value, str) else to_json(value)
