"""The files that `fashkiin load` reads."""

from __future__ import annotations

import argparse
import contextlib
import io
import os
import shlex
import stat
import sys
from collections.abc import Iterator
from functools import partial
from pathlib import Path

from fashkiin.errors import SettingsError
from fashkiin.formats import FORMATS, Format, InputError, Source, format_of, sniff
from fashkiin.reading import DAMAGED

PIPE = "-"
LARGE = 1 << 20
"""The fewest bytes of a file that several processes read: to start them takes a while."""

OTHERS = {
    b"\x00\x00\x27\x0a": "a shapefile",
    b"SQLite format 3\x00": "a GeoPackage or another SQLite database",
    b"PK\x03\x04": "a ZIP archive, such as KMZ or a spreadsheet",
    b"PAR1": "Parquet",
    b"fgb": "FlatGeobuf",
    b"<kml": "KML",
}
"""What other files begin with, which ogr2ogr reads."""


@contextlib.contextmanager
def opened(file: str) -> Iterator[Source]:
    """A file of rows, or standard input, unpacked where it is gzip's."""
    if file == PIPE:
        with open(sys.stdin.fileno(), "rb", closefd=False) as stream:
            yield Source("standard input", _unpacked(stream))
        return
    try:
        stream = Path(file).open("rb")
    except OSError as error:
        raise SettingsError(f"{file}: {error.strerror}, wanted a file of rows") from None
    with stream:
        unpacked = _unpacked(stream)
        name = Path(file.removesuffix(".gz") if unpacked is not stream else file)
        again = partial(opened, file) if _is_large(stream) else None
        yield Source(file, unpacked, name.stem, packed=unpacked is not stream, again=again)


def _is_large(stream: io.BufferedReader) -> bool:
    """Whether a stream is a large file, and no pipe."""
    found = os.fstat(stream.fileno())
    return stat.S_ISREG(found.st_mode) and found.st_size >= LARGE


def _unpacked(stream: io.BufferedReader) -> io.BufferedReader:
    """What is in a stream that gzip packed, or the stream."""
    if stream.peek(2)[:2] != b"\x1f\x8b":
        return stream
    import gzip

    return io.BufferedReader(gzip.GzipFile(fileobj=stream))  # type: ignore[arg-type]


def format_for(source: Source, arguments: argparse.Namespace) -> Format:
    """The format that the arguments name, or the file's name or first bytes say. `InputError` for a file that others read."""
    if arguments.format:
        return FORMATS[arguments.format]
    try:
        start = source.stream.peek(4096)
    except DAMAGED as error:
        raise InputError(f"{source.name}: {error}") from None
    for magic, kind in OTHERS.items():
        if start.startswith(magic) or (magic == b"<kml" and b"<kml" in start):
            line = f"ogr2ogr -f GeoJSONSeq -t_srs EPSG:4326 /vsistdout/ {shlex.quote(source.name)} | fashkiin load"
            raise InputError(f"{source.name}: {kind}, wanted CSV, GeoJSON or GPX, as by: {line} {arguments.table} -")
    named = format_of(source.name.removesuffix(".gz")) if source.stem is not None else None
    return named or sniff(source.stream)
