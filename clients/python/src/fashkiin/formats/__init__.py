"""Files of rows: CSV, GeoJSON, lines of GeoJSON or of other objects, and GPX."""

from __future__ import annotations

import io
import re
from collections.abc import Callable, Iterable, Iterator
from dataclasses import dataclass
from pathlib import Path
from typing import TextIO

from fashkiin.errors import InputError
from fashkiin.formats import delimited, geojson, gpx
from fashkiin.formats.fields import Found, Names, Prepared, Source
from fashkiin.formats.numbers import Kinds
from fashkiin.rows import Row
from fashkiin.shares import Share

__all__ = ["FORMATS", "Format", "Found", "InputError", "Names", "Prepared", "Source", "format_of", "sniff"]


@dataclass(frozen=True, slots=True)
class Format:
    """A format of files. `read` tells each row by its place, with the error of a row that is none; `unit` is what a place
    counts. `prepare` gives a share of these rows by up to so many at a time, ready to be put. `write` writes rows that `read`
    gives back. `numbers` tells the kinds of the properties of a share, in a format of texts. `around` is what stands before,
    between and behind the rows of a file of rejects."""

    name: str
    unit: str
    suffixes: tuple[str, ...]
    read: Callable[[Source, Names], Iterator[Found]]
    prepare: Callable[[Source, Names, int, Share], Iterator[list[Prepared]]]
    write: Callable[[Iterable[Row], TextIO, Names], None]
    numbers: Callable[[Source, Names, Share], Iterator[Kinds]] | None = None
    around: tuple[str, str, str] = ("", "", "")


FORMATS = {
    form.name: form
    for form in (
        Format(
            "csv",
            "line",
            (".csv", ".tsv", ".txt"),
            delimited.read,
            delimited.prepare,
            delimited.write,
            delimited.numbers,
        ),
        Format(
            "geojson",
            "feature",
            (".geojson", ".json"),
            geojson.read,
            geojson.prepare,
            geojson.write,
            around=geojson.AROUND,
        ),
        Format(
            "geojsonseq",
            "line",
            (".geojsonseq", ".geojsonl", ".geojsons", ".jsonl", ".ndjson"),
            geojson.read_lines,
            geojson.prepare_lines,
            geojson.write_lines,
        ),
        Format("gpx", "line", (".gpx",), gpx.read, gpx.prepare, gpx.write, gpx.numbers, (gpx.HEAD, "", gpx.TAIL)),
    )
}
"""The formats by their names."""


def format_of(name: str) -> Format | None:
    """The format that a file's name says."""
    suffix = Path(name).suffix.lower()
    return next((form for form in FORMATS.values() if suffix in form.suffixes), None)


def sniff(stream: io.BufferedReader) -> Format:
    """The format that the first bytes of a stream say, which stay to be read."""
    start = stream.peek(4096)[:4096].lstrip(b"\xef\xbb\xbf \t\r\n")
    if start.startswith(b"<"):
        return FORMATS["gpx"]
    if not start.startswith((b"{", b"\x1e")):
        return FORMATS["csv"]
    return FORMATS["geojson" if re.search(rb'"FeatureCollection"', start) else "geojsonseq"]
