"""A table: rows put and read, in degrees and times."""

from __future__ import annotations

from collections.abc import Iterable, Iterator, Mapping, Sequence
from typing import TYPE_CHECKING, Any
from urllib.parse import quote

from fashkiin.cells import Bbox, Box, Span, boxes, holds, inner_box, shell, span_times
from fashkiin.relabelling import find
from fashkiin.rows import Page, Place, Row, read_place, read_row
from fashkiin.wire import member

if TYPE_CHECKING:
    import geopandas
    import pandas

    from fashkiin.client import Client, Put

PAGE = 1_000


class Table:
    """A table of a server. `Client.table` makes it.

    A `bbox` is west, south, east and north in degrees, `time` a first and a last time, both included; None stands for all.
    `auths` are authorizations of one's own by which is read; None stands for all of them, which are asked for first.
    """

    def __init__(self, client: Client, name: str) -> None:
        self._client = client
        self.name = name

    def put(self, row: Row) -> None:
        """Stores a row in the place of the one with its id and label; `RowError` where it cannot be stored."""
        for put in self.put_many([row], window=1):
            if put.error is not None:
                raise put.error

    def put_many(self, rows: Iterable[Row], window: int = 64) -> Iterator[Put]:
        """Stores rows, and tells in their order what became of each: see `Client.put_many`."""
        return self._client.put_many(self.name, rows, window)

    def delete(self, id: str, label: str) -> None:
        """Deletes the row of an id and a label, as it was written; nothing happens where there is none."""
        self._ask("delete", {"id": id, "label": label})

    def get(self, id: str, auths: Sequence[str] | None = None) -> list[Row]:
        """The seen rows of an id, by the bytes of their labels."""
        return [read_row(row) for row in self.told(id, auths)]

    def told(self, id: str, auths: Sequence[str] | None = None) -> list[dict[str, Any]]:
        """The seen rows of an id as the server tells them: `id`, `point`, `label`, `note`."""
        told = self._ask("get", {"id": id, "auths": self.auths(auths)})
        return list(member(told, "rows", list))

    def put_told(self, row: Mapping[str, Any]) -> None:
        """Stores a row of `told`, with its note as it is."""
        self._ask("put", {name: row[name] for name in ("id", "point", "label", "note")})

    def relabel(self, id: str, label: str, old: str | None = None) -> list[str]:
        """Puts the row of an id under another label, and deletes it under `old`, or under each other label that you see: those
        are returned. `RelabelError` where the rows of the id differ. See `fashkiin.relabelling`."""
        found = find(self, id, label, old)
        found.put()
        found.delete()
        return list(found.old)

    def scan(self, bbox: Bbox | None = None, time: Span | None = None, auths: Sequence[str] | None = None) -> Iterator[Row]:
        """The seen rows of a bbox and a time, by their exact positions and times, in scan order."""
        for page in self.pages(bbox, time, auths):
            yield from page

    def pages(
        self, bbox: Bbox | None = None, time: Span | None = None, auths: Sequence[str] | None = None, limit: int = PAGE
    ) -> Iterator[list[Row]]:
        """The rows of a scan, by pages of at most `limit`, 1 to 1,000."""
        own = self.auths(auths)
        for box in boxes(bbox, time):
            yield from self._pages(box, bbox, time, own, limit)

    def _pages(
        self, box: Box, bbox: Bbox | None, time: Span | None, auths: Sequence[str], limit: int = PAGE
    ) -> Iterator[list[Row]]:
        """The rows of a box of cells that lie in a bbox and a time, by pages."""
        first, last = span_times(time)
        after: Place | None = None
        while True:
            page = self.page(box, auths, limit, after)
            yield [row for row in page.rows if holds(bbox, row.lon, row.lat) and first <= row.time <= last]
            after = page.next
            if after is None:
                break

    def page(self, box: Box, auths: Sequence[str], limit: int = PAGE, after: Place | None = None) -> Page:
        """One page of a scan as the server has it: the seen rows of a box of cells behind a place."""
        body: dict[str, Any] = {"box": box, "auths": list(auths), "limit": limit}
        if after is not None:
            body["after"] = after.wire()
        told = self._ask("scan", body)
        return Page([read_row(row) for row in member(told, "rows", list)], read_place(member(told, "next", object)))

    def count(
        self, bbox: Bbox | None = None, time: Span | None = None, auths: Sequence[str] | None = None, exact: bool = False
    ) -> int:
        """How many seen rows are in the cells of a bbox and the seconds of a time; with `exact`, how many a scan shows, for which
        the rows of the cells and seconds that the bbox and the time cut are scanned."""
        own = self.auths(auths)
        return sum(self._exact(box, bbox, time, own) if exact else self.count_box(box, own) for box in boxes(bbox, time))

    def count_range(
        self, bbox: Bbox | None = None, time: Span | None = None, auths: Sequence[str] | None = None
    ) -> tuple[int, int]:
        """The least and the most that an exact count may be: without the cells and seconds that the bbox and the time cut, and
        with them."""
        own = self.auths(auths)
        outer = boxes(bbox, time)
        inner = [box for box in (inner_box(it, bbox, time) for it in outer) if box is not None]
        most = sum(self.count_box(box, own) for box in outer)
        return most if inner == outer else sum(self.count_box(box, own) for box in inner), most

    def _exact(self, box: Box, bbox: Bbox | None, time: Span | None, auths: Sequence[str]) -> int:
        inner = inner_box(box, bbox, time)
        edges = [box] if inner is None else shell(box, inner)
        scanned = sum(len(rows) for edge in edges for rows in self._pages(edge, bbox, time, auths))
        return scanned + (0 if inner is None else self.count_box(inner, auths))

    def count_box(self, box: Box, auths: Sequence[str]) -> int:
        """How many seen rows are in a box of cells and seconds."""
        return int(member(self._ask("count", {"box": box, "auths": list(auths)}), "count", int))

    def grid(
        self,
        bbox: Bbox | None = None,
        time: Span | None = None,
        auths: Sequence[str] | None = None,
        nx: int = 32,
        ny: int = 32,
    ) -> list[list[int]]:
        """How many seen rows are in each of `nx` columns and `ny` lines, 1 to 32 each, of the cells of a bbox: a list of lines
        from south to north. `ValueError` where the bbox crosses the antimeridian."""
        found = boxes(bbox, time)
        if not found:
            return [[0] * nx for _ in range(ny)]
        if len(found) > 1:
            raise ValueError("a grid's bbox crosses the antimeridian, wanted one on one side of it")
        return self.grid_box(found[0], self.auths(auths), nx, ny)

    def grid_box(self, box: Box, auths: Sequence[str], nx: int = 32, ny: int = 32) -> list[list[int]]:
        """How many seen rows are in each of `nx` columns and `ny` lines, 1 to 32 each, of a box of cells and seconds: a list of
        lines from south to north."""
        cells = member(self._ask("grid", {"box": box, "auths": list(auths), "nx": nx, "ny": ny}), "grid", list)
        return [cells[line * nx : (line + 1) * nx] for line in range(ny)]

    def plan(self, box: Box, budget: int = 64) -> list[dict[str, Any]]:
        """The ranges of keys by which a box is scanned, for each part of its span: see the API's "Plans"."""
        return list(member(self._ask("plan", {"box": box, "budget": budget}), "parts", list))

    def to_frame(
        self, bbox: Bbox | None = None, time: Span | None = None, auths: Sequence[str] | None = None
    ) -> pandas.DataFrame:
        """The rows of a scan as a data frame of pandas: id, lon, lat, time, label, and a column a property."""
        from fashkiin.frames import frame

        return frame(self.scan(bbox, time, auths))

    def to_geodataframe(
        self, bbox: Bbox | None = None, time: Span | None = None, auths: Sequence[str] | None = None
    ) -> geopandas.GeoDataFrame:
        """The rows of a scan as a data frame of geopandas, with points in EPSG:4326."""
        from fashkiin.frames import geoframe

        return geoframe(self.scan(bbox, time, auths))

    def auths(self, auths: Sequence[str] | None) -> list[str]:
        """The authorizations to read by: those given, or all of one's own."""
        return list(self._client.whoami().auths if auths is None else auths)

    def _ask(self, what: str, body: dict[str, Any]) -> dict[str, Any]:
        """Reads, puts and deletes of rows may be sent again: a repeat changes nothing."""
        return self._client.ask("POST", f"/tables/{quote(self.name, safe='')}/{what}", body, again=True)
