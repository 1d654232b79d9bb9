"""The extent of a collection: the part of the world and of time that holds the rows that the asker sees.

It is found by counts and grids alone, which show no row that is hidden, so the extent shows none either.
"""

from __future__ import annotations

from collections.abc import Sequence
from dataclasses import dataclass
from datetime import datetime, timedelta

from fashkiin.cells import CELLS, EPOCH, EVERYTHING, LAST_SECOND, Bbox, Box
from fashkiin.table import Table

GRID = 32
DAY = 86_400
# A period has at most seven days.
PERIOD_DAYS = 7


@dataclass(frozen=True, slots=True)
class Extent:
    """Where the seen rows lie: each side of the bbox is at most a sixteenth of it, or a cell, away from a row; `begin` and `end`
    are the midnights around them."""

    bbox: Bbox
    begin: datetime
    end: datetime


def find_extent(table: Table, auths: Sequence[str]) -> Extent | None:
    """The extent of the rows that the authorizations see; None where they see none. `PermissionDeniedError` where the asker may
    not read the table."""
    days = _days(table, auths)
    if days is None:
        return None
    first, last = days
    box = EVERYTHING._replace(t0=first * DAY, t1=min(last * DAY + DAY - 1, LAST_SECOND))
    while True:
        smaller = _around(table.grid_box(box, auths, GRID, GRID), box)
        if smaller is None:
            return None
        halved = _is_half(smaller.x0, smaller.x1, box.x0, box.x1) or _is_half(smaller.y0, smaller.y1, box.y0, box.y1)
        box = smaller
        if not halved:
            return Extent(_degrees(box), _midnight(first), _midnight(last + 1))


def _days(table: Table, auths: Sequence[str]) -> tuple[int, int] | None:
    """The days of the first and the last seen row, counted from 1970."""
    rows = table.page(EVERYTHING, auths, 1).rows
    if not rows:
        return None
    # The first row in scan order is in the first period that has one.
    day = rows[0].point()[2] // DAY

    def has_rows(begin: int, end: int) -> bool:
        return table.count_box(EVERYTHING._replace(t0=begin * DAY, t1=min(end * DAY - 1, LAST_SECOND)), auths) > 0

    low, high = max(day - PERIOD_DAYS + 1, 0), day
    while low < high:
        middle = (low + high) // 2
        if has_rows(low, middle + 1):
            high = middle
        else:
            low = middle + 1
    first, last, end = low, day, LAST_SECOND // DAY
    while last < end:
        middle = (last + end + 1) // 2
        if has_rows(middle, LAST_SECOND // DAY + 1):
            last = middle
        else:
            end = middle - 1
    return first, last


def _around(grid: list[list[int]], box: Box) -> Box | None:
    """The part of a box that the cells of its grid with rows lie in."""
    columns = [column for column in range(GRID) if any(line[column] for line in grid)]
    lines = [number for number, line in enumerate(grid) if any(line)]
    if not columns:
        return None
    x0, x1 = _cells(columns[0], columns[-1], box.x0, box.x1)
    y0, y1 = _cells(lines[0], lines[-1], box.y0, box.y1)
    return box._replace(x0=x0, x1=x1, y0=y0, y1=y1)


def _cells(first: int, last: int, low: int, high: int) -> tuple[int, int]:
    """The cells from the first of one column to the last of another: a cell is of column (cell - low) * GRID div width."""
    width = high - low + 1
    return low - (-first * width // GRID), low - (-(last + 1) * width // GRID) - 1


def _is_half(low: int, high: int, before_low: int, before_high: int) -> bool:
    return 2 * (high - low + 1) <= before_high - before_low + 1


def _degrees(box: Box) -> Bbox:
    lon, lat = 360 / CELLS, 180 / CELLS
    return box.x0 * lon - 180, box.y0 * lat - 90, (box.x1 + 1) * lon - 180, (box.y1 + 1) * lat - 90


def _midnight(day: int) -> datetime:
    return EPOCH + timedelta(days=day)
