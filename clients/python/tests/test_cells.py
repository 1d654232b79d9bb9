"""Cells by GeoMesa's normalized dimensions, and times by seconds."""

from __future__ import annotations

import math
import pytest
from datetime import UTC, datetime, timedelta, timezone
from hypothesis import given
from hypothesis import strategies as st

from fashkiin import cells
from fashkiin.errors import RowError


@pytest.mark.parametrize(
    ("lon", "x"),
    [(-180.0, 0), (0.0, 1_048_576), (180.0, 2_097_151), (math.nextafter(180.0, 0.0), 2_097_151), (90.0, 1_572_864)],
)
def test_longitude_cells_as_geomesa_has_them(lon: float, x: int) -> None:
    assert cells.longitude_cell(lon) == x


@pytest.mark.parametrize(("lat", "y"), [(-90.0, 0), (0.0, 1_048_576), (90.0, 2_097_151), (-45.0, 524_288)])
def test_latitude_cells_as_geomesa_has_them(lat: float, y: int) -> None:
    assert cells.latitude_cell(lat) == y


@given(st.integers(0, cells.LAST_CELL))
def test_the_middle_of_a_cell_lies_in_it(cell: int) -> None:
    assert cells.longitude_cell(cells.cell_longitude(cell)) == cell
    assert cells.latitude_cell(cells.cell_latitude(cell)) == cell


@pytest.mark.parametrize(
    ("text", "second"),
    [
        ("1970-01-01", 0),
        ("1970-01-01T00:00:01Z", 1),
        ("1970-01-01T01:00:00+01:00", 0),
        ("1970-01-01T00:00:00.999999Z", 0),
        ("20240501T120000Z", 1_714_564_800),
        ("2598-01-03T23:59:59Z", 19_818_086_399),
    ],
)
def test_seconds_of_times(text: str, second: int) -> None:
    assert cells.time_second(cells.parse_time(text)) == second


@pytest.mark.parametrize("text", ["1969-12-31T23:59:59.999999Z", "2598-01-04T00:00:00Z", "9999-12-31"])
def test_times_out_of_range(text: str) -> None:
    with pytest.raises(RowError, match="wanted 1970-01-01T00:00:00Z to 2598-01-03T23:59:59Z"):
        cells.time_second(cells.parse_time(text))


@pytest.mark.parametrize("text", ["", "yesterday", "2024-13-01", "12:00", "9999-12-31T23:59:59-14:00"])
def test_texts_that_are_no_time(text: str) -> None:
    with pytest.raises(RowError, match="wanted an ISO 8601 time"):
        cells.parse_time(text)


@pytest.mark.parametrize("value", [181.0, -180.1, math.nan, math.inf])
def test_longitudes_out_of_range(value: float) -> None:
    with pytest.raises(RowError, match="lon: .*, wanted -180 to 180 degrees"):
        cells.longitude_cell(value)


@given(st.datetimes(datetime(1970, 1, 2), datetime(2597, 12, 31), timezones=st.sampled_from([UTC, timezone(timedelta(hours=5))])))
def test_texts_of_times_are_read_back(moment: datetime) -> None:
    assert cells.parse_time(cells.time_text(moment)) == moment


def test_a_bbox_over_the_antimeridian_is_two_boxes_without_a_cell_in_both() -> None:
    east, west = cells.boxes((170.0, -10.0, -170.0, 10.0), None)
    assert (east.x0, east.x1) == (cells.longitude_cell(170.0), cells.LAST_CELL)
    assert (west.x0, west.x1) == (0, cells.longitude_cell(-170.0))


def test_a_bbox_around_the_world_within_one_column_is_one_box() -> None:
    assert cells.boxes((10.00001, -90.0, 10.0, 90.0), None) == [cells.EVERYTHING]


def test_no_box_where_the_span_ends_before_it_begins() -> None:
    assert cells.boxes(None, ("2024-02-01", "2024-01-01")) == []
