"""Rows and their notes."""

from __future__ import annotations

import json
import pytest
from datetime import UTC, datetime, timedelta
from hypothesis import given

from fashkiin import Row, RowError
from fashkiin.cells import cell_latitude, cell_longitude
from fashkiin.rows import read_row
from strategies import rows

TIME = datetime(2024, 5, 1, 12, tzinfo=UTC)


def told(note: str) -> dict[str, object]:
    return {"id": "p", "label": "A", "note": note, "point": [1_048_576, 1_048_576, 1_714_564_800]}


@given(rows())
def test_a_row_is_read_back_as_it_was_put(row: Row) -> None:
    assert read_row(json.loads(row.body())) == row


def test_the_note_has_the_exact_position_and_time() -> None:
    row = Row("p", 4.25, 51.5, TIME + timedelta(milliseconds=5), "A", {"speed": 7})
    assert json.loads(row.body()) == {
        "id": "p",
        "point": [1_073_334, 1_648_594, 1_714_564_800],
        "label": "A",
        "note": '{"at":[4.25,51.5],"time":"2024-05-01T12:00:00.005000Z","properties":{"speed":7}}',
    }


@pytest.mark.parametrize(
    "note",
    [
        "first",
        '{"at":[0.0,0.0]}',
        '{"at":[90.0,0.0],"time":"2024-05-01T12:00:00Z"}',
        '{"at":[0.0,0.0],"time":"2024-05-01T12:00:01Z"}',
        '{"at":[0.0,0.0],"time":"yesterday"}',
        '{"at":[0.0,0.0],"time":5}',
        '{"at":["0",0.0],"time":"2024-05-01T12:00:00Z"}',
        '{"at":[0.0,0.0],"time":"2024-05-01T12:00:00Z","properties":[]}',
        '{"at":[0.0,0.0],"time":"2024-05-01T12:00:00Z","properties":{"a":NaN}}',
        '{"at":[0.0,0.0],"time":"2024-05-01T12:00:00Z","properties":{"a":1e999}}',
        '{"at":[0.0,0.0],"time":"2024-05-01T12:00:00Z","properties":{"a":"\\ud800"}}',
        '{"at":[0.0,0.0],"time":"2024-05-01T12:00:00Z","properties":' + '{"a":' * 700,
        '{"at":' + "[" * 4000,
    ],
)
def test_any_other_note_is_a_property_of_a_row_in_the_middle_of_its_cell(note: str) -> None:
    row = read_row(told(note))
    assert row == Row("p", cell_longitude(1_048_576), cell_latitude(1_048_576), TIME, "A", {"note": note})


@pytest.mark.parametrize(
    ("row", "said"),
    [
        (Row("", 0, 0, TIME, ""), "id: 0 bytes, wanted 1 to 64 bytes"),
        (Row("é" * 33, 0, 0, TIME, ""), "id: 66 bytes, wanted 1 to 64 bytes"),
        (Row("p", 0, 91, TIME, ""), "lat: 91, wanted -90 to 90 degrees"),
        (Row("p", 181, 0, TIME, ""), "lon: 181, wanted -180 to 180 degrees"),
        (
            Row("p", 0, 0, datetime(1969, 12, 31), ""),
            "time: 1969-12-31T00:00:00Z, wanted 1970-01-01T00:00:00Z to 2598-01-03T23:59:59Z",
        ),
        (Row("p", 0, 0, TIME, "A" * 257), "label: 257 bytes, wanted 0 to 256 bytes"),
        (Row("p", 0, 0, TIME, "", {"n": "x" * 4096}), "note: 4,164 bytes, wanted 0 to 4,096 bytes"),
        (Row("p", 0, 0, TIME, "", {"n": float("nan")}), "properties: {'n': nan}, wanted values of JSON, without NaN or Infinity"),
        (Row("p\ud800", 0, 0, TIME, ""), "id: '\\ud800', wanted UTF-8"),
    ],
)
def test_a_row_that_cannot_be_stored_says_which_field_and_what_was_wanted(row: Row, said: str) -> None:
    with pytest.raises(RowError) as raised:
        row.body()
    assert str(raised.value) == said


@pytest.mark.parametrize("size", [4_096, 4_097])
def test_a_note_has_at_most_4096_bytes(size: int) -> None:
    empty = len(Row("p", 0, 0, TIME, "", {"n": ""}).note().encode())
    row = Row("p", 0, 0, TIME, "", {"n": "x" * (size - empty)})
    if size > 4_096:
        with pytest.raises(RowError, match="note: 4,097 bytes"):
            row.body()
    else:
        assert len(row.note().encode()) == size
