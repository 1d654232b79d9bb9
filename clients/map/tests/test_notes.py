"""A note is believed only where it lies in its row's own cell and second, by the page as by the Python client."""

from __future__ import annotations

import json
from typing import Any

import pytest
from fashkiin.cells import time_text
from fashkiin.rows import read_row

from page import Page

POINT = (2**20, 2**20, 86_400)
"""The cell whose south-western corner is 0° N, 0° E, and the first second of January 2, 1970."""

BELIEVED = {
    "exact": '{"at":[0.0001,0.00005],"time":"1970-01-02T00:00:00Z","properties":{"knots":7}}',
    "corner": '{"at":[0.0,0.0],"time":"1970-01-02T00:00:00Z"}',
    "fraction of a second": '{"at":[0.0001,0.00005],"time":"1970-01-02T00:00:00.250000Z"}',
    "other offset": '{"at":[0.0001,0.00005],"time":"1970-01-02T02:00:00+02:00"}',
    "time without an offset": '{"at":[0.0001,0.00005],"time":"1970-01-02T00:00:00"}',
}
OTHERS = {
    "another cell": '{"at":[12.5,0.00005],"time":"1970-01-02T00:00:00Z","properties":{"knots":7}}',
    "another line": '{"at":[0.0001,-0.00005],"time":"1970-01-02T00:00:00Z"}',
    "another second": '{"at":[0.0001,0.00005],"time":"1970-01-02T00:00:01Z"}',
    "another year": '{"at":[0.0001,0.00005],"time":"2030-01-02T00:00:00Z"}',
    "no such day": '{"at":[0.0001,0.00005],"time":"1970-02-30T00:00:00Z"}',
    "no time": '{"at":[0.0001,0.00005]}',
    "time as a number": '{"at":[0.0001,0.00005],"time":86400}',
    "three numbers": '{"at":[0.0001,0.00005,3.5],"time":"1970-01-02T00:00:00Z"}',
    "texts": '{"at":["0.0001","0.00005"],"time":"1970-01-02T00:00:00Z"}',
    "beyond the world": '{"at":[360.0001,0.00005],"time":"1970-01-02T00:00:00Z"}',
    "properties as a list": '{"at":[0.0001,0.00005],"time":"1970-01-02T00:00:00Z","properties":["one"]}',
    "place behind": '{"time":"1970-01-02T00:00:00Z","at":[0.0001,0.00005]}',
    "no JSON": '{"at":[0.0001,0.00005],"time":"1970-01-02T00:00:00Z"',
    "text": "seen at the harbour",
    "nothing": "",
}


@pytest.fixture(scope="module")
def read(page: Page) -> dict[str, Any]:
    """The rows of all these notes, as the page reads them."""
    page.go()
    told = [{"id": id, "label": "", "note": note, "point": POINT} for id, note in {**BELIEVED, **OTHERS}.items()]
    rows = page.driver.execute_async_script(
        "const [told, done] = arguments; import('/map/rows.js').then(({ readRow }) => done(told.map(readRow)));", told
    )
    return {row["id"]: row for row in rows}


@pytest.mark.parametrize("name", BELIEVED)
def test_note_in_its_cell_is_believed(read: dict[str, Any], name: str) -> None:
    said = json.loads(BELIEVED[name])
    row, client = read[name], read_row({"id": name, "label": "", "note": BELIEVED[name], "point": POINT})
    assert row["exact"]
    assert [row["lng"], row["lat"]] == said["at"] == [client.lon, client.lat]
    assert row["properties"] == said.get("properties", {}) == client.properties
    assert row["time"] == time_text(client.time)


@pytest.mark.parametrize("name", OTHERS)
def test_another_note_is_a_text(read: dict[str, Any], name: str) -> None:
    note, row = OTHERS[name], read[name]
    client = read_row({"id": name, "label": "", "note": note, "point": POINT})
    assert not row["exact"]
    assert (row["lng"], row["lat"]) == pytest.approx((180 / 2**21, 90 / 2**21), rel=1e-9)
    assert row["time"] == "1970-01-02T00:00:00Z" == time_text(client.time)
    assert row["properties"] == ({"note": note} if note else {}) == client.properties


def test_digits_of_large_numbers_are_kept(page: Page) -> None:
    note = '{"at":[0.0001,0.00005],"time":"1970-01-02T00:00:00Z","properties":{"serial":12345678901234567890}}'
    told = {"id": "a", "label": "", "note": note, "point": POINT}
    page.go()
    row = page.driver.execute_async_script(
        "const [told, done] = arguments; import('/map/rows.js').then(({ readRow }) => done(readRow(told)));", told
    )
    assert row["properties"] == {"serial": "12345678901234567890"}
