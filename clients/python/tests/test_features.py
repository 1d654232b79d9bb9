"""The tables as an OGC API, over the built server: what GDAL and others read is what a plain list of the rows has."""

from __future__ import annotations

import math
import random
import subprocess
from datetime import UTC, datetime, timedelta
from pathlib import Path
from typing import Any
from urllib.parse import quote

import pytest
from facade import ITEMS, NAMES, ROWS, SEEN, TABLE, USERS, Facade, expected, ogr2ogr, told
from running import environment
from served import token

from fashkiin import Client, Row
from fashkiin.cells import time_text
from fashkiin.features import Features, items


def identities(features: list[dict[str, Any]]) -> list[tuple[str, str]]:
    return sorted((one["properties"]["id"], one["properties"]["label"]) for one in features)


@pytest.mark.parametrize("user", USERS)
def test_ogr2ogr_reads_all_rows_that_the_user_sees(facade: Facade, user: str, tmp_path: Path) -> None:
    shown = ogr2ogr(facade, user, tmp_path)
    assert identities(shown) == expected(user, ROWS)
    places = {(row.id, row.label): (row.lon, row.lat) for row in ROWS}
    for one in shown:
        lon, lat = places[one["properties"]["id"], one["properties"]["label"]]
        # GDAL writes seven digits behind the point.
        assert one["geometry"]["coordinates"] == pytest.approx([lon, lat], abs=1e-7)


def test_ogr2ogr_asks_for_a_bbox_and_a_time(facade: Facade, tmp_path: Path) -> None:
    begin, end = datetime(2024, 1, 3, tzinfo=UTC), datetime(2024, 1, 5, tzinfo=UTC)
    where = "time >= '2024/01/03 00:00:00Z' AND time <= '2024/01/05 00:00:00Z'"
    shown = ogr2ogr(facade, "bob", tmp_path, "-spat", "-20", "-45", "100", "60", "-where", where)
    rows = [row for row in ROWS if begin <= row.time <= end and -20 <= row.lon <= 100 and -45 <= row.lat <= 60]
    assert identities(shown) == expected("bob", rows) != []


def boxes() -> list[tuple[float, float, float, float]]:
    """Boxes whose sides lie on rows, or the next number within, and boxes over the antimeridian."""
    some = random.Random(7)
    found = [(-180.0, -90.0, 180.0, 90.0), (170.0, -90.0, -170.0, 90.0), (180.0, -90.0, -180.0, 90.0)]
    found.append((-200.0, -95.0, 300.0, 95.0))
    for _ in range(6):
        one, other = some.sample(ROWS, 2)
        west, east = sorted((one.lon, other.lon))
        south, north = sorted((one.lat, other.lat))
        found += [(west, south, east, north), (math.nextafter(west, 181), south, east, math.nextafter(north, -91))]
        found.append((east, south, west, north))
    found.append((10 + 100 / 10**7, -90, 10 + 200 / 10**7, 90))
    return found


@pytest.mark.parametrize("bbox", boxes())
def test_a_bbox_is_exact(facade: Facade, bbox: tuple[float, float, float, float]) -> None:
    west, south, east, north = bbox

    def inside(row: Row) -> bool:
        column = west <= row.lon <= east if west <= east else row.lon >= west or row.lon <= east
        return column and south <= row.lat <= north

    shown = facade.names("bob", bbox=",".join(map(repr, bbox)), limit="1000")
    assert shown == expected("bob", [row for row in ROWS if inside(row)])


def test_a_page_that_has_all_says_how_many(facade: Facade) -> None:
    [page] = facade.pages("bob", bbox="0,0,20,20", limit="1000")
    assert page["numberMatched"] == page["numberReturned"] > 10


def test_heights_of_a_bbox_are_of_no_account(facade: Facade) -> None:
    assert facade.names("bob", bbox="0,0,-5,90,45,5", limit="1000") == facade.names("bob", bbox="0,0,90,45", limit="1000") != []


SOME = sorted(row.time for row in ROWS)
MICROSECOND = timedelta(microseconds=1)
SPANS: list[tuple[datetime | None, datetime | None]] = [
    (SOME[300], SOME[400]),
    (SOME[300] + MICROSECOND, SOME[400] - MICROSECOND),
    (None, SOME[100]),
    (SOME[1_200], None),
    (SOME[700], SOME[700]),
    (datetime(2024, 2, 1, 0, 0, 0, 100, UTC), datetime(2024, 2, 1, 0, 0, 0, 200, UTC)),
    (datetime(1900, 1, 1, tzinfo=UTC), datetime(1960, 1, 1, tzinfo=UTC)),
    (datetime(1900, 1, 1, tzinfo=UTC), datetime(9000, 1, 1, tzinfo=UTC)),
]


@pytest.mark.parametrize("span", SPANS)
def test_a_datetime_is_exact(facade: Facade, span: tuple[datetime | None, datetime | None]) -> None:
    begin, end = span
    ends = [".." if moment is None else time_text(moment) for moment in span]
    rows = [row for row in ROWS if (begin is None or begin <= row.time) and (end is None or row.time <= end)]
    assert facade.names("bob", datetime="/".join(ends), limit="1000") == expected("bob", rows)
    if begin == end:
        assert facade.names("bob", datetime=ends[0]) == expected("bob", rows) != []
    if None in span:
        assert facade.names("bob", datetime="/".join(ends).replace("..", ""), limit="1000") == expected("bob", rows)


def test_an_offset_is_taken_off(facade: Facade) -> None:
    there = facade.names("bob", datetime="2024-02-01T05:30:00.0001+05:30")
    assert there == facade.names("bob", datetime="2024-02-01T00:00:00.0001Z")


@pytest.mark.parametrize("limit", [31, 100, 999, 1_000, 5_000])
def test_pages_show_each_row_once_and_are_full(facade: Facade, limit: int) -> None:
    query = {"limit": str(limit), "bbox": "-180,-45,180,45"} if limit == 31 else {"limit": str(limit)}
    pages = list(facade.pages("bob", **query))
    rows = [row for row in ROWS if limit != 31 or -45 <= row.lat <= 45]
    ids = [feature["id"] for page in pages for feature in page["features"]]
    assert len(ids) == len(set(ids)) == len(expected("bob", rows))
    size = min(limit, 1_000)
    assert [page["numberReturned"] for page in pages[:-1]] == [size] * (len(pages) - 1)
    assert len(pages) == math.ceil(len(ids) / size)
    assert [page.get("numberMatched") for page in pages] == [None if limit == 31 else len(ids)] + [None] * (len(pages) - 1)


def test_pages_go_on_over_the_antimeridian(facade: Facade) -> None:
    shown = facade.names("bob", bbox="100,-90,-100,90", limit="20")
    assert shown == expected("bob", [row for row in ROWS if row.lon >= 100 or row.lon <= -100])


def test_a_page_without_a_limit_has_the_default(facade: Facade) -> None:
    assert next(facade.pages("bob"))["numberReturned"] == 100


def test_each_feature_is_read_by_its_id(facade: Facade) -> None:
    names = {feature["id"]: feature for page in facade.pages("bob", limit="1000") for feature in page["features"]}
    odd = [name for name, feature in names.items() if feature["properties"]["id"] in NAMES]
    assert len(odd) == sum(row.id in NAMES and row.label in SEEN["bob"] for row in ROWS) > 5
    for name in [*odd, *list(names)[:20]]:
        status, fields, one = facade.get(f"/collections/{TABLE}/items/{quote(name, safe='')}")
        assert status == 200 and fields["Content-Type"] == "application/geo+json"
        assert {key: value for key, value in one.items() if key != "links"} == names[name]
        assert {link["rel"] for link in one["links"]} == {"self", "alternate", "collection"}
        self = next(link["href"] for link in one["links"] if link["rel"] == "self")
        assert facade.get(self)[2] == one


def test_rows_of_one_id_are_features_of_their_own(facade: Facade) -> None:
    with Client(f"http://127.0.0.1:{facade.port}", token("root")) as root:
        root.tables.create("geo.twins")
        for label in ("", "A", "A&B"):
            root.table("geo.twins").put(Row("p", 1.0, 2.0, datetime(2024, 1, 1, tzinfo=UTC), label, {"said": label, "id": 5}))
    for user, labels in (("ann", ["", "A"]), ("bob", ["", "A", "A&B"]), ("eve", [""])):
        _, _, page = facade.get("/collections/geo.twins/items", user)
        assert [feature["id"] for feature in page["features"]] == ["p" + (label and "," + label) for label in labels]
    status, _, one = facade.get("/collections/geo.twins/items/p,A")
    own = {"id": "p", "time": "2024-01-01T00:00:00Z", "label": "A", "said": "A", "_id": 5}
    assert (status, one["properties"]) == (200, own)
    assert facade.get("/collections/geo.twins/items/p,A&B", "ann")[0] == 404


def test_a_note_that_somebody_wrote_breaks_no_page(facade: Facade) -> None:
    at = '{"at":[%s],"time":"1970-01-01T00:00:00Z","properties":%s}'
    notes = [at % ("-179.99999,-89.99999", text) for text in ('{"a":NaN}', '{"a":1e999}', '{"a":"\\ud800"}', "[" * 2_000, "{}")]
    notes += [at % ("NaN,0", "{}"), at % ("1,1", "{}"), "\0", "\ufffe", '"', "{", ""]
    with Client(f"http://127.0.0.1:{facade.port}", token("root")) as root:
        root.tables.create("geo.notes")
        for number, note in enumerate(notes):
            body = {"id": str(number), "point": [0, 0, 0], "label": "", "note": note}
            root.ask("POST", "/tables/geo.notes/put", body)
    status, _, page = facade.get("/collections/geo.notes/items")
    assert (status, page["numberReturned"]) == (200, len(notes))


KINDS = [
    ("", {"kind": "1", "at": 1, "on": True, "part": 0.5, "list": [1]}),
    ("A", {"kind": "1", "at": 2, "on": False, "part": 1e3, "list": {}}),
    ("A", {"kind": 1, "at": "1", "on": "true", "_id": "q0"}),
    ("B", {"kind": "1", "at": 1, "on": True, "id": "other", "limit": 1, "rare": "é ü&=", "big": 1 << 70, "small": -(1 << 62)}),
]


KINDS_ROWS = [
    Row(f"q{number}", number, 0.0, datetime(2024, 1, 1, 0, 0, number, tzinfo=UTC), label, properties)
    for number, (label, properties) in enumerate(KINDS)
]


@pytest.fixture(scope="module")
def kinds(facade: Facade) -> str:
    """A table of rows with properties of each type."""
    with facade.root() as root:
        root.tables.create("geo.kinds")
        assert all(put.error is None for put in root.table("geo.kinds").put_many(KINDS_ROWS))
    return "geo.kinds"


@pytest.mark.parametrize(
    ("query", "numbers"),
    [
        ({"kind": "1"}, [0, 1, 2, 3]), ({"at": "1"}, [0, 2, 3]), ({"at": "1.0"}, [0, 3]), ({"at": "01"}, []),
        ({"at": "10e-1"}, [0, 3]), ({"on": "true"}, [0, 2, 3]), ({"on": "false"}, [1]), ({"on": "1"}, []),
        ({"part": "0.5"}, [0]), ({"part": "1000"}, [1]), ({"list": "[1]"}, []), ({"label": "A"}, [1, 2]),
        ({"label": ""}, [0]), ({"id": "q0"}, [0]), ({"id": "q0", "label": "A"}, []),
        ({"id": "q9"}, []), ({"id": ""}, []), ({"id": "x" * 65}, []), ({"_id": "other"}, [3]), ({"rare": "é ü&="}, [3]),
        ({"big": str(1 << 70)}, [3]), ({"small": str(-(1 << 62))}, [3]),
        ({"time": "2024-01-01T00:00:02Z"}, [2]), ({"kind": "1", "at": "1", "bbox": "-1,-1,1.5,1"}, [0]),
        ({"kind": "1", "datetime": "2024-01-01T00:00:02Z/.."}, [2, 3]), ({"kind": "1", "limit": "1"}, [0, 1, 2, 3]),
    ],
)  # fmt: skip
def test_a_property_is_asked_for_by_its_value(facade: Facade, kinds: str, query: dict[str, str], numbers: list[int]) -> None:
    assert facade.names("bob", kinds, **query) == [(KINDS_ROWS[number].id, KINDS_ROWS[number].label) for number in numbers]


def test_ogr2ogr_takes_no_number_for_another(facade: Facade, tmp_path: Path) -> None:
    numbers = {"big": 1 << 70, "least": 1 - (1 << 63), "beyond": 1 << 63, "plain": 1 << 53}
    with facade.root() as root:
        root.tables.create("geo.numbers")
        root.table("geo.numbers").put(Row("p", 1.0, 2.0, datetime(2024, 1, 1, tzinfo=UTC), "", numbers))
    [one] = ogr2ogr(facade, "ann", tmp_path, table="geo.numbers")
    assert {name: one["properties"][name] for name in numbers} == numbers | {"big": str(1 << 70), "beyond": str(1 << 63)}


def test_ogrinfo_lists_what_the_user_may_read_without_a_fault(facade: Facade, kinds: str, tmp_path: Path) -> None:
    header = tmp_path / "header"
    header.write_text(f"Authorization: Bearer {token('ann')}\n")
    words = ["ogrinfo", "-ro", "-q", f"OAPIF:{facade.url}/"]
    ran = subprocess.run(words, env=environment(GDAL_HTTP_HEADER_FILE=str(header)), capture_output=True, text=True, check=True)
    names = [line.split()[1] for line in ran.stdout.splitlines()]
    assert ran.stderr == "" and {TABLE, kinds} <= set(names) and all(name.startswith("geo.") for name in names)


def test_a_name_that_is_no_property_is_refused_where_that_is_certain(facade: Facade, kinds: str) -> None:
    status, _, said = facade.get(f"/collections/{kinds}/items?limti=1")
    assert (status, said["code"]) == (400, "InvalidParameterValue")
    assert said["description"].startswith("limti: wanted one of bbox, ")
    # A property that the asker sees in no row is none.
    assert [facade.get(f"/collections/{kinds}/items?rare=x", user)[0] for user in ("ann", "bob")] == [400, 200]
    # The trips show more rows than are looked at for that.
    assert facade.get(f"{ITEMS}?limti=1")[2]["features"] == []


def test_a_search_goes_on_behind_the_pages_that_were_looked_at(facade: Facade, monkeypatch: pytest.MonkeyPatch) -> None:
    """With three pages of 100 rows in place of twenty of 1,000."""
    monkeypatch.setattr(items, "PAGE", 100)
    monkeypatch.setattr(items, "MOST_PAGES", 3)
    application = Features(lambda own: Client(f"http://127.0.0.1:{facade.port}", own), "http://features")

    def pages(query: str) -> list[list[str]]:
        target, found = f"{ITEMS}?{query}", []
        while target:
            status, page = told(application, target)
            assert status == 200
            found.append([one["properties"]["id"] for one in page["features"]])
            target = next((link["href"] for link in page["links"] if link["rel"] == "next"), "").removeprefix("http://features")
        return found

    number = next(row.properties["n"] for row in reversed(ROWS) if row.label == "A" and "n" in row.properties)
    by_property = pages(f"n={number}")
    assert [id for page in by_property for id in page] == [f"r{number}"] and [] in by_property[:-1]
    # GDAL takes an empty page for the last one.
    last = max((row for row in ROWS if row.id.startswith("s") and row.label in SEEN["bob"]), key=lambda row: row.lon)
    monkeypatch.setattr(items, "MOST_PAGES", 1)
    first, *others = pages(f"limit=10&bbox={last.lon - 5e-8!r},19.9,10.01,20.1")
    assert first == [last.id] and not any(others)
