"""The features by the abstract test suites of OGC API - Features, Part 1 (OGC 17-069r4) and Part 2 (OGC 18-058r1), annexes A.

Each test names the conformance tests that it goes through.
"""

from __future__ import annotations

import json
import re
from datetime import datetime, timedelta
from pathlib import Path
from typing import Any
from urllib.parse import urlencode

import pytest
from facade import ITEMS, ROWS, SEEN, TABLE, Facade
from jsonschema import Draft4Validator

from fashkiin import Row

CRS84 = "http://www.opengis.net/def/crs/OGC/1.3/CRS84"
EPSG_4326 = "http://www.opengis.net/def/crs/EPSG/0/4326"
PARTS = "http://www.opengis.net/spec/ogcapi-features-"
CLASSES = {PARTS + "1/1.0/conf/" + name for name in ("core", "geojson", "html", "oas30")} | {PARTS + "2/1.0/conf/crs"}
OPENAPI = "application/vnd.oai.openapi+json;version=3.0"
SPECIFICATION = Path("/usr/share/openapi-specification/schemas/v3.0/schema.json")
CELL = 360 / 2**21
SEEN_ROWS = [row for row in ROWS if row.label in SEEN["bob"]]


def rels(document: Any) -> list[tuple[str, str]]:
    """The relation and the type of each link."""
    assert all(set(link) == {"rel", "href", "type", "title"} for link in document["links"])
    return sorted((link["rel"], link["type"]) for link in document["links"])


def test_landing_page(facade: Facade) -> None:
    """core: http, root-op, root-success."""
    status, fields, landing = facade.get("/", None)
    assert (status, fields["Content-Type"]) == (200, "application/json")
    assert rels(landing) == [
        ("alternate", "text/html"), ("conformance", "application/json"), ("conformance", "text/html"),
        ("data", "application/json"), ("data", "text/html"), ("self", "application/json"),
        ("service-desc", OPENAPI), ("service-doc", "text/html"),
    ]  # fmt: skip


def test_api_definition(facade: Facade) -> None:
    """core: api-definition-op and -success; oas30: oas-definition-1 and -2, completeness, exceptions-codes, security."""
    status, fields, api = facade.get("/api", None)
    assert (status, fields["Content-Type"]) == (200, OPENAPI)
    Draft4Validator(json.loads(SPECIFICATION.read_text())).validate(api)
    assert set(api["components"]["securitySchemes"]) == {"token", "user"} and api["security"]
    for path in api["paths"].values():
        assert set(path["get"]["responses"]) >= {"200", "400", "500"}


def test_api_definition_has_the_parameters_that_are_wanted(facade: Facade) -> None:
    """core: fc-bbox-definition, fc-limit-definition, fc-time-definition; crs: fc-bbox-crs-definition, fc-crs-definition."""
    _, _, api = facade.get("/api", None)
    place = api["paths"]["/collections/{collectionId}/items"]["get"]["parameters"]
    found = {}
    for reference in place:
        parameter = api["components"]["parameters"][reference["$ref"].rpartition("/")[2]]
        found[parameter["name"]] = parameter
    for name in ("bbox", "bbox-crs", "crs", "datetime", "limit"):
        assert {key: found[name][key] for key in ("in", "required", "style", "explode")} == {
            "in": "query", "required": False, "style": "form", "explode": False,
        }  # fmt: skip
    assert found["bbox"]["schema"] == {"type": "array", "items": {"type": "number"}, "minItems": 4, "maxItems": 6}
    assert found["datetime"]["schema"] == {"type": "string"}
    assert found["limit"]["schema"] == {"type": "integer", "minimum": 1, "maximum": 1_000, "default": 100}
    assert found["crs"]["schema"]["format"] == found["bbox-crs"]["schema"]["format"] == "uri"


def test_conformance(facade: Facade) -> None:
    """core: conformance-op, conformance-success."""
    status, _, conformance = facade.get("/conformance", None)
    assert (status, set(conformance["conformsTo"])) == (200, CLASSES)


def test_collections(facade: Facade) -> None:
    """core: fc-md-op, fc-md-success, fc-md-links, fc-md-items, fc-md-items-links, sfc-md-op, sfc-md-success; crs: crs-uri,
    fc-md-crs-list, fc-md-storageCrs, fc-md-storageCrs-valid-value."""
    status, _, document = facade.get("/collections")
    assert (status, rels(document)) == (200, [("alternate", "text/html"), ("self", "application/json")])
    assert TABLE in [one["id"] for one in document["collections"]]
    for one in document["collections"]:
        assert rels(one) == [
            ("alternate", "text/html"), ("items", "application/geo+json"), ("items", "text/html"), ("self", "application/json"),
        ]  # fmt: skip
        assert facade.get(f"/collections/{one['id']}")[2] == one
        assert one["crs"] == [CRS84, EPSG_4326] and one["storageCrs"] in one["crs"]


def extent(facade: Facade, table: str, user: str) -> tuple[list[float], datetime, datetime]:
    told = facade.get(f"/collections/{table}", user)[2]["extent"]
    [[begin, end]], [bbox] = told["temporal"]["interval"], told["spatial"]["bbox"]
    assert told["spatial"]["crs"] == CRS84
    return bbox, datetime.fromisoformat(begin), datetime.fromisoformat(end)


def is_close(bbox: list[float], begin: datetime, end: datetime, rows: list[Row]) -> bool:
    """Whether an extent holds the rows, each side at most a sixteenth of it, or a cell, away from one, and each time a day."""
    axes = ((bbox[0], bbox[2], [row.lon for row in rows]), (bbox[1], bbox[3], [row.lat for row in rows]))
    close = [
        max(low - min(found), max(found) - high) <= 0 and max(min(found) - low, high - max(found)) <= max((high - low) / 16, CELL)
        for low, high, found in axes
    ]
    times, day = [row.time for row in rows], timedelta(days=1)
    zero = timedelta()
    return all(close) and zero <= min(times) - begin < day and zero < end - max(times) <= day


def test_an_extent_is_that_of_what_the_asker_sees(facade: Facade) -> None:
    """core: fc-md-extent."""
    for user in SEEN:
        assert is_close(*extent(facade, TABLE, user), [row for row in ROWS if row.label in SEEN[user]])
    late = datetime.fromisoformat("1999-12-31T23:59:59.5Z")
    town = [Row(f"t{number}", 4.3 + number / 1e4, 51.9 - number / 1e5, late, "A") for number in range(9)]
    lone = [Row("far", -77.25, 12.5, datetime.fromisoformat("1970-01-01T00:00:00Z"), "C")]
    with facade.root() as root:
        root.tables.create("geo.town")
        assert all(put.error is None for put in root.table("geo.town").put_many(town + lone))
    assert is_close(*extent(facade, "geo.town", "ann"), town)
    with facade.root() as root:
        root.tables.create("geo.none")
    assert "extent" not in facade.get("/collections/geo.none", "ann")[2]


def test_features(facade: Facade) -> None:
    """core: fc-op, fc-response, fc-links, fc-rel-type, fc-timeStamp, fc-numberMatched, fc-numberReturned; geojson: definition,
    content."""
    status, fields, page = facade.get(f"{ITEMS}?limit=10")
    assert (status, fields["Content-Type"], page["type"]) == (200, "application/geo+json", "FeatureCollection")
    assert rels(page) == [
        ("alternate", "text/html"), ("collection", "application/json"), ("collection", "text/html"),
        ("next", "application/geo+json"), ("self", "application/geo+json"),
    ]  # fmt: skip
    assert re.fullmatch(r"[0-9-]{10}T[0-9:]{8}Z", page["timeStamp"])
    assert (page["numberMatched"], page["numberReturned"]) == (len(SEEN_ROWS), 10)
    for one in page["features"]:
        assert one["type"] == "Feature" and one["geometry"]["type"] == "Point"


def test_a_limit_is_kept(facade: Facade) -> None:
    """core: fc-limit-response."""
    for limit, returned in (("1", 1), ("1000", 1_000), ("1001", 1_000), ("999999999999999999", 1_000)):
        assert len(facade.get(f"{ITEMS}?limit={limit}")[2]["features"]) == returned


def test_a_feature(facade: Facade) -> None:
    """core: f-op, f-success, f-links; crs: ogc-crs-header."""
    row = next(row for row in SEEN_ROWS if row.label == "A")
    status, fields, one = facade.get(f"{ITEMS}/{row.id},A")
    assert (status, fields["Content-Type"], fields["Content-Crs"]) == (200, "application/geo+json", f"<{CRS84}>")
    assert one["geometry"] == {"type": "Point", "coordinates": [row.lon, row.lat]}
    assert {rel for rel, _ in rels(one)} == {"self", "alternate", "collection"}


def test_each_link_leads_to_what_it_says(facade: Facade) -> None:
    """core: root-success, fc-links: each link from the landing page on is answered with its type."""
    waiting, known = {facade.url + "/": "application/json"}, set[str]()
    while waiting:
        url, type = waiting.popitem()
        known.add(url.removeprefix(facade.url))
        status, fields, body = facade.ask(url, "eve")
        assert (status, fields["Content-Type"].removesuffix("; charset=utf-8")) == (200, type)
        if type != "text/html":
            document = json.loads(body)
            nested = [one for one in document.get("collections", []) if one["id"] == TABLE]
            links = [link for one in [document, *nested] for link in one.get("links", []) if link["rel"] != "next"]
            waiting |= {link["href"]: link["type"] for link in links if link["href"].removeprefix(facade.url) not in known}
    paths = {"/", "/api", "/conformance", "/collections", f"/collections/{TABLE}", ITEMS}
    assert known == paths | {f"{path}?f=html" for path in paths}


def test_a_crs_is_that_of_the_positions(facade: Facade) -> None:
    """crs: fc-crs-action, fc-crs-default-value, ogc-crs-header, ogc-crs-header-value, geojson."""
    for target in (f"{ITEMS}?limit=20&", f"{ITEMS}/{next(row.id for row in SEEN_ROWS if not row.label)}?"):
        told = {}
        for crs in (None, CRS84, EPSG_4326):
            _, fields, document = facade.get(target + ("" if crs is None else urlencode({"crs": crs})))
            assert fields["Content-Crs"] == f"<{crs or CRS84}>"
            told[crs] = [one["geometry"]["coordinates"] for one in document.get("features", [document])]
        assert told[None] == told[CRS84] == [[lon, lat] for lat, lon in told[EPSG_4326]]
        assert all(abs(lat) <= 90 for lat, _ in told[EPSG_4326])


@pytest.mark.parametrize("west", [-20.0, 130.0])
def test_a_bbox_crs_is_that_of_the_bbox(facade: Facade, west: float) -> None:
    """crs: fc-bbox-crs-action, fc-bbox-crs-default-value; also with heights, and over the antimeridian."""
    south, east, north = -10.5, 40.0, 60.0
    shown = facade.names("bob", bbox=f"{west},{south},{east},{north}", limit="1000")
    inside = [row for row in SEEN_ROWS if south <= row.lat <= north]
    inside = [row for row in inside if (west <= row.lon <= east if west <= east else row.lon >= west or row.lon <= east)]
    assert shown == sorted((row.id, row.label) for row in inside) != []
    for crs, bbox in (
        (CRS84, f"{west},{south},{east},{north}"), (EPSG_4326, f"{south},{west},{north},{east}"),
        (EPSG_4326, f"{south},{west},0,{north},{east},9"),
    ):  # fmt: skip
        assert facade.names("bob", **{"bbox": bbox, "bbox-crs": crs, "limit": "1000"}) == shown


MOMENT = "2024-01-01T00:00:00Z"
BAD = [
    ("bbox", "1,2,3"), ("bbox", "1,2,3,x"), ("bbox", "1,2,3,nan"), ("bbox", "1,2,3,inf"), ("bbox", "1,3,3,2"), ("bbox", ""),
    ("bbox", "1,2,3,4,5"), ("datetime", ""), ("datetime", ".."), ("datetime", "../.."), ("datetime", "/"),
    ("datetime", "2024-01-01"), ("datetime", "2024-13-01T00:00:00Z"), ("datetime", "2024-01-01T00:00:00"),
    ("datetime", f"{MOMENT}/{MOMENT}/{MOMENT}"), ("datetime", f"{MOMENT}/2023-01-01T00:00:00Z"), ("datetime", "now"),
    ("limit", "0"), ("limit", "-1"), ("limit", "x"), ("limit", ""), ("limit", "1.5"), ("after", "x"), ("after", ""),
    ("after", "e30="), ("after", "bnVsbA=="), ("after", "W10="), ("after", "eyJpZCI6MSwibGFiZWwiOjIsInBvaW50IjpbMCwwLDBdfQ=="),
    ("after", "eyJpZCI6ICJhIiwgImxhYmVsIjogIiIsICJwb2ludCI6IFswLCA5OTk5OTk5OTk5LCAwXX0="), ("f", "xml"), ("f", ""),
    ("crs", "EPSG:4326"), ("crs", ""), ("crs", "http://www.opengis.net/def/crs/EPSG/0/3857"), ("bbox-crs", "CRS84"),
]  # fmt: skip


@pytest.mark.parametrize(("name", "value"), BAD)
def test_an_invalid_parameter_is_refused(facade: Facade, name: str, value: str) -> None:
    """core: query-param-invalid; crs: fc-crs-valid-value, fc-bbox-crs-valid-value."""
    status, fields, said = facade.get(f"{ITEMS}?{urlencode({name: value})}")
    assert (status, fields["Content-Type"], said["code"]) == (400, "application/json", "InvalidParameterValue")
    assert said["description"].startswith(f"{name}: wanted ")


def test_an_unknown_parameter_is_refused(facade: Facade) -> None:
    """core: query-param-unknown; and one that is there twice, or is no UTF-8."""
    for query in ("limit=1&limit=1", "bbox=%ff", "crs=1&crs=2", "&".join(f"a{number}=1" for number in range(101))):
        assert facade.get(f"{ITEMS}?{query}")[0] == 400
    for path in ("/", "/conformance", "/api", "/collections", f"/collections/{TABLE}", f"{ITEMS}/r1"):
        assert facade.get(f"{path}?limit=1")[0] == 400


@pytest.mark.parametrize(
    "path",
    ["/nothing", "/collections/none", "/collections/none/items", "/collections/a.b.c/items", "/collections/../items",
     "/collections/", "/collections//items", "/collections//items/r1", "/collections/%ff", f"/collections/{TABLE}/item",
     f"{ITEMS}/none", f"{ITEMS}/", f"{ITEMS}/r1,A%26", f"{ITEMS}/{'x' * 65}"],
)  # fmt: skip
def test_what_is_not_there(facade: Facade, path: str) -> None:
    """core: http, by 7.5.1 of the standard."""
    status, _, said = facade.get(path)
    assert (status, said["code"]) == (404, "NotFound")


def test_methods(facade: Facade) -> None:
    """core: http, by RFC 9110, 9.3.2 and 9.3.7: HEAD has the fields of GET, and OPTIONS asks for no token."""
    for target in ("/", "/api", "/collections", ITEMS, f"{ITEMS}?f=html", f"{ITEMS}/none"):
        (status, fields, _), (same, head, body) = facade.ask(target), facade.ask(target, method="HEAD")
        assert (same, body) == (status, b"")
        assert {name: value for name, value in head.items() if name != "Date"} == {
            name: value for name, value in fields.items() if name != "Date"
        }
    for target, status in ((ITEMS, 204), ("/nothing", 404)):
        told, fields, body = facade.ask(target, None, "OPTIONS")
        assert (told, fields["Allow"]) == (status, "GET, HEAD, OPTIONS" if status == 204 else None)
    for method in ("POST", "PUT", "DELETE", "PATCH", "TRACE"):
        told, fields, _ = facade.ask("/", method=method)
        assert (told, fields["Allow"]) == (405, "GET, HEAD, OPTIONS")
