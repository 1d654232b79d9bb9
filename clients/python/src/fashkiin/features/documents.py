"""The documents that tell what is there: landing page, conformance declaration, collections."""

from __future__ import annotations

from collections.abc import Iterable, Mapping
from typing import Any
from urllib.parse import quote, urlencode

from fashkiin.cells import time_text
from fashkiin.features.crs import CRS84, SUPPORTED
from fashkiin.features.extent import Extent

JSON = "application/json"
GEOJSON = "application/geo+json"
HTML = "text/html"
OPENAPI = "application/vnd.oai.openapi+json;version=3.0"
TITLE = "Fashkiin"
DESCRIPTION = "Labelled points in place and time. You see the points whose label is true for your authorizations."
GREGORIAN = "http://www.opengis.net/def/uom/ISO-8601/0/Gregorian"
PART_1 = "http://www.opengis.net/spec/ogcapi-features-1/1.0/conf/"
PART_2 = "http://www.opengis.net/spec/ogcapi-features-2/1.0/conf/"
CONFORMS_TO = (*(PART_1 + name for name in ("core", "geojson", "html", "oas30")), PART_2 + "crs")

Link = dict[str, str]


def link(rel: str, href: str, type: str, title: str) -> Link:
    """A link (OGC 17-069r4, 5.2)."""
    return {"rel": rel, "href": href, "type": type, "title": title}


def links(rel: str, href: str, type: str, title: str) -> list[Link]:
    """The links to a document in both of its forms."""
    return [link(rel, href, type, title), link(rel, f"{href}?f=html", HTML, f"{title} as HTML")]


def own_links(url: str, given: Mapping[str, str], type: str, html: bool) -> list[Link]:
    """The links of a document to itself, by the parameters that it was asked for with, and to its other form."""
    data = with_parameters(url, dict(given) | {"f": "json"} if html else given)
    page = with_parameters(url, dict(given) | {"f": "html"})
    found = [
        link("alternate" if html else "self", data, type, "This document as JSON"),
        link("self" if html else "alternate", page, HTML, "This document as HTML"),
    ]
    return found[::-1] if html else found


def with_parameters(url: str, given: Mapping[str, str]) -> str:
    """A URL with a query part, where there are parameters."""
    return f"{url}?{urlencode(given)}" if given else url


def collection_path(table: str) -> str:
    """The path of a collection."""
    return f"/collections/{quote(table, safe='')}"


def landing(base: str, own: list[Link]) -> dict[str, Any]:
    """The landing page."""
    return {
        "title": TITLE,
        "description": DESCRIPTION,
        "links": [
            *own,
            link("service-desc", f"{base}/api", OPENAPI, "The API definition"),
            link("service-doc", f"{base}/api?f=html", HTML, "The API definition as HTML"),
            *links("conformance", f"{base}/conformance", JSON, "The conformance classes"),
            *links("data", f"{base}/collections", JSON, "The collections"),
        ],
    }


def conformance(own: list[Link]) -> dict[str, Any]:
    """The conformance declaration."""
    return {"conformsTo": list(CONFORMS_TO), "links": own}


def collections(base: str, own: list[Link], found: Iterable[tuple[str, Extent | None]]) -> dict[str, Any]:
    """The collections: the tables that the asker may read, each with its extent."""
    return {
        "links": own,
        "crs": list(SUPPORTED),
        "collections": [collection(base, table, extent) for table, extent in found],
    }


def collection(base: str, table: str, extent: Extent | None, own: list[Link] | None = None) -> dict[str, Any]:
    """A collection, and the extent of what the asker sees of it; without one where that is nothing."""
    href = base + collection_path(table)
    shown: dict[str, Any] = {
        "id": table,
        "title": table,
        "description": f"The points of the table {table}",
        "itemType": "feature",
        "crs": list(SUPPORTED),
        "storageCrs": CRS84,
    }
    if extent is not None:
        shown["extent"] = {
            "spatial": {"bbox": [list(extent.bbox)], "crs": CRS84},
            "temporal": {"interval": [[time_text(extent.begin), time_text(extent.end)]], "trs": GREGORIAN},
        }
    return shown | {
        "links": [
            *(own_links(href, {}, JSON, html=False) if own is None else own),
            *links("items", f"{href}/items", GEOJSON, f"The points of {table}"),
        ]
    }
