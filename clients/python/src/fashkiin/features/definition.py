"""The API definition, by OpenAPI 3.0. It says what the limits are."""

from __future__ import annotations

from typing import Any

from fashkiin.features.crs import CRS84, SUPPORTED
from fashkiin.features.documents import DESCRIPTION, GEOJSON, HTML, JSON, OPENAPI, TITLE
from fashkiin.features.items import MOST_PAGES
from fashkiin.features.query import DEFAULT_LIMIT, FORMATS, LARGEST_LIMIT, LEAST_LIMIT, OF_FEATURE, OF_FEATURES
from fashkiin.table import PAGE

LIMITS = f"""\
A page has at most {LARGEST_LIMIT:,} features; a larger limit stands for that. A page that leaves features out, by bbox, datetime\
 or a property, ends once {MOST_PAGES * PAGE:,} features were looked at: it may then have fewer than its limit, with a property \
even none, and its next link goes on. The last page has no next link. The extent of a collection is that of the features that \
you see: each side is at most a sixteenth of its length, or 19 m, away from a feature, and both times are midnights. Where you \
see no feature, there is no extent."""
FREE = {
    "name": "property",
    "in": "query",
    "description": "Any other parameter is the name of a property, and the features are those with this value: a text, a number, "
    "true or false. A name that no feature has is refused where the collection shows you at most "
    f"{PAGE:,} features. A property of the name of a parameter cannot be asked for.",
    "required": False,
    "schema": {"type": "object", "additionalProperties": {"type": "string"}},
    "style": "form",
    "explode": True,
}


def _parameter(name: str, place: str, description: str, schema: dict[str, Any]) -> dict[str, Any]:
    """A parameter of the path or the query."""
    shown = {"name": name, "in": place, "description": description, "required": place == "path", "schema": schema}
    return shown if place == "path" else shown | {"style": "form", "explode": False}


def _crs(name: str, description: str) -> dict[str, Any]:
    schema = {"type": "string", "format": "uri", "enum": list(SUPPORTED), "default": CRS84}
    return _parameter(name, "query", description, schema)


# QGIS looks up `limit` among the components, to know how large a page may be.
PARAMETERS = {
    one["name"]: one
    for one in (
        _parameter("collectionId", "path", "The name of a table", {"type": "string"}),
        _parameter("featureId", "path", "The id of a feature", {"type": "string"}),
        _parameter(
            "bbox",
            "query",
            "West, south, east, north in degrees; the latitudes first, where bbox-crs is EPSG 4326. Heights are of no account.",
            {"type": "array", "items": {"type": "number"}, "minItems": 4, "maxItems": 6},
        ),
        _crs("bbox-crs", "The coordinate reference system of the bbox"),
        _parameter(
            "datetime", "query", "A time of RFC 3339, or two with / between, or .. for one of them", {"type": "string"}
        ),
        _parameter(
            "limit",
            "query",
            "How many features a page has at most",
            {"type": "integer", "minimum": LEAST_LIMIT, "maximum": LARGEST_LIMIT, "default": DEFAULT_LIMIT},
        ),
        _parameter("after", "query", "Behind which place the page begins: next links have it", {"type": "string"}),
        _crs("crs", "The coordinate reference system of the positions in the answer"),
        _parameter("f", "query", "JSON or HTML; by the field Accept, if left out", {"type": "string", "enum": list(FORMATS)}),
        FREE,
    )
}
MEANINGS = {
    "400": "A parameter is unknown, there twice or invalid",
    "401": "No token, an unknown user or a wrong secret",
    "403": "You may not read the collection",
    "404": "There is no such collection or feature",
    "429": "Too many requests at a time",
    "500": "A fault of this service",
    "502": "The server answered what was not expected",
    "503": "The server does not answer",
}


def _get(name: str, summary: str, type: str, parameters: tuple[str, ...] = ("f",), open: bool = False) -> dict[str, Any]:
    """An operation; an open one needs no token, and asks nothing of the server."""
    exception = {"schema": {"$ref": "#/components/schemas/exception"}}
    page = {HTML: {"schema": {"type": "string"}}}
    statuses = ("400", "500") if open else tuple(MEANINGS)
    operation: dict[str, Any] = {
        "operationId": name,
        "summary": summary,
        "parameters": [{"$ref": f"#/components/parameters/{parameter}"} for parameter in parameters],
        "responses": {"200": {"description": summary, "content": {type: {"schema": {"type": "object"}}} | page}}
        | {status: {"description": MEANINGS[status], "content": {JSON: exception} | page} for status in statuses},
    }
    return {"get": operation | {"security": []} if open else operation}


def definition(base: str) -> dict[str, Any]:
    """The API definition."""
    exception = {
        "type": "object",
        "required": ["code"],
        "properties": {"code": {"type": "string"}, "description": {"type": "string"}},
    }
    collection = ("collectionId", "f")
    features = ("collectionId", *OF_FEATURES, "property")
    return {
        "openapi": "3.0.3",
        "info": {"title": TITLE, "description": f"{DESCRIPTION} {LIMITS}", "version": "1.0.0"},
        "servers": [{"url": base}],
        "security": [{"token": []}, {"user": []}],
        "paths": {
            "/": _get("landing", "The landing page", JSON, open=True),
            "/api": _get("api", "The API definition", OPENAPI, open=True),
            "/conformance": _get("conformance", "The conformance classes", JSON, open=True),
            "/collections": _get("collections", "The collections that you may read", JSON),
            "/collections/{collectionId}": _get("collection", "A collection", JSON, collection),
            "/collections/{collectionId}/items": _get("features", "The features of a collection", GEOJSON, features),
            "/collections/{collectionId}/items/{featureId}": _get(
                "feature", "A feature", GEOJSON, ("collectionId", "featureId", *OF_FEATURE)
            ),
        },
        "components": {
            "securitySchemes": {
                "token": {"type": "http", "scheme": "bearer", "bearerFormat": "USER.SECRET"},
                "user": {"type": "http", "scheme": "basic", "description": "The user, and its secret as password"},
            },
            "schemas": {"exception": exception},
            "parameters": PARAMETERS,
        },
    }
