"""The store as an OGC API: features of points, for QGIS, GDAL, browsers and whoever else reads them.

Conformance classes Core, GeoJSON, HTML and OpenAPI 3.0 of OGC API - Features - Part 1 (OGC 17-069r4), and Coordinate Reference
Systems by Reference of Part 2 (OGC 18-058r1). `Features` is a WSGI application (PEP 3333) that any WSGI server can run;
`fashkiin features` runs it by waitress.
"""

from fashkiin.features.application import Features

__all__ = ["Features"]
