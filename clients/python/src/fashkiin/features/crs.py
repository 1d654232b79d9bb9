"""The coordinate reference systems that positions are written in (OGC 18-058r1): WGS 84, in either order of its axes."""

from __future__ import annotations

CRS84 = "http://www.opengis.net/def/crs/OGC/1.3/CRS84"
"""Longitude before latitude. Positions are in it where no other is asked for."""

EPSG_4326 = "http://www.opengis.net/def/crs/EPSG/0/4326"
"""Latitude before longitude."""

SUPPORTED = (CRS84, EPSG_4326)


def position(crs: str, lon: float, lat: float) -> list[float]:
    """A position in the order of a system's axes."""
    return [lat, lon] if crs == EPSG_4326 else [lon, lat]
