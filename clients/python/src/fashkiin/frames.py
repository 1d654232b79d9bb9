"""Rows as data frames of pandas and geopandas, where they are installed."""

from __future__ import annotations

from collections.abc import Iterable
from typing import TYPE_CHECKING, Any

from fashkiin.errors import SettingsError
from fashkiin.rows import Row

if TYPE_CHECKING:
    import geopandas
    import pandas

FIELDS = ("id", "lon", "lat", "time", "label")


def frame(rows: Iterable[Row]) -> pandas.DataFrame:
    """A data frame of id, lon, lat, time, label and a column a property; a property with the name of one of these begins with
    `property_`. Times are `datetime64[ns, UTC]`, or objects where one is after 2262, which pandas cannot hold."""
    try:
        import pandas
    except ImportError:
        raise SettingsError("a data frame needs pandas: apt install python3-pandas") from None
    records = [_record(row) for row in rows]
    made = pandas.DataFrame.from_records(records, columns=None if records else FIELDS)
    last = max((row["time"] for row in records), default=None)
    if last is None or last <= pandas.Timestamp.max.tz_localize("UTC"):
        made["time"] = pandas.to_datetime(made["time"], utc=True)
    return made


def geoframe(rows: Iterable[Row]) -> geopandas.GeoDataFrame:
    """A data frame with points in EPSG:4326 in place of the columns lon and lat."""
    try:
        import geopandas
    except ImportError:
        raise SettingsError("a data frame of points needs geopandas: apt install python3-geopandas") from None
    made = frame(rows)
    points = geopandas.points_from_xy(made.pop("lon"), made.pop("lat"))
    return geopandas.GeoDataFrame(made, geometry=points, crs="EPSG:4326")


def _record(row: Row) -> dict[str, Any]:
    own = {"id": row.id, "lon": row.lon, "lat": row.lat, "time": row.time, "label": row.label}
    return own | {f"property_{name}" if name in own else name: value for name, value in row.properties.items()}
