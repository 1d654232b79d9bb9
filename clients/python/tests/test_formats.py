"""Files: what is written is read back."""

from __future__ import annotations

import io
import pytest
from collections.abc import Sequence
from datetime import UTC, datetime
from hypothesis import given
from hypothesis import strategies as st

from fashkiin import FashkiinError, Row
from fashkiin.formats import FORMATS, Found, InputError, Names, Source, collection, format_of, sniff
from strategies import ids, names, rows

DEFAULT = Names()
EXACT = ["geojson", "geojsonseq", "gpx"]


def written(form: str, given_rows: Sequence[Row], naming: Names = DEFAULT) -> bytes:
    raw = io.BytesIO()
    out = io.TextIOWrapper(raw, encoding="utf-8", newline="")
    FORMATS[form].write(given_rows, out, naming)
    out.flush()
    return raw.getvalue()


def found(form: str, data: bytes, naming: Names = DEFAULT) -> list[Found]:
    stream = io.BufferedReader(io.BytesIO(data))  # type: ignore[arg-type]
    return list(FORMATS[form].read(Source("f", stream), naming))


@pytest.mark.parametrize("form", EXACT)
@given(given_rows=st.lists(rows(), max_size=4))
def test_rows_are_read_back(form: str, given_rows: list[Row]) -> None:
    assert [row for _, row in found(form, written(form, given_rows))] == given_rows


@given(given_rows=st.lists(rows(ids), max_size=4))
def test_rows_of_texts_are_read_back_from_csv(given_rows: list[Row]) -> None:
    assert [row for _, row in found("csv", written("csv", given_rows))] == given_rows


@given(given_rows=st.lists(rows(), min_size=1, max_size=3), renamed=names)
def test_other_names_of_the_time_are_read_back(given_rows: list[Row], renamed: str) -> None:
    if any(renamed in row.properties for row in given_rows):
        return
    naming = Names(time=renamed)
    assert [row for _, row in found("geojsonseq", written("geojsonseq", given_rows, naming), naming)] == given_rows


@pytest.mark.parametrize("form", ["csv", "geojson", "geojsonseq"])
def test_a_property_with_the_name_of_a_field_is_refused_not_lost(form: str) -> None:
    row = Row("p", 1.0, 2.0, datetime(2024, 1, 1, tzinfo=UTC), "A", {"time": "noon"})
    with pytest.raises(FashkiinError, match="'time' of its own: .* --time-column"):
        written(form, [row])
    assert [r for _, r in found(form, written(form, [row], Names(time="at")), Names(time="at"))] == [row]


def test_a_csv_of_ship_positions() -> None:
    data = (
        b"\xef\xbb\xbfMMSI,BaseDateTime,LAT,LON,SOG,VesselName\r\n"
        b'367,2024-01-01T00:00:03,29.5,-94.25,0.0,"SEA, STAR"\r\n'
        b"368,2024-01-01T00:00:04,30.5,-95.25,,\r\n"
    )
    naming = Names(id=("MMSI", "BaseDateTime"), time="BaseDateTime", unlabelled="A")
    assert found("csv", data, naming) == [
        (
            2,
            Row(
                "367/2024-01-01T00:00:03",
                -94.25,
                29.5,
                datetime(2024, 1, 1, 0, 0, 3, tzinfo=UTC),
                "A",
                {"MMSI": "367", "SOG": "0.0", "VesselName": "SEA, STAR"},
            ),
        ),
        (3, Row("368/2024-01-01T00:00:04", -95.25, 30.5, datetime(2024, 1, 1, 0, 0, 4, tzinfo=UTC), "A", {"MMSI": "368"})),
    ]


def test_ids_of_several_columns_differ_where_the_columns_do() -> None:
    data = b"ship,leg,lon,lat,time\na/b,c,1,2,2024-01-01\na,b/c,1,2,2024-01-01\n"
    told = found("csv", data, Names(id=("ship", "leg"), unlabelled=""))
    assert [row.id for _, row in told if isinstance(row, Row)] == ["a%2Fb/c", "a/b%2Fc"]


def test_a_gpx_track() -> None:
    data = b"""<?xml version="1.0"?>
<gpx xmlns="http://www.topografix.com/GPX/1/1" version="1.1" creator="watch">
<trk><name>Sunday</name><trkseg>
<trkpt lat="51.5" lon="4.25"><ele>12.5</ele><time>2024-05-01T12:00:00Z</time></trkpt>
<trkpt lat="51.6" lon="4.5"><time>2024-05-01T12:00:01.5Z</time></trkpt>
</trkseg></trk>
<wpt lat="1" lon="2"><name>no time</name></wpt>
</gpx>
"""
    (first, one), (second, two), (third, three) = found("gpx", data, Names(number="walk", unlabelled="A"))
    assert (first, second, third) == (4, 5, 7)
    track = {"track": "Sunday", "segment": 1}
    assert one == Row("walk-1", 4.25, 51.5, datetime(2024, 5, 1, 12, tzinfo=UTC), "A", {"ele": "12.5"} | track)
    assert two == Row("walk-2", 4.5, 51.6, datetime(2024, 5, 1, 12, 0, 1, 500_000, tzinfo=UTC), "A", track)
    assert str(three) == "time: missing, wanted a point with a <time>, or --default-time"


def test_a_feature_with_a_height_and_an_id_of_its_own() -> None:
    data = (
        b'\x1e{"type":"Feature","id":7,"geometry":{"type":"Point","coordinates":[1,2,3]},"properties":{"when":0,"label":"A"}}\n'
    )
    naming = Names(time="when", time_format="unix")
    assert found("geojsonseq", data, naming) == [(1, Row("7", 1.0, 2.0, datetime(1970, 1, 1, tzinfo=UTC), "A", {"ele": 3}))]


@pytest.mark.parametrize(
    ("data", "form"),
    [
        (b'<?xml version="1.0"?><gpx/>', "gpx"),
        (b'{"type":"FeatureCollection","features":[{"type":"Feature"}]}', "geojson"),
        (b'{"type":"Feature","geometry":null}\n', "geojsonseq"),
        (b"\x1e{}", "geojsonseq"),
        (b"id,lon,lat\n", "csv"),
        (b"", "csv"),
    ],
)
def test_the_format_of_first_bytes(data: bytes, form: str) -> None:
    assert sniff(io.BufferedReader(io.BytesIO(data))) is FORMATS[form]  # type: ignore[arg-type]


@pytest.mark.parametrize("form", EXACT)
def test_numbers_of_any_size_are_read_back(form: str) -> None:
    properties = {"serial": 2**64, "code": -(10**30), "share": 0.1, "list": [2**63, 1e-7, {"deep": 10**20}]}
    row = Row("p", 1.0, 2.0, datetime(2024, 1, 1, tzinfo=UTC), "A", properties)
    assert found(form, written(form, [row])) == [(found(form, written(form, [row]))[0][0], row)]


def test_a_number_of_too_many_digits_is_an_error_of_its_row() -> None:
    point = b'{"type":"Point","coordinates":[1,2]}'
    line = b'{"type":"Feature","id":"p","geometry":%s,"properties":{"n":%s}}\n' % (point, b"7" * 5000)
    assert [str(error).partition(":")[0] for _, error in found("geojsonseq", line * 2)] == ["row", "row"]


@pytest.mark.parametrize(
    ("header", "taken"),
    [
        ("id,Lat,lat,lon,time", "lat"),
        ("id,LAT,Latitude,latitude,lon,time", "latitude"),
        ("id,y,Lat,lon,time", "Lat"),
        ("id,Y,lon,time", "Y"),
    ],
)
def test_a_column_of_the_very_name_comes_first(header: str, taken: str) -> None:
    columns = header.split(",")
    values = {"id": "p", "lon": "1", "time": "2024-01-01"}
    line = ",".join(values.get(name, "50" if name == taken else "60") for name in columns)
    ((_, row),) = found("csv", f"{header}\n{line}\n".encode(), Names(unlabelled=""))
    assert isinstance(row, Row) and row.lat == 50.0
    assert set(row.properties) == set(columns) - {*values, taken}


@pytest.mark.parametrize("names", ["Lat,LAT", "LATITUDE,Lat", "Y,y "])
def test_two_columns_that_fit_alike_are_refused(names: str) -> None:
    said = f"f:1: columns {names.replace(',', ' and ')}: both fit lat: name one by --lat-column"
    with pytest.raises(InputError, match=said):
        found("csv", f"id,lon,time,{names}\np,1,2024-01-01,5,5\n".encode(), Names(unlabelled=""))


@pytest.mark.parametrize(
    ("text", "place"),
    [
        ("POINT(4.25 51.5)", (4.25, 51.5, {})),
        ("point ( -4.25   51.5 )", (-4.25, 51.5, {})),
        ("POINT Z (4.25 51.5 12.5)", (4.25, 51.5, {"ele": 12.5})),
        ("SRID=4326;POINT(4.25 51.5)", (4.25, 51.5, {})),
    ],
)
@pytest.mark.parametrize("column", ["WKT", "geom", "where"])
def test_points_of_wkt(text: str, place: tuple[float, float, dict[str, float]], column: str) -> None:
    naming = Names(unlabelled="", point="where" if column == "where" else "")
    ((_, row),) = found("csv", f"id,{column},time\np,{text},2024-01-01\n".encode(), naming)
    assert isinstance(row, Row) and (row.lon, row.lat, row.properties) == place


WRONG = ["", "POINT EMPTY", "POINT(1)", "POINT(1 a)", "POINT M (1 2 3)", "LINESTRING(1 2)", "SRID=1;POINT(1 2)"]


@pytest.mark.parametrize("text", WRONG)
def test_other_wkt_is_no_point(text: str) -> None:
    ((_, error),) = found("csv", f"id,wkt,time\np,{text},2024-01-01\n".encode(), Names(unlabelled=""))
    assert str(error) == f"wkt: {text!r}, wanted WKT such as POINT(4.25 51.5), longitude first"


def test_objects_a_line_by_their_own_names_and_by_paths() -> None:
    data = (
        b'{"id":"p","lon":4.25,"lat":51.5,"time":"2024-05-01","label":"A","speed":7}\n'
        b'{"who":{"ship":"q","name":"Bree"},"at":{"place":[4.25,51.5],"time":"2024-05-01"},"label":"A"}\n'
    )
    moment = datetime(2024, 5, 1, tzinfo=UTC)
    one, two = found("geojsonseq", data)
    assert one == (1, Row("p", 4.25, 51.5, moment, "A", {"speed": 7}))
    assert str(two[1]) == "lon: missing, wanted a GeoJSON Feature, or an object with a lon: name it by --map lon=NAME"
    _, (_, row) = found("geojsonseq", data, Names(id=("who.ship",), lon="at.place.0", lat="at.place.1", time="at.time"))
    assert row == Row("q", 4.25, 51.5, moment, "A", {"who": {"name": "Bree"}, "at": {"place": [4.25, 51.5]}})


@pytest.mark.parametrize("size", [1, 7, 1 << 20])
def test_a_feature_collection_is_read_piece_by_piece(size: int, monkeypatch: pytest.MonkeyPatch) -> None:
    monkeypatch.setattr(collection, "PIECE", size)
    rows = [Row(f"r{at}", 1.0, 2.0, datetime(2024, 1, 1, tzinfo=UTC), "A", {"n": at, "name": "é\u6771"}) for at in range(20)]
    text = written("geojson", rows).decode().replace('"features":', '"crs": {"features": [1]}, "n": -12.5e3 , "features" : ')
    assert [row for _, row in found("geojson", b"\xef\xbb\xbf" + text.replace("\n]}", '\n], "bbox": []}').encode())] == rows
    for end in (2, 40, len(text) - 2):
        with pytest.raises(InputError, match="wanted a GeoJSON FeatureCollection"):
            found("geojson", text.encode()[:end])
    for wrong in (text + "{}", text.replace('"features" : ', '"others" : '), text.replace(",\n", "\n", 1)):
        with pytest.raises(InputError, match="wanted a GeoJSON FeatureCollection"):
            found("geojson", wrong.encode())


def test_the_format_of_a_name() -> None:
    assert format_of("a/b.GeoJSON") is FORMATS["geojson"]
    assert format_of("b") is None


def test_a_file_without_a_feature_collection() -> None:
    for data in (b"", b"[]", b'{"type":"Topology"}', b'{"features":{}}'):
        with pytest.raises(InputError, match="wanted a GeoJSON FeatureCollection"):
            found("geojson", data)
    assert found("geojson", b'{"type":"FeatureCollection","features":[]}') == []
