"""GPX as receivers and other programs write it: both versions, waypoints, routes, other encodings, points without a time."""

from __future__ import annotations

import io
import pytest
from datetime import UTC, datetime
from pathlib import Path

from conftest import Run
from fashkiin import Row, Table
from fashkiin.formats import Found, InputError, Names, Source, gpx

NOON = datetime(2024, 5, 1, 12, tzinfo=UTC)
TIMELESS = "time: missing, wanted a point with a <time>, or --default-time"
NAMES = Names(number="log", unlabelled="A", default_time=NOON)
OLD = b"""<?xml version="1.0"?>
<gpx version="1.0" creator="receiver" xmlns="http://www.topografix.com/GPX/1/0" xmlns:g="http://www.groundspeak.com/cache/1/0">
<time>2024-04-30T00:00:00Z</time><bounds minlat="1" minlon="2" maxlat="3" maxlon="4"/>
<wpt lat="51.5" lon="4.25"><ele>12.5</ele><time>2024-05-01T12:00:00Z</time><name>GC1</name><url>http://x/1</url>
<urlname>One</urlname>
<g:cache id="7" available="True"><g:name>First</g:name><g:container>Small</g:container><g:logs><g:log id="1"/></g:logs></g:cache>
</wpt>
<rte><name>Home</name><number>1</number><rtept lat="51.5" lon="4.5"/></rte>
<trk><trkseg><trkpt lat="51.5" lon="4.75"><time>2024-05-01T12:00:00Z</time><course>90</course><speed>1.5</speed></trkpt></trkseg>
</trk>
</gpx>
"""


def read(data: bytes, names: Names = NAMES) -> tuple[list[Found], list[str]]:
    """The rows, and what is kept in none."""
    source = Source("f", io.BufferedReader(io.BytesIO(data)))  # type: ignore[arg-type]
    return list(gpx.read(source, names)), list(source.dropped)


def test_waypoints_routes_and_tracks_of_version_1_0() -> None:
    found, dropped = read(OLD)
    first = {"ele": "12.5", "name": "GC1", "url": "http://x/1", "urlname": "One", "container": "Small"}
    assert found == [
        (7, Row("log-1", 4.25, 51.5, NOON, "A", first)),
        (8, Row("log-2", 4.5, 51.5, NOON, "A", {"track": "Home"})),
        (9, Row("log-3", 4.75, 51.5, NOON, "A", {"segment": 1, "course": "90", "speed": "1.5"})),
    ]
    assert dropped == ["time of gpx", "bounds of gpx", "log of wpt", "a further name of wpt", "number of rte"]


def test_what_a_point_has_twice_and_points_of_a_computed_way_are_told() -> None:
    point = (
        b'<gpx xmlns:x="urn:x"><rte><rtept lat="1" lon="2"><cmt>a</cmt><cmt>b</cmt><link href="http://x"><text>X</text></link>'
        b'<link href="http://y"/><extensions><x:way><x:rpt lat="1" lon="3"/></x:way><x:hr>60</x:hr><x:hr>60</x:hr></extensions>'
        b"</rtept></rte></gpx>"
    )
    ((_, row),), dropped = read(point)
    assert isinstance(row, Row) and row.properties == {"cmt": "a", "link": "http://x", "hr": "60"}
    assert dropped == ["a further cmt of rtept", "text of link", "rpt of rtept", "a further link of rtept"]


@pytest.mark.parametrize("time", ["", "<time/>", "<time> </time>"])
def test_a_point_without_a_time_has_the_default_time(run: Run, table: Table, tmp_path: Path, time: str) -> None:
    file = tmp_path / "log.gpx"
    file.write_text(f'<gpx><trk><trkseg>\n<trkpt lat="1" lon="2">{time}</trkpt>\n</trkseg></trk></gpx>')
    code, _, err = run("load", table.name, file, "--default-label", "A")
    assert (code, err.splitlines()[-1]) == (3, f"fashkiin: {file}:2: {TIMELESS}")
    assert run("load", table.name, file, "--default-label", "A", "--default-time", "2024-05-01T12:00")[0] == 0
    assert list(table.scan()) == [Row("log-1", 2.0, 1.0, NOON, "A", {"segment": 1})]


@pytest.mark.parametrize("encoding", ["utf-8", "utf-8-sig", "utf-16", "iso-8859-1", "windows-1252"])
def test_encodings_that_the_file_names(encoding: str) -> None:
    head = f'<?xml version="1.0" encoding="{encoding.removesuffix("-sig")}"?>\n'
    text = f'{head}<gpx><wpt lat="1" lon="2"><name>Brée</name></wpt></gpx>'
    assert read(text.encode(encoding))[0] == [(2, Row("log-1", 2.0, 1.0, NOON, "A", {"name": "Brée"}))]


def test_an_encoding_that_the_file_does_not_name(run: Run, table: Table, tmp_path: Path) -> None:
    file = tmp_path / "log.gpx"
    point = '<wpt lat="1" lon="2"><time>2024-05-01</time><name>%s</name></wpt>\n'
    text = f'<?xml version="1.0" encoding="UTF-8"?>\n<gpx>\n{point % "Bree"}{point % "Brée"}</gpx>'
    file.write_text(text, encoding="latin-1")
    code, _, err = run("load", table.name, file, "--default-label", "A")
    assert (code, err.splitlines()[-1]) == (
        3,
        f"fashkiin: {file}:4: not well-formed (invalid token): line 4, column 52, wanted GPX in UTF-8, or its --encoding",
    )
    assert run("load", table.name, file, "--default-label", "A", "--encoding", "latin-1")[0] == 0
    assert sorted(row.properties["name"] for row in table.scan()) == ["Bree", "Brée"]


@pytest.mark.parametrize(
    ("data", "said"),
    [
        (b"", "1: no element found: line 1, column 0, wanted GPX"),
        (b"<gpx>\n", "2: no element found: line 2, column 0, wanted GPX"),
        (b'<?xml version="1.0" encoding="shift-jis"?>\n<gpx/>', "1: multi-byte encodings are not supported, wanted GPX in"),
        (b'<?xml version="1.0" encoding="none"?>\n<gpx/>', "1: unknown encoding: none, wanted GPX in another"),
        (b"<gpx>\n<x:wpt/></gpx>", "2: unbound prefix: line 2, column 0, wanted GPX"),
    ],
)
def test_a_file_that_is_no_gpx(data: bytes, said: str) -> None:
    with pytest.raises(InputError) as raised:
        read(data)
    assert str(raised.value).startswith(f"f:{said}")


def test_a_file_without_a_point_has_no_row(run: Run, table: Table, tmp_path: Path) -> None:
    file = tmp_path / "empty.gpx"
    file.write_text('<gpx xmlns="http://www.topografix.com/GPX/1/1" version="1.1"><trk><name>none</name><trkseg/></trk></gpx>')
    code, _, err = run("load", table.name, file, "--default-label", "A")
    assert (code, err.startswith("0 rows read, 0 stored, ")) == (0, True)


def test_a_log_that_breaks_off_is_loaded_up_to_there(run: Run, table: Table, tmp_path: Path) -> None:
    point = '<trkpt lat="1" lon="2"><time>2024-05-01T12:00:00Z</time></trkpt>\n'
    file = tmp_path / "log.gpx"
    file.write_text(f"<gpx><trk><trkseg>\n{point * 100}{point[:20]}")
    code, _, err = run("load", table.name, file, "--default-label", "A")
    said = err.splitlines()
    assert (code, said[0].partition(" in ")[0]) == (3, "100 rows read, 100 stored, 0 replaced, 0 rejected,")
    assert said[1].startswith(f"fashkiin: {file}:102: ") and said[1].endswith(", wanted GPX")
    assert table.count() == 100
