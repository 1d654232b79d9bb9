"""Bad input: one line that says file, line and field, and what was wanted. What is right beside it is stored."""

from __future__ import annotations

import json
import pytest
from pathlib import Path
from served import free_port

from conftest import Run
from fashkiin import Table
from scripted import reply, scripted

GOOD = "good,1.5,2.5,2024-05-01T12:00:00Z,A,x\n"
HEADER = "id,lon,lat,time,label,name\n"
NO_LABEL = "missing, wanted a label, or --default-label (the empty text shows a row to everybody)"
NO_TIME = "missing, wanted a time: name its field by --time-column, or give one by --default-time"
ISO = "an ISO 8601 time such as 2024-05-01T12:00:00Z"
RANGE = "wanted 1970-01-01T00:00:00Z to 2598-01-03T23:59:59Z"


def feature(**changes: object) -> str:
    """A line of GeoJSON, some of whose parts differ."""
    point = {"type": "Point", "coordinates": [changes.pop("lon", 1.5), changes.pop("lat", 2.5)]}
    own = changes.pop("properties", {})
    assert isinstance(own, dict)
    properties = {"time": "2024-05-01T12:00:00Z", "label": "A"} | own
    return json.dumps({"type": "Feature", "id": "p", "geometry": point, "properties": properties} | changes) + "\n"


@pytest.mark.parametrize(
    ("row", "said"),
    [
        ("p,1.5,91,2024-05-01T12:00:00Z,A,x\n", "lat: 91.0, wanted -90 to 90 degrees"),
        ("p,181,2.5,2024-05-01T12:00:00Z,A,x\n", "lon: 181.0, wanted -180 to 180 degrees, or --wrap for 0 to 360 degrees"),
        ("p,360.5,2.5,2024-05-01T12:00:00Z,A,x\n", "lon: 360.5, wanted -180 to 180 degrees"),
        ("p,1.5,2.5,,A,x\n", "time: missing, wanted a time, or --default-time"),
        ("p,nan,2.5,2024-05-01T12:00:00Z,A,x\n", "lon: nan, wanted -180 to 180 degrees"),
        ('p,"1,5",2.5,2024-05-01T12:00:00Z,A,x\n', "lon: '1,5', wanted degrees such as 12.5"),
        ("p,,2.5,2024-05-01T12:00:00Z,A,x\n", "lon: '', wanted degrees such as 12.5"),
        ("p,1.5,2.5,1969-12-31T23:59:59Z,A,x\n", f"time: 1969-12-31T23:59:59Z, {RANGE}"),
        ("p,1.5,2.5,2598-01-04T00:00:00Z,A,x\n", f"time: 2598-01-04T00:00:00Z, {RANGE}"),
        ("p,1.5,2.5,yesterday,A,x\n", "time: 'yesterday', wanted an ISO 8601 time such as 2024-05-01T12:00:00Z"),
        ("p,1.5,2.5,2024-05-01T12:00:00Z,A," + "x" * 4_096 + "\n", "note: 4,167 bytes, wanted 0 to 4,096 bytes"),
        ("p" * 65 + ",1.5,2.5,2024-05-01T12:00:00Z,A,x\n", "id: 65 bytes, wanted 1 to 64 bytes"),
        (",1.5,2.5,2024-05-01T12:00:00Z,A,x\n", "id: 0 bytes, wanted 1 to 64 bytes"),
        ("p,1.5,2.5,2024-05-01T12:00:00Z\n", "row: 4 columns, label is missing, wanted 6 as in the header"),
        ("p,1.5,2.5,2024-05-01T12:00:00Z,A,x,y\n", "row: 7 columns, wanted 6 as in the header"),
        ('p,1.5,2.5,2024-05-01T12:00:00Z,A,"x"y\n', "row: ',' expected after '\"', wanted a row of CSV"),
    ],
)
def test_a_row_of_csv(run: Run, table: Table, tmp_path: Path, row: str, said: str) -> None:
    file = tmp_path / "ships.csv"
    file.write_text(HEADER + GOOD + row)
    code, out, err = run("load", table.name, file)
    assert (code, out) == (3, "")
    assert err.splitlines()[-1] == f"fashkiin: {file}:3: {said}"
    assert [stored.id for stored in table.scan()] == ["good"]


def test_a_label_that_is_invalid_is_marked_where_the_server_says(run: Run, table: Table, tmp_path: Path) -> None:
    file = tmp_path / "ships.csv"
    file.write_text(HEADER + GOOD + "p,1.5,2.5,2024-05-01T12:00:00Z,A|B&C,x\n")
    code, _, err = run("load", table.name, file)
    assert code == 3
    assert err.splitlines()[-3:] == [
        f"fashkiin: {file}:3: label: invalid at byte 3, wanted an expression such as A&(B|C)",
        "    A|B&C",
        "       ^",
    ]


def test_a_mark_stands_under_the_right_letter_of_a_wide_text(run: Run) -> None:
    _, _, err = run("label", '"東é"&')
    assert err.splitlines()[1:] == ['    "東é"&', " " * 10 + "^"]


def test_text_that_is_no_utf8(run: Run, table: Table, tmp_path: Path) -> None:
    file = tmp_path / "ships.csv"
    file.write_bytes((HEADER + GOOD).encode() + b"p,1.5,2.5,2024-05-01T12:00:00Z,A,caf\xe9\n")
    code, _, err = run("load", table.name, file)
    assert (code, err.splitlines()[-1]) == (3, f"fashkiin: {file}:3: name: 'caf\\udce9', wanted UTF-8, or its --encoding")
    lines = tmp_path / "ships.geojsonl"
    lines.write_bytes(feature().encode() + feature(properties={"name": "caf?"}).encode().replace(b"?", b"\xe9"))
    code, _, err = run("load", table.name, lines)
    assert code == 3
    assert err.splitlines()[-1].startswith(f"fashkiin: {lines}:2: row: ") and err.endswith(", wanted UTF-8\n")


@pytest.mark.parametrize(
    ("line", "said"),
    [
        (feature()[:25] + "\n", "row: Expecting value at column 26, wanted a whole GeoJSON Feature in a line"),
        (feature(lat=91), "lat: 91.0, wanted -90 to 90 degrees"),
        (feature(lon="east"), "lon: 'east', wanted degrees such as 12.5"),
        (feature(geometry={"type": "LineString", "coordinates": []}), "geometry: 'LineString', wanted a Point"),
        (feature(geometry=None), "geometry: None, wanted a Point"),
        (feature(properties={"label": None}), f"label: {NO_LABEL}"),
        (feature(properties={"time": None}), f"time: {NO_TIME}"),
        (feature(properties={"time": ""}), f"time: {NO_TIME}"),
        (feature(lon=359), "lon: 359.0, wanted -180 to 180 degrees, or --wrap for 0 to 360 degrees"),
        (feature(properties={"time": 1714564800}), f"time: 1714564800, wanted {ISO}, or --time-format unix"),
        (feature(properties={"n": float("nan")}), "properties: {'n': nan}, wanted values of JSON, without NaN or Infinity"),
        (feature(properties={"n": "\ud800"}), "note: '\\ud800\"}}', wanted UTF-8"),
        ("[]\n", "type: [], wanted a GeoJSON Feature"),
    ],
)
def test_a_line_of_geojson(run: Run, table: Table, tmp_path: Path, line: str, said: str) -> None:
    file = tmp_path / "ships.geojsonl"
    file.write_text(feature(id="good") + line)
    code, out, err = run("load", table.name, file)
    assert (code, out) == (3, "")
    assert err.splitlines()[-1] == f"fashkiin: {file}:2: {said}"
    assert [stored.id for stored in table.scan()] == ["good"]


@pytest.mark.parametrize(
    ("name", "text", "said"),
    [
        ("a.csv", "", "1: nothing, wanted a header line of CSV"),
        ("a.csv", "id,lon,time,label\n", "1: column lat: missing, wanted lat or latitude or y: name it by --lat-column"),
        (
            "a.csv",
            "id,lon,lat,label\n",
            "1: column time: missing, wanted time or timestamp or datetime or date: name it by --time-column,"
            " or give a time by --default-time",
        ),
        ("a.csv", "id,lon,lat,time\n", f"1: column label: {NO_LABEL}"),
        ("a.csv", "id,lon,lat,time,label,lat\n", "1: column 'lat' is there twice, wanted names that differ"),
        ("a.geojson", '{"type":"Topology"}', "1: no features, wanted a GeoJSON FeatureCollection"),
        ("a.gpx", "<html></html>", "1: an element html, wanted gpx"),
        ("a.gpx", "<gpx>\n<wpt>\n", "3: no element found: line 3, column 0, wanted GPX"),
    ],
)
def test_a_file_that_cannot_be_read(run: Run, table: Table, tmp_path: Path, name: str, text: str, said: str) -> None:
    file = tmp_path / name
    file.write_text(text)
    code, _, err = run("load", table.name, file)
    assert (code, err.splitlines()[-1]) == (3, f"fashkiin: {file}:{said}")


def test_a_geojson_file_that_ends_early(run: Run, table: Table, tmp_path: Path) -> None:
    file = tmp_path / "a.geojson"
    file.write_text('{"type":"FeatureCollection","features":[' + feature(id="good") + "," + feature()[:50])
    code, _, err = run("load", table.name, file)
    assert code == 3
    assert err.splitlines()[-1].startswith(f"fashkiin: {file}:") and err.endswith("wanted a GeoJSON FeatureCollection\n")


def test_a_pipe_without_ids(run: Run, table: Table, tmp_path: Path, monkeypatch: pytest.MonkeyPatch) -> None:
    file = tmp_path / "a"
    file.write_text("lon,lat,time,label\n")
    with file.open() as stream:
        monkeypatch.setattr("sys.stdin", stream)
        code, _, err = run("load", table.name, "-")
    wanted = "wanted an id: name its columns by --id-column, or number the rows by --number PREFIX"
    assert (code, err.splitlines()[-1]) == (3, f"fashkiin: standard input:1: column id: missing, {wanted}")


@pytest.mark.parametrize("mode", [0o604, 0o640, 0o644])
def test_a_token_file_that_others_may_read(run: Run, token_file: Path, mode: int) -> None:
    token_file.chmod(mode)
    said = f"{token_file}: others may read this token file (mode {mode:04o}), wanted: chmod 600 {token_file}"
    assert run("whoami") == (2, "", f"fashkiin: {said}\n")


@pytest.mark.parametrize("text", ["", "root", "root.12", "ro ot." + "0" * 64, "root." + "g" * 64])
def test_a_token_file_without_a_token(run: Run, token_file: Path, text: str) -> None:
    token_file.write_text(text)
    said = f"{token_file}: line 1: no token, wanted a user's name, a dot and 64 hexadecimal digits"
    assert run("whoami") == (2, "", f"fashkiin: {said}\n")


def test_a_token_file_that_is_not_there(run: Run, tmp_path: Path) -> None:
    file = tmp_path / "none"
    assert run("whoami", "--token-file", file) == (2, "", f"fashkiin: {file}: No such file or directory, wanted a token file\n")


def test_a_server_that_is_not_there(run: Run, tmp_path: Path) -> None:
    address = f"127.0.0.1:{free_port()}"
    assert run("whoami", "--url", f"http://{address}") == (5, "", f"fashkiin: no connection to {address}: Connection refused\n")


def test_a_reply_that_is_cut_off(run: Run) -> None:
    whole = reply(200, {"auths": [], "permissions": [], "user": "root"})

    def cut(talk) -> None:  # type: ignore[no-untyped-def]
        talk.request()
        talk.send(whole[:-5])

    with scripted([cut, cut]) as url:
        code, out, err = run("whoami", "--url", url)
    assert (code, out) == (5, "")
    assert err == "fashkiin: the reply was cut off after 43 of 48 bytes\n"


def test_a_file_that_is_not_there(run: Run, table: Table, tmp_path: Path) -> None:
    code, _, err = run("load", table.name, tmp_path / "none.csv")
    assert (code, err.splitlines()[-1]) == (2, f"fashkiin: {tmp_path}/none.csv: No such file or directory, wanted a file of rows")


def test_a_refusal_of_each_row_stops_the_load(run: Run, tmp_path: Path) -> None:
    file = tmp_path / "a.csv"
    file.write_text(HEADER + GOOD)
    code, _, err = run("load", "none", file, "--on-error", "skip")
    assert (code, err.splitlines()[-1]) == (4, "fashkiin: no such table: table 'none'")


def test_rows_that_cannot_be_stored_are_skipped_and_listed(run: Run, table: Table, tmp_path: Path) -> None:
    file, rejects = tmp_path / "ships.csv", tmp_path / "rejects.csv"
    file.write_text(HEADER + "a,1,91,2024-05-01,A,x\n" + GOOD + "b,1,1,2024-05-01,A|,x\nc,1,1,2024-05-01,C,x\nd,1\n")
    code, out, err = run("load", table.name, file, "--rejects", rejects, "--json")
    assert code == 1
    assert {key: value for key, value in json.loads(out).items() if key != "seconds"} == {
        "read": 5,
        "stored": 2,
        "replaced": 0,
        "rejected": 3,
        "deleted": 0,
    }
    assert err.splitlines()[:-1] == [
        f"{file}:2: lat: 91.0, wanted -90 to 90 degrees",
        f"{file}:4: label: invalid at byte 2, wanted an expression such as A&(B|C)",
        "    A|",
        "      ^",
        f"{file}:6: row: 2 columns, lat is missing, wanted 6 as in the header",
    ]
    assert rejects.read_text() == HEADER + "a,1,91,2024-05-01,A,x\nb,1,1,2024-05-01,A|,x\nd,1\n"
    assert sorted(row.id for row in table.scan()) == ["c", "good"]
    code, _, err = run("load", table.name, file, "--on-error", "skip")
    assert code == 1
    assert f"{file}:2: lat: 91.0, wanted -90 to 90 degrees" in err.splitlines()


def test_a_column_to_keep_that_is_not_there(run: Run, table: Table, tmp_path: Path) -> None:
    file = tmp_path / "a.csv"
    file.write_text(HEADER + GOOD)
    code, _, err = run("load", table.name, file, "--only", "nam")
    assert (code, err.splitlines()[-1]) == (3, f"fashkiin: {file}:1: column nam: missing, wanted it by --only")
    assert run("load", table.name, file, "--only", "name")[0] == 0
    assert [row.properties for row in table.scan()] == [{"name": "x"}]


def test_an_argument_that_is_no_utf8(run: Run) -> None:
    assert run("label", "\udcff") == (2, "", "fashkiin: an argument is not UTF-8, wanted texts in UTF-8\n")


def test_a_number_that_begins_with_a_dash_is_no_option(run: Run, table: Table) -> None:
    place = ("--lon", "-5e-05", "--lat", "-1.5E-3", "--time", "2024-05-01", "--label", "A")
    assert run("put", table.name, "p", *place)[0] == 0
    assert run("scan", table.name)[1].startswith("p\t-5e-05\t-0.0015\t")
    assert run("count", table.name, "--exact", "--bbox", "-5e-05", "-.0015", "1", "52")[1] == "1\n"


def test_settings_of_no_use(run: Run, tmp_path: Path) -> None:
    config = tmp_path / "config.toml"
    for text, said in (
        ("url = 5", "url: 5, wanted a text"),
        ("timeout = 'soon'", "timeout: 'soon', wanted a number"),
        ("insecure = 1", "insecure: 1, wanted true or false"),
        ("port = 1", "port: unknown, wanted one of url, token-file, ca-file, timeout, insecure"),
        ("url", "Expected '=' after a key in a key/value pair (at end of document), wanted TOML"),
    ):
        config.write_text(text)
        assert run("whoami", "--config", config) == (2, "", f"fashkiin: {config}: {said}\n")
    assert run("whoami", "--timeout", "0")[2] == "fashkiin: timeout: 0, wanted more than 0 and at most 86400 seconds\n"
    assert run("scan", "points", "--bbox", "0", "1", "2", "0")[2] == (
        "fashkiin: --bbox: south 1 is north of 0, wanted WEST SOUTH EAST NORTH\n"
    )
    assert run("scan", "points", "--time", "2024", "..")[2].startswith("fashkiin: --time: time: '2024', wanted an ISO 8601 time")
