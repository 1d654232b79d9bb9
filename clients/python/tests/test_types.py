"""Columns and elements that are numbers throughout are numbers; extensions of GPX are kept, and what is not is told."""

from __future__ import annotations

import json
import pytest
from pathlib import Path

from conftest import Run
from fashkiin import Table

CSV = """\
id,lon,lat,time,label,knots,share,code,mixed,long,place
a,1,2,2024-05-01,A,7,0.5,007,1,1234567890123456,Bree
b,1,2,2024-05-01,A,,1e-3,012,n/a,1234567890123457,
c,1,2,2024-05-01,A,-12,-2.50,999,3,1,Bree
"""
NUMBERS = {
    "a": {"knots": 7, "share": 0.5, "code": "007", "mixed": "1", "long": "1234567890123456", "place": "Bree"},
    "b": {"share": 0.001, "code": "012", "mixed": "n/a", "long": "1234567890123457"},
    "c": {"knots": -12, "share": -2.5, "code": "999", "mixed": "3", "long": "1", "place": "Bree"},
}
GPX = """\
<gpx xmlns="http://www.topografix.com/GPX/1/1" xmlns:t="urn:trackpoint"><metadata><name>x</name></metadata>
<trk><name>Sunday</name><desc>long</desc><type>running</type>
<trkseg><trkpt lat="1" lon="2"><ele>12.5</ele><time>2024-05-01T12:00:00Z</time><extensions><t:TrackPointExtension><t:hr>142</t:hr>
<t:cad>80</t:cad></t:TrackPointExtension></extensions></trkpt></trkseg>
<trkseg><trkpt lat="1" lon="3"><ele>13</ele><time>2024-05-01T12:00:01Z</time><sym>x</sym></trkpt></trkseg></trk>
<wpt lat="1" lon="4"><time>2024-05-01T12:00:02Z</time><type>hut</type>
<link href="http://hut.example"><text>a hut</text></link></wpt>
</gpx>
"""


def properties(table: Table) -> dict[str, object]:
    """The properties of the rows of a table, with types that JSON tells apart."""
    return {row.id: row.properties for row in table.scan()}


def test_columns_that_are_numbers_throughout(run: Run, table: Table, tmp_path: Path) -> None:
    file = tmp_path / "a.csv"
    file.write_text(CSV)
    assert run("load", table.name, file)[0] == 0
    assert json.dumps(properties(table), sort_keys=True) == json.dumps(NUMBERS, sort_keys=True)
    for name in ("b.geojson", "b.csv", "b.gpx"):
        assert run("dump", table.name, "--output", tmp_path / name)[0] == 0
        assert run("tables", "create", f"{table.name}{name[2:]}")[0] == 0
        assert run("load", f"{table.name}{name[2:]}", tmp_path / name)[0] == 0
        again = run("scan", f"{table.name}{name[2:]}", "--json")[1].splitlines()
        assert {row["id"]: row["properties"] for row in map(json.loads, again)} == NUMBERS


def test_a_column_that_is_to_stay_a_text(run: Run, table: Table, tmp_path: Path) -> None:
    file = tmp_path / "a.csv"
    file.write_text("id,lon,lat,time,label,MMSI,SOG\na,1,2,2024-05-01,A,219018172,9.4\n")
    assert run("load", table.name, file, "--text", "MMSI")[0] == 0
    assert properties(table) == {"a": {"MMSI": "219018172", "SOG": 9.4}}


def test_a_pipe_keeps_texts(run: Run, table: Table, tmp_path: Path, monkeypatch: pytest.MonkeyPatch) -> None:
    file = tmp_path / "a.csv"
    file.write_text(CSV)
    with file.open() as stream:
        monkeypatch.setattr("sys.stdin", stream)
        assert run("load", table.name, "-")[0] == 0
    assert properties(table)["c"] == NUMBERS["c"] | {"knots": "-12", "share": "-2.50"}


def test_extensions_of_gpx_are_kept_and_what_is_not_is_told(run: Run, table: Table, tmp_path: Path) -> None:
    file = tmp_path / "run.gpx"
    file.write_text(GPX)
    code, _, err = run("load", table.name, file, "--default-label", "A")
    assert (code, err.splitlines()[0]) == (0, f"{file}: not kept: metadata of gpx, desc of trk, text of link")
    track = {"track": "Sunday", "type": "running"}
    assert properties(table) == {
        "run-1": track | {"segment": 1, "ele": 12.5, "hr": 142, "cad": 80},
        "run-2": track | {"segment": 2, "ele": 13, "sym": "x"},
        "run-3": {"type": "hut", "link": "http://hut.example"},
    }
