"""Rows that cannot be stored, as a file that is mended and loaded by the same words; and a server that is lost meanwhile."""

from __future__ import annotations

import subprocess
from pathlib import Path

import pytest

from conftest import Run
from fashkiin import Table
from running import COMMAND, environment
from served import serving, token

POINT = '"geometry":{"type":"Point","coordinates":[%s,2.5]},"properties":{"time":"2024-05-01","label":"A","name":"%s"}'
FEATURES = [f'{{"type":"Feature",{POINT % it}}}' for it in (("1.5", "one"), ("181", "two"), ("1.5", "three"))]
CSV = "from a model\r\nlon;lat;time;label;name\r\n"
TRACK = """<gpx xmlns="http://www.topografix.com/GPX/1/1"><trk><name>Sunday</name><trkseg>
<trkpt lat="2.5" lon="1.5"><time>2024-05-01</time><name>one</name></trkpt><trkpt lat="2.5" lon="181"><time>2024-05-01</time>
<name>two</name></trkpt><trkpt lat="2.5" lon="1.5"><time>2024-05-01</time><name>three</name></trkpt></trkseg></trk></gpx>
"""
FILES = {
    "ships.csv": CSV + "1.5;2.5;2024-05-01;A;one\r\n181;2.5;2024-05-01;A;two\r\n1.5;2.5;2024-05-01;A;three\r\n",
    "ships.geojson": '{"type":"FeatureCollection","features":[%s]}' % ",".join(FEATURES),
    "ships.geojsonl": "\n".join(FEATURES),
    "ships.gpx": TRACK,
}


@pytest.mark.parametrize("name", FILES)
def test_rejects_are_mended_and_loaded_by_the_same_words(run: Run, table: Table, tmp_path: Path, name: str) -> None:
    """The row keeps the id that its place in the first file gave it, and its other properties."""
    file, rejects = tmp_path / name, tmp_path / f"rejects{Path(name).suffix}"
    file.write_bytes(FILES[name].encode())
    words = ["--skip", 1] if name.endswith("csv") else ["--default-label", "A"]
    code, _, err = run("load", table.name, file, *words, "--rejects", rejects)
    assert code == 1 and ": lon: 181.0, wanted -180 to 180 degrees" in err.splitlines()[0]
    assert f"fashkiin: 1 rows are in {rejects}: mend them there, and load it as this file" in err.splitlines()
    assert {row.id: row.lon for row in table.scan()} == {"ships-1": 1.5, "ships-3": 1.5}
    rejects.write_bytes(rejects.read_bytes().replace(b"181", b"18.1"))
    assert run("load", table.name, rejects, *words)[0] == 0
    stored = {row.id: row for row in table.scan()}
    assert {name: row.lon for name, row in stored.items()} == {"ships-1": 1.5, "ships-2": 18.1, "ships-3": 1.5}
    assert stored["ships-2"].properties == {**stored["ships-1"].properties, "name": "two"}


def test_a_record_over_lines_in_another_encoding_is_kept_as_it_stands(run: Run, table: Table, tmp_path: Path) -> None:
    file, rejects = tmp_path / "a.csv", tmp_path / "b.csv"
    head, good = "id,lon,lat,time,label,name\r\n", 'p,1,2,2024-05-01,A,"Br\u00e9e"\r\n'
    bad = 'q,1,91,2024-05-01,A,"a ""quoted""\nBr\u00e9e"\r\n'
    file.write_bytes((head + good + bad).encode("utf-16"))
    assert run("load", table.name, file, "--encoding", "utf-16", "--rejects", rejects)[0] == 1
    assert rejects.read_bytes().decode("utf-16") == head + bad


def test_a_file_of_rejects_takes_no_rows_that_do_not_fit(run: Run, table: Table, tmp_path: Path) -> None:
    one, two, rejects = tmp_path / "one.csv", tmp_path / "two.csv", tmp_path / "rejects.csv"
    one.write_text("id,lon,lat,time,label\np,181,2,2024-05-01,A\n")
    two.write_text("id,lat,lon,time,label\nq,2,181,2024-05-01,A\n")
    code, _, err = run("load", table.name, one, two, "--rejects", rejects)
    assert (code, err.splitlines()[-1]) == (
        2,
        f"fashkiin: --rejects: {two} has another header than the file before: load it apart",
    )
    code, _, err = run("load", table.name, one, "--rejects", tmp_path / "rejects.gpx")
    assert (code, err.splitlines()[-1].partition(" named ")[2]) == (
        2,
        f"as gpx, but {one} is csv: wanted a name that ends in .csv",
    )
    assert run("load", table.name, one, "--rejects", one)[0] == 2
    assert one.read_text().startswith("id,lon")


def test_a_lost_server_ends_a_load_in_a_line_that_says_how_to_go_on(tmp_path: Path) -> None:
    file, own = tmp_path / "a.csv", tmp_path / "token"
    rows = "".join(f"r{at},1,2,2024-05-01,A\n" for at in range(400_000))
    file.write_text("id,lon,lat,time,label\n" + rows)
    own.touch(mode=0o600)
    own.write_text(token("root"))
    with serving("A") as server:
        where = ["--url", f"http://127.0.0.1:{server.port}", "--token-file", str(own)]
        words = ["load", "points", str(file), "--create", "--quiet", *where]
        with subprocess.Popen([*COMMAND, *words], env=environment(), stderr=subprocess.PIPE, text=True) as loading:
            with pytest.raises(subprocess.TimeoutExpired):
                loading.wait(2)
            server.process.kill()
            said = loading.communicate(timeout=60)[1].splitlines()
    assert loading.returncode == 5 and len(said) == 2 and " rows read, " in said[0]
    assert said[1].endswith(", run the same command again: it goes on, and stores no row twice")
