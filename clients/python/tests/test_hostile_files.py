"""Files as others write them: other delimiters and encodings, gzip, 0 to 360 degrees, no time, and what only ogr2ogr reads."""

from __future__ import annotations

import gzip
import os
import pytest
import signal
import subprocess
import time
from functools import partial
from pathlib import Path

from conftest import Run
from fashkiin import Table
from running import COMMAND, environment

ROW = "id,lon,lat,time,label,name\na,1.5,2.5,2024-05-01,A,Bree\n"


def rows(table: Table) -> list[tuple[str, float, float, str, object]]:
    """The rows of a table."""
    return sorted((row.id, row.lon, row.lat, row.time.isoformat()[:10], row.properties.get("name")) for row in table.scan())


@pytest.mark.parametrize("delimiter", [",", ";", "\t"])
@pytest.mark.parametrize("encoding", ["", "latin-1", "utf-16"])
def test_delimiters_are_found_and_encodings_named(run: Run, table: Table, tmp_path: Path, delimiter: str, encoding: str) -> None:
    file = tmp_path / "a.txt"
    text = ROW.replace(",", delimiter).replace("Bree", "Brée").replace("\n", "\r\n")
    file.write_text(text, encoding=encoding or "utf-8-sig", newline="")
    assert run("load", table.name, file, *(["--encoding", encoding] if encoding else []))[0] == 0
    assert rows(table) == [("a", 1.5, 2.5, "2024-05-01", "Brée")]


def test_another_encoding_is_named_in_the_message(run: Run, table: Table, tmp_path: Path) -> None:
    file = tmp_path / "a.csv"
    file.write_text(ROW.replace("Bree", "Brée"), encoding="latin-1")
    assert run("load", table.name, file)[2].endswith("wanted UTF-8, or its --encoding\n")
    assert run("load", table.name, file, "--encoding", "latin-1")[0] == 0
    assert run("load", table.name, file, "--encoding", "none")[2].startswith("fashkiin: --encoding: none, wanted an encoding")


def test_a_file_that_is_not_of_the_named_encoding(run: Run, table: Table, tmp_path: Path) -> None:
    file = tmp_path / "a.csv"
    file.write_bytes(ROW.encode("utf-16")[:-1])
    code, _, err = run("load", table.name, file, "--encoding", "utf-16")
    assert (code, err.splitlines()[-1].startswith(f"fashkiin: {file}: 'utf-16")) == (3, True)


@pytest.mark.parametrize("name", ["a.csv.gz", "a.gz", "a.csv"])
def test_what_gzip_packed_is_unpacked(run: Run, table: Table, tmp_path: Path, name: str) -> None:
    file = tmp_path / name
    file.write_bytes(gzip.compress(ROW.replace("id,", "").replace("a,", "").encode()))
    assert run("load", table.name, file)[0] == 0
    assert rows(table) == [("a-1", 1.5, 2.5, "2024-05-01", "Bree")]
    file.write_bytes(gzip.compress(ROW.encode())[:-12])
    assert run("load", table.name, file)[0] == 3


def test_degrees_to_360_lines_before_the_header_and_rows_without_a_time(run: Run, table: Table, tmp_path: Path) -> None:
    file = tmp_path / "a.csv"
    file.write_text("made by a model\n\nid,long,lat,label\na,359.5,2.5,A\nb,180,2.5,A\nc,361,2.5,A\n")
    words = ("--wrap", "--skip", 2, "--default-time", "2024-05-02")
    code, _, err = run("load", table.name, file, *words, "--on-error", "skip")
    assert (code, err.splitlines()[0]) == (1, f"{file}:6: lon: 361.0, wanted -180 to 180 degrees")
    assert rows(table) == [("a", -0.5, 2.5, "2024-05-02", None), ("b", 180.0, 2.5, "2024-05-02", None)]


def test_a_dry_run_checks_and_stores_nothing(run: Run, table: Table, tmp_path: Path) -> None:
    file = tmp_path / "a.csv"
    file.write_text(ROW + "b,1,91,2024-05-01,A,x\nc,1,2,2024-05-01,A|,x\nd,1,2,2024-05-01,B,x\n")
    code, _, err = run("load", f"{table.name}x", file, "--create", "--dry-run", "--on-error", "skip")
    assert (code, err.splitlines()[-1]) == (1, "4 rows read, 2 could be stored, 2 rejected; nothing is stored")
    assert run("load", table.name, file, "--dry-run")[0] == 3
    assert rows(table) == [] and f"{table.name}x" not in run("tables")[1]


@pytest.mark.parametrize(
    ("start", "kind"),
    [(b"\0\0\x27\x0a", "a shapefile"), (b"SQLite format 3\0", "a GeoPackage"), (b"PK\3\4", "a ZIP archive"), (b"<kml>", "KML")],
)
def test_other_files_name_ogr2ogr(run: Run, table: Table, tmp_path: Path, start: bytes, kind: str) -> None:
    file = tmp_path / "a b.dat"
    file.write_bytes(start + bytes(200))
    code, _, err = run("load", table.name, file)
    line = f"ogr2ogr -f GeoJSONSeq -t_srs EPSG:4326 /vsistdout/ '{file}' | fashkiin load {table.name} -"
    assert (code, err.splitlines()[-1].startswith(f"fashkiin: {file}: {kind}")) == (3, True)
    assert err.endswith(f"wanted CSV, GeoJSON or GPX, as by: {line}\n")


def test_an_interrupted_load_says_how_to_go_on(url: str, table: Table, token_file: Path, tmp_path: Path) -> None:
    reading, writing = os.pipe()
    words = [*COMMAND, "load", table.name, "-", "--window", "1", "--quiet", "--url", url, "--token-file", str(token_file)]
    with subprocess.Popen(
        words,
        env=environment(),
        stdin=reading,
        stderr=subprocess.PIPE,
        text=True,
        preexec_fn=partial(signal.signal, signal.SIGINT, signal.SIG_DFL),
    ) as loading:
        os.write(writing, ROW.encode())
        while not rows(table):
            time.sleep(0.1)
        loading.send_signal(signal.SIGINT)
        said = loading.communicate(timeout=60)[1].splitlines()
    os.close(reading)
    os.close(writing)
    assert loading.returncode == 130
    assert said[0] == "fashkiin: interrupted, run the same command again: it goes on, and stores no row twice"
    assert len(said) == 2 and " rows read, " in said[1]
