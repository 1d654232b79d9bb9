"""Loading and dumping: what is dumped is loaded back, and a load that was killed ends with the same rows when it is run again."""

from __future__ import annotations

import csv
import itertools
import json
import os
import pytest
import random
import signal
import subprocess
import sys
import time
from hypothesis import given, settings
from hypothesis import strategies as st
from pathlib import Path
from served import token

from conftest import Run
from fashkiin import Client, Row, Table
from fashkiin.formats import FORMATS, Names, Source
from fashkiin.loading import Loader
from strategies import rows, texts, values

numbers = itertools.count(1)


def by_name(given_rows: list[Row]) -> list[Row]:
    """The rows that stand, each by its id and label, the last one of a name."""
    return [row for _, row in sorted({(row.id, row.label): row for row in given_rows}.items())]


@pytest.mark.parametrize("form", FORMATS)
@settings(max_examples=8)
@given(data=st.data())
def test_what_is_dumped_is_loaded_back(
    form: str, data: st.DataObject, url: str, tmp_path_factory: pytest.TempPathFactory
) -> None:
    given_rows = data.draw(st.lists(rows(texts.filter(bool) if form == "csv" else values), max_size=4))
    file = tmp_path_factory.mktemp("dump") / "rows"
    with Client(url, token("root")) as client:
        first, second = (client.table(f"dump.t{os.getpid()}_{next(numbers)}") for _ in range(2))
        for table in (first, second):
            client.tables.create(table.name)
        assert all(put.error is None for put in first.put_many(given_rows))
        with file.open("w", encoding="utf-8", newline="") as out:
            FORMATS[form].write(first.scan(), out, Names())
        with file.open("rb") as stream:
            Loader(client, second.name).load(Source("rows", stream), FORMATS[form], Names())
        assert by_name(list(second.scan())) == by_name(given_rows) == by_name(list(first.scan()))


@pytest.mark.parametrize("name", ["rows.csv", "rows.geojson", "rows.geojsonl", "rows.gpx"])
def test_the_command_dumps_what_it_loads(run: Run, table: Table, root: Client, tmp_path: Path, name: str) -> None:
    source, file, again = tmp_path / "ships.csv", tmp_path / name, tmp_path / "again.csv"
    source.write_bytes(
        b"id,lon,lat,time,label,name\r\n"
        b'a,4.25,51.5,2024-05-01T12:00:00Z,A,"sea, star"\r\n'
        b"b,-4.25,-51.5,2024-05-01T12:00:00.250000Z,A&B,\r\n"
    )
    assert run("load", table.name, source)[0] == 0
    assert run("dump", table.name, "-o", file)[:2] == (0, "")
    assert run("tables", "create", table.name + "x")[0] == 0
    assert run("load", table.name + "x", file)[0] == 0
    assert run("dump", table.name + "x", "--format", "csv", "-o", again)[0] == 0
    assert sorted(again.read_bytes().splitlines()) == sorted(source.read_bytes().splitlines())


def test_a_dump_that_fails_leaves_no_file(run: Run, table: Table, tmp_path: Path) -> None:
    source, file = tmp_path / "a.csv", tmp_path / "out.geojson"
    source.write_text("id,lon,lat,when,label,time\na,1,2,2024-05-01,A,noon\n")
    assert run("load", table.name, source, "--time-column", "when")[0] == 0
    code, out, err = run("dump", table.name, "-o", file)
    assert (code, out) == (2, "")
    assert "name the row's time by another --time-column" in err
    assert list(tmp_path.glob("*out.geojson*")) == []


def test_a_dump_of_a_place_and_a_time_and_authorizations(run: Run, table: Table, tmp_path: Path) -> None:
    source = tmp_path / "a.csv"
    source.write_text("id,lon,lat,time,label\na,1,2,2024-05-01,A\nb,50,2,2024-05-01,A\nc,1,2,2024-06-01,A\nd,1,2,2024-05-01,B\n")
    assert run("load", table.name, source)[0] == 0
    where = ("--bbox", -1, -2.5, 10, 10, "--time", "..", "2024-05-02", "--auths", "A")
    code, out, _ = run("dump", table.name, *where, "--format", "csv")
    assert (code, out.splitlines()[1:]) == (0, ["a,1.0,2.0,2024-05-01T00:00:00Z,A"])
    code, out, _ = run("scan", table.name, *where, "--json")
    assert [json.loads(line)["id"] for line in out.splitlines()] == ["a"]
    assert run("count", table.name, *where)[1] == "1\n"


def test_tabs_are_read_from_a_tsv(run: Run, table: Table, tmp_path: Path) -> None:
    file, again = tmp_path / "a.tsv", tmp_path / "b.csv"
    file.write_text("id\tlon\tlat\ttime\tlabel\na\t1.5\t2.5\t2024-05-01\tA\n")
    assert run("load", table.name, file)[0] == 0
    assert run("dump", table.name, "-o", again, "--delimiter", "tab")[0] == 0
    assert again.read_text() == "id\tlon\tlat\ttime\tlabel\na\t1.5\t2.5\t2024-05-01T00:00:00Z\tA\n"


def test_tracks_are_loaded_from_a_pipe_and_numbered(
    run: Run, table: Table, tmp_path: Path, monkeypatch: pytest.MonkeyPatch
) -> None:
    file = tmp_path / "walk.gpx"
    file.write_text('<gpx><trk><trkseg><trkpt lat="1" lon="2"><time>2024-05-01T12:00:00Z</time></trkpt></trkseg></trk></gpx>')
    assert run("load", table.name, file, "--default-label", "A")[0] == 0
    with file.open() as stream:
        monkeypatch.setattr("sys.stdin", stream)
        assert run("load", table.name, "-", "--default-label", "A", "--number", "run")[0] == 0
    assert sorted(row.id for row in table.scan()) == ["run-1", "walk-1"]


def test_a_load_that_is_killed_and_run_again_ends_with_the_rows_of_the_file(
    url: str, table: Table, root: Client, token_file: Path, tmp_path: Path
) -> None:
    chance = random.Random(5)
    file = tmp_path / "ships.csv"
    wanted = {}
    with file.open("w", newline="") as out:
        writer = csv.writer(out)
        writer.writerow(("id", "lon", "lat", "time", "label", "speed"))
        for at in range(500):
            lon, lat = round(chance.uniform(-180, 180), 5), round(chance.uniform(-90, 90), 5)
            writer.writerow((f"r{at}", lon, lat, f"2024-05-01T12:{at % 60:02}:00Z", "A", at))
            wanted[f"r{at}"] = (lon, lat, {"speed": str(at)})
    words = [sys.executable, "-m", "fashkiin", "load", table.name, "-", "--url", url, "--token-file", str(token_file)]
    environment = os.environ | {"PYTHONPATH": str(Path(__file__).resolve().parents[1] / "src")}
    data = file.read_bytes()
    root.close()
    for _ in range(3):
        with subprocess.Popen(words, env=environment, stdin=subprocess.PIPE, stderr=subprocess.DEVNULL) as loading:
            assert loading.stdin is not None
            loading.stdin.write(data[: chance.randrange(len(data))])
            loading.stdin.flush()
            time.sleep(chance.uniform(0.2, 0.5))
            loading.send_signal(signal.SIGKILL)
            assert loading.wait() == -signal.SIGKILL
    ended = subprocess.run(words, env=environment, input=data, capture_output=True, timeout=120)
    assert ended.returncode == 0, ended.stderr
    assert ended.stderr.splitlines()[-1].startswith(b"500 rows read, ")
    assert {row.id: (row.lon, row.lat, row.properties) for row in table.scan()} == wanted
