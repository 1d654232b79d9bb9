"""A stricter label takes the place of the old one: what others see meanwhile and afterwards, and what a cut leaves."""

from __future__ import annotations

import pytest
import threading
from collections.abc import Iterator
from dataclasses import replace
from datetime import UTC, datetime
from pathlib import Path
from served import digest, token

from conftest import Run
from facade import Facade, features
from fashkiin import Client, Row, Table
from scripted import OK, Talk, reply, scripted

NOON = datetime(2024, 5, 1, 12, tzinfo=UTC)
WITNESS = Row("w1", 4.25, 51.5, NOON, "", {"name": "harbour"})
ROWS = "id,lon,lat,time,label\n"


@pytest.fixture
def eve(root: Client, table: Table, url: str) -> Iterator[Client]:
    """A user without authorizations who may read the table."""
    root.users.create("eve", digest("eve"))
    root.grants.grant("eve", "READ", table=table.name)
    root.close()
    with Client(url, token("eve")) as client:
        yield client
    root.users.drop("eve")


@pytest.fixture
def ogc(url: str) -> Iterator[Facade]:
    """The features over the server."""
    with features("--port", "0", "--url", url) as address:
        yield Facade(address, 0)


def seen(table: Table, ogc: Facade) -> set[int]:
    """How often eve sees the one row of a table by a scan, a count, a grid and the OGC API."""
    rows = list(table.scan())
    assert rows in ([], [WITNESS])
    _, _, page = ogc.get(f"/collections/{table.name}/items", "eve")
    assert all(it["properties"]["label"] == "" for it in page["features"])
    matched = {len(page["features"]), page["numberReturned"], page["numberMatched"]}
    return {len(rows), table.count(), sum(count for line in table.grid(nx=4, ny=4) for count in line), *matched}


def test_eve_sees_the_old_row_or_none_and_none_once_it_is_relabelled(
    run: Run, table: Table, eve: Client, url: str, ogc: Facade
) -> None:
    """So does the map: `clients/map/tests/test_refusals.py`."""
    polled, faults, done = [0], [], threading.Event()

    def poll() -> None:
        with Client(url, token("eve")) as client, Client(url, token("root")) as owner:
            while not done.is_set():
                polled[0] += 1
                if not seen(client.table(table.name), ogc) <= {0, 1}:
                    faults.append("eve saw the row twice")
                if not owner.table(table.name).get("w1"):
                    faults.append("the row was lost")

    table.put(WITNESS)
    watcher = threading.Thread(target=poll)
    watcher.start()
    try:
        for _ in range(5):
            assert seen(eve.table(table.name), ogc) == {1}
            assert run("relabel", table.name, "w1", "--label", "A&B") == (0, "", "")
            assert seen(eve.table(table.name), ogc) == {0}
            assert run("relabel", table.name, "w1", "--label", "", "--from", "A&B") == (0, "", "")
    finally:
        done.set()
        watcher.join()
    assert faults == [] and polled[0] > 1


def test_a_note_of_any_form_is_kept(run: Run, table: Table, root: Client) -> None:
    row = {"id": "p", "point": [1, 2, 3], "label": "A", "note": "a text of another program"}
    root.ask("POST", f"/tables/{table.name}/put", row)
    assert run("relabel", table.name, "p", "--label", "A&B")[0] == 0
    assert table.told("p") == [row | {"label": "A&B"}]


def test_rows_that_differ_are_not_merged(run: Run, table: Table) -> None:
    table.put(WITNESS)
    table.put(Row("w1", 1.0, 2.0, NOON, "A"))
    table.put(Row("w1", 1.0, 2.0, NOON, "B"))
    said = "fashkiin: 'w1': the rows under '' and 'A' differ: say which one by --from, and delete the other\n"
    assert run("relabel", table.name, "w1", "--label", "C") == (3, "", said)
    said = "fashkiin: 'w1': another row stands under '' already: delete one of the two\n"
    assert run("relabel", table.name, "w1", "--label", "", "--from", "A") == (3, "", said)
    assert run("relabel", table.name, "w1", "--label", "C", "--from", "A")[0] == 0
    assert [row.label for row in table.get("w1")] == ["", "B", "C"]


def test_what_is_not_there_is_not_relabelled(run: Run, table: Table) -> None:
    said = "fashkiin: you see no row 'w1', and none under 'A'; nothing is changed\n"
    assert run("relabel", table.name, "w1", "--label", "B", "--from", "A") == (1, "", said)
    table.put(WITNESS)
    code, _, err = run("relabel", table.name, "w1", "--label", "A|")
    assert (code, err.splitlines()[0]) == (3, "fashkiin: label: invalid at byte 2, wanted an expression such as A&(B|C)")
    assert table.get("w1") == [WITNESS]


def test_a_relabelling_that_is_cut_off_says_what_is_left_and_goes_on(run: Run, table: Table) -> None:
    who = reply(200, {"user": "root", "auths": ["A"], "permissions": []})
    row = {"id": "w1", "point": [1, 2, 3], "label": "", "note": ""}
    asked: list[bytes] = []

    def cut(talk: Talk) -> None:
        answers = iter([who, reply(200, {"rows": [row]}), OK])
        while (told := talk.request()) is not None:
            asked.append(told[0])
            if told[0].split()[1].endswith(b"/delete"):
                return
            talk.send(next(answers))

    with scripted([cut, cut]) as url:
        code, _, err = run("relabel", table.name, "w1", "--label", "A", "--url", url)
    assert [line.split()[1].rsplit(b"/")[-1] for line in asked] == [b"whoami", b"get", b"put", b"delete", b"delete"]
    left = "the row may stand under the old label still, or under both, wanted the same command again"
    assert (code, err) == (5, f"fashkiin: the connection ended before a whole reply; {left}\n")
    table.put(WITNESS)
    table.put(replace(WITNESS, label="A"))
    assert run("relabel", table.name, "w1", "--label", "A") == (0, "", "")
    assert [row.label for row in table.get("w1")] == ["A"]
    assert run("relabel", table.name, "w1", "--label", "A")[0] == 0


def test_a_load_under_a_stricter_label_says_that_the_old_row_stands(run: Run, table: Table, eve: Client, tmp_path: Path) -> None:
    first, second = tmp_path / "first.csv", tmp_path / "second.csv"
    first.write_text(ROWS + "w1,4.25,51.5,2024-05-01,\nw2,4.25,51.5,2024-05-01,\n")
    second.write_text(ROWS + "w1,4.25,51.5,2024-05-01,A&B\n")
    assert run("load", table.name, first)[0] == 0
    code, _, err = run("load", table.name, second)
    example = "such as 'w1' under '': load --replace deletes it there"
    assert (code, err.splitlines()[0]) == (0, f"fashkiin: 1 of 1 rows stand under another label too, {example}")
    assert {row.id for row in eve.table(table.name).scan()} == {"w1", "w2"}
    code, _, err = run("load", table.name, second, "--replace")
    counts = "1 rows read, 0 stored, 1 replaced, 0 rejected, 1 deleted under other labels, in "
    assert (code, err[: len(counts)]) == (0, counts)
    assert {row.id for row in eve.table(table.name).scan()} == {"w2"}
    assert [row.label for row in table.get("w1")] == ["A&B"]


def test_rows_that_are_replaced_are_counted_also_within_a_file(run: Run, table: Table, tmp_path: Path) -> None:
    file = tmp_path / "a.csv"
    file.write_text(ROWS + "p,1,2,2024-05-01,A\nq,1,2,2024-05-01,A\np,3,4,2024-05-01,A\nq,3,4,2024-05-01,A\n")
    assert run("load", table.name, file)[2].startswith("4 rows read, 2 stored, 2 replaced, 0 rejected, in ")
    assert run("load", table.name, file)[2].startswith("4 rows read, 0 stored, 4 replaced, 0 rejected, in ")
    assert {(row.id, row.lon) for row in table.scan()} == {("p", 3.0), ("q", 3.0)}


def test_of_the_rows_of_an_id_in_a_file_the_last_one_replaces_all(run: Run, table: Table, tmp_path: Path) -> None:
    file = tmp_path / "a.csv"
    table.put(WITNESS)
    rows = [f"w1,{at},2,2024-05-01,{label}\n" for at, label in enumerate(["A", "B", "A", "C", "B", "A"])]
    file.write_text(ROWS + "".join(rows))
    for window in (1, 2, 3, 64):
        assert run("load", table.name, file, "--replace", "--window", window)[0] == 0
        assert [(row.label, row.lon) for row in table.get("w1")] == [("A", 5.0)]


def test_a_put_says_what_it_replaces_and_what_stands_beside_it(run: Run, table: Table) -> None:
    place = ("--lon", "1", "--lat", "2", "--time", "2024-05-01")
    assert run("put", table.name, "w1", *place, "--label", "") == (0, "", "")
    said = f"fashkiin: 'w1' also stands under '': fashkiin delete {table.name} w1 --label ''\n"
    assert run("put", table.name, "w1", *place, "--label", "A&B") == (0, "", said)
    code, _, err = run("put", table.name, "w1", *place, "--label", "A&B")
    assert (code, err) == (0, "fashkiin: the row took the place of the one that was there\n" + said)


def test_a_delete_of_nothing_says_so(run: Run, table: Table) -> None:
    table.put(WITNESS)
    code, _, err = run("delete", table.name, "w1", "--label", "A")
    assert (code, err.partition(";")[0]) == (1, "fashkiin: you see no row 'w1' under 'A' (it stands under '')")
    assert run("delete", table.name, "w1", "--label", "") == (0, "", "")
    assert run("delete", table.name, "w1", "--label", "")[0] == 1
