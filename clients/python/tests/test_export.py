"""The export, loaded into a real PostGIS: each user sees and counts there what the server tells."""

from __future__ import annotations

import csv
import json
import random
import stat
from collections.abc import Iterator
from contextlib import closing
from datetime import datetime
from pathlib import Path

import psycopg2
import pytest
from exported import AUTHS, NOON, ROWS, TABLES, USERS, Both, Select, load, run
from hypothesis import HealthCheck, given, settings
from hypothesis import strategies as st
from postgres import SUPERUSER
from psycopg2 import errors
from served import digest, served, token

from fashkiin import Client, Row
from fashkiin.cells import EVERYTHING, LAST_CELL, Box
from fashkiin.cells import time_second as second
from fashkiin.errors import LabelError, PermissionDeniedError


def relation(table: str) -> str:
    return ".".join(f'"{name}"' for name in (table.split(".") if "." in table else ("public", table)))


def boxes() -> list[Box]:
    """Everything, single rows, and some boxes between two rows."""
    some = random.Random(2)
    found = [EVERYTHING, Box(0, 0, 0, 0, 0, 0), Box(*(end for number in ROWS[500].point() for end in (number, number)))]
    for _ in range(12):
        ends = list(zip(*(row.point() for row in some.sample(ROWS, 2)), strict=True))
        found.append(Box(*(end for pair in ends for end in sorted(pair))))
    found.append(Box(LAST_CELL // 2, LAST_CELL, 0, LAST_CELL, 0, second(NOON) + 50_000))
    return found


@pytest.mark.parametrize("user", [*USERS, "root"])
@pytest.mark.parametrize("table", TABLES)
def test_each_user_counts_in_postgis_what_the_server_tells(both: Both, user: str, table: str) -> None:
    query = f"select count(*) from {relation(table)} where "
    query += "x between %s and %s and y between %s and %s and t between %s and %s"
    counts = []
    with both.client(user) as client, both.selects(user) as select:
        own = client.whoami().auths
        for box in boxes():
            body = {"box": box, "auths": own}
            try:
                told = client.ask("POST", f"/tables/{table}/count", body)["count"]
            except PermissionDeniedError:
                with pytest.raises(errors.InsufficientPrivilege):
                    select(query, *box)
            else:
                assert select(query, *box) == [(told,)]
                counts.append(told)
    if user in ("root", "bob") and table == "geo.trips":
        assert 0 < counts[0] < len(ROWS) or user == "root"
        assert len(set(counts)) > 8


@pytest.mark.parametrize("user", ["ann", "bob", "eve", "root"])
def test_each_user_sees_the_rows_as_the_server_tells_them(both: Both, user: str) -> None:
    query = "select id, st_x(geom), st_y(geom), time, label, properties, x, y, t from geo.trips"
    shown = sorted(both.select(user, query), key=lambda row: (row[0], row[4]))
    with both.client(user) as client:
        told = sorted(client.table("geo.trips").scan(), key=lambda row: (row.id, row.label))
    assert [Row(*row[:6]) for row in shown] == told != []
    assert [row[6:] for row in shown] == [row.point() for row in told]


def test_a_bbox_of_postgis_finds_exact_positions(both: Both) -> None:
    bbox = (ROWS[700].lon, -20.0, ROWS[700].lon + 30, 45.5)
    query = "select id from geo.trips where geom && st_makeenvelope(%s, %s, %s, %s, 4326)"
    with both.client("bob") as client:
        told = sorted(row.id for row in client.table("geo.trips").scan(bbox))
    assert sorted(id for (id,) in both.select("bob", query, *bbox)) == told != []


INSERT = "insert into {} (id, label, geom, time, x, y, t) values ('new', %s, st_point(1, 2, 4326), now(), {}, 0, 0)"


def test_writes_are_judged_by_the_policy(both: Both) -> None:
    with pytest.raises(errors.InsufficientPrivilege, match="permission denied"):
        both.select("ann", INSERT.format("geo.trips", 0), "A")
    with pytest.raises(errors.InsufficientPrivilege, match="the label A&C is not true for bob"):
        both.select("bob", INSERT.format("geo.locked", 0), "A&C")
    with pytest.raises(errors.DataException, match="no label"):
        both.select("bob", INSERT.format("geo.trips", 0), "A&")
    for table, label in (("geo.trips", "A&C&new"), ("geo.locked", "A&B&(A|new)"), ("geo.locked", "A")):
        both.select("bob", INSERT.format(table, 0), label)
    select = "select 'locked', label from geo.locked where id = 'new'"
    select += " union all select 'trips', label from geo.trips where id = 'new'"
    select += " order by label"
    assert both.select("bob", select) == [("locked", "A"), ("locked", "A&B&(A|new)")]
    assert both.select("ann", select) == [("locked", "A")]
    with pytest.raises(errors.InsufficientPrivilege, match="not true for bob"):
        both.select("bob", "update geo.locked set label = 'C' where id = 'new'")
    both.select("bob", "delete from geo.trips where id = 'new'")
    both.select("bob", "delete from geo.locked where id = 'new'")
    both.select("dora", "delete from geo.trips")
    assert both.select("bob", select) == []
    hidden = """delete from "fashkiin.geo".trips where id = 'new' returning label"""
    assert both.select(SUPERUSER, hidden) == [("A&C&new",)]


def test_a_written_row_replaces_the_one_of_its_id_and_label(both: Both) -> None:
    """As a put does, whether its writer sees that row or not; an update moves the row."""
    hidden = """select label, x from "fashkiin.geo".trips where id = 'new' order by x"""
    with both.selects("bob") as select:
        for label, x in (("A", 1), ("A&C", 2), ("A", 3), ("A&C", 4)):
            select(INSERT.format("geo.trips", x), label)
        assert select("select x, properties from geo.trips where id = 'new'") == [(3, {})]
        assert both.select(SUPERUSER, hidden) == [("A", 3), ("A&C", 4)]
        assert select("update geo.trips set label = 'A&C', x = x + 2 where id = 'new' returning x") == [(5,)]
    assert both.select(SUPERUSER, hidden) == [("A&C", 5)]
    both.select(SUPERUSER, """delete from "fashkiin.geo".trips where id = 'new'""")


# Texts of the letters that labels are made of, and labels with a letter changed.
LETTERS = st.text(st.sampled_from('AB&|()"\\ é-'), max_size=12)
CHANGED = st.builds(
    lambda label, places: "".join(places.get(at, letter) for at, letter in enumerate(label)),
    st.sampled_from(sorted({row.label for row in ROWS})),
    st.dictionaries(st.integers(0, 60), st.sampled_from(["", *'A&|()"\\ ']), min_size=1, max_size=2),
)


@settings(max_examples=400, deadline=None, suppress_health_check=[HealthCheck.function_scoped_fixture])
@given(st.one_of(LETTERS, CHANGED).filter(lambda text: len(text.encode()) <= 256))
def test_a_text_is_a_label_in_both_or_in_neither(sessions: tuple[Client, Select], text: str) -> None:
    client, select = sessions
    try:
        client.label(text)
        is_label = True
    except LabelError:
        is_label = False
    assert select("select %s = '' or fashkiin.needs(%s) is not null", text, text) == [(is_label,)]


@pytest.fixture(scope="module")
def sessions(both: Both) -> Iterator[tuple[Client, Select]]:
    with both.client("eve") as client, both.selects(SUPERUSER) as select:
        yield client, select


@pytest.mark.parametrize("depth", [16, 17])
def test_sixteen_parentheses_may_be_open(sessions: tuple[Client, Select], depth: int) -> None:
    text = "(" * depth + "A" + ")" * depth
    client, select = sessions
    needs = select("select fashkiin.needs(%s)::text", text)
    if depth == 16:
        assert needs == [("'A'",)] and client.label(text) == "A"
    else:
        assert needs == [(None,)]
        with pytest.raises(LabelError):
            client.label(text)


def test_roles_that_are_there_are_never_taken(both: Both) -> None:
    """The script fails as a whole; with a prefix it makes roles of its own."""
    made = run(both.port, both.folder, "root", "export", "postgis", "--table", "points")
    loaded = load(both.socket, "again", made.stdout)
    assert loaded.returncode == 3 and b'role "fashkiin:owner" already exists' in loaded.stderr
    made = run(both.port, both.folder, "root", "export", "postgis", "--table", "points", "--role-prefix", "other_")
    loaded = load(both.socket, "other", made.stdout)
    assert (loaded.returncode, loaded.stderr) == (0, b"")
    with closing(psycopg2.connect(host=str(both.socket), user="other_select", dbname="other")) as connection:
        cursor = connection.cursor()
        cursor.execute("select count(*) from points")
        with both.client("select") as client:
            assert cursor.fetchone() == (client.table("points").count(),)


@pytest.mark.parametrize("left", [0.999, 0.5, 0.1])
def test_a_script_that_was_cut_off_changes_nothing(both: Both, left: float) -> None:
    made = run(both.port, both.folder, "root", "export", "postgis", "--table", "geo.trips", "--role-prefix", "cut_").stdout
    database = f"cut_{int(1000 * left)}"
    load(both.socket, database, made[: int(len(made) * left)])
    with closing(psycopg2.connect(host=str(both.socket), user=SUPERUSER, dbname=database)) as connection:
        cursor = connection.cursor()
        cursor.execute("select count(*) from pg_namespace where nspname = 'fashkiin'")
        assert cursor.fetchone() == (0,)
        cursor.execute("select count(*) from pg_roles where rolname like 'cut_%'")
        assert cursor.fetchone() == (0,)


def test_what_the_exporter_does_not_see_is_told(both: Both) -> None:
    made = run(both.port, both.folder, "bob", "export", "postgis", "--table", "geo.trips")
    lines = made.stderr.decode().splitlines()
    assert made.returncode == 0 and len(lines) == len(AUTHS) - len(USERS["bob"])
    assert "fashkiin: rows whose labels need 'C' are left out: you do not hold it, as dora, root, select does" in lines
    with both.client("bob") as client:
        assert made.stdout.count(b"SRID=4326;POINT(") == client.table("geo.trips").count()


@pytest.mark.parametrize(
    ("row", "auths", "told"),
    [
        ({"id": "a\0b"}, [], "points: row 'a\\x00b' with label ''"),
        ({"note": "a\0b"}, [], "points: row 'a' with label ''"),
        ({"label": '"\0"'}, ["\0"], "'\\x00'"),
        ({"note": "a\\u0000b"}, [], None),
    ],
)
def test_a_text_that_postgresql_cannot_hold_is_told(
    tmp_path: Path, row: dict[str, str], auths: list[str], told: str | None
) -> None:
    with served() as port:
        with Client(f"http://127.0.0.1:{port}", token("root")) as root:
            root.ask("POST", "/tables/points/put", {"id": "a", "point": [1, 2, 3], "label": "", "note": "", **row})
            root.users.set_auths("root", auths)
        made = run(port, tmp_path, "root", "export", "postgis")
    if told is None:
        assert made.returncode == 0 and b'{"note":"a\\\\\\\\u0000b"}' in made.stdout
    else:
        assert (made.returncode, made.stderr.decode()) == (2, f"fashkiin: {told}: PostgreSQL has no NUL in a text\n")


TAKEN = "{0}.t: the schema {0} is taken in PostgreSQL, wanted tables of other namespaces (--table)"


@pytest.mark.parametrize(
    ("user", "table", "words", "wanted"),
    [
        ("pg_ann", "geo.t", [], "pg_ann: PostgreSQL reserves this name of a role, wanted a prefix (--role-prefix)"),
        ("public", "geo.t", [], "public: PostgreSQL reserves this name of a role, wanted a prefix (--role-prefix)"),
        ("ann", "pg_x.t", [], TAKEN.format("pg_x")),
        ("ann", "fashkiin.t", [], TAKEN.format("fashkiin")),
        ("ann", "public.t", [], TAKEN.format("public")),
        ("ann", "geo.t", ["--table", "geo.u"], "geo.u: there is no such table"),
        ("ann", "geo.t", ["--role-prefix", "p" * 61], None),
    ],
)
def test_names_that_postgresql_cannot_have_are_told(
    tmp_path: Path, user: str, table: str, words: list[str], wanted: str | None
) -> None:
    with served("A") as port:
        with Client(f"http://127.0.0.1:{port}", token("root")) as root:
            root.users.create(user, digest(user))
            root.tables.create(table)
        made = run(port, tmp_path, "root", "export", "postgis", *words)
    told = made.stderr.decode()
    assert made.returncode == 2 and told.count("\n") == 1
    assert told == f"fashkiin: {wanted}\n" if wanted else "wanted a shorter prefix" in told


def test_accumulo_gets_commands_and_rows(tmp_path: Path) -> None:
    """It was run with no Accumulo: the files are those that its documents want."""
    folder = tmp_path / "out"
    with served("A", "B", "x y") as port:
        with Client(f"http://127.0.0.1:{port}", token("root")) as root:
            root.users.create("ann", digest("ann"), ["A", 'q"u', "x y"])
            root.users.create("eve", digest("eve"), [])
            root.tables.create("geo.trips", "day")
            root.tables.set_constraint("geo.trips", True)
            root.grants.grant("ann", "READ", namespace="geo")
            root.grants.grant("ann", "CREATE_TABLE")
            root.grants.grant("eve", "WRITE", table="geo.trips")
            some = [row for row in ROWS if row.label in ("", "A", "B")][:50]
            some.append(Row('é,"', 1.5, -2.5, NOON, '"x y"&A', {"a": "b,c"}))
            assert all(put.error is None for put in root.table("geo.trips").put_many(some))
        made = run(port, tmp_path, "root", "export", "accumulo", str(folder), "--table", "geo.trips")
        again = run(port, tmp_path, "root", "export", "accumulo", str(folder))
    assert made.returncode == 0 and b"tried with no Accumulo" in made.stderr
    assert again.returncode == 2 and b"wanted the name of a folder to make" in again.stderr
    assert {stat.S_IMODE(path.stat().st_mode) for path in folder.iterdir()} == {0o600}
    assert sorted(path.name for path in folder.iterdir()) == [
        "README", "after.txt", "before.txt", "geo.trips.converter.conf", "geo.trips.csv", "geo.trips.sft.conf"
    ]  # fmt: skip
    before = (folder / "before.txt").read_text().splitlines()
    assert [line for line in before if "ann" in line or "eve" in line or "namespace" in line] == [
        "createuser ann", 'setauths -u ann -s "A,q\\"u,x y"', "grant System.CREATE_TABLE -s -u ann", "createuser eve",
        "createnamespace geo",
    ]  # fmt: skip
    after = (folder / "after.txt").read_text().splitlines()
    assert 'grant Table.WRITE -p "geo[.]trips(_.*)?" -u eve' in after and "grant Namespace.READ -ns geo -u ann" in after
    assert 'geomesa.z3.interval = "day"' in (folder / "geo.trips.sft.conf").read_text()
    with (folder / "geo.trips.csv").open(newline="", encoding="utf-8") as file:
        lines = list(csv.DictReader(file))
    assert len({line["fid"] for line in lines}) == len(lines)
    read = [
        Row(line["id"], float(line["lon"]), float(line["lat"]), datetime.fromisoformat(line["dtg"]), line["label"],
            json.loads(line["properties"]))
        for line in lines
    ]  # fmt: skip
    assert sorted(read, key=lambda row: row.id) == sorted(some, key=lambda row: row.id)


def test_an_authorization_that_accumulos_shell_cannot_set_is_told(tmp_path: Path) -> None:
    for auth in ("a,b", "é"):
        with served(auth) as port:
            made = run(port, tmp_path, "root", "export", "accumulo", str(tmp_path / "out"))
        assert made.returncode == 2 and made.stderr.count(b"\n") == 1 and not (tmp_path / "out").exists()
