"""Administration: what is misspelt, held elsewhere or not there is told; what a user can see; who changed what."""

from __future__ import annotations

import json
import os
import pty
import pytest
import re
import subprocess
import time
from collections.abc import Iterator
from datetime import UTC, datetime
from pathlib import Path
from served import digest, served, token

from conftest import Run
from fashkiin import Client, Row, Table
from running import COMMAND, environment

NOON = datetime(2024, 5, 1, 12, tzinfo=UTC)


@pytest.fixture
def lee(root: Client) -> Iterator[str]:
    """A user who holds A."""
    root.users.create("lee", digest("lee"), ["A"])
    root.close()
    yield "lee"
    root.users.drop("lee")


def test_a_name_that_nobody_else_holds_is_told(run: Run, lee: str) -> None:
    said = 'fashkiin: nobody but lee holds "A B"; names are separated by commas\n'
    assert run("users", "auths", lee, "A B,C") == (0, "", said)
    assert 'authorizations: "A B" C\n' in run("users", "show", lee)[1]
    assert run("users", "auths", lee, "A,B") == (0, "", "")


@pytest.mark.parametrize(
    ("words", "said"),
    [
        (
            ["grant", "lee", "REED", "--table", "points"],
            "permission: 'REED', wanted READ, WRITE, ALTER_TABLE, GRANT or DROP_TABLE on tables",
        ),
        (["grant", "lee", "read", "--namespace", "a.b"], "namespace: 'a.b', wanted a name of 1 to 32 letters, digits and _"),
        (["users", "add", "bob", "abc"], "digest: 'abc', wanted the 64 hexadecimal digits that fashkiin token new shows"),
        (["users", "add", "b b", "0" * 64], "user: 'b b', wanted a name of 1 to 32 letters, digits and _"),
    ],
)
def test_what_is_misspelt_is_told_with_what_is_allowed(run: Run, lee: str, words: list[str], said: str) -> None:
    assert run(*words) == (3, "", f"fashkiin: {said}\n")


def test_to_revoke_what_is_not_granted_there_says_so(run: Run, lee: str, table: Table) -> None:
    nothing = f"fashkiin: lee has not been granted READ on {table.name} itself, so nothing is changed\n"
    assert run("revoke", lee, "READ", "--table", table.name) == (1, "", nothing)
    assert run("grant", lee, "READ", "--namespace", "test")[0] == 0
    still = "fashkiin: lee still holds READ by a grant on the namespace test\n"
    assert run("revoke", lee, "READ", "--table", table.name) == (1, "", nothing + still)
    assert run("grant", lee, "READ", "--table", table.name)[0] == 0
    assert run("revoke", lee, "READ", "--table", table.name) == (0, "", still)
    assert run("revoke", lee, "READ", "--namespace", "test") == (0, "", "")
    assert run("revoke", lee, "GRANT", "--system")[0] == 1


def test_a_table_is_made_with_its_constraint(run: Run, root: Client, table: Table, tmp_path: Path) -> None:
    file = tmp_path / "a.csv"
    file.write_text("id,lon,lat,time,label\na,1,2,2024-05-01,D\nb,1,2,2024-05-01,A\n")
    assert run("tables", "create", f"{table.name}a", "--constraint")[0] == 0
    assert run("load", f"{table.name}b", file, "--create", "--constraint", "--on-error", "skip")[0] == 1
    assert [info.constraint for info in root.tables if info.table in (f"{table.name}a", f"{table.name}b")] == [True, True]
    assert [row.id for row in root.table(f"{table.name}b").scan()] == ["b"]
    said = f"fashkiin: --constraint: {table.name} is there already, and takes any row, wanted: fashkiin tables constraint"
    assert run("load", table.name, file, "--create", "--constraint")[2].splitlines()[-1] == f"{said} {table.name} on"


def test_rows_that_the_loader_cannot_read_are_told(run: Run, table: Table, tmp_path: Path) -> None:
    file = tmp_path / "a.csv"
    file.write_text("id,lon,lat,time,label\na,1,2,2024-05-01,D\nb,1,2,2024-05-01,A&D\n")
    code, _, err = run("load", table.name, file)
    assert (code, err.splitlines()[0]) == (0, "fashkiin: 2 of 2 rows have labels that you cannot read")
    file.write_text(file.read_text() + "c,1,2,2024-05-01,A\nd,1,2,2024-05-01,D\n")
    assert run("load", table.name, file)[2].splitlines()[0] == "fashkiin: 3 of 4 rows have labels that you cannot read"


def test_a_failed_load_leaves_no_empty_table(run: Run, root: Client, table: Table, tmp_path: Path) -> None:
    file = tmp_path / "a.csv"
    for text in ("", "id,lon,lat,time,label\na,1,91,2024-05-01,A\n", "id,lon,lat,time,label\na,1,2,2024-05-01,A|\n"):
        file.write_text(text)
        assert run("load", f"{table.name}x", file, "--create")[0] == 3
    assert f"{table.name}x" not in [info.table for info in root.tables]
    file.write_text("id,lon,lat,time,label\n")
    assert run("load", f"{table.name}x", file, "--create")[0] == 0
    assert f"{table.name}x" in [info.table for info in root.tables]


def test_tables_drop_asks_at_a_terminal(url: str, table: Table, root: Client, token_file: Path) -> None:
    table.put(Row("a", 1.0, 2.0, NOON, "A"))
    root.close()
    words = [*COMMAND, "tables", "drop", table.name, "--url", url, "--token-file", str(token_file)]
    asked = f"{table.name}: 1 rows that you see. Drop it with all its rows and the grants on it? [y/N] "
    for answer, status in ((b"n\n", 1), (b"\n", 1), (b"y\n", 0)):
        ours, theirs = pty.openpty()
        with subprocess.Popen(words, env=environment(), stdin=theirs, stderr=subprocess.PIPE, text=True) as asking:
            os.write(ours, answer)
            said = asking.communicate(timeout=60)[1]
        os.close(ours)
        os.close(theirs)
        assert (asking.returncode, said.startswith(asked)) == (status, True)
        assert (table.name in [info.table for info in root.tables]) == (status == 1)
        root.close()


def test_what_a_user_can_see(run: Run, lee: str, root: Client, table: Table, url: str) -> None:
    for name, label in (("a", ""), ("b", "A"), ("c", "A&B"), ("d", "A|D")):
        table.put(Row(name, 1.0, 2.0, NOON, label))
    root.grants.grant(lee, "READ", namespace="test")
    root.grants.grant(lee, "WRITE", table=table.name)
    root.grants.grant(lee, "WRITE", table="points")
    lines = ["lee", "authorizations: A", "permissions: "]
    told = run("access", lee)[1].splitlines()
    assert told[:3] == lines
    assert "points\tWRITE\tsees no rows" in told
    assert f"{table.name}\tWRITE, READ by its namespace\tsees 3 rows" in told
    told = run("users", "show", lee)[1].splitlines()
    assert told[3:] == [f"WRITE on {name}" for name in sorted(("points", table.name))] + ["READ on the namespace test"]
    root.users.set_auths(lee, ["A", "D"])
    assert f"{table.name}\tWRITE, READ by its namespace\tsees at least 3 rows" in run("access", lee)[1]
    root.users.set_auths(lee, ["A"])
    root.close()
    with Client(url, token(lee)) as client:
        assert client.table(table.name).count() == 3


def test_the_changes_of_a_copy_with_times_rows_and_words(run: Run, tmp_path: Path, token_file: Path) -> None:
    store, copy = tmp_path / "points.db", tmp_path / "copy.db"
    with served("--store", str(store), "--copy", str(copy), "--copy-every", "1", "A") as port:
        url = ["--url", f"http://127.0.0.1:{port}"]
        place = ("--lon", "1", "--lat", "2", "--time", "2024-05-01")
        assert run("put", "points", "w1", *place, "--label", "A", *url)[0] == 0
        assert run("users", "add", "kim", digest("kim"), "--auths", "A", *url)[0] == 0
        assert run("grant", "kim", "READ", "--table", "points", *url)[0] == 0
        assert run("tables", "drop", "none", *url)[0] == 4
        assert run("audit", "--admin", *url)[1].splitlines()[-1] == "root\tdrop-table\tnone\trefused: no such table"
        code, _, err = run("audit", "--store", store)
        assert (code, err.endswith("a server has it open: wanted the copy that follows it\n")) == (2, True)
        lines: list[list[str]] = []
        for _ in range(60):
            lines = [line.split("\t") for line in run("audit", "--store", copy)[1].splitlines()]
            if len(lines) == 4:
                break
            time.sleep(0.5)
    assert [line[:1] + line[2:] for line in lines] == [
        ["1", "root", "put", "points", "id 'w1' point [1054401,1071877,1714521600] label 'A'", "done"],
        ["2", "root", "create-user", "kim", "auths A", "done"],
        ["3", "root", "grant-table", "points", "user 'kim' permission 'READ'", "done"],
        ["4", "root", "drop-table", "none", "", "refused: no such table"],
    ]
    assert all(re.fullmatch(r"\d{4}-\d\d-\d\dT\d\d:\d\d:\d\d\.\d{3}Z", line[1]) for line in lines)
    told = [json.loads(line) for line in run("audit", "--store", copy, "--admin", "--json")[1].splitlines()]
    assert [change["number"] for change in told] == [2, 3, 4]
    broken = tmp_path / "broken.db"
    broken.write_bytes(b"x" * 5_000)
    for file, said in ((broken, "file is not a database"), (tmp_path / "none", "there is no such file")):
        assert run("audit", "--store", file)[2] == f"fashkiin: {file}: {said}, wanted a store or its copy\n"
