"""The client and the features through the edge: HAProxy and nginx by deploy/ before the built server."""

from __future__ import annotations

import pytest
import socket
from base64 import b64encode
from collections.abc import Iterator
from contextlib import ExitStack
from datetime import UTC, datetime, timedelta
from facade import Facade, features
from served import token
from stack import Stack

from fashkiin import Client, Row, errors

START = datetime(2024, 5, 1, 12, tzinfo=UTC)


@pytest.fixture(scope="module")
def stack(tmp_path_factory: pytest.TempPathFactory) -> Iterator[Stack]:
    """An edge."""
    with Stack(tmp_path_factory.mktemp("edge")) as stack:
        yield stack


@pytest.fixture(scope="module")
def edge(stack: Stack) -> Iterator[Client]:
    """A client of root, through the edge."""
    with Client(stack.url, token("root")) as client:
        client.tables.create("edge.ships")
        yield client


def test_rows_are_put_in_a_pipeline_and_read_back(edge: Client) -> None:
    given = [Row(f"r{at}", at / 10, -at / 20, START + timedelta(seconds=at), "", {"at": at}) for at in range(400)]
    assert [(put.row, put.error) for put in edge.table("edge.ships").put_many(given)] == [(row, None) for row in given]
    assert sorted(edge.table("edge.ships").scan(), key=lambda row: row.time) == given
    assert edge.table("edge.ships").count((0.0, -90.0, 1.05, 0.0)) == 11


def test_the_largest_rows_pass(edge: Client) -> None:
    empty = len(Row("p", 0.0, 0.0, START, "", {"n": ""}).note())
    row = Row("p" * 64, 0.0, 0.0, START, "", {"n": "\n" * ((4_096 - empty) // 2)})
    rows = [row] * 100
    assert all(put.error is None for put in edge.table("edge.ships").put_many(rows, window=256))
    assert edge.table("edge.ships").get("p" * 64) == [row]


def test_refusals_of_the_server_come_through(edge: Client) -> None:
    with pytest.raises(errors.NoTableError):
        edge.table("none").count()
    with pytest.raises(errors.SizeError):
        edge.label("A" * 70_000)
    assert edge.whoami().user == "root"


def test_the_features_are_at_their_path(stack: Stack, edge: Client) -> None:
    edge.tables.create("edge.walks")
    rows = [Row(f"w{at}", at / 10, -at / 20, START + timedelta(seconds=at), "", {"at": at}) for at in range(25)]
    assert all(put.error is None for put in edge.table("edge.walks").put_many(rows))
    base = f"{stack.url}/features"
    with features("--socket", str(stack.folder / "features/socket"), "--base-url", base, "--url", stack.url):
        behind = Facade(base, stack.served)
        for path in ("", "/"):
            status, _, landing = behind.get(path, None)
            assert status == 200 and all(link["href"].startswith(f"{base}/") for link in landing["links"])
        assert behind.names("root", "edge.walks", limit="10") == sorted((row.id, "") for row in rows)
        basic = b64encode(token("root").replace(".", ":").encode()).decode()
        assert behind.get("/collections/edge.walks", None, Authorization=f"Basic {basic}")[0] == 200
        for target, user, status in (("/collections", None, 401), ("/collections//items", "root", 404), ("/none", "root", 404)):
            told, fields, _ = behind.get(target, user)
            assert (told, fields["Cache-Control"], fields["Vary"]) == (status, "no-store", "Accept, Authorization")
        with ExitStack() as held:
            for _ in range(110):
                unfinished = held.enter_context(socket.create_connection(("127.0.0.1", stack.edge)))
                unfinished.sendall(b"GET /features/ HTTP/1.1\r\nHost: x\r\n")
            assert behind.get("/conformance", None)[0] == 200
