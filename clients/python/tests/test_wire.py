"""Connections: replies are read strictly, and what was cut off is sent again only where that does no harm."""

from __future__ import annotations

import pytest
import random
import re
import ssl
import subprocess
import time
from collections.abc import Callable
from datetime import UTC, datetime
from pathlib import Path
from served import free_port, token
from typing import Any

from fashkiin import Client, ConnectError, CutOffError, EdgeError, RefusalError, ReplyError, Row, SettingsError, errors
from fashkiin.wire import Address
from scripted import OK, Script, Talk, reply, scripted

API = Path(__file__).resolve().parents[3] / "docs/API.md"
WHOAMI = {"auths": ["A"], "permissions": [], "user": "ann"}


def client(url: str) -> Client:
    return Client(url, token("ann"), timeout=5)


def says(*replies: bytes) -> Script:
    """Answers so many requests, and closes."""

    def script(talk: Talk) -> None:
        for data in replies:
            talk.request()
            talk.send(data)

    return script


def row(number: int, label: str = "A") -> Row:
    return Row(f"r{number}", 1.0, 2.0, datetime(2024, 1, 1, tzinfo=UTC), label)


def listed_refusals() -> list[tuple[int, dict[str, Any]]]:
    """The refusals that the API's page lists: their statuses and bodies."""
    found: list[tuple[int, dict[str, Any]]] = []
    for line in API.read_text().splitlines():
        if not re.match(r"\| [0-9]", line):
            continue
        _, _, statuses, bodies, *_ = line.split("|")
        texts = re.findall(r'\{"[^`]*\}', bodies)
        numbers = [int(status) for status in statuses.split(",")]
        for number, text in zip(numbers * len(texts) if len(numbers) == 1 else numbers, texts, strict=True):
            found.append((number, {key: value.strip('"') for key, value in re.findall(r'"(\w+)":("?[\w-]+"?)', text)}))
    return found


def test_each_refusal_of_the_page_is_an_exception_of_its_own_with_its_fields() -> None:
    listed = listed_refusals()
    classes = set()
    for status, body in listed:
        told = {**body, "at": 3} if "at" in body else body
        error = errors.refusal(status, told)
        classes.add(type(error))
        assert type(error) is not RefusalError, told
        for key in set(told) - {"error"}:
            assert getattr(error, key) == told[key]
    assert len(classes) == len(listed) == 22


def test_a_refusal_that_is_not_known_keeps_its_body() -> None:
    with scripted([says(reply(403, {"error": "quota", "left": 0}))]) as url, client(url) as server:
        with pytest.raises(RefusalError) as raised:
            server.whoami()
    assert (raised.value.status, raised.value.body) == (403, {"error": "quota", "left": 0})


@pytest.mark.parametrize("end", range(0, len(reply(200, WHOAMI)), 7))
def test_a_reply_that_is_cut_off_anywhere_is_no_reply(end: int) -> None:
    cut = reply(200, WHOAMI)[:end]
    with scripted([says(cut), says(cut)]) as url, client(url) as server:
        with pytest.raises(CutOffError):
            server.whoami()


@pytest.mark.parametrize(
    "data",
    [
        b"HTTP/2 200\r\n\r\n",
        b"200 OK\r\n\r\n",
        b"HTTP/1.1 200 OK\r\n\r\n{}",
        b"HTTP/1.1 200 OK\r\nContent-Length: 2\r\nContent-Length: 2\r\n\r\n{}",
        b"HTTP/1.1 200 OK\r\nContent-Length: +2\r\n\r\n{}",
        b"HTTP/1.1 200 OK\r\nContent-Length : 2\r\n\r\n{}",
        b"HTTP/1.1 200 OK\r\nContent-Length: 2\n\r\n{}",
        b"HTTP/1.1 200 OK\r\nTransfer-Encoding: chunked\r\n\r\n2\r\n{}\r\n0\r\n\r\n",
        b"HTTP/1.1 200 OK\r\nno field\r\nContent-Length: 2\r\n\r\n{}",
        b"HTTP/1.1 200 OK\r\nA: " + b"b" * 70_000 + b"\r\n\r\n",
        reply(200, b"[]"),
        reply(200, b"no JSON"),
        reply(200, {"user": "ann"}),
    ],
)
def test_a_reply_that_is_none_of_the_servers_is_refused(data: bytes) -> None:
    with scripted([says(data)]) as url, client(url) as server:
        with pytest.raises(ReplyError):
            server.whoami()


@pytest.mark.parametrize(
    ("ask", "told"),
    [
        (lambda server: list(server.users), {"users": 1}),
        (lambda server: list(server.tables), {"tables": [{}]}),
        (lambda server: server.grants.list(table="a"), {"grants": [1]}),
        (lambda server: server.audit(), {"entries": [{}]}),
        (lambda server: server.label("A"), {}),
        (lambda server: server.table("a").count(auths=[]), {"count": "1"}),
        (lambda server: server.table("a").get("p", auths=[]), {"rows": [{"id": "p"}]}),
        (lambda server: list(server.table("a").scan(auths=[])), {"rows": [], "next": {}}),
        (lambda server: server.table("a").grid(auths=[]), {}),
    ],
)
def test_a_reply_without_its_members_is_refused(ask: Callable[[Client], object], told: dict[str, object]) -> None:
    with scripted([says(reply(200, told))]) as url, client(url) as server:
        with pytest.raises(ReplyError):
            ask(server)


def test_an_answer_of_a_proxy_says_its_status() -> None:
    with scripted([says(reply(503, b"<html>no server</html>"))]) as url, client(url) as server:
        with pytest.raises(EdgeError, match="503"):
            server.whoami()


def test_a_server_that_is_not_there() -> None:
    port = free_port()
    with client(f"http://127.0.0.1:{port}") as server, pytest.raises(ConnectError, match=f"127.0.0.1:{port}: Connection refused"):
        server.whoami()


def test_a_server_that_does_not_answer() -> None:
    def silent(talk: Talk) -> None:
        talk.request()
        time.sleep(0.6)

    with scripted([silent, silent]) as url, Client(url, token("ann"), timeout=0.2) as server:
        with pytest.raises(CutOffError, match="no whole reply within 0.2 seconds"):
            server.whoami()


def test_connections_are_kept_and_stale_ones_are_not_used() -> None:
    def once(talk: Talk) -> None:
        says(OK, OK)(talk)

    with scripted([once, once]) as url, client(url) as server:
        for _ in range(2):
            server.tables.create("a")
            server.tables.create("b")
            time.sleep(0.1)


@pytest.mark.parametrize(
    "change",
    [
        lambda server: server.tables.create("a"),
        lambda server: server.tables.drop("a"),
        lambda server: server.users.create("bob", "0" * 64),
        lambda server: server.users.drop("bob"),
        lambda server: server.users.set_auths("bob", ["A"]),
        lambda server: server.users.set_digest("bob", "0" * 64),
        lambda server: server.grants.grant("bob", "READ", table="a"),
        lambda server: server.grants.revoke("bob", "READ", namespace="a"),
        lambda server: server.tables.set_constraint("a", True),
    ],
)
def test_a_change_that_was_cut_off_is_not_sent_again(change: Callable[[Client], None]) -> None:
    asked = []

    def count(talk: Talk) -> None:
        if talk.request() is not None:
            asked.append(1)

    with scripted([count, count]) as url, client(url) as server:
        with pytest.raises(CutOffError):
            change(server)
        assert len(asked) == 1


@pytest.mark.parametrize(
    ("ask", "body"),
    [
        (lambda server: server.whoami(), WHOAMI),
        (lambda server: server.label("A"), {"normal": "A"}),
        (lambda server: server.table("a").count(auths=[]), {"count": 1}),
        (lambda server: server.table("a").delete("p", ""), {"ok": True}),
        (lambda server: server.table("a").put(row(1)), {"ok": True}),
    ],
)
def test_a_read_a_put_and_a_delete_that_were_cut_off_are_sent_again(ask: Callable[[Client], Any], body: dict[str, Any]) -> None:
    with scripted([says(b"HTTP/1.1 200"), says(reply(200, body))]) as url, client(url) as server:
        ask(server)


def test_put_many_tells_in_order_what_became_of_each() -> None:
    def judge(talk: Talk) -> None:
        while (asked := talk.request()) is not None:
            bad = asked[1]["label"] == "B"
            talk.send(reply(403, {"error": "constraint", "label": "B"}) if bad else OK)

    given = [row(number, "B" if number % 3 == 0 else "A") for number in range(200)]
    given[50] = Row("", 0.0, 0.0, datetime(2024, 1, 1), "A")
    with scripted([judge]) as url, client(url) as server:
        told = list(server.table("t").put_many(given, window=7))
    assert [put.row for put in told] == given
    for number, put in enumerate(told):
        wanted = errors.RowError if number == 50 else errors.ConstraintError if number % 3 == 0 else type(None)
        assert type(put.error) is wanted


def test_put_many_stores_every_row_over_a_connection_that_is_cut_at_random_bytes() -> None:
    stored: dict[str, Any] = {}
    chance = random.Random(20240501)

    def cutting(talk: Talk) -> None:
        for _ in range(chance.randrange(40)):
            asked = talk.request()
            if asked is None:
                return
            stored[asked[1]["id"]] = asked[1]["point"]
            talk.send(OK)
        if talk.request() is not None:
            talk.send(OK[: chance.randrange(len(OK))])

    def whole(talk: Talk) -> None:
        while (asked := talk.request()) is not None:
            stored[asked[1]["id"]] = asked[1]["point"]
            talk.send(OK)

    given = [row(number) for number in range(300)]
    scripts = [cutting, whole] * 2 + [cutting] * 3 + [whole]
    with scripted(scripts) as url, client(url) as server:
        told = list(server.table("t").put_many(iter(given), window=16))
    assert [put.row for put in told] == given
    assert all(put.error is None for put in told)
    assert stored == {given_row.id: list(given_row.point()) for given_row in given}


def test_put_many_gives_up_where_the_server_stays_away() -> None:
    with client(f"http://127.0.0.1:{free_port()}") as server:
        with pytest.raises(ConnectError):
            list(server.table("t").put_many([row(1)]))


def test_put_many_goes_on_behind_a_proxy_that_was_without_a_server_for_a_moment() -> None:
    with scripted([says(reply(503, b"<html>")), says(OK, OK)]) as url, client(url) as server:
        told = list(server.table("t").put_many([row(1), row(2)]))
    assert [put.error for put in told] == [None, None]


@pytest.mark.parametrize(
    "url", ["", "ftp://a", "http://", "http://a:b", "http://a:99999", "http://u:p@a", "http://a/?q", "http://a b"]
)
def test_a_text_that_is_no_url_of_a_server(url: str) -> None:
    with pytest.raises(SettingsError):
        Address.parse(url)


def test_a_url_with_a_path_before_the_servers() -> None:
    def prefixed(talk: Talk) -> None:
        asked = talk.request()
        assert asked is not None
        talk.send(reply(200, WHOAMI) if asked[0] == b"GET /points/whoami HTTP/1.1" else reply(404, {"error": "route"}))

    with scripted([prefixed]) as url, client(url + "/points/") as server:
        assert server.whoami().user == "ann"


@pytest.fixture(scope="module")
def certificate(tmp_path_factory: pytest.TempPathFactory) -> Path:
    """A certificate of 127.0.0.1 that signs itself, with its key."""
    folder = tmp_path_factory.mktemp("tls")
    words = ["-x509", "-newkey", "ec", "-pkeyopt", "ec_paramgen_curve:P-256", "-nodes", "-days", "2", "-subj", "/CN=edge"]
    files = ["-keyout", str(folder / "key"), "-out", str(folder / "cert")]
    subprocess.run(["openssl", "req", *words, "-addext", "subjectAltName=IP:127.0.0.1", *files], check=True, capture_output=True)
    file = folder / "edge.pem"
    file.write_text((folder / "cert").read_text() + (folder / "key").read_text())
    return file


def test_a_server_over_tls_is_asked_where_its_certificate_is_trusted(certificate: Path) -> None:
    context = ssl.SSLContext(ssl.PROTOCOL_TLS_SERVER)
    context.load_cert_chain(certificate)
    told = reply(200, WHOAMI)
    with scripted([says(told, told)], context) as url, Client(url, token("ann"), timeout=5, cafile=str(certificate)) as server:
        assert server.whoami().user == "ann"
        assert server.whoami().user == "ann"
    with scripted([says(told)], context) as url, client(url) as server, pytest.raises(ConnectError, match="(?i)certificate"):
        server.whoami()
