"""The features under attack: connections that are never finished, searches that cost much, names of other hosts, other local
accounts, and what a user may not see."""

from __future__ import annotations

import http.client
import os
import re
import socket
import stat
import subprocess
import sys
import tempfile
import threading
import time
from base64 import b64encode
from collections.abc import Iterator, Mapping
from concurrent.futures import ThreadPoolExecutor, as_completed
from contextlib import ExitStack, contextmanager
from datetime import UTC, datetime
from pathlib import Path
from typing import Any
from urllib.parse import urlsplit

import pytest
from facade import ITEMS, ROWS, SEEN, TABLE, Facade, features, told
from running import COMMAND, environment
from served import token

from fashkiin import Client, Row
from fashkiin.features import Features

HALF = b"GET /conformance HTTP/1.1\r\nHost: x\r\n"


def test_110_unfinished_connections_shut_nobody_out(facade: Facade) -> None:
    port = int(facade.url.rsplit(":", 1)[1])
    with ExitStack() as held:
        for _ in range(110):
            held.enter_context(socket.create_connection(("127.0.0.1", port))).sendall(HALF)
        asking = http.client.HTTPConnection("127.0.0.1", port, timeout=20)
        asking.request("GET", "/conformance")
        assert asking.getresponse().status == 200
        asking.close()


@contextmanager
def impatient(facade: Facade) -> Iterator[socket.socket]:
    """A connection with little room for what it receives. The features end it after a second of silence in place of 20."""
    script = "from fashkiin.commands import features; from fashkiin.cli import main; features.SILENT_SECONDS = 1; main()"
    with features("--port", "0", "--url", f"http://127.0.0.1:{facade.port}", command=[sys.executable, "-c", script]) as url:
        with socket.socket() as connection:
            connection.setsockopt(socket.SOL_SOCKET, socket.SO_RCVBUF, 4_096)
            connection.settimeout(60)
            connection.connect(("127.0.0.1", urlsplit(url).port))
            yield connection


def test_an_unfinished_connection_is_ended(facade: Facade) -> None:
    with impatient(facade) as connection:
        connection.sendall(HALF)
        assert connection.recv(1) == b""


def test_a_connection_whose_client_reads_nothing_is_ended(facade: Facade) -> None:
    with impatient(facade) as connection:
        head = f"GET {ITEMS}?limit=1000 HTTP/1.1\r\nHost: x\r\nAuthorization: Bearer {token('bob')}\r\n\r\n"
        connection.sendall(head.encode())
        assert b"Content-Length: " in connection.recv(500, socket.MSG_PEEK)
        time.sleep(4)
        # The rest was thrown away. The client learns of it once it reads.
        with pytest.raises(ConnectionResetError):
            while connection.recv(65_536):
                pass


class Counting(Client):
    """A client that counts the pages that it asks for."""

    pages = 0

    def ask(self, method: str, target: str, body: Mapping[str, Any] | None = None, *, again: bool = False) -> dict[str, Any]:
        Counting.pages += target.endswith("/scan")
        return super().ask(method, target, body, again=again)


def test_a_limit_of_one_with_a_bbox_asks_for_few_pages(facade: Facade) -> None:
    """Some 200 rows in one cell, of which the bbox holds the last."""
    last = max((row for row in ROWS if row.id.startswith("s") and row.label in SEEN["bob"]), key=lambda row: row.lon)
    application = Features(lambda own: Counting(f"http://127.0.0.1:{facade.port}", own), "http://features")
    Counting.pages = 0
    status, page = told(application, f"{ITEMS}?limit=1&bbox={last.lon!r},-90,11,90&datetime=2024-02-01T00:00:00Z/..")
    assert (status, [one["properties"]["id"] for one in page["features"]]) == (200, [last.id])
    assert Counting.pages <= 4


def test_one_token_leaves_threads_to_others(facade: Facade) -> None:
    """Thirteen requests of ann wait for a server that does not answer yet."""
    gate = threading.Event()

    class Waiting(Client):
        def ask(self, method: str, target: str, body: Mapping[str, Any] | None = None, *, again: bool = False) -> dict[str, Any]:
            if self.token.user == "ann":
                assert gate.wait(60)
            return super().ask(method, target, body, again=again)

    application = Features(lambda own: Waiting(f"http://127.0.0.1:{facade.port}", own), "http://features")
    target = f"{ITEMS}?limit=1"
    with ThreadPoolExecutor(13) as pool:
        asked = [pool.submit(told, application, target, "ann") for _ in range(13)]
        first = next(as_completed(asked, 60))
        assert first.result() == (429, {"code": "TooManyRequests", "description": "too many requests at a time"})
        assert told(application, target, "bob")[0] == 200
        gate.set()
    assert sorted(one.result()[0] for one in asked) == [200] * 12 + [429]
    assert told(application, target, "ann")[0] == 200


def hrefs(value: Any) -> Iterator[str]:
    """The URLs of a document."""
    if isinstance(value, dict):
        yield from (one for name, one in value.items() if name in ("href", "url"))
    for one in value.values() if isinstance(value, dict) else value if isinstance(value, list) else ():
        yield from hrefs(one)


@pytest.mark.parametrize("path", ["/", "/api", "/conformance", "/collections", f"/collections/{TABLE}", f"{ITEMS}?limit=1"])
def test_links_follow_no_name_that_a_caller_gives(facade: Facade, path: str) -> None:
    given = {"Host": "evil.example", "X-Forwarded-Host": "evil.example", "Forwarded": "host=evil.example"}
    status, _, document = facade.get(path, **given)
    found = set(hrefs(document))
    assert status == 200 and found and all(href.startswith(facade.url) for href in found)


def test_a_base_url_is_that_of_all_links_and_its_path_may_be_there_or_not(facade: Facade) -> None:
    base = "https://points.example/features"
    with features("--port", "0", "--base-url", base, "--url", f"http://127.0.0.1:{facade.port}") as url:
        behind = Facade(url, facade.port)
        for path in ("", "/", "/features", "/features/", ITEMS, f"/features{ITEMS}"):
            status, _, document = behind.get(path)
            assert status == 200 and all(href.startswith(base + "/") for href in hrefs(document))


class UnixConnection(http.client.HTTPConnection):
    """A connection to a Unix socket."""

    def connect(self) -> None:
        self.sock = socket.socket(socket.AF_UNIX, socket.SOCK_STREAM)
        self.sock.connect(self.host)


@pytest.fixture
def folder() -> Iterator[Path]:
    """A folder that any account may enter."""
    with tempfile.TemporaryDirectory() as name:
        os.chmod(name, 0o711)
        yield Path(name)


BASE = ("--base-url", "http://127.0.0.1/features", "--url", "http://127.0.0.1:1")


def test_a_unix_socket_is_for_its_owner_and_its_group(folder: Path) -> None:
    path = folder / "socket"
    with socket.socket(socket.AF_UNIX) as left:  # one that a server left behind
        left.bind(str(path))
    with features("--socket", str(path), *BASE) as told:
        assert told == str(path) and stat.S_IMODE(path.stat().st_mode) == 0o660
        asking = UnixConnection(str(path))
        asking.request("GET", "/features/conformance", headers={"Host": "x"})
        assert asking.getresponse().status == 200
        asking.close()
        if os.geteuid() == 0:
            script = f"import socket; socket.socket(socket.AF_UNIX).connect({str(path)!r})"
            for group, status in ((0, 0), (65534, 1)):
                words = ["setpriv", "--reuid=65534", f"--regid={group}", "--clear-groups", sys.executable, "-c", script]
                assert subprocess.run(words, stderr=subprocess.DEVNULL).returncode == status
        again = subprocess.run([*COMMAND, "features", "--socket", str(path), *BASE], env=environment(), capture_output=True)
        assert (again.returncode, b"Address already in use" in again.stderr) == (2, True)
    assert not path.exists()


@pytest.mark.parametrize(
    ("mode", "name", "more", "wanted"),
    [
        (0o1777, "socket", BASE, "others may write in"),
        (0o711, "none/socket", BASE, "No such file"),
        (0o711, "x" * 200, BASE, "too long"),
        (0o711, "socket", ("--url", "http://127.0.0.1:1"), "wanted --base-url too"),
        (0o711, "socket", (*BASE, "--port", "0"), "not allowed with"),
        (0o711, "socket", ("--base-url", "points.example"), "no URL of a server"),
    ],
)
def test_a_unix_socket_that_cannot_be(folder: Path, mode: int, name: str, more: tuple[str, ...], wanted: str) -> None:
    folder.chmod(mode)
    words = [*COMMAND, "features", "--socket", str(folder / name), *more]
    ran = subprocess.run(words, env=environment(), capture_output=True, text=True, timeout=60)
    assert ran.returncode == 2 and wanted in ran.stderr and not list(folder.iterdir())


def test_it_ends_when_it_is_told_to() -> None:
    words = [*COMMAND, "features", "--port", "0", "--url", "http://127.0.0.1:1"]
    with subprocess.Popen(words, env=environment(), stdout=subprocess.PIPE, stderr=subprocess.PIPE, text=True) as process:
        assert process.stdout is not None and process.stderr is not None
        try:
            url = process.stdout.readline().removeprefix("listening at ").strip().rstrip("/")
            status, _, said = Facade(url, 1).get(f"{ITEMS}?bbox=1,2,3,4")
        finally:
            process.terminate()
        begin = time.monotonic()
        assert (process.wait(20), process.stderr.read()) == (0, "") and time.monotonic() - begin < 10
    # Where the server was looked for is told to nobody.
    assert (status, said) == (503, {"code": "ServiceUnavailable", "description": "the server does not answer"})


# Rows that ann sees, in a table of their own, and among rows that are hidden from her: everywhere, of all times, of other names.
SHOWN = [
    Row(f"p{day}", 4 + day / 10, 51 - day / 20, datetime(2024, 5, day, tzinfo=UTC), label, {"n": day, "who": "ann"})
    for day, label in enumerate(("", "A", "A|B", "", "A", ""), 1)
]
HIDDEN = [Row(row.id, row.lon, row.lat, row.time, "B", {"n": row.properties["n"], "secret": 1}) for row in SHOWN]
HIDDEN += [
    Row(f"h{year}", year % 180, -80.0, datetime(year, 1, 1, tzinfo=UTC), "A&B", {"who": "bob"}) for year in range(1970, 2560, 10)
]
TARGETS = [
    "", "?f=html", "/items", "/items?f=html", "/items?limit=2", "/items?limit=2&f=html", "/items?bbox=4,50,4.3,51",
    "/items?bbox=-180,-90,180,-60", "/items?bbox=4,50,5,52&limit=1", "/items?datetime=2024-05-02T00:00:00Z/..",
    "/items?datetime=../1990-01-01T00:00:00Z", "/items?n=3", "/items?who=ann", "/items?who=bob", "/items?secret=1",
    "/items?id=h1980", "/items?label=B", "/items?id=p2&limit=1", "/items/p2,A", "/items/p2,B", "/items/h1980,A%26B",
    "/items/none,A%26B", "/items?after=x",
]  # fmt: skip


def test_hidden_rows_change_no_answer(facade: Facade) -> None:
    """Not a count, an extent, a link, an error or a page: each answer is that of a table without them, but for the name."""
    with facade.root() as root:
        for table, rows in (("geo.alone", SHOWN), ("geo.among", [*HIDDEN, *SHOWN])):
            root.tables.create(table)
            assert all(put.error is None for put in root.table(table).put_many(rows))
    for target in TARGETS:
        answers = []
        for table in ("geo.alone", "geo.among"):
            status, fields, body = facade.ask(f"/collections/{table}{target}", "ann")
            text = re.sub(r'("timeStamp":"|timeStamp</dt><dd>)[^"<]*', "", body.decode().replace(table, "TABLE"))
            answers.append((status, sorted((name, value) for name, value in fields.items() if name != "Date"), text))
        assert answers[0] == answers[1], target
    _, _, listed = facade.get("/collections", "ann")
    extents = [one["extent"] for one in listed["collections"] if one["id"] in ("geo.alone", "geo.among")]
    assert extents[0] == extents[1]


def test_the_token_is_the_callers(facade: Facade) -> None:
    for path in ("/collections", f"/collections/{TABLE}", ITEMS, f"{ITEMS}/r1"):
        for user in (None, "nobody"):
            status, fields, said = facade.get(path, user)
            assert (status, said["code"]) == (401, "Unauthorized")
            assert fields.get_all("WWW-Authenticate") == ['Bearer realm="points"', 'Basic realm="points", charset="UTF-8"']
    for path in ("/collections/points", "/collections/points/items", "/collections/points/items/r1"):
        assert facade.get(path, "ann")[0] == 403
    assert "points" not in [one["id"] for one in facade.get("/collections", "ann")[2]["collections"]]


@pytest.mark.parametrize(
    ("credentials", "status"),
    [
        (f"Bearer {token('ann')}", 200),
        (f"bearer {token('ann')}", 200),
        ("Basic " + b64encode(token("ann").replace(".", ":").encode()).decode(), 200),
        ("Basic " + b64encode(token("ann").encode()).decode(), 401),
        ("Basic " + b64encode(b"ann:secret").decode(), 401),
        ("Basic " + b64encode(b"\xff:").decode(), 401),
        ("Basic ann", 401),
        (f"Bearer {token('ann')}x", 401),
        ("Bearer", 401),
        (f"Digest {token('ann')}", 401),
    ],
)
def test_a_token_may_be_a_user_and_a_password(facade: Facade, credentials: str, status: int) -> None:
    """As QGIS and browsers send it."""
    assert facade.ask("/collections", None, Authorization=credentials)[0] == status


@pytest.mark.parametrize("user", ["ann", None])
def test_answers_are_kept_by_nobody_and_shown_by_no_other_site(facade: Facade, user: str | None) -> None:
    for target in ("/", "/nothing", "/collections", f"{ITEMS}?limit=1", f"{ITEMS}?limit=1&f=html", f"{ITEMS}/none"):
        _, fields, _ = facade.ask(target, user)
        assert fields["Cache-Control"] == "no-store" and fields["Vary"] == "Accept, Authorization"
        assert fields["X-Frame-Options"] == "DENY" and fields["Cross-Origin-Resource-Policy"] == "same-origin"
        assert fields["X-Content-Type-Options"] == "nosniff" and fields["Access-Control-Allow-Origin"] is None
        assert fields["Content-Security-Policy"].startswith("default-src 'none'; ")
