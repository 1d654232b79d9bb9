"""The features over a server with rows that three users see differently, and a plain list of the rows."""

from __future__ import annotations

import json
import random
import subprocess
from collections.abc import Iterator, Sequence
from contextlib import contextmanager
from dataclasses import dataclass
from datetime import UTC, datetime, timedelta
from email.message import Message
from pathlib import Path
from typing import Any
from urllib.error import HTTPError
from urllib.parse import unquote, urlencode
from urllib.request import Request, urlopen
from wsgiref.types import WSGIApplication
from wsgiref.util import setup_testing_defaults

from running import COMMAND, environment
from served import digest, served, token

from fashkiin import Client, Row

TABLE = "geo.trips"
ITEMS = f"/collections/{TABLE}/items"
# Which labels each user sees, by its authorizations.
USERS = {"ann": ["A"], "bob": ["A", "B"], "eve": ["x y", "C"]}
SEEN = {
    "ann": {"", "A", "A|(B&C)", "(A|C)&(A|B)"},
    "bob": {"", "A", "A|(B&C)", "A&B", "(A|C)&(A|B)"},
    "eve": {"", '"x y"&C'},
}
LABELS = ["", "A", "A|(B&C)", "A&B", '"x y"&C', "(A|C)&(A|B)"]
NAMES = ["a,b", "50%", "50%25", "50%2C", "c/d", "é ü", "e?f#g", "..", '"']


def made_rows() -> list[Row]:
    """Rows at random places, at the corners of the world, and many in one cell."""
    some = random.Random(20240501)
    rows = []
    for number in range(1_400):
        time = datetime(2024, 1, 1, tzinfo=UTC) + timedelta(microseconds=some.randrange(10**12))
        rows.append(Row(f"r{number}", some.uniform(-180, 180), some.uniform(-90, 90), time, some.choice(LABELS), {"n": number}))
    for number in range(300):
        time = datetime(2024, 2, 1, tzinfo=UTC) + timedelta(microseconds=number)
        rows.append(Row(f"s{number}", 10 + number / 10**7, 20 - number / 10**8, time, some.choice(LABELS), {"time": "noon"}))
    for number, name in enumerate(NAMES):
        rows.append(Row(name, (-180.0, 180.0, 0.0)[number % 3], (-90.0, 90.0, 0.0)[number % 3], time, LABELS[number % 6]))
    return rows


ROWS = made_rows()


def expected(user: str, rows: list[Row]) -> list[tuple[str, str]]:
    """Id and label of each row that a user sees, in order."""
    return sorted((row.id, row.label) for row in rows if row.label in SEEN[user])


@dataclass(frozen=True)
class Facade:
    """The features, and the server behind them."""

    url: str
    port: int

    def ask(self, target: str, user: str | None = "bob", method: str = "GET", **fields: str) -> tuple[int, Message, bytes]:
        """Status, header fields and body of an answer; a target is a path of the features, or a whole URL."""
        url = target if target.startswith("http") else self.url + target
        own = {} if user is None else {"Authorization": f"Bearer {token(user)}"}
        try:
            with urlopen(Request(url, headers=own | fields, method=method), timeout=60) as answer:
                return answer.status, answer.headers, answer.read()
        except HTTPError as error:
            return error.code, error.headers, error.read()

    def get(self, target: str, user: str | None = "bob", method: str = "GET", **fields: str) -> tuple[int, Message, Any]:
        """Status, header fields and JSON of an answer."""
        status, told, body = self.ask(target, user, method, **fields)
        return status, told, json.loads(body or b"null")

    def pages(self, user: str, table: str = TABLE, **query: str) -> Iterator[dict[str, Any]]:
        """The pages of a query, along the next links."""
        target: str | None = f"/collections/{table}/items?{urlencode(query)}"
        while target is not None:
            status, fields, page = self.get(target, user)
            assert (status, fields["Content-Type"]) == (200, "application/geo+json")
            assert page["type"] == "FeatureCollection" and page["numberReturned"] == len(page["features"])
            yield page
            target = next((link["href"] for link in page["links"] if link["rel"] == "next"), None)

    def names(self, user: str, table: str = TABLE, **query: str) -> list[tuple[str, str]]:
        """Id and label of each feature of a query, in order."""
        shown = [feature["properties"] for page in self.pages(user, table, **query) for feature in page["features"]]
        return sorted((properties["id"], properties["label"]) for properties in shown)

    def root(self) -> Client:
        """A client of root, to be closed."""
        return Client(f"http://127.0.0.1:{self.port}", token("root"))


def ogr2ogr(facade: Facade, user: str, folder: Path, *flags: str, table: str = TABLE) -> list[dict[str, Any]]:
    """The features that GDAL reads for a user. It warns of nothing but that GeoJSON has no type of times."""
    header = folder / "header"
    header.write_text(f"Authorization: Bearer {token(user)}\n")
    words = ["ogr2ogr", "-f", "GeoJSONSeq", "/vsistdout/", f"OAPIF:{facade.url}/", table, "-oo", "PAGE_SIZE=1000", *flags]
    ran = subprocess.run(words, env=environment(GDAL_HTTP_HEADER_FILE=str(header)), capture_output=True, check=True)
    warnings = [line for line in ran.stderr.decode().splitlines() if line and "does not natively support DateTime" not in line]
    assert not warnings
    return [json.loads(line.lstrip(b"\x1e")) for line in ran.stdout.splitlines() if line.strip()]


@contextmanager
def features(*words: str, command: Sequence[str] = COMMAND) -> Iterator[str]:
    """What `fashkiin features` says that it listens at, a URL or a path, for as long as it runs."""
    with subprocess.Popen([*command, "features", *words], env=environment(), stdout=subprocess.PIPE, text=True) as process:
        assert process.stdout is not None
        try:
            yield process.stdout.readline().removeprefix("listening at ").strip().rstrip("/")
        finally:
            process.terminate()


@contextmanager
def started() -> Iterator[Facade]:
    """The features at a port, over a server with the rows."""
    with served("A", "B", "C", "x y") as port:
        with Client(f"http://127.0.0.1:{port}", token("root")) as root:
            root.tables.create(TABLE, "day")
            for user, auths in USERS.items():
                root.users.create(user, digest(user), auths)
                root.grants.grant(user, "READ", namespace="geo")
            assert all(put.error is None for put in root.table(TABLE).put_many(ROWS))
        with features("--port", "0", "--url", f"http://127.0.0.1:{port}") as url:
            yield Facade(url, port)


def told(application: WSGIApplication, target: str, user: str = "bob") -> tuple[int, Any]:
    """Status and JSON of what an application answers, without a connection between."""
    path, _, query = target.partition("?")
    fields = {"PATH_INFO": unquote(path, "latin-1"), "QUERY_STRING": query, "HTTP_AUTHORIZATION": f"Bearer {token(user)}"}
    setup_testing_defaults(fields)
    statuses: list[str] = []

    def start(status: str, headers: object, _: object = None) -> Any:
        statuses.append(status)

    body = b"".join(application(fields, start))
    return int(statuses[0][:3]), json.loads(body)
