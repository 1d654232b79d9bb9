"""A server, and a PostgreSQL that its export was loaded into."""

from __future__ import annotations

import random
import subprocess
from collections.abc import Callable, Iterator
from contextlib import closing, contextmanager
from dataclasses import dataclass
from datetime import UTC, datetime, timedelta
from pathlib import Path
from typing import Any

import psycopg2
from postgres import SUPERUSER, postgres
from running import COMMAND, environment
from served import digest, served, token

from fashkiin import Client, Row

LONG = ["z" * 100 + "1", "z" * 100 + "2"]
AUTHS = ["A", "B", "C", "x y", 'q"u', "b\\s", "é", "a,b", "it's", "auth:A", *LONG]
USERS: dict[str, list[str]] = {
    "ann": ["A", "a,b", LONG[0]],
    "bob": ["A", "B", "x y", "it's", 'q"u'],
    "eve": [],
    "dora": AUTHS,
    "select": ["C", "b\\s", "é", "auth:A", LONG[1]],
}
TABLES = {"geo.trips": False, "geo.locked": True, "points": False, "Geo.Trips": False}
Select = Callable[..., list[tuple[Any, ...]]]
NOON = datetime(2024, 5, 1, 12, tzinfo=UTC)


def term(auth: str) -> str:
    """An authorization as a label writes it."""
    plain = auth.isascii() and all(c.isalnum() or c in "_-:./" for c in auth)
    return auth if plain else '"' + auth.replace("\\", "\\\\").replace('"', '\\"') + '"'


PLAIN = {term(auth) for auth in AUTHS}


def made_label(some: random.Random, depth: int = 3) -> str:
    """A label of some terms, operators and parentheses, some of which need not be."""
    if depth == 0 or some.random() < 0.3:
        return term(some.choice(AUTHS[:10] if some.random() < 0.9 else AUTHS))
    units = [made_label(some, depth - 1) for _ in range(some.randrange(1, 4))]
    units = [unit if unit in PLAIN and some.random() < 0.9 else f"({unit})" for unit in units]
    return some.choice("&|").join(units)


def made_rows(some: random.Random, number: int) -> list[Row]:
    labels = ["", *(label for label in (made_label(some) for _ in range(300)) if len(label.encode()) <= 256)]
    rows = []
    for index in range(number):
        time = NOON + timedelta(microseconds=some.randrange(10**11))
        properties = {"text": "tab\t line\n back\\slash 'quoted' \"twice\" \\.", "n": index, "none": None, "list": [1.5, True]}
        lon, lat = some.gauss(10, 30), max(-90.0, min(90.0, some.gauss(0, 40)))
        rows.append(Row(f"r{index}'\\.\t", lon, lat, time, some.choice(labels), properties if index % 3 else {}))
    return rows


ROWS = made_rows(random.Random(1), 2_000)


@dataclass(frozen=True)
class Both:
    """The server, and a PostgreSQL that its export was loaded into."""

    port: int
    socket: Path
    folder: Path

    def client(self, user: str) -> Client:
        return Client(f"http://127.0.0.1:{self.port}", token(user))

    @contextmanager
    def selects(self, user: str) -> Iterator[Select]:
        """A function that tells the rows of a query of a user in PostgreSQL."""
        with closing(psycopg2.connect(host=str(self.socket), user=user, dbname="fashkiin")) as connection:
            connection.autocommit = True
            cursor = connection.cursor()

            def select(query: str, *values: Any) -> list[tuple[Any, ...]]:
                cursor.execute(query, values)
                found: list[tuple[Any, ...]] = cursor.fetchall() if cursor.description else []
                return found

            yield select

    def select(self, user: str, query: str, *values: Any) -> list[tuple[Any, ...]]:
        """The rows of a query of a user in PostgreSQL."""
        with self.selects(user) as select:
            return select(query, *values)


def run(port: int, folder: Path, user: str, *words: str) -> subprocess.CompletedProcess[bytes]:
    """What `fashkiin` writes for a user."""
    file = folder / f"{user}.token"
    file.touch(mode=0o600)
    file.write_text(token(user))
    flags = ["--url", f"http://127.0.0.1:{port}", "--token-file", str(file)]
    return subprocess.run([*COMMAND, *words, *flags], env=environment(), umask=0o022, capture_output=True)


def load(socket: Path, database: str, script: bytes) -> subprocess.CompletedProcess[bytes]:
    """Loads a script into a new database as the superuser."""
    address = ["-X", "-h", str(socket), "-U", SUPERUSER]
    subprocess.run(["psql", *address, "-q", "-d", "postgres", "-c", f"create database {database}"], check=True)
    return subprocess.run(["psql", *address, "-d", database], input=script, capture_output=True)


@contextmanager
def exported(folder: Path) -> Iterator[Both]:
    """Both, with these users, tables and rows; they end with the context."""
    with served(*AUTHS) as port, postgres("autovacuum=off") as socket:
        with Client(f"http://127.0.0.1:{port}", token("root")) as root:
            for user, auths in USERS.items():
                root.users.create(user, digest(user), auths)
            for number, (table, constraint) in enumerate(TABLES.items()):
                if table != "points":
                    root.tables.create(table)
                root.tables.set_constraint(table, constraint)
                rows = [row for index, row in enumerate(ROWS) if index >= 500 * number]
                assert all(put.error is None for put in root.table(table).put_many(rows))
            for user in ("ann", "bob", "eve"):
                root.grants.grant(user, "READ", namespace="geo")
            root.grants.grant("bob", "WRITE", namespace="geo")
            root.grants.grant("dora", "WRITE", table="geo.trips")
            root.grants.grant("select", "READ", table="points")
            root.grants.grant("select", "READ", table="Geo.Trips")
            root.grants.grant("ann", "GRANT", table="points")
        made = run(port, folder, "root", "export", "postgis")
        assert (made.returncode, made.stderr) == (0, b"")
        loaded = load(socket, "fashkiin", made.stdout)
        assert (loaded.returncode, loaded.stderr) == (0, b"")
        yield Both(port, socket, folder)
