#!/usr/bin/env python3
"""Rows a second on the clock, by files of the same rows: `fashkiin load` into a new table and once more into the same, raw puts of the
rows as requests that are made before, `ogr2ogr` into PostGIS with an index and row-level security, and `COPY`.

    nice bench/client_peers.py [ROWS [FORMAT..]]

1,000,000 rows of csv, geojson and gpx where they are left out. It needs the built `st_served`, or the one that ST_SERVED names, gdal-bin,
postgresql-15 and its PostGIS. Run it with /usr/bin/python3.

Behind a load and the puts stands how many processors their programs took. `COPY` is refused to a user whom policies of rows concern: so
`ogr2ogr` inserts as such a user, whose policy looks a row's label up in a list, the cheapest there is; it copies, as `psql` does, as a user
above policies. The status is 1 if a load of a new table is slower than half of the raw puts, or than `ogr2ogr` under the policy.
"""
from __future__ import annotations

import itertools
import os
import socket
import subprocess
import sys
import tempfile
import time
from collections.abc import Iterator
from dataclasses import dataclass
from pathlib import Path

TOP = Path(__file__).resolve().parent.parent
for folder in ("tests", "clients/python/src"):
    sys.path.insert(0, str(TOP / folder))

from client_load import FORMATS, LABELS, Commands, processor_time  # noqa: E402
from postgres import PROGRAMS, SUPERUSER, postgres  # noqa: E402
from served import Server, serving, token  # noqa: E402

from fashkiin import Client, Row  # noqa: E402
from fashkiin.cells import parse_time  # noqa: E402
from fashkiin.client import path  # noqa: E402

AUTHS = ("storms", "wind", "flight")
# How many requests of raw puts are sent at once, and how many such groups are on their way.
GROUP, AHEAD = 64, 4
REPLY = b'HTTP/1.1 200 OK\r\nContent-Type: application/json\r\nContent-Length: 11\r\n\r\n{"ok":true}'
COLUMNS = "id text, time timestamptz, label text default '', speed double precision, name text"
SCHEMA = f"""
create extension postgis;
create role loader login;
alter role loader set app.labels = '{"/".join(LABELS)}';
"""
TABLE = """
create table {table}(ogc_fid serial primary key, {columns}, geom geometry(Point, 4326){made});
create index on {table} using gist (geom);
grant select, insert on {table} to loader;
grant usage on sequence {table}_ogc_fid_seq to loader;
alter table {table} enable row level security;
create policy seen on {table} to loader using (label = any (string_to_array(current_setting('app.labels'), '/')));
"""
MADE = " generated always as (st_setsrid(st_makepoint(lon, lat), 4326)) stored"
# What ogr2ogr is told of a file, and which layer it reads.
OPTIONS: dict[str, list[str]] = {
    "csv": ["-oo", "X_POSSIBLE_NAMES=lon", "-oo", "Y_POSSIBLE_NAMES=lat", "-oo", "AUTODETECT_TYPE=YES", "-a_srs", "EPSG:4326"],
    "geojson": [],
    "gpx": [],
}
LAYERS = {"csv": "ships", "geojson": "ships", "gpx": "waypoints"}


@dataclass
class Measured:
    """Rows a second, and the processors that the client and the server took meanwhile, where that is known."""

    rate: float
    client: float = 0.0
    server: float = 0.0

    def busy(self) -> str:
        return f"{self.client:.2f} + {self.server:.2f}" if self.server else ""


def measured(rows: int, seconds: float, client: float, server: float) -> Measured:
    """So many rows in some seconds, of which a client and a server took some of a processor."""
    return Measured(rows / seconds, client / seconds, server / seconds)


def load(commands: Commands, server: Server, file: Path, table: str, rows: int) -> Measured:
    """`fashkiin load` of a file."""
    before = processor_time(server.process.pid)
    # An empty label of a GPX extension is none.
    words = ("--create", "--period", "day", "--default-label", "", "--quiet")
    took = commands.run("load", table, file, *words)
    found = measured(rows, took.clock, took.processor, processor_time(server.process.pid) - before)
    with Client(f"http://127.0.0.1:{server.port}", token("root")) as client:
        assert client.table(table).count() == rows
    return found


def groups(client: Client, table: str, file: Path) -> list[bytes]:
    """The puts of the rows of a CSV file, by groups of requests."""
    request = client.requests("POST", path("tables", table, "put"))
    with file.open() as lines:
        next(lines)
        puts = (request(row_of(line).body()) for line in lines)
        return [b"".join(group) for group in iter(lambda: list(itertools.islice(puts, GROUP)), [])]


def row_of(line: str) -> Row:
    """The row of a line of CSV that has no quotes."""
    name, lon, lat, when, label, speed, ship = line.rstrip("\r\n").split(",")
    return Row(name, float(lon), float(lat), parse_time(when), label, {"speed": float(speed), "name": ship})


def put_raw(server: Server, file: Path, table: str, rows: int) -> Measured:
    """Puts of the rows over one connection, whose requests are there before, by a client that only counts the bytes of answers."""
    with Client(f"http://127.0.0.1:{server.port}", token("root")) as client:
        client.tables.create(table, "day")
        requests = groups(client, table, file)
        own, before, start = time.process_time(), processor_time(server.process.pid), time.monotonic()
        with socket.create_connection(("127.0.0.1", server.port)) as to:
            to.setsockopt(socket.IPPROTO_TCP, socket.TCP_NODELAY, 1)
            for at in range(len(requests) + AHEAD):
                if at >= AHEAD:
                    of_group = min(GROUP, rows - (at - AHEAD) * GROUP) * len(REPLY)
                    assert len(to.recv(of_group, socket.MSG_WAITALL)) == of_group
                if at < len(requests):
                    to.sendall(requests[at])
        seconds = time.monotonic() - start
        found = measured(rows, seconds, time.process_time() - own, processor_time(server.process.pid) - before)
        assert client.table(table).count() == rows
    return found


class PostGis:
    """A PostgreSQL of its own with PostGIS."""

    def __init__(self, folder: Path) -> None:
        self.folder = folder
        self.ask(SCHEMA)

    def ask(self, text: str) -> str:
        """What psql says."""
        words = [str(PROGRAMS / "psql"), "-h", str(self.folder), "-U", SUPERUSER, "-d", "postgres", "-qAt", "-v", "ON_ERROR_STOP=1"]
        return subprocess.run(words, input=text, stdout=subprocess.PIPE, text=True, check=True).stdout

    def ogr2ogr(self, file: Path, table: str, rows: int, user: str, copies: str) -> Measured:
        """`ogr2ogr` of a file into a table with an index, as a user."""
        self.ask(TABLE.format(table=table, columns=COLUMNS, made=""))
        suffix = file.suffix[1:]
        target = f"PG:host={self.folder} user={user} dbname=postgres tables={table}"
        words: list[str | Path] = ["ogr2ogr", "-f", "PostgreSQL", "-append", target, file, LAYERS[suffix], "-nln", table]
        words += [*OPTIONS[suffix], "-unsetFid", "--config", "PG_USE_COPY", copies]
        start = time.monotonic()
        subprocess.run(words, check=True)
        return self.checked(table, rows, time.monotonic() - start)

    def copy(self, file: Path, table: str, rows: int) -> Measured:
        """`COPY` of a CSV file into a table with an index."""
        self.ask(TABLE.format(table=table, columns=f"lon double precision, lat double precision, {COLUMNS}", made=MADE))
        start = time.monotonic()
        self.ask(f"\\copy {table}(id, lon, lat, time, label, speed, name) from '{file}' with (format csv, header, force_not_null (label))")
        return self.checked(table, rows, time.monotonic() - start)

    def checked(self, table: str, rows: int, seconds: float) -> Measured:
        """So many rows in some seconds, if they are there, with their places; the table is dropped."""
        assert self.ask(f"select count(geom) from {table}") == f"{rows}\n"
        self.ask(f"drop table {table}")
        return Measured(rows / seconds)


def by_server(folder: Path, file: Path, table: Path, rows: int) -> Iterator[tuple[str, Measured]]:
    """What is measured of a server of its own, with a file and the CSV file of the same rows."""
    with serving(*AUTHS) as server:
        commands = Commands(folder, server.port)
        for what in ("fashkiin load", "fashkiin load, again"):
            yield what, load(commands, server, file, "bench.ships", rows)
    with serving(*AUTHS) as server:
        yield "raw puts", put_raw(server, table, "bench.ships", rows)


def by_postgis(folder: Path, file: Path, rows: int) -> Iterator[tuple[str, Measured]]:
    """What is measured of PostGIS with a file."""
    with postgres("shared_buffers=1GB", "jit=off") as socket_folder:
        postgis = PostGis(socket_folder)
        yield "ogr2ogr, policy", postgis.ogr2ogr(file, "ships", rows, "loader", "NO")
        yield "ogr2ogr, COPY", postgis.ogr2ogr(file, "ships", rows, SUPERUSER, "YES")
        if file.suffix == ".csv":
            yield "COPY", postgis.copy(file, "ships", rows)


def main() -> None:
    rows = int(sys.argv[1]) if len(sys.argv) > 1 else 1_000_000
    right = True
    with tempfile.TemporaryDirectory() as name:
        folder = Path(name)
        table = folder / "ships.csv"
        for suffix in dict.fromkeys(["csv", *(sys.argv[2:] or OPTIONS)]):
            with (folder / f"ships.{suffix}").open("w", newline="") as out:
                FORMATS[suffix](out, rows)
        for suffix in sys.argv[2:] or OPTIONS:
            file = folder / f"ships.{suffix}"
            print(f"{suffix}: {rows:,} rows; load of the machine {os.getloadavg()[0]:.1f}; processors of client + server", flush=True)
            found: dict[str, Measured] = {}
            for what, one in itertools.chain(by_server(folder, file, table, rows), by_postgis(folder, file, rows)):
                found[what] = one
                print(f"    {what:<22}{one.rate:>10,.0f} a second  {one.busy()}", flush=True)
            rate = found["fashkiin load"].rate
            right &= rate >= found["raw puts"].rate / 2 and rate >= found["ogr2ogr, policy"].rate
    print("ok" if right else "WRONG: a load is slower than half of the raw puts, or than ogr2ogr under the policy")
    sys.exit(not right)


if __name__ == "__main__":
    main()
