#!/usr/bin/env python3
"""Reading a table through the OGC API and from its export in PostGIS, each by ogr2ogr; counts of boxes by the server and by
the export. All must tell the same. Then what costs the OGC API most: a page of one feature from a crowded cell,
the list of collections, and an answer beside 110 unfinished connections.

    nice bench/features.py [ROWS]

100,000 rows where it is left out. It needs the packages of tools/packages and the built `st_served`.
Run it with /usr/bin/python3.
"""
from __future__ import annotations

import os
import random
import socket
import statistics
import subprocess
import sys
import tempfile
import time
from collections.abc import Callable, Iterator
from contextlib import ExitStack, closing, contextmanager
from datetime import UTC, datetime, timedelta
from pathlib import Path
from typing import Any
from urllib.parse import urlsplit
from urllib.request import Request, urlopen

TOP = Path(__file__).resolve().parent.parent
for folder in ("tests", "clients/python/src"):
    sys.path.insert(0, str(TOP / folder))

import psycopg2  # noqa: E402
from postgres import SUPERUSER, postgres  # noqa: E402
from served import digest, served, token  # noqa: E402

from fashkiin import Client, Row  # noqa: E402
from fashkiin.cells import Box  # noqa: E402

TABLE = "bench.ships"
CELL = "bench.cell"
CELL_ROWS = 4_000
LABELS = ("", "storms", "storms&wind", "flight|(storms&wind)", "flight", "(storms|wind)&flight")
AUTHS = ("flight", "storms", "wind")
BOXES = 50


def rows(number: int) -> Iterator[Row]:
    """Positions of ships."""
    some = random.Random(1)
    for at in range(number):
        moment = datetime(2024, 1, 1, tzinfo=UTC) + timedelta(seconds=some.randrange(366 * 86_400))
        lon, lat = round(some.uniform(-180, 180), 6), round(some.uniform(-90, 90), 6)
        properties = {"speed": some.randrange(300) / 10, "name": f"ship {at % 1000}"}
        yield Row(f"r{at}", lon, lat, moment, some.choice(LABELS), properties)


def words(*given: str) -> list[str]:
    return [sys.executable, "-m", "fashkiin", *given]


@contextmanager
def features(url: str, environment: dict[str, str]) -> Iterator[str]:
    """The URL of an OGC API before a server."""
    with subprocess.Popen(words("features", "--port", "0", "--url", url), env=environment, stdout=subprocess.PIPE) as process:
        assert process.stdout is not None
        try:
            yield process.stdout.readline().decode().removeprefix("listening at ").strip()
        finally:
            process.terminate()


def read(source: str, layer: str, environment: dict[str, str], *flags: str) -> int:
    """How many features ogr2ogr reads."""
    given = ["ogr2ogr", "-f", "GeoJSONSeq", "/vsistdout/", source, layer, *flags]
    return len(subprocess.run(given, env=environment, stdout=subprocess.PIPE, check=True).stdout.splitlines())


def timed(what: str, number: int, run: Callable[[], int]) -> None:
    """Runs what reads so many rows."""
    start = time.monotonic()
    found = run()
    seconds = time.monotonic() - start
    if found != number:
        sys.exit(f"{what}: {found} rows, wanted {number}")
    print(f"{what}: {found / seconds:,.0f} rows a second ({found:,} in {seconds:.1f} s)", flush=True)


def counts(what: str, boxes: list[Box], count: Callable[[Box], int]) -> list[int]:
    """The counts of boxes, and the time that one takes."""
    found, seconds = [], []
    for box in boxes:
        start = time.perf_counter()
        found.append(count(box))
        seconds.append(time.perf_counter() - start)
    middle, most = 1000 * statistics.median(seconds), 1000 * max(seconds)
    print(f"{what}: {middle:.2f} ms in the middle, {most:.2f} ms at the most", flush=True)
    return found


def some_boxes() -> list[Box]:
    """Boxes of ten degrees and ten days, at random."""
    some = random.Random(2)
    side, begin = (2**21 * 10 // 360, 2**21 * 10 // 180), int(datetime(2024, 1, 1, tzinfo=UTC).timestamp())
    found = []
    for _ in range(BOXES):
        x, y, t = some.randrange(2**21 - side[0]), some.randrange(2**21 - side[1]), begin + some.randrange(350 * 86_400)
        found.append(Box(x, x + side[0], y, y + side[1], t, t + 10 * 86_400))
    return found


def compare(url: str, folder: Path, number: int, environment: dict[str, str]) -> None:
    """Reads and counts as a user who sees a part of the rows."""
    database = f"host={folder} user=ann dbname=bench"
    with Client(url, token("ann")) as ann, closing(psycopg2.connect(database)) as connection:
        own, cursor = ann.whoami().auths, connection.cursor()

        def by_server(box: Box) -> int:
            return int(ann.ask("POST", f"/tables/{TABLE}/count", {"box": box, "auths": own})["count"])

        def by_postgis(box: Box) -> int:
            query = f"select count(*) from {TABLE} where x between %s and %s and y between %s and %s and t between %s and %s"
            cursor.execute(query, box)
            row: Any = cursor.fetchone()
            return int(row[0])

        boxes = some_boxes()
        told = counts("a count by the server", boxes, by_server)
        if counts("a count by the export in PostGIS", boxes, by_postgis) != told:
            sys.exit("the counts differ")
        seen = ann.table(TABLE).count()
    print(f"ann sees {seen:,} of {number:,} rows")
    with features(url, environment) as api:
        flags = ("-oo", "PAGE_SIZE=1000")
        timed("ogr2ogr from the OGC API", seen, lambda: read(f"OAPIF:{api}", TABLE, environment, *flags))
    timed("ogr2ogr from the export in PostGIS", seen, lambda: read(f"PG:{database}", TABLE, environment))


def in_a_cell() -> Iterator[Row]:
    """Rows in one cell, from west to east."""
    for at in range(CELL_ROWS):
        yield Row(f"c{at:04}", 10 + at / 10**9, 20.0, datetime(2024, 1, 1, tzinfo=UTC), "")


def ask(url: str) -> float:
    """The seconds that an answer to ann takes."""
    start = time.monotonic()
    with urlopen(Request(url, headers={"Authorization": f"Bearer {token('ann')}"}), timeout=300) as answer:
        answer.read()
    return time.monotonic() - start


def crowded(url: str, environment: dict[str, str]) -> None:
    """What costs the OGC API most."""
    with features(url, environment) as api, ExitStack() as held:
        east = 10 + (CELL_ROWS - 1.5) / 10**9
        page = ask(f"{api}collections/{CELL}/items?limit=1&bbox={east!r},19,11,21")
        print(f"the last of {CELL_ROWS:,} rows in a cell, by limit=1 and a bbox: {page:.2f} s", flush=True)
        print(f"two collections with their extents: {ask(f'{api}collections'):.2f} s", flush=True)
        place = urlsplit(api)
        for _ in range(110):
            connection = held.enter_context(socket.create_connection((place.hostname or "", place.port or 0)))
            connection.sendall(b"GET / HTTP/1.1\r\nHost: x\r\n")
        print(f"an answer beside 110 unfinished connections: {1000 * ask(f'{api}conformance'):.0f} ms", flush=True)


def main() -> None:
    number = int(sys.argv[1]) if len(sys.argv) > 1 else 100_000
    with tempfile.TemporaryDirectory() as name, served(*AUTHS) as port, postgres() as database:
        url = f"http://127.0.0.1:{port}"
        with Client(url, token("root")) as root:
            root.tables.create(TABLE, "week")
            root.users.create("ann", digest("ann"), ["storms", "wind"])
            root.tables.create(CELL)
            root.grants.grant("ann", "READ", namespace="bench")
            for table, given in ((TABLE, rows(number)), (CELL, in_a_cell())):
                if any(put.error is not None for put in root.table(table).put_many(given)):
                    sys.exit("a row was not stored")
        own, header = Path(name) / "token", Path(name) / "header"
        own.touch(mode=0o600)
        own.write_text(token("root"))
        header.write_text(f"Authorization: Bearer {token('ann')}\n")
        environment = os.environ | {"PYTHONPATH": str(TOP / "clients/python/src"), "GDAL_HTTP_HEADER_FILE": str(header)}
        # What GDAL warns of is of no account here: a failure has a status.
        environment["CPL_LOG"] = os.devnull
        address = ["psql", "-X", "-q", "-h", str(database), "-U", SUPERUSER]
        subprocess.run([*address, "-d", "postgres", "-c", "create database bench"], check=True)
        start = time.monotonic()
        script = Path(name) / "bench.sql"
        with script.open("wb") as out:
            export = words("export", "postgis", "--table", TABLE, "--url", url, "--token-file", str(own))
            subprocess.run(export, env=environment, stdout=out, check=True)
        subprocess.run([*address, "-d", "bench", "-f", str(script)], check=True, stdout=subprocess.DEVNULL)
        print(f"the export: {number:,} rows written and loaded in {time.monotonic() - start:.1f} s", flush=True)
        compare(url, database, number, environment)
        crowded(url, environment)


if __name__ == "__main__":
    main()
