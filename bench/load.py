#!/usr/bin/env python3
"""A load of a CSV file by `fashkiin load`: straight to the built `st_served`, through the edge, and killed at random and run
again; beside `ogr2ogr` into PostGIS with the same file, by COPY and by INSERT.

    nice bench/load.py [ROWS [KILLS]]

1,000,000 rows and 10 kills where they are left out. It needs haproxy and nginx, and for the peer gdal-bin, postgresql-15 and
postgis, and to be root: without them the peer is left out. Run it with /usr/bin/python3.
"""
from __future__ import annotations

import csv
import os
import random
import shutil
import signal
import subprocess
import sys
import tempfile
import time
from collections.abc import Iterator
from contextlib import contextmanager
from dataclasses import dataclass
from pathlib import Path

TOP = Path(__file__).resolve().parent.parent
for folder in ("tests", "clients/map/tests", "clients/python/src"):
    sys.path.insert(0, str(TOP / folder))

from served import free_port, token  # noqa: E402
from stack import Stack  # noqa: E402

from fashkiin import Client  # noqa: E402

POSTGRES = Path("/usr/lib/postgresql/15/bin")
TABLE = "bench.ships"
LABELS = ("", "storms", "storms&wind", "flight|(storms&wind)")


@dataclass
class Loaded:
    """What a load took, and the resident memory of the client after a tenth of it and at the most, in MB."""

    seconds: float
    early: float
    most: float


def write_rows(file: Path, rows: int) -> None:
    """Positions of a thousand ships, as `fashkiin dump` writes them."""
    chance = random.Random(20240501)
    with file.open("w", newline="") as out:
        writer = csv.writer(out)
        writer.writerow(("id", "lon", "lat", "time", "label", "speed", "name"))
        for at in range(rows):
            lon, lat = round(chance.uniform(-180, 180), 6), round(chance.uniform(-90, 90), 6)
            time_text = f"2024-{chance.randint(1, 12):02}-{chance.randint(1, 28):02}T{at % 24:02}:{chance.randint(0, 59):02}:00Z"
            speed = round(chance.uniform(0, 30), 1)
            writer.writerow((f"r{at}", lon, lat, time_text, chance.choice(LABELS), speed, f"ship {at % 1000}"))


class Loads:
    """Loads of one file into tables of one server."""

    def __init__(self, folder: Path, file: Path, rows: int) -> None:
        self.file = file
        self.rows = rows
        self.token = folder / "token"
        self.token.touch(mode=0o600)
        self.token.write_text(token("root"))
        self.environment = os.environ | {"PYTHONPATH": str(TOP / "clients/python/src"), "FASHKIIN_TOKEN_FILE": str(self.token)}

    def command(self, *words: object) -> list[str]:
        return [sys.executable, "-m", "fashkiin", *map(str, words)]

    def load(self, url: str, table: str) -> Loaded:
        """Loads the file, and says what it took."""
        start = time.monotonic()
        memory: list[float] = []
        words = self.command("load", table, self.file, "--url", url, "--create", "--period", "day", "--quiet")
        with subprocess.Popen(words, env=self.environment, stderr=subprocess.PIPE, text=True) as loading:
            while loading.poll() is None:
                memory += resident(loading.pid)
                time.sleep(0.1)
            seconds = time.monotonic() - start
            said = loading.stderr.read() if loading.stderr else ""
        if loading.returncode != 0:
            sys.exit(said)
        return Loaded(seconds, memory[len(memory) // 10], max(memory))

    def kill(self, url: str, table: str, kills: int, longest: float) -> int:
        """Starts to load and is killed, so many times, within so many seconds; how many of the loads were not done by then."""
        killed = 0
        words = self.command("load", table, self.file, "--url", url, "--create", "--period", "day", "--quiet")
        for _ in range(kills):
            with subprocess.Popen(words, env=self.environment, stderr=subprocess.DEVNULL) as loading:
                time.sleep(random.uniform(0.2, longest))
                loading.send_signal(signal.SIGKILL)
                killed += loading.wait() == -signal.SIGKILL
        return killed

    def is_stored(self, url: str, table: str, folder: Path) -> bool:
        """Whether the table's rows are those of the file, by a dump of it: the same lines, sorted."""
        dumped = folder / "dumped.csv"
        subprocess.run(self.command("dump", table, "--url", url, "-o", dumped), env=self.environment, check=True)
        sorts = []
        for file in (self.file, dumped):
            sorts.append(folder / f"{file.name}.sorted")
            subprocess.run(["sort", "-o", sorts[-1], file], env=self.environment | {"LC_ALL": "C"}, check=True)
        return subprocess.run(["cmp", *sorts]).returncode == 0


def resident(pid: int) -> list[float]:
    """The resident memory of a process, in MB; nothing where it has ended."""
    try:
        status = Path(f"/proc/{pid}/status").read_text()
    except OSError:
        return []
    return [int(line.split()[1]) / 1024 for line in status.splitlines() if line.startswith("VmRSS")]


@contextmanager
def postgis() -> Iterator[str]:
    """The words of a connection to a PostGIS of its own."""
    port = free_port()
    folder = Path(tempfile.mkdtemp(prefix="postgis-"))
    shutil.chown(folder, "postgres")

    def run(words: str) -> None:
        subprocess.run(["su", "postgres", "-c", words], check=True, stdout=subprocess.DEVNULL)

    try:
        run(f"{POSTGRES}/initdb -D {folder}/db -A trust")
        options = f"-p {port} -c listen_addresses=127.0.0.1 -c unix_socket_directories={folder} -c shared_buffers=1GB"
        run(f"{POSTGRES}/pg_ctl -D {folder}/db -l {folder}/log -o '{options}' -w start")
        try:
            run(f"psql -h {folder} -p {port} -q -c 'create extension postgis'")
            yield f"PG:host={folder} port={port} user=postgres dbname=postgres"
        finally:
            run(f"{POSTGRES}/pg_ctl -D {folder}/db -m fast stop")
    finally:
        shutil.rmtree(folder)


def ogr2ogr(connection: str, file: Path, table: str, copy: str) -> float:
    """The seconds that ogr2ogr takes to load the file into a table with its index."""
    columns = ["-oo", "X_POSSIBLE_NAMES=lon", "-oo", "Y_POSSIBLE_NAMES=lat", "-oo", "AUTODETECT_TYPE=YES", "-a_srs", "EPSG:4326"]
    start = time.monotonic()
    words: list[str | Path] = ["ogr2ogr", "-f", "PostgreSQL", connection, file, "-nln", table, *columns, "--config", "PG_USE_COPY", copy]
    subprocess.run(words, check=True)
    return time.monotonic() - start


def say(what: str, rows: int, seconds: float, more: str = "") -> None:
    print(f"{what}: {rows / seconds:,.0f} rows a second ({rows:,} in {seconds:.1f} s){more}", flush=True)


def read_words() -> tuple[int, int]:
    """How many rows and kills."""
    rows = int(sys.argv[1]) if len(sys.argv) > 1 else 1_000_000
    return rows, int(sys.argv[2]) if len(sys.argv) > 2 else 10


def compare(loads: Loads, stack: Stack, folder: Path, kills: int) -> bool:
    """Loads straight and through the edge, then again and again with kills; whether the rows were those of the file."""
    straight = f"http://127.0.0.1:{stack.served}"
    longest = 0.0
    for what, url in (("straight", straight), ("through the edge", stack.url)):
        took = loads.load(url, TABLE)
        memory = f"; memory of the client {took.early:.1f} MB after a tenth, {took.most:.1f} MB at the most"
        say(f"fashkiin load, {what}", loads.rows, took.seconds, memory)
        longest = max(longest, took.seconds / 4)
        with Client(straight, token("root")) as client:
            client.tables.drop(TABLE)
    killed = loads.kill(stack.url, TABLE, kills, longest)
    loads.load(stack.url, TABLE)
    right = loads.is_stored(stack.url, TABLE, folder) and (killed > 0 or kills == 0)
    print(f"{'ok' if right else 'WRONG'}: killed {killed} times and run again, the rows are those of the file", flush=True)
    return right


def peer(file: Path, rows: int) -> None:
    """The same file by ogr2ogr into PostGIS."""
    if not (shutil.which("ogr2ogr") and POSTGRES.is_dir() and os.geteuid() == 0):
        print("without ogr2ogr, PostgreSQL or root: no peer")
        return
    with postgis() as connection:
        for copy, what in (("YES", "COPY"), ("NO", "INSERT")):
            say(f"ogr2ogr into PostGIS by {what}", rows, ogr2ogr(connection, file, f"ships_{what.lower()}", copy))


def main() -> None:
    rows, kills = read_words()
    with tempfile.TemporaryDirectory() as name, Stack(Path(name)) as stack:
        folder = Path(name)
        file = folder / "ships.csv"
        write_rows(file, rows)
        right = compare(Loads(folder, file, rows), stack, folder, kills)
        peer(file, rows)
    sys.exit(not right)


if __name__ == "__main__":
    main()
