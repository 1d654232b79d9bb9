#!/usr/bin/env python3
"""Changes a second that are kept on a disk: by the built `st_served --store`, by the journal below it alone (`bench_journal`), by SQLite
itself and by PostgreSQL, in turns on one disk; by the server on a disk whose syncs take 4 ms longer; and the time of a count alone and
beside a connection that puts without pause.
Beside the changes that one connection sends at once stands how often nginx answers the same requests of the same client with a constant.

    durable.py [SECONDS [FOLDER]]

3 seconds for each figure, in a folder of /var/tmp, where they are left out. It needs the built st_served and bench_journal, wrk,
nginx, and what tools/packages names. A change is a put of a row; SQLite's (Python's sqlite3, journal_mode=WAL, synchronous=FULL)
and PostgreSQL's (pgbench, as it is installed) is a row of the same texts. Run it with /usr/bin/python3.
"""
from __future__ import annotations

import json
import os
import re
import socket
import sqlite3
import subprocess
import sys
import tempfile
import time
from collections.abc import Iterator
from contextlib import contextmanager, suppress
from pathlib import Path

TOP = Path(__file__).resolve().parent.parent
sys.path.insert(0, str(TOP / "tests"))

from postgres import PROGRAMS, SUPERUSER, postgres  # noqa: E402
from served import free_port, serving, token  # noqa: E402

TABLE = """CREATE TABLE changes (number {serial}, time BIGINT NOT NULL, "user" TEXT NOT NULL, request TEXT NOT NULL, name TEXT NOT NULL,
body TEXT NOT NULL, result TEXT NOT NULL)"""
BODY = json.dumps({"id": "w1100000", "label": "", "note": "", "point": [100000, 700000, 100000]})
INSERT = f"""INSERT INTO changes (time, "user", request, name, body, result)
VALUES (1700000000000, 'root', 'put', 'points', '{BODY}', '{{"ok":true}}');\n"""
CONNECTIONS = (1, 8, 64)
# How many rows or records go into a transaction of SQLite and of the journal.
BATCHES = (1, 64, 256)
# How many requests a connection sends at once, where it does not wait for each answer.
MANY = 64
# A disk whose syncs take 4 ms longer, as a library that is loaded before the C library.
SLOW = """#define _GNU_SOURCE
#include <dlfcn.h>
#include <time.h>
static int later(const char *name, int file) {
    struct timespec wait = {0, 4000000};
    nanosleep(&wait, 0);
    return ((int (*)(int))dlsym(RTLD_NEXT, name))(file);
}
int fsync(int file) { return later("fsync", file); }
int fdatasync(int file) { return later("fdatasync", file); }
"""


# nginx, which answers each request with what a change is answered.
CONSTANT = """daemon off;
worker_processes 1;
pid {folder}/nginx.pid;
events {{}}
http {{
    access_log off;
    client_body_temp_path {folder};
    proxy_temp_path {folder};
    fastcgi_temp_path {folder};
    uwsgi_temp_path {folder};
    scgi_temp_path {folder};
    server {{
        listen 127.0.0.1:{port};
        keepalive_requests 1000000000;
        location / {{ default_type application/json; return 200 '{{"ok":true}}'; }}
    }}
}}
"""


def until_open(port: int) -> None:
    """Returns once a port takes connections."""
    for _ in range(100):
        with suppress(OSError), socket.create_connection(("127.0.0.1", port)):
            return
        time.sleep(0.1)
    raise TimeoutError(port)


@contextmanager
def constant(folder: Path) -> Iterator[int]:
    """The port of an nginx of one process that answers with a constant."""
    port, file = free_port(), folder / "nginx.conf"
    file.write_text(CONSTANT.format(folder=folder, port=port))
    with subprocess.Popen(["nginx", "-c", str(file), "-e", str(folder / "nginx.log")]) as server:
        try:
            until_open(port)
            yield port
        finally:
            server.terminate()


@contextmanager
def stored(file: Path, library: Path | None = None) -> Iterator[int]:
    """The port of a server that keeps its changes in the file, with 64 workers. A library is loaded before the C library."""
    environment = {**os.environ, "LD_PRELOAD": str(library)} if library else None
    with serving("--store", str(file), "--timeout", "60", "--workers", "64", env=environment) as server:
        yield server.port


def driven(port: int, connections: int, seconds: float, *words: str) -> "subprocess.Popen[str]":
    """`wrk` with so many connections, which ask what the words of bench/served.lua say."""
    threads = min(connections, os.cpu_count() or 1)
    command = ["wrk", "-t", str(threads), "-c", str(connections), "-d", f"{seconds:g}s", "--latency", "-s", str(TOP / "bench/served.lua")]
    return subprocess.Popen([*command, f"http://127.0.0.1:{port}", "--", *words], stdout=subprocess.PIPE, text=True)


def told(wrk: "subprocess.Popen[str]") -> str:
    said, _ = wrk.communicate()
    assert wrk.returncode == 0 and "Non-2xx" not in said and "Socket errors" not in said, said
    return said


def rate(said: str) -> float:
    return float(re.findall(r"Requests/sec: +([0-9.]+)", said)[0])


def microseconds(said: str, share: str) -> float:
    value, unit = re.findall(rf"^ +{share}% +([0-9.]+)(us|ms|s)$", said, re.M)[0]
    return float(value) * {"us": 1, "ms": 1_000, "s": 1_000_000}[unit]


def by_server(folder: Path, connections: int, seconds: float, *many: str, library: Path | None = None) -> float:
    with tempfile.TemporaryDirectory(dir=folder) as name, stored(Path(name) / "points.db", library) as port:
        return rate(told(driven(port, connections, seconds, "put", token("root"), *many)))


def by_nginx(folder: Path, many: int, seconds: float) -> float:
    with tempfile.TemporaryDirectory(dir=folder) as name, constant(Path(name)) as port:
        return rate(told(driven(port, 1, seconds, "put", token("root"), str(many))))


def by_sqlite(folder: Path, batch: int, seconds: float) -> float:
    with tempfile.TemporaryDirectory(dir=folder) as name:
        base = sqlite3.connect(Path(name) / "sqlite.db", isolation_level=None)
        base.execute("PRAGMA journal_mode=WAL")
        base.execute("PRAGMA synchronous=FULL")
        base.execute(TABLE.format(serial="INTEGER PRIMARY KEY"))
        done, start = 0, time.perf_counter()
        while (took := time.perf_counter() - start) < seconds:
            base.execute("BEGIN")
            for _ in range(batch):
                base.execute(INSERT)
            base.execute("COMMIT")
            done += batch
        base.close()
        return done / took


def by_journal(folder: Path, batch: int, rounds: int) -> float:
    with tempfile.TemporaryDirectory(dir=folder) as name:
        words = [str(TOP / "crates/bench_journal/out/bench_journal"), f"{name}/journal.db", str(batch), str(rounds)]
        ran = subprocess.run(words, check=True, capture_output=True, text=True)
        return batch * rounds / int(ran.stderr) * 1e6


def without_a_server(folder: Path, seconds: float) -> str:
    """What the journal and SQLite keep in a process of their own, by the same batches."""
    told = []
    for batch in BATCHES:
        theirs = by_sqlite(folder, batch, seconds)
        ours = by_journal(folder, batch, max(1, round(theirs * seconds / batch)))
        told.append(f"by {batch} {ours:,.0f} and {theirs:,.0f} ({ours / theirs:.2f})")
    return ", ".join(told)


def by_postgres(socket: Path, script: Path, connections: int, seconds: float) -> float:
    threads = min(connections, os.cpu_count() or 1)
    words = ["-h", str(socket), "-U", SUPERUSER, "-n", "-f", str(script), "-c", str(connections), "-j", str(threads)]
    words += ["-T", f"{seconds:.0f}", "postgres"]
    ran = subprocess.run([PROGRAMS / "pgbench", *words], check=True, capture_output=True, text=True)
    return float(re.findall(r"tps = ([0-9.]+)", ran.stdout)[0])


def by_disk(folder: Path, seconds: float) -> float:
    """Syncs a second of a write of 4,096 bytes behind the end of a file."""
    done, block = 0, bytes(4096)
    with tempfile.NamedTemporaryFile(dir=folder, buffering=0) as stream:
        start = time.perf_counter()
        while (took := time.perf_counter() - start) < seconds:
            stream.write(block)
            os.fdatasync(stream.fileno())
            done += 1
    return done / took


def on_a_slow_disk(folder: Path, seconds: float) -> str:
    code, library = folder / "slow.c", folder / "slow.so"
    code.write_text(SLOW)
    subprocess.run(["cc", "-shared", "-fPIC", "-o", library, code, "-ldl"], check=True)
    rates = [by_server(folder, connections, seconds, library=library) for connections in CONNECTIONS]
    each = ", ".join(f"{connections} connections {rate:,.0f}" for connections, rate in zip(CONNECTIONS, rates, strict=True))
    return f"syncs that take 4 ms longer: {each}; the most make {rates[-1] / rates[0]:.1f} times what one makes"


def counts_beside_puts(folder: Path, seconds: float) -> str:
    """How much longer a count takes beside a connection that puts without pause."""
    with tempfile.TemporaryDirectory(dir=folder) as name, stored(Path(name) / "points.db") as port:
        told(driven(port, 8, seconds, "put", token("root")))
        alone = told(driven(port, 1, seconds, "count", token("root")))
        puts = driven(port, 1, seconds + 1, "put", token("root"))
        time.sleep(0.5)
        beside = told(driven(port, 1, seconds, "count", token("root")))
        told(puts)
    both = {share: (microseconds(alone, share), microseconds(beside, share)) for share in ("50", "99")}
    return "a count: " + "; ".join(f"{share} of 100: {one:.0f} us alone, {other:.0f} beside" for share, (one, other) in both.items())


def main() -> None:
    seconds = float(sys.argv[1]) if len(sys.argv) > 1 else 3.0
    above = sys.argv[2] if len(sys.argv) > 2 else "/var/tmp"
    with tempfile.TemporaryDirectory(prefix="durable-", dir=above) as name, postgres("fsync=on", "synchronous_commit=on") as socket:
        folder, script = Path(name), Path(name) / "insert.sql"
        script.write_text(INSERT)
        script.chmod(0o644)
        folder.chmod(0o755)
        words = ["psql", "-q", "-h", str(socket), "-U", SUPERUSER, "-d", "postgres", "-c", TABLE.format(serial="BIGSERIAL PRIMARY KEY")]
        subprocess.run(words, check=True)
        for turn in range(1, 4):
            print(f"turn {turn}: {by_disk(folder, seconds):,.0f} syncs a second by the disk; load {os.getloadavg()[0]:.1f}", flush=True)
            for connections in CONNECTIONS:
                here, there = by_server(folder, connections, seconds), by_postgres(socket, script, connections, seconds)
                print(f"  {connections} connections: st_served {here:,.0f}, PostgreSQL {there:,.0f}", flush=True)
            many = by_server(folder, 1, seconds, str(MANY))
            constants = by_nginx(folder, MANY, seconds)
            print(f"  {MANY} at once on one connection: {many:,.0f}; a constant of nginx {constants:,.0f}", flush=True)
            print(f"  the journal alone and sqlite3: {without_a_server(folder, seconds)}", flush=True)
        print(on_a_slow_disk(folder, seconds), flush=True)
        print(counts_beside_puts(folder, seconds))


if __name__ == "__main__":
    main()
