#!/usr/bin/env python3
"""How long the built `st_served --store` takes to open a store of many rows, and its memory beside that of a server that got the same rows
by requests.

    opening.py [ROWS [FOLDER [opened]]]

1,000,000 rows, in a folder of /var/tmp, where they are left out; with `opened` no server gets them by requests. SQLite writes the rows
as the server does: some that the server wrote are compared with them first. Memory is as the unit under deploy/ asks for, in huge
pages; GLIBC_TUNABLES= takes it as it comes. It needs the built st_served. Run it with /usr/bin/python3.
"""
from __future__ import annotations

import json
import os
import re
import socket
import sqlite3
import subprocess
import sys
import tempfile
import threading
import time
from collections.abc import Iterator
from contextlib import closing, contextmanager
from dataclasses import dataclass
from pathlib import Path

TOP = Path(__file__).resolve().parent.parent
sys.path.insert(0, str(TOP / "tests"))

from served import serving  # noqa: E402
from stored import AUTHS, BOX, answer, asked, request  # noqa: E402
from tuned import ENVIRONMENT  # noqa: E402

LABELS = ("", "A", "B", "A&B", "A|B")
COLUMNS = 'number, "user", request, name, body, result'
INSERT = f"INSERT INTO changes ({COLUMNS}, time) VALUES (?, 'root', 'put', 'points', ?, '{{\"ok\":true}}', 1700000000000)"
# How many rows are compared, how many connections put, and how many requests each sends at once.
SAMPLE = 500
CONNECTIONS = 8
MANY = 100


def row(number: int) -> dict[str, object]:
    """A row with a label and a note; the points are in no order."""
    mixed = number * 2_654_435_761 % 2**32
    point = [mixed % 2_097_152, mixed * 40_503 % 2_097_152, mixed * 69_069 % 19_818_086_400]
    note = json.dumps({"speed": mixed % 300, "name": f"ship {mixed % 1000}"})
    return {"id": f"r{number}", "label": LABELS[mixed % 5], "note": note, "point": point}


def put(number: int) -> bytes:
    return request("POST", "/tables/points/put", row(number))


@dataclass
class Server:
    """A server over a file, its port, and the seconds that it took to listen."""

    process: "subprocess.Popen[bytes]"
    port: int
    took: float

    def memory(self, name: str) -> float:
        """In MB: `VmRSS` is what it has now, `VmHWM` the most that it had."""
        text = Path(f"/proc/{self.process.pid}/status").read_text()
        return int(re.findall(rf"^{name}:\s+(\d+) kB$", text, re.M)[0]) * 1024 / 1e6

    def says(self) -> str:
        return f"{self.memory('VmRSS'):,.0f} MB, at the most {self.memory('VmHWM'):,.0f}"

    def count(self) -> object:
        """How many rows it counts."""
        with socket.create_connection(("127.0.0.1", self.port)) as client:
            client.sendall(request("POST", "/tables/points/count", {"auths": AUTHS, "box": BOX}))
            return answer(client.makefile("rb"))[1]["count"]

    def put(self, numbers: range) -> None:
        """Puts the rows of these numbers by one connection, many at once."""
        with socket.create_connection(("127.0.0.1", self.port)) as client:
            answers = client.makefile("rb")
            for first in range(0, len(numbers), MANY):
                some = numbers[first:first + MANY]
                client.sendall(b"".join(put(number) for number in some))
                for _ in some:
                    assert answer(answers) == (200, {"ok": True})

    def put_all(self, count: int) -> None:
        """Puts so many rows by several connections."""
        threads = [threading.Thread(target=self.put, args=(range(1 + first, 1 + count, CONNECTIONS),)) for first in range(CONNECTIONS)]
        for thread in threads:
            thread.start()
        for thread in threads:
            thread.join()


@contextmanager
def opened(file: Path) -> Iterator[Server]:
    """A server over the store in a file, which is ended with the context."""
    start = time.perf_counter()
    with serving("--store", str(file), *AUTHS, env=ENVIRONMENT) as server:
        yield Server(server.process, server.port, time.perf_counter() - start)


def write_rows(file: Path, count: int) -> None:
    """A store with puts of so many rows, which SQLite writes into the file of a new one."""
    with opened(file):
        pass
    with closing(sqlite3.connect(file)) as base, base:
        base.executemany(INSERT, ((number, json.dumps(row(number))) for number in range(1, 1 + count)))


def compare_sample(folder: Path) -> None:
    """That SQLite writes some rows as the server does, but for their times."""
    one, other = folder / "one.db", folder / "other.db"
    with opened(one) as server:
        server.put(range(1, 1 + SAMPLE))
    write_rows(other, SAMPLE)
    by_server, by_sqlite = (asked(file, f"SELECT {COLUMNS} FROM changes ORDER BY number") for file in (one, other))
    assert by_server == by_sqlite and len(by_server) == 1 + SAMPLE
    with opened(other) as server:
        assert server.count() == SAMPLE


def main() -> None:
    count = int(sys.argv[1]) if len(sys.argv) > 1 else 1_000_000
    above = sys.argv[2] if len(sys.argv) > 2 else "/var/tmp"
    with tempfile.TemporaryDirectory(prefix="opening-", dir=above) as name:
        folder = Path(name)
        compare_sample(folder)
        write_rows(folder / "points.db", count)
        size = (folder / "points.db").stat().st_size
        print(f"{count:,} rows: {size / 1e6:,.0f} MB of file, {size / count:.0f} bytes a row; load {os.getloadavg()[0]:.1f}", flush=True)
        for _ in range(2):
            with opened(folder / "points.db") as server:
                print(f"opened in {server.took:.1f} s; memory {server.says()}", flush=True)
                assert server.count() == count
        if "opened" not in sys.argv:
            with opened(folder / "asked.db") as server:
                start = time.perf_counter()
                server.put_all(count)
                print(f"by requests in {time.perf_counter() - start:.0f} s; memory {server.says()}", flush=True)
                assert server.count() == count
            size = sum(file.stat().st_size for file in folder.glob("asked.db*"))
            print(f"its file and log: {size / 1e6:,.0f} MB, {size / count:.0f} bytes a row")


if __name__ == "__main__":
    main()
