#!/usr/bin/env python3
"""More requests through the edge than the connections of two workers of st_served take, which end after a million reads each: no
client sees the end of one, and each put is made once, by the list of changes that `GET /audit` shows.

    served_turns.py [REQUESTS]

3,100,000 counts where it is left out, by 64 clients of `wrk`, beside one that puts without pause, in rounds of half a minute. It
needs the built st_served, haproxy, nginx and wrk. Run it with /usr/bin/python3.
"""
from __future__ import annotations

import re
import subprocess
import sys
import tempfile
import threading
from datetime import UTC, datetime, timedelta
from pathlib import Path
from urllib.request import urlopen

TOP = Path(__file__).resolve().parent.parent
for folder in ("tests", "clients/map/tests", "clients/python/src"):
    sys.path.insert(0, str(TOP / folder))

from served import served, token  # noqa: E402
from stack import edge_before  # noqa: E402

from fashkiin import Client, Row  # noqa: E402

REQUESTS = 3_100_000
WORKERS = {"maxconn 64 pool-max-conn 64": "maxconn 2 pool-max-conn 2"}
GROUP = 1_000  # so that the last 1,024 changes have all of them
START = datetime(2024, 5, 1, tzinfo=UTC)


class Puts(threading.Thread):
    """A client that puts group after group, each behind a change of another table, and counts what was made of each."""

    def __init__(self, url: str) -> None:
        super().__init__()
        self.done = threading.Event()
        self.put = 0
        self.wrong: list[str] = []
        self._url = url

    def run(self) -> None:
        try:
            self._put_on()
        except Exception as fault:  # so that what ends it is told
            self.wrong.append(repr(fault))

    def _put_on(self) -> None:
        with Client(self._url, token("root")) as client:
            client.tables.create("turns.marks")
            client.tables.create("turns.rows")
            while not self.done.is_set():
                client.table("turns.marks").put(Row("mark", 0.0, 0.0, START, "", {}))
                rows = [Row(f"r{at}", at / 10, 0.0, START + timedelta(seconds=self.put + at), "", {}) for at in range(GROUP)]
                refused = [it.error for it in client.table("turns.rows").put_many(rows) if it.error]
                made = [it.target for it in client.audit()]
                made = made[len(made) - made[::-1].index("turns.marks") :]
                if refused or made != ["turns.rows"] * GROUP:
                    self.wrong.append(f"{len(refused)} refused, {len(made)} made")
                self.put += GROUP


def counted(url: str) -> tuple[int, str]:
    """How many counts `wrk` got in half a minute, and what it tells of replies that were no 200 and of errors of a socket."""
    script: list[str | Path] = ["-s", TOP / "bench/served.lua", url, "--", "count", token("root")]
    words: list[str | Path] = ["wrk", "-t", "2", "-c", "64", "-d", "30s", "--timeout", "30s", *script]
    told = subprocess.run(words, check=True, stdout=subprocess.PIPE, text=True).stdout
    found = re.search(r"(\d+) requests in", told)
    assert found
    return int(found[1]), " ".join(re.findall(r"(?:Non-2xx|Socket errors).*", told))


def number(text: str, name: str) -> int:
    """One of HAProxy's numbers of the server."""
    found = re.search(rf'^haproxy_server_{name}{{proxy="served",server="st_served".*}} (\d+)$', text, re.M)
    assert found, name
    return int(found[1])


def main() -> None:
    wanted = int(sys.argv[1]) if len(sys.argv) > 1 else REQUESTS
    with tempfile.TemporaryDirectory() as folder, served("--workers", "2") as port, edge_before(Path(folder), port, WORKERS) as edge:
        url = f"http://127.0.0.1:{edge.port}"
        puts = Puts(url)
        puts.start()
        made, errors = 0, ""
        while made < wanted:
            more, error = counted(url)
            made, errors = made + more, errors + error
        puts.done.set()
        puts.join()
        with urlopen(f"http://127.0.0.1:{edge.metrics}/metrics") as reply:
            numbers = reply.read().decode()
    opened = number(numbers, "connection_attempts_total")
    again, failed = number(numbers, "retry_warnings_total"), number(numbers, "response_errors_total")
    print(f"{made:,} counts and {puts.put:,} puts over {opened:,} connections, {again} tried again, {failed} failed {errors}")
    for it in puts.wrong:
        print(it)
    right = not errors and not puts.wrong and puts.put > 0 and failed == 0 and opened > made / 2_000
    print("ok: no client saw an end, and each put was made once" if right else "WRONG")
    sys.exit(not right)


if __name__ == "__main__":
    main()
