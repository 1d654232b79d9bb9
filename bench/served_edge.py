#!/usr/bin/env python3
"""What the edge keeps from a user who asks, one request after another, who they are: clients that send a byte a second, and others
that ask for pages of 4 MB and read nothing.

    served_edge.py [ADDRESSES [USERS]]

1,000 addresses with four connections each, and 40 users whose tokens they have, where these are left out. It needs the built
st_served, haproxy and nginx. Run it with /usr/bin/python3.
"""
from __future__ import annotations

import os
import resource
import sys
import tempfile
import threading
import time
from contextlib import ExitStack
from datetime import UTC, datetime
from pathlib import Path
from socket import socket
from statistics import median

TOP = Path(__file__).resolve().parent.parent
for folder in ("tests", "clients/map/tests", "clients/python/src"):
    sys.path.insert(0, str(TOP / folder))

from attackers import address, connected, head  # noqa: E402
from served import digest, token  # noqa: E402
from stack import Stack  # noqa: E402

from fashkiin import Client, Row  # noqa: E402

CONNECTIONS = 4
SECONDS = 20
"""How long is measured beside clients that read nothing."""
MEDIAN_MS = 50
SCAN = b'{"auths":[],"box":[0,2097151,0,2097151,0,19818086399],"limit":1000}'
START = datetime(2024, 5, 1, tzinfo=UTC)


class Asker(threading.Thread):
    """The user: how long each answer took in ms, and why others did not come."""

    def __init__(self, port: int) -> None:
        super().__init__()
        self.took: list[float] = []
        self.failed: list[str] = []
        self._port = port
        self._done = threading.Event()

    def run(self) -> None:
        while not self._done.wait(0.02):
            begin = time.monotonic()
            try:
                with connected(self._port, "127.2.0.1") as client:
                    client.sendall(head("GET", "/whoami", token("root")))
                    line = client.recv(65_536).split(b"\r\n")[0].decode()
            except OSError as fault:
                self.failed.append(repr(fault))
                continue
            if line == "HTTP/1.1 200 OK":
                self.took.append(1_000 * (time.monotonic() - begin))
            else:
                self.failed.append(line)

    def told(self, what: str) -> bool:
        """Ends the user, prints what it saw, and whether that is right."""
        self._done.set()
        self.join()
        took = sorted(self.took)
        right = bool(took) and not self.failed and median(took) < MEDIAN_MS
        if took:
            figures = f"{median(took):.1f} ms in the middle, {took[len(took) * 9 // 10]:.1f} for 9 of 10, {took[-1]:.1f} at most"
        else:
            figures = "none"
        more = f"; {len(self.failed)} failed: {self.failed[0]}" if self.failed else ""
        print(f"{'ok' if right else 'WRONG'}: {len(took)} answers {what}: {figures}{more}", flush=True)
        return right


def filled(url: str, users: int) -> None:
    """Makes a table with a page of 4 MB, and users who may read it."""
    with Client(url, token("root")) as root:
        root.tables.create("edge.rows")
        rows = (Row(f"r{at}", at / 10, 0.0, START, "", {"note": "x" * 4_000}) for at in range(1_000))
        assert all(put.error is None for put in root.table("edge.rows").put_many(rows))
        for number in range(users):
            root.users.create(f"user{number}", digest(f"user{number}"))
            root.grants.grant(f"user{number}", "READ", namespace="edge")


def slow(port: int) -> bool:
    """Twenty clients that send a byte a second are ended after ten."""
    asker = Asker(port)
    asker.start()
    request = head("POST", "/tables/edge.rows/scan", token("user0"), len(SCAN))
    with ExitStack() as opened:
        clients = [opened.enter_context(connected(port, address(it))) for it in range(20)]
        for turn in range(9):
            for client in clients:
                client.sendall(request[turn : turn + 1])
            time.sleep(1)
        lines = {client.recv(65_536)[:12] for client in clients}
    print(f"{'ok' if lines == {b'HTTP/1.1 408'} else 'WRONG'}: twenty clients that send a byte a second: {lines}", flush=True)
    return asker.told("beside them") and lines == {b"HTTP/1.1 408"}


def silent(stack: Stack, addresses: int, users: int) -> bool:
    """Connections of many addresses ask for a page and read nothing."""
    asker = Asker(stack.edge)
    asker.start()
    clients: list[socket] = []
    begin = time.monotonic()
    for number in range(addresses * CONNECTIONS):
        client = connected(stack.edge, address(number // CONNECTIONS))
        client.sendall(head("POST", "/tables/edge.rows/scan", token(f"user{number % users}"), len(SCAN)) + SCAN)
        clients.append(client)
    time.sleep(max(0, begin + SECONDS - time.monotonic()))
    right = asker.told(f"beside {addresses} addresses of {CONNECTIONS} connections, with {users} tokens")
    nginx = int((stack.folder / "nginx/pid").read_text())
    print(f"memory: HAProxy {memory(stack.haproxy)} MB, nginx {memory(nginx)} MB", flush=True)
    for client in clients:
        client.close()
    return right


def memory(process: int) -> int:
    """The memory of a process and of its children, in MB."""
    children = Path(f"/proc/{process}/task/{process}/children").read_text().split()
    pages = sum(int(Path(f"/proc/{it}/statm").read_text().split()[1]) for it in (process, *children))
    return pages * os.sysconf("SC_PAGE_SIZE") >> 20


def main() -> None:
    addresses = int(sys.argv[1]) if len(sys.argv) > 1 else 1_000
    users = int(sys.argv[2]) if len(sys.argv) > 2 else 40
    most = resource.getrlimit(resource.RLIMIT_NOFILE)[1]
    resource.setrlimit(resource.RLIMIT_NOFILE, (most, most))
    with tempfile.TemporaryDirectory() as folder, Stack(Path(folder)) as stack:
        filled(stack.url, users)
        quiet = Asker(stack.edge)
        quiet.start()
        time.sleep(3)
        right = quiet.told("with nobody else")
        right &= slow(stack.edge)
        for number in {1: None, users: None}:
            right &= silent(stack, addresses, number)
            time.sleep(3)
        after = Asker(stack.edge)
        after.start()
        time.sleep(3)
        right &= after.told("once they are gone")
    sys.exit(not right)


if __name__ == "__main__":
    main()
