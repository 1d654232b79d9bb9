#!/usr/bin/env python3
"""Two clients that ask a server mixed random requests, each over a kept connection, and what the server's process does meanwhile.

    soak_clients.py PORT PID SECONDS

with a server at PORT, whose process is PID and whose root has the secret of 32 zero bytes and the authorizations A, B and C. Every
minute: the answers a second since the last line, the resident memory, how many answers were no 200, and how many connections
were ended by the server (after a million reads).
"""
from __future__ import annotations

import json
import multiprocessing
import os
import random
import socket
import sys
import time
from ctypes import c_longlong
from io import BufferedReader
from typing import Any

TOKEN = "root." + "0" * 64
ROWS = 20_000
LABELS = ["", "A", "A&B", "A|(B&C)", "C&(A|B)"]
SETS = [[], ["A"], ["A", "B"], ["A", "B", "C"]]
BATCH = 32
Request = tuple[str, str, Any]


def point(pick: random.Random) -> list[int]:
    return [pick.randrange(2097152), pick.randrange(2097152), pick.randrange(19818086400)]


def box(pick: random.Random, share: int) -> list[int]:
    """A box that has so small a share of each axis."""
    sides = []
    for end in (2097152, 2097152, 19818086400):
        first = pick.randrange(end - end // share + 1)
        sides += [first, first + end // share - 1]
    return sides


def put(pick: random.Random) -> Request:
    number = pick.randrange(ROWS)
    row = {"id": f"r{number}", "label": LABELS[number % len(LABELS)], "note": "n" * pick.choice([0, 0, 0, 20]), "point": point(pick)}
    return "POST", "/tables/points/put", row


def delete(pick: random.Random) -> Request:
    number = pick.randrange(ROWS)
    return "POST", "/tables/points/delete", {"id": f"r{number}", "label": LABELS[number % len(LABELS)]}


def get(pick: random.Random) -> Request:
    return "POST", "/tables/points/get", {"auths": pick.choice(SETS), "id": f"r{pick.randrange(ROWS)}"}


def count(pick: random.Random) -> Request:
    return "POST", "/tables/points/count", {"auths": pick.choice(SETS), "box": box(pick, pick.choice([1, 2, 4, 16]))}


def scan(pick: random.Random) -> Request:
    body = {"after": None, "auths": pick.choice(SETS), "box": box(pick, 2), "limit": pick.choice([1, 10, 100])}
    return "POST", "/tables/points/scan", body


def grid(pick: random.Random) -> Request:
    return "POST", "/tables/points/grid", {"auths": pick.choice(SETS), "box": box(pick, 2), "nx": 4, "ny": 4}


def plan(pick: random.Random) -> Request:
    return "POST", "/tables/points/plan", {"box": box(pick, 64), "budget": 16}


def label(pick: random.Random) -> Request:
    return "POST", "/label", {"label": pick.choice(LABELS[1:])}


def whoami(_: random.Random) -> Request:
    return "GET", "/whoami", None


KINDS = [put] * 12 + [get] * 4 + [delete] * 3 + [whoami] * 3 + [count, scan, grid, plan, label]


def text_of(method: str, path: str, body: object) -> bytes:
    text = json.dumps(body, separators=(",", ":")) if body is not None else ""
    return f"{method} {path} HTTP/1.1\r\nHost: a\r\nAuthorization: Bearer {TOKEN}\r\nContent-Length: {len(text)}\r\n\r\n{text}".encode()


def status(stream: BufferedReader) -> bytes | None:
    """The status of the next reply, which is read whole; none where the connection has ended."""
    first = stream.readline()
    if not first:
        return None
    length = 0
    while (line := stream.readline()) not in (b"\r\n", b""):
        name, _, value = line.partition(b":")
        length = int(value) if name == b"Content-Length" else length
    return first.split()[1] if len(stream.read(length)) == length else None


def client(port: int, seed: int, until: float, answered: c_longlong, others: c_longlong, ended: c_longlong) -> None:
    pick = random.Random(seed)
    while time.time() < until:
        with socket.create_connection(("127.0.0.1", port), timeout=60) as connection, connection.makefile("rb") as stream:
            while time.time() < until:
                connection.sendall(b"".join(text_of(*pick.choice(KINDS)(pick)) for _ in range(BATCH)))
                told = [status(stream) for _ in range(BATCH)]
                answered.value += sum(it is not None for it in told)
                others.value += sum(it not in (b"200", None) for it in told)
                if None in told:
                    ended.value += 1
                    break


def memory(process: int) -> float:
    with open(f"/proc/{process}/statm", encoding="ascii") as file:
        return int(file.read().split()[1]) * os.sysconf("SC_PAGE_SIZE") / (1 << 20)


def main() -> None:
    port, process, seconds = map(int, sys.argv[1:4])
    start = time.time()
    counts = [[multiprocessing.Value("q", 0, lock=False) for _ in range(3)] for _ in range(2)]
    clients = [multiprocessing.Process(target=client, args=(port, seed, start + seconds, *each)) for seed, each in enumerate(counts)]
    for it in clients:
        it.start()
    last, before, wrong = start, 0, 0
    while any(it.is_alive() for it in clients):
        clients[0].join(min(60, max(1, start + seconds - time.time())))
        clients[1].join(1)
        answered, wrong, ended = (sum(each[at].value for each in counts) for at in range(3))
        now = time.time()
        speed = f"{now - start:6.0f} s {(answered - before) / (now - last):8.0f} a second {memory(process):8.1f} MiB"
        print(f"{speed}, {answered} answers, {wrong} no 200, {ended} connections ended", flush=True)
        last, before = now, answered
    sys.exit(wrong > 0 or any(it.exitcode for it in clients))


main()
