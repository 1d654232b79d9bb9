#!/usr/bin/env python3
"""Clients that a server has to survive: each is ended by the time limit or by a fault of its own, and others go on.

    served_clients.py PORT SECONDS

with `st_served --timeout SECONDS` at PORT, without --connections, whose root has the secret of 32 zero bytes.
"""
from __future__ import annotations

import json
import socket
import struct
import sys
import time
from typing import Any

PORT, LIMIT = int(sys.argv[1]), float(sys.argv[2])
TOKEN = "root." + "0" * 64
ALL = [0, 2097151, 0, 2097151, 0, 19818086399]


def request(method: str, path: str, body: object = None, close: bool = False) -> bytes:
    text = json.dumps(body, separators=(",", ":")).encode() if body is not None else b""
    fields = [f"{method} {path} HTTP/1.1", "Host: points", f"Authorization: Bearer {TOKEN}", f"Content-Length: {len(text)}"]
    if close:
        fields.append("Connection: close")
    return "\r\n".join(fields).encode() + b"\r\n\r\n" + text


def connect() -> socket.socket:
    client = socket.create_connection(("127.0.0.1", PORT), timeout=30 + 2 * LIMIT)
    client.setsockopt(socket.IPPROTO_TCP, socket.TCP_NODELAY, 1)
    return client


def reply(client: socket.socket, held: bytes = b"") -> tuple[int, bytes, bytes]:
    """The status and the body of the next reply."""
    while b"\r\n\r\n" not in held:
        piece = client.recv(65536)
        if not piece:
            raise EOFError(held)
        held += piece
    head, _, rest = held.partition(b"\r\n\r\n")
    length = 0
    for line in head.split(b"\r\n")[1:]:
        name, _, value = line.partition(b":")
        if name.lower() == b"content-length":
            length = int(value)
    while len(rest) < length:
        piece = client.recv(65536)
        if not piece:
            raise EOFError(held)
        rest += piece
    return int(head.split()[1]), rest[:length], rest[length:]


def ask(client: socket.socket, method: str, path: str, body: object = None, close: bool = False) -> tuple[int, Any]:
    client.sendall(request(method, path, body, close))
    status, told, _ = reply(client)
    return status, json.loads(told)


def ends_within(client: socket.socket, low: float, high: float) -> tuple[bool, str]:
    """Whether the connection ends after so many seconds."""
    start = time.time()
    try:
        while client.recv(65536):
            pass
    except ConnectionError:
        pass
    took = time.time() - start
    return low <= took <= high, f"ended after {took:.1f} s"


def serves() -> tuple[bool, float]:
    """Whether a connection is served, and how long it takes."""
    start = time.time()
    client = connect()
    status, body = ask(client, "POST", "/tables/points/count", {"auths": [], "box": ALL}, close=True)
    client.close()
    return status == 200, time.time() - start


def stalled() -> socket.socket:
    client = connect()
    client.sendall(request("GET", "/whoami")[:40])
    return client


def unread() -> socket.socket:
    """A client that asks for more than its buffers hold, and reads none of it."""
    client = connect()
    page = request("POST", "/tables/points/scan", {"auths": [], "box": ALL, "limit": 1000})
    client.settimeout(1)
    try:
        for _ in range(400):
            client.sendall(page)
    except (TimeoutError, ConnectionError):
        pass
    client.settimeout(30 + 2 * LIMIT)
    return client


def closes_inside() -> None:
    """A client that closes while a reply comes."""
    client = connect()
    page = request("POST", "/tables/points/scan", {"auths": [], "box": ALL, "limit": 1000})
    client.sendall(page * 8)
    client.recv(100)
    client.setsockopt(socket.SOL_SOCKET, socket.SO_LINGER, struct.pack("ii", 1, 0))
    client.close()


def fill() -> None:
    client = connect()
    for number in range(300):
        row = {"id": f"r{number}", "label": "", "note": "x" * 4000, "point": [number, 0, 0]}
        status, _ = ask(client, "POST", "/tables/points/put", row)
        assert status == 200
    client.close()


def said(name: str, held: bool, more: str = "") -> bool:
    print(f"{'ok' if held else 'WRONG'}: {name} {more}", flush=True)
    return held


def main() -> None:
    right = True
    fill()
    right &= said("a client that stalls inside a message", *ends_within(stalled(), LIMIT - 0.5, LIMIT + 2))
    closes_inside()
    held, took = serves()
    right &= said("a connection beside one that closed inside a reply", held and took < LIMIT, f"{took:.2f} s")
    slow = unread()
    held, took = serves()
    right &= said("a connection beside a client that never reads", held and took < LIMIT, f"{took:.2f} s")
    time.sleep(3 * LIMIT + 2)
    right &= said("a client that never reads", *ends_within(slow, 0, 2))
    first, second = stalled(), stalled()
    held, took = serves()
    right &= said("a connection behind two that stall", held and took < LIMIT + 2, f"{took:.2f} s")
    first.close()
    second.close()
    first, second = unread(), unread()
    held, took = serves()
    right &= said("a connection behind two that never read", held and took < LIMIT + 5, f"{took:.2f} s")
    kept = connect()
    whole = all(ask(kept, "GET", "/whoami")[0] == 200 for _ in range(1000))
    right &= said("a thousand requests on one connection", whole)
    sys.exit(not right)


main()
