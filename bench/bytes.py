#!/usr/bin/env python3
"""Times requests to st_run one by one, from bytes to bytes, over the points and boxes of scan_data.py: what the server's process
takes for a count of each size of box, a page of 100 rows of the large boxes, and a put of a new row.

usage: bytes.py [ROWS]

Processor time is that of Linux's scheduler (/proc/PID/schedstat), so that a busy machine does not spoil it; it holds the reading
and the writing of a pipe. Each figure is the middle one. Build the server first: (cd crates/st_run && rt run < stdin > /dev/null).
"""
from __future__ import annotations

import os
import statistics
import subprocess
import sys

import attack

DATA = [sys.executable, str(attack.TOP / "bench/scan_data.py")]
HELD = '"auths":["A","B","D","G"]'


def lines(*words: str) -> list[str]:
    return subprocess.run([*DATA, *words], stdout=subprocess.PIPE, text=True, check=True).stdout.splitlines()


def put(line: str) -> bytes:
    row, x, y, t, label = line.split(",")
    return attack.put("points", row, label, f"{x},{y},{t}")


def fill(server: attack.Server, requests: list[bytes], each: int = 64) -> None:
    """Puts rows, so many at a time: a connection ends after a million reads."""
    for start in range(0, len(requests), each):
        batch, back = requests[start : start + each], b""
        os.write(server.to, b"".join(batch))
        while back.count(b'{"ok":true}') < len(batch):
            back += os.read(server.back, 1 << 20)


def told(server: attack.Server, requests: list[bytes]) -> float:
    """The middle one of the microseconds that requests take, all of which are answered 200."""
    found = [server.time(request) for request in requests]
    assert {status for _, _, status, _ in found} == {"200"}
    return statistics.median(processor for processor, *_ in found)


def main() -> None:
    count = int(sys.argv[1]) if len(sys.argv) > 1 else 1_000_000
    points = [put(line) for line in lines(str(count + 1_000))]
    server = attack.Server(attack.TOP / "crates/st_run/out/st_run")
    server.tell_all([attack.ask("POST /users/root/auths", f"{{{HELD}}}")])
    before = server.memory()
    fill(server, points[:count])
    print(f"{count:,} rows, {(server.memory() - before) * (1 << 20) / count:.0f} bytes a row")
    boxes = [line.split(" ") for line in lines("--boxes")]
    for share in ("0.02", "0.1", "0.4"):
        asked = [attack.ask("POST /tables/points/count", f'{{{HELD},"box":[{",".join(it)}]}}') for size, *it in boxes if size == share]
        print(f"count of a box of {share} of a side: {told(server, asked * 3):,.1f} us")
    large = [",".join(it) for size, *it in boxes if size == "0.4"]
    pages = [attack.ask("POST /tables/points/scan", f'{{{HELD},"box":[{it}],"limit":100}}') for it in large]
    print(f"page of 100 rows: {told(server, pages * 3):,.1f} us")
    print(f"put of a new row: {told(server, points[count:]):,.1f} us")
    print(f"whoami, for what any request costs: {told(server, [attack.ask('GET /whoami')] * 1_000):,.1f} us")


main()
