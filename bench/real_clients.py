#!/usr/bin/env python3
"""Real clients of the built st_served, straight and through the edge of deploy/haproxy.cfg, as tables in Markdown.

    real_clients.py [WORKERS]

64 workers where it is left out. Each client that is on this machine asks in four ways, in two minutes together:

- kept: five puts, one after another, that are to go over one connection (RFC 9112, 9.3);
- expected: a put with `Expect: 100-continue`, to which a server says 100 or its final status at once (RFC 9110, 10.1.1);
- chunked: a put whose length is not told, which is refused by 411 (RFC 9110, 15.5.12; docs/API.md, "Refusals");
- together: twenty puts at once, each answered.

Straight, the server takes no more connections than the client is to open (`--connections`); through the edge they are counted by
the ports of clients in its log. How many puts were made is counted in `GET /audit`. It ends with status 1 where a cell of the
tables is WRONG. Run it with /usr/bin/python3.
"""
from __future__ import annotations

import json
import re
import shutil
import subprocess
import sys
import tempfile
import time
from collections.abc import Callable
from concurrent.futures import ThreadPoolExecutor
from dataclasses import dataclass
from functools import partial
from http.client import HTTPConnection
from pathlib import Path

TOP = Path(__file__).resolve().parent.parent
for folder in ("tests", "clients/map/tests"):
    sys.path.insert(0, str(TOP / folder))

from client_words import CLIENTS, Client, Kind, Put  # noqa: E402
from served import served, token  # noqa: E402
from stack import edge_before  # noqa: E402

LIMIT = 5  # seconds that a server gives a client of its own, so that one that waits for good is seen
ROW = '{"id":"q","point":[1,2,3],"label":"","note":""}'
OK = '{"ok":true}'
REFUSED = '{"error":"length"}'
NOTES = """
HTTP/1.0: the server ends such a connection after each answer (docs/API.md).
`wrk` takes a 100 for an answer, so that it may put a second time; RFC 9110, 15.2, asks clients to pass over it."""


@dataclass(frozen=True)
class Told:
    """What a client told: the statuses and the bodies of its replies, the seconds that it took, and why it got no more."""

    statuses: list[int]
    bodies: list[str]
    seconds: float
    fault: str


@dataclass(frozen=True)
class Seen:
    """What a client told, and how many puts were made of it (None: nobody is left to ask)."""

    told: Told
    made: int | None
    over: str  # how many connections it took, in words, where that was seen
    too_many: bool  # whether these are more than it opens for five puts
    at_edge: bool


def version(client: Client) -> str | None:
    """The version of a client; None where it is not on this machine."""
    if not shutil.which(client.about[0]):
        return None
    told = subprocess.run(client.about, capture_output=True, text=True, timeout=60)
    found = re.search(r"\d+\.\d[\d.]*", told.stdout)
    return found[0] if found else None


def run(words: list[str]) -> str:
    """All that a command tells; one that does not end is ended."""
    try:
        told = subprocess.run(words, capture_output=True, text=True, timeout=60)
    except subprocess.TimeoutExpired:
        return "fault it did not end\n"
    return told.stdout + told.stderr


def told_by(client: Client, put: Put) -> Told:
    """Lets a client ask."""
    begin = time.monotonic()
    with ThreadPoolExecutor(20) as pool:
        times = client.at_once if put.kind is Kind.TOGETHER else 1
        text = "".join(pool.map(run, [client.words(put)] * times))
    took = re.search(r"^seconds ([\d.]+)", text, re.M)
    fault = re.search(r"^(?:fault|curl: \(\d+\)|apr_\w+:) *(.*)", text, re.M)
    statuses = [int(it) for it in re.findall(r"HTTP/1\.[01] (\d{3})", text)]
    seconds = float(took[1]) if took else time.monotonic() - begin
    return Told(statuses, re.findall(r'\{"[^{}]*\}', text), seconds, fault[1] if fault else "")


def puts_made(port: int) -> int:
    """How many puts the server lists."""
    connection = HTTPConnection("127.0.0.1", port, timeout=30)
    connection.request("GET", "/audit", headers={"Authorization": f"Bearer {token('root')}"})
    entries = json.load(connection.getresponse())["entries"]
    connection.close()
    return sum((it["request"], it["result"]) == ("put", 0) for it in entries)


def ports_in(log: Path) -> set[str]:
    """The ports of the clients in the edge's log."""
    time.sleep(0.3)  # until it is written
    return {json.loads(it)["client"] for it in log.read_text().splitlines() if it.startswith("{")}


def put_at(folder: Path, kind: Kind, port: int) -> Put:
    """A put of a row; for a chunked upload the same in 60,000 bytes."""
    file = folder / "row"
    file.write_text(ROW.ljust(60_000) if kind is Kind.CHUNKED else ROW)
    return Put(kind, f"http://127.0.0.1:{port}/tables/points/put", str(file))


def few(number: int) -> str:
    return f"{number} connection{'s' * (number != 1)}"


Asks = Callable[[Path, Client, Kind], Seen]


def straight(workers: int, folder: Path, client: Client, kind: Kind) -> Seen:
    """Lets a client ask a server of its own."""
    if kind is Kind.KEPT:
        number = str(client.connections)
        with served("--connections", number, "--workers", number) as port:
            told = told_by(client, put_at(folder, kind, port))
            return Seen(told, None, f" over {'at most ' * (number != '1')}{few(client.connections)}", False, False)
    with served("--workers", str(workers), "--timeout", str(LIMIT)) as port:
        told = told_by(client, put_at(folder, kind, port))
        return Seen(told, puts_made(port), "", False, False)


def through_the_edge(workers: int, folder: Path, client: Client, kind: Kind) -> Seen:
    """Lets a client ask an edge of its own, whose log has the client's ports too."""
    changes = {r"%ci": "%ci:%cp", r"maxconn 64 pool-max-conn 64": f"maxconn {workers} pool-max-conn {workers}"}
    with served("--workers", str(workers)) as port, edge_before(folder, port, changes) as edge:
        told = told_by(client, put_at(folder, kind, edge.port))
        number = len(ports_in(folder / "haproxy.log"))
        return Seen(told, puts_made(port), f" over {few(number)}", number > client.connections, True)


def many(seen: Seen, wanted: int) -> str:
    """How many of the replies were right, and what else there was."""
    told = seen.told
    others = sorted({it for it in told.statuses if it != 200})
    right = min(told.statuses.count(200), told.bodies.count(OK))
    more = [f"also {others}"] * bool(others) + [told.fault] * bool(told.fault)
    return "; ".join([f"{right} of {wanted}{seen.over}", *more])


def kept(client: Client, seen: Seen) -> tuple[str, bool]:
    """Five answers; of HTTP/1.0, whose connections the server ends (docs/API.md), one, or five of the edge."""
    answers, text = seen.told.bodies.count(OK), many(seen, 5)
    right = seen.made in (None, answers) and not seen.too_many
    if client.keeps:
        return text, right and answers == 5 and seen.told.statuses == [200] * 5
    return f"{text} (HTTP/1.0)", right and answers == (5 if seen.at_edge else 1)


def is_number(client: Client, made: int | None, wanted: int) -> bool:
    """Whether so many puts were made; of a client that may put more often, no fewer and at most twice as many."""
    return made == wanted or (made is not None and client.more and wanted < made <= 2 * wanted)


def expected(client: Client, seen: Seen) -> tuple[str, bool]:
    """A 100 and then 200, and one put. A client need not wait for the 100; one that does gets it at once."""
    told = seen.told
    waited = client.waits and told.seconds >= 1 and 100 not in told.statuses
    steps = ", then ".join(str(it) for it in told.statuses) or told.fault or "nothing"
    right = not waited
    if told.statuses[-1:] == [200]:
        right &= told.bodies == [OK] and is_number(client, seen.made, 1)
    else:
        right &= seen.made == 0 and told.fault != ""
    more = f", {seen.made} puts" * (seen.made not in (0, 1))
    return f"{steps} in {told.seconds:.2f} s{more}", right


def chunked(_: Client, seen: Seen) -> tuple[str, bool]:
    """The refusal, whole, and no put."""
    told = seen.told
    text = " ".join([*map(str, told.statuses), *(f"`{it}`" for it in told.bodies), told.fault])
    return text.strip(), (told.statuses, told.bodies, told.fault, seen.made) == ([411], [REFUSED], "", 0)


def together(client: Client, seen: Seen) -> tuple[str, bool]:
    """Twenty answers, each of a put."""
    right = seen.told.statuses == [200] * 20 and seen.told.bodies == [OK] * 20
    return many(seen, 20), right and is_number(client, seen.made, 20)


JUDGES = {Kind.KEPT: kept, Kind.EXPECTED: expected, Kind.CHUNKED: chunked, Kind.TOGETHER: together}


def cell(client: Client, kind: Kind, ask: Asks) -> tuple[str, bool]:
    """What is written of a client's way to ask, and whether it is as it is to be."""
    if kind in client.lacks:
        return "it has none", True
    with tempfile.TemporaryDirectory() as folder:
        text, right = JUDGES[kind](client, ask(Path(folder), client, kind))
    return text if right else f"WRONG: {text}", right


def table(title: str, ask: Asks) -> bool:
    """Prints the table of one way to the server; whether all of it is as it is to be."""
    print(f"\n{title}\n")
    print("| Client | Five puts, one connection | `Expect: 100-continue` | Chunked upload | Twenty puts at once |\n|---|---|---|---|---|")
    right = True
    for client in CLIENTS:
        number = version(client)
        cells = [cell(client, kind, ask) for kind in Kind] if number else [("not on this machine", True)]
        right &= all(holds for _, holds in cells)
        print("|", " | ".join([f"{client.name} {number or ''}".strip(), *(text for text, _ in cells)]), "|", flush=True)
    return right


def main() -> None:
    workers = int(sys.argv[1]) if len(sys.argv) > 1 else 64
    right = table(f"Straight to st_served with {workers} workers and a --timeout of {LIMIT} seconds:", partial(straight, workers))
    if shutil.which("haproxy"):
        right &= table(f"Through the edge, before st_served with {workers} workers:", partial(through_the_edge, workers))
    else:
        print("\nThere is no haproxy on this machine, so nothing went through the edge.")
    print(NOTES)
    sys.exit(not right)


if __name__ == "__main__":
    main()
