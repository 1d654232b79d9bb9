"""What strangers and users try at the edge by deploy/ against everybody else: to hold the workers, the connections, the memory.

Each comes from other addresses than the user who is to be served meanwhile. Where replies are long, a scripted server gives them.
"""

from __future__ import annotations

import itertools
import json
import os
import pwd
import select
import socket
import threading
import time
from collections import Counter
from collections.abc import Iterator
from contextlib import ExitStack, contextmanager, suppress
from pathlib import Path

import pytest

from attackers import address, connected, head, silent, streams
from served import token
from stack import Edge, Stack, edge_before, status_at
from worker import Asked, Worker, reply, working

PAGE = reply(200, "x" * 4_000_000)
SCAN = "/tables/geo.trips/scan"
WORKERS = 64


def answer(asked: Asked) -> bytes:
    """A reply of 4 MB to a scan, and a short one to others."""
    return PAGE if SCAN in asked.line else reply(200)


def told(client: socket.socket) -> bytes:
    """The first line of the reply, or nothing where the connection was ended without one."""
    try:
        return client.recv(65_536).split(b"\r\n")[0]
    except ConnectionError:
        return b""


def is_served(port: int) -> bool:
    """Whether another user's request is answered within two seconds, five times."""
    for _ in range(5):
        with socket.create_connection(("127.0.0.1", port), 2) as client:
            client.sendall(head("GET", "/whoami", token("root")))
            if not told(client).startswith(b"HTTP/1.1 200 "):
                return False
    return True


@contextmanager
def waiting(folder: Path, changes: dict[str, str] | None = None) -> Iterator[tuple[Edge, Worker]]:
    """An edge before a server that answers GET alone at once, and others once the context ends."""
    held = threading.Event()

    def answer_later(asked: Asked) -> bytes:
        if not asked.line.startswith("GET"):
            held.wait(30)
        return reply(200)

    with working(answer_later) as worker, edge_before(folder, worker.port, changes) as edge:
        try:
            yield edge, worker
        finally:
            held.set()


def statuses(clients: list[socket.socket], number: int) -> Counter[bytes]:
    """The first lines of that many replies, which are those that do not wait."""
    found: Counter[bytes] = Counter()
    end = time.monotonic() + 10
    while sum(found.values()) < number and time.monotonic() < end:
        ready, _, _ = select.select(clients, [], [], 1)
        found += Counter(told(it) for it in ready)
        clients = [it for it in clients if it not in ready]
    return found


def test_streams_with_a_window_of_0_hold_no_worker(stack: Stack) -> None:
    with streams(stack.tls, 5, "GET", "/whoami") as asked:
        time.sleep(0.5)
        assert asked > 2 * WORKERS
        assert is_served(stack.edge)


def test_http_2_without_tls_is_refused(stack: Stack) -> None:
    with socket.create_connection(("127.0.0.1", stack.edge), 10) as client:
        client.sendall(b"PRI * HTTP/2.0\r\n\r\nSM\r\n\r\n\0\0\0\4\0\0\0\0\0")
        assert told(client).startswith(b"HTTP/1.1 400 ")


def test_replies_that_are_not_taken_hold_no_worker(tmp_path: Path) -> None:
    """Those of 4 MB to 50 users who read nothing, each from an address of its own with four connections."""
    number = 200
    requests = [head("POST", SCAN, token(f"user{it // 4}")) for it in range(number)]
    with working(answer) as worker, edge_before(tmp_path, worker.port) as edge:
        with silent(edge.port, requests, [address(it // 4) for it in range(number)]):
            end = time.monotonic() + 30
            while worker.taken < number and time.monotonic() < end:
                time.sleep(0.1)
            assert worker.taken >= number
            assert is_served(edge.port)


def test_one_address_has_200_connections(stack: Stack) -> None:
    with ExitStack() as opened:
        clients = []
        for _ in range(260):
            with suppress(ConnectionError):  # ended before its first byte
                clients.append(opened.enter_context(connected(stack.edge, address(1_000))))
        ended = len(clients) - 200
        assert statuses(clients, ended) == ({b"": ended} if ended else {})
        assert is_served(stack.edge)


def test_filled_edge_still_tells_its_numbers(tmp_path: Path) -> None:
    """And whether its server answers, which it asks beside its clients."""
    fewer = {"maxconn 5000": "maxconn 50", "fe_conn gt 2500": "fe_conn gt 5000", "inter 5s": "inter 200ms", "check 10s": "check 1s"}
    with ExitStack() as opened:
        worker = opened.enter_context(working(lambda asked: reply(404 if "/health" in asked.line else 200)))
        edge = opened.enter_context(edge_before(tmp_path, worker.port, fewer))
        for _ in range(100):
            opened.enter_context(connected(edge.port, address(0)))
        time.sleep(2)
        assert edge.is_up()
        assert status_at(edge.metrics, "GET", "/metrics") == 200


@pytest.mark.skipif(os.geteuid() != 0, reason="only root may take another account")
def test_haproxy_gives_up_its_rights(tmp_path: Path) -> None:
    """It runs as another user, shut into the folder of the sockets, and reaches nginx and its own queue from there."""
    tmp_path.chmod(0o755)
    with ExitStack() as opened:
        worker = opened.enter_context(working(lambda _: reply(200)))
        edge = opened.enter_context(edge_before(tmp_path, worker.port, FASHKIIN_USER="haproxy", FASHKIIN_GROUP="haproxy"))
        assert edge.ask("GET", "/whoami") == 200
        process = Path(f"/proc/{edge.haproxy}")
        assert (process / "root").readlink() == tmp_path
        assert process.stat().st_uid == pwd.getpwnam("haproxy").pw_uid


def test_no_port_is_left_where_another_account_could_listen(tmp_path: Path) -> None:
    """HAProxy listens at those for clients and numbers, and nginx at none."""
    with working(lambda _: reply(200)) as worker, edge_before(tmp_path, worker.port) as edge:
        assert listening(edge.haproxy) == {edge.port, edge.metrics}
        assert listening(int((tmp_path / "nginx/pid").read_text())) == set()


def links(folder: Path) -> Iterator[str]:
    """Where the links of a folder lead. Those that go meanwhile are left out."""
    for link in folder.iterdir():
        with suppress(FileNotFoundError):
            yield os.readlink(link)


def listening(process: int) -> set[int]:
    """The ports of TCP at which a process listens."""
    files = set(links(Path(f"/proc/{process}/fd")))
    rows = [line.split() for table in ("tcp", "tcp6") for line in Path(f"/proc/net/{table}").read_text().splitlines()[1:]]
    return {int(it[1].rpartition(":")[2], 16) for it in rows if it[3] == "0A" and f"socket:[{it[9]}]" in files}


def test_one_token_has_32_long_requests_at_a_time(tmp_path: Path) -> None:
    """From 40 addresses, and however it is written. Whoever claims its name with another secret takes none of them."""
    ways = (f"Bearer {token('ann')}", f"bearer   {token('ann')}", f"Bearer ann.{token('ann')[4:].upper()}")
    requests = [head("POST", SCAN, more=f"Authorization: {ways[it % 3]}\r\n") for it in range(40)]
    false = [head("POST", SCAN, "ann." + "0" * 64)] * 20
    with waiting(tmp_path) as (edge, _), silent(edge.port, false, [address(it) for it in range(20)]):
        with silent(edge.port, requests, [address(it) for it in range(100, 140)]) as clients:
            assert statuses(clients, 8) == {b"HTTP/1.1 429 Too Many Requests": 8}
            assert is_served(edge.port)


def test_one_address_has_400_requests_at_a_time(tmp_path: Path) -> None:
    """Of which 30 stand for 400 here, so that they leave workers to others."""
    requests = [head("POST", "/tables/geo.trips/count", token(f"user{it}")) for it in range(40)]
    fewer = {"sc1_conn_cur gt 400": "sc1_conn_cur gt 30"}
    with waiting(tmp_path, fewer) as (edge, _), silent(edge.port, requests, [address(0)] * 40) as clients:
        assert statuses(clients, 10) == {b"HTTP/1.1 429 Too Many Requests": 10}
        with silent(edge.port, [head("GET", "/whoami")], [address(1)]) as others:
            assert statuses(others, 1) == {b"HTTP/1.1 200 Said": 1}


def test_each_address_has_4_requests_once_many_are_under_way(tmp_path: Path) -> None:
    """Where 2,000 are many, and here 20."""
    requests = [head("POST", "/tables/geo.trips/count", token(f"user{it}")) for it in range(30)]
    with waiting(tmp_path, {"int ge 2000": "int ge 20"}) as (edge, _):
        with silent(edge.port, requests, [address(0)] * 30) as clients:
            refused = statuses(clients, 10)
            assert refused in ({b"HTTP/1.1 429 Too Many Requests": it} for it in (10, 11))  # the edge's own check may be under way
            with silent(edge.port, [head("GET", "/whoami")], [address(1)]) as others:
                assert statuses(others, 1) == {b"HTTP/1.1 200 Said": 1}


def test_user_with_few_requests_comes_before_one_with_many(tmp_path: Path) -> None:
    """In the queue before two connections, which a user with 20 requests has filled."""
    def answer_slowly(asked: Asked) -> bytes:
        if asked.line.startswith("POST"):
            time.sleep(0.2)
        return reply(200)

    requests = [head("POST", "/tables/geo.trips/count", token("ann"))] * 20
    few = {"maxconn 64 pool-max-conn 64": "maxconn 2 pool-max-conn 2"}
    with working(answer_slowly) as worker, edge_before(tmp_path, worker.port, few) as edge:
        with silent(edge.port, requests, [address(it) for it in range(20)]):
            time.sleep(0.2)
            begin = time.monotonic()
            assert edge.ask("GET", "/whoami") == 200
            assert time.monotonic() - begin < 1


@pytest.mark.parametrize(("padding", "status"), [(7_900, None), (8_300, 431), (14_000, 431), (15_500, 400)])
def test_request_that_has_not_come_whole_reaches_no_worker(tmp_path: Path, padding: int, status: int | None) -> None:
    """Whatever the length of its head, with a body that lacks its last byte."""
    request = head("POST", "/label", token("ann"), 65_536, f"X-Padding: {'x' * padding}\r\n") + b" " * 65_535
    with working(lambda _: reply(200)) as worker, edge_before(tmp_path, worker.port) as edge:
        with socket.create_connection(("127.0.0.1", edge.port), 10) as client:
            with suppress(ConnectionError):
                client.sendall(request)
            if status is None:
                time.sleep(0.5)
            else:
                assert told(client).split()[1] == str(status).encode()
            assert b"/label" not in worker.bytes


def test_streams_that_stall_take_little_memory(tmp_path: Path) -> None:
    """Those of ten connections that ask for 4 MB each."""
    with working(answer) as worker, edge_before(tmp_path, worker.port, tls=True) as edge:
        before = memory(edge.haproxy)
        with streams(edge.tls, 10, "POST", SCAN, token("ann"), b" " * 500) as asked:
            assert asked >= 320
            time.sleep(1)
            assert memory(edge.haproxy) - before < 14


def memory(process: int) -> int:
    """The memory of a process in MB."""
    return int(Path(f"/proc/{process}/statm").read_text().split()[1]) * os.sysconf("SC_PAGE_SIZE") >> 20


SMUGGLED = b"GET /smuggled HTTP/1.1\r\nHost: x\r\n\r\n"
# Fields that one reader may take for a body in chunks, for another length or for the edge's own, and another may not.
ODD_FIELDS = [
    "Transfer-Encoding: chunked", "Transfer-Encoding : chunked", "Transfer-Encoding:\x0bchunked", "Transfer-Encoding: xchunked",
    "Transfer-Encoding: chunked, identity", "Transfer-Encoding: x\r\nTransfer-Encoding: chunked", "transfer_encoding: chunked",
    "X: y\r\n Transfer-Encoding: chunked", "X: y\nTransfer-Encoding: chunked", "Connection: Content-Length",
    "X-Asked-Target: /smuggled\r\nX-Asked-Method: GET", "Connection: X-Asked-Target", "Expect: 100-continue, x",
]
LENGTHS = ["", "Content-Length: {}", "Content-Length: 0", "Content-Length: {}\r\nContent-Length: 0", "Content-Length: +{}"]


def test_server_is_asked_nothing_that_the_edge_has_not_logged(tmp_path: Path) -> None:
    """By requests whose end two readers may see at two places, each before another one on its connection."""
    with working(lambda _: reply(200)) as worker, edge_before(tmp_path, worker.port) as edge:
        for field, length, before in itertools.product(ODD_FIELDS, LENGTHS, (b"", b"0\r\n\r\n")):
            fields = "\r\n".join(it for it in (field, length.format(len(before + SMUGGLED))) if it)
            request = f"POST /label HTTP/1.1\r\nHost: x\r\n{fields}\r\n\r\n".encode() + before + SMUGGLED
            with socket.create_connection(("127.0.0.1", edge.port), 10) as client, suppress(OSError):
                client.settimeout(0.02)
                client.sendall(request + b"GET /whoami HTTP/1.1\r\nHost: x\r\nConnection: close\r\n\r\n")
                while client.recv(65_536):
                    pass
        assert edge.ask("GET", "/tables") == 200
        time.sleep(0.5)
        asked = Counter(it.line.removesuffix(" HTTP/1.1") for it in worker.asked if "/health" not in it.line)
        lines = [json.loads(it) for it in (tmp_path / "haproxy.log").read_text().splitlines() if it[0] == "{"]
        assert asked == Counter(f"{line['method']} {line['path']}" for line in lines if line["server_ms"] >= 0)
        assert asked["POST /label"] > 20
        assert b"x-asked" not in worker.bytes.lower()
