"""The edge by deploy/haproxy.cfg towards its server: what it asks again and what never, when it closes, how long it waits, and
whether it is up.

A scripted server stands for the real one, but in the last two tests.
"""

from __future__ import annotations

import json
import os
import re
import shutil
import time
from collections import Counter
from collections.abc import Callable, Iterator
from concurrent.futures import ThreadPoolExecutor
from contextlib import contextmanager
from http.client import HTTPConnection
from pathlib import Path
from urllib.error import HTTPError
from urllib.request import urlopen

import pytest

from served import free_port, served, token
from stack import Edge, Stack, edge_before, status_at
from worker import Asked, reply, working

READS = [("GET", "/tables"), ("GET", "/audit"), ("POST", "/label")] + [
    ("POST", f"/tables/geo.trips/{it}") for it in ("get", "scan", "count", "grid", "plan")
]
CHANGES = [
    ("POST", "/tables/geo.trips/put"),
    ("POST", "/tables/get/delete"),
    ("POST", "/tables"),
    ("POST", "/users/scan/grant"),
    ("POST", "/users/ann/token"),
    ("DELETE", "/tables/scan"),
    ("DELETE", "/users/label"),
]


def until(holds: Callable[[], bool]) -> None:
    """Waits until something holds."""
    end = time.monotonic() + 10
    while not holds():
        assert time.monotonic() < end
        time.sleep(0.05)


@contextmanager
def edge_that_is_cut(folder: Path, method: str, path: str, reused: bool) -> Iterator[tuple[Edge, list[Asked]]]:
    """An edge whose server ends its connection at the first of these requests, and answers each other; and what it was asked.

    Where the connection is reused, it has served a request before.
    """
    wanted = f"{method} {path} HTTP/1.1"
    cuts = [True]

    def answer(asked: Asked) -> bytes | None:
        return None if asked.line == wanted and cuts and cuts.pop() else reply(200)

    with working(answer) as worker, edge_before(folder, worker.port) as edge:
        if reused:
            assert edge.ask("GET", "/whoami") == 200
        yield edge, worker.asked


@pytest.fixture(params=[False, True], ids=["new", "reused"])
def reused(request: pytest.FixtureRequest) -> bool:
    """Whether the connection to the server has served a request before."""
    return bool(request.param)


@pytest.mark.parametrize(("method", "path"), READS)
def test_read_that_is_cut_off_is_asked_again(tmp_path: Path, method: str, path: str, reused: bool) -> None:
    with edge_that_is_cut(tmp_path, method, path, reused) as (edge, asked):
        assert edge.ask(method, path) == 200
        assert [it.line for it in asked].count(f"{method} {path} HTTP/1.1") == 2


@pytest.mark.parametrize(("method", "path"), CHANGES)
def test_change_that_is_cut_off_is_not_sent_twice(tmp_path: Path, method: str, path: str, reused: bool) -> None:
    with edge_that_is_cut(tmp_path, method, path, reused) as (edge, asked):
        assert edge.ask(method, path) == 502
        assert [it.line for it in asked].count(f"{method} {path} HTTP/1.1") == 1


def test_change_that_is_cut_off_on_a_kept_connection_is_not_sent_twice(tmp_path: Path) -> None:
    with edge_that_is_cut(tmp_path, "POST", "/tables", True) as (edge, asked):
        client = HTTPConnection("127.0.0.1", edge.port, timeout=20)
        for method, path, status in (("GET", "/whoami", 200), ("POST", "/tables", 502)):
            client.request(method, path, "{}" if method == "POST" else None)
            reply_to_it = client.getresponse()
            reply_to_it.read()
            assert reply_to_it.status == status
        client.close()
        assert [it.line for it in asked].count("POST /tables HTTP/1.1") == 1


def test_change_waits_for_a_server_that_is_not_there_yet(tmp_path: Path) -> None:
    """Where no connection was made, nothing was sent."""
    port = free_port()
    with edge_before(tmp_path, port) as edge, ThreadPoolExecutor() as pool:
        status = pool.submit(edge.ask, "POST", "/tables/geo.trips/put")
        time.sleep(0.5)
        assert not status.done()
        with working(lambda _: reply(200), port) as worker:
            assert status.result(20) == 200
            assert [it.line for it in worker.asked].count("POST /tables/geo.trips/put HTTP/1.1") == 1


def test_edge_ends_its_connections_itself_and_keeps_its_clients(tmp_path: Path) -> None:
    """By telling the server with the last request of one: one in a thousand, and here one in ten."""
    with working(lambda _: reply(200)) as worker, edge_before(tmp_path, worker.port, {r"rand\(1000\)": "rand(10)"}) as edge:
        client = HTTPConnection("127.0.0.1", edge.port, timeout=20)
        client.connect()
        first = client.sock
        for _ in range(500):
            client.request("POST", "/tables/geo.trips/put", "{}")
            reply_to_it = client.getresponse()
            assert (reply_to_it.status, reply_to_it.read()) == (200, b"{}")
        assert client.sock is first
        client.close()
        puts = [it for it in worker.asked if it.line.startswith("POST")]
        assert len(puts) == 500
        assert max(Counter(it.connection for it in puts).values()) < 200
        assert 20 < sum(it.closes for it in puts) < 100


def test_long_change_is_waited_for(tmp_path: Path) -> None:
    """With each limit of time a hundredth of what it is: a change that takes longer than all others but the server's own."""

    def answer(asked: Asked) -> bytes | None:
        if asked.line.startswith("POST"):
            time.sleep(2)
        return reply(200)

    shorter = {r"timeout (?!connect|check)(.*) (\d+)s": r"timeout \1 \g<2>0ms", "timeout server 10m": "timeout server 6s"}
    with working(answer) as worker, edge_before(tmp_path, worker.port, shorter) as edge:
        assert edge.ask("POST", "/tables/geo.trips/period") == 200


def test_edge_tells_whether_its_server_answers(tmp_path: Path) -> None:
    port = free_port()
    often = {"inter 5s": "inter 100ms", "timeout check 10s": "timeout check 1s", "retries 3": "retries 0"}
    with edge_before(tmp_path, port, often) as edge:
        until(lambda: not edge.is_up())
        with working(lambda asked: reply(404 if asked.line == "GET /health HTTP/1.1" else 200), port):
            until(edge.is_up)
        until(lambda: not edge.is_up())


def test_each_put_is_made_once_over_connections_that_end(tmp_path: Path) -> None:
    """By 16 clients who keep their connections, where one request in ten is the last of a connection to the real server."""
    head = {"Authorization": f"Bearer {token('root')}"}
    with served() as port, edge_before(tmp_path, port, {r"rand\(1000\)": "rand(10)"}) as edge:

        def put_often(number: int) -> None:
            client = HTTPConnection("127.0.0.1", edge.port, timeout=20)
            for at in range(60):
                row = {"id": f"r{number}.{at}", "label": "", "note": "", "point": [number, at, 0]}
                client.request("POST", "/tables/points/put", json.dumps(row), head)
                told = client.getresponse()
                assert (told.status, told.read()) == (200, b'{"ok":true}')
            client.close()

        with ThreadPoolExecutor(16) as pool:
            list(pool.map(put_often, range(16)))
        client = HTTPConnection("127.0.0.1", port, timeout=20)
        client.request("GET", "/audit", headers=head)
        changes = json.load(client.getresponse())["entries"]
        client.close()
        assert len(changes) == 16 * 60


def test_server_is_checked_without_a_token_and_without_lines_of_the_log(stack: Stack) -> None:
    is_well = re.compile(r'^haproxy_server_check_status\{proxy="health",server="edge",state="L7OK"\} 1$', re.M)

    def is_checked() -> bool:
        with urlopen(f"http://127.0.0.1:{stack.metrics}/metrics", timeout=5) as told:
            return bool(is_well.search(told.read().decode()))

    until(is_checked)
    assert status_at(stack.metrics, "GET", "/up") == 200
    assert not [it for it in stack.lines() if it["path"] == "/health"]
    with pytest.raises(HTTPError) as refused:
        urlopen(f"{stack.url}/health", timeout=5)
    with refused.value as reply_to_it:
        assert (reply_to_it.code, reply_to_it.read()) == (404, b'{"error":"route"}')


@pytest.mark.skipif(os.geteuid() != 0, reason="only root may take another account")
def test_server_is_asked_at_a_socket_that_the_group_of_the_edge_may_use(tmp_path: Path) -> None:
    """By HAProxy as another account, shut into the folder of the sockets, where no other place is named."""
    tmp_path.chmod(0o755)
    place = tmp_path / "served.sock"
    with working(lambda _: reply(200), place):
        place.chmod(0o660)
        shutil.chown(place, group="haproxy")
        with edge_before(tmp_path, None, FASHKIIN_USER="haproxy", FASHKIIN_GROUP="haproxy") as edge:
            assert edge.ask("GET", "/whoami") == 200


def test_features_are_asked_below_their_path_at_their_socket(tmp_path: Path) -> None:
    with working(lambda _: reply(200)) as worker, edge_before(tmp_path, worker.port) as edge:
        assert edge.ask("GET", "/features/conformance") == 502
        with working(lambda _: reply(200), tmp_path / "features/socket") as features:
            for path, is_there in (("/features", True), ("/features/conformance?f=json", True), ("/featuresx", False)):
                assert edge.ask("GET", path) == 200
                assert (f"GET {path} HTTP/1.1" in {it.line for it in features.asked}) == is_there


def test_statistics_for_people(stack: Stack) -> None:
    with urlopen(f"http://127.0.0.1:{stack.metrics}/stats", timeout=5) as told:
        page = told.read().decode()
    assert re.findall(r'<a name="(\w+)/(?:st_served|nginx|edge)"', page) == ["page", "features", "buffer", "served", "health"]
