"""What a client may do to the built `st_served`, and what the machine may refuse it: accepting goes on, and no end is a reset."""
import http.client
import json
import os
import resource
import socket
import subprocess
import time
from pathlib import Path

from served import served, serving, token

SHORT = b"st_served: no file or memory for a connection: waiting\n"
AGAIN = b"st_served: accepting again\n"


def asking(port: int) -> socket.socket:
    """A connection on which root has asked who it is, and nothing more."""
    client = socket.create_connection(("127.0.0.1", port), timeout=10)
    head = f"GET /whoami HTTP/1.1\r\nHost: a\r\nAuthorization: Bearer {token('root')}\r\nConnection: close\r\n\r\n"
    client.sendall(head.encode())
    return client


def received(client: socket.socket) -> bytes:
    """All that a server sends until it ends the connection; a reset is an error."""
    with client:
        return b"".join(iter(lambda: client.recv(65536), b""))


def test_accepting_goes_on_after_files_ran_out() -> None:
    with serving(stderr=subprocess.PIPE) as server:
        number, faults = server.process.pid, server.process.stderr
        assert faults is not None
        before = resource.prlimit(number, resource.RLIMIT_NOFILE)
        in_use = len(os.listdir(f"/proc/{number}/fd"))
        resource.prlimit(number, resource.RLIMIT_NOFILE, (in_use, before[1]))
        clients = [asking(server.port) for _ in range(20)]
        assert faults.readline() == SHORT
        time.sleep(0.2)
        resource.prlimit(number, resource.RLIMIT_NOFILE, before)
        assert all(received(client).startswith(b"HTTP/1.1 200 ") for client in clients)
        assert faults.readline() == AGAIN


def test_a_slow_body_that_is_too_long_is_answered_and_read_whole() -> None:
    with served() as port:
        connection = http.client.HTTPConnection("127.0.0.1", port, timeout=10)
        connection.putrequest("POST", "/tables/points/put")
        connection.putheader("Authorization", f"Bearer {token('root')}")
        connection.putheader("Content-Length", "1000000")
        connection.endheaders()
        for _ in range(50):
            connection.send(bytes(20_000))
            time.sleep(0.02)
        assert connection.getresponse().status == 413


def test_curl_gets_the_answer_to_a_slow_body_that_is_too_long(tmp_path: Path) -> None:
    body = tmp_path / "body"
    body.write_bytes(bytes(1_000_000))
    with served() as port:
        url = f"http://127.0.0.1:{port}/tables/points/put"
        words = ["curl", "-s", "-S", "--limit-rate", "1M", "-H", "Expect:", "-w", " %{http_code}", "--data-binary", f"@{body}", url]
        told = subprocess.run(words, capture_output=True, text=True, timeout=30)
    assert (told.returncode, told.stdout, told.stderr) == (0, '{"error":"size"} 413', "")


def test_a_client_that_is_too_slow_is_parted_from_without_a_reset() -> None:
    with served("--timeout", "1") as port:
        client = socket.create_connection(("127.0.0.1", port), timeout=10)
        client.sendall(b"GET /whoami HTTP/1.1\r\n")
        time.sleep(1.5)
        client.sendall(b"Host: a\r\n\r\n")
        assert received(client) == b""


def put_of(note: str) -> bytes:
    """The body of a put of one row with this note."""
    return json.dumps({"id": "p", "label": "", "note": note, "point": [1, 2, 3]}).encode()


def test_curl_loses_no_second_where_it_waits_with_a_body(tmp_path: Path) -> None:
    body = tmp_path / "body"
    body.write_bytes(b"{}".ljust(2_000))
    with served() as port:
        url = f"http://127.0.0.1:{port}/tables/points/put"
        form = " %{http_code} %{time_total}"
        words = ["curl", "-s", "-S", "--expect100-timeout", "5", "-H", "Expect: 100-continue", "-w", form, "--data-binary", f"@{body}", url]
        told = subprocess.run(words, capture_output=True, text=True, timeout=30)
    answer, status, seconds = told.stdout.split()
    assert (told.returncode, answer, status, told.stderr) == (0, '{"error":"token"}', "401", "")
    assert float(seconds) < 1


def test_a_body_is_awaited_aloud_once_before_the_reply() -> None:
    body = put_of("n" * 100)
    with served() as port:
        connection = http.client.HTTPConnection("127.0.0.1", port, timeout=10)
        connection.putrequest("POST", "/tables/points/put")
        connection.putheader("Authorization", f"Bearer {token('root')}")
        connection.putheader("Content-Length", str(len(body)))
        connection.putheader("Expect", "100-continue")
        connection.endheaders()
        assert connection.sock.recv(1_000) == b"HTTP/1.1 100 Continue\r\n\r\n"
        connection.send(body)
        reply = connection.getresponse()
        assert (reply.status, reply.read()) == (200, b'{"ok":true}')


def test_a_body_that_comes_with_its_head_is_awaited_aloud_too() -> None:
    body = put_of("n")
    with served() as port:
        client = socket.create_connection(("127.0.0.1", port), timeout=10)
        head = f"POST /tables/points/put HTTP/1.1\r\nHost: a\r\nAuthorization: Bearer {token('root')}\r\nExpect: 100-continue\r\n"
        client.sendall(f"{head}Connection: close\r\nContent-Length: {len(body)}\r\n\r\n".encode() + body)
        told, reply = received(client).split(b"\r\n\r\n", 1)
    assert told == b"HTTP/1.1 100 Continue"
    assert reply.startswith(b"HTTP/1.1 200 OK\r\n") and reply.endswith(b'{"ok":true}')
