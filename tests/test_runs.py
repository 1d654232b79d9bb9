"""One life of each built program: the bytes that go in and come out, what it tells, how it ends; and what it refuses before it serves."""
import ctypes
import errno
import os
import socket
import stat
import subprocess
from pathlib import Path

import pytest

from served import PROGRAM as SERVED
from served import free_port, serving
from stored import PATIENCE, PROGRAMS, RUN

# The SHA-256 of 32 zero bytes, which are root's secret.
DIGEST = "66687aadf862bd776c8fc18b8e9f8e20089714856ee233b3902a591d0d5f2925"
HEAD = f"HTTP/1.1\r\nHost: a\r\nAuthorization: Bearer root.{'0' * 64}\r\n"
FIRST = f'POST /tables/points/count {HEAD}Content-Length: 54\r\n\r\n{{"auths":[],"box":[0,2097151,0,2097151,0,19818086399]}}'.encode()
PUT = f'POST /tables/points/put {HEAD}Content-Length: 48\r\n\r\n{{"id":"p","label":"A","note":"","point":[1,2,3]}}'.encode()
LAST_BODY = b'{"auths":["A"],"box":[0,2097151,0,2097151,0,19818086399]}'
LAST = f"POST /tables/points/count {HEAD}Content-Length: 57\r\n\r\n".encode() + LAST_BODY
LAST_OF_ALL = f"POST /tables/points/count {HEAD}Content-Length: 57\r\nConnection: close\r\n\r\n".encode() + LAST_BODY
WHO = f"GET /whoami {HEAD}Connection: close\r\n\r\n".encode()

OK = b"HTTP/1.1 200 OK\r\nContent-Type: application/json\r\nContent-Length: "
NO_ROW = OK + b'11\r\n\r\n{"count":0}'
DONE = OK + b'11\r\n\r\n{"ok":true}'
ONE_ROW = OK + b'11\r\n\r\n{"count":1}'
ONE_ROW_AT_THE_END = OK + b'11\r\nConnection: close\r\n\r\n{"count":1}'
ROOT = OK + (b'143\r\nConnection: close\r\n\r\n{"auths":["A"],"permissions":["CREATE_TABLE","DROP_TABLE","ALTER_TABLE","CREATE_USER",'
             b'"DROP_USER","ALTER_USER","GRANT","SYSTEM"],"user":"root"}')

PIDFD_GETFD = 438  # The number of the call in Linux for x86-64.


def run(asked: bytes, *words: str, program: Path = RUN) -> tuple[int, bytes, bytes]:
    """The status of a program that is given this input, and what it wrote to standard output and to standard error."""
    ended = subprocess.run([program, *words], input=asked, capture_output=True, timeout=PATIENCE)
    return ended.returncode, ended.stdout, ended.stderr


def rest_of(client: socket.socket) -> bytes:
    """All that comes until the server ends the connection."""
    return b"".join(iter(lambda: client.recv(65536), b""))


def told(port: int, asked: bytes) -> bytes:
    """All that a connection gets for what it sends."""
    with socket.create_connection(("127.0.0.1", port), PATIENCE) as client:
        client.sendall(asked)
        return rest_of(client)


def shut_listener(server: int) -> None:
    """Shuts the socket at which a process listens, so that it accepts no more: accept(2) fails with EINVAL then."""
    its_process = os.pidfd_open(server)
    for number in os.listdir(f"/proc/{server}/fd"):
        if not stat.S_ISSOCK(os.stat(f"/proc/{server}/fd/{number}").st_mode):
            continue
        copy = ctypes.CDLL(None, use_errno=True).syscall(PIDFD_GETFD, its_process, int(number), 0)
        if copy < 0 and ctypes.get_errno() == errno.EPERM:
            pytest.skip("this machine lets no process take a socket of another one")
        assert copy >= 0, os.strerror(ctypes.get_errno())
        with socket.socket(fileno=copy) as it:
            if it.getsockopt(socket.SOL_SOCKET, socket.SO_ACCEPTCONN):
                it.shutdown(socket.SHUT_RD)
    os.close(its_process)


def test_a_run_answers_its_input_and_ends_well() -> None:
    assert run(FIRST + PUT + LAST, "--root", DIGEST, "A", "B", "C") == (0, NO_ROW + DONE + ONE_ROW, b"")


def test_an_input_that_is_cut_inside_a_body_is_answered_as_far_as_it_is_whole() -> None:
    cut = (FIRST + PUT + LAST)[:-len(LAST_BODY) + 20]
    assert run(cut, "--root", DIGEST, "A", "B", "C") == (3, NO_ROW + DONE, b"st_run: cut\n")


@pytest.mark.parametrize("program", PROGRAMS, ids=["st_run", "st_served"])
@pytest.mark.parametrize(("words", "fault"), [
    (("--root", DIGEST[:-1]), "bad digest"),
    (("--root", "66"), "bad digest"),
    (("--root", DIGEST, "A", ""), "bad name"),
    (("--root", DIGEST, "--store", "/nowhere/points.db", "A"), "store not opened"),
])
def test_words_that_are_refused_before_anything_is_answered(program: Path, words: tuple[str, ...], fault: str) -> None:
    port = ["--port", str(free_port())] if program == SERVED else []
    status = 5 if fault == "store not opened" else 2
    assert run(FIRST, *port, *words, program=program) == (status, b"", f"{program.name}: {fault}\n".encode())


def test_a_port_that_is_taken_is_refused() -> None:
    with socket.create_server(("127.0.0.1", free_port())) as taken:
        port = str(taken.getsockname()[1])
        assert run(b"", "--root", DIGEST, "--port", port, program=SERVED) == (5, b"", b"st_served: bind failed\n")


@pytest.mark.parametrize("is_kept", [False, True], ids=["in memory", "in a file"])
def test_a_server_of_two_connections_tells_how_many_it_served(tmp_path: Path, is_kept: bool) -> None:
    store = ["--store", str(tmp_path / "points.db")] if is_kept else []
    with serving("--connections", "2", *store, "A", root=DIGEST, stderr=subprocess.PIPE) as server:
        assert told(server.port, FIRST + PUT + LAST_OF_ALL) == NO_ROW + DONE + ONE_ROW_AT_THE_END
        assert told(server.port, WHO) == ROOT
        assert server.process.communicate(timeout=PATIENCE) == (b"served 2\n", b"")
        assert server.process.returncode == 0


def test_a_connection_that_was_accepted_is_answered_to_its_end_once_no_more_are_accepted() -> None:
    with serving("A", root=DIGEST, stderr=subprocess.PIPE) as server:
        with socket.create_connection(("127.0.0.1", server.port), PATIENCE) as client:
            client.sendall(FIRST)
            assert client.recv(len(NO_ROW), socket.MSG_WAITALL) == NO_ROW
            shut_listener(server.process.pid)
            client.sendall(PUT + LAST_OF_ALL)
            assert rest_of(client) == DONE + ONE_ROW_AT_THE_END
            assert server.process.communicate(timeout=PATIENCE) == (b"", b"st_served: accept failed\n")
            assert server.process.returncode == 5
