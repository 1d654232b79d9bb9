"""`st_served` at a Unix socket: who may connect, and what it does with a file that is at the path."""
from __future__ import annotations

import os
import socket
import stat
import subprocess
from collections.abc import Iterator
from contextlib import contextmanager
from pathlib import Path

import pytest

from served import PROGRAM, SocketConnection, digest, listening, token

REFUSED = (5, b"", b"st_served: bind failed\n")


def words(path: Path, *more: str) -> list[str]:
    """The command line of a server at the path."""
    return [str(PROGRAM), "--root", digest("root"), "--socket", str(path), "--workers", "2", *more]


@contextmanager
def running(path: Path, *more: str, umask: int = 0o022) -> Iterator[subprocess.Popen[bytes]]:
    """A server at the path, which is killed at the end of the context."""
    with listening(words(path, *more), path, stderr=subprocess.PIPE, preexec_fn=lambda: os.umask(umask)) as server:
        yield server


def who(path: Path) -> int:
    """The status of the answer to root's question who it is."""
    connection = SocketConnection(path)
    connection.request("GET", "/whoami", headers={"Authorization": f"Bearer {token('root')}"})
    status = connection.getresponse().status
    connection.close()
    return status


def refused(path: Path) -> tuple[int, bytes, bytes]:
    """What a server that ends at once said, and its status."""
    it = subprocess.run(words(path), stdin=subprocess.DEVNULL, capture_output=True, timeout=10)
    return it.returncode, it.stdout, it.stderr


@pytest.mark.parametrize("umask", [0o000, 0o022, 0o077])
def test_a_socket_is_for_its_account_and_group_and_goes_with_the_server(tmp_path: Path, umask: int) -> None:
    path = tmp_path / "s"
    with running(path, "--connections", "2", umask=umask) as server:
        found = path.lstat()
        assert (stat.S_ISSOCK(found.st_mode), stat.S_IMODE(found.st_mode)) == (True, 0o660)
        assert (who(path), who(path)) == (200, 200)
        assert server.communicate(timeout=10) == (b"served 2\n", b"")
    assert (server.returncode, list(tmp_path.iterdir())) == (0, [])


def test_a_socket_that_a_killed_server_left_is_taken_over(tmp_path: Path) -> None:
    path = tmp_path / "s"
    with running(path):
        pass
    assert stat.S_ISSOCK(path.lstat().st_mode)
    with running(path):
        assert who(path) == 200


def test_a_socket_at_which_somebody_listens_stays_theirs(tmp_path: Path) -> None:
    path = tmp_path / "s"
    with running(path):
        before = path.lstat().st_ino
        assert refused(path) == REFUSED
        assert (path.lstat().st_ino, who(path)) == (before, 200)


def test_no_other_file_is_removed(tmp_path: Path) -> None:
    target, link, folder, datagrams = (tmp_path / name for name in ("file", "link", "folder", "datagrams"))
    target.write_text("kept")
    link.symlink_to(tmp_path / "nowhere")
    folder.mkdir()
    with socket.socket(socket.AF_UNIX, socket.SOCK_DGRAM) as other:
        other.bind(str(datagrams))
        for path in (target, link, folder, datagrams):
            before = path.lstat()
            assert refused(path) == REFUSED
            assert (path.lstat().st_ino, path.lstat().st_mode) == (before.st_ino, before.st_mode)
    assert target.read_text() == "kept"


def test_a_server_at_its_end_leaves_a_file_that_was_put_in_place_of_its_socket(tmp_path: Path) -> None:
    path = tmp_path / "s"
    with running(path, "--connections", "1") as server:
        (tmp_path / "moved").hardlink_to(path)
        path.unlink()
        path.write_text("kept")
        assert who(tmp_path / "moved") == 200
        assert server.wait(timeout=10) == 0
    assert path.read_text() == "kept"


@pytest.mark.parametrize("path", ["", "no/such/folder", "p" * 108], ids=["empty", "missing", "long"])
def test_a_path_that_can_be_none_is_refused(tmp_path: Path, path: str) -> None:
    line = [str(PROGRAM), "--root", digest("root"), "--socket", path, "--workers", "2"]
    it = subprocess.run(line, stdin=subprocess.DEVNULL, capture_output=True, timeout=10, cwd=tmp_path)
    assert (it.returncode, it.stdout, it.stderr) == REFUSED


def test_one_place_is_named(tmp_path: Path) -> None:
    port, path = ["--port", "47001"], ["--socket", str(tmp_path / "s")]
    one, address = "one of --port P and --socket PATH is wanted", "--listen wants --port P"
    lines: list[tuple[list[str], str]] = [([], one), ([*port, *path], one), ([*path, "--listen", "127.0.0.1"], address)]
    for line, said in lines:
        it = subprocess.run([str(PROGRAM), "--root", digest("root"), *line], capture_output=True, text=True, timeout=10)
        assert (it.returncode, it.stdout, it.stderr) == (2, "", f"st_served: {said}\n")
    assert list(tmp_path.iterdir()) == []
