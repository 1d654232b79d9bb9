"""The built programs with `--store FILE` on a disk that gets full: a small file system in memory, which only who may mount can make."""
import socket
import subprocess
from collections.abc import Iterator
from contextlib import contextmanager
from pathlib import Path

import pytest

from served import PROGRAM as SERVED
from served import serving
from stored import AUTHS, PATIENCE, PROGRAMS, Ended, Run, answer, asked, opened, request

NOTE = "n" * 1000


@pytest.fixture
def disk(tmp_path: Path) -> Iterator[Path]:
    """A file system of 1 MiB."""
    folder = tmp_path / "disk"
    folder.mkdir()
    if subprocess.run(["mount", "-t", "tmpfs", "-o", "size=1m", "none", folder], capture_output=True).returncode != 0:
        pytest.skip("nobody may mount here")
    try:
        yield folder
    finally:
        subprocess.run(["umount", folder], check=True)


@pytest.fixture(params=PROGRAMS, ids=[program.name for program in PROGRAMS])
def program(request: pytest.FixtureRequest) -> Path:
    assert isinstance(request.param, Path)
    return request.param


def put(name: str) -> bytes:
    return request("POST", "/tables/points/put", {"id": name, "label": "A", "note": NOTE, "point": [1, 2, 3]})


def fill(run: Run) -> list[str]:
    """Puts rows until the program ends: those whose put was answered, and the last, which was not."""
    names = []
    with pytest.raises(Ended):
        for number in range(1000):
            names.append(f"r{number}")
            assert run.ask(put(names[-1])) == (200, {"ok": True})
    return names


def test_a_full_disk_loses_no_row_that_was_answered(disk: Path, program: Path) -> None:
    file = disk / "points.db"
    with opened(file, program=program) as run:
        names = fill(run)
        assert run.end() == (7, b"", b"%s: store lost\n" % program.name.encode())
    assert len(names) > 10
    subprocess.run(["mount", "-o", "remount,size=8m", "none", disk], check=True)
    with opened(file, program=program) as run:
        kept = run.rows()
        assert kept in ({name: NOTE for name in names[:-1]}, {name: NOTE for name in names})
        assert run.ask(put("later")) == (200, {"ok": True})
        assert run.end() == (0, b"", b"")
    with opened(file, program=program) as run:
        assert run.rows() == {**kept, "later": NOTE}
        assert run.end() == (0, b"", b"")
    assert asked(file, "pragma integrity_check") == [("ok",)]


def test_a_store_on_a_full_disk_is_opened_or_refused(disk: Path, program: Path) -> None:
    """Where it is opened, its rows are there; where it is not, they are once there is room."""
    file = disk / "points.db"
    with opened(file, program=program) as run:
        names = fill(run)
        assert run.end()[0] == 7
    answered = set(names[:-1])
    with opened(file, program=program) as run:
        try:
            assert answered <= set(run.rows())
            assert run.end() == (0, b"", b"")
        except Ended:
            assert run.end() == (5, b"", b"%s: store not opened\n" % program.name.encode())
    subprocess.run(["mount", "-o", "remount,size=8m", "none", disk], check=True)
    with opened(file, program=program) as run:
        assert answered <= set(run.rows()) <= set(names)
        assert run.end() == (0, b"", b"")


def test_a_store_is_not_made_where_there_is_no_room(disk: Path, program: Path) -> None:
    (disk / "other").write_bytes(bytes(1024 * 1024))
    file = disk / "points.db"
    with opened(file, program=program) as run:
        with pytest.raises(Ended):
            run.rows()
        assert run.end() == (5, b"", b"%s: store not opened\n" % program.name.encode())
    (disk / "other").unlink()
    with opened(file, program=program) as run:
        assert run.ask(put("first")) == (200, {"ok": True})
        assert run.end() == (0, b"", b"")


@contextmanager
def keeping(file: Path, *words: str) -> Iterator[tuple[int, "subprocess.Popen[bytes]"]]:
    """The port of a server over the store in a file, and its process."""
    with serving("--store", str(file), *words, *AUTHS, stderr=subprocess.PIPE) as server:
        yield server.port, server.process


class Client:
    """A connection of its own."""

    def __init__(self, port: int) -> None:
        self.socket = socket.create_connection(("127.0.0.1", port), PATIENCE)
        self.stream = self.socket.makefile("rwb")

    def ask(self, asked: bytes) -> tuple[int, dict[str, object]]:
        try:
            self.stream.write(asked)
            self.stream.flush()
        except ConnectionError:
            raise Ended from None
        return answer(self.stream)


WHO = request("GET", "/whoami")


@pytest.mark.parametrize("words", [(), ("--connections", "100")], ids=["all", "hundred"])
def test_a_lost_store_ends_the_server_whoever_is_connected(disk: Path, words: tuple[str, ...]) -> None:
    """One client fills the disk; of the others one asks nothing more, one asks to read, and one to change."""
    with keeping(disk / "points.db", "--workers", "4", "--timeout", "4", "--idle", "4", *words) as (port, server):
        idle, reader, writer, filler = (Client(port) for _ in range(4))
        for client in (idle, reader, writer):
            assert client.ask(WHO)[0] == 200
        names = []
        with pytest.raises(Ended):
            for number in range(1000):
                names.append(f"r{number}")
                assert filler.ask(put(names[-1])) == (200, {"ok": True})
        with pytest.raises(Ended):
            reader.ask(WHO)
        with pytest.raises(Ended):
            writer.ask(put("other"))
        told, faults = server.communicate(timeout=30)
        assert (server.returncode, told, faults) == (7, b"", b"st_served: store lost\n")
        with pytest.raises(ConnectionRefusedError):
            Client(port)
    subprocess.run(["mount", "-o", "remount,size=8m", "none", disk], check=True)
    with opened(disk / "points.db", program=SERVED) as run:
        kept = run.rows()
        assert kept in ({name: NOTE for name in names[:-1]}, {name: NOTE for name in names})
        assert run.end() == (0, b"", b"")


def test_a_server_whose_clients_come_and_go_ends_once_its_store_is_lost(disk: Path) -> None:
    """Nobody is connected but who fills the disk: the workers who wait for a connection end too."""
    with keeping(disk / "points.db", "--workers", "8") as (port, server):
        filler = Client(port)
        with pytest.raises(Ended):
            for number in range(1000):
                filler.ask(put(f"r{number}"))
        filler.stream.close()
        filler.socket.close()
        assert server.wait(20) == 7


def test_a_server_ends_whose_clients_wait_to_be_accepted(disk: Path) -> None:
    """More clients than the kernel holds ready for the server, so that it cannot connect to itself; one worker waits for a message."""
    with keeping(disk / "points.db", "--workers", "2", "--timeout", "3") as (port, server):
        idle, filler = Client(port), Client(port)
        assert idle.ask(WHO)[0] == 200
        assert filler.ask(WHO)[0] == 200
        waiting = [socket.socket() for _ in range(300)]
        for client in waiting:
            client.setblocking(False)
            client.connect_ex(("127.0.0.1", port))
        with pytest.raises(Ended):
            for number in range(1000):
                filler.ask(put(f"r{number}"))
        assert server.wait(20) == 7
        for client in waiting:
            client.close()
