"""The built server with `--copy FILE`: what the copy has, who can use it, and what happens where it cannot be written."""
import sqlite3
import subprocess
import time
from collections.abc import Callable, Iterator
from contextlib import closing, contextmanager
from pathlib import Path
from shutil import copyfile

import pytest

from served import PROGRAM as SERVED
from served import digest
from stored import AUTHS, PATIENCE, RUN, Run, asked, opened, request, started

CHANGES = "select number, time, user, request, name, body, result from changes where number > 0 order by number"
NOTE = "n" * 1000
# What a server says of turns that were put off to the next.
MET = b"st_served: no copy: in use; trying again\nst_served: copying again\n"


def put(name: str, note: str = "") -> bytes:
    return request("POST", "/tables/points/put", {"id": name, "label": "A", "note": note or f"note of {name}", "point": [1, 2, 3]})


@contextmanager
def copied(store: Path, copy: Path, every: int = 1) -> Iterator[Run]:
    """A server over a store, with a copy."""
    words = ["--root", digest("root"), "--store", str(store), "--copy", str(copy), "--copy-every", str(every), *AUTHS]
    with started(*words, program=SERVED) as run:
        yield run


def until(holds: Callable[[], bool]) -> None:
    """Waits until something holds."""
    limit = time.monotonic() + PATIENCE
    while not holds():
        assert time.monotonic() < limit
        time.sleep(0.05)


def peeked(copy: Path, query: str) -> list[tuple[object, ...]]:
    """What SQLite answers of a copy that a server may be writing; nothing before it is made."""
    if not copy.exists() or copy.stat().st_size == 0:
        return []
    with closing(sqlite3.connect(copy, timeout=PATIENCE)) as base:
        return base.execute(query).fetchall()


def count(copy: Path) -> int:
    """How many changes a copy has, and fewer than none before it is made."""
    return len(peeked(copy, "select 1 from changes")) - 1


def end_well(run: Run) -> None:
    """Ends a server whose copy was written; a turn may have met this test as it read the copy."""
    status, rest, faults = run.end()
    assert (status, rest, faults.replace(MET, b"")) == (0, b"", b"")


def folder_of(path: Path) -> dict[str, bytes]:
    return {file.name: file.read_bytes() for file in path.parent.glob(path.name + "*")}


@pytest.fixture
def store(tmp_path: Path) -> Path:
    return tmp_path / "points.db"


@pytest.fixture
def copy(tmp_path: Path) -> Path:
    return tmp_path / "copy.db"


def test_a_copy_follows_and_is_read_meanwhile(store: Path, copy: Path) -> None:
    with copied(store, copy) as run:
        for number in range(300):
            assert run.ask(put(f"r{number}")) == (200, {"ok": True})
            if number % 10 == 0:
                names = [body for body, in peeked(copy, "select body ->> 'id' from changes where number > 0 order by number")]
                assert names == [f"r{at}" for at in range(len(names))] and len(names) <= number + 1
                time.sleep(0.05)
        until(lambda: count(copy) == 300)
        end_well(run)
    assert asked(copy, CHANGES) == asked(store, CHANGES)
    assert asked(copy, "pragma integrity_check") == [("ok",)]


def test_a_copy_is_a_whole_store_without_its_log(store: Path, copy: Path, tmp_path: Path) -> None:
    """Copied by a plain copy of one file, it opens as the store after so many changes, under either program."""
    with copied(store, copy) as run:
        for number in range(100):
            assert run.ask(put(f"r{number}")) == (200, {"ok": True})
        until(lambda: count(copy) == 100)
        time.sleep(0.5)
        for name in ("one.db", "other.db"):
            copyfile(copy, tmp_path / name)
        for number in range(100, 200):
            assert run.ask(put(f"r{number}")) == (200, {"ok": True})
        end_well(run)
    for name, program in (("one.db", RUN), ("other.db", SERVED)):
        with opened(tmp_path / name, program=program) as run:
            assert run.rows() == {f"r{number}": f"note of r{number}" for number in range(100)}
            assert run.ask(put("later")) == (200, {"ok": True})
            end_well(run)


def test_a_server_goes_on_from_a_copy(store: Path, copy: Path) -> None:
    """The last turn comes at the server's end."""
    with copied(store, copy, 3600) as run:
        for number in range(50):
            assert run.ask(put(f"r{number}")) == (200, {"ok": True})
        assert run.ask(request("POST", "/users", {"auths": ["A"], "digest": digest("ann"), "user": "ann"}))[0] == 200
        end_well(run)
    with opened(copy, program=SERVED) as run:
        assert len(run.rows()) == 50
        assert run.ask(request("GET", "/whoami", user="ann"))[0] == 200
        assert len(run.audit()) == 51
        end_well(run)


def test_a_copy_is_gone_on_with_after_a_restart_and_after_a_kill(store: Path, copy: Path) -> None:
    for turn in range(4):
        with copied(store, copy) as run:
            for number in range(30):
                assert run.ask(put(f"r{turn}.{number}")) == (200, {"ok": True})
            if turn % 2 == 0:
                end_well(run)
            else:
                run.kill()
    with copied(store, copy) as run:
        until(lambda: count(copy) == 120)
        end_well(run)
    assert asked(copy, CHANGES) == asked(store, CHANGES)


def test_a_copy_that_is_taken_away_is_made_again(store: Path, copy: Path, tmp_path: Path) -> None:
    with copied(store, copy) as run:
        assert run.ask(put("first")) == (200, {"ok": True})
        until(lambda: count(copy) == 1)
        time.sleep(0.5)
        copy.rename(tmp_path / "away.db")
        (tmp_path / "copy.db-wal").unlink(missing_ok=True)
        assert run.ask(put("second")) == (200, {"ok": True})
        until(lambda: count(copy) == 2)
        end_well(run)
    assert asked(copy, CHANGES) == asked(store, CHANGES)


def test_a_copy_that_cannot_be_written_is_said_once(store: Path, tmp_path: Path) -> None:
    """A folder is in its place for more than two turns."""
    (tmp_path / "folder").mkdir()
    with copied(store, tmp_path / "folder") as run:
        for number in range(3):
            assert run.ask(put(f"r{number}")) == (200, {"ok": True})
            time.sleep(1)
        assert run.rows() == {f"r{number}": f"note of r{number}" for number in range(3)}
        assert run.end() == (0, b"", b"st_served: no copy: not read or written; trying again\n")


@pytest.mark.parametrize(("root", "auths", "fault"), [
    ("root", AUTHS, "it is of another history;"), ("other", AUTHS, "it is of another root;"),
    ("root", AUTHS[::-1], "it is of other authorizations of root (their order counts);")])
def test_a_copy_of_another_history_is_left_as_it_is(store: Path, copy: Path, root: str, auths: list[str], fault: str) -> None:
    row = {"id": "r", "label": "A", "note": "", "point": [1, 2, 3]}
    with opened(copy, root, auths, RUN) as run:
        assert run.ask(request("POST", "/tables/points/put", row, root))[0] in (200, 401)
        assert run.end()[0] == 0
    before = asked(copy, CHANGES)
    with copied(store, copy) as run:
        assert run.ask(put("first")) == (200, {"ok": True})
        assert run.ask(put("second")) == (200, {"ok": True})
        time.sleep(2.5)
        status, rest, faults = run.end()
    assert (status, rest) == (0, b"") and faults.startswith(b"st_served: no copy: ") and faults.count(b"\n") == 1
    assert fault.encode() in faults
    assert asked(copy, CHANGES) == before


def test_a_copy_with_more_than_its_store_is_left_as_it_is(store: Path, copy: Path) -> None:
    """As after an older store was put in the place of the one that it followed."""
    with copied(store, copy) as run:
        assert run.ask(put("first")) == (200, {"ok": True})
        end_well(run)
    before = folder_of(store)
    with copied(store, copy) as run:
        assert run.ask(put("second")) == (200, {"ok": True})
        end_well(run)
    for name, data in before.items():
        (store.parent / name).write_bytes(data)
    with copied(store, copy) as run:
        assert run.ask(put("third")) == (200, {"ok": True})
        time.sleep(1.5)
        assert run.end() == (0, b"", b"st_served: no copy: it is of another history; trying again\n")
    assert [body for body, in asked(copy, "select body ->> 'id' from changes where number > 0")] == ["first", "second"]


def test_what_is_no_store_is_left_as_it_is(store: Path, copy: Path) -> None:
    copy.write_text("No store, but a text that is longer than the header of a SQLite file, as it happens.\n" * 100)
    before = copy.read_bytes()
    with copied(store, copy) as run:
        assert run.ask(put("first")) == (200, {"ok": True})
        time.sleep(1.5)
        assert run.end() == (0, b"", b"st_served: no copy: no store; trying again\n")
    assert copy.read_bytes() == before


def test_a_store_is_no_copy_of_itself(store: Path) -> None:
    with copied(store, store) as run:
        assert run.ask(put("first")) == (200, {"ok": True})
        time.sleep(1.5)
        assert run.ask(put("second")) == (200, {"ok": True})
        assert run.end() == (0, b"", b"st_served: no copy: in use; trying again\n")
    assert [row[0] for row in asked(store, CHANGES)] == [1, 2]


def test_a_copy_that_another_holds_is_written_once_it_is_free(store: Path, copy: Path) -> None:
    with copied(store, copy) as run:
        assert run.ask(put("first")) == (200, {"ok": True})
        until(lambda: count(copy) == 1)
        with opened(copy, program=RUN) as holder:
            assert len(holder.rows()) == 1
            assert run.ask(put("second")) == (200, {"ok": True})
            time.sleep(2.5)
            assert holder.end()[0] == 0
        until(lambda: count(copy) == 2)
        status, rest, faults = run.end()
        assert (status, rest, faults.replace(MET, b"")) == (0, b"", b"") and MET in faults
    assert asked(copy, CHANGES) == asked(store, CHANGES)


def test_a_copy_on_a_full_disk_is_written_once_there_is_room(store: Path, tmp_path: Path) -> None:
    disk = tmp_path / "disk"
    disk.mkdir()
    if subprocess.run(["mount", "-t", "tmpfs", "-o", "size=1m", "none", disk], capture_output=True).returncode != 0:
        pytest.skip("nobody may mount here")
    try:
        with copied(store, disk / "copy.db") as run:
            for number in range(1000):
                assert run.ask(put(f"r{number}", NOTE)) == (200, {"ok": True})
            time.sleep(2.5)
            subprocess.run(["mount", "-o", "remount,size=16m", "none", disk], check=True)
            until(lambda: count(disk / "copy.db") == 1000)
            assert run.end() == (0, b"", b"st_served: no copy: not read or written; trying again\nst_served: copying again\n")
        assert asked(disk / "copy.db", CHANGES) == asked(store, CHANGES)
        assert asked(disk / "copy.db", "pragma integrity_check") == [("ok",)]
    finally:
        subprocess.run(["umount", disk], check=True)
