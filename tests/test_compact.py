"""The built programs with `--compact`: the state stays, the list gets short, and a crash leaves the old list or the short one."""
import random
import time
from contextlib import AbstractContextManager
from pathlib import Path

import pytest

from changes import FIRST, NAMESPACES, TABLES, USERS, changes_from
from noted import events_in, make_shim, noted
from served import digest
from stored import AUTHS, BOX, OTHER_NAMES, PROGRAMS, RUN, Run, answer, asked, fill, opened, request, started
from torn import Disk, File

SHOWN = 1024
LIST = "select * from changes order by number"


def compacted(file: Path, program: Path = RUN) -> AbstractContextManager[Run]:
    return started("--root", digest("root"), "--store", str(file), "--compact", *AUTHS, program=program)


def state_of(run: Run) -> list[tuple[int, object]]:
    """What every read tells root."""
    texts = [request("GET", path) for path in ("/users", "/tables", "/audit", "/whoami")]
    texts += [request("GET", f"/users/{user}") for user in USERS]
    texts += [request("GET", f"/tables/{table}/grants") for table in TABLES]
    texts += [request("GET", f"/namespaces/{name}/grants") for name in NAMESPACES]
    scan = {"auths": AUTHS, "box": BOX, "limit": 1000}
    texts += [request("POST", f"/tables/{table}/scan", scan) for table in TABLES]
    return [run.ask(text) for text in texts]


def make_changes(file: Path, count: int, seed: int, program: Path = RUN) -> list[tuple[int, object]]:
    """So many changes, of which some are refused, are made in a new store. It answers the state after them."""
    rng = random.Random(seed)
    more = changes_from(rng, lambda user: user in ("root", "ann"), 40)
    with opened(file, program=program) as run:
        for change in FIRST:
            run.ask(change.text())
        for _ in range(count - len(FIRST)):
            run.ask(next(more).text())
        for table in TABLES:
            for permission in ("READ", "WRITE"):
                run.ask(request("POST", f"/tables/{table}/grant", {"user": "root", "permission": permission}))
        told = state_of(run)
        assert run.end()[0] == 0
    return told


def numbers(file: Path) -> list[int]:
    return [row[0] for row in asked(file, "select number from changes order by number")]


@pytest.fixture(params=PROGRAMS, ids=[program.name for program in PROGRAMS])
def program(request: pytest.FixtureRequest) -> Path:
    assert isinstance(request.param, Path)
    return request.param


def test_the_state_stays_and_the_list_gets_short(tmp_path: Path, program: Path) -> None:
    file = tmp_path / "points.db"
    told = make_changes(file, 5000, 1, program)
    before = len(numbers(file)) - 1
    with compacted(file, program) as run:
        assert state_of(run) == told
        assert run.ask(request("POST", "/tables/points/put", {"id": "new", "label": "A", "note": "", "point": [1, 2, 3]}))[0] == 200
        status, _, faults = run.end()
    after = len(numbers(file)) - 2
    assert (status, faults.decode()) == (0, f"{program.name}: of {before} changes {after} are kept\n")
    assert SHOWN <= after < before * 0.6
    assert numbers(file) == list(range(after + 2))
    assert asked(file, "pragma integrity_check") == [("ok",)]
    with opened(file, program=program) as run:
        now = state_of(run)
        assert run.end()[0] == 0
    assert [one == other for one, other in zip(now, told)].count(False) == 2


def test_a_short_list_gets_no_shorter(tmp_path: Path) -> None:
    file = tmp_path / "points.db"
    told = make_changes(file, 3000, 2)
    with compacted(file) as run:
        assert state_of(run) == told
        run.end()
    left = asked(file, LIST)
    with compacted(file) as run:
        assert state_of(run) == told
        assert run.end()[2].decode() == f"st_run: of {len(left) - 1} changes {len(left) - 1} are kept\n"
    assert asked(file, LIST) == left


def test_of_the_changes_that_were_left_out_none_is_seen(tmp_path: Path) -> None:
    """Puts that later ones replaced, or whose row or table is gone, deletes and refusals are left out, but for the last 1,024."""
    file = tmp_path / "points.db"
    put = [request("POST", "/tables/points/put", {"id": f"r{at % 100}", "label": "", "note": f"{at}", "point": [1, 2, 3]})
           for at in range(2000)]
    gone = [request("POST", "/tables/points/delete", {"id": f"r{at}", "label": ""}) for at in range(50)]
    bad = [request("DELETE", "/tables/nothere") for _ in range(500)]
    table = [request("POST", "/tables", {"table": "t"}), *(text.replace(b"/points/", b"/t/") for text in put[:100]),
             request("DELETE", "/tables/t")]
    last = [request("POST", "/tables/points/period", {"period": "day"}) for _ in range(SHOWN)]
    with opened(file) as run:
        for text in (*put, *gone, *bad, *table, *last):
            run.send(text)
            answer(run.stdout)
        told = state_of(run)
        run.end()
    with compacted(file) as run:
        assert state_of(run) == told
        assert run.end()[0] == 0
    kept = asked(file, "select request, count(*) from changes where number between 1 and (select max(number) - 1024 from changes) "
                       "group by request order by request")
    assert kept == [("create-table", 1), ("drop-table", 1), ("put", 50)]


def test_the_opening_of_many_changes_says_how_far_it_is(tmp_path: Path) -> None:
    file = tmp_path / "points.db"
    with opened(file) as run:
        assert run.end() == (0, b"", b"")
    fill(file, 100_000)
    with compacted(file) as run:
        status, rest, faults = run.end()
    assert (status, rest) == (0, b"")
    assert faults.decode().splitlines() == ["st_run: opened 100,000 of 100,000 changes", "st_run: of 100000 changes 100000 are kept",
                                            "st_run: opened 100,000 of 100,000 changes"]


@pytest.mark.parametrize(("root", "auths", "fault"), [("other", AUTHS, "store of another root"), ("root", AUTHS[::-1], OTHER_NAMES)])
def test_a_file_that_is_refused_stays_as_it_is(tmp_path: Path, program: Path, root: str, auths: list[str], fault: str) -> None:
    file = tmp_path / "points.db"
    make_changes(file, 1500, 3, program)
    was = file.read_bytes()
    with started("--root", digest(root), "--store", str(file), "--compact", *auths, program=program) as run:
        assert run.end() == (8, b"", f"{program.name}: {fault}\n".encode())
    assert file.read_bytes() == was


def test_a_kill_leaves_the_old_list_or_the_short_one(tmp_path: Path) -> None:
    """A run is killed at moments while it makes the list short, at its begin and once it has answered."""
    folder, rng = tmp_path / "store", random.Random(5)
    folder.mkdir()
    file = folder / "points.db"
    told = make_changes(file, 3000, 5)
    old = asked(file, LIST)
    before = file.read_bytes()
    begun = time.monotonic()
    with compacted(file) as run:
        assert state_of(run) == told
        run.end()
    took = time.monotonic() - begun
    short, found = asked(file, LIST), []
    assert len(short) < len(old)
    for moment in [0.0, *(rng.random() * took for _ in range(8)), None]:
        for path in folder.iterdir():
            path.unlink()
        file.write_bytes(before)
        with compacted(file) as run:
            if moment is None:
                assert state_of(run) == told
            else:
                time.sleep(moment)
            run.kill()
        with opened(file) as run:
            assert state_of(run) == told
            assert run.end()[0] == 0
        found.append(asked(file, LIST))
    assert all(it in (old, short) for it in found)
    assert old in found and short in found


def test_a_crash_leaves_the_old_list_or_the_short_one(tmp_path: Path) -> None:
    """The disk tears at moments of a run that makes the list short. Each outcome opens with the same state, and has the old list or the
    short one."""
    folder, rng = tmp_path / "store", random.Random(4)
    folder.mkdir()
    file = folder / "points.db"
    told = make_changes(file, 1800, 4)
    old = asked(file, LIST)
    before = {path.name: path.read_bytes() for path in folder.iterdir()}
    with noted(file, make_shim(tmp_path), tmp_path / "trace", RUN, 1, "--compact") as run:
        assert state_of(run) == told
        run.end()
    short = asked(file, LIST)
    assert len(short) < len(old)
    disk, found = Disk({name: File(text) for name, text in before.items()}), []
    events = [event for event in events_in((tmp_path / "trace").read_bytes(), folder) if event.kind != "answer"]
    torn = set(rng.sample(range(len(events)), min(12, len(events)))) | {len(events) - 1}
    for number, event in enumerate(events):
        disk.take(event)
        for files in list(disk.outcomes(rng, 1))[:8] if number in torn else []:
            for path in folder.iterdir():
                path.unlink()
            for name, text in files.items():
                (folder / name).write_bytes(text)
            with opened(file) as run:
                assert state_of(run) == told
                assert run.end()[0] == 0
            found.append(asked(file, LIST))
    assert all(it in (old, short) for it in found)
    assert old in found and short in found
