"""The built programs with `--store FILE`: what they keep, what a kill takes back, and which files they refuse."""
import json
import re
import subprocess
from contextlib import AbstractContextManager
from dataclasses import dataclass
from pathlib import Path

import pytest

from served import PROGRAM as SERVED
from served import TOP, digest, token
from stored import AUTHS, BOX, OTHER_NAMES, PATIENCE, PROGRAMS, RUN, Ended, Run, answer, asked, fill, opened, request, started


def put(name: str, table: str = "points") -> bytes:
    return request("POST", f"/tables/{table}/put", {"id": name, "label": "A", "note": f"note of {name}", "point": [1, 2, 3]})


@dataclass(frozen=True)
class Store:
    """A file, and the program that keeps a store in it."""

    file: Path
    program: Path

    def opened(self) -> AbstractContextManager[Run]:
        return opened(self.file, program=self.program)

    def refused(self, *words: str) -> tuple[int, str]:
        """What a run without a message ends with: its status and its fault, behind the program's name. Root and the authorizations are
        the usual ones unless words are given."""
        with started("--store", str(self.file), *(words or ("--root", digest("root"), *AUTHS)), program=self.program) as run:
            status, rest, faults = run.end()
        assert rest == b""
        name, _, fault = faults.decode().partition(": ")
        assert name == (self.program.name if fault else "")
        return status, fault.removesuffix("\n")


def files_of(file: Path) -> dict[str, bytes]:
    """The files of a store by their names."""
    return {path.name: path.read_bytes() for path in file.parent.glob(file.name + "*")}


def is_whole(file: Path) -> bool:
    return asked(file, "pragma integrity_check") == [("ok",)]


@pytest.fixture(params=PROGRAMS, ids=[program.name for program in PROGRAMS])
def program(request: pytest.FixtureRequest) -> Path:
    assert isinstance(request.param, Path)
    return request.param


@pytest.fixture
def store(tmp_path: Path, program: Path) -> Store:
    """A store with one row, which no process holds."""
    store = Store(tmp_path / "points.db", program)
    with store.opened() as run:
        assert run.ask(put("first")) == (200, {"ok": True})
        assert run.end() == (0, b"", b"")
    return store


def test_rows_are_there_after_a_restart(store: Store) -> None:
    with store.opened() as run:
        assert run.rows() == {"first": "note of first"}
        assert run.ask(put("second"))[0] == 200
        assert run.end() == (0, b"", b"")
    with store.opened() as run:
        assert run.rows() == {"first": "note of first", "second": "note of second"}
        assert [entry["request"] for entry in run.audit()] == ["put", "put"]
        assert run.end()[0] == 0
    assert is_whole(store.file)


def test_users_tables_and_refusals_are_there_after_a_restart(store: Store) -> None:
    with store.opened() as run:
        assert run.ask(request("POST", "/users", {"auths": ["A"], "digest": digest("ann"), "user": "ann"}))[0] == 200
        assert run.ask(put("row", "nothere"))[0] == 404
        assert run.end()[0] == 0
    with store.opened() as run:
        status, told = run.ask(request("GET", "/whoami", user="ann"))
        assert (status, told["user"], told["auths"]) == (200, "ann", ["A"])
        assert [entry["result"] == 0 for entry in run.audit()] == [True, True, False]


def test_a_change_that_was_answered_outlasts_a_kill(store: Store) -> None:
    kept = {"first": "note of first"}
    for turn in range(20):
        with store.opened() as run:
            assert run.rows() == kept
            for number in range(turn):
                name = f"{turn}.{number}"
                assert run.ask(put(name))[0] == 200
                kept[name] = f"note of {name}"
            run.kill()
        if len(kept) > 80:
            break
    with store.opened() as run:
        assert run.rows() == kept
        assert run.end()[0] == 0
    assert is_whole(store.file)


def test_a_change_that_was_sent_before_a_kill_is_there_whole_or_not_at_all(store: Store) -> None:
    """Changes are sent without waiting for answers, and the program is killed after the tenth answer."""
    names = [f"r{number}" for number in range(80)]
    with store.opened() as run:
        run.stdin.write(b"".join(put(name) for name in names))
        run.stdin.flush()
        for _ in range(10):
            assert answer(run.stdout)[0] == 200
        run.process.kill()
        answered = 10
        try:
            while answer(run.stdout)[0] == 200:
                answered += 1
        except (Ended, IndexError):
            pass
    with store.opened() as run:
        rows = run.rows()
        assert run.end()[0] == 0
    del rows["first"]
    assert answered <= len(rows) <= len(names)
    assert list(sorted(rows)) == sorted(names[:len(rows)])


def test_without_a_store_no_file_is_written(tmp_path: Path, program: Path, monkeypatch: pytest.MonkeyPatch) -> None:
    monkeypatch.chdir(tmp_path)
    with started("--root", digest("root"), *AUTHS, program=program) as run:
        assert run.ask(put("first")) == (200, {"ok": True})
        assert run.end() == (0, b"", b"")
    assert not list(tmp_path.iterdir())


def test_an_opening_of_many_changes_says_how_far_it_is(store: Store) -> None:
    fill(store.file, 200_001)
    with store.opened() as run:
        status, told = run.ask(request("POST", "/tables/points/count", {"auths": AUTHS, "box": BOX}))
        assert (status, told["count"]) == (200, 200_001)
        status, rest, faults = run.end()
    name = store.program.name
    assert (status, rest) == (0, b"")
    assert faults.decode().splitlines() == [f"{name}: opened {done} of 200,001 changes" for done in ("100,000", "200,000")]


def test_the_file_has_the_digest_and_no_secret(store: Store) -> None:
    secret = token("root").split(".")[1].encode()
    for text in files_of(store.file).values():
        assert secret not in text and bytes.fromhex(secret.decode()) not in text
    rows = asked(store.file, "select number, user, request, name, body, result from changes order by number")
    assert rows[0] == (0, "", "open", "", f"{digest('root')} 1:A 1:B", "")
    assert [row[:4] for row in rows[1:]] == [(1, "root", "put", "points")]
    assert json.loads(str(rows[1][4]))["id"] == "first" and json.loads(str(rows[1][5])) == {"ok": True}


@pytest.mark.parametrize(("root", "auths", "fault"), [
    ("other", "A B", "store of another root"), ("other", "B A", "store of another root"), ("other", "", "store of another root"),
    ("root", "A", OTHER_NAMES), ("root", "A B C", OTHER_NAMES), ("root", "B A", OTHER_NAMES), ("root", "AB", OTHER_NAMES),
    ("root", "", OTHER_NAMES)])
def test_a_store_of_another_root_or_of_other_authorizations_is_refused(store: Store, root: str, auths: str, fault: str) -> None:
    before = files_of(store.file)
    assert store.refused("--root", digest(root), *auths.split()) == (8, fault)
    assert files_of(store.file) == before


def test_the_digest_is_the_same_in_capitals(store: Store) -> None:
    assert store.refused("--root", digest("root").upper(), *AUTHS) == (0, "")


def test_a_store_that_another_process_holds_is_refused(store: Store) -> None:
    with store.opened() as run:
        assert run.rows() == {"first": "note of first"}
        assert store.refused() == (9, "store in use")
        assert run.ask(put("second"))[0] == 200
        assert run.end()[0] == 0


def test_a_store_of_a_later_format_is_refused(store: Store) -> None:
    asked(store.file, "pragma user_version = 1000000")
    before = store.file.read_bytes()
    assert store.refused() == (10, "store of the later format 1000000")
    assert store.file.read_bytes() == before and is_whole(store.file)


def test_what_is_no_store_is_refused(tmp_path: Path, program: Path) -> None:
    text = tmp_path / "text"
    text.write_text("No store, but a text that is longer than the header of a SQLite file, as it happens.\n" * 100)
    other = tmp_path / "other.db"
    asked(other, "create table points (name text)")
    asked(other, "insert into points values ('first')")
    for file in (text, other):
        before = file.read_bytes()
        assert Store(file, program).refused() == (11, "no store")
        assert file.read_bytes() == before


@pytest.mark.parametrize("damage", [
    "delete from changes where number = 1", "update changes set body = '{' where number = 2", "delete from changes where number = 0",
    "update changes set user = 'nobody' where number = 2", "update changes set request = 'scan' where number = 2"])
def test_a_damaged_store_is_refused(store: Store, damage: str) -> None:
    with store.opened() as run:
        assert run.ask(put("second"))[0] == 200
        assert run.end()[0] == 0
    asked(store.file, damage)
    before = store.file.read_bytes()
    assert store.refused() == (12, "store damaged")
    assert store.file.read_bytes() == before and is_whole(store.file)


def test_the_queries_of_the_manual(store: Store) -> None:
    """The queries of docs/OPERATIONS.md run over a store that has each kind of change that they ask for."""
    grant = {"permission": "READ", "user": "ann"}
    with store.opened() as run:
        for change in (request("POST", "/users", {"auths": ["A"], "digest": digest("ann"), "user": "ann"}), put("second"),
                       request("POST", "/tables/points/grant", grant), request("POST", "/tables", {"table": "old"}),
                       request("DELETE", "/tables/old"), put("row", "nothere")):
            run.ask(change)
        assert run.end()[0] == 0
    queries = re.findall(r"^\|.*\| `(SELECT .*;)` \|$", (TOP / "docs/OPERATIONS.md").read_text(), re.M)
    told = [asked(store.file, query) for query in queries]
    assert [len(rows) for rows in told] == [2, 7, 1, 1, 1]
    assert [row[4] for row in told[0]] == ["first", "second"]
    assert told[2] == [("root", "put", "nothere", "table", 1)]
    assert told[3][0][1:6] == ("root", "grant-table", "points", "ann", "READ")


def test_a_store_that_cannot_be_opened_is_refused(tmp_path: Path, program: Path) -> None:
    assert Store(tmp_path / "nowhere" / "points.db", program).refused() == (5, "store not opened")
    assert Store(tmp_path, program).refused() == (5, "store not opened")
    assert Store(tmp_path / "points.db", program).refused("--root", "66") == (2, "bad digest")
    assert not (tmp_path / "points.db").exists()


def test_every_option_of_the_program_is_in_its_help_and_in_its_manual_page(program: Path) -> None:
    told = subprocess.run([program, "--help"], capture_output=True, text=True, timeout=PATIENCE).stdout
    page = (TOP / "packaging/man" / f"{program.name}.1").read_text().replace("\\-", "-")
    for option in ("--root", "--store", "--help", "--version"):
        assert option in told and option in page


def test_a_store_of_one_program_is_one_of_the_other(tmp_path: Path) -> None:
    file = tmp_path / "points.db"
    kept: dict[str, str] = {}
    for turn, program in enumerate([RUN, SERVED, RUN]):
        with opened(file, program=program) as run:
            assert run.rows() == kept
            assert run.ask(put(f"r{turn}")) == (200, {"ok": True})
            kept[f"r{turn}"] = f"note of r{turn}"
            assert run.end() == (0, b"", b"")
    assert is_whole(file)
