"""Tokens, files and terminals: a token goes over no network in the clear, files are their owner's alone, texts are escaped."""

from __future__ import annotations

import os
import pytest
import stat
from collections.abc import Iterator
from pathlib import Path
from served import digest, token

from conftest import Run
from fashkiin import Client, Table


@pytest.fixture
def no_umask() -> Iterator[None]:
    """A umask that would let everybody read new files."""
    before = os.umask(0)
    yield
    os.umask(before)


def test_a_token_goes_to_another_machine_by_tls_alone(run: Run, url: str) -> None:
    # The resolver knows it as an address of this machine; the command does not.
    other = url.replace("127.0.0.1", "127.1")
    wanted = "wanted https://, or --insecure where that is safe"
    said = f"fashkiin: {other}: the token would go over a network in the clear, {wanted}\n"
    assert run("whoami", "--url", other) == (2, "", said)
    assert run("map", "--url", other, "--no-browser", "--port", "0") == (2, "", said)
    assert run("features", "--url", other, "--port", "0") == (2, "", said)
    assert run("whoami", "--url", other, "--insecure")[0] == 0
    assert run("whoami", "--url", url.replace("127.0.0.1", "localhost"))[0] == 0


def test_to_send_a_token_in_the_clear_can_be_set(run: Run, url: str, tmp_path: Path, monkeypatch: pytest.MonkeyPatch) -> None:
    monkeypatch.setenv("FASHKIIN_URL", url.replace("127.0.0.1", "127.1"))
    config = tmp_path / "config.toml"
    config.write_text("insecure = true\n")
    assert run("whoami", "--config", config)[0] == 0
    monkeypatch.setenv("FASHKIIN_INSECURE", "0")
    assert run("whoami", "--config", config)[0] == 2


def test_files_that_hold_rows_are_their_owners_alone(run: Run, table: Table, tmp_path: Path, no_umask: None) -> None:
    source, dumped, rejects, older = (tmp_path / name for name in ("a.csv", "b.geojson", "rejects.csv", "older.csv"))
    source.write_text("id,lon,lat,time,label\na,1,2,2024-05-01,A\nb,1,92,2024-05-01,A\n")
    older.write_text("of another time\n" * 100)
    assert stat.S_IMODE(older.stat().st_mode) == 0o666
    for file in (rejects, older):
        assert run("load", table.name, source, "--rejects", file)[0] == 1
    assert run("dump", table.name, "--output", dumped)[0] == 0
    assert [stat.S_IMODE(file.stat().st_mode) for file in (dumped, rejects, older)] == [0o600] * 3
    assert older.read_text() == rejects.read_text()


def test_control_characters_of_names_and_labels_do_not_reach_the_terminal(run: Run, root: Client, token_file: Path) -> None:
    root.users.create("mal", digest("mal"), ["\x1b[31m", "coast flight", "A"])
    root.close()
    mine = token_file.with_name("mal-token")
    mine.touch(mode=0o600)
    mine.write_text(token("mal"))
    lines = 'mal\nauthorizations: "\\x1b[31m" A "coast flight"\npermissions: \n'
    assert run("whoami", "--token-file", mine) == (0, lines, "")
    assert run("users", "show", "mal")[1].startswith(lines)
    assert run("label", '"\x1b[2J"&A')[1] == '"\\x1b[2J"&A\n'
    assert run("users", "drop", "mal")[0] == 0
