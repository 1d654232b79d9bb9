"""The command: its subcommands as root, tokens, completion and the manual page."""

from __future__ import annotations

import io
import json
import os
import pytest
import signal
import stat
import subprocess
import sys
from collections.abc import Sequence
from functools import partial
from pathlib import Path
from served import digest, token

from conftest import Run
from fashkiin import Client, Table, Token, __version__
from fashkiin.accounts import Change
from fashkiin.cli import COMMANDS, EXIT_STATUSES
from fashkiin.commands.audit import news
from fashkiin.formats import Source
from fashkiin.tally import Tally
from fashkiin.manual import page
from fashkiin.progress import Progress
from fashkiin.tokens import read_token

TOP = Path(__file__).resolve().parents[1]


def test_put_get_scan_and_delete(run: Run, table: Table) -> None:
    place = ("--lon", "-4.25", "--lat", "51.5", "--time", "2024-05-01T12:00:00.5Z")
    assert run("put", table.name, "p", *place, "--label", "A&B", "--properties", '{"speed":7}') == (0, "", "")
    row = {
        "id": "p",
        "lon": -4.25,
        "lat": 51.5,
        "time": "2024-05-01T12:00:00.500000Z",
        "label": "A&B",
        "properties": {"speed": 7},
    }
    code, out, _ = run("get", table.name, "p", "--json")
    assert (code, json.loads(out)) == (0, row)
    assert run("scan", table.name)[1] == 'p\t-4.25\t51.5\t2024-05-01T12:00:00.500000Z\tA&B\t{"speed":7}\n'
    assert run("get", table.name, "p", "--auths", "A") == (1, "", "")
    assert run("count", table.name, "--json")[1] == '{"count":1,"least":1}\n'
    assert run("grid", table.name, "--nx", "2", "--ny", "2")[1] == "1 .\n. .\n"
    assert run("delete", table.name, "p", "--label", "A&B") == (0, "", "")
    assert run("get", table.name, "p")[0] == 1


def test_control_characters_of_rows_do_not_reach_the_terminal(run: Run, table: Table) -> None:
    place = ("--lon", "1", "--lat", "2", "--time", "2024-05-01", "--label", "")
    assert run("put", table.name, "a\x1b[31m\nb", *place)[0] == 0
    assert run("scan", table.name)[1].startswith("a\\x1b[31m\\nb\t")


def test_users_tables_and_grants(run: Run, table: Table, root: Client) -> None:
    root.close()
    assert run("users", "add", "kim", digest("kim"), "--auths", "A,B")[0] == 0
    assert run("users")[1].splitlines() == ["kim", "root"]
    assert run("users", "show", "kim")[1] == "kim\nauthorizations: A B\npermissions: \n"
    assert run("users", "auths", "kim", "C")[0] == 0
    assert run("grant", "kim", "read", "--table", table.name)[0] == 0
    assert run("grant", "kim", "WRITE", "--namespace", "test")[0] == 0
    assert run("grant", "kim", "CREATE_TABLE", "--system")[0] == 0
    assert json.loads(run("users", "show", "kim", "--json")[1]) == {
        "user": "kim",
        "auths": ["C"],
        "permissions": ["CREATE_TABLE"],
        "grants": [{"table": table.name, "permissions": ["READ"]}, {"namespace": "test", "permissions": ["WRITE"]}],
    }
    assert "kim\tREAD\n" in run("tables", "grants", table.name)[1]
    assert run("tables", "grants", "test", "--namespace")[1] == "kim\tWRITE\n"
    assert run("revoke", "kim", "READ", "--table", table.name)[0] == 0
    assert "kim" not in run("tables", "grants", table.name)[1]
    assert run("tables", "constraint", table.name, "on")[0] == 0
    assert run("tables", "period", table.name, "week")[0] == 0
    assert f"{table.name}\tweek\tconstraint\n" in run("tables")[1]
    assert run("audit")[1].splitlines()[-1] == f"root\tperiod\t{table.name}\tdone"
    assert run("users", "drop", "kim")[0] == 0
    code, _, err = run("users", "drop", "kim")
    assert (code, err) == (4, "fashkiin: no such user: user 'kim'\n")


def test_the_version(run: Run) -> None:
    assert run("--version") == (0, f"fashkiin {__version__}\n", "")


def test_labels_and_whoami(run: Run) -> None:
    assert run("label", "(C|B)&A&A") == (0, "(B|C)&A\n", "")
    assert run("label", "A|B&C")[::2] == (
        3,
        "fashkiin: label: invalid at byte 3, wanted an expression such as A&(B|C)\n    A|B&C\n       ^\n",
    )
    assert json.loads(run("whoami", "--json")[1])["auths"] == ["A", "B", "C"]


def test_a_token_is_made_and_a_new_one_put_in_its_place(run: Run, root: Client, url: str, tmp_path: Path) -> None:
    file = tmp_path / "lea"
    code, told, _ = run("token", "new", "lea", file)
    assert code == 0
    assert stat.S_IMODE(file.stat().st_mode) == 0o600
    first = read_token(file)
    assert told.strip() == first.digest
    assert run("token", "new", "lea", file)[::2] == (2, f"fashkiin: {file}: there is a file already, which is left as it is\n")
    root.users.create("lea", first.digest, ["A"])
    root.close()
    code, out, err = run("token", "rotate", "--token-file", file)
    assert (code, out) == (0, "")
    second = read_token(file)
    assert second.secret != first.secret
    assert first.secret.hex() not in err and second.secret.hex() not in err
    assert run("whoami", "--token-file", file)[1].startswith("lea\n")
    assert sorted(part.name for part in tmp_path.iterdir() if part.name.startswith("lea")) == ["lea"]
    root.users.drop("lea")
    root.close()
    assert run("token", "rotate", "--token-file", file)[0] == 4
    assert read_token(file) == second


def test_a_secret_is_in_no_repr() -> None:
    made = Token.parse(token("root"))
    assert made.secret.hex() not in repr(made) + str(made)


def test_settings_by_file_and_by_environment(run: Run, url: str, tmp_path: Path, monkeypatch: pytest.MonkeyPatch) -> None:
    monkeypatch.setenv("FASHKIIN_URL", "")
    config = tmp_path / "fashkiin" / "config.toml"
    config.parent.mkdir()
    config.write_text(f'url = "{url}"\ntimeout = 20\n')
    assert run("whoami")[0] == 0
    monkeypatch.setenv("FASHKIIN_URL", "http://127.0.0.1:1")
    assert run("whoami")[0] == 5
    assert run("whoami", "--url", url)[0] == 0


def test_a_closed_output_ends_the_command_quietly(table: Table, root: Client, url: str, token_file: Path) -> None:
    root.close()
    environment = os.environ | {"PYTHONPATH": str(TOP / "src")}
    words = [sys.executable, "-m", "fashkiin", "whoami", "--url", url, "--token-file", str(token_file)]
    reading, writing = os.pipe()
    os.close(reading)
    ended = subprocess.run(words, env=environment, stdout=writing, stderr=subprocess.PIPE, timeout=60)
    os.close(writing)
    assert (ended.returncode, ended.stderr) == (141, b"")


def test_changes_are_followed_until_an_interrupt(table: Table, root: Client, url: str, token_file: Path) -> None:
    environment = os.environ | {"PYTHONPATH": str(TOP / "src"), "PYTHONUNBUFFERED": "1"}
    words = ["audit", "--follow", "--interval", "0.1", "--url", url, "--token-file", str(token_file)]
    with subprocess.Popen(
        [sys.executable, "-m", "fashkiin", *words],
        env=environment,
        stdout=subprocess.PIPE,
        text=True,
        # A shell in the background ignores interrupts, and so do its children.
        preexec_fn=partial(signal.signal, signal.SIGINT, signal.SIG_DFL),
    ) as following:
        assert following.stdout is not None
        while following.stdout.readline() != f"root\tcreate-table\t{table.name}\tdone\n":
            pass
        root.tables.set_constraint(table.name, True)
        assert following.stdout.readline() == f"root\tconstraint\t{table.name}\tdone\n"
        following.send_signal(signal.SIGINT)
        assert following.wait(20) == 130


@pytest.mark.parametrize(
    ("before", "after", "new"),
    [
        ([], [1, 2], [1, 2]),
        ([1, 2], [1, 2], []),
        ([1, 2], [1, 2, 3], [3]),
        ([1, 2, 3], [2, 3, 4, 5], [4, 5]),
        ([1, 1, 1], [1, 1, 1, 1], [1]),
        ([1, 2], [7, 8], [7, 8]),
    ],
)
def test_what_is_new_in_a_listing(before: Sequence[int], after: Sequence[int], new: Sequence[int]) -> None:
    listing = [[Change("u", "put", str(number), 0) for number in numbers] for numbers in (before, after, new)]
    assert list(news(listing[0], listing[1])) == listing[2]


def test_progress_says_rows_rate_and_what_is_left(monkeypatch: pytest.MonkeyPatch) -> None:
    now = [100.0]
    monkeypatch.setattr("time.monotonic", lambda: now[0])
    out = io.StringIO()
    monkeypatch.setattr(out, "isatty", lambda: True)
    progress = Progress(out)
    source = Source("ships.csv", io.BufferedReader(io.BytesIO()))  # type: ignore[arg-type]
    monkeypatch.setattr(source, "fraction", lambda: 0.25)
    progress.begin(Tally(5))
    now[0] = 100.4
    progress.step(source, Tally(1005))
    assert out.getvalue() == ""
    now[0] = 102.0
    progress.step(source, Tally(2002, 1, 2))
    assert out.getvalue() == "\r\x1b[Kships.csv: 2,000 rows, 1,000 a second, 25 %, 6 s left"


def test_words_are_completed() -> None:
    pytest.importorskip("argcomplete")
    line = "fashkiin tables cr"
    environment = os.environ | {
        "PYTHONPATH": str(TOP / "src"),
        "_ARGCOMPLETE": "1",
        "_ARGCOMPLETE_STDOUT_FILENAME": "/dev/stdout",
        "COMP_LINE": line,
        "COMP_POINT": str(len(line)),
        "COMP_TYPE": "9",
        "IFS": "\n",
    }
    ended = subprocess.run([sys.executable, "-m", "fashkiin"], env=environment, capture_output=True, text=True, timeout=60)
    assert ended.stdout.strip() == "create"


def test_the_manual_page_is_that_of_the_command_and_is_sound() -> None:
    file = TOP / "man/fashkiin.1"
    assert file.read_text() == page()
    checked = subprocess.run(["groff", "-man", "-ww", "-z", str(file)], capture_output=True, text=True, timeout=60)
    assert (checked.returncode, checked.stderr) == (0, "")
    for command in COMMANDS:
        assert f".SS fashkiin {command}\n" in page()
    for number in EXIT_STATUSES:
        assert f".B {number}\n" in page()
