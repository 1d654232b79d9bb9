"""A server for all tests, and a table of its own for each."""

from __future__ import annotations

import itertools
import os
import pytest
from collections.abc import Callable, Iterator
from exported import Both, exported
from facade import Facade, started
from hypothesis import HealthCheck, settings
from pathlib import Path
from served import served, token

from fashkiin import Client, Table
from fashkiin.cli import main

# How quickly examples are found, and how many are too large, is up to chance and to the machine.
settings.register_profile(
    "few", max_examples=25, deadline=None, suppress_health_check=[HealthCheck.data_too_large, HealthCheck.too_slow]
)
settings.load_profile("few")
_numbers = itertools.count(1)


@pytest.fixture(scope="session")
def url() -> Iterator[str]:
    """The URL of a server whose root holds the authorizations A, B and C."""
    with served("A", "B", "C") as port:
        yield f"http://127.0.0.1:{port}"


@pytest.fixture(scope="session")
def facade() -> Iterator[Facade]:
    """The features over a server of their own."""
    with started() as facade:
        yield facade


@pytest.fixture
def root(url: str) -> Iterator[Client]:
    """A client of root."""
    with Client(url, token("root")) as client:
        yield client


@pytest.fixture
def table(root: Client) -> Table:
    """A new table."""
    name = f"test.t{os.getpid()}_{next(_numbers)}"
    root.tables.create(name, "day")
    return root.table(name)


@pytest.fixture
def token_file(tmp_path: Path) -> Path:
    """The token file of root."""
    file = tmp_path / "root-token"
    file.touch(mode=0o600)
    file.write_text(token("root") + "\n")
    return file


@pytest.fixture(scope="session")
def both(tmp_path_factory: pytest.TempPathFactory) -> Iterator[Both]:
    """A server, and a PostgreSQL that its export was loaded into."""
    with exported(tmp_path_factory.mktemp("export")) as both:
        yield both


Run = Callable[..., tuple[int, str, str]]


@pytest.fixture
def run(url: str, token_file: Path, capfd: pytest.CaptureFixture[str], monkeypatch: pytest.MonkeyPatch) -> Run:
    """Runs the command as root: its exit status, its data and its talk."""
    for name, value in (("URL", url), ("TOKEN_FILE", str(token_file)), ("CONFIG", "")):
        monkeypatch.setenv(f"FASHKIIN_{name}", value)
    monkeypatch.setenv("XDG_CONFIG_HOME", str(token_file.parent))

    def words(*given: object) -> tuple[int, str, str]:
        monkeypatch.setattr("sys.argv", ["fashkiin", *map(str, given)])
        capfd.readouterr()
        with pytest.raises(SystemExit) as ended:
            main()
        told = capfd.readouterr()
        code = ended.value.code
        return code if isinstance(code, int) else 1, told.out, told.err

    return words
