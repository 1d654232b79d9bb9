"""What the built programs print of themselves, and where `st_served` listens."""
import os
import re
import socket
import subprocess
from pathlib import Path

import pytest

from served import PROGRAM, TOP, digest, served

RUN = Path(os.environ.get("ST_RUN", TOP / "crates/st_run/out/st_run"))
VERSION = re.findall(r"^## \[(.*)\]", (TOP / "docs/CHANGELOG.md").read_text(), re.M)[0]


def ran(program: Path, *words: str) -> tuple[int, str, str]:
    """The status of a program that ends at once, and what it wrote to standard output and to standard error."""
    it = subprocess.run([program, *words], stdin=subprocess.DEVNULL, capture_output=True, text=True, timeout=10)
    return it.returncode, it.stdout, it.stderr


@pytest.mark.parametrize(("program", "name"), [(RUN, "st_run"), (PROGRAM, "st_served")], ids=["st_run", "st_served"])
def test_version_and_help_go_to_standard_output(program: Path, name: str) -> None:
    assert ran(program, "--version") == (0, f"{name} {VERSION}\n", "")
    status, told, faults = ran(program, "--help")
    assert (status, faults) == (0, "")
    assert re.search(r"^ +--root <DIGEST> +The SHA-256 of root's secret", told, re.M)
    assert told.startswith("Serves labelled points in place and time ")


def test_every_option_of_the_server_is_in_its_help_and_in_its_manual_page() -> None:
    told = set(re.findall(r"--[a-z]+", ran(PROGRAM, "--help")[1]))
    page = (TOP / "packaging/man/st_served.1").read_text().replace("\\-", "-")
    assert told == set(re.findall(r"--[a-z]+", page))
    assert {"--workers", "--idle", "--listen"} < told


def test_arguments_that_are_refused() -> None:
    line = ["--root", digest("root"), "--port", "47001"]
    assert ran(PROGRAM, *line, "--listen", "localhost") == (2, "", "st_served: bad address\n")
    for wrong in (["--workers", "0"], ["--workers", "257"], ["--idle", "0"], ["--idle", "3601"], ["--version=1"]):
        status, told, faults = ran(PROGRAM, *line, *wrong)
        assert (status, told, faults[:7]) == (2, "", "error: ")


def test_options_that_want_a_file_name_it() -> None:
    line = ["--root", digest("root"), "--port", "47001"]
    stored = "--compact and --copy want --store FILE\n"
    assert ran(PROGRAM, *line, "--compact") == (2, "", f"st_served: {stored}")
    assert ran(PROGRAM, *line, "--copy", "copy.db") == (2, "", f"st_served: {stored}")
    assert ran(PROGRAM, *line, "--store", "store.db", "--copy-every", "1") == (2, "", "st_served: --copy-every wants --copy FILE\n")
    assert ran(RUN, "--root", digest("root"), "--compact") == (2, "", f"st_run: {stored}")
    for wrong in (["--copy-every", "0"], ["--copy-every", "3601"]):
        status, told, faults = ran(PROGRAM, *line, *wrong)
        assert (status, told, faults[:7]) == (2, "", "error: ")


def test_server_listens_at_the_address_that_it_is_told() -> None:
    """Every address of 127.0.0.0/8 is one of the loopback interface."""
    with served("--listen", "127.0.0.2") as port:
        socket.create_connection(("127.0.0.2", port), 5).close()
        with pytest.raises(ConnectionRefusedError):
            socket.create_connection(("127.0.0.1", port), 5)
