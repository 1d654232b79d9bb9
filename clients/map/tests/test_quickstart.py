"""docs/QUICKSTART.md, from its first command to its last, with the map that it opens.

The commands run in one shell, in a copy of the repository's top whose files of deploy/ have free ports, in a home of their own.
"""

from __future__ import annotations

import contextlib
import os
import re
import selectors
import shutil
import signal
import subprocess
import time
from collections.abc import Iterator
from pathlib import Path
from typing import NamedTuple

import pytest

from page import Page, chromium
from postgres import SUPERUSER, postgres
from served import PROGRAM, TOP, free_port

PORTS = {it: free_port() for it in ("47001", "8080")}
SECONDS = 120
"""The most that a command may take."""


class Step(NamedTuple):
    """A command of the document and the lines that follow it there."""

    command: str
    shown: list[str]


def with_ports(text: str) -> str:
    return re.sub(r"\b(47001|8080)\b", lambda port: str(PORTS[port[0]]), text)


def steps() -> list[Step]:
    """The commands of the document's console blocks, in order."""
    text = with_ports((TOP / "docs/QUICKSTART.md").read_text())
    found: list[Step] = []
    for block in re.findall(r"^```console\n(.*?)^```$", text, re.M | re.S):
        for line in block.splitlines():
            if line.startswith(("$ ", "# ")):
                found.append(Step(line[2:], []))
            elif line.startswith("> "):
                found[-1] = found[-1]._replace(command=f"{found[-1].command}\n{line[2:]}")
            else:
                found[-1].shown.append(line)
    return found


class Shell:
    """A shell that runs commands one after another, as at a terminal."""

    def __init__(self, folder: Path, home: Path, database: Path) -> None:
        self._home = home
        apt = home / "apt.conf"  # which waits for another apt-get
        apt.write_text('DPkg::Lock::Timeout "100";')
        environment = {
            "HOME": str(home), "PATH": "/usr/sbin:/usr/bin:/sbin:/bin", "LANG": "C.UTF-8",
            "APT_CONFIG": str(apt), "DEBIAN_FRONTEND": "noninteractive",
            "PGHOST": str(database), "PGUSER": SUPERUSER,
        }
        self._bash = subprocess.Popen(
            ["bash", "--norc"], cwd=folder, env=environment, start_new_session=True,
            stdin=subprocess.PIPE, stdout=subprocess.PIPE, stderr=subprocess.STDOUT,
        )
        assert self._bash.stdin is not None and self._bash.stdout is not None
        self._input, self._output = self._bash.stdin, self._bash.stdout
        self._selector = selectors.DefaultSelector()
        self._selector.register(self._output, selectors.EVENT_READ)

    def run(self, step: Step) -> tuple[list[str], int]:
        """The lines that a command writes, and its status; lines of a command in the background are waited for."""
        self._input.write(f"{step.command}\necho status=$?\n".encode())
        self._input.flush()
        data, end = b"", time.monotonic() + SECONDS
        while True:
            lines = data.decode().split("\n")
            status = next((it for it in lines if it.startswith("status=")), None)
            enough = not step.command.endswith("&") or len(lines) > 1 + len(step.shown)
            if status is not None and data.endswith(b"\n") and enough:
                told = [it for it in lines[:-1] if it != status and not it.startswith("[")]
                return told, int(status.removeprefix("status="))
            if not self._selector.select(max(0, end - time.monotonic())):
                raise TimeoutError(f"{step.command}\n{data.decode()}")
            piece = os.read(self._output.fileno(), 65_536)
            if not piece:
                raise EOFError(f"{step.command}\n{data.decode()}")
            data += piece

    def close(self) -> None:
        """Ends the shell and what it left running: processes that a file names, in the folder of the document."""
        folder = self._home / "storms"
        for file in (folder / "haproxy.pid", folder / "run/nginx/pid"):
            with contextlib.suppress(OSError):  # it has ended, and its file may go with it
                pid = int(file.read_text())
                if Path(f"/proc/{pid}/cwd").readlink() == folder.resolve():
                    os.kill(pid, signal.SIGTERM)
        os.killpg(self._bash.pid, signal.SIGTERM)
        self._bash.wait(10)
        self._input.close()
        self._output.close()


@pytest.fixture
def shell(tmp_path: Path) -> Iterator[Shell]:
    top, home = tmp_path / "top", tmp_path / "home"
    home.mkdir()
    (top / "crates/st_served/out").mkdir(parents=True)
    (top / "crates/st_served/out/st_served").symlink_to(PROGRAM.absolute())
    (top / "clients").symlink_to(TOP / "clients")
    shutil.copytree(TOP / "deploy", top / "deploy")
    for file in (top / "deploy").iterdir():
        file.write_text(with_ports(file.read_text()))
    if os.geteuid() == 0:  # whose folders nginx's own user may not read
        page = top / "deploy/nginx.conf"
        page.write_text("user root;\n" + page.read_text())
    with postgres() as database:
        made = Shell(top, home, database)
        yield made
        made.close()


def test_every_command_does_what_the_page_says(shell: Shell) -> None:
    todo = steps()
    assert len(todo) > 20
    opened = False
    for step in todo:
        told, status = shell.run(step)
        refused = any(it.startswith("fashkiin: ") for it in step.shown)
        assert (status == 0) != refused, (step, told)
        if step.shown:
            assert told == step.shown, step.command
        if step.command == "cat ann.token":
            see_the_map(shell, told[0])
            opened = True
    assert opened


def see_the_map(shell: Shell, ann: str) -> None:
    """The page shows each user as many rows as the document says."""
    (eve, *_), _ = shell.run(Step("cat eve.token", []))
    driver = chromium()
    try:
        page = Page(driver, f"http://127.0.0.1:{PORTS['8080']}")
        for user, token, rows in (("ann", ann, 11_859), ("eve", eve, 2_898)):
            page.open(token)
            assert page.total == rows
    finally:
        driver.quit()
