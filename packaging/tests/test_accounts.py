"""What another local account tries at the server as its unit starts it: to connect to it, and to take its place while it is down."""

from __future__ import annotations

import os
import re
import shlex
import subprocess
import sys
import tempfile
from collections.abc import Iterator
from pathlib import Path

import pytest

from served import PROGRAM, TOP, digest

UNIT = (TOP / "deploy/fashkiin.service").read_text()
# What a thief of tokens does at a port or at the path of a socket: whether each went through.
THIEF = """
import os, socket, sys

def done(act):
    try:
        act()
    except PermissionError:
        return False
    return True

at = sys.argv[1]
place, family = (("127.0.0.1", int(at)), socket.AF_INET) if at.isdigit() else (at, socket.AF_UNIX)
listener = socket.socket(family)
acts = [lambda: socket.socket(family).connect(place)] if sys.argv[2] == "running" else []
if family == socket.AF_UNIX:
    acts += [lambda: os.rename(at, at + ".old"), lambda: os.unlink(at)]
acts += [lambda: listener.bind(place)] if family == socket.AF_UNIX or sys.argv[2] != "running" else []
print(*(done(act) for act in acts))
"""


@pytest.fixture
def folder() -> Iterator[Path]:
    """A folder that every account may enter, unlike those of pytest, with the unit's directories in it."""
    with tempfile.TemporaryDirectory() as made:
        Path(made).chmod(0o755)
        for name, mode in re.findall(r"^(State|Runtime)DirectoryMode=(\d+)$", UNIT, re.M):
            (Path(made) / name).mkdir()
            (Path(made) / name).chmod(int(mode, 8))
        yield Path(made)


def command(folder: Path) -> list[str]:
    """The unit's command line with its own environment, in these directories."""
    lines = [it for line in re.findall(r"^Environment=(.*)$", UNIT, re.M) for it in shlex.split(line)]
    variables = dict(it.split("=", 1) for it in lines) | {"ROOT_DIGEST": digest("root"), "ROOT_AUTHS": "coast"}
    line = re.findall(r"^ExecStart=/usr/bin/st_served (.*)$", UNIT, re.M)[0]
    line = re.sub(r"\$\{?(\w+)\}?", lambda found: variables[str(found[1])], line)
    return [str(PROGRAM), *line.replace("/var/lib/fashkiin", f"{folder}/State").replace("/run/fashkiin", f"{folder}/Runtime").split()]


def stolen(place: str, state: str) -> list[str]:
    """What an account without rights did at the place."""
    words = [sys.executable, "-c", THIEF, place, state]
    told = subprocess.run(words, user="nobody", group="nogroup", extra_groups=[], cwd="/", capture_output=True, text=True)
    assert told.stderr == ""
    return told.stdout.split()


@pytest.mark.skipif(os.geteuid() != 0, reason="only root may take another account")
def test_another_account_can_neither_connect_to_the_server_nor_listen_in_its_place(folder: Path) -> None:
    with subprocess.Popen(command(folder), stdout=subprocess.PIPE, text=True) as server:
        assert server.stdout is not None
        try:
            place = server.stdout.readline().removeprefix("listening ").strip()
            running = stolen(place, "running")
        finally:
            server.kill()
    assert place
    assert (set(running), set(stolen(place, "killed"))) == ({"False"}, {"False"})
