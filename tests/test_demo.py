"""`./demo` as a user runs it: with the built program, and where `rt` has to compile one first."""
import os
import re
import signal
import subprocess
from pathlib import Path

import pytest

from served import PROGRAM, TOP

COUNTS = {"ann": 498, "ben": 319, "eve": 97}


def heed_interrupts() -> None:
    """Undoes what a shell does to the processes that it starts in the background."""
    signal.signal(signal.SIGINT, signal.SIG_DFL)


def shown(environment: dict[str, str]) -> list[str]:
    """The lines of `./demo` until it is ready, when it is interrupted: nothing that it started stays."""
    with subprocess.Popen(
        ["./demo"], cwd=TOP, env=environment, stdout=subprocess.PIPE, stderr=subprocess.STDOUT, text=True, preexec_fn=heed_interrupts
    ) as demo:
        assert demo.stdout is not None
        lines = []
        for line in demo.stdout:
            lines.append(line.rstrip("\n"))
            if line.startswith("Ctrl-C ends everything."):
                demo.send_signal(signal.SIGINT)
                break
        try:
            assert demo.wait(20) == 130, lines
        finally:
            demo.kill()
    for user, count in COUNTS.items():
        assert any(line.startswith(f"{user} counts {count:3} rows, with the token {user}.") for line in lines)
    assert any(line.startswith("The map, into which each token can be pasted: http://127.0.0.1:") for line in lines)
    return lines


def test_with_the_built_program_nothing_is_compiled() -> None:
    lines = shown(os.environ | {"ST_SERVED": str(PROGRAM.absolute())})
    assert not any("rt compiles" in line for line in lines)


@pytest.fixture
def slow_rt(tmp_path: Path) -> Path:
    """A folder with an `rt` that takes three seconds before `rt try .. -- WORDS` runs the built program."""
    rt = tmp_path / "rt"
    run = f'exec {PROGRAM.absolute()} "$@"'
    rt.write_text(f'#!/bin/sh\n[ "$1" = try ] || exit 2\nuntil [ "$1" = -- ]; do shift; done\nshift\nsleep 3\n{run}\n')
    rt.chmod(0o755)
    return tmp_path


def test_without_it_it_says_that_rt_compiles_one_and_for_how_long(slow_rt: Path, tmp_path: Path) -> None:
    missing = tmp_path / "st_served"
    path = f"{slow_rt}:{os.environ['PATH']}"
    lines = shown(os.environ | {"PATH": path, "ST_SERVED": str(missing)})
    assert lines[0] == f"The server is not built ({missing}). rt compiles one without proofs, which takes minutes."
    assert re.fullmatch(r"rt compiles the server: [2-9] s", lines[1])


def test_an_rt_that_fails_is_told_with_what_it_said(slow_rt: Path, tmp_path: Path) -> None:
    (slow_rt / "rt").write_text("#!/bin/sh\necho no memory >&2\nexit 2\n")
    environment = os.environ | {"PATH": f"{slow_rt}:{os.environ['PATH']}", "ST_SERVED": str(tmp_path / "st_served")}
    ended = subprocess.run(["./demo"], cwd=TOP, env=environment, capture_output=True, text=True, timeout=60)
    assert (ended.returncode, ended.stderr.splitlines()) == (1, ["demo: the server or the map did not start:", "no memory"])
