"""A PostgreSQL of its own for a test: an unprivileged user's, in a temporary folder, at a socket of that folder."""

from __future__ import annotations

import os
import shutil
import signal
import subprocess
import tempfile
import time
from collections.abc import Iterator
from contextlib import contextmanager
from pathlib import Path

PROGRAMS = Path("/usr/lib/postgresql/15/bin")
SUPERUSER = "chief"


@contextmanager
def postgres(*settings: str) -> Iterator[Path]:
    """The folder of the socket of a new cluster, which ends with the context. What is told is on disk only with `fsync=on`."""
    folder = Path(tempfile.mkdtemp(prefix="fashkiin"))
    # PostgreSQL does not run as root.
    user = "postgres" if os.geteuid() == 0 else None
    try:
        if user is not None:
            shutil.chown(folder, user)
        data = str(folder / "data")
        words = [str(PROGRAMS / "initdb"), "-D", data, "-U", SUPERUSER, "-A", "trust", "-E", "UTF8", "--no-locale", "--no-sync"]
        subprocess.run(words, user=user, cwd=folder, stdout=subprocess.DEVNULL, check=True)
        words = [str(PROGRAMS / "postgres"), "-D", data, "-k", str(folder)]
        for setting in ("listen_addresses=", "fsync=off", *settings):
            words += ["-c", setting]
        with (folder / "log").open("wb") as log, subprocess.Popen(words, user=user, cwd=folder, stderr=log) as server:
            try:
                _wait(folder)
                yield folder
            finally:
                server.send_signal(signal.SIGQUIT)
    finally:
        shutil.rmtree(folder, ignore_errors=True)


def _wait(folder: Path) -> None:
    for _ in range(300):
        if subprocess.run([PROGRAMS / "pg_isready", "-q", "-h", folder]).returncode == 0:
            return
        time.sleep(0.1)
    raise TimeoutError((folder / "log").read_text())
