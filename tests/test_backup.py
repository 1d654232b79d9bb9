"""The back up of a copy while the server goes on, by the commands of docs/OPERATIONS.md."""

from __future__ import annotations

import re
import sqlite3
import stat
import subprocess
from pathlib import Path

OPERATIONS = Path(__file__).resolve().parent.parent / "docs/OPERATIONS.md"


def test_the_documented_backup_is_its_owners_alone(tmp_path: Path) -> None:
    """Under the usual umask, by which SQLite makes files that everybody reads."""
    found = re.search(r"\n\n((?:    .+\n)*    .*'\.backup backup\.db'.*\n)", OPERATIONS.read_text())
    assert found
    with sqlite3.connect(tmp_path / "copy.db") as copy:
        copy.execute("create table changes (number integer primary key)")
        copy.execute("insert into changes values (7)")
    subprocess.run(["bash", "-e", "-c", found[1]], cwd=tmp_path, umask=0o022, check=True)
    with sqlite3.connect(tmp_path / "backup.db") as backup:
        assert backup.execute("select number from changes").fetchall() == [(7,)]
    assert stat.S_IMODE((tmp_path / "backup.db").stat().st_mode) == 0o600
