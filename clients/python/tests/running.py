"""The command as a process of its own."""

from __future__ import annotations

import os
import sys
from pathlib import Path

COMMAND = [sys.executable, "-m", "fashkiin"]
SOURCE = Path(__file__).resolve().parent.parent / "src"


def environment(**more: str) -> dict[str, str]:
    """The environment of a process that finds the package, with further variables."""
    return {**os.environ, "PYTHONPATH": str(SOURCE), **more}
