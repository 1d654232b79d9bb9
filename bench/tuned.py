"""The environment of a measured server: the unit's settings of the C library's memory, unless `GLIBC_TUNABLES` says others."""
from __future__ import annotations

import os
import re
from pathlib import Path

UNIT = Path(__file__).resolve().parent.parent / "deploy/fashkiin.service"


def tunables() -> str:
    """What the unit sets `GLIBC_TUNABLES` to. `ValueError` where it does not set it."""
    found = re.search(r"^Environment=GLIBC_TUNABLES=(\S+)$", UNIT.read_text(), re.MULTILINE)
    if found is None:
        raise ValueError(f"{UNIT} does not set GLIBC_TUNABLES")
    return found[1]


ENVIRONMENT = {"GLIBC_TUNABLES": tunables(), **os.environ}
