"""Texts on a terminal, and files that their owner alone may read."""

from __future__ import annotations

import io
import os
import re
import stat
from collections.abc import Iterable
from pathlib import Path
from typing import TextIO

_PLAIN = re.compile(r"[A-Za-z0-9_.:/-]+\Z")


def printable(text: str) -> str:
    """A text without control characters, which would reach the terminal: `\\x1b` stands for an escape."""
    return "".join(letter if letter.isprintable() else ascii(letter)[1:-1] for letter in text)


def names(given: Iterable[str]) -> str:
    """Authorizations with blanks between. One that a label would quote is quoted as there."""
    return " ".join(quoted(name) for name in given)


def quoted(name: str) -> str:
    """An authorization as it stands in a label: in quotes, where it has other characters than letters, digits and `_-.:/`."""
    if _PLAIN.match(name):
        return name
    escaped = name.replace("\\", "\\\\").replace('"', '\\"')
    return printable(f'"{escaped}"')


def open_private(path: Path) -> TextIO:
    """A file to write UTF-8 to, emptied if it is there, whose mode is 0600 from now on whatever the umask. A pipe or a device is
    left as it is. `OSError` where it cannot be opened, or is another user's."""
    return io.TextIOWrapper(open_private_bytes(path), encoding="utf-8", newline="")


def open_private_bytes(path: Path) -> io.BufferedWriter:
    """The same, for bytes."""
    descriptor = os.open(path, os.O_WRONLY | os.O_CREAT, 0o600)
    try:
        if stat.S_ISREG(os.fstat(descriptor).st_mode):
            os.fchmod(descriptor, 0o600)
            os.ftruncate(descriptor, 0)
        return open(descriptor, "wb")
    except BaseException:
        os.close(descriptor)
        raise
