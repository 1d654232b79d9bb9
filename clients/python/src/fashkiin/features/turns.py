"""How many requests of one caller are answered at a time."""

from __future__ import annotations

import threading
from collections import Counter
from collections.abc import Iterator
from contextlib import contextmanager

from fashkiin.errors import FashkiinError
from fashkiin.tokens import Token

MOST = 12


class BusyError(FashkiinError):
    """As many requests of a token are being answered as may be at a time."""


class Turns:
    """Counts the requests of each token that are being answered, so that one caller leaves threads to others."""

    def __init__(self) -> None:
        self._lock = threading.Lock()
        self._taken: Counter[str] = Counter()

    @contextmanager
    def turn(self, token: Token) -> Iterator[None]:
        """A turn for the time of a request; `BusyError` where `MOST` are taken."""
        holder = token.digest
        with self._lock:
            if self._taken[holder] >= MOST:
                raise BusyError(f"{MOST} requests at a time")
            self._taken[holder] += 1
        try:
            yield
        finally:
            with self._lock:
                self._taken[holder] -= 1
                if not self._taken[holder]:
                    del self._taken[holder]
