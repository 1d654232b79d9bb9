"""How far a load is, on standard error."""

from __future__ import annotations

import sys
import time
from typing import TextIO

from fashkiin.formats import Source
from fashkiin.tally import Tally


class Progress:
    """Rows, rows a second and what is left, on standard error: twice a second on a terminal, each ten seconds elsewhere."""

    def __init__(self, out: TextIO | None = None) -> None:
        self._out = out or sys.stderr
        self._terminal = self._out.isatty()
        self._pause = 0.5 if self._terminal else 10.0
        self._start = self._last = time.monotonic()
        self._before = 0
        self._shown = False

    def begin(self, tally: Tally) -> None:
        """A new source begins."""
        self._start = self._last = time.monotonic()
        self._before = tally.read

    def step(self, source: Source, tally: Tally) -> None:
        """A row more is done."""
        now = time.monotonic()
        if now - self._last < self._pause:
            return
        self._last = now
        rows = tally.read - self._before
        elapsed = now - self._start
        text = f"{source.name}: {rows:,} rows, {rows / elapsed:,.0f} a second"
        fraction = source.fraction()
        if fraction:
            text += f", {100 * fraction:.0f} %, {elapsed * (1 - fraction) / fraction:,.0f} s left"
        self._out.write(f"\r\x1b[K{text}" if self._terminal else text + "\n")
        self._out.flush()
        self._shown = True

    def clear(self) -> None:
        """Clears the line, so that something else can be said."""
        if self._terminal and self._shown:
            self._out.write("\r\x1b[K")
            self._out.flush()
