"""The bytes of a GPX file, cut where points begin."""

from __future__ import annotations

import re
from codecs import BOM_UTF8
from functools import lru_cache
from io import BufferedReader
from itertools import islice

BLOCK = 1 << 20
"""How many bytes are read at a time where they are cut into pieces."""

_NEXT = re.compile(rb"<(?:(!--|!\[CDATA\[|\?)|((?:[\w.-]+:)?)(wpt|trkpt|rtept)(?=[\s/>]))")
"""The start of what may hide points, or of a point: its prefix and its name."""

_ENDS = {b"!--": b"-->", b"![CDATA[": b"]]>", b"?": b"?>"}
"""Where that ends."""

_STOPS = {b"wpt": (b"<%strk", b"<%srte"), b"trkpt": (b"</%strkseg",), b"rtept": (b"</%srte>",)}
"""What may stand between points of a name; its prefix goes in. More is found where the points are parsed."""

_OTHER_ENCODING = re.compile(rb"""encoding\s*=\s*["'](?!(?i:utf-8)["'])""")
"""What the declaration of a document says that is not in UTF-8."""


class Pieces:
    """The bytes of a file, cut where points begin. All processes that read it cut it alike."""

    def __init__(self, stream: BufferedReader) -> None:
        self._stream = stream
        self._data = stream.read(BLOCK)
        self._at = 0
        self._ended = len(self._data) < BLOCK
        self.are_utf8 = _is_utf8(self._data)

    def take(self, most: int, is_inside: bool) -> tuple[bytes, list[int]]:
        """The next piece, which is empty at the end; and where its points begin, if it seems to be nothing but up to `most` whole
        ones. Inside of a point none is looked for."""
        if len(self._data) - self._at < BLOCK // 2 and not self._ended:
            block = self._stream.read(BLOCK)
            self._data, self._at, self._ended = self._data[self._at :] + block, 0, len(block) < BLOCK
        data, at = self._data, self._at
        found = None if is_inside else _NEXT.match(data, at)
        starts, self._at = self._points(found[2], found[3], most) if found and found[3] else ([], at)
        if self._at == at:
            self._at = self._next(at + 1 if found and found[3] else at)
        return data[at : self._at], [start - at for start in starts]

    def _next(self, at: int) -> int:
        """Where the next point begins that is not hidden, or what was read ends."""
        while (found := _NEXT.search(self._data, at)) is not None:
            if found[3]:
                return found.start()
            at = self._data.find(_ENDS[found[1]], found.end())
            if at < 0:
                break
        return len(self._data)

    def _points(self, prefix: bytes, name: bytes, most: int) -> tuple[list[int], int]:
        """Where up to so many points of a name begin, and where they end."""
        data, at = self._data, self._at
        starts = [it.start() for it in islice(_begin(prefix + name).finditer(data, at), most + 1)]
        is_open = len(starts) <= most
        stop = len(data) if is_open else starts.pop()
        stops = [data.find(it % prefix, at, stop) for it in _STOPS[name]]
        if any(it >= 0 for it in stops):
            stop = min(it for it in stops if it >= 0)
            starts = [it for it in starts if it < stop]
        elif is_open:
            stop = starts.pop()  # It may go on behind what was read.
        if data.find(b"<!--", at, stop) >= 0 or data.find(b"<?", at, stop) >= 0:
            starts = []
        return starts, stop


def _is_utf8(start: bytes) -> bool:
    """Whether a document that begins so is in UTF-8, if its points can be found as bytes of ASCII."""
    declaration, end, _ = start.removeprefix(BOM_UTF8).partition(b"?>")
    return not declaration.startswith(b"<?xml") or (bool(end) and not _OTHER_ENCODING.search(declaration))


@lru_cache(maxsize=16)
def _begin(name: bytes) -> re.Pattern[bytes]:
    """Where points of a name with its prefix begin."""
    return re.compile(re.escape(b"<" + name))
