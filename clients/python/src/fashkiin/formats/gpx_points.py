"""The points of a GPX file: of all of it, or of a share, whose process parses none of the others' points."""

from __future__ import annotations

import codecs
import os
import zlib
from collections import deque
from collections.abc import Callable, Iterable, Iterator, Sequence
from io import BytesIO
from typing import TYPE_CHECKING, Any

from fashkiin.errors import InputError
from fashkiin.formats.fields import Source
from fashkiin.formats.gpx_pieces import Pieces
from fashkiin.formats.gpx_shapes import Shapes
from fashkiin.formats.gpx_texts import Texts, local, texts_of
from fashkiin.shares import RUN, Share, ShareError

if TYPE_CHECKING:
    from xml.etree import ElementTree

POINTS = ("wpt", "trkpt", "rtept")
TRACKS = ("trk", "rte")
PIECE = 65_536

MOST = 64
"""How many points are parsed at a time: more of them are not held in the caches of a processor, and take longer."""

Point = tuple["ElementTree.Element", dict[str, Any]]
"""A point, and what it has of its track."""

Placed = tuple[int, Point]
"""A point with the line on which it ends."""

Told = tuple[int, Texts, dict[str, Any]]
"""A point's line, its texts, and what it has of its track."""

NOTHING: Told = (0, Texts(None, None, (), ()), {})
"""What stands in place of a point that is left out."""


def points(source: Source, encoding: str) -> Iterator[Placed]:
    """The points of a file. An encoding counts before the one that the file names."""
    from xml.etree import ElementTree

    document = _Document(source, encoding)
    data = b""
    try:
        for data in iter(lambda: source.stream.readline(PIECE), b""):
            yield from document.feed(data)
        yield from document.close()
    except ElementTree.ParseError as error:
        raise source.fail(str(error.position[0]), f"{error}, wanted GPX" + _hint(data)) from None
    except (LookupError, ValueError) as error:
        raise source.fail(str(document.line), f"{error}, wanted GPX in another --encoding") from None


def _hint(line: bytes) -> str:
    """What to try where a line is no XML."""
    try:
        line.decode()
    except UnicodeDecodeError:
        return " in UTF-8, or its --encoding"
    return ""


def shared_points(source: Source, size: int, share: Share, is_for_kinds: bool = False) -> Iterator[tuple[int, list[Told]]]:
    """The points of a share by up to `RUN` times `size` at a time, with how many are before them. For kinds of texts, `NOTHING`
    stands in place of points that have the same kinds as others before. `ShareError` where the file is another than it seems
    without being parsed, or cannot be read on."""
    from xml.etree import ElementTree

    try:
        yield from _runs(source, size, share, is_for_kinds)
    except (ElementTree.ParseError, LookupError, ValueError, InputError, OSError, EOFError, zlib.error) as error:
        raise ShareError(str(error)) from None


def _runs(source: Source, size: int, share: Share, is_for_kinds: bool) -> Iterator[tuple[int, list[Told]]]:
    """The runs of a share. What is not sure to be points of another share is parsed, too."""
    pieces = Pieces(source.stream)
    document = _Document(source, "", pieces.are_utf8)
    run: list[Told] = []
    number, most = 0, RUN * size
    while True:
        piece, starts = pieces.take(min(MOST, most - number % most), document.within is None)
        if not piece:
            break
        groups: Iterable[list[Told]]
        if not starts:
            groups = ([told] for told in document.lines(piece))
        elif share.has(number // size):
            groups = [document.whole(piece, starts, is_for_kinds)]
        else:
            document.skip(piece)
            groups = [[NOTHING] * len(starts)]
        for group in groups:
            if share.has(number // size):
                run += group
            number += len(group)
            if run and number % most == 0:
                yield number - len(run), run
                run = []
    document.finish()
    if run:
        yield number - len(run), run


class _Document:
    """A GPX document that is read piece by piece. What has been read is let go."""

    def __init__(self, source: Source, encoding: str, is_utf8: bool = False) -> None:
        from xml.etree import ElementTree

        self.line = 1
        self._source = source
        self._parser = ElementTree.XMLPullParser(["start", "end", "start-ns", "end-ns"])
        self._decode: Callable[[bytes], str] | None = codecs.getincrementaldecoder(encoding)().decode if encoding else None
        self._around: list[tuple[str, ElementTree.Element]] = []
        self._point: ElementTree.Element | None = None
        self._track: dict[str, Any] = {}
        self._segment = 0
        self._mark = f"cut-{os.urandom(8).hex()}"
        self._is_marked = False
        """Whether a mark was found behind all that was parsed but whole points, so that it does not end within a comment, say."""
        self._shapes = Shapes(is_utf8)

    @property
    def within(self) -> str | None:
        """In which element it goes on; None inside of a point, and outside of all elements."""
        return self._around[-1][0] if self._around and self._point is None else None

    def feed(self, data: bytes) -> Iterator[Placed]:
        """The points that end in a line or a part of one."""
        self._parser.feed(self._decode(data) if self._decode else data)
        yield from self._ended()
        self.line += data.endswith(b"\n")

    def close(self) -> Iterator[Placed]:
        """The points that end with the document, if it is whole."""
        self._parser.close()
        yield from self._ended()

    def _ended(self) -> Iterator[Placed]:
        """The points that have ended."""
        for event, element in self._parser.read_events():
            if self._point is not None and element is not self._point:
                continue  # It is within the point, and is read with it.
            if event == "start":
                self._start(element)
                continue
            if event != "end":
                self._shapes.clear()  # A namespace is declared here, or was.
                continue
            self._around.pop()
            within, parent = self._around[-1] if self._around else ("", None)
            if self._point is not None:
                yield self.line, (element, self._of_track(within))
                self._point = None
            else:
                self._end(element, within)
            if parent is not None:
                parent.remove(element)

    def _of_track(self, within: str) -> dict[str, Any]:
        """What a point has of its track."""
        return self._track | ({"segment": self._segment} if within == "trkseg" else {})

    def _start(self, element: ElementTree.Element) -> None:
        tag = local(element.tag)
        if not self._around and tag != "gpx":
            raise self._source.fail(str(self.line), f"an element {tag}, wanted gpx")
        self._around.append((tag, element))
        self._segment += tag == "trkseg"
        self._point = element if tag in POINTS else None

    def _end(self, element: ElementTree.Element, within: str) -> None:
        """An element has ended that is no point."""
        tag = local(element.tag)
        if tag in TRACKS and within == "gpx":
            self._track, self._segment = {}, 0
        elif within in TRACKS and tag in ("name", "type") and element.text:
            self._track["track" if tag == "name" else "type"] = element.text
        elif within in ("gpx", "trkseg", *TRACKS) and tag not in ("trkseg", *TRACKS):
            self._source.dropped[f"{tag} of {within}"] = None

    def lines(self, piece: bytes) -> Iterator[Told]:
        """The points that end in a piece."""
        self._is_marked = False
        for data in BytesIO(piece):
            for line, (point, track) in self.feed(data):
                yield line, texts_of(point), track

    def finish(self) -> None:
        """The document has ended. `ShareError` where a point ends only now."""
        if any(True for _ in self.close()):
            raise ShareError("a point at the end")

    def skip(self, piece: bytes) -> None:
        """Leaves a piece of whole points out."""
        self.line += piece.count(b"\n")

    def whole(self, piece: bytes, starts: Sequence[int], is_for_kinds: bool) -> list[Told]:
        """The points of a piece that begin at these places, by their shapes where these are known. For kinds of texts, `NOTHING`
        stands in place of those of a piece whose shapes are all known. `ShareError` where it is not just these points."""
        if not self._is_marked:
            self._parsed(b"", 0)
            self._is_marked = True
        if is_for_kinds and self._shapes.cover(piece):
            self.skip(piece)
            return [NOTHING] * len(starts)
        track = self._of_track(self._around[-1][0])
        found, are_all = self._shapes.read(piece)
        if not are_all:
            known = len(found)
            found = [texts_of(it) for it in self._parsed(piece, len(starts))]
            if known < len(starts):
                self._shapes.learn(piece[slice(*[*starts, len(piece)][known : known + 2])], found[known])
        return [(line, texts, track) for line, texts in zip(self._lines(piece, starts), found, strict=True)]

    def _parsed(self, piece: bytes, count: int) -> list[ElementTree.Element]:
        """The points of a piece of so many, by the parser. `ShareError` where it is not just these, or leads elsewhere: then a
        mark behind it is not found beside them."""
        parent = self._around[-1][1]
        self._parser.feed(b"%b<%b/>" % (piece, self._mark.encode()))
        deque(self._parser.read_events(), 0)
        found = list(parent)
        del parent[:]
        mark = found.pop() if found else None
        names = {local(it.tag) for it in found}
        between = "".join([it.tail for it in found if it.tail])
        is_marked = mark is not None and local(mark.tag) == self._mark
        if not is_marked or len(found) != count or not names.issubset(POINTS) or between.strip():
            raise ShareError("a piece that is not just points")
        return found

    def _lines(self, piece: bytes, starts: Sequence[int]) -> list[int]:
        """The lines on which points end that have nothing but blanks between them."""
        lines, end = [], 0
        for start, stop in zip(starts, [*starts[1:], len(piece)], strict=True):
            before, end = end, piece.rfind(b">", start, stop) + 1
            if not piece.endswith((b"t>", b"/>"), start, end):
                raise ShareError("a point with something behind it")
            self.line += piece.count(b"\n", before, end)
            lines.append(self.line)
        self.line += piece.count(b"\n", end)
        return lines
