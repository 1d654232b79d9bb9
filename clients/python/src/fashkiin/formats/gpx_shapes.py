"""Points of GPX that are written alike but for their texts: these are found without parsing each point.

A form is a point with marks in place of its degrees and of its elements' texts. A parser tells what it makes of the form: each
mark must be the whole of one text. So other texts may stand in their place, if they have no markup, and no references but to
characters that XML names. What is not sure is left to the parser.
"""

from __future__ import annotations

import re
from collections.abc import Sequence
from functools import lru_cache
from itertools import count
from typing import NamedTuple

from fashkiin.formats.gpx_texts import Texts, texts_of
from fashkiin.formats.numbers import DIGITS, number

MOST = 8
"""How many shapes are looked for at a time."""

FORMS, LONGEST = 32, 4_096
"""How many more pieces of a document may have a point of a new form than have none; and the most characters of a form. Points of
ever new forms are better parsed."""

RESOLVED = 4_096
"""How many texts with references are remembered."""

DEGREES, NUMBER, TEXT, BLANKS = "\0", "\1", "\2", "\3"
"""What stands in a form of points in place of degrees, of a number, of another text, and of blanks alone."""

OWN = "\ue000"
"""What a text begins with that a form of its own has."""

_MARKS = re.compile("([\0\1\2\3])")
_PATTERNS = {
    DEGREES: "[-+.0-9eE]++",
    NUMBER: rf"(?=-?[.0-9]{{1,{DIGITS + 1}}}<)-?(?:0|[1-9][0-9]{{0,{DIGITS - 1}}})(?:\.[0-9]++)?",
    TEXT: r"(?=\S)[^<>\x00-\x1f\x7f-\x9f\ufffe\uffff]++(?<=\S)",
    BLANKS: r"[ \t\r\n]*+",
}
"""Nothing of more than one character is repeated in them: Python 3.11.2 has faults there."""

_DIFFERENT = re.compile(r"""(\s(?:lat|lon)=["'])[^"'<>&]*+(?=["'])|>([^<>]++)(?=<)""")
"""What differs between points of a form."""

_PREFIX = re.compile(r"[<\s]/?([A-Za-z_][\w.-]*):")
_OTHER_REFERENCE = re.compile("&(?!(?:lt|gt|quot|apos|amp);)")


class Shape(NamedTuple):
    """A pattern of points with the blanks behind them, of which `plain` has no groups. Its groups `order` are the longitude, the
    latitude, and the texts of the elements of these names."""

    plain: str
    pattern: re.Pattern[str]
    order: tuple[int, ...]
    names: tuple[str, ...]


class Shapes:
    """The shapes of the last points of a document. None is learnt where it is not UTF-8."""

    def __init__(self, is_utf8: bool) -> None:
        self._left = FORMS if is_utf8 else 0
        """How many forms may still be learnt."""
        self._shapes: list[Shape] = []
        self._any: re.Pattern[str] | None = None
        """A pattern of a point of any of these shapes, once it is needed."""

    def clear(self) -> None:
        """The next points may be of other namespaces."""
        self._shapes.clear()
        self._any = None

    def cover(self, piece: bytes) -> bool:
        """Whether a piece is nothing but points of known shapes: each of their elements is a number if it was in the point of
        which the shape was learnt."""
        text = piece.decode() if self._shapes else ""
        if not text or _has_other_reference(text):
            return False
        if self._any is None:
            self._any = re.compile("|".join([it.plain for it in self._shapes]))
        return self._known(sum(map(len, self._any.findall(text))) == len(text))

    def read(self, piece: bytes) -> tuple[list[Texts], bool]:
        """The points with which a piece begins, up to one whose shape is not known, and whether they are all of it."""
        points, are_all = _read(piece.decode(), self._shapes) if self._shapes else ([], False)
        return points, self._known(are_all)

    def _known(self, are_all: bool) -> bool:
        """Whether the points of a piece are all of known shapes: then one more form may be learnt."""
        self._left = min(self._left + are_all, FORMS)
        return are_all

    def learn(self, point: bytes, texts: Texts) -> None:
        """The next points may have the shape of this one, of which a parser has found the texts."""
        self._left = max(self._left - 1, 0)
        if not self._left:
            self.clear()
            return
        form = _DIFFERENT.sub(_mark, point.decode().rstrip(" \t\r\n"))
        shape = _shape(form) if len(form) <= LONGEST else None
        if shape is not None and _read(point.decode(), [shape]) == ([texts], True):
            self._shapes.insert(0, shape)
            del self._shapes[MOST:]
            self._any = None


def _has_other_reference(text: str) -> bool:
    """Whether a text has references to what is not known here."""
    return "&" in text and _OTHER_REFERENCE.search(text) is not None


def _read(text: str, shapes: Sequence[Shape]) -> tuple[list[Texts], bool]:
    """The points of these shapes with which a text begins, and whether they are all of it."""
    points: list[Texts] = []
    if _has_other_reference(text):
        return points, False
    has_references = "&" in text
    at = 0
    while at < len(text):
        for shape in shapes:
            found = shape.pattern.match(text, at)
            if found is not None:
                break
        else:
            return points, False
        lon, lat, *texts = found.group(*shape.order)
        if has_references:
            texts = [_resolved(it) if "&" in it else it for it in texts]
        points.append(Texts(lon, lat, shape.names, tuple(texts)))
        at = found.end()
    return points, True


def _mark(found: re.Match[str]) -> str:
    """What stands in a form for what differs."""
    if found[1]:
        return found[1] + DEGREES
    if not found[2].strip(" \t\r\n"):
        return ">" + BLANKS
    return ">" + (TEXT if number(found[2]) is None else NUMBER)


@lru_cache(maxsize=FORMS)
def _shape(form: str) -> Shape | None:
    """The shape of the points of a form. None where not each text is that of an element with a name of its own."""
    from xml.etree import ElementTree

    parts = _MARKS.split(form)
    numbers = count(1)
    texts = [" " if it == BLANKS else f"{OWN}{next(numbers)}" if it in _PATTERNS else it for it in parts]
    own = [it for it in texts if it.startswith(OWN)]
    prefixes = "".join([f" xmlns:{it}='urn:{it}'" for it in sorted({*_PREFIX.findall(form)} - {"xml", "xmlns"})])
    try:
        (point,) = ElementTree.fromstring(f"<gpx{prefixes}>{''.join(texts)}</gpx>")
    except (ElementTree.ParseError, ValueError):
        return None
    found = texts_of(point)
    told = [found.lon, found.lat, *found.texts]
    if OWN in form or {*told} != {*own} or len(told) != len(own):
        return None
    patterns = [_PATTERNS.get(it) or re.escape(it) for it in [*parts, BLANKS]]
    groups = [f"({pattern})" if text in own else pattern for text, pattern in zip([*texts, ""], patterns, strict=True)]
    order = tuple([own.index(it) + 1 for it in told])
    return Shape("".join(patterns), re.compile("".join(groups)), order, tuple(found.names))


@lru_cache(maxsize=RESOLVED)
def _resolved(text: str) -> str:
    """A text with what its references stand for."""
    from html import unescape

    return unescape(text)
